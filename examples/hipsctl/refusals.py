"""What a server's refusal means, and what helps (docs/FORMATS.md, 'What a request is answered', 'Tile files', 'Batch bodies')."""

from hipsctl.headers import CARD
from hipsctl.messages import shown

FULL = "renew the server: the next one begins with the present tiles alone"


def fault_of(words, data=b""):
    """Why the file of a tile is refused."""
    def card(number):
        text = shown(data[CARD * (int(number) - 1) : CARD * int(number)].decode("latin-1").rstrip())
        helps = ", and must be a whole number: hipsctl import mends what HipsGen wrote" if text.startswith("BLANK") else ""
        return (f": {text}" if text else "") + helps

    match words:
        case ["1", "header", "1"]:
            return "it ends within its header"
        case ["1", "header", "2", byte]:
            return f"byte {byte} of its header, from 0, is no printable ASCII"
        case ["1", "header", "3"]:
            return "its header has no END card"
        case ["1", "header", "4", number]:
            return f"card {number} has no value of its kind{card(number)}"
        case ["1", "header", "5", number]:
            return f"card {number} has the keyword of an earlier card{card(number)}"
        case ["2", "simple"]:
            return "its first card isn't SIMPLE = T"
        case ["3", "bitpix", found] if found.startswith("-"):
            return f"its pixels are real numbers (BITPIX {found}): HipsGen makes whole ones by hips_pixel_bitpix=16 or 32"
        case ["3", "bitpix", found]:
            return f"BITPIX is {found}, which isn't the survey's"
        case ["4", "naxis", found]:
            return f"NAXIS is {found} in place of 2"
        case ["5", "width", axis, found]:
            return f"NAXIS{axis} is {found}, which isn't the survey's hips_tile_width"
        case ["6", "scale"]:
            return "BSCALE isn't the survey's"
        case ["7", "zero"]:
            return "BZERO isn't the survey's"
        case ["8", "blank", found]:
            return f"BLANK is {found}, which isn't the survey's"
        case ["9", "truncated", count]:
            return f"{count} bytes of its pixels are missing"
        case ["10", "trailing", count]:
            return f"{count} bytes follow its pixels: further parts of a FITS file aren't taken"
    return " ".join(words)


def explained(reply, edits):
    """A refusal in words; edits are those that were sent, each with its name and the bytes of its tile."""
    words = reply.text.split()
    if words[:1] == ["batch"]:
        words = words[2:] if words[1:2] == ["refused"] else words[1:]
        number = int(words[0]) if words and words[0].isdecimal() else 0
        words = words[1:]
    else:
        number, words = 0, words[2:] if words[:2] == ["tile", "refused"] else words
    name, data = edits[number] if number < len(edits) else (f"entry {number} of the batch, from 0", b"")
    match reply.code, words:
        case 401, _:
            return "a name and a password are needed in ~/.netrc, or those there are wrong"
        case 403, _:
            return f"{reply.code} {reply.text}"
        case _, ["limit", "3"]:
            return f"the server has accepted 65,536 edits, and takes no more: {FULL}"
        case _, ["limit", "4"]:
            return f"the tiles at the start and all accepted since fill the memory that a server has for them: {FULL}"
        case (404, ["absent"]) | (412, _):
            return f"{name}: the leaf has {'a tile already' if name.startswith('add ') else 'no tile'}" if name.split(" ")[0] in ("add", "replace", "remove") else (
                f"{name} adds a leaf that has a tile, or replaces or removes one that has none")
        case 413, _:
            return "it is too large: a batch has at most 1,024 entries, and four times the bytes of the largest tile"
        case 422, ["many"]:
            return "a batch has at most 1,024 entries"
        case 422, ["line"]:
            return f"{name} is no line 'put LEAF LENGTH', 'add LEAF LENGTH', 'replace LEAF LENGTH' or 'remove LEAF'"
        case 422, ["short"]:
            return f"{name} has fewer bytes than its LENGTH"
        case 422, _:
            return f"{name} is no tile of this survey: {fault_of(words, data)}"
    return f"{reply.code} {reply.text}"
