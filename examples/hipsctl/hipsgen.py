"""Makes a survey folder of a HiPS that HipsGen (Aladin) wrote.

FOLDER gets `survey.conf`, of HIPS/properties and the first leaf tile, and the leaf tiles, those of order hips_order. hipsd makes the
coarser tiles, the mosaic and the coverage itself, each pixel as the mean of four. HipsGen's are means too, rounded towards zero where
hipsd rounds half up, so a pixel may differ by 1 for each order above the leaves. For the lower median add the lines
`survey_version = 2` and `survey_rule = median` to survey.conf.

HipsGen writes 'BLANK = -32768.0', a real number, which FITS 4.0 (section 4.4.2.5) doesn't allow: it becomes a whole number, and a tile
without BLANK gets that of the first. Nothing else of a tile is changed; one that is packed by gzip is unpacked.

Nothing is written before every tile was read and there is room for all.
"""

import contextlib
import os
import re
import secrets
from dataclasses import dataclass, replace
from pathlib import Path

from hipsctl import files, survey
from hipsctl.headers import BLOCK, MOST_BLOCKS, cards_of, real, value_of, whole, with_card
from hipsctl.messages import Refused, listed, quoted, say, shown
from hipsctl.survey import DEPTHS, LEAST_CHARGE, ORDERS, WIDTHS, Size

# The longest file that hipsd takes as a tile.
MOST_OF_A_TILE = MOST_BLOCKS * BLOCK + -(-512 * 512 * 8 // BLOCK) * BLOCK
REQUIRED = ("creator_did", "obs_title", "hips_release_date", "hips_status")
# What HiPS 1.0 fixes and hipsd reads.
OWN = {*REQUIRED, "hips_order", "hips_order_min", "hips_tile_width", "hips_tile_format", "hips_frame", "hips_version", "dataproduct_type"}
# What is said of the files that HipsGen wrote or of where they stand, and not of those that hipsd makes.
DROPPED = {
    "hips_builder", "hips_check_code", "hips_estsize", "hips_hierarchy", "hips_master_url", "hips_nb_tiles", "hips_pixel_bitpix",
    "moc_access_url", "moc_order", "moc_sky_fraction", "moc_time_range", "moc_type",
}
DROPPED_BEGINNINGS = ("hipsgen_", "hips_service_url", "hips_cat_", "hips_cube_", "hips_rgb_", "survey_")
KEY = re.compile(r"[a-z][a-z0-9_]{0,63}")


def again(*words):
    """What helps where HipsGen has to make the tiles otherwise."""
    return "make it again from your images: java -jar AladinBeta.jar -hipsgen in=IMAGES out=HIPS " + " ".join([*words, "INDEX TILES"])


def add_words(parser):
    parser.add_argument("hips", metavar="HIPS", help="the folder that HipsGen wrote")
    parser.add_argument("folder", metavar="FOLDER", type=Path, help="the folder of the survey")
    parser.add_argument("--replace", action="store_true", help="the tiles that FOLDER has go")


def run(told):
    if re.match("[a-z]+://", told.hips):
        raise Refused(f"{shown(told.hips)} is an address: copy the HiPS first: java -jar AladinBeta.jar -hipsgen in={shown(told.hips)} out=HIPS MIRROR")
    if not os.path.isdir(told.hips):
        raise Refused(f"there is no folder {shown(told.hips)}")
    with files.Folder(told.hips) as hips:
        found = properties(hips)
        order = order_of(found)
        paths = leaves_of(hips, order, found)
        old = old_tiles(told.folder, hips, told.replace)
        first = tile_at(hips, paths[0])
        if first.blank is None:
            first = replace(first, blank=255 if first.size.bitpix == 8 else -(2 ** (first.size.bitpix - 1)))
        lines = "".join(f"{key} = {value}\n" for key, value in description(found, order, first))
        judge(hips, paths, first)
        look_for_room(told.folder, len(paths), first)
        write(told.folder, hips, paths, old, first, lines.encode())
    print(f"{len(paths):,} leaf tiles of order {order}, {first.size}: room is left for {min(first.size.room - len(paths), survey.MOST_EDITS):,} edits")
    dropped = [shown(key) for key in found if is_dropped(key) or key not in OWN and not KEY.fullmatch(key)]
    if dropped:
        say("keys left out, since hipsd makes other files: " + ", ".join(dropped))
    print(f"next: (cd {quoted(os.path.abspath(told.folder))} && hipsd serve 127.0.0.1:8080 65536 64) &")


# ---- what HipsGen said


def properties(hips):
    """What HIPS/properties says, if it is of images that hipsd can serve."""
    try:
        found = survey.read_keys(hips, "properties")
    except FileNotFoundError:
        raise Refused("there is no file properties: this is no HiPS") from None
    kind = found.get("dataproduct_type", "image")
    if kind != "image" or any(key.startswith("hips_cube_") for key in found):
        what = "a catalogue" if kind == "catalog" else "a cube" if kind in ("image", "cube", "spectral-cube") else f"of {shown(kind)}"
        raise Refused(f"the HiPS is {what}, and hipsd serves images" + (": hipsctl catalog makes one of a table" if kind == "catalog" else ""))
    frame = found.get("hips_frame", "equatorial")
    if frame not in ("equatorial", "ICRS"):
        raise Refused(f"hips_frame is {shown(frame)}, and hipsd's is equatorial: {again('hips_frame=equatorial')}")
    width = found.get("hips_tile_width", "512")
    if width not in map(str, WIDTHS):
        raise Refused(f"hips_tile_width is {shown(width)}, and hipsd's is at most 512: {again('hips_tile_width=512')}")
    return found


def order_of(found):
    """The order of the leaves."""
    text = found.get("hips_order", "")
    if not re.fullmatch("[0-9]{1,2}", text):
        raise Refused(f"properties has hips_order = {shown(text)}" if text else "properties has no hips_order")
    if int(text) not in ORDERS:
        raise Refused(f"hips_order is {text}, and hipsd's leaves are of orders 3 to 11: {again('hips_order=11' if int(text) > 11 else 'hips_order=3')}")
    return int(text)


def is_dropped(key):
    """Whether it isn't true of what hipsd serves."""
    return key in DROPPED or key.startswith(DROPPED_BEGINNINGS)


def description(found, order, first):
    """The keys and values of survey.conf."""
    for key in REQUIRED:
        yield key, value(key, found.get(key) or "unknown")
    yield "hips_order", order
    lowest = whole(found.get("hips_order_min", "3"), "hips_order_min")
    if lowest < 0:
        raise Refused(f"hips_order_min is {lowest}")
    yield "hips_order_min", min(lowest, 3)
    yield "hips_tile_width", first.size.width
    yield "survey_bitpix", first.size.bitpix
    for key, text in (("survey_bscale", first.scale), ("survey_bzero", first.zero)):
        if text is not None:
            yield key, text
    yield "survey_blank", first.blank
    for key, text in found.items():
        if key not in OWN and not is_dropped(key) and KEY.fullmatch(key) and text:
            yield key, value(key, text.encode()[:1024].decode(errors="ignore"))


def value(key, text):
    """A value, if it is one line."""
    if any(ord(sign) < 32 or ord(sign) == 127 for sign in text):
        raise Refused(f"properties: the value of {key} has a control character: {shown(text)}")
    return text


# ---- its tiles


@dataclass(frozen=True)
class Tile:
    """What a survey's tiles have in common, as one of them says it; its cards and numbers."""

    size: Size
    scale: str | None
    zero: str | None
    blank: int | None
    cards: list
    numbers: bytes

    def differs(self, first):
        """In what it differs from the first one; None if in nothing."""
        for name, own, other in (("BSCALE", self.scale or "1", first.scale or "1"), ("BZERO", self.zero or "0", first.zero or "0")):
            if real(own, name) != real(other, name):
                return f"{name} is {own}, and {other} in the first tile"
        if self.size != first.size:
            return f"it has {self.size}, and the first tile {first.size}"
        if self.blank not in (None, first.blank):
            return f"BLANK is {self.blank}, and {first.blank} in the first tile"


def tile_of(data):
    """Judges the file of a tile."""
    cards, begin = cards_of(data)
    bitpix, axes = whole(value_of(cards, "BITPIX"), "BITPIX"), whole(value_of(cards, "NAXIS"), "NAXIS")
    if bitpix in (-32, -64):
        raise Refused(f"the pixels are real numbers (BITPIX {bitpix}), and hipsd's are whole ones: {again('hips_pixel_bitpix=16')} (or 32)")
    if bitpix not in DEPTHS:
        raise Refused(f"BITPIX is {bitpix}")
    if axes != 2:
        raise Refused(f"it has {axes} axes: hipsd takes no cubes")
    wide, high = (whole(value_of(cards, f"NAXIS{axis}"), f"NAXIS{axis}") for axis in (1, 2))
    if wide != high or wide not in WIDTHS:
        raise Refused(f"it has {wide} by {high} pixels, and hipsd's tiles have at most 512 by 512: {again('hips_tile_width=512')}")
    size = Size(wide, bitpix)
    missing, extra = size.numbers - (len(data) - begin), len(data) - begin + -size.numbers // BLOCK * BLOCK
    if missing > 0:
        raise Refused(f"{missing:,} bytes of its pixels are missing")
    if extra > 0:
        raise Refused(f"{extra:,} bytes follow its pixels")
    scale, zero = (value_of(cards, name) for name in ("BSCALE", "BZERO"))
    if not real(scale or "1", "BSCALE") + 0 * real(zero or "0", "BZERO"):
        raise Refused("BSCALE is 0")
    blank = value_of(cards, "BLANK")
    return Tile(size, scale, zero, None if blank is None else whole(blank, "BLANK"), cards, data[begin:])


def tile_at(hips, path):
    """The tile in a file, which the message names where it is refused."""
    try:
        with hips.open(path) as file:
            return tile_of(files.unpacked(file, "it", MOST_OF_A_TILE).getvalue())
    except Refused as fault:
        raise Refused(f"{shown(path)}: {fault}") from None


def leaves_of(hips, order, found):
    """The paths of the leaf tiles."""
    try:
        with hips.folder(f"Norder{order}") as folder:
            there = sorted(f"Norder{order}/{path}" for path, _ in folder.entries())
    except FileNotFoundError:
        there = []
    leaves = [path for path in there if survey.tile_of(path)]
    odd = [shown(path) for path in there if re.search(r"/Npix[^/]*\.fits", path) and not survey.tile_of(path)]
    if odd:
        raise Refused(f"{len(odd):,} files of order {order} look like tiles and are none (Npix7_w.fits is a weight, Npix7_1.fits of a cube): "
                      f"move them elsewhere first\n    {listed(odd)}")
    if not leaves:
        kinds = sorted({path.rpartition(".")[2] for path in there} & {"png", "jpg"})
        if kinds:
            raise Refused(f"its tiles are {' and '.join(kinds)}, and hipsd serves FITS: {again('hips_pixel_bitpix=16')}")
        raise Refused(f"there is no leaf tile in Norder{order}, and hips_order is {found['hips_order']}")
    return leaves


def judge(hips, paths, first):
    """Refuses all tiles that hipsd would refuse, at once."""
    if len(paths) > first.size.room:
        raise Refused(f"{len(paths):,} tiles of {first.size} are more than the {first.size.room:,} that a server has room for: "
                      "HipsGen makes fewer by hips_order=3, and smaller ones by hips_tile_width=128")
    faults = []
    for path in paths:
        try:
            fault = tile_at(hips, path).differs(first)
            if fault:
                faults.append(f"{shown(path)}: {fault}")
        except (Refused, OSError) as refused:
            faults.append(str(refused))
    if faults:
        raise Refused(f"{len(faults):,} of {len(paths):,} tiles can't be served, and nothing is written:\n    {listed(faults)}")


# ---- the folder


def old_tiles(place, hips, may_replace):
    """The tiles that the folder has."""
    if not os.path.lexists(place):
        return []
    with files.Folder(place) as folder:
        if os.path.samestat(folder.status, hips.status):
            raise Refused("HIPS and FOLDER are the same folder")
        old = [path for path, _ in folder.files() if re.fullmatch(r"Norder[^/]*/Dir[^/]*/Npix[^/]*\.fits", path)]
    if old and not may_replace:
        raise Refused(f"{shown(place)} has {len(old):,} tiles already, as {shown(old[0])}: with --replace they go")
    return old


def look_for_room(place, count, first):
    """Refuses what doesn't fit the disk."""
    above = next(above for above in (place.absolute(), *place.absolute().parents) if above.exists())
    disk = os.statvfs(above)
    one, free = max(LEAST_CHARGE, first.size.numbers + 2 * BLOCK + disk.f_frsize), disk.f_bavail * disk.f_frsize
    if count * one > free:
        raise Refused(f"the tiles have {count * one:,} bytes, and at {shown(above)} {free:,} are free")


def write(place, hips, paths, old, first, lines):
    """All new tiles are made beside the old ones before any of these goes."""
    is_new = not os.path.lexists(place)
    os.makedirs(place, 0o755, exist_ok=True)
    beside = f".unfinished.{secrets.token_hex(8)}"
    try:
        with files.Folder(place) as folder:
            try:
                with folder.folder(beside, make=True) as made:
                    for path in paths:
                        tile = tile_at(hips, path)
                        made.write(path, with_card(tile.cards, "BLANK", first.blank) + tile.numbers)
                    for path in paths:
                        folder.within(path, make=True)[0].close()
                    for path in paths:
                        made.move(path, folder)
                for path in set(old).difference(paths):
                    above, name = folder.within(path)
                    with above:
                        above.remove(name)
                folder.write("survey.conf", lines)
            finally:
                folder.remove(beside)
    except BaseException:
        if is_new:
            with contextlib.suppress(OSError):
                os.rmdir(place)
        raise
