"""Headers of FITS files, card by card."""

import re
from decimal import Decimal

from hipsctl.messages import Refused, shown

CARD, BLOCK, MOST_BLOCKS = 80, 2880, 37
REAL = re.compile(r"[+-]?([0-9]+\.?[0-9]*|\.[0-9]+)([EDed][+-]?0*[0-9]{1,3})?")


def cards_of(data):
    """The cards before END, and at which byte the numbers begin."""
    if data[:10] != b"SIMPLE  = ":
        raise Refused("it is no FITS file: it doesn't begin with 'SIMPLE  = '")
    for at in range(0, min(len(data), MOST_BLOCKS * BLOCK), CARD):
        if data[at : at + 8] == b"END     ":
            text = data[:at].decode("latin-1")
            if not (text.isascii() and text.isprintable()):
                raise Refused("its header has bytes that aren't printable ASCII")
            return [text[card : card + CARD] for card in range(0, at, CARD)], (at // BLOCK + 1) * BLOCK
    raise Refused("it ends within its header, or the header has no END card")


def value_of(cards, keyword):
    """The value of a card, without its comment; None where there is no such card."""
    return next((card[10:].partition("/")[0].strip() for card in cards if card[:10] == f"{keyword:8}= "), None)


def whole(text, what):
    """A whole number that may be written as a real one, as Java does: -32768.0, -2.147483648E9."""
    if text is None:
        raise Refused(f"there is no {what}")
    if re.fullmatch(r"[+-]?[0-9]{1,19}", text):
        return int(text)
    try:
        number = float(text)
    except ValueError:
        number = 0.5
    if not number.is_integer():
        raise Refused(f"{what} is {shown(text)}, which is no whole number")
    return int(number)


def real(text, what):
    """The number that a card's text is, exactly."""
    if not REAL.fullmatch(text):
        raise Refused(f"{what} is {shown(text)}, which is no number")
    return Decimal(re.sub("[dD]", "E", text))


def with_card(cards, keyword, value):
    """The header of a file with this card in the place of the one that is there, or behind the axes; its other cards as they are."""
    rest = [card for card in cards if card[:10] != f"{keyword:8}= "]
    at = 1 + max((number for number, card in enumerate(rest) if re.match("NAXIS[12]?  *= ", card)), default=0)
    text = "".join([*rest[:at], f"{keyword:8}= {value:>20}".ljust(CARD), *rest[at:], "END".ljust(CARD)])
    return text.ljust(-(-len(text) // BLOCK) * BLOCK).encode("ascii")
