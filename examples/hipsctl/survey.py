"""What hipsd says of surveys (docs/FORMATS.md): descriptions, paths, and how much fits."""

import re
from dataclasses import dataclass

from hipsctl import files
from hipsctl.headers import BLOCK, MOST_BLOCKS
from hipsctl.messages import Refused, shown

ORDERS, WIDTHS, DEPTHS = range(3, 12), [2**power for power in range(1, 10)], (8, 16, 32, 64)
# The bytes that the numbers of all tiles may have, the least that a tile counts as, and the edits that a server takes.
MOST_BYTES, LEAST_CHARGE, MOST_EDITS = 2**29, 1024, 65_536
TILE = re.compile(r"Norder(0|[1-9][0-9]?)/Dir(?:[0-9]+)/Npix([0-9]{1,9})\.fits", re.ASCII)


def tile_path(order, cell):
    return f"Norder{order}/Dir{cell // 10000 * 10000}/Npix{cell}.fits"


def tile_of(path):
    """Order and cell of a tile's path; None for any other path."""
    found = TILE.fullmatch(path)
    order, cell = (int(found[1]), int(found[2])) if found else (12, 0)
    return (order, cell) if order <= 11 and cell < 12 * 4**order and tile_path(order, cell) == path else None


def keys_of(text):
    """The keys and values of a description in their order; of a key that is there twice the first value."""
    found = {}
    for line in text.split("\n"):
        key, equals, value = (part.strip(" \t") for part in line.removesuffix("\r").partition("="))
        if equals and key and not key.startswith("#"):
            found.setdefault(key, value)
    return found


def read_keys(folder, name):
    """The same of a file in a folder."""
    with folder.open(name) as file:
        data = files.unpacked(file, name, 2**20).getvalue()
    try:
        return keys_of(data.decode())
    except UnicodeDecodeError:
        raise Refused(f"{shown(name)} isn't written in UTF-8") from None


def leaf_of(text, order):
    """The leaf that a number or a tile's path names."""
    tile = tile_of(text)
    if not tile and not re.fullmatch("[0-9]{1,9}", text):
        raise Refused(f"'{shown(text)}' is no number of a leaf, and no path of a tile", 2)
    at, leaf = tile or (order, int(text))
    if at != order or leaf >= 12 * 4**order:
        raise Refused(f"{shown(text)} is no leaf: leaves are of order {order}, 0 to {12 * 4**order - 1:,}", 2)
    return leaf


@dataclass(frozen=True)
class Size:
    """How large the tiles of a survey are."""

    width: int
    bitpix: int

    @property
    def numbers(self):
        """The bytes of a tile's numbers."""
        return self.width**2 * self.bitpix // 8

    @property
    def room(self):
        """How many tiles fit, those of the start and those of all edits."""
        return MOST_BYTES // max(LEAST_CHARGE, self.numbers)

    @property
    def longest_body(self):
        """The bytes that the body of a request may have."""
        return 4 * (MOST_BLOCKS * BLOCK + -(-self.numbers // BLOCK) * BLOCK)

    def __str__(self):
        return f"{self.width} by {self.width} pixels of {self.bitpix} bits"
