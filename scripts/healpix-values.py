#!/usr/bin/python3
"""Prints the values of healpy that the test `cells_stand_where_healpy_has_them` of crates/pixel_tests has as a table.

With --check it compares them with the table that stands there, and ends with status 1 where a row differs or is missing.
healpy is Debian's package python3-healpy.

A row says where healpy has a cell of the nested scheme: the order and the number of the cell; the number of the cell of
order 0 that it lies under; its column and line there, which are healpy's y and x (`pix2xyf`); an order above; and the number
of the cell of that order that has the middle of the cell (`pix2vec`, `vec2pix`).
"""

import sys
from pathlib import Path

import healpy

TEST = Path(__file__).parent.parent / "crates/pixel_tests/src/cells.rt"

# Two cells of each of these orders: one that a fixed rule picks, and the last.
ORDERS = (1, 2, 3, 5, 7, 8, 9)
DEEP = (12, 16, 20)


def cells():
    state = 7
    for order in ORDERS + DEEP:
        count = healpy.nside2npix(2**order)
        state = (state * 6364136223846793005 + 1442695040888963407) % 2**64
        yield order, state % count
        yield order, count - 1


def above(order, npix, higher):
    middle = healpy.pix2vec(2**order, npix, nest=True)
    return int(healpy.vec2pix(2**higher, *middle, nest=True))


def row(order, npix):
    x, y, base = (int(part) for part in healpy.pix2xyf(2**order, npix, nest=True))
    higher = order // 2
    return f"({order}, {npix}, {base}, {y}, {x}, {higher}, {above(order, npix, higher)}),"


def plain(text):
    """The text without what the layout of a row may add."""
    return "".join(text.replace("_", "").split()).replace(",)", ")").rstrip(",")


def main():
    rows = [row(*cell) for cell in cells()]
    if sys.argv[1:] != ["--check"]:
        print("\n".join(rows))
        return 0
    text = plain(TEST.read_text())
    missing = [line for line in rows if plain(line) not in text]
    for line in missing:
        print(f"{TEST}: no row {line}", file=sys.stderr)
    print(f"healpix-values: {len(rows) - len(missing)} of {len(rows)} rows stand in the test")
    return 1 if missing else 0


if __name__ == "__main__":
    sys.exit(main())
