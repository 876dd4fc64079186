#!/usr/bin/python3
"""Prints the tiles that the test `larger_tiles_have_pixels` of crates/pixel_tests has as a table.

With --check it compares them with the table that stands there, and ends with status 1 where a tile differs or is missing.
healpy, Debian's package python3-healpy, says where a tile stands in its cell of order 0; the rest is computed here on whole
grids of pixels, without the numbers of cells.
"""

import sys
from pathlib import Path

import healpy

TEST = Path(__file__).parent.parent / "crates/pixel_tests/src/pyramids.rt"
LEAVES = (0, 1, 3, 6)
# The order of the leaves, n of the 2^n columns of a tile, and the order and the number of the tile.
TILES = ((4, 2, 4, 6), (4, 2, 3, 0), (5, 2, 3, 0), (4, 3, 3, 0))


def number(leaf, place):
    """The stored number of a leaf at a place, None where it is blank."""
    rest = (13 * leaf + 5 * place) % 17
    return rest - 8 if rest else None


def corner(order, npix, side):
    """The cell of order 0 over a tile, and the column and the line of the tile's first pixel there."""
    line, column, base = (int(part) for part in healpy.pix2xyf(2**order, npix, nest=True))
    return base, column * side, line * side


def places(order, npix, n):
    """The pixels of a tile on the grid, as they are stored: the bottom line first."""
    side = 2**n
    base, column, line = corner(order, npix, side)
    for below in reversed(range(side)):
        for beside in range(side):
            yield base, column + beside, line + below


def mean(numbers):
    """The mean of the numbers that are there, to the nearest whole number, halves upwards."""
    return (2 * sum(numbers) + len(numbers)) // (2 * len(numbers))


def order_above(grid):
    """Each pixel of two columns and two lines of those below."""
    groups = {}
    for (base, column, line), value in grid.items():
        groups.setdefault((base, column // 2, line // 2), []).append(value)
    return {place: mean(values) for place, values in groups.items()}


def tile(top, n, order, npix):
    grid = {}
    for leaf in LEAVES:
        for place, at in enumerate(places(top, leaf, n)):
            value = number(leaf, place)
            if value is not None:
                grid[at] = value
    for _ in range(top - order):
        grid = order_above(grid)
    return [grid.get(at) for at in places(order, npix, n)]


def row(top, n, order, npix):
    numbers = ", ".join("B" if value is None else str(value) for value in tile(top, n, order, npix))
    return f"({top}, {n}, {order}, {npix}, &[{numbers}]),"


def plain(text):
    """The text without what the layout of a row may add."""
    return "".join(text.split()).replace(",]", "]").replace(",)", ")").rstrip(",")


def main():
    rows = [row(*tile) for tile in TILES]
    if sys.argv[1:] != ["--check"]:
        print("\n".join(rows))
        return 0
    text = plain(TEST.read_text())
    missing = [line for line in rows if plain(line) not in text]
    for line in missing:
        print(f"{TEST}: no row {line}", file=sys.stderr)
    print(f"pyramid-values: {len(rows) - len(missing)} of {len(rows)} rows stand in the test")
    return 1 if missing else 0


if __name__ == "__main__":
    sys.exit(main())
