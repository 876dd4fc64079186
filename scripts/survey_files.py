"""The files of a survey of whole numbers with signs, made of its leaves from docs/DEFINITIONS.md and docs/FORMATS.md, cell by cell, with
nothing of the program. made-summary.py and the checks compare the program with it.
"""

import struct
from collections import namedtuple
from functools import cache
from pathlib import Path

BLANK = -32768
# The letter of struct for a stored number, by its bits.
LETTERS = {16: "h", 32: "i", 64: "q"}
CELLS_AT_3 = 768
PROPERTIES = """creator_did = ivo://example/P/{name}
obs_title = {title}
dataproduct_type = image
hips_version = 1.4
hips_release_date = 2024-05-01T00:00Z
hips_status = public master clonable
hips_frame = equatorial
hips_order = {top}
hips_order_min = {low}
hips_tile_width = {width}
hips_tile_format = fits
survey_bitpix = {bitpix}
survey_bscale = 1.0E0
survey_bzero = 0.0E0
survey_blank = -32768
survey_leaves = {leaves}
"""
DESCRIPTION = """creator_did = ivo://example/P/{name}
obs_title = {title}
hips_release_date = 2024-05-01T00:00Z
hips_status = public master clonable
hips_order = {top}
hips_order_min = {low}
hips_tile_width = {width}
survey_bitpix = {bitpix}
survey_blank = -32768
"""


def place(column, line):
    """The number of a pixel of a tile among its pixels, by its column and its line from the top."""
    return sum((line >> bit & 1) << 2 * bit | (column >> bit & 1) << 2 * bit + 1 for bit in range(9))


@cache
def places(width):
    """The place of each stored number of a tile: the bottom line is stored first."""
    return [place(s % width, width - 1 - s // width) for s in range(width * width)]


def header(*cards):
    """Cards as they are written: numbers and logicals end in column 30, texts begin in column 11."""
    text = ""
    for keyword, value in cards:
        shown = f"'{value[1:]:8}'" if str(value).startswith("'") else f"{value:>20}"
        text += f"{keyword:8}= {shown}".ljust(80)
    text += "END".ljust(80)
    return (text + " " * (-len(text) % 2880)).encode()


def block(data):
    return data + bytes(-len(data) % 2880)


def image(width, height, numbers, *more, bitpix=16):
    cards = [("SIMPLE", "T"), ("BITPIX", bitpix), ("NAXIS", 2), ("NAXIS1", width), ("NAXIS2", height)]
    cards += [("BSCALE", "1.0E0"), ("BZERO", "0.0E0"), ("BLANK", BLANK), *more]
    return header(*cards) + block(struct.pack(f">{len(numbers)}{LETTERS[bitpix]}", *numbers))


def tile_path(order, npix):
    return f"Norder{order}/Dir{npix // 10000 * 10000}/Npix{npix}.fits"


def write_files(folder, files):
    """Makes the folder with these files, by their paths."""
    Path(folder).mkdir(parents=True, exist_ok=True)
    for path, data in files.items():
        Path(folder, path).parent.mkdir(parents=True, exist_ok=True)
        Path(folder, path).write_bytes(data)
    return folder


class Survey(namedtuple("Survey", "name title top low width bitpix", defaults=[16])):
    """A survey by its description: the orders of its leaves and of its coarsest tiles, the width of its tiles, the bits of a number."""

    def description(self):
        return DESCRIPTION.format(**self._asdict()).encode()

    def leaf(self, npix, numbers):
        """The file of a leaf, as the survey has it."""
        return self.tile_file(numbers, self.top, npix)

    def tile_file(self, numbers, order, npix):
        return image(self.width, self.width, numbers, ("ORDER", order), ("NPIX", npix), bitpix=self.bitpix)

    def write(self, folder, leaves=()):
        """Makes the folder, with the description and with these leaves, by their numbers."""
        files = {tile_path(self.top, npix): self.leaf(npix, numbers) for npix, numbers in dict(leaves).items()}
        return write_files(folder, {"survey.conf": self.description()} | files)

    def properties(self, leaves):
        return PROPERTIES.format(**self._asdict(), leaves=len(leaves)).encode()

    def coverage(self, leaves):
        """The cells all of whose leaves are there, where that fails for their parent."""
        rows, cells = [], set(leaves)
        for order in range(self.top, -1, -1):
            whole = {p for p in {q // 4 for q in cells} if all(4 * p + i in cells for i in range(4))} if order else set()
            rows += [4 * 4**order + q for q in cells if q // 4 not in whole]
            cells = whole
        rows.sort()
        first = header(("SIMPLE", "T"), ("BITPIX", 8), ("NAXIS", 0), ("EXTEND", "T"))
        table = header(
            ("XTENSION", "'BINTABLE"), ("BITPIX", 8), ("NAXIS", 2), ("NAXIS1", 8), ("NAXIS2", len(rows)), ("PCOUNT", 0),
            ("GCOUNT", 1), ("TFIELDS", 1), ("TTYPE1", "'UNIQ"), ("TFORM1", "'1K"), ("PIXTYPE", "'HEALPIX"),
            ("ORDERING", "'NUNIQ"), ("COORDSYS", "'C"), ("MOCORDER", self.top),
        )
        return first + table + block(struct.pack(f">{len(rows)}Q", *rows))

    def values(self, leaves, order):
        """The value of each cell of that order that isn't blank: a parent is the mean of its children that aren't, halves
        rounded up."""
        deep = self.top + self.width.bit_length() - 1
        pixels = self.width * self.width
        level = {leaf * pixels + z: n for leaf, numbers in leaves.items() for z, n in zip(places(self.width), numbers)}
        level = {cell: number for cell, number in level.items() if number != BLANK}
        for _ in range(deep - order):
            children = {}
            for cell, number in level.items():
                children.setdefault(cell // 4, []).append(number)
            level = {cell: (2 * sum(some) + len(some)) // (2 * len(some)) for cell, some in children.items()}
        return level

    def mosaic(self, leaves):
        """All tiles of order 3, 27 in a row, each at most 64 pixels wide."""
        side = min(self.width, 64)
        level = self.values(leaves, 3 + side.bit_length() - 1)
        numbers = []
        for line in range(29 * side - 1, -1, -1):
            for column in range(27 * side):
                i = line // side * 27 + column // side
                cell = i * side * side + place(column % side, line % side)
                numbers.append(level.get(cell, BLANK) if i < CELLS_AT_3 else BLANK)
        return image(27 * side, 29 * side, numbers, bitpix=self.bitpix)

    def tile_of(self, level, order, npix):
        """The tile of a cell, of the values of the cells that are its pixels."""
        first = npix * self.width * self.width
        numbers = [level.get(first + z, BLANK) for z in places(self.width)]
        return self.tile_file(numbers, order, npix)

    def tile(self, leaves, order, npix):
        """The tile of a cell, where a leaf lies at or under it."""
        under = {leaf: n for leaf, n in leaves.items() if leaf // 4 ** (self.top - order) == npix}
        if not under:
            return None
        return self.tile_of(self.values(under, order + self.width.bit_length() - 1), order, npix)

    def cells(self, leaves, order):
        """The numbers of the tiles of an order."""
        return sorted({leaf // 4 ** (self.top - order) for leaf in leaves})

    def paths(self, leaves):
        """The paths of all files."""
        yield "properties"
        yield "Moc.fits"
        if leaves:
            yield "Norder3/Allsky.fits"
        for order in range(self.low, self.top + 1):
            for npix in self.cells(leaves, order):
                yield tile_path(order, npix)

    def file(self, leaves, path):
        """The bytes of the file at a path; None where the survey has none there."""
        if path == "properties":
            return self.properties(leaves)
        if path == "Moc.fits":
            return self.coverage(leaves)
        if path == "Norder3/Allsky.fits":
            return self.mosaic(leaves) if leaves else None
        for order in range(self.low, self.top + 1):
            for npix in self.cells(leaves, order):
                if tile_path(order, npix) == path:
                    return self.tile(leaves, order, npix)
        return None

    def files(self, leaves):
        """The bytes of each file."""
        yield self.properties(leaves)
        yield self.coverage(leaves)
        if leaves:
            yield self.mosaic(leaves)
        for order in range(self.low, self.top + 1):
            level = self.values(leaves, order + self.width.bit_length() - 1)
            for npix in self.cells(leaves, order):
                yield self.tile_of(level, order, npix)
