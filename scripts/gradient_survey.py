"""Surveys with known numbers, of each depth: a gradient in right ascension and declination, cell by cell, where healpy says that the
cells stand. atlas-client.py has hipsd serve them, and compares what a browser shows with these numbers.
"""

from pathlib import Path

import healpy
import numpy

from survey_files import block, header, tile_path

TYPES = {8: ">u1", 16: ">i2", 32: ">i4", 64: ">i8"}


class Gradient:
    """A survey by its depth, the order of its leaves, the bits of a column, and how its numbers rise: from `low` at right ascension 0
    and the south pole by `rise` in all. Leaves lie within `radius` degrees of a place; pixels within half a degree of the declination
    `strip` are blank. `more` are lines of its description."""

    def __init__(self, depth, top, bits, low, rise, blank, place=(0, 0), radius=180, strip=None, scale="1.0E0", zero="0.0E0", more=""):
        self.depth, self.top, self.bits, self.low, self.rise, self.blank = depth, top, bits, low, rise, blank
        self.strip, self.scale, self.zero, self.more = strip, scale, zero, more
        self.edited = {}
        cells = numpy.arange(12 * 4**top)
        centres = numpy.array(healpy.pix2vec(2**top, cells, nest=True))
        self.leaves = cells[healpy.ang2vec(*place, lonlat=True) @ centres >= numpy.cos(numpy.radians(radius)) - 1e-12]

    @property
    def deep(self):
        """The order of the leaves' pixels."""
        return self.top + self.bits

    def value(self, number):
        return float(self.zero) + float(self.scale) * number

    def gradient(self, pixels):
        """The numbers of the gradient at pixels of the leaves, exact ones."""
        ra, dec = healpy.pix2ang(2**self.deep, pixels, nest=True, lonlat=True)
        parts = numpy.round((0.6 * ra / 360 + 0.4 * (dec + 90) / 180) * 2**20).astype(numpy.int64)
        return self.low + (self.rise >> 20) * parts if self.depth == 64 else self.low + self.rise * parts // 2**20

    def stored(self, pixels):
        """The numbers of pixels of the leaves, with edits and what is blank."""
        numbers = self.gradient(pixels)
        _, dec = healpy.pix2ang(2**self.deep, pixels, nest=True, lonlat=True)
        leaves = pixels // 4**self.bits
        for leaf, number in self.edited.items():
            numbers[leaves == leaf] = number
        if self.strip is not None:
            numbers[abs(dec - self.strip) < 0.5] = self.blank
        return numbers

    def numbers(self, order, pixels):
        """The numbers of pixels of any order as real numbers, NaN where they are blank: means of four, halves rounded up."""
        if order < self.deep:
            four = self.numbers(order + 1, (4 * pixels[:, None] + numpy.arange(4)).ravel()).reshape(-1, 4)
            count = (~numpy.isnan(four)).sum(axis=1)
            sums = numpy.nansum(four, axis=1)
            return numpy.where(count > 0, numpy.floor(sums / numpy.maximum(count, 1) + 0.5), numpy.nan)
        stored = self.stored(pixels)
        present = numpy.isin(pixels // 4**self.bits, self.leaves) & (stored != self.blank)
        return numpy.where(present, stored.astype(float), numpy.nan)

    def file(self, leaf, numbers=None):
        """The file of a leaf, of its gradient or of one number."""
        width = 2**self.bits
        if numbers is None:
            line, column = numpy.mgrid[0:width, 0:width]
            below = sum(((line[::-1] >> bit & 1) << 2 * bit) | ((column >> bit & 1) << 2 * bit + 1) for bit in range(self.bits))
            numbers = self.stored((leaf * 4**self.bits + below).ravel())
        else:
            numbers = numpy.full(width * width, numbers)
        cards = [("SIMPLE", "T"), ("BITPIX", self.depth), ("NAXIS", 2), ("NAXIS1", width), ("NAXIS2", width)]
        cards += [("BSCALE", self.scale), ("BZERO", self.zero), ("BLANK", self.blank), ("ORDER", self.top), ("NPIX", leaf)]
        return header(*cards) + block(numbers.astype(TYPES[self.depth]).tobytes())

    def write(self, folder):
        """Writes the survey folder."""
        folder = Path(folder)
        folder.mkdir()
        (folder / "survey.conf").write_text(
            f"creator_did = ivo://example/P/gradient\nobs_title = A gradient of {self.depth} bits\n"
            "hips_release_date = 2024-05-01T00:00Z\nhips_status = public master clonable\n"
            f"hips_order = {self.top}\nhips_tile_width = {2**self.bits}\nsurvey_bitpix = {self.depth}\n"
            f"survey_bscale = {self.scale}\nsurvey_bzero = {self.zero}\nsurvey_blank = {self.blank}\n{self.more}"
        )
        for leaf in self.leaves:
            path = folder / tile_path(self.top, int(leaf))
            path.parent.mkdir(parents=True, exist_ok=True)
            path.write_bytes(self.file(int(leaf)))


SURVEYS = {
    8: Gradient(8, top=3, bits=5, low=1, rise=250, blank=0),
    16: Gradient(16, top=4, bits=5, low=-16000, rise=32000, blank=-32768, place=(80, 20), radius=60),
    32: Gradient(32, top=6, bits=6, low=-(10**9), rise=2 * 10**9, blank=-(2**31), place=(83.6, 22), radius=6, strip=20.0,
                 scale="5.0E-1", zero="1.0E3"),
    64: Gradient(64, top=5, bits=4, low=-(4 * 10**18), rise=8 * 10**18, blank=-(2**63), place=(0, 90), radius=20),
}

# One whose description says where a page begins, and that there are coarser tiles.
PAGE = Gradient(16, top=4, bits=6, low=-16000, rise=32000, blank=-32768, place=(80, 20), radius=30,
                more="hips_order_min = 0\nhips_initial_ra = 82.5\nhips_initial_dec = 19.5\nhips_initial_fov = 20\nhips_pixel_cut = -9000 9000\n")

# One of leaves as HipsGen makes them.
WIDE = Gradient(16, top=3, bits=9, low=-16000, rise=32000, blank=-32768, place=(80, 20), radius=8, more="hips_order_min = 0\n")
