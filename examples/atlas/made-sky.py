#!/usr/bin/python3
"""Makes a survey folder to look at, where there is none yet: made-sky.py FOLDER. The band of a galaxy with clouds before it, and stars,
as an observatory in the north would see them: leaf tiles of order 4, 64 pixels wide, of 16 bits. It needs Debian's python3-healpy.

    examples/atlas/made-sky.py /tmp/sky && hipsctl page /tmp/sky
"""

import sys
from pathlib import Path

import healpy
import numpy

ORDER, BITS, BLANK = 4, 6, -32768
DEEP = ORDER + BITS
LOWEST = -32  # degrees of declination
STARS = 4000
CONF = f"""creator_did = ivo://example/P/sky
obs_title = A made sky
hips_release_date = 2024-05-01T00:00Z
hips_status = public master clonable
hips_order = {ORDER}
hips_order_min = 0
hips_tile_width = {2**BITS}
survey_bitpix = 16
survey_blank = {BLANK}
"""


def sky():
    """The numbers of all pixels, in nested order."""
    chance = numpy.random.default_rng(7)
    numpy.random.seed(7)
    nside = 2**DEEP
    galaxy = healpy.Rotator(coord=["C", "G"])(*healpy.pix2ang(nside, numpy.arange(12 * nside**2), nest=True))
    height, along = numpy.pi / 2 - galaxy[0], galaxy[1]
    harmonics = numpy.arange(1, 600, dtype=float)
    clouds = healpy.synfast(numpy.append(0, harmonics**-2.6), 512, lmax=599)
    clouds = healpy.get_interp_val(clouds / clouds.std(), *healpy.pix2ang(nside, numpy.arange(12 * nside**2), nest=True))
    glow = (0.55 + 0.45 * numpy.cos(along)) * numpy.exp(-((height / 0.16) ** 2)) + 0.5 * numpy.exp(-(along**2 + 2 * height**2) / 0.08)
    dust = numpy.exp(-((height / 0.05) ** 2)) * numpy.clip(0.6 + 0.6 * clouds, 0, 1.4)
    light = 9000 * glow * numpy.exp(-0.9 * dust) * (1 + 0.12 * clouds) + 350 * (2 + clouds)
    stars = chance.integers(0, len(light), STARS)
    light[stars] += 2500 * chance.pareto(1.5, STARS)
    return numpy.clip(light, 0, 30000).astype(">i2")


def card(keyword, value):
    return f"{keyword:8}= {value:>20}".ljust(80)


def tile_file(numbers):
    """The file of a leaf, of its pixels in nested order: lines from the bottom up, lines go with even bits, columns with odd ones."""
    width = 2**BITS
    line, column = numpy.mgrid[width - 1:-1:-1, 0:width]
    places = sum((line >> bit & 1) << 2 * bit | (column >> bit & 1) << 2 * bit + 1 for bit in range(BITS))
    cards = "".join([card("SIMPLE", "T"), card("BITPIX", 16), card("NAXIS", 2), card("NAXIS1", width), card("NAXIS2", width),
                     card("BLANK", BLANK), "END"])
    data = numbers[places].tobytes()
    return cards.ljust(2880).encode() + data + bytes(-len(data) % 2880)


def main():
    if len(sys.argv) != 2 or sys.argv[1].startswith("-"):
        sys.exit(__doc__)
    folder = Path(sys.argv[1])
    folder.mkdir()
    (folder / "survey.conf").write_text(CONF)
    tiles = sky().reshape(-1, 4**BITS)
    _, declinations = healpy.pix2ang(2**ORDER, numpy.arange(12 * 4**ORDER), nest=True, lonlat=True)
    for leaf in numpy.flatnonzero(declinations > LOWEST):
        path = folder / f"Norder{ORDER}/Dir0/Npix{leaf}.fits"
        path.parent.mkdir(parents=True, exist_ok=True)
        path.write_bytes(tile_file(tiles[leaf]))


if __name__ == "__main__":
    main()
