"""Makes a catalogue HiPS that viewers open of a table of sources.

A tile has the N best sources of its cell that no tile above it has; one of order K all that are left. The columns are named by --ra and
--dec (degrees, ICRS), --mag, by which sources are ranked, and --id. Rows are counted from 1. Nothing but the table is read, which may be
packed by gzip, bzip2 or xz. HIPS is a new folder, or with --replace takes the place of a catalogue.
"""

import argparse
import os
import secrets
import shutil
from contextlib import contextmanager
from pathlib import Path

from hipsctl import files, tables
from hipsctl.messages import Refused, shown


def add_words(parser):
    parser.add_argument("table", metavar="TABLE", help="VOTable, FITS, CSV, or another one that --format names")
    parser.add_argument("hips", metavar="HIPS", type=Path, help="the folder of the catalogue")
    parser.add_argument("--tiles", type=int, default=200, choices=range(1, 4097), metavar="N", help="sources of a tile above order K, 200 if not said")
    parser.add_argument("--order", type=int, default=5, choices=range(12), metavar="K", help="the deepest order, 5 if not said")
    for name in ("ra", "dec", "mag", "id"):
        parser.add_argument(f"--{name}", default=name, metavar="NAME", help=f"the column in place of {name}")
    parser.add_argument("--format", choices=tables.FORMATS, help="of TABLE, as astropy names it")
    parser.add_argument("--unit", action="append", default=[], type=unit, metavar="NAME=UNIT", help="the unit of a column, as pmra=mas/yr")
    parser.add_argument("--skip-bad", action="store_true", help="leave bad rows out")
    parser.add_argument("--replace", action="store_true", help="a catalogue at HIPS goes")
    parser.add_argument("--title", default="A catalogue of sources", metavar="TEXT")
    parser.add_argument("--did", default="ivo://UNK.AUTH/P/catalogue", help="its identifier, ivo://AUTHORITY/P/NAME")
    parser.add_argument("--release-date", metavar="DATE", help="now if not said")


def unit(text):
    name, equals, value = text.rpartition("=")
    if not equals:
        raise argparse.ArgumentTypeError(f"'{text}' is no NAME=UNIT")
    return name, value


def run(told):
    for option in ("title", "did", "release_date"):
        if not (getattr(told, option) or "").isprintable():
            raise Refused(f"--{option.replace('_', '-')} has a control character", 2)
    told.units = dict(told.unit)
    try:
        from hipsctl import catalogue, sources
    except ImportError as fault:
        raise Refused(f"{fault}: sudo apt install python3-astropy python3-healpy", 3) from None
    may_be_written(told.hips, told.replace)
    found = sources.Sources(tables.read(told.table, told.format), told)
    made = catalogue.Catalogue(found, told.order, told.tiles)
    with replaced(told.hips) as folder:
        made.write(folder, told)
    print(f"{len(made.orders):,} sources, orders 1 to {made.deepest}: {shown(told.hips)}")


def may_be_written(place, may_replace):
    """Refuses a place that isn't for a catalogue."""
    if not os.path.lexists(place):
        return
    if not may_replace:
        raise Refused(f"{shown(place)} is there already; --replace makes it anew")
    if place.is_symlink():
        raise Refused(f"{shown(place)} is a link: name the folder itself")
    with files.Folder(place) as folder:
        try:
            with folder.open("properties") as file:
                if b"hips_tile_format     = tsv\n" in file.read(2**20):
                    return
        except FileNotFoundError:
            pass
    raise Refused(f"{shown(place)} is no catalogue that hipsctl made, and stays")


@contextmanager
def replaced(place):
    """A new folder beside, which takes the place's name in the end; what was there goes then."""
    place = Path(os.path.abspath(place))
    beside, before = (place.with_name(f".{kind}.{secrets.token_hex(8)}") for kind in ("unfinished", "before"))
    os.mkdir(beside, 0o755)
    try:
        with files.Folder(beside) as folder:
            yield folder
        if os.path.lexists(place):
            os.rename(place, before)
        os.rename(beside, place)
    finally:
        if os.path.lexists(before) and not os.path.lexists(place):
            os.rename(before, place)
        for left in (beside, before):
            shutil.rmtree(left, ignore_errors=True)
