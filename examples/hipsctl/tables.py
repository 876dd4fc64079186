"""Reads tables of others by astropy: only the file that was named, and no more of it than fits."""

import os
import sys
import warnings

from hipsctl import files
from hipsctl.messages import Refused, shown

MOST = 2**30
# As astropy names them. A file of HDF5, which isn't among them, may name others.
FORMATS = ("votable", "fits", "csv", "tab", "ecsv", "ipac", "mrt", "basic")
ENDINGS = {".csv": "csv", ".tsv": "tab", ".tab": "tab", ".mrt": "mrt"}


is_reading = False


def refuse_requests(event, words):
    """While a table is read this process asks no server and opens no URL, which may be a file's too: a VOTable's data may lie there."""
    if is_reading and event == "urllib.Request":
        raise Refused(f"the table's data aren't in it, but at {shown(words[0])}: save them within the table")
    if is_reading and event in ("socket.connect", "socket.getaddrinfo"):
        raise Refused("the table names a server, and none is asked")


sys.addaudithook(refuse_requests)


def format_of(head, path):
    """The format of a file by its first bytes, or by its name."""
    for form, mark in (("fits", b"SIMPLE  ="), ("votable", b"<VOTABLE"), ("votable", b":VOTABLE"), ("ecsv", b"# %ECSV")):
        if mark in (head[:9] if form != "votable" else head):
            return form
    name = os.fsdecode(path).lower().removesuffix(".gz").removesuffix(".bz2").removesuffix(".xz")
    form = ENDINGS.get(os.path.splitext(name)[1])
    if form:
        return form
    raise Refused(f"{shown(path)}: name its format: --format {', '.join(FORMATS)}")


def parsed(kept, form):
    """The table, as astropy reads it."""
    from astropy.io import ascii
    from astropy.table import Table

    if form == "votable":
        # Its columns by their names, and not by the identifiers beside these.
        return Table.read(kept, format=form, use_names_over_ids=True)
    if form == "fits":
        return Table.read(kept, format=form)
    # A text without a line's end would be a file's name to astropy.
    return ascii.read(kept.getvalue().decode("utf-8", "replace") + "\n", format=form, guess=False)


def read(path, form):
    """The table in a file, in the named format or in that which it seems to have."""
    with files.open_file(path) as file:
        kept = files.unpacked(file, path, MOST)
    kept.seek(0)
    head = kept.read(4096)
    kept.seek(0)
    if head[:2] in files.PACKED:
        raise Refused(f"{shown(path)} is packed twice")
    form = form or format_of(head, path)
    global is_reading
    is_reading = True
    try:
        with warnings.catch_warnings():
            warnings.simplefilter("ignore")
            return parsed(kept, form)
    except (Refused, MemoryError):
        raise
    # Whatever astropy raises, this table can't be read.
    except Exception as fault:
        raise Refused(f"{shown(path)} can't be read as {form}: {shown(str(fault) or type(fault).__name__)}") from None
    finally:
        is_reading = False
