"""The sources of a table: where each lies, how it is ranked, its columns as texts; and all that is wrong with them."""

import re
from shlex import quote

import healpy
import numpy
from astropy.table import Column, Table

from hipsctl.messages import Refused, listed, say, shown

MOST_ROWS = 1_000_000
# Rows whose texts are made at once.
PART = 50_000
CONTROL = re.compile("[\x00-\x1f\x7f-\x9f\u2028\u2029]")
SEXAGESIMAL = re.compile(r"\s*[+-]?\d{1,3}\s*[\s:hd°]\s*\d{1,2}\s*[\s:m'′]\s*\d{1,2}(\.\d*)?\s*[s\"″]?\s*")
MOTION = re.compile("pm[ _]?(ra|de)", re.IGNORECASE)


def text_of(value):
    """A value in one line; nothing where it is masked."""
    if value is None or value is numpy.ma.masked:
        return ""
    if isinstance(value, numpy.ndarray):
        return ",".join(texts(value))
    text = value.decode("utf-8", "replace") if isinstance(value, bytes) else str(value)
    return CONTROL.sub(" ", text).strip()


def texts(column):
    """The values of a column as texts; what is masked, or not a number, is empty."""
    kind = column.dtype.kind if isinstance(column, numpy.ndarray) and column.ndim == 1 else "O"
    if kind not in "biufUS":
        return [text_of(value) for value in column]
    # Numbers of 32 bits are written with as many digits as they have.
    values = numpy.ma.getdata(column)
    found = list(map(str, values) if kind == "f" and values.itemsize < 8 else map(text_of, values.tolist()))
    absent = numpy.ma.getmaskarray(column)
    for row in numpy.flatnonzero(absent | ~numpy.isfinite(values) if kind == "f" else absent):
        found[row] = ""
    return found


def numbers(column):
    """A column as numbers, NaN where there is none; and the texts that are no number, by their rows."""
    try:
        return numpy.ma.filled(numpy.ma.asarray(column, dtype=float), numpy.nan), {}
    except (TypeError, ValueError):
        found, wrong = numpy.full(len(column), numpy.nan), {}
    for row, text in enumerate(texts(column)):
        try:
            found[row] = float(text or "nan")
        except ValueError:
            wrong[row] = text
    return found, wrong


class Sources:
    """The sources of a table, and the options that say which column is what."""

    def __init__(self, table, told):
        self.table, self.told = table, told
        faults = [*self.absent(), *self.units()]
        if len(table) == 0:
            faults.append("the table has no rows")
        columns = {}
        for name in dict.fromkeys((told.ra, told.dec, told.mag)):
            if name in table.colnames:
                columns[name] = numbers(table[name]) if getattr(table[name], "ndim", 1) == 1 else None
                faults += self.form(name, columns[name])
        if faults:
            raise Refused(listed(faults))
        self.ra, self.dec, self.mag = (columns[name][0] for name in (told.ra, told.dec, told.mag))
        self.leave_out(self.bad_rows({name: wrong for name, (_, wrong) in columns.items()}))
        if len(self.ra) > MOST_ROWS:
            raise Refused(f"{len(self.ra):,} sources, and a catalogue has at most {MOST_ROWS:,}: make several, each of a part of the table")
        self.ra %= 360
        # The brightest first, and those without a magnitude last.
        self.ranks = numpy.empty(len(self.ra), int)
        self.ranks[numpy.argsort(numpy.where(numpy.isfinite(self.mag), self.mag, numpy.nan), kind="stable")] = numpy.arange(len(self.ra))

    def absent(self):
        """Columns that are named and aren't there."""
        named = {f"--{name}": getattr(self.told, name) for name in ("ra", "dec", "mag", "id")}
        absent = [f"{shown(name)} ({option})" for option, name in named.items() if name not in self.table.colnames]
        absent += [f"{shown(name)} (--unit)" for name in self.told.units if name not in self.table.colnames]
        if absent:
            yield f"there is no column {', '.join(absent)}; there are {', '.join(map(shown, self.table.colnames))}"

    def unit(self, name):
        return self.told.units.get(name) or str(self.table[name].info.unit or "")

    def units(self):
        """Positions in other units than degrees, and proper motions without a unit."""
        for name in (self.told.ra, self.told.dec):
            if name in self.table.colnames and self.unit(name).lower() not in ("", "deg", "degree", "degrees"):
                yield f"the column {shown(name)} is in {shown(self.unit(name))}, and positions are in degrees"
        bare = [name for name in self.table.colnames if MOTION.search(name) and not self.unit(name)]
        if bare:
            options = " ".join("--unit " + quote(f"{shown(name)}=mas/yr") for name in bare)
            yield f"proper motions without a unit, which Aladin doesn't show; if it is mas/yr: {options}"

    def form(self, name, found):
        """Columns that have no number a row."""
        if found is None:
            yield f"the column {shown(name)} has several values a row"
            return
        first = next(iter(found[1].values()), "")
        if SEXAGESIMAL.fullmatch(first):
            yield f"the column {shown(name)} is sexagesimal ('{shown(first)}'), and positions are in degrees: TOPCAT's hmsToDegrees, dmsToDegrees convert it"
        elif len(found[1]) == len(found[0]) > 0:
            yield f"the column {shown(name)} has texts ('{shown(first)}') in place of numbers"

    def bad_rows(self, wrong):
        """What is wrong with each bad row, by its number from 0."""
        bad = {}
        for name, is_good in ((self.told.ra, (self.ra >= 0) & (self.ra <= 360)), (self.told.dec, abs(self.dec) <= 90)):
            for row in numpy.flatnonzero(~is_good).tolist():
                bad.setdefault(row, f"{shown(name)} is {self.value(name, row)}")
        for row in wrong.get(self.told.mag, ()):
            bad.setdefault(row, f"{shown(self.told.mag)} is {self.value(self.told.mag, row)}")
        rows = {}
        for row, text in enumerate(texts(self.table[self.told.id])):
            if not text:
                bad.setdefault(row, f"{shown(self.told.id)} is missing")
            elif row not in bad and rows.setdefault(text, row) != row:
                bad[row] = f"{shown(self.told.id)} is '{shown(text)}', as in row {rows[text] + 1}"
        return bad

    def value(self, name, row):
        value = self.table[name][row]
        return "missing" if text_of(value) == "" else shown(text_of(value))

    def leave_out(self, bad):
        """Refuses bad rows, or leaves them out."""
        if not bad:
            return
        lines = [f"row {row + 1}: {fault}" for row, fault in sorted(bad.items())]
        if not self.told.skip_bad:
            raise Refused(listed([f"{len(bad):,} bad rows, of {len(self.table):,}; --skip-bad leaves them out", *lines]))
        if len(bad) == len(self.table):
            raise Refused(listed(["all rows are bad", *lines]))
        say(listed([f"left out: {len(bad):,} bad rows, of {len(self.table):,}", *lines]))
        kept = numpy.setdiff1d(numpy.arange(len(self.table)), list(bad))
        self.table, self.ra, self.dec, self.mag = self.table[kept], self.ra[kept], self.dec[kept], self.mag[kept]

    def cells(self, order):
        """The nested cells that the sources lie in."""
        return healpy.ang2pix(2**order, self.ra, self.dec, nest=True, lonlat=True)

    def names(self):
        """The names of the columns in the catalogue by those of the table, the position's first: `ra`, `dec`, and what viewers can read."""
        found = {self.told.ra: "ra", self.told.dec: "dec"}
        for name in self.table.colnames:
            if name not in found:
                key = re.sub(r"\s", "_", CONTROL.sub("_", name)) or "_"
                while key in found.values() or key.lower() in ("ra", "dec"):
                    key += "_"
                found[name] = key
        return found

    def described(self):
        """A table without rows whose columns are those of the catalogue: types, units, UCDs and descriptions."""
        usual = {self.told.ra: ("pos.eq.ra;meta.main", "deg"), self.told.dec: ("pos.eq.dec;meta.main", "deg"),
                 self.told.mag: ("phot.mag", "mag"), self.told.id: ("meta.id;meta.main", None)}
        made = Table()
        for name, key in self.names().items():
            column = self.table[name]
            ucd, unit = usual.get(name, (None, None))
            said = (column.info.meta or {}).get("ucd") or self.table.meta.get(f"TUCD{self.table.colnames.index(name) + 1}")
            is_number = isinstance(column, Column) and column.ndim == 1 and column.dtype.kind in "iuf"
            made[key] = Column(dtype=column.dtype if is_number else "U1", length=0, unit=self.unit(name) or unit, description=column.info.description)
            if key in ("ra", "dec"):
                made[key] = Column(dtype="f8", length=0, unit="deg", description=column.info.description)
            # The position's is what viewers find it by.
            if ucd if key in ("ra", "dec") else said or ucd:
                made[key].meta["ucd"] = ucd if key in ("ra", "dec") else said or ucd
        return made

    def lines(self):
        """The line of each source."""
        found = []
        for first in range(0, len(self.table), PART):
            part = slice(first, first + PART)
            columns = [texts(self.ra[part]), texts(self.dec[part])]
            columns += [texts(self.table[name][part]) for name, key in self.names().items() if key not in ("ra", "dec")]
            found += map("\t".join, zip(*columns))
        return found
