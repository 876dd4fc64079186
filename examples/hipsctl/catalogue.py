"""Writes a catalogue HiPS (HiPS 1.0, sections 4.2 and 4.4) of sources: tiles, properties, metadata.xml and coverage."""

import io
import re
import tempfile
from datetime import datetime, timezone
from pathlib import Path

import numpy
from astropy.io import fits
from astropy.io.votable import from_table
from astropy.io.votable.tree import CooSys

from hipsctl.messages import Refused
from hipsctl.program import hipsd

TILE = re.compile(r"Norder(\d+)/Dir\d+/Npix\d+\.tsv")


def orders_of(sources, order, most):
    """The order of each source's tile, by `hipsd catalog`, whose rows have the sources' numbers as ids."""
    rows = zip(sources.ranks.tolist(), sources.cells(order).tolist())
    data = "".join([f"{rank}\t{cell}\t{row}\t\n" for row, (rank, cell) in enumerate(rows)]).encode()
    with tempfile.TemporaryDirectory(prefix="hipsctl.") as name:
        status, said = hipsd(name, "catalog", order, most, data=data)
        if status:
            raise Refused(f"hipsd catalog ends with status {status}: {said}", 4)
        found = numpy.zeros(len(sources.ra), int)
        for path in Path(name).glob("Norder*/Dir*/Npix*.tsv"):
            lines = path.read_bytes().splitlines()[1:]
            found[[int(line.split(b"\t")[2]) for line in lines]] = int(TILE.fullmatch(path.relative_to(name).as_posix())[1])
    return found


class Catalogue:
    """The sources by their tiles, from order 1 on: those of order 0 go down into order 1."""

    def __init__(self, sources, order, most):
        self.sources, self.order = sources, max(order, 1)
        self.orders = numpy.maximum(orders_of(sources, order, most), 1)
        self.deepest = int(self.orders.max())
        self.leaves = sources.cells(self.order)

    def cells(self, order):
        return self.leaves >> 2 * (self.order - order)

    def write(self, folder, told):
        """All files, below an open folder."""
        described, lines = self.sources.described(), numpy.array(self.sources.lines(), dtype=object)
        for order in range(1, self.deepest + 1):
            self.write_order(folder, order, "\t".join(described.colnames), lines)
        folder.write("metadata.xml", metadata(described))
        share = self.write_coverage(folder)
        folder.write("properties", self.properties(told, share).encode())

    def write_order(self, folder, order, head, lines):
        """The tiles of an order, and of the first two orders all their rows in one file."""
        cells = self.cells(order)
        here = numpy.flatnonzero(self.orders == order)
        here = here[numpy.lexsort((self.sources.ranks[here], cells[here]))]

        def write(path, shown, all_, rows):
            text = f"# Completeness = {shown} / {all_}\n{head}\n" + "".join([f"{line}\n" for line in lines[rows]])
            folder.write(f"Norder{order}/{path}", text.encode())

        if order <= 2:
            write("Allsky.tsv", (self.orders <= order).sum(), len(lines), here)
        counts = dict(zip(*(part.tolist() for part in numpy.unique(cells, return_counts=True))))
        shown = dict(zip(*(part.tolist() for part in numpy.unique(cells[self.orders <= order], return_counts=True))))
        tiles, firsts = numpy.unique(cells[here], return_index=True)
        for tile, rows in zip(tiles.tolist(), numpy.split(here, firsts[1:])):
            write(f"Dir{tile // 10000 * 10000}/Npix{tile}.tsv", shown[tile], counts[tile], rows)

    def write_coverage(self, folder):
        """The cells that have a source, four of which are one of the order above if all are there. Returns their share of the sky."""
        known, rows = numpy.unique(self.leaves), []
        share = len(known) / (12 * 4**self.order)
        for order in range(self.order, -1, -1):
            parents, counts = numpy.unique(known >> 2, return_counts=True)
            whole = parents[counts == 4] if order > 0 else parents[:0]
            rows.append(4 * 4**order + known[~numpy.isin(known >> 2, whole)])
            known = whole
        made = fits.BinTableHDU.from_columns([fits.Column(name="UNIQ", format="1K", array=numpy.sort(numpy.concatenate(rows)))])
        made.header.update({"PIXTYPE": "HEALPIX", "ORDERING": "NUNIQ", "COORDSYS": "C", "MOCORDER": self.order, "MOCTOOL": "hipsctl"})
        file = io.BytesIO()
        fits.HDUList([fits.PrimaryHDU(), made]).writeto(file)
        folder.write("Moc.fits", file.getvalue())
        return share

    def properties(self, told, share):
        now = datetime.now(timezone.utc)
        return "".join(f"{key:20} = {value}\n" for key, value in {
            "creator_did": told.did,
            "obs_title": told.title,
            "obs_description": f"{len(self.orders)} sources, the best ones at the lowest order",
            "dataproduct_type": "catalog",
            "hips_version": "1.4",
            "hips_release_date": told.release_date or f"{now:%Y-%m-%dT%H:%MZ}",
            "hips_creation_date": f"{now:%Y-%m-%dT%H:%MZ}",
            "hips_status": "public master clonable",
            "hips_frame": "equatorial",
            "hips_order": self.deepest,
            "hips_order_min": 1,
            "hips_tile_format": "tsv",
            "hips_cat_nrows": len(self.orders),
            "hips_initial_ra": f"{self.sources.ra[0]:.5f}",
            "hips_initial_dec": f"{self.sources.dec[0]:.5f}",
            "hips_initial_fov": f"{min(180, 3 * 58.63 / 2**self.deepest):.4g}",
            "moc_order": self.order,
            "moc_sky_fraction": f"{share:.6g}",
        }.items())


def metadata(described):
    """The columns, as a VOTable without rows."""
    made = from_table(described)
    made.resources[0].coordinate_systems.append(CooSys(ID="ICRS", system="ICRS"))
    table = made.get_first_table()
    table.name = "catalogue"
    for field in table.fields:
        if field.datatype in ("char", "unicodeChar"):
            field.datatype, field.arraysize = "char", "*"
        if field.name in ("ra", "dec"):
            field.ref = "ICRS"
    file = io.BytesIO()
    made.to_xml(file)
    return file.getvalue()
