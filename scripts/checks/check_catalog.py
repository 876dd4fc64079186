"""Tries a catalogue of sources from a table to viewers, as `hipsctl catalog` makes it with hipsd, and what viewers read of it.

- Every source of the table is in one tile, with the table's columns, types, units and UCDs, blanks in their names and vectors among
  them; by healpy it lies in the tile's cell.
- The first line of a tile, the two files of whole orders, properties and the coverage agree with the tiles.
- stilts reads a tile and judges metadata.xml.
- Where they are installed, HipsGen's LINT finds no error, and Aladin's picture has as many marks as the table has sources there.
"""

import functools
import os
import shutil
import subprocess
import threading
import warnings
from contextlib import suppress
from http.server import SimpleHTTPRequestHandler, ThreadingHTTPServer
from pathlib import Path

from checks.cases import Case, needs
from checks.servers import EXAMPLES

# Without these all is left out.
with suppress(ModuleNotFoundError):
    import healpy
    import numpy
    from astropy.io import ascii, fits
    from astropy.io.votable.exceptions import VOWarning
    from astropy.table import MaskedColumn, Table
    from PIL import Image

JAR = Path("/usr/share/java/aladin.jar")
TILES, ORDER = 20, 5
# A patch of sources that are apart from one another, and far from all others.
PATCH, STEP = (121.0, 19.0), 0.5
NAMES = ["--ra", "RAJ2000", "--dec", "DEJ2000", "--mag", "Vmag", "--id", "name"]


def table_of(count):
    """Sources all over the sky but for some degrees around the patch, and the patch."""
    chance = numpy.random.default_rng(50)
    ra, dec = chance.uniform(0, 360, 2 * count), numpy.degrees(numpy.arcsin(chance.uniform(-1, 1, 2 * count)))
    far = healpy.ang2vec(ra, dec, lonlat=True) @ healpy.ang2vec(*PATCH, lonlat=True) < numpy.cos(numpy.radians(15))
    right, up = (STEP * axis.ravel() for axis in numpy.mgrid[-3:4, -3:4])
    ra = numpy.append(ra[far][:count], PATCH[0] + right / numpy.cos(numpy.radians(PATCH[1])))
    dec = numpy.append(dec[far][:count], PATCH[1] + up)
    made = Table()
    made["name"] = [f"S {at}" for at in range(len(ra))]
    made["RAJ2000"], made["DEJ2000"] = ra, dec
    made["Vmag"] = MaskedColumn(chance.uniform(3, 20, len(ra)).astype("f4"), mask=chance.random(len(ra)) < 0.01)
    made["pmRA"] = MaskedColumn(numpy.round(chance.normal(0, 9, len(ra)), 3), mask=chance.random(len(ra)) < 0.2)
    made["flag"] = chance.integers(-9, 9, len(ra)).astype("i2")
    made["kind"] = chance.choice(["star", "galaxy", "quasar"], len(ra))
    made["e_V mag*"] = MaskedColumn(chance.uniform(0, 1, len(ra)).astype("f4"), mask=chance.random(len(ra)) < 0.1, unit="mag")
    made["flux [u, g]"] = chance.uniform(0, 1e4, (len(ra), 2)).astype("f4")
    made["pmRA"].unit, made["Vmag"].unit = "mas/yr", "mag"
    made["flag"].meta["ucd"], made["flag"].description = "meta.code.qual", "how sure it is"
    return made


def marks(is_marked):
    """How many groups of pixels touch."""
    left, count = set(zip(*(axis.tolist() for axis in numpy.nonzero(is_marked)))), 0
    while left:
        count, some = count + 1, [left.pop()]
        while some:
            line, column = some.pop()
            near = {(line + down, column + right) for down in (-1, 0, 1) for right in (-1, 0, 1)} & left
            left -= near
            some += near
    return count


@needs("astropy", "healpy", "PIL", "stilts")
class Catalogue(Case):
    """One catalogue for all tests, of a table of 3,049 sources."""

    @classmethod
    def setUpClass(cls):
        # That blanks in names become others in identifiers.
        warnings.simplefilter("ignore", VOWarning)
        cls.made = cls.own_folder(cls.enterClassContext)
        cls.table, cls.place = table_of(3000), cls.made / "hips"
        cls.table.write(cls.made / "table.vot", format="votable")
        words = [EXAMPLES / "hipsctl/__main__.py", "catalog", "--tiles", TILES, "--order", ORDER, *NAMES, "--title", "Made sources", "--did", "ivo://example/P/made"]
        cls.said = subprocess.run(list(map(str, [*words, cls.made / "table.vot", cls.place])), capture_output=True, text=True, timeout=300)
        cls.tiles = {}
        for path in sorted(cls.place.glob("Norder*/Dir*/Npix*.tsv")):
            cls.tiles[int(path.parts[-3][6:]), int(path.stem[4:])] = ascii.read(path.read_text(), format="tab", guess=False)

    def first_line(self, name):
        return (self.place / name).open().readline()

    def test_it_is_made(self):
        self.assertEqual(self.said.returncode, 0, self.said.stderr)
        self.assertIn("3,049 sources", self.said.stdout + self.said.stderr)

    def test_tiles(self):
        """They have the table's sources, each once and in its cell."""
        where = {}
        for (order, cell), rows in self.tiles.items():
            cells = healpy.ang2pix(2**order, rows["ra"], rows["dec"], nest=True, lonlat=True)
            self.assertTrue((cells == cell).all(), f"{order}/{cell} has a source of another cell")
            for row in rows:
                where.setdefault(row["name"], []).append(row)
        self.assertEqual(len(where), len(self.table))
        names = ("RAJ2000", "ra"), ("DEJ2000", "dec"), *((name, name.replace(" ", "_")) for name in self.table.colnames[3:-1])
        for row in self.table:
            found, = where[row["name"]]
            self.assertEqual([numpy.float32(text) for text in found["flux_[u,_g]"].split(",")], list(row["flux [u, g]"]), row["name"])
            for name, shown in names:
                expected = row[name]
                is_same = numpy.ma.is_masked(expected) == numpy.ma.is_masked(found[shown])
                is_same = is_same and (numpy.ma.is_masked(expected) or row.table[name].dtype.type(found[shown]) == expected)
                self.assertTrue(is_same, f"{row['name']} has {name} {found[shown]} in place of {row[name]}")

    def test_properties(self):
        told = dict(line.split("=", 1) for line in (self.place / "properties").read_text().splitlines())
        told = {key.strip(): value.strip() for key, value in told.items()}
        expected = {"dataproduct_type": "catalog", "hips_tile_format": "tsv", "hips_frame": "equatorial",
                    "hips_order": str(max(order for order, _ in self.tiles)), "hips_order_min": "1", "hips_cat_nrows": str(len(self.table)),
                    "obs_title": "Made sources", "creator_did": "ivo://example/P/made"}
        self.assertEqual({key: told.get(key) for key in expected}, expected)

    def test_completeness(self):
        """The first line of a tile: sources of the cell down to this tile, and in all."""
        for (order, cell), rows in self.tiles.items():
            shown, count = len(rows), 0
            for (other, place), some in self.tiles.items():
                if other >= order and place >> 2 * (other - order) == cell:
                    count += len(some)
                elif other < order and cell >> 2 * (order - other) == place:
                    inside = int((healpy.ang2pix(2**order, some["ra"], some["dec"], nest=True, lonlat=True) == cell).sum())
                    shown, count = shown + inside, count + inside
            self.assertEqual(self.first_line(f"Norder{order}/Dir{cell // 10000 * 10000}/Npix{cell}.tsv"), f"# Completeness = {shown} / {count}\n")

    def test_whole_orders(self):
        for order in (1, 2):
            rows = ascii.read((self.place / f"Norder{order}/Allsky.tsv").read_text(), format="tab", guess=False)
            names = [name for (at, _), some in sorted(self.tiles.items(), key=lambda tile: tile[0]) if at == order for name in some["name"]]
            self.assertEqual(list(rows["name"]), names, order)
            shown = sum(len(some) for (at, _), some in self.tiles.items() if at <= order)
            self.assertEqual(self.first_line(f"Norder{order}/Allsky.tsv"), f"# Completeness = {shown} / {len(self.table)}\n")

    def test_columns(self):
        """metadata.xml by astropy and stilts, and a tile by stilts."""
        made = Table.read(self.place / "metadata.xml", format="votable", use_names_over_ids=True)
        expected = {"ra": ("f8", "deg", "pos.eq.ra;meta.main"), "dec": ("f8", "deg", "pos.eq.dec;meta.main"),
                    "name": ("O", None, "meta.id;meta.main"), "Vmag": ("f4", "mag", "phot.mag"), "pmRA": ("f8", "mas / yr", None),
                    "flag": ("i2", None, "meta.code.qual"), "kind": ("O", None, None), "e_V_mag*": ("f4", "mag", None), "flux_[u,_g]": ("O", None, None)}
        for name, column in expected.items():
            self.assertEqual((made[name].dtype.str.lstrip("<>|"), made[name].unit and str(made[name].unit), made[name].meta.get("ucd")), column, name)
        self.assertEqual((made.colnames[:2], made["flag"].description), (["ra", "dec"], "how sure it is"))
        self.assertEqual(self.runs(0, "", "stilts", "votlint", self.place / "metadata.xml")[1], "")
        head, *rows = (self.place / "Norder1/Dir0/Npix5.tsv").read_text().splitlines()[1:]
        (self.folder / "tile.csv").write_text("\n".join(line.replace("\t", ",") for line in (head, *rows)) + "\n")
        said, _ = self.runs(0, "", "stilts", "tpipe", "ifmt=csv", f"in={self.folder}/tile.csv", "cmd=stats Name Mean NGood", "omode=out", "ofmt=csv")
        means = {line.split(",")[0]: line.split(",")[1:] for line in said.decode().split()[1:]}
        self.assertAlmostEqual(float(means["dec"][0]), numpy.mean([float(row.split("\t")[1]) for row in rows]), delta=1e-4)
        self.assertEqual(means["dec"][1], str(len(rows)))

    def test_coverage(self):
        rows = fits.getdata(self.place / "Moc.fits")["UNIQ"].astype(numpy.int64)
        top = fits.getheader(self.place / "Moc.fits", 1)["MOCORDER"]
        orders = (numpy.log2(rows // 4) // 2).astype(int)
        leaves = [numpy.arange(cell << 2 * (top - order), cell + 1 << 2 * (top - order))
                  for order, cell in zip(orders.tolist(), (rows - 4 * 4**orders).tolist())]
        known = numpy.unique(healpy.ang2pix(2**top, self.table["RAJ2000"], self.table["DEJ2000"], nest=True, lonlat=True))
        self.assertTrue(numpy.array_equal(numpy.sort(numpy.concatenate(leaves)), known), "Moc.fits has other cells than the sources")

    def test_aladin(self):
        """LINT, and a picture of the patch, whose marks are counted."""
        if not JAR.exists() or not shutil.which("Xvfb") or not shutil.which("java"):
            self.skipTest("Debian's aladin and xvfb aren't installed here: HipsGen's LINT and Aladin's picture")
        said = self.runs(0, "IVOA HiPS 1.0 compatible", "java", "-Djava.awt.headless=true", "-jar", JAR, "-hipsgen", f"out={self.place}", "LINT")[1]
        self.assertNotIn("ERROR", said)
        quiet = type("Quiet", (SimpleHTTPRequestHandler,), {"log_message": lambda *words: None})
        with ThreadingHTTPServer(("127.0.0.1", 0), functools.partial(quiet, directory=self.place)) as server:
            # Aladin breaks off what it doesn't need.
            server.handle_error = lambda *words: None
            threading.Thread(target=server.serve_forever, daemon=True).start()
            read, write = os.pipe()
            self.begin("Xvfb", "-displayfd", write, "-screen", "0", "1024x768x24", "-nolisten", "tcp", pass_fds=[write])
            display = os.read(read, 20).decode().strip()
            script = (f"load http://127.0.0.1:{server.server_port}; sync; {PATCH[0]} +{PATCH[1]}; zoom 6deg; sync; pause 3; sync; "
                      f"save {self.folder}/seen.png; quit")
            self.runs(0, "", "java", f"-Duser.home={self.folder}", "-jar", JAR, "-local", "-nosamp", "-noplugin", "-nogui", f"-script={script}",
                      DISPLAY=f":{display}")
            server.shutdown()
        picture = numpy.asarray(Image.open(self.folder / "seen.png").convert("RGB")).astype(int)
        self.assertEqual(marks((picture[:, :, 0] > 150) & (picture[:, :, 1] < 80) & (picture[:, :, 2] < 80)), 49, "Aladin's marks")
