import gzip
import os
import threading
import time
from http.server import BaseHTTPRequestHandler, HTTPServer

from hipsctl.tests.cases import Case, needs_astropy, needs_hipsd

GOOD = "id,ra,dec,mag\nA 1,45,60,10.5\nB,135,60,\nC,360,-60,9\n"
VOTABLE = """<VOTABLE version="1.3" xmlns="http://www.ivoa.net/xml/VOTable/v1.3"><RESOURCE><TABLE>
<FIELD name="id" datatype="char" arraysize="8"/><FIELD name="ra" datatype="double"/>
<DATA><{0}><STREAM href="{1}"/></{0}></DATA></TABLE></RESOURCE></VOTABLE>"""


@needs_astropy
class Tables(Case):
    """What a table can't do to whoever reads it."""

    def setUp(self):
        super().setUp()
        self.hips = self.folder / "hips"

    def table(self, text, name="table.csv"):
        path = self.folder / name
        path.write_bytes(text if isinstance(text, bytes) else text.encode())
        return path

    def refuses(self, text, table, *words):
        said = self.ends(1, text, "catalog", *words, table, self.hips)
        self.assertFalse(self.hips.exists())
        return said

    def test_data_elsewhere(self):
        asked = []

        class Server(BaseHTTPRequestHandler):
            def do_GET(self):
                asked.append(self.path)

        with HTTPServer(("127.0.0.1", 0), Server) as server:
            threading.Thread(target=server.serve_forever, args=(0.02,), daemon=True).start()
            for place in (f"http://127.0.0.1:{server.server_port}/x", "file:///etc/passwd"):
                for kind in ("BINARY", "BINARY2", "FITS"):
                    self.refuses(f"the table's data aren't in it, but at {place}", self.table(VOTABLE.format(kind, place), "table.vot"))
            for place in (f"http://127.0.0.1:{server.server_port}/x", "/etc/passwd"):
                self.refuses("there are " + place, self.table(place))
            server.shutdown()
        self.assertEqual(asked, [])

    def test_what_is_no_file(self):
        os.mkfifo(self.folder / "pipe")
        for path in ("/dev/zero", self.folder / "pipe"):
            self.refuses("is no regular file", path, "--format", "csv")
        self.ends(3, "nothing.csv: No such file", "catalog", self.folder / "nothing.csv", self.hips)

    def test_what_is_packed(self):
        self.refuses("is packed twice", self.table(gzip.compress(gzip.compress(GOOD.encode())), "table.csv.gz"))
        self.refuses("isn't packed whole", self.table(gzip.compress(GOOD.encode())[:-9], "table.csv.gz"))
        bomb = self.table(gzip.compress(b"id,ra,dec,mag\n") + gzip.compress(b"1" * 2**24) * 128, "table.csv.gz")
        process = self.begin("catalog", bomb, self.hips, before="ulimit -v 2097152;")
        self.assertIn("unpacks to more than 1,073,741,824 bytes", process.communicate()[0])
        entities = "".join(f'<!ENTITY e{n + 1} "{f"&e{n};" * 10}">' for n in range(12))
        self.refuses("can't be read as votable", self.table(f'<!DOCTYPE x [<!ENTITY e0 "0123456789">{entities}]><VOTABLE>&e12;</VOTABLE>'))

    def test_another_format(self):
        self.refuses("name its format", self.table(GOOD, "table"))
        self.ends(2, "invalid choice: 'hdf5'", "catalog", "--format", "hdf5", self.table(GOOD), self.hips)

    def test_all_faults_at_once(self):
        table = self.table("Name,RA,Dec,pm RA,pmDE\nA,05 34 32.0,+22:00:52,1,2\n")
        said = self.refuses("there is no column ra (--ra), mag (--mag), id (--id)", table, "--dec", "Dec")
        self.assertIn("there are Name, RA, Dec, pm RA, pmDE", said)
        said = self.refuses("", table, "--ra", "RA", "--dec", "Dec", "--id", "Name", "--mag", "Name", "--unit", "pm=mas/yr")
        for text in ("no column pm (--unit)", "--unit 'pm RA=mas/yr' --unit pmDE=mas/yr", "the column RA is sexagesimal ('05 34 32.0')",
                     "the column Dec is sexagesimal ('+22:00:52')", "the column Name has texts ('A') in place of numbers"):
            self.assertIn(text, said)
        self.refuses("the table has no rows", self.table("id,ra,dec,mag\n"))
        self.refuses("the column ra is in rad, and positions are in degrees", self.table(GOOD), "--unit", "ra=rad")

    def test_bad_rows(self):
        table = self.table(GOOD + "D,361,0,1\nE,1,90.0001,1\nF,-1,0,1\nG,,0,1\nH,1,1,faint\n,1,1,1\nA 1,2,2,2\n" + "I,nan,0,1\n" * 20)
        said = self.refuses("27 bad rows, of 30; --skip-bad leaves them out", table)
        for text in ("row 4: ra is 361.0\n", "row 5: dec is 90.0001\n", "row 6: ra is -1.0\n", "row 7: ra is missing\n", "row 8: mag is faint\n",
                     "row 9: id is missing\n", "row 10: id is 'A 1', as in row 1\n", "and 8 more\n"):
            self.assertIn(text, said)
        self.refuses("all rows are bad", self.table("id,ra,dec,mag\nD,361,0,1\n"), "--skip-bad")

    def test_more_than_fit(self):
        self.refuses("1,000,001 sources, and a catalogue has at most 1,000,000", self.table("id,ra,dec,mag\n" + "".join(f"{n},1,2,3\n" for n in range(1_000_001))))


@needs_astropy
@needs_hipsd
class Written(Case):
    """What stands in the folder."""

    def setUp(self):
        super().setUp()
        self.table, self.hips = self.folder / "table.csv", self.folder / "new\nline"
        self.table.write_text(GOOD)

    def test_rows(self):
        bad = "D,361,0,1,x\n"
        self.table.write_bytes('id,ra,dec,mag,a "note" =\nA 1,45,60,10.5,"first\r\nline\tand \x1b[2J"\nB,135,60,,Größe\nC,360,-60,9,{}\n{}'
                               .format("x" * 300, bad).replace('a "note" =', '"a\tnote ="').encode())
        said = self.ends(0, "row 4: ra is 361", "catalog", "--skip-bad", self.table, self.hips)
        self.assertIn("3 sources, orders 1 to 1: " + str(self.folder) + "/new\\nline\n", said)
        self.assertEqual((self.hips / "Norder1/Allsky.tsv").read_text().split("\n"), [
            "# Completeness = 3 / 3", "ra\tdec\tid\tmag\ta_note_=", "45.0\t60.0\tA 1\t10.5\tfirst line and  [2J", "135.0\t60.0\tB\t\tGröße",
            "0.0\t-60.0\tC\t9.0\t" + "x" * 300, ""])

    def test_modes(self):
        process = self.begin("catalog", "--title", "x", self.table, self.hips)
        self.assertIn("3 sources", process.communicate()[0])
        for path in (self.hips, *self.hips.rglob("*")):
            self.assertEqual(path.stat().st_mode & 0o777, 0o755 if path.is_dir() else 0o644, path)

    def test_what_is_there(self):
        self.ends(0, "3 sources", "catalog", self.table, self.hips)
        before = self.files(self.hips)
        self.ends(1, "is there already; --replace", "catalog", self.table, self.hips)
        self.ends(2, "--title has a control character", "catalog", "--replace", "--title", "x\ny = z", self.table, self.hips)
        self.ends(2, "invalid choice: 12", "catalog", "--replace", "--order", 12, self.table, self.hips)
        self.table.write_text("id,ra,dec,mag\nA,1,91,1\n")
        self.ends(1, "row 1: dec is 91", "catalog", "--replace", self.table, self.hips)
        self.assertEqual(self.files(self.hips), before)
        (self.folder / "link").symlink_to(self.hips)
        self.ends(1, "is a link", "catalog", "--replace", self.table, self.folder / "link")
        self.ends(1, "is no catalogue", "catalog", "--replace", self.table, self.folder)
        self.table.write_text(GOOD)
        self.ends(0, "3 sources", "catalog", "--replace", self.table, self.hips)
        self.assertEqual(sorted(path.name for path in self.folder.iterdir()), ["link", "new\nline", "table.csv"])

    def test_signals(self):
        (self.folder / "hipsd").write_text("#!/bin/sh\nexec sleep 60\n")
        (self.folder / "hipsd").chmod(0o755)
        process = self.begin("catalog", self.table, self.hips, env={**os.environ, "HIPSD_PROGRAM": str(self.folder / "hipsd"), "TMPDIR": str(self.folder)})
        while not list(self.folder.glob("hipsctl.*")):
            time.sleep(0.05)
        process.terminate()
        self.assertEqual((process.communicate()[0], process.returncode), ("", 143))
        self.assertEqual(list(self.folder.glob("hipsctl.*")), [])
        self.assertFalse(self.hips.exists())
