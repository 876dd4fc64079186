import gzip
import os
import subprocess
from collections import namedtuple
from unittest import mock

from hipsctl.headers import cards_of
from hipsctl.tests.cases import PROGRAM, Case, fits, needs_hipsd

PROPERTIES = """creator_did          = ivo://example/P/one
obs_title            = One
hips_order           = 5
hips_order_min       = 0
hips_release_date    = 2026-01-02T03:04Z
hips_status          = public master clonableOnce
hips_frame           = equatorial
hips_tile_format     = fits png
hips_tile_width      = 8
hips_nb_tiles        = 4711
hips_service_url     = http://elsewhere.example/hips
hipsgen_date_1       = 2026-01-01T00:00Z
moc_sky_fraction     = 0.5
hips_initial_fov     = 2.0
#hips_comment        = none
"""
LEAF = "Norder5/Dir0/Npix{}.fits"


class Import(Case):
    def setUp(self):
        super().setUp()
        self.hips, self.new = self.folder / "the hips", self.folder / "new\nline"
        self.write(self.hips, {LEAF.format(leaf): self.tile(leaf) for leaf in (1, 2, 3)} | {"properties": PROPERTIES.encode()})
        self.write(self.hips, {LEAF.format(2): gzip.compress(self.tile(2))})

    def tile(self, leaf, **cards):
        """As HipsGen writes it, with a BLANK that is no whole number."""
        return fits(range(leaf, leaf + 64), **{"BLANK": "-32768.0", **cards})

    def refused(self, text, **keys):
        """With these keys the HiPS is refused, in two lines, and nothing is made."""
        told = {key: value for key, _, value in (line.partition("=") for line in PROPERTIES.splitlines())}
        told = {key.strip(): value.strip() for key, value in told.items()} | keys
        (self.hips / "properties").write_text("".join(f"{key} = {value}\n" for key, value in told.items()))
        said = self.ends(1, text, "import", self.hips, self.new)
        self.assertFalse(self.new.exists())
        (self.hips / "properties").write_text(PROPERTIES)
        return said

    def test_what_is_no_image(self):
        self.refused("the HiPS is a cube", dataproduct_type="cube")
        self.refused("the HiPS is a cube", hips_cube_depth="3")
        self.refused("the HiPS is a catalogue, and hipsd serves images: hipsctl catalog", dataproduct_type="catalog")

    def test_other_forms(self):
        self.refused("hips_frame is galactic, and hipsd's is equatorial: make it again from your images: java ", hips_frame="galactic")
        self.refused("hips_order is 12, and hipsd's leaves are of orders 3 to 11", hips_order="12")
        self.refused("out=HIPS hips_order=3 INDEX TILES", hips_order="2")
        self.refused("hips_tile_width is 1024, and hipsd's is at most 512", hips_tile_width="1024")
        self.write(self.hips, {LEAF.format(1): fits(range(1024**2), width=1024)})
        self.refused("it has 1024 by 1024 pixels, and hipsd's tiles have at most 512 by 512")
        self.write(self.hips, {LEAF.format(1): self.tile(1, BITPIX=-32)})
        self.refused("the pixels are real numbers (BITPIX -32), and hipsd's are whole ones: make it again from your images")
        self.write(self.hips, {LEAF.format(1): self.tile(1, NAXIS=3)})
        self.refused("it has 3 axes")
        for leaf in (1, 2, 3):
            (self.hips / LEAF.format(leaf)).rename(self.hips / LEAF.format(leaf).replace(".fits", ".png"))
        self.refused("its tiles are png, and hipsd serves FITS: make it again")

    def test_addresses(self):
        self.ends(1, "is an address: copy the HiPS first: java -jar AladinBeta.jar -hipsgen in=https://alasky.example/x out=HIPS MIRROR",
                  "import", "https://alasky.example/x", self.new)
        self.ends(1, "there is no folder nothing", "import", "nothing", self.new)

    def test_what_looks_like_a_tile(self):
        for name in ("Npix7_w.fits", "Npix7_1.fits", "Npix007.fits", "Npix8.fits.gz", "Npix10007.fits"):
            self.write(self.hips, {f"Norder5/Dir0/{name}": self.tile(7)})
            self.assertIn(name, self.refused("1 files of order 5 look like tiles and are none"))
            (self.hips / f"Norder5/Dir0/{name}").unlink()

    def test_all_bad_tiles_at_once(self):
        self.write(self.hips, {LEAF.format(1): self.tile(1)[:3000], LEAF.format(4): self.tile(4)[:100], LEAF.format(5): self.tile(5, BLANK=7),
                               LEAF.format(6): self.tile(6, BSCALE="2.0"), LEAF.format(7): gzip.compress(self.tile(7))[:-9],
                               LEAF.format(8): self.tile(8) + b"x" * 2880})
        self.assertIn("Npix1.fits: 8 bytes of its pixels are missing", self.refused(""))
        self.write(self.hips, {LEAF.format(1): self.tile(1)})
        said = self.refused("5 of 8 tiles can't be served, and nothing is written:\n")
        for text in ("Npix4.fits: it ends within its header", "Npix5.fits: BLANK is 7, and -32768 in the first", "Npix6.fits: BSCALE is 2.0, and 1.0",
                     "Npix7.fits: it isn't packed whole", "Npix8.fits: 2,880 bytes follow"):
            self.assertIn(text, said)

    def test_more_than_fits(self):
        with mock.patch("hipsctl.survey.MOST_BYTES", 2048):
            self.refused("3 tiles of 8 by 8 pixels of 16 bits are more than the 2 that a server has room for")
        disk = namedtuple("Disk", "f_frsize f_bavail")(4096, 3)
        with mock.patch("os.statvfs", return_value=disk):
            self.assertIn("12,288 are free", self.refused("the tiles have 29,952 bytes, and at"))

    def test_line_ends(self):
        self.refused("the value of obs_title has a control character: One\\rsurvey_blank = 7", obs_title="One\rsurvey_blank = 7")
        self.refused("the value of hips_creator has a control character: \\x1b[2J", hips_creator="\x1b[2J")
        cron = "1\n* * * * * root x"
        self.write(self.hips, {LEAF.format(1): self.tile(1, BSCALE=cron).replace(cron.rjust(20).encode(), cron.encode().rjust(20))})
        self.refused("its header has bytes that aren't printable ASCII")
        self.write(self.hips, {LEAF.format(1): self.tile(1, BSCALE="* * * root x")})
        self.refused("BSCALE is * * * root x, which is no number")

    def test_links_and_devices(self):
        secret, leaf = self.folder / "secret", self.hips / LEAF.format(3)
        secret.write_bytes(self.tile(3))
        leaf.unlink()
        leaf.symlink_to(secret)
        self.refused("Npix3.fits is a link")
        leaf.unlink()
        os.mkfifo(leaf)
        self.refused("is no regular file")
        leaf.unlink()
        (self.hips / "Norder5").rename(self.folder / "elsewhere")
        (self.hips / "Norder5").symlink_to(self.folder / "elsewhere")
        self.refused("Norder5 is a link")
        (self.hips / "properties").unlink()
        os.mkfifo(self.hips / "properties")
        self.ends(1, "properties is no regular file", "import", self.hips, self.new)

    def test_nothing_is_written_through_a_link(self):
        other, cron = self.folder / "other", self.folder / "cron"
        other.mkdir()
        cron.write_text("")
        self.new.mkdir()
        (self.new / "survey.conf").symlink_to(cron)
        self.ends(0, "3 leaf tiles", "import", self.hips, self.new)
        self.assertEqual((cron.read_text(), (self.new / "survey.conf").is_symlink()), ("", False))
        for path in (self.new / LEAF.format(1)).parent.iterdir():
            path.unlink()
        (self.new / "Norder5/Dir0").rmdir()
        (self.new / "Norder5/Dir0").symlink_to(other)
        self.ends(1, "Dir0 is a link", "import", self.hips, self.new)
        self.assertEqual(list(other.iterdir()), [])

    def test_what_unpacks_to_much(self):
        (self.hips / LEAF.format(1)).write_bytes(gzip.compress(self.tile(1)) + gzip.compress(b"1" * 2**24) * 192)
        process = self.begin("import", self.hips, self.new, before="ulimit -v 2097152;")
        self.assertIn("Npix1.fits: it unpacks to more than 2,206,080 bytes", process.communicate()[0])

    def test_what_is_there(self):
        self.ends(0, "3 leaf tiles of order 5, 8 by 8 pixels of 16 bits: room is left for 65,536 edits", "import", self.hips, self.new)
        before = self.files(self.new)
        self.ends(1, "new\\nline has 3 tiles already, as Norder5/Dir0/Npix", "import", self.hips, self.new)
        self.ends(1, "are the same folder", "import", "--replace", self.hips, self.hips)
        self.assertEqual(self.files(self.new), before)
        for leaf, other in ((1, 20_001), (2, 5)):
            path = self.hips / f"Norder5/Dir{other // 10000 * 10000}/Npix{other}.fits"
            self.write(self.hips, {path: (self.hips / LEAF.format(leaf)).read_bytes()})
            (self.hips / LEAF.format(leaf)).unlink()
        (self.hips / "Norder5/Dir20000").rename(self.hips / "Norder5/Dir10000")
        (self.hips / "Norder5/Dir10000/Npix20001.fits").rename(self.hips / "Norder5/Dir10000/Npix10001.fits")
        self.ends(0, "3 leaf tiles", "import", "--replace", self.hips, self.new)
        self.assertEqual(sorted(self.files(self.new)), [LEAF.format(3), LEAF.format(5), "Norder5/Dir10000/Npix10001.fits", "survey.conf"])

    def test_what_is_written(self):
        process = self.begin("import", self.hips, self.new)
        said = process.communicate()[0]
        self.assertIn("keys left out, since hipsd makes other files: hips_nb_tiles, hips_service_url, hipsgen_date_1, moc_sky_fraction", said)
        for path in (self.new, *self.new.rglob("*")):
            self.assertEqual(path.stat().st_mode & 0o777, 0o755 if path.is_dir() else 0o644, path)
        self.assertEqual((self.new / "survey.conf").read_text(), """creator_did = ivo://example/P/one
obs_title = One
hips_release_date = 2026-01-02T03:04Z
hips_status = public master clonableOnce
hips_order = 5
hips_order_min = 0
hips_tile_width = 8
survey_bitpix = 16
survey_bscale = 1.0E0
survey_bzero = 0.0E0
survey_blank = -32768
hips_initial_fov = 2.0
""")
        for leaf in (1, 2, 3):
            got, expected = (self.new / LEAF.format(leaf)).read_bytes(), fits(range(leaf, leaf + 64))
            self.assertEqual((set(cards_of(got)[0]), got[2880:]), (set(cards_of(expected)[0]), expected[2880:]))

    @needs_hipsd
    def test_what_comes_next(self):
        """The command that is told serves the survey."""
        told = self.ends(0, "next: ", "import", self.hips, self.new).partition("next: ")[2].strip()
        # In place of serving it, which waits.
        told = told.replace("hipsd serve 127.0.0.1:8080 65536 64", f"'{PROGRAM}' export").removesuffix(" &")
        self.assertEqual(subprocess.run(["bash", "-c", told], capture_output=True, cwd="/").stdout, b"exported 11\n")
