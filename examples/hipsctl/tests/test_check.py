import os
import unittest
from unittest import mock

from hipsctl.survey import tile_path
from hipsctl.tests.cases import Case, fits, survey_conf


class Check(Case):
    def setUp(self):
        super().setUp()
        self.folder.chmod(0o755)
        self.shelf = self.folder / "a\nshelf"
        self.write(self.shelf, {"survey.conf": survey_conf()} | {tile_path(5, leaf): fits(range(64)) for leaf in (0, 7)})

    def check(self, status, *texts):
        said = self.ends(status, "", "check", "--user", "nobody", self.shelf)
        for text in texts:
            self.assertIn(text, said)
        return said

    def conf(self, **keys):
        self.write(self.shelf, {"survey.conf": survey_conf(**keys)})

    def test_what_is_right(self):
        self.assertEqual(self.check(0), "note: 2 leaf tiles of order 5, 8 by 8 pixels of 16 bits: 65,536 edits are left\n")
        self.conf(hips_initial_fov=2, hips_pixel_cut="0 9", obs_regime="Optical", hips_service_url_1="http://x.example")
        self.assertNotIn("looks like", self.check(0))

    def test_keys(self):
        self.conf(hips_ordre_min=0, hips_tile_widht=8, hips_pixel_cuts="0 9")
        self.check(0, "line 9: nobody reads hips_ordre_min, which looks like hips_order_min", "hips_tile_widht, which looks like hips_tile_width",
                   "hips_pixel_cuts, which looks like hips_pixel_cut")
        self.conf(hips_order=12, hips_tile_width=100, survey_blank="-3.0", survey_bscale=0, survey_bzero="x", survey_blnk=1, survey_rule="mode", Key=1)
        said = self.check(1, "line 5, hips_order = 12: it must be 3 to 11", "hips_tile_width = 100: it must be 2 or 4 or 8", "survey_blank = -3.0: it must be a whole number",
                          "survey_bscale = 0: it must be a number other than 0", "survey_bzero = x: it must be a number",
                          "survey_blnk = 1: there is no such key: is it survey_blank?", "survey_rule = mode: it must be mean or median",
                          "no 'key = value' of small letters", "survey_rule needs survey_version = 2")
        self.assertEqual(said.count("fault: survey.conf: "), 9)
        self.write(self.shelf, {"survey.conf": b"hips_order = 5\nhips_order = 6\nobs_title = \x1b[2J\n"})
        said = self.check(1, "line 2: hips_order is there twice", "line 3 is no", "\\x1b[2J", "survey_bitpix is missing", "creator_did is missing")
        self.assertNotIn("\x1b", said)
        self.conf(survey_blank=40_000)
        self.check(1, "survey_blank = 40000 is no number of 16 bits, -32768 to 32767")

    def test_leaves(self):
        self.write(self.shelf, {tile_path(5, 1): fits(range(64), BLANK="-32768.0"), tile_path(5, 2): fits(range(64), BSCALE=2), tile_path(5, 3): fits(range(64))[:2900],
                                tile_path(5, 4): fits(range(256), width=16)})
        self.check(1, "Npix1.fits: BLANK is -32768.0, which is no whole number: hipsctl import", "Npix2.fits: BSCALE is 2, and 1 in survey.conf",
                   "Npix3.fits: 108 bytes of its pixels are missing", "Npix4.fits: it has 16 by 16 pixels of 16 bits, and survey.conf 8 by 8")

    def test_tiles_that_are_not_read(self):
        self.write(self.shelf, dict.fromkeys((tile_path(6, 1), "Norder5/Dir0/Npix007.fits", "Norder5/Dir0/Npix8.fits.gz", tile_path(4, 0)), b""))
        self.check(0, "1 tiles are of order 6: they aren't read, and export removes them\n", "2 files look like tiles and are none, as Norder5/Dir0/Npix007.fits")
        self.conf(hips_order=4)
        (self.shelf / tile_path(4, 0)).unlink()
        self.check(0, "2 tiles are of order 5: they aren't read, and export removes them; with hips_order = 5 they would be the leaves", "there is no leaf tile")

    def test_links(self):
        (self.shelf / "Norder5").rename(self.shelf / "tiles")
        (self.shelf / "Norder5").symlink_to("tiles")
        self.check(1, "Norder5 is a link to a folder, or to nothing: hipsd doesn't start")
        (self.shelf / "survey.conf").rename(self.shelf / "other")
        self.ends(1, "there is no survey.conf", "check", self.shelf)
        os.mkfifo(self.shelf / "survey.conf")
        self.ends(1, "survey.conf is no regular file", "check", self.shelf)

    def test_more_than_fit(self):
        with mock.patch("hipsctl.survey.MOST_BYTES", 1024):
            self.check(1, "2 leaf tiles of 8 by 8 pixels of 16 bits are more than the 1 that fit")

    @unittest.skipUnless(os.geteuid() == 0, "only root is another user than nobody for sure")
    def test_owner_and_mode(self):
        (self.shelf / tile_path(5, 7)).chmod(0o600)
        (self.shelf / "survey.conf").chmod(0o640)
        self.check(1, "the user nobody can't read 2 files or folders, as ", "sudo chmod -R a+rX")
        self.folder.chmod(0o700)
        self.check(1, f"the user nobody can't enter {self.folder} (mode drwx------)")
        self.ends(1, "there is no user x here: what others can't read is named", "check", "--user", "x", self.shelf)
        self.ends(0, "65,536 edits are left", "check", "--user", "root", self.shelf)
