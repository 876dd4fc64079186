import os

from hipsctl.survey import tile_path
from hipsctl.tests.cases import Served, fits, needs_hipsd, survey_conf

MADE = ["Moc.fits", "Norder3/Allsky.fits", "properties", "Norder3/Dir0/Npix0.fits", "Norder4/Dir0/Npix0.fits", "Norder4/Dir0/Npix1.fits", "Norder4/Dir0/Npix2.fits"]


class Surveys(Served):
    def survey(self, name, *leaves, **keys):
        place = self.folder / name
        self.write(place, {tile_path(5, leaf): fits(range(leaf, leaf + 64)) for leaf in leaves} | {"survey.conf": survey_conf(**keys)})
        return place


@needs_hipsd
class Export(Surveys):
    def setUp(self):
        super().setUp()
        self.shelf = self.survey("a\nshelf", 0, 7, 8)

    def test_what_comes(self):
        leaves = self.files(self.shelf)
        said = self.ends(0, "hips_order = 5: 3 leaf tiles are there", "export", "--dry-run", self.shelf)
        self.assertIn("    would come:\n        Moc.fits: 1\n        Norder3/Allsky.fits: 1\n        properties: 1\n        tiles of order 3: 1\n        tiles of order 4: 3\n", said)
        self.assertNotIn("would go", said)
        self.assertEqual(self.files(self.shelf), leaves)
        self.ends(0, "exported 10", "export", self.shelf)
        self.assertEqual(set(self.files(self.shelf)) - set(leaves), set(MADE))
        self.ends(0, "verified 10", "export", self.shelf)
        for path in self.shelf.rglob("*"):
            self.assertEqual(path.stat().st_mode & 0o777, 0o755 if path.is_dir() else 0o644, path)

    def test_leaves_and_other_surveys(self):
        self.ends(0, "exported 10", "export", self.shelf)
        # What is at no path of a HiPS never goes.
        self.write(self.shelf, dict.fromkeys(("Norder3/Dir0/Npix05.fits", "Norder3/Dir0/Npix768.fits", "Norder12/Dir0/Npix0.fits", "notes/Npix1.fits"), b""))
        before = self.files(self.shelf)
        self.write(self.shelf, {"survey.conf": survey_conf(hips_order=8)})
        said = self.ends(1, "with --remove these files go", "export", self.shelf)
        self.assertIn("with hips_order = 5 in survey.conf the tiles of order 5 would be the leaves", said)
        self.assertIn("would go:", said)
        self.write(self.shelf, {"survey.conf": survey_conf(hips_order=12)})
        self.ends(4, "nothing is exported, since hipsd verify ends with status 2: conf 5 4", "export", "--remove", self.shelf)
        self.write(self.shelf, {"survey.conf": survey_conf(hips_order=4)})
        said = self.ends(1, tile_path(5, 7), "export", self.shelf)
        self.assertEqual(said.count("Norder5"), 3)
        said = self.ends(0, f"        {tile_path(5, 7)}", "export", "--dry-run", self.shelf)
        self.write(self.shelf, {"survey.conf": before["survey.conf"]})
        self.assertEqual(self.files(self.shelf), before)
        self.write(self.shelf, {"survey.conf": survey_conf(hips_order=4)})
        self.ends(0, "exported 7", "export", "--remove", self.shelf)
        self.assertEqual(set(before) - set(self.files(self.shelf)), {tile_path(5, leaf) for leaf in (0, 7, 8)})

    def test_what_is_made_again(self):
        """A leaf was taken away, so the tiles above it go, and no leaf does."""
        self.ends(0, "exported 10", "export", self.shelf)
        (self.shelf / tile_path(5, 8)).unlink()
        self.ends(0, "exported 8", "export", self.shelf)
        self.assertFalse((self.shelf / tile_path(4, 2)).exists())

    def test_owner_and_mode(self):
        self.ends(0, "exported 10", "export", self.shelf)
        mosaic = self.shelf / "Norder3/Allsky.fits"
        mosaic.write_bytes(b"x")
        mosaic.chmod(0o640)
        if os.geteuid() == 0:
            os.chown(mosaic, 7, 8)
            os.chown(self.shelf, 9, 10)
        (self.shelf / "properties").unlink()
        process = self.begin("export", self.shelf)
        self.assertIn("exported 10", process.communicate()[0])
        self.assertEqual((mosaic.stat().st_mode & 0o777, (self.shelf / "properties").stat().st_mode & 0o777), (0o640, 0o644))
        self.assertGreater(mosaic.stat().st_size, 1)
        if os.geteuid() == 0:
            self.assertEqual([(path.stat().st_uid, path.stat().st_gid) for path in (mosaic, self.shelf / "properties")], [(7, 8), (9, 10)])
            self.assertEqual((self.shelf / "Moc.fits").stat().st_uid, 0)

    def test_the_words(self):
        self.ends(2, "required: FOLDER", "export")
        self.ends(2, "not allowed with argument --remove", "export", "--remove", "--dry-run", self.shelf)
        self.ends(3, "nothing: No such file", "export", "nothing")


@needs_hipsd
class Mirror(Surveys):
    def setUp(self):
        super().setUp()
        self.copy = self.survey("copy", 1, 2)
        self.begin_server(self.survey("served", 0, 7, 8))

    def test_a_new_folder(self):
        new = self.folder / "new"
        self.ends(0, "is a copy of what is published", "mirror", self.address, new)
        self.ends(0, "verified 10", "export", new)
        self.ends(0, "is a copy", "mirror", self.address, new)
        self.assertEqual({path: path.stat().st_mode & 0o777 for path in new.iterdir()}[new / "survey.conf"], 0o644)

    def test_another_survey(self):
        self.write(self.copy, {"survey.conf": survey_conf(creator_did="ivo://example/P/other")})
        before = self.files(self.copy)
        said = self.ends(1, "with --remove these files go", "mirror", self.address, self.copy)
        self.assertIn("tiles of order 5: 2", said)
        self.ends(0, tile_path(5, 1), "mirror", "--dry-run", self.address, self.copy)
        self.assertEqual(self.files(self.copy), before)
        self.ends(0, "is a copy", "mirror", "--remove", self.address, self.copy)
        self.ends(0, "verified 10", "export", self.copy)

    def test_leaves(self):
        """Those that the server hasn't go by --remove alone."""
        self.ends(1, "with --remove these files go", "mirror", self.address, self.copy)
        self.assertEqual(len(self.files(self.copy)), 3)

    def test_what_is_no_server(self):
        self.ends(4, "nothing listens at 127.0.0.1:9", "mirror", "127.0.0.1:9", self.copy)
        self.ends(2, "is no address of a server", "mirror", "x\ny", self.copy)
