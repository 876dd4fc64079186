"""Runs the built program as its users do, and compares its exit statuses and what it writes: where `run` answers something else than 0,
where a word of the command line is not UTF-8, over the survey of a folder, and of made surveys.
"""

import os
import subprocess
import unittest

from checks.cases import Case, files_of
from checks.servers import PROGRAM, request
from survey_files import Survey, write_files

SURVEY = Survey("one", "Survey one", top=4, low=3, width=2)
USAGE = b"usage: hipsd COMMAND\n"
# Four stored numbers.
LEAF = bytes([0, 0] * 4 + [0, 1, 0, 2, 0, 3, 0, 5])
CLOSED = b"Content-Length: 0\r\nConnection: close\r\n\r\n"
PIN = b"POST /pin HTTP/1.1\r\nHost: a\r\n\r\n"
PINNED = b"HTTP/1.1 200 OK\r\nContent-Type: text/plain\r\nContent-Length: 9\r\nSurvey-Prefix: 0\r\n\r\npinned 0\n"
NO_LEAF = b"tile Norder4/Dir0/Npix0.fits 1 header 1\n"
ROWS, HEAD = b"5\t0\ta\t\n3\t1\tb\t\n4\t0\tc\t\n", b"rank\tnpix\tid\trest\n"
# What scripts/made-summary.py makes: NUMBER, EDITS, and what is written.
MADE = "7 4096|edits 3647 of 4096 leaves 3055 files 5905 prefix 3647 sum 1470804113"


class Statuses(Case):
    """A row of a table has a status, an output, an input, and the words."""

    def setUp(self):
        super().setUp()
        self.shelf = self.folder / "shelf"
        self.shelf.mkdir()

    def ends(self, *rows):
        for status, output, given, *words in rows:
            with self.subTest(words=words, given=given[:80]):
                self.assertEqual(self.hipsd(status, "", *[word for text in words for word in (text.split() if isinstance(text, str) else [text])],
                                            cwd=self.shelf, given=given)[0], output)

    def describe(self, order=4):
        write_files(self.shelf, {"survey.conf": SURVEY.description().replace(b"hips_order = 4", b"hips_order = %d" % order)})

    def test_probes(self):
        self.ends(
            (0, bytes([128, 0, 128, 0, 0, 3, 128, 0]), LEAF, "probe 4 1 3 0"), (1, USAGE, LEAF), (1, USAGE, LEAF, "probe 4 1 5 0"),
            (1, USAGE, LEAF, b"\xff"), (1, USAGE, LEAF, "probe 4 1 3", b"0\xff"), (4, b"", bytes(4), "probe 4 1 3 0"),
            (10, b"", b"", "probe 4 1 3 0"), (13, b"", LEAF, "probe 4 1 3 768"),
        )

    def test_a_folder(self):
        """Without a description, with a wrong one, without leaves, with a file that isn't its own, and with a leaf that is no FITS file."""
        self.ends((2, b"conf absent\n", b"", "export"), (2, b"conf absent\n", b"", "serve 127.0.0.1:0 1 1"))
        self.describe(12)
        self.ends((2, b"conf 5 4\n", b"", "verify"))
        self.describe()
        self.ends((0, b"exported 2\n", b"", "export"), (0, b"verified 2\n", b"", "verify"))
        write_files(self.shelf, {"Norder3/Allsky.fits": b"stray\n", "note.txt": b"note\n"})
        self.ends((9, b"differs Norder3/Allsky.fits\n", b"", "verify"), (0, b"exported 2\n", b"", "export"), (0, b"verified 2\n", b"", "verify"))
        self.assertEqual(sorted(files_of(self.shelf)), ["Moc.fits", "note.txt", "properties", "survey.conf"])
        write_files(self.shelf, {"Norder4/Dir0/Npix0.fits": b"SIMPLE  = "})
        self.ends((3, NO_LEAF, b"", "export"), (3, NO_LEAF, b"", "verify"), (3, NO_LEAF, b"GET /prop", "session"), (3, NO_LEAF, b"look\n", "past 1"))

    def test_over_a_survey(self):
        """Connections, records of the past, a catalogue, copies and servers beside a survey without leaves, which stays as it is."""
        self.describe()
        self.hipsd(0, "", "export", cwd=self.shelf)
        before = files_of(self.shelf)
        self.ends(
            (0, b"", b"", "session"), (4, b"", b"GET /prop", "session"), (0, PINNED, PIN, "session"),
            (14, b"HTTP/1.1 411 Length Required\r\n" + CLOSED, b"PUT /Norder4/Dir0/Npix0.fits HTTP/1.1\r\nHost: a\r\n\r\n", "session"),
            (14, b"HTTP/1.1 505 HTTP Version Not Supported\r\n" + CLOSED, b"GET / HTTP/2.0\r\nHost: a\r\n\r\n", "session"),
            (1, USAGE, b"look\n", "past 0"), (1, USAGE, b"look\n", "past 9"), (0, b"", b"", "past 1"),
            (0, b"refused 0 edit 2\nabsent\nfuture 0\n", b"batch 9\nremove 0\nread 0 x\nread 1 x\n", "past 8"),
            (4, b"absent\n", b"read 0 x\nread 0 x", "past 1"), (17, b"absent\n", b"read 0 x\nlook\n", "past 1"),
            (1, USAGE, ROWS, "catalog 12 1"), (1, USAGE, ROWS, "catalog 1 4097"),
            # Words that are no row of the table, and addresses where nobody listens or can listen.
            (1, USAGE, b"", "mirror"), (1, USAGE, b"", "mirror 127.0.0.1:1 1"), (6, b"", b"", "mirror 127.0.0.1:1"), (6, b"", b"", "mirror nowhere.invalid:1"),
            (1, USAGE, b"", "serve 127.0.0.1:0 1 0"), (1, USAGE, b"", "serve 127.0.0.1:0 1 65"), (1, USAGE, b"", "serve 127.0.0.1:0 0 1"),
            (1, USAGE, b"", "serve 127.0.0.1:0 65537 1"), (1, USAGE, b"", "serve 127.0.0.1:0 01 1"), (1, USAGE, b"", "serve 127.0.0.1:0 1"),
            (8, b"", b"", "serve nowhere.invalid:1 1 2"), (0, b"verified 2\n", b"", "verify"),
        )
        self.assertEqual(files_of(self.shelf), before)

    def test_a_catalogue(self):
        """Its rows and its tiles, lines with a fault, which change nothing, and no rows; the survey stays."""
        self.describe()
        self.hipsd(0, "", "export", cwd=self.shelf)

        def tiles():
            return {path: text.removeprefix(HEAD) for path, text in files_of(self.shelf).items() if path.endswith(".tsv")}

        self.ends((0, b"rows 3 tiles 2\n", ROWS, "catalog 1 1"))
        kept = {"Norder0/Dir0/Npix0.tsv": b"3\t1\tb\t\n", "Norder1/Dir0/Npix0.tsv": b"4\t0\tc\t\n5\t0\ta\t\n"}
        self.assertTrue(all(text.startswith(HEAD) for path, text in files_of(self.shelf).items() if path.endswith(".tsv")))
        self.assertEqual(tiles(), kept)
        self.ends((16, b"row 4 7\n", ROWS + b"5\t0\ta\t\n", "catalog 1 1"), (16, b"row 1 9\n", b"-\tb\n", "catalog 1 1"), (4, b"", ROWS + b"5", "catalog 1 1"))
        self.assertEqual(tiles(), kept)
        self.ends((0, b"rows 2 tiles 2\n", ROWS + b"-\tb\n", "catalog 1 1"))
        self.assertEqual(tiles()["Norder0/Dir0/Npix0.tsv"], b"4\t0\tc\t\n")
        self.ends((0, b"rows 0 tiles 0\n", b"", "catalog 0 4096"), (0, b"verified 2\n", b"", "verify"))
        self.assertEqual(tiles(), {})

    def test_requests_up_to_their_number(self):
        """65,536 are answered, the last of them with `Connection: close`, and no more."""
        self.describe()
        replies, _ = self.hipsd(12, "", "session", cwd=self.shelf, given=request(b"HEAD", b"/Moc.fits") * 65_537)
        self.assertEqual((replies.count(b"HTTP/1.1 200 OK\r\n"), replies.count(b"Connection: close\r\n")), (65_536, 1))

    def test_made_surveys(self):
        """Where 4,096 edits are made all accepted ones are published."""
        words, line = MADE.split("|")
        self.ends((1, USAGE, b"", "make 0 4097"), (0, b"edits 1 of 1 leaves 1 files 6 prefix 1 sum 103636951\n", b"", "make 0 1"),
                  (0, f"{line}\n".encode(), b"", f"make {words}"))

    @unittest.skipUnless(os.path.exists("/dev/full"), "there is no /dev/full")
    def test_a_full_device(self):
        with open("/dev/full", "wb") as full:
            self.assertEqual(subprocess.run([PROGRAM, "probe", "4", "1", "3", "0"], input=LEAF, stdout=full, stderr=subprocess.DEVNULL).returncode, 6)
