import os
import shutil
import socket
import subprocess
import time
from unittest import mock

from hipsctl.survey import tile_path
from hipsctl.tests.cases import Served, fits, needs, needs_hipsd, survey_conf
from hipsctl.watching import connections


@needs_hipsd
class Status(Served):
    def setUp(self):
        super().setUp()
        self.write(self.folder / "served", {"survey.conf": survey_conf(), tile_path(5, 0): fits(range(64))})
        self.begin_server(self.folder / "served")
        (self.folder / "site").write_text(f"# the server\nserver unix:{self.address} max_conns=48;\n")
        (self.folder / "tile").write_bytes(fits(range(64)))
        self.copy(60)

    def copy(self, seconds):
        """The newest copy is so old."""
        link = self.folder / "survey"
        link.unlink(missing_ok=True)
        name = time.strftime("survey.%Y%m%dT%H%M%SZ", time.gmtime(time.time() - seconds))
        (self.folder / name).mkdir()
        link.symlink_to(name)

    def status(self, status, *texts, words=()):
        places = {"site": "site", "sockets": "run", "copies": "survey", "certificate": "hipsd.pem", "pause": "paused"}
        said = self.ends(status, "", "status", *words, *[word for name, value in places.items() for word in (f"--{name}", self.folder / value)])
        for text in texts:
            self.assertIn(text, said)
        return said

    def checks(self, status, text):
        said = self.status(status, f"HIPSD {('OK', 'WARNING', 'CRITICAL', 'UNKNOWN')[status]} - ", text, words=["--check"])
        self.assertEqual(said.count("\n"), 1)

    def test_a_person(self):
        for words in (["put", f"7={self.folder}/tile", f"8={self.folder}/tile"], ["publish"], ["remove", 7]):
            self.ends(0, "", *words[:1], "--server", self.address, *words[1:])
        self.status(0, f"One at {self.address}, process {self.server.pid}, for ", "of 8 places have a connection", "3 of 65,536 edits, and at most 6 of 524,288 tiles",
                    "room is left for 65,533 edits", "1 edits aren't published", "the newest copy is 6", " seconds old: survey.2")
        self.checks(0, "One at ")

    def test_since_when(self):
        minutes = [time.strftime("(since %Y-%m-%d %H:%M UTC)", time.gmtime(time.time() - back)) for back in (0, 30, 60)]
        text = self.status(0)
        self.assertTrue(any(minute in text for minute in minutes), text)

    def test_full(self):
        with mock.patch("hipsctl.watching.MOST_EDITS", 10), mock.patch("hipsctl.survey.MOST_BYTES", 1024 * 10):
            self.checks(0, "One at ")
            self.ends(0, "", "put", "--server", self.address, *[f"{leaf}={self.folder}/tile" for leaf in range(1, 8)])
            self.checks(1, "7 of 10 edits, and at most 8 of 10 tiles, of 8 by 8 pixels of 16 bits: room is left for 2 edits")
            self.ends(0, "", "put", "--server", self.address, *[f"{leaf}={self.folder}/tile" for leaf in range(8, 11)])
            self.checks(2, "room is left for 0 edits")

    def test_places(self):
        ones = [socket.socket(socket.AF_UNIX) for _ in range(7)]
        for one in ones:
            one.connect(self.address)
        while connections(self.address)[0] < 7:
            time.sleep(0.02)
        self.status(0, "7 of 8 places have a connection")
        for one in ones:
            one.close()

    def test_pause(self):
        paused = self.folder / "paused"
        paused.touch()
        self.checks(1, "edits are paused for 0 seconds by ")
        os.utime(paused, (1, time.time() - 3600))
        self.checks(2, "edits are paused for 60 minutes by ")

    def test_two_servers(self):
        (self.folder / "run").mkdir()
        with socket.socket(socket.AF_UNIX) as one, socket.socket(socket.AF_UNIX) as other:
            one.bind(str(self.folder / "run/survey0"))
            one.listen()
            self.status(0, "1 servers listen in ")
            other.bind(str(self.folder / "run/survey1"))
            other.listen()
            self.checks(1, ": survey0, survey1: a renewal is in progress, or was ended")

    def test_copies(self):
        self.copy(-7200)
        self.checks(1, "the newest copy is of the future: survey.2")
        self.copy(8000)
        self.checks(1, "the newest copy is 2 hours old")
        shutil.rmtree(self.folder / os.readlink(self.folder / "survey"))
        self.checks(2, "leads to no copy")
        (self.folder / "survey").unlink()
        self.checks(1, "there is no copy at ")

    @needs("openssl", shutil.which("openssl"))
    def test_certificate(self):
        for days, status, text in ((100, 0, "One at "), (10, 1, "the certificate ends in 9 days"), (1, 2, "the certificate ends in ")):
            subprocess.run(["openssl", "req", "-x509", "-newkey", "rsa:2048", "-nodes", "-days", str(days), "-subj", "/CN=x", "-keyout", self.folder / "key",
                            "-out", self.folder / "hipsd.pem"], check=True, capture_output=True)
            self.checks(status, text)
        (self.folder / "hipsd.pem").write_text("half")
        self.checks(2, "is no certificate")

    def test_no_server(self):
        self.server.kill()
        self.server.wait()
        self.checks(2, "doesn't answer: nothing listens at ")
        self.status(4, "doesn't answer: nothing listens at ")
        (self.folder / "site").write_text("server 127.0.0.1:8080;\nserver 127.0.0.1:8081;\n")
        self.ends(3, "names 2 servers", "status", "--check", "--site", self.folder / "site")

    def test_prometheus(self):
        file, other = self.folder / "hipsd.prom", self.folder / "other"
        other.write_text("mine")
        file.symlink_to(other)
        self.status(0, words=["--prom", file])
        self.assertEqual((other.read_text(), file.stat().st_mode & 0o777, file.is_symlink()), ("mine", 0o644, False))
        lines = file.read_text().splitlines()
        for line in ("hipsd_up 1", "hipsd_edits 0", "hipsd_tiles 1", "hipsd_places 8", "hipsd_paused 0", "hipsd_edits_unpublished 0"):
            self.assertIn(line, lines)
        self.server.kill()
        self.server.wait()
        self.status(4, words=["--prom", file])
        self.assertIn("hipsd_up 0", file.read_text().splitlines())
