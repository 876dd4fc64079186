import os
import threading
from http.server import BaseHTTPRequestHandler, HTTPServer
from importlib.util import find_spec
from unittest import mock

from hipsctl.client import Server
from hipsctl.survey import tile_path
from hipsctl.tests.cases import Served, fits, needs, needs_hipsd, survey_conf

ESCAPE = b"\x1b]0;taken\x07"


class Edits(Served):
    def setUp(self):
        super().setUp()
        self.enterContext(mock.patch.dict(os.environ))
        for name in ("HIPSD", "HIPSD_SOCKET", "HIPSD_JOURNAL"):
            os.environ.pop(name, None)
        self.tile = self.folder / "a \ntile=\udcff"
        self.tile.write_bytes(fits(range(64)))

    def given(self, data):
        """These bytes on standard input."""
        return mock.patch("sys.stdin", **{"buffer.read.return_value": data})


@needs_hipsd
class Sent(Edits):
    """To hipsd."""

    def setUp(self):
        super().setUp()
        self.write(self.folder / "served", {"survey.conf": survey_conf()})
        self.begin_server(self.folder / "served")
        os.environ["HIPSD_SOCKET"] = self.address

    def served(self, leaf):
        self.ends(0, "published", "publish")
        self.ends(0, "", "get", "--output", self.folder / "got", tile_path(5, leaf))
        return (self.folder / "got").read_bytes()

    def test_each_edit(self):
        self.ends(0, "1 edits accepted, 1 of 65,536 in all", "put", f"7={self.tile}")
        self.ends(1, "the leaf has a tile already", "add", f"7={self.tile}")
        self.ends(1, "replace 8=", "replace", f"8={self.tile}")
        self.ends(0, "2 edits accepted, 3 of 65,536", "add", f"8={self.tile}", f"{tile_path(5, 9)}={self.tile}")
        self.ends(1, "add 9=", "add", f"10={self.tile}", f"9={self.tile}")
        self.ends(0, "2 edits accepted, 5 of", "remove", 8, tile_path(5, 9))
        self.ends(1, "remove 8: the leaf has no tile", "remove", 8)
        self.ends(0, "published 5", "publish")
        self.ends(0, "already 5", "publish")
        body = b"put 9 %d\n%sremove 7\n" % (len(self.tile.read_bytes()), self.tile.read_bytes())
        with self.given(body):
            self.ends(0, "2 edits accepted, 7 of", "batch")
        with self.given(body):
            self.ends(1, "remove 7, entry 1 from 0: the leaf has no tile", "batch")
        with self.given(b""):
            self.ends(2, "there are none", "batch")

    def test_many_files(self):
        """By a folder, in two batches; by lists of names with any bytes."""
        place = self.folder / "tiles"
        self.write(place, {tile_path(5, leaf): fits(range(leaf, leaf + 64)) for leaf in range(100)} | {tile_path(4, 3): b"", "note": b""})
        with mock.patch("hipsctl.client.Server.ask", autospec=True, side_effect=Server.ask) as asked:
            self.ends(0, "100 edits accepted, 100 of", "put", place)
        self.assertEqual([call.args[2] for call in asked.call_args_list], ["properties", "batch", "batch", "batch"])
        self.assertEqual(self.served(99)[2880:3008], fits(range(99, 163))[2880:3008])
        (self.folder / "plain").write_bytes(self.tile.read_bytes())
        with self.given(f"101={self.folder}/plain\n102={self.folder}/plain\n".encode()):
            self.ends(0, "2 edits accepted", "add", "-")
        with self.given(os.fsencode(f"103={self.tile}\0")):
            self.ends(0, "1 edits accepted", "add", "--null", "-")
        with self.given(b"101\n102\n"):
            self.ends(0, "3 edits accepted", "remove", 103, "-")

    def test_nothing_is_sent(self):
        """Where a later word is wrong."""
        other = self.folder / "other"
        other.write_bytes(b"GIF89a")
        for status, text, *words in (
            (2, "leaves are of order 5, 0 to 12,287", f"7={self.tile}", f"12288={self.tile}"), (2, "is no leaf", f"{tile_path(4, 7)}={self.tile}"),
            (2, "is no LEAF=FILE, and no folder", f"7={self.tile}", "x=y"), (2, "the leaf 7 is there twice", f"7={self.tile}", f"{tile_path(5, 7)}={self.tile}"),
            (3, "No such file", f"7={self.tile}", "8=nothing\n"), (1, "is no regular file", "7=/dev/zero"), (1, "other: it is no FITS file", f"7={other}"),
            (2, "there are no tiles in", self.folder / "served"),
        ):
            with self.subTest(text):
                said = self.ends(status, text, "put", *words)
                self.assertNotIn("\n", said.rstrip("\n").partition("hipsctl: ")[2].partition("\n    ")[0])
        os.environ["HIPSD_JOURNAL"] = "journal"
        self.ends(1, "hipsctl keeps no journal", "put", f"7={self.tile}")
        del os.environ["HIPSD_JOURNAL"]
        self.ends(0, "already 0", "publish")

    def test_refusals_in_words(self):
        for text, data in (
            ("its pixels are real numbers (BITPIX -32)", fits(range(64), BITPIX=-32)), ("8 bytes of its pixels are missing", fits(range(64))[:3000]),
            ("card 8 has no value of its kind: BLANK   =             -32768.0, and must be a whole number", fits(range(64), BLANK="-32768.0")),
            ("NAXIS1 is 16", fits(range(256), width=16)), ("BSCALE isn't the survey's", fits(range(64), BSCALE="2.0")),
        ):
            self.tile.write_bytes(data)
            self.ends(1, f"is no tile of this survey: {text}", "put", f"7={self.tile}")
        (self.folder / "right").write_bytes(fits(range(64)))
        self.ends(1, f"put 7={self.folder}/a \\ntile=\\udcff is no tile of this survey", "put", f"8={self.folder}/right", f"7={self.tile}")

    def test_read(self):
        self.ends(0, "1 edits", "put", f"7={self.tile}")
        self.ends(0, "published", "publish")
        into, secret = self.folder / "into", self.folder / "secret"
        into.mkdir()
        process = self.begin("read", "--into", into, "properties", tile_path(5, 7), env={**os.environ})
        self.assertEqual((process.communicate()[0], process.returncode), ("2 files as of edit 1\n", 0))
        for path in into.rglob("*"):
            self.assertEqual(path.stat().st_mode & 0o777, 0o755 if path.is_dir() else 0o644, path)
        (into / "properties").unlink()
        (into / "properties").symlink_to(secret)
        secret.write_text("mine")
        self.ends(0, "1 files", "read", "--into", into, "properties")
        self.ends(0, "", "get", "--output", into / "link", "properties")
        (into / "Norder3").symlink_to(self.folder)
        self.ends(1, "Norder3 is a link", "read", "--into", into, "Norder3/Allsky.fits")
        self.ends(1, f"{tile_path(5, 8)} is answered 404 not found", "read", "--into", into / "..", "properties", tile_path(5, 8))
        self.assertFalse((self.folder / "properties").exists())
        self.assertEqual(secret.read_text(), "mine")
        for path in ("../properties", "Norder5/Dir0/Npix7.fits\n", "/etc/passwd", "Norder5/Dir10000/Npix7.fits"):
            self.ends(2, "is no path of a survey's file", "read", path)
            self.ends(2, "is no path of a survey's file", "get", path)

    def test_scale_that_astropy_wrote_again(self):
        self.server.kill()
        self.server.wait()
        os.unlink(self.address)
        self.write(self.folder / "served", {"survey.conf": survey_conf(survey_bscale="0.0923184911648915", survey_bzero="32768.0")})
        self.begin_server(self.folder / "served")
        self.tile.write_bytes(fits(range(64), BSCALE="0.09231849116489151", BZERO="32768"))
        self.ends(0, "1 edits", "put", f"7={self.tile}")
        self.tile.write_bytes(fits(range(64), BSCALE="0.09231849116489199", BZERO="32768"))
        self.ends(1, "BSCALE isn't the survey's", "put", f"7={self.tile}")

    @needs("numpy", find_spec("numpy"))
    def test_tiles(self):
        self.tile.write_bytes(fits([-32768, *range(63)]))
        self.ends(0, "1 edits", "put", f"7={self.tile}")
        self.ends(0, "published", "publish")
        said = self.ends(0, "63 of 64 pixels change, 1 are blank and stay; x is in stored numbers", "tile", "x + 100", 7)
        self.assertIn("1 edits accepted, 2 of", said)
        # A second run would begin from the published tile, and undo the first.
        self.ends(1, "of 2 edits 1 are published, and the others may be of this leaf: first hipsctl publish", "tile", "x + 1", 7)
        self.assertEqual(self.served(7)[2880:2888], fits([-32768, 100, 101, 102])[2880:2888])
        for expression, text in (
            ("x + 32700", "don't fit -32768 to 32767, as that of the stored number 100"), ("0 * x - 32768", "are -32768, the number of blank pixels"),
            ("1 / (x - 100)", "1 results are no numbers"), ("x * 1e300 * 1e300 * 1e5000", "results"),
        ):
            self.ends(1, text, "tile", expression, 7)
        for expression in ("__import__('os').system('true')", "x.tofile", "x[0]", "lambda: x", "(x for x in x)", "'a' * 9", "x if x else 1", "x +"):
            self.ends(2, "xpression", "tile", expression, 7)
        self.ends(0, "0 of 64 pixels change", "tile", "--physical", "where(x > 1e9, 0, x) // 1 + 0.4", 7)

    def test_who_is_there(self):
        self.ends(2, "is no address", "publish", "--server", "http://x y")
        self.ends(2, "is no address", "publish", "--server", "ftp://x")
        self.ends(4, "nothing listens at http://127.0.0.1:9", "publish", "--tries", 1, "--server", "http://127.0.0.1:9")


class Replies(BaseHTTPRequestHandler):
    """A server whose list says how each edit is answered: how many edits it then has, and a code, or 0 for none."""

    def do_GET(self):
        self.reply(200, b"hips_order = 5\nhips_tile_width = 8\nsurvey_bitpix = 16\n")

    def do_POST(self):
        body = self.rfile.read(int(self.headers["Content-Length"]))
        if self.path == "/batch" and body == b"remove 0\nremove 0\n":
            self.reply(412, b"batch 1 precondition failed\n")
        else:
            self.do_PUT()

    def do_PUT(self):
        self.rfile.read(int(self.headers["Content-Length"]) if self.command == "PUT" else 0)
        self.server.asked += 1
        self.server.edits, code, text = self.server.replies.pop(0)
        if code:
            self.reply(code, text)
        self.close_connection = True

    def reply(self, code, body):
        self.send_response(code)
        self.send_header("Survey-Edits", str(self.server.edits))
        self.send_header("Content-Length", str(len(body)))
        self.end_headers()
        self.wfile.write(body)

    def log_message(self, *words):
        pass


class Unanswered(Edits):
    """A server that has 5 edits, and doesn't always answer."""

    def setUp(self):
        super().setUp()
        self.enterContext(mock.patch("time.sleep"))
        self.server = self.enterContext(HTTPServer(("127.0.0.1", 0), Replies))
        threading.Thread(target=self.server.serve_forever, args=(0.02,), daemon=True).start()
        self.addCleanup(self.server.shutdown)
        os.environ["HIPSD"] = f"http://127.0.0.1:{self.server.server_port}"

    def put(self, status, text, *replies, command=None):
        self.server.edits, self.server.asked, self.server.replies = 5, 0, list(replies)
        said = self.ends(status, text, *(command or ["put", f"7={self.tile}"]))
        self.assertEqual(self.server.asked, len(replies), said)
        return said

    def test_it_is_sent_again_where_the_number_is_the_same(self):
        self.put(0, "1 edits accepted, 6 of", (5, 0, b""), (6, 201, b""))
        self.put(0, "1 edits accepted, 6 of", (5, 502, b"no answer"), (5, 503, b"paused"), (5, 429, b""), (6, 201, b""))
        self.put(4, "nothing was changed: 503 paused", *[(5, 503, b"paused")] * 6)

    def test_it_is_not_sent_again_where_the_number_has_grown(self):
        self.put(0, "no answer came (Remote end closed connection without response), but the server has 1 edits more", (6, 0, b""))
        self.put(6, "The server had 5 edits, and has 7: so it isn't known whether these 1 are accepted", (7, 0, b""))

    def test_a_server_that_has_started_again(self):
        self.put(6, "the server has started again: it has 0 edits, and had 5", (0, 0, b""))
        self.put(5, "the server has started again meanwhile: it had 5 edits, and has 1 with these 1", (1, 201, b""))

    def test_a_publication_is_sent_again(self):
        self.put(0, "published 5", (5, 0, b""), (5, 200, b"published 5\n"), command=["publish"])

    def test_control_characters(self):
        said = self.put(1, "409 \\x1b]0;taken\\x07", (5, 409, ESCAPE))
        said += self.put(1, "is no tile of this survey: \\x1b]0;taken\\x07", (5, 422, b"tile refused " + ESCAPE))
        said += self.put(0, "\\x1b]0;taken\\x07", (5, 200, ESCAPE + b"\n"), command=["publish"])
        self.assertNotIn("\x1b", said)

    def test_a_part_of_several_batches(self):
        words = [f"{leaf}={self.tile}" for leaf in range(100)]
        said = self.put(5, "75 of 100 edits were accepted before, and the others aren't", (80, 200, b"accepted 75\n"), (80, 507, b"batch 0 limit 3\n"),
                        command=["put", *words])
        self.assertIn("the server has accepted 65,536 edits, and takes no more: renew the server", said)

    def test_a_password(self):
        (self.folder / ".netrc").write_text("machine 127.0.0.1 login me password word\n")
        os.environ["HOME"] = str(self.folder)
        (self.folder / ".netrc").chmod(0o644)
        self.ends(3, "~/.netrc can't be read", "publish")
        (self.folder / ".netrc").chmod(0o600)
        seen = []
        with mock.patch.object(Replies, "do_GET", lambda handler: (seen.append(handler.headers["Authorization"]), Replies.reply(handler, 401, b"no\n"))):
            self.server.edits = 5
            self.ends(4, "properties at http://127.0.0.1:", "publish")
        self.assertEqual(seen, ["Basic bWU6d29yZA=="])
