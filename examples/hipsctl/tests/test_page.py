import http.client
import os
import shutil
import socket
import ssl
import subprocess
import threading
import time
from http.server import BaseHTTPRequestHandler, HTTPServer
from unittest import mock

from hipsctl.page import page_server
from hipsctl.survey import tile_path
from hipsctl.tests.cases import Served, fits, needs, needs_hipsd, survey_conf


def ask(port, path, method="GET", **fields):
    one = http.client.HTTPConnection("127.0.0.1", port, timeout=20)
    one.putrequest(method, path, skip_host=True)
    for name, value in {"Host": "127.0.0.1", **fields}.items():
        if value is not None:
            one.putheader(name, value)
    one.endheaders()
    reply = one.getresponse()
    got = reply.status, dict(reply.headers), reply.read()
    one.close()
    return got


class Foreign(BaseHTTPRequestHandler):
    """A server that answers what isn't a survey."""

    def do_GET(self):
        self.send_response_only(self.server.code, "\x1b[2J")
        for name, value in self.server.fields.items():
            self.send_header(name, value)
        self.send_header("Content-Length", "25")
        self.end_headers()
        self.wfile.write(b"<script>alert(1)</script>")

    def log_message(self, *words):
        pass


class Pages(Served):
    def page(self, address, **folders):
        """The port of the page of a survey."""
        server = self.enterContext(page_server(address, **folders))
        threading.Thread(target=server.serve_forever, args=(0.02,), daemon=True).start()
        self.addCleanup(server.shutdown)
        return server.server_port

    def free_port(self):
        with socket.socket() as one:
            one.bind(("127.0.0.1", 0))
            return one.getsockname()[1]


class Page(Pages):
    """Without hipsd."""

    def setUp(self):
        super().setUp()
        self.foreign = self.enterContext(HTTPServer(("127.0.0.1", 0), Foreign))
        self.foreign.code, self.foreign.fields = 200, {"Content-Type": "application/fits"}
        threading.Thread(target=self.foreign.serve_forever, args=(0.02,), daemon=True).start()
        self.addCleanup(self.foreign.shutdown)
        self.catalogue = self.folder / "catalogue"
        self.write(self.catalogue, {"Norder1/Allsky.tsv": b"x", "index.html": b"<p>", "a b.tsv": b"y"})
        (self.folder / "secret").write_text("mine")
        self.port = self.page(f"127.0.0.1:{self.foreign.server_port}", catalogue=self.catalogue)

    def test_names(self):
        """A page from elsewhere may have led its own name to this address."""
        for code, host in ((200, f"127.0.0.1:{self.port}"), (200, "localhost:9"), (421, "evil.example"), (421, f"evil.example:{self.port}"),
                           (421, "127.0.0.1.evil.example"), (421, None), (421, "")):
            for path in ("/survey/properties", "/atlas/", "/catalogue/Norder1/Allsky.tsv"):
                self.assertEqual(ask(self.port, path, Host=host)[0], code, (host, path))

    def test_edits(self):
        for method in ("POST", "PUT", "DELETE", "PATCH", "OPTIONS"):
            self.assertEqual(ask(self.port, "/survey/publish", method)[0], 501)

    def test_what_a_foreign_server_sends(self):
        self.foreign.fields = {"Content-Type": "text/html", "Set-Cookie": "a=b", "Refresh": "0; url=http://evil.example", "Location": "http://evil.example",
                               "Survey-Prefix": "7x", "Access-Control-Allow-Origin": "*", "Content-Security-Policy": "x"}
        code, fields, body = ask(self.port, "/survey/properties")
        self.assertEqual((code, body), (200, b"<script>alert(1)</script>"))
        self.assertEqual({name: value for name, value in fields.items() if name not in ("Date", "Server")},
                         {"Content-Type": "application/octet-stream", "Content-Length": "25", "Cache-Control": "no-store", "X-Content-Type-Options": "nosniff"})
        self.foreign.fields = {"Content-Type": "text/plain; charset=x", "Survey-Prefix": "7"}
        fields = ask(self.port, "/survey/properties")[1]
        self.assertEqual((fields["Content-Type"], fields["Survey-Prefix"]), ("text/plain", "7"))
        for code in (301, 302, 401, 206, 500):
            self.foreign.code = code
            self.assertEqual(ask(self.port, "/survey/properties")[::2], (502, b""))

    def test_files(self):
        (self.catalogue / "link").symlink_to(self.folder / "secret")
        (self.catalogue / "folder").symlink_to(self.folder)
        os.mkfifo(self.catalogue / "pipe")
        for path in ("/catalogue/Norder1/Allsky.tsv", "/catalogue/a%20b.tsv", "/catalogue/", "/atlas/atlas.js", "/atlas/?a=1", "/"):
            self.assertIn(ask(self.port, path)[0], (200, 302), path)
        for path in ("/catalogue/../secret", "/catalogue/%2e%2e/secret", "/catalogue/..%2fsecret", "/catalogue//etc/passwd", "/catalogue/link", "/catalogue/folder/secret",
                     "/catalogue/pipe", "/catalogue/Norder1", "/catalogue/Norder1/", "/catalogue/x%00", "/atlas", "/survey/", "/etc/passwd", "//[", "/survey/\xe9"):
            with self.subTest(path):
                one = socket.create_connection(("127.0.0.1", self.port), 20)
                one.sendall(f"GET {path} HTTP/1.0\r\nHost: localhost\r\n\r\n".encode("latin-1"))
                with one, one.makefile("rb") as reply:
                    self.assertIn(b" 404 ", reply.readline())
        kinds = {path: ask(self.port, path)[1]["Content-Type"] for path in ("/catalogue/Norder1/Allsky.tsv", "/atlas/atlas.css", "/atlas/")}
        self.assertEqual(list(kinds.values()), ["text/tab-separated-values", "text/css", "text/html"])

    def test_a_taken_port(self):
        said = self.ends(3, f"the port {self.port} can't be had (Address already in use): another one by --port", "page", "--port", self.port,
                         f"127.0.0.1:{self.foreign.server_port}")
        self.assertEqual(said.count("\n"), 1)

    def test_what_is_not_there(self):
        self.ends(4, "nothing listens at 127.0.0.1:9", "page", "127.0.0.1:9")
        self.ends(2, "is no address of a server", "page", "ftp://x.example")
        self.ends(3, "No such file", "page", "--past", self.folder / "nothing", f"127.0.0.1:{self.foreign.server_port}")

    @needs("openssl", shutil.which("openssl"))
    def test_https(self):
        """It is spoken, with a certificate that is trusted, or refused."""
        subprocess.run(["openssl", "req", "-x509", "-newkey", "rsa:2048", "-nodes", "-days", "2", "-subj", "/CN=localhost", "-addext", "subjectAltName=DNS:localhost",
                        "-keyout", self.folder / "key", "-out", self.folder / "pem"], check=True, capture_output=True)
        context = ssl.SSLContext(ssl.PROTOCOL_TLS_SERVER)
        context.load_cert_chain(self.folder / "pem", self.folder / "key")
        with HTTPServer(("127.0.0.1", 0), Foreign) as secure:
            secure.code, secure.fields = 200, {"Content-Type": "text/plain"}
            secure.handle_error = lambda *words: None
            secure.socket = context.wrap_socket(secure.socket, server_side=True, do_handshake_on_connect=False)
            threading.Thread(target=secure.serve_forever, args=(0.02,), daemon=True).start()
            address = f"https://localhost:{secure.server_port}/survey"
            self.ends(1, "isn't trusted", "page", "--port", self.free_port(), address)
            self.enterContext(mock.patch.dict(os.environ, CURL_CA_BUNDLE=str(self.folder / "pem")))
            self.assertEqual(ask(self.page(address), "/survey/properties")[0], 200)
            secure.shutdown()


@needs_hipsd
class OverAFolder(Pages):
    def test_it_is_at_a_socket(self):
        """hipsd has no port, its socket is of this user alone, and both end together."""
        self.write(self.folder / "served", {"survey.conf": survey_conf(), tile_path(5, 0): fits(range(64))})
        port = self.free_port()
        process = self.begin("page", "--port", port, self.folder / "served", env={**os.environ, "TMPDIR": str(self.folder)})
        line = process.stdout.readline()
        self.assertEqual(line, f"The atlas is at http://127.0.0.1:{port}/atlas/ (Ctrl-C ends it)\n")
        self.assertEqual([ask(port, path)[0] for path in ("/survey/properties", "/survey/" + tile_path(3, 0), "/survey/" + tile_path(5, 1), "/atlas/")], [200, 200, 404, 200])
        place, = self.folder.glob("hipsctl.*")
        self.assertEqual(place.stat().st_mode & 0o777, 0o700)
        served = [number for number in os.listdir("/proc") if number.isdigit() and str(place).encode() in self.words(number)]
        inodes = {os.readlink(f"/proc/{served[0]}/fd/{name}") for name in os.listdir(f"/proc/{served[0]}/fd")}
        ports = [row.split() for name in ("tcp", "tcp6") for row in open(f"/proc/net/{name}")]
        self.assertFalse([row for row in ports if f"socket:[{row[9] if len(row) > 9 else ''}]" in inodes])
        process.terminate()
        self.assertEqual((process.communicate()[0], process.returncode), ("", 143))
        self.assertEqual(list(self.folder.glob("hipsctl.*")), [])
        while os.path.exists(f"/proc/{served[0]}"):
            time.sleep(0.02)

    def words(self, number):
        try:
            with open(f"/proc/{number}/cmdline", "rb") as file:
                return file.read()
        except OSError:
            return b""

    def test_what_is_no_survey(self):
        self.ends(4, "hipsd ends with status 2: `hipsctl check` says what is wrong", "page", "--port", self.free_port(), self.folder)
