"""Shows a survey in a browser on one's own machine, by the atlas page, until Ctrl-C.

SURVEY is the address of a running server (a URL, HOST:PORT, or the path of its Unix socket), or a survey folder, over which hipsd is
started at a Unix socket that nobody else reaches. Whoever looks reads, and edits nothing: GET and HEAD alone are passed on.
"""

import contextlib
import os
import shutil
import socket
import subprocess
import tempfile
import time
from http.server import BaseHTTPRequestHandler, ThreadingHTTPServer
from pathlib import Path
from urllib.parse import unquote

from hipsctl import files
from hipsctl.client import NoAnswer, Server
from hipsctl.messages import Refused
from hipsctl.program import path_of_hipsd

PAGE = Path(__file__).resolve().parent.parent / "atlas"
PLACES, MOST_FILE, PATIENCE = 16, 2**28, 60
TYPES = {".html": "text/html", ".tsv": "text/tab-separated-values", ".css": "text/css", ".js": "text/javascript", ".fits": "application/fits"}
# What is passed on of a survey's server: these types and codes, numbers of edits, and bytes.
PASSED = {"application/fits", "image/fits", "image/jpeg", "image/png", "text/plain"}
CODES = {200, 404, 429, 503}


def add_words(parser):
    parser.add_argument("--port", type=int, default=8000, choices=range(1, 65_536), metavar="N", help="of the page, 8000 if not said")
    parser.add_argument("--catalogue", metavar="FOLDER", type=Path, help="a catalogue of `hipsctl catalog`, which the page shows over the sky")
    parser.add_argument("--past", metavar="FOLDER", type=Path, help="a second HiPS, as `hipsd export` makes one: the page compares both")
    parser.add_argument("survey", metavar="SURVEY")


def run(told):
    folders = {name: folder for name, folder in (("catalogue", told.catalogue), ("past", told.past)) if folder}
    for folder in folders.values():
        files.Folder(folder).close()
    with contextlib.ExitStack() as ends:
        address = ends.enter_context(started(told.survey)) if os.path.isdir(told.survey) else told.survey
        Server(address).get("properties", tries=1)
        try:
            server = ends.enter_context(page_server(address, told.port, **folders))
        except OSError as fault:
            raise Refused(f"the port {told.port} can't be had ({fault.strerror}): another one by --port", 3) from None
        print(f"The atlas is at http://127.0.0.1:{told.port}/atlas/ (Ctrl-C ends it)", flush=True)
        server.serve_forever()


@contextlib.contextmanager
def started(folder):
    """hipsd over a folder, at a socket in a folder of this user."""
    place = tempfile.mkdtemp(prefix="hipsctl.")
    address, process = os.path.join(place, "socket"), None
    try:
        process = subprocess.Popen([path_of_hipsd(), "serve", address, "65536", str(PLACES)], cwd=folder, stdout=subprocess.DEVNULL,
                                   env={"HIPSD_LOG": "warn", **os.environ})
        until = time.monotonic() + PATIENCE
        while not listens(address):
            if process.poll() is not None:
                raise Refused(f"hipsd ends with status {process.returncode}: `hipsctl check` says what is wrong with the folder", 4)
            if time.monotonic() > until:
                raise Refused(f"hipsd doesn't listen after {PATIENCE} seconds", 4)
            time.sleep(0.05)
        yield address
    finally:
        if process:
            process.terminate()
            process.wait()
        shutil.rmtree(place)


def listens(address):
    with contextlib.suppress(OSError), socket.socket(socket.AF_UNIX) as one:
        one.connect(address)
        return True
    return False


def page_server(survey, port=0, handler=None, **folders):
    """A server on the loopback of the page, of the survey at an address, and of folders by the names of their paths."""
    asked = Server(survey)
    server = ThreadingHTTPServer(("127.0.0.1", port), handler or Handler)
    server.daemon_threads = True
    server.survey, server.folders = asked, {"atlas": PAGE, **folders}
    return server


class Handler(BaseHTTPRequestHandler):
    """One connection of a browser, with one to the survey's server, which it keeps."""

    protocol_version = "HTTP/1.1"
    server_of_survey = None

    def do_GET(self):
        path = self.path.partition("?")[0]
        _, name, rest = path.split("/", 2) if path.count("/") > 1 else ("", "", "")
        if self.headers.get("Host", "").partition(":")[0] not in ("127.0.0.1", "localhost"):
            # A page from elsewhere may have led its own name to this address (DNS rebinding).
            self.reply(421)
        elif path == "/":
            self.reply(302, fields={"Location": "/atlas/"})
        elif name == "survey" and rest and rest.isascii():
            self.pass_on("/" + rest)
        elif name in self.server.folders:
            self.file(self.server.folders[name], unquote(rest))
        else:
            self.reply(404)

    do_HEAD = do_GET

    def file(self, folder, path):
        """A regular file below a folder, behind no link."""
        path = path or "index.html"
        if ".." in path.split("/") or "" in path.split("/") or "\0" in path:
            return self.reply(404)
        try:
            with files.Folder(folder) as above, above.open(path) as file:
                body = file.read(MOST_FILE)
        except (OSError, Refused):
            return self.reply(404)
        return self.reply(200, body, {"Content-Type": TYPES.get(os.path.splitext(path)[1], "application/octet-stream")})

    def pass_on(self, path):
        """What the survey's server answers; 502 where it doesn't."""
        try:
            code, kind, prefix, body = self.ask(path)
        except (NoAnswer, Refused):
            self.reply(502)
            return
        fields = {"Content-Type": kind if kind in PASSED else "application/octet-stream"}
        if prefix is not None:
            fields["Survey-Prefix"] = str(prefix)
        self.reply(code if code in CODES else 502, body if code in CODES else b"", fields)

    def ask(self, path):
        """Code, type, number of edits and body of what the server answers. A connection that was kept may have been closed meanwhile: then
        a new one is made."""
        survey = self.server.survey
        for is_last in (False, True):
            kept = self.server_of_survey
            try:
                if not kept:
                    self.server_of_survey = survey.connection(20)
                reply = survey.on(self.server_of_survey, "GET", path.removeprefix("/"))
                return reply.code, reply.fields.get_content_type(), reply.number("Survey-Prefix"), reply.body
            except NoAnswer:
                self.let_go()
                if is_last or not kept:
                    raise
        raise AssertionError

    def reply(self, code, body=b"", fields=()):
        self.send_response(code)
        for name, value in dict(fields).items():
            self.send_header(name, value)
        self.send_header("Content-Length", str(len(body)))
        self.end_headers()
        if self.command == "GET":
            # A browser that goes to another page breaks off.
            with contextlib.suppress(ConnectionError):
                self.wfile.write(body)

    def end_headers(self):
        self.send_header("Cache-Control", "no-store")
        self.send_header("X-Content-Type-Options", "nosniff")
        super().end_headers()

    def let_go(self):
        if self.server_of_survey:
            self.server_of_survey.close()
        self.server_of_survey = None

    def finish(self):
        self.let_go()
        super().finish()

    def version_string(self):
        return "hipsctl"

    def log_message(self, *words):
        pass
