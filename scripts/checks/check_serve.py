"""Tries `hipsd serve` over real sockets as clients use it: with curl, with astropy and stilts, and with many connections that edit,
publish and read at once. (check_proxy.py tries it behind nginx.)
"""

import http.client
import io
import os
import random
import re
import subprocess
import threading
import time
from collections import Counter

from checks.cases import Case, needs
from checks.servers import DOCS, EXAMPLES, exchange, free_port, is_listening, wait_until
from survey_files import Survey, tile_path

SURVEY = Survey("serve", "Survey serve", top=5, low=3, width=8)
LEAF = "Norder5/Dir0/Npix7.fits"
NUMBERS = list(range(64))
FILE = SURVEY.leaf(7, NUMBERS)
TILE = SURVEY.tile({7: NUMBERS}, 3, 0)
NOBODY_CHANGES = ["-X", "PUT", "-H", "Content-Length:"]


class Serving(Case):
    """A survey without leaves, and the file of a leaf."""

    def setUp(self):
        super().setUp()
        self.survey = SURVEY.write(self.folder / "survey")
        self.leaf = self.folder / "leaf"
        self.leaf.write_bytes(FILE)

    def put_and_publish(self, server):
        self.curl(201, "-T", self.leaf, f"{server.base}/{LEAF}")
        self.curl(200, "-X", "POST", f"{server.base}/publish")


class Requests(Serving):
    """Single requests, each by a curl of its own."""

    def test_words(self):
        self.hipsd(1, "", "serve", "127.0.0.1:1", 0, 1)
        self.assertEqual(self.hipsd(1, "", "serve", "127.0.0.1:1", 1, 65)[0], b"usage: hipsd COMMAND\n")

    def test_codes(self):
        server = self.serve(self.survey, places=4, HIPSD_LOG="debug")
        leaf, properties = f"{server.base}/{LEAF}", f"{server.base}/properties"
        self.curl(404, leaf)
        self.curl(201, "-T", self.leaf, "-H", "Expect:", leaf)
        self.curl(204, "-T", self.leaf, "-H", "Expect: 100-continue", leaf)
        self.curl(412, "-T", self.leaf, "-H", "If-None-Match: *", leaf)
        self.assertEqual(self.curl(200, "-X", "POST", f"{server.base}/publish")[1], b"published 2\n")
        self.assertEqual(self.curl(200, f"{server.base}/Norder3/Dir0/Npix0.fits")[1], TILE, "the mean of the leaf's pixels")
        self.assertIn(b"\nsurvey_leaves = 1\n", self.curl(200, "--http1.0", properties)[1])
        self.curl(405, "-X", "PUT", "-d", "", properties)
        self.curl(405, "-X", "BREW", properties)
        self.curl(404, f"{server.base}/a%0Ab")
        server.tells(r" GET /a\nb 404 10 ")
        self.curl(411, *NOBODY_CHANGES, leaf)
        self.curl(422, "-X", "PUT", "-d", "no tile", leaf)
        self.curl(400, "-H", "Host:", properties)
        self.curl(501, "-X", "PUT", "-H", "Transfer-Encoding: chunked", "-d", "x", leaf)
        for code, head in (
            (505, b"GET / HTTP/1.2\r\nHost: a\r\n\r\n"), (400, b"GET / HTTP/1.1\r\n\r\n"), (431, b"GET /%08200d HTTP/1.1\r\nHost: a\r\n\r\n" % 0),
            (413, b"PUT /Norder5/Dir0/Npix7.fits HTTP/1.1\r\nHost: a\r\nContent-Length: 99999999999\r\n\r\n"),
        ):
            self.assertEqual(exchange(server.address, head, seconds=20).split()[1], b"%d" % code, head[:60])
        self.assertEqual(self.curl(200, "-I", f"{server.base}/Moc.fits")[0]["content-length"], "8640")
        names = [f"{server.base}/{name}" for name in ("properties", "Moc.fits", "Norder3/Allsky.fits")]
        said = subprocess.run(["curl", "-s", "-v", "--max-time", "20", *names], stdout=subprocess.DEVNULL, stderr=subprocess.PIPE).stderr
        self.assertEqual(said.count(b"* Connected"), 1, "three files of one curl are of one connection")

    def test_more_clients_than_places(self):
        """Each of them closes, and all are served."""
        server = self.serve(self.survey, places=4)
        close = ["curl", "-s", "-o", os.devnull, "-w", "%{http_code}", "--max-time", "20", "-H", "Connection: close", f"{server.base}/properties"]
        clients = [subprocess.Popen(close, stdout=subprocess.PIPE) for _ in range(41)]
        self.assertEqual({client.communicate()[0] for client in clients}, {b"200"})

    @needs("astropy")
    def test_astropy(self):
        from astropy.io import fits

        server = self.serve(self.survey, places=4)
        self.put_and_publish(server)
        leaf, mosaic, coverage = (fits.open(io.BytesIO(self.curl(200, f"{server.base}/{path}")[1])) for path in (LEAF, "Norder3/Allsky.fits", "Moc.fits"))
        self.assertEqual((leaf[0].data.shape, leaf[0].data.sum()), ((8, 8), sum(NUMBERS)))
        self.assertEqual(mosaic[0].data.shape, (29 * 8, 27 * 8))
        self.assertEqual([int(row[0]) for row in coverage[1].data], [4 * 4**5 + 7])

    @needs("stilts")
    def test_stilts(self):
        server = self.serve(self.survey, places=4)
        self.put_and_publish(server)
        rows, _ = self.runs(0, "", "stilts", "tpipe", "ifmt=fits", f"in={server.base}/Moc.fits", "omode=out", "ofmt=csv", "out=-")
        self.assertEqual(rows.split()[-1], b"4103")

    def test_an_address_in_use(self):
        server = self.serve(self.survey, places=4)
        self.hipsd(8, server.address, "serve", server.address, 1, 1, cwd=self.survey)

    def test_a_name(self):
        """At a host's name, over a folder without leaves: the log warns of that, and says in the end what is gone."""
        server = self.serve(self.survey, 1, 1, f"localhost:{free_port()}")
        self.curl(200, f"{server.base}/properties")
        self.assertEqual(server.process.wait(20), 0, server.said())
        server.tells("WARN  survey_commands::serve] the folder has no leaf tiles")
        server.tells("The edits since the start are lost unless a journal or a copy has them")

    def test_a_unix_socket(self):
        socket = str(self.folder / "socket")
        leaf, properties = (["--unix-socket", socket, f"http://hipsd/{path}"] for path in (LEAF, "properties"))
        before = os.umask(0o117)
        try:
            server = self.serve(self.survey, places=2, address=socket)
        finally:
            os.umask(before)
        self.curl(200, *properties)
        self.curl(201, "-T", self.leaf, *leaf)
        self.assertEqual(os.stat(socket).st_mode & 0o777, 0o660, "the mode is that of the umask")
        # A second server is refused where the first one answers, and takes its place where it is dead; a file stays.
        refused = self.hipsd(8, f"can't listen at {socket}: Address already in use", "serve", socket, 1, 1, cwd=self.survey)[1]
        self.assertNotIn("loaded ", refused, "the survey is loaded though another server answers")
        self.curl(404, *leaf)
        at = {"HIPSD": "https://survey.your.org/edit", "HIPSD_SOCKET": socket}
        self.assertTrue(self.runs(0, "", EXAMPLES / "edit.sh", "publish", **at)[0].endswith(b"\npublished 1\n"))
        self.runs(0, "", EXAMPLES / "edit.sh", "read", "properties", "Norder3/Dir0/Npix0.fits", **at)
        self.assertEqual((self.folder / "Norder3/Dir0/Npix0.fits").read_bytes(), TILE)
        server.end()
        self.assertTrue(os.path.exists(socket), "a server that is killed removes its socket: the next row tries nothing")
        self.serve(self.survey, places=2, address=socket)
        self.curl(404, *leaf)
        text = self.folder / "text"
        text.write_text("text")
        self.hipsd(8, "", "serve", text, 1, 1, cwd=self.survey)
        self.assertEqual(text.read_text(), "text")

    def test_places_that_end(self):
        """At an address that another server has just left; two places of one connection each."""
        first = self.serve(self.survey, places=4)
        self.curl(404, f"{first.base}/{LEAF}")
        first.end()
        server = self.serve(self.survey, 1, 2, first.address)
        for _ in range(2):
            self.curl(200, "-H", "Connection: close", f"{server.base}/properties")
        self.assertEqual(server.process.wait(20), 0, server.said())
        self.assertFalse(is_listening(server.address))
        self.assertEqual(server.output.read_bytes(), b"")


# What the log says at `debug` of these requests, but for the microseconds.
LOGGED = """
GET /Norder5/Dir0/Npix7.fits 404 10 not_found
PUT /Norder5/Dir0/Npix7.fits 201 0 -
PUT /Norder5/Dir0/Npix7.fits 412 20 precondition_failed
PUT /Norder5/Dir0/Npix7.fits 422 24 tile_refused_1_header_1
- - 411 0 length_required
POST /publish 200 12 -
GET /Norder5/Dir0/Npix7.fits 200 5760 -
HEAD /Norder5/Dir0/Npix7.fits 200 0 -
DELETE /Norder5/Dir0/Npix7.fits 204 0 -
PUT /Norder5/Dir0/Npix7.fits 201 0 -
POST /publish 200 12 -
OTHER /properties 405 19 method_not_allowed
GET /a\\x20b 404 10 not_found
"""


class Log(Serving):
    """The log at `debug`, in which each request is ten words, and the two commands of OPERATING over it."""

    def setUp(self):
        super().setUp()
        self.server = self.serve(self.survey, places=2, HIPSD_LOG="debug")
        leaf, publish = f"{self.server.base}/{LEAF}", ["-X", "POST", f"{self.server.base}/publish"]
        for code, words in (
            (404, [leaf]), (201, ["-T", self.leaf, leaf]), (412, ["-T", self.leaf, "-H", "If-None-Match: *", leaf]),
            (422, ["-X", "PUT", "-d", "no tile", leaf]), (411, [*NOBODY_CHANGES, leaf]), (200, publish), (200, [leaf]), (200, ["-I", leaf]),
            (204, ["-X", "DELETE", leaf]), (201, ["-T", self.leaf, leaf]), (200, publish), (405, ["-X", "BREW", f"{self.server.base}/properties"]),
            (404, ["--interface", "127.0.0.2", f"{self.server.base}/a%20b"]),
        ):
            self.curl(code, *words)
        wait_until(lambda: self.server.said().count("[DEBUG request]") == 13, self.server.said, 20)

    def test_requests(self):
        rows = [line.split() for line in self.server.said().splitlines()]
        told = [row for row in rows if row[1] == "request]"]
        self.assertEqual(sorted(" ".join(row[4:8] + row[9:]) for row in told), sorted(LOGGED.strip().splitlines()))
        clients = {tuple(row[2:4]) for row in rows if row[1] == "client]"}
        for row in told:
            self.assertTrue(len(row) == 10 and row[8].isdigit() and tuple(row[2:4]) in clients, f"ten words, microseconds and a client: {row}")
        self.assertGreater(sum(int(row[8]) for row in told), 0, "no request took a microsecond")
        published = re.findall(r": (published .*): ", self.server.said())
        self.assertEqual(published, ["published 1 edits, 1 of 1 in all", "published 2 edits, 3 of 3 in all"])
        self.assertRegex(self.server.said(), r"(?m)connection{place=[12] number=[1-9][0-9]*}: Closed$")

    def test_commands_of_operating(self):
        clients, codes = re.findall(r"(?m)^awk '(.*)' log$", (DOCS / "OPERATING.md").read_text())
        self.assertEqual(sorted(self.runs(0, "", "awk", clients, self.server.log)[0].split(b"\n")), [b"", b"1 10 127.0.0.2", b"12 5857 127.0.0.1"])
        counted = re.findall(r"(?m)^(\d+ \d+) [0-9.]+ us on average$", self.runs(0, "", "awk", codes, self.server.log)[1])
        self.assertEqual(sorted(counted), ["200 4", "201 2", "204 1", "404 2", "405 1", "411 1", "412 1", "422 1"])


# ---- many connections at once

LEAVES = range(0, 96)
# A survey takes 65,536 edits: so many for each connection, of 20 at most.
EDITS = 3_000
# How long after a publication each reader has it, in seconds.
SOON = 0.5
PATHS = ["properties", "Moc.fits", "Norder3/Allsky.fits"]
PATHS += [tile_path(order, npix) for order in (3, 4, 5) for npix in range(len(LEAVES) // 4 ** (5 - order) + 1)]


def leaf_file(leaf, seed):
    """The file of a leaf, and its stored numbers."""
    numbers = [(seed * 37 + s * 11) % 65_535 - 32_767 for s in range(SURVEY.width**2)]
    return SURVEY.leaf(leaf, numbers), numbers


class Connection(threading.Thread):
    """One connection, which edits, publishes, pins and reads at random, and keeps what it was answered."""

    def __init__(self, address, number, until):
        super().__init__()
        self.http = http.client.HTTPConnection(address, timeout=60)
        self.random = random.Random(number)
        self.until = until
        self.reads = []  # (path, prefix, body or None for HEAD, length, code)
        self.edits = []  # (number of edits then, [(leaf, numbers or None)])
        self.refused = []  # (kind, leaf, number of edits)
        self.published = set()
        self.told = []  # (when a publication was answered, its prefix)
        self.asked = []  # (when what isn't pinned was asked for, the prefix of the reply)
        self.wrong = []
        self.requests = Counter()
        self.least = 0
        self.pinned = None
        self.budget = EDITS

    def ask(self, method, path, body=b"", **fields):
        headers = {name.replace("_", "-"): value for name, value in fields.items()}
        self.http.request(method, "/" + path, body, headers)
        reply = self.http.getresponse()
        text = reply.read()
        self.requests[f"{method} {reply.status}"] += 1
        return reply, text

    def blame(self, what, *more):
        self.wrong.append(" ".join(str(word) for word in (what, *more)))

    def read(self):
        method = self.random.choice(("GET", "GET", "GET", "HEAD"))
        path = self.random.choice(PATHS)
        asked = time.monotonic()
        reply, body = self.ask(method, path)
        prefix = int(reply.headers["Survey-Prefix"])
        if reply.status not in (200, 404):
            self.blame(method, path, "is answered", reply.status)
        length = int(reply.headers["Content-Length"])
        if method == "HEAD" and body:
            self.blame("HEAD has a body")
        self.reads.append((path, prefix, None if method == "HEAD" else body, length, reply.status))
        if self.pinned is not None and prefix != self.pinned:
            self.blame("pinned", self.pinned, "and answered from", prefix)
        if self.pinned is None:
            if prefix < self.least:
                self.blame("a prefix fell from", self.least, "to", prefix)
            self.least = prefix
            self.asked.append((asked, prefix))

    def put(self):
        leaf, seed = self.random.choice(LEAVES), self.random.randrange(10**6)
        body, numbers = leaf_file(leaf, seed)
        kind, fields = self.random.choice((("put", {}), ("put", {}), ("add", {"If_None_Match": "*"}), ("replace", {"If_Match": "*"})))
        reply, _ = self.ask("PUT", tile_path(SURVEY.top, leaf), body, **fields)
        number = int(reply.headers["Survey-Edits"])
        if reply.status in (201, 204):
            self.edits.append((number, [(leaf, numbers)]))
            self.refused.append(("absent" if reply.status == 201 else "present", leaf, number - 1))
        elif reply.status == 412 and kind != "put":
            self.refused.append(("present" if kind == "add" else "absent", leaf, number))
        else:
            self.blame("PUT is answered", reply.status)

    def delete(self):
        leaf = self.random.choice(LEAVES)
        reply, _ = self.ask("DELETE", tile_path(SURVEY.top, leaf))
        number = int(reply.headers["Survey-Edits"])
        if reply.status == 204:
            self.edits.append((number, [(leaf, None)]))
            self.refused.append(("present", leaf, number - 1))
        elif reply.status == 404:
            self.refused.append(("absent", leaf, number))
        else:
            self.blame("DELETE is answered", reply.status)

    def batch(self):
        body, edits = b"", []
        for leaf in self.random.sample(LEAVES, 3):
            file, numbers = leaf_file(leaf, self.random.randrange(10**6))
            body += b"put %d %d\n" % (leaf, len(file)) + file
            edits.append((leaf, numbers))
        reply, text = self.ask("POST", "batch", body)
        if (reply.status, text) != (200, b"accepted %d\n" % len(edits)):
            self.blame("a batch is answered", reply.status, text)
        else:
            self.edits.append((int(reply.headers["Survey-Edits"]), edits))

    def publish(self):
        _, text = self.ask("POST", "publish")
        word, number = text.split()
        if word not in (b"published", b"already"):
            self.blame("publish is answered", text)
        self.published.add(int(number))
        self.told.append((time.monotonic(), int(number)))
        self.least = max(self.least, int(number))

    def pin(self):
        _, text = self.ask("POST", "pin")
        self.pinned = int(text.split()[1])
        if self.pinned < self.least:
            self.blame("pinned", self.pinned, "after", self.least)
        self.least = self.pinned

    def unpin(self):
        _, text = self.ask("POST", "unpin")
        if text != b"released\n":
            self.blame("unpin is answered", text)
        self.pinned = None

    def run(self):
        calls = (self.read, self.put, self.delete, self.batch, self.publish, self.pin, self.unpin)
        try:
            while time.monotonic() < self.until:
                call = self.random.choices(calls, (60, 16, 5, 3, 4, 2, 6))[0]
                if call in (self.put, self.delete, self.batch):
                    self.budget -= 3
                    call = call if self.budget >= 0 else self.read
                call()
        except Exception as error:  # the connection broke: that is a fault of the server too
            self.blame("broken off:", repr(error))
        self.http.close()


def leaves_of(edits):
    """The leaves after each number of edits, from none on."""
    leaves, after = {}, [{}]
    for leaf, numbers in edits:
        leaves = {key: value for key, value in {**leaves, leaf: numbers}.items() if value is not None}
        after.append(leaves)
    return after


def stale(connections):
    """Replies of a prefix below that of a publication which was answered well before they were asked for."""
    told = sorted(it for connection in connections for it in connection.told)
    asked = sorted(it for connection in connections for it in connection.asked)
    newest = at = 0
    for when, prefix in asked:
        while at < len(told) and told[at][0] < when - SOON:
            newest = max(newest, told[at][1])
            at += 1
        if prefix < newest:
            yield f"answered from {prefix}, half a second after {newest} was published"


class History(Case):
    """Sixteen connections at once. Their replies are judged when all have ended, against files that are made cell by cell:

    - the numbers of the accepted edits, of all connections together, are 1, 2, 3 and so on, each once;
    - every reply to GET and HEAD is, byte for byte, the file that the survey has after the prefix of the edits that the reply names,
      or 404 exactly where it has none there, and each such prefix was published;
    - for one connection prefixes never fall, outside what it pinned, and under a pin they stay; a publication that it was told of is
      in every later one;
    - what isn't pinned is of a prefix at least that of each publication that was answered half a second before it was asked for;
    - an edit is refused exactly as the edits before the number that the reply names want it;
    - after a last publication every accepted edit is in the survey.
    """

    def test_many_connections(self, seconds=20, count=16):
        server = self.serve(SURVEY.write(self.folder / "survey"), places=20)
        until = time.monotonic() + seconds
        connections = [Connection(server.address, number, until) for number in range(count)]
        for connection in connections:
            connection.start()
        for connection in connections:
            connection.join()
        last = Connection(server.address, count, until)
        last.publish()
        finals = {path: last.ask("GET", path) for path in PATHS}
        last.http.close()
        self.assertIsNone(server.process.poll(), "the server ended while it was tried")
        edits, published, known = self.judge([*connections, last], {path: text if reply.status == 200 else None for path, (reply, text) in finals.items()})
        # Edits that come while a generation is built are counted among all.
        counts = [tuple(map(int, row)) for row in re.findall(r"published (\d+) edits, (\d+) of (\d+) in all: ", server.said())]
        self.assertTrue(all(own <= here <= all_edits for own, here, all_edits in counts), counts)
        self.assertTrue(any(here < all_edits for _, here, all_edits in counts), "no edit came beside a publication")
        requests = sum((connection.requests for connection in connections), Counter())
        print(f"{count} connections, {sum(requests.values())} requests in {seconds} seconds, {edits} edits, {published} prefixes published, "
              f"{known} different files compared: all replies are of one history")

    def judge(self, connections, last):
        """Compares what was answered. Answers how many edits, prefixes and files there are."""
        wrong = [text for connection in connections for text in connection.wrong]
        edits = []
        for number, batch in sorted((edit for connection in connections for edit in connection.edits), key=lambda edit: edit[0]):
            edits += batch
            self.assertEqual(len(edits), number, f"an edit has another number after {len(edits) - len(batch)} others: {wrong}")
        after = leaves_of(edits)
        published = {0}.union(*(connection.published for connection in connections))
        known = {}
        wrong += stale(connections)
        for connection in connections:
            for path, prefix, body, length, code in connection.reads:
                if prefix not in published:
                    wrong.append(f"answered from {prefix}, which nobody published")
                if (path, prefix) not in known:
                    known[path, prefix] = SURVEY.file(after[prefix], path)
                file = known[path, prefix]
                if (code == 404) != (file is None):
                    wrong.append(f"{path} after {prefix} is answered {code}")
                elif file is not None and (length != len(file) or body not in (None, file)):
                    wrong.append(f"{path} after {prefix} isn't what the edits make")
            for kind, leaf, number in connection.refused:
                if (kind == "present") != (leaf in after[number]):
                    wrong.append(f"leaf {leaf} counts as {kind} after {number} edits")
        wrong += [f"{path} lacks an edit after the last publication" for path, body in last.items() if body != SURVEY.file(after[-1], path)]
        self.assertEqual(wrong[:20], [])
        return len(edits), len(published), len(known)
