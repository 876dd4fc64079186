"""Attacks what stands around the program, as an outsider or a foreign journal would.

Attackers of nginx come from 127.0.0.2, beside a reader at 127.0.0.1. Each attack prints what it did and what the reader saw.
"""

import base64
import http.client
import multiprocessing
import os
import random
import re
import select
import ssl
import statistics
import subprocess
import time
import unittest
from collections import Counter
from contextlib import suppress
from functools import partial

from checks.cases import Case, needs, together
from checks.servers import EXAMPLES, ROOT, Proxy, Server, ask, break_off, connect, wait_until
from survey_files import Survey

SURVEY = Survey("attacked", "Attacked", top=5, low=3, width=8)
LEAF = "Norder5/Dir0/Npix7.fits"
TILE = SURVEY.leaf(7, range(64))


class Attack(Case):
    """A folder and a server for all tests of a class, whose log has a line for each connection."""

    @classmethod
    def setUpClass(cls):
        cls.place = cls.own_folder(cls.enterClassContext)
        cls.begin_server(None)

    @classmethod
    def begin_server(cls, address):
        cls.server = cls.enterClassContext(Server(SURVEY.write(cls.place / "survey"), address=address, HIPSD_LOG="debug"))

    def taken(self):
        """How many connections the server has taken."""
        return self.server.said().count(" client] ")


# ---- journals, which may come from anybody, and paths


class Journals(Attack):
    """What is written is what was asked for, and nothing else."""

    def setUp(self):
        super().setUp()
        self.journal = self.folder / "journal"
        self.journal.mkdir()
        self.victim = self.folder / "victim"
        self.base = self.server.base

    def run_script(self, name, *words, **environment):
        told = {**os.environ, "HIPSD": self.base, "HIPSD_TRIES": "1", **environment}
        where = self.folder if name == "edit.sh" else self.server.folder
        return subprocess.run([EXAMPLES / name, *words], cwd=where, env=told, stdin=subprocess.DEVNULL, capture_output=True, text=True, timeout=60)

    def entry(self, number, line, body=TILE, answer=None):
        (self.journal / f"{number:08}.edit").write_text(line + "\n")
        if body is not None:
            (self.journal / f"{number:08}.body").write_bytes(body)
        if answer is not None:
            (self.journal / f"{number:08}.answer").write_text(answer)

    def refused(self, answer, status=1):
        """The script ended so, and the victim is as it was."""
        self.assertEqual(answer.returncode, status, answer)
        self.assertFalse(self.victim.exists(), f"{self.victim} was written: {answer}")

    def test_words_of_an_entry(self):
        """Each of these lines had become words of curl, or a path outside the survey."""
        config = self.folder / "config"
        config.write_text(f'url = "{self.base}/properties"\noutput = "{self.victim}"\n')
        for line in (
            f"-o {self.victim}", f"-K {config}", f"--output {self.victim}", f"put -o{self.victim}", "put ../properties",
            f"publish -\n-o {self.victim}", f"publish - -o {self.victim}", f"put {LEAF}?x", "", "put", f"sing {LEAF}", f"put {LEAF}\nx",
        ):
            self.victim.unlink(missing_ok=True)
            # The entry before it isn't sent either: all are judged first.
            self.entry(1, f"put {LEAF}")
            self.entry(2, line)
            before = self.edits()
            with self.subTest(line=line):
                self.refused(self.run_script("edit.sh", "replay", "journal", self.base))
                self.assertEqual(self.edits(), before, "something was sent")
                self.refused(self.run_script("look-back.sh", self.journal))
                self.refused(self.run_script("edit.sh", "rest", "journal", "0", "new"))

    def edits(self):
        """How many edits the server has accepted: no leaf can be removed twice."""
        return int(ask(self.server.address, "POST", "batch", b"remove 0\nremove 0\n")[1]["Survey-Edits"])

    def test_links_of_a_journal(self):
        """What is read and written there is a file, and no link to another."""
        secret = self.folder / "secret"
        secret.write_bytes(TILE)
        self.entry(1, f"put {LEAF}", body=None)
        (self.journal / "00000001.body").symlink_to(secret)
        before = self.edits()
        self.refused(self.run_script("edit.sh", "replay", "journal", self.base))
        self.assertEqual(self.edits(), before, "another file was sent")
        self.refused(self.run_script("look-back.sh", self.journal))
        self.refused(self.run_script("edit.sh", "rest", "journal", "0", "new"))
        self.assertFalse((self.folder / "new").exists(), "another file was copied")
        for path in self.journal.iterdir():
            path.unlink()
        for name in ("lock", "00000001.edit.new", "00000001.answer.new"):
            (self.journal / name).symlink_to(self.victim)
            with self.subTest(name=name):
                self.run_script("edit.sh", "publish", HIPSD_JOURNAL=str(self.journal))
                self.assertFalse(self.victim.exists(), f"{name} was written through")
            for path in (self.victim, *self.journal.iterdir()):
                path.unlink(missing_ok=True)

    def test_paths_of_several_lines(self):
        """One line of them fits, and the others were lines of curl's configuration, or records of `hipsd past`."""
        path = f'Moc.fits\nnext\nurl = "{self.base}/properties"\noutput = "{self.victim}'
        for fitting in ("properties", "Norder3/Dir0/Npix0.fits"):
            with self.subTest(fitting=fitting):
                self.refused(self.run_script("edit.sh", "read", path.replace("Moc.fits", fitting)), 2)
                self.refused(self.run_script("edit.sh", "get", f"{fitting}\n-o{self.victim}"), 2)
                self.refused(self.run_script("look-back.sh", self.journal, "0", f"{fitting}\nread 0 properties"), 2)

    def test_address_with_lines(self):
        """An address is no line of curl's configuration."""
        base = f'{self.base}"\noutput = "{self.victim}'
        self.refused(self.run_script("edit.sh", "read", "properties", HIPSD=base), 2)

    def test_journals_are_the_editors_own(self):
        """Nobody else reads them, whatever the umask."""
        journal = self.folder / "new"
        before = os.umask(0o022)
        try:
            answer = self.run_script("edit.sh", "publish", HIPSD_JOURNAL=str(journal))
        finally:
            os.umask(before)
        self.assertEqual(answer.returncode, 0, answer)
        for path in (journal, *journal.iterdir()):
            self.assertEqual(path.stat().st_mode & 0o077, 0, path)


# ---- nginx


class Reader:
    """Reads on until it is ended, on one connection: what it was answered, and how long it took. In a process of its own, since the threads
    of the attackers hold up one another."""

    def __init__(self, address):
        several = multiprocessing.get_context("fork")
        self.told, tells = several.Pipe()
        self.process = several.Process(target=self.run, args=(address, tells), daemon=True)
        self.process.start()

    @staticmethod
    def run(address, tells):
        answers, times = Counter(), []
        connection = http.client.HTTPConnection(address, timeout=20)
        while not tells.poll(0.02):
            began = time.monotonic()
            try:
                connection.request("GET", "/survey/properties")
                reply = connection.getresponse()
                reply.read()
                answer = reply.status
            except (OSError, http.client.HTTPException) as fault:
                connection.close()
                answer = type(fault).__name__
            answers[answer] += 1
            times.append((time.monotonic() - began) * 1000)
        connection.close()
        tells.send((answers, times))

    def end(self):
        self.told.send(None)
        self.answers, self.times = self.told.recv()
        self.process.join()


def flood(address, seconds, request, threads=4, at_once=20, sources=1, first=2):
    """Sends requests, so many on a connection, from some addresses, and counts the codes that come back."""
    until = time.monotonic() + seconds
    codes = Counter()

    def go_on(number):
        source = f"127.0.0.{first + number % sources}"
        while time.monotonic() < until:
            try:
                with connect(address, source, 20) as one:
                    one.sendall(b"".join(request(b"close" if i == at_once - 1 else b"keep-alive") for i in range(at_once)))
                    replies = b""
                    while more := one.recv(1 << 20):
                        replies += more
            except OSError:
                codes["broken"] += 1
                continue
            for part in replies.split(b"HTTP/1.1 ")[1:]:
                codes[part[:3].decode()] += 1

    together(*(partial(go_on, number) for number in range(threads)))
    return codes


def leave(address, seconds, request, threads=8):
    """Sends requests and leaves at once, from four addresses, and no faster than these are let in."""
    until = time.monotonic() + seconds
    codes = Counter()

    def go_on(number):
        while time.monotonic() < until:
            one = connect(address, f"127.0.0.{2 + number % 4}")
            one.sendall(request(b"keep-alive"))
            break_off(one)
            codes["left"] += 1
            time.sleep(0.004)

    together(*(partial(go_on, number) for number in range(threads)))
    return codes


def random_leaf():
    """The path of a leaf; few of them are there, and few in nginx's cache."""
    leaf = random.randrange(12288)
    return f"/survey/Norder5/Dir{leaf // 10000 * 10000}/Npix{leaf}.fits".encode()


def asks(*fields, path=random_leaf, body=b"", method=b"GET"):
    """A request, by the word of its Connection field."""
    rest = b"".join(b"\r\n" + field for field in fields) + b"\r\n\r\n" + body
    return lambda word: method + b" " + path() + b" HTTP/1.1\r\nHost: x\r\nConnection: " + word + rest


@needs("nginx", "openssl")
class Readers(Attack):
    """Outsiders, who may read: what they send costs hipsd few connections, and other readers little time."""

    @classmethod
    def setUpClass(cls):
        super().setUpClass()
        cls.proxy = cls.enterClassContext(Proxy(cls.place, cls.server.address))

    def attack(self, name, seconds, request, connections, worst=2000, median=100, by=flood, **more):
        """Runs one beside a reader, and judges both."""
        before = self.taken()
        reader = Reader(self.proxy.address)
        codes = by(self.proxy.address, seconds, request, **more)
        reader.end()
        taken = self.taken() - before
        middle, most = statistics.median(reader.times), max(reader.times)
        print(f"{name}: {dict(codes)} in {seconds} s, {taken} connections of hipsd; "
              f"the reader: {dict(reader.answers)}, median {middle:.1f} ms, worst {most:.0f} ms", flush=True)
        self.assertEqual(set(reader.answers), {200}, "a reader is answered otherwise")
        self.assertLess(middle, median)
        self.assertLess(most, worst)
        self.assertLess(taken, connections, "connections of hipsd were taken")
        return codes

    def test_heads_that_hipsd_refuses(self):
        """nginx takes them, and hipsd closes the connection of each that it gets."""
        large = b"x" * 500000
        for name, request in (
            ("over 64 fields", asks(*(b"X-%d: 1" % i for i in range(80)))),
            ("over 8,192 bytes", asks(*(b"X-%d: " % i + b"x" * 4500 for i in range(2)))),
            ("a control character", asks(b"X-Odd: \x01\x02")),
            ("a long query", asks(path=lambda: (random_leaf() + b"?").ljust(8176, b"q"))),
            ("a long path", asks(path=lambda: b"/survey/" + b"p" * 8165)),
            ("bytes that are spelled longer", asks(path=lambda: b"/survey/" + b"\xff" * 3000)),
            ("a condition", asks(b'If-Match: "x"', path=lambda: b"/survey/properties")),
            ("a date", asks(b"If-Unmodified-Since: Sat, 01 Jan 2000 00:00:00 GMT", path=lambda: b"/survey/Moc.fits")),
            ("no body, of what isn't there", asks(method=b"HEAD")),
            ("no body", asks(b"If-None-Match: *", path=lambda: b"/survey/Moc.fits", method=b"HEAD")),
            ("a large body", asks(b"Content-Length: 500000", body=large)),
            ("a body of chunks", asks(b"Transfer-Encoding: chunked", body=b"7a120\r\n" + large + b"\r\n0\r\n\r\n")),
        ):
            with self.subTest(name):
                codes = self.attack(name, 0.7, request, 60, at_once=4 if "body" in name else 20)
                if name in ("a condition", "a date"):
                    self.assertEqual(set(codes), {"412"})

    def test_random_misses(self):
        """Paths of tiles that aren't there. Of one address 500 a second are answered."""
        begun = time.monotonic()
        codes = self.attack("random misses", 2, asks(), 100)
        self.assertLess(codes.total(), 500 * (time.monotonic() - begun) + 100)
        cached = sum(len(files) for _, _, files in os.walk(self.place / "cache"))
        print(f"random misses: {cached} files in the cache", flush=True)
        self.assertLess(cached, 100, "misses fill the cache")

    def test_bursts_of_several_addresses(self):
        """Many requests at the same moment, each from a connection of its own: those that go on at once share connections."""
        codes = self.attack("bursts", 2, asks(), 1000, threads=24, at_once=2, sources=8)
        self.assertLess(codes["503"], codes["404"] / 10, "many are told that the server is away")

    def test_burst_of_one_address(self):
        """Eight of its requests go on at once, and the others wait: hipsd has connections left for others."""
        before, codes = self.taken(), Counter()
        for _ in range(3):
            held = [connect(self.proxy.address, "127.0.0.2") for _ in range(120)]
            for one in held:
                one.sendall(asks()(b"close"))
            for one in held:
                codes[one.makefile("rb").read(12)] += 1
                one.close()
            time.sleep(1)
        self.assertEqual(codes, {b"HTTP/1.1 404": 360})
        self.assertLess(self.taken() - before, 60)

    def test_readers_who_leave(self):
        """nginx would close its connection to hipsd with theirs."""
        self.attack("readers who leave", 2, asks(), 100, by=leave)

    def test_half_heads(self):
        """As many of them as nginx has connections: others are served again once these have had five seconds."""
        halves = []
        for number in range(2 * self.proxy.connections):
            with suppress(OSError):
                half = connect(self.proxy.address, f"127.0.0.{2 + number % 8}", 0.2)
                halves.append(half)
                half.sendall(b"GET /survey/properties HTTP/1.1\r\nHost: x\r\n")
            if number % 16 == 0:
                time.sleep(0.01)
        began = time.monotonic()
        served, failed = None, 0
        while served is None and time.monotonic() < began + 12:
            reader = http.client.HTTPConnection(self.proxy.address, timeout=2)
            try:
                reader.request("GET", "/survey/properties")
                self.assertEqual(reader.getresponse().status, 200)
                served = time.monotonic() - began
            except (OSError, http.client.HTTPException):
                failed += 1
                time.sleep(0.1)
            reader.close()
        for half in halves:
            half.close()
        print(f"half heads: {len(halves)} at once; a reader is served after {served and round(served, 1)} s, by try {failed + 1}", flush=True)
        self.assertIsNotNone(served, "no reader is served")

    def test_requests_at_once(self):
        """One address has at most 128 in progress; here each waits for its body."""
        held = []
        for _ in range(160):
            one = connect(self.proxy.address, "127.0.0.2")
            one.sendall(b"GET /survey/properties HTTP/1.1\r\nHost: x\r\nContent-Length: 1\r\n\r\n")
            held.append(one)
        answered = Counter()
        until = time.monotonic() + 5
        while answered.total() < 32 and time.monotonic() < until:
            for one in select.select(held, [], [], 1)[0]:
                answered[one.recv(12)] += 1
                one.close()
                held.remove(one)
        self.assertEqual(ask(self.proxy.address, "GET", "survey/properties")[0], 200)
        for one in held:
            one.close()
        self.assertEqual(answered, {b"HTTP/1.1 429": 32})

    def test_guesses_of_passwords(self):
        """Each costs nginx a hash, for which nobody else is served."""
        words = base64.b64encode(b"editor:wrong")
        guess = asks(b"Authorization: Basic " + words, b"Content-Length: 0", path=lambda: b"/edit/publish", method=b"POST")
        codes = self.attack("guesses of passwords", 2, guess, 20, first=1)
        tried = (self.place / "error.log").read_text().count('user "editor": password mismatch')
        print(f"guesses of passwords: {tried} were compared and logged", flush=True)
        self.assertEqual(set(codes) - {"401", "429", "503", "broken"}, set())
        self.assertGreater(tried, 0, "guesses aren't logged")
        self.assertLess(tried, 200, "too many guesses are compared")


@needs("nginx", "openssl")
class Editors(Attack):
    """What stands before edits, once there is TLS."""

    @classmethod
    def setUpClass(cls):
        super().setUpClass()
        cls.proxy = cls.enterClassContext(Proxy(cls.place, cls.server.address, tls=True))

    def ask(self, method, path, fields=(), body=None, tls=True, password="secret"):
        """Code, fields and body of a reply to an editor."""
        words = {"Authorization": "Basic " + base64.b64encode(f"editor:{password}".encode()).decode()}
        return ask(self.proxy.secure if tls else self.proxy.address, method, path, body, {**words, **dict(fields)}, tls)

    def test_no_password_in_clear(self):
        """Not even from this machine; and a browser that came by TLS comes by that alone."""
        code, fields, body = self.ask("POST", "edit/publish", tls=False)
        self.assertEqual((code, b"https" in body), (403, True), body)
        code, fields, _ = self.ask("POST", "edit/publish")
        self.assertEqual((code, fields["Strict-Transport-Security"]), (200, "max-age=31536000"))
        code, fields, _ = ask(self.proxy.secure, "GET", "survey/properties", tls=True)
        self.assertEqual((code, fields["Strict-Transport-Security"]), (200, "max-age=31536000"))
        _, fields, _ = ask(self.proxy.address, "GET", "survey/properties")
        self.assertIsNone(fields["Strict-Transport-Security"])

    def test_no_http2(self):
        """There each request that is cancelled would take a connection of hipsd along, whatever nginx is told."""
        unseen = ssl._create_unverified_context()
        unseen.set_alpn_protocols(["h2", "http/1.1"])
        with connect(self.proxy.secure) as plain, unseen.wrap_socket(plain) as one:
            self.assertNotEqual(one.selected_alpn_protocol(), "h2")

    def test_pages_of_other_origins(self):
        """A browser says where a request comes from, by Sec-Fetch-Site also where it sends no Origin."""
        own = {"Origin": "https://hips.example.org"}
        for code, fields in (
            (200, {"Sec-Fetch-Site": "same-origin", **own}), (200, {"Sec-Fetch-Site": "none"}), (200, own), (200, {}),
            (403, {"Sec-Fetch-Site": "cross-site"}), (403, {"Sec-Fetch-Site": "same-site", **own}), (403, {"Origin": "null"}),
        ):
            with self.subTest(fields=fields):
                self.assertEqual(self.ask("POST", "edit/publish", fields)[0], code)

    def test_preconditions_go_through(self):
        """Of the fields of an edit these are passed on, and others are not."""
        for code, fields in (
            (412, {"If-Match": "*"}), (201, {"If-None-Match": "*"}), (412, {"If-None-Match": "*"}), (204, {"If-Match": "*"}),
            (412, {"If-Match": '"x"'}), (204, {f"X-{i}": "x" * 200 for i in range(70)}),
        ):
            with self.subTest(fields=fields):
                self.assertEqual(self.ask("PUT", f"edit/{LEAF}", fields, TILE)[0], code)

    def test_pauses(self):
        """While one of these files is there, editors are told to come again; readers too while the server is being stopped."""
        for name, readers in (("paused", 200), ("away", 503)):
            with self.subTest(name):
                (self.place / name).touch()
                code, fields, _ = self.ask("POST", "edit/publish")
                self.assertEqual((code, fields["Retry-After"]), (503, "5"))
                code, fields, _ = self.ask("GET", "survey/properties", tls=False)
                self.assertEqual((code, fields["Access-Control-Allow-Origin"]), (readers, "*"))
                (self.place / name).unlink()
        self.assertEqual(self.ask("POST", "edit/publish")[0], 200)

    def logged(self, line):
        """Waits for the line: nginx writes it after the reply."""
        log = self.place / "hipsd-edit.log"
        wait_until(lambda: re.search(line, log.read_text(), re.M), lambda: f"no {line} in: {log.read_text()}", 10)

    def test_who_edited(self):
        """A log of its own has each edit and each guess, with its user and the number that it was answered."""
        self.ask("POST", "edit/publish")
        self.ask("POST", "edit/publish", password="wrong")
        self.logged(r'^[0-9T:+-]+ 127\.0\.0\.1 "editor" "POST /edit/publish HTTP/1\.1" 200 .* published=\d+$')
        self.logged(r' "editor" "POST /edit/publish HTTP/1\.1" 401 ')
        self.server.end()
        self.assertEqual(self.ask("POST", "edit/publish")[0], 502)
        self.begin_server(self.server.address)
        self.logged(r' "editor" "POST /edit/publish HTTP/1\.1" 502 ')

    def test_types_are_as_they_are_said(self):
        for path in ("survey/properties", "survey/nothing", f"survey/{LEAF}", "edit/properties", "edit/pin"):
            with self.subTest(path=path):
                self.assertEqual(self.ask("GET", path)[1]["X-Content-Type-Options"], "nosniff")


# ---- the rules of the network


def may_filter():
    """Whether a network with a filter can be made here."""
    words = ["unshare", "-n", "sh", "-c", "ip link set lo up && nft add table inet try"]
    return ROOT and subprocess.run(words, capture_output=True).returncode == 0


@unittest.skipUnless(may_filter(), "no network with a filter can be made here")
class Filters(Case):
    """hipsd.nft and hipsd.tcp.nft, in a network of its own: what is connected to is a socket that listens, and no server."""

    def in_a_network(self, program):
        """What a program of Python writes there, in which `ports` listen and `reaches` says whether a user reaches one of them."""
        begin = """
import os, socket, subprocess
def listening(port):
    one = socket.socket()
    one.bind(("127.0.0.1", port))
    one.listen(600)
    return one
ports = [listening(port) for port in (80, 8080, 8081)]
def connected(port, source="127.0.0.1"):
    one = socket.socket()
    one.settimeout(5)
    one.bind((source, 0))
    try:
        one.connect(("127.0.0.1", port))
        return one
    except OSError:
        one.close()
def reaches(port, user):
    child = os.fork()
    if child == 0:
        os.setuid(user)
        os._exit(0 if connected(port) else 1)
    return os.waitpid(child, 0)[1] == 0
"""
        words = ["unshare", "-n", "sh", "-c", 'ip link set lo up && nft -f "$1" && nft -f "$2" && nft -f "$2" && exec python3 -c "$3"', "sh",
                 EXAMPLES / "hipsd.nft", EXAMPLES / "hipsd.tcp.nft", begin + program]
        return self.runs(0, "", *words)[0].decode().split()

    def test_both_ports_are_for_the_proxy(self):
        """That of a server and that of the next one: for root and www-data (33), and not for nobody (65534)."""
        said = self.in_a_network("print(*(reaches(port, user) for port in (8080, 8081, 80) for user in (0, 33, 65534)))")
        self.assertEqual(said, ["True", "True", "False", "True", "True", "False", "True", "True", "True"])

    def test_connections_of_one_address(self):
        """So many at once, and no more; another address has its own."""
        said = self.in_a_network("""
held = [connected(80, "127.0.0.2") for _ in range(300)]
print(sum(one is not None for one in held), connected(80, "127.0.0.3") is not None)
""")
        self.assertEqual(said, ["256", "True"])
