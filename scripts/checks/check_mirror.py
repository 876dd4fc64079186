"""Tries copies of a running server: `hipsd mirror`, examples/backup.sh, examples/rollover.sh with nginx, and their services and timers of
systemd. What the files of a state are comes from survey_files.py, which has nothing of the program.
"""

import base64
import hashlib
import re
import socket
import struct
import threading
import time
from functools import cache

from checks.cases import Case, files_of, needs
from checks.servers import EXAMPLES, PROGRAM, Proxy, ask, free_port, is_listening, wait_until
from survey_files import Survey, tile_path

SURVEY = Survey("mirror", "Survey mirror", top=5, low=3, width=8)
LEAVES = [0, 1, 2, 3, 7, 100, 101, 5000, 5001, 12287]
PATHS = ["properties", tile_path(5, 0), tile_path(3, 0), "Moc.fits", tile_path(4, 25), "Norder3/Allsky.fits"]
COPIES = 20


def numbers(value):
    """The stored numbers of a tile that has this number of its own."""
    return [value + s % 3 for s in range(64)]


@cache
def files_after(leaves):
    """The files of a state, by its leaves and their numbers."""
    stored = {leaf: numbers(value) for leaf, value in leaves}
    return dict(zip(SURVEY.paths(stored), SURVEY.files(stored)))


class Client(threading.Thread):
    """One that goes on until it is ended, and keeps the fault that ended it."""

    def __init__(self, address):
        super().__init__(daemon=True)
        self.address, self.fault, self.stop = address, None, threading.Event()
        self.start()

    def run(self):
        try:
            while not self.stop.is_set():
                self.turn()
                time.sleep(0.02)
        except Exception as fault:  # whatever it is, the test fails by it
            self.fault = fault

    def end(self):
        self.stop.set()
        self.join()
        if self.fault:
            raise AssertionError(f"{type(self).__name__}: {self.fault!r}")


class Editor(Client):
    """Puts and removes leaves that no other editor has in batches of two, and publishes. NAME is 1 or 2, and each tile that it puts has a number
    of its own. Where edits are paused (503) it tries again, with a batch of one edit at first: so the prefixes of a second server, which
    begins anew, are odd or 0, and those of the first are even. The journal gets a row for each accepted edit: which server, its number there,
    the leaf, and its number or None."""

    def __init__(self, name, address, base="", words=""):
        self.name_, self.base, self.journal = name, base, []
        self.fields = {"Authorization": "Basic " + base64.b64encode(words.encode()).decode()} if words else {}
        self.count, self.server, self.last, self.size = 0, 0, 0, 2
        self.leaves, self.there = LEAVES[name % 2 :: 2], set()
        super().__init__(address)

    def ask(self, path, body):
        """The number of edits in the reply to a POST; None where edits are paused."""
        status, fields, text = ask(self.address, "POST", f"{self.base}{path}", body, self.fields)
        if status == 503 and b"paused" in text:
            self.size = 1
            time.sleep(0.1)
            return None
        if status != 200:
            raise AssertionError(f"{path} is answered {status} {text}")
        return int(fields["Survey-Edits"] or 0)

    def batch(self):
        """A batch of edits, which goes to the journal once it is accepted."""
        edits = []
        for i in range(self.count, self.count + self.size):
            leaf = self.leaves[i * 2 % len(self.leaves)]
            edits.append((leaf, None if i % 5 == 4 and leaf in self.there else self.name_ * 10_000 + i % 9_000))
        file = {value: SURVEY.leaf(leaf, numbers(value)) for leaf, value in edits if value is not None}
        body = b"".join(b"remove %d\n" % leaf if value is None else b"put %d %d\n" % (leaf, len(file[value])) + file[value] for leaf, value in edits)
        last = self.ask("batch", body)
        if last is None:
            return False
        self.server += last < self.last
        self.last = last
        self.count += len(edits)
        for number, (leaf, value) in enumerate(edits, last - len(edits) + 1):
            self.journal.append((self.server, number, leaf, value))
            (self.there.discard if value is None else self.there.add)(leaf)
        self.size = 2
        return True

    def turn(self):
        while not self.batch() or self.ask("publish", b"") is None:
            pass


class Reader(Client):
    """Reads some files in turn, by a connection each. Of each reply it keeps the prefix, the path, and a sum of the body."""

    def __init__(self, address):
        self.replies = []
        super().__init__(address)

    def turn(self):
        for path in PATHS:
            status, fields, body = ask(self.address, "GET", f"survey/{path}")
            if status not in (200, 404):
                raise AssertionError(f"{path} is answered {status}")
            self.replies.append((int(fields["Survey-Prefix"]), path, hashlib.sha256(body).digest() if status == 200 else None))


def states(*editors):
    """The leaves after each number of edits, of each server: the next one goes on from the last state of the one before."""
    leaves, found = {}, {(0, 0): ()}
    for server, number, leaf, value in sorted((row for editor in editors for row in editor.journal), key=lambda row: row[:2]):
        if number == 1:
            found[server, 0] = tuple(leaves.items())
        if (server, number - 1) not in found or (server, number) in found:
            raise AssertionError(f"the journals don't have edit {number} once")
        leaves = {key: its for key, its in {**leaves, leaf: value}.items() if its is not None}
        found[server, number] = tuple(sorted(leaves.items()))
    return found


class SlowPeer(threading.Thread):
    """Passes connections on to an address, and holds back what is sent back."""

    def __init__(self, address, seconds):
        super().__init__(daemon=True)
        self.peer, self.seconds, self.server = address, seconds, socket.create_server(("127.0.0.1", 0))
        self.address = "127.0.0.1:%d" % self.server.getsockname()[1]
        self.start()

    def run(self):
        client, _ = self.server.accept()
        host, _, port = self.peer.partition(":")
        peer = socket.create_connection((host, int(port)))
        for ends in (client, peer, 0), (peer, client, self.seconds):
            threading.Thread(target=self.pass_on, args=ends, daemon=True).start()

    @staticmethod
    def pass_on(source, sink, seconds):
        while came := source.recv(65536):
            time.sleep(seconds)
            sink.sendall(came)
        sink.shutdown(socket.SHUT_WR)


class Copying(Case):
    """A survey, and the folder of its copies."""

    def setUp(self):
        super().setUp()
        self.kept, self.servers = self.folder / "kept", {"HIPSD_SERVERS": str(self.folder / "servers")}

    def serve(self, leaves=(), *words, **more):
        return super().serve(SURVEY.write(self.folder / "survey", leaves), *words, HIPSD_LOG="error", **more)

    def script(self, status, text, name, *words, **environment):
        quiet = {"HIPSD_LOG": "error", "HIPSD_KEEP": str(COPIES), "HIPSD_TRIES": "1", **self.servers}
        return self.runs(status, text, EXAMPLES / name, *words, **{**quiet, **environment})[1]

    def copies(self):
        return sorted(path for path in self.folder.glob("kept.[0-9]*Z") if path.is_dir())

    def refused(self, text, *words, **environment):
        """backup.sh fails with these words and says so, and the link with what it shows stays."""
        before = self.kept.resolve(), files_of(self.kept)
        self.script(environment.pop("status", 1), text, "backup.sh", *words, **environment)
        self.assertTrue((self.kept.resolve(), files_of(self.kept)) == before, f"backup.sh {words}, which fails, changes the copy before")
        self.assertEqual(list(self.folder.glob("kept.*.unfinished")), [])

    def is_of(self, folder, leaves):
        """The copy has the files of a state, and no other."""
        wanted = dict(files_after(leaves))
        wanted["survey.conf"] = wanted["properties"].rsplit(b"survey_leaves", 1)[0]
        there = files_of(folder)
        self.assertEqual([path for path in wanted.keys() | there.keys() if wanted.get(path) != there.get(path)], [], folder)

    def damaging(self):
        """A program like hipsd, on a disk that loses a file's bytes between the copy and the reading."""
        program = self.folder / "damaging"
        program.write_text(f'#!/bin/sh\n"{PROGRAM}" "$@" || exit\n'
                           '[ "$1" = verify ] || { printf x | dd of=properties conv=notrunc bs=1 seek=3 2>/dev/null; }\n')
        program.chmod(0o755)
        return {"HIPSD_PROGRAM": str(program)}


class Copies(Copying):
    """What a copy has, and what stays of those before."""

    def test_a_running_server(self):
        """Copies of a server that two editors edit and publish all the while. Each is of one published state, and all its files are that state's.
        So many copies stay as are told."""
        server = self.serve()
        editors = [Editor(name, server.address) for name in (1, 2)]
        wait_until(lambda: editors[0].journal, "nothing is edited", 30)
        for _ in range(COPIES):
            self.script(0, "", "backup.sh", server.address, self.kept)
        for editor in editors:
            editor.end()
        copies, found, prefixes = self.copies(), states(*editors), set()
        self.assertEqual(len(copies), COPIES)
        self.assertEqual(self.kept.resolve(), copies[-1].resolve(), "the link shows the last copy")
        for copy in copies:
            tiles = copy.glob("Norder5/*/*.fits")
            leaves = tuple(sorted((int(tile.stem[4:]), struct.unpack_from(">h", tile.read_bytes(), 2880)[0]) for tile in tiles))
            those = [number for (_, number), state in found.items() if state == leaves]
            self.assertTrue(those, f"{copy} is of no state: {leaves}")
            self.is_of(copy, leaves)
            prefixes.add(those[0])
        print(f"{len(copies)} copies, of {len(prefixes)} states of {len(found) - 1}")
        self.script(0, "", "backup.sh", server.address, self.kept, HIPSD_KEEP="3")
        self.assertEqual(len(self.copies()), 3)
        self.assertTrue((self.kept / "properties").stat().st_size)
        self.hipsd(0, "", "verify", cwd=self.kept.resolve())

    def test_a_slow_peer(self):
        """How far a copy is, at most once a second: each reply comes late."""
        server = self.serve({leaf: numbers(leaf) for leaf in LEAVES})
        late = self.folder / "late"
        late.mkdir()
        begun = time.monotonic()
        said = self.hipsd(0, "", "mirror", SlowPeer(server.address, 0.4).address, cwd=late, HIPSD_LOG="info")[1]
        told = len(re.findall(r"(?m) leaves copied: [1-9]\d* of [1-9]\d*$", said))
        self.assertTrue(1 <= told <= time.monotonic() - begun, f"{told} times: {said}")

    def test_copies_that_fail(self):
        server = self.serve({7: numbers(7)})
        self.script(0, "", "backup.sh", server.address, self.kept)
        self.refused("can't connect", f"127.0.0.1:{free_port()}", self.kept)
        self.refused("", server.address, self.kept, **self.damaging())
        (self.folder / "other").mkdir()
        self.refused("", server.address, self.folder / "other", status=2)
        self.refused("", server.address, status=2)

    def test_a_unix_socket(self):
        """A server over a copy, at a Unix socket that nginx's file names."""
        first = self.serve({7: numbers(7), 8: numbers(8)})
        self.script(0, "", "backup.sh", first.address, self.kept)
        socket, named, again = str(self.folder / "socket"), self.folder / "named", self.folder / "again"
        server = Case.serve(self, self.kept.resolve(), 16, 4, socket)
        named.write_text(f"server unix:{socket} max_conns=48;\n")
        for address in (socket, f"@{named}"):
            self.script(0, "", "backup.sh", address, again)
            self.assertTrue(files_of(again) == files_of(self.kept), f"a copy by backup.sh {address}")
        self.script(0, f"drain.sh: {socket} ends, and with it the 0 edits since its start", "drain.sh", socket)
        server.end()
        self.refused(f"can't connect to {socket}: Connection refused", socket, self.kept)

    @needs("systemd-analyze")
    def test_units(self):
        """systemd takes the services and their timers."""
        units = [self.folder / f"hipsd-{name}.{kind}" for name in ("backup", "renew") for kind in ("service", "timer")]
        for unit in units:
            unit.write_text((EXAMPLES / unit.name).read_text().replace("=/usr/local/share/doc/hipsd/examples/", f"={EXAMPLES}/"))
        self.assertEqual(self.runs(0, "", "systemd-analyze", "verify", "--man=no", *units)[1], "")
        self.assertRegex(units[0].read_text(), "(?m)^TimeoutStartSec=55min$", "a backup has no end")


@needs("nginx", "openssl")
class Renewal(Copying):
    """A server is renewed while eight clients read through nginx and an editor edits. No request fails, and each reply is the file of the state
    that its Survey-Prefix names; no accepted edit is lost. Where a step fails the first server goes on."""

    def setUp(self):
        super().setUp()
        self.first, self.next = self.serve(), f"127.0.0.1:{free_port()}"
        self.web = self.folder / "web"
        self.web.mkdir()
        self.proxy = self.enterContext(Proxy(self.web, self.first.address, processes=2))
        self.served = self.folder / "served"
        self.addCleanup(self.end_second)

    def end_second(self):
        if self.served.exists():
            self.runs(0, "", "sh", "-c", f"kill $(cat {self.served}); rm {self.served}")

    def rolls(self, status, *words, **environment):
        """rollover.sh, with what it takes here."""
        log, conf, port, first = self.folder / "new.log", self.web / "nginx.conf", self.first.address.split(":")[1], self.first.process.pid
        known = {
            "HIPSD_SITE": self.proxy.server_file, "HIPSD_STRANGER": "false", "HIPSD_PAUSED": self.web / "paused", "HIPSD_NGINX_PID": self.web / "nginx.pid",
            "HIPSD_BEGIN": f'cd "$FOLDER" && {{ \'{PROGRAM}\' serve "$ADDRESS" 65536 64 >/dev/null 2>\'{log}\' & echo $! >\'{self.served}\'; }}',
            "HIPSD_RELOAD": f"nginx -t -q -c '{conf}' -p '{self.web}' 2>/dev/null && kill -HUP {self.proxy.process.pid}",
            "HIPSD_FINISH": f'if [ "$NAME" = {port} ]; then kill {first}; else kill $(cat \'{self.served}\') && rm \'{self.served}\'; fi',
        }
        self.script(status, "", "rollover.sh", *words, **{name: str(value) for name, value in {**known, **environment}.items()})

    def stays(self, status, *words, **environment):
        """rollover.sh fails, and the first server goes on, and edits."""
        self.rolls(status, *words, **environment)
        self.assertFalse((self.web / "paused").exists(), "edits stay paused")
        self.assertFalse(is_listening(self.next), "the second server runs")
        self.served.unlink(missing_ok=True)
        self.assertRegex(self.proxy.server_file.read_text(), f"server {self.first.address}[ ;]", "the proxy is turned away")
        self.assertIsNone(self.first.process.poll(), "the first server has ended")

    def test_renewal(self):
        self.stays(1, self.first.address, self.next, **self.damaging())
        self.stays(2, self.first.address, self.first.address)
        self.stays(1, self.first.address, self.next, HIPSD_BEGIN="exit 1")
        editor = Editor(1, self.proxy.address, "edit/", "editor:secret")
        wait_until(lambda: editor.journal, "nothing is edited", 30)
        time.sleep(1)
        readers = [Reader(self.proxy.address) for _ in range(8)]
        self.rolls(0, self.first.address, self.next)
        self.assertFalse((self.web / "paused").exists(), "edits stay paused")
        self.first.process.wait(20)
        self.assertFalse(is_listening(self.first.address), "the first server runs on")
        time.sleep(2)
        editor.end()
        time.sleep(1.5)
        for reader in readers:
            reader.end()
        self.judge(editor, readers)
        # All accepted edits are there.
        self.script(0, "", "backup.sh", f"@{self.proxy.server_file}", self.kept)
        found = states(editor)
        self.is_of(self.kept, found[max(found)])

    def judge(self, editor, readers):
        """Each reply is the file of its prefix."""
        found, of_servers, seen = states(editor), set(), set()
        servers = {server for server, _ in found}
        sums = {}
        for prefix, path, got in (reply for reader in readers for reply in reader.replies):
            # The second server's prefixes are odd or 0, and the first one's are even; nobody reads before its first publication.
            state = 1 if 1 in servers and (prefix == 0 or prefix % 2) else 0, prefix
            self.assertIn(state, found, f"{path}: there is no such state")
            if state not in sums:
                sums[state] = {path: hashlib.sha256(body).digest() for path, body in files_after(found[state]).items()}
            self.assertEqual(sums[state].get(path), got, f"{path} isn't of the state {state}")
            of_servers.add(state[0])
            seen.add(state)
        self.assertEqual(of_servers, servers)
        self.assertEqual(servers, {0, 1})
        print(f"{sum(len(reader.replies) for reader in readers)} replies of {len(seen)} states of {len(servers)} servers")
