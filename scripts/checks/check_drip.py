"""Clients of `hipsd serve` that send or take a byte at a time, as many as it has places, while curl asks each second: none waits longer
than a turn may take, and afterwards all places serve again. It takes a minute, and is mostly idle.
"""

import http.client
import os
import select
import shutil
import socket
import subprocess
import threading
import time
from contextlib import suppress

from checks.cases import Case, together
from checks.servers import connect, request
from survey_files import Survey

SURVEY = Survey("drip", "Survey drip", top=5, low=3, width=8)
PLACES = 64
# What a request or a reply of few bytes may take, and what may pass until it is seen that the time is over.
DEADLINE = 30
SLACK = 5
# How long a connection may be idle between two requests.
IDLE = 30
# How long a connection is read after its last reply, and how soon the client is told that it was the last.
END = 10
SOON = 0.7
# How often a client sends or takes a byte.
PAUSE = 2

ASKS = request(b"GET", b"/properties")
HEAD = b"GET /properties HTTP/1.1\r\nHost: a\r\nX-Slow: "
BODY = b"PUT /Norder5/Dir0/Npix7.fits HTTP/1.1\r\nHost: a\r\nContent-Length: 5760\r\n\r\n"
# More replies than the buffers on the way hold.
TAKE = request(b"GET", b"/Norder3/Allsky.fits") * 120


def connected(server, seconds=120):
    return connect(server.address, seconds=seconds)


def drip(server, start):
    """Sends the start and then byte after byte, until the server ends it. Answers after how many seconds it does."""
    with connected(server) as client:
        begun = time.monotonic()
        client.sendall(start)
        while time.monotonic() - begun < 2 * DEADLINE and not select.select([client], [], [], PAUSE)[0]:
            client.sendall(b"a")
        return time.monotonic() - begun


def take(server):
    """Asks for much and takes a byte now and then."""
    until = time.monotonic() + 2 * DEADLINE
    with socket.socket() as client:
        client.setsockopt(socket.SOL_SOCKET, socket.SO_RCVBUF, 4096)
        client.settimeout(120)
        host, _, port = server.address.partition(":")
        client.connect((host, int(port)))
        client.sendall(TAKE)
        with suppress(OSError):
            while time.monotonic() < until and client.recv(1):
                time.sleep(PAUSE)


class Drip(Case):
    """Clients that hold as many places as they can, over a survey of one leaf."""

    def test_two_servers(self):
        """At the same time, since most of it is waiting."""
        servers = [self.serve(SURVEY.write(self.folder / name, {7: range(64)}), places=PLACES) for name in ("one", "two")]
        together(lambda: self.drippers(servers[0]), lambda: self.slow_clients(servers[1]))
        for server in servers:
            self.serves_at_once(server)
            self.assertIsNone(server.process.poll(), "the server ended while it was tried")

    def drippers(self, server):
        takers = [threading.Thread(target=take, args=(server,), daemon=True) for _ in range(PLACES // 4)]
        for taker in takers:
            taker.start()
        drippers = [lambda start=start: drip(server, start) for start in (HEAD, BODY) for _ in range(3 * PLACES // 8)]
        longest, *ended = together(lambda: self.ask_each_second(server, "drippers", DEADLINE + SLACK), *drippers)
        self.assertGreaterEqual(longest, DEADLINE / 2, "the drippers didn't hold all the places")
        self.assertLessEqual(max(ended), DEADLINE + SLACK, "heads and bodies are ended later")
        self.serves_at_once(server)
        self.sends_on(server)

    def slow_clients(self, server):
        """Beside them there are a connection that is kept, and one that is idle."""
        together(lambda: self.slowhttptest(server), lambda: self.is_kept(server), lambda: self.stays_idle(server))

    def ask_each_second(self, server, name, seconds):
        """Has curl ask so many seconds long, from a second on. Answers the longest wait, which may not be longer than a turn."""
        command = ["curl", "-s", "-o", os.devnull, "-w", "%{http_code} %{time_total}", "--max-time", "120", f"{server.base}/properties"]
        asking = []
        for _ in range(seconds):
            time.sleep(1)
            asking.append(subprocess.Popen(command, stdout=subprocess.PIPE, text=True))
        answers = [one.communicate()[0].split() for one in asking]
        self.assertEqual({answer[0] for answer in answers}, {"200"}, f"{name}: curl is answered otherwise")
        longest = max(float(answer[1]) for answer in answers)
        print(f"{name}: {seconds} requests of curl, the longest wait {longest:.1f} seconds")
        self.assertLessEqual(longest, DEADLINE + SLACK, name)
        return longest

    def serves_at_once(self, server):
        """As many connections as there are places, each kept open until all have their replies."""
        begun = time.monotonic()
        clients = [connected(server) for _ in range(PLACES)]
        for client in clients:
            client.sendall(ASKS)
        for client in clients:
            client.settimeout(max(0.1, begun + DEADLINE - time.monotonic()))
            self.assertTrue(client.recv(16).startswith(b"HTTP/1.1 200"), "a place gives another reply")
        print(f"{PLACES} connections at once are served after {time.monotonic() - begun:.1f} seconds")
        for client in clients:
            client.close()

    def slowhttptest(self, server):
        """Its three kinds: slow heads, slow bodies, slow reads."""
        if not shutil.which("slowhttptest"):
            print("left out, not installed here: slowhttptest")
            self.assertNotEqual(os.environ.get("CI"), "true", "slowhttptest isn't installed")
            return
        each = ["slowhttptest", "-c", "22", "-r", "22", "-i", str(PAUSE), "-l", str(DEADLINE + SLACK), "-p", "120"]
        kinds = [
            ["-H", "-u", f"{server.base}/properties"],
            ["-B", "-t", "PUT", "-s", "5760", "-u", f"{server.base}/Norder5/Dir0/Npix7.fits"],
            ["-X", "-w", "1", "-y", "2", "-n", str(PAUSE), "-z", "1", "-k", "9", "-u", f"{server.base}/Norder3/Allsky.fits"],
        ]
        running = [self.begin(*each, *kind) for kind in kinds]
        time.sleep(1)
        self.ask_each_second(server, "slowhttptest", DEADLINE)
        for one in running:
            one.wait()

    def is_kept(self, server):
        """A connection that asks now and then, for longer than a request may take: each is answered, and by that connection."""
        client = http.client.HTTPConnection(server.address, timeout=DEADLINE)
        client.connect()
        client.auto_open = False
        until, asked = time.monotonic() + DEADLINE + 2 * SLACK, 0
        while time.monotonic() < until:
            client.request("GET", "/properties")
            reply = client.getresponse()
            reply.read()
            asked += 1
            self.assertEqual(reply.status, 200, f"a connection that is kept, at request {asked}")
            time.sleep(PAUSE)
        print(f"a connection that is kept was answered {asked} times")
        client.close()

    def stays_idle(self, server):
        """A client that asks, asks again after a good part of the time that a connection may be idle, and then asks nothing: it is ended."""
        with connected(server) as client:
            for pause in (0, 2 * IDLE / 5):
                time.sleep(pause)
                client.sendall(request(b"HEAD", b"/properties"))
                self.assertTrue(client.recv(4096).startswith(b"HTTP/1.1 200"), f"a connection that was idle for {pause} seconds")
            begun = time.monotonic()
            while client.recv(4096):
                pass
            ended = time.monotonic() - begun
        print(f"an idle connection is ended after {ended:.1f} seconds")
        self.assertTrue(IDLE - 1 < ended < IDLE + SLACK, f"an idle connection is ended after {ended} seconds")

    def sends_on(self, server):
        """A client that goes on sending after its last reply. It is told at once that this was the last, and ended soon."""
        with connected(server) as client:
            begun = time.monotonic()
            client.sendall(request(b"GET", b"/properties", b"", b"Connection: close"))
            while client.recv(4096):
                pass
            told = time.monotonic() - begun
            with suppress(OSError):
                while time.monotonic() - begun < 2 * DEADLINE:
                    client.sendall(b"a")
                    time.sleep(0.5)
            ended = time.monotonic() - begun
        print(f"a connection after its last reply is told so after {told:.1f} seconds, and ended after {ended:.1f}")
        self.assertLessEqual(told, SOON)
        self.assertLessEqual(ended, END + SLACK)
