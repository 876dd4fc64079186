#!/bin/bash
# Times publications by `hipsd serve`, and prints the least and the middle of several runs.
#
# A client replaces leaves by PUT over one connection that stays open, and publishes: 1, 64 and 256 leaves of a full sky of order 3,
# 768 leaves of 512 by 512 numbers of 16 bits (a survey takes no more than 2^29 bytes of tiles with all its edits); and one leaf of
# 65,536 of order 11, of 32 by 32. Each time is the server's, by the line of the request in its log, from the head until the reply
# was flushed; beside it stands the client's. Before that the server starts over the leaves alone: it reads them and makes the first
# generation, with all processors and with one, by the line `loaded` of its log; `cat` of the same files stands beside it. Beside
# each publication stands the least work that makes the same bytes, on one processor by lanes.c: its milliseconds, how many numbers
# it merges and how many bytes it copies, and the server's least time by it.
#
# The program is a proved build: one of `rt try` has checks in it, and its times say nothing. They mean something only where nothing
# else runs.
#
#   bench/publication.sh [RUNS]    (HIPSD=PROGRAM: another program than crates/hipsd/out/hipsd)
set -u
here=$(cd "$(dirname "$0")" && pwd)
runs=${1:-5}
hipsd=$(realpath -e "${HIPSD:-$here/../crates/hipsd/out/hipsd}") || { echo "publication.sh: hipsd isn't built"; exit 1; }
work=$(mktemp -d) || exit 1
trap 'rm -rf "$work"' EXIT
cc -O3 -march=x86-64-v2 -o "$work/lanes" "$here/lanes.c" || exit 1
cd "$work" || exit 1
python3 - "$here/../scripts" "$hipsd" "$runs" <<'PYTHON'
import http.client
import os
import re
import socket
import statistics
import subprocess
import sys
import time
from contextlib import contextmanager
from pathlib import Path

sys.path.insert(0, sys.argv[1])
from survey_files import Survey, image, tile_path

HIPSD, RUNS = sys.argv[2], int(sys.argv[3])
# What the log says of a request: the method and the microseconds.
REQUEST = re.compile(r"^\[DEBUG request\] .*: (PUT|POST) \S+ \d+ \d+ (\d+) ", re.M)


class Field:
    """A folder with all leaves of a survey, from 0 on."""

    def __init__(self, name, order, width, leaves):
        self.folder, self.order, self.width, self.leaves = Path(name), order, width, leaves
        self.folder.mkdir()
        (self.folder / "survey.conf").write_bytes(Survey(name, f"Survey {name}", order, 3, width).description())
        file = self.tile(7)
        for leaf in range(leaves):
            path = self.folder / tile_path(order, leaf)
            path.parent.mkdir(parents=True, exist_ok=True)
            path.write_bytes(file)

    def tile(self, number):
        return image(self.width, self.width, [number % 4096] * (self.width * self.width))


class Server:
    """A server over a field, a connection to it, and the milliseconds from requests to replies."""

    def __init__(self, field, port, log):
        self.field, self.log, self.puts, self.publications = field, log, [], []
        self.client = http.client.HTTPConnection("127.0.0.1", port, timeout=60)

    def ask(self, method, path, body):
        begun = time.perf_counter()
        self.client.request(method, path, body)
        reply = self.client.getresponse()
        reply.read()
        if reply.status not in (200, 201, 204):
            sys.exit(f"publication.sh: {method} {path} is answered {reply.status}")
        return (time.perf_counter() - begun) * 1000

    def publish(self, count, number):
        """Replaces so many leaves, as far apart as they can lie, by tiles of a number, and publishes."""
        tile = self.field.tile(number)
        for i in range(count):
            leaf = (i * (self.field.leaves // count) + number) % self.field.leaves
            self.puts.append(self.ask("PUT", "/" + tile_path(self.field.order, leaf), tile))
        self.publications.append(self.ask("POST", "/publish", b""))

    def loaded(self):
        return int(re.search(r"loaded \d+ leaves in (\d+) ms", self.log.read_text())[1])

    def logged(self):
        """The milliseconds of PUTs and of publications, by the log. The last line may come after the reply."""
        for _ in range(100):
            took = {"PUT": [], "POST": []}
            for method, micros in REQUEST.findall(self.log.read_text()):
                took[method].append(int(micros) / 1000)
            if (len(took["PUT"]), len(took["POST"])) == (len(self.puts), len(self.publications)):
                return took["PUT"], took["POST"]
            time.sleep(0.1)
        sys.exit("publication.sh: the log hasn't a line for each request")


@contextmanager
def server(field, *prefix):
    """Runs a server, after a command that is put before it, until it answers and as long as it is wanted."""
    with socket.socket() as free:
        free.bind(("127.0.0.1", 0))
        port = free.getsockname()[1]
    log = Path("log")
    with log.open("wb") as out:
        words = [*prefix, HIPSD, "serve", f"127.0.0.1:{port}", "65536", "1"]
        process = subprocess.Popen(words, cwd=field.folder, stderr=out, env={**os.environ, "HIPSD_LOG": "debug"})
    try:
        until = time.monotonic() + 300
        while "loaded" not in log.read_text():
            if process.poll() is not None or time.monotonic() > until:
                sys.exit(f"publication.sh: the server doesn't answer: {log.read_text()}")
            time.sleep(0.01)
        yield Server(field, port, log)
    finally:
        process.kill()
        process.wait()


def told(times):
    return f"{min(times):.2f}, {statistics.median(times):.2f}"


def least_work(field, count):
    """What lanes.c says of replacing so many leaves: milliseconds, numbers merged, bytes copied."""
    words = ["./lanes", str(field.order), str(field.width), str(count)]
    took, merged, copied = subprocess.run(words, check=True, capture_output=True, text=True).stdout.split()
    return float(took), int(merged), int(copied)


def beside(field, count, least):
    took, merged, copied = least_work(field, count)
    return f"lanes.c {took:.2f} ms, {merged:,} numbers merged, {copied:,} bytes copied: {least / took:.2f}"


def time_publications(field, plans):
    """Prints what publications take; each plan is how many leaves each replaces, and how many there are in a run."""
    for count, publications in plans:
        puts, publications_took, to_client, puts_to_client = [], [], [], []
        for _ in range(RUNS):
            with server(field) as running:
                for number in range(publications):
                    running.publish(count, number)
                by_log = running.logged()
            puts += by_log[0]
            publications_took += by_log[1]
            puts_to_client += running.puts
            to_client += running.publications
        print(f"  a publication of {count}: {told(publications_took)} ms, to the client {told(to_client)}; "
              f"a PUT {told(puts)}, to the client {told(puts_to_client)}")
        print(f"    {beside(field, count, min(publications_took))}")


def time_starts(field):
    """Prints what the server takes to read the leaves and to make the first generation."""
    files = [path for path in field.folder.rglob("*") if path.is_file()]
    cat = []
    for _ in range(RUNS):
        begun = time.perf_counter()
        for some in range(0, len(files), 1000):
            subprocess.run(["cat", *files[some:some + 1000]], check=True, stdout=subprocess.DEVNULL)
        cat.append((time.perf_counter() - begun) * 1000)
    for name, prefix in ("all processors", ()), ("one", ("taskset", "-c", "0")):
        times = []
        for _ in range(RUNS):
            with server(field, *prefix) as running:
                times.append(running.loaded())
        print(f"  loaded by {name} in {told(times)} ms; `cat` of the files {told(cat)}")
    print(f"    of it the first generation: {least_work(field, field.leaves)[0]:.2f} ms by lanes.c")


print(f"{len(os.sched_getaffinity(0))} processors, least and middle of {RUNS} runs")
for title, field, plans in (
    ("a full sky of order 3, 768 leaves of 512 by 512, 16 bits", ("full", 3, 512, 768), ((1, 20), (64, 4), (256, 1))),
    ("65,536 leaves of order 11, of 32 by 32", ("deep", 11, 32, 65536), ((1, 100),)),
):
    field = Field(*field)
    print(f"{title}:")
    time_starts(field)
    time_publications(field, plans)
PYTHON
