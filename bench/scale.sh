#!/bin/bash
# Prints what `hipsd serve` takes of memory and time at two large surveys: the full sky of order 3, 768 leaf tiles of 512 by 512
# pixels of 16 bits, and 65,536 leaves of order 11, of 32 by 32.
#
# Of each: the bytes of all pixels of one generation; seconds from the start of the program until it answers; its resident set
# then and after publications; microseconds of a PUT and milliseconds of a publication, as one client over a connection that stays
# open sees them (median). There are 1,000 PUTs and 10 publications, or, of the full sky, 240 PUTs: a survey takes no more than
# 2^29 bytes of tiles with all its edits. Then the 65,536 leaves once more, with 20,000 PUTs and 200 publications.
#
# The server has one place, so that nobody holds an old state: a place keeps the state that it last saw until its next request,
# also while it waits for a connection. With PLACES=4 three places keep the first one.
#
#   bench/scale.sh         (HIPSD=PROGRAM: another program than crates/hipsd/out/hipsd)
set -u
here=$(cd "$(dirname "$0")" && pwd)
places=${PLACES:-1}
hipsd=$(realpath -e "${HIPSD:-$here/../crates/hipsd/out/hipsd}") || { echo "scale.sh: hipsd isn't built"; exit 1; }
command -v python3 >/dev/null 2>&1 || { echo "scale.sh: there is no python3 here"; exit 0; }
work=$(mktemp -d) || exit 1
server=
# shellcheck disable=SC2317 # it is called by the trap
end() {
    [ -n "$server" ] && kill "$server" 2>/dev/null
    rm -rf "$work"
}
trap end EXIT

# make ORDER WIDTH LEAVES: the folder of such a survey.
make() {
    mkdir -p "$work/survey" && cd "$work/survey" && rm -rf ./* || exit 1
    python3 - "$here/../scripts" "$@" <<'PYTHON' || exit 1
import sys
from pathlib import Path

sys.path.insert(0, sys.argv[1])
from survey_files import Survey, image, tile_path

order, width, leaves = (int(word) for word in sys.argv[2:])
survey = Survey("scale", "Survey scale", top=order, low=3, width=width)
Path("survey.conf").write_bytes(survey.description())
numbers = [s % 4096 for s in range(width * width)]
for leaf in range(leaves):
    path = Path(tile_path(order, leaf))
    path.parent.mkdir(parents=True, exist_ok=True)
    if leaf == 0:
        file = image(width, width, numbers)
    path.write_bytes(file)
pixels = sum(len({leaf // 4 ** (order - k) for leaf in range(leaves)}) for k in range(3, order + 1)) * width * width * 2
print(f"order {order}, {leaves} leaves of {width} by {width}: pixels of one generation {pixels / 1e6:.1f} MB")
PYTHON
}

# measure ORDER WIDTH LEAVES EDITS PUBLICATIONS
measure() {
    make "$1" "$2" "$3"
    port=$(python3 -c 'import socket; s = socket.socket(); s.bind(("127.0.0.1", 0)); print(s.getsockname()[1])')
    "$hipsd" serve "127.0.0.1:$port" 65536 "$places" 2>"$work/log" &
    server=$!
    python3 - "$here/../scripts" "$server" "$port" "$@" <<'PYTHON' || { cat "$work/log"; exit 1; }
import http.client
import random
import socket
import statistics
import sys
import time
from pathlib import Path

sys.path.insert(0, sys.argv[1])
from survey_files import image, tile_path

server, port, order, width, leaves, edits, count = (int(word) for word in sys.argv[2:])


def resident():
    status = Path(f"/proc/{server}/status").read_text()
    return int(status.split("VmRSS:")[1].split()[0]) * 1024 / 1e6


begun = time.perf_counter()
while True:
    try:
        socket.create_connection(("127.0.0.1", port)).close()
        break
    except OSError:
        time.sleep(0.01)
        if time.perf_counter() - begun > 300:
            sys.exit("scale.sh: the server doesn't listen")
loaded = time.perf_counter() - begun
client = http.client.HTTPConnection("127.0.0.1", port, timeout=60)


def ask(method, path, body=None):
    begun = time.perf_counter()
    client.request(method, path, body)
    reply = client.getresponse()
    reply.read()
    if reply.status not in (200, 201, 204):
        sys.exit(f"scale.sh: {method} {path} is answered {reply.status}")
    return time.perf_counter() - begun


opened = resident()
chance = random.Random(7)
puts, publications, sizes = [], [], []
for i in range(edits):
    file = image(width, width, [i % 4096] * (width * width))
    puts.append(ask("PUT", "/" + tile_path(order, chance.randrange(leaves)), file))
    if (i + 1) % (edits // count) == 0:
        publications.append(ask("POST", "/publish", b""))
        sizes.append(resident())
told = ", ".join(f"{sizes[n - 1]:.1f} ({n})" for n in (1, 10, 50, 100, 150, 200) if n <= count)
print(f"  answers after {loaded:.2f} s; resident {opened:.1f} MB; after so many publications of {edits // count} edits {told}; "
      f"the tiles of all {edits} edits {edits * width * width * 2 / 1e6:.1f} MB")
print(f"  a PUT {statistics.median(puts) * 1e6:.0f} microseconds, a publication of {edits // count} edits "
      f"{statistics.median(publications) * 1e3:.1f} ms")
one = []
for i in range(10):
    ask("PUT", "/" + tile_path(order, chance.randrange(leaves)), image(width, width, [i] * (width * width)))
    one.append(ask("POST", "/publish", b""))
print(f"  a publication of one edit {statistics.median(one) * 1e3:.2f} ms (median of {len(one)})")
PYTHON
    kill "$server"
    wait "$server" 2>/dev/null
    server=
}
measure 3 512 768 240 10
measure 11 32 65536 1000 10
measure 11 32 65536 20000 200
