#!/bin/bash
# Times reads of earlier states by `hipsd past 8`, and prints each figure beside its goal.
#
# Over a full sky of order 3, 768 leaves of 512 by 512 pixels of 16 bits with the orders down to 0, and 200 batches of one edit
# each: reads of `properties` one edit further each time, beside publications of one leaf by `hipsd session`, by its log; reads
# back, below all states that are held; and reads of a leaf tile of a state that is held, beside C (session.c). C copies the bytes
# of the file from one warm buffer to another, and writes them into a pipe. Then over 65,536 leaves of order 11, of 32 by 32, with
# 10,000 edits in batches of 80: reads of states all over.
#
# Reads one edit further are timed by five rounds over the 200 edits, from a file and into /dev/null, so that no client is in it:
# the whole process on the wall, less one that reads once. Reads back and those of the deep field are timed by a client at the
# other end of two pipes, on the wall, from the record to the end of the answer. Reads of a held state are timed by 20,000 of
# them, as processor time of the whole process, less that of one read. The wall means something only where nothing else runs.
# The program is the proved build: one of `rt try` has checks in it, and its times say nothing. To try the script there is
# HIPSD=PROGRAM, which runs that.
#
#   bench/past.sh [RUNS]
set -u
here=$(cd "$(dirname "$0")" && pwd)
runs=${1:-3}
export HIPSD_LOG=error
for tool in gcc python3; do
    command -v $tool >/dev/null 2>&1 || { echo "past.sh: there is no $tool here"; exit 0; }
done
hipsd=$(realpath -e "${HIPSD:-$here/../crates/hipsd/out/hipsd}") || { echo "past.sh: hipsd isn't built"; exit 1; }
work=$(mktemp -d) || exit 1
trap 'rm -rf "$work"' EXIT
gcc -O3 -march=x86-64-v2 -o "$work/session" "$here/session.c" || exit 1

# make ORDER WIDTH LEAVES: the folder of a survey, with the leaves from 0 on.
make() {
    mkdir -p "$work/survey" && cd "$work/survey" && rm -rf ./* || exit 1
    python3 - "$here/../scripts" "$@" <<'PYTHON' || exit 1
import sys
from pathlib import Path

sys.path.insert(0, sys.argv[1])
from survey_files import Survey, image, tile_path

order, width, leaves = (int(word) for word in sys.argv[2:])
Path("survey.conf").write_bytes(Survey("past", "Survey past", top=order, low=0, width=width).description())
file = image(width, width, [s % 4096 for s in range(width * width)])
for leaf in range(leaves):
    path = Path(tile_path(order, leaf))
    path.parent.mkdir(parents=True, exist_ok=True)
    path.write_bytes(file)
PYTHON
}

# batches WIDTH LEAVES APART COUNT SIZE: so many batches of SIZE edits, which put leaves so far apart.
batches() {
    python3 - "$here/../scripts" "$@" <<'PYTHON' || exit 1
import sys

sys.path.insert(0, sys.argv[1])
from survey_files import image

width, leaves, apart, count, size = (int(word) for word in sys.argv[2:])
head = image(width, width, [])
for batch in range(count):
    body = b""
    for i in range(batch * size, batch * size + size):
        file = head + (i % 4096).to_bytes(2, "big") * (width * width)
        body += b"put %d %d\n" % (i * apart % leaves, len(file)) + file
    sys.stdout.buffer.write(b"batch %d\n" % len(body) + body)
PYTHON
}

# The client: READS are numbers of edits. It writes the milliseconds of each read of `properties`, a line each.
cat >"$work/client.py" <<'PYTHON'
import subprocess
import sys
import time

hipsd, batches, count = sys.argv[1], sys.argv[2], int(sys.argv[3])
reads = [int(word) for word in sys.argv[4:]]
past = subprocess.Popen([hipsd, "past", "8"], stdin=subprocess.PIPE, stdout=subprocess.PIPE)
with open(batches, "rb") as records:
    for _ in range(count):
        line = records.readline()
        past.stdin.write(line + records.read(int(line.split()[1])))
        past.stdin.flush()
        if not past.stdout.readline().startswith(b"edits "):
            sys.exit("past.sh: a batch isn't accepted")
for edits in reads:
    begun = time.perf_counter()
    past.stdin.write(b"read %d properties\n" % edits)
    past.stdin.flush()
    line = past.stdout.readline()
    if not line.startswith(b"file "):
        sys.exit(f"past.sh: read {edits} properties is answered {line}")
    past.stdout.read(int(line.split()[1]))
    print(edits, (time.perf_counter() - begun) * 1000)
past.stdin.close()
if past.wait() != 0:
    sys.exit(f"past.sh: hipsd past ends with status {past.returncode}")
PYTHON

# ---- a full sky

make 3 512 768
batches 512 768 277 200 1 >"$work/batches"

# timed NAME BYTES null|pipe WORD ..: appends a line 'NAME PROCESSOR WALL' of a process that ends with status 0 after BYTES.
timed() {
    name=$1 bytes=$2
    shift 2
    read -r status came processor wall < <("$work/session" run "$@")
    if [ "$status $came" != "0 $bytes" ]; then
        echo "past.sh: $name ended with status $status after $came bytes in place of $bytes"
        exit 1
    fi
    echo "$name $processor $wall" >>"$work/timed"
}
rounds=5
{
    cat "$work/batches"
    echo "read 0 properties"
} >"$work/once"
{
    cat "$work/once"
    for _ in $(seq $rounds); do seq -f 'read %.0f properties' 200; done
} >"$work/further"
# 20 leaves are put, and each is published by itself.
"$work/session" puts 20 1 >"$work/requests" || exit 1
run=0
while [ "$run" -lt "$runs" ]; do
    timed once 0 null "$hipsd" past 8 <"$work/once"
    timed further 0 null "$hipsd" past 8 <"$work/further"
    # shellcheck disable=SC2046 # numbers
    python3 "$work/client.py" "$hipsd" "$work/batches" 200 200 $(seq 199 -10 0) 0 >"$work/back.$run" || exit 1
    HIPSD_LOG=debug "$hipsd" session <"$work/requests" 2>"$work/log" >/dev/null || exit 1
    sed -n 's/^\[DEBUG request\].* POST \/publish 200 [0-9]* \([0-9]*\) .*/\1/p' "$work/log" >>"$work/published"
    run=$((run + 1))
done

reads=20000
tile=Norder3/Dir0/Npix77.fits
cp "$work/batches" "$work/one"
echo "read 200 $tile" >>"$work/one"
{
    cat "$work/one"
    yes "read 200 $tile" | head -n $reads
} >"$work/many"
accepted=$(seq 200 | sed 's/^/edits /' | wc -c)
answer=$((529920 + $(echo 'file 529920' | wc -c)))
run=0
while [ "$run" -lt "$runs" ]; do
    timed one 0 null "$hipsd" past 8 <"$work/one"
    timed many 0 null "$hipsd" past 8 <"$work/many"
    timed one-piped $((accepted + answer)) pipe "$hipsd" past 8 <"$work/one"
    timed many-piped $((accepted + answer * (reads + 1))) pipe "$hipsd" past 8 <"$work/many"
    timed c-start 0 null "$work/session" write 0
    timed c-piped $((reads * 529920)) pipe "$work/session" write $reads
    echo "c-copy $("$work/session" copy)" >>"$work/timed"
    run=$((run + 1))
done
echo "a full sky of order 3, 768 leaves of 512 by 512, 16 bits, 200 edits, $(nproc) processors (best of $runs runs):"
awk -v reads=$reads '!($1 in least) || $2 < least[$1] { least[$1] = $2 }
    END {
        held = (least["many"] - least["one"]) / reads; piped = (least["many-piped"] - least["one-piped"]) / reads
        written = (least["c-piped"] - least["c-start"]) / reads
        printf "  a read of a leaf of a held state: %.2f microseconds of processor time into /dev/null, %.2f into a pipe\n", held, piped
        printf "  C: a copy of the file %.2f, a write into a pipe %.2f; a read for each copy %.2f (goal: at most 2, as a GET), in a pipe for each write %.2f\n",
            least["c-copy"], written, held / least["c-copy"], piped / written
    }' "$work/timed"
python3 - "$work" "$runs" $((rounds * 200)) <<'PYTHON' || exit 1
import statistics
import sys
from pathlib import Path

work, runs, steps = Path(sys.argv[1]), int(sys.argv[2]), int(sys.argv[3])


def least(name):
    """Of each read in its place the least milliseconds of the runs."""
    rows = [[line.split() for line in (work / f"{name}.{run}").read_text().splitlines()] for run in range(runs)]
    return [(int(row[0][0]), min(float(cell[1]) for cell in row)) for row in zip(*rows)]


published = min(int(line) for line in (work / "published").read_text().splitlines()) / 1000
walls = [line.split() for line in (work / "timed").read_text().splitlines()]
once, further = (min(float(row[2]) for row in walls if row[0] == name) / 1000 for name in ("once", "further"))
ahead = (further - once) / steps
back = least("back")[1:]
worst = max(back, key=lambda pair: pair[1])
print(f"  one edit forward {ahead:.2f} ms, for each publication of one leaf, of {published:.2f} ms, {ahead / published:.2f} (goal: at most 1.2)")
print(f"  back, below all that are held: {statistics.median(took for _, took in back):.1f} ms (median), at most {worst[1]:.1f} (to {worst[0]})")
PYTHON

# ---- a deep field

make 11 32 65536
batches 32 65536 25717 125 80 >"$work/batches"
order="10000 0 9920 80 $(python3 -c 'import random; random.seed(7); print(*(random.randrange(126) * 80 for _ in range(60)))')"
run=0
while [ "$run" -lt "$runs" ]; do
    # shellcheck disable=SC2086 # numbers
    python3 "$work/client.py" "$hipsd" "$work/batches" 125 $order >"$work/deep.$run" || exit 1
    run=$((run + 1))
done
sort -k 2 -n "$work"/deep.* | awk '{ edits[NR] = $1; took[NR] = $2 }
    END { printf "65,536 leaves of order 11, of 32 by 32, 10,000 edits: %d reads all over, %.1f ms (median), at most %.1f (of %d edits; goal: under 500)\n",
        NR, took[int((NR + 1) / 2)], took[NR], edits[NR] }'
