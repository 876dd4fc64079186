#!/bin/bash
# Times one connection, `hipsd session` over a survey of tiles of 512 by 512 pixels at 16 bits, beside C, by turns, and prints
# the best of several runs.
#
# The requests are 10,000 GETs of a leaf tile, into /dev/null and into a pipe that is read; 10,000 GETs of /properties, into
# /dev/null; and 2,000 PUTs of a leaf tile, without publications and with 20, by two connections, since a survey takes no more
# than 1,024 tiles of this size with all its edits. GETs come from a file. PUTs come through a pipe, which session.c fills while
# they are read: processor time has the reading in it, time on the wall the waiting too. From each time that of a connection
# without requests is taken off, which is the start of the program and the loading of the survey's four leaves. Before, each reply
# is checked: those to PUTs by their status, those to GETs by the length of them all.
#
# Beside it C copies the bytes of a tile's file from one warm buffer to another, writes them into /dev/null and into a pipe, and
# reads the stream of PUTs. Bytes that are written into /dev/null are never touched, neither those of hipsd nor those of C: that
# time is what a request costs beside its bytes, and no speed is printed. Into a pipe they are copied once.
#
# Processor time is user and system time of the process, all its threads; times on the wall mean something only where nothing
# else runs. The program is the proved build: one of `rt try` has checks in it, and its times say nothing. To try the script
# there are HIPSD=PROGRAM, which runs that program, and REQUESTS, so many GETs and a fifth as many PUTs.
#
#   bench/session.sh [RUNS [REQUESTS]]
set -u
here=$(cd "$(dirname "$0")" && pwd)
runs=${1:-5}
requests=${2:-10000}
# A connection makes half of the PUTs.
puts=$((requests / 10))
if [ "$runs" -lt 1 ] || [ "$requests" -lt 1000 ] || [ "$requests" -gt 10000 ] || [ $((requests % 1000)) != 0 ]; then
    echo "session.sh: RUNS is 1 or more, REQUESTS is some thousands up to 10000"
    exit 1
fi
if ! command -v gcc >/dev/null 2>&1; then
    echo "session.sh: there is no gcc here, so there is nothing to time with"
    exit 0
fi
work=$(mktemp -d) || exit 1
trap 'rm -rf "$work"' EXIT
gcc -O3 -march=x86-64-v2 -o "$work/session" "$here/session.c" || exit 1
hipsd=${HIPSD:-}
if [ -z "$hipsd" ]; then
    "$here/../scripts/build.sh" 2>/dev/null || { echo "session.sh: hipsd isn't built"; exit 1; }
    hipsd="$here/../crates/hipsd/out/hipsd"
else
    hipsd=$(realpath -e "$hipsd") || exit 1
    echo "a trial of $hipsd, which needn't be the proved build:"
fi

# ---- the survey and the requests

mkdir -p "$work/survey/Norder3/Dir0" && cd "$work/survey" || exit 1
cat >survey.conf <<'CONF'
creator_did = ivo://example/P/bench
obs_title = Survey bench
hips_release_date = 2024-05-01T00:00Z
hips_status = public master clonable
hips_order = 3
hips_tile_width = 512
survey_bitpix = 16
survey_blank = -32768
CONF
for leaf in 0 1 2 3; do "$work/session" tile >"Norder3/Dir0/Npix$leaf.fits" || exit 1; done
# gets COUNT tiles|properties: so many requests.
gets() {
    awk -v count="$1" -v kind="$2" 'BEGIN {
        for (i = 0; i < count; i++)
            printf "GET /%s HTTP/1.1\r\nHost: bench\r\n\r\n", kind == "tiles" ? "Norder3/Dir0/Npix" i % 4 ".fits" : "properties"
    }'
}
gets "$requests" tiles >"$work/tiles"
gets "$requests" properties >"$work/properties"

# ---- each reply is what is asked for

for kind in tiles properties; do
    gets 1 "$kind" | "$hipsd" session >"$work/reply"
    length=$(wc -c <"$work/reply")
    said=$(head -n 1 "$work/reply" | tr -d '\r')
    if [ "$said" != "HTTP/1.1 200 OK" ] || { [ $kind = tiles ] && [ "$length" -le 529920 ]; }; then
        echo "session.sh: a GET of $kind is answered by $length bytes: $said"
        exit 1
    fi
    got=$("$work/session" run pipe "$hipsd" session <"$work/$kind")
    case $got in
    "0 $((requests * length)) "*) ;;
    *) echo "session.sh: $requests GETs of $kind, with replies of $length bytes, end with status, bytes and times $got"; exit 1 ;;
    esac
    [ $kind = properties ] || wanted=$((requests * length))
done
"$work/session" puts "$puts" 100 | "$hipsd" session >"$work/reply"
got="${PIPESTATUS[1]} $(grep -a -c '^HTTP/1.1 20[14] ' "$work/reply") $(grep -a -c '^published ' "$work/reply")"
if [ "$got" != "0 $puts $((puts / 100))" ]; then
    echo "session.sh: $puts PUTs, each 100 published, end with status, tiles taken and publications $got"
    exit 1
fi

# ---- the times

# timed KIND BYTES null|pipe COMMAND ..: appends a line 'KIND PROCESSOR WALL', where the command ends with status 0 after BYTES.
timed() {
    kind=$1 bytes=$2
    shift 2
    read -r status came processor wall < <("$work/session" run "$@")
    if [ "$status $came" != "0 $bytes" ]; then
        echo "session.sh: $kind ended with status $status after $came bytes"
        exit 1
    fi
    echo "$kind $processor $wall" >>"$work/times"
}
run=0
while [ "$run" -lt "$runs" ]; do
    timed load 0 null "$hipsd" session </dev/null
    timed tiles 0 null "$hipsd" session <"$work/tiles"
    timed piped "$wanted" pipe "$hipsd" session <"$work/tiles"
    timed properties 0 null "$hipsd" session <"$work/properties"
    for every in 0 100; do
        for _ in 1 2; do timed "puts-$every" 0 null "$hipsd" session < <("$work/session" puts "$puts" "$every"); done
    done
    timed c-start 0 null "$work/session" write 0
    timed c-write 0 null "$work/session" write "$requests"
    timed c-piped $((requests * 529920)) pipe "$work/session" write "$requests"
    timed c-none 0 null "$work/session" read </dev/null
    timed c-read 0 null "$work/session" read < <("$work/session" puts "$puts" 0)
    echo "c-copy $("$work/session" copy)" >>"$work/times"
    run=$((run + 1))
done
echo "one connection, tiles of 512 by 512 at 16 bits, $(nproc) processors (microseconds for each; GB/s of processor time):"
awk -v requests="$requests" -v puts="$puts" '
    !($1 in processor) || $2 < processor[$1] { processor[$1] = $2 }
    !($1 in wall) || $3 < wall[$1] { wall[$1] = $3 }
    # For each of so many of a kind, less the start of its program.
    function each(kind, start, count) { spent = (processor[kind] - processor[start]) / count; passed = (wall[kind] - wall[start]) / count }
    function show(name, speed) {
        printf "  %-34s processor %8.2f, wall %8.2f%s\n", name, spent, passed, speed ? sprintf(", %.2f GB/s", 529920 / 1000 / spent) : ""
    }
    END {
        each("tiles", "load", requests); tile = spent; show("GET of a tile, into /dev/null")
        each("piped", "load", requests); piped = spent; show("GET of a tile, into a pipe", 1)
        each("properties", "load", requests); properties = spent; show("GET of properties, into /dev/null")
        each("puts-0", "load", puts); put = spent; put_wall = passed; show("PUT of a tile", 1)
        each("puts-100", "load", puts); show("PUT of a tile, each 100 published", 1)
        spent = (spent - put) * 100; passed = (passed - put_wall) * 100; show("a publication of 100 tiles")
        copy = processor["c-copy"]; printf "  %-34s processor %8.2f, %.2f GB/s\n", "C: copy of the bytes of a tile", copy, 529920 / 1000 / copy
        each("c-write", "c-start", requests); show("C: write of them, into /dev/null")
        each("c-piped", "c-start", requests); written = spent; show("C: write of them, into a pipe", 1)
        each("c-read", "c-none", puts); show("C: reading of a PUT", 1)
        printf "  a GET of a tile for each copy: into /dev/null %.2f (goal: at most 2), into a pipe %.2f; for each write of C into a pipe %.2f\n", tile / copy, piped / copy, piped / written
        printf "  a GET of properties: %.2f microseconds (goal: under 2)\n", properties
        printf "  taken off, the start and the loading of four leaves: processor %.1f ms, wall %.1f ms\n", processor["load"] / 1000, wall["load"] / 1000
    }' "$work/times"
