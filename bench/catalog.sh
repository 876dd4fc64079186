#!/bin/bash
# Times `hipsd catalog 11 500`, at 10,000, 100,000 and 1,000,000 rows, into an empty folder in memory, and prints the seconds on the
# wall and the most memory in megabytes beside the goals at 1,000,000 rows.
#
# - Rows: their ranks and cells are random, a row has some 60 bytes.
# - Changes: the same rows, then half of them are removed and as many others put in, in one input, over the tiles that the first run
#   left.
# - Plain: `sort` by rank and id, and then a program of awk that gives each row to the first tile on the path of its cell that has
#   room. That is the definition of the tiles read as a program, which keeps no catalogue that could change. Its tiles are compared
#   with those of hipsd, file by file.
# - In huge pages: the same two with glibc's tunable `glibc.malloc.hugetlb=1`, by which a program asks for pages of 2 MB. A kernel that
#   has `madvise` in /sys/kernel/mm/transparent_hugepage/enabled gives them only then; one that has `always` gives them in any case.
# - The most lines: 2,000,000 that put a row in and take it out again, and then a byte more, which is refused as line 2,000,001.
#
# The program is a proved build. The times mean something only where nothing else runs.
#
#   bench/catalog.sh [ROWS ..]     (HIPSD=PROGRAM: a proved build that is there, instead of crates/hipsd/out/hipsd)
set -u
here=$(cd "$(dirname "$0")" && pwd)
hipsd=${HIPSD:-"$here/../crates/hipsd/out/hipsd"}
[ -x "$hipsd" ] || { echo "catalog.sh: there is no program $hipsd"; exit 1; }
[ -x /usr/bin/time ] || { echo "catalog.sh: there is no /usr/bin/time"; exit 1; }
work=$(mktemp -d /dev/shm/catalog.XXXXXX) || exit 1
trap 'rm -rf "$work"' EXIT
[ $# -gt 0 ] || set -- 10000 100000 1000000

# So many rows, whose ids begin with a letter: rows COUNT LETTER SEED
rows() {
    awk -v count="$1" -v letter="$2" -v seed="$3" 'BEGIN {
        srand(seed)
        for (i = 0; i < count; i++)
            printf "%d\t%d\t%s%07d\tra=%08.4f dec=%+08.4f\n", int(rand() * 30000) * 30000 + int(rand() * 30000),
                int(rand() * 12288) * 4096 + int(rand() * 4096), letter, i, rand() * 360, rand() * 180 - 90
    }'
}

# The same tiles by sort and awk: plain ROWS FOLDER
plain() {
    mkdir -p "$2" && LC_ALL=C sort -t "$(printf '\t')" -k1,1n -k3,3 "$1" | awk -F '\t' -v top=11 -v room=500 -v folder="$2" '
        {
            for (order = 0; order < top; order++) {
                cell = order " " int($2 / 4 ^ (top - order))
                if (held[cell] < room) break
            }
            if (order == top) cell = top " " $2
            held[cell]++
            text[cell] = text[cell] $0 "\n"
        }
        END {
            for (cell in text) {
                split(cell, part, " ")
                below = sprintf("%s/Norder%d/Dir%d", folder, part[1], int(part[2] / 10000) * 10000)
                if (!(below in made)) { system("mkdir -p " below); made[below] = 1 }
                file = below "/Npix" part[2] ".tsv"
                printf "rank\tnpix\tid\trest\n%s", text[cell] >file
                close(file)
            }
        }'
}

# Seconds and megabytes of a command: timed INPUT COMMAND ..
timed() {
    input=$1
    shift
    /usr/bin/time -f '%e %M' -o "$work/time" "$@" <"$input" >"$work/said" || { echo "catalog.sh: $* ended by $?" >&2; exit 1; }
    tail -n 1 "$work/time" | awk '{ printf "%7.2f s %6.0f MB", $1, $2 / 1024 }'
}
export -f plain

# Rows and then changes over their tiles, with this tunable of glibc: both TUNABLE
both() {
    rm -rf "$work/tiles" && mkdir "$work/tiles" && cd "$work/tiles" || exit 1
    export GLIBC_TUNABLES=$1
    first=$(timed "$work/rows" "$hipsd" catalog 11 500)
    told=$(cat "$work/said")
    rm -rf "$work/first" && cp -r "$work/tiles" "$work/first" || exit 1
    changed=$(timed "$work/changes" "$hipsd" catalog 11 500)
    told="$told, then $(cat "$work/said")"
    unset GLIBC_TUNABLES
}

echo "hipsd catalog 11 500, $(nproc) processors, huge pages: $(cat /sys/kernel/mm/transparent_hugepage/enabled)"
for count in "$@"; do
    rm -rf "$work/plain"
    rows "$count" a 1 >"$work/rows"
    {
        cat "$work/rows"
        awk -F '\t' 'NR % 2 == 0 { print "-\t" $3 }' "$work/rows"
        rows $((count / 2)) b 2
    } >"$work/changes"
    both ''
    beside=$(timed "$work/rows" bash -c "plain /dev/stdin '$work/plain'")
    diff -r "$work/first" "$work/plain" >/dev/null && same=same || same=DIFFERENT
    printf '%8d rows %s (goal at 1,000,000: 10 s, 600 MB), changes %s (20 s); %s\n' "$count" "$first" "$changed" "$told"
    both glibc.malloc.hugetlb=1
    printf '  in huge pages %s, changes %s; sort and awk %s, %s tiles\n' "$first" "$changed" "$beside" "$same"
done

rm -rf "$work/tiles" && mkdir "$work/tiles" && cd "$work/tiles" || exit 1
{
    yes "$(printf '0\t0\ta\t\n-\ta')" | head -n 2000000
    printf 5
} >"$work/rows"
"$hipsd" catalog 11 500 <"$work/rows" >"$work/said" 2>/dev/null
echo "2,000,000 lines and a byte: status $? (goal: 16), $(cat "$work/said") (goal: row 2000001 10)"
