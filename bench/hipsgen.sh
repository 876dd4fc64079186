#!/bin/bash
# Prints what `hipsd export` and HipsGen take to make a pyramid over the same leaf tiles: 512 tiles of 512 by 512 pixels of
# 16 bits at order 6, the cells 0 to 511, 268 MB of pixels. Both read the leaves and write the coarser tiles, the mosaic and the
# coverage: HipsGen by its actions TREE and MOC, down to order 0, hipsd down to order 3. Neither writes the leaves.
#
# Of each, by turns, ROUNDS times (3): seconds, processor seconds, and the greatest resident set.
#
#   bench/hipsgen.sh       (HIPSD=PROGRAM: another program than crates/hipsd/out/hipsd; LEAVES=512, ROUNDS=3)
#
# HipsGen is that of Debian's `aladin`; where it isn't installed, or not GNU's `time`, nothing is measured.
set -u
here=$(cd "$(dirname "$0")" && pwd)
hipsd=$(realpath -e "${HIPSD:-$here/../crates/hipsd/out/hipsd}") || { echo "hipsgen.sh: hipsd isn't built"; exit 1; }
jar=${JAR:-/usr/share/java/aladin.jar}
for tool in "$jar" /usr/bin/time; do
    [ -e "$tool" ] || { echo "hipsgen.sh: there is no $tool here"; exit 0; }
done
work=$(mktemp -d "${FOLDER:-/dev/shm}/hipsgen.XXXXXX") || exit 1
trap 'rm -rf "$work"' EXIT

mkdir "$work/leaves" && cd "$work/leaves" || exit 1
python3 - "$here/../scripts" "${LEAVES:-512}" <<'PYTHON' || exit 1
import sys
from pathlib import Path

sys.path.insert(0, sys.argv[1])
from survey_files import Survey, image, tile_path

leaves = range(int(sys.argv[2]))
survey = Survey("pyramid", "A pyramid", top=6, low=3, width=512)
Path("survey.conf").write_bytes(survey.description())
Path("properties").write_bytes(survey.properties(leaves))
for leaf in leaves:
    path = Path(tile_path(6, leaf))
    path.parent.mkdir(parents=True, exist_ok=True)
    path.write_bytes(image(512, 512, [(7 * s + 13 * leaf) % 4096 for s in range(512 * 512)]))
PYTHON

# The leaves as hipsd writes them, so that neither of the two writes them.
cp -a "$work/leaves" "$work/whole" && cd "$work/whole" || exit 1
HIPSD_LOG=off "$hipsd" export >/dev/null || exit 1
cp -a Norder6 "$work/leaves/" || exit 1

# measure NAME COMMAND..: the command over a new copy of the leaves.
measure() {
    local name=$1
    shift
    rm -rf "$work/copy" && cp -a "$work/leaves" "$work/copy" && cd "$work/copy" || exit 1
    /usr/bin/time -f "$name: %e s, %U s of processors, %M kB" -o "$work/times" "$@" >"$work/output" 2>&1 || { cat "$work/output"; exit 1; }
    tail -n 1 "$work/times"
}

echo "${LEAVES:-512} leaves of order 6, $(nproc) processors"
for _ in $(seq "${ROUNDS:-3}"); do
    measure "hipsd export" env HIPSD_LOG=off "$hipsd" export
    measure "HipsGen TREE MOC" java -Djava.awt.headless=true -jar "$jar" -hipsgen in=. out=. creator_did=ivo://example/P/pyramid \
        hips_order=6 TREE MOC
done
