#!/bin/bash
# Times `hipsd mirror` of a full sky of order 3 beside what one curl takes to fetch the same files over one connection, and what
# `hipsd export` takes alone; and prints how much memory the copy takes. 768 leaves of 512 by 512 numbers of 16 bits, which are
# 402,653,184 bytes of pixels; 771 files. The server is on the loopback, and all folders are on one disk.
#
# In each run, by turns: curl into an empty folder, export over the leaves alone, mirror into an empty folder. The best of several
# runs on the wall, which means something only where nothing else runs. The goals: mirror takes at most 1.5 times what curl
# takes, and what export takes; its resident set is at most the pixels and 15 percent. The program is the proved build.
#
#     bench/mirror.sh [RUNS] [PROGRAM]         PROGRAM is crates/hipsd/out/hipsd if none is named
here=$(cd "$(dirname "$0")" && pwd)
runs=${1:-5}
program=$(realpath -e "${2:-$here/../crates/hipsd/out/hipsd}") || { echo "mirror.sh: there is no built hipsd" >&2; exit 1; }
for tool in curl python3; do
    command -v $tool >/dev/null 2>&1 || { echo "mirror.sh: there is no $tool here"; exit 0; }
done
export HIPSD_LOG=error
work=$(mktemp -d -p "${TMPDIR:-/var/tmp}") || exit 1
server=
# shellcheck disable=SC2317 # it is called by the trap
end() {
    [ -n "$server" ] && kill "$server" 2>/dev/null
    rm -rf "$work"
}
trap end EXIT
mkdir "$work/survey" && cd "$work/survey" || exit 1
python3 - "$here/../scripts" "$work" <<'PYTHON' || exit 1
import sys
from pathlib import Path

sys.path.insert(0, sys.argv[1])
from survey_files import Survey, image, tile_path

survey = Survey("mirror", "Survey mirror", top=3, low=3, width=512)
Path("survey.conf").write_bytes(survey.description())
numbers = [s % 4096 for s in range(512 * 512)]
for leaf in range(768):
    path = Path(tile_path(3, leaf))
    path.parent.mkdir(parents=True, exist_ok=True)
    path.write_bytes(image(512, 512, numbers, ("ORDER", 3), ("NPIX", leaf)))
paths = ["properties", "Moc.fits", *[tile_path(3, leaf) for leaf in range(768)], "Norder3/Allsky.fits"]
Path(sys.argv[2], "paths").write_text("".join(f"{path}\n" for path in paths))
PYTHON
port=$(python3 -c 'import socket; s = socket.socket(); s.bind(("127.0.0.1", 0)); print(s.getsockname()[1])')
"$program" serve "127.0.0.1:$port" 65536 4 &
server=$!
curl -s -o /dev/null --retry 600 --retry-delay 1 --retry-connrefused "http://127.0.0.1:$port/properties" || { echo "mirror.sh: hipsd doesn't answer" >&2; exit 1; }
sed "s#.*#url = \"http://127.0.0.1:$port/&\"\noutput = \"&\"#" "$work/paths" >"$work/config"

# takes NAME WORD ..: appends the milliseconds and the greatest resident set in bytes of a command, in a folder of its own.
takes() {
    name=$1
    shift
    sync
    python3 - "$work/$name" "$@" <<'PYTHON' || { echo "mirror.sh: $name failed" >&2; exit 1; }
import resource
import subprocess
import sys
import time

begun = time.perf_counter()
ended = subprocess.run(sys.argv[2:], stdout=subprocess.DEVNULL).returncode
took = time.perf_counter() - begun
if ended != 0:
    sys.exit(f"it ended with status {ended}")
with open(sys.argv[1], "a") as out:
    print(round(took * 1000), resource.getrusage(resource.RUSAGE_CHILDREN).ru_maxrss * 1024, file=out)
PYTHON
}
for _ in $(seq "$runs"); do
    rm -rf "$work/fetched" "$work/copy"
    mkdir "$work/fetched" "$work/copy"
    cd "$work/fetched" && takes curl curl -s --fail --create-dirs -K "$work/config"
    cd "$work/survey" && rm -rf Moc.fits properties Norder3/Allsky.fits && takes export "$program" export
    cd "$work/copy" && takes mirror "$program" mirror "127.0.0.1:$port"
    diff -rq "$work/fetched" "$work/copy" >/dev/null || { echo "mirror.sh: the copy isn't what curl fetched" >&2; exit 1; }
done
python3 - "$work" <<'PYTHON'
import sys
from pathlib import Path

took, resident = {}, {}
for name in ("curl", "export", "mirror"):
    rows = [[int(word) for word in line.split()] for line in Path(sys.argv[1], name).read_text().splitlines()]
    took[name], resident[name] = min(row[0] for row in rows), max(row[1] for row in rows)
pixels = 768 * 512 * 512 * 2
most = 1.5 * took["curl"] + took["export"]
print(f"771 files, 768 leaves of 512 by 512, 16 bits: curl {took['curl']} ms, export of the leaves {took['export']} ms, mirror {took['mirror']} ms "
      f"(goal: at most {most:.0f}, 1.5 times curl and export); resident {resident['mirror'] / 1e6:.0f} MB, "
      f"{resident['mirror'] / pixels:.3f} times the pixels (goal: at most 1.15)")
PYTHON
