#!/bin/bash
# Times `hipsd export` over a full sky of order 3, 768 leaves of 512 by 512 numbers of 16 bits, with the orders down to 0: in a
# folder that has the leaves alone, and once more over what was exported; and `hipsd verify` over the same. Prints the best of several
# runs on the wall, and how many files the second export wrote. The goals: none, and at most 1.5 times what verify takes.
#
#     bench/export.sh [RUNS] [PROGRAM]         PROGRAM is crates/hipsd/out/hipsd if none is named: a proved build
here=$(cd "$(dirname "$0")" && pwd)
runs=${1:-5}
program=$(realpath -e "${2:-$here/../crates/hipsd/out/hipsd}") || { echo "export.sh: there is no built hipsd" >&2; exit 1; }
work=$(mktemp -d) || exit 1
trap 'rm -rf "$work"' EXIT
cd "$work" || exit 1
python3 - "$here/../scripts" <<'PYTHON' || exit 1
import sys
from pathlib import Path

sys.path.insert(0, sys.argv[1])
from survey_files import Survey, image, tile_path

Path("survey.conf").write_bytes(Survey("export", "Survey export", top=3, low=0, width=512).description())
numbers = [s % 4096 for s in range(512 * 512)]
for leaf in range(768):
    path = Path(tile_path(3, leaf))
    path.parent.mkdir(parents=True, exist_ok=True)
    path.write_bytes(image(512, 512, numbers, ("ORDER", 3), ("NPIX", leaf)))
PYTHON

# takes WORD: the milliseconds of a command.
takes() {
    begun=$(date +%s%N)
    "$program" "$1" >said 2>log || { cat said log >&2; exit 1; }
    echo $((($(date +%s%N) - begun) / 1000000))
}
# least NUMBER ..: the least of them.
least() {
    printf '%s\n' "$@" | sort -n | head -n 1
}
first=
verify=
again=
for _ in $(seq "$runs"); do
    rm -rf Moc.fits properties Norder3/Allsky.fits Norder0 Norder1 Norder2
    first="$first $(takes export)"
    verify="$verify $(takes verify)"
    touch mark
    again="$again $(takes export)"
    written=$(find . -newer mark -type f ! -name said ! -name log | wc -l)
done
# shellcheck disable=SC2086 # numbers
echo "export of $(sed 's/[^0-9]//g' said) files with the leaves there $(least $first) ms, verify $(least $verify) ms, export again $(least $again) ms, of which wrote $written files"
