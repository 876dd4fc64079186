#!/bin/bash
# Tries the atlas page of examples/ in a real browser, Debian's chromium without a window: surveys of each depth with known numbers,
# edits and publications while the page is open, a server that goes away and comes back (scripts/atlas-client.py). It starts the built
# program, the page's server and nginx on free ports of the loopback, and ends what it started.
#
#     scripts/check-atlas.sh [PROGRAM]
#
# PROGRAM is crates/hipsd/out/hipsd if none is named, which `rt run` leaves there. Where a tool is missing this fails if CI=true, and
# else says what it left out.
PATH=$PATH:/usr/sbin
cd "$(dirname "$0")/.." || exit 1
python=/usr/bin/python3
missing=
command -v chromium >/dev/null 2>&1 || missing="$missing chromium"
command -v chromedriver >/dev/null 2>&1 || missing="$missing chromium-driver"
command -v nginx >/dev/null 2>&1 || missing="$missing nginx-light"
for module in selenium healpy astropy; do
    "$python" -c "import $module" 2>/dev/null || missing="$missing python3-$module"
done
"$python" -c 'import PIL' 2>/dev/null || missing="$missing python3-pil"
if [ -n "$missing" ]; then
    echo "check-atlas: LEFT OUT, the atlas page was not tried: not installed here:$missing"
    [ "${CI:-}" = true ] && exit 1
    exit 0
fi
program=$(realpath -e "${1:-crates/hipsd/out/hipsd}") || { echo "check-atlas: there is no built hipsd" >&2; exit 1; }
exec timeout 900 "$python" scripts/atlas-client.py "$program"
