#!/bin/sh
# Builds hipsd without proving it, has it serve a small survey on the loopback, and edits the survey with curl: a leaf tile is put
# and published, and the tile above it is fetched before and after. Then the server ends by itself, since it was told to serve
# one connection.
#
#     scripts/sample.sh [PORT]
cd "$(dirname "$0")/../crates/hipsd" || exit 1
for tool in rt curl; do
    command -v "$tool" >/dev/null 2>&1 || { echo "sample: there is no $tool here; CONTRIBUTING.md says what is needed" >&2; exit 1; }
done
folder=$(mktemp -d) || exit 1
trap 'rm -rf "$folder"' EXIT

# The survey: leaves of order 4, tiles of 2 by 2 pixels of 16 bits, no leaf yet.
cat >"$folder/survey.conf" <<'CONF'
creator_did = ivo://example/P/one
obs_title = Survey one
hips_release_date = 2024-05-01T00:00Z
hips_status = public master clonable
hips_order = 4
hips_tile_width = 2
survey_bitpix = 16
survey_blank = -32768
CONF

# The file of leaf 0: a block of cards, and the four stored numbers 1, 2, 3 and 5.
card() {
    printf '%-8s= %20s%50s' "$1" "$2" ''
}
cards=$(
    card SIMPLE T
    card BITPIX 16
    card NAXIS 2
    card NAXIS1 2
    card NAXIS2 2
    card BLANK -32768
    printf '%-80s' END
)
{
    printf '%-2880s' "$cards"
    printf '\0\001\0\002\0\003\0\005'
} >"$folder/leaf"

# The address: a port of the loopback that is free now.
port=${1:-$(python3 -c 'import socket; s = socket.socket(); s.bind(("127.0.0.1", 0)); print(s.getsockname()[1])' 2>/dev/null || echo 8080)}
base=http://127.0.0.1:$port

echo "Building hipsd by 'rt try', which compiles it and proves nothing (a minute or two at first) ..."
echo "('rt ci' at the top of the repository proves it, and takes far longer.)"
rt try --seconds 900 --data survey.conf="$folder/survey.conf" -- serve "127.0.0.1:$port" 1 1 >"$folder/output" 2>"$folder/errors" &
server=$!

# All requests of one curl are of one connection, the one that is served. Until the server listens curl tries again.
curl -s --retry 900 --retry-delay 1 --retry-connrefused -i -o "$folder/before" "$base/Norder3/Dir0/Npix0.fits" \
    --next -s -i -o "$folder/put" -T "$folder/leaf" -H 'Expect:' "$base/Norder4/Dir0/Npix0.fits" \
    --next -s -i -o "$folder/published" -X POST "$base/publish" \
    --next -s -D "$folder/head" -o "$folder/tile" "$base/Norder3/Dir0/Npix0.fits" &
client=$!
seconds=0
while kill -0 "$server" 2>/dev/null; do
    sleep 1
    seconds=$((seconds + 1))
    [ $((seconds % 5)) != 0 ] || echo "... $seconds seconds"
done
wait "$server"
ended=$?
[ "$ended" = 0 ] || kill "$client" 2>/dev/null
wait "$client"
asked=$?
if [ "$asked" != 0 ] || [ "$ended" != 0 ]; then
    cat "$folder/output" "$folder/errors" >&2
    echo "sample: curl ended with status $asked, rt try with $ended" >&2
    exit 1
fi
size=$(wc -c <"$folder/tile")
[ "$size" = 5760 ] || { echo "sample: the tile has $size bytes" >&2; exit 1; }
numbers=$(head -c 2888 "$folder/tile" | tail -c 8 | od -An -v -tx1 | sed 's/ \(..\) \(..\)/ \1\2/g')
shown() {
    for reply; do tr -d '\r' <"$folder/$reply" | sed -e 's/^\(.\)/    \1/'; done
}
echo
echo "hipsd serve, over a survey without leaves, is asked for tile 0 of order 3, and has none:"
echo
shown before
echo
echo "Leaf 0 of order 4, which lies under it, is put, with the four pixels 1, 2, 3 and 5, and published:"
echo
shown put published
echo
echo "Now there is a tile 0 of order 3:"
echo
shown head
echo "and the $size bytes of its FITS file. Its four pixels are stored as"
echo
echo "   $numbers"
echo
echo "Leaf 0 is the top left quarter of the tile, here one pixel: the mean of 1, 2, 3 and 5, rounded half up. A file stores"
echo "the bottom line first. 8000 is the blank number, since no other leaf is there."
