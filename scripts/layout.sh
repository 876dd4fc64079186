#!/bin/sh
# layout.sh: lays out the files of every crate by `rt fmt`, names those that it changed, and ends with status 1 if there were any.
# The gate refuses a crate with a file that isn't laid out, and with it all crates above.
cd "$(dirname "$0")/.." || exit 1
changed=0
for crate in crates/*/; do
    said=$(cd "$crate" && rt fmt 2>&1) || { echo "$crate: $said"; exit 2; }
    [ -z "$said" ] || { echo "$crate: $said"; changed=1; }
done
exit $changed
