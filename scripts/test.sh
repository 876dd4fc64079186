#!/bin/bash
# The quick check: every test, and the programs with their stored input and output, compiled by `rt try` without a proof; and the
# checks that need no built program. Prints a line for each and a total. The status is 1 if one failed. size_run is left out: unproved
# code isn't optimized, and it would take many minutes.
#
#     scripts/test.sh [JOBS]
#
# JOBS run at once, each in up to 2.5 GB. If none is named: one a processor, as far as memory allows.
cd "$(dirname "$0")/.." || exit 1
case ${1:-1} in *[!0-9]*) sed -n '2,/^[^#]/s/^# \{0,1\}//p' "$0" >&2 && exit 2 ;; esac
command -v rt >/dev/null || { echo "test: there is no rt on the path" >&2; exit 1; }
room=$(awk '/^MemAvailable/ { print int($2 / 2500000) }' /proc/meminfo)
jobs=${1:-$(nproc)}
[ $# -gt 0 ] || [ "$jobs" -le "$room" ] || jobs=$((room > 0 ? room : 1))
work=$(mktemp -d) || exit 1
trap 'rm -rf "$work"' EXIT

# tests CRATE: its tests.
tests() {
    (cd "crates/$1" && rt try --test --seconds 900)
}
# program CRATE: the program, with the arguments and the input beside its sources, and what it has to print.
program() {
    args=()
    [ ! -f "crates/$1/args" ] || mapfile -t args <"crates/$1/args"
    (cd "crates/$1" && { [ ! -f stdin ] || exec <stdin; } && rt try --seconds 300 -- "${args[@]}" >"$work/$1.stdout") &&
        cmp "$work/$1.stdout" "crates/$1/stdout"
}
# check NAME: one that needs no built program.
check() {
    scripts/run_checks.py "$1"
}
# one KIND NAME WORD ..: does one of these, and says in a line how it went; if it failed, what it said stands below.
one() {
    log=$work/$1.$2 begun=$SECONDS
    if "$@" >"$log" 2>&1 </dev/null; then verdict=ok; else verdict=FAILED; fi
    passed=$(sed -n 's/^test result: .*\. \([0-9]* passed\);.*/, \1/p' "$log")
    echo "$verdict $1 $2$passed, $((SECONDS - begun)) s" | tee -a "$work/verdicts"
    [ $verdict = ok ] || grep -vE '\.\.\. ok$|^ *\[' "$log" | tail -n 20
}
export work
export -f tests program check one

{
    for crate in hipsd board_tests; do echo "program $crate"; done
    grep -l '#\[test\]' crates/*/src/*.rt | cut -d / -f 2 | sort -u | sed 's/^/tests /'
    printf 'check %s\n' values refusals docs headline
} | xargs -P "$jobs" -I{} bash -c 'one {}' || echo "FAILED xargs: a check was stopped" | tee -a "$work/verdicts"

failed=$(grep -c '^FAILED' "$work/verdicts")
echo "test: $(grep -c '^ok' "$work/verdicts") passed, $failed failed, size_run left out, $SECONDS s. Nothing is proved by this: see rt ci"
[ "$failed" = 0 ]
