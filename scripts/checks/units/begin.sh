#!/bin/bash
# shellcheck disable=SC2034,SC2154 # the parts use these names
# What both parts begin with.
trap 'touch "/mnt/out/done$part"' EXIT
wrong() {
    echo "$*" >>/mnt/out/wrong
}
# is WANTED TEXT WORD ..: what a command writes.
is() {
    wanted=$1
    shift
    got=$("$@" 2>&1 | tr '\n' ' ')
    [ "$got" = "$wanted" ] || wrong "$*: '$got' in place of '$wanted'"
}
# says UNIT TEXT: what stands in the log of a unit.
says() {
    journalctl --sync
    journalctl -u "$1" -o cat --no-pager | grep -qF "$2" || wrong "$1 doesn't say '$2': $(journalctl -u "$1" -o cat --no-pager | tail -n 20)"
}
# code WORD ..: the code of curl's reply, and curl's status where that isn't 0. It asks once: an edit that is answered 502 may have been
# accepted.
code() {
    curl -s -o /dev/null -w '%{http_code}' --max-time 30 "$@" || echo " curl $?"
}
# as USER COMMAND ..: a command by another user, of its own group alone.
as() {
    export -f code
    setpriv --reuid="$1" --regid="$(id -g "$1")" --clear-groups bash -c '"$@"' bash "${@:2}"
}
# ready WORD ..: once curl's reply is 200. (To /dev/null it writes nothing twice.)
ready() {
    curl -sS -f -o /tmp/body --retry 20 --retry-delay 1 --retry-all-errors "$@" 2>/tmp/said || wrong "curl $*: status $?: $(cat /tmp/said)"
}
# rolls WORD ..: rollover.sh renews the server, and other users don't reach the new one.
rolls() {
    "$examples/rollover.sh" "$@" >/mnt/out/said 2>&1 || wrong "rollover.sh $*: $(cat /mnt/out/said)"
    ! grep -qF 'may edit' /mnt/out/said || wrong "rollover.sh $* finds an address open to all: $(cat /mnt/out/said)"
}
leaf() {
    echo "Norder5/Dir0/Npix$1.fits"
}
examples=/usr/local/share/doc/hipsd/examples
ip link set lo up
cd /mnt/repository || exit
