#!/bin/bash
# Renews a server without an outage: readers are served throughout, and no accepted edit is lost. The new server goes on from a checked
# copy of what the old one has published (backup.sh).
#
#     examples/rollover.sh [--when PERCENT] [--release-date] [OLD NEW]
#
# OLD is the address of the running server, NEW an address of this machine where nobody listens, as nginx spells them:
# unix:/run/hipsd/survey0 and unix:/run/hipsd/survey1, or 127.0.0.1:8080 and 127.0.0.1:8081. Without them OLD is where nginx goes, and NEW
# the same with 1 in place of 0 at its end, or the other way round.
#
# --when renews the server only if it has taken that percentage of the edits that it can take, or one of its places that percentage of its
# connections. It can take 65,536 edits, and its leaves at the start and the tiles of its edits may be 536,870,912 bytes; an edit that
# removes a leaf is counted as a tile too. The connections are known by the warnings in its log, at 80 and 95 percent.
# --release-date sets hips_release_date of the new server to the time of the copy, or keeps it if OLD has taken no edit, or the copy has
# what OLD began with.
#
# 1. Edits are paused at the proxy by the file HIPSD_PAUSED. Edits in progress end.
# 2. What was accepted is published, and backup.sh copies it into HIPSD_SERVERS, where a link with the name of NEW points to it. If an
#    edit came past the proxy meanwhile, this is repeated.
# 3. A second server starts over the copy. It must serve the same properties and coverage, and have no edits. If other users of this
#    machine can't reach OLD, they must not reach NEW.
# 4. NEW replaces OLD in HIPSD_SITE, and nginx reloads. The first server ends. Edits go on.
#
# If a step fails, the first server and edits go on, and the status is 1. The new server has no edits: its Survey-Prefix is 0, and a
# journal of edits (edit.sh) begins anew. After a reboot the new one starts.
#
# Variables, with their defaults. The last five are commands, which find ADDRESS, NAME and FOLDER set, NAME to the last part of a path or
# to the port; HIPSD_LOGGED writes the log of the server since its start, HIPSD_STRANGER succeeds if an ordinary user reaches the address.
site=${HIPSD_SITE:-/etc/nginx/hipsd.server.conf}
servers=${HIPSD_SERVERS:-/var/lib/hipsd}
paused=${HIPSD_PAUSED:-/run/hipsd.paused}
nginx_pid=${HIPSD_NGINX_PID:-/run/nginx.pid}
# shellcheck disable=SC2016 # NAME is for the shell that runs it
begin=${HIPSD_BEGIN:-'systemctl enable --quiet --now "hipsd@$NAME"'}
# shellcheck disable=SC2016
finish=${HIPSD_FINISH:-'systemctl disable --quiet --now "hipsd@$NAME"'}
reload=${HIPSD_RELOAD:-'nginx -t -q && nginx -s reload'}
# shellcheck disable=SC2016
logged=${HIPSD_LOGGED:-'journalctl -q -o cat "_SYSTEMD_INVOCATION_ID=$(systemctl show -P InvocationID "hipsd@$NAME")"'}
# shellcheck disable=SC2016
stranger=${HIPSD_STRANGER:-'nobody="setpriv --reuid=nobody --regid=nogroup --clear-groups"
    case $ADDRESS in
        unix:*) $nobody curl -s -o /dev/null --unix-socket "${ADDRESS#unix:}" http://hipsd/properties ;;
        *) $nobody bash -c "exec 3<>/dev/tcp/\$0/\$1" "${ADDRESS%:*}" "$NAME" 2>/dev/null ;;
    esac'}
set -u
# The server's user reads the copy.
umask 022
here=$(cd "$(dirname "$0")" && pwd) || exit 1

say() {
    echo "rollover.sh: $*" >&2
}
refuse() {
    say "$*"
    exit 2
}
when=
if [ "${1:-}" = --when ]; then
    when=${2:-}
    case $when in [1-9] | [1-9][0-9] | 100) ;; *) refuse "--when takes a number from 1 to 100" ;; esac
    shift 2
fi
release=
if [ "${1:-}" = --release-date ]; then
    release=--release-date
    shift
fi
case $# in
    0)
        old=$(sed -n 's/^ *server \([^ ;]*\)[ ;].*/\1/p' "$site" | sort -u)
        case $old in '' | *[[:space:]]*) refuse "$site doesn't name one server: '$old'" ;; esac
        case $old in
            *0) new=${old%0}1 ;;
            *1) new=${old%1}0 ;;
            *) refuse "$site names $old, which doesn't end with 0 or 1: say OLD and NEW" ;;
        esac
        ;;
    2) old=$1 new=$2 ;;
    *) refuse "usage: rollover.sh [--when PERCENT] [--release-date] [OLD NEW]" ;;
esac
grep -qE "server ${old//./\\.}[ ;]" "$site" || refuse "$site has no line 'server $old;'"
work=$(mktemp -d) || exit 1
started=

# ask ADDRESS PATH WORD ..: curl's WORDs at a server.
ask() {
    local server=$1 path=$2
    shift 2
    case $server in
        unix:*) curl -s --unix-socket "${server#unix:}" "$@" "http://hipsd/$path" ;;
        *) curl -s "$@" "http://$server/$path" ;;
    esac
}
# listens ADDRESS: whether somebody does.
listens() {
    case $1 in
        unix:*) ask "$1" properties -o /dev/null --max-time 60 ;;
        *) (exec 3<>"/dev/tcp/${1%:*}/${1##*:}") 2>/dev/null ;;
    esac
}
# edits ADDRESS: how many edits the server has accepted. A batch that removes a leaf twice is refused in any state, and says so.
edits() {
    printf 'remove 0\nremove 0\n' | ask "$1" batch -D - -o "$work/body" --max-time 60 -H 'Content-Type:' --data-binary @- |
        tr -d '\r' | sed -n 's/^survey-edits: \([0-9]*\)$/\1/Ip'
}
# property KEY: a number in the properties of the server at OLD.
property() {
    sed -n "s/^$1 = \([0-9]\{1,9\}\)$/\1/p" "$work/old"
}
# at ADDRESS COMMAND: one of the commands above.
at() {
    ADDRESS=$1 NAME=${1##*[:/]} FOLDER=$servers/${1##*[:/]} bash -c "$2"
}
# busiest: how many percent of its connections the server's busiest place has taken; 0 below 80.
busiest() {
    at "$old" "$logged" | sed -n 's/^\[WARN  hips_place[^]]*\] place [0-9]* has taken \([0-9]*\) of \([0-9]*\) connections: .*/\1 \2/p' |
        awk '{ share = int(100 * $1 / $2) } share > most { most = share } END { print most + 0 }'
}
# full: whether the server has taken $when percent of the edits that it can take, or of a place's connections.
full() {
    ask "$old" properties -f -o "$work/old" --max-time 60 || refuse "$old doesn't answer"
    count=$(edits "$old")
    [ -n "$count" ] || refuse "$old doesn't say how many edits it has taken"
    leaves=$(find -L "$servers/${old##*[:/]}/Norder$(property hips_order)" -name 'Npix*.fits' 2>/dev/null | wc -l)
    [ -d "$servers/${old##*[:/]}" ] || leaves=$(property survey_leaves)
    width=$(property hips_tile_width)
    tile=$((width * width * $(property survey_bitpix) / 8))
    room=$((536870912 / (tile < 1024 ? 1024 : tile) - leaves))
    [ "$room" -le 65536 ] || room=65536
    say "$old has taken $count edits since its start, of $room that it can take beside the $leaves leaves it had then"
    busiest=$(busiest)
    [ "$busiest" = 0 ] || say "a place of $old has taken $busiest percent of its connections since then"
    # Where the leaves alone fill the room a renewal makes none.
    { [ "$room" -gt 0 ] && [ $((count * 100)) -ge $((room * when)) ]; } || [ "$busiest" -ge "$when" ]
}
# shellcheck disable=SC2317 # it is called by the trap
undo() {
    [ -z "$started" ] || at "$new" "$finish" || say "the server at $new can't be ended"
    rm -f "$paused"
    rm -rf "$work"
}
trap 'rm -rf "$work"' EXIT
trap 'exit 1' INT TERM
[ -z "$when" ] || full || exit 0
[ ! -e "$paused" ] || refuse "$paused is there: edits are paused already"
listens "$new" && refuse "somebody listens at $new already"
trap undo EXIT
fail() {
    say "$*. The server at $old goes on."
    exit 1
}

# turned: nginx has reloaded, and requests under its old configuration have ended.
turned() {
    before=$(ps -o pid= --ppid "$(cat "$nginx_pid")") || return
    bash -c "$reload" || return
    for _ in $(seq 3000); do
        running=
        for process in $before; do kill -0 "$process" 2>/dev/null && running=yes; done
        [ -n "$running" ] || return 0
        sleep 0.1
    done
    return 1
}
# published ADDRESS: publishes the accepted edits, and says how many they are.
published() {
    ask "$1" publish -D - -o "$work/body" --max-time 600 -X POST | tr -d '\r' | sed -n 's/^survey-prefix: \([0-9]*\)$/\1/Ip'
}

# 1.
: >"$paused" || fail "$paused can't be written"
turned || fail "nginx can't be told that edits are paused"

# 2. The copy is made after the publication, so it has at least these edits; it has no more if there are no more. One copy for each name
# is enough: the one of OLD is in use, and stays.
mkdir -p "$servers" || fail "$servers can't be made"
copied=
for _ in 1 2 3; do
    count=$(published "$old")
    [ -n "$count" ] || fail "nothing is published at $old: $(head -c 200 "$work/body" 2>/dev/null)"
    dated=$release
    [ "$count" != 0 ] || dated=
    HIPSD_KEEP=1 HIPSD_LAST=$(realpath "$servers/${old##*[:/]}") "$here/backup.sh" ${dated:+"$dated"} "${old#unix:}" "$servers/${new##*[:/]}" ||
        fail "there is no copy"
    if [ "$(edits "$old")" = "$count" ]; then
        copied=yes
        break
    fi
    say "an edit came past the proxy while the copy was made; another is made"
done
[ -n "$copied" ] || fail "edits come past the proxy all the while"

# 3.
started=yes
at "$new" "$begin" || fail "no server can be started at $new"
ready=
for _ in $(seq 1200); do
    ask "$new" properties -f -o "$work/new" --max-time 60 && ready=yes && break
    sleep 0.25
done
[ -n "$ready" ] || fail "the server at $new doesn't answer"
if at "$new" "$stranger"; then
    at "$old" "$stranger" || fail "other users of this machine reach $new, and not $old: hipsd.tcp.nft has to name its port"
    say "any user of this machine may edit at $new, as at $old: use a Unix socket, or load hipsd.tcp.nft"
fi
for path in properties Moc.fits; do
    ask "$old" "$path" -f -o "$work/old" --max-time 60 || fail "$path can't be read at $old"
    ask "$new" "$path" -f -o "$work/new" --max-time 60 || fail "$path can't be read at $new"
    [ -z "$dated" ] || sed -i '/^hips_release_date = /d' "$work/old" "$work/new"
    cmp -s "$work/old" "$work/new" || fail "the server at $new has another $path"
done
[ "$(edits "$new")" = 0 ] || fail "somebody has edited at $new"

# 4.
cp -p "$site" "$work/site" || fail "$site can't be read"
# back: nginx goes to the old server again.
back() {
    cp -p "$work/site" "$site" && turned
    fail "$1"
}
sed -i "s#server ${old//./\\.}\([ ;]\)#server $new\1#" "$site" || fail "$site can't be written"
turned || back "nginx doesn't take the address $new"
[ "$(edits "$old")" = "$count" ] || back "an edit came past the proxy, and isn't in the copy"
started=
rm -f "$paused"
at "$old" "$finish" || say "the server at $old can't be ended; nobody is sent to it any more"
say "the server at $new has taken over, with $(realpath "$servers/${new##*[:/]}")"
