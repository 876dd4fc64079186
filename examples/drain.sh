#!/bin/sh
# Prepares the end of a server: nginx sends it nothing more, requests in progress are answered, and the log says how many edits are lost.
# hipsd@.service calls it as ExecStop.
#
#     examples/drain.sh ADDRESS
#
# ADDRESS is that of the server: an address with a port, or the path of a Unix socket. If nginx goes there (the line `server ADDRESS;` or
# `server unix:ADDRESS;` of HIPSD_SITE), it makes the file HIPSD_AWAY; while that exists, nginx answers 503. Then it waits until no
# connection to the server is open, at most HIPSD_WAIT seconds; hipsd closes idle ones after 30. The unit removes the file once the server
# has ended. If nginx goes elsewhere, as after rollover.sh, readers notice nothing.
#
# The status is 0, since the server ends anyway.
site=${HIPSD_SITE:-/etc/nginx/hipsd.server.conf}
away=${HIPSD_AWAY:-/run/hipsd.away}
wait=${HIPSD_WAIT:-45}
address=$1
case $address in */*) named=unix:$address ;; *) named=$address ;; esac

if sed -n 's/^ *server \([^ ;]*\)[ ;].*/\1/p' "$site" 2>/dev/null | grep -qxF "$named"; then
    : >"$away" || echo "drain.sh: $away can't be written, so the proxy goes on"
fi

# open: how many connections to the server are established.
open() {
    case $address in
        */*) awk -v path="$address" '$NF == path && $6 == "03"' /proc/self/net/unix 2>/dev/null ;;
        *) awk -v port="$(printf ':%04X' "${address##*:}")" 'substr($2, length($2) - 4) == port && $4 == "01"' /proc/self/net/tcp /proc/self/net/tcp6 2>/dev/null ;;
    esac | wc -l
}
# ask PATH WORD ..: curl's WORDs at the server.
ask() {
    path=$1
    shift
    case $address in
        */*) curl -s --max-time 5 --unix-socket "$address" "$@" "http://hipsd/$path" ;;
        *) curl -s --max-time 5 "$@" "http://$address/$path" ;;
    esac
}
seconds=0
while [ "$(open)" -gt 0 ] && [ "$seconds" -lt "$wait" ]; do
    sleep 1
    seconds=$((seconds + 1))
done
left=$(open)
[ "$left" = 0 ] || echo "drain.sh: $left connections to $address are open after $seconds seconds, and end with the server"

# A batch that removes a leaf twice is refused in any state, and says how many edits there are.
edits=$(printf 'remove 0\nremove 0\n' | ask batch -D - -o /dev/null -H 'Content-Type:' --data-binary @- |
    tr -d '\r' | sed -n 's/^survey-edits: \([0-9]*\)$/\1/Ip')
published=$(ask properties -I | tr -d '\r' | sed -n 's/^survey-prefix: \([0-9]*\)$/\1/Ip')
if [ -n "$edits" ] && [ -n "$published" ]; then
    echo "drain.sh: $address ends, and with it the $edits edits since its start, $((edits - published)) of them never published"
else
    echo "drain.sh: $address ends, and doesn't say how many edits go with it"
fi
exit 0
