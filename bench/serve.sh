#!/bin/bash
# Times `hipsd serve` beside nginx over loopback, by turns in one run, with wrk: requests a second of both, their ratio, and the
# time that 99 of 100 requests took at most. Then the same at Unix sockets of both, with h2load (Debian's nghttp2-client), since wrk has
# none: there it is the longest time. With --unix that is all that is done; it takes two minutes.
#
# nginx (Debian's nginx-light, four workers, sendfile, no log) serves the folder that `hipsd export` wrote; hipsd serves the same
# survey with 64 places. Asked for are a tile of 529,920 bytes, /properties (some 400 bytes) and the all-sky mosaic (6.4 MB), by
# 1, 4, 16 and 64 connections that are kept open; /properties by connections that are closed after each reply; and then the tile
# and /properties by 1, 4 and 16 connections while a leaf is put and published each second. There the quicker server is the busier
# one too, so times are compared once more at one rate, below what either can do: each connection pauses after a reply. With
# --equal that is all that is done; it takes two and a half minutes.
#
# What the log costs at `info` is timed by pairs of runs against a second hipsd, which says nothing: requests a second of both, and
# the processor time that each server took for a request. Of the pairs' differences the middle is printed, and the interval in which
# the true middle lies in 95 of 100 such measurements (by ranks: nothing is supposed of how the noise is spread). Then, where
# valgrind is installed, the instructions of a request at either level, which no other program changes. With --log that is all that
# is done; it takes five minutes.
#
# wrk takes processors too: on a machine with few of them all three share. PROGRAM is the proved build; one of `rt try` has checks
# in it, and its times say nothing. Best of RUNS, each of SECONDS, 3 of 3 if not said; at one rate the middle of RUNS, 5 of 7; of the
# log RUNS pairs, 41 of 1.
#
#   bench/serve.sh [RUNS [SECONDS]]         (HIPSD=PROGRAM: another program than crates/hipsd/out/hipsd)
#   bench/serve.sh --unix [RUNS [SECONDS]]
#   bench/serve.sh --equal [RUNS [SECONDS]]
#   bench/serve.sh --log [RUNS [SECONDS]]
set -u
here=$(cd "$(dirname "$0")" && pwd)
only=
case ${1:-} in --unix | --equal | --log) only=$1 && shift ;; esac
runs=${1:-3}
seconds=${2:-3}
equal_runs=${1:-5}
equal_seconds=${2:-7}
log_runs=41 log_seconds=1
[ "$only" = --log ] && log_runs=${1:-41} log_seconds=${2:-1}
for tool in wrk h2load nginx curl gcc; do
    command -v "$tool" >/dev/null 2>&1 || { echo "serve.sh: there is no $tool here, so there is nothing to time with"; exit 0; }
done
hipsd=$(realpath -e "${HIPSD:-$here/../crates/hipsd/out/hipsd}") || { echo "serve.sh: hipsd isn't built"; exit 1; }
work=$(mktemp -d) || exit 1
chmod 755 "$work"
server=
quiet_server=
socket_server=
web_server=
# shellcheck disable=SC2317 # it is called by the trap
end() {
    [ -n "$server" ] && kill "$server" 2>/dev/null
    [ -n "$quiet_server" ] && kill "$quiet_server" 2>/dev/null
    [ -n "$socket_server" ] && kill "$socket_server" 2>/dev/null
    [ -n "$web_server" ] && kill "$web_server" 2>/dev/null
    rm -rf "$work"
}
trap end EXIT

# ---- the survey, exported; nginx over the folder; hipsd over the same

gcc -O2 -o "$work/session" "$here/session.c" || exit 1
mkdir -p "$work/survey/Norder3/Dir0" && cd "$work/survey" || exit 1
cat >survey.conf <<'CONF'
creator_did = ivo://example/P/bench
obs_title = Survey bench
hips_release_date = 2024-05-01T00:00Z
hips_status = public master clonable
hips_order = 3
hips_tile_width = 512
survey_bitpix = 16
survey_blank = -32768
CONF
"$work/session" tile >"$work/tile" || exit 1
for leaf in $(seq 0 15); do cp "$work/tile" "Norder3/Dir0/Npix$leaf.fits"; done
"$hipsd" export >"$work/exported" || exit 1
chmod -R a+rX "$work/survey"
free_port() {
    python3 -c 'import socket; s = socket.socket(); s.bind(("127.0.0.1", 0)); print(s.getsockname()[1])'
}
web=$(free_port)
port=$(free_port)
quiet=$(free_port)
cat >"$work/nginx.conf" <<CONF
worker_processes 4;
pid $work/nginx.pid;
error_log $work/nginx.log;
events { worker_connections 1024; }
http {
    access_log off;
    sendfile on;
    tcp_nopush on;
    keepalive_requests 10000000;
    open_file_cache max=1000;
    server { listen 127.0.0.1:$web; listen unix:$work/nginx.socket; root $work/survey; }
}
CONF
# In the foreground: as a daemon it is a session of its own, and where the kernel schedules sessions as groups that costs it some
# 15 in 100 of its rate, beside a hipsd that is in one group with wrk.
nginx -c "$work/nginx.conf" -p "$work" -g 'daemon off;' &
web_server=$!
HIPSD_LOG=info "$hipsd" serve "127.0.0.1:$port" 65536 64 2>"$work/log" &
server=$!
HIPSD_LOG=off "$hipsd" serve "127.0.0.1:$quiet" 65536 64 2>"$work/quiet.log" &
quiet_server=$!
HIPSD_LOG=info "$hipsd" serve "$work/hipsd.socket" 65536 64 2>"$work/socket.log" &
socket_server=$!
for socket in nginx hipsd; do
    for _ in $(seq 1200); do curl -s --unix-socket "$work/$socket.socket" http://hipsd/properties >"$work/$socket" && break; sleep 0.05; done
done
cmp -s "$work/nginx" "$work/hipsd" || { echo "serve.sh: properties differs"; exit 1; }
for from in $web $port $quiet; do
    for _ in $(seq 1200); do curl -s "http://127.0.0.1:$from/properties" >/dev/null && break; sleep 0.05; done
done
for path in properties Norder3/Dir0/Npix7.fits Norder3/Allsky.fits; do
    for from in $web $port; do curl -s "http://127.0.0.1:$from/$path" >"$work/$from"; done
    cmp -s "$work/$web" "$work/$port" || { echo "serve.sh: $path differs"; exit 1; }
done

# ---- by turns

# load ADDRESS PATH CONNECTIONS [FIELD]: requests a second, and the 99th percentile as wrk prints it; of a socket the longest time.
load() {
    threads=$3
    [ "$threads" -gt 4 ] && threads=4
    case $1 in */*)
        h2load --h1 -t "$threads" -c "$3" -D "$seconds" -B "unix:$1" "http://hipsd/$2" >"$work/out" 2>&1
        awk '/^finished/ { rate = $4 } /^time for request/ { late = $5 } /^requests:/ && $10 + $12 + $14 > 0 { print "serve.sh:", $0 > "/dev/stderr" } END { print rate, late }' "$work/out"
        return
        ;;
    esac
    wrk -t "$threads" -c "$3" -d "${seconds}s" --latency ${4:+-H "$4"} "http://127.0.0.1:$1/$2" >"$work/out" 2>&1
    awk '/Requests\/sec/ { rate = $2 } $1 == "99%" { late = $2 } /Non-2xx/ { print "serve.sh:", $0 > "/dev/stderr" } END { print rate, late }' "$work/out"
}
# compare NAME PATH CONNECTIONS [FIELD]: nginx at $web, hipsd at $port.
compare() {
    best_web=0 best_port=0
    for _ in $(seq "$runs"); do
        read -r rate late < <(load "$web" "$2" "$3" "${4:-}")
        [ "$(echo "$rate > $best_web" | bc)" = 1 ] && best_web=$rate late_web=$late
        read -r rate late < <(load "$port" "$2" "$3" "${4:-}")
        [ "$(echo "$rate > $best_port" | bc)" = 1 ] && best_port=$rate late_port=$late
    done
    case $web in */*) late=max ;; *) late=p99 ;; esac
    printf '%-28s %3d  nginx %9.0f (%s %8s)  hipsd %9.0f (%s %8s)  %5.2f\n' \
        "$1" "$3" "$best_web" "$late" "$late_web" "$best_port" "$late" "$late_port" "$(echo "scale=4; $best_port / $best_web" | bc)"
}

# ---- by turns, at one rate

# Lua for wrk: a connection pauses for a random time after each reply, PAUSE milliseconds in the mean, from the same random numbers
# for both servers. Written at the end: requests a second, and the middle and the 99th percentile of the milliseconds.
cat >"$work/pause.lua" <<'LUA'
local threads = 0
function setup(thread)
    threads = threads + 1
    thread:set("number", threads)
end
function init(words)
    pause = tonumber(words[1])
    math.randomseed(number)
end
function delay()
    return math.random(0, 2 * pause)
end
function done(summary, latency)
    local errors = summary.errors
    if errors.connect + errors.read + errors.write + errors.status + errors.timeout > 0 then io.stderr:write("serve.sh: a request failed\n") end
    io.write(string.format("at %.0f %.3f %.3f\n", summary.requests * 1e6 / summary.duration, latency:percentile(50) / 1000, latency:percentile(99) / 1000))
end
LUA
# paced PORT PATH CONNECTIONS PAUSE
paced() {
    wrk -t 4 -c "$3" -d "${equal_seconds}s" -s "$work/pause.lua" "http://127.0.0.1:$1/$2" -- "$4" | sed -n 's/^at //p'
}
# middle COLUMN FILE
middle() {
    cut -d ' ' -f "$1" "$2" | sort -n | sed -n "$((($(wc -l <"$2") + 1) / 2))p"
}
# times FILE: of its runs the middle rate and times, and the least and greatest 99th percentile.
times() {
    printf '%6.0f a second, p50 %7.3f ms, p99 %7.3f ms (%.3f to %.3f)' "$(middle 1 "$1")" "$(middle 2 "$1")" "$(middle 3 "$1")" \
        "$(cut -d ' ' -f 3 "$1" | sort -n | head -n 1)" "$(cut -d ' ' -f 3 "$1" | sort -n | tail -n 1)"
}
# equal NAME PATH CONNECTIONS PAUSE
equal() {
    : >"$work/$web.times"
    : >"$work/$port.times"
    for _ in $(seq "$equal_runs"); do
        for from in $web $port; do paced "$from" "$2" "$3" "$4" >>"$work/$from.times"; done
    done
    printf '%-23s %2d  nginx %s\n' "$1" "$3" "$(times "$work/$web.times")"
    printf '%-23s %2d  hipsd %s\n' "" "$3" "$(times "$work/$port.times")"
}
tile=Norder3/Dir0/Npix7.fits
equal_rates() {
    echo "at one rate, connections kept open:"
    equal "tile, 529,920 bytes" "$tile" 4 3
    equal "all-sky mosaic, 6.4 MB" Norder3/Allsky.fits 16 120
}

# ---- what the log costs, by pairs

# ticks PROCESS: the processor time that it has taken, in hundredths of a second.
ticks() {
    awk '{ print $14 + $15 }' "/proc/$1/stat"
}
# rate PORT PROCESS PATH CONNECTIONS: requests a second, and the microseconds of processor time that the server took for each.
rate() {
    before=$(ticks "$2")
    wrk -t "$(($4 > 4 ? 4 : $4))" -c "$4" -d "${log_seconds}s" "http://127.0.0.1:$1/$3" >"$work/out" 2>&1
    awk -v taken=$(($(ticks "$2") - before)) '/Non-2xx/ { print "serve.sh:", $0 > "/dev/stderr" } / requests in / { all = $1 } /Requests\/sec/ { print $2, taken * 10000 / all }' "$work/out"
}
# spread COLUMN FILE: the middle of a column, and the interval in which the true middle lies in 95 of 100 measurements: by the
# ranks that a sum of so many throws of a coin stays between.
spread() {
    cut -d ' ' -f "$1" "$2" | sort -g | awk '{ at[NR] = $1 } END {
        low = int((NR - 1.96 * sqrt(NR)) / 2); if (low < 1) low = 1
        printf "%.2f in 100 (%.2f to %.2f)", at[int((NR + 1) / 2)], at[low], at[NR + 1 - low]
    }'
}
# log_costs NAME PATH CONNECTIONS: the server that says nothing goes first in every other pair.
log_costs() {
    : >"$work/pairs"
    for turn in $(seq "$log_runs"); do
        [ $((turn % 2)) = 0 ] && read -r info info_time < <(rate "$port" "$server" "$2" "$3")
        read -r off off_time < <(rate "$quiet" "$quiet_server" "$2" "$3")
        [ $((turn % 2)) = 1 ] && read -r info info_time < <(rate "$port" "$server" "$2" "$3")
        echo "$off $info $(echo "scale=6; 100 - 100 * $info / $off; 100 * $info_time / $off_time - 100" | bc | paste -sd ' ')" >>"$work/pairs"
    done
    printf '%-20s %3d  off %9.0f  info %9.0f  fewer requests: %s  more processor time: %s\n' "$1" "$3" "$(middle 1 "$work/pairs")" \
        "$(middle 2 "$work/pairs")" "$(spread 3 "$work/pairs")" "$(spread 4 "$work/pairs")"
}
# publishes PORT ..: a leaf is put and published each second at each of them.
publishes() {
    while :; do
        for at in "$@"; do
            curl -s -o "$work/edited" -T "$work/tile" -H 'Expect:' "http://127.0.0.1:$at/$tile" --next -s -o "$work/published" -X POST "http://127.0.0.1:$at/publish"
        done
        sleep 1
    done
}
log_rates() {
    echo "what the log costs at info, connections kept open, both while a leaf is put and published each second:"
    publishes "$port" "$quiet" &
    editor=$!
    log_costs "properties" properties 4
    log_costs "properties" properties 16
    log_costs "tile, 529,920 bytes" "$tile" 4
    kill "$editor" 2>/dev/null
    wait "$editor" 2>/dev/null
    command -v valgrind >/dev/null 2>&1 || return
    echo "instructions of a request of properties, in a session: off $(instructions off), info $(instructions info)"
}
# instructions LEVEL: of each of 2,000 requests, by callgrind, whatever else runs.
instructions() {
    for count in 1000 3000; do
        for _ in $(seq $count); do printf 'GET /properties HTTP/1.1\r\nHost: a\r\n\r\n'; done >"$work/requests"
        HIPSD_LOG=$1 valgrind --tool=callgrind --callgrind-out-file=/dev/null "$hipsd" session <"$work/requests" 2>&1 >"$work/replies" |
            sed -n 's/.*Collected : //p'
    done | paste -sd ' ' | awk '{ printf "%.0f", ($2 - $1) / 2000 }'
}

# at_sockets: requests a second at Unix sockets.
at_sockets() {
    web=$work/nginx.socket port=$work/hipsd.socket
    echo "at Unix sockets, connections kept open:"
    for connections in 1 4 16 64; do compare "tile, 529,920 bytes" "$tile" "$connections"; done
    for connections in 1 4 16 64; do compare "properties" properties "$connections"; done
    for connections in 1 4 16; do compare "all-sky mosaic, 6.4 MB" Norder3/Allsky.fits "$connections"; done
}

# ---- what is timed

[ "$only" = --equal ] && equal_rates && exit
command -v bc >/dev/null 2>&1 || { echo "serve.sh: there is no bc here"; exit 0; }
if [ "$only" = --log ]; then log_rates; exit; fi
if [ "$only" = --unix ]; then at_sockets; exit; fi
echo "requests a second, connections kept open:"
for connections in 1 4 16 64; do compare "tile, 529,920 bytes" "$tile" "$connections"; done
for connections in 1 4 16 64; do compare "properties" properties "$connections"; done
for connections in 1 4 16; do compare "all-sky mosaic, 6.4 MB" Norder3/Allsky.fits "$connections"; done
echo "connections closed after each reply:"
for connections in 1 4 16; do compare "properties" properties "$connections" 'Connection: close'; done
echo "while a leaf is put and published each second:"
publishes "$port" &
editor=$!
for connections in 1 4 16; do compare "tile, 529,920 bytes" "$tile" "$connections"; done
for connections in 1 4 16; do compare "properties" properties "$connections"; done
kill "$editor" 2>/dev/null
wait "$editor" 2>/dev/null
echo "the last publication: $(cat "$work/published")"
equal_rates
log_rates
at_sockets
