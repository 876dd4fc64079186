#!/bin/sh
# Keeps copies of what a running hipsd has published, each a folder that `hipsd serve` can go on with.
#
#     examples/backup.sh [--release-date] ADDRESS FOLDER
#
# ADDRESS is the server's own, such as 127.0.0.1:8080 or the path of its Unix socket: a proxy keeps no pin. With @FILE it is read from the
# lines `server ADDRESS;` or `server unix:ADDRESS;` of the file, by which nginx goes to the server; if there are several, a server that
# doesn't answer is followed by the next. FOLDER is a symbolic link to the last copy, or nothing yet. The copies stand beside it:
# FOLDER.20261129T094500Z.
#
# One published state is copied into a new folder, whatever is edited and published meanwhile. Its survey.conf is made from its
# properties, and `hipsd verify` reads all files again. Only then does the link point to it; if a step fails, the link stays as it was.
# Edits that aren't published aren't copied.
#
# --release-date sets hips_release_date to the time of the copy, or keeps that of the last copy if nothing else has changed. Mirrors of
# others go by this date. The last copy is the one that FOLDER shows, or the folder whose path from / is in HIPSD_LAST.
#
# The newest copies stay, and so does every copy in use: one that is the folder of a process, or that a link beside it, a link in
# HIPSD_SERVERS or a unit of systemd names.
#
# The folder in which the copies stand must belong to root or to the user who runs this, and nobody else may write there. Otherwise
# others could have files of this user overwritten.
#
# Variables, with their defaults below: the program; how many copies stay; how many seconds a copy may take; how often it is tried, after
# pauses of 1, 2, 4 seconds and so on, if nobody listens or the connection breaks; the folder of the servers (rollover.sh); the folders
# of units. The status is 0 if the link shows a new copy, 2 if the command line is invalid, and 1 otherwise.
set -eu
program=${HIPSD_PROGRAM:-hipsd}
keep=${HIPSD_KEEP:-7}
deadline=${HIPSD_DEADLINE:-3000}
tries=${HIPSD_TRIES:-6}
servers=${HIPSD_SERVERS:-/var/lib/hipsd}
units=${HIPSD_UNITS:-/etc/systemd /run/systemd /usr/local/lib/systemd /usr/lib/systemd}

# refuse TEXT: the command line is invalid.
refuse() {
    echo "backup.sh: $*" >&2
    exit 2
}
# fail TEXT: there is no new copy.
fail() {
    echo "backup.sh: $*" >&2
    exit 1
}

release=
if [ "${1:-}" = --release-date ]; then
    release=yes
    shift
fi
[ $# = 2 ] || refuse "usage: backup.sh [--release-date] ADDRESS FOLDER"
# addresses WORD: the server's addresses, one a line.
addresses() {
    case $1 in @*) ;; *) echo "$1" && return ;; esac
    named=$(sed -n -e 's/^ *server unix:\(\/[^ ;]*\)[ ;].*/\1/p' -e 's/^ *server \([0-9A-Za-z.:-]*\)[ ;].*/\1/p' "${1#@}" | sort -u)
    [ -n "$named" ] || refuse "${1#@} names no server"
    echo "$named"
}
server=$1
case $1 in @*) server=@$(realpath "${1#@}") ;; esac
addresses "$server" >/dev/null
folder=${2%/}
case $keep in '' | 0* | *[!0-9]*) refuse "HIPSD_KEEP is '$keep': how many copies stay, 1 or more" ;; esac
case $tries in [1-9] | [1-9][0-9]) ;; *) refuse "HIPSD_TRIES is '$tries': 1 to 99" ;; esac
case $deadline in '' | 0* | *[!0-9]*) refuse "HIPSD_DEADLINE is '$deadline': so many seconds, 1 or more" ;; esac
case $program in */*) program=$(realpath -e "$program") || refuse "there is no program $HIPSD_PROGRAM" ;; esac
command -v "$program" >/dev/null || refuse "there is no program $program"
[ -n "$folder" ] || refuse "FOLDER is empty"
[ -L "$folder" ] || [ ! -e "$folder" ] || refuse "$folder is there, and is no symbolic link"
place=$(realpath -e "$(dirname "$folder")") || refuse "there is no folder $(dirname "$folder")"
link=$place/$(basename "$folder")

# Whoever may write a folder may put a link where a file is about to be opened. Above $place a sticky one, as /tmp, will do.
other=$(find "$place" -maxdepth 0 -perm /022)
above=$place
while [ -z "$other" ]; do
    other=$(find "$above" -maxdepth 0 \( ! -user root ! -user "$(id -u)" -o -perm /022 ! -perm -1000 \))
    [ "$above" != / ] || break
    above=$(dirname "$above")
done
[ -z "$other" ] || refuse "$other belongs to $(stat -c %U "$other"), mode $(stat -c %a "$other"): run this as that user, and let nobody else write there"

# One at a time. So what an earlier run has left unfinished is nobody's.
exec 9>"$link.lock"
flock -n 9 || fail "another backup into $link is running"
rm -rf "$link".*.unfinished "$link.turned"

name=$link.$(date -u +%Y%m%dT%H%M%SZ)
while [ -e "$name" ]; do
    sleep 1
    name=$link.$(date -u +%Y%m%dT%H%M%SZ)
done
new=$name.unfinished
mkdir "$new"
trap 'rm -rf "$new"' EXIT
cd "$new"

begun=$(date +%s)
pause=1
turn=0
while :; do
    status=0
    from=$(addresses "$server")
    from=$(echo "$from" | sed -n "$((turn % $(echo "$from" | wc -l) + 1))p")
    left=$((begun + deadline - $(date +%s)))
    timeout -k 10 $((left < 1 ? 1 : left)) "$program" mirror "$from" 9>&- || status=$?
    case $status in
        0) break ;;
        4 | 5 | 6) ;;
        124) fail "hipsd mirror $from takes more than $deadline seconds; $link stays as it is" ;;
        *) fail "hipsd mirror $from ended with status $status; $link stays as it is" ;;
    esac
    turn=$((turn + 1))
    { [ "$turn" -lt "$tries" ] && [ $(($(date +%s) + pause)) -lt $((begun + deadline)) ]; } ||
        fail "hipsd mirror $from ended with status $status; $link stays as it is"
    echo "backup.sh: hipsd mirror $from ended with status $status, and is tried again in $pause seconds" >&2
    sleep "$pause"
    pause=$((pause * 2))
done
# undated FOLDER: its properties, without the date.
undated() {
    sed '/^hips_release_date = /d' "$1/properties"
}
if [ -n "$release" ]; then
    date=$(date -u +%Y-%m-%dT%H:%MZ)
    last=${HIPSD_LAST:-$link}
    if diff -rq -x properties -x survey.conf "$last/" . >/dev/null 2>&1 && [ "$(undated "$last")" = "$(undated .)" ]; then
        date=$(sed -n 's/^hips_release_date = //p' "$last/properties")
    fi
    sed -i "s/^hips_release_date = .*/hips_release_date = $date/" properties
fi
# Its last line is the number of leaves; all above it is a description.
sed '$d' properties >survey.conf
verdict=$("$program" verify 9>&-) || fail "hipsd verify of the copy ended with status $?: $verdict; $link stays as it is"
# All of it is on the disk before the link is turned.
sync -f "$new"
cd "$place"
mv "$new" "$name"
ln -s "$(basename "$name")" "$link.turned"
mv -T "$link.turned" "$link"
sync "$place"
echo "$link is $(basename "$name"): $verdict"

# hidden: whether there is a hipsd whose folder this user can't see.
hidden() {
    for process in /proc/[0-9]*; do
        name=
        { read -r name <"$process/comm"; } 2>/dev/null || :
        [ "$name" = hipsd ] || continue
        readlink "$process/cwd" >/dev/null || ! grep -qs '^State:.[^Z]' "$process/status" || return 0
    done
    return 1
}
# in_use COPY: whether a link, a process or a unit has it.
in_use() {
    [ -z "$(find -L "$place"/* "$servers"/* /proc/[0-9]*/cwd -maxdepth 0 -samefile "$1" ! -path "$1" 2>/dev/null)" ] || return 0
    # shellcheck disable=SC2086 # folders
    grep -rqsF "$1" $units
}

# The names sort by their times.
find "$place" -mindepth 1 -maxdepth 1 -type d -name "$(basename "$link").[0-9]*Z" | sort -r | tail -n +$((keep + 1)) | while read -r old; do
    if hidden; then
        echo "backup.sh: all older copies stay: a hipsd of another user runs, and only root sees in which folder" >&2
        break
    fi
    if in_use "$old"; then
        echo "backup.sh: $old is in use, and stays" >&2
    else
        rm -rf "$old"
    fi
done
