#!/bin/sh
# Installs hipsd where Debian expects it, or takes it away again.
#
#     scripts/install.sh [--remove] [PREFIX]
#
# PREFIX is /usr/local if none is named. It gets bin/hipsd, bin/hipsctl (a link into the examples), share/man/man1/hipsd.1, the units of
# examples/ in lib/systemd/system, lib/sysusers.d/hipsd.conf and share/doc/hipsd with the examples and the documents, which stand there
# as they do here; systemd finds those of /usr/local and /usr. The program is crates/hipsd/out/hipsd, or the one in the environment
# variable PROGRAM. With DESTDIR all goes below that folder, as a package wants it. Nothing is started, no user is made, and /etc and
# the survey's folder stay as they are.
# With --remove nothing is removed while a unit of hipsd runs or starts with the machine.
set -eu
cd "$(dirname "$0")/.."
program=${PROGRAM:-crates/hipsd/out/hipsd}

remove=
if [ "${1:-}" = --remove ]; then
    remove=yes
    shift
fi
prefix=${1:-/usr/local}
case $#-$prefix in
    [01]-/*) ;;
    *)
        echo "usage: scripts/install.sh [--remove] [PREFIX], which begins with /" >&2
        exit 2
        ;;
esac
prefix=${prefix%/}
case $prefix in *[!A-Za-z0-9/._+-]*)
    echo "install: $prefix has other signs than letters, digits and / . _ + -" >&2
    exit 2
    ;;
esac
into=${DESTDIR:-}$prefix
doc=$into/share/doc/hipsd

# What is installed stands there, a path below PREFIX in each line.
list=$doc/installed

# put MODE FROM PATH: one file, at a path below PREFIX.
put() {
    mkdir -p "$into/$(dirname "$3")"
    install -m "$1" "$2" "$into/$3"
    echo "$3" >>"$list"
    echo "$into/$3"
}

# named CONSTANT: what the program says of itself.
named() {
    sed -n "s/^pub const $1: .* = \"\(.*\)\";\$/\1/p" crates/hipsd_run/src/version.rt
}

# filled FROM: writes the text with what is known only here.
filled() {
    revision=$(git rev-parse --short HEAD 2>/dev/null) || revision='an unknown revision'
    sed -e "s#@PREFIX@#$prefix#g" -e "s#@VERSION@#$(named VERSION)#g" -e "s#@REVISION@#$revision#g" -e "s#@TOOLCHAIN@#$(named TOOLCHAIN)#g" \
        -e "s#=\(+\?\)/usr/local/\(bin\|share\)/#=\1$prefix/\2/#g" "$1"
}

# examples: the files below examples/.
examples() {
    (cd examples && find . -type f ! -name '.*' ! -path '*/__pycache__/*' ! -path './hipsctl/tests/*' | sed 's#^\./##' | sort)
}

install_all() {
    if [ ! -x "$program" ]; then
        echo "install: there is no $program. README.md says how it is proved and built" >&2
        exit 1
    fi
    work=$(mktemp -d)
    trap 'rm -rf "$work"' EXIT
    filled docs/hipsd.1 >"$work/manual"
    [ ! -e "$list" ] || take_away
    mkdir -p "$doc"
    put 755 "$program" bin/hipsd
    put 644 "$work/manual" share/man/man1/hipsd.1
    for unit in examples/*.service examples/*.timer; do
        filled "$unit" >"$work/unit"
        put 644 "$work/unit" "lib/systemd/system/${unit#*/}"
    done
    put 644 examples/hipsd.sysusers lib/sysusers.d/hipsd.conf
    for page in *.md LICENSE bench/RESULTS.md docs/*.md docs/images/*; do put 644 "$page" "share/doc/hipsd/$page"; done
    for name in $(examples); do
        mode=644
        [ ! -x "examples/$name" ] || mode=755
        put "$mode" "examples/$name" "share/doc/hipsd/examples/$name"
    done
    ln -s ../share/doc/hipsd/examples/hipsctl/__main__.py "$into/bin/hipsctl"
    echo bin/hipsctl >>"$list"
    [ -z "${DESTDIR:-}" ] || return 0
    running=$(running)
    if [ -n "$running" ]; then
        echo "process $running goes on with the program that it was started with. To renew it without an outage, as root:" \
            "systemctl daemon-reload && $prefix/share/doc/hipsd/examples/rollover.sh"
        [ ! -e /etc/nginx/hipsd.port.conf ] || echo "That is a server at a port, as older releases had it. First make hipsd.server.conf of" \
            "/etc/nginx/hipsd.port.conf, also where conf.d/hipsd.conf names it; then: rollover.sh 127.0.0.1:8080 unix:/run/hipsd/survey0"
        return
    fi
    case $prefix in
        /usr | /usr/local) ;;
        *)
            echo "first, as root, since systemd doesn't look below $prefix: systemd-sysusers $prefix/lib/sysusers.d/hipsd.conf &&" \
                "systemctl link $prefix/lib/systemd/system/hipsd*"
            ;;
    esac
    echo "next: the steps in $doc/docs/OPERATING.md. The service doesn't start before its survey is in place"
}

# running: the processes that were started with the program that stood at $prefix/bin/hipsd.
running() {
    for process in /proc/[0-9]*; do
        case $(readlink "$process/exe") in "$prefix/bin/hipsd" | "$prefix/bin/hipsd (deleted)") echo "${process#/proc/}" ;; esac
    done | paste -s -d ' '
}

# take_away: what is in the list, and the folders that are hipsd's own.
take_away() {
    while read -r path; do rm -f "$into/$path"; done <"$list"
    rm "$list"
    find "$doc" -depth -type d -empty -delete
    [ ! -d "$doc" ] || echo "install: $doc stays, since something else is in it" >&2
}

# at_work: hipsd's units that run, or start with the machine.
at_work() {
    for link in /etc/systemd/system/*.wants/hipsd*; do [ ! -L "$link" ] || basename "$link"; done
    systemctl list-units --plain --no-legend --state=active,activating,reloading,deactivating 'hipsd*' 2>/dev/null | cut -d ' ' -f 1
}

remove_all() {
    if [ ! -e "$list" ]; then
        echo "install: nothing is installed below $into: there is no $list" >&2
        exit 1
    fi
    # A unit whose scripts are gone can't end its server in order, and a timer would fail from now on.
    at_work=
    [ -n "${DESTDIR:-}" ] || at_work=$(at_work | sort -u | paste -s -d ' ')
    if [ -n "$at_work" ]; then
        echo "install: nothing is removed yet. First, as root (edits that no copy has are lost): systemctl disable --now $at_work" >&2
        exit 1
    fi
    take_away
    echo "hipsd is no more below $into. What was not installed from here stays:"
    root=${DESTDIR:-}
    for path in "$root"/etc/nginx/conf.d/hipsd.conf "$root"/etc/nginx/conf.d/nginx-copy.conf "$root"/etc/nginx/hipsd.* "$root"/etc/nftables-hipsd* \
        "$root"/etc/hipsd "$root"/etc/ssl/private/hipsd.key "$root"/etc/ssl/certs/hipsd.pem "$root"/etc/systemd/system/hipsd* \
        "$root"/etc/systemd/system/*.wants/hipsd* "$root"/var/cache/nginx-hipsd "$root"/var/lib/hipsd "$root"/var/lib/hipsd-backup \
        "$root"/srv/survey "$root"/srv/catalogue "$root"/srv/restored.*; do
        { [ ! -e "$path" ] && [ ! -L "$path" ]; } || echo "    $path"
    done
    ! grep -qs nftables-hipsd "$root/etc/nftables.conf" ||
        echo "    lines of $root/etc/nftables.conf that include nftables-hipsd*: remove them before these files, else it loads no rule at all"
    [ -n "$root" ] || ! getent passwd hipsd >/dev/null || echo "    the user hipsd"
}

if [ -n "$remove" ]; then remove_all; else install_all; fi
