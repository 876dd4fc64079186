#!/bin/sh
# Installs the tools of others that the checks of this repository call (Debian's fitsverify, python3-astropy,
# python3-healpy, stilts, curl, nginx-light, openssl, mandoc, systemd, nftables, iproute2, openssh-client, shellcheck, slowhttptest, gcc,
# chromium with chromium-driver, python3-selenium and python3-pil), where they are missing and this runs as root.
# Elsewhere it says what is missing; the checks decide what follows from that.
[ $# = 0 ] || { sed -n '2,/^[^#]/s/^# \{0,1\}//p' "$0" >&2; exit 2; }
missing=
command -v fitsverify >/dev/null 2>&1 || missing="$missing fitsverify"
command -v curl >/dev/null 2>&1 || missing="$missing curl"
command -v cc >/dev/null 2>&1 || missing="$missing gcc libc6-dev"
command -v nginx >/dev/null 2>&1 || [ -x /usr/sbin/nginx ] || missing="$missing nginx-light"
command -v openssl >/dev/null 2>&1 || missing="$missing openssl"
command -v mandoc >/dev/null 2>&1 || missing="$missing mandoc"
command -v systemd-analyze >/dev/null 2>&1 || missing="$missing systemd"
command -v nft >/dev/null 2>&1 || [ -x /usr/sbin/nft ] || missing="$missing nftables iproute2"
command -v ssh >/dev/null 2>&1 || missing="$missing openssh-client"
command -v shellcheck >/dev/null 2>&1 || missing="$missing shellcheck"
command -v slowhttptest >/dev/null 2>&1 || missing="$missing slowhttptest"
command -v stilts >/dev/null 2>&1 || missing="$missing stilts"
/usr/bin/python3 -c 'import astropy' 2>/dev/null || missing="$missing python3-astropy"
/usr/bin/python3 -c 'import healpy' 2>/dev/null || missing="$missing python3-healpy"
command -v chromium >/dev/null 2>&1 || missing="$missing chromium"
command -v chromedriver >/dev/null 2>&1 || missing="$missing chromium-driver"
/usr/bin/python3 -c 'import selenium' 2>/dev/null || missing="$missing python3-selenium"
/usr/bin/python3 -c 'import PIL' 2>/dev/null || missing="$missing python3-pil"
[ -z "$missing" ] && exit 0
if [ "$(id -u)" -ne 0 ] || ! command -v apt-get >/dev/null 2>&1; then
    echo "install-tools: not installed here:$missing"
    exit 0
fi
export DEBIAN_FRONTEND=noninteractive
# shellcheck disable=SC2086 # the packages are words
{ apt-get update && apt-get install -y --no-install-recommends $missing; } >/dev/null 2>&1 || echo "install-tools: apt-get could not install:$missing"
