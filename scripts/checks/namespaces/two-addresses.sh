#!/bin/bash
# two-addresses.sh HOSTS PROGRAM PORT COPIES: by the names of HOSTS, with mounts of its own, a server at one of two addresses is copied by the
# name of both, and a second server listens at the other one. It runs in a survey's folder.
mount --bind "$1" /etc/hosts || exit 1
listens() {
    for _ in $(seq 100); do
        (exec 3<>"/dev/tcp/$1/$2") 2>/dev/null && return
        sleep 0.1
    done
    return 1
}
for one in 127.0.0.1 127.0.0.2; do
    other=127.0.0.$((3 - ${one##*.}))
    HIPSD_LOG=error "$2" serve "$one:$3" 4 1 &
    first=$!
    listens "$one" "$3" || exit 1
    mkdir -p "$4/$one"
    (cd "$4/$one" && HIPSD_LOG=error "$2" mirror "two.test:$3") || { echo "no copy from $one"; exit 1; }
    HIPSD_LOG=error "$2" serve "two.test:$3" 1 1 &
    second=$!
    listens "$other" "$3" || { echo "nobody listens at $other beside $one"; exit 1; }
    kill "$first" "$second" 2>/dev/null
    wait
done
