#!/bin/bash
# layer.sh PROGRAM REPOSITORY FOLDER: makes a layer above this machine's files, and boots once for each of the two parts. It runs in
# namespaces of its own.
set -e
mount --make-rprivate /
mount -t tmpfs none "$3/layer"
cd "$3/layer"
mkdir upper work root groups
mount -t cgroup2 none groups
mkdir groups/booted
mount -t overlay none -o "lowerdir=/,upperdir=$PWD/upper,workdir=$PWD/work" root
# What is mounted on its own isn't in the layer.
ls root/lib/systemd/systemd root/usr/sbin/nginx root/etc/nginx/nginx.conf root/var/lib/dpkg/status >/dev/null
: >"$3/out/layered"
cp "$1" root/mnt/hipsd
mkdir root/mnt/repository root/mnt/out root/mnt/before
mount --bind "$2" root/mnt/repository
mount --bind "$3/out" root/mnt/out
rm -rf root/etc/systemd/system/*.wants
: >root/etc/machine-id
printf '[Unit]\nWants=multi-user.target\nAfter=multi-user.target\n[Service]\nType=oneshot\nExecStart=/bin/bash /mnt/out/part.sh\nStandardOutput=append:/mnt/out/log\nStandardError=inherit\n' \
    >root/etc/systemd/system/part.service
printf '[Unit]\nWants=part.service\n' >root/etc/systemd/system/part.target
for part in 1 2; do
    cp "$3/out/part$part.sh" "$3/out/part.sh"
    (echo "$BASHPID" >groups/booted/cgroup.procs && exec unshare -m -p -f -C --kill-child bash "$3/out/boot.sh") &
    booted=$!
    for _ in $(seq 480); do
        [ ! -e "$3/out/done$part" ] || break
        sleep 0.5
    done
    kill -9 "$booted"
    wait "$booted" || true
    sleep 0.5
done
