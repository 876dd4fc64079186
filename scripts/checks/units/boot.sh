#!/bin/bash
# systemd over the layer, with folders of its own where programs of this machine meet.
set -e
cd root
mount -t proc none proc
mount --bind proc/sys proc/sys
mount -o remount,ro,bind proc/sys
mount -t tmpfs none run
mount -t tmpfs none tmp
mount -t sysfs -o ro none sys
mount -t cgroup2 none sys/fs/cgroup
mount -t tmpfs -o mode=755 none dev
for node in null zero full random urandom tty; do
    : >"dev/$node"
    mount --bind "/dev/$node" "dev/$node"
done
mkdir dev/pts dev/shm
mount -t devpts -o newinstance,ptmxmode=0666 none dev/pts
ln -s pts/ptmx dev/ptmx
pivot_root . mnt/before
cd /
exec env -i container=other PATH=/usr/sbin:/usr/bin:/sbin:/bin sh -c 'umount -l /mnt/before
    exec /lib/systemd/systemd --system --unit=part.target --log-target=journal --show-status=0' </dev/null >/dev/null 2>&1
