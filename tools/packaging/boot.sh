#!/bin/bash
# Becomes a machine's first process: in namespaces of its own it makes ROOT the root, over what BASE has, and goes over to systemd there.
# tools/packaging/boot.sh NAME BASE FOLDER: FOLDER/disk keeps what the machine writes. It is run by machines.py, by unshare.
set -eu
name="$1" base="$2" folder="$3" root="$3/root"

mount --make-rprivate /
mkdir -p "$folder/disk" "$folder/work" "$root"
mount -t overlay overlay -o "lowerdir=$base,upperdir=$folder/disk,workdir=$folder/work" "$root"
cd "$root"
mount -t proc proc proc
mount -t sysfs -o ro sysfs sys
mount -t cgroup2 cgroup2 sys/fs/cgroup
mount -t tmpfs -o mode=755 tmpfs run
mount -t tmpfs -o mode=1777 tmpfs tmp
mount -t tmpfs -o mode=755 tmpfs dev
for it in null zero full random urandom tty; do
    touch "dev/$it"
    mount --bind "/dev/$it" "dev/$it"
done
mkdir dev/pts dev/shm
mount -t devpts -o newinstance,ptmxmode=0666,mode=620 devpts dev/pts
ln -s pts/ptmx dev/ptmx
ln -s /proc/self/fd dev/fd
mount --bind proc/sys proc/sys
mount -o remount,bind,ro proc/sys
hostname "$name"
mkdir -p mnt
pivot_root . mnt
umount -l /mnt
mount --make-rshared /
exec env -i container=tufayon PATH=/usr/sbin:/usr/bin:/sbin:/bin /lib/systemd/systemd
