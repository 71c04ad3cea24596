#!/bin/sh
# SPDX-License-Identifier: Apache-2.0
# Boots this machine's systemd as the first process of namespaces, over the machine's files and those that 'make install' put into a folder, and has
# it run a program as a service:
#
#   tests/systemd.sh FOLDER PROGRAM [WORD..]    as root
#
# FOLDER/PATH is PATH there, and this checkout is /tree. What is written is in memory, and gone at the end; no setting of the kernel is. Prints what the
# program prints. Status: the program's; 3 where systemd could not be started.
top=$(cd "$(dirname "$0")/.." && pwd) || exit 3

# -- In the namespaces --

# The root of another mount namespace: the machine's files, over which others are written in memory.
make_root() {
    mount --make-rprivate / && mount -t tmpfs tmpfs "$room" && mkdir "$room/written" "$room/work" "$root" &&
        mount -t overlay overlay -o "lowerdir=/,upperdir=$room/written,workdir=$room/work" "$root" && cp -a "$1/." "$root/" &&
        mkdir "$root/tree" "$root/trial" "$root/before" && mount --bind "$top" "$root/tree" && mount --bind "$room.said" "$(touched "$root/said")"
}

touched() {
    touch "$1" && echo "$1"
}

# What the kernel shows, of which its settings are not to be written; and devices.
make_kernel_files() {
    mount -t proc proc "$root/proc" && mount --bind "$root/proc/sys" "$root/proc/sys" && mount -o remount,bind,ro "$root/proc/sys" &&
        mount -t sysfs -o ro sysfs "$root/sys" && mount -t cgroup2 cgroup2 "$root/sys/fs/cgroup" && mount -t tmpfs tmpfs "$root/run" &&
        mount -t tmpfs -o mode=1777 tmpfs "$root/tmp" && mount -t tmpfs -o mode=755 tmpfs "$root/dev" || return 1
    for device in null zero full random urandom tty; do
        mount --bind "/dev/$device" "$(touched "$root/dev/$device")" || return 1
    done
    mkdir "$root/dev/shm" "$root/dev/mqueue" "$root/dev/pts" && mount -t devpts -o newinstance,ptmxmode=0666 devpts "$root/dev/pts" &&
        ln -s pts/ptmx "$root/dev/ptmx" && ln -s /proc/self/fd "$root/dev/fd"
}

# A service that is the program, with whose end all ends.
make_service() {
    cat >"$root/etc/systemd/system/trial.service" <<END
[Unit]
DefaultDependencies=no
SuccessAction=exit
FailureAction=exit
[Service]
Type=oneshot
WorkingDirectory=/trial
ExecStart=$*
StandardOutput=append:/said
StandardError=inherit
END
}

# (the first process may not load modules or set the time, which are the machine's)
if [ "$1" = --in-namespaces ]; then
    room=$2 root=$2/root folder=$3
    shift 3
    make_root "$folder" && make_kernel_files && make_service "$@" && cd "$root" && pivot_root . before && umount -l /before || exit 3
    exec env -i container=trial PATH=/usr/local/sbin:/usr/local/bin:/usr/sbin:/usr/bin:/sbin:/bin \
        setpriv --bounding-set=-sys_module,-sys_time,-sys_rawio,-syslog --inh-caps=-sys_module,-sys_time,-sys_rawio,-syslog \
        /lib/systemd/systemd --unit=trial.service --show-status=no
fi

# -- Outside --

# A control group of its own, beneath that of this process, since systemd takes the one that it finds itself in for the machine's.
enter_group() {
    groups=$(awk '$3 == "cgroup2" { print $2; exit }' /proc/mounts)
    before=$groups$(sed -n 's/^0:://p' /proc/self/cgroup)
    group=$before/trial.$$
    [ -n "$groups" ] && mkdir "$group" && echo $$ >"$group/cgroup.procs"
}

# (with the first process of their namespace all others end)
leave() {
    [ ! -e "$room.began" ] || kill -9 "$(cat "$room.began")" 2>/dev/null
    wait
    echo $$ >"$before/cgroup.procs"
    while grep -q '^populated 1' "$group/cgroup.events"; do sleep 0.01; done
    find "$group" -depth -type d -exec rmdir {} \;
    rm -rf "$room" "$room.said" "$room.began"
}

room=$(mktemp -d) && : >"$room.said" || exit 3
enter_group || exit 3
trap leave EXIT
trap 'exit 3' HUP INT TERM
unshare --mount --pid --cgroup --ipc --uts --net sh -c '"$0" --in-namespaces "$@" & echo $! >"$1.began"; wait $!' "$0" "$room" "$@" &
asking=$!
"$top/scripts/patience.py" 120 "$asking"
limit=$?
cat "$room.said"
[ "$limit" = 0 ] || exit 3
wait "$asking"
status=$?
rm "$room.began"
exit "$status"
