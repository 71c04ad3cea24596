# SPDX-License-Identifier: Apache-2.0
"""Virtual machines of QEMU whose guest mounts a folder by virtiofsd, which is a daemon of others over rust/vhost, or over the crate itself.

    shared_files.py TRY VIRTIOFSD    in an empty folder; for entropy it is rust/examples/rng, compiled

Prints what is done. Status 0 where all was as it has to be; 1 where something was not, which the last line says; 4 where this QEMU
cannot do it. What runs is ended by then. The machines' consoles and the daemons' lines are kept in the folder.
"""
import hashlib
import os
import random
import shutil
import sys

from emulator import check, migrate, play, run, sent, tell, wait_for_end, wait_running, wait_until
from machine import Guest, make_first_system, newest

MEGABYTE = 1 << 20
FOLDER = "folder"
# What the guest's kernel needs for it. (What a page holds is not kept for the next mount.)
MOUNT = "insmod /modules/fuse.ko; insmod /modules/virtiofs.ko; mount -t virtiofs files /mnt"
TOLD = "console=ttyS0 quiet panic=-1 mitigations=off init_on_alloc=0 no_timer_check"
# Writes to so much memory all the time that it is never all sent while the guest runs.
DIRTIER = "(while [ ! -e /tmp/clean ]; do dd if=/dev/zero of=/tmp/dirty bs=1M count=8 conv=notrunc 2>/dev/null; done) &"


def digest(data):
    return hashlib.sha256(data).hexdigest()


def put(name, size):
    """Makes a file of so many bytes in the folder: what it is known by."""
    data = random.randbytes(size)
    with open(f"{FOLDER}/{name}", "wb") as it:
        it.write(data)
    return digest(data)


def found(name):
    """What a file of the folder is known by."""
    with open(f"{FOLDER}/{name}", "rb") as it:
        return digest(it.read())


class Daemon:
    """virtiofsd over the folder, for one machine."""

    def __init__(self, program, name):
        self.name, self.path = name, f"{name}-{os.getpid()}.socket"
        self.log = open(f"{name}.daemon", "ab")
        self.process = run([program, "--shared-dir", FOLDER, "--socket-path", self.path, "--sandbox=chroot", "--cache=never"], self.log)
        wait_until(lambda: os.path.exists(self.path), f"the daemon of {name} listens", 20)

    def words(self):
        return ["-chardev", f"socket,id=fs,path={self.path}", "-device", "vhost-user-fs-pci,chardev=fs,tag=files"]

    def end(self):
        """It ends once its machine has gone, and well."""
        wait_for_end(self.process, f"the daemon of {self.name}")


def machine_over(name, daemon, *words):
    """A machine whose kernel QEMU puts into its memory."""
    words = ("-kernel", newest("/boot/vmlinuz-*"), "-initrd", "first.cpio", "-append", TOLD, *daemon.words(), *words)
    return Guest(name, "256M", *words)


def boot(name, daemon):
    machine = machine_over(name, daemon)
    machine.hear(rb"#ready\r?\n")
    return machine


def sum_of(machine, name):
    """What the guest finds a file to be."""
    return machine.do(f"sha256sum /mnt/{name}").split()[0]


# -- The tries --


def tried_mounted(program):
    """The guest mounts the folder, reads and writes; both sides find the same, also after it was mounted again, and by a second machine."""
    wanted = put("random", 8 * MEGABYTE + 1)
    daemon = Daemon(program, "first")
    machine = boot("first", daemon)
    machine.do(MOUNT)
    check(sum_of(machine, "random") == wanted, "the guest reads what is in the folder")
    machine.do("head -c 5000001 /dev/urandom >/tmp/made && mkdir /mnt/made && cp /tmp/made /mnt/made/here && sync")
    made = machine.do("sha256sum /tmp/made").split()[0]
    check(found("made/here") == made, "what the guest wrote is in the folder")
    check(sum_of(machine, "made/here") == made, "the guest reads what it wrote")
    machine.do("mv /mnt/made/here /mnt/moved && rmdir /mnt/made && ln -s moved /mnt/link && [ ! -e /mnt/made ]")
    check(sorted(os.listdir(FOLDER)) == ["link", "moved", "random"], "the folder is as the guest left it")
    again = put("again", 100001)
    machine.do("umount /mnt && mount -t virtiofs files /mnt")
    check(sum_of(machine, "again") == again, "mounted again, the guest reads what came meanwhile")
    check(sum_of(machine, "link") == made, "mounted again, the guest reads what it wrote")
    machine.do("umount /mnt")
    machine.power_off()
    daemon.end()
    daemon = Daemon(program, "second")
    machine = boot("second", daemon)
    machine.do(MOUNT)
    check(sum_of(machine, "moved") == made, "a second machine reads what the first wrote")
    machine.power_off()
    daemon.end()


def tried_migrated(program):
    """The machine goes over to a second QEMU with a second daemon, and takes along the daemon's state: what it has open stays open."""
    wanted = put("random", 8 * MEGABYTE)
    daemons = [Daemon(program, name) for name in ("source", "target")]
    source = boot("source", daemons[0])
    target = machine_over("target", daemons[1], "-incoming", "defer")
    if source.version < (8, 2):
        tell("QEMU migrates a file system with its daemon's state from 8.2 on")
        raise SystemExit(4)
    source.do(MOUNT)
    source.do("mkdir /mnt/deep && exec 3</mnt/random 4>/mnt/deep/written && head -c 4194304 <&3 | sha256sum >/tmp/half")
    source.do("echo before >&4")
    source.do(DIRTIER)
    target.ask("migrate-incoming", uri="unix:migration")
    # (it is not over while the guest writes faster than is sent; pages that the daemon writes are sent again, since it logs them)
    source.ask("migrate-set-parameters", **{"max-bandwidth": 16 << 20, "downtime-limit": 1})
    is_over = migrate(source)
    wait_until(lambda: sent(source, "dirty-sync-count") > 2, "each page was sent")
    source.ask("migrate-set-parameters", **{"max-bandwidth": 1 << 16})
    source.do("cat /mnt/random >/tmp/read")
    source.do("echo meanwhile >&4")
    check(not is_over(), "the migration goes on meanwhile")
    source.ask("migrate-set-parameters", **{"max-bandwidth": 1 << 30, "downtime-limit": 4000})
    wait_until(is_over, "the migration is over")
    wait_running(target)
    target.do("touch /tmp/clean")
    check(target.do("sha256sum /tmp/read").split()[0] == wanted, "what was read during the migration is what the folder has")
    target.do("echo after >&4 && exec 4>&- && sync")
    with open(f"{FOLDER}/deep/written", encoding="ascii") as it:
        check(it.read() == "before\nmeanwhile\nafter\n", "the file that was open for writing went on")
    with open(f"{FOLDER}/random", "rb") as it:
        halves = [digest(it.read(4 * MEGABYTE)) for _ in range(2)]
    check(target.do("cat /tmp/half").split()[0] == halves[0], "the first half was read")
    check(target.do("sha256sum <&3").split()[0] == halves[1], "the file that was open for reading goes on where it was")
    made = put("later", 100001)
    check(sum_of(target, "later") == made, "the target's guest reads what came since")
    target.do("exec 3<&- && umount /mnt")
    target.power_off()
    source.quit()
    for daemon in daemons:
        daemon.end()


def tried_killed(program):
    """The daemon is killed while the guest writes: QEMU goes on, and another daemon over the same folder, with the same path, serves a
    machine that is begun anew; what was written is there."""
    daemon = Daemon(program, "disk")
    machine = boot("first", daemon)
    machine.do(MOUNT)
    machine.do("seq 100000 >/mnt/kept && sync")
    kept = found("kept")
    machine.begin("i=0; while :; do i=$((i + 1)); seq $i 100000 >/mnt/written || break; done")
    wait_until(lambda: os.path.exists(f"{FOLDER}/written"), "the guest writes")
    daemon.process.kill()
    daemon.process.wait()
    check(machine.ask("query-status")["status"] == "running", "QEMU goes on without the daemon")
    machine.quit()
    os.remove(daemon.path)
    daemon = Daemon(program, "disk")
    machine = boot("second", daemon)
    machine.do(MOUNT)
    check(sum_of(machine, "kept") == kept, "what was written before is read")
    machine.do("seq 1000 >/mnt/written && sync && umount /mnt && mount -t virtiofs files /mnt")
    check(sum_of(machine, "written") == digest("".join(f"{i}\n" for i in range(1, 1001)).encode()), "the file goes on")
    machine.power_off()
    daemon.end()


def tried_entropy(program):
    """The guest reads from a source of entropy."""
    path = f"rng-{os.getpid()}.socket"
    with open("rng.daemon", "wb") as log:
        daemon = run([program, path], log)
    wait_until(lambda: os.path.exists(path), "the source listens", 20)
    words = ("-kernel", newest("/boot/vmlinuz-*"), "-initrd", "first.cpio", "-append", TOLD)
    words += ("-chardev", f"socket,id=rng,path={path}", "-device", "vhost-user-rng-pci,chardev=rng")
    machine = Guest("machine", "256M", *words)
    machine.hear(rb"#ready\r?\n")
    machine.do("insmod /modules/virtio-rng.ko; grep -q virtio_rng /sys/class/misc/hw_random/rng_current")
    sums = {machine.do("dd if=/dev/hwrng bs=64 count=64 iflag=fullblock 2>/dev/null | sha256sum") for _ in range(3)}
    check(len(sums) == 3, "what it gives is new each time")
    machine.power_off()
    check(daemon.poll() is None, "the source waits for the next machine")


def main():
    tries = {name.removeprefix("tried_"): it for name, it in globals().items() if name.startswith("tried_")}
    if len(sys.argv) != 3 or sys.argv[1] not in tries:
        raise SystemExit(f"usage: shared_files.py {'|'.join(tries)} VIRTIOFSD")
    os.mkdir(FOLDER)
    make_first_system("first.cpio")
    try:
        play(tries[sys.argv[1]], sys.argv[2])
    finally:
        os.remove("first.cpio")
        shutil.rmtree(FOLDER)


main()
