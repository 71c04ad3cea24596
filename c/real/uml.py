# SPDX-License-Identifier: Apache-2.0
"""User Mode Linux over the example disk, and over the console: Linux is a process, which is the frontend and drives the virtqueues.

    uml.py TRY DEVICE    in an empty folder: DEVICE is the compiled c/blk.c, or for console the program covretin-console

Prints what is done. Status 0 where all was as it has to be; 1 where something was not, which the last line says; 4 where User Mode
Linux cannot run here. What runs is ended by then. The consoles and the disk's lines are kept in the folder.
"""
import hashlib
import os
import random
import shutil
import socket
import sys

from emulator import DOES_LINES, Disk, Shell, Stream, check, patience, play, run, tell, wait_for_end, wait_until

SECTOR = 512
MEGABYTE = 1 << 20
BLOCK, CONSOLE = 2, 3  # types of devices

INIT = """#!/bin/busybox sh
/bin/busybox --install -s /bin
export PATH=/bin
mount -t proc proc /proc
mount -t sysfs sys /sys
mount -t hostfs -o /usr/lib/uml/modules modules /lib/modules
modprobe virtio_blk
"""


def make_system():
    """What Linux has as its file system, a folder of this one."""
    for it in ("bin", "dev", "proc", "sys", "lib/modules"):
        os.makedirs(f"system/{it}")
    shutil.copy("/usr/bin/busybox", "system/bin/busybox")
    with open("system/init", "w", encoding="ascii") as it:
        it.write(INIT + DOES_LINES)
    os.chmod("system/init", 0o755)


class Linux(Shell):
    """Linux as a process, over devices of virtio: each is the path of a socket, and the device's type."""

    def __init__(self, name, *devices):
        mine, its = socket.socketpair()
        words = ["linux.uml", "mem=128M", "rootfstype=hostfs", f"rootflags={os.getcwd()}/system", "rw", "init=/init", "quiet"]
        words += ["con=null", f"con0=fd:{its.fileno()}", f"uml_dir={os.getcwd()}/", f"umid={name}.uml"]
        words += [f"virtio_uml.device={path}:{kind}" for path, kind in devices]
        with open(f"{name}.log", "wb") as log:
            # (its memory is a file there, of which a device takes none but one in memory)
            self.process = run(words, log, pass_fds=[its.fileno()], env=dict(os.environ, TMPDIR="/dev/shm"))
        its.close()
        super().__init__(name, Stream(mine))
        self.hear(rb"#ready\r?\n")


def write_image(at, data):
    with open("image", "r+b") as it:
        it.seek(at)
        it.write(data)


def in_image(at=0, length=-1):
    with open("image", "rb") as it:
        it.seek(at)
        return it.read(length)


def sum_of(data):
    return hashlib.sha256(data).hexdigest()


def has_disk(linux):
    """That Linux reads all that the image has."""
    found = linux.do("echo 3 >/proc/sys/vm/drop_caches; sha256sum </dev/vda")
    check(found.split()[0] == sum_of(in_image()), "what is read is what the disk has")


# -- The tries --


def runs_here():
    """Whether Linux is a process that does programs, without a device: that of Debian 12 is none on a processor with AMX."""
    try:
        Linux("alone").power_off()
    except (SystemExit, patience.LimitSpent) as why:
        tell(f"User Mode Linux itself: {why}")
        return False
    return True


def tried_boot(program):
    """Linux finds the disk, reads and writes it, with requests under way beside one another, discards a part, is told that it grows, and
    powers off; and once more, with the same disk."""
    if not runs_here():
        raise SystemExit(4)
    with open("image", "wb") as it:
        it.write(random.randbytes(4 * MEGABYTE))
    wanted = random.randbytes(2 * MEGABYTE)
    with open("system/data", "wb") as it:
        it.write(wanted)
    disk = Disk(program, rings=("2", "pipe"))
    wait_until(disk.is_asleep, "the disk waits")
    open_then = disk.descriptors()
    linux = Linux("first", (disk.path, BLOCK))
    check(linux.do("cat /sys/block/vda/size") == str(4 * MEGABYTE // SECTOR), "the disk has the image's size")
    check(linux.do("cat /sys/block/vda/serial") == "covretin", "the disk has its name")
    has_disk(linux)
    linux.do("for it in 0 1 2 3; do dd if=/data of=/dev/vda bs=16k skip=$((32 * it)) seek=$((64 + 32 * it)) count=32 oflag=direct "
             "2>/dev/null & done; wait; sync")
    check(in_image(MEGABYTE, len(wanted)) == wanted, "what Linux wrote is in the image")
    linux.do("blkdiscard -o 3145728 -l 65536 /dev/vda")
    check(in_image(3 * MEGABYTE, 65536) == bytes(65536), "what was discarded is in the image no more")
    has_disk(linux)
    write_image(4 * MEGABYTE, random.randbytes(MEGABYTE))
    linux.do(f"while [ $(cat /sys/block/vda/size) != {5 * MEGABYTE // SECTOR} ]; do sleep 0.1; done")
    has_disk(linux)
    linux.power_off()
    linux = Linux("second", (disk.path, BLOCK))
    has_disk(linux)
    linux.power_off()
    wait_until(lambda: disk.descriptors() == open_then, "the disk has as many descriptors as at first")
    disk.end()


def shell_at(console, linux):
    """A shell at Linux's console, which does lines."""
    linux.do("modprobe virtio_console; while [ ! -c /dev/hvc0 ]; do sleep 0.1; done; setsid sh /lines </dev/hvc0 >/dev/hvc0 2>&1 &")
    told = Shell("console", console)
    told.hear(rb"#ready\r?\n")
    return told


def tried_console(program):
    """Who is at the console's socket tells a shell what to do: what it prints comes whole and in order. Another Linux has the same console, and the
    same is at its other end."""
    if not runs_here():
        raise SystemExit(4)
    with open("system/lines", "w", encoding="ascii") as it:
        it.write(DOES_LINES)
    with open("device.log", "wb") as log:
        device = run([program, "--calls-by-pipe", "--socket-path=device", "--console=end"], log)
    wait_until(lambda: os.path.exists("device"), "the console listens", 10)
    with socket.socket(socket.AF_UNIX) as end:
        end.connect("end")
        for name in ("first", "second"):
            linux = Linux(name, ("device", CONSOLE))
            told = shell_at(Stream(end), linux)
            # (Linux spins until each sixteen bytes are taken: more takes long where processors are few)
            check(told.do("seq 300").split() == [str(number) for number in range(1, 301)], "what is printed comes")
            text = random.randbytes(200).hex()
            check(told.do(f"echo -n {text} | sha256sum").split()[0] == sum_of(text.encode()), "what is typed does")
            linux.power_off()
    device.terminate()
    wait_for_end(device, "the console")
    with open("device.log", encoding="utf-8") as it:
        check(it.read().count("and 0 dropped\n") == 2, "nothing was dropped")


def main():
    tries = {name.removeprefix("tried_"): it for name, it in globals().items() if name.startswith("tried_")}
    if len(sys.argv) != 3 or sys.argv[1] not in tries:
        raise SystemExit(f"usage: uml.py {'|'.join(tries)} DEVICE")
    make_system()
    try:
        play(tries[sys.argv[1]], sys.argv[2])
    finally:
        shutil.rmtree("system")
        if os.path.exists("image"):
            os.remove("image")


main()
