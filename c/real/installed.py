# SPDX-License-Identifier: Apache-2.0
"""Two commands of the package covretin-tools in a bare Debian, by which a guest boots.

    installed.py ROOT BOOT    as root: ROOT is the folder of a Debian in which covretin-tools and QEMU are installed, BOOT the sector
                              of boot.S. The kernel of the guest is this machine's

Prints what is done. Status 0 where the guest booted, and SIGTERM ended the disk at once with status 0; 1 where not, which the last line says.
"""
import os
import signal
import subprocess
import sys
import tempfile

from emulator import check
from machine import make_image
from patience import has_ended, wait_until

DISK = ["covretin", "disk", "--socket-path=/disk.sock", "--blk-file=/image"]
MACHINE = ["qemu-system-x86_64", "-m", "256M", "-object", "memory-backend-memfd,id=memory,size=256M", "-numa", "node,memdev=memory"]
MACHINE += ["-chardev", "socket,id=disk,path=/disk.sock", "-device", "vhost-user-blk-pci,chardev=disk,bootindex=1", "-accel", "tcg"]
MACHINE += ["-display", "none", "-no-reboot", "-serial", "file:/console"]
# Seconds of a processor, or of nothing being done (patience.py).
LIMIT = 600
# The same of what is to be done at once.
AT_ONCE = 0.1


def begin(root, words):
    print("$", *words, flush=True)
    return subprocess.Popen(["chroot", root, *words], stdin=subprocess.DEVNULL)


def console(root):
    try:
        with open(f"{root}/console", "rb") as file:
            return file.read()
    except FileNotFoundError:
        return b""


def boots(root, disk):
    """A guest boots from the disk as far as its own shell."""
    wait_until(lambda: os.path.exists(f"{root}/disk.sock"), "the disk listens", lambda: [disk.pid], LIMIT)
    machine = begin(root, MACHINE)
    try:
        wait_until(lambda: b"#ready" in console(root) or has_ended(machine.pid), "the guest boots", lambda: [machine.pid, disk.pid], LIMIT)
        check(b"the boot sector was read" in console(root), "the guest reads the boot sector")
        check(b"#ready" in console(root), "the guest has its shell")
    finally:
        machine.kill()
        machine.wait()


def main(root, boot):
    boot = os.path.abspath(boot)
    with tempfile.TemporaryDirectory() as room:
        os.chdir(room)
        make_image(boot)
        os.replace("image", f"{root}/image")
    disk = begin(root, DISK)
    try:
        boots(root, disk)
        disk.send_signal(signal.SIGTERM)
        wait_until(lambda: has_ended(disk.pid), "SIGTERM ends the disk", lambda: [disk.pid], AT_ONCE)
        check(disk.wait() == 0, "the disk ends with status 0")
    finally:
        disk.kill()
        disk.wait()
    return 0


if __name__ == "__main__":
    if len(sys.argv) != 3:
        sys.exit(__doc__)
    sys.exit(main(os.path.abspath(sys.argv[1]), sys.argv[2]))
