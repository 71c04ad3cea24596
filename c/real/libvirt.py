# SPDX-License-Identifier: Apache-2.0
"""libvirt over the devices that people run: its program virt-qemu-run, which needs no daemon.

    libvirt.py TRY PLACE BOOT    in an empty folder: PLACE is where make install has put the programs, as if it were /, BOOT the sector of boot.S

Prints what is done. Status 0 where all was as it has to be; 1 where something was not, which the last line says. What runs is ended by then.
"""
import glob
import os
import pwd
import shutil
import signal
import socket
import sys

from emulator import RUNNING, Shell, Stream, check, play, run, tell, wait_for_end, wait_until
from machine import SECTOR, make_image

NOBODY = 65534

DOMAIN = """<domain type='qemu'>
  <name>covretin</name>
  <memory unit='MiB'>256</memory>
  <memoryBacking><source type='memfd'/><access mode='shared'/></memoryBacking>
  <os><type arch='x86_64' machine='pc'>hvm</type></os>
  <features><acpi/></features>
  <devices>
    <emulator>EMULATOR</emulator>
    DEVICES
    <memballoon model='none'/>
  </devices>
</domain>
"""

DISK = """<disk type='vhostuser' device='disk'>
      <driver name='qemu' type='raw'/>
      <source type='unix' path='HERE/disk.socket'/>
      <target dev='vda' bus='virtio'/>
      <boot order='1'/>
    </disk>
    <serial type='unix'><source mode='connect' path='HERE/console'/><target port='0'/></serial>"""

DISPLAY = "<video><driver name='vhostuser'/><model type='virtio'/></video>"


class Started:
    """QEMU, which libvirt started: no child of this process."""

    def __init__(self):
        with open("state/run/qemu/covretin.pid", encoding="ascii") as it:
            self.pid = int(it.read())
        RUNNING.append(self)

    @property
    def returncode(self):
        return None if os.path.exists(f"/proc/{self.pid}") else 0

    def kill(self):
        if self.returncode is None:
            os.kill(self.pid, signal.SIGKILL)

    def wait(self):
        """(its parent does that)"""


def domain(devices, user):
    with open("domain.xml", "w", encoding="ascii") as it:
        it.write(DOMAIN.replace("EMULATOR", shutil.which("qemu-system-x86_64")).replace("DEVICES", devices).replace("HERE", os.getcwd()))
    os.makedirs("state/etc")
    with open("state/etc/qemu.conf", "w", encoding="ascii") as it:
        it.write('stdio_handler = "file"\nsecurity_driver = "none"\ncgroup_controllers = [ ]\nnamespaces = [ ]\n')
        if user == 0:  # else libvirt gives QEMU to a user of its own, who may not come here
            it.write('user = "root"\ngroup = "root"\n')


def begin(*before, **more):
    """libvirt, which starts the domain."""
    with open("libvirt.log", "wb") as log:
        return run([*before, "virt-qemu-run", "-v", "-r", f"{os.getcwd()}/state", "domain.xml"], log, **more)


# What libvirt says where a try cannot be, and why that is so.
CANNOT = {
    "Failed to parse user": "the user of libvirt's QEMU is missing, whom the package libvirt-daemon-system makes",  # looked up before it reads of another
    "Failed to probe capabilities": "this libvirt cannot ask this QEMU what it has, as 9.0 cannot ask QEMU 10 or 11",
}


def said_of(libvirt, words):
    """What libvirt has said, once that has these words."""

    def said():
        text = ""
        for path in filter(os.path.exists, ("libvirt.log", "home/log")):
            with open(path, encoding="utf-8") as it:
                text += it.read()
        return text

    wait_until(lambda: words in said() or libvirt.poll() is not None, f"libvirt says {words}")
    for told, why in CANNOT.items():
        if told in said():
            tell(why)
            raise SystemExit(4)
    check(words in said(), f"libvirt says {words}: {said()[-300:]}")


def as_nobody():
    """The words before a program that root starts, whose own descriptor files would be those of the system. The folder is nobody's then."""
    if os.getuid() != 0:
        return []
    for at, _, names in os.walk("."):
        for name in (".", *names):
            os.chown(os.path.join(at, name), NOBODY, NOBODY)
    return ["setpriv", f"--reuid={NOBODY}", f"--regid={NOBODY}", "--clear-groups"]


ACCOUNTS = {"passwd": "libvirt-qemu:x:64055:64055::/:/usr/sbin/nologin", "group": "libvirt-qemu:x:64055:"}


def with_its_user():
    """The words before libvirt. As root it ends where there is no user of this name, whoever is to have QEMU, and a package that is not needed here
    makes him. So it sees one more line of two files."""
    if os.getuid() != 0 or any(it.pw_name == "libvirt-qemu" for it in pwd.getpwall()):
        return []
    for name, line in ACCOUNTS.items():
        with open(f"/etc/{name}", encoding="utf-8") as had, open(name, "w", encoding="utf-8") as it:
            it.write(f"{had.read()}{line}\n")
    return ["unshare", "--mount", "sh", "-c", 'mount --bind passwd /etc/passwd && mount --bind group /etc/group && exec "$@"', "sh"]


# -- The tries --


def tried_disk(place, boot):
    """A domain with a disk over vhost-user: Linux boots from covretin-blk, writes, and powers off."""
    make_image(boot)
    domain(DISK, os.getuid())
    with open("disk.log", "wb") as log:
        disk = run([f"{place}/usr/bin/covretin-blk", "--socket-path=disk.socket", "--blk-file=image"], log)
    wait_until(lambda: os.path.exists("disk.socket"), "the disk listens", 10)
    with socket.socket(socket.AF_UNIX) as listener:
        listener.bind("console")
        listener.listen()
        libvirt = begin(*with_its_user())
        said_of(libvirt, "guest running")
        emulator = Started()
        machine = Shell("machine", Stream(listener.accept()[0]))
    machine.hear(rb"#ready\r?\n")
    check(machine.do("cat /sys/block/vda/size") == str(os.path.getsize("image") // SECTOR), "the disk has the image's size")
    machine.do("mount -t ext4 /dev/vda1 /mnt && seq 1000 >/mnt/numbers && umount /mnt")
    machine.begin("poweroff -f")
    wait_until(lambda: emulator.returncode == 0, "QEMU ends")
    libvirt.terminate()  # which 9.0 waits for, whatever its page says
    wait_for_end(libvirt, "libvirt")
    with open("image", "rb") as it:
        check("".join(f"{number}\n" for number in range(1, 1001)).encode() in it.read(), "what the guest wrote is in the image")
    disk.terminate()
    wait_for_end(disk, "the disk")


def tried_descriptors(place, _):
    """libvirt reads each descriptor file that is installed, as it looks for a program for a display, which none of these is."""
    home = f"{os.getcwd()}/home"
    shutil.copytree(f"{place}/usr/share/qemu/vhost-user", f"{home}/qemu/vhost-user")
    domain(DISPLAY, NOBODY)
    names = {name: home for name in ("HOME", "XDG_CONFIG_HOME", "XDG_CACHE_HOME", "XDG_RUNTIME_DIR")}
    more = dict(os.environ, **names, LIBVIRT_LOG_FILTERS="1:qemu", LIBVIRT_LOG_OUTPUTS=f"1:file:{home}/log")
    said_of(begin(*as_nobody(), env=more), "Unable to find a satisfying vhost-user-gpu")
    with open(f"{home}/log", encoding="utf-8") as it:
        read = it.read()
    types = {"blk": "block", "console": "console", "net": "net", "rng": "rng"}
    check(len(glob.glob(f"{home}/qemu/vhost-user/*")) == len(types), "there is a file for each device")
    for name, kind in types.items():
        path = f"vhost-user description path '{home}/qemu/vhost-user/50-covretin-{name}.json'"
        check(f"{path} type : {kind}\n" in read and f"{path} binary : /usr/bin/covretin-{name}\n" in read, f"libvirt reads that of {name}")
    tell(f"libvirt read {len(types)} files")


def main():
    tries = {name.removeprefix("tried_"): it for name, it in globals().items() if name.startswith("tried_")}
    if len(sys.argv) != 4 or sys.argv[1] not in tries:
        raise SystemExit(f"usage: libvirt.py {'|'.join(tries)} PLACE BOOT")
    try:
        play(tries[sys.argv[1]], *sys.argv[2:])
    finally:
        for it in ("image", "first.cpio"):
            if os.path.exists(it):
                os.remove(it)


main()
