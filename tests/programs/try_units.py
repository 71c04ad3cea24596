#!/usr/bin/env python3
# SPDX-License-Identifier: Apache-2.0
"""The units of systemd that 'make install' puts in place, as a service of that systemd (tests/systemd.sh):

    try_units.py TREE    in an empty folder, as root; TREE is this checkout

The units are sound. A device starts as the first frontend connects to its socket, is ready once it says so, shut in as its unit says, serves a guest,
and ends well; the next frontend starts it again. Status 0; 1 where one of that is not so, which the last line says.
"""
import os
import struct
import subprocess
import sys

sys.path.insert(0, os.path.join(sys.argv[1], "c/tests"))

from disk_attacks import DATA, GET_FEATURES, SECTOR, SECTORS, STATUS, WRITTEN, Disk, Frontend, check, working  # noqa: E402

READ_ONLY = 1 << 5
REFUSED = 1  # a status of a request
CONFIGURED = "/etc/covretin"


def systemctl(*words):
    return subprocess.run(["systemctl", "--no-pager", *words], stdout=subprocess.PIPE, text=True, check=True).stdout.rstrip("\n")


class Service(Disk):
    """A device that systemd starts, once its socket is connected to."""

    def __init__(self, device, name):
        self.unit, self.path = f"{device}@{name}.service", f"/run/{device}/{name}.sock"
        self.image = f"/var/lib/{device}/{name}/disk.raw"
        self.socket_unit, self.began = f"{device}@{name}.socket", None
        systemctl("start", self.socket_unit)
        check(self.shows("ActiveState") == "inactive", f"{self.unit} waits for a frontend")

    def shows(self, what):
        return systemctl("show", "--property", what, "--value", self.unit)

    def process(self):
        return f"/proc/{self.shows('MainPID')}"

    def stat(self):
        """As of a process that sleeps, until there is one. systemd starts it again where it fails, since the frontend waits still."""
        process = self.shows("MainPID")
        if process == "0":
            return "S", 0
        self.began = self.began or process
        check(process == self.began, f"{self.unit} does not fail")
        with open(f"{self.process()}/stat", encoding="ascii") as it:
            words = it.read().rpartition(")")[2].split()
        return words[0], (int(words[11]) + int(words[12])) / os.sysconf("SC_CLK_TCK")

    def is_ready(self):
        self.wait_until(lambda: self.shows("ActiveState") == "active", "it says that it is ready")

    def is_shut_in(self):
        """By what its unit says: no user of the machine's, no capability, a filter, a network of its own, and a root that nobody writes to."""
        with open(f"{self.process()}/status", encoding="ascii") as it:
            status = dict(line.rstrip("\n").split(":\t", 1) for line in it if ":\t" in line)
        check(status["Uid"].split()[0] != "0" and status["Seccomp"] == "2" and status["NoNewPrivs"] == "1", f"{self.unit}: {status}")
        check(int(status["CapEff"], 16) == int(status["CapBnd"], 16) == 0, f"{self.unit} has no capabilities")
        check(os.readlink(f"{self.process()}/ns/net") != os.readlink("/proc/self/ns/net"), f"{self.unit} has a network of its own")
        with open(f"{self.process()}/mounts", encoding="utf-8") as it:
            check(any(words[1] == "/" and "ro" in words[3].split(",") for words in map(str.split, it)), f"{self.unit} writes to no system")

    def ends(self):
        """As it is told to, with the status of who was; its socket stays."""
        systemctl("stop", "--quiet", self.unit)
        self.began = None
        check((self.shows("Result"), self.shows("ExecMainStatus"), self.shows("ExecMainCode")) == ("success", "0", "1"), f"{self.unit} ended well")
        check(systemctl("is-active", self.socket_unit) == "active", "it can be connected to again")


def make_image(name):
    """A disk's file, where the man page says that it is."""
    os.makedirs(f"/var/lib/covretin-blk/{name}")
    with open(f"/var/lib/covretin-blk/{name}/disk.raw", "wb") as it:
        it.write(os.urandom(SECTOR * SECTORS))


def writes(guest, sector):
    """The status of a request to write a sector."""
    guest.memory[DATA : DATA + SECTOR] = b"u" * SECTOR
    guest.offer(sector, WRITTEN)
    guest.frontend.disk.wait_until(guest.is_used, "the write is used")
    return guest.memory[STATUS]


def units_are_sound():
    names = [f"covretin-{device}@one.{kind}" for device in ("blk", "rng", "console") for kind in ("service", "socket")]
    said = subprocess.run(["systemd-analyze", "verify", "--man=no", *names], stdout=subprocess.PIPE, stderr=subprocess.STDOUT, text=True, check=False)
    wrong = [line for line in said.stdout.splitlines() if "covretin" in line]
    check(said.returncode == 0 and not wrong, f"the units are sound: {wrong}")


def disk_serves():
    make_image("one")
    disk = Service("covretin-blk", "one")
    for sector in (5, 6):  # the second one starts it again
        guest = working(disk)
        disk.is_ready()
        disk.is_shut_in()
        check(writes(guest, sector) == 0, "a sector is written")
        guest.read(sector)
        guest.close()
        disk.ends()


def disk_takes_other_options():
    make_image("two")
    os.makedirs(CONFIGURED)
    with open(f"{CONFIGURED}/covretin-blk-two.conf", "w", encoding="ascii") as it:
        it.write("OPTIONS=--blk-file=/var/lib/covretin-blk/two/disk.raw --read-only\n")
    disk = Service("covretin-blk", "two")
    guest = working(disk)
    check(struct.unpack("<Q", guest.frontend.ask(GET_FEATURES))[0] & READ_ONLY and writes(guest, 5) == REFUSED, "it is read only, as it was told")
    guest.close()
    disk.ends()


def others_serve():
    for device in ("covretin-rng", "covretin-console"):
        service = Service(device, "one")
        frontend = Frontend(service)
        check(len(frontend.ask(GET_FEATURES)) == 8, f"{device} replies")
        service.is_ready()
        service.is_shut_in()
        check(device == "covretin-rng" or os.path.exists("/var/lib/covretin-console/one/console.sock"), "the console's socket is there")
        frontend.close()
        service.ends()


def main():
    for test in (units_are_sound, disk_serves, disk_takes_other_options, others_serve):
        test()
        print(f"{test.__name__}: ok", flush=True)


main()
