# SPDX-License-Identifier: Apache-2.0
"""QEMU as a process that is asked by its monitor, the example disk as a process over a file, and what else the tries with them share."""
import ctypes
import json
import os
import re
import select
import signal
import socket
import subprocess
import sys

sys.path.insert(0, os.path.join(os.path.dirname(os.path.realpath(__file__)), "../../scripts"))
import patience

# How many seconds may be spent on whatever is waited for, by all processes that run (scripts/patience.py).
LIMIT = 200

# What runs, to be ended at last.
RUNNING = []


def run(words, log, **more):
    """A process that ends with this one, whatever ends that."""

    def follow():
        ctypes.CDLL(None).prctl(1, signal.SIGKILL)

    it = subprocess.Popen(words, stdin=subprocess.DEVNULL, stdout=log, stderr=log, preexec_fn=follow, **more)
    RUNNING.append(it)
    return it


def running():
    return [it.pid for it in RUNNING if it.returncode is None]


def play(tried, *words):
    """Plays a try, which says at last what was not so. What runs is ended by then."""
    try:
        tried(*words)
    except patience.LimitSpent as spent:
        raise SystemExit(str(spent)) from None
    finally:
        for it in RUNNING:
            it.kill()
            it.wait()


def check(holds, what):
    if not holds:
        raise SystemExit(f"not so: {what}")


def tell(text):
    print(text, flush=True)


def wait_until(holds, what, limit=LIMIT):
    patience.wait_until(holds, what, running, limit)


def wait_for_end(process, what):
    """Waits until a process has ended, which it has to do well."""
    wait_until(lambda: process.poll() is not None, f"{what} ends")
    check(process.returncode == 0, f"{what} ended well, and not with status {process.returncode}")


class Stream:
    """What comes from a socket, and is waited for."""

    def __init__(self, connected):
        self.socket, self.waiting = connected, b""

    def send(self, text):
        self.socket.sendall(text.encode() + b"\n")

    def part(self, what):
        """The next bytes."""
        patience.wait_for_input(self.socket, what, running, LIMIT)
        part = self.socket.recv(65536)
        check(part, f"{what}, before the end of the stream")
        return part

    def line(self, what):
        while b"\n" not in self.waiting:
            self.waiting += self.part(what)
        line, _, self.waiting = self.waiting.partition(b"\n")
        return line.decode()

    def close(self):
        self.socket.close()


# -- The disk --


class Disk:
    """The example disk, as a process over the image."""

    def __init__(self, program, name="disk", rings=("2",), **more):
        self.program, self.path, self.rings, self.more = program, f"{name}-{os.getpid()}.socket", rings, more
        self.log = open("disk.log", "ab")
        self.start()

    def start(self):
        # (what is freed is soon given back, so that what it holds can be measured)
        environment = dict(os.environ, ASAN_OPTIONS="quarantine_size_mb=1:thread_local_quarantine_size_kb=16", **self.more)
        self.process = run([self.program, self.path, "image", *self.rings], self.log, env=environment)
        wait_until(self.is_there, "the disk listens", 10)

    def is_there(self):
        check(self.process.poll() is None, "the disk goes on")
        with open("/proc/net/unix", encoding="utf-8") as it:
            return any(line.split()[-1] == self.path for line in it)

    def told(self, name, process=None):
        """What /proc has of it, or of one that it runs under a shell as."""
        with open(f"/proc/{process or self.process.pid}/{name}", encoding="utf-8") as it:
            return it.read()

    def threads(self):
        return [f"task/{it}" for it in os.listdir(f"/proc/{self.process.pid}/task")]

    def is_writing(self):
        """Whether a thread of its pauses before it writes to the file, which is slow, by the numbers of nanosleep."""
        return any(self.told(f"{it}/syscall").split()[0] in ("35", "230") for it in self.threads())

    def is_asleep(self):
        """Whether it has done what it begins with, and waits."""
        return not any(patience.wants_processor(it) for it in patience.family(self.process.pid))

    def is_stopped(self):
        return all(patience.fields_of(f"/proc/{self.process.pid}/{it}")[0] == "T" for it in self.threads())

    def is_stopped_amid_write(self):
        """Stops it, and lets it go on where that was not amid a write."""
        if not self.is_writing():
            return False
        self.process.send_signal(signal.SIGSTOP)
        wait_until(self.is_stopped, "the disk is stopped")
        if self.is_writing():
            return True
        self.process.send_signal(signal.SIGCONT)
        return False

    def kill(self):
        """Kills it amid a write."""
        wait_until(self.is_stopped_amid_write, "the disk writes")
        self.process.kill()
        self.process.wait()

    def mapped(self):
        """How many regions of guest memory it has mapped."""
        maps = [self.told("maps", it) for it in patience.family(self.process.pid)]
        return sum("/memfd:memory-backend-memfd" in line for it in maps for line in it.splitlines())

    def descriptors(self):
        """How many it has, with a shell that it may run under."""
        return sum(len(os.listdir(f"/proc/{it}/fd")) for it in patience.family(self.process.pid))

    def memory(self):
        """How many kilobytes of memory it holds beside the guest's."""
        return int(re.search(r"RssAnon:\s+(\d+)", self.told("status"))[1])

    def end(self):
        """Ends it. Descriptors or memory that it lost would be told by its status."""
        self.process.send_signal(signal.SIGTERM)
        wait_for_end(self.process, "the disk")


# -- QEMU --


def connects_again(seconds):
    """What a socket's words end with by which QEMU connects again after so many seconds: from 9.2 on in milliseconds; 11 knows no other."""
    if not seconds:
        return ""
    said = subprocess.run(["qemu-system-x86_64", "--version"], stdout=subprocess.PIPE, text=True, check=True).stdout
    version = tuple(map(int, re.search(r"version (\d+)\.(\d+)", said).groups()))
    return f",reconnect-ms={1000 * seconds}" if version >= (9, 2) else f",reconnect={seconds}"


class Emulator:
    """QEMU, that is asked by its monitor."""

    def __init__(self, name, accelerator, memory, *words):
        self.name = name
        self.events = []
        size = memory.partition(",")[0]
        machine = ["-machine", f"pc,accel={accelerator},memory-backend=mem", "-m", memory]
        machine += ["-object", f"memory-backend-memfd,id=mem,size={size},share=on", "-display", "none", "-nodefaults", "-no-user-config"]
        monitor = ["-qmp", f"unix:{name}.qmp,server=on,wait=off"]
        with open(f"{name}.log", "wb") as log:
            self.process = run(["qemu-system-x86_64", *machine, *monitor, *words], log)

    def greet(self):
        """Connects to the monitor. Its greeting has QEMU's version; an event that nobody heard may come before it."""
        self.qmp = self.connect(f"{self.name}.qmp")
        said = self.hear_monitor("the monitor greets")
        while "event" in said:
            said = self.hear_monitor("the monitor greets")
        version = said["QMP"]["version"]["qemu"]
        self.version = (version["major"], version["minor"])
        self.ask("qmp_capabilities")

    def connect(self, path):
        it = socket.socket(socket.AF_UNIX)

        def is_connected():
            check(self.process.poll() is None, "the machine goes on")
            try:
                it.connect(path)
            except OSError:
                return False
            return True

        wait_until(is_connected, f"{path} is there", 20)
        return Stream(it)

    def ask(self, command, **arguments):
        """A command of QEMU's monitor."""
        self.qmp.send(json.dumps({"execute": command, "arguments": arguments}))
        while True:
            line = self.hear_monitor(f"the monitor answers {command}")
            if "event" not in line:
                check("return" in line, f"{command}: {line}")
                return line["return"]

    def hear_monitor(self, what):
        line = json.loads(self.qmp.line(what))
        if "event" in line:
            self.events.append(line["event"])
        return line

    def reset(self):
        """Resets the machine, and waits until that is done."""
        self.events.clear()
        self.ask("system_reset")
        while "RESET" not in self.events:
            self.hear_monitor("the machine is reset")

    def quit(self):
        self.ask("quit")
        wait_for_end(self.process, f"the machine {self.name}")


# -- A guest --

# How the first program of a guest ends, a shell: it does the lines that its console is told.
DOES_LINES = """stty -echo
echo "#ready"
while read -r line; do
    eval "$line"
    echo "#status $?"
done
"""


class Shell:
    """That shell, as it is told what to do. It is a process's, which it has as `process`."""

    def __init__(self, name, console):
        self.name, self.console, self.seen = name, console, b""

    def hear(self, pattern):
        """Waits until the console has said this."""
        while True:
            found = re.search(pattern, self.seen)
            if found:
                self.seen = self.seen[found.end() :]
                return found
            part = self.console.part(f"the console of {self.name} says {pattern}")
            self.seen += part
            with open(f"{self.name}.said", "ab") as it:
                it.write(part)

    def begin(self, line):
        self.console.send(line)

    def ended(self):
        """What the line that was begun printed; it has to have succeeded."""
        found = self.hear(rb"(?s)(.*?)#status (\d+)\r?\n")
        check(found[2] == b"0", f"the guest's command succeeds: {found[1].decode()}")
        return found[1].decode().replace("\r", "").strip()

    def do(self, line):
        """What the guest prints for a line of its shell, which has to succeed."""
        self.begin(line)
        return self.ended()

    def power_off(self):
        self.begin("poweroff -f")
        wait_for_end(self.process, f"the machine {self.name}")
        self.console.close()


# -- Migration --


class Passage:
    """What is between two machines as one is migrated to the other: it hands on as much as it is let, while the source waits."""

    PIECE = 1 << 16

    def __init__(self):
        self.listener, self.source, self.target = socket.socket(socket.AF_UNIX), None, socket.socket(socket.AF_UNIX)
        self.listener.bind("migration")
        self.listener.listen(1)

    def hand_on(self, most=1 << 20):
        """Hands on what is there, but no more bytes than that. Whether that was the end."""
        if self.source is None and select.select([self.listener], [], [], 0)[0]:
            self.source = self.listener.accept()[0]
            self.target.connect("arrival")
        while most > 0 and self.source is not None and select.select([self.source], [], [], 0)[0]:
            piece = self.source.recv(min(most, self.PIECE))
            if not piece:
                self.target.shutdown(socket.SHUT_WR)
                return True
            self.target.sendall(piece)
            most -= len(piece)
        return False

    def wait_until(self, holds, what):
        """Waits until something holds, and hands on meanwhile; nothing more once it does."""

        def is_so():
            if holds():
                return True
            self.hand_on()
            return False

        wait_until(is_so, what)

    def finish(self):
        """Hands on all that is left. QEMU's monitor answers nothing while it waits for that."""
        wait_until(self.hand_on, "all is handed on")

    def close(self):
        for it in (self.listener, self.source, self.target):
            it.close()


def migrate(source):
    """Begins a migration. What says whether it is over."""
    source.ask("migrate", uri="unix:migration")

    def is_over():
        state = source.ask("query-migrate")["status"]
        check(state not in ("failed", "cancelled"), "the migration goes on")
        return state == "completed"

    return is_over


def sent(source, what):
    """What the monitor says of the memory that is migrated: how many bytes were transferred, or how often all was looked through."""
    return source.ask("query-migrate").get("ram", {}).get(what, 0)


def wait_running(machine):
    """Waits until a machine that was migrated to runs."""
    wait_until(lambda: machine.ask("query-status")["status"] == "running", "the machine runs")
