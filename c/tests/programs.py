"""The devices that people run, by QEMU's conventions for backend programs: programs.py FOLDER [WORD..], in an empty folder. FOLDER has the
compiled programs of c/tools/, covretin-blk_stuck, a disk whose writes wait, and covretin-blk_coarse, one whose file has large blocks. The tests are all, or those whose names have one of these words.

Each test has processes of its own. One that is told to end may sleep for a tenth of a second, and is not judged by the clock: a machine that
has no time for it does not count. Prints a line for each; status 0 where all passed, else 1.
"""

import ctypes
import fcntl
import json
import os
import re
import select
import shutil
import signal
import socket
import struct
import subprocess
import sys
import time

from backend_schema import wrong_capabilities
from disk_attacks import ACCEPTED, DATA, GET_FEATURES, GET_PROTOCOL_FEATURES, GET_VRING_BASE, HEADER, NEED_REPLY, NEXT, REQUEST, SET_MEM_TABLE, VERSION
from disk_attacks import POSTCOPY_ADVISE, READ, SECTOR, SECTORS, SET_VRING_ADDR, SET_VRING_BASE, SET_VRING_CALL, SET_VRING_ENABLE, SET_VRING_KICK
from disk_attacks import SET_FEATURES, SET_PROTOCOL_FEATURES, SET_VRING_NUM, SIZE, STATUS, USER, WRITE, WRITTEN, Disk, Frontend, Guest, check, made_event, made_memory
from disk_attacks import working

FOLDER = os.path.abspath(sys.argv[1])
DEVICES = ["covretin-blk", "covretin-rng", "covretin-net", "covretin-console"]
NEEDED = {"covretin-blk": ["--blk-file=file"], "covretin-net": ["--local=near", "--remote=far"], "covretin-console": ["--console=near"]}
READ_ONLY = 1 << 5
GET_ID = 8
GET_CONFIG = 24
RARP = 1 << 2
CONFIG = 1 << 9
REM_MEM_REG = 38
MOST_SLEEPS = 100  # of a millisecond each
RUNNING = []


def path_of(program):
    return os.path.join(FOLDER, program)


def ran(program, *words, **more):
    """The status of a program that ends by itself, and what it printed."""
    done = subprocess.run([path_of(program), *words], capture_output=True, text=True, timeout=600, **more)
    return done.returncode, done.stdout, done.stderr


class Program(Disk):
    """A disk that is started as the test says: by a socket's path, unless the words name a socket."""

    def __init__(self, *words, name="covretin-blk", path="program.socket", passes=(), before=None):
        self.path, self.image, self.words = path, "program.image", words
        self.name, self.passes, self.before = name, passes, before
        if not os.path.exists(self.image):
            with open(self.image, "wb") as it:
                it.write(os.urandom(SECTOR * SECTORS))
        self.said = open(f"{path}.said", "wb")
        RUNNING.append(self)
        self.start()

    def start(self):
        socket_words = () if self.passes else (f"--socket-path={self.path}",)
        words = [path_of(self.name), *self.words, *socket_words]
        words += [f"--blk-file={self.image}"] if self.name.startswith("covretin-blk") else []
        self.process = subprocess.Popen(
            words, stdin=subprocess.DEVNULL, stdout=self.said, stderr=self.said, pass_fds=self.passes, preexec_fn=self.before
        )
        if not self.passes:
            self.wait_until(self.listens, "it listens")

    def ends_by(self, number, status=0):
        """It ends soon after a signal, with this status."""
        slept = 0
        self.process.send_signal(number)
        while self.stat()[0] != "Z":
            slept += self.stat()[0] == "S"
            check(slept < MOST_SLEEPS, "it sleeps on after it was told to end")
            time.sleep(0.001)
        check(self.process.wait() == status, f"its status is {status}, and not {self.process.returncode}")

    def fds(self):
        return len(os.listdir(f"/proc/{self.process.pid}/fd"))

    def ends_by_itself(self, status):
        self.wait_until(lambda: self.stat()[0] == "Z", "it ends")
        check(self.process.wait() == status, f"its status is {status}, and not {self.process.returncode}")

    def tells(self):
        with open(f"{self.path}.said", encoding="utf-8") as it:
            return it.read()


class Connected(Frontend):
    """A frontend whose socket is connected already."""

    def __init__(self, disk, end):
        self.disk, self.socket, self.fds = disk, end, []


def listening(path):
    it = socket.socket(socket.AF_UNIX)
    it.bind(path)
    it.listen(5)
    return it


# -- The conventions --


def capabilities_are_of_the_schema():
    for device in DEVICES:
        status, said, wrong = ran(device, "--nonsense", "--print-capabilities", "--fd=1")
        it = json.loads(said)
        check(status == 0 and wrong == "", f"{device} prints them")
        check(wrong_capabilities(it) is None, f"{device}: {wrong_capabilities(it)}")
    check(set(json.loads(ran("covretin-blk", "--print-capabilities")[1])["features"]) == {"read-only", "blk-file"}, "the disk's are all")


WRONG = [
    "", "--socket-path", "--socket-path=", "--socket-path=here --fd=7", "--fd=2", "--fd=x", "--fd=-1", "--fd=7x", "--nonsense", "nonsense",
    "--socket-path=here --help=1", "--version=1", "-x", "--calls-by-pipe=1", "--socket-path=here --metrics=",
]
WRONG_DISK = [
    "--socket-path=here", "--socket-path=here --blk-file", "--socket-path=here --blk-file=", "--socket-path=here --blk-file=f --read-only=1",
    "--socket-path=here --blk-file=f --num-queues=0", "--socket-path=here --blk-file=f --num-queues=9",
    "--socket-path=here --blk-file=f --queue-size=3", "--socket-path=here --blk-file=f --queue-size=1025",
    "--socket-path=here --blk-file=f --serial=123456789012345678901", "--socket-path=here --blk-file=f --busy-poll-us=1000001",
    "--socket-path=here --blk-file=f --io=aio", "--socket-path=here --blk-file=f --cache=unsafe",
]


WRONG_CARD = [
    "--socket-path=here", "--socket-path=here --local=near", "--socket-path=here --remote=far", "--socket-path=here --tap=" + 16 * "x",
    "--socket-path=here --tap=t --local=near --remote=far", "--socket-path=here --local=near --remote=far --mac=52:54:00:12:34",
    "--socket-path=here --local=near --remote=far --mac=53:54:00:12:34:56", "--socket-path=here --local=near --remote=far --mac=0:0:0:0:0:0",
    "--socket-path=here --local=near --remote=" + 108 * "x",
]


WRONG_CONSOLE = [
    "--socket-path=here", "--socket-path=here --pty=", "--socket-path=here --console=", "--socket-path=here --pty=t --console=near",
    "--socket-path=here --console=" + 108 * "x",
]


def wrong_arguments_are_status_2():
    cases = [(device, words) for device in DEVICES for words in WRONG] + [("covretin-blk", words) for words in WRONG_DISK]
    cases += [("covretin-net", words) for words in WRONG_CARD] + [("covretin-console", words) for words in WRONG_CONSOLE]
    for device, words in cases:
        status, said, wrong = ran(device, *words.split())
        check(status == 2 and said == "" and wrong.startswith(f"{device}: "), f"{device} {words}: status {status}, {wrong}")
    check(not os.path.exists("here"), "nothing was listened at")


def what_fails_is_status_4():
    with open("file", "wb") as it:
        it.write(bytes(SECTOR))
    for words in ["--socket-path=none/here", "--fd=77", "--socket-path=file", "--socket-path=" + 200 * "x"]:
        for device in DEVICES:
            status, _, wrong = ran(device, *words.split(), *NEEDED.get(device, []))
            check(status == 4 and wrong.startswith(f"{device}: "), f"{device} {words}: status {status}, {wrong}")
    status, _, wrong = ran("covretin-blk", "--socket-path=here", "--blk-file=missing")
    check(status == 4 and "missing: No such file" in wrong, f"there is no file: {wrong}")
    for words in ["--pty=file", "--pty=none/here", "--console=file", "--console=none/here"]:
        status, _, wrong = ran("covretin-console", "--socket-path=here", words)
        check(status == 4 and words.partition("=")[2] in wrong, f"covretin-console {words}: status {status}, {wrong}")
    with open("file", "rb") as it:
        status, _, wrong = ran("covretin-blk", f"--fd={it.fileno()}", "--blk-file=file", pass_fds=[it.fileno()])
    check(status == 4 and "descriptor" in wrong, f"a file is no socket: {wrong}")


def help_names_each_option():
    for device in DEVICES:
        status, said, _ = ran(device, "--help")
        check(status == 0 and all(f"--{word}" in said for word in ("socket-path", "fd", "print-capabilities", "metrics")), f"{device} says them")
        check(ran(device, "--version")[1].startswith(f"{device} "), f"{device} has a version")


def serves_at_a_path():
    disk = Program()
    for _ in range(2):
        working(disk).close()
    disk.ends_by(signal.SIGTERM)
    check(not os.path.exists(disk.path), "its path is gone")


def leaves_descriptors_and_process_alone():
    pipes = [os.pipe() for _ in range(3)]
    def own():
        os.dup2(pipes[0][0], 0)
        os.dup2(pipes[1][1], 1)
        os.dup2(pipes[2][1], 2)
    disk = Program(before=own)
    here = f"/proc/{disk.process.pid}/fd"
    had = [os.readlink(f"{here}/{number}") for number in range(3)]
    working(disk).close()
    check([os.readlink(f"{here}/{number}") for number in range(3)] == had, "descriptors 0 to 2 are as they were")
    check(had[0] == os.readlink(f"/proc/self/fd/{pipes[0][0]}"), "and were what it was given")
    check(os.getpgid(disk.process.pid) == os.getpgid(0), "it left no session and no group")
    disk.ends_by(signal.SIGINT)
    for pipe in pipes:
        os.close(pipe[0])
        os.close(pipe[1])


def serves_a_socket_that_listens():
    with listening("program.socket") as it:
        disk = Program(f"--fd={it.fileno()}", passes=[it.fileno()])
        it.close()
        had = disk.has()
        for _ in range(2):
            working(disk).close()
        check(disk.has() == had, "it has as many descriptors as before")
    disk.ends_by(signal.SIGTERM)
    check(os.path.exists("program.socket"), "the path of another stays")
    os.unlink("program.socket")


def serves_a_socket_that_is_connected():
    ours, theirs = socket.socketpair()
    disk = Program(f"--fd={theirs.fileno()}", passes=[theirs.fileno()])
    theirs.close()
    frontend = Connected(disk, ours)
    check(len(frontend.ask(GET_FEATURES)) == 8, "it replies")
    frontend.close()
    disk.ends_by_itself(0)


def a_message_that_is_none_is_status_1():
    ours, theirs = socket.socketpair()
    disk = Program(f"--fd={theirs.fileno()}", passes=[theirs.fileno()])
    theirs.close()
    ours.send(struct.pack("<III", 1, 3, 0))
    disk.ends_by_itself(1)
    check("descriptor" in disk.tells(), "it says so")
    ours.close()


def ends_while_connected():
    disk = Program()
    guest = working(disk)
    disk.ends_by(signal.SIGTERM)
    check(guest.frontend.is_hung_up_on(), "its frontend is hung up on")
    guest.close()


def ends_while_a_request_waits():
    disk = Program(name="covretin-blk_stuck")
    guest = working(disk)
    guest.memory[DATA : DATA + SECTOR] = b"w" * SECTOR
    guest.offer(5, WRITTEN)
    disk.wait_until(lambda: "a write waits" in disk.tells(), "it writes")
    disk.ends_by(signal.SIGTERM)
    check(not guest.is_used(), "the guest is not told that the request is done")
    guest.close()


# -- Why --


def sends_table(frontend, file, size):
    return frontend.acknowledged(SET_MEM_TABLE, struct.pack("<II4Q", 1, 0, 0, size, USER, 0), [file])


def says(disk, line):
    disk.wait_until(lambda: f"covretin-blk: {line}\n" in disk.tells(), f"it says: {line}")


def refusals_say_why():
    disk = Program("--log=info")
    had = disk.has()
    frontend = Frontend(disk)
    small = made_memory(4096)
    check(sends_table(frontend, small, 65536) is False, "a region beyond its file is refused")
    says(disk, "SET_MEM_TABLE refused: region 0 is 65536 bytes at 0 of its file, which has 4096")
    with open("/dev/zero", "rb") as it:
        check(sends_table(frontend, it.fileno(), 4096) is False, "a file that is none of memory is refused")
    says(disk, "SET_MEM_TABLE refused: region 0 is no memory file (memfd, tmpfs, hugetlbfs)")
    frontend.close()
    for flags, line in ((VERSION + 1, "its version is 2, and not 1"), (VERSION | 16, "its flags are 0x11, of which bits are reserved")):
        ended_by(Frontend(disk), HEADER.pack(SET_FEATURES, flags, 0))
        says(disk, f"SET_FEATURES refused: {line}")
    says(disk, "this device ended the session, at SET_FEATURES: invalid message")
    os.close(small)
    guest = working(disk)
    guest.offer(3)
    guest.close()
    says(disk, "the frontend ended the session; its last request was SET_VRING_KICK")
    check(disk.has() == had, "it has as many descriptors as before")
    disk.ends_by(signal.SIGTERM)


REASONS = os.path.join(os.path.dirname(os.path.abspath(__file__)), "../../rust/tests/expected/reasons.tsv")


def each_refusal_says_what_was_wanted_and_what_came():
    with open(REASONS, encoding="utf-8") as it:
        rows = [line.rstrip("\n").split("\t") for line in it][1:]
    for code, body, count, said in rows:
        disk = Program()  # (few lines come in a second)
        frontend = Frontend(disk)
        files = [made_memory(4096) for _ in range(int(count))]
        frontend.send(int(code), b"" if body == "-" else bytes.fromhex(body), files, VERSION | NEED_REPLY)
        says(disk, said)
        check("/" not in disk.tells(), "no path is named")
        for it in (*files, frontend.socket.detach()):
            os.close(it)
        disk.ends_by(signal.SIGTERM)
    check(len(rows) > 15, "there are rows")


def ended_by(frontend, bytes_sent):
    """The device hangs up on who sends these."""
    frontend.socket.sendall(bytes_sent)
    frontend.disk.wait_until(frontend.is_hung_up_on, "it hangs up")
    frontend.close()


def a_message_that_is_cut_short_is_no_refusal():
    disk = Program("--log=info")
    for sent, line in (
        (HEADER.pack(SET_FEATURES, VERSION, 8) + b"1234", "the session ended: the frontend sent no whole message, at SET_FEATURES"),
        (HEADER.pack(SET_FEATURES, VERSION, 8)[:7], "the session ended: the frontend went amid a header, after SET_FEATURES"),
    ):
        frontend = Frontend(disk)
        frontend.socket.sendall(sent)
        frontend.close()
        says(disk, line)
    disk.ends_by(signal.SIGTERM)
    check("SET_FEATURES refused" not in disk.tells(), "nothing was refused")


def a_broken_queue_says_its_rule():
    disk = Program()
    guest = Guest(disk)
    check(guest.start(), "the ring starts")
    guest.describe(0, REQUEST, 16, NEXT, 0)
    guest.offers_head(0)
    says(disk, "queue 0 is broken by its driver: a chain is a loop, or has more descriptors than it may")
    guest.close()
    disk.ends_by(signal.SIGTERM)


def a_flood_of_refusals_is_cut_short():
    disk = Program()
    frontend = Frontend(disk)
    for _ in range(100):
        frontend.socket.sendall(20 * HEADER.pack(REM_MEM_REG, VERSION, 0))
    frontend.close()
    disk.has()
    lines = disk.tells().count("REM_MEM_REG refused: ")
    check(0 < lines < 2000, f"{lines} of 2000 lines come")
    disk.ends_by(signal.SIGTERM)


def nobody_has_to_listen():
    disk = Program("--log=none")
    frontend = Frontend(disk)
    check(not frontend.acknowledged(SET_VRING_NUM, struct.pack("<II", 99, 1)), "a ring that is not there is refused")
    frontend.close()
    disk.has()
    check("refused" not in disk.tells(), "nothing is said")
    disk.ends_by(signal.SIGTERM)


def counts_are_printed_at_a_signal():
    disk = Program("--log=none")
    guest = working(disk)
    guest.read(5)
    guest.frontend.acknowledged(SET_VRING_NUM, struct.pack("<II", 99, 1))
    disk.process.send_signal(signal.SIGUSR1)
    # (of the sessions one looked whether it listens; of a request a header, a sector and a status)
    wanted = rf"sessions \d+, requests 2, bytes {2 * (16 + SECTOR + 1)}, kicks [0-9]+, calls 2, refusals 1, longest turn [1-9]\d* microseconds\n"
    disk.wait_until(lambda: re.search(wanted, disk.tells()), "it prints what it counted")
    guest.close()
    disk.ends_by(signal.SIGTERM)


# -- Counts for Prometheus --

REQUEST_OF_PROMETHEUS = b"GET /metrics HTTP/1.1\r\nHost: device\r\nAccept: */*\r\n\r\n"
EACH_COUNT = {"sessions_total", "requests_total", "bytes_total", "kicks_total", "calls_total", "refusals_total", "longest_turn_seconds"}


def parsed(answer):
    """The counts of an answer, whose head says how long it is and of what form, and each of which is described before."""
    head, _, text = answer.partition("\r\n\r\n")
    check(head.startswith("HTTP/1.0 200 OK\r\n") and "Content-Type: text/plain; version=0.0.4" in head, f"a head of HTTP: {head}")
    check(f"Content-Length: {len(text)}" in head.split("\r\n"), "it says how long the text is")
    kinds = dict(re.findall(r"^# TYPE covretin_(\w+) (counter|gauge)$", text, re.M))
    counts = dict(re.findall(r"^covretin_(\w+) ([0-9.]+)$", text, re.M))
    check(set(counts) == EACH_COUNT and set(kinds) == EACH_COUNT | {"info"}, f"each has a type: {text}")
    check(all((kinds[name] == "counter") == name.endswith("_total") and f"# HELP covretin_{name} " in text for name in counts), "of its form")
    return {name: float(value) for name, value in counts.items()}


def answer_to(disk, said):
    """What a reader gets who says this, and then no more."""
    with socket.socket(socket.AF_UNIX) as it:
        it.connect("metrics.socket")
        it.sendall(said)
        if not said:
            it.shutdown(socket.SHUT_WR)
        data = b""
        while True:
            disk.wait_until(lambda: select.select([it], [], [], 0)[0], "it answers")
            part = it.recv(65536)
            if not part:
                return parsed(data.decode())
            data += part


def printed(disk):
    """What it prints at SIGUSR1, as it tells it at its socket."""
    before = disk.tells().count("longest turn")
    disk.process.send_signal(signal.SIGUSR1)
    disk.wait_until(lambda: disk.tells().count("longest turn") > before and disk.tells().endswith("\n"), "it prints what it counted")
    line = disk.tells().rstrip("\n").rpartition("\n")[2]
    return {f"{name}_total": float(count) for name, count in re.findall(r"(\w+) (\d+),", line)}


def counts_are_told_at_a_socket():
    disk = Program("--log=none", "--metrics=metrics.socket")
    had = disk.has()  # (a session, beside the one that looked whether it listens)
    before = answer_to(disk, REQUEST_OF_PROMETHEUS)
    check(before["requests_total"] == before["bytes_total"] == before["refusals_total"] == 0, f"no guest was there: {before}")
    guest = working(disk)
    guest.read(5)
    guest.frontend.acknowledged(SET_VRING_NUM, struct.pack("<II", 99, 1))
    guest.frontend.ask(GET_FEATURES)
    during = answer_to(disk, b"\n")
    check(during["sessions_total"] == before["sessions_total"] + 1, f"one came: {before}, {during}")
    check((during["requests_total"], during["bytes_total"], during["refusals_total"]) == (2, 2 * (16 + SECTOR + 1), 1), f"it was served: {during}")
    check(during["calls_total"] == 2 and 0 < during["longest_turn_seconds"] < 1000, f"and called: {during}")
    check(printed(disk) == {name: count for name, count in during.items() if name.endswith("_total")}, "SIGUSR1 prints the same")
    guest.close()
    guest = working(disk)
    guest.close()
    check(disk.has() == had, "it has as many descriptors as before")
    after = answer_to(disk, b"")
    check(after["sessions_total"] == during["sessions_total"] + 2 and after["requests_total"] == 3, f"counts go on with the next: {after}")
    check(all(after[name] >= during[name] for name in after), "no counter goes back")
    disk.ends_by(signal.SIGTERM)
    check(not os.path.exists("metrics.socket"), "the socket is gone")


def counts_are_read_by_curl_and_socat():
    disk = Program("--metrics=metrics.socket")
    commands = [["curl", "--silent", "--include", "--unix-socket", "metrics.socket", "http://device/metrics"], ["socat", "-", "UNIX-CONNECT:metrics.socket"]]
    for words in commands:
        if shutil.which(words[0]) is None:
            print(f"{words[0]} reads no metrics: left out: it is not there")
            continue
        for typed in ("\n", ""):
            done = subprocess.run(words, input=typed.encode(), capture_output=True, timeout=600, check=True)
            check(parsed(done.stdout.decode())["requests_total"] == 0, f"{words[0]} reads it")
    disk.ends_by(signal.SIGTERM)


def readers_of_counts_delay_nobody():
    disk = Program("--log=none", "--metrics=metrics.socket")
    had = disk.fds()
    readers = []
    for number in range(60):  # who never reads, and of whom every other one asks for nothing either, or goes on with that
        it = socket.socket(socket.AF_UNIX)
        it.connect("metrics.socket")
        it.setblocking(False)
        try:
            it.sendall([b"", REQUEST_OF_PROMETHEUS, bytes(1 << 20)][number % 3])
        except (BlockingIOError, BrokenPipeError, ConnectionResetError):
            pass
        readers.append(it)
    guest = working(disk)
    guest.read(5)
    check(answer_to(disk, REQUEST_OF_PROMETHEUS)["requests_total"] == 2, "another one is answered")
    guest.close()
    disk.has()
    # (what the guest gave is closed as its session ends)
    disk.wait_until(lambda: disk.fds() <= had + 16 + 1, "no more than some of them are kept")
    while readers:
        readers.pop().close()
    disk.wait_until(lambda: disk.fds() <= had, "none is kept who went")
    for _ in range(20):
        readers.append(socket.socket(socket.AF_UNIX))
        readers[-1].connect("metrics.socket")
    disk.ends_by(signal.SIGTERM)
    for it in readers:
        it.close()


def a_socket_for_counts_that_cannot_be_had_is_status_4():
    with open("file", "wb") as it:
        it.write(bytes(SECTOR))
    for device in DEVICES:
        status, _, wrong = ran(device, "--socket-path=here", "--metrics=none/here", *NEEDED.get(device, []))
        check(status == 4 and "none/here" in wrong and not os.path.exists("here"), f"{device}: status {status}, {wrong}")


def pipes_are_signalled_where_that_is_asked_for():
    for words in ((), ("--calls-by-pipe",)):
        disk = Program(*words)
        end, call = os.pipe()
        frontend = Frontend(disk)
        check(frontend.acknowledged(SET_VRING_CALL, struct.pack("<Q", 0), [call]) == bool(words), f"{words}: a pipe is taken or not")
        frontend.close()
        if words:
            guest = working(disk, call=call)
            disk.wait_until(lambda: select.select([end], [], [], 0)[0], "it signals by the pipe")
            guest.close()
        else:
            os.close(call)
        os.close(end)
        disk.ends_by(signal.SIGTERM)


# -- The disk's own options --


def read_only_writes_nothing():
    disk = Program("--read-only")
    guest = working(disk)
    check(struct.unpack("<Q", guest.frontend.ask(GET_FEATURES))[0] & READ_ONLY, "it says so")
    guest.offer(5, WRITTEN)
    disk.wait_until(guest.is_used, "the write is used")
    check(guest.memory[STATUS] == 1, "it is refused")
    guest.close()
    disk.ends_by(signal.SIGTERM)


FLUSH = 1 << 9


def flags_of_the_file(disk):
    """Those that its file is open with."""
    here = f"/proc/{disk.process.pid}"
    number = next(it for it in os.listdir(f"{here}/fd") if os.readlink(f"{here}/fd/{it}").endswith("program.image"))
    with open(f"{here}/fdinfo/{number}", encoding="ascii") as it:
        return int(re.search(r"^flags:\s*(\d+)$", it.read(), re.M)[1], 8)


def writes_go_through_where_that_is_asked_for():
    for words, goes_through in (((), False), (("--cache=writeback",), False), (("--cache=writethrough",), True)):
        disk = Program(*words)
        guest = working(disk)
        offered = struct.unpack("<Q", guest.frontend.ask(GET_FEATURES))[0]
        check(bool(offered & FLUSH) != goes_through, f"{words}: a flush is offered where something is cached")
        check((flags_of_the_file(disk) & os.O_DSYNC == os.O_DSYNC) == goes_through, f"{words}: the file is opened so")
        guest.memory[DATA : DATA + SECTOR] = b"t" * SECTOR
        guest.offer(5, WRITTEN)
        disk.wait_until(guest.is_used, "a sector is written")
        with open(disk.image, "rb") as it:
            it.seek(5 * SECTOR)
            check(guest.memory[STATUS] == 0 and it.read(SECTOR) == b"t" * SECTOR, "it is in the file")
        guest.close()
        disk.ends_by(signal.SIGTERM)


# A read or a write: the sector, how many, where the guest's memory has them, and of how many bytes its segments are. The last ones lie in
# memory, or are cut, as no file has its blocks.
TRANSFERS = [
    (0, 8, DATA, (4096,)), (16, 16, DATA, (4096, 4096)), (5, 1, DATA, (SECTOR,)), (13, 6, DATA + 1024, (3072,)), (2040, 8, DATA, (4096,)),
    (7, 1, DATA + 8, (SECTOR,)), (3, 2, DATA, (100, 924)), (24, 8, DATA + 1, (1, 4094, 1)), (1001, 300, DATA + 3, (50000, 3600, 100000)), (2047, 1, DATA + 2, (SECTOR,)),
]
ZEROED = 13  # a kind of request


def does(guest, kind, transfers):
    """A guest makes these requests at once, and waits until all are used."""
    for number, (sector, _, at, sizes) in enumerate(transfers):
        head, place = 5 * number, REQUEST + 32 * number
        parts = [(place, 16, NEXT)]
        for size in sizes:
            parts.append((at, size, NEXT if kind in (WRITTEN, ZEROED) else NEXT | 2))
            at += size
        parts.append((place + 16, 1, 2))
        struct.pack_into("<IIQB", guest.memory, place, kind, 0, sector, 0xFF)
        for index, part in enumerate(parts):
            guest.describe(head + index, *part, head + index + 1)
        guest.offers_head(head)
    guest.frontend.disk.wait_until(guest.is_used, "they are used")
    for number in range(len(transfers)):
        check(guest.memory[REQUEST + 32 * number + 16] == 0, f"{kind}: {transfers[number]} is done")


class Image:
    """What a disk's file has to have."""

    def __init__(self, disk):
        self.disk = disk
        with open(disk.image, "rb") as it:
            self.bytes = bytearray(it.read())

    def moves(self, guest, transfer):
        """Other bytes are written, and are there as they are read, with the rest as it was."""
        sector, count, at, _ = transfer
        size, place = count * SECTOR, slice(sector * SECTOR, (sector + count) * SECTOR)
        self.bytes[place] = guest.memory[at : at + size] = os.urandom(size)
        does(guest, WRITTEN, [transfer])
        guest.memory[at : at + size] = bytes(size)
        does(guest, READ, [transfer])
        check(guest.memory[at : at + size] == self.bytes[place], f"{transfer}: what was written is read")
        self.is_there(transfer)

    def parts_of_a_block(self, guest):
        """Three requests at a time write to one block."""
        for turn in range(20):
            transfers = [(40 + number, 1, DATA + 1024 * number, (SECTOR,)) for number in range(3)]
            for sector, _, at, _ in transfers:
                self.bytes[sector * SECTOR : (sector + 1) * SECTOR] = guest.memory[at : at + SECTOR] = os.urandom(SECTOR)
            does(guest, WRITTEN, transfers)
            self.is_there(f"turn {turn}")

    def zeros(self, guest, sector, count):
        struct.pack_into("<QII", guest.memory, DATA, sector, count, 0)
        does(guest, ZEROED, [(0, 0, DATA, (16,))])
        self.bytes[sector * SECTOR : (sector + count) * SECTOR] = bytes(count * SECTOR)
        self.is_there("zeros")

    def is_there(self, what):
        with open(self.disk.image, "rb") as it:
            check(it.read() == self.bytes, f"{what}: the file has what was written, and the rest as it was")


def has_direct():
    """Whether a file here can be opened without a cache."""
    with open("program.image", "wb") as it:
        it.write(os.urandom(SECTOR * SECTORS))
    try:
        os.close(os.open("program.image", os.O_RDWR | os.O_DIRECT))
    except OSError:
        print("--cache=none is left out: there is no O_DIRECT here")
        return False
    return True


def passes_the_cache_by(name, *words):
    disk = Program("--cache=none", *words, name=name)
    check(flags_of_the_file(disk) & os.O_DIRECT, f"{words}: the file is opened so")
    had, guest = disk.has(), working(disk)
    check(struct.unpack("<Q", guest.frontend.ask(GET_FEATURES))[0] & FLUSH, "a flush is offered: the device may cache")
    image = Image(disk)
    for transfer in TRANSFERS:
        image.moves(guest, transfer)
    image.parts_of_a_block(guest)
    image.zeros(guest, 51, 20)
    guest.close()
    check(disk.has() == had, "it has as many descriptors as before")
    disk.ends_by(signal.SIGTERM)


def the_cache_is_passed_by_where_that_is_asked_for():
    if not has_direct():
        return
    for words in (("--io=threads",), ()):
        passes_the_cache_by("covretin-blk", *words)
        passes_the_cache_by("covretin-blk_coarse", *words)


def files_that_cannot_be_without_a_cache_are_status_4():
    words = ("--socket-path=here", "--cache=none")
    status, _, wrong = ran("covretin-blk", *words, "--read-only", "--blk-file=/proc/version")
    check(status == 4 and "/proc/version: its file system has no O_DIRECT" in wrong, f"status {status}, {wrong}")
    if has_direct():
        os.truncate("program.image", 4096 + SECTOR)
        status, _, wrong = ran("covretin-blk_coarse", *words, "--blk-file=program.image")
        check(status == 4 and "program.image: its size is no multiple of 4096 bytes" in wrong, f"status {status}, {wrong}")


def has_ring_of_the_kernel(disk):
    here = f"/proc/{disk.process.pid}/fd"
    return any("io_uring" in os.readlink(f"{here}/{it}") for it in os.listdir(here))


def a_file_is_read_by_what_is_asked_for():
    usual = Program()
    may_have = has_ring_of_the_kernel(usual)
    usual.ends_by(signal.SIGTERM)
    disk = Program("--io=threads")
    check(not has_ring_of_the_kernel(disk), "it has threads alone")
    working(disk).close()
    disk.ends_by(signal.SIGTERM)
    if may_have:
        disk = Program("--io=io_uring")
        check(has_ring_of_the_kernel(disk), "it has io_uring")
        working(disk).close()
        disk.ends_by(signal.SIGTERM)
    else:
        status, _, wrong = ran("covretin-blk", "--socket-path=here", "--blk-file=program.image", "--io=io_uring")
        check(status == 4 and "io_uring" in wrong, f"it does not start without: {status}, {wrong}")


def segments_of(guest):
    """As many as the disk tells the guest that a request may have."""
    it = guest.frontend
    it.send(SET_PROTOCOL_FEATURES, struct.pack("<Q", ACCEPTED | CONFIG))
    return struct.unpack("<I", it.ask(GET_CONFIG, struct.pack("<III4x", 12, 4, 0))[12:])[0]


def larger_queues_are_refused_where_that_is_asked_for():
    for words, most, segments in (((), 1024, 126), (("--queue-size=128",), 128, 126), (("--queue-size=16",), 16, 14)):
        disk = Program(*words)
        guest = working(disk)
        check(segments_of(guest) == segments, f"{words}: a request has no more segments than fit into a queue")
        check(guest.frontend.ask(GET_VRING_BASE, struct.pack("<II", 0, 0)) is not None, "the queue stops")
        for size, is_taken in ((most + 1, False), (2 * most, False), (most, True)):
            check(guest.frontend.acknowledged(SET_VRING_NUM, struct.pack("<II", 0, size)) == is_taken, f"{words}: {size} descriptors")
        says(disk, f"SET_VRING_NUM refused: queue 0 cannot have {2 * most} descriptors: it takes 1 to {most}")
        guest.start()
        guest.read(4)
        guest.close()
        disk.ends_by(signal.SIGTERM)


def serial_is_what_was_given():
    disk = Program("--serial", "12345678901234567890")
    guest = working(disk)
    guest.offer(0, GET_ID)
    disk.wait_until(guest.is_used, "it is used")
    check(guest.memory[DATA : DATA + 20] == b"12345678901234567890", "the guest reads it")
    guest.close()
    disk.ends_by(signal.SIGTERM)


# -- The network card --


class TwoRings(Guest):
    """A guest with a ring to receive and one to send, its frontend and its memory."""

    RECEIVE, TRANSMIT = 0, 1
    RING, DESCRIPTORS, AVAILABLE, USED, BUFFERS = 0x40000, 0, 0x1000, 0x2000, 0x4000
    ROOM = 0x1000  # of a buffer

    def __init__(self, device):
        super().__init__(device)
        self.kicks, self.offers, self.taken = [made_event(), made_event()], [0, 0], 0
        for ring in (self.RECEIVE, self.TRANSMIT):
            self.start_ring(ring)

    def start_ring(self, ring, base=0):
        at, it = self.RING * ring, self.frontend
        it.do(SET_VRING_NUM, struct.pack("<II", ring, SIZE))
        it.do(SET_VRING_ADDR, struct.pack("<II4Q", ring, 0, USER + at, USER + at + self.USED, USER + at + self.AVAILABLE, 0))
        it.do(SET_VRING_BASE, struct.pack("<II", ring, base))
        it.do(SET_VRING_CALL, struct.pack("<Q", ring), [self.call])
        it.do(SET_VRING_ENABLE, struct.pack("<II", ring, 1))
        it.do(SET_VRING_KICK, struct.pack("<Q", ring), [self.kicks[ring]])

    def offer_buffer(self, ring, size, flags, data=b""):
        at, slot = self.RING * ring, self.offers[ring] % SIZE
        buffer = at + self.BUFFERS + slot * self.ROOM
        self.memory[buffer : buffer + len(data)] = data
        struct.pack_into("<QIHH", self.memory, at + 16 * slot, buffer, size, flags, 0)
        struct.pack_into("<H", self.memory, at + self.AVAILABLE + 4 + 2 * slot, slot)
        self.offers[ring] += 1
        struct.pack_into("<H", self.memory, at + self.AVAILABLE + 2, self.offers[ring])
        os.eventfd_write(self.kicks[ring], 1)

    def sends(self, data):
        self.offer_buffer(self.TRANSMIT, len(data), 0, data)
        used = self.RING * self.TRANSMIT + self.USED
        self.frontend.disk.wait_until(lambda: self.used(used) == self.offers[self.TRANSMIT] % 65536, "a buffer is sent")

    def used(self, at):
        return struct.unpack_from("<H", self.memory, at + 2)[0]

    def has_room(self, size=ROOM):
        self.offer_buffer(self.RECEIVE, size, WRITE)

    def gets(self):
        """What came in the next buffer."""
        self.frontend.disk.wait_until(lambda: self.used(self.USED) != self.taken % 65536, "a buffer is used")
        slot, size = struct.unpack_from("<II", self.memory, self.USED + 4 + 8 * (self.taken % SIZE))
        self.taken += 1
        at = self.BUFFERS + slot * self.ROOM
        return self.memory[at : at + size]

    def stops(self, ring):
        """The base of a ring, which is stopped."""
        return struct.unpack("<II", self.frontend.ask(GET_VRING_BASE, struct.pack("<II", ring, 0)))[1]


class CardGuest(TwoRings):
    """A guest with a network card, each of whose frames is behind a header."""

    def sends(self, data):
        super().sends(bytes(12) + data)

    def gets(self):
        found = super().gets()
        check(found[:12] == bytes(10) + b"\1\0", "the header of a frame says that it is in one buffer")
        return found[12:]


def frame_of(number, size=60):
    return bytes([2, 0, 0, 0, 0, 1, 2, 0, 0, 0, 0, 2, 0x88, 0xB5]) + bytes([number]) * (size - 14)


def frames_of(path):
    """The frames that a recording has."""
    with open(path, "rb") as it:
        magic, major, minor, _, _, _, link = struct.unpack("<IHHIIII", it.read(24))
        check((magic, major, minor, link) == (0xA1B2C3D4, 2, 4, 1), "it is a recording of Ethernet")
        frames = []
        while head := it.read(16):
            kept, size = struct.unpack("<IIII", head)[2:]
            check(kept == size, "a frame is whole")
            frames.append(it.read(size))
    return frames


def two_cards_reach_each_other():
    one = Program("--local=one", "--remote=two", "--pcap=one.pcap", name="covretin-net", path="one.socket")
    two = Program("--local=two", "--remote=one", "--mac=02:00:00:00:00:02", name="covretin-net", path="two.socket")
    guests = [CardGuest(one), CardGuest(two)]
    frames = [frame_of(number, size) for number, size in enumerate((60, 1514, 61, 1000))]
    for it in guests:
        it.has_room()
    guests[0].sends(frames[0])
    check(guests[1].gets() == frames[0], "a frame goes one way")
    guests[1].sends(frames[1])
    check(guests[0].gets() == frames[1], "and one the other")
    guests[0].sends(frames[2])
    guests[0].sends(frames[3])
    for frame in frames[2:]:
        guests[1].has_room()
        check(guests[1].gets() == frame, "frames wait for room, in order")
    guests[0].sends(b"short")
    check(frames_of("one.pcap") == frames, "each is recorded, and what is none is not")
    it = guests[1].frontend
    it.do(SET_PROTOCOL_FEATURES, struct.pack("<Q", ACCEPTED | CONFIG))
    check(it.ask(GET_CONFIG, struct.pack("<III6x", 0, 6, 0))[12:] == bytes([2, 0, 0, 0, 0, 2]), "its address is the one that was given")
    for it in guests:
        it.close()
    one.wait_until(lambda: "3 frames were sent, 1 received, and 1 dropped" in one.tells(), "it counts")
    for it in (one, two):
        it.ends_by(signal.SIGTERM)
    check(not os.path.exists("one") and not os.path.exists("two"), "their sockets are gone")


def a_card_whose_other_end_is_gone_drops():
    card = Program("--local=one", "--remote=two", name="covretin-net")
    guest = CardGuest(card)
    had = card.fds()
    for number in range(40):
        guest.sends(frame_of(number))
    check(card.fds() == had, "it has as many descriptors as before")
    guest.close()
    card.wait_until(lambda: "0 frames were sent, 0 received, and 40 dropped" in card.tells(), "it counts")
    card.process.kill()
    card.process.wait()
    again = Program("--local=one", "--remote=two", name="covretin-net", path="again.socket")
    check(ran("covretin-net", "--socket-path=here", "--local=one", "--remote=two")[0] == 4, "a path that a card has is another's")
    again.ends_by(signal.SIGTERM)


SEND_RARP = 19
ADDRESS = bytes([0x52, 0x54, 0, 0, 0, 9])
# What QEMU sends by itself for a guest behind a card of its own.
PLACE = b"\xff" * 6 + ADDRESS + bytes.fromhex("8035 0001 0800 06 04 0003") + ADDRESS + bytes(4) + ADDRESS + bytes(4 + 18)


def a_card_tells_where_its_guest_is():
    one = Program("--local=one", "--remote=two", "--pcap=one.pcap", name="covretin-net", path="one.socket")
    two = Program("--local=two", "--remote=one", name="covretin-net", path="two.socket")
    guests = [CardGuest(one), CardGuest(two)]
    it = guests[0].frontend
    offered = struct.unpack("<Q", it.ask(GET_PROTOCOL_FEATURES))[0]
    check(offered & RARP, "it offers to tell")
    it.do(SET_PROTOCOL_FEATURES, struct.pack("<Q", ACCEPTED | RARP))
    guests[1].has_room()
    it.do(SEND_RARP, ADDRESS + bytes(2))
    check(guests[1].gets() == PLACE == frames_of("one.pcap")[0], "its other end hears where the guest is")
    guests[1].has_room()
    it.send(SEND_RARP, ADDRESS + bytes(2))
    check(guests[1].gets() == PLACE, "so it does where nobody waits for an acknowledgement, as of QEMU")
    for wrong in (b"", ADDRESS, ADDRESS + bytes(10)):
        check(it.acknowledged(SEND_RARP, wrong) is False, f"{len(wrong)} bytes are none of its requests")
    check(it.acknowledged(SEND_RARP + 600, ADDRESS + bytes(2)) is False, "nor is another number")
    check(len(frames_of("one.pcap")) == 2, "and nothing is sent for them")
    guests[0].sends(frame_of(1))
    for guest in guests:
        guest.close()
    for card in (one, two):
        card.ends_by(signal.SIGTERM)


def set_up(interface):
    """Turns an interface on."""
    with socket.socket(socket.AF_INET, socket.SOCK_DGRAM) as it:
        named = struct.pack("16sH14x", interface.encode(), 0)
        flags = struct.unpack_from("H", fcntl.ioctl(it, 0x8913, named), 16)[0]
        fcntl.ioctl(it, 0x8914, struct.pack("16sH14x", interface.encode(), flags | 1))


def a_tap_is_the_other_end():
    name = f"cov{os.getpid() % 100000}"
    if ran("covretin-net", f"--tap={name}", "--fd=77")[2].startswith(f"covretin-net: {name}: "):
        print("the tap is left out: there may be none here")
        return
    card = Program(f"--tap={name}", name="covretin-net")
    set_up(name)
    guest = CardGuest(card)
    with socket.socket(socket.AF_PACKET, socket.SOCK_RAW, socket.htons(0x88B5)) as it:
        it.bind((name, 0x88B5))
        it.send(frame_of(1, 600))
        while True:
            guest.has_room()
            if guest.gets() == frame_of(1, 600):  # the system sends some of its own
                break
        guest.sends(frame_of(2))
        while it.recv(2000) != frame_of(2):
            pass
    guest.close()
    card.ends_by(signal.SIGTERM)


# -- The console --

EACH_BYTE = bytes(range(256))


def console_at(*words, path="program.socket"):
    return Program(*words, name="covretin-console", path=path)


def visitor_of(path):
    it = socket.socket(socket.AF_UNIX)
    it.connect(path)
    return it


def shown(console, fd, size):
    """So many bytes that the console shows at a descriptor."""
    data = b""
    while len(data) < size:
        console.wait_until(lambda: select.select([fd], [], [], 0)[0], "it shows what the guest printed")
        part = os.read(fd, size - len(data))
        check(part, "it goes on")
        data += part
    return data


def reach_each_other(guest, fd):
    """A guest, and who is at the other end of its console: each byte passes as it is, both ways."""
    guest.has_room()
    os.write(fd, EACH_BYTE)
    found = guest.gets()
    while len(found) < len(EACH_BYTE):
        guest.has_room()
        found += guest.gets()
    check(found == EACH_BYTE, "the guest gets what was typed")
    guest.sends(EACH_BYTE)
    check(shown(guest.frontend.disk, fd, 256) == EACH_BYTE, "what it prints is shown")


def a_console_is_a_socket():
    console = console_at("--console=near")
    had = console.has()
    with visitor_of("near") as visitor:
        for _ in range(2):
            guest = TwoRings(console)
            reach_each_other(guest, visitor.fileno())
            guest.close()
    console.wait_until(lambda: console.tells().count("256 bytes were shown, 256 typed, and 0 dropped") == 2, "it counts")
    check(console.has() == had, "it has as many descriptors as before")
    check(ran("covretin-console", "--socket-path=here", "--console=near")[0] == 4, "a path that a console has is another's")
    console.ends_by(signal.SIGTERM)
    check(not os.path.exists("near"), "its socket is gone")


def a_console_is_a_terminal():
    console = console_at("--pty=link")
    had, guest = console.has(), TwoRings(console)
    for _ in range(2):
        guest.sends(b"nobody is there")
        fd = os.open("link", os.O_RDWR | os.O_NOCTTY)
        check(shown(console, fd, 15) == b"nobody is there", "what was printed waits for who opens the terminal")
        reach_each_other(guest, fd)
        os.close(fd)
    guest.close()
    check(console.has() == had, "it has as many descriptors as before")
    check(ran("covretin-console", "--socket-path=here", "--pty=link")[0] == 4, "a link that a console has is another's")
    console.process.kill()
    console.process.wait()
    again = console_at("--pty=link", path="again.socket")
    again.ends_by(signal.SIGTERM)
    check(not os.path.lexists("link"), "its link is gone")


def visitors_of_a_console_come_and_go():
    console = console_at("--console=near")
    visitor = visitor_of("near")
    visitor.send(b"before the guest")
    guest = TwoRings(console)
    guest.has_room()
    check(guest.gets() == b"before the guest", "what was typed before the guest was there waits for it")
    fds = console.fds()
    for number in range(20):
        another = visitor_of("near")
        another.send(b"%d" % number)
        reach_each_other(guest, visitor.fileno())
        check(not select.select([another], [], [], 0)[0], "another one waits")
        visitor.close()
        guest.has_room()
        check(guest.gets() == b"%d" % number, "and comes next")
        another.close()
        guest.sends(b"nobody is there")
        visitor = visitor_of("near")
        reach_each_other(guest, visitor.fileno())
    check(console.fds() == fds, "it has as many descriptors as before")
    visitor.close()
    console.ends_by(signal.SIGTERM)
    guest.close()


def what_is_typed_at_a_console_waits_for_room():
    console = console_at("--console=near")
    text, found = os.urandom(100000), b""
    guest, visitor = TwoRings(console), visitor_of("near")
    for _ in range(3):
        guest.offer_buffer(guest.RECEIVE, 16, 0)
    visitor.sendall(text)
    check([guest.gets() for _ in range(3)] == 3 * [b""], "a buffer that is not to be written comes back")
    guest.sends(b"meanwhile")
    check(shown(console, visitor.fileno(), 9) == b"meanwhile", "what the guest prints is shown meanwhile")
    for size in [1, 2, 3] + 30 * [guest.ROOM]:
        if len(found) < len(text):
            guest.has_room(size)
            found += guest.gets()
    check(found == text, "all of it comes, in order")
    guest.has_room()
    guest.has_room()
    check(guest.stops(guest.RECEIVE) == guest.taken, "the ring stops amid two buffers")
    guest.start_ring(guest.RECEIVE, guest.taken)
    visitor.send(b"then")
    check(guest.gets() == b"then", "which are there once it goes on")
    visitor.close()
    console.ends_by(signal.SIGTERM)
    guest.close()


def who_pauses_at_a_console_stops_no_guest():
    text = os.urandom(500 * 4096)
    for words in ("--console=near", "--pty=near"):
        console = console_at(words)
        guest = TwoRings(console)
        visitor = visitor_of("near") if words.startswith("--console") else open("near", "r+b", buffering=0)
        os.write(visitor.fileno(), b"here")
        guest.has_room()
        check(guest.gets() == b"here", "somebody is there")
        for at in range(0, len(text), 4096):
            guest.sends(text[at : at + 4096])
        check(guest.stops(guest.TRANSMIT) == 500, "the ring stops")
        guest.start_ring(guest.TRANSMIT, 500)
        guest.has_room()
        os.write(visitor.fileno(), b"typed")
        check(guest.gets() == b"typed", "the guest gets what is typed")
        os.write(visitor.fileno(), b"without room")
        guest.sends(b"meanwhile")
        guest.has_room()
        check(shown(console, visitor.fileno(), 1 << 20) == text[: 1 << 20], "a mebibyte waited")
        check(guest.gets() == b"without room", "what was typed comes once the reader goes on")
        guest.close()
        console.wait_until(lambda: re.search("21 typed, and [1-9][0-9]+ dropped", console.tells()), "it counts what nobody took")
        guest = TwoRings(console)
        for _ in range(300):
            guest.sends(text[:4096])
        os.write(visitor.fileno(), b"typed")
        guest.sends(b"with no room for what is typed")
        console.ends_by(signal.SIGTERM)
        visitor.close()
        guest.close()


# -- A service manager --


class Manager:
    """A service manager, which starts a disk with sockets at descriptors from 3 on, and hears from it."""

    def __init__(self, listener, count=1, pid=None):
        self.hears = socket.socket(socket.AF_UNIX, socket.SOCK_DGRAM | socket.SOCK_NONBLOCK)
        self.hears.bind("\0" + f"manager {os.getpid()} {id(self)}")
        self.listener, self.count, self.pid = listener, count, pid

    def before(self):
        """In the process that is to be the disk's: its descriptors, and its environment."""
        os.dup2(self.listener.fileno(), 3)
        os.environ["LISTEN_PID"] = str(self.pid or os.getpid())
        os.environ["LISTEN_FDS"] = str(self.count)
        os.environ["NOTIFY_SOCKET"] = "@" + self.hears.getsockname()[1:].decode()

    def hears_of(self, disk, word):
        disk.wait_until(lambda: select.select([self.hears], [], [], 0)[0], f"it says {word}")
        check(self.hears.recv(100).decode() == word, f"it says {word}")


def served_by_a_manager():
    with listening("program.socket") as it:
        manager = Manager(it)
        disk = Program(passes=[3], before=manager.before)
    manager.hears_of(disk, "READY=1")
    working(disk).close()
    disk.ends_by(signal.SIGTERM)
    manager.hears_of(disk, "STOPPING=1")
    os.unlink("program.socket")


def readiness_without_a_socket_of_the_manager():
    with listening("another.socket") as it:
        manager = Manager(it, pid=1)
        disk = Program(before=manager.before)
    manager.hears_of(disk, "READY=1")
    working(disk).close()
    disk.ends_by(signal.SIGTERM)


def several_sockets_of_a_manager_are_refused():
    with listening("program.socket") as it:
        disk = Program(passes=[3], before=Manager(it, count=2).before)
    disk.ends_by_itself(2)
    check("LISTEN_FDS" in disk.tells(), "it says why")


# -- The units of systemd --

UNIT = os.path.join(os.path.dirname(os.path.realpath(__file__)), "../tools/units/device@.service")
LOAD_NUMBER, IS_NUMBER, ANSWER = (0x20, 0, 0), (0x15, 0, 1), (0x06, 0, 0)  # of a filter, with the jumps
ALLOW, REFUSE = 0x7FFF0000, 0x00050001  # the latter by EPERM


def members(group):
    """The names of a group of system calls, as systemd has it."""
    said = subprocess.run(["systemd-analyze", "syscall-filter", group], capture_output=True, text=True, check=True).stdout
    for word in re.findall(r"^    ([@\w-]+)$", said, re.M):
        yield from members(word) if word.startswith("@") else [word]


def allowed_calls():
    """The numbers of the system calls that the unit lets a device make."""
    numbers = dict(re.findall(r"#define __NR_(\w+) (\d+)", subprocess.run(
        ["cc", "-dM", "-E", "-include", "sys/syscall.h", "-x", "c", "/dev/null"], capture_output=True, text=True, check=True).stdout))
    names = set()
    with open(UNIT, encoding="utf-8") as it:
        for line in re.findall(r"^SystemCallFilter=(.*)", it.read(), re.M):
            found = {name for word in line.lstrip("~").split() for name in (members(word) if word.startswith("@") else [word])}
            names = names - found if line.startswith("~") else names | found
    return sorted(int(numbers[name]) for name in names if name in numbers)


def filter_of(numbers):
    """What the kernel takes as a filter of system calls, and what it refers to."""
    steps = [(*LOAD_NUMBER, 0)]
    for number in numbers:
        steps += [(*IS_NUMBER, number), (*ANSWER, ALLOW)]
    steps.append((*ANSWER, REFUSE))
    code = ctypes.create_string_buffer(b"".join(struct.pack("<HBBI", *step) for step in steps))
    return ctypes.create_string_buffer(struct.pack("<H6xQ", len(steps), ctypes.addressof(code))), code


def works_under_the_filter_of_its_unit():
    if shutil.which("systemd-analyze") is None:
        print("the filter of the unit is left out: systemd-analyze is not there")
        return
    rules, _kept = filter_of(allowed_calls())
    libc = ctypes.CDLL(None, use_errno=True)
    def before():
        os.environ["ASAN_OPTIONS"] = "detect_leaks=0"  # which traces the process
        check(libc.prctl(38, 1, 0, 0, 0) == 0 and libc.prctl(22, 2, rules, 0, 0) == 0, "the filter is set")
    disk = Program("--num-queues=2", "--metrics=metrics.socket", before=before)
    had = disk.has()
    for _ in range(2):
        check(answer_to(disk, b"\n")["refusals_total"] == 0, "it tells what it counted")
        guest = working(disk)
        guest.memory[DATA : DATA + SECTOR] = b"w" * SECTOR
        guest.offer(5, WRITTEN)
        disk.wait_until(guest.is_used, "a sector is written")
        check(guest.memory[STATUS] == 0, "it was written")
        guest.read(5)
        check(guest.frontend.ask(POSTCOPY_ADVISE) is not None, "it replies to a frontend that begins postcopy")
        guest.close()
    check(disk.has() == had, "it has as many descriptors as before")
    check("Seccomp:\t2" in open(f"/proc/{disk.process.pid}/status", encoding="ascii").read(), "it is filtered")
    disk.ends_by(signal.SIGTERM)


TESTS = [capabilities_are_of_the_schema, wrong_arguments_are_status_2, what_fails_is_status_4, help_names_each_option]
TESTS += [serves_at_a_path, leaves_descriptors_and_process_alone, serves_a_socket_that_listens, serves_a_socket_that_is_connected]
TESTS += [a_message_that_is_none_is_status_1, ends_while_connected, ends_while_a_request_waits]
TESTS += [refusals_say_why, each_refusal_says_what_was_wanted_and_what_came, a_message_that_is_cut_short_is_no_refusal, a_broken_queue_says_its_rule, a_flood_of_refusals_is_cut_short, nobody_has_to_listen, counts_are_printed_at_a_signal]
TESTS += [counts_are_told_at_a_socket, counts_are_read_by_curl_and_socat, readers_of_counts_delay_nobody, a_socket_for_counts_that_cannot_be_had_is_status_4]
TESTS += [pipes_are_signalled_where_that_is_asked_for]
TESTS += [read_only_writes_nothing, writes_go_through_where_that_is_asked_for, a_file_is_read_by_what_is_asked_for, serial_is_what_was_given]
TESTS += [the_cache_is_passed_by_where_that_is_asked_for, files_that_cannot_be_without_a_cache_are_status_4]
TESTS += [larger_queues_are_refused_where_that_is_asked_for]
TESTS += [two_cards_reach_each_other, a_card_whose_other_end_is_gone_drops, a_card_tells_where_its_guest_is, a_tap_is_the_other_end]
TESTS += [a_console_is_a_socket, a_console_is_a_terminal, visitors_of_a_console_come_and_go, what_is_typed_at_a_console_waits_for_room]
TESTS += [who_pauses_at_a_console_stops_no_guest]
TESTS += [served_by_a_manager, readiness_without_a_socket_of_the_manager, several_sockets_of_a_manager_are_refused]
TESTS += [works_under_the_filter_of_its_unit]


def passes(test):
    room = os.path.abspath(test.__name__)
    os.mkdir(room)
    os.chdir(room)
    try:
        test()
    except (AssertionError, OSError, ValueError) as why:
        print(f"{test.__name__}: {why!r}")
        return False
    finally:
        for it in RUNNING:
            it.close()
        RUNNING.clear()
        os.chdir("..")
    return True


def main():
    failed = 0
    for test in TESTS:
        if len(sys.argv) > 2 and not any(word in test.__name__ for word in sys.argv[2:]):
            continue
        passed = passes(test)
        failed += not passed
        print(f"programs_{test.__name__}: {'ok' if passed else 'FAILED'}", flush=True)
    return 1 if failed else 0


if __name__ == "__main__":
    sys.exit(main())
