#!/usr/bin/env python3
# SPDX-License-Identifier: Apache-2.0
"""Tries the daemon as a service: `./test daemon` runs it. Each row is a function below that asserts what is wanted, on a daemon of
its own in a folder of its own. It needs Python alone, and Linux's /proc.

Words choose rows by their names. Status 0 where all passed; 1 where one failed; 2 where a word is of none; 3 where the daemon could not be
built.
"""

import contextlib
import fcntl
import json
import os
import pathlib
import resource
import select
import shutil
import signal
import socket
import stat
import struct
import subprocess
import sys
import tempfile
import time

TOP = pathlib.Path(__file__).resolve().parent.parent.parent
DAEMON = TOP / "vhost-daemon"
VERSION = f"vhost-daemon {(TOP / 'VERSION').read_text().strip()}\n"
USAGE = "usage: vhost-daemon PATH COUNT\n"

# A wait pauses for so many seconds, and after so many pauses it looks at the row's daemons. It fails once they rest: in so many looks in a
# row they slept, and had done nothing since the one before. Nothing comes then, since the row does nothing but wait. It fails, too, where
# they use so many seconds of a processor.
PAUSE = 0.01
PAUSES = 50
LOOKS = 10
LIMIT = 300

# How many sessions come one after another, and what they may add to memory, in kilobytes from the half on.
SESSIONS = 10_000
GROWTH = 4096
# How many sessions end while nobody reads their lines, of which a hundred fill the pipe.
UNREAD = 500
# Addresses that C's allocator may reserve beside: 64 MB for each thread that runs at the same time as others, at most sixteen here. A
# stack that stayed with each session would be forty gigabytes.
HEAPS = 16 * 65536


def message(code, body=b"", version=1):
    return struct.pack("<III", code, version, len(body)) + body


GET_FEATURES = message(1)
FEATURES = message(1, struct.pack("<Q", 0x40000003), 5)
SET_OWNER = message(3)
# Its descriptor is missing.
SET_VRING_KICK = message(12, struct.pack("<Q", 1))
SET_VRING_NUM = message(8, struct.pack("<II", 0, 0))
UNKNOWN = message(200)
OTHER_VERSION = message(1, version=2)


class Stream:
    """What a process writes to a pipe."""

    def __init__(self, pipe):
        self.pipe, self.text, self.is_open = pipe, b"", True
        os.set_blocking(pipe.fileno(), False)

    def take(self):
        """Takes what is there."""
        while self.is_open:
            try:
                piece = os.read(self.pipe.fileno(), 65536)
            except BlockingIOError:
                return
            self.text += piece
            self.is_open = piece != b""

    def line(self):
        """The next line, or what there is of one at the end."""

        def is_whole():
            self.take()
            return b"\n" in self.text or not self.is_open

        wait_until(is_whole, "no line comes", self.pipe)
        line, end, self.text = self.text.partition(b"\n")
        return (line + end).decode()


class Daemon:
    """One that runs, with the words of its call."""

    running = []

    def __init__(self, *words, program=DAEMON, files=None, memory=None, output=subprocess.PIPE, closed=(), **environment):
        def begin():
            if files is not None:
                resource.setrlimit(resource.RLIMIT_NOFILE, (files, files))
            if memory is not None:
                resource.setrlimit(resource.RLIMIT_AS, (memory, memory))
            for number in closed:
                os.close(number)

        # A program that was compiled without proof keeps what is freed, to find faults; here it keeps little.
        environment = dict(os.environ, ASAN_OPTIONS="quarantine_size_mb=1:thread_local_quarantine_size_kb=16", **environment)
        self.process = subprocess.Popen(
            [program, *words], stdin=subprocess.DEVNULL, stdout=output, stderr=subprocess.PIPE, env=environment, preexec_fn=begin
        )
        self.output = Stream(self.process.stdout) if self.process.stdout else None
        self.errors = Stream(self.process.stderr)
        Daemon.running.append(self.process)

    def status(self, name):
        return field_of(f"/proc/{self.process.pid}/status", name)

    def rests(self):
        """For a second it uses next to no processor."""
        before = processor(self.process.pid)
        time.sleep(1)
        used = processor(self.process.pid) - before
        assert used < 0.2, f"{used} seconds of a processor in one second"

    def descriptors(self):
        return len(os.listdir(f"/proc/{self.process.pid}/fd"))

    def end(self):
        """Its status, and what it wrote, without what the command says of how it was built."""
        streams = [it for it in (self.output, self.errors) if it]

        def has_ended():
            ended = self.process.poll() is not None
            for stream in streams:
                stream.take()
            return ended and not any(it.is_open for it in streams)

        wait_until(has_ended, "it does not end")
        for stream in streams:
            stream.pipe.close()
        output = self.output.text.decode() if self.output else ""
        told = [line for line in self.errors.text.decode().splitlines(True) if "without proof" not in line]
        return self.process.returncode, output, "".join(told)

    def line(self):
        return self.output.line()

    def told(self):
        """The next line on standard error, without what the command says of how it was built."""
        while "without proof" in (line := self.errors.line()):
            pass
        return line


def field_of(path, name):
    """A number in a file of /proc whose lines have names."""
    lines = pathlib.Path(path).read_text().splitlines()
    return int(next(line for line in lines if line.startswith(name + ":")).split()[1])


def processor(pid):
    """How many seconds of a processor a process has used."""
    fields = pathlib.Path(f"/proc/{pid}/stat").read_text().rpartition(")")[2].split()
    return (int(fields[11]) + int(fields[12])) / os.sysconf("SC_CLK_TCK")


def turns(pid):
    """How often the threads of a process went to sleep so far; None where one is awake, or a child may be."""
    count = 0
    try:
        for task in pathlib.Path(f"/proc/{pid}/task").iterdir():
            is_asleep = (task / "stat").read_text().rpartition(")")[2].split()[0] == "S"
            children = task / "children"
            if not is_asleep or children.exists() and children.read_text():
                return None
            count += field_of(task / "status", "voluntary_ctxt_switches")
    except (FileNotFoundError, ProcessLookupError):
        return None
    return count


class Watch:
    """Looks at the row's daemons while something is waited for."""

    def __init__(self, what):
        self.what, self.looks, self.last, self.began = what, 0, None, None

    def look(self):
        """Fails once they rest, or have used too much of a processor."""
        now = list(map(turns, living()))
        self.looks = self.looks + 1 if now == self.last and None not in now else 0
        self.last = now
        assert self.looks < LOOKS, f"{self.what}, and the daemon rests"
        used = sum(map(processor, living()))
        self.began = used if self.began is None else self.began
        assert used - self.began < LIMIT, f"{self.what}, and the daemon has used {used - self.began} seconds of a processor"


def wait_until(holds, what, stream=None):
    """Waits until it holds, maybe by what comes from a stream."""
    watch, pauses = Watch(what), 0
    while not holds():
        if not comes_soon(stream):
            pauses += 1
            if pauses % PAUSES == 0:
                watch.look()


def comes_soon(stream):
    """Whether something comes from a stream, before a pause has passed."""
    if stream is None:
        time.sleep(PAUSE)
        return False
    coming = select.poll()
    coming.register(stream, select.POLLIN)
    return coming.poll(PAUSE * 1000) != []


def living():
    """The processes of the row's daemons that have not ended."""
    return [each.pid for each in Daemon.running if each.poll() is None]


def run(*words, **how):
    return Daemon(*words, **how).end()


def connect(path):
    """A client, once somebody listens and has room for it."""
    client = socket.socket(socket.AF_UNIX)
    client.setblocking(False)

    def is_connected():
        with contextlib.suppress(FileNotFoundError, ConnectionRefusedError, BlockingIOError):
            client.connect(path)
            return True

    wait_until(is_connected, "nobody listens")
    return client


def receive(client, most):
    """The bytes that come next, so many at most; none at the end of the stream."""
    came = []

    def comes():
        with contextlib.suppress(BlockingIOError):
            came.append(client.recv(most))
        return came

    wait_until(comes, "nothing comes", client)
    return came[0]


def wait_for(client, wanted):
    """These bytes come next."""
    came = b""
    while len(came) < len(wanted) and (piece := receive(client, len(wanted) - len(came))):
        came += piece
    same(came, wanted)


def ask(client):
    client.sendall(GET_FEATURES)
    wait_for(client, FEATURES)


def session(path, *messages):
    """A whole session: what came back, up to the end of the stream."""
    with connect(path) as client:
        for each in messages:
            client.sendall(each)
        client.shutdown(socket.SHUT_WR)
        return everything(client)


def everything(client):
    came = b""
    with contextlib.suppress(ConnectionResetError):
        while piece := receive(client, 4096):
            came += piece
    return came


def same(got, wanted):
    assert got == wanted, f"{got!r}, not {wanted!r}"


def is_socket(path):
    return os.path.exists(path) and stat.S_ISSOCK(os.stat(path).st_mode)


def left_over(path):
    """A socket at a path that nobody has."""
    with socket.socket(socket.AF_UNIX) as made:
        made.bind(path)


# The rows. Each is given the path of a socket in a folder of its own, which has to be empty at the end unless the row says what stays.


def lines_as_asked(path):
    daemon = Daemon(path, "3")
    same(session(path, GET_FEATURES, SET_OWNER), FEATURES)
    same(session(path, SET_OWNER, SET_OWNER), b"")
    same(session(path, SET_VRING_KICK), b"")
    lines = (
        "session 1: 2 requests, end Disconnected\n"
        "session 2: 2 requests, end Disconnected\n"
        "session 3: 0 requests, end InvalidMessage\n"
    )
    same(daemon.end(), (0, lines, ""))


def lines_in_order_and_at_once(path):
    """The second session ends first: its line waits for that of the first, and both come while the third still runs."""
    daemon = Daemon("--socket-path=" + path, "--count=3")
    first, second, third = connect(path), connect(path), connect(path)
    ask(second)
    second.close()
    ask(third)
    time.sleep(0.2)
    ask(first)
    first.close()
    same(daemon.line(), "session 1: 1 requests, end Disconnected\n")
    same(daemon.line(), "session 2: 1 requests, end Disconnected\n")
    ask(third)
    third.close()
    same(daemon.end(), (0, "session 3: 2 requests, end Disconnected\n", ""))


def end_of_stream_at_once(path):
    """What ends a session closes its socket, while others still run or are awaited."""
    daemon = Daemon(path, "5")
    other = connect(path)
    ask(other)
    for refused in SET_VRING_KICK, UNKNOWN, OTHER_VERSION:
        with connect(path) as client:
            client.sendall(refused)
            same(everything(client), b"")
    ask(other)
    other.close()
    same(session(path), b"")
    status, lines, errors = daemon.end()
    same((status, errors, lines.count("0 requests, end InvalidMessage\n")), (0, "", 3))


def flat(path):
    """Sessions one after another: descriptors, threads, addresses and memory are given back when each ends."""
    daemon = Daemon("--socket-path=" + path, f"--count={SESSIONS + 1}", output=open(path + ".lines", "wb"))
    seen = []
    for number in range(SESSIONS):
        with connect(path) as client:
            ask(client)
        if number in (SESSIONS // 2, SESSIONS - 1):
            wait_until(lambda: daemon.status("Threads") == 1, "a thread stays")
            seen.append((daemon.descriptors(), daemon.status("VmRSS"), daemon.status("VmSize")))
    (descriptors, memory, addresses), (later, more, further) = seen
    assert later == descriptors, f"{later - descriptors} descriptors more"
    assert more - memory < GROWTH, f"{more - memory} kB of memory more"
    assert further - addresses < HEAPS, f"{further - addresses} kB of addresses more"
    same(session(path, GET_FEATURES), FEATURES)
    same(daemon.end()[0], 0)
    lines = pathlib.Path(path + ".lines").read_text().splitlines()
    same(lines, [f"session {n}: 1 requests, end Disconnected" for n in range(1, SESSIONS + 2)])
    os.remove(path + ".lines")
    return f"{SESSIONS} sessions, {descriptors} descriptors, {more} kB of memory, {more - memory} of them since the half"


def no_descriptor_left(path):
    """The next client waits until a session ends; those that run live on."""
    daemon = Daemon("--socket-path=" + path, "--count=20", files=16)
    clients = [connect(path) for _ in range(20)]
    served = []
    for client in clients[:8]:
        ask(client)
        served.append(client)
    told = daemon.told()
    assert "the next client waits" in told and "24" in told, told
    daemon.rests()
    last = clients[-1]
    last.sendall(GET_FEATURES)
    time.sleep(0.5)
    with contextlib.suppress(BlockingIOError):
        last.recv(1)
        raise AssertionError("the last client was served")
    for client in served:
        ask(client)
    for client in clients[:-1]:
        client.close()
    wait_for(last, FEATURES)
    last.close()
    status, lines, _ = daemon.end()
    same((status, lines.count("\n")), (0, 20))


def no_descriptor_and_no_session(path):
    """Nothing could be given back: it ends, and says why."""
    daemon = Daemon(path, "2")
    # Its own are the three standard ones, the lock and the listening socket. The first client's is taken before it comes.
    wait_until(lambda: is_socket(path) and daemon.descriptors() == 5, "nobody listens")
    resource.prlimit(daemon.process.pid, resource.RLIMIT_NOFILE, (5, 5))
    connect(path).close()
    with connect(path) as client:
        same(everything(client), b"")
    status, lines, errors = daemon.end()
    same((status, lines), (2, "session 1: 0 requests, end Disconnected\n"))
    assert path in errors and "24" in errors, errors


def no_thread_left(path):
    """The same where no thread can be started. A program that was compiled without proof reserves too many addresses for it."""
    daemon = Daemon("--socket-path=" + path, "--count=20")
    connect(path).close()
    if daemon.status("VmSize") > 1 << 30:
        daemon.process.kill()
        daemon.end()
        os.remove(path), os.remove(path + ".pid")
        return "left out: the program was compiled without proof"
    daemon.process.kill()
    daemon.end()
    daemon = Daemon("--socket-path=" + path, "--count=20", memory=64 << 20)
    clients = [connect(path) for _ in range(20)]
    ask(clients[0])
    told = daemon.told()
    assert "the next client waits: no thread could be started" in told, told
    daemon.rests()
    ask(clients[0])
    clients[-1].sendall(GET_FEATURES)
    for client in clients[:-1]:
        client.close()
    wait_for(clients[-1], FEATURES)
    clients[-1].close()
    status, lines, _ = daemon.end()
    same((status, lines.count("\n")), (0, 20))


def signals(path):
    """A signal ends the process as the system does it: the lines of ended sessions are there, and the next daemon takes the path over."""
    for number in signal.SIGTERM, signal.SIGINT:
        daemon = Daemon(path, "3")
        same(session(path, GET_FEATURES), FEATURES)
        same(daemon.line(), "session 1: 1 requests, end Disconnected\n")
        running = connect(path)
        ask(running)
        daemon.process.send_signal(number)
        same(daemon.end(), (-number, "", ""))
        same(everything(running), b"")
        assert is_socket(path)
    daemon = Daemon(path, "1")
    same(session(path, GET_FEATURES), FEATURES)
    same(daemon.end(), (0, "session 1: 1 requests, end Disconnected\n", ""))


def replaced_path(path):
    """What is put in the place of the socket stays at the end: a file, another process's socket."""
    for other in "file", "socket":
        daemon = Daemon(path, "2")
        first = connect(path)
        os.rename(path, path + ".own")
        if other == "file":
            pathlib.Path(path).write_text("kept")
        else:
            listening = socket.socket(socket.AF_UNIX)
            listening.bind(path)
            listening.listen()
        # With the last client it would remove the path.
        last = connect(path + ".own")
        ask(first)
        first.close()
        last.close()
        ends = "".join(f"session {i}: {count} requests, end Disconnected\n" for i, count in ((1, 1), (2, 0)))
        same(daemon.end(), (0, ends, ""))
        if other == "file":
            same(pathlib.Path(path).read_text(), "kept")
        else:
            with connect(path):
                listening.accept()[0].close()
            listening.close()
        os.remove(path)
        os.remove(path + ".own")


def replaced_at_once(path):
    """So does what takes the place as soon as the path is there."""
    for _ in range(40):
        daemon = Daemon(path, "1")
        wait_until(lambda: any(os.path.lexists(path) for _ in range(10_000)), "nobody listens")
        os.rename(path, path + ".own")
        pathlib.Path(path).write_text("kept")
        connect(path + ".own").close()
        same(daemon.end(), (0, "session 1: 0 requests, end Disconnected\n", ""))
        same(pathlib.Path(path).read_text(), "kept")
        os.remove(path)
        os.remove(path + ".own")


def left_over_folder(path):
    """The folder in which a killed daemon made its socket is made anew. With anything else in it both stay, and the path is not to be had."""
    for at in path, path + (107 - len(path)) * "x":
        os.mkdir(at + ".new")
        # (its name can be too long for a socket)
        here = os.getcwd()
        os.chdir(at + ".new")
        left_over("s")
        os.chdir(here)
        os.link(at + ".new/s", at)
        daemon = Daemon(at, "1")
        wait_until(lambda: not os.path.exists(at + ".new"), "the folder stays")
        same(session(at, GET_FEATURES), FEATURES)
        same(daemon.end(), (0, "session 1: 1 requests, end Disconnected\n", ""))
    kept = pathlib.Path(path + ".new/s")
    kept.parent.mkdir()
    kept.write_text("kept")
    status, output, errors = run(path, "1")
    same((status, output), (2, ""))
    assert "no folder at this path with .new" in errors and "os error 39" in errors, errors
    same(kept.read_text(), "kept")
    kept.unlink()
    kept.parent.rmdir()
    # (a link to a folder is not followed: what is in that is another's)
    others = pathlib.Path(path + ".others")
    others.mkdir()
    left_over(str(others / "s"))
    kept.parent.symlink_to(others)
    refused = f"vhost-daemon: {path}: no folder at this path with .new: "
    same(run(path, "1"), (2, "", refused + "a symbolic link is there\n"))
    assert (others / "s").is_socket(), "another's socket is gone"
    kept.parent.unlink()
    noted = ""
    if os.geteuid() == 0:
        others.rename(kept.parent)
        os.chown(kept.parent, 65534, 65534)
        same(run(path, "1"), (2, "", refused + "it is another user's\n"))
        others = kept.parent
        assert (others / "s").is_socket(), "another user's socket is gone"
    else:
        noted = "another user's is left out: only root can make it"
    (others / "s").unlink()
    others.rmdir()
    return noted


def second_daemon(path):
    """It is refused, and the first does not notice."""
    first = Daemon(path, "2")
    client = connect(path)
    ask(client)
    for _ in range(3):
        same(run(path, "1"), (2, "", f"vhost-daemon: {path}: another daemon has this path\n"))
        same(run(path + "/", "1")[0], 2)
    ask(client)
    client.close()
    same(session(path, GET_FEATURES), FEATURES)
    lines = "session 1: 2 requests, end Disconnected\nsession 2: 1 requests, end Disconnected\n"
    same(first.end(), (0, lines, ""))


def two_started_together(path):
    """One of two lives, at a free path and at a left-over socket."""
    for number in range(40):
        if number % 2:
            left_over(path)
        pair = [Daemon(path, "1"), Daemon(path, "1")]
        wait_until(lambda: any(each.process.poll() is not None for each in pair), "both wait")
        refused, lives = sorted(pair, key=lambda each: each.process.poll() is None)
        same(refused.end(), (2, "", f"vhost-daemon: {path}: another daemon has this path\n"))
        same(session(path, GET_FEATURES), FEATURES)
        same(lives.end(), (0, "session 1: 1 requests, end Disconnected\n", ""))


def another_process_listens(path):
    """It sees no connection, also where its queue of connections is full."""
    for backlog in 5, 0:
        with socket.socket(socket.AF_UNIX) as listening:
            listening.bind(path)
            listening.listen(backlog)
            listening.setblocking(False)
            waiting = []
            while backlog == 0:
                client = socket.socket(socket.AF_UNIX)
                client.setblocking(False)
                waiting.append(client)
                try:
                    client.connect(path)
                except BlockingIOError:
                    break
            told = f"vhost-daemon: {path}: another process has a socket at this path\n"
            same(run(path, "1"), (2, "", told))
            for client in waiting[:-1]:
                listening.accept()[0].close()
            with contextlib.suppress(BlockingIOError):
                listening.accept()
                raise AssertionError("there was one connection more")
            for client in waiting:
                client.close()
        os.remove(path)


def other_things_at_the_path(path):
    """They stay."""
    pathlib.Path(path).write_text("kept")
    same(run(path, "1"), (2, "", f"vhost-daemon: {path}: there is a file at this path that is no socket\n"))
    same(pathlib.Path(path).read_text(), "kept")
    os.remove(path)
    os.mkdir(path)
    same(run(path, "1")[0], 2)
    os.rmdir(path)
    status, output, errors = run(path + "/inside", "1")
    same((status, output), (2, ""))
    assert path in errors and "os error 2" in errors, errors


def other_things_at_the_lock_file(path):
    """They stay as they are, it is told what they are, and nothing is waited for."""
    lock, kept = path + ".pid", pathlib.Path(path + ".kept")
    kept.write_text("kept")

    def of_another_user():
        pathlib.Path(lock).touch()
        os.chown(lock, 65534, 65534)

    things = [
        (lambda: os.symlink(kept, lock), "a symbolic link is there"),
        (lambda: os.symlink(path + ".nothing", lock), "a symbolic link is there"),
        (lambda: os.link(kept, lock), "a file with another name is there"),
        (lambda: os.mkfifo(lock), "a FIFO is there"),
        (lambda: os.mkdir(lock), "a folder is there"),
        (lambda: left_over(lock), "a socket is there"),
    ]
    if os.geteuid() == 0:
        things.append((of_another_user, "it is another user's"))
    for make, words in things:
        make()
        before = os.lstat(lock)
        same(run(path, "1"), (2, "", f"vhost-daemon: {path}: no lock file at this path with .pid: {words}\n"))
        after = os.lstat(lock)
        same((after.st_ino, after.st_mode, after.st_nlink), (before.st_ino, before.st_mode, before.st_nlink))
        same(kept.read_text(), "kept")
        same(len(os.listdir(kept.parent)), 2)
        os.rmdir(lock) if stat.S_ISDIR(after.st_mode) else os.remove(lock)
    kept.unlink()
    return "" if os.geteuid() == 0 else "another user's is left out: only root can make it"


def closed_standard_streams(path):
    """No file and no socket takes the number of one: the lock file holds that of the process alone, and clients get replies alone."""
    refused = 'session 2: request 2, SET_OWNER: InvalidOperation("already claimed")\n'
    failed = f"vhost-daemon: {path}: the output failed: "
    for closed in (1,), (2,), (0, 1), (0, 1, 2):
        daemon = Daemon("-v", "--socket-path=" + path, "--count=3", closed=closed)
        first = connect(path)
        ask(first)
        same(session(path, SET_OWNER, SET_OWNER, GET_FEATURES), FEATURES)
        wait_until(lambda: daemon.status("Threads") == 2, "a thread stays")
        ask(first)
        first.close()
        wait_until(lambda: daemon.status("Threads") == 1, "a thread stays")
        same(pathlib.Path(path + ".pid").read_text(), f"{daemon.process.pid}\n")
        same(session(path, GET_FEATURES), FEATURES)
        status, output, errors = daemon.end()
        same((status, output.count("\n")), (2, 0) if 1 in closed else (0, 3))
        same(errors.startswith(refused), 2 not in closed)
        same(failed in errors, closed in ((1,), (0, 1)))


def wrong_arguments(path):
    for words in [], [path], [path, "1", "2"], [path, "0"], [path, "1025"], [path, "+1"], [path, "x"], [path, ""], ["", "1"], ["-v"]:
        same(run(*words), (1, "", USAGE))
    for words, name in (
        ([b"/tmp/\xff", "1"], "UTF-8"),
        (["--socket-path=" + path, b"--count=\xff"], "UTF-8"),
        (["--socket-path="], "empty"),
        (["--socket-path=" + path, "--count=0"], "--count=0"),
        (["--socket-path=" + path, "--count=4294967296"], "--count=4294967296"),
        (["--socket-path=" + path, "--socket-path=" + path], "twice"),
        (["--socket-path=" + path, path], "beside"),
        (["--count=1"], "--socket-path is missing"),
        (["--socket-path=" + path, "--cuont=1"], "--cuont=1: there is no such option"),
        (["--profile", path, "1"], "--profile: there is no such option"),
        (["--profile=crate", path, "1"], "--profile=crate"),
        (["--profile=vhost", "--profile=vhost", path, "1"], "twice"),
    ):
        status, output, errors = run(*words)
        same((status, output), (1, ""))
        assert name in errors and errors.endswith(USAGE), errors


def profiles(path):
    """A request that nobody serves is acknowledged under Standard, and its session goes on; else it ends it."""
    acknowledged = message(16, struct.pack("<Q", 1 << 3))
    unserved = message(35, struct.pack("<Q", 0), 9)
    refused = message(35, struct.pack("<Q", 1), 5)
    for words, ack, end in (
        ([], b"", "1: 2 requests, end InvalidMessage"),
        (["--profile=vhost"], b"", "1: 2 requests, end InvalidMessage"),
        (["--profile=standard"], refused + FEATURES, "1: 4 requests, end Disconnected"),
    ):
        daemon = Daemon(path, "1", *words)
        same(session(path, GET_FEATURES, acknowledged, unserved, GET_FEATURES), FEATURES + ack)
        same(daemon.end()[:2], (0, f"session {end}\n"))


# Requests that the example device or its session refuses, by code and body; and by what under Standard: an acknowledgement with 1, the
# body of the request's own reply, or the end of the stream.
REFUSED = [
    (6, struct.pack("<QQ", 4096, 0), "end"),
    (7, b"", "acknowledged"),
    (8, bytes(4), "acknowledged"),
    (11, struct.pack("<II", 9, 0), "end"),
    (18, struct.pack("<II", 0, 2), "acknowledged"),
    (20, struct.pack("<Q", 70000), "acknowledged"),
    (24, struct.pack("<III", 8, 4, 0), struct.pack("<III", 8, 0, 0)),
    (28, b"", b""),
    (29, b"", "acknowledged"),
    (30, b"", struct.pack("<Q", 1)),
    (31, struct.pack("<QQHHI", 0, 0, 1, 256, 0), struct.pack("<QQHHI", 0, 0, 1, 256, 0)),
    (32, struct.pack("<QQHHI", 4096, 0, 1, 8, 0), "acknowledged"),
    (37, struct.pack("<QQQQQ", 0, 0, 4096, 0, 0), "acknowledged"),
    (40, b"", "end"),
    (41, bytes([1] * 16), b""),
    (42, bytes(8), struct.pack("<Q", 0x101)),
    (44, b"", "end"),
]


def refusals_are_answered(path):
    """Under Standard a client that waits hears of each refusal, or is hung up on; else it waits in vain."""
    every = message(16, struct.pack("<Q", (1 << 23) - 1))
    daemon = Daemon(f"--socket-path={path}", "--profile=standard")
    for code, body, wanted in REFUSED:
        with connect(path) as client:
            ask(client)
            client.sendall(every + SET_OWNER + message(2, struct.pack("<Q", 0x40000003)) + message(code, body, 9))
            if wanted == "end":
                same(everything(client), b"")
            else:
                wait_for(client, message(code, struct.pack("<Q", 1) if wanted == "acknowledged" else wanted, 5))
    with connect(path) as client:
        ask(client)
    daemon.process.kill()
    daemon.process.wait()
    os.remove(path)
    os.remove(f"{path}.pid")
    return f"{len(REFUSED)} of {len(REFUSED)} answered"


def longest_path(path):
    """A path may have 107 bytes; with one more no socket can be made, which is no wrong argument."""
    longest = path + (107 - len(path)) * "x"
    daemon = Daemon(longest, "1")
    same(session(longest, GET_FEATURES), FEATURES)
    same(daemon.end(), (0, "session 1: 1 requests, end Disconnected\n", ""))
    too_long = f"vhost-daemon: {longest}x: the path is too long: 108 bytes, and at most 107 are allowed\n"
    same(run(longest + "x", "1"), (2, "", too_long))
    same(run(f"--socket-path={longest}x"), (2, "", too_long))


def more_clients_than_count(path):
    """Once all connections were taken nobody listens, and the path is gone."""
    daemon = Daemon(path, "1")
    served = connect(path)
    ask(served)
    wait_until(lambda: not os.path.exists(path), "the path stays")
    wait_until(lambda: not os.listdir(os.path.dirname(path)), "the lock stays")
    # Another daemon may listen there while the session of the first goes on.
    other = Daemon(path, "1")
    same(session(path, GET_FEATURES), FEATURES)
    same(other.end(), (0, "session 1: 1 requests, end Disconnected\n", ""))
    ask(served)
    served.close()
    same(daemon.end(), (0, "session 1: 2 requests, end Disconnected\n", ""))


def waiting_clients_are_refused(path):
    """Those that wait when the last connection is taken meet the end of their streams."""
    daemon = Daemon(path, "1")
    wait_until(lambda: is_socket(path), "nobody listens")
    daemon.process.send_signal(signal.SIGSTOP)
    clients = [connect(path) for _ in range(5)]
    daemon.process.send_signal(signal.SIGCONT)
    ask(clients[0])
    for client in clients[1:]:
        same(everything(client), b"")
        client.close()
    clients[0].close()
    same(daemon.end(), (0, "session 1: 1 requests, end Disconnected\n", ""))


def inquiries(path):
    status, output, errors = run("--help")
    same((status, errors), (0, ""))
    assert output.startswith(USAGE), output
    same(run("-h"), (0, output, ""))
    # The command answers the first, the program the second.
    same(run("--version"), (0, VERSION, ""))
    same(run("-v", "--version"), (0, VERSION, ""))
    assert run("-v", "--help")[1].startswith(USAGE)
    status, output, errors = run("--fd=3", "--print-capabilities")
    same((status, json.loads(output), errors), (0, {"type": "net"}, ""))


def verbose(path):
    """Each refused request is told with its name and error, and each session answers as it does without."""
    daemon = Daemon("-v", path, "4")
    same(session(path, GET_FEATURES, SET_OWNER, SET_OWNER, SET_VRING_NUM, GET_FEATURES), 2 * FEATURES)
    same(session(path, SET_VRING_KICK), b"")
    same(session(path, UNKNOWN), b"")
    same(session(path, GET_FEATURES, GET_FEATURES[:5]), FEATURES)
    lines = (
        "session 1: 5 requests, end Disconnected\n"
        "session 2: 0 requests, end InvalidMessage\n"
        "session 3: 0 requests, end InvalidMessage\n"
        "session 4: 1 requests, end PartialMessage\n"
    )
    told = (
        'session 1: request 3, SET_OWNER: InvalidOperation("already claimed")\n'
        "session 1: request 4, SET_VRING_NUM: InvalidParam\n"
        "session 2: request 1, SET_VRING_KICK: InvalidMessage\n"
        "session 3: request 1, code 200: InvalidMessage\n"
        "session 4: request 2, no header: PartialMessage\n"
    )
    same(daemon.end(), (0, lines, told))


def output_fails(path):
    """All sessions are served, and it is told at once."""
    daemon = Daemon(path, "2", output=open("/dev/full", "wb"))
    same(session(path, GET_FEATURES), FEATURES)
    same(session(path, GET_FEATURES), FEATURES)
    status, _, errors = daemon.end()
    same(status, 2)
    assert errors == f"vhost-daemon: {path}: the output failed: os error 28\n" or "output failed" in errors, errors


def output_that_nobody_reads(path):
    """Each session is served and gives back what it had; one thread at most waits to write. Each line comes once somebody reads."""
    daemon = Daemon("--socket-path=" + path, f"--count={UNREAD + 1}")
    fcntl.fcntl(daemon.process.stdout, fcntl.F_SETPIPE_SZ, 4096)
    for _ in range(UNREAD):
        same(session(path, GET_FEATURES), FEATURES)
    wait_until(lambda: daemon.status("Threads") <= 2, "sessions that ended keep threads")
    same(daemon.descriptors(), 5)
    same(session(path, GET_FEATURES), FEATURES)
    lines = "".join(f"session {n}: 1 requests, end Disconnected\n" for n in range(1, UNREAD + 2))
    same(daemon.end(), (0, lines, ""))


def many_at_once(path):
    """As many as COUNT allows; each line is there."""
    soft, hard = resource.getrlimit(resource.RLIMIT_NOFILE)
    resource.setrlimit(resource.RLIMIT_NOFILE, (min(2048, hard), hard))
    daemon = Daemon(path, "1024", files=1100)
    clients = [connect(path) for _ in range(1024)]
    for client in clients:
        ask(client)
    memory, threads = daemon.status("VmRSS"), daemon.status("Threads")
    for client in clients:
        client.close()
    same(daemon.end(), (0, "".join(f"session {n}: 1 requests, end Disconnected\n" for n in range(1, 1025)), ""))
    resource.setrlimit(resource.RLIMIT_NOFILE, (soft, hard))
    return f"{threads} threads, {memory} kB of memory"


def before_the_first_build(path):
    """Help, version and wrong arguments are answered where nothing was built, and nothing can be."""
    folder = pathlib.Path(path).parent
    copy = folder / "copy"
    (copy / "scripts/build").mkdir(parents=True)
    files = "vhost-daemon", "VERSION", "scripts/build/program.sh", "scripts/build/options.sh", "scripts/build/needs.sh"
    for name in files:
        (copy / name).write_bytes((TOP / name).read_bytes())
    for name in "vhost-daemon", "scripts/build/needs.sh":
        (copy / name).chmod(0o755)

    def told(*words):
        return run(*words, program=copy / "vhost-daemon", PATH="/usr/bin:/bin")

    same(told("--version"), (0, VERSION, ""))
    for word in "-h", "--help":
        status, output, errors = told(word)
        same((status, errors), (0, ""))
        assert output.startswith(USAGE), output
    for words in [], ["x"], ["x", "0"], ["x", "1025"], ["x", "y"], ["", "1"], ["x", "1", "2"], ["--count=1"], ["--cuont=1", "x", "1"]:
        status, output, errors = told(*words)
        same((status, output), (1, ""))
        assert errors.endswith(USAGE), errors
    # What is right is built first.
    same(told("x", "1")[0], 3)
    for name in files:
        (copy / name).unlink()
    for folder in copy / "scripts/build", copy / "scripts", copy:
        folder.rmdir()


def commands_of_pages(_):
    """The page on the daemon, and the guide for Rattle where its kit is there, as a new user follows them."""
    pages = ["docs/DAEMON.md", "docs/COMMANDS.md", *(["docs/guide/rattle.md"] if shutil.which("rt") else [])]
    ran = subprocess.run([sys.executable, TOP / "tests/programs/try_pages.py", TOP, *pages], stdout=subprocess.PIPE, text=True, check=False)
    assert ran.returncode == 0, ran.stdout
    return ", ".join(ran.stdout.splitlines()[:-1])


ROWS = [
    before_the_first_build,
    inquiries,
    wrong_arguments,
    lines_as_asked,
    lines_in_order_and_at_once,
    end_of_stream_at_once,
    verbose,
    output_fails,
    output_that_nobody_reads,
    closed_standard_streams,
    profiles,
    refusals_are_answered,
    longest_path,
    second_daemon,
    two_started_together,
    another_process_listens,
    other_things_at_the_path,
    other_things_at_the_lock_file,
    replaced_path,
    replaced_at_once,
    left_over_folder,
    more_clients_than_count,
    waiting_clients_are_refused,
    signals,
    no_descriptor_left,
    no_descriptor_and_no_session,
    no_thread_left,
    many_at_once,
    flat,
    commands_of_pages,
]


def play(row):
    """Whether a row holds; it says so in a line."""
    name = row.__name__.replace("_", " ")
    with tempfile.TemporaryDirectory() as folder:
        try:
            noted = row(folder + "/d.sock")
            same(os.listdir(folder), [])
        except Exception as failed:
            print(f"{name}: FAILED: {type(failed).__name__}: {failed}", flush=True)
            return False
        finally:
            for process in Daemon.running:
                if process.poll() is None:
                    process.kill()
                    process.wait()
            Daemon.running.clear()
    print(f"{name}: ok" + (f" ({noted})" if noted else ""), flush=True)
    return True


def main(words):
    # (a shell ignores it in what runs in the background, and so would the daemon)
    signal.signal(signal.SIGINT, signal.default_int_handler)
    # The program is built here, if it is not there.
    if subprocess.run([DAEMON, "--print-capabilities"], stdout=subprocess.DEVNULL).returncode != 0:
        print("try_daemon: the daemon could not be built", file=sys.stderr)
        return 3
    rows = [row for row in ROWS if not words or any(word in row.__name__ for word in words)]
    if not rows:
        print("try_daemon: no row has such a name", file=sys.stderr)
        return 2
    passed = [play(row) for row in rows]
    print(f"{sum(passed)} passed, {len(passed) - sum(passed)} failed")
    return 0 if all(passed) else 1


if __name__ == "__main__":
    sys.exit(main(sys.argv[1:]))
