# SPDX-License-Identifier: Apache-2.0
"""Tries covretin-ask against backends at Unix sockets: ask.py PROGRAM DAEMON RUN.

PROGRAM is covretin-ask; DAEMON serves the example device, as ./vhost-daemon; RUN plays lines against it in memory, as ./vhost-run. Prints a line
for each row; status 1 where one failed.
"""
import os
import re
import socket
import struct
import subprocess
import sys
import tempfile
import threading
import time

HEADER = struct.Struct("<III")
ACKNOWLEDGES = 1 << 3
OFFERED = 1 | ACKNOWLEDGES | 1 << 9 | 1 << 12 | 1 << 15 | 1 << 18

# Lines without a descriptor. The example device gives the same answers in memory and at a socket.
LINES = """# what both sides agree on
get_features
set_owner
set_features 0x40000001

get_protocol_features
set_protocol_features 0x7fbfff
get_queue_num
set_hdr_flags 8
set_vring_num 0 256
set_vring_num 0 300
set_vring_num 9 256
set_vring_addr 0 0 0x1000 0x2000 0x3000
set_vring_base 1 5
get_vring_base 1
set_vring_enable 0 1
get_config 0x100 4 0
set_config 0x100 0 A5a5a5a5
get_config 0x100 4 3
get_config 0 4096 0
get_max_mem_slots
set_mtu 1500
set_mtu 0
reset_device
set_hdr_flags 0
get_features
"""

# What opens a session with the peer of this file.
AGREED = "get_features\nset_features 0x40000000\nset_protocol_features 0x49209\nset_hdr_flags 8\n"

# Lines that are no call, each with what is wrong.
BAD = [
    ("nonsense", "word 1: no call has this name: nonsense"),
    (" get_features", "word 1: no call has this name"),
    ("set_features", "word 2: missing"),
    ("set_vring_num 0", "word 3: missing"),
    ("set_vring_num 0 256 1", "word 4: one too many: 1"),
    ("set_vring_num  0", "word 2: empty"),
    ("set_vring_num 0 x", "word 3: no number: x"),
    ("set_features 0x", "word 2: no number: 0x"),
    ("set_features -1", "word 2: no number: -1"),
    ("set_features 18446744073709551616", "word 2: too large: 18446744073709551616"),
    ("set_vring_num 0 65536", "word 3: too large: 65536"),
    ("set_vring_enable 0 2", "word 3: no such value: 2"),
    ("set_protocol_features 0x800000", "word 2: no such value: 0x800000"),
    ("get_config 0 1 4", "word 4: no such value: 4"),
    ("set_hdr_flags 4", "word 2: no such value: 4"),
    ("postcopy_ack_mem_regions 0", "word 2: no such value: 0"),
    ("set_device_state_fd 2 0 event", "word 2: no such value: 2"),
    ("set_device_state_fd 0 1 event", "word 3: no such value: 1"),
    ("set_config 0 0 abc", "word 4: no bytes: abc"),
    ("get_shared_object 0102", "word 2: not 16 bytes: 0102"),
    ("set_log_fd nothing", "word 2: no number: nothing"),
    ("set_log_fd memory:", "word 2: no number: memory:"),
    ("set_log_base 0 0x1000", "word 4: missing"),
    ("set_mem_table 0 0x1000 0x7000 0", "word 6: missing"),
    ("set_mem_table 0 0x1000 0x7000 0 event 0x2000", "word 8: missing"),
]


def same(got, wanted):
    assert got == wanted, f"{got!r} in place of {wanted!r}"


class Peer:
    """A backend for one frontend. It keeps what the descriptors hold that came, and how many the frontend has open at each request."""

    def __init__(self, path, ends_at=None, stops_at=None):
        self.listener = socket.socket(socket.AF_UNIX)
        self.listener.bind(path)
        self.listener.listen()
        self.asked, self.held, self.open, self.features = [], [], [], 0
        self.ends_at, self.stops_at = ends_at, stops_at
        self.thread = threading.Thread(target=self.serve)
        self.thread.start()

    def serve(self):
        sock, _ = self.listener.accept()
        with sock:
            self.pid = struct.unpack("3i", sock.getsockopt(socket.SOL_SOCKET, socket.SO_PEERCRED, 12))[0]
            while self.is_served(sock):
                pass

    def is_served(self, sock):
        head, fds, _, _ = socket.recv_fds(sock, HEADER.size, 32)
        if not head:
            return False
        code, flags, size = HEADER.unpack(head)
        body = sock.recv(size, socket.MSG_WAITALL)
        self.asked.append((code, len(fds)))
        self.open.append(len(os.listdir(f"/proc/{self.pid}/fd")))
        self.held += [self.kind(fd) for fd in fds]
        if code == self.ends_at:
            return False
        if code == self.stops_at:
            sock.recv(1)
            return False
        text, given = self.reply(code, body)
        if text is None and flags & 8 and self.features & ACKNOWLEDGES:
            text = bytes(8)
        if text is not None:
            socket.send_fds(sock, [HEADER.pack(code, 5, len(text)) + text], given)
        for fd in (*fds, *given):
            os.close(fd)
        return True

    @staticmethod
    def kind(fd):
        """What a descriptor is, and what it holds at its start."""
        name = re.sub(r":\[\d+\]$", "", os.readlink(f"/proc/self/fd/{fd}"))
        name = re.sub(r"^.*/", "", name)
        return (name, os.fstat(fd).st_size, os.pread(fd, 4, 0)) if name.startswith("mem") else (name,)

    def reply(self, code, body):
        if code == 1:
            return struct.pack("<Q", 1 << 30 | 1), ()
        if code == 15:
            return struct.pack("<Q", OFFERED), ()
        if code == 16:
            self.features = struct.unpack("<Q", body)[0]
        if code == 31:
            fd = os.memfd_create("inflight")
            return struct.pack("<QQHH4x", 0x1000, 8, 2, 128), (fd,)
        if code == 41:
            return b"", (os.eventfd(0), os.eventfd(0)) if body[0] == 1 else ()
        if code == 24:
            return body[:12] + b"\x5a" * (len(body) - 12), ()
        return None, ()


def ask(program, path, lines, *words, **how):
    ran = subprocess.run([program, *words, path], input=lines.encode() if isinstance(lines, str) else lines, capture_output=True, check=False, **how)
    return ran.returncode, ran.stdout.decode(), ran.stderr.decode()


def asked(room, program, lines, *words, peer=None, **how):
    """A run against a peer: status, output, errors, and the peer."""
    path = tempfile.mktemp(dir=room)
    peer = Peer(path, **(peer or {}))
    try:
        return (*ask(program, path, lines, *words, **how), peer)
    finally:
        peer.listener.shutdown(socket.SHUT_RDWR)
        peer.thread.join()
        peer.listener.close()


def answers_of(output):
    return [line.split(" ", 2)[2] for line in output.splitlines()]


def same_as_in_memory(room, program, daemon, run):
    """Each line prints what it prints in memory, bytes and all, in either profile."""
    for profile in ("standard", "vhost"):
        path = f"{room}/daemon.{profile}"
        with subprocess.Popen([daemon, path, "1"] if profile == "vhost" else [daemon, f"--socket-path={path}", "--count=1", f"--profile={profile}"],
                              stdout=subprocess.DEVNULL) as serving:
            while not os.path.exists(path):
                assert serving.poll() is None, "the daemon ended"
                time.sleep(0.05)
            got = ask(program, path, LINES, f"--profile={profile}")
            same(serving.wait(), 0)
        ran = subprocess.run([run, "--comments", f"--profile={profile}"], input=LINES.encode(), capture_output=True, check=True)
        wanted, why = ran.stdout.decode(), ran.stderr.decode()
        same(got, (0, wanted, why))
        same(why, "line 12: set_vring_num refused: there are 2 rings, from 0 on, and no ring 9\n")
        assert wanted.count("\n") == 24, wanted


# Lines of which some are refused before anything is sent, and what is said to these: of a ring only where it is none.
REFUSED = """# nothing was accepted yet
get_features
get_config 0x100 4 0

set_vring_enable 0 1
get_vring_base 0x5
set_vring_num 02 256
set_vring_call 1 1000
get_features
set_config 0x100 3 -
"""
REASONS = [
    "line 3: get_config refused: CONFIG was not accepted",
    "line 5: set_vring_enable refused: PROTOCOL_FEATURES was not accepted",
    "line 6: get_vring_base refused: there are 2 rings, from 0 on, and no ring 5",
    "line 7: set_vring_num refused: there are 2 rings, from 0 on, and no ring 2",
]


def reasons_of_refusals(room, program, _, run):
    """What a call lacked, or which ring there is not, in memory and at a socket; what is printed stays as it is without."""
    given = REFUSED.replace("1000", "event").replace("set_config 0x100 3 -\n", "")
    status, output, errors, peer = asked(room, program, given)
    answers = ["ok 0x40000001", "err InactiveOperation 0x200", "err InactiveFeature 0x40000000", "err InvalidParam", "err InvalidParam", "ok", "ok 0x40000001"]
    same((status, answers_of(output), [code for code, _ in peer.asked]), (0, answers, [1, 13, 1]))
    same(errors.splitlines(), [*REASONS[:2], *(f"{it}: --rings=N says how many, or get_queue_num" for it in REASONS[2:])])
    same(asked(room, program, "set_vring_num 5 256\nset_vring_num 6 256\n", "--rings=6")[2].splitlines(),
         ["line 2: set_vring_num refused: there are 6 rings, from 0 on, and no ring 6: --rings=N says how many, or get_queue_num"])
    for words, said in (["--comments"], REASONS), (["--comments", "-q"], []), (["-q", "-v", "--comments"], REASONS):
        ran = subprocess.run([run, "--profile=standard", *words], input=REFUSED.encode(), capture_output=True, check=False)
        bad = ["line 10: bad call: word 4: no bytes" if said else "line 10: bad call"]
        same((ran.returncode, answers_of(ran.stdout.decode().replace("0x40000003", "0x40000001"))), (1, answers))
        same(ran.stderr.decode().splitlines(), said + bad)
    # (the last line has no end, and what is long is no other line)
    given = "get_features\nset_protocol_features 0x200\nset_config 0x100 0 " + "a5" * 4000 + "\nget_config 0 4085 0\nset_mtu 1"
    ran = subprocess.run([run, "--comments", "--profile=standard"], input=given.encode(), capture_output=True, check=False)
    same((ran.returncode, ran.stderr.decode()), (0, "line 5: set_mtu refused: MTU was not accepted\n"))


def descriptors_of_each_form(room, program, *_):
    """The backend gets what each word stands for; what a line opened is closed behind it."""
    with open(f"{room}/memory", "wb") as file:
        file.write(b"low memory")
    lines = AGREED + (
        f"set_mem_table 0 0x1000 0x7f0000000000 0 file:{room}/memory 0x1000 0x2000 0x7f0000100000 0 memory:0x2000\n"
        "set_vring_kick 0 event\nset_vring_call 0 5\nset_vring_err 0 7\nset_log_fd socket\nget_features\n"
    )
    with open(f"{room}/memory", "rb") as file:
        number = file.fileno()
        given = os.dup2(number, 7)
        status, output, errors, peer = asked(room, program, lines, "--fd", "5=memory:8", pass_fds=(given,))
        os.close(given)
    same((status, errors), (0, ""))
    same(answers_of(output)[4:], ["ok none", "ok", "ok", "ok", "ok", "ok 0x40000001"])
    assert f"[file:{room}/memory,memory:0x2000] " in output and "[event] " in output and "[5] " in output and "[7] " in output, output
    same(peer.asked[-6:], [(5, 2), (12, 1), (13, 1), (14, 1), (7, 1), (1, 0)])
    same([it[0] for it in peer.held], ["memory", "memfd:covretin-ask (deleted)", "anon_inode:[eventfd]", "memfd:covretin-ask (deleted)", "memory", "socket"])
    same((peer.held[0][1:], peer.held[1][1], peer.held[3][1]), ((10, b"low "), 0x2000, 8))
    # behind the socket its other end stays
    same(peer.open[-1], peer.open[0] + 1)


def answers_with_descriptors(room, program, *_):
    """A descriptor of a reply is named by its kind, and closed; one too many is an error, and none stays open."""
    lines = AGREED + "get_inflight_fd 0 0 2 128\nget_config 0 4 0\nget_shared_object 02000000000000000000000000000000\nget_features\n"
    status, output, errors, peer = asked(room, program, lines)
    same((status, errors), (0, ""))
    wanted = ["ok 0x1000 0x8 0x2 0x80 [memfd:inflight]", "ok 0x0 0x4 0x0 5a5a5a5a", "err BackendInternalError", "ok 0x40000001"]
    same(answers_of(output)[4:], wanted)
    assert "[memfd:inflight] ok" in output, output
    same(peer.open[-1], peer.open[0])
    status, output, errors, _ = asked(room, program, AGREED + "get_shared_object 01000000000000000000000000000000\nget_features\n")
    same((status, answers_of(output)[4:]), (4, ["err IncorrectFds"]))
    same(errors, "covretin-ask: line 5: the session ended: wrong number of attached fds\n")


def sessions_that_end(room, program, *_):
    """A backend that goes, and one that replies nothing within the limit: the line is shown, and the status is that of a failure."""
    for peer, words, name, text in [
        ({"ends_at": 15}, [], "Disconnected", "peer disconnected"),
        ({"stops_at": 15}, ["--limit=1"], "TimedOut", "the limit of time passed"),
    ]:
        status, output, errors, _ = asked(room, program, "get_features\n\nget_protocol_features\nset_owner\n", *words, peer=peer)
        same((status, answers_of(output)[1:]), (4, [f"err {name}"]))
        same(errors, f"covretin-ask: line 3: the session ended: {text}\n")


def lines_that_are_no_call(room, program, *_):
    """The line, the word and what is wrong with it; those before it were done, and nothing behind."""
    for line, why in BAD:
        status, output, errors, peer = asked(room, program, f"get_features\n# {line}\n{line}\nset_owner\n")
        same((status, answers_of(output), errors), (1, ["ok 0x40000001"], f"line 3: bad call: {why}\n"))
        same(peer.asked, [(1, 0)])
    status, _, errors, _ = asked(room, program, "help\n")
    same((status, errors.startswith("line 1: bad call: word 1: the calls are get_features, "), errors.count(", ")), (1, True, 37))
    status, _, errors, _ = asked(room, program, b"set_owner\0\n")
    same((status, errors), (1, "line 1: bad call: word 1: a byte of 0: set_owner\n"))


def descriptors_that_cannot_be(room, program, *_):
    """A file that is not there, a folder, a number that nobody opened: a failure of the system, by its name."""
    for line, why in [
        (f"set_log_fd file:{room}/none", f"word 2: file:{room}/none: No such file or directory"),
        ("set_log_fd 9", "word 2: no descriptor 9 is open"),
        ("set_log_fd 4294967295", "word 2: no descriptor 4294967295 is open"),
        (f"set_log_fd file:{room}", f"word 2: file:{room}: Is a directory"),
    ]:
        status, output, errors, peer = asked(room, program, f"{line}\nset_owner\n")
        same((status, output, peer.asked), (4, "", []))
        same(errors, f"covretin-ask: line 1: {why}\n")


def wrong_arguments(room, program, *_):
    """Each is named before anything is connected to; what is missing or fails has another status than what is wrong."""
    for words, status, text in [
        ([], 2, "no path: the path of a socket is wanted"),
        (["--rings=0", "x"], 2, "--rings=0: too small"),
        (["--rings=a", "x"], 2, "--rings=a: no number"),
        (["--limit=1000001", "x"], 2, "--limit=1000001: too large"),
        (["--profile=none", "x"], 2, "--profile=none: there is no such option"),
        (["--fd"], 2, "--fd: there is no such option"),
        (["--fd", "3", "x"], 2, "3: --fd wants N=FORM"),
        (["--fd", "3=x", "x"], 2, "x: no form of a descriptor"),
        (["--fd", "a=event", "x"], 2, "a: no number"),
        (["x", "y"], 2, "y: one path alone is wanted"),
        (["x" * 200], 2, "x" * 200 + ": the socket's path is empty or too long"),
        ([f"{room}/none"], 4, f"{room}/none: No such file or directory"),
        (["--fd", f"3=file:{room}/none", "x"], 4, f"file:{room}/none: No such file or directory"),
    ]:
        ran = subprocess.run([program, *words], input=b"", capture_output=True, check=False)
        same((ran.returncode, ran.stdout), (status, b""))
        same(ran.stderr.decode().splitlines()[0], f"covretin-ask: {text}")
        same("usage:" in ran.stderr.decode(), status == 2)
    for word, begins in (("--help", b"usage: "), ("-h", b"usage: "), ("--version", b"covretin-ask ")):
        ran = subprocess.run([program, word], capture_output=True, check=False)
        same((ran.returncode, ran.stdout[: len(begins)], ran.stderr), (0, begins, b""))


def streams_that_fail(room, program, *_):
    """An output that is full, or that nobody reads, and an input that is closed."""
    with open("/dev/full", "wb") as full:
        ran = subprocess.run([program, "--help"], stdout=full, stderr=subprocess.PIPE, check=False)
    same((ran.returncode, ran.stderr), (4, b"covretin-ask: output: No space left on device\n"))
    for number, name in enumerate(("input", "output")):
        ran = subprocess.run(["sh", "-c", f'exec "$0" "$1" {number}>&-', program, f"{room}/none"], stderr=subprocess.PIPE, check=False)
        same((ran.returncode, ran.stderr), (4, f"covretin-ask: {name}: Bad file descriptor\n".encode()))


ROWS = [same_as_in_memory, reasons_of_refusals, descriptors_of_each_form, answers_with_descriptors, sessions_that_end, lines_that_are_no_call,
        descriptors_that_cannot_be, wrong_arguments, streams_that_fail]


def main():
    failed = 0
    for row in ROWS:
        why = None
        with tempfile.TemporaryDirectory() as room:
            try:
                row(room, *sys.argv[1:])
            except (AssertionError, OSError, subprocess.SubprocessError) as error:
                why = f"{type(error).__name__}: {error}"
        failed += why is not None
        print(f"ask_{row.__name__}: {'ok' if why is None else 'FAILED'}" if why is None else f"{why}\nask_{row.__name__}: FAILED", flush=True)
    return 1 if failed else 0


if __name__ == "__main__":
    sys.exit(main())
