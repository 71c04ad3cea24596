#!/usr/bin/env python3
# SPDX-License-Identifier: Apache-2.0
"""Tries the program of ./vhost-run where no script of lines can: inputs and outputs that fail, writes that are interrupted, and many lines.

  tests/programs/try_run.py PROGRAM [ROW..]     PROGRAM is vhost_run, as it was built or compiled; each ROW is a function below

It prints a line for each row, and last 'N passed, M failed'. Status 0 where all held, 1 where some did not, 2 after wrong arguments.
"""
import os
import resource
import shutil
import signal
import socket
import struct
import subprocess
import sys
import tempfile

HERE = os.path.dirname(os.path.realpath(__file__))

FEATURES = b"010000000100000000000000 0100000005000000080000000300004000000000 ok 0x40000003\n"

# Lines that begin a session.
BEGINNING = b"""get_features
set_owner
set_features 0x40000001
get_protocol_features
set_protocol_features 0x7fbfff
"""

# Twenty lines, after which the session is as before them.
ROUND = b"""get_queue_num
set_hdr_flags 8
set_vring_num 0 256
set_vring_num 0 300
set_vring_num 9 256
set_vring_addr 0 0 0x1000 0x2000 0x3000
set_vring_base 1 5
set_hdr_flags 0
get_vring_base 1
set_vring_kick 0 7
set_vring_call 1 8
set_vring_enable 0 1
get_config 0x100 4 0
set_config 0x100 0 a5a5a5a5
set_mem_table 0 0x1000 0x7000 0 3 0x100000 0x1000 0x9000 0x1000 4
add_mem_region 0x200000 0x1000 0xa000 0x1000 4
remove_mem_region 0x200000 0x1000 0xa000 0x1000 4
set_log_base 0 0x1000 0 5
set_inflight_fd 0x1000 0 2 256 12
get_max_mem_slots
"""

ROUNDS = 500

# Calls that the example device, which has no descriptor to give any more, refuses by their own replies.
REFUSED = b"""get_features
set_owner
set_features 0x40000000
set_protocol_features 0x41308
"""
REFUSED += 8 * b"get_shared_object 0102030405060708090a0b0c0d0e0f10\n"
AWAITED = b"""get_shared_object 0102030405060708090a0b0c0d0e0f10
postcopy_advise
get_inflight_fd 0 0 1 256
get_config 0 8 0
"""


def run(program, given, *words, stdout=subprocess.PIPE, stderr=subprocess.PIPE, **how):
    """The status of a run of these lines, and what it wrote to its two outputs, where they are pipes."""
    ran = subprocess.run([program, *words], input=given, stdout=stdout, stderr=stderr, check=False, **how)
    return ran.returncode, ran.stdout, ran.stderr


def same(got, wanted):
    assert got == wanted, f"{got} in place of {wanted}"


def narrow(size):
    """Files grow to so many bytes, and a write beyond that fails."""

    def limit():
        signal.signal(signal.SIGXFSZ, signal.SIG_IGN)
        resource.setrlimit(resource.RLIMIT_FSIZE, (size, size))

    return limit


def into_file(program, given, size, which):
    """The status of a run one of whose outputs is a file with so much room, what it wrote there, and what it wrote to the other."""
    with tempfile.TemporaryFile() as file:
        status, output, errors = run(program, given, preexec_fn=narrow(size), **{which: file})
        file.seek(0)
        return status, file.read(), errors if which == "stdout" else output


def torn_input(program):
    """What came before a connection was reset is shown, and why it broke off is told."""
    with socket.create_server(("127.0.0.1", 0)) as server, socket.create_connection(server.getsockname()) as client:
        inside, _ = server.accept()
        with inside, subprocess.Popen([program], stdin=inside, stdout=subprocess.PIPE, stderr=subprocess.PIPE) as ran:
            client.sendall(b"get_features\nset_own")
            same(ran.stdout.readline(), FEATURES)
            client.setsockopt(socket.SOL_SOCKET, socket.SO_LINGER, struct.pack("ii", 1, 0))
            client.close()
            same(ran.communicate(), (b"", b"input: Connection reset by peer (os error 104)\n"))
            same(ran.returncode, 2)


def failing_outputs(program):
    """A line that does not fit is status 2, and the reason is told; one that just fits is no failure."""
    same(into_file(program, b"get_features\n", len(FEATURES), "stdout"), (0, FEATURES, b""))
    too_large = b"output: File too large (os error 27)\n"
    same(into_file(program, b"get_features\n", len(FEATURES) - 1, "stdout"), (2, FEATURES[:-1], too_large))
    with open("/dev/full", "wb") as full:
        no_space = b"output: No space left on device (os error 28)\n"
        same(run(program, b"get_features\n", stdout=full), (2, None, no_space))
        same(run(program, b"# one line\nget_features\n", "--comments", stdout=full), (4, None, no_space))


def output_that_nobody_reads(program):
    reader, writer = os.pipe()
    os.close(reader)
    with open(writer, "wb") as pipe:
        same(run(program, b"get_features\n", stdout=pipe, restore_signals=False), (2, None, b"output: Broken pipe (os error 32)\n"))


def failing_errors(program):
    """A bad line that can't be told is status 2, and not 1."""
    told = b"line 1: bad call\n"
    same(into_file(program, b"nonsense\n", len(told), "stderr"), (1, told, b""))
    same(into_file(program, b"nonsense\n", len(told) - 1, "stderr"), (2, told[:-1], b""))


def help_lists_the_calls(program):
    """A line that asks for help is no call, and is told which there are."""
    status, output, errors = run(program, b"# which calls are there?\n\nhelp\n", "--comments")
    begins = b"line 3: bad call: word 1: the calls are "
    same((status, output, errors[: len(begins)]), (1, b"", begins))
    listed = set(errors[len(begins) :].strip().split(b", "))
    same({line.split()[0] for line in (BEGINNING + ROUND + REFUSED + AWAITED).splitlines()} - listed, set())


def interrupted_writes(program):
    """Each byte is a write of its own, and before each a write is interrupted."""
    cc = shutil.which("cc")
    if not cc:
        return "left out: no cc on PATH"
    with tempfile.TemporaryDirectory() as room:
        subprocess.run([cc, "-shared", "-fPIC", "-o", f"{room}/interrupt.so", f"{HERE}/interrupt.c"], check=True)
        environment = {"LD_PRELOAD": f"{room}/interrupt.so", "COUNT": f"{room}/count"}
        same(run(program, b"get_features\n", env=environment), (0, FEATURES, b""))
        with open(f"{room}/count", encoding="ascii") as count:
            same(int(count.read()), len(FEATURES))
    return None


def ten_thousand_lines(program):
    """Each of five hundred rounds prints what the first did."""
    status, output, errors = run(program, BEGINNING + ROUNDS * ROUND)
    same((status, errors), (0, b""))
    lines = output.split(b"\n")
    same(lines.pop(), b"")
    before = BEGINNING.count(b"\n")
    each = ROUND.count(b"\n")
    same(len(lines), before + ROUNDS * each)
    same(lines[before:], ROUNDS * lines[before : before + each])


def refusals_by_replies(program):
    """Under Standard whoever waits is answered, and both sides go on: each refusal is followed by an answer of its own call."""
    each = b"".join(it + b"\nget_features\n" for it in AWAITED.splitlines())
    status, output, errors = run(program, REFUSED + each, "--profile=standard")
    same((status, errors), (0, b""))
    lines = output.splitlines()[-2 * len(AWAITED.splitlines()):]
    same([it.split(b" ", 2)[2] for it in lines], 4 * [b"err BackendInternalError", b"ok 0x40000003"])


ROWS = [
    torn_input,
    failing_outputs,
    output_that_nobody_reads,
    failing_errors,
    help_lists_the_calls,
    interrupted_writes,
    ten_thousand_lines,
    refusals_by_replies,
]


def play(row, program):
    """Whether a row holds; it says so in a line."""
    try:
        note = row(program)
    except (AssertionError, OSError, subprocess.SubprocessError) as error:
        print(f"{row.__name__}: FAILED: {error}")
        return False
    print(f"{row.__name__}: ok{f' ({note})' if note else ''}")
    return True


def main(words):
    named = [row for row in ROWS if row.__name__ in words[1:]]
    if not words or len(named) != len(words[1:]):
        print(__doc__, end="", file=sys.stderr)
        return 2
    held = [play(row, os.path.abspath(words[0])) for row in named or ROWS]
    print(f"{held.count(True)} passed, {held.count(False)} failed")
    return 0 if all(held) else 1


if __name__ == "__main__":
    sys.exit(main(sys.argv[1:]))
