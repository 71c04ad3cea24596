#!/usr/bin/env python3
# SPDX-License-Identifier: Apache-2.0
"""Measures programs beside each other, in turns, since what else a machine does then disturbs all of them: ./bench calls it.

  scripts/costs/turns.py against BENCH OTHER                 two programs that print figures, lines of a name and a number: the middle of both, and how
                                                             many times the other's that of the first is
  scripts/costs/turns.py vhost BENCH BESIDE [TURNS]          a round trip in Rust and in C beside the crate vhost's, both sides in two threads
  scripts/costs/turns.py disks LOAD IMAGE TURNS NAME=COMMAND..  disks: how many requests a second, and how much of a processor one takes

BENCH is the benchmark of c/bench, BESIDE the program of rust/fuzz/src/bin/beside.rs. A line of vhost is a figure, how many times the crate's the time
in Rust is, and in C: all are run on the processors that this may use, and the middle is shown. The last two are the bytes of memory that a frontend
and a backend have asked for in Rust and in C, and those of the crate.

LOAD is the compiled c/real/load.c, IMAGE a large file; each COMMAND begins a disk, with {socket} and {image} in it. Each disk is pinned to one
processor, the load to another. For each way: pages at random places from the page cache, one at a time, or 32; and 32 where the page cache has none. A
turn goes through all disks. Of each disk the best of its turns is shown, which is the one that others on the machine disturbed least.

Status 0; 1 where a disk or the load failed; 2 after wrong arguments; 4 where another program failed.
"""
import os
import re
import statistics
import subprocess
import sys
import tempfile
import time

TURNS = 3


def output(*words):
    """What a program prints."""
    ran = subprocess.run(words, stdout=subprocess.PIPE, text=True, check=False)
    if ran.returncode:
        print(f"bench: {words[0]} ended with status {ran.returncode}", file=sys.stderr)
        sys.exit(4)
    return ran.stdout


# -- Two programs --


def figures(program):
    """What one run of the program prints, by name."""
    found = {}
    for line in output(program).splitlines():
        words = line.split()
        try:
            found[words[0]] = float(words[1])
        except (IndexError, ValueError):
            print(f"bench: {program} printed no figure: {line}", file=sys.stderr)
            sys.exit(4)
    return found


def against(bench, program):
    own, other = [], []
    for _ in range(TURNS):
        own.append(figures(bench))
        other.append(figures(program))
    for name in own[0]:
        mine = statistics.median(it[name] for it in own)
        theirs = [it[name] for it in other if name in it]
        if theirs:
            middle = statistics.median(theirs)
            print(f"{name} {mine:.1f} {middle:.1f} {mine / max(middle, 0.1):.2f}")
        else:
            print(f"{name} {mine:.1f} - -")
    for name in other[0]:
        if name not in own[0]:
            print(f"{name} - {statistics.median(it[name] for it in other):.1f} -")


# -- The crate vhost --

# Each, and what the program of c/bench calls it.
FIGURES = {
    "get_features": "threads_get_features", "acknowledged": "threads_acknowledged", "get_config_256": "threads_get_config_256",
    "backend_session": "service_session", "frontend_session": "connection_session",
}
CALLS = "10000"


def seconds(*words):
    begun = time.monotonic()
    output(*words)
    return time.monotonic() - begun


def vhost(bench, beside, turns=7):
    rust, memory = {}, []
    for _ in range(turns):
        lines = [line.split() for line in output(beside).splitlines()]
        for name, *found in lines:
            if name in FIGURES:
                rust.setdefault(name, []).append(float(found[2]))
        memory = [line for line in lines if line[0] not in FIGURES]
    for name, in_c in FIGURES.items():
        pairs = [(seconds(bench, "--one", in_c, CALLS), seconds(beside, "--one", name, CALLS)) for _ in range(3 * turns)]
        print(name, f"{statistics.median(rust[name]):.2f}", f"{statistics.median(c / crate for c, crate in pairs):.2f}")
    bytes_in_c = dict(line.split() for line in output(bench, "--bytes").splitlines())
    for name, here, there in memory:
        print(name, here, bytes_in_c[name], there)


# -- Disks --

# The name, how many requests are under way, how many are done, whether the page cache has the image.
WAYS = [("cached_1", 1, 20000, True), ("cached_32", 32, 100000, True), ("uncached_32", 32, 20000, False)]


def warm(image):
    with open(image, "rb") as it:
        while it.read(1 << 22):
            pass


def cool(image):
    with open(image, "rb") as it:
        os.fdatasync(it.fileno())
        os.posix_fadvise(it.fileno(), 0, 0, os.POSIX_FADV_DONTNEED)


def pinned(number, words, **more):
    processors = sorted(os.sched_getaffinity(0))
    return subprocess.Popen(words, preexec_fn=lambda: os.sched_setaffinity(0, {processors[number % len(processors)]}), **more)


def measure(load, command, image, depth, count):
    """Begins a disk, and asks it: requests a second, and nanoseconds of a processor each."""
    with tempfile.TemporaryDirectory() as room:
        path = f"{room}/socket"
        words = [word.format(socket=path, image=image) for word in command.split()]
        disk = pinned(1, words, stdout=subprocess.DEVNULL, stderr=subprocess.DEVNULL)
        try:
            while not os.path.exists(path):
                if disk.poll() is not None:
                    raise SystemExit(f"it did not begin: {command}")
                time.sleep(0.01)
            said = pinned(0, [load, path, str(disk.pid), str(depth), str(count)], stdout=subprocess.PIPE, text=True)
            found = re.search(r"took (\d+) requests a second, (\d+) ns each", said.communicate()[0])
        finally:
            disk.terminate()
            disk.wait()
    if not found:
        raise SystemExit(f"the load failed: {command}")
    return int(found[1]), int(found[2])


def disks(load, image, turns, *named):
    commands = dict(it.split("=", 1) for it in named)
    for way, depth, count, is_cached in WAYS:
        seen = {name: [] for name in commands}
        for _ in range(turns):
            for name, command in commands.items():
                (warm if is_cached else cool)(image)
                seen[name].append(measure(load, command, image, depth, count))
        for name, all_of in seen.items():
            rate, each = max(it[0] for it in all_of), min(it[1] for it in all_of)
            print(f"{way} {name} {rate} requests a second, {each} ns of a processor each", flush=True)


def main(words):
    kind, rest = words[:1], words[1:]
    if kind == ["against"] and len(rest) == 2:
        against(*rest)
    elif kind == ["vhost"] and len(rest) in (2, 3) and all(it.isdigit() and int(it) for it in rest[2:]):
        vhost(*rest[:2], *map(int, rest[2:]))
    elif kind == ["disks"] and len(rest) > 3 and rest[2].isdigit() and all("=" in it for it in rest[3:]):
        disks(*rest[:2], int(rest[2]), *rest[3:])
    else:
        print(__doc__, end="", file=sys.stderr)
        return 2
    return 0


if __name__ == "__main__":
    sys.exit(main(sys.argv[1:]))
