#!/usr/bin/env python3
# SPDX-License-Identifier: Apache-2.0
"""Measures chains of a split queue beside each other's devices, in turns: nanoseconds a chain, and instructions.

  scripts/costs/chains.py TURNS NAME=PROGRAM..            each PROGRAM is c/bench/chains, compiled with a device; the one called 'none' has no device,
                                                    and what it takes is taken off
  scripts/costs/chains.py --instructions NAME=PROGRAM..   counts alone, each once, by valgrind
  scripts/costs/chains.py --within QUEUES [--write]       counts what a chain takes within the library of queues, an object, and compares it
                                                          with c/tests/chains.tsv, or writes it there

For each shape of chain a line tells what each takes, the middle of its turns, and how many times the first one's time that of each other is,
the middle of the turns again. All are pinned to one processor. Counted within the library is not what the program's own functions do, nor the C
library's, which differ from machine to machine; a line tells each count that is more than 3 % off, and whether a ring's size changes what a chain costs
by as much.

Status 0; 1 where a program failed, or a count is off; 2 after wrong arguments; 3 where cc, nm or valgrind is not there, or a count failed.
"""
import os
import re
import shutil
import statistics
import subprocess
import sys
import tempfile

from costs import OFF, TOP, own
from costs import run as ran

# How many descriptors a chain has, where, when the driver is told of it, in how many regions its buffers lie, and the ring's size.
CHAIN = [(length, where) for length in (1, 3, 8) for where in ("direct", "indirect")] + [(32, "direct")]
SHAPES = [(*chain, "flags", regions, 256) for chain in CHAIN for regions in (1, 32)]
SHAPES += [(1, "direct", "event", 1, 256), (1, "direct", "flags", 1, 64), (1, "direct", "flags", 1, 32768), (8, "direct", "flags", 500, 256)]
# libvhost-user has places for no more regions.
MOST_REGIONS = 32
CHAINS = 40000
FEW, MANY = 3200, 12800


def run(words):
    ran = subprocess.run(words, stdin=subprocess.DEVNULL, stdout=subprocess.PIPE, stderr=subprocess.PIPE, text=True)
    if ran.returncode:
        print(f"chains: {' '.join(words[-7:])} ended with status {ran.returncode}: {ran.stderr[-300:]}", file=sys.stderr)
        sys.exit(1)
    return ran


def pinned(words):
    """On one processor, before others where this process may ask for that."""
    before = ["chrt", "-f", "50"]
    may_be_first = subprocess.run([*before, "true"], stderr=subprocess.DEVNULL).returncode == 0
    return [*(before if may_be_first else []), "taskset", "-c", str(max(os.sched_getaffinity(0))), *words]


def took(program, shape):
    return float(run([*pinned([program]), *map(str, shape), str(CHAINS)]).stdout)


def instructions(program, shape):
    """What one chain more takes."""
    seen = []
    for count in FEW, MANY:
        with tempfile.TemporaryDirectory() as room:
            told = run(["valgrind", "--tool=callgrind", f"--callgrind-out-file={room}/out", program, *map(str, shape), str(count)]).stderr
        seen.append(int(re.search(r"Collected : (\d+)", told)[1]))
    return round((seen[1] - seen[0]) / (MANY - FEW))


def told(shape):
    return "chain_%d_%s_%s_of_%d_in_%d" % shape


def shapes_of(devices):
    """Those that all of these devices take."""
    return SHAPES if len(devices) == 1 else [it for it in SHAPES if it[3] <= MOST_REGIONS]


def timed(turns, devices):
    none, first = devices.pop("none"), next(iter(devices))
    for shape in shapes_of(devices):
        seen = {name: [] for name in devices}
        for _ in range(turns):
            alone = took(none, shape)
            for name, program in devices.items():
                seen[name].append(took(program, shape) - alone)
        took_each = [f"{name} {statistics.median(all_of):.0f} ns" for name, all_of in seen.items()]
        beside = [(name, statistics.median(one / other for one, other in zip(seen[first], seen[name]))) for name in devices if name != first]
        print(f"{told(shape)}:", "; ".join(took_each + [f"{ratio:.2f} of {name}" for name, ratio in beside]), flush=True)


def counted(devices):
    none = devices.pop("none")
    for shape in shapes_of(devices):
        alone = instructions(none, shape)
        print(f"{told(shape)}:", "; ".join(f"{name} {instructions(program, shape) - alone}" for name, program in devices.items()), flush=True)


# -- Within the library --

KEPT = f"{TOP}/c/tests/chains.tsv"
SOURCES = f"{TOP}/c/bench/chains"
# Devices that take their chains by single calls, and by those for many.
DEVICES = ["covretin", "covretin_many"]
# Of the least ring and of the greatest, whose chains cost the same.
SIZES = [(1, "direct", "flags", 1, size) for size in (64, 32768)]


def compiled(library, room, device):
    """The program, and the names of its own functions."""
    parts = ["chains", "driver", device]
    flags, made = ["-std=gnu11", "-O2", "-I", f"{TOP}/include", "-I", SOURCES], [f"{room}/{part}.o" for part in parts]
    for part, at in zip(parts, made):
        ran(["cc", *flags, "-c", "-o", at, f"{SOURCES}/{part}.c"])
    ran(["cc", *flags, "-o", f"{room}/chains", *made, library, f"{TOP}/c/covretin_memory.c"])
    return f"{room}/chains", {line.split()[-1] for line in ran(["nm", *made]).splitlines() if re.search(r" [tT] \S+$", line)}


def counted_within(library, device):
    """How many instructions a chain of each shape takes in the library."""
    counts = {}
    with tempfile.TemporaryDirectory() as room:
        program, others = compiled(library, room, device)
        for shape in SHAPES:
            seen = []
            for count in FEW // 10, MANY // 10:
                ran(["valgrind", "--tool=callgrind", f"--callgrind-out-file={room}/part", "--compress-strings=no", "--compress-pos=no", program, *map(str, shape), str(count)])
                seen.append(own(f"{room}/part", program, others))
            counts[told(shape)] = round((seen[1] - seen[0]) * 10 / (MANY - FEW))
    return counts


def rows(counts):
    """What each device's counts are called."""
    return {f"{device} {shape}": count for device, of_it in counts.items() for shape, count in of_it.items()}


def is_off(count, other):
    return other is None or abs(count - other) > OFF * other


def within(library, is_written):
    """Whether a chain of each shape takes in the library what it did, or that was written."""
    for tool in "cc", "nm", "valgrind":
        if not shutil.which(tool):
            print(f"chains: no {tool} on PATH", file=sys.stderr)
            sys.exit(3)
    counts = {device: counted_within(library, device) for device in DEVICES}
    if is_written:
        with open(KEPT, "w", encoding="utf-8") as table:
            table.writelines(f"{row}\t{count}\n" for row, count in rows(counts).items())
        return True
    kept = {row[0]: int(row[1]) for row in (line.split("\t") for line in open(KEPT, encoding="utf-8"))}
    bad = [f"{row}: {count} instructions, and not {kept.get(row)}" for row, count in rows(counts).items() if is_off(count, kept.get(row))]
    bad += [f"{row} is counted no more" for row in kept if row not in rows(counts)]
    for device, of_it in counts.items():
        small, great = (of_it[told(shape)] for shape in SIZES)
        bad += [f"{device}: a ring's size changes what a chain costs: {small} and {great} instructions"] if is_off(small, great) else []
    for line in bad:
        print(line, file=sys.stderr)
    return not bad


def main():
    words = sys.argv[1:]
    if words[:1] == ["--within"] and words[1:] and words[2:] in ([], ["--write"]):
        sys.exit(0 if within(words[1], bool(words[2:])) else 1)
    if len(words) < 3 or not (words[0].isdigit() or words[0] == "--instructions") or not all("=" in it for it in words[1:]):
        print(__doc__, file=sys.stderr)
        sys.exit(2)
    devices = dict(it.split("=", 1) for it in words[1:])
    if words[0].isdigit():
        timed(int(words[0]), devices)
    else:
        counted(devices)


if __name__ == "__main__":
    main()
