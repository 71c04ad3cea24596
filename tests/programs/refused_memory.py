#!/usr/bin/env python3
# SPDX-License-Identifier: Apache-2.0
"""Runs the proved vhost-run with each allocation failed in turn, and compares what it wrote with what it writes else: each session of the scripts of
lines writes all of its output with its status, or a prefix of it with status 2.

Status 0 where that holds of each run, 1 where it does not of some, 3 where the program is not built. Needs a C compiler, as `cc`.
"""
import glob
import os
import subprocess
import sys
import tempfile

sys.path.insert(0, os.path.join(os.path.dirname(os.path.realpath(__file__)), "../../scripts/build"))

import generate  # noqa: E402
from crates import TOP, is_current  # noqa: E402


def sessions():
    """The lines of each session of the scripts of lines, one input a session."""
    for path in sorted(glob.glob(f"{TOP}/tests/scripts/lines_*.txt")):
        with open(path, encoding="utf-8", errors="replace") as file:
            lines = None
            for line in [*file.read().splitlines(), "session"]:
                if line.startswith("session"):
                    if lines:
                        yield "".join(f"{it}\n" for it in lines).encode()
                    lines = []
                elif line.startswith("line ") and lines is not None:
                    lines.append(line[5:])


def run(words, given, library, refused, counted=None):
    """Runs the program with one allocation failed, none where that is 0: its output and its status."""
    env = {"LD_PRELOAD": library, "REFUSE": str(refused)}
    if counted:
        env["COUNT"] = counted
    ran = subprocess.run(words, input=given, stdout=subprocess.PIPE, stderr=subprocess.DEVNULL, env=env, check=False)
    return ran.stdout, ran.returncode


def is_of_the_device(whole, wrote):
    """Whether the example device refused for want of memory, which its frontend is told as any other refusal of a device."""
    pairs = list(zip(whole.splitlines(), wrote.splitlines()))
    changed = [(a.split(b" ")[0], b) for a, b in pairs if a != b]
    refused = [b for a, b in changed if b.startswith(a + b" ") and b.endswith(b" err BackendInternalError")]
    return len(whole.splitlines()) == len(wrote.splitlines()) and len(changed) == len(refused) == 1


def refuse_all(words, given, library, room):
    """Each allocation of one run, failed in turn: how many ended as else, with a refusal of the device, with a front, and otherwise."""
    counted = f"{room}/count"
    whole, status = run(words, given, library, 0, counted)
    with open(counted, encoding="ascii") as file:
        allocations = int(file.read())
    same = device = front = other = 0
    for failed in range(1, allocations + 1):
        wrote, ended = run(words, given, library, failed)
        if (wrote, ended) == (whole, status):
            same += 1
        elif ended == status and is_of_the_device(whole, wrote):
            device += 1
        elif ended == 2 and whole.startswith(wrote):
            front += 1
        else:
            other += 1
            print(f"allocation {failed} of {allocations}: status {ended}, {len(wrote)} bytes, of input {given[:200]!r}")
    return same, device, front, other


def main():
    program = f"{TOP}/crates/vhost_run/out/vhost_run"
    if not (os.access(program, os.X_OK) and is_current("vhost_run", program, ["src", "specs", "proofs"])):
        # (the same proved code, assembled of generated/)
        program = generate.program("x86_64/vhost-run")
    if not program:
        print("refused_memory: no proved program: './vhost-run --prove' builds it", file=sys.stderr)
        return 3
    with tempfile.TemporaryDirectory() as room:
        library = f"{room}/refuse.so"
        made = subprocess.run(["cc", "-shared", "-fPIC", "-O2", "-o", library, f"{TOP}/tests/programs/refuse.c", "-ldl"], check=False)
        if made.returncode:
            return 3
        runs = [([program], given) for given in sessions()]
        sums = [0, 0, 0, 0]
        for words, given in runs:
            sums = [a + b for a, b in zip(sums, refuse_all(words, given, library, room))]
    same, device, front, other = sums
    print(f"vhost-run: {len(runs)} runs, {sum(sums)} failed allocations: {same} ended as else, {device} with a refusal of the device, {front} with status 2, {other} otherwise")
    return 1 if other else 0


sys.exit(main())
