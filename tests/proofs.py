# SPDX-License-Identifier: Apache-2.0
"""Runs `rt ci`, passes on what it prints, and tells on standard error how far it is; then runs the proved `vhost-run` with each allocation
refused in turn. The last line counts both. `./test proofs` calls it: tests/proofs.py rt ci"""
import os
import re
import subprocess
import sys
import threading
import time

sys.path.insert(0, os.path.join(os.path.dirname(os.path.realpath(__file__)), "../scripts/build"))

from crates import TOP, dependencies  # noqa: E402

# How many seconds lie between two lines.
PAUSE = 120

# What is run beside the proofs, over what they built.
REFUSED = [f"{TOP}/tests/programs/refused_memory.py"]

COUNTS = re.compile(r"(\d+) passed, (\d+) failed$")

DONE = re.compile(r"rt: (\w+) (?:proved|NOT PROVED|is kept)\b")


def tell(text):
    print(f"test: {text}", file=sys.stderr, flush=True)


def watch(done, crates, is_over):
    """Tells now and then how many crates are done."""
    began = time.time()
    while not is_over.wait(PAUSE):
        tell(f"{len(done)} of {crates} crates proved after {(time.time() - began) / 60:.0f} minutes")


def passed_on(lines, done):
    """Passes lines on but for the counts, which it answers: how many passed and how many failed."""
    counts = [0, 0]
    for line in lines:
        text = line.decode(errors="replace")
        counted = COUNTS.match(text)
        if counted:
            counts = [int(it) for it in counted.groups()]
            continue
        sys.stdout.buffer.write(line)
        sys.stdout.buffer.flush()
        found = DONE.match(text)
        if found:
            done.add(found[1])
    return counts


def main(words):
    crates, done, is_over = len(dependencies()), set(), threading.Event()
    tell(f"proves {crates} crates, and tries their mutants: about 100 minutes on four processors where nothing is kept")
    threading.Thread(target=watch, args=(done, crates, is_over), daemon=True).start()
    with subprocess.Popen(words, stdout=subprocess.PIPE) as running:
        passed, failed = passed_on(running.stdout, done)
    is_over.set()
    status = max(running.returncode, 0) or (2 if running.returncode else 0)
    if not status:
        status = min(subprocess.run(REFUSED, check=False).returncode, 1)
        passed, failed = passed + 1 - status, failed + status
    print(f"{passed} passed, {max(failed, int(status != 0))} failed", flush=True)
    return status


if __name__ == "__main__":
    sys.exit(main(sys.argv[1:]))
