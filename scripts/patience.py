#!/usr/bin/env python3
# SPDX-License-Identifier: Apache-2.0
"""Waits by what is done, and not by the clock: on a busy machine all is slow, and nothing is wrong.

What is waited for has a limit in seconds. Spent are the processor time of the processes that it depends on, and each pause after which
none of them runs or wants to. So a process that gets no processor spends nothing. One that computes for ever, one that is stopped and
one that waits for what never comes spend all, and then the wait fails.

  scripts/patience.py LIMIT PROCESS [OTHER..]    waits until PROCESS has ended; the others are those that it depends on

Status 0 once it has ended; 1 where the limit was spent, which a line says; 2 after wrong arguments.
"""
import os
import select
import subprocess
import sys
import time

# How many seconds lie between two looks: at first, and at most.
SHORT_PAUSE = 0.001
PAUSE = 0.02

TICKS = os.sysconf("SC_CLK_TCK")


class LimitSpent(Exception):
    """What was awaited did not come."""


def fields_of(path):
    """What /proc says of a process or a thread, from its state on. Nothing where it has ended."""
    try:
        with open(f"{path}/stat", encoding="utf-8", errors="replace") as file:
            return file.read().rpartition(")")[2].split()
    except OSError:
        return []


def names_in(folder):
    try:
        return os.listdir(folder)
    except OSError:
        return []


def family(process):
    """A process and all below it, by their numbers."""
    found = [process]
    for thread in names_in(f"/proc/{process}/task"):
        try:
            with open(f"/proc/{process}/task/{thread}/children", encoding="ascii") as file:
                below = file.read().split()
        except OSError:
            continue
        for child in below:
            found += family(int(child))
    return found


def has_ended(process):
    """Whether a process has ended, also where nobody has asked for its status yet."""
    return fields_of(f"/proc/{process}")[:1] in ([], ["Z"], ["X"])


def processor_time(process):
    """How many seconds of a processor it has used."""
    fields = fields_of(f"/proc/{process}")
    return (int(fields[11]) + int(fields[12])) / TICKS if fields else 0


def wants_processor(process):
    """Whether one of its threads runs, or would if there were a processor."""
    tasks = f"/proc/{process}/task"
    return any(fields_of(f"{tasks}/{thread}")[:1] == ["R"] for thread in names_in(tasks))


class Patience:
    """A limit that is spent by processes. `watched` returns their numbers, at each look anew."""

    def __init__(self, what, watched, limit):
        self.what, self.watched, self.limit = what, watched, limit
        self.length = SHORT_PAUSE
        self.worked = self.idled = 0
        self.seen = {it: processor_time(it) for it in self.processes()}

    def processes(self):
        return [each for process in self.watched() for each in family(process)]

    def spend(self, pause):
        """A pause is over. Raises LimitSpent where that was the last."""
        now = {it: processor_time(it) for it in self.processes()}
        worked = sum(max(0, used - self.seen.get(it, 0)) for it, used in now.items())
        self.seen = now
        self.worked += worked
        if worked == 0 and not any(wants_processor(it) for it in now):
            self.idled += pause
        if self.worked + self.idled >= self.limit:
            spent = f"{self.worked:.0f} seconds of a processor, {self.idled:.0f} seconds idle"
            raise LimitSpent(f"not so in time: {self.what} ({spent})")

    def pause(self):
        """Lets the processes work for a moment, which grows."""
        time.sleep(self.length)
        self.spend(self.length)
        self.length = min(2 * self.length, PAUSE)


def wait_until(holds, what, watched, limit):
    """Waits until something holds, which the watched processes bring about."""
    patience = Patience(what, watched, limit)
    while not holds():
        patience.pause()


def wait_for_input(stream, what, watched, limit):
    """Waits until there is something to read, or its end."""
    if select.select([stream], [], [], PAUSE)[0]:
        return
    patience = Patience(what, watched, limit)
    while not select.select([stream], [], [], PAUSE)[0]:
        patience.spend(PAUSE)


def communicate(process, what, limit, given=None):
    """What a process writes, on its output and beside it, once it was given its input and has ended."""
    patience = Patience(what, lambda: [process.pid], limit)
    while True:
        try:
            return process.communicate(given, timeout=PAUSE)
        except subprocess.TimeoutExpired:
            given = None  # it goes on with what it was given first
            patience.spend(PAUSE)


def main(words):
    if len(words) < 2 or not all(it.isdigit() for it in words):
        print(__doc__, end="", file=sys.stderr)
        return 2
    limit, process, *others = map(int, words)
    try:
        wait_until(lambda: has_ended(process), f"process {process} has ended", lambda: [process, *others], limit)
    except LimitSpent as spent:
        print(spent)
        return 1
    return 0


if __name__ == "__main__":
    sys.exit(main(sys.argv[1:]))
