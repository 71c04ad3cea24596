#!/usr/bin/env python3
# SPDX-License-Identifier: Apache-2.0
"""What proofs take.

  scripts/costs/proof_times.py gates COMMIT COMMIT..       the gate of several states of the repository, beside one another on one machine
  scripts/costs/proof_times.py functions CRATE [COUNT]     the last check of a crate, by function: COUNT lines are shown, 30 if it is left out
  scripts/costs/proof_times.py mutants CRATE               what a check of each mutant of it proves

Each state is cloned, and its gate runs from nothing (`rt ci --anew`, with as many processes as it has processors, as ./test proofs does it), and
then its ./test mutants where it has one: all states at once, each on its share of the processors that this may use. Standard error tells as
each ends. A line is a crate: in each state the seconds of processor time of its proof, of that of its tests, of its mutants in must-fail/
and of those in mutants/. The last lines are the sums in minutes, with what is of no crate, how many times the first state's the others'
are, and how each run ended, with the minutes that it took.

Whoever interrupts it gets what was seen until then.

The checker writes a file below out/incremental for each module as it ends, so the times of these files are a profile. It is
right where the crate was checked from nothing in one go: remove crates/NAME/out/incremental, run `rt check --jobs 1`, and then
this. A line is a function's seconds, and of these the parts that took most:

    Lts, Tie, Kinds   its control flow and what it owns and lends: no proof file changes them, only the form of the code
    Proof             goals that have no answer, found by search
    Answers, Goals    goals that have one
    Code, Statement   the function and its contract, read

What stands in no function (a lemma, a definition) is named by its module. A module behind which the checker began anew, to save
memory, has the time of that as well.

A check of a function proves all that it calls in its crate, too, so a mutant of a function that calls much is dear. A line is a mutant: the
seconds of its functions and of what these call, and of them those that no other mutant in mutants/ has proved; then its functions. Calls are found
by names alone, so that a call of a trait counts for each of its impls.

Status 0; 1 where a run did not pass; 2 after wrong arguments, or where there is nothing to read.
"""
import collections
import os
import re
import signal
import subprocess
import sys
import tempfile
import time

sys.path[:0] = [os.path.join(os.path.dirname(os.path.realpath(__file__)), it) for it in ("../build", "..", "../../tests")]

from crates import TOP  # noqa: E402
from mutants import FUNCTION, every_mutant, read  # noqa: E402
from patience import fields_of, names_in  # noqa: E402

# -- The gate of several states --

KINDS = ("proof", "tests", "edits", "mutants")
PAUSE = 1
TICKS = os.sysconf("SC_CLK_TCK")

# Of what /proc says of a process, from its state on: its session, its processor time and its begin.
SESSION, OWN, BEGIN = 3, slice(11, 13), 19


class Run:
    """The gate of a state that runs: its processes are those of a session of their own."""

    def __init__(self, commit, room, processors):
        self.commit, self.folder, self.seen, self.status, self.minutes = commit, f"{room}/{commit}", {}, None, 0.0
        subprocess.run(["git", "clone", "-q", TOP, self.folder], check=True)
        subprocess.run(["git", "checkout", "-q", commit], cwd=self.folder, check=True)
        # (what a run of rt ci proved is kept beside the kit, also for another state)
        command = "RT_JOBS=$(nproc) rt ci --anew && { [ ! -x tests/mutants.sh ] || ./test mutants --jobs $(nproc); }"
        with open(f"{self.folder}.log", "wb") as log:
            how = {"stdin": subprocess.DEVNULL, "stdout": log, "stderr": log, "start_new_session": True}
            self.began = time.monotonic()
            self.process = subprocess.Popen(["sh", "-c", command], cwd=self.folder, preexec_fn=lambda: os.sched_setaffinity(0, processors), **how)

    def look(self):
        """Notes what each process of the checker has taken; afterwards how the run ended, if it did."""
        for pid in filter(str.isdigit, names_in("/proc")):
            fields = fields_of(f"/proc/{pid}")
            if len(fields) > BEGIN and int(fields[SESSION]) == self.process.pid:
                key = pid, fields[BEGIN]
                place = self.seen[key][0] if key in self.seen and self.seen[key][0] else place_of(pid, self.folder)
                taken = sum(map(int, fields[OWN])) / TICKS
                self.seen[key] = place, max(taken, self.seen.get(key, (None, 0))[1])
        if self.status is None and self.process.poll() is not None:
            self.end()

    def end(self):
        """Notes how the run ended."""
        self.status, self.minutes = self.process.wait(), (time.monotonic() - self.began) / 60
        with open(f"{self.folder}.log", encoding="utf-8", errors="replace") as log:
            counts = re.findall(r"(?m)^\d+ passed, \d+ failed$", log.read())
        told = "; ".join(counts) or "no counts"
        print(f"gates: {self.commit}: {told} after {self.minutes:.0f} minutes", file=sys.stderr, flush=True)

    def stop(self):
        """Ends a run that has not ended."""
        if self.status is None:
            os.killpg(self.process.pid, signal.SIGKILL)
            self.end()

    def seconds(self):
        """The processor time by crates and kinds; that of no crate is of none."""
        found = collections.defaultdict(float)
        for place, taken in self.seen.values():
            found[place] += taken
        return found


def place_of(pid, folder):
    """The crate and kind of a check; none of what is no check."""
    try:
        with open(f"/proc/{pid}/cmdline", encoding="utf-8", errors="replace") as file:
            words = file.read().split("\0")
        inside = os.readlink(f"/proc/{pid}/cwd")
    except OSError:
        return None
    if os.path.basename(words[0]) != "rattle" or "--crate-name" not in words:
        return None
    crate, last = words[words.index("--crate-name") + 1], os.path.basename(inside)
    if inside.startswith(f"{folder}/"):
        return crate, "tests" if "--test" in words else "proof"
    return crate, "mutants" if last.startswith("mutants-") else "edits"


def shown(runs):
    """The table."""
    found = [it.seconds() for it in runs]
    crates = sorted({place[0] for it in found for place in it if place})
    print("crate", *(f"{run.commit}:{kind}" for run in runs for kind in KINDS))
    for crate in crates:
        print(crate, *(f"{it[crate, kind]:.0f}" if (crate, kind) in it else "-" for it in found for kind in KINDS))
    sums = [{kind: sum(taken for place, taken in it.items() if place and place[1] == kind) / 60 for kind in KINDS} for it in found]
    print("minutes", *(f"{it[kind]:.1f}" for it in sums for kind in KINDS))
    wholes = [sum(it.values()) / 60 for it in found]
    for run, it, whole in zip(runs, found, wholes):
        how = "stopped" if run.status == -signal.SIGKILL else f"status {run.status}"
        times = f"{whole / wholes[0]:.2f} times the first's" if wholes[0] else "-"
        print(f"{run.commit}: {whole:.1f} minutes of processor time, {it[None] / 60:.1f} of no crate; {times}; {how} after {run.minutes:.1f} minutes")


def gates(commits):
    for it in commits:
        if subprocess.run(["git", "rev-parse", "-q", "--verify", f"{it}^{{commit}}"], cwd=TOP, stdout=subprocess.DEVNULL, check=False).returncode:
            print(f"proof_times: the repository has no state {it}", file=sys.stderr)
            return 2
    processors = sorted(os.sched_getaffinity(0))
    each = max(len(processors) // len(commits), 1)
    with tempfile.TemporaryDirectory(prefix="gates-") as room:
        runs = [Run(it, room, set(processors[at * each : (at + 1) * each])) for at, it in enumerate(commits)]
        for it in (signal.SIGINT, signal.SIGTERM):
            signal.signal(it, signal.default_int_handler)
        try:
            while any(it.status is None for it in runs):
                time.sleep(PAUSE)
                for it in runs:
                    it.look()
        except KeyboardInterrupt:
            pass
        for it in runs:
            it.stop()
        shown(runs)
    return 1 if any(it.status for it in runs) else 0


# -- A check of a crate --

PARTS = ("Lts", "Tie", "Kinds", "Proof", "Answers", "Goals", "Code", "Met", "Statement", "Symbol", "TheLink", "TheLinks", "Invariants", "Laws")

CALL = re.compile(r"\b(\w+)(?:::<[^()]*>)?\(")


def modules(folder):
    """The checked modules, each with the time at which it ended, in this order."""
    found = []
    for at, _, names in os.walk(folder):
        if os.path.basename(at) != "records":
            found += [(os.stat(f"{at}/{name}").st_mtime_ns, name[: -len(".oantt")]) for name in names if name.endswith(".oantt")]
    return sorted(found)


def part_of(module):
    """The function or lemma file that a module is of, and which part of it."""
    found = re.match(r"Rattle-\w+-(?:proofs|specs)\.(.*)$", module)
    words = (found[1] if found else module).split(".")
    words = words[:-1] if words[-1] == "Mir" else words
    return (".".join(words[:-1]), words[-1]) if words[-1] in PARTS else (".".join(words), "itself")


def of(crate):
    """The checked modules of a crate, at least two of them."""
    found = modules(f"{TOP}/crates/{crate}/out/incremental")
    if len(found) < 2:
        print(f"proof_times: no kept work of a check below crates/{crate}/out/incremental", file=sys.stderr)
        sys.exit(2)
    return found


def functions_of(crate, count=30):
    found = of(crate)
    taken = collections.defaultdict(collections.Counter)
    for (before, _), (after, module) in zip(found, found[1:]):
        name, part = part_of(module)
        taken[name][part] += (after - before) / 1e9
    print(f"{(found[-1][0] - found[0][0]) / 1e9:8.1f}  {len(found)} modules")
    for name, parts in sorted(taken.items(), key=lambda it: -it[1].total())[:count]:
        most = ", ".join(f"{part} {seconds:.1f}" for part, seconds in parts.most_common(3) if seconds >= 0.1)
        print(f"{parts.total():8.1f}  {name}: {most}")


def functions_in(crate):
    """The functions of a crate with a body: name, file, last line and what they call, by names."""
    found, top = [], f"{TOP}/crates/{crate}"
    for at, _, names in os.walk(f"{top}/src"):
        for file in (f"{at}/{name}" for name in names if name.endswith(".rt")):
            lines = read(file).split("\n")
            for number, head in enumerate(map(FUNCTION.match, lines)):
                end = next((it for it in range(number, len(lines)) if head and lines[it] == head[1] + "}"), None)
                if end is not None:
                    found.append((head[2], os.path.relpath(file, top), end + 1, {*CALL.findall("\n".join(lines[number + 1 : end]))}))
    return found


def seconds_in(crate):
    """The seconds of each function's check, by name; those of several of one name are shared out."""
    found, taken, named = of(crate), collections.defaultdict(float), collections.defaultdict(set)
    for (before, _), (after, module) in zip(found, found[1:]):
        whole = part_of(module)[0]
        name = whole.split(".")[-1]
        taken[name] += (after - before) / 1e9
        named[name].add(whole)
    return {name: seconds / len(named[name]) for name, seconds in taken.items()}


def reached(functions, begin):
    """All functions that these call, with them."""
    found, left = set(), [*begin]
    while left:
        at = left.pop()
        if at not in found:
            found.add(at)
            left += [other for other, it in enumerate(functions) if it[0] in functions[at][3]]
    return found


def mutants_of(crate):
    seconds, functions = seconds_in(crate), functions_in(crate)
    proves = {}
    for mutant in (it for it in every_mutant({}) if it.crate == crate):
        own = [at for at, it in enumerate(functions) for changed in mutant.functions if (it[1], it[2]) == (changed.file, changed.last)]
        proves[mutant.path] = reached(functions, own), [it.name for it in mutant.functions]

    def total(reach):
        return sum(seconds.get(functions[at][0], 0) for at in reach)

    for path, (reach, names) in sorted(proves.items(), key=lambda it: -total(it[1][0])):
        others = set().union(*(it for other, (it, _) in proves.items() if other != path and other.startswith("mutants/")))
        print(f"{total(reach):8.1f} {total(reach - others):8.1f}  {path}: {', '.join(names)}")


def main(words):
    kind, rest = words[:1], words[1:]
    if any(it.startswith("-") for it in rest):
        kind = []
    if kind == ["gates"] and rest:
        return gates(rest)
    if kind == ["mutants"] and len(rest) == 1:
        mutants_of(*rest)
    elif kind == ["functions"] and len(rest) in (1, 2) and all(it.isdigit() for it in rest[1:]):
        functions_of(rest[0], *map(int, rest[1:]))
    else:
        print(__doc__.strip(), file=sys.stderr)
        return 2
    return 0


if __name__ == "__main__":
    sys.exit(main(sys.argv[1:]))
