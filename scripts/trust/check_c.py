#!/usr/bin/env python3
# SPDX-License-Identifier: Apache-2.0
"""scripts/trust/check_c.py: the C around the proved core, checked by the model checker CBMC for all inputs within bounds (docs/CHECKED.md).

  scripts/trust/check_c.py           all harnesses, the tables, and whether planted faults are found
  scripts/trust/check_c.py NAME..    these harnesses alone, and which functions each reaches
  scripts/trust/check_c.py --record [NAME..]  the same, and writes that and the seconds into the tables
  scripts/trust/check_c.py --faults  the planted faults alone

c/check/harnesses.tsv names each harness, c/check/functions.tsv each function of the C with the harnesses that check it, or why none does, and
c/check/bounds.tsv each bound. A harness passes where nothing fails within the bounds, and each place that it says is reached is. Of each function
that a row gives to a harness the model checker shows that it gets there. A fault of c/check/faults.tsv is put into a copy of the C, and its
harness has to find it, by those words.

Prints a line for each harness, function and fault, and last 'N passed, M failed'. CBMC names another command than cbmc; JOBS how many run at a time
(2). Status 0 where all passed; 1 where one failed; 2 after wrong arguments; 3 where cbmc is not there.
"""
import collections
import concurrent.futures
import glob
import os
import re
import shlex
import shutil
import subprocess
import sys
import tempfile

TOP = os.path.dirname(os.path.dirname(os.path.dirname(os.path.realpath(__file__))))
CHECK = f"{TOP}/c/check"
PAGE = f"{TOP}/docs/CHECKED.md"
SECONDS = 120  # of a run, of the processor
MEMORY = 6_000_000  # likewise, in KiB
MOST_TOLD = 8  # of what fails in a harness; what was not decided is told where nothing fails

Harness = collections.namedtuple("Harness", "file name cases unwind instead seconds shows")
Fault = collections.namedtuple("Fault", "harness case file old new finds")
Entry = collections.namedtuple("Entry", "file function line text status")

# A function of the C begins with its name, and with a brace in a line of its own; a macro of covretin_transport.h makes others.
DEFINED = re.compile(r"^(?![ #/*}]|typedef|struct \w+ \{|enum)[^;={]*?\b(\w+)\((?:[^;{]|\n)*?\)\s*\{$", re.M)
MADE = re.compile(r"^TRANSPORT_(BYTES|OPENS|CALL)\((\w+),", re.M)
PARTS = {"BYTES": ("_missing", "_receive", "_to_send", "_unclaimed"), "OPENS": ("_open", "_close"), "CALL": ("",)}
RESULT = re.compile(r"^\[[^\]]*\] (?:line (\d+) )?(.*): (SUCCESS|FAILURE|UNKNOWN)$")
PLACE = re.compile(r"^(\S+) function (\S+)$")
ENTERED = "reached: the function"


def read(path):
    with open(path, encoding="utf-8") as file:
        return file.read()


def rows(name):
    """The rows of a table, without its titles."""
    return [line.split("\t") for line in read(f"{CHECK}/{name}.tsv").splitlines()[1:]]


def functions():
    """Each function of the C that is checked, by its file."""
    for path in sorted(glob.glob(f"{TOP}/c/covretin_*.c")):
        text = re.sub(r"^__attribute__\(\(\w+\)\) ", "", read(path), flags=re.M)
        made = MADE.findall(text)
        text = re.sub(r"^TRANSPORT_\w+\(.*\)$", "", text, flags=re.M)
        for name in DEFINED.findall(text):
            yield os.path.basename(path), name
        for kind, name in made:
            for part in PARTS[kind]:
                yield os.path.basename(path), name + part


# -- A copy of the C, within the bounds --


def marked(text):
    """The C, where the beginning of each function says that it is reached."""
    mark = f'__CPROVER_assert(0, "{ENTERED}");'
    text = re.sub(r"^(?=[^ #/*}\n][^;={]*?\()((?:[^;{}]|\n)*?\)\s*\{)$", rf"\1 {mark}", text, flags=re.M)
    return re.sub(r"^    \{ \\$", rf"    {{ {mark} \\", text, flags=re.M)


def bounded(path, text):
    """The text with the bounds in the place of what the library has. One that is not there is an error of the table."""
    for name, where, here, bound, *_ in rows("bounds"):
        if where != path:
            continue
        text, count = re.subn(rf"(\b{re.escape(name)}(?: =)? ){re.escape(here)}\b", rf"\g<1>{bound}", text)
        if count == 0:
            sys.exit(f"c/check/bounds.tsv: {path} has no {name} of {here}")
    return text


def lay_out(room, fault=None):
    """Copies the C, the headers and the checks; a fault is put into its file."""
    os.makedirs(f"{room}/include")
    os.makedirs(f"{room}/c")
    for path in glob.glob(f"{TOP}/include/*.h") + glob.glob(f"{TOP}/c/covretin_*.[ch]"):
        name = os.path.relpath(path, TOP)
        text = read(path)
        if fault is not None and name == fault.file:
            if fault.old not in text:
                sys.exit(f"c/check/faults.tsv: {name} has no {fault.old}")
            text = text.replace(fault.old, fault.new, 1)
        with open(f"{room}/{name}", "w", encoding="utf-8") as file:
            file.write(bounded(name, marked(text) if fault is None and name.startswith("c/") else text))
    for path in glob.glob(f"{CHECK}/*.[ch]"):
        shutil.copy(path, f"{room}/c")


# -- Runs --


def tool(name):
    """A program of the model checker, beside cbmc."""
    return re.sub(r"cbmc$", name, os.environ.get("CBMC", "cbmc"))


def command(room, harness, case):
    """What checks a harness, as words of a shell. What stands instead of a function that has a harness of its own is put in its place first."""
    bounds = [f"-D{name}={bound}" for name, where, _, bound, *_ in rows("bounds") if where == "c/check"]
    loops = [it for it in harness.unwind.split(",") if it]
    sources = ["-D_GNU_SOURCE", *bounds, f"-DLAYOUT={case}", f"-I{room}/include", f"-I{room}/c", *(f"{room}/c/{it}.c" for it in (harness.file, "kernel", "core"))]
    checks = ["--function", f"check_{harness.name}", "--drop-unused-functions", "--slice-formula", "--object-bits", "10", "--memory-leak-check", "--unwind", "5",
              "--unwindset", ",".join([*LOOPS, *loops])]
    if not harness.instead:
        return shlex.join(["exec", tool("cbmc"), *sources, *checks])
    program = f"{room}/{harness.name}.{case}"
    replaced = [word for it in harness.instead.split(",") for word in ("--replace-calls", it)]
    return " && ".join([shlex.join([tool("goto-cc"), "-o", program, *sources]) + " >&2", shlex.join([tool("goto-instrument"), *replaced, program, program]) + " >&2",
                        shlex.join(["exec", tool("cbmc"), program, *checks])])


LOOPS = []  # of the environment, by the bounds


def results(said):
    """What the model checker says of each property."""
    file = function = ""
    for line in said.splitlines():
        place, result = PLACE.match(line), RESULT.match(line)
        if place:
            file, function = os.path.basename(place[1]), place[2]
        elif line.startswith("function "):
            file, function = "", line.split()[1]
        elif result:
            yield Entry(file, function, result[1], result[2], result[3])


class Run:
    """The properties of one run; None, and why, where it came to no end. And how many seconds of the processor it took."""

    def __init__(self, room, harness, case):
        words = ["sh", "-c", f"ulimit -v {MEMORY}; ulimit -t {SECONDS}; {command(room, harness, case)}"]
        with tempfile.TemporaryFile("w+", encoding="utf-8") as said, subprocess.Popen(words, stdout=said, stderr=subprocess.STDOUT) as process:
            _, status, used = os.wait4(process.pid, 0)
            process.returncode = os.waitstatus_to_exitcode(status)
            said.seek(0)
            self.said = said.read()
        self.seconds = used.ru_utime + used.ru_stime
        self.found = list(results(self.said))
        if not self.found or process.returncode not in (0, 10):
            self.found = None

    def why(self):
        return self.said[-400:] + f"no end, after {self.seconds:.0f} seconds of the processor"


def cases(harness):
    """The layouts that a harness is run with."""
    first, last = (harness.cases.split("-") * 2)[:2]
    return range(int(first), int(last) + 1)


def verdict(runs):
    """What is wrong with a harness, and which functions it reached."""
    wrong, unknown, places, entered = [], [], {}, set()
    for each in runs:
        if each.found is None:
            return [each.why()], set()
        for it in each.found:
            if it.text == ENTERED:
                entered |= {(it.file, it.function)} if it.status == "FAILURE" else set()
            elif it.text.startswith("reached: "):
                places[it.text] = places.get(it.text, False) or it.status == "FAILURE"
            elif it.status != "SUCCESS":
                (wrong if it.status == "FAILURE" else unknown).append(f"{it.file}:{it.line} {it.function}: {it.text}: {it.status}")
    wrong = (wrong or unknown)[:MOST_TOLD] + [f"not {it}" for it, is_reached in places.items() if not is_reached]
    return wrong, entered


def check(room, harness):
    """The same, and how many seconds it took."""
    runs = [Run(room, harness, case) for case in cases(harness)]
    return *verdict(runs), sum(it.seconds for it in runs)


# -- The tables --


def checked(write=False):
    """What is wrong with the tables, which need no model checker: the word checked of scripts/check.py. Those of docs/CHECKED.md may be written first."""
    if write:
        text = page(read(PAGE))
        with open(PAGE, "w", encoding="utf-8") as file:
            file.write(text)
    listed = {(file, name): by for file, name, by, *_ in rows("functions")}
    there = set(functions())
    names = {it.name for it in harnesses()}
    made = {it for path in glob.glob(f"{CHECK}/*.c") for it in re.findall(r"^void check_(\w+)\(void\)$", read(path), re.M)}
    for it in sorted(made ^ names):
        yield f"c/check/harnesses.tsv: {it} has no row in harnesses.tsv, or no function check_{it}"
    for it in sorted(there - set(listed)):
        yield f"c/check/functions.tsv: no row for {it[1]} of {it[0]}"
    for it in sorted(set(listed) - there):
        yield f"c/check/functions.tsv: there is no {it[1]} in {it[0]}"
    for file, name, by, *why in rows("functions"):
        if by != "-" and not set(by.split()) <= names:
            yield f"c/check/functions.tsv: {name} of {file}: no such harness: {by}"
        if by == "-" and not "".join(why).strip():
            yield f"c/check/functions.tsv: {name} of {file}: neither a harness nor a reason"
    if read(PAGE) != page(read(PAGE)):
        yield "docs/CHECKED.md: its tables are others"


def harnesses():
    return [Harness(*it) for it in rows("harnesses")]


def markdown(titles, body):
    return "\n".join([f"| {' | '.join(titles)} |", "|---" * len(titles) + "|", *(f"| {' | '.join(it)} |" for it in body)])


def page(text):
    """The page with its tables."""
    counted = collections.Counter((file, by != "-") for file, _, by, *_ in rows("functions"))
    files = sorted({file for file, _ in counted})
    total = ("all", str(sum(counted[it, True] for it in files)), str(sum(counted[it, False] for it in files)))
    entered = collections.defaultdict(list)
    for _, name, by, *_ in rows("functions"):
        for it in by.split():
            entered[it].append(f"`{name}`")
    tables = {"bounds": markdown(("Bound", "In the library", "Here", "Why"), [(f"`{it[0]}`", it[2], it[3], it[4]) for it in rows("bounds")]),
              "functions": markdown(("File", "Functions checked", "Not checked"), [*((f"`{it}`", str(counted[it, True]), str(counted[it, False])) for it in files), total]),
              "harnesses": markdown(("Harness", "What holds", "Functions", "Layouts", "Loops", "Seconds"), [
                  (f"`{it.name}`", it.shows, ", ".join(entered[it.name]), str(len(cases(it))), it.unwind.replace(",", ", "), it.seconds) for it in harnesses()]),
              "reasons": markdown(("Not checked, since", "Functions"), reasons())}
    for name, table in tables.items():
        text = re.sub(rf"(?<=<!-- {name} -->\n).*?(?=<!-- end -->)", lambda _, table=table: f"{table}\n", text, count=1, flags=re.S)
    return text


def reasons():
    """Each reason, with the functions that it is of."""
    of = collections.defaultdict(list)
    for _, name, by, *why in rows("functions"):
        if by == "-":
            of[why[0]].append(f"`{name}`")
    return [(why, ", ".join(names)) for why, names in of.items()]


# -- All --


class Count:
    """Lines of what passed and failed."""

    def __init__(self):
        self.passed = self.failed = 0

    def tell(self, name, wrong):
        self.passed += not wrong
        self.failed += bool(wrong)
        for it in wrong:
            print(f"  {it}")
        print(f"{name}: {'FAILED' if wrong else 'ok'}", flush=True)


def in_turns(work, those):
    """What comes of each, some at a time, in their order."""
    with concurrent.futures.ThreadPoolExecutor(int(os.environ.get("JOBS", "2"))) as pool:
        yield from zip(those, pool.map(work, those))


def write_rows(name, body):
    titles = read(f"{CHECK}/{name}.tsv").splitlines()[0]
    with open(f"{CHECK}/{name}.tsv", "w", encoding="utf-8") as file:
        file.write("\n".join([titles, *("\t".join(it) for it in body)]) + "\n")


def record(took, entered):
    """Writes how long each of these harnesses took, and which functions it checks; of any other what is there stays. A function that is new, or that no
    harness checks any more, has to be told why."""
    write_rows("harnesses", [it._replace(seconds=took.get(it.name, it.seconds)) for it in harnesses()])
    listed = {(file, name): (by, *why) for file, name, by, *why in rows("functions")}
    body = []
    for it in functions():
        by, *why = listed.get(it, ("-", ""))
        now = {each for each in by.split() if each != "-" and each not in entered} | {each for each, reached in entered.items() if it in reached}
        body.append((*it, " ".join(sorted(now)) or "-", "" if now else "".join(why)))
    write_rows("functions", body)
    list(checked(write=True))


def check_all(room, count, names, is_recorded):
    """Each harness, and each function that one of these is said to check."""
    chosen = [it for it in harnesses() if not names or it.name in names]
    lay_out(room)
    entered, took = {}, {}
    for harness, (wrong, reached, seconds) in in_turns(lambda it: check(room, it), chosen):
        count.tell(f"harness {harness.name} ({seconds:.0f} seconds)", wrong)
        entered[harness.name] = reached if not wrong else set()
        took[harness.name] = f"{seconds:.0f}"
        if names:
            print(f"  which reaches {' '.join(sorted(f'{file}:{name}' for file, name in reached))}")
    if is_recorded:
        record(took, entered)
    for file, name, by, *_ in rows("functions"):
        missed = [it for it in by.split() if it in entered and (file, name) not in entered[it]]
        if by != "-" and set(by.split()) & set(entered):
            count.tell(f"{file} {name}", [f"{it} does not pass, or does not reach it" for it in missed])


def check_faults(count):
    """Each planted fault is found, by the words of its row."""
    def found(fault):
        with tempfile.TemporaryDirectory() as room:
            lay_out(f"{room}/c", fault)
            harness = next(it for it in harnesses() if it.name == fault.harness)
            ran = Run(f"{room}/c", harness, fault.case)
        if ran.found is None:
            return [ran.why()]
        said = {it.text for it in ran.found if it.status != "SUCCESS"}
        return [] if any(re.search(fault.finds, it) for it in said) else [f"it is not found: {fault.finds}"]

    for fault, wrong in in_turns(found, [Fault(*it) for it in rows("faults")]):
        count.tell(f"planted in {fault.harness}: {fault.new or 'nothing'} for {fault.old}", wrong)


def prepare():
    """The loops of the environment, which go over a bound."""
    most = {it[0]: int(it[3], 0) for it in rows("bounds")}
    for name, bound in (("model_unclaimed", "MOST_FDS"), ("model_is_empty", "MOST_FDS"), ("fds_are_closed", "MOST_FDS"), ("any_bytes", "COVRETIN_MAX_MESSAGE")):
        LOOPS.append(f"{name}.0:{most[bound] + 1}")
    LOOPS.append("poll.0:5")


def main():
    is_recorded = "--record" in sys.argv[1:]
    words = [it for it in sys.argv[1:] if it != "--record"]
    if [it for it in words if it.startswith("-") and it != "--faults"] or [
            it for it in words if not it.startswith("-") and it not in [h.name for h in harnesses()]]:
        print(__doc__, file=sys.stderr)
        return 2
    count = Count()
    prepare()
    if not words:
        count.tell("tables", list(checked()))
    if shutil.which(os.environ.get("CBMC", "cbmc")) is None:
        print("scripts/trust/check_c.py: left out: no cbmc on PATH (Debian 13 has it as the package cbmc)", file=sys.stderr)
        return 3
    if words != ["--faults"]:
        with tempfile.TemporaryDirectory() as room:
            check_all(f"{room}/c", count, words, is_recorded)
    if not words or words == ["--faults"]:
        check_faults(count)
    print(f"{count.passed} passed, {count.failed} failed")
    return int(count.failed != 0)


if __name__ == "__main__":
    sys.exit(main())
