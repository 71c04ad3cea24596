# SPDX-License-Identifier: Apache-2.0
"""Plays every script, unit test and program without proof. `./test quick --help` says more, and `./test quick` calls it."""
import functools
import os
import re
import shutil
import subprocess
import sys
import tempfile
from concurrent.futures import ThreadPoolExecutor
from dataclasses import dataclass, field

sys.path[:0] = [os.path.join(os.path.dirname(os.path.realpath(__file__)), it) for it in ("../scripts/build", "../scripts")]

import generate  # noqa: E402
from crates import TOP, compile_unproved, dependencies, is_current, kept_at  # noqa: E402
from patience import LimitSpent, communicate  # noqa: E402
from shared_library import Unmade, place, shared_library  # noqa: E402

# How many seconds one run of a program may spend (patience.py): without proof it is not optimised.
LIMIT = 300

# How many lines of what went wrong are shown.
SHOWN = 12

# Where the scripts are, and what their player prints of each.
SCRIPTS, PRINTED = "tests/scripts", "tests/printed"

# What tries the program of lines where no script can, and beside a table and a model.
ROWS = ("tests/programs/try_run.py", "tests/programs/try_lines.py")

# What compiles a program by the names of the crates alone.
CLIENT = "tests/client.py"

# What tries the list of requests with entries that are malformed. It needs no kit, so it is of the crate of the scripts.
ENTRIES = "tests/programs/try_requests.py"

# What plays lines, and all other sessions, as the crate of a program and whether it is its tests: the library is of no program.
RUN, LIBRARY = ("vhost_run", False), ("the library for C", False)


@dataclass
class Play:
    """What one line of the output is about: a script, a program, or a file of unit tests. The crate of a script is `scripts`."""

    crate: str
    path: str
    words: list = field(default_factory=list)
    wanted: bytes = b""
    tests: bool = False
    script: bool = False
    rows: bool = False
    alone: bool = False
    needs: list = field(default_factory=list)
    broken: str = ""

    def __post_init__(self):
        """A program or unit tests need what is compiled of their crate; what is alone makes what it needs."""
        self.needs = self.needs or ([] if self.alone else [(self.crate, self.tests)])

    def is_named(self, word):
        """Whether a word names it: its crate, or the end of its path, with or without what stands behind the dot."""
        paths = (self.path, os.path.splitext(self.path)[0])
        return word == self.crate or any(f"/{it}".endswith(f"/{word}") for it in paths)


def read(path, otherwise=b""):
    """The bytes of a file, or others where there is none."""
    if not os.path.isfile(path):
        return otherwise
    with open(path, "rb") as file:
        return file.read()


def scripts():
    """All scripts, each with what its player has to print."""
    left = read(f"{TOP}/{PRINTED}").splitlines(True)
    for name in sorted(os.listdir(f"{TOP}/{SCRIPTS}")):
        wanted = [it for it in left if it.startswith(f"{name}:".encode())]
        left = [it for it in left if it not in wanted]
        kinds = set(re.findall(rb"(?m)^session (\w+)", read(f"{TOP}/{SCRIPTS}/{name}")))
        needs = [RUN] * (b"lines" in kinds) + [LIBRARY] * (kinds != {b"lines"})
        broken = "" if wanted else f"{PRINTED} has no line of it, so nobody sees that it is played"
        yield Play("scripts", f"{SCRIPTS}/{name}", wanted=b"".join(wanted), script=True, needs=needs, broken=broken)
    yield Play("scripts", ENTRIES, rows=True, alone=True)
    if left:
        yield Play("scripts", PRINTED, script=True, broken=f"{left[0].decode()!r} is of no script")


def plays_of(crate):
    """All that can be played of a crate."""
    folder = f"{TOP}/crates/{crate}"
    if os.path.isfile(f"{folder}/src/main.rt"):
        words = read(f"{folder}/args").decode().split("\n")
        yield Play(crate, f"crates/{crate}", [it for it in words if it], read(f"{folder}/stdout"))
    if crate == RUN[0]:
        for path in ROWS:
            yield Play(crate, path, rows=True)
    for at, _, names in sorted(os.walk(f"{folder}/src")):
        for name in sorted(names):
            path = f"{at}/{name}"
            if re.search(rb"(?m)^\s*#\[test\]", read(path)):
                yield Play(crate, os.path.relpath(path, TOP), tests=True)


def run(program, words, given=b""):
    """Runs a program in a folder of its own: its status, its output, and what it told beside it."""
    with tempfile.TemporaryDirectory(prefix="test-quick-") as room:
        pipes = {"stdin": subprocess.PIPE, "stdout": subprocess.PIPE, "stderr": subprocess.PIPE}
        with subprocess.Popen([program, *words], cwd=room, **pipes) as running:
            try:
                wrote, told = communicate(running, "it ends", LIMIT, given)
            except LimitSpent as spent:
                running.kill()
                return None, b"", f"{spent}\n".encode()
        return running.returncode, wrote, told


def difference(wanted, wrote):
    """The lines that were wanted and not written, and those that were written and not wanted."""
    wanted, wrote = wanted.decode(errors="replace").splitlines(), wrote.decode(errors="replace").splitlines()
    lacking = [f"- {it}" for it in wanted if it not in wrote]
    return lacking + [f"+ {it}" for it in wrote if it not in wanted] or ["the same lines in another order"]


def compare(play, ran, ended):
    """What a run printed, and its status, against what was wanted: what went wrong, no line where nothing did."""
    status, wrote, told = ran
    wrong = difference(play.wanted, wrote) if wrote != play.wanted else []
    if status != ended:
        wrong += [f"status {status}, not {ended}", *told.decode(errors="replace").splitlines()]
    return wrong, ""


def play_program(play):
    """Runs a program."""
    folder = f"{TOP}/crates/{play.crate}"
    program = program_of_lines() if play.needs == [RUN] else kept_at(play.crate)
    return compare(play, run(program, play.words, read(f"{folder}/stdin")), int(read(f"{folder}/status", b"0")))


@functools.lru_cache(maxsize=None)
def program_of_lines():
    """The program that plays lines: the proved one, where it is current, or that of generated/."""
    crate, _ = RUN
    proved = f"{TOP}/crates/{crate}/out/{crate}"
    is_proved = os.access(proved, os.X_OK) and is_current(crate, proved, ["src", "specs", "proofs"])
    return proved if is_proved else generate.program("x86_64/vhost-run") or kept_at(crate)


def play_script(play):
    """Plays a script. The player has to refuse one whose name says so."""
    words = [f"{TOP}/tests/player/play.py", place()[0], program_of_lines(), f"{TOP}/{play.path}"]
    return compare(play, run(sys.executable, words), int(os.path.basename(play.path).startswith("refused_")))


def play_rows(play):
    """Runs the rows of a program: what those said that failed, and how many held."""
    status, wrote, told = run(sys.executable, [f"{TOP}/{play.path}", *([] if play.alone else [program_of_lines()])])
    lines = (wrote + told).decode(errors="replace").splitlines()
    return [it for it in lines if ": ok" not in it] if status != 0 else [], f" ({lines[-1] if lines else 'nothing'})"


def play_tests(play):
    """Runs the unit tests of a file: what went wrong, and how many there are."""
    module = re.sub(r"^crates/\w+/src/|\.rt$", "", play.path).replace("/", "::")
    program = kept_at(play.crate, tests=True)
    listed = re.findall(r"(?m)^(.*): test$", run(program, ["--list"])[1].decode(errors="replace"))
    names = [it for it in listed if it.rpartition("::")[0] == module]
    wrong = [] if names else ["none of its tests is compiled"]
    for name in names:
        status, wrote, told = run(program, [name, "--exact"])
        if status != 0:
            wrong += [f"{name}: status {status}", *(wrote + told).decode(errors="replace").splitlines()]
    return wrong, f" ({len(names)} test{'s' * (len(names) != 1)})"


def play_one(play):
    """Plays one, unless it is broken: what went wrong, and what its line says more."""
    if play.broken:
        return [play.broken], ""
    if play.script:
        return play_script(play)
    if play.rows:
        return play_rows(play)
    return play_tests(play) if play.tests else play_program(play)


def is_made(which):
    """Whether what a play needs is there, and no source is newer."""
    if which == LIBRARY:
        return place()[1]
    made = program_of_lines() if which == RUN else kept_at(*which)
    return made != kept_at(*which) or is_current(which[0], made, ["src"])


def make(which):
    """Compiles what a play needs. None, or what was told where that failed."""
    if which != LIBRARY:
        return compile_unproved(*which)
    try:
        shared_library()
    except Unmade as why:
        return str(why)
    return None


def needs_kit(which):
    """Whether making what a play needs takes the Rattle kit."""
    return which != LIBRARY or place()[2] == "unproved"


def lacking_of(plays):
    """What these plays need and is not there."""
    return [it for it in sorted({which for it in plays if not it.broken for which in it.needs}) if not is_made(it)]


def compile_all(plays, jobs):
    """Compiles what is not there. The plays that need what could not be compiled become broken."""
    lacking = lacking_of(plays)
    if not lacking:
        return
    print(f"test quick: compiles {len(lacking)} programs without proof", file=sys.stderr, flush=True)

    def compile_one(which):
        told = make(which)
        print(f"test quick: {which[0]} {'could not be compiled' if told else 'is compiled'}", file=sys.stderr, flush=True)
        return told

    with ThreadPoolExecutor(jobs) as pool:
        failed = {which: told for which, told in zip(lacking, pool.map(compile_one, lacking)) if told}
    for told in failed.values():
        sys.stderr.write(told)
    for play in plays:
        if any(it in failed for it in play.needs):
            play.broken = "its program could not be compiled"


def main(jobs, words):
    every = [*scripts(), *(play for crate in dependencies() for play in plays_of(crate)), Play("client", CLIENT, rows=True, alone=True)]
    for word in words:
        if not any(it.is_named(word) for it in every):
            print(f"test quick: there is nothing named {word}: a script, a file of unit tests, a crate, or scripts", file=sys.stderr)
            return 2
    plays = [it for it in every if not words or any(it.is_named(word) for word in words)]
    if not shutil.which("rt") and any(map(needs_kit, lacking_of(plays))):
        print("test quick: the command rt of the Rattle kit is not on PATH", file=sys.stderr)
        return 3
    compile_all(plays, jobs)
    failed = 0
    with ThreadPoolExecutor(jobs) as pool:
        for play, (wrong, more) in zip(plays, pool.map(play_one, plays)):
            failed += bool(wrong)
            print(f"{'FAILED' if wrong else 'ok'} {play.path}{more}", flush=True)
            for line in wrong[:SHOWN] + ["  .."] * (len(wrong) > SHOWN):
                print(f"    {line}", flush=True)
    print(f"{len(plays) - failed} passed, {failed} failed")
    return 1 if failed else 0


if __name__ == "__main__":
    sys.exit(main(int(sys.argv[1]), sys.argv[2:]))
