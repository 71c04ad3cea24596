# SPDX-License-Identifier: Apache-2.0
"""Tries mutants: wrong bodies, each of which the prover has to refuse. `./test mutants --help` says more, and `./test mutants` calls it."""
import functools
import os
import re
import shutil
import subprocess
import sys
import tempfile
from concurrent.futures import ThreadPoolExecutor
from dataclasses import dataclass

sys.path.insert(0, os.path.join(os.path.dirname(os.path.realpath(__file__)), "../scripts/build"))

from crates import PARTS, TOP, dependencies, lacking, words_over  # noqa: E402

# The mutant of each crate that means the same as the code, so that nothing may refuse it.
HARMLESS = "harmless"

# A function's and an impl's first line, each with the space before it.
FUNCTION = re.compile(r'( *)(?:pub(?:\([\w:]+\))? )?(?:const )?(?:unsafe )?(?:extern "C" )?fn (\w+)')
OWNER = re.compile(r"( *)(?:unsafe )?(?:impl|trait)\b(.*)")

# What is told of a proof file that does not fit since a name is gone, which says nothing of a goal.
NAMES = re.compile(r"is not in scope|has no |is no name|was not admitted")

# The result where the prover did what a mutant is for, and where the contract lets it through. Any other says why nothing is known.
REFUSED, PROVED = "refused", "not refused"


class Broken(Exception):
    """A mutant that cannot be tried, with why."""


@dataclass(frozen=True)
class Function:
    """A function: the end of the name by which the checker prints it, as much as fits no other; its file, and its first and last line."""

    name: str
    file: str
    first: int
    last: int


@dataclass
class Mutant:
    """An edit of a crate: its texts, each with its file and what takes its place, the functions that it changes, and what the compiler says
    of the first, where it is the compiler that refuses it."""

    crate: str
    path: str
    edits: list
    functions: list
    told: str = ""

    def name(self):
        return os.path.basename(self.path).removesuffix(".edit")

    def is_harmless(self):
        return self.name() == HARMLESS


def read(path):
    with open(path, encoding="utf-8") as file:
        return file.read()


def replaced(text, old, new, file):
    """A text with another in the place of what stands in it once."""
    if text.count(old) != 1:
        raise Broken(f"'{old}' stands {text.count(old)} times in {file}, and not once")
    return text.replace(old, new)


def edits_in(path):
    """The edits of a file: the lines 'file: ', 'old: ' and 'new: ', the first of which holds for all that follow it."""
    found, file, old = [], "", ""
    for line in read(path).splitlines():
        kind, _, text = line.partition(": ") if ": " in line else line.partition(":")
        if kind == "file":
            file = text.strip()
        elif kind == "old":
            old = text
        elif kind == "new":
            found.append((file, old, text))
    return found


def error_in(path):
    """What the compiler says of an edit, where it does not come to the prover: the line 'told: '."""
    return next((line.removeprefix("told: ") for line in read(path).splitlines() if line.startswith("told: ")), "")


def last_name(text):
    """The last name of a path, as of a type."""
    return text.strip().lstrip("&").split("::")[-1]


def owner_name(head):
    """How the checker names an impl: by its type, and behind that its trait."""
    while re.search(r"<[^<>]*>", head):
        head = re.sub(r"<[^<>]*>", "", head)
    trait, _, of = head.split("{")[0].split(" where ")[0].rpartition(" for ")
    return last_name(of) + last_name(trait)


def line_above(lines, number, pattern, indent):
    """The nearest line above one that matches, and stands further left: its number and its match."""
    for at in range(number - 1, -1, -1):
        found = pattern.match(lines[at])
        if found and len(found[1]) < indent:
            return at, found
    return None, None


@functools.cache
def functions_in(crate):
    """The names of all functions of a crate, those of types and traits too."""
    folder = f"{TOP}/crates/{crate}/src"
    files = [f"{at}/{name}" for at, _, names in os.walk(folder) for name in names if name.endswith(".rt")]
    return [found[2] for file in files for found in map(FUNCTION.match, read(file).split("\n")) if found]


def function_name(crate, file, lines, at, head):
    """The end of a function's name that fits no other: its own, or its type's or module's and its own."""
    if functions_in(crate).count(head[2]) == 1:
        return head[2]
    owner = line_above(lines, at, OWNER, len(head[1]))[1]
    return f"{owner_name(owner[2]) if owner else os.path.basename(file).removesuffix('.rt')}::{head[2]}"


def function_at(crate, file, text, place):
    """The function round a place of a file. The code is laid out: what is inside stands further right than its head and its end."""
    lines, number = text.split("\n"), text.count("\n", 0, place)
    at, head = line_above(lines, number, FUNCTION, len(lines[number]) - len(lines[number].lstrip()))
    if not head:
        raise Broken(f"line {number + 1} of {file} is in no function")
    first = at
    while lines[first - 1].lstrip().startswith(("#[", "///")):
        first -= 1
    last = lines.index(head[1] + "}", number)
    return Function(function_name(crate, file, lines, at, head), file, first + 1, last + 1)


def mutant_in(crate, path):
    """Reads a mutant."""
    edits, texts, functions = edits_in(f"{TOP}/{path}"), {}, []
    for file, old, new in edits:
        if not file.startswith("src/"):
            raise Broken(f"it changes {file or 'no file'}, and a mutant is an edit below src/")
        text = texts.get(file) or read(f"{TOP}/crates/{crate}/{file}")
        texts[file] = replaced(text, old, new, file)
        functions.append(function_at(crate, file, text, text.index(old)))
    if not edits:
        raise Broken("it has no lines 'file: ', 'old: ' and 'new: '")
    return Mutant(crate, path, edits, list(dict.fromkeys(functions)), error_in(f"{TOP}/{path}"))


def mutants_of(crate, folder, broken):
    """The mutants in a folder, by name. What cannot be read becomes broken, with why."""
    found = []
    for name in sorted(os.listdir(f"{TOP}/{folder}")) if os.path.isdir(f"{TOP}/{folder}") else []:
        path = f"{folder}/{name}"
        try:
            if not name.endswith(".edit"):
                raise Broken("its name does not end in .edit")
            found.append(mutant_in(crate, path))
        except (Broken, OSError) as why:
            broken[path] = str(why)
    return found


def rounds_of(mutants):
    """Mutants by the checks that they share: in one check each is of other functions than the others. An error of the compiler ends a check,
    so that a mutant that it refuses has one of its own."""
    rounds = []
    for mutant in mutants:
        shared = [it for it in rounds if not mutant.told and not it[0].told]
        fits = (it for it in shared if not {*mutant.functions} & {function for other in it for function in other.functions})
        taken = next(fits, None)
        if taken is None:
            rounds.append(taken := [])
        taken.append(mutant)
    return rounds


def edited(mutants, room):
    """Copies a crate into a folder, and edits it there."""
    crate = f"{TOP}/crates/{mutants[0].crate}"
    for part in PARTS:
        if os.path.isdir(f"{crate}/{part}"):
            shutil.copytree(f"{crate}/{part}", f"{room}/{part}")
    for file, old, new in [edit for it in mutants for edit in it.edits]:
        text = replaced(read(f"{room}/{file}"), old, new, file)
        with open(f"{room}/{file}", "w", encoding="utf-8") as changed:
            changed.write(text)


def check(kit, mutants, kept):
    """Checks the functions that these mutants of a crate change, over what earlier checks of it kept, if they did: what the checker tells."""
    crate = mutants[0].crate
    with tempfile.TemporaryDirectory(prefix="mutants-") as room:
        try:
            edited(mutants, room)
        except Broken as why:
            return f"error: {why}"
        words = [f"{kit}/bin/rattle", "check", *words_over(crate, kit), "--jobs", "1", *(["--incremental", kept] if kept else [])]
        for function in dict.fromkeys(function for it in mutants for function in it.functions):
            words += ["--only", function.name]
        with open(f"{room}/told", "w+", encoding="utf-8", errors="replace") as told:
            running = subprocess.Popen(words, cwd=room, stdin=subprocess.DEVNULL, stdout=told, stderr=told)
            used = os.wait4(running.pid, 0)[2]
            told.seek(0)
            text = told.read()
    many = f"{len(mutants)} mutant{'s' * (len(mutants) != 1)}"
    print(f"test mutants: {crate}: {many} in a check of {used.ru_utime + used.ru_stime:.0f} seconds", file=sys.stderr, flush=True)
    return text


def reason(told):
    """The first lines that say why a check did not come to its end."""
    lines = [it for it in told.splitlines() if re.search(r"error|fits no|no verdict", it)] or told.splitlines()[-3:] or ["it was killed"]
    return " / ".join(it.strip() for it in lines[:3])


def has_open_goal(function, told):
    """Whether the checker tells of a goal of a function that is not proved."""
    notes = re.findall(r"(?m)^note: (?:\./)?(\S+?):(\d+):\d+: it is not proved that ", told)
    return any(file == function.file and function.first <= int(line) <= function.last for file, line in notes)


def judged_function(crate, function, told):
    """What the checker tells of a function: that a goal is not proved, that all are, or what leaves it unknown."""
    found = re.search(rf"(?m)^fn {crate}::((?:[\w+]+::)*{re.escape(function.name)}): (.*)$", told)
    if not found:
        return f"the checker says nothing of {function.name}"
    name, line = found.groups()
    if line.partition(",")[0] == "proved":  # (and it may wait, say)
        return PROVED
    own = re.escape("proofs/" + name.replace("::", "/"))
    errors = re.findall(rf"(?m)^(?:\./)?{own}/\w+\.antt:\d+:\d+: error: (.*)$", told)
    # (what does not fit in a proof file names its goal, unless the file cannot be read)
    if "`search` did not prove" in line or has_open_goal(function, told):
        return REFUSED
    if any(re.match(r"`[^`]+`: ", it) and not NAMES.search(it) for it in errors):
        return REFUSED
    if errors or f"has not tried the goals of `{crate}::{name}`" in told or not line.startswith("no proof: it calls "):
        return f"{name}: {line}" + "".join(f" / {it}" for it in errors[:1])
    return PROVED


def is_error_at(function, error, told):
    """Whether the compiler tells of this error inside a function."""
    lines = re.findall(rf"(?m)^(?:\./)?{re.escape(function.file)}:(\d+):\d+: error\S* .*{re.escape(error)}", told)
    return any(function.first <= int(line) <= function.last for line in lines)


def judged(mutant, told):
    """What the prover did with a mutant: that of one of its functions is enough to refuse it. Or the compiler, where the mutant names its
    error."""
    if mutant.told:
        return REFUSED if is_error_at(mutant.functions[0], mutant.told, told) else reason(told)
    if not re.search(r"(?m)^only=\d+ proved=\d+$", told):
        return reason(told)
    found = [judged_function(mutant.crate, it, told) for it in mutant.functions]
    unknown = [it for it in found if it not in (REFUSED, PROVED)]
    return REFUSED if REFUSED in found else unknown[0] if unknown else PROVED


def is_well(mutant, result):
    return result == (PROVED if mutant.is_harmless() else REFUSED)


def tried(kit, mutants, kept=None):
    """Tries mutants of a crate in one check: the result of each. Those that it did not refuse are tried once more without the others,
    since what calls a function that is not proved may be left open; and each by itself where none was refused."""
    told = check(kit, mutants, kept)
    results = {it.path: judged(it, told) for it in mutants}
    left = [it for it in mutants if results[it.path] != REFUSED and not it.is_harmless()]
    groups = [[it] for it in left] if len(left) == len(mutants) else [left]
    for group in groups if left and len(mutants) > 1 else []:
        results.update(tried(kit, group, kept))
    return results


def tried_in_turn(kit, rounds):
    """Tries the checks of a crate one after another, where each takes what the others proved: the results of each."""
    with tempfile.TemporaryDirectory(prefix="mutants-kept-") as kept:
        return [tried(kit, it, kept if len(rounds) > 1 else None) for it in rounds]


def every_mutant(broken):
    """All mutants, by crates. What is wrong with one becomes broken, with why."""
    crates, found = dependencies(), []
    for crate in crates:
        own = mutants_of(crate, f"mutants/{crate}", broken)
        found += [*own, *mutants_of(crate, f"crates/{crate}/must-fail", broken)]
        if own and not any(it.is_harmless() for it in own):
            broken[f"mutants/{crate}"] = f"it has no {HARMLESS}.edit, by which one sees that not all is refused"
    for name in sorted({*os.listdir(f"{TOP}/mutants")} - {*crates}):
        broken[f"mutants/{name}"] = "there is no such crate"
    return found


def is_named(mutant, words):
    """Whether words name a mutant: by its name, alone or behind its crate's, or by its crate. Without words it is one of mutants/."""
    if {mutant.name(), f"{mutant.crate}/{mutant.name()}"} & {*words}:
        return True
    return mutant.path.startswith("mutants/") and (not words or mutant.crate in words)


def size_of(crate):
    """How many bytes of code a crate has."""
    return sum(os.path.getsize(f"{at}/{name}") for at, _, names in os.walk(f"{TOP}/crates/{crate}/src") for name in names)


def all_rounds(mutants, words):
    """The checks of each crate that try what is named, with its harmless mutant in the first of them. Large crates come first, since their
    checks are the longest, and one that began last would keep the other processors waiting."""
    found = []
    for crate in dependencies():
        own = [it for it in mutants if it.crate == crate]
        named = [it for it in own if is_named(it, words) and not it.is_harmless()]
        found += [rounds_of([*(it for it in own if it.is_harmless()), *named])] if named else []
    return sorted(found, key=lambda it: -size_of(it[0][0].crate))


def told_of(mutant, result):
    """The line about a mutant."""
    if is_well(mutant, result):
        return f"ok {mutant.path}: {result}"
    return f"FAILED {mutant.path}: {'refused, and it means the same' if result == REFUSED else result}"


def main(kit, jobs, words):
    broken = {}
    mutants = every_mutant(broken)
    for word in words:
        if not any(is_named(it, [word]) for it in mutants):
            print(f"test mutants: there is nothing named {word}: a mutant, or a crate that has some", file=sys.stderr)
            return 2
    crates = all_rounds(mutants, words)
    missing = lacking({it[0][0].crate for it in crates})
    if missing:
        print(f"test mutants: run ./test proofs first: not built, or older than its sources: {' '.join(missing)}", file=sys.stderr)
        return 3
    passed, failed = 0, len(broken)
    for path, why in sorted(broken.items()):
        print(f"FAILED {path}: {why}", flush=True)
    with ThreadPoolExecutor(jobs) as pool:
        for rounds, found in zip(crates, pool.map(lambda it: tried_in_turn(kit, it), crates)):
            for it, result in [(it, results[it.path]) for tried_together, results in zip(rounds, found) for it in tried_together]:
                print(told_of(it, result), flush=True)
                passed += is_well(it, result)
                failed += not is_well(it, result)
    print(f"{passed} passed, {failed} failed")
    return 1 if failed else 0


if __name__ == "__main__":
    sys.exit(main(sys.argv[1], int(sys.argv[2]), sys.argv[3:]))
