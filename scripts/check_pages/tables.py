# SPDX-License-Identifier: Apache-2.0
"""Whether tables say what the sources have, by four words of scripts/check.py.

assumed: docs/ASSUMED.md has whatever the proofs rest on and nothing proves, counted from the verdicts in generated/ and from the sources. The page is
written by --write.

refusals: the table of refusals in docs/DIFFERENCES.md says of each request what the definitions make of it under Standard, and
tests/scripts/served_answers.txt has a session of each that they name, under both profiles.

sessions: the list tests/sessions is complete, and what it names is there. A row of it is a session that was once played over the crates in Rattle: its
file, its title, and where it is tested now. Each script that it names has a session of that title, each contract is of a function with `ensures`, and
each test is one of the crates.

places: docs/ARCHITECTURE.md says in how many files a request stands, and how many crates there are, and how deep. Counted is a request without a reply of
its own, of one number: NET_SET_MTU. A file is by hand where it stands outside the tables that scripts/requests/requests.py writes. What is kept by fuzzers
or recorded is not counted, since nobody writes it; nor are generated/, docs/exports.tsv, mutants, this script and its page. A crate's depth is one more
than that of the deepest that it uses, by crates.txt. --write writes the figures there.
"""
import difflib
import glob
import os
import re
import subprocess
import sys

sys.path[:0] = [os.path.join(os.path.dirname(os.path.realpath(__file__)), it) for it in ("../build", "../requests")]

from crates import dependencies  # noqa: E402
from pages import TOP, files_of, read  # noqa: E402
from requests import by_hand  # noqa: E402

# -- Assumed --

PAGE = "docs/ASSUMED.md"

# Definitions that a reader has to believe, each by the modules that state it; docs/THEOREMS.md counts those of the theorem.
READ = {
    "a split queue": ("vhost_queue", "Queue"),
    "a packed queue": ("vhost_queue", "Packed"),
}

# Code that no proof reaches, by its files.
UNPROVED = {
    "memory for the proved code, and the start of a program": ("c/covretin_memory.c", "c/covretin_program.c", "c/vhost_run_*.c", "c/line_reasons.c"),
    "sockets in C, with their descriptors": ("c/covretin_*socket.c", "c/covretin_transport.[ch]", "c/covretin_serving.[ch]"),
    "texts in C": ("c/covretin_text.c",),
    "the device kit in C: mapped memory, rings, events": ("c/covretin_device*.[ch]",),
    "calls of C and of the system from the package for Rust, where all of its `unsafe` is": ("rust/src/foreign/*.rs",),
    "the package for Rust: sessions, their records": ("rust/src/*.rs", "rust/src/vhost_user/*.rs"),
    "the device kit in Rust": ("rust/src/device/*.rs", "rust/src/queue/*.rs"),
    "the packages of the names vhost and virtio-queue": ("rust/vhost/src/*.rs", "rust/virtio-queue/src/*.rs", "rust/virtio-queue/src/*/*.rs"),
}

# How many functions the page names of one code.
MOST_NAMES = 20

# What the words of a verdict say.
WORDS = {
    "logic=proved": "each function is proved to meet its contract, with no hole",
    "functions": "so many are of the last crate; those below are in libraries",
    "axioms": "so many functions in C are assumed to meet a contract",
    "sum": "the program logic",
    "native": "the checker's own code computes on these",
    "logic-built=trusted": "the logic is the kit's, built once",
    "libraries-built=trusted": "libraries are as built; the gate proves them from nothing",
    "statements=trusted": "the kit's ported crates mean their statements",
    "threads": "functions in C by which threads begin and end",
    "main": "handles that `main` is given",
    "may-wait": "so many functions may wait",
}


def lines_in(paths):
    return sum(read(path).count("\n") for path in paths)


def module_at(crate, words):
    """The longest beginning of a name that is a module of definitions written by hand, or None."""
    for count in range(len(words), 0, -1):
        path = f"crates/{crate}/specs/{'/'.join(words[:count])}.antt"
        if os.path.isfile(f"{TOP}/{path}"):
            return path
    return None


def closure(crate, module):
    """The modules that one rests on, itself among them, by the modules that each of them uses."""
    found, left = set(), [f"crates/{crate}/specs/{module}.antt"]
    while left:
        path = left.pop()
        if path not in found:
            found.add(path)
            uses = re.findall(r"(?m)^\s*use Rattle\.(\w+)\.specs\.([\w.]+)", read(path))
            left += filter(None, (module_at(used, name.strip(".").split(".")) for used, name in uses))
    return found


def verdicts():
    """Each verdict by its name: the functions that it assumes, and its words."""
    for path in files_of(["generated/*/*.verdict"]):
        *assumed, line = (it for it in read(path).splitlines() if not it.endswith(".s"))  # (the sum of the code)
        name = f"{os.path.basename(path).removesuffix('.verdict')}, {os.path.basename(os.path.dirname(path)).removesuffix('-linux')}"
        yield name, [it.removeprefix("axiom ") for it in assumed], dict(word.partition("=")[::2] for word in line.split())


def assumed_rows():
    """A row for each proved code, with the machines of which it is the same."""
    rows = {}
    for name, assumed, words in verdicts():
        if int(words["axioms"]) != len(assumed):
            sys.exit(f"{name} counts {words['axioms']} axioms, and names {len(assumed)}")
        code, _, machine = name.partition(", ")
        rows.setdefault(f"{words['functions']} | {by_crate(assumed)}", {}).setdefault(code, []).append(machine)
    for row, codes in rows.items():
        names = (f"`{code}`, {' and '.join(machines)}" for code, machines in codes.items())
        yield f"| {'; '.join(names)} | {row} |"


def by_crate(names):
    """Names of functions, below each crate that declares them; of many how many each declares, since the verdict names them."""
    found = {}
    for name in names:
        crate, _, rest = name.partition("::")
        found.setdefault(crate, []).append(rest)
    if len(names) > MOST_NAMES:
        return "; ".join(f"{crate}: {len(rest)}" for crate, rest in found.items()) + ", named in its verdict"
    return "; ".join(f"{crate}: {', '.join(rest)}" for crate, rest in found.items())


def word_rows():
    said = {f"{word}={value}" if f"{word}={value}" in WORDS else word for _, _, words in verdicts() for word, value in words.items()}
    for word in sorted(said - {"target", "cpu"}):
        yield f"| `{word}` | {WORDS[word]} |"


def unsafe_rows():
    """Blocks of unsafe code, by folder, in Rattle and in Rust."""
    found = {}
    for path in files_of(("crates/*/src/*.rt", "crates/*/src/*/*.rt", "rust/**/src/**/*.rs")):
        if path.startswith("rust/fuzz/"):
            continue
        count = len(re.findall(r"(?m)^[^/\n]*\bunsafe (?:\{|impl|fn|extern)", read(path)))
        folder = os.path.dirname(path)
        found[folder] = found.get(folder, 0) + count
    for folder, count in found.items():
        if count:
            yield f"| `{folder}` | {count} |"


def page():
    """The page."""
    readers = [(of, closure(*module)) for of, module in READ.items()]
    parts = [
        "# Assumed",
        "`scripts/check.py --write assumed` writes this page: whatever the proofs rest on and nothing proves. [PROOFS](PROOFS.md) has it in words.",
        "## Functions in C\n\n| Code | Functions proved | Functions in C that its proof assumes |\n|---|---|---|\n" + "\n".join(assumed_rows()),
        "The kit's libraries state their contracts. The words of the verdicts in `generated/`:",
        "| Word | It says that |\n|---|---|\n" + "\n".join(word_rows()),
        "## Definitions\n\nA reader has to believe those of the [theorem](THEOREMS.md), and these, with all that they are made of.\n\n| Of | Modules | Lines |\n|---|---|---|\n"
        + "\n".join(f"| {of} | {len(modules)} | {lines_in(modules):,} |" for of, modules in readers),
        "## Code that is tested only\n\n| Code | Lines |\n|---|---|\n"
        + "\n".join(f"| {of} | {lines_in(files_of(patterns)):,} |" for of, patterns in UNPROVED.items()),
        "## Unsafe code\n\nThe blocks in Rattle are proved, too. Each in Rust has its reason beside it.\n\n| Folder | Blocks |\n|---|---|\n" + "\n".join(unsafe_rows()),
        "## Tools\n\nTwo code generators make each program, LLVM the one that ships, and the gate compares their outputs. [THREATS](THREATS.md) has the others.",
    ]
    return "\n\n".join(parts) + "\n"


def assumed(write):
    wanted = page()
    if write:
        with open(f"{TOP}/{PAGE}", "w", encoding="utf-8") as file:
            file.write(wanted)
    return list(difflib.unified_diff(read(PAGE).splitlines(), wanted.splitlines(), PAGE, "wanted", n=0, lineterm=""))[:20]


# -- Refusals --

DIFFERENCES, SETTLED, ANSWERS = "docs/DIFFERENCES.md", "crates/vhost_protocol/specs/Settled.antt", "tests/scripts/served_answers.txt"

ENDS = "the session ends"


def equations(name, text):
    """The left names and the right sides of a definition that is given by cases."""
    return dict(re.findall(rf"(?m)^{name} ([A-Z]\w*) .*?= (.*)$", text))


def defined(text):
    """What becomes of each request that has a rule of its own: that the session ends, or the numbers of its reply."""
    forms = equations("refused_reply", text)
    found = {name: ENDS for name in equations("has_reply", text)}
    found.update({name: ENDS for name, says in equations("is_listening", text).items() if says == "true"})
    found.update({name: set(re.findall(r"\b0x\d+|(?<=size = )0|(?<=U64 )1\b|(?<=then )0|(?<=else )1\b", says)) for name, says in forms.items()})
    return found


def told(page):
    """The same by the page's table."""
    table = page.split("| Refused | Under Standard | Under Vhost |\n", 1)[1].split("\n\n", 1)[0]
    found = {}
    for row in table.splitlines()[1:]:
        names, standard, _ = (cell.strip() for cell in row.strip("| ").split(" | "))
        for name in re.findall("`([A-Z_]+)`", names):
            found[name] = ENDS if ENDS in standard else set(re.findall(r"\b(?:0x\d+|\d)\b", standard))
    return found


def differences(wanted, says):
    for name in sorted({*wanted, *says}):
        if wanted.get(name) != says.get(name):
            yield f"{DIFFERENCES}: {name} is {says.get(name, 'not there')}, and by {SETTLED} {wanted.get(name, 'of no rule of its own')}"


def unplayed(wanted, sessions):
    """Of which of them no session's title says so, by the profile."""
    titles = re.findall(r"(?m)^session served (standard|vhost), (.*)$", sessions)
    for name in sorted(wanted):
        for profile in ("standard", "vhost"):
            if not any(profile == it and re.search(rf"\b{name}\b", title) for it, title in titles):
                yield f"{ANSWERS}: no session of {name} under {profile}"


def refusals():
    wanted = defined(read(SETTLED))
    return [*differences(wanted, told(read(DIFFERENCES))), *unplayed(wanted, read(ANSWERS))]


# -- Sessions --

# How many sessions there were.
SESSIONS = 1292


def rows():
    """The rows of the list: a file, a title, and where that session is tested."""
    for number, line in enumerate(read("tests/sessions").splitlines(), 1):
        if not line.startswith("#"):
            yield number, line.split("\t")


def titles():
    """The titles of the sessions of each script, by its name: those of lines, and the others."""
    found = {}
    for path in files_of(["tests/scripts/*.txt"]):
        name = os.path.basename(path)
        for kind, title in re.findall(r"(?m)^session (\w+) (.*)$", read(path)):
            found.setdefault((name, "vhost-run" if kind == "lines" else "library"), set()).add(title)
        found[name, "player"] = set()
    return found


def functions():
    """The functions of the crates that have a contract, and the tests."""
    contracts, tests = set(), set()
    for path in glob.glob("crates/*/src/**/*.rt", root_dir=TOP, recursive=True):
        text = read(path)
        contracts.update(re.findall(r"\bfn (\w+)[<(][^{]*?\n\s*(?:requires .*\n\s*)*ensures", text))
        tests.update(re.findall(r"#\[test\]\n\s*fn (\w+)", text))
    return {"contract": contracts, "test": tests}


def missing(row, known, named):
    """What a row names that is not there."""
    name, title, where = row
    head, _, other = where.partition(": ")
    if head in ("library", "vhost-run"):
        return [] if (other or title) in known.get((name, head), ()) else [f"{name} has no session '{other or title}'"]
    if head == "player":
        return [] if (other or name, head) in known else [f"there is no script {other or name}"]
    parts = [it.partition(" ") for it in where.split(", ")]
    return [f"there is no {kind} {it}" for kind, _, it in parts if it not in named.get(kind, ())]


def sessions():
    known, named, wrong, seen = titles(), functions(), [], set()
    for number, row in rows():
        if len(row) != 3:
            wrong.append(f"{number}: it is no file, title and place")
            continue
        if tuple(row[:2]) in seen:
            wrong.append(f"{number}: this session has a row already")
        seen.add(tuple(row[:2]))
        wrong += [f"{number}: {it}" for it in missing(row, known, named)]
    if len(seen) != SESSIONS:
        wrong.append(f"{len(seen)} sessions have a row, and there were {SESSIONS}")
    return [f"tests/sessions:{it}" for it in wrong]


# -- Where a request stands --

REQUEST = "set_mtu"
OF_PLACES = "docs/ARCHITECTURE.md"
MARK = re.compile(r"(?<=<!-- places -->\n).*?(?=\n<!-- -->)", re.DOTALL)
LEFT_OUT = [":!scripts/check_pages/tables.py", f":!{OF_PLACES}", ":!generated", ":!docs/exports.tsv", ":!c/fuzz/corpus", ":!c/real/probed", ":!rust/fuzz", ":!rust/check", ":!rust/tests/recordings", ":!crates/*/must-fail", ":!mutants"]

# Where a file stands that only tests or shows.
OF_TESTS = ("tests/", "c/tests/", "c/real/", "c/fuzz/", "c/bench/", "rust/tests/", "rust/examples/")
OF_TESTS += tuple(f"crates/vhost_{it}/" for it in ("examples", "promises", "unit_tests", "session_tests", "queue_tests"))


def files(name):
    """The files in which a request stands by one of its names."""
    pattern = name.replace("_", "_?")
    found = subprocess.run(["git", "-C", TOP, "grep", "-l", "-i", "-E", pattern, "--", ".", *LEFT_OUT], capture_output=True, text=True, check=False)
    return found.stdout.splitlines()


def is_by_hand(name, path):
    """Whether one stands in a file outside the tables that are made."""
    with open(f"{TOP}/{path}", encoding="utf-8") as file:
        return bool(re.search(name.replace("_", "_?"), by_hand(file.read()), re.IGNORECASE))


def by_kind(found):
    """How many of these are of each kind."""
    def count(holds):
        return sum(map(holds, found))

    def tests(it):
        return it.startswith(OF_TESTS)

    def proves(it):
        return re.match(r"crates/\w+/proofs/", it)

    code = [it for it in found if not tests(it) and not proves(it) and not it.endswith(".md")]
    crates = {it.split("/")[1] for it in code if it.startswith("crates/")}
    return len(code), len(crates), count(lambda it: not tests(it) and bool(proves(it))), count(tests), count(lambda it: it.endswith(".md"))


def depths():
    """How deep each crate lies."""
    uses, found = dependencies(), {}

    def depth(name):
        if name not in found:
            found[name] = 1 + max((depth(it) for it in uses[name] if it in uses), default=0)
        return found[name]

    for name in uses:
        depth(name)
    return found


def counted():
    """The figures, as the page has them."""
    found, deep = files(REQUEST), depths()
    hand = [it for it in found if is_by_hand(REQUEST, it)]
    code, crates, proofs, tests, pages = by_kind(hand)
    return (f"NET_SET_MTU is in {len(found)} files, by hand in {len(hand)}: code {code}, in {crates} crates, proofs {proofs}, tests {tests}, pages {pages}. "
            f"The {len(deep)} crates are {max(deep.values())} deep.")


def places(write):
    with open(f"{TOP}/{OF_PLACES}", encoding="utf-8") as file:
        page = file.read()
    wanted = counted()
    if not MARK.search(page):
        return [f"{OF_PLACES} has no place for them"]
    if write:
        with open(f"{TOP}/{OF_PLACES}", "w", encoding="utf-8") as file:
            file.write(MARK.sub(lambda _: wanted, page))
    return [] if write or MARK.search(page)[0] == wanted else [f"{OF_PLACES} has other figures: {wanted}"]
