# SPDX-License-Identifier: Apache-2.0
"""Whether the pages are true to the repository, by three words of scripts/check.py.

names: whether each name and each link of the pages is there, and the version is that of VERSION everywhere: in headers and packages, and on each
page but CHANGELOG.md, whatever stands behind the word version, unless it is a version of the crate vhost that rust/vhost stands in for. A name stands between backticks: alone, or
as a word that has an underscore or a capital behind a small letter. It has to stand in some source, or be the name of a file; one of capitals
alone stands for others. What a page names since it is not here stands in a line of its own: '<!-- not here: NAME NAME .. -->'. A path between
backticks has to be a file or a folder, or the end of one, where it begins with a folder of the repository.

quotes: whether the code that pages quote stands in the sources, and their commands are run by a test. A block of `rust` is quoted from one file of
crates/vhost_examples/src or below rust/examples, one of `c` from one file of c/, c/tests or c/real, one of `antt` from one file of some crate's
specs/: its lines stand there in this order, without the space before them; a line '// ..', '/* .. */' or '-- ..' leaves some out. A block of
`rust,no_run` is none: rustdoc compiles it. A session '$ ./vhost-run <<END' is quoted from one session of tests/scripts/lines_*.txt: its lines are
typed there, and printed. Any other command '$ ..' is of a page that tests/programs/try_pages.py plays, which a test calls for that page, or it
stands in tests/commands with the test that runs it: a file, and a word that stands there. A row of that list is of some page.

style: whether the sentences of the pages are short, their links lead somewhere, and README is one page. A sentence has at most 35 words, where code
and a link's address count as one or none; tables, blocks of code and headings have no sentences. A page other than README is as long as its
reader needs.
"""
import fnmatch
import glob
import os
import re
import subprocess
import sys

sys.path.insert(0, os.path.join(os.path.dirname(os.path.realpath(__file__)), "../../tests/programs"))

from try_pages import PLAYED, commands_of, elsewhere, plain  # noqa: E402

TOP = os.path.dirname(os.path.dirname(os.path.dirname(os.path.realpath(__file__))))


def read(path):
    """The text of a file of the repository."""
    with open(f"{TOP}/{path}", encoding="utf-8") as file:
        return file.read()


def tracked():
    """The files of the repository."""
    words = ["git", "-C", TOP, "ls-files", "-co", "--exclude-standard"]
    found = subprocess.run(words, capture_output=True, text=True, check=True).stdout.split("\n")[:-1]
    return [file for file in found if os.path.isfile(f"{TOP}/{file}")]


def pages():
    """The text of each page, by its path."""
    return {file: read(file) for file in tracked() if file.endswith(".md")}


# -- Names --

# What is between backticks is a name; and a word there that only a name is.
ALONE = re.compile(r"[A-Za-z]\w*(?:::\w+)*")
NAME = re.compile(r"(?<!\w)(?:[A-Za-z]\w*_\w+|[A-Za-z]*[a-z][A-Z]\w*)")

# A path: it begins with a folder or a file of the repository.
PATH = re.compile(r"(?<!\w)(?:crates|docs|scripts|tests|include|c|rust|specs|src|proofs|must-fail|mutants|\.ci)/[\w./*-]+")


def names_of(files):
    """All words of the sources, and the names of all files."""
    found = set()
    for file in files:
        found.update(re.findall(r"\w+", file))
        # (what is generated has no names of its own)
        if not file.endswith(".md") and not file.startswith("generated/"):
            with open(f"{TOP}/{file}", encoding="utf-8", errors="replace") as text:
                found.update(re.findall(r"\w+", text.read()))
    return found


def spans_of(text):
    """The words between backticks, each with its line; what stands between fences is none."""
    inside = False
    for number, line in enumerate(text.split("\n"), 1):
        if line.startswith("```"):
            inside = not inside
        elif not inside and not line.startswith("    "):
            for span in re.findall(r"`([^`]+)`", line):
                yield number, span


def is_there(path, files):
    """Whether a path is a file or a folder of the repository, or the end of one; a star stands for anything."""
    path = path.rstrip("/.")
    ends = (path, f"*/{path}", f"{path}/*", f"*/{path}/*", f"{path}.*", f"*/{path}.*")
    return re.search(r"[A-Z]{3}", path) or path.startswith("out") or any(fnmatch.fnmatch(file, end) for file in files for end in ends)


def missing_of(page, text, names, files):
    """What a page names that is not there."""
    absent = {name for line in re.findall(r"<!-- not here: (.*?) -->", text) for name in line.split()}
    for number, span in spans_of(text):
        for path in PATH.findall(span):
            if not absent & set(path.split("/")) and not is_there(path, files):
                yield f"{page}:{number}: no file {path}"
        found = span.split("::") if ALONE.fullmatch(span) else NAME.findall(span)
        for name in [] if "*" in span else found:
            if not re.fullmatch("[A-Z]+", name) and name not in names and name not in absent:
                yield f"{page}:{number}: no source names {name}"


def versions():
    """The versions of the header, of the packages for Rust and Debian and of the daemon, where they differ from that of the repository."""
    version = read("VERSION").strip()
    for path, pattern in (
        ("include/covretin.h", r'COVRETIN_VERSION\s+"([^"]*)"'),
        ("rust/Cargo.toml", r'(?m)^version = "([^"]*)"'),
        ("rust/check/Cargo.toml", r'(?m)^version = "([^"]*)"'),
        ("crates/vhost_daemon/src/main.rt", r'"vhost-daemon ([0-9.]+)"'),
        ("debian/changelog", r"\Acovretin \(([0-9.]+)\)"),
    ):
        found = re.search(pattern, read(path))
        if found and found[1] != version:
            yield f"{path}: version {found[1]}, and VERSION says {version}"
    major, minor, patch = (int(part) for part in version.split("."))
    wanted = f"#define COVRETIN_VERSION_NUMBER 0x{major:02x}{minor:02x}{patch:02x}\n"
    if wanted not in read("include/covretin.h"):
        yield f"include/covretin.h: VERSION says {wanted.strip()}"


# A version, behind the word or behind the name. (a line of a Cargo.toml says that of another crate)
VERSIONED = re.compile(r"(?i)\b(?:version |covretin[-_ =(\"]+)v?(\d+\.\d+(?:\.\d+)?)\b")


def stood_in_for():
    """The versions of the crate vhost for which there is a package, as 0.17."""
    packages = glob.glob("rust/vhost/**/Cargo.toml", root_dir=TOP, recursive=True)
    found = (re.search(r'(?m)^name = "vhost"\nversion = "(\d+\.\d+)', read(path)) for path in packages)
    return {it[1] for it in found if it}


def versions_on(page, text, version, others):
    """The versions that a page names and that are neither this one, with its last number or without, nor another's."""
    for found in VERSIONED.finditer(text):
        if found[1] not in (version, version.rpartition(".")[0]) and ".".join(found[1].split(".")[:2]) not in others:
            yield f"{page}:{text.count(chr(10), 0, found.start()) + 1}: version {found[1]}, and VERSION says {version}"


def versions_of_pages():
    version, others = read("VERSION").strip(), stood_in_for()
    for page, text in pages().items():
        if page != "CHANGELOG.md":
            yield from versions_on(page, text, version, others)


def names():
    files = tracked()
    known = names_of(files)
    return [*versions(), *versions_of_pages(), *(fault for page, text in pages().items() for fault in missing_of(page, text, known, files))]


# -- Quotes --

SOURCES = {
    "rust": ["crates/vhost_examples/src/*.rt", "rust/examples/**/*.rs"],
    "c": ["c/*.c", "c/tests/*.c", "c/real/*.c"],
    "antt": ["crates/*/specs/*.antt"],
}


def files_of(patterns):
    """The files of these patterns, but for what cargo made."""
    found = {path for pattern in patterns for path in glob.glob(pattern, root_dir=TOP, recursive=True)}
    return [path for path in sorted(found) if "target" not in path.split("/")]


def lines_of(text):
    """The lines of a text, without the space around them; empty ones are none."""
    return [line.strip() for line in text.split("\n") if line.strip()]


def stands_in(parts, lines):
    """Whether each part stands in these lines, whole, and behind the one before it."""
    at = 0
    for part in parts:
        starts = [it for it in range(at, len(lines) - len(part) + 1) if lines[it : it + len(part)] == part]
        if not starts:
            return False
        at = starts[0] + len(part)
    return True


def parts_of(block):
    """The parts of a block between the lines that leave some out."""
    parts = [[]]
    for line in lines_of(block):
        if re.match(r"(//|--|/\*) \.\.", line):
            parts.append([])
        else:
            parts[-1].append(line)
    return [part for part in parts if part]


def is_session(block):
    """Whether a session of `vhost-run` is one of the scripts: what is typed, and what is printed."""
    typed, printed = re.search(r"<<END\n(.*?)\n *END\n(.*)", block, re.S).groups()
    wanted = [f"line {it}" for it in lines_of(typed)], [f"prints {it}" for it in lines_of(printed)]
    for path in files_of(["tests/scripts/lines_*.txt"]):
        for session in read(path).split("\nsession "):
            lines = lines_of(session)
            if wanted == ([it for it in lines if it.startswith("line ")], [it for it in lines if it.startswith("prints ")]):
                return True
    return False


def is_quoted(kind, block):
    """Whether a block stands in the sources."""
    if kind == "session":
        return is_session(block)
    return any(stands_in(parts_of(block), lines_of(read(path))) for path in files_of(SOURCES[kind]))


def blocks_of(text):
    """The blocks of a page that are quoted: each with its line and its kind."""
    for found in re.finditer(r"^```(rust|c|antt)\n(.*?)^```", text, re.S | re.M):
        yield text.count("\n", 0, found.start()) + 1, found[1], found[2]
    for found in re.finditer(r"^    \$ \./vhost-run <<END\n(?:    .*\n)*", text, re.M):
        yield text.count("\n", 0, found.start()) + 1, "session", found[0]


def untried(page, text, known):
    """The commands of a page that no test runs."""
    for command in commands_of(text):
        if not (page in PLAYED or plain(command.text) in known or command.text.startswith("./vhost-run <<END")):
            yield f"{page}:{command.number}: no test runs '{plain(command.text)[:60]}'"


def missing_tests(texts, known):
    """What the lists of pages and of commands name that is not there."""
    for page, test in PLAYED.items():
        if page not in texts or "try_pages.py" not in read(test):
            yield f"tests/programs/try_pages.py: {page} is no page, or {test} does not play pages"
    typed = {plain(command.text) for text in texts.values() for command in commands_of(text)}
    for command, where in known.items():
        file, _, word = where.partition(" ")
        if command not in typed or not os.path.isfile(f"{TOP}/{file}") or word not in read(file):
            yield f"tests/commands: '{command[:60]}' stands on no page, or {where} is not there"


def unquoted(page, text):
    """The blocks of a page that no source has."""
    for number, kind, block in blocks_of(text):
        if not is_quoted(kind, block):
            yield f"{page}:{number}: no source has this {kind}"


def quotes():
    texts, known = pages(), elsewhere()
    wrong = [fault for page, text in texts.items() for fault in (*unquoted(page, text), *untried(page, text, known))]
    return [*wrong, *missing_tests(texts, known)]


# -- Style --

MOST_WORDS = 35
MOST_LINES = {"README.md": 120}

LINK = re.compile(r"\[[^\]]*\]\(([^)#\s]+)(?:#[^)]*)?\)")


def prose(text):
    """The text without blocks of code, comments, tables and headings; code is one word, and of a link its words are left."""
    text = re.sub(r"^```.*?^```", "", text, flags=re.S | re.M)
    text = re.sub(r"<!--.*?-->", "", text, flags=re.S)
    text = "\n".join("" if line.startswith(("    ", "|", "#")) else line for line in text.split("\n"))
    text = re.sub(r"`[^`]*`", "X", text)
    return re.sub(r"\[([^\]]*)\]\([^)]*\)", r"\1", text)


def sentences(text):
    """The sentences of prose; a paragraph ends one, and an item of a list."""
    for part in re.split(r"\n\s*\n|\n(?=\s*(?:[-*]|\d+\.) )", text):
        yield from (" ".join(it.split()) for it in re.split(r"(?<=[.!?])\s+", part))


def faults(page, text):
    """What is wrong with a page."""
    for sentence in sentences(prose(text)):
        count = len(sentence.split())
        if count > MOST_WORDS:
            yield f"{page}: a sentence of {count} words: {sentence[:80]}"
    for link in LINK.findall(text):
        if "://" not in link and not link.startswith("mailto:") and not os.path.exists(os.path.join(TOP, os.path.dirname(page), link)):
            yield f"{page}: a link leads nowhere: {link}"
    lines = text.count("\n")
    if lines > MOST_LINES.get(page, lines):
        yield f"{page}: {lines} lines, and may have {MOST_LINES[page]}"


def style():
    return [fault for page, text in pages().items() for fault in faults(page, text)]
