# SPDX-License-Identifier: Apache-2.0
"""Whether the pages have the options that the programs have, by the word options of scripts/check.py.

The options of a program are those that its --help shows: a device's stand in the tables of c/tools, from which its help is made, and the others' in a
text. Its man page has a paragraph for each of them and for no other; that of the devices has a section for each device, behind what all have. How a
program is called, at the top of its man page or by a command of any page, names no option but its own; and docs/COMMANDS.md names none that no
program has. The letters -h stand for --help anywhere.
"""
import os
import re

from pages import pages, read, spans_of

# A program, and the file whose text its help is.
TEXTS = {
    "covretin": "covretin",
    "covretin-ask": "c/ask.c",
    "covretin-check": "rust/check/src/options.rs",
    "covretin-tap": "rust/src/tap/options.rs",
    "vhost-daemon": "crates/vhost_daemon/src/main.rt",
    "vhost-run": "c/vhost_run_about.c",
}

# A device, and the file of its table, to which that of c/tools/program.c comes.
TABLES = {"covretin-blk": "disk", "covretin-console": "console", "covretin-net": "card", "covretin-rng": "entropy"}
SHARED = "man/covretin-blk.1"

# What `covretin COMMAND` runs; and what it hands on to it.
COMMANDS = {"run": "vhost-run", "serve": "vhost-daemon", "disk": "covretin-blk", "rng": "covretin-rng", "net": "covretin-net"}
COMMANDS.update({"console": "covretin-console", "ask": "covretin-ask", "tap": "covretin-tap", "replay": "covretin-tap", "check": "covretin-check"})

OPTION = re.compile(r"(?<![\w-])(--[a-z][a-z-]*|-[a-z])(?![\w-])")


def options_in(text):
    return {it for it in OPTION.findall(text)} - {"-h"}


def table_of(path):
    """The options of a table in C: {"name", what it takes, what it says, ..}."""
    return {f"--{it}" for it in re.findall(r'^        \{"([a-z-]+)",|^    \{"([a-z-]+)",', read(path), re.M) for it in it if it}


def helps():
    """What each program's help shows."""
    found = {name: table_of(f"c/tools/{table}.c") | table_of("c/tools/program.c") for name, table in TABLES.items()}
    for name, path in TEXTS.items():
        text = re.search(r"usage: .*?(?=\nEND\n|\Z)", read(path), re.S)[0]
        end = re.search(r'prints this";|Status: .*?(?:";|\.\\n";|\Z)', text, re.S)
        # (how another program is called is left out)
        others = "|".join(sorted({*TABLES, *TEXTS} - {name}, key=len, reverse=True))
        found[name] = options_in(re.sub(rf"\b({others})( -[\w-]*)+", "", text[: end.end()]))
    return found


def plain(line):
    """A line of a man page, without its fonts."""
    return re.sub(r"\\f.", "", line).replace("\\-", "-").replace('"', "")


def manual_of(name):
    """What the man page of a program has: the lines of how it is called, and those that its paragraphs begin with."""
    lines = [plain(line) for line in read(SHARED if name in TABLES else f"man/{name}.1").split("\n")]
    begin, end = lines.index(".SH SYNOPSIS"), lines.index(".SH DESCRIPTION")
    called, of, last = [], name, ""
    for line in lines[begin:end]:
        of = line[3:] if line.startswith(".B ") else of
        called += [line] if of == name else []
    paragraphs, section = [], None
    for line in lines[end:]:
        section = line[4:] if line.startswith(".SS ") else None if line.startswith(".SH ") else section
        paragraphs += [line] if last == ".TP" and section in (None, name) else []
        last = line
    return called, paragraphs


def wrong_of_manual(name, known):
    called, paragraphs = manual_of(name)
    said = set().union(*map(options_in, paragraphs))
    for it in sorted(known - said):
        yield f"the man page of {name} has no paragraph of {it}, which its help shows"
    for it in sorted(said - known):
        yield f"the man page of {name} has a paragraph of {it}, which its help does not show"
    for it in sorted(options_in(" ".join(called)) - known):
        yield f"the man page of {name} calls it with {it}, which its help does not show"


def calls_on(text):
    """The programs that the commands of a page call, each with its words."""
    for command in re.findall(r"^ *\$ (.*(?:\\\n.*)*)", text, re.M):
        for part in re.split(r"[|&;<>`]|\$\(", command.replace("\\\n", " ")):
            words = [os.path.basename(it) for it in part.split()]
            words = words[: words.index("--")] if "--" in words else words
            for number, word in enumerate(words[:-1]):
                word = COMMANDS.get(words[number + 1], word) if word == "covretin" else word
                if word in TEXTS or word in TABLES:
                    yield word, " ".join(words[number + 1 :])
                    break


def wrong_of_pages(known):
    for page, text in pages().items():
        for name, words in calls_on(text):
            for it in sorted(options_in(words) - known[name] - {"--prove"}):
                yield f"{page} calls {name} with {it}, which its help does not show"
    all_of_them = set().union(*known.values())
    for number, span in spans_of(read("docs/COMMANDS.md")):
        for it in sorted(options_in(span) - all_of_them) if span.startswith("--") else []:
            yield f"docs/COMMANDS.md:{number}: no program has {it}"


def options():
    known = helps()
    for name in sorted(known):
        if not known[name]:
            yield f"{name}: no option is found"
        yield from wrong_of_manual(name, known[name])
    yield from wrong_of_pages(known)
