#!/usr/bin/env python3
# SPDX-License-Identifier: Apache-2.0
"""Whether docs/THEOREMS.md says of the theorem what the sources have: the word theorems of scripts/check.py, by --write of which the figures of the
page's table are written.

  scripts/check_pages/theorems.py                          prints each definition that a statement reaches, with its lines
  scripts/check_pages/theorems.py CRATE.MODULE.NAME ..     the same of a definition in crates/CRATE/specs/MODULE.antt, and how much that is

Each function of the page's table is one of crates/vhost_headline/src, in headline.rt or sessions.rt, is called in runs.rt or session_runs.rt
there, and has its line in what the program prints; so has each function of these two its row. The figures are the lines of the definitions that its
contract names and of all that these are made of. In each section there stands what carries it: functions, each in the file behind it; worked
consequences, which are functions in crates/; and mutants, of lockstep three at least and else one, each with its file.

Counted are the definitions that one reaches, with their comments, and the types and constants in Rattle that these name; not the language's library,
nor `use` lines. It is a bound, since names are compared as text.
"""
import functools
import glob
import os
import re
import sys

from pages import TOP

# -- What a definition is made of --

# A definition begins so, and so does the list of what a block of them takes.
BEGINS = re.compile(r"(?:abbrev|unfoldable|abstract) pub (\S+)|pub (?:record|data) (\S+)|(module) _|infix\w* ")
USE = re.compile(r"\s*(?:pub |ghost )?use Rattle\.(\w+)\.specs\.([\w.]+?)\.?(?: as (\w+)|\{([^}]*)\});?\s*$")
GLOB = re.compile(r"use (\w+)\.\*$")
WORD = re.compile(r"[\w']+(?:\.[\w']+)?|[^\w\s(){},;.]+")
# Where variables get their names: at the left of an equation, behind λ, and before their type; and the name of a record's part.
EQUATION = re.compile(r"\s*(?!pub |let )[\w']+ ([^:{}]*?) = ")
LAMBDA = re.compile(r"λ ([\w' ]+)\.")
TYPED = re.compile(r"[({]([a-z][\w' ]*) :")
PART = re.compile(r"^(\s+pub )[\w']+ :")
IN_RUST = re.compile(r"pub (?:struct|enum|const|static|type) (\w+)")


def lines_of(path):
    with open(path, encoding="utf-8") as file:
        return file.read().split("\n")


def spoken(name):
    """The part of an operator's name that stands where it is used."""
    return name.strip("◌:")


class Module:
    """A module of definitions: for each the lines, and for each name the definition that it is of."""

    def __init__(self, path):
        self.path, self.size = path, len(lines_of(path)) - 1
        self.items, self.blocks, self.owner, self.uses = {}, {}, {}, {}
        self.read(lines_of(path))

    def read(self, lines):
        comments, item, block = [], None, None
        for line in lines:
            text = line.strip()
            begins = BEGINS.match(text)
            if not text:
                comments, item = [], None
            elif (use := USE.match(line)) is not None:
                self.imports(*use.groups())
            elif (child := GLOB.match(text)) is not None:
                self.uses |= module_at(f"{self.path.removesuffix('.antt')}/{child[1]}.antt").uses
            elif text.startswith("--"):
                comments.append(line)
                if item and line.startswith("    ") and not begins:
                    self.items[item].append(comments.pop())
            elif begins:
                if not line.startswith(" "):
                    block = None
                name = begins[1] or begins[2] or f"{text} "
                item = spoken(name)
                self.items[item] = [*comments, line]
                self.owner[item] = item
                if begins[3]:
                    block = item
                elif block:
                    self.blocks[item] = block
                comments = []
            elif item:
                self.items[item] += [*comments, line]
                comments = []
                # (a way to make a value of a type, and its word, belong to the type)
                if (made := re.match(r"\s+(\w+) :", line)) is not None:
                    self.owner.setdefault(made[1], item)

    def imports(self, crate, name, alias, words):
        if alias:
            self.uses[f"{alias}."] = (crate, name, None)
        for word in filter(None, (word.strip() for word in (words or "").split(","))):
            there, _, here = word.partition(" as ")
            self.uses[spoken(here or there)] = (crate, name, spoken(there))


@functools.cache
def module_at(path):
    return Module(path)


@functools.cache
def place_of(crate, name):
    """The module, or the source in Rattle, that a name begins with; and the rest of the name."""
    words = name.split(".")
    if words[0] in ("declared", "contracts"):
        words, folder, end = words[1:], "src", "rt"
    else:
        folder, end = "specs", "antt"
    for count in range(len(words), 0, -1):
        path = f"{TOP}/crates/{crate}/{folder}/{'/'.join(words[:count])}.{end}"
        if os.path.isfile(path):
            return path, words[count:]
    return None, words


@functools.cache
def types_in(path):
    """The types and constants of a source in Rattle, each with its lines."""
    found, lines = {}, lines_of(path)
    for number, line in enumerate(lines):
        if (begins := IN_RUST.match(line)) is not None:
            first, last = number, number
            while first > 0 and lines[first - 1].startswith(("///", "#[")):
                first -= 1
            if not line.rstrip().endswith((";", "}")):
                while last + 1 < len(lines) and not lines[last].startswith(("}", ")")) and not (last > number and lines[last].endswith("};")):
                    last += 1
            found[begins[1]] = lines[first : last + 1]
    return found


@functools.cache
def all_types():
    """Where each type and constant of the crates is, by its name."""
    found = {}
    for path in sorted(glob.glob(f"{TOP}/crates/*/src/**/*.rt", recursive=True)):
        for name in types_in(path):
            found.setdefault(name, []).append((path, name))
    return found


@functools.cache
def nameable(crate):
    """The crates whose types one names: itself, and those that it depends on."""
    rows = re.findall(rf"^{crate}\b[^:\n]*:(.*)$", text_of(f"{TOP}/crates.txt"), re.M)
    return {crate, *" ".join(rows).split()}


def crate_at(path):
    return os.path.relpath(path, f"{TOP}/crates").split(os.sep)[0]


def in_rust(path, rest, name):
    """The type or constant that a name in a source is of: itself, or its variant's."""
    for word in [*rest, name]:
        if word in types_in(path):
            return path, word
    return None


def target(crate, name, word):
    """What an imported word is: a definition, or a type in Rattle; None where it is the library's."""
    path, rest = place_of(crate, name)
    if path is None or word is None:
        return None
    if path.endswith(".rt"):
        return in_rust(path, rest, word)
    owner = module_at(path).owner
    found = owner.get(word) or (rest and owner.get(rest[0]))
    return (path, found) if found else None


def words_in(lines):
    """The words of a definition but its variables."""
    lines = [PART.sub(r"\1:", line.partition("--")[0]) for line in lines]
    typed = {word for line in lines for names in TYPED.findall(line) for word in names.split()}
    named, found = set(), set()
    for line in lines:
        if (equation := EQUATION.match(re.sub(r"\{\w+ = \w+\} ", "", line))) is not None:
            # (what stands behind a parenthesis there is a way to make a value)
            named = set(re.findall(r"(?<![\w(.])[a-z][\w']*", equation[1]))
        bound = {word for names in LAMBDA.findall(line) for word in names.split()}
        found |= {word for word in WORD.findall(line) if word.partition(".")[0] not in named | typed | bound}
    return found


def reached_from(path, item):
    """The definitions that the text of one names. A type in Rattle names others by names that only one has, or one that its crate may name, or one in
    its file."""
    if path.endswith(".rt"):
        lines = [line.partition("//")[0] for line in types_in(path)[item]]
        # (a struct's own parts are no one's to read)
        hides = any("pub struct" in line for line in lines)
        code = " ".join(line for line in lines if not hides or re.match(r"\s*pub ", line))
        for word in set(re.findall(r"\w+", code)):
            places = all_types().get(word, [])
            if len(places) > 1:
                places = [place for place in places if crate_at(place[0]) in nameable(crate_at(path))]
            yield next((place for place in places if place[0] == path), places[0] if len(places) == 1 else None)
        return
    module = module_at(path)
    if item in module.blocks:
        yield path, module.blocks[item]
    for word in words_in(module.items[item]):
        first, dot, second = word.partition(".")
        if dot and f"{first}." in module.uses:
            crate, name, _ = module.uses[f"{first}."]
            yield target(crate, name, second)
        if first in module.uses:
            yield target(*module.uses[first])
        elif first in module.owner:
            yield path, module.owner[first]


def closure(starts):
    found, left = set(), list(starts)
    while left:
        here = left.pop()
        if here is not None and here not in found:
            found.add(here)
            left += reached_from(*here)
    return found


def size(path, item):
    return len(types_in(path)[item]) if path.endswith(".rt") else len(module_at(path).items[item])


def start(name):
    crate, _, rest = name.partition(".")
    module, _, word = rest.rpartition(".")
    return target(crate, module, word) or sys.exit(f"{name}: no such definition")


# -- The page --

CRATE = "vhost_headline"
SOURCES = f"{TOP}/crates/{CRATE}/src"
# The modules of the statements, and where each is run.
RUN_BY = {"headline": "runs", "sessions": "session_runs"}
PAGE = f"{TOP}/docs/THEOREMS.md"

# Of which statement how many mutants are the least.
LEAST = {"4. Lockstep": 3}

IMPORT = re.compile(r"ghost use Rattle\.(\w+)\.specs\.([\w.]+?)\.\{([^}]*)\};")
FUNCTION = re.compile(r"^pub fn (\w+)(.*?)^\}", re.S | re.M)
ROW = re.compile(r"^\|[^|]*\| `(\w+)` \| ([\d,]+) lines \|$", re.M)


def text_of(path):
    return "\n".join(lines_of(path))


def imported(text):
    """Where each name of a definition is from, and how that is named there."""
    for crate, module, group in IMPORT.findall(text):
        for word in group.split(","):
            name, _, here = word.strip().partition(" as ")
            yield here or name, (crate, module, name)


def contracts():
    """Of each function its module, and the definitions that its contract names."""
    for module in RUN_BY:
        text = text_of(f"{SOURCES}/{module}.rt")
        words = dict(imported(text))
        for name, body in FUNCTION.findall(text):
            contract = body.partition("\n{\n")[0]
            named = (target(*words[word]) for word in re.findall(r"\w+", contract) if word in words)
            yield module, name, closure(it for it in named if it)


def lines_in(reached):
    return sum(size(*it) for it in reached)


def lines_of_modules(reached):
    return sum(module_at(path).size for path in {path for path, _ in reached if path.endswith(".antt")})


def wrong_rows(page):
    """What is wrong with the table."""
    rows = {name: int(figure.replace(",", "")) for name, figure in ROW.findall(page)}
    printed = text_of(f"{TOP}/crates/{CRATE}/stdout").split("\n")
    there = {name: (module, reached) for module, name, reached in contracts()}
    for name in rows.keys() ^ there.keys():
        yield f"{name}: not both on the page and in the sources"
    for name in rows.keys() & there.keys():
        module, reached = there[name]
        if f"{module}::{name}(" not in text_of(f"{SOURCES}/{RUN_BY[module]}.rt") or f"{name}: ran" not in printed:
            yield f"{name}: the program does not run it"
        if rows[name] != lines_in(reached):
            yield f"{name}: {rows[name]} lines on the page, and {lines_in(reached)} in the sources"


def is_function(name, path):
    """Whether a file, or one in a folder, has the function."""
    files = glob.glob(f"{TOP}/crates/{path}/*.rt") if os.path.isdir(f"{TOP}/crates/{path}") else [f"{TOP}/crates/{path}"]
    return any(os.path.isfile(file) and re.search(rf"fn {name}\b", text_of(file)) for file in files)


def names_in(item):
    return re.findall(r"`([\w:]+)`(?! \()", item) + re.findall(r"`([\w:]+)` \(", item)


def wrong_in(section, items):
    """What is wrong with a section: its lines 'Word: text'."""
    pending = []
    for span in re.findall(r"`([^`]+)`", items.get("Carried by", "")):
        if "/" in span:
            yield from (f"{section}: no {name} in {span}" for name in pending if not is_function(name, span))
            pending = []
        else:
            pending.append(span.rpartition("::")[2])
    sources = "\n".join(text_of(path) for path in glob.glob(f"{TOP}/crates/*/src/**/*.rt", recursive=True) if "vhost_promises" in path or "serving" in path)
    for name in names_in(items.get("Derived", "")):
        if not re.search(rf"pub(?:\(crate\))? fn {name}\b", sources):
            yield f"{section}: no worked consequence {name}"
    mutants = names_in(items.get("Refused", ""))
    for name in mutants:
        if not glob.glob(f"{TOP}/mutants/*/{name}.edit") + glob.glob(f"{TOP}/crates/*/must-fail/{name}.edit"):
            yield f"{section}: no mutant {name}"
    if len(mutants) < LEAST.get(section, 1):
        yield f"{section}: {len(mutants)} mutants"


def wrong_sections(page):
    for part in re.split(r"^## ", page, flags=re.M)[1:]:
        section, _, text = part.partition("\n")
        items = re.split(r"^- ", text, flags=re.M)[1:]
        found = {word.partition(",")[0]: rest for word, _, rest in (item.partition(":") for item in items)}
        for word in {"Premises", "Carried by", "Derived", "Refused", "Not said"} - found.keys():
            yield f"{section}: no line '{word}'"
        yield from wrong_in(section, found)


def theorems(write):
    page = text_of(PAGE)
    if write:
        there = {name: reached for _, name, reached in contracts()}
        page = ROW.sub(lambda row: row[0].replace(f"| {row[2]} lines |", f"| {lines_in(there[row[1]]):,} lines |") if row[1] in there else row[0], page)
        with open(PAGE, "w", encoding="utf-8") as file:
            file.write(page)
    return [*wrong_rows(page), *wrong_sections(page)]


def main(names):
    shown = [(name, closure([start(name)])) for name in names] or [(name, reached) for _, name, reached in contracts()]
    for name, reached in shown:
        print(f"{name}: {lines_in(reached)} lines, of modules that have {lines_of_modules(reached)} whole")
        for path, item in sorted(reached):
            print(f"{size(path, item):8} {os.path.relpath(path, f'{TOP}/crates')} {item.split(' ')[0]}")


if __name__ == "__main__":
    main(sys.argv[1:])
