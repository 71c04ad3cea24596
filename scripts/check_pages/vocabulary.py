# SPDX-License-Identifier: Apache-2.0
"""Whether public names have the field's words, by the word words of scripts/check.py.

protocol/words.tsv lists the words that the sources have for themselves, each with the field's. Public names are the functions, types and constants of
the headers for C, the public functions of the package for Rust, the commands of covretin, and the options of all programs. A name has a word where that stands
between two underscores or hyphens, or at an end. A row of the list whose exceptions are no names is wrong, too.
"""
import glob
import re

import options
from pages import TOP, read

LIST = "protocol/words.tsv"


def public_names():
    """The names, each with where it stands."""
    for path in sorted(glob.glob("include/*.h", root_dir=TOP)):
        for name in set(re.findall(r"\b(?:covretin|COVRETIN)_\w+", re.sub(r"/\*.*?\*/", "", read(path), flags=re.S))):
            yield path, name.lower()
    for path in sorted(glob.glob("rust/src/**/*.rs", root_dir=TOP, recursive=True)):
        for name in set(re.findall(r"^\s*pub (?:unsafe )?fn (\w+)", read(path), re.M)):
            yield path, name
    for program, found in options.helps().items():
        for option in found:
            yield f"the options of {program}", option.lstrip("-").replace("-", "_")
    for command in options.COMMANDS:
        yield "the commands of covretin", command


def rows():
    """The rows of the list: a word, the field's, and the names that have it all the same."""
    for number, line in enumerate(read(LIST).splitlines(), 1):
        if not line.startswith("#"):
            word, instead, *rest = line.split("\t")
            yield number, word, instead, rest[0].split() if rest else [], len(rest) != 1


def words():
    wrong, names = [], list(public_names())
    for number, word, instead, besides, is_whole in rows():
        if not is_whole:
            wrong.append(f"{LIST}:{number}: it does not say why there are exceptions")
        having = [(where, name) for where, name in names if re.search(rf"(^|_){word}s?(_|$)", name)]
        for where, name in having:
            if not any(re.fullmatch(it, name) for it in besides):
                wrong.append(f"{where}: {name} has the word {word}; the field's is {instead} ({LIST}:{number})")
        wrong += [f"{LIST}:{number}: no name is {it}" for it in besides if not any(re.fullmatch(it, name) for _, name in having)]
    return wrong
