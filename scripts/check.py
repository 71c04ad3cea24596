#!/usr/bin/env python3
# SPDX-License-Identifier: Apache-2.0
"""scripts/check.py: whether what the repository says of itself is so: its pages, tables, headers and lists.

  scripts/check.py                    checks all
  scripts/check.py WORD..             checks these alone
  scripts/check.py --write [WORD..]   writes what is made of the sources, and checks it: assumed, theorems, exports, headers, requests, places, checked

  format    each crate is formatted, by the command rt of the Rattle kit; without rt that is left out
  names     each name and path that a page has is there, and the version is the same everywhere
  quotes    the code that pages quote stands in the sources, and a test runs each of their commands
  style     the sentences of pages are short, their links lead somewhere, and README is one page
  assumed   docs/ASSUMED.md has what the proofs rest on
  theorems  docs/THEOREMS.md has what the theorem says
  exports   docs/exports.tsv has what the contracts of the calls for C say
  headers   the headers for C have the code's constants, features and stack
  requests  the tables of requests are those of protocol/requests.toml
  places    docs/ARCHITECTURE.md says in how many files a request stands
  words     public names have the field's words, by protocol/words.tsv
  options   man pages have the options that each program's help shows, and pages use no other
  refusals  docs/DIFFERENCES.md says how each request is refused
  sessions  tests/sessions is complete, and what it names is there
  fixed     what users build on, by protocol/fixed.tsv, is still there
  checked   docs/CHECKED.md has each function of the C around the proved core

What each is made of stands at the head of its file, in the folders check_pages, requests and trust. A line is what is wrong, or says that all is so.
Status 0 where all is so; 1 where something is not; 2 after wrong arguments.
"""
import os
import shutil
import subprocess
import sys

HERE = os.path.dirname(os.path.realpath(__file__))
sys.path[:0] = [f"{HERE}/{it}" for it in ("check_pages", "requests", "trust", "build")]

import check_c  # noqa: E402
import exports  # noqa: E402
import interfaces  # noqa: E402
import options  # noqa: E402
import pages  # noqa: E402
import requests  # noqa: E402
import tables  # noqa: E402
import theorems  # noqa: E402
import vocabulary  # noqa: E402


def unformatted():
    """The crates of which `rt fmt` changed a file. The proofs refuse such a crate after hours, and this tells it in seconds."""
    if not shutil.which("rt"):
        print("format: left out: the command rt is not on PATH")
        return
    for crate in sorted(os.listdir(f"{pages.TOP}/crates")):
        ran = subprocess.run(["rt", "fmt"], cwd=f"{pages.TOP}/crates/{crate}", stdout=subprocess.PIPE, stderr=subprocess.STDOUT, text=True, check=False)
        if ran.returncode or "formatted" in ran.stdout:
            yield f"crates/{crate}: {ran.stdout.strip()}"


CHECKS = {
    "format": unformatted,
    "names": pages.names,
    "quotes": pages.quotes,
    "style": pages.style,
    "assumed": tables.assumed,
    "theorems": theorems.theorems,
    "exports": exports.exports,
    "headers": interfaces.headers,
    "requests": requests.requests,
    "places": tables.places,
    "words": vocabulary.words,
    "options": options.options,
    "refusals": tables.refusals,
    "sessions": tables.sessions,
    "fixed": interfaces.fixed,
    "checked": check_c.checked,
}
# Those that write what they check, where that is asked for.
MADE = {"assumed", "theorems", "exports", "headers", "requests", "places", "checked"}


def main(words):
    writes = words[:1] == ["--write"]
    words = words[writes:] or [it for it in CHECKS if not writes or it in MADE]
    if not all(it in (MADE if writes else CHECKS) for it in words):
        print(__doc__, end="", file=sys.stderr)
        return 2
    wrong = []
    for word in words:
        found = list(CHECKS[word](writes) if word in MADE else CHECKS[word]())
        wrong += [f"{word}: {it}" for it in found]
    print("\n".join(wrong) if wrong else f"all is so: {' '.join(words)}")
    return 1 if wrong else 0


if __name__ == "__main__":
    sys.exit(main(sys.argv[1:]))
