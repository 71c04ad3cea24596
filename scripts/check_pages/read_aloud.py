#!/usr/bin/env python3
# SPDX-License-Identifier: Apache-2.0
"""Shows sentences of pages that chance picks, to be read aloud to an engineer who has never seen the project.

  scripts/check_pages/read_aloud.py SEED [PAGE..]   ten of each page, or of all pages; the same SEED picks the same

A sentence at which he stops is written anew, with its paragraph. Tables and code have no sentences. Status 2 after wrong arguments.
"""
import random
import re
import sys

import pages

TEN = 10


def sentences_of(text):
    """The sentences, with the names that stand in them."""
    text = re.sub(r"^```.*?^```|<!--.*?-->", "", text, flags=re.S | re.M)
    text = "\n".join("" if line.startswith(("    ", "|", "#")) else line for line in text.split("\n"))
    return [it for it in pages.sentences(re.sub(r"\[([^\]]*)\]\([^)]*\)", r"\1", text)) if " " in it]


def main(words):
    known = pages.pages()
    if not words or not words[0].isdigit() or not all(it in known for it in words[1:]):
        print(__doc__, end="", file=sys.stderr)
        return 2
    for page in words[1:] or sorted(known):
        found = sentences_of(known[page])
        print(f"{page}, {len(found)} sentences:")
        for sentence in random.Random(f"{words[0]} {page}").sample(found, min(TEN, len(found))):
            print(f"  {sentence}")
    return 0


if __name__ == "__main__":
    sys.exit(main(sys.argv[1:]))
