#!/usr/bin/env python3
# SPDX-License-Identifier: Apache-2.0
"""Tries what scripts/requests/requests.py says of a protocol/requests.toml that is malformed, in a copy of the two.

  tests/programs/try_requests.py

Each row changes one thing in the entries as they are; by the program every such change has to be a line that names the entry and the key, with status 1,
and nothing else. Prints a line for each row, and last 'N passed, M failed'. Status 0 where all passed, 1 where one did not.
"""
import os
import re
import shutil
import subprocess
import sys
import tempfile

TOP = os.path.dirname(os.path.dirname(os.path.dirname(os.path.realpath(__file__))))
ENTRIES = "protocol/requests.toml"

# A name, what is changed of the entry of GET_STATUS, and what is said of it.
STATUS = "code = 40\nname = \"GET_STATUS\"\nreply = \"U64\"\nfeature = \"STATUS\"\nreply_shown = \"status:8\"\ntext = \"asks for it\"\n"
ROWS = [
    ("lacks_its_reply", 'reply = "U64"\n', "", "GET_STATUS: it lacks the key reply, which each entry of [[frontend]] has"),
    ("lacks_its_code", "code = 40\n", "", "GET_STATUS: it lacks the key code, which each entry of [[frontend]] has"),
    ("lacks_its_name", 'name = "GET_STATUS"\n', "", "an entry without a name: it lacks the key name, which each entry of [[frontend]] has"),
    ("lacks_its_fields", 'reply_shown = "status:8"\n', "", "GET_STATUS: it lacks the key reply_shown, which each entry of [[frontend]] has"),
    ("lacks_its_text", 'text = "asks for it"\n', "", "GET_STATUS: it lacks the key text, which each entry of [[frontend]] has"),
    ("has_a_body_that_is_not_shown", "code = 40\n", 'code = 40\nbody = "U64"\n', "GET_STATUS: it lacks the key shown, which an entry of [[frontend]] with body has"),
    ("has_words_of_no_call", "code = 40\n", 'code = 40\nwords = "l"\nusage = "N"\nargs = "n"\n', "GET_STATUS: it lacks the key call, which an entry of [[frontend]] with words has"),
    ("has_words_without_usage", "code = 40\n", 'code = 40\ncall = "get_status"\nwords = "l"\nargs = "n"\n', "GET_STATUS: it lacks the key usage, which an entry of [[frontend]] with words has"),
    ("has_unknown_words", "code = 40\n", 'code = 40\ncall = "get_status"\nwords = "z"\nusage = "N"\nargs = "n"\n', "GET_STATUS: 'z' of its key words stands for no word of a line"),
    ("has_words_of_no_form", "code = 40\n", 'code = 40\ncall = "get_status"\nwords = "lll"\nusage = "A B C"\nargs = "a b c"\n',
     "GET_STATUS: TAKES in scripts/requests/request_tables.py has no form of a call that takes the words 'lll'"),
    ("is_served_by_no_call", "code = 40\n", 'code = 40\nc = "; reply_number"\n', "GET_STATUS: it lacks the key call or device, of which an entry of [[frontend]] with c has one"),
    ("is_replied_to_by_no_call", "code = 40\n", 'code = 40\ncall = "get_status"\nc = "a number"\n', "GET_STATUS: its key c names no call that replies, as '; reply_number'"),
    ("is_given_by_no_call", "code = 40\n", 'code = 40\ncall = "get_status"\nc = "call_nothing; reply_number"\n',
     "GET_STATUS: TAKEN in scripts/requests/request_tables.py does not say what call_nothing gives, which its key c names"),
    ("is_like_none", "code = 40\n", 'code = 40\nlike = "GET_NOTHING"\ncall = "get_status"\n', "GET_STATUS: it is like GET_NOTHING, and there is no such request"),
    ("shows_no_field", '"status:8"', '"status"', "GET_STATUS: 'status' of its key reply_shown is no field, as name:bytes or name:bytes:Form"),
    ("has_an_unknown_key", "code = 40\n", "code = 40\ncolour = 3\n", "this line is no head of an entry, and no key that is new in it with a number or a text: colour = 3"),
    ("has_a_key_twice", "code = 40\n", "code = 40\ncode = 41\n", "this line is no head of an entry, and no key that is new in it with a number or a text: code = 41"),
]


def said_of(room, text, names):
    """What is said of these entries, beside the status: a line each, without the line of the file."""
    with open(f"{room}/{ENTRIES}", "w", encoding="utf-8") as file:
        file.write(text)
    ran = subprocess.run([sys.executable, "-B", f"{room}/scripts/requests/requests.py", *names], capture_output=True, text=True, check=False)
    return ran.returncode, [re.sub(rf"^{ENTRIES}:\d+: ", "", line) for line in ran.stderr.splitlines()]


def main():
    with open(f"{TOP}/{ENTRIES}", encoding="utf-8") as file:
        sound = file.read()
    wrong = []
    with tempfile.TemporaryDirectory(prefix="requests-") as room:
        shutil.copytree(f"{TOP}/scripts/requests", f"{room}/scripts/requests", ignore=shutil.ignore_patterns("__pycache__"))
        os.mkdir(f"{room}/protocol")
        rows = [("has_all", "", "", None), *ROWS]
        for name, old, new, wanted in rows:
            entry = STATUS.replace(old, new) if old else STATUS
            ended = said_of(room, sound.replace(STATUS, entry), ["GET_STATUS"] if wanted else [])
            holds = STATUS in sound and ended == ((0, []) if wanted is None else (1, [wanted]))
            wrong += [] if holds else [name]
            print(f"{name}: ok" if holds else f"{name}: FAILED: status {ended[0]}, {ended[1]}")
    print(f"{len(rows) - len(wrong)} passed, {len(wrong)} failed")
    return 1 if wrong else 0


if __name__ == "__main__":
    sys.exit(main())
