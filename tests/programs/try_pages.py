#!/usr/bin/env python3
# SPDX-License-Identifier: Apache-2.0
"""Plays the commands of pages as a new user types them.

  tests/programs/try_pages.py TREE PAGE..   TREE is a checkout, of which each page gets a copy of its own; each PAGE one of its pages

A command is a line '    $ ..', with those that go on with it. All of a page run in one shell, one after another: of a guide in an empty folder
with the checkout in `covretin`, of any other page in the checkout. Lines behind a command that begin with no '$' are printed by then, each
whole, in their order. A command of tests/commands is tried elsewhere, and left out here. A block of code that names a file, as
'```c console.c', is written to it: the first of a page makes the file, the next go on with it. /tmp is a folder of the try's own, and cargo takes
the crates that Debian packages. A command behind one in the background waits for the sockets that it names itself.

It prints a line for each page, with its seconds, and last 'N passed, M failed'. Status 0 where all passed, 1 where one did not, 2 after wrong
arguments.
"""
import os
import re
import shutil
import signal
import subprocess
import sys
import tempfile
import time
from dataclasses import dataclass, field

sys.path.insert(0, os.path.join(os.path.dirname(os.path.realpath(__file__)), "../../scripts"))

from patience import LimitSpent, communicate, fields_of, wait_until  # noqa: E402

TOP = os.path.dirname(os.path.dirname(os.path.dirname(os.path.realpath(__file__))))

# Which pages are played, and which test calls this for them: that of release needs no kit.
PLAYED = {
    "README.md": "tests/release.sh",
    "docs/guide/c.md": "tests/release.sh",
    "docs/guide/device-c.md": "tests/release.sh",
    "docs/guide/device-rust.md": "tests/release.sh",
    "docs/guide/rust.md": "tests/release.sh",
    "docs/guide/rattle.md": "tests/programs/try_daemon.py",
    "docs/DAEMON.md": "tests/programs/try_daemon.py",
    "docs/COMMANDS.md": "tests/programs/try_daemon.py",
}
GUIDES = "docs/guide/"

# What a copy of a checkout leaves out.
BUILT = (".git", "out", "target", "build")
# How many seconds of a processor a page may take, and idle ones.
LIMIT = 600
# The same, once its last command has ended.
BEHIND = 10
# How many tenths of a second pass until a socket is there.
TENTHS = 1200


def text_of(path):
    with open(path, encoding="utf-8", errors="replace") as file:
        return file.read()


@dataclass
class Command:
    """A command of a page, its line, and what the page says that is printed by then."""

    number: int
    text: str
    prints: list = field(default_factory=list)

    def goes_on(self):
        """Whether its last line ends within it."""
        here = re.search(r"<<'?(\w+)", self.text)
        if here:
            return not self.text.endswith(f"\n{here[1]}")
        return self.text.endswith("\\") or self.text.count("'") % 2 == 1


# The first line of a block of code that names a file; and the line that ends its text.
FILE = re.compile(r"```\w+ (\S+)$")
END = "END_OF_BLOCK"


def commands_of(text):
    """The commands of a page, in its order, and what writes the files that it shows."""
    found, is_block, is_file, files = [], False, False, set()
    for number, line in enumerate(text.split("\n"), 1):
        begins = FILE.match(line)
        if begins:
            found.append(Command(number, f"cat {'>>' if begins[1] in files else '>'}{begins[1]} <<'{END}'"))
            files.add(begins[1])
            is_block, is_file = False, True
            continue
        if is_file:
            is_file = line != "```"
            found[-1].text += f"\n{line if is_file else END}"
            continue
        line, is_code = line[4:], line.startswith("    ")
        if is_block and found[-1].goes_on() and (is_code or not line):
            found[-1].text += f"\n{line}"
        elif is_code and line.startswith("$ "):
            found.append(Command(number, line[2:]))
            is_block = True
        elif is_code and is_block:
            found[-1].prints.append(line)
        else:
            is_block = False
    return found


def plain(text):
    """A command as one line."""
    return " ".join(text.replace("\\\n", " ").split())


def elsewhere():
    """The commands that other tests run, each with its test."""
    with open(f"{TOP}/tests/commands", encoding="utf-8") as file:
        rows = (line.rstrip("\n").split("\t") for line in file if not line.startswith("#"))
        return {command: test for command, test in rows}


def script_of(commands, room):
    """The shell's script: before each command it writes the line of the page, so that it is known where it ended."""
    lines, is_behind = ["set -e"], False
    for command in commands:
        text = command.text.replace("/tmp/", f"{room}/tmp/")
        if is_behind:
            lines += [f"i=0; until [ -S {it} ]; do i=$((i + 1)); [ $i != {TENTHS} ]; sleep 0.1; done" for it in re.findall(r"[\w./-]+\.sock\b", text)]
        lines += [f"echo {command.number} >{room}/at", text]
        is_behind = text.endswith("&")
    return "\n".join(lines) + "\n"


def variables(room):
    """The environment of a try: cargo takes what Debian packages, and files go into its own folder."""
    os.mkdir(f"{room}/bin")
    cargo = shutil.which("cargo")
    if cargo:
        with open(f"{room}/bin/cargo", "w", encoding="utf-8") as file:
            file.write(f'#!/bin/sh\nexec {cargo} --config {TOP}/rust/debian.toml --offline --quiet "$@"\n')
        os.chmod(f"{room}/bin/cargo", 0o755)
    return {**os.environ, "PATH": f"{room}/bin:{os.environ['PATH']}", "TMPDIR": f"{room}/tmp", "CARGO_HOME": f"{room}/cargo"}


def group(number):
    """The processes of a group."""
    return [int(it) for it in os.listdir("/proc") if it.isdigit() and fields_of(f"/proc/{it}")[2:3] == [str(number)]]


def end(number):
    """Ends the processes of a group."""
    for sign in (signal.SIGTERM, signal.SIGKILL):
        try:
            os.killpg(number, sign)
        except ProcessLookupError:
            return
        time.sleep(0.5)


def missing(commands, said):
    """The first line that a page shows, and nothing printed in its turn. A line '..' stands for any."""
    lines = iter(said.splitlines())
    for command in commands:
        for wanted in command.prints:
            if wanted != ".." and not any(line.rstrip() == wanted.rstrip() for line in lines):
                return f"{command.number}: '{wanted}' was not printed"
    return None


def ran(commands, room, folder):
    """Runs commands in a folder: why they do not do as the page says, or None."""
    said = f"{room}/said"
    with open(said, "wb") as output:
        how = {"cwd": folder, "env": variables(room), "stdin": subprocess.DEVNULL, "stdout": output, "stderr": output, "start_new_session": True}
        with subprocess.Popen(["sh", "-c", script_of(commands, room)], **how) as process:
            try:
                communicate(process, "the page's commands have ended", LIMIT)
                # (one in the background may still print)
                if process.returncode == 0:
                    wait_until(lambda: not missing(commands, text_of(said)), "all was printed", lambda: group(process.pid), BEHIND)
            except LimitSpent as spent:
                print(spent)
            finally:
                end(process.pid)
    if process.returncode:
        return f"{text_of(said)}{text_of(f'{room}/at').strip()}: ended with status {process.returncode}"
    wrong = missing(commands, text_of(said))
    return f"{text_of(said)}{wrong}" if wrong else None


def play(tree, page):
    """Why a page does not hold, or None."""
    known = elsewhere()
    commands = [it for it in commands_of(text_of(f"{tree}/{page}")) if plain(it.text) not in known]
    if not commands:
        return "it has no commands"
    with tempfile.TemporaryDirectory(prefix="page-") as room:
        os.mkdir(f"{room}/tmp")
        os.mkdir(f"{room}/empty")
        # (scripts/build is no folder of what was built)
        copy = shutil.copytree(tree, f"{room}/empty/covretin", ignore=lambda at, names: {it for it in BUILT if it in names and not at.endswith("/scripts")}, symlinks=True)
        return ran(commands, room, f"{room}/empty" if page.startswith(GUIDES) else copy)


def main(words):
    if len(words) < 2 or not os.path.isdir(words[0]):
        print(__doc__, end="", file=sys.stderr)
        return 2
    passed = failed = 0
    for page in words[1:]:
        began = time.monotonic()
        wrong = play(words[0], page)
        passed, failed = passed + (wrong is None), failed + (wrong is not None)
        print(f"{page}:{wrong}\n{page}: FAILED" if wrong else f"{page}: ok ({time.monotonic() - began:.0f} seconds)", flush=True)
    print(f"{passed} passed, {failed} failed")
    return 1 if failed else 0


if __name__ == "__main__":
    sys.exit(main(sys.argv[1:]))
