#!/usr/bin/env python3
# SPDX-License-Identifier: Apache-2.0
"""Tries the program of ./vhost-run beside two things that share nothing with it: a table by hand, and a model of both sessions.

  tests/programs/try_lines.py PROGRAM [ROW..]     PROGRAM is vhost_run, as it was built or compiled; each ROW is a function below
  tests/programs/try_lines.py --model             reads lines from standard input, and prints what the model says

It prints a line for each row, and last 'N passed, M failed'. Status 0 where all held, 1 where some did not, 2 after wrong arguments.
"""
import os
import random
import subprocess
import sys

TOP = os.path.dirname(os.path.dirname(os.path.dirname(os.path.realpath(__file__))))
sys.path.insert(0, f"{TOP}/tests/player")

from line_model import WORDS, Run, call_in, run  # noqa: E402
from try_run import play, same  # noqa: E402

TABLE, ROWS_IN_TABLE = "tests/lines.tsv", 88

# How many scripts are made, of which number as their seed, and the most lines of each.
SCRIPTS, SEED, MOST_LINES = 150, 20261130, 60


def outcome(program, given):
    """What a run printed, as lines, what standard error had, and the status."""
    ran = subprocess.run([program], input=given, stdout=subprocess.PIPE, stderr=subprocess.PIPE, check=False)
    printed = ran.stdout.decode().split("\n")
    same(printed.pop(), "")
    return printed, ran.stderr.decode(), ran.returncode


# -- The table --


def typed(text):
    """The input that a cell stands for."""
    lines = f"{text} | ".partition("\\c")[0].split(" | ")
    return b"\n".join(it.encode().decode("unicode_escape").encode("latin-1") for it in lines)


def wanted_line(text):
    """A line of output: in a cell the bytes of a message may have spaces between them."""
    return " ".join(it.strip().replace(" ", "") if at < 2 else it.strip() for at, it in enumerate(text.split(", ", 2)))


def rows_of_the_table(program):
    """Of each row the last lines of output, standard error and the status."""
    with open(f"{TOP}/{TABLE}", encoding="utf-8") as file:
        rows = [it.split("\t") for it in file.read().splitlines() if not it.startswith("#")]
    wrong = []
    for title, lines, last, ends in rows:
        printed, told, status = outcome(program, typed(lines))
        wanted = [wanted_line(it) for it in last.split(" | ")] if last else []
        ended = (f"line {ends}: bad call\n", 1) if ends else ("", 0)
        if printed[len(printed) - len(wanted):] != wanted or (told, status) != ended:
            wrong.append(f"{title}: {printed[-2:]} {told!r} {status}")
    assert not wrong, "; ".join(wrong)
    same(len(rows), ROWS_IN_TABLE)
    return f"{len(rows)} rows"


# -- Scripts beside the model --

# Numbers that some call takes, or refuses, or just so.
NUMBERS = [0, 1, 2, 3, 4, 5, 7, 8, 16, 37, 44, 45, 100, 255, 256, 257, 1000, 1028, 4084, 4085, 4096, 0x8000, 0xffff, 0x10000, 0x40000000,
           0x40000001, 0x40000003, 0x7fbfff, 0x7fffff, 0x800000, 0xffffffff, 0x100000000, (1 << 64) - 0x1000, (1 << 64) - 1, 1 << 64]
# How a session mostly begins; a later line is another such one at times.
BEGINNINGS = [
    ["get_features"],
    ["get_features", "set_owner", "set_features 0x40000001", "get_protocol_features", "set_protocol_features 0x7fffff"],
    ["get_features", "set_owner", "set_features 0x40000000", "set_protocol_features 0x7fffff", "set_hdr_flags 8"],
    ["get_features", "set_protocol_features 0x7fffff", "set_hdr_flags 8"],
    ["get_features", "set_protocol_features 0x7fffff", "set_hdr_flags 8", "postcopy_advise", "postcopy_listen"],
    ["get_features", "set_protocol_features 0x7ffff7", "postcopy_advise", "postcopy_listen"],
    [],
]
# Calls that mostly end a session, and are made less often for that.
ENDING = {"get_shmem_config", "postcopy_ack_mem_regions", "postcopy_advise", "postcopy_end", "postcopy_listen", "set_log_base", "set_log_fd", "set_owner"}
# Words that are right for a letter, most of the time.
USUAL = {
    "l": [0, 1, 0x1000, 0x2000, 0x100000, 0x7f0000000000], "i": [0, 1, 4, 0x100], "s": [0, 1, 2, 128, 256, 1500], "h": [0, 5, 7, 999, 1000, 1234],
    "o": [0, 1], "p": [0, 8, 0x7fffff, 0x7fbfff, 0x48321], "c": [0, 1, 2, 3], "f": [0, 8], "r": [5, 37, 38, 1], "d": [0, 1], "t": [0],
}


def written(chance, number):
    """A number in one of the forms that it may have."""
    return chance.choice([f"{number}", f"{number:#x}", f"0x{number:X}", f"{number:06}", f"0x{number:09x}"])


def word_of(chance, letter):
    if letter == "n":
        return chance.choice([bytes(16), b"\xff" * 16, chance.randbytes(16), chance.randbytes(16)]).hex()
    if letter == "b":
        return chance.choice([b"\xa5" * 4, b"\xa5" * 4, chance.randbytes(chance.randrange(1, 9)), bytes(4085)]).hex()
    return written(chance, chance.choice(USUAL[letter]) if chance.random() < 0.93 else chance.choice(NUMBERS))


def good_line(chance):
    """A line with a name of a call, and as many words as it has."""
    name = chance.choice(list(WORDS))
    if name in ENDING and chance.random() < 0.7:
        name = chance.choice(sorted(set(WORDS) - ENDING))
    letters, _, missing = WORDS[name].partition("/")
    if letters == "*":
        letters = "llllh" * chance.choice([0, 1, 1, 2, 2, 3, 32, 33] if chance.random() < 0.5 else [1])
    letters = letters[:len(letters) - int(missing or 0) * chance.randrange(2)]
    words = [word_of(chance, it) for it in letters]
    if name == "get_config" and chance.random() < 0.7:
        words[:2] = ["0x100", "4"]
    if name == "set_config" and chance.random() < 0.7:
        words[0], words[2] = "256", "A5a5a5a5"
    if "vring" in name and chance.random() < 0.8:
        words[0] = chance.choice("0011")
    return " ".join([name, *words]).encode()


def other_line(chance):
    """A line that is changed in one place, and mostly is no call."""
    line = good_line(chance)
    place = chance.randrange(len(line) + 1)
    return chance.choice([
        lambda: b"", lambda: b" ", lambda: b"#", lambda: b"# " + line, lambda: line + b" ", lambda: b" " + line, lambda: line + b"\r",
        lambda: line + b" 0", lambda: line.rpartition(b" ")[0], lambda: line.replace(b" ", b"  ", 1), lambda: line.replace(b" ", b"\t", 1),
        lambda: line.upper(), lambda: line[:place] + b"\xff" + line[place:], lambda: line[:place] + bytes([chance.randrange(128)]) + line[place:],
        lambda: line[:place] + line[place + 1:], lambda: line.replace(b"0x", b"0X"), lambda: b"help", lambda: line + b"\0",
    ])().replace(b"\n", b"")


def script(chance):
    """The input of a run."""
    lines = [it.encode() for it in chance.choice(BEGINNINGS)]
    for _ in range(chance.randrange(MOST_LINES)):
        lines.append(other_line(chance) if chance.random() < 0.01 else good_line(chance))
        if chance.random() < 0.01:
            lines += [it.encode() for it in chance.choice(BEGINNINGS)]
    return b"\n".join(lines) + b"\n" * chance.randrange(2)


def scripts_beside_the_model(program):
    """Random lines, calls and others, print what the model says, with the same standard error and status; each call succeeds in some."""
    chance = random.Random(SEED)
    succeeded, stopped, bad, lines = set(), 0, 0, 0
    for number in range(SCRIPTS):
        given = script(chance)
        wanted = run(given)
        printed, told, status = outcome(program, given)
        for at, (line, model) in enumerate(zip(printed, wanted[0]), 1):
            assert line == model, f"script {number}, line {at}: {line} in place of {model}"
        same((len(printed), told, status), (len(wanted[0]), *wanted[1:]))
        names = [it.split(b" ")[0].decode() for it in given.split(b"\n")[:len(printed)]]
        succeeded |= {name for name, line in zip(names, printed) if line.split(" ", 2)[2].startswith("ok")}
        stopped += printed[-1:] == ["- - stopped"]
        bad += status
        lines += len(printed)
    never = set(WORDS) - succeeded - {"check_device_state", "get_shmem_config", "set_device_state_fd"}
    assert not never and min(stopped, bad) > SCRIPTS // 10, f"{sorted(never)} never succeed; {stopped} runs stopped, {bad} with a bad line"
    return f"{SCRIPTS} scripts, {lines} lines, {stopped} runs that stopped, {bad} with a bad line"


ROWS = [rows_of_the_table, scripts_beside_the_model]


def model():
    printed, told, status = run(sys.stdin.buffer.read())
    sys.stdout.write("".join(f"{it}\n" for it in printed))
    sys.stderr.write(told)
    return status


def main(words):
    if words == ["--model"]:
        return model()
    named = [row for row in ROWS if row.__name__ in words[1:]]
    if not words or len(named) != len(words[1:]):
        print(__doc__, end="", file=sys.stderr)
        return 2
    held = [play(row, os.path.abspath(words[0])) for row in named or ROWS]
    print(f"{held.count(True)} passed, {held.count(False)} failed")
    return 0 if all(held) else 1


if __name__ == "__main__":
    sys.exit(main(sys.argv[1:]))
