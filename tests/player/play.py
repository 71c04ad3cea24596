#!/usr/bin/env python3
# SPDX-License-Identifier: Apache-2.0
"""Plays scripts, and says which lines were not met. docs/TESTS.md defines their language.

  play.py LIBRARY PROGRAM FILE..   over the library for programs in C, a shared object, and the program that ./vhost-run runs, which are
                                   looked for where a session needs them

Prints each line that was not met, and of each file how many sessions and steps were played. Status 0 where all was met, 1 where some
was not, 2 after wrong arguments, and where a file can't be opened.
"""
import os
import sys
from functools import cached_property

from asking import Asking
from channels import ReverseAsking, ReverseServed
from display import Display
from joined import Joined, Reverse
from library import MAX_MESSAGE, load
from lines import Lines
from script import Bad, read_sessions
from served import Served
from words import Differs, Miss, Unreadable


PLAYERS = {
    "served": Served, "asking": Asking, "joined": Joined, "reverse": Reverse, "reverse_served": ReverseServed,
    "reverse_asking": ReverseAsking, "display": Display,
}

# What a line has to meet that stands behind one of these words.
MUST = {"not": (Differs, "a difference"), "bad": (Unreadable, "a line that can't be read")}


class Stage:
    """What sessions are played over, and how much was played."""

    def __init__(self, library, program):
        self.path, self.program = library, os.path.abspath(program)
        self.sessions = self.steps = 0

    @cached_property
    def library(self):
        """The library, once a session needs it."""
        return load(self.path)

    def play_file(self, path):
        """Plays the sessions of a file. Whether there are some, and all were met."""
        name = os.path.basename(path)
        self.sessions = self.steps = 0
        with open(path, encoding="utf-8", newline="\n") as file:
            text = file.read()
        try:
            sessions = read_sessions(text)
        except Bad as bad:
            print(f"{name}:{bad.number}: {bad}")
            return False
        is_met = self.play_sessions(name, sessions)
        print(f"{name}: {self.sessions} sessions, {self.steps} steps")
        return is_met and bool(sessions)

    def play_sessions(self, name, sessions):
        """Plays sessions. After a difference the rest of its session is left out, after a line that can't be read the rest of the file."""
        is_met = True
        for session in sessions:
            try:
                self.play_all(session)
            except Bad as bad:
                print(f"{name}:{bad.number}: {bad}")
                is_met = False
                if bad.ends:
                    break
        return is_met

    def play_all(self, session):
        """Plays a session for each number of its range; where it says nothing of pieces, also with each piece one byte."""
        if session.kind == "lines":
            self.play(session, lambda: Lines(self.program, session))
            return
        player = PLAYERS[session.kind]
        for n in session.range:
            for piece in [MAX_MESSAGE] if session.short_reads or session.peer_short_reads else [MAX_MESSAGE, 1]:
                self.play(session, lambda n=n, piece=piece: player(self.library, session, n, piece))

    def play(self, session, begin):
        """Plays the steps of a session, and its end."""
        self.sessions += 1
        number = session.number
        try:
            player = begin()
            for number, line in session.steps:
                self.steps += 1
                play_line(player, line)
            player.end()
        except Miss as miss:
            raise Bad(number, miss) from None


def play_line(player, line):
    """Plays a line. One behind `not` or `bad` has to be missed."""
    word, _, rest = line.partition(" ")
    if word not in MUST:
        player.step(word, rest)
        return
    kind, wanted = MUST[word]
    try:
        play_line(player, rest)
    except kind:
        return
    raise Differs(wanted, rest)


def main(words):
    if len(words) < 3:
        print(__doc__, file=sys.stderr)
        return 2
    stage = Stage(*words[:2])
    try:
        met = [stage.play_file(it) for it in words[2:]]
    except OSError as error:
        print(f"play: {error}", file=sys.stderr)
        return 2
    return 0 if all(met) else 1


if __name__ == "__main__":
    sys.exit(main(sys.argv[1:]))
