# SPDX-License-Identifier: Apache-2.0
"""The player of lines: the program that `vhost-run` runs, with its input, its output and its status."""
import subprocess

from words import Differs, Unreadable, bytes_of, expect


class Lines:
    """A run of the program: what it reads, and what it must print."""

    steps = ("line", "rest", "raw", "prints", "complains", "status")

    def __init__(self, program, settings):
        self.words = [program, *["-v"] * settings.explained, *["--comments"] * settings.comments]
        self.given = b""
        self.output, self.errors = [], []
        self.is_over = False

    def step(self, word, rest):
        """Does what a line says by its first word."""
        if self.is_over:
            raise Unreadable("another session", word)
        if word not in self.steps:
            raise Unreadable("a step", word)
        getattr(self, f"take_{word}")(rest)

    def take_line(self, text):
        self.given += text.encode() + b"\n"

    def take_rest(self, text):
        self.given += text.encode()

    def take_raw(self, text):
        self.given += bytes_of(0, text) + b"\n"

    def take_prints(self, text):
        self.output.append(text)

    def take_complains(self, text):
        self.errors.append(text)

    def take_status(self, wanted):
        """Runs it, and compares."""
        self.is_over = True
        ran = subprocess.run(self.words, input=self.given, capture_output=True, check=False)
        compare(self.output, ran.stdout)
        compare(self.errors, ran.stderr)
        expect(wanted, str(ran.returncode))

    def end(self):
        if not self.is_over:
            raise Unreadable("a status", "none")


def compare(wanted, printed):
    """Compares lines with what was printed, and tells the first other line."""
    if printed == "".join(f"{it}\n" for it in wanted).encode():
        return
    met = printed.decode(errors="replace").split("\n")[:-1]
    for told, line in zip(wanted, met):
        if told != line:
            raise Differs(told, line)
    raise Differs("as many lines", "\n".join(met))
