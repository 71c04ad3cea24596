# SPDX-License-Identifier: Apache-2.0
"""What the players of sessions share."""
from words import Differs, Unreadable, expect, message_of


class Player:
    """What is to be written until the next answer, and the call that it is of. `n` is the session's number in its range."""

    # The words of its steps; `take_WORD` takes what follows one.
    steps = ()

    def __init__(self, n):
        self.n = n
        self.wanted = ""
        self.pending = None

    def step(self, word, rest):
        """Does what a line says by its first word, or compares it."""
        if word not in self.steps:
            raise Unreadable("a step", word)
        getattr(self, f"take_{word}")(rest)

    def want(self, text):
        """This message is to be written, behind the others."""
        self.wanted += message_of(self.n, text).text()

    def pend(self, call):
        """A call waits for its answer."""
        if self.pending:
            raise Unreadable("an answer before the next call", "call")
        self.pending = call

    def call_of(self, wanted):
        """The call that is to be answered."""
        if not self.pending:
            raise Unreadable("a call before its answer", wanted)
        call, self.pending = self.pending, None
        return call

    def settle(self, written, wanted, met, device=None):
        """Compares the device's calls, what was written, and the answer; and wants nothing more."""
        to_write, self.wanted = self.wanted, ""
        if device:
            device.check()
        expect(to_write, written)
        expect(wanted, met)

    def check_left(self, transport, text):
        """Compares what was not read with a message."""
        expect(message_of(self.n, text).text(), transport.left())

    def end(self):
        """Nothing is to be written any more, and no call waits for its answer."""
        if self.wanted or self.pending:
            raise Unreadable("an answer", "none")


def expect_read(transport):
    """All was read."""
    left = transport.left()
    if left:
        raise Differs("nothing left", left)
