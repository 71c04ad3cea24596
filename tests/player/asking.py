# SPDX-License-Identifier: Apache-2.0
"""The player of a frontend's session: it is the backend."""
from ctypes import c_uint32, c_uint64

from calls import answer_text, call_in, error_text
from library import PROFILES, Failed, Session
from player import Player, expect_read
from script import short_reads_of
from transport import Transport
from words import expect, message_of, number_of

# The reply to GET_FEATURES that offers protocol features.
OFFERED = "01000000 05000000 08000000 0000004000000000"


class Frontend:
    """A frontend's session, and what is on its way to it."""

    def __init__(self, library, settings, piece, short_reads):
        self.session = Session(library, "", c_uint64(settings.queues), piece=piece, short_reads=short_reads)
        self.session.call("set_profile", c_uint32(PROFILES[settings.profile]))
        self.transport = Transport()

    def ask(self, call):
        """Asks a call: what was written, and the answer where it was refused, or nothing is to be taken."""
        (name, *arguments), _ = call
        try:
            self.session.call(name, *arguments)
        except Failed as failed:
            return self.session.send(), error_text(self.session, failed)
        return self.session.send(), "ok" if name == "set_hdr_flags" else None

    def take(self, call):
        """Takes the reply of that call: its answer."""
        _, form = call
        self.session.fill(self.transport)
        try:
            self.session.call("take")
        except Failed as failed:
            return failed.outcome
        return answer_text(self.session, form)


class Asking(Player):
    """A frontend asks: `reply` is what comes to it."""

    steps = ("call", "request", "reply", "answer", "agreed", "left")

    def __init__(self, library, settings, n, piece):
        super().__init__(n)
        self.frontend = Frontend(library, settings, piece, short_reads_of(n, settings.short_reads))

    def take_call(self, text):
        self.pend(call_in(text))

    def take_request(self, text):
        self.want(text)

    def take_reply(self, text):
        self.frontend.transport.put(message_of(self.n, text))

    def make(self, call):
        """Makes a call: what it wrote, and its answer."""
        written, answer = self.frontend.ask(call)
        return written, answer or self.frontend.take(call)

    def take_answer(self, wanted):
        """Makes the call, and compares."""
        written, met = self.make(self.call_of(wanted))
        self.settle(written, wanted, met)

    def take_agreed(self, word):
        """Makes the calls by which both sides agree on these features of the protocol."""
        features = number_of(word)
        self.take_reply(OFFERED)
        for call, wanted in (
            ("get_features", "ok 0x40000000"),
            ("set_features 0x40000000", "ok"),
            (f"set_protocol_features {features}", "ok"),
        ):
            expect(wanted, self.make(call_in(call))[1])

    def take_left(self, text):
        self.check_left(self.frontend.transport, text)

    def end(self):
        super().end()
        expect_read(self.frontend.transport)
        self.frontend.session.close()
