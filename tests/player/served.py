# SPDX-License-Identifier: Apache-2.0
"""The player of a backend's session: it is the frontend, and it has the device."""
from ctypes import byref, c_uint32

from calls import error_text
from device import BACKEND_CALLS, Sheet, conclude
from dummy import Dummy
from library import OK, PROFILES, Failed, Session, outcome
from player import Player, expect_read
from script import short_reads_of
from transport import Transport
from words import Unreadable, expect, message_of, number_of


def device_of(settings):
    """The device of a session."""
    if settings.over == "dummy":
        return Dummy(settings.spare)
    if settings.over == "scripted":
        return Sheet(BACKEND_CALLS, "err InvalidOperation")
    raise Unreadable("a device", "none")


class Backend:
    """A backend's session with its device, and what is on its way to it."""

    def __init__(self, library, profile, device, piece, short_reads):
        self.session = Session(library, "backend_", piece=piece, short_reads=short_reads)
        self.session.call("set_profile", c_uint32(PROFILES[profile]))
        self.transport = Transport()
        self.device = device

    def serve(self):
        """Serves a request: the answer of its handler."""
        if not self.session.fill(self.transport):
            return outcome(self.session.result("end"))
        call = c_uint32()
        code = self.session.result("next", byref(call))
        if code != OK:
            return error_text(self.session, Failed(code))
        return conclude(self.session, BACKEND_CALLS, call.value, self.device)


class Served(Player):
    """A backend is served to: `request` is what comes to it."""

    steps = ("request", "device", "gives", "reply", "answer", "ended", "agreed", "left", "state", "shares")

    def __init__(self, library, settings, n, piece):
        super().__init__(n)
        self.backend = Backend(library, settings.profile, device_of(settings), piece, short_reads_of(n, settings.short_reads))
        self.device = self.backend.device
        self.is_scripted = settings.over == "scripted"
        self.ended = False

    def step(self, word, rest):
        """A scripted device has its calls given, and the example device has a state."""
        if word in (("state", "shares") if self.is_scripted else ("device", "gives")):
            raise Unreadable("a step", word)
        super().step(word, rest)

    def take_request(self, text):
        self.backend.transport.put(message_of(self.n, text))

    def take_device(self, text):
        self.device.want(text)

    def take_gives(self, text):
        self.device.give(text)

    def take_reply(self, text):
        self.want(text)

    def take_answer(self, wanted):
        """Serves a request, and compares."""
        self.device.expect_told()
        met = self.backend.serve()
        self.settle(self.backend.session.send(), wanted, met, self.device)

    def take_ended(self, _):
        """The session has ended, so whoever waits is hung up on."""
        self.expect_ended(True)
        self.ended = True

    def expect_ended(self, wanted):
        """Whether it has ended."""
        expect("ended" if wanted else "not ended", "ended" if self.backend.session.result("ended") else "not ended")

    def take_agreed(self, word):
        """Has the device offer its virtio features, and then chooses these features of the protocol."""
        features = number_of(word)
        if self.is_scripted:
            self.take_device("get_features")
            self.take_gives("0x40000000")
            self.take_device(f"set_protocol_features {features}")
        chosen = features.to_bytes(8, "little").hex()
        self.take_request(f"010000000100000000000000 100000000100000008000000 {chosen}")
        met = [self.backend.serve(), self.backend.serve()]
        self.backend.session.send()
        self.device.check()
        expect("ok ok", " ".join(met))

    def take_left(self, text):
        self.check_left(self.backend.transport, text)

    def take_state(self, text):
        name, _, wanted = text.partition(" ")
        expect(wanted, self.device.state(name))

    def take_shares(self, text):
        self.device.set_shares(text)

    def end(self):
        super().end()
        self.device.check()
        self.expect_ended(self.ended)
        expect_read(self.backend.transport)
        self.backend.session.close()
