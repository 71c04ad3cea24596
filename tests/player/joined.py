# SPDX-License-Identifier: Apache-2.0
"""The players of two sessions in lockstep: what one writes comes to the other."""
from asking import Frontend
from calls import call_in
from channels import Device, Server
from channels import call_in as device_call_in
from player import Player
from script import short_reads_of
from served import Backend, device_of
from words import Unreadable, expect, message_of


class Lockstep(Player):
    """One side asks, the other serves, until the run stops."""

    steps = ("call", "request", "device", "gives", "reply", "answer", "stopped")

    # How a run stops.
    stop = "table"

    def __init__(self, n, device, is_scripted):
        super().__init__(n)
        self.device, self.is_scripted = device, is_scripted
        self.replies = ""
        self.stopped = "no"

    def step(self, word, rest):
        """A scripted device has its calls given."""
        if word in ("device", "gives") and not self.is_scripted:
            raise Unreadable("a step", word)
        super().step(word, rest)

    def take_request(self, text):
        self.want(text)

    def take_device(self, text):
        self.device.want(text)

    def take_gives(self, text):
        self.device.give(text)

    def take_reply(self, text):
        self.replies += message_of(self.n, text).text()

    def take_stopped(self, wanted):
        expect(wanted, self.stopped)

    def take_answer(self, wanted):
        """Makes the call, and compares."""
        call = self.call_of(wanted)
        self.device.expect_told()
        if self.stopped != "no":
            expect(wanted, "stopped")
            return
        written, served, replied, met = self.exchange(call)
        replies, self.replies = self.replies, ""
        if self.has_stopped(call, served, replied):
            self.stopped = self.stop
        # (what the other side wrote is compared last, since it follows from the rest)
        self.settle(written, wanted, met, self.device)
        expect(replies, replied)

    def has_stopped(self, call, served, replied):
        """Whether the run stops here: a request was refused without a reply, or the end of postcopy was."""
        return served.startswith("err ") and (not replied or call[0][0] == "ask_postcopy_end")

    def end(self):
        super().end()
        if self.replies:
            raise Unreadable("an answer", "none")
        self.device.check()


def pass_on(asking, serving):
    """What the asking side wrote comes to the serving side, which serves it, and its reply comes back: how it was served, and the reply."""

    def carried(text):
        return message_of(0, text.replace("]", "] ") or "-")

    written, answer = asking
    side, other = serving
    if answer:
        return "ok", ""
    other.transport.put(carried(written))
    served = other.serve()
    replied = other.session.send()
    side.transport.put(carried(replied))
    return served, replied


class Joined(Lockstep):
    """A frontend asks a backend with its device. Both have one profile, since what one awaits the other has to write."""

    def __init__(self, library, settings, n, piece):
        super().__init__(n, device_of(settings), settings.over == "scripted")
        self.frontend = Frontend(library, settings, piece, short_reads_of(n, settings.short_reads))
        self.backend = Backend(library, settings.profile, self.device, piece, short_reads_of(n, settings.peer_short_reads))
        if settings.profile == "standard":
            self.stop = "ended"

    def has_stopped(self, call, served, replied):
        """Under Standard whoever waits is answered, until the session has ended."""
        if self.stop == "ended":
            return self.backend.session.result("ended") == 1
        return super().has_stopped(call, served, replied)

    def take_call(self, text):
        self.pend(call_in(text))

    def exchange(self, call):
        """What the frontend wrote, how it was served, what the backend wrote, and the frontend's answer."""
        asked = self.frontend.ask(call)
        served, replied = pass_on(asked, (self.frontend, self.backend))
        return asked[0], served, replied, asked[1] or self.frontend.take(call)


class Reverse(Lockstep):
    """A device asks its frontend on the backend channel. Both sides know whether requests are acknowledged."""

    def __init__(self, library, settings, n, piece):
        self.server = Server(library, piece, short_reads_of(n, settings.peer_short_reads))
        super().__init__(n, self.server.sheet, True)
        self.side = Device(library, "channel_", piece, short_reads_of(n, settings.short_reads))

    def take_call(self, text):
        self.pend((device_call_in(text), ""))

    def exchange(self, call):
        """The same of a device and its frontend."""
        (name, *arguments), _ = call
        if name == "set_reply_ack":
            self.server.session.call(name, *arguments)
        asked = self.side.ask(name, *arguments)
        served, replied = pass_on(asked, (self.side, self.server))
        return asked[0], served, replied, asked[1] or self.side.take()
