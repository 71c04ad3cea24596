# SPDX-License-Identifier: Apache-2.0
"""The players of the backend channel: of a device's session, and of a frontend's."""
from ctypes import byref, c_bool, c_int32, c_uint32

from calls import name_of
from device import CHANNEL_CALLS, Sheet, conclude
from library import OK, Mmap, Session, octets, outcome
from player import Player, expect_read
from script import short_reads_of
from transport import Transport
from words import Unreadable, fd_of, message_of, number_of


def flag(text):
    """Whether a flag is set."""
    return (c_bool(number_of(text, 2)),)


def mapping(text):
    """A mapping: the region, where it begins in the file and in the region, its length, and flags."""
    words = text.split(" ")
    if len(words) != 5:
        raise Unreadable("a mapping", text)
    region, *numbers = number_of(words[0], 1 << 8), *(number_of(it) for it in words[1:])
    return (byref(Mmap(*numbers, region)),)


def object_name(text):
    """An object's name, and its length."""
    return octets(name_of(text))


def with_fd(read):
    """What reads arguments, and behind them a file descriptor."""

    def both(text):
        front, _, fd = text.rpartition(" ")
        return (*read(front), c_int32(fd_of(fd)))

    return both


# A device's calls that have arguments, each with its name in the library and what reads these.
ASKS = {
    "set_reply_ack_flag": ("set_reply_ack", flag),
    "set_shared_object_flag": ("set_shared_object", flag),
    "set_shmem_flag": ("set_shmem", flag),
    "set_config_change_flag": ("set_config_change", flag),
    "shared_object_add": ("ask_shared_object_add", object_name),
    "shared_object_remove": ("ask_shared_object_remove", object_name),
    "shared_object_lookup": ("ask_shared_object_lookup", with_fd(object_name)),
    "shmem_map": ("ask_shmem_map", with_fd(mapping)),
    "shmem_unmap": ("ask_shmem_unmap", mapping),
}


def call_in(text):
    """The call of a line: its name in the library, and its arguments."""
    if text == "handle_config_change":
        return ("ask_config_change",)
    name, _, rest = text.partition(" ")
    if name not in ASKS:
        raise Unreadable("a call of a device", text)
    ask, read = ASKS[name]
    return (ask, *read(rest))


class Device:
    """A device's session on a channel, and what is on its way to it."""

    def __init__(self, library, prefix, piece, short_reads):
        self.session = Session(library, prefix, piece=piece, short_reads=short_reads)
        self.transport = Transport()

    def ask(self, name, *arguments):
        """Asks a call: what was written, and the answer where it was refused, or nothing is to be taken."""
        code = self.session.result(name, *arguments)
        is_taken = code == OK and name.startswith("ask_")
        return self.session.send(), None if is_taken else outcome(code)

    def take(self, name="take", *places):
        """Takes the reply of that call: its answer."""
        self.session.fill(self.transport)
        return outcome(self.session.result(name, *places))


class Asker(Player):
    """A device asks on a channel: `reply` is what comes to it."""

    steps = ("call", "request", "reply", "answer", "left")
    prefix = ""

    def __init__(self, library, settings, n, piece):
        super().__init__(n)
        self.side = Device(library, self.prefix, piece, short_reads_of(n, settings.short_reads))

    def take_request(self, text):
        self.want(text)

    def take_reply(self, text):
        self.side.transport.put(message_of(self.n, text))

    def take_answer(self, wanted):
        """Makes the call, and compares."""
        written, met = self.make(self.call_of(wanted))
        self.settle(written, wanted, met)

    def take_left(self, text):
        self.check_left(self.side.transport, text)

    def end(self):
        super().end()
        expect_read(self.side.transport)
        self.side.session.close()


class ReverseAsking(Asker):
    """A device asks on the backend channel."""

    steps = (*Asker.steps, "flags")
    prefix = "channel_"

    def take_call(self, text):
        self.pend(call_in(text))

    def take_flags(self, text):
        """These features were accepted."""
        for name in text.split(" "):
            if f"set_{name}_flag" not in ASKS:
                raise Unreadable("a flag", name)
            self.side.session.call(f"set_{name}", c_bool(True))

    def make(self, call):
        """Makes a call: what it wrote, and its answer."""
        written, answer = self.side.ask(*call)
        return written, answer or self.side.take()


class Server:
    """A frontend's session on the backend channel, and what is on its way to it."""

    def __init__(self, library, piece, short_reads):
        self.session = Session(library, "channel_server_", piece=piece, short_reads=short_reads)
        self.transport = Transport()
        self.sheet = Sheet(CHANNEL_CALLS, "err Raw 22")

    def serve(self):
        """Serves a request: the answer of its handler."""
        if not self.session.fill(self.transport):
            return outcome(self.session.result("end"))
        call = c_uint32()
        code = self.session.result("next", byref(call))
        return outcome(code) if code != OK else conclude(self.session, CHANNEL_CALLS, call.value, self.sheet)


class ReverseServed(Player):
    """A frontend is served to on the backend channel: `request` is what comes to it."""

    steps = ("request", "device", "gives", "reply", "answer", "left", "set_reply_ack_flag")

    def __init__(self, library, settings, n, piece):
        super().__init__(n)
        self.server = Server(library, piece, short_reads_of(n, settings.short_reads))

    def take_request(self, text):
        self.server.transport.put(message_of(self.n, text))

    def take_device(self, text):
        self.server.sheet.want(text)

    def take_gives(self, text):
        self.server.sheet.give(text)

    def take_reply(self, text):
        self.want(text)

    def take_set_reply_ack_flag(self, text):
        self.server.session.call("set_reply_ack", *flag(text))

    def take_answer(self, wanted):
        """Serves a request, and compares."""
        self.server.sheet.expect_told()
        met = self.server.serve()
        self.settle(self.server.session.send(), wanted, met, self.server.sheet)

    def take_left(self, text):
        self.check_left(self.server.transport, text)

    def end(self):
        super().end()
        self.server.sheet.check()
        expect_read(self.server.transport)
        self.server.session.close()
