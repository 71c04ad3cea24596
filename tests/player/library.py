# SPDX-License-Identifier: Apache-2.0
"""The library for programs in C, as a shared object: its records, its errors, and its sessions."""
import ctypes
from ctypes import Structure, byref, c_bool, c_int32, c_size_t, c_uint8, c_uint16, c_uint32, c_uint64

from words import MAX_FDS, Differs, Message

# The greatest size of a message.
MAX_MESSAGE = 4108

# enum covretin_error, in the names of the Rust crate vhost, and those of the sessions' own.
OK, BACKEND_INTERNAL_ERROR, NOT_YET = 0, 17, 105
ERRORS = {
    1: "InvalidParam", 2: "InvalidOperation", 3: "InactiveFeature", 4: "InactiveOperation", 5: "InvalidMessage",
    6: "InvalidSocketFd", 7: "NotUnixSocket", 8: "NotStreamSocket", 9: "PartialMessage", 10: "Disconnected",
    11: "OversizedMsg", 12: "IncorrectFds", 13: "SocketError", 14: "SocketConnect", 15: "SocketBroken", 16: "SocketRetry",
    17: "BackendInternalError", 18: "FrontendInternalError", 19: "FeatureMismatch", 20: "ReqHandlerError",
    21: "MemFdCreateError", 22: "FileTruncateError", 23: "MemFdSealError", 24: "OutOfMemory",
    101: "NoSession", 102: "SessionOpen", 103: "NotTaken", 104: "NothingAsked", 105: "NotYet", 106: "TooManyBytes",
    107: "NoRoom", 108: "OtherAnswer", 109: "NotReplied", 110: "OtherCall",
}
PROFILES = {"standard": 0, "vhost": 1}

# The prefix of calls that give arguments and reply, where it is not that of the others.
SHORTER = {"backend_": "", "channel_server_": "channel_"}

# What a call returns that returns no error.
RETURNS = {"missing": c_size_t, "inactive": c_uint64, "ended": c_uint32, "close": None}


def record(name, **fields):
    """A record of the headers."""
    return type(name, (Structure,), {"_fields_": list(fields.items())})


Region = record("Region", guest_phys_addr=c_uint64, memory_size=c_uint64, user_addr=c_uint64, mmap_offset=c_uint64, fd=c_int32)
Vring = record(
    "Vring", queue_max_size=c_uint16, queue_size=c_uint16, flags=c_uint32, desc_table_addr=c_uint64, used_ring_addr=c_uint64,
    avail_ring_addr=c_uint64, log_addr=c_uint64, has_log_addr=c_bool)
Inflight = record("Inflight", mmap_size=c_uint64, mmap_offset=c_uint64, num_queues=c_uint16, queue_size=c_uint16)
Config = record("Config", offset=c_uint32, size=c_uint32, flags=c_uint32)
Mmap = record("Mmap", fd_offset=c_uint64, shm_offset=c_uint64, len=c_uint64, flags=c_uint64, shmid=c_uint8)
Holder = record("Holder", opaque=ctypes.c_void_p)


def array(kind, items):
    """An array of the caller, which is never NULL."""
    return (kind * max(1, len(items)))(*items)


def octets(some):
    """Bytes, and how many there are, as two arguments."""
    return array(c_uint8, some), c_size_t(len(some))


class Failed(Differs):
    """A call of the library returned an error."""

    def __init__(self, code):
        self.outcome = outcome(code)
        super().__init__("ok", self.outcome)


def outcome(code):
    """What a call returned, as an answer."""
    return "ok" if code == OK else f"err {ERRORS.get(code, code)}"


class Session:
    """A session of the library, of one of its five kinds, whose calls have the same prefix."""

    def __init__(self, library, prefix, *opened, piece=MAX_MESSAGE, short_reads=()):
        self.library, self.prefix, self.piece, self.short_reads = library, prefix, piece, list(short_reads)
        self.held = Holder()
        self.call("open", *opened)

    def result(self, name, *words):
        """What a call of this kind of session returns."""
        prefix = SHORTER.get(self.prefix, self.prefix) if name.startswith(("call_", "reply_")) else self.prefix
        function = getattr(self.library, f"covretin_{prefix}{name}")
        function.restype = RETURNS.get(name, ctypes.c_int)
        return function(byref(self.held), *words)

    def call(self, name, *words):
        """Makes a call that has to succeed."""
        code = self.result(name, *words)
        if code != OK:
            raise Failed(code)

    def value(self, name, *kinds):
        """What a call writes to places of these kinds."""
        places = [kind() for kind in kinds]
        self.call(name, *(byref(it) for it in places))
        return [it if isinstance(it, Structure) else it.value for it in places]

    def close(self):
        """Frees what it held."""
        self.result("close")

    def room(self, most):
        """How many bytes the next call moves at most."""
        return max(1, min([most, self.piece, *self.short_reads[:1]]))

    def send(self):
        """All that it hands out to be sent, as a text."""
        text = ""
        while True:
            message = self.hand_out()
            if not message.bytes:
                return text
            text += message.text()

    def hand_out(self):
        """A piece of that."""
        room = self.room(MAX_MESSAGE)
        some, fds = (c_uint8 * room)(), (c_int32 * MAX_FDS)()
        counts = c_size_t(), c_size_t()
        self.call("to_send", some, c_size_t(room), fds, c_size_t(MAX_FDS), *(byref(it) for it in counts))
        count, fd_count = (it.value for it in counts)
        if count:
            del self.short_reads[:1]
        return Message(bytes(some[:count]), list(fds[:fd_count]))

    def fill(self, transport):
        """Reads what it misses, as long as there is some. Whether nothing is missing any more."""
        while missing := self.result("missing"):
            message = transport.read(self.room(missing))
            del self.short_reads[:1]
            if not message.bytes:
                return False
            self.call("receive", *octets(message.bytes), array(c_int32, message.fds), c_size_t(len(message.fds)))
        return True


def load(path):
    """The library."""
    return ctypes.CDLL(path)
