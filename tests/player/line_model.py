# SPDX-License-Identifier: Apache-2.0
"""A model of a run of lines: words, a frontend's session and a backend's, by docs/LINES.md and the tables of docs/protocol, for the profile
Vhost. It is written by hand and shares no code with the crates; the example device is that of dummy.py."""
import re
import struct

from dummy import Dummy

MQ, LOG_SHMFD, REPLY_ACK, MTU, BACKEND_REQ, PAGEFAULT, CONFIG = (1 << bit for bit in (0, 1, 3, 4, 5, 8, 9))
INFLIGHT_SHMFD, RESET_DEVICE, CONFIGURE_MEM_SLOTS, SHARED_OBJECT, DEVICE_STATE, SHMEM = (1 << bit for bit in (12, 13, 15, 18, 19, 22))
PROTOCOL_FEATURES = 1 << 30
FIRST_SOCKET, MAX_CONFIG, NEED_REPLY, SET_MEM_TABLE, ADD_MEM_REG = 1000, 4096, 8, 5, 37

# The letters of each call's words, as protocol/requests.toml explains them; of those with a number behind the slash so many may be missing.
WORDS = {
    "get_features": "", "set_features": "l", "set_owner": "", "reset_owner": "", "set_mem_table": "*", "set_log_base": "lllh/3",
    "set_log_fd": "h", "set_vring_num": "ls", "set_vring_addr": "lillll/1", "set_vring_base": "ls", "set_packed_vring_base": "li",
    "get_vring_base": "l", "set_vring_kick": "lh", "set_vring_call": "lh", "set_vring_err": "lh", "get_protocol_features": "",
    "set_protocol_features": "p", "get_queue_num": "", "set_vring_enable": "lo", "set_mtu": "s", "set_backend_request_fd": "h",
    "get_config": "iic", "set_config": "icb", "postcopy_advise": "", "postcopy_listen": "", "postcopy_end": "",
    "get_inflight_fd": "llss", "set_inflight_fd": "llssh", "reset_device": "", "get_max_mem_slots": "", "add_mem_region": "llllh",
    "remove_mem_region": "llllh", "get_shared_object": "n", "set_device_state_fd": "dth", "check_device_state": "",
    "get_shmem_config": "", "set_hdr_flags": "f", "postcopy_ack_mem_regions": "r",
}

# How many bits a number of a letter has, and which of them it may be where not all are taken.
BITS = {"l": 64, "o": 64, "p": 64, "s": 16}
TAKEN = {
    "o": (0, 1).__contains__, "p": lambda n: n <= 0x7fffff, "c": lambda n: n <= 3, "f": (0, 8).__contains__, "r": range(1, 45).__contains__,
    "d": (0, 1).__contains__, "t": (0,).__contains__,
}


class NoCall(Exception):
    """A line that is no call."""


class Refused(Exception):
    """What a call of the frontend answers as its error."""


class Unserved(Exception):
    """The backend refuses a request; its argument says whether that is acknowledged."""


def value_of(letter, word):
    """A word as the value of its letter."""
    if letter in "bn":
        if not re.fullmatch(r"([0-9a-fA-F]{2})+", word) or letter == "n" and len(word) != 32:
            raise NoCall
        return bytes.fromhex(word)
    if not re.fullmatch(r"[0-9]+|0x[0-9a-fA-F]+", word, re.ASCII):
        raise NoCall
    number = int(word[2:], 16) if word.startswith("0x") else int(word)
    if number >> BITS.get(letter, 32) or letter in TAKEN and not TAKEN[letter](number):
        raise NoCall
    return number


def call_in(line):
    """The name and the values of a line of bytes."""
    try:
        name, *words = line.decode().split(" ")
        letters, _, missing = WORDS[name].partition("/")
    except (UnicodeDecodeError, KeyError):
        raise NoCall from None
    if letters == "*":
        letters = "llllh" * (len(words) // 5)
    counts = {len(letters), len(letters) - int(missing or 0)}
    if len(words) not in counts:
        raise NoCall
    return name, [value_of(letter, word) for letter, word in zip(letters, words)]


def is_fitting(*numbers):
    return sum(numbers) < 1 << 64


def is_config(offset, size, flags):
    return flags <= 3 and size != 0 and offset + size <= MAX_CONFIG


def u64(number):
    return struct.pack("<Q", number)


def state(index, number):
    return struct.pack("<II", index, number)


def fds_text(fds):
    return f"[{','.join(map(str, fds))}]" if fds else ""


def shown(message, fds):
    """A message as a line has it."""
    return message.hex() + fds_text(fds)


class Backend:
    """A backend's session, with its device. A request is answered by the body of its reply and the descriptors with it, or by None."""

    def __init__(self):
        self.device = Dummy(range(107, 99, -1))
        self.offered = self.acked = self.accepted = 0
        self.postcopy = "Inactive"

    def handle(self, code, needs_reply, body, fds):
        """The reply's body and descriptors, None where there is none; and whether the request was refused."""
        try:
            reply, refused = getattr(self, f"on_{code}", self.on_other)(body, fds), False
        except Unserved as unserved:
            reply, refused = "ack" if unserved.args else None, True
        if reply == "ack":
            is_asked = needs_reply and self.offered & PROTOCOL_FEATURES and self.accepted & REPLY_ACK
            reply = (u64(refused), []) if is_asked else None
        return reply, refused

    def needs(self, feature):
        if not self.accepted & feature:
            raise Unserved

    def ask(self, *words, acked=True):
        """Asks the device: what it gives. A refusal of it is acknowledged where its request is."""
        given = self.device.ask(" ".join(map(str, words)))
        if given.startswith("err "):
            raise Unserved(*["acked"] * acked)
        return given

    def do(self, *words):
        self.ask(*words)
        return "ack"

    def number(self, *words):
        return u64(int(self.ask(*words, acked=False))), []

    def on_other(self, _body, _fds):
        raise Unserved

    def on_1(self, _body, _fds):
        reply = self.number("get_features")
        self.offered, = struct.unpack("<Q", reply[0])
        return reply

    def on_2(self, body, _fds):
        self.acked, = struct.unpack("<Q", body)
        return self.do("set_features", self.acked)

    def on_3(self, _body, _fds):
        return self.do("set_owner")

    def on_4(self, _body, _fds):
        return self.do("reset_owner")

    def on_5(self, body, fds):
        if self.postcopy == "Listen" and len(body) == 8:
            return self.mapped(body)
        count, padding = struct.unpack("<II", body[:8])
        words = struct.unpack(f"<{len(body) // 8 - 1}Q", body[8:])
        regions = [words[at:at + 4] for at in range(0, len(words), 4)]
        if padding or not 1 <= count <= 32 or len(regions) != count or len(fds) != count or not all(map(self.is_region, regions)):
            raise Unserved("acked")
        if self.postcopy != "Listen":
            return self.do("set_mem_table", *words, fds_text(fds), "false")
        bases = [int(it) for it in self.ask("set_mem_table", *words, fds_text(fds), "true").split(",")]
        return body[:8] + b"".join(struct.pack("<4Q", *region[:2], base, region[3]) for region, base in zip(regions, bases)), []

    @staticmethod
    def is_region(region):
        guest, size, user, offset = region
        return size != 0 and all(is_fitting(size, it) for it in (guest, user, offset))

    @staticmethod
    def mapped(body):
        """The frontend has mapped what came; nothing is written."""
        if body != u64(0):
            raise Unserved

    def on_6(self, body, fds):
        self.needs(LOG_SHMFD)
        if len(fds) != 1 or len(body) != 16:
            raise Unserved
        size, offset = struct.unpack("<QQ", body)
        if size == 0 or not is_fitting(size, offset):
            raise Unserved
        return body, []

    def on_8(self, body, _fds):
        return self.do("set_vring_num", *struct.unpack("<II", body))

    def on_9(self, body, _fds):
        ring, flags, descriptors, used, available, log = struct.unpack("<II4Q", body)
        if flags > 1 or descriptors % 16 or used % 4 or available % 2:
            raise Unserved
        return self.do("set_vring_addr", ring, flags, descriptors, used, available, log)

    def on_10(self, body, _fds):
        return self.do("set_vring_base", *struct.unpack("<II", body))

    def on_11(self, body, _fds):
        given = self.ask("get_vring_base", struct.unpack("<II", body)[0], acked=False)
        return state(*map(int, given.split())), []

    def ring_fd(self, name, body, fds):
        number, = struct.unpack("<Q", body)
        if (len(fds) == 1) == bool(number & 256):
            raise Unserved
        return self.do(name, number & 255, fds_text(fds) or "none")

    def on_12(self, body, fds):
        return self.ring_fd("set_vring_kick", body, fds)

    def on_13(self, body, fds):
        return self.ring_fd("set_vring_call", body, fds)

    def on_14(self, body, fds):
        return self.ring_fd("set_vring_err", body, fds)

    def on_15(self, _body, _fds):
        return u64(int(self.ask("get_protocol_features", acked=False)) | REPLY_ACK), []

    def on_16(self, body, _fds):
        self.accepted, = struct.unpack("<Q", body)
        return self.do("set_protocol_features", self.accepted)

    def on_17(self, _body, _fds):
        self.needs(MQ)
        return self.number("get_queue_num")

    def on_18(self, body, _fds):
        if not self.acked & PROTOCOL_FEATURES:
            raise Unserved
        return self.do("set_vring_enable", *struct.unpack("<II", body))

    def on_20(self, body, _fds):
        self.needs(MTU)
        return self.do("set_mtu", *struct.unpack("<Q", body))

    def on_21(self, _body, fds):
        self.needs(BACKEND_REQ)
        if len(fds) != 1 or fds[0] < FIRST_SOCKET:
            raise Unserved("acked")
        return self.do("set_backend_req_fd")

    def on_24(self, body, _fds):
        self.needs(CONFIG)
        offset, size, flags = struct.unpack("<III", body[:12])
        try:
            some = bytes.fromhex(self.ask("get_config", offset, size, flags))
        except Unserved:
            return struct.pack("<III", offset, 0, flags), []
        return body[:12] + some, []

    def on_25(self, body, _fds):
        self.needs(CONFIG)
        offset, _, flags = struct.unpack("<III", body[:12])
        return self.do("set_config", offset, body[12:].hex(), flags)

    def on_28(self, _body, _fds):
        self.needs(PAGEFAULT)
        if self.postcopy != "Inactive":
            raise Unserved
        try:
            given = self.ask("postcopy_advice")
        except Unserved:
            return b"", []
        self.postcopy = "Advise"
        return b"", [int(given.strip("[]"))]

    def on_29(self, _body, _fds):
        self.needs(PAGEFAULT)
        if self.postcopy != "Advise":
            raise Unserved
        done = self.do("postcopy_listen")
        self.postcopy = "Listen"
        return done

    def on_30(self, _body, _fds):
        self.needs(PAGEFAULT)
        if self.postcopy != "Listen":
            raise Unserved
        self.postcopy = "End"
        return self.do("postcopy_end")

    @staticmethod
    def has_queues(body):
        return all(struct.unpack("<HH", body[16:20]))

    def on_31(self, body, _fds):
        self.needs(INFLIGHT_SHMFD)
        if not self.has_queues(body):
            raise Unserved
        *numbers, given = self.ask("get_inflight_fd", *struct.unpack("<QQHH", body[:20]), acked=False).split()
        return struct.pack("<QQHHI", *map(int, numbers), 0), [int(given.strip("[]"))]

    def on_32(self, body, _fds):
        self.needs(INFLIGHT_SHMFD)
        if not self.has_queues(body):
            raise Unserved
        return self.do("set_inflight_fd")

    def on_34(self, _body, _fds):
        self.needs(RESET_DEVICE)
        return self.do("reset_device")

    def on_36(self, _body, _fds):
        self.needs(CONFIGURE_MEM_SLOTS)
        return self.number("get_max_mem_slots")

    def on_37(self, body, fds):
        self.needs(CONFIGURE_MEM_SLOTS)
        if self.postcopy == "Listen" and len(body) == 8:
            return self.mapped(body)
        if len(fds) != 1 or len(body) != 40:
            raise Unserved
        words = struct.unpack("<4Q", body[8:])
        if self.postcopy != "Listen":
            return self.do("add_mem_region", *words, fds_text(fds), "false")
        base = int(self.ask("add_mem_region", *words, fds_text(fds), "true"))
        return struct.pack("<5Q", 0, *words[:2], base, words[3]), []

    def on_38(self, _body, _fds):
        self.needs(CONFIGURE_MEM_SLOTS)
        return self.do("remove_mem_region")

    def on_41(self, body, _fds):
        self.needs(SHARED_OBJECT)
        try:
            return b"", [int(self.ask("get_shared_object", body.hex()).strip("[]"))]
        except Unserved:
            return b"", []

    def on_42(self, body, _fds):
        try:
            self.ask("set_device_state_fd", *struct.unpack("<II", body))
        except Unserved:
            return u64(0x101), []
        return u64(0x100), []

    def on_43(self, _body, _fds):
        try:
            self.ask("check_device_state")
        except Unserved:
            return u64(1), []
        return u64(0), []

    def on_44(self, _body, _fds):
        self.needs(SHMEM)
        raise Unserved


class Run:
    """A run: the frontend's session, and the backend that it is joined to. A call of it is a method; it answers by a text."""

    def __init__(self):
        self.backend = Backend()
        self.offered = self.acked = self.accepted = self.flags = 0
        self.queues, self.postcopy = 2, "Inactive"
        self.is_stopped = False
        self.request = self.reply = "-"

    def step(self, name, values):
        """The line that a call prints."""
        self.request = self.reply = "-"
        if self.is_stopped:
            return "- - stopped"
        try:
            answer = getattr(self, name)(*values)
        except Refused as refused:
            answer = f"err {refused}"
        return f"{self.request} {self.reply} {answer}"

    def send(self, code, body=b"", fds=(), flags=None):
        """Sends a request, which the backend handles: the reply's body and descriptors, or None."""
        flags = self.flags if flags is None else flags
        self.request = shown(struct.pack("<III", code, 1 | flags, len(body)) + body, fds)
        reply, is_refused = self.backend.handle(code, bool(flags & NEED_REPLY), body, list(fds))
        self.is_stopped = is_refused and reply is None
        if reply is not None:
            self.reply = shown(struct.pack("<III", code, 5, len(reply[0])) + reply[0], reply[1])
        return reply

    def done(self, code, body=b"", fds=()):
        """A request that may be acknowledged."""
        reply = self.send(code, body, fds)
        if self.accepted & REPLY_ACK and self.flags & NEED_REPLY:
            self.succeeds(self.awaited(reply)[0])
        return "ok"

    @staticmethod
    def succeeds(body):
        if body != u64(0):
            raise Refused("BackendInternalError")

    @staticmethod
    def awaited(reply):
        if reply is None:
            raise Refused("PartialMessage")
        return reply

    def asked(self, code, body=b"", fds=(), flags=None):
        """A request whose reply is awaited: that reply."""
        return self.awaited(self.send(code, body, fds, flags))

    def number(self, code, body=b"", fds=()):
        return struct.unpack("<Q", self.asked(code, body, fds)[0])[0]

    def needs(self, feature):
        if not self.accepted & feature:
            raise Refused(f"InactiveOperation {feature:#x}")

    @staticmethod
    def needs_bit_30(features):
        if not features & PROTOCOL_FEATURES:
            raise Refused(f"InactiveFeature {PROTOCOL_FEATURES:#x}")

    @staticmethod
    def only(holds):
        if not holds:
            raise Refused("InvalidParam")

    def ring(self, index, greatest=0xffffffff):
        self.only(index < self.queues and index <= greatest)

    def get_features(self):
        self.offered = self.number(1)
        return f"ok {self.offered:#x}"

    def set_features(self, features):
        self.acked = features & self.offered
        return self.done(2, u64(features))

    def set_owner(self):
        return self.done(3)

    def reset_owner(self):
        return self.done(4)

    def is_listening(self):
        return self.postcopy == "Listen"

    def set_mem_table(self, *words):
        regions = [words[at:at + 5] for at in range(0, len(words), 5)]
        self.only(1 <= len(regions) <= 32 and all(it[1] for it in regions))
        body = state(len(regions), 0) + b"".join(struct.pack("<4Q", *it[:4]) for it in regions)
        fds = [it[4] for it in regions]
        if not self.is_listening():
            return f"{self.done(SET_MEM_TABLE, body, fds)} none"
        reply = self.asked(SET_MEM_TABLE, body, fds, 0)[0]
        return "ok " + ",".join(f"{base:#x}" for base in struct.unpack(f"<{len(reply) // 8 - 1}Q", reply[8:])[2::4])

    def set_log_base(self, base, *region):
        if not (region and self.accepted & LOG_SHMFD):
            self.send(6, u64(base))
            return "ok"
        size, offset, fd = region
        body, _ = self.asked(6, struct.pack("<QQ", size, offset), [fd])
        assert body
        return "ok"

    def set_log_fd(self, fd):
        return self.done(7, fds=[fd])

    def set_vring_num(self, index, size):
        self.ring(index)
        return self.done(8, state(index, size))

    def set_vring_addr(self, index, flags, descriptors, used, available, log=0):
        self.ring(index)
        self.only(flags <= 1)
        return self.done(9, struct.pack("<II4Q", index, flags, descriptors, used, available, log))

    def set_vring_base(self, index, base):
        self.ring(index)
        return self.done(10, state(index, base))

    set_packed_vring_base = set_vring_base

    def get_vring_base(self, index):
        self.ring(index)
        return f"ok {struct.unpack('<II', self.asked(11, state(index, 0))[0])[1]:#x}"

    def ring_fd(self, code, index, fd):
        self.ring(index, 255)
        return self.done(code, u64(index), [fd])

    def set_vring_kick(self, index, fd):
        return self.ring_fd(12, index, fd)

    def set_vring_call(self, index, fd):
        return self.ring_fd(13, index, fd)

    def set_vring_err(self, index, fd):
        return self.ring_fd(14, index, fd)

    def get_protocol_features(self):
        self.needs_bit_30(self.offered)
        return f"ok {self.number(15) & 0x7fffff:#x}"

    def set_protocol_features(self, features):
        self.needs_bit_30(self.offered)
        self.accepted = features
        return self.done(16, u64(features))

    def get_queue_num(self):
        self.needs(MQ)
        self.queues = self.number(17)
        return f"ok {self.queues:#x}"

    def set_vring_enable(self, index, enable):
        self.needs_bit_30(self.acked)
        self.ring(index)
        return self.done(18, state(index, enable))

    def set_mtu(self, mtu):
        self.needs(MTU)
        return self.done(20, u64(mtu))

    def set_backend_request_fd(self, fd):
        self.needs(BACKEND_REQ)
        return self.done(21, fds=[fd])

    def config(self, offset, flags, some):
        self.only(is_config(offset, len(some), flags))
        self.needs(CONFIG)
        self.only(12 + len(some) <= MAX_CONFIG)
        return struct.pack("<III", offset, len(some), flags) + some

    def get_config(self, offset, size, flags):
        self.only(is_config(offset, size, flags))
        reply, _ = self.asked(24, self.config(offset, flags, bytes(min(size, MAX_CONFIG))))
        if len(reply) == 12:
            raise Refused("BackendInternalError")
        return f"ok {offset:#x} {size:#x} {flags:#x} {reply[12:].hex()}"

    def set_config(self, offset, flags, some):
        self.only(len(some) <= MAX_CONFIG)
        return self.done(25, self.config(offset, flags, some))

    @staticmethod
    def only_fd(reply):
        if not reply[1]:
            raise Refused("InvalidMessage")
        return f"[{reply[1][0]}]"

    def postcopy_advise(self):
        self.needs(PAGEFAULT)
        fd = self.only_fd(self.asked(28))
        self.postcopy = "Advise"
        return f"ok {fd}"

    def postcopy_listen(self):
        self.needs(PAGEFAULT)
        done = self.done(29)
        self.postcopy = "Listen"
        return done

    def postcopy_end(self):
        self.needs(PAGEFAULT)
        done = self.done(30)
        self.postcopy = "End"
        return done

    def get_inflight_fd(self, *area):
        self.needs(INFLIGHT_SHMFD)
        reply = self.asked(31, struct.pack("<QQHHI", *area, 0))
        return "ok " + " ".join(f"{it:#x}" for it in struct.unpack("<QQHH", reply[0][:20])) + f" {self.only_fd(reply)}"

    def set_inflight_fd(self, size, offset, queues, length, fd):
        self.needs(INFLIGHT_SHMFD)
        self.only(size and queues and length)
        return self.done(32, struct.pack("<QQHHI", size, offset, queues, length, 0), [fd])

    def reset_device(self):
        self.needs(RESET_DEVICE)
        return self.done(34)

    def get_max_mem_slots(self):
        self.needs(CONFIGURE_MEM_SLOTS)
        return f"ok {self.number(36):#x}"

    def add_mem_region(self, guest, size, user, offset, fd):
        self.needs(CONFIGURE_MEM_SLOTS)
        self.only(size)
        body = struct.pack("<5Q", 0, guest, size, user, offset)
        if not self.is_listening():
            return f"{self.done(ADD_MEM_REG, body, [fd])} none"
        return f"ok {struct.unpack('<5Q', self.asked(ADD_MEM_REG, body, [fd], 0)[0])[3]:#x}"

    def remove_mem_region(self, guest, size, user, offset, _fd):
        self.needs(CONFIGURE_MEM_SLOTS)
        self.only(size)
        return self.done(38, struct.pack("<5Q", 0, guest, size, user, offset))

    def get_shared_object(self, name):
        self.needs(SHARED_OBJECT)
        self.only(name not in (bytes(16), b"\xff" * 16))
        return f"ok {self.only_fd(self.asked(41, name))}"

    def set_device_state_fd(self, direction, phase, fd):
        self.needs(DEVICE_STATE)
        reply, fds = self.asked(42, state(direction, phase), [fd])
        if reply != u64(0x100) or fds:
            raise Refused("BackendInternalError")
        return "ok none"

    def check_device_state(self):
        self.needs(DEVICE_STATE)
        self.succeeds(u64(self.number(43)))
        return "ok"

    def get_shmem_config(self):
        self.needs(SHMEM)
        self.asked(44)

    def set_hdr_flags(self, flags):
        self.flags = flags
        return "ok"

    def postcopy_ack_mem_regions(self, code):
        self.only(code in (SET_MEM_TABLE, ADD_MEM_REG))
        self.send(code, u64(0), flags=0)
        return "ok"


def run(given):
    """What the lines of an input print, what standard error has, and the status."""
    lines = given.split(b"\n")
    session, printed = Run(), []
    for number, line in enumerate(lines[:-1] if not lines[-1] else lines, 1):
        try:
            printed.append(session.step(*call_in(line)))
        except NoCall:
            return printed, f"line {number}: bad call\n", 1
    return printed, "", 0
