# SPDX-License-Identifier: Apache-2.0
"""What a backend's session, or a frontend's side of the backend channel, asks: as words, and how it is replied to."""
from collections import deque
from ctypes import byref, c_bool, c_int32, c_size_t, c_uint8, c_uint32, c_uint64

from calls import SHMEM_REGIONS, inflight, numbers_text
from library import BACKEND_INTERNAL_ERROR, ERRORS, OK, Config, Inflight, Mmap, Region, Vring, array, octets, outcome
from words import Differs, Unreadable, bytes_of, bytes_text, expect, number_of, only_fd

# How many regions a table has at most, how many bytes of the configuration space one request, and how many its body.
MAX_REGIONS, MAX_CONFIG, MAX_BODY = 32, 4084, 4096


def number(session):
    return [session.value("call_number", c_uint64)[0]]


def ring(session):
    return session.value("call_ring", c_uint32, c_uint32)


def vring(session):
    """A ring, flags, descriptors, used, available, log."""
    index, it = session.value("call_vring", c_uint32, Vring)
    if it.has_log_addr != (it.flags & 1):
        raise Differs("has_log_addr as the flags say", it.has_log_addr)
    return [index, it.flags, it.desc_table_addr, it.used_ring_addr, it.avail_ring_addr, it.log_addr]


def ring_fd(session):
    index, fd = session.value("call_ring_fd", c_uint32, c_int32)
    return [index, "none" if fd == -1 else f"[{fd}]"]


def table(session):
    """Each region's numbers, all descriptors, and whether postcopy listens."""
    places, count, listening = (Region * MAX_REGIONS)(), c_size_t(), c_bool()
    session.call("call_regions", places, c_size_t(MAX_REGIONS), byref(count), byref(listening))
    found = places[:count.value]
    numbers = [at for it in found for at in (it.guest_phys_addr, it.memory_size, it.user_addr, it.mmap_offset)]
    return [*numbers, f"[{','.join(str(it.fd) for it in found)}]", "true" if listening.value else "false"]


def removed(session):
    """A region without its descriptor."""
    *numbers, fds, listening = table(session)
    if (fds, listening) != ("[-1]", "false"):
        raise Differs("no descriptor, and no word of postcopy", f"{fds} {listening}")
    return numbers


def config(session):
    """A part of the configuration space, and of SET_CONFIG its bytes."""
    part, some, count = Config(), (c_uint8 * MAX_CONFIG)(), c_size_t()
    session.call("call_config", byref(part), some, c_size_t(MAX_CONFIG), byref(count))
    return part, bytes(some[:count.value])


def get_config(session):
    part, some = config(session)
    if some:
        raise Differs("no byte", bytes_text(some))
    return [part.offset, part.size, part.flags]


def set_config(session):
    part, some = config(session)
    if part.size != len(some):
        raise Differs(f"{part.size} bytes", bytes_text(some))
    return [part.offset, bytes_text(some), part.flags]


def only_file(session):
    return [f"[{session.value('call_fd', c_int32)[0]}]"]


def name(session):
    some = (c_uint8 * 16)()
    session.call("call_name", some, c_size_t(16))
    return [bytes(some).hex()]


def area(session):
    it, fd = session.value("call_inflight", Inflight, c_int32)
    return [it.mmap_size, it.mmap_offset, it.num_queues, it.queue_size, *([] if fd == -1 else [f"[{fd}]"])]


def transfer(session):
    direction, phase, fd = session.value("call_transfer", c_uint32, c_uint32, c_int32)
    return [direction, phase, f"[{fd}]"]


def log(session):
    it, = session.value("call_log", Region)
    if it.guest_phys_addr or it.user_addr:
        raise Differs("no address", f"{it.guest_phys_addr} {it.user_addr}")
    return [it.memory_size, it.mmap_offset, f"[{it.fd}]"]


def mapping(session):
    it, = session.value("call_mmap", Mmap)
    return [it.shmid, it.fd_offset, it.shm_offset, it.len, it.flags]


def other(session):
    """The number of a request that has no call of its own, its body, and its descriptors."""
    request, some, count = c_uint32(), (c_uint8 * MAX_BODY)(), c_size_t()
    session.call("call_other", byref(request), some, c_size_t(MAX_BODY), byref(count))
    fds, fd_count = (c_int32 * MAX_REGIONS)(), c_size_t()
    session.call("call_fds", fds, c_size_t(MAX_REGIONS), byref(fd_count))
    return [request.value, bytes_text(bytes(some[:count.value])), f"[{','.join(str(fd) for fd in fds[:fd_count.value])}]"]


def nothing(_session):
    return []


# The calls of enum covretin_call: each one's name, what gives its arguments, and in which form it is replied to.
BACKEND_CALLS = {
    # generated from protocol/requests.toml: calls
    1: ("get_features", nothing, "number"),
    2: ("set_features", number, "done"),
    3: ("set_owner", nothing, "done"),
    4: ("reset_owner", nothing, "done"),
    5: ("set_mem_table", table, "bases"),
    6: ("set_log_base", log, "done"),
    8: ("set_vring_num", ring, "done"),
    9: ("set_vring_addr", vring, "done"),
    10: ("set_vring_base", ring, "done"),
    11: ("get_vring_base", lambda session: ring(session)[:1], "ring"),
    12: ("set_vring_kick", ring_fd, "done"),
    13: ("set_vring_call", ring_fd, "done"),
    14: ("set_vring_err", ring_fd, "done"),
    15: ("get_protocol_features", nothing, "number"),
    16: ("set_protocol_features", number, "done"),
    17: ("get_queue_num", nothing, "number"),
    18: ("set_vring_enable", ring, "done"),
    20: ("set_mtu", number, "done"),
    21: ("set_backend_req_fd", only_file, "done"),
    24: ("get_config", get_config, "config"),
    25: ("set_config", set_config, "done"),
    28: ("postcopy_advice", nothing, "fd"),
    29: ("postcopy_listen", nothing, "done"),
    30: ("postcopy_end", nothing, "done"),
    31: ("get_inflight_fd", area, "inflight"),
    32: ("set_inflight_fd", area, "done"),
    33: ("set_gpu_socket", only_file, "done"),
    34: ("reset_device", nothing, "done"),
    36: ("get_max_mem_slots", nothing, "number"),
    37: ("add_mem_region", table, "bases"),
    38: ("remove_mem_region", removed, "done"),
    41: ("get_shared_object", name, "fd"),
    42: ("set_device_state_fd", transfer, "state_fd"),
    43: ("check_device_state", nothing, "done"),
    44: ("get_shmem_config", nothing, "shmem"),
    256: ("postcopy_ack_mem_regions", nothing, "done"),
    257: ("other", other, "done"),
    # end
}

# The same of enum covretin_channel_call.
CHANNEL_CALLS = {
    2: ("handle_config_change", nothing, "back"),
    6: ("shared_object_add", name, "back"),
    7: ("shared_object_remove", name, "back"),
    8: ("shared_object_lookup", lambda session: name(session) + only_file(session), "back"),
    9: ("shmem_map", lambda session: mapping(session) + only_file(session), "back"),
    10: ("shmem_unmap", mapping, "back"),
}


def numbers_of(text):
    """Numbers with commas between them."""
    return [number_of(it) for it in text.split(",")]


def ring_reply(text):
    index, space, base = text.partition(" ")
    if not space:
        raise Unreadable("a ring and a number", text)
    return "reply_ring", c_uint32(number_of(index, 1 << 32)), c_uint32(number_of(base, 1 << 32))


def bases_reply(text):
    if text == "none":
        return ("reply_done",)
    bases = numbers_of(text)
    return "reply_bases", array(c_uint64, bases), c_size_t(len(bases))


def inflight_reply(text):
    words = text.split(" ")
    if len(words) != 5:
        raise Unreadable("an inflight region and its file descriptor", text)
    return "reply_inflight", byref(inflight(words)), c_int32(only_fd(words[4]))


def shmem_reply(text):
    count, space, sizes = text.partition(" ")
    if not space:
        raise Unreadable("regions and their sizes", text)
    sizes = array(c_uint64, (numbers_of(sizes) + [0] * SHMEM_REGIONS)[:SHMEM_REGIONS])
    return "reply_shmem", sizes, c_size_t(SHMEM_REGIONS), c_uint32(number_of(count, 1 << 32))


def back_reply(text):
    """A number, or the number of an error of the system."""
    if not text.startswith("err "):
        return "reply_number", c_uint64(number_of(text))
    negative = text.startswith("err Raw -")
    if not text.startswith("err Raw "):
        raise Unreadable("an error of the system", text)
    errno = number_of(text[9 if negative else 8:], (1 << 31) + negative)
    return "reply_errno", c_int32(-errno if negative else errno)


def done_reply(text):
    raise Unreadable("an error", text)


# What reads a value, by the form of the reply: the call that replies, and its arguments.
REPLIES = {
    "done": done_reply,
    "number": lambda text: ("reply_number", c_uint64(number_of(text))),
    "ring": ring_reply,
    "bases": bases_reply,
    "config": lambda text: ("reply_config", *octets(bytes_of(0, text))),
    "fd": lambda text: ("reply_fd", c_int32(only_fd(text))),
    "state_fd": lambda text: ("reply_fd", c_int32(-1 if text == "none" else only_fd(text))),
    "inflight": inflight_reply,
    "shmem": shmem_reply,
    "back": back_reply,
}

# The errors that a device may give, by their names.
NAMES = {name for code, name in ERRORS.items() if code < 100}


def reply_of(form, text):
    """The call that replies with a value, and its arguments; a device's error is refused."""
    if form != "back" and text.startswith("err "):
        if text[4:].partition(" ")[0] not in NAMES:
            raise Unreadable("an error", text)
        return ("reply_refused",)
    return REPLIES[form](text)


class Sheet:
    """A device that goes by the script: the calls that are to come, what it gives, and the first difference that was met."""

    def __init__(self, calls, refusal):
        self.forms = {name: form for name, _, form in calls.values()}
        self.refusal = refusal
        self.wanted = deque()
        self.difference = None

    def want(self, text):
        """It is to be asked this call, behind the others."""
        self.expect_told()
        name = text.partition(" ")[0]
        if name not in self.forms:
            raise Unreadable("a call of the device", text)
        self.wanted.append([text, None if self.forms[name] != "done" else "", self.forms[name]])

    def give(self, text):
        """It gives this to the last of them."""
        if not self.wanted or self.wanted[-1][1]:
            raise Unreadable("a call of the device before it", text)
        reply_of(self.wanted[-1][2], text)
        self.wanted[-1][1] = text

    def expect_told(self):
        """The script has to give what a call gives."""
        if self.wanted and self.wanted[-1][1] is None:
            raise Unreadable("what the device gives", self.wanted[-1][0])

    def ask(self, call):
        """It is asked: what it gives; an error where another call was due, or none."""
        wanted, given, _ = self.wanted.popleft() if self.wanted else ("no more calls of the device", "", "")
        try:
            expect(wanted, call)
            return given
        except Differs as difference:
            self.difference = self.difference or difference
            return self.refusal

    def check(self):
        """It was asked these calls and no other; none is wanted any more."""
        wanted, self.wanted = self.wanted, deque()
        difference, self.difference = self.difference, None
        if difference:
            raise difference
        if wanted:
            raise Differs(wanted[0][0], "no such call")


def conclude(session, calls, code, device):
    """A device is asked the call of a number, and replies. The answer is what its handler would return: what the device gave, where the
    session took it so, and else the session's error."""
    name, arguments, form = calls[code]
    given = device.ask(" ".join(str(it) for it in (name, *arguments(session))))
    reply = reply_of(form, given) if given else ("reply_done",)
    replied = session.result(*reply)
    if reply[0] == "reply_refused" and replied == BACKEND_INTERNAL_ERROR:
        return given
    if replied != OK or form != "back":
        return outcome(replied)
    return given.replace("err Raw", "err ReqHandlerError") if given.startswith("err") else f"ok {given}"
