# SPDX-License-Identifier: Apache-2.0
"""A frontend's calls, read from words and asked of a session, and its answers as words."""
from ctypes import byref, c_bool, c_int32, c_size_t, c_uint8, c_uint16, c_uint32, c_uint64

from library import Config, Inflight, Region, Vring, array, octets
from words import Unreadable, bytes_of, bytes_text, fd_of, number_of

# The greatest part of the configuration space, and how many regions of shared memory a reply has.
MAX_CONFIG, SHMEM_REGIONS = 4096, 256


def u64(word):
    return c_uint64(number_of(word))


def u32(word):
    return c_uint32(number_of(word, 1 << 32))


def u16(word):
    return c_uint16(number_of(word, 1 << 16))


def index(word):
    return c_size_t(number_of(word))


def flag(word):
    return c_bool(number_of(word, 2))


def fd(word):
    return c_int32(fd_of(word))


def fd_or_none(word):
    return c_int32(-1 if word == "none" else fd_of(word))


def name_of(word):
    """The 16 bytes of an object's name."""
    some = bytes_of(0, word)
    if len(some) != 16:
        raise Unreadable("a name of sixteen bytes", word)
    return some


def region(words):
    """A region of five words; it may have no file descriptor."""
    if len(words) != 5:
        raise Unreadable("a region", " ".join(words))
    return Region(*(number_of(it) for it in words[:4]), fd_or_none(words[4]))


def inflight(words):
    """The inflight region, of four words."""
    return Inflight(number_of(words[0]), number_of(words[1]), number_of(words[2], 1 << 16), number_of(words[3], 1 << 16))


# Calls whose arguments are words of one kind each, and in which form their answers are.
PLAIN = {
    # generated from protocol/requests.toml: calls of one word an argument
    "get_features": ((), "number"),
    "set_features": ((u64,), ""),
    "set_owner": ((), ""),
    "reset_owner": ((), ""),
    "set_log_fd": ((fd,), ""),
    "set_vring_num": ((index, u16), ""),
    "set_vring_base": ((index, u16), ""),
    "get_vring_base": ((index,), "number"),
    "set_vring_kick": ((index, fd_or_none), ""),
    "set_vring_call": ((index, fd_or_none), ""),
    "set_vring_err": ((index, fd_or_none), ""),
    "get_protocol_features": ((), "number"),
    "set_protocol_features": ((u64,), ""),
    "get_queue_num": ((), "number"),
    "set_vring_enable": ((index, flag), ""),
    "set_mtu": ((u16,), ""),
    "set_backend_request_fd": ((fd,), ""),
    "get_config": ((u32, u32, u32), "config"),
    "postcopy_advise": ((), "fd"),
    "postcopy_listen": ((), ""),
    "postcopy_end": ((), ""),
    "reset_device": ((), ""),
    "get_max_mem_slots": ((), "number"),
    "set_device_state_fd": ((u32, u32, fd), "state_fd"),
    "check_device_state": ((), ""),
    "get_shmem_config": ((), "shmem"),
    "postcopy_ack_mem_regions": ((u32,), ""),
    # end
}


def set_mem_table(words):
    regions = [region(words[at:at + 5]) for at in range(0, len(words), 5)]
    return "ask_set_mem_table", array(Region, regions), c_size_t(len(regions))


def set_log_base(words):
    if len(words) == 1:
        return "ask_set_log_base_alone", u64(words[0])
    base, size, offset, mapping = words
    return "ask_set_log_base", u64(base), byref(region(["0", size, "0", offset, mapping]))


def set_vring_addr(words):
    """A ring, flags, descriptors, used, available, and perhaps the log."""
    ring, flags, descriptors, used, available, *log = words
    places = [number_of(it) for it in (descriptors, used, available, *log)]
    if len(log) > 1:
        raise ValueError
    return "ask_set_vring_addr", index(ring), byref(Vring(0, 0, number_of(flags, 1 << 32), *places, has_log_addr=bool(log)))


def set_packed_vring_base(words):
    """A ring, and both its indices."""
    ring, base = words
    return "ask_set_vring_base", index(ring), u32(base)


def set_config(words):
    offset, flags, some = words
    return "ask_set_config", u32(offset), u32(flags), *octets(bytes_of(0, some))


# Calls whose arguments are of several words, each with what reads them, and the form of its answer.
OTHERS = {
    "set_hdr_flags": (lambda words: ("set_hdr_flags", u32(*words)), ""),
    "set_mem_table": (set_mem_table, "bases"),
    "add_mem_region": (lambda words: ("ask_add_mem_region", byref(region(words))), "base"),
    "remove_mem_region": (lambda words: ("ask_remove_mem_region", byref(region(words))), ""),
    "set_log_base": (set_log_base, ""),
    "set_vring_addr": (set_vring_addr, ""),
    "set_packed_vring_base": (set_packed_vring_base, ""),
    "set_config": (set_config, ""),
    "get_shared_object": (lambda words: ("ask_get_shared_object", *octets(name_of(*words))), "fd"),
    "get_inflight_fd": (lambda words: ("ask_get_inflight_fd", byref(inflight(words))), "inflight"),
    "set_inflight_fd": (lambda words: ("ask_set_inflight_fd", byref(inflight(words[:4])), fd(*words[4:])), ""),
}


def with_buffer(text):
    """get_config with bytes in the place of zeros."""
    words, _, some = text.partition(" buffer ")
    name, offset, size, flags = words.split(" ")
    some = bytes_of(0, some)
    if name != "get_config" or number_of(size) != len(some):
        raise ValueError
    return "ask_get_config_bytes", u32(offset), u32(flags), *octets(some)


def call_in(text):
    """The call of a line: its name in the library and its arguments, and the form of its answer."""
    name, *words = text.split(" ")
    try:
        if " buffer " in text:
            return with_buffer(text), "config"
        if name in OTHERS:
            read, form = OTHERS[name]
            return read(words), form
        kinds, form = PLAIN[name]
        if len(kinds) != len(words):
            raise ValueError
        return (f"ask_{name}", *(kind(word) for kind, word in zip(kinds, words))), form
    except (KeyError, ValueError, TypeError, IndexError):
        raise Unreadable("a call", text) from None


def error_text(session, failed):
    """An error by its name, and the feature that was lacking, where one was."""
    lacking = failed.outcome.startswith("err Inactive")
    return f"{failed.outcome} {session.result('inactive'):#x}" if lacking else failed.outcome


def numbers_text(numbers):
    """Numbers with commas between them."""
    return ",".join(f"{it:#x}" for it in numbers) or "-"


def answer_text(session, form):
    """The answer that was taken last, by its form."""
    return f"ok {FORMS[form](session)}" if form else "ok"


def bases_of(session):
    """Where regions are mapped, or `none`."""
    bases, count = (c_uint64 * 32)(), c_size_t()
    session.call("answer_bases", bases, c_size_t(32), byref(count))
    return numbers_text(bases[:count.value]) if count.value else "none"


def config_of(session):
    """A part of the configuration space, and its bytes."""
    part, some, count = Config(), (c_uint8 * MAX_CONFIG)(), c_size_t()
    session.call("answer_config", byref(part), some, c_size_t(MAX_CONFIG), byref(count))
    return f"{part.offset:#x} {part.size:#x} {part.flags:#x} {bytes_text(bytes(some[:count.value]))}"


def inflight_of(session):
    """The inflight region, and its file descriptor."""
    area, fd_ = session.value("answer_inflight", Inflight, c_int32)
    return f"{area.mmap_size:#x} {area.mmap_offset:#x} {area.num_queues:#x} {area.queue_size:#x} [{fd_}]"


def shmem_of(session):
    """How many regions of shared memory there are, and the sizes of all that there may be."""
    sizes, count = (c_uint64 * SHMEM_REGIONS)(), c_size_t()
    session.call("answer_shmem", sizes, c_size_t(SHMEM_REGIONS), byref(count))
    return f"{count.value:#x} {numbers_text(sizes)}"


def state_fd_of(session):
    """A file descriptor, or `none`."""
    fd_, = session.value("answer_fd", c_int32)
    return "none" if fd_ == -1 else f"[{fd_}]"


FORMS = {
    "number": lambda session: f"{session.value('answer_number', c_uint64)[0]:#x}",
    "bases": bases_of,
    "base": bases_of,
    "config": config_of,
    "fd": lambda session: f"[{session.value('answer_fd', c_int32)[0]}]",
    "state_fd": state_fd_of,
    "inflight": inflight_of,
    "shmem": shmem_of,
}
