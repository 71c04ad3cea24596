# SPDX-License-Identifier: Apache-2.0
"""The player of a device's session on the vhost-user-gpu channel: it is the display. Records are words of bytes."""
from ctypes import byref, c_int32, c_size_t, c_uint8, c_uint32, c_uint64

from channels import Asker
from library import record
from words import Unreadable, bytes_of, bytes_text, fds_in

# Bytes of a cursor's image, and of the records of screens and of what one says of itself.
CURSOR_SIZE, INFO_SIZE, EDID_SIZE = 16384, 408, 1056

# How many numbers of 32 bits a record has.
SCANOUT, UPDATE, CURSOR_POS, CURSOR_UPDATE, DMABUF, DMABUF2 = 3, 5, 3, 5, 10, 12


def numbers_in(word, count):
    """The numbers of a record's bytes, of 32 bits each."""
    some = bytes_of(0, word)
    if len(some) != 4 * count:
        raise Unreadable("a record of another size", word)
    return [int.from_bytes(some[at:at + 4], "little") for at in range(0, len(some), 4)]


def fields(word, count):
    """A record of so many numbers, as the header lays it out; one of 64 bits is two of them."""
    return byref(record("Numbers", at=c_uint32 * count)((c_uint32 * count)(*numbers_in(word, count))))


def whole(count):
    """What reads a record alone."""
    return lambda word, more: ((fields(word, count),), b"")


def with_buffer(count):
    """What reads a record, and perhaps a file descriptor."""
    return lambda word, more: ((fields(word, count), c_int32(*(fds_in(more)[0] or [-1]))), b"")


def features(word, _more):
    """Features that the device accepts."""
    low, high = numbers_in(word, 2)
    return (c_uint64(high << 32 | low),), b""


def pixels(word, more):
    """A rectangle, and how many bytes of pixels follow, which the device sends itself."""
    some = bytes_of(0, more)
    return (fields(word, UPDATE), c_size_t(len(some))), some


def image(word, more):
    """A cursor, and its image, which the device sends itself."""
    some = bytes_of(0, more)
    if len(some) != CURSOR_SIZE:
        raise Unreadable("an image", more)
    return (fields(word, CURSOR_UPDATE),), some


# The calls, each with what reads its arguments and the pixels behind it, and the form of its answer.
ASKS = {
    "get_protocol_features": (lambda word, more: ((), b""), "number"),
    "get_display_info": (lambda word, more: ((), b""), "display_info"),
    "get_edid": (lambda word, more: ((c_uint32(*numbers_in(word, 1)),), b""), "edid"),
    "set_protocol_features": (features, ""),
    "set_scanout": (whole(SCANOUT), ""),
    "update_scanout": (pixels, ""),
    "update_dmabuf_scanout": (whole(UPDATE), ""),
    "cursor_pos": (whole(CURSOR_POS), ""),
    "cursor_pos_hide": (whole(CURSOR_POS), ""),
    "cursor_update": (image, ""),
    "set_dmabuf_scanout": (with_buffer(DMABUF), ""),
    "set_dmabuf_scanout2": (with_buffer(DMABUF2), ""),
}

SIZES = {"display_info": INFO_SIZE, "edid": EDID_SIZE}


class Display(Asker):
    """A device asks on the vhost-user-gpu channel."""

    prefix = "display_"

    def take_call(self, text):
        self.pend(text)

    def make(self, text):
        """Makes a call: what it wrote, with the pixels that the device sends itself, and its answer."""
        name, _, rest = text.partition(" ")
        word, _, more = rest.partition(" ")
        if name not in ASKS:
            raise Unreadable("a call of a display", text)
        read, form = ASKS[name]
        arguments, behind = read(word, more)
        written, answer = self.side.ask(f"ask_{name}", *arguments)
        return written + ("" if answer else behind.hex()), answer or self.take(form)

    def take(self, form):
        """Takes the reply by its form: the answer, with its record as bytes."""
        if not form:
            return self.side.take()
        number, room = c_uint64(), (c_uint8 * SIZES.get(form, 1))()
        places = (byref(number),) if form == "number" else (room, c_size_t(len(room)))
        answer = self.side.take(f"take_{form}", *places)
        some = number.value.to_bytes(8, "little") if form == "number" else bytes(room)
        return f"{answer} {bytes_text(some)}" if answer == "ok" else answer

    def take_answer(self, wanted):
        """The record of an answer is words of bytes."""
        super().take_answer(f"ok {bytes_text(bytes_of(0, wanted[3:]))}" if wanted.startswith("ok ") else wanted)
