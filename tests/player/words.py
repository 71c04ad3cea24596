# SPDX-License-Identifier: Apache-2.0
"""The words of scripts: numbers, counts, bytes, file descriptors, messages; and what was wanted against what was met."""
import re
from dataclasses import dataclass, field

# The greatest number of file descriptors that come with a message.
MAX_FDS = 32


class Miss(Exception):
    """A line was not met: what was wanted, and what was met."""

    def __init__(self, wanted, met):
        super().__init__(f"wanted '{wanted}', met '{met}'")


class Unreadable(Miss):
    """The line can't be read."""

    def __str__(self):
        return f"unreadable: {super().__str__()}"


class Differs(Miss):
    """Something went another way."""


def number_of(word, below=1 << 64, what="a number"):
    """A number, decimal or behind 0x hexadecimal, that is less than another one."""
    if not re.fullmatch(r"[0-9]+|0x[0-9a-fA-F]+", word):
        raise Unreadable(what, word)
    number = int(word, 0) if word.startswith("0x") else int(word)
    if number >= below:
        raise Unreadable("a number that fits" if what == "a number" else what, word)
    return number


def count_of(n, word):
    """A count: a number, `n`, `n-12`, or `28-n`, where less than nothing is 0."""
    if word == "n":
        return n
    if word.startswith("n-"):
        return max(0, n - number_of(word[2:]))
    if word.endswith("-n"):
        return max(0, number_of(word[:-2]) - n)
    return number_of(word)


def bytes_of(n, text):
    """The bytes of words: two digits a byte, `00*20` for twenty times the same, `-` for none."""
    found = b""
    for word in text.split(" "):
        digits, star, count = word.partition("*")
        if digits != "-" and not re.fullmatch(r"([0-9a-fA-F]{2})+", digits):
            raise Unreadable("bytes", digits)
        some = b"" if digits == "-" else bytes.fromhex(digits)
        found += some * (count_of(n, count) if star else 1)
    return found


def bytes_text(some):
    """Bytes as one word; `-` for none."""
    return some.hex() or "-"


def fds_in(text):
    """The file descriptors of a list in brackets, as `[7,8]` or `[7*33]`, and what follows it."""
    if not text.startswith("["):
        return [], text
    found = re.match(r"\[([^\]]*)\] ?", text)
    if not found:
        raise Unreadable("file descriptors", text)
    fds = []
    for word in found[1].split(","):
        word, star, count = word.partition("*")
        fds += [fd_of(word)] * (number_of(count) if star else 1)
    return fds, text[found.end():]


def fd_of(word):
    """A file descriptor."""
    return number_of(word, 1 << 31, "a file descriptor")


def only_fd(text):
    """One file descriptor in brackets."""
    fds, rest = fds_in(text)
    if len(fds) != 1 or rest:
        raise Unreadable("a file descriptor", text)
    return fds[0]


def fds_text(fds):
    """File descriptors in brackets; nothing for none."""
    return f"[{','.join(str(it) for it in fds)}]" if fds else ""


@dataclass
class Message:
    """Bytes, and the file descriptors with the first of them."""

    bytes: bytes = b""
    fds: list = field(default_factory=list)

    def text(self):
        """As one word: the descriptors go with a byte, or nowhere."""
        return fds_text(self.fds) + self.bytes.hex() if self.bytes else ""


def message_of(n, text):
    """The message of a line: `[7] 0100`, `first COUNT MESSAGE`, `[7] after COUNT MESSAGE`, and `MESSAGE then BYTES`."""
    front, then, more = text.partition(" then ")
    message = part_of(n, front)
    if then:
        message.bytes += bytes_of(n, more)
    if len(message.fds) > MAX_FDS:
        raise Unreadable("at most 32 file descriptors", text)
    return message


def part_of(n, text):
    """A message, or its first bytes, or the others."""
    if text.startswith("first "):
        count, message = counted(n, text[6:])
        return Message(message.bytes[:count], message.fds)
    fds, rest = fds_in(text)
    if not rest.startswith("after "):
        return whole(n, text)
    count, message = counted(n, rest[6:])
    return Message(message.bytes[count:], fds or (message.fds if count == 0 else []))


def counted(n, text):
    """A count, and the message behind it."""
    count, space, message = text.partition(" ")
    if not space:
        raise Unreadable("a count and a message", text)
    return count_of(n, count), whole(n, message)


def whole(n, text):
    """A message without a count."""
    fds, digits = fds_in(text)
    return Message(bytes_of(n, digits), fds)


def plain(text):
    """The same words, where each number behind 0x is in decimal digits."""
    return [str(int(it, 16)) if re.fullmatch(r"0x[0-9a-fA-F]+", it) else it for it in text.split(" ")]


def expect(wanted, met):
    """Compares texts word by word, where two ways to write a number are equal."""
    if plain(wanted) != plain(met):
        raise Differs(wanted, met)
