# SPDX-License-Identifier: Apache-2.0
"""Scripts: the sessions of a file, what each is set to, and its steps."""
import re
from dataclasses import dataclass, field

from words import Unreadable, count_of, fds_in, number_of

PROFILES = ("standard", "vhost")

# All kinds of sessions, and which have each setting.
PEERS = ("served", "asking", "joined", "reverse", "reverse_served", "reverse_asking", "display")
KINDS = (*PEERS, "lines")
SETTINGS = {
    "for": PEERS,
    "over": ("served", "joined"),
    "queues": ("asking", "joined"),
    "profile": ("served", "asking", "joined"),
    "short_reads": PEERS,
    "peer_short_reads": ("joined", "reverse"),
    "explained": ("lines",),
    "comments": ("lines",),
}

# The words of before, which are read as well until the next version.
OLD_WORDS = {"cuts": "short_reads", "serving_cuts": "peer_short_reads"}


@dataclass
class Session:
    """A session: its kind, its title, what it is set to, and its steps, each with the number of its line."""

    number: int
    kind: str
    title: str
    range: range = range(1)
    over: str = ""
    spare: list = field(default_factory=list)
    queues: int = 2
    profile: str = "vhost"
    short_reads: str = ""
    peer_short_reads: str = ""
    explained: bool = False
    comments: bool = False
    steps: list = field(default_factory=list)

    def take(self, number, line):
        """Reads a line as a setting, where it is one and stands before the first step; else as a step."""
        word, _, rest = line.partition(" ")
        word = OLD_WORDS.get(word, word)
        if self.steps or word not in SETTINGS:
            self.steps.append((number, line))
            return
        if self.kind not in SETTINGS[word]:
            raise Unreadable("what such a session has", word)
        getattr(self, f"set_{word}", lambda text: self.set_text(word, text))(rest)

    def set_for(self, text):
        """It is played for each number of a range, as `n 12..32`."""
        found = re.fullmatch(r"n (\w+)\.\.(\w+)", text)
        self.range = range(number_of(found[1]), number_of(found[2])) if found else range(0)
        if not self.range:
            raise Unreadable("a range", text)

    def set_over(self, text):
        """Its device: one that the script gives, or the example device with file descriptors to give out."""
        self.over, _, fds = text.partition(" ")
        self.spare, rest = fds_in(fds)
        if self.over not in ("scripted", "dummy") or rest or fds and self.over == "scripted":
            raise Unreadable("a device", text)

    def set_queues(self, text):
        """How many rings the device has, as its frontend knows."""
        self.queues = number_of(text)

    def set_explained(self, _text):
        """A line that is none says why."""
        self.explained = True

    def set_comments(self, _text):
        """Lines that say nothing are passed over; a line that is none says why, and what fails is status 4."""
        self.comments = True

    def set_text(self, word, text):
        """A profile, or short reads, which are counted anew for each number."""
        if word == "profile" and text not in PROFILES:
            raise Unreadable("a profile", text)
        if word.endswith("short_reads"):
            short_reads_of(0, text)
        setattr(self, word, text)


def short_reads_of(n, text):
    """How many bytes the calls of a link move at most, one after another."""
    short_reads = []
    for word in text.split():
        word, star, count = word.partition("*")
        short_reads += [count_of(n, word)] * (count_of(n, count) if star else 1)
    return short_reads


class Bad(Exception):
    """Which line of a file was not met, and why; whether it ends the file, since it can't be read."""

    def __init__(self, number, miss):
        super().__init__(str(miss))
        self.number = number
        self.ends = isinstance(miss, Unreadable)


def begin(number, header):
    """A session of a kind and a title."""
    kind, _, title = header.partition(" ")
    if kind not in KINDS or not title:
        raise Unreadable("a kind of session and its title", header)
    return Session(number, kind, title)


def read_sessions(text):
    """The sessions of a file, in order. Its steps are not read yet."""
    sessions = []
    for number, line in enumerate(text.split("\n"), 1):
        if not line or line.startswith("#"):
            continue
        try:
            if line.startswith("session "):
                sessions.append(begin(number, line[8:]))
            elif not sessions:
                raise Unreadable("a session", line)
            else:
                sessions[-1].take(number, line)
        except Unreadable as miss:
            raise Bad(number, miss) from None
    return sessions
