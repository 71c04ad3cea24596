# SPDX-License-Identifier: Apache-2.0
"""A network that this process has for itself, in which a bridge joins the taps of cards; and what the recording of a card has of pings."""
import ctypes
import fcntl
import os
import socket
import struct

NEW_NETWORK = 0x40000000  # of unshare
ADD_BRIDGE, ADD_PORT, INDEX_OF, FLAGS_OF, SET_FLAGS = 0x89A0, 0x89A2, 0x8933, 0x8913, 0x8914  # of ioctl
IS_UP = 1

IPV4, RARP = 0x0800, 0x8035
ICMP = 1
ANSWERS, ASKS = 0, 8


class Bridge:
    """A bridge in a network namespace, which goes with this process and those that it starts from then on. OSError: there may be none."""

    NAME = "bridge"

    def __init__(self):
        libc = ctypes.CDLL(None, use_errno=True)
        if libc.unshare(NEW_NETWORK):
            raise OSError(ctypes.get_errno(), "no network namespace may be made")
        with open("/dev/net/tun", "r+b", buffering=0):
            self.socket = socket.socket(socket.AF_INET, socket.SOCK_DGRAM)
        fcntl.ioctl(self.socket, ADD_BRIDGE, self.NAME.encode().ljust(16, b"\0"))
        self.turn_on(self.NAME)

    def number_of(self, interface, what):
        return struct.unpack_from("i", fcntl.ioctl(self.socket, what, struct.pack("16si12x", interface.encode(), 0)), 16)[0]

    def turn_on(self, interface):
        flags = self.number_of(interface, FLAGS_OF) & 0xFFFF
        fcntl.ioctl(self.socket, SET_FLAGS, struct.pack("16sH14x", interface.encode(), flags | IS_UP))

    def join(self, tap):
        """A tap that is there is one of its ports from now on."""
        fcntl.ioctl(self.socket, ADD_PORT, struct.pack("16si12x", self.NAME.encode(), self.number_of(tap, INDEX_OF)))
        self.turn_on(tap)


def frames_of(path):
    """The frames that a card has recorded so far; it may be about to write the next."""
    with open(path, "rb") as it:
        it.seek(24)
        while len(head := it.read(16)) == 16:
            size = struct.unpack("<IIII", head)[2]
            frame = it.read(size)
            if len(frame) < size:
                return
            yield frame


class Pings:
    """What the recording of a card has of the pings of its guest to another, by their numbers, and of where that one is told to be."""

    def __init__(self, path, guest, other, address):
        self.asked, self.answered = [], set()
        self.told = None  # how many were asked when it was first told
        ways = {(guest, other, ASKS): self.asked.append, (other, guest, ANSWERS): self.answered.add}
        for frame in frames_of(path):
            kind = int.from_bytes(frame[12:14], "big")
            if kind == RARP and frame[6:12] == address and self.told is None:
                self.told = len(self.asked)
            if kind == IPV4 and frame[23] == ICMP:
                way = (socket.inet_ntoa(frame[26:30]), socket.inet_ntoa(frame[30:34]), frame[34])
                ways.get(way, lambda number: None)(int.from_bytes(frame[40:42], "big"))

    def lost(self):
        """Those that were not answered, though a later one was; in order."""
        last = max(self.answered, default=0)
        return [number for number in self.asked if number not in self.answered and number < last]
