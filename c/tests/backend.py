"""A backend of a few lines, at a Unix socket, for one frontend that passes descriptors: backend.py PATH.

Prints what it was asked, with what the descriptors hold that came along. Each reply goes out in two pieces.
"""

import os
import socket
import struct
import sys
import tempfile
import time

HEADER = struct.Struct("<III")
NEED_REPLY, REPLY, VERSION = 8, 4, 1
FEATURES = 1 << 30 | 3
PROTOCOL_FEATURES = 1 | 1 << 3 | 1 << 9 | 1 << 12 | 1 << 15
NAMES = {
    1: "GET_FEATURES",
    2: "SET_FEATURES",
    3: "SET_OWNER",
    5: "SET_MEM_TABLE",
    8: "SET_VRING_NUM",
    9: "SET_VRING_ADDR",
    10: "SET_VRING_BASE",
    11: "GET_VRING_BASE",
    12: "SET_VRING_KICK",
    13: "SET_VRING_CALL",
    15: "GET_PROTOCOL_FEATURES",
    16: "SET_PROTOCOL_FEATURES",
    17: "GET_QUEUE_NUM",
    18: "SET_VRING_ENABLE",
    24: "GET_CONFIG",
    25: "SET_CONFIG",
    31: "GET_INFLIGHT_FD",
    32: "SET_INFLIGHT_FD",
}


def text_at(fd, offset):
    """The text at the beginning of a region."""
    return os.pread(fd, 64, offset).rstrip(b"\0").decode()


def receive(sock):
    """A request: its code, its flags, its body and its descriptors. None at the end."""
    head, fds, _, _ = socket.recv_fds(sock, HEADER.size, 32)
    if not head:
        return None
    while len(head) < HEADER.size:
        head += sock.recv(HEADER.size - len(head))
    code, flags, size = HEADER.unpack(head)
    body = b""
    while len(body) < size:
        body += sock.recv(size - len(body))
    return code, flags, body, fds


def answer(sock, code, body, fds=()):
    """Sends a reply in two pieces, its descriptors with the first."""
    text = HEADER.pack(code, VERSION | REPLY, len(body)) + body
    socket.send_fds(sock, [text[:5]], fds)
    time.sleep(0.01)
    sock.sendall(text[5:])


class Backend:
    """What was set."""

    def __init__(self):
        self.rings = {}
        self.config = b""
        self.kick = None

    def reply(self, code, body, fds):
        """The reply to a request, with descriptors; or whether it succeeded."""
        if code == 1:
            return struct.pack("<Q", FEATURES), ()
        if code == 15:
            return struct.pack("<Q", PROTOCOL_FEATURES), ()
        if code == 17:
            return struct.pack("<Q", 2), ()
        if code == 11:
            index = struct.unpack("<I", body[:4])[0]
            return struct.pack("<II", index, self.rings[index]), ()
        if code == 24:
            return body[:12] + self.config, ()
        if code == 31:
            return self.give_inflight()
        return self.take(code, body, fds), None

    def give_inflight(self):
        """A file with a text at byte 8."""
        with tempfile.TemporaryFile() as file:
            file.write(b"headroom" + b"in flight")
            file.flush()
            return struct.pack("<QQHH4x", 17, 8, 2, 128), (os.dup(file.fileno()),)

    def take(self, code, body, fds):
        """0 where what a request sets was taken."""
        if code == 5:
            for i, fd in enumerate(fds):
                guest, size, user, offset = struct.unpack_from("<QQQQ", body, 8 + 32 * i)
                print(f"  region {guest:#x} {size:#x} {user:#x}: {text_at(fd, offset)}")
        elif code == 8:
            return int(struct.unpack("<II", body)[1] == 0)
        elif code == 10:
            index, base = struct.unpack("<II", body)
            self.rings[index] = base
        elif code == 12:
            self.kick = os.dup(fds[0])
        elif code == 13:
            self.call = os.dup(fds[0])
        elif code == 25:
            self.config = body[12:]
        elif code == 32:
            print(f"  in flight: {text_at(fds[0], struct.unpack_from('<Q', body, 8)[0])}")
        return 0

    def ring(self):
        """Follows a kick by a call."""
        if os.read(self.kick, 8) == struct.pack("<Q", 1):
            os.write(self.call, struct.pack("<Q", 1))


def main():
    listener = socket.socket(socket.AF_UNIX)
    listener.bind(sys.argv[1])
    listener.listen()
    sock, _ = listener.accept()
    os.unlink(sys.argv[1])
    backend = Backend()
    acknowledges = False
    while request := receive(sock):
        code, flags, body, fds = request
        print(f"{NAMES.get(code, code)} {len(body)} bytes, {len(fds)} descriptors")
        text, given = backend.reply(code, body, fds)
        if given is not None:
            answer(sock, code, text, given)
        elif acknowledges and flags & NEED_REPLY:
            answer(sock, code, struct.pack("<Q", text))
        for fd in (*fds, *(given or ())):
            os.close(fd)
        acknowledges |= code == 16 and bool(body[0] & 1 << 3)
        if code == 18 and backend.kick is not None:
            backend.ring()


main()
