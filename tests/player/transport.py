# SPDX-License-Identifier: Apache-2.0
"""What is on its way to a session, as a Unix socket keeps it."""
from words import Message


class Transport:
    """Bytes on their way, some with file descriptors."""

    def __init__(self):
        self.bytes = b""
        self.fds = {}

    def put(self, message):
        """Puts a message behind the others. Descriptors without a byte go nowhere."""
        if message.bytes and message.fds:
            self.fds[len(self.bytes)] = message.fds
        self.bytes += message.bytes

    def read(self, room):
        """One read: up to the next byte that brings descriptors, since the system ends a read there."""
        fds = self.fds.pop(0, [])
        count = min([room, len(self.bytes), *self.fds])
        message = Message(self.bytes[:count], fds)
        self.bytes = self.bytes[count:]
        self.fds = {at - count: it for at, it in self.fds.items()}
        return message

    def left(self):
        """All that was not read, as a text, which is then gone."""
        text = ""
        while self.bytes:
            text += self.read(len(self.bytes)).text()
        return text
