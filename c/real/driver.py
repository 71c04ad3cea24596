# SPDX-License-Identifier: Apache-2.0
"""A driver of virtio devices without a guest: QEMU's protocol for tests writes registers and memory, while the machine's processor
halts. The registers are those of virtio 1.2, 4.1.4, where QEMU has them; a virtqueue is a split one (2.7)."""
import struct

from emulator import Emulator, check, wait_until

# Of the device: QEMU has them where its fifth region begins. A ring's kick is at NOTIFY, four bytes for each.
REGISTERS = 0xE0000000
NOTIFY = REGISTERS + 0x3000
FEATURES_AT, FEATURES, STATUS = REGISTERS + 0x08, REGISTERS + 0x0C, REGISTERS + 0x14
QUEUE, QUEUE_SIZE, QUEUE_ENABLE = REGISTERS + 0x16, REGISTERS + 0x18, REGISTERS + 0x1C
DESCRIPTORS, AVAILABLE, USED = REGISTERS + 0x20, REGISTERS + 0x28, REGISTERS + 0x30
ACKNOWLEDGE, DRIVER, DRIVER_OK, FEATURES_OK = 1, 2, 4, 8
VERSION_1 = 1 << 32

# Flags of a descriptor: another follows; the device writes it.
NEXT, WRITE = 1, 2

PAGE = 4096
SECTOR = 512
READS, WRITES = 0, 1  # the types of a disk's requests


class Halted(Emulator):
    """A machine whose processor halts at its first instructions, so that nobody but the protocol for tests writes to its memory."""

    def __init__(self, name, memory, *words):
        with open("halts", "wb") as it:
            it.write(bytes(65520) + b"\xfa\xf4\xeb\xfd".ljust(16, b"\0"))  # cli; hlt; jmp to hlt
        words += ("-bios", "halts", "-qtest", f"unix:{name}.test,server=on,wait=off", "-qtest-log", "none")
        super().__init__(name, "tcg", memory, *words)
        self.greet()


class Slot:
    """A device in a slot of a machine's bus, and the machine's memory."""

    def __init__(self, machine, slot):
        self.stream = machine.connect(f"{machine.name}.test")
        self.slot = slot

    def do(self, *words):
        self.stream.send(" ".join(map(str, words)))
        told = self.stream.line(f"QEMU does {words[0]}").split()
        check(told and told[0] == "OK", f"QEMU does {words[0]}")
        return told[1:]

    def put(self, at, data):
        self.do("write", at, len(data), f"0x{data.hex()}")

    def get(self, at, length):
        return bytes.fromhex(self.do("read", at, length)[0][2:])

    def configure(self, at, value):
        """Writes a word of the slot's PCI configuration."""
        self.do("outl", 0xCF8, 1 << 31 | self.slot << 11 | at)
        self.do("outl", 0xCFC, value)

    def begin(self, features=VERSION_1):
        """What a driver does before it makes rings (3.1.1): the device is mapped, reset, known, and accepts features."""
        for word, value in ((0x20, REGISTERS), (0x24, 0), (0x04, 6)):
            self.configure(word, value)
        for status in (0, ACKNOWLEDGE, ACKNOWLEDGE | DRIVER):
            self.do("writeb", STATUS, status)
        for half in (0, 1):
            self.do("writel", FEATURES_AT, half)
            self.do("writel", FEATURES, features >> 32 * half & 0xFFFFFFFF)
        self.do("writeb", STATUS, ACKNOWLEDGE | DRIVER | FEATURES_OK)
        accepted = int(self.do("readb", STATUS)[0], 16)
        check(accepted == ACKNOWLEDGE | DRIVER | FEATURES_OK, "QEMU has accepted the features")

    def drive(self):
        """The rings are made: the device begins."""
        self.do("writeb", STATUS, ACKNOWLEDGE | DRIVER | FEATURES_OK | DRIVER_OK)


class Ring:
    """A ring of a disk, and room for as many requests as it has under way: each has a page for its header and its status, and one for its
    data. It lies in the machine's memory from a page on."""

    SIZE = 32  # descriptors
    REQUESTS = SIZE // 3 - 2
    ROOM = (3 + 2 * REQUESTS) * PAGE

    def __init__(self, slot, index, at):
        self.slot, self.index, self.at = slot, index, at
        self.posted = self.taken = 0

    def make(self):
        """Makes it, before the device begins."""
        slot = self.slot
        slot.do("memset", self.at, 3 * PAGE, 0)
        slot.do("writew", QUEUE, self.index)
        slot.do("writew", QUEUE_SIZE, self.SIZE)
        for register, page in ((DESCRIPTORS, 0), (AVAILABLE, 1), (USED, 2)):
            slot.do("writel", register, self.at + page * PAGE)
            slot.do("writel", register + 4, 0)
        slot.do("writew", QUEUE_ENABLE, 1)

    def header(self, request):
        return self.at + (3 + 2 * request) * PAGE

    def data(self, request):
        return self.header(request) + PAGE

    def post(self, request, kind, sector, length, data=None):
        """Makes a request available, with its data in its room or elsewhere. The device is not kicked by it."""
        header, data, status = self.header(request), data or self.data(request), self.header(request) + 16
        first = 3 * request
        pieces = struct.pack("<QIHH", header, 16, NEXT, first + 1)
        pieces += struct.pack("<QIHH", data, length, NEXT | (WRITE if kind == READS else 0), first + 2)
        pieces += struct.pack("<QIHH", status, 1, WRITE, 0)
        self.slot.put(header, struct.pack("<IIQB", kind, 0, sector, 0xEE))
        self.slot.put(self.at + 16 * first, pieces)
        self.slot.put(self.at + PAGE + 4 + 2 * (self.posted % self.SIZE), struct.pack("<H", first))
        self.posted += 1
        self.slot.put(self.at + PAGE + 2, struct.pack("<H", self.posted & 0xFFFF))

    def kick(self):
        self.slot.do("writew", NOTIFY + 4 * self.index, self.index)

    def used(self):
        """How many requests the device has given back, modulo 2^16."""
        return struct.unpack("<H", self.slot.get(self.at + 2 * PAGE + 2, 2))[0]

    def take(self):
        """Waits for a request that the device gives back, which has to have succeeded: its number."""
        wait_until(lambda: self.used() != self.taken & 0xFFFF, f"ring {self.index} gives request {self.taken} back")
        head, _ = struct.unpack("<II", self.slot.get(self.at + 2 * PAGE + 4 + 8 * (self.taken % self.SIZE), 8))
        self.taken += 1
        check(head % 3 == 0 and head < self.SIZE, "the device gives back what was posted")
        check(self.slot.get(self.header(head // 3) + 16, 1) == b"\0", "the request succeeded")
        return head // 3

    def read(self, sector, length):
        self.slot.put(self.data(0), b"\xdd" * length)
        self.post(0, READS, sector, length)
        self.kick()
        check(self.take() == 0, "the device gives back what was posted")
        return self.slot.get(self.data(0), length)

    def write(self, sector, data):
        self.slot.put(self.data(0), data)
        self.post(0, WRITES, sector, len(data))
        self.kick()
        check(self.take() == 0, "the device gives back what was posted")

    def check_idle(self):
        """The device has given back all that was posted, and no more."""
        check(self.used() == self.taken & 0xFFFF == self.posted & 0xFFFF, "all that was posted was given back, once")
