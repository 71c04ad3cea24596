#!/usr/bin/env python3
# SPDX-License-Identifier: Apache-2.0
"""A source of entropy that keeps the protocol, but for one fault: faulty.py --socket-path=SOCKET [FAULT [IMAGE]], or --fd=NUMBER of a
connected one

Each FAULT is a word below, where it is planted. Without one the checker finds nothing in it. Its configuration says how great IMAGE is.
"""
import ctypes
import fcntl
import mmap
import os
import select
import signal
import socket
import struct
import sys
import threading
import time

NAMES = """GET_FEATURES SET_FEATURES SET_OWNER RESET_OWNER SET_MEM_TABLE SET_LOG_BASE SET_LOG_FD SET_VRING_NUM SET_VRING_ADDR SET_VRING_BASE
GET_VRING_BASE SET_VRING_KICK SET_VRING_CALL SET_VRING_ERR GET_PROTOCOL_FEATURES SET_PROTOCOL_FEATURES GET_QUEUE_NUM SET_VRING_ENABLE SEND_RARP
NET_SET_MTU SET_BACKEND_REQ_FD IOTLB_MSG SET_VRING_ENDIAN GET_CONFIG SET_CONFIG CREATE_CRYPTO_SESSION CLOSE_CRYPTO_SESSION POSTCOPY_ADVISE
POSTCOPY_LISTEN POSTCOPY_END GET_INFLIGHT_FD SET_INFLIGHT_FD GPU_SET_SOCKET RESET_DEVICE VRING_KICK GET_MAX_MEM_SLOTS ADD_MEM_REG REM_MEM_REG
SET_STATUS GET_STATUS GET_SHARED_OBJECT SET_DEVICE_STATE_FD CHECK_DEVICE_STATE""".split()
LOG_ALL, PROTOCOL_FEATURES = 1 << 26, 1 << 30
INDIRECT_TABLES, IOMMU, PACKED = 1 << 28, 1 << 33, 1 << 34
FEATURES = LOG_ALL | PROTOCOL_FEATURES | INDIRECT_TABLES | 1 << 32 | IOMMU | PACKED
REPLY_ACK, BACKEND_REQ, PAGEFAULT, IN_BAND, GUEST_ADDRESSES = 1 << 3, 1 << 5, 1 << 8, 1 << 14, 1 << 21
# MQ, LOG_SHMFD, REPLY_ACK, BACKEND_REQ, PAGEFAULT, CONFIG, INFLIGHT_SHMFD, RESET_DEVICE, INBAND_NOTIFICATIONS, CONFIGURE_MEM_SLOTS, STATUS,
# DEVICE_STATE, GPA_ADDRESSES
PROTOCOL = sum(1 << bit for bit in (0, 1, 3, 5, 8, 9, 12, 13, 14, 15, 16, 19, 21))
# Of the backend's channel and of an IOTLB message; and of the display.
IOTLB_MSG, CONFIG_CHANGE, VRING_CALL = 1, 2, 4
MISS, UPDATE = 1, 2
DISPLAY_FEATURES = 1
NEED_REPLY, REPLY, VERSION = 8, 4, 1
NEXT, WRITE, INDIRECT = 1, 2, 4
AVAILABLE, USED = 1 << 7, 1 << 15
PAGE = 4096
SLOTS = 32
SPACE = 16
UFFDIO_API, UFFDIO_REGISTER, UFFDIO_UNREGISTER = 0xc018aa3f, 0xc020aa00, 0x8010aa01
BUFFERS = 0x20000
USERFAULTFD = {"x86_64": 323, "aarch64": 282}[os.uname().machine]
FAULT = sys.argv[2] if len(sys.argv) > 2 else ""
IMAGE = sys.argv[3] if len(sys.argv) > 3 else None
FETCH_OR = getattr(ctypes.CDLL("libatomic.so.1"), "__atomic_fetch_or_1")
SEQUENTIALLY = 5


class Refused(Exception):
    """The request is wrong."""


class Gone(Exception):
    """The connection has ended, or has to."""


def need(holds):
    if not holds:
        raise Refused


def close(descriptors):
    for it in descriptors:
        os.close(it)


class Region:
    def __init__(self, values, descriptor):
        self.guest, self.size, self.user, offset = values
        need(0 < self.size < 1 << 40 and self.guest + self.size < 1 << 64 and offset % PAGE == 0)
        try:
            need(offset + self.size <= os.fstat(descriptor).st_size)
            self.map = mmap.mmap(descriptor, self.size, offset=offset)
        except (OSError, ValueError, OverflowError) as cause:
            raise Refused from cause

    def place(self):
        return ctypes.addressof(ctypes.c_char.from_buffer(self.map))


class Ring:
    def __init__(self):
        self.size, self.base, self.used, self.places, self.log = 0, 0, 0, None, None
        self.behind = None
        self.kick = self.call = self.error = None
        self.enabled = self.started = self.broken = False
        self.taken = 0
        self.wrap, self.used_wrap, self.inflight, self.region = 1, 1, None, None

    def go_on(self, count, forgets=False):
        """In a packed ring: so many descriptors further, and over its end."""
        self.base += count
        if self.base >= self.size:
            self.base -= self.size
            self.wrap ^= 0 if forgets else 1

    def close(self):
        close([it for it in (self.kick, self.call, self.error) if it is not None])


class Session:
    """A connection of a frontend."""

    def __init__(self, connection):
        self.connection, self.features, self.protocol, self.status = connection, 0, 0, 0
        self.regions, self.rings, self.log, self.channel, self.userfault = [], [Ring()], None, None, None
        self.listening = self.awaiting = self.accepted = False
        self.pages, self.state, self.lock, self.works = {}, None, threading.RLock(), False

    # The stream of messages.

    def read(self, count, descriptors, whole=True):
        data = b""
        while len(data) < count:
            if not whole and not select.select([self.connection], [], [], 0)[0]:
                raise Gone
            part, more, _, _ = socket.recv_fds(self.connection, count - len(data), 32)
            descriptors += more
            if not part:
                raise Gone
            data += part
        return data

    def send(self, code, body, descriptors=()):
        head = struct.pack("<III", code, VERSION | REPLY, len(body))
        socket.send_fds(self.connection, [head + body], descriptors)

    def next(self):
        descriptors = []
        try:
            code, flags, size = struct.unpack("<III", self.read(12, descriptors))
            if flags & 7 != VERSION or flags >> 4 or size > 4096:
                raise Gone
            body = self.read(size, descriptors, whole=FAULT != "a body in parts is refused")
        except Gone:
            close(descriptors)
            raise
        self.take(code, flags, body, descriptors)

    def take(self, code, flags, body, descriptors):
        name = NAMES[code - 1] if 0 < code <= len(NAMES) else "unknown"
        if name == "unknown" and FAULT == "it waits for ever":
            while True:
                pass
        reply, given, result = None, (), 0
        try:
            call = getattr(self, name.lower(), None)
            need(call)
            reply = call(body, descriptors)
        except (Refused, struct.error):
            result = 1
        finally:
            if FAULT != "a descriptor is kept" or name != "REM_MEM_REG":
                close(descriptors)
        if isinstance(reply, tuple):
            reply, given = reply
        if result and name.startswith(("GET_", "SET_LOG_BASE", "POSTCOPY_ADVISE", "POSTCOPY_END")):
            raise Gone
        self.answer(code, name, flags, reply, given, result)
        close(given)

    def answer(self, code, name, flags, reply, given, result):
        if reply is not None:
            early = FAULT == "memory is touched before the acknowledgement" and name == "SET_MEM_TABLE"
            if FAULT == "a reply is too short" and name == "GET_QUEUE_NUM":
                reply = reply[:4]
            self.send(1 if FAULT == "a reply of another request" and name == "GET_MAX_MEM_SLOTS" else code, reply, given)
            if early:
                struct.unpack("<H", self.regions[0].map[BUFFERS:BUFFERS + 2])
            return
        wanted = flags & NEED_REPLY and self.protocol & REPLY_ACK and not (FAULT == "no acknowledgement" and name == "SET_VRING_ERR")
        if wanted or FAULT == "an acknowledgement that nobody wants" and name == "RESET_DEVICE":
            self.send(code, struct.pack("<Q", result))
            if FAULT == "an acknowledgement twice" and name == "SET_VRING_BASE":
                self.send(code, struct.pack("<Q", result))

    # Features.

    def get_features(self, _body, _descriptors):
        Session.asked += 1
        return struct.pack("<Q", FEATURES ^ (1 << 35 if FAULT == "features change" and Session.asked % 2 else 0))

    def set_features(self, body, _descriptors):
        (features,) = struct.unpack("<Q", body)
        need(not features & ~(FEATURES | 1 << 35))
        self.features, self.accepted = features, True
        if not features & PROTOCOL_FEATURES:
            self.rings[0].enabled = FAULT != "a ring without bit 30 stays disabled"

    def get_protocol_features(self, _body, _descriptors):
        return struct.pack("<Q", PROTOCOL)

    def set_protocol_features(self, body, _descriptors):
        (features,) = struct.unpack("<Q", body)
        need(not features & ~PROTOCOL)
        if features & IN_BAND and ~features & (BACKEND_REQ | REPLY_ACK):
            raise Gone
        self.protocol = features

    def set_owner(self, _body, _descriptors):
        pass

    reset_owner = set_owner

    def get_queue_num(self, _body, _descriptors):
        return struct.pack("<Q", 1)

    # Memory.

    def add(self, values, descriptor):
        region = Region(values, descriptor)
        for other in self.regions:
            need(region.guest >= other.guest + other.size or other.guest >= region.guest + region.size)
            need(region.user >= other.user + other.size or other.user >= region.user + region.size)
        self.regions.append(region)
        return region

    def set_mem_table(self, body, descriptors):
        if self.awaiting:
            self.awaiting = False
            return None
        count, _ = struct.unpack("<II", body[:8])
        need(count <= SLOTS and len(body) == 8 + 32 * count and len(descriptors) == count)
        values = [struct.unpack("<QQQQ", body[8 + 32 * at:40 + 32 * at]) for at in range(count)]
        before, self.regions = self.regions, []
        if FAULT == "old memory stays mapped":
            KEPT.extend(before)
        for each, descriptor in zip(values, descriptors):
            self.add(each, descriptor)
        return self.bases(body, 8) if self.listening else None

    def bases(self, body, at):
        """In postcopy: where the regions are mapped."""
        self.awaiting = True
        out = bytearray(body)
        for region in self.regions if at == 8 else self.regions[-1:]:
            if FAULT != "the frontend's addresses":
                out[at + 16:at + 24] = struct.pack("<Q", region.place())
            if FAULT != "memory is not registered":
                fcntl.ioctl(self.userfault, UFFDIO_REGISTER, struct.pack("<QQQQ", region.place(), region.size, 1, 0))
            at += 32
        return bytes(out)

    def get_max_mem_slots(self, _body, _descriptors):
        return struct.pack("<Q", SLOTS)

    def add_mem_reg(self, body, descriptors):
        if self.awaiting:
            self.awaiting = False
            return None
        need(len(body) == 40 and len(descriptors) == 1 and len(self.regions) < SLOTS)
        self.add(struct.unpack("<QQQQ", body[8:]), descriptors[0])
        return self.bases(body, 8) if self.listening else None

    def rem_mem_reg(self, body, _descriptors):
        need(len(body) == 40)
        guest, size, user, _ = struct.unpack("<QQQQ", body[8:])
        found = [it for it in self.regions if (it.guest, it.size, it.user) == (guest, size, user)]
        need(found)
        self.regions.remove(found[0])

    # Rings.

    def ring(self, body, form="<II"):
        index, value = struct.unpack(form, body)
        if index and FAULT == "a ring that is not there crashes":
            os.kill(os.getpid(), signal.SIGSEGV)
        need(index < len(self.rings))
        return self.rings[index], value

    def set_vring_num(self, body, _descriptors):
        ring, size = self.ring(body)
        need(0 < size <= 32768 and not size & size - 1)
        ring.size = size

    def set_vring_base(self, body, _descriptors):
        ring, base = self.ring(body)
        ring.base = ring.used = base & 0xffff
        if self.features & PACKED:
            ring.base, ring.wrap = base & 0x7fff, base >> 15 & 1
            ring.used, ring.used_wrap = base >> 16 & 0x7fff, base >> 31

    def set_vring_addr(self, body, _descriptors):
        index, flags, table, used, available, log = struct.unpack("<IIQQQQ", body)
        need(index < len(self.rings))
        ring, addresses = self.rings[index], (table, available, used)
        ring.log, ring.behind, ring.places = log if flags & 1 else None, None, None
        if self.features & IOMMU and FAULT != "rings are not translated":
            ring.behind = addresses
        else:
            ring.places = [self.of_user(it) for it in addresses]

    def get_vring_base(self, body, _descriptors):
        ring, _ = self.ring(body)
        if FAULT != "a stopped ring is served":
            ring.started = False
        base = 0 if FAULT == "the base is not counted" else ring.base
        if self.features & PACKED:
            base |= ring.wrap << 15
            base |= 0 if FAULT == "a packed base of one index" else base << 16
        return struct.pack("<II", 0, base)

    def event(self, body, descriptors):
        (value,) = struct.unpack("<Q", body)
        need(value & 0xff < len(self.rings) and value >> 9 == 0 and len(descriptors) == (0 if value & 256 else 1))
        kept = os.dup(descriptors[0]) if descriptors else None
        return self.rings[value & 0xff], kept

    def set_vring_kick(self, body, descriptors):
        ring, kept = self.event(body, descriptors)
        if ring.kick is not None:
            os.close(ring.kick)
        ring.kick, ring.started, ring.broken = kept, True, False
        if FAULT == "what was enabled is forgotten":
            ring.enabled = False
        if self.features & PACKED and ring.inflight and FAULT != "what was under way is forgotten":
            self.resubmit(ring)
        if not self.features & PACKED and ring.region is not None and ring.places:
            self.take_up(ring)
        self.process(ring)

    def take_up(self, ring):
        """Carries out what the region of a split ring says is under way, in the order of its counters."""
        (table, at), _, (used, last) = ring.places
        (ring.used,) = struct.unpack("<H", used[last + 2:last + 4])
        batch, seen = struct.unpack("<HH", ring.region[12:16])
        if seen != ring.used and batch < ring.size and FAULT != "what was used is used again":
            ring.region[16 + 16 * batch] = 0
        ring.region[14:16] = struct.pack("<H", ring.used)
        entries = [(ring.region[16 + 16 * it], struct.unpack("<Q", ring.region[24 + 16 * it:32 + 16 * it])[0], it) for it in range(ring.size)]
        heads = [head for under_way, _, head in sorted(entries, key=lambda it: it[1]) if under_way]
        ring.base = ring.used + len(heads) & 0xffff
        if FAULT == "what was under way in a split ring is forgotten":
            return
        for head in heads:
            self.finish(ring, head)

    def finish(self, ring, head):
        """Carries out a request of a split ring, and says so."""
        (table, at), _, (used, last) = ring.places
        filled = self.fill(table, at, ring.size, head)
        slot = last + 4 + 8 * (ring.used % ring.size)
        used[slot:slot + 8] = struct.pack("<II", head, filled)
        ring.used = ring.used + 1 & 0xffff
        if ring.region is not None:
            ring.region[12:14] = struct.pack("<H", head)
        used[last + 2:last + 4] = struct.pack("<H", ring.used)
        if ring.log is not None:
            self.mark(ring.log + 4 + 8 * (ring.used % ring.size))
            self.mark(ring.log + 2)
        if FAULT == "what was used is used again":
            time.sleep(0.02)
        if ring.region is not None:
            ring.region[16 + 16 * head] = 0
            ring.region[14:16] = struct.pack("<H", ring.used)
        if FAULT != "the call is not signalled":
            self.signal(ring)

    def signal(self, ring):
        if ring.call is not None:
            os.eventfd_write(ring.call, 1)
        elif self.protocol & IN_BAND and self.channel is not None and FAULT != "a call is no message":
            self.ask(VRING_CALL, struct.pack("<II", 0, 0))

    def resubmit(self, ring):
        """Carries out what the region of a packed ring says is under way, in the order of its counters."""
        (table, at), _, _ = ring.places
        part, ring.inflight = ring.inflight, None
        entries = [struct.unpack("<BxHHHQHHIQ", part[32 + 32 * it:64 + 32 * it]) for it in range(ring.size)]
        for head in sorted((it for it in entries if it[0]), key=lambda it: it[4]):
            entry, filled = head, 0
            for _ in range(head[3]):
                filled += self.fill_buffer(entry[8], entry[7], entry[6])
                entry = entries[entry[1] % ring.size]
            self.write_used(table, at + 16 * ring.used, filled, head[5], ring.used_wrap)
            ring.used += head[3]

    def write_used(self, table, slot, filled, number, wrap):
        table[slot:slot + 14] = struct.pack("<QIH", 0, filled, number)
        table[slot + 14:slot + 16] = struct.pack("<H", AVAILABLE | USED if wrap else 0)

    def set_vring_call(self, body, descriptors):
        ring, kept = self.event(body, descriptors)
        if ring.call is not None and FAULT != "old calls are kept":
            os.close(ring.call)
        ring.call = kept

    def set_vring_err(self, body, descriptors):
        ring, kept = self.event(body, descriptors)
        if ring.error is not None:
            os.close(ring.error)
        ring.error = kept

    def set_vring_enable(self, body, _descriptors):
        ring, value = self.ring(body)
        need(value < 2)
        ring.enabled = bool(value)
        self.process(ring)

    def vring_kick(self, body, _descriptors):
        ring, _ = self.ring(body)
        ring.started = True
        self.process(ring)

    def iotlb_msg(self, body, _descriptors):
        at, size, user, _, kind = struct.unpack("<QQQBB6x", body)
        if kind == UPDATE:
            self.pages.update({at + it: user + it for it in range(0, size, PAGE)})
        elif FAULT != "an old translation is used":
            self.pages = {page: user for page, user in self.pages.items() if not at <= page < at + size}
            self.rings[0].places = None
        return struct.pack("<Q", 0)

    def of_iova(self, address, length):
        """By what the frontend tells of a page, which it is asked for."""
        page = address - address % PAGE
        need(address + length <= page + PAGE and self.channel is not None)
        if page not in self.pages:
            self.ask(IOTLB_MSG, struct.pack("<QQQBB6x", page, 0, 0, 3, MISS))
        while page not in self.pages:
            self.next()
        return self.of_user(self.pages[page] + address % PAGE)

    def ask(self, code, body):
        """Asks the frontend on its channel."""
        os.write(self.channel, struct.pack("<III", code, VERSION, len(body)) + body)

    def of_user(self, address):
        if self.protocol & GUEST_ADDRESSES and FAULT == "addresses of the guest are not taken":
            raise Refused
        for it in self.regions:
            if it.user <= address < it.user + it.size:
                return it.map, address - it.user
        raise Refused

    def of_guest(self, address, length):
        if self.features & IOMMU:
            return self.of_iova(address, length)
        for it in self.regions:
            if it.guest <= address and address + length <= it.guest + it.size:
                return it.map, address - it.guest
        raise Refused

    def process(self, ring):
        """Carries out what is available, where the ring is started and enabled."""
        enabled = ring.enabled or FAULT == "a disabled ring is served"
        if not (ring.started and enabled and (ring.places or ring.behind) and ring.size) or ring.broken:
            return
        if FAULT == "a stop does not wait" and self.userfault is not None:
            threading.Thread(target=self.work, args=(ring,), daemon=True).start()
        else:
            self.work(ring)

    def work(self, ring):
        with self.lock:
            # (who awaits a translation takes other requests meanwhile)
            if not self.works:
                self.works = True
                self.serve(ring)
                self.works = False

    def serve(self, ring):
        if FAULT == "a ring waits for its region" and ring.region is None:
            return
        try:
            if ring.places is None:
                ring.places = [self.of_iova(it, 1) for it in ring.behind]
            if self.features & PACKED:
                self.carry_out_packed(ring)
            else:
                self.carry_out(ring)
        except (Refused, struct.error, ValueError):
            ring.broken = True
            if ring.error is not None:
                os.eventfd_write(ring.error, 1)

    def carry_out(self, ring):
        _, (available, first), _ = ring.places
        (index,) = struct.unpack("<H", available[first + 2:first + 4])
        need((index - ring.base) % 65536 <= ring.size)
        while ring.base != index:
            slot = first + 4 + 2 * (ring.base % ring.size)
            (head,) = struct.unpack("<H", available[slot:slot + 2])
            if ring.region is not None and head < ring.size:
                ring.taken += 1
                ring.region[24 + 16 * head:32 + 16 * head] = struct.pack("<Q", ring.taken)
                ring.region[16 + 16 * head] = 1
            if FAULT == "what was under way in a split ring is forgotten":
                time.sleep(0.02)
            ring.base = ring.base + 1 & 0xffff
            self.finish(ring, head)

    def carry_out_packed(self, ring):
        (table, at), (driver, event), _ = ring.places
        while True:
            slot = at + 16 * ring.base
            (flags,) = struct.unpack("<H", table[slot + 14:slot + 16])
            available, used = bool(flags & AVAILABLE), bool(flags & USED)
            if available == used or available != bool(ring.wrap) and FAULT != "wrap bits are not looked at":
                return
            filled, count, number = self.fill_packed(ring, table, at)
            need(number < ring.size)
            number = ring.base if FAULT == "a packed id is the place" else number
            self.write_used(table, slot, filled, number, ring.wrap)
            ring.go_on(count, FAULT == "the wrap counter stays")
            (wanted,) = struct.unpack("<H", driver[event + 2:event + 4])
            if wanted != 1 or FAULT == "calls that are not wanted":
                self.signal(ring)

    def fill_packed(self, ring, table, at):
        """How many bytes it has filled, of how many descriptors, and the id of the last."""
        filled, count = 0, 0
        while count < ring.size or FAULT == "a packed chain may be endless":
            place = at + 16 * ((ring.base + count) % ring.size)
            address, length, number, flags = struct.unpack("<QIHH", table[place:place + 16])
            count += 1
            if flags & INDIRECT and FAULT != "a table is a buffer":
                need(not flags & NEXT)
                filled += self.fill_table(address, length)
            else:
                filled += self.fill_buffer(address, length, flags | (WRITE if flags & INDIRECT else 0))
            if not flags & NEXT:
                return filled, count, number
        raise Refused

    def fill_table(self, address, length):
        if length % 16 and FAULT == "a wrong table crashes":
            os.kill(os.getpid(), signal.SIGSEGV)
        need(length and not length % 16 and length <= 16 * SLOTS)
        table, at = self.of_guest(address, length)
        filled = 0
        for place in range(at, at + length, 16):
            address, length, _, flags = struct.unpack("<QIHH", table[place:place + 16])
            need(not flags & INDIRECT)
            filled += self.fill_buffer(address, length, flags)
        return filled

    def fill_buffer(self, address, length, flags):
        need(length)
        if not flags & WRITE:
            return 0
        place, offset = self.of_guest(address, length)
        place[offset:offset + length] = os.urandom(length)
        self.mark(address, length)
        return length

    def put(self, place, offset, data):
        if FAULT == "a stop does not wait":
            # (other threads go on meanwhile)
            ctypes.memmove(ctypes.addressof(ctypes.c_char.from_buffer(place)) + offset, data, len(data))
        else:
            place[offset:offset + len(data)] = data

    def fill(self, table, at, size, head):
        filled = 0
        for _ in range(size):
            need(head < size)
            address, length, flags, following = struct.unpack("<QIHH", table[at + 16 * head:at + 16 * head + 16])
            need(not flags & 4 and length)
            if flags & WRITE:
                self.put(*self.of_guest(address, length), os.urandom(length))
                self.mark(address, length)
                filled += length
            if not flags & NEXT:
                return filled
            head = following
        raise Refused

    # The log.

    def set_log_base(self, body, descriptors):
        size, offset = struct.unpack("<QQ", body)
        need(len(descriptors) == 1 and 0 < size < 1 << 40 and offset % PAGE == 0)
        try:
            self.log = mmap.mmap(descriptors[0], size, offset=offset)
        except (OSError, ValueError, OverflowError) as cause:
            raise Refused from cause
        return b""

    def set_log_fd(self, _body, _descriptors):
        if FAULT == "an eventfd of the log ends it":
            self.log = None

    def mark(self, address, length=1):
        if self.log is None or not self.features & LOG_ALL or FAULT == "pages are not marked":
            return
        for page in range(address // PAGE, (address + length - 1) // PAGE + 1):
            if page // 8 >= len(self.log):
                continue
            if FAULT == "a page is marked in two steps":
                marks = self.log[page // 8]
                time.sleep(0.0001)
                self.log[page // 8] = marks | 1 << page % 8
            else:
                place = ctypes.c_char.from_buffer(self.log, page // 8)
                FETCH_OR(ctypes.byref(place), 1 << page % 8, SEQUENTIALLY)

    # The configuration space, the status, and a reset.

    def get_config(self, body, _descriptors):
        offset, size, flags = struct.unpack("<III", body[:12])
        if offset + size > SPACE or len(body) != 12 + size:
            return b""
        if FAULT == "a configuration of another size":
            size -= 1
        return struct.pack("<III", offset, size, flags) + bytes(CONFIGURATION[offset:offset + size])

    def set_config(self, body, _descriptors):
        offset, size, flags = struct.unpack("<III", body[:12])
        need(offset + size <= SPACE and len(body) == 12 + size and (flags == 1 or FAULT == "a read-only field is written"))
        CONFIGURATION[offset:offset + size] = body[12:]

    def look(self):
        """Whether the image is as great as it was."""
        size = struct.pack("<Q", os.stat(IMAGE).st_size // 512)
        if size == SEEN[0]:
            return
        SEEN[0] = size
        if FAULT != "a change is told of that is not there":
            CONFIGURATION[:8] = size
        if self.channel is not None:
            self.ask(CONFIG_CHANGE, b"")

    def get_status(self, _body, _descriptors):
        return struct.pack("<Q", 0 if FAULT == "the status is forgotten" else self.status)

    def set_status(self, body, _descriptors):
        (self.status,) = struct.unpack("<Q", body)

    def reset_device(self, _body, _descriptors):
        if FAULT != "a reset leaves the rings":
            self.rings[0].close()
            self.rings, self.status = [Ring()], 0

    # The channel, the inflight region, and postcopy.

    def set_backend_req_fd(self, _body, descriptors):
        need(len(descriptors) == 1)
        if self.channel is not None:
            os.close(self.channel)
        self.channel = os.dup(descriptors[0])

    def get_inflight_fd(self, body, _descriptors):
        _, _, queues, size = struct.unpack("<QQHH4x", body)
        need(queues == 1 and size)
        length = self.part_size(size)
        file = os.memfd_create("inflight")
        os.ftruncate(file, PAGE if FAULT == "a file that is too short" else length + PAGE)
        if FAULT == "a file that is too short":
            length = 2 * PAGE
        return struct.pack("<QQHH4x", length, 0, queues, size), [file]

    def part_size(self, size):
        return 32 + 32 * size if self.features & PACKED else 16 + 16 * size

    def set_inflight_fd(self, body, descriptors):
        length, offset, queues, size = struct.unpack("<QQHH4x", body)
        need(len(descriptors) == 1 and queues == 1 and length >= self.part_size(size))
        need(offset + length <= os.fstat(descriptors[0]).st_size)
        self.rings[0].inflight = os.pread(descriptors[0], length, offset)
        if not offset % PAGE:
            self.rings[0].region = mmap.mmap(descriptors[0], length, offset=offset)

    def postcopy_advise(self, _body, _descriptors):
        need(self.userfault is None)
        self.userfault = userfault()
        need(self.userfault >= 0)
        fcntl.ioctl(self.userfault, UFFDIO_API, struct.pack("<QQQ", 0xaa, 0, 0))
        return b"", [os.dup(self.userfault)]

    def postcopy_listen(self, _body, _descriptors):
        need(self.userfault is not None and not self.regions)
        self.listening = True

    def postcopy_end(self, _body, _descriptors):
        need(self.listening)
        self.listening = False
        if FAULT not in ("faults after the end", "memory is not registered"):
            for it in self.regions:
                fcntl.ioctl(self.userfault, UFFDIO_UNREGISTER, struct.pack("<QQ", it.place(), it.size))
        return struct.pack("<Q", 0)

    # Its state, and a display.

    def set_device_state_fd(self, body, descriptors):
        direction, phase = struct.unpack("<II", body)
        runs = self.rings[0].started and FAULT != "a state is saved while a ring runs"
        if direction > 1 or phase or len(descriptors) != 1 or runs:
            return struct.pack("<Q", 0x101)
        if direction:
            self.state = os.dup(descriptors[0])
        else:
            self.state = bytes(CONFIGURATION)
            try:
                os.write(descriptors[0], self.state)
            except OSError:
                self.state = None
        return struct.pack("<Q", 0 if FAULT == "a state says that a descriptor came" else 0x100)

    def check_device_state(self, _body, _descriptors):
        if isinstance(self.state, int):
            descriptor, self.state = self.state, b""
            while part := os.read(descriptor, PAGE):
                self.state += part
            os.close(descriptor)
            if FAULT == "a state is not taken":
                self.state = None
        return struct.pack("<Q", 0 if self.state is not None and len(self.state) == SPACE else 1)

    def gpu_set_socket(self, _body, descriptors):
        need(len(descriptors) == 1)
        with socket.socket(fileno=os.dup(descriptors[0])) as display:
            display.sendall(struct.pack("<III", DISPLAY_FEATURES, 0, 0))
            size = struct.unpack("<III", display.recv(12, socket.MSG_WAITALL))[2]
            if size != 8 and FAULT == "a wrong display crashes":
                os.kill(os.getpid(), signal.SIGSEGV)

    # Its run.

    def run(self):
        while True:
            kicks = [it.kick for it in self.rings if it.kick is not None and it.started]
            if IMAGE is not None:
                self.look()
            for ready in select.select([self.connection, *kicks], [], [], 0.02 if IMAGE else None)[0]:
                if ready is self.connection:
                    self.next()
                    break
                os.read(ready, 8)
                self.process(self.rings[0])

    def close(self):
        self.connection.close()
        self.rings[0].close()
        close([it for it in (self.channel, self.userfault) if it is not None and it >= 0])
        if FAULT == "a connection leaves a descriptor":
            os.eventfd(0)


def userfault():
    """A userfaultfd for the faults of programs alone, which needs no privilege; a negative number where there is none."""
    return ctypes.CDLL(None).syscall(USERFAULTFD, os.O_CLOEXEC | os.O_NONBLOCK | 1)


Session.asked = 0
TRIED = userfault()
if TRIED < 0:
    PROTOCOL &= ~PAGEFAULT
else:
    os.close(TRIED)
CONFIGURATION = bytearray(range(SPACE))
KEPT = []
SEEN = [None]


def serve(connection):
    session = Session(connection)
    if IMAGE is not None:
        SEEN[0] = CONFIGURATION[:8] = struct.pack("<Q", os.stat(IMAGE).st_size // 512)
    try:
        session.run()
    except (Gone, OSError):
        pass
    session.close()


def main():
    if FAULT == "it does not end":
        signal.signal(signal.SIGTERM, signal.SIG_IGN)
    else:
        signal.signal(signal.SIGTERM, signal.SIG_DFL)
    option, _, value = sys.argv[1].partition("=")
    if option == "--fd" and FAULT == "a socket of --fd is not served":
        return
    if option == "--fd":
        serve(socket.socket(fileno=int(value)))
        return
    listener = socket.socket(socket.AF_UNIX)
    listener.bind(value)
    listener.listen(8)
    while True:
        serve(listener.accept()[0])


main()
