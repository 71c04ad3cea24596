"""Frontends that mean harm to the example disk: disk_attacks.py DISK [NAME..], in an empty folder. DISK is the compiled c/blk.c.

Each has a disk of its own. Once it is gone the disk serves another frontend, has as many descriptors and as much memory mapped then as
with the first one, and ends by SIGTERM with status 0. Prints a line for each; status 0 where all passed, else 1.
"""

import fcntl
import mmap
import os
import select
import signal
import socket
import struct
import subprocess
import sys
import time

GET_FEATURES, SET_FEATURES, SET_OWNER, SET_MEM_TABLE, SET_LOG_BASE = 1, 2, 3, 5, 6
SET_VRING_NUM, SET_VRING_ADDR, SET_VRING_BASE, GET_VRING_BASE = 8, 9, 10, 11
SET_VRING_KICK, SET_VRING_CALL, SET_VRING_ERR = 12, 13, 14
GET_PROTOCOL_FEATURES, SET_PROTOCOL_FEATURES, SET_VRING_ENABLE, SET_BACKEND_REQ_FD = 15, 16, 18, 21
POSTCOPY_ADVISE, POSTCOPY_LISTEN, GET_INFLIGHT_FD, SET_INFLIGHT_FD = 28, 29, 31, 32

HEADER = struct.Struct("<III")
VERSION, NEED_REPLY = 1, 8
LOG_ALL, PROTOCOL_FEATURES, VERSION_1 = 1 << 26, 1 << 30, 1 << 32
# MQ, LOG_SHMFD, REPLY_ACK, BACKEND_REQ, PAGEFAULT, INFLIGHT_SHMFD
ACCEPTED = 1 << 0 | 1 << 1 | 1 << 3 | 1 << 5 | 1 << 8 | 1 << 12

SECTOR, SECTORS = 512, 2048
MEMORY = 1 << 20
USER = 0x7F0000000000  # where the frontend has the guest's memory
SIZE = 16
AVAILABLE, USED, REQUEST, STATUS, DATA = 0x4000, 0x8000, 0x9000, 0x9100, 0x10000
NEXT, WRITE = 1, 2
READ, WRITTEN = 0, 1  # kinds of requests
FULL = 2**64 - 2

# Whoever waits for the disk gives up once it has slept in so many looks, a millisecond each, or has used so many seconds of a processor:
# a machine that has no time for it does not count.
LOOKS, SECONDS = 5000, 60


def check(holds, what):
    if not holds:
        raise AssertionError(what)


class Disk:
    """The example disk, as a process."""

    def __init__(self, program, name):
        self.path, self.image = f"{name}.socket", f"{name}.image"
        with open(self.image, "wb") as it:
            it.write(os.urandom(SECTOR * SECTORS))
        self.said = open(f"{name}.said", "wb")
        self.program = program
        self.start()
        self.had = self.has()

    def start(self):
        words = [self.program, self.path, self.image, "1", "pipe"]  # (a call may be a stream: more is to be attacked)
        self.process = subprocess.Popen(words, stdout=self.said, stderr=self.said)
        self.wait_until(self.listens, "the disk listens")

    def listens(self):
        """Whether it can be connected to, which it cannot yet where its path is there."""
        with socket.socket(socket.AF_UNIX) as it:
            return it.connect_ex(self.path) == 0

    def stat(self):
        """Its state, and how long it ran."""
        with open(f"/proc/{self.process.pid}/stat", encoding="ascii") as it:
            words = it.read().rpartition(")")[2].split()
        return words[0], (int(words[11]) + int(words[12])) / os.sysconf("SC_CLK_TCK")

    def has(self):
        """How many descriptors it has open, and how many files of memory mapped, once it serves a frontend that did nothing: some belong to
        a session."""
        frontend = Frontend(self, None)
        check(frontend.ask(GET_FEATURES), "the disk serves")
        with open(f"/proc/{self.process.pid}/maps", encoding="ascii") as it:
            mapped = sum("/memfd:" in line for line in it)
        fds = len(os.listdir(f"/proc/{self.process.pid}/fd"))
        frontend.close()
        return fds, mapped

    def wait_until(self, holds, what):
        looks = 0
        while not holds():
            state, seconds = self.stat()
            looks += state == "S"
            check(state != "Z" or holds(), f"the disk died: {what}")
            check(looks < LOOKS, f"the disk sleeps: {what}")
            check(seconds < SECONDS, f"the disk is busy: {what}")
            time.sleep(0.001)

    def end(self):
        self.process.send_signal(signal.SIGTERM)
        self.wait_until(lambda: self.stat()[0] == "Z", "SIGTERM ends it")
        check(self.process.wait() == 0, f"it ended well, and not by status {self.process.returncode}")

    def close(self):
        self.process.kill()
        self.process.wait()
        self.said.close()


class Frontend:
    """A frontend by hand."""

    def __init__(self, disk, features=0):
        self.disk = disk
        self.socket = socket.socket(socket.AF_UNIX)
        self.socket.connect(disk.path)
        self.fds = []
        if features is not None:
            self.negotiate(features | PROTOCOL_FEATURES | VERSION_1)

    def negotiate(self, features):
        self.ask(GET_FEATURES)
        self.send(SET_OWNER)
        self.send(SET_FEATURES, struct.pack("<Q", features))
        self.ask(GET_PROTOCOL_FEATURES)
        self.send(SET_PROTOCOL_FEATURES, struct.pack("<Q", ACCEPTED))

    def send(self, code, body=b"", fds=(), flags=VERSION):
        socket.send_fds(self.socket, [HEADER.pack(code, flags, len(body)) + body], fds)

    def receive(self, size):
        """So many bytes, or fewer at the end, and what descriptors came with them."""
        data = b""
        while len(data) < size:
            self.disk.wait_until(lambda: select.select([self.socket], [], [], 0)[0], "there is a reply, or an end")
            try:
                part, fds, _, _ = socket.recv_fds(self.socket, size - len(data), 4)
            except ConnectionResetError:  # it hung up on what was sent
                break
            self.fds += fds
            if not part:
                break
            data += part
        return data

    def ask(self, code, body=b"", fds=(), flags=VERSION):
        """The body of the reply. None: the disk hung up."""
        try:
            self.send(code, body, fds, flags)
        except (BrokenPipeError, ConnectionResetError):
            return None
        head = self.receive(HEADER.size)
        return self.receive(HEADER.unpack(head)[2]) if len(head) == HEADER.size else None

    def acknowledged(self, code, body, fds=()):
        """Whether the disk did this. None: it hung up."""
        reply = self.ask(code, body, fds, VERSION | NEED_REPLY)
        return reply and struct.unpack("<Q", reply)[0] == 0

    def do(self, code, body, fds=()):
        check(self.acknowledged(code, body, fds), f"request {code} is done")

    def is_hung_up_on(self):
        return self.receive(1) == b""

    def close(self):
        self.socket.close()
        for fd in self.fds:
            os.close(fd)


def made_memory(size):
    fd = os.memfd_create("guest")
    os.ftruncate(fd, size)
    return fd


def made_event():
    return os.eventfd(0, os.EFD_NONBLOCK)


class Guest:
    """A frontend with a region of memory, and a ring in it."""

    def __init__(self, disk, features=0, call=None, listens=False):
        self.frontend = Frontend(disk, features)
        self.file = made_memory(MEMORY)
        self.memory = mmap.mmap(self.file, MEMORY)
        self.kick, self.call, self.offered = made_event(), made_event() if call is None else call, 0
        table = struct.pack("<II4Q", 1, 0, 0, MEMORY, USER, 0)
        if listens:
            self.listen(table)
        else:
            self.frontend.do(SET_MEM_TABLE, table, [self.file])

    def listen(self, table):
        """Gives the memory page by page, as postcopy does: none comes."""
        it = self.frontend
        check(it.ask(POSTCOPY_ADVISE) is not None and it.fds, "the disk has a userfaultfd")
        it.do(POSTCOPY_LISTEN, b"")
        check(it.ask(SET_MEM_TABLE, table, [self.file]), "it says where the region is mapped")
        it.send(SET_MEM_TABLE, struct.pack("<Q", 0))

    def start(self):
        """Whether the ring starts. None: the disk hung up."""
        self.set_up()
        return self.frontend.acknowledged(SET_VRING_KICK, struct.pack("<Q", 0), [self.kick])

    def set_up(self):
        it = self.frontend
        it.do(SET_VRING_NUM, struct.pack("<II", 0, SIZE))
        it.do(SET_VRING_ADDR, struct.pack("<II4Q", 0, 0, USER, USER + USED, USER + AVAILABLE, 0))
        it.do(SET_VRING_BASE, struct.pack("<II", 0, self.offered))
        it.do(SET_VRING_CALL, struct.pack("<Q", 0), [self.call])
        it.do(SET_VRING_ENABLE, struct.pack("<II", 0, 1))

    def describe(self, at, *descriptor):
        struct.pack_into("<QIHH", self.memory, 16 * at, *descriptor)

    def offer(self, sector, kind=READ):
        """Offers to read a sector, or another kind of request, and kicks."""
        struct.pack_into("<IIQ", self.memory, REQUEST, kind, 0, sector)
        self.memory[STATUS] = 0xFF
        self.describe(0, REQUEST, 16, NEXT, 1)
        self.describe(1, DATA, SECTOR, NEXT if kind == WRITTEN else NEXT | WRITE, 2)
        self.describe(2, STATUS, 1, WRITE, 0)
        self.offers_head(0)

    def offers_head(self, head):
        struct.pack_into("<H", self.memory, AVAILABLE + 4 + 2 * (self.offered % SIZE), head)
        self.offered += 1
        struct.pack_into("<H", self.memory, AVAILABLE + 2, self.offered)
        os.eventfd_write(self.kick, 1)

    def is_used(self):
        return struct.unpack_from("<H", self.memory, USED + 2)[0] == self.offered

    def read(self, sector):
        """Reads a sector, and compares it with the image."""
        self.offer(sector)
        self.frontend.disk.wait_until(self.is_used, "a request is used")
        check(self.memory[STATUS] == 0, "the sector was read")
        with open(self.frontend.disk.image, "rb") as it:
            it.seek(sector * SECTOR)
            check(it.read(SECTOR) == self.memory[DATA : DATA + SECTOR], "what was read is the image's")

    def close(self):
        self.memory.close()
        for fd in (self.file, self.kick, self.call):
            os.close(fd)
        self.frontend.close()


def working(disk, **words):
    """A guest that has read a sector."""
    guest = Guest(disk, **words)
    check(guest.start(), "the ring starts")
    guest.read(3)
    return guest


def let_block(fd):
    """Clears a flag of the open file, which the disk's copy is, too."""
    fcntl.fcntl(fd, fcntl.F_SETFL, fcntl.fcntl(fd, fcntl.F_GETFL) & ~os.O_NONBLOCK)


def fill_event(fd):
    let_block(fd)
    try:
        os.set_blocking(fd, False)
        os.eventfd_read(fd)
    except BlockingIOError:
        pass
    os.eventfd_write(fd, FULL)
    let_block(fd)


def full_pipe(ends=None):
    """The ends of a pipe, or of another stream, whose writers wait."""
    ends = ends or os.pipe()
    os.set_blocking(ends[1], False)
    try:
        while True:
            os.write(ends[1], bytes(4096))
    except BlockingIOError:
        let_block(ends[1])
    return ends


# -- Waiting --


def full_call(disk):
    guest = working(disk)
    fill_event(guest.call)
    guest.read(4)
    guest.read(5)
    guest.close()


def socket_ends():
    return [it.detach() for it in socket.socketpair()]


def full_pipe_for_call(disk, ends=None):
    end, call = full_pipe(ends)
    guest = working(disk, call=call)
    let_block(call)
    guest.read(4)
    check(guest.frontend.ask(GET_FEATURES), "the disk goes on")
    while select.select([end], [], [], 0)[0]:
        os.read(end, 1 << 20)
    guest.read(5)
    disk.wait_until(lambda: select.select([end], [], [], 0)[0], "the pipe is written to")
    check(os.read(end, 100) == struct.pack("<Q", 1), "it is written to as an eventfd is")
    guest.close()
    os.close(end)


def full_socket_for_call(disk):
    full_pipe_for_call(disk, socket_ends())


def pipe_for_call_that_nobody_reads(disk, ends=None):
    end, call = ends or os.pipe()
    guest = working(disk, call=call)
    os.close(end)
    guest.read(4)
    guest.close()


def socket_for_call_that_nobody_reads(disk):
    pipe_for_call_that_nobody_reads(disk, socket_ends())


def full_error(disk):
    for fds in ((made_event(),), full_pipe(), full_pipe(socket_ends())):
        guest = working(disk)
        guest.frontend.do(SET_VRING_ERR, struct.pack("<Q", 0), [fds[-1]])
        if len(fds) == 1:
            fill_event(fds[0])
        struct.pack_into("<H", guest.memory, AVAILABLE + 2, 9999)
        os.eventfd_write(guest.kick, 1)
        check(guest.frontend.ask(GET_FEATURES), "the disk goes on")
        guest.close()
        for fd in fds:
            os.close(fd)


def kick_that_is_taken_back(disk):
    """The disk is told that it was kicked, and finds no kick: another process takes it."""
    guest = working(disk)
    let_block(guest.kick)
    taker = os.fork()
    if taker == 0:
        while True:
            os.eventfd_read(guest.kick)
    try:
        for _ in range(3000):
            os.eventfd_write(guest.kick, 1)
            check(guest.frontend.ask(GET_FEATURES), "the disk goes on")
    finally:
        os.kill(taker, signal.SIGKILL)
        os.waitpid(taker, 0)
    guest.read(4)
    guest.close()


def kick_that_counts_down(disk):
    """A semaphore, which stays ready however often it is taken: a second frontend is heard, and SIGTERM ends the disk."""
    guest = Guest(disk)
    os.close(guest.kick)
    guest.kick = os.eventfd(0, os.EFD_NONBLOCK | os.EFD_SEMAPHORE)
    check(guest.start(), "the ring starts")
    guest.read(4)
    os.eventfd_write(guest.kick, 2**63)
    other = Frontend(disk, None)
    check(other.ask(GET_FEATURES) is None, "another frontend is hung up on")
    other.close()
    guest.read(5)
    disk.end()
    guest.close()
    disk.start()


def no_eventfds(disk):
    """What is no eventfd is refused, and nothing of it is kept. A call may be a stream, too."""
    guest = working(disk)
    streams, pair = (*os.pipe(), *socket_ends()), socket.socketpair(type=socket.SOCK_DGRAM)
    for fd in (guest.file, pair[0].fileno(), *streams, os.open("/dev/null", os.O_RDWR)):
        refusing = (SET_VRING_KICK,) if fd in streams else (SET_VRING_KICK, SET_VRING_CALL, SET_VRING_ERR)
        for code in refusing:
            check(guest.frontend.acknowledged(code, struct.pack("<Q", 0), [fd]) is False, f"request {code} is refused")
    check(guest.frontend.acknowledged(SET_BACKEND_REQ_FD, b"", [guest.file]) is False, "a channel is a socket")
    guest.read(4)
    guest.close()
    for fd in (*streams, fd):
        os.close(fd)
    for it in pair:
        it.close()


# -- Memory --


def hung_up_on(guest):
    check(guest.frontend.is_hung_up_on(), "the session ends")
    guest.close()


def shortened_memory(disk):
    guest = working(disk)
    guest.memory.close()
    guest.memory = mmap.mmap(-1, MEMORY)  # its own is gone as well
    os.ftruncate(guest.file, 0)
    os.eventfd_write(guest.kick, 1)
    hung_up_on(guest)


def shortened_memory_at_a_start(disk):
    guest = Guest(disk)
    os.ftruncate(guest.file, 0)
    guest.start()
    hung_up_on(guest)


def shortened_data(disk):
    """Where only the data are gone, the request fails."""
    guest = working(disk)
    os.ftruncate(guest.file, DATA)
    guest.offer(4)
    disk.wait_until(guest.is_used, "a request is used")
    check(guest.memory[STATUS] == 1, "the request failed")
    check(guest.frontend.ask(GET_FEATURES), "the session goes on")
    guest.close()


def shortened_log(disk):
    guest = Guest(disk, features=LOG_ALL)
    log = made_memory(4096)
    check(guest.frontend.ask(SET_LOG_BASE, struct.pack("<QQ", 4096, 0), [log], VERSION | NEED_REPLY) is not None, "a log is taken")
    check(guest.start(), "the ring starts")
    os.ftruncate(log, 0)
    guest.offer(4)
    os.close(log)
    hung_up_on(guest)


def shortened_inflight_region(disk):
    """Given by the frontend, or made by the disk; before a ring starts, or then."""
    for is_made in (False, True):
        for is_late in (False, True):
            guest = Guest(disk)
            told = struct.pack("<QQHH4x", 1 << 16, 0, 1, SIZE)
            if is_made:
                check(guest.frontend.ask(GET_INFLIGHT_FD, told), "a region is made")
                region = os.dup(guest.frontend.fds[0])
            else:
                region = made_memory(1 << 16)
                guest.frontend.do(SET_INFLIGHT_FD, told, [region])
            if is_late:
                check(guest.start(), "the ring starts")
            os.ftruncate(region, 0)
            os.close(region)
            if is_late:
                guest.offer(4)
            else:
                guest.start()
            hung_up_on(guest)


def waiting_for_a_page(disk):
    """A guest over whose ring the disk waits."""
    guest = Guest(disk, listens=True)
    guest.set_up()
    guest.frontend.send(SET_VRING_KICK, struct.pack("<Q", 0), [guest.kick])
    disk.wait_until(lambda: select.select(guest.frontend.fds, [], [], 0)[0], "the disk waits for a page")
    return guest


def pages_that_cannot_come(disk):
    """The frontend hangs up, and keeps the userfaultfd."""
    guest = waiting_for_a_page(disk)
    userfault = os.dup(guest.frontend.fds[0])
    guest.close()
    working(disk).close()
    os.close(userfault)


def pages_that_do_not_come(disk):
    """The disk ends by SIGTERM, whether they come or not."""
    guest = waiting_for_a_page(disk)
    disk.end()
    guest.close()
    disk.start()


def waiting_for_data(disk):
    """A guest whose pages are there, since it wrote them, but for one that is to be written to the image."""
    guest = Guest(disk, listens=True)
    guest.memory[AVAILABLE] = guest.memory[USED] = guest.memory[REQUEST] = guest.memory[0] = 0
    check(guest.start(), "the ring starts")
    guest.offer(4, WRITTEN)
    disk.wait_until(lambda: select.select(guest.frontend.fds, [], [], 0)[0], "the disk waits for a page")
    return guest


def contents(disk):
    with open(disk.image, "rb") as it:
        return it.read()


def data_that_cannot_come(disk):
    """The same where a request waits alone: no zeros are written in its place."""
    before = contents(disk)
    for _ in range(30):
        guest = waiting_for_data(disk)
        userfault = os.dup(guest.frontend.fds[0])
        guest.close()
        working(disk).close()
        os.close(userfault)
        check(contents(disk) == before, "nothing is written")


def data_that_does_not_come(disk):
    before = contents(disk)
    guest = waiting_for_data(disk)
    disk.end()
    check(contents(disk) == before, "nothing is written")
    guest.close()
    disk.start()


# -- Others --


def second_frontend(disk):
    guest = working(disk)
    for features in range(10):
        other = Frontend(disk, None)
        check(other.ask(GET_FEATURES) is None, "another frontend is hung up on")
        other.close()
        guest.read(features)
    guest.close()


def frontend_that_comes_again(disk):
    """Who closes its connection and makes another is served, however fast it is."""
    for _ in range(300):
        frontend = Frontend(disk, None)
        check(frontend.ask(GET_FEATURES), "it is served")
        frontend.close()
    frontend = Frontend(disk, None)
    for _ in range(300):
        frontend.send(GET_FEATURES)
        frontend.close()
        frontend = Frontend(disk, None)
    check(frontend.ask(GET_FEATURES), "it is served")
    frontend.close()


ATTACKS = [full_call, full_pipe_for_call, full_socket_for_call, pipe_for_call_that_nobody_reads, socket_for_call_that_nobody_reads, full_error]
ATTACKS += [kick_that_is_taken_back]
ATTACKS += [kick_that_counts_down, no_eventfds]
ATTACKS += [shortened_memory, shortened_memory_at_a_start, shortened_data, shortened_log, shortened_inflight_region]
ATTACKS += [second_frontend, frontend_that_comes_again]
POSTCOPY = [pages_that_cannot_come, pages_that_do_not_come, data_that_cannot_come, data_that_does_not_come]


def may_wait_for_pages(program):
    """Whether the disk may have a userfaultfd: in a container it often may not."""
    disk = Disk(program, "postcopy")
    frontend = Frontend(disk)
    frontend.ask(POSTCOPY_ADVISE)
    found = bool(frontend.fds)
    frontend.close()
    disk.close()
    return found


def attacked(program, attack):
    """Whether the disk bears an attack."""
    disk = Disk(program, attack.__name__)
    try:
        attack(disk)
        check(disk.has() == disk.had, f"it has {disk.had[0]} descriptors and {disk.had[1]} mappings again")
        working(disk).close()
        disk.end()
    except (AssertionError, OSError) as why:
        print(f"{attack.__name__}: {why!r}")
        return False
    finally:
        disk.close()
    return True


def main():
    failed, attacks = 0, list(ATTACKS)
    if may_wait_for_pages(sys.argv[1]):
        attacks += POSTCOPY
    else:
        print("the attacks by postcopy are left out: userfaultfd is not allowed here")
    for attack in attacks:
        if len(sys.argv) > 2 and attack.__name__ not in sys.argv[2:]:
            continue
        passed = attacked(sys.argv[1], attack)
        failed += not passed
        print(f"disk_bears_{attack.__name__}: {'ok' if passed else 'FAILED'}", flush=True)
    return 1 if failed else 0


if __name__ == "__main__":
    sys.exit(main())
