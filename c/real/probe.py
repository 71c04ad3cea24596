# SPDX-License-Identifier: Apache-2.0
"""What a backend replies to each request, 1 to 44, and to one that is none.

    probe.py SOCKET PROCESS       asks the backend that listens there, by the number of its process
    probe.py SOCKET COMMAND..     asks a backend that is started for each connection
    probe.py --table FILE..       prints what was printed so, a column a file, whose first line says of which backend it is

Each request is made on a connection of its own, and well-formed: what has to come before it was said, and all was accepted that the backend
offers. It is made without NEED_REPLY in the header's flags, and then with it: a line says what came each time, or once what came both times;
and by * that the backend does not offer the feature that the request belongs to. Nothing came where the next request, which each backend
replies to, was replied to first.

Status 1 where the backend of that process ends, or has other descriptors after a connection than before the first.
"""
import itertools
import os
import signal
import socket
import struct
import subprocess
import sys
from typing import Callable, NamedTuple

sys.path.insert(0, os.path.join(os.path.dirname(os.path.realpath(__file__)), "../../scripts"))
import patience

# How many seconds the backend may spend on whatever it is waited for (scripts/patience.py).
LIMIT = 20

# The flag that /proc/net/unix has of a socket that is listened at.
ACCEPTS = "00010000"

VERSION, NEED_REPLY = 1, 8
HEADER = struct.Struct("<III")
LOG_ALL, PROTOCOL_FEATURES, RING_PACKED = 1 << 26, 1 << 30, 1 << 34

# The guest's memory: where it is for the guest, how much, where for the frontend, and where in its file. In it the rings' parts.
REGION = (0, 1 << 20, 0x7F0000000000, 0)
TABLE, USED, AVAILABLE = (REGION[2] + 0x1000 * page for page in (1, 2, 3))


class HungUp(Exception):
    """The backend closed the connection."""


class Silent(Exception):
    """It neither replies nor hangs up."""


# -- Requests --


def numbers(layout, *values):
    return lambda _: struct.pack("<" + layout, *values)


def accepted(it):
    return struct.pack("<Q", it.features & ~(LOG_ALL | RING_PACKED))


def memory():
    """A file of memory."""
    fd = os.memfd_create("memory", os.MFD_CLOEXEC)
    os.ftruncate(fd, REGION[1])
    return fd


def event():
    return os.eventfd(0)


def one_end(ends):
    """One of two; the other goes at once."""
    os.close(ends[1])
    return ends[0]


def one_of_pair():
    return one_end([it.detach() for it in socket.socketpair()])


def one_of_pipe():
    return one_end(os.pipe())


# The bits of the features that requests belong to: protocol features; and of virtio IOMMU_PLATFORM, behind these.
MQ, LOG_SHMFD, RARP, MTU, BACKEND_REQ, CROSS_ENDIAN, CRYPTO_SESSION, PAGEFAULT, CONFIG = 0, 1, 2, 4, 5, 6, 7, 8, 9
INFLIGHT_SHMFD, RESET_DEVICE, INBAND_NOTIFICATIONS, CONFIGURE_MEM_SLOTS, STATUS = 12, 13, 14, 15, 16
SHARED_OBJECT, DEVICE_STATE, SHMEM = 18, 19, 22
VIRTIO = 64
IOMMU_PLATFORM = VIRTIO + 33


class Request(NamedTuple):
    """A request: its body, what makes the descriptor that it brings, and which come before it. `of` is the feature that it belongs to, and one
    that is replied has a reply of its own, where any other has an acknowledgement."""

    name: str
    body: Callable = numbers("")
    brings: Callable = None
    before: tuple = ()
    of: int = None
    replied: bool = False


RING = "SET_MEM_TABLE", "SET_VRING_NUM", "SET_VRING_BASE", "SET_VRING_ADDR", "SET_VRING_CALL"

# In the order of their numbers, which begin with 1.
REQUESTS = (
    Request("GET_FEATURES", replied=True),
    Request("SET_FEATURES", accepted),
    Request("SET_OWNER"),
    Request("RESET_OWNER"),
    Request("SET_MEM_TABLE", numbers("IIQQQQ", 1, 0, *REGION), memory),
    Request("SET_LOG_BASE", numbers("QQ", 4096, 0), memory, of=LOG_SHMFD, replied=True),
    Request("SET_LOG_FD", brings=event),
    Request("SET_VRING_NUM", numbers("II", 0, 128)),
    Request("SET_VRING_ADDR", numbers("IIQQQQ", 0, 0, TABLE, USED, AVAILABLE, 0), before=RING[:3]),
    Request("SET_VRING_BASE", numbers("II", 0, 0)),
    Request("GET_VRING_BASE", numbers("II", 0, 0), before=(*RING, "SET_VRING_KICK"), replied=True),
    Request("SET_VRING_KICK", numbers("Q", 0), event, before=RING),
    Request("SET_VRING_CALL", numbers("Q", 0), event),
    Request("SET_VRING_ERR", numbers("Q", 0), event),
    Request("GET_PROTOCOL_FEATURES", replied=True),
    Request("SET_PROTOCOL_FEATURES", lambda it: struct.pack("<Q", it.protocol_features)),
    Request("GET_QUEUE_NUM", of=MQ, replied=True),
    Request("SET_VRING_ENABLE", numbers("II", 0, 1), before=RING),
    Request("SEND_RARP", numbers("Q", 0x525400000001), of=RARP),
    Request("NET_SET_MTU", numbers("Q", 1500), of=MTU),
    Request("SET_BACKEND_REQ_FD", brings=one_of_pair, of=BACKEND_REQ),
    Request("IOTLB_MSG", numbers("QQQBB6x", 0, 4096, REGION[2], 3, 2), of=IOMMU_PLATFORM),
    Request("SET_VRING_ENDIAN", numbers("II", 0, 0), of=CROSS_ENDIAN),
    Request("GET_CONFIG", numbers("III8x", 0, 8, 0), of=CONFIG, replied=True),
    Request("SET_CONFIG", numbers("IIIB", 32, 1, 0, 1), of=CONFIG),
    Request("CREATE_CRYPTO_SESSION", numbers("Q", 0), of=CRYPTO_SESSION, replied=True),
    Request("CLOSE_CRYPTO_SESSION", numbers("Q", 0), of=CRYPTO_SESSION),
    Request("POSTCOPY_ADVISE", of=PAGEFAULT, replied=True),
    Request("POSTCOPY_LISTEN", before=("POSTCOPY_ADVISE",), of=PAGEFAULT),
    Request("POSTCOPY_END", before=("POSTCOPY_ADVISE", "POSTCOPY_LISTEN"), of=PAGEFAULT, replied=True),
    Request("GET_INFLIGHT_FD", numbers("QQHHI", 0, 0, 1, 128, 0), of=INFLIGHT_SHMFD, replied=True),
    Request("SET_INFLIGHT_FD", numbers("QQHHI", 4096, 0, 1, 128, 0), memory, of=INFLIGHT_SHMFD),
    Request("GPU_SET_SOCKET", brings=one_of_pair),
    Request("RESET_DEVICE", of=RESET_DEVICE),
    Request("VRING_KICK", numbers("II", 0, 0), of=INBAND_NOTIFICATIONS),
    Request("GET_MAX_MEM_SLOTS", of=CONFIGURE_MEM_SLOTS, replied=True),
    Request("ADD_MEM_REG", numbers("QQQQQ", 0, *REGION), memory, of=CONFIGURE_MEM_SLOTS),
    Request("REM_MEM_REG", numbers("QQQQQ", 0, *REGION), before=("ADD_MEM_REG",), of=CONFIGURE_MEM_SLOTS),
    Request("SET_STATUS", numbers("Q", 1), of=STATUS),
    Request("GET_STATUS", of=STATUS, replied=True),
    Request("GET_SHARED_OBJECT", numbers("QQ", 1, 2), of=SHARED_OBJECT, replied=True),
    Request("SET_DEVICE_STATE_FD", numbers("II", 0, 0), one_of_pipe, of=DEVICE_STATE, replied=True),
    Request("CHECK_DEVICE_STATE", of=DEVICE_STATE, replied=True),
    Request("GET_SHMEM_CONFIG", of=SHMEM, replied=True),
    Request("unknown"),
)
CODES = {it.name: code for code, it in enumerate(REQUESTS, 1)}
BY_NAME = {it.name: it for it in REQUESTS}


# -- A connection --


def descriptors(process):
    """What each descriptor of a process is of."""
    found = []
    for it in patience.names_in(f"/proc/{process}/fd"):
        try:
            found.append(os.readlink(f"/proc/{process}/fd/{it}"))
        except OSError:
            pass  # it was closed meanwhile
    return found


def wait_for_listener(path, process):
    """Waits until a backend listens. It may have the socket under another path at first."""

    def listens():
        if patience.has_ended(process):
            raise SystemExit("the backend has ended")
        with open("/proc/net/unix", encoding="utf-8") as it:
            rows = [line.split() for line in it]
        listeners = {f"socket:[{row[6]}]" for row in rows if row[3] == ACCEPTS}
        return os.path.exists(path) and not listeners.isdisjoint(descriptors(process))

    patience.wait_until(listens, f"{path} is listened at", lambda: [process], LIMIT)


class Connection:
    """A connection to a backend, which accepts all that it offers."""

    def __init__(self, path, process):
        self.process = process
        self.features = self.protocol_features = 0
        wait_for_listener(path, process)
        self.socket = socket.socket(socket.AF_UNIX)
        self.socket.connect(path)

    def send(self, name, flags=0):
        """A request, by its name; what it brings goes then."""
        request = BY_NAME[name]
        body, fds = request.body(self), [request.brings()] if request.brings else []
        try:
            socket.send_fds(self.socket, [HEADER.pack(CODES[name], VERSION | flags, len(body)) + body], fds)
        except OSError:
            raise HungUp from None
        finally:
            for fd in fds:
                os.close(fd)

    def some(self, count):
        """So many bytes, and how many descriptors came with them."""
        data, came = b"", 0
        while len(data) < count:
            try:
                patience.wait_for_input(self.socket, "a reply", lambda: [self.process], LIMIT)
                part, fds, _, _ = socket.recv_fds(self.socket, count - len(data), 32)
            except patience.LimitSpent:
                raise Silent from None
            except OSError:
                raise HungUp from None
            if not part:
                raise HungUp
            data, came = data + part, came + len(fds)
            for fd in fds:
                os.close(fd)
        return data, came

    def reply(self):
        """The next message: its code, its body, and how many descriptors came with it."""
        header, came = self.some(HEADER.size)
        code, _, size = HEADER.unpack(header)
        body, more = self.some(size)
        return code, body, came + more

    def replies(self, name):
        """Makes a request that each backend replies to: what comes before that reply."""
        self.send(name)
        return list(itertools.takewhile(lambda it: it[0] != CODES[name], iter(self.reply, None)))

    def number(self, name):
        """What this request is replied, which is a number."""
        self.send(name)
        return struct.unpack("<Q", self.reply()[1])[0]

    def begin(self, before):
        """Accepts all, and makes the requests that come before one."""
        self.features = self.number("GET_FEATURES")
        if self.features & PROTOCOL_FEATURES:
            self.protocol_features = self.number("GET_PROTOCOL_FEATURES")
            self.send("SET_PROTOCOL_FEATURES")
        for name in before:
            self.send(name)
        self.replies("GET_FEATURES")

    def offers(self, feature):
        """Whether the backend offers a feature, if it is one."""
        return feature is None or bool((self.features << VIRTIO | self.protocol_features) >> feature & 1)

    def close(self):
        self.socket.close()


# -- What came --


def text_of(request, reply):
    """A reply: how many bytes, and the first number; or the number of an acknowledgement."""
    _, body, fds = reply
    value = int.from_bytes(body[:8], "little")
    if not request.replied and len(body) == 8:
        return f"acknowledged {value}"
    text = f"replied {len(body)}" + (f", {value:#x}" if body else "")
    return text + (f", and {fds} descriptor" if fds else "")


def asked(it, request, flags):
    """What comes where a request is made, once what comes before it was said."""
    owner = () if request.name == "SET_OWNER" else ("SET_OWNER",)
    it.begin((*owner, "SET_FEATURES", *request.before))
    try:
        it.send(request.name, flags)
        came = it.replies("GET_PROTOCOL_FEATURES" if request.name == "GET_FEATURES" else "GET_FEATURES")
    except HungUp:
        return "hung up"
    except Silent:
        return "waits"
    return " and ".join(text_of(request, reply) for reply in came) or "nothing"


def probe(path, process, request, flags):
    """The same, on a connection of its own; and whether the request belongs to what is offered."""
    it = Connection(path, process)
    try:
        came = asked(it, request, flags)
    except (HungUp, Silent):
        came = "not asked"
    finally:
        it.close()
    return came, it.offers(request.of)


def probe_running(path, process):
    """What asks a backend that goes on: it has the same descriptors after each connection."""
    wait_for_listener(path, process)
    at_first = len(descriptors(process))

    def is_as_at_first():
        return len(descriptors(process)) == at_first

    def ask(request, flags):
        told = probe(path, process, request, flags)
        patience.wait_until(is_as_at_first, f"as many descriptors after {request.name} as at first", lambda: [process], LIMIT)
        return told

    return ask


def probe_started(path, command):
    """What asks a backend that is started for each connection, and ended then. One that a signal ends by itself has crashed."""

    def ask(request, flags):
        with subprocess.Popen(command, stdin=subprocess.PIPE, stdout=subprocess.DEVNULL, stderr=subprocess.DEVNULL) as process:
            came, offered = probe(path, process.pid, request, flags)
            process.terminate()
            ended = process.wait()
        if os.path.exists(path):
            os.unlink(path)
        has_crashed = ended < 0 and ended != -signal.SIGTERM
        return f"{came}, ended by {signal.Signals(-ended).name}" if has_crashed else came, offered

    return ask


def print_table(names):
    """What was recorded, a column a file."""
    columns = []
    for name in names:
        with open(name, encoding="utf-8") as it:
            lines = it.read().splitlines()
        rows = dict(line.split(": ", 1) for line in lines if not line.startswith("#"))
        columns.append((lines[0].removeprefix("# "), rows))
    print(f"| Request | {' | '.join(title for title, _ in columns)} |")
    print("|---" * (len(columns) + 1) + "|")
    for it in REQUESTS:
        print(f"| {it.name} | {' | '.join(rows[it.name] for _, rows in columns)} |")


def main(words):
    if len(words) < 2:
        raise SystemExit(__doc__)
    path, *others = words
    if path == "--table":
        print_table(others)
        return
    ask = probe_running(path, int(others[0])) if others[0].isdigit() else probe_started(path, others)
    for request in REQUESTS:
        told = [ask(request, flags) for flags in (0, NEED_REPLY)]
        came = "; ".join(dict.fromkeys(came for came, _ in told))
        print(f"{request.name}: {came}" + ("" if told[0][1] else " *"), flush=True)


if __name__ == "__main__":
    try:
        main(sys.argv[1:])
    except patience.LimitSpent as spent:
        raise SystemExit(str(spent)) from None
