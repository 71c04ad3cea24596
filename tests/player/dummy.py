# SPDX-License-Identifier: Apache-2.0
"""The example device, as vhost_dummy_backend has it: no function, and the rules of the protocol."""
from words import Differs, Unreadable, fds_in, number_of

QUEUES, MAX_VRING_NUM, MAX_MEM_SLOTS = 2, 256, 509
PROTOCOL_FEATURES, CONFIG, SHMEM = 1 << 30, 1 << 9, 1 << 22
VIRTIO_FEATURES = PROTOCOL_FEATURES | 3
ALL_PROTOCOL_FEATURES = 0x7fffff
CONFIG_OFFSET, CONFIG_BYTES = 0x100, "a5a5a5a5"

# Calls that change nothing, and succeed.
IGNORED = (
    "set_backend_req_fd", "set_gpu_socket", "set_inflight_fd", "remove_mem_region", "postcopy_listen", "postcopy_end",
    "postcopy_ack_mem_regions", "set_log_base")


class Refused(Exception):
    """The device refuses a call."""


class Dummy:
    """The device and what it remembers. Where it has to give a file descriptor, it gives the last of those that it was made with."""

    def __init__(self, spare):
        self.spare = list(spare)
        self.owned = self.features_acked = False
        self.acked_features = self.acked_protocol_features = self.mtu = 0
        self.vring_num, self.vring_base = [0, 0], [0, 0]
        self.vring_started, self.vring_enabled = [False, False], [False, False]
        self.kick_fd, self.call_fd, self.err_fd = [None, None], [None, None], [None, None]
        self.inflight_file = self.shared_file = self.shmem = None

    def ask(self, call):
        """It is asked a call: what it gives, or its error."""
        name, *words = call.split(" ")
        if name in IGNORED:
            return ""
        try:
            return getattr(self, f"do_{name}")(*words) or ""
        except Refused as refused:
            return f"err {refused}"

    def check(self):
        """No call of it is given by the script."""

    def expect_told(self):
        """Likewise."""

    def set_shares(self, text):
        """It shares regions of memory from now on."""
        count, _, sizes = text.partition(" ")
        self.acked_protocol_features |= SHMEM
        self.shmem = f"{number_of(count)} {','.join(str(number_of(it)) for it in sizes.split())}"

    def state(self, name):
        """A field as a script writes it."""
        if name not in STATE:
            raise Unreadable("a field", name)
        value = getattr(self, name)
        return " ".join(STATE[name](it) for it in (value if isinstance(value, list) else [value]))

    def ring(self, word):
        """The place of a ring."""
        if int(word) >= QUEUES:
            raise Refused("InvalidParam")
        return int(word)

    def take(self):
        """A file descriptor to give out."""
        if not self.spare:
            raise Refused("InvalidParam")
        return self.spare.pop()

    def do_set_owner(self):
        if self.owned:
            raise Refused("InvalidOperation already claimed")
        self.owned = True

    def do_reset_owner(self):
        self.owned = False
        self.acked_protocol_features = 0
        self.do_reset_device()

    def do_reset_device(self):
        self.features_acked = False
        self.acked_features = 0

    def do_get_features(self):
        return str(VIRTIO_FEATURES)

    def do_set_features(self, word):
        features = int(word)
        if not self.owned:
            raise Refused("InvalidOperation not owned")
        if self.features_acked:
            raise Refused("InvalidOperation features already set")
        if features & ~VIRTIO_FEATURES:
            raise Refused("InvalidParam")
        self.acked_features, self.features_acked = features, True
        self.vring_enabled = [not features & PROTOCOL_FEATURES] * QUEUES

    def do_set_mem_table(self, *words):
        return ",".join(words[2:-2:4]) if words[-1] == "true" else "none"

    do_add_mem_region = do_set_mem_table

    def do_set_vring_num(self, word, size):
        ring = self.ring(word)
        if not 0 < int(size) <= MAX_VRING_NUM:
            raise Refused("InvalidParam")
        self.vring_num[ring] = int(size)

    def do_set_vring_addr(self, word, *_places):
        self.ring(word)

    def do_set_vring_base(self, word, base):
        ring = self.ring(word)
        if int(base) >= MAX_VRING_NUM:
            raise Refused("InvalidParam")
        self.vring_base[ring] = int(base)

    def do_get_vring_base(self, word):
        ring = self.ring(word)
        self.vring_started[ring] = False
        return f"{ring} {self.vring_base[ring]}"

    def do_set_vring_kick(self, word, fd):
        ring = self.ring(word)
        self.kick_fd[ring], self.vring_started[ring] = fd, True

    def do_set_vring_call(self, word, fd):
        self.call_fd[self.ring(word)] = fd

    def do_set_vring_err(self, word, fd):
        self.err_fd[self.ring(word)] = fd

    def do_get_protocol_features(self):
        return str(ALL_PROTOCOL_FEATURES)

    def do_set_protocol_features(self, word):
        self.acked_protocol_features = int(word)

    def do_get_queue_num(self):
        return str(QUEUES)

    def do_set_vring_enable(self, word, enable):
        if not self.acked_features & PROTOCOL_FEATURES:
            raise Refused(f"InactiveFeature {PROTOCOL_FEATURES:#x}")
        self.vring_enabled[self.ring(word)] = enable == "1"

    def do_other(self, _request, _body, _fds):
        raise Refused("InvalidOperation request not served")

    def do_set_mtu(self, word):
        if word == "0":
            raise Refused("InvalidParam")
        self.mtu = int(word)

    def check_config(self):
        """Whether the configuration was negotiated."""
        if not self.acked_protocol_features & CONFIG:
            raise Refused(f"InactiveOperation {CONFIG:#x}")

    def do_get_config(self, offset, size, _flags):
        self.check_config()
        if (int(offset), int(size)) != (CONFIG_OFFSET, len(CONFIG_BYTES) // 2):
            raise Refused("InvalidParam")
        return CONFIG_BYTES

    def do_set_config(self, offset, some, _flags):
        self.check_config()
        if (int(offset), some) != (CONFIG_OFFSET, CONFIG_BYTES):
            raise Refused("InvalidParam")

    def do_get_shared_object(self, _name):
        self.shared_file = f"[{self.take()}]"
        return self.shared_file

    def do_get_inflight_fd(self, _size, _offset, queues, length):
        self.inflight_file = f"[{self.take()}]"
        return f"4096 0 {queues} {length} {self.inflight_file}"

    def do_get_max_mem_slots(self):
        return str(MAX_MEM_SLOTS)

    def do_set_device_state_fd(self, *_words):
        raise Refused("ReqHandlerError dummy back end does not support state transfer")

    do_check_device_state = do_set_device_state_fd

    def do_get_shmem_config(self):
        if not self.shmem:
            raise Refused("ReqHandlerError dummy back end does not support shared memory regions")
        return self.shmem

    def do_postcopy_advice(self):
        return f"[{self.take()}]"


def flag_text(value):
    return "true" if value else "false"


def fd_text(value):
    return value.strip("[]") if value else "none"


# The fields that a script may name, and how each is written.
STATE = {
    "owned": flag_text, "acked_features": str, "acked_protocol_features": str, "mtu": str, "vring_num": str, "vring_base": str,
    "vring_started": flag_text, "vring_enabled": flag_text, "kick_fd": fd_text, "call_fd": fd_text, "err_fd": fd_text,
    "inflight_file": fd_text, "shared_file": fd_text,
}
