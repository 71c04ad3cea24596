// SPDX-License-Identifier: Apache-2.0
//! Why a session refused a request, in words: what the table wants, and what came. The session alone decides that it is refused.
use std::os::unix::io::RawFd;

use crate::foreign::{memory_size, Code, MAX_FDS};
use crate::reasons;
use crate::vhost_user::message::{
    FrontendReq, VhostUserHeaderFlag, VhostUserProtocolFeatures, VhostUserVirtioFeatures, MAX_MSG_SIZE,
};

/// What came of a request.
#[derive(Clone, Copy, Debug, Default)]
pub(crate) struct Came {
    /// As its header has them.
    pub(crate) code: u32,
    pub(crate) flags: u32,
    pub(crate) size: usize,
    /// How many bytes of its body came, and the number that they begin with.
    pub(crate) bytes: usize,
    pub(crate) first: u32,
    /// How many descriptors came, and how many of these behind its first byte.
    pub(crate) fds: usize,
    pub(crate) late_fds: usize,
}

/// What was seen of a request: the bytes that it begins with, its header and four of its body, and how much came.
#[derive(Clone, Debug, Default)]
pub(crate) struct Seen {
    head: [u8; HEAD],
    bytes: usize,
    fds: usize,
    late_fds: usize,
}

const HEADER: usize = 12;
const HEAD: usize = HEADER + 4;

impl Seen {
    /// These bytes came, with so many descriptors; the first of them are those of another request than before.
    pub(crate) fn note(&mut self, bytes: &[u8], fds: usize, is_first: bool) {
        if is_first {
            *self = Seen::default();
        }
        let from = self.bytes.min(HEAD);
        let count = bytes.len().min(HEAD - from);
        self.head[from..from + count].copy_from_slice(&bytes[..count]);
        self.bytes += bytes.len();
        self.fds += fds;
        self.late_fds += if is_first { 0 } else { fds };
    }

    /// The number of the request, as its header has it, where that much of it came.
    pub(crate) fn request(&self) -> Option<u32> {
        (self.bytes >= 4).then(|| self.word(0))
    }

    fn word(&self, at: usize) -> u32 {
        let mut word = [0; 4];
        word.copy_from_slice(&self.head[at..at + 4]);
        u32::from_le_bytes(word)
    }

    pub(crate) fn came(&self) -> Came {
        Came {
            code: self.word(0),
            flags: self.word(4),
            size: self.word(8) as usize,
            bytes: self.bytes.saturating_sub(HEADER),
            first: self.word(HEADER),
            fds: self.fds,
            late_fds: self.late_fds,
        }
    }
}

/// Why, by the session's error and the features that it says were lacking.
pub(crate) fn why(code: Code, inactive: u64, came: &Came) -> String {
    match code.0 {
        1 if came.fds - came.late_fds > MAX_FDS => reasons::too_many_fds(came.fds as u64, MAX_FDS as u32),
        1 => reasons::wrong_value(wanted(came), brought(came)),
        2 if is_unserved(came) => reasons::UNSERVED.to_string(),
        2 => reasons::OTHER_STATE.to_string(),
        3 => reasons::not_accepted(format_args!("{:?}", VhostUserVirtioFeatures::from_bits_truncate(inactive))),
        4 => reasons::not_accepted(format_args!("{:?}", VhostUserProtocolFeatures::from_bits_truncate(inactive))),
        5 if is_unserved(came) => reasons::UNSERVED.to_string(),
        5 => header_fault(came).unwrap_or_else(|| reasons::malformed(wanted(came), brought(came))),
        12 => reasons::wrong_fds(wanted(came), brought(came)),
        18 => reasons::UNMAPPED_THERE.to_string(),
        number => format!("error {number}"),
    }
}

/// What is wrong with a header alone.
fn header_fault(came: &Came) -> Option<String> {
    let version = came.flags & VhostUserHeaderFlag::VERSION.bits();
    if version != 1 {
        return Some(reasons::other_version(version));
    }
    if came.flags & VhostUserHeaderFlag::RESERVED_BITS.bits() != 0 {
        return Some(reasons::reserved_flags(came.flags.into()));
    }
    if came.size > MAX_MSG_SIZE {
        return Some(reasons::too_long(came.size as u64, MAX_MSG_SIZE as u32));
    }
    (came.flags & VhostUserHeaderFlag::REPLY.bits() != 0).then(|| reasons::IS_REPLY.to_string())
}

fn is_unserved(came: &Came) -> bool {
    FrontendReq::try_from(came.code).map_or(false, |code| wanted_of(code).is_none())
}

/// What the request has to be.
fn wanted(came: &Came) -> String {
    match FrontendReq::try_from(came.code) {
        Ok(FrontendReq::SET_MEM_TABLE) => wanted_table(came.first as usize),
        Ok(code) => wanted_of(code).unwrap_or(reasons::UNSERVED).to_string(),
        Err(()) => reasons::KNOWN_CODE.to_string(),
    }
}

fn wanted_table(regions: usize) -> String {
    match regions {
        1..=MAX_FDS => reasons::table(8 + 32 * regions as u32, regions as u64, regions as u64),
        regions => reasons::no_table(MAX_FDS as u32, regions as u32),
    }
}

/// What this one brought.
fn brought(came: &Came) -> String {
    let place = if came.late_fds == 0 { "" } else { reasons::LATE };
    reasons::came(came.bytes as u64, came.fds as u64, place)
}

/// Why a part of a file could not be mapped that the frontend gave.
pub(crate) fn unmapped(what: &str, fd: RawFd, offset: u64, size: u64) -> String {
    match memory_size(fd) {
        None => reasons::no_memory_file(what),
        Some(length) if offset > length || size > length - offset => reasons::beyond_file(what, size, offset, length),
        Some(_) => reasons::unmapped(what, size),
    }
}

fn wanted_of(code: FrontendReq) -> Option<&'static str> {
    use FrontendReq::*;
    Some(match code {
        // generated from protocol/requests.toml: what is wanted
        GET_FEATURES => "no body and no descriptor",
        SET_FEATURES => "8 bytes and no descriptor",
        SET_OWNER => "no body and no descriptor",
        RESET_OWNER => "no body and no descriptor",
        SET_MEM_TABLE => "1 to 32 regions, each with a size and a descriptor",
        SET_LOG_BASE => "16 bytes, a size that is not 0, and one descriptor",
        SET_VRING_NUM => "8 bytes and no descriptor",
        SET_VRING_ADDR => "40 bytes with aligned addresses and flags of 0 or 1",
        SET_VRING_BASE => "8 bytes and no descriptor",
        GET_VRING_BASE => "8 bytes and no descriptor",
        SET_VRING_KICK => "8 bytes and one descriptor, or bit 8 set and none",
        SET_VRING_CALL => "8 bytes and one descriptor, or bit 8 set and none",
        SET_VRING_ERR => "8 bytes and one descriptor, or bit 8 set and none",
        GET_PROTOCOL_FEATURES => "no body and no descriptor",
        SET_PROTOCOL_FEATURES => "8 bytes and no descriptor",
        GET_QUEUE_NUM => "no body and no descriptor",
        SET_VRING_ENABLE => "8 bytes, of which the last four are 0 or 1",
        NET_SET_MTU => "8 bytes, a number below 65536",
        SET_BACKEND_REQ_FD => "one descriptor",
        GET_CONFIG => "a part of the first 4096 bytes, with as many bytes behind it as it says",
        SET_CONFIG => "a part of the first 4096 bytes, with as many bytes behind it as it says",
        POSTCOPY_ADVISE => "no descriptor",
        POSTCOPY_LISTEN => "no descriptor",
        POSTCOPY_END => "no descriptor",
        GET_INFLIGHT_FD => "24 bytes, rings that are not 0",
        SET_INFLIGHT_FD => "24 bytes, rings that are not 0, and one descriptor",
        GPU_SET_SOCKET => "one descriptor",
        RESET_DEVICE => "no body and no descriptor",
        GET_MAX_MEM_SLOTS => "no body and no descriptor",
        ADD_MEM_REG => "40 bytes and one descriptor",
        REM_MEM_REG => "40 bytes",
        GET_SHARED_OBJECT => "16 bytes, neither all 0 nor all ones",
        SET_DEVICE_STATE_FD => "8 bytes, a direction and the phase 0, and one descriptor",
        CHECK_DEVICE_STATE => "no descriptor",
        GET_SHMEM_CONFIG => "no descriptor",
        SET_LOG_FD => return None,
        SEND_RARP => return None,
        IOTLB_MSG => return None,
        SET_VRING_ENDIAN => return None,
        CREATE_CRYPTO_SESSION => return None,
        CLOSE_CRYPTO_SESSION => return None,
        VRING_KICK => return None,
        SET_STATUS => return None,
        GET_STATUS => return None,
        // end
    })
}
