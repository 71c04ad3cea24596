// SPDX-License-Identifier: Apache-2.0
//! What a tap sees: connections, messages with their descriptors, and ends.
use std::fmt;

use crate::vhost_user::message::{FrontendReq, VhostUserHeaderFlag, MAX_MSG_SIZE};

/// The bytes of a header.
pub(super) const HEADER: usize = 12;

/// A number of so many bytes. Where bytes are missing they are 0.
pub(super) fn number_at(bytes: &[u8], at: usize, width: usize) -> u64 {
    let part = bytes.iter().skip(at).take(width);
    part.zip((0..).step_by(8)).fold(0, |number, (byte, shift): (_, u32)| number | u64::from(*byte) << shift)
}

/// The same of four bytes.
pub(super) fn u32_at(bytes: &[u8], at: usize) -> u32 {
    number_at(bytes, at, 4) as u32
}

/// Which connection of a session: that to the device, or the backend channel.
#[derive(Clone, Copy, Debug, PartialEq, Eq)]
pub(super) enum Channel {
    Device,
    Backend,
}

/// Whose bytes these are.
#[derive(Clone, Copy, Debug, PartialEq, Eq)]
pub(super) enum Side {
    Frontend,
    Backend,
}

/// Which way something goes.
#[derive(Clone, Copy, Debug, PartialEq, Eq)]
pub(super) struct Way {
    pub(super) channel: Channel,
    pub(super) from: Side,
}

/// The two ways of the connection to the device.
pub(super) const TO_BACKEND: Way = Way { channel: Channel::Device, from: Side::Frontend };
pub(super) const TO_FRONTEND: Way = Way { channel: Channel::Device, from: Side::Backend };

const WAYS: [(&str, Way); 4] = [
    ("F>B", TO_BACKEND),
    ("B>F", TO_FRONTEND),
    ("rev:F>B", Way { channel: Channel::Backend, from: Side::Frontend }),
    ("rev:B>F", Way { channel: Channel::Backend, from: Side::Backend }),
];

impl Way {
    /// By the name that it is shown by.
    pub(super) fn of_name(name: &str) -> Option<Way> {
        WAYS.iter().find(|(it, _)| *it == name).map(|(_, way)| *way)
    }
}

impl fmt::Display for Way {
    fn fmt(&self, f: &mut fmt::Formatter<'_>) -> fmt::Result {
        let name = WAYS.iter().find(|(_, way)| way == self).map_or("", |(name, _)| name);
        f.pad(name)
    }
}

/// A message, or what of it came before the stream ended.
#[derive(Clone, Debug, Default, PartialEq, Eq)]
pub(super) struct Message {
    pub(super) bytes: Vec<u8>,
    /// What its descriptors are.
    pub(super) fds: Vec<String>,
    /// At which bytes receives began that brought some.
    pub(super) fds_at: Vec<usize>,
    /// How many of them did not come with the first byte.
    pub(super) body_fds: usize,
    /// How many bytes each receive brought.
    pub(super) cuts: Vec<usize>,
    /// It did not come whole.
    pub(super) is_short: bool,
}

impl Message {
    pub(super) fn code(&self) -> u32 {
        u32_at(&self.bytes, 0)
    }

    pub(super) fn flags(&self) -> u32 {
        u32_at(&self.bytes, 4)
    }

    pub(super) fn has_flag(&self, flag: VhostUserHeaderFlag) -> bool {
        self.flags() & flag.bits() != 0
    }

    /// The size of the body that the header says.
    pub(super) fn size(&self) -> usize {
        u32_at(&self.bytes, 8) as usize
    }

    pub(super) fn body(&self) -> &[u8] {
        self.bytes.get(HEADER..).unwrap_or(&[])
    }

    /// How many descriptors came with the first byte.
    pub(super) fn own_fds(&self) -> usize {
        self.fds.len().saturating_sub(self.body_fds)
    }

    /// Whether all of it came, as its header says. Of one that is too long the header alone is a message.
    pub(super) fn is_whole(&self) -> bool {
        let count = self.bytes.len();
        !self.is_short && count >= HEADER && (count == HEADER + self.size() || count == HEADER && self.size() > MAX_MSG_SIZE)
    }

    pub(super) fn request(&self) -> Option<FrontendReq> {
        FrontendReq::try_from(self.code()).ok()
    }
}

/// What happened.
#[derive(Clone, Debug, PartialEq)]
pub(super) enum What {
    /// A frontend came, and the backend was connected to; or why not.
    Connected(Result<(), String>),
    Message(Way, Message),
    /// Bytes that are no message, behind something that was none.
    Bytes(Way, Vec<u8>),
    /// The stream ended, or failed so.
    Ended(Way, Option<String>),
    /// The reply to a request has been awaited for so many seconds. It is not recorded, since it follows from the times.
    Waits(u32, String),
    /// Nothing more of the session was seen, before it ended.
    Left,
}

/// What happened in a session, and when: in seconds since the tap was started.
#[derive(Clone, Debug, PartialEq)]
pub(super) struct Event {
    pub(super) time: f64,
    pub(super) session: u64,
    pub(super) what: What,
}

impl Event {
    /// Whether it is of the connection to the device.
    pub(super) fn is_of_the_device(&self) -> bool {
        match &self.what {
            What::Connected(_) | What::Waits(..) | What::Left => true,
            What::Message(way, _) | What::Bytes(way, _) | What::Ended(way, _) => way.channel == Channel::Device,
        }
    }
}

#[cfg(test)]
mod tests {
    use super::*;

    #[test]
    fn numbers_are_little_endian_and_end_with_their_bytes() {
        assert_eq!(0x0403_0201, number_at(&[1, 2, 3, 4, 5], 0, 4));
        assert_eq!(0x0504, number_at(&[1, 2, 3, 4, 5], 3, 8));
        assert_eq!(0, number_at(&[1], 1, 8));
    }

    #[test]
    fn ways_have_names() {
        for (name, way) in WAYS {
            assert_eq!(Some(way), Way::of_name(name));
            assert_eq!(name, way.to_string());
        }
        assert_eq!(None, Way::of_name("-"));
    }
}
