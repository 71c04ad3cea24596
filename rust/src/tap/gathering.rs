// SPDX-License-Identifier: Apache-2.0
//! The bytes of a stream as messages: what is received of one, and what of that was not passed on yet.
use std::fs::read_link;
use std::io;
use std::os::unix::io::{AsFd, AsRawFd, OwnedFd, RawFd};

use super::event::{u32_at, Message, HEADER};
use crate::foreign::PeerFd;
use crate::vhost_user::message::MAX_MSG_SIZE;

/// How much is received at a time of a stream that is none of messages.
pub(super) const ROOM: usize = 0x10000;

/// A message that is received.
#[derive(Default)]
pub(super) struct Gathering {
    message: Message,
    /// How many of its bytes were passed on.
    passed: usize,
    /// Descriptors that were not passed on. They came with the first byte that was not.
    fds: Vec<PeerFd>,
    /// A header announced more than a message may have: what follows is no message.
    is_lost: bool,
}

/// What is to be done with what was received.
#[derive(Clone, Copy, Debug, PartialEq, Eq)]
pub(super) enum Received {
    /// More is missing.
    Part,
    /// The message is whole.
    Message,
    /// It is no part of a message.
    Bytes,
}

impl Gathering {
    /// How many bytes may be received next. No further than the message: the system does not say at which byte descriptors came.
    pub(super) fn missing(&self) -> usize {
        match self.message.bytes.len() {
            _ if self.is_lost => ROOM,
            count if count < HEADER => HEADER - count,
            count => HEADER + self.message.size() - count,
        }
    }

    /// Whether something is held back.
    pub(super) fn holds(&self) -> bool {
        self.passed < self.message.bytes.len()
    }

    /// Whether a part of a message came, and the rest is missing.
    pub(super) fn is_part(&self) -> bool {
        !self.is_lost && !self.message.bytes.is_empty() && self.missing() != 0
    }

    /// Takes in what was received. What was held back before is passed on first where descriptors came along, so that they stay
    /// with their bytes.
    pub(super) fn take_in(&mut self, bytes: &[u8], fds: Vec<PeerFd>) -> Received {
        let kinds = fds.iter().map(kind_of).collect();
        self.fds.extend(fds);
        self.note(bytes, kinds)
    }

    /// Notes what was received, and what its descriptors are.
    pub(super) fn note(&mut self, bytes: &[u8], kinds: Vec<String>) -> Received {
        let at = self.message.bytes.len();
        if !kinds.is_empty() {
            self.message.fds_at.push(at);
            self.message.body_fds += if at == 0 { 0 } else { kinds.len() };
            self.message.fds.extend(kinds);
        }
        self.message.cuts.push(bytes.len());
        self.message.bytes.extend_from_slice(bytes);
        if self.is_lost {
            return Received::Bytes;
        }
        if self.message.bytes.len() >= HEADER && self.message.size() > MAX_MSG_SIZE {
            self.is_lost = true;
            return Received::Message;
        }
        match self.missing() {
            0 => Received::Message,
            _ => Received::Part,
        }
    }

    /// What is held back, with its descriptors.
    pub(super) fn held(&self) -> (&[u8], Vec<RawFd>) {
        (&self.message.bytes[self.passed..], self.fds.iter().map(AsRawFd::as_raw_fd).collect())
    }

    /// Whether all of a message is held back that has this code and one descriptor.
    pub(super) fn holds_all_of(&self, code: u32) -> bool {
        self.passed == 0 && u32_at(&self.message.bytes, 0) == code && self.fds.len() == 1 && self.message.body_fds == 0
    }

    /// Another descriptor of the file whose descriptor is held back first.
    pub(super) fn clone_fd(&self) -> io::Result<OwnedFd> {
        self.fds.first().ok_or(io::ErrorKind::NotFound)?.as_fd().try_clone_to_owned()
    }

    /// Passes this one descriptor on in the place of those that are held back.
    pub(super) fn replace_fds(&mut self, fd: OwnedFd) {
        self.fds = vec![fd.into()];
    }

    /// What is held back was passed on. Its descriptors are closed, and stay what they are for their receiver: where that one has closed
    /// a socket before, and it lingers, its sender waits here for what it sends next.
    pub(super) fn set_passed(&mut self) {
        self.passed = self.message.bytes.len();
        self.fds.drain(..).map(OwnedFd::from).for_each(drop);
    }

    /// The message as far as it was received.
    pub(super) fn message(&self) -> &Message {
        &self.message
    }

    /// The message has been passed on; another begins.
    pub(super) fn begin(&mut self) {
        self.message = Message::default();
        self.passed = 0;
    }
}

/// What a descriptor is, as a recording names it.
pub fn kind_of(fd: &impl AsRawFd) -> String {
    let link = match read_link(format!("/proc/self/fd/{}", fd.as_raw_fd())) {
        Ok(link) => link.to_string_lossy().into_owned(),
        Err(_) => return "unknown".to_string(),
    };
    let link = link.strip_suffix(" (deleted)").unwrap_or(&link);
    match link.split_once(':') {
        Some((kind @ ("socket" | "pipe"), _)) => kind.to_string(),
        _ if link.starts_with('/') => format!("file:{link}"),
        _ => link.to_string(),
    }
}

#[cfg(test)]
mod tests {
    use super::*;

    #[test]
    fn a_message_in_pieces_is_whole_with_its_last_byte() {
        let mut gathering = Gathering::default();
        assert_eq!(12, gathering.missing());
        assert!(!gathering.is_part());
        assert_eq!(Received::Part, gathering.take_in(&[1, 0, 0, 0, 1], Vec::new()));
        assert_eq!((7, true), (gathering.missing(), gathering.is_part()));
        gathering.set_passed();
        assert_eq!(Received::Part, gathering.take_in(&[0, 0, 0, 2, 0, 0, 0], Vec::new()));
        assert_eq!(2, gathering.missing());
        assert_eq!(Received::Message, gathering.take_in(&[7, 8], Vec::new()));
        assert!(!gathering.is_part());
        assert_eq!(&[0, 0, 0, 2, 0, 0, 0, 7, 8], gathering.held().0);
        assert_eq!(vec![5, 7, 2], gathering.message().cuts);
        gathering.set_passed();
        gathering.begin();
        assert_eq!((12, false), (gathering.missing(), gathering.holds()));
    }

    #[test]
    fn behind_too_long_a_message_there_are_none() {
        let mut gathering = Gathering::default();
        assert_eq!(Received::Message, gathering.take_in(&[1, 0, 0, 0, 1, 0, 0, 0, 1, 0x10, 0, 0], Vec::new()));
        gathering.set_passed();
        gathering.begin();
        assert_eq!(ROOM, gathering.missing());
        assert_eq!(Received::Bytes, gathering.take_in(&[1; 40], Vec::new()));
        assert!(!gathering.is_part());
    }

    #[test]
    fn kinds_of_descriptors() {
        let (socket, _other) = std::os::unix::net::UnixStream::pair().unwrap();
        assert_eq!("socket", kind_of(&socket));
        let file = std::fs::File::open("/dev/null").unwrap();
        assert_eq!("file:/dev/null", kind_of(&file));
    }
}
