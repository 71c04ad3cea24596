// SPDX-License-Identifier: Apache-2.0
//! A frontend's session of the proved library, with what its requests changed in it: one that was not sent is taken back.
use std::mem::take;
use std::ops::{Deref, DerefMut};

use super::transport::HEADER;
use crate::foreign::{Asks, Code, Moves, Outcome, Owning, Session, MAX_FDS, MAX_MESSAGE};

/// What a session has by the requests that were made.
#[derive(Clone, Copy, Default)]
struct Agreed {
    offered: u64,
    /// Those that are accepted, of the virtio features that were offered then.
    features: u64,
    protocol_features: u64,
    is_listening: bool,
}

/// What changes once a call has succeeded.
#[derive(Default)]
enum Change {
    #[default]
    Nothing,
    Offered,
    Listening(bool),
}

/// A session: with the calls of `Session`, of which those that change it are counted here.
pub(super) struct FrontendSession {
    session: Owning<Session>,
    agreed: Agreed,
    /// The same before the call that was asked last.
    before: Agreed,
    change: Change,
}

impl FrontendSession {
    pub(super) fn open(max_queue_num: u64) -> Result<FrontendSession, Code> {
        let session = Owning::new(Session::open(max_queue_num)?);
        Ok(FrontendSession { session, agreed: Agreed::default(), before: Agreed::default(), change: Change::Nothing })
    }

    pub(super) fn get_features(&mut self) -> Outcome {
        self.change = Change::Offered;
        self.session.get_features()
    }

    pub(super) fn set_features(&mut self, features: u64) -> Outcome {
        self.session.set_features(features)?;
        self.agreed.features = features & self.agreed.offered;
        Ok(())
    }

    pub(super) fn set_protocol_features(&mut self, features: u64) -> Outcome {
        self.session.set_protocol_features(features)?;
        self.agreed.protocol_features = features;
        Ok(())
    }

    pub(super) fn postcopy_listen(&mut self) -> Outcome {
        self.change = Change::Listening(true);
        self.session.postcopy_listen()
    }

    pub(super) fn postcopy_end(&mut self) -> Outcome {
        self.change = Change::Listening(false);
        self.session.postcopy_end()
    }

    /// Makes a call that nothing is sent for, as if this number were replied.
    fn pretend(&mut self, ask: impl FnOnce(&mut Session) -> Outcome, number: u64) -> Outcome {
        const VERSION_AND_REPLY: u32 = 5;
        let (mut bytes, mut fds) = ([0; MAX_MESSAGE], [-1; MAX_FDS]);
        ask(&mut self.session)?;
        self.session.next_to_send(&mut bytes, &mut fds)?;
        bytes[4..8].copy_from_slice(&VERSION_AND_REPLY.to_le_bytes());
        bytes[8..HEADER].copy_from_slice(&8u32.to_le_bytes());
        bytes[HEADER..HEADER + 8].copy_from_slice(&number.to_le_bytes());
        for piece in [&bytes[..HEADER], &bytes[HEADER..HEADER + 8]] {
            if self.session.missing() != 0 {
                self.session.receive(piece, &mut Vec::new())?;
            }
        }
        self.session.take_reply()
    }
}

impl Asks for FrontendSession {
    type Session = Session;

    fn owning(&mut self) -> &mut Owning<Session> {
        &mut self.session
    }

    fn begin(&mut self) {
        self.before = self.agreed;
        self.change = Change::Nothing;
    }

    fn take(&mut self) -> Outcome {
        self.session.take_reply()?;
        match take(&mut self.change) {
            Change::Nothing => {}
            Change::Offered => self.agreed.offered = self.session.answer_number()?,
            Change::Listening(is_on) => self.agreed.is_listening = is_on,
        }
        Ok(())
    }

    fn undo(&mut self) -> Outcome {
        let Agreed { offered, features, protocol_features, is_listening } = self.before;
        if self.agreed.features != features {
            // (what is accepted has to be offered, which it may have been before)
            self.pretend(Session::get_features, features)?;
            self.pretend(|session| session.set_features(features), 0)?;
            self.pretend(Session::get_features, offered)?;
        }
        if self.agreed.protocol_features != protocol_features {
            self.pretend(|session| session.set_protocol_features(protocol_features), 0)?;
        }
        if self.agreed.is_listening != is_listening {
            self.pretend(if is_listening { Session::postcopy_listen } else { Session::postcopy_end }, 0)?;
        }
        self.agreed = self.before;
        Ok(())
    }

    fn inactive(&mut self) -> u64 {
        self.session.inactive()
    }
}

impl Deref for FrontendSession {
    type Target = Session;

    fn deref(&self) -> &Session {
        &self.session
    }
}

impl DerefMut for FrontendSession {
    fn deref_mut(&mut self) -> &mut Session {
        &mut self.session
    }
}
