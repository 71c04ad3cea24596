// SPDX-License-Identifier: Apache-2.0
//! Which request a reply answers, and so how long it was awaited: for the eye, and not to judge by.
use std::collections::{BTreeMap, VecDeque};

use super::event::{Channel, Event, Message, Side, Way, What};
use super::refused::has_own_reply;
use crate::vhost_user::message::{BackendReq, FrontendReq, VhostUserHeaderFlag};

/// How many requests of a channel are remembered, so that one whose replies never come takes no more memory.
const MOST_OPEN: usize = 256;

/// The requests of each channel that a reply may still come to.
#[derive(Default)]
pub(super) struct Replies {
    open: BTreeMap<(u64, bool), VecDeque<(u32, f64)>>,
}

impl Replies {
    /// For how many seconds this event was awaited, where it is the reply to a request.
    pub(super) fn see(&mut self, event: &Event) -> Option<f64> {
        match &event.what {
            What::Message(way, message) if is_reply(*way, message) => self.settle(event, *way, message),
            What::Message(way, message) => {
                if may_be_replied_to(*way, message) {
                    self.open(event, *way, message);
                }
                None
            }
            What::Ended(way, _) => {
                self.open.remove(&key(event, *way));
                None
            }
            _ => None,
        }
    }

    fn open(&mut self, event: &Event, way: Way, request: &Message) {
        let open = self.open.entry(key(event, way)).or_default();
        open.push_back((request.code(), event.time));
        if open.len() > MOST_OPEN {
            open.pop_front();
        }
    }

    /// Replies come in the order of their requests, so those before this one's are forgotten.
    fn settle(&mut self, event: &Event, way: Way, reply: &Message) -> Option<f64> {
        let open = self.open.get_mut(&key(event, way))?;
        let at = open.iter().position(|(code, _)| *code == reply.code())?;
        let (_, asked) = open.drain(..=at).next_back()?;
        Some(event.time - asked)
    }
}

fn key(event: &Event, way: Way) -> (u64, bool) {
    (event.session, way.channel == Channel::Backend)
}

/// Whether this message goes the way of replies, and says that it is one.
pub(super) fn is_reply(way: Way, message: &Message) -> bool {
    let replies_from = match way.channel {
        Channel::Device => Side::Backend,
        Channel::Backend => Side::Frontend,
    };
    way.from == replies_from && message.has_flag(VhostUserHeaderFlag::REPLY)
}

fn may_be_replied_to(way: Way, request: &Message) -> bool {
    let has_reply = match way.channel {
        Channel::Device => has_own_reply(request) || request.request() == Some(FrontendReq::POSTCOPY_END),
        Channel::Backend => request.code() == u32::from(BackendReq::SHARED_OBJECT_LOOKUP),
    };
    has_reply || request.has_flag(VhostUserHeaderFlag::NEED_REPLY)
}

#[cfg(test)]
mod tests {
    use super::super::event::{TO_BACKEND, TO_FRONTEND};
    use super::*;

    const ASKS: u32 = 1;
    const REPLIES: u32 = 5;
    const WANTS: u32 = 9;

    /// How long the last of these messages was awaited; each is a way, a code and flags, and comes a second after the one before.
    fn awaited(messages: &[(Way, u32, u32)]) -> Option<f64> {
        let mut replies = Replies::default();
        let event = |(at, (way, code, flags)): (usize, &(Way, u32, u32))| {
            let bytes = [*code, *flags, 0].iter().flat_map(|it| it.to_le_bytes()).collect();
            let message = Message { bytes, ..Message::default() };
            Event { time: at as f64, session: 1, what: What::Message(*way, message) }
        };
        messages.iter().enumerate().map(event).map(|it| replies.see(&it)).last().flatten()
    }

    #[test]
    fn a_reply_is_of_the_first_request_of_its_code() {
        let get = (TO_BACKEND, 1, ASKS);
        assert_eq!(Some(1.0), awaited(&[get, (TO_FRONTEND, 1, REPLIES)]));
        assert_eq!(Some(2.0), awaited(&[get, get, (TO_FRONTEND, 1, REPLIES)]));
        let first = [get, get, (TO_FRONTEND, 1, REPLIES)];
        assert_eq!(Some(2.0), awaited(&[first.as_slice(), &[(TO_FRONTEND, 1, REPLIES)]].concat()));
        assert_eq!(None, awaited(&[(TO_BACKEND, 3, ASKS), (TO_FRONTEND, 3, REPLIES)]));
        assert_eq!(Some(1.0), awaited(&[(TO_BACKEND, 3, WANTS), (TO_FRONTEND, 3, REPLIES)]));
        assert_eq!(None, awaited(&[get, (TO_FRONTEND, 3, REPLIES)]));
    }

    #[test]
    fn the_backend_channel_has_its_own_requests() {
        let [asks, replies] = [Side::Backend, Side::Frontend].map(|from| Way { channel: Channel::Backend, from });
        assert_eq!(Some(1.0), awaited(&[(asks, 2, WANTS), (replies, 2, REPLIES)]));
        assert_eq!(None, awaited(&[(asks, 1, WANTS), (TO_FRONTEND, 1, REPLIES)]));
    }

    #[test]
    fn requests_without_replies_take_no_more_memory() {
        let mut replies = Replies::default();
        let bytes: Vec<u8> = [3, WANTS, 0].iter().flat_map(|it: &u32| it.to_le_bytes()).collect();
        for at in 0..1000u32 {
            let message = Message { bytes: bytes.clone(), ..Message::default() };
            replies.see(&Event { time: f64::from(at), session: 1, what: What::Message(TO_BACKEND, message) });
        }
        assert_eq!(MOST_OPEN, replies.open[&(1, false)].len());
        replies.see(&Event { time: 1000.0, session: 1, what: What::Ended(TO_FRONTEND, None) });
        assert!(replies.open.is_empty());
    }
}
