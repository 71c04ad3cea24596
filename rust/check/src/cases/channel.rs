// SPDX-License-Identifier: Apache-2.0
//! The channel for requests of the backend.
use std::os::unix::net::UnixStream;

use super::*;
use crate::connection::Terms;
use crate::patience::Patience;
use crate::ring::Ring;
use crate::system::{is_readable, receive, send};
use crate::target::Setup;

pub(super) const CASES: &[Case] = &[
    ("CHN-01", |t| refused_channel(t, Vec::new())),
    ("CHN-02", |t| refused_channel(t, events(1)?)),
    ("CHN-03", channel_is_replaced),
    ("CHN-04", channel_is_closed),
    ("IBN-01", signals_are_messages),
];

/// Requests of the backend: what a translation misses, that the configuration has changed, and that a buffer of a ring is used.
pub(super) const IOTLB_MSG: u32 = 1;
pub(super) const CONFIG_CHANGE: u32 = 2;
const VRING_CALL: u32 = 4;

fn refused_channel(t: &mut Target, descriptors: Vec<OwnedFd>) -> Outcome {
    let mut c = t.negotiate_with(Feature::BACKEND_REQ | Feature::REPLY_ACK)?;
    refused(&mut c, Request::SET_BACKEND_REQ_FD, &[], &descriptors)
}

/// Gives a channel: its other end.
pub(super) fn give_channel(c: &mut Connection) -> Result<UnixStream, Stop> {
    let (kept, given) = UnixStream::pair()?;
    c.send(Request::SET_BACKEND_REQ_FD, &[], &[given.as_raw_fd()])?;
    drop(given);
    c.fence()?;
    Ok(kept)
}

/// A request of the backend.
pub(super) struct Asked {
    pub code: u32,
    flags: u32,
    pub body: Vec<u8>,
}

/// So many bytes of the channel, of a message that has begun.
pub(super) fn taken(channel: &UnixStream, count: usize, c: &Connection) -> Result<Vec<u8>, Stop> {
    let (mut bytes, mut at) = (vec![0; count], 0);
    while at < count {
        if !Patience::new(c.process, c.limit).wait_until(|| is_readable(channel, 0)) {
            return Err(Stop::Odd("half a message on the channel".to_string()));
        }
        match receive(channel, &mut bytes[at..], &mut Vec::new())? {
            0 => return Err(Stop::Odd("it closed the channel".to_string())),
            more => at += more,
        }
    }
    Ok(bytes)
}

/// The next request of the backend that has come, which is acknowledged where it wants that; none where none has come.
pub(super) fn next_asked(channel: &UnixStream, c: &Connection) -> Result<Option<Asked>, Stop> {
    if !is_readable(channel, 0) {
        return Ok(None);
    }
    let head = taken(channel, 12, c)?;
    let [code, flags, size] = [0, 4, 8].map(|at| u32_at(&head, at));
    Ok(Some(Asked { code, flags, body: taken(channel, size.min(4096) as usize, c)? }))
}

/// Acknowledges a request of the backend, where it wants that.
pub(super) fn acknowledge(channel: &UnixStream, asked: &Asked) -> Result<(), Stop> {
    if asked.flags & NEED_REPLY != 0 {
        send(channel, &joined(&[&header(asked.code, VERSION | REPLY, 8), &u64s(&[0])]), &[])?;
    }
    Ok(())
}

/// Whether the other end of a socket is closed.
fn is_at_its_end(socket: &UnixStream, c: &Connection) -> bool {
    let came = Patience::new(c.process, c.limit / 2).wait_until(|| is_readable(socket, 0));
    came && !matches!(receive(socket, &mut [0], &mut Vec::new()), Ok(1..))
}

fn channel_is_replaced(t: &mut Target) -> Outcome {
    let mut c = t.negotiate_with(Feature::BACKEND_REQ)?;
    let old = give_channel(&mut c)?;
    let _new = give_channel(&mut c)?;
    let ended = is_at_its_end(&old, &c);
    seen(ended, if ended { "the first has ended" } else { "the first is still open" })
}

/// The rings of a device that are kicked by messages; the one that is driven has a request.
fn kicked_by_messages(t: &Target, c: &mut Connection) -> Result<Ring, Stop> {
    let kind = t.kind()?;
    c.give_memory()?;
    let mut driven = None;
    for index in 0..kind.rings() {
        let mut ring = Ring::new(c, index)?;
        ring.say_size(c)?;
        ring.say_base(c, 0)?;
        ring.say_addresses(c)?;
        ring.enable(c, true)?;
        driven = if index == kind.driven() { Some(ring) } else { driven };
    }
    t.say_ready(c)?;
    let mut ring = driven.ok_or_else(|| Stop::Trouble("no ring is driven".to_string()))?;
    kind.write_request(&ring);
    ring.make_available(0, 1);
    Ok(ring)
}

/// Without eventfds: the kick is a message, and so is the call.
fn signals_are_messages(t: &mut Target) -> Outcome {
    let mut c = t.negotiate_by(Terms { with: Feature::INBAND_NOTIFICATIONS, ..Terms::default() })?;
    c.want(Feature::INBAND_NOTIFICATIONS | Feature::BACKEND_REQ | Feature::REPLY_ACK)?;
    let channel = give_channel(&mut c)?;
    let ring = kicked_by_messages(t, &mut c)?;
    c.send_as(Request::VRING_KICK.into(), NEED_REPLY, &u32s(&[ring.index, 0]), &[])?;
    let mut calls = Vec::new();
    Patience::new(c.process, c.limit).wait_until(|| {
        while let Ok(Some(asked)) = next_asked(&channel, &c) {
            let _ = acknowledge(&channel, &asked);
            calls.push((asked.code, u32_at(&asked.body, 0)));
        }
        ring.used_index() == 1 && !calls.is_empty()
    });
    let replies = c.fence()?;
    let holds = ring.used_index() == 1 && calls.contains(&(VRING_CALL, ring.index)) && is_zero(&replies);
    seen(holds, format!("{}; used {}, on the channel {calls:?}", listed(&replies), ring.used_index()))
}

fn channel_is_closed(t: &mut Target) -> Outcome {
    let mut c = t.negotiate_with(Feature::BACKEND_REQ)?;
    drop(give_channel(&mut c)?);
    let mut rings = t.rings(&mut c, Setup::WHOLE)?;
    let done = works(t, &c, rings.driven(), 1)?;
    seen(done && c.is_usable()?, format!("used {}", rings.driven().used_index()))
}
