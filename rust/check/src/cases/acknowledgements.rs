// SPDX-License-Identifier: Apache-2.0
//! Each request with and without NEED_REPLY.
use std::os::unix::net::UnixStream;

use super::*;
use crate::connection::Terms;
use crate::ring::Ring;
use crate::target::Setup;

pub(super) const CASES: &[Case] = &[
    ("ACK-01a", |t| acknowledged(t, Request::SET_OWNER)),
    ("ACK-01b", |t| not_acknowledged(t, Request::SET_OWNER)),
    ("ACK-02a", |t| acknowledged(t, Request::SET_FEATURES)),
    ("ACK-02b", |t| not_acknowledged(t, Request::SET_FEATURES)),
    ("ACK-03a", |t| acknowledged(t, Request::SET_PROTOCOL_FEATURES)),
    ("ACK-03b", |t| not_acknowledged(t, Request::SET_PROTOCOL_FEATURES)),
    ("ACK-04a", |t| acknowledged(t, Request::SET_MEM_TABLE)),
    ("ACK-04b", |t| not_acknowledged(t, Request::SET_MEM_TABLE)),
    ("ACK-05a", |t| acknowledged(t, Request::SET_VRING_NUM)),
    ("ACK-05b", |t| not_acknowledged(t, Request::SET_VRING_NUM)),
    ("ACK-06a", |t| acknowledged(t, Request::SET_VRING_BASE)),
    ("ACK-06b", |t| not_acknowledged(t, Request::SET_VRING_BASE)),
    ("ACK-07a", |t| acknowledged(t, Request::SET_VRING_CALL)),
    ("ACK-07b", |t| not_acknowledged(t, Request::SET_VRING_CALL)),
    ("ACK-08a", |t| acknowledged(t, Request::SET_VRING_ERR)),
    ("ACK-08b", |t| not_acknowledged(t, Request::SET_VRING_ERR)),
    ("ACK-09a", |t| acknowledged(t, Request::SET_VRING_KICK)),
    ("ACK-09b", |t| not_acknowledged(t, Request::SET_VRING_KICK)),
    ("ACK-10a", |t| acknowledged(t, Request::SET_VRING_ADDR)),
    ("ACK-10b", |t| not_acknowledged(t, Request::SET_VRING_ADDR)),
    ("ACK-11a", |t| acknowledged(t, Request::SET_VRING_ENABLE)),
    ("ACK-11b", |t| not_acknowledged(t, Request::SET_VRING_ENABLE)),
    ("ACK-12a", |t| acknowledged(t, Request::SET_LOG_FD)),
    ("ACK-12b", |t| not_acknowledged(t, Request::SET_LOG_FD)),
    ("ACK-13a", |t| acknowledged(t, Request::SET_BACKEND_REQ_FD)),
    ("ACK-13b", |t| not_acknowledged(t, Request::SET_BACKEND_REQ_FD)),
    ("ACK-14a", |t| acknowledged(t, Request::ADD_MEM_REG)),
    ("ACK-14b", |t| not_acknowledged(t, Request::ADD_MEM_REG)),
    ("ACK-15a", |t| acknowledged(t, Request::NET_SET_MTU)),
    ("ACK-15b", |t| not_acknowledged(t, Request::NET_SET_MTU)),
    ("ACK-16a", |t| acknowledged(t, Request::SEND_RARP)),
    ("ACK-16b", |t| not_acknowledged(t, Request::SEND_RARP)),
    ("ACK-17a", |t| acknowledged(t, Request::RESET_DEVICE)),
    ("ACK-17b", |t| not_acknowledged(t, Request::RESET_DEVICE)),
    ("ACK-18a", |t| acknowledged(t, Request::RESET_OWNER)),
    ("ACK-18b", |t| not_acknowledged(t, Request::RESET_OWNER)),
    ("ACK-19a", |t| acknowledged(t, Request::SET_STATUS)),
    ("ACK-19b", |t| not_acknowledged(t, Request::SET_STATUS)),
    ("ACK-30", nothing_was_negotiated),
    ("ACK-31", own_reply_alone),
];

/// A request that is right, and what has to be kept open meanwhile.
struct Asked {
    body: Vec<u8>,
    descriptors: Vec<OwnedFd>,
    _kept: Option<UnixStream>,
}

impl Asked {
    fn new(body: Vec<u8>, descriptors: Vec<OwnedFd>) -> Self {
        Asked { body, descriptors, _kept: None }
    }

    fn plain(body: Vec<u8>) -> Self {
        Asked::new(body, Vec::new())
    }
}

/// A request after all that has to come before it.
fn prepared(c: &mut Connection, request: Request) -> Result<Asked, Stop> {
    let needed = match request {
        Request::SET_BACKEND_REQ_FD => Feature::BACKEND_REQ,
        Request::ADD_MEM_REG => Feature::CONFIGURE_MEM_SLOTS,
        Request::NET_SET_MTU => Feature::MTU,
        Request::SEND_RARP => Feature::RARP,
        Request::RESET_DEVICE => Feature::RESET_DEVICE,
        Request::SET_STATUS => Feature::STATUS,
        _ => Feature::empty(),
    };
    c.want(needed)?;
    Ok(match request {
        Request::SET_FEATURES => Asked::plain(u64s(&[c.accepted])),
        Request::SET_PROTOCOL_FEATURES => Asked::plain(u64s(&[c.protocol])),
        Request::SET_MEM_TABLE => Asked::new(table(&[Region::ALL]), files(1, SIZE)?),
        Request::ADD_MEM_REG => Asked::new(Region::ALL.single(), files(1, SIZE)?),
        Request::SET_VRING_NUM => Asked::plain(u32s(&[0, 64])),
        Request::SET_VRING_BASE | Request::SET_VRING_ENABLE => Asked::plain(u32s(&[0, 0])),
        Request::SET_VRING_CALL | Request::SET_VRING_ERR => Asked::new(u64s(&[0]), events(1)?),
        Request::SET_VRING_KICK => kick(c)?,
        Request::SET_VRING_ADDR => addresses(c)?,
        Request::SET_LOG_FD => Asked::new(Vec::new(), events(1)?),
        Request::SET_BACKEND_REQ_FD => socket()?,
        Request::NET_SET_MTU => Asked::plain(u64s(&[1500])),
        Request::SEND_RARP => Asked::plain(u64s(&[0x5254_0000_0001])),
        Request::SET_STATUS => Asked::plain(u64s(&[1])),
        _ => Asked::plain(Vec::new()),
    })
}

fn kick(c: &mut Connection) -> Result<Asked, Stop> {
    c.give_memory()?;
    Ring::new(c, 0)?.prepare(c, 0)?;
    Ok(Asked::new(u64s(&[0]), events(1)?))
}

fn addresses(c: &mut Connection) -> Result<Asked, Stop> {
    c.give_memory()?;
    let ring = Ring::new(c, 0)?;
    ring.say_size(c)?;
    Ok(Asked::plain(ring.addresses(0, 0)))
}

fn socket() -> Result<Asked, Stop> {
    let (kept, given) = UnixStream::pair()?;
    Ok(Asked { body: Vec::new(), descriptors: vec![given.into()], _kept: Some(kept) })
}

/// What is replied to a request that is right.
fn replies_to(t: &mut Target, request: Request, flags: u32) -> Result<Vec<Reply>, Stop> {
    let mut c = t.negotiate_by(Terms { no_owner: request == Request::SET_OWNER, ..Terms::default() })?;
    if flags != 0 {
        c.want(Feature::REPLY_ACK)?;
    }
    let asked = prepared(&mut c, request)?;
    let descriptors: Vec<_> = asked.descriptors.iter().map(AsRawFd::as_raw_fd).collect();
    c.ask_as(request.into(), flags, &asked.body, &descriptors)
}

fn acknowledged(t: &mut Target, request: Request) -> Outcome {
    let replies = replies_to(t, request, NEED_REPLY)?;
    // (a backend may refuse these two, which is an acknowledgement as well)
    let may_be_refused = matches!(request, Request::SET_LOG_FD | Request::RESET_OWNER);
    let is_one = matches!(&replies[..], [one] if one.flags == VERSION | REPLY && one.body.len() == 8);
    seen(is_one && (may_be_refused || replies[0].is_zero()), listed(&replies))
}

fn not_acknowledged(t: &mut Target, request: Request) -> Outcome {
    seen_nothing(replies_to(t, request, 0)?)
}

fn nothing_was_negotiated(t: &mut Target) -> Outcome {
    let mut c = t.negotiate_by(Terms { without: Feature::REPLY_ACK, ..Terms::default() })?;
    seen_nothing(c.need(Request::SET_VRING_NUM, &u32s(&[0, 64]), &[])?)
}

fn own_reply_alone(t: &mut Target) -> Outcome {
    let mut c = t.negotiate()?;
    let _rings = t.rings(&mut c, Setup::WHOLE)?;
    c.send_as(Request::GET_VRING_BASE.into(), NEED_REPLY, &u32s(&[0, 0]), &[])?;
    let reply = c.reply()?;
    let more = c.fence()?;
    let is_right = reply.code == u32::from(Request::GET_VRING_BASE) && reply.body.len() == 8 && more.is_empty();
    seen(is_right, format!("{reply}, then {}", listed(&more)))
}
