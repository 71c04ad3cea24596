// SPDX-License-Identifier: Apache-2.0
//! Requests of some devices alone, and connections.
use super::*;
use crate::target::Setup;

pub(super) const CASES: &[Case] = &[
    ("NET-01", wrong_mtu),
    ("NET-02", rarp),
    ("OBJ-01", unknown_object),
    ("SHM-01", shared_memory_regions),
    ("END-02", wrong_endian),
    ("CRY-01", crypto_session),
    ("CON-01", connections_one_by_one),
    ("CON-02", two_connections),
    ("CON-03", many_descriptors),
    ("CON-04", replies_are_not_read),
    ("CON-05", closed_without_reading),
    ("CON-06", |t| nothing_is_left(t, |t| t.open()?.number(Request::GET_FEATURES).map(drop))),
    ("CON-07", |t| nothing_is_left(t, with_memory)),
];

/// The most requests that are sent without a reply being read.
const MOST_UNREAD: usize = 4000;

fn wrong_mtu(t: &mut Target) -> Outcome {
    let mut c = t.negotiate_with(Feature::MTU | Feature::REPLY_ACK)?;
    let replies = c.need(Request::NET_SET_MTU, &u64s(&[0x12345]), &[])?;
    seen(replies.len() == 1 && !replies[0].is_zero(), listed(&replies))
}

fn rarp(t: &mut Target) -> Outcome {
    let mut c = t.negotiate_with(Feature::RARP | Feature::REPLY_ACK)?;
    let replies = c.need(Request::SEND_RARP, &u64s(&[0x5254_0000_0001]), &[])?;
    seen(replies.len() == 1, listed(&replies))
}

fn unknown_object(t: &mut Target) -> Outcome {
    let mut c = t.negotiate_with(Feature::SHARED_OBJECT)?;
    let reply = c.call(Request::GET_SHARED_OBJECT, &u64s(&[1, 2]), &[])?;
    seen(reply.descriptors.is_empty(), reply.to_string())
}

fn shared_memory_regions(t: &mut Target) -> Outcome {
    let mut c = t.negotiate_with(Feature::SHMEM)?;
    let first = c.call(Request::GET_SHMEM_CONFIG, &[], &[])?;
    let second = c.call(Request::GET_SHMEM_CONFIG, &[], &[])?;
    let sizes: Vec<u64> = (8..first.body.len()).step_by(8).map(|at| u64_at(&first.body, at)).collect();
    let count = sizes.iter().filter(|it| **it > 0).count();
    let is_right = first.body.len() == 2056 && sizes.iter().all(|it| it % 4096 == 0) && count == u32_at(&first.body, 0) as usize;
    seen(is_right && first.body == second.body, format!("{first}, {count} regions"))
}

fn wrong_endian(t: &mut Target) -> Outcome {
    let mut c = t.negotiate_with(Feature::CROSS_ENDIAN | Feature::REPLY_ACK)?;
    refused(&mut c, Request::SET_VRING_ENDIAN, &u32s(&[0, 2]), &[])
}

/// A session of AES in the mode CBC with a key of 16 bytes.
fn crypto_session(t: &mut Target) -> Outcome {
    let mut c = t.negotiate_with(Feature::CRYPTO_SESSION)?;
    let mut body = joined(&[&u64s(&[0]), &u32s(&[2, 3, 16, 1, 1])]);
    body.resize(1024, 0);
    let answer = Answer::of(c.ask(Request::CREATE_CRYPTO_SESSION, &body, &[]))?;
    answer.seen_answered()
}

/// A connection whose ring carries out a request.
fn a_ring_works(t: &mut Target) -> Result<(), Stop> {
    let mut c = t.negotiate()?;
    let mut rings = t.rings(&mut c, Setup::WHOLE)?;
    match works(t, &c, rings.driven(), 1)? {
        true => Ok(()),
        false => Err(Stop::Silent("the ring does not work".to_string())),
    }
}

/// A connection with memory, without rings.
fn with_memory(t: &mut Target) -> Result<(), Stop> {
    let mut c = t.negotiate()?;
    c.give_memory()?;
    c.fence().map(drop)
}

fn connections_one_by_one(t: &mut Target) -> Outcome {
    nothing_is_left(t, a_ring_works)
}

/// That connections of a kind leave no descriptors.
fn nothing_is_left(t: &mut Target, connect: fn(&mut Target) -> Result<(), Stop>) -> Outcome {
    if !t.persists {
        return Err(Stop::Skip("it ends after a connection".to_string()));
    }
    // (the first ones may leave what each later one uses again)
    let mut counts = Vec::new();
    for _ in 0..10 {
        connect(t)?;
        t.rest();
        counts.push(t.descriptors()?);
    }
    let before = counts[1..5].iter().copied().max().unwrap_or(0);
    let last = t.settled_descriptors(before)?;
    seen(last <= before, format!("descriptors {counts:?}, {last} at last"))
}

fn two_connections(t: &mut Target) -> Outcome {
    if !t.persists {
        return Err(Stop::Skip("it ends after a connection".to_string()));
    }
    let mut first = t.negotiate()?;
    let second = t.open().and_then(|mut it| {
        it.limit /= 4;
        it.number(Request::GET_FEATURES)
    });
    let how = match second {
        Ok(_) => "the second is served".to_string(),
        Err(stop) => format!("the second: {stop}"),
    };
    seen(first.is_usable()?, how)
}

fn many_descriptors(t: &mut Target) -> Outcome {
    let mut c = t.negotiate()?;
    c.settle()?;
    let before = t.descriptors()?;
    let given = events(32)?;
    let raw: Vec<_> = given.iter().map(AsRawFd::as_raw_fd).collect();
    let answer = Answer::of(c.ask(Request::GET_PROTOCOL_FEATURES, &[], &raw))?;
    match answer.goes_on() {
        true => seen_descriptors(t, before, &format!("; {}", answer.text())),
        false => seen(answer.has_hung_up(), answer.text()),
    }
}

fn replies_are_not_read(t: &mut Target) -> Outcome {
    let mut c = t.negotiate()?;
    c.fence()?;
    let request = header(Request::GET_FEATURES.into(), VERSION, 0);
    let limit = c.limit;
    c.limit /= 4;
    let sent = (0..MOST_UNREAD).take_while(|_| c.raw_unseen(&request, &[]).is_ok()).count();
    let came = (0..sent).take_while(|_| c.reply_unseen(limit).is_ok()).count();
    seen(came == sent, format!("{sent} sent, {came} replies"))
}

fn closed_without_reading(t: &mut Target) -> Outcome {
    let mut c = t.open()?;
    c.raw(&header(Request::GET_FEATURES.into(), VERSION, 0).repeat(50), &[])?;
    drop(c);
    t.rest();
    seen(true, "closed")
}
