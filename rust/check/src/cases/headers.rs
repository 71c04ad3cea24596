// SPDX-License-Identifier: Apache-2.0
//! Headers, right and wrong; requests that nobody knows, and requests of features that were not accepted.
use std::os::unix::io::AsRawFd;
use std::time::Duration;

use super::*;
use crate::connection::Terms;
use crate::patience::settle;

pub(super) const CASES: &[Case] = &[
    ("HDR-01", reply_has_a_header),
    ("HDR-02", need_reply_is_not_echoed),
    ("HDR-03", header_in_single_bytes),
    ("HDR-04", body_comes_later),
    ("HDR-05", body_in_single_bytes),
    ("HDR-06", three_in_one_send),
    ("HDR-07", descriptor_is_of_its_message),
    ("HDR-10", |t| with_flags(t, 0)),
    ("HDR-12", |t| with_flags(t, 2)),
    ("HDR-13", |t| with_flags(t, 3)),
    ("HDR-14", |t| with_flags(t, VERSION | REPLY)),
    ("HDR-15", reserved_flag),
    ("HDR-20", |t| size_alone(t, u32::MAX)),
    ("HDR-21", |t| size_alone(t, 0x10000)),
    ("HDR-22", |t| size_alone(t, 0x1001)),
    ("HDR-23", features_without_a_body),
    ("HDR-24", |t| body_of_another_size(t, Request::SET_FEATURES, &[0; 4])),
    ("HDR-25", |t| body_of_another_size(t, Request::SET_VRING_NUM, &u32s(&[0, 64, 0, 0]))),
    ("HDR-26", body_where_there_is_none),
    ("HDR-27", half_a_header),
    ("HDR-28", half_a_body),
    ("UNK-01", |t| unknown(t, 0)),
    ("UNK-02", |t| unknown(t, 45)),
    ("UNK-03", |t| unknown(t, 200)),
    ("UNK-04", |t| unknown(t, u32::MAX)),
    ("UNK-05", unknown_without_need),
    ("UNK-06", unknown_with_a_descriptor),
    ("GAT-01", |t| unaccepted(t, Request::NET_SET_MTU, Feature::MTU, &u64s(&[1500]))),
    ("GAT-02", |t| unaccepted(t, Request::SEND_RARP, Feature::RARP, &u64s(&[0x5254_0000_0001]))),
    ("GAT-03", |t| unaccepted(t, Request::GET_CONFIG, Feature::CONFIG, &joined(&[&u32s(&[0, 8, 0]), &[0; 8]]))),
    ("GAT-04", |t| unaccepted(t, Request::SET_CONFIG, Feature::CONFIG, &joined(&[&u32s(&[0, 1, 0]), &[0]]))),
    ("GAT-05", |t| unaccepted(t, Request::GET_INFLIGHT_FD, Feature::INFLIGHT_SHMFD, &inflight(1, 64, 0))),
    ("GAT-06", |t| unaccepted(t, Request::RESET_DEVICE, Feature::RESET_DEVICE, &[])),
    ("GAT-07", |t| unaccepted(t, Request::GET_MAX_MEM_SLOTS, Feature::CONFIGURE_MEM_SLOTS, &[])),
    ("GAT-08", |t| unaccepted(t, Request::GET_STATUS, Feature::STATUS, &[])),
    ("GAT-09", |t| unaccepted(t, Request::SET_STATUS, Feature::STATUS, &u64s(&[1]))),
    ("GAT-10", |t| unaccepted(t, Request::CHECK_DEVICE_STATE, Feature::DEVICE_STATE, &[])),
    ("GAT-11", |t| unaccepted(t, Request::GET_SHARED_OBJECT, Feature::SHARED_OBJECT, &u64s(&[1, 2]))),
    ("GAT-12", |t| unaccepted(t, Request::SET_VRING_ENDIAN, Feature::CROSS_ENDIAN, &u32s(&[0, 0]))),
    ("GAT-13", |t| unaccepted(t, Request::POSTCOPY_ADVISE, Feature::PAGEFAULT, &[])),
    ("GAT-14", |t| unaccepted(t, Request::GET_SHMEM_CONFIG, Feature::SHMEM, &[])),
    ("GAT-15", |t| unaccepted(t, Request::GET_QUEUE_NUM, Feature::MQ, &[])),
    ("GAT-16", |t| unaccepted(t, Request::CREATE_CRYPTO_SESSION, Feature::CRYPTO_SESSION, &u64s(&[0]))),
];

const GET_FEATURES: u32 = Request::GET_FEATURES as u32;
const SET_VRING_NUM: u32 = Request::SET_VRING_NUM as u32;

fn reply_has_a_header(t: &mut Target) -> Outcome {
    let mut c = t.open()?;
    let reply = c.call(Request::GET_FEATURES, &[], &[])?;
    let is_right = (reply.code, reply.flags, reply.body.len()) == (GET_FEATURES, VERSION | REPLY, 8);
    seen(is_right && reply.descriptors.is_empty(), reply.to_string())
}

fn need_reply_is_not_echoed(t: &mut Target) -> Outcome {
    let mut c = t.open()?;
    c.send_as(GET_FEATURES, NEED_REPLY, &[], &[])?;
    let reply = c.reply()?;
    let more = c.fence()?;
    let is_right = (reply.flags, reply.body.len()) == (VERSION | REPLY, 8) && more.is_empty();
    seen(is_right, format!("{reply}, then {}", listed(&more)))
}

fn header_in_single_bytes(t: &mut Target) -> Outcome {
    let mut c = t.open()?;
    for byte in header(GET_FEATURES, VERSION, 0) {
        c.raw(&[byte], &[])?;
        settle(c.process);
    }
    let reply = c.reply()?;
    seen(reply.code == GET_FEATURES, reply.to_string())
}

fn body_comes_later(t: &mut Target) -> Outcome {
    let mut c = t.negotiate_with(Feature::REPLY_ACK)?;
    c.raw(&header(SET_VRING_NUM, VERSION | NEED_REPLY, 8), &[])?;
    settle(c.process);
    c.raw(&u32s(&[0, 128]), &[])?;
    seen_zero(c.fence()?)
}

fn body_in_single_bytes(t: &mut Target) -> Outcome {
    let mut c = t.negotiate_with(Feature::REPLY_ACK)?;
    let file = whole_file()?;
    c.raw(&header(Request::SET_MEM_TABLE.into(), VERSION | NEED_REPLY, 40), &[file.as_raw_fd()])?;
    for byte in table(&[Region::ALL]) {
        c.raw(&[byte], &[])?;
        std::thread::sleep(Duration::from_millis(1));
    }
    seen_zero(c.fence()?)
}

fn three_in_one_send(t: &mut Target) -> Outcome {
    let mut c = t.negotiate()?;
    let codes = [Request::GET_FEATURES, Request::GET_PROTOCOL_FEATURES, Request::GET_FEATURES].map(u32::from);
    c.raw(&codes.map(|it| header(it, VERSION, 0)).concat(), &[])?;
    let came = [c.reply()?.code, c.reply()?.code, c.reply()?.code];
    seen(came == codes, came.map(name_of).join(", "))
}

fn descriptor_is_of_its_message(t: &mut Target) -> Outcome {
    let mut c = t.negotiate_with(Feature::REPLY_ACK)?;
    let first = joined(&[&header(Request::SET_VRING_ERR.into(), VERSION | NEED_REPLY, 8), &u64s(&[0])]);
    let second = joined(&[&header(SET_VRING_NUM, VERSION | NEED_REPLY, 8), &u32s(&[0, 128])]);
    c.raw(&joined(&[&first, &second]), &[event()?.as_raw_fd()])?;
    let replies = c.fence()?;
    seen(replies.len() == 2 && replies.iter().all(Reply::is_zero), listed(&replies))
}

/// How a connection takes one header with such flags.
fn reply_to_flags(t: &mut Target, flags: u32) -> Result<Result<Reply, Stop>, Stop> {
    let mut c = t.open()?;
    c.raw(&header(GET_FEATURES, flags, 0), &[])?;
    Ok(c.reply())
}

fn with_flags(t: &mut Target, flags: u32) -> Outcome {
    match reply_to_flags(t, flags)? {
        Ok(reply) => seen(false, format!("served: {reply}")),
        Err(Stop::HungUp(_)) => seen(true, "hung up"),
        Err(stop) => seen(false, stop.to_string()),
    }
}

fn reserved_flag(t: &mut Target) -> Outcome {
    match reply_to_flags(t, VERSION | 1 << 31)? {
        Ok(reply) => seen(true, format!("served: {reply}")),
        Err(Stop::HungUp(_)) => seen(true, "hung up"),
        Err(stop) => seen(false, stop.to_string()),
    }
}

fn size_alone(t: &mut Target, size: u32) -> Outcome {
    let mut c = t.negotiate()?;
    c.fence()?;
    c.raw(&header(Request::SET_FEATURES.into(), VERSION, size), &[])?;
    match c.reply() {
        Ok(reply) => seen(false, format!("replied: {reply}")),
        Err(Stop::HungUp(_)) => seen(true, "hung up"),
        Err(Stop::Silent(_)) => seen(false, "waits for the body: by one wrong number it waits for ever"),
        Err(stop) => Err(stop),
    }
}

fn features_without_a_body(t: &mut Target) -> Outcome {
    let mut c = t.negotiate()?;
    let answer = asked(&mut c, Request::SET_FEATURES, &[], &[])?;
    let is_ignored = matches!(&answer, Answer::Replies(replies) if replies.is_empty());
    seen(is_ignored || answer.is_refused(), answer.text())
}

fn body_of_another_size(t: &mut Target, request: Request, body: &[u8]) -> Outcome {
    let mut c = t.negotiate()?;
    refused(&mut c, request, body, &[])
}

fn body_where_there_is_none(t: &mut Target) -> Outcome {
    let mut c = t.negotiate()?;
    c.send(Request::GET_FEATURES, &u64s(&[0]), &[])?;
    let first = c.reply();
    let answer = Answer::of(first.and_then(|first| {
        let mut replies = vec![first];
        replies.extend(c.fence_by(Request::GET_PROTOCOL_FEATURES)?);
        Ok(replies)
    }))?;
    seen(answer.is_answered(), answer.text())
}

fn half_a_header(t: &mut Target) -> Outcome {
    let mut c = t.open()?;
    c.raw(&header(GET_FEATURES, VERSION, 0)[..7], &[])?;
    drop(c);
    t.rest();
    seen(true, "closed")
}

fn half_a_body(t: &mut Target) -> Outcome {
    let mut c = t.negotiate()?;
    let head = header(Request::SET_MEM_TABLE.into(), VERSION, 40);
    c.raw(&joined(&[&head, &table(&[Region::ALL])[..17]]), &[whole_file()?.as_raw_fd()])?;
    drop(c);
    t.rest();
    seen(true, "closed")
}

fn unknown(t: &mut Target, code: u32) -> Outcome {
    let mut c = t.negotiate_with(Feature::REPLY_ACK)?;
    let answer = Answer::of(c.ask_as(code, NEED_REPLY, &[], &[]))?;
    let is_one = !matches!(&answer, Answer::Replies(replies) if replies.len() != 1);
    seen(answer.is_refused() && is_one, answer.text())
}

fn unknown_without_need(t: &mut Target) -> Outcome {
    let mut c = t.negotiate()?;
    let answer = Answer::of(c.ask_as(200, 0, &[], &[]))?;
    let is_ignored = matches!(&answer, Answer::Replies(replies) if replies.is_empty());
    seen(is_ignored, answer.text())
}

fn unknown_with_a_descriptor(t: &mut Target) -> Outcome {
    let mut c = t.negotiate()?;
    c.fence()?;
    let before = t.descriptors()?;
    let given = events(3)?;
    let sent = given.iter().try_for_each(|it| c.send_as(200, 0, &[], &[it.as_raw_fd()]));
    match Answer::of(sent.and_then(|()| c.fence()))? {
        Answer::HungUp => seen(true, "hung up"),
        answer => seen_descriptors(t, before, &format!("; {}", answer.text())),
    }
}

fn unaccepted(t: &mut Target, request: Request, feature: Feature, body: &[u8]) -> Outcome {
    let mut c = t.negotiate_by(Terms { without: feature, ..Terms::default() })?;
    c.want(Feature::REPLY_ACK)?;
    asked(&mut c, request, body, &[])?.seen_answered()
}
