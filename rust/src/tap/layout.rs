// SPDX-License-Identifier: Apache-2.0
//! Which fields a message's body has, by the request that it is or replies to: for the eye, and not to judge by.
use super::event::{number_at, u32_at, Channel, Message, Side, Way};
use crate::vhost_user::message::{
    BackendReq, FrontendReq, VhostUserConfigFlags, VhostUserHeaderFlag, VhostUserProtocolFeatures, VhostUserVringAddrFlags,
};

/// What a number of a body means.
#[derive(Clone, Copy)]
enum Form {
    Number,
    Address,
    Switch,
    /// Whether a ring is polled, where it is.
    Polled,
    /// An acknowledgement: 0 is a success.
    Result,
    Direction,
    Features,
    ProtocolFeatures,
    VringFlags,
    ConfigFlags,
    Padding,
}

/// A field: its name, how many bytes it has, and what they mean.
type Field = (&'static str, usize, Form);

/// What stands behind the fields.
#[derive(Clone, Copy)]
enum Tail {
    /// Nothing.
    End,
    /// Bytes, of which a field is shown.
    Bytes,
    /// Records of this name and of these fields, as many as there is room for.
    Records(&'static str, &'static [Field]),
}

/// A value as it is shown.
#[derive(Clone, Debug, PartialEq)]
pub(super) enum Value {
    Number(u64),
    Address(u64),
    Word(String),
    /// Bits, and their names.
    Bits(u64, Vec<String>),
    Bytes(Vec<u8>),
    Records(Vec<Fields>),
}

/// Names, and their values.
pub(super) type Fields = Vec<(&'static str, Value)>;

/// The fields of a body, and what stands behind them.
type Layout = (&'static [Field], Tail);

const UNKNOWN: Layout = (&[], Tail::Bytes);
const MAPPED: Layout = (&[("mapped", 8, Form::Result)], Tail::End);
const RESULT: Layout = (&[("result", 8, Form::Result)], Tail::End);
const SIZE: Layout = (&[("size", 8, Form::Address)], Tail::End);

/// The layout of a request's body. One that has none is shown all the same, where it came.
#[rustfmt::skip]
fn request_layout(request: FrontendReq) -> Layout {
    use FrontendReq::*;
    match request {
        // generated from protocol/requests.toml: requests
        GET_FEATURES => (&[], Tail::Bytes),
        SET_FEATURES => (&[("features", 8, Form::Features)], Tail::End),
        SET_OWNER => (&[], Tail::Bytes),
        RESET_OWNER => (&[], Tail::Bytes),
        SET_MEM_TABLE => (&[("regions", 4, Form::Number), ("", 4, Form::Padding)], Tail::Records("memory", &[("guest", 8, Form::Address), ("size", 8, Form::Address), ("user", 8, Form::Address), ("offset", 8, Form::Address)])),
        SET_LOG_BASE => (&[("size", 8, Form::Address), ("offset", 8, Form::Address)], Tail::End),
        SET_LOG_FD => (&[], Tail::Bytes),
        SET_VRING_NUM => (&[("ring", 4, Form::Number), ("size", 4, Form::Number)], Tail::End),
        SET_VRING_ADDR => (&[("ring", 4, Form::Number), ("flags", 4, Form::VringFlags), ("descriptors", 8, Form::Address), ("used", 8, Form::Address), ("available", 8, Form::Address), ("log", 8, Form::Address)], Tail::End),
        SET_VRING_BASE => (&[("ring", 4, Form::Number), ("base", 4, Form::Number)], Tail::End),
        GET_VRING_BASE => (&[("ring", 4, Form::Number), ("", 4, Form::Padding)], Tail::End),
        SET_VRING_KICK => (&[("ring", 1, Form::Number), ("polled", 7, Form::Polled)], Tail::End),
        SET_VRING_CALL => (&[("ring", 1, Form::Number), ("polled", 7, Form::Polled)], Tail::End),
        SET_VRING_ERR => (&[("ring", 1, Form::Number), ("polled", 7, Form::Polled)], Tail::End),
        GET_PROTOCOL_FEATURES => (&[], Tail::Bytes),
        SET_PROTOCOL_FEATURES => (&[("features", 8, Form::ProtocolFeatures)], Tail::End),
        GET_QUEUE_NUM => (&[], Tail::Bytes),
        SET_VRING_ENABLE => (&[("ring", 4, Form::Number), ("enable", 4, Form::Switch)], Tail::End),
        SEND_RARP => (&[], Tail::Bytes),
        NET_SET_MTU => (&[("mtu", 8, Form::Number)], Tail::End),
        SET_BACKEND_REQ_FD => (&[], Tail::Bytes),
        IOTLB_MSG => (&[], Tail::Bytes),
        SET_VRING_ENDIAN => (&[("ring", 4, Form::Number), ("big", 4, Form::Switch)], Tail::End),
        GET_CONFIG => (&[("offset", 4, Form::Number), ("size", 4, Form::Number), ("flags", 4, Form::ConfigFlags)], Tail::Bytes),
        SET_CONFIG => (&[("offset", 4, Form::Number), ("size", 4, Form::Number), ("flags", 4, Form::ConfigFlags)], Tail::Bytes),
        CREATE_CRYPTO_SESSION => (&[], Tail::Bytes),
        CLOSE_CRYPTO_SESSION => (&[], Tail::Bytes),
        POSTCOPY_ADVISE => (&[], Tail::Bytes),
        POSTCOPY_LISTEN => (&[], Tail::Bytes),
        POSTCOPY_END => (&[], Tail::Bytes),
        GET_INFLIGHT_FD => (&[("size", 8, Form::Address), ("offset", 8, Form::Address), ("rings", 2, Form::Number), ("ring_size", 2, Form::Number), ("", 4, Form::Padding)], Tail::End),
        SET_INFLIGHT_FD => (&[("size", 8, Form::Address), ("offset", 8, Form::Address), ("rings", 2, Form::Number), ("ring_size", 2, Form::Number), ("", 4, Form::Padding)], Tail::End),
        GPU_SET_SOCKET => (&[], Tail::Bytes),
        RESET_DEVICE => (&[], Tail::Bytes),
        VRING_KICK => (&[("ring", 4, Form::Number), ("", 4, Form::Padding)], Tail::End),
        GET_MAX_MEM_SLOTS => (&[], Tail::Bytes),
        ADD_MEM_REG => (&[("", 8, Form::Padding)], Tail::Records("memory", &[("guest", 8, Form::Address), ("size", 8, Form::Address), ("user", 8, Form::Address), ("offset", 8, Form::Address)])),
        REM_MEM_REG => (&[("", 8, Form::Padding)], Tail::Records("memory", &[("guest", 8, Form::Address), ("size", 8, Form::Address), ("user", 8, Form::Address), ("offset", 8, Form::Address)])),
        SET_STATUS => (&[("status", 8, Form::Address)], Tail::End),
        GET_STATUS => (&[], Tail::Bytes),
        GET_SHARED_OBJECT => (&[], Tail::Bytes),
        SET_DEVICE_STATE_FD => (&[("direction", 4, Form::Direction), ("phase", 4, Form::Number)], Tail::End),
        CHECK_DEVICE_STATE => (&[], Tail::Bytes),
        GET_SHMEM_CONFIG => (&[], Tail::Bytes),
        // end
    }
}

/// The same of its reply, whole.
#[rustfmt::skip]
fn whole_reply_layout(request: FrontendReq) -> Layout {
    use FrontendReq::*;
    match request {
        // generated from protocol/requests.toml: replies
        GET_FEATURES => (&[("features", 8, Form::Features)], Tail::End),
        SET_FEATURES => (&[("result", 8, Form::Result)], Tail::End),
        SET_OWNER => (&[("result", 8, Form::Result)], Tail::End),
        RESET_OWNER => (&[("result", 8, Form::Result)], Tail::End),
        SET_MEM_TABLE => (&[("result", 8, Form::Result)], Tail::End),
        SET_LOG_BASE => (&[("size", 8, Form::Address), ("offset", 8, Form::Address)], Tail::End),
        SET_LOG_FD => (&[("result", 8, Form::Result)], Tail::End),
        SET_VRING_NUM => (&[("result", 8, Form::Result)], Tail::End),
        SET_VRING_ADDR => (&[("result", 8, Form::Result)], Tail::End),
        SET_VRING_BASE => (&[("result", 8, Form::Result)], Tail::End),
        GET_VRING_BASE => (&[("ring", 4, Form::Number), ("base", 4, Form::Number)], Tail::End),
        SET_VRING_KICK => (&[("result", 8, Form::Result)], Tail::End),
        SET_VRING_CALL => (&[("result", 8, Form::Result)], Tail::End),
        SET_VRING_ERR => (&[("result", 8, Form::Result)], Tail::End),
        GET_PROTOCOL_FEATURES => (&[("features", 8, Form::ProtocolFeatures)], Tail::End),
        SET_PROTOCOL_FEATURES => (&[("result", 8, Form::Result)], Tail::End),
        GET_QUEUE_NUM => (&[("rings", 8, Form::Number)], Tail::End),
        SET_VRING_ENABLE => (&[("result", 8, Form::Result)], Tail::End),
        SEND_RARP => (&[("result", 8, Form::Result)], Tail::End),
        NET_SET_MTU => (&[("result", 8, Form::Result)], Tail::End),
        SET_BACKEND_REQ_FD => (&[("result", 8, Form::Result)], Tail::End),
        IOTLB_MSG => (&[("result", 8, Form::Result)], Tail::End),
        SET_VRING_ENDIAN => (&[("result", 8, Form::Result)], Tail::End),
        GET_CONFIG => (&[("offset", 4, Form::Number), ("size", 4, Form::Number), ("flags", 4, Form::ConfigFlags)], Tail::Bytes),
        SET_CONFIG => (&[("result", 8, Form::Result)], Tail::End),
        CREATE_CRYPTO_SESSION => (&[("result", 8, Form::Result)], Tail::End),
        CLOSE_CRYPTO_SESSION => (&[("result", 8, Form::Result)], Tail::End),
        POSTCOPY_ADVISE => (&[("result", 8, Form::Result)], Tail::End),
        POSTCOPY_LISTEN => (&[("result", 8, Form::Result)], Tail::End),
        POSTCOPY_END => (&[("result", 8, Form::Result)], Tail::End),
        GET_INFLIGHT_FD => (&[("size", 8, Form::Address), ("offset", 8, Form::Address), ("rings", 2, Form::Number), ("ring_size", 2, Form::Number), ("", 4, Form::Padding)], Tail::End),
        SET_INFLIGHT_FD => (&[("result", 8, Form::Result)], Tail::End),
        GPU_SET_SOCKET => (&[("result", 8, Form::Result)], Tail::End),
        RESET_DEVICE => (&[("result", 8, Form::Result)], Tail::End),
        VRING_KICK => (&[("result", 8, Form::Result)], Tail::End),
        GET_MAX_MEM_SLOTS => (&[("regions", 8, Form::Number)], Tail::End),
        ADD_MEM_REG => (&[("result", 8, Form::Result)], Tail::End),
        REM_MEM_REG => (&[("result", 8, Form::Result)], Tail::End),
        SET_STATUS => (&[("result", 8, Form::Result)], Tail::End),
        GET_STATUS => (&[("status", 8, Form::Address)], Tail::End),
        GET_SHARED_OBJECT => (&[("result", 8, Form::Result)], Tail::End),
        SET_DEVICE_STATE_FD => (&[("state", 8, Form::Address)], Tail::End),
        CHECK_DEVICE_STATE => (&[("result", 8, Form::Result)], Tail::End),
        GET_SHMEM_CONFIG => (&[("regions", 4, Form::Number), ("", 4, Form::Padding)], Tail::Records("sizes", &[("size", 8, Form::Address)])),
        // end
    }
}

/// The same of a reply of this size: one is longer while postcopy listens, or shorter where it only says whether it was done.
fn reply_layout(request: FrontendReq, size: usize) -> Layout {
    use FrontendReq::*;
    match (request, size) {
        (_, 0) => (&[], Tail::End),
        (SET_MEM_TABLE | ADD_MEM_REG | REM_MEM_REG, 9..) => request_layout(request),
        (GET_CONFIG | GET_INFLIGHT_FD, 0..=8) => RESULT,
        (SET_LOG_BASE, 8) => SIZE,
        _ => whole_reply_layout(request),
    }
}

/// The layout of the body of a backend's own request, by its code.
#[rustfmt::skip]
fn backend_layout(code: u32) -> Layout {
    use BackendReq::*;
    let request = match BackendReq::try_from(code) {
        Ok(request) => request,
        Err(()) => return UNKNOWN,
    };
    match request {
        // generated from protocol/requests.toml: requests of a backend
        IOTLB_MSG => (&[], Tail::Bytes),
        CONFIG_CHANGE_MSG => (&[], Tail::Bytes),
        VRING_HOST_NOTIFIER_MSG => (&[("ring", 8, Form::Address), ("size", 8, Form::Address), ("offset", 8, Form::Address)], Tail::End),
        VRING_CALL => (&[], Tail::Bytes),
        VRING_ERR => (&[], Tail::Bytes),
        SHARED_OBJECT_ADD => (&[], Tail::Bytes),
        SHARED_OBJECT_REMOVE => (&[], Tail::Bytes),
        SHARED_OBJECT_LOOKUP => (&[], Tail::Bytes),
        SHMEM_MAP => (&[("region", 1, Form::Number), ("", 7, Form::Padding), ("fd_offset", 8, Form::Address), ("offset", 8, Form::Address), ("size", 8, Form::Address), ("flags", 8, Form::Address)], Tail::End),
        SHMEM_UNMAP => (&[("region", 1, Form::Number), ("", 7, Form::Padding), ("fd_offset", 8, Form::Address), ("offset", 8, Form::Address), ("size", 8, Form::Address), ("flags", 8, Form::Address)], Tail::End),
        // end
    }
}

/// The fields of a message. Where its body has not the size that its request's has, that is said in their place.
pub(super) fn fields_of(way: Way, message: &Message) -> Fields {
    let body = message.body();
    let (fields, tail) = match (way.channel, way.from, message.request()) {
        (Channel::Backend, Side::Backend, _) => backend_layout(message.code()),
        (Channel::Backend, Side::Frontend, _) if body.len() == 8 => RESULT,
        (Channel::Device, Side::Backend, Some(request)) => reply_layout(request, body.len()),
        (Channel::Device, Side::Frontend, Some(request)) if is_mapped(request, body) => MAPPED,
        (Channel::Device, Side::Frontend, Some(request)) => request_layout(request),
        _ => UNKNOWN,
    };
    let (mut shown, rest) = read(fields, body);
    match (tail, rest) {
        (_, None) => return vec![("body", Value::Bytes(body.to_vec()))],
        (Tail::End, Some([])) => {}
        (Tail::Records("sizes", _), Some(rest)) => shown.push(("sizes", sizes(rest))),
        (Tail::Records(name, record), Some(rest)) => shown.push((name, records(record, rest, body))),
        (Tail::Bytes, Some(rest)) if rest.iter().all(|byte| *byte == 0) => {}
        (Tail::Bytes | Tail::End, Some(rest)) => shown.push(("bytes", Value::Bytes(rest.to_vec()))),
    }
    shown
}

/// While postcopy listens, a request of 8 bytes in place of regions says that the frontend has mapped them.
fn is_mapped(request: FrontendReq, body: &[u8]) -> bool {
    use FrontendReq::*;
    matches!(request, SET_MEM_TABLE | ADD_MEM_REG | REM_MEM_REG) && body.len() == 8
}

/// The records behind a head, as many as it says, and no more than there are. The head of one alone says none.
fn records(record: &'static [Field], rest: &[u8], body: &[u8]) -> Value {
    let width: usize = record.iter().map(|(_, width, _)| width).sum();
    let said = (u32_at(body, 0) as usize).max(1);
    Value::Records(rest.chunks_exact(width).take(said).map(|bytes| read(record, bytes).0).collect())
}

/// Sizes that are not 0, each with its place, which is the number of its region.
fn sizes(rest: &[u8]) -> Value {
    let sizes = rest.chunks_exact(8).map(|bytes| number_at(bytes, 0, 8)).enumerate().filter(|(_, size)| *size != 0);
    Value::Records(sizes.map(|(at, size)| vec![("region", Value::Number(at as u64)), ("size", Value::Address(size))]).collect())
}

/// These fields, and what is left of the bytes; None where they are too few.
fn read<'a>(fields: &[Field], bytes: &'a [u8]) -> (Fields, Option<&'a [u8]>) {
    let mut at = 0;
    let mut shown = Vec::new();
    for (name, width, form) in fields {
        let number = number_at(bytes, at, *width);
        at += width;
        shown.extend(value_of(*form, number).map(|value| (*name, value)));
    }
    (shown, bytes.get(at..))
}

fn value_of(form: Form, number: u64) -> Option<Value> {
    Some(match form {
        Form::Number => Value::Number(number),
        Form::Address => Value::Address(number),
        Form::Switch => Value::Word(word(number, &["off", "on"])),
        Form::Result => Value::Word(if number == 0 { "done".to_string() } else { format!("failed({number})") }),
        Form::Direction => Value::Word(word(number, &["save", "load"])),
        Form::Features => Value::Bits(number, virtio_names(number)),
        Form::ProtocolFeatures => {
            let known = VhostUserProtocolFeatures::from_bits_truncate(number);
            Value::Bits(number, bit_names(&format!("{known:?}"), number & !known.bits()))
        }
        Form::VringFlags => flags_value(number, |bits| format!("{:?}", VhostUserVringAddrFlags::from_bits_truncate(bits)))?,
        Form::ConfigFlags => flags_value(number, |bits| format!("{:?}", VhostUserConfigFlags::from_bits_truncate(bits)))?,
        Form::Polled if number & 1 != 0 => Value::Word("on".to_string()),
        Form::Polled | Form::Padding => return None,
    })
}

/// The word of a small number, or the number.
fn word(number: u64, words: &[&str]) -> String {
    let word = usize::try_from(number).ok().and_then(|at| words.get(at));
    word.map_or_else(|| number.to_string(), |word| word.to_string())
}

/// Flags, where there are some.
fn flags_value(number: u64, names: impl Fn(u32) -> String) -> Option<Value> {
    (number != 0).then(|| Value::Bits(number, bit_names(&names(number as u32), 0)))
}

/// The names that a set of flags is printed by, and the numbers of bits that have none.
fn bit_names(printed: &str, others: u64) -> Vec<String> {
    let known = printed.split(" | ").filter(|name| !name.is_empty() && *name != "(empty)");
    known.map(str::to_string).chain((0..64).filter(|bit| others >> bit & 1 != 0).map(|bit| format!("bit{bit}"))).collect()
}

/// The virtio features that mean the same for each device.
const VIRTIO: [(u32, &str); 16] = [
    (24, "NOTIFY_ON_EMPTY"),
    (26, "LOG_ALL"),
    (27, "ANY_LAYOUT"),
    (28, "RING_INDIRECT_DESC"),
    (29, "RING_EVENT_IDX"),
    (30, "PROTOCOL_FEATURES"),
    (32, "VERSION_1"),
    (33, "ACCESS_PLATFORM"),
    (34, "RING_PACKED"),
    (35, "IN_ORDER"),
    (36, "ORDER_PLATFORM"),
    (37, "SR_IOV"),
    (38, "NOTIFICATION_DATA"),
    (39, "NOTIF_CONFIG_DATA"),
    (40, "RING_RESET"),
    (41, "ADMIN_VQ"),
];

fn virtio_names(features: u64) -> Vec<String> {
    let name = |bit| VIRTIO.iter().find(|(it, _)| *it == bit).map_or_else(|| format!("bit{bit}"), |(_, name)| name.to_string());
    (0..64).filter(|bit| features >> bit & 1 != 0).map(name).collect()
}

/// The name of what a message asks, or replies to.
pub(super) fn name_of(way: Way, message: &Message) -> String {
    let code = message.code();
    let name = match way.channel {
        Channel::Device => message.request().map(|request| format!("{request:?}")),
        Channel::Backend => BackendReq::try_from(code).ok().map(|request| format!("{request:?}")),
    };
    name.unwrap_or_else(|| format!("request {code}"))
}

/// The names of a header's flags. The version is not one, unless it is another than 1.
pub(super) fn flag_names(message: &Message) -> Vec<String> {
    let flags = message.flags();
    let mut names = Vec::new();
    for (flag, name) in [(VhostUserHeaderFlag::REPLY, "REPLY"), (VhostUserHeaderFlag::NEED_REPLY, "NEED_REPLY")] {
        names.extend(message.has_flag(flag).then(|| name.to_string()));
    }
    let version = flags & VhostUserHeaderFlag::VERSION.bits();
    names.extend((version != 1).then(|| format!("version{version}")));
    let reserved = flags & VhostUserHeaderFlag::RESERVED_BITS.bits();
    names.extend((reserved != 0).then(|| format!("{reserved:#x}")));
    names
}

/// What a descriptor is, in short.
pub(super) fn fd_name(fd: &str) -> &str {
    let inner = fd.strip_prefix("anon_inode:[").and_then(|it| it.strip_suffix(']'));
    inner.or_else(|| fd.strip_prefix("file:/memfd:").map(|_| &fd["file:/".len()..])).unwrap_or(fd)
}
