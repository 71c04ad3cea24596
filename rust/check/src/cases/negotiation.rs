// SPDX-License-Identifier: Apache-2.0
//! Features, and in which order they are negotiated.
use super::*;
use crate::connection::Terms;

pub(super) const CASES: &[Case] = &[
    ("NEG-01", protocol_features_first),
    ("NEG-02", accepted_before_features),
    ("NEG-03", bit_30_need_not_be_accepted),
    ("NEG-04", same_features_again),
    ("NEG-05", unoffered_feature),
    ("NEG-06", unoffered_protocol_feature),
    ("NEG-07", in_band_alone),
    ("NEG-08", base_inflight_takes_inflight),
    ("NEG-09", multiple_queues_are_offered),
    ("NEG-10", count_of_queues),
    ("NEG-11", log_and_its_memory),
    ("NEG-12", protocol_features_are_known),
    ("NEG-13", owner_twice),
    ("NEG-14", features_twice),
];

/// A connection of a backend with protocol features, of which nothing is accepted yet.
fn with_protocol_features(t: &mut Target) -> Result<Connection, Stop> {
    let mut c = t.open()?;
    c.offered = c.number(Request::GET_FEATURES)?;
    match c.offered & PROTOCOL_FEATURES {
        0 => Err(Stop::Skip("bit 30 is not offered".to_string())),
        _ => Ok(c),
    }
}

fn protocol_features_first(t: &mut Target) -> Outcome {
    let mut c = with_protocol_features(t)?;
    seen(true, format!("{:#x}", c.number(Request::GET_PROTOCOL_FEATURES)?))
}

fn accepted_before_features(t: &mut Target) -> Outcome {
    let mut c = with_protocol_features(t)?;
    c.protocol = c.number(Request::GET_PROTOCOL_FEATURES)?;
    c.want(Feature::REPLY_ACK)?;
    c.send(Request::SET_PROTOCOL_FEATURES, &u64s(&[Feature::REPLY_ACK.bits()]), &[])?;
    seen_zero(c.need(Request::SET_OWNER, &[], &[])?)
}

fn bit_30_need_not_be_accepted(t: &mut Target) -> Outcome {
    let mut c = t.negotiate_by(Terms { features: Some(VERSION_1), ..Terms::default() })?;
    c.want(Feature::REPLY_ACK)?;
    seen_zero(c.need(Request::SET_VRING_NUM, &u32s(&[0, 64]), &[])?)
}

fn same_features_again(t: &mut Target) -> Outcome {
    let mut c = t.negotiate()?;
    let (first, second) = (c.offered, c.number(Request::GET_FEATURES)?);
    drop(c);
    t.rest();
    if !t.persists {
        t.stop();
    }
    let third = t.open()?.number(Request::GET_FEATURES)?;
    seen(first == second && second == third, format!("{first:#x} {second:#x} {third:#x}"))
}

fn unoffered_feature(t: &mut Target) -> Outcome {
    let mut c = t.negotiate_with(Feature::REPLY_ACK)?;
    let features = c.accepted | 1 << 61;
    refused(&mut c, Request::SET_FEATURES, &u64s(&[features]), &[])
}

fn unoffered_protocol_feature(t: &mut Target) -> Outcome {
    let mut c = t.negotiate_with(Feature::REPLY_ACK)?;
    let features = c.protocol | 1 << 60;
    refused(&mut c, Request::SET_PROTOCOL_FEATURES, &u64s(&[features]), &[])
}

fn in_band_alone(t: &mut Target) -> Outcome {
    let mut c = t.negotiate()?;
    let in_band = Feature::INBAND_NOTIFICATIONS.bits();
    if c.protocol_offered & in_band == 0 {
        return Err(Stop::Skip("INBAND_NOTIFICATIONS is not offered".to_string()));
    }
    let answer = Answer::of(c.ask(Request::SET_PROTOCOL_FEATURES, &u64s(&[in_band]), &[]))?;
    seen(answer.has_hung_up(), answer.text())
}

fn base_inflight_takes_inflight(t: &mut Target) -> Outcome {
    let offered = Feature::from_bits_truncate(t.negotiate()?.protocol_offered);
    let holds = !offered.contains(Feature::GET_VRING_BASE_INFLIGHT) || offered.contains(Feature::INFLIGHT_SHMFD);
    seen(holds, format!("{offered:?}"))
}

fn multiple_queues_are_offered(t: &mut Target) -> Outcome {
    let c = t.negotiate()?;
    seen(c.has(Feature::MQ), format!("{:#x}", c.protocol_offered))
}

fn count_of_queues(t: &mut Target) -> Outcome {
    let mut c = t.negotiate_with(Feature::MQ)?;
    let count = c.number(Request::GET_QUEUE_NUM)?;
    seen((1..=0x8000).contains(&count), count.to_string())
}

fn log_and_its_memory(t: &mut Target) -> Outcome {
    let c = t.negotiate()?;
    let (log, memory) = (c.offered & LOG_ALL != 0, c.has(Feature::LOG_SHMFD));
    seen(log == memory, format!("LOG_ALL {log}, LOG_SHMFD {memory}"))
}

fn protocol_features_are_known(t: &mut Target) -> Outcome {
    let c = t.negotiate()?;
    seen(c.protocol_offered & !Feature::all().bits() == 0, format!("{:#x}", c.protocol_offered))
}

fn owner_twice(t: &mut Target) -> Outcome {
    let mut c = t.negotiate()?;
    let answer = asked(&mut c, Request::SET_OWNER, &[], &[])?;
    seen(answer.goes_on(), answer.text())
}

fn features_twice(t: &mut Target) -> Outcome {
    let mut c = t.negotiate_with(Feature::REPLY_ACK)?;
    let fewer = c.offered & VERSION_1 | PROTOCOL_FEATURES;
    seen_zero(c.need(Request::SET_FEATURES, &u64s(&[fewer]), &[])?)
}
