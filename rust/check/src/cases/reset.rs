// SPDX-License-Identifier: Apache-2.0
//! What resets a device, its status, and its suspension.
use super::*;
use crate::cases::channel::give_channel;
use crate::device::Kind;
use crate::patience::settle;
use crate::system::is_readable;
use crate::target::Setup;

pub(super) const CASES: &[Case] = &[
    ("RST-01", owner_is_reset),
    ("RST-02", device_is_set_up_again),
    ("RST-03", device_is_reset),
    ("RST-04", status_is_kept),
    ("RST-05", status_is_reset),
    ("SUS-01", suspended_does_nothing),
];

fn owner_is_reset(t: &mut Target) -> Outcome {
    let mut c = t.negotiate_with(Feature::REPLY_ACK)?;
    c.send(Request::RESET_OWNER, &[], &[])?;
    seen_zero(c.need(Request::SET_VRING_NUM, &u32s(&[0, 64]), &[])?)
}

fn device_is_set_up_again(t: &mut Target) -> Outcome {
    let mut c = t.negotiate_with(Feature::RESET_DEVICE)?;
    let mut rings = t.rings(&mut c, Setup::WHOLE)?;
    let first = works(t, &c, rings.driven(), 1)?;
    c.ask(Request::RESET_DEVICE, &[], &[])?;
    let features = c.accepted;
    c.send(Request::SET_FEATURES, &u64s(&[features]), &[])?;
    c.memory = None;
    let mut rings = t.rings(&mut c, Setup::WHOLE)?;
    let second = works(t, &c, rings.driven(), 1)?;
    seen(first && second, format!("works at first {first}, after it {second}"))
}

fn device_is_reset(t: &mut Target) -> Outcome {
    if matches!(t.kind()?, Kind::Net | Kind::Vsock) {
        return Err(Stop::Skip("a device of this kind may use up what it is given".to_string()));
    }
    let mut c = t.negotiate_with(Feature::RESET_DEVICE)?;
    let mut rings = t.rings(&mut c, Setup::WHOLE)?;
    works(t, &c, rings.driven(), 1)?;
    c.ask(Request::RESET_DEVICE, &[], &[])?;
    t.kind()?.write_request(rings.driven());
    rings.driven().push(0);
    c.settle()?;
    seen(rings.driven().used_index() == 1, format!("used {}", rings.driven().used_index()))
}

fn set_status(c: &mut Connection, status: u64) -> Result<(), Stop> {
    c.send(Request::SET_STATUS, &u64s(&[status]), &[])
}

fn status_is_kept(t: &mut Target) -> Outcome {
    let mut c = t.negotiate_with(Feature::STATUS)?;
    let first = c.number(Request::GET_STATUS)?;
    set_status(&mut c, 3)?;
    let second = c.number(Request::GET_STATUS)?;
    seen((first, second) == (0, 3), format!("{first}, then {second}"))
}

fn status_is_reset(t: &mut Target) -> Outcome {
    let mut c = t.negotiate_with(Feature::STATUS)?;
    set_status(&mut c, 3)?;
    set_status(&mut c, 0)?;
    let status = c.number(Request::GET_STATUS)?;
    seen(status == 0, status.to_string())
}

/// With all rings stopped a device writes no memory, calls nobody, and asks nothing.
fn suspended_does_nothing(t: &mut Target) -> Outcome {
    let mut c = t.negotiate()?;
    let channel = if c.has(Feature::BACKEND_REQ) { Some(give_channel(&mut c)?) } else { None };
    let mut rings = t.rings(&mut c, Setup::WHOLE)?;
    if !works(t, &c, rings.driven(), 1)? {
        return seen(false, "the ring did not work at first");
    }
    for ring in &rings.all {
        ring.stop(&mut c)?;
    }
    t.kind()?.write_request(rings.driven());
    rings.driven().make_available(0, 1);
    rings.driven().is_called(c.process, c.limit);
    let calls: Vec<bool> = rings.all.iter().map(has_event).collect();
    let memory = rings.driven().memory.map.read(0, SIZE as usize);
    rings.driven().signal();
    c.fence()?;
    settle(c.process);
    let is_same = rings.driven().memory.map.read(0, SIZE as usize) == memory;
    let called = rings.all.iter().any(has_event);
    let asked = channel.map_or(false, |it| is_readable(&it, 0));
    seen(
        is_same && !called && !asked,
        format!("memory is the same: {is_same}; called: {called} (before: {calls:?}); asked: {asked}"),
    )
}

/// Whether a call has come, which is taken.
fn has_event(ring: &crate::ring::Ring) -> bool {
    crate::system::take_event(&ring.call)
}
