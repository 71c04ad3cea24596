// SPDX-License-Identifier: Apache-2.0
//! Migration: postcopy, and the state of a device.
use std::io::{Read, Write};

use super::*;
use crate::patience::Patience;
use crate::system::{enable_userfault, is_readable, pipe};
use crate::target::Setup;

pub(super) const CASES: &[Case] = &[
    ("PCP-01", userfault_is_opened),
    ("PCP-02", bases_of_a_table),
    ("PCP-03", listen_without_advise),
    ("PCP-04", end_without_listen),
    ("PCP-05", advise_again_and_again),
    ("PCP-06", listen_after_memory),
    ("PCP-07", base_of_a_region),
    ("DST-01", state_is_saved),
    ("DST-02", |t| refused_transfer(t, u32s(&[2, 0]), true)),
    ("DST-03", |t| refused_transfer(t, u32s(&[0, 1]), true)),
    ("DST-04", |t| refused_transfer(t, u32s(&[0, 0]), false)),
    ("DST-05", garbage_is_loaded),
    ("DST-06", checked_without_transfer),
    ("DST-07", state_is_loaded_by_another),
    ("DST-08", while_a_ring_runs),
    ("DST-09", reader_has_gone),
];

const STATE_ERROR: u64 = 0xff;
/// More than any device's state here.
const MOST_STATE: usize = 64 << 20;

fn advised(t: &mut Target, more: Feature) -> Result<(Connection, Reply), Stop> {
    let mut c = t.negotiate_with(Feature::PAGEFAULT | more)?;
    let reply = c.call(Request::POSTCOPY_ADVISE, &[], &[])?;
    Ok((c, reply))
}

fn userfault_is_opened(t: &mut Target) -> Outcome {
    let (_c, reply) = advised(t, Feature::empty())?;
    let link = reply.descriptors.first().map(|it| std::fs::read_link(format!("/proc/self/fd/{}", it.as_raw_fd())));
    let kind = link.map_or("none".to_string(), |it| it.map_or_else(|it| it.to_string(), |it| it.display().to_string()));
    let holds = reply.descriptors.len() == 1 && kind.contains("userfaultfd") && reply.body.is_empty();
    seen(holds, format!("{reply} {kind}"))
}

/// A connection whose backend awaits page faults, with its userfaultfd.
pub(super) fn listening(t: &mut Target, more: Feature) -> Result<(Connection, Reply, Reply), Stop> {
    let (mut c, advice) = advised(t, Feature::REPLY_ACK | more)?;
    let userfault = advice.descriptors.first().ok_or_else(|| Stop::Odd(format!("no descriptor: {advice}")))?;
    // (some backends have done so)
    enable_userfault(userfault);
    c.send_as(Request::POSTCOPY_LISTEN.into(), NEED_REPLY, &[], &[])?;
    let reply = c.reply()?;
    Ok((c, advice, reply))
}

/// Where a backend says that it has mapped the first region of a message.
pub(super) fn base_in(reply: &Reply) -> u64 {
    u64_at(&reply.body, 24)
}

/// Where the process has mapped the memory, as the system says; nothing where it does not say.
fn places_of(process: Option<i32>, memory: &File) -> Vec<u64> {
    use std::os::unix::fs::MetadataExt;
    let inode = memory.metadata().map_or(0, |it| it.ino()).to_string();
    let maps = process.and_then(|it| std::fs::read_to_string(format!("/proc/{it}/maps")).ok()).unwrap_or_default();
    let ours = maps.lines().filter(|it| it.split_whitespace().nth(4) == Some(&inode));
    ours.filter_map(|it| u64::from_str_radix(it.split('-').next()?, 16).ok()).collect()
}

/// That the base is that of a mapping, and the end is acknowledged.
fn seen_base(c: &mut Connection, request: Request, body: &[u8], listened: Reply) -> Outcome {
    let file = whole_file()?;
    let reply = c.call(request, body, &[file.as_raw_fd()])?;
    let base = base_in(&reply);
    let places = places_of(c.process, &file);
    c.send(request, &u64s(&[0]), &[])?;
    let end = c.call(Request::POSTCOPY_END, &[], &[])?;
    let is_mapped = reply.body.len() >= 40 && base != 0 && base != USER && (places.is_empty() || places.contains(&base));
    let ended = end.code == u32::from(Request::POSTCOPY_END) && end.is_zero();
    let text = format!("listen {listened}; base {base:#x}, mapped at {places:#x?}; end {end}");
    seen(listened.is_zero() && is_mapped && ended, text.split_whitespace().collect::<Vec<_>>().join(" "))
}

fn bases_of_a_table(t: &mut Target) -> Outcome {
    let (mut c, _advice, listened) = listening(t, Feature::empty())?;
    seen_base(&mut c, Request::SET_MEM_TABLE, &table(&[Region::ALL]), listened)
}

fn base_of_a_region(t: &mut Target) -> Outcome {
    let (mut c, _advice, listened) = listening(t, Feature::CONFIGURE_MEM_SLOTS)?;
    seen_base(&mut c, Request::ADD_MEM_REG, &Region::ALL.single(), listened)
}

fn listen_without_advise(t: &mut Target) -> Outcome {
    let mut c = t.negotiate_with(Feature::PAGEFAULT | Feature::REPLY_ACK)?;
    refused(&mut c, Request::POSTCOPY_LISTEN, &[], &[])
}

fn end_without_listen(t: &mut Target) -> Outcome {
    let mut c = t.negotiate_with(Feature::PAGEFAULT)?;
    Answer::of(c.ask(Request::POSTCOPY_END, &[], &[]))?.seen_answered()
}

fn advise_again_and_again(t: &mut Target) -> Outcome {
    let (mut c, _reply) = advised(t, Feature::empty())?;
    c.settle()?;
    let before = t.descriptors()?;
    for _ in 0..5 {
        let answer = Answer::of(c.ask(Request::POSTCOPY_ADVISE, &[], &[]))?;
        if !answer.goes_on() {
            return answer.seen_answered();
        }
    }
    seen_descriptors(t, before, "")
}

fn listen_after_memory(t: &mut Target) -> Outcome {
    let mut c = t.negotiate_with(Feature::PAGEFAULT | Feature::REPLY_ACK)?;
    c.give_memory()?;
    c.call(Request::POSTCOPY_ADVISE, &[], &[])?;
    asked(&mut c, Request::POSTCOPY_LISTEN, &[], &[])?.seen_answered()
}

/// All bytes of a state, until its end; nothing where that does not come.
fn state_from(from: &mut File, c: &Connection) -> Result<Option<Vec<u8>>, Stop> {
    let (mut state, mut bytes) = (Vec::new(), vec![0; 65536]);
    while state.len() <= MOST_STATE {
        if !Patience::new(c.process, c.limit).wait_until(|| is_readable(from, 0)) {
            return Ok(None);
        }
        match from.read(&mut bytes)? {
            0 => return Ok(Some(state)),
            count => state.extend(&bytes[..count]),
        }
    }
    Ok(None)
}

/// A state that was asked for.
struct Saved {
    text: String,
    /// Whether the reply says no error, and bit 8 just where no descriptor came.
    says_right: bool,
    /// None where it does not end.
    state: Option<Vec<u8>>,
}

fn saved(c: &mut Connection) -> Result<Saved, Stop> {
    let (mut from, to) = pipe()?;
    let mut reply = c.call(Request::SET_DEVICE_STATE_FD, &u32s(&[0, 0]), &[to.as_raw_fd()])?;
    drop(to);
    let (text, number) = (reply.to_string(), reply.number().unwrap_or(STATE_ERROR));
    let says_right = number & STATE_ERROR == 0 && (number & NO_DESCRIPTOR != 0) == reply.descriptors.is_empty();
    if let Some(own) = reply.descriptors.pop() {
        from = File::from(own);
    }
    let state = state_from(&mut from, c)?;
    Ok(Saved { text, says_right, state })
}

fn state_is_saved(t: &mut Target) -> Outcome {
    let mut c = t.negotiate_with(Feature::DEVICE_STATE)?;
    let Saved { text, says_right, state } = saved(&mut c)?;
    match state {
        None => seen(false, format!("{text}, its state never ends")),
        Some(state) => {
            let check = c.number(Request::CHECK_DEVICE_STATE)?;
            seen(says_right && check == 0, format!("{text}, {} bytes, checked {check}", state.len()))
        }
    }
}

/// Gives a state, of which not all need be read: the reply, and what the check says where it was not refused at once.
fn loaded(c: &mut Connection, state: &[u8]) -> Result<(Reply, Option<u64>), Stop> {
    let (from, mut to) = pipe()?;
    let mut reply = c.call(Request::SET_DEVICE_STATE_FD, &u32s(&[1, 0]), &[from.as_raw_fd()])?;
    drop(from);
    if reply.number().unwrap_or(STATE_ERROR) & STATE_ERROR != 0 {
        return Ok((reply, None));
    }
    if let Some(own) = reply.descriptors.pop() {
        to = File::from(own);
    }
    // (one that reads nothing of it has refused it)
    let _ = to.write_all(state);
    drop(to);
    let check = c.number(Request::CHECK_DEVICE_STATE)?;
    Ok((reply, Some(check)))
}

/// What one process saves another one of the same program takes, which saves it again.
fn state_is_loaded_by_another(t: &mut Target) -> Outcome {
    let mut c = t.negotiate_with(Feature::DEVICE_STATE)?;
    t.child().ok_or_else(|| Stop::Skip("it was not started here".to_string()))?;
    let state = saved(&mut c)?.state.ok_or_else(|| Stop::Odd("its state never ends".to_string()))?;
    let first = c.number(Request::CHECK_DEVICE_STATE)?;
    drop(c);
    t.stop();
    let mut c = t.negotiate_with(Feature::DEVICE_STATE)?;
    let (reply, second) = loaded(&mut c, &state)?;
    let again = saved(&mut c)?.state.map_or("no state".to_string(), |it| format!("{} bytes", it.len()));
    let text = format!("{} bytes, checked {first}; loaded: {reply}, checked {second:?}; saved again: {again}", state.len());
    seen(first == 0 && second == Some(0), text)
}

fn while_a_ring_runs(t: &mut Target) -> Outcome {
    let mut c = t.negotiate_with(Feature::DEVICE_STATE)?;
    let _rings = t.rings(&mut c, Setup::WHOLE)?;
    c.fence()?;
    let (_from, to) = pipe()?;
    let answer = Answer::of(c.ask(Request::SET_DEVICE_STATE_FD, &u32s(&[0, 0]), &[to.as_raw_fd()]))?;
    seen(answer.is_error_of_state(), answer.text())
}

fn refused_transfer(t: &mut Target, body: Vec<u8>, with_descriptor: bool) -> Outcome {
    let mut c = t.negotiate_with(Feature::DEVICE_STATE)?;
    let (_from, to) = pipe()?;
    let descriptors = if with_descriptor { vec![to.as_raw_fd()] } else { Vec::new() };
    let answer = Answer::of(c.ask(Request::SET_DEVICE_STATE_FD, &body, &descriptors))?;
    seen(answer.is_error_of_state(), answer.text())
}

impl Answer {
    /// Whether a transfer was refused, without a descriptor.
    fn is_error_of_state(&self) -> bool {
        match self {
            Answer::Replies(replies) => {
                matches!(&replies[..], [one] if one.number().unwrap_or(0) & STATE_ERROR != 0 && one.descriptors.is_empty())
            }
            answer => answer.has_hung_up(),
        }
    }
}

fn garbage_is_loaded(t: &mut Target) -> Outcome {
    let mut c = t.negotiate_with(Feature::DEVICE_STATE)?;
    match loaded(&mut c, &[0xa5; 64])? {
        (reply, None) => seen(true, format!("refused at once: {reply}")),
        (reply, Some(check)) => seen(check != 0, format!("{reply}, checked {check}")),
    }
}

fn checked_without_transfer(t: &mut Target) -> Outcome {
    let mut c = t.negotiate_with(Feature::DEVICE_STATE)?;
    let check = c.number(Request::CHECK_DEVICE_STATE)?;
    seen(check != 0, format!("checked {check}"))
}

fn reader_has_gone(t: &mut Target) -> Outcome {
    let mut c = t.negotiate_with(Feature::DEVICE_STATE)?;
    let (from, to) = pipe()?;
    drop(from);
    let reply = c.call(Request::SET_DEVICE_STATE_FD, &u32s(&[0, 0]), &[to.as_raw_fd()])?;
    if reply.number().unwrap_or(0) & STATE_ERROR != 0 || !reply.descriptors.is_empty() {
        return seen(true, reply.to_string());
    }
    let check = c.number(Request::CHECK_DEVICE_STATE)?;
    seen(true, format!("{reply}, checked {check}"))
}
