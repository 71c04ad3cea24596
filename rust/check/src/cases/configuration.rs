// SPDX-License-Identifier: Apache-2.0
//! The configuration space.
use std::fs::OpenOptions;

use super::channel::{acknowledge, give_channel, next_asked, CONFIG_CHANGE};
use super::*;
use crate::patience::Patience;
use crate::system::is_readable;
use crate::target::Setup;

pub(super) const CASES: &[Case] = &[
    ("CFG-01", first_bytes),
    ("CFG-02", |t| part(t, 0, 256)),
    ("CFG-03", |t| part(t, 200, 56)),
    ("CFG-04", |t| part(t, 0xffff_fffc, 8)),
    ("CFG-05", |t| part(t, 0, u32::MAX)),
    ("CFG-06", |t| part(t, 0, 0)),
    ("CFG-07", read_only_field),
    ("CFG-08", |t| refused_write(t, 0xffff_fffc, 8, &[0; 8])),
    ("CFG-09", |t| refused_write(t, 0, 256, &[0])),
    ("CFG-10", change_is_told),
];

/// The greatest configuration space of a device, in bytes.
const SPACE: u32 = 256;

fn asked_for(offset: u32, size: u32, bytes: &[u8]) -> Vec<u8> {
    joined(&[&u32s(&[offset, size, 0]), bytes])
}

/// For a write while a guest migrates: any field may be written.
fn written(offset: u32, size: u32, bytes: &[u8]) -> Vec<u8> {
    joined(&[&u32s(&[offset, size, 1]), bytes])
}

fn first_bytes(t: &mut Target) -> Outcome {
    let mut c = t.negotiate_with(Feature::CONFIG)?;
    let reply = c.call(Request::GET_CONFIG, &asked_for(0, 8, &[0; 8]), &[])?;
    let holds = reply.body.len() == 20 && reply.body[..8] == u32s(&[0, 8])[..];
    seen(holds, format!("{reply} {}", hex_of(&reply.body)))
}

fn part(t: &mut Target, offset: u32, size: u32) -> Outcome {
    let mut c = t.negotiate_with(Feature::CONFIG)?;
    let room = vec![0; size.min(SPACE) as usize];
    let answer = Answer::of(c.ask(Request::GET_CONFIG, &asked_for(offset, size, &room), &[]))?;
    let is_wrong = size > SPACE || size == 0 || offset > SPACE - size;
    let is_one = matches!(&answer, Answer::Replies(replies) if replies.len() == 1);
    seen(is_one || is_wrong && answer.has_hung_up(), answer.text())
}

fn read_only_field(t: &mut Target) -> Outcome {
    let mut c = t.negotiate_with(Feature::CONFIG | Feature::REPLY_ACK)?;
    let before = c.call(Request::GET_CONFIG, &asked_for(0, 8, &[0; 8]), &[])?.body;
    let answer = asked(&mut c, Request::SET_CONFIG, &asked_for(0, 8, &[0xff; 8]), &[])?;
    if answer.has_hung_up() {
        return seen(true, answer.text());
    }
    let is_same = c.call(Request::GET_CONFIG, &asked_for(0, 8, &[0; 8]), &[])?.body == before;
    seen(answer.is_refused() && is_same, format!("{}; unchanged: {is_same}", answer.text()))
}

fn refused_write(t: &mut Target, offset: u32, size: u32, bytes: &[u8]) -> Outcome {
    let mut c = t.negotiate_with(Feature::CONFIG | Feature::REPLY_ACK)?;
    refused(&mut c, Request::SET_CONFIG, &written(offset, size, bytes), &[])
}

/// By how much an image grows.
const GROWTH: u64 = 1 << 20;

/// An image that has grown, and is as before in the end.
struct Grown {
    file: File,
    size: u64,
}

impl Grown {
    fn new(t: &Target) -> Result<Self, Stop> {
        let image = t.image.as_ref().ok_or_else(|| Stop::Skip("it takes --image=FILE, which grows".to_string()))?;
        let file = OpenOptions::new().write(true).open(image)?;
        let size = file.metadata()?.len();
        file.set_len(size + GROWTH)?;
        Ok(Grown { file, size })
    }
}

impl Drop for Grown {
    fn drop(&mut self) {
        let _ = self.file.set_len(self.size);
    }
}

/// A disk whose file grows says so, and has the new size then. One that does not look at its file has nothing to tell.
fn change_is_told(t: &mut Target) -> Outcome {
    let mut c = t.negotiate_with(Feature::CONFIG | Feature::BACKEND_REQ)?;
    let channel = give_channel(&mut c)?;
    let _rings = t.rings(&mut c, Setup::WHOLE)?;
    let before = c.call(Request::GET_CONFIG, &asked_for(0, 8, &[0; 8]), &[])?.body;
    let grown = Grown::new(t)?;
    if !Patience::new(c.process, c.limit).wait_until(|| is_readable(&channel, 0)) {
        return Err(Stop::Skip("it tells of no change where its file grows".to_string()));
    }
    let told = next_asked(&channel, &c)?.ok_or_else(|| Stop::Odd("the channel has ended".to_string()))?;
    acknowledge(&channel, &told)?;
    let after = c.call(Request::GET_CONFIG, &asked_for(0, 8, &[0; 8]), &[])?.body;
    drop(grown);
    let holds = told.code == CONFIG_CHANGE && told.body.is_empty() && after != before;
    let text = format!("request {} of {} bytes; {} -> {}", told.code, told.body.len(), hex_of(&before), hex_of(&after));
    seen(holds, text)
}
