// SPDX-License-Identifier: Apache-2.0
//! Inflight regions.
use super::packed_rings::unprepared;
use super::*;
use crate::connection::Memory;
use crate::packed::{PackedRing, Place};
use crate::ring::{Buffer, Ring, RING_SIZE};
use crate::system::Mapping;
use crate::target::Setup;

pub(super) const CASES: &[Case] = &[
    ("INF-01", region_is_given),
    ("INF-02", region_is_taken_back),
    ("INF-03", |t| answered_for(t, inflight(0, 64, 0))),
    ("INF-04", |t| answered_for(t, inflight(u16::MAX, u16::MAX, 0))),
    ("INF-05", |t| refused_region(t, inflight(1, 64, 1 << 63), files(1, SIZE)?)),
    ("INF-06", |t| refused_region(t, inflight(1, 64, 16), files(1, SIZE)?)),
    ("INF-07", |t| refused_region(t, inflight(1, 64, 4096), Vec::new())),
    ("INF-08", |t| refused_region(t, inflight(1, 1024, 1 << 20), files(1, 4096)?)),
    ("INF-09", unfinished_is_done_again),
    ("INF-11", wrong_records),
    ("INF-12", new_region_is_zero),
    ("INF-13", no_region_is_given),
    ("PKD-04", unfinished_packed_is_done_again),
];

/// A region that the backend has given.
pub(super) struct Given {
    reply: Reply,
    size: u64,
    offset: u64,
}

impl Given {
    fn map(&self) -> Result<Mapping, Stop> {
        let file = self.reply.descriptors.first().ok_or_else(|| Stop::Odd("no descriptor".to_string()))?;
        // (memory behind the end of a file ends who touches it)
        let length = File::from(file.try_clone()?).metadata()?.len();
        if self.size.checked_add(self.offset).map_or(true, |it| it > length) {
            return Err(Stop::Odd(format!("{} bytes at {}, in a file of {length} bytes", self.size, self.offset)));
        }
        Ok(Mapping::of(file, 0, (self.size + self.offset) as usize)?)
    }

    /// The body by which it is given back.
    pub(super) fn body(&self, queues: u16) -> Vec<u8> {
        joined(&[&u64s(&[self.size, self.offset]), &inflight(queues, RING_SIZE, 0)[16..]])
    }

    pub(super) fn file(&self) -> Vec<i32> {
        self.reply.descriptors.iter().map(AsRawFd::as_raw_fd).collect()
    }
}

pub(super) fn queues_of(t: &Target) -> u16 {
    t.kind.map_or(1, |it| it.rings() as u16)
}

pub(super) fn ask_for_region(c: &mut Connection, queues: u16) -> Result<Given, Stop> {
    let reply = c.call(Request::GET_INFLIGHT_FD, &inflight(queues, RING_SIZE, 0), &[])?;
    let (size, offset) = (u64_at(&reply.body, 0), u64_at(&reply.body, 8));
    Ok(Given { reply, size, offset })
}

fn region_is_given(t: &mut Target) -> Outcome {
    let mut c = t.negotiate_with(Feature::INFLIGHT_SHMFD)?;
    let mut given = ask_for_region(&mut c, queues_of(t))?;
    let text = given.reply.to_string();
    let is_one = given.reply.body.len() == 24 && given.reply.descriptors.len() == 1;
    let length = given.reply.descriptors.pop().map_or(Ok(0), |it| File::from(it).metadata().map(|it| it.len()))?;
    let fits = given.size > 0 && given.size.checked_add(given.offset).map_or(false, |it| it <= length);
    seen(is_one && fits, format!("{text}, a file of {length} bytes"))
}

fn region_is_taken_back(t: &mut Target) -> Outcome {
    let mut c = t.negotiate_with(Feature::INFLIGHT_SHMFD | Feature::REPLY_ACK)?;
    let given = ask_for_region(&mut c, queues_of(t))?;
    seen_zero(c.need(Request::SET_INFLIGHT_FD, &given.body(queues_of(t)), &given.file())?)
}

fn answered_for(t: &mut Target, body: Vec<u8>) -> Outcome {
    let mut c = t.negotiate_with(Feature::INFLIGHT_SHMFD)?;
    Answer::of(c.ask(Request::GET_INFLIGHT_FD, &body, &[]))?.seen_answered()
}

fn refused_region(t: &mut Target, body: Vec<u8>, files: Vec<OwnedFd>) -> Outcome {
    let mut c = t.negotiate_with(Feature::INFLIGHT_SHMFD | Feature::REPLY_ACK)?;
    let answer = asked(&mut c, Request::SET_INFLIGHT_FD, &body, &files)?;
    if answer.is_refused() || !answer.goes_on() || t.kind.is_none() {
        return answer.seen_refused();
    }
    // (the rings are set up, so that what it took has an effect)
    let later = Answer::of(t.rings(&mut c, Setup::WHOLE).and_then(|_rings| c.fence()))?;
    seen(later.has_hung_up(), format!("{}; at the rings: {}", answer.text(), later.text()))
}

/// A region as a backend left it that was killed in the middle of the first request, with the rings that go with it.
fn left_behind(
    t: &mut Target,
    version: u16,
    used_index: u16,
    batch: u16,
) -> Result<(Connection, Given, std::rc::Rc<Memory>), Stop> {
    let kind = t.kind()?;
    let mut c = t.negotiate_with(Feature::INFLIGHT_SHMFD)?;
    let given = ask_for_region(&mut c, queues_of(t))?;
    let map = given.map()?;
    let at = given.offset + u64::from(kind.driven()) * (given.size / u64::from(kind.rings()));
    let head = [version, RING_SIZE, batch, used_index].map(u16::to_le_bytes).concat();
    map.write(at, &joined(&[&u64s(&[0]), &head]));
    map.write(at + 16, &joined(&[&[1, 0, 0, 0, 0, 0], &0u16.to_le_bytes(), &u64s(&[1])]));
    let memory = c.give_memory()?;
    let mut ring = Ring::in_memory(memory.clone(), kind.driven())?;
    kind.write_request(&ring);
    ring.make_available(0, 1);
    c.send(Request::SET_INFLIGHT_FD, &given.body(queues_of(t)), &given.file())?;
    Ok((c, given, memory))
}

/// Starts all rings behind the request that was left: the used index of the driven one, after a while.
fn done_again(t: &mut Target, c: &mut Connection, memory: std::rc::Rc<Memory>) -> Result<u16, Stop> {
    let kind = t.kind()?;
    let mut rings = Vec::new();
    for index in 0..kind.rings() {
        let mut ring = Ring::in_memory(memory.clone(), index)?;
        ring.prepare(c, u16::from(index == kind.driven()))?;
        ring.give_kick(c)?;
        ring.enable(c, true)?;
        rings.push(ring);
    }
    t.say_ready(c)?;
    let driven = &rings[kind.driven() as usize];
    driven.signal();
    c.fence()?;
    driven.is_done(1, c.process, c.limit / 2);
    Ok(driven.used_index())
}

fn unfinished_is_done_again(t: &mut Target) -> Outcome {
    let (mut c, _given, memory) = left_behind(t, 1, 0, 0)?;
    let used = done_again(t, &mut c, memory)?;
    seen(used == 1, format!("used {used}"))
}

fn wrong_records(t: &mut Target) -> Outcome {
    for (version, used_index, batch) in [(7, 0, 0), (1, u16::MAX, 0), (1, 0, u16::MAX)] {
        let (mut c, _given, memory) = left_behind(t, version, used_index, batch)?;
        match Answer::of(done_again(t, &mut c, memory).map(|_| Vec::new()))? {
            Answer::Silent => return seen(false, format!("version {version}, used index {used_index}, batch {batch}: silent")),
            _ => t.rest(),
        }
    }
    seen(true, "survives each")
}

fn new_region_is_zero(t: &mut Target) -> Outcome {
    let mut c = t.negotiate_with(Feature::INFLIGHT_SHMFD)?;
    let first = ask_for_region(&mut c, queues_of(t))?;
    first.map()?.write(first.offset, &[0xff; 16]);
    let second = ask_for_region(&mut c, queues_of(t))?;
    let head = second.map()?.read(second.offset, 16);
    seen(head == [0; 16], hex_of(&head))
}

/// The id of the request that was under way.
const ID: u16 = 5;
/// How many bytes the head of a packed ring's part has, and each of its entries.
const PACKED_UNIT: u64 = 32;

/// The part of a packed ring whose first request is under way: it has the first descriptors, and the others are free.
fn packed_part(ring: &PackedRing, request: &[Buffer]) -> Vec<u8> {
    let count = request.len() as u16;
    let head = [1, RING_SIZE, count, count, 0, 0].map(u16::to_le_bytes).concat();
    let mut part = joined(&[&u64s(&[0]), &head, &[1, 1], &[0; 10]]);
    for entry in 0..RING_SIZE {
        let is_head = entry == 0;
        let numbers = [u16::from(is_head), entry + 1, if is_head { count - 1 } else { 0 }, if is_head { count } else { 0 }];
        let buffer = request.get(usize::from(entry)).copied().unwrap_or(Buffer::new(0, 0, 0));
        let (id, flags) = if entry < count { (ID, ring.flags(entry)) } else { (0, 0) };
        part.extend(numbers.map(u16::to_le_bytes).concat());
        part.extend(u64s(&[is_head.into()]));
        part.extend([id, flags].map(u16::to_le_bytes).concat());
        part.extend(joined(&[&u32s(&[buffer.length]), &u64s(&[buffer.address])]));
    }
    part
}

/// A packed ring, as a backend left it that was killed in the middle of its first request.
fn unfinished_packed_is_done_again(t: &mut Target) -> Outcome {
    let mut device = unprepared(t, Place::FIRST, Feature::INFLIGHT_SHMFD)?;
    let given = ask_for_region(&mut device.c, queues_of(t))?;
    let request = device.request();
    let head = device.driven().make_available(&request, ID);
    let part = packed_part(device.driven(), &request);
    let size = given.size / u64::from(queues_of(t));
    if size < PACKED_UNIT * (1 + u64::from(RING_SIZE)) {
        return Err(Stop::Odd(format!("{size} bytes of a region for a ring of {RING_SIZE}")));
    }
    given.map()?.write(given.offset + u64::from(device.driven().ring.index) * size, &part);
    device.c.send(Request::SET_INFLIGHT_FD, &given.body(queues_of(t)), &given.file())?;
    device.start(t, head, true)?;
    device.driven().ring.signal();
    let done = device.is_done(head);
    let id = device.driven().id(head.index);
    let next = device.works(ID + 1)?.is_some();
    seen(done && id == ID && next, format!("used {done} by id {id}; the next: {next}"))
}

/// The feature was accepted, and no region comes.
fn no_region_is_given(t: &mut Target) -> Outcome {
    let mut c = t.negotiate_with(Feature::INFLIGHT_SHMFD)?;
    let mut rings = t.rings(&mut c, Setup::WHOLE)?;
    let done = works(t, &c, rings.driven(), 1)?;
    seen(done, format!("used {}", rings.driven().used_index()))
}
