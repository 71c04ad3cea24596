// SPDX-License-Identifier: Apache-2.0
//! A backend that is killed amid requests, and started again with its inflight region.
use std::rc::Rc;

use super::inflight::{ask_for_region, queues_of, Given};
use super::*;
use crate::connection::Memory;
use crate::patience::Patience;
use crate::ring::Ring;
use crate::target::{Rings, Setup};

pub(super) const CASES: &[Case] = &[("INF-10", each_request_is_used_once)];

/// How many requests are available at once.
const REQUESTS: u16 = 16;

/// A connection with a region for what is under way.
fn with_region(t: &mut Target, given: Option<&Given>, memory: Option<Rc<Memory>>) -> Result<(Connection, Option<Given>), Stop> {
    let mut c = t.negotiate_with(Feature::INFLIGHT_SHMFD)?;
    match memory {
        None => drop(c.give_memory()?),
        Some(memory) => {
            c.send(Request::SET_MEM_TABLE, &table(&[Region::ALL]), &[memory.file.as_raw_fd()])?;
            c.memory = Some(memory);
        }
    }
    let asked = if given.is_none() { Some(ask_for_region(&mut c, queues_of(t))?) } else { None };
    let region = given.or(asked.as_ref()).ok_or_else(|| Stop::Trouble("no region".to_string()))?;
    c.send(Request::SET_INFLIGHT_FD, &region.body(queues_of(t)), &region.file())?;
    Ok((c, asked))
}

/// Starts the rings as a frontend does that has lost its backend: from what was used on.
fn start_again(t: &Target, c: &mut Connection, rings: &Rings) -> Result<(), Stop> {
    if c.has(Feature::STATUS) {
        c.send(Request::SET_STATUS, &u64s(&[11]), &[])?;
    }
    for ring in &rings.all {
        ring.say_size(c)?;
        ring.say_whole_base(c, ring.used_index().into())?;
        ring.say_places(c)?;
    }
    for ring in &rings.all {
        ring.give_kick(c)?;
        ring.enable(c, true)?;
    }
    t.say_ready(c)
}

/// The heads that were used, in their order.
fn used_heads(ring: &Ring) -> Vec<u32> {
    let entry = |it: u16| u32_at(&ring.memory.map.read(ring.used + 4 + 8 * u64::from(it), 4), 0);
    (0..ring.used_index().min(REQUESTS)).map(entry).collect()
}

/// It is killed once it has begun, so that some requests are used, some are under way, and some were not taken yet.
fn each_request_is_used_once(t: &mut Target) -> Outcome {
    let kind = t.kind()?;
    let (mut c, given) = with_region(t, None, None)?;
    t.child().ok_or_else(|| Stop::Skip("it was not started here".to_string()))?;
    let mut rings = t.rings(&mut c, Setup::WHOLE)?;
    c.fence()?;
    let ring = rings.driven();
    let request = kind.request(&ring.memory);
    let heads: Vec<u16> = (0..REQUESTS).map(|it| it * request.len() as u16).collect();
    for head in &heads {
        ring.describe_chain(*head, &request);
        ring.make_available(*head, 1);
    }
    ring.signal();
    Patience::new(c.process, c.limit).wait_until(|| ring.used_index() != 0);
    t.kill();
    let early = ring.used_index();
    let memory = ring.memory.clone();
    drop(c);
    let (mut c, _) = with_region(t, given.as_ref(), Some(memory))?;
    start_again(t, &mut c, &rings)?;
    rings.driven().signal();
    let done = rings.driven().is_done(REQUESTS, c.process, c.limit);
    let mut used = used_heads(rings.driven());
    used.sort_unstable();
    let is_once = used == heads.iter().map(|it| u32::from(*it)).collect::<Vec<_>>();
    seen(done && is_once, format!("{early} used before it was killed, {} then; heads {used:?}", rings.driven().used_index()))
}
