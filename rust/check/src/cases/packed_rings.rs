// SPDX-License-Identifier: Apache-2.0
//! Packed rings, right and wrong.
use super::ring_states::{is_in_image, kind_with_effects, new_sector, with_enabling};
use super::*;
use crate::connection::{Memory, Terms};
use crate::device::{reading_request, sector_read, sector_request, Kind, BUFFERS, DATA, SECTOR, STATUS};
use crate::packed::{PackedRing, Place, AVAILABLE, TABLE, USED, WITHOUT_CALLS};
use crate::patience::settle;
use crate::ring::{descriptor, Buffer, INDIRECT, NEXT, RING_SIZE, WRITE};
use crate::system::{is_readable, take_event};

pub(super) const CASES: &[Case] = &[
    ("PKD-01", base_after_a_request),
    ("PKD-02", base_wraps),
    ("PKD-03", wrong_descriptors),
    ("PKD-05", used_by_the_wrap_counter),
    ("PKD-06", used_by_its_id),
    ("PKD-07", table_of_descriptors),
    ("PKD-08", calls_are_not_wanted),
    ("PKD-09", bits_of_another_turn),
    ("PKD-10", wrong_tables),
    ("PKD-11", never_enabled),
    ("PKD-12", goes_on_from_its_base),
    ("PKD-13", stopped_does_nothing),
];

/// The last place before an index begins anew, in a turn whose wrap counter is 0.
const LAST: Place = Place { index: RING_SIZE - 1, wrap: false };

/// All rings of a device, packed, of which one is driven.
pub(super) struct Packed {
    pub(super) c: Connection,
    pub(super) rings: Vec<PackedRing>,
    kind: Kind,
}

impl Packed {
    pub(super) fn driven(&mut self) -> &mut PackedRing {
        &mut self.rings[self.kind.driven() as usize]
    }

    fn memory(&mut self) -> std::rc::Rc<Memory> {
        self.driven().ring.memory.clone()
    }

    pub(super) fn request(&mut self) -> Vec<Buffer> {
        self.kind.request(&self.memory())
    }

    /// A request of this id: where it began, once it is used.
    pub(super) fn works(&mut self, id: u16) -> Result<Option<Place>, Stop> {
        let request = self.request();
        let head = self.driven().push(&request, id);
        Ok(self.is_done(head).then_some(head))
    }

    pub(super) fn is_done(&mut self, head: Place) -> bool {
        let (process, limit) = (self.c.process, self.c.limit);
        self.driven().is_done(head, process, limit)
    }

    /// The base that the backend replies with, which stops the ring.
    fn stop(&mut self) -> Result<Reply, Stop> {
        let Packed { c, rings, kind } = self;
        rings[kind.driven() as usize].ring.stop(c)
    }

    /// Whether a reply has the place where the driver is, for both indices.
    fn is_base(&mut self, reply: &Reply) -> bool {
        reply.body == u32s(&[self.kind.driven(), self.driven().next.base()])
    }
}

/// All rings, packed, from one place on; nothing was said of them yet.
pub(super) fn unprepared(t: &mut Target, first: Place, with: Feature) -> Result<Packed, Stop> {
    let kind = t.kind()?;
    let mut c = t.negotiate_by(Terms { features: Some(!(LOG_ALL | IOMMU | EVENT_IDX)), with, ..Terms::default() })?;
    c.want(with)?;
    if c.accepted & PACKED == 0 {
        return Err(Stop::Skip("packed rings are not offered".to_string()));
    }
    c.give_memory()?;
    if c.has(Feature::STATUS) {
        c.send(Request::SET_STATUS, &u64s(&[11]), &[])?;
    }
    let rings = (0..kind.rings()).map(|it| PackedRing::new(&c, it, first)).collect::<Result<_, _>>()?;
    Ok(Packed { c, rings, kind })
}

impl Packed {
    /// Starts all rings, and enables them, too, or not. The device has used what comes before a place.
    pub(super) fn start(&mut self, t: &Target, used: Place, is_enabled: bool) -> Result<(), Stop> {
        let Packed { c, rings, .. } = self;
        for ring in rings.iter() {
            ring.prepare(c, used)?;
        }
        for PackedRing { ring, .. } in rings.iter() {
            ring.give_kick(c)?;
            if is_enabled {
                ring.enable(c, true)?;
            }
        }
        t.say_ready(c)
    }
}

/// All rings from one place on, packed and started; and enabled, too, or not.
fn packed(t: &mut Target, first: Place, is_enabled: bool) -> Result<Packed, Stop> {
    let mut device = unprepared(t, first, Feature::empty())?;
    device.start(t, first, is_enabled)?;
    Ok(device)
}

/// The same, after one request.
fn working(t: &mut Target) -> Result<Packed, Stop> {
    let mut device = packed(t, Place::FIRST, true)?;
    match device.works(0)? {
        Some(_) => Ok(device),
        None => Err(Stop::Silent("the ring did not work at first".to_string())),
    }
}

fn base_after_a_request(t: &mut Target) -> Outcome {
    let mut device = working(t)?;
    let reply = device.stop()?;
    seen(device.is_base(&reply), format!("{reply} {}", hex_of(&reply.body)))
}

fn base_wraps(t: &mut Target) -> Outcome {
    let mut device = packed(t, LAST, true)?;
    let [first, second] = [device.works(0)?.is_some(), device.works(1)?.is_some()];
    let reply = device.stop()?;
    let holds = first && second && device.is_base(&reply);
    seen(holds, format!("first {first}, second {second}, base {}", hex_of(&reply.body)))
}

/// Two turns of the ring: each descriptor is used by the bits of its turn, where its chain began.
fn used_by_the_wrap_counter(t: &mut Target) -> Outcome {
    let mut device = packed(t, Place::FIRST, true)?;
    let each = device.request().len();
    let requests = 2 * usize::from(RING_SIZE) / each + 2;
    for number in 0..requests {
        if device.works(number as u16 % RING_SIZE)?.is_none() {
            let flags = device.driven().flags((number * each % usize::from(RING_SIZE)) as u16);
            return seen(false, format!("request {number} is not used: flags {flags:#x}"));
        }
    }
    seen(true, format!("{requests} requests"))
}

fn used_by_its_id(t: &mut Target) -> Outcome {
    let mut device = packed(t, Place::FIRST, true)?;
    let mut ids = Vec::new();
    for id in [37, RING_SIZE - 1, 0] {
        match device.works(id)? {
            Some(head) => ids.push((id, device.driven().id(head.index))),
            None => return seen(false, format!("{ids:?}, and {id} is not used")),
        }
    }
    seen(ids.iter().all(|(given, used)| given == used), format!("{ids:?}"))
}

fn table_of_descriptors(t: &mut Target) -> Outcome {
    let mut device = packed(t, Place::FIRST, true)?;
    if device.c.accepted & INDIRECT_TABLES == 0 {
        return Err(Stop::Skip("tables of descriptors are not offered".to_string()));
    }
    let memory = device.memory();
    memory.map.write(STATUS, &[0xff]);
    let request = device.request();
    let head = device.driven().push_table(&request, 5);
    let is_done = device.is_done(head);
    let has_effect = device.kind.has_effect(&memory);
    let next = device.works(6)?.is_some();
    seen(is_done && has_effect && next, format!("used {is_done}, with its effect {has_effect}; the next: {next}"))
}

fn calls_are_not_wanted(t: &mut Target) -> Outcome {
    let mut device = working(t)?;
    device.c.settle()?;
    device.driven().want_calls(WITHOUT_CALLS);
    take_event(&device.driven().ring.call);
    let done = device.works(1)?.is_some();
    device.c.settle()?;
    let early = is_readable(&device.driven().ring.call, 0);
    device.driven().want_calls(0);
    let again = device.works(2)?.is_some();
    let (process, limit) = (device.c.process, device.c.limit);
    let called = device.driven().ring.is_called(process, limit);
    seen(done && again && !early && called, format!("unwanted {early}, wanted {called}"))
}

/// A descriptor whose bits are those of the turn before is not available.
fn bits_of_another_turn(t: &mut Target) -> Outcome {
    let mut device = working(t)?;
    let request = device.request();
    let first = device.driven().next;
    let other = Place { wrap: !first.wrap, ..first };
    device.driven().next = other;
    device.driven().push(&request, 1);
    device.c.settle()?;
    let taken = device.driven().flags(first.index) & (AVAILABLE | USED) != USED;
    device.driven().next = first;
    let done = device.works(1)?.is_some();
    seen(!taken && done, format!("taken {taken}, then used {done}"))
}

/// Whether a device that has worked goes on with its session after what its driver does.
fn survives(t: &mut Target, driver: fn(&mut PackedRing)) -> Result<(bool, String), Stop> {
    let mut device = working(t)?;
    driver(device.driven());
    device.driven().ring.signal();
    settle(device.c.process);
    let answer = Answer::of(device.c.fence())?;
    if !answer.goes_on() {
        return Ok((false, format!("the guest ends the session: {}", answer.text())));
    }
    let stopped = Answer::of(device.stop().map(|it| vec![it]))?;
    Ok((!matches!(stopped, Answer::Silent), stopped.text()))
}

/// What a driver does, and how that is called.
type Driver = (&'static str, fn(&mut PackedRing));

/// That it does after each of these.
fn survives_each(t: &mut Target, drivers: &[Driver]) -> Outcome {
    for (name, driver) in drivers {
        let (holds, text) = survives(t, *driver)?;
        if !holds {
            return seen(false, format!("{name}: {text}"));
        }
        t.rest();
    }
    seen(true, format!("survives {}", drivers.len()))
}

fn wrong_descriptors(t: &mut Target) -> Outcome {
    survives_each(
        t,
        &[
            ("an id beyond the size", |ring| {
                ring.make_available(&[Buffer::new(BUFFERS, 16, WRITE)], u16::MAX);
            }),
            ("a chain without an end", |ring| {
                let next = ring.next.index;
                (0..RING_SIZE).rev().for_each(|it| ring.describe(it, Buffer::new(BUFFERS, 16, NEXT), 0, bits_at(it, next)));
            }),
            ("a chain that goes on into what is not available", |ring| {
                let (next, bits) = (ring.next.index, bits_at(ring.next.index, 0));
                ring.describe(next, Buffer::new(BUFFERS, 16, NEXT), 0, bits);
            }),
            ("all bits of all descriptors", |ring| {
                (0..RING_SIZE).for_each(|it| ring.describe(it, Buffer::new(u64::MAX - 7, u32::MAX, u16::MAX), u16::MAX, 0));
            }),
            ("a buffer outside of memory", |ring| {
                ring.make_available(&[Buffer::new(SIZE - 8, 4096, WRITE)], 0);
            }),
        ],
    )
}

/// The bits by which a descriptor is available in the first turn, or behind its end in the second.
fn bits_at(index: u16, first: u16) -> u16 {
    if index >= first {
        AVAILABLE
    } else {
        USED
    }
}

fn wrong_tables(t: &mut Target) -> Outcome {
    survives_each(
        t,
        &[
            ("a table of 17 bytes", |ring| {
                ring.make_available(&[Buffer::new(TABLE, 17, INDIRECT)], 0);
            }),
            ("an empty table", |ring| {
                ring.make_available(&[Buffer::new(TABLE, 0, INDIRECT)], 0);
            }),
            ("a table of two gibibytes", |ring| {
                ring.make_available(&[Buffer::new(TABLE, 1 << 31, INDIRECT)], 0);
            }),
            ("a table of 4096 descriptors", |ring| {
                let row = descriptor(BUFFERS, 1, 0, 0);
                (0..4096).for_each(|it| ring.ring.write(TABLE + 16 * it, &row));
                ring.make_available(&[Buffer::new(TABLE, 65536, INDIRECT)], 0);
            }),
            ("a table in a table", |ring| {
                ring.ring.write(TABLE, &descriptor(TABLE, 16, 0, INDIRECT));
                ring.make_available(&[Buffer::new(TABLE, 16, INDIRECT)], 0);
            }),
            ("a table in a chain", |ring| {
                ring.ring.write(TABLE, &descriptor(BUFFERS, 16, 0, 0));
                ring.make_available(&[Buffer::new(TABLE, 16, INDIRECT), Buffer::new(BUFFERS, 16, 0)], 0);
            }),
        ],
    )
}

/// A request in a ring that is not enabled: what it has left by then, and whether the ring works once it is.
fn never_enabled(t: &mut Target) -> Outcome {
    let kind = kind_with_effects(t)?;
    let mut device = packed(t, Place::FIRST, false)?;
    with_enabling(&device.c)?;
    match kind {
        Kind::Block => write_while_disabled(t, &mut device),
        _ => {
            let request = device.request();
            let head = device.driven().push(&request, 0);
            device.c.settle()?;
            let early = device.driven().is_used(head);
            let done = enabled_then(&mut device, head)?;
            seen(done && !early, format!("while disabled {early}, then {done}"))
        }
    }
}

fn enabled_then(device: &mut Packed, head: Place) -> Result<bool, Stop> {
    for PackedRing { ring, .. } in &device.rings {
        ring.enable(&mut device.c, true)?;
    }
    device.c.fence()?;
    device.driven().ring.signal();
    Ok(device.is_done(head))
}

/// It may be used up, but not carried out.
fn write_while_disabled(t: &Target, device: &mut Packed) -> Outcome {
    let (memory, sector) = (device.memory(), new_sector());
    let request = sector_request(&memory, &sector);
    let head = device.driven().push(&request, 0);
    device.c.settle()?;
    let early = device.driven().is_used(head);
    let in_image = is_in_image(t, &memory.map.read(DATA, SECTOR));
    let written = enabled_then(device, head)?;
    let reading = reading_request(&memory);
    let head = device.driven().push(&reading, 1);
    let read = device.is_done(head);
    let is_there = sector_read(&memory) == sector;
    let text = format!("while disabled: used {early}, in the image {in_image}; then the sector is written: {is_there}");
    seen(written && read && !in_image && !(early && is_there), text)
}

/// A ring that has begun its second turn is stopped, and goes on from the base that was replied.
fn goes_on_from_its_base(t: &mut Target) -> Outcome {
    let mut device = packed(t, Place::FIRST, true)?;
    let each = device.request().len();
    for number in 0..usize::from(RING_SIZE) / each + 1 {
        if device.works(0)?.is_none() {
            return seen(false, format!("request {number} is not used"));
        }
    }
    let reply = device.stop()?;
    let is_base = device.is_base(&reply);
    let base = u32_at(&reply.body, 4);
    let Packed { c, rings, kind } = &mut device;
    let ring = &rings[kind.driven() as usize].ring;
    ring.say_size(c)?;
    ring.say_whole_base(c, base)?;
    ring.say_places(c)?;
    ring.give_kick(c)?;
    ring.enable(c, true)?;
    let done = device.works(1)?.is_some();
    seen(is_base && done, format!("base {base:#x}, then used {done}"))
}

fn stopped_does_nothing(t: &mut Target) -> Outcome {
    let mut device = working(t)?;
    device.stop()?;
    let request = device.request();
    let head = device.driven().push(&request, 1);
    device.c.settle()?;
    let used = device.driven().is_used(head);
    seen(!used, format!("used {used}"))
}
