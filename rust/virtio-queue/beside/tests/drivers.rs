// SPDX-License-Identifier: Apache-2.0
//! Random drivers, over the crate and over this package, in two memories that are equal at first. One keeps virtio's rules: each answer is the
//! same, and each byte of both memories. One breaks them: up to the first refusal, and all that was handed out before is what the crate hands out.
use std::collections::BTreeMap;

use covretin_queue_beside::*;
use vm_memory::{Bytes, GuestAddress};

/// How many plays, of so many steps.
const PLAYS: u64 = 1500;
const STEPS: u64 = 120;

/// A driver and a device, which do the same on both sides.
struct Play {
    random: Random,
    theirs: Theirs,
    ours: Ours,
    has_event_idx: bool,
    /// The descriptors that are in no chain; the descriptors of each chain, by its head.
    free: Vec<u16>,
    chains: BTreeMap<u16, Vec<u16>>,
    /// The index of the available ring, what it was when it was taken last, and the heads that the device has, in their order.
    idx: u16,
    out: Vec<u16>,
    /// Whether the queue began since it was asked last whether to tell.
    has_begun: bool,
    /// What was seen, by its name.
    seen: BTreeMap<&'static str, u64>,
}

impl Play {
    fn new(seed: u64) -> Play {
        let mut random = Random::new(seed);
        let has_event_idx = random.one_in(2);
        let base = if random.one_in(3) { 65530 } else { random.below(3) as u16 };
        Play {
            theirs: Theirs::new(has_event_idx, base),
            ours: Ours::new(has_event_idx, base),
            random,
            has_event_idx,
            free: (0..SIZE).collect(),
            chains: BTreeMap::new(),
            idx: base,
            out: vec![],
            has_begun: true,
            seen: BTreeMap::new(),
        }
    }

    fn count(&mut self, what: &'static str, many: usize) {
        *self.seen.entry(what).or_default() += many as u64;
    }

    /// Writes into both memories.
    fn put(&mut self, at: u64, bytes: &[u8]) {
        for memory in [self.theirs.memory(), self.ours.memory()] {
            memory.write_slice(bytes, GuestAddress(at)).unwrap();
        }
    }

    fn put16(&mut self, at: u64, value: u16) {
        self.put(at, &value.to_le_bytes());
    }

    fn describe(&mut self, at: u64, (addr, len, flags, next): (u64, u32, u16, u16)) {
        let mut bytes = [addr.to_le_bytes(), [0; 8]].concat();
        bytes[8..12].copy_from_slice(&len.to_le_bytes());
        bytes[12..14].copy_from_slice(&flags.to_le_bytes());
        bytes[14..].copy_from_slice(&next.to_le_bytes());
        self.put(at, &bytes);
    }

    /// Writes a list of descriptors at these places of a table: first some to be read, then some to be written.
    fn link(&mut self, table: u64, places: &[u16], ends_in: Option<(u64, u32)>) {
        let written = self.random.below(places.len() as u64 + 1) as usize;
        for (at, place) in places.iter().enumerate() {
            let (addr, len) = (BUFFERS + self.random.below(END - BUFFERS - 0x800), 1 + self.random.below(0x800) as u32);
            let flags = if at >= written { WRITE } else { 0 };
            let part = match (places.get(at + 1), ends_in) {
                (Some(next), _) => (addr, len, flags | NEXT, *next),
                (None, None) => (addr, len, flags, self.random.below(0x10000) as u16),
                (None, Some((addr, len))) => (addr, len, INDIRECT, 0),
            };
            self.describe(table + 16 * u64::from(*place), part);
        }
    }

    /// Makes a chain available, if there are descriptors for it.
    fn offer(&mut self) {
        let len = 1 + self.random.below(4) as usize;
        if len > self.free.len() {
            return;
        }
        let mut places = vec![];
        for _ in 0..len {
            let at = self.random.below(self.free.len() as u64) as usize;
            places.push(self.free.swap_remove(at));
        }
        if self.random.one_in(3) {
            // (what comes before the table is read)
            let (table, count) = (TABLES + 0x100 * u64::from(places[0]), 1 + self.random.below(16) as u16);
            let (head, before) = (places[0], places.len());
            self.link(table, &(0..count).collect::<Vec<_>>(), None);
            self.link(DESC, &places, Some((table, 16 * u32::from(count))));
            for place in places.iter().take(before - 1) {
                self.clear_write(*place);
            }
            self.count("indirect", 1);
            self.publish(head, places);
            return;
        }
        self.link(DESC, &places, None);
        self.publish(places[0], places);
    }

    fn clear_write(&mut self, place: u16) {
        let at = DESC + 16 * u64::from(place) + 12;
        let flags: u16 = self.ours.memory().read_obj(GuestAddress(at)).unwrap();
        self.put16(at, u16::from_le(flags) & !WRITE);
    }

    fn publish(&mut self, head: u16, places: Vec<u16>) {
        self.chains.insert(head, places);
        self.put16(AVAIL + 4 + 2 * u64::from(self.idx % SIZE), head);
        self.idx = self.idx.wrapping_add(1);
        self.put16(AVAIL + 2, self.idx);
        self.count("offered", 1);
    }

    /// What both hand out, each of the chains as a list: ours are the first of theirs, and where `must_be_all` all of them.
    fn take(&mut self, must_be_all: bool) -> bool {
        let how = [Take::One, Take::All, Take::Two, Take::Again][self.random.below(4) as usize];
        let (theirs, ours) = (self.theirs.take(how), self.ours.take(how).expect("it is no error"));
        let refused = theirs.as_ref().map(Vec::len) != Some(ours.len());
        let theirs = theirs.unwrap_or_default();
        assert!(!(must_be_all && refused), "{how:?}: theirs {theirs:x?}, ours {ours:x?}");
        assert_eq!(theirs[..ours.len().min(theirs.len())], ours, "{how:?}");
        self.count("taken", ours.len());
        self.count("parts", ours.iter().map(|(_, parts)| parts.len()).sum());
        let first = usize::from(matches!(how, Take::Again)).min(ours.len());
        self.out.extend(ours[first..].iter().map(|(head, _)| *head));
        if matches!(how, Take::Again) && ours.len() == 1 {
            self.out.push(ours[0].0);
        }
        !refused
    }

    /// Gives a chain back, of which the driver has the descriptors again.
    fn use_one(&mut self) {
        if self.out.is_empty() {
            return;
        }
        let at = self.random.below(self.out.len() as u64) as usize;
        let (head, len) = (self.out.remove(at), self.random.below(1 << 32) as u32);
        assert_eq!((true, true), (self.theirs.add_used(head, len), self.ours.add_used(head, len)), "{head}");
        self.free.extend(self.chains.remove(&head).unwrap_or_default());
        self.count("used", 1);
    }

    /// Whether the driver is to be told. A queue that began may tell needlessly, once, and never the reverse.
    fn ask(&mut self) {
        if self.has_event_idx {
            let event = self.ours.memory().read_obj::<u16>(GuestAddress(USED + 2)).unwrap();
            let event = u16::from_le(event).wrapping_sub(self.random.below(5) as u16);
            self.put16(AVAIL + 4 + 2 * u64::from(SIZE), event);
        }
        let (theirs, ours) = (self.theirs.needs_notification().unwrap(), self.ours.needs_notification().unwrap());
        let needlessly = self.has_begun && ours && !theirs;
        assert!(ours == theirs || needlessly, "theirs {theirs}, ours {ours}");
        self.count("told", ours.into());
        self.count("told needlessly", needlessly.into());
        self.has_begun = false;
    }

    /// Stops and goes on, is saved and restored, or takes chains back.
    fn begin(&mut self) {
        match self.random.below(3) {
            0 => {
                self.theirs.restart();
                self.ours.restart();
                self.count("restarts", 1);
            }
            1 => {
                self.theirs.restore();
                self.ours.restore();
                self.count("restores", 1);
            }
            _ => return,
        }
        self.has_begun = true;
    }

    /// Takes the last chains back that were taken. (of a driver that keeps the rules; the device has them all, and in that order)
    fn take_back(&mut self, lasts: &mut Vec<u16>) {
        let most = lasts.iter().rev().zip(self.out.iter().rev()).take_while(|(last, out)| last == out).count();
        let (count, by_index) = (self.random.below(most as u64 + 1) as u16, self.random.one_in(2));
        if count == 0 {
            return;
        }
        self.theirs.take_back(count, by_index);
        self.ours.take_back(count, by_index);
        self.out.truncate(self.out.len() - usize::from(count));
        lasts.truncate(lasts.len() - usize::from(count));
        self.has_begun = true;
        self.count("taken back", count.into());
    }

    fn notify(&mut self, must_be_same: bool) {
        if self.random.one_in(2) {
            assert_eq!(self.theirs.disable(), self.ours.disable());
            return;
        }
        let (theirs, ours) = (self.theirs.enable(), self.ours.enable());
        assert!(theirs == ours || !must_be_same && ours == Some(false), "theirs {theirs:?}, ours {ours:?}");
    }

    fn compare(&mut self) {
        let [theirs, ours] = [self.theirs.memory(), self.ours.memory()].map(|memory| {
            let mut bytes = vec![0; END as usize];
            memory.read_slice(&mut bytes, GuestAddress(0)).unwrap();
            bytes
        });
        assert!(theirs == ours, "at {:x?}", theirs.iter().zip(&ours).position(|(a, b)| a != b));
        self.count("memories", 1);
    }

    /// Breaks a rule, or writes what may break one.
    fn break_a_rule(&mut self) {
        let (place, value) = (DESC + 16 * self.random.below(SIZE.into()), self.random.below(0x10000));
        let (small, flags) = (self.random.below(20) as u16, self.random.below(8) as u16);
        match self.random.below(8) {
            0 => self.put16(place + 14, small),
            1 => self.put16(place + 12, flags),
            2 => self.put(place + 8, &(value as u32 * 16 * u32::from(small)).to_le_bytes()),
            3 => self.put(place, &(value * 8).to_le_bytes()),
            4 => self.put16(AVAIL + 4 + 2 * u64::from(small % SIZE), value as u16 % 20),
            5 => {
                self.idx = self.idx.wrapping_add(small);
                self.put16(AVAIL + 2, self.idx);
            }
            6 => self.put16(TABLES + value % 0x4000 / 2 * 2, small),
            _ => self.put16(AVAIL + 2, value as u16),
        }
    }
}

fn show(name: &str, all: BTreeMap<&'static str, u64>) {
    println!("{name}: {all:?}");
    for what in ["offered", "indirect", "taken", "used", "told"] {
        assert!(all[what] > PLAYS, "{what}");
    }
}

#[test]
fn a_driver_that_keeps_the_rules() {
    let mut all = BTreeMap::<_, u64>::new();
    for seed in 1..=PLAYS {
        let mut play = Play::new(seed);
        let mut lasts = vec![];
        for _ in 0..STEPS {
            match play.random.below(16) {
                0..=4 => play.offer(),
                5..=8 => {
                    let before = play.out.len();
                    play.take(true);
                    lasts.extend_from_slice(&play.out[before..]);
                }
                9..=11 => play.use_one(),
                12 => play.ask(),
                13 => play.notify(true),
                14 => play.take_back(&mut lasts),
                _ => play.begin(),
            }
        }
        play.compare();
        play.seen.into_iter().for_each(|(what, many)| *all.entry(what).or_default() += many);
    }
    show("rules kept", all);
}

#[test]
fn a_driver_that_breaks_them() {
    let mut all = BTreeMap::<_, u64>::new();
    for seed in 1..=PLAYS {
        let mut play = Play::new(seed);
        let mut is_refused = false;
        for _ in 0..STEPS {
            match play.random.below(16) {
                0..=4 => play.offer(),
                5..=8 => is_refused = !play.take(false),
                9..=10 => play.use_one(),
                11 => play.ask(),
                12 => play.notify(false),
                _ => play.break_a_rule(),
            }
            if is_refused {
                break;
            }
        }
        if is_refused {
            // Nothing more is handed out, and what was may be given back.
            assert_eq!(Some(vec![]), play.ours.take(Take::All));
            assert_eq!(Some(false), play.ours.enable());
            std::mem::take(&mut play.out).iter().for_each(|head| assert!(play.ours.add_used(*head, 0)));
            play.count("refused", 1);
        }
        play.seen.into_iter().for_each(|(what, many)| *all.entry(what).or_default() += many);
    }
    assert!(all["refused"] > PLAYS / 2, "{all:?}");
    show("rules broken", all);
}
