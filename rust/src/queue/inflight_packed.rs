// SPDX-License-Identifier: Apache-2.0
//! A packed queue's part of the inflight region: of each request that it has, its descriptors in the ring, which used ones overwrite.
use std::sync::Arc;

use super::inflight::{note, COUNT, VERSION};
use super::{Error, Result};
use crate::foreign::{
    inflight_after_used_packed, inflight_before_used_packed, inflight_keep_packed, inflight_recover_packed, inflight_take_packed,
    Descriptor, InflightEntry, Mapping, PackedInflightHead, Resubmit,
};

/// The sizes of a queue's head and of an entry; and what is in the head.
pub(super) const UNIT: usize = 32;
const FREE_HEAD: usize = 12;
const OLD_FREE_HEAD: usize = 14;
const PLACES: usize = 16;

/// Entries that a request has, by their links, and the free list behind them.
#[derive(Clone, Copy, Default)]
pub(super) struct Kept {
    head: u16,
    last: u16,
    num: u16,
    behind: u16,
}

/// A queue's part of the region. Its entries are linked here, as they are there.
pub(super) struct PackedArea {
    mapping: Arc<Mapping>,
    at: usize,
    next: Vec<u16>,
    free_head: u16,
    /// The entries of what the device has, by its id.
    taken: Vec<Kept>,
    /// The place that is used next, as in a base.
    used: u16,
    /// Of what is taken next.
    counter: u64,
}

impl PackedArea {
    pub(super) fn new(mapping: Arc<Mapping>, at: usize, size: u16) -> PackedArea {
        let taken = vec![Kept::default(); size.into()];
        PackedArea { mapping, at, next: (1..=size).collect(), free_head: 0, taken, used: 0, counter: 0 }
    }

    /// Where an entry is in the mapping.
    fn entry(&self, index: usize) -> usize {
        self.at + UNIT * (index + 1)
    }

    // -- Before a crash --

    /// A request begins at the free list's first entry.
    pub(super) fn begin(&self) -> Kept {
        Kept { head: self.free_head, behind: self.free_head, ..Kept::default() }
    }

    /// A request's next entry, if the list has one.
    fn next_entry(&self, kept: &mut Kept) -> Option<u16> {
        let (index, behind) = (kept.behind, *self.next.get(usize::from(kept.behind))?);
        (kept.last, kept.num, kept.behind) = (index, kept.num.wrapping_add(1), behind);
        Some(index)
    }

    /// Keeps a descriptor of it. TooManyAvailable: there is no free entry.
    pub(super) fn keep(&self, kept: &mut Kept, descriptor: Descriptor) -> Result<Descriptor> {
        let index = self.next_entry(kept).ok_or(Error::TooManyAvailable)?;
        note(&self.mapping, self.at, &inflight_keep_packed(index, &descriptor));
        Ok(descriptor)
    }

    /// All of it was kept: it is taken, by this id, which is in the ring.
    pub(super) fn take(&mut self, id: u16, kept: Kept) {
        note(&self.mapping, self.at, &inflight_take_packed(kept.head, kept.last, kept.num, self.counter, kept.behind));
        self.counter = self.counter.wrapping_add(1);
        self.free_head = kept.behind;
        self.taken[usize::from(id)] = kept;
    }

    /// Before the driver is told that it was used, and the place that is used next is this.
    pub(super) fn before_used(&mut self, id: u16, used: u16) {
        let kept = self.taken[usize::from(id)];
        note(&self.mapping, self.at, &inflight_before_used_packed(kept.head, kept.last, self.free_head, used, self.used));
        self.next[usize::from(kept.last)] = self.free_head;
        (self.free_head, self.used) = (kept.head, used);
    }

    /// And after that.
    pub(super) fn after_used(&self, id: u16) {
        note(&self.mapping, self.at, &inflight_after_used_packed(self.taken[usize::from(id)].head, self.used));
    }

    // -- After it --

    /// A request that is taken again; and that it is, by this id.
    pub(super) fn begin_again(head: u16) -> Kept {
        Kept { head, behind: head, ..Kept::default() }
    }

    pub(super) fn take_again(&mut self, id: u16, kept: Kept) {
        self.taken[usize::from(id)] = kept;
    }

    /// The next descriptor that was kept of it. InvalidInflight: there is none.
    pub(super) fn kept(&self, kept: &mut Kept) -> Result<Descriptor> {
        let index = self.next_entry(kept).ok_or(Error::InvalidInflight)?;
        let at = self.entry(index.into());
        let (words, addr) = (self.mapping.load64(at + 16), self.mapping.load64(at + 24));
        Ok(Descriptor { addr, len: (words >> 32) as u32, third: words as u16, fourth: (words >> 16) as u16 })
    }

    /// Two states of it: the later, and the one before.
    fn heads(&self) -> (PackedInflightHead, PackedInflightHead) {
        let places = self.mapping.load64(self.at + PLACES);
        let head = |at, places: u64, wrap: u64| PackedInflightHead {
            free_head: self.mapping.load16(self.at + at),
            used_idx: places as u16,
            used_wrap_counter: wrap & 0xff != 0,
        };
        (head(FREE_HEAD, places, places >> 32), head(OLD_FREE_HEAD, places >> 16, places >> 40))
    }

    fn state(&self, index: usize) -> InflightEntry {
        let at = self.entry(index);
        InflightEntry {
            inflight: self.mapping.load8(at) != 0,
            next: self.mapping.load16(at + 2),
            counter: self.mapping.load64(at + 8),
        }
    }

    /// Where the queue goes on, and what the device before took and did not give back, in the order in which it took them. A part of zeros is a
    /// new one, of a queue that begins at this place. `flags` reads those of a descriptor in the ring. InvalidInflight: it is not this queue's.
    pub(super) fn recover(&mut self, used: u16, flags: impl FnOnce(u16) -> Result<u16>) -> Result<(u16, Vec<Resubmit>)> {
        if self.mapping.load16(self.at + VERSION) == 0 {
            self.next.iter().enumerate().for_each(|(index, next)| self.mapping.store16(self.entry(index) + 2, *next));
            note(&self.mapping, self.at, &inflight_after_used_packed(0, used));
            self.mapping.store16(self.at + COUNT, self.next.len() as u16);
            self.mapping.store16(self.at + VERSION, 1);
        }
        let (now, old) = self.heads();
        let entries: Vec<InflightEntry> = (0..self.next.len()).map(|index| self.state(index)).collect();
        let (head, free, again) = inflight_recover_packed(&entries, &now, &old, flags(old.used_idx)?)?;
        self.next = entries.iter().map(|entry| entry.next).collect();
        (self.free_head, self.used) = (head.free_head, head.used_idx | u16::from(head.used_wrap_counter) << 15);
        for (index, _) in free.iter().enumerate().filter(|(_, is_free)| **is_free) {
            self.mapping.store8(self.entry(index), 0);
        }
        note(&self.mapping, self.at, &inflight_after_used_packed(self.free_head, self.used)[1..]);
        self.counter = again.last().map_or(0, |it| it.counter.wrapping_add(1));
        Ok((self.used, again))
    }
}
