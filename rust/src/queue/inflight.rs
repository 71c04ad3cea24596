// SPDX-License-Identifier: Apache-2.0
//! The inflight region: memory that a frontend keeps while a device is started again, in which each queue notes the requests that it has taken
//! and not given back (the vhost-user specification, "Inflight I/O tracking").
use std::fs::File;
use std::os::unix::io::AsRawFd;
use std::sync::atomic::{fence, Ordering};
use std::sync::Arc;
use std::{fmt, io};

use super::inflight_packed::{PackedArea, UNIT};
use super::Result;
use crate::foreign::{
    inflight_after_used, inflight_before_used, inflight_recover, inflight_take, memory_file, Holder, InflightEntry,
    InflightWrite, Mapping, Resubmit,
};
use crate::vhost_user::message::VhostUserInflight;

/// The sizes of a split queue's head and of the state of a descriptor; and what is in the head.
const HEAD: usize = 16;
const STATE: usize = 16;
pub(super) const VERSION: usize = 8;
pub(super) const COUNT: usize = 10;
const LAST: usize = 12;
const USED: usize = 14;

/// How many bytes a queue of this size has.
fn area_size(is_packed: bool, queue_size: u16) -> u64 {
    let (head, state) = if is_packed { (UNIT, UNIT) } else { (HEAD, STATE) };
    (head as u64 + state as u64 * u64::from(queue_size) + 63) / 64 * 64
}

/// Writes what the core says to a part of a mapping: one after the other, also for whoever finds it after a crash.
pub(super) fn note(mapping: &Mapping, part: usize, notes: &[InflightWrite]) {
    for note in notes {
        let at = part + note.offset as usize;
        match note.len {
            1 => mapping.store8(at, note.value as u8),
            2 => mapping.store16(at, note.value as u16),
            4 => mapping.store32(at, note.value as u32),
            _ => mapping.store64(at, note.value),
        }
        fence(Ordering::Release);
    }
}

/// An inflight region, of so many queues of one size at most, split or packed ones.
#[derive(Clone)]
pub struct InflightRegion {
    mapping: Arc<Mapping>,
    queue_size: u16,
    is_packed: bool,
}

impl fmt::Debug for InflightRegion {
    fn fmt(&self, f: &mut fmt::Formatter<'_>) -> fmt::Result {
        let mut all = f.debug_struct("InflightRegion");
        all.field("queue_size", &self.queue_size).field("is_packed", &self.is_packed).finish_non_exhaustive()
    }
}

impl InflightRegion {
    /// A file of zeros for a region of so many split queues of this size: what GET_INFLIGHT_FD replies.
    pub fn create(num_queues: u16, queue_size: u16) -> io::Result<(VhostUserInflight, File)> {
        InflightRegion::create_of(false, num_queues, queue_size)
    }

    /// The same of packed queues.
    pub fn create_packed(num_queues: u16, queue_size: u16) -> io::Result<(VhostUserInflight, File)> {
        InflightRegion::create_of(true, num_queues, queue_size)
    }

    pub(crate) fn create_of(is_packed: bool, num_queues: u16, queue_size: u16) -> io::Result<(VhostUserInflight, File)> {
        let size = u64::from(num_queues) * area_size(is_packed, queue_size);
        let file = memory_file()?;
        file.set_len(size)?;
        Ok((VhostUserInflight::new(size, 0, num_queues, queue_size), file))
    }

    /// Maps the region that SET_INFLIGHT_FD gives, of split queues, of its file, which may be closed then. InvalidInput: it is too small for its
    /// queues, or not aligned to 64 bytes; other errors are those of [`GuestRegion::map`](super::GuestRegion::map).
    pub fn map(about: &VhostUserInflight, file: &impl AsRawFd) -> io::Result<InflightRegion> {
        InflightRegion::map_for(&Arc::new(Holder::default()), false, about, file)
    }

    /// The same of packed queues.
    pub fn map_packed(about: &VhostUserInflight, file: &impl AsRawFd) -> io::Result<InflightRegion> {
        InflightRegion::map_for(&Arc::new(Holder::default()), true, about, file)
    }

    pub(crate) fn map_for(
        holder: &Arc<Holder>,
        is_packed: bool,
        about: &VhostUserInflight,
        file: &impl AsRawFd,
    ) -> io::Result<InflightRegion> {
        let size = InflightRegion::size_of(is_packed, about).ok_or(io::ErrorKind::InvalidInput)?;
        let mapping = Arc::new(Mapping::new(holder, file, about.mmap_offset, size)?);
        Ok(InflightRegion { mapping, queue_size: about.queue_size, is_packed })
    }

    /// How many bytes of its file are mapped. None: they are not enough for its queues, or not aligned.
    pub(crate) fn size_of(is_packed: bool, about: &VhostUserInflight) -> Option<u64> {
        let size = u64::from(about.num_queues) * area_size(is_packed, about.queue_size);
        (size != 0 && about.mmap_offset % 64 == 0 && about.mmap_size >= size).then_some(size)
    }

    /// Where the part of a queue of this size begins, if it has one.
    fn place(&self, is_packed: bool, queue: usize, size: u16) -> Option<usize> {
        let each = area_size(is_packed, self.queue_size);
        let has_part = is_packed == self.is_packed && size <= self.queue_size && (queue as u64) < self.mapping.size() / each;
        has_part.then(|| queue * each as usize)
    }

    /// The part of a split queue of this size, if it has one.
    pub(super) fn area(&self, queue: usize, size: u16) -> Option<Area> {
        Some(Area { at: self.place(false, queue, size)?, mapping: self.mapping.clone(), size, counter: 0 })
    }

    /// The same of a packed queue.
    pub(super) fn packed_area(&self, queue: usize, size: u16) -> Option<PackedArea> {
        Some(PackedArea::new(self.mapping.clone(), self.place(true, queue, size)?, size))
    }
}

/// A split queue's part of it.
pub(super) struct Area {
    mapping: Arc<Mapping>,
    at: usize,
    size: u16,
    /// Of what is taken next.
    counter: u64,
}

impl Area {
    fn state(&self, head: usize) -> usize {
        self.at + HEAD + STATE * head
    }

    pub(super) fn take(&mut self, head: u16) {
        note(&self.mapping, self.at, &inflight_take(head, self.counter));
        self.counter = self.counter.wrapping_add(1);
    }

    pub(super) fn before_used(&self, head: u16) {
        note(&self.mapping, self.at, &inflight_before_used(head, self.mapping.load16(self.at + LAST)));
    }

    pub(super) fn after_used(&self, head: u16, idx: u16) {
        note(&self.mapping, self.at, &inflight_after_used(head, idx));
    }

    fn entry(&self, head: usize) -> InflightEntry {
        let at = self.state(head);
        InflightEntry {
            inflight: self.mapping.load8(at) != 0,
            next: self.mapping.load16(at + 6),
            counter: self.mapping.load64(at + 8),
        }
    }

    /// What the device before took and did not give back, in the order in which it took them, where this is the index of the used ring. A part
    /// of zeros is a new one. InvalidInflight: it is not this queue's.
    pub(super) fn recover(&mut self, used: u16) -> Result<Vec<Resubmit>> {
        if self.mapping.load16(self.at + VERSION) == 0 {
            self.mapping.store16(self.at + COUNT, self.size);
            self.mapping.store16(self.at + USED, used);
            self.mapping.store16(self.at + VERSION, 1);
        }
        let entries: Vec<InflightEntry> = (0..usize::from(self.size)).map(|head| self.entry(head)).collect();
        let (last, before) = (self.mapping.load16(self.at + LAST), self.mapping.load16(self.at + USED));
        let (settled, again) = inflight_recover(&entries, last, before, used)?;
        for (head, _) in settled.iter().enumerate().filter(|(_, is_settled)| **is_settled) {
            self.mapping.store8(self.state(head), 0);
        }
        self.mapping.store16(self.at + USED, used);
        self.counter = again.last().map_or(0, |it| it.counter.wrapping_add(1));
        Ok(again)
    }
}
