// SPDX-License-Identifier: Apache-2.0
//! Descriptors of a queue, which are copied before they are looked at, and what they become: as `include/covretin_queue.h` declares them.
use std::sync::atomic::{AtomicU64, AtomicU8, Ordering};

use super::guard::take_faults;

/// `covretin_range`.
#[repr(C)]
#[derive(Clone, Copy, Default)]
pub(crate) struct Range {
    pub(crate) addr: u64,
    pub(crate) len: u64,
}

/// `covretin_descriptor`.
#[repr(C)]
#[derive(Clone, Copy, Default)]
pub(crate) struct Descriptor {
    pub(crate) addr: u64,
    pub(crate) len: u32,
    pub(crate) third: u16,
    pub(crate) fourth: u16,
}

impl Descriptor {
    /// Its flags, by the queue's layout.
    pub(super) fn flags(&self, is_packed: bool) -> u16 {
        match is_packed {
            true => self.fourth,
            false => self.third,
        }
    }
}

/// VIRTQ_DESC_F_NEXT and VIRTQ_DESC_F_INDIRECT.
pub(super) const NEXT: u16 = 1;
pub(super) const INDIRECT: u16 = 4;

/// How many descriptors are copied at once.
pub(super) const COPIES: usize = 16;

/// `covretin_segment`.
#[repr(C)]
#[derive(Clone, Copy, Default)]
pub(super) struct Segment {
    pub(super) range: Range,
    pub(super) guest_addr: u64,
    pub(super) writable: bool,
}

/// `covretin_table`.
#[repr(C)]
#[derive(Default)]
pub(super) struct Table {
    pub(super) range: Range,
    pub(super) next: u16,
    pub(super) goes_on: bool,
}

/// `covretin_walked`.
#[repr(C)]
#[derive(Default)]
pub(super) struct Walked {
    pub(super) taken: usize,
    pub(super) count: usize,
    pub(super) table: Table,
}

/// Descriptors that were read, and the segments that the core makes of them.
pub(super) struct Room {
    pub(super) copies: [Descriptor; COPIES],
    pub(super) segments: [Segment; COPIES],
}

impl Room {
    pub(super) fn new() -> Box<Room> {
        Box::new(Room { copies: [Descriptor::default(); COPIES], segments: [Segment::default(); COPIES] })
    }
}

/// Copies descriptors from where a chain goes on, as many as there is room for: those of a split queue by their links; those of a packed one
/// in a row, round the ring's end, or all that an indirect table has. How many.
///
/// # Safety
///
/// The table is mapped.
pub(super) unsafe fn copy(table: &Table, is_packed: bool, is_indirect: bool, copies: &mut [Descriptor; COPIES]) -> usize {
    let (entries, mut next, mut count) = ((table.range.len / 16) as usize, usize::from(table.next), 0);
    while next < entries && count < COPIES {
        // SAFETY: as the caller says; it is in the table.
        let read = unsafe { load_descriptor(table.range.addr + 16 * next as u64) };
        copies[count] = read;
        count += 1;
        next = match (is_packed && is_indirect, read.flags(is_packed) & (NEXT | INDIRECT) == NEXT) {
            (true, _) => next + 1,
            (false, false) => break,
            (false, true) if is_packed => (next + 1) % entries,
            (false, true) => read.fourth.into(),
        };
    }
    count
}

/// # Safety
///
/// Its 16 bytes are mapped.
pub(super) unsafe fn load_descriptor(addr: u64) -> Descriptor {
    take_faults();
    let mut words = [0; 2];
    if addr % 8 == 0 {
        // SAFETY: as the caller says, and they are aligned.
        let both = unsafe { &*(addr as usize as *const [AtomicU64; 2]) };
        words = [0, 1].map(|at| u64::from_le(both[at].load(Ordering::Relaxed)));
    } else {
        // SAFETY: as the caller says.
        let bytes = unsafe { &*(addr as usize as *const [AtomicU8; 16]) };
        (0..16).for_each(|at| words[at / 8] |= u64::from(bytes[at].load(Ordering::Relaxed)) << (8 * (at % 8)));
    }
    Descriptor { addr: words[0], len: words[1] as u32, third: (words[1] >> 32) as u16, fourth: (words[1] >> 48) as u16 }
}
