// SPDX-License-Identifier: Apache-2.0
//! A split queue that is told one region, all addresses, each mapped at itself: so each place that the core names is an address of the guest,
//! and no memory is touched here.
use std::fmt;
use std::ptr::null_mut;

use super::descriptors::{Descriptor as Copied, Range, Room, Walked, COPIES, INDIRECT, NEXT};
use super::queue::*;
use crate::queue::bare::{Descriptor, Rings, Table, Used};
use crate::queue::Error;

/// A split queue without memory. It says at which addresses of the guest something is to be read or written, its owner does that, and the next
/// call takes what was read: see [the module](crate::queue::bare).
pub struct SplitQueue {
    raw: Raw,
    /// The queue's own table; of one that was not started it has no bytes.
    own: Table,
    room: Box<Room>,
}

impl fmt::Debug for SplitQueue {
    fn fmt(&self, f: &mut fmt::Formatter<'_>) -> fmt::Result {
        f.debug_struct("SplitQueue").finish_non_exhaustive()
    }
}

// SAFETY: the header says that a queue has no global state, and asks only that calls with the same one do not overlap; all of them take
// `&mut self`, but for the drop, which owns it.
unsafe impl Send for SplitQueue {}

// SAFETY: as above; by a shared reference no call can be made.
unsafe impl Sync for SplitQueue {}

// SAFETY, of each foreign call below: it is declared as in the header. The queue is open, and borrowed by this call alone; any number may
// be passed. A struct that is written is one of its own, borrowed for the call, and has the header's layout.
impl SplitQueue {
    /// A queue that is not started. OutOfMemory.
    pub fn new() -> Result<SplitQueue, Error> {
        let own = Table { addr: 0, len: 0 };
        let mut queue = SplitQueue { raw: Raw { opaque: null_mut() }, own, room: Room::new() };
        // SAFETY: as above; it is not open yet.
        outcome(unsafe { covretin_queue_open(&mut queue.raw) })?;
        let all = Region { guest_addr: 0, size: u64::MAX, user_addr: 0, host_addr: 0 };
        // SAFETY: as above; the region is borrowed for the call.
        outcome(unsafe { covretin_queue_set_regions(&mut queue.raw, &all, 1) })?;
        Ok(queue)
    }

    /// It has these rings from now on, and begins there; whatever it had is gone. InvalidSize, Unaligned, OutOfMemory, and NotInGuest, where a
    /// ring goes beyond the addresses of 64 bits: it has those that it had.
    pub fn start(&mut self, rings: &Rings) -> Result<(), Error> {
        let ring = SplitRing {
            desc_table: rings.desc_table,
            avail_ring: rings.avail_ring,
            used_ring: rings.used_ring,
            size: rings.size,
            next_avail: rings.next_avail,
            next_used: rings.next_used,
            event_idx: rings.event_idx,
            indirect_desc: rings.indirect_desc,
        };
        // SAFETY: as above.
        outcome(unsafe { covretin_queue_start_split(&mut self.raw, &ring) })?;
        self.own = Table { addr: rings.desc_table, len: 16 * u64::from(rings.size) };
        Ok(())
    }

    /// Its rings lie elsewhere. What the device has stays the device's. Unaligned, NotInGuest, NotStarted: they lie where they lay.
    pub fn move_to(&mut self, desc_table: u64, avail_ring: u64, used_ring: u64) -> Result<(), Error> {
        // SAFETY: as above.
        outcome(unsafe { covretin_queue_move_split(&mut self.raw, desc_table, avail_ring, used_ring) })?;
        self.own.addr = desc_table;
        Ok(())
    }

    /// Whether the driver broke a rule since the start. Then nothing more is taken, and what the device has may still be used.
    pub fn needs_reset(&mut self) -> bool {
        let mut needs_reset = false;
        // SAFETY: as above.
        outcome(unsafe { covretin_queue_needs_reset(&mut self.raw, &mut needs_reset) }).is_ok() && needs_reset
    }

    /// The index of the available ring was read as this: how many chains are available. TooManyAvailable, NeedsReset; NotStarted.
    #[inline]
    pub fn available(&mut self, idx: u16) -> Result<u16, Error> {
        let mut count = 0;
        // SAFETY: as above.
        outcome(unsafe { covretin_queue_available(&mut self.raw, idx, &mut count) })?;
        Ok(count)
    }

    /// Where the next entry of the available ring is to be read, two bytes. NothingAvailable, NotStarted.
    #[inline]
    pub fn head_addr(&mut self) -> Result<u64, Error> {
        let mut place = Range::default();
        // SAFETY: as above.
        outcome(unsafe { covretin_queue_head_place(&mut self.raw, &mut place) })?;
        Ok(place.addr)
    }

    /// Where that entry and those behind it are to be read, two bytes each: `most` at most, and all of them are available. Their chains are taken
    /// in this order, and until the queue is started, moved or given a head back no place has to be asked for. NothingAvailable, NotStarted.
    #[inline]
    pub fn head_addrs(&mut self, most: u16) -> Result<std::ops::Range<u64>, Error> {
        let mut place = Range::default();
        // SAFETY: as above.
        outcome(unsafe { covretin_queue_heads_place(&mut self.raw, most.into(), &mut place) })?;
        Ok(place.addr..place.addr + place.len)
    }

    /// It was read as this: the chain of this head is the device's, and is followed. NotInTable, HeadInUse, NeedsReset; NothingAvailable,
    /// NotStarted.
    #[inline]
    pub fn pop(&mut self, head: u16) -> Result<(), Error> {
        // SAFETY: as above.
        outcome(unsafe { covretin_queue_pop(&mut self.raw, head) })
    }

    /// The entry of the available ring that was read last is to be read again, and this head, which it had, is not the device's.
    /// NotHandedOut, TooManyAvailable, NotStarted: nothing changed.
    pub fn give_back(&mut self, head: u16) -> Result<(), Error> {
        // SAFETY: as above.
        outcome(unsafe { covretin_queue_give_back(&mut self.raw, head) })
    }

    /// The chain of this head is the device's, which was taken before the start, and is not followed. NotInTable, HeadInUse, NotStarted:
    /// nothing changed.
    pub fn adopt(&mut self, head: u16) -> Result<(), Error> {
        // SAFETY: as above.
        outcome(unsafe { covretin_queue_adopt(&mut self.raw, head) })
    }

    /// The chain of this head is the device's, as that of [`adopt`](Self::adopt), and is followed again. Errors are those of `pop`.
    pub fn resubmit(&mut self, head: u16) -> Result<(), Error> {
        // SAFETY: as above.
        outcome(unsafe { covretin_queue_resubmit(&mut self.raw, head) })
    }

    /// The same, and [`follow`](Self::follow), by one call. NotInTable of a head beyond the table, HeadInUse, NeedsReset, NothingAvailable and
    /// NotStarted: no chain was taken. Others: it was, and is no request.
    #[inline]
    pub fn take(
        &mut self,
        head: u16,
        mut read: impl FnMut(Table, u16) -> Option<Descriptor>,
        mut each: impl FnMut(&Descriptor),
    ) -> Result<(), Error> {
        let mut walked = Walked::default();
        let copied = self.copy(self.own, head, &mut read);
        let (room, count) = (&mut *self.room, copied.unwrap_or(0));
        let given = &room.copies[..count];
        // SAFETY: as above; the lengths are those of the arrays, of which neither is the other.
        outcome(unsafe {
            covretin_queue_take(&mut self.raw, head, given.as_ptr(), count, room.segments.as_mut_ptr(), COPIES, &mut walked)
        })?;
        copied.ok_or(Error::NotInGuest)?;
        tell(&given[..walked.taken], &mut each);
        self.go_on(walked, read, each)
    }

    /// Follows the chain to its end. `read` reads the descriptor at this index of a table, whose 16 bytes lie in it, once; `each` is told every
    /// part of the request, in order. NotInGuest, also where `read` has none, EmptyDescriptor, NotInTable, ChainTooLong,
    /// ReadableAfterWritable, UnexpectedIndirect, IndirectGoesOn, InvalidIndirectLength, NeedsReset: what was told is no request.
    pub fn follow(
        &mut self,
        read: impl FnMut(Table, u16) -> Option<Descriptor>,
        each: impl FnMut(&Descriptor),
    ) -> Result<(), Error> {
        let mut walked = Walked::default();
        // SAFETY: as above.
        outcome(unsafe { covretin_queue_table(&mut self.raw, &mut walked.table) })?;
        self.go_on(walked, read, each)
    }

    /// Follows it from where it goes on.
    #[inline]
    fn go_on(
        &mut self,
        mut walked: Walked,
        mut read: impl FnMut(Table, u16) -> Option<Descriptor>,
        mut each: impl FnMut(&Descriptor),
    ) -> Result<(), Error> {
        while walked.table.goes_on {
            let table = Table { addr: walked.table.range.addr, len: walked.table.range.len };
            let count = self.copy(table, walked.table.next, &mut read).ok_or(Error::NotInGuest)?;
            let room = &mut *self.room;
            let given = &room.copies[..count];
            // SAFETY: as above; the lengths are those of the arrays, of which neither is the other.
            outcome(unsafe {
                covretin_queue_walk(&mut self.raw, given.as_ptr(), count, room.segments.as_mut_ptr(), COPIES, &mut walked)
            })?;
            tell(&given[..walked.taken], &mut each);
        }
        Ok(())
    }

    /// Copies descriptors by their links, as many as there is room for: how many. None: one could not be read.
    #[inline(always)]
    fn copy(&mut self, table: Table, first: u16, read: &mut impl FnMut(Table, u16) -> Option<Descriptor>) -> Option<usize> {
        let (mut next, mut count) = (first, 0);
        while count < COPIES && u64::from(next) < table.len / 16 {
            let it = read(table, next)?;
            self.room.copies[count] = Copied { addr: it.addr, len: it.len, third: it.flags, fourth: it.next };
            count += 1;
            if it.flags & (NEXT | INDIRECT) != NEXT {
                break;
            }
            next = it.next;
        }
        Some(count)
    }

    /// The device is done with the chain of this head, and wrote so many bytes: what is to be written. Also of a queue that needs a reset.
    /// NotHandedOut, NotStarted: nothing changed.
    #[inline]
    pub fn add_used(&mut self, head: u16, len: u32) -> Result<Used, Error> {
        let mut used = RawUsed::default();
        // SAFETY: as above.
        outcome(unsafe { covretin_queue_add_used(&mut self.raw, head, len, &mut used) })?;
        Ok(Used { elem_addr: used.elem.addr, elem: used.elem_value, idx_addr: used.then.addr, idx: used.then_value })
    }

    /// Where the driver says when it wants a notification, two bytes, which are read behind a full barrier. NotStarted.
    #[inline]
    pub fn notification_addr(&mut self) -> Result<u64, Error> {
        let mut place = Range::default();
        // SAFETY: as above.
        outcome(unsafe { covretin_queue_notification_place(&mut self.raw, &mut place) })?;
        Ok(place.addr)
    }

    /// They were read as this: whether the driver is to be told of what was used since this was last asked, or since the start. NotStarted.
    #[inline]
    pub fn needs_notification(&mut self, value: u16) -> Result<bool, Error> {
        let mut needed = false;
        // SAFETY: as above.
        outcome(unsafe { covretin_queue_needs_notification(&mut self.raw, value, 0, &mut needed) })?;
        Ok(needed)
    }

    /// The two bytes that are to be written so that the driver tells of what it makes available from now on, or does not; none where it can't
    /// be asked so. After it was asked to tell, what is available is read again, behind a full barrier. NotStarted.
    pub fn set_notification(&mut self, enable: bool) -> Result<Option<(u64, u16)>, Error> {
        let mut write = EventWrite::default();
        // SAFETY: as above.
        outcome(unsafe { covretin_queue_set_notification(&mut self.raw, enable, &mut write) })?;
        Ok(Some((write.place.addr, write.value as u16)).filter(|_| write.place.len != 0))
    }
}

/// Tells each part of these descriptors, which were taken. (a part lies in the one region, so each is a segment, or names a table)
#[inline]
fn tell(taken: &[Copied], each: &mut impl FnMut(&Descriptor)) {
    for it in taken.iter().filter(|it| it.third & INDIRECT == 0) {
        each(&Descriptor { addr: it.addr, len: it.len, flags: it.third, next: it.fourth });
    }
}

impl Drop for SplitQueue {
    fn drop(&mut self) {
        // SAFETY: as above; nobody has it after this.
        unsafe { covretin_queue_close(&mut self.raw) }
    }
}
