// SPDX-License-Identifier: Apache-2.0
//! The queues of `include/covretin_queue.h`: the structs and calls as that header declares them. What each call does, and when each
//! error comes, stands there. A queue says which bytes are to be read or written, and what is done with them is here, beside it: so a
//! place is used while it is what the queue said, and the memory that it lies in is held.
use std::os::raw::c_void;
use std::ptr::null_mut;
use std::sync::atomic::{fence, AtomicU16, Ordering};
use std::sync::Arc;

use super::descriptors::{copy, load_descriptor, Descriptor, Range, Room, Segment, Table, Walked, COPIES, INDIRECT};
use super::guard::take_faults;
use super::guest::{Region as GuestRegion, Regions, Slices};
use crate::queue::Error;

/// `covretin_queue`.
#[repr(C)]
pub(super) struct Raw {
    pub(super) opaque: *mut c_void,
}

/// `covretin_guest_region`.
#[repr(C)]
pub(super) struct Region {
    pub(super) guest_addr: u64,
    pub(super) size: u64,
    pub(super) user_addr: u64,
    pub(super) host_addr: u64,
}

/// `covretin_split_ring`.
#[repr(C)]
#[derive(Clone, Copy, Default)]
pub(crate) struct SplitRing {
    pub(crate) desc_table: u64,
    pub(crate) avail_ring: u64,
    pub(crate) used_ring: u64,
    pub(crate) size: u16,
    pub(crate) next_avail: u16,
    pub(crate) next_used: u16,
    pub(crate) event_idx: bool,
    pub(crate) indirect_desc: bool,
}

/// `covretin_packed_ring`.
#[repr(C)]
#[derive(Clone, Copy, Default)]
pub(crate) struct PackedRing {
    pub(crate) desc_ring: u64,
    pub(crate) driver_event: u64,
    pub(crate) device_event: u64,
    pub(crate) size: u16,
    pub(crate) avail: u16,
    pub(crate) used: u16,
    pub(crate) event_idx: bool,
    pub(crate) indirect_desc: bool,
}

/// `covretin_used`.
#[repr(C)]
#[derive(Clone, Copy, Default)]
pub(super) struct RawUsed {
    pub(super) elem: Range,
    pub(super) elem_value: u64,
    pub(super) then: Range,
    pub(super) then_value: u16,
}

/// `covretin_event_write`.
#[repr(C)]
#[derive(Default)]
pub(super) struct EventWrite {
    pub(super) place: Range,
    pub(super) value: u32,
}

/// `covretin_inflight_write`.
#[repr(C)]
#[derive(Clone, Copy, Default)]
pub(crate) struct InflightWrite {
    pub(crate) offset: u64,
    pub(crate) len: u64,
    pub(crate) value: u64,
}

/// `covretin_inflight_entry`.
#[repr(C)]
#[derive(Clone, Copy, Default)]
pub(crate) struct InflightEntry {
    pub(crate) inflight: bool,
    pub(crate) next: u16,
    pub(crate) counter: u64,
}

/// `covretin_packed_inflight_head`.
#[repr(C)]
#[derive(Clone, Copy, Default)]
pub(crate) struct PackedInflightHead {
    pub(crate) free_head: u16,
    pub(crate) used_idx: u16,
    pub(crate) used_wrap_counter: bool,
}

/// `covretin_resubmit`.
#[repr(C)]
#[derive(Clone, Copy, Default)]
pub(crate) struct Resubmit {
    pub(crate) counter: u64,
    pub(crate) head: u16,
}

/// `covretin_log_bit`.
#[repr(C)]
#[derive(Clone, Copy, Default)]
pub(crate) struct LogBit {
    pub(crate) byte: u64,
    pub(crate) mask: u8,
}

extern "C" {
    pub(super) fn covretin_queue_open(queue: &mut Raw) -> u32;
    pub(super) fn covretin_queue_close(queue: &mut Raw);
    pub(super) fn covretin_queue_set_regions(queue: &mut Raw, regions: *const Region, regions_len: usize) -> u32;
    fn covretin_queue_add_region(queue: &mut Raw, region: &Region) -> u32;
    fn covretin_queue_remove_region(queue: &mut Raw, guest_addr: u64, size: u64, user_addr: u64) -> u32;
    fn covretin_queue_translate(queue: &mut Raw, user: bool, addr: u64, len: u64, range: &mut Range) -> u32;
    pub(super) fn covretin_queue_start_split(queue: &mut Raw, ring: &SplitRing) -> u32;
    fn covretin_queue_start_packed(queue: &mut Raw, ring: &PackedRing) -> u32;
    pub(super) fn covretin_queue_move_split(queue: &mut Raw, desc_table: u64, avail_ring: u64, used_ring: u64) -> u32;
    fn covretin_queue_move_packed(queue: &mut Raw, desc_ring: u64, driver_event: u64, device_event: u64) -> u32;
    fn covretin_queue_stop(queue: &mut Raw) -> u32;
    fn covretin_queue_base(queue: &mut Raw, base: &mut u32) -> u32;
    pub(super) fn covretin_queue_needs_reset(queue: &mut Raw, needs_reset: &mut bool) -> u32;
    fn covretin_queue_available_place(queue: &mut Raw, place: &mut Range) -> u32;
    pub(super) fn covretin_queue_available(queue: &mut Raw, value: u16, count: &mut u16) -> u32;
    pub(super) fn covretin_queue_head_place(queue: &mut Raw, place: &mut Range) -> u32;
    pub(super) fn covretin_queue_heads_place(queue: &mut Raw, most: usize, place: &mut Range) -> u32;
    pub(super) fn covretin_queue_pop(queue: &mut Raw, head: u16) -> u32;
    pub(super) fn covretin_queue_resubmit(queue: &mut Raw, head: u16) -> u32;
    pub(super) fn covretin_queue_give_back(queue: &mut Raw, head: u16) -> u32;
    pub(super) fn covretin_queue_adopt(queue: &mut Raw, head: u16) -> u32;
    fn covretin_queue_resubmit_packed(queue: &mut Raw) -> u32;
    fn covretin_queue_descriptor_place(queue: &mut Raw, place: &mut Range, found: &mut bool) -> u32;
    fn covretin_queue_step(queue: &mut Raw, descriptor: &Descriptor, segment: &mut Segment, found: &mut bool) -> u32;
    pub(super) fn covretin_queue_table(queue: &mut Raw, table: &mut Table) -> u32;
    pub(super) fn covretin_queue_walk(
        queue: &mut Raw,
        copies: *const Descriptor,
        copies_len: usize,
        segments: *mut Segment,
        segments_len: usize,
        walked: &mut Walked,
    ) -> u32;
    pub(super) fn covretin_queue_take(
        queue: &mut Raw,
        value: u16,
        copies: *const Descriptor,
        copies_len: usize,
        segments: *mut Segment,
        segments_len: usize,
        walked: &mut Walked,
    ) -> u32;
    pub(super) fn covretin_queue_add_used(queue: &mut Raw, id: u16, len: u32, used: &mut RawUsed) -> u32;
    fn covretin_queue_add_used_many(
        queue: &mut Raw,
        ids: *const u16,
        ids_len: usize,
        lens: *const u32,
        lens_len: usize,
        used: *mut RawUsed,
        used_len: usize,
        done: &mut usize,
    ) -> u32;
    pub(super) fn covretin_queue_notification_place(queue: &mut Raw, place: &mut Range) -> u32;
    pub(super) fn covretin_queue_needs_notification(queue: &mut Raw, value: u16, flags: u16, needed: &mut bool) -> u32;
    pub(super) fn covretin_queue_set_notification(queue: &mut Raw, enable: bool, write: &mut EventWrite) -> u32;
    fn covretin_inflight_take(head: u16, counter: u64, first: &mut InflightWrite, second: &mut InflightWrite);
    fn covretin_inflight_before_used(head: u16, last: u16, first: &mut InflightWrite, second: &mut InflightWrite);
    fn covretin_inflight_after_used(head: u16, idx: u16, first: &mut InflightWrite, second: &mut InflightWrite);
    fn covretin_inflight_recover(
        entries: *const InflightEntry,
        entries_len: usize,
        last_batch_head: u16,
        used_idx: u16,
        ring_idx: u16,
        settled: *mut bool,
        settled_len: usize,
        again: *mut Resubmit,
        again_len: usize,
        count: &mut usize,
    ) -> u32;
    fn covretin_inflight_keep_packed(index: u16, descriptor: &Descriptor, first: &mut InflightWrite, second: &mut InflightWrite);
    fn covretin_inflight_take_packed(
        head: u16,
        last: u16,
        num: u16,
        counter: u64,
        free_head: u16,
        writes: &mut [InflightWrite; 4],
    );
    fn covretin_inflight_before_used_packed(
        head: u16,
        last: u16,
        free_head: u16,
        used: u16,
        old_used: u16,
        writes: &mut [InflightWrite; 3],
    );
    fn covretin_inflight_after_used_packed(head: u16, used: u16, writes: &mut [InflightWrite; 3]);
    fn covretin_inflight_recover_packed(
        entries: *const InflightEntry,
        entries_len: usize,
        now: &PackedInflightHead,
        old: &PackedInflightHead,
        flags: u16,
        head: &mut PackedInflightHead,
        free: *mut bool,
        free_len: usize,
        again: *mut Resubmit,
        again_len: usize,
        count: &mut usize,
    ) -> u32;
    fn covretin_log_pages(addr: u64, len: u64, log_size: u64, first: &mut u64, end: &mut u64) -> u32;
    fn covretin_log_bit_of(page: u64, bit: &mut LogBit);
}

#[inline]
pub(super) fn outcome(number: u32) -> Result<(), Error> {
    match number {
        0 => Ok(()),
        number => Err(Error::of_number(number)),
    }
}

fn region_of(it: &GuestRegion) -> Region {
    Region { guest_addr: it.guest, size: it.size(), user_addr: it.user, host_addr: it.host() }
}

/// A chain that was followed to its end.
pub(crate) struct Chain {
    /// Its parts: first those that are to be read, then those that are to be written.
    pub(crate) slices: Slices,
    /// How many of them are to be read.
    pub(crate) readable: usize,
    /// Where the guest has those that are to be written, and their sizes.
    pub(crate) written: Vec<(u64, u64)>,
    /// The id of the last descriptor before the chain's end or an indirect table: a packed queue's chain is used by it.
    pub(crate) id: u16,
}

impl Chain {
    /// Has one part more. ChainTooLong: it has as many already.
    ///
    /// # Safety
    ///
    /// The part lies in one of the regions of the slices.
    unsafe fn push(&mut self, segment: &Segment, most: usize) -> Result<(), Error> {
        if self.slices.count() == most {
            return Err(Error::ChainTooLong);
        }
        // SAFETY: as the caller says.
        unsafe { self.slices.push(segment.range.addr, segment.range.len) };
        match segment.writable {
            true => self.written.push((segment.guest_addr, segment.range.len)),
            false => self.readable += 1,
        }
        Ok(())
    }
}

/// What was written where a chain was used.
pub(crate) struct Used {
    pub(crate) elem: Range,
    pub(crate) then: Range,
    pub(crate) then_value: u16,
}

/// A queue of the proved core, with the memory that it sees, and the memory that its rings are mapped in.
pub(crate) struct CoreQueue {
    raw: Raw,
    seen: Arc<Regions>,
    rings: Arc<Regions>,
    /// The place in `rings` that was looked at last for what is available, and what was there.
    looked_at: Option<(u64, u16)>,
    /// Where the descriptor table is mapped, since a chain was followed there.
    table: Option<Range>,
    room: Box<Room>,
    many: Box<Many>,
}

/// Chains that are given back at once, and what is to be written for them.
struct Many {
    ids: [u16; GIVEN_BACK],
    lens: [u32; GIVEN_BACK],
    used: [RawUsed; GIVEN_BACK],
}

/// How many chains are given back at once.
const GIVEN_BACK: usize = 32;

impl Many {
    fn new() -> Box<Many> {
        Box::new(Many { ids: [0; GIVEN_BACK], lens: [0; GIVEN_BACK], used: [RawUsed::default(); GIVEN_BACK] })
    }

    /// Has the next ones of these: how many.
    fn fill(&mut self, chains: &mut impl Iterator<Item = (u16, u32)>) -> usize {
        let places = self.ids.iter_mut().zip(&mut self.lens);
        places.zip(chains).map(|((id, len), chain)| (*id, *len) = chain).count()
    }
}

// SAFETY: the header says that a queue has no global state, and asks only that calls with the same one do not overlap; all of them take
// `&mut self`, but for the drop, which owns it.
unsafe impl Send for CoreQueue {}

// SAFETY: as above; by a shared reference no call can be made.
unsafe impl Sync for CoreQueue {}

// SAFETY, of each foreign call below: it is declared as in the header. The queue is open, and borrowed by this call alone; any number may
// be passed. A struct that is written is one of its own, borrowed for the call, and has the header's layout.
//
// SAFETY, of each access to memory: the core is proved to name no range but one that lies inside a region which it was given, and its rings
// to be aligned there as virtio has it. It was given regions of `Regions` alone: for descriptors those of `seen`, for rings those of
// `rings`, which both stay mapped while they are held, and are memory of the guest, of which nothing else is in this process. Each value
// is read once, by an atomic access, and any value will do.
impl CoreQueue {
    pub(crate) fn open() -> Result<CoreQueue, Error> {
        let mut raw = Raw { opaque: null_mut() };
        // SAFETY: as above; it is not open yet.
        outcome(unsafe { covretin_queue_open(&mut raw) })?;
        let none = Arc::new(Regions::default());
        let (room, many) = (Room::new(), Many::new());
        Ok(CoreQueue { raw, seen: none.clone(), rings: none, looked_at: None, table: None, room, many })
    }

    /// It sees these regions from now on; rings stay where they are mapped.
    pub(crate) fn set_regions(&mut self, regions: &Arc<Regions>) -> Result<(), Error> {
        let list: Vec<Region> = regions.iter().map(|it| region_of(it)).collect();
        // SAFETY: as above; the list is borrowed for the call, by its pointer, which is never null, and its own length.
        outcome(unsafe { covretin_queue_set_regions(&mut self.raw, list.as_ptr(), list.len()) })?;
        self.seen = regions.clone();
        Ok(())
    }

    /// It sees one region more, by which it sees these: that is compared with each of the others once.
    pub(crate) fn add_region(&mut self, region: &GuestRegion, all: &Arc<Regions>) -> Result<(), Error> {
        // SAFETY: as above.
        outcome(unsafe { covretin_queue_add_region(&mut self.raw, &region_of(region)) })?;
        self.seen = all.clone();
        Ok(())
    }

    /// It sees this one no more, and only these.
    pub(crate) fn remove_region(&mut self, region: &GuestRegion, rest: &Arc<Regions>) -> Result<(), Error> {
        // SAFETY: as above.
        outcome(unsafe { covretin_queue_remove_region(&mut self.raw, region.guest, region.size(), region.user) })?;
        self.seen = rest.clone();
        Ok(())
    }

    /// It has no rings and sees no regions any more. (where even that takes memory that is not there, they stay mapped for it)
    pub(crate) fn let_go(&mut self) {
        self.stop();
        let _ = self.set_regions(&Arc::new(Regions::default()));
    }

    /// The memory that the rings are mapped in.
    pub(crate) fn ring_regions(&self) -> &Arc<Regions> {
        &self.rings
    }

    /// Where a range is mapped: of the frontend's addresses, or else of the guest's.
    pub(crate) fn translate(&mut self, is_user: bool, addr: u64, len: u64) -> Result<Range, Error> {
        let mut range = Range::default();
        // SAFETY: as above.
        outcome(unsafe { covretin_queue_translate(&mut self.raw, is_user, addr, len, &mut range) })?;
        Ok(range)
    }

    /// Where the used ring at this address of the frontend begins here, and its index. Unaligned.
    pub(crate) fn used_ring(&mut self, used_ring: u64) -> Result<(u64, u16), Error> {
        let range = self.translate(true, used_ring, 4)?;
        if range.addr % 2 != 0 {
            return Err(Error::Unaligned);
        }
        // SAFETY: as above, of `seen`; it is aligned.
        Ok((range.addr, unsafe { load(range.addr + 2) }))
    }

    /// The flags of the descriptor at this index of a packed ring, at this address of the frontend. Unaligned.
    pub(crate) fn packed_flags(&mut self, desc_ring: u64, index: u16) -> Result<u16, Error> {
        let range = self.translate(true, desc_ring.wrapping_add(16 * u64::from(index) + 14), 2)?;
        if range.addr % 2 != 0 {
            return Err(Error::Unaligned);
        }
        // SAFETY: as above, of `seen`; it is aligned.
        Ok(unsafe { load(range.addr) })
    }

    /// The rings are mapped in these from now on.
    fn map_rings(&mut self, rings: Arc<Regions>) {
        (self.rings, self.looked_at, self.table) = (rings, None, None);
    }

    pub(crate) fn start_split(&mut self, ring: &SplitRing) -> Result<(), Error> {
        // SAFETY: as above.
        outcome(unsafe { covretin_queue_start_split(&mut self.raw, ring) })?;
        self.map_rings(self.seen.clone());
        Ok(())
    }

    pub(crate) fn start_packed(&mut self, ring: &PackedRing) -> Result<(), Error> {
        // SAFETY: as above.
        outcome(unsafe { covretin_queue_start_packed(&mut self.raw, ring) })?;
        self.map_rings(self.seen.clone());
        Ok(())
    }

    pub(crate) fn move_split(&mut self, desc_table: u64, avail_ring: u64, used_ring: u64) -> Result<(), Error> {
        // SAFETY: as above.
        outcome(unsafe { covretin_queue_move_split(&mut self.raw, desc_table, avail_ring, used_ring) })?;
        self.map_rings(self.seen.clone());
        Ok(())
    }

    pub(crate) fn move_packed(&mut self, desc_ring: u64, driver_event: u64, device_event: u64) -> Result<(), Error> {
        // SAFETY: as above.
        outcome(unsafe { covretin_queue_move_packed(&mut self.raw, desc_ring, driver_event, device_event) })?;
        self.map_rings(self.seen.clone());
        Ok(())
    }

    pub(crate) fn stop(&mut self) {
        // SAFETY: as above.
        let _ = outcome(unsafe { covretin_queue_stop(&mut self.raw) });
        self.map_rings(Arc::default());
    }

    pub(crate) fn base(&mut self) -> Result<u32, Error> {
        let mut base = 0;
        // SAFETY: as above.
        outcome(unsafe { covretin_queue_base(&mut self.raw, &mut base) })?;
        Ok(base)
    }

    pub(crate) fn needs_reset(&mut self) -> Result<bool, Error> {
        let mut needs_reset = false;
        // SAFETY: as above.
        outcome(unsafe { covretin_queue_needs_reset(&mut self.raw, &mut needs_reset) })?;
        Ok(needs_reset)
    }

    /// How many chains are available.
    pub(crate) fn available(&mut self) -> Result<u16, Error> {
        let (mut place, mut count) = (Range::default(), 0);
        // SAFETY: as above; the place is of `rings`.
        outcome(unsafe { covretin_queue_available_place(&mut self.raw, &mut place) })?;
        // SAFETY: as above.
        let value = unsafe { load(place.addr) };
        self.looked_at = Some((place.addr, value));
        // SAFETY: as above.
        outcome(unsafe { covretin_queue_available(&mut self.raw, value, &mut count) })?;
        Ok(count)
    }

    /// What shows that more is available than was found last.
    pub(crate) fn watch(&self) -> Option<Watch> {
        let (place, value) = self.looked_at?;
        Some(Watch { _rings: self.rings.clone(), place, value })
    }

    /// Takes the next head of a split queue, whose chain is followed then.
    pub(crate) fn pop(&mut self) -> Result<u16, Error> {
        let mut place = Range::default();
        // SAFETY: as above; the place is of `rings`.
        outcome(unsafe { covretin_queue_head_place(&mut self.raw, &mut place) })?;
        // SAFETY: as above.
        let head = unsafe { load(place.addr) };
        // SAFETY: as above.
        outcome(unsafe { covretin_queue_pop(&mut self.raw, head) })?;
        Ok(head)
    }

    /// Takes a head again that was taken before a crash.
    pub(crate) fn resubmit(&mut self, head: u16) -> Result<(), Error> {
        // SAFETY: as above.
        outcome(unsafe { covretin_queue_resubmit(&mut self.raw, head) })
    }

    /// Begins with a chain of a packed queue that was taken before a crash.
    pub(crate) fn resubmit_packed(&mut self) -> Result<(), Error> {
        // SAFETY: as above.
        outcome(unsafe { covretin_queue_resubmit_packed(&mut self.raw) })
    }

    /// Takes the next head of a split queue, and follows its chain to its end. Errors are those of `pop` and of `walk`.
    pub(crate) fn take(&mut self, most: usize) -> Result<(u16, Chain), Error> {
        let range = match self.table {
            Some(range) => range,
            None => {
                let head = self.pop()?;
                return Ok((head, self.walk(most, false)?));
            }
        };
        let mut place = Range::default();
        // SAFETY: as above; the place is of `rings`.
        outcome(unsafe { covretin_queue_head_place(&mut self.raw, &mut place) })?;
        // SAFETY: as above.
        let head = unsafe { load(place.addr) };
        let (table, mut chain) = (Table { range, next: head, goes_on: true }, self.new_chain());
        // SAFETY: as above; the table is of `rings`, since they were mapped.
        let count = unsafe { copy(&table, false, false, &mut self.room.copies) };
        let mut walked = Walked::default();
        self.go_on(Some(head), count, &mut walked, &mut chain, most)?;
        let is_indirect = count != 0 && self.room.copies[count - 1].third & INDIRECT != 0;
        self.follow_copies(walked, is_indirect, false, &mut chain, most)?;
        Ok((head, chain))
    }

    fn new_chain(&self) -> Chain {
        Chain { slices: Slices::of(self.seen.clone()), readable: 0, written: Vec::new(), id: 0 }
    }

    /// Follows a chain to its end, of a packed queue or of a split one, by copies of its descriptors. ChainTooLong: it has more than so many
    /// parts.
    pub(crate) fn walk(&mut self, most: usize, is_packed: bool) -> Result<Chain, Error> {
        let (mut chain, mut walked) = (self.new_chain(), Walked::default());
        // SAFETY: as above.
        outcome(unsafe { covretin_queue_table(&mut self.raw, &mut walked.table) })?;
        self.table = Some(walked.table.range).filter(|_| !is_packed);
        self.follow_copies(walked, false, is_packed, &mut chain, most)?;
        Ok(chain)
    }

    /// Follows it from where it goes on, which may be an indirect table.
    fn follow_copies(
        &mut self,
        mut walked: Walked,
        mut is_indirect: bool,
        is_packed: bool,
        chain: &mut Chain,
        most: usize,
    ) -> Result<(), Error> {
        while walked.table.goes_on {
            // SAFETY: as above; the table is of `rings`, or of `seen`.
            let count = unsafe { copy(&walked.table, is_packed, is_indirect, &mut self.room.copies) };
            let last = self.room.copies[count - 1];
            self.go_on(None, count, &mut walked, chain, most)?;
            if !is_indirect {
                chain.id = last.third;
                is_indirect = last.flags(is_packed) & INDIRECT != 0;
            }
        }
        Ok(())
    }

    /// A chain goes on by so many of the copies: by the head that it has, it is taken first.
    fn go_on(
        &mut self,
        mut head: Option<u16>,
        count: usize,
        walked: &mut Walked,
        chain: &mut Chain,
        most: usize,
    ) -> Result<(), Error> {
        let (raw, room, mut taken) = (&mut self.raw, &mut *self.room, 0);
        loop {
            let given = &room.copies[taken..count];
            let (list, len, segments) = (given.as_ptr(), given.len(), room.segments.as_mut_ptr());
            // SAFETY: as above; the lengths are those of the arrays, of which neither is the other.
            outcome(unsafe {
                match head.take() {
                    Some(head) => covretin_queue_take(raw, head, list, len, segments, COPIES, walked),
                    None => covretin_queue_walk(raw, list, len, segments, COPIES, walked),
                }
            })?;
            taken += walked.taken;
            for segment in &room.segments[..walked.count] {
                // SAFETY: as above; the slices hold `seen`.
                unsafe { chain.push(segment, most) }?;
            }
            if taken >= count {
                return Ok(());
            }
        }
    }

    /// The same by one descriptor after the other. `in_ring` is told each that is in no indirect table, and says which one is followed.
    pub(crate) fn follow(
        &mut self,
        most: usize,
        mut in_ring: impl FnMut(Descriptor) -> Result<Descriptor, Error>,
    ) -> Result<Chain, Error> {
        let mut chain = self.new_chain();
        let (mut is_indirect, mut descriptor) = (false, Descriptor::default());
        loop {
            let (mut place, mut segment, mut found) = (Range::default(), Segment::default(), false);
            // SAFETY: as above; the place is of `rings`, or a table's, of `seen`.
            outcome(unsafe { covretin_queue_descriptor_place(&mut self.raw, &mut place, &mut found) })?;
            if !found {
                return Ok(chain);
            }
            if chain.slices.count() == most {
                return Err(Error::ChainTooLong);
            }
            // (else the rest of one comes, which goes on in another region)
            if place.len != 0 {
                // SAFETY: as above.
                descriptor = unsafe { load_descriptor(place.addr) };
                if !is_indirect {
                    descriptor = in_ring(descriptor)?;
                }
            }
            // SAFETY: as above.
            outcome(unsafe { covretin_queue_step(&mut self.raw, &descriptor, &mut segment, &mut found) })?;
            if !is_indirect {
                chain.id = descriptor.third;
            }
            is_indirect |= !found;
            if found {
                // SAFETY: as above; the slices hold `seen`.
                unsafe { chain.push(&segment, most) }?;
            }
        }
    }

    /// Gives a chain back; `between` is done once its element was written, and before the driver is told of it.
    pub(crate) fn add_used(&mut self, id: u16, len: u32, between: impl FnOnce(&mut Self)) -> Result<Used, Error> {
        let mut used = RawUsed::default();
        // SAFETY: as above; the places are of `rings`.
        outcome(unsafe { covretin_queue_add_used(&mut self.raw, id, len, &mut used) })?;
        // SAFETY: as above.
        unsafe { store(used.elem, used.elem_value) };
        between(self);
        // SAFETY: as above.
        unsafe { atomic(used.then.addr) }.store(used.then_value.to_le(), Ordering::Release);
        Ok(Used { elem: used.elem, then: used.then, then_value: used.then_value })
    }

    /// Gives chains back together, by their ids and lengths: the driver sees none of them before it sees the last index, or of a packed queue the
    /// flags of the first. `written` is told each place after it was written. How many there were: what the device has not is left out.
    pub(crate) fn add_all_used(
        &mut self,
        mut chains: impl Iterator<Item = (u16, u32)>,
        is_packed: bool,
        mut written: impl FnMut(&Self, Range),
    ) -> usize {
        let (mut held, mut count) = (None, 0);
        loop {
            let (filled, mut from) = (self.many.fill(&mut chains), 0);
            if filled == 0 {
                break;
            }
            while from < filled {
                let (done, is_refused) = self.add_used_many(from..filled);
                for used in self.many.used.iter().take(done) {
                    // SAFETY: as above; the places are of `rings`, which stay as they are until the end of this call.
                    unsafe { store(used.elem, used.elem_value) };
                    written(self, used.elem);
                    match held {
                        Some(_) if is_packed => self.show_used((used.then, used.then_value), &mut written),
                        _ => held = Some((used.then, used.then_value)),
                    }
                }
                (count, from) = (count + done, from + done + usize::from(is_refused));
            }
        }
        held.into_iter().for_each(|then| self.show_used(then, &mut written));
        count
    }

    /// Gives these back, of the ids and lengths that it has: for how many there is something to be written, and whether the next one is not the
    /// device's.
    fn add_used_many(&mut self, these: std::ops::Range<usize>) -> (usize, bool) {
        let (many, mut done) = (&mut *self.many, 0);
        let (ids, lens) = (&many.ids[these.clone()], &many.lens[these]);
        // SAFETY: as above; the lengths are those of the lists, which are borrowed for the call, and of which none is another.
        let error = unsafe {
            covretin_queue_add_used_many(
                &mut self.raw,
                ids.as_ptr(),
                ids.len(),
                lens.as_ptr(),
                lens.len(),
                many.used.as_mut_ptr(),
                GIVEN_BACK,
                &mut done,
            )
        };
        (done, error != 0)
    }

    /// Has the driver see what was used, up to this place, which is of a chain that `add_all_used` gives back.
    fn show_used(&self, (place, value): (Range, u16), written: &mut impl FnMut(&Self, Range)) {
        // SAFETY: as above.
        unsafe { atomic(place.addr) }.store(value.to_le(), Ordering::Release);
        written(self, place);
    }

    /// Whether the driver is to be told of what was used.
    pub(crate) fn needs_notification(&mut self) -> Result<bool, Error> {
        let (mut place, mut needed) = (Range::default(), false);
        fence(Ordering::SeqCst);
        // SAFETY: as above; the place is of `rings`.
        outcome(unsafe { covretin_queue_notification_place(&mut self.raw, &mut place) })?;
        // SAFETY: as above.
        let (value, flags) = unsafe { (load(place.addr), if place.len == 4 { load(place.addr + 2) } else { 0 }) };
        // SAFETY: as above.
        outcome(unsafe { covretin_queue_needs_notification(&mut self.raw, value, flags, &mut needed) })?;
        Ok(needed)
    }

    /// Asks the driver to tell, or not to: what was written, if anything was. A full barrier is behind it.
    pub(crate) fn set_notification(&mut self, enable: bool) -> Result<Option<Range>, Error> {
        let mut write = EventWrite::default();
        // SAFETY: as above; the place is of `rings`.
        outcome(unsafe { covretin_queue_set_notification(&mut self.raw, enable, &mut write) })?;
        let place = Some(write.place).filter(|place| place.len != 0);
        if let Some(place) = place {
            // SAFETY: as above.
            unsafe { store(place, write.value.into()) };
        }
        fence(Ordering::SeqCst);
        Ok(place)
    }
}

/// Two bytes of a ring, which stay mapped as long as this is there, and what they were.
#[derive(Clone)]
pub(crate) struct Watch {
    _rings: Arc<Regions>,
    place: u64,
    value: u16,
}

impl Watch {
    /// Whether they are something else now.
    pub(crate) fn shows_more(&self) -> bool {
        // SAFETY: the place is of `_rings`, and aligned, as the queue found it.
        unsafe { load(self.place) != self.value }
    }
}

impl Drop for CoreQueue {
    fn drop(&mut self) {
        // SAFETY: as above; nobody has it after this.
        unsafe { covretin_queue_close(&mut self.raw) }
    }
}

/// Two bytes of a ring.
///
/// # Safety
///
/// They are mapped, and aligned, and the reference ends before they are not.
unsafe fn atomic<'a>(addr: u64) -> &'a AtomicU16 {
    take_faults();
    // SAFETY: as the caller says.
    unsafe { &*(addr as usize as *const AtomicU16) }
}

/// # Safety
///
/// As above.
unsafe fn load(addr: u64) -> u16 {
    // SAFETY: as the caller says.
    u16::from_le(unsafe { atomic(addr) }.load(Ordering::Acquire))
}

/// Writes a part of a ring: the first bytes of a value, an even number of them.
///
/// # Safety
///
/// It is mapped, and aligned to two bytes.
unsafe fn store(place: Range, value: u64) {
    for at in 0..place.len / 2 {
        // SAFETY: as the caller says.
        unsafe { atomic(place.addr + 2 * at) }.store(((value >> (16 * at)) as u16).to_le(), Ordering::Relaxed);
    }
}

// -- The inflight region, and the dirty log: numbers come of numbers --

/// Two writes, in this order.
pub(crate) type Notes = [InflightWrite; 2];

/// Notes of a call that writes two of them.
fn notes(call: impl FnOnce(&mut InflightWrite, &mut InflightWrite)) -> Notes {
    let (mut first, mut second) = (InflightWrite::default(), InflightWrite::default());
    call(&mut first, &mut second);
    [first, second]
}

pub(crate) fn inflight_take(head: u16, counter: u64) -> Notes {
    // SAFETY: it is declared as in the header; what it writes is borrowed for the call.
    notes(|first, second| unsafe { covretin_inflight_take(head, counter, first, second) })
}

pub(crate) fn inflight_before_used(head: u16, last: u16) -> Notes {
    // SAFETY: as above.
    notes(|first, second| unsafe { covretin_inflight_before_used(head, last, first, second) })
}

pub(crate) fn inflight_after_used(head: u16, idx: u16) -> Notes {
    // SAFETY: as above.
    notes(|first, second| unsafe { covretin_inflight_after_used(head, idx, first, second) })
}

/// What a crash left: of which heads the entry is to be cleared, and which are to be taken again.
pub(crate) fn inflight_recover(
    entries: &[InflightEntry],
    last_batch_head: u16,
    used_idx: u16,
    ring_idx: u16,
) -> Result<(Vec<bool>, Vec<Resubmit>), Error> {
    let (mut settled, mut again) = (vec![false; entries.len()], vec![Resubmit::default(); entries.len()]);
    let mut count = 0;
    // SAFETY: it is declared as in the header. Each list is borrowed for the call, by its pointer, which is never null, and its own
    // length; they are lists of their own.
    outcome(unsafe {
        covretin_inflight_recover(
            entries.as_ptr(),
            entries.len(),
            last_batch_head,
            used_idx,
            ring_idx,
            settled.as_mut_ptr(),
            settled.len(),
            again.as_mut_ptr(),
            again.len(),
            &mut count,
        )
    })?;
    again.truncate(count);
    Ok((settled, again))
}

pub(crate) fn inflight_keep_packed(index: u16, descriptor: &Descriptor) -> Notes {
    // SAFETY: as above.
    notes(|first, second| unsafe { covretin_inflight_keep_packed(index, descriptor, first, second) })
}

pub(crate) fn inflight_take_packed(head: u16, last: u16, num: u16, counter: u64, free_head: u16) -> [InflightWrite; 4] {
    let mut writes = [InflightWrite::default(); 4];
    // SAFETY: as above.
    unsafe { covretin_inflight_take_packed(head, last, num, counter, free_head, &mut writes) };
    writes
}

pub(crate) fn inflight_before_used_packed(head: u16, last: u16, free_head: u16, used: u16, old_used: u16) -> [InflightWrite; 3] {
    let mut writes = [InflightWrite::default(); 3];
    // SAFETY: as above.
    unsafe { covretin_inflight_before_used_packed(head, last, free_head, used, old_used, &mut writes) };
    writes
}

pub(crate) fn inflight_after_used_packed(head: u16, used: u16) -> [InflightWrite; 3] {
    let mut writes = [InflightWrite::default(); 3];
    // SAFETY: as above.
    unsafe { covretin_inflight_after_used_packed(head, used, &mut writes) };
    writes
}

/// What a crash left of a packed queue: which state of its area holds, which entries are free, and which are to be taken again.
pub(crate) fn inflight_recover_packed(
    entries: &[InflightEntry],
    now: &PackedInflightHead,
    old: &PackedInflightHead,
    flags: u16,
) -> Result<(PackedInflightHead, Vec<bool>, Vec<Resubmit>), Error> {
    let (mut free, mut again) = (vec![false; entries.len()], vec![Resubmit::default(); entries.len()]);
    let (mut head, mut count) = (PackedInflightHead::default(), 0);
    // SAFETY: as above.
    outcome(unsafe {
        covretin_inflight_recover_packed(
            entries.as_ptr(),
            entries.len(),
            now,
            old,
            flags,
            &mut head,
            free.as_mut_ptr(),
            free.len(),
            again.as_mut_ptr(),
            again.len(),
            &mut count,
        )
    })?;
    again.truncate(count);
    Ok((head, free, again))
}

/// The pages of a range that a log of so many bytes has bits for.
pub(crate) fn log_pages(addr: u64, len: u64, log_size: u64) -> Result<std::ops::Range<u64>, Error> {
    let (mut first, mut end) = (0, 0);
    // SAFETY: it is declared as in the header; what it writes is borrowed for the call.
    outcome(unsafe { covretin_log_pages(addr, len, log_size, &mut first, &mut end) })?;
    Ok(first..end)
}

pub(crate) fn log_bit_of(page: u64) -> LogBit {
    let mut bit = LogBit::default();
    // SAFETY: as above.
    unsafe { covretin_log_bit_of(page, &mut bit) };
    bit
}
