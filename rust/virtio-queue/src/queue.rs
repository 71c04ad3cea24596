// SPDX-License-Identifier: Apache-2.0
//! A queue that one thread has: what it was told, and when the proved queue is told of it.
use std::fmt;
use std::num::Wrapping;
use std::ops::Deref;
use std::sync::atomic::{fence, Ordering};

use covretin::queue::bare::Rings;
use log::error;
use vm_memory::{Address, Bytes, GuestAddress, GuestMemory, Permissions};

use crate::chain::Parts;
use crate::defs::{AVAIL_ENTRY_SIZE, DESCRIPTOR_SIZE, EVENT_SIZE, HEADER_SIZE, MAX_QUEUE_SIZE, USED_ENTRY_SIZE};
use crate::near::Near;
use crate::ring::Ring;
use crate::{DescriptorChain, Error, QueueGuard, QueueOwnedT, QueueState, QueueT};

/// A split queue of a device. Each decision about its rings is the proved queue's of `covretin::queue::bare`.
///
/// Once the driver breaks a rule nothing more is taken, until the queue is made ready again after it was not; what the device has may be used.
#[derive(Default)]
pub struct Queue {
    max_size: u16,
    size: u16,
    ready: bool,
    event_idx_enabled: bool,
    next_avail: u16,
    next_used: u16,
    desc_table: GuestAddress,
    avail_ring: GuestAddress,
    used_ring: GuestAddress,
    /// The proved queue, once it was used, and whether it has to be told of something.
    ring: Option<Box<Ring>>,
    news: News,
    /// Whether a rule was broken, and whether it was said that memory can't be had.
    is_broken: bool,
    is_away: bool,
}

/// What the proved queue was not told yet.
#[derive(Clone, Copy, Default, PartialEq, Eq)]
enum News {
    Nothing,
    /// The rings lie elsewhere.
    Moved,
    /// It goes on at an entry before.
    Back,
    /// It is to begin anew.
    #[default]
    Begins,
}

impl fmt::Debug for Queue {
    fn fmt(&self, f: &mut fmt::Formatter<'_>) -> fmt::Result {
        f.debug_tuple("Queue").field(&self.state()).finish()
    }
}

impl PartialEq for Queue {
    fn eq(&self, other: &Self) -> bool {
        self.state() == other.state()
    }
}

impl Eq for Queue {}

/// An address with another lower or upper half.
fn halves(addr: GuestAddress, low: Option<u32>, high: Option<u32>) -> GuestAddress {
    let low = low.map_or(addr.0 & 0xffff_ffff, u64::from);
    GuestAddress(high.map_or(addr.0 & !0xffff_ffff, |high| u64::from(high) << 32) | low)
}

/// The offset of a ring's index.
const INDEX: u64 = 2;

impl Queue {
    /// It has so many descriptors. InvalidSize: that is 0, no power of two, or more than it may have.
    pub fn try_set_size(&mut self, size: u16) -> Result<(), Error> {
        if size > self.max_size || !size.is_power_of_two() {
            return Err(Error::InvalidSize);
        }
        if self.size != size {
            (self.size, self.news) = (size, News::Begins);
        }
        Ok(())
    }

    /// The descriptor table lies there. InvalidDescTableAlign: that is no multiple of 16.
    pub fn try_set_desc_table_address(&mut self, desc_table: GuestAddress) -> Result<(), Error> {
        if desc_table.0 % 16 != 0 {
            return Err(Error::InvalidDescTableAlign);
        }
        self.moves(self.desc_table != desc_table);
        self.desc_table = desc_table;
        Ok(())
    }

    /// The available ring lies there. InvalidAvailRingAlign: that is no multiple of 2.
    pub fn try_set_avail_ring_address(&mut self, avail_ring: GuestAddress) -> Result<(), Error> {
        if avail_ring.0 % 2 != 0 {
            return Err(Error::InvalidAvailRingAlign);
        }
        self.moves(self.avail_ring != avail_ring);
        self.avail_ring = avail_ring;
        Ok(())
    }

    /// The used ring lies there. InvalidUsedRingAlign: that is no multiple of 4.
    pub fn try_set_used_ring_address(&mut self, used_ring: GuestAddress) -> Result<(), Error> {
        if used_ring.0 % 4 != 0 {
            return Err(Error::InvalidUsedRingAlign);
        }
        self.moves(self.used_ring != used_ring);
        self.used_ring = used_ring;
        Ok(())
    }

    fn moves(&mut self, is_other: bool) {
        if is_other && self.news == News::Nothing {
            self.news = News::Moved;
        }
    }

    /// What it was told, and how far it is.
    pub fn state(&self) -> QueueState {
        QueueState {
            max_size: self.max_size,
            next_avail: self.next_avail,
            next_used: self.next_used,
            event_idx_enabled: self.event_idx_enabled,
            size: self.size,
            ready: self.ready,
            desc_table: self.desc_table.0,
            avail_ring: self.avail_ring.0,
            used_ring: self.used_ring.0,
        }
    }

    /// Whether chains may be taken.
    fn is_set_up(&self) -> bool {
        self.ready && self.avail_ring != GuestAddress(0)
    }

    /// The proved queue, which knows what this was told.
    #[inline]
    fn ring(&mut self) -> Result<&mut Ring, Error> {
        if self.news != News::Nothing {
            self.tell()?;
        }
        self.ring.as_deref_mut().ok_or(Error::QueueNotReady)
    }

    #[cold]
    fn tell(&mut self) -> Result<(), Error> {
        let rings = Rings {
            desc_table: self.desc_table.0,
            avail_ring: self.avail_ring.0,
            used_ring: self.used_ring.0,
            size: self.size,
            next_avail: self.next_avail,
            next_used: self.next_used,
            event_idx: self.event_idx_enabled,
            indirect_desc: true,
        };
        if self.ring.is_none() {
            self.ring = Some(Box::new(Ring::new()?));
        }
        if let Some(ring) = &mut self.ring {
            match self.news {
                News::Moved => ring.move_to(&rings)?,
                News::Back => ring.begin(&rings, false)?,
                _ => {
                    ring.begin(&rings, true)?;
                    (self.is_broken, self.is_away) = (false, false);
                }
            }
        }
        self.news = News::Nothing;
        Ok(())
    }

    /// The driver broke a rule, which is said once.
    #[cold]
    fn refuse(&mut self, why: Error) {
        if !std::mem::replace(&mut self.is_broken, true) {
            error!("the driver broke a rule of a virtqueue, of which nothing more is taken until it is reset: {why}");
        }
    }

    /// Memory can't be had, which is said once a start.
    #[cold]
    fn miss(&mut self, why: Error) {
        if !std::mem::replace(&mut self.is_away, true) {
            error!("a virtqueue can't be accessed: {why}");
        }
    }

    /// Where the chains end that are available: where nothing may be taken, where they begin.
    #[inline(always)]
    fn end_of_available<M: GuestMemory + ?Sized>(&mut self, mem: &mut Near<'_, M>, order: Ordering) -> u16 {
        let at = self.avail_ring.checked_add(INDEX).ok_or(Error::AddressOverflow);
        let idx = match at.and_then(|at| mem.load(at.0, order)) {
            Ok(idx) => idx,
            Err(why) => {
                self.miss(why);
                return self.next_avail;
            }
        };
        let is_told = self.news == News::Nothing && self.ring.as_ref().is_some_and(|ring| ring.knows(idx));
        match is_told && !self.is_broken {
            true => idx,
            false => self.end_told(idx),
        }
    }

    /// The same where the index was read as this, which the proved queue does not know.
    #[inline(never)]
    fn end_told(&mut self, idx: u16) -> u16 {
        match self.ring().and_then(|ring| Ok(ring.available(idx)?)) {
            _ if self.is_broken => self.next_avail,
            Ok(()) => idx,
            Err(why) => {
                self.refuse(why);
                self.next_avail
            }
        }
    }

    /// Takes the next chain, of those up to an index that was read before.
    #[inline]
    fn take<M: GuestMemory + ?Sized>(&mut self, mem: &mut Near<'_, M>, end: u16, parts: &mut Parts) -> Option<u16> {
        if self.next_avail == end || self.is_broken {
            return None;
        }
        if self.news != News::Nothing {
            // (the chain before was taken back)
            self.ring().and_then(|ring| Ok(ring.available(end)?)).map_err(|why| self.refuse(why)).ok()?;
        }
        let ring = self.ring.as_deref_mut()?;
        let head = match ring.head(mem) {
            Ok(head) => head,
            Err(why @ Error::GuestMemory(_)) => {
                self.miss(why);
                return None;
            }
            Err(why) => {
                self.refuse(why);
                return None;
            }
        };
        let taken = ring.take(mem, head, parts);
        self.next_avail = ring.next_avail();
        taken.map_err(|why| self.refuse(why)).ok()?;
        Some(head)
    }

    fn notify<M: GuestMemory>(&mut self, mem: &M, enable: bool) -> Result<(), Error> {
        self.ring()?.set_notification(mem, enable)
    }
}

impl<'a> QueueGuard<'a> for Queue {
    type G = &'a mut Self;
}

impl QueueT for Queue {
    fn new(max_size: u16) -> Result<Self, Error> {
        if !max_size.is_power_of_two() || max_size > MAX_QUEUE_SIZE {
            return Err(Error::InvalidMaxSize);
        }
        Ok(Queue { max_size, size: max_size, ..Queue::default() })
    }

    fn is_valid<M: GuestMemory>(&self, mem: &M) -> bool {
        let size = u64::from(self.size);
        let (ends, event) = (HEADER_SIZE + EVENT_SIZE, Permissions::Write);
        let parts = [
            (self.desc_table, DESCRIPTOR_SIZE * size, Permissions::Read, "descriptor table"),
            (self.avail_ring, ends + AVAIL_ENTRY_SIZE * size, Permissions::Read, "available ring"),
            (self.used_ring, ends + USED_ENTRY_SIZE * size, event, "used ring"),
        ];
        let absent = parts.iter().find(|(at, len, access, _)| !mem.check_range(*at, *len as usize, *access));
        if let (true, Some((at, len, _, name))) = (self.ready, absent) {
            error!("the {name} of a virtqueue, {len} bytes at {:#x}, does not lie in guest memory", at.0);
        }
        self.ready && absent.is_none()
    }

    fn reset(&mut self) {
        *self = Queue { max_size: self.max_size, size: self.max_size, ..Queue::default() };
    }

    fn lock(&mut self) -> <Self as QueueGuard<'_>>::G {
        self
    }

    fn max_size(&self) -> u16 {
        self.max_size
    }

    fn size(&self) -> u16 {
        self.size
    }

    fn set_size(&mut self, size: u16) {
        if let Err(why) = self.try_set_size(size) {
            error!("a virtqueue can't have {size} descriptors: {why}");
        }
    }

    fn ready(&self) -> bool {
        self.ready
    }

    fn set_ready(&mut self, ready: bool) {
        if ready && !self.ready && self.is_broken {
            self.news = News::Begins;
        }
        self.ready = ready;
    }

    fn set_desc_table_address(&mut self, low: Option<u32>, high: Option<u32>) {
        if let Err(why) = self.try_set_desc_table_address(halves(self.desc_table, low, high)) {
            error!("a virtqueue can't be moved: {why}");
        }
    }

    fn set_avail_ring_address(&mut self, low: Option<u32>, high: Option<u32>) {
        if let Err(why) = self.try_set_avail_ring_address(halves(self.avail_ring, low, high)) {
            error!("a virtqueue can't be moved: {why}");
        }
    }

    fn set_used_ring_address(&mut self, low: Option<u32>, high: Option<u32>) {
        if let Err(why) = self.try_set_used_ring_address(halves(self.used_ring, low, high)) {
            error!("a virtqueue can't be moved: {why}");
        }
    }

    fn set_event_idx(&mut self, enabled: bool) {
        if self.event_idx_enabled != enabled {
            (self.event_idx_enabled, self.news) = (enabled, News::Begins);
        }
    }

    fn avail_idx<M>(&self, mem: &M, order: Ordering) -> Result<Wrapping<u16>, Error>
    where
        M: GuestMemory + ?Sized,
    {
        let at = self.avail_ring.checked_add(INDEX).ok_or(Error::AddressOverflow)?;
        mem.load(at, order).map(|idx| Wrapping(u16::from_le(idx))).map_err(Error::GuestMemory)
    }

    fn used_idx<M: GuestMemory>(&self, mem: &M, order: Ordering) -> Result<Wrapping<u16>, Error> {
        let at = self.used_ring.checked_add(INDEX).ok_or(Error::AddressOverflow)?;
        mem.load(at, order).map(|idx| Wrapping(u16::from_le(idx))).map_err(Error::GuestMemory)
    }

    fn add_used<M: GuestMemory>(&mut self, mem: &M, head_index: u16, len: u32) -> Result<(), Error> {
        let used = self.ring()?.add_used(head_index, len).map_err(|why| {
            error!("the chain of head {head_index} can't be given back: {why}");
            Error::from(why)
        })?;
        self.next_used = used.idx;
        Ring::write_used(mem, &used)
    }

    fn enable_notification<M: GuestMemory>(&mut self, mem: &M) -> Result<bool, Error> {
        if let Err(why) = self.notify(mem, true) {
            self.miss(why);
            return Ok(false);
        }
        fence(Ordering::SeqCst);
        Ok(self.end_of_available(&mut Near::of(mem), Ordering::Relaxed) != self.next_avail)
    }

    fn disable_notification<M: GuestMemory>(&mut self, mem: &M) -> Result<(), Error> {
        if let Err(why) = self.notify(mem, false) {
            self.miss(why);
        }
        Ok(())
    }

    fn needs_notification<M: GuestMemory>(&mut self, mem: &M) -> Result<bool, Error> {
        fence(Ordering::SeqCst);
        match self.ring().and_then(|ring| ring.needs_notification(mem)) {
            Ok(needed) => Ok(needed),
            // (what the driver wants can't be read: then it is told)
            Err(why) => {
                self.miss(why);
                Ok(true)
            }
        }
    }

    fn next_avail(&self) -> u16 {
        self.next_avail
    }

    fn set_next_avail(&mut self, next_avail: u16) {
        if self.next_avail != next_avail {
            (self.next_avail, self.news) = (next_avail, News::Begins);
        }
    }

    fn next_used(&self) -> u16 {
        self.next_used
    }

    fn set_next_used(&mut self, next_used: u16) {
        if self.next_used != next_used {
            (self.next_used, self.news) = (next_used, News::Begins);
        }
    }

    fn desc_table(&self) -> u64 {
        self.desc_table.0
    }

    fn avail_ring(&self) -> u64 {
        self.avail_ring.0
    }

    fn used_ring(&self) -> u64 {
        self.used_ring.0
    }

    fn event_idx_enabled(&self) -> bool {
        self.event_idx_enabled
    }

    fn pop_descriptor_chain<M>(&mut self, mem: M) -> Option<DescriptorChain<M>>
    where
        M: Clone + Deref,
        M::Target: GuestMemory,
    {
        if !self.is_set_up() {
            return None;
        }
        DescriptorChain::of(mem, |mem, parts| {
            let mut near = Near::of(mem);
            let end = self.end_of_available(&mut near, Ordering::Acquire);
            self.take(&mut near, end, parts)
        })
    }
}

impl QueueOwnedT for Queue {
    fn iter<M>(&mut self, mem: M) -> Result<AvailIter<'_, M>, Error>
    where
        M: Deref,
        M::Target: GuestMemory,
    {
        if !self.is_set_up() {
            return Err(Error::QueueNotReady);
        }
        let end = self.end_of_available(&mut Near::of(mem.deref()), Ordering::Acquire);
        Ok(AvailIter { mem, end, queue: self })
    }

    fn go_to_previous_position(&mut self) {
        self.next_avail = self.next_avail.wrapping_sub(1);
        if self.news == News::Begins || self.news == News::Nothing && self.ring.as_mut().is_some_and(|ring| ring.give_back()) {
            return;
        }
        self.news = News::Back;
    }
}

/// The chains that were available when it was made, each of which is the device's once it was given.
#[derive(Debug)]
pub struct AvailIter<'b, M> {
    mem: M,
    end: u16,
    queue: &'b mut Queue,
}

impl<M> AvailIter<'_, M>
where
    M: Deref,
    M::Target: GuestMemory,
{
    /// The chain that was given last is not the device's any more, and is given again next.
    pub fn go_to_previous_position(&mut self) {
        self.queue.go_to_previous_position();
    }
}

impl<M> Iterator for AvailIter<'_, M>
where
    M: Clone + Deref,
    M::Target: GuestMemory,
{
    type Item = DescriptorChain<M>;

    #[inline]
    fn next(&mut self) -> Option<DescriptorChain<M>> {
        if self.end == self.queue.next_avail {
            return None;
        }
        DescriptorChain::of(self.mem.clone(), |mem, parts| self.queue.take(&mut Near::of(mem), self.end, parts))
    }
}
