// SPDX-License-Identifier: Apache-2.0
//! The proved queue, told one region, all addresses: so each place that it names is an address of the guest, which is read or written here
//! through a `GuestMemory`, whatever that is; and what of the queue is with the device.
use std::ops::Range;
use std::sync::atomic::Ordering;

use covretin::queue::bare::{Rings, SplitQueue, Used};
use covretin::queue::Error as Refusal;
use vm_memory::GuestMemory;

use crate::chain::Parts;
use crate::desc::split::Descriptor;
use crate::near::Near;
use crate::Error;

/// A queue that was started.
pub(crate) struct Ring {
    queue: SplitQueue,
    rings: Rings,
    /// The index of the available ring that the queue was told last.
    idx: Option<u16>,
    /// Where heads are to be read next, as far as the queue said it.
    places: Range<u64>,
    /// The descriptors of the chain that is read, where it has many.
    more: Vec<Descriptor>,
    /// The head that was read last at each place of the available ring, and how many of the last places are known.
    heads: Box<[u16]>,
    known: u16,
    /// Which heads the device has, and how many.
    out: Box<[bool]>,
    count: u16,
    /// How many more it has, of which is not known which: they were taken before the queue was made.
    unknown: u16,
    /// Whether nothing was used since it was asked last whether the driver is to be told.
    is_asked: bool,
}

impl Ring {
    pub(crate) fn new() -> Result<Ring, Refusal> {
        Ok(Ring {
            queue: SplitQueue::new()?,
            rings: Rings::default(),
            idx: None,
            places: 0..0,
            more: Vec::new(),
            heads: Box::default(),
            known: 0,
            out: Box::default(),
            count: 0,
            unknown: 0,
            // (of a queue that is new nothing was used: see `begin`, of one that begins elsewhere)
            is_asked: true,
        })
    }

    /// It has these rings from now on, and begins there. What the device had it has, but for what is behind the new beginning. Where it may be
    /// that the driver began anew, it did if fewer are out by the indexes: then the device has none of these.
    pub(crate) fn begin(&mut self, rings: &Rings, may_be_anew: bool) -> Result<(), Refusal> {
        self.queue.start(rings)?;
        (self.idx, self.places) = (None, 0..0);
        let size = usize::from(rings.size);
        if self.out.len() != size {
            (self.heads, self.out) = (vec![0; size].into(), vec![false; size].into());
            (self.known, self.count) = (0, 0);
        }
        let back = self.rings.next_avail.wrapping_sub(rings.next_avail);
        for _ in 0..back.min(self.known) {
            let head = self.heads[self.place_of(self.rings.next_avail.wrapping_sub(1))];
            self.forget(head);
            (self.rings.next_avail, self.known) = (self.rings.next_avail.wrapping_sub(1), self.known - 1);
        }
        if self.rings.next_avail != rings.next_avail {
            self.known = 0;
        }
        let pending = rings.next_avail.wrapping_sub(rings.next_used);
        if may_be_anew && self.count > pending {
            self.out.fill(false);
            self.count = 0;
        }
        for (head, _) in self.out.iter().enumerate().filter(|(_, is_out)| **is_out) {
            self.queue.adopt(head as u16)?;
        }
        self.unknown = if pending <= rings.size { pending.saturating_sub(self.count) } else { 0 };
        // (a queue that begins tells once: nobody knows what was used before, but for this)
        self.is_asked &= self.rings.next_used == rings.next_used;
        if self.is_asked {
            self.queue.needs_notification(0)?;
        }
        self.rings = *rings;
        Ok(())
    }

    /// Its rings lie elsewhere.
    pub(crate) fn move_to(&mut self, rings: &Rings) -> Result<(), Refusal> {
        self.queue.move_to(rings.desc_table, rings.avail_ring, rings.used_ring)?;
        (self.rings, self.places) = (*rings, 0..0);
        Ok(())
    }

    /// The entry of the available ring that is next.
    #[inline]
    pub(crate) fn next_avail(&self) -> u16 {
        self.rings.next_avail
    }

    #[inline]
    fn place_of(&self, index: u16) -> usize {
        usize::from(index) & (self.heads.len() - 1)
    }

    #[inline]
    fn forget(&mut self, head: u16) {
        self.count -= u16::from(std::mem::replace(&mut self.out[usize::from(head)], false));
    }

    /// Whether the index of the available ring is what the queue was told last.
    #[inline]
    pub(crate) fn knows(&self, idx: u16) -> bool {
        self.idx == Some(idx)
    }

    /// The index of the available ring was read as this: whether there can be so many.
    pub(crate) fn available(&mut self, idx: u16) -> Result<(), Refusal> {
        if !self.knows(idx) {
            self.queue.available(idx)?;
            self.idx = Some(idx);
        }
        Ok(())
    }

    /// Reads the next head, of those that are available. GuestMemory: its place can't be read.
    #[inline]
    pub(crate) fn head<M: GuestMemory + ?Sized>(&mut self, mem: &mut Near<'_, M>) -> Result<u16, Error> {
        if self.places.is_empty() {
            self.places = self.queue.head_addrs(u16::MAX)?;
        }
        mem.load(self.places.start, Ordering::Acquire)
    }

    /// Takes the chain of this head, which was read last, and reads it, each descriptor once; and checks that its buffers lie in memory. After an
    /// error it is no request, and `next_avail` says whether it was taken.
    #[inline]
    pub(crate) fn take<M: GuestMemory + ?Sized>(
        &mut self,
        mem: &mut Near<'_, M>,
        head: u16,
        parts: &mut Parts,
    ) -> Result<(), Error> {
        let (mut bytes, mut fault) = (0u64, None);
        self.more.clear();
        let more = &mut self.more;
        let taken = self.queue.take(
            head,
            |table, index| match mem.read(table, index) {
                Ok(read) => Some(read),
                Err(error) => {
                    fault = Some(error);
                    None
                }
            },
            |it| {
                bytes += u64::from(it.len);
                parts.push(Descriptor::new(it.addr, it.len, it.flags, it.next), more);
            },
        );
        if let Err(why) = taken {
            self.note_refused(head, why);
            return Err(fault.unwrap_or_else(|| why.into()));
        }
        self.note(head);
        if bytes > u64::from(u32::MAX) {
            return Err(Error::DescriptorChainOverflow);
        }
        parts.seal(&self.more);
        match parts.list().iter().all(|it| mem.has(it)) {
            true => Ok(()),
            false => Err(Error::FindMemoryRegion),
        }
    }

    /// The head that was read last was refused: it is the device's nevertheless, unless it was already, or is none, or nothing more is taken.
    #[cold]
    fn note_refused(&mut self, head: u16, why: Refusal) {
        if self.out.get(usize::from(head)) == Some(&false) && why != Refusal::NeedsReset {
            self.note(head);
        }
    }

    /// The head that was read last is the device's.
    #[inline]
    fn note(&mut self, head: u16) {
        let at = self.place_of(self.rings.next_avail);
        self.heads[at] = head;
        self.out[usize::from(head)] = true;
        self.places.start += 2;
        self.rings.next_avail = self.rings.next_avail.wrapping_add(1);
        (self.known, self.count) = (self.rings.size.min(self.known + 1), self.count + 1);
    }

    /// The head that was taken last is to be taken again. Whether it was the device's: else the queue has to begin anew, one entry before.
    pub(crate) fn give_back(&mut self) -> bool {
        let index = self.rings.next_avail.wrapping_sub(1);
        if self.known == 0 {
            return false;
        }
        let head = self.heads[self.place_of(index)];
        if self.queue.give_back(head).is_err() {
            return false;
        }
        self.forget(head);
        self.places = 0..0;
        (self.rings.next_avail, self.known) = (index, self.known - 1);
        true
    }

    /// Uses a chain: what is to be written. One that was taken before the queue was made is the device's as long as so many may be.
    #[inline]
    pub(crate) fn add_used(&mut self, head: u16, len: u32) -> Result<Used, Refusal> {
        let used = match self.queue.add_used(head, len) {
            Err(Refusal::NotHandedOut) if self.unknown != 0 => {
                self.queue.adopt(head).map_err(|_| Refusal::NotHandedOut)?;
                self.unknown -= 1;
                self.queue.add_used(head, len)?
            }
            used => used?,
        };
        self.forget(head);
        (self.rings.next_used, self.is_asked) = (used.idx, false);
        Ok(used)
    }

    /// Writes it.
    #[inline]
    pub(crate) fn write_used<M: GuestMemory>(mem: &M, used: &Used) -> Result<(), Error> {
        let mut mem = Near::of(mem);
        mem.write(used.elem_addr, used.elem)?;
        mem.store(used.idx_addr, used.idx, Ordering::Release)
    }

    /// Has the driver tell, or not.
    pub(crate) fn set_notification<M: GuestMemory>(&mut self, mem: &M, enable: bool) -> Result<(), Error> {
        match self.queue.set_notification(enable)? {
            None => Ok(()),
            Some((addr, value)) => Near::of(mem).store(addr, value, Ordering::Relaxed),
        }
    }

    /// Whether the driver is to be told: what it wants is read behind the caller's full barrier.
    pub(crate) fn needs_notification<M: GuestMemory>(&mut self, mem: &M) -> Result<bool, Error> {
        let addr = self.queue.notification_addr()?;
        let value = Near::of(mem).load(addr, Ordering::Relaxed)?;
        self.is_asked = true;
        Ok(self.queue.needs_notification(value)?)
    }
}
