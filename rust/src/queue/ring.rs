// SPDX-License-Identifier: Apache-2.0
//! A queue: where it lies, what is taken of it, and what is given back.
use std::collections::VecDeque;
use std::fmt;

use super::inflight::Area;
use super::inflight_packed::PackedArea;
use super::{Change, DescriptorChain, DirtyLog, Error, GuestAddress, GuestMemory, InflightRegion, Result, MAX_PARTS, UNSAID};
use crate::foreign::{Chain, CoreQueue, PackedRing, Range, SplitRing, Watch};

/// The greatest size of a queue that there is.
const MAX_SIZE: u16 = 0x8000;
/// Where a packed queue begins: at the first places, and both wrap counters are 1.
const FIRST_PACKED: u32 = 0x8000_8000;

/// A virtqueue, split or packed. It is told where it lies, and started by [`set_ready`](Self::set_ready); what a guest does wrong then is
/// an error, after which it needs a reset: nothing more is taken from it, and what was handed out may still be given back.
pub struct Queue {
    core: CoreQueue,
    max_size: u16,
    size: u16,
    desc_table: u64,
    avail_ring: u64,
    used_ring: u64,
    is_packed: bool,
    has_event_idx: bool,
    has_indirect: bool,
    base: Option<u32>,
    is_ready: bool,
    /// Whether it lies in no region.
    is_away: bool,
    is_broken: bool,
    /// How many heads may be taken before the index is read again.
    available: u16,
    /// Where the used ring of a split queue is mapped.
    used_at: u64,
    log: Option<DirtyLog>,
    log_addr: Option<GuestAddress>,
    inflight: Option<Area>,
    packed_inflight: Option<PackedArea>,
    /// What is to be taken again.
    again: VecDeque<u16>,
}

impl Queue {
    /// A queue of at most so many descriptors, which sees no memory. InvalidSize: that is 0, or above 32768; OutOfMemory.
    pub fn new(max_size: u16) -> Result<Queue> {
        if max_size == 0 || max_size > MAX_SIZE {
            return Err(Error::InvalidSize);
        }
        Ok(Queue {
            core: CoreQueue::open()?,
            max_size,
            size: 0,
            desc_table: 0,
            avail_ring: 0,
            used_ring: 0,
            is_packed: false,
            has_event_idx: false,
            has_indirect: false,
            base: None,
            is_ready: false,
            is_away: false,
            is_broken: false,
            available: 0,
            used_at: 0,
            log: None,
            log_addr: None,
            inflight: None,
            packed_inflight: None,
            again: VecDeque::new(),
        })
    }

    // -- Where it lies --

    /// It sees this memory from now on. A queue that is ready is found there; where it lies in none of it, nothing is taken until it does, and
    /// what it has stays mapped. OutOfMemory: nothing changed.
    pub fn set_memory(&mut self, memory: &GuestMemory) -> Result<()> {
        self.change_memory(memory, &Change::All)
    }

    /// The same by how it differs from what it saw. An error: nothing changed.
    pub(crate) fn change_memory(&mut self, memory: &GuestMemory, change: &Change) -> Result<()> {
        match change {
            Change::All => self.core.set_regions(memory.regions())?,
            Change::More(region) => self.core.add_region(&region.0, memory.regions())?,
            Change::Less(region) => self.core.remove_region(&region.0, memory.regions())?,
        }
        self.find_rings();
        Ok(())
    }

    /// The greatest size that it may have.
    pub fn max_size(&self) -> u16 {
        self.max_size
    }

    /// How many descriptors it has; 0: it was not told.
    pub fn size(&self) -> u16 {
        self.size
    }

    /// It has so many descriptors, once it is started. InvalidSize: that is 0, or more than it may have.
    pub fn set_size(&mut self, size: u16) -> Result<()> {
        if size == 0 || size > self.max_size {
            return Err(Error::InvalidSize);
        }
        self.size = size;
        Ok(())
    }

    /// Where the frontend has the descriptor table, or a packed queue's ring.
    pub fn set_desc_table_address(&mut self, user_addr: u64) {
        self.desc_table = user_addr;
    }

    /// Where the frontend has the available ring, or a packed queue's driver area.
    pub fn set_avail_ring_address(&mut self, user_addr: u64) {
        self.avail_ring = user_addr;
    }

    /// Where the frontend has the used ring, or a packed queue's device area.
    pub fn set_used_ring_address(&mut self, user_addr: u64) {
        self.used_ring = user_addr;
    }

    /// Finds the rings anew where they were told to lie: by a queue that is ready, whose addresses changed.
    pub fn find_rings(&mut self) {
        if !self.is_ready {
            return;
        }
        if self.is_packed {
            self.is_away = self.core.move_packed(self.desc_table, self.avail_ring, self.used_ring).is_err();
            self.available = 0; // (the chain that was found is none any more)
            return;
        }
        let is_there = self.core.move_split(self.desc_table, self.avail_ring, self.used_ring).is_ok();
        match self.core.used_ring(self.used_ring) {
            Ok((at, _)) if is_there => (self.used_at, self.is_away) = (at, false),
            _ => self.is_away = true,
        }
    }

    /// Whether it is packed, once it is started: VIRTIO_F_RING_PACKED.
    pub fn set_packed(&mut self, is_packed: bool) {
        self.is_packed = is_packed;
    }

    /// Whether it has event indexes, once it is started: VIRTIO_F_EVENT_IDX.
    pub fn set_event_idx(&mut self, enabled: bool) {
        self.has_event_idx = enabled;
    }

    /// Whether it has event indexes.
    pub fn event_idx_enabled(&self) -> bool {
        self.has_event_idx
    }

    /// Whether it may have indirect tables, once it is started: VIRTIO_F_INDIRECT_DESC.
    pub fn set_indirect(&mut self, enabled: bool) {
        self.has_indirect = enabled;
    }

    /// Where it goes on once it is started, as SET_VRING_BASE has it: an index, and of a packed queue its wrap counter above it, and the
    /// same of the used ones in the upper 16 bits. Where these are 0 they are as the lower ones: some, as DPDK's virtio_user, say the index of
    /// what is available alone, and then nothing is under way.
    pub fn set_base(&mut self, base: u32) {
        self.base = Some(base);
    }

    /// The lower 16 bits of the base.
    pub fn set_next_avail(&mut self, next_avail: u16) {
        self.base = Some(self.base() & 0xffff_0000 | u32::from(next_avail));
    }

    /// The upper 16 bits of the base, which a split queue has not: it reads them in the used ring.
    pub fn set_next_used(&mut self, next_used: u16) {
        self.base = Some(self.base() & 0xffff | u32::from(next_used) << 16);
    }

    /// Where it goes on: what GET_VRING_BASE replies.
    pub fn base(&self) -> u32 {
        self.base.unwrap_or(if self.is_packed { FIRST_PACKED } else { 0 })
    }

    /// The lower 16 bits of that.
    pub fn next_avail(&self) -> u16 {
        self.base() as u16
    }

    /// Logs what is written from now on, by the driver's feature LOG_ALL, or nothing. `used_addr` is where the guest has the used ring, if
    /// what is written there is logged, too (VHOST_VRING_F_LOG). A packed queue's ring is found by itself.
    pub fn set_log(&mut self, log: Option<DirtyLog>, used_addr: Option<GuestAddress>) {
        (self.log, self.log_addr) = (log, used_addr);
    }

    // -- Its life --

    /// Whether it is started.
    pub fn ready(&self) -> bool {
        self.is_ready
    }

    /// Whether its rings lie in its memory.
    pub(crate) fn is_mapped(&self) -> bool {
        !self.is_away
    }

    /// Starts it at its base, or stops it. InvalidSize, NotInGuest, Unaligned, InvalidBase, OutOfMemory: it is not started.
    pub fn set_ready(&mut self, ready: bool) -> Result<()> {
        match ready {
            true => self.start(None, None),
            false => {
                self.stop();
                Ok(())
            }
        }
    }

    /// Starts it with the part of an inflight region that the queue of this number has, if it has one: where the device before was stopped.
    /// What that had not given back is handed out again, in its order. InvalidInflight: the part is another queue's; others are those of
    /// `set_ready`.
    pub fn start_with(&mut self, inflight: &InflightRegion, queue: usize) -> Result<()> {
        match self.is_packed {
            true => self.start(None, inflight.packed_area(queue, self.size)),
            false => self.start(inflight.area(queue, self.size), None),
        }
    }

    fn start(&mut self, inflight: Option<Area>, packed: Option<PackedArea>) -> Result<()> {
        self.stop();
        match self.is_packed {
            true => self.start_packed(packed)?,
            false => self.start_split(inflight)?,
        }
        self.is_ready = true;
        Ok(())
    }

    fn start_split(&mut self, mut inflight: Option<Area>) -> Result<()> {
        let (used_at, next_used) = self.core.used_ring(self.used_ring)?;
        let (mut again, mut next_avail) = (VecDeque::new(), self.next_avail());
        if let Some(inflight) = &mut inflight {
            again = inflight.recover(next_used)?.iter().map(|it| it.head).collect();
            next_avail = next_used.wrapping_add(again.len() as u16);
        }
        self.core.start_split(&SplitRing {
            desc_table: self.desc_table,
            avail_ring: self.avail_ring,
            used_ring: self.used_ring,
            size: self.size,
            next_avail,
            next_used,
            event_idx: self.has_event_idx,
            indirect_desc: self.has_indirect,
        })?;
        (self.used_at, self.inflight, self.again) = (used_at, inflight, again);
        Ok(())
    }

    fn start_packed(&mut self, mut inflight: Option<PackedArea>) -> Result<()> {
        let (mut base, mut again) = (self.base(), VecDeque::new());
        if base >> 16 == 0 {
            base |= base << 16;
        }
        if let Some(inflight) = &mut inflight {
            let (core, ring) = (&mut self.core, self.desc_table);
            let (used, heads) = inflight.recover((base >> 16) as u16, |index| core.packed_flags(ring, index))?;
            again = heads.iter().map(|it| it.head).collect();
            base = u32::from(used) << 16 | u32::from(used); // (what is taken again lies between)
        }
        self.core.start_packed(&PackedRing {
            desc_ring: self.desc_table,
            driver_event: self.avail_ring,
            device_event: self.used_ring,
            size: self.size,
            avail: base as u16,
            used: (base >> 16) as u16,
            event_idx: self.has_event_idx,
            indirect_desc: self.has_indirect,
        })?;
        (self.packed_inflight, self.again) = (inflight, again);
        Ok(())
    }

    fn stop(&mut self) {
        if self.is_ready {
            self.base = self.core.base().ok().or(self.base);
        }
        self.core.stop();
        (self.is_ready, self.is_away, self.is_broken) = (false, false, false);
        self.available = 0;
        (self.inflight, self.packed_inflight) = (None, None);
        self.again.clear();
    }

    /// Stops it, and lets go of all memory.
    pub(crate) fn forget(&mut self) {
        self.reset();
        self.core.let_go();
    }

    /// Stops it, and forgets what it was told, but for its memory.
    pub fn reset(&mut self) {
        self.stop();
        (self.size, self.base) = (0, None);
        (self.desc_table, self.avail_ring, self.used_ring) = (0, 0, 0);
        (self.is_packed, self.has_event_idx, self.has_indirect) = (false, false, false);
        (self.log, self.log_addr) = (None, None);
    }

    /// Whether the driver broke a rule since it was started.
    pub fn needs_reset(&mut self) -> bool {
        self.is_broken || self.core.needs_reset().unwrap_or(false)
    }

    // -- What is available, and what was used --

    /// The next request, if there is one. NotStarted; NeedsReset; NotInGuest to HeadInUse: the driver broke a rule, and the queue needs a
    /// reset; OutOfMemory, as well.
    pub fn pop(&mut self) -> Result<Option<DescriptorChain>> {
        match self.take() {
            Ok(chain) => Ok(chain),
            Err(Error::NothingAvailable) => Ok(None),
            Err(Error::NotStarted) => Err(Error::NotStarted),
            Err(error) => {
                self.is_broken = true;
                Err(error)
            }
        }
    }

    /// The next request; where there is none the driver tells of more from now on. Errors are those of `pop`.
    pub(crate) fn pop_or_ask(&mut self) -> Result<Option<DescriptorChain>> {
        loop {
            match self.pop() {
                Ok(None) if self.enable_notification() == Ok(true) => {}
                popped => return popped,
            }
        }
    }

    /// The requests that are there, and those that come meanwhile, as [`pop`](Self::pop) has them. After an error there is none.
    pub fn iter(&mut self) -> Chains<'_> {
        Chains { queue: self, has_ended: false }
    }

    fn take(&mut self) -> Result<Option<DescriptorChain>> {
        if !self.is_ready {
            return Err(Error::NotStarted);
        }
        if self.is_broken {
            return Err(Error::NeedsReset);
        }
        if self.is_away {
            return Ok(None);
        }
        if let Some(head) = self.again.pop_front() {
            return self.take_again(head).map(Some);
        }
        if self.available == 0 {
            self.available = self.core.available()?;
        }
        if self.available == 0 {
            return Ok(None);
        }
        self.available -= 1;
        if self.is_packed {
            return self.take_packed().map(Some);
        }
        let (head, chain) = match &mut self.inflight {
            None => self.core.take(self.most_parts())?,
            Some(inflight) => {
                let head = self.core.pop()?;
                inflight.take(head);
                (head, self.follow()?)
            }
        };
        Ok(Some(DescriptorChain::of(chain, head, false)))
    }

    /// A request that the device before had: of a packed queue by its first entry.
    fn take_again(&mut self, head: u16) -> Result<DescriptorChain> {
        let most = self.most_parts();
        if let Some(inflight) = &mut self.packed_inflight {
            let mut kept = PackedArea::begin_again(head);
            self.core.resubmit_packed()?;
            let chain = self.core.follow(most, |_| inflight.kept(&mut kept))?;
            let id = chain.id;
            inflight.take_again(id, kept);
            return Ok(DescriptorChain::of(chain, id, true));
        }
        self.core.resubmit(head)?;
        Ok(DescriptorChain::of(self.follow()?, head, true))
    }

    fn take_packed(&mut self) -> Result<DescriptorChain> {
        let most = self.most_parts();
        let chain = match &mut self.packed_inflight {
            None => self.core.walk(most, true)?,
            Some(inflight) => {
                let mut kept = inflight.begin();
                let chain = self.core.follow(most, |descriptor| inflight.keep(&mut kept, descriptor))?;
                inflight.take(chain.id, kept);
                chain
            }
        };
        let id = chain.id;
        Ok(DescriptorChain::of(chain, id, false))
    }

    fn most_parts(&self) -> usize {
        MAX_PARTS.max(self.size.into())
    }

    fn follow(&mut self) -> Result<Chain> {
        self.core.walk(self.most_parts(), false)
    }

    /// Gives a request back, of which so many bytes were written, from the first that is to be written on. In any order. These are logged; and of
    /// those behind them, which may have been written and are not said, the first mebibyte and the last, in which a status stands.
    /// NotStarted; NotHandedOut: the device has no such request.
    pub fn add_used(&mut self, chain: &DescriptorChain, len: u32) -> Result<()> {
        let (id, inflight, packed) = (chain.id, &self.inflight, &mut self.packed_inflight);
        self.log.iter().for_each(|log| log_chain(log, &chain.written, len));
        let used = self.core.add_used(id, len, |core| {
            inflight.iter().for_each(|inflight| inflight.before_used(id));
            if let (Some(packed), Ok(base)) = (packed, core.base()) {
                packed.before_used(id, (base >> 16) as u16);
            }
        })?;
        if let Some(inflight) = &self.inflight {
            inflight.after_used(id, used.then_value);
        }
        if let Some(inflight) = &self.packed_inflight {
            inflight.after_used(id);
        }
        self.log_ring(used.elem);
        self.log_ring(used.then);
        Ok(())
    }

    /// Gives many back, as [`add_used`](Self::add_used) does each, and has the driver see them at once; with an inflight region, which notes one at
    /// a time, each by itself. How many there were: what the device has not is left out.
    pub(crate) fn add_all_used<'c>(&mut self, chains: impl Iterator<Item = (&'c DescriptorChain, u32)> + Clone) -> usize {
        if self.inflight.is_some() || self.packed_inflight.is_some() {
            return chains.filter(|(chain, len)| self.add_used(chain, *len).is_ok()).count();
        }
        if let Some(log) = &self.log {
            chains.clone().for_each(|(chain, len)| log_chain(log, &chain.written, len));
        }
        let (logged, is_packed) = (self.logged_ring(), self.is_packed);
        self.core.add_all_used(chains.map(|(chain, len)| (chain.id, len)), is_packed, |core, range| {
            logged.iter().for_each(|ring| ring.mark(core, range));
        })
    }

    /// Whether the driver is to be told of what was given back since this was last asked. NotStarted.
    pub fn needs_notification(&mut self) -> Result<bool> {
        self.core.needs_notification()
    }

    /// What shows that something became available, since [`pop`](Self::pop) found nothing.
    pub(crate) fn watch(&self) -> Option<Watch> {
        self.core.watch()
    }

    /// Has the driver tell of what it makes available from now on. Whether something is available already: then it is to be taken first.
    /// NotStarted.
    pub fn enable_notification(&mut self) -> Result<bool> {
        if self.is_away {
            return Ok(false);
        }
        self.notify(true)?;
        if self.available == 0 {
            match self.core.available() {
                Ok(count) => self.available = count,
                // (what is wrong is told where it is taken)
                Err(_) => return Ok(true),
            }
        }
        Ok(self.available != 0)
    }

    /// Has the driver not tell of it, where it can be asked so. NotStarted.
    pub fn disable_notification(&mut self) -> Result<()> {
        self.notify(false)
    }

    fn notify(&mut self, enable: bool) -> Result<()> {
        if let Some(place) = self.core.set_notification(enable)? {
            self.log_ring(place);
        }
        Ok(())
    }

    /// Logs bytes of a ring, where they are mapped.
    fn log_ring(&self, range: Range) {
        self.logged_ring().iter().for_each(|ring| ring.mark(&self.core, range));
    }

    /// By what its ring is logged, where that is wanted.
    fn logged_ring(&self) -> Option<LoggedRing> {
        let (log, used) = (self.log.clone()?, self.log_addr?);
        Some(LoggedRing { log, used, used_at: self.used_at, is_packed: self.is_packed })
    }
}

impl fmt::Debug for Queue {
    fn fmt(&self, f: &mut fmt::Formatter<'_>) -> fmt::Result {
        let mut all = f.debug_struct("Queue");
        all.field("size", &self.size).field("is_packed", &self.is_packed).field("is_ready", &self.is_ready);
        all.field("is_broken", &self.is_broken).finish_non_exhaustive()
    }
}

/// By what a ring is logged: where the guest has the used ring, and where that is mapped.
struct LoggedRing {
    log: DirtyLog,
    used: GuestAddress,
    used_at: u64,
    is_packed: bool,
}

impl LoggedRing {
    fn mark(&self, core: &CoreQueue, range: Range) {
        let at = match self.is_packed {
            true => core.ring_regions().guest_of(range.addr, range.len),
            false => range.addr.checked_sub(self.used_at).and_then(|into| self.used.0.checked_add(into)),
        };
        at.iter().for_each(|at| self.log.mark(GuestAddress(*at), range.len));
    }
}

/// Logs what of these parts was written, and both ends of what may have been beyond: all of it would be terabytes, where a guest says so.
fn log_chain(log: &DirtyLog, parts: &[(u64, u64)], written: u32) {
    let all: u64 = parts.iter().map(|(_, size)| size).sum();
    let (mut head, mut tail) = (u64::from(written) + UNSAID, all.saturating_sub(UNSAID));
    if tail <= head {
        (head, tail) = (all, all);
    }
    let mut at = 0;
    for (guest, size) in parts {
        let end = at + size;
        log.mark(GuestAddress(*guest), head.clamp(at, end) - at);
        let into = tail.clamp(at, end) - at;
        log.mark(GuestAddress(guest + into), size - into);
        at = end;
    }
}

/// The requests of a [`Queue`], as they come.
#[derive(Debug)]
pub struct Chains<'a> {
    queue: &'a mut Queue,
    has_ended: bool,
}

impl Iterator for Chains<'_> {
    type Item = Result<DescriptorChain>;

    fn next(&mut self) -> Option<Self::Item> {
        if self.has_ended {
            return None;
        }
        let next = self.queue.pop();
        self.has_ended = next.is_err();
        next.transpose()
    }
}
