// SPDX-License-Identifier: Apache-2.0
//! A driver's side of a queue in guest memory, for tests. What it writes need not keep virtio's rules.
use std::fmt;
use std::marker::PhantomData;
use std::mem::size_of;

use vm_memory::{ByteValued, Bytes, GuestAddress, GuestMemory, GuestMemoryError};

use crate::defs::{DESCRIPTOR_SIZE, EVENT_SIZE, HEADER_SIZE};
use crate::desc::split::{Descriptor, VirtqUsedElem};
use crate::desc::{RawDescriptor, INDIRECT, NEXT};
use crate::{DescriptorChain, Error, QueueT};

/// Why a call of this module failed.
#[derive(Debug)]
pub enum MockError {
    /// There is no such queue.
    InvalidQueueParams(Error),
    /// An index is beyond its list, or there is no descriptor left.
    InvalidIndex,
    /// No chain is available.
    InvalidNextAvail,
    /// Guest memory can't be accessed.
    GuestMem(GuestMemoryError),
}

impl fmt::Display for MockError {
    fn fmt(&self, f: &mut fmt::Formatter<'_>) -> fmt::Result {
        match self {
            MockError::InvalidQueueParams(cause) => write!(f, "there is no such queue: {cause}"),
            MockError::InvalidIndex => f.write_str("an index is beyond its list"),
            MockError::InvalidNextAvail => f.write_str("no chain is available"),
            MockError::GuestMem(cause) => write!(f, "guest memory can't be accessed: {cause}"),
        }
    }
}

impl std::error::Error for MockError {}

/// An object in guest memory.
pub struct Ref<'a, M, T> {
    mem: &'a M,
    addr: GuestAddress,
    object: PhantomData<*const T>,
}

impl<M: GuestMemory, T: ByteValued> Ref<'_, M, T> {
    /// Reads it. Panics where it does not lie in memory.
    pub fn load(&self) -> T {
        self.mem.read_obj(self.addr).expect("an object of a mock queue is read")
    }

    /// Writes it. Panics where it does not lie in memory.
    pub fn store(&self, val: T) {
        self.mem.write_obj(val, self.addr).expect("an object of a mock queue is written")
    }
}

/// A list of objects in guest memory.
pub struct ArrayRef<'a, M, T> {
    mem: &'a M,
    addr: GuestAddress,
    len: usize,
    object: PhantomData<*const T>,
}

impl<'a, M: GuestMemory, T: ByteValued> ArrayRef<'a, M, T> {
    /// One of them. InvalidIndex: there are fewer.
    pub fn ref_at(&self, index: usize) -> Result<Ref<'a, M, T>, MockError> {
        if index >= self.len {
            return Err(MockError::InvalidIndex);
        }
        let addr = GuestAddress(self.addr.0 + (index * size_of::<T>()) as u64);
        Ok(Ref { mem: self.mem, addr, object: PhantomData })
    }
}

/// The available or the used ring: its flags, its index, its entries, and an event index.
pub struct SplitQueueRing<'a, M, T: ByteValued> {
    addr: GuestAddress,
    idx: Ref<'a, M, u16>,
    ring: ArrayRef<'a, M, T>,
}

impl<'a, M: GuestMemory, T: ByteValued> SplitQueueRing<'a, M, T> {
    /// A ring of so many entries there, which is empty, and whose event index is 0. Panics where it does not lie in memory.
    pub fn new(mem: &'a M, base: GuestAddress, len: u16) -> Self {
        let entries = GuestAddress(base.0 + HEADER_SIZE);
        let idx = Ref { mem, addr: GuestAddress(base.0 + 2), object: PhantomData };
        let ring = ArrayRef { mem, addr: entries, len: len.into(), object: PhantomData };
        let it = SplitQueueRing { addr: base, idx, ring };
        for addr in [base, it.idx.addr, GuestAddress(it.end().0 - EVENT_SIZE)] {
            Ref { mem, addr, object: PhantomData }.store(0u16);
        }
        it
    }

    /// Where it begins.
    pub fn start(&self) -> GuestAddress {
        self.addr
    }

    /// Where it ends, behind its event index.
    pub fn end(&self) -> GuestAddress {
        GuestAddress(self.ring.addr.0 + (self.ring.len * size_of::<T>()) as u64 + EVENT_SIZE)
    }

    /// Its index.
    pub fn idx(&self) -> &Ref<'a, M, u16> {
        &self.idx
    }

    /// Its entries.
    pub fn ring(&self) -> &ArrayRef<'a, M, T> {
        &self.ring
    }
}

/// The available ring.
pub type AvailRing<'a, M> = SplitQueueRing<'a, M, u16>;
/// The used ring.
pub type UsedRing<'a, M> = SplitQueueRing<'a, M, VirtqUsedElem>;

/// A table of descriptors, and which of them are in no chain.
pub struct DescriptorTable<'a, M> {
    table: ArrayRef<'a, M, RawDescriptor>,
    free: Vec<u16>,
}

/// Where the buffer of a descriptor is that is given none, and how many bytes it has.
const BUFFER: u64 = 0x1000;

impl<'a, M: GuestMemory> DescriptorTable<'a, M> {
    /// A table of so many descriptors there, of which none is in a chain.
    pub fn new(mem: &'a M, addr: GuestAddress, len: u16) -> Self {
        let table = ArrayRef { mem, addr, len: len.into(), object: PhantomData };
        DescriptorTable { table, free: (0..len).rev().collect() }
    }

    /// Reads a descriptor. InvalidIndex.
    pub fn load(&self, index: u16) -> Result<RawDescriptor, MockError> {
        Ok(self.table.ref_at(index.into())?.load())
    }

    /// Writes one. InvalidIndex.
    pub fn store(&self, index: u16, value: RawDescriptor) -> Result<(), MockError> {
        self.table.ref_at(index.into())?.store(value);
        Ok(())
    }

    /// How many bytes it has.
    pub fn total_size(&self) -> u64 {
        DESCRIPTOR_SIZE * self.table.len as u64
    }

    /// Makes a chain of so many descriptors that were in none: its head. InvalidIndex: there are fewer.
    pub fn build_chain(&mut self, len: u16) -> Result<u16, MockError> {
        if len == 0 || usize::from(len) > self.free.len() {
            return Err(MockError::InvalidIndex);
        }
        let indexes = self.free.split_off(self.free.len() - usize::from(len));
        // (the last is taken first)
        for (at, index) in indexes.iter().enumerate() {
            let next = at.checked_sub(1).map(|before| indexes[before]);
            let flags = if next.is_some() { NEXT } else { 0 };
            self.store(*index, Descriptor::new(BUFFER, BUFFER as u32, flags, next.unwrap_or(0)).into())?;
        }
        Ok(indexes[indexes.len() - 1])
    }
}

/// A queue in guest memory, as its driver has it: its table and its rings lie one behind the other, and indirect tables behind them.
pub struct MockSplitQueue<'a, M> {
    mem: &'a M,
    len: u16,
    desc_table: DescriptorTable<'a, M>,
    avail: AvailRing<'a, M>,
    used: UsedRing<'a, M>,
    indirect_addr: GuestAddress,
}

fn aligned(addr: GuestAddress, to: u64) -> GuestAddress {
    GuestAddress(addr.0.next_multiple_of(to))
}

impl<'a, M: GuestMemory> MockSplitQueue<'a, M> {
    /// A queue of so many descriptors, at the guest's address 0. Panics where it does not lie in memory.
    pub fn new(mem: &'a M, len: u16) -> Self {
        MockSplitQueue::create(mem, GuestAddress(0), len)
    }

    /// The same at another address, which is a multiple of 16.
    pub fn create(mem: &'a M, start: GuestAddress, len: u16) -> Self {
        let desc_table = DescriptorTable::new(mem, start, len);
        let avail = AvailRing::new(mem, aligned(GuestAddress(start.0 + desc_table.total_size()), 2), len);
        let used = UsedRing::new(mem, aligned(avail.end(), 4), len);
        let indirect_addr = aligned(used.end(), DESCRIPTOR_SIZE);
        MockSplitQueue { mem, len, desc_table, avail, used, indirect_addr }
    }

    /// Where it begins.
    pub fn start(&self) -> GuestAddress {
        self.desc_table_addr()
    }

    /// Where its last ring ends.
    pub fn end(&self) -> GuestAddress {
        self.used.end()
    }

    /// Its table.
    pub fn desc_table(&self) -> &DescriptorTable<'a, M> {
        &self.desc_table
    }

    /// Its available ring.
    pub fn avail(&self) -> &AvailRing<'_, M> {
        &self.avail
    }

    /// Its used ring.
    pub fn used(&self) -> &UsedRing<'_, M> {
        &self.used
    }

    /// Where its table is.
    pub fn desc_table_addr(&self) -> GuestAddress {
        self.desc_table.table.addr
    }

    /// Where its available ring is.
    pub fn avail_addr(&self) -> GuestAddress {
        self.avail.start()
    }

    /// Where its used ring is.
    pub fn used_addr(&self) -> GuestAddress {
        self.used.start()
    }

    /// Makes a head available.
    fn offer(&self, head: u16) -> Result<(), MockError> {
        let idx = u16::from_le(self.avail.idx().load());
        self.avail.ring().ref_at(usize::from(idx % self.len))?.store(head.to_le());
        self.avail.idx().store(idx.wrapping_add(1).to_le());
        Ok(())
    }

    /// Makes a chain of so many descriptors available. InvalidIndex: there are fewer.
    pub fn add_chain(&mut self, len: u16) -> Result<(), MockError> {
        let head = self.desc_table.build_chain(len)?;
        self.offer(head)
    }

    /// The same of a chain in an indirect table of its own. Panics where there is no memory for that.
    pub fn add_indirect_chain(&mut self, len: u16) -> Result<(), MockError> {
        let head = self.desc_table.build_chain(1)?;
        let mut table = DescriptorTable::new(self.mem, self.indirect_addr, len);
        table.build_chain(len)?;
        let bytes = table.total_size();
        self.desc_table.store(head, Descriptor::new(self.indirect_addr.0, bytes as u32, INDIRECT, 0).into())?;
        self.indirect_addr = GuestAddress(self.indirect_addr.0 + bytes);
        self.offer(head)
    }

    /// The queue of a device over it, which is ready. Errors are those of [`QueueT::new`]; InvalidSize, where the memory does not have it.
    pub fn create_queue<Q: QueueT>(&self) -> Result<Q, Error> {
        let mut queue = Q::new(self.len)?;
        let halves = |addr: GuestAddress| (Some(addr.0 as u32), Some((addr.0 >> 32) as u32));
        let (low, high) = halves(self.desc_table_addr());
        queue.set_desc_table_address(low, high);
        let (low, high) = halves(self.avail_addr());
        queue.set_avail_ring_address(low, high);
        let (low, high) = halves(self.used_addr());
        queue.set_used_ring_address(low, high);
        queue.set_ready(true);
        if !queue.is_valid(self.mem) {
            return Err(Error::InvalidSize);
        }
        Ok(queue)
    }

    /// Writes these descriptors at the beginning of the table, and makes the chains that they are available: the first one.
    pub fn build_multiple_desc_chains(&self, descs: &[RawDescriptor]) -> Result<DescriptorChain<&M>, MockError> {
        self.add_desc_chains(descs, 0)?;
        if self.avail.idx().load() == 0 {
            return Err(MockError::InvalidNextAvail);
        }
        let head = u16::from_le(self.avail.ring().ref_at(0)?.load());
        let list = self.parts(head)?;
        let made = DescriptorChain::of(self.mem, |_, parts| {
            let mut more = Vec::new();
            list.iter().for_each(|it| parts.push(*it, &mut more));
            parts.seal(&more);
            Some(head)
        });
        made.ok_or(MockError::InvalidNextAvail)
    }

    /// The same of one chain, whose links are made: what is given of them is not looked at.
    pub fn build_desc_chain(&self, descs: &[RawDescriptor]) -> Result<DescriptorChain<&M>, MockError> {
        let linked = descs.iter().enumerate().map(|(at, it)| {
            let it = Descriptor::from(*it);
            let (flags, next) = match at + 1 < descs.len() {
                true => (it.flags() | NEXT, at as u16 + 1),
                false => (it.flags() & !NEXT, 0),
            };
            Descriptor::new(it.addr().0, it.len(), flags, next).into()
        });
        self.build_multiple_desc_chains(&linked.collect::<Vec<_>>())
    }

    /// Writes these descriptors from an index of the table on, and makes the chains that they are available: a chain ends with each that has
    /// no NEXT. InvalidIndex: the table is too small.
    pub fn add_desc_chains(&self, descs: &[RawDescriptor], offset: u16) -> Result<(), MockError> {
        let mut begins = true;
        for (at, it) in descs.iter().enumerate() {
            let index = offset.checked_add(at as u16).ok_or(MockError::InvalidIndex)?;
            self.desc_table.store(index, *it)?;
            if begins {
                self.offer(index)?;
            }
            begins = !Descriptor::from(*it).has_next();
        }
        Ok(())
    }

    /// The descriptors of a chain, whatever they are: also those that a queue refuses, since that is what is tried by them.
    fn parts(&self, head: u16) -> Result<Vec<Descriptor>, MockError> {
        let (mut list, mut table, mut len, mut next) = (Vec::new(), self.desc_table_addr(), u64::from(self.len), u64::from(head));
        while next < len && list.len() < usize::from(self.len) {
            let at = GuestAddress(table.0 + DESCRIPTOR_SIZE * next);
            let it: Descriptor = self.mem.read_obj(at).map_err(MockError::GuestMem)?;
            if it.refers_to_indirect_table() && table == self.desc_table_addr() {
                (table, len, next) = (it.addr(), u64::from(it.len()) / DESCRIPTOR_SIZE, 0);
                continue;
            }
            list.push(it);
            next = if it.has_next() { it.next().into() } else { len };
        }
        Ok(list)
    }
}
