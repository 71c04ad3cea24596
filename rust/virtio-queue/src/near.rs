// SPDX-License-Identifier: Apache-2.0
//! Guest memory as one call sees it: what lies in the region that was found last needs no search.
use std::sync::atomic::{AtomicU16, Ordering};

use covretin::queue::bare::{Descriptor as Read, Table};
use vm_memory::bitmap::{Bitmap, BS};
use vm_memory::{
    Bytes, GuestAddress, GuestMemory, GuestMemoryBackend, GuestMemoryRegion, Permissions, VolatileMemory, VolatileSlice,
};

use crate::desc::split::Descriptor;
use crate::desc::WRITE;
use crate::Error;

/// A region of the memory below, where that is not translated.
type Region<M> = <<M as GuestMemory>::PhysicalMemory as GuestMemoryBackend>::R;

/// The bytes of a region.
type Slice<'a, M> = VolatileSlice<'a, BS<'a, <Region<M> as GuestMemoryRegion>::B>>;

/// A region that was found, and where it begins.
struct Found<'a, M: GuestMemory + ?Sized + 'a> {
    bytes: Slice<'a, M>,
    start: u64,
}

impl<'a, M: GuestMemory + ?Sized> Found<'a, M> {
    /// Where in it an address is; where it is in another one, beyond its end.
    #[inline]
    fn place(&self, addr: u64) -> usize {
        addr.wrapping_sub(self.start) as usize
    }

    #[inline]
    fn load(&self, addr: u64, order: Ordering) -> Option<u16> {
        Some(self.bytes.get_atomic_ref::<AtomicU16>(self.place(addr)).ok()?.load(order))
    }

    #[inline]
    fn store(&self, addr: u64, value: u16, order: Ordering) -> Option<()> {
        self.bytes.get_atomic_ref::<AtomicU16>(self.place(addr)).ok()?.store(value, order);
        self.bytes.bitmap().mark_dirty(self.place(addr), 2);
        Some(())
    }

    #[inline]
    fn write(&self, addr: u64, halves: [u32; 2]) -> Option<()> {
        self.bytes.get_ref::<[u32; 2]>(self.place(addr)).ok()?.store(halves);
        Some(())
    }

    #[inline]
    fn read(&self, addr: u64) -> Option<[u64; 2]> {
        Some(self.bytes.get_ref(self.place(addr)).ok()?.load())
    }
}

/// Whether so many bytes lie in a region.
#[inline]
fn is_in(addr: u64, len: u64, start: u64, size: u64) -> bool {
    let into = addr.wrapping_sub(start);
    into < size && len <= size - into
}

/// The region that an address lies in; none where that is in none, or an IOMMU is to be asked.
#[inline(never)]
fn search<M: GuestMemory + ?Sized>(mem: &M, addr: u64) -> Option<Found<'_, M>> {
    let (region, into) = mem.physical_memory()?.to_region_addr(GuestAddress(addr))?;
    let bytes = region.as_volatile_slice().ok()?;
    Some(Found { bytes, start: addr - into.0 })
}

pub(crate) struct Near<'a, M: GuestMemory + ?Sized> {
    mem: &'a M,
    /// The region in which a part of a ring, or of a table, was found last.
    ring: Option<Found<'a, M>>,
    /// Where the region begins in which a buffer was found last, and its size.
    buffers: (u64, u64),
}

impl<'a, M: GuestMemory + ?Sized> Near<'a, M> {
    #[inline]
    pub(crate) fn of(mem: &'a M) -> Self {
        Near { mem, ring: None, buffers: (0, 0) }
    }

    /// What is done with the region that an address lies in, of which that was found last is tried first; None: it can't be done in one.
    #[inline(always)]
    fn at<T>(&mut self, addr: u64, access: impl Fn(&Found<'a, M>) -> Option<T>) -> Option<T> {
        if let Some(done) = self.ring.as_ref().and_then(&access) {
            return Some(done);
        }
        self.ring = search(self.mem, addr);
        self.ring.as_ref().and_then(&access)
    }

    /// Whether the buffer of a descriptor may be accessed as that says.
    #[inline]
    pub(crate) fn has(&mut self, it: &Descriptor) -> bool {
        let (addr, len) = (it.addr().0, u64::from(it.len()));
        let is_near = self.ring.as_ref().is_some_and(|ring| is_in(addr, len, ring.start, ring.bytes.len() as u64));
        is_near || is_in(addr, len, self.buffers.0, self.buffers.1) || self.has_far(it)
    }

    #[inline(never)]
    fn has_far(&mut self, it: &Descriptor) -> bool {
        let found = self.mem.physical_memory().and_then(|memory| memory.to_region_addr(it.addr()));
        if let Some((region, into)) = found {
            self.buffers = (it.addr().0 - into.0, region.len());
            if u64::from(it.len()) <= region.len() - into.0 {
                return true;
            }
        }
        let access = if it.flags() & WRITE != 0 { Permissions::Write } else { Permissions::Read };
        self.mem.check_range(it.addr(), it.len() as usize, access)
    }

    /// Two bytes of a ring.
    #[inline(always)]
    pub(crate) fn load(&mut self, addr: u64, order: Ordering) -> Result<u16, Error> {
        let loaded = match self.at(addr, |found| found.load(addr, order)) {
            Some(loaded) => loaded,
            None => self.mem.load(GuestAddress(addr), order).map_err(Error::GuestMemory)?,
        };
        Ok(u16::from_le(loaded))
    }

    #[inline]
    pub(crate) fn store(&mut self, addr: u64, value: u16, order: Ordering) -> Result<(), Error> {
        let value = value.to_le();
        match self.at(addr, |found| found.store(addr, value, order)) {
            Some(()) => Ok(()),
            None => self.mem.store(value, GuestAddress(addr), order).map_err(Error::GuestMemory),
        }
    }

    /// An entry of the used ring: two numbers of 32 bits.
    #[inline]
    pub(crate) fn write(&mut self, addr: u64, entry: u64) -> Result<(), Error> {
        let halves = [entry as u32, (entry >> 32) as u32].map(u32::to_le);
        match self.at(addr, |found| found.write(addr, halves)) {
            Some(()) => Ok(()),
            None => self.mem.write_obj(halves, GuestAddress(addr)).map_err(Error::GuestMemory),
        }
    }

    /// A descriptor of a table.
    #[inline]
    pub(crate) fn read(&mut self, table: Table, index: u16) -> Result<Read, Error> {
        let addr = table.descriptor_addr(index);
        let words = match self.at(addr, |found| found.read(addr)) {
            Some(words) => words,
            None => self.mem.read_obj(GuestAddress(addr)).map_err(Error::GuestMemory)?,
        };
        let [addr, rest] = words.map(u64::from_le);
        Ok(Read { addr, len: rest as u32, flags: (rest >> 32) as u16, next: (rest >> 48) as u16 })
    }
}
