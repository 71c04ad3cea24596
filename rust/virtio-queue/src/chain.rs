// SPDX-License-Identifier: Apache-2.0
//! A chain of descriptors, as it was when it was taken from its queue.
use std::ops::Deref;
use std::sync::Arc;

use vm_memory::bitmap::{BitmapSlice, WithBitmapSlice};
use vm_memory::GuestMemory;

use crate::desc::split::Descriptor;
use crate::{Error, Reader, Writer};

/// How many descriptors need no allocation.
const FEW: usize = 8;

/// The descriptors of a chain: in itself, or where there are more, in an allocation that its clones share.
#[derive(Clone, Debug)]
pub(crate) struct Parts {
    few: [Descriptor; FEW],
    count: u16,
    many: Option<Arc<[Descriptor]>>,
}

impl Parts {
    #[inline]
    pub(crate) fn new() -> Parts {
        Parts { few: [Descriptor::default(); FEW], count: 0, many: None }
    }

    /// Has one more. Where there are more than few, all are kept in `more`, which is empty at first, until they are [sealed](Self::seal).
    #[inline]
    pub(crate) fn push(&mut self, it: Descriptor, more: &mut Vec<Descriptor>) {
        match self.few.get_mut(usize::from(self.count)) {
            Some(place) => {
                *place = it;
                self.count += 1;
            }
            None => self.push_more(it, more),
        }
    }

    #[inline(never)]
    fn push_more(&mut self, it: Descriptor, more: &mut Vec<Descriptor>) {
        if more.is_empty() {
            more.extend_from_slice(&self.few);
        }
        more.push(it);
    }

    /// It has all that were pushed.
    #[inline]
    pub(crate) fn seal(&mut self, more: &[Descriptor]) {
        if !more.is_empty() {
            self.many = Some(more.into());
        }
    }

    #[inline]
    pub(crate) fn list(&self) -> &[Descriptor] {
        match &self.many {
            Some(many) => many,
            None => &self.few[..usize::from(self.count)],
        }
    }
}

/// A chain of descriptors, which iterates over those that have buffers. It was read whole when it was taken from its queue: so it is what was
/// checked, whatever the driver writes since, and outlives the queue.
#[derive(Clone, Debug)]
pub struct DescriptorChain<M> {
    mem: M,
    head_index: u16,
    next: usize,
    parts: Parts,
}

impl<M> DescriptorChain<M>
where
    M: Deref,
    M::Target: GuestMemory,
{
    /// The chain that `take` reads of this memory, and whose head it answers.
    #[inline]
    pub(crate) fn of(mem: M, take: impl FnOnce(&M::Target, &mut Parts) -> Option<u16>) -> Option<Self> {
        // (it is made where the caller has it, and not moved there)
        let mut made = Some(DescriptorChain { mem, head_index: 0, next: 0, parts: Parts::new() });
        if let Some(chain) = &mut made {
            match take(chain.mem.deref(), &mut chain.parts) {
                Some(head) => chain.head_index = head,
                None => made = None,
            }
        }
        made
    }

    /// The index of its first descriptor, by which it is given back.
    pub fn head_index(&self) -> u16 {
        self.head_index
    }

    /// The memory that its buffers lie in.
    pub fn memory(&self) -> &M::Target {
        self.mem.deref()
    }

    /// Those of its descriptors that follow whose buffers the device reads.
    pub fn readable(self) -> DescriptorChainRwIter<M> {
        DescriptorChainRwIter { chain: self, writable: false }
    }

    /// Those whose buffers it writes.
    pub fn writable(self) -> DescriptorChainRwIter<M> {
        DescriptorChainRwIter { chain: self, writable: true }
    }

    /// Writes to the buffers that it is to write. Errors are those of [`Writer::new`].
    pub fn writer<'a, B: BitmapSlice>(self, mem: &'a M::Target) -> Result<Writer<'a, B>, Error>
    where
        M::Target: Sized,
        <M::Target as GuestMemory>::Bitmap: WithBitmapSlice<'a, S = B>,
    {
        Writer::new(mem, self)
    }

    /// Reads the buffers that it is to read. Errors are those of [`Reader::new`].
    pub fn reader<'a, B: BitmapSlice>(self, mem: &'a M::Target) -> Result<Reader<'a, B>, Error>
    where
        M::Target: Sized,
        <M::Target as GuestMemory>::Bitmap: WithBitmapSlice<'a, S = B>,
    {
        Reader::new(mem, self)
    }
}

impl<M> Iterator for DescriptorChain<M>
where
    M: Deref,
    M::Target: GuestMemory,
{
    type Item = Descriptor;

    #[inline]
    fn next(&mut self) -> Option<Descriptor> {
        let next = *self.parts.list().get(self.next)?;
        self.next += 1;
        Some(next)
    }
}

/// Those descriptors of a chain whose buffers the device reads, or those whose buffers it writes.
#[derive(Clone, Debug)]
pub struct DescriptorChainRwIter<M> {
    chain: DescriptorChain<M>,
    writable: bool,
}

impl<M> Iterator for DescriptorChainRwIter<M>
where
    M: Deref,
    M::Target: GuestMemory,
{
    type Item = Descriptor;

    fn next(&mut self) -> Option<Descriptor> {
        let writable = self.writable;
        self.chain.find(|it| it.is_write_only() == writable)
    }
}
