// SPDX-License-Identifier: Apache-2.0
//! The bytes of a chain's buffers, one behind the other.
use std::io::{self, Read, Write};
use std::ops::Deref;

use vm_memory::bitmap::{BitmapSlice, WithBitmapSlice};
use vm_memory::{ByteValued, GuestMemory, Permissions, VolatileSlice};

use crate::desc::split::Descriptor;
use crate::{DescriptorChain, Error};

/// Slices of guest memory, of which those before `first` are done, and no other is empty.
#[derive(Clone)]
struct Slices<'a, B> {
    list: Vec<VolatileSlice<'a, B>>,
    first: usize,
    done: usize,
}

impl<'a, B: BitmapSlice> Slices<'a, B> {
    /// Those of the buffers of these descriptors. FindMemoryRegion, GuestMemoryError: one does not lie in memory. DescriptorChainOverflow.
    fn of<M>(mem: &'a M, descriptors: impl Iterator<Item = Descriptor>, access: Permissions) -> Result<Self, Error>
    where
        M: GuestMemory,
        M::Bitmap: WithBitmapSlice<'a, S = B>,
    {
        let (mut list, mut total) = (Vec::new(), 0usize);
        for it in descriptors {
            let len = it.len() as usize;
            total = total.checked_add(len).ok_or(Error::DescriptorChainOverflow)?;
            for slice in mem.get_slices(it.addr(), len, access).map_err(Error::GuestMemoryError)? {
                list.push(slice.map_err(|_| Error::FindMemoryRegion)?);
            }
        }
        Ok(Slices { list, first: 0, done: 0 })
    }

    fn left(&self) -> usize {
        self.list[self.first..].iter().map(VolatileSlice::len).fold(0, usize::saturating_add)
    }

    /// Goes on by at most so many bytes: `copy` does a slice of them, behind those that are done.
    fn go(&mut self, most: usize, mut copy: impl FnMut(&VolatileSlice<'a, B>, usize)) -> io::Result<usize> {
        let mut gone = 0;
        while gone < most && self.first < self.list.len() {
            let slice = &self.list[self.first];
            let part = slice.len().min(most - gone);
            copy(&slice.subslice(0, part).map_err(io::Error::other)?, gone);
            if part == slice.len() {
                self.first += 1;
            } else {
                self.list[self.first] = slice.offset(part).map_err(io::Error::other)?;
            }
            gone += part;
        }
        self.done += gone;
        Ok(gone)
    }

    /// Keeps so many of the bytes that are left, and gives the others. SplitOutOfBounds: there are fewer.
    fn split_at(&mut self, offset: usize) -> Result<Self, Error> {
        let (mut at, mut left) = (self.first, offset);
        while at < self.list.len() && self.list[at].len() <= left {
            left -= self.list[at].len();
            at += 1;
        }
        let mut rest = Slices { list: self.list[at..].to_vec(), first: 0, done: 0 };
        let mut kept = at;
        if left != 0 {
            let (head, tail) = match self.list.get(at) {
                None => return Err(Error::SplitOutOfBounds(offset)),
                Some(slice) => slice.split_at(left).map_err(Error::VolatileMemoryError)?,
            };
            (self.list[at], rest.list[0], kept) = (head, tail, at + 1);
        }
        self.list.truncate(kept);
        Ok(rest)
    }
}

/// Reads the buffers of a chain that a device is to read, in order, as [`io::Read`].
#[derive(Clone)]
pub struct Reader<'a, B = ()> {
    slices: Slices<'a, B>,
}

impl<'a, B: BitmapSlice> Reader<'a, B> {
    /// Of those descriptors of the chain that follow. FindMemoryRegion, GuestMemoryError: a buffer does not lie in memory.
    /// DescriptorChainOverflow: they have too many bytes.
    pub fn new<M, T>(mem: &'a M, desc_chain: DescriptorChain<T>) -> Result<Reader<'a, B>, Error>
    where
        M: GuestMemory,
        <M as GuestMemory>::Bitmap: WithBitmapSlice<'a, S = B>,
        T: Deref,
        T::Target: GuestMemory + Sized,
    {
        Ok(Reader { slices: Slices::of(mem, desc_chain.readable(), Permissions::Read)? })
    }

    /// Reads an object. UnexpectedEof: fewer bytes are left, which are read.
    pub fn read_obj<T: ByteValued>(&mut self) -> io::Result<T> {
        let mut object = T::zeroed();
        self.read_exact(object.as_mut_slice())?;
        Ok(object)
    }

    /// How many bytes are left.
    pub fn available_bytes(&self) -> usize {
        self.slices.left()
    }

    /// How many bytes were read.
    pub fn bytes_read(&self) -> usize {
        self.slices.done
    }

    /// Keeps so many of the bytes that are left, and gives the others. SplitOutOfBounds: there are fewer.
    pub fn split_at(&mut self, offset: usize) -> Result<Reader<'a, B>, Error> {
        Ok(Reader { slices: self.slices.split_at(offset)? })
    }
}

impl<B: BitmapSlice> Read for Reader<'_, B> {
    fn read(&mut self, buf: &mut [u8]) -> io::Result<usize> {
        self.slices.go(buf.len(), |slice, at| {
            slice.copy_to(&mut buf[at..]);
        })
    }
}

/// Writes the buffers of a chain that a device is to write, in order, as [`io::Write`].
#[derive(Clone)]
pub struct Writer<'a, B = ()> {
    slices: Slices<'a, B>,
}

impl<'a, B: BitmapSlice> Writer<'a, B> {
    /// Of those descriptors of the chain that follow. Errors are those of [`Reader::new`].
    pub fn new<M, T>(mem: &'a M, desc_chain: DescriptorChain<T>) -> Result<Writer<'a, B>, Error>
    where
        M: GuestMemory,
        <M as GuestMemory>::Bitmap: WithBitmapSlice<'a, S = B>,
        T: Deref,
        T::Target: GuestMemory + Sized,
    {
        Ok(Writer { slices: Slices::of(mem, desc_chain.writable(), Permissions::Write)? })
    }

    /// Writes an object. WriteZero: fewer bytes are left, which are written.
    pub fn write_obj<T: ByteValued>(&mut self, val: T) -> io::Result<()> {
        self.write_all(val.as_slice())
    }

    /// How many bytes are left.
    pub fn available_bytes(&self) -> usize {
        self.slices.left()
    }

    /// How many bytes were written.
    pub fn bytes_written(&self) -> usize {
        self.slices.done
    }

    /// Keeps so many of the bytes that are left, and gives the others. SplitOutOfBounds: there are fewer.
    pub fn split_at(&mut self, offset: usize) -> Result<Writer<'a, B>, Error> {
        Ok(Writer { slices: self.slices.split_at(offset)? })
    }
}

impl<B: BitmapSlice> Write for Writer<'_, B> {
    fn write(&mut self, buf: &[u8]) -> io::Result<usize> {
        self.slices.go(buf.len(), |slice, at| slice.copy_from(&buf[at..]))
    }

    fn flush(&mut self) -> io::Result<()> {
        Ok(())
    }
}
