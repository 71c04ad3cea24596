// SPDX-License-Identifier: Apache-2.0
//! A request of the guest, as its descriptors have it.
use std::{fmt, io};

use super::VolatileSlice;
use crate::foreign::{Chain, Slices};

/// A request of the guest: parts that are to be read, and then parts that are to be written. The memory that they lie in stays mapped as
/// long as it is there. The guest can change its bytes meanwhile: what is checked is copied before.
///
/// As [`io::Read`] it copies from the beginning of what is to be read, and takes that off; as [`io::Write`] to the beginning of what is to
/// be written. Neither fails, but each comes to an end.
pub struct DescriptorChain {
    slices: Slices,
    readable: usize,
    pub(super) written: Vec<(u64, u64)>,
    pub(super) id: u16,
    is_again: bool,
}

impl DescriptorChain {
    pub(super) fn of(chain: Chain, id: u16, is_again: bool) -> DescriptorChain {
        DescriptorChain { slices: chain.slices, readable: chain.readable, written: chain.written, id, is_again }
    }

    /// The head of a split queue's chain, or the id of a packed one's.
    pub fn head_index(&self) -> u16 {
        self.id
    }

    /// How many parts it has.
    pub(crate) fn parts(&self) -> usize {
        self.slices.count()
    }

    /// The parts that are to be read. None is empty but where its bytes were taken off.
    pub fn readable(&self) -> &[VolatileSlice<'_>] {
        &self.slices.list()[..self.readable]
    }

    /// The parts that are to be written, likewise.
    pub fn writable(&self) -> &[VolatileSlice<'_>] {
        &self.slices.list()[self.readable..]
    }

    /// How many bytes are left to be read.
    pub fn readable_len(&self) -> u64 {
        self.readable().iter().map(|part| part.len() as u64).sum()
    }

    /// How many bytes are left to be written.
    pub fn writable_len(&self) -> u64 {
        self.writable().iter().map(|part| part.len() as u64).sum()
    }

    /// Whether a device before took it, and did not give it back: it may have been done, or a part of it.
    pub fn is_again(&self) -> bool {
        self.is_again
    }

    /// Whether memory was taken away: what was read may be zeros that nobody wrote.
    pub fn is_lost(&self) -> bool {
        self.slices.are_lost()
    }

    /// Goes through the parts from `first` to `end` until so many bytes are done: how many are. `copy` does a part of them, from a place on.
    fn go(&mut self, first: usize, end: usize, len: usize, mut copy: impl FnMut(&VolatileSlice<'_>, usize) -> usize) -> usize {
        let mut done = 0;
        for at in first..end {
            if done == len {
                break;
            }
            let count = copy(&self.slices.list()[at], done);
            self.slices.take_off(at, count);
            done += count;
        }
        done
    }
}

impl fmt::Debug for DescriptorChain {
    fn fmt(&self, f: &mut fmt::Formatter<'_>) -> fmt::Result {
        let (readable, writable) = (self.readable_len(), self.writable_len());
        let mut all = f.debug_struct("DescriptorChain");
        all.field("head_index", &self.id).field("readable_len", &readable).field("writable_len", &writable);
        all.field("is_again", &self.is_again).finish_non_exhaustive()
    }
}

impl io::Read for DescriptorChain {
    fn read(&mut self, bytes: &mut [u8]) -> io::Result<usize> {
        Ok(self.go(0, self.readable, bytes.len(), |part, done| part.copy_to(&mut bytes[done..])))
    }
}

impl io::Write for DescriptorChain {
    fn write(&mut self, bytes: &[u8]) -> io::Result<usize> {
        Ok(self.go(self.readable, self.slices.count(), bytes.len(), |part, done| part.copy_from(&bytes[done..])))
    }

    fn flush(&mut self) -> io::Result<()> {
        Ok(())
    }
}
