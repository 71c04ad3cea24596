// SPDX-License-Identifier: Apache-2.0
//! The parts of a request as streams of bytes.
use std::io;
#[cfg(feature = "vm-memory")]
use std::mem::{align_of, size_of};

use super::{DescriptorChain, Error, Result, VolatileSlice};
#[cfg(feature = "vm-memory")]
use vm_memory::ByteValued;

/// Parts of guest memory, of which those that were gone through are taken off.
#[derive(Clone, Debug)]
struct Parts<'a> {
    list: Vec<VolatileSlice<'a>>,
    done: usize,
}

impl<'a> Parts<'a> {
    fn of(parts: &[VolatileSlice<'a>]) -> Parts<'a> {
        Parts { list: parts.iter().filter(|part| !part.is_empty()).copied().collect(), done: 0 }
    }

    fn len(&self) -> usize {
        self.list.iter().map(|part| part.len()).fold(0, usize::saturating_add)
    }

    /// Goes through so many bytes: how many there are. `copy` does a part of them, from a place on.
    fn go(&mut self, len: usize, mut copy: impl FnMut(&VolatileSlice<'a>, usize) -> usize) -> usize {
        let (mut moved, mut whole) = (0, 0);
        for part in &mut self.list {
            let count = if moved == len { 0 } else { copy(part, moved) };
            moved += count;
            match part.offset(count) {
                Ok(rest) if !rest.is_empty() => {
                    *part = rest;
                    break;
                }
                _ => whole += 1,
            }
        }
        self.list.drain(..whole);
        self.done += moved;
        moved
    }

    /// Those from so many bytes on, which these end before.
    fn split_at(&mut self, offset: usize) -> Result<Parts<'a>> {
        let (mut first, mut rest, mut left) = (Vec::new(), Vec::new(), offset);
        for part in &self.list {
            let count = left.min(part.len());
            left -= count;
            first.extend((count != 0).then_some(part.subslice(0, count)?));
            rest.extend((count != part.len()).then_some(part.offset(count)?));
        }
        if left != 0 {
            return Err(Error::NotInGuest);
        }
        self.list = first;
        Ok(Parts { list: rest, done: 0 })
    }
}

/// What of a request is to be read, as a stream: [`DescriptorChain::reader`]. It takes nothing off the request.
///
/// As [`io::Read`] it does not fail, but comes to an end.
#[derive(Clone, Debug)]
pub struct Reader<'a>(Parts<'a>);

impl<'a> Reader<'a> {
    /// How many bytes are left.
    pub fn available_bytes(&self) -> usize {
        self.0.len()
    }

    /// How many bytes were read.
    pub fn bytes_read(&self) -> usize {
        self.0.done
    }

    /// The parts that are left, as for [`VolatileSlice::write_all_at`].
    pub fn parts(&self) -> &[VolatileSlice<'a>] {
        &self.0.list
    }

    /// It ends so many bytes from here, and another begins there. NotInGuest: it has not so many; nothing changed.
    pub fn split_at(&mut self, offset: usize) -> Result<Reader<'a>> {
        self.0.split_at(offset).map(Reader)
    }

    /// Reads a value, whose bytes the guest may change meanwhile: it is a copy of them. UnexpectedEof: it has not so many, and those that it had are
    /// read.
    #[cfg(feature = "vm-memory")]
    pub fn read_obj<T: ByteValued>(&mut self) -> io::Result<T> {
        read_obj(self)
    }
}

impl io::Read for Reader<'_> {
    fn read(&mut self, bytes: &mut [u8]) -> io::Result<usize> {
        Ok(self.0.go(bytes.len(), |part, moved| part.copy_to(&mut bytes[moved..])))
    }
}

/// What of a request is to be written, as a stream: [`DescriptorChain::writer`]. It takes nothing off the request.
///
/// As [`io::Write`] it does not fail, but comes to an end.
#[derive(Clone, Debug)]
pub struct Writer<'a>(Parts<'a>);

impl<'a> Writer<'a> {
    /// How many bytes there is room for.
    pub fn available_bytes(&self) -> usize {
        self.0.len()
    }

    /// How many bytes were written.
    pub fn bytes_written(&self) -> usize {
        self.0.done
    }

    /// The parts that are left, as for [`VolatileSlice::read_exact_at`].
    pub fn parts(&self) -> &[VolatileSlice<'a>] {
        &self.0.list
    }

    /// It ends so many bytes from here, and another begins there, as that of a status. NotInGuest: it has not so many; nothing changed.
    pub fn split_at(&mut self, offset: usize) -> Result<Writer<'a>> {
        self.0.split_at(offset).map(Writer)
    }

    /// Writes a value. WriteZero: there is no room for all of it, and its first bytes are written.
    #[cfg(feature = "vm-memory")]
    pub fn write_obj<T: ByteValued>(&mut self, value: T) -> io::Result<()> {
        io::Write::write_all(self, value.as_slice())
    }
}

impl io::Write for Writer<'_> {
    fn write(&mut self, bytes: &[u8]) -> io::Result<usize> {
        Ok(self.0.go(bytes.len(), |part, moved| part.copy_from(&bytes[moved..])))
    }

    fn flush(&mut self) -> io::Result<()> {
        Ok(())
    }
}

/// A value of the bytes that come next.
#[cfg(feature = "vm-memory")]
fn read_obj<T: ByteValued>(from: &mut impl io::Read) -> io::Result<T> {
    // (room where its bytes are aligned as it is)
    let mut room = vec![0; size_of::<T>() + align_of::<T>()];
    let at = room.as_ptr().align_offset(align_of::<T>());
    let bytes = room.get_mut(at..).and_then(|rest| rest.get_mut(..size_of::<T>())).ok_or(io::ErrorKind::InvalidData)?;
    from.read_exact(bytes)?;
    T::from_slice(bytes).copied().ok_or_else(|| io::ErrorKind::InvalidData.into())
}

impl DescriptorChain {
    /// What is to be read, as a stream of its own. It is there beside a [`writer`](Self::writer), and takes nothing off the request.
    ///
    /// ```
    /// use covretin::device::Request;
    /// use std::io::Write;
    ///
    /// /// Answers by a number of 32 bits, and a status behind that: how many bytes were written.
    /// fn answer(request: &Request) -> std::io::Result<u32> {
    ///     let (mut reader, mut writer) = (request.reader(), request.writer());
    ///     let mut status = writer.split_at(4)?;
    ///     # #[cfg(feature = "vm-memory")]
    ///     let asked: u32 = reader.read_obj()?;
    ///     # #[cfg(feature = "vm-memory")]
    ///     writer.write_obj(asked + 1)?;
    ///     status.write_all(&[0])?;
    ///     Ok((writer.bytes_written() + status.bytes_written()) as u32)
    /// }
    /// ```
    pub fn reader(&self) -> Reader<'_> {
        Reader(Parts::of(self.readable()))
    }

    /// What is to be written, likewise.
    pub fn writer(&self) -> Writer<'_> {
        Writer(Parts::of(self.writable()))
    }

    /// Reads a value from the beginning of what is to be read, and takes it off. UnexpectedEof: there are not so many bytes; those that there were
    /// are taken off.
    #[cfg(feature = "vm-memory")]
    pub fn read_obj<T: ByteValued>(&mut self) -> io::Result<T> {
        read_obj(self)
    }

    /// Writes a value to the beginning of what is to be written, and takes that off. WriteZero: there is no room for all of it.
    #[cfg(feature = "vm-memory")]
    pub fn write_obj<T: ByteValued>(&mut self, value: T) -> io::Result<()> {
        io::Write::write_all(self, value.as_slice())
    }
}
