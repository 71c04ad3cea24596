// SPDX-License-Identifier: Apache-2.0
//! What a split queue has in memory: descriptors, and entries of the used ring.
use vm_memory::{ByteValued, GuestAddress, Le16, Le32, Le64};

use super::{INDIRECT, NEXT, WRITE};

/// A descriptor of a split queue (virtio 1.2, 2.7.5).
#[repr(C)]
#[derive(Clone, Copy, Debug, Default)]
pub struct Descriptor {
    addr: Le64,
    len: Le32,
    flags: Le16,
    next: Le16,
}

#[allow(clippy::len_without_is_empty)]
impl Descriptor {
    /// A descriptor of this buffer, with these flags and the index of the next one.
    pub fn new(addr: u64, len: u32, flags: u16, next: u16) -> Self {
        Descriptor { addr: addr.into(), len: len.into(), flags: flags.into(), next: next.into() }
    }

    /// Where its buffer is.
    pub fn addr(&self) -> GuestAddress {
        GuestAddress(self.addr.into())
    }

    /// How many bytes its buffer has.
    pub fn len(&self) -> u32 {
        self.len.into()
    }

    /// Its flags.
    pub fn flags(&self) -> u16 {
        self.flags.into()
    }

    /// The index of the next one, which is of a meaning where there is one.
    pub fn next(&self) -> u16 {
        self.next.into()
    }

    /// Whether its buffer is an indirect table.
    pub fn refers_to_indirect_table(&self) -> bool {
        self.flags() & INDIRECT != 0
    }

    /// Whether another one follows.
    pub fn has_next(&self) -> bool {
        self.flags() & NEXT != 0
    }

    /// Whether the device writes its buffer, and does not read it.
    pub fn is_write_only(&self) -> bool {
        self.flags() & WRITE != 0
    }
}

#[cfg(any(test, feature = "test-utils"))]
impl Descriptor {
    /// Its buffer is there.
    pub fn set_addr(&mut self, addr: u64) {
        self.addr = addr.into();
    }

    /// Its buffer has so many bytes.
    pub fn set_len(&mut self, len: u32) {
        self.len = len.into();
    }

    /// It has these flags.
    pub fn set_flags(&mut self, flags: u16) {
        self.flags = flags.into();
    }

    /// The next one has this index.
    pub fn set_next(&mut self, next: u16) {
        self.next = next.into();
    }
}

// SAFETY: it has no padding, and any bytes are one.
unsafe impl ByteValued for Descriptor {}

/// An entry of the used ring (virtio 1.2, 2.7.8).
#[repr(C)]
#[derive(Clone, Copy, Debug, Default)]
pub struct VirtqUsedElem {
    id: Le32,
    len: Le32,
}

#[cfg(any(test, feature = "test-utils"))]
#[allow(clippy::len_without_is_empty)]
impl VirtqUsedElem {
    /// The head of the chain that was used.
    pub fn id(&self) -> u32 {
        self.id.into()
    }

    /// How many bytes of it were written.
    pub fn len(&self) -> u32 {
        self.len.into()
    }
}

// SAFETY: it has no padding, and any bytes are one.
unsafe impl ByteValued for VirtqUsedElem {}
