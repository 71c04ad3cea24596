// SPDX-License-Identifier: Apache-2.0
//! What a packed queue has in memory. This package serves none, as the crate does not: these are the records alone.
use vm_memory::{ByteValued, GuestAddress, Le16, Le32, Le64};

use super::{INDIRECT, NEXT, WRITE};

/// A descriptor of a packed queue (virtio 1.2, 2.8).
#[repr(C)]
#[derive(Clone, Copy, Debug, Default)]
pub struct Descriptor {
    addr: Le64,
    len: Le32,
    id: Le16,
    flags: Le16,
}

#[allow(clippy::len_without_is_empty)]
impl Descriptor {
    /// A descriptor of this buffer, with the id of its chain and these flags.
    pub fn new(addr: u64, len: u32, id: u16, flags: u16) -> Self {
        Descriptor { addr: addr.into(), len: len.into(), id: id.into(), flags: flags.into() }
    }

    /// Where its buffer is.
    pub fn addr(&self) -> GuestAddress {
        GuestAddress(self.addr.into())
    }

    /// How many bytes its buffer has.
    pub fn len(&self) -> u32 {
        self.len.into()
    }

    /// The id of its chain.
    pub fn id(&self) -> u16 {
        self.id.into()
    }

    /// Its flags.
    pub fn flags(&self) -> u16 {
        self.flags.into()
    }

    /// Whether its buffer is an indirect table.
    pub fn refers_to_indirect_table(&self) -> bool {
        self.flags() & INDIRECT != 0
    }

    /// Whether another one follows.
    pub fn has_next(&self) -> bool {
        self.flags() & NEXT != 0
    }

    /// Whether the device writes its buffer, and does not read it.
    pub fn is_write_only(&self) -> bool {
        self.flags() & WRITE != 0
    }

    /// Its buffer is there.
    pub fn set_addr(&mut self, addr: u64) {
        self.addr = addr.into();
    }

    /// Its buffer has so many bytes.
    pub fn set_len(&mut self, len: u32) {
        self.len = len.into();
    }

    /// Its chain has this id.
    pub fn set_id(&mut self, id: u16) {
        self.id = id.into();
    }

    /// It has these flags.
    pub fn set_flags(&mut self, flags: u16) {
        self.flags = flags.into();
    }
}

// SAFETY: it has no padding, and any bytes are one.
unsafe impl ByteValued for Descriptor {}

/// When a side wants to be told (virtio 1.2, 2.8.14): a place of the ring with its wrap counter, and flags.
#[repr(C)]
#[derive(Clone, Copy, Debug)]
pub struct PackedDescEvent {
    _off_wrap: Le16,
    _flags: Le16,
}

// SAFETY: it has no padding, and any bytes are one.
unsafe impl ByteValued for PackedDescEvent {}
