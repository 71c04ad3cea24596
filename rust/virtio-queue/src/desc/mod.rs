// SPDX-License-Identifier: Apache-2.0
//! Descriptors of either layout, and the 16 bytes that both have in memory.
use vm_memory::{ByteValued, Le16, Le32, Le64};

pub mod packed;
pub mod split;

/// The flags of a descriptor: the chain goes on; the device writes; it names an indirect table.
pub(crate) const NEXT: u16 = 1;
pub(crate) const WRITE: u16 = 2;
pub(crate) const INDIRECT: u16 = 4;

/// A descriptor of either layout: its address, its length, and two numbers of 16 bits.
pub type Descriptor = RawDescriptor;

/// The 16 bytes of a descriptor, of which the layout says what the last four are.
#[repr(C)]
#[derive(Clone, Copy, Debug, Default)]
pub struct RawDescriptor(Le64, Le32, Le16, Le16);

// SAFETY: it has no padding, and any bytes are one.
unsafe impl ByteValued for RawDescriptor {}

impl From<split::Descriptor> for RawDescriptor {
    fn from(it: split::Descriptor) -> Self {
        RawDescriptor(it.addr().0.into(), it.len().into(), it.flags().into(), it.next().into())
    }
}

impl From<packed::Descriptor> for RawDescriptor {
    fn from(it: packed::Descriptor) -> Self {
        RawDescriptor(it.addr().0.into(), it.len().into(), it.id().into(), it.flags().into())
    }
}

impl From<RawDescriptor> for split::Descriptor {
    fn from(it: RawDescriptor) -> Self {
        split::Descriptor::new(it.0.into(), it.1.into(), it.2.into(), it.3.into())
    }
}

impl From<RawDescriptor> for packed::Descriptor {
    fn from(it: RawDescriptor) -> Self {
        packed::Descriptor::new(it.0.into(), it.1.into(), it.2.into(), it.3.into())
    }
}
