// SPDX-License-Identifier: Apache-2.0
//! A split queue without memory, for whoever has a kind of guest memory of his own: `rust/virtio-queue` reads it through `vm-memory`.
//!
//! The proved core takes all addresses for one region. So what it promises is a queue's structure: a chain ends, its descriptors lie in their
//! tables, no head is handed out twice, what is written into the used ring has its place. That a buffer lies in guest memory, and where that
//! is mapped, is its owner's to check.
//!
//! ```
//! use covretin::queue::bare::{Descriptor, Rings, SplitQueue};
//!
//! // A guest with one chain: descriptor 2 names eight bytes at 0x5000.
//! let mut queue = SplitQueue::new()?;
//! queue.start(&Rings { desc_table: 0x1000, avail_ring: 0x2000, used_ring: 0x3000, size: 4, ..Rings::default() })?;
//! assert_eq!(1, queue.available(1)?); // of the index, at 0x2002, one was read
//! assert_eq!(0x2004, queue.head_addr()?);
//! let (mut read, mut parts) = (vec![], vec![]);
//! queue.take(
//!     2, // which was read there
//!     |table, index| {
//!         read.push(table.descriptor_addr(index));
//!         Some(Descriptor { addr: 0x5000, len: 8, flags: 2, next: 0 })
//!     },
//!     |part| parts.push(*part),
//! )?;
//! assert_eq!((vec![0x1020], 0x5000), (read, parts[0].addr));
//! let used = queue.add_used(2, 8)?;
//! assert_eq!((0x3004, 2 | 8 << 32, 0x3002, 1), (used.elem_addr, used.elem, used.idx_addr, used.idx));
//! # Ok::<(), covretin::queue::Error>(())
//! ```
pub use crate::foreign::SplitQueue;

/// Where a queue lies for the guest, what was negotiated, and where it begins.
#[derive(Clone, Copy, Debug, Default, PartialEq, Eq)]
pub struct Rings {
    /// Where the descriptor table is: a multiple of 16.
    pub desc_table: u64,
    /// Where the available ring is: a multiple of 2.
    pub avail_ring: u64,
    /// Where the used ring is: a multiple of 4.
    pub used_ring: u64,
    /// How many descriptors it has: a power of two, at most 32768.
    pub size: u16,
    /// The entry of the available ring that is next: the base of the ring.
    pub next_avail: u16,
    /// The entry of the used ring that is next: its index, as it is in memory.
    pub next_used: u16,
    /// VIRTIO_F_EVENT_IDX.
    pub event_idx: bool,
    /// VIRTIO_F_INDIRECT_DESC.
    pub indirect_desc: bool,
}

/// A table of descriptors: the queue's own, or an indirect one.
#[derive(Clone, Copy, Debug, PartialEq, Eq)]
pub struct Table {
    /// Where it is.
    pub addr: u64,
    /// How many bytes it has, 16 a descriptor.
    pub len: u64,
}

impl Table {
    /// Where the descriptor of an index is.
    pub fn descriptor_addr(&self, index: u16) -> u64 {
        self.addr + 16 * u64::from(index)
    }
}

/// A descriptor (virtio 1.2, 2.7.5): where its buffer is, how long that is, its flags, and the next one's index.
#[derive(Clone, Copy, Debug, Default, PartialEq, Eq)]
pub struct Descriptor {
    /// Where the guest has its buffer.
    pub addr: u64,
    /// How many bytes that has.
    pub len: u32,
    /// VIRTQ_DESC_F_NEXT, VIRTQ_DESC_F_WRITE, VIRTQ_DESC_F_INDIRECT.
    pub flags: u16,
    /// The index of the next one.
    pub next: u16,
}

/// What is to be written once a chain was used: first `elem`, eight bytes, and then, by a releasing write, `idx`, two. Both little-endian.
#[derive(Clone, Copy, Debug, PartialEq, Eq)]
pub struct Used {
    /// Where the entry of the used ring is.
    pub elem_addr: u64,
    /// The head, and the length above it.
    pub elem: u64,
    /// Where the index of the used ring is.
    pub idx_addr: u64,
    /// The index.
    pub idx: u16,
}
