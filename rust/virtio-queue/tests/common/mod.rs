// SPDX-License-Identifier: Apache-2.0
//! A driver's side of a queue of 16, by hand: its descriptors, and its available ring.
#![allow(dead_code)]
use std::num::Wrapping;
use std::sync::atomic::Ordering;

use virtio_queue::desc::split::Descriptor;
use virtio_queue::{DescriptorChain, Queue, QueueT};
use vm_memory::{Bytes, GuestAddress, GuestMemory, GuestMemoryMmap};

pub const DESC: u64 = 0x1000;
pub const AVAIL: u64 = 0x2000;
pub const USED: u64 = 0x3000;
/// Where an indirect table is.
pub const TABLE: u64 = 0x4000;
/// Where a buffer may be.
pub const BUFFER: u64 = 0x5000;
pub const SIZE: u16 = 16;

pub const NEXT: u16 = 1;
pub const WRITE: u16 = 2;
pub const INDIRECT: u16 = 4;

pub type Memory = GuestMemoryMmap<()>;

/// Two regions that adjoin, and one apart.
pub fn memory() -> Memory {
    Memory::from_ranges(&[(GuestAddress(0), 0x10000), (GuestAddress(0x10000), 0x10000), (GuestAddress(0x40000), 0x10000)])
        .unwrap()
}

/// A queue there, which is ready.
pub fn queue() -> Queue {
    let mut queue = Queue::new(SIZE).unwrap();
    place(&mut queue);
    queue.set_ready(true);
    queue
}

pub fn place(queue: &mut impl QueueT) {
    queue.set_desc_table_address(Some(DESC as u32), Some(0));
    queue.set_avail_ring_address(Some(AVAIL as u32), Some(0));
    queue.set_used_ring_address(Some(USED as u32), Some(0));
}

/// Writes a descriptor of a table.
pub fn describe(mem: &impl GuestMemory, table: u64, index: u16, (addr, len, flags, next): (u64, u32, u16, u16)) {
    mem.write_obj(Descriptor::new(addr, len, flags, next), GuestAddress(table + 16 * u64::from(index))).unwrap();
}

pub fn put16(mem: &impl GuestMemory, at: u64, value: u16) {
    mem.write_obj(value.to_le(), GuestAddress(at)).unwrap();
}

pub fn get16(mem: &impl GuestMemory, at: u64) -> u16 {
    u16::from_le(mem.read_obj(GuestAddress(at)).unwrap())
}

/// Makes these heads available.
pub fn offer(mem: &impl GuestMemory, heads: &[u16]) {
    let mut idx = get16(mem, AVAIL + 2);
    for head in heads {
        put16(mem, AVAIL + 4 + 2 * u64::from(idx % SIZE), *head);
        idx = idx.wrapping_add(1);
    }
    put16(mem, AVAIL + 2, idx);
}

/// Where the buffers of a chain are, and how long.
pub fn parts<M>(chain: DescriptorChain<M>) -> Vec<(u64, u32)>
where
    DescriptorChain<M>: Iterator<Item = Descriptor>,
{
    chain.map(|it| (it.addr().0, it.len())).collect()
}

/// An entry of the used ring, and its index.
pub fn used(mem: &Memory, queue: &Queue, at: u64) -> (u32, u32, u16) {
    let word = |at| u32::from_le(mem.read_obj(GuestAddress(at)).unwrap());
    let Wrapping(idx) = queue.used_idx(mem, Ordering::Acquire).unwrap();
    (word(USED + 4 + 8 * at), word(USED + 8 + 8 * at), idx)
}
