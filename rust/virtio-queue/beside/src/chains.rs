// SPDX-License-Identifier: Apache-2.0
//! What a chain costs: the programs `none`, `ours` and `theirs`, for `scripts/costs/chains.py`. A chain is popped, each of its buffers is found in
//! guest memory, and it is given back; 32 in a row, after which it is asked whether the driver is to be told.
use std::hint::black_box;
use std::time::Instant;

use vm_memory::{Bytes, GuestAddress, GuestMemoryMmap};

use crate::{Memory, INDIRECT, NEXT, WRITE};

const REGION: u64 = 4 << 20;
const AVAIL: u64 = 0x8_0000;
const USED: u64 = 0xa_0000;
const TABLES: u64 = 0x10_0000;
const BUFFERS: u64 = 0x20_0000;
/// How many chains are made available at once, at most.
const ROW: usize = 32;

/// A shape of chain: how many descriptors it has, where, whether there are event indexes, and of how many regions and descriptors.
pub struct Shape {
    length: usize,
    is_indirect: bool,
    pub has_event_idx: bool,
    regions: usize,
    pub size: u16,
}

/// Where the parts of the queue are.
pub const PLACES: [u64; 3] = [0, AVAIL, USED];

/// What serves a queue of such chains: how many parts so many chains had.
pub trait Device {
    fn new(shape: &Shape) -> Self;
    fn serve(&mut self, memory: &Memory, chains: usize) -> usize;
}

fn region(number: usize) -> u64 {
    number as u64 * 2 * REGION
}

/// Guest memory with as many chains as the queue has room for, each of the queue's available entries being the head of one.
fn memory(shape: &Shape) -> (Memory, usize) {
    let ranges: Vec<_> = (0..shape.regions).map(|at| (GuestAddress(region(at)), REGION as usize)).collect();
    let memory: Memory = GuestMemoryMmap::from_ranges(&ranges).unwrap();
    let put = |at: u64, (addr, len, flags, next): (u64, u32, u16, u16)| {
        let bytes = [&addr.to_le_bytes()[..], &len.to_le_bytes(), &flags.to_le_bytes(), &next.to_le_bytes()].concat();
        memory.write_slice(&bytes, GuestAddress(at)).unwrap();
    };
    let in_ring = if shape.is_indirect { 1 } else { shape.length };
    let chains = usize::from(shape.size) / in_ring;
    for chain in 0..chains {
        let head = chain * in_ring;
        let (table, first) = if shape.is_indirect { (TABLES + 512 * chain as u64 % BUFFERS, 0) } else { (0, head) };
        for part in 0..shape.length {
            let addr = region((chain * 7 + part * 13) % shape.regions)
                + BUFFERS
                + 0x1000 * (chain % 32) as u64
                + 0x200 * (part % 8) as u64;
            let flags = if part + 1 < shape.length { NEXT } else { 0 } | if part > 0 { WRITE } else { 0 };
            put(table + 16 * (first + part) as u64, (addr, 0x200, flags, (first + part + 1) as u16));
        }
        if shape.is_indirect {
            put(16 * head as u64, (table, 16 * shape.length as u32, INDIRECT, 0));
        }
    }
    for entry in 0..usize::from(shape.size) {
        let head = (entry % chains * in_ring) as u16;
        memory.write_obj(head.to_le(), GuestAddress(AVAIL + 4 + 2 * entry as u64)).unwrap();
    }
    (memory, chains)
}

/// Serves so many chains of a shape: nanoseconds a chain.
fn measure<D: Device>(shape: &Shape, count: usize) -> f64 {
    let (memory, chains) = memory(shape);
    let (mut device, mut idx, mut done, mut parts) = (D::new(shape), 0u16, 0, 0);
    let row = ROW.min(chains);
    // (a whole number of times round the ring: the heads come in order)
    let count = count.div_ceil(row) * row;
    let begun = Instant::now();
    while done < count {
        idx = idx.wrapping_add(row as u16);
        if shape.has_event_idx {
            memory.write_obj(idx.wrapping_add(0x4000).to_le(), GuestAddress(AVAIL + 4 + 2 * u64::from(shape.size))).unwrap();
        }
        memory.store(idx.to_le(), GuestAddress(AVAIL + 2), std::sync::atomic::Ordering::Release).unwrap();
        parts += device.serve(&memory, row);
        done += row;
    }
    let took = begun.elapsed().as_nanos() as f64 / done as f64;
    assert!(parts == 0 || parts == done * shape.length, "{parts} parts of {done} chains");
    took
}

/// Measures what the arguments say: LENGTH direct|indirect event|flags REGIONS SIZE CHAINS.
pub fn run<D: Device>() {
    let words: Vec<String> = std::env::args().skip(1).collect();
    let [length, place, notified, regions, size, count] = &words[..] else {
        panic!("usage: LENGTH direct|indirect event|flags REGIONS SIZE CHAINS");
    };
    let shape = Shape {
        length: length.parse().unwrap(),
        is_indirect: place == "indirect",
        has_event_idx: notified == "event",
        regions: regions.parse().unwrap(),
        size: size.parse().unwrap(),
    };
    println!("{:.1}", measure::<D>(&shape, count.parse().unwrap()));
}

/// No device: what the driver alone takes.
pub struct Nothing;

impl Device for Nothing {
    fn new(_shape: &Shape) -> Self {
        Nothing
    }

    fn serve(&mut self, memory: &Memory, chains: usize) -> usize {
        black_box((memory, chains));
        0
    }
}

macro_rules! device {
    ($Name:ident, $package:ident) => {
        pub struct $Name($package::Queue);

        impl Device for $Name {
            fn new(shape: &Shape) -> Self {
                use $package::QueueT;
                let mut queue = $package::Queue::new(shape.size).unwrap();
                queue.set_desc_table_address(Some(PLACES[0] as u32), None);
                queue.set_avail_ring_address(Some(PLACES[1] as u32), None);
                queue.set_used_ring_address(Some(PLACES[2] as u32), None);
                queue.set_event_idx(shape.has_event_idx);
                queue.set_ready(true);
                $Name(queue)
            }

            fn serve(&mut self, memory: &Memory, chains: usize) -> usize {
                use vm_memory::GuestMemoryBackend;
                use $package::QueueT;
                let mut parts = 0;
                for _ in 0..chains {
                    let chain = self.0.pop_descriptor_chain(memory).unwrap();
                    let head = chain.head_index();
                    for part in chain {
                        black_box(
                            memory.get_slice(part.addr(), part.len() as usize).unwrap().len() + usize::from(part.is_write_only()),
                        );
                        parts += 1;
                    }
                    self.0.add_used(memory, head, 0x200).unwrap();
                }
                black_box(self.0.needs_notification(memory).unwrap());
                parts
            }
        }
    };
}

device!(Theirs, theirs);
device!(Ours, ours);
