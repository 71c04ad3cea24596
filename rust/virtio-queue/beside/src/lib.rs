// SPDX-License-Identifier: Apache-2.0
//! A queue of the crate, and one of this package, each with a guest's memory of its own, to which the same is done.
use vm_memory::{Bytes, GuestAddress, GuestMemoryMmap};

pub mod chains;

pub const DESC: u64 = 0x1000;
pub const AVAIL: u64 = 0x2000;
pub const USED: u64 = 0x3000;
/// Where indirect tables are, one for each descriptor of the queue.
pub const TABLES: u64 = 0x4000;
/// Where buffers are.
pub const BUFFERS: u64 = 0x8000;
/// Where memory ends.
pub const END: u64 = 0x18000;
pub const SIZE: u16 = 16;

pub const NEXT: u16 = 1;
pub const WRITE: u16 = 2;
pub const INDIRECT: u16 = 4;

pub type Memory = GuestMemoryMmap<()>;

/// A chain: its head, and of each part the address, the length, and whether it is to be written.
pub type Chain = (u16, Vec<(u64, u32, bool)>);

/// How chains are taken.
#[derive(Clone, Copy, Debug)]
pub enum Take {
    One,
    All,
    Two,
    /// One, which is taken back, and once more.
    Again,
}

/// A device's side of a queue.
pub trait Side {
    /// It begins at this place of both rings.
    fn new(has_event_idx: bool, base: u16) -> Self;
    fn memory(&self) -> &Memory;
    fn take(&mut self, how: Take) -> Option<Vec<Chain>>;
    fn add_used(&mut self, head: u16, len: u32) -> bool;
    fn needs_notification(&mut self) -> Option<bool>;
    fn enable(&mut self) -> Option<bool>;
    fn disable(&mut self) -> bool;
    /// Stops it, and lets it go on.
    fn restart(&mut self);
    /// Saves it, and goes on with another that has its state.
    fn restore(&mut self);
    /// The chains that were taken last are to be taken again.
    fn take_back(&mut self, count: u16, by_index: bool);
}

/// Guest memory in which a queue begins at a place.
fn memory(base: u16) -> Memory {
    let memory = Memory::from_ranges(&[(GuestAddress(0), 0x10000), (GuestAddress(0x10000), (END - 0x10000) as usize)]).unwrap();
    for ring in [AVAIL, USED] {
        memory.write_obj(base.to_le(), GuestAddress(ring + 2)).unwrap();
    }
    memory
}

macro_rules! side {
    ($Name:ident, $package:ident) => {
        pub struct $Name {
            memory: Memory,
            queue: $package::Queue,
        }

        impl Side for $Name {
            fn new(has_event_idx: bool, base: u16) -> Self {
                use $package::QueueT;
                let mut queue = $package::Queue::new(64).unwrap();
                queue.set_size(SIZE);
                queue.set_desc_table_address(Some(DESC as u32), None);
                queue.set_avail_ring_address(Some(AVAIL as u32), None);
                queue.set_used_ring_address(Some(USED as u32), None);
                queue.set_event_idx(has_event_idx);
                queue.set_next_avail(base);
                queue.set_next_used(base);
                queue.set_ready(true);
                $Name { memory: memory(base), queue }
            }

            fn memory(&self) -> &Memory {
                &self.memory
            }

            fn take(&mut self, how: Take) -> Option<Vec<Chain>> {
                use $package::{QueueOwnedT, QueueT};
                let read = |chain: $package::DescriptorChain<&Memory>| {
                    (chain.head_index(), chain.map(|it| (it.addr().0, it.len(), it.is_write_only())).collect::<Vec<_>>())
                };
                let (queue, memory) = (&mut self.queue, &self.memory);
                match how {
                    Take::One => Some(queue.pop_descriptor_chain(memory).map(read).into_iter().collect()),
                    Take::All => Some(queue.iter(memory).ok()?.map(read).collect()),
                    Take::Two => Some(queue.iter(memory).ok()?.take(2).map(read).collect()),
                    Take::Again => {
                        let mut chains = queue.iter(memory).ok()?;
                        let mut taken: Vec<_> = chains.next().map(read).into_iter().collect();
                        if !taken.is_empty() {
                            chains.go_to_previous_position();
                            taken.extend(chains.next().map(read));
                        }
                        Some(taken)
                    }
                }
            }

            fn add_used(&mut self, head: u16, len: u32) -> bool {
                $package::QueueT::add_used(&mut self.queue, &self.memory, head, len).is_ok()
            }

            fn needs_notification(&mut self) -> Option<bool> {
                $package::QueueT::needs_notification(&mut self.queue, &self.memory).ok()
            }

            fn enable(&mut self) -> Option<bool> {
                $package::QueueT::enable_notification(&mut self.queue, &self.memory).ok()
            }

            fn disable(&mut self) -> bool {
                $package::QueueT::disable_notification(&mut self.queue, &self.memory).is_ok()
            }

            fn restart(&mut self) {
                use $package::QueueT;
                self.queue.set_ready(false);
                let (avail, used) =
                    (self.queue.next_avail(), self.queue.used_idx(&self.memory, std::sync::atomic::Ordering::Acquire));
                self.queue.set_size(SIZE);
                self.queue.set_next_avail(avail);
                self.queue.set_next_used(used.unwrap().0);
                self.queue.set_ready(true);
            }

            fn restore(&mut self) {
                self.queue = $package::Queue::try_from(self.queue.state()).unwrap();
            }

            fn take_back(&mut self, count: u16, by_index: bool) {
                use $package::{QueueOwnedT, QueueT};
                match by_index {
                    true => self.queue.set_next_avail(self.queue.next_avail().wrapping_sub(count)),
                    false => (0..count).for_each(|_| self.queue.go_to_previous_position()),
                }
            }
        }
    };
}

side!(Theirs, theirs);
side!(Ours, ours);

/// Random numbers, which a seed makes again.
pub struct Random(u64);

impl Random {
    pub fn new(seed: u64) -> Random {
        Random(seed.wrapping_mul(0x9e37_79b9_7f4a_7c15) | 1)
    }

    fn next(&mut self) -> u64 {
        self.0 = self.0.wrapping_add(0x9e37_79b9_7f4a_7c15);
        let mixed = (self.0 ^ (self.0 >> 30)).wrapping_mul(0xbf58_476d_1ce4_e5b9);
        let mixed = (mixed ^ (mixed >> 27)).wrapping_mul(0x94d0_49bb_1331_11eb);
        mixed ^ (mixed >> 31)
    }

    pub fn below(&mut self, end: u64) -> u64 {
        self.next() % end
    }

    pub fn one_in(&mut self, count: u64) -> bool {
        self.below(count) == 0
    }
}
