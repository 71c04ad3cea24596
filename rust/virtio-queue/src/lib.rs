// SPDX-License-Identifier: Apache-2.0
#![doc = include_str!("../README.md")]
#![deny(missing_docs)]
#![deny(unsafe_op_in_unsafe_fn)]

use std::num::Wrapping;
use std::ops::{Deref, DerefMut};
use std::sync::atomic::Ordering;

use vm_memory::GuestMemory;

mod buffers;
mod chain;
pub mod defs;
pub mod desc;
mod error;
#[cfg(any(test, feature = "test-utils"))]
pub mod mock;
mod near;
mod queue;
mod queue_sync;
mod ring;
mod state;

pub use self::buffers::{Reader, Writer};
pub use self::chain::{DescriptorChain, DescriptorChainRwIter};
pub use self::error::Error;
pub use self::queue::{AvailIter, Queue};
pub use self::queue_sync::QueueSync;
pub use self::state::QueueState;

/// What a queue is borrowed by: itself, or a lock's guard.
pub trait QueueGuard<'a> {
    /// What borrows it.
    type G: DerefMut<Target = Queue>;
}

/// A queue, whether one thread has it or many share it.
pub trait QueueT: for<'a> QueueGuard<'a> {
    /// A queue of at most so many descriptors. InvalidMaxSize: that is 0, no power of two, or above 32768.
    fn new(max_size: u16) -> Result<Self, Error>
    where
        Self: Sized;

    /// Whether it is ready, and its rings lie in memory.
    fn is_valid<M: GuestMemory>(&self, mem: &M) -> bool;

    /// It is as it was at first.
    fn reset(&mut self);

    /// Borrows it for several calls.
    fn lock(&mut self) -> <Self as QueueGuard<'_>>::G;

    /// The greatest size that it may have.
    fn max_size(&self) -> u16;

    /// How many descriptors it has.
    fn size(&self) -> u16;

    /// It has so many descriptors, where it can.
    fn set_size(&mut self, size: u16);

    /// Whether the driver has set it up.
    fn ready(&self) -> bool;

    /// The driver has set it up, or no more. Where it had broken a rule, it may begin anew.
    fn set_ready(&mut self, ready: bool);

    /// The descriptor table lies there, by the lower and the upper half of its address, each where it is given. A multiple of 16.
    fn set_desc_table_address(&mut self, low: Option<u32>, high: Option<u32>);

    /// The available ring lies there, likewise. A multiple of 2.
    fn set_avail_ring_address(&mut self, low: Option<u32>, high: Option<u32>);

    /// The used ring lies there, likewise. A multiple of 4.
    fn set_used_ring_address(&mut self, low: Option<u32>, high: Option<u32>);

    /// It has event indexes: VIRTIO_F_EVENT_IDX.
    fn set_event_idx(&mut self, enabled: bool);

    /// The index of the available ring, as it is in memory.
    fn avail_idx<M>(&self, mem: &M, order: Ordering) -> Result<Wrapping<u16>, Error>
    where
        M: GuestMemory + ?Sized;

    /// The index of the used ring, as it is in memory.
    fn used_idx<M: GuestMemory>(&self, mem: &M, order: Ordering) -> Result<Wrapping<u16>, Error>;

    /// Gives back the chain of a head, of which so many bytes were written. InvalidDescriptorIndex: the device has no such chain.
    fn add_used<M: GuestMemory>(&mut self, mem: &M, head_index: u16, len: u32) -> Result<(), Error>;

    /// Has the driver tell of what it makes available from now on. Whether something is available already, which is to be taken first.
    fn enable_notification<M: GuestMemory>(&mut self, mem: &M) -> Result<bool, Error>;

    /// Has the driver not tell of it, where it can be asked so.
    fn disable_notification<M: GuestMemory>(&mut self, mem: &M) -> Result<(), Error>;

    /// Whether the driver is to be told of what was given back since this was last asked.
    fn needs_notification<M: GuestMemory>(&mut self, mem: &M) -> Result<bool, Error>;

    /// The entry of the available ring that is next.
    fn next_avail(&self) -> u16;

    /// It goes on at that entry.
    fn set_next_avail(&mut self, next_avail: u16);

    /// The entry of the used ring that is next.
    fn next_used(&self) -> u16;

    /// It goes on at that entry.
    fn set_next_used(&mut self, next_used: u16);

    /// Where the descriptor table is.
    fn desc_table(&self) -> u64;

    /// Where the available ring is.
    fn avail_ring(&self) -> u64;

    /// Where the used ring is.
    fn used_ring(&self) -> u64;

    /// Whether it has event indexes.
    fn event_idx_enabled(&self) -> bool;

    /// The next chain, if one is available. Whoever takes many asks [`QueueOwnedT::iter`] for them, by which the index is read once.
    fn pop_descriptor_chain<M>(&mut self, mem: M) -> Option<DescriptorChain<M>>
    where
        M: Clone + Deref,
        M::Target: GuestMemory;
}

/// A queue that one thread has.
pub trait QueueOwnedT: QueueT {
    /// The chains that are available now. QueueNotReady. Once the driver broke a rule there are none, which is no error: a loop that ends
    /// by an error would serve no other queue any more.
    fn iter<M>(&mut self, mem: M) -> Result<AvailIter<'_, M>, Error>
    where
        M: Deref,
        M::Target: GuestMemory;

    /// The chain that was taken last is not the device's any more, and is taken again next.
    fn go_to_previous_position(&mut self);
}
