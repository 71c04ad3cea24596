// SPDX-License-Identifier: Apache-2.0
//! A queue's state, as it is saved.
use vm_memory::GuestAddress;

use crate::{Error, Queue, QueueT};

/// What a queue is told and how far it is: what a snapshot keeps, and a [`Queue`] is made of again.
///
/// It does not say which heads the device had. As many as lie between the two indexes may be used once it is restored, each once.
#[derive(Clone, Copy, Debug, Default, PartialEq, Eq)]
pub struct QueueState {
    /// The greatest size that it may have.
    pub max_size: u16,
    /// The entry of the available ring that is next.
    pub next_avail: u16,
    /// The entry of the used ring that is next.
    pub next_used: u16,
    /// VIRTIO_F_EVENT_IDX.
    pub event_idx_enabled: bool,
    /// How many descriptors it has.
    pub size: u16,
    /// Whether the driver has set it up.
    pub ready: bool,
    /// Where the descriptor table is.
    pub desc_table: u64,
    /// Where the available ring is.
    pub avail_ring: u64,
    /// Where the used ring is.
    pub used_ring: u64,
}

impl TryFrom<QueueState> for Queue {
    type Error = Error;

    /// InvalidMaxSize, InvalidSize, InvalidDescTableAlign, InvalidAvailRingAlign, InvalidUsedRingAlign: there is no such queue.
    fn try_from(state: QueueState) -> Result<Self, Error> {
        let mut queue = Queue::new(state.max_size)?;
        queue.try_set_size(state.size)?;
        queue.try_set_desc_table_address(GuestAddress(state.desc_table))?;
        queue.try_set_avail_ring_address(GuestAddress(state.avail_ring))?;
        queue.try_set_used_ring_address(GuestAddress(state.used_ring))?;
        queue.set_event_idx(state.event_idx_enabled);
        queue.set_next_avail(state.next_avail);
        queue.set_next_used(state.next_used);
        queue.set_ready(state.ready);
        Ok(queue)
    }
}
