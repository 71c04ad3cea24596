// SPDX-License-Identifier: Apache-2.0
//! A queue that threads share.
use std::num::Wrapping;
use std::ops::Deref;
use std::sync::atomic::Ordering;
use std::sync::{Arc, Mutex, MutexGuard, PoisonError};

use vm_memory::GuestMemory;

use crate::{DescriptorChain, Error, Queue, QueueGuard, QueueT};

/// A [`Queue`] behind a lock, which each call takes. A thread that panicked while it had the lock does not poison it.
#[derive(Clone, Debug)]
pub struct QueueSync {
    queue: Arc<Mutex<Queue>>,
}

impl QueueSync {
    fn locked(&self) -> MutexGuard<'_, Queue> {
        self.queue.lock().unwrap_or_else(PoisonError::into_inner)
    }
}

impl<'a> QueueGuard<'a> for QueueSync {
    type G = MutexGuard<'a, Queue>;
}

impl QueueT for QueueSync {
    fn new(max_size: u16) -> Result<Self, Error> {
        Queue::new(max_size).map(QueueSync::from)
    }

    fn is_valid<M: GuestMemory>(&self, mem: &M) -> bool {
        self.locked().is_valid(mem)
    }

    fn reset(&mut self) {
        self.locked().reset()
    }

    fn lock(&mut self) -> <Self as QueueGuard<'_>>::G {
        self.locked()
    }

    fn max_size(&self) -> u16 {
        self.locked().max_size()
    }

    fn size(&self) -> u16 {
        self.locked().size()
    }

    fn set_size(&mut self, size: u16) {
        self.locked().set_size(size)
    }

    fn ready(&self) -> bool {
        self.locked().ready()
    }

    fn set_ready(&mut self, ready: bool) {
        self.locked().set_ready(ready)
    }

    fn set_desc_table_address(&mut self, low: Option<u32>, high: Option<u32>) {
        self.locked().set_desc_table_address(low, high)
    }

    fn set_avail_ring_address(&mut self, low: Option<u32>, high: Option<u32>) {
        self.locked().set_avail_ring_address(low, high)
    }

    fn set_used_ring_address(&mut self, low: Option<u32>, high: Option<u32>) {
        self.locked().set_used_ring_address(low, high)
    }

    fn set_event_idx(&mut self, enabled: bool) {
        self.locked().set_event_idx(enabled)
    }

    fn avail_idx<M>(&self, mem: &M, order: Ordering) -> Result<Wrapping<u16>, Error>
    where
        M: GuestMemory + ?Sized,
    {
        self.locked().avail_idx(mem, order)
    }

    fn used_idx<M: GuestMemory>(&self, mem: &M, order: Ordering) -> Result<Wrapping<u16>, Error> {
        self.locked().used_idx(mem, order)
    }

    fn add_used<M: GuestMemory>(&mut self, mem: &M, head_index: u16, len: u32) -> Result<(), Error> {
        self.locked().add_used(mem, head_index, len)
    }

    fn enable_notification<M: GuestMemory>(&mut self, mem: &M) -> Result<bool, Error> {
        self.locked().enable_notification(mem)
    }

    fn disable_notification<M: GuestMemory>(&mut self, mem: &M) -> Result<(), Error> {
        self.locked().disable_notification(mem)
    }

    fn needs_notification<M: GuestMemory>(&mut self, mem: &M) -> Result<bool, Error> {
        self.locked().needs_notification(mem)
    }

    fn next_avail(&self) -> u16 {
        self.locked().next_avail()
    }

    fn set_next_avail(&mut self, next_avail: u16) {
        self.locked().set_next_avail(next_avail)
    }

    fn next_used(&self) -> u16 {
        self.locked().next_used()
    }

    fn set_next_used(&mut self, next_used: u16) {
        self.locked().set_next_used(next_used)
    }

    fn desc_table(&self) -> u64 {
        self.locked().desc_table()
    }

    fn avail_ring(&self) -> u64 {
        self.locked().avail_ring()
    }

    fn used_ring(&self) -> u64 {
        self.locked().used_ring()
    }

    fn event_idx_enabled(&self) -> bool {
        self.locked().event_idx_enabled()
    }

    fn pop_descriptor_chain<M>(&mut self, mem: M) -> Option<DescriptorChain<M>>
    where
        M: Clone + Deref,
        M::Target: GuestMemory,
    {
        self.locked().pop_descriptor_chain(mem)
    }
}

impl From<Queue> for QueueSync {
    fn from(queue: Queue) -> Self {
        QueueSync { queue: Arc::new(Mutex::new(queue)) }
    }
}

impl From<Arc<Mutex<Queue>>> for QueueSync {
    fn from(queue: Arc<Mutex<Queue>>) -> Self {
        QueueSync { queue }
    }
}
