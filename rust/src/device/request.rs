// SPDX-License-Identifier: Apache-2.0
//! A request that the device has.
use std::fmt;
use std::ops::{Deref, DerefMut};
use std::sync::Arc;

use super::shared::Shared;
use super::Taker;
use crate::queue::DescriptorChain;

/// A request of the guest: its parts, as the [`DescriptorChain`] that it is. It is the device's until [`complete`](Self::complete), from
/// whatever thread. One that is dropped is done, with nothing written, so that no guest waits for it, and no session.
pub struct Request {
    chain: DescriptorChain,
    shared: Arc<Shared>,
    queue: usize,
    is_done: bool,
}

impl Request {
    pub(super) fn new(chain: DescriptorChain, shared: Arc<Shared>, queue: usize) -> Request {
        Request { chain, shared, queue, is_done: false }
    }

    /// Of which queue it is, from 0 on.
    pub fn queue(&self) -> usize {
        self.queue
    }

    /// By what the device takes others, of the queues that it takes from.
    pub fn taker(&self) -> Taker {
        Taker::of(&self.shared)
    }

    /// The request is done, and so many bytes were written, from the first that is to be written on: the driver is told. Where the session
    /// has ended meanwhile nobody is.
    pub fn complete(mut self, written: u32) {
        self.finish(written);
    }

    /// The same of many, each with how many bytes were written of it. Those of one queue that come side by side are given back together: its driver
    /// sees all of them at once, and is told once. They may be in any order, and of any queues and sessions.
    pub fn complete_all(done: impl IntoIterator<Item = (Request, u32)>) {
        // (what makes them may complete others, and is through before a lock is taken)
        let mut done: Vec<(Request, u32)> = done.into_iter().collect();
        done.iter_mut().for_each(|(request, _)| request.is_done = true);
        let mut rest = &done[..];
        while let [(first, _), ..] = rest {
            let alike = rest.iter().take_while(|(it, _)| it.is_beside(first)).count();
            let (together, others) = rest.split_at(alike);
            first.shared.complete(first.queue, together.iter().map(|(request, written)| (&request.chain, *written)));
            rest = others;
        }
    }

    /// Whether another is of the same queue of the same session.
    fn is_beside(&self, other: &Request) -> bool {
        self.queue == other.queue && Arc::ptr_eq(&self.shared, &other.shared)
    }

    fn finish(&mut self, written: u32) {
        self.is_done = true;
        self.shared.complete(self.queue, [(&self.chain, written)].into_iter());
    }
}

impl Drop for Request {
    fn drop(&mut self) {
        if !self.is_done {
            self.finish(0);
        }
    }
}

impl fmt::Debug for Request {
    fn fmt(&self, f: &mut fmt::Formatter<'_>) -> fmt::Result {
        f.debug_struct("Request").field("queue", &self.queue).field("chain", &self.chain).finish_non_exhaustive()
    }
}

impl Deref for Request {
    type Target = DescriptorChain;

    fn deref(&self) -> &DescriptorChain {
        &self.chain
    }
}

impl DerefMut for Request {
    fn deref_mut(&mut self) -> &mut DescriptorChain {
        &mut self.chain
    }
}
