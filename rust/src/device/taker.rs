// SPDX-License-Identifier: Apache-2.0
//! Queues that a device takes from.
use std::fmt;
use std::sync::{Arc, Weak};

use super::shared::Shared;
use super::Request;

/// Takes requests of the queues of [`Device::taken_queues`](super::Device::taken_queues), from any thread. A clone is of the same session, which
/// it does not keep: after that has ended it takes none.
#[derive(Clone)]
pub struct Taker(Weak<Shared>);

impl Taker {
    pub(super) fn of(shared: &Arc<Shared>) -> Taker {
        Taker(Arc::downgrade(shared))
    }

    /// The next request of a queue, as one that was handed out. None: it has none now, which [`available`](super::Device::available) tells of
    /// once it has; or it is no queue that is taken from, or stopped, or the session has ended.
    pub fn take(&self, queue: usize) -> Option<Request> {
        let shared = self.0.upgrade()?;
        let chain = shared.take(queue, 1).pop()?;
        Some(Request::new(chain, shared, queue))
    }

    /// The next requests of a queue, so many at most: as many as there are. None is waited for; where there are fewer, [`available`] tells of the
    /// next one.
    ///
    /// [`available`]: super::Device::available
    pub fn take_many(&self, queue: usize, most: usize) -> Vec<Request> {
        let taken = self.0.upgrade().map(|shared| (shared.take(queue, most), shared));
        let requests = taken
            .into_iter()
            .flat_map(|(chains, shared)| chains.into_iter().map(move |chain| Request::new(chain, shared.clone(), queue)));
        requests.collect()
    }
}

impl fmt::Debug for Taker {
    fn fmt(&self, f: &mut fmt::Formatter<'_>) -> fmt::Result {
        f.debug_struct("Taker").field("has_session", &(self.0.strong_count() != 0)).finish_non_exhaustive()
    }
}
