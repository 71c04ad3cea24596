// SPDX-License-Identifier: Apache-2.0
//! The sockets of the sessions that go on, by which they are ended where the tap ends.
use std::collections::BTreeMap;
use std::net::Shutdown;
use std::sync::{Arc, Condvar, Mutex, MutexGuard, PoisonError};
use std::time::Duration;

use crate::foreign::PeerSocket;

/// How long the tap waits for sessions that it ended: they only wait for the system.
const PATIENCE: Duration = Duration::from_secs(5);

#[derive(Clone, Default)]
pub(super) struct OpenSockets {
    shared: Arc<Shared>,
}

#[derive(Default)]
struct Shared {
    state: Mutex<State>,
    is_closed: Condvar,
}

#[derive(Default)]
struct State {
    is_stopped: bool,
    count: u64,
    pairs: BTreeMap<u64, [Arc<PeerSocket>; 2]>,
}

/// Two sockets that are open.
pub(super) struct OpenPair {
    shared: Arc<Shared>,
    number: u64,
}

impl OpenSockets {
    /// These are open until what is returned is dropped.
    pub(super) fn add(&self, pair: [Arc<PeerSocket>; 2]) -> OpenPair {
        let mut state = self.shared.state();
        if state.is_stopped {
            shut(&pair);
        }
        state.count += 1;
        let number = state.count;
        state.pairs.insert(number, pair);
        OpenPair { shared: self.shared.clone(), number }
    }

    /// Ends all sessions, and those that begin: their sockets are shut down. Waits until they have told so.
    pub(super) fn stop(&self) {
        let mut state = self.shared.state();
        state.is_stopped = true;
        state.pairs.values().for_each(shut);
        let waited = self.shared.is_closed.wait_timeout_while(state, PATIENCE, |state| !state.pairs.is_empty());
        drop(waited);
    }

    pub(super) fn is_stopped(&self) -> bool {
        self.shared.state().is_stopped
    }
}

fn shut(pair: &[Arc<PeerSocket>; 2]) {
    pair.iter().for_each(|socket| drop(socket.shutdown(Shutdown::Both)));
}

impl Shared {
    fn state(&self) -> MutexGuard<'_, State> {
        self.state.lock().unwrap_or_else(PoisonError::into_inner)
    }
}

impl Drop for OpenPair {
    fn drop(&mut self) {
        self.shared.state().pairs.remove(&self.number);
        self.shared.is_closed.notify_all();
    }
}
