// SPDX-License-Identifier: Apache-2.0
//! Postcopy: pages come as they are touched. A frontend that dies meanwhile would leave whoever touches one waiting, so a thread of its own
//! looks for that, and takes all memory of the session away.
use std::fs::File;
use std::io;
use std::os::unix::io::{AsRawFd, RawFd};
use std::os::unix::net::UnixStream;
use std::sync::Arc;
use std::thread::{Builder, JoinHandle};

use super::shared::Stop;
use crate::foreign::{lose_all, poll, without_signals, Event, Holder, Userfault};
use crate::queue::GuestMemory;

/// Postcopy that has begun.
pub(super) struct Arrival {
    userfault: Userfault,
    over: Arc<Event>,
    watcher: JoinHandle<()>,
}

impl Arrival {
    /// Begins it, for the frontend at this socket, which gets the file. The wait for a page ends where the frontend hangs up, the session is
    /// stopped, or a signal can be read of this descriptor, if it is not negative.
    pub(super) fn begin(
        holder: Arc<Holder>,
        frontend: UnixStream,
        stop: Arc<Stop>,
        signals: RawFd,
    ) -> io::Result<(Arrival, File)> {
        let (userfault, over) = (Userfault::new()?, Arc::new(Event::new()?));
        let (given, watched, ended) = (userfault.try_clone()?, userfault.try_clone()?, over.clone());
        let watch = move || {
            let waited = [
                (ended.as_raw_fd(), libc::POLLIN),
                (frontend.as_raw_fd(), 0),
                (stop.event.as_raw_fd(), libc::POLLIN),
                (signals, libc::POLLIN),
            ];
            loop {
                match poll(&waited, -1) {
                    Ok(ready) if ready.iter().all(|it| *it == 0) => {}
                    // (whatever ended the wait: nobody may wait for a frontend that nobody looks for)
                    Ok(ready) if ready[0] != 0 => return,
                    _ => return lose_all(&holder, watched.as_raw_fd()),
                }
            }
        };
        let watcher = without_signals(|| Builder::new().spawn(watch))?;
        Ok((Arrival { userfault, over, watcher }, given))
    }

    /// Pages of this memory are waited for from now on, until they have come.
    pub(super) fn watch(&self, memory: &GuestMemory) -> io::Result<()> {
        memory.regions().iter().try_for_each(|region| self.userfault.watch(region))
    }

    /// All have come.
    pub(super) fn end(self, memory: Option<&GuestMemory>) -> io::Result<()> {
        self.over.set();
        let _ = self.watcher.join();
        let mut regions = memory.iter().flat_map(|memory| memory.regions().iter());
        regions.try_for_each(|region| self.userfault.leave(region))
    }
}
