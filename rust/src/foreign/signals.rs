// SPDX-License-Identifier: Apache-2.0
//! The signals by which a program is asked to end.
use std::mem::zeroed;
use std::ptr::null_mut;

/// SIGINT and SIGTERM, as far as this thread and those that it spawns are concerned: they end nothing, and can be waited for.
pub(crate) struct EndSignals(libc::sigset_t);

impl EndSignals {
    pub(crate) fn block() -> EndSignals {
        // SAFETY: the set is made empty before it is used, and borrowed by these calls alone; both signals have valid numbers.
        unsafe {
            let mut set: libc::sigset_t = zeroed();
            libc::sigemptyset(&mut set);
            libc::sigaddset(&mut set, libc::SIGINT);
            libc::sigaddset(&mut set, libc::SIGTERM);
            libc::pthread_sigmask(libc::SIG_BLOCK, &set, null_mut());
            EndSignals(set)
        }
    }

    /// Waits for one of them.
    pub(crate) fn wait(&self) {
        let mut signal = 0;
        // SAFETY: both are borrowed by this call alone.
        unsafe { libc::sigwait(&self.0, &mut signal) };
    }
}
