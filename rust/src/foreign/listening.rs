// SPDX-License-Identifier: Apache-2.0
//! A listener of a number, as a program has it that was started with a socket.
use std::os::unix::io::{FromRawFd, RawFd};
use std::os::unix::net::UnixListener;

use crate::vhost_user::Listener;

/// Its path, if it has one, stays when the listener is dropped. What is no listening socket is an error of
/// [`accept`](Listener::accept).
impl FromRawFd for Listener {
    unsafe fn from_raw_fd(fd: RawFd) -> Self {
        // SAFETY: the caller owns it, and gives it up.
        Listener::from(unsafe { UnixListener::from_raw_fd(fd) })
    }
}
