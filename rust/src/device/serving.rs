// SPDX-License-Identifier: Apache-2.0
//! All of it: one frontend after another.
use std::fs::symlink_metadata;
use std::io;
use std::os::unix::fs::FileTypeExt;
use std::os::unix::io::{AsRawFd, RawFd};
use std::os::unix::net::UnixStream;
use std::path::Path;
use std::sync::Arc;

use super::{Device, Session};
use crate::foreign::{poll, SignalFd};
use crate::vhost_user::{Error, Listener};

/// Listens at a path, and serves one frontend after another until SIGTERM or SIGINT comes, which are blocked meanwhile in this thread: threads
/// that are begun before have to block them, too. Another frontend at a time is hung up on. A socket that was left over at the path, at which
/// nobody listens any more, is replaced; anything else stays. Ok: a signal came; else it could not listen, or not go on. InvalidInput: the
/// path is empty, by which nobody finds it; AddrInUse: it is taken.
pub fn run(path: impl AsRef<Path>, device: impl Device) -> io::Result<()> {
    if path.as_ref().as_os_str().is_empty() {
        return Err(io::ErrorKind::InvalidInput.into());
    }
    let signals = SignalFd::new()?;
    let listener = listen(path.as_ref())?;
    serve_until(&listener, &Arc::new(device), signals.as_raw_fd())
}

fn listen(path: &Path) -> io::Result<Listener> {
    let is_socket = symlink_metadata(path).map_or(false, |about| about.file_type().is_socket());
    let is_refused = || matches!(UnixStream::connect(path), Err(cause) if cause.kind() == io::ErrorKind::ConnectionRefused);
    match Listener::new(path, is_socket && is_refused()) {
        Err(Error::SocketError(cause)) => Err(cause),
        listening => Ok(listening?),
    }
}

/// Serves one frontend after another at a listener. Another frontend at a time is hung up on. It returns where it can't go on.
pub fn serve(listener: &Listener, device: impl Device) -> io::Result<()> {
    serve_until(listener, &Arc::new(device), -1)
}

fn serve_until<D: Device>(listener: &Listener, device: &Arc<D>, signals: RawFd) -> io::Result<()> {
    listener.set_nonblocking(true)?;
    loop {
        let ready = poll(&[(listener.as_raw_fd(), libc::POLLIN), (signals, libc::POLLIN)], -1)?;
        if ready[1] != 0 {
            return Ok(());
        }
        if ready[0] == 0 {
            continue;
        }
        if let Some(mut session) = Session::accept_watching(device.clone(), listener, signals)? {
            if !serve_frontend(&mut session, listener, signals)? {
                return Ok(());
            }
        }
    }
}

/// Serves a frontend until it goes. False: a signal came.
fn serve_frontend<D: Device>(session: &mut Session<D>, listener: &Listener, signals: RawFd) -> io::Result<bool> {
    loop {
        // (a frontend that waits is left to wait where this one's requests are still to be done)
        let waiting = session.frontend().map_or(-1, |_| listener.as_raw_fd());
        let ready = poll(&[(session.as_raw_fd(), libc::POLLIN), (waiting, libc::POLLIN), (signals, libc::POLLIN)], -1)?;
        if ready[2] != 0 {
            return Ok(false);
        }
        if ready[1] != 0 {
            refuse_another(session, listener);
        }
        if ready[0] != 0 && session.handle_events().is_some() {
            return Ok(true);
        }
    }
}

/// Hangs up on another frontend, which would wait for its first reply as long as this one stays. Where this one has gone the other, who may
/// be the same again, is left to be served next. (who can't be accepted now is left, too: this one is served)
fn refuse_another<D: Device>(session: &Session<D>, listener: &Listener) {
    let is_there = |frontend| poll(&[(frontend, 0)], 0).map_or(false, |ready| ready[0] == 0);
    if session.frontend().map_or(false, is_there) {
        let _ = listener.accept();
    }
}
