// SPDX-License-Identifier: Apache-2.0
//! Taps sockets: listens at one, and passes each session on to the backend at another.
use std::fs::remove_file;
use std::io;
use std::os::unix::net::{UnixListener, UnixStream};
use std::path::{Path, PathBuf};
use std::sync::mpsc::channel;
use std::thread::{self, JoinHandle};
use std::time::Duration;

use super::event::{Channel, What};
use super::open_sockets::OpenSockets;
use super::passing::pass_between;
use super::reporter::Reporter;
use crate::foreign::EndSignals;

/// How long it waits where a session can't be accepted.
const PAUSE: Duration = Duration::from_millis(100);

/// Listens; a socket at this path that nobody has is replaced.
pub(super) fn listen_at(path: &Path) -> io::Result<UnixListener> {
    match UnixListener::bind(path) {
        Err(cause) if cause.kind() == io::ErrorKind::AddrInUse && is_left_over(path) => {
            remove_file(path)?;
            UnixListener::bind(path)
        }
        listener => listener,
    }
}

fn is_left_over(path: &Path) -> bool {
    matches!(UnixStream::connect(path), Err(cause) if cause.kind() == io::ErrorKind::ConnectionRefused)
}

/// Passes on so many sessions, or all that come until one of these signals asks to end, which ends those that go on.
pub(super) fn pass_sessions(
    listener: UnixListener,
    connect: PathBuf,
    count: Option<u64>,
    signals: EndSignals,
    reporter: &Reporter,
) {
    let (ended, wait) = channel();
    let by_signal = ended.clone();
    // Where there is no thread left for them, signals do nothing, and the last session ends the tap.
    let _ = thread::Builder::new().spawn(move || {
        signals.wait();
        let _ = by_signal.send(());
    });
    let open = OpenSockets::default();
    let (accepting, opening) = (reporter.clone(), open.clone());
    let spawned = thread::Builder::new().spawn(move || {
        accept_all(&listener, &connect, count, &accepting, &opening);
        let _ = ended.send(());
    });
    if spawned.is_ok() {
        let _ = wait.recv();
    }
    open.stop();
}

fn accept_all(listener: &UnixListener, connect: &Path, count: Option<u64>, reporter: &Reporter, open: &OpenSockets) {
    let mut threads: Vec<JoinHandle<()>> = Vec::new();
    let mut session = 0;
    while count != Some(session) {
        threads.retain(|thread| !thread.is_finished());
        match listener.accept() {
            Ok((frontend, _)) => {
                session += 1;
                let (reporter, connect, open) = (reporter.of(session), connect.to_path_buf(), open.clone());
                let spawned = thread::Builder::new().spawn(move || pass_session(frontend, &connect, &reporter, &open));
                threads.extend(spawned);
            }
            Err(_) => thread::sleep(PAUSE),
        }
    }
    for thread in threads {
        let _ = thread.join();
    }
}

fn pass_session(frontend: UnixStream, connect: &Path, reporter: &Reporter, open: &OpenSockets) {
    match UnixStream::connect(connect) {
        Ok(backend) => {
            reporter.tell(What::Connected(Ok(())));
            pass_between(Channel::Device, frontend, backend, reporter, open);
        }
        Err(cause) => reporter.tell(What::Connected(Err(cause.to_string()))),
    }
}
