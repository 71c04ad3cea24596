// SPDX-License-Identifier: Apache-2.0
//! Closes what a peer sent without waiting for it. The system may wait all the same: where a file system does at each close of a
//! file, as FUSE can; where the process may open no more descriptors, so that the system itself closes what comes; where a process that
//! shares a socket makes it linger again, and lets go of it, at just that time; and where this process has a filter of system calls of its
//! own, since one that does not know of `setsockopt` would end it.
use std::fs::File;
use std::mem::ManuallyDrop;
use std::net::Shutdown;
use std::ops::Deref;
use std::os::unix::io::{AsFd, AsRawFd, BorrowedFd, FromRawFd, OwnedFd, RawFd};
use std::os::unix::net::UnixStream;
use std::process::id;
use std::sync::atomic::{AtomicU64, Ordering};
use std::thread::Builder;

use super::events::without_signals;
use super::socket::{has_unread, is_filtered, lingers, peek, set_option, Received};

/// A descriptor that a peer sent. Nobody here chose what it is of, so it is closed as `drop` says, until it becomes a `File` or an
/// `OwnedFd`.
#[derive(Debug)]
pub(crate) struct PeerFd(OwnedFd);

impl Drop for PeerFd {
    /// A socket with SO_LINGER keeps `close` waiting while it has something to send, for as long as its peer likes: so it lingers no
    /// more. What is no socket stays as it is.
    fn drop(&mut self) {
        if lingers(&self.0) {
            let _ = set_option(&self.0, libc::SO_LINGER, &libc::linger { l_onoff: 0, l_linger: 0 });
        }
    }
}

impl AsRawFd for PeerFd {
    fn as_raw_fd(&self) -> RawFd {
        self.0.as_raw_fd()
    }
}

impl AsFd for PeerFd {
    fn as_fd(&self) -> BorrowedFd<'_> {
        self.0.as_fd()
    }
}

/// A descriptor of this side's own, among those of a peer.
impl From<OwnedFd> for PeerFd {
    fn from(fd: OwnedFd) -> PeerFd {
        PeerFd(fd)
    }
}

impl FromRawFd for PeerFd {
    unsafe fn from_raw_fd(fd: RawFd) -> PeerFd {
        // SAFETY: its caller's.
        PeerFd(unsafe { OwnedFd::from_raw_fd(fd) })
    }
}

/// From then on its owner decides how it is closed.
impl From<PeerFd> for OwnedFd {
    fn from(fd: PeerFd) -> OwnedFd {
        let fd = ManuallyDrop::new(fd);
        // SAFETY: it is open, and the one that it belonged to is not dropped.
        unsafe { OwnedFd::from_raw_fd(fd.as_raw_fd()) }
    }
}

/// Likewise.
impl From<PeerFd> for File {
    fn from(fd: PeerFd) -> File {
        File::from(OwnedFd::from(fd))
    }
}

/// How many messages with descriptors are looked for in a socket: more than one holds, by the limits that the system begins with. A peer
/// that has a copy of the socket might let them never end.
const MOST_QUEUED: usize = 0x400;

/// A connected socket. What came and was not received may have descriptors, and those linger, too.
#[derive(Debug)]
pub(crate) struct PeerSocket {
    stream: ManuallyDrop<UnixStream>,
    is_given: bool,
}

impl PeerSocket {
    /// One of this side's own.
    pub(crate) fn own(stream: UnixStream) -> PeerSocket {
        PeerSocket::new(stream, false)
    }

    /// One that the peer gave, and may give to another again.
    pub(crate) fn given(stream: UnixStream) -> PeerSocket {
        PeerSocket::new(stream, true)
    }

    /// What is sent by MSG_OOB is received in its place: the system closes the descriptors of what is left out, and waits for them.
    fn new(stream: UnixStream, is_given: bool) -> PeerSocket {
        let _ = set_option(&stream, libc::SO_OOBINLINE, &1);
        PeerSocket { stream: ManuallyDrop::new(stream), is_given }
    }

    /// Nothing more is sent or comes, whoever has a copy of it; but for one that the peer gave, which stays as it is.
    pub(crate) fn hang_up(&self) {
        if !self.is_given {
            let _ = self.stream.shutdown(Shutdown::Both);
        }
    }
}

impl Drop for PeerSocket {
    fn drop(&mut self) {
        // SAFETY: nobody has it any more.
        let stream = unsafe { ManuallyDrop::take(&mut self.stream) };
        match self.is_given {
            true => close_given(stream),
            false => calm_unread(&stream),
        }
    }
}

/// The system closes the descriptors that wait in a socket within `close`: so no socket among them lingers any more. What waits stays
/// there, for whoever has a copy of the socket.
fn calm_unread(stream: &UnixStream) {
    let (mut room, mut fds) = ([0; 4096], Vec::new());
    let is_empty = !matches!(peek(stream, &mut room, &mut fds), Ok(Received { count: 1.., .. }));
    fds.clear();
    if is_empty || set_option(stream, libc::SO_PEEK_OFF, &0).is_err() {
        return;
    }
    for _ in 0..MOST_QUEUED {
        match peek(stream, &mut room, &mut fds) {
            Ok(Received { count: 1.., .. }) => fds.clear(),
            _ => break,
        }
    }
    let _ = set_option(stream, libc::SO_PEEK_OFF, &-1);
}

/// A peer that has a copy of the socket can read from it into memory that does not come: whoever looks at what waits there waits as long,
/// and no signal ends that. So a thread does. (A filter of the program's own may know neither of a thread nor of the call that asks what waits.)
fn close_given(stream: UnixStream) {
    if !is_filtered() && has_unread(&stream) {
        apart(move || calm_unread(&stream));
    }
}

/// Does what takes long in a thread that nobody waits for. There are so many at most, and else it is not done: what it has is dropped. (A
/// filter of the program's own may know of no thread.)
pub(crate) fn apart(work: impl FnOnce() + Send + 'static) {
    if is_filtered() || !begin_closing() {
        return;
    }
    let works = move || {
        work();
        CLOSING.fetch_sub(1, Ordering::SeqCst);
    };
    if without_signals(|| Builder::new().stack_size(CLOSING_STACK).spawn(works)).is_err() {
        CLOSING.fetch_sub(1, Ordering::SeqCst);
    }
}

const MOST_CLOSING: u64 = 64;
const CLOSING_STACK: usize = 1 << 17;
/// How many such threads there are, in the lower half, and of which process: a child of `fork` has none of its parent's.
static CLOSING: AtomicU64 = AtomicU64::new(0);

/// Whether there may be one more.
fn begin_closing() -> bool {
    let process = u64::from(id()) << 32;
    let more = |it: u64| match it.checked_sub(process) {
        Some(count) if count <= MOST_CLOSING => (count < MOST_CLOSING).then_some(it + 1),
        _ => Some(process + 1),
    };
    CLOSING.fetch_update(Ordering::SeqCst, Ordering::SeqCst, more).is_ok()
}

impl Deref for PeerSocket {
    type Target = UnixStream;

    fn deref(&self) -> &UnixStream {
        &self.stream
    }
}
