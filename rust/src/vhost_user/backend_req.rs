// SPDX-License-Identifier: Apache-2.0
//! The backend channel, as a device asks on it: each call, as the crate `vhost` names it, is one of the proved session's.
use std::io;
use std::os::unix::io::{AsRawFd, RawFd};
use std::os::unix::net::UnixStream;
use std::sync::{Arc, Mutex, MutexGuard, PoisonError};
use std::time::Duration;

use super::connection::Connection;
use super::message::{VhostUserMMap, VhostUserSharedMsg};
use super::{Error, HandlerResult, VhostUserFrontendReqHandler};
use crate::foreign::{ChannelSession, Mmap, Outcome, Owning, PeerSocket};

/// The backend channel: on it a device makes requests of its frontend. A clone is the same connection: each call is whole before
/// another thread's begins.
///
/// A call waits for the frontend where it is acknowledged, as long as that likes where there is no
/// [limit of time](Backend::set_timeout). Its value is 0. Its errors are an [`Error`] in an [`io::Error`], but where a feature was not
/// negotiated, which then is the text. After an error of the socket or a malformed reply the channel is of no more use, but for an error by
/// which nothing of the request was sent, as [`Error`] says.
#[derive(Clone)]
pub struct Backend {
    node: Arc<Mutex<Connection<Owning<ChannelSession>>>>,
}

impl Backend {
    /// The channel over a connected socket, with nothing negotiated. A read timeout of the socket becomes the limit of time. It
    /// panics where an allocation fails.
    pub fn from_stream(sock: UnixStream) -> Self {
        // (the crate's name for this returns no Result)
        let session = Owning::new(ChannelSession::open().expect("allocation of a session failed"));
        Backend { node: Arc::new(Mutex::new(Connection::over(session, PeerSocket::given(sock)))) }
    }

    /// Whether REPLY_ACK was accepted: then each request is acknowledged, and a refusal of it by the frontend is
    /// FrontendInternalError.
    pub fn set_reply_ack_flag(&self, enable: bool) {
        self.node().set(|session| session.set_reply_ack(enable));
    }

    /// Whether SHARED_OBJECT was accepted.
    pub fn set_shared_object_flag(&self, enable: bool) {
        self.node().set(|session| session.set_shared_object(enable));
    }

    /// Whether SHMEM was accepted.
    pub fn set_shmem_flag(&self, enable: bool) {
        self.node().set(|session| session.set_shmem(enable));
    }

    /// Whether CONFIG was accepted.
    pub fn set_config_change_flag(&self, enable: bool) {
        self.node().set(|session| session.set_config_change(enable));
    }

    /// Limits the time of each call, all of it; None: no limit. A call that takes longer ends the channel: SocketBroken, with a
    /// cause of the kind `TimedOut`.
    pub fn set_timeout(&self, timeout: Option<Duration>) {
        self.node().set_timeout(timeout);
    }

    /// Ends the channel: each later call is SocketBroken by this number of the system.
    pub fn set_failed(&self, error: i32) {
        self.node().set_failed(error);
    }

    fn node(&self) -> MutexGuard<'_, Connection<Owning<ChannelSession>>> {
        // A thread that panicked amid a call left no half of a message: what ends one stands in the connection.
        self.node.lock().unwrap_or_else(PoisonError::into_inner)
    }

    /// A call of a feature of this name.
    fn ask(&self, feature: &str, ask: impl FnOnce(&mut ChannelSession) -> Outcome) -> HandlerResult<u64> {
        match self.node().call(|session| ask(session)) {
            Ok(()) => Ok(0),
            Err(Error::InactiveOperation(_)) => {
                Err(io::Error::new(io::ErrorKind::Other, format!("{feature} feature not negotiated")))
            }
            Err(error) => Err(error.into()),
        }
    }
}

impl AsRawFd for Backend {
    fn as_raw_fd(&self) -> RawFd {
        self.node().as_raw_fd()
    }
}

fn mmap_of(it: &VhostUserMMap) -> Mmap {
    Mmap { fd_offset: it.fd_offset, shm_offset: it.shm_offset, len: it.len, flags: it.flags, shmid: it.shmid }
}

impl VhostUserFrontendReqHandler for Backend {
    fn handle_config_change(&self) -> HandlerResult<u64> {
        self.ask("Config", ChannelSession::config_change)
    }

    fn shared_object_add(&self, uuid: &VhostUserSharedMsg) -> HandlerResult<u64> {
        self.ask("Shared Object", |session| session.shared_object_add(uuid.uuid.as_bytes()))
    }

    fn shared_object_remove(&self, uuid: &VhostUserSharedMsg) -> HandlerResult<u64> {
        self.ask("Shared Object", |session| session.shared_object_remove(uuid.uuid.as_bytes()))
    }

    fn shared_object_lookup(&self, uuid: &VhostUserSharedMsg, fd: &dyn AsRawFd) -> HandlerResult<u64> {
        let fd = fd.as_raw_fd();
        self.ask("Shared Object", |session| session.shared_object_lookup(uuid.uuid.as_bytes(), fd))
    }

    fn shmem_map(&self, req: &VhostUserMMap, fd: &dyn AsRawFd) -> HandlerResult<u64> {
        let fd = fd.as_raw_fd();
        self.ask("SHMEM", |session| session.shmem_map(&mmap_of(req), fd))
    }

    fn shmem_unmap(&self, req: &VhostUserMMap) -> HandlerResult<u64> {
        self.ask("SHMEM", |session| session.shmem_unmap(&mmap_of(req)))
    }
}
