// SPDX-License-Identifier: Apache-2.0
//! The backend channel, as a frontend serves it: each request that the proved session checked is a call, as the crate `vhost` names
//! it.
use std::io;
use std::os::unix::io::{AsRawFd, RawFd};
use std::os::unix::net::UnixStream;
use std::sync::{Arc, Mutex};
use std::time::Duration;

use super::message::{BackendReq, VhostUserMMap, VhostUserSharedMsg};
use super::served_connection::ServedConnection;
use super::{Error, HandlerResult, Result};
use crate::foreign::{ChannelServer, Mmap};

/// The trait of what serves a device's requests; the same for one that changes by its calls; and that a lock around the latter is
/// the former.
macro_rules! handlers {
    ($($(#[$doc:meta])* fn $name:ident($($arg:ident: $ty:ty),*);)*) => {
        /// What a device asks of its frontend. Each call refuses, by ENOSYS, where there is no other body. Descriptors are lent.
        /// A value of 0 is success; an error is sent as its number of the system, or as EINVAL where it has none.
        #[allow(unused_variables)]
        pub trait VhostUserFrontendReqHandler {
            $($(#[$doc])* fn $name(&self, $($arg: $ty),*) -> HandlerResult<u64> {
                Err(io::Error::from_raw_os_error(libc::ENOSYS))
            })*
        }

        /// A [`VhostUserFrontendReqHandler`] whose calls change it. In a [`Mutex`] it is one.
        #[allow(unused_variables)]
        pub trait VhostUserFrontendReqHandlerMut {
            $($(#[$doc])* fn $name(&mut self, $($arg: $ty),*) -> HandlerResult<u64> {
                Err(io::Error::from_raw_os_error(libc::ENOSYS))
            })*
        }

        /// It panics where the lock is poisoned.
        impl<S: VhostUserFrontendReqHandlerMut> VhostUserFrontendReqHandler for Mutex<S> {
            $(fn $name(&self, $($arg: $ty),*) -> HandlerResult<u64> {
                self.lock().unwrap().$name($($arg),*)
            })*
        }
    };
}

handlers! {
    /// The configuration space changed, as that of a disk does that grew.
    fn handle_config_change();

    /// The device shares an object of this name.
    fn shared_object_add(uuid: &VhostUserSharedMsg);

    /// It shares it no more.
    fn shared_object_remove(uuid: &VhostUserSharedMsg);

    /// The object of this name is looked up.
    fn shared_object_lookup(uuid: &VhostUserSharedMsg, fd: &dyn AsRawFd);

    /// A part of what the descriptor maps is to be mapped into a region of shared memory.
    fn shmem_map(req: &VhostUserMMap, fd: &dyn AsRawFd);

    /// A part of a region of shared memory is to be unmapped.
    fn shmem_unmap(req: &VhostUserMMap);
}

/// The frontend's end of the backend channel, and who serves it.
///
/// It makes a pair of sockets. One of them goes to the device, by
/// [`set_backend_request_fd`](super::VhostUserFrontend::set_backend_request_fd), and stays open here; so the channel does not end
/// before this does.
pub struct FrontendReqHandler<S: VhostUserFrontendReqHandler> {
    backend: Arc<S>,
    connection: ServedConnection<ChannelServer>,
    given: UnixStream,
}

impl<S: VhostUserFrontendReqHandler> FrontendReqHandler<S> {
    /// A channel without acknowledgements. SocketError: the system gives no sockets. It panics where an allocation fails.
    pub fn new(backend: Arc<S>) -> Result<Self> {
        let (given, socket) = UnixStream::pair().map_err(Error::SocketError)?;
        let session = ChannelServer::open().expect("allocation of a session failed");
        Ok(FrontendReqHandler { backend, connection: ServedConnection::over(session, socket), given })
    }

    /// The descriptor that is to go to the device. It stays this handler's.
    pub fn get_tx_raw_fd(&self) -> RawFd {
        self.given.as_raw_fd()
    }

    /// Whether REPLY_ACK was accepted: then each request is acknowledged that asks for it.
    pub fn set_reply_ack_flag(&mut self, enable: bool) {
        self.connection.set(|session| session.set_reply_ack(enable));
    }

    /// Limits the time of each reply; None: no limit. Where it passes, since the device does not read, the channel ends:
    /// SocketBroken, with a cause of the kind `TimedOut`.
    pub fn set_reply_timeout(&mut self, timeout: Option<Duration>) {
        self.connection.set_send_timeout(timeout);
    }

    /// Ends the channel: each later call is SocketBroken by this number of the system. 0: it goes on.
    pub fn set_failed(&mut self, error: i32) {
        self.connection.set_failed(Some(error).filter(|error| *error != 0));
    }

    /// The number of the request that came last, as its header has it, also of one that was refused or came in part: that of a
    /// [`BackendReq`](super::message::BackendReq), or of no request. None before the first, and where less of the last came.
    pub fn last_request(&self) -> Option<u32> {
        self.connection.last_request()
    }

    /// Serves the next request: the value that was returned. It waits for the request as long as the device likes, as
    /// [`handle_request`](super::BackendReqHandler::handle_request) of a backend does, and has its errors. ReqHandlerError: the
    /// request was refused by who serves it, by this cause.
    pub fn handle_request(&mut self) -> Result<u64> {
        let call = self.connection.next_call()?;
        let result = serve(&*self.backend, &mut self.connection, call)?;
        let replied = match &result {
            Ok(value) => self.connection.reply(|session| session.reply_number(*value)),
            Err(cause) => {
                let errno = cause.raw_os_error().unwrap_or(libc::EINVAL);
                self.connection.reply(|session| session.reply_errno(errno))
            }
        };
        replied?;
        result.map_err(Error::ReqHandlerError)
    }
}

impl<S: VhostUserFrontendReqHandler> AsRawFd for FrontendReqHandler<S> {
    fn as_raw_fd(&self) -> RawFd {
        self.connection.as_raw_fd()
    }
}

/// Asks for what the request asks.
fn serve(
    backend: &impl VhostUserFrontendReqHandler,
    it: &mut ServedConnection<ChannelServer>,
    call: u32,
) -> Result<HandlerResult<u64>> {
    Ok(match BackendReq::try_from(call) {
        Ok(BackendReq::CONFIG_CHANGE_MSG) => backend.handle_config_change(),
        Ok(BackendReq::SHARED_OBJECT_ADD) => backend.shared_object_add(&it.object()?),
        Ok(BackendReq::SHARED_OBJECT_REMOVE) => backend.shared_object_remove(&it.object()?),
        Ok(BackendReq::SHARED_OBJECT_LOOKUP) => {
            let (object, fd) = (it.object()?, it.argument(ChannelServer::fd)?);
            backend.shared_object_lookup(&object, &it.claim(fd)?)
        }
        Ok(BackendReq::SHMEM_MAP) => {
            let (part, fd) = (it.part()?, it.argument(ChannelServer::fd)?);
            backend.shmem_map(&part, &it.claim(fd)?)
        }
        Ok(BackendReq::SHMEM_UNMAP) => backend.shmem_unmap(&it.part()?),
        // (the session asks no other)
        _ => return Err(it.break_by(Error::InvalidMessage)),
    })
}

/// The arguments of a call.
impl ServedConnection<ChannelServer> {
    fn object(&mut self) -> Result<VhostUserSharedMsg> {
        let name = self.argument(ChannelServer::name)?;
        Ok(VhostUserSharedMsg { uuid: uuid::Uuid::from_bytes(name) })
    }

    fn part(&mut self) -> Result<VhostUserMMap> {
        let Mmap { fd_offset, shm_offset, len, flags, shmid } = self.argument(ChannelServer::mmap)?;
        Ok(VhostUserMMap { shmid, fd_offset, shm_offset, len, flags, ..Default::default() })
    }
}
