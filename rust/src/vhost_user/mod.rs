// SPDX-License-Identifier: Apache-2.0
//! The vhost-user protocol, as its frontend and its backend speak it.
use std::os::unix::io::OwnedFd;
use std::{error, fmt, io, result};

mod backend;
mod backend_req;
mod backend_req_handler;
mod connection;
mod device;
mod frontend;
mod frontend_req_handler;
mod frontend_session;
mod gpu_backend_req;
pub mod gpu_message;
mod inflight_records;
mod listener;
pub mod message;
mod served_connection;
mod shown;
mod transport;
mod wire_records;

pub use self::backend::BackendListener;
pub use self::backend_req::Backend;
pub use self::backend_req_handler::BackendReqHandler;
pub use self::device::{VhostUserBackendReqHandler, VhostUserBackendReqHandlerMut};
pub use self::frontend::{Frontend, VhostUserFrontend};
pub use self::frontend_req_handler::{FrontendReqHandler, VhostUserFrontendReqHandler, VhostUserFrontendReqHandlerMut};
pub use self::gpu_backend_req::GpuBackend;
pub use self::listener::Listener;
pub use self::message::{VhostUserProtocolFeatures, VhostUserVirtioFeatures};

use crate::foreign::PeerFd;

/// Closes a descriptor that a peer sent, as the package closes those that it does not hand on: a socket lingers no more, so nobody is
/// kept waiting while it has something to send.
pub fn close_at_once(fd: impl Into<OwnedFd>) {
    drop(PeerFd::from(fd.into()));
}

/// Whose behaviour a [`Frontend`] or a [`BackendReqHandler`] has where the specification and the crate `vhost` differ.
#[derive(Clone, Copy, Debug, Default, PartialEq, Eq)]
pub enum Profile {
    /// That of the specification, and of QEMU, DPDK and other peers. Each has it at first.
    #[default]
    Standard = 0,
    /// That of the crate `vhost`.
    Vhost = 1,
}

/// The protocol features whose requests a [`BackendReqHandler`] serves, or a [`Backend`] makes: a device offers what it can do of
/// these, and no more. A frontend that accepts another may send requests that nobody serves, or wait for some that the device cannot
/// make (HOST_NOTIFIER).
pub const SERVED_PROTOCOL_FEATURES: VhostUserProtocolFeatures = VhostUserProtocolFeatures::from_bits_retain(
    Frontend::PROTOCOL_FEATURES.bits() | VhostUserProtocolFeatures::BACKEND_SEND_FD.bits(),
);

/// Why a call of the protocol failed. After `SocketBroken`, `SocketError`, `PartialMessage`, `InvalidMessage` and
/// `Disconnected` a [`Frontend`] is of no more use: each later call is `SocketBroken`. After all others it goes on, but after an
/// `IncorrectFds` for more descriptors than a message has. It goes on after a `SocketError` by EBADF or ETOOMANYREFS, too: a descriptor
/// that the request has can't be sent, and nothing of it was. What of a [`BackendReqHandler`] is,
/// [`handle_request`](BackendReqHandler::handle_request) says.
#[derive(Debug)]
pub enum Error {
    /// An argument is not allowed; nothing was sent.
    InvalidParam,
    /// The operation is not allowed.
    InvalidOperation(&'static str),
    /// This virtio feature was not negotiated; nothing was sent.
    InactiveFeature(VhostUserVirtioFeatures),
    /// This protocol feature was not negotiated; nothing was sent.
    InactiveOperation(VhostUserProtocolFeatures),
    /// The message is malformed, or the reply to another request.
    InvalidMessage,
    /// The descriptor is no socket.
    InvalidSocketFd(io::Error),
    /// The socket is not of the family AF_UNIX.
    NotUnixSocket,
    /// The socket is not of the type SOCK_STREAM.
    NotStreamSocket,
    /// The peer closed the socket, or ended, before its reply was whole; or, of a handler, in the header of a request. In the body of
    /// one that is `InvalidMessage`.
    PartialMessage,
    /// The peer closed the socket.
    Disconnected,
    /// The message is longer than one may be.
    OversizedMsg,
    /// The message came with a wrong number of descriptors.
    IncorrectFds,
    /// Nobody could be connected to.
    SocketConnect(io::Error),
    /// The system failed.
    SocketError(io::Error),
    /// The connection is of no more use. The cause is of the kind `TimedOut` where the limit of time passed.
    SocketBroken(io::Error),
    /// Of a call: an allocation failed, here or in the system, and nothing was sent. Of a handler that waits for a request: no more has come yet.
    SocketRetry(io::Error),
    /// The backend refused the request.
    BackendInternalError,
    /// The frontend refused the request.
    FrontendInternalError,
    /// The two sides have no features in common that they need.
    FeatureMismatch,
    /// A request could not be handled.
    ReqHandlerError(io::Error),
    /// No memory file could be made.
    MemFdCreateError,
    /// A memory file could not be given its size.
    FileTruncateError,
    /// A memory file could not be sealed.
    MemFdSealError,
}

impl fmt::Display for Error {
    fn fmt(&self, f: &mut fmt::Formatter<'_>) -> fmt::Result {
        f.write_str(match self {
            Error::InvalidOperation(reason) => return write!(f, "invalid operation: {reason}"),
            Error::InactiveFeature(features) => return write!(f, "inactive feature: {}", features.bits()),
            Error::InactiveOperation(features) => return write!(f, "inactive protocol operation: {}", features.bits()),
            Error::InvalidSocketFd(cause) => return write!(f, "invalid AF_UNIX SOCK_STREAM socket fd: {cause}"),
            Error::SocketConnect(cause) => return write!(f, "can't connect to peer: {cause}"),
            Error::SocketError(cause) => return write!(f, "socket error: {cause}"),
            Error::SocketBroken(cause) => return write!(f, "socket is broken: {cause}"),
            Error::SocketRetry(cause) => return write!(f, "temporary socket error: {cause}"),
            Error::ReqHandlerError(cause) => return write!(f, "handler failed to handle request: {cause}"),
            Error::InvalidParam => "invalid parameters",
            Error::InvalidMessage => "invalid message",
            Error::NotUnixSocket => "socket is not AF_UNIX",
            Error::NotStreamSocket => "socket is not SOCK_STREAM",
            Error::PartialMessage => "partial message",
            Error::Disconnected => "peer disconnected",
            Error::OversizedMsg => "oversized message",
            Error::IncorrectFds => "wrong number of attached fds",
            Error::BackendInternalError => "backend internal error",
            Error::FrontendInternalError => "Frontend internal error",
            Error::FeatureMismatch => "virtio/protocol features mismatch",
            Error::MemFdCreateError => "handler failed to allocate memfd during get_inflight_fd",
            Error::FileTruncateError => "handler failed to truncate memfd during get_inflight_fd",
            Error::MemFdSealError => "handler failed to apply seals to memfd during get_inflight_fd",
        })
    }
}

impl error::Error for Error {}

impl From<Error> for io::Error {
    fn from(cause: Error) -> Self {
        io::Error::new(io::ErrorKind::Other, cause)
    }
}

impl Error {
    /// Whether a new connection may help.
    pub fn should_reconnect(&self) -> bool {
        matches!(
            self,
            Error::PartialMessage | Error::SocketBroken(_) | Error::BackendInternalError | Error::FrontendInternalError
        )
    }
}

/// What a call of the protocol returns.
pub type Result<T> = result::Result<T, Error>;

/// What a call on the backend channel returns.
pub type HandlerResult<T> = result::Result<T, io::Error>;
