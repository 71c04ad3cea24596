// SPDX-License-Identifier: Apache-2.0
//! What both sides do with a socket: they send and receive messages in parts, with descriptors; and they name errors as the crate
//! does.
use std::io;
use std::os::unix::io::RawFd;
use std::os::unix::net::UnixStream;
use std::result;
use std::time::{Duration, Instant};

use super::{Error, Result, VhostUserProtocolFeatures, VhostUserVirtioFeatures};
use crate::foreign::{is_ready, receive, send, Code, Moves, PeerFd, Received, MAX_FDS, MAX_MESSAGE};

/// The bytes of a header.
pub(super) const HEADER: usize = 12;

/// Until when something may take. None: for ever.
pub(super) type End = Option<Instant>;

/// The end of so long a time from now on.
pub(super) fn end_after(limit: Option<Duration>) -> End {
    limit.and_then(|limit| Instant::now().checked_add(limit))
}

/// Why a message was not sent.
pub(super) enum Unsent {
    /// Nothing of it was sent, and the socket is as before: memory was lacking, or a descriptor can't be sent.
    Whole(Error),
    /// The connection is of no more use.
    Part(Error),
}

impl From<Error> for Unsent {
    fn from(error: Error) -> Unsent {
        Unsent::Part(error)
    }
}

impl From<Unsent> for Error {
    fn from(unsent: Unsent) -> Error {
        match unsent {
            Unsent::Whole(error) | Unsent::Part(error) => error,
        }
    }
}

/// How many bytes were sent.
pub(super) type Sending = result::Result<usize, Unsent>;

/// Sends all that a session hands out, which is put into `bytes` piece by piece. It has one message to send at a time, which `bytes`
/// has room for.
pub(super) fn send_all(socket: &UnixStream, session: &mut impl Moves, bytes: &mut [u8; MAX_MESSAGE], end: End) -> Sending {
    let mut fds = [-1; MAX_FDS];
    let mut sent = 0;
    loop {
        let (byte_count, fd_count) = session.next_to_send(bytes, &mut fds).map_err(|code| error_of(code, 0))?;
        if byte_count == 0 {
            return Ok(sent);
        }
        send_piece(socket, &bytes[..byte_count], &fds[..fd_count], end)?;
        sent += byte_count;
        if is_whole(&bytes[..byte_count]) {
            return Ok(sent);
        }
    }
}

/// Whether these bytes are a header and as many as it announces.
fn is_whole(bytes: &[u8]) -> bool {
    match *bytes {
        [_, _, _, _, _, _, _, _, a, b, c, d, ref body @ ..] => u32::from_le_bytes([a, b, c, d]) as usize == body.len(),
        _ => false,
    }
}

/// Sends all of these bytes, the descriptors with the first of them. There is at least one byte.
pub(super) fn send_piece(socket: &UnixStream, bytes: &[u8], fds: &[RawFd], end: End) -> result::Result<(), Unsent> {
    match send(socket, bytes, fds, end.is_none()) {
        Ok(count) if count == bytes.len() => Ok(()),
        sent => send_rest(socket, bytes, fds, end, sent),
    }
}

/// The same, of which this was sent at first.
#[cold]
fn send_rest(
    socket: &UnixStream,
    bytes: &[u8],
    mut fds: &[RawFd],
    end: End,
    mut sent: io::Result<usize>,
) -> result::Result<(), Unsent> {
    let mut left = bytes;
    loop {
        match sent {
            Ok(count) => {
                left = &left[count..];
                fds = &[];
            }
            Err(cause) if left.len() == bytes.len() && is_passing(&cause) => return Err(Unsent::Whole(passing_error(cause))),
            Err(cause) => match unready(cause)? {
                None => {}
                Some(_) => wait_for(socket, libc::POLLOUT, end)?,
            },
        }
        if left.is_empty() {
            return Ok(());
        }
        sent = send(socket, left, fds, end.is_none());
    }
}

/// Whether a failed call says nothing of the socket: memory is lacking, a descriptor is not open, or too many are on their way.
fn is_passing(cause: &io::Error) -> bool {
    matches!(cause.raw_os_error(), Some(libc::ENOMEM | libc::ENOBUFS | libc::EBADF | libc::ETOOMANYREFS))
}

fn passing_error(cause: io::Error) -> Error {
    match cause.raw_os_error() {
        Some(libc::ENOMEM | libc::ENOBUFS) => Error::SocketRetry(cause),
        _ => Error::SocketError(cause),
    }
}

/// Receives at least one byte, and waits for it: how many; 0 at the end of the stream.
pub(super) fn receive_piece(socket: &UnixStream, room: &mut [u8], fds: &mut Vec<PeerFd>, end: End) -> Result<usize> {
    loop {
        match receive_ready(socket, room, fds, end.is_none()) {
            Err(Error::SocketRetry(_)) => wait_for(socket, libc::POLLIN, end)?,
            received => return received,
        }
    }
}

/// The same; with `is_waiting` it waits as the socket does. SocketRetry: there is nothing yet.
pub(super) fn receive_ready(socket: &UnixStream, room: &mut [u8], fds: &mut Vec<PeerFd>, is_waiting: bool) -> Result<usize> {
    loop {
        match receive(socket, room, fds, is_waiting) {
            Ok(Received { count, has_too_many: false }) => return Ok(count),
            Ok(_) => return Err(Error::IncorrectFds),
            Err(cause) => {
                if let Some(cause) = unready(cause)? {
                    return Err(Error::SocketRetry(cause));
                }
            }
        }
    }
}

/// None after a signal, and the cause where the socket would have waited. Another error is passed on.
#[cold]
fn unready(cause: io::Error) -> Result<Option<io::Error>> {
    match cause.kind() {
        io::ErrorKind::Interrupted => Ok(None),
        io::ErrorKind::WouldBlock => Ok(Some(cause)),
        _ => Err(socket_error(cause)),
    }
}

/// Waits until the socket is ready for this.
#[cold]
fn wait_for(socket: &UnixStream, events: libc::c_short, end: End) -> Result<()> {
    loop {
        match is_ready(socket, events, left_until(end)) {
            Ok(true) => return Ok(()),
            Ok(false) if left_until(end) == 0 => return Err(Error::SocketBroken(io::Error::from_raw_os_error(libc::ETIMEDOUT))),
            Ok(false) => {}
            Err(cause) if cause.kind() == io::ErrorKind::Interrupted => {}
            Err(cause) => return Err(socket_error(cause)),
        }
    }
}

/// How many milliseconds are left until then, rounded up, 0 where none are; negative: no limit.
fn left_until(end: End) -> libc::c_int {
    end.map_or(-1, |end| {
        let left = end.saturating_duration_since(Instant::now());
        let rounded = left.as_millis() + u128::from(left.subsec_nanos() % 1_000_000 != 0);
        rounded.try_into().unwrap_or(libc::c_int::MAX)
    })
}

/// Why a call of the socket failed, as the crate sorts the system's errors. What it would try again has ended a message here.
fn socket_error(cause: io::Error) -> Error {
    match cause.raw_os_error() {
        Some(libc::EPIPE | libc::ECONNRESET | libc::ENOBUFS | libc::ENOMEM) => Error::SocketBroken(cause),
        _ => Error::SocketError(cause),
    }
}

/// An error of a session, in the crate's names, with the features that were lacking.
#[cold]
pub(super) fn error_of(code: Code, inactive: u64) -> Error {
    let no_memory = || io::Error::from_raw_os_error(libc::ENOMEM);
    match code.0 {
        1 => Error::InvalidParam,
        3 => Error::InactiveFeature(VhostUserVirtioFeatures::from_bits_retain(inactive)),
        4 => Error::InactiveOperation(VhostUserProtocolFeatures::from_bits_retain(inactive)),
        5 => Error::InvalidMessage,
        9 => Error::PartialMessage,
        10 => Error::Disconnected,
        11 => Error::OversizedMsg,
        12 => Error::IncorrectFds,
        15 => Error::SocketBroken(no_memory()),
        16 | 24 => Error::SocketRetry(no_memory()),
        17 => Error::BackendInternalError,
        18 => Error::FrontendInternalError,
        19 => Error::FeatureMismatch,
        _ => Error::InvalidOperation("refused by the session"),
    }
}

/// What ends a connection by this error: it, and the system's number for each later call. An allocation that failed amid a message
/// can't be tried again.
#[cold]
pub(super) fn last_error(error: Error) -> (Error, i32) {
    let error = match error {
        Error::SocketRetry(cause) => Error::SocketBroken(cause),
        error => error,
    };
    let errno = match &error {
        Error::SocketBroken(cause) | Error::SocketError(cause) => cause.raw_os_error().unwrap_or(libc::EIO),
        Error::PartialMessage => libc::EPIPE,
        _ => libc::EPROTO,
    };
    (error, errno)
}

/// What a connection that this ended returns to each later call.
pub(super) fn broken_by(errno: i32) -> Error {
    Error::SocketBroken(io::Error::from_raw_os_error(errno))
}
