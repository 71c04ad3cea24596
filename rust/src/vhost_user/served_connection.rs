// SPDX-License-Identifier: Apache-2.0
//! A session of the proved library that serves, and the socket that it serves over: requests whole, one at a time.
use std::os::unix::io::{AsRawFd, RawFd};
use std::os::unix::net::UnixStream;
use std::time::Duration;
use std::{io, result};

use super::transport::{broken_by, end_after, error_of, last_error, receive_ready, send_all};
use super::{Error, Result};
use crate::foreign::{Code, Outcome, Owning, PeerFd, PeerSocket, Serves, MAX_MESSAGE};
use crate::reasons;
use crate::why::{Came, Seen};

/// COVRETIN_INVALID_OPERATION.
const INVALID_OPERATION: Code = Code(2);

/// A connection of a backend to its frontend; or on the backend channel the other way round.
pub(super) struct ServedConnection<S: Serves> {
    session: Owning<S>,
    socket: PeerSocket,
    /// How long it may take to send a reply.
    send_timeout: Option<Duration>,
    /// Bytes that were received, and then those of the reply: a request is received whole before it is replied to.
    bytes: Box<[u8; MAX_MESSAGE]>,
    /// Whether a part of a request has come that was neither replied to nor refused.
    has_begun: bool,
    /// What came of the last request, and whether the stream ended amid its body.
    seen: Seen,
    is_cut: bool,
    /// Why the session refused it, with the features that it lacked; or the device, where the reply says so itself: as long as nobody asked.
    refusal: Option<(Code, u64)>,
    told: Option<Error>,
    /// What ended it: the system's number of an error. A request that failed on its way has left a part of a message.
    broken: Option<i32>,
}

impl<S: Serves> ServedConnection<S> {
    /// A write timeout of the socket becomes the limit of time of each reply.
    pub(super) fn over(session: S, socket: UnixStream) -> ServedConnection<S> {
        let send_timeout = socket.write_timeout().ok().flatten();
        let (session, socket, bytes) = (Owning::new(session), PeerSocket::own(socket), Box::new([0; MAX_MESSAGE]));
        let (seen, has_begun) = (Seen::default(), false);
        ServedConnection {
            session,
            socket,
            send_timeout,
            bytes,
            has_begun,
            seen,
            is_cut: false,
            refusal: None,
            told: None,
            broken: None,
        }
    }

    pub(super) fn set_send_timeout(&mut self, timeout: Option<Duration>) {
        self.send_timeout = timeout;
    }

    pub(super) fn try_clone_socket(&self) -> io::Result<UnixStream> {
        self.socket.try_clone()
    }

    /// Ends it by this number of the system; None: it goes on.
    pub(super) fn set_failed(&mut self, errno: Option<i32>) {
        self.broken = errno;
    }

    /// Whether it is of no more use.
    pub(super) fn has_ended(&self) -> bool {
        self.broken.is_some()
    }

    /// The number of the request that came last, as its header has it.
    pub(super) fn last_request(&self) -> Option<u32> {
        self.seen.request()
    }

    /// What came of it.
    pub(super) fn came(&self) -> Came {
        self.seen.came()
    }

    /// Whether the stream ended amid its body.
    pub(super) fn is_cut(&self) -> bool {
        self.is_cut
    }

    /// Why the session refused a request, with the features that it lacked, where it did since this was last asked.
    pub(super) fn take_refusal(&mut self) -> Option<(Code, u64)> {
        self.refusal.take()
    }

    /// Notes why the device refused a call whose reply says so itself; and says it once.
    pub(super) fn note_told(&mut self, error: Error) {
        self.told = Some(error);
    }

    pub(super) fn take_told(&mut self) -> Option<Error> {
        self.told.take()
    }

    /// Sets what the session needs to know.
    pub(super) fn set(&mut self, set: impl FnOnce(&mut S) -> Outcome) {
        // It can't fail: each call was replied to, or has ended the connection.
        let _ = set(&mut self.session);
    }

    /// Receives the next request whole, and checks it: the number of what it asks. From then on a call of `reply` is owed.
    /// SocketRetry: no more has come yet; the next call goes on.
    pub(super) fn next_call(&mut self) -> Result<u32> {
        if let Some(errno) = self.broken {
            return Err(broken_by(errno));
        }
        self.receive_all()?;
        match self.session.next() {
            Ok(call) => {
                // (until it is replied to, which a panic would prevent)
                self.broken = Some(libc::EIO);
                Ok(call)
            }
            Err(code) => Err(self.refuse_request(code)),
        }
    }

    /// Replies, and sends what is to be sent. BackendInternalError: it was replied that the device refused.
    pub(super) fn reply(&mut self, say: impl FnOnce(&mut S) -> Outcome) -> Result<()> {
        let said = say(&mut self.session).map_err(|code| error_of(code, 0));
        self.end_request();
        self.send()?;
        match said {
            Ok(()) | Err(Error::BackendInternalError) => {
                self.broken = None;
                self.end_with_session();
                said
            }
            Err(error) => Err(self.break_by(error)),
        }
    }

    /// Reads arguments of the call that is to be replied to.
    pub(super) fn argument<T>(&mut self, read: impl FnOnce(&mut S) -> result::Result<T, Code>) -> Result<T> {
        read(&mut self.session).map_err(|code| error_of(code, 0))
    }

    /// The same, which may write to a buffer for bytes.
    pub(super) fn argument_bytes<T>(
        &mut self,
        read: impl FnOnce(&mut S, &mut [u8; MAX_MESSAGE]) -> result::Result<T, Code>,
    ) -> Result<(T, &[u8; MAX_MESSAGE])> {
        let read = read(&mut self.session, &mut self.bytes).map_err(|code| error_of(code, 0))?;
        Ok((read, &self.bytes))
    }

    /// The descriptor of this number, of those that came with the request.
    pub(super) fn claim(&mut self, fd: RawFd) -> Result<PeerFd> {
        self.session.claim(fd).map_err(|_| self.break_by(Error::InvalidMessage))
    }

    /// Receives what is missing of the request.
    fn receive_all(&mut self) -> Result<()> {
        loop {
            // No further: the system does not say at which byte descriptors came.
            let missing = self.session.missing().min(MAX_MESSAGE);
            if missing == 0 {
                return Ok(());
            }
            let mut fds = Vec::new();
            let count = match receive_ready(&self.socket, &mut self.bytes[..missing], &mut fds, true) {
                Ok(count) => count,
                Err(Error::SocketRetry(cause)) => return Err(Error::SocketRetry(cause)),
                Err(error) => return Err(self.break_by(error)),
            };
            if count == 0 {
                return Err(self.end());
            }
            self.seen.note(&self.bytes[..count], fds.len(), !self.has_begun);
            if let Err(code) = self.session.receive(&self.bytes[..count], &mut fds) {
                return Err(self.break_by(error_of(code, 0)));
            }
            self.has_begun = true;
        }
    }

    /// The request was replied to, or refused. What came with it and was not claimed is closed.
    fn end_request(&mut self) {
        self.has_begun = false;
        self.session.settle();
    }

    /// What it means that the stream ended here. Between two requests it can be asked again.
    #[cold]
    fn end(&mut self) -> Error {
        match self.session.end() {
            Err(code) => match error_of(code, 0) {
                Error::Disconnected => Error::Disconnected,
                error => {
                    self.is_cut = matches!(error, Error::InvalidMessage);
                    self.break_by(error)
                }
            },
            Ok(()) => self.break_by(Error::Disconnected),
        }
    }

    /// Why a request was refused. It may be acknowledged, and the connection goes on where the request was well-formed.
    #[cold]
    fn refuse_request(&mut self, code: Code) -> Error {
        self.end_request();
        self.refusal = Some((code, self.session.inactive()));
        let error = match code {
            INVALID_OPERATION => Error::InvalidOperation(reasons::OTHER_STATE),
            code => error_of(code, self.session.inactive()),
        };
        let error = match (self.send(), error) {
            (Err(error), _) => error,
            (Ok(()), error @ (Error::InvalidMessage | Error::SocketBroken(_) | Error::SocketRetry(_))) => self.break_by(error),
            (Ok(()), error) => error,
        };
        self.end_with_session();
        error
    }

    /// Hangs up where the session could not answer whoever waits.
    fn end_with_session(&mut self) {
        if self.session.ended() {
            self.broken = Some(libc::EPROTO);
            self.socket.hang_up();
        }
    }

    fn send(&mut self) -> Result<()> {
        let end = end_after(self.send_timeout);
        match send_all(&self.socket, &mut *self.session, &mut self.bytes, end) {
            Ok(_) => Ok(()),
            // Also where nothing was sent: who waits for a reply is hung up on.
            Err(unsent) => Err(self.break_by(unsent.into())),
        }
    }

    /// Ends the connection by this error.
    #[cold]
    pub(super) fn break_by(&mut self, error: Error) -> Error {
        let (error, errno) = last_error(error);
        self.broken = Some(errno);
        self.session.give_up();
        error
    }
}

impl<S: Serves> Drop for ServedConnection<S> {
    /// Who shares the socket can make no use of it either where a part of a message may be left in it.
    fn drop(&mut self) {
        if self.broken.is_some() {
            self.socket.hang_up();
        }
    }
}

impl<S: Serves> AsRawFd for ServedConnection<S> {
    fn as_raw_fd(&self) -> RawFd {
        self.socket.as_raw_fd()
    }
}
