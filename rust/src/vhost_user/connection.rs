// SPDX-License-Identifier: Apache-2.0
//! A session of the proved library that asks, and the socket that it asks over: calls whole, one at a time.
use std::fs::File;
use std::os::unix::io::{AsRawFd, RawFd};
use std::os::unix::net::UnixStream;
use std::result;
use std::sync::Arc;
use std::time::Duration;

use super::frontend_session::FrontendSession;
use super::transport::{
    broken_by, end_after, error_of, last_error, receive_piece, send_all, send_piece, End, Sending, Unsent, HEADER,
};
use super::{Error, Result};
use crate::foreign::{Asks, Code, Moves, Outcome, PeerFd, PeerSocket, MAX_MESSAGE};

/// A connection of a frontend to its backend; or on the backend channel the other way round.
pub(super) struct Connection<S: Asks> {
    session: S,
    /// (who hangs up has it, too)
    socket: Arc<PeerSocket>,
    timeout: Option<Duration>,
    /// Bytes that are sent, and then those of the reply: a request goes out whole before its reply is read.
    bytes: Box<[u8; MAX_MESSAGE]>,
    /// What ended it: the system's number of an error. A call that failed on its way has left a part of a message.
    broken: Option<i32>,
}

impl Connection<FrontendSession> {
    /// A read timeout of the socket becomes the limit of time of each call.
    pub(super) fn new(socket: UnixStream, max_queue_num: u64) -> Connection<FrontendSession> {
        // (the crate's name for this returns no Result)
        let session = FrontendSession::open(max_queue_num).expect("allocation of a session failed");
        Connection::over(session, PeerSocket::own(socket))
    }
}

impl<S: Asks> Connection<S> {
    /// A session over a socket, as above.
    pub(super) fn over(session: S, socket: PeerSocket) -> Connection<S> {
        let timeout = socket.read_timeout().ok().flatten();
        Connection { session, socket: Arc::new(socket), timeout, bytes: Box::new([0; MAX_MESSAGE]), broken: None }
    }

    /// Its socket, for who hangs up amid a call.
    pub(super) fn socket(&self) -> Arc<PeerSocket> {
        Arc::clone(&self.socket)
    }

    pub(super) fn set_timeout(&mut self, timeout: Option<Duration>) {
        self.timeout = timeout;
    }

    /// Ends it by this number of the system.
    pub(super) fn set_failed(&mut self, errno: i32) {
        self.broken = Some(errno);
    }

    /// Sets what the session needs to know.
    pub(super) fn set(&mut self, set: impl FnOnce(&mut S) -> Outcome) {
        // It can't fail: each call was taken before the next, or has ended the connection.
        let _ = set(&mut self.session);
    }

    /// Makes a call whole: asks, sends the request, receives the reply and takes it.
    pub(super) fn call(&mut self, ask: impl FnOnce(&mut S) -> Outcome) -> Result<()> {
        self.call_by(ask, &[], S::take)?;
        self.session.owning().settle();
        Ok(())
    }

    /// The same of a call whose reply may bring a file: what is read of it with that one's number, which is negative where there is none.
    pub(super) fn call_for_file<T>(
        &mut self,
        ask: impl FnOnce(&mut S) -> Outcome,
        read: impl FnOnce(&mut S) -> result::Result<(T, RawFd), Code>,
    ) -> Result<(T, Option<File>)> {
        self.call_by(ask, &[], S::take)?;
        let (value, fd) = self.answer(read)?;
        let session = self.session.owning();
        let claimed = if fd < 0 { Ok(None) } else { session.claim(fd).map(Some) };
        session.settle();
        match claimed {
            Ok(fd) => Ok((value, fd.map(File::from))),
            Err(_) => Err(self.break_by(Error::InvalidMessage)),
        }
    }

    /// A call with bytes of the caller's behind the request, whose reply is taken so.
    pub(super) fn call_by<T>(
        &mut self,
        ask: impl FnOnce(&mut S) -> Outcome,
        behind: &[u8],
        take: impl FnOnce(&mut S) -> result::Result<T, Code>,
    ) -> Result<T> {
        if let Some(errno) = self.broken {
            return Err(broken_by(errno));
        }
        self.session.begin();
        ask(&mut self.session).map_err(|code| self.error_of(code))?;
        // (a panic amid a call would leave it so)
        self.broken = Some(libc::EIO);
        let end = end_after(self.timeout);
        let sent = match self.send(behind, end) {
            Ok(sent) => sent,
            Err(Unsent::Whole(error)) => return Err(self.take_back(error, take)),
            Err(Unsent::Part(error)) => return Err(self.break_by(error)),
        };
        let is_last = self.receive_all(sent, end).map_err(|error| self.break_by(error))?;
        let taken = match take(&mut self.session) {
            Ok(value) => {
                self.broken = None;
                Ok(value)
            }
            Err(code) => Err(self.refusal(code)),
        };
        if !is_last {
            self.broken = Some(libc::EPROTO);
        }
        taken
    }

    /// Reads the reply that was taken last.
    pub(super) fn answer<T>(&mut self, read: impl FnOnce(&mut S) -> result::Result<T, Code>) -> Result<T> {
        read(&mut self.session).map_err(|code| self.error_of(code))
    }

    /// Sends the request, with what is behind it: how many bytes the request had.
    fn send(&mut self, behind: &[u8], end: End) -> Sending {
        let sent = send_all(&self.socket, &mut **self.session.owning(), &mut self.bytes, end)?;
        if !behind.is_empty() {
            // (the request is out)
            send_piece(&self.socket, behind, &[], end).map_err(Error::from)?;
        }
        Ok(sent)
    }

    /// Takes a call back of which nothing was sent, for this reason: the session and the connection are as before it.
    #[cold]
    fn take_back<T>(&mut self, error: Error, take: impl FnOnce(&mut S) -> result::Result<T, Code>) -> Error {
        match self.try_to_take_back(take) {
            Ok(()) => {
                self.broken = None;
                error
            }
            Err(code) => {
                let error = self.error_of(code);
                self.break_by(error)
            }
        }
    }

    fn try_to_take_back<T>(&mut self, take: impl FnOnce(&mut S) -> result::Result<T, Code>) -> Outcome {
        if self.session.owning().missing() != 0 {
            // A header of zeros is that of no reply: so the call fails, and nothing more is awaited.
            self.session.owning().receive(&[0; HEADER], &mut Vec::new())?;
        }
        let _ = take(&mut self.session);
        self.session.undo()
    }

    /// Receives what is missing of the reply to a request of so many bytes: whether nothing came behind it, which nobody would await.
    ///
    /// The reply is all that may come, and may be as long as its request: so its header and its body come by one call. InvalidMessage:
    /// descriptors came, and bytes behind the reply, to which they may belong.
    fn receive_all(&mut self, mut sent: usize, end: End) -> Result<bool> {
        let (mut fds, mut has_fds) = (Vec::new(), false);
        let (mut at, mut count, mut came) = (0, 0, 0);
        loop {
            let missing = self.session.owning().missing();
            match missing {
                1.. if came == HEADER && S::REPLY_BODY.map_or(false, |size| size != missing) => {
                    return Err(Error::InvalidMessage)
                }
                0 if at < count && has_fds => return Err(Error::InvalidMessage),
                0 => return Ok(at == count),
                _ if at < count => {}
                _ => {
                    count = self.receive_piece(missing.max(sent), &mut fds, end)?;
                    if at != 0 {
                        // The protocol gives no meaning to descriptors behind a reply's first byte: those are closed here.
                        fds.clear();
                    }
                    (at, sent, has_fds) = (0, 0, has_fds || !fds.is_empty());
                }
            }
            let part = missing.min(count - at);
            let handed_in = self.session.owning().receive(&self.bytes[at..at + part], &mut fds);
            handed_in.map_err(|code| self.error_of(code))?;
            (at, came) = (at + part, came + part);
        }
    }

    /// Receives so many bytes at most: how many.
    fn receive_piece(&mut self, most: usize, fds: &mut Vec<PeerFd>, end: End) -> Result<usize> {
        match receive_piece(&self.socket, &mut self.bytes[..most.min(MAX_MESSAGE)], fds, end)? {
            0 => Err(Error::PartialMessage),
            count => Ok(count),
        }
    }

    /// Ends the connection by this error.
    #[cold]
    fn break_by(&mut self, error: Error) -> Error {
        let (error, errno) = last_error(error);
        self.broken = Some(errno);
        self.session.owning().give_up();
        error
    }

    /// Why a reply was refused. The connection goes on where the reply was a refusal by the peer, or had too many descriptors.
    #[cold]
    fn refusal(&mut self, code: Code) -> Error {
        match self.error_of(code) {
            error @ (Error::BackendInternalError | Error::FrontendInternalError | Error::IncorrectFds) => {
                self.broken = None;
                self.session.owning().settle();
                error
            }
            error => self.break_by(error),
        }
    }

    #[cold]
    fn error_of(&mut self, code: Code) -> Error {
        error_of(code, self.session.inactive())
    }
}

impl<S: Asks> Drop for Connection<S> {
    /// Who shares the socket can make no use of it either where a part of a message may be left in it.
    fn drop(&mut self) {
        if self.broken.is_some() {
            self.socket.hang_up();
        }
    }
}

impl<S: Asks> AsRawFd for Connection<S> {
    fn as_raw_fd(&self) -> RawFd {
        self.socket.as_raw_fd()
    }
}
