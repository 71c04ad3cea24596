// SPDX-License-Identifier: Apache-2.0
//! Passes a stream on: each byte and descriptor unchanged, and at once. What is received of a message goes out by one send where it
//! came at one time, and the rest of it when it comes. Whether anyone looks at it changes nothing.
use std::io;
use std::net::Shutdown;
use std::os::unix::net::UnixStream;
use std::sync::Arc;
use std::thread;

use super::event::{Channel, Message, Side, Way, What};
use super::finding::{SENDS_NO_MORE, STOPPED, TAKEN_NO_MORE};
use super::gathering::{Gathering, Received, ROOM};
use super::open_sockets::OpenSockets;
use super::reporter::Reporter;
use crate::foreign::{is_ready, is_unix_stream, receive_any, send, PeerFd, PeerSocket};
use crate::vhost_user::message::FrontendReq;

/// One way between two sockets.
struct Line {
    way: Way,
    from: Arc<PeerSocket>,
    to: Arc<PeerSocket>,
    reporter: Reporter,
    open: OpenSockets,
}

/// Passes on between a frontend and a backend until both ways have ended, each way in a thread.
pub(super) fn pass_between(channel: Channel, frontend: UnixStream, backend: UnixStream, reporter: &Reporter, open: &OpenSockets) {
    // (on the backend channel the frontend has a copy of it)
    let frontend = if channel == Channel::Device { PeerSocket::own(frontend) } else { PeerSocket::given(frontend) };
    let (frontend, backend) = (Arc::new(frontend), Arc::new(PeerSocket::own(backend)));
    let _open = open.add([frontend.clone(), backend.clone()]);
    let line = |from: Side| {
        let way = Way { channel, from };
        let (from, to) = match from {
            Side::Frontend => (frontend.clone(), backend.clone()),
            Side::Backend => (backend.clone(), frontend.clone()),
        };
        Line { way, from, to, reporter: reporter.clone(), open: open.clone() }
    };
    let (there, back) = (line(Side::Frontend), line(Side::Backend));
    match thread::Builder::new().spawn(move || back.pass_all()) {
        Ok(thread) => {
            there.pass_all();
            let _ = thread.join();
        }
        // (both sockets are closed once this call has ended)
        Err(cause) => reporter.tell(What::Ended(there.way, Some(cause.to_string()))),
    }
}

impl Line {
    fn pass_all(&self) {
        let mut gathering = Gathering::default();
        let ended = self.pass_messages(&mut gathering);
        self.tell_part(&gathering);
        let is_gone = matches!(ended, Ok(Some(_))) || is_ready(&self.from, 0, 0).unwrap_or(true);
        // (before the other side hears of it: what that does then is told of behind it)
        self.reporter.tell(What::Ended(self.way, self.cause_of(&ended, is_gone)));
        match ended {
            // The receiver is told in the same way: that no more comes, or that its peer is gone.
            Ok(_) => drop(self.to.shutdown(if is_gone { Shutdown::Both } else { Shutdown::Write })),
            // The sender is told; what the receiver sent before still goes the other way.
            Err(_) => drop(self.from.shutdown(Shutdown::Read)),
        }
    }

    /// Why the stream ended so. None: its sender is gone.
    fn cause_of(&self, ended: &io::Result<Option<io::Error>>, is_gone: bool) -> Option<String> {
        match ended {
            _ if self.open.is_stopped() => Some(STOPPED.to_string()),
            Ok(None) => (!is_gone).then(|| SENDS_NO_MORE.to_string()),
            Ok(Some(cause)) => Some(cause.to_string()),
            Err(cause) => Some(format!("{TAKEN_NO_MORE}: {cause}")),
        }
    }

    /// Passes on until the sender's stream ends, or fails so. An error: the receiver takes no more.
    fn pass_messages(&self, gathering: &mut Gathering) -> io::Result<Option<io::Error>> {
        let mut room = vec![0; ROOM];
        loop {
            let missing = gathering.missing();
            let (count, fds) = match self.receive(&mut room[..missing], gathering) {
                Ok(Some(received)) => received,
                // (what is there goes out before one waits for more)
                Ok(None) => {
                    self.pass_held(gathering)?;
                    continue;
                }
                Err(cause) => {
                    self.pass_last(gathering);
                    return Ok(Some(cause));
                }
            };
            if count == 0 {
                self.pass_last(gathering);
                return Ok(None);
            }
            if !fds.is_empty() {
                self.pass_held(gathering)?;
            }
            self.pass_on(gathering, &room[..count], fds)?;
        }
    }

    /// Some bytes, and their descriptors. It waits where nothing is held back; None: it would have to.
    fn receive(&self, room: &mut [u8], gathering: &Gathering) -> io::Result<Option<(usize, Vec<PeerFd>)>> {
        let mut fds = Vec::new();
        loop {
            match receive_any(&self.from, room, &mut fds, !gathering.holds()) {
                Ok(received) => {
                    if received.has_too_many {
                        eprintln!("covretin-tap: the system dropped descriptors of a message, since too many are open");
                    }
                    return Ok(Some((received.count, fds)));
                }
                Err(cause) if cause.kind() == io::ErrorKind::Interrupted => {}
                Err(cause) if cause.kind() == io::ErrorKind::WouldBlock && gathering.holds() => return Ok(None),
                // (a frontend's own socket need not block: that of the backend channel)
                Err(cause) if cause.kind() == io::ErrorKind::WouldBlock => wait_for(&self.from, libc::POLLIN),
                Err(cause) => return Err(cause),
            }
        }
    }

    /// Passes on what was received, if it ends a message; it is told of before, so that what follows from it is told of behind it.
    fn pass_on(&self, gathering: &mut Gathering, bytes: &[u8], fds: Vec<PeerFd>) -> io::Result<()> {
        match gathering.take_in(bytes, fds) {
            Received::Part => return Ok(()),
            Received::Bytes => self.reporter.tell(What::Bytes(self.way, bytes.to_vec())),
            Received::Message => {
                self.reporter.tell(What::Message(self.way, gathering.message().clone()));
                self.tap_channel(gathering);
            }
        }
        self.pass_held(gathering)?;
        gathering.begin();
        Ok(())
    }

    fn pass_held(&self, gathering: &mut Gathering) -> io::Result<()> {
        let (mut bytes, mut fds) = gathering.held();
        while !bytes.is_empty() {
            match send(&self.to, bytes, &fds, true) {
                Ok(count) => {
                    bytes = &bytes[count..];
                    fds.clear();
                }
                Err(cause) if cause.kind() == io::ErrorKind::Interrupted => {}
                Err(cause) if cause.kind() == io::ErrorKind::WouldBlock => wait_for(&self.to, libc::POLLOUT),
                Err(cause) => return Err(cause),
            }
        }
        gathering.set_passed();
        Ok(())
    }

    /// The stream ended amid a message, or not: what of it came is passed on.
    fn pass_last(&self, gathering: &mut Gathering) {
        // (where that fails, nobody is there to receive it)
        let _ = self.pass_held(gathering);
    }

    /// Tells of a message that did not come whole.
    fn tell_part(&self, gathering: &Gathering) {
        if gathering.is_part() {
            let message = Message { is_short: true, ..gathering.message().clone() };
            self.reporter.tell(What::Message(self.way, message));
        }
    }

    /// Where a frontend opens the backend channel, the backend gets another socket, from which that channel is passed on. Where
    /// that can't be made it gets the frontend's own.
    fn tap_channel(&self, gathering: &mut Gathering) {
        let is_opened = self.way.channel == Channel::Device && self.way.from == Side::Frontend;
        if !is_opened || !gathering.holds_all_of(FrontendReq::SET_BACKEND_REQ_FD.into()) {
            return;
        }
        let _ = self.try_tap_channel(gathering);
    }

    fn try_tap_channel(&self, gathering: &mut Gathering) -> io::Result<()> {
        let fd = gathering.clone_fd()?;
        if !is_unix_stream(&fd)? {
            return Ok(());
        }
        let (mine, given) = UnixStream::pair()?;
        let frontend = UnixStream::from(fd);
        let (reporter, open) = (self.reporter.clone(), self.open.clone());
        thread::Builder::new().spawn(move || pass_between(Channel::Backend, frontend, mine, &reporter, &open))?;
        gathering.replace_fds(given.into());
        Ok(())
    }
}

/// Waits until a socket is ready for this, or a signal comes. Where it can't be waited for, its next call says why.
fn wait_for(socket: &UnixStream, events: libc::c_short) {
    let _ = is_ready(socket, events, -1);
}
