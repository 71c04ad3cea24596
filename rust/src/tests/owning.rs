// SPDX-License-Identifier: Apache-2.0
//! What a session owns: each descriptor that came is counted by the other end of its socket, whatever another test opens meanwhile.
use std::io::Read;
use std::os::unix::io::{AsRawFd, FromRawFd, OwnedFd, RawFd};
use std::os::unix::net::UnixStream;

use crate::foreign::{BackendSession, ChannelServer, ChannelSession, DisplaySession, Moves, Owning, PeerFd, Serves, Session};

/// So many descriptors that came, and how many of them are open still.
struct Came(Vec<UnixStream>);

impl Came {
    fn new(count: usize) -> (Vec<PeerFd>, Came) {
        let pairs = (0..count).map(|_| UnixStream::pair().unwrap());
        let (came, others): (Vec<UnixStream>, Vec<UnixStream>) = pairs.unzip();
        others.iter().for_each(|other| other.set_nonblocking(true).unwrap());
        (came.into_iter().map(|it| PeerFd::from(OwnedFd::from(it))).collect(), Came(others))
    }

    fn open(&self) -> usize {
        self.0.iter().filter(|other| (&**other).read(&mut [0]).is_err()).count()
    }
}

fn message(code: u32, flags: u32, body: &[u8]) -> Vec<u8> {
    let head = [code, flags, body.len() as u32].map(u32::to_le_bytes).concat();
    [&head, body].concat()
}

/// Hands in a message, with these on its first byte.
fn hear<S: Moves, F: AsRawFd + FromRawFd>(session: &mut Owning<S, F>, message: &[u8], fds: &mut Vec<F>) {
    let mut left = message;
    while !left.is_empty() {
        let (piece, rest) = left.split_at(session.missing().min(left.len()));
        session.receive(piece, fds).unwrap();
        assert!(fds.is_empty());
        left = rest;
    }
}

/// SET_MEM_TABLE, with 8 regions.
fn table() -> Vec<u8> {
    let regions = (1..9u64).flat_map(|at| [at << 20, 0x1000, at << 20, 0]);
    message(5, 1, &[8].into_iter().chain(regions).flat_map(u64::to_le_bytes).collect::<Vec<u8>>())
}

/// A backend's session that has a call with 8 descriptors to be replied to.
fn called() -> (Owning<BackendSession>, Came, [RawFd; 8]) {
    let mut session = Owning::new(BackendSession::open().unwrap());
    let (mut fds, came) = Came::new(8);
    let numbers: Vec<RawFd> = fds.iter().map(AsRawFd::as_raw_fd).collect();
    hear(&mut session, &table(), &mut fds);
    assert_eq!(Ok(5), session.next());
    (session, came, numbers.try_into().unwrap())
}

/// The call is still to be replied to when the session is dropped, and one of its descriptors was claimed: that one outlives it.
#[test]
fn an_open_call_that_is_dropped() {
    let (mut session, came, fds) = called();
    let claimed = session.claim(fds[3]).unwrap();
    assert!(session.claim(fds[3]).is_err());
    assert!(session.claim(0).is_err());
    session.settle();
    assert_eq!(8, came.open());
    drop(session);
    assert_eq!(1, came.open());
    drop(claimed);
    assert_eq!(0, came.open());
}

/// A call that is replied to, or given up, has none any more.
#[test]
fn a_call_that_is_over() {
    let (mut session, came, fds) = called();
    session.reply_done().unwrap();
    assert!(session.claim(fds[0]).is_err());
    assert_eq!(8, came.open());
    session.settle();
    assert_eq!(0, came.open());
    let (mut session, came, _) = called();
    session.give_up();
    assert_eq!(0, came.open());
}

/// A refused request; one of which a part came; and what came behind a first byte, which is closed at once.
#[test]
fn a_request_that_is_no_call() {
    let mut session = Owning::new(BackendSession::open().unwrap());
    let (mut fds, came) = Came::new(32);
    hear(&mut session, &message(3, 1, &[]), &mut fds);
    session.next().unwrap_err();
    session.settle();
    assert_eq!(0, came.open());
    let (mut fds, came) = Came::new(2);
    let (mut late_fds, late) = Came::new(32);
    hear(&mut session, &table()[..12], &mut fds);
    hear(&mut session, &table()[12..20], &mut late_fds);
    assert_eq!((2, 0), (came.open(), late.open()));
    drop(session);
    assert_eq!(0, came.open());
}

/// More than may be, or with no byte: they stay where they are.
#[test]
fn what_is_not_taken_in() {
    let mut session = Owning::new(BackendSession::open().unwrap());
    let (mut fds, came) = Came::new(33);
    session.receive(&table()[..12], &mut fds).unwrap_err();
    fds.pop();
    session.receive(&[], &mut fds).unwrap_err();
    drop(session);
    assert_eq!(32, came.open());
}

/// The backend channel: a call of a frontend's side, and a reply, which brings none that anybody may claim.
#[test]
fn of_the_channels() {
    let mut server = Owning::new(ChannelServer::open().unwrap());
    let (mut fds, came) = Came::new(1);
    hear(&mut server, &message(8, 1, &[0x10; 16]), &mut fds);
    assert_eq!(Ok(8), server.next());
    assert_eq!(1, came.open());
    drop(server);
    assert_eq!(0, came.open());
    let mut channel = Owning::new(ChannelSession::open().unwrap());
    channel.set_reply_ack(true).unwrap();
    channel.set_config_change(true).unwrap();
    channel.config_change().unwrap();
    let (mut fds, came) = Came::new(1);
    let fd = fds[0].as_raw_fd();
    hear(&mut channel, &message(2, 5, &[0; 8]), &mut fds);
    assert!(channel.claim(fd).is_err());
    assert_eq!(0, came.open());
    let mut display = Owning::new(DisplaySession::open().unwrap());
    display.get_protocol_features().unwrap();
    let (mut fds, came) = Came::new(1);
    hear(&mut display, &message(1, 4, &[0; 8]), &mut fds);
    assert_eq!(0, came.open());
}

/// A frontend's session that is dropped with a reply's descriptor that was not claimed, or was.
#[test]
fn a_reply_that_nobody_claims() {
    for is_claimed in [false, true] {
        let mut session = Owning::new(Session::open(1).unwrap());
        let all = u64::MAX.to_le_bytes();
        session.get_features().unwrap();
        hear(&mut session, &message(1, 5, &all), &mut Vec::new());
        session.take_reply().unwrap();
        session.set_protocol_features(1 << 18).unwrap();
        session.take_reply().unwrap();
        session.get_shared_object(&[0x10; 16]).unwrap();
        let (mut fds, came) = Came::new(1);
        hear(&mut session, &message(41, 5, &[]), &mut fds);
        session.take_reply().unwrap();
        let fd = session.answer_fd().unwrap();
        let claimed = is_claimed.then(|| session.claim(fd).unwrap());
        drop(session);
        assert_eq!(usize::from(is_claimed), came.open());
        drop(claimed);
    }
}

/// A number that stands for one of others is never closed, also where it is that of an open one here.
#[test]
fn a_stand_in_is_never_closed() {
    let (own, came) = Came::new(1);
    let fd = own[0].as_raw_fd();
    let mut session = Owning::<_, RawFd>::new(BackendSession::open().unwrap());
    hear(&mut session, &table(), &mut vec![fd; 8]);
    assert_eq!(Ok(5), session.next());
    assert_eq!(Ok(fd), session.claim(fd));
    session.reply_done().unwrap();
    session.settle();
    hear(&mut session, &table(), &mut vec![fd; 8]);
    drop(session);
    assert_eq!(1, came.open());
}
