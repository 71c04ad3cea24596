// SPDX-License-Identifier: Apache-2.0
//! Sockets that keep who closes them waiting.
use std::fs::File;
use std::io::{self, ErrorKind, Write};
use std::mem::size_of;
use std::net::{TcpListener, TcpStream};
use std::os::unix::io::{AsRawFd, OwnedFd};
use std::time::{Duration, Instant};

use super::Peer;

/// How long a socket lingers, in seconds.
pub const LINGER: u32 = 100;

/// What is closed within this has not waited for a socket to linger.
#[track_caller]
pub fn at_once<T>(call: impl FnOnce() -> T) -> T {
    let started = Instant::now();
    let result = call();
    assert!(started.elapsed() < Duration::from_secs(LINGER.into()), "it waited {:?}", started.elapsed());
    result
}

/// Whether a socket lingers as it was made to.
pub fn lingers(file: &impl AsRawFd) -> bool {
    let mut linger = libc::linger { l_onoff: 0, l_linger: 0 };
    let mut length = size_of::<libc::linger>() as libc::socklen_t;
    let place = (&mut linger as *mut libc::linger).cast();
    // SAFETY: it is one struct, and its size, borrowed for the call.
    let status = unsafe { libc::getsockopt(file.as_raw_fd(), libc::SOL_SOCKET, libc::SO_LINGER, place, &mut length) };
    assert_eq!(0, status);
    (linger.l_onoff, linger.l_linger) == (1, LINGER as libc::c_int)
}

/// Lets its last owner close a socket without waiting.
pub fn linger_no_more(file: &impl AsRawFd) {
    set_option(file, libc::SO_LINGER, libc::linger { l_onoff: 0, l_linger: 0 }).unwrap();
}

/// Sets an option of SOL_SOCKET. The system may not know it.
pub fn set_option<T>(socket: &impl AsRawFd, name: libc::c_int, value: T) -> io::Result<()> {
    let place = (&value as *const T).cast();
    // SAFETY: it is one value, and its size, borrowed for the call.
    let status =
        unsafe { libc::setsockopt(socket.as_raw_fd(), libc::SOL_SOCKET, name, place, size_of::<T>() as libc::socklen_t) };
    match status {
        0 => Ok(()),
        _ => Err(io::Error::last_os_error()),
    }
}

/// Sockets that linger, each with data that its other end never reads.
pub struct Lingering {
    pub files: Vec<File>,
    pub others: Vec<TcpStream>,
}

impl Lingering {
    pub fn new(count: usize) -> Lingering {
        let listener = TcpListener::bind("127.0.0.1:0").unwrap();
        set_option(&listener, libc::SO_RCVBUF, 0x1000).unwrap();
        let pair = || {
            let mut socket = TcpStream::connect(listener.local_addr().unwrap()).unwrap();
            let (other, _) = listener.accept().unwrap();
            set_option(&socket, libc::SO_SNDBUF, 0x1000).unwrap();
            socket.set_nonblocking(true).unwrap();
            while !matches!(socket.write(&[0; 0x10000]), Err(cause) if cause.kind() == ErrorKind::WouldBlock) {}
            set_option(&socket, libc::SO_LINGER, libc::linger { l_onoff: 1, l_linger: LINGER as libc::c_int }).unwrap();
            (File::from(OwnedFd::from(socket)), other)
        };
        let (files, others) = (0..count).map(|_| pair()).unzip();
        Lingering { files, others }
    }

    /// Says these bytes with all of them, and leaves the receiver the last who has them.
    pub fn are_said(self, peer: &Peer, bytes: &[u8]) -> Vec<TcpStream> {
        peer.say(bytes, &self.files.iter().collect::<Vec<_>>());
        // (a copy is closed at once, since it is not the last)
        drop(self.files);
        self.others
    }
}
