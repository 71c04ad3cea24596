// SPDX-License-Identifier: Apache-2.0
//! What the tests have in common: a backend that a test plays by hand at the other end of a socket, and the open descriptors
//! before and after each test. All bytes are the vhost-user specification's.
#![allow(dead_code)]
pub mod device;
pub mod lingering;
pub mod machine;
pub mod random;
pub mod requests;
pub mod tap;

use std::fs::{read_dir, read_link, read_to_string, File};
use std::io::{self, ErrorKind, Read, Write};
use std::mem::{size_of, size_of_val, zeroed};
use std::os::unix::fs::MetadataExt;
use std::os::unix::io::{AsRawFd, FromRawFd, OwnedFd, RawFd};
use std::os::unix::net::UnixStream;
use std::sync::{Mutex, PoisonError};
use std::thread;
use std::time::Duration;

use covretin::vhost_user::message::*;
use covretin::vhost_user::{Error as ProtocolError, Frontend, VhostUserFrontend};
use covretin::{Error, Result, VhostBackend};

/// The flags of a request; of one that wants to be acknowledged; of a reply.
pub const ASKS: u32 = 1;
pub const WANTS: u32 = 9;
pub const REPLIES: u32 = 5;

/// Bit 30 of the virtio features: there are protocol features.
pub const PROTOCOL: u64 = 1 << 30;
/// The protocol features whose requests a frontend makes: MQ, LOG_SHMFD, REPLY_ACK, MTU, BACKEND_REQ, PAGEFAULT, CONFIG,
/// INFLIGHT_SHMFD, RESET_DEVICE, CONFIGURE_MEM_SLOTS, SHARED_OBJECT, DEVICE_STATE, SHMEM.
pub const ALL: u64 = 0x4c_b33b;

/// The rings of the frontends here.
pub const RINGS: u64 = 4;

/// Runs a test alone, and compares the open descriptors before and after it.
pub fn counted(test: impl FnOnce()) {
    static ALONE: Mutex<()> = Mutex::new(());
    let _alone = ALONE.lock().unwrap_or_else(PoisonError::into_inner);
    let before = descriptors();
    test();
    // (a thread may have to close a socket that a peer gave)
    for _ in 0..machine::LIMIT {
        if before == descriptors() {
            return;
        }
        thread::sleep(Duration::from_millis(1));
    }
    assert_eq!(before, descriptors(), "open descriptors before, and after");
}

/// Each open descriptor, with what it is of. (What another thread frees makes the system's allocator open a file of its own for a
/// moment, so `debian.toml` lets one test run at a time.)
fn descriptors() -> Vec<String> {
    let fds = read_dir("/proc/self/fd").unwrap().map(|it| it.unwrap().path());
    let mut fds: Vec<String> = fds.map(|it| format!("{} {:?}", it.display(), read_link(&it).ok())).collect();
    fds.sort();
    fds
}

pub fn open_fds() -> usize {
    read_dir("/proc/self/fd").unwrap().count()
}

/// The text of a file, which is read while no other test counts.
pub fn text_of(path: &str) -> String {
    let mut text = String::new();
    counted(|| text = read_to_string(path).unwrap());
    text
}

/// The bytes of a text of hexadecimal digits, in which space means nothing.
pub fn hex(text: &str) -> Vec<u8> {
    let digits: Vec<u8> = text.chars().filter_map(|it| it.to_digit(16)).map(|it| it as u8).collect();
    digits.chunks(2).map(|it| it[0] << 4 | it[1]).collect()
}

/// A message: a header, and a body.
pub fn message(code: u32, flags: u32, body: &[u8]) -> Vec<u8> {
    announced(code, flags, body.len() as u32, body)
}

/// A message whose header says such a size.
pub fn announced(code: u32, flags: u32, size: u32, body: &[u8]) -> Vec<u8> {
    let mut bytes: Vec<u8> = [code, flags, size].iter().flat_map(|it| it.to_le_bytes()).collect();
    bytes.extend_from_slice(body);
    bytes
}

/// A file without a name, which no other descriptor maps.
pub fn memory_file() -> File {
    // SAFETY: the name is a string of C; what is made belongs to nobody else.
    unsafe {
        let fd = libc::memfd_create(b"test\0".as_ptr().cast(), libc::MFD_CLOEXEC);
        assert!(fd >= 0);
        File::from_raw_fd(fd)
    }
}

/// Which file it is.
pub fn identity(file: &File) -> (u64, u64) {
    let about = file.metadata().unwrap();
    (about.dev(), about.ino())
}

/// The backend's end of the socket.
pub struct Peer {
    pub socket: UnixStream,
}

impl Peer {
    /// Receives these bytes; the descriptors that come along have to come with the first of them.
    pub fn hear(&self, wanted: &[u8]) -> Vec<File> {
        let mut bytes = vec![0; wanted.len()];
        let fds = receive(&self.socket, &mut bytes[..1]);
        let mut at = 1;
        while at < bytes.len() {
            let count = (&self.socket).read(&mut bytes[at..]).unwrap();
            assert!(count != 0, "the request ended early: {:02x?}", &bytes[..at]);
            at += count;
        }
        assert_eq!(wanted, bytes, "\nwanted {wanted:02x?}\ncame   {bytes:02x?}");
        fds
    }

    /// Receives a request; its bytes and descriptors are not looked at.
    pub fn hear_any(&self) {
        let mut head = [0; 12];
        receive(&self.socket, &mut head[..1]);
        (&self.socket).read_exact(&mut head[1..]).unwrap();
        let size = u32::from_le_bytes([head[8], head[9], head[10], head[11]]) as usize;
        (&self.socket).read_exact(&mut vec![0; size]).unwrap();
    }

    /// Sends these bytes, with descriptors on the first of them.
    pub fn say(&self, bytes: &[u8], fds: &[&File]) {
        let fds: Vec<RawFd> = fds.iter().map(|it| it.as_raw_fd()).collect();
        // Who refuses what came before, or the first byte, for its descriptors, may be gone.
        let sent = sent_by(&self.socket, &bytes[..1], &fds, 0);
        match sent.and_then(|_| (&self.socket).write_all(&bytes[1..])) {
            Err(error) if error.kind() == ErrorKind::BrokenPipe => {}
            written => written.unwrap(),
        }
    }

    /// Replies by this number.
    pub fn say_number(&self, code: u32, number: u64) {
        self.say(&message(code, REPLIES, &number.to_le_bytes()), &[]);
    }

    /// Hears a bare get_features, and replies by this number.
    pub fn still_serves(&self, number: u64) {
        self.hear(&message(1, ASKS, &[]));
        self.say_number(1, number);
    }

    /// Whether the other side has ended the stream, with nothing before.
    pub fn is_hung_up(&self) -> bool {
        matches!((&self.socket).read(&mut [0]), Ok(0))
    }

    /// Waits until the frontend is gone, which has to send nothing before.
    pub fn silence(&self) {
        let mut rest = Vec::new();
        // A reply that the frontend left unread makes this an error, which is the end too.
        let _ = (&self.socket).read_to_end(&mut rest);
        assert!(rest.is_empty(), "sent beyond: {rest:02x?}");
    }
}

/// A frontend's calls, and the backend that another thread plays. Both have to end well.
pub fn played(backend: impl FnOnce(&Peer) + Send + 'static, calls: impl FnOnce(&mut Frontend)) {
    let (mine, other) = UnixStream::pair().unwrap();
    other.set_read_timeout(Some(Duration::from_secs(20))).unwrap();
    let playing = thread::spawn(move || {
        let peer = Peer { socket: other };
        backend(&peer);
        peer.silence();
    });
    let mut frontend = Frontend::from_stream(mine, RINGS);
    calls(&mut frontend);
    drop(frontend);
    playing.join().unwrap();
}

/// The same, after both sides agreed on these protocol features.
pub fn negotiated(features: u64, backend: impl FnOnce(&Peer) + Send + 'static, calls: impl FnOnce(&mut Frontend)) {
    played(
        move |peer| {
            peer.hear(&message(1, ASKS, &[]));
            peer.say_number(1, PROTOCOL);
            peer.hear(&message(2, ASKS, &PROTOCOL.to_le_bytes()));
            peer.hear(&message(15, ASKS, &[]));
            peer.say_number(15, features);
            peer.hear(&message(16, ASKS, &features.to_le_bytes()));
            backend(peer);
        },
        |frontend| {
            assert_eq!(PROTOCOL, frontend.get_features().unwrap());
            frontend.set_features(PROTOCOL).unwrap();
            let offered = frontend.get_protocol_features().unwrap();
            assert_eq!(features, offered.bits());
            frontend.set_protocol_features(offered).unwrap();
            calls(frontend);
        },
    );
}

/// That a call failed by an error of the protocol, which is printed so.
#[track_caller]
pub fn failed<T>(wanted: &str, result: Result<T>) {
    match result {
        Ok(_) => panic!("wanted {wanted}, and it succeeded"),
        Err(Error::VhostUserProtocol(error)) => assert_eq!(wanted, name(&error), "{error:?}"),
        Err(error) => panic!("wanted {wanted}, and came {error:?}"),
    }
}

/// An error's name, with the features that it lacks.
pub fn name(error: &ProtocolError) -> String {
    match error {
        ProtocolError::InactiveFeature(features) => format!("InactiveFeature({:#x})", features.bits()),
        ProtocolError::InactiveOperation(features) => format!("InactiveOperation({:#x})", features.bits()),
        ProtocolError::SocketBroken(cause) => format!("SocketBroken({})", cause.raw_os_error().unwrap()),
        other => format!("{other:?}"),
    }
}

pub fn need_reply(frontend: &Frontend) {
    frontend.set_hdr_flags(VhostUserHeaderFlag::NEED_REPLY);
}

/// Room for as many descriptors as the system passes on with a message.
const CONTROL: usize = 1032;

#[repr(C, align(8))]
struct Control([u8; CONTROL]);

/// Sends some bytes at once, with these descriptors.
pub fn send(socket: &UnixStream, bytes: &[u8], fds: &[RawFd]) {
    send_by(socket, bytes, fds, 0);
}

/// The same, by these flags of `sendmsg`.
pub fn send_by(socket: &UnixStream, bytes: &[u8], fds: &[RawFd], flags: i32) {
    assert_eq!(bytes.len(), sent_by(socket, bytes, fds, flags).unwrap());
}

fn sent_by(socket: &UnixStream, bytes: &[u8], fds: &[RawFd], flags: i32) -> io::Result<usize> {
    let mut control = Control([0; CONTROL]);
    let mut piece = libc::iovec { iov_base: bytes.as_ptr() as *mut _, iov_len: bytes.len() };
    // SAFETY: the message points to what outlives it; the control data has room for all descriptors.
    unsafe {
        assert!(libc::CMSG_SPACE(size_of_val(fds) as u32) as usize <= CONTROL);
        let mut message: libc::msghdr = zeroed();
        message.msg_iov = &mut piece;
        message.msg_iovlen = 1;
        if !fds.is_empty() {
            let length = size_of_val(fds) as u32;
            message.msg_control = control.0.as_mut_ptr().cast();
            message.msg_controllen = libc::CMSG_SPACE(length) as _;
            let head = libc::CMSG_FIRSTHDR(&message);
            (*head).cmsg_level = libc::SOL_SOCKET;
            (*head).cmsg_type = libc::SCM_RIGHTS;
            (*head).cmsg_len = libc::CMSG_LEN(length) as _;
            std::ptr::copy_nonoverlapping(fds.as_ptr().cast::<u8>(), libc::CMSG_DATA(head), length as usize);
        }
        usize::try_from(libc::sendmsg(socket.as_raw_fd(), &message, flags | libc::MSG_NOSIGNAL))
            .map_err(|_| io::Error::last_os_error())
    }
}

/// Receives a part of what fits, at least a byte, and the descriptors that come along.
pub fn receive(socket: &UnixStream, room: &mut [u8]) -> Vec<File> {
    let mut control = Control([0; CONTROL]);
    let mut piece = libc::iovec { iov_base: room.as_mut_ptr().cast(), iov_len: room.len() };
    let mut files = Vec::new();
    // SAFETY: as above. What comes was opened for this process.
    unsafe {
        let mut message: libc::msghdr = zeroed();
        message.msg_iov = &mut piece;
        message.msg_iovlen = 1;
        message.msg_control = control.0.as_mut_ptr().cast();
        message.msg_controllen = CONTROL;
        let count = libc::recvmsg(socket.as_raw_fd(), &mut message, libc::MSG_CMSG_CLOEXEC);
        assert!(count > 0, "no request came: {:?}", std::io::Error::last_os_error());
        let head = libc::CMSG_FIRSTHDR(&message);
        if !head.is_null() {
            let first = libc::CMSG_DATA(head).cast::<RawFd>();
            let count = ((*head).cmsg_len as usize - libc::CMSG_LEN(0) as usize) / size_of::<RawFd>();
            files.extend((0..count).map(|at| File::from(OwnedFd::from_raw_fd(first.add(at).read_unaligned()))));
        }
    }
    files
}
