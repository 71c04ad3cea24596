// SPDX-License-Identifier: Apache-2.0
//! Bytes with descriptors over a Unix socket: `sendmsg`, `recvmsg` and `poll`.
use std::fs::read_to_string;
use std::io;
use std::mem::{size_of, size_of_val, zeroed, MaybeUninit};
use std::os::unix::io::{AsRawFd, FromRawFd, OwnedFd, RawFd};
use std::os::unix::net::UnixStream;
use std::ptr::{addr_of_mut, copy_nonoverlapping};

use super::closing::PeerFd;
use super::moving::MAX_FDS;

/// The greatest number of descriptors that the system passes on with a message.
pub(crate) const SYSTEM_FDS: usize = 253;
/// The greatest size of control messages that nobody here asked for. Whoever keeps a copy of a socket that he gave may set its
/// options: then the sender's credentials, a label of its security, a timestamp or its process come along.
const FOREIGN: usize = 512;
/// What comes where SO_PASSPIDFD is set: a descriptor of the sender's process.
const SCM_PIDFD: libc::c_int = 4;

/// How much control data so many descriptors take.
const fn room_for(fds: usize) -> usize {
    // SAFETY: it computes a size.
    unsafe { libc::CMSG_SPACE((size_of::<RawFd>() * fds) as u32) as usize }
}

/// Room for so much control data of a message, at an address that its headers may stand at.
#[repr(C)]
union Control<const ROOM: usize> {
    _align: libc::cmsghdr,
    bytes: [u8; ROOM],
}

/// What one `recvmsg` received.
pub(crate) struct Received {
    /// How many bytes; 0 at the end of the stream.
    pub(crate) count: usize,
    /// Whether more descriptors came than there may, or some that the system dropped.
    pub(crate) has_too_many: bool,
}

/// Sends a part of these bytes, at least one, with all of the descriptors on the first of them: how many bytes. It raises no
/// SIGPIPE. The descriptors stay the caller's; there are `SYSTEM_FDS` at most.
pub(crate) fn send(socket: &UnixStream, bytes: &[u8], fds: &[RawFd], is_waiting: bool) -> io::Result<usize> {
    let mut piece = libc::iovec { iov_base: bytes.as_ptr() as *mut libc::c_void, iov_len: bytes.len() };
    let flags = libc::MSG_NOSIGNAL | if is_waiting { 0 } else { libc::MSG_DONTWAIT };
    // SAFETY: a message of zeros is valid, and has no parts.
    let mut message: libc::msghdr = unsafe { zeroed() };
    message.msg_iov = &mut piece;
    message.msg_iovlen = 1;
    let sent = match fds {
        // SAFETY: the message points to `piece` and the bytes, which outlive the call; the bytes are only read.
        [] => unsafe { libc::sendmsg(socket.as_raw_fd(), &message, flags) },
        fds => send_attached(socket, message, fds, flags),
    };
    usize::try_from(sent).map_err(|_| io::Error::last_os_error())
}

/// Sends a message that points to its bytes, with these descriptors, of which there are `SYSTEM_FDS` at most: what `sendmsg`
/// returns.
#[cold]
fn send_attached(socket: &UnixStream, mut message: libc::msghdr, fds: &[RawFd], flags: libc::c_int) -> isize {
    assert!(fds.len() <= SYSTEM_FDS);
    let length = size_of_val(fds) as u32;
    let mut control = Control { bytes: [0; room_for(SYSTEM_FDS)] };
    message.msg_control = addr_of_mut!(control).cast();
    // SAFETY: the control data has room for a header and SYSTEM_FDS descriptors, so the header is there, and its data is behind it.
    // The descriptors are copied as bytes, since that data need not be aligned for them. The message points to `control` and to the
    // caller's bytes, which outlive the call.
    unsafe {
        message.msg_controllen = libc::CMSG_SPACE(length) as _;
        let head = libc::CMSG_FIRSTHDR(&message);
        (*head).cmsg_level = libc::SOL_SOCKET;
        (*head).cmsg_type = libc::SCM_RIGHTS;
        (*head).cmsg_len = libc::CMSG_LEN(length) as _;
        copy_nonoverlapping(fds.as_ptr().cast::<u8>(), libc::CMSG_DATA(head), length as usize);
        libc::sendmsg(socket.as_raw_fd(), &message, flags)
    }
}

/// Receives a part of what fits, and puts the descriptors that came along behind `fds`: they are the caller's then, and do not
/// pass to a program that is executed. There may be `MAX_FDS`.
pub(crate) fn receive(socket: &UnixStream, room: &mut [u8], fds: &mut Vec<PeerFd>, is_waiting: bool) -> io::Result<Received> {
    let kept = fds.len();
    let mut received = receive_any(socket, room, fds, is_waiting)?;
    received.has_too_many |= fds.len() - kept > MAX_FDS;
    Ok(received)
}

/// The same, with as many descriptors as the system passes on.
pub(crate) fn receive_any(socket: &UnixStream, room: &mut [u8], fds: &mut Vec<PeerFd>, is_waiting: bool) -> io::Result<Received> {
    receive_by(socket, room, fds, if is_waiting { 0 } else { libc::MSG_DONTWAIT })
}

/// The same, without waiting, of what stays in the socket: from what SO_PEEK_OFF says on, which counts what was seen. The descriptors
/// are others of the same files.
pub(super) fn peek(socket: &UnixStream, room: &mut [u8], fds: &mut Vec<PeerFd>) -> io::Result<Received> {
    receive_by(socket, room, fds, libc::MSG_PEEK | libc::MSG_DONTWAIT)
}

/// Receives with these flags. There is room for all descriptors of a message: those without room the system closes, and may wait for.
fn receive_by(socket: &UnixStream, room: &mut [u8], fds: &mut Vec<PeerFd>, flags: libc::c_int) -> io::Result<Received> {
    const ROOM: usize = room_for(SYSTEM_FDS) + FOREIGN;
    let mut control = MaybeUninit::<Control<ROOM>>::uninit();
    let mut piece = libc::iovec { iov_base: room.as_mut_ptr().cast(), iov_len: room.len() };
    // SAFETY: a message of zeros is valid, and has no parts.
    let mut message: libc::msghdr = unsafe { zeroed() };
    message.msg_iov = &mut piece;
    message.msg_iovlen = 1;
    message.msg_control = control.as_mut_ptr().cast();
    message.msg_controllen = ROOM as _;
    // SAFETY: the message points to `piece`, the room and `control`, which all outlive the call; `control` is only written.
    let got = unsafe { libc::recvmsg(socket.as_raw_fd(), &mut message, flags | libc::MSG_CMSG_CLOEXEC) };
    let count = usize::try_from(got).map_err(|_| io::Error::last_os_error())?;
    if message.msg_controllen != 0 {
        // SAFETY: the system filled in the message, and of its control data as much as the message says.
        unsafe { gather(&message, fds) };
    }
    Ok(Received { count, has_too_many: message.msg_flags & libc::MSG_CTRUNC != 0 })
}

/// Takes over the descriptors of a message: what was attached to it is put behind `fds`, and what the system added is closed.
/// Control messages of other kinds bring none.
///
/// # Safety
///
/// `recvmsg` filled in the message, its control data is still there, and nobody took its descriptors over before.
#[cold]
unsafe fn gather(message: &libc::msghdr, fds: &mut Vec<PeerFd>) {
    // SAFETY: the headers and their lengths are the system's, and within the control data, which need not be aligned. What these two
    // kinds name was opened for this process by that call, and belongs to nobody else.
    unsafe {
        let mut head = libc::CMSG_FIRSTHDR(message);
        while !head.is_null() {
            let is_attached = (*head).cmsg_type == libc::SCM_RIGHTS;
            if (*head).cmsg_level == libc::SOL_SOCKET && (is_attached || (*head).cmsg_type == SCM_PIDFD) {
                let length = (*head).cmsg_len as usize - libc::CMSG_LEN(0) as usize;
                let first = libc::CMSG_DATA(head).cast::<RawFd>();
                let numbers = (0..length / size_of::<RawFd>()).map(|at| first.add(at).read_unaligned());
                // (a negative one says why the system opened none)
                let came = numbers.filter(|fd| *fd >= 0).map(|fd| PeerFd::from(OwnedFd::from_raw_fd(fd)));
                if is_attached {
                    fds.extend(came);
                } else {
                    came.for_each(drop);
                }
            }
            head = libc::CMSG_NXTHDR(message, head);
        }
    }
}

/// An option of a socket: of SOL_SOCKET, by its number.
pub(crate) fn option_of(socket: &impl AsRawFd, name: libc::c_int) -> io::Result<libc::c_int> {
    read_option(socket, name)
}

/// Whether a socket is a stream of the family AF_UNIX.
pub(crate) fn is_unix_stream(fd: &impl AsRawFd) -> io::Result<bool> {
    Ok(option_of(fd, libc::SO_DOMAIN)? == libc::AF_UNIX && option_of(fd, libc::SO_TYPE)? == libc::SOCK_STREAM)
}

/// Whether a descriptor is of a socket that lingers.
pub(super) fn lingers(fd: &impl AsRawFd) -> bool {
    // (l_onoff, l_linger)
    read_option::<[libc::c_int; 2]>(fd, libc::SO_LINGER).map_or(false, |linger| linger[0] != 0)
}

/// An option whose value is of this type.
fn read_option<T: Copy + Default>(socket: &impl AsRawFd, name: libc::c_int) -> io::Result<T> {
    let mut value = T::default();
    let mut length = size_of::<T>() as libc::socklen_t;
    let place = (&mut value as *mut T).cast();
    // SAFETY: it is one value made of numbers, and its size, borrowed for the call.
    match unsafe { libc::getsockopt(socket.as_raw_fd(), libc::SOL_SOCKET, name, place, &mut length) } {
        0 => Ok(value),
        _ => Err(io::Error::last_os_error()),
    }
}

/// Whether this thread's system calls go through a filter of its own, as a daemon has it that shuts itself in: one more than the process has that
/// began this one. Those are of a container, and let a program do what programs do. Where it can't be seen it may be so. (Of what is called for
/// it, each such filter knows.)
pub(super) fn is_filtered() -> bool {
    // SAFETY: it returns a number.
    if unsafe { libc::prctl(libc::PR_GET_SECCOMP) } == 0 {
        return false;
    }
    let inherited = match told_of("thread-self", "PPid") {
        // (the first process of a container has none that it could see, and the container's filter)
        Some(0) => Some(1),
        parent => parent.and_then(|parent| told_of(&parent.to_string(), FILTERS)),
    };
    match (told_of("thread-self", FILTERS), inherited) {
        (Some(own), Some(inherited)) => own > inherited,
        _ => true,
    }
}

/// What /proc calls the number of filters that a process has.
const FILTERS: &str = "Seccomp_filters";

/// A number that /proc has of a process, by the name that it has there.
fn told_of(process: &str, name: &str) -> Option<u32> {
    let status = read_to_string(format!("/proc/{process}/status")).ok()?;
    status.lines().find_map(|line| line.strip_prefix(name)?.strip_prefix(':'))?.trim().parse().ok()
}

/// Whether bytes wait in a socket.
pub(super) fn has_unread(socket: &impl AsRawFd) -> bool {
    let mut count: libc::c_int = 0;
    // SAFETY: it writes one number, the one that it is lent.
    unsafe { libc::ioctl(socket.as_raw_fd(), libc::FIONREAD, &mut count) == 0 && count != 0 }
}

/// Sets an option of a socket: of SOL_SOCKET, by its number, whose value is of this type. EPERM: system calls are filtered, and a filter
/// of the program's own that does not know of this one would end the process.
pub(super) fn set_option<T: Copy>(socket: &impl AsRawFd, name: libc::c_int, value: &T) -> io::Result<()> {
    if is_filtered() {
        return Err(io::Error::from_raw_os_error(libc::EPERM));
    }
    let place = (value as *const T).cast();
    // SAFETY: it is one value, and its size, borrowed for the call, which only reads it.
    match unsafe { libc::setsockopt(socket.as_raw_fd(), libc::SOL_SOCKET, name, place, size_of::<T>() as libc::socklen_t) } {
        0 => Ok(()),
        _ => Err(io::Error::last_os_error()),
    }
}

/// Waits until the socket is ready for one of these events, so many milliseconds at most; negative: no limit. Whether it is.
pub(crate) fn is_ready(socket: &UnixStream, events: libc::c_short, milliseconds: libc::c_int) -> io::Result<bool> {
    let mut polled = libc::pollfd { fd: socket.as_raw_fd(), events, revents: 0 };
    // SAFETY: it is one struct, borrowed for the call.
    match unsafe { libc::poll(&mut polled, 1, milliseconds) } {
        ready if ready < 0 => Err(io::Error::last_os_error()),
        ready => Ok(ready != 0),
    }
}

#[cfg(test)]
mod tests {
    use std::io::Read;
    use std::os::unix::io::IntoRawFd;

    use super::*;

    /// Appends a control message to control data of so many bytes.
    fn append(control: &mut [u8], at: &mut usize, kind: libc::c_int, data: &[u8]) {
        // SAFETY: a header is put where there is room for it and its data.
        unsafe {
            let space = libc::CMSG_SPACE(data.len() as u32) as usize;
            assert!(*at + space <= control.len());
            let head = control.as_mut_ptr().add(*at).cast::<libc::cmsghdr>();
            let (length, level) = (libc::CMSG_LEN(data.len() as u32) as _, libc::SOL_SOCKET);
            head.write_unaligned(libc::cmsghdr { cmsg_len: length, cmsg_level: level, cmsg_type: kind });
            copy_nonoverlapping(data.as_ptr(), libc::CMSG_DATA(head), data.len());
            *at += space;
        }
    }

    /// The end of a pair of sockets, by its number, and the other one.
    fn end_of_a_pair() -> (RawFd, UnixStream) {
        let (given, kept) = UnixStream::pair().unwrap();
        kept.set_nonblocking(true).unwrap();
        (OwnedFd::from(given).into_raw_fd(), kept)
    }

    /// Whether nobody has the other end any more.
    fn is_left(kept: &UnixStream) -> bool {
        matches!((&*kept).read(&mut [0]), Ok(0))
    }

    /// What is attached is kept among control messages of any other kind; a descriptor of the sender's process is closed, and other
    /// numbers are none.
    #[test]
    fn each_control_message_is_walked() {
        let (attached, kept) = end_of_a_pair();
        let (added, other) = end_of_a_pair();
        let mut control = Control { bytes: [0; 256] };
        let mut length = 0;
        // SAFETY: all of it was written.
        let bytes = unsafe { &mut control.bytes };
        append(bytes, &mut length, libc::SCM_CREDENTIALS, &[0; 12]);
        append(bytes, &mut length, SCM_PIDFD, &(-libc::EMFILE).to_ne_bytes());
        append(bytes, &mut length, 77, &[1; 5]);
        append(bytes, &mut length, SCM_PIDFD, &added.to_ne_bytes());
        append(bytes, &mut length, libc::SCM_RIGHTS, &attached.to_ne_bytes());
        append(bytes, &mut length, 78, &other.as_raw_fd().to_ne_bytes());
        let mut fds = Vec::new();
        // SAFETY: a message of zeros is valid; its control data is as `recvmsg` writes it, with descriptors that are given up here.
        unsafe {
            let mut message: libc::msghdr = zeroed();
            message.msg_control = addr_of_mut!(control).cast();
            message.msg_controllen = length as _;
            gather(&message, &mut fds);
        }
        assert_eq!(vec![attached], fds.iter().map(AsRawFd::as_raw_fd).collect::<Vec<_>>());
        assert!(is_left(&other));
        assert!(!is_left(&kept));
        drop(fds);
        assert!(is_left(&kept));
    }
}
