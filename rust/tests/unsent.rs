// SPDX-License-Identifier: Apache-2.0
//! Messages that the system does not send: where nothing of a request went out, the session and its connection are as before.
mod common;

use std::cell::Cell;
use std::io;
use std::os::unix::io::AsRawFd;
use std::os::unix::net::UnixStream;
use std::thread;

use common::device::*;
use common::requests::*;
use common::*;
use covretin::vhost_user::gpu_message::{VhostUserGpuCursorPos, VhostUserGpuCursorUpdate, VhostUserGpuUpdate};
use covretin::vhost_user::message::*;
use covretin::vhost_user::{Backend, Error, Frontend, GpuBackend, VhostUserFrontend, VhostUserFrontendReqHandler};
use covretin::{Result, VhostBackend, VhostUserMemoryRegionInfo};

/// A number that no descriptor has.
const NOT_OPEN: i32 = 0xf_ffff;

thread_local! {
    /// How many bytes of this thread's next message are sent, and then why no more are.
    static FAILS: Cell<Option<(usize, i32)>> = const { Cell::new(None) };
}

/// The call of the C library, in whose place this one is linked: it fails where a test says so.
///
/// # Safety
///
/// The message is valid.
#[no_mangle]
pub unsafe extern "C" fn sendmsg(socket: i32, message: *const libc::msghdr, flags: i32) -> isize {
    // SAFETY: the message is the caller's, who borrows it for this call; its parts are only read.
    unsafe {
        match FAILS.with(Cell::take) {
            None => libc::syscall(libc::SYS_sendmsg, socket, message, flags) as isize,
            Some((0, errno)) => {
                *libc::__errno_location() = errno;
                -1
            }
            Some((count, errno)) => {
                FAILS.with(|it| it.set(Some((0, errno))));
                let part = (*message).msg_iov;
                let count = count.min((*part).iov_len);
                libc::syscall(libc::SYS_sendto, socket, (*part).iov_base, count, flags, 0, 0) as isize
            }
        }
    }
}

/// Makes this thread's next message fail, once so many of its bytes were sent.
fn fails_behind(count: usize, errno: i32) {
    FAILS.with(|it| it.set(Some((count, errno))));
}

/// Why a call fails of which nothing was sent.
const WHOLE: [(i32, &str); 4] = [
    (libc::ENOMEM, "SocketRetry"),
    (libc::ENOBUFS, "SocketRetry"),
    (libc::EBADF, "SocketError"),
    (libc::ETOOMANYREFS, "SocketError"),
];

/// An error's name, and the system's number.
fn told(error: &Error) -> (&'static str, i32) {
    let number = |cause: &io::Error| cause.raw_os_error().unwrap();
    match error {
        Error::SocketRetry(cause) => ("SocketRetry", number(cause)),
        Error::SocketError(cause) => ("SocketError", number(cause)),
        Error::SocketBroken(cause) => ("SocketBroken", number(cause)),
        _ => ("another error", 0),
    }
}

#[track_caller]
fn fails_by<T>(wanted: (&str, i32), result: Result<T>) {
    match result {
        Err(covretin::Error::VhostUserProtocol(error)) => assert_eq!(wanted, told(&error), "{error:?}"),
        Err(error) => panic!("{error:?}"),
        Ok(_) => panic!("wanted {wanted:?}, and it succeeded"),
    }
}

type Call = fn(&mut Frontend, i32) -> Result<()>;

fn region(fd: i32) -> VhostUserMemoryRegionInfo {
    VhostUserMemoryRegionInfo { memory_size: 0x1000, mmap_handle: fd, ..Default::default() }
}

/// All calls: each request, and what is no request of its own.
fn calls() -> Vec<Call> {
    let mut calls: Vec<Call> = requests().iter().map(|it| it.call).collect();
    calls.push(|it, _| it.set_log_base(0, None));
    calls.push(|it, _| it.postcopy_ack_mem_regions(FrontendReq::SET_MEM_TABLE));
    calls
}

/// That a frontend is as `negotiated` left it: each request that depends on what was agreed on goes out, and awaits what it did.
fn is_as_negotiated(peer: &Peer, frontend: &mut Frontend) {
    peer.say_number(17, RINGS);
    assert_eq!(RINGS, frontend.get_queue_num().unwrap());
    frontend.set_vring_enable(0, true).unwrap();
    let file = memory_file();
    assert_eq!(None, frontend.set_mem_table(&[region(file.as_raw_fd())]).unwrap());
    peer.hear(&message(17, ASKS, &[]));
    peer.hear(&message(18, ASKS, &[0, 0, 0, 0, 1, 0, 0, 0]));
    peer.hear_any();
}

/// A frontend that agreed on all features, and its backend's end, which this thread plays, too.
fn agreed(features: u64) -> (Frontend, Peer) {
    let (mine, other) = UnixStream::pair().unwrap();
    let (mut frontend, peer) = (Frontend::from_stream(mine, RINGS), Peer { socket: other });
    peer.say_number(1, PROTOCOL);
    assert_eq!(PROTOCOL, frontend.get_features().unwrap());
    frontend.set_features(PROTOCOL).unwrap();
    peer.say_number(15, features);
    let offered = frontend.get_protocol_features().unwrap();
    frontend.set_protocol_features(offered).unwrap();
    (0..4).for_each(|_| peer.hear_any());
    (frontend, peer)
}

/// The system itself refuses each: the next call is as if there had been none.
#[test]
fn a_descriptor_that_is_not_open_breaks_nothing() {
    counted(|| {
        for call in requests().iter().filter(|it| it.sends).map(|it| it.call) {
            for wants_reply in [false, true] {
                let (mut frontend, peer) = agreed(ALL);
                if wants_reply {
                    need_reply(&frontend);
                }
                fails_by(("SocketError", libc::EBADF), call(&mut frontend, NOT_OPEN));
                fails_by(("SocketError", libc::EBADF), call(&mut frontend, NOT_OPEN));
                frontend.set_hdr_flags(VhostUserHeaderFlag::empty());
                is_as_negotiated(&peer, &mut frontend);
                drop(frontend);
                peer.silence();
            }
        }
    });
}

/// Each call, for each reason, with an acknowledgement and without.
#[test]
fn a_request_that_was_not_sent_breaks_nothing() {
    counted(|| {
        for call in calls() {
            for (errno, wanted) in WHOLE {
                for wants_reply in [false, true] {
                    let (mut frontend, peer) = agreed(ALL);
                    if wants_reply {
                        need_reply(&frontend);
                    }
                    fails_behind(0, errno);
                    fails_by((wanted, errno), call(&mut frontend, NOT_OPEN));
                    frontend.set_hdr_flags(VhostUserHeaderFlag::empty());
                    is_as_negotiated(&peer, &mut frontend);
                    drop(frontend);
                    peer.silence();
                }
            }
        }
    });
}

/// What a call would have changed is not changed.
#[test]
fn nothing_is_agreed_on_by_a_request_that_was_not_sent() {
    counted(|| {
        let (mine, other) = UnixStream::pair().unwrap();
        let (mut frontend, peer) = (Frontend::from_stream(mine, RINGS), Peer { socket: other });
        let fails = || fails_behind(0, libc::ENOBUFS);
        let wanted = ("SocketRetry", libc::ENOBUFS);
        fails();
        fails_by(wanted, frontend.get_features());
        failed("InactiveFeature(0x40000000)", frontend.get_protocol_features());
        peer.say_number(1, PROTOCOL);
        frontend.get_features().unwrap();
        fails();
        fails_by(wanted, frontend.set_features(PROTOCOL));
        failed("InactiveFeature(0x40000000)", frontend.set_vring_enable(0, true));
        fails();
        fails_by(wanted, frontend.set_protocol_features(VhostUserProtocolFeatures::MQ));
        failed("InactiveOperation(0x1)", frontend.get_queue_num());
        frontend.set_features(PROTOCOL).unwrap();
        frontend.set_protocol_features(VhostUserProtocolFeatures::MQ).unwrap();
        // What was agreed on stays, also where no more is offered.
        peer.say_number(1, 0);
        frontend.get_features().unwrap();
        fails();
        fails_by(wanted, frontend.set_features(0));
        frontend.set_vring_enable(0, true).unwrap();
        failed("InactiveFeature(0x40000000)", frontend.get_protocol_features());
        drop(frontend);
        for (code, body) in [(1, vec![]), (2, PROTOCOL.to_le_bytes().to_vec()), (16, 1u64.to_le_bytes().to_vec()), (1, vec![])] {
            peer.hear(&message(code, ASKS, &body));
        }
        peer.hear(&message(18, ASKS, &[0, 0, 0, 0, 1, 0, 0, 0]));
        peer.silence();
    });
}

/// The regions of a table are replied with their bases exactly while postcopy listens.
#[test]
fn postcopy_is_where_it_was() {
    counted(|| {
        let file = memory_file();
        let table = |frontend: &mut Frontend| frontend.set_mem_table(&[region(file.as_raw_fd())]);
        let (mut frontend, peer) = agreed(ALL);
        fails_behind(0, libc::ENOBUFS);
        fails_by(("SocketRetry", libc::ENOBUFS), frontend.postcopy_listen());
        assert_eq!(None, table(&mut frontend).unwrap());
        peer.say_number(29, 0);
        frontend.postcopy_listen().unwrap();
        fails_behind(0, libc::ENOBUFS);
        fails_by(("SocketRetry", libc::ENOBUFS), frontend.postcopy_end());
        let body: Vec<u8> = [1u64, 0, 0x1000, 9, 0].iter().flat_map(|it| it.to_le_bytes()).collect();
        peer.say(&message(5, REPLIES, &body), &[]);
        assert_eq!(Some(vec![9]), table(&mut frontend).unwrap());
        peer.say_number(30, 0);
        frontend.postcopy_end().unwrap();
        assert_eq!(None, table(&mut frontend).unwrap());
    });
}

/// A part of a request can't be taken back.
#[test]
fn a_request_of_which_a_part_was_sent_ends_the_connection() {
    counted(|| {
        for (errno, _) in WHOLE {
            let (frontend, peer) = agreed(ALL);
            fails_behind(7, errno);
            let result = frontend.set_vring_num(0, 256);
            let wanted = if matches!(errno, libc::ENOMEM | libc::ENOBUFS) { "SocketBroken" } else { "SocketError" };
            fails_by((wanted, errno), result);
            fails_by(("SocketBroken", errno), frontend.set_vring_num(0, 256));
            drop(frontend);
            peer.hear(&message(8, ASKS, &[0; 8])[..7]);
            peer.silence();
        }
    });
}

/// The requests of a device: on the backend channel, and to its display.
#[test]
fn a_channel_goes_on() {
    fn cause<T>(result: io::Result<T>) -> (&'static str, i32) {
        let error = result.err().unwrap();
        told(error.get_ref().unwrap().downcast_ref().unwrap())
    }
    counted(|| {
        for (errno, wanted) in WHOLE {
            let (mine, other) = UnixStream::pair().unwrap();
            let (channel, peer) = (Backend::from_stream(mine), Peer { socket: other });
            channel.set_config_change_flag(true);
            channel.set_shmem_flag(true);
            for acknowledges in [false, true] {
                channel.set_reply_ack_flag(acknowledges);
                fails_behind(0, errno);
                assert_eq!((wanted, errno), cause(channel.handle_config_change()));
                assert_eq!(("SocketError", libc::EBADF), cause(channel.shmem_map(&VhostUserMMap::default(), &Number(NOT_OPEN))));
            }
            peer.say_number(2, 0);
            channel.handle_config_change().unwrap();
            peer.hear(&message(2, WANTS, &[]));
            let (mine, other) = UnixStream::pair().unwrap();
            let (display, peer) = (GpuBackend::from_stream(mine), Peer { socket: other });
            fails_behind(0, errno);
            assert_eq!((wanted, errno), cause(display.get_protocol_features()));
            fails_behind(0, errno);
            assert_eq!((wanted, errno), cause(display.get_display_info()));
            fails_behind(0, errno);
            assert_eq!((wanted, errno), cause(display.update_scanout(&VhostUserGpuUpdate::default(), &[1; 4])));
            let moved = VhostUserGpuCursorUpdate { pos: VhostUserGpuCursorPos::default(), ..Default::default() };
            fails_behind(0, errno);
            assert_eq!((wanted, errno), cause(display.cursor_update(&moved, &[1; 4 * 64 * 64])));
            peer.say(&message(1, 4, &[7, 0, 0, 0, 0, 0, 0, 0]), &[]);
            assert_eq!(7, { display.get_protocol_features().unwrap().value });
            peer.hear(&message(1, 0, &[]));
            // The pixels are a part of their request.
            let display_sends = thread::spawn(move || {
                fails_behind(32, errno);
                let wanted = cause(display.update_scanout(&VhostUserGpuUpdate::default(), &[1; 4]));
                (wanted, cause(display.get_protocol_features()))
            });
            let (first, later) = display_sends.join().unwrap();
            assert_eq!((errno, ("SocketBroken", errno)), (first.1, later));
        }
    });
}

/// A reply that was not sent ends the connection, since a frontend waits for it.
#[test]
fn who_waits_for_a_reply_is_hung_up_on() {
    counted(|| {
        for (errno, _) in WHOLE {
            let device = Shared::default();
            let (mut handler, peer) = handled(&device);
            peer.say(&message(1, ASKS, &[]), &[]);
            fails_behind(0, errno);
            assert_eq!(errno, told(&handler.handle_request().unwrap_err()).1);
            assert_eq!(("SocketBroken", errno), told(&handler.handle_request().unwrap_err()));
            let copy = handler.try_clone_connection().unwrap();
            drop(handler);
            assert!(peer.is_hung_up());
            drop(copy);
        }
    });
}
