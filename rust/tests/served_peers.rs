// SPDX-License-Identifier: Apache-2.0
//! Frontends that die, are slow, or do not read; sockets that do not block; signals; a device that panics.
mod common;

use std::io::{Read, Write};
use std::net::Shutdown;
use std::os::unix::io::AsRawFd;
use std::os::unix::net::UnixStream;
use std::panic::{catch_unwind, AssertUnwindSafe};
use std::sync::atomic::{AtomicBool, Ordering};
use std::sync::{Arc, Mutex};
use std::thread::{self, sleep};
use std::time::{Duration, Instant};

use common::device::*;
use common::*;
use covretin::vhost_user::{BackendReqHandler, Error, Result};

/// EPIPE, EIO and ETIMEDOUT.
const ENDED: &str = "SocketBroken(32)";
const PANICKED: &str = "SocketBroken(5)";
const TIMED_OUT: &str = "SocketBroken(110)";

#[track_caller]
fn fails(wanted: &str, result: Result<()>) {
    assert_eq!(wanted, name(&result.unwrap_err()));
}

/// Makes the send buffer of a socket as small as it can be.
fn shrink(socket: &impl AsRawFd) {
    let least: libc::c_int = 1;
    // SAFETY: it is one number, borrowed for the call.
    let set = unsafe {
        let value = (&least as *const libc::c_int).cast();
        libc::setsockopt(socket.as_raw_fd(), libc::SOL_SOCKET, libc::SO_SNDBUF, value, 4)
    };
    assert_eq!(0, set);
}

/// It is gone before the reply can be sent, which is no signal.
#[test]
fn a_frontend_that_dies_before_its_reply() {
    counted(|| {
        // SAFETY: it sets how a signal is handled, by the system itself: as in a program in C.
        unsafe { libc::signal(libc::SIGPIPE, libc::SIG_DFL) };
        let device = Shared::default();
        let (mut handler, peer) = handled(&device);
        peer.say(&message(1, ASKS, &[]), &[]);
        drop(peer);
        fails(ENDED, handler.handle_request());
        fails(ENDED, handler.handle_request());
        assert_eq!(["get_features"], *seen(&device).asked);
        // SAFETY: as above; std ignores it.
        unsafe { libc::signal(libc::SIGPIPE, libc::SIG_IGN) };
    });
}

/// What it would have been replied to it left unread: the system says so by a reset, or ends the stream.
#[test]
fn a_frontend_that_dies_with_its_reply_unread() {
    counted(|| {
        let device = Shared::default();
        let (mut handler, peer) = handled(&device);
        peer.say(&message(1, ASKS, &[]), &[]);
        handler.handle_request().unwrap();
        drop(peer);
        let error = handler.handle_request().unwrap_err();
        assert!(matches!(error, Error::SocketBroken(_) | Error::Disconnected), "{error:?}");
    });
}

#[test]
fn a_slow_frontend() {
    counted(|| {
        let device = Shared::default();
        let (mut handler, peer) = handled(&device);
        let playing = thread::spawn(move || {
            for byte in message(1, ASKS, &[]) {
                sleep(Duration::from_millis(5));
                (&peer.socket).write_all(&[byte]).unwrap();
            }
            peer.hear(&message(1, REPLIES, &PROTOCOL.to_le_bytes()));
        });
        handler.handle_request().unwrap();
        playing.join().unwrap();
    });
}

/// A reply that nobody reads, to a socket that limits the time of sending, or by a handler that does.
#[test]
fn a_frontend_that_does_not_read() {
    counted(|| {
        let limit = Some(Duration::from_millis(100));
        for (blocks, by_socket) in [(true, true), (false, true), (true, false), (false, false)] {
            let (mine, other) = UnixStream::pair().unwrap();
            shrink(&mine);
            mine.set_write_timeout(limit.filter(|_| by_socket)).unwrap();
            mine.set_nonblocking(!blocks).unwrap();
            let mut handler = BackendReqHandler::from_stream(mine, Shared::default());
            if !by_socket {
                handler.set_reply_timeout(limit);
            }
            let peer = Peer { socket: other };
            let began = Instant::now();
            let last = loop {
                peer.say(&message(1, ASKS, &[]), &[]);
                match handler.handle_request() {
                    Ok(()) => {}
                    failed => break failed,
                }
            };
            fails(TIMED_OUT, last);
            assert!(began.elapsed() >= Duration::from_millis(100));
            fails(TIMED_OUT, handler.handle_request());
        }
    });
}

/// A reply that the system takes in parts, while it is read slowly.
#[test]
fn a_reply_that_goes_in_parts() {
    counted(|| {
        for blocks in [true, false] {
            let device = Shared::default();
            seen(&device).config = (0..4084).map(|at| at as u8).collect();
            let (mut handler, peer) = handled(&device);
            agree_by_hand(&device, &mut handler, &peer, ALL);
            let socket = handler.try_clone_connection().unwrap();
            shrink(&socket);
            let playing = thread::spawn(move || {
                let mut body = hex("00000000 f40f0000 00000000");
                body.resize(4096, 0);
                let request = message(24, ASKS, &body);
                for _ in 0..20 {
                    peer.say(&message(1, ASKS, &[]), &[]);
                    peer.say(&request, &[]);
                }
                for _ in 0..20 {
                    sleep(Duration::from_millis(2));
                    peer.hear(&message(1, REPLIES, &PROTOCOL.to_le_bytes()));
                    for (at, byte) in body[12..].iter_mut().enumerate() {
                        *byte = at as u8;
                    }
                    peer.hear(&message(24, REPLIES, &body));
                }
            });
            socket.set_nonblocking(!blocks).unwrap();
            let mut count = 0;
            while count < 40 {
                match handler.handle_request() {
                    Ok(()) => count += 1,
                    Err(Error::SocketRetry(_)) => sleep(Duration::from_millis(1)),
                    Err(error) => panic!("{error:?}"),
                }
            }
            playing.join().unwrap();
        }
    });
}

/// A socket that does not block: what came is kept, with its descriptors, until all has come.
#[test]
fn a_socket_that_does_not_block() {
    counted(|| {
        let device = Shared::default();
        let (mut handler, peer) = handled(&device);
        agree_by_hand(&device, &mut handler, &peer, ALL);
        handler.try_clone_connection().unwrap().set_nonblocking(true).unwrap();
        let retried = |handler: &mut BackendReqHandler<_>| matches!(handler.handle_request(), Err(Error::SocketRetry(_)));
        assert!(retried(&mut handler) && retried(&mut handler));
        let file = memory_file();
        let request = message(12, WANTS, &[0; 8]);
        peer.say(&request[..1], &[&file]);
        for byte in &request[1..] {
            assert!(retried(&mut handler));
            (&peer.socket).write_all(&[*byte]).unwrap();
        }
        handler.handle_request().unwrap();
        peer.hear(&message(12, REPLIES, &[0; 8]));
        assert_eq!(identity(&file), identity(&seen(&device).files[0]));
        assert!(retried(&mut handler));
        drop(peer);
        assert!(matches!(handler.handle_request(), Err(Error::Disconnected)));
    });
}

#[test]
fn a_socket_with_a_timeout() {
    counted(|| {
        let (mine, other) = UnixStream::pair().unwrap();
        mine.set_read_timeout(Some(Duration::from_millis(20))).unwrap();
        let mut handler = BackendReqHandler::from_stream(mine, Shared::default());
        let peer = Peer { socket: other };
        peer.say(&[1], &[]);
        assert!(matches!(handler.handle_request(), Err(Error::SocketRetry(_))));
        peer.say(&message(1, ASKS, &[])[1..], &[]);
        handler.handle_request().unwrap();
        peer.hear(&message(1, REPLIES, &PROTOCOL.to_le_bytes()));
    });
}

/// Another thread ends a call that waits.
#[test]
fn a_connection_that_is_shut_down() {
    counted(|| {
        let device = Shared::default();
        let (mut handler, peer) = handled(&device);
        let socket = handler.try_clone_connection().unwrap();
        assert_ne!(handler.as_raw_fd(), socket.as_raw_fd());
        let serving = thread::spawn(move || handler.handle_request());
        sleep(Duration::from_millis(20));
        socket.shutdown(Shutdown::Both).unwrap();
        assert!(matches!(serving.join().unwrap(), Err(Error::Disconnected)));
        drop((socket, peer));
    });
}

#[test]
fn a_connection_that_is_set_failed() {
    counted(|| {
        let device = Shared::default();
        let (mut handler, peer) = handled(&device);
        handler.set_failed(libc::ENODEV);
        peer.say(&message(1, ASKS, &[]), &[]);
        fails("SocketBroken(19)", handler.handle_request());
        assert_eq!([""; 0], *seen(&device).asked);
    });
}

/// Serves a request by which the device panics.
fn panics(handler: &mut BackendReqHandler<Mutex<Noting>>) {
    std::panic::set_hook(Box::new(|_| {}));
    let panicked = catch_unwind(AssertUnwindSafe(|| handler.handle_request()));
    let _ = std::panic::take_hook();
    assert!(panicked.is_err());
}

/// A device that panics has left a call that nobody replies to.
#[test]
fn a_device_that_panics() {
    counted(|| {
        let device = Shared::default();
        let (mut handler, peer) = handled(&device);
        agree_by_hand(&device, &mut handler, &peer, ALL);
        // (there is no file to give)
        peer.say(&message(41, ASKS, &[0x10; 16]), &[]);
        panics(&mut handler);
        peer.say(&message(3, ASKS, &[]), &[]);
        fails(PANICKED, handler.handle_request());
    });
}

/// The descriptors of a call amid which the device panics: what the device was given is closed with that, and the others with the connection.
#[test]
fn a_device_that_panics_with_descriptors() {
    let region = [1u64 << 20, 0x1000, 1 << 20, 0].iter().flat_map(|it| it.to_le_bytes());
    let region: Vec<u8> = [0; 8].into_iter().chain(region).collect();
    let table: Vec<u8> =
        (0..8u64).flat_map(|at| [(at + 1) << 20, 0x1000, (at + 1) << 20, 0]).flat_map(u64::to_le_bytes).collect();
    let table = [&8u64.to_le_bytes()[..], &table].concat();
    counted(|| {
        let file = memory_file();
        for (count, request, kept) in [
            (8, message(5, ASKS, &table), 0),
            (1, message(37, ASKS, &region), 0),
            // (what comes with it is of no use)
            (1, message(38, ASKS, &region), 1),
        ] {
            let device = Shared::default();
            let (mut handler, peer) = handled(&device);
            agree_by_hand(&device, &mut handler, &peer, ALL);
            let (mut first, asking) = handled(&device);
            agree_by_hand(&device, &mut first, &asking, ALL);
            asking.say(&message(41, ASKS, &[0x10; 16]), &[]);
            panics(&mut first);
            // (its lock is poisoned, so each call panics from now on)
            let before = open_fds();
            peer.say(&request, &vec![&file; count]);
            panics(&mut handler);
            assert_eq!(before + kept, open_fds(), "{request:02x?}");
            fails(PANICKED, handler.handle_request());
            assert_eq!(before + kept, open_fds());
            drop(handler);
            assert_eq!(before - 1, open_fds());
        }
    });
}

extern "C" fn ignore(_: libc::c_int) {}

/// A signal interrupts no call, while it receives or while it sends.
#[test]
fn signals_amid_a_call() {
    counted(|| {
        // SAFETY: the handler does nothing; without SA_RESTART it interrupts calls of the system.
        let thread_id = unsafe {
            let mut action: libc::sigaction = std::mem::zeroed();
            action.sa_sigaction = ignore as extern "C" fn(libc::c_int) as usize;
            libc::sigaction(libc::SIGUSR1, &action, std::ptr::null_mut());
            libc::pthread_self()
        };
        let is_over = AtomicBool::new(false);
        let (mine, other) = UnixStream::pair().unwrap();
        shrink(&mine);
        let mut handler = BackendReqHandler::from_stream(mine, Shared::default());
        let peer = Peer { socket: other };
        thread::scope(|scope| {
            scope.spawn(|| {
                while !is_over.load(Ordering::Relaxed) {
                    // SAFETY: that thread waits for this one.
                    unsafe { libc::pthread_kill(thread_id, libc::SIGUSR1) };
                    sleep(Duration::from_millis(1));
                }
            });
            scope.spawn(|| {
                for _ in 0..60 {
                    peer.say(&message(1, ASKS, &[]), &[]);
                }
                sleep(Duration::from_millis(100));
                for _ in 0..60 {
                    peer.hear(&message(1, REPLIES, &PROTOCOL.to_le_bytes()));
                }
                sleep(Duration::from_millis(50));
                peer.say(&message(1, ASKS, &[]), &[]);
                peer.hear(&message(1, REPLIES, &PROTOCOL.to_le_bytes()));
            });
            for _ in 0..61 {
                handler.handle_request().unwrap();
            }
            is_over.store(true, Ordering::Relaxed);
        });
    });
}

/// Threads that each serve a frontend, all the same device.
#[test]
fn threads_that_share_a_device() {
    counted(|| {
        let device: Arc<Mutex<Noting>> = Shared::default();
        let file = memory_file();
        thread::scope(|scope| {
            for index in 0..4u64 {
                let (mut handler, peer) = handled(&device);
                scope.spawn(move || assert_eq!([""; 0], *serve_all(&mut handler)));
                let file = &file;
                scope.spawn(move || {
                    for _ in 0..200 {
                        peer.say(&message(12, ASKS, &index.to_le_bytes()), &[file]);
                        peer.say(&message(1, ASKS, &[]), &[]);
                        peer.hear(&message(1, REPLIES, &PROTOCOL.to_le_bytes()));
                    }
                });
            }
        });
        let device = seen(&device);
        for index in 0..4 {
            assert_eq!(200, device.asked.iter().filter(|it| **it == format!("set_vring_kick {index}")).count());
        }
        assert!(device.files.iter().all(|it| identity(it) == identity(&file)));
        assert_eq!(800, device.files.len());
    });
}

/// The rest of a message that was read in part is nobody's: the connection ends, and what came with it is closed.
#[test]
fn an_end_amid_a_request() {
    counted(|| {
        let device = Shared::default();
        let (mut handler, peer) = handled(&device);
        let before = open_fds();
        peer.say(&message(2, ASKS, &[0; 8])[..15], &[&memory_file(), &memory_file()]);
        peer.socket.shutdown(Shutdown::Write).unwrap();
        fails("InvalidMessage", handler.handle_request());
        assert_eq!(before, open_fds());
        fails("SocketBroken(71)", handler.handle_request());
        drop(handler);
        assert_eq!(0, (&peer.socket).read(&mut [0]).unwrap());
    });
}
