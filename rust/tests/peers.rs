// SPDX-License-Identifier: Apache-2.0
//! Backends that die, are slow, or do not read; sockets that do not block; signals.
mod common;

use std::io::Write;
use std::os::unix::io::AsRawFd;
use std::os::unix::net::UnixStream;
use std::sync::atomic::{AtomicBool, Ordering};
use std::sync::Arc;
use std::thread::{self, sleep};
use std::time::{Duration, Instant};

use common::*;
use covretin::vhost_user::message::*;
use covretin::vhost_user::{Frontend, VhostUserFrontend};
use covretin::VhostBackend;

/// EPIPE, ECONNRESET and ETIMEDOUT.
const ENDED: &str = "SocketBroken(32)";
const RESET: &str = "SocketBroken(104)";
const TIMED_OUT: &str = "SocketBroken(110)";

/// While there is one, SIGPIPE ends this program, as it ends one in C. Elsewhere std ignores it.
struct SigpipeEnds;

impl SigpipeEnds {
    fn from_now_on() -> SigpipeEnds {
        // SAFETY: it sets how a signal is handled, by the system itself.
        unsafe { libc::signal(libc::SIGPIPE, libc::SIG_DFL) };
        SigpipeEnds
    }
}

impl Drop for SigpipeEnds {
    fn drop(&mut self) {
        // SAFETY: as above.
        unsafe { libc::signal(libc::SIGPIPE, libc::SIG_IGN) };
    }
}

#[test]
fn a_backend_that_is_gone() {
    counted(|| {
        let _ends = SigpipeEnds::from_now_on();
        let (mine, other) = UnixStream::pair().unwrap();
        let frontend = Frontend::from_stream(mine, RINGS);
        drop(other);
        failed(ENDED, frontend.get_features());
        failed(ENDED, frontend.set_owner());
        failed(ENDED, frontend.set_log_fd(frontend.as_raw_fd()));
    });
}

/// It dies once it has the request: at the end of the stream, or, with a part of the request unread, by a reset.
#[test]
fn a_backend_that_dies_amid_a_call() {
    counted(|| {
        let _ends = SigpipeEnds::from_now_on();
        let (mine, other) = UnixStream::pair().unwrap();
        let dying = thread::spawn(move || Peer { socket: other }.hear_any());
        let frontend = Frontend::from_stream(mine, RINGS);
        failed("PartialMessage", frontend.get_features());
        failed(ENDED, frontend.get_features());
        dying.join().unwrap();

        let (mine, other) = UnixStream::pair().unwrap();
        let dying = thread::spawn(move || {
            receive(&other, &mut [0; 5]);
        });
        let frontend = Frontend::from_stream(mine, RINGS);
        failed(RESET, frontend.get_features());
        failed(RESET, frontend.get_features());
        dying.join().unwrap();
    });
}

/// It dies between two calls, the second of which awaits nothing.
#[test]
fn a_backend_that_dies_between_calls() {
    counted(|| {
        let _ends = SigpipeEnds::from_now_on();
        let (mine, other) = UnixStream::pair().unwrap();
        let dying = thread::spawn(move || Peer { socket: other }.still_serves(1));
        let frontend = Frontend::from_stream(mine, RINGS);
        assert_eq!(1, frontend.get_features().unwrap());
        dying.join().unwrap();
        failed(ENDED, frontend.set_owner());
        failed(ENDED, frontend.get_features());
    });
}

/// A call that awaits nothing succeeds before the backend reads it.
#[test]
fn a_backend_that_does_not_read() {
    counted(|| {
        let (mine, other) = UnixStream::pair().unwrap();
        let frontend = Frontend::from_stream(mine, RINGS);
        frontend.set_timeout(Some(Duration::from_millis(100)));
        let began = Instant::now();
        let mut sent = 0;
        let last = loop {
            match frontend.set_owner() {
                Ok(()) => sent += 1,
                failed => break failed,
            }
        };
        assert!(sent > 10, "{sent} requests fit");
        failed(TIMED_OUT, last);
        assert!(began.elapsed() >= Duration::from_millis(100));
        failed(TIMED_OUT, frontend.set_owner());
        drop(other);
    });
}

#[test]
fn a_backend_that_does_not_reply() {
    counted(|| {
        let backend = |peer: &Peer| peer.hear_any();
        played(backend, |frontend| {
            frontend.set_timeout(Some(Duration::from_millis(100)));
            let began = Instant::now();
            match frontend.get_features() {
                Err(covretin::Error::VhostUserProtocol(error)) => {
                    assert_eq!(TIMED_OUT, name(&error));
                    assert!(error.should_reconnect());
                }
                other => panic!("{other:?}"),
            }
            let took = began.elapsed();
            assert!(took >= Duration::from_millis(100) && took < Duration::from_secs(30), "{took:?}");
            // It is given up, and the reply of no later call.
            failed(TIMED_OUT, frontend.get_features());
        });
    });
}

/// The limit is that of a whole call, and not of each byte.
#[test]
fn a_backend_that_dawdles() {
    counted(|| {
        let (mine, other) = UnixStream::pair().unwrap();
        let dawdling = thread::spawn(move || {
            for byte in message(1, REPLIES, &7u64.to_le_bytes()) {
                sleep(Duration::from_millis(40));
                if (&other).write_all(&[byte]).is_err() {
                    break;
                }
            }
        });
        let frontend = Frontend::from_stream(mine, RINGS);
        frontend.set_timeout(Some(Duration::from_millis(200)));
        failed(TIMED_OUT, frontend.get_features());
        drop(frontend);
        dawdling.join().unwrap();
    });
}

/// A slow backend within the limit, or without one.
#[test]
fn a_slow_backend() {
    counted(|| {
        for timeout in [None, Some(Duration::from_secs(60))] {
            let backend = |peer: &Peer| {
                peer.hear_any();
                for byte in message(1, REPLIES, &7u64.to_le_bytes()) {
                    sleep(Duration::from_millis(5));
                    (&peer.socket).write_all(&[byte]).unwrap();
                }
            };
            played(backend, |frontend| {
                frontend.set_timeout(timeout);
                assert_eq!(7, frontend.get_features().unwrap());
            });
        }
    });
}

/// A read timeout that the socket had is the limit.
#[test]
fn a_socket_with_a_timeout() {
    counted(|| {
        let (mine, other) = UnixStream::pair().unwrap();
        mine.set_read_timeout(Some(Duration::from_millis(50))).unwrap();
        let frontend = Frontend::from_stream(mine, RINGS);
        failed(TIMED_OUT, frontend.get_features());
        drop(other);
    });
}

/// A socket that does not block is waited for, and stays so. The request is larger than what fits at once.
#[test]
fn a_socket_that_does_not_block() {
    counted(|| {
        let (mine, other) = UnixStream::pair().unwrap();
        mine.set_nonblocking(true).unwrap();
        let mut frontend = Frontend::from_stream(mine, RINGS);
        let serving = thread::spawn(move || {
            let peer = Peer { socket: other };
            for (code, number) in [(1, PROTOCOL), (2, 0), (16, 0)] {
                peer.hear_any();
                if code == 1 {
                    peer.say_number(code, number);
                }
            }
            sleep(Duration::from_millis(100));
            for _ in 0..200 {
                peer.hear_any();
            }
            peer.hear_any();
            sleep(Duration::from_millis(20));
            peer.say_number(1, 7);
        });
        frontend.get_features().unwrap();
        frontend.set_features(PROTOCOL).unwrap();
        frontend.set_protocol_features(VhostUserProtocolFeatures::CONFIG).unwrap();
        for _ in 0..200 {
            frontend.set_config(0, VhostUserConfigFlags::empty(), &[1; 4084]).unwrap();
        }
        assert_eq!(7, frontend.get_features().unwrap());
        serving.join().unwrap();
    });
}

/// A request that the system takes in parts: half of a small buffer at most, in which another request waits.
#[test]
fn a_request_that_goes_in_parts() {
    counted(|| {
        for timeout in [None, Some(Duration::from_secs(60))] {
            let backend = |peer: &Peer| {
                let mut body = hex("00000000 f40f0000 00000000");
                body.extend((0..4084).map(|at| at as u8));
                for _ in 0..20 {
                    sleep(Duration::from_millis(2));
                    peer.hear(&message(3, ASKS, &[]));
                    peer.hear(&message(25, ASKS, &body));
                }
            };
            negotiated(ALL, backend, |frontend| {
                let least: libc::c_int = 1;
                // SAFETY: it is one number, borrowed for the call.
                let set = unsafe {
                    let value = (&least as *const libc::c_int).cast();
                    libc::setsockopt(frontend.as_raw_fd(), libc::SOL_SOCKET, libc::SO_SNDBUF, value, 4)
                };
                assert_eq!(0, set);
                frontend.set_timeout(timeout);
                let bytes: Vec<u8> = (0..4084).map(|at| at as u8).collect();
                for _ in 0..20 {
                    frontend.set_owner().unwrap();
                    frontend.set_config(0, VhostUserConfigFlags::empty(), &bytes).unwrap();
                }
            });
        }
    });
}

extern "C" fn ignore(_: libc::c_int) {}

/// A signal interrupts no call, while it sends or while it receives.
#[test]
fn signals_amid_a_call() {
    counted(|| {
        // SAFETY: the handler does nothing; without SA_RESTART it interrupts calls of the system.
        let thread_id = unsafe {
            let mut action: libc::sigaction = std::mem::zeroed();
            action.sa_sigaction = ignore as extern "C" fn(libc::c_int) as usize;
            libc::sigaction(libc::SIGUSR1, &action, std::ptr::null_mut());
            libc::pthread_self()
        };
        for timeout in [None, Some(Duration::from_secs(60))] {
            let is_over = Arc::new(AtomicBool::new(false));
            let seen = is_over.clone();
            let signalling = thread::spawn(move || {
                while !seen.load(Ordering::Relaxed) {
                    // SAFETY: that thread waits for this one.
                    unsafe { libc::pthread_kill(thread_id, libc::SIGUSR1) };
                    sleep(Duration::from_millis(1));
                }
            });
            let backend = |peer: &Peer| {
                sleep(Duration::from_millis(50));
                peer.hear_any();
                sleep(Duration::from_millis(50));
                peer.say_number(1, 7);
            };
            played(backend, |frontend| {
                frontend.set_timeout(timeout);
                assert_eq!(7, frontend.get_features().unwrap());
            });
            is_over.store(true, Ordering::Relaxed);
            signalling.join().unwrap();
        }
    });
}

/// A descriptor that is not open can't be sent: the system says so, and the connection goes on.
#[test]
fn a_descriptor_that_is_not_open() {
    counted(|| {
        let (mine, other) = UnixStream::pair().unwrap();
        let frontend = Frontend::from_stream(mine, RINGS);
        match frontend.set_log_fd(1 << 20) {
            Err(covretin::Error::VhostUserProtocol(covretin::vhost_user::Error::SocketError(cause))) => {
                assert_eq!(Some(libc::EBADF), cause.raw_os_error());
            }
            other => panic!("{other:?}"),
        }
        frontend.set_owner().unwrap();
        drop(frontend);
        let peer = Peer { socket: other };
        peer.hear(&message(3, ASKS, &[]));
        peer.silence();
    });
}
