// SPDX-License-Identifier: Apache-2.0
//! Who owns each descriptor: what is given, what comes, and the connection's own.
mod common;

use std::fs::File;
use std::io::{Read, Write};
use std::net::Shutdown;
use std::os::unix::io::{AsRawFd, OwnedFd};
use std::os::unix::net::UnixStream;

use common::*;
use covretin::vhost_user::message::*;
use covretin::vhost_user::{Frontend, VhostUserFrontend};
use covretin::VhostBackend;

fn shared() -> VhostUserSharedMsg {
    VhostUserSharedMsg { uuid: uuid::Uuid::from_bytes([0x10; 16]) }
}

/// Whether nobody has the other end of a socket any more.
fn is_left(socket: &UnixStream) -> bool {
    socket.set_nonblocking(true).unwrap();
    matches!((&*socket).read(&mut [0]), Ok(0))
}

#[test]
fn a_frontend_closes_its_socket_with_its_last_clone() {
    counted(|| {
        let (mine, other) = UnixStream::pair().unwrap();
        let frontend = Frontend::from_stream(mine, RINGS);
        let clone = frontend.clone();
        assert_eq!(frontend.as_raw_fd(), clone.as_raw_fd());
        drop(frontend);
        assert!(!is_left(&other));
        drop(clone);
        assert!(is_left(&other));
    });
}

/// The end of the pipe that a call was given is closed by it, whether it was sent or not.
#[test]
fn an_owned_descriptor_is_closed_by_the_call() {
    counted(|| {
        let (save, stopped) = (VhostTransferStateDirection::SAVE, VhostTransferStatePhase::STOPPED);
        let backend = |peer: &Peer| {
            peer.hear_any();
            peer.say_number(42, 0x100);
        };
        negotiated(ALL, backend, |frontend| {
            let (mine, other) = UnixStream::pair().unwrap();
            assert!(frontend.set_device_state_fd(save, stopped, mine.into()).unwrap().is_none());
            assert!(is_left(&other));
        });
        negotiated(
            0,
            |_: &Peer| {},
            |frontend| {
                let (mine, other) = UnixStream::pair().unwrap();
                failed("InactiveOperation(0x80000)", frontend.set_device_state_fd(save, stopped, OwnedFd::from(mine)));
                assert!(is_left(&other));
            },
        );
    });
}

#[test]
fn a_lent_descriptor_stays_open() {
    counted(|| {
        let backend = |peer: &Peer| {
            peer.hear_any();
            peer.hear_any();
        };
        negotiated(ALL, backend, |frontend| {
            let file = memory_file();
            frontend.set_vring_call(0, &file).unwrap();
            frontend.set_log_fd(file.as_raw_fd()).unwrap();
            file.metadata().unwrap();
        });
    });
}

/// What comes is the caller's, works, and does not pass to a program that is executed.
#[test]
fn a_file_that_comes_is_the_callers() {
    counted(|| {
        let backend = |peer: &Peer| {
            let mut file = memory_file();
            file.write_all(b"shared").unwrap();
            peer.hear_any();
            peer.say(&message(41, REPLIES, &[]), &[&file]);
            peer.hear_any();
            peer.say(&message(41, REPLIES, &[]), &[&file]);
        };
        negotiated(ALL, backend, |frontend| {
            let first = frontend.get_shared_object(&shared()).unwrap();
            let second = frontend.get_shared_object(&shared()).unwrap();
            assert_ne!(first.as_raw_fd(), second.as_raw_fd());
            drop(second);
            let mut bytes = [0; 6];
            std::os::unix::fs::FileExt::read_exact_at(&first, &mut bytes, 0).unwrap();
            assert_eq!(b"shared", &bytes);
            // SAFETY: it asks for the flags of a descriptor.
            assert_eq!(libc::FD_CLOEXEC, unsafe { libc::fcntl(first.as_raw_fd(), libc::F_GETFD) });
        });
    });
}

/// What came with a part of a reply is closed once its rest can't come, though the connection is there still.
#[test]
fn a_reply_that_ends_amid_leaves_none_open() {
    counted(|| {
        let (given, other) = UnixStream::pair().unwrap();
        let backend = |peer: &Peer| {
            peer.hear_any();
            peer.say(&message(31, REPLIES, &[1; 24])[..20], &[&File::from(OwnedFd::from(given))]);
            peer.socket.shutdown(Shutdown::Write).unwrap();
        };
        negotiated(ALL, backend, |frontend| {
            failed("PartialMessage", frontend.get_inflight_fd(&VhostUserInflight::new(0, 0, 1, 64)));
            assert!(is_left(&other));
            failed("SocketBroken(32)", frontend.get_inflight_fd(&VhostUserInflight::new(0, 0, 1, 64)));
        });
    });
}

/// Replies with a file, with several, and with none, many times over.
#[test]
fn no_reply_leaves_one_open() {
    counted(|| {
        let backend = |peer: &Peer| {
            for round in 0..200 {
                let files: Vec<File> = (0..round % 5 + 1).map(|_| memory_file()).collect();
                peer.hear_any();
                peer.say(&message(41, REPLIES, &[]), &files.iter().collect::<Vec<_>>());
            }
        };
        negotiated(ALL, backend, |frontend| {
            for round in 0..200 {
                let before = open_fds();
                let result = frontend.get_shared_object(&shared());
                match round % 5 {
                    0 => drop(result.unwrap()),
                    _ => failed("IncorrectFds", result),
                }
                // The backend of this process has its own open meanwhile.
                assert!(open_fds() <= before + 8);
            }
        });
    });
}
