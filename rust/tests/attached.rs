// SPDX-License-Identifier: Apache-2.0
//! What a peer attaches that this side closes: sockets that linger, which would keep `close` waiting; and what the system adds to a
//! message where a peer asks for it by the options of a socket.
mod common;

use std::fs::File;
use std::net::Shutdown;
use std::os::unix::io::AsRawFd;
use std::os::unix::net::UnixStream;
use std::sync::{Arc, Mutex};

use common::device::*;
use common::lingering::*;
use common::*;
use covretin::vhost_user::gpu_message::VhostUserGpuUpdate;
use covretin::vhost_user::message::*;
use covretin::vhost_user::{
    close_at_once, Backend, Error, Frontend, FrontendReqHandler, GpuBackend, VhostUserFrontendReqHandler,
    VhostUserFrontendReqHandlerMut,
};
use covretin::VhostBackend;

/// Each request with a descriptor that no call takes: refused for it, or for another reason.
#[test]
fn no_refused_request_waits_for_a_socket() {
    counted(|| {
        for (count, request, wanted) in [
            (1, message(3, ASKS, &[]), "InvalidMessage"),
            (2, message(12, ASKS, &[0; 8]), "InvalidMessage"),
            (1, message(7, ASKS, &[]), "InvalidOperation(\"nobody serves it\")"),
            (1, message(33, WANTS, &[]), "NotUnixSocket"),
            (33, message(3, ASKS, &[]), "IncorrectFds"),
            (200, message(3, ASKS, &[]), "IncorrectFds"),
        ] {
            let device = Shared::default();
            let (mut handler, peer) = handled(&device);
            agree_by_hand(&device, &mut handler, &peer, ALL);
            let others = Lingering::new(count).are_said(&peer, &request);
            let error = at_once(|| handler.handle_request()).unwrap_err();
            assert_eq!(wanted, name(&error), "{request:02x?}");
            drop((handler, peer, others));
        }
    });
}

/// What came behind the first byte of a message belongs to none.
#[test]
fn nothing_behind_a_first_byte_waits_for_a_socket() {
    counted(|| {
        let device = Shared::default();
        let (mut handler, peer) = handled(&device);
        let request = message(8, ASKS, &[0; 8]);
        peer.say(&request[..12], &[]);
        let others = Lingering::new(2).are_said(&peer, &request[12..]);
        assert_eq!("InvalidMessage", name(&at_once(|| handler.handle_request()).unwrap_err()));
        drop(others);
        let (mine, other) = UnixStream::pair().unwrap();
        let (frontend, peer) = (Frontend::from_stream(mine, RINGS), Peer { socket: other });
        let reply = message(1, REPLIES, &[7; 8]);
        peer.say(&reply[..12], &[]);
        let others = Lingering::new(2).are_said(&peer, &reply[12..]);
        failed("InvalidMessage", at_once(|| frontend.get_features()));
        drop(others);
    });
}

/// A byte out of band is one of the stream, and so are its descriptors: of a request, of a reply, and of what is never received.
#[test]
fn nothing_out_of_band_waits_for_a_socket() {
    let attach = |peer: &Peer| {
        let Lingering { files, others } = Lingering::new(1);
        send_by(&peer.socket, &[3], &[files[0].as_raw_fd()], libc::MSG_OOB);
        peer.say(&message(3, ASKS, &[])[1..], &[]);
        peer.socket.shutdown(Shutdown::Write).unwrap();
        others
    };
    counted(|| {
        for is_received in [true, false] {
            let (mut handler, peer) = handled(&Shared::default());
            let others = attach(&peer);
            if is_received {
                assert_eq!("InvalidMessage", name(&at_once(|| handler.handle_request()).unwrap_err()));
            }
            at_once(|| drop(handler));
            drop(others);
            let (mine, other) = UnixStream::pair().unwrap();
            let (frontend, peer) = (Frontend::from_stream(mine, RINGS), Peer { socket: other });
            let others = attach(&peer);
            if is_received {
                failed("InvalidMessage", at_once(|| frontend.get_features()));
            }
            at_once(|| drop(frontend));
            drop(others);
        }
    });
}

#[test]
fn no_refused_reply_waits_for_a_socket() {
    counted(|| {
        for (count, wanted) in [(1, "InvalidMessage"), (32, "InvalidMessage"), (33, "IncorrectFds"), (100, "IncorrectFds")] {
            let (mine, other) = UnixStream::pair().unwrap();
            let (frontend, peer) = (Frontend::from_stream(mine, RINGS), Peer { socket: other });
            let others = Lingering::new(count).are_said(&peer, &message(1, REPLIES, &[0; 8]));
            failed(wanted, at_once(|| frontend.get_features()));
            drop(others);
        }
    });
}

/// What was sent and never received is closed with the socket that it waits in: of a connection that goes on, and of one that has ended.
#[test]
fn no_end_of_a_connection_waits_for_a_socket() {
    counted(|| {
        for has_failed in [false, true] {
            let device = Shared::default();
            let (mut handler, peer) = handled(&device);
            if has_failed {
                peer.say(&message(1, 2, &[]), &[]);
                handler.handle_request().unwrap_err();
            }
            peer.say(&message(3, ASKS, &[]), &[]);
            let first = Lingering::new(3).are_said(&peer, &message(3, ASKS, &[]));
            let second = Lingering::new(1).are_said(&peer, &message(3, ASKS, &[]));
            at_once(|| drop(handler));
            drop((first, second));
            let (mine, other) = UnixStream::pair().unwrap();
            let (frontend, peer) = (Frontend::from_stream(mine, RINGS), Peer { socket: other });
            if has_failed {
                peer.say(&message(1, ASKS, &[]), &[]);
                failed("InvalidMessage", frontend.get_features());
            }
            let others = Lingering::new(2).are_said(&peer, &message(1, REPLIES, &[0; 8]));
            at_once(|| drop(frontend));
            drop(others);
        }
    });
}

/// What waited in a socket is still there for who has a copy of it.
#[test]
fn what_waits_in_a_socket_stays_there() {
    counted(|| {
        let (mine, other) = UnixStream::pair().unwrap();
        let copy = Peer { socket: mine.try_clone().unwrap() };
        let (frontend, peer) = (Frontend::from_stream(mine, RINGS), Peer { socket: other });
        let file = memory_file();
        peer.say(&message(1, REPLIES, &[1; 8]), &[&file]);
        peer.say(&message(1, REPLIES, &[2; 8]), &[]);
        drop(frontend);
        assert_eq!(vec![identity(&file)], copy.hear(&message(1, REPLIES, &[1; 8])).iter().map(identity).collect::<Vec<_>>());
        copy.hear(&message(1, REPLIES, &[2; 8]));
    });
}

/// A connection that has failed is of no use to anybody: its peer is hung up on, whoever has a copy of its socket.
#[test]
fn a_connection_that_failed_is_hung_up() {
    counted(|| {
        let device = Shared::default();
        let (mut handler, peer) = handled(&device);
        let copy = handler.try_clone_connection().unwrap();
        peer.say(&message(3, REPLIES, &[]), &[]);
        handler.handle_request().unwrap_err();
        drop(handler);
        assert!(peer.is_hung_up());
        drop(copy);
    });
}

/// What goes to the device is its own, and stays as it is. It can close it as the package does.
#[test]
fn what_a_device_takes_lingers_as_it_did() {
    counted(|| {
        let device = Shared::default();
        let (mut handler, peer) = handled(&device);
        let others = Lingering::new(1).are_said(&peer, &message(12, ASKS, &[0; 8]));
        handler.handle_request().unwrap();
        let file = seen(&device).files.pop().unwrap();
        assert!(lingers(&file));
        at_once(|| close_at_once(file));
        drop(others);
    });
}

#[derive(Default)]
struct Mapping {
    count: usize,
}

impl VhostUserFrontendReqHandlerMut for Mapping {
    fn shmem_map(&mut self, _: &VhostUserMMap, fd: &dyn AsRawFd) -> std::io::Result<u64> {
        assert!(lingers(&fd.as_raw_fd()));
        self.count += 1;
        Ok(0)
    }
}

/// The backend channel: a descriptor that a frontend lends to who serves it, and those that come with a reply.
#[test]
fn no_message_on_the_channel_waits_for_a_socket() {
    counted(|| {
        let mapping = Arc::new(Mutex::new(Mapping::default()));
        let mut handler = FrontendReqHandler::new(mapping.clone()).unwrap();
        // SAFETY: the handler's end of the device stays open, and is copied.
        let given = unsafe { std::os::unix::io::BorrowedFd::borrow_raw(handler.get_tx_raw_fd()) };
        let peer = Peer { socket: UnixStream::from(given.try_clone_to_owned().unwrap()) };
        let body = [7u64, 0x1000, 0x2000, 0x3000, 1].iter().flat_map(|it| it.to_le_bytes()).collect::<Vec<u8>>();
        let first = Lingering::new(1).are_said(&peer, &message(9, ASKS, &body));
        let second = Lingering::new(2).are_said(&peer, &message(9, ASKS, &body));
        assert_eq!(0, at_once(|| handler.handle_request()).unwrap());
        assert_eq!("InvalidMessage", name(&at_once(|| handler.handle_request()).unwrap_err()));
        assert_eq!(1, mapping.lock().unwrap().count);
        drop((first, second));
        let (mine, other) = UnixStream::pair().unwrap();
        let (channel, peer) = (Backend::from_stream(mine), Peer { socket: other });
        channel.set_config_change_flag(true);
        channel.set_reply_ack_flag(true);
        let first = Lingering::new(2).are_said(&peer, &message(2, REPLIES, &[0; 8]));
        let second = Lingering::new(2).are_said(&peer, &message(2, REPLIES, &[0; 8]));
        at_once(|| channel.handle_config_change()).unwrap_err();
        at_once(|| drop(channel));
        drop((first, second));
    });
}

/// SO_PASSPIDFD, since Linux 6.5; SO_INQ of Unix sockets, since 6.17.
const SO_PASSPIDFD: libc::c_int = 76;
const SO_INQ: libc::c_int = 84;

/// Makes the system add to each message what it can. Whether that has a descriptor of the sender's process.
fn add_all(socket: &impl AsRawFd) -> bool {
    set_option(socket, libc::SO_PASSCRED, 1).unwrap();
    for option in [libc::SO_PASSSEC, libc::SO_TIMESTAMP, libc::SO_TIMESTAMPNS, SO_INQ] {
        // (not each system has each of them)
        let _ = set_option(socket, option, 1);
    }
    let has_process = set_option(socket, SO_PASSPIDFD, 1).is_ok();
    if !has_process {
        println!("this system has no SO_PASSPIDFD: of it, only the unit test of socket.rs tells");
    }
    has_process
}

/// A frontend sets these options on the channels that it gives, of which it keeps a copy: no reply leaves a descriptor open.
#[test]
fn what_the_system_adds_to_a_reply_is_closed() {
    counted(|| {
        let (mine, other) = UnixStream::pair().unwrap();
        add_all(&mine);
        let (channel, peer) = (Backend::from_stream(mine), Peer { socket: other });
        channel.set_config_change_flag(true);
        channel.set_reply_ack_flag(true);
        let before = open_fds();
        for _ in 0..200 {
            peer.say_number(2, 0);
            channel.handle_config_change().unwrap();
            peer.hear(&message(2, WANTS, &[]));
        }
        assert_eq!(before, open_fds());
        let (mine, other) = UnixStream::pair().unwrap();
        add_all(&mine);
        let (display, peer) = (GpuBackend::from_stream(mine), Peer { socket: other });
        let before = open_fds();
        for _ in 0..200 {
            peer.say(&message(10, 4, &[]), &[]);
            display.update_dmabuf_scanout(&VhostUserGpuUpdate::default()).unwrap();
            peer.hear(&message(10, 0, &[0; 20]));
        }
        assert_eq!(before, open_fds());
    });
}

/// The same on a socket that somebody else made, for both sides: as many descriptors as a message may have find room beside it.
#[test]
fn there_is_room_for_all_descriptors_beside_it() {
    counted(|| {
        let device = Shared::default();
        let (mut handler, peer) = handled(&device);
        add_all(&handler);
        agree_by_hand(&device, &mut handler, &peer, ALL);
        let region = |at: u64| [at << 20, 0x1000, at << 20, 0].iter().flat_map(|it| it.to_le_bytes()).collect::<Vec<u8>>();
        let mut body = 32u64.to_le_bytes().to_vec();
        body.extend((0..32).flat_map(region));
        let files: Vec<File> = (0..32).map(|_| memory_file()).collect();
        let before = open_fds();
        for _ in 0..20 {
            peer.say(&message(5, ASKS, &body), &files.iter().collect::<Vec<_>>());
            handler.handle_request().unwrap();
            let came: Vec<_> = seen(&device).files.drain(..).map(|file| identity(&file)).collect();
            assert_eq!(files.iter().map(identity).collect::<Vec<_>>(), came);
        }
        assert_eq!(before, open_fds());
        let (mine, other) = UnixStream::pair().unwrap();
        add_all(&mine);
        let (frontend, peer) = (Frontend::from_stream(mine, RINGS), Peer { socket: other });
        peer.say(&message(1, REPLIES, &[0; 8]), &files.iter().collect::<Vec<_>>());
        failed("InvalidMessage", frontend.get_features());
    });
}

/// 33 to 253 are too many, whether or not the system adds something: the connection ends, and all of them are closed.
#[test]
fn more_than_a_message_has_are_counted_beside_it() {
    counted(|| {
        for count in [33, 34, 64, 125] {
            for adds in [false, true] {
                let device = Shared::default();
                let (mut handler, peer) = handled(&device);
                if adds {
                    add_all(&handler);
                }
                let file = memory_file();
                let before = open_fds();
                peer.say(&message(3, ASKS, &[]), &vec![&file; count]);
                assert_eq!("IncorrectFds", name(&handler.handle_request().unwrap_err()), "{count}");
                assert_eq!(before, open_fds());
                assert!(matches!(handler.handle_request(), Err(Error::SocketBroken(_))));
                assert_eq!([""; 0], *seen(&device).asked);
            }
        }
    });
}
