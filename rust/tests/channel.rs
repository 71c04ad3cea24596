// SPDX-License-Identifier: Apache-2.0
//! The backend channel: a device's calls, by what a frontend sees of them; a frontend's handler, by what a device sends; both
//! against each other; and peers that are hostile, slow or gone.
mod common;

use std::io;
use std::net::Shutdown;
use std::os::unix::io::AsRawFd;
use std::os::unix::net::UnixStream;
use std::sync::{Arc, Mutex};
use std::thread;
use std::time::Duration;

use common::*;
use covretin::vhost_user::message::*;
use covretin::vhost_user::{
    Backend, Error, FrontendReqHandler, HandlerResult, VhostUserFrontendReqHandler, VhostUserFrontendReqHandlerMut,
};

/// What serves a device: it notes what it is asked, and returns what the test says.
#[derive(Default)]
struct Noting {
    asked: Vec<String>,
    files: Vec<(u64, u64)>,
    value: u64,
    error: Option<io::Error>,
}

impl Noting {
    fn note(&mut self, asked: String, file: Option<&dyn AsRawFd>) -> HandlerResult<u64> {
        self.asked.push(asked);
        self.files.extend(file.map(identity_of));
        match self.error.take() {
            Some(error) => Err(error),
            None => Ok(self.value),
        }
    }
}

/// Which file a descriptor is that is lent.
fn identity_of(fd: &dyn AsRawFd) -> (u64, u64) {
    identity(&std::fs::File::open(format!("/proc/self/fd/{}", fd.as_raw_fd())).unwrap())
}

fn part_of(it: &VhostUserMMap) -> String {
    format!("{} {:#x} {:#x} {:#x} {}", it.shmid, { it.fd_offset }, { it.shm_offset }, { it.len }, { it.flags })
}

impl VhostUserFrontendReqHandlerMut for Noting {
    fn handle_config_change(&mut self) -> HandlerResult<u64> {
        self.note("config_change".into(), None)
    }
    fn shared_object_add(&mut self, it: &VhostUserSharedMsg) -> HandlerResult<u64> {
        self.note(format!("add {:02x?}", it.uuid.as_bytes()), None)
    }
    fn shared_object_remove(&mut self, it: &VhostUserSharedMsg) -> HandlerResult<u64> {
        self.note(format!("remove {:02x?}", it.uuid.as_bytes()), None)
    }
    fn shared_object_lookup(&mut self, it: &VhostUserSharedMsg, fd: &dyn AsRawFd) -> HandlerResult<u64> {
        self.note(format!("lookup {:02x?}", it.uuid.as_bytes()), Some(fd))
    }
    fn shmem_map(&mut self, it: &VhostUserMMap, fd: &dyn AsRawFd) -> HandlerResult<u64> {
        self.note(format!("map {}", part_of(it)), Some(fd))
    }
    fn shmem_unmap(&mut self, it: &VhostUserMMap) -> HandlerResult<u64> {
        self.note(format!("unmap {}", part_of(it)), None)
    }
}

type Handler = FrontendReqHandler<Mutex<Noting>>;

fn object() -> VhostUserSharedMsg {
    VhostUserSharedMsg { uuid: uuid::Uuid::from_bytes([0x10; 16]) }
}

fn part() -> VhostUserMMap {
    VhostUserMMap { shmid: 7, fd_offset: 0x1000, shm_offset: 0x2000, len: 0x3000, flags: 1, ..Default::default() }
}

/// The bodies of these, as they are sent.
const OBJECT: &str = "10101010 10101010 10101010 10101010";
const PART: &str = "0700000000000000 0010000000000000 0020000000000000 0030000000000000 0100000000000000";

type Call = fn(&Backend, &std::fs::File) -> HandlerResult<u64>;

/// Each call, its request, how many descriptors that has, and what the other side is asked.
fn calls() -> Vec<(Call, u32, &'static str, usize, String)> {
    let object_is = |what: &str| format!("{what} {:02x?}", [0x10; 16]);
    let part_is = |what: &str| format!("{what} 7 0x1000 0x2000 0x3000 1");
    vec![
        (|it, _| it.handle_config_change(), 2, "", 0, "config_change".into()),
        (|it, _| it.shared_object_add(&object()), 6, OBJECT, 0, object_is("add")),
        (|it, _| it.shared_object_remove(&object()), 7, OBJECT, 0, object_is("remove")),
        (|it, file| it.shared_object_lookup(&object(), file), 8, OBJECT, 1, object_is("lookup")),
        (|it, file| it.shmem_map(&part(), file), 9, PART, 1, part_is("map")),
        (|it, _| it.shmem_unmap(&part()), 10, PART, 0, part_is("unmap")),
    ]
}

fn allow_all(channel: &Backend) {
    channel.set_config_change_flag(true);
    channel.set_shared_object_flag(true);
    channel.set_shmem_flag(true);
}

/// A device's channel, and the frontend's end.
fn asking() -> (Backend, Peer) {
    let (mine, other) = UnixStream::pair().unwrap();
    other.set_read_timeout(Some(Duration::from_secs(20))).unwrap();
    (Backend::from_stream(mine), Peer { socket: other })
}

/// The device's end, as it is when it was sent over the main socket: another descriptor of it.
fn device_end(handler: &Handler) -> Peer {
    let (mine, other) = UnixStream::pair().unwrap();
    send(&mine, &[0], &[handler.get_tx_raw_fd()]);
    let file = receive(&other, &mut [0]).pop().unwrap();
    let socket = UnixStream::from(std::os::unix::io::OwnedFd::from(file));
    socket.set_read_timeout(Some(Duration::from_secs(20))).unwrap();
    Peer { socket }
}

#[test]
fn each_call_of_a_device() {
    counted(|| {
        for (call, code, body, count, _) in calls() {
            let (channel, peer) = asking();
            allow_all(&channel);
            let file = memory_file();
            let sent: Vec<_> = (0..count).map(|_| identity(&file)).collect();
            let hears = |flags| {
                let came = peer.hear(&message(code, flags, &hex(body)));
                assert_eq!(sent, came.iter().map(identity).collect::<Vec<_>>());
            };
            // Without an acknowledgement; with one; refused.
            assert_eq!(0, call(&channel, &file).unwrap());
            hears(ASKS);
            channel.set_reply_ack_flag(true);
            peer.say_number(code, 0);
            assert_eq!(0, call(&channel, &file).unwrap());
            hears(WANTS);
            for refusal in [1, u64::MAX] {
                peer.say_number(code, refusal);
                assert_eq!("Frontend internal error", call(&channel, &file).unwrap_err().to_string());
                hears(WANTS);
            }
            peer.say_number(code, 0);
            assert_eq!(0, call(&channel, &file).unwrap());
            hears(WANTS);
        }
    });
}

/// Nothing is sent of a feature that was not negotiated.
#[test]
fn calls_of_features_that_were_not_negotiated() {
    counted(|| {
        let (channel, peer) = asking();
        let file = memory_file();
        for (call, code, _, _, _) in calls() {
            let wanted = match code {
                2 => "Config feature not negotiated",
                6..=8 => "Shared Object feature not negotiated",
                _ => "SHMEM feature not negotiated",
            };
            assert_eq!(wanted, call(&channel, &file).unwrap_err().to_string());
        }
        drop(channel);
        peer.silence();
    });
}

/// What a frontend replies that is no reply ends the channel.
#[test]
fn replies_that_are_none() {
    counted(|| {
        let replies = [
            message(6, REPLIES, &[0; 8]),
            message(2, ASKS, &[0; 8]),
            message(2, REPLIES, &[]),
            message(2, REPLIES, &[0; 9]),
            announced(2, REPLIES, u32::MAX, &[]),
        ];
        for reply in replies {
            let (channel, peer) = asking();
            allow_all(&channel);
            channel.set_reply_ack_flag(true);
            peer.say(&reply, &[]);
            assert_eq!("invalid message", channel.handle_config_change().unwrap_err().to_string());
            let later = channel.handle_config_change().unwrap_err();
            assert_eq!("socket is broken: Protocol error (os error 71)", later.to_string());
        }
        let (channel, peer) = asking();
        allow_all(&channel);
        channel.set_reply_ack_flag(true);
        peer.say(&message(2, REPLIES, &[0; 8]), &[&memory_file()]);
        assert_eq!("invalid message", channel.handle_config_change().unwrap_err().to_string());
    });
}

/// A reply whose header says another size than one has is refused at that, and its body is not waited for. (what the crate's own test sends)
#[test]
fn replies_of_another_size() {
    counted(|| {
        for size in [1u32, 4, 16, 4096] {
            let (channel, peer) = asking();
            allow_all(&channel);
            channel.set_reply_ack_flag(true);
            channel.set_timeout(Some(Duration::from_secs(20)));
            let header: Vec<u8> = [6, REPLIES, size].iter().flat_map(|word| word.to_le_bytes()).collect();
            peer.say(&[&header[..], &[0; 8]].concat()[..12 + (size as usize).min(8)], &[]);
            assert_eq!("invalid message", channel.shared_object_add(&object()).unwrap_err().to_string(), "{size}");
        }
    });
}

#[test]
fn a_channel_that_ends() {
    counted(|| {
        let (channel, peer) = asking();
        allow_all(&channel);
        channel.set_reply_ack_flag(true);
        peer.socket.shutdown(Shutdown::Write).unwrap();
        assert_eq!("partial message", channel.handle_config_change().unwrap_err().to_string());
        let (channel, peer) = asking();
        allow_all(&channel);
        drop(peer);
        let error = channel.handle_config_change().unwrap_err().to_string();
        assert_eq!("socket is broken: Broken pipe (os error 32)", error);
        let (channel, _peer) = asking();
        channel.set_failed(libc::ENODEV);
        assert_eq!("socket is broken: No such device (os error 19)", channel.handle_config_change().unwrap_err().to_string());
    });
}

/// A frontend that does not acknowledge, and a device that asks on and does not read.
#[test]
fn limits_of_time() {
    counted(|| {
        let (channel, _peer) = asking();
        allow_all(&channel);
        channel.set_reply_ack_flag(true);
        channel.set_timeout(Some(Duration::from_millis(50)));
        let error = channel.handle_config_change().unwrap_err().to_string();
        assert_eq!("socket is broken: Connection timed out (os error 110)", error);
        let mut handler = FrontendReqHandler::new(Arc::new(Mutex::new(Noting::default()))).unwrap();
        handler.set_reply_ack_flag(true);
        handler.set_reply_timeout(Some(Duration::from_millis(50)));
        let peer = device_end(&handler);
        let last = loop {
            peer.say(&message(2, WANTS, &[]), &[]);
            match handler.handle_request() {
                Ok(value) => assert_eq!(0, value),
                Err(error) => break error,
            }
        };
        assert_eq!("SocketBroken(110)", name(&last));
    });
}

/// Clones of a channel in threads: each call takes its own reply.
#[test]
fn threads_that_share_a_channel() {
    counted(|| {
        let noting = Arc::new(Mutex::new(Noting::default()));
        let mut handler = FrontendReqHandler::new(noting.clone()).unwrap();
        handler.set_reply_ack_flag(true);
        let channel = Backend::from_stream(device_end(&handler).socket);
        allow_all(&channel);
        channel.set_reply_ack_flag(true);
        let file = memory_file();
        thread::scope(|scope| {
            scope.spawn(|| (0..400).for_each(|_| assert_eq!(0, handler.handle_request().unwrap())));
            for _ in 0..2 {
                let (channel, file) = (channel.clone(), &file);
                scope.spawn(move || (0..200).for_each(|_| assert_eq!(0, channel.shmem_map(&part(), file).unwrap())));
            }
        });
        let noting = noting.lock().unwrap();
        assert_eq!(400, noting.asked.len());
        assert!(noting.files.iter().all(|it| *it == identity(&file)));
    });
}

/// Each request, served: the value, an error of the system, and one without a number.
#[test]
fn each_request_of_a_frontend() {
    counted(|| {
        for (_, code, body, count, asked) in calls() {
            let noting = Arc::new(Mutex::new(Noting { value: 5, ..Default::default() }));
            let mut handler = FrontendReqHandler::new(noting.clone()).unwrap();
            let peer = device_end(&handler);
            let file = memory_file();
            let files: Vec<_> = (0..count).map(|_| &file).collect();
            assert_eq!(None, handler.last_request());
            peer.say(&message(code, WANTS, &hex(body)), &files);
            assert_eq!(5, handler.handle_request().unwrap());
            assert_eq!(Some(code), handler.last_request());
            handler.set_reply_ack_flag(true);
            peer.say(&message(code, ASKS, &hex(body)), &files);
            assert_eq!(5, handler.handle_request().unwrap());
            // Neither was acknowledged.
            for (error, number) in [(None, 5), (Some(libc::EPERM), -1i64 as u64), (Some(i32::MAX), -2_147_483_647i64 as u64)] {
                noting.lock().unwrap().error = error.map(io::Error::from_raw_os_error);
                peer.say(&message(code, WANTS, &hex(body)), &files);
                match handler.handle_request() {
                    Ok(value) => assert_eq!((None, 5), (error, value)),
                    Err(Error::ReqHandlerError(cause)) => assert_eq!(error, cause.raw_os_error()),
                    Err(other) => panic!("{other:?}"),
                }
                peer.hear(&message(code, REPLIES, &number.to_le_bytes()));
            }
            noting.lock().unwrap().error = Some(io::ErrorKind::Other.into());
            peer.say(&message(code, WANTS, &hex(body)), &files);
            assert!(matches!(handler.handle_request(), Err(Error::ReqHandlerError(_))));
            peer.hear(&message(code, REPLIES, &(-i64::from(libc::EINVAL)).to_le_bytes()));
            let noting = noting.lock().unwrap();
            assert_eq!(vec![asked; 6], noting.asked);
            assert_eq!(vec![identity(&file); 6 * count], noting.files);
        }
    });
}

/// Malformed requests are refused before anybody is asked, and the channel ends.
#[test]
fn requests_that_are_none() {
    counted(|| {
        let file = memory_file();
        let none = "00000000 00000000 00000000 00000000";
        let too_long = "0700000000000000 ffffffffffffffff 0020000000000000 0030000000000000 0100000000000000";
        let requests: [(u32, u32, &str, usize); 14] = [
            (0, ASKS, "", 0),
            (11, ASKS, "", 0),
            (1, ASKS, "", 0),
            (3, ASKS, "", 0),
            (2, 5, "", 0),
            (2, 2, "", 0),
            (2, ASKS, "00", 0),
            (2, ASKS, "", 1),
            (6, ASKS, none, 0),
            (6, ASKS, OBJECT, 1),
            (8, ASKS, OBJECT, 0),
            (8, ASKS, OBJECT, 2),
            (9, ASKS, PART, 0),
            (10, ASKS, too_long, 0),
        ];
        for (code, flags, body, count) in requests {
            let noting = Arc::new(Mutex::new(Noting::default()));
            let mut handler = FrontendReqHandler::new(noting.clone()).unwrap();
            let peer = device_end(&handler);
            peer.say(&message(code, flags, &hex(body)), &vec![&file; count]);
            let before = open_fds();
            assert_eq!("InvalidMessage", name(&handler.handle_request().unwrap_err()), "{code} {flags} {body} {count}");
            assert_eq!(before, open_fds());
            assert_eq!("SocketBroken(71)", name(&handler.handle_request().unwrap_err()));
            assert!(noting.lock().unwrap().asked.is_empty());
        }
    });
}

/// The handler keeps the device's end open; so a request that is cut short waits, and what came is kept.
#[test]
fn a_request_in_pieces() {
    counted(|| {
        let noting = Arc::new(Mutex::new(Noting::default()));
        let mut handler = FrontendReqHandler::new(noting.clone()).unwrap();
        let peer = device_end(&handler);
        let file = memory_file();
        thread::scope(|scope| {
            scope.spawn(|| {
                let request = message(9, ASKS, &hex(PART));
                peer.say(&request[..1], &[&file]);
                for byte in &request[1..] {
                    thread::yield_now();
                    peer.say(&[*byte], &[]);
                }
            });
            assert_eq!(0, handler.handle_request().unwrap());
        });
        assert_eq!(1, noting.lock().unwrap().asked.len());
        assert_eq!(identity(&file), noting.lock().unwrap().files[0]);
        assert_ne!(handler.as_raw_fd(), handler.get_tx_raw_fd());
        peer.say(&message(2, ASKS, &[]), &[]);
        handler.set_failed(libc::ENODEV);
        assert_eq!("SocketBroken(19)", name(&handler.handle_request().unwrap_err()));
        handler.set_failed(0);
        assert_eq!(0, handler.handle_request().unwrap());
        assert_eq!("config_change", noting.lock().unwrap().asked[1]);
    });
}

/// What has no body refuses.
#[test]
fn calls_that_have_a_body() {
    struct Nothing;
    impl VhostUserFrontendReqHandlerMut for Nothing {}
    struct Silent;
    impl VhostUserFrontendReqHandler for Silent {}
    fn refusals(it: &impl VhostUserFrontendReqHandler, file: &std::fs::File) -> Vec<HandlerResult<u64>> {
        vec![
            it.handle_config_change(),
            it.shared_object_add(&object()),
            it.shared_object_remove(&object()),
            it.shared_object_lookup(&object(), file),
            it.shmem_map(&part(), file),
            it.shmem_unmap(&part()),
        ]
    }
    counted(|| {
        let (nothing, file) = (Mutex::new(Nothing), memory_file());
        for refused in refusals(&nothing, &file).into_iter().chain(refusals(&Silent, &file)) {
            assert_eq!(Some(libc::ENOSYS), refused.unwrap_err().raw_os_error());
        }
    });
    assert!(
        part().is_valid() && !VhostUserMMap { len: 0, ..part() }.is_valid() && !VhostUserMMap { flags: 2, ..part() }.is_valid()
    );
    assert_eq!(Ok(BackendReq::SHMEM_UNMAP), BackendReq::try_from(10));
}
