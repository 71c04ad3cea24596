// SPDX-License-Identifier: Apache-2.0
//! What a device of `covretin::device` does for its frontend (common/machine.rs), and for who listens: who comes, is slow, and goes.
mod common;

use std::fs::{remove_file, File};
use std::io::{ErrorKind, Read, Write};
use std::os::unix::io::{AsRawFd, FromRawFd, OwnedFd};
use std::os::unix::net::{UnixListener, UnixStream};
use std::os::unix::thread::JoinHandleExt;
use std::path::PathBuf;
use std::sync::Arc;
use std::thread::{sleep, spawn};
use std::time::Duration;

use common::machine::*;
use common::*;
use covretin::device::{run, serve, Device, Request, Session, VERSION_1};
use covretin::vhost_user::message::*;
use covretin::vhost_user::{Frontend, Listener, VhostUserFrontend};
use covretin::VhostBackend;

/// A call that is full, and would block whoever writes it; a pipe, and a socket, and each once nobody reads it.
#[test]
fn never_waits_for_a_call() {
    counted(|| {
        let (machine, mut ring) = begun(0, 0);
        let full = event();
        (&full).write_all(&(u64::MAX - 1).to_ne_bytes()).unwrap();
        machine.frontend.set_vring_call(0, &full).unwrap();
        ring.write_request(0, "full");
        for _ in 0..3 {
            ring.post(0);
            assert_eq!((0, 4), ring.used());
        }
        let (mine, other) = UnixStream::pair().unwrap();
        for (mut reads, writes) in [pipe(), (File::from(OwnedFd::from(mine)), File::from(OwnedFd::from(other)))] {
            let mut count = [0; 8];
            machine.device.has(|its| its.by_pipe = false);
            failed("BackendInternalError", machine.frontend.set_vring_call(0, &writes));
            failed("BackendInternalError", machine.frontend.set_vring_err(0, &writes));
            machine.device.has(|its| its.by_pipe = true);
            machine.frontend.set_vring_call(0, &writes).unwrap();
            ring.post(0);
            assert_eq!((0, 4), ring.used());
            reads.read_exact(&mut count).unwrap();
            assert_eq!(1, u64::from_ne_bytes(count));
            drop(reads);
            ring.post(0);
            assert_eq!((0, 4), ring.used());
        }
        machine.end();
    });
}

fn pipe() -> (File, File) {
    let mut ends = [-1; 2];
    // SAFETY: it writes two numbers; what they name belongs to nobody else.
    unsafe {
        assert_eq!(0, libc::pipe2(ends.as_mut_ptr(), libc::O_CLOEXEC));
        (File::from_raw_fd(ends[0]), File::from_raw_fd(ends[1]))
    }
}

/// A channel that the device does not want stays open until another one comes, or the session ends; the frontend may close it.
#[test]
fn keeps_a_channel_that_nobody_wants() {
    counted(|| {
        let (mut machine, _ring) = begun(0, 0);
        let mut given = || {
            let (mine, other) = UnixStream::pair().unwrap();
            machine.frontend.set_backend_request_fd(&other).unwrap();
            mine.set_nonblocking(true).unwrap();
            mine
        };
        let mut first = given();
        assert_eq!(ErrorKind::WouldBlock, first.read(&mut [0]).unwrap_err().kind());
        drop(given());
        assert_eq!(0, first.read(&mut [0]).unwrap());
        let mut last = given();
        machine.frontend.get_features().unwrap();
        machine.end();
        assert_eq!(0, last.read(&mut [0]).unwrap());
    });
}

/// What the device has stays mapped, and the end is told once it is done; also where the frontend waits meanwhile for a ring to stop.
#[test]
fn frontend_dies_amid_a_request() {
    for waits in [false, true] {
        counted(|| {
            let (machine, mut ring) = begun(0, 0);
            machine.device.has(|its| its.keeps = true);
            ring.write_request(0, "amid");
            ring.post(0);
            machine.device.wait_until("it has one", |its| its.kept.len() == 1);
            if waits {
                machine.frontend.set_timeout(Some(Duration::from_millis(50)));
                machine.frontend.get_vring_base(0).unwrap_err();
            }
            let Machine { device, frontend, looping, .. } = machine;
            let before = open_fds();
            frontend.shutdown();
            // (the device's end of the socket, and what kicks and is called)
            wait_until("it gives up what it has", || open_fds() < before);
            drop(frontend);
            assert!(device.has(|its| its.ended.is_empty()));
            answer(device.has(|its| its.kept.pop()).unwrap());
            assert_eq!("Disconnected", looping.join().unwrap());
            assert_eq!("AMID", ring.text(0, 4));
            assert_eq!(0, ring.get16(2, 2)); // nobody was told
        });
    }
}

#[test]
fn has_a_configuration() {
    counted(|| {
        let mut machine = Machine::of(1);
        machine.negotiate(1);
        let (it, flags) = (&mut machine.frontend, VhostUserConfigFlags::empty());
        it.set_config(2, flags, &[1, 2, 3, 4]).unwrap();
        assert_eq!([0, 0, 1, 2, 3, 4, 0, 0], machine.device.has(|its| its.config));
        assert_eq!(vec![1, 2, 3, 4], it.get_config(2, 4, flags, &[0; 4]).unwrap().1);
        failed("BackendInternalError", it.set_config(6, flags, &[0; 4]));
        failed("BackendInternalError", it.get_config(6, 4, flags, &[0; 4]));
        failed("BackendInternalError", it.set_features(PROTOCOL | VERSION_1 | 2)); // it is not offered
        machine.device.wait_until("it was told", |its| its.refused.len() == 3);
        machine.end();
    });
}

/// A ring without eventfds is looked at each millisecond.
#[test]
fn polls_a_ring_without_a_kick() {
    counted(|| {
        let mut machine = Machine::of(0);
        machine.negotiate(0);
        let mut ring = Ring::of(&machine, 0);
        ring.start(&mut machine.frontend, 0);
        let peer = machine.frontend.try_clone_connection().unwrap();
        for request in [12, 13] {
            // SET_VRING_KICK and SET_VRING_CALL of no descriptor
            (&peer).write_all(&message(request, WANTS, &0x100u64.to_le_bytes())).unwrap();
            let mut reply = [0; 20];
            (&peer).read_exact(&mut reply).unwrap();
            assert_eq!(message(request, REPLIES, &[0; 8]), reply);
        }
        ring.write_request(0, "polled");
        for _ in 0..3 {
            ring.post(0);
            assert_eq!((0, 6), ring.used());
        }
        drop(peer);
        machine.end();
    });
}

/// Who sent half of a request, or reads no replies, keeps nobody waiting; who goes amid one is named.
#[test]
fn frontends_that_are_slow() {
    counted(|| {
        let ask = message(1, ASKS, &[]);
        let machine = Machine::of(0);
        let mut peer = machine.frontend.try_clone_connection().unwrap();
        peer.write_all(&ask[..7]).unwrap();
        sleep(Duration::from_millis(50));
        peer.write_all(&ask[7..]).unwrap();
        let mut reply = [0; 20];
        peer.read_exact(&mut reply).unwrap();
        assert_eq!(message(1, REPLIES, &[]).get(..8), reply.get(..8));
        peer.write_all(&ask[..7]).unwrap();
        drop(peer);
        let Machine { device, frontend, looping, .. } = machine;
        drop(frontend);
        assert_eq!("PartialMessage", looping.join().unwrap());
        assert_eq!(vec!["Some(1) PartialMessage"], device.has(|its| its.refused.clone()));

        let machine = Machine::of(0);
        let mut peer = machine.frontend.try_clone_connection().unwrap();
        peer.set_nonblocking(true).unwrap();
        wait_until("it hangs up", || match peer.write_all(&ask) {
            Err(error) => error.kind() != std::io::ErrorKind::WouldBlock,
            Ok(()) => false,
        });
        drop(peer);
        machine.ends_by("SocketBroken(110)");
    });
}

/// A session that is dropped calls nobody, and what it handed out may still be done.
#[test]
fn a_session_is_dropped_amid_a_request() {
    counted(|| {
        let device = Capitals::new(0);
        device.has(|its| its.keeps = true);
        let memory = guest_memory();
        let (mine, other) = UnixStream::pair().unwrap();
        let mut session = Session::new(device.clone(), other).unwrap();
        let its = device.clone();
        let looping = spawn(move || {
            while its.has(|its| its.kept.is_empty()) {
                is_readable(session.as_raw_fd(), 10);
                assert!(session.handle_events().is_none());
            }
        });
        let mut frontend = Frontend::from_stream(mine, 8);
        agree(&mut frontend, 0);
        frontend.set_mem_table(&[region_of(&memory, 0, MEMORY)]).unwrap();
        let mut ring = Ring::in_memory(&memory, 0);
        ring.start(&mut frontend, 0);
        ring.write_request(0, "closed");
        ring.post(0);
        looping.join().unwrap();
        assert!(frontend.get_features().is_err()); // the frontend is hung up on
        answer(device.has(|its| its.kept.pop()).unwrap());
        assert_eq!("CLOSED", ring.text(0, 6));
        assert_eq!(0, ring.get16(2, 2));
        assert!(device.has(|its| its.ended.is_empty()));
    });
}

/// Where a test's sockets are.
fn path(name: &str) -> PathBuf {
    std::env::temp_dir().join(format!("covretin-{}-{name}.sock", std::process::id()))
}

/// A frontend of a device that listens, by its first request.
fn connected(path: &PathBuf) -> Frontend {
    let frontend = Frontend::connect(path, 8).unwrap();
    frontend.set_timeout(Some(Duration::from_secs(20)));
    frontend
}

/// It serves one frontend after another, hangs up on one that comes meanwhile, and ends at a signal.
#[test]
fn runs_until_a_signal() {
    counted(|| {
        let (path, device) = (path("runs"), Capitals::new(0));
        let (place, its) = (path.clone(), device.clone());
        let running = spawn(move || run(place, its));
        wait_until("it listens", || path.exists());
        for round in 1..=2 {
            let memory = guest_memory();
            let mut frontend = connected(&path);
            agree(&mut frontend, 0);
            frontend.set_mem_table(&[region_of(&memory, 0, MEMORY)]).unwrap();
            let mut ring = Ring::in_memory(&memory, 0);
            ring.start(&mut frontend, 0);
            ring.write_request(0, "run");
            ring.post(0);
            assert_eq!((0, 3), ring.used());
            assert!(connected(&path).get_features().is_err());
            drop(frontend);
            device.wait_until("it has ended", |its| its.ended.len() == round);
        }
        let taken = run(&path, Capitals::new(0)).unwrap_err();
        assert_eq!(std::io::ErrorKind::AddrInUse, taken.kind());
        // SAFETY: the thread was not joined.
        assert_eq!(0, unsafe { libc::pthread_kill(running.as_pthread_t(), libc::SIGTERM) });
        running.join().unwrap().unwrap();
        assert!(!path.exists());
        // One that was left over is replaced.
        drop(UnixListener::bind(&path).unwrap());
        let (place, running) = (path.clone(), spawn(move || run(path, device)));
        wait_until("it listens", || UnixStream::connect(&place).is_ok());
        // SAFETY: as above.
        assert_eq!(0, unsafe { libc::pthread_kill(running.as_pthread_t(), libc::SIGTERM) });
        running.join().unwrap().unwrap();
    });
}

#[test]
fn refuses_devices_and_places() {
    struct None;
    impl Device for None {
        fn queues(&self) -> usize {
            0
        }
        fn request(&self, _request: Request) {}
    }
    counted(|| {
        let (socket, _other) = UnixStream::pair().unwrap();
        assert!(Session::new(Arc::new(None), socket).is_err());
        let path = path("refuses");
        let listener = Listener::new(&path, true).unwrap();
        listener.set_nonblocking(true).unwrap();
        assert!(Session::accept(Capitals::new(0), &listener).unwrap().is_none());
        let _frontend = UnixStream::connect(&path).unwrap();
        assert!(serve(&listener, None).is_err());
        assert!(run("", Capitals::new(0)).is_err());
        assert!(run(path.join("below"), Capitals::new(0)).is_err());
        drop(listener);
        let _ = remove_file(path);
    });
}
