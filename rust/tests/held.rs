// SPDX-License-Identifier: Apache-2.0
//! A peer that keeps his copy of a stream socket that he gave, and reads from it into memory that does not come: the system holds the socket's
//! lock meanwhile, and whoever reads from it, too, waits as long. Nothing that this package does with such a socket by itself waits. Where no
//! userfaultfd may be made, nothing is played.
mod common;

use std::fs::{read_dir, read_to_string, File};
use std::io::{Read, Write};
use std::os::unix::io::{AsRawFd, FromRawFd, RawFd};
use std::os::unix::net::UnixStream;
use std::ptr::null_mut;
use std::sync::atomic::{AtomicBool, Ordering};
use std::sync::mpsc::channel;
use std::sync::Arc;
use std::thread::{sleep, spawn, JoinHandle};
use std::time::Duration;

use common::machine::*;
use common::*;
use covretin::vhost_user::{Backend, GpuBackend, VhostUserFrontend};
use covretin::VhostBackend;

const PAGE: usize = 4096;
/// Of `linux/userfaultfd.h`: its calls, and what they are called with.
const BEGIN: libc::c_ulong = 0xc018_aa3f;
const REGISTER: libc::c_ulong = 0xc020_aa00;
const ZEROPAGE: libc::c_ulong = 0xc020_aa04;
const API: u64 = 0xaa;
const MISSING: u64 = 1;
/// So many looks, a millisecond each, at which a thread has to be asleep beyond any signal to be one that waits for the peer.
const MOST_HELD: usize = 2000;

/// None: the system allows none here.
fn userfault() -> Option<File> {
    // SAFETY: it takes numbers; what is made belongs to nobody else.
    unsafe {
        let fd = libc::syscall(libc::SYS_userfaultfd, libc::O_CLOEXEC) as RawFd;
        (fd >= 0).then(|| File::from_raw_fd(fd))
    }
}

fn control<const N: usize>(userfault: &File, call: libc::c_ulong, mut numbers: [u64; N]) {
    // SAFETY: the struct is made of so many numbers, borrowed for the call.
    assert_eq!(0, unsafe { libc::ioctl(userfault.as_raw_fd(), call as _, numbers.as_mut_ptr()) });
}

/// A page of memory that does not come.
fn page_of(userfault: &File) -> u64 {
    let (access, flags) = (libc::PROT_READ | libc::PROT_WRITE, libc::MAP_PRIVATE | libc::MAP_ANONYMOUS);
    // SAFETY: the system chooses a place where nothing is.
    let page = unsafe { libc::mmap(null_mut(), PAGE, access, flags, -1, 0) };
    assert_ne!(libc::MAP_FAILED, page);
    control(userfault, BEGIN, [API, 0, 0]);
    control(userfault, REGISTER, [page as u64, PAGE as u64, MISSING, 0]);
    page as u64
}

fn threads() -> Vec<String> {
    read_dir("/proc/self/task").unwrap().map(|it| it.unwrap().file_name().into_string().unwrap()).collect()
}

/// Whether a thread sleeps, and no signal wakes it.
fn is_held(thread: &str) -> bool {
    let about = read_to_string(format!("/proc/self/task/{thread}/stat")).unwrap_or_default();
    about.rsplit(')').next().map_or(false, |rest| rest.trim_start().starts_with('D'))
}

/// The peer: who reads, and who gives the page once it is wanted no more, or once one of the threads that there were has waited for long.
struct Peer {
    is_over: Arc<AtomicBool>,
    reads: JoinHandle<()>,
    gives: JoinHandle<bool>,
}

impl Peer {
    /// Reads from this socket, whose other end this is.
    fn holding(socket: &UnixStream, mut other: &UnixStream) -> Peer {
        let (threads, mut userfault) = (threads(), userfault().unwrap());
        let (page, socket, is_over) = (page_of(&userfault), socket.try_clone().unwrap(), Arc::new(AtomicBool::new(false)));
        other.write_all(b"12345678").unwrap();
        let reads = spawn(move || {
            // SAFETY: the page is mapped, and nobody else has it.
            assert_eq!(4, unsafe { libc::recv(socket.as_raw_fd(), page as *mut libc::c_void, 4, 0) });
        });
        let (wants, is_wanted) = channel();
        let until = is_over.clone();
        let gives = spawn(move || {
            assert_eq!(32, userfault.read(&mut [0; 32]).unwrap()); // a `struct uffd_msg`
            wants.send(()).unwrap();
            let (mut held, mut most) = (0, 0);
            while !until.load(Ordering::SeqCst) && held < MOST_HELD {
                sleep(Duration::from_millis(1));
                held = if threads.iter().any(|it| is_held(it)) { held + 1 } else { 0 };
                most = most.max(held);
            }
            control(&userfault, ZEROPAGE, [page, PAGE as u64, 0, 0]);
            most >= MOST_HELD
        });
        is_wanted.recv().unwrap();
        Peer { is_over, reads, gives }
    }

    /// Reads no longer, and nobody has waited for it.
    #[track_caller]
    fn lets_go(self) {
        self.is_over.store(true, Ordering::SeqCst);
        let has_held = self.gives.join().unwrap();
        self.reads.join().unwrap();
        assert!(!has_held, "it waited for the peer");
    }
}

/// The same, where there may be a userfaultfd. What is to be closed is so in the end.
fn played(test: impl FnOnce()) {
    if userfault().is_some() {
        counted(|| {
            let before = open_fds();
            test();
            wait_until("all is closed", || open_fds() == before);
        });
    }
}

/// The device takes another channel in the place of the one that is held, and ends.
#[test]
fn a_channel_holds_no_device() {
    played(|| {
        let (mut machine, _ring) = begun(0, 0);
        let (mine, other) = UnixStream::pair().unwrap();
        for _ in 0..2 {
            machine.frontend.set_backend_request_fd(&other).unwrap();
        }
        let peer = Peer::holding(&other, &mine);
        machine.frontend.set_backend_request_fd(&other).unwrap();
        machine.frontend.get_features().unwrap();
        machine.end();
        peer.lets_go();
    });
}

/// Calls and errors are eventfds, unless the device has asked for more: then the end of one that is held waits for nobody.
#[test]
fn a_call_holds_no_device() {
    for is_asked_for in [false, true] {
        played(|| {
            let (machine, _ring) = begun(0, 0);
            machine.device.has(|its| its.by_pipe = is_asked_for);
            let (mine, other) = UnixStream::pair().unwrap();
            let is_taken =
                [machine.frontend.set_vring_call(0, &other), machine.frontend.set_vring_err(0, &other)].map(|it| it.is_ok());
            assert_eq!([is_asked_for; 2], is_taken);
            let peer = Peer::holding(&other, &mine);
            machine.end();
            peer.lets_go();
        });
    }
}

/// Nor does a program wait that lets go of a channel of its own.
#[test]
fn no_close_is_held() {
    let closes: [fn(UnixStream); 2] = [|it| drop(Backend::from_stream(it)), |it| drop(GpuBackend::from_stream(it))];
    for close in closes {
        played(|| {
            let (mine, other) = UnixStream::pair().unwrap();
            let given = other.try_clone().unwrap();
            let peer = Peer::holding(&other, &mine);
            close(given);
            peer.lets_go();
        });
    }
}
