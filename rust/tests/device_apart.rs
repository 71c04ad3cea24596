// SPDX-License-Identifier: Apache-2.0
//! What a device bears of the program that it is in: threads that block signals or copy at the same time, and children of `fork`.
mod common;

use std::mem::zeroed;
use std::os::unix::fs::FileExt;
use std::os::unix::io::AsRawFd;
use std::os::unix::net::UnixStream;
use std::ptr::null_mut;
use std::thread::{scope, spawn};

use common::machine::*;
use common::*;
use covretin::device::Session;
use covretin::queue::{take_faults, GuestRegion};
use covretin::vhost_user::message::VhostUserMemoryRegion;
use covretin::vhost_user::Frontend;
use covretin::VhostBackend;

fn mapped(size: u64) -> (std::fs::File, GuestRegion) {
    let memory = memory_file();
    memory.set_len(size).unwrap();
    let about = VhostUserMemoryRegion { guest_phys_addr: 0, memory_size: size, user_addr: 0, mmap_offset: 0 };
    let region = GuestRegion::map(&about, &memory).unwrap();
    (memory, region)
}

fn block_all_signals() {
    // SAFETY: the set is filled before it is used, and borrowed by these calls alone.
    unsafe {
        let mut set = zeroed();
        libc::sigfillset(&mut set);
        libc::pthread_sigmask(libc::SIG_BLOCK, &set, null_mut());
    }
}

/// A thread that blocks all signals loses memory as any other does, by what this package does or after its one line.
#[test]
fn a_thread_that_blocks_all_signals_loses_memory() {
    counted(|| {
        for is_own in [false, true] {
            let (memory, region) = mapped(0x10000);
            memory.write_all_at(&[7; 0x10000], 0).unwrap();
            memory.set_len(0).unwrap();
            let lost = spawn(move || {
                block_all_signals();
                let (slice, mut bytes) = (region.as_volatile_slice(), [7; 8]);
                if is_own {
                    take_faults();
                    // SAFETY: it is a byte of the region, which is mapped.
                    bytes[0] = unsafe { slice.as_ptr().read_volatile() };
                } else {
                    slice.copy_to(&mut bytes);
                }
                (bytes[0], region.is_lost())
            });
            assert_eq!((0, true), lost.join().unwrap());
        }
    });
}

/// So does the thread that serves a session: its ring is in the memory that goes.
#[test]
fn a_session_in_such_a_thread_ends() {
    counted(|| {
        let (device, memory) = (Capitals::new(0), guest_memory());
        let (mine, other) = UnixStream::pair().unwrap();
        let session = Session::new(device.clone(), other).unwrap();
        let looping = spawn(move || {
            block_all_signals();
            serve_all(session)
        });
        let mut frontend = Frontend::from_stream(mine, 8);
        agree(&mut frontend, 0);
        frontend.set_mem_table(&[region_of(&memory, 0, MEMORY)]).unwrap();
        let mut ring = Ring::in_memory(&memory, 0);
        ring.start(&mut frontend, 0);
        ring.write_request(0, "here");
        ring.post(0);
        assert_eq!((0, 4), ring.used());
        memory.set_len(0).unwrap();
        ring.kick();
        assert_eq!("MemoryLost", looping.join().unwrap());
    });
}

/// Threads of safe code that copy the same bytes at a time: each gets words that one of them wrote. (the thread sanitizer sees no race)
#[test]
fn threads_copy_the_same_memory() {
    counted(|| {
        let (_memory, region) = mapped(0x1000);
        let slice = region.as_volatile_slice();
        scope(|threads| {
            for value in [1, 2] {
                threads.spawn(move || (0..20_000).for_each(|_| assert_eq!(61, slice.copy_from(&[value; 61]))));
            }
            threads.spawn(move || {
                for _ in 0..20_000 {
                    let mut bytes = [0; 61];
                    assert_eq!(61, slice.copy_to(&mut bytes));
                    assert!(bytes[..56].chunks(8).all(|word| word.iter().all(|byte| *byte == word[0])));
                    assert!(bytes.iter().all(|byte| *byte <= 2));
                }
            });
        });
    });
}

/// All sizes and places of a copy, which is made of words where it can be.
#[test]
fn copies_each_byte() {
    counted(|| {
        let (memory, region) = mapped(0x1000);
        let whole = region.as_volatile_slice();
        for (offset, size) in (0..17).flat_map(|offset| (0..41).map(move |size| (offset, size))) {
            let wanted: Vec<u8> = (1..=size as u8).collect();
            memory.write_all_at(&[0; 64], 0).unwrap();
            let part = whole.subslice(offset, size).unwrap();
            assert_eq!(size, part.copy_from(&[&wanted[..], &[99; 3]].concat()));
            let mut there = [0; 64];
            memory.read_exact_at(&mut there, 0).unwrap();
            assert_eq!(wanted, there[offset..offset + size]);
            assert!(there[..offset].iter().chain(&there[offset + size..]).all(|byte| *byte == 0));
            let mut bytes = [0; 44];
            assert_eq!(size, part.copy_to(&mut bytes));
            assert_eq!(wanted, bytes[..size]);
        }
    });
}

/// A child of this process: 0 in that, which ends by `exit`.
fn fork() -> libc::pid_t {
    // SAFETY: the child goes on as this thread does.
    let child = unsafe { libc::fork() };
    assert!(child >= 0);
    child
}

/// Nothing of the parent's is flushed or dropped.
fn exit(status: bool) -> ! {
    // SAFETY: it takes a number.
    unsafe { libc::_exit(status.into()) }
}

/// Serves a frontend at a socket in a child; in a child of that, which goes on as daemons do, with `is_daemon`.
fn serve_in_a_child(mine: &UnixStream, other: &UnixStream, is_daemon: bool) -> libc::pid_t {
    let child = fork();
    if child == 0 {
        // SAFETY: nobody uses the copy of the frontend's end any more, which would keep the session from its end.
        unsafe { libc::close(mine.as_raw_fd()) };
        let session = Session::new(Capitals::new(0), other.try_clone().unwrap()).unwrap();
        if is_daemon && fork() != 0 {
            exit(true);
        }
        exit(serve_all(session) == "Disconnected");
    }
    child
}

/// A server that forks for each frontend: its child calls the guest's driver, whether the parent has a session or not.
#[test]
fn a_child_calls_its_guest() {
    counted(|| {
        for (keeps, is_daemon) in [(false, false), (true, false), (true, true)] {
            let (one, _another) = UnixStream::pair().unwrap();
            let kept = keeps.then(|| Session::new(Capitals::new(0), one).unwrap());
            let (mine, other) = UnixStream::pair().unwrap();
            let child = serve_in_a_child(&mine, &other, is_daemon);
            drop(other);
            let (mut frontend, memory) = (Frontend::from_stream(mine, 8), guest_memory());
            agree(&mut frontend, 0);
            frontend.set_mem_table(&[region_of(&memory, 0, MEMORY)]).unwrap();
            let mut ring = Ring::in_memory(&memory, 0);
            ring.start(&mut frontend, 0);
            for _ in 0..3 {
                ring.write_request(0, "child");
                ring.post(0);
                assert_eq!((0, 5), ring.used());
                assert!(is_signalled(&ring.call, LIMIT as i32));
            }
            drop((frontend, kept));
            let mut status = 0;
            // SAFETY: one number, borrowed for the call.
            assert_eq!(child, unsafe { libc::waitpid(child, &mut status, 0) });
            assert_eq!(1 << 8, status);
        }
    });
}
