// SPDX-License-Identifier: Apache-2.0
//! A fault in memory that is none of a device's guest is for the handler of SIGBUS that was there before the first of that was mapped.
mod common;

use std::os::unix::io::AsRawFd;
use std::ptr::null_mut;

use common::*;
use covretin::queue::GuestRegion;
use covretin::vhost_user::message::VhostUserMemoryRegion;

/// How a process ends whose fault was handed on.
const HANDED_ON: i32 = 42;
const SIZE: u64 = 4096;

extern "C" fn end(_: libc::c_int) {
    // SAFETY: it may be called in a handler.
    unsafe { libc::_exit(HANDED_ON) }
}

#[test]
fn are_handed_on() {
    counted(|| {
        let (guest, own) = (memory_file(), memory_file());
        guest.set_len(SIZE).unwrap();
        own.set_len(SIZE).unwrap();
        // SAFETY: the handler is a function of this kind; the system chooses where the file is mapped, which nobody else has.
        let at = unsafe {
            libc::signal(libc::SIGBUS, end as *const () as libc::sighandler_t);
            let access = libc::PROT_READ | libc::PROT_WRITE;
            libc::mmap(null_mut(), SIZE as usize, access, libc::MAP_SHARED, own.as_raw_fd(), 0)
        };
        assert_ne!(libc::MAP_FAILED, at);
        let region = GuestRegion::map(&VhostUserMemoryRegion::new(0, SIZE, 0, 0), &guest).unwrap();
        guest.set_len(0).unwrap();
        own.set_len(0).unwrap();
        let mut bytes = [1; 4];
        assert_eq!((4, false), (region.as_volatile_slice().copy_to(&mut bytes), bytes[0] == 1));
        assert!(region.is_lost());
        let mut ended = 0;
        // SAFETY: the child only touches the page, and ends; it is waited for. Nobody has the page after it is unmapped.
        unsafe {
            let child = libc::fork();
            if child == 0 {
                at.cast::<u8>().write_volatile(1);
                libc::_exit(0);
            }
            assert_eq!(child, libc::waitpid(child, &mut ended, 0));
            libc::munmap(at, SIZE as usize);
        }
        assert!(libc::WIFEXITED(ended) && libc::WEXITSTATUS(ended) == HANDED_ON, "{ended:#x}");
    });
}
