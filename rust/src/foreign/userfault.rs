// SPDX-License-Identifier: Apache-2.0
//! Pages that are not there yet: whoever touches one waits until the frontend has put it in place, by a userfaultfd.
use std::fs::File;
use std::io;
use std::os::unix::io::{AsRawFd, FromRawFd, RawFd};
use std::sync::atomic::Ordering;

use super::guest::Mapping;

/// Of `linux/userfaultfd.h`: the version of the interface, its calls, and that pages which are missing are waited for.
const API: u64 = 0xaa;
const BEGIN: libc::c_ulong = 0xc018_aa3f;
const REGISTER: libc::c_ulong = 0xc020_aa00;
const UNREGISTER: libc::c_ulong = 0x8010_aa01;
const WAKE: libc::c_ulong = 0x8010_aa02;
const MISSING: u64 = 1;

/// A call of a userfaultfd, by the numbers of its struct.
fn control<const N: usize>(fd: RawFd, call: libc::c_ulong, mut numbers: [u64; N]) -> io::Result<()> {
    // SAFETY: each of these structs is made of so many numbers, which are borrowed for the call.
    match unsafe { libc::ioctl(fd, call as _, numbers.as_mut_ptr()) } {
        0 => Ok(()),
        _ => Err(io::Error::last_os_error()),
    }
}

/// Whoever waits for a page of a range looks again.
pub(super) fn wake_range(userfault: RawFd, at: u64, size: u64) {
    let _ = control(userfault, WAKE, [at, size]);
}

/// A userfaultfd.
pub(crate) struct Userfault(File);

impl Userfault {
    pub(crate) fn new() -> io::Result<Userfault> {
        // SAFETY: it takes numbers; what is made belongs to nobody else.
        let file = unsafe {
            match libc::syscall(libc::SYS_userfaultfd, libc::O_CLOEXEC | libc::O_NONBLOCK) {
                made if made >= 0 => File::from_raw_fd(made as RawFd),
                _ => return Err(io::Error::last_os_error()),
            }
        };
        control(file.as_raw_fd(), BEGIN, [API, 0, 0])?;
        Ok(Userfault(file))
    }

    /// Another descriptor of it.
    pub(crate) fn try_clone(&self) -> io::Result<File> {
        self.0.try_clone()
    }

    /// Pages of a mapping that are missing are waited for from now on.
    pub(crate) fn watch(&self, mapping: &Mapping) -> io::Result<()> {
        let (at, size) = mapping.pages();
        if !mapping.is_watched.load(Ordering::SeqCst) {
            control(self.0.as_raw_fd(), REGISTER, [at, size, MISSING, 0])?;
            mapping.is_watched.store(true, Ordering::SeqCst);
        }
        Ok(())
    }

    /// They are waited for no longer.
    pub(crate) fn leave(&self, mapping: &Mapping) -> io::Result<()> {
        let (at, size) = mapping.pages();
        match mapping.is_watched.swap(false, Ordering::SeqCst) {
            true => control(self.0.as_raw_fd(), UNREGISTER, [at, size]),
            false => Ok(()),
        }
    }
}
