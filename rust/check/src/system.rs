// SPDX-License-Identifier: Apache-2.0
//! The calls of the system that the standard library has not: all `unsafe` of this package is here.
use std::fs::File;
use std::io;
use std::os::unix::io::{AsRawFd, FromRawFd, OwnedFd, RawFd};
use std::os::unix::net::UnixStream;
use std::os::unix::process::CommandExt;
use std::process::Command;
use std::ptr::{null_mut, read_volatile, write_volatile};
use std::sync::atomic::{fence, AtomicU8, Ordering};

/// The most descriptors that a message brings here.
const MOST_DESCRIPTORS: usize = 64;
const DESCRIPTOR_SIZE: usize = std::mem::size_of::<RawFd>();
/// UFFDIO_API, and the only version of it.
const UFFDIO_API: libc::c_ulong = 0xc018_aa3f;
const UFFD_API: u64 = 0xaa;
/// UFFDIO_COPY, and which event says that a page is missing.
const UFFDIO_COPY: libc::c_ulong = 0xc028_aa03;
const PAGE_FAULT: u8 = 0x12;
const PAGE: u64 = 4096;

/// What a call returned, or why it failed.
fn checked(returned: libc::c_int) -> io::Result<libc::c_int> {
    match returned {
        -1 => Err(io::Error::last_os_error()),
        value => Ok(value),
    }
}

/// New memory of so many bytes, as a file.
pub fn memory_file(size: u64) -> io::Result<File> {
    let name = b"covretin-check\0".as_ptr().cast();
    // SAFETY: the name ends by a zero; a new descriptor is nobody else's.
    let file = unsafe { File::from_raw_fd(checked(libc::memfd_create(name, libc::MFD_CLOEXEC | libc::MFD_ALLOW_SEALING))?) };
    file.set_len(size)?;
    Ok(file)
}

/// A new eventfd, which does not wait.
pub fn event() -> io::Result<OwnedFd> {
    // SAFETY: no memory is given; a new descriptor is nobody else's.
    unsafe { Ok(OwnedFd::from_raw_fd(checked(libc::eventfd(0, libc::EFD_CLOEXEC | libc::EFD_NONBLOCK))?)) }
}

/// Adds 1 to an eventfd; one that is full already says enough.
pub fn signal_event(event: &impl AsRawFd) {
    let one = 1u64.to_ne_bytes();
    // SAFETY: eight bytes are read.
    unsafe { libc::write(event.as_raw_fd(), one.as_ptr().cast(), one.len()) };
}

/// Takes what was added to an eventfd: whether there was something.
pub fn take_event(event: &impl AsRawFd) -> bool {
    let mut value = [0; 8];
    // SAFETY: there is room for eight bytes.
    unsafe { libc::read(event.as_raw_fd(), value.as_mut_ptr().cast(), value.len()) == 8 }
}

/// Both ends of a new pipe: the one to read, and the one to write.
pub fn pipe() -> io::Result<(File, File)> {
    let mut ends = [0; 2];
    // SAFETY: there is room for two; new descriptors are nobody else's.
    unsafe {
        checked(libc::pipe2(ends.as_mut_ptr(), libc::O_CLOEXEC))?;
        Ok((File::from_raw_fd(ends[0]), File::from_raw_fd(ends[1])))
    }
}

/// Whether there is something to read, or an end, within so many milliseconds.
pub fn is_readable(descriptor: &impl AsRawFd, milliseconds: i32) -> bool {
    is_ready(descriptor, libc::POLLIN, milliseconds)
}

/// Whether something can be written within so many milliseconds.
pub fn is_writable(descriptor: &impl AsRawFd, milliseconds: i32) -> bool {
    is_ready(descriptor, libc::POLLOUT, milliseconds)
}

fn is_ready(descriptor: &impl AsRawFd, events: libc::c_short, milliseconds: i32) -> bool {
    let mut one = libc::pollfd { fd: descriptor.as_raw_fd(), events, revents: 0 };
    // SAFETY: one record is there.
    unsafe { libc::poll(&mut one, 1, milliseconds) > 0 }
}

/// Shared memory of a file.
pub struct Mapping {
    at: *mut u8,
    size: usize,
}

impl Mapping {
    pub fn of(file: &impl AsRawFd, offset: u64, size: usize) -> io::Result<Self> {
        let access = libc::PROT_READ | libc::PROT_WRITE;
        // SAFETY: the system chooses the place.
        let at = unsafe { libc::mmap(null_mut(), size, access, libc::MAP_SHARED, file.as_raw_fd(), offset as libc::off_t) };
        match at == libc::MAP_FAILED {
            true => Err(io::Error::last_os_error()),
            false => Ok(Mapping { at: at.cast(), size }),
        }
    }

    /// The bytes from an offset on. A part beyond the end is a mistake of the caller.
    pub fn read(&self, offset: u64, count: usize) -> Vec<u8> {
        assert!(offset as usize + count <= self.size);
        // SAFETY: they are inside; others write them at any time, so each is read once.
        (0..count).map(|at| unsafe { read_volatile(self.at.add(offset as usize + at)) }).collect()
    }

    pub fn write(&self, offset: u64, bytes: &[u8]) {
        assert!(offset as usize + bytes.len() <= self.size);
        for (at, byte) in bytes.iter().enumerate() {
            // SAFETY: it is inside.
            unsafe { write_volatile(self.at.add(offset as usize + at), *byte) };
        }
    }

    /// A number that the other side writes as one.
    pub fn read_u16(&self, offset: u64) -> u16 {
        assert!(offset as usize + 2 <= self.size && offset % 2 == 0);
        // SAFETY: it is inside, and aligned.
        let value = unsafe { read_volatile(self.at.add(offset as usize).cast::<u16>()) };
        fence(Ordering::Acquire);
        u16::from_le(value)
    }

    /// Puts another byte there, in one step: the one that was there.
    pub fn swap(&self, offset: u64, byte: u8) -> u8 {
        assert!((offset as usize) < self.size);
        // SAFETY: it is inside; whoever shares the memory may change it at any time, and this is one step.
        let place = unsafe { &*self.at.add(offset as usize).cast::<AtomicU8>() };
        place.swap(byte, Ordering::SeqCst)
    }

    /// Writes a number as one, after all that was written before.
    pub fn write_u16(&self, offset: u64, value: u16) {
        assert!(offset as usize + 2 <= self.size && offset % 2 == 0);
        fence(Ordering::SeqCst);
        // SAFETY: it is inside, and aligned.
        unsafe { write_volatile(self.at.add(offset as usize).cast::<u16>(), value.to_le()) };
        fence(Ordering::SeqCst);
    }
}

impl Drop for Mapping {
    fn drop(&mut self) {
        // SAFETY: it was mapped so, and no reference to it is given out.
        unsafe { libc::munmap(self.at.cast(), self.size) };
    }
}

/// Sends bytes with descriptors, which come with the first of them: how many bytes went.
pub fn send(socket: &UnixStream, bytes: &[u8], descriptors: &[RawFd]) -> io::Result<usize> {
    assert!(descriptors.len() <= MOST_DESCRIPTORS);
    let mut part = libc::iovec { iov_base: bytes.as_ptr() as *mut _, iov_len: bytes.len() };
    let mut control = [0u64; 8 + MOST_DESCRIPTORS * DESCRIPTOR_SIZE / 8];
    // SAFETY: a record of zeros is an empty one; the control buffer is aligned and has room for the header and the descriptors.
    let sent = unsafe {
        let mut message: libc::msghdr = std::mem::zeroed();
        message.msg_iov = &mut part;
        message.msg_iovlen = 1;
        if !descriptors.is_empty() {
            let size = (descriptors.len() * DESCRIPTOR_SIZE) as u32;
            message.msg_control = control.as_mut_ptr().cast();
            message.msg_controllen = libc::CMSG_SPACE(size) as _;
            let header = libc::CMSG_FIRSTHDR(&message);
            (*header).cmsg_level = libc::SOL_SOCKET;
            (*header).cmsg_type = libc::SCM_RIGHTS;
            (*header).cmsg_len = libc::CMSG_LEN(size) as _;
            std::ptr::copy_nonoverlapping(descriptors.as_ptr().cast::<u8>(), libc::CMSG_DATA(header), size as usize);
        }
        libc::sendmsg(socket.as_raw_fd(), &message, libc::MSG_NOSIGNAL | libc::MSG_DONTWAIT)
    };
    usize::try_from(sent).map_err(|_| io::Error::last_os_error())
}

/// Receives bytes, and the descriptors that came with them: how many bytes.
pub fn receive(socket: &UnixStream, buffer: &mut [u8], descriptors: &mut Vec<OwnedFd>) -> io::Result<usize> {
    let mut part = libc::iovec { iov_base: buffer.as_mut_ptr().cast(), iov_len: buffer.len() };
    let mut control = [0u64; 8 + MOST_DESCRIPTORS * DESCRIPTOR_SIZE / 8];
    // SAFETY: both buffers are there for as long as the call; each descriptor that came is new, and nobody else's.
    let got = unsafe {
        let mut message: libc::msghdr = std::mem::zeroed();
        message.msg_iov = &mut part;
        message.msg_iovlen = 1;
        message.msg_control = control.as_mut_ptr().cast();
        message.msg_controllen = std::mem::size_of_val(&control) as _;
        let got = libc::recvmsg(socket.as_raw_fd(), &mut message, libc::MSG_DONTWAIT | libc::MSG_CMSG_CLOEXEC);
        let mut header = if got < 0 { null_mut() } else { libc::CMSG_FIRSTHDR(&message) };
        while !header.is_null() {
            if ((*header).cmsg_level, (*header).cmsg_type) == (libc::SOL_SOCKET, libc::SCM_RIGHTS) {
                let count = ((*header).cmsg_len as usize - libc::CMSG_LEN(0) as usize) / DESCRIPTOR_SIZE;
                let first = libc::CMSG_DATA(header).cast::<RawFd>();
                descriptors.extend((0..count).map(|at| OwnedFd::from_raw_fd(first.add(at).read_unaligned())));
            }
            header = libc::CMSG_NXTHDR(&message, header);
        }
        got
    };
    usize::try_from(got).map_err(|_| io::Error::last_os_error())
}

/// Which process listens at the other end of a socket, where this one can know its number.
pub fn peer_of(socket: &UnixStream) -> Option<i32> {
    let mut peer = libc::ucred { pid: 0, uid: 0, gid: 0 };
    let mut size = std::mem::size_of_val(&peer) as libc::socklen_t;
    // SAFETY: there is room for the record.
    let got = unsafe {
        libc::getsockopt(
            socket.as_raw_fd(),
            libc::SOL_SOCKET,
            libc::SO_PEERCRED,
            (&mut peer as *mut libc::ucred).cast(),
            &mut size,
        )
    };
    (got == 0 && peer.pid > 0).then_some(peer.pid)
}

/// Sends a signal to a process that the checker started, or with a negative number to all of its group.
pub fn send_signal(process: i32, number: i32) {
    // SAFETY: no memory is given.
    unsafe { libc::kill(process, number) };
}

/// Has a program started in a process group of its own, so that all of it can be ended; it ends with the checker, too.
pub fn in_own_group(command: &mut Command) -> &mut Command {
    // SAFETY: both calls may be made between fork and exec.
    unsafe {
        command.pre_exec(|| {
            checked(libc::setpgid(0, 0))?;
            checked(libc::prctl(libc::PR_SET_PDEATHSIG, libc::SIGKILL)).map(drop)
        })
    }
}

/// Has a program that is started from now on keep a descriptor.
pub fn inherit(descriptor: &impl AsRawFd) -> io::Result<()> {
    // SAFETY: no memory is given.
    checked(unsafe { libc::fcntl(descriptor.as_raw_fd(), libc::F_SETFD, 0) }).map(drop)
}

/// Enables a userfaultfd, where its maker has not.
pub fn enable_userfault(descriptor: &impl AsRawFd) {
    let mut api = [UFFD_API, 0, 0];
    // SAFETY: the record has three numbers.
    unsafe { libc::ioctl(descriptor.as_raw_fd(), UFFDIO_API as _, api.as_mut_ptr()) };
}

/// The address of a page fault that waits, which is taken off a userfaultfd.
pub fn next_fault(descriptor: &impl AsRawFd) -> Option<u64> {
    let mut event = [0u64; 4];
    let size = std::mem::size_of_val(&event);
    // SAFETY: there is room for an event; a userfaultfd that waits is told not to.
    let got = unsafe {
        libc::fcntl(descriptor.as_raw_fd(), libc::F_SETFL, libc::O_NONBLOCK);
        libc::read(descriptor.as_raw_fd(), event.as_mut_ptr().cast(), size)
    };
    (got == size as isize && event[0] as u8 == PAGE_FAULT).then_some(event[2])
}

/// Gives a page of zeros to who waits for it.
pub fn give_page(descriptor: &impl AsRawFd, address: u64) {
    let zeros = [0u8; PAGE as usize];
    let mut copy = [address & !(PAGE - 1), zeros.as_ptr() as u64, PAGE, 0, 0];
    // SAFETY: the record has five numbers; a page of bytes is there to be read.
    unsafe { libc::ioctl(descriptor.as_raw_fd(), UFFDIO_COPY as _, copy.as_mut_ptr()) };
}

/// Keeps this thread off the processors where the threads of a process ran last, if another one is left, so that both can work at once.
pub struct Apart {
    before: libc::cpu_set_t,
}

impl Apart {
    pub fn of(process: i32) -> Option<Self> {
        let size = std::mem::size_of::<libc::cpu_set_t>();
        // SAFETY: a set of zeros is an empty one, and there is room for a set; a processor that no set can have is left out.
        unsafe {
            let mut before: libc::cpu_set_t = std::mem::zeroed();
            checked(libc::sched_getaffinity(0, size, &mut before)).ok()?;
            let mut rest = before;
            for processor in processors_of(process).filter(|it| *it < libc::CPU_SETSIZE as usize) {
                libc::CPU_CLR(processor, &mut rest);
            }
            let is_apart = libc::CPU_COUNT(&rest) > 0 && libc::sched_setaffinity(0, size, &rest) == 0;
            is_apart.then_some(Apart { before })
        }
    }
}

impl Drop for Apart {
    fn drop(&mut self) {
        // SAFETY: the set is whole.
        unsafe { libc::sched_setaffinity(0, std::mem::size_of::<libc::cpu_set_t>(), &self.before) };
    }
}

/// On which processor each thread of a process ran last: the 39th number of its state, and the 37th behind its name.
fn processors_of(process: i32) -> impl Iterator<Item = usize> {
    let threads = std::fs::read_dir(format!("/proc/{process}/task")).into_iter().flatten().flatten();
    threads.filter_map(|it| {
        let text = std::fs::read_to_string(it.path().join("stat")).ok()?;
        text[text.rfind(')')? + 1..].split_whitespace().nth(36)?.parse().ok()
    })
}

/// Whether the checker runs as root.
pub fn is_root() -> bool {
    // SAFETY: no memory is given.
    unsafe { libc::geteuid() == 0 }
}
