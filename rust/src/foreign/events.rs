// SPDX-License-Identifier: Apache-2.0
//! What an event loop waits for, and what it tells others by. A descriptor that a frontend sent has flags that it shares, so O_NONBLOCK may
//! be cleared at any time: nothing here waits for one, and nothing rests on such a flag.
use std::fs::{read_link, File, OpenOptions};
use std::io;
use std::mem::{size_of, size_of_val, zeroed};
use std::os::unix::fs::OpenOptionsExt;
use std::os::unix::io::{AsRawFd, FromRawFd, OwnedFd, RawFd};
use std::os::unix::net::UnixStream;
use std::ptr::{addr_of, addr_of_mut, null_mut};
use std::sync::{Arc, Mutex, PoisonError, Weak};
use std::time::Duration;

use super::closing::{PeerFd, PeerSocket};
use super::socket::{is_unix_stream, send};

/// A descriptor that a call of the system made, or why it made none.
fn made(fd: libc::c_int) -> io::Result<OwnedFd> {
    match fd {
        fd if fd < 0 => Err(io::Error::last_os_error()),
        // SAFETY: it was made just now, and belongs to nobody else.
        fd => Ok(unsafe { OwnedFd::from_raw_fd(fd) }),
    }
}

/// A file in memory, without a name.
pub(crate) fn memory_file() -> io::Result<File> {
    // SAFETY: the name is a string of C.
    made(unsafe { libc::memfd_create(b"covretin\0".as_ptr().cast(), libc::MFD_CLOEXEC) }).map(File::from)
}

/// Waits until one of these is ready for its events, for so many milliseconds at most, negative: without limit. What `poll` tells of each; a
/// signal is told as nothing. A negative descriptor is none.
pub(crate) fn poll(fds: &[(RawFd, libc::c_short)], limit: libc::c_int) -> io::Result<Vec<libc::c_short>> {
    let mut polled: Vec<libc::pollfd> =
        fds.iter().map(|(fd, events)| libc::pollfd { fd: *fd, events: *events, revents: 0 }).collect();
    // SAFETY: the list is borrowed for the call, and has that many elements.
    if unsafe { libc::poll(polled.as_mut_ptr(), polled.len() as libc::nfds_t, limit) } < 0 {
        let cause = io::Error::last_os_error();
        return match cause.kind() {
            io::ErrorKind::Interrupted => Ok(vec![0; fds.len()]),
            _ => Err(cause),
        };
    }
    Ok(polled.iter().map(|it| it.revents).collect())
}

/// An eventfd of one's own.
pub(crate) struct Event(OwnedFd);

impl Event {
    pub(crate) fn new() -> io::Result<Event> {
        // SAFETY: it takes numbers.
        made(unsafe { libc::eventfd(0, libc::EFD_CLOEXEC | libc::EFD_NONBLOCK) }).map(Event)
    }

    /// Also in a signal handler.
    pub(crate) fn set(&self) {
        let one = 1u64;
        // SAFETY: one number, borrowed for the call.
        unsafe { libc::write(self.0.as_raw_fd(), addr_of!(one).cast(), size_of_val(&one)) };
    }

    pub(crate) fn take(&self) {
        let mut count = 0u64;
        // SAFETY: as above.
        unsafe { libc::read(self.0.as_raw_fd(), addr_of_mut!(count).cast(), size_of_val(&count)) };
    }
}

impl AsRawFd for Event {
    fn as_raw_fd(&self) -> RawFd {
        self.0.as_raw_fd()
    }
}

/// A clock that is ready from time to time.
pub(crate) struct Timer(OwnedFd);

impl Timer {
    pub(crate) fn new() -> io::Result<Timer> {
        // SAFETY: it takes numbers.
        made(unsafe { libc::timerfd_create(libc::CLOCK_MONOTONIC, libc::TFD_CLOEXEC | libc::TFD_NONBLOCK) }).map(Timer)
    }

    /// Ready once each so long, less than a second; 0: never.
    pub(crate) fn set(&self, each: Duration) {
        let each = libc::timespec { tv_sec: 0, tv_nsec: each.subsec_nanos() as _ };
        let times = libc::itimerspec { it_interval: each, it_value: each };
        // SAFETY: one struct, borrowed for the call.
        unsafe { libc::timerfd_settime(self.0.as_raw_fd(), 0, &times, null_mut()) };
    }

    /// Whether it was ready.
    pub(crate) fn take(&self) -> bool {
        let mut count = 0u64;
        // SAFETY: one number, borrowed for the call.
        unsafe { libc::read(self.0.as_raw_fd(), addr_of_mut!(count).cast(), size_of_val(&count)) > 0 }
    }
}

impl AsRawFd for Timer {
    fn as_raw_fd(&self) -> RawFd {
        self.0.as_raw_fd()
    }
}

/// An epoll, each of whose descriptors has a number.
pub(crate) struct Polled(OwnedFd);

/// How many are told of at once.
const MOST_READY: usize = 80;

impl Polled {
    pub(crate) fn new() -> io::Result<Polled> {
        // SAFETY: it takes numbers.
        made(unsafe { libc::epoll_create1(libc::EPOLL_CLOEXEC) }).map(Polled)
    }

    fn control(&self, call: libc::c_int, fd: RawFd, number: u32, events: libc::c_int) -> io::Result<()> {
        let mut event = libc::epoll_event { events: events as u32, u64: number.into() };
        // SAFETY: one struct, borrowed for the call.
        match unsafe { libc::epoll_ctl(self.0.as_raw_fd(), call, fd, &mut event) } {
            0 => Ok(()),
            _ => Err(io::Error::last_os_error()),
        }
    }

    /// It is ready when there is something to be read of this one.
    pub(crate) fn add(&self, fd: &impl AsRawFd, number: u32) -> io::Result<()> {
        self.control(libc::EPOLL_CTL_ADD, fd.as_raw_fd(), number, libc::EPOLLIN)
    }

    /// Whether that one is looked at for something to be read; else only for its end.
    pub(crate) fn look_for(&self, fd: &impl AsRawFd, number: u32, is_to_be_read: bool) {
        let _ = self.control(libc::EPOLL_CTL_MOD, fd.as_raw_fd(), number, if is_to_be_read { libc::EPOLLIN } else { 0 });
    }

    /// (closing a descriptor does not take it off where another process has it, too)
    pub(crate) fn remove(&self, fd: &impl AsRawFd) {
        let _ = self.control(libc::EPOLL_CTL_DEL, fd.as_raw_fd(), 0, 0);
    }

    /// The numbers of what is ready now, and whether each has ended or failed.
    pub(crate) fn ready(&self) -> Vec<(u32, bool)> {
        let mut events = [libc::epoll_event { events: 0, u64: 0 }; MOST_READY];
        // SAFETY: a list of that length, borrowed for the call.
        let count = unsafe { libc::epoll_wait(self.0.as_raw_fd(), events.as_mut_ptr(), MOST_READY as libc::c_int, 0) };
        let ready = events.iter().take(usize::try_from(count).unwrap_or(0));
        ready.map(|it| (it.u64 as u32, it.events & (libc::EPOLLHUP | libc::EPOLLERR) as u32 != 0)).collect()
    }
}

impl AsRawFd for Polled {
    fn as_raw_fd(&self) -> RawFd {
        self.0.as_raw_fd()
    }
}

// -- What a frontend sent --

fn path_of(fd: &impl AsRawFd) -> String {
    format!("/proc/self/fd/{}", fd.as_raw_fd())
}

/// Whether a descriptor is of this kind of file, by the name that the system gives it: nothing is asked of the file itself.
fn is_kind(fd: &impl AsRawFd, kind: &str) -> bool {
    read_link(path_of(fd)).map_or(false, |name| name.to_string_lossy().starts_with(kind))
}

const EVENTFD: &str = "anon_inode:[eventfd]";
/// Of `linux/fs.h`: a read that waits for nothing.
const RWF_NOWAIT: libc::c_long = 8;

/// An eventfd that kicks a ring.
pub(crate) struct Kick(PeerFd);

impl Kick {
    /// None: it is no eventfd.
    pub(crate) fn of(fd: PeerFd) -> Option<Kick> {
        is_kind(&fd, EVENTFD).then(|| Kick(fd))
    }

    /// Takes what was counted, if anything was. Whether that can be done.
    pub(crate) fn take(&self) -> bool {
        let mut count = 0u64;
        let whole = libc::iovec { iov_base: addr_of_mut!(count).cast(), iov_len: size_of_val(&count) };
        let (fd, one, here) = (libc::c_long::from(self.0.as_raw_fd()), 1 as libc::c_long, -1 as libc::c_long);
        // SAFETY: one buffer of that length, borrowed for the call. RWF_NOWAIT is the call's, whatever the file's flags are.
        let got = unsafe { libc::syscall(libc::SYS_preadv2, fd, addr_of!(whole), one, here, here, RWF_NOWAIT) };
        got == size_of::<u64>() as libc::c_long || io::Error::last_os_error().kind() == io::ErrorKind::WouldBlock
    }
}

impl AsRawFd for Kick {
    fn as_raw_fd(&self) -> RawFd {
        self.0.as_raw_fd()
    }
}

/// What a ring calls by.
pub(crate) enum Bell {
    Eventfd(PeerFd),
    /// Some frontends send a pipe. It is opened anew, with flags that the frontend has no part in.
    Pipe(File),
    /// Others send a stream socket.
    Socket(PeerSocket),
}

impl Bell {
    /// None: it is none of them, or another user's pipe; or it is no eventfd, and `takes_streams` is not so.
    pub(crate) fn of(fd: PeerFd, takes_streams: bool) -> Option<Bell> {
        if is_kind(&fd, EVENTFD) {
            return Some(Bell::Eventfd(fd));
        }
        if !takes_streams {
            return None;
        }
        if is_unix_stream(&fd).unwrap_or(false) {
            return Some(Bell::Socket(PeerSocket::given(UnixStream::from(OwnedFd::from(fd)))));
        }
        let opened = || OpenOptions::new().write(true).custom_flags(libc::O_NONBLOCK).open(path_of(&fd));
        is_kind(&fd, "pipe:[").then(opened)?.ok().map(Bell::Pipe)
    }

    /// Who reads a pipe or a socket that is full has something to read. To one that nobody reads a write fails, without a signal.
    pub(crate) fn ring(&self, ringer: &Ringer) {
        match self {
            Bell::Eventfd(fd) => ringer.ring(fd),
            Bell::Pipe(file) => write_to_pipe(file),
            Bell::Socket(socket) => drop(send(socket, &1u64.to_ne_bytes(), &[], false)),
        }
    }
}

fn write_to_pipe(file: &File) {
    let one = 1u64;
    let at_once = libc::timespec { tv_sec: 0, tv_nsec: 0 };
    // SAFETY: both sets are made before they are used, and borrowed for these calls, as is one number.
    unsafe {
        let (mut pipe, mut were): (libc::sigset_t, libc::sigset_t) = (zeroed(), zeroed());
        libc::sigemptyset(&mut pipe);
        libc::sigaddset(&mut pipe, libc::SIGPIPE);
        libc::pthread_sigmask(libc::SIG_BLOCK, &pipe, &mut were);
        libc::write(file.as_raw_fd(), addr_of!(one).cast(), size_of_val(&one));
        if libc::sigismember(&were, libc::SIGPIPE) == 0 {
            while libc::sigtimedwait(&pipe, null_mut(), &at_once) > 0 {}
            libc::pthread_sigmask(libc::SIG_SETMASK, &were, null_mut());
        }
    }
}

/// A request of the kernel's AIO, `struct iocb` of `linux/aio_abi.h`.
#[repr(C)]
#[derive(Default)]
struct AioRequest {
    data: u64,
    key_and_flags: u64,
    opcode: u16,
    priority: i16,
    file: u32,
    buffer: u64,
    size: u64,
    offset: i64,
    reserved: u64,
    flags: u32,
    eventfd: u32,
}

/// Its opcode for a read, and its flag for one that signals an eventfd at its end.
const PREAD: u16 = 0;
const RESFD: u32 = 1;

/// Signals eventfds. `write` waits for room in the counter, and whether it may is not the caller's to say: RWF_NOWAIT is not for it, `poll`
/// before it is too early, and an eventfd is not opened anew. But the kernel itself adds 1 to an eventfd without waiting, for each request
/// of its AIO that ends and names one. So what is requested is to read nothing, of an empty file.
pub(crate) struct Ringer {
    requests: libc::c_ulong,
    /// Whose it is: a child of `fork` has no requests of its parent's.
    process: u32,
    empty: File,
    /// Who has a request under way: there is room for one.
    ringing: Mutex<()>,
}

impl Ringer {
    /// The one of this process.
    pub(crate) fn shared() -> io::Result<Arc<Ringer>> {
        static SHARED: Mutex<Option<Weak<Ringer>>> = Mutex::new(None);
        let mut shared = SHARED.lock().unwrap_or_else(PoisonError::into_inner);
        let process = std::process::id();
        match shared.as_ref().and_then(Weak::upgrade) {
            Some(ringer) if ringer.process == process => Ok(ringer),
            _ => {
                let (requests, empty) = (requests_of(process)?, memory_file()?);
                let ringer = Arc::new(Ringer { requests, process, empty, ringing: Mutex::new(()) });
                *shared = Some(Arc::downgrade(&ringer));
                Ok(ringer)
            }
        }
    }

    fn ring(&self, eventfd: &PeerFd) {
        if !self.request(eventfd) && std::process::id() != self.process {
            // (a session of the parent's, in a child)
            let _ = Ringer::shared().map(|own| own.request(eventfd));
        }
    }

    /// Whether it was signalled.
    fn request(&self, eventfd: &PeerFd) -> bool {
        let _alone = self.ringing.lock().unwrap_or_else(PoisonError::into_inner);
        let mut request = AioRequest {
            opcode: PREAD,
            file: self.empty.as_raw_fd() as u32,
            flags: RESFD,
            eventfd: eventfd.as_raw_fd() as u32,
            ..AioRequest::default()
        };
        let mut list = [addr_of_mut!(request)];
        let mut ended = [0u64; 4];
        let mut at_once = libc::timespec { tv_sec: 0, tv_nsec: 0 };
        let one: libc::c_long = 1;
        // SAFETY: a list of one request, and room for the `struct io_event` of one that has ended, borrowed for the calls; a read of
        // nothing has ended when it was submitted, and has no buffer.
        unsafe {
            let is_submitted = libc::syscall(libc::SYS_io_submit, self.requests, one, list.as_mut_ptr()) == 1;
            if is_submitted {
                libc::syscall(libc::SYS_io_getevents, self.requests, one, one, ended.as_mut_ptr(), addr_of_mut!(at_once));
            }
            is_submitted
        }
    }
}

/// Room for one request of the kernel's AIO in this process, which is made once and ends with that: the kernel waits where one is ended.
fn requests_of(process: u32) -> io::Result<libc::c_ulong> {
    static MADE: Mutex<Option<(u32, libc::c_ulong)>> = Mutex::new(None);
    let mut made = MADE.lock().unwrap_or_else(PoisonError::into_inner);
    if let Some((_, requests)) = made.filter(|(of, _)| *of == process) {
        return Ok(requests);
    }
    let mut requests: libc::c_ulong = 0;
    // SAFETY: it writes one number, the one that it is lent.
    match unsafe { libc::syscall(libc::SYS_io_setup, 1 as libc::c_uint, addr_of_mut!(requests)) } {
        0 => {
            *made = Some((process, requests));
            Ok(requests)
        }
        _ => Err(io::Error::last_os_error()),
    }
}

// -- Signals --

/// SIGTERM and SIGINT, which are blocked in this thread as long as this is there, and can be read meanwhile.
pub(crate) struct SignalFd {
    fd: OwnedFd,
    were: libc::sigset_t,
}

impl SignalFd {
    pub(crate) fn new() -> io::Result<SignalFd> {
        // SAFETY: both sets are made before they are used, and borrowed for these calls.
        unsafe {
            let (mut set, mut were): (libc::sigset_t, libc::sigset_t) = (zeroed(), zeroed());
            libc::sigemptyset(&mut set);
            libc::sigaddset(&mut set, libc::SIGTERM);
            libc::sigaddset(&mut set, libc::SIGINT);
            let fd = made(libc::signalfd(-1, &set, libc::SFD_CLOEXEC | libc::SFD_NONBLOCK))?;
            libc::pthread_sigmask(libc::SIG_BLOCK, &set, &mut were);
            Ok(SignalFd { fd, were })
        }
    }
}

impl AsRawFd for SignalFd {
    fn as_raw_fd(&self) -> RawFd {
        self.fd.as_raw_fd()
    }
}

impl Drop for SignalFd {
    /// What came is taken: else it would end the program once it is not blocked.
    fn drop(&mut self) {
        // SAFETY: room for one struct made of numbers, and the set that was there, borrowed for these calls.
        unsafe {
            let mut came: libc::signalfd_siginfo = zeroed();
            libc::read(self.fd.as_raw_fd(), addr_of_mut!(came).cast(), size_of_val(&came));
            libc::pthread_sigmask(libc::SIG_SETMASK, &self.were, null_mut());
        }
    }
}

/// Runs this with all signals blocked in this thread: a thread that it begins takes none of the program's.
pub(crate) fn without_signals<T>(run: impl FnOnce() -> T) -> T {
    // SAFETY: both sets are made before they are used, and borrowed for these calls.
    unsafe {
        let (mut all, mut were): (libc::sigset_t, libc::sigset_t) = (zeroed(), zeroed());
        libc::sigfillset(&mut all);
        libc::pthread_sigmask(libc::SIG_BLOCK, &all, &mut were);
        let result = run();
        libc::pthread_sigmask(libc::SIG_SETMASK, &were, null_mut());
        result
    }
}
