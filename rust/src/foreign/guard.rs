// SPDX-License-Identifier: Apache-2.0
//! Guest memory that its frontend can take away while it is used here: it shortens the file, or the file's pages cannot be had. Then SIGBUS
//! would end the process. In its place the whole mapping becomes zeros, which the frontend does not see, and its holder is told. That takes
//! a handler of the process, which is there from the first mapping on, and hands each other fault to the one that was there before.
use std::cell::Cell;
use std::iter::successors;
use std::mem::{transmute, zeroed};
use std::os::unix::io::{AsRawFd, RawFd};
use std::ptr::{self, null_mut};
use std::sync::atomic::{AtomicBool, AtomicPtr, AtomicUsize, Ordering};
use std::sync::{Arc, Mutex, MutexGuard, Once, PoisonError};

use super::events::{memory_file, Event};
use super::userfault::wake_range;

/// The greatest number of mappings of a holder, as a session: what it has, and what requests still point to that it had. So none takes what
/// the system lets the process map from another.
const MOST: usize = 1024;
/// How many places are made at once.
const MADE: usize = 256;

/// Who maps memory, and hears that some of it is lost.
#[derive(Default)]
pub(crate) struct Holder {
    has_lost: AtomicBool,
    wake: Option<Event>,
    mappings: AtomicUsize,
}

impl Holder {
    /// One that is woken then.
    pub(crate) fn woken_by(wake: Event) -> Holder {
        Holder { wake: Some(wake), ..Holder::default() }
    }

    pub(crate) fn has_lost(&self) -> bool {
        self.has_lost.load(Ordering::SeqCst)
    }

    /// Has it look again.
    pub(crate) fn wake(&self) {
        if let Some(wake) = &self.wake {
            wake.set();
        }
    }

    pub(crate) fn waking(&self) -> Option<&Event> {
        self.wake.as_ref()
    }

    fn lose(&self) {
        self.has_lost.store(true, Ordering::SeqCst);
        self.wake();
    }
}

/// A mapping that is guarded. The handler of a thread reads it amid anything: a size and a holder count once it has a place, which is not
/// 0, and as long as that stays the same.
pub(super) struct Place {
    at: AtomicUsize,
    size: AtomicUsize,
    holder: AtomicPtr<Holder>,
}

#[allow(clippy::declare_interior_mutable_const)] // each element is one of its own
const NONE: Place = Place { at: AtomicUsize::new(0), size: AtomicUsize::new(0), holder: AtomicPtr::new(null_mut()) };

/// Places that were made at once, and those that were made before. They stay, since a handler may look at them at any time.
struct Places {
    places: [Place; MADE],
    before: Option<&'static Places>,
}

static LAST: AtomicPtr<Places> = AtomicPtr::new(null_mut());
/// The places that are free. Who adds or removes a mapping has them, so that one that is there stays meanwhile.
static FREE: Mutex<Vec<&'static Place>> = Mutex::new(Vec::new());
static HANDLING: Once = Once::new();
/// What SIGBUS did before.
static EARLIER: AtomicPtr<libc::sigaction> = AtomicPtr::new(null_mut());

impl Place {
    /// Guards a mapping until `leave`, which comes before it is unmapped, and before the holder is let go of. None: it has too many.
    pub(super) fn take(at: usize, size: usize, holder: &Arc<Holder>) -> Option<&'static Place> {
        HANDLING.call_once(handle);
        if holder.mappings.fetch_add(1, Ordering::SeqCst) >= MOST {
            holder.mappings.fetch_sub(1, Ordering::SeqCst);
            return None;
        }
        let mut free = free_places();
        if free.is_empty() {
            free.extend(more_places());
        }
        let place = free.pop()?;
        place.size.store(size, Ordering::SeqCst);
        place.holder.store(Arc::as_ptr(holder) as *mut Holder, Ordering::SeqCst);
        place.at.store(at, Ordering::SeqCst);
        Some(place)
    }

    pub(super) fn leave(&'static self, holder: &Holder) {
        let mut free = free_places();
        self.at.store(0, Ordering::SeqCst);
        free.push(self);
        holder.mappings.fetch_sub(1, Ordering::SeqCst);
    }

    /// Where it is a mapping that has this address, that is lost. Whether it is.
    fn loses(&self, address: usize) -> bool {
        let at = self.at.load(Ordering::SeqCst);
        let (size, holder) = (self.size.load(Ordering::SeqCst), self.holder.load(Ordering::SeqCst));
        if at == 0 || address.wrapping_sub(at) >= size || self.at.load(Ordering::SeqCst) != at {
            return false;
        }
        // SAFETY: whoever touched this address has its mapping, which keeps the place and the holder meanwhile. What is mapped there is
        // shared with the guest, which writes what it likes: nothing rests on it. (before any thread may read zeros, the holder is told)
        unsafe {
            (*holder).lose();
            let flags = libc::MAP_PRIVATE | libc::MAP_ANONYMOUS | libc::MAP_NORESERVE | libc::MAP_FIXED;
            libc::mmap(at as *mut libc::c_void, size, libc::PROT_READ | libc::PROT_WRITE, flags, -1, 0) != libc::MAP_FAILED
        }
    }
}

fn free_places() -> MutexGuard<'static, Vec<&'static Place>> {
    FREE.lock().unwrap_or_else(PoisonError::into_inner)
}

/// Makes more of them, by who has the free ones.
fn more_places() -> &'static [Place] {
    let made: &'static Places = Box::leak(Box::new(Places { places: [NONE; MADE], before: all_places().next() }));
    LAST.store(made as *const Places as *mut Places, Ordering::SeqCst);
    &made.places
}

/// All that were made, the last ones first.
fn all_places() -> impl Iterator<Item = &'static Places> {
    // SAFETY: it is null, or what `more_places` made, which stays, and is only read.
    let last = unsafe { LAST.load(Ordering::SeqCst).as_ref() };
    successors(last, |it| it.before)
}

thread_local! {
    static TAKES_FAULTS: Cell<bool> = const { Cell::new(false) };
}

/// Has this thread take SIGBUS, once. Where a thread blocks it the system ends the process in the place of calling the handler.
#[inline]
pub(crate) fn take_faults() {
    if !TAKES_FAULTS.with(|it| it.replace(true)) {
        unblock_faults();
    }
}

/// The same, also where the thread blocked it since.
#[cold]
pub(crate) fn unblock_faults() {
    // SAFETY: the set is made empty before it is used, and borrowed by these calls alone.
    unsafe {
        let mut set: libc::sigset_t = zeroed();
        libc::sigemptyset(&mut set);
        libc::sigaddset(&mut set, libc::SIGBUS);
        libc::pthread_sigmask(libc::SIG_UNBLOCK, &set, null_mut());
    }
}

/// From now on SIGBUS is taken.
fn handle() {
    // SAFETY: zeros are an action without flags and without a mask; the handler has the arguments that SA_SIGINFO gives it. What was
    // there before is written where the handler finds it, and stays there.
    unsafe {
        let earlier = Box::leak(Box::new(zeroed::<libc::sigaction>()));
        EARLIER.store(earlier, Ordering::SeqCst);
        let mut action: libc::sigaction = zeroed();
        action.sa_sigaction = take_fault as *const () as usize;
        action.sa_flags = libc::SA_SIGINFO | libc::SA_ONSTACK;
        libc::sigaction(libc::SIGBUS, &action, EARLIER.load(Ordering::SeqCst));
    }
}

/// Finds whose memory it was. Only calls that a handler may make are made.
extern "C" fn take_fault(signal: libc::c_int, fault: *mut libc::siginfo_t, context: *mut libc::c_void) {
    // SAFETY: the system gives what is told of the signal, and `errno` is this thread's.
    unsafe {
        let was = *libc::__errno_location();
        let at = (*fault).si_addr() as usize;
        if (*fault).si_code <= 0 || !all_places().any(|it| it.places.iter().any(|place| place.loses(at))) {
            hand_on(signal, fault, context);
        }
        *libc::__errno_location() = was;
    }
}

/// What is no fault of a mapping is for the handler before; where there was none it ends the process, as ever.
///
/// # Safety
///
/// These are a handler's arguments.
unsafe fn hand_on(signal: libc::c_int, fault: *mut libc::siginfo_t, context: *mut libc::c_void) {
    // SAFETY: what was set for the signal is a function of the kind that its flags say, or one of the two numbers that are none.
    unsafe {
        let earlier = &*EARLIER.load(Ordering::SeqCst);
        let handler = earlier.sa_sigaction;
        if handler != libc::SIG_DFL && handler != libc::SIG_IGN {
            if earlier.sa_flags & libc::SA_SIGINFO != 0 {
                type Informed = extern "C" fn(libc::c_int, *mut libc::siginfo_t, *mut libc::c_void);
                transmute::<usize, Informed>(handler)(signal, fault, context);
            } else {
                transmute::<usize, extern "C" fn(libc::c_int)>(handler)(signal);
            }
        } else if handler == libc::SIG_DFL || (*fault).si_code > 0 {
            libc::signal(signal, libc::SIG_DFL);
            libc::raise(signal);
        }
    }
}

/// All mappings of a holder are lost, and whoever waits for a page of theirs, by this userfaultfd, goes on. An empty file in the place of each is
/// as one that was truncated: zeros in its place would be given to the kernel.
pub(crate) fn lose_all(holder: &Arc<Holder>, userfault: RawFd) {
    holder.lose();
    let empty = match memory_file() {
        Ok(empty) => empty,
        Err(_) => return,
    };
    let _alone = free_places();
    for place in all_places().flat_map(|it| &it.places) {
        let (at, size) = (place.at.load(Ordering::SeqCst), place.size.load(Ordering::SeqCst));
        if at == 0 || !ptr::eq(place.holder.load(Ordering::SeqCst), Arc::as_ptr(holder)) {
            continue;
        }
        let (access, flags) = (libc::PROT_READ | libc::PROT_WRITE, libc::MAP_SHARED | libc::MAP_NORESERVE | libc::MAP_FIXED);
        // SAFETY: a mapping is there as long as its place is, which stays meanwhile; as above nothing rests on what is there.
        unsafe { libc::mmap(at as *mut libc::c_void, size, access, flags, empty.as_raw_fd(), 0) };
        wake_range(userfault, at as u64, size as u64);
    }
}
