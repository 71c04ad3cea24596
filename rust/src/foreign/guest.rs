// SPDX-License-Identifier: Apache-2.0
//! Memory that a frontend gave: its files are mapped, and read and written by volatile and atomic accesses alone, since whoever shares
//! them writes there at any time. What takes it away again is `guard`'s.
use std::marker::PhantomData;
use std::mem::zeroed;
use std::ops::Deref;
use std::os::unix::io::AsRawFd;
use std::ptr::null_mut;
use std::sync::atomic::{AtomicBool, AtomicU16, AtomicU32, AtomicU64, AtomicU8, Ordering};
use std::sync::Arc;
use std::{fmt, io};

use super::guard::{take_faults, Holder, Place};
use crate::queue::Error;

/// The number of hugetlbfs, of `linux/magic.h`.
const HUGETLBFS_MAGIC: u64 = 0x9584_58f6;

/// A part of a memory file, mapped, and guarded as long as it is there.
pub(crate) struct Mapping {
    place: &'static Place,
    /// From the page on that it begins in.
    all: usize,
    all_size: usize,
    into: usize,
    size: usize,
    /// Of which part of which file: its device, its number, and where that part begins.
    part: (u64, u64, u64),
    /// Whether pages of it are waited for.
    pub(super) is_watched: AtomicBool,
    holder: Arc<Holder>,
}

impl Mapping {
    /// Maps a part of a file, which may be closed then. InvalidInput: it is no memory file, or ends before. Nothing is asked of what is no
    /// memory file: whoever serves its file system may not reply.
    pub(crate) fn new(holder: &Arc<Holder>, file: &impl AsRawFd, offset: u64, size: u64) -> io::Result<Mapping> {
        let fd = file.as_raw_fd();
        let about = memory_file(fd).filter(|about| has_bytes(about, offset, size)).ok_or(io::ErrorKind::InvalidInput)?;
        let page = page_of(fd);
        let into = offset % page;
        let (all_size, start) = ((into + size + page - 1) / page * page, (offset - into) as libc::off_t);
        let (access, flags) = (libc::PROT_READ | libc::PROT_WRITE, libc::MAP_SHARED | libc::MAP_NORESERVE);
        // SAFETY: the system chooses a place where nothing is.
        let all = unsafe { libc::mmap(null_mut(), all_size as usize, access, flags, fd, start) };
        if all == libc::MAP_FAILED {
            return Err(io::Error::last_os_error());
        }
        match Place::take(all as usize, all_size as usize, holder) {
            Some(place) => Ok(Mapping {
                place,
                all: all as usize,
                all_size: all_size as usize,
                into: into as usize,
                size: size as usize,
                part: (about.st_dev, about.st_ino, offset),
                is_watched: AtomicBool::new(false),
                holder: holder.clone(),
            }),
            None => {
                // SAFETY: it was mapped above, and nobody else knows of it.
                unsafe { libc::munmap(all, all_size as usize) };
                Err(io::Error::from_raw_os_error(libc::ENOMEM))
            }
        }
    }

    pub(crate) fn size(&self) -> u64 {
        self.size as u64
    }

    /// Whether another is of the same bytes of the same file.
    pub(crate) fn is_of_same(&self, other: &Mapping) -> bool {
        (self.part, self.size) == (other.part, other.size)
    }

    /// Where in a file it begins; None: it is of another file.
    #[cfg(feature = "vm-memory")]
    pub(crate) fn offset_in(&self, file: &impl AsRawFd) -> Option<u64> {
        let (device, number, offset) = self.part;
        memory_file(file.as_raw_fd()).filter(|about| (about.st_dev, about.st_ino) == (device, number)).map(|_| offset)
    }

    /// Where it is mapped.
    pub(crate) fn host(&self) -> u64 {
        (self.all + self.into) as u64
    }

    /// The pages that it lies in: where they begin, and how many bytes they have.
    pub(crate) fn pages(&self) -> (u64, u64) {
        (self.all as u64, self.all_size as u64)
    }

    pub(crate) fn holder(&self) -> &Arc<Holder> {
        &self.holder
    }

    /// So many bytes from there on, which have to be its own.
    fn at<T>(&self, offset: usize, count: usize) -> *mut T {
        assert!(offset <= self.size && count <= self.size - offset);
        take_faults();
        (self.all + self.into + offset) as *mut T
    }

    pub(crate) fn load8(&self, offset: usize) -> u8 {
        // SAFETY: it is a byte of the mapping, and any will do.
        unsafe { &*self.at::<AtomicU8>(offset, 1) }.load(Ordering::Acquire)
    }

    pub(crate) fn store8(&self, offset: usize, value: u8) {
        // SAFETY: as above.
        unsafe { &*self.at::<AtomicU8>(offset, 1) }.store(value, Ordering::Release)
    }

    /// Sets these bits of a byte. (what is set already is not written: a barrier has to stand between it and what it tells of)
    pub(crate) fn set_bits(&self, offset: usize, mask: u8) {
        // SAFETY: as above.
        let byte = unsafe { &*self.at::<AtomicU8>(offset, 1) };
        if byte.load(Ordering::SeqCst) & mask != mask {
            byte.fetch_or(mask, Ordering::SeqCst);
        }
    }

    /// Sets all bits of the eight bytes there, likewise. Whether it can: not where they are not aligned.
    pub(crate) fn set_word(&self, offset: usize) -> bool {
        let at = self.at::<AtomicU64>(offset, 8);
        if at as usize % 8 != 0 {
            return false;
        }
        // SAFETY: these are bytes of the mapping, aligned, and any will do.
        let word = unsafe { &*at };
        if word.load(Ordering::SeqCst) != u64::MAX {
            word.store(u64::MAX, Ordering::SeqCst);
        }
        true
    }

    pub(crate) fn load16(&self, offset: usize) -> u16 {
        let at = self.at::<AtomicU16>(offset, 2);
        assert!(at as usize % 2 == 0);
        // SAFETY: these are bytes of the mapping, aligned, and any will do.
        u16::from_le(unsafe { &*at }.load(Ordering::Acquire))
    }

    pub(crate) fn store16(&self, offset: usize, value: u16) {
        let at = self.at::<AtomicU16>(offset, 2);
        assert!(at as usize % 2 == 0);
        // SAFETY: as above.
        unsafe { &*at }.store(value.to_le(), Ordering::Release);
    }

    pub(crate) fn store32(&self, offset: usize, value: u32) {
        let at = self.at::<AtomicU32>(offset, 4);
        assert!(at as usize % 4 == 0);
        // SAFETY: as above.
        unsafe { &*at }.store(value.to_le(), Ordering::Release);
    }

    pub(crate) fn load64(&self, offset: usize) -> u64 {
        let at = self.at::<AtomicU64>(offset, 8);
        assert!(at as usize % 8 == 0);
        // SAFETY: as above.
        u64::from_le(unsafe { &*at }.load(Ordering::Acquire))
    }

    pub(crate) fn store64(&self, offset: usize, value: u64) {
        let at = self.at::<AtomicU64>(offset, 8);
        assert!(at as usize % 8 == 0);
        // SAFETY: as above.
        unsafe { &*at }.store(value.to_le(), Ordering::Release);
    }

    /// All of it.
    pub(crate) fn slice(&self) -> VolatileSlice<'_> {
        // SAFETY: it is mapped as long as it is borrowed.
        unsafe { VolatileSlice::new(self.host(), self.size()) }
    }
}

impl Drop for Mapping {
    fn drop(&mut self) {
        self.place.leave(&self.holder);
        // SAFETY: it was mapped by `new`, and nobody has a part of it any more: each borrows it, or holds it by an Arc.
        unsafe { libc::munmap(self.all as *mut libc::c_void, self.all_size) };
    }
}

/// How large the pages of a file are.
fn page_of(fd: libc::c_int) -> u64 {
    // SAFETY: zeros are a `struct statfs`, which is borrowed for the call; the others read a number.
    unsafe {
        let mut about: libc::statfs = zeroed();
        if libc::fstatfs(fd, &mut about) == 0 && about.f_type as u64 & 0xffff_ffff == HUGETLBFS_MAGIC && about.f_bsize > 0 {
            return about.f_bsize as u64;
        }
        libc::sysconf(libc::_SC_PAGESIZE) as u64
    }
}

/// What the system says of a memory file; None: it is none.
fn memory_file(fd: libc::c_int) -> Option<libc::stat> {
    // SAFETY: zeros are a `struct stat`, which is borrowed for the call; the other asks for flags.
    unsafe {
        let mut about: libc::stat = zeroed();
        let is_one = libc::fcntl(fd, libc::F_GET_SEALS) >= 0 && libc::fstat(fd, &mut about) == 0;
        is_one.then_some(about)
    }
}

fn length_of(about: &libc::stat) -> u64 {
    u64::try_from(about.st_size).unwrap_or(0)
}

/// How many bytes a memory file has; None: it is none.
pub(crate) fn memory_size(fd: libc::c_int) -> Option<u64> {
    memory_file(fd).as_ref().map(length_of)
}

fn has_bytes(about: &libc::stat, offset: u64, size: u64) -> bool {
    let length = length_of(about);
    size != 0 && offset <= length && size <= length - offset
}

/// A region of guest memory, mapped.
pub(crate) struct Region {
    /// Where the guest has it.
    pub(crate) guest: u64,
    /// Where the frontend has it.
    pub(crate) user: u64,
    pub(crate) mapping: Mapping,
}

impl Deref for Region {
    type Target = Mapping;

    fn deref(&self) -> &Mapping {
        &self.mapping
    }
}

/// The regions of guest memory.
#[derive(Clone, Default)]
pub(crate) struct Regions(pub(crate) Vec<Arc<Region>>);

impl Deref for Regions {
    type Target = [Arc<Region>];

    fn deref(&self) -> &[Arc<Region>] {
        &self.0
    }
}

impl Regions {
    /// The region that so many bytes which are mapped there lie in.
    fn holding(&self, host: u64, len: u64) -> Option<&Region> {
        let holds =
            |it: &&Arc<Region>| host >= it.host() && host - it.host() <= it.size() && len <= it.size() - (host - it.host());
        self.iter().find(holds).map(|it| &**it)
    }

    /// Bytes that are mapped there. NotInGuest: they lie in no region.
    pub(crate) fn slice(&self, host: u64, len: u64) -> Result<VolatileSlice<'_>, Error> {
        self.holding(host, len).ok_or(Error::NotInGuest)?;
        // SAFETY: they lie in a mapping, which stays as long as it is borrowed.
        Ok(unsafe { VolatileSlice::new(host, len) })
    }

    /// Where the guest has bytes that are mapped there.
    pub(crate) fn guest_of(&self, host: u64, len: u64) -> Option<u64> {
        self.holding(host, len).map(|region| region.guest + (host - region.host()))
    }
}

/// Bytes of guest memory. The guest may change them at any time, so there is no `&[u8]` of them: they are copied, once.
#[repr(transparent)]
#[derive(Clone, Copy)]
pub struct VolatileSlice<'a> {
    raw: libc::iovec,
    of: PhantomData<&'a Regions>,
}

// SAFETY: whoever has it reads and writes shared memory, of which nothing is expected, by atomic accesses.
unsafe impl Send for VolatileSlice<'_> {}

// SAFETY: as above.
unsafe impl Sync for VolatileSlice<'_> {}

impl fmt::Debug for VolatileSlice<'_> {
    fn fmt(&self, f: &mut fmt::Formatter<'_>) -> fmt::Result {
        f.debug_struct("VolatileSlice").field("len", &self.len()).finish_non_exhaustive()
    }
}

impl<'a> VolatileSlice<'a> {
    /// # Safety
    ///
    /// They are mapped, as shared memory of a frontend, as long as the result can be used.
    unsafe fn new(addr: u64, len: u64) -> VolatileSlice<'a> {
        VolatileSlice {
            raw: libc::iovec { iov_base: addr as usize as *mut libc::c_void, iov_len: len as usize },
            of: PhantomData,
        }
    }

    /// How many bytes there are.
    pub fn len(&self) -> usize {
        self.raw.iov_len
    }

    /// Whether there are none.
    pub fn is_empty(&self) -> bool {
        self.len() == 0
    }

    /// Where they begin. They are read and written by atomic accesses, or by calls of the system: a thread that does the
    /// former by itself calls [`take_faults`](crate::queue::take_faults) before.
    pub fn as_ptr(&self) -> *mut u8 {
        self.raw.iov_base.cast()
    }

    /// So many of them from `offset` on. NotInGuest: they have not so many.
    pub fn subslice(&self, offset: usize, count: usize) -> Result<VolatileSlice<'a>, Error> {
        if offset > self.len() || count > self.len() - offset {
            return Err(Error::NotInGuest);
        }
        // SAFETY: it is a part of this one.
        Ok(unsafe { VolatileSlice::new((self.raw.iov_base as usize + offset) as u64, count as u64) })
    }

    /// Those from `count` on. NotInGuest: they have not so many.
    pub fn offset(&self, count: usize) -> Result<VolatileSlice<'a>, Error> {
        self.subslice(count, self.len().wrapping_sub(count))
    }

    /// Copies the first of them: how many, all of `bytes` or all that there are.
    pub fn copy_to(&self, bytes: &mut [u8]) -> usize {
        let count = bytes.len().min(self.len());
        let (head, words, tail) = self.parts(count);
        let (first, rest) = bytes[..count].split_at_mut(head.len());
        let (middle, last) = rest.split_at_mut(8 * words.len());
        first.iter_mut().zip(head).for_each(|(byte, at)| *byte = at.load(Ordering::Relaxed));
        for (word, at) in middle.chunks_exact_mut(8).zip(words) {
            word.copy_from_slice(&at.load(Ordering::Relaxed).to_ne_bytes());
        }
        last.iter_mut().zip(tail).for_each(|(byte, at)| *byte = at.load(Ordering::Relaxed));
        count
    }

    /// Copies to the first of them: how many, as above.
    pub fn copy_from(&self, bytes: &[u8]) -> usize {
        let count = bytes.len().min(self.len());
        let (head, words, tail) = self.parts(count);
        let (first, rest) = bytes[..count].split_at(head.len());
        let (middle, last) = rest.split_at(8 * words.len());
        first.iter().zip(head).for_each(|(byte, at)| at.store(*byte, Ordering::Relaxed));
        for (word, at) in middle.chunks_exact(8).zip(words) {
            let mut whole = [0; 8];
            whole.copy_from_slice(word);
            at.store(u64::from_ne_bytes(whole), Ordering::Relaxed);
        }
        last.iter().zip(tail).for_each(|(byte, at)| at.store(*byte, Ordering::Relaxed));
        count
    }

    /// The first of them, of which there are so many: the words among them, and the bytes before and behind. The guest writes to them, and
    /// other threads may: so each is an atomic.
    fn parts(&self, count: usize) -> (&'a [AtomicU8], &'a [AtomicU64], &'a [AtomicU8]) {
        take_faults();
        assert!(count <= self.len());
        // SAFETY: they are mapped as long as this is there, and any bytes are an atomic, as the three parts are that this divides them in.
        unsafe { std::slice::from_raw_parts(self.as_ptr().cast::<AtomicU8>(), count).align_to() }
    }

    /// The same slices as `preadv` and its like take them. They are the guest's memory: as long as they are used by the system, what
    /// they were had of has to stay.
    pub fn iovecs<'s>(slices: &'s [VolatileSlice<'a>]) -> &'s [libc::iovec] {
        // SAFETY: a slice has the representation of an iovec.
        unsafe { std::slice::from_raw_parts(slices.as_ptr().cast(), slices.len()) }
    }

    /// Reads from a place in a file, by one `preadv`: how many bytes, which may be fewer than there is room for. EFAULT: the frontend took
    /// that memory away; EINVAL: these are more than 1024 slices.
    pub fn read_at(slices: &[VolatileSlice<'_>], file: &impl AsRawFd, offset: u64) -> io::Result<usize> {
        let (parts, offset) = (VolatileSlice::iovecs(slices), place_of(offset)?);
        // SAFETY: each part is mapped as long as the slices are borrowed, and of a frontend's memory; a list of that length is borrowed.
        count_of(unsafe { libc::preadv(file.as_raw_fd(), parts.as_ptr(), parts.len() as libc::c_int, offset) })
    }

    /// The same of what the page cache has, by one `preadv2`: the file is not waited for. WouldBlock: it has nothing there; EOPNOTSUPP: the file
    /// system cannot tell.
    pub fn read_cached_at(slices: &[VolatileSlice<'_>], file: &impl AsRawFd, offset: u64) -> io::Result<usize> {
        let (parts, offset) = (VolatileSlice::iovecs(slices), place_of(offset)?);
        let (count, how) = (parts.len() as libc::c_int, libc::RWF_NOWAIT);
        // SAFETY: as above.
        count_of(unsafe { libc::preadv2(file.as_raw_fd(), parts.as_ptr(), count, offset, how) })
    }

    /// Writes to a place in a file, by one `pwritev`: how many bytes. Errors are those of `read_at`.
    pub fn write_at(slices: &[VolatileSlice<'_>], file: &impl AsRawFd, offset: u64) -> io::Result<usize> {
        let (parts, offset) = (VolatileSlice::iovecs(slices), place_of(offset)?);
        // SAFETY: as above.
        count_of(unsafe { libc::pwritev(file.as_raw_fd(), parts.as_ptr(), parts.len() as libc::c_int, offset) })
    }
}

fn place_of(offset: u64) -> io::Result<libc::off_t> {
    libc::off_t::try_from(offset).map_err(|_| io::Error::from_raw_os_error(libc::EINVAL))
}

fn count_of(count: isize) -> io::Result<usize> {
    usize::try_from(count).map_err(|_| io::Error::last_os_error())
}

/// Slices, and the regions that they lie in, which stay mapped with them.
pub(crate) struct Slices {
    list: Vec<VolatileSlice<'static>>,
    regions: Arc<Regions>,
}

impl Slices {
    pub(super) fn of(regions: Arc<Regions>) -> Slices {
        Slices { list: Vec::new(), regions }
    }

    /// # Safety
    ///
    /// They lie in one of the regions.
    pub(super) unsafe fn push(&mut self, addr: u64, len: u64) {
        // SAFETY: the regions stay as long as this does, which lends it no longer.
        self.list.push(unsafe { VolatileSlice::new(addr, len) });
    }

    pub(crate) fn count(&self) -> usize {
        self.list.len()
    }

    pub(crate) fn list(&self) -> &[VolatileSlice<'_>] {
        &self.list
    }

    /// Whether memory that they lie in was taken away.
    pub(crate) fn are_lost(&self) -> bool {
        self.regions.iter().any(|region| region.holder().has_lost())
    }

    /// Takes so many bytes off the beginning of a slice, which has them.
    pub(crate) fn take_off(&mut self, at: usize, count: usize) {
        if let Ok(rest) = self.list[at].offset(count) {
            self.list[at] = rest;
        }
    }
}
