// SPDX-License-Identifier: Apache-2.0
//! A disk for a virtual machine, over a file and over the kit for devices: `cargo run --example disk -- /tmp/disk.sock disk.img 2`
//!
//! It has as many virtqueues as it is told, one machine at a time, and threads that do requests: reads, writes, flushes, sectors that are
//! discarded or zeroed, and its name. A sector behind the disk's end makes the request fail; a chain that breaks a rule of virtio ends its
//! queue until a reset. Where the file grows the guest is told. A machine has it by `-device vhost-user-blk-pci,chardev=disk,num-queues=2`.
//! With the word `pipe` behind these, a frontend may have itself signalled by pipes and sockets, as User Mode Linux, and is trusted with this
//! disk's time.
use std::env;
use std::ffi::OsString;
use std::fs::{symlink_metadata, File, OpenOptions};
use std::io::{self, Read, Write};
use std::iter::from_fn;
use std::os::unix::fs::{FileExt, FileTypeExt};
use std::process::ExitCode;
use std::sync::atomic::{AtomicU64, Ordering};
use std::sync::mpsc::{channel, Sender};
use std::sync::{Arc, Mutex, MutexGuard, PoisonError};
use std::thread::{sleep, spawn};
use std::time::Duration;

use covretin::device::{serve, Device, Ended, Request, MAX_BURST};
use covretin::queue::{self, VolatileSlice};
use covretin::vhost_user::message::{FrontendReq, VhostUserProtocolFeatures};
use covretin::vhost_user::{Backend, Error, Listener, VhostUserFrontendReqHandler};

const SECTOR: u64 = 512;
const NAME: &[u8; 20] = b"covretin\0\0\0\0\0\0\0\0\0\0\0\0";
/// SEG_MAX, FLUSH, MQ, DISCARD and WRITE_ZEROES of the disk.
const FEATURES: u64 = 1 << 2 | 1 << 9 | 1 << 12 | 1 << 13 | 1 << 14;
/// The greatest number of parts of a request's data, and of sectors that are zeroed at once.
const SEGMENTS: u32 = 126;
const MOST_ZEROED: u32 = 1 << 16;
/// How many requests are under way.
const THREADS: usize = 16;
/// How many bytes are read at once, where the page cache has them: no queue waits long for another.
const AT_ONCE: u64 = 1 << 16;
/// How often it is looked at how large the file is.
const LOOK: Duration = Duration::from_millis(200);

fn main() -> ExitCode {
    let words: Vec<OsString> = env::args_os().skip(1).collect();
    let queues = words.get(2).and_then(|it| it.to_str()?.parse().ok()).filter(|it| (1..=64).contains(it));
    let ended = match (words.as_slice(), queues) {
        ([path, image, _, how @ ..], Some(queues)) if how.is_empty() || how == ["pipe"] => {
            listen(path, image, queues, !how.is_empty())
        }
        _ => {
            eprintln!("usage: disk PATH IMAGE RINGS [pipe]");
            return ExitCode::from(1);
        }
    };
    let failed = |error: io::Error| {
        eprintln!("disk: {error}");
        ExitCode::from(2)
    };
    ended.map_or_else(failed, |()| ExitCode::SUCCESS)
}

/// Serves one machine after another.
fn listen(path: &OsString, image: &OsString, queues: usize, calls_by_pipe: bool) -> io::Result<()> {
    let image = OpenOptions::new().read(true).write(true).open(image)?;
    let (requests, taken) = channel();
    let (requests, taken, sectors) = (Mutex::new(requests), Arc::new(Mutex::new(taken)), AtomicU64::new(0));
    let disk = Arc::new(Disk { image, sectors, queues, calls_by_pipe, requests, channel: Mutex::new(None) });
    for (disk, taken) in (0..THREADS).map(|_| (disk.clone(), taken.clone())) {
        spawn(move || from_fn(|| locked(&taken).recv().ok()).for_each(|job| disk.finish(job)));
    }
    let looking = disk.clone();
    spawn(move || loop {
        // Who does not hear it reads the size at its next start.
        if looking.measure() {
            let _ = locked(&looking.channel).as_ref().map(|channel| channel.handle_config_change());
        }
        sleep(LOOK);
    });
    // What another disk left behind is replaced, and nothing else.
    let is_socket = symlink_metadata(path).map_or(false, |about| about.file_type().is_socket());
    serve(&Listener::new(path, is_socket)?, disk)
}

fn locked<T>(it: &Mutex<T>) -> MutexGuard<'_, T> {
    it.lock().unwrap_or_else(PoisonError::into_inner)
}

/// A request, and its header, if that is whole.
type Job = (Request, Option<[u8; 16]>);

struct Disk {
    image: File,
    sectors: AtomicU64,
    queues: usize,
    calls_by_pipe: bool,
    requests: Mutex<Sender<Job>>,
    channel: Mutex<Option<Backend>>,
}

impl Device for Disk {
    fn queues(&self) -> usize {
        self.queues
    }

    fn calls_by_pipe(&self) -> bool {
        self.calls_by_pipe
    }

    fn features(&self) -> u64 {
        FEATURES
    }

    fn busy_poll(&self) -> Duration {
        Duration::from_micros(32)
    }

    fn protocol_features(&self) -> VhostUserProtocolFeatures {
        VhostUserProtocolFeatures::CONFIG
    }

    fn burst(&self) -> usize {
        MAX_BURST
    }

    fn request(&self, request: Request) {
        self.requests(vec![request]);
    }

    /// What has not to wait is done here, and given back together.
    fn requests(&self, requests: Vec<Request>) {
        Request::complete_all(requests.into_iter().filter_map(|request| self.begin(request)));
    }

    /// How many sectors, how many parts, how many queues, and how much is discarded or zeroed at once.
    fn read_config(&self, offset: u32, bytes: &mut [u8]) -> bool {
        self.measure();
        let mut space = [0; 256];
        space[..8].copy_from_slice(&self.sectors.load(Ordering::SeqCst).to_le_bytes());
        space[12..16].copy_from_slice(&SEGMENTS.to_le_bytes());
        space[34..36].copy_from_slice(&(self.queues as u16).to_le_bytes());
        for (at, value) in [(36, MOST_ZEROED), (40, 1), (44, 1), (48, MOST_ZEROED), (52, 1), (56, 1)] {
            space[at..at + 4].copy_from_slice(&value.to_le_bytes());
        }
        let part = space.get(offset as usize..).and_then(|rest| rest.get(..bytes.len()));
        part.map(|part| bytes.copy_from_slice(part)).is_some()
    }

    /// It is not acknowledged, and where it is full it ends: a machine that waits for this disk would not do it.
    fn channel(&self, channel: Backend) {
        channel.set_reply_ack_flag(false);
        channel.set_timeout(Some(Duration::ZERO));
        *locked(&self.channel) = Some(channel);
    }

    fn refused(&self, request: Option<u32>, error: &Error) {
        eprintln!("disk: request {:?} was refused: {error}", request.map(FrontendReq::try_from));
    }

    fn broken(&self, queue: usize, error: queue::Error) {
        eprintln!("disk: queue {queue} is malformed: {error}");
    }

    fn ended(&self, why: &Ended) {
        *locked(&self.channel) = None;
        eprintln!("disk: a frontend went: {why}");
    }
}

impl Disk {
    /// Looks how large the file is. Whether that has changed.
    fn measure(&self) -> bool {
        let sectors = self.image.metadata().map_or(0, |about| about.len() / SECTOR);
        sectors != 0 && sectors != self.sectors.swap(sectors, Ordering::SeqCst)
    }

    /// Does a request, or where that has to wait, gives it to a thread. What was done is to be given back, with so many bytes.
    fn begin(&self, mut request: Request) -> Option<(Request, u32)> {
        if request.is_again() {
            eprintln!("disk: a request of queue {} is done again", request.queue());
        }
        let mut head = [0; 16];
        let head = request.read_exact(&mut head).ok().map(|()| head);
        match self.serve(&mut request, head, false) {
            Some(written) => Some((request, written)),
            None => {
                // (where no thread takes it, it is dropped, which gives it back)
                drop(locked(&self.requests).send((request, head)));
                None
            }
        }
    }

    /// Does what had to wait.
    fn finish(&self, (mut request, head): Job) {
        let written = self.serve(&mut request, head, true).unwrap_or(0);
        request.complete(written);
    }

    /// Does a request: how many bytes were written, of which the last one is that of its status. None: it has to wait, and may not.
    fn serve(&self, request: &mut Request, head: Option<[u8; 16]>, may_wait: bool) -> Option<u32> {
        let done = match (request.writable_len().checked_sub(1), head) {
            (None, _) => return Some(0),
            (Some(room), Some(head)) if !request.is_lost() => self.transfer(request, head, room, may_wait),
            // Zeros that stand for what is gone are no request.
            _ => Err(io::ErrorKind::InvalidData.into()),
        };
        let (written, status) = match done {
            Ok(written) => (written, 0),
            Err(cause) if cause.kind() == io::ErrorKind::WouldBlock && !may_wait => return None,
            Err(cause) if cause.kind() == io::ErrorKind::Unsupported => (0, 2),
            Err(_) => (0, 1),
        };
        if let Some(last) = request.writable().last() {
            let _ = last.offset(last.len() - 1).map(|place| place.copy_from(&[status]));
        }
        Some(written + 1)
    }

    /// Does what the header says (virtio 1.2, 5.2.6), with so much room: how many bytes were written. WouldBlock: it has to wait, and may not.
    fn transfer(&self, request: &mut Request, head: [u8; 16], room: u64, may_wait: bool) -> io::Result<u32> {
        let [kind, _, low, high] = words(head);
        let sector = u64::from(low) | u64::from(high) << 32;
        match kind {
            0 => {
                let (place, parts) = (self.place(sector, room)?, without_last_byte(request.writable()));
                if may_wait {
                    VolatileSlice::read_exact_at(&parts, &self.image, place)?;
                } else if room > AT_ONCE || VolatileSlice::read_cached_at(&parts, &self.image, place).ok() != Some(room as usize)
                {
                    return Err(io::ErrorKind::WouldBlock.into());
                }
                u32::try_from(room).map_err(|_| io::ErrorKind::InvalidData.into())
            }
            _ if !may_wait => Err(io::ErrorKind::WouldBlock.into()),
            1 => {
                let place = self.place(sector, request.readable_len())?;
                VolatileSlice::write_all_at(request.readable(), &self.image, place).map(|()| 0)
            }
            4 => self.image.sync_data().map(|()| 0),
            8 => Ok(request.write(&NAME[..NAME.len().min(room as usize)])? as u32),
            11 | 13 => self.zero_all(request, kind == 13),
            _ => Err(io::ErrorKind::Unsupported.into()),
        }
    }

    /// Where so many bytes from a sector on are in the file, if there are any and the disk has them.
    fn place(&self, sector: u64, length: u64) -> io::Result<u64> {
        let end = sector.checked_add(length / SECTOR).filter(|end| *end <= self.sectors.load(Ordering::SeqCst));
        let is_inside = length != 0 && length % SECTOR == 0 && end.is_some();
        is_inside.then_some(sector.wrapping_mul(SECTOR)).ok_or_else(|| io::ErrorKind::InvalidData.into())
    }

    /// Zeroes what the data name: a sector, how many, and flags, of which only zeroing has one, that it may unmap. What is discarded is zeros
    /// then, too.
    fn zero_all(&self, request: &mut Request, is_zeroing: bool) -> io::Result<u32> {
        let mut part = [0; 16];
        if request.readable_len() != part.len() as u64 {
            return Err(io::ErrorKind::Unsupported.into());
        }
        request.read_exact(&mut part)?;
        let [low, high, count, flags] = words(part);
        let sector = u64::from(low) | u64::from(high) << 32;
        if count > MOST_ZEROED || flags > u32::from(is_zeroing) {
            return Err(io::ErrorKind::Unsupported.into());
        }
        let place = self.place(sector, u64::from(count) * SECTOR)?;
        let zero = |at| self.image.write_all_at(&[0; SECTOR as usize], place + at * SECTOR);
        (0..u64::from(count)).try_for_each(zero).map(|()| 0)
    }
}

/// The words that these bytes are.
fn words(bytes: [u8; 16]) -> [u32; 4] {
    [0, 4, 8, 12].map(|at| u32::from_le_bytes([bytes[at], bytes[at + 1], bytes[at + 2], bytes[at + 3]]))
}

fn without_last_byte<'a>(parts: &[VolatileSlice<'a>]) -> Vec<VolatileSlice<'a>> {
    let mut parts = parts.to_vec();
    if let Some(last) = parts.pop() {
        parts.extend(last.subslice(0, last.len() - 1));
    }
    parts
}
