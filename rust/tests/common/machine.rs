// SPDX-License-Identifier: Apache-2.0
//! A device of `covretin::device`, the frontend that a test plays at the other end of its socket, and the guest: the device's loop is in a
//! thread of its own, and the guest's memory is a file, which a test reads and writes as such.
use std::fs::File;
use std::io::{Read, Write};
use std::os::unix::fs::FileExt;
use std::os::unix::io::{AsRawFd, FromRawFd, RawFd};
use std::os::unix::net::UnixStream;
use std::sync::{Arc, Mutex};
use std::thread::{sleep, spawn, JoinHandle};
use std::time::Duration;

use covretin::device::{Device, Ended, Request, Session, Stopper, MAX_QUEUE_SIZE, VERSION_1};
use covretin::queue;
use covretin::vhost_user::message::*;
use covretin::vhost_user::{Error, Frontend, VhostUserFrontend};
use covretin::{VhostBackend, VhostUserMemoryRegionInfo, VringConfigData};

use super::*;

/// Where the guest has its memory, and the frontend; and how much of it there is.
pub const GUEST: u64 = 0x1000_0000;
pub const USER: u64 = 0x7000_0000_0000;
pub const MEMORY: u64 = 0x10_0000;
/// Its bytes that no queue has.
pub const BUFFERS: u64 = 0x8_0000;
pub const QUEUE_ROOM: u64 = 0x4000;
pub const SIZE: u16 = 16;

pub const NEXT: u16 = 1;
pub const WRITE: u16 = 2;
pub const INDIRECT: u16 = 4;
pub const LOG_ALL: u64 = 1 << 26;

/// So many looks, a millisecond each.
pub const LIMIT: usize = 20_000;

// -- The device: it writes the bytes that it reads, in capitals; or keeps its requests --

#[derive(Default)]
pub struct Its {
    pub keeps: bool,
    pub by_pipe: bool,
    pub kept: Vec<Request>,
    /// The largest size of a queue.
    pub most: Option<u16>,
    pub served: usize,
    pub last_queue: usize,
    pub again: bool,
    pub features: u64,
    pub config: [u8; 8],
    pub refused: Vec<String>,
    pub broken: Vec<queue::Error>,
    pub resets: usize,
    pub ended: Vec<String>,
}

pub struct Capitals {
    pub its: Mutex<Its>,
    pub offers: u64,
    pub busy_poll: Duration,
}

impl Capitals {
    pub fn new(offers: u64) -> Arc<Capitals> {
        Capitals::polling(offers, Duration::ZERO)
    }

    pub fn polling(offers: u64, busy_poll: Duration) -> Arc<Capitals> {
        Arc::new(Capitals { its: Mutex::default(), offers, busy_poll })
    }

    pub fn has<T>(&self, look: impl FnOnce(&mut Its) -> T) -> T {
        look(&mut self.its.lock().unwrap())
    }

    /// Waits until this is so.
    #[track_caller]
    pub fn wait_until(&self, what: &str, mut is_so: impl FnMut(&mut Its) -> bool) {
        wait_until(what, || self.has(&mut is_so));
    }
}

pub fn answer(mut request: Request) {
    let mut text = [0; 64];
    let count = request.read(&mut text).unwrap();
    text.make_ascii_uppercase();
    let written = request.write(&text[..count]).unwrap();
    request.complete(written as u32);
}

impl Device for Capitals {
    fn queues(&self) -> usize {
        3
    }

    fn features(&self) -> u64 {
        self.offers
    }

    fn protocol_features(&self) -> VhostUserProtocolFeatures {
        VhostUserProtocolFeatures::CONFIG
    }

    fn busy_poll(&self) -> Duration {
        self.busy_poll
    }

    fn max_queue_size(&self) -> u16 {
        self.has(|its| its.most.unwrap_or(MAX_QUEUE_SIZE))
    }

    fn calls_by_pipe(&self) -> bool {
        self.has(|its| its.by_pipe)
    }

    fn request(&self, request: Request) {
        let answered = self.has(|its| {
            its.served += 1;
            (its.last_queue, its.again) = (request.queue(), request.is_again());
            if its.keeps {
                its.kept.push(request);
                return None;
            }
            Some(request)
        });
        if let Some(request) = answered {
            answer(request);
        }
    }

    fn accepted(&self, features: u64, _protocol_features: VhostUserProtocolFeatures) {
        self.has(|its| its.features = features);
    }

    fn read_config(&self, offset: u32, bytes: &mut [u8]) -> bool {
        let config = self.has(|its| its.config);
        match config.get(offset as usize..).and_then(|rest| rest.get(..bytes.len())) {
            Some(part) => bytes.copy_from_slice(part),
            None => return false,
        }
        true
    }

    fn write_config(&self, offset: u32, bytes: &[u8]) -> bool {
        self.has(|its| match its.config.get_mut(offset as usize..).and_then(|rest| rest.get_mut(..bytes.len())) {
            Some(part) => {
                part.copy_from_slice(bytes);
                true
            }
            None => false,
        })
    }

    fn reset(&self) {
        self.has(|its| its.resets += 1);
    }

    fn refused(&self, request: Option<u32>, error: &Error) {
        self.has(|its| its.refused.push(format!("{request:?} {}", name(error))));
    }

    fn broken(&self, _queue: usize, error: queue::Error) {
        self.has(|its| its.broken.push(error));
    }

    fn ended(&self, why: &Ended) {
        self.has(|its| its.ended.push(text_of_end(why)));
    }
}

pub fn text_of_end(why: &Ended) -> String {
    match why {
        Ended::Frontend(error) => name(error),
        why => format!("{why:?}"),
    }
}

#[track_caller]
pub fn wait_until(what: &str, mut is_so: impl FnMut() -> bool) {
    for _ in 0..LIMIT {
        if is_so() {
            return;
        }
        sleep(Duration::from_millis(1));
    }
    panic!("it never was so: {what}");
}

/// Whether something can be read of a descriptor within so many milliseconds.
pub fn is_readable(fd: RawFd, milliseconds: i32) -> bool {
    let mut polled = libc::pollfd { fd, events: libc::POLLIN, revents: 0 };
    // SAFETY: one struct, borrowed for the call.
    unsafe { libc::poll(&mut polled, 1, milliseconds) == 1 }
}

pub fn event() -> File {
    // SAFETY: what is made belongs to nobody else.
    unsafe {
        let fd = libc::eventfd(0, libc::EFD_CLOEXEC);
        assert!(fd >= 0);
        File::from_raw_fd(fd)
    }
}

/// Whether an eventfd is signalled within so many milliseconds.
pub fn is_signalled(event: &File, milliseconds: i32) -> bool {
    is_readable(event.as_raw_fd(), milliseconds) && (&*event).read(&mut [0; 8]).is_ok()
}

// -- A session: its frontend, and the device's loop --

pub struct Machine {
    pub device: Arc<Capitals>,
    pub frontend: Frontend,
    pub stopper: Stopper,
    pub looping: JoinHandle<String>,
    pub memory: File,
}

/// Serves until the session ends: why.
pub fn serve_all(mut session: Session<impl Device>) -> String {
    loop {
        assert!(is_readable(session.as_raw_fd(), LIMIT as i32), "nothing was to be done");
        if let Some(why) = session.handle_events() {
            let why = text_of_end(why);
            assert_eq!(Some(why.clone()), session.handle_events().map(text_of_end));
            return why;
        }
    }
}

impl Machine {
    pub fn of(offers: u64) -> Machine {
        Machine::with(Capitals::new(offers), guest_memory())
    }

    pub fn with(device: Arc<Capitals>, memory: File) -> Machine {
        let (mine, other) = UnixStream::pair().unwrap();
        let session = Session::new(device.clone(), other).unwrap();
        let (stopper, looping) = (session.stopper(), spawn(move || serve_all(session)));
        let frontend = Frontend::from_stream(mine, 8);
        frontend.set_timeout(Some(Duration::from_secs(20)));
        Machine { device, frontend, stopper, looping, memory }
    }

    /// Both sides agree on these features, and on all protocol features; and the device gets the memory.
    pub fn negotiate(&mut self, features: u64) {
        self.negotiate_without_memory(features);
        let all = self.region(0, MEMORY);
        self.frontend.set_mem_table(&[all]).unwrap();
    }

    pub fn negotiate_without_memory(&mut self, features: u64) {
        agree(&mut self.frontend, features);
        assert_eq!(features | PROTOCOL | VERSION_1, self.device.has(|its| its.features));
    }

    pub fn region(&self, from: u64, size: u64) -> VhostUserMemoryRegionInfo {
        region_of(&self.memory, from, size)
    }

    /// The frontend goes, and the session ends by that.
    pub fn end(self) {
        let Machine { device, frontend, looping, .. } = self;
        drop(frontend);
        assert_eq!("Disconnected", looping.join().unwrap());
        assert_eq!(vec!["Disconnected"], device.has(|its| its.ended.clone()));
    }

    /// The session ends by itself.
    pub fn ends_by(self, why: &str) {
        let Machine { device, looping, .. } = self;
        assert_eq!(why, looping.join().unwrap());
        assert_eq!(vec![why], device.has(|its| its.ended.clone()));
    }
}

pub fn guest_memory() -> File {
    let memory = memory_file();
    memory.set_len(MEMORY).unwrap();
    memory
}

pub fn region_of(memory: &File, from: u64, size: u64) -> VhostUserMemoryRegionInfo {
    VhostUserMemoryRegionInfo {
        guest_phys_addr: GUEST + from,
        memory_size: size,
        userspace_addr: USER + from,
        mmap_offset: from,
        mmap_handle: memory.as_raw_fd(),
    }
}

pub fn agree(frontend: &mut Frontend, features: u64) {
    let wanted = features | PROTOCOL | VERSION_1;
    assert_eq!(wanted, wanted & frontend.get_features().unwrap());
    let offered = frontend.get_protocol_features().unwrap();
    frontend.set_protocol_features(offered & Frontend::PROTOCOL_FEATURES).unwrap();
    need_reply(frontend);
    frontend.set_owner().unwrap();
    frontend.set_features(wanted).unwrap();
}

// -- The guest --

/// A descriptor: an address, a length, flags and the next one; of a packed queue an id and flags.
pub type Descriptor = (u64, u32, u16, u16);

/// A queue in the guest's memory: descriptors, the available ring a page on, the used ring another.
pub struct Ring {
    pub memory: File,
    pub index: u64,
    pub posted: u16,
    pub seen: u16,
    pub kick: File,
    pub call: File,
    pub error: File,
}

impl Ring {
    pub fn of(machine: &Machine, index: u64) -> Ring {
        Ring::in_memory(&machine.memory, index)
    }

    pub fn in_memory(memory: &File, index: u64) -> Ring {
        let memory = memory.try_clone().unwrap();
        Ring { memory, index, posted: 0, seen: 0, kick: event(), call: event(), error: event() }
    }

    pub fn place(&self, page: u64, at: u64) -> u64 {
        self.index * QUEUE_ROOM + page * 4096 + at
    }

    pub fn get<const N: usize>(&self, page: u64, at: u64) -> [u8; N] {
        let mut bytes = [0; N];
        self.memory.read_exact_at(&mut bytes, self.place(page, at)).unwrap();
        bytes
    }

    pub fn get16(&self, page: u64, at: u64) -> u16 {
        u16::from_le_bytes(self.get(page, at))
    }

    pub fn set16(&self, page: u64, at: u64, value: u16) {
        self.memory.write_all_at(&value.to_le_bytes(), self.place(page, at)).unwrap();
    }

    pub fn describe(&self, at: u16, descriptor: Descriptor) {
        self.memory.write_all_at(&bytes_of(descriptor), self.place(0, u64::from(at) * 16)).unwrap();
    }

    pub fn config(&self, log_addr: Option<u64>) -> VringConfigData {
        VringConfigData {
            queue_max_size: SIZE,
            queue_size: SIZE,
            flags: log_addr.is_some().into(),
            desc_table_addr: USER + self.place(0, 0),
            avail_ring_addr: USER + self.place(1, 0),
            used_ring_addr: USER + self.place(2, 0),
            log_addr,
        }
    }

    pub fn start(&mut self, it: &mut Frontend, base: u16) {
        let index = self.index as usize;
        it.set_vring_num(index, SIZE).unwrap();
        it.set_vring_base(index, base).unwrap();
        it.set_vring_addr(index, &self.config(None)).unwrap();
        it.set_vring_call(index, &self.call).unwrap();
        it.set_vring_err(index, &self.error).unwrap();
        it.set_vring_kick(index, &self.kick).unwrap();
        it.set_vring_enable(index, true).unwrap();
        (self.posted, self.seen) = (base, base);
    }

    /// A packed ring of so many descriptors, at its first place, or where an inflight region has it.
    pub fn start_packed(&self, it: &mut Frontend, size: u16) {
        let index = self.index as usize;
        it.set_vring_num(index, size).unwrap();
        it.set_vring_addr(index, &self.config(None)).unwrap();
        it.set_vring_call(index, &self.call).unwrap();
        it.set_vring_kick(index, &self.kick).unwrap();
        it.set_vring_enable(index, true).unwrap();
    }

    /// It was stopped, and goes on there.
    pub fn start_again(&mut self, it: &mut Frontend, base: u16) {
        let (posted, seen) = (self.posted, self.seen);
        self.start(it, base);
        (self.posted, self.seen) = (posted, seen);
    }

    pub fn kick(&self) {
        (&self.kick).write_all(&1u64.to_ne_bytes()).unwrap();
    }

    pub fn post(&mut self, head: u16) {
        self.post_without_kick(head);
        self.kick();
    }

    pub fn post_without_kick(&mut self, head: u16) {
        self.set16(1, 4 + u64::from(self.posted % SIZE) * 2, head);
        self.posted = self.posted.wrapping_add(1);
        self.set16(1, 2, self.posted);
    }

    /// Waits until one more was used: which, and how many bytes were written.
    #[track_caller]
    pub fn used(&mut self) -> (u32, u32) {
        wait_until("it gives a request back", || self.get16(2, 2) != self.seen);
        let elem: [u8; 8] = self.get(2, 4 + u64::from(self.seen % SIZE) * 8);
        self.seen = self.seen.wrapping_add(1);
        let elem = u64::from_le_bytes(elem);
        (elem as u32, (elem >> 32) as u32)
    }

    pub fn buffer(&self, head: u16) -> u64 {
        BUFFERS + self.index * 0x8000 + u64::from(head) * 0x100
    }

    /// A request: a text in two parts, and room for it in two parts, in four descriptors from a head on.
    pub fn write_request(&self, head: u16, text: &str) {
        let (at, len) = (self.buffer(head), text.len() as u32);
        self.memory.write_all_at(text.as_bytes(), at).unwrap();
        self.memory.write_all_at(&[0; 0x80], at + 0x80).unwrap();
        self.describe(head, (GUEST + at, 2, NEXT, head + 1));
        self.describe(head + 1, (GUEST + at + 2, len - 2, NEXT, head + 2));
        self.describe(head + 2, (GUEST + at + 0x80, 3, NEXT | WRITE, head + 3));
        self.describe(head + 3, (GUEST + at + 0x90, 0x70, WRITE, 0));
    }

    /// What was written to that room.
    pub fn text(&self, head: u16, len: usize) -> String {
        let mut bytes = [0; 0x80];
        self.memory.read_exact_at(&mut bytes, self.buffer(head) + 0x80).unwrap();
        let text = [&bytes[..3], &bytes[0x10..0x10 + len - 3]].concat();
        String::from_utf8_lossy(&text).into_owned()
    }
}

pub fn bytes_of((addr, len, third, fourth): Descriptor) -> Vec<u8> {
    [&addr.to_le_bytes()[..], &len.to_le_bytes(), &third.to_le_bytes(), &fourth.to_le_bytes()].concat()
}

/// A machine that has begun, and its first queue.
pub fn begun(offers: u64, features: u64) -> (Machine, Ring) {
    begun_with(Capitals::new(offers), features)
}

/// The same of a device that looks at empty queues for so long.
pub fn begun_polling(offers: u64, features: u64, busy_poll: Duration) -> (Machine, Ring) {
    begun_with(Capitals::polling(offers, busy_poll), features)
}

fn begun_with(device: Arc<Capitals>, features: u64) -> (Machine, Ring) {
    let mut machine = Machine::with(device, guest_memory());
    machine.negotiate(features);
    let mut ring = Ring::of(&machine, 0);
    ring.start(&mut machine.frontend, 0);
    (machine, ring)
}
