// SPDX-License-Identifier: Apache-2.0
//! Requests of a device of `covretin::device` that come, are taken and are given back by many.
mod common;

use std::fs::File;
use std::io::{Read, Write};
use std::os::unix::fs::FileExt;
use std::os::unix::io::AsRawFd;
use std::os::unix::net::UnixStream;
use std::sync::{Arc, Mutex};
use std::thread::{spawn, JoinHandle};

use common::machine::*;
use common::*;
use covretin::device::{Device, Request, Session, Taker, MAX_BURST, RING_PACKED};
use covretin::queue;
use covretin::vhost_user::message::VhostUserInflight;
use covretin::vhost_user::{Frontend, VhostUserFrontend};
use covretin::{VhostBackend, VhostUserDirtyLogRegion, VringConfigData};

const BEFORE: u8 = b'.';

#[derive(Default)]
struct Its {
    /// How many requests came at once, each time; 0: by `request`.
    counts: Vec<usize>,
    kept: Vec<Request>,
    broken: Vec<queue::Error>,
    available: usize,
}

/// What a device does with requests that it has: it gives them back, keeps them, drops them, or takes four of the first queue.
#[derive(Clone, Copy, PartialEq)]
enum Way {
    Complete,
    Keep,
    Drop,
    Take,
}

struct Many {
    way: Way,
    burst: usize,
    its: Mutex<Its>,
}

impl Many {
    fn has<T>(&self, look: impl FnOnce(&mut Its) -> T) -> T {
        look(&mut self.its.lock().unwrap())
    }

    fn counts(&self) -> Vec<usize> {
        self.has(|its| std::mem::take(&mut its.counts))
    }

    #[track_caller]
    fn waits_for_kept(&self, count: usize) {
        wait_until("it has them", || self.has(|its| its.kept.len()) == count);
    }

    fn take_four(&self, taker: &Taker) {
        assert!(taker.take_many(1, 4).is_empty() && taker.take_many(3, 4).is_empty() && taker.take_many(0, 0).is_empty());
        let taken = taker.take_many(0, 4);
        self.has(|its| its.counts.push(taken.len()));
        Request::complete_all(taken.into_iter().zip(1..));
    }
}

/// Fills the room of a request.
fn fill(request: &mut Request) -> u32 {
    request.write(b"all").unwrap() as u32
}

impl Device for Many {
    fn queues(&self) -> usize {
        3
    }

    fn features(&self) -> u64 {
        RING_PACKED
    }

    fn burst(&self) -> usize {
        self.burst
    }

    fn taken_queues(&self) -> u64 {
        u64::from(self.way == Way::Take)
    }

    fn request(&self, mut request: Request) {
        self.has(|its| its.counts.push(0));
        let written = fill(&mut request);
        request.complete(written);
    }

    fn requests(&self, mut requests: Vec<Request>) {
        assert!(!requests.is_empty() && requests.len() <= MAX_BURST);
        assert!(requests.iter().all(|it| it.queue() == requests[0].queue()));
        if self.way == Way::Take {
            self.take_four(&requests[0].taker());
            return;
        }
        self.has(|its| its.counts.push(requests.len()));
        match self.way {
            Way::Keep => self.has(|its| its.kept.append(&mut requests)),
            Way::Drop => drop(requests),
            _ => Request::complete_all(requests.into_iter().map(|mut request| {
                let written = fill(&mut request);
                (request, written)
            })),
        }
    }

    fn available(&self, queue: usize, _taker: &Taker) {
        assert_eq!(0, queue);
        self.has(|its| its.available += 1);
    }

    fn stopping(&self, _queue: usize) {
        self.has(|its| its.kept.clear());
    }

    fn broken(&self, _queue: usize, error: queue::Error) {
        self.has(|its| its.broken.push(error));
    }
}

/// A session of such a device.
struct Served {
    device: Arc<Many>,
    frontend: Frontend,
    memory: File,
    looping: JoinHandle<String>,
}

fn served(way: Way, features: u64) -> Served {
    served_by(way, MAX_BURST, features)
}

fn served_by(way: Way, burst: usize, features: u64) -> Served {
    let device = Arc::new(Many { way, burst, its: Mutex::default() });
    let (mine, other) = UnixStream::pair().unwrap();
    let session = Session::new(device.clone(), other).unwrap();
    let looping = spawn(move || serve_all(session));
    let (mut frontend, memory) = (Frontend::from_stream(mine, 8), guest_memory());
    agree(&mut frontend, features);
    frontend.set_mem_table(&[region_of(&memory, 0, MEMORY)]).unwrap();
    Served { device, frontend, memory, looping }
}

impl Served {
    fn ring(&mut self, index: u64) -> Ring {
        let mut ring = Ring::in_memory(&self.memory, index);
        ring.start(&mut self.frontend, 0);
        ring
    }

    fn end(self) {
        drop(self.frontend);
        assert_eq!("Disconnected", self.looping.join().unwrap());
    }
}

/// Makes requests of one descriptor each available, before the device hears of any.
fn post_many(ring: &mut Ring, heads: std::ops::Range<u16>) {
    for head in heads {
        ring.memory.write_all_at(&[BEFORE; 3], ring.buffer(head)).unwrap();
        ring.describe(head, (GUEST + ring.buffer(head), 0x80, WRITE, 0));
        ring.post_without_kick(head);
    }
    ring.kick();
}

/// How often an eventfd was signalled since this was last asked.
fn signals(event: &File) -> u64 {
    let mut count = [0; 8];
    if is_readable(event.as_raw_fd(), 50) {
        (&*event).read_exact(&mut count).unwrap();
    }
    u64::from_ne_bytes(count)
}

fn expect_used(ring: &mut Ring, heads: impl IntoIterator<Item = u16>, written: u32) {
    for head in heads {
        assert_eq!((head.into(), written), ring.used());
    }
}

/// A session ends a burst of more than seven early where the time of a turn is over, as it can be on a slow machine. So a try says how many came
/// each time: those are as many as were posted, never more at once than the most; and one try of a hundred has all of them as they are here.
#[track_caller]
fn expect_bursts(bursts: &[usize], mut play: impl FnMut() -> Vec<usize>) {
    let most = bursts.iter().max();
    let is_whole = (0..100).any(|_| {
        let counts = play();
        assert_eq!(bursts.iter().sum::<usize>(), counts.iter().sum::<usize>(), "{counts:?}");
        assert!(counts.iter().max() <= most, "{counts:?}");
        counts == bursts
    });
    assert!(is_whole, "each burst is cut");
}

/// What is there already is handed out at once, in the order of its driver, who is told of all by one signal.
#[test]
fn serves_bursts() {
    counted(|| {
        expect_bursts(&[12], || {
            let mut it = served(Way::Complete, 0);
            let mut ring = it.ring(0);
            post_many(&mut ring, 2..14);
            expect_used(&mut ring, 2..14, 3);
            let mut text = [0; 3];
            it.memory.read_exact_at(&mut text, ring.buffer(13)).unwrap();
            assert_eq!(b"all", &text);
            assert_eq!(12, it.frontend.get_vring_base(0).unwrap());
            let counts = it.device.counts();
            assert_eq!(counts.len() as u64, signals(&ring.call));
            it.end();
            counts
        });
    });
}

/// A device that says nothing of bursts has its requests one by one; one that wants few has no more at once, and one that wants too many has
/// as many as there may be.
#[test]
fn as_many_as_a_device_wants() {
    counted(|| {
        for (burst, counts) in [(0, vec![0; 10]), (1, vec![0; 10]), (4, vec![4, 4, 2]), (usize::MAX, vec![10])] {
            expect_bursts(&counts, || {
                let mut it = served_by(Way::Complete, burst, 0);
                let mut ring = it.ring(1);
                post_many(&mut ring, 0..10);
                expect_used(&mut ring, 0..10, 3);
                let counts = it.device.counts();
                it.end();
                counts
            });
        }
    });
}

/// Those that are kept are given back together, out of order, and of several queues: those of one that stand side by side by one signal.
#[test]
fn completes_many_out_of_order() {
    counted(|| {
        let mut it = served(Way::Keep, 0);
        let (mut first, mut second) = (it.ring(0), it.ring(1));
        post_many(&mut first, 0..5);
        it.device.waits_for_kept(5);
        post_many(&mut second, 3..5);
        it.device.waits_for_kept(7);
        post_many(&mut first, 8..9);
        it.device.waits_for_kept(8);
        let kept = it.device.has(|its| std::mem::take(&mut its.kept));
        Request::complete_all(kept.into_iter().rev().zip(1..));
        assert_eq!([(8, 1), (4, 4), (3, 5)], [first.used(), first.used(), first.used()]);
        expect_used(&mut first, [2], 6);
        assert_eq!([(4, 2), (3, 3)], [second.used(), second.used()]);
        assert_eq!((2, 1), (signals(&first.call), signals(&second.call)));
        Request::complete_all([]);
        assert_eq!([6, 2], [0, 1].map(|index| it.frontend.get_vring_base(index).unwrap()));
        it.end();
    });
}

/// A ring of so many descriptors, each of which is a request, of which those from `good` on lie nowhere: all are there before it starts.
fn start_large(it: &mut Served, size: u16, good: u16) -> Ring {
    let ring = Ring::in_memory(&it.memory, 0);
    let config = VringConfigData { queue_max_size: size, queue_size: size, ..ring.config(None) };
    it.frontend.set_vring_num(0, size).unwrap();
    it.frontend.set_vring_addr(0, &config).unwrap();
    it.frontend.set_vring_call(0, &ring.call).unwrap();
    it.frontend.set_vring_err(0, &ring.error).unwrap();
    for at in 0..size {
        let addr = if at < good { GUEST + BUFFERS + u64::from(at) * 0x100 } else { 0 };
        ring.describe(at, (addr, 0x80, WRITE, 0));
        ring.set16(1, 4 + u64::from(at) * 2, at);
    }
    ring.set16(1, 2, size);
    it.frontend.set_vring_kick(0, &ring.kick).unwrap();
    it.frontend.set_vring_enable(0, true).unwrap();
    ring
}

/// At most so many are handed out at once; and those before one that breaks a rule are the device's, which is told of that after them.
#[test]
fn a_burst_has_an_end() {
    counted(|| {
        expect_bursts(&[MAX_BURST, 50 - MAX_BURST], || {
            let mut it = served(Way::Complete, 0);
            let ring = start_large(&mut it, 64, 50);
            wait_until("it is broken", || it.device.has(|its| its.broken == [queue::Error::NotInGuest]));
            assert_eq!(50, ring.get16(2, 2));
            let counts = it.device.counts();
            assert_eq!((counts.len() as u64, 1), (signals(&ring.call), signals(&ring.error)));
            it.end();
            counts
        });
    });
}

/// Requests that a device drops are done, with nothing written.
#[test]
fn drops_bursts() {
    counted(|| {
        expect_bursts(&[9], || {
            let mut it = served(Way::Drop, 0);
            let mut ring = it.ring(0);
            post_many(&mut ring, 0..9);
            expect_used(&mut ring, 0..9, 0);
            assert_eq!(9, it.frontend.get_vring_base(0).unwrap());
            let counts = it.device.counts();
            it.end();
            counts
        });
    });
}

/// A device takes at most so many at once, and fewer where there are fewer; then it is told of the next one. Where the fifth of six is none, those
/// before it are taken, the queue is broken, and that is told.
#[test]
fn takes_many_of_a_queue() {
    counted(|| {
        let mut it = served(Way::Take, 0);
        let (mut first, mut second) = (it.ring(0), it.ring(1));
        post_many(&mut second, 0..1);
        expect_used(&mut second, [0], 0);
        assert_eq!(vec![0], it.device.counts());
        post_many(&mut first, 0..7);
        wait_until("it is told", || it.device.has(|its| its.available == 1));
        first.describe(6, (0, 4, WRITE, 0));
        post_many(&mut second, 1..2);
        expect_used(&mut second, [1], 0);
        assert_eq!((vec![4], 1), (it.device.counts(), signals(&first.call)));
        (1..5).for_each(|written| expect_used(&mut first, [written as u16 - 1], written));
        post_many(&mut second, 2..3);
        expect_used(&mut second, [2], 0);
        assert_eq!(vec![2], it.device.counts());
        assert_eq!([(4, 1), (5, 2)], [first.used(), first.used()]);
        wait_until("it is broken", || it.device.has(|its| its.broken == [queue::Error::NotInGuest]));
        it.end();
    });
}

/// A packed ring's requests are shown to its driver by the flags of the first one.
#[test]
fn completes_many_of_a_packed_queue() {
    counted(|| {
        let mut it = served(Way::Keep, RING_PACKED);
        let ring = Ring::in_memory(&it.memory, 2);
        ring.start_packed(&mut it.frontend, 8);
        (0..5).for_each(|at| ring.describe(at, (GUEST + ring.buffer(at), 16, at, 0x80 | WRITE)));
        ring.kick();
        it.device.waits_for_kept(5);
        let kept = it.device.has(|its| std::mem::take(&mut its.kept));
        Request::complete_all(kept.into_iter().rev().zip(1..));
        let used = |at: u64| (ring.get16(0, at * 16 + 12), ring.get16(0, at * 16 + 8), ring.get16(0, at * 16 + 14) & 0x8080);
        let (ids, written): (Vec<_>, Vec<_>) = (0..5).map(used).map(|(id, len, flags)| ((id, flags), len)).unzip();
        assert_eq!([4, 3, 2, 1, 0].map(|id| (id, 0x8080)).to_vec(), ids);
        assert_eq!(vec![1, 2, 3, 4, 5], written);
        assert_eq!(1, signals(&ring.call));
        assert_eq!(0x8005_8005, it.frontend.get_vring_base(2).unwrap());
        it.end();
    });
}

/// With an inflight region each is noted by itself, and what a device has is handed out again by the next one, at once.
#[test]
fn bursts_with_an_inflight_region() {
    counted(|| {
        let mut it = served(Way::Keep, 0);
        let wanted = VhostUserInflight::new(0, 0, 1, SIZE);
        let (told, region) = it.frontend.get_inflight_fd(&wanted).unwrap();
        let mut ring = it.ring(0);
        post_many(&mut ring, 0..6);
        it.device.waits_for_kept(6);
        let kept = it.device.has(|its| its.kept.drain(2..4).collect::<Vec<_>>());
        Request::complete_all(kept.into_iter().rev().map(|request| (request, 7)));
        expect_used(&mut ring, [3, 2], 7);
        assert_eq!(1, signals(&ring.call));
        let left = it.device.has(|its| std::mem::take(&mut its.kept));
        drop(it.frontend);
        let device = Arc::new(Many { way: Way::Keep, burst: MAX_BURST, its: Mutex::default() });
        let (mine, other) = UnixStream::pair().unwrap();
        let session = Session::new(device.clone(), other).unwrap();
        let (looping, mut frontend) = (spawn(move || serve_all(session)), Frontend::from_stream(mine, 8));
        agree(&mut frontend, 0);
        frontend.set_mem_table(&[region_of(&it.memory, 0, MEMORY)]).unwrap();
        frontend.set_inflight_fd(&told, region.as_raw_fd()).unwrap();
        ring.start_again(&mut frontend, 0);
        device.waits_for_kept(4);
        assert!(device.has(|its| its.kept.iter().all(|request| request.is_again())));
        assert_eq!(vec![0, 1, 4, 5], device.has(|its| its.kept.iter().map(|request| request.head_index()).collect::<Vec<_>>()));
        // Those of a session that has ended and of one that goes on are given back together.
        let kept = device.has(|its| std::mem::take(&mut its.kept));
        Request::complete_all(left.into_iter().chain(kept).map(|request| (request, 5)));
        expect_used(&mut ring, [0, 1, 4, 5], 5);
        drop(frontend);
        assert_eq!(["Disconnected", "Disconnected"], [it.looping, looping].map(|looping| looping.join().unwrap()));
    });
}

/// What many requests were written is logged before their driver sees them, and so is the ring.
#[test]
fn logs_bursts() {
    counted(|| {
        let mut it = served(Way::Complete, LOG_ALL);
        let log = memory_file();
        log.set_len(0x4000).unwrap();
        let about = VhostUserDirtyLogRegion { mmap_size: 0x4000, mmap_offset: 0, mmap_handle: log.as_raw_fd() };
        it.frontend.set_log_base(0, Some(about)).unwrap();
        let mut ring = it.ring(0);
        let config = ring.config(Some(GUEST + ring.place(2, 0)));
        it.frontend.set_vring_addr(0, &config).unwrap();
        post_many(&mut ring, 0..15);
        expect_used(&mut ring, 0..15, 3);
        let page = |at: u64| (GUEST + at) / 4096;
        let is_logged = |page: u64| {
            let mut byte = [0];
            log.read_exact_at(&mut byte, page / 8).unwrap();
            byte[0] >> (page % 8) & 1 != 0
        };
        let logged: Vec<u64> = (page(0)..page(MEMORY)).filter(|page| is_logged(*page)).collect();
        assert_eq!(vec![page(ring.place(2, 0)), page(ring.buffer(0))], logged);
        it.end();
    });
}
