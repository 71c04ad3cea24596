// SPDX-License-Identifier: Apache-2.0
//! What a device of `covretin::device` does for its guest (common/machine.rs): queues of each kind, requests that are done now or later, and
//! what a guest must not do.
mod common;

use std::os::unix::fs::FileExt;
use std::os::unix::net::UnixStream;
use std::sync::mpsc::{channel, Receiver, Sender};
use std::sync::{Arc, Mutex};
use std::thread::{sleep, spawn};
use std::time::Duration;

use common::machine::*;
use common::random::Numbers;
use common::*;
use covretin::device::{Device, Request, Session, EVENT_IDX, INDIRECT_DESC, RING_PACKED};
use covretin::queue;
use covretin::vhost_user::{Frontend, VhostUserFrontend};
use covretin::VhostBackend;

#[test]
fn serves_requests() {
    counted(|| {
        let (mut machine, mut ring) = begun(0, 0);
        for _ in 0..40 {
            ring.write_request(4, "some text");
            ring.post(4);
            assert_eq!((4, 9), ring.used());
            assert_eq!("SOME TEXT", ring.text(4, 9));
            assert!(is_signalled(&ring.call, LIMIT as i32));
        }
        ring.set16(1, 0, 1); // the driver wants no interrupt
        ring.post(4);
        assert_eq!((4, 9), ring.used());
        assert!(!is_signalled(&ring.call, 50));
        assert_eq!(41, machine.frontend.get_vring_base(0).unwrap());
        ring.post(4); // it is stopped
        sleep(Duration::from_millis(50));
        assert_eq!(41, machine.device.has(|its| its.served));
        ring.start(&mut machine.frontend, 41);
        ring.post(4);
        assert_eq!((4, 9), ring.used());
        machine.end();
    });
}

#[test]
fn serves_several_queues() {
    counted(|| {
        let mut machine = Machine::of(0);
        machine.negotiate(0);
        assert_eq!(3, machine.frontend.get_queue_num().unwrap());
        let mut rings: Vec<Ring> = (0..3).map(|index| Ring::of(&machine, index)).collect();
        rings.iter_mut().for_each(|ring| ring.start(&mut machine.frontend, 0));
        for index in (0..3).rev() {
            rings[index].write_request(0, "queue");
            rings[index].post(0);
            assert_eq!((0, 5), rings[index].used());
            assert_eq!("QUEUE", rings[index].text(0, 5));
            assert_eq!(index, machine.device.has(|its| its.last_queue));
        }
        machine.frontend.set_vring_enable(1, false).unwrap();
        rings[1].post(0);
        rings[2].post(0);
        assert_eq!((0, 5), rings[2].used());
        sleep(Duration::from_millis(50));
        assert_eq!(4, machine.device.has(|its| its.served));
        machine.frontend.set_vring_enable(1, true).unwrap();
        assert_eq!((0, 5), rings[1].used());
        machine.frontend.reset_device().unwrap();
        assert_eq!(1, machine.device.has(|its| its.resets));
        machine.end();
    });
}

#[test]
fn serves_indirect_tables_and_event_indexes() {
    counted(|| {
        let (machine, mut ring) = begun(0, INDIRECT_DESC | EVENT_IDX);
        ring.write_request(0, "indirect");
        let table: [u8; 64] = ring.get(0, 0);
        machine.memory.write_all_at(&table, 0x7_0004).unwrap(); // it need not be aligned
        ring.describe(7, (GUEST + 0x7_0004, 64, INDIRECT, 0));
        ring.post(7);
        assert_eq!((7, 8), ring.used());
        assert_eq!("INDIRECT", ring.text(0, 8));
        assert!(is_signalled(&ring.call, LIMIT as i32));
        ring.set16(1, 4 + u64::from(SIZE) * 2, 2); // the driver is to be told of the third
        ring.post(7);
        assert_eq!((7, 8), ring.used());
        assert!(!is_signalled(&ring.call, 50));
        ring.post(7);
        assert_eq!((7, 8), ring.used());
        assert!(is_signalled(&ring.call, LIMIT as i32));
        // The device is to be told of the fourth.
        wait_until("it asks for a kick", || ring.get16(2, 4 + u64::from(SIZE) * 8) == 3);
        machine.end();
    });
}

/// Two requests, each of a descriptor that is read and one that is written, which take the ring's four places; then one more, whose place
/// is the first again.
#[test]
fn serves_a_packed_queue() {
    counted(|| {
        let mut machine = Machine::of(RING_PACKED);
        machine.negotiate(RING_PACKED);
        let ring = Ring::of(&machine, 2);
        ring.start_packed(&mut machine.frontend, 4);
        for round in 0..3u16 {
            let (at, is_first) = (round * 2 % 4, round < 2);
            let (available, used) = if is_first { (0x80, 0x8080) } else { (0x8000, 0) };
            machine.memory.write_all_at(b"packed", BUFFERS).unwrap();
            machine.memory.write_all_at(&[0; 6], BUFFERS + 0x100).unwrap();
            ring.describe(at + 1, (GUEST + BUFFERS + 0x100, 64, 3, available | WRITE));
            ring.describe(at, (GUEST + BUFFERS, 6, 3, ring.get16(0, u64::from(at) * 16 + 14)));
            ring.set16(0, u64::from(at) * 16 + 14, available | NEXT);
            ring.kick();
            assert!(is_signalled(&ring.call, LIMIT as i32));
            assert_eq!(used, ring.get16(0, u64::from(at) * 16 + 14) & 0x8080);
            assert_eq!((6, 3), (ring.get16(0, u64::from(at) * 16 + 8), ring.get16(0, u64::from(at) * 16 + 12)));
            let mut text = [0; 6];
            machine.memory.read_exact_at(&mut text, BUFFERS + 0x100).unwrap();
            assert_eq!(b"PACKED", &text);
        }
        assert_eq!(0x0002_0002, machine.frontend.get_vring_base(2).unwrap());
        machine.end();
    });
}

/// DPDK's virtio_user says of a packed ring where it goes on as of a split one, by 16 bits alone: what is used is there, too.
#[test]
fn a_packed_queue_begins_where_half_a_base_says() {
    counted(|| {
        let mut machine = Machine::of(RING_PACKED);
        machine.negotiate(RING_PACKED);
        let ring = Ring::of(&machine, 2);
        machine.frontend.set_vring_base(2, 0x8002).unwrap();
        machine.memory.write_all_at(b"packed", BUFFERS).unwrap();
        ring.start_packed(&mut machine.frontend, 4);
        ring.describe(3, (GUEST + BUFFERS + 0x100, 64, 1, 0x80 | WRITE));
        ring.describe(2, (GUEST + BUFFERS, 6, 1, 0x80 | NEXT));
        ring.kick();
        assert!(is_signalled(&ring.call, LIMIT as i32));
        assert_eq!((6, 1), (ring.get16(0, 2 * 16 + 8), ring.get16(0, 2 * 16 + 12)));
        assert_eq!(0, machine.frontend.get_vring_base(2).unwrap());
        machine.end();
    });
}

/// Whoever stops a ring is answered once its requests are done, in any order.
#[test]
fn completes_later() {
    counted(|| {
        let (machine, mut ring) = begun(0, 0);
        machine.device.has(|its| its.keeps = true);
        for head in [0, 4, 8] {
            ring.write_request(head, "later");
            ring.post(head);
        }
        let device = machine.device.clone();
        let later = spawn(move || {
            device.wait_until("it has three", |its| its.kept.len() == 3);
            sleep(Duration::from_millis(100));
            let kept = device.has(|its| std::mem::take(&mut its.kept));
            kept.into_iter().rev().for_each(answer);
        });
        machine.device.wait_until("it has three", |its| its.kept.len() == 3);
        assert_eq!(3, machine.frontend.get_vring_base(0).unwrap());
        assert_eq!([(8, 5), (4, 5), (0, 5)], [ring.used(), ring.used(), ring.used()]);
        assert_eq!("LATER", ring.text(4, 5));
        later.join().unwrap();
        machine.end();
    });
}

/// Threads that do requests of three queues, in whatever order, until their device is no more.
struct Pool(Mutex<Sender<Request>>);

impl Device for Pool {
    fn queues(&self) -> usize {
        3
    }

    fn request(&self, request: Request) {
        self.0.lock().unwrap().send(request).unwrap();
    }
}

/// Each request is given back once, with its own text; also those that are under way as their ring is stopped.
#[test]
fn completes_from_several_threads() {
    counted(|| {
        let (requests, taken) = channel();
        let taken = Arc::new(Mutex::new(taken));
        let work = |taken: Arc<Mutex<Receiver<Request>>>| loop {
            let next = taken.lock().unwrap().recv();
            match next {
                Ok(request) => answer(request),
                Err(_) => return,
            }
        };
        let workers: Vec<_> = (0..4).map(|_| taken.clone()).map(|taken| spawn(move || work(taken))).collect();
        let (mine, other) = UnixStream::pair().unwrap();
        let session = Session::new(Arc::new(Pool(Mutex::new(requests))), other).unwrap();
        let looping = spawn(move || serve_all(session));
        let (mut frontend, memory) = (Frontend::from_stream(mine, 8), guest_memory());
        agree(&mut frontend, 0);
        frontend.set_mem_table(&[region_of(&memory, 0, MEMORY)]).unwrap();
        let mut rings: Vec<Ring> = (0..3).map(|index| Ring::in_memory(&memory, index)).collect();
        rings.iter_mut().for_each(|ring| ring.start(&mut frontend, 0));
        for round in 1..=300u16 {
            for ring in &mut rings {
                for head in [0, 4, 8, 12] {
                    ring.write_request(head, &format!("text {round} {head}"));
                    ring.post(head);
                }
            }
            if round % 10 == 0 {
                // (what is not taken yet stays available)
                let base = frontend.get_vring_base(1).unwrap() as u16;
                assert!((round * 4 - 4..=round * 4).contains(&base), "{base}");
                rings[1].start_again(&mut frontend, base);
            }
            for ring in &mut rings {
                let mut used: Vec<u32> = (0..4).map(|_| ring.used().0).collect();
                used.sort_unstable();
                assert_eq!(vec![0, 4, 8, 12], used);
                for head in [0, 4, 8, 12] {
                    let text = format!("TEXT {round} {head}");
                    assert_eq!(text, ring.text(head, text.len()));
                }
            }
        }
        drop(frontend);
        assert_eq!("Disconnected", looping.join().unwrap());
        workers.into_iter().for_each(|worker| worker.join().unwrap());
    });
}

/// A request that is dropped is done.
#[test]
fn drops_a_request() {
    counted(|| {
        let (machine, mut ring) = begun(0, 0);
        machine.device.has(|its| its.keeps = true);
        ring.write_request(0, "dropped");
        ring.post(0);
        machine.device.wait_until("it has one", |its| its.kept.len() == 1);
        drop(machine.device.has(|its| its.kept.pop()));
        assert_eq!((0, 0), ring.used());
        machine.end();
    });
}

/// What a guest must not do is named; nothing more is taken of that queue, the session goes on, and a reset begins it anew.
#[test]
fn names_what_is_wrong() {
    let one = (GUEST + BUFFERS, 16, NEXT, 1);
    let long = vec![(GUEST + BUFFERS, 1, NEXT, 0)];
    let cases: Vec<(queue::Error, Vec<Descriptor>)> = vec![
        (queue::Error::ChainTooLong, vec![one, (GUEST, 16, NEXT, 0)]),
        (queue::Error::ChainTooLong, long),
        (queue::Error::NotInTable, vec![one, (GUEST, 16, NEXT, SIZE)]),
        (queue::Error::EmptyDescriptor, vec![one, (GUEST, 0, 0, 0)]),
        (queue::Error::NotInGuest, vec![one, (GUEST, MEMORY as u32 + 1, 0, 0)]),
        (queue::Error::NotInGuest, vec![(u64::MAX, 16, 0, 0)]),
        (queue::Error::NotInGuest, vec![(GUEST - 1, 16, 0, 0)]),
        (queue::Error::ReadableAfterWritable, vec![(GUEST, 16, NEXT | WRITE, 1), (GUEST, 16, 0, 0)]),
        (queue::Error::InvalidIndirectLength, vec![one, (GUEST, 24, INDIRECT, 0)]),
        (queue::Error::IndirectGoesOn, vec![one, (GUEST, 16, INDIRECT | NEXT, 0)]),
        (queue::Error::ChainTooLong, vec![one, (GUEST, 1025 * 16, INDIRECT, 0)]),
    ];
    counted(|| {
        let (mut machine, mut ring) = begun(0, INDIRECT_DESC);
        let mut other = Ring::of(&machine, 1);
        other.start(&mut machine.frontend, 0);
        other.write_request(0, "other");
        for (error, chain) in cases {
            machine.memory.write_all_at(&[0; QUEUE_ROOM as usize], 0).unwrap();
            machine.frontend.get_vring_base(0).unwrap();
            ring.start(&mut machine.frontend, 0);
            (0..).zip(&chain).for_each(|(at, descriptor)| ring.describe(at, *descriptor));
            ring.post(0);
            assert!(is_signalled(&ring.error, LIMIT as i32), "{error:?} {chain:?}");
            machine.device.wait_until("it says so", |its| its.broken.last() == Some(&error));
            machine.device.has(|its| its.broken.clear());
            other.post(0);
            assert_eq!((0, 5), other.used());
            assert_eq!(0, ring.get16(2, 2));
        }
        machine.memory.write_all_at(&[0; QUEUE_ROOM as usize], 0).unwrap();
        machine.frontend.get_vring_base(0).unwrap();
        ring.start(&mut machine.frontend, 0);
        ring.set16(1, 2, SIZE + 1);
        ring.kick();
        machine.device.wait_until("it says so", |its| its.broken == [queue::Error::TooManyAvailable]);
        ring.set16(1, 2, 0);
        machine.frontend.get_vring_base(0).unwrap();
        ring.start(&mut machine.frontend, 0);
        ring.write_request(0, "again");
        ring.post(0);
        assert_eq!((0, 5), ring.used());
        machine.end();
    });
}

/// A driver that is quick need not kick, and is told so; it is as quick as the device says.
#[test]
fn polls_a_quick_driver() {
    counted(|| {
        let (machine, mut ring) = begun_polling(0, 0, Duration::from_secs(1 << 20));
        ring.write_request(0, "quick");
        wait_until("it is quick", || {
            ring.post(0);
            assert_eq!((0, 5), ring.used());
            ring.get16(2, 0) == 1
        });
        for _ in 0..300 {
            assert_eq!(1, ring.get16(2, 0)); // no kick is wanted
            ring.post_without_kick(0);
            assert_eq!((0, 5), ring.used());
        }
        machine.stopper.stop();
        machine.ends_by("Stopped");
    });
}

/// One that is late is waited for.
#[test]
fn waits_for_a_late_driver() {
    counted(|| {
        let (machine, mut ring) = begun_polling(0, 0, Duration::from_nanos(1));
        ring.write_request(0, "late");
        for _ in 0..20 {
            sleep(Duration::from_millis(2));
            assert_eq!(0, ring.get16(2, 0));
            ring.post(0);
            assert_eq!((0, 4), ring.used());
        }
        machine.end();
    });
}

/// Descriptors that are often right, a table of them in a buffer among these, and heads.
fn write_anything(ring: &Ring, any: &mut Numbers, is_packed: bool) {
    for _ in 0..6 {
        let at = match any.below(8) {
            0 => (any.below(1 << 40) as u64) << any.below(24),
            _ => GUEST + any.below(MEMORY as usize) as u64,
        };
        let len = if any.below(16) != 0 { any.below(0x200) } else { any.below(1 << 32) } as u32;
        let flags = (any.below(8) | any.below(2) << 7 | any.below(2) << 15) as u16;
        let place = any.below(usize::from(SIZE) + 1) as u16;
        let mut it = if is_packed { (at, len, place, flags) } else { (at, len, flags & 7, place) };
        if any.below(4) == 0 {
            (it.0, it.1) = (GUEST + 0x7_0000, 16 * any.below(20) as u32);
        }
        let number = any.below(16) as u64 * 16;
        let to = if any.below(2) != 0 { ring.place(0, number) } else { 0x7_0000 + number };
        ring.memory.write_all_at(&bytes_of(it), to).unwrap();
        let heads = usize::from(SIZE) + usize::from(any.below(8) == 0);
        let head = any.below(heads) as u16;
        ring.set16(1, 4 + any.below(usize::from(SIZE) + 1) as u64 * 2, head);
    }
}

/// Whatever is in its rings, the device answers its frontend; a queue that broke is begun anew. Other seeds are other contents.
fn bears_anything(offers: u64, features: u64, seed: u64) {
    let (mut machine, mut ring) = begun_polling(offers, features, Duration::from_micros(20));
    let (mut any, mut broken) = (Numbers(0x1234_5678_9abc_def1_u64.wrapping_mul(2 * seed + 1)), 0);
    for round in 0..4000 {
        write_anything(&ring, &mut any, offers != 0);
        if offers == 0 {
            let more = any.below(3) + if any.below(100) == 0 { 99 } else { 0 };
            ring.set16(1, 2, ring.get16(1, 2).wrapping_add(more as u16));
        }
        ring.kick();
        if round % 8 != 0 {
            continue;
        }
        assert_eq!(3, machine.frontend.get_queue_num().unwrap());
        let now = machine.device.has(|its| its.broken.len());
        if now != broken {
            broken = now;
            machine.memory.write_all_at(&[0; 0x3000], 0).unwrap();
            machine.frontend.get_vring_base(0).unwrap();
            ring.start(&mut machine.frontend, 0);
        }
    }
    assert!(broken > 10);
    assert!(machine.device.has(|its| its.served) > 10);
    machine.end();
}

#[test]
fn bears_anything_in_a_split_queue() {
    counted(|| bears_anything(0, INDIRECT_DESC | EVENT_IDX, 0));
}

#[test]
fn bears_anything_in_a_packed_queue() {
    counted(|| bears_anything(RING_PACKED, INDIRECT_DESC | RING_PACKED, 0));
}

/// The seeds that COVRETIN_SEEDS names as FIRST-LAST, or the one that it names; 1 without.
fn seeds() -> std::ops::RangeInclusive<u64> {
    let named = std::env::var("COVRETIN_SEEDS").unwrap_or("1".to_string());
    let (first, last) = named.split_once('-').unwrap_or((&named, &named));
    first.parse().unwrap()..=last.parse().unwrap()
}

/// Both for other seeds: by hand, for as long as one likes.
#[test]
#[ignore]
fn bears_anything_for_long() {
    for seed in seeds() {
        counted(|| bears_anything(0, INDIRECT_DESC | EVENT_IDX, seed));
        counted(|| bears_anything(RING_PACKED, INDIRECT_DESC | RING_PACKED, seed));
    }
}
