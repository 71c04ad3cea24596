// SPDX-License-Identifier: Apache-2.0
//! What a device of `covretin::device` does with the memory that it is given, its log and its inflight region (common/machine.rs).
mod common;

use std::io::Read;
use std::os::unix::fs::FileExt;
use std::os::unix::io::AsRawFd;
use std::os::unix::net::UnixDatagram;
use std::thread::sleep;
use std::time::Duration;

use common::lingering::{lingers, Lingering};
use common::machine::*;
use common::*;
use covretin::device::{Device, MAX_QUEUE_SIZE, RING_PACKED};
use covretin::queue::{self, VolatileSlice};
use covretin::vhost_user::message::*;
use covretin::vhost_user::VhostUserFrontend;
use covretin::{VhostBackend, VhostUserDirtyLogRegion, VhostUserMemoryRegionInfo};

/// The bytes of a request go to a file and come from one, and its parts are what the guest said.
#[test]
fn moves_bytes_of_files() {
    counted(|| {
        let (machine, mut ring) = begun(0, 0);
        machine.device.has(|its| its.keeps = true);
        ring.write_request(0, "file of its own");
        ring.post(0);
        machine.device.wait_until("it has one", |its| its.kept.len() == 1);
        let request = machine.device.has(|its| its.kept.pop()).unwrap();
        let file = memory_file();
        assert_eq!(vec![2, 13], request.readable().iter().map(VolatileSlice::len).collect::<Vec<_>>());
        assert_eq!((15, 0x73), (request.readable_len(), request.writable_len()));
        assert_eq!(15, VolatileSlice::write_at(request.readable(), &file, 4).unwrap());
        assert_eq!(15, VolatileSlice::read_at(request.writable(), &file, 4).unwrap());
        assert_eq!(0, VolatileSlice::read_at(request.writable(), &file, 1 << 40).unwrap());
        match VolatileSlice::read_cached_at(request.writable(), &file, 4) {
            Ok(count) => assert_eq!(15, count),
            Err(cause) => assert_eq!(Some(libc::EOPNOTSUPP), cause.raw_os_error()),
        }
        VolatileSlice::write_all_at(request.readable(), &file, 0x70).unwrap();
        let end = VolatileSlice::read_exact_at(request.writable(), &file, 16).unwrap_err();
        assert_eq!(std::io::ErrorKind::UnexpectedEof, end.kind());
        VolatileSlice::read_exact_at(&request.writable()[..1], &file, 0x70).unwrap();
        assert_eq!(15, VolatileSlice::read_at(request.writable(), &file, 0x70).unwrap());
        request.complete(15);
        assert_eq!((0, 15), ring.used());
        assert_eq!("file of its own", ring.text(0, 15));
        machine.end();
    });
}

/// A table of sockets that linger is refused at the first; the others are closed without waiting, too.
#[test]
fn refuses_a_table_of_sockets() {
    counted(|| {
        let (machine, _) = begun(0, 0);
        let sockets = Lingering::new(3);
        let region = |at: usize| {
            let about = machine.region(at as u64 * 0x1000, 0x1000);
            VhostUserMemoryRegionInfo { mmap_handle: sockets.files[at].as_raw_fd(), ..about }
        };
        let table: Vec<_> = (0..3).map(region).collect();
        assert!(sockets.files.iter().all(lingers));
        assert!(machine.frontend.set_mem_table(&table).is_err());
        assert!(!sockets.files.iter().any(lingers));
        machine.end();
    });
}

#[test]
fn ends_where_memory_is_gone() {
    counted(|| {
        let (machine, mut ring) = begun(0, 0);
        ring.write_request(0, "gone");
        ring.post(0);
        assert_eq!((0, 4), ring.used());
        machine.memory.set_len(0).unwrap();
        ring.kick();
        assert!(is_readable(machine.frontend.as_raw_fd(), LIMIT as i32)); // the frontend is hung up on
        assert_eq!(1, machine.device.has(|its| its.served));
        machine.ends_by("MemoryLost");
    });
}

/// The same under the device, which has a request; the system's own calls lose nothing.
#[test]
fn ends_where_a_request_is_gone() {
    counted(|| {
        let (machine, mut ring) = begun(0, 0);
        machine.device.has(|its| its.keeps = true);
        ring.write_request(0, "gone");
        ring.post(0);
        machine.device.wait_until("it has one", |its| its.kept.len() == 1);
        let mut request = machine.device.has(|its| its.kept.pop()).unwrap();
        let file = memory_file();
        machine.memory.set_len(0).unwrap();
        let lost = VolatileSlice::write_at(request.readable(), &file, 0).unwrap_err();
        assert_eq!(Some(libc::EFAULT), lost.raw_os_error());
        assert!(!request.is_lost());
        let mut text = [1; 8];
        assert_eq!(4, request.read(&mut text).unwrap());
        assert_eq!([0, 0, 0, 0, 1, 1, 1, 1], text);
        assert!(request.is_lost());
        request.complete(4);
        machine.ends_by("MemoryLost");
    });
}

/// Of two sessions of a process that one ends whose memory is gone.
#[test]
fn ends_no_other_session() {
    counted(|| {
        let (machine, ring) = begun(0, 0);
        let (other, mut its) = begun(0, 0);
        its.write_request(0, "other");
        machine.memory.set_len(0).unwrap();
        ring.kick();
        machine.ends_by("MemoryLost");
        for _ in 0..3 {
            its.post(0);
            assert_eq!((0, 5), its.used());
        }
        assert_eq!("OTHER", its.text(0, 5));
        other.end();
    });
}

/// A device ends with requests under way, which the next one finds in the inflight region, in their order.
#[test]
fn goes_on_by_the_inflight_region() {
    counted(|| {
        let mut machine = Machine::of(0);
        machine.negotiate(0);
        let mut ring = Ring::of(&machine, 0);
        let wanted = VhostUserInflight::new(0, 0, 1, SIZE);
        let (told, region) = machine.frontend.get_inflight_fd(&wanted).unwrap();
        machine.frontend.set_inflight_fd(&told, region.as_raw_fd()).unwrap();
        ring.start(&mut machine.frontend, 0);
        machine.device.has(|its| its.keeps = true);
        for head in [8, 0, 4] {
            ring.write_request(head, "again");
            ring.post(head);
        }
        machine.device.wait_until("it has three", |its| its.kept.len() == 3);
        answer(machine.device.has(|its| its.kept.remove(1)));
        assert_eq!((0, 5), ring.used());
        machine.stopper.stop(); // as if it were killed: what it has is not given back
        sleep(Duration::from_millis(50));
        let device = machine.device.clone();
        let kept = device.has(|its| std::mem::take(&mut its.kept));
        kept.into_iter().for_each(answer);
        let memory = machine.memory.try_clone().unwrap();
        machine.ends_by("Stopped");
        assert_eq!(1, ring.get16(2, 2));

        let mut machine = Machine::with(Capitals::new(0), memory);
        machine.negotiate(0);
        machine.frontend.set_inflight_fd(&told, region.as_raw_fd()).unwrap();
        machine.device.has(|its| its.keeps = true);
        ring.start(&mut machine.frontend, 1);
        ring.posted = 3;
        machine.device.wait_until("it has two", |its| its.kept.len() == 2);
        assert!(machine.device.has(|its| its.kept.iter().all(|it| it.is_again())));
        let kept = machine.device.has(|its| std::mem::take(&mut its.kept));
        kept.into_iter().for_each(answer);
        assert_eq!([(8, 5), (4, 5)], [ring.used(), ring.used()]);
        machine.device.has(|its| its.keeps = false);
        ring.post(0);
        assert_eq!((0, 5), ring.used());
        assert!(!machine.device.has(|its| its.again));
        assert_eq!(4, machine.frontend.get_vring_base(0).unwrap());
        machine.end();
    });
}

/// The same of a packed ring, in which the request that was used first has overwritten a descriptor of one that is under way.
#[test]
fn goes_on_in_a_packed_ring() {
    counted(|| {
        let mut machine = Machine::of(RING_PACKED);
        machine.negotiate(RING_PACKED);
        let ring = Ring::of(&machine, 0);
        let (told, region) = machine.frontend.get_inflight_fd(&VhostUserInflight::new(0, 0, 1, 8)).unwrap();
        assert_eq!(320, told.mmap_size); // 32 bytes, and 32 for each descriptor, up to a multiple of 64
        machine.frontend.set_inflight_fd(&told, region.as_raw_fd()).unwrap();
        ring.start_packed(&mut machine.frontend, 8);
        machine.device.has(|its| its.keeps = true);
        machine.memory.write_all_at(b"packed", BUFFERS).unwrap();
        for (at, id) in [(0, 7), (2, 6), (4, 5)] {
            ring.describe(at + 1, (GUEST + BUFFERS + 0x100 + u64::from(at) * 0x10, 16, id, 0x80 | WRITE));
            ring.describe(at, (GUEST + BUFFERS, 6, id, 0x80 | NEXT));
        }
        ring.kick();
        machine.device.wait_until("it has three", |its| its.kept.len() == 3);
        answer(machine.device.has(|its| its.kept.remove(1)));
        assert!(is_signalled(&ring.call, LIMIT as i32));
        machine.stopper.stop();
        sleep(Duration::from_millis(50));
        let device = machine.device.clone();
        let kept = device.has(|its| std::mem::take(&mut its.kept));
        kept.into_iter().for_each(answer);
        let memory = machine.memory.try_clone().unwrap();
        machine.ends_by("Stopped");
        assert_eq!([6, 0x8082, 7, 0x82], [12, 14, 28, 30].map(|at| ring.get16(0, at)));

        let mut machine = Machine::with(Capitals::new(RING_PACKED), memory);
        machine.negotiate(RING_PACKED);
        machine.frontend.set_inflight_fd(&told, region.as_raw_fd()).unwrap();
        machine.device.has(|its| its.keeps = true);
        ring.start_packed(&mut machine.frontend, 8);
        machine.device.wait_until("it has two", |its| its.kept.len() == 2);
        assert!(machine.device.has(|its| its.kept.iter().all(|it| it.is_again())));
        let mut kept = machine.device.has(|its| std::mem::take(&mut its.kept));
        kept.drain(..).rev().for_each(answer);
        assert!(is_signalled(&ring.call, LIMIT as i32));
        assert_eq!(0x8006_8006, machine.frontend.get_vring_base(0).unwrap());
        assert_eq!([5, 0x8082, 7, 0x8082], [44, 46, 76, 78].map(|at| ring.get16(0, at)));
        let mut text = [0; 6];
        for at in [0x100, 0x120, 0x140] {
            machine.memory.read_exact_at(&mut text, BUFFERS + at).unwrap();
            assert_eq!(b"PACKED", &text);
        }
        machine.end();
    });
}

/// Regions come and go while a request is under way, whose bytes stay; one that lies nowhere breaks its queue, until a reset. The same region may
/// be given many times, and goes once it was taken back as often.
#[test]
fn regions_come_and_go() {
    counted(|| {
        let mut machine = Machine::of(0);
        machine.negotiate_without_memory(0);
        let (rings, buffers) = (machine.region(0, BUFFERS), machine.region(BUFFERS, MEMORY - BUFFERS));
        let odd = machine.region(BUFFERS, 0x1000);
        let mut ring = Ring::of(&machine, 0);
        let queues = machine.device.queues();
        assert_eq!(509, machine.frontend.get_max_mem_slots().unwrap());
        machine.frontend.add_mem_region(&rings).unwrap();
        machine.frontend.add_mem_region(&buffers).unwrap();
        failed("BackendInternalError", machine.frontend.add_mem_region(&odd)); // it overlaps
        for _ in 0..queues {
            machine.frontend.add_mem_region(&buffers).unwrap();
        }
        failed("BackendInternalError", machine.frontend.add_mem_region(&buffers)); // more often than there are queues
        ring.start(&mut machine.frontend, 0);
        machine.device.has(|its| its.keeps = true);
        ring.write_request(0, "kept");
        ring.post(0);
        machine.device.wait_until("it has one", |its| its.kept.len() == 1);
        (0..queues).for_each(|_| machine.frontend.remove_mem_region(&buffers).unwrap());
        failed("BackendInternalError", machine.frontend.add_mem_region(&odd)); // it is there still
        machine.frontend.remove_mem_region(&buffers).unwrap();
        failed("BackendInternalError", machine.frontend.remove_mem_region(&buffers));
        answer(machine.device.has(|its| its.kept.pop()).unwrap());
        assert_eq!((0, 4), ring.used());
        assert_eq!("KEPT", ring.text(0, 4));
        ring.post(0);
        assert!(is_signalled(&ring.error, LIMIT as i32));
        machine.device.wait_until("it says so", |its| its.broken == [queue::Error::NotInGuest]);
        machine.end();
    });
}

/// The same of a packed queue: what its requests point to came behind it.
#[test]
fn a_packed_queue_keeps_what_it_has() {
    counted(|| {
        let mut machine = Machine::of(RING_PACKED);
        machine.negotiate_without_memory(RING_PACKED);
        let (rings, buffers) = (machine.region(0, BUFFERS), machine.region(BUFFERS, MEMORY - BUFFERS));
        let ring = Ring::of(&machine, 0);
        machine.frontend.add_mem_region(&rings).unwrap();
        ring.start_packed(&mut machine.frontend, 4);
        machine.frontend.add_mem_region(&buffers).unwrap();
        machine.device.has(|its| its.keeps = true);
        machine.memory.write_all_at(b"packed", BUFFERS).unwrap();
        ring.describe(1, (GUEST + BUFFERS + 0x100, 64, 3, 0x80 | WRITE));
        ring.describe(0, (GUEST + BUFFERS, 6, 3, 0x80 | NEXT));
        ring.kick();
        machine.device.wait_until("it has one", |its| its.kept.len() == 1);
        machine.frontend.remove_mem_region(&buffers).unwrap();
        answer(machine.device.has(|its| its.kept.pop()).unwrap());
        assert!(is_signalled(&ring.call, LIMIT as i32));
        let mut text = [0; 6];
        machine.memory.read_exact_at(&mut text, BUFFERS + 0x100).unwrap();
        assert_eq!(b"PACKED", &text);
        machine.end();
    });
}

#[test]
fn logs_what_it_writes() {
    counted(|| {
        let (machine, mut ring) = begun(0, LOG_ALL);
        let bits = memory_file();
        bits.set_len(0x4000).unwrap();
        let region = VhostUserDirtyLogRegion { mmap_size: 0x4000, mmap_offset: 0, mmap_handle: bits.as_raw_fd() };
        machine.frontend.set_log_base(0, Some(region)).unwrap();
        machine.frontend.set_vring_addr(0, &ring.config(Some(GUEST + 0x2000))).unwrap();
        ring.write_request(0, "logged");
        ring.post(0);
        assert_eq!((0, 6), ring.used());
        assert_eq!(1, machine.frontend.get_vring_base(0).unwrap());
        let mut found = vec![0; 0x4000];
        bits.read_exact_at(&mut found, 0).unwrap();
        let set: Vec<usize> = (0..0x4000 * 8).filter(|page| found[page / 8] & 1 << (page % 8) != 0).collect();
        assert_eq!(vec![GUEST as usize / 4096 + 2, (GUEST + BUFFERS) as usize / 4096], set);
        machine.end();
    });
}

/// A queue may be as large as the device says, and no larger; nor larger than any.
#[test]
fn takes_no_larger_queue() {
    counted(|| {
        for most in [SIZE, 2 * MAX_QUEUE_SIZE] {
            let mut machine = Machine::of(0);
            machine.device.has(|its| its.most = Some(most));
            machine.negotiate(0);
            let most = most.min(MAX_QUEUE_SIZE);
            let it = &mut machine.frontend;
            failed("BackendInternalError", it.set_vring_num(0, 2 * most));
            failed("BackendInternalError", it.set_vring_num(0, most + 1));
            it.set_vring_num(0, most).unwrap();
            let mut ring = Ring::in_memory(&machine.memory, 0);
            ring.start(it, 0);
            ring.write_request(0, "small");
            ring.post(0);
            assert_eq!((0, 5), ring.used());
            machine.end();
        }
    });
}

/// What is no memory file is not mapped; what is no eventfd is no kick.
#[test]
fn refuses_other_files() {
    counted(|| {
        let mut machine = Machine::of(0);
        machine.negotiate_without_memory(0);
        let (socket, _other) = UnixDatagram::pair().unwrap();
        let no_memory = VhostUserMemoryRegionInfo { mmap_handle: socket.as_raw_fd(), ..machine.region(0, MEMORY) };
        let beyond = machine.region(4096, MEMORY);
        let it = &mut machine.frontend;
        failed("BackendInternalError", it.set_mem_table(&[no_memory]));
        failed("BackendInternalError", it.set_mem_table(&[beyond]));
        let all = region_of(&machine.memory, 0, MEMORY);
        it.set_mem_table(&[all]).unwrap();
        let mut ring = Ring::in_memory(&machine.memory, 0);
        failed("BackendInternalError", it.set_vring_kick(0, &socket));
        failed("BackendInternalError", it.set_vring_call(0, &socket));
        failed("BackendInternalError", it.set_vring_kick(0, &ring.kick)); // it has no size
        failed("BackendInternalError", it.set_vring_num(0, 2048));
        failed("BackendInternalError", it.set_vring_num(5, 16));
        ring.start(it, 0);
        failed("BackendInternalError", it.set_vring_num(0, 16)); // it is started
        ring.write_request(0, "goes on");
        ring.post(0);
        assert_eq!((0, 7), ring.used());
        machine.device.wait_until("it was told", |its| its.refused.len() == 8);
        machine.end();
    });
}
