// SPDX-License-Identifier: Apache-2.0
//! The example disk, a process of its own, and a guest that asks it through a virtqueue, as it should and as it should not; and machines
//! that mean harm.
#![cfg(feature = "vm-memory")]
mod common;

use std::env;
use std::fs::{read, read_dir, read_to_string, remove_file, write, File};
use std::io::{ErrorKind, Read, Write};
use std::net::{TcpListener, TcpStream};
use std::os::unix::io::{AsRawFd, FromRawFd, OwnedFd, RawFd};
use std::os::unix::net::{UnixDatagram, UnixStream};
use std::path::PathBuf;
use std::process::{Child, Command, Stdio};
use std::rc::Rc;
use std::sync::atomic::{AtomicBool, Ordering};
use std::sync::{Arc, Mutex};
use std::thread::{sleep, spawn};
use std::time::Duration;

use common::*;
use covretin::vhost_user::message::*;
use covretin::vhost_user::{Frontend, FrontendReqHandler, HandlerResult, VhostUserFrontend, VhostUserFrontendReqHandlerMut};
use covretin::{VhostBackend, VhostUserMemoryRegionInfo, VringConfigData};
use vm_memory::{Bytes, FileOffset, GuestAddress, GuestMemory, GuestMemoryMmap};

/// The program; how it is compiled, ./test rust knows.
const PROGRAM: &str = "COVRETIN_DISK";

const MEMORY: u64 = 1 << 20;
/// Guest memory begins there, so that low addresses are outside of it.
const START: u64 = 0x10_0000;
const SIZE: u16 = 8;
const SECTORS: usize = 64;

/// Where the parts of the ring and of requests lie.
const TABLE: u64 = START;
const AVAILABLE: u64 = START + 0x1000;
const USED: u64 = START + 0x2000;
const HEAD: u64 = START + 0x3000;
const STATUS: u64 = START + 0x3100;
const DATA: u64 = START + 0x4000;

/// PROTOCOL_FEATURES and VERSION_1; and what a driver may want beside them.
const FEATURES: u64 = 1 << 30 | 1 << 32;
const LOG_ALL: u64 = 1 << 26;
const EVENT_IDX: u64 = 1 << 29;

const NEXT: u16 = 1;
const WRITABLE: u16 = 2;

/// An eventfd that waits for nobody.
fn event() -> File {
    // SAFETY: what is made belongs to nobody else.
    unsafe {
        let fd = libc::eventfd(0, libc::EFD_CLOEXEC | libc::EFD_NONBLOCK);
        assert!(fd >= 0);
        File::from_raw_fd(fd)
    }
}

/// Whoever waits for the disk gives up once it has slept in so many looks, or has used so many seconds of a processor: a machine that
/// has no time for it does not count.
const LOOKS: usize = 30_000;
const SECONDS: u64 = 60;

/// The disk, a process.
struct Disk {
    process: Child,
    paths: [PathBuf; 2],
}

impl Disk {
    fn new(name: &str) -> Rc<Disk> {
        let path = |kind: &str| env::temp_dir().join(format!("covretin-{}-{name}.{kind}", std::process::id()));
        let paths = [path("sock"), path("img")];
        write(&paths[1], (0..SECTORS * 512).map(|at| (at / 512) as u8).collect::<Vec<u8>>()).unwrap();
        let mut program = Command::new(env::var_os(PROGRAM).expect(PROGRAM));
        let disk = Disk { process: program.args(&paths).args(["1", "pipe"]).stderr(Stdio::null()).spawn().unwrap(), paths };
        disk.wait_until("it listens", || UnixStream::connect(&disk.paths[0]).is_ok());
        Rc::new(disk)
    }

    /// The place of what the system tells of it.
    fn about(&self, file: &str) -> String {
        format!("/proc/{}/{file}", self.process.id())
    }

    fn send(&self, signal: libc::c_int) {
        // SAFETY: it is a child that was not waited for.
        assert_eq!(0, unsafe { libc::kill(self.process.id() as libc::pid_t, signal) });
    }

    fn fds(&self) -> usize {
        read_dir(self.about("fd")).unwrap().count()
    }

    /// Its state, and how many seconds of a processor it used.
    fn state(&self) -> (char, u64) {
        let stat = read_to_string(self.about("stat")).unwrap();
        let words: Vec<&str> = stat.rsplit(')').next().unwrap().split_whitespace().collect();
        let ticks: u64 = words[11].parse::<u64>().unwrap() + words[12].parse::<u64>().unwrap();
        // SAFETY: it is asked for a number.
        (words[0].chars().next().unwrap(), ticks / unsafe { libc::sysconf(libc::_SC_CLK_TCK) } as u64)
    }

    fn wait_until(&self, what: &str, mut holds: impl FnMut() -> bool) {
        let mut looks = 0;
        while !holds() {
            let (state, seconds) = self.state();
            looks += usize::from(state == 'S');
            assert!(state != 'Z', "the disk died: {what}");
            assert!(looks < LOOKS, "the disk sleeps: {what}");
            assert!(seconds < SECONDS, "the disk is busy: {what}");
            sleep(Duration::from_micros(100));
        }
    }

    fn is_hung_up(&self, fd: RawFd) {
        let mut polled = libc::pollfd { fd, events: 0, revents: 0 };
        // SAFETY: one element, borrowed for the call.
        self.wait_until("it hangs up", || unsafe { libc::poll(&mut polled, 1, 0) } == 1);
    }
}

impl Drop for Disk {
    fn drop(&mut self) {
        let _ = self.process.kill();
        let _ = self.process.wait();
        self.paths.iter().for_each(|path| drop(remove_file(path)));
    }
}

/// The disk, the machine, and the guest in it.
struct Guest {
    disk: Rc<Disk>,
    frontend: Frontend,
    file: File,
    memory: GuestMemoryMmap,
    kick: File,
    call: File,
    next: u16,
    /// Features of the driver beside the least.
    features: u64,
}

impl Guest {
    fn new(name: &str) -> Guest {
        Guest::of(Disk::new(name))
    }

    fn of(disk: Rc<Disk>) -> Guest {
        Guest::with(disk, 0)
    }

    fn with(disk: Rc<Disk>, features: u64) -> Guest {
        let file = memory_file();
        file.set_len(MEMORY).unwrap();
        let ranges = [(GuestAddress(START), MEMORY as usize, Some(FileOffset::new(file.try_clone().unwrap(), 0)))];
        let memory = GuestMemoryMmap::from_ranges_with_files(ranges).unwrap();
        let frontend = Frontend::connect(&disk.paths[0], 1).unwrap();
        frontend.set_timeout(Some(Duration::from_secs(20)));
        let mut guest = Guest { disk, frontend, file, memory, kick: event(), call: event(), next: 0, features };
        guest.begin();
        guest
    }

    /// What a machine does before its guest runs.
    fn begin(&mut self) {
        let it = &mut self.frontend;
        it.set_owner().unwrap();
        let wanted = FEATURES | self.features;
        assert_eq!(wanted, wanted & it.get_features().unwrap());
        it.set_features(wanted).unwrap();
        let offered = it.get_protocol_features().unwrap();
        let wanted = VhostUserProtocolFeatures::CONFIG
            | VhostUserProtocolFeatures::LOG_SHMFD
            | VhostUserProtocolFeatures::INFLIGHT_SHMFD
            | VhostUserProtocolFeatures::REPLY_ACK
            | VhostUserProtocolFeatures::BACKEND_REQ
            | VhostUserProtocolFeatures::CONFIGURE_MEM_SLOTS;
        it.set_protocol_features(offered & wanted).unwrap();
        need_reply(it);
        let (_, space) = it.get_config(0, 8, VhostUserConfigFlags::empty(), &[0; 8]).unwrap();
        assert_eq!((SECTORS as u64).to_le_bytes(), *space);
        let region = self.memory.find_region(GuestAddress(START)).unwrap();
        it.set_mem_table(&[VhostUserMemoryRegionInfo::from_guest_region(region).unwrap()]).unwrap();
        self.start(0);
    }

    /// Starts the ring, at this buffer.
    fn start(&mut self, next: u16) {
        let user = |at: u64| self.memory.get_host_address(GuestAddress(at)).unwrap() as u64;
        let ring = VringConfigData {
            desc_table_addr: user(TABLE),
            used_ring_addr: user(USED),
            avail_ring_addr: user(AVAILABLE),
            flags: u32::from(self.features & LOG_ALL != 0),
            log_addr: Some(USED),
            ..Default::default()
        };
        let it = &mut self.frontend;
        it.set_vring_num(0, SIZE).unwrap();
        it.set_vring_base(0, next).unwrap();
        it.set_vring_addr(0, &ring).unwrap();
        it.set_vring_call(0, &self.call).unwrap();
        it.set_vring_kick(0, &self.kick).unwrap();
        it.set_vring_enable(0, true).unwrap();
        self.next = next;
    }

    /// Writes descriptors from number 0 on: an address, a length, flags, and the next.
    fn describe(&self, descriptors: &[(u64, u32, u16, u16)]) {
        self.describe_at(TABLE, descriptors);
    }

    /// The same in this table.
    fn describe_at(&self, table: u64, descriptors: &[(u64, u32, u16, u16)]) {
        for (place, (at, length, flags, next)) in (0..).zip(descriptors) {
            let place = table + 16 * place;
            self.memory.write_obj(*at, GuestAddress(place)).unwrap();
            self.memory.write_obj(*length, GuestAddress(place + 8)).unwrap();
            self.memory.write_obj([*flags, *next], GuestAddress(place + 12)).unwrap();
        }
    }

    /// Makes the chain from this descriptor on available.
    fn offer(&mut self, head: u16) {
        self.memory.write_obj(head, GuestAddress(AVAILABLE + 4 + 2 * u64::from(self.next % SIZE))).unwrap();
        self.next = self.next.wrapping_add(1);
        self.memory.write_obj(self.next, GuestAddress(AVAILABLE + 2)).unwrap();
        self.kick.write_all(&1u64.to_ne_bytes()).unwrap();
    }

    /// Waits until the disk has given all back, and called: the last one, and how many bytes were written.
    fn given_back(&mut self) -> (u32, u32) {
        let used = self.used();
        let mut calls = [0; 8];
        let mut call = &self.call;
        self.disk.wait_until("it calls", || call.read(&mut calls).is_ok());
        used
    }

    /// Waits until it has given all back.
    fn used(&self) -> (u32, u32) {
        let index = || self.memory.read_obj::<u16>(GuestAddress(USED + 2)).unwrap();
        self.disk.wait_until("it gives all back", || index() == self.next);
        let place = USED + 4 + 8 * u64::from(self.next.wrapping_sub(1) % SIZE);
        let [id, written]: [u32; 2] = self.memory.read_obj(GuestAddress(place)).unwrap();
        (id, written)
    }

    /// One request with its data in these parts: its status (0xaa where none was written), and how many bytes were written.
    fn ask(&mut self, kind: u32, sector: u64, data: &[(u64, u32, u16)]) -> (u8, u32) {
        self.post(kind, sector, data);
        let (id, written) = self.given_back();
        assert_eq!(0, id);
        (self.memory.read_obj(GuestAddress(STATUS)).unwrap(), written)
    }

    /// The same, whose end is not awaited.
    fn post(&mut self, kind: u32, sector: u64, data: &[(u64, u32, u16)]) {
        self.memory.write_obj([kind, 0], GuestAddress(HEAD)).unwrap();
        self.memory.write_obj(sector, GuestAddress(HEAD + 8)).unwrap();
        self.memory.write_obj(0xaau8, GuestAddress(STATUS)).unwrap();
        let mut chain = vec![(HEAD, 16, NEXT, 1)];
        chain.extend((2..).zip(data).map(|(next, (at, length, flags))| (*at, *length, flags | NEXT, next)));
        chain.push((STATUS, 1, WRITABLE, 0));
        self.describe(&chain);
        self.offer(0);
    }

    fn image(&self) -> Vec<u8> {
        read(&self.disk.paths[1]).unwrap()
    }

    /// It reads a sector still, and its machine is served.
    fn still_serves(&mut self) {
        assert_eq!((0, 513), self.ask(0, 9, &[(DATA, 512, WRITABLE)]));
        assert_eq!(9, self.memory.read_obj::<u8>(GuestAddress(DATA)).unwrap());
        self.frontend.get_features().unwrap();
    }
}

#[test]
#[ignore = "needs COVRETIN_DISK"]
fn sectors() {
    counted(|| {
        let mut guest = Guest::new("sectors");
        // Two parts that are no sectors by themselves.
        assert_eq!((0, 1025), guest.ask(0, 5, &[(DATA, 100, WRITABLE), (DATA + 0x1000, 924, WRITABLE)]));
        let mut bytes = [0; 924];
        guest.memory.read_slice(&mut bytes, GuestAddress(DATA + 0x1000)).unwrap();
        assert!(bytes[..412].iter().all(|it| *it == 5) && bytes[412..].iter().all(|it| *it == 6));
        guest.memory.write_slice(&[0xc3; 1024], GuestAddress(DATA)).unwrap();
        for round in 0..20 {
            assert_eq!((0, 1), guest.ask(1, round, &[(DATA, 1024, 0)]));
        }
        assert_eq!((0, 1), guest.ask(4, 0, &[]));
        let image = guest.image();
        assert!(image[..21 * 512].iter().all(|it| *it == 0xc3) && image[21 * 512..22 * 512].iter().all(|it| *it == 21));
        assert_eq!((0, 21), guest.ask(8, 0, &[(DATA, 20, WRITABLE)]));
        let mut name = [0; 20];
        guest.memory.read_slice(&mut name, GuestAddress(DATA)).unwrap();
        assert_eq!(b"covretin\0\0\0\0\0\0\0\0\0\0\0\0", &name);
        // There is no such request.
        assert_eq!((2, 1), guest.ask(99, 0, &[]));
    });
}

/// Where the ring stopped, it goes on.
#[test]
#[ignore = "needs COVRETIN_DISK"]
fn a_ring_that_stops() {
    counted(|| {
        let mut guest = Guest::new("stops");
        guest.still_serves();
        guest.still_serves();
        assert_eq!(2, guest.frontend.get_vring_base(0).unwrap());
        guest.start(2);
        guest.still_serves();
    });
}

/// Sectors behind the disk's end, parts of a sector, data the wrong way round.
#[test]
#[ignore = "needs COVRETIN_DISK"]
fn requests_that_fail() {
    counted(|| {
        let mut guest = Guest::new("fail");
        let before = guest.image();
        let inside = [(DATA, 512, WRITABLE)];
        for sector in [SECTORS as u64, u64::MAX / 512, u64::MAX] {
            assert_eq!((1, 1), guest.ask(0, sector, &inside));
            assert_eq!((1, 1), guest.ask(1, sector, &[(DATA, 512, 0)]));
        }
        assert_eq!((1, 1), guest.ask(0, SECTORS as u64 - 1, &[(DATA, 1024, WRITABLE)]));
        assert_eq!((1, 1), guest.ask(0, 0, &[(DATA, 511, WRITABLE)]));
        assert_eq!((1, 1), guest.ask(0, 0, &[(DATA, 512, 0)]));
        assert_eq!((1, 1), guest.ask(1, 0, &inside));
        assert_eq!(before, guest.image());
        guest.still_serves();
    });
}

/// A header that is too short is an error; where no status has room, nothing is said.
#[test]
#[ignore = "needs COVRETIN_DISK"]
fn requests_without_head_or_status() {
    counted(|| {
        let mut guest = Guest::new("parts");
        let chains: [&[(u64, u32, u16, u16)]; 4] = [
            &[(STATUS, 1, WRITABLE, 0)],
            &[(HEAD, 15, NEXT, 1), (STATUS, 1, WRITABLE, 0)],
            &[(HEAD, 16, 0, 0)],
            &[(HEAD, 16, NEXT, 1), (STATUS, 1, 0, 0)],
        ];
        for (chain, written) in chains.into_iter().zip([1, 1, 0, 0]) {
            guest.memory.write_obj(0xaau8, GuestAddress(STATUS)).unwrap();
            guest.describe(chain);
            guest.offer(0);
            assert_eq!((0, written), guest.given_back(), "{chain:x?}");
            let status = if written == 0 { 0xaa } else { 1 };
            assert_eq!(status, guest.memory.read_obj::<u8>(GuestAddress(STATUS)).unwrap());
        }
        guest.still_serves();
    });
}

/// More buffers than the ring has: it is served no longer, and the machine is.
#[test]
#[ignore = "needs COVRETIN_DISK"]
fn a_ring_that_is_malformed() {
    counted(|| {
        let mut guest = Guest::new("malformed");
        guest.still_serves();
        guest.memory.write_obj(guest.next + SIZE + 1, GuestAddress(AVAILABLE + 2)).unwrap();
        guest.kick.write_all(&1u64.to_ne_bytes()).unwrap();
        sleep(Duration::from_millis(50));
        assert_eq!(guest.next, guest.memory.read_obj::<u16>(GuestAddress(USED + 2)).unwrap());
        assert_eq!(u32::from(guest.next), guest.frontend.get_vring_base(0).unwrap());
        guest.memory.write_obj(guest.next, GuestAddress(AVAILABLE + 2)).unwrap();
        let next = guest.next;
        guest.start(next);
        guest.still_serves();
    });
}

/// No ring has such a size; nor does one change while it runs.
#[test]
#[ignore = "needs COVRETIN_DISK"]
fn sizes_that_no_ring_has() {
    counted(|| {
        let mut guest = Guest::new("sizes");
        failed("BackendInternalError", guest.frontend.set_vring_num(0, SIZE));
        assert_eq!(0, guest.frontend.get_vring_base(0).unwrap());
        for size in [0, 2048] {
            failed("BackendInternalError", guest.frontend.set_vring_num(0, size));
        }
        guest.frontend.set_vring_num(0, 12).unwrap();
        failed("BackendInternalError", guest.frontend.set_vring_kick(0, &guest.kick));
        guest.start(0);
        guest.still_serves();
    });
}

/// Regions that lie over one another, or behind the end of their file, are refused, and leave all as it was.
#[test]
#[ignore = "needs COVRETIN_DISK"]
fn regions_that_can_not_be() {
    counted(|| {
        let mut guest = Guest::new("regions");
        let region = guest.memory.find_region(GuestAddress(START)).unwrap();
        let region = VhostUserMemoryRegionInfo::from_guest_region(region).unwrap();
        let behind = VhostUserMemoryRegionInfo {
            guest_phys_addr: START + MEMORY,
            userspace_addr: region.userspace_addr + MEMORY,
            ..region
        };
        let beyond = VhostUserMemoryRegionInfo { mmap_offset: MEMORY, ..behind };
        let half = VhostUserMemoryRegionInfo { memory_size: MEMORY / 2, ..region };
        failed("BackendInternalError", guest.frontend.add_mem_region(&half)); // it overlaps
        failed("BackendInternalError", guest.frontend.set_mem_table(&[behind, beyond]));
        failed("BackendInternalError", guest.frontend.set_mem_table(&[behind, behind]));
        guest.still_serves();
        guest.frontend.add_mem_region(&behind).unwrap();
        guest.frontend.remove_mem_region(&behind).unwrap();
        // (the same region may be given again, and is taken back as often)
        guest.frontend.add_mem_region(&region).unwrap();
        guest.frontend.remove_mem_region(&region).unwrap();
        guest.still_serves();
    });
}

/// A driver that says from which request on it wants to be called, and is told from which on it has to kick.
#[test]
#[ignore = "needs COVRETIN_DISK"]
fn calls_that_are_wanted() {
    let wanted_at = GuestAddress(AVAILABLE + 4 + 2 * u64::from(SIZE));
    let kick_at = GuestAddress(USED + 4 + 8 * u64::from(SIZE));
    counted(|| {
        let mut guest = Guest::with(Disk::new("calls"), EVENT_IDX);
        guest.still_serves();
        guest.memory.write_obj(2u16, wanted_at).unwrap();
        guest.post(0, 9, &[(DATA, 512, WRITABLE)]);
        guest.used();
        let disk = guest.disk.clone();
        disk.wait_until("it says when to kick", || guest.memory.read_obj::<u16>(kick_at).unwrap() == 2);
        // (it has given the second back, and waits for the third, which is the one that a call is wanted for)
        assert_eq!(ErrorKind::WouldBlock, (&guest.call).read(&mut [0; 8]).unwrap_err().kind());
        guest.still_serves();
        disk.wait_until("it says when to kick again", || guest.memory.read_obj::<u16>(kick_at).unwrap() == 3);
    });
}

/// The pages that are in the log are those that the disk wrote, and no others.
#[test]
#[ignore = "needs COVRETIN_DISK"]
fn pages_that_were_written() {
    counted(|| {
        let mut guest = Guest::with(Disk::new("log"), LOG_ALL);
        let log = memory_file();
        log.set_len(0x1000).unwrap();
        let region = covretin::VhostUserDirtyLogRegion { mmap_size: 0x1000, mmap_offset: 0, mmap_handle: log.as_raw_fd() };
        guest.frontend.set_log_base(0, Some(region)).unwrap();
        let logged = || {
            let mut bits = [0; 0x1000];
            std::os::unix::fs::FileExt::read_exact_at(&log, &mut bits, 0).unwrap();
            std::os::unix::fs::FileExt::write_all_at(&log, &[0; 0x1000], 0).unwrap();
            (0..0x8000u64)
                .filter(|page| bits[*page as usize / 8] >> (page % 8) & 1 != 0)
                .map(|page| page << 12)
                .collect::<Vec<_>>()
        };
        // (a read over a border of pages)
        assert_eq!((0, 1025), guest.ask(0, 9, &[(DATA + 0xe00, 1024, WRITABLE)]));
        assert_eq!(vec![USED, HEAD, DATA, DATA + 0x1000], logged());
        assert_eq!((0, 1), guest.ask(1, 20, &[(DATA, 512, 0)]));
        assert_eq!(vec![USED, HEAD], logged());
        // No more once the driver's features are without it. (Until then it may have said, and noted, that it wants to be
        // kicked again.)
        guest.frontend.set_features(FEATURES).unwrap();
        logged();
        guest.still_serves();
        assert_eq!(Vec::<u64>::new(), logged());
    });
}

/// What the disk before took and did not give back is done again, without a kick; and noted when it is.
#[test]
#[ignore = "needs COVRETIN_DISK"]
fn requests_that_were_left_behind() {
    counted(|| {
        let mut guest = Guest::new("left_behind");
        guest.still_serves();
        assert_eq!(1, guest.frontend.get_vring_base(0).unwrap());
        let (about, file) = guest.frontend.get_inflight_fd(&VhostUserInflight::new(0, 0, 1, SIZE)).unwrap();
        assert_eq!((192, 1, SIZE), (about.mmap_size, about.num_queues, about.queue_size));
        let at = |offset: u64, bytes: &[u8]| std::os::unix::fs::FileExt::write_all_at(&file, bytes, offset).unwrap();
        // Its head: version 1, as many descriptors, one given back; and of the first descriptor that it is in flight.
        at(8, &[1, 0, SIZE as u8, 0, 0, 0, 1, 0]);
        at(16, &[1]);
        guest.post(0, 9, &[(DATA, 512, WRITABLE)]);
        guest.frontend.set_inflight_fd(&about, file.as_raw_fd()).unwrap();
        guest.start(1);
        guest.next = 2;
        assert_eq!((0, 513), guest.given_back());
        let mut noted = [0; 32];
        std::os::unix::fs::FileExt::read_exact_at(&file, &mut noted, 0).unwrap();
        assert_eq!((2, 0), (noted[14], noted[16]));
        guest.still_serves();
        // Not while the ring runs, nor a region that is too small.
        failed("BackendInternalError", guest.frontend.set_inflight_fd(&about, file.as_raw_fd()));
        assert_eq!(3, guest.frontend.get_vring_base(0).unwrap());
        let small = VhostUserInflight { mmap_size: 128, ..about };
        failed("BackendInternalError", guest.frontend.set_inflight_fd(&small, file.as_raw_fd()));
    });
}

/// The guest's machine is told by the backend channel, and reads the new size.
#[test]
#[ignore = "needs COVRETIN_DISK"]
fn a_file_that_grows() {
    struct Machine;
    impl VhostUserFrontendReqHandlerMut for Machine {
        fn handle_config_change(&mut self) -> HandlerResult<u64> {
            Ok(0)
        }
    }
    counted(|| {
        let mut guest = Guest::new("grows");
        let mut handler = FrontendReqHandler::new(Arc::new(Mutex::new(Machine))).unwrap();
        guest.frontend.set_backend_request_fd(&handler.get_tx_raw_fd()).unwrap();
        assert_eq!((1, 1), guest.ask(0, SECTORS as u64, &[(DATA, 512, WRITABLE)]));
        File::options().write(true).open(&guest.disk.paths[1]).unwrap().set_len(100 * 512).unwrap();
        assert_eq!(0, handler.handle_request().unwrap());
        let (_, space) = guest.frontend.get_config(0, 8, VhostUserConfigFlags::empty(), &[0; 8]).unwrap();
        assert_eq!(100u64.to_le_bytes(), *space);
        assert_eq!((0, 513), guest.ask(0, 99, &[(DATA, 512, WRITABLE)]));
    });
}

/// A machine that means harm. Then the disk has as many descriptors for the next one as for the first.
fn attacked(name: &str, attack: impl Fn(&Rc<Disk>)) {
    counted(|| {
        let disk = Disk::new(name);
        let serves = || {
            let mut machine = UnixStream::connect(&disk.paths[0]).unwrap();
            disk.wait_until("it serves", || {
                has_reply(&disk, &machine) || {
                    machine = UnixStream::connect(&disk.paths[0]).unwrap();
                    false
                }
            });
            machine
        };
        let first = serves();
        // (who was hung up on just before may still have one)
        let before = (0..100).map(|_| {
            sleep(Duration::from_millis(1));
            disk.fds()
        });
        let before = before.min().unwrap();
        drop(first);
        attack(&disk);
        let next = serves();
        disk.wait_until("it has as many descriptors as before", || disk.fds() <= before);
        drop(next);
        Guest::of(disk).still_serves();
    });
}

/// Lets writes to this file, or reads of it, wait or not: for the disk, too, whose descriptor is of the same open file.
fn set_waiting(file: &File, is_waiting: bool) {
    // SAFETY: it is asked for numbers.
    unsafe {
        let flags = libc::fcntl(file.as_raw_fd(), libc::F_GETFL) & !libc::O_NONBLOCK;
        libc::fcntl(file.as_raw_fd(), libc::F_SETFL, flags | if is_waiting { 0 } else { libc::O_NONBLOCK });
    }
}

/// Its counter has no room, and whoever writes to it waits.
fn fill(mut event: &File) {
    set_waiting(event, false);
    let _ = event.read(&mut [0; 8]);
    event.write_all(&(u64::MAX - 1).to_ne_bytes()).unwrap();
    set_waiting(event, true);
}

/// The ends of a pipe.
fn pipe() -> [File; 2] {
    let mut ends = [0; 2];
    // SAFETY: there is room for two; what is made belongs to nobody else.
    unsafe {
        assert_eq!(0, libc::pipe2(ends.as_mut_ptr(), libc::O_CLOEXEC));
        ends.map(|fd| File::from_raw_fd(fd))
    }
}

/// Those of two sockets.
fn sockets() -> [File; 2] {
    let (end, other) = UnixStream::pair().unwrap();
    [end, other].map(|it| File::from(OwnedFd::from(it)))
}

/// Whoever writes to the second one waits; who reads the first does not.
fn fill_stream([end, mut full]: [File; 2]) -> [File; 2] {
    set_waiting(&end, false);
    set_waiting(&full, false);
    while full.write(&[0; 4096]).is_ok() {}
    set_waiting(&full, true);
    [end, full]
}

#[test]
#[ignore = "needs COVRETIN_DISK"]
fn a_call_that_is_full() {
    attacked("full", |disk| {
        let mut guest = Guest::of(disk.clone());
        fill(&guest.call);
        for sector in 0..3 {
            guest.post(0, sector, &[(DATA, 512, WRITABLE)]);
            assert_eq!((0, 513), guest.used());
        }
        set_waiting(&guest.call, false);
        guest.given_back();
        guest.still_serves();
    });
}

/// Some machines have a pipe, or a socket: it is written to as an eventfd is.
fn serves_by_a_stream(name: &str, ends: fn() -> [File; 2]) {
    attacked(name, |disk| {
        let mut guest = Guest::of(disk.clone());
        let [mut end, call] = fill_stream(ends());
        guest.frontend.set_vring_call(0, &call).unwrap();
        for sector in 0..3 {
            guest.post(0, sector, &[(DATA, 512, WRITABLE)]);
            assert_eq!((0, 513), guest.used());
        }
        let mut bytes = [0; 1 << 16];
        while end.read(&mut bytes).is_ok() {}
        guest.call = end;
        guest.still_serves();
    });
}

#[test]
#[ignore = "needs COVRETIN_DISK"]
fn a_call_that_is_a_pipe() {
    serves_by_a_stream("pipe", pipe);
}

#[test]
#[ignore = "needs COVRETIN_DISK"]
fn a_call_that_is_a_socket() {
    serves_by_a_stream("socket", sockets);
}

/// It is told that it was kicked, and finds no kick: somebody else takes it.
#[test]
#[ignore = "needs COVRETIN_DISK"]
fn a_kick_that_is_taken_back() {
    attacked("kick", |disk| {
        let mut guest = Guest::of(disk.clone());
        set_waiting(&guest.kick, true);
        let (mut kick, is_over) = (guest.kick.try_clone().unwrap(), Arc::new(AtomicBool::new(false)));
        let until = is_over.clone();
        let taker = spawn(move || {
            while !until.load(Ordering::SeqCst) {
                kick.read_exact(&mut [0; 8]).unwrap();
            }
        });
        for _ in 0..3000 {
            guest.kick.write_all(&1u64.to_ne_bytes()).unwrap();
            guest.frontend.get_features().unwrap();
        }
        is_over.store(true, Ordering::SeqCst);
        while !taker.is_finished() {
            guest.kick.write_all(&1u64.to_ne_bytes()).unwrap();
        }
        taker.join().unwrap();
        guest.still_serves();
    });
}

#[test]
#[ignore = "needs COVRETIN_DISK"]
fn no_eventfds() {
    attacked("none", |disk| {
        let mut guest = Guest::of(disk.clone());
        let [end, full] = fill_stream(pipe());
        let [stream, _] = sockets();
        let (socket, _other) = UnixDatagram::pair().unwrap();
        for fd in [&guest.file as &dyn AsRawFd, &socket, &end, &full, &stream] {
            failed("BackendInternalError", guest.frontend.set_vring_kick(0, fd));
        }
        for fd in [&guest.file as &dyn AsRawFd, &socket] {
            failed("BackendInternalError", guest.frontend.set_vring_call(0, fd));
        }
        guest.still_serves();
    });
}

/// A socket whose last descriptor waits for a minute to be closed, and its other end.
fn lingering() -> (File, TcpStream) {
    let listener = TcpListener::bind("127.0.0.1:0").unwrap();
    let mut socket = TcpStream::connect(listener.local_addr().unwrap()).unwrap();
    let (other, _) = listener.accept().unwrap();
    socket.set_nonblocking(true).unwrap();
    while socket.write(&[0; 4096]).is_ok() {}
    let linger = libc::linger { l_onoff: 1, l_linger: 60 };
    // SAFETY: it is one struct, and its size, borrowed for the call.
    unsafe {
        let size = std::mem::size_of_val(&linger) as libc::socklen_t;
        let option = std::ptr::addr_of!(linger).cast();
        assert_eq!(0, libc::setsockopt(socket.as_raw_fd(), libc::SOL_SOCKET, libc::SO_LINGER, option, size));
    }
    (File::from(OwnedFd::from(socket)), other)
}

/// It is refused, and closed without waiting.
#[test]
#[ignore = "needs COVRETIN_DISK"]
fn sockets_that_linger() {
    attacked("lingers", |disk| {
        let mut guest = Guest::of(disk.clone());
        let before = disk.fds();
        let sockets = [lingering(), lingering(), lingering()];
        disk.send(libc::SIGSTOP);
        guest.frontend.set_hdr_flags(VhostUserHeaderFlag::empty());
        guest.frontend.set_vring_kick(0, &sockets[0].0).unwrap();
        guest.frontend.set_vring_call(0, &sockets[1].0).unwrap();
        guest.frontend.set_vring_err(0, &sockets[2].0).unwrap();
        // The disk has the last descriptors.
        let _others = sockets.map(|(_, other)| other);
        disk.send(libc::SIGCONT);
        disk.wait_until("it has closed them", || disk.fds() == before);
        guest.still_serves();
    });
}

/// Its ring is gone.
#[test]
#[ignore = "needs COVRETIN_DISK"]
fn memory_that_is_taken_away() {
    attacked("away", |disk| {
        let mut guest = Guest::of(disk.clone());
        guest.still_serves();
        guest.file.set_len(0).unwrap();
        guest.kick.write_all(&1u64.to_ne_bytes()).unwrap();
        disk.is_hung_up(guest.frontend.as_raw_fd());
        assert!(guest.frontend.get_features().is_err());
    });
}

/// What a request would write is gone: it fails, and no zeros are written in its place.
#[test]
#[ignore = "needs COVRETIN_DISK"]
fn data_that_are_taken_away() {
    attacked("data", |disk| {
        let mut guest = Guest::of(disk.clone());
        let before = guest.image();
        guest.file.set_len(DATA - START).unwrap();
        assert_eq!((1, 1), guest.ask(1, 3, &[(DATA, 512, 0)]));
        assert_eq!(before, guest.image());
    });
}

/// Asks for the features, by hand. Whether a reply came.
fn has_reply(disk: &Disk, mut socket: &UnixStream) -> bool {
    socket.set_nonblocking(true).unwrap();
    // Who was hung up on before cannot ask.
    let _ = socket.write_all(&message(1, ASKS, &[]));
    let mut count = 0;
    disk.wait_until("it replies, or hangs up", || match socket.read(&mut [0; 20]) {
        Ok(read) => {
            count = read;
            true
        }
        Err(error) => error.kind() != ErrorKind::WouldBlock,
    });
    count == 20
}

#[test]
#[ignore = "needs COVRETIN_DISK"]
fn another_machine() {
    attacked("another", |disk| {
        let mut guest = Guest::of(disk.clone());
        for _ in 0..5 {
            assert!(!has_reply(disk, &UnixStream::connect(&disk.paths[0]).unwrap()));
            guest.still_serves();
        }
    });
}

/// Who sent half of a request, or reads no replies, keeps nobody waiting: neither its guest nor another machine.
#[test]
#[ignore = "needs COVRETIN_DISK"]
fn a_machine_that_is_slow() {
    attacked("slow", |disk| {
        let connect = || UnixStream::connect(&disk.paths[0]).unwrap();
        let mut first = connect();
        first.write_all(&message(1, ASKS, &[])[..7]).unwrap();
        assert!(!has_reply(disk, &connect()));
        first.write_all(&message(1, ASKS, &[])[7..]).unwrap();
        disk.wait_until("it replies", || has_come(&first));
        drop(first);
        let mut silent = connect();
        silent.set_nonblocking(true).unwrap();
        disk.wait_until("it hangs up", || match silent.write_all(&message(1, ASKS, &[])) {
            Err(error) => error.kind() != ErrorKind::WouldBlock,
            Ok(()) => false,
        });
    });
}

/// Whether there is something to read.
fn has_come(socket: &UnixStream) -> bool {
    let mut polled = libc::pollfd { fd: socket.as_raw_fd(), events: libc::POLLIN, revents: 0 };
    // SAFETY: one element, borrowed for the call.
    unsafe { libc::poll(&mut polled, 1, 0) == 1 }
}

/// It is served, however fast it comes again.
#[test]
#[ignore = "needs COVRETIN_DISK"]
fn a_machine_that_comes_again() {
    attacked("again", |disk| {
        for _ in 0..300 {
            let mut socket = UnixStream::connect(&disk.paths[0]).unwrap();
            assert!(has_reply(disk, &socket));
            socket.set_nonblocking(false).unwrap();
            socket.write_all(&message(1, ASKS, &[])).unwrap();
        }
    });
}

/// Whose backend channel is full is told nothing of a file that grows, and is served.
#[test]
#[ignore = "needs COVRETIN_DISK"]
fn a_channel_that_is_full() {
    attacked("channel", |disk| {
        let mut guest = Guest::of(disk.clone());
        let (_other, mut mine) = UnixStream::pair().unwrap();
        guest.frontend.set_backend_request_fd(&mine).unwrap();
        mine.set_nonblocking(true).unwrap();
        while mine.write(&[0; 4096]).is_ok() {}
        mine.set_nonblocking(false).unwrap();
        let image = File::options().write(true).open(&disk.paths[1]).unwrap();
        image.set_len(100 * 512).unwrap();
        let size = |guest: &mut Guest| guest.frontend.get_config(0, 8, VhostUserConfigFlags::empty(), &[0; 8]).unwrap().1;
        disk.wait_until("it has the new size", || *size(&mut guest) == 100u64.to_le_bytes());
        guest.still_serves();
        image.set_len((SECTORS * 512) as u64).unwrap();
    });
}
