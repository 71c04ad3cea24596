// SPDX-License-Identifier: Apache-2.0
//! Postcopy, of a device of `covretin::device`: pages come as it touches them, and it waits for none of a frontend that went, or once it was
//! stopped. Where no userfaultfd may be made, nothing is played.
mod common;

use std::fs::File;
use std::io::Read;
use std::os::unix::fs::FileExt;
use std::os::unix::io::{AsRawFd, RawFd};
use std::sync::atomic::{AtomicBool, AtomicUsize, Ordering};
use std::sync::Arc;
use std::thread::{sleep, spawn};
use std::time::Duration;

use common::machine::*;
use common::*;
use covretin::vhost_user::message::{FrontendReq, VhostUserHeaderFlag};
use covretin::vhost_user::VhostUserFrontend;
use covretin::VhostBackend;

const PAGE: u64 = 4096;
/// Of `linux/userfaultfd.h`: a page is copied to its place; whoever waits for one goes on.
const COPY: libc::c_ulong = 0xc028_aa03;
const WAKE: libc::c_ulong = 0x8010_aa02;

fn has_userfault() -> bool {
    // SAFETY: it takes numbers; what is made belongs to nobody else.
    unsafe {
        let fd = libc::syscall(libc::SYS_userfaultfd, libc::O_CLOEXEC) as RawFd;
        fd >= 0 && libc::close(fd) == 0
    }
}

/// A machine whose memory is to come by pages, where the device has it, and what is to come.
struct Arriving {
    machine: Machine,
    userfault: File,
    base: u64,
    source: Vec<u8>,
}

impl Arriving {
    /// What is in the memory comes from now on page by page.
    fn of(mut machine: Machine) -> Arriving {
        let mut source = vec![0; MEMORY as usize];
        machine.memory.read_exact_at(&mut source, 0).unwrap();
        let flags = libc::FALLOC_FL_PUNCH_HOLE | libc::FALLOC_FL_KEEP_SIZE;
        // SAFETY: it takes numbers.
        assert_eq!(0, unsafe { libc::fallocate(machine.memory.as_raw_fd(), flags, 0, MEMORY as libc::off_t) });
        let all = machine.region(0, MEMORY);
        let it = &mut machine.frontend;
        let userfault = it.postcopy_advise().unwrap();
        it.postcopy_listen().unwrap();
        let bases = it.set_mem_table(&[all]).unwrap().unwrap();
        it.postcopy_ack_mem_regions(FrontendReq::SET_MEM_TABLE).unwrap();
        Arriving { machine, userfault, base: bases[0], source }
    }
}

/// Brings a page. (where the guest wrote it meanwhile it is there, and whoever waits has to be woken)
fn copy_page(userfault: RawFd, base: u64, source: &[u8], offset: u64) {
    let from = source[offset as usize..].as_ptr() as u64;
    let mut copy = [base + offset, from, PAGE, 0, 0];
    let mut page = [base + offset, PAGE];
    // SAFETY: the structs are made of so many numbers, borrowed for the calls; a page is there to be copied.
    unsafe {
        while libc::ioctl(userfault, COPY as _, copy.as_mut_ptr()) != 0 && *libc::__errno_location() == libc::EAGAIN {}
        libc::ioctl(userfault, WAKE as _, page.as_mut_ptr());
    }
}

#[test]
fn takes_pages_as_they_come() {
    if !has_userfault() {
        return;
    }
    counted(|| {
        let mut machine = Machine::of(0);
        machine.negotiate_without_memory(0);
        let mut ring = Ring::of(&machine, 0);
        ring.write_request(0, "arrives");
        let Arriving { mut machine, userfault, base, source } = Arriving::of(machine);
        let (source, is_over, waited) = (Arc::new(source), Arc::new(AtomicBool::new(false)), Arc::new(AtomicUsize::new(0)));
        let (pages, over, count, mut faults) = (source.clone(), is_over.clone(), waited.clone(), userfault.try_clone().unwrap());
        let bringing = spawn(move || {
            while !over.load(Ordering::SeqCst) {
                let mut fault = [0; 32];
                if is_readable(faults.as_raw_fd(), 10) && faults.read(&mut fault).map_or(0, |count| count) == 32 {
                    // (the address of a `struct uffd_msg` of a fault)
                    let address = u64::from_ne_bytes(fault[16..24].try_into().unwrap());
                    copy_page(faults.as_raw_fd(), base, &pages, (address - base) / PAGE * PAGE);
                    count.fetch_add(1, Ordering::SeqCst);
                }
            }
        });
        ring.start(&mut machine.frontend, 0);
        ring.post(0);
        assert_eq!((0, 7), ring.used());
        assert_eq!("ARRIVES", ring.text(0, 7));
        (0..MEMORY / PAGE).for_each(|page| copy_page(userfault.as_raw_fd(), base, &source, page * PAGE));
        machine.frontend.postcopy_end().unwrap();
        is_over.store(true, Ordering::SeqCst);
        bringing.join().unwrap();
        assert!(waited.load(Ordering::SeqCst) >= 2); // descriptors and buffers, if no more
        ring.post(0);
        assert_eq!((0, 7), ring.used());
        failed("BackendInternalError", machine.frontend.postcopy_end());
        machine.end();
    });
}

/// The device waits for a page that does not come, as it begins a ring.
fn waiting_for_a_page() -> (Machine, File) {
    let mut machine = Machine::of(0);
    machine.negotiate_without_memory(0);
    let ring = Ring::of(&machine, 0);
    let Arriving { mut machine, userfault, .. } = Arriving::of(machine);
    let it = &mut machine.frontend;
    it.set_vring_num(0, SIZE).unwrap();
    it.set_vring_addr(0, &ring.config(None)).unwrap();
    it.set_hdr_flags(VhostUserHeaderFlag::empty());
    it.set_vring_kick(0, &ring.kick).unwrap();
    assert!(is_readable(userfault.as_raw_fd(), LIMIT as i32));
    (machine, userfault)
}

#[test]
fn waits_for_no_page_of_who_went() {
    if !has_userfault() {
        return;
    }
    counted(|| {
        let (machine, _userfault) = waiting_for_a_page();
        let Machine { device, frontend, looping, .. } = machine;
        drop(frontend);
        assert_eq!("MemoryLost", looping.join().unwrap());
        assert_eq!(vec!["MemoryLost"], device.has(|its| its.ended.clone()));
    });
}

#[test]
fn stops_while_it_waits_for_a_page() {
    if !has_userfault() {
        return;
    }
    counted(|| {
        let (machine, _userfault) = waiting_for_a_page();
        sleep(Duration::from_millis(20));
        machine.stopper.stop();
        machine.ends_by("Stopped");
    });
}
