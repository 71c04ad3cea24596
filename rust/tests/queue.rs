// SPDX-License-Identifier: Apache-2.0
//! A queue of `covretin::queue` by itself, in memory of a file: chains of either layout are popped and used; what a guest does wrong is
//! refused, by its name.
mod common;

use std::fs::File;
use std::io::{Read, Write};
use std::os::unix::fs::FileExt;

use common::*;
use covretin::queue::{DirtyLog, Error, GuestAddress, GuestMemory, GuestRegion, InflightRegion, Queue, VolatileSlice};
use covretin::vhost_user::message::*;

/// Where the guest has its memory, and the frontend; and how much of it there is.
const GUEST: u64 = 0x10_0000;
const USER: u64 = 0x7000_0000;
const SIZE: u64 = 0x1_0000;

const NEXT: u16 = 1;
const WRITE: u16 = 2;
const INDIRECT: u16 = 4;

/// A queue of four: descriptors at 0, the available ring at 0x100, the used ring at 0x200; of a packed one the ring at 0, the driver's area at
/// 0x100, the device's at 0x200.
struct Played {
    file: File,
    memory: GuestMemory,
    queue: Queue,
}

impl Played {
    fn new(is_packed: bool) -> Played {
        let file = memory_file();
        file.set_len(SIZE).unwrap();
        let region = GuestRegion::map(&VhostUserMemoryRegion::new(GUEST, SIZE, USER, 0), &file).unwrap();
        let memory = GuestMemory::from_regions([region]).unwrap();
        let mut queue = Queue::new(256).unwrap();
        queue.set_memory(&memory).unwrap();
        queue.set_size(4).unwrap();
        queue.set_desc_table_address(USER);
        queue.set_avail_ring_address(USER + 0x100);
        queue.set_used_ring_address(USER + 0x200);
        queue.set_packed(is_packed);
        queue.set_indirect(true);
        Played { file, memory, queue }
    }

    fn split() -> Played {
        let mut it = Played::new(false);
        it.queue.set_ready(true).unwrap();
        it
    }

    fn put(&self, at: u64, bytes: &[u8]) {
        self.file.write_all_at(bytes, at).unwrap();
    }

    fn put16(&self, at: u64, value: u16) {
        self.put(at, &value.to_le_bytes());
    }

    fn get16(&self, at: u64) -> u16 {
        let mut bytes = [0; 2];
        self.file.read_exact_at(&mut bytes, at).unwrap();
        u16::from_le_bytes(bytes)
    }

    fn describe(&self, at: u64, (addr, len, third, fourth): (u64, u32, u16, u16)) {
        self.put(at, &addr.to_le_bytes());
        self.put(at + 8, &len.to_le_bytes());
        self.put16(at + 12, third);
        self.put16(at + 14, fourth);
    }

    /// A head in the available ring of a split queue.
    fn offer(&self, head: u16) {
        let index = self.get16(0x102);
        self.put16(0x104 + u64::from(index % 4) * 2, head);
        self.put16(0x102, index.wrapping_add(1));
    }
}

fn lengths(parts: &[VolatileSlice<'_>]) -> Vec<usize> {
    parts.iter().map(VolatileSlice::len).collect()
}

#[test]
fn chains_of_a_split_queue() {
    counted(|| {
        let mut it = Played::new(false);
        assert_eq!(Err(Error::NotStarted), it.queue.pop().map(drop));
        it.queue.set_event_idx(true);
        it.queue.set_ready(true).unwrap();
        assert!(it.queue.pop().unwrap().is_none());
        it.put(0x1000, b"sixteen bytes of");
        it.describe(0, (GUEST + 0x1000, 16, NEXT, 2));
        it.describe(32, (GUEST + 0x2000, 32, INDIRECT, 0));
        it.describe(0x2000, (GUEST + 0x3000, 512, NEXT | WRITE, 1));
        it.describe(0x2010, (GUEST + 0x4000, 1, WRITE, 0));
        it.offer(0);
        let mut chain = it.queue.pop().unwrap().unwrap();
        assert_eq!((0, vec![16], vec![512, 1]), (chain.head_index(), lengths(chain.readable()), lengths(chain.writable())));
        // What was popped is what it was, and its bytes are the guest's.
        it.describe(0, (0, 0, 0, 0));
        it.put(0x1000, b"s");
        let mut bytes = [0; 20];
        assert_eq!(7, chain.read(&mut bytes[..7]).unwrap());
        assert_eq!(9, chain.read(&mut bytes[7..]).unwrap());
        assert_eq!(0, chain.read(&mut bytes).unwrap());
        assert_eq!(b"sixteen bytes of", &bytes[..16]);
        assert_eq!((0, 513), (chain.readable_len(), chain.writable_len()));
        chain.write_all(&[7; 513]).unwrap();
        assert_eq!(0, chain.write(&[7]).unwrap());
        it.queue.add_used(&chain, 513).unwrap();
        assert_eq!(Err(Error::NotHandedOut), it.queue.add_used(&chain, 513));
        assert_eq!((1, 0, 513), (it.get16(0x202), it.get16(0x204), it.get16(0x208)));
        let mut written = [0; 513];
        it.file.read_exact_at(&mut written[..512], 0x3000).unwrap();
        it.file.read_exact_at(&mut written[512..], 0x4000).unwrap();
        assert_eq!([7; 513], written);
        it.put16(0x10c, 0);
        assert!(it.queue.needs_notification().unwrap());
        assert!(!it.queue.needs_notification().unwrap());
        assert!(!it.queue.enable_notification().unwrap());
        assert_eq!(1, it.get16(0x224)); // it wants to be told of the second
        it.offer(0);
        assert!(it.queue.enable_notification().unwrap());
        it.queue.disable_notification().unwrap();
        it.queue.set_ready(false).unwrap();
        assert_eq!((1, 1, false), (it.queue.next_avail(), it.queue.base(), it.queue.ready()));
    });
}

/// A chain of more descriptors than are copied at once, in an indirect table.
#[test]
fn a_chain_of_many_descriptors() {
    counted(|| {
        for is_packed in [false, true] {
            let mut it = Played::new(is_packed);
            it.queue.set_ready(true).unwrap();
            for at in 0..150u16 {
                let flags = if at < 100 { 0 } else { WRITE } | if at < 149 { NEXT } else { 0 };
                let (third, fourth) = if is_packed { (0, flags) } else { (flags, at + 1) };
                it.describe(0x2000 + u64::from(at) * 16, (GUEST + 0x4000 + u64::from(at), 1, third, fourth));
            }
            let (third, fourth) = if is_packed { (2, 0x80 | INDIRECT) } else { (INDIRECT, 0) };
            it.describe(0, (GUEST + 0x2000, 150 * 16, third, fourth));
            if !is_packed {
                it.offer(0);
            }
            let chain = it.queue.pop().unwrap().unwrap();
            assert_eq!((100, 50), (chain.readable_len(), chain.writable_len()));
            assert_eq!((vec![1; 100], vec![1; 50]), (lengths(chain.readable()), lengths(chain.writable())));
            it.queue.add_used(&chain, 50).unwrap();
        }
    });
}

#[test]
fn chains_come_one_after_another() {
    counted(|| {
        let mut it = Played::split();
        for head in 0..3 {
            it.describe(u64::from(head) * 16, (GUEST + 0x1000, 16 + u32::from(head), 0, 0));
            it.offer(head);
        }
        let chains: Result<Vec<_>, Error> = it.queue.iter().collect();
        let chains = chains.unwrap();
        assert_eq!(vec![vec![16], vec![17], vec![18]], chains.iter().map(|it| lengths(it.readable())).collect::<Vec<_>>());
        for chain in chains.iter().rev() {
            it.queue.add_used(chain, 0).unwrap();
        }
        assert_eq!((3, 2), (it.get16(0x202), it.get16(0x204)));
        it.describe(48, (0, 1, 0, 0));
        it.offer(3);
        it.offer(0);
        let popped: Vec<_> = it.queue.iter().map(|chain| chain.map(drop)).collect();
        assert_eq!(vec![Err(Error::NotInGuest)], popped);
        assert!(it.queue.needs_reset());
        assert_eq!(Err(Error::NeedsReset), it.queue.pop().map(drop));
        it.queue.reset();
        assert_eq!((0, 0, false), (it.queue.size(), it.queue.base(), it.queue.needs_reset()));
    });
}

#[test]
fn chains_of_a_packed_queue() {
    counted(|| {
        let mut it = Played::new(true);
        it.queue.set_event_idx(true);
        assert_eq!((0x8000, 0x8000_8000), (it.queue.next_avail(), it.queue.base()));
        it.queue.set_size(3).unwrap();
        it.queue.set_ready(true).unwrap();
        it.describe(16, (GUEST + 0x2000, 512, 2, 0x80 | WRITE));
        it.describe(0, (GUEST + 0x1000, 16, 0, 0x80 | NEXT));
        let chain = it.queue.pop().unwrap().unwrap();
        assert_eq!((2, vec![16], vec![512]), (chain.head_index(), lengths(chain.readable()), lengths(chain.writable())));
        assert!(it.queue.pop().unwrap().is_none());
        it.queue.add_used(&chain, 512).unwrap();
        assert_eq!((512, 2, 0x8082), (it.get16(8), it.get16(12), it.get16(14)));
        it.put16(0x100, 0x8000);
        it.put16(0x102, 2);
        assert!(it.queue.needs_notification().unwrap());
        assert!(!it.queue.enable_notification().unwrap());
        assert_eq!((0x8002, 2), (it.get16(0x200), it.get16(0x202)));
        it.queue.set_ready(false).unwrap();
        assert_eq!(0x8002_8002, it.queue.base());
        it.queue.set_next_avail(0x8005);
        assert_eq!(Err(Error::InvalidBase), it.queue.set_ready(true));
        it.queue.set_next_avail(0x8001);
        it.queue.set_next_used(0x8001);
        assert_eq!(0x8001_8001, it.queue.base());
        it.queue.set_ready(true).unwrap();
    });
}

/// Where a queue can not begin, and sizes that it can not have.
#[test]
fn places_that_are_none() {
    counted(|| {
        assert_eq!(Err(Error::InvalidSize), Queue::new(0).map(drop));
        assert_eq!(Err(Error::InvalidSize), Queue::new(0x8001).map(drop));
        let mut it = Played::new(false);
        assert_eq!(Err(Error::InvalidSize), it.queue.set_size(257));
        it.queue.set_size(12).unwrap();
        assert_eq!(Err(Error::InvalidSize), it.queue.set_ready(true));
        it.queue.set_size(4).unwrap();
        it.queue.set_desc_table_address(USER + 8);
        assert_eq!(Err(Error::Unaligned), it.queue.set_ready(true));
        it.queue.set_desc_table_address(USER + SIZE - 32);
        assert_eq!(Err(Error::NotInGuest), it.queue.set_ready(true));
        it.queue.set_desc_table_address(USER);
        it.queue.set_ready(true).unwrap();
        // It goes on elsewhere.
        it.put16(0x8102, 1);
        it.describe(0x8000, (GUEST, 1, 0, 0));
        it.queue.set_desc_table_address(USER + 0x8000);
        it.queue.set_avail_ring_address(USER + 0x8100);
        it.queue.set_used_ring_address(USER + 0x8200);
        it.queue.find_rings();
        assert_eq!(vec![1], lengths(it.queue.pop().unwrap().unwrap().readable()));
        // Nowhere, and there again.
        let none = GuestMemory::from_regions([]).unwrap();
        it.queue.set_memory(&none).unwrap();
        it.put16(0x8102, 2);
        assert!(it.queue.pop().unwrap().is_none());
        it.queue.set_memory(&it.memory).unwrap();
        assert_eq!(Err(Error::HeadInUse), it.queue.pop().map(drop));
    });
}

/// A buffer that lies in regions that adjoin is a part of each.
#[test]
fn a_buffer_in_two_regions() {
    counted(|| {
        for is_packed in [false, true] {
            let mut it = Played::new(is_packed);
            let map =
                |at, size, user| GuestRegion::map(&VhostUserMemoryRegion::new(GUEST + at, size, user, at), &it.file).unwrap();
            let memory = GuestMemory::from_regions([map(0, 0x2000, USER), map(0x2000, SIZE - 0x2000, USER + SIZE)]).unwrap();
            it.queue.set_memory(&memory).unwrap();
            it.queue.set_ready(true).unwrap();
            it.put(0x1ff8, b"sixteen bytes of");
            if is_packed {
                it.describe(16, (GUEST + 0x1fff, 512, 3, 0x80 | WRITE));
                it.describe(0, (GUEST + 0x1ff8, 16, 3, 0x80 | NEXT));
            } else {
                it.describe(0, (GUEST + 0x1ff8, 16, NEXT, 1));
                it.describe(16, (GUEST + 0x1fff, 512, WRITE, 0));
                it.offer(0);
            }
            let mut chain = it.queue.pop().unwrap().unwrap();
            assert_eq!((vec![8, 8], vec![1, 511]), (lengths(chain.readable()), lengths(chain.writable())));
            let mut bytes = [0; 16];
            chain.read_exact(&mut bytes).unwrap();
            assert_eq!(b"sixteen bytes of", &bytes);
            chain.write_all(&[7; 512]).unwrap();
            it.queue.add_used(&chain, 512).unwrap();
            let mut written = [0; 512];
            it.file.read_exact_at(&mut written, 0x1fff).unwrap();
            assert_eq!([7; 512], written);
            assert!(it.queue.pop().unwrap().is_none());
        }
    });
}

#[test]
fn regions_and_their_bytes() {
    counted(|| {
        let file = memory_file();
        file.set_len(0x5000).unwrap();
        let map = |guest, size, user, offset| GuestRegion::map(&VhostUserMemoryRegion::new(guest, size, user, offset), &file);
        let first = map(GUEST, 0x1000, USER, 0x123).unwrap(); // (it need not begin at a page)
        let second = map(GUEST + 0x1000, 0x2000, USER + 0x8000, 0x2000).unwrap();
        let memory = GuestMemory::from_regions([first.clone()]).unwrap().insert_region(second).unwrap();
        assert_eq!((2, 0x2000), (memory.num_regions(), memory.find_region(GuestAddress(GUEST + 0x2fff)).unwrap().len()));
        assert!(memory.find_region(GuestAddress(GUEST + 0x3000)).is_none() && !memory.address_in_range(GuestAddress(GUEST - 1)));
        assert!(memory.check_range(GuestAddress(GUEST), 0x1000) && !memory.check_range(GuestAddress(GUEST), 0x1001));
        assert_eq!(Ok(GuestAddress(GUEST + 0x1010)), memory.translate(USER + 0x8010, 8));
        assert_eq!(Err(Error::NotInGuest), memory.translate(USER + 0xa000, 1));
        file.write_all_at(b"and so on, and on", 0x123 + 3).unwrap();
        let bytes = memory.get_slice(GuestAddress(GUEST + 3), 17).unwrap();
        let mut read = [0; 32];
        assert_eq!(17, bytes.copy_to(&mut read));
        assert_eq!(b"and so on, and on", &read[..17]);
        assert_eq!(3, bytes.subslice(4, 2).unwrap().copy_from(b"SO") + 1);
        assert_eq!(13, bytes.offset(4).unwrap().copy_to(&mut read));
        assert_eq!(b"SO on, and on", &read[..13]);
        assert!(bytes.subslice(10, 8).is_err() && bytes.offset(18).is_err() && bytes.offset(17).unwrap().is_empty());
        assert_eq!(Err(Error::RegionOverlap), memory.insert_region(first).map(drop));
        assert_eq!(Err(Error::NoSuchRegion), memory.remove_region(GuestAddress(GUEST), USER, 0x2000).map(drop));
        assert_eq!(1, memory.remove_region(GuestAddress(GUEST), USER, 0x1000).unwrap().num_regions());
        assert!(map(GUEST, 0x1000, USER, 0x4001).is_err() && map(GUEST, 0, USER, 0).is_err());
    });
}

/// What is written is logged, and what was not given back is found again.
#[test]
fn a_log_and_an_inflight_region() {
    counted(|| {
        let mut it = Played::new(false);
        let (about, kept) = InflightRegion::create(2, 4).unwrap();
        let inflight = InflightRegion::map(&about, &kept).unwrap();
        assert_eq!((256, 2, 4), (about.mmap_size, about.num_queues, about.queue_size));
        let log = memory_file();
        log.set_len(0x100).unwrap();
        it.queue.set_log(Some(DirtyLog::map(&VhostUserLog::new(0x100, 0), &log).unwrap()), Some(GuestAddress(GUEST + 0x200)));
        it.queue.start_with(&inflight, 1).unwrap();
        for head in [2, 0, 1] {
            it.describe(u64::from(head) * 16, (GUEST + 0x3000 + u64::from(head) * 0x1000, 16, WRITE, 0));
            it.offer(head);
        }
        let chains: Vec<_> = it.queue.iter().map(Result::unwrap).collect();
        it.queue.add_used(&chains[1], 16).unwrap();
        let mut bits = [0; 0x100];
        log.read_exact_at(&mut bits, 0).unwrap();
        let pages: Vec<u64> = (0..0x800).filter(|page| bits[*page as usize / 8] & 1 << (page % 8) != 0).collect();
        assert_eq!(vec![GUEST / 4096, GUEST / 4096 + 3], pages);
        drop(chains);

        let mut next = Played { queue: Queue::new(256).unwrap(), file: it.file, memory: it.memory };
        next.queue.set_memory(&next.memory).unwrap();
        next.queue.set_size(4).unwrap();
        next.queue.set_desc_table_address(USER);
        next.queue.set_avail_ring_address(USER + 0x100);
        next.queue.set_used_ring_address(USER + 0x200);
        next.queue.start_with(&InflightRegion::map(&about, &kept).unwrap(), 1).unwrap();
        let again: Vec<_> = next.queue.iter().map(Result::unwrap).collect();
        assert_eq!(vec![(2, true), (1, true)], again.iter().map(|it| (it.head_index(), it.is_again())).collect::<Vec<_>>());
        let small = VhostUserInflight { mmap_size: 255, ..about };
        assert!(InflightRegion::map(&small, &kept).is_err());
    });
}

/// A packed queue has three requests in a ring of six, of which the second is used first: that overwrites a descriptor of the first. A device
/// ends amid the use of the first, before it told of it; and the next one takes the first and the third again, by what was kept of them.
#[test]
fn what_is_left_in_a_packed_ring() {
    counted(|| {
        let mut it = Played::new(true);
        it.queue.set_size(6).unwrap();
        let (about, kept) = InflightRegion::create_packed(2, 6).unwrap();
        assert_eq!((512, 2, 6), (about.mmap_size, about.num_queues, about.queue_size));
        it.queue.start_with(&InflightRegion::map_packed(&about, &kept).unwrap(), 1).unwrap();
        for (at, id) in [(0, 5), (2, 1), (4, 3)] {
            it.describe(at * 16, (GUEST + 0x1000, 16 + at as u32, id, 0x80 | NEXT));
            it.describe(at * 16 + 16, (GUEST + 0x2000, 512, id, 0x80 | WRITE));
        }
        let chains: Vec<_> = it.queue.iter().map(Result::unwrap).collect();
        it.queue.add_used(&chains[1], 512).unwrap();
        assert_eq!((512, 1, 0x8082), (it.get16(8), it.get16(12), it.get16(14)));
        drop(chains);
        // The first is given back: its last entry links to the free list, which begins with it, and the place has gone on. Nobody was told.
        kept.write_all_at(&2u16.to_le_bytes(), 256 + 32 + 32 + 2).unwrap();
        kept.write_all_at(&0u16.to_le_bytes(), 256 + 12).unwrap();
        kept.write_all_at(&4u16.to_le_bytes(), 256 + 16).unwrap();

        let mut next = Played::new(true);
        next.file.write_all_at(&[0; 16], 0).unwrap();
        let mut ring = [0; 96];
        it.file.read_exact_at(&mut ring, 0).unwrap();
        next.put(0, &ring);
        next.queue.set_size(6).unwrap();
        assert!(InflightRegion::map_packed(&VhostUserInflight { mmap_size: 511, ..about }, &kept).is_err());
        let inflight = InflightRegion::map_packed(&about, &kept).unwrap();
        next.queue.start_with(&inflight, 1).unwrap();
        let again: Vec<_> = next.queue.iter().map(Result::unwrap).collect();
        let found: Vec<_> =
            again.iter().map(|it| (it.head_index(), it.is_again(), lengths(it.readable()), it.writable_len())).collect();
        assert_eq!(vec![(5, true, vec![16], 512), (3, true, vec![20], 512)], found);
        next.queue.add_used(&again[1], 1).unwrap();
        next.queue.add_used(&again[0], 1).unwrap();
        assert_eq!([3, 0x8082, 5, 0x8082], [44, 46, 76, 78].map(|at| next.get16(at)));
        next.queue.set_ready(false).unwrap();
        assert_eq!(0, next.queue.base());
        // All is free, so there is nothing to be taken again. The region of another layout has no part of it.
        next.queue.start_with(&inflight, 1).unwrap();
        assert_eq!((0, true), (next.queue.base(), next.queue.pop().unwrap().is_none()));
        kept.write_all_at(&6u16.to_le_bytes(), 256 + 16).unwrap();
        kept.write_all_at(&6u16.to_le_bytes(), 256 + 18).unwrap();
        assert_eq!(Err(Error::InvalidInflight), next.queue.start_with(&inflight, 1));
        next.queue.start_with(&InflightRegion::map(&about, &kept).unwrap(), 1).unwrap();
    });
}

/// A packed queue goes on elsewhere, or nowhere, and there again; a chain that was found and not taken is found again.
#[test]
fn a_packed_queue_moves() {
    counted(|| {
        let mut it = Played::new(true);
        it.queue.set_ready(true).unwrap();
        it.describe(0, (GUEST + 0x1000, 16, 2, 0x80));
        assert!(it.queue.enable_notification().unwrap());
        it.describe(0x8000, (GUEST + 0x1000, 17, 1, 0x80));
        it.queue.set_desc_table_address(USER + 0x8000);
        it.queue.find_rings();
        let chain = it.queue.pop().unwrap().unwrap();
        assert_eq!((1, vec![17]), (chain.head_index(), lengths(chain.readable())));
        it.queue.set_memory(&GuestMemory::from_regions([]).unwrap()).unwrap();
        it.describe(0x8010, (GUEST + 0x1000, 18, 2, 0x80));
        assert!(it.queue.pop().unwrap().is_none());
        it.queue.set_memory(&it.memory).unwrap();
        assert_eq!(vec![18], lengths(it.queue.pop().unwrap().unwrap().readable()));
        it.queue.add_used(&chain, 0).unwrap();
        assert_eq!((1, 0x8080), (it.get16(0x800c), it.get16(0x800e)));
    });
}

/// Memory of vm-memory's is seen here, and the reverse; what is of no memory file is not mapped, nor of another one.
#[cfg(feature = "vm-memory")]
#[test]
fn memory_is_shared_with_vm_memory() {
    use vm_memory::{Bytes, FileOffset, GuestMemory as _, GuestMemoryMmap, GuestRegionMmap, MmapRegion, VolatileMemory};
    counted(|| {
        let (file, start) = (memory_file(), vm_memory::GuestAddress(GUEST));
        file.set_len(2 * SIZE).unwrap();
        let place = FileOffset::new(file.try_clone().unwrap(), 0x1000);
        let theirs: GuestMemoryMmap = GuestMemoryMmap::from_ranges_with_files([(start, SIZE as usize, Some(place))]).unwrap();
        let regions: Vec<GuestRegion> = theirs.iter().map(|it| GuestRegion::from_guest_region(it).unwrap()).collect();
        let host = theirs.iter().next().unwrap().as_ptr() as u64;
        let memory = GuestMemory::from_regions(regions).unwrap();
        assert_eq!(Ok(GuestAddress(GUEST + 5)), memory.translate(host + 5, 4));
        theirs.write_slice(b"over", vm_memory::GuestAddress(GUEST + 5)).unwrap();
        let mut bytes = [0; 4];
        memory.get_slice(GuestAddress(GUEST + 5), 4).unwrap().copy_to(&mut bytes);
        assert_eq!(b"over", &bytes);

        let region = memory.iter().next().unwrap();
        let again: MmapRegion<()> = region.mmap_region(file.try_clone().unwrap()).unwrap();
        assert_eq!(SIZE as usize, again.len());
        again.get_slice(5, 4).unwrap().copy_from(b"back");
        region.as_volatile_slice().offset(5).unwrap().copy_to(&mut bytes);
        assert_eq!(b"back", &bytes);

        let other = memory_file();
        other.set_len(2 * SIZE).unwrap();
        let wrong = region.mmap_region::<()>(other).map(drop).map_err(|cause| cause.kind());
        assert_eq!(Err(std::io::ErrorKind::InvalidInput), wrong);
        let of_no_file: GuestRegionMmap<()> = GuestRegionMmap::new(MmapRegion::new(SIZE as usize).unwrap(), start).unwrap();
        assert_eq!(std::io::ErrorKind::InvalidInput, GuestRegion::from_guest_region(&of_no_file).unwrap_err().kind());
    });
}
