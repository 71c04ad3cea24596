// SPDX-License-Identifier: Apache-2.0
//! What each call does, with a driver that keeps the rules.
mod common;

use std::io::{ErrorKind, Read, Write};
use std::ops::Deref;
use std::sync::atomic::Ordering;
use std::sync::{Arc, Mutex, RwLock};
use std::thread;

use common::*;
use virtio_queue::mock::{MockError, MockSplitQueue};
use virtio_queue::{desc, DescriptorChain, Error, Queue, QueueOwnedT, QueueState, QueueSync, QueueT, Reader, Writer};
use vm_memory::bitmap::AtomicBitmap;
use vm_memory::iommu::{Error as IommuError, Iommu, IommuMemory, Iotlb, IotlbIterator, IovaRange};
use vm_memory::{Bytes, GuestAddress, GuestMemoryBackend, GuestMemoryMmap, Permissions};

fn heads(queue: &mut Queue, mem: &Memory) -> Vec<u16> {
    queue.iter(mem).unwrap().map(|chain| chain.head_index()).collect()
}

#[test]
fn what_a_queue_is_told() {
    for size in [0, 3, 0x8001, 0xffff] {
        assert_eq!(Some(Error::InvalidMaxSize), Queue::new(size).err(), "{size}");
    }
    let (mem, mut queue) = (memory(), Queue::new(0x8000).unwrap());
    assert_eq!((0x8000, 0x8000, false), (queue.max_size(), queue.size(), queue.ready()));
    assert_eq!(Some(Error::QueueNotReady), queue.iter(&mem).err());
    for size in [0, 12, 0xffff] {
        assert_eq!(Err(Error::InvalidSize), queue.try_set_size(size));
        queue.set_size(size);
    }
    queue.set_size(16);
    queue.set_desc_table_address(Some(0x1008), None);
    assert_eq!((16, 0), (queue.size(), queue.desc_table()));
    assert_eq!(Err(Error::InvalidDescTableAlign), queue.try_set_desc_table_address(GuestAddress(8)));
    assert_eq!(Err(Error::InvalidAvailRingAlign), queue.try_set_avail_ring_address(GuestAddress(1)));
    assert_eq!(Err(Error::InvalidUsedRingAlign), queue.try_set_used_ring_address(GuestAddress(2)));
    place(&mut queue);
    queue.set_desc_table_address(None, Some(7));
    queue.set_desc_table_address(Some(0x10), None);
    assert_eq!((7 << 32 | 0x10, AVAIL, USED), (queue.desc_table(), queue.avail_ring(), queue.used_ring()));
    place(&mut queue);
    assert!(!queue.is_valid(&mem));
    queue.set_ready(true);
    assert!(queue.is_valid(&mem));
    for (desc, avail, used) in [(0x1ff10, AVAIL, USED), (DESC, 0x1ffdc, USED), (DESC, AVAIL, 0x1ff7c)] {
        let state = QueueState { desc_table: desc, avail_ring: avail, used_ring: used, ..queue.state() };
        assert!(!Queue::try_from(state).unwrap().is_valid(&mem), "{state:?}");
    }
    queue.set_event_idx(true);
    queue.set_next_avail(7);
    queue.set_next_used(5);
    let state = queue.state();
    assert_eq!((true, 7, 5), (queue.event_idx_enabled(), queue.next_avail(), queue.next_used()));
    assert_eq!(queue, Queue::try_from(state).unwrap());
    assert!(format!("{queue:?}").contains("next_avail: 7"), "{queue:?}");
    let refused = |state| Queue::try_from(state).err();
    assert_eq!(Some(Error::InvalidSize), refused(QueueState { size: 3, ..state }));
    assert_eq!(Some(Error::InvalidMaxSize), refused(QueueState { max_size: 3, ..state }));
    assert_eq!(Some(Error::InvalidDescTableAlign), refused(QueueState { desc_table: 8, ..state }));
    assert_eq!(Some(Error::InvalidAvailRingAlign), refused(QueueState { avail_ring: 1, ..state }));
    assert_eq!(Some(Error::InvalidUsedRingAlign), refused(QueueState { used_ring: 2, ..state }));
    queue.reset();
    assert_eq!(Queue::new(0x8000).unwrap().state(), queue.state());
    assert_eq!(Queue::default().state(), QueueState::default());
}

/// Each part is where it was described, and what is used stands in the used ring.
#[test]
fn chains_of_both_tables() {
    let (mem, mut queue) = (memory(), queue());
    describe(&mem, DESC, 3, (BUFFER, 16, NEXT, 5));
    describe(&mem, DESC, 5, (TABLE, 32, INDIRECT, 0));
    describe(&mem, TABLE, 0, (0x6000, 8, NEXT | WRITE, 1));
    describe(&mem, TABLE, 1, (0x7000, 4, WRITE, 0));
    assert!(queue.pop_descriptor_chain(&mem).is_none());
    offer(&mem, &[3]);
    let chain = queue.pop_descriptor_chain(&mem).unwrap();
    // (what the driver writes from now on is not read)
    describe(&mem, DESC, 3, (0, 0, 0, 0));
    assert_eq!((3, 1), (chain.head_index(), queue.next_avail()));
    assert_eq!(vec![(BUFFER, 16), (0x6000, 8), (0x7000, 4)], parts(chain.clone()));
    let flags =
        |it: desc::split::Descriptor| (it.flags(), it.next(), it.has_next(), it.is_write_only(), it.refers_to_indirect_table());
    let all = vec![(NEXT, 5, true, false, false), (3, 1, true, true, false), (2, 0, false, true, false)];
    assert_eq!(all, chain.clone().map(flags).collect::<Vec<_>>());
    assert_eq!(vec![16], chain.clone().readable().map(|it| it.len()).collect::<Vec<_>>());
    assert_eq!(vec![8, 4], chain.clone().writable().map(|it| it.len()).collect::<Vec<_>>());
    assert_eq!(3, chain.memory().num_regions());
    queue.add_used(&mem, 3, 12).unwrap();
    assert_eq!(((3, 12, 1), 1), (used(&mem, &queue, 0), queue.next_used()));
    for head in [3, 4, 16, 0xffff] {
        assert_eq!(Err(Error::InvalidDescriptorIndex), queue.add_used(&mem, head, 0));
    }
    assert_eq!((3, 12, 1), used(&mem, &queue, 0));
}

/// More descriptors than a chain has room for in itself, of a table that lies in two regions.
#[test]
fn a_long_chain() {
    let (mem, mut queue) = (memory(), queue());
    let table = 0x10000 - 50 * 16;
    (0..100).for_each(|at| describe(&mem, table, at, (BUFFER + u64::from(at), 1, NEXT * u16::from(at < 99), at + 1)));
    describe(&mem, DESC, 0, (table, 1600, INDIRECT, 0));
    offer(&mem, &[0]);
    let chain = queue.pop_descriptor_chain(&mem).unwrap();
    assert_eq!((0..100).map(|at| (BUFFER + at, 1)).collect::<Vec<_>>(), parts(chain.clone()));
    assert_eq!(100, Reader::new(&mem, chain).unwrap().available_bytes());
}

#[test]
fn a_chain_outlives_its_queue() {
    let (mem, mut queue) = (Arc::new(memory()), queue());
    describe(&*mem, DESC, 0, (BUFFER, 16, 0, 0));
    offer(&*mem, &[0]);
    let chain = queue.pop_descriptor_chain(mem.clone()).unwrap();
    drop((queue, mem));
    assert_eq!(vec![(BUFFER, 16)], thread::spawn(move || parts(chain)).join().unwrap());
}

/// A chain of 48 bytes to be read, from one region into the next, and 40 to be written.
fn a_request<'a>(mem: &'a Memory, queue: &mut Queue) -> DescriptorChain<&'a Memory> {
    describe(mem, DESC, 0, (0xfff0, 32, NEXT, 1));
    describe(mem, DESC, 1, (0x40000, 16, NEXT, 2));
    describe(mem, DESC, 2, (0x6000, 8, NEXT | WRITE, 3));
    describe(mem, DESC, 3, (0x1fff0, 16, NEXT | WRITE, 4));
    describe(mem, DESC, 4, (0x7000, 16, WRITE, 0));
    let bytes: Vec<u8> = (0..48).collect();
    mem.write_slice(&bytes[..32], GuestAddress(0xfff0)).unwrap();
    mem.write_slice(&bytes[32..], GuestAddress(0x40000)).unwrap();
    offer(mem, &[0]);
    queue.pop_descriptor_chain(mem).unwrap()
}

#[test]
fn bytes_are_read_and_written_in_order() {
    let (mem, mut queue) = (memory(), queue());
    let chain = a_request(&mem, &mut queue);
    let mut reader: Reader = chain.clone().reader(&mem).unwrap();
    assert_eq!((48, 0), (reader.available_bytes(), reader.bytes_read()));
    assert_eq!(0x0706_0504_0302_0100, u64::from_le(reader.read_obj().unwrap()));
    let mut rest = reader.clone().split_at(30).unwrap();
    assert_eq!(Err(Error::SplitOutOfBounds(41)), reader.split_at(41).map(drop));
    let mut bytes = [0; 50];
    assert_eq!(40, reader.read(&mut bytes).unwrap());
    assert_eq!((8..48).collect::<Vec<u8>>(), bytes[..40]);
    assert_eq!((0, 48, 0), (reader.available_bytes(), reader.bytes_read(), reader.read(&mut bytes).unwrap()));
    assert_eq!((10, 0), (rest.available_bytes(), rest.bytes_read()));
    assert_eq!([38, 39], rest.read_obj::<[u8; 2]>().unwrap());
    assert_eq!(ErrorKind::UnexpectedEof, rest.read_obj::<[u8; 9]>().unwrap_err().kind());
    let mut writer: Writer = chain.writer(&mem).unwrap();
    let mut status = writer.split_at(39).unwrap();
    assert_eq!((39, 1), (writer.available_bytes(), status.available_bytes()));
    writer.write_obj([7u8; 8]).unwrap();
    assert_eq!(31, writer.write(&[8; 50]).unwrap());
    assert_eq!((0, 39), (writer.available_bytes(), writer.bytes_written()));
    assert_eq!(ErrorKind::WriteZero, writer.write_all(&[9]).unwrap_err().kind());
    status.write_obj(9u8).unwrap();
    status.flush().unwrap();
    let at = |addr| mem.read_obj::<[u8; 16]>(GuestAddress(addr)).unwrap();
    let last = [8, 8, 8, 8, 8, 8, 8, 8, 8, 8, 8, 8, 8, 8, 8, 9];
    assert_eq!(([7, 7, 7, 7, 7, 7, 7, 7, 0, 0, 0, 0, 0, 0, 0, 0], [8; 16], last), (at(0x6000), at(0x1fff0), at(0x7000)));
    // At each place, the two parts are all of it.
    for at in 0..=40 {
        let mut first: Writer = a_request(&mem, &mut common::queue()).writer(&mem).unwrap();
        put16(&mem, AVAIL + 2, 0);
        let second = first.split_at(at).unwrap();
        assert_eq!((at, 40 - at), (first.available_bytes(), second.available_bytes()));
    }
}

#[test]
fn an_iterator_has_what_was_available() {
    let (mem, mut queue) = (memory(), queue());
    (0..5).for_each(|at| describe(&mem, DESC, at, (BUFFER, 16, 0, 0)));
    offer(&mem, &[0, 1, 2]);
    let mut chains = queue.iter(&mem).unwrap();
    offer(&mem, &[3]);
    assert_eq!(vec![0, 1], [chains.next(), chains.next()].map(|it| it.unwrap().head_index()));
    chains.go_to_previous_position();
    assert_eq!(vec![1, 2], chains.map(|it| it.head_index()).collect::<Vec<_>>());
    assert_eq!(vec![3], heads(&mut queue, &mem));
    // One more is taken back, and what it is described as is read again.
    queue.go_to_previous_position();
    describe(&mem, DESC, 3, (BUFFER, 17, 0, 0));
    assert_eq!(vec![(BUFFER, 17)], parts(queue.pop_descriptor_chain(&mem).unwrap()));
    for _ in 0..3 {
        queue.go_to_previous_position();
    }
    assert_eq!((1, vec![1, 2, 3]), (queue.next_avail(), heads(&mut queue, &mem)));
    // One that was used before is taken again, too, if it is gone back to.
    queue.add_used(&mem, 3, 0).unwrap();
    queue.go_to_previous_position();
    queue.go_to_previous_position();
    assert_eq!(vec![2, 3], heads(&mut queue, &mem));
    for head in [0, 1, 2, 3] {
        queue.add_used(&mem, head, 0).unwrap();
    }
    assert_eq!(Err(Error::InvalidDescriptorIndex), queue.add_used(&mem, 3, 0));
}

/// By the flags, and by the event index: the driver is told where virtio's rule says so.
#[test]
fn when_a_side_is_told() {
    let (mem, mut queue) = (memory(), queue());
    (0..5).for_each(|at| describe(&mem, DESC, at, (BUFFER, 16, 0, 0)));
    assert!(queue.needs_notification(&mem).unwrap());
    put16(&mem, AVAIL, 1); // NO_INTERRUPT
    assert!(!queue.needs_notification(&mem).unwrap());
    queue.disable_notification(&mem).unwrap();
    assert_eq!(1, get16(&mem, USED));
    assert!(!queue.enable_notification(&mem).unwrap());
    assert_eq!(0, get16(&mem, USED));
    offer(&mem, &[0, 1]);
    assert!(queue.enable_notification(&mem).unwrap());
    queue.set_event_idx(true);
    // (nothing was used yet)
    assert!(!queue.needs_notification(&mem).unwrap());
    assert_eq!(vec![0, 1], heads(&mut queue, &mem));
    queue.disable_notification(&mem).unwrap();
    assert!(!queue.enable_notification(&mem).unwrap());
    assert_eq!(2, get16(&mem, USED + 4 + 8 * 16));
    put16(&mem, AVAIL + 4 + 2 * 16, 1); // it wants to be told of the second
    queue.add_used(&mem, 0, 0).unwrap();
    assert!(!queue.needs_notification(&mem).unwrap());
    queue.add_used(&mem, 1, 0).unwrap();
    assert!(queue.needs_notification(&mem).unwrap());
    assert!(!queue.needs_notification(&mem).unwrap());
    // A queue that goes on where something may have been used that nobody was told of tells once.
    offer(&mem, &[2]);
    assert_eq!(vec![2], heads(&mut queue, &mem));
    queue.add_used(&mem, 2, 0).unwrap();
    queue.set_event_idx(false);
    queue.set_event_idx(true);
    assert!(queue.needs_notification(&mem).unwrap());
    assert!(!queue.needs_notification(&mem).unwrap());
}

/// A queue that is stopped, moved, saved or set back: what the device has stays its own, and what it has not it may not use.
#[test]
fn what_the_device_has() {
    let (mem, mut queue) = (memory(), queue());
    (0..5).for_each(|at| describe(&mem, DESC, at, (BUFFER, 16, 0, 0)));
    offer(&mem, &[4, 2, 0]);
    assert_eq!(vec![4, 2], queue.iter(&mem).unwrap().take(2).map(|it| it.head_index()).collect::<Vec<_>>());
    // Stopped, and let go on: QEMU's stop and cont.
    queue.set_ready(false);
    let base = queue.next_avail();
    queue.set_size(SIZE);
    queue.set_next_avail(base);
    queue.set_next_used(get16(&mem, USED + 2));
    place(&mut queue);
    queue.set_ready(true);
    assert_eq!(Err(Error::InvalidDescriptorIndex), queue.add_used(&mem, 0, 0));
    queue.add_used(&mem, 4, 0).unwrap();
    // Its rings lie elsewhere.
    mem.write_slice(&[0; 0x3000], GuestAddress(0x41000)).unwrap();
    (0..5).for_each(|at| describe(&mem, 0x41000, at, (BUFFER, 16, 0, 0)));
    (0..8).for_each(|at| put16(&mem, 0x42002 + 2 * at, get16(&mem, AVAIL + 2 + 2 * at)));
    queue.try_set_desc_table_address(GuestAddress(0x41000)).unwrap();
    queue.try_set_avail_ring_address(GuestAddress(0x42000)).unwrap();
    queue.try_set_used_ring_address(GuestAddress(0x43000)).unwrap();
    assert_eq!(vec![0], heads(&mut queue, &mem));
    queue.add_used(&mem, 0, 0).unwrap();
    assert_eq!((0, 2), (get16(&mem, 0x43000 + 4 + 8), get16(&mem, 0x43002)));
    // Set back by one, with one out: that is taken again, and the others are as they were.
    put16(&mem, 0x42002, 3);
    queue.set_next_avail(2);
    assert_eq!((vec![0], Ok(())), (heads(&mut queue, &mem), queue.add_used(&mem, 0, 0)));
}

/// A state that is saved does not say which heads are out: as many as are by its indexes may be used, each once.
#[test]
fn a_state_that_was_saved() {
    let mem = memory();
    (0..5).for_each(|at| describe(&mem, DESC, at, (BUFFER, 16, 0, 0)));
    let mut before = queue();
    offer(&mem, &[4, 2, 0]);
    assert_eq!(vec![4, 2], before.iter(&mem).unwrap().take(2).map(|it| it.head_index()).collect::<Vec<_>>());
    let mut queue = Queue::try_from(before.state()).unwrap();
    queue.add_used(&mem, 2, 0).unwrap();
    assert_eq!(Err(Error::InvalidDescriptorIndex), queue.add_used(&mem, 16, 0));
    assert_eq!((vec![0], Ok(())), (heads(&mut queue, &mem), queue.add_used(&mem, 0, 0)));
    queue.add_used(&mem, 4, 0).unwrap();
    assert_eq!(Err(Error::InvalidDescriptorIndex), queue.add_used(&mem, 1, 0));
    assert_eq!(3, get16(&mem, USED + 2));
}

/// The guest reboots while a request is out: what completes it then is no request of the new driver.
#[test]
fn a_driver_that_begins_anew() {
    let (mem, mut queue) = (memory(), queue());
    (0..5).for_each(|at| describe(&mem, DESC, at, (BUFFER, 16, 0, 0)));
    offer(&mem, &[2]);
    assert_eq!(vec![2], heads(&mut queue, &mem));
    queue.set_ready(false);
    queue.set_next_avail(0);
    put16(&mem, AVAIL + 2, 0);
    queue.set_ready(true);
    offer(&mem, &[0]);
    assert_eq!(vec![0], heads(&mut queue, &mem));
    assert_eq!(Err(Error::InvalidDescriptorIndex), queue.add_used(&mem, 2, 0));
    assert_eq!((Ok(()), 1), (queue.add_used(&mem, 0, 0), get16(&mem, USED + 2)));
}

#[test]
fn threads_share_a_queue() {
    let mem = memory();
    (0..16).for_each(|at| describe(&mem, DESC, at, (BUFFER, 16, 0, 0)));
    let mut queue = QueueSync::new(SIZE).unwrap();
    place(&mut queue);
    queue.set_ready(true);
    queue.set_event_idx(true);
    assert!(queue.is_valid(&mem) && queue.ready() && queue.event_idx_enabled());
    assert_eq!(
        (DESC, AVAIL, USED, 16, 16),
        (queue.desc_table(), queue.avail_ring(), queue.used_ring(), queue.size(), queue.max_size())
    );
    (0..16).for_each(|head| offer(&mem, &[head]));
    let all = (0..4).map(|_| {
        let (mut queue, mem) = (queue.clone(), mem.clone());
        thread::spawn(move || {
            while let Some(chain) = queue.pop_descriptor_chain(&mem) {
                queue.add_used(&mem, chain.head_index(), 0).unwrap();
            }
        })
    });
    all.collect::<Vec<_>>().into_iter().for_each(|it| it.join().unwrap());
    assert_eq!((16, 16, 16), (queue.next_avail(), queue.next_used(), queue.used_idx(&mem, Ordering::Acquire).unwrap().0));
    assert!(!queue.enable_notification(&mem).unwrap());
    assert!(queue.needs_notification(&mem).unwrap());
    queue.disable_notification(&mem).unwrap();
    assert_eq!(16, queue.avail_idx(&mem, Ordering::Acquire).unwrap().0);
    queue.lock().go_to_previous_position();
    queue.set_next_avail(3);
    queue.set_next_used(3);
    queue.set_size(8);
    assert_eq!(8, queue.lock().size());
    // A thread that panicked with the lock leaves it to the others.
    let shared = Arc::new(Mutex::new(common::queue()));
    let (mut one, mut other) = (QueueSync::from(shared.clone()), QueueSync::from(shared));
    assert!(thread::spawn(move || {
        let _held = one.lock();
        panic!("on purpose");
    })
    .join()
    .is_err());
    other.reset();
    assert!(!other.ready() && !QueueSync::from(Queue::new(4).unwrap()).ready());
}

#[derive(Debug, Default)]
struct Translations(RwLock<Iotlb>);

impl Iommu for Translations {
    type IotlbGuard<'a> = std::sync::RwLockReadGuard<'a, Iotlb>;

    fn translate(
        &self,
        base: GuestAddress,
        length: usize,
        access: Permissions,
    ) -> Result<IotlbIterator<Self::IotlbGuard<'_>>, IommuError> {
        Iotlb::lookup(self.0.read().unwrap(), base, length, access)
            .map_err(|_| IommuError::CannotResolve { iova_range: IovaRange { base, length }, reason: "it is not mapped".into() })
    }
}

/// Rings and buffers are found through whatever memory there is, each by what is done to it: a buffer that may not be written is refused.
#[test]
fn an_iommu_is_asked() {
    let translations = Translations::default();
    let maps = [
        (DESC, 0x41000, Permissions::Read),
        (AVAIL, 0x5000, Permissions::ReadWrite),
        (USED, 0x43000, Permissions::ReadWrite),
        (0x9000, 0x1000, Permissions::Read),
        (0xa000, 0x46000, Permissions::Read),
    ];
    for (from, to, access) in maps {
        translations.0.write().unwrap().set_mapping(GuestAddress(from), GuestAddress(to), 0x1000, access).unwrap();
    }
    let (below, mut queue) = (memory(), queue());
    let mem = IommuMemory::new(below.clone(), translations, true, ());
    assert!(queue.is_valid(&mem));
    describe(&below, 0x41000, 0, (0x9ff0, 32, 0, 0));
    describe(&below, 0x41000, 1, (0x9000, 8, WRITE, 0));
    offer(&mem, &[0, 1]);
    let chain = queue.pop_descriptor_chain(&mem).unwrap();
    assert_eq!(32, Reader::new(&mem, chain.clone()).unwrap().available_bytes());
    assert!(queue.pop_descriptor_chain(&mem).is_none());
    queue.add_used(&mem, chain.head_index(), 5).unwrap();
    assert_eq!(1, get16(&below, 0x43002));
}

/// What is written, into the used ring and into buffers, is marked in a bitmap of what is dirty; and nothing else.
#[test]
fn what_is_written_is_marked() {
    let mem = GuestMemoryMmap::<AtomicBitmap>::from_ranges(&[(GuestAddress(0), 0x10000)]).unwrap();
    let mut queue = queue();
    describe(&mem, DESC, 0, (BUFFER, 16, NEXT, 1));
    describe(&mem, DESC, 1, (0x8000, 0x2000, WRITE, 0));
    offer(&mem, &[0]);
    let bitmap = mem.iter().next().unwrap().deref().bitmap();
    bitmap.reset();
    let chain = queue.pop_descriptor_chain(&mem).unwrap();
    let mut reader = chain.clone().reader(&mem).unwrap();
    reader.read_exact(&mut [0; 16]).unwrap();
    chain.writer(&mem).unwrap().write_all(&[1; 0x800]).unwrap();
    let pages = |wanted: &[usize]| (0..16).filter(|page| bitmap.is_addr_set(page * 0x1000)).collect::<Vec<_>>() == wanted;
    assert!(pages(&[8]));
    queue.add_used(&mem, 0, 0x800).unwrap();
    assert!(pages(&[3, 8]));
}

#[test]
fn a_mock_queue() {
    let mem = memory();
    let mut mock = MockSplitQueue::create(&mem, GuestAddress(0x1000), 8);
    assert_eq!((0x1000, 0x1080), (mock.start().0, mock.avail_addr().0));
    assert_eq!((0x1098, 0x10de), (mock.used_addr().0, mock.end().0));
    let mut queue: Queue = mock.create_queue().unwrap();
    mock.add_chain(2).unwrap();
    mock.add_indirect_chain(3).unwrap();
    let lens: Vec<_> = queue.iter(&mem).unwrap().map(|chain| chain.count()).collect();
    assert_eq!(vec![2, 3], lens);
    assert!(matches!(mock.add_chain(6), Err(MockError::InvalidIndex)));
    assert_eq!((2, 0x80), (u16::from_le(mock.avail().idx().load()), mock.desc_table().total_size()));
    queue.add_used(&mem, 0, 7).unwrap();
    let entry = mock.used().ring().ref_at(0).unwrap().load();
    assert_eq!((0, 7), (entry.id(), entry.len()));
    assert!(mock.used().ring().ref_at(8).is_err() && mock.desc_table().load(8).is_err());
    // Also what a queue refuses is a chain.
    let mock = MockSplitQueue::new(&mem, 8);
    let descriptors = [(0x5000, 0), (0x6000, 8)].map(|(addr, len)| desc::split::Descriptor::new(addr, len, 0, 9).into());
    let chain = mock.build_desc_chain(&descriptors).unwrap();
    assert_eq!(vec![(0x5000, 0), (0x6000, 8)], parts(chain));
    assert!(mock.create_queue::<Queue>().unwrap().pop_descriptor_chain(&mem).is_none());
    mock.add_desc_chains(&descriptors, 4).unwrap();
    assert_eq!(3, u16::from_le(mock.avail().idx().load()));
}

#[test]
fn descriptors_of_either_layout() {
    let split = desc::split::Descriptor::new(0x1122_3344_5566_7788, 0x99aa_bbcc, 0xddee, 0xff01);
    let raw = desc::RawDescriptor::from(split);
    let mem = memory();
    mem.write_obj(raw, GuestAddress(0)).unwrap();
    let bytes = [0x88, 0x77, 0x66, 0x55, 0x44, 0x33, 0x22, 0x11, 0xcc, 0xbb, 0xaa, 0x99, 0xee, 0xdd, 0x01, 0xff];
    assert_eq!(bytes, mem.read_obj::<[u8; 16]>(GuestAddress(0)).unwrap());
    let mut packed = desc::packed::Descriptor::from(raw);
    assert_eq!((0xddee, 0xff01), (packed.id(), packed.flags()));
    packed.set_addr(1);
    packed.set_len(2);
    packed.set_id(3);
    packed.set_flags(NEXT | INDIRECT);
    assert_eq!((1, 2, 3, 5), (packed.addr().0, packed.len(), packed.id(), packed.flags()));
    assert!(packed.has_next() && packed.refers_to_indirect_table() && !packed.is_write_only());
    let mut split = desc::split::Descriptor::from(desc::RawDescriptor::from(packed));
    assert_eq!((1, 2, 3, 5), (split.addr().0, split.len(), split.flags(), split.next()));
    split.set_addr(5);
    split.set_len(6);
    split.set_flags(7);
    split.set_next(8);
    assert_eq!((5, 6, 7, 8), (split.addr().0, split.len(), split.flags(), split.next()));
}
