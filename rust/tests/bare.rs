// SPDX-License-Identifier: Apache-2.0
//! A split queue without memory (`covretin::queue::bare`): where it says that something is to be read or written, and what it refuses.
use covretin::queue::bare::{Descriptor, Rings, SplitQueue, Table};
use covretin::queue::Error;

const NEXT: u16 = 1;
const WRITE: u16 = 2;
const INDIRECT: u16 = 4;

/// A descriptor: its address, its length, its flags, and the next one.
type Described = (u64, u32, u16, u16);
/// Which descriptor was read of which table.
type Read = (Table, u16);

/// A queue of four at these addresses, whose device begins at 6 of the available ring and at 5 of the used one.
fn started() -> SplitQueue {
    let mut queue = SplitQueue::new().unwrap();
    let (desc_table, avail_ring, used_ring) = (0x1000, 0x2000, u64::MAX - 0xfff);
    let rings =
        Rings { desc_table, avail_ring, used_ring, size: 4, next_avail: 6, next_used: 5, event_idx: true, indirect_desc: true };
    queue.start(&rings).unwrap();
    queue
}

/// Follows a chain whose descriptors are these, each at the next place: the places, and the parts.
fn followed(queue: &mut SplitQueue, descriptors: &[Described]) -> Result<(Vec<Read>, Vec<u64>), Error> {
    let (mut read, mut parts, mut left) = (vec![], vec![], descriptors.iter());
    queue.follow(
        |table, index| {
            read.push((table, index));
            left.next().map(|&(addr, len, flags, next)| Descriptor { addr, len, flags, next })
        },
        |part| parts.push(part.addr),
    )?;
    Ok((read, parts))
}

#[test]
fn a_chain_is_followed_through_both_tables() {
    let mut queue = started();
    assert_eq!(Err(Error::NothingAvailable), queue.head_addr());
    assert_eq!(Ok(2), queue.available(8));
    assert_eq!(Ok(0x2004 + 2 * 2), queue.head_addr());
    queue.pop(3).unwrap();
    let (own, other) = (Table { addr: 0x1000, len: 64 }, Table { addr: 0xffff_0000_0000, len: 32 });
    let chain = [(u64::MAX - 16, 16, NEXT, 1), (other.addr, 32, INDIRECT, 0), (7, 1, NEXT | WRITE, 1), (0, u32::MAX, WRITE, 9)];
    let (read, parts) = followed(&mut queue, &chain).unwrap();
    assert_eq!(vec![(own, 3), (own, 1), (other, 0), (other, 1)], read);
    assert_eq!(vec![u64::MAX - 16, 7, 0], parts);
    assert_eq!(0xffff_0000_0010, other.descriptor_addr(1));
    let used = queue.add_used(3, 0x1234_5678).unwrap();
    assert_eq!((u64::MAX - 0xfff + 4 + 8, 0x1234_5678 << 32 | 3), (used.elem_addr, used.elem));
    assert_eq!((u64::MAX - 0xfff + 2, 6), (used.idx_addr, used.idx));
    assert_eq!(Err(Error::NotHandedOut), queue.add_used(3, 0));
    assert_eq!(Ok(0x2004 + 2 * 4), queue.notification_addr());
    // (a queue that was started tells once, and then by the event index)
    assert_eq!((Ok(true), Ok(false)), (queue.needs_notification(0), queue.needs_notification(5)));
    assert_eq!(Ok(Some((u64::MAX - 0xfff + 4 + 8 * 4, 7))), queue.set_notification(true));
    assert_eq!(Ok(None), queue.set_notification(false));
    queue.move_to(0x8000, 0x9000, 0xa000).unwrap();
    assert_eq!(Ok(0x9004 + 2 * 3), queue.head_addr());
    assert_eq!(Err(Error::Unaligned), queue.move_to(0x8001, 0x9000, 0xa000));
}

/// Takes a chain, whose descriptors are these, by one call: the places that were read, and the parts.
fn taken(queue: &mut SplitQueue, head: u16, descriptors: &[Described]) -> (Vec<Read>, Result<Vec<u64>, Error>) {
    let (mut read, mut parts, mut left) = (vec![], vec![], descriptors.iter());
    let outcome = queue.take(
        head,
        |table, index| {
            read.push((table, index));
            left.next().map(|&(addr, len, flags, next)| Descriptor { addr, len, flags, next })
        },
        |part| parts.push(part.addr),
    );
    (read, outcome.map(|()| parts))
}

#[test]
fn chains_are_taken_by_one_call() {
    let mut queue = started();
    assert_eq!(Err(Error::NothingAvailable), queue.head_addrs(4));
    queue.available(9).unwrap();
    // (two up to the end of the ring)
    assert_eq!((Ok(0x2008..0x200c), Ok(0x2008..0x200a)), (queue.head_addrs(4), queue.head_addrs(1)));
    let (own, other) = (Table { addr: 0x1000, len: 64 }, Table { addr: 0x5000, len: 32 });
    let chain = [(7, 1, NEXT, 1), (other.addr, 32, INDIRECT, 0), (8, 1, NEXT | WRITE, 1), (9, 1, WRITE, 0)];
    let read = vec![(own, 3), (own, 1), (other, 0), (other, 1)];
    assert_eq!((read, Ok(vec![7, 8, 9])), taken(&mut queue, 3, &chain));
    assert_eq!((vec![(own, 0)], Ok(vec![5])), taken(&mut queue, 0, &[(5, 1, 0, 0)]));
    assert_eq!(Ok(0x2004..0x2006), queue.head_addrs(4));
    queue.move_to(0x8000, 0x9000, 0xa000).unwrap();
    assert_eq!(Err(Error::ChainTooLong), taken(&mut queue, 1, &[(5, 1, NEXT, 0); 2000]).1);
    // What was taken is the device's, and its last one, too, which is no request.
    assert!([3, 0, 1].iter().all(|head| queue.add_used(*head, 0).is_ok()));
}

/// A head that is refused is not the device's, and nothing is read for one that is in no table; a chain that is refused is.
#[test]
fn what_is_taken_of_a_broken_ring() {
    let started = |idx| {
        let mut queue = started();
        queue.available(idx).unwrap();
        queue
    };
    let mut queue = started(8);
    assert_eq!((vec![], Err(Error::NotInTable)), taken(&mut queue, 4, &[(5, 1, 0, 0)]));
    assert_eq!(Err(Error::NeedsReset), taken(&mut queue, 1, &[(5, 1, 0, 0)]).1);
    assert_eq!(Err(Error::NotHandedOut), queue.add_used(1, 0));
    let mut queue = started(8);
    taken(&mut queue, 2, &[(5, 1, 0, 0)]).1.unwrap();
    assert_eq!(Err(Error::HeadInUse), taken(&mut queue, 2, &[(5, 1, 0, 0)]).1);
    queue.add_used(2, 0).unwrap();
    let mut queue = started(8);
    assert_eq!(Err(Error::EmptyDescriptor), taken(&mut queue, 2, &[(5, 0, 0, 0)]).1);
    queue.add_used(2, 0).unwrap();
    // (its descriptors can't be read)
    let mut queue = started(8);
    assert_eq!(Err(Error::NotInGuest), taken(&mut queue, 2, &[]).1);
    queue.add_used(2, 0).unwrap();
    assert_eq!(Err(Error::NothingAvailable), taken(&mut started(6), 2, &[(5, 1, 0, 0)]).1);
    assert_eq!(Err(Error::NotStarted), taken(&mut SplitQueue::new().unwrap(), 2, &[(5, 1, 0, 0)]).1);
}

#[test]
fn heads_are_given_back_and_adopted() {
    let mut queue = started();
    queue.available(8).unwrap();
    queue.pop(1).unwrap();
    assert_eq!(Err(Error::NotHandedOut), queue.give_back(2));
    queue.give_back(1).unwrap();
    assert_eq!(Ok(0x2004 + 2 * 2), queue.head_addr());
    queue.pop(1).unwrap();
    queue.adopt(2).unwrap();
    assert_eq!((Err(Error::HeadInUse), Err(Error::NotInTable)), (queue.adopt(2), queue.adopt(4)));
    assert_eq!((5, 6), (queue.add_used(2, 0).unwrap().idx - 1, queue.add_used(1, 0).unwrap().idx - 1));
    queue.resubmit(3).unwrap();
    assert_eq!(Ok(vec![5]), followed(&mut queue, &[(5, 1, 0, 0)]).map(|(_, parts)| parts));
}

/// A rule that the driver breaks ends what is taken, but not what is used.
#[test]
fn a_broken_rule_is_named() {
    let cases: [(&[Described], Error); 8] = [
        (&[(5, 1, NEXT, 4)], Error::NotInTable),
        (&[(5, 0, 0, 0)], Error::EmptyDescriptor),
        (&[(5, 1, WRITE | NEXT, 1), (5, 1, 0, 0)], Error::ReadableAfterWritable),
        (&[(5, 17, INDIRECT, 0)], Error::InvalidIndirectLength),
        (&[(5, 16, INDIRECT | NEXT, 1)], Error::IndirectGoesOn),
        (&[(5, 16, INDIRECT, 0), (5, 16, INDIRECT, 0)], Error::UnexpectedIndirect),
        (&[(u64::MAX, 1, 0, 0)], Error::NotInGuest),
        // (it can't be read)
        (&[(5, 1, NEXT, 1)], Error::NotInGuest),
    ];
    for (chain, error) in cases {
        let mut queue = started();
        queue.available(7).unwrap();
        queue.pop(0).unwrap();
        assert_eq!(Err(error), followed(&mut queue, chain), "{chain:?}");
        queue.add_used(0, 0).unwrap();
    }
    let mut queue = started();
    assert_eq!((Err(Error::TooManyAvailable), true), (queue.available(11), queue.needs_reset()));
    assert_eq!(Err(Error::NeedsReset), queue.available(7));
    let mut queue = started();
    queue.available(10).unwrap();
    queue.pop(1).unwrap();
    assert_eq!((Err(Error::HeadInUse), Err(Error::NeedsReset)), (queue.pop(1), queue.pop(2)));
    let endless: Vec<_> = (0..2000).map(|_| (5, 1, NEXT, 0)).collect();
    let mut queue = started();
    queue.available(7).unwrap();
    queue.pop(0).unwrap();
    assert_eq!(Err(Error::ChainTooLong), followed(&mut queue, &endless));
    assert_eq!(Err(Error::InvalidSize), SplitQueue::new().unwrap().start(&Rings { size: 3, ..Rings::default() }));
    assert_eq!(Err(Error::NotStarted), SplitQueue::new().unwrap().available(0));
}
