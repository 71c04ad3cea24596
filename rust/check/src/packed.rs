// SPDX-License-Identifier: Apache-2.0
//! The driver's side of a packed virtqueue (virtio 1.2, 2.8), used rightly or wrongly.
use std::time::Duration;

use crate::connection::{Connection, Stop};
use crate::patience::Patience;
use crate::ring::{descriptor, Buffer, Ring, INDIRECT, NEXT, RING_SIZE};
use crate::wire::joined;

/// By which the driver makes a descriptor available, and by which the device says that it is used.
pub const AVAILABLE: u16 = 1 << 7;
pub const USED: u16 = 1 << 15;
/// Of a base: the wrap counter of an index. The index of what is used stands 16 bits higher.
pub const WRAP: u16 = 1 << 15;
/// Where a table of descriptors lies that one of the ring points to.
pub const TABLE: u64 = 0x60000;
/// The driver wants no calls.
pub const WITHOUT_CALLS: u16 = 1;
/// Where a descriptor has its id and its flags.
const ID: u64 = 12;
const FLAGS: u64 = 14;

/// Where the driver, or the device, is in a ring.
#[derive(Clone, Copy, Debug, PartialEq, Eq)]
pub struct Place {
    pub index: u16,
    pub wrap: bool,
}

impl Place {
    pub const FIRST: Place = Place { index: 0, wrap: true };

    /// So many descriptors further.
    pub fn behind(self, count: usize) -> Place {
        let index = self.index + count as u16;
        match index < RING_SIZE {
            true => Place { index, ..self },
            false => Place { index: index - RING_SIZE, wrap: !self.wrap },
        }
    }

    fn half(self) -> u16 {
        self.index | if self.wrap { WRAP } else { 0 }
    }

    /// A base where both the driver and the device are here.
    pub fn base(self) -> u32 {
        self.base_with(self)
    }

    /// A base where the driver is here, and the device has used what comes before another place.
    fn base_with(self, used: Place) -> u32 {
        u32::from(used.half()) << 16 | u32::from(self.half())
    }

    /// The flags of a descriptor that is available here.
    fn available(self) -> u16 {
        if self.wrap {
            AVAILABLE
        } else {
            USED
        }
    }
}

pub struct PackedRing {
    pub ring: Ring,
    pub next: Place,
}

impl PackedRing {
    pub fn new(connection: &Connection, index: u32, next: Place) -> Result<Self, Stop> {
        Ok(PackedRing { ring: Ring::new(connection, index)?, next })
    }

    /// All but the kick and what enables it. The device has used what comes before a place, which is where the driver is unless requests
    /// are under way.
    pub fn prepare(&self, connection: &mut Connection, used: Place) -> Result<(), Stop> {
        self.ring.say_size(connection)?;
        self.ring.say_whole_base(connection, self.next.base_with(used))?;
        self.ring.say_places(connection)
    }

    fn slot(&self, index: u16) -> u64 {
        self.ring.descriptors + 16 * u64::from(index)
    }

    /// Writes a descriptor, its flags last, so that it is whole once it is available.
    pub fn describe(&self, index: u16, buffer: Buffer, id: u16, flags: u16) {
        let bytes = descriptor(buffer.address, buffer.length, id, 0);
        self.ring.write(self.slot(index), &bytes[..FLAGS as usize]);
        self.ring.memory.map.write_u16(self.slot(index) + FLAGS, buffer.flags | flags);
    }

    /// Makes a chain available, its head last: where it begins.
    pub fn make_available(&mut self, buffers: &[Buffer], id: u16) -> Place {
        let head = self.next;
        for (at, buffer) in buffers.iter().enumerate().rev() {
            let place = head.behind(at);
            let next = if at + 1 < buffers.len() { NEXT } else { 0 };
            self.describe(place.index, *buffer, id, next | place.available());
        }
        self.next = head.behind(buffers.len());
        head
    }

    /// The same, and kicks.
    pub fn push(&mut self, buffers: &[Buffer], id: u16) -> Place {
        let head = self.make_available(buffers, id);
        self.ring.signal();
        head
    }

    /// One descriptor that points to a table of these buffers, and a kick.
    pub fn push_table(&mut self, buffers: &[Buffer], id: u16) -> Place {
        let rows: Vec<Vec<u8>> = buffers.iter().map(|it| descriptor(it.address, it.length, 0, it.flags)).collect();
        let rows: Vec<&[u8]> = rows.iter().map(Vec::as_slice).collect();
        self.ring.write(TABLE, &joined(&rows));
        self.push(&[Buffer::new(TABLE, 16 * buffers.len() as u32, INDIRECT)], id)
    }

    pub fn flags(&self, index: u16) -> u16 {
        self.ring.memory.map.read_u16(self.slot(index) + FLAGS)
    }

    pub fn id(&self, index: u16) -> u16 {
        self.ring.memory.map.read_u16(self.slot(index) + ID)
    }

    /// Whether the descriptor here is used.
    pub fn is_used(&self, place: Place) -> bool {
        let bits = if place.wrap { AVAILABLE | USED } else { 0 };
        self.flags(place.index) & (AVAILABLE | USED) == bits
    }

    pub fn is_done(&self, place: Place, process: Option<i32>, limit: Duration) -> bool {
        Patience::new(process, limit).wait_until(|| self.is_used(place))
    }

    /// Says whether calls are wanted.
    pub fn want_calls(&self, flags: u16) {
        self.ring.memory.map.write_u16(self.ring.available + 2, flags);
    }
}

#[cfg(test)]
mod tests {
    use super::*;

    #[test]
    fn a_place_goes_over_the_end() {
        let last = Place { index: RING_SIZE - 1, wrap: false };
        assert_eq!(last.behind(3), Place { index: 2, wrap: true });
        assert_eq!(Place::FIRST.behind(usize::from(RING_SIZE)), Place { index: 0, wrap: false });
        assert_eq!(Place::FIRST.base(), 0x8000_8000);
        assert_eq!(last.base(), 0x003f_003f);
        assert_eq!((Place::FIRST.available(), last.available()), (AVAILABLE, USED));
    }
}
