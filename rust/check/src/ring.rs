// SPDX-License-Identifier: Apache-2.0
//! The driver's side of a split virtqueue: it makes descriptors available and sees which were used, rightly or wrongly.
use std::os::unix::io::{AsRawFd, OwnedFd, RawFd};
use std::rc::Rc;
use std::time::Duration;

use crate::connection::{Connection, Memory, Reply, Stop};
use crate::patience::Patience;
use crate::system::{event, is_readable, signal_event};
use crate::wire::*;

/// Flags of a descriptor.
pub const NEXT: u16 = 1;
pub const WRITE: u16 = 2;
pub const INDIRECT: u16 = 4;
/// How many descriptors a ring has.
pub const RING_SIZE: u16 = 64;
/// Where the first ring lies in memory, and how far the next is from it.
const FIRST: u64 = 0x1000;
const STRIDE: u64 = 0x4000;

/// The bytes of a descriptor.
pub fn descriptor(address: u64, length: u32, flags: u16, next: u16) -> Vec<u8> {
    joined(&[&address.to_le_bytes(), &length.to_le_bytes(), &flags.to_le_bytes(), &next.to_le_bytes()])
}

/// A buffer of a request: WRITE in its flags says that the device writes it.
#[derive(Clone, Copy)]
pub struct Buffer {
    pub address: u64,
    pub length: u32,
    pub flags: u16,
}

impl Buffer {
    pub fn new(address: u64, length: u32, flags: u16) -> Self {
        Buffer { address, length, flags }
    }
}

pub struct Ring {
    pub index: u32,
    pub memory: Rc<Memory>,
    /// The address of the memory from which those of the ring count.
    pub from: u64,
    pub descriptors: u64,
    pub available: u64,
    pub used: u64,
    /// The index of the next available entry.
    pub next: u16,
    pub kick: OwnedFd,
    pub call: OwnedFd,
    pub error: OwnedFd,
}

impl Ring {
    /// A ring in memory that the backend has been given.
    pub fn new(connection: &Connection, index: u32) -> Result<Self, Stop> {
        let memory = connection.memory.clone().ok_or_else(|| Stop::Trouble("no memory".to_string()))?;
        Ok(Ring { from: connection.rings_from, ..Ring::in_memory(memory, index)? })
    }

    pub fn in_memory(memory: Rc<Memory>, index: u32) -> Result<Self, Stop> {
        let base = FIRST + u64::from(index) * STRIDE;
        let [kick, call, error] = [event()?, event()?, event()?];
        let [descriptors, available, used] = [base, base + 0x1000, base + 0x2000];
        Ok(Ring { index, memory, from: USER, descriptors, available, used, next: 0, kick, call, error })
    }

    /// The body that says where the ring lies.
    pub fn addresses(&self, flags: u32, log: u64) -> Vec<u8> {
        let places = [self.descriptors, self.used, self.available].map(|it| self.from + it);
        joined(&[&u32s(&[self.index, flags]), &u64s(&places), &u64s(&[log])])
    }

    pub fn say_size(&self, connection: &mut Connection) -> Result<(), Stop> {
        connection.send(Request::SET_VRING_NUM, &u32s(&[self.index, RING_SIZE.into()]), &[])
    }

    /// Says from which index on the backend goes on; the driver does so, too.
    pub fn say_base(&mut self, connection: &mut Connection, base: u16) -> Result<(), Stop> {
        self.next = base;
        self.say_whole_base(connection, base.into())
    }

    /// The same for both indices of a packed ring.
    pub fn say_whole_base(&self, connection: &mut Connection, base: u32) -> Result<(), Stop> {
        connection.send(Request::SET_VRING_BASE, &u32s(&[self.index, base]), &[])
    }

    pub fn say_addresses(&self, connection: &mut Connection) -> Result<(), Stop> {
        connection.send(Request::SET_VRING_ADDR, &self.addresses(0, 0), &[])
    }

    /// Gives an eventfd of this ring.
    pub fn give(&self, connection: &mut Connection, request: Request, descriptor: RawFd) -> Result<(), Stop> {
        connection.send(request, &u64s(&[self.index.into()]), &[descriptor])
    }

    pub fn give_kick(&self, connection: &mut Connection) -> Result<(), Stop> {
        self.give(connection, Request::SET_VRING_KICK, self.kick.as_raw_fd())
    }

    pub fn give_call(&self, connection: &mut Connection) -> Result<(), Stop> {
        self.give(connection, Request::SET_VRING_CALL, self.call.as_raw_fd())
    }

    /// Enables or disables it, where the backend knows of this.
    pub fn enable(&self, connection: &mut Connection, on: bool) -> Result<(), Stop> {
        match connection.accepted & PROTOCOL_FEATURES {
            0 => Ok(()),
            _ => connection.send(Request::SET_VRING_ENABLE, &u32s(&[self.index, on.into()]), &[]),
        }
    }

    /// All but the kick and what enables it, in the order of QEMU.
    pub fn prepare(&mut self, connection: &mut Connection, base: u16) -> Result<(), Stop> {
        self.say_size(connection)?;
        self.say_base(connection, base)?;
        self.say_places(connection)
    }

    /// Where it lies, and how it signals.
    pub fn say_places(&self, connection: &mut Connection) -> Result<(), Stop> {
        self.say_addresses(connection)?;
        self.give(connection, Request::SET_VRING_ERR, self.error.as_raw_fd())?;
        self.give_call(connection)
    }

    /// Stops it: the reply.
    pub fn stop(&self, connection: &mut Connection) -> Result<Reply, Stop> {
        connection.call(Request::GET_VRING_BASE, &u32s(&[self.index, 0]), &[])
    }

    pub fn write(&self, offset: u64, bytes: &[u8]) {
        self.memory.map.write(offset, bytes);
    }

    pub fn describe(&self, number: u16, address: u64, length: u32, flags: u16, next: u16) {
        self.write(self.descriptors + 16 * u64::from(number), &descriptor(address, length, flags, next));
    }

    /// A chain of these buffers, in descriptors from this number on.
    pub fn describe_chain(&self, first: u16, buffers: &[Buffer]) {
        for (number, (at, buffer)) in (first..).zip(buffers.iter().enumerate()) {
            let (next, following) = if at + 1 < buffers.len() { (NEXT, number + 1) } else { (0, 0) };
            self.describe(number, buffer.address, buffer.length, buffer.flags | next, following);
        }
    }

    /// Makes the chain at a head available, and the index greater by so much.
    pub fn make_available(&mut self, head: u16, by: u16) {
        self.memory.map.write_u16(self.available + 4 + 2 * u64::from(self.next % RING_SIZE), head);
        self.next = self.next.wrapping_add(by);
        self.memory.map.write_u16(self.available + 2, self.next);
    }

    pub fn signal(&self) {
        signal_event(&self.kick);
    }

    /// Makes a chain available, and kicks.
    pub fn push(&mut self, head: u16) {
        self.make_available(head, 1);
        self.signal();
    }

    /// The index of used entries.
    pub fn used_index(&self) -> u16 {
        self.memory.map.read_u16(self.used + 2)
    }

    /// Begins the indices at another number.
    pub fn begin_at(&mut self, index: u16) {
        self.next = index;
        self.memory.map.write_u16(self.available + 2, index);
        self.memory.map.write_u16(self.used + 2, index);
    }

    /// Whether the used index becomes this.
    pub fn is_done(&self, index: u16, process: Option<i32>, limit: Duration) -> bool {
        Patience::new(process, limit).wait_until(|| self.used_index() == index)
    }

    /// Whether the call comes, in the same patience.
    pub fn is_called(&self, process: Option<i32>, limit: Duration) -> bool {
        Patience::new(process, limit).wait_until(|| is_readable(&self.call, 0))
    }
}
