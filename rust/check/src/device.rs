// SPDX-License-Identifier: Apache-2.0
//! Which requests a kind of device takes.
use std::fmt;

use crate::connection::Memory;
use crate::ring::{Buffer, Ring, WRITE};
use crate::wire::{joined, u32s, u64s};

/// Where the buffers of a request lie.
pub const BUFFERS: u64 = 0x20000;
/// Where the data of a disk's request lie, and its status.
pub const DATA: u64 = BUFFERS + 0x1000;
pub const STATUS: u64 = BUFFERS + 0x2000;
pub const SECTOR: usize = 512;
/// The sector that is written and read.
const SECTOR_NUMBER: u64 = 8;

#[derive(Clone, Copy, Debug, PartialEq, Eq)]
pub enum Kind {
    Block,
    Console,
    Entropy,
    Files,
    Graphics,
    Net,
    Vsock,
}

/// A kind, how it is called, how many rings frontends give it, and which of them is driven. A socket device's third ring, for events, is the
/// frontend's own.
const KINDS: &[(Kind, &str, u32, u32)] = &[
    (Kind::Block, "blk", 1, 0),
    (Kind::Console, "console", 2, 1),
    (Kind::Entropy, "rng", 1, 0),
    (Kind::Files, "fs", 2, 1),
    (Kind::Graphics, "gpu", 2, 0),
    (Kind::Net, "net", 2, 1),
    (Kind::Vsock, "vsock", 2, 1),
];

impl fmt::Display for Kind {
    fn fmt(&self, f: &mut fmt::Formatter<'_>) -> fmt::Result {
        f.write_str(self.row().1)
    }
}

impl Kind {
    pub fn of_name(name: &str) -> Option<Self> {
        KINDS.iter().find(|it| it.1 == name).map(|it| it.0)
    }

    /// How all are called.
    pub fn names() -> String {
        KINDS.iter().map(|it| it.1).collect::<Vec<_>>().join(", ")
    }

    fn row(self) -> &'static (Kind, &'static str, u32, u32) {
        KINDS.iter().find(|it| it.0 == self).expect("each kind has a row")
    }

    pub fn rings(self) -> u32 {
        self.row().2
    }

    pub fn driven(self) -> u32 {
        self.row().3
    }

    /// Whether a request that is used up in a disabled ring has an effect that is seen.
    pub fn shows_effects(self) -> bool {
        matches!(self, Kind::Block | Kind::Entropy)
    }

    /// Writes what a request consists of that the device carries out: its buffers.
    pub fn request(self, memory: &Memory) -> Vec<Buffer> {
        match self {
            Kind::Block => block_request(memory, 0, 0, false),
            Kind::Console => read_once(memory, b"covretin check\n"),
            Kind::Entropy => vec![Buffer::new(BUFFERS, 16, WRITE)],
            Kind::Files => files_request(memory),
            Kind::Graphics => graphics_request(memory),
            Kind::Net => read_once(memory, &frame()),
            Kind::Vsock => read_once(memory, &reset()),
        }
    }

    /// Writes a request that the device carries out, from the first descriptor on.
    pub fn write_request(self, ring: &Ring) {
        ring.describe_chain(0, &self.request(&ring.memory));
    }

    /// Whether such a request has left its effect in memory, where that shows one.
    pub fn has_effect(self, memory: &Memory) -> bool {
        match self {
            Kind::Block => memory.map.read(STATUS, 1) == [0],
            Kind::Entropy => memory.map.read(BUFFERS, 16) != [0; 16],
            _ => true,
        }
    }

    /// The pages that a device writes where it carries the request out.
    pub fn written_pages(self) -> &'static [u64] {
        match self {
            Kind::Entropy => &[BUFFERS >> 12],
            Kind::Block => &[DATA >> 12, STATUS >> 12],
            Kind::Files | Kind::Graphics => &[DATA >> 12],
            Kind::Console | Kind::Net | Kind::Vsock => &[],
        }
    }
}

/// A request of one buffer that the device reads.
fn read_once(memory: &Memory, bytes: &[u8]) -> Vec<Buffer> {
    memory.map.write(BUFFERS, bytes);
    vec![Buffer::new(BUFFERS, bytes.len() as u32, 0)]
}

/// A request of a disk, whose buffers lie so far behind the first.
fn block_request(memory: &Memory, at: u64, sector: u64, is_write: bool) -> Vec<Buffer> {
    memory.map.write(BUFFERS + at, &joined(&[&u32s(&[is_write.into(), 0]), &u64s(&[sector])]));
    let flags = if is_write { 0 } else { WRITE };
    vec![Buffer::new(BUFFERS + at, 16, 0), Buffer::new(DATA + at, SECTOR as u32, flags), Buffer::new(STATUS + at, 1, WRITE)]
}

/// A sector to be written, whose bytes nothing has had before.
pub fn write_sector(ring: &Ring, bytes: &[u8]) {
    ring.describe_chain(0, &sector_request(&ring.memory, bytes));
}

/// The buffers of such a write.
pub fn sector_request(memory: &Memory, bytes: &[u8]) -> Vec<Buffer> {
    memory.map.write(DATA, bytes);
    block_request(memory, 0, SECTOR_NUMBER, true)
}

/// The head of a request that reads this sector.
pub const READ_HEAD: u16 = 8;

pub fn read_sector(ring: &Ring) {
    ring.describe_chain(READ_HEAD, &reading_request(&ring.memory));
}

/// The buffers of such a read.
pub fn reading_request(memory: &Memory) -> Vec<Buffer> {
    block_request(memory, 0x4000, SECTOR_NUMBER, false)
}

/// What was read so.
pub fn sector_read(memory: &Memory) -> Vec<u8> {
    memory.map.read(DATA + 0x4000, SECTOR)
}

/// FUSE_INIT of version 7.31.
fn files_request(memory: &Memory) -> Vec<Buffer> {
    let head = joined(&[&u32s(&[56, 26]), &u64s(&[2, 0]), &u32s(&[0; 4])]);
    memory.map.write(BUFFERS, &joined(&[&head, &u32s(&[7, 31, 65536, 0])]));
    vec![Buffer::new(BUFFERS, 56, 0), Buffer::new(DATA, 256, WRITE)]
}

/// A resource of 64 by 64 pixels is made.
fn graphics_request(memory: &Memory) -> Vec<Buffer> {
    let head = joined(&[&u32s(&[0x0101, 0]), &u64s(&[0]), &u32s(&[0, 0])]);
    memory.map.write(BUFFERS, &joined(&[&head, &u32s(&[1, 1, 64, 64])]));
    vec![Buffer::new(BUFFERS, 40, 0), Buffer::new(DATA, 24, WRITE)]
}

/// A frame to everybody, behind the header of a frame.
fn frame() -> Vec<u8> {
    let addresses = [0xff, 0xff, 0xff, 0xff, 0xff, 0xff, 0x52, 0x54, 0, 0, 0, 1, 0x88, 0xb5];
    joined(&[&[0; 12], &addresses, &[0; 46]])
}

/// The end of a connection that the host has not: nothing is sent back.
fn reset() -> Vec<u8> {
    let places = joined(&[&u64s(&[3, 2]), &u32s(&[1024, 9999])]);
    joined(&[&places, &u32s(&[0]), &1u16.to_le_bytes(), &3u16.to_le_bytes(), &u32s(&[0; 3])])
}
