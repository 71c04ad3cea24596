// SPDX-License-Identifier: Apache-2.0
//! Bytes of messages, right and wrong.
pub use covretin::vhost_user::message::FrontendReq as Request;
pub use covretin::vhost_user::VhostUserProtocolFeatures as Feature;

/// The flags of a header: its version, that it is a reply, and that its sender wants an acknowledgement.
pub const VERSION: u32 = 1;
pub const REPLY: u32 = 4;
pub const NEED_REPLY: u32 = 8;
/// Bits of the virtio features.
pub const LOG_ALL: u64 = 1 << 26;
pub const INDIRECT_TABLES: u64 = 1 << 28;
pub const EVENT_IDX: u64 = 1 << 29;
pub const PROTOCOL_FEATURES: u64 = 1 << 30;
pub const VERSION_1: u64 = 1 << 32;
pub const IOMMU: u64 = 1 << 33;
pub const PACKED: u64 = 1 << 34;
/// In place of a descriptor of an eventfd: there is none.
pub const NO_DESCRIPTOR: u64 = 1 << 8;
/// How much memory a guest has here, and where the frontend claims to have it.
pub const SIZE: u64 = 2 << 20;
pub const USER: u64 = 0x7f00_0000_0000;

pub fn u32s(numbers: &[u32]) -> Vec<u8> {
    numbers.iter().flat_map(|it| it.to_le_bytes()).collect()
}

pub fn u64s(numbers: &[u64]) -> Vec<u8> {
    numbers.iter().flat_map(|it| it.to_le_bytes()).collect()
}

/// Parts of a body, one behind another.
pub fn joined(parts: &[&[u8]]) -> Vec<u8> {
    parts.concat()
}

/// A number of 32 bits at an offset; 0 where the bytes end before.
pub fn u32_at(bytes: &[u8], at: usize) -> u32 {
    bytes.get(at..at + 4).map_or(0, |it| u32::from_le_bytes(it.try_into().unwrap()))
}

pub fn u64_at(bytes: &[u8], at: usize) -> u64 {
    bytes.get(at..at + 8).map_or(0, |it| u64::from_le_bytes(it.try_into().unwrap()))
}

/// A region of memory as the messages describe it.
#[derive(Clone, Copy)]
pub struct Region {
    pub guest: u64,
    pub size: u64,
    pub user: u64,
    pub offset: u64,
}

impl Region {
    /// The guest's memory, whole.
    pub const ALL: Region = Region { guest: 0, size: SIZE, user: USER, offset: 0 };

    pub fn at(at: u64, size: u64) -> Self {
        Region { guest: at, size, user: USER + at, offset: 0 }
    }

    fn bytes(&self) -> Vec<u8> {
        u64s(&[self.guest, self.size, self.user, self.offset])
    }

    /// The body of a message that adds or removes it.
    pub fn single(&self) -> Vec<u8> {
        joined(&[&u64s(&[0]), &self.bytes()])
    }
}

/// The body of SET_MEM_TABLE with a count that may be another.
pub fn table_of(count: u32, regions: &[Region]) -> Vec<u8> {
    let rest: Vec<u8> = regions.iter().flat_map(Region::bytes).collect();
    joined(&[&u32s(&[count, 0]), &rest])
}

pub fn table(regions: &[Region]) -> Vec<u8> {
    table_of(regions.len() as u32, regions)
}

/// The body of the messages about an inflight region.
pub fn inflight(queues: u16, size: u16, bytes: u64) -> Vec<u8> {
    joined(&[&u64s(&[bytes, 0]), &queues.to_le_bytes(), &size.to_le_bytes(), &[0; 4]])
}

/// The header of a message.
pub fn header(code: u32, flags: u32, size: u32) -> Vec<u8> {
    u32s(&[code, flags, size])
}

/// How a request is called.
pub fn name_of(code: u32) -> String {
    Request::try_from(code).map_or_else(|()| format!("request {code}"), |it| format!("{it:?}"))
}

pub fn hex_of(bytes: &[u8]) -> String {
    bytes.iter().map(|it| format!("{it:02x}")).collect()
}
