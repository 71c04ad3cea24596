// SPDX-License-Identifier: Apache-2.0
//! The protocol's codes, flags and records, which have the layout of the crate's. The bytes of a message are made and read by the proved
//! library alone.
#![allow(non_camel_case_types)]
#![allow(clippy::upper_case_acronyms)]
#[cfg(feature = "vm-memory")]
use std::fs::File;
#[cfg(feature = "vm-memory")]
use std::io;
use std::ops::Deref;

use bitflags::bitflags;
use uuid::Uuid;
#[cfg(feature = "vm-memory")]
use vm_memory::{mmap::NewBitmap, FileOffset, MmapRegion};

pub use super::inflight_records::*;
pub use super::wire_records::*;
#[cfg(feature = "vm-memory")]
use super::{Error, Result};

/// The greatest size of a message's body, in bytes.
pub const MAX_MSG_SIZE: usize = 0x1000;
/// The greatest number of descriptors that come with a message.
pub const MAX_ATTACHED_FD_ENTRIES: usize = 32;
/// Where the configuration space of a device begins behind a PCI device's registers.
pub const VHOST_USER_CONFIG_OFFSET: u32 = 0x100;
/// The size of the configuration space, in bytes.
pub const VHOST_USER_CONFIG_SIZE: u32 = 0x1000;
/// The greatest number of virtqueues.
pub const VHOST_USER_MAX_VRINGS: u64 = 0x8000;

/// Codes with their numbers, and back.
macro_rules! codes {
    ($($(#[$meta:meta])* pub enum $Name:ident { $($(#[$doc:meta])* $Code:ident = $number:expr,)* })*) => {$(
        $(#[$meta])*
        #[repr(u32)]
        #[derive(Clone, Copy, Debug, PartialEq, Eq, PartialOrd, Ord)]
        pub enum $Name { $($(#[$doc])* $Code = $number,)* }

        impl From<$Name> for u32 {
            fn from(code: $Name) -> u32 {
                code as u32
            }
        }

        impl TryFrom<u32> for $Name {
            type Error = ();

            fn try_from(number: u32) -> std::result::Result<Self, ()> {
                match number {
                    $($number => Ok($Name::$Code),)*
                    _ => Err(()),
                }
            }
        }
    )*};
}

pub(super) use codes;

codes! {
    /// The requests of a frontend. What each is for, the vhost-user specification says under its name.
    #[allow(missing_docs)]
    pub enum FrontendReq {
        // generated from protocol/requests.toml: requests of a frontend
        GET_FEATURES = 1,
        SET_FEATURES = 2,
        SET_OWNER = 3,
        RESET_OWNER = 4,
        SET_MEM_TABLE = 5,
        SET_LOG_BASE = 6,
        SET_LOG_FD = 7,
        SET_VRING_NUM = 8,
        SET_VRING_ADDR = 9,
        SET_VRING_BASE = 10,
        GET_VRING_BASE = 11,
        SET_VRING_KICK = 12,
        SET_VRING_CALL = 13,
        SET_VRING_ERR = 14,
        GET_PROTOCOL_FEATURES = 15,
        SET_PROTOCOL_FEATURES = 16,
        GET_QUEUE_NUM = 17,
        SET_VRING_ENABLE = 18,
        SEND_RARP = 19,
        NET_SET_MTU = 20,
        SET_BACKEND_REQ_FD = 21,
        IOTLB_MSG = 22,
        SET_VRING_ENDIAN = 23,
        GET_CONFIG = 24,
        SET_CONFIG = 25,
        CREATE_CRYPTO_SESSION = 26,
        CLOSE_CRYPTO_SESSION = 27,
        POSTCOPY_ADVISE = 28,
        POSTCOPY_LISTEN = 29,
        POSTCOPY_END = 30,
        GET_INFLIGHT_FD = 31,
        SET_INFLIGHT_FD = 32,
        GPU_SET_SOCKET = 33,
        RESET_DEVICE = 34,
        VRING_KICK = 35,
        GET_MAX_MEM_SLOTS = 36,
        ADD_MEM_REG = 37,
        REM_MEM_REG = 38,
        SET_STATUS = 39,
        GET_STATUS = 40,
        GET_SHARED_OBJECT = 41,
        SET_DEVICE_STATE_FD = 42,
        CHECK_DEVICE_STATE = 43,
        GET_SHMEM_CONFIG = 44,
        // end
    }

    /// The requests of a backend. What each is for, the vhost-user specification says under its name.
    #[allow(missing_docs)]
    pub enum BackendReq {
        // generated from protocol/requests.toml: requests of a backend
        IOTLB_MSG = 1,
        CONFIG_CHANGE_MSG = 2,
        VRING_HOST_NOTIFIER_MSG = 3,
        VRING_CALL = 4,
        VRING_ERR = 5,
        SHARED_OBJECT_ADD = 6,
        SHARED_OBJECT_REMOVE = 7,
        SHARED_OBJECT_LOOKUP = 8,
        SHMEM_MAP = 9,
        SHMEM_UNMAP = 10,
        // end
    }

    /// Which way the state of a device goes.
    pub enum VhostTransferStateDirection {
        /// From the backend.
        SAVE = 0,
        /// To the backend.
        LOAD = 1,
    }

    /// What the device does while its state is transferred.
    pub enum VhostTransferStatePhase {
        /// It is stopped, and so are its rings.
        STOPPED = 0,
    }
}

/// Flags of bitflags 1, with the calls of bitflags 2.
macro_rules! flags {
    ($($(#[$($meta:tt)*])* pub struct $Name:ident: $Bits:ty { $($(#[$($doc:tt)*])* const $Flag:ident = $value:expr;)* })*) => {
        bitflags! {
            $($(#[$($meta)*])* pub struct $Name: $Bits { $($(#[$($doc)*])* const $Flag = $value;)* })*
        }

        $(
            impl $Name {
                /// All of these bits, also those that have no name.
                pub const fn from_bits_retain(bits: $Bits) -> Self {
                    $Name { bits }
                }

                /// The flag of this name.
                pub fn from_name(name: &str) -> Option<Self> {
                    Self::NAMED.iter().find(|(it, _)| *it == name).map(|(_, flag)| *flag)
                }

                /// Each flag that is set, and at last the bits that have no name, if there are any.
                pub fn iter(&self) -> impl Iterator<Item = Self> {
                    self.into_iter()
                }

                /// Each flag that is set, with its name. One whose bits are all those of flags before it is left out.
                pub fn iter_names(&self) -> impl Iterator<Item = (&'static str, Self)> {
                    let (all, mut left) = (*self, *self);
                    Self::NAMED.iter().copied().filter(move |(_, flag)| {
                        let is_next = all.contains(*flag) && left.intersects(*flag);
                        if is_next {
                            left.remove(*flag);
                        }
                        is_next
                    })
                }

                const NAMED: &'static [(&'static str, Self)] = &[$((stringify!($Flag), $Name::$Flag),)*];
            }

            impl IntoIterator for $Name {
                type Item = Self;
                type IntoIter = std::vec::IntoIter<Self>;

                fn into_iter(self) -> Self::IntoIter {
                    let mut found: Vec<Self> = self.iter_names().map(|(_, flag)| flag).collect();
                    let named = found.iter().fold(Self::empty(), |all, flag| all | *flag);
                    found.extend(Some(self - named).filter(|rest| !rest.is_empty()));
                    found.into_iter()
                }
            }
        )*
    };
}

pub(super) use flags;

flags! {
    /// The flags of a message's header.
    pub struct VhostUserHeaderFlag: u32 {
        /// The bits of the version.
        const VERSION = 0x3;
        /// The message is a reply.
        const REPLY = 0x4;
        /// The sender wants a request acknowledged that has no reply of its own.
        const NEED_REPLY = 0x8;
        /// Both flags.
        const ALL_FLAGS = 0xc;
        /// The bits that are 0.
        const RESERVED_BITS = !0xf;
    }

    /// The virtio features that vhost-user itself gives a meaning.
    pub struct VhostUserVirtioFeatures: u64 {
        /// The backend logs the pages that it writes.
        const LOG_ALL = 1 << 26;
        /// There are protocol features.
        const PROTOCOL_FEATURES = 1 << 30;
    }

    /// The protocol features. [`Frontend::PROTOCOL_FEATURES`](super::Frontend::PROTOCOL_FEATURES) are those whose requests a
    /// frontend of this package makes.
    pub struct VhostUserProtocolFeatures: u64 {
        /// More than one ring.
        const MQ = 1 << 0;
        /// The dirty log is in shared memory.
        const LOG_SHMFD = 1 << 1;
        /// The backend announces the guest after a migration.
        const RARP = 1 << 2;
        /// Requests may ask to be acknowledged.
        const REPLY_ACK = 1 << 3;
        /// The MTU is told to the backend.
        const MTU = 1 << 4;
        /// The backend makes requests of its own.
        const BACKEND_REQ = 1 << 5;
        /// The byte order of rings is told to the backend.
        const CROSS_ENDIAN = 1 << 6;
        /// Sessions of a crypto device.
        const CRYPTO_SESSION = 1 << 7;
        /// Postcopy live migration.
        const PAGEFAULT = 1 << 8;
        /// The configuration space is the backend's.
        const CONFIG = 1 << 9;
        /// The backend's own requests may bring descriptors.
        const BACKEND_SEND_FD = 1 << 10;
        /// Notifications of the guest by memory of the backend.
        const HOST_NOTIFIER = 1 << 11;
        /// An inflight region.
        const INFLIGHT_SHMFD = 1 << 12;
        /// The device can be reset.
        const RESET_DEVICE = 1 << 13;
        /// Notifications as messages.
        const INBAND_NOTIFICATIONS = 1 << 14;
        /// Regions of memory can be added and removed one by one.
        const CONFIGURE_MEM_SLOTS = 1 << 15;
        /// The virtio status is told to the backend.
        const STATUS = 1 << 16;
        /// Regions of Xen.
        const XEN_MMAP = 1 << 17;
        /// Objects that backends share.
        const SHARED_OBJECT = 1 << 18;
        /// The device's state can be transferred.
        const DEVICE_STATE = 1 << 19;
        /// A ring may be stopped with buffers in flight.
        const GET_VRING_BASE_INFLIGHT = 1 << 20;
        /// The guest's addresses in place of the frontend's.
        const GPA_ADDRESSES = 1 << 21;
        /// Regions of shared memory.
        const SHMEM = 1 << 22;
    }

    /// The flags of a ring's addresses.
    pub struct VhostUserVringAddrFlags: u32 {
        /// Writes to the used ring are logged.
        const VHOST_VRING_F_LOG = 0x1;
    }

    /// The flags of a part of a region of shared memory.
    #[derive(Default)]
    pub struct VhostUserMMapFlags: u64 {
        /// It may be written.
        const WRITABLE = 1 << 0;
    }

    /// The flags of a part of the configuration space.
    pub struct VhostUserConfigFlags: u32 {
        /// A change by the guest's driver.
        const WRITABLE = 0x1;
        /// A change by a live migration.
        const LIVE_MIGRATION = 0x2;
    }
}

/// Whether a record is one that the protocol allows.
pub trait VhostUserMsgValidator {
    /// Whether it is.
    fn is_valid(&self) -> bool {
        true
    }
}

/// A number.
#[repr(transparent)]
#[derive(Clone, Copy, Debug, Default, PartialEq, Eq)]
pub struct VhostUserU64 {
    /// It.
    pub value: u64,
}

impl VhostUserU64 {
    /// This number.
    pub fn new(value: u64) -> Self {
        VhostUserU64 { value }
    }
}

impl VhostUserMsgValidator for VhostUserU64 {}

/// Whether a range wraps at the end of its addresses.
fn wraps(start: u64, size: u64) -> bool {
    start.checked_add(size).is_none()
}

/// A region of guest memory.
#[repr(C, packed)]
#[derive(Clone, Copy, Debug, Default, PartialEq, Eq)]
pub struct VhostUserMemoryRegion {
    /// Where it lies for the guest.
    pub guest_phys_addr: u64,
    /// Its size, in bytes.
    pub memory_size: u64,
    /// Where the frontend has mapped it.
    pub user_addr: u64,
    /// Where it begins in what its descriptor maps.
    pub mmap_offset: u64,
}

impl VhostUserMemoryRegion {
    /// A region of these fields.
    pub fn new(guest_phys_addr: u64, memory_size: u64, user_addr: u64, mmap_offset: u64) -> Self {
        VhostUserMemoryRegion { guest_phys_addr, memory_size, user_addr, mmap_offset }
    }

    /// Maps the region of its file. ReqHandlerError: it can't be mapped.
    #[cfg(feature = "vm-memory")]
    pub fn mmap_region<B: NewBitmap>(&self, file: File) -> Result<MmapRegion<B>> {
        let size = usize::try_from(self.memory_size).map_err(|_| Error::InvalidParam)?;
        let place = FileOffset::new(file, self.mmap_offset);
        MmapRegion::from_file(place, size).map_err(|cause| Error::ReqHandlerError(io::Error::new(io::ErrorKind::Other, cause)))
    }
}

impl VhostUserMsgValidator for VhostUserMemoryRegion {
    fn is_valid(&self) -> bool {
        let starts = [self.guest_phys_addr, self.user_addr, self.mmap_offset];
        self.memory_size != 0 && !starts.iter().any(|start| wraps(*start, self.memory_size))
    }
}

/// A region of guest memory that is added or removed by itself.
#[repr(C)]
#[derive(Clone, Copy, Debug, Default, PartialEq, Eq)]
pub struct VhostUserSingleMemoryRegion {
    padding: u64,
    region: VhostUserMemoryRegion,
}

impl VhostUserSingleMemoryRegion {
    /// A region of these fields.
    pub fn new(guest_phys_addr: u64, memory_size: u64, user_addr: u64, mmap_offset: u64) -> Self {
        VhostUserSingleMemoryRegion {
            padding: 0,
            region: VhostUserMemoryRegion::new(guest_phys_addr, memory_size, user_addr, mmap_offset),
        }
    }
}

impl Deref for VhostUserSingleMemoryRegion {
    type Target = VhostUserMemoryRegion;

    fn deref(&self) -> &VhostUserMemoryRegion {
        &self.region
    }
}

impl VhostUserMsgValidator for VhostUserSingleMemoryRegion {}

/// The regions of shared memory that a device has.
#[repr(C)]
#[derive(Clone, Copy, Debug, PartialEq, Eq)]
pub struct VhostUserShMemConfig {
    /// How many there are.
    pub nregions: u32,
    padding: u32,
    /// The size of each, in bytes, at its number; 0 where there is none.
    pub memory_sizes: [u64; 256],
}

impl VhostUserShMemConfig {
    /// So many regions, of these sizes from number 0 on.
    pub fn new(nregions: u32, memory: &[u64]) -> Self {
        let mut memory_sizes = [0; 256];
        for (size, given) in memory_sizes.iter_mut().zip(memory) {
            *size = *given;
        }
        VhostUserShMemConfig { nregions, padding: 0, memory_sizes }
    }
}

impl Default for VhostUserShMemConfig {
    fn default() -> Self {
        VhostUserShMemConfig::new(0, &[])
    }
}

impl VhostUserMsgValidator for VhostUserShMemConfig {}

/// A ring, and a number of it.
#[repr(C, packed)]
#[derive(Clone, Copy, Debug, Default, PartialEq, Eq)]
pub struct VhostUserVringState {
    /// The ring.
    pub index: u32,
    /// At which descriptor it goes on.
    pub num: u32,
}

impl VhostUserVringState {
    /// A ring of these fields.
    pub fn new(index: u32, num: u32) -> Self {
        VhostUserVringState { index, num }
    }
}

impl VhostUserMsgValidator for VhostUserVringState {}

/// Where the dirty log is in what its descriptor maps.
#[repr(C)]
#[derive(Clone, Copy, Debug, Default, PartialEq, Eq)]
pub struct VhostUserLog {
    /// Its size, in bytes.
    pub mmap_size: u64,
    /// Where it begins.
    pub mmap_offset: u64,
}

impl VhostUserLog {
    /// A log of these fields.
    pub fn new(mmap_size: u64, mmap_offset: u64) -> Self {
        VhostUserLog { mmap_size, mmap_offset }
    }
}

impl VhostUserMsgValidator for VhostUserLog {
    fn is_valid(&self) -> bool {
        self.mmap_size != 0 && !wraps(self.mmap_offset, self.mmap_size)
    }
}

/// A part of the configuration space.
#[repr(C, packed)]
#[derive(Clone, Copy, Debug, Default, PartialEq, Eq)]
pub struct VhostUserConfig {
    /// Where it begins, in bytes.
    pub offset: u32,
    /// Its size, in bytes.
    pub size: u32,
    /// Bits of [`VhostUserConfigFlags`].
    pub flags: u32,
}

impl VhostUserConfig {
    /// A part of these fields.
    pub fn new(offset: u32, size: u32, flags: VhostUserConfigFlags) -> Self {
        VhostUserConfig { offset, size, flags: flags.bits() }
    }
}

impl VhostUserMsgValidator for VhostUserConfig {
    fn is_valid(&self) -> bool {
        let end = u64::from(self.offset) + u64::from(self.size);
        self.size != 0 && end <= u64::from(VHOST_USER_CONFIG_SIZE) && VhostUserConfigFlags::from_bits(self.flags).is_some()
    }
}

/// The bytes of a part of the configuration space.
pub type VhostUserConfigPayload = Vec<u8>;

/// The inflight region, where a backend notes the buffers that it has taken and not given back.
#[repr(C)]
#[derive(Clone, Copy, Debug, Default, PartialEq, Eq)]
pub struct VhostUserInflight {
    /// Its size, in bytes.
    pub mmap_size: u64,
    /// Where it begins in what its descriptor maps.
    pub mmap_offset: u64,
    /// How many rings it is for.
    pub num_queues: u16,
    /// How many descriptors each of these rings has.
    pub queue_size: u16,
}

impl VhostUserInflight {
    /// A region of these fields.
    pub fn new(mmap_size: u64, mmap_offset: u64, num_queues: u16, queue_size: u16) -> Self {
        VhostUserInflight { mmap_size, mmap_offset, num_queues, queue_size }
    }
}

impl VhostUserMsgValidator for VhostUserInflight {
    fn is_valid(&self) -> bool {
        self.num_queues != 0 && self.queue_size != 0
    }
}

/// The name of an object that backends share.
#[repr(C)]
#[derive(Clone, Copy, Debug, Default, PartialEq, Eq)]
pub struct VhostUserSharedMsg {
    /// Neither all zeros nor all ones.
    pub uuid: Uuid,
}

impl VhostUserMsgValidator for VhostUserSharedMsg {
    fn is_valid(&self) -> bool {
        !self.uuid.is_nil() && self.uuid.as_bytes() != &[0xff; 16]
    }
}

/// A part of a region of shared memory, and what is mapped there.
#[repr(C, packed)]
#[derive(Clone, Copy, Debug, Default, PartialEq, Eq)]
pub struct VhostUserMMap {
    /// The number of the region.
    pub shmid: u8,
    /// Not looked at.
    pub padding: [u8; 7],
    /// Where it begins in what its descriptor maps.
    pub fd_offset: u64,
    /// Where it begins in the region.
    pub shm_offset: u64,
    /// Its size, in bytes.
    pub len: u64,
    /// Bits of [`VhostUserMMapFlags`].
    pub flags: u64,
}

impl VhostUserMsgValidator for VhostUserMMap {
    fn is_valid(&self) -> bool {
        let starts = [self.fd_offset, self.shm_offset];
        let is_known = VhostUserMMapFlags::from_bits(self.flags).is_some();
        self.len != 0 && is_known && !starts.iter().any(|start| wraps(*start, self.len))
    }
}
