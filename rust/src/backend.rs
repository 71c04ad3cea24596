// SPDX-License-Identifier: Apache-2.0
//! A backend as a VMM sees it: its calls, and their arguments.
use std::cell::RefCell;
use std::os::unix::io::{AsRawFd, RawFd};
use std::sync::RwLock;

#[cfg(feature = "vm-memory")]
use vm_memory::{bitmap::Bitmap, Address, GuestMemoryRegion, GuestRegionMmap};

use crate::vhost_user::message::{VhostUserMemoryRegion, VhostUserSingleMemoryRegion};
use crate::Result;

/// The greatest number of memory regions of a device.
pub const VHOST_MAX_MEMORY_REGIONS: usize = 255;

/// Where a ring lies. The three addresses of its parts are the frontend's own, `log_addr` is the guest's.
#[derive(Clone, Copy, Debug, Default)]
pub struct VringConfigData {
    /// The greatest size that the device allows. It is not sent.
    pub queue_max_size: u16,
    /// The size, in descriptors. It is not sent; [`set_vring_num`](VhostBackend::set_vring_num) tells it.
    pub queue_size: u16,
    /// Bit 0: writes to the used ring are logged.
    pub flags: u32,
    /// Where the descriptor table begins.
    pub desc_table_addr: u64,
    /// Where the used ring begins.
    pub used_ring_addr: u64,
    /// Where the available ring begins.
    pub avail_ring_addr: u64,
    /// Where the used ring begins for the guest, to log writes to it.
    pub log_addr: Option<u64>,
}

impl VringConfigData {
    /// Whether there is a log address, or none is needed.
    pub fn is_log_addr_valid(&self) -> bool {
        self.flags & 0x1 == 0 || self.log_addr.is_some()
    }

    /// The log address, or 0 where none is needed.
    pub fn get_log_addr(&self) -> u64 {
        match self.flags & 0x1 {
            0 => 0,
            _ => self.log_addr.unwrap_or(0),
        }
    }
}

/// Where a backend has mapped a region of guest memory.
pub type VhostUserMemoryRegionBase = u64;

/// A region of guest memory, and the descriptor that maps it, which stays the caller's.
#[derive(Clone, Copy, Debug, Default)]
pub struct VhostUserMemoryRegionInfo {
    /// Where it lies for the guest.
    pub guest_phys_addr: u64,
    /// Its size, in bytes.
    pub memory_size: u64,
    /// Where the frontend has mapped it.
    pub userspace_addr: u64,
    /// Where it begins in what the descriptor maps.
    pub mmap_offset: u64,
    /// The descriptor; a negative one is refused where one is sent.
    pub mmap_handle: RawFd,
}

impl VhostUserMemoryRegionInfo {
    /// The region that vm-memory has mapped. InvalidGuestMemoryRegion: it is mapped of no file. The descriptor stays the
    /// region's.
    #[cfg(feature = "vm-memory")]
    pub fn from_guest_region<B: Bitmap>(region: &GuestRegionMmap<B>) -> Result<Self> {
        let file = region.file_offset().ok_or(crate::Error::InvalidGuestMemoryRegion)?;
        Ok(VhostUserMemoryRegionInfo {
            guest_phys_addr: region.start_addr().raw_value(),
            memory_size: region.len(),
            userspace_addr: region.as_ptr() as u64,
            mmap_offset: file.start(),
            mmap_handle: file.file().as_raw_fd(),
        })
    }

    /// A region of these fields, for tests: in the crate it has more of them where regions are Xen's.
    #[cfg(feature = "test-utils")]
    pub fn new(guest_phys_addr: u64, memory_size: u64, userspace_addr: u64, mmap_offset: u64, mmap_handle: RawFd) -> Self {
        VhostUserMemoryRegionInfo { guest_phys_addr, memory_size, userspace_addr, mmap_offset, mmap_handle }
    }

    /// The region without its descriptor.
    pub fn to_region(&self) -> VhostUserMemoryRegion {
        let VhostUserMemoryRegionInfo { guest_phys_addr, memory_size, userspace_addr, mmap_offset, .. } = *self;
        VhostUserMemoryRegion::new(guest_phys_addr, memory_size, userspace_addr, mmap_offset)
    }

    /// The same, as it is added and removed by itself.
    pub fn to_single_region(&self) -> VhostUserSingleMemoryRegion {
        let VhostUserMemoryRegionInfo { guest_phys_addr, memory_size, userspace_addr, mmap_offset, .. } = *self;
        VhostUserSingleMemoryRegion::new(guest_phys_addr, memory_size, userspace_addr, mmap_offset)
    }
}

/// Where the dirty log is kept, and the descriptor that maps it, which stays the caller's.
#[derive(Clone, Copy, Debug, Default)]
pub struct VhostUserDirtyLogRegion {
    /// Its size, in bytes.
    pub mmap_size: u64,
    /// Where it begins in what the descriptor maps.
    pub mmap_offset: u64,
    /// The descriptor.
    pub mmap_handle: RawFd,
}

/// The trait of a backend; the same for one that changes by its calls; and that each lock around the latter is the former.
macro_rules! backend {
    ($($(#[$doc:meta])* fn $name:ident($($arg:ident: $ty:ty),*) -> $out:ty;)*) => {
        /// A backend, as a VMM asks it. A [`Frontend`](crate::vhost_user::Frontend) is one, over a socket: what
        /// each request means, the vhost-user specification says. Descriptors that are given stay the caller's.
        pub trait VhostBackend: Sized {
            $($(#[$doc])* fn $name(&self, $($arg: $ty),*) -> $out;)*
        }

        /// A [`VhostBackend`] whose calls change it.
        pub trait VhostBackendMut: Sized {
            $($(#[$doc])* fn $name(&mut self, $($arg: $ty),*) -> $out;)*
        }

        /// It panics where the lock is poisoned.
        impl<T: VhostBackendMut> VhostBackend for RwLock<T> {
            $($(#[$doc])* fn $name(&self, $($arg: $ty),*) -> $out {
                self.write().unwrap().$name($($arg),*)
            })*
        }

        /// It panics where the value is borrowed.
        impl<T: VhostBackendMut> VhostBackend for RefCell<T> {
            $($(#[$doc])* fn $name(&self, $($arg: $ty),*) -> $out {
                self.borrow_mut().$name($($arg),*)
            })*
        }
    };
}

backend! {
    /// The virtio features that the backend offers.
    fn get_features() -> Result<u64>;

    /// Accepts these virtio features.
    fn set_features(features: u64) -> Result<()>;

    /// Makes the caller the backend's owner.
    fn set_owner() -> Result<()>;

    /// Gives the ownership back.
    fn reset_owner() -> Result<()>;

    /// Tells the backend all regions of guest memory: 1 to 32, each with a size and a descriptor. Where the backend has mapped
    /// them, if it listens for page faults.
    #[cfg(not(feature = "compat-0_17"))]
    fn set_mem_table(regions: &[VhostUserMemoryRegionInfo]) -> Result<Option<Vec<VhostUserMemoryRegionBase>>>;

    /// Tells the backend all regions of guest memory: 1 to 32, each with a size and a descriptor.
    #[cfg(feature = "compat-0_17")]
    fn set_mem_table(regions: &[VhostUserMemoryRegionInfo]) -> Result<()>;

    /// Tells the backend where the dirty log is kept: at this address, or in this region where LOG_SHMFD was accepted. To a region
    /// a reply is awaited: some backends send none. Some send one of 8 bytes, which is refused under the profile `Vhost`.
    fn set_log_base(base: u64, region: Option<VhostUserDirtyLogRegion>) -> Result<()>;

    /// Gives the eventfd by which the backend signals that it logged.
    fn set_log_fd(fd: RawFd) -> Result<()>;

    /// Sets the size of a ring, in descriptors.
    fn set_vring_num(queue_index: usize, num: u16) -> Result<()>;

    /// Sets the addresses of a ring.
    fn set_vring_addr(queue_index: usize, config_data: &VringConfigData) -> Result<()>;

    /// Sets at which descriptor a ring goes on.
    fn set_vring_base(queue_index: usize, base: u16) -> Result<()>;

    /// Stops a ring, and asks at which descriptor it goes on.
    fn get_vring_base(queue_index: usize) -> Result<u32>;

    /// Gives the eventfd by which the backend signals used buffers.
    fn set_vring_call(queue_index: usize, fd: &dyn AsRawFd) -> Result<()>;

    /// Gives the eventfd by which the guest's driver signals available buffers.
    fn set_vring_kick(queue_index: usize, fd: &dyn AsRawFd) -> Result<()>;

    /// Gives the eventfd by which the backend signals an error of a ring.
    fn set_vring_err(queue_index: usize, fd: &dyn AsRawFd) -> Result<()>;
}
