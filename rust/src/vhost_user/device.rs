// SPDX-License-Identifier: Apache-2.0
//! A device as a backend serves it: its calls, and their arguments.
use std::fs::File;
use std::sync::Mutex;

use super::message::*;
use super::{close_at_once, Backend, Error, GpuBackend, Result};
#[cfg(not(feature = "compat-0_17"))]
use crate::VhostUserMemoryRegionBase;

/// The trait of a device; the same for one that changes by its calls; and that a lock around the latter is the former.
macro_rules! devices {
    (
        required { $($(#[$doc:meta])* fn $name:ident($($arg:ident: $ty:ty),*) -> $out:ty;)* }
        provided { $($(#[$doc2:meta])* fn $name2:ident($($arg2:ident: $ty2:ty),*) -> $out2:ty { $default:expr })* }
    ) => {
        /// A device, as a [`BackendReqHandler`](super::BackendReqHandler) asks it. Each call is a request that passed all checks
        /// of the protocol; what it means, the vhost-user specification says. A ring's index may be one that the device has not.
        /// What a call is given is the device's, as the frontend made it: a call of it may wait, and its close, too, where it is a socket
        /// that lingers ([`close_at_once`](super::close_at_once) does not). An error refuses the request; it goes to who called
        /// [`handle_request`](super::BackendReqHandler::handle_request), and is not sent. Where the reply is a value that can't say
        /// so, as of `get_features`, the frontend is hung up on; under [`Profile::Vhost`](super::Profile) it waits.
        pub trait VhostUserBackendReqHandler {
            $($(#[$doc])* fn $name(&self, $($arg: $ty),*) -> $out;)*
            $($(#[$doc2])* #[allow(unused_variables)] fn $name2(&self, $($arg2: $ty2),*) -> $out2 { $default })*
        }

        /// A [`VhostUserBackendReqHandler`] whose calls change it. In a [`Mutex`] it is one.
        pub trait VhostUserBackendReqHandlerMut {
            $($(#[$doc])* fn $name(&mut self, $($arg: $ty),*) -> $out;)*
            $($(#[$doc2])* #[allow(unused_variables)] fn $name2(&mut self, $($arg2: $ty2),*) -> $out2 { $default })*
        }

        /// It panics where the lock is poisoned.
        impl<T: VhostUserBackendReqHandlerMut> VhostUserBackendReqHandler for Mutex<T> {
            $($(#[$doc])* fn $name(&self, $($arg: $ty),*) -> $out {
                self.lock().unwrap().$name($($arg),*)
            })*
            $(fn $name2(&self, $($arg2: $ty2),*) -> $out2 {
                self.lock().unwrap().$name2($($arg2),*)
            })*
        }
    };
}

devices! {
    required {
        /// A frontend owns the session.
        fn set_owner() -> Result<()>;

        /// It gives the ownership back.
        fn reset_owner() -> Result<()>;

        /// Resets the device.
        fn reset_device() -> Result<()>;

        /// The virtio features that the device offers. VIRTIO_F_VERSION_1 (bit 32) should be among them: without it rings are in the
        /// guest's byte order, and no request that is served tells which that is.
        fn get_features() -> Result<u64>;

        /// The frontend accepted these virtio features, which may be others than were offered.
        fn set_features(features: u64) -> Result<()>;

        /// All regions of guest memory, 1 to 32, and the file that maps each. While postcopy listens it returns where each is
        /// mapped; else what it returns is not looked at.
        #[cfg(not(feature = "compat-0_17"))]
        fn set_mem_table(
            ctx: &[VhostUserMemoryRegion],
            files: Vec<File>,
            postcopy_listening: Option<bool>
        ) -> Result<Option<Vec<VhostUserMemoryRegionBase>>>;

        /// All regions of guest memory, 1 to 32, and the file that maps each. Not while postcopy listens.
        #[cfg(feature = "compat-0_17")]
        fn set_mem_table(ctx: &[VhostUserMemoryRegion], files: Vec<File>) -> Result<()>;

        /// The size of a ring, in descriptors.
        fn set_vring_num(index: u32, num: u32) -> Result<()>;

        /// The addresses of a ring's parts, which are the frontend's own, and of its used ring for the guest.
        fn set_vring_addr(
            index: u32,
            flags: VhostUserVringAddrFlags,
            descriptor: u64,
            used: u64,
            available: u64,
            log: u64
        ) -> Result<()>;

        /// At which descriptor a ring goes on.
        fn set_vring_base(index: u32, base: u32) -> Result<()>;

        /// Stops a ring: at which descriptor it goes on.
        fn get_vring_base(index: u32) -> Result<VhostUserVringState>;

        /// The eventfd by which the guest's driver signals available buffers. Once that is first readable the ring is started, until
        /// `get_vring_base`. None: it is to be polled, and is started from now on.
        fn set_vring_kick(index: u8, fd: Option<File>) -> Result<()>;

        /// The eventfd by which the device signals used buffers. None: it signals none.
        fn set_vring_call(index: u8, fd: Option<File>) -> Result<()>;

        /// The eventfd by which the device signals an error of a ring. None: it signals none.
        fn set_vring_err(index: u8, fd: Option<File>) -> Result<()>;

        /// The protocol features that the device offers: of [`SERVED_PROTOCOL_FEATURES`](super::SERVED_PROTOCOL_FEATURES), what it
        /// can do. REPLY_ACK is offered in any case.
        fn get_protocol_features() -> Result<VhostUserProtocolFeatures>;

        /// The frontend accepted these protocol features, which may be others than were offered.
        fn set_protocol_features(features: u64) -> Result<()>;

        /// How many rings the device has.
        fn get_queue_num() -> Result<u64>;

        /// Enables a ring, or disables it: a ring is processed while it is started and enabled. Where `set_features` had no
        /// PROTOCOL_FEATURES it is enabled from its start; else not before this call.
        fn set_vring_enable(index: u32, enable: bool) -> Result<()>;

        /// So many bytes of the configuration space. Where it returns another number of bytes, or an error, the reply says that
        /// there are none, and the error goes no further.
        fn get_config(offset: u32, size: u32, flags: VhostUserConfigFlags) -> Result<Vec<u8>>;

        /// Writes to the configuration space.
        fn set_config(offset: u32, buf: &[u8], flags: VhostUserConfigFlags) -> Result<()>;

        /// The vhost-user-gpu channel.
        fn set_gpu_socket(gpu_backend: GpuBackend) -> Result<()>;

        /// The inflight region for so many rings of this size, and the file that maps it.
        fn get_inflight_fd(inflight: &VhostUserInflight) -> Result<(VhostUserInflight, File)>;

        /// The inflight region of a backend in whose place this one is.
        fn set_inflight_fd(inflight: &VhostUserInflight, file: File) -> Result<()>;

        /// How many regions of memory the device can have.
        fn get_max_mem_slots() -> Result<u64>;

        /// Another region, and the file that maps it. While postcopy listens it returns where that is mapped.
        #[cfg(not(feature = "compat-0_17"))]
        fn add_mem_region(
            region: &VhostUserSingleMemoryRegion,
            fd: File,
            postcopy_listening: Option<bool>
        ) -> Result<Option<VhostUserMemoryRegionBase>>;

        /// Another region, and the file that maps it. Not while postcopy listens.
        #[cfg(feature = "compat-0_17")]
        fn add_mem_region(region: &VhostUserSingleMemoryRegion, fd: File) -> Result<()>;

        /// A region that the device has no longer.
        fn remove_mem_region(region: &VhostUserSingleMemoryRegion) -> Result<()>;

        /// A pipe by which the device's state is transferred. It returns another file that it would rather use. An error is
        /// replied, and goes no further.
        fn set_device_state_fd(
            direction: VhostTransferStateDirection,
            phase: VhostTransferStatePhase,
            fd: File
        ) -> Result<Option<File>>;

        /// Whether the device's state was transferred whole. An error is replied, and goes no further.
        fn check_device_state() -> Result<()>;

        /// The dirty log, and the file that maps it.
        fn set_log_base(log: &VhostUserLog, file: File) -> Result<()>;
    }

    provided {
        /// The backend channel. Where it is not taken it is closed.
        fn set_backend_req_fd(backend: Backend) -> () { () }

        /// The greatest size of what a frame carries.
        fn set_mtu(mtu: u16) -> Result<()> { Err(Error::InvalidOperation("no network device")) }

        /// The object of this name. An error is replied without a file, and goes no further.
        fn get_shared_object(uuid: VhostUserSharedMsg) -> Result<File> { Err(Error::InvalidOperation("no shared objects")) }

        /// The device's regions of shared memory; it has none.
        fn get_shmem_config() -> Result<VhostUserShMemConfig> { Ok(VhostUserShMemConfig::default()) }

        /// Begins postcopy: a userfaultfd. An error is replied without a file, and goes no further.
        fn postcopy_advice() -> Result<File> { Err(NO_POSTCOPY) }

        /// Listens for page faults from now on.
        fn postcopy_listen() -> Result<()> { Err(NO_POSTCOPY) }

        /// Ends postcopy.
        fn postcopy_end() -> Result<()> { Err(NO_POSTCOPY) }

        /// The frontend mapped the regions of the request before.
        fn postcopy_ack_mem_regions() -> Result<()> { Err(NO_POSTCOPY) }

        /// A request that has no call of its own here, under [`Profile::Standard`](super::Profile): its number, its body, and the files
        /// that came with it. An error says that it is not served, as no request is. `vhost` has no such call.
        fn other(request: u32, body: &[u8], files: Vec<File>) -> Result<()> { not_served(files) }
    }
}

const NO_POSTCOPY: Error = Error::InvalidOperation("no postcopy");

/// What nobody serves is closed without waiting for its peer.
fn not_served(files: Vec<File>) -> Result<()> {
    files.into_iter().for_each(close_at_once);
    Err(Error::InvalidOperation(crate::reasons::UNSERVED))
}
