// SPDX-License-Identifier: Apache-2.0
//! The frontend: each call, as the crate `vhost` names it, is one of the proved session's.
use std::fs::File;
use std::io::{self, ErrorKind};
use std::os::unix::io::{AsRawFd, OwnedFd, RawFd};
use std::os::unix::net::UnixStream;
use std::path::Path;
use std::sync::{Arc, Mutex, MutexGuard, PoisonError};
use std::thread::sleep;
use std::time::Duration;

use super::connection::Connection;
use super::frontend_session::FrontendSession;
use super::message::*;
use super::{Error as VhostUserError, Profile};
use crate::foreign::{Inflight, Outcome, PeerSocket, Region, Vring};
use crate::{
    Result, VhostBackend, VhostUserDirtyLogRegion, VhostUserMemoryRegionBase, VhostUserMemoryRegionInfo, VringConfigData,
};

/// A vhost-user backend, as a VMM asks it: the calls beside those of a [`VhostBackend`]. Each wants a feature,
/// which is named here; without it the error is InactiveOperation or InactiveFeature, and nothing is sent.
pub trait VhostUserFrontend: VhostBackend {
    /// The protocol features that the backend offers, without those that have no name here. PROTOCOL_FEATURES offered.
    fn get_protocol_features(&mut self) -> Result<VhostUserProtocolFeatures>;

    /// Accepts these protocol features. PROTOCOL_FEATURES offered. Leave out what the backend did not offer, and what is not in
    /// [`Frontend::PROTOCOL_FEATURES`]: a backend may wait for the requests of a feature that was accepted.
    fn set_protocol_features(&mut self, features: VhostUserProtocolFeatures) -> Result<()>;

    /// How many rings the backend has: from then on a ring's index is below it. MQ.
    fn get_queue_num(&mut self) -> Result<u64>;

    /// Resets the device. RESET_DEVICE.
    fn reset_device(&mut self) -> Result<()>;

    /// Enables a ring, or disables it. PROTOCOL_FEATURES accepted.
    fn set_vring_enable(&mut self, queue_index: usize, enable: bool) -> Result<()>;

    /// A part of the configuration space. The request brings `buf` along, which has so many bytes. BackendInternalError: there
    /// are no such bytes. CONFIG.
    fn get_config(
        &mut self,
        offset: u32,
        size: u32,
        flags: VhostUserConfigFlags,
        buf: &[u8],
    ) -> Result<(VhostUserConfig, VhostUserConfigPayload)>;

    /// Writes a part of the configuration space. CONFIG.
    fn set_config(&mut self, offset: u32, flags: VhostUserConfigFlags, buf: &[u8]) -> Result<()>;

    /// Gives the socket on which the backend makes requests of its own. It stays the caller's. BACKEND_REQ.
    fn set_backend_request_fd(&mut self, fd: &dyn AsRawFd) -> Result<()>;

    /// The object of this name that the backend shares. BackendInternalError: it replied without a descriptor, as one does that has no
    /// such object; under [`Profile::Vhost`](super::Profile) that is InvalidMessage, and the connection ends. SHARED_OBJECT.
    fn get_shared_object(&mut self, uuid: &VhostUserSharedMsg) -> Result<File>;

    /// The inflight region for so many rings of this size, and the file that maps it. InvalidParam: there are none, or of no size; under
    /// [`Profile::Vhost`](super::Profile) that is sent. INFLIGHT_SHMFD.
    fn get_inflight_fd(&mut self, inflight: &VhostUserInflight) -> Result<(VhostUserInflight, File)>;

    /// Gives the inflight region to a backend that takes the place of one that ended. The descriptor stays the caller's.
    /// INFLIGHT_SHMFD.
    fn set_inflight_fd(&mut self, inflight: &VhostUserInflight, fd: RawFd) -> Result<()>;

    /// How many regions of memory the backend can have. CONFIGURE_MEM_SLOTS.
    fn get_max_mem_slots(&mut self) -> Result<u64>;

    /// Adds a region, with a size and a descriptor. Where the backend has mapped it, if it listens for page faults.
    /// CONFIGURE_MEM_SLOTS.
    #[cfg(not(feature = "compat-0_17"))]
    fn add_mem_region(&mut self, region: &VhostUserMemoryRegionInfo) -> Result<Option<VhostUserMemoryRegionBase>>;

    /// Adds a region, with a size and a descriptor. CONFIGURE_MEM_SLOTS.
    #[cfg(feature = "compat-0_17")]
    fn add_mem_region(&mut self, region: &VhostUserMemoryRegionInfo) -> Result<()>;

    /// Removes a region; its descriptor is not sent. CONFIGURE_MEM_SLOTS.
    fn remove_mem_region(&mut self, region: &VhostUserMemoryRegionInfo) -> Result<()>;

    /// The device's regions of shared memory. SHMEM.
    fn get_shmem_config(&mut self) -> Result<VhostUserShMemConfig>;

    /// Gives a pipe by which the device's state is transferred, and closes its own end of it. The file is another one that the
    /// backend wants to use; None where it uses the one that was given. DEVICE_STATE.
    fn set_device_state_fd(
        &self,
        direction: VhostTransferStateDirection,
        phase: VhostTransferStatePhase,
        fd: OwnedFd,
    ) -> Result<Option<File>>;

    /// Whether the device's state was transferred whole; else BackendInternalError. DEVICE_STATE.
    fn check_device_state(&self) -> Result<()>;

    /// Begins postcopy: the userfaultfd of the backend. PAGEFAULT.
    fn postcopy_advise(&mut self) -> Result<File>;

    /// The backend listens for page faults from now on. PAGEFAULT.
    fn postcopy_listen(&mut self) -> Result<()>;

    /// Tells the backend that the bases of the regions were taken, which came with the reply to this request: SET_MEM_TABLE or
    /// ADD_MEM_REG.
    fn postcopy_ack_mem_regions(&mut self, code: FrontendReq) -> Result<()>;

    /// Ends postcopy. Under `Standard` its reply is awaited whatever the flags are, and where that refuses, postcopy has ended all the
    /// same. Under `Vhost` a reply that some backends send without NEED_REPLY, too, is taken for the next call's. PAGEFAULT.
    fn postcopy_end(&mut self) -> Result<()>;
}

/// A frontend, connected to a backend. A clone is the same connection: each call is whole before another thread's begins.
///
/// It waits in a call for the backend, as long as that likes where there is no [limit of time](Frontend::set_timeout). Its errors
/// stand in [`Error::VhostUserProtocol`](crate::Error::VhostUserProtocol). A descriptor that the backend sends is closed at once
/// where it is not the reply's, and all of a reply that is refused.
#[derive(Clone)]
pub struct Frontend {
    node: Arc<Mutex<Connection<FrontendSession>>>,
    /// The same socket, for who does not wait until a call is over.
    socket: Arc<PeerSocket>,
}

impl Frontend {
    /// The protocol features whose requests this frontend makes: accept what the backend offers of these, and no more.
    pub const PROTOCOL_FEATURES: VhostUserProtocolFeatures = VhostUserProtocolFeatures::from_bits_retain(
        VhostUserProtocolFeatures::MQ.bits()
            | VhostUserProtocolFeatures::LOG_SHMFD.bits()
            | VhostUserProtocolFeatures::REPLY_ACK.bits()
            | VhostUserProtocolFeatures::MTU.bits()
            | VhostUserProtocolFeatures::BACKEND_REQ.bits()
            | VhostUserProtocolFeatures::PAGEFAULT.bits()
            | VhostUserProtocolFeatures::CONFIG.bits()
            | VhostUserProtocolFeatures::INFLIGHT_SHMFD.bits()
            | VhostUserProtocolFeatures::RESET_DEVICE.bits()
            | VhostUserProtocolFeatures::CONFIGURE_MEM_SLOTS.bits()
            | VhostUserProtocolFeatures::SHARED_OBJECT.bits()
            | VhostUserProtocolFeatures::DEVICE_STATE.bits()
            | VhostUserProtocolFeatures::SHMEM.bits(),
    );

    /// A frontend over a connected socket, of a backend of at most so many rings. A read timeout of the socket becomes the limit
    /// of time. It panics where an allocation fails.
    pub fn from_stream(sock: UnixStream, max_queue_num: u64) -> Self {
        let node = Connection::new(sock, max_queue_num);
        let socket = node.socket();
        Frontend { node: Arc::new(Mutex::new(node)), socket }
    }

    /// Connects to the backend at a path, of at most so many rings. Where it refuses, five times more after 100 ms each.
    /// SocketConnect: nobody listens there, or another error of the system.
    pub fn connect<P: AsRef<Path>>(path: P, max_queue_num: u64) -> Result<Self> {
        let mut tries_left = 5;
        loop {
            match UnixStream::connect(&path) {
                Ok(socket) => return Ok(Frontend::from_stream(socket, max_queue_num)),
                Err(cause) if cause.kind() == ErrorKind::ConnectionRefused && tries_left > 0 => {
                    tries_left -= 1;
                    sleep(Duration::from_millis(100));
                }
                Err(cause) => return Err(VhostUserError::SocketConnect(cause).into()),
            }
        }
    }

    /// The flags of each request from now on: NEED_REPLY, or none; no other is looked at. With NEED_REPLY each request is
    /// acknowledged that has no reply of its own, where REPLY_ACK was accepted; else a refusal of it by the backend is not seen.
    /// Under the profile `Vhost` set it only once REPLY_ACK was accepted: a backend acknowledges each request that has it, and else
    /// nobody awaits that.
    pub fn set_hdr_flags(&self, flags: VhostUserHeaderFlag) {
        self.node().set(|session| session.set_hdr_flags((flags & VhostUserHeaderFlag::NEED_REPLY).bits()));
    }

    /// Whose behaviour each call has from now on. Under `Standard` NEED_REPLY goes out only where REPLY_ACK was accepted,
    /// `set_log_base` without a region is acknowledged like other calls, and a reply to SET_LOG_BASE may have any size.
    /// `postcopy_listen` and `postcopy_end` are answered whatever the flags are. A reply to GET_CONFIG without a body is
    /// BackendInternalError, as is one without a descriptor to GET_SHARED_OBJECT, to POSTCOPY_ADVISE, and of size 0 to
    /// GET_INFLIGHT_FD.
    pub fn set_profile(&self, profile: Profile) {
        self.node().set(|session| session.set_profile(profile as u32));
    }

    /// Limits the time of each call, all of it; None: no limit. A call that takes longer is SocketBroken, with a cause of the
    /// kind `TimedOut`.
    pub fn set_timeout(&self, timeout: Option<Duration>) {
        self.node().set_timeout(timeout);
    }

    /// Another descriptor of the socket, at once, also while another thread waits in a call.
    pub fn try_clone_connection(&self) -> io::Result<UnixStream> {
        self.socket.try_clone()
    }

    /// Hangs up on the backend, at once, also while another thread waits in a call: that one fails, and each later one, and the
    /// backend sees that its frontend is gone.
    pub fn shutdown(&self) {
        self.socket.hang_up();
    }

    /// Sets where a packed ring goes on: both its indices with their wrap counters, in 32 bits as the specification has them.
    pub fn set_packed_vring_base(&self, queue_index: usize, base: u32) -> Result<()> {
        self.done(|session| session.set_vring_base(queue_index, base))
    }

    /// Tells a network device the greatest size of what a frame carries. MTU.
    pub fn set_mtu(&mut self, mtu: u16) -> Result<()> {
        self.done(|session| session.set_mtu(mtu))
    }

    fn node(&self) -> MutexGuard<'_, Connection<FrontendSession>> {
        // A thread that panicked amid a call left no half of a message: what ends one stands in the connection.
        self.node.lock().unwrap_or_else(PoisonError::into_inner)
    }

    /// A call that has no value.
    fn done(&self, ask: impl FnOnce(&mut FrontendSession) -> Outcome) -> Result<()> {
        self.node().call(ask)?;
        Ok(())
    }

    /// A call whose value is a number.
    fn number(&self, ask: impl FnOnce(&mut FrontendSession) -> Outcome) -> Result<u64> {
        let mut node = self.node();
        node.call(ask)?;
        Ok(node.answer(|session| session.answer_number())?)
    }

    /// A call whose value is where so many regions are mapped, or nothing.
    fn bases(&self, count: usize, ask: impl FnOnce(&mut FrontendSession) -> Outcome) -> Result<Option<Vec<u64>>> {
        let mut node = self.node();
        node.call(ask)?;
        let mut bases = vec![0; count];
        let count = node.answer(|session| session.answer_bases(&mut bases))?;
        bases.truncate(count);
        Ok(Some(bases).filter(|bases| !bases.is_empty()))
    }

    /// Tells all regions: where they are mapped, if the backend says so.
    fn map_table(&self, regions: &[VhostUserMemoryRegionInfo]) -> Result<Option<Vec<VhostUserMemoryRegionBase>>> {
        let table: Vec<Region> = regions.iter().map(region_of).collect();
        self.bases(table.len(), |session| session.set_mem_table(&table))
    }

    /// The same of another one.
    fn map_region(&self, region: &VhostUserMemoryRegionInfo) -> Result<Option<VhostUserMemoryRegionBase>> {
        let bases = self.bases(1, |session| session.add_mem_region(&region_of(region)))?;
        Ok(bases.and_then(|bases| bases.first().copied()))
    }

    /// A call whose value is a file, or nothing.
    fn file(&self, ask: impl FnOnce(&mut FrontendSession) -> Outcome) -> Result<Option<File>> {
        let ((), file) = self.node().call_for_file(ask, |session| Ok(((), session.answer_fd()?)))?;
        Ok(file)
    }

    /// A call whose value is a file.
    fn needed_file(&self, ask: impl FnOnce(&mut FrontendSession) -> Outcome) -> Result<File> {
        self.file(ask)?.ok_or_else(|| VhostUserError::IncorrectFds.into())
    }
}

impl AsRawFd for Frontend {
    fn as_raw_fd(&self) -> RawFd {
        self.socket.as_raw_fd()
    }
}

fn region_of(info: &VhostUserMemoryRegionInfo) -> Region {
    Region {
        guest_phys_addr: info.guest_phys_addr,
        memory_size: info.memory_size,
        user_addr: info.userspace_addr,
        mmap_offset: info.mmap_offset,
        fd: info.mmap_handle,
    }
}

fn log_of(log: &VhostUserDirtyLogRegion) -> Region {
    Region { guest_phys_addr: 0, memory_size: log.mmap_size, user_addr: 0, mmap_offset: log.mmap_offset, fd: log.mmap_handle }
}

fn ring_of(data: &VringConfigData) -> Vring {
    Vring {
        queue_max_size: data.queue_max_size,
        queue_size: data.queue_size,
        flags: data.flags,
        desc_table_addr: data.desc_table_addr,
        used_ring_addr: data.used_ring_addr,
        avail_ring_addr: data.avail_ring_addr,
        log_addr: data.log_addr.unwrap_or(0),
        has_log_addr: data.log_addr.is_some(),
    }
}

fn inflight_of(inflight: &VhostUserInflight) -> Inflight {
    Inflight {
        mmap_size: inflight.mmap_size,
        mmap_offset: inflight.mmap_offset,
        num_queues: inflight.num_queues,
        queue_size: inflight.queue_size,
    }
}

impl VhostBackend for Frontend {
    fn get_features(&self) -> Result<u64> {
        self.number(FrontendSession::get_features)
    }

    fn set_features(&self, features: u64) -> Result<()> {
        self.done(|session| session.set_features(features))
    }

    fn set_owner(&self) -> Result<()> {
        self.done(|session| session.set_owner())
    }

    fn reset_owner(&self) -> Result<()> {
        self.done(|session| session.reset_owner())
    }

    #[cfg(not(feature = "compat-0_17"))]
    fn set_mem_table(&self, regions: &[VhostUserMemoryRegionInfo]) -> Result<Option<Vec<VhostUserMemoryRegionBase>>> {
        self.map_table(regions)
    }

    #[cfg(feature = "compat-0_17")]
    fn set_mem_table(&self, regions: &[VhostUserMemoryRegionInfo]) -> Result<()> {
        self.map_table(regions).map(drop)
    }

    fn set_log_base(&self, base: u64, region: Option<VhostUserDirtyLogRegion>) -> Result<()> {
        match region {
            Some(region) => self.done(|session| session.set_log_base(base, &log_of(&region))),
            None => self.done(|session| session.set_log_base_alone(base)),
        }
    }

    fn set_log_fd(&self, fd: RawFd) -> Result<()> {
        self.done(|session| session.set_log_fd(fd))
    }

    fn set_vring_num(&self, queue_index: usize, num: u16) -> Result<()> {
        self.done(|session| session.set_vring_num(queue_index, num))
    }

    fn set_vring_addr(&self, queue_index: usize, config_data: &VringConfigData) -> Result<()> {
        self.done(|session| session.set_vring_addr(queue_index, &ring_of(config_data)))
    }

    fn set_vring_base(&self, queue_index: usize, base: u16) -> Result<()> {
        self.set_packed_vring_base(queue_index, base.into())
    }

    fn get_vring_base(&self, queue_index: usize) -> Result<u32> {
        // The reply has 32 bits for it.
        Ok(self.number(|session| session.get_vring_base(queue_index))? as u32)
    }

    fn set_vring_call(&self, queue_index: usize, fd: &dyn AsRawFd) -> Result<()> {
        let fd = fd.as_raw_fd();
        self.done(|session| session.set_vring_call(queue_index, fd))
    }

    fn set_vring_kick(&self, queue_index: usize, fd: &dyn AsRawFd) -> Result<()> {
        let fd = fd.as_raw_fd();
        self.done(|session| session.set_vring_kick(queue_index, fd))
    }

    fn set_vring_err(&self, queue_index: usize, fd: &dyn AsRawFd) -> Result<()> {
        let fd = fd.as_raw_fd();
        self.done(|session| session.set_vring_err(queue_index, fd))
    }
}

impl VhostUserFrontend for Frontend {
    fn get_protocol_features(&mut self) -> Result<VhostUserProtocolFeatures> {
        self.number(|session| session.get_protocol_features()).map(VhostUserProtocolFeatures::from_bits_truncate)
    }

    fn set_protocol_features(&mut self, features: VhostUserProtocolFeatures) -> Result<()> {
        self.done(|session| session.set_protocol_features(features.bits()))
    }

    fn get_queue_num(&mut self) -> Result<u64> {
        self.number(|session| session.get_queue_num())
    }

    fn reset_device(&mut self) -> Result<()> {
        self.done(|session| session.reset_device())
    }

    fn set_vring_enable(&mut self, queue_index: usize, enable: bool) -> Result<()> {
        self.done(|session| session.set_vring_enable(queue_index, enable))
    }

    fn get_config(
        &mut self,
        offset: u32,
        size: u32,
        flags: VhostUserConfigFlags,
        buf: &[u8],
    ) -> Result<(VhostUserConfig, VhostUserConfigPayload)> {
        if buf.len() != size as usize {
            return Err(VhostUserError::InvalidParam.into());
        }
        let mut node = self.node();
        node.call(|session| session.get_config(offset, flags.bits(), buf))?;
        let mut bytes = buf.to_vec();
        let (config, count) = node.answer(|session| session.answer_config(&mut bytes))?;
        bytes.truncate(count);
        Ok((VhostUserConfig { offset: config.offset, size: config.size, flags: config.flags }, bytes))
    }

    fn set_config(&mut self, offset: u32, flags: VhostUserConfigFlags, buf: &[u8]) -> Result<()> {
        self.done(|session| session.set_config(offset, flags.bits(), buf))
    }

    fn set_backend_request_fd(&mut self, fd: &dyn AsRawFd) -> Result<()> {
        let fd = fd.as_raw_fd();
        self.done(|session| session.set_backend_request_fd(fd))
    }

    fn get_shared_object(&mut self, uuid: &VhostUserSharedMsg) -> Result<File> {
        self.needed_file(|session| session.get_shared_object(uuid.uuid.as_bytes()))
    }

    fn get_inflight_fd(&mut self, inflight: &VhostUserInflight) -> Result<(VhostUserInflight, File)> {
        let ask = |session: &mut FrontendSession| session.get_inflight_fd(&inflight_of(inflight));
        let (found, file) = self.node().call_for_file(ask, |session| session.answer_inflight())?;
        let file = file.ok_or(VhostUserError::IncorrectFds)?;
        let Inflight { mmap_size, mmap_offset, num_queues, queue_size } = found;
        Ok((VhostUserInflight::new(mmap_size, mmap_offset, num_queues, queue_size), file))
    }

    fn set_inflight_fd(&mut self, inflight: &VhostUserInflight, fd: RawFd) -> Result<()> {
        self.done(|session| session.set_inflight_fd(&inflight_of(inflight), fd))
    }

    fn get_max_mem_slots(&mut self) -> Result<u64> {
        self.number(|session| session.get_max_mem_slots())
    }

    #[cfg(not(feature = "compat-0_17"))]
    fn add_mem_region(&mut self, region: &VhostUserMemoryRegionInfo) -> Result<Option<VhostUserMemoryRegionBase>> {
        self.map_region(region)
    }

    #[cfg(feature = "compat-0_17")]
    fn add_mem_region(&mut self, region: &VhostUserMemoryRegionInfo) -> Result<()> {
        self.map_region(region).map(drop)
    }

    fn remove_mem_region(&mut self, region: &VhostUserMemoryRegionInfo) -> Result<()> {
        self.done(|session| session.remove_mem_region(&region_of(region)))
    }

    fn get_shmem_config(&mut self) -> Result<VhostUserShMemConfig> {
        let mut node = self.node();
        node.call(|session| session.get_shmem_config())?;
        let mut sizes = [0; 256];
        let count = node.answer(|session| session.answer_shmem(&mut sizes))?;
        Ok(VhostUserShMemConfig::new(u32::try_from(count).unwrap_or(u32::MAX), &sizes))
    }

    fn set_device_state_fd(
        &self,
        direction: VhostTransferStateDirection,
        phase: VhostTransferStatePhase,
        fd: OwnedFd,
    ) -> Result<Option<File>> {
        self.file(|session| session.set_device_state_fd(direction.into(), phase.into(), fd.as_raw_fd()))
    }

    fn check_device_state(&self) -> Result<()> {
        self.done(|session| session.check_device_state())
    }

    fn postcopy_advise(&mut self) -> Result<File> {
        self.needed_file(|session| session.postcopy_advise())
    }

    fn postcopy_listen(&mut self) -> Result<()> {
        self.done(FrontendSession::postcopy_listen)
    }

    fn postcopy_ack_mem_regions(&mut self, code: FrontendReq) -> Result<()> {
        self.done(|session| session.postcopy_ack_mem_regions(code.into()))
    }

    fn postcopy_end(&mut self) -> Result<()> {
        self.done(FrontendSession::postcopy_end)
    }
}
