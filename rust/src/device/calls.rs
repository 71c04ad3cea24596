// SPDX-License-Identifier: Apache-2.0
//! What each call of a frontend means for a device.
use std::collections::btree_map::Entry;
use std::fs::File;
use std::io;
use std::os::unix::io::{AsRawFd, OwnedFd, RawFd};
use std::os::unix::net::UnixStream;
use std::sync::{Arc, Mutex, MutexGuard, PoisonError};

use super::arrival::Arrival;
use super::shared::{Place, Shared, State};
use super::{features_of, protocol_features_of, Device, MAX_QUEUE_SIZE, MAX_REGIONS, RING_PACKED};
use crate::foreign::{Bell, Kick, PeerFd};
use crate::queue::{Change, DirtyLog, GuestAddress, GuestMemory, GuestRegion, InflightRegion};
use crate::telling::{is_heard, Level};
use crate::vhost_user::message::*;
use crate::vhost_user::{Backend, Error, GpuBackend, Result, VhostUserBackendReqHandler};
use crate::why::unmapped;
#[cfg(not(feature = "compat-0_17"))]
use crate::VhostUserMemoryRegionBase;
use crate::{queue, reasons};

/// Why a call is refused that a device of this kind has not.
const NOT_OFFERED: Error = Error::InvalidOperation("it was not offered");
const NO_RING: Error = Error::InvalidOperation("the device has no such queue");
const IS_STARTED: Error = Error::InvalidOperation("the queue is started");

/// What tells a region from the others of its session.
fn place_of(about: &VhostUserMemoryRegion) -> Place {
    (about.guest_phys_addr, about.user_addr, about.memory_size)
}

/// A device as its frontend asks it.
pub(super) struct Calls<D> {
    device: Arc<D>,
    shared: Arc<Shared>,
    frontend: UnixStream,
    signals: RawFd,
    /// Why the call that is answered is refused, where that is known and somebody listens.
    reason: Mutex<Option<String>>,
}

/// What a frontend sent, which is closed without waiting for it.
fn given(file: File) -> PeerFd {
    PeerFd::from(OwnedFd::from(file))
}

fn failed(cause: io::Error) -> Error {
    Error::ReqHandlerError(cause)
}

impl<D: Device> Calls<D> {
    pub(super) fn new(device: Arc<D>, shared: Arc<Shared>, frontend: UnixStream, signals: RawFd) -> Calls<D> {
        Calls { device, shared, frontend, signals, reason: Mutex::new(None) }
    }

    /// Why the call that was answered last was refused, once.
    pub(super) fn take_reason(&self) -> Option<String> {
        self.reason.lock().unwrap_or_else(PoisonError::into_inner).take()
    }

    /// Notes why a call is refused, unless another reason was noted before it; the error is returned.
    fn refuse(&self, error: Error, reason: impl FnOnce(&Error) -> String) -> Error {
        if is_heard(Level::Warning) {
            let mut noted = self.reason.lock().unwrap_or_else(PoisonError::into_inner);
            noted.get_or_insert_with(|| reason(&error));
        }
        error
    }

    /// The same where a queue refuses.
    fn refuse_by(&self, error: queue::Error, reason: impl FnOnce(queue::Error) -> String) -> Error {
        self.refuse(failed(error.into()), |_| reason(error))
    }

    /// The lock, where there is a ring of this number.
    fn with_ring(&self, index: u32) -> Result<(MutexGuard<'_, State>, usize)> {
        let state = self.shared.lock();
        match index as usize {
            index if index < state.rings.len() => Ok((state, index)),
            _ => Err(self.refuse(NO_RING, |_| reasons::no_queue(state.rings.len() as u64, index))),
        }
    }

    /// That a queue is started, by which a call is refused.
    fn is_started(&self, index: usize) -> Error {
        self.refuse(IS_STARTED, |_| reasons::is_started(index as u32))
    }

    /// Whether all of these features were offered.
    fn check_offered(&self, accepted: u64, offered: u64) -> Result<()> {
        match accepted & !offered {
            0 => Ok(()),
            others => Err(self.refuse(Error::InvalidParam, |_| reasons::not_offered(others))),
        }
    }

    fn unserved(&self) -> Error {
        self.refuse(NOT_OFFERED, |_| reasons::UNSERVED.to_string())
    }

    /// What a call of the device came to that not each device has.
    fn served<T>(&self, done: io::Result<T>) -> Result<T> {
        done.map_err(|cause| match cause.kind() {
            io::ErrorKind::Unsupported => self.unserved(),
            _ => failed(cause),
        })
    }

    fn not_advised(&self) -> Error {
        self.refuse(Error::InvalidOperation(reasons::NOT_ADVISED), |_| reasons::NOT_ADVISED.to_string())
    }

    fn no_userfault(&self, cause: io::Error) -> Error {
        self.refuse(failed(cause), |_| reasons::NO_USERFAULT.to_string())
    }

    /// That a part of a file could not be mapped.
    fn unmapped(&self, cause: io::Error, what: &str, file: &PeerFd, (offset, size): (u64, u64)) -> Error {
        self.refuse(failed(cause), |_| unmapped(what, file.as_raw_fd(), offset, size))
    }

    fn tell_accepted(&self) {
        let state = self.shared.lock();
        let (features, protocol_features) = (state.features, state.protocol_features);
        drop(state);
        self.device.accepted(features, VhostUserProtocolFeatures::from_bits_truncate(protocol_features));
    }

    fn map(&self, index: usize, about: &VhostUserMemoryRegion, file: &PeerFd) -> Result<GuestRegion> {
        let mapped = GuestRegion::map_for(&self.shared.holder, about, file);
        let place = (about.mmap_offset, about.memory_size);
        mapped.map_err(|cause| self.unmapped(cause, &reasons::region(index as u32), file, place))
    }

    /// Memory of these regions, and that it is another than before.
    fn memory_of(&self, regions: impl IntoIterator<Item = GuestRegion>) -> Result<(GuestMemory, Change)> {
        let memory = GuestMemory::from_regions(regions).map_err(|error| self.refuse_by(error, |rule| rule.to_string()))?;
        Ok((memory, Change::All))
    }

    /// The session has this memory, by this change: where the last regions of it are mapped.
    fn use_memory(&self, (memory, change): (GuestMemory, Change), count: usize) -> Result<Vec<u64>> {
        let regions = memory.regions().clone();
        let used = self.shared.lock().set_memory(memory, &change);
        used.map_err(|error| self.refuse_by(error, |rule| rule.to_string()))?;
        Ok(regions[regions.len() - count..].iter().map(|region| region.host()).collect())
    }

    fn set_regions(&self, table: &[VhostUserMemoryRegion], files: Vec<File>) -> Result<Vec<u64>> {
        // (all of them, since none is looked at behind one that is refused)
        let files: Vec<PeerFd> = files.into_iter().map(given).collect();
        let given = table.iter().zip(&files).enumerate();
        let mapped: Result<Vec<_>> = given.map(|(index, (about, file))| self.map(index, about, file)).collect();
        self.use_memory(self.memory_of(mapped?)?, table.len())
    }

    fn add_region(&self, about: &VhostUserMemoryRegion, file: File) -> Result<u64> {
        let added = self.map(0, about, &given(file))?;
        let mut state = self.shared.lock();
        let before = state.memory.clone();
        if let Some(there) = before.iter().flat_map(GuestMemory::iter).find(|it| it.is_same(&added)) {
            let most = state.rings.len();
            let times = state.again.entry(place_of(about)).or_default();
            // (one that is given more often overlaps itself, as any other)
            if *times < most {
                *times += 1;
                return Ok(there.0.host());
            }
        }
        drop(state);
        let changed = match before {
            Some(memory) => memory.with_region(added),
            None => self.memory_of([added])?,
        };
        let bases = self.use_memory(changed, 1)?;
        Ok(bases[0])
    }

    /// Each ring stops, and the device is as it was at first. (its requests are done)
    fn reset(&self) -> Result<()> {
        let mut state = self.shared.lock();
        state.rings.iter_mut().for_each(|ring| self.shared.stop_ring(ring));
        drop(state);
        self.device.reset();
        Ok(())
    }

    fn begin_postcopy(&self) -> io::Result<File> {
        let frontend = self.frontend.try_clone()?;
        let (arrival, file) = Arrival::begin(self.shared.holder.clone(), frontend, self.shared.stop.clone(), self.signals)?;
        self.shared.lock().arrival = Some(arrival);
        Ok(file)
    }

    fn set_bell(&self, index: u8, fd: Option<File>, is_call: bool) -> Result<()> {
        let takes_streams = self.device.calls_by_pipe();
        let why = if takes_streams { reasons::NO_SIGNAL } else { reasons::NO_EVENTFD };
        let no_bell = || self.refuse(Error::InvalidParam, |_| why.to_string());
        let bell = fd.map(|file| Bell::of(given(file), takes_streams).ok_or_else(no_bell)).transpose()?;
        let (mut state, index) = self.with_ring(index.into())?;
        match is_call {
            true => state.rings[index].call = bell,
            false => state.rings[index].error = bell,
        }
        Ok(())
    }
}

impl<D: Device> VhostUserBackendReqHandler for Calls<D> {
    fn set_owner(&self) -> Result<()> {
        Ok(())
    }

    fn reset_owner(&self) -> Result<()> {
        self.reset()
    }

    fn reset_device(&self) -> Result<()> {
        self.reset()
    }

    fn get_features(&self) -> Result<u64> {
        Ok(features_of(&*self.device))
    }

    fn set_features(&self, features: u64) -> Result<()> {
        self.check_offered(features, features_of(&*self.device))?;
        let mut state = self.shared.lock();
        state.features = features;
        (0..state.rings.len()).for_each(|index| state.set_log(index));
        drop(state);
        self.tell_accepted();
        Ok(())
    }

    fn get_protocol_features(&self) -> Result<VhostUserProtocolFeatures> {
        Ok(protocol_features_of(&*self.device))
    }

    fn set_protocol_features(&self, features: u64) -> Result<()> {
        self.check_offered(features, protocol_features_of(&*self.device).bits())?;
        self.shared.lock().protocol_features = features;
        self.tell_accepted();
        Ok(())
    }

    fn get_queue_num(&self) -> Result<u64> {
        Ok(self.shared.lock().rings.len() as u64)
    }

    fn get_config(&self, offset: u32, size: u32, _flags: VhostUserConfigFlags) -> Result<Vec<u8>> {
        let mut bytes = vec![0; size as usize];
        if self.device.read_config(offset, &mut bytes) {
            return Ok(bytes);
        }
        Err(self.refuse(Error::InvalidParam, |_| reasons::no_config(size.into(), offset)))
    }

    fn set_config(&self, offset: u32, bytes: &[u8], _flags: VhostUserConfigFlags) -> Result<()> {
        match self.device.write_config(offset, bytes) {
            true => Ok(()),
            false => Err(self.refuse(Error::InvalidParam, |_| reasons::fixed_config(bytes.len() as u64, offset))),
        }
    }

    fn set_backend_req_fd(&self, channel: Backend) {
        let mut state = self.shared.lock();
        let features = VhostUserProtocolFeatures::from_bits_truncate(state.protocol_features);
        state.channel = Some(channel.clone());
        drop(state);
        channel.set_reply_ack_flag(features.contains(VhostUserProtocolFeatures::REPLY_ACK));
        channel.set_config_change_flag(features.contains(VhostUserProtocolFeatures::CONFIG));
        channel.set_shared_object_flag(features.contains(VhostUserProtocolFeatures::SHARED_OBJECT));
        channel.set_shmem_flag(features.contains(VhostUserProtocolFeatures::SHMEM));
        self.device.channel(channel);
    }

    fn set_gpu_socket(&self, gpu_backend: GpuBackend) -> Result<()> {
        self.served(self.device.set_gpu_socket(gpu_backend))
    }

    fn get_shared_object(&self, uuid: VhostUserSharedMsg) -> Result<File> {
        self.served(self.device.get_shared_object(uuid))
    }

    fn get_shmem_config(&self) -> Result<VhostUserShMemConfig> {
        self.served(self.device.get_shmem_config())
    }

    // -- Memory --

    #[cfg(not(feature = "compat-0_17"))]
    fn set_mem_table(
        &self,
        table: &[VhostUserMemoryRegion],
        files: Vec<File>,
        _postcopy_listening: Option<bool>,
    ) -> Result<Option<Vec<VhostUserMemoryRegionBase>>> {
        self.set_regions(table, files).map(Some)
    }

    #[cfg(feature = "compat-0_17")]
    fn set_mem_table(&self, table: &[VhostUserMemoryRegion], files: Vec<File>) -> Result<()> {
        self.set_regions(table, files).map(drop)
    }

    fn get_max_mem_slots(&self) -> Result<u64> {
        Ok(MAX_REGIONS)
    }

    #[cfg(not(feature = "compat-0_17"))]
    fn add_mem_region(
        &self,
        region: &VhostUserSingleMemoryRegion,
        file: File,
        _postcopy_listening: Option<bool>,
    ) -> Result<Option<VhostUserMemoryRegionBase>> {
        self.add_region(region, file).map(Some)
    }

    #[cfg(feature = "compat-0_17")]
    fn add_mem_region(&self, region: &VhostUserSingleMemoryRegion, file: File) -> Result<()> {
        self.add_region(region, file).map(drop)
    }

    fn remove_mem_region(&self, region: &VhostUserSingleMemoryRegion) -> Result<()> {
        let mut state = self.shared.lock();
        if let Entry::Occupied(mut times) = state.again.entry(place_of(region)) {
            *times.get_mut() -= 1;
            if *times.get() == 0 {
                times.remove();
            }
            return Ok(());
        }
        let memory = state.memory.clone();
        drop(state);
        let no_such = || self.refuse(Error::InvalidParam, |_| queue::Error::NoSuchRegion.to_string());
        let (start, user_addr, size) = (GuestAddress(region.guest_phys_addr), region.user_addr, region.memory_size);
        let changed = memory.ok_or_else(no_such)?.without_region(start, user_addr, size);
        self.use_memory(changed.map_err(|error| self.refuse_by(error, |rule| rule.to_string()))?, 0).map(drop)
    }

    fn set_log_base(&self, log: &VhostUserLog, file: File) -> Result<()> {
        let (place, file) = ((log.mmap_offset, log.mmap_size), given(file));
        let log = DirtyLog::map_for(&self.shared.holder, log, &file);
        let mut state = self.shared.lock();
        state.log = log.as_ref().ok().cloned();
        (0..state.rings.len()).for_each(|index| state.set_log(index));
        log.map(drop).map_err(|cause| self.unmapped(cause, reasons::THE_LOG, &file, place))
    }

    fn postcopy_advice(&self) -> Result<File> {
        if self.shared.lock().arrival.is_some() {
            return Err(self.refuse(failed(io::ErrorKind::AlreadyExists.into()), |_| reasons::ADVISED.to_string()));
        }
        self.begin_postcopy().map_err(|cause| self.no_userfault(cause))
    }

    fn postcopy_listen(&self) -> Result<()> {
        Ok(())
    }

    fn postcopy_ack_mem_regions(&self) -> Result<()> {
        let state = self.shared.lock();
        match (&state.arrival, &state.memory) {
            (Some(arrival), Some(memory)) => arrival.watch(memory).map_err(|cause| self.no_userfault(cause)),
            (Some(_), None) => Ok(()),
            (None, _) => Err(self.not_advised()),
        }
    }

    fn postcopy_end(&self) -> Result<()> {
        let mut state = self.shared.lock();
        let (arrival, memory) = (state.arrival.take(), state.memory.clone());
        drop(state);
        let arrival = arrival.ok_or_else(|| self.not_advised())?;
        arrival.end(memory.as_ref()).map_err(|cause| self.no_userfault(cause))
    }

    // -- Rings --

    fn set_vring_num(&self, index: u32, num: u32) -> Result<()> {
        let (mut state, index) = self.with_ring(index)?;
        let queue = &mut state.rings[index].queue;
        if queue.ready() {
            return Err(self.is_started(index));
        }
        let most = self.device.max_queue_size().min(MAX_QUEUE_SIZE);
        let set = u16::try_from(num).map_or(false, |size| size <= most && queue.set_size(size).is_ok());
        let wrong_size = |_: &Error| reasons::wrong_size(index as u32, num.into(), most.into());
        set.then_some(()).ok_or_else(|| self.refuse(Error::InvalidParam, wrong_size))
    }

    fn set_vring_addr(
        &self,
        index: u32,
        flags: VhostUserVringAddrFlags,
        descriptor: u64,
        used: u64,
        available: u64,
        log: u64,
    ) -> Result<()> {
        let (mut state, index) = self.with_ring(index)?;
        let is_logged = flags.contains(VhostUserVringAddrFlags::VHOST_VRING_F_LOG);
        let ring = &mut state.rings[index];
        ring.log_addr = is_logged.then_some(GuestAddress(log));
        ring.queue.set_desc_table_address(descriptor);
        ring.queue.set_avail_ring_address(available);
        ring.queue.set_used_ring_address(used);
        ring.queue.find_rings();
        ring.is_due = ring.queue.ready();
        state.set_log(index);
        Ok(())
    }

    fn set_vring_base(&self, index: u32, base: u32) -> Result<()> {
        let (mut state, index) = self.with_ring(index)?;
        let queue = &mut state.rings[index].queue;
        if queue.ready() {
            return Err(self.is_started(index));
        }
        queue.set_base(base);
        Ok(())
    }

    /// (its requests are done)
    fn get_vring_base(&self, index: u32) -> Result<VhostUserVringState> {
        let (mut state, at) = self.with_ring(index)?;
        let ring = &mut state.rings[at];
        self.shared.stop_ring(ring);
        Ok(VhostUserVringState::new(index, ring.queue.base()))
    }

    /// The kick begins the ring.
    fn set_vring_kick(&self, index: u8, fd: Option<File>) -> Result<()> {
        let no_eventfd = || self.refuse(Error::InvalidParam, |_| reasons::NO_EVENTFD.to_string());
        let kick = fd.map(|file| Kick::of(given(file)).ok_or_else(no_eventfd)).transpose()?;
        let (mut state, index) = self.with_ring(index.into())?;
        if let Some(kick) = &kick {
            let added = self.shared.parts[state.rings[index].part].polled.add(kick, index as u32);
            added.map_err(|cause| self.refuse(failed(cause), |_| reasons::NO_EVENTFD.to_string()))?;
        }
        self.shared.set_kick(&mut state.rings[index], kick);
        state.rings[index].is_due = true;
        if state.rings[index].queue.ready() {
            return Ok(());
        }
        let has_memory = state.memory.is_some();
        let why = |rule: queue::Error| match has_memory {
            true => reasons::not_to_start(index as u32, rule),
            false => reasons::not_to_start(index as u32, reasons::NO_MEMORY),
        };
        state.start_ring(index).map_err(|error| self.refuse_by(error, why))
    }

    fn set_vring_call(&self, index: u8, fd: Option<File>) -> Result<()> {
        self.set_bell(index, fd, true)
    }

    fn set_vring_err(&self, index: u8, fd: Option<File>) -> Result<()> {
        self.set_bell(index, fd, false)
    }

    fn set_vring_enable(&self, index: u32, enable: bool) -> Result<()> {
        let (mut state, index) = self.with_ring(index)?;
        (state.rings[index].is_enabled, state.rings[index].is_due) = (enable, true);
        Ok(())
    }

    // -- The inflight region --

    fn get_inflight_fd(&self, wanted: &VhostUserInflight) -> Result<(VhostUserInflight, File)> {
        let is_packed = self.shared.lock().features & RING_PACKED != 0;
        let (made, file) =
            InflightRegion::create_of(is_packed, wanted.num_queues, wanted.queue_size).map_err(|_| Error::MemFdCreateError)?;
        self.set_inflight_fd(&made, file.try_clone().map_err(failed)?)?;
        Ok((made, file))
    }

    /// Not while a ring runs: it writes to its part of the region that there is.
    fn set_inflight_fd(&self, told: &VhostUserInflight, file: File) -> Result<()> {
        let file = given(file);
        let mut state = self.shared.lock();
        if let Some(started) = state.rings.iter().position(|ring| ring.queue.ready()) {
            return Err(self.is_started(started));
        }
        let wrong = |_: &Error| {
            let (queues, size) = (told.num_queues.into(), told.queue_size.into());
            reasons::wrong_inflight(queues, size, told.mmap_size, told.mmap_offset)
        };
        if usize::from(told.num_queues) > state.rings.len() || told.queue_size > MAX_QUEUE_SIZE {
            return Err(self.refuse(Error::InvalidParam, wrong));
        }
        let is_packed = state.features & RING_PACKED != 0;
        let size = InflightRegion::size_of(is_packed, told);
        let region = InflightRegion::map_for(&self.shared.holder, is_packed, told, &file).map_err(|cause| match size {
            Some(size) => self.unmapped(cause, reasons::THE_INFLIGHT, &file, (told.mmap_offset, size)),
            None => self.refuse(failed(cause), wrong),
        });
        state.inflight = Some(region?);
        Ok(())
    }

    fn set_device_state_fd(
        &self,
        direction: VhostTransferStateDirection,
        phase: VhostTransferStatePhase,
        fd: File,
    ) -> Result<Option<File>> {
        self.served(self.device.set_device_state_fd(direction, phase, fd))
    }

    fn check_device_state(&self) -> Result<()> {
        self.served(self.device.check_device_state())
    }
}
