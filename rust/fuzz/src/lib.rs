// SPDX-License-Identifier: Apache-2.0
//! The same device and the same calls, over the crate `vhost` and over Covretin, whose names are the same: what a device is asked and what a
//! call returns is written down, with each descriptor as the number of its file.
use std::fs::{read_dir, File};
use std::os::unix::fs::MetadataExt;
use std::os::unix::io::FromRawFd;

/// A call of a frontend, with its arguments. A file is lent or given by `file`.
#[derive(Clone, Debug)]
pub enum Call {
    GetFeatures,
    SetFeatures(u64),
    SetOwner,
    ResetOwner,
    SetMemTable(Vec<[u64; 4]>),
    SetVringNum(usize, u16),
    SetVringAddr(usize, u32, [u64; 3], Option<u64>),
    SetVringBase(usize, u16),
    GetVringBase(usize),
    SetVringCall(usize),
    SetVringKick(usize),
    SetVringErr(usize),
    GetProtocolFeatures,
    SetProtocolFeatures(u64),
    GetQueueNum,
    ResetDevice,
    SetVringEnable(usize, bool),
    GetConfig(u32, u32, u32),
    SetConfig(u32, u32, Vec<u8>),
    GetSharedObject([u8; 16]),
    GetInflightFd(u16, u16),
    SetInflightFd(u64, u16, u16),
    GetMaxMemSlots,
    AddMemRegion([u64; 4]),
    RemoveMemRegion([u64; 4]),
    GetShmemConfig,
    SetDeviceStateFd(bool),
    CheckDeviceState,
    SetLogBase(u64, u64),
    SetBackendRequestFd,
    NeedReply(bool),
}

/// A file without a name.
pub fn memory_file() -> File {
    // SAFETY: the name is a string of C; what is made belongs to nobody else.
    unsafe {
        let fd = libc::memfd_create(c"fuzz".as_ptr(), libc::MFD_CLOEXEC);
        assert!(fd >= 0);
        File::from_raw_fd(fd)
    }
}

/// Which file it is.
pub fn identity(file: &File) -> u64 {
    file.metadata().unwrap().ino()
}

pub fn open_fds() -> usize {
    read_dir("/proc/self/fd").unwrap().count()
}

/// A device, a frontend's calls, and what serves both, over one of the two crates.
macro_rules! over {
    ($module:ident, $crate_name:ident, $is_older:meta) => {
        pub mod $module {
            use std::fs::File;
            use std::os::unix::io::{AsRawFd, FromRawFd};
            use std::os::unix::net::UnixStream;
            use std::sync::{Arc, Mutex};

            pub use $crate_name::vhost_user::message::*;
            pub use $crate_name::vhost_user::{Error, Result, *};
            pub use $crate_name::*;

            use crate::{identity, Call};

            type Protocol<T> = Result<T>;

            /// What was asked, and the file that is given out.
            pub struct Device {
                pub asked: Vec<String>,
                pub gives: File,
                pub refuses: bool,
            }

            impl Device {
                fn note(&mut self, asked: String) -> Protocol<()> {
                    self.asked.push(asked);
                    match self.refuses {
                        true => Err(Error::InvalidParam),
                        false => Ok(()),
                    }
                }

                fn give(&mut self, asked: String) -> Protocol<File> {
                    self.note(asked)?;
                    Ok(self.gives.try_clone().unwrap())
                }
            }

            fn region(it: &VhostUserMemoryRegion) -> String {
                format!("{:x?}", [it.guest_phys_addr, it.memory_size, it.user_addr, it.mmap_offset])
            }

            impl VhostUserBackendReqHandlerMut for Device {
                fn set_owner(&mut self) -> Protocol<()> {
                    self.note("set_owner".into())
                }
                fn reset_owner(&mut self) -> Protocol<()> {
                    self.note("reset_owner".into())
                }
                fn reset_device(&mut self) -> Protocol<()> {
                    self.note("reset_device".into())
                }
                fn get_features(&mut self) -> Protocol<u64> {
                    Ok(1 << 30 | 1 << 32 | 1 << 26)
                }
                fn set_features(&mut self, features: u64) -> Protocol<()> {
                    self.note(format!("set_features {features:x}"))
                }
                #[cfg(not($is_older))]
                fn set_mem_table(
                    &mut self,
                    it: &[VhostUserMemoryRegion],
                    files: Vec<File>,
                    _: Option<bool>,
                ) -> Protocol<Option<Vec<u64>>> {
                    let files: Vec<u64> = files.iter().map(identity).collect();
                    let regions: Vec<String> = it.iter().map(region).collect();
                    self.note(format!("set_mem_table {regions:?} {files:?}")).map(|()| None)
                }
                #[cfg($is_older)]
                fn set_mem_table(&mut self, it: &[VhostUserMemoryRegion], files: Vec<File>) -> Protocol<()> {
                    let files: Vec<u64> = files.iter().map(identity).collect();
                    let regions: Vec<String> = it.iter().map(region).collect();
                    self.note(format!("set_mem_table {regions:?} {files:?}"))
                }
                fn set_vring_num(&mut self, index: u32, num: u32) -> Protocol<()> {
                    self.note(format!("set_vring_num {index} {num}"))
                }
                fn set_vring_addr(
                    &mut self,
                    i: u32,
                    flags: VhostUserVringAddrFlags,
                    d: u64,
                    u: u64,
                    a: u64,
                    l: u64,
                ) -> Protocol<()> {
                    self.note(format!("set_vring_addr {i} {:x} {d:x} {u:x} {a:x} {l:x}", flags.bits()))
                }
                fn set_vring_base(&mut self, index: u32, base: u32) -> Protocol<()> {
                    self.note(format!("set_vring_base {index} {base}"))
                }
                fn get_vring_base(&mut self, index: u32) -> Protocol<VhostUserVringState> {
                    self.asked.push(format!("get_vring_base {index}"));
                    Ok(VhostUserVringState::new(index, 7))
                }
                fn set_vring_kick(&mut self, index: u8, fd: Option<File>) -> Protocol<()> {
                    self.note(format!("set_vring_kick {index} {:?}", fd.as_ref().map(identity)))
                }
                fn set_vring_call(&mut self, index: u8, fd: Option<File>) -> Protocol<()> {
                    self.note(format!("set_vring_call {index} {:?}", fd.as_ref().map(identity)))
                }
                fn set_vring_err(&mut self, index: u8, fd: Option<File>) -> Protocol<()> {
                    self.note(format!("set_vring_err {index} {:?}", fd.as_ref().map(identity)))
                }
                fn get_protocol_features(&mut self) -> Protocol<VhostUserProtocolFeatures> {
                    // (what neither does here is left out: of postcopy, and of Xen)
                    let left_out = VhostUserProtocolFeatures::PAGEFAULT | VhostUserProtocolFeatures::XEN_MMAP;
                    Ok(VhostUserProtocolFeatures::all() - left_out)
                }
                fn set_protocol_features(&mut self, features: u64) -> Protocol<()> {
                    self.note(format!("set_protocol_features {features:x}"))
                }
                fn get_queue_num(&mut self) -> Protocol<u64> {
                    Ok(4)
                }
                fn set_vring_enable(&mut self, index: u32, enable: bool) -> Protocol<()> {
                    self.note(format!("set_vring_enable {index} {enable}"))
                }
                fn get_config(&mut self, offset: u32, size: u32, flags: VhostUserConfigFlags) -> Protocol<Vec<u8>> {
                    // (a device that refuses is upstream's hang, which tests/gains.rs has)
                    self.asked.push(format!("get_config {offset} {size} {:x}", flags.bits()));
                    Ok((0..size).map(|it| it as u8).collect())
                }
                fn set_config(&mut self, offset: u32, buf: &[u8], flags: VhostUserConfigFlags) -> Protocol<()> {
                    self.note(format!("set_config {offset} {buf:x?} {:x}", flags.bits()))
                }
                fn set_backend_req_fd(&mut self, _: Backend) {
                    self.asked.push("set_backend_req_fd".into());
                }
                fn set_gpu_socket(&mut self, _: GpuBackend) -> Protocol<()> {
                    self.note("set_gpu_socket".into())
                }
                fn get_shared_object(&mut self, it: VhostUserSharedMsg) -> Protocol<File> {
                    self.asked.push(format!("get_shared_object {:x?}", it.uuid.as_bytes()));
                    Ok(self.gives.try_clone().unwrap())
                }
                fn get_inflight_fd(&mut self, it: &VhostUserInflight) -> Protocol<(VhostUserInflight, File)> {
                    self.asked.push(format!("get_inflight_fd {} {}", it.num_queues, it.queue_size));
                    Ok((VhostUserInflight::new(0x1000, 0, it.num_queues, it.queue_size), self.gives.try_clone().unwrap()))
                }
                fn set_inflight_fd(&mut self, it: &VhostUserInflight, file: File) -> Protocol<()> {
                    self.note(format!(
                        "set_inflight_fd {:x} {} {} {}",
                        it.mmap_size,
                        it.num_queues,
                        it.queue_size,
                        identity(&file)
                    ))
                }
                fn get_max_mem_slots(&mut self) -> Protocol<u64> {
                    Ok(32)
                }
                #[cfg(not($is_older))]
                fn add_mem_region(
                    &mut self,
                    it: &VhostUserSingleMemoryRegion,
                    fd: File,
                    _: Option<bool>,
                ) -> Protocol<Option<u64>> {
                    self.note(format!("add_mem_region {} {}", region(it), identity(&fd))).map(|()| None)
                }
                #[cfg($is_older)]
                fn add_mem_region(&mut self, it: &VhostUserSingleMemoryRegion, fd: File) -> Protocol<()> {
                    self.note(format!("add_mem_region {} {}", region(it), identity(&fd)))
                }
                fn remove_mem_region(&mut self, it: &VhostUserSingleMemoryRegion) -> Protocol<()> {
                    self.note(format!("remove_mem_region {}", region(it)))
                }
                fn set_device_state_fd(
                    &mut self,
                    direction: VhostTransferStateDirection,
                    _: VhostTransferStatePhase,
                    fd: File,
                ) -> Protocol<Option<File>> {
                    let given = self.give(format!("set_device_state_fd {direction:?} {}", identity(&fd)))?;
                    Ok(Some(given).filter(|_| direction == VhostTransferStateDirection::SAVE))
                }
                fn check_device_state(&mut self) -> Protocol<()> {
                    self.note("check_device_state".into())
                }
                fn get_shmem_config(&mut self) -> Protocol<VhostUserShMemConfig> {
                    Ok(VhostUserShMemConfig::new(2, &[0x1000, 0, 0x3000]))
                }
                fn set_log_base(&mut self, it: &VhostUserLog, file: File) -> Protocol<()> {
                    self.note(format!("set_log_base {:x} {:x} {}", it.mmap_size, it.mmap_offset, identity(&file)))
                }
            }

            /// Serves until the first error, as most daemons do: that error.
            pub fn serve(handler: &mut BackendReqHandler<Mutex<Device>>) -> String {
                loop {
                    if let Err(error) = handler.handle_request() {
                        return error.to_string();
                    }
                }
            }

            pub fn handler(socket: UnixStream, device: Arc<Mutex<Device>>) -> BackendReqHandler<Mutex<Device>> {
                BackendReqHandler::from_stream(socket, device)
            }

            fn info(it: &[u64; 4], file: &File) -> VhostUserMemoryRegionInfo {
                let [guest_phys_addr, memory_size, userspace_addr, mmap_offset] = *it;
                VhostUserMemoryRegionInfo {
                    guest_phys_addr,
                    memory_size,
                    userspace_addr,
                    mmap_offset,
                    mmap_handle: file.as_raw_fd(),
                }
            }

            fn event(file: &File) -> vmm_sys_util::eventfd::EventFd {
                // SAFETY: it is a copy, which belongs to nobody else.
                unsafe { vmm_sys_util::eventfd::EventFd::from_raw_fd(libc::dup(file.as_raw_fd())) }
            }

            /// Makes a call: what it returned.
            pub fn perform(frontend: &mut Frontend, call: &Call, file: &File) -> String {
                fn told<T: std::fmt::Debug>(result: $crate_name::Result<T>) -> String {
                    match result {
                        Ok(value) => format!("ok {value:x?}"),
                        Err(error) => format!("err {error}"),
                    }
                }
                match call {
                    Call::GetFeatures => told(frontend.get_features()),
                    Call::SetFeatures(it) => told(frontend.set_features(*it)),
                    Call::SetOwner => told(frontend.set_owner()),
                    Call::ResetOwner => told(frontend.reset_owner()),
                    Call::SetMemTable(it) => {
                        let table: Vec<_> = it.iter().map(|it| info(it, file)).collect();
                        told(frontend.set_mem_table(&table).map(drop))
                    }
                    Call::SetVringNum(index, num) => told(frontend.set_vring_num(*index, *num)),
                    Call::SetVringAddr(index, flags, [desc_table_addr, used_ring_addr, avail_ring_addr], log_addr) => {
                        let ring = VringConfigData {
                            queue_max_size: 256,
                            queue_size: 128,
                            flags: *flags,
                            desc_table_addr: *desc_table_addr,
                            used_ring_addr: *used_ring_addr,
                            avail_ring_addr: *avail_ring_addr,
                            log_addr: *log_addr,
                        };
                        told(frontend.set_vring_addr(*index, &ring))
                    }
                    Call::SetVringBase(index, base) => told(frontend.set_vring_base(*index, *base)),
                    Call::GetVringBase(index) => told(frontend.get_vring_base(*index)),
                    Call::SetVringCall(index) => told(frontend.set_vring_call(*index, &event(file))),
                    Call::SetVringKick(index) => told(frontend.set_vring_kick(*index, &event(file))),
                    Call::SetVringErr(index) => told(frontend.set_vring_err(*index, &event(file))),
                    Call::GetProtocolFeatures => told(frontend.get_protocol_features().map(|it| it.bits())),
                    Call::SetProtocolFeatures(it) => {
                        told(frontend.set_protocol_features(VhostUserProtocolFeatures::from_bits_truncate(*it)))
                    }
                    Call::GetQueueNum => told(frontend.get_queue_num()),
                    Call::ResetDevice => told(frontend.reset_device()),
                    Call::SetVringEnable(index, is_on) => told(frontend.set_vring_enable(*index, *is_on)),
                    Call::GetConfig(offset, size, flags) => {
                        let flags = VhostUserConfigFlags::from_bits_truncate(*flags);
                        let found = frontend.get_config(*offset, *size, flags, &vec![0; *size as usize]);
                        told(found.map(|(it, bytes)| (it.offset, it.size, it.flags, bytes)))
                    }
                    Call::SetConfig(offset, flags, bytes) => {
                        told(frontend.set_config(*offset, VhostUserConfigFlags::from_bits_truncate(*flags), bytes))
                    }
                    Call::GetSharedObject(name) => {
                        let name = VhostUserSharedMsg { uuid: uuid::Uuid::from_bytes(*name) };
                        told(frontend.get_shared_object(&name).map(|it| identity(&it)))
                    }
                    Call::GetInflightFd(queues, size) => {
                        let found = frontend.get_inflight_fd(&VhostUserInflight::new(0, 0, *queues, *size));
                        told(found.map(|(it, file)| (it.mmap_size, it.num_queues, it.queue_size, identity(&file))))
                    }
                    Call::SetInflightFd(mmap_size, queues, size) => {
                        told(frontend.set_inflight_fd(&VhostUserInflight::new(*mmap_size, 0, *queues, *size), file.as_raw_fd()))
                    }
                    Call::GetMaxMemSlots => told(frontend.get_max_mem_slots()),
                    Call::AddMemRegion(it) => told(frontend.add_mem_region(&info(it, file)).map(drop)),
                    Call::RemoveMemRegion(it) => told(frontend.remove_mem_region(&info(it, file))),
                    Call::GetShmemConfig => {
                        told(frontend.get_shmem_config().map(|it| (it.nregions, it.memory_sizes[..4].to_vec())))
                    }
                    Call::SetDeviceStateFd(is_load) => {
                        let direction = match is_load {
                            true => VhostTransferStateDirection::LOAD,
                            false => VhostTransferStateDirection::SAVE,
                        };
                        let given = file.try_clone().unwrap().into();
                        let found = frontend.set_device_state_fd(direction, VhostTransferStatePhase::STOPPED, given);
                        told(found.map(|it| it.map(|it| identity(&it))))
                    }
                    Call::CheckDeviceState => told(frontend.check_device_state()),
                    Call::SetLogBase(mmap_size, mmap_offset) => {
                        let log = VhostUserDirtyLogRegion {
                            mmap_size: *mmap_size,
                            mmap_offset: *mmap_offset,
                            mmap_handle: file.as_raw_fd(),
                        };
                        told(frontend.set_log_base(0, Some(log)))
                    }
                    Call::SetBackendRequestFd => {
                        let (channel, _other) = UnixStream::pair().unwrap();
                        told(frontend.set_backend_request_fd(&channel))
                    }
                    Call::NeedReply(is_on) => {
                        let flags = if *is_on { VhostUserHeaderFlag::NEED_REPLY } else { VhostUserHeaderFlag::empty() };
                        frontend.set_hdr_flags(flags);
                        String::new()
                    }
                }
            }
        }
    };
}

over!(upstream, vhost, feature = "older");
over!(ours, covretin, any());
