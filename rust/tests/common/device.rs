// SPDX-License-Identifier: Apache-2.0
//! A device that notes what it is asked, and the two ways in which a test asks it: by a frontend of this package, and by hand.
use std::fs::File;
use std::os::unix::io::AsRawFd;
use std::os::unix::net::UnixStream;
use std::sync::{Arc, Mutex, MutexGuard, PoisonError};
use std::thread;
use std::time::Duration;

use covretin::vhost_user::message::*;
use covretin::vhost_user::{
    close_at_once, Backend, BackendReqHandler, Error, Frontend, GpuBackend, Result, VhostUserBackendReqHandlerMut,
    VhostUserFrontend, SERVED_PROTOCOL_FEATURES,
};
use covretin::{VhostBackend, VhostUserMemoryRegionBase};

use super::*;

/// A device. What it was given it keeps; what it gives is told by `given`.
#[derive(Default)]
pub struct Noting {
    /// Each call, with its arguments.
    pub asked: Vec<String>,
    /// The files that came.
    pub files: Vec<File>,
    /// The channels that came.
    pub channels: Vec<Backend>,
    /// The displays that came.
    pub displays: Vec<GpuBackend>,
    /// Whether it serves requests that have no call of their own.
    pub serves_others: bool,
    /// Whether it refuses what it is asked, by MemFdSealError.
    pub refuses: bool,
    /// The file that it gives out.
    pub gives: Option<File>,
    /// The bytes of its configuration space, whatever is asked for.
    pub config: Vec<u8>,
    /// Where it maps regions, if it says so.
    pub bases: Option<Vec<u64>>,
}

impl Noting {
    fn note(&mut self, asked: impl Into<String>) -> Result<()> {
        self.asked.push(asked.into());
        match self.refuses {
            true => Err(Error::MemFdSealError),
            false => Ok(()),
        }
    }

    fn keep(&mut self, asked: &str, index: u8, file: Option<File>) -> Result<()> {
        self.files.extend(file);
        self.note(format!("{asked} {index}"))
    }

    fn give(&mut self, asked: impl Into<String>) -> Result<File> {
        self.note(asked)?;
        Ok(self.gives.as_ref().unwrap().try_clone().unwrap())
    }
}

fn region(it: &VhostUserMemoryRegion) -> String {
    format!("{:#x} {:#x} {:#x} {:#x}", { it.guest_phys_addr }, { it.memory_size }, { it.user_addr }, { it.mmap_offset })
}

impl VhostUserBackendReqHandlerMut for Noting {
    // generated from protocol/requests.toml: calls that are noted
    fn set_features(&mut self, features: u64) -> Result<()> {
        self.note(format!("set_features {features:#x}"))
    }
    fn set_owner(&mut self) -> Result<()> {
        self.note("set_owner")
    }
    fn reset_owner(&mut self) -> Result<()> {
        self.note("reset_owner")
    }
    fn set_vring_num(&mut self, index: u32, num: u32) -> Result<()> {
        self.note(format!("set_vring_num {index} {num}"))
    }
    fn set_vring_base(&mut self, index: u32, base: u32) -> Result<()> {
        self.note(format!("set_vring_base {index} {base}"))
    }
    fn set_vring_kick(&mut self, index: u8, fd: Option<File>) -> Result<()> {
        self.keep("set_vring_kick", index, fd)
    }
    fn set_vring_call(&mut self, index: u8, fd: Option<File>) -> Result<()> {
        self.keep("set_vring_call", index, fd)
    }
    fn set_vring_err(&mut self, index: u8, fd: Option<File>) -> Result<()> {
        self.keep("set_vring_err", index, fd)
    }
    fn set_protocol_features(&mut self, features: u64) -> Result<()> {
        self.note(format!("set_protocol_features {features:#x}"))
    }
    fn set_vring_enable(&mut self, index: u32, enable: bool) -> Result<()> {
        self.note(format!("set_vring_enable {index} {enable}"))
    }
    fn set_mtu(&mut self, mtu: u16) -> Result<()> {
        self.note(format!("set_mtu {mtu}"))
    }
    fn postcopy_listen(&mut self) -> Result<()> {
        self.note("postcopy_listen")
    }
    fn postcopy_end(&mut self) -> Result<()> {
        self.note("postcopy_end")
    }
    fn reset_device(&mut self) -> Result<()> {
        self.note("reset_device")
    }
    // end
    fn get_features(&mut self) -> Result<u64> {
        self.note("get_features")?;
        Ok(PROTOCOL)
    }
    fn set_mem_table(
        &mut self,
        ctx: &[VhostUserMemoryRegion],
        files: Vec<File>,
        postcopy_listening: Option<bool>,
    ) -> Result<Option<Vec<VhostUserMemoryRegionBase>>> {
        assert_eq!(ctx.len(), files.len());
        self.files.extend(files);
        let regions: Vec<String> = ctx.iter().map(region).collect();
        self.note(format!("set_mem_table {} {postcopy_listening:?}", regions.join(", ")))?;
        Ok(self.bases.clone())
    }
    fn set_vring_addr(
        &mut self,
        index: u32,
        flags: VhostUserVringAddrFlags,
        descriptor: u64,
        used: u64,
        available: u64,
        log: u64,
    ) -> Result<()> {
        self.note(format!("set_vring_addr {index} {:#x} {descriptor:#x} {used:#x} {available:#x} {log:#x}", flags.bits()))
    }
    fn get_vring_base(&mut self, index: u32) -> Result<VhostUserVringState> {
        self.note(format!("get_vring_base {index}"))?;
        Ok(VhostUserVringState::new(index, 0x1234_5678))
    }
    fn get_protocol_features(&mut self) -> Result<VhostUserProtocolFeatures> {
        self.note("get_protocol_features")?;
        // The library adds REPLY_ACK.
        Ok(SERVED_PROTOCOL_FEATURES - VhostUserProtocolFeatures::REPLY_ACK)
    }
    fn get_queue_num(&mut self) -> Result<u64> {
        self.note("get_queue_num")?;
        Ok(RINGS)
    }
    fn get_config(&mut self, offset: u32, size: u32, flags: VhostUserConfigFlags) -> Result<Vec<u8>> {
        self.note(format!("get_config {offset} {size} {:#x}", flags.bits()))?;
        Ok(self.config.clone())
    }
    fn set_config(&mut self, offset: u32, buf: &[u8], flags: VhostUserConfigFlags) -> Result<()> {
        self.note(format!("set_config {offset} {buf:02x?} {:#x}", flags.bits()))
    }
    fn set_backend_req_fd(&mut self, backend: Backend) {
        self.channels.push(backend);
        let _ = self.note("set_backend_req_fd");
    }
    fn set_gpu_socket(&mut self, gpu_backend: GpuBackend) -> Result<()> {
        self.displays.push(gpu_backend);
        self.note("set_gpu_socket")
    }
    fn get_shared_object(&mut self, uuid: VhostUserSharedMsg) -> Result<File> {
        self.give(format!("get_shared_object {:02x?}", uuid.uuid.as_bytes()))
    }
    fn get_inflight_fd(&mut self, it: &VhostUserInflight) -> Result<(VhostUserInflight, File)> {
        let file = self.give(format!("get_inflight_fd {} {}", it.num_queues, it.queue_size))?;
        Ok((VhostUserInflight { mmap_size: 0x1000, mmap_offset: 0x2000, ..*it }, file))
    }
    fn set_inflight_fd(&mut self, it: &VhostUserInflight, file: File) -> Result<()> {
        self.files.push(file);
        self.note(format!("set_inflight_fd {:#x} {:#x} {} {}", it.mmap_size, it.mmap_offset, it.num_queues, it.queue_size))
    }
    fn get_max_mem_slots(&mut self) -> Result<u64> {
        self.note("get_max_mem_slots")?;
        Ok(32)
    }
    fn add_mem_region(
        &mut self,
        it: &VhostUserSingleMemoryRegion,
        fd: File,
        postcopy_listening: Option<bool>,
    ) -> Result<Option<VhostUserMemoryRegionBase>> {
        self.files.push(fd);
        self.note(format!("add_mem_region {} {postcopy_listening:?}", region(it)))?;
        Ok(self.bases.as_ref().map(|bases| bases[0]))
    }
    fn remove_mem_region(&mut self, it: &VhostUserSingleMemoryRegion) -> Result<()> {
        self.note(format!("remove_mem_region {}", region(it)))
    }
    fn set_device_state_fd(
        &mut self,
        direction: VhostTransferStateDirection,
        phase: VhostTransferStatePhase,
        fd: File,
    ) -> Result<Option<File>> {
        self.files.push(fd);
        self.note(format!("set_device_state_fd {direction:?} {phase:?}"))?;
        Ok(self.gives.as_ref().map(|it| it.try_clone().unwrap()))
    }
    fn check_device_state(&mut self) -> Result<()> {
        self.note("check_device_state")
    }
    fn get_shmem_config(&mut self) -> Result<VhostUserShMemConfig> {
        self.note("get_shmem_config")?;
        Ok(VhostUserShMemConfig::new(2, &[0x1000, 0, 0x3000]))
    }
    fn set_log_base(&mut self, log: &VhostUserLog, file: File) -> Result<()> {
        self.files.push(file);
        self.note(format!("set_log_base {:#x} {:#x}", log.mmap_size, log.mmap_offset))
    }
    fn postcopy_advice(&mut self) -> Result<File> {
        self.give("postcopy_advice")
    }
    fn postcopy_ack_mem_regions(&mut self) -> Result<()> {
        self.note("postcopy_ack_mem_regions")
    }
    fn other(&mut self, request: u32, body: &[u8], files: Vec<File>) -> Result<()> {
        if !self.serves_others {
            files.into_iter().for_each(close_at_once);
            return Err(Error::InvalidOperation("nobody serves it"));
        }
        self.files.extend(files);
        self.note(format!("other {request} {body:?}"))
    }
}

/// A device that others look at, too.
pub type Shared = Arc<Mutex<Noting>>;

pub fn seen(device: &Shared) -> MutexGuard<'_, Noting> {
    device.lock().unwrap_or_else(PoisonError::into_inner)
}

/// A handler of a device, and the frontend's end of its socket.
pub fn handled(device: &Shared) -> (BackendReqHandler<Mutex<Noting>>, Peer) {
    let (mine, other) = UnixStream::pair().unwrap();
    other.set_read_timeout(Some(Duration::from_secs(20))).unwrap();
    (BackendReqHandler::from_stream(mine, device.clone()), Peer { socket: other })
}

/// Serves until the connection ends: the names of all errors.
pub fn serve_all(handler: &mut BackendReqHandler<Mutex<Noting>>) -> Vec<String> {
    let mut errors = Vec::new();
    loop {
        match handler.handle_request() {
            Ok(()) => {}
            Err(Error::Disconnected) => return errors,
            Err(error) => {
                errors.push(name(&error));
                if matches!(error, Error::InvalidMessage | Error::PartialMessage | Error::SocketBroken(_)) {
                    return errors;
                }
            }
        }
    }
}

/// A frontend's calls, and the device that another thread serves: the errors that it met.
pub fn served(device: &Shared, calls: impl FnOnce(&mut Frontend)) -> Vec<String> {
    let (mut handler, peer) = handled(device);
    let serving = thread::spawn(move || serve_all(&mut handler));
    let mut frontend = Frontend::from_stream(peer.socket, RINGS);
    calls(&mut frontend);
    drop(frontend);
    serving.join().unwrap()
}

/// Agrees with a device on all features that a frontend asks for. What it noted by then is forgotten.
pub fn agree(device: &Shared, frontend: &mut Frontend) {
    let features = frontend.get_features().unwrap();
    frontend.set_features(features).unwrap();
    let offered = frontend.get_protocol_features().unwrap();
    assert_eq!(SERVED_PROTOCOL_FEATURES, offered);
    frontend.set_protocol_features(offered & Frontend::PROTOCOL_FEATURES).unwrap();
    frontend.get_features().unwrap();
    seen(device).asked.clear();
}

/// What a peer sends to agree on these protocol features.
pub fn agreement(features: u64) -> Vec<Vec<u8>> {
    vec![
        message(1, ASKS, &[]),
        message(2, ASKS, &PROTOCOL.to_le_bytes()),
        message(15, ASKS, &[]),
        message(16, ASKS, &features.to_le_bytes()),
    ]
}

/// Plays that agreement to a handler; the device's notes are forgotten.
pub fn agree_by_hand(device: &Shared, handler: &mut BackendReqHandler<Mutex<Noting>>, peer: &Peer, features: u64) {
    for request in agreement(features) {
        peer.say(&request, &[]);
        handler.handle_request().unwrap();
    }
    peer.hear(&message(1, REPLIES, &PROTOCOL.to_le_bytes()));
    peer.hear(&message(15, REPLIES, &SERVED_PROTOCOL_FEATURES.bits().to_le_bytes()));
    seen(device).asked.clear();
}

/// What becomes of one request of a peer that agreed on these features: the handler's error, what was replied, and the calls of
/// the device. The peer shuts its end down behind the request.
pub fn one_request(device: &Shared, features: u64, request: &[u8], files: &[&File]) -> (Result<()>, Vec<u8>) {
    let (mut handler, peer) = handled(device);
    agree_by_hand(device, &mut handler, &peer, features);
    peer.say(request, files);
    peer.socket.shutdown(std::net::Shutdown::Write).unwrap();
    let result = handler.handle_request();
    drop(handler);
    let mut reply = Vec::new();
    // What the handler left unread makes this an error, which is the end too.
    let _ = std::io::Read::read_to_end(&mut &peer.socket, &mut reply);
    (result, reply)
}

/// The number of a file's descriptor is open.
pub fn is_open(file: &impl AsRawFd) -> bool {
    // SAFETY: it asks for the flags of a descriptor.
    unsafe { libc::fcntl(file.as_raw_fd(), libc::F_GETFD) != -1 }
}
