// SPDX-License-Identifier: Apache-2.0
//! Serves an example device to each frontend that connects to a Unix socket: `cargo run --example serve -- /tmp/device.sock 1`
//!
//! The device has two rings and no function. For each connection there is another one, in a thread of its own.
use std::env;
use std::ffi::{OsStr, OsString};
use std::fs::{remove_file, File, OpenOptions};
use std::process::ExitCode;
use std::sync::{Arc, Mutex};
use std::thread;

use covretin::vhost_user::message::*;
use covretin::vhost_user::{
    close_at_once, BackendListener, BackendReqHandler, Error, GpuBackend, Listener, Result, VhostUserBackendReqHandlerMut,
};
use covretin::VhostUserMemoryRegionBase;

const RINGS: usize = 2;
const LARGEST_RING: u32 = 256;
const MEMORY_SLOTS: u64 = 509;
/// Two features of the device's own, and the protocol features.
const FEATURES: u64 = 0b11 | 1 << 30;
/// All that can be read of the configuration space, or written.
const CONFIG: [u8; 4] = [0xa5; 4];

fn main() -> ExitCode {
    let words: Vec<OsString> = env::args_os().skip(1).collect();
    let count = words.get(1).and_then(|it| it.to_str()?.parse().ok()).filter(|it| (1..=1024).contains(it));
    let (path, count) = match (words.as_slice(), count) {
        ([path, _], Some(count)) => (path, count),
        _ => {
            eprintln!("usage: serve PATH COUNT");
            return ExitCode::from(1);
        }
    };
    match listen(path, count) {
        Ok(()) => ExitCode::SUCCESS,
        Err(error) => {
            eprintln!("{}: {error}", path.to_string_lossy());
            ExitCode::from(2)
        }
    }
}

/// Accepts so many connections. A line says how each ended, in their order.
fn listen(path: &OsStr, count: u32) -> Result<()> {
    let mut listener = Listener::new(path, false)?;
    let mut sessions = Vec::new();
    for _ in 0..count {
        let device = Arc::new(Mutex::new(Device::default()));
        if let Some(handler) = BackendListener::new(&mut listener, device)?.accept()? {
            sessions.push(thread::spawn(move || serve(handler)));
        }
    }
    drop(listener);
    for (number, session) in (1..).zip(sessions) {
        let (requests, end) = session.join().unwrap_or((0, "Panic".to_string()));
        println!("session {number}: {requests} requests, end {end}");
    }
    Ok(())
}

/// Serves until the connection ends: how many requests were served or refused before, and why it ended.
fn serve(mut handler: BackendReqHandler<Mutex<Device>>) -> (u64, String) {
    let mut requests = 0;
    loop {
        match handler.handle_request() {
            Err(Error::Disconnected) => return (requests, "Disconnected".to_string()),
            Err(error @ (Error::PartialMessage | Error::InvalidMessage)) => return (requests, format!("{error:?}")),
            Err(Error::SocketBroken(_)) => return (requests, "SocketBroken".to_string()),
            Err(Error::SocketError(_)) => return (requests, "SocketError".to_string()),
            Ok(()) | Err(_) => requests += 1,
        }
    }
}

/// A file that goes when it is closed.
fn temporary_file() -> Result<File> {
    let path = env::temp_dir().join(format!("serve-{}-{:?}", std::process::id(), thread::current().id()));
    let file = OpenOptions::new().read(true).write(true).create_new(true).open(&path).map_err(Error::ReqHandlerError)?;
    remove_file(&path).map_err(Error::ReqHandlerError)?;
    Ok(file)
}

fn no_transfer() -> Error {
    Error::ReqHandlerError(std::io::ErrorKind::Unsupported.into())
}

/// What was set.
#[derive(Default)]
struct Device {
    is_owned: bool,
    features: Option<u64>,
    protocol_features: u64,
    rings: [Ring; RINGS],
}

#[derive(Default)]
struct Ring {
    size: u32,
    base: u32,
    kick: Given,
    call: Given,
    err: Given,
    is_enabled: bool,
}

/// A descriptor of the frontend's, if it gave one. Where it is a socket that lingers nobody waits for it.
#[derive(Default)]
struct Given(Option<File>);

impl Drop for Given {
    fn drop(&mut self) {
        if let Some(file) = self.0.take() {
            close_at_once(file);
        }
    }
}

impl Device {
    fn ring(&mut self, index: impl Into<u32>) -> Result<&mut Ring> {
        self.rings.get_mut(index.into() as usize).ok_or(Error::InvalidParam)
    }

    fn check_config(&self, offset: u32, size: usize) -> Result<()> {
        if self.protocol_features & VhostUserProtocolFeatures::CONFIG.bits() == 0 {
            return Err(Error::InactiveOperation(VhostUserProtocolFeatures::CONFIG));
        }
        match (offset, size) {
            (VHOST_USER_CONFIG_OFFSET, 4) => Ok(()),
            _ => Err(Error::InvalidParam),
        }
    }
}

impl VhostUserBackendReqHandlerMut for Device {
    fn set_owner(&mut self) -> Result<()> {
        if self.is_owned {
            return Err(Error::InvalidOperation("already claimed"));
        }
        self.is_owned = true;
        Ok(())
    }

    fn reset_owner(&mut self) -> Result<()> {
        self.is_owned = false;
        self.features = None;
        self.protocol_features = 0;
        Ok(())
    }

    fn reset_device(&mut self) -> Result<()> {
        self.features = None;
        Ok(())
    }

    fn get_features(&mut self) -> Result<u64> {
        Ok(FEATURES)
    }

    fn set_features(&mut self, features: u64) -> Result<()> {
        if !self.is_owned {
            return Err(Error::InvalidOperation("not owned"));
        }
        if self.features.is_some() {
            return Err(Error::InvalidOperation("features already set"));
        }
        if features & !FEATURES != 0 {
            return Err(Error::InvalidParam);
        }
        self.features = Some(features);
        // Without the protocol features there is no request that would enable a ring.
        let is_enabled = features & VhostUserVirtioFeatures::PROTOCOL_FEATURES.bits() == 0;
        self.rings.iter_mut().for_each(|ring| ring.is_enabled = is_enabled);
        Ok(())
    }

    fn get_protocol_features(&mut self) -> Result<VhostUserProtocolFeatures> {
        // (all, as the daemon's; a device that has a function offers of SERVED_PROTOCOL_FEATURES what it can do, and no more)
        Ok(VhostUserProtocolFeatures::all())
    }

    fn set_protocol_features(&mut self, features: u64) -> Result<()> {
        self.protocol_features = features;
        Ok(())
    }

    fn get_queue_num(&mut self) -> Result<u64> {
        Ok(RINGS as u64)
    }

    fn set_mem_table(
        &mut self,
        regions: &[VhostUserMemoryRegion],
        files: Vec<File>,
        _postcopy_listening: Option<bool>,
    ) -> Result<Option<Vec<VhostUserMemoryRegionBase>>> {
        files.into_iter().for_each(close_at_once);
        Ok(Some(regions.iter().map(|region| region.user_addr).collect()))
    }

    fn get_max_mem_slots(&mut self) -> Result<u64> {
        Ok(MEMORY_SLOTS)
    }

    fn add_mem_region(
        &mut self,
        region: &VhostUserSingleMemoryRegion,
        file: File,
        _postcopy_listening: Option<bool>,
    ) -> Result<Option<VhostUserMemoryRegionBase>> {
        close_at_once(file);
        Ok(Some(region.user_addr))
    }

    fn remove_mem_region(&mut self, _region: &VhostUserSingleMemoryRegion) -> Result<()> {
        Ok(())
    }

    fn set_log_base(&mut self, _log: &VhostUserLog, file: File) -> Result<()> {
        close_at_once(file);
        Ok(())
    }

    fn set_vring_num(&mut self, index: u32, num: u32) -> Result<()> {
        let ring = self.ring(index)?;
        if num == 0 || num > LARGEST_RING {
            return Err(Error::InvalidParam);
        }
        ring.size = num;
        Ok(())
    }

    fn set_vring_addr(&mut self, index: u32, _: VhostUserVringAddrFlags, _: u64, _: u64, _: u64, _: u64) -> Result<()> {
        self.ring(index)?;
        Ok(())
    }

    fn set_vring_base(&mut self, index: u32, base: u32) -> Result<()> {
        let ring = self.ring(index)?;
        if base >= LARGEST_RING {
            return Err(Error::InvalidParam);
        }
        ring.base = base;
        Ok(())
    }

    fn get_vring_base(&mut self, index: u32) -> Result<VhostUserVringState> {
        let base = self.ring(index)?.base;
        Ok(VhostUserVringState::new(index, base))
    }

    fn set_vring_kick(&mut self, index: u8, fd: Option<File>) -> Result<()> {
        self.ring(index)?.kick = Given(fd);
        Ok(())
    }

    fn set_vring_call(&mut self, index: u8, fd: Option<File>) -> Result<()> {
        self.ring(index)?.call = Given(fd);
        Ok(())
    }

    fn set_vring_err(&mut self, index: u8, fd: Option<File>) -> Result<()> {
        self.ring(index)?.err = Given(fd);
        Ok(())
    }

    fn set_vring_enable(&mut self, index: u32, enable: bool) -> Result<()> {
        if self.features.unwrap_or(0) & VhostUserVirtioFeatures::PROTOCOL_FEATURES.bits() == 0 {
            return Err(Error::InactiveFeature(VhostUserVirtioFeatures::PROTOCOL_FEATURES));
        }
        self.ring(index)?.is_enabled = enable;
        Ok(())
    }

    fn set_mtu(&mut self, mtu: u16) -> Result<()> {
        match mtu {
            0 => Err(Error::InvalidParam),
            _ => Ok(()),
        }
    }

    fn get_config(&mut self, offset: u32, size: u32, _flags: VhostUserConfigFlags) -> Result<Vec<u8>> {
        self.check_config(offset, size as usize)?;
        Ok(CONFIG.to_vec())
    }

    fn set_config(&mut self, offset: u32, buf: &[u8], _flags: VhostUserConfigFlags) -> Result<()> {
        self.check_config(offset, buf.len())?;
        match buf == CONFIG {
            true => Ok(()),
            false => Err(Error::InvalidParam),
        }
    }

    fn set_gpu_socket(&mut self, _gpu_backend: GpuBackend) -> Result<()> {
        Ok(())
    }

    fn get_shared_object(&mut self, _uuid: VhostUserSharedMsg) -> Result<File> {
        temporary_file()
    }

    fn get_inflight_fd(&mut self, inflight: &VhostUserInflight) -> Result<(VhostUserInflight, File)> {
        let region = VhostUserInflight { mmap_size: 0x1000, mmap_offset: 0, ..*inflight };
        Ok((region, temporary_file()?))
    }

    fn set_inflight_fd(&mut self, _inflight: &VhostUserInflight, file: File) -> Result<()> {
        close_at_once(file);
        Ok(())
    }

    fn set_device_state_fd(
        &mut self,
        _direction: VhostTransferStateDirection,
        _phase: VhostTransferStatePhase,
        fd: File,
    ) -> Result<Option<File>> {
        close_at_once(fd);
        Err(no_transfer())
    }

    fn check_device_state(&mut self) -> Result<()> {
        Err(no_transfer())
    }

    fn get_shmem_config(&mut self) -> Result<VhostUserShMemConfig> {
        Err(Error::ReqHandlerError(std::io::ErrorKind::Unsupported.into()))
    }

    fn postcopy_advice(&mut self) -> Result<File> {
        temporary_file()
    }

    fn postcopy_listen(&mut self) -> Result<()> {
        Ok(())
    }

    fn postcopy_end(&mut self) -> Result<()> {
        Ok(())
    }

    fn postcopy_ack_mem_regions(&mut self) -> Result<()> {
        Ok(())
    }
}
