// SPDX-License-Identifier: Apache-2.0
//! The names of the crate `vhost`, as a device of it uses them, and numbers that the header has too.
mod common;

use std::fs::File;
use std::io;
use std::os::unix::io::AsRawFd;
use std::os::unix::net::UnixListener;
use std::path::PathBuf;
use std::sync::{Arc, Mutex};
use std::thread;

// A program says `vhost = { package = "covretin", .. }` in its Cargo.toml for this.
use covretin as vhost;

use common::*;
use vhost::vhost_user::message::*;
use vhost::vhost_user::{
    Backend, BackendListener, BackendReqHandler, Error, Frontend, FrontendReqHandler, GpuBackend, Listener, Result,
    VhostUserBackendReqHandler, VhostUserBackendReqHandlerMut, VhostUserFrontend, VhostUserFrontendReqHandlerMut,
    SERVED_PROTOCOL_FEATURES,
};
use vhost::{VhostBackend, VhostUserMemoryRegionBase};

fn path_of(name: &str) -> PathBuf {
    std::env::temp_dir().join(format!("covretin-{}-{name}", std::process::id()))
}

/// A device as the crate asks for one without its feature `postcopy`: what has no body here has one there.
struct Mine;

impl VhostUserBackendReqHandlerMut for Mine {
    fn set_owner(&mut self) -> Result<()> {
        Ok(())
    }
    fn reset_owner(&mut self) -> Result<()> {
        Ok(())
    }
    fn reset_device(&mut self) -> Result<()> {
        Ok(())
    }
    fn get_features(&mut self) -> Result<u64> {
        Ok(PROTOCOL)
    }
    fn set_features(&mut self, _features: u64) -> Result<()> {
        Ok(())
    }
    fn set_mem_table(
        &mut self,
        _ctx: &[VhostUserMemoryRegion],
        _files: Vec<File>,
        _postcopy_listening: Option<bool>,
    ) -> Result<Option<Vec<VhostUserMemoryRegionBase>>> {
        Ok(None)
    }
    fn set_vring_num(&mut self, _index: u32, _num: u32) -> Result<()> {
        Ok(())
    }
    fn set_vring_addr(&mut self, _: u32, _: VhostUserVringAddrFlags, _: u64, _: u64, _: u64, _: u64) -> Result<()> {
        Ok(())
    }
    fn set_vring_base(&mut self, _index: u32, _base: u32) -> Result<()> {
        Ok(())
    }
    fn get_vring_base(&mut self, index: u32) -> Result<VhostUserVringState> {
        Ok(VhostUserVringState::new(index, 5))
    }
    fn set_vring_kick(&mut self, _index: u8, _fd: Option<File>) -> Result<()> {
        Ok(())
    }
    fn set_vring_call(&mut self, _index: u8, _fd: Option<File>) -> Result<()> {
        Ok(())
    }
    fn set_vring_err(&mut self, _index: u8, _fd: Option<File>) -> Result<()> {
        Ok(())
    }
    fn get_protocol_features(&mut self) -> Result<VhostUserProtocolFeatures> {
        Ok(SERVED_PROTOCOL_FEATURES)
    }
    fn set_protocol_features(&mut self, _features: u64) -> Result<()> {
        Ok(())
    }
    fn get_queue_num(&mut self) -> Result<u64> {
        Ok(2)
    }
    fn set_vring_enable(&mut self, _index: u32, _enable: bool) -> Result<()> {
        Ok(())
    }
    fn get_config(&mut self, _offset: u32, size: u32, _flags: VhostUserConfigFlags) -> Result<Vec<u8>> {
        Ok(vec![0; size as usize])
    }
    fn set_config(&mut self, _offset: u32, _buf: &[u8], _flags: VhostUserConfigFlags) -> Result<()> {
        Ok(())
    }
    fn set_gpu_socket(&mut self, _gpu_backend: GpuBackend) -> Result<()> {
        Ok(())
    }
    fn get_inflight_fd(&mut self, _inflight: &VhostUserInflight) -> Result<(VhostUserInflight, File)> {
        Err(Error::MemFdCreateError)
    }
    fn set_inflight_fd(&mut self, _inflight: &VhostUserInflight, _file: File) -> Result<()> {
        Ok(())
    }
    fn get_max_mem_slots(&mut self) -> Result<u64> {
        Ok(32)
    }
    fn add_mem_region(
        &mut self,
        _region: &VhostUserSingleMemoryRegion,
        _fd: File,
        _postcopy_listening: Option<bool>,
    ) -> Result<Option<VhostUserMemoryRegionBase>> {
        Ok(None)
    }
    fn remove_mem_region(&mut self, _region: &VhostUserSingleMemoryRegion) -> Result<()> {
        Ok(())
    }
    fn set_device_state_fd(
        &mut self,
        _direction: VhostTransferStateDirection,
        _phase: VhostTransferStatePhase,
        _fd: File,
    ) -> Result<Option<File>> {
        Ok(None)
    }
    fn check_device_state(&mut self) -> Result<()> {
        Ok(())
    }
    fn set_log_base(&mut self, _log: &VhostUserLog, _file: File) -> Result<()> {
        Ok(())
    }
}

/// What a program does with a handler that it knows by its bound alone.
fn serve(handler: &mut BackendReqHandler<impl VhostUserBackendReqHandler>) -> io::Result<u64> {
    let mut count = 0;
    loop {
        match handler.handle_request() {
            Ok(()) => count += 1,
            Err(Error::Disconnected) => return Ok(count),
            Err(error) => return Err(error.into()),
        }
    }
}

fn is_sent<T: Send>(it: T) -> T {
    it
}

/// The handlers of both channels can be sent to another thread, and shared with it, as those of the crate.
#[test]
fn handlers_of_threads() {
    struct Machine;
    impl VhostUserFrontendReqHandlerMut for Machine {}
    fn is_shared<T: Send + Sync>() {}
    is_shared::<BackendReqHandler<Mutex<Mine>>>();
    is_shared::<FrontendReqHandler<Mutex<Machine>>>();
}

/// A listener gives its device to the first frontend that connects, and is used up then.
#[test]
fn a_program_of_the_crate() {
    counted(|| {
        let path = path_of("served");
        let mut listener = Listener::new(&path, true).unwrap();
        let mut backend = BackendListener::new(&mut listener, Arc::new(Mutex::new(Mine))).unwrap();
        backend.set_nonblocking(true).unwrap();
        assert!(backend.accept().unwrap().is_none());
        backend.set_nonblocking(false).unwrap();
        let at = path.clone();
        let asking = thread::spawn(move || {
            let mut frontend = Frontend::connect(at, 2).unwrap();
            frontend.set_owner().unwrap();
            let features = frontend.get_features().unwrap();
            frontend.set_features(features).unwrap();
            let offered = frontend.get_protocol_features().unwrap();
            frontend.set_protocol_features(offered & Frontend::PROTOCOL_FEATURES).unwrap();
            assert_eq!((2, 5), (frontend.get_queue_num().unwrap(), frontend.get_vring_base(1).unwrap()));
        });
        let mut handler = is_sent(backend.accept().unwrap().unwrap());
        assert!(matches!(backend.accept(), Err(Error::InvalidOperation(_))));
        assert_eq!(7, serve(&mut handler).unwrap());
        asking.join().unwrap();
        drop(listener);
        assert!(!path.exists());
    });
}

/// A backend that connects to its frontend.
#[test]
fn connecting() {
    counted(|| {
        let path = path_of("serving");
        let device = Arc::new(Mutex::new(Mine));
        let at = path.to_str().unwrap();
        assert!(matches!(BackendReqHandler::connect(at, device.clone()), Err(Error::SocketConnect(_))));
        let listener = UnixListener::bind(&path).unwrap();
        let mut handler = BackendReqHandler::connect(at, device).unwrap();
        let socket = listener.accept().unwrap().0;
        let asking = thread::spawn(move || assert_eq!(PROTOCOL, Frontend::from_stream(socket, 1).get_features().unwrap()));
        assert_eq!(1, serve(&mut handler).unwrap());
        asking.join().unwrap();
        std::fs::remove_file(&path).unwrap();
    });
}

/// What a device need not have: the backend channel, which is closed, the MTU, and postcopy.
#[test]
fn calls_that_have_a_body() {
    counted(|| {
        let device = Mutex::new(Mine);
        let (mine, other) = std::os::unix::net::UnixStream::pair().unwrap();
        device.set_backend_req_fd(Backend::from_stream(mine));
        assert_eq!(0, io::Read::read(&mut &other, &mut [0]).unwrap());
        assert!(matches!(device.set_mtu(1500), Err(Error::InvalidOperation(_))));
        assert!(matches!(device.postcopy_advice(), Err(Error::InvalidOperation(_))));
        assert!(matches!(device.get_shared_object(VhostUserSharedMsg::default()), Err(Error::InvalidOperation(_))));
        assert!(matches!(device.other(19, &[], Vec::new()), Err(Error::InvalidOperation(_))));
        assert_eq!(VhostUserShMemConfig::default(), device.get_shmem_config().unwrap());
        for refused in [device.postcopy_listen(), device.postcopy_end(), device.postcopy_ack_mem_regions()] {
            assert!(matches!(refused, Err(Error::InvalidOperation(_))));
        }
        let (channel, _) = std::os::unix::net::UnixStream::pair().unwrap();
        let number = channel.as_raw_fd();
        assert_eq!(number, GpuBackend::from_stream(channel).clone().as_raw_fd());
    });
}

#[test]
fn an_error_of_the_system() {
    let error: io::Error = Error::BackendInternalError.into();
    assert_eq!("backend internal error", error.to_string());
    assert!(VhostUserLog::new(1, u64::MAX - 1).is_valid());
    assert!(!VhostUserLog::new(1, u64::MAX).is_valid() && !VhostUserLog::new(0, 0).is_valid());
}

/// The protocol features that are served are those of the header.
#[test]
fn features_of_the_header() {
    let header = text_of(concat!(env!("CARGO_MANIFEST_DIR"), "/../include/covretin_backend.h"));
    let served = header.split("#define COVRETIN_SERVED_PROTOCOL_FEATURES").nth(1).unwrap().split(')').next().unwrap();
    let served: Vec<&str> = served
        .split(|it: char| !it.is_ascii_alphanumeric() && it != '_')
        .filter_map(|it| it.strip_prefix("COVRETIN_PROTOCOL_"))
        .collect();
    assert_eq!(served.join(" | "), format!("{SERVED_PROTOCOL_FEATURES:?}"));
    // Each call of the device is a request by its name, but for two.
    let calls = header.lines().filter_map(|it| it.trim_start().strip_prefix("COVRETIN_CALL_"));
    let calls: Vec<(&str, u32)> = calls
        .filter_map(|it| {
            let (name, rest) = it.split_once(" = ")?;
            Some((name, rest.split(|it: char| !it.is_ascii_digit()).next()?.parse().ok()?))
        })
        .collect();
    assert_eq!([("POSTCOPY_ACK", 256), ("OTHER", 257)], calls[35..]);
    for (name, number) in &calls[..35] {
        assert_eq!(*name, format!("{:?}", FrontendReq::try_from(*number).unwrap()));
    }
}
