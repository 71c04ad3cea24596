// SPDX-License-Identifier: Apache-2.0
//! The cases of the crate's own tests, of what is public of its vhost-user part, each once, by the crate's names. Where this package differs the
//! case says so.
mod common;

use std::cell::RefCell;
use std::collections::HashSet;
use std::fs::File;
use std::io::{self, ErrorKind};
use std::net::TcpListener;
use std::os::unix::io::{AsRawFd, FromRawFd, IntoRawFd, OwnedFd};
use std::os::unix::net::{UnixDatagram, UnixStream};
use std::path::PathBuf;
use std::sync::{Arc, Mutex, RwLock};
use std::thread;

// A program has this package under that name (rust/vhost).
use covretin as vhost;

use common::device::{agree, one_request, seen, served, Noting, Shared};
use common::{counted, memory_file, message, played, ASKS, PROTOCOL, REPLIES};
use vhost::vhost_user::gpu_message::*;
use vhost::vhost_user::message::*;
use vhost::vhost_user::{
    Backend, BackendListener, BackendReqHandler, Error as UserError, Frontend, FrontendReqHandler, GpuBackend, HandlerResult,
    Listener, VhostUserFrontend, VhostUserFrontendReqHandler, VhostUserFrontendReqHandlerMut,
};
use vhost::{Error, VhostBackend, VhostBackendMut, VhostUserMemoryRegionInfo, VringConfigData};

fn path_of(name: &str) -> PathBuf {
    std::env::temp_dir().join(format!("vhost-{}-{name}", std::process::id()))
}

fn object(number: u8) -> VhostUserSharedMsg {
    VhostUserSharedMsg { uuid: uuid::Uuid::from_bytes([number; 16]) }
}

fn region(memory_size: u64, mmap_handle: i32) -> VhostUserMemoryRegionInfo {
    VhostUserMemoryRegionInfo { memory_size, mmap_handle, ..Default::default() }
}

// -- Errors --

#[test]
fn texts_of_errors() {
    let texts = [
        (Error::InvalidOperation, "invalid vhost operations"),
        (Error::InvalidGuestMemory, "invalid guest memory object"),
        (Error::InvalidGuestMemoryRegion, "invalid guest memory region"),
        (Error::InvalidIotlbMsg, "invalid IOTLB message"),
        (Error::InvalidQueue, "invalid virtqueue"),
        (Error::DescriptorTableAddress, "invalid virtqueue descriptor table address"),
        (Error::UsedAddress, "invalid virtqueue used table address"),
        (Error::AvailAddress, "invalid virtqueue available table address"),
        (Error::LogAddress, "invalid virtqueue log address"),
        (Error::from(UserError::OversizedMsg), "vhost-user: oversized message"),
    ];
    for (error, text) in texts {
        assert_eq!(text, error.to_string());
    }
    assert_eq!("AvailAddress", format!("{:?}", Error::AvailAddress));
    assert_eq!("invalid parameters", UserError::InvalidParam.to_string());
}

#[test]
fn when_a_new_connection_may_help() {
    assert!(UserError::PartialMessage.should_reconnect() && UserError::BackendInternalError.should_reconnect());
    let broken = UserError::SocketBroken(io::Error::from_raw_os_error(libc::EPIPE));
    assert!(broken.should_reconnect() && UserError::FrontendInternalError.should_reconnect());
    assert!(!UserError::InvalidParam.should_reconnect() && !UserError::Disconnected.should_reconnect());
}

// -- Records and codes --

#[test]
fn numbers_of_codes() {
    assert_eq!(Ok(VhostTransferStateDirection::LOAD), VhostTransferStateDirection::try_from(1));
    assert_eq!(Ok(VhostTransferStateDirection::SAVE), VhostTransferStateDirection::try_from(0));
    assert!(VhostTransferStateDirection::try_from(3).is_err() && VhostTransferStatePhase::try_from(1).is_err());
    assert_eq!(
        Ok(VhostTransferStatePhase::STOPPED),
        VhostTransferStatePhase::try_from(u32::from(VhostTransferStatePhase::STOPPED))
    );
    assert_eq!(Ok(FrontendReq::GET_FEATURES), FrontendReq::try_from(1));
    assert_eq!(Ok(BackendReq::CONFIG_CHANGE_MSG), BackendReq::try_from(2));
    assert!(FrontendReq::try_from(10000).is_err() && BackendReq::try_from(10000).is_err());
}

#[test]
fn records_of_memory() {
    let memory = |num_regions, padding1| VhostUserMemory { num_regions, padding1 }.is_valid();
    assert!(memory(1, 0) && memory(32, 0) && !memory(33, 0) && !memory(u32::MAX, 0) && !memory(32, 1));
    let region = |guest, size| VhostUserMemoryRegion::new(guest, size, 0, 0).is_valid();
    assert!(region(0, 0x1000) && region(u64::MAX - 0x1000, 0x1000) && !region(u64::MAX - 0xfff, 0x1000) && !region(1 << 40, 0));
    let none = VhostUserMemoryRegion::default();
    assert_eq!((0, 0, 0, 0), ({ none.guest_phys_addr }, { none.memory_size }, { none.user_addr }, { none.mmap_offset }));
    assert_eq!((0, 1), (VhostUserU64::default().value, VhostUserU64::new(1).value));
}

#[test]
fn records_of_rings() {
    let state = VhostUserVringState::new(5, 8);
    assert_eq!((5, 8), ({ state.index }, { state.num }));
    assert!(state.is_valid() && VhostUserVringState::default().is_valid());
    let given = VringConfigData {
        queue_max_size: 256,
        queue_size: 128,
        flags: VhostUserVringAddrFlags::VHOST_VRING_F_LOG.bits(),
        desc_table_addr: 0x1000,
        used_ring_addr: 0x2000,
        avail_ring_addr: 0x3000,
        log_addr: Some(0x4000),
    };
    let ring = VhostUserVringAddr::from_config_data(2, &given);
    assert_eq!(VhostUserVringAddr::new(2, VhostUserVringAddrFlags::VHOST_VRING_F_LOG, 0x1000, 0x2000, 0x3000, 0x4000), ring);
    assert!(ring.is_valid());
    let wrong = [
        VhostUserVringAddr { descriptor: 0x1001, ..ring },
        VhostUserVringAddr { available: 0x3001, ..ring },
        VhostUserVringAddr { used: 0x2001, ..ring },
        VhostUserVringAddr { flags: 1 << 31, ..ring },
    ];
    assert!(wrong.iter().all(|ring| !ring.is_valid()));
}

#[test]
fn log_addresses() {
    let ring = VringConfigData::default();
    assert!(ring.is_log_addr_valid());
    assert_eq!(0, ring.get_log_addr());
    let logged = VringConfigData { flags: 1, ..ring };
    assert!(!logged.is_log_addr_valid());
    assert_eq!(0, logged.get_log_addr());
    let at = VringConfigData { log_addr: Some(0x7000), ..logged };
    assert!(at.is_log_addr_valid());
    assert_eq!((0x7000, 0), (at.get_log_addr(), VringConfigData { flags: 0, ..at }.get_log_addr()));
}

#[test]
fn parts_of_the_configuration_space() {
    let part = |offset, size, flags| VhostUserConfig { offset, size, flags }.is_valid();
    assert!(VhostUserConfig::new(0, VHOST_USER_CONFIG_SIZE, VhostUserConfigFlags::WRITABLE).is_valid());
    assert!(part(0, 1, 3) && part(VHOST_USER_CONFIG_SIZE - 1, 1, 1));
    assert!(
        !part(0, 0, 1) && !part(u32::MAX, 1, 1) && !part(VHOST_USER_CONFIG_SIZE, 1, 1) && !part(VHOST_USER_CONFIG_SIZE - 1, 2, 1)
    );
    assert!(!part(0, 1, 4));
}

#[test]
fn parts_of_shared_memory() {
    let part =
        |fd_offset, shm_offset, len, flags| VhostUserMMap { fd_offset, shm_offset, len, flags, ..Default::default() }.is_valid();
    assert!(part(0, 0x1000, 0x2000, VhostUserMMapFlags::WRITABLE.bits()) && part(0, 0, 1, 0));
    assert!(
        !part(0, 0, 1, 2) && !part(0, 0, 0, 1) && !part(u64::MAX - 0xfff, 0, 0x1000, 1) && !part(0, u64::MAX - 0xfff, 0x1000, 1)
    );
}

// -- A backend of a program's own --

#[derive(Default)]
struct Kept(Vec<(usize, u32)>);

impl VhostBackendMut for Kept {
    fn get_features(&mut self) -> vhost::Result<u64> {
        Ok(1)
    }
    fn set_features(&mut self, features: u64) -> vhost::Result<()> {
        if features == 1 {
            Ok(())
        } else {
            Err(Error::InvalidOperation)
        }
    }
    fn set_owner(&mut self) -> vhost::Result<()> {
        Ok(())
    }
    fn reset_owner(&mut self) -> vhost::Result<()> {
        Ok(())
    }
    fn set_mem_table(&mut self, _: &[VhostUserMemoryRegionInfo]) -> vhost::Result<Option<Vec<u64>>> {
        Ok(None)
    }
    fn set_log_base(&mut self, _: u64, _: Option<vhost::VhostUserDirtyLogRegion>) -> vhost::Result<()> {
        Ok(())
    }
    fn set_log_fd(&mut self, _: i32) -> vhost::Result<()> {
        Ok(())
    }
    fn set_vring_num(&mut self, index: usize, num: u16) -> vhost::Result<()> {
        self.0.push((index, num.into()));
        Ok(())
    }
    fn set_vring_addr(&mut self, _: usize, _: &VringConfigData) -> vhost::Result<()> {
        Ok(())
    }
    fn set_vring_base(&mut self, index: usize, base: u16) -> vhost::Result<()> {
        self.0.push((index, base.into()));
        Ok(())
    }
    fn get_vring_base(&mut self, index: usize) -> vhost::Result<u32> {
        Ok(self.0.iter().rev().find(|it| it.0 == index).map_or(0, |it| it.1))
    }
    fn set_vring_call(&mut self, _: usize, _: &dyn AsRawFd) -> vhost::Result<()> {
        Ok(())
    }
    fn set_vring_kick(&mut self, _: usize, _: &dyn AsRawFd) -> vhost::Result<()> {
        Ok(())
    }
    fn set_vring_err(&mut self, _: usize, _: &dyn AsRawFd) -> vhost::Result<()> {
        Ok(())
    }
}

#[test]
fn a_backend_behind_a_lock() {
    fn asked(backend: &impl VhostBackend) {
        assert_eq!(1, backend.get_features().unwrap());
        backend.set_features(1).unwrap();
        assert!(backend.set_features(2).is_err());
        backend.set_owner().unwrap();
        backend.reset_owner().unwrap();
        assert!(backend.set_mem_table(&[region(0x1000, -1)]).unwrap().is_none());
        backend.set_vring_num(1, 256).unwrap();
        backend.set_vring_base(1, 2).unwrap();
        assert_eq!(2, backend.get_vring_base(1).unwrap());
        let file = memory_file();
        backend.set_vring_call(1, &file).unwrap();
        backend.set_vring_kick(1, &file).unwrap();
        backend.set_vring_err(1, &file).unwrap();
    }
    counted(|| {
        asked(&RwLock::new(Kept::default()));
        asked(&RefCell::new(Kept::default()));
    });
}

// -- Listeners --

#[test]
fn listeners() {
    counted(|| {
        let path = path_of("listeners");
        let mut listener = Listener::new(&path, true).unwrap();
        assert!(listener.as_raw_fd() > 0);
        let mut backend = BackendListener::new(&mut listener, Shared::default()).unwrap();
        for is_on in [true, false, false, true, true] {
            backend.set_nonblocking(is_on).unwrap();
        }
        assert!(backend.accept().unwrap().is_none() && backend.accept().unwrap().is_none());
        let frontend = Frontend::connect(&path, 1).unwrap();
        let mut handler = backend.accept().unwrap().unwrap();
        assert!(frontend.as_raw_fd() > 0 && handler.as_raw_fd() > 0);
        frontend.set_owner().unwrap();
        handler.handle_request().unwrap();
        // (the crate panics here)
        assert!(matches!(backend.accept(), Err(UserError::InvalidOperation(_))));
        drop(backend);
        // SAFETY: the number is of a copy that is given up.
        let again = unsafe { Listener::from_raw_fd(OwnedFd::from(dup_of(&listener)).into_raw_fd()) };
        again.set_nonblocking(true).unwrap();
        assert!(again.accept().unwrap().is_none());
    });
}

fn dup_of(fd: &impl AsRawFd) -> File {
    File::open(format!("/proc/self/fd/{}", fd.as_raw_fd())).unwrap_or_else(|_| {
        // (a socket is not opened by its path)
        // SAFETY: it makes a number that belongs to nobody else.
        unsafe { File::from_raw_fd(libc::dup(fd.as_raw_fd())) }
    })
}

#[test]
fn nobody_listens() {
    counted(|| assert!(Frontend::connect(path_of("nobody"), 1).is_err()));
}

// -- Frontends and devices --

#[test]
fn a_session() {
    counted(|| {
        let device = Shared::default();
        seen(&device).gives = Some(memory_file());
        seen(&device).config = vec![0xa5; 4];
        let met = served(&device, |frontend| {
            frontend.set_owner().unwrap();
            assert_eq!(PROTOCOL, frontend.get_features().unwrap());
            assert_eq!(vec!["set_owner", "get_features"], seen(&device).asked);
            agree(&device, frontend);
            let wanted = VhostUserInflight { num_queues: 2, queue_size: 256, ..Default::default() };
            let (inflight, file) = frontend.get_inflight_fd(&wanted).unwrap();
            assert_eq!((2, 256), (inflight.num_queues, inflight.queue_size));
            frontend.set_inflight_fd(&inflight, file.as_raw_fd()).unwrap();
            frontend.get_shared_object(&object(1)).unwrap();
            assert_eq!(4, frontend.get_queue_num().unwrap());
            let memory = memory_file();
            memory.set_len(0x10_0000).unwrap();
            let region = region(0x10_0000, memory.as_raw_fd());
            frontend.set_mem_table(&[region]).unwrap();
            frontend.set_config(0x100, VhostUserConfigFlags::WRITABLE, &[0xa5; 4]).unwrap();
            let (config, bytes) = frontend.get_config(0x100, 4, VhostUserConfigFlags::empty(), &[0; 4]).unwrap();
            assert_eq!((0x100, vec![0xa5; 4]), ({ config.offset }, bytes));
            let (channel, _other) = UnixStream::pair().unwrap();
            frontend.set_backend_request_fd(&channel).unwrap();
            frontend.set_vring_enable(0, true).unwrap();
            assert_eq!(32, frontend.get_max_mem_slots().unwrap());
            frontend.add_mem_region(&region).unwrap();
            frontend.remove_mem_region(&region).unwrap();
            frontend.set_vring_num(0, 256).unwrap();
            frontend.set_vring_base(0, 0).unwrap();
            let ring = VringConfigData {
                desc_table_addr: 0x1000,
                used_ring_addr: 0x2000,
                avail_ring_addr: 0x3000,
                ..Default::default()
            };
            frontend.set_vring_addr(0, &ring).unwrap();
            for set in [Frontend::set_vring_call, Frontend::set_vring_kick, Frontend::set_vring_err] {
                set(frontend, 0, &memory).unwrap();
            }
            let log = vhost::VhostUserDirtyLogRegion { mmap_size: 0x1000, mmap_offset: 0x10, mmap_handle: memory.as_raw_fd() };
            frontend.set_log_base(0, Some(log)).unwrap();
            let (pipe, _) = UnixStream::pair().unwrap();
            let direction = VhostTransferStateDirection::SAVE;
            assert!(frontend.set_device_state_fd(direction, VhostTransferStatePhase::STOPPED, pipe.into()).unwrap().is_some());
            frontend.check_device_state().unwrap();
            assert_eq!(2, frontend.get_shmem_config().unwrap().nregions);
            frontend.reset_device().unwrap();
        });
        assert_eq!(Vec::<String>::new(), met);
    });
}

/// Of a device state's pipe the backend may have no other.
#[test]
fn a_device_state_by_the_given_pipe() {
    counted(|| {
        let device = Shared::default();
        served(&device, |frontend| {
            agree(&device, frontend);
            let (pipe, _other) = UnixStream::pair().unwrap();
            let direction = VhostTransferStateDirection::LOAD;
            assert!(frontend.set_device_state_fd(direction, VhostTransferStatePhase::STOPPED, pipe.into()).unwrap().is_none());
        });
    });
}

#[test]
fn features_are_asked_for_before() {
    counted(|| {
        let backend = |peer: &common::Peer| {
            peer.still_serves(PROTOCOL | 1);
            peer.hear(&message(2, ASKS, &(PROTOCOL | 1).to_le_bytes()));
        };
        played(backend, |frontend| {
            assert!(frontend.get_protocol_features().is_err());
            assert!(frontend.set_protocol_features(VhostUserProtocolFeatures::all()).is_err());
            assert_eq!(PROTOCOL | 1, frontend.get_features().unwrap());
            frontend.set_features(PROTOCOL | 1).unwrap();
            // (a part of the configuration space, and memory, that are none)
            assert!(frontend.set_config(0x100, VhostUserConfigFlags::WRITABLE, &[0]).is_err());
            assert!(frontend.set_mem_table(&[]).is_err());
            assert!(frontend.set_mem_table(&[VhostUserMemoryRegionInfo::default(); 33]).is_err());
        });
    });
}

/// Replies to GET_CONFIG that are none, each on a connection of its own: here they end it.
#[test]
fn replies_without_a_configuration() {
    let body = |size: u32| [0x100u32.to_le_bytes(), size.to_le_bytes(), [0; 4]].concat();
    let replies = [
        message(24, REPLIES, &[body(4), vec![0; 3]].concat()),
        message(25, REPLIES, &[body(4), vec![0; 4]].concat()),
        message(24, ASKS, &[body(4), vec![0; 4]].concat()),
        message(24, REPLIES, &[body(5), vec![0; 4]].concat()),
        message(24, REPLIES, &[body(0), vec![]].concat()),
    ];
    for reply in replies {
        counted(|| {
            let backend = move |peer: &common::Peer| {
                peer.hear_any();
                peer.say(&reply, &[]);
            };
            common::negotiated(VhostUserProtocolFeatures::CONFIG.bits(), backend, |frontend| {
                assert!(frontend.get_config(0x100, 4, VhostUserConfigFlags::WRITABLE, &[0; 4]).is_err());
            });
        });
    }
}

#[test]
fn regions_of_shared_memory() {
    let sizes: Vec<u64> = (1..=8).map(|it| it * 0x1000).collect();
    let all = VhostUserShMemConfig::new(8, &sizes);
    assert_eq!((&sizes[..], 0), (&all.memory_sizes[..8], all.memory_sizes[8..].iter().sum::<u64>()));
    counted(|| {
        let device = Shared::default();
        served(&device, |frontend| {
            agree(&device, frontend);
            let found = frontend.get_shmem_config().unwrap();
            assert_eq!((2, [0x1000, 0, 0x3000, 0]), (found.nregions, found.memory_sizes[..4].try_into().unwrap()));
        });
        let (refused, _) = one_request(&device, VhostUserProtocolFeatures::MQ.bits(), &message(44, ASKS, &[]), &[]);
        assert!(matches!(refused, Err(UserError::InactiveOperation(VhostUserProtocolFeatures::SHMEM))));
    });
}

#[test]
fn a_handler_that_failed() {
    counted(|| {
        let (mine, _other) = UnixStream::pair().unwrap();
        let mut handler = BackendReqHandler::from_stream(mine, Arc::new(Mutex::new(Noting::default())));
        handler.set_failed(libc::EAGAIN);
        assert!(matches!(handler.handle_request(), Err(UserError::SocketBroken(_))));
    });
}

#[test]
fn sockets_that_a_channel_cannot_have() {
    let features = VhostUserProtocolFeatures::BACKEND_REQ.bits();
    let try_one = |file: File| one_request(&Shared::default(), features, &message(21, ASKS, &[]), &[&file]).0;
    counted(|| {
        let (stream, _other) = UnixStream::pair().unwrap();
        try_one(OwnedFd::from(stream).into()).unwrap();
        let listener = TcpListener::bind("127.0.0.1:0").unwrap();
        assert!(matches!(try_one(OwnedFd::from(listener).into()), Err(UserError::NotUnixSocket)));
        assert!(matches!(try_one(File::open("/dev/null").unwrap()), Err(UserError::InvalidSocketFd(_))));
        let datagram = UnixDatagram::unbound().unwrap();
        assert!(matches!(try_one(OwnedFd::from(datagram).into()), Err(UserError::NotStreamSocket)));
    });
}

// -- The backend channel --

#[test]
fn calls_that_have_a_body() {
    struct Nothing;
    impl VhostUserFrontendReqHandler for Nothing {}
    impl VhostUserFrontendReqHandlerMut for Nothing {}
    let refused = |result: HandlerResult<u64>| assert_eq!(ErrorKind::Unsupported, result.unwrap_err().kind());
    fn each(it: &impl VhostUserFrontendReqHandler, refused: impl Fn(HandlerResult<u64>)) {
        refused(it.shared_object_add(&Default::default()));
        refused(it.shared_object_remove(&Default::default()));
        refused(it.shared_object_lookup(&Default::default(), &0));
        refused(it.shmem_map(&Default::default(), &0));
        refused(it.shmem_unmap(&Default::default()));
    }
    each(&Nothing, refused);
    each(&Mutex::new(Nothing), refused);
}

/// Objects and parts of shared memory, of which each is there once.
#[derive(Default)]
struct Registry(HashSet<u128>, HashSet<(u64, u64)>);

impl VhostUserFrontendReqHandlerMut for Registry {
    fn shared_object_add(&mut self, it: &VhostUserSharedMsg) -> HandlerResult<u64> {
        Ok(u64::from(!self.0.insert(it.uuid.as_u128())))
    }
    fn shared_object_remove(&mut self, it: &VhostUserSharedMsg) -> HandlerResult<u64> {
        Ok(u64::from(!self.0.remove(&it.uuid.as_u128())))
    }
    fn shared_object_lookup(&mut self, it: &VhostUserSharedMsg, _: &dyn AsRawFd) -> HandlerResult<u64> {
        Ok(u64::from(!self.0.contains(&it.uuid.as_u128())))
    }
    fn shmem_map(&mut self, it: &VhostUserMMap, _: &dyn AsRawFd) -> HandlerResult<u64> {
        Ok(u64::from(!self.1.insert((it.shm_offset, it.len))))
    }
    fn shmem_unmap(&mut self, it: &VhostUserMMap) -> HandlerResult<u64> {
        Ok(u64::from(!self.1.remove(&(it.shm_offset, it.len))))
    }
}

/// A device's calls and what serves them, with acknowledgements or without.
fn asked_over_the_channel(is_acknowledged: bool) {
    let mut handler = FrontendReqHandler::new(Arc::new(Mutex::new(Registry::default()))).unwrap();
    handler.set_reply_ack_flag(is_acknowledged);
    // SAFETY: it makes a number that belongs to nobody else.
    let tx = unsafe { UnixStream::from_raw_fd(libc::dup(handler.get_tx_raw_fd())) };
    let backend = Backend::from_stream(tx);
    let serving = thread::spawn(move || (0..11).map(|_| handler.handle_request().unwrap()).collect::<Vec<_>>());
    assert!(backend.shared_object_add(&object(1)).is_err() && backend.shmem_unmap(&Default::default()).is_err());
    backend.set_reply_ack_flag(is_acknowledged);
    backend.set_shared_object_flag(true);
    backend.set_shmem_flag(true);
    let file = memory_file();
    let part = |shm_offset, len| VhostUserMMap { shm_offset, len, ..Default::default() };
    let went = [
        backend.shared_object_add(&object(1)),
        backend.shared_object_add(&object(1)),
        backend.shared_object_lookup(&object(1), &file),
        backend.shared_object_lookup(&object(2), &file),
        backend.shared_object_remove(&object(1)),
        backend.shared_object_remove(&object(1)),
        backend.shmem_map(&part(0, 4096), &file),
        backend.shmem_unmap(&part(4096, 8192)),
        backend.shmem_map(&part(4096, 8192), &file),
        backend.shmem_unmap(&part(4096, 8192)),
        backend.shmem_unmap(&part(0, 4096)),
    ];
    let values = serving.join().unwrap();
    assert_eq!(vec![0, 1, 0, 1, 0, 1, 0, 1, 0, 0, 0], values);
    let refused: Vec<u64> = went.iter().map(|it| u64::from(it.is_err())).collect();
    assert_eq!(if is_acknowledged { values } else { vec![0; 11] }, refused);
}

#[test]
fn a_channel_without_acknowledgements() {
    counted(|| asked_over_the_channel(false));
}

#[test]
fn a_channel_with_acknowledgements() {
    counted(|| asked_over_the_channel(true));
}

#[test]
fn channels_that_failed() {
    counted(|| {
        let mut handler = FrontendReqHandler::new(Arc::new(Mutex::new(Registry::default()))).unwrap();
        assert!(handler.get_tx_raw_fd() > 0 && handler.as_raw_fd() > 0);
        handler.set_failed(libc::EAGAIN);
        assert!(matches!(handler.handle_request(), Err(UserError::SocketBroken(_))));
        let backend = Backend::from_stream(UnixStream::pair().unwrap().0);
        backend.set_shared_object_flag(true);
        backend.set_failed(libc::ECONNRESET);
        assert!(backend.shared_object_add(&object(1)).is_err() && backend.shared_object_remove(&object(1)).is_err());
    });
}

/// Acknowledgements of another request, or of a refusal. (The crate goes on after the first; here it ends the channel.)
#[test]
fn acknowledgements_that_are_none() {
    for (code, number, goes_on) in [(7, 0u64, false), (6, 1, true), (6, 0, true)] {
        counted(|| {
            let (mine, other) = UnixStream::pair().unwrap();
            let (backend, peer) = (Backend::from_stream(mine), common::Peer { socket: other });
            backend.set_shared_object_flag(true);
            backend.set_reply_ack_flag(true);
            peer.say_number(code, number);
            assert_eq!((code, number) == (6, 0), backend.shared_object_add(&object(1)).is_ok());
            peer.say_number(6, 0);
            assert_eq!(goes_on, backend.shared_object_add(&object(1)).is_ok());
        });
    }
}

// -- The vhost-user-gpu channel --

/// A device's call, the request that its display sees, and the reply that it gets.
fn shown<T: Send + 'static>(
    call: impl FnOnce(&GpuBackend) -> io::Result<T> + Send + 'static,
    code: u32,
    body: &[u8],
    fds: usize,
    reply: Option<&[u8]>,
) -> T {
    let (mine, other) = UnixStream::pair().unwrap();
    let peer = common::Peer { socket: other };
    let calling = thread::spawn(move || call(&GpuBackend::from_stream(mine)).unwrap());
    assert_eq!(fds, peer.hear(&message(code, 0, body)).len());
    if let Some(reply) = reply {
        peer.say(&message(code, 4, reply), &[]);
    }
    calling.join().unwrap()
}

fn words(numbers: &[u32]) -> Vec<u8> {
    numbers.iter().flat_map(|it| it.to_le_bytes()).collect()
}

#[test]
fn what_a_display_replies() {
    counted(|| {
        let mut info = vec![0; 24 + 16 * 24];
        info[24..48].copy_from_slice(&words(&[0, 0, 640, 480, 1, 0]));
        let found = shown(GpuBackend::get_display_info, 3, &[], 0, Some(&info));
        let screen = VirtioGpuDisplayOne { r: VirtioGpuRect { x: 0, y: 0, width: 640, height: 480 }, enabled: 1, flags: 0 };
        assert_eq!((screen, VirtioGpuDisplayOne::default()), (found.pmodes[0], found.pmodes[1]));
        let edid = [vec![0; 24], words(&[512, 0]), vec![1; 1024]].concat();
        let found = shown(|it| it.get_edid(&VhostUserGpuEdidRequest { scanout_id: 1 }), 11, &words(&[1]), 0, Some(&edid));
        assert_eq!((512, [1; 1024]), (found.size, found.edid));
        let both = VhostUserGpuProtocolFeatures::EDID | VhostUserGpuProtocolFeatures::DMABUF2;
        let number = both.bits().to_le_bytes();
        assert_eq!(both.bits(), shown(GpuBackend::get_protocol_features, 1, &[], 0, Some(&number)).value);
        let part = VhostUserGpuUpdate { scanout_id: 1, x: 30, y: 40, width: 10, height: 10 };
        shown(move |it| it.update_dmabuf_scanout(&part), 10, &words(&[1, 30, 40, 10, 10]), 0, Some(&[]));
    });
}

#[test]
fn what_a_display_is_told() {
    counted(|| {
        shown(|it| it.set_protocol_features(&VhostUserU64::new(1)), 2, &1u64.to_le_bytes(), 0, None);
        let screen = VhostUserGpuScanout { scanout_id: 1, width: 1920, height: 1080 };
        shown(move |it| it.set_scanout(&screen), 7, &words(&[1, 1920, 1080]), 0, None);
        let part = VhostUserGpuUpdate { scanout_id: 1, x: 30, y: 40, width: 10, height: 10 };
        let pixels = [words(&[1, 30, 40, 10, 10]), vec![1; 400]].concat();
        shown(move |it| it.update_scanout(&part, &[1; 400]), 8, &pixels, 0, None);
        let pos = VhostUserGpuCursorPos { scanout_id: 1, x: 31, y: 102 };
        shown(move |it| it.cursor_pos(&pos), 4, &words(&[1, 31, 102]), 0, None);
        shown(move |it| it.cursor_pos_hide(&pos), 5, &words(&[1, 31, 102]), 0, None);
        let cursor = VhostUserGpuCursorUpdate { pos, hot_x: 30, hot_y: 30 };
        let pixels = [words(&[1, 31, 102, 30, 30]), vec![2; 4 * 64 * 64]].concat();
        shown(move |it| it.cursor_update(&cursor, &[2; 4 * 64 * 64]), 6, &pixels, 0, None);
        let buffer = VhostUserGpuDMABUFScanout {
            scanout_id: 1,
            width: 1920,
            height: 1080,
            fd_width: 1920,
            fd_height: 1080,
            ..Default::default()
        };
        let form = words(&[1, 0, 0, 1920, 1080, 1920, 1080, 0, 0, 0]);
        shown(move |it| it.set_dmabuf_scanout(&buffer, Some(&memory_file())), 9, &form, 1, None);
        let buffer2 = VhostUserGpuDMABUFScanout2 { dmabuf_scanout: buffer, modifier: 13 };
        let form = [form, 13u64.to_le_bytes().to_vec()].concat();
        shown(move |it| it.set_dmabuf_scanout2(&buffer2, Some(&memory_file())), 12, &form, 1, None);
        let display = GpuBackend::from_stream(UnixStream::pair().unwrap().0);
        display.set_failed(libc::EAGAIN);
        assert!(display.cursor_pos(&pos).is_err());
    });
}
