// SPDX-License-Identifier: Apache-2.0
//! The names of the crate `vhost`, as a program of it uses them, and numbers that the header has too.
mod common;

use std::os::unix::io::{AsRawFd, RawFd};
use std::os::unix::net::UnixListener;
use std::path::PathBuf;
use std::sync::RwLock;
use std::thread;

// A program says `vhost = { package = "covretin", .. }` in its Cargo.toml for this.
use covretin as vhost;

use common::*;
use vhost::vhost_user::gpu_message::*;
use vhost::vhost_user::message::*;
use vhost::vhost_user::{Error as ProtocolError, Frontend, Listener, Profile, VhostUserFrontend};
use vhost::{
    Error, Result, VhostAccess, VhostBackend, VhostBackendMut, VhostIotlbBackend, VhostIotlbMsg, VhostIotlbMsgParser,
    VhostIotlbType, VhostUserDirtyLogRegion, VhostUserMemoryRegionBase, VhostUserMemoryRegionInfo, VringConfigData,
};

fn path_of(name: &str) -> PathBuf {
    std::env::temp_dir().join(format!("covretin-{}-{name}", std::process::id()))
}

/// What a monitor does to a backend that it knows by the traits alone.
fn prepare(backend: &mut impl VhostUserFrontend) -> Result<u64> {
    backend.set_owner()?;
    let features = backend.get_features()?;
    backend.set_features(features)?;
    let offered = backend.get_protocol_features()?;
    backend.set_protocol_features(offered & VhostUserProtocolFeatures::MQ)?;
    backend.get_queue_num()
}

#[test]
fn a_program_of_the_crate() {
    counted(|| {
        let backend = |peer: &Peer| {
            peer.hear(&message(3, ASKS, &[]));
            peer.still_serves(PROTOCOL);
            peer.hear_any();
            peer.hear_any();
            peer.say_number(15, 3);
            peer.hear(&message(16, ASKS, &1u64.to_le_bytes()));
            peer.hear(&message(17, ASKS, &[]));
            peer.say_number(17, 2);
        };
        played(backend, |frontend| assert_eq!(2, prepare(frontend).unwrap()));
    });
}

/// A backend of a program's own, behind a lock.
struct Mine {
    features: u64,
}

impl VhostBackendMut for Mine {
    fn get_features(&mut self) -> Result<u64> {
        Ok(self.features)
    }
    fn set_features(&mut self, features: u64) -> Result<()> {
        self.features = features;
        Ok(())
    }
    fn set_owner(&mut self) -> Result<()> {
        Err(Error::InvalidOperation)
    }
    fn reset_owner(&mut self) -> Result<()> {
        Ok(())
    }
    fn set_mem_table(&mut self, _: &[VhostUserMemoryRegionInfo]) -> Result<Option<Vec<VhostUserMemoryRegionBase>>> {
        Ok(None)
    }
    fn set_log_base(&mut self, _: u64, _: Option<VhostUserDirtyLogRegion>) -> Result<()> {
        Ok(())
    }
    fn set_log_fd(&mut self, _: RawFd) -> Result<()> {
        Ok(())
    }
    fn set_vring_num(&mut self, _: usize, _: u16) -> Result<()> {
        Ok(())
    }
    fn set_vring_addr(&mut self, _: usize, _: &VringConfigData) -> Result<()> {
        Ok(())
    }
    fn set_vring_base(&mut self, _: usize, _: u16) -> Result<()> {
        Ok(())
    }
    fn get_vring_base(&mut self, _: usize) -> Result<u32> {
        Ok(5)
    }
    fn set_vring_call(&mut self, _: usize, _: &dyn AsRawFd) -> Result<()> {
        Ok(())
    }
    fn set_vring_kick(&mut self, _: usize, _: &dyn AsRawFd) -> Result<()> {
        Ok(())
    }
    fn set_vring_err(&mut self, _: usize, _: &dyn AsRawFd) -> Result<()> {
        Ok(())
    }
}

#[test]
fn a_backend_behind_a_lock() {
    let backend = RwLock::new(Mine { features: 0 });
    backend.set_features(7).unwrap();
    assert_eq!(7, backend.get_features().unwrap());
    assert_eq!(5, backend.get_vring_base(0).unwrap());
    assert!(matches!(backend.set_owner(), Err(Error::InvalidOperation)));
    assert_eq!(7, std::cell::RefCell::new(Mine { features: 7 }).get_features().unwrap());
}

#[test]
fn connecting() {
    counted(|| {
        let path = path_of("connecting");
        failed(
            "SocketConnect(Os { code: 2, kind: NotFound, message: \"No such file or directory\" })",
            Frontend::connect(&path, 1),
        );
        let listener = UnixListener::bind(&path).unwrap();
        let frontend = Frontend::connect(&path, 1).unwrap();
        frontend.set_owner().unwrap();
        let peer = Peer { socket: listener.accept().unwrap().0 };
        peer.hear(&message(3, ASKS, &[]));
        drop((frontend, listener));
        // Nobody listens any more: it tries for half a second.
        let began = std::time::Instant::now();
        assert!(matches!(Frontend::connect(&path, 1), Err(Error::VhostUserProtocol(ProtocolError::SocketConnect(_)))));
        assert!(began.elapsed().as_millis() >= 500);
        std::fs::remove_file(&path).unwrap();
    });
}

/// A frontend that a backend connects to.
#[test]
fn listening() {
    counted(|| {
        let path = path_of("listening");
        std::fs::write(&path, "in the way").unwrap();
        assert!(matches!(Listener::new(&path, false), Err(ProtocolError::SocketError(_))));
        let listener = Listener::new(&path, true).unwrap();
        listener.set_nonblocking(true).unwrap();
        assert!(listener.accept().unwrap().is_none());
        listener.set_nonblocking(false).unwrap();
        let at = path.clone();
        let backend = thread::spawn(move || {
            Peer { socket: std::os::unix::net::UnixStream::connect(at).unwrap() }.still_serves(7);
        });
        let frontend = Frontend::from_stream(listener.accept().unwrap().unwrap(), 1);
        assert_eq!(7, frontend.get_features().unwrap());
        backend.join().unwrap();
        drop(listener);
        assert!(!path.exists());
    });
}

#[cfg(feature = "vm-memory")]
#[test]
fn regions_of_vm_memory() {
    use vm_memory::{FileOffset, GuestAddress, GuestMemory, GuestMemoryMmap};
    counted(|| {
        let file = memory_file();
        file.set_len(0x3000).unwrap();
        let fd = file.as_raw_fd();
        let ranges = [(GuestAddress(0x1000), 0x2000, Some(FileOffset::new(file, 0x1000)))];
        let memory = GuestMemoryMmap::<()>::from_ranges_with_files(ranges).unwrap();
        let region = memory.find_region(GuestAddress(0x1000)).unwrap();
        let info = VhostUserMemoryRegionInfo::from_guest_region(region).unwrap();
        assert_eq!((0x1000, 0x2000, 0x1000, fd), (info.guest_phys_addr, info.memory_size, info.mmap_offset, info.mmap_handle));
        assert_eq!(memory.get_host_address(GuestAddress(0x1000)).unwrap() as u64, info.userspace_addr);
        assert_eq!(info.userspace_addr, { info.to_region().user_addr });
        assert_eq!(0x1000, { info.to_single_region().guest_phys_addr });
        let anonymous = GuestMemoryMmap::<()>::from_ranges(&[(GuestAddress(0), 0x1000)]).unwrap();
        let region = anonymous.find_region(GuestAddress(0)).unwrap();
        assert!(matches!(VhostUserMemoryRegionInfo::from_guest_region(region), Err(Error::InvalidGuestMemoryRegion)));
    });
}

#[cfg(feature = "vm-memory")]
#[test]
fn a_region_that_is_mapped() {
    use vm_memory::VolatileMemory;
    counted(|| {
        let file = memory_file();
        std::os::unix::fs::FileExt::write_all_at(&file, b"there", 0x1000).unwrap();
        file.set_len(0x3000).unwrap();
        let region = VhostUserMemoryRegion::new(0x5000, 0x2000, 0x9000, 0x1000);
        let mapped = region.mmap_region::<()>(file.try_clone().unwrap()).unwrap();
        assert_eq!(0x2000, mapped.size());
        let mut read = [0; 5];
        mapped.get_slice(0, 5).unwrap().copy_to(&mut read);
        assert_eq!(b"there", &read);
        let beyond = VhostUserMemoryRegion::new(0, 0x4000, 0, 0).mmap_region::<()>(file);
        assert!(matches!(beyond, Err(ProtocolError::ReqHandlerError(_))));
    });
}

/// The layout of records is the crate's, so that a program may read them where they lie.
#[cfg(feature = "vm-memory")]
#[test]
fn records_are_bytes() {
    use vm_memory::ByteValued;
    let ring = VringConfigData { desc_table_addr: 0x10, used_ring_addr: 0x20, avail_ring_addr: 0x30, ..Default::default() };
    let ring = VhostUserVringAddr::from_config_data(2, &ring);
    assert_eq!(hex("02000000 00000000 1000000000000000 2000000000000000 3000000000000000 0000000000000000"), ring.as_slice());
    assert!(ring.is_valid() && !VhostUserVringAddr { used: 2, ..ring }.is_valid());
    let bytes = hex("ff 0100000000000000 0200000000000000 0300000000000000 0400000000000000");
    let region = VhostUserMemoryRegion::from_slice(&bytes[1..]).unwrap();
    assert_eq!(&VhostUserMemoryRegion::new(1, 2, 3, 4), region);
    assert_eq!(40, VhostUserSingleMemoryRegion::default().as_slice().len());
    assert_eq!(8 + 256 * 8, VhostUserShMemConfig::default().as_slice().len());
    let state = VhostUserTransferDeviceState::new(VhostTransferStateDirection::LOAD, VhostTransferStatePhase::STOPPED);
    assert_eq!(hex("01000000 00000000"), state.as_slice());
    assert!(state.is_valid() && !VhostUserTransferDeviceState { direction: 2, phase: 0 }.is_valid());
    assert!(VhostUserEmpty.is_valid() && VhostUserEmpty.as_slice().is_empty());
}

/// What lies in an inflight region, by the specification's sizes.
#[test]
fn records_of_the_inflight_region() {
    use std::mem::size_of;
    assert_eq!((16, 32), (size_of::<DescStateSplit>(), size_of::<DescStatePacked>()));
    // (behind a head stands where its states begin, which has no place in the region)
    assert_eq!((16 + 8, 29 + 8), (size_of::<QueueRegionSplit>(), size_of::<QueueRegionPacked>()));
    let head = QueueRegionSplit::new(0, 128);
    assert_eq!((1, 128, 0), ({ head.version }, { head.desc_num }, { head.used_idx }));
    let head = QueueRegionPacked::new(0, 64);
    assert_eq!((1, 64, 0), ({ head.version }, { head.desc_num }, { head.free_head }));
    assert_eq!((0, 0), (DescStateSplit::new().inflight, { DescStatePacked::new().counter }));
    let table: VhostUserMemoryPayload = vec![VhostUserMemoryRegion::default()];
    assert!(VhostUserMemory::new(table.len() as u32).is_valid() && !VhostUserMemory::new(33).is_valid());
}

/// An IOTLB of a program's own.
#[test]
fn an_iotlb() {
    struct Kept(std::cell::RefCell<Vec<VhostIotlbMsg>>);
    impl VhostIotlbBackend for Kept {
        fn send_iotlb_msg(&self, msg: &VhostIotlbMsg) -> Result<()> {
            self.0.borrow_mut().push(*msg);
            Ok(())
        }
    }
    struct Kernels(u8);
    impl VhostIotlbMsgParser for Kernels {
        fn parse(&self, msg: &mut VhostIotlbMsg) -> Result<()> {
            msg.msg_type = if self.0 == 1 { VhostIotlbType::Miss } else { return Err(Error::InvalidIotlbMsg) };
            Ok(())
        }
    }
    let mut message = VhostIotlbMsg { iova: 0x1000, size: 0x1000, perm: VhostAccess::ReadOnly, ..Default::default() };
    assert_eq!((VhostIotlbType::Empty, VhostAccess::No), (message.msg_type, VhostAccess::default()));
    assert!(matches!(Kernels(2).parse(&mut message), Err(Error::InvalidIotlbMsg)));
    Kernels(1).parse(&mut message).unwrap();
    let backend = Kept(Default::default());
    backend.send_iotlb_msg(&message).unwrap();
    assert_eq!(vec![VhostIotlbMsg { msg_type: VhostIotlbType::Miss, ..message }], backend.0.into_inner());
}

/// A listener that another program made.
#[test]
fn a_listener_of_a_number() {
    use std::os::unix::io::{FromRawFd, IntoRawFd};
    counted(|| {
        let path = path_of("number");
        let made = UnixListener::bind(&path).unwrap();
        // SAFETY: it is given up.
        let listener = unsafe { Listener::from_raw_fd(made.into_raw_fd()) };
        let frontend = Frontend::connect(&path, 1).unwrap();
        frontend.set_owner().unwrap();
        Peer { socket: listener.accept().unwrap().unwrap() }.hear(&message(3, ASKS, &[]));
        drop(listener);
        // (it is who made the path that removes it)
        std::fs::remove_file(&path).unwrap();
    });
}

/// The calls of flags that bitflags 2 has.
#[test]
fn flags_by_their_names() {
    let flags = VhostUserProtocolFeatures::MQ | VhostUserProtocolFeatures::CONFIG;
    let named: Vec<_> = flags.iter_names().collect();
    assert_eq!(vec![("MQ", VhostUserProtocolFeatures::MQ), ("CONFIG", VhostUserProtocolFeatures::CONFIG)], named);
    let unnamed = VhostUserProtocolFeatures::from_bits_retain(1 << 63 | 1);
    assert_eq!(vec![1, 1 << 63], unnamed.iter().map(|it| it.bits()).collect::<Vec<_>>());
    // (a flag of two bits is there where both are, and then those alone are left out)
    assert_eq!(vec![4, 8], VhostUserHeaderFlag::ALL_FLAGS.into_iter().map(|it| it.bits()).collect::<Vec<_>>());
    assert_eq!(Some(VhostUserProtocolFeatures::SHMEM), VhostUserProtocolFeatures::from_name("SHMEM"));
    assert_eq!(None, VhostUserProtocolFeatures::from_name("NONE"));
}

/// The texts of errors are the crate's.
#[test]
fn texts_of_errors() {
    let broken = || ProtocolError::SocketBroken(std::io::Error::from_raw_os_error(libc::EPIPE));
    for (error, text, reconnects) in [
        (ProtocolError::InvalidParam, "invalid parameters", false),
        (ProtocolError::InactiveFeature(VhostUserVirtioFeatures::PROTOCOL_FEATURES), "inactive feature: 1073741824", false),
        (ProtocolError::InactiveOperation(VhostUserProtocolFeatures::CONFIG), "inactive protocol operation: 512", false),
        (ProtocolError::InvalidMessage, "invalid message", false),
        (ProtocolError::PartialMessage, "partial message", true),
        (ProtocolError::Disconnected, "peer disconnected", false),
        (ProtocolError::IncorrectFds, "wrong number of attached fds", false),
        (broken(), "socket is broken: Broken pipe (os error 32)", true),
        (ProtocolError::BackendInternalError, "backend internal error", true),
        (ProtocolError::FrontendInternalError, "Frontend internal error", true),
    ] {
        assert_eq!(text, error.to_string());
        assert_eq!(reconnects, error.should_reconnect());
        assert_eq!(format!("vhost-user: {text}"), Error::from(error).to_string());
    }
    assert_eq!("invalid virtqueue", Error::InvalidQueue.to_string());
}

#[test]
fn records_that_are_valid() {
    let config = |offset, size, flags| VhostUserConfig { offset, size, flags }.is_valid();
    assert!(config(0, 4096, 3) && config(4095, 1, 0));
    assert!(!config(0, 0, 0) && !config(4095, 2, 0) && !config(u32::MAX, 1, 0) && !config(0, 1, 4));
    assert!(VhostUserMemoryRegion::new(u64::MAX - 1, 1, 0, 0).is_valid());
    assert!(!VhostUserMemoryRegion::new(u64::MAX, 1, 0, 0).is_valid());
    assert!(!VhostUserMemoryRegion::new(0, 0, 0, 0).is_valid());
    assert!(VhostUserInflight::new(0, 0, 1, 1).is_valid() && !VhostUserInflight::new(1, 1, 0, 1).is_valid());
    assert_eq!(Ok(FrontendReq::GET_SHMEM_CONFIG), FrontendReq::try_from(44));
    assert_eq!(Err(()), FrontendReq::try_from(45));
    assert_eq!(24, u32::from(FrontendReq::GET_CONFIG));
    assert_eq!(Ok(GpuBackendReq::DMABUF_SCANOUT2), GpuBackendReq::try_from(12));
    assert_eq!(Err(()), GpuBackendReq::try_from(0));
    assert_eq!(11, u32::from(GpuBackendReq::GET_EDID));
    assert!(VhostUserGpuScanout::default().is_valid() && VirtioGpuRespGetEdid::default().is_valid());
    let ring = VringConfigData { flags: 1, log_addr: None, ..Default::default() };
    assert!(!ring.is_log_addr_valid() && ring.get_log_addr() == 0);
    assert_eq!(4, VringConfigData { log_addr: Some(4), ..ring }.get_log_addr());
}

/// The numbers of the features, of limits, and the version are those of the header.
#[test]
fn numbers_of_the_header() {
    let header = text_of(concat!(env!("CARGO_MANIFEST_DIR"), "/../include/covretin.h"));
    let value = |name: &str| {
        let line = header.lines().find(|it| it.starts_with(&format!("#define {name} "))).unwrap_or_else(|| panic!("no {name}"));
        line.split_whitespace().nth(2).unwrap().trim_matches('"').to_string()
    };
    let bit = |name: &str| {
        let line = header.lines().find(|it| it.starts_with(&format!("#define {name} "))).unwrap_or_else(|| panic!("no {name}"));
        let number = line.split("<< ").nth(1).unwrap().split(')').next().unwrap();
        1u64 << number.parse::<u32>().unwrap()
    };
    assert_eq!(env!("CARGO_PKG_VERSION"), value("COVRETIN_VERSION"));
    for (profile, name) in [(Profile::Standard, "STANDARD"), (Profile::Vhost, "VHOST")] {
        assert!(header.contains(&format!("COVRETIN_PROFILE_{name} = {}", profile as u32)));
    }
    assert_eq!(Profile::Standard, Profile::default());
    assert_eq!(MAX_ATTACHED_FD_ENTRIES.to_string(), value("COVRETIN_MAX_FDS"));
    assert_eq!((MAX_MSG_SIZE + 12).to_string(), value("COVRETIN_MAX_MESSAGE"));
    assert_eq!(VhostUserHeaderFlag::NEED_REPLY.bits().to_string(), value("COVRETIN_NEED_REPLY"));
    assert_eq!(VhostUserVirtioFeatures::LOG_ALL.bits(), bit("COVRETIN_FEATURE_LOG_ALL"));
    assert_eq!(VhostUserVirtioFeatures::PROTOCOL_FEATURES.bits(), bit("COVRETIN_FEATURE_PROTOCOL_FEATURES"));
    // Debug names each bit, as the header does.
    let all: Vec<String> = header
        .lines()
        .filter_map(|it| it.strip_prefix("#define COVRETIN_PROTOCOL_")?.split(' ').next())
        .map(String::from)
        .collect();
    assert_eq!(all.join(" | "), format!("{:?}", VhostUserProtocolFeatures::all()));
    assert_eq!(
        all.iter().map(|it| bit(&format!("COVRETIN_PROTOCOL_{it}"))).sum::<u64>(),
        VhostUserProtocolFeatures::all().bits()
    );
    let asked = header.split("#define COVRETIN_ASKED_PROTOCOL_FEATURES").nth(1).unwrap().split(')').next().unwrap();
    let asked: Vec<&str> = asked
        .split(|it: char| !it.is_ascii_alphanumeric() && it != '_')
        .filter_map(|it| it.strip_prefix("COVRETIN_PROTOCOL_"))
        .collect();
    assert_eq!(asked.join(" | "), format!("{:?}", Frontend::PROTOCOL_FEATURES));
}

/// The same of the vhost-user-gpu channel.
#[test]
fn numbers_of_the_display() {
    let header = text_of(concat!(env!("CARGO_MANIFEST_DIR"), "/../include/covretin_display.h"));
    for (name, size) in [
        ("CURSOR_SIZE", 4 * 64 * 64),
        ("INFO_SIZE", std::mem::size_of::<VirtioGpuRespDisplayInfo>()),
        ("EDID_SIZE", std::mem::size_of::<VirtioGpuRespGetEdid>()),
    ] {
        assert!(header.contains(&format!("#define COVRETIN_DISPLAY_{name} {size}\n")), "{name} is {size}");
    }
    assert_eq!(16, VIRTIO_GPU_MAX_SCANOUTS);
    assert_eq!(4, VhostUserGpuHeaderFlag::REPLY.bits());
    // As in the crate, a feature is the number of its bit.
    for (name, feature) in [("EDID", VhostUserGpuProtocolFeatures::EDID), ("DMABUF2", VhostUserGpuProtocolFeatures::DMABUF2)] {
        let bit = format!("#define COVRETIN_DISPLAY_FEATURE_{name} ((uint64_t)1 << {})\n", feature.bits());
        assert!(header.contains(&bit), "{bit}");
    }
    assert_eq!(u64::MAX, VhostUserGpuProtocolFeatures::from_bits_retain(u64::MAX).bits());
}
