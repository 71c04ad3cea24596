// SPDX-License-Identifier: Apache-2.0
//! Each call of a device, asked by a frontend of this package over a socket, with descriptors: its arguments, its reply of each
//! form, and its refusal.
mod common;

use std::fs::File;
use std::os::unix::io::AsRawFd;
use std::os::unix::net::UnixStream;

use common::device::*;
use common::requests::*;
use common::*;
use covretin::vhost_user::message::*;
use covretin::vhost_user::{Frontend, VhostUserFrontend};
use covretin::{Result, VhostBackend, VhostUserDirtyLogRegion, VhostUserMemoryRegionInfo, VringConfigData};

const SAVE: VhostTransferStateDirection = VhostTransferStateDirection::SAVE;
const STOPPED: VhostTransferStatePhase = VhostTransferStatePhase::STOPPED;
const EMPTY: VhostUserConfigFlags = VhostUserConfigFlags::empty();

/// A call that has no reply of its own: without an acknowledgement, acknowledged, and refused. The device is asked so each time,
/// with so many of the files that the call is given.
fn acknowledged(asked: &str, count: usize, call: impl Fn(&mut Frontend, &[File]) -> Result<()>) {
    counted(|| {
        let device = Shared::default();
        let files = [memory_file(), memory_file()];
        let errors = served(&device, |frontend| {
            agree(&device, frontend);
            call(frontend, &files).unwrap();
            need_reply(frontend);
            call(frontend, &files).unwrap();
            seen(&device).refuses = true;
            failed("BackendInternalError", call(frontend, &files));
            seen(&device).refuses = false;
            assert_eq!(PROTOCOL, frontend.get_features().unwrap());
        });
        let device = seen(&device);
        assert_eq!([asked, asked, asked, "get_features"], *device.asked);
        assert_eq!(["MemFdSealError"], *errors);
        let sent: Vec<_> = files[..count].iter().map(identity).collect();
        assert_eq!(sent.repeat(3), device.files.iter().map(identity).collect::<Vec<_>>());
    });
}

/// A call that has a reply.
fn replied<T>(device: &Shared, call: impl FnOnce(&mut Frontend) -> Result<T>) -> Result<T> {
    let mut result = None;
    let errors = served(device, |frontend| {
        agree(device, frontend);
        result = Some(call(frontend));
        assert_eq!(PROTOCOL, frontend.get_features().unwrap());
    });
    assert_eq!([""; 0], *errors);
    assert_eq!(Some("get_features".to_string()), seen(device).asked.pop());
    result.unwrap()
}

/// A call that no reply refuses: the handler's error is the device's, and the frontend is hung up on.
fn hung_up_on<T>(call: impl FnOnce(&mut Frontend) -> Result<T>) {
    counted(|| {
        let device = Shared::default();
        seen(&device).gives = Some(memory_file());
        let errors = served(&device, |frontend| {
            agree(&device, frontend);
            seen(&device).refuses = true;
            failed("PartialMessage", call(frontend));
        });
        assert_eq!(["MemFdSealError", "SocketBroken(71)"], *errors);
    });
}

fn giving() -> (Shared, (u64, u64)) {
    let device = Shared::default();
    let file = memory_file();
    let about = identity(&file);
    seen(&device).gives = Some(file);
    (device, about)
}

fn region(guest: u64, file: &File) -> VhostUserMemoryRegionInfo {
    VhostUserMemoryRegionInfo {
        guest_phys_addr: guest,
        memory_size: 0x1000,
        userspace_addr: 0x7000_0000,
        mmap_offset: 0x2000,
        mmap_handle: file.as_raw_fd(),
    }
}

fn object() -> VhostUserSharedMsg {
    VhostUserSharedMsg { uuid: uuid::Uuid::from_bytes([0x10; 16]) }
}

/// Each request of a plain form.
#[test]
fn plain_forms() {
    for (it, _, noted) in plain_requests() {
        println!("{}", it.name);
        acknowledged(&noted, usize::from(it.sends), |frontend, files| (it.call)(frontend, files[0].as_raw_fd()));
    }
}

#[test]
fn set_protocol_features() {
    let asked = VhostUserProtocolFeatures::from_bits_retain(ALL);
    acknowledged("set_protocol_features 0x4cb33b", 0, |it, _| it.set_protocol_features(asked));
}

#[test]
fn set_mem_table() {
    let asked = "set_mem_table 0x0 0x1000 0x70000000 0x2000, 0x1000000 0x1000 0x70000000 0x2000 Some(false)";
    acknowledged(asked, 2, |it, files| {
        let bases = it.set_mem_table(&[region(0, &files[0]), region(0x100_0000, &files[1])])?;
        assert_eq!(None, bases);
        Ok(())
    });
}

/// As many regions as a message has descriptors, in their order.
#[test]
fn set_mem_table_of_32() {
    counted(|| {
        let device = Shared::default();
        let files: Vec<File> = (0..32).map(|_| memory_file()).collect();
        let table: Vec<_> = (0..).zip(&files).map(|(at, file)| region(at << 24, file)).collect();
        replied(&device, |it| it.set_mem_table(&table)).unwrap();
        let came: Vec<_> = seen(&device).files.iter().map(identity).collect();
        assert_eq!(files.iter().map(identity).collect::<Vec<_>>(), came);
    });
}

#[test]
fn set_vring_addr() {
    let ring = VringConfigData {
        queue_max_size: 9,
        queue_size: 8,
        flags: 1,
        desc_table_addr: 0x10,
        used_ring_addr: 0x20,
        avail_ring_addr: 0x30,
        log_addr: Some(0x40),
    };
    acknowledged("set_vring_addr 1 0x1 0x10 0x20 0x30 0x40", 0, |it, _| it.set_vring_addr(1, &ring));
    let ring = VringConfigData { flags: 0, log_addr: None, ..ring };
    acknowledged("set_vring_addr 1 0x0 0x10 0x20 0x30 0x0", 0, |it, _| it.set_vring_addr(1, &ring));
}

#[test]
fn set_vring_base() {
    acknowledged("set_vring_base 2 65535", 0, |it, _| it.set_vring_base(2, 0xffff));
}

#[test]
fn set_vring_enable() {
    acknowledged("set_vring_enable 1 true", 0, |it, _| it.set_vring_enable(1, true));
    acknowledged("set_vring_enable 1 false", 0, |it, _| it.set_vring_enable(1, false));
}

#[test]
fn set_config() {
    acknowledged("set_config 16 [aa, bb, cc] 0x1", 0, |it, _| {
        it.set_config(16, VhostUserConfigFlags::WRITABLE, &[0xaa, 0xbb, 0xcc])
    });
}

#[test]
fn set_config_of_the_greatest_size() {
    counted(|| {
        let device = Shared::default();
        let bytes: Vec<u8> = (0..4084).map(|at| at as u8).collect();
        replied(&device, |it| it.set_config(12, EMPTY, &bytes)).unwrap();
        assert_eq!([format!("set_config 12 {bytes:02x?} 0x0")], *seen(&device).asked);
    });
}

#[test]
fn set_inflight_fd() {
    acknowledged("set_inflight_fd 0x1000 0x2000 4 128", 1, |it, files| {
        it.set_inflight_fd(&VhostUserInflight::new(0x1000, 0x2000, 4, 128), files[0].as_raw_fd())
    });
}

#[test]
fn add_mem_region() {
    acknowledged("add_mem_region 0x5000 0x1000 0x70000000 0x2000 Some(false)", 1, |it, files| {
        assert_eq!(None, it.add_mem_region(&region(0x5000, &files[0]))?);
        Ok(())
    });
}

#[test]
fn remove_mem_region() {
    acknowledged("remove_mem_region 0x5000 0x1000 0x70000000 0x2000", 0, |it, files| {
        it.remove_mem_region(&region(0x5000, &files[0]))
    });
}

/// A device that gives bases where nobody listens: they are not replied.
#[test]
fn bases_where_postcopy_does_not_listen() {
    counted(|| {
        let device = Shared::default();
        seen(&device).bases = Some(vec![1]);
        let file = memory_file();
        let both = |it: &mut Frontend| -> Result<_> {
            Ok((it.set_mem_table(&[region(0, &file)])?, it.add_mem_region(&region(0x5000, &file))?))
        };
        assert_eq!((None, None), replied(&device, both).unwrap());
    });
}

#[test]
fn set_log_base() {
    counted(|| {
        let device = Shared::default();
        let file = memory_file();
        let log = VhostUserDirtyLogRegion { mmap_size: 0x3000, mmap_offset: 0x1000, mmap_handle: file.as_raw_fd() };
        replied(&device, |it| it.set_log_base(0, Some(log))).unwrap();
        let device = seen(&device);
        assert_eq!(["set_log_base 0x3000 0x1000"], *device.asked);
        assert_eq!(identity(&file), identity(&device.files[0]));
    });
}

/// This library does not serve it; the session goes on.
#[test]
fn set_log_fd() {
    counted(|| {
        let device = Shared::default();
        let errors = served(&device, |frontend| {
            agree(&device, frontend);
            need_reply(frontend);
            let file = memory_file();
            failed("BackendInternalError", frontend.set_log_fd(file.as_raw_fd()));
            frontend.set_owner().unwrap();
        });
        assert_eq!(1, errors.len());
        assert!(errors[0].starts_with("InvalidOperation"), "{errors:?}");
        assert_eq!(["set_owner"], *seen(&device).asked);
    });
}

#[test]
fn numbers() {
    counted(|| {
        let device = Shared::default();
        let numbers = |it: &mut Frontend| -> Result<_> {
            Ok((it.get_queue_num()?, it.get_max_mem_slots()?, it.get_vring_base(3)?, it.get_protocol_features()?.bits()))
        };
        // MQ, .., as the device offers them, and REPLY_ACK, which the library adds.
        assert_eq!((RINGS, 32, 0x1234_5678, 0x4c_b73b), replied(&device, numbers).unwrap());
        assert_eq!(["get_queue_num", "get_max_mem_slots", "get_vring_base 3", "get_protocol_features"], *seen(&device).asked);
    });
}

#[test]
fn numbers_that_the_device_refuses() {
    hung_up_on(|it| it.get_features());
    hung_up_on(|it| it.get_protocol_features());
    hung_up_on(|it| it.get_queue_num());
    hung_up_on(|it| it.get_max_mem_slots());
    hung_up_on(|it| it.get_vring_base(0));
}

#[test]
fn get_config() {
    counted(|| {
        let device = Shared::default();
        let bytes: Vec<u8> = (0..4084).map(|at| at as u8 ^ 0x5a).collect();
        for size in [1, 60, 4084] {
            seen(&device).config = bytes[..size].to_vec();
            let asks = |it: &mut Frontend| it.get_config(12, size as u32, VhostUserConfigFlags::LIVE_MIGRATION, &vec![0; size]);
            let (config, came) = replied(&device, asks).unwrap();
            assert_eq!((12, size as u32, 2), (config.offset, config.size, config.flags));
            assert_eq!(bytes[..size], came);
            assert_eq!([format!("get_config 12 {size} 0x2")], *seen(&device).asked);
        }
    });
}

/// A refusal, and another number of bytes, are a reply without bytes; the session goes on.
#[test]
fn get_config_that_the_device_refuses() {
    counted(|| {
        let device = Shared::default();
        for size in [0, 3, 5, 4085, 100_000] {
            seen(&device).config = vec![1; size];
            failed("BackendInternalError", replied(&device, |it| it.get_config(0, 4, EMPTY, &[0; 4])));
        }
        let refused = |it: &mut Frontend| {
            seen(&device).config = vec![1; 4];
            seen(&device).refuses = true;
            let result = it.get_config(0, 4, EMPTY, &[0; 4]);
            seen(&device).refuses = false;
            result
        };
        failed("BackendInternalError", replied(&device, refused));
    });
}

#[test]
fn get_shared_object() {
    counted(|| {
        let (device, about) = giving();
        let came = replied(&device, |it| it.get_shared_object(&object())).unwrap();
        assert_eq!(about, identity(&came));
        assert_eq!([format!("get_shared_object {:02x?}", [0x10; 16])], *seen(&device).asked);
    });
}

/// A refusal is a reply without a file, which no frontend takes; this handler goes on.
#[test]
fn get_shared_object_that_the_device_refuses() {
    counted(|| {
        let (device, _) = giving();
        let errors = served(&device, |frontend| {
            agree(&device, frontend);
            seen(&device).refuses = true;
            for _ in 0..2 {
                failed("BackendInternalError", frontend.get_shared_object(&object()));
            }
        });
        assert_eq!([""; 0], *errors);
    });
}

#[test]
fn get_inflight_fd() {
    counted(|| {
        let (device, about) = giving();
        let (inflight, file) = replied(&device, |it| it.get_inflight_fd(&VhostUserInflight::new(0, 0, 4, 128))).unwrap();
        assert_eq!((VhostUserInflight::new(0x1000, 0x2000, 4, 128), about), (inflight, identity(&file)));
        assert_eq!(["get_inflight_fd 4 128"], *seen(&device).asked);
    });
}

#[test]
fn get_inflight_fd_that_the_device_refuses() {
    counted(|| {
        let (device, _) = giving();
        let errors = served(&device, |frontend| {
            agree(&device, frontend);
            seen(&device).refuses = true;
            for _ in 0..2 {
                failed("BackendInternalError", frontend.get_inflight_fd(&VhostUserInflight::new(0, 0, 4, 128)));
            }
        });
        assert_eq!(["MemFdSealError"; 2], *errors);
    });
}

#[test]
fn get_shmem_config() {
    counted(|| {
        let device = Shared::default();
        let config = replied(&device, |it| it.get_shmem_config()).unwrap();
        assert_eq!(VhostUserShMemConfig::new(2, &[0x1000, 0, 0x3000]), config);
    });
    hung_up_on(|it| it.get_shmem_config());
}

#[test]
fn set_device_state_fd() {
    counted(|| {
        let device = Shared::default();
        let pipe = memory_file();
        let about = identity(&pipe);
        assert!(replied(&device, |it| it.set_device_state_fd(SAVE, STOPPED, pipe.into())).unwrap().is_none());
        assert_eq!(["set_device_state_fd SAVE STOPPED"], *seen(&device).asked);
        assert_eq!(about, identity(&seen(&device).files[0]));

        let (device, about) = giving();
        let load = VhostTransferStateDirection::LOAD;
        let other = replied(&device, |it| it.set_device_state_fd(load, STOPPED, memory_file().into())).unwrap();
        assert_eq!(about, identity(&other.unwrap()));
        assert_eq!(["set_device_state_fd LOAD STOPPED"], *seen(&device).asked);

        let refused = |it: &mut Frontend| {
            seen(&device).refuses = true;
            let result = it.set_device_state_fd(SAVE, STOPPED, memory_file().into());
            seen(&device).refuses = false;
            result
        };
        failed("BackendInternalError", replied(&device, refused));
    });
}

#[test]
fn check_device_state() {
    counted(|| {
        let device = Shared::default();
        replied(&device, |it| it.check_device_state()).unwrap();
        let refused = |it: &mut Frontend| {
            seen(&device).refuses = true;
            let result = it.check_device_state();
            seen(&device).refuses = false;
            result
        };
        failed("BackendInternalError", replied(&device, refused));
        assert_eq!(["check_device_state"], *seen(&device).asked);
    });
}

#[test]
fn set_backend_request_fd() {
    counted(|| {
        let device = Shared::default();
        let (mine, other) = UnixStream::pair().unwrap();
        let errors = served(&device, |frontend| {
            agree(&device, frontend);
            need_reply(frontend);
            frontend.set_backend_request_fd(&other).unwrap();
            // Not a socket; none of this family; none of a stream.
            failed("BackendInternalError", frontend.set_backend_request_fd(&memory_file()));
            let internet = std::net::UdpSocket::bind("127.0.0.1:0").unwrap();
            failed("BackendInternalError", frontend.set_backend_request_fd(&internet));
            let (datagrams, _) = std::os::unix::net::UnixDatagram::pair().unwrap();
            failed("BackendInternalError", frontend.set_backend_request_fd(&datagrams));
        });
        drop(other);
        assert_eq!(3, errors.len());
        assert!(errors[0].starts_with("InvalidSocketFd"), "{errors:?}");
        assert_eq!(["NotUnixSocket", "NotStreamSocket"], errors[1..]);
        let mut device = seen(&device);
        assert_eq!(["set_backend_req_fd"], *device.asked);
        // The channel owns its socket; a clone is the same.
        let channel = device.channels.pop().unwrap();
        let clone = channel.clone();
        drop(channel);
        assert!(is_open(&clone));
        drop(clone);
        mine.set_nonblocking(true).unwrap();
        assert_eq!(0, std::io::Read::read(&mut &mine, &mut [0]).unwrap());
    });
}

/// All of postcopy, with the bases of both requests that have some.
#[test]
fn postcopy() {
    counted(|| {
        let (device, about) = giving();
        seen(&device).bases = Some(vec![0x111, 0x222]);
        let files = [memory_file(), memory_file()];
        let calls = |it: &mut Frontend| -> Result<()> {
            need_reply(it);
            assert_eq!(about, identity(&it.postcopy_advise()?));
            it.postcopy_listen()?;
            let table = [region(0, &files[0]), region(0x100_0000, &files[1])];
            assert_eq!(Some(vec![0x111, 0x222]), it.set_mem_table(&table)?);
            it.postcopy_ack_mem_regions(FrontendReq::SET_MEM_TABLE)?;
            assert_eq!(Some(0x111), it.add_mem_region(&region(0x5000, &files[0]))?);
            it.postcopy_ack_mem_regions(FrontendReq::ADD_MEM_REG)?;
            it.remove_mem_region(&region(0x5000, &files[0]))?;
            it.postcopy_end()
        };
        replied(&device, calls).unwrap();
        let wanted = [
            "postcopy_advice",
            "postcopy_listen",
            "set_mem_table 0x0 0x1000 0x70000000 0x2000, 0x1000000 0x1000 0x70000000 0x2000 Some(true)",
            "postcopy_ack_mem_regions",
            "add_mem_region 0x5000 0x1000 0x70000000 0x2000 Some(true)",
            "postcopy_ack_mem_regions",
            "remove_mem_region 0x5000 0x1000 0x70000000 0x2000",
            "postcopy_end",
        ];
        assert_eq!(wanted, *seen(&device).asked);
    });
}

/// A device that gives no bases while postcopy listens, or another number of them than of regions: the request is refused, and that
/// is replied where it wants an acknowledgement.
#[test]
fn bases_that_are_missing() {
    let mut table = hex("0100000000000000 0000000000000000 0010000000000000 0000007000000000 0000000000000000");
    let mut single = table.clone();
    (table[0], single[0]) = (1, 0);
    for (code, body, bases) in [(5, &table, None), (5, &table, Some(vec![])), (5, &table, Some(vec![1, 2])), (37, &single, None)]
    {
        counted(|| {
            let (device, _) = giving();
            let (mut handler, peer) = handled(&device);
            agree_by_hand(&device, &mut handler, &peer, ALL);
            for code in [28, 29] {
                peer.say(&message(code, ASKS, &[]), &[]);
                handler.handle_request().unwrap();
            }
            peer.hear(&message(28, REPLIES, &[]));
            seen(&device).bases = bases.clone();
            peer.say(&message(code, WANTS, body), &[&memory_file()]);
            assert_eq!("BackendInternalError", name(&handler.handle_request().unwrap_err()));
            assert!(peer.is_hung_up());
            assert_eq!("SocketBroken(71)", name(&handler.handle_request().unwrap_err()));
            seen(&device).files.clear();
        });
    }
}
