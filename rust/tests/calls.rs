// SPDX-License-Identifier: Apache-2.0
//! Each call once and more: the request's bytes and descriptors, and its reply of each form.
mod common;

use std::fs::File;
use std::os::unix::io::{AsRawFd, OwnedFd};

use common::requests::*;
use common::*;
use covretin::vhost_user::message::*;
use covretin::vhost_user::{Frontend, Profile, VhostUserFrontend};
use covretin::{Result, VhostBackend, VhostUserDirtyLogRegion, VhostUserMemoryRegionInfo, VringConfigData};

/// A call that has no reply of its own: without an acknowledgement, acknowledged, and refused. Its request has this code, this
/// body, and so many descriptors, those of the files that the call is given.
fn acknowledged(code: u32, body: &str, count: usize, call: impl Fn(&mut Frontend, &[File]) -> Result<()>) {
    counted(|| {
        let body = hex(body);
        let files = [memory_file(), memory_file()];
        let sent: Vec<_> = files[..count].iter().map(identity).collect();
        let backend = move |peer: &Peer| {
            for (flags, reply) in [(ASKS, None), (WANTS, Some(0)), (WANTS, Some(1))] {
                let came = peer.hear(&message(code, flags, &body));
                assert_eq!(sent, came.iter().map(identity).collect::<Vec<_>>());
                if let Some(number) = reply {
                    peer.say_number(code, number);
                }
            }
            peer.hear(&message(1, WANTS, &[]));
            peer.say_number(1, 7);
        };
        negotiated(ALL, backend, |frontend| {
            call(frontend, &files).unwrap();
            need_reply(frontend);
            call(frontend, &files).unwrap();
            failed("BackendInternalError", call(frontend, &files));
            assert_eq!(7, frontend.get_features().unwrap());
        });
    });
}

/// A call that has a reply: these bytes, with these descriptors.
fn replied<T>(code: u32, body: &str, reply: &str, files: Vec<File>, call: impl FnOnce(&mut Frontend) -> Result<T>) -> Result<T> {
    let (body, reply) = (hex(body), hex(reply));
    let mut result = None;
    let backend = move |peer: &Peer| {
        assert!(peer.hear(&message(code, ASKS, &body)).is_empty());
        peer.say(&message(code, REPLIES, &reply), &files.iter().collect::<Vec<_>>());
        peer.still_serves(9);
    };
    negotiated(ALL, backend, |frontend| {
        result = Some(call(frontend));
        assert_eq!(9, frontend.get_features().unwrap());
    });
    result.unwrap()
}

fn region(guest: u64, file: &File) -> VhostUserMemoryRegionInfo {
    VhostUserMemoryRegionInfo {
        guest_phys_addr: guest,
        memory_size: 0x1000,
        userspace_addr: 0x7000_0000,
        mmap_offset: 0x2000,
        mmap_handle: file.as_raw_fd(),
    }
}

/// Each request of a plain form.
#[test]
fn plain_forms() {
    for (it, body, _) in plain_requests() {
        println!("{}", it.name);
        acknowledged(it.code as u32, body, usize::from(it.sends), |frontend, files| (it.call)(frontend, files[0].as_raw_fd()));
    }
}

#[test]
fn set_mem_table() {
    let body = "02000000 00000000
        0000000000000000 0010000000000000 0000007000000000 0020000000000000
        0000000100000000 0010000000000000 0000007000000000 0020000000000000";
    acknowledged(5, body, 2, |it, files| {
        let bases = it.set_mem_table(&[region(0, &files[0]), region(0x100_0000, &files[1])])?;
        assert_eq!(None, bases);
        Ok(())
    });
}

#[test]
fn set_log_fd() {
    acknowledged(7, "", 1, |it, files| it.set_log_fd(files[0].as_raw_fd()));
}

#[test]
fn set_vring_addr() {
    let body = "01000000 01000000 1000000000000000 2000000000000000 3000000000000000 4000000000000000";
    let ring = VringConfigData {
        queue_max_size: 9,
        queue_size: 8,
        flags: 1,
        desc_table_addr: 0x10,
        used_ring_addr: 0x20,
        avail_ring_addr: 0x30,
        log_addr: Some(0x40),
    };
    acknowledged(9, body, 0, |it, _| it.set_vring_addr(1, &ring));
}

#[test]
fn set_vring_base() {
    acknowledged(10, "02000000 ffff0000", 0, |it, _| it.set_vring_base(2, 0xffff));
}

#[test]
fn set_packed_vring_base() {
    acknowledged(10, "02000000 05800780", 0, |it, _| it.set_packed_vring_base(2, 0x8007_8005));
}

#[test]
fn set_vring_enable() {
    acknowledged(18, "01000000 01000000", 0, |it, _| it.set_vring_enable(1, true));
    acknowledged(18, "01000000 00000000", 0, |it, _| it.set_vring_enable(1, false));
}

#[test]
fn set_backend_request_fd() {
    acknowledged(21, "", 1, |it, files| it.set_backend_request_fd(&files[0]));
}

#[test]
fn set_config() {
    acknowledged(25, "10000000 03000000 01000000 aabbcc", 0, |it, _| {
        it.set_config(16, VhostUserConfigFlags::WRITABLE, &[0xaa, 0xbb, 0xcc])
    });
}

#[test]
fn set_inflight_fd() {
    let inflight = VhostUserInflight::new(0x1000, 0x10, 2, 256);
    acknowledged(32, "0010000000000000 1000000000000000 0200 0001 00000000", 1, |it, files| {
        it.set_inflight_fd(&inflight, files[0].as_raw_fd())
    });
}

#[test]
fn add_mem_region() {
    let body = "0000000000000000 0030000000000000 0010000000000000 0000007000000000 0020000000000000";
    acknowledged(37, body, 1, |it, files| {
        assert_eq!(None, it.add_mem_region(&region(0x3000, &files[0]))?);
        Ok(())
    });
}

#[test]
fn remove_mem_region() {
    let body = "0000000000000000 0030000000000000 0010000000000000 0000007000000000 0020000000000000";
    acknowledged(38, body, 0, |it, files| it.remove_mem_region(&region(0x3000, &files[0])));
}

/// A call that turns both sides: it is acknowledged whatever the header flags, and under the crate's profile where they ask for it.
fn turns(code: u32, call: fn(&mut Frontend) -> Result<()>) {
    counted(|| {
        let backend = move |peer: &Peer| {
            for number in [0, 1] {
                peer.hear(&message(code, WANTS, &[]));
                peer.say_number(code, number);
            }
            peer.hear(&message(code, ASKS, &[]));
            peer.still_serves(7);
        };
        negotiated(ALL, backend, |frontend| {
            call(frontend).unwrap();
            failed("BackendInternalError", call(frontend));
            frontend.set_profile(Profile::Vhost);
            call(frontend).unwrap();
            assert_eq!(7, frontend.get_features().unwrap());
        });
    });
}

#[test]
fn postcopy_listen() {
    turns(29, Frontend::postcopy_listen);
}

#[test]
fn postcopy_end() {
    turns(30, Frontend::postcopy_end);
}

/// Whether it is acknowledged is said by the features that it accepts itself; and under the standard profile, whether it asks for that.
#[test]
fn set_protocol_features() {
    counted(|| {
        for (profile, flags) in [(Profile::Standard, ASKS), (Profile::Vhost, WANTS)] {
            let backend = move |peer: &Peer| {
                peer.hear(&message(16, WANTS, &8u64.to_le_bytes()));
                peer.say_number(16, 0);
                peer.hear(&message(16, flags, &0u64.to_le_bytes()));
            };
            negotiated(ALL, backend, |frontend| {
                frontend.set_profile(profile);
                need_reply(frontend);
                frontend.set_protocol_features(VhostUserProtocolFeatures::REPLY_ACK).unwrap();
                frontend.set_protocol_features(VhostUserProtocolFeatures::empty()).unwrap();
            });
        }
    });
}

/// Of the flags only NEED_REPLY is looked at; and under the standard profile it goes out only where REPLY_ACK was accepted.
#[test]
fn set_hdr_flags() {
    counted(|| {
        for (profile, features, flags) in
            [(Profile::Vhost, 0, WANTS), (Profile::Standard, 0, ASKS), (Profile::Standard, 8, WANTS)]
        {
            let backend = move |peer: &Peer| {
                for flags in [ASKS, flags, ASKS] {
                    peer.hear(&message(3, flags, &[]));
                    if (flags, features) == (WANTS, 8) {
                        peer.say_number(3, 0);
                    }
                }
            };
            negotiated(features, backend, |frontend| {
                frontend.set_profile(profile);
                frontend.set_hdr_flags(VhostUserHeaderFlag::REPLY);
                frontend.set_owner().unwrap();
                frontend.set_hdr_flags(VhostUserHeaderFlag::ALL_FLAGS);
                frontend.set_owner().unwrap();
                frontend.set_hdr_flags(VhostUserHeaderFlag::empty());
                frontend.set_owner().unwrap();
            });
        }
    });
}

#[test]
fn get_features() {
    counted(|| assert_eq!(0x8000_0000_0000_0001, replied(1, "", "0100000000000080", vec![], |it| it.get_features()).unwrap()));
}

#[test]
fn get_protocol_features() {
    counted(|| {
        // Bits 0, 3 and 63: the last has no name.
        let offered = replied(15, "", "0900000000000080", vec![], |it| it.get_protocol_features()).unwrap();
        assert_eq!(VhostUserProtocolFeatures::MQ | VhostUserProtocolFeatures::REPLY_ACK, offered);
    });
}

#[test]
fn get_queue_num() {
    counted(|| {
        assert_eq!(0x8000, replied(17, "", "0080000000000000", vec![], |it| it.get_queue_num()).unwrap());
        // From then on it limits a ring's index.
        let backend = |peer: &Peer| {
            peer.hear(&message(17, ASKS, &[]));
            peer.say_number(17, 6);
            peer.hear(&message(8, ASKS, &hex("05000000 01000000")));
        };
        negotiated(ALL, backend, |frontend| {
            failed("InvalidParam", frontend.set_vring_num(5, 1));
            assert_eq!(6, frontend.get_queue_num().unwrap());
            frontend.set_vring_num(5, 1).unwrap();
            failed("InvalidParam", frontend.set_vring_num(6, 1));
        });
    });
}

#[test]
fn get_vring_base() {
    counted(|| {
        let base = replied(11, "03000000 00000000", "03000000 07000080", vec![], |it| it.get_vring_base(3)).unwrap();
        assert_eq!(0x8000_0007, base);
    });
}

#[test]
fn get_max_mem_slots() {
    counted(|| assert_eq!(509, replied(36, "", "fd01000000000000", vec![], |it| it.get_max_mem_slots()).unwrap()));
}

#[test]
fn get_config() {
    counted(|| {
        let asks = |it: &mut Frontend| it.get_config(16, 3, VhostUserConfigFlags::LIVE_MIGRATION, &[1, 2, 3]);
        let asked = "10000000 03000000 02000000 010203";
        let (config, bytes) = replied(24, asked, "10000000 03000000 02000000 aabbcc", vec![], asks).unwrap();
        assert_eq!(VhostUserConfig::new(16, 3, VhostUserConfigFlags::LIVE_MIGRATION), config);
        assert_eq!([0xaa, 0xbb, 0xcc], bytes[..]);
        // By a record alone a backend says that it has no such bytes.
        failed("BackendInternalError", replied(24, asked, "10000000 00000000 02000000", vec![], asks));
        // Real ones do it by nothing at all.
        failed("BackendInternalError", replied(24, asked, "", vec![], asks));
    });
}

/// The greatest part that a message has room for.
#[test]
fn get_config_of_all() {
    counted(|| {
        let ones = "01".repeat(4084);
        let record = "00000000 f40f0000 00000000";
        let (asked, came) = (format!("{record} {ones}"), format!("{record} {}", "02".repeat(4084)));
        let asks = |it: &mut Frontend| it.get_config(0, 4084, VhostUserConfigFlags::empty(), &[1; 4084]);
        assert_eq!(vec![2; 4084], replied(24, &asked, &came, vec![], asks).unwrap().1);
    });
}

fn shared() -> VhostUserSharedMsg {
    VhostUserSharedMsg { uuid: uuid::Uuid::from_bytes([0x10; 16]) }
}

#[test]
fn get_shared_object() {
    counted(|| {
        let file = memory_file();
        let sent = identity(&file);
        let came = replied(41, &"10".repeat(16), "", vec![file], |it| it.get_shared_object(&shared())).unwrap();
        assert_eq!(sent, identity(&came));
    });
}

#[test]
fn get_inflight_fd() {
    counted(|| {
        let file = memory_file();
        let sent = identity(&file);
        let asked = "0000000000000000 0000000000000000 0200 0001 00000000";
        let reply = "0030000000000000 1000000000000000 0200 0001 00000000";
        let inflight = VhostUserInflight::new(0, 0, 2, 256);
        let (found, came) = replied(31, asked, reply, vec![file], |it| it.get_inflight_fd(&inflight)).unwrap();
        assert_eq!(VhostUserInflight::new(0x3000, 0x10, 2, 256), found);
        assert_eq!(sent, identity(&came));
    });
}

#[test]
fn get_shmem_config() {
    counted(|| {
        let reply = format!("02000000 00000000 {} 0010000000000000 {} 0000010000000000", "00".repeat(8), "00".repeat(253 * 8));
        let found = replied(44, "", &reply, vec![], |it| it.get_shmem_config()).unwrap();
        assert_eq!(2, found.nregions);
        let mut sizes = [0; 256];
        sizes[1] = 0x1000;
        sizes[255] = 0x10000;
        assert_eq!(sizes, found.memory_sizes);
    });
}

#[test]
fn check_device_state() {
    counted(|| {
        replied(43, "", "0000000000000000", vec![], |it| it.check_device_state()).unwrap();
        failed("BackendInternalError", replied(43, "", "0100000000000000", vec![], |it| it.check_device_state()));
    });
}

#[test]
fn postcopy_advise() {
    counted(|| {
        let file = memory_file();
        let sent = identity(&file);
        assert_eq!(sent, identity(&replied(28, "", "", vec![file], |it| it.postcopy_advise()).unwrap()));
    });
}

/// Where LOG_SHMFD was accepted a region goes with its descriptor, and a reply is awaited; else the base alone, and none.
#[test]
fn set_log_base() {
    counted(|| {
        let file = memory_file();
        let sent = identity(&file);
        let log = VhostUserDirtyLogRegion { mmap_size: 0x800, mmap_offset: 0x10, mmap_handle: file.as_raw_fd() };
        let backend = move |peer: &Peer| {
            let record = hex("0008000000000000 1000000000000000");
            let came = peer.hear(&message(6, ASKS, &record));
            assert_eq!(sent, identity(&came[0]));
            peer.say(&message(6, REPLIES, &record), &[]);
            assert!(peer.hear(&message(6, ASKS, &hex("0050000000000000"))).is_empty());
        };
        negotiated(ALL, backend, |frontend| {
            frontend.set_log_base(0x5000, Some(log)).unwrap();
            frontend.set_log_base(0x5000, None).unwrap();
        });
        let alone = |peer: &Peer| assert!(peer.hear(&message(6, ASKS, &hex("0050000000000000"))).is_empty());
        negotiated(0, alone, |frontend| frontend.set_log_base(0x5000, Some(log)).unwrap());
    });
}

/// Real backends reply to it what they like, and acknowledge a base alone.
#[test]
fn set_log_base_of_real_backends() {
    counted(|| {
        let file = memory_file();
        let log = VhostUserDirtyLogRegion { mmap_size: 0x800, mmap_offset: 0x10, mmap_handle: file.as_raw_fd() };
        for size in [0, 8, 16, 4096] {
            let backend = move |peer: &Peer| {
                peer.hear_any();
                peer.say(&message(6, REPLIES, &vec![0xff; size]), &[]);
                peer.hear_any();
                peer.say_number(6, 0);
                peer.still_serves(5);
            };
            negotiated(ALL, backend, |frontend| {
                frontend.set_log_base(0x5000, Some(log)).unwrap();
                need_reply(frontend);
                frontend.set_log_base(0x5000, None).unwrap();
                frontend.set_hdr_flags(VhostUserHeaderFlag::empty());
                assert_eq!(5, frontend.get_features().unwrap());
            });
        }
        let crates = |peer: &Peer| {
            peer.hear_any();
            peer.say_number(6, 0);
        };
        negotiated(ALL, crates, |frontend| {
            frontend.set_profile(Profile::Vhost);
            failed("InvalidMessage", frontend.set_log_base(0x5000, Some(log)));
        });
    });
}

/// The backend uses the descriptor that it is given, or gives another one; any other number is a refusal.
#[test]
fn set_device_state_fd() {
    counted(|| {
        let (given, other) = (memory_file(), memory_file());
        let (sent, wanted) = (identity(&given), identity(&other));
        let backend = move |peer: &Peer| {
            let request = |direction| message(42, ASKS, &[direction, 0, 0, 0, 0, 0, 0, 0]);
            assert_eq!(sent, identity(&peer.hear(&request(0))[0]));
            peer.say_number(42, 0x100);
            assert_eq!(sent, identity(&peer.hear(&request(1))[0]));
            peer.say(&message(42, REPLIES, &0u64.to_le_bytes()), &[&other]);
            assert_eq!(sent, identity(&peer.hear(&request(0))[0]));
            peer.say_number(42, 0x101);
            peer.still_serves(5);
        };
        negotiated(ALL, backend, |frontend| {
            let stopped = VhostTransferStatePhase::STOPPED;
            let pipe = || OwnedFd::from(given.try_clone().unwrap());
            assert!(frontend.set_device_state_fd(VhostTransferStateDirection::SAVE, stopped, pipe()).unwrap().is_none());
            let came = frontend.set_device_state_fd(VhostTransferStateDirection::LOAD, stopped, pipe()).unwrap();
            assert_eq!(wanted, identity(&came.unwrap()));
            let refused = frontend.set_device_state_fd(VhostTransferStateDirection::SAVE, stopped, pipe());
            failed("BackendInternalError", refused);
            assert_eq!(5, frontend.get_features().unwrap());
        });
    });
}

/// While the backend listens for page faults it replies where it has mapped the regions, and is told that this was taken.
#[test]
fn bases_of_regions() {
    counted(|| {
        let file = memory_file();
        let backend = |peer: &Peer| {
            let region = |base: &str| format!("0030000000000000 0010000000000000 {base} 0020000000000000");
            let (mine, its) = (region("0000007000000000"), region("0000000900000000"));
            peer.hear(&message(29, WANTS, &[]));
            peer.say_number(29, 0);
            let table = |it: &str| hex(&format!("01000000 00000000 {it}"));
            assert_eq!(1, peer.hear(&message(5, ASKS, &table(&mine))).len());
            peer.say(&message(5, REPLIES, &table(&its)), &[]);
            peer.hear(&message(5, ASKS, &[0; 8]));
            let single = |it: &str| hex(&format!("0000000000000000 {it}"));
            assert_eq!(1, peer.hear(&message(37, ASKS, &single(&mine))).len());
            peer.say(&message(37, REPLIES, &single(&its)), &[]);
            peer.hear(&message(37, ASKS, &[0; 8]));
            peer.hear(&message(3, WANTS, &[]));
            peer.say_number(3, 0);
        };
        negotiated(ALL, backend, |frontend| {
            need_reply(frontend);
            frontend.postcopy_listen().unwrap();
            let mine = region(0x3000, &file);
            assert_eq!(Some(vec![0x900_0000]), frontend.set_mem_table(&[mine]).unwrap());
            frontend.postcopy_ack_mem_regions(FrontendReq::SET_MEM_TABLE).unwrap();
            assert_eq!(Some(0x900_0000), frontend.add_mem_region(&mine).unwrap());
            frontend.postcopy_ack_mem_regions(FrontendReq::ADD_MEM_REG).unwrap();
            frontend.set_owner().unwrap();
        });
    });
}
