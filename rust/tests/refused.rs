// SPDX-License-Identifier: Apache-2.0
//! Calls that are refused before anything is sent: without the feature that each wants, and for each argument.
mod common;

use std::os::unix::io::AsRawFd;

use common::requests::*;
use common::*;
use covretin::vhost_user::message::*;
use covretin::vhost_user::VhostUserFrontend;
use covretin::{VhostBackend, VhostUserDirtyLogRegion, VhostUserMemoryRegionInfo, VringConfigData};

const EMPTY: VhostUserConfigFlags = VhostUserConfigFlags::empty();

fn shared(byte: u8) -> VhostUserSharedMsg {
    VhostUserSharedMsg { uuid: uuid::Uuid::from_bytes([byte; 16]) }
}

/// A region that is refused for nothing but what is changed of it.
fn region() -> VhostUserMemoryRegionInfo {
    VhostUserMemoryRegionInfo { memory_size: 0x1000, mmap_handle: 0, ..Default::default() }
}

fn silent(_: &Peer) {}

#[test]
fn without_protocol_features() {
    counted(|| {
        let offers_none = |peer: &Peer| peer.still_serves(1);
        played(offers_none, |frontend| {
            failed("InactiveFeature(0x40000000)", frontend.get_protocol_features());
            frontend.get_features().unwrap();
            failed("InactiveFeature(0x40000000)", frontend.get_protocol_features());
            failed("InactiveFeature(0x40000000)", frontend.set_protocol_features(VhostUserProtocolFeatures::MQ));
            failed("InactiveFeature(0x40000000)", frontend.set_vring_enable(0, true));
        });
        // Rings are enabled only once PROTOCOL_FEATURES was accepted, and not merely offered.
        let offers = |peer: &Peer| peer.still_serves(PROTOCOL);
        played(offers, |frontend| {
            frontend.get_features().unwrap();
            failed("InactiveFeature(0x40000000)", frontend.set_vring_enable(0, true));
        });
    });
}

/// Each call that wants a protocol feature.
#[test]
fn without_the_protocol_feature() {
    counted(|| {
        // (without LOG_SHMFD the base of a log goes out alone)
        let wants = |it: &Request| !it.feature.is_empty() && it.code != FrontendReq::SET_LOG_BASE;
        for it in requests().iter().filter(|it| wants(it)) {
            println!("{}", it.name);
            negotiated(ALL & !it.feature.bits(), silent, |frontend| {
                failed(&format!("InactiveOperation({:#x})", it.feature.bits()), (it.call)(frontend, 0));
            });
        }
    });
}

#[test]
fn memory() {
    counted(|| {
        negotiated(ALL, silent, |frontend| {
            let empty = VhostUserMemoryRegionInfo { memory_size: 0, ..region() };
            let bare = VhostUserMemoryRegionInfo { mmap_handle: -1, ..region() };
            failed("InvalidParam", frontend.set_mem_table(&[]));
            failed("InvalidParam", frontend.set_mem_table(&[region(); 33]));
            failed("InvalidParam", frontend.set_mem_table(&[region(), empty]));
            failed("InvalidParam", frontend.set_mem_table(&[region(), bare]));
            failed("InvalidParam", frontend.add_mem_region(&empty));
            failed("InvalidParam", frontend.add_mem_region(&bare));
            failed("InvalidParam", frontend.remove_mem_region(&empty));
            let log = VhostUserDirtyLogRegion { mmap_size: 1, mmap_offset: 0, mmap_handle: -1 };
            failed("InvalidParam", frontend.set_log_base(0, Some(log)));
            failed("InvalidParam", frontend.set_log_fd(-1));
            failed("InvalidParam", frontend.postcopy_ack_mem_regions(FrontendReq::SET_OWNER));
        });
    });
}

#[test]
fn rings() {
    counted(|| {
        let asks_for_more = |peer: &Peer| {
            peer.hear(&message(17, ASKS, &[]));
            peer.say_number(17, 0x8000);
        };
        negotiated(ALL, asks_for_more, |frontend| {
            let file = memory_file();
            let ring = VringConfigData::default();
            let index = RINGS as usize;
            failed("InvalidParam", frontend.set_vring_num(index, 1));
            failed("InvalidParam", frontend.set_vring_base(index, 1));
            failed("InvalidParam", frontend.get_vring_base(index));
            failed("InvalidParam", frontend.set_vring_addr(index, &ring));
            failed("InvalidParam", frontend.set_vring_enable(index, true));
            failed("InvalidParam", frontend.set_vring_addr(0, &VringConfigData { flags: 2, ..ring }));
            frontend.get_queue_num().unwrap();
            // The number of a ring with a descriptor has eight bits for its index.
            for index in [0x100, 0x8000, usize::MAX] {
                failed("InvalidParam", frontend.set_vring_call(index, &file));
                failed("InvalidParam", frontend.set_vring_kick(index, &file));
                failed("InvalidParam", frontend.set_vring_err(index, &file));
            }
            for index in [0x8000, 1 << 32, usize::MAX] {
                failed("InvalidParam", frontend.set_vring_num(index, 1));
            }
        });
    });
}

#[test]
fn configuration() {
    counted(|| {
        negotiated(ALL, silent, |frontend| {
            let high = VhostUserConfigFlags::from_bits_retain(4);
            let all = vec![0; 4085];
            failed("InvalidParam", frontend.get_config(0, 0, EMPTY, &[]));
            failed("InvalidParam", frontend.get_config(0x1000, 1, EMPTY, &[0]));
            failed("InvalidParam", frontend.get_config(u32::MAX, 1, EMPTY, &[0]));
            failed("InvalidParam", frontend.get_config(0, 1, high, &[0]));
            failed("InvalidParam", frontend.get_config(0, 2, EMPTY, &[0]));
            failed("InvalidParam", frontend.get_config(0, 4085, EMPTY, &all));
            failed("InvalidParam", frontend.set_config(0, EMPTY, &[]));
            failed("InvalidParam", frontend.set_config(0x1000, EMPTY, &[0]));
            failed("InvalidParam", frontend.set_config(0, high, &[0]));
            failed("InvalidParam", frontend.set_config(0, EMPTY, &all));
        });
    });
}

#[test]
fn objects_and_inflight_regions() {
    counted(|| {
        negotiated(ALL, silent, |frontend| {
            let fd = frontend.as_raw_fd();
            failed("InvalidParam", frontend.get_shared_object(&shared(0)));
            failed("InvalidParam", frontend.get_shared_object(&shared(0xff)));
            failed("InvalidParam", frontend.get_inflight_fd(&VhostUserInflight::new(0, 0, 0, 1)));
            failed("InvalidParam", frontend.get_inflight_fd(&VhostUserInflight::new(0, 0, 1, 0)));
            failed("InvalidParam", frontend.set_inflight_fd(&VhostUserInflight::new(0, 0, 1, 1), fd));
            failed("InvalidParam", frontend.set_inflight_fd(&VhostUserInflight::new(1, 0, 0, 1), fd));
            failed("InvalidParam", frontend.set_inflight_fd(&VhostUserInflight::new(1, 0, 1, 0), fd));
            failed("InvalidParam", frontend.set_inflight_fd(&VhostUserInflight::new(1, 0, 1, 1), -1));
        });
    });
}
