// SPDX-License-Identifier: Apache-2.0
//! Each call of a frontend that is a request, with an example of it, for tests that go through all of them. So a request of a form that
//! is known here needs no line of its own in them. `c/tests/requests.def` is the same for C.
use std::os::unix::io::{AsRawFd, RawFd};

use covretin::vhost_user::message::*;
use covretin::vhost_user::{Frontend, VhostUserFrontend};
use covretin::{Result, VhostBackend, VhostUserDirtyLogRegion, VhostUserMemoryRegionInfo, VringConfigData};

/// A call that is a request.
pub struct Request {
    pub code: FrontendReq,
    pub name: &'static str,
    /// The protocol feature that the call wants, or none.
    pub feature: VhostUserProtocolFeatures,
    /// It is served, and its only reply is an acknowledgement.
    pub is_acknowledged: bool,
    /// It sends the descriptor that the example is given.
    pub sends: bool,
    /// An example.
    pub call: fn(&mut Frontend, RawFd) -> Result<()>,
    /// Where it takes numbers, a flag, or a ring with a descriptor: the body of the example, and its arguments as the device notes them.
    pub plain: Option<(&'static str, &'static str)>,
}

/// A descriptor that is known by its number.
pub struct Number(pub RawFd);

impl AsRawFd for Number {
    fn as_raw_fd(&self) -> RawFd {
        self.0
    }
}

fn region(fd: RawFd) -> VhostUserMemoryRegionInfo {
    VhostUserMemoryRegionInfo { memory_size: 0x1000, mmap_handle: fd, ..Default::default() }
}

fn state_fd(frontend: &mut Frontend) -> Result<()> {
    let (save, stopped) = (VhostTransferStateDirection::SAVE, VhostTransferStatePhase::STOPPED);
    frontend.set_device_state_fd(save, stopped, super::memory_file().into()).map(drop)
}

macro_rules! feature {
    (NONE) => {
        VhostUserProtocolFeatures::empty()
    };
    ($name:ident) => {
        VhostUserProtocolFeatures::$name
    };
}

/// The example of a form: the call, and what it is where it is plain.
#[rustfmt::skip]
macro_rules! example {
    ($call:ident, NOTHING) => { (|it, _| it.$call().map(drop), Some(("", ""))) };
    ($call:ident, NUMBER) => { (|it, _| it.$call(0x4000_0003), Some(("0300004000000000", " 0x40000003"))) };
    ($call:ident, SHORT) => { (|it, _| it.$call(1500), Some(("dc05000000000000", " 1500"))) };
    ($call:ident, RING_NUMBER) => { (|it, _| it.$call(3, 256), Some(("0300000000010000", " 3 256"))) };
    ($call:ident, RING_FLAG) => { (|it, _| it.$call(1, true), Some(("0100000001000000", " 1 true"))) };
    ($call:ident, RING_FD) => { (|it, fd| it.$call(3, &Number(fd)), Some(("0300000000000000", " 3"))) };
    ($call:ident, PROTOCOL) => { (|it, _| it.$call(VhostUserProtocolFeatures::empty()), None) };
    ($call:ident, REGIONS) => { (|it, fd| it.$call(&[region(fd)]).map(drop), None) };
    ($call:ident, REGION) => { (|it, fd| it.$call(&region(fd)).map(drop), None) };
    ($call:ident, LOG) => { (|it, fd| it.$call(0, Some(VhostUserDirtyLogRegion { mmap_size: 1, mmap_offset: 0, mmap_handle: fd })), None) };
    (set_log_fd, FD) => { (|it, fd| it.set_log_fd(fd), None) };
    ($call:ident, FD) => { (|it, fd| it.$call(&Number(fd)), None) };
    ($call:ident, VRING) => { (|it, _| it.$call(0, &VringConfigData::default()), None) };
    ($call:ident, RING) => { (|it, _| it.$call(0).map(drop), None) };
    ($call:ident, CONFIG) => { (|it, _| it.$call(0, 4, VhostUserConfigFlags::empty(), &[0; 4]).map(drop), None) };
    ($call:ident, BYTES) => { (|it, _| it.$call(0, VhostUserConfigFlags::empty(), &[0; 4]), None) };
    ($call:ident, AREA) => { (|it, _| it.$call(&VhostUserInflight::new(0, 0, 1, 1)).map(drop), None) };
    ($call:ident, AREA_FD) => { (|it, fd| it.$call(&VhostUserInflight::new(0x1000, 0, 1, 1), fd), None) };
    ($call:ident, NAME) => { (|it, _| it.$call(&VhostUserSharedMsg { uuid: uuid::Uuid::from_bytes([1; 16]) }).map(drop), None) };
    ($call:ident, TRANSFER) => { (|it, _| state_fd(it), None) };
}

macro_rules! request {
    ($code:ident, $call:ident, $feature:ident, TRANSFER, $reply:ident, true) => {
        request!($code, $call, $feature, TRANSFER, $reply, false)
    };
    ($code:ident, $call:ident, $feature:ident, $takes:ident, $reply:ident, $sends:literal) => {{
        let example: (fn(&mut Frontend, RawFd) -> Result<()>, _) = example!($call, $takes);
        Request {
            code: FrontendReq::$code,
            name: stringify!($call),
            feature: feature!($feature),
            is_acknowledged: stringify!($reply) == "ACK",
            sends: $sends,
            call: example.0,
            plain: example.1,
        }
    }};
}

/// All of them. That of SET_DEVICE_STATE_FD sends a descriptor of its own.
pub fn requests() -> Vec<Request> {
    vec![
        // generated from protocol/requests.toml: requests
        request!(GET_FEATURES, get_features, NONE, NOTHING, OWN, false),
        request!(SET_FEATURES, set_features, NONE, NUMBER, ACK, false),
        request!(SET_OWNER, set_owner, NONE, NOTHING, ACK, false),
        request!(RESET_OWNER, reset_owner, NONE, NOTHING, ACK, false),
        request!(SET_MEM_TABLE, set_mem_table, NONE, REGIONS, ACK, true),
        request!(SET_LOG_BASE, set_log_base, LOG_SHMFD, LOG, OWN, true),
        request!(SET_LOG_FD, set_log_fd, NONE, FD, OWN, true),
        request!(SET_VRING_NUM, set_vring_num, NONE, RING_NUMBER, ACK, false),
        request!(SET_VRING_ADDR, set_vring_addr, NONE, VRING, ACK, false),
        request!(SET_VRING_BASE, set_vring_base, NONE, RING_NUMBER, ACK, false),
        request!(GET_VRING_BASE, get_vring_base, NONE, RING, OWN, false),
        request!(SET_VRING_KICK, set_vring_kick, NONE, RING_FD, ACK, true),
        request!(SET_VRING_CALL, set_vring_call, NONE, RING_FD, ACK, true),
        request!(SET_VRING_ERR, set_vring_err, NONE, RING_FD, ACK, true),
        request!(GET_PROTOCOL_FEATURES, get_protocol_features, NONE, NOTHING, OWN, false),
        request!(SET_PROTOCOL_FEATURES, set_protocol_features, NONE, PROTOCOL, ACK, false),
        request!(GET_QUEUE_NUM, get_queue_num, MQ, NOTHING, OWN, false),
        request!(SET_VRING_ENABLE, set_vring_enable, NONE, RING_FLAG, ACK, false),
        request!(NET_SET_MTU, set_mtu, MTU, SHORT, ACK, false),
        request!(SET_BACKEND_REQ_FD, set_backend_request_fd, BACKEND_REQ, FD, ACK, true),
        request!(GET_CONFIG, get_config, CONFIG, CONFIG, OWN, false),
        request!(SET_CONFIG, set_config, CONFIG, BYTES, ACK, false),
        request!(POSTCOPY_ADVISE, postcopy_advise, PAGEFAULT, NOTHING, OWN, false),
        request!(POSTCOPY_LISTEN, postcopy_listen, PAGEFAULT, NOTHING, ACK, false),
        request!(POSTCOPY_END, postcopy_end, PAGEFAULT, NOTHING, ACK, false),
        request!(GET_INFLIGHT_FD, get_inflight_fd, INFLIGHT_SHMFD, AREA, OWN, false),
        request!(SET_INFLIGHT_FD, set_inflight_fd, INFLIGHT_SHMFD, AREA_FD, ACK, true),
        request!(RESET_DEVICE, reset_device, RESET_DEVICE, NOTHING, ACK, false),
        request!(GET_MAX_MEM_SLOTS, get_max_mem_slots, CONFIGURE_MEM_SLOTS, NOTHING, OWN, false),
        request!(ADD_MEM_REG, add_mem_region, CONFIGURE_MEM_SLOTS, REGION, ACK, true),
        request!(REM_MEM_REG, remove_mem_region, CONFIGURE_MEM_SLOTS, REGION, ACK, false),
        request!(GET_SHARED_OBJECT, get_shared_object, SHARED_OBJECT, NAME, OWN, false),
        request!(SET_DEVICE_STATE_FD, set_device_state_fd, DEVICE_STATE, TRANSFER, OWN, true),
        request!(CHECK_DEVICE_STATE, check_device_state, DEVICE_STATE, NOTHING, OWN, false),
        request!(GET_SHMEM_CONFIG, get_shmem_config, SHMEM, NOTHING, OWN, false),
        // end
    ]
}

/// Those that are acknowledged, of a plain form, with its body and what a device notes. Left out are the two by which postcopy begins and
/// ends, since both sides turn there.
pub fn plain_requests() -> Vec<(Request, &'static str, String)> {
    let plain = |it: Request| {
        let (body, noted) = it.plain?;
        let noted = format!("{}{noted}", it.name);
        it.is_acknowledged.then_some((it, body, noted))
    };
    let turns = [FrontendReq::POSTCOPY_LISTEN, FrontendReq::POSTCOPY_END];
    let found: Vec<_> = requests().into_iter().filter(|it| !turns.contains(&it.code)).filter_map(plain).collect();
    assert!(!found.is_empty());
    found
}
