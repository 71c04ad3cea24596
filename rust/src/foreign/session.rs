// SPDX-License-Identifier: Apache-2.0
//! The sessions of `include/covretin.h`: the structs and calls as that header declares them. What each call does, and when each
//! error comes, stands there.
use std::os::unix::io::RawFd;

use super::moving::{calls, outcome, sessions, values, Code, Moves, Outcome, Raw, MAX_FDS, MAX_MESSAGE};

/// `covretin_region`.
#[repr(C)]
#[derive(Clone, Copy)]
pub(crate) struct Region {
    pub(crate) guest_phys_addr: u64,
    pub(crate) memory_size: u64,
    pub(crate) user_addr: u64,
    pub(crate) mmap_offset: u64,
    pub(crate) fd: i32,
}

impl Region {
    /// A region of nothing.
    pub(crate) const NONE: Region = Region { guest_phys_addr: 0, memory_size: 0, user_addr: 0, mmap_offset: 0, fd: -1 };
}

/// `covretin_vring`.
#[repr(C)]
#[derive(Clone, Copy, Default)]
pub(crate) struct Vring {
    pub(crate) queue_max_size: u16,
    pub(crate) queue_size: u16,
    pub(crate) flags: u32,
    pub(crate) desc_table_addr: u64,
    pub(crate) used_ring_addr: u64,
    pub(crate) avail_ring_addr: u64,
    pub(crate) log_addr: u64,
    pub(crate) has_log_addr: bool,
}

/// `covretin_inflight`.
#[repr(C)]
#[derive(Clone, Copy, Default)]
pub(crate) struct Inflight {
    pub(crate) mmap_size: u64,
    pub(crate) mmap_offset: u64,
    pub(crate) num_queues: u16,
    pub(crate) queue_size: u16,
}

/// `covretin_config`.
#[repr(C)]
#[derive(Clone, Copy, Default)]
pub(crate) struct Config {
    pub(crate) offset: u32,
    pub(crate) size: u32,
    pub(crate) flags: u32,
}

sessions! {
    /// A frontend's session.
    Session: "covretin_", open(max_queue_num: u64), claim, abandon;
}

calls! {
    Session:
    take_reply = covretin_take();
    set_hdr_flags = covretin_set_hdr_flags(flags: u32);
    set_profile = covretin_set_profile(profile: u32);
    // generated from protocol/requests.toml: calls of plain arguments
    get_features = covretin_ask_get_features();
    set_features = covretin_ask_set_features(features: u64);
    set_owner = covretin_ask_set_owner();
    reset_owner = covretin_ask_reset_owner();
    set_log_fd = covretin_ask_set_log_fd(fd: i32);
    set_vring_num = covretin_ask_set_vring_num(index: usize, num: u16);
    set_vring_base = covretin_ask_set_vring_base(index: usize, base: u32);
    get_vring_base = covretin_ask_get_vring_base(index: usize);
    set_vring_kick = covretin_ask_set_vring_kick(index: usize, fd: i32);
    set_vring_call = covretin_ask_set_vring_call(index: usize, fd: i32);
    set_vring_err = covretin_ask_set_vring_err(index: usize, fd: i32);
    get_protocol_features = covretin_ask_get_protocol_features();
    set_protocol_features = covretin_ask_set_protocol_features(features: u64);
    get_queue_num = covretin_ask_get_queue_num();
    set_vring_enable = covretin_ask_set_vring_enable(index: usize, enable: bool);
    set_mtu = covretin_ask_set_mtu(mtu: u16);
    set_backend_request_fd = covretin_ask_set_backend_request_fd(fd: i32);
    postcopy_advise = covretin_ask_postcopy_advise();
    postcopy_listen = covretin_ask_postcopy_listen();
    postcopy_end = covretin_ask_postcopy_end();
    reset_device = covretin_ask_reset_device();
    get_max_mem_slots = covretin_ask_get_max_mem_slots();
    check_device_state = covretin_ask_check_device_state();
    get_shmem_config = covretin_ask_get_shmem_config();
    postcopy_ack_mem_regions = covretin_ask_postcopy_ack_mem_regions(code: u32);
    // end
    add_mem_region = covretin_ask_add_mem_region(region: &Region);
    remove_mem_region = covretin_ask_remove_mem_region(region: &Region);
    set_log_base = covretin_ask_set_log_base(base: u64, region: &Region);
    set_log_base_alone = covretin_ask_set_log_base_alone(base: u64);
    set_vring_addr = covretin_ask_set_vring_addr(index: usize, ring: &Vring);
    get_inflight_fd = covretin_ask_get_inflight_fd(inflight: &Inflight);
    set_inflight_fd = covretin_ask_set_inflight_fd(inflight: &Inflight, fd: i32);
    set_device_state_fd = covretin_ask_set_device_state_fd(direction: u32, phase: u32, fd: i32);
    set_mem_table = covretin_ask_set_mem_table(; regions: [Region]);
    get_config = covretin_ask_get_config_bytes(offset: u32, flags: u32; bytes: [u8]);
    set_config = covretin_ask_set_config(offset: u32, flags: u32; bytes: [u8]);
    get_shared_object = covretin_ask_get_shared_object(; name: [u8]);
}

values! {
    Session:
    answer_number = covretin_answer_number(number: u64 = 0) -> u64;
    answer_fd = covretin_answer_fd(fd: i32 = -1) -> RawFd;
    answer_inflight = covretin_answer_inflight(inflight: Inflight = Inflight::default(), fd: i32 = -1) -> (Inflight, RawFd);
    answer_bases = covretin_answer_bases([bases: u64] count: usize = 0) -> usize;
    answer_config = covretin_answer_config(config: Config = Config::default(), [bytes: u8] count: usize = 0) -> (Config, usize);
    answer_shmem = covretin_answer_shmem([sizes: u64] count: usize = 0) -> usize;
}

extern "C" {
    fn covretin_inactive(session: &mut Raw) -> u64;
}

impl Session {
    /// Which feature the last call lacked.
    pub(crate) fn inactive(&mut self) -> u64 {
        // SAFETY: it is declared as in the header. The session is open, and borrowed by this call alone.
        unsafe { covretin_inactive(&mut self.0) }
    }
}
