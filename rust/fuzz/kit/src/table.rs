// SPDX-License-Identifier: Apache-2.0
//! What `covretin_device.h` declares, field by field.
use std::ffi::{c_int, c_void};

/// `covretin_device`
#[repr(C)]
pub struct CDevice {
    pub opaque: *mut c_void,
}

/// `covretin_request`
#[repr(C)]
pub struct CRequest {
    pub segments: *mut libc::iovec,
    pub readable: usize,
    pub writable: usize,
    pub queue: u32,
    pub again: bool,
    pub own: *mut c_void,
}

/// `covretin_device_calls`, as far as it is used: the fuzzer has each of these callbacks, but for those that are an Option.
#[repr(C)]
pub struct Table {
    pub features: u64,
    pub protocol_features: u64,
    pub queues: u32,
    pub taken_queues: u64,
    pub busy_poll_us: u32,
    pub calls_by_pipe: bool,
    pub request: unsafe extern "C" fn(*mut c_void, *mut CRequest),
    pub accepted: Option<unsafe extern "C" fn(*mut c_void, u64, u64)>,
    pub read_config: unsafe extern "C" fn(*mut c_void, u32, *mut u8, u32) -> bool,
    pub write_config: unsafe extern "C" fn(*mut c_void, u32, *const u8, u32) -> bool,
    pub config_changed: Option<unsafe extern "C" fn(*mut c_void) -> bool>,
    pub reset: Option<unsafe extern "C" fn(*mut c_void)>,
    pub channel: Option<unsafe extern "C" fn(*mut c_void, c_int, u64) -> bool>,
    pub refused: unsafe extern "C" fn(*mut c_void, u32, c_int),
    pub broken: unsafe extern "C" fn(*mut c_void, u32, c_int),
    pub input: c_int,
    pub input_ready: Option<unsafe extern "C" fn(*mut c_void, *mut CDevice) -> bool>,
    pub turned_away: Option<unsafe extern "C" fn(*mut c_void)>,
    pub ended: unsafe extern "C" fn(*mut c_void, c_int),
    pub stats: *mut c_void,
    pub other: Option<unsafe extern "C" fn(*mut c_void, u32, *const u8, usize, *const i32, usize) -> bool>,
    pub requests: Option<unsafe extern "C" fn(*mut c_void, *const *mut CRequest, usize)>,
}
