// SPDX-License-Identifier: Apache-2.0
//! The kit in Rust behind those functions of `covretin_device.h` that `c/fuzz/device.c` calls, so that one frontend and one guest attack both kits.
//! They are named `kit_..` in the place of `covretin_..`, since a library may be linked that has the kit in C, too. A panic in here ends the fuzzer.
#![allow(clippy::missing_safety_doc)] // the header says what each wants
use std::ffi::{c_int, c_void};
use std::io::{Read, Write};
use std::os::unix::io::FromRawFd;
use std::os::unix::net::UnixStream;
use std::sync::{Arc, Mutex};
use std::time::Duration;
use std::{ptr, slice};

use covretin::device::{Device, Ended, Request, Session, Taker, MAX_BURST};
use covretin::queue::{self, VolatileSlice};
use covretin::vhost_user::message::VhostUserProtocolFeatures;
use covretin::vhost_user::{Backend, Error, VhostUserFrontendReqHandler};

mod table;
use table::{CDevice, CRequest, Table};

// As covretin.h numbers them. Whatever is wrong with a request is one number here, and so is however a frontend went.
const INVALID_PARAM: c_int = 1;
const DISCONNECTED: c_int = 10;
const SOCKET_ERROR: c_int = 13;
const OUT_OF_MEMORY: c_int = 24;
const NOT_YET: c_int = 105;
const MEMORY_LOST: c_int = 301;
const STOPPED: c_int = 302;

fn number_of(why: &Ended) -> c_int {
    match why {
        Ended::Frontend(_) => DISCONNECTED,
        Ended::MemoryLost => MEMORY_LOST,
        Ended::Stopped => STOPPED,
        Ended::OutOfMemory => OUT_OF_MEMORY,
    }
}

/// A device that is a table of callbacks.
struct Called {
    table: *const Table,
    own: *mut c_void,
    channel: Mutex<Option<Backend>>,
}

// The fuzzer has one thread of its own, and the kit calls the device by that alone.
unsafe impl Send for Called {}
unsafe impl Sync for Called {}

impl Called {
    fn table(&self) -> &Table {
        unsafe { &*self.table }
    }

    fn hand_out(&self, requests: Vec<Request>) {
        let had: Vec<*mut CRequest> = requests.into_iter().map(Had::hand_over).collect();
        match self.table().requests {
            Some(requests) => unsafe { requests(self.own, had.as_ptr(), had.len()) },
            None => had.into_iter().for_each(|had| unsafe { (self.table().request)(self.own, had) }),
        }
    }
}

impl Device for Called {
    fn queues(&self) -> usize {
        self.table().queues as usize
    }
    fn features(&self) -> u64 {
        self.table().features
    }
    fn protocol_features(&self) -> VhostUserProtocolFeatures {
        VhostUserProtocolFeatures::from_bits_truncate(self.table().protocol_features) | VhostUserProtocolFeatures::CONFIG
    }
    fn busy_poll(&self) -> Duration {
        Duration::from_micros(self.table().busy_poll_us.into())
    }
    fn taken_queues(&self) -> u64 {
        self.table().taken_queues
    }
    fn calls_by_pipe(&self) -> bool {
        self.table().calls_by_pipe
    }
    fn burst(&self) -> usize {
        self.table().requests.map_or(1, |_| MAX_BURST)
    }
    fn request(&self, request: Request) {
        self.hand_out(vec![request])
    }
    fn requests(&self, requests: Vec<Request>) {
        self.hand_out(requests)
    }
    /// (the kit in C tells no device of this)
    fn available(&self, queue: usize, taker: &Taker) {
        if let Some(request) = taker.take(queue) {
            self.hand_out(vec![request])
        }
    }
    fn read_config(&self, offset: u32, bytes: &mut [u8]) -> bool {
        if let Some(channel) = &*self.channel.lock().unwrap() {
            let _ = channel.handle_config_change();
        }
        unsafe { (self.table().read_config)(self.own, offset, bytes.as_mut_ptr(), bytes.len() as u32) }
    }
    fn write_config(&self, offset: u32, bytes: &[u8]) -> bool {
        unsafe { (self.table().write_config)(self.own, offset, bytes.as_ptr(), bytes.len() as u32) }
    }
    /// Where the kit in C would keep the channel, to tell of changes, it is kept here; where it is the device's, it is dropped at once.
    fn channel(&self, channel: Backend) {
        channel.set_timeout(Some(Duration::ZERO));
        *self.channel.lock().unwrap() = self.table().config_changed.map(|_| channel);
    }
    fn refused(&self, request: Option<u32>, _error: &Error) {
        unsafe { (self.table().refused)(self.own, request.unwrap_or(0), INVALID_PARAM) }
    }
    fn broken(&self, queue: usize, error: queue::Error) {
        unsafe { (self.table().broken)(self.own, queue as u32, error as c_int) }
    }
    fn ended(&self, why: &Ended) {
        unsafe { (self.table().ended)(self.own, number_of(why)) }
    }
}

/// A request that the device has. What C sees of it is the first field.
#[repr(C)]
struct Had {
    seen: CRequest,
    request: Request,
    segments: Vec<libc::iovec>,
}

impl Had {
    fn hand_over(request: Request) -> *mut CRequest {
        let parts = |slices: &[VolatileSlice<'_>]| VolatileSlice::iovecs(slices).to_vec();
        let mut segments = [parts(request.readable()), parts(request.writable())].concat();
        let seen = CRequest {
            segments: segments.as_mut_ptr(),
            readable: request.readable().len(),
            writable: request.writable().len(),
            queue: request.queue() as u32,
            again: request.is_again(),
            own: ptr::null_mut(),
        };
        Box::into_raw(Box::new(Had { seen, request, segments })).cast()
    }

    unsafe fn of<'a>(request: *mut CRequest) -> &'a mut Had {
        unsafe { &mut *request.cast() }
    }
}

fn had(request: Option<Request>) -> *mut CRequest {
    request.map_or(ptr::null_mut(), Had::hand_over)
}

#[no_mangle]
pub unsafe extern "C" fn kit_request_read(request: *mut CRequest, bytes: *mut u8, len: usize) -> usize {
    let mut unwanted = vec![0; if bytes.is_null() { len } else { 0 }];
    let into = if bytes.is_null() { &mut unwanted[..] } else { unsafe { slice::from_raw_parts_mut(bytes, len) } };
    unsafe { Had::of(request) }.request.read(into).unwrap()
}

#[no_mangle]
pub unsafe extern "C" fn kit_request_write(request: *mut CRequest, bytes: *const u8, len: usize) -> usize {
    unsafe { Had::of(request).request.write(slice::from_raw_parts(bytes, len)).unwrap() }
}

#[no_mangle]
pub unsafe extern "C" fn kit_request_done(request: *mut CRequest, written: u32) {
    unsafe { kit_requests_done(&request, &written, 1) }
}

#[no_mangle]
pub unsafe extern "C" fn kit_request_take(request: *mut CRequest, queue: u32) -> *mut CRequest {
    had(unsafe { Had::of(request) }.request.taker().take(queue as usize))
}

#[no_mangle]
pub unsafe extern "C" fn kit_requests_take(
    request: *mut CRequest,
    queue: u32,
    requests: *mut *mut CRequest,
    most: usize,
) -> usize {
    let taken = unsafe { Had::of(request) }.request.taker().take_many(queue as usize, most);
    let count = taken.len();
    taken.into_iter().enumerate().for_each(|(at, it)| unsafe { *requests.add(at) = Had::hand_over(it) });
    count
}

/// One that nothing was written of and that has one part is dropped in the place of that, by which it is done, too.
#[no_mangle]
pub unsafe extern "C" fn kit_requests_done(requests: *const *mut CRequest, written: *const u32, count: usize) {
    let done = (0..count).map(|at| unsafe { (Box::from_raw((*requests.add(at)).cast::<Had>()), *written.add(at)) });
    let is_said = |(had, written): &(Box<Had>, u32)| *written != 0 || had.segments.len() > 1;
    Request::complete_all(done.filter(is_said).map(|(had, written)| (had.request, written)));
}

unsafe fn session<'a>(device: *const CDevice) -> &'a mut Session<Called> {
    unsafe { &mut *(*device).opaque.cast() }
}

/// Of the fuzzer's socket alone: it is a stream socket that is connected.
#[no_mangle]
pub unsafe extern "C" fn kit_device_open_fd(device: *mut CDevice, table: *const Table, own: *mut c_void, fd: c_int) -> c_int {
    let called = Called { table, own, channel: Mutex::new(None) };
    match Session::new(Arc::new(called), unsafe { UnixStream::from_raw_fd(fd) }) {
        Ok(session) => {
            unsafe { (*device).opaque = Box::into_raw(Box::new(session)).cast() };
            0
        }
        Err(_) => SOCKET_ERROR,
    }
}

#[no_mangle]
pub unsafe extern "C" fn kit_device_serve(device: *mut CDevice) -> c_int {
    unsafe { session(device) }.handle_events().map_or(NOT_YET, number_of)
}

#[no_mangle]
pub unsafe extern "C" fn kit_device_take(device: *mut CDevice, queue: u32) -> *mut CRequest {
    had(unsafe { session(device) }.taker().take(queue as usize))
}

#[no_mangle]
pub unsafe extern "C" fn kit_device_stop(device: *mut CDevice) {
    unsafe { session(device) }.stopper().stop()
}

#[no_mangle]
pub unsafe extern "C" fn kit_device_close(device: *mut CDevice) {
    unsafe {
        drop(Box::from_raw((*device).opaque.cast::<Session<Called>>()));
        (*device).opaque = ptr::null_mut();
    }
}
