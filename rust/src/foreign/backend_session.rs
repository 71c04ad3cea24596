// SPDX-License-Identifier: Apache-2.0
//! The sessions of `include/covretin_backend.h`, as that header declares them. What each call does, and when each error comes,
//! stands there.
use std::os::unix::io::RawFd;

use super::moving::{calls, outcome, records, sessions, values, Code, Moves, Outcome, Raw, Serves, MAX_FDS, MAX_MESSAGE};
use super::session::{Config, Inflight, Region, Vring};

/// The greatest number of bytes of the configuration space in one message.
pub(crate) const MAX_CONFIG: usize = 4084;
/// COVRETIN_CALL_OTHER, which is the number of no request.
pub(crate) const CALL_OTHER: u32 = 257;

sessions! {
    /// A backend's session.
    BackendSession: "covretin_backend_", open(), claim, abandon, reply_refused();
}

calls! {
    BackendSession:
    stream_end = covretin_backend_end();
    set_profile = covretin_backend_set_profile(profile: u32);
    reply_done = covretin_reply_done();
    reply_refused = covretin_reply_refused();
    reply_number = covretin_reply_number(number: u64);
    reply_ring = covretin_reply_ring(index: u32, number: u32);
    reply_fd = covretin_reply_fd(fd: i32);
    reply_inflight = covretin_reply_inflight(inflight: &Inflight, fd: i32);
    reply_bases = covretin_reply_bases(; bases: [u64]);
    reply_config = covretin_reply_config(; bytes: [u8]);
    reply_shmem = covretin_reply_shmem(; sizes: [u64], count: u32);
}

values! {
    BackendSession:
    next_call = covretin_backend_next(call: u32 = 0) -> u32;
    number = covretin_call_number(number: u64 = 0) -> u64;
    ring = covretin_call_ring(index: u32 = 0, number: u32 = 0) -> (u32, u32);
    vring = covretin_call_vring(index: u32 = 0, ring: Vring = Vring::default()) -> (u32, Vring);
    ring_fd = covretin_call_ring_fd(index: u32 = 0, fd: i32 = -1) -> (u32, RawFd);
    fd = covretin_call_fd(fd: i32 = -1) -> RawFd;
    inflight = covretin_call_inflight(inflight: Inflight = Inflight::default(), fd: i32 = -1) -> (Inflight, RawFd);
    transfer = covretin_call_transfer(direction: u32 = 0, phase: u32 = 0, fd: i32 = -1) -> (u32, u32, RawFd);
    log = covretin_call_log(log: Region = Region::NONE) -> Region;
    regions = covretin_call_regions([regions: Region] count: usize = 0, listening: bool = false) -> (usize, bool);
    config = covretin_call_config(config: Config = Config::default(), [bytes: u8] count: usize = 0) -> (Config, usize);
    other = covretin_call_other(request: u32 = 0, [bytes: u8] count: usize = 0) -> (u32, usize);
    fds = covretin_call_fds([fds: RawFd] count: usize = 0) -> usize;
}

records! {
    BackendSession:
    name = covretin_call_name() -> [u8; 16];
}

extern "C" {
    fn covretin_backend_inactive(backend: &mut Raw) -> u64;
    fn covretin_backend_ended(backend: &mut Raw) -> u32;
}

// SAFETY, of both calls: they are declared as in the header. The session is open, and borrowed by this call alone.
impl Serves for BackendSession {
    fn end(&mut self) -> Outcome {
        self.stream_end()
    }

    fn next(&mut self) -> Result<u32, Code> {
        self.next_call()
    }

    fn inactive(&mut self) -> u64 {
        // SAFETY: as above.
        unsafe { covretin_backend_inactive(&mut self.0) }
    }

    fn ended(&mut self) -> bool {
        // SAFETY: as above.
        unsafe { covretin_backend_ended(&mut self.0) != 0 }
    }
}
