// SPDX-License-Identifier: Apache-2.0
//! The sessions of `include/covretin_channel.h`, as that header declares them. What each call does, and when each error comes,
//! stands there.
use std::os::unix::io::RawFd;

use super::moving::{calls, outcome, records, sessions, values, Asks, Code, Moves, Outcome, Raw, Serves, MAX_FDS, MAX_MESSAGE};
use super::owning::Owning;

/// `covretin_mmap`.
#[repr(C)]
#[derive(Clone, Copy, Default)]
pub(crate) struct Mmap {
    pub(crate) fd_offset: u64,
    pub(crate) shm_offset: u64,
    pub(crate) len: u64,
    pub(crate) flags: u64,
    pub(crate) shmid: u8,
}

sessions! {
    /// A device's session on the backend channel.
    ChannelSession: "covretin_channel_", open();
    /// A frontend's session on the backend channel.
    ChannelServer: "covretin_channel_server_", open(), claim, abandon, reply_number(1);
}

calls! {
    ChannelSession:
    take_reply = covretin_channel_take();
    set_reply_ack = covretin_channel_set_reply_ack(on: bool);
    set_config_change = covretin_channel_set_config_change(on: bool);
    set_shared_object = covretin_channel_set_shared_object(on: bool);
    set_shmem = covretin_channel_set_shmem(on: bool);
    config_change = covretin_channel_ask_config_change();
    shmem_map = covretin_channel_ask_shmem_map(mmap: &Mmap, fd: i32);
    shmem_unmap = covretin_channel_ask_shmem_unmap(mmap: &Mmap);
    shared_object_add = covretin_channel_ask_shared_object_add(; name: [u8]);
    shared_object_remove = covretin_channel_ask_shared_object_remove(; name: [u8]);
    shared_object_lookup = covretin_channel_ask_shared_object_lookup(; name: [u8], fd: i32);
}

calls! {
    ChannelServer:
    stream_end = covretin_channel_server_end();
    set_reply_ack = covretin_channel_server_set_reply_ack(on: bool);
    reply_number = covretin_channel_reply_number(number: u64);
    reply_errno = covretin_channel_reply_errno(number: i32);
}

values! {
    ChannelServer:
    next_call = covretin_channel_server_next(call: u32 = 0) -> u32;
    mmap = covretin_channel_call_mmap(mmap: Mmap = Mmap::default()) -> Mmap;
    fd = covretin_channel_call_fd(fd: i32 = -1) -> RawFd;
}

records! {
    ChannelServer:
    name = covretin_channel_call_name() -> [u8; 16];
}

impl Asks for Owning<ChannelSession> {
    type Session = ChannelSession;
    const REPLY_BODY: Option<usize> = Some(8);

    fn owning(&mut self) -> &mut Owning<ChannelSession> {
        self
    }

    fn take(&mut self) -> Outcome {
        self.take_reply()
    }
}

impl Serves for ChannelServer {
    fn end(&mut self) -> Outcome {
        self.stream_end()
    }

    fn next(&mut self) -> Result<u32, Code> {
        self.next_call()
    }
}
