// SPDX-License-Identifier: Apache-2.0
//! Replies that are changed at random, always the same: no call panics, waits for ever, or leaves a descriptor open, and what it
//! returns is what the reply says, or that it is none.
mod common;

use std::fs::File;
use std::io::Write;
use std::net::Shutdown;
use std::os::unix::io::AsRawFd;
use std::os::unix::net::UnixStream;

use common::random::*;
use common::*;
use covretin::vhost_user::message::*;
use covretin::vhost_user::{Frontend, VhostUserFrontend};
use covretin::{Result, VhostBackend};

type Call = fn(&mut Frontend) -> Result<()>;

/// Each call with a reply, that reply, and how many descriptors it has.
fn calls() -> Vec<(Call, Vec<u8>, usize)> {
    let number = |code: u32| message(code, REPLIES, &[0; 8]);
    let mut config = hex("10000000 08000000 00000000");
    config.extend([9; 8]);
    vec![
        (|it| it.get_features().map(drop), number(1), 0),
        (|it| it.set_owner(), number(3), 0),
        (|it| it.get_vring_base(0).map(drop), number(11), 0),
        (|it| it.get_queue_num().map(drop), number(17), 0),
        (|it| it.get_config(16, 8, VhostUserConfigFlags::empty(), &[0; 8]).map(drop), message(24, REPLIES, &config), 0),
        (|it| it.postcopy_advise().map(drop), message(28, REPLIES, &[]), 1),
        (
            |it| it.get_inflight_fd(&VhostUserInflight::new(0, 0, 1, 1)).map(drop),
            message(31, REPLIES, &hex("0010000000000000 0000000000000000 0100 0100 00000000")),
            1,
        ),
        (
            |it| {
                let (save, stopped) = (VhostTransferStateDirection::SAVE, VhostTransferStatePhase::STOPPED);
                it.set_device_state_fd(save, stopped, memory_file().into()).map(drop)
            },
            number(42),
            1,
        ),
        (|it| it.get_shmem_config().map(drop), message(44, REPLIES, &[0; 2056]), 0),
    ]
}

/// A frontend that agreed with its backend on all features; the backend's end.
fn ready() -> (Frontend, UnixStream) {
    let (mine, other) = UnixStream::pair().unwrap();
    let mut frontend = Frontend::from_stream(mine, RINGS);
    for (code, number) in [(1, PROTOCOL), (15, ALL)] {
        (&other).write_all(&message(code, REPLIES, &number.to_le_bytes())).unwrap();
    }
    let features = frontend.get_features().unwrap();
    frontend.set_features(features).unwrap();
    let offered = frontend.get_protocol_features().unwrap();
    frontend.set_protocol_features(offered).unwrap();
    need_reply(&frontend);
    (frontend, other)
}

/// Plays one reply to one call: how that ended.
fn round(call: Call, reply: &[u8], count: usize) -> Result<()> {
    let (mut frontend, other) = ready();
    let files: Vec<File> = (0..count).map(|_| memory_file()).collect();
    if let Some(first) = reply.first() {
        send(&other, &[*first], &files.iter().map(AsRawFd::as_raw_fd).collect::<Vec<_>>());
        (&other).write_all(&reply[1..]).unwrap();
    }
    other.shutdown(Shutdown::Write).unwrap();
    let result = call(&mut frontend);
    // Whatever came, the stream ended behind it.
    assert!(frontend.get_features().is_err());
    result
}

#[test]
fn replies_as_they_are() {
    counted(|| {
        for (call, reply, count) in calls() {
            round(call, &reply, count).unwrap();
        }
    });
}

#[test]
fn replies_that_are_changed() {
    let wanted = ["InvalidMessage", "PartialMessage", "IncorrectFds", "BackendInternalError"];
    counted(|| {
        let mut numbers = Numbers(0x1234_5678_9abc_def1);
        let calls = calls();
        let mut seen = [0; 2];
        for _ in 0..4000 {
            let (call, mut reply, mut count) = calls[numbers.below(calls.len())].clone();
            change(&mut numbers, &mut reply, &mut count);
            let before = open_fds();
            match round(call, &reply, count) {
                Ok(()) => seen[0] += 1,
                Err(covretin::Error::VhostUserProtocol(error)) => {
                    assert!(wanted.contains(&name(&error).as_str()), "{error:?} for {reply:02x?} with {count} descriptors");
                    seen[1] += 1;
                }
                Err(error) => panic!("{error:?}"),
            }
            assert_eq!(before, open_fds(), "{reply:02x?} with {count} descriptors");
        }
        assert!(seen[0] > 100 && seen[1] > 1000, "{seen:?}");
    });
}
