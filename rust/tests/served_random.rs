// SPDX-License-Identifier: Apache-2.0
//! Requests that are changed at random, always the same: no call panics, waits for ever, or leaves a descriptor open, and the device
//! is asked once for a request that is served, and at most once for one that it refuses.
mod common;

use std::fs::File;
use std::net::Shutdown;

use common::device::*;
use common::random::*;
use common::*;
use covretin::vhost_user::Error;

/// Requests that are served, and how many descriptors each has.
fn requests() -> Vec<(Vec<u8>, usize)> {
    let request = |code: u32, body: &str| message(code, WANTS, &hex(body));
    let region = "0000000000000000 0010000000000000 0000007000000000 0000000000000000";
    vec![
        (request(1, ""), 0),
        (request(2, "0000004000000000"), 0),
        (request(3, ""), 0),
        (request(5, &format!("0200000000000000 {region} {region}")), 2),
        (request(6, "0010000000000000 0000000000000000"), 1),
        (request(8, "01000000 00010000"), 0),
        (request(9, "01000000 00000000 0010000000000000 0020000000000000 0030000000000000 0000000000000000"), 0),
        (request(12, "0100000000000000"), 1),
        (request(13, "0101000000000000"), 0),
        (request(17, ""), 0),
        (request(18, "00000000 01000000"), 0),
        (request(24, "10000000 08000000 00000000 0000000000000000"), 0),
        (request(25, "10000000 03000000 00000000 010203"), 0),
        (request(31, "0000000000000000 0000000000000000 0100 0100 00000000"), 0),
        (request(32, "0010000000000000 0000000000000000 0100 0100 00000000"), 1),
        (request(37, &format!("0000000000000000 {region}")), 1),
        (request(38, &format!("0000000000000000 {region}")), 0),
        (request(41, "10101010 10101010 10101010 10101010"), 0),
        (request(42, "00000000 00000000"), 1),
        (request(44, ""), 0),
    ]
}

/// Plays one request: how that ended, and how often the device was asked.
fn round(device: &Shared, request: &[u8], count: usize) -> (Result<(), String>, usize) {
    let (mut handler, peer) = handled(device);
    agree_by_hand(device, &mut handler, &peer, ALL);
    let files: Vec<File> = (0..count).map(|_| memory_file()).collect();
    if !request.is_empty() {
        peer.say(request, &files.iter().collect::<Vec<_>>());
    }
    peer.socket.shutdown(Shutdown::Write).unwrap();
    let result = handler.handle_request().map_err(|error| name(&error));
    let asked = seen(device).asked.len();
    // What is behind it is another request, or the end; each is an error at last.
    while !matches!(handler.handle_request(), Err(Error::Disconnected | Error::SocketBroken(_) | Error::InvalidMessage)) {}
    seen(device).files.clear();
    seen(device).channels.clear();
    seen(device).displays.clear();
    (result, asked)
}

fn giving() -> Shared {
    let device = Shared::default();
    seen(&device).gives = Some(memory_file());
    device
}

#[test]
fn requests_as_they_are() {
    counted(|| {
        let device = giving();
        for (request, count) in requests() {
            assert_eq!((Ok(()), 1), round(&device, &request, count), "{request:02x?}");
        }
    });
}

#[test]
fn requests_that_are_changed() {
    let refused = ["InvalidMessage", "IncorrectFds", "InvalidParam", "InvalidOperation", "Inactive", "InvalidSocketFd"];
    let wanted = [&refused[..], &["Disconnected", "PartialMessage"]].concat();
    counted(|| {
        let device = giving();
        let mut numbers = Numbers(0x1234_5678_9abc_def1);
        let requests = requests();
        let mut seen = [0; 2];
        for _ in 0..4000 {
            let (mut request, mut count) = requests[numbers.below(requests.len())].clone();
            change(&mut numbers, &mut request, &mut count);
            let before = open_fds();
            match round(&device, &request, count) {
                (Ok(()), asked) => {
                    assert_eq!(1, asked, "{request:02x?}");
                    seen[0] += 1;
                }
                (Err(error), asked) => {
                    assert!(wanted.iter().any(|it| error.starts_with(it)), "{error} for {request:02x?} with {count} descriptors");
                    assert_eq!(0, asked, "{error} for {request:02x?}");
                    seen[1] += 1;
                }
            }
            assert_eq!(before, open_fds(), "{request:02x?} with {count} descriptors");
        }
        assert!(seen[0] > 500 && seen[1] > 1000, "{seen:?}");
    });
}
