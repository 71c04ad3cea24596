// SPDX-License-Identifier: Apache-2.0
//! Frontends that send what is no request: malformed, cut short, with descriptors that do not belong to it, or of a feature that
//! was not negotiated. The device is asked nothing then, and no descriptor stays.
mod common;

use std::fs::File;
use std::io::{Read, Write};
use std::os::unix::io::AsRawFd;
use std::thread;

use common::device::*;
use common::*;
use covretin::vhost_user::message::FrontendReq;
use covretin::vhost_user::{Error, Profile, Result};

const NOT_NOW: &str = "InvalidOperation(\"postcopy is in another state\")";
const NOT_SERVED: &str = "InvalidOperation(\"nobody serves it\")";

/// The requests of the specification that this library does not serve; and those of them that have a reply of their own.
const UNSERVED: [u32; 9] = [7, 19, 22, 23, 26, 27, 35, 39, 40];
const UNSERVED_AWAITED: [u32; 2] = [26, 40];

/// Regions as SET_MEM_TABLE has them: so many, each of a size.
fn table(count: u32, sizes: &[u64]) -> Vec<u8> {
    let mut body = u64::from(count).to_le_bytes().to_vec();
    for size in sizes {
        body.extend([0, *size, 0x1000, 0].iter().flat_map(|it: &u64| it.to_le_bytes()));
    }
    body
}

/// One region by itself.
fn single(guest: u64, size: u64) -> Vec<u8> {
    [0, guest, size, 0x1000, 0].iter().flat_map(|it| it.to_le_bytes()).collect()
}

/// The size of each request's body, and how many descriptors it has.
fn shapes() -> Vec<(u32, usize, usize)> {
    vec![
        (1, 0, 0),
        (2, 8, 0),
        (3, 0, 0),
        (4, 0, 0),
        (5, 40, 1),
        (6, 16, 1),
        (8, 8, 0),
        (9, 40, 0),
        (10, 8, 0),
        (11, 8, 0),
        (12, 8, 1),
        (13, 8, 1),
        (14, 8, 1),
        (15, 0, 0),
        (16, 8, 0),
        (17, 0, 0),
        (18, 8, 0),
        (20, 8, 0),
        (24, 16, 0),
        (25, 16, 0),
        (31, 24, 0),
        (32, 24, 1),
        (34, 0, 0),
        (36, 0, 0),
        (37, 40, 1),
        (38, 40, 0),
        (41, 16, 0),
        (42, 8, 1),
    ]
}

/// What a request that was refused before the device was asked leaves: its error, and what was replied.
fn unasked(features: u64, request: &[u8], files: &[File]) -> (Result<()>, Vec<u8>) {
    let device = Shared::default();
    let (result, reply) = one_request(&device, features, request, &files.iter().collect::<Vec<_>>());
    assert_eq!([""; 0], *seen(&device).asked, "the device was asked, by {request:02x?}");
    (result, reply)
}

/// The reply by which a request is refused that has one for it; nothing of any other, which wants no acknowledgement.
fn refusal_of(request: &[u8]) -> Vec<u8> {
    let (code, body) = (u32::from(request[0]), &request[12..]);
    let refusal = match code {
        24 if body.len() >= 12 => [&body[..4], &[0; 4], &body[8..12]].concat(),
        24 => vec![0; 12],
        31 if body.len() >= 24 => [&[0; 8], &body[8..20], &[0; 4]].concat(),
        31 => vec![0; 24],
        28 | 41 => vec![],
        30 => 1u64.to_le_bytes().to_vec(),
        42 => 0x101u64.to_le_bytes().to_vec(),
        _ => return vec![],
    };
    message(code, REPLIES, &refusal)
}

/// That this request is refused so: by its own reply, where that has a form for it.
#[track_caller]
fn refused(wanted: &str, features: u64, request: &[u8], files: &[File]) {
    assert_eq!(refusal_of(request), refused_somehow(wanted, features, request, files));
}

/// The same of one that is no request, so that nothing is replied.
#[track_caller]
fn refused_unread(wanted: &str, features: u64, request: &[u8], files: &[File]) {
    assert_eq!([0; 0], *refused_somehow(wanted, features, request, files));
}

#[track_caller]
fn refused_somehow(wanted: &str, features: u64, request: &[u8], files: &[File]) -> Vec<u8> {
    let (result, reply) = unasked(features, request, files);
    match result {
        Ok(()) => panic!("wanted {wanted}, and it was served: {request:02x?}"),
        Err(error) => assert_eq!(wanted, name(&error), "{request:02x?} with {} descriptors", files.len()),
    }
    reply
}

/// The same of one that wanted to be acknowledged: it was, by 1.
#[track_caller]
fn refused_and_told(wanted: &str, code: u32, body: &[u8], files: &[File]) {
    let (result, reply) = unasked(ALL, &message(code, WANTS, body), files);
    assert_eq!(wanted, name(&result.unwrap_err()));
    assert_eq!(message(code, REPLIES, &1u64.to_le_bytes()), reply);
}

fn some_files(count: usize) -> Vec<File> {
    (0..count).map(|_| memory_file()).collect()
}

#[test]
fn headers_that_are_none() {
    counted(|| {
        // A reply, version 0 and 2, a bit that is reserved.
        for (code, flags) in [(3, 5), (3, 0), (3, 2), (3, 0x11), (3, 0x8000_0001)] {
            refused("InvalidMessage", ALL, &message(code, flags, &[]), &[]);
        }
    });
}

/// A header that announces more than a message may have is refused before its body is read.
#[test]
fn bodies_beyond_the_greatest() {
    counted(|| {
        for size in [4097, 0x7fff_ffff, u32::MAX] {
            refused("InvalidMessage", ALL, &announced(25, ASKS, size, &[0; 16]), &[]);
        }
    });
}

/// They are refused, which is replied where they ask for it, and the connection goes on.
#[test]
fn requests_that_nobody_serves() {
    counted(|| {
        let device = Shared::default();
        let (mut handler, peer) = handled(&device);
        agree_by_hand(&device, &mut handler, &peer, ALL);
        for code in UNSERVED.into_iter().filter(|code| !UNSERVED_AWAITED.contains(code)) {
            for flags in [ASKS, WANTS] {
                peer.say(&message(code, flags, &[0; 8]), &[]);
                assert_eq!(NOT_SERVED, name(&handler.handle_request().unwrap_err()), "{code}");
            }
            peer.hear(&message(code, REPLIES, &1u64.to_le_bytes()));
        }
        // SET_LOG_FD brings a descriptor, which is closed; so are those of a number that is no request's.
        peer.say(&message(7, ASKS, &[]), &[&memory_file()]);
        assert_eq!(NOT_SERVED, name(&handler.handle_request().unwrap_err()));
        for code in [0, 45, 256, u32::MAX] {
            peer.say(&message(code, WANTS, &[0; 5]), &[&memory_file(), &memory_file()]);
            assert_eq!(NOT_SERVED, name(&handler.handle_request().unwrap_err()), "{code}");
            peer.hear(&message(code, REPLIES, &1u64.to_le_bytes()));
        }
        assert_eq!([""; 0], *seen(&device).asked);
        peer.say(&message(3, ASKS, &[]), &[]);
        handler.handle_request().unwrap();
    });
}

/// A request of any number that has no call of its own is the device's, whole, and acknowledged as it says; what it does not keep is closed.
#[test]
fn other_requests_are_the_device_s() {
    counted(|| {
        let device = Shared::default();
        let (mut handler, peer) = handled(&device);
        agree_by_hand(&device, &mut handler, &peer, ALL);
        seen(&device).serves_others = true;
        peer.say(&message(600, WANTS, &[9, 8]), &[&memory_file(), &memory_file()]);
        handler.handle_request().unwrap();
        peer.hear(&message(600, REPLIES, &0u64.to_le_bytes()));
        assert_eq!(2, seen(&device).files.len());
        peer.say(&message(19, ASKS, &[]), &[]);
        handler.handle_request().unwrap();
        seen(&device).refuses = true;
        peer.say(&message(u32::MAX, WANTS, &[7]), &[&memory_file()]);
        assert_eq!("MemFdSealError", name(&handler.handle_request().unwrap_err()));
        peer.hear(&message(u32::MAX, REPLIES, &1u64.to_le_bytes()));
        seen(&device).refuses = false;
        assert_eq!(["other 600 [9, 8]", "other 19 []", "other 4294967295 [7]"], *seen(&device).asked);
        peer.say(&message(3, ASKS, &[]), &[]);
        handler.handle_request().unwrap();
    });
}

/// Where a frontend waits and no reply refuses its request, it is hung up on at once, and each later call says so. What it sent before is
/// replied to.
#[test]
fn who_would_wait_in_vain_is_hung_up_on() {
    counted(|| {
        let unserved = UNSERVED_AWAITED.map(|code| (code, vec![0; 8], NOT_SERVED));
        let others = [
            (17, vec![], "InactiveOperation(0x1)"),
            (11, vec![0; 4], "InvalidMessage"),
            (6, vec![1; 16], "IncorrectFds"),
            (29, vec![], NOT_NOW),
        ];
        for (code, body, wanted) in unserved.into_iter().chain(others) {
            let device = Shared::default();
            let (mut handler, peer) = handled(&device);
            agree_by_hand(&device, &mut handler, &peer, ALL & !1);
            peer.say(&message(1, ASKS, &[]), &[]);
            peer.say(&message(code, ASKS, &body), &[]);
            handler.handle_request().unwrap();
            assert_eq!(wanted, name(&handler.handle_request().unwrap_err()), "{code}");
            peer.hear(&message(1, REPLIES, &PROTOCOL.to_le_bytes()));
            assert!(peer.is_hung_up(), "{code}");
            for _ in 0..2 {
                assert_eq!("SocketBroken(71)", name(&handler.handle_request().unwrap_err()));
            }
            assert_eq!(["get_features"], *seen(&device).asked);
        }
    });
}

/// Which request was refused is told: of one that nobody serves, of one that lacks a feature, of no request's number, and of one that
/// came in part.
#[test]
fn which_request_was_refused() {
    counted(|| {
        let device = Shared::default();
        let (mut handler, peer) = handled(&device);
        assert_eq!(None, handler.last_request());
        agree_by_hand(&device, &mut handler, &peer, ALL & !0x200);
        assert_eq!(Some(16), handler.last_request());
        peer.say(&message(39, ASKS, &[0; 8]), &[]);
        assert_eq!(NOT_SERVED, name(&handler.handle_request().unwrap_err()));
        assert_eq!(Some(Ok(FrontendReq::SET_STATUS)), handler.last_request().map(FrontendReq::try_from));
        peer.say(&message(25, ASKS, &[]), &[]);
        assert_eq!("InactiveOperation(0x200)", name(&handler.handle_request().unwrap_err()));
        assert_eq!(Some(25), handler.last_request());
        peer.say(&message(45, WANTS, &[0; 8]), &[]);
        assert_eq!(NOT_SERVED, name(&handler.handle_request().unwrap_err()));
        assert_eq!(Some(45), handler.last_request());
        for (size, wanted) in [(3, None), (4, Some(12)), (12, Some(12))] {
            let (mut handler, peer) = handled(&device);
            peer.say(&message(12, ASKS, &[0; 8])[..size], &[]);
            drop(peer);
            assert!(handler.handle_request().is_err());
            assert_eq!(wanted, handler.last_request());
        }
    });
}

/// As the crate has them: without a reply, and the connection ends.
#[test]
fn requests_that_nobody_serves_under_the_crates_profile() {
    counted(|| {
        for code in UNSERVED {
            let device = Shared::default();
            let (mut handler, peer) = handled(&device);
            handler.set_profile(Profile::Vhost);
            agree_by_hand(&device, &mut handler, &peer, ALL);
            peer.say(&message(code, WANTS, &[0; 8]), &[]);
            assert_eq!("InvalidMessage", name(&handler.handle_request().unwrap_err()), "{code}");
            assert_eq!("SocketBroken(71)", name(&handler.handle_request().unwrap_err()));
            drop(handler);
            peer.silence();
        }
    });
}

/// What real frontends do, and the crate refuses: a ring is enabled where PROTOCOL_FEATURES was offered and not accepted, and a memory
/// table has places that it does not use.
#[test]
fn what_the_profiles_refuse() {
    counted(|| {
        for (profile, refusals) in
            [(Profile::Standard, ["", ""]), (Profile::Vhost, ["InactiveFeature(0x40000000)", "InvalidMessage"])]
        {
            let device = Shared::default();
            let (mut handler, peer) = handled(&device);
            handler.set_profile(profile);
            peer.say(&message(1, ASKS, &[]), &[]);
            handler.handle_request().unwrap();
            peer.hear(&message(1, REPLIES, &PROTOCOL.to_le_bytes()));
            let mut long = table(1, &[0x1000]);
            long.extend([0; 7 * 32]);
            let file = memory_file();
            let requests = [(message(18, ASKS, &[0, 0, 0, 0, 1, 0, 0, 0]), None), (message(5, ASKS, &long), Some(&file))];
            for ((request, file), refusal) in requests.iter().zip(refusals) {
                peer.say(request, &file.iter().copied().collect::<Vec<_>>());
                match handler.handle_request() {
                    Ok(()) => assert_eq!("", refusal),
                    Err(error) => assert_eq!(refusal, name(&error)),
                }
            }
            let asked = ["get_features", "set_vring_enable 0 true", "set_mem_table 0x0 0x1000 0x1000 0x0 Some(false)"];
            let count = if profile == Profile::Standard { 3 } else { 1 };
            assert_eq!(asked[..count], *seen(&device).asked);
        }
    });
}

/// After a malformed request the connection is broken, whatever comes.
#[test]
fn a_malformed_request_ends_the_connection() {
    counted(|| {
        let device = Shared::default();
        let (mut handler, peer) = handled(&device);
        // Version 2.
        peer.say(&message(1, 2, &[]), &[]);
        peer.say(&message(1, ASKS, &[]), &[]);
        assert_eq!("InvalidMessage", name(&handler.handle_request().unwrap_err()));
        // EPROTO.
        assert_eq!("SocketBroken(71)", name(&handler.handle_request().unwrap_err()));
        assert_eq!([""; 0], *seen(&device).asked);
    });
}

/// Each request with a body of another size.
#[test]
fn sizes_that_are_not_the_requests() {
    counted(|| {
        for (code, size, count) in shapes() {
            let sizes: Vec<usize> = match code {
                5 | 24 | 25 => vec![0, 7, 8, 11, 12],
                _ => vec![size + 1, size + 8, size.wrapping_sub(1)],
            };
            for size in sizes.into_iter().filter(|size| *size <= 4096) {
                refused("InvalidMessage", ALL, &message(code, ASKS, &vec![1; size]), &some_files(count));
            }
        }
    });
}

/// Each request that has no descriptor, with one; but for REM_MEM_REG, where it is closed.
#[test]
fn descriptors_where_none_belong() {
    counted(|| {
        for (code, size, count) in shapes() {
            if count == 0 && code != 38 {
                refused_unread("InvalidMessage", ALL, &message(code, ASKS, &vec![0; size]), &some_files(1));
            }
        }
        let device = Shared::default();
        let file = memory_file();
        let (result, reply) = one_request(&device, ALL, &message(38, ASKS, &single(0, 0x1000)), &[&file]);
        result.unwrap();
        assert!(reply.is_empty() && seen(&device).files.is_empty());
        assert_eq!(["remove_mem_region 0x0 0x1000 0x1000 0x0"], *seen(&device).asked);
    });
}

/// Each request that has a descriptor without one, and with two.
#[test]
fn descriptors_too_few_or_too_many() {
    counted(|| {
        for (code, body) in [(12, 0u64), (13, 1), (14, 255)] {
            for count in [0, 2, 32] {
                refused("InvalidMessage", ALL, &message(code, ASKS, &body.to_le_bytes()), &some_files(count));
            }
        }
        for count in [0, 2, 32] {
            refused("InvalidMessage", ALL, &message(5, ASKS, &table(1, &[0x1000])), &some_files(count));
            refused("InvalidMessage", ALL, &message(21, ASKS, &[]), &some_files(count));
            refused("InvalidMessage", ALL, &message(33, ASKS, &[]), &some_files(count));
            refused("IncorrectFds", ALL, &message(6, ASKS, &[1; 16]), &some_files(count));
            refused("IncorrectFds", ALL, &message(32, ASKS, &[1; 24]), &some_files(count));
            refused("IncorrectFds", ALL, &message(42, ASKS, &[0; 8]), &some_files(count));
            refused("InvalidParam", ALL, &message(37, ASKS, &single(0, 0x1000)), &some_files(count));
        }
    });
}

/// Bit 8 of the number says that there is no descriptor, and then there is none.
#[test]
fn rings_without_a_descriptor() {
    counted(|| {
        for (code, asked) in [(12, "set_vring_kick"), (13, "set_vring_call"), (14, "set_vring_err")] {
            let device = Shared::default();
            one_request(&device, ALL, &message(code, ASKS, &0x103u64.to_le_bytes()), &[]).0.unwrap();
            assert_eq!([format!("{asked} 3")], *seen(&device).asked);
            assert!(seen(&device).files.is_empty());
            refused("InvalidMessage", ALL, &message(code, ASKS, &0x103u64.to_le_bytes()), &some_files(1));
        }
    });
}

/// 33 are more than a message has: the connection ends.
#[test]
fn more_descriptors_than_a_message_has() {
    counted(|| {
        let device = Shared::default();
        let (mut handler, peer) = handled(&device);
        let files = some_files(33);
        let before = open_fds();
        peer.say(&message(5, ASKS, &table(1, &[0x1000])), &files.iter().collect::<Vec<_>>());
        assert_eq!("IncorrectFds", name(&handler.handle_request().unwrap_err()));
        assert_eq!(before, open_fds());
        assert_eq!("SocketBroken(71)", name(&handler.handle_request().unwrap_err()));
    });
}

#[test]
fn memory_tables_that_are_not_valid() {
    counted(|| {
        for (count, sizes) in [(0, vec![]), (33, vec![1; 33]), (2, vec![1]), (1, vec![1, 1]), (1, vec![0]), (1, vec![u64::MAX])] {
            let files = some_files(sizes.len().min(32));
            refused("InvalidMessage", ALL, &message(5, ASKS, &table(count, &sizes)), &files);
            refused_and_told("InvalidMessage", 5, &table(count, &sizes), &files);
        }
    });
}

#[test]
fn records_that_are_not_valid() {
    counted(|| {
        refused("InvalidMessage", ALL, &message(41, ASKS, &[0; 16]), &[]);
        refused("InvalidMessage", ALL, &message(41, ASKS, &[0xff; 16]), &[]);
        refused("InvalidMessage", ALL, &message(6, ASKS, &[0; 16]), &some_files(1));
        refused("InvalidMessage", ALL, &message(6, ASKS, &[0xff; 16]), &some_files(1));
        refused("InvalidMessage", ALL, &message(31, ASKS, &[0; 24]), &[]);
        refused("InvalidMessage", ALL, &message(9, ASKS, &[0xff; 40]), &[]);
        refused("InvalidMessage", ALL, &message(42, ASKS, &[2, 0, 0, 0, 0, 0, 0, 0]), &some_files(1));
        refused("InvalidMessage", ALL, &message(42, ASKS, &[0, 0, 0, 0, 1, 0, 0, 0]), &some_files(1));
        refused("InvalidParam", ALL, &message(18, ASKS, &[0, 0, 0, 0, 2, 0, 0, 0]), &[]);
        // The configuration space: no bytes, beyond its end, a flag that there is not, another size than the request's.
        for body in ["00000000 00000000 00000000", "ff0f0000 02000000 00000000 0000", "00000000 01000000 04000000 00"] {
            refused("InvalidMessage", ALL, &message(24, ASKS, &hex(body)), &[]);
            refused_and_told("InvalidMessage", 25, &hex(body), &[]);
        }
        refused("InvalidMessage", ALL, &message(24, ASKS, &hex("00000000 02000000 00000000 00")), &[]);
    });
}

/// Each request of a feature that was not accepted, but that of the feature itself.
#[test]
fn features_that_were_not_negotiated() {
    let wants = [
        (17, 0x1),
        (6, 0x2),
        (20, 0x10),
        (21, 0x20),
        (28, 0x100),
        (29, 0x100),
        (30, 0x100),
        (24, 0x200),
        (25, 0x200),
        (31, 0x1000),
        (32, 0x1000),
        (34, 0x2000),
        (36, 0x8000),
        (37, 0x8000),
        (38, 0x8000),
        (41, 0x4_0000),
        (44, 0x40_0000),
    ];
    counted(|| {
        for (code, feature) in wants {
            let (_, size, count) = shapes().into_iter().find(|it| it.0 == code).unwrap_or((code, 0, usize::from(code == 21)));
            let wanted = format!("InactiveOperation({feature:#x})");
            refused(&wanted, ALL & !feature, &message(code, ASKS, &vec![0; size]), &some_files(count));
        }
        let device = Shared::default();
        let (mut handler, peer) = handled(&device);
        peer.say(&message(18, ASKS, &[0; 8]), &[]);
        assert_eq!("InactiveFeature(0x40000000)", name(&handler.handle_request().unwrap_err()));
        // It goes on.
        peer.say(&message(3, ASKS, &[]), &[]);
        handler.handle_request().unwrap();
        assert_eq!(["set_owner"], *seen(&device).asked);
    });
}

/// Postcopy goes one way: advised, listening, ended.
#[test]
fn postcopy_in_another_state() {
    counted(|| {
        let device = Shared::default();
        seen(&device).gives = Some(memory_file());
        let (mut handler, peer) = handled(&device);
        agree_by_hand(&device, &mut handler, &peer, ALL);
        let wrong = NOT_NOW;
        for (code, wanted) in
            [(29, wrong), (30, wrong), (28, ""), (28, wrong), (30, wrong), (29, ""), (28, wrong), (30, ""), (30, wrong)]
        {
            peer.say(&message(code, WANTS, &[]), &[]);
            match handler.handle_request() {
                Ok(()) => assert_eq!(wanted, "", "{code}"),
                Err(error) => assert_eq!(wanted, name(&error), "{code}"),
            }
            let reply = if code == 28 { vec![] } else { u64::from(wanted == wrong).to_le_bytes().to_vec() };
            let files = peer.hear(&message(code, REPLIES, &reply));
            assert_eq!(usize::from(code == 28 && wanted != wrong), files.len());
        }
        assert_eq!(["postcopy_advice", "postcopy_listen", "postcopy_end"], *seen(&device).asked);
    });
}

/// A frontend that says that it could not map the regions.
#[test]
fn an_acknowledgement_that_is_a_refusal() {
    counted(|| {
        let device = Shared::default();
        seen(&device).gives = Some(memory_file());
        let (mut handler, peer) = handled(&device);
        agree_by_hand(&device, &mut handler, &peer, ALL);
        for code in [28, 29] {
            peer.say(&message(code, ASKS, &[]), &[]);
            handler.handle_request().unwrap();
        }
        for code in [5, 37, 38] {
            peer.say(&message(code, ASKS, &1u64.to_le_bytes()), &[]);
            assert_eq!("FrontendInternalError", name(&handler.handle_request().unwrap_err()));
            peer.say(&message(code, ASKS, &0u64.to_le_bytes()), &[]);
            handler.handle_request().unwrap();
        }
        let acknowledged = ["postcopy_ack_mem_regions"; 3];
        assert_eq!(acknowledged, seen(&device).asked[2..]);
        peer.hear(&message(28, REPLIES, &[]));
    });
}

/// The stream ends at each byte of a request, with a descriptor on its first.
#[test]
fn an_end_at_each_byte() {
    counted(|| {
        let request = message(12, ASKS, &[0; 8]);
        for at in 1..request.len() {
            let wanted = if at < 12 { "PartialMessage" } else { "InvalidMessage" };
            refused_unread(wanted, ALL, &request[..at], &some_files(1));
        }
        let device = Shared::default();
        let (mut handler, peer) = handled(&device);
        drop(peer);
        // Between two requests: however often it is asked.
        for _ in 0..3 {
            assert!(matches!(handler.handle_request(), Err(Error::Disconnected)));
        }
    });
}

/// A request in two pieces, cut at each byte, and one in pieces of a byte.
#[test]
fn a_cut_at_each_byte() {
    counted(|| {
        let request = message(12, WANTS, &3u64.to_le_bytes());
        for at in 1..=request.len() {
            let device = Shared::default();
            let (mut handler, peer) = handled(&device);
            agree_by_hand(&device, &mut handler, &peer, ALL);
            let file = memory_file();
            thread::scope(|scope| {
                scope.spawn(|| {
                    let (first, second) = request.split_at(at);
                    peer.say(first, &[&file]);
                    let pieces: Vec<_> = if at == 1 { second.chunks(1).collect() } else { vec![second] };
                    for piece in pieces {
                        thread::yield_now();
                        (&peer.socket).write_all(piece).unwrap();
                    }
                    peer.hear(&message(12, REPLIES, &[0; 8]));
                });
                handler.handle_request().unwrap();
            });
            assert_eq!(["set_vring_kick 3"], *seen(&device).asked);
            assert_eq!(identity(&file), identity(&seen(&device).files[0]));
        }
    });
}

/// Descriptors on a request's body refuse it. Within the header the system does not say on which byte they came: there the
/// request is served or refused, and they are closed as well.
#[test]
fn descriptors_behind_the_first_byte() {
    counted(|| {
        for at in 1..20 {
            let device = Shared::default();
            let (mut handler, peer) = handled(&device);
            agree_by_hand(&device, &mut handler, &peer, ALL);
            let request = message(8, ASKS, &[0; 8]);
            peer.say(&request[..at], &[]);
            peer.say(&request[at..], &[&memory_file(), &memory_file()]);
            let result = handler.handle_request();
            match result {
                Ok(()) if at < 12 => assert_eq!(["set_vring_num 0 0"], *seen(&device).asked),
                result => {
                    assert_eq!("InvalidMessage", name(&result.unwrap_err()), "at {at}");
                    assert_eq!([""; 0], *seen(&device).asked);
                }
            }
        }
    });
}

/// However many come behind the first byte, none stays open while the rest of the request is awaited, but that of the first byte.
#[test]
fn many_descriptors_behind_the_first_byte() {
    counted(|| {
        let device = Shared::default();
        let (mut handler, peer) = handled(&device);
        agree_by_hand(&device, &mut handler, &peer, ALL);
        handler.try_clone_connection().unwrap().set_nonblocking(true).unwrap();
        let (own, others) = (memory_file(), some_files(32));
        let before = open_fds();
        let request = message(12, ASKS, &[0; 8]);
        peer.say(&request[..1], &[&own]);
        for byte in &request[1..19] {
            peer.say(&[*byte], &others.iter().collect::<Vec<_>>());
            assert!(matches!(handler.handle_request(), Err(Error::SocketRetry(_))));
            assert_eq!(before + 1, open_fds());
        }
        peer.say(&request[19..], &[]);
        assert_eq!("InvalidMessage", name(&handler.handle_request().unwrap_err()));
        assert_eq!([""; 0], *seen(&device).asked);
        assert_eq!(before, open_fds());
    });
}

/// Requests that come at once: each has its own descriptor, and nothing is read beyond the one that is served.
#[test]
fn what_is_behind_a_request() {
    counted(|| {
        let device = Shared::default();
        let (mut handler, peer) = handled(&device);
        agree_by_hand(&device, &mut handler, &peer, ALL);
        let files = some_files(3);
        for (code, file) in [12, 13, 14].into_iter().zip(&files) {
            peer.say(&message(code, ASKS, &[0; 8]), &[file]);
        }
        peer.say(b"behind", &[]);
        let mut rest = handler.try_clone_connection().unwrap();
        for count in 1..=3 {
            handler.handle_request().unwrap();
            assert_eq!(count, seen(&device).files.len());
        }
        assert_eq!(["set_vring_kick 0", "set_vring_call 0", "set_vring_err 0"], *seen(&device).asked);
        let came: Vec<_> = seen(&device).files.iter().map(identity).collect();
        assert_eq!(files.iter().map(identity).collect::<Vec<_>>(), came);
        drop(handler);
        peer.socket.shutdown(std::net::Shutdown::Write).unwrap();
        let mut text = String::new();
        rest.read_to_string(&mut text).unwrap();
        assert_eq!("behind", text);
    });
}

/// A frontend that lengthens a request to hide another one in it, with a descriptor, gets no call to take that.
#[test]
fn a_request_within_a_request() {
    counted(|| {
        let device = Shared::default();
        let (mut handler, peer) = handled(&device);
        agree_by_hand(&device, &mut handler, &peer, ALL);
        let mut body = vec![0; 8];
        body.extend(message(12, ASKS, &[0; 8]));
        let request = message(8, ASKS, &body);
        peer.say(&request[..20], &[]);
        peer.say(&request[20..], &[&memory_file()]);
        assert_eq!("InvalidMessage", name(&handler.handle_request().unwrap_err()));
        assert_eq!("SocketBroken(71)", name(&handler.handle_request().unwrap_err()));
        assert_eq!([""; 0], *seen(&device).asked);
    });
}

/// What a device was given is its own, works, and does not pass to a program that is executed. All else is closed at once.
#[test]
fn a_file_that_comes_is_the_devices() {
    counted(|| {
        let device = Shared::default();
        let (mut handler, peer) = handled(&device);
        agree_by_hand(&device, &mut handler, &peer, ALL);
        let mut file = memory_file();
        file.write_all(b"shared").unwrap();
        peer.say(&message(12, ASKS, &[0; 8]), &[&file]);
        handler.handle_request().unwrap();
        drop((handler, peer));
        let mut device = seen(&device);
        let came = device.files.pop().unwrap();
        let mut bytes = [0; 6];
        std::os::unix::fs::FileExt::read_exact_at(&came, &mut bytes, 0).unwrap();
        assert_eq!(b"shared", &bytes);
        // SAFETY: it asks for the flags of a descriptor.
        assert_eq!(libc::FD_CLOEXEC, unsafe { libc::fcntl(came.as_raw_fd(), libc::F_GETFD) });
    });
}

/// Requests with files, served and refused, many times over one connection.
#[test]
fn no_request_leaves_one_open() {
    counted(|| {
        let device = Shared::default();
        let (mut handler, peer) = handled(&device);
        agree_by_hand(&device, &mut handler, &peer, ALL);
        for round in 0..300 {
            seen(&device).files.clear();
            let files = some_files(1);
            let before = open_fds();
            match round % 3 {
                0 => peer.say(&message(12, ASKS, &[0; 8]), &[&files[0]]),
                1 => peer.say(&message(32, ASKS, &[1; 24]), &[&files[0], &files[0]]),
                _ => peer.say(&message(37, ASKS, &single(0, 0x1000)), &[&files[0], &files[0], &files[0]]),
            }
            let served = handler.handle_request().is_ok();
            assert_eq!(round % 3 == 0, served);
            assert_eq!(before + usize::from(served), open_fds());
        }
    });
}
