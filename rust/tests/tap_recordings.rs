// SPDX-License-Identifier: Apache-2.0
//! What covretin-tap says of recorded sessions of real programs, and of messages that no table has.
mod common;

use std::fs::{read_dir, read_to_string, remove_file, write};
use std::path::{Path, PathBuf};
use std::process::{Command, Output};

use common::tap::*;
use common::*;

fn recordings() -> Vec<PathBuf> {
    let folder = Path::new(env!("CARGO_MANIFEST_DIR")).join("tests/recordings");
    let mut files: Vec<PathBuf> = read_dir(folder).unwrap().map(|it| it.unwrap().path()).collect();
    files.sort();
    files
}

fn name_of(file: &Path) -> String {
    file.file_stem().unwrap().to_str().unwrap().to_string()
}

/// What is wrong with the recording of this name under a profile.
fn wrong_with(name: &str, profile: &str) -> Vec<String> {
    let file = recordings().into_iter().find(|file| name_of(file) == name).unwrap();
    complaints(&tap(&[profile, "--replay", file.to_str().unwrap()]))
}

/// QEMU's storage daemon replies with a half of the record, which real frontends take.
const LOG_REPLY: &str = "24.6846 1 B>F SET_LOG_BASE [REPLY] size=0x2000";
const LOG_DIFFERENCE: &str = "the reply to SET_LOG_BASE has 8 bytes of body, and not 16";

/// Where the recording of a destination ends, whose backend was to map a region for postcopy.
const NO_REPLY: &str = "1.7814 1 no more was seen ~ ADD_MEM_REG is unanswered, as what was seen ended 0.0000 s later";

#[test]
fn real_peers_keep_to_the_table() {
    assert_eq!(15, recordings().len());
    for file in recordings() {
        let name = name_of(&file);
        let output = tap(&["--profile=standard", "--replay", file.to_str().unwrap()]);
        let known = match name.as_str() {
            "mig_native-src" => vec![format!("{LOG_REPLY} ~ {LOG_DIFFERENCE}: not by the letter, taken by Standard")],
            "mig_post-dst" => vec![NO_REPLY.to_string()],
            _ => vec![],
        };
        assert_eq!(known, notes(&output), "{name}");
        assert_eq!(Vec::<String>::new(), complaints(&output), "{name}");
    }
}

#[test]
fn each_known_difference_from_the_crate_is_told_at_its_message() {
    let mut told = 0;
    for file in recordings() {
        let name = name_of(&file);
        let found = wrong_with(&name, "--profile=vhost");
        told += found.len();
        match name.as_str() {
            "mig_native-src" => assert_eq!([format!("{LOG_REPLY} ! {LOG_DIFFERENCE}")], found.as_slice()),
            "br_net4" => {
                assert_eq!(10, found.len());
                for it in &found {
                    assert!(it.contains(" F>B SET_VRING_ENABLE ring="), "{it}");
                    assert!(it.contains(" enable=on ! SET_VRING_ENABLE is refused: PROTOCOL_FEATURES was not accepted;"), "{it}");
                }
            }
            "uml_br_blk2" => {
                assert_eq!(2, found.len());
                let wants =
                    "it wants 40 bytes and 1 descriptor for 1 region, each with a size, and came with 72 bytes and 1 descriptor";
                assert!(
                    found[0].starts_with("3.0860 1 F>B SET_MEM_TABLE [NEED_REPLY] regions=1 [guest=0x10325000"),
                    "{}",
                    found[0]
                );
                assert!(found[0].contains(wants), "{}", found[0]);
                let reply =
                    "3.0865 1 B>F SET_MEM_TABLE [REPLY] result=done ! the reply to SET_MEM_TABLE has result=done, and not \
                             result=failed(1)";
                assert_eq!(reply, found[1]);
            }
            _ => assert_eq!(Vec::<String>::new(), found, "{name}"),
        }
    }
    assert_eq!(13, told);
}

/// Each message of a recording is a line of JSON, with its bytes where they are wanted.
#[test]
fn lines_of_json() {
    for file in recordings() {
        let recorded = read_to_string(&file).unwrap();
        let output = tap(&["--json", "--hex", "--replay", file.to_str().unwrap()]);
        let shown = text(&output.stdout);
        assert!(shown.lines().all(|line| line.starts_with('{') && line.ends_with('}')));
        let bytes = |text: &str| -> Vec<String> {
            let parts =
                text.lines().filter(|line| line.contains("\"code\": ")).filter_map(|line| line.rsplit_once("\"bytes\": \""));
            parts.map(|(_, rest)| rest.split('"').next().unwrap().to_string()).collect()
        };
        assert_eq!(bytes(&recorded), bytes(&shown));
        assert!(shown.lines().last().unwrap().starts_with("{\"summary\": {\"sessions\": "));
        let told =
            "{\"t\": 24.6846, \"session\": 1, \"way\": \"B>F\", \"taken\": \"the reply to SET_LOG_BASE has 8 bytes of body, \
                    and not 16: not by the letter, taken by Standard\"}\n";
        assert_eq!(name_of(&file) == "mig_native-src", shown.contains(told));
    }
}

/// The session on its page is what is printed, line by line.
#[test]
fn the_session_on_its_page() {
    let page = read_to_string(Path::new(env!("CARGO_MANIFEST_DIR")).join("../docs/TAP.md")).unwrap();
    let mut quoted = page
        .lines()
        .skip_while(|line| !line.starts_with("    $ covretin-tap --replay rust/"))
        .map_while(|it| it.strip_prefix("    "));
    let file = quoted.next().unwrap().rsplit_once('/').unwrap().1;
    let output = tap(&["--replay", Path::new(env!("CARGO_MANIFEST_DIR")).join("tests/recordings").join(file).to_str().unwrap()]);
    let shown = text(&output.stdout);
    let mut lines = shown.lines();
    let mut count = 0;
    let mut skips = false;
    for line in quoted {
        if line == ".." {
            skips = true;
            continue;
        }
        let found = if skips { lines.find(|it| *it == line) } else { lines.next() };
        assert_eq!(Some(line), found);
        (skips, count) = (false, count + 1);
    }
    assert!(count > 12);
}

// ---- messages by hand

fn said(code: u32, flags: u32, body: &[u8], fds: usize) -> Said {
    (message(code, flags, body), fds)
}

fn asks(code: u32, body: &[u8]) -> Said {
    said(code, ASKS, body, 0)
}

fn wants(code: u32, body: &[u8]) -> Said {
    said(code, WANTS, body, 0)
}

fn replies(code: u32, body: &[u8]) -> Said {
    said(code, REPLIES, body, 0)
}

fn number(number: u64) -> Vec<u8> {
    number.to_le_bytes().to_vec()
}

/// The two sides agree on these protocol features.
fn agree(features: u64) -> Vec<Said> {
    vec![
        asks(1, &[]),
        replies(1, &number(PROTOCOL)),
        asks(2, &number(PROTOCOL)),
        asks(15, &[]),
        replies(15, &number(features)),
        asks(16, &number(features)),
    ]
}

/// What is wrong with a session behind such an agreement, without what it is about.
#[track_caller]
fn wrong_behind(profile: &str, features: u64, session: &[Said]) -> Vec<String> {
    let whole = [agree(features), session.to_vec()].concat();
    wrong(profile, &whole)
}

#[test]
fn requests_that_are_refused() {
    let ring = [0; 8];
    let rows: [(&str, Said); 13] = [
        ("GET_QUEUE_NUM is refused: MQ was not accepted; no reply says so, so the session ends; nothing behind it is judged", asks(17, &[])),
        (
            "SET_VRING_NUM is refused: it is malformed: it wants 8 bytes and no descriptor, and came with 7 bytes and 0 descriptors; \
             nothing is replied, so the frontend cannot know",
            asks(8, &[0; 7]),
        ),
        (
            "SET_VRING_NUM is refused: it is malformed: it wants 8 bytes and no descriptor, and came with 8 bytes and 1 descriptor; \
             nothing is replied, so the frontend cannot know",
            said(8, ASKS, &ring, 1),
        ),
        (
            "SET_VRING_KICK is refused: it is malformed: it wants 8 bytes and one descriptor, or bit 8 set and none, and came with 8 \
             bytes and 2 descriptors; nothing is replied, so the frontend cannot know",
            said(12, ASKS, &ring, 2),
        ),
        (
            "GPU_SET_SOCKET is refused: it is malformed: it wants one descriptor, and came with 0 bytes and 0 descriptors; it is \
             acknowledged as failed",
            wants(33, &[]),
        ),
        (
            "SET_INFLIGHT_FD is refused: INFLIGHT_SHMFD was not accepted; nothing is replied, so the frontend cannot know",
            said(32, ASKS, &[1; 24], 1),
        ),
        ("no request has the code 200", asks(200, &[])),
        ("SET_OWNER is refused: its version is 2, and not 1; nothing is replied, so the frontend cannot know", said(3, 2, &[], 0)),
        (
            "SET_OWNER is refused: its flags are 0x11, of which bits are reserved; nothing is replied, so the frontend cannot know",
            said(3, 0x11, &[], 0),
        ),
        ("SET_OWNER is refused: 40 descriptors came, and 32 are the most; nothing is replied, so the frontend cannot know", said(3, ASKS, &[], 40)),
        (
            "SET_MEM_TABLE is refused: it is malformed: it wants 1 to 32 regions, and not 0, and came with 8 bytes and 0 descriptors; \
             nothing is replied, so the frontend cannot know",
            asks(5, &ring),
        ),
        ("RESET_DEVICE is refused: RESET_DEVICE was not accepted; nothing is replied, so the frontend cannot know", asks(34, &[])),
        ("POSTCOPY_LISTEN is refused: PAGEFAULT was not accepted; no reply says so, so the session ends; nothing behind it is judged", asks(29, &[])),
    ];
    for (wanted, request) in rows {
        // (the refused request leaves nothing behind)
        let mut session = vec![request];
        if wanted.contains("acknowledged") {
            session.push(replies(33, &number(1)));
        }
        session.extend([wants(3, &[]), replies(3, &number(0))]);
        assert_eq!([wanted], wrong_behind(STANDARD, 8, &session).as_slice());
    }
}

#[test]
fn replies_that_the_table_has_not() {
    let all = ALL;
    let owner = wants(3, &[]);
    let rows: [(&str, Vec<Said>); 10] = [
        (
            "a reply to SET_FEATURES, where one to SET_OWNER is awaited",
            vec![owner.clone(), replies(2, &number(0)), replies(3, &number(0))],
        ),
        ("the reply to SET_OWNER has 4 bytes of body, and not 8", vec![owner.clone(), replies(3, &[0; 4])]),
        ("the reply to SET_OWNER has 1 descriptor, and not 0", vec![owner.clone(), said(3, REPLIES, &number(0), 1)]),
        ("the reply to SET_OWNER has the flags 0x6, and not 0x5", vec![owner.clone(), said(3, 6, &number(0), 0)]),
        ("nobody awaits a reply to SET_OWNER: it was not asked for", vec![asks(3, &[]), replies(3, &number(0))]),
        ("SET_OWNER was not replied to, and later requests go on", vec![owner.clone(), asks(17, &[]), replies(17, &number(2))]),
        ("SET_OWNER was never replied to: the session ended 8.9940 s later", vec![owner]),
        ("the reply to GET_QUEUE_NUM has 4 bytes of body, and not 8", vec![asks(17, &[]), replies(17, &[2, 0, 0, 0])]),
        (
            "the reply to GET_CONFIG has offset=0 size=1 bytes=05, and not offset=4 size=1 bytes=05",
            vec![asks(24, &[4, 0, 0, 0, 1, 0, 0, 0, 0, 0, 0, 0, 0]), replies(24, &[0, 0, 0, 0, 1, 0, 0, 0, 0, 0, 0, 0, 5])],
        ),
        ("the reply to GET_INFLIGHT_FD has 0 descriptors, and not 1", vec![asks(31, &[1; 24]), replies(31, &[1; 24])]),
    ];
    for (wanted, session) in rows {
        assert_eq!([wanted], wrong_behind(STANDARD, all, &session).as_slice());
    }
}

/// A reply to SET_LOG_BASE, of any size: frontends of Standard take it, and the crate's do not. Descriptors and flags are another matter.
#[test]
fn replies_that_are_taken() {
    let asked = said(6, ASKS, &[number(0x1000), number(0)].concat(), 1);
    for (reply, differs) in [
        (number(0x1000), LOG_DIFFERENCE),
        (
            [number(0x2000), number(0)].concat(),
            "the reply to SET_LOG_BASE has size=0x2000 offset=0x0, and not size=0x1000 offset=0x0",
        ),
    ] {
        let session = [asked.clone(), replies(6, &reply)];
        assert_eq!(Vec::<String>::new(), wrong_behind(STANDARD, ALL, &session));
        assert_eq!([differs], wrong_behind(VHOST, ALL, &session).as_slice());
    }
    let session = [asked, said(6, REPLIES, &number(0), 1)];
    assert_eq!(["the reply to SET_LOG_BASE has 1 descriptor, and not 0"], wrong_behind(STANDARD, ALL, &session).as_slice());
}

#[test]
fn what_the_table_has_is_not_told() {
    let region = [number(0), number(0x1000), number(0x7000), number(0)].concat();
    let table = [number(1), region.clone()].concat();
    let mapped = [number(1), number(0), number(0x1000), number(0x55_0000), number(0)].concat();
    let one_mapped = [number(0), number(0), number(0x1000), number(0x55_0000), number(0)].concat();
    let uuid = [0x10; 16];
    let session = vec![
        // a refusal, by whatever number; and a flag that a frontend does not look at
        wants(3, &[]),
        replies(3, &number(0xffff_ffff_ffff_ffea)),
        asks(17, &[]),
        said(17, REPLIES | 8, &number(2), 0),
        // requests that follow each other at once
        asks(3, &[]),
        asks(36, &[]),
        asks(11, &number(1)),
        replies(36, &number(32)),
        replies(11, &number(0x0005_0000_0001)),
        // descriptors
        said(41, ASKS, &uuid, 0),
        said(41, REPLIES, &[], 1),
        asks(41, &uuid),
        replies(41, &[]),
        said(42, ASKS, &number(0), 1),
        replies(42, &number(0x100)),
        said(42, ASKS, &number(1), 1),
        said(42, REPLIES, &number(0), 1),
        asks(43, &[]),
        replies(43, &number(1)),
        asks(44, &[]),
        replies(44, &[number(1), vec![7; 2048]].concat()),
        // reserved bytes
        asks(31, &[1; 24]),
        said(31, REPLIES, &[1; 24], 1),
        // postcopy
        asks(28, &[]),
        said(28, REPLIES, &[], 1),
        wants(29, &[]),
        replies(29, &number(0)),
        said(5, WANTS, &table, 1),
        replies(5, &mapped),
        asks(5, &number(0)),
        said(37, WANTS, &[number(0), region].concat(), 1),
        replies(37, &one_mapped),
        asks(37, &number(0)),
        wants(30, &[]),
        replies(30, &number(0)),
        // the configuration space, refused as the crate and as the specification do it
        asks(24, &[4, 0, 0, 0, 1, 0, 0, 0, 0, 0, 0, 0, 0]),
        replies(24, &[4, 0, 0, 0, 0, 0, 0, 0, 0, 0, 0, 0]),
        asks(24, &[4, 0, 0, 0, 1, 0, 0, 0, 0, 0, 0, 0, 0]),
        replies(24, &[]),
    ];
    assert_eq!(Vec::<String>::new(), wrong_behind(STANDARD, ALL, &session));
    let empty = "the reply to GET_CONFIG has 0 bytes of body, and not 12";
    assert_eq!([empty], wrong_behind(VHOST, ALL, &session).as_slice());
}

/// A backend that has no acknowledgements need not say that it has; one that sends them all the same is told.
#[test]
fn acknowledgements_that_were_not_agreed_on() {
    assert_eq!(Vec::<String>::new(), wrong_behind(STANDARD, 1, &[wants(3, &[])]));
    let unasked = "nobody awaits a reply to SET_OWNER: REPLY_ACK was not agreed on";
    assert_eq!([unasked], wrong_behind(STANDARD, 1, &[wants(3, &[]), replies(3, &number(0))]).as_slice());
}

/// Requests that this library has no table for: whatever the backend makes of them is right, but they are acknowledged.
#[test]
fn requests_that_are_not_served() {
    let session = [
        wants(39, &number(1)),
        replies(39, &number(0)),
        wants(22, &[0; 32]),
        replies(22, &number(1)),
        asks(19, &number(1)),
        asks(40, &[]),
        replies(40, &number(0xf)),
        asks(26, &[0; 64]),
        replies(26, &[0; 64]),
    ];
    assert_eq!(Vec::<String>::new(), wrong_behind(STANDARD, ALL, &session));
    let unanswered = "IOTLB_MSG was never replied to: the session ended 8.9940 s later";
    assert_eq!([unanswered], wrong_behind(STANDARD, ALL, &[wants(22, &[0; 32])]).as_slice());
    let refused = "IOTLB_MSG is refused: nobody serves it; nothing is replied, though the frontend waits for it";
    assert_eq!([refused], wrong_behind(VHOST, ALL, &[wants(22, &[0; 32])]).as_slice());
}

/// A frontend that does not wait for what it asked, and goes on.
#[test]
fn many_requests_behind_one() {
    let mut session = vec![wants(3, &[])];
    session.extend(vec![asks(3, &[]); 1030]);
    session.push(asks(17, &[]));
    session.push(replies(17, &number(1)));
    assert_eq!(["SET_OWNER was not replied to, and later requests go on"], wrong_behind(STANDARD, ALL, &session).as_slice());
}

/// What a backend replies to a request that the table refuses in silence is its own matter, as the request was told.
#[test]
fn a_refused_request_that_is_replied_to() {
    let session = [asks(17, &[]), replies(17, &number(1)), asks(1, &[]), replies(1, &number(PROTOCOL))];
    assert_eq!(1, wrong_behind(VHOST, 8, &session).len());
    assert_eq!(1, wrong_behind(STANDARD, 8, &session).len());
}

/// What a backend refuses by the reply of its request is no fault of it.
#[test]
fn a_reply_that_refuses() {
    let inflight = hex("0000000000000000 0000000000000000 0100 0001 00000000");
    let session = [asks(31, &inflight), replies(31, &inflight), asks(41, &[1; 16]), replies(41, &[]), asks(3, &[])];
    assert_eq!(Vec::<String>::new(), wrong_behind(STANDARD, ALL, &session));
    let refused = "GET_INFLIGHT_FD is refused: INFLIGHT_SHMFD was not accepted; its reply says so";
    assert_eq!([refused], wrong_behind(STANDARD, 8, &session[..2]).as_slice());
}

/// The messages of a recording.
fn messages_of(file: &Path) -> Vec<Said> {
    let recorded = read_to_string(file).unwrap();
    let messages = recorded.lines().filter_map(|line| Some((line, line.split_once("\"bytes\": \"")?.1)));
    let fds = |line: &str| line.matches("\"file:").count() + line.matches("eventfd").count() + line.matches("\"socket\"").count();
    messages.map(|(line, rest)| (hex(rest.split('"').next().unwrap()), fds(line))).collect()
}

/// How messages are shown, whatever is wrong with them.
#[test]
fn fields_by_their_names() {
    let region = [number(0x1000), number(0x2000), number(0x7000), number(0x10)].concat();
    let regions = |count| [number(count), region.clone(), region.clone()].concat();
    let config = [4, 0, 0, 0, 2, 0, 0, 0, 3, 0, 0, 0, 0xa5, 0x5a];
    let shown = "[guest=0x1000 size=0x2000 user=0x7000 offset=0x10]";
    let rows: [(String, Said); 16] = [
        (format!("F>B SET_MEM_TABLE regions=2 {shown} {shown} fds=socket,socket"), said(5, ASKS, &regions(2), 2)),
        (format!("F>B SET_MEM_TABLE regions=1 {shown}"), asks(5, &regions(1))),
        (format!("F>B ADD_MEM_REG {shown}"), asks(37, &[number(0), region.clone()].concat())),
        ("F>B REM_MEM_REG mapped=done".to_string(), asks(38, &number(0))),
        ("F>B SET_VRING_KICK ring=5".to_string(), asks(12, &number(5))),
        ("F>B SET_VRING_KICK ring=5 polled=on".to_string(), asks(12, &number(0x105))),
        ("F>B SET_VRING_ENABLE ring=1 enable=2".to_string(), asks(18, &number(0x2_0000_0001))),
        ("F>B GET_VRING_BASE [NEED_REPLY] ring=1".to_string(), wants(11, &number(1))),
        ("F>B SET_CONFIG offset=4 size=2 flags=0x3(WRITABLE|LIVE_MIGRATION) bytes=a55a".to_string(), asks(25, &config)),
        ("F>B SET_DEVICE_STATE_FD direction=load phase=0".to_string(), asks(42, &number(1))),
        ("F>B GET_SHARED_OBJECT bytes=10101010101010101010101010101010".to_string(), asks(41, &[0x10; 16])),
        ("F>B SET_VRING_NUM body=0102".to_string(), asks(8, &[1, 2])),
        (
            "F>B SET_FEATURES [version2 0x10] features=0x40000021(bit0|bit5|PROTOCOL_FEATURES)".to_string(),
            said(2, 0x12, &number(0x4000_0021), 0),
        ),
        ("B>F SET_OWNER [REPLY] result=failed(7)".to_string(), replies(3, &number(7))),
        (
            "B>F GET_SHMEM_CONFIG [REPLY] regions=2 [region=0 size=0x1000] [region=3 size=0x2000]".to_string(),
            replies(44, &[number(2), number(0x1000), number(0), number(0), number(0x2000), vec![0; 2016]].concat()),
        ),
        ("F>B request 99 bytes=01".to_string(), asks(99, &[1])),
    ];
    let side = |shown: &str| if shown.starts_with('B') { Side::Backend } else { Side::Frontend };
    let session: Vec<Sent> = rows.iter().map(|(shown, (bytes, fds))| (side(shown), bytes.clone(), *fds)).collect();
    let output = text(&replayed(STANDARD, &session).stdout);
    let lines = output.lines().filter_map(|line| line.strip_prefix("   ")?.split_once(" 1 "));
    let last = ["B>F waiting 5 s for the reply to GET_VRING_BASE", "B>F end"];
    let wanted: Vec<&str> = rows.iter().map(|(shown, _)| shown.as_str()).chain(last).collect();
    assert_eq!(wanted, lines.map(|(_, shown)| shown).collect::<Vec<_>>());
}

/// Sessions that are changed at random are judged to their ends, whatever they are.
#[test]
fn recordings_that_are_changed() {
    let mut numbers = random::Numbers(7);
    for file in recordings() {
        for _ in 0..8 {
            let mut session = messages_of(&file);
            for _ in 0..1 + numbers.below(8) {
                let at = numbers.below(session.len());
                let (bytes, fds) = &mut session[at];
                if !bytes.is_empty() {
                    random::change(&mut numbers, bytes, fds);
                }
                let other = numbers.below(session.len());
                session.swap(at, if numbers.below(4) == 0 { other } else { at });
            }
            let profile = [STANDARD, VHOST][numbers.below(2)];
            // (which looks at the status, too)
            wrong(profile, &session);
        }
    }
}

#[test]
fn bytes_that_are_no_message() {
    let line = "{\"t\": 1, \"session\": 1, \"way\": \"F>B\", \"raw\": \"00ff\"}\n";
    let short =
        "{\"t\": 2, \"session\": 1, \"way\": \"F>B\", \"bytes\": \"0100\", \"fds\": [], \"fds_at\": [], \"body_fds\": 0, \
                 \"cuts\": [2], \"short\": true}\n";
    let file = std::env::temp_dir().join(format!("covretin-tap-{}-raw", std::process::id()));
    let end = "{\"t\": 3, \"session\": 1, \"way\": \"F>B\", \"end\": \"eof\"}\n";
    write(&file, [line, short, end].concat()).unwrap();
    let found = complaints(&tap(&["--replay", file.to_str().unwrap()]));
    remove_file(&file).unwrap();
    let wanted = [
        "1.0000 1 F>B 2 bytes ! these bytes are no message; nothing behind it is judged",
        "3.0000 1 F>B end ! the stream ended behind 2 bytes of a header",
    ];
    assert_eq!(wanted, found.as_slice());
}

/// A peer chooses the name of a file that it made, and so can't write a line.
#[test]
fn a_descriptor_with_a_name_of_two_lines() {
    let line = "{\"t\": 1, \"session\": 1, \"way\": \"F>B\", \"bytes\": \"0c00000001000000080000000000000000000000\", \
                \"fds\": [\"file:/memfd:a\\u000a! b\"], \"fds_at\": [0], \"body_fds\": 0, \"cuts\": [], \"short\": false}\n";
    let file = std::env::temp_dir().join(format!("covretin-tap-{}-name", std::process::id()));
    write(&file, line).unwrap();
    let output = tap(&["--replay", file.to_str().unwrap()]);
    remove_file(&file).unwrap();
    assert_eq!(Vec::<String>::new(), complaints(&output));
    assert!(text(&output.stdout).contains(" F>B SET_VRING_KICK ring=0 fds=memfd:a?! b\n"));
}

/// More descriptors with a body than a message may have: the request is refused, and what is behind it is judged as it is.
#[test]
fn many_descriptors_with_a_body() {
    let line = |bytes: &[u8], count: usize| {
        let digits: String = bytes.iter().map(|it| format!("{it:02x}")).collect();
        let fds = vec!["\"socket\""; count].join(", ");
        format!(
            "{{\"t\": 1, \"session\": 1, \"way\": \"F>B\", \"bytes\": \"{digits}\", \"fds\": [{fds}], \"fds_at\": [12], \
             \"body_fds\": {count}, \"cuts\": [], \"short\": false}}\n"
        )
    };
    let file = std::env::temp_dir().join(format!("covretin-tap-{}-body", std::process::id()));
    write(&file, [line(&message(8, ASKS, &[0; 8]), 33), line(&message(8, ASKS, &[0; 8]), 0)].concat()).unwrap();
    let found = complaints(&tap(&["--replay", file.to_str().unwrap()]));
    remove_file(&file).unwrap();
    assert_eq!(1, found.len(), "{found:?}");
    assert!(found[0].contains(" and came with 8 bytes and 33 descriptors, not all of them with its first byte; "), "{found:?}");
}

/// A line of a recording: of a message that came whole at this time.
fn line_at(time: f64, session: u32, way: &str, bytes: &[u8]) -> String {
    let digits: String = bytes.iter().map(|it| format!("{it:02x}")).collect();
    format!(
        "{{\"t\": {time}, \"session\": {session}, \"way\": \"{way}\", \"bytes\": \"{digits}\", \"fds\": [], \"fds_at\": [], \
         \"body_fds\": 0, \"cuts\": [], \"short\": false}}\n"
    )
}

/// What the tap says of a file with these bytes.
#[track_caller]
fn said_of(bytes: impl AsRef<[u8]>, words: &[&str]) -> Output {
    let line = std::panic::Location::caller().line();
    let file = std::env::temp_dir().join(format!("covretin-tap-{}-said-{line}", std::process::id()));
    write(&file, bytes).unwrap();
    let output = tap(&[words, &["--replay", file.to_str().unwrap()]].concat());
    remove_file(&file).unwrap();
    output
}

/// A recording that ends with no end of its session, as where the tap was killed: what is awaited then is unanswered, by nobody's fault.
#[test]
fn what_is_awaited_at_the_end_of_a_recording() {
    let asked = line_at(1.0, 7, "F>B", &message(1, ASKS, &[]));
    let later = line_at(2.5, 8, "F>B", &message(3, ASKS, &[]));
    let wanted = "2.5000 7 no more was seen ~ GET_FEATURES is unanswered, as what was seen ended 1.5000 s later";
    let output = said_of([asked.clone(), later].concat(), &[]);
    assert_eq!([wanted], notes(&output).as_slice());
    assert_eq!([""; 0], complaints(&output).as_slice());
    assert!(text(&output.stdout).ends_with("\n= nothing is wrong, unanswered: 1\n"));
    let output = said_of(&asked, &["--json"]);
    let wanted = "{\"t\": 1, \"session\": 7, \"left\": true}\n{\"t\": 1, \"session\": 7, \"unanswered\": \
                  \"GET_FEATURES is unanswered, as what was seen ended 0.0000 s later\"}\n{\"summary\": ";
    assert!(text(&output.stdout).contains(wanted), "{}", text(&output.stdout));
    assert_eq!(Some(0), output.status.code());
    // What awaits nothing, and a session that has ended, are not wrong.
    let nothing = line_at(1.0, 7, "F>B", &message(3, ASKS, &[]));
    let end = "{\"t\": 2, \"session\": 7, \"way\": \"B>F\", \"end\": \"eof\"}\n".to_string();
    assert_eq!([""; 0], complaints(&said_of(nothing, &[])).as_slice());
    assert_eq!(1, complaints(&said_of([asked, end].concat(), &[])).len());
}

/// Who ended a session amid a request is told, and a backend is blamed where it was that alone.
#[test]
fn who_ended_a_session() {
    let asked = line_at(1.0, 1, "F>B", &message(1, ASKS, &[]));
    let end =
        |time, way: &str, cause: &str| format!("{{\"t\": {time}, \"session\": 1, \"way\": \"{way}\", \"end\": \"{cause}\"}}\n");
    let (stopped, reset) = ("the tap was stopped", "Connection reset by peer (os error 104)");
    for (before, cause, by) in [
        (end(2, "F>B", "eof"), "eof", "the frontend"),
        (end(2, "F>B", reset), "eof", "the frontend"),
        (end(2, "F>B", "eof"), stopped, "the frontend"),
        (String::new(), "it is no longer received: Broken pipe (os error 32)", "the frontend"),
        (end(2, "F>B", stopped), stopped, "the tap"),
        (String::new(), stopped, "the tap"),
    ] {
        let output = said_of([asked.clone(), before, end(3, "B>F", cause)].concat(), &[]);
        let wanted = format!(
            "3.0000 1 B>F end{} ~ GET_FEATURES is unanswered, as the session was ended by {by} 2.0000 s later",
            match cause {
                "eof" => String::new(),
                cause => format!(": {cause}"),
            }
        );
        assert_eq!([wanted], notes(&output).as_slice());
        assert_eq!([""; 0], complaints(&output).as_slice());
    }
    for before in
        [String::new(), end(2, "F>B", "it sends no more, and still receives"), end(2, "F>B", "it is no longer received: ..")]
    {
        let output = said_of([asked.clone(), before, end(3, "B>F", "eof")].concat(), &[]);
        assert_eq!(
            ["3.0000 1 B>F end ! GET_FEATURES was never replied to: the session ended 2.0000 s later"],
            complaints(&output).as_slice()
        );
    }
}

/// What came last of a message is told with the end of its way, whichever way is told of first.
#[test]
fn both_ways_end_amid_a_message() {
    let way = |time, way: &str, what: &str| format!("{{\"t\": {time}, \"session\": 1, \"way\": \"{way}\", {what}}}\n");
    let short = "\"bytes\": \"0100\", \"fds\": [], \"fds_at\": [], \"body_fds\": 0, \"cuts\": [2], \"short\": true";
    let end = "\"end\": \"eof\"";
    for (first, second) in [("F>B", "B>F"), ("B>F", "F>B")] {
        let told = [way(1, "F>B", short), way(2, "B>F", short), way(3, first, end), way(4, second, end)];
        let wanted = [(3, first), (4, second)]
            .map(|(time, way)| format!("{time}.0000 1 {way} end ! the stream ended behind 2 bytes of a header"));
        assert_eq!(wanted, complaints(&said_of(told.concat(), &[])).as_slice());
    }
}

/// The lines that say that a reply is awaited.
fn waits_of(output: &Output) -> Vec<String> {
    let shown = text(&output.stdout);
    shown.lines().filter(|line| line.contains("waiting")).map(|line| line.trim_start().to_string()).collect()
}

/// A reply that comes late is told of once, five seconds after its request, and is not wrong.
#[test]
fn what_is_awaited_for_long_is_told() {
    let asks = |time, session| line_at(time, session, "F>B", &message(1, ASKS, &[]));
    let replies = |time, session| line_at(time, session, "B>F", &message(1, REPLIES, &[0; 8]));
    let other = |time| line_at(time, 9, "F>B", &message(3, ASKS, &[]));
    let output = said_of([asks(1.0, 1), other(5.9999), replies(5.9999, 1)].concat(), &[]);
    assert_eq!([""; 0], waits_of(&output).as_slice());
    let late = [asks(1.0, 1), asks(1.5, 2), other(6.0), other(30.0), replies(31.0, 1), replies(32.0, 2)].concat();
    let output = said_of(&late, &[]);
    let wait = |time: &str, session| format!("{time} {session} B>F waiting 5 s for the reply to GET_FEATURES");
    assert_eq!([wait("6.0000", 1), wait("6.5000", 2)], waits_of(&output).as_slice());
    assert_eq!([""; 0], complaints(&output).as_slice());
    assert!(text(&output.stdout).contains("= longest answer: 30.5000 s, to GET_FEATURES\n"));
    let wanted = "{\"t\": 6, \"session\": 1, \"way\": \"B>F\", \"waiting\": 5, \"name\": \"GET_FEATURES\"}";
    assert!(waits_of(&said_of(&late, &["--json"])).iter().any(|line| line == wanted));
    // A request behind another one has waited since that one was replied to.
    let behind = line_at(1.0, 1, "F>B", &message(1, ASKS, &[]));
    let output = said_of([asks(1.0, 1), behind, replies(4.0, 1), other(8.9), replies(9.5, 1)].concat(), &[]);
    assert_eq!([wait("9.0000", 1)], waits_of(&output).as_slice());
}

/// A recording that was cut amid a line, at each of its bytes: what is before is judged, and the status says that it is not all.
#[test]
fn a_recording_that_is_cut() {
    let file = recordings().into_iter().find(|file| name_of(file) == "mig_native-src").unwrap();
    let whole = std::fs::read(file).unwrap();
    let lines: Vec<&[u8]> = whole.split_inclusive(|byte| *byte == b'\n').take(3).collect();
    let first = lines[..2].concat();
    for at in 1..lines[2].len() - 1 {
        let output = said_of([&first, &lines[2][..at]].concat(), &[]);
        let shown = text(&output.stdout);
        let is_whole = at == lines[2].len() - 1;
        assert!(shown.contains("\n= sessions 1, messages F>B "), "{shown}");
        assert_eq!(!is_whole, text(&output.stderr).ends_with(": line 3 is none of a recording: it is cut off\n"), "{at}");
        assert_eq!(Some(4), output.status.code());
    }
    // One whose last line lacks its end alone is whole.
    let output = said_of(&lines.concat()[..lines.concat().len() - 1], &[]);
    assert_eq!("", text(&output.stderr));
    assert!(matches!(output.status.code(), Some(0 | 1)));
}

/// Lines of another program are refused, each for its reason.
#[test]
fn lines_of_another_program() {
    let end = "{\"t\": 1, \"session\": 1, \"way\": \"B>F\", \"end\": \"eof\"}\n";
    for (line, reason) in [
        ("\n", "it is no JSON"),
        ("   0.1571 1 connected\n", "it is no JSON"),
        ("{\"t\": 0.5, \"session\": 1, \"way\n", "it is no JSON"),
        ("{\"level\": \"info\", \"msg\": \"started\"}\n", "it has no field \"t\""),
        ("{\"t\": \"2026-01-01\", \"session\": 1}\n", "its field \"t\" is not a number"),
        ("{\"t\": 1, \"session\": 1.5, \"way\": \"F>B\"}\n", "its field \"session\" is not a whole number"),
        ("{\"t\": 1, \"session\": 1, \"way\": \"F>B\", \"name\": \"GET_FEATURES\"}\n", "it has no field \"bytes\""),
        ("{\"level\"", "it is no JSON"),
    ] {
        let output = said_of([end, line].concat(), &[]);
        let wanted = format!(": line 2 is none of a recording: {reason}\n");
        assert!(text(&output.stderr).ends_with(&wanted), "{wanted} {}", text(&output.stderr));
        assert_eq!(Some(4), output.status.code());
    }
    // (as --json shows them)
    let file = recordings().into_iter().find(|file| name_of(file) == "mig_native-src").unwrap();
    let shown = tap(&["--json", "--replay", file.to_str().unwrap()]).stdout;
    let output = said_of(shown, &[]);
    assert!(
        text(&output.stderr).ends_with(": line 1 is none of a recording: it has no field \"way\"\n"),
        "{}",
        text(&output.stderr)
    );
}

/// Runs the tap without a standard output.
fn without_output(words: &[&str]) -> Output {
    let tap = env!("CARGO_BIN_EXE_covretin-tap");
    Command::new("sh").args(["-c", "exec \"$@\" >&-", "sh", tap]).args(words).output().unwrap()
}

/// What nobody can have seen is a failure.
#[test]
fn a_standard_output_that_is_closed() {
    let file = recordings().remove(0);
    let file = file.to_str().unwrap();
    for words in [&["--replay", file][..], &["--json", "--replay", file], &["--help"], &["--version"]] {
        let output = without_output(words);
        assert_eq!(
            (Some(4), "covretin-tap: Bad file descriptor (os error 9)\n".to_string()),
            (output.status.code(), text(&output.stderr))
        );
    }
}

#[test]
fn what_is_no_recording() {
    let output = tap(&["--replay", "no such file"]);
    assert_eq!((Some(4), true), (output.status.code(), text(&output.stderr).contains("no such file: ")));
    let output = tap(&["--replay", concat!(env!("CARGO_MANIFEST_DIR"), "/Cargo.toml")]);
    assert_eq!((Some(4), true), (output.status.code(), text(&output.stderr).contains("line 1 is none of a recording")));
    assert_eq!(Some(2), tap(&["--record"]).status.code());
    assert_eq!(Some(0), tap(&["--help"]).status.code());
}
