// SPDX-License-Identifier: Apache-2.0
//! Requests that are changed at random, to a backend of the crate and to one of this package:
//!
//!     raw ROUNDS [SEED]
//!
//! What the device is asked, with each descriptor by its file, and what is replied has to be the same, but for the differences that are declared
//! below; no descriptor may be lost. Prints how much was done. Status 1: something else differed, which is printed with its round.
use std::collections::BTreeMap;
use std::env;
use std::fs::File;
use std::io::Read;
use std::net::Shutdown;
use std::os::unix::io::AsRawFd;
use std::os::unix::net::UnixStream;
use std::process::exit;
use std::sync::{Arc, Mutex};
use std::thread;

use covretin_fuzz::{memory_file, open_fds, ours, upstream};
use vmm_sys_util::sock_ctrl_msg::ScmSocket;

#[path = "../../../tests/common/random.rs"]
mod random;
use random::{change, Numbers};

fn message(code: u32, flags: u32, body: &[u8]) -> Vec<u8> {
    let head = [code, flags, body.len() as u32];
    head.iter().flat_map(|it| it.to_le_bytes()).chain(body.iter().copied()).collect()
}

fn words(numbers: &[u64]) -> Vec<u8> {
    numbers.iter().flat_map(|it| it.to_le_bytes()).collect()
}

/// Requests that are served, and how many descriptors each has.
fn requests() -> Vec<(Vec<u8>, usize)> {
    let region = [0, 0x1000, 0x7000_0000, 0];
    let ask = |code: u32, body: Vec<u8>| message(code, 9, &body);
    vec![
        (ask(1, vec![]), 0),
        (ask(2, words(&[1 << 30])), 0),
        (ask(3, vec![]), 0),
        (ask(4, vec![]), 0),
        (ask(5, words(&[2, region[0], region[1], region[2], region[3], 0x1000, 0x1000, 0x8000_0000, 0])), 2),
        (ask(6, words(&[0x1000, 0])), 1),
        (ask(8, words(&[1 | 256 << 32])), 0),
        (ask(9, words(&[1, 0x1000, 0x2000, 0x3000, 0])), 0),
        (ask(10, words(&[1 | 7 << 32])), 0),
        (ask(11, words(&[1])), 0),
        (ask(12, words(&[1])), 1),
        (ask(13, words(&[0x101])), 0),
        (ask(14, words(&[1])), 1),
        (ask(15, vec![]), 0),
        (ask(17, vec![]), 0),
        (ask(18, words(&[1 << 32])), 0),
        (ask(24, [words(&[16 | 8 << 32]), vec![0; 12]].concat()), 0),
        (ask(25, [words(&[16 | 3 << 32]), vec![0, 0, 0, 0, 1, 2, 3]].concat()), 0),
        (ask(31, words(&[0, 0, 1 | 1 << 16])), 0),
        (ask(32, words(&[0x1000, 0, 1 | 1 << 16])), 1),
        (ask(34, vec![]), 0),
        (ask(36, vec![]), 0),
        (ask(37, words(&[0, region[0], region[1], region[2], region[3]])), 1),
        (ask(38, words(&[0, region[0], region[1], region[2], region[3]])), 0),
        (ask(41, vec![0x10; 16]), 0),
        (ask(42, words(&[0])), 1),
        (ask(43, vec![]), 0),
        (ask(44, vec![]), 0),
    ]
}

/// What a request came to.
#[derive(Clone, Debug, PartialEq)]
struct Outcome {
    asked: Vec<String>,
    replied: Vec<u8>,
    ended: String,
}

/// Plays these bytes to a backend, the descriptors on the first of the last message.
fn play(profile: Option<ours::Profile>, before: &[u8], request: &[u8], files: &[&File], gives: &File) -> Outcome {
    let (mine, mut other) = UnixStream::pair().unwrap();
    let fds: Vec<_> = files.iter().map(|it| it.as_raw_fd()).collect();
    if !before.is_empty() {
        other.send_with_fds(&[before], &[]).unwrap();
    }
    if !request.is_empty() {
        other.send_with_fds(&[request], &fds).unwrap();
    }
    other.shutdown(Shutdown::Write).unwrap();
    macro_rules! served {
        ($crate_name:ident, $set:expr) => {{
            let device = $crate_name::Device { asked: Vec::new(), gives: gives.try_clone().unwrap(), refuses: false };
            let device = Arc::new(Mutex::new(device));
            let mut handler = $crate_name::handler(mine, device.clone());
            $set(&mut handler);
            let reading = thread::spawn(move || {
                let mut replied = Vec::new();
                // (what the handler left unread makes this an error, which is the end, too)
                let _ = other.read_to_end(&mut replied);
                replied
            });
            let ended = $crate_name::serve(&mut handler);
            drop(handler);
            let asked = Arc::try_unwrap(device).ok().unwrap().into_inner().unwrap().asked;
            Outcome { asked, replied: reading.join().unwrap(), ended }
        }};
    }
    match profile {
        None => served!(upstream, |_: &mut _| ()),
        Some(profile) => served!(ours, |it: &mut ours::BackendReqHandler<_>| it.set_profile(profile)),
    }
}

/// The differences that docs/DIFFERENCES.md declares, each by what it is called: whether this is one, by the profile, by the request's number
/// and by what the two backends came to.
type Declared = (&'static str, fn(profile: ours::Profile, code: u32, wanted: &Outcome, came: &Outcome) -> bool);

const DECLARED: &[Declared] = &[
    ("NET_SET_MTU is served", |_, code, _, _| code == 20),
    ("0.17 of the crate refuses descriptors of a region that is removed", |_, code, _, _| cfg!(feature = "older") && code == 38),
    ("the crate has postcopy as a feature, which is off here", |_, code, _, _| (28..=30).contains(&code)),
    ("a request that is not served is refused with an acknowledgement", |_, _, wanted, came| {
        wanted.asked == came.asked && came.ended.contains("is not served")
    }),
    ("under Standard whoever waits is answered, where the crate writes nothing", |profile, _, wanted, came| {
        let is_more = came.replied.len() > wanted.replied.len() && came.replied.starts_with(&wanted.replied);
        matches!(profile, ours::Profile::Standard) && wanted.asked == came.asked && is_more
    }),
];

fn main() {
    let mut arguments = env::args().skip(1).map(|it| it.parse::<u64>().ok());
    let (Some(Some(rounds)), seed) = (arguments.next(), arguments.next().flatten().unwrap_or(1)) else {
        eprintln!("usage: raw ROUNDS [SEED]");
        exit(1);
    };
    let mut numbers = Numbers(seed.wrapping_mul(0x9e37_79b9_7f4a_7c15) | 1);
    let (files, gives): (Vec<File>, File) = ((0..40).map(|_| memory_file()).collect(), memory_file());
    let requests = requests();
    let (mut declared, mut same, mut is_well) = (BTreeMap::new(), 0u64, true);
    for round in 0..rounds {
        let features = if numbers.below(8) == 0 { numbers.below(1 << 23) as u64 } else { 0x4c_b23b };
        let agreed =
            [message(1, 1, &[]), message(2, 1, &words(&[1 << 30])), message(15, 1, &[]), message(16, 1, &words(&[features]))];
        let before = if numbers.below(16) == 0 { Vec::new() } else { agreed.concat() };
        let (mut request, mut count) = requests[numbers.below(requests.len())].clone();
        if numbers.below(4) != 0 {
            change(&mut numbers, &mut request, &mut count);
        }
        let code = request.get(..4).map_or(0, |it| u32::from_le_bytes(it.try_into().unwrap()));
        let lent: Vec<&File> = files[..count].iter().collect();
        let open = open_fds();
        let wanted = play(None, &before, &request, &lent, &gives);
        for profile in [ours::Profile::Vhost, ours::Profile::Standard] {
            let came = play(Some(profile), &before, &request, &lent, &gives);
            if (&wanted.asked, &wanted.replied) == (&came.asked, &came.replied) {
                same += 1;
                continue;
            }
            match DECLARED.iter().find(|(_, is_it)| is_it(profile, code, &wanted, &came)) {
                Some((name, _)) => *declared.entry(*name).or_insert(0u64) += 1,
                None => {
                    println!(
                        "round {round}, {profile:?}, {request:02x?} with {count}:\n  wanted {wanted:x?}\n  came   {came:x?}"
                    );
                    is_well = false;
                }
            }
        }
        if open_fds() != open {
            println!("round {round}: {open} descriptors before, and {} after", open_fds());
            is_well = false;
        }
    }
    println!("{rounds} requests to each backend: {same} came to the same; declared: {declared:?}");
    exit(i32::from(!is_well));
}
