// SPDX-License-Identifier: Apache-2.0
//! Frontends and backends of the crate and of this package against each other, over sockets, by calls that look random:
//!
//!     both ROUNDS [SEED]
//!
//! Each round makes the same calls with each pair of sides, and under both profiles. What the device is asked and what the calls return, with
//! each descriptor by its file, has to be what it is with both of the crate; no descriptor may be lost. The calls are those that both have,
//! without those of postcopy. Prints how much was done. Status 1: something differed, which is printed with its round.
use std::collections::BTreeMap;
use std::env;
use std::fs::File;
use std::os::unix::net::UnixStream;
use std::process::exit;
use std::sync::{Arc, Mutex};
use std::thread;

use covretin_fuzz::{memory_file, open_fds, ours, upstream, Call};

#[path = "../../../tests/common/random.rs"]
#[allow(dead_code)]
mod random;
use random::Numbers;

/// The rings of the frontends.
const RINGS: u64 = 4;

#[derive(Clone, Copy, Debug, PartialEq)]
enum Side {
    Upstream,
    Ours(ours::Profile),
}

/// What a round came to.
#[derive(Clone, Debug, Default, PartialEq)]
struct Outcome {
    returned: Vec<String>,
    asked: Vec<String>,
}

/// A device that is served, until its socket is closed: what it was asked.
fn serving(side: Side, socket: UnixStream, gives: File) -> thread::JoinHandle<Vec<String>> {
    macro_rules! served {
        ($crate_name:ident, $set:expr) => {
            thread::spawn(move || {
                let device = $crate_name::Device { asked: Vec::new(), gives, refuses: false };
                let device = Arc::new(Mutex::new(device));
                let mut handler = $crate_name::handler(socket, device.clone());
                $set(&mut handler);
                $crate_name::serve(&mut handler);
                drop(handler);
                Arc::try_unwrap(device).ok().unwrap().into_inner().unwrap().asked
            })
        };
    }
    match side {
        Side::Upstream => served!(upstream, |_: &mut _| ()),
        Side::Ours(profile) => served!(ours, |it: &mut ours::BackendReqHandler<_>| it.set_profile(profile)),
    }
}

/// The calls of a frontend, up to the first that fails where the connection may be over; what each returned.
fn calling(side: Side, socket: UnixStream, calls: &[Call], file: &File) -> Vec<String> {
    macro_rules! called {
        ($crate_name:ident, $set:expr) => {{
            let mut frontend = $crate_name::Frontend::from_stream(socket, RINGS);
            $set(&frontend);
            let mut returned = Vec::new();
            for call in calls {
                let told = $crate_name::perform(&mut frontend, call, file);
                returned.push(told);
                if is_over(returned.last()) {
                    break;
                }
            }
            returned
        }};
    }
    match side {
        Side::Upstream => called!(upstream, |_: &_| ()),
        Side::Ours(profile) => called!(ours, |it: &ours::Frontend| it.set_profile(profile)),
    }
}

/// Whether a call says that its connection is over, or may be.
fn is_over(told: Option<&String>) -> bool {
    told.is_none_or(|told| ["socket", "partial", "disconnected", "invalid message"].iter().any(|it| told.contains(it)))
}

fn play(front: Side, back: Side, calls: &[Call], file: &File, gives: &File) -> Outcome {
    let (mine, other) = UnixStream::pair().unwrap();
    let device = serving(back, other, gives.try_clone().unwrap());
    let returned = calling(front, mine, calls, file);
    Outcome { returned, asked: device.join().unwrap() }
}

// -- Calls --

/// A number that may be at an end of its range.
fn number(numbers: &mut Numbers) -> u64 {
    match numbers.below(6) {
        0 => 0,
        1 => u64::MAX,
        2 => u64::MAX - 0xfff,
        it => 0x1000 * it as u64,
    }
}

fn ring(numbers: &mut Numbers) -> usize {
    numbers.below(5)
}

fn some_call(numbers: &mut Numbers) -> Call {
    let mut at = |end| numbers.below(end);
    match at(30) {
        0 => Call::GetFeatures,
        1 => Call::SetOwner,
        2 => Call::ResetOwner,
        3 => Call::SetMemTable((0..at(3)).map(|_| [(); 4].map(|()| number(numbers))).collect()),
        4 => Call::SetVringNum(ring(numbers), numbers.below(0x1_0000) as u16),
        5 => {
            let places = [(); 3].map(|()| number(numbers));
            let log = Some(number(numbers)).filter(|_| numbers.below(2) == 0);
            Call::SetVringAddr(ring(numbers), numbers.below(3) as u32, places, log)
        }
        6 => Call::SetVringBase(ring(numbers), numbers.below(0x1_0000) as u16),
        7 => Call::GetVringBase(ring(numbers)),
        8 => Call::SetVringCall(ring(numbers)),
        9 => Call::SetVringKick(ring(numbers)),
        10 => Call::SetVringErr(ring(numbers)),
        11 => Call::GetProtocolFeatures,
        12 => Call::GetQueueNum,
        13 => Call::ResetDevice,
        14 | 15 => Call::SetVringEnable(ring(numbers), numbers.below(2) == 0),
        16 | 17 => Call::GetConfig(numbers.below(0x1010) as u32, numbers.below(20) as u32, numbers.below(4) as u32),
        18 => {
            let bytes = (0..numbers.below(9)).map(|it| it as u8).collect();
            Call::SetConfig(numbers.below(0x1010) as u32, numbers.below(4) as u32, bytes)
        }
        19 => Call::GetSharedObject([numbers.below(256) as u8; 16]),
        20 => Call::GetInflightFd(numbers.below(3) as u16, numbers.below(3) as u16),
        21 => Call::SetInflightFd(number(numbers), numbers.below(3) as u16, numbers.below(3) as u16),
        22 => Call::GetMaxMemSlots,
        23 => Call::AddMemRegion([(); 4].map(|()| number(numbers))),
        24 => Call::RemoveMemRegion([(); 4].map(|()| number(numbers))),
        25 => Call::GetShmemConfig,
        26 => Call::SetDeviceStateFd(numbers.below(2) == 0),
        27 => Call::CheckDeviceState,
        28 => Call::SetLogBase(number(numbers), number(numbers)),
        _ => Call::SetBackendRequestFd,
    }
}

/// What both sides agree on at first, mostly, and then any calls.
fn some_calls(numbers: &mut Numbers) -> Vec<Call> {
    let mut calls = Vec::new();
    if numbers.below(16) != 0 {
        calls.extend([Call::GetFeatures, Call::SetFeatures(1 << 30 | 1 << 32), Call::GetProtocolFeatures]);
        let all = (ours::Frontend::PROTOCOL_FEATURES - ours::VhostUserProtocolFeatures::PAGEFAULT).bits();
        let some = if numbers.below(4) == 0 { numbers.below(1 << 23) as u64 } else { !0 };
        calls.push(Call::SetProtocolFeatures(all & some));
        // (upstream awaits an acknowledgement that has not been agreed on)
        if all & some & 8 != 0 {
            calls.push(Call::NeedReply(numbers.below(3) != 0));
        }
    }
    for _ in 0..numbers.below(16) {
        calls.push(some_call(numbers));
    }
    calls
}

// -- Differences --

/// The first call that returned another value. Which call meets first that the backend has gone, and by which error, is the schedule's: until
/// then a call without a reply succeeds.
fn differing(wanted: &Outcome, came: &Outcome) -> Option<usize> {
    let count = wanted.returned.len().max(came.returned.len());
    for at in 0..count {
        let pair = [wanted, came].map(|it| it.returned.get(at));
        if pair[0] == pair[1] {
            continue;
        }
        let is_schedule = pair.iter().all(|it| is_over(*it) || it.map(String::as_str) == Some("ok ()"));
        return if is_schedule { None } else { Some(at) };
    }
    None
}

/// Whether a call is answered that the crate's backend refuses in silence: by the profile Standard it is refused. The crate awaits nothing of a
/// log's base alone, and so calls that done.
fn is_answered(back: Side, call: &Call, wanted: Option<&String>, came: Option<&String>) -> bool {
    let told = |it: Option<&String>| kind(it.map_or("", String::as_str));
    let is_silent = match told(wanted) {
        "at the end of the connection" => true,
        "done" => matches!(call, Call::SetLogBase(..)),
        _ => false,
    };
    back == Side::Ours(ours::Profile::Standard) && is_silent && told(came) == "refused"
}

/// What differs from what both sides of the crate came to, if anything does.
fn difference(calls: &[Call], back: Side, wanted: &Outcome, came: &Outcome) -> Option<String> {
    let at = match differing(wanted, came) {
        None if wanted.asked == came.asked => return None,
        Some(at) if is_answered(back, &calls[at], wanted.returned.get(at), came.returned.get(at)) => return None,
        // (what the device was asked less, or more, came of the last call)
        found => found.unwrap_or(wanted.returned.len().min(came.returned.len()) - 1),
    };
    let text = |it: &Outcome| it.returned.get(at).cloned().unwrap_or_default();
    let (asked, and) = (&wanted.asked, &came.asked);
    Some(format!("{:?}\n  wanted {}\n  came   {}\n  asked  {asked:?}\n  and    {and:?}", calls[at], text(wanted), text(came)))
}

/// How a call ended, for the summary.
fn kind(told: &str) -> &'static str {
    match told {
        "" | "ok ()" => "done",
        _ if told.starts_with("ok") => "with a value",
        _ if is_over(Some(&told.to_string())) => "at the end of the connection",
        _ => "refused",
    }
}

fn main() {
    let mut words = env::args().skip(1).map(|it| it.parse::<u64>().ok());
    let (Some(Some(rounds)), seed) = (words.next(), words.next().flatten().unwrap_or(1)) else {
        eprintln!("usage: both ROUNDS [SEED]");
        exit(1);
    };
    let mut numbers = Numbers(seed.wrapping_mul(0x9e37_79b9_7f4a_7c15) | 1);
    let (file, gives) = (memory_file(), memory_file());
    let profiles = [ours::Profile::Standard, ours::Profile::Vhost];
    let (mut ended, mut is_well) = (BTreeMap::new(), true);
    for round in 0..rounds {
        let calls = some_calls(&mut numbers);
        let before = open_fds();
        let wanted = play(Side::Upstream, Side::Upstream, &calls, &file, &gives);
        let pairs = profiles.iter().flat_map(|it| {
            let side = Side::Ours(*it);
            [(side, side), (side, Side::Upstream), (Side::Upstream, side)]
        });
        for (front, back) in pairs {
            let came = play(front, back, &calls, &file, &gives);
            for told in &came.returned {
                *ended.entry(kind(told)).or_insert(0u64) += 1;
            }
            if let Some(text) = difference(&calls, back, &wanted, &came) {
                println!("round {round}, {front:?} against {back:?}: {text}");
                is_well = false;
            }
        }
        if open_fds() != before {
            println!("round {round}: {before} descriptors before, and {} after", open_fds());
            is_well = false;
        }
    }
    let each: Vec<String> = ended.iter().map(|(kind, count)| format!("{count} {kind}")).collect();
    println!("{rounds} rounds, {} calls: {}", ended.values().sum::<u64>(), each.join(", "));
    exit(i32::from(!is_well));
}
