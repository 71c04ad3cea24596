// SPDX-License-Identifier: Apache-2.0
//! What a call costs over the crate `vhost`, and over this package:
//!
//!     beside [TURNS]              a line for each figure: its name, the nanoseconds of a call here and there, and how many times theirs ours is
//!     beside --one FIGURE COUNT   makes the calls of one figure so often, over the crate
//!
//! A frontend and a backend in two threads, over a pair of sockets. Both are measured in short turns, one after the other; the middle is shown.
//! The last two lines are the bytes of memory that a frontend and a backend have asked for.
use std::env;
use std::io::{Read, Write};
use std::os::unix::net::UnixStream;
use std::process::exit;
use std::sync::{Arc, Mutex};
use std::thread;
use std::time::Instant;

use covretin_fuzz::{memory_file, ours, upstream};

/// The calls of a turn.
const CALLS: usize = 200;
/// Of how many sessions the memory is counted.
const SESSIONS: usize = 100;
const FIGURES: [&str; 5] = ["get_features", "acknowledged", "get_config_256", "backend_session", "frontend_session"];
/// A GET_FEATURES, and its reply.
const ASKS: [u8; 12] = [1, 0, 0, 0, 1, 0, 0, 0, 0, 0, 0, 0];
const REPLY: [u8; 20] = [1, 0, 0, 0, 5, 0, 0, 0, 8, 0, 0, 0, 3, 0, 0, 0x40, 0, 0, 0, 0];

/// Bytes that were asked for and not given back.
fn asked_for() -> usize {
    // SAFETY: it counts, and returns what it counted.
    let counted = unsafe { libc::mallinfo2() };
    counted.uordblks + counted.hblkhd
}

/// The two sides over one of the crates.
macro_rules! sides {
    ($module:ident, $crate_name:ident) => {
        mod $module {
            use super::*;
            use $crate_name::*;

            fn device() -> Arc<Mutex<Device>> {
                Arc::new(Mutex::new(Device { asked: Vec::new(), gives: memory_file(), refuses: false }))
            }

            /// A frontend whose backend serves it in another thread.
            pub fn open() -> Frontend {
                let (mine, other) = UnixStream::pair().unwrap();
                thread::spawn(move || serve(&mut handler(other, device())));
                let mut frontend = Frontend::from_stream(mine, 1);
                let features = frontend.get_features().unwrap();
                frontend.set_features(features).unwrap();
                frontend.set_protocol_features(VhostUserProtocolFeatures::CONFIG | VhostUserProtocolFeatures::REPLY_ACK).unwrap();
                frontend.set_hdr_flags(VhostUserHeaderFlag::NEED_REPLY);
                frontend
            }

            /// A backend's session of one request, from its socket to its end.
            fn backend_session(device: Arc<Mutex<Device>>) {
                let (mut mine, other) = UnixStream::pair().unwrap();
                let mut handler = handler(other, device);
                mine.write_all(&ASKS).unwrap();
                handler.handle_request().unwrap();
                mine.read_exact(&mut [0; 20]).unwrap();
            }

            /// A frontend's, whose reply is there before it asks.
            fn frontend_session() {
                let (mine, mut other) = UnixStream::pair().unwrap();
                let frontend = Frontend::from_stream(mine, 2);
                other.write_all(&REPLY).unwrap();
                frontend.get_features().unwrap();
            }

            fn call(frontend: &mut Frontend, device: &Arc<Mutex<Device>>, figure: &str) {
                match figure {
                    "backend_session" => backend_session(device.clone()),
                    "frontend_session" => frontend_session(),
                    "get_features" => drop(frontend.get_features().unwrap()),
                    "acknowledged" => frontend.set_vring_num(0, 128).unwrap(),
                    _ => drop(frontend.get_config(0, 256, VhostUserConfigFlags::empty(), &[0; 256]).unwrap()),
                }
            }

            /// So many calls: the nanoseconds of one.
            pub fn turn(frontend: &mut Frontend, figure: &str, count: usize) -> f64 {
                let device = device();
                let begun = Instant::now();
                for _ in 0..count {
                    call(frontend, &device, figure);
                }
                begun.elapsed().as_nanos() as f64 / count as f64
            }

            /// The memory of a frontend, and of a backend.
            pub fn memory() -> (usize, usize) {
                let pairs: Vec<_> = (0..SESSIONS).map(|_| UnixStream::pair().unwrap()).collect();
                let devices: Vec<_> = (0..SESSIONS).map(|_| device()).collect();
                let (mut frontends, mut backends) = (Vec::with_capacity(SESSIONS), Vec::with_capacity(SESSIONS));
                let others: Vec<_> = pairs.into_iter().zip(devices).collect();
                let before = asked_for();
                let mut left = Vec::with_capacity(SESSIONS);
                let rest = asked_for();
                for ((mine, other), device) in others {
                    frontends.push(Frontend::from_stream(mine, 1));
                    left.push((other, device));
                }
                let between = asked_for();
                for (other, device) in left {
                    backends.push(handler(other, device));
                }
                let after = asked_for();
                (between.saturating_sub(rest.max(before)) / SESSIONS, after.saturating_sub(between) / SESSIONS)
            }
        }
    };
}

sides!(here, ours);
sides!(there, upstream);

fn middle(mut all: Vec<f64>) -> f64 {
    all.sort_by(f64::total_cmp);
    all[all.len() / 2]
}

fn beside(turns: usize) {
    let (mut mine, mut theirs) = (here::open(), there::open());
    for figure in FIGURES {
        let both: Vec<_> =
            (0..turns).map(|_| (here::turn(&mut mine, figure, CALLS), there::turn(&mut theirs, figure, CALLS))).collect();
        let (own, other) = both.iter().copied().unzip();
        let times = middle(both.iter().map(|(own, other)| own / other).collect());
        println!("{figure} {:.0} {:.0} {times:.2}", middle(own), middle(other));
    }
    let ((frontend, backend), (their_frontend, their_backend)) = (here::memory(), there::memory());
    println!("frontend_bytes {frontend} {their_frontend}");
    println!("backend_bytes {backend} {their_backend}");
}

fn main() {
    let words: Vec<_> = env::args().skip(1).collect();
    let words: Vec<_> = words.iter().map(String::as_str).collect();
    let known = |figure: &str| FIGURES.contains(&figure);
    let number = |word: &str| word.parse().ok().filter(|number| *number > 0);
    match words[..] {
        [] => beside(199),
        [turns] if number(turns).is_some() => beside(number(turns).unwrap_or(1)),
        ["--one", figure, count] if known(figure) && number(count).is_some() => {
            there::turn(&mut there::open(), figure, number(count).unwrap_or(1));
        }
        _ => {
            eprintln!("usage: beside [TURNS | --one FIGURE COUNT]");
            exit(2)
        }
    }
}
