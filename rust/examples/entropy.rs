// SPDX-License-Identifier: Apache-2.0
//! A source of entropy for virtual machines, over the kit for devices: `cargo run --example entropy -- /tmp/entropy.sock`
//!
//! It serves one machine after another until SIGTERM or SIGINT; a second one at a time is hung up on. `docs/guide/c.md` has a machine.
use std::env::args_os;
use std::fs::File;
use std::process::ExitCode;

use covretin::device::{run, Device, Ended, Request};
use covretin::queue::VolatileSlice;

/// Of a request: no guest keeps the device from another's for long.
const MOST_BYTES: usize = 65536;

struct Entropy(File);

impl Device for Entropy {
    /// Fills what a request has to be filled (virtio 1.2, 5.4): all of it, or its beginning.
    fn request(&self, request: Request) {
        let mut left = MOST_BYTES;
        let parts = request.writable().iter().map_while(|part| {
            let count = part.len().min(left);
            left -= count;
            part.subslice(0, count).ok().filter(|part| !part.is_empty())
        });
        let parts: Vec<VolatileSlice<'_>> = parts.collect();
        let filled = VolatileSlice::read_at(&parts, &self.0, 0).unwrap_or(0);
        request.complete(filled as u32);
    }

    fn ended(&self, why: &Ended) {
        println!("a frontend went: {why}");
    }
}

fn main() -> ExitCode {
    let path = match args_os().nth(1) {
        Some(path) => path,
        None => {
            eprintln!("usage: entropy PATH");
            return ExitCode::from(1);
        }
    };
    match File::open("/dev/urandom").and_then(|source| run(&path, Entropy(source))) {
        Ok(()) => ExitCode::SUCCESS,
        Err(error) => {
            eprintln!("{}: {error}", path.to_string_lossy());
            ExitCode::from(2)
        }
    }
}
