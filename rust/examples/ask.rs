// SPDX-License-Identifier: Apache-2.0
//! Asks a backend at a Unix socket what it offers, and prints it: `cargo run --example ask -- /run/disk.sock`
//!
//! Status 0 where it was asked, 1 after wrong arguments, 2 where something failed.
use std::env;
use std::ffi::{OsStr, OsString};
use std::process::ExitCode;
use std::time::Duration;

use covretin::vhost_user::{Frontend, VhostUserFrontend, VhostUserProtocolFeatures, VhostUserVirtioFeatures};
use covretin::{Result, VhostBackend};

fn main() -> ExitCode {
    let words: Vec<OsString> = env::args_os().skip(1).collect();
    let path = match words.as_slice() {
        [path] => path,
        _ => {
            eprintln!("usage: ask PATH");
            return ExitCode::from(1);
        }
    };
    match ask(path) {
        Ok(()) => ExitCode::SUCCESS,
        Err(error) => {
            eprintln!("{}: {error}", path.to_string_lossy());
            ExitCode::from(2)
        }
    }
}

fn ask(path: &OsStr) -> Result<()> {
    let mut frontend = Frontend::connect(path, 1)?;
    frontend.set_timeout(Some(Duration::from_secs(5)));
    frontend.set_owner()?;
    let features = frontend.get_features()?;
    println!("virtio features: {features:#x}");
    if features & VhostUserVirtioFeatures::PROTOCOL_FEATURES.bits() == 0 {
        return Ok(());
    }
    // All of them: a backend may serve no driver that leaves VIRTIO_F_VERSION_1 out.
    frontend.set_features(features)?;
    let offered = frontend.get_protocol_features()?;
    println!("protocol features: {offered:?}");
    let accepted = offered & Frontend::PROTOCOL_FEATURES;
    frontend.set_protocol_features(accepted)?;
    if accepted.contains(VhostUserProtocolFeatures::MQ) {
        println!("rings: {}", frontend.get_queue_num()?);
    }
    if accepted.contains(VhostUserProtocolFeatures::CONFIGURE_MEM_SLOTS) {
        println!("memory regions: {}", frontend.get_max_mem_slots()?);
    }
    Ok(())
}
