// SPDX-License-Identifier: Apache-2.0
//! The frontend for programs in C, `c/frontend.c`, asks a backend of this package, with descriptors.
mod common;

use std::env;
use std::fs::{read_to_string, File};
use std::io::{Read, Write};
use std::os::unix::fs::FileExt;
use std::process::{Command, Stdio};
use std::sync::Arc;
use std::thread::{self, sleep};
use std::time::{Duration, Instant};

use common::device::*;
use common::*;
use covretin::vhost_user::{BackendListener, Listener};

/// The program; how it is compiled, ./test rust knows.
const PROGRAM: &str = "COVRETIN_FRONTEND";

/// The text that a file has from here on, up to the first zero.
fn text_at(file: &File, place: u64) -> String {
    let mut bytes = [0; 64];
    let count = file.read_at(&mut bytes, place).unwrap();
    let text = bytes[..count].split(|&byte| byte == 0).next().unwrap();
    String::from_utf8(text.to_vec()).unwrap()
}

/// Follows a kick by a call, once both are there.
fn ring(device: &Shared) {
    let end = Instant::now() + Duration::from_secs(20);
    while !seen(device).asked.iter().any(|it| it == "set_vring_kick 0") {
        assert!(Instant::now() < end, "the ring was not set up");
        sleep(Duration::from_millis(1));
    }
    let file = |at: usize| seen(device).files[at].try_clone().unwrap();
    let (mut call, mut kick) = (file(2), file(3));
    let mut count = [0; 8];
    kick.read_exact(&mut count).unwrap();
    assert_eq!(1, u64::from_ne_bytes(count));
    call.write_all(&count).unwrap();
}

#[test]
#[ignore = "needs COVRETIN_FRONTEND"]
fn a_frontend_in_c() {
    counted(|| {
        let path = env::temp_dir().join(format!("covretin-{}-in-c", std::process::id()));
        let device = Shared::default();
        let file = memory_file();
        file.write_all_at(b"in flight", 0x2000).unwrap();
        seen(&device).gives = Some(file);
        seen(&device).config = vec![0xa5; 4];
        let mut listener = Listener::new(&path, true).unwrap();
        let mut program = Command::new(env::var_os(PROGRAM).expect(PROGRAM));
        let asking = program.arg(&path).arg("fds").stdout(Stdio::piped()).spawn().unwrap();
        let mut handler = BackendListener::new(&mut listener, Arc::clone(&device)).unwrap().accept().unwrap().unwrap();
        let serving = thread::spawn(move || serve_all(&mut handler));
        ring(&device);
        let said = asking.wait_with_output().unwrap();
        assert_eq!([""; 0], *serving.join().unwrap());
        assert!(said.status.success());
        let wanted = concat!(env!("CARGO_MANIFEST_DIR"), "/tests/expected/descriptors");
        assert_eq!(read_to_string(format!("{wanted}.frontend")).unwrap(), String::from_utf8(said.stdout).unwrap());
        let device = seen(&device);
        assert_eq!(read_to_string(format!("{wanted}.device")).unwrap(), device.asked.join("\n") + "\n");
        let texts = [(0, 0, "low memory"), (1, 0x1000, "high memory"), (4, 0x2000, "in flight")];
        for (at, place, text) in texts {
            assert_eq!(text, text_at(&device.files[at], place));
        }
    });
}
