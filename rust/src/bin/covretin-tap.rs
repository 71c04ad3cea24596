// SPDX-License-Identifier: Apache-2.0
//! Shows and judges a live session of vhost-user: `covretin-tap LISTEN CONNECT`. docs/TAP.md says what it prints.
use std::env::args_os;
use std::io::{self, stdout, Write};
use std::os::unix::io::AsFd;
use std::process::ExitCode;
use std::sync::atomic::{AtomicBool, Ordering};

/// Whether the program was started with a standard output. Where it was not, Rust opens /dev/null in its place before `main`, so that
/// it would print to nobody without an error.
static HAS_OUTPUT: AtomicBool = AtomicBool::new(true);

/// What the C library calls before that.
#[used]
#[link_section = ".init_array"]
static LOOKS: extern "C" fn() = {
    extern "C" fn look() {
        HAS_OUTPUT.store(stdout().as_fd().try_clone_to_owned().is_ok(), Ordering::Relaxed);
    }
    look
};

/// The standard output, or none.
struct Output;

impl Write for Output {
    fn write(&mut self, bytes: &[u8]) -> io::Result<usize> {
        match HAS_OUTPUT.load(Ordering::Relaxed) {
            true => stdout().write(bytes),
            false => Err(io::Error::from_raw_os_error(libc::EBADF)),
        }
    }

    fn flush(&mut self) -> io::Result<()> {
        stdout().flush()
    }
}

fn main() -> ExitCode {
    covretin::tap::run(args_os().skip(1), Output)
}
