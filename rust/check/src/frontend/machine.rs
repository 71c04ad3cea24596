// SPDX-License-Identifier: Apache-2.0
//! A virtual machine of QEMU without a guest: its monitor plugs a disk in, and its registers are written as a driver would.
use std::ffi::OsString;
use std::fs;
use std::io::{self, Read, Write};
use std::os::unix::net::UnixStream;
use std::path::Path;
use std::time::Duration;

use crate::patience::{is_alive, Patience};
use crate::system::is_readable;

/// Where the registers of the disk lie, and its slot.
const REGISTERS: u64 = 0xe000_0000;
const SLOT: u32 = 5;
/// Where its ring lies.
const RING: u64 = 0x100_0000;
/// How long a machine may take to start.
const START_LIMIT: Duration = Duration::from_secs(30);

/// The words that start it: those of the user, and what is driven here.
pub fn words(given: &[OsString], folder: &Path) -> Vec<OsString> {
    // (a firmware that halts at once)
    let mut firmware = vec![0xf4; 0x10000];
    firmware[0xfff0..0xfff4].copy_from_slice(&[0xfa, 0xf4, 0xeb, 0xfd]);
    let _ = fs::write(folder.join("halt.bin"), firmware);
    let at = folder.display();
    let text = format!(
        "-machine pc,accel=tcg,memory-backend=mem -bios {at}/halt.bin -m 64M -object memory-backend-memfd,id=mem,size=64M,share=on \
         -display none -nodefaults -no-user-config -qmp unix:{at}/qmp,server=on,wait=off -qtest unix:{at}/qtest,server=on,wait=off \
         -qtest-log none -chardev socket,id=c,path={at}/socket"
    );
    given.iter().filter(|it| *it != "%s").cloned().chain(text.split_whitespace().map(OsString::from)).collect()
}

/// A socket on which lines are said and answered.
struct Lines {
    socket: UnixStream,
    left: Vec<u8>,
    process: i32,
    limit: Duration,
}

impl Lines {
    fn connect(path: &Path, process: i32, limit: Duration) -> io::Result<Self> {
        let mut found = UnixStream::connect(path);
        Patience::new(Some(process), START_LIMIT).wait_until(|| {
            if found.is_err() {
                found = UnixStream::connect(path);
            }
            found.is_ok() || !is_alive(process)
        });
        Ok(Lines { socket: found?, left: Vec::new(), process, limit })
    }

    fn line(&mut self) -> Result<String, String> {
        let mut bytes = [0; 4096];
        loop {
            if let Some(end) = self.left.iter().position(|it| *it == b'\n') {
                let line: Vec<u8> = self.left.drain(..=end).collect();
                return Ok(String::from_utf8_lossy(&line).into_owned());
            }
            let mut patience = Patience::new(Some(self.process), self.limit);
            if !patience.wait_until(|| is_readable(&self.socket, 0)) {
                return Err("no answer".to_string());
            }
            match self.socket.read(&mut bytes) {
                Ok(0) | Err(_) => return Err("closed".to_string()),
                Ok(count) => self.left.extend(&bytes[..count]),
            }
        }
    }

    /// Says a line: the first one that answers it.
    fn ask(&mut self, line: &str, is_answer: impl Fn(&str) -> bool) -> Result<String, String> {
        self.socket.write_all(format!("{line}\n").as_bytes()).map_err(|cause| cause.to_string())?;
        loop {
            let answer = self.line()?;
            if is_answer(&answer) {
                return Ok(answer);
            }
        }
    }
}

pub struct Machine {
    monitor: Lines,
    test: Lines,
}

impl Machine {
    pub fn connect(folder: &Path, process: i32, limit: Duration) -> io::Result<Self> {
        let monitor = Lines::connect(&folder.join("qmp"), process, limit)?;
        let test = Lines::connect(&folder.join("qtest"), process, limit)?;
        Ok(Machine { monitor, test })
    }

    /// A command of the monitor: its error, where it has one.
    fn command(&mut self, text: &str) -> Result<Option<String>, String> {
        let answer = self.monitor.ask(text, |it| it.starts_with("{\"return\"") || it.starts_with("{\"error\""))?;
        Ok(answer.starts_with("{\"error\"").then(|| answer.trim().chars().take(160).collect()))
    }

    fn execute(&mut self, name: &str) -> Result<Option<String>, String> {
        self.command(&format!("{{\"execute\": \"{name}\"}}"))
    }

    fn test(&mut self, line: &str) -> Result<(), String> {
        self.test.ask(line, |it| it.starts_with("OK") || it.starts_with("FAIL")).map(drop)
    }

    /// Plugs the disk in, drives it, stops and goes on, and ends: the errors that it told of.
    pub fn play(&mut self, mut begins: impl FnMut(&'static str)) -> Result<String, String> {
        self.execute("qmp_capabilities")?;
        begins("device_add");
        let disk = "\"driver\": \"vhost-user-blk-pci\", \"chardev\": \"c\", \"addr\": \"5\", \"id\": \"d\", \"num-queues\": 1";
        let mut told = self.command(&format!("{{\"execute\": \"device_add\", \"arguments\": {{{disk}}}}}"))?;
        if told.is_none() {
            begins("drive");
            self.drive()?;
        }
        for step in ["query-status", "stop", "cont", "query-status"] {
            begins(step);
            told = told.or(self.execute(step)?);
        }
        begins("quit");
        self.execute("quit")?;
        Ok(told.map_or("it went on".to_string(), |it| format!("it told: {it}")))
    }

    fn configure(&mut self, register: u32, value: u32) -> Result<(), String> {
        self.test(&format!("outl 0xcf8 {:#x}", 1 << 31 | SLOT << 11 | register))?;
        self.test(&format!("outl 0xcfc {value:#x}"))
    }

    /// Writes a register, of a size of QEMU's: b, w or l.
    fn write(&mut self, size: char, register: u64, value: u64) -> Result<(), String> {
        self.test(&format!("write{size} {:#x} {value:#x}", REGISTERS + register))
    }

    /// What a driver writes until it is ready (virtio 1.2, 3.1.1 and 4.1.4.3).
    fn drive(&mut self) -> Result<(), String> {
        for (register, value) in [(0x20, REGISTERS as u32), (0x24, 0), (0x04, 6)] {
            self.configure(register, value)?;
        }
        for status in [0, 1, 3] {
            self.write('b', 0x14, status)?;
        }
        for (register, value) in [(8, 0), (12, 0), (8, 1), (12, 1)] {
            self.write('l', register, value)?;
        }
        self.write('b', 0x14, 11)?;
        self.test(&format!("memset {RING:#x} 0x10000 0x0"))?;
        for (register, value) in [(0x16, 0), (0x18, 64), (0x1a, 0xffff)] {
            self.write('w', register, value)?;
        }
        for (register, place) in [(0x20, RING), (0x28, RING + 0x4000), (0x30, RING + 0x8000)] {
            self.write('l', register, place)?;
            self.write('l', register + 4, 0)?;
        }
        self.write('w', 0x1c, 1)?;
        self.write('b', 0x14, 15)
    }
}
