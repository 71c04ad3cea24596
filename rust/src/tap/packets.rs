// SPDX-License-Identifier: Apache-2.0
//! Writes what is seen to a file of packets, which Wireshark reads: each event as one packet, and what is found of it as its comments.
use std::fs::{metadata, File};
use std::io::{self, BufWriter, Write};
use std::os::unix::fs::{FileTypeExt, MetadataExt};
use std::path::{Path, PathBuf};
use std::time::Duration;

use super::about;
use super::event::Event;
use super::exported::exported;
use super::finding::Finding;
use super::pcapng::{head, packet};
use super::show::mark;

/// How many ten thousandths of a second a second has: events have such times.
const TICKS: f64 = 1e4;
const MICROSECONDS_A_TICK: u64 = 100;

pub(super) struct Packets {
    file: BufWriter<File>,
    path: PathBuf,
    /// The time of day when the tap was started, in microseconds; 0 for a recording, which does not have it.
    started: u64,
}

/// Whether both paths name one file, so that what is written to the one would destroy the other. A device, as /dev/null, is none.
fn is_same_file(a: &Path, b: &Path) -> bool {
    let file = |path| metadata(path).ok().filter(|it| it.is_file()).map(|it| (it.dev(), it.ino()));
    file(a).map_or(false, |it| Some(it) == file(b))
}

/// A pipe of this path, where it is one, once somebody reads it.
pub(super) fn opened_pipe(path: &Path) -> Option<io::Result<File>> {
    let is_pipe = metadata(path).map_or(false, |it| it.file_type().is_fifo());
    is_pipe.then(|| File::create(path).map_err(about(path)))
}

/// The time of an event in ticks. One before the start, which a recording may have, is at the start.
fn ticks_of(time: f64) -> u64 {
    (time * TICKS).round() as u64
}

impl Packets {
    /// Makes the file, unless it is that of the recording.
    pub(super) fn create(path: &Path, recording: Option<&Path>, started: Duration) -> io::Result<Packets> {
        if recording.map_or(false, |it| is_same_file(it, path)) {
            let text = format!("{}: it is the recording, and can't be the file of packets too", path.display());
            return Err(io::Error::new(io::ErrorKind::InvalidInput, text));
        }
        Packets::over(File::create(path).map_err(about(path))?, path, started)
    }

    /// Over an open file of this path. Its first blocks are written before there is an event.
    pub(super) fn over(file: File, path: &Path, started: Duration) -> io::Result<Packets> {
        let file = BufWriter::new(file);
        let mut packets = Packets { file, path: path.to_path_buf(), started: started.as_micros() as u64 };
        let application = concat!("covretin-tap ", env!("CARGO_PKG_VERSION"));
        let description = match started {
            Duration::ZERO => "a recorded session; times are since the tap's start",
            _ => "a session of vhost-user",
        };
        packets.write(&head(application, "vhost-user", description))?;
        packets.flush()?;
        Ok(packets)
    }

    fn write(&mut self, bytes: &[u8]) -> io::Result<()> {
        self.file.write_all(bytes).map_err(about(&self.path))
    }

    /// Writes an event, and what is found of it. It is there at the latest with the next `flush`.
    pub(super) fn put(&mut self, event: &Event, findings: &[Finding]) -> io::Result<()> {
        let ticks = ticks_of(event.time);
        let comments: Vec<String> = findings.iter().map(|it| format!("{} {}", mark(it.kind), it.text)).collect();
        let time = self.started.saturating_add(ticks.saturating_mul(MICROSECONDS_A_TICK));
        self.write(&packet(time, &exported(event, ticks), &comments))
    }

    pub(super) fn flush(&mut self) -> io::Result<()> {
        self.file.flush().map_err(about(&self.path))
    }
}

#[cfg(test)]
mod tests {
    use std::fs::{read, remove_file};

    use super::super::event::{number_at, u32_at, What};
    use super::super::finding::Kind;
    use super::*;

    /// A path of this process alone.
    fn path(name: &str) -> PathBuf {
        std::env::temp_dir().join(format!("covretin-tap-{}-{name}", std::process::id()))
    }

    /// The times of a file's packets, in microseconds.
    fn times(file: &[u8]) -> Vec<u64> {
        let (mut found, mut at) = (Vec::new(), 0);
        while at < file.len() {
            if u32_at(file, at) == 6 {
                found.push(number_at(file, at + 12, 4) << 32 | number_at(file, at + 16, 4));
            }
            at += u32_at(file, at + 4) as usize;
        }
        found
    }

    fn left(time: f64) -> Event {
        Event { time, session: 1, what: What::Left }
    }

    /// They are there as soon as nothing else waits, and not at the end alone.
    #[test]
    fn packets_are_written_as_they_come() {
        let path = path("come.pcapng");
        let mut packets = Packets::create(&path, None, Duration::from_micros(1_000_000_000_000_007)).unwrap();
        assert_eq!(Vec::<u64>::new(), times(&read(&path).unwrap()));
        for (at, time) in [0.0, 0.3709, -1.0, 86400.0001].into_iter().enumerate() {
            packets.put(&left(time), &[]).unwrap();
            packets.flush().unwrap();
            assert_eq!(at + 1, times(&read(&path).unwrap()).len());
        }
        let wanted: Vec<u64> = vec![7, 370_907, 7, 86_400_000_107].into_iter().map(|it| it + 1_000_000_000_000_000).collect();
        assert_eq!(wanted, times(&read(&path).unwrap()));
        remove_file(path).unwrap();
    }

    #[test]
    fn findings_are_comments_behind_their_marks() {
        let path = path("found.pcapng");
        let mut packets = Packets::create(&path, None, Duration::ZERO).unwrap();
        let finding = |kind, text: &str| Finding { kind, text: text.to_string() };
        packets.put(&left(0.0), &[finding(Kind::Wrong, "a"), finding(Kind::Taken, "bcd")]).unwrap();
        packets.flush().unwrap();
        let file = read(&path).unwrap();
        remove_file(path).unwrap();
        assert!(file.ends_with(b"\x01\0\x03\0! a\0\x01\0\x05\0~ bcd\0\0\0\0\0\0\0\x78\0\0\0"), "{file:?}");
    }

    #[test]
    fn a_recording_is_not_overwritten() {
        let (path, other) = (path("recording"), path("recording.link"));
        std::fs::write(&path, "kept").unwrap();
        std::os::unix::fs::symlink(&path, &other).unwrap();
        let refused = Packets::create(&other, Some(&path), Duration::ZERO).err().unwrap();
        assert_eq!(
            format!("{}: it is the recording, and can't be the file of packets too", other.display()),
            refused.to_string()
        );
        assert_eq!(b"kept"[..], read(&path).unwrap());
        remove_file(other).unwrap();
        remove_file(path).unwrap();
        let null = Path::new("/dev/null");
        assert!(Packets::create(null, Some(null), Duration::ZERO).is_ok());
    }

    #[test]
    fn what_cannot_be_written_is_told_with_the_path() {
        let full = Packets::create(Path::new("/dev/full"), None, Duration::ZERO).err().unwrap();
        assert_eq!("/dev/full: No space left on device (os error 28)", full.to_string());
    }
}
