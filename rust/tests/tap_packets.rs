// SPDX-License-Identifier: Apache-2.0
//! The packets that covretin-tap writes: of recordings and of a session, and where they can't be written.
mod common;

use std::ffi::CString;
use std::fs::{create_dir, read, read_dir, remove_dir_all, write, File};
use std::io::Read;
use std::os::unix::ffi::OsStrExt;
use std::os::unix::net::{UnixListener, UnixStream};
use std::os::unix::process::ExitStatusExt;
use std::path::{Path, PathBuf};
use std::process::{Command, Output, Stdio};
use std::thread;
use std::time::{Duration, Instant, SystemTime};

use common::tap::*;
use common::*;

/// How long something may take that has to come.
const LONG: Duration = Duration::from_secs(20);
/// The type of a block that is a packet.
const PACKET: u32 = 6;

/// A folder of a test alone, which ends with it.
struct Folder(PathBuf);

impl Folder {
    #[track_caller]
    fn new() -> Folder {
        let line = std::panic::Location::caller().line();
        let folder = std::env::temp_dir().join(format!("covretin-tap-{}-packets-{line}", std::process::id()));
        create_dir(&folder).unwrap();
        Folder(folder)
    }

    fn path(&self, name: &str) -> String {
        self.0.join(name).to_str().unwrap().to_string()
    }
}

impl Drop for Folder {
    fn drop(&mut self) {
        let _ = remove_dir_all(&self.0);
    }
}

fn u32_at(bytes: &[u8], at: usize) -> u32 {
    u32::from_le_bytes(bytes[at..at + 4].try_into().unwrap())
}

/// The packets of a file: the microseconds of each, and the rest of its block.
fn packets(file: &[u8]) -> Vec<(u64, Vec<u8>)> {
    let (mut found, mut rest) = (Vec::new(), file);
    while !rest.is_empty() {
        let (block, behind) = rest.split_at(u32_at(rest, 4) as usize);
        if u32_at(block, 0) == PACKET {
            found.push((u64::from(u32_at(block, 12)) << 32 | u64::from(u32_at(block, 16)), block[20..].to_vec()));
        }
        rest = behind;
    }
    found
}

/// The times of the lines that are events, in microseconds.
fn times(output: &Output) -> Vec<u64> {
    let shown = text(&output.stdout);
    let events = shown.lines().filter(|line| !line.starts_with(['!', '~', '=']));
    events.map(|line| line[..9].trim().replace('.', "").parse::<u64>().unwrap() * 100).collect()
}

#[test]
fn each_event_of_a_recording_is_a_packet() {
    let folder = Folder::new();
    for file in read_dir(Path::new(env!("CARGO_MANIFEST_DIR")).join("tests/recordings")).unwrap() {
        let file = file.unwrap().path();
        let (recording, made) = (file.to_str().unwrap(), folder.path("packets"));
        let plain = tap(&["--replay", recording]);
        let output = tap(&["--replay", recording, "--pcapng", &made]);
        assert_eq!((plain.stdout, plain.status), (output.stdout.clone(), output.status));
        let found: Vec<u64> = packets(&read(&made).unwrap()).into_iter().map(|(time, _)| time).collect();
        assert_eq!(times(&output), found, "{recording}");
    }
}

/// A message that breaks a rule has the complaint as a comment, and so has the end of a session.
#[test]
fn complaints_are_comments() {
    let folder = Folder::new();
    let (recorded, made) = (folder.path("recorded"), folder.path("packets"));
    let request = |code, body: &[u8]| (Side::Frontend, message(code, ASKS, body), 0);
    write(&recorded, recording(&[request(8, &[0; 7]), request(1, &[])])).unwrap();
    let output = tap(&["--replay", &recorded, &format!("--pcapng={made}")]);
    let found = complaints(&output);
    let told: Vec<&str> = found.iter().map(|it| it.split_once(" ! ").unwrap().1).collect();
    let file = read(&made).unwrap();
    assert!(!told.is_empty());
    for complaint in told {
        let comment = format!("! {complaint}");
        assert!(file.windows(comment.len()).any(|it| it == comment.as_bytes()), "{comment}");
    }
}

/// What is said on standard error, and that the status is 4.
fn failed_by(output: &Output) -> String {
    assert_eq!(Some(4), output.status.code());
    text(&output.stderr)
}

#[test]
fn packets_that_cannot_be_written() {
    let folder = Folder::new();
    let (recorded, link, nowhere) = (folder.path("recorded"), folder.path("link"), folder.path("none/packets"));
    let session = recording(&[(Side::Frontend, message(3, ASKS, &[]), 0)]);
    write(&recorded, &session).unwrap();
    std::os::unix::fs::symlink(&recorded, &link).unwrap();
    let replayed = |made: &str| failed_by(&tap(&["--replay", &recorded, "--pcapng", made]));
    assert_eq!("covretin-tap: /dev/full: No space left on device (os error 28)\n", replayed("/dev/full"));
    assert_eq!(format!("covretin-tap: {nowhere}: No such file or directory (os error 2)\n"), replayed(&nowhere));
    let refused = format!("covretin-tap: {link}: it is the recording, and can't be the file of packets too\n");
    assert_eq!(refused, replayed(&link));
    assert_eq!(session.as_bytes(), read(&recorded).unwrap());
    // A session is not begun, and its socket does not stay.
    let (listen, connect) = (folder.path("listen"), folder.path("connect"));
    let said = failed_by(&tap(&["--pcapng=/dev/full", &listen, &connect]));
    assert_eq!("covretin-tap: /dev/full: No space left on device (os error 28)\n", said);
    assert!(!Path::new(&listen).exists());
    // A recording that is not there leaves the packets of another one.
    assert!(failed_by(&tap(&["--replay", &nowhere, "--pcapng", &recorded])).contains(&nowhere));
    assert_eq!(session.as_bytes(), read(&recorded).unwrap());
}

/// Makes a pipe that has a path.
fn make_pipe(path: &str) {
    let path = CString::new(Path::new(path).as_os_str().as_bytes()).unwrap();
    // SAFETY: it is a path with an end.
    assert_eq!(0, unsafe { libc::mkfifo(path.as_ptr(), 0o600) });
}

/// A pipe to Wireshark that nobody reads any more: all is shown, and the status says that not all was written.
#[test]
fn a_reader_that_leaves() {
    let folder = Folder::new();
    let (recorded, pipe) = (folder.path("recorded"), folder.path("pipe"));
    let requests = (0..64).map(|_| (Side::Frontend, message(24, ASKS, &[0; 4096]), 0)).collect::<Vec<_>>();
    write(&recorded, recording(&requests)).unwrap();
    make_pipe(&pipe);
    let reads = pipe.clone();
    let reading = thread::spawn(move || File::open(reads).unwrap().read_exact(&mut [0; 28]).unwrap());
    let output = tap(&["--replay", &recorded, "--pcapng", &pipe]);
    reading.join().unwrap();
    assert_eq!(format!("covretin-tap: {pipe}: Broken pipe (os error 32)\n"), failed_by(&output));
    // (one line says that the first is awaited)
    assert_eq!(requests.len() + 2, times(&output).len());
}

/// A tap that waits until somebody reads its pipe does not listen before, and a signal ends it.
#[test]
fn a_pipe_that_nobody_reads() {
    let folder = Folder::new();
    let [listen, connect, pipe] = ["listen", "connect", "pipe"].map(|it| folder.path(it));
    make_pipe(&pipe);
    let spawned = || {
        let mut command = Command::new(env!("CARGO_BIN_EXE_covretin-tap"));
        command.args(["--count=1", "--pcapng", &pipe, &listen, &connect]);
        command.stdout(Stdio::null()).stderr(Stdio::null()).spawn().unwrap()
    };
    let mut child = spawned();
    thread::sleep(Duration::from_millis(200));
    assert!(!Path::new(&listen).exists());
    // SAFETY: it is the number of a child that was not waited for.
    assert_eq!(0, unsafe { libc::kill(child.id() as i32, libc::SIGTERM) });
    assert_eq!(Some(libc::SIGTERM), child.wait().unwrap().signal());
    // Another one goes on once it is read.
    let mut child = spawned();
    let mut reader = File::open(&pipe).unwrap();
    drop(connected(&listen));
    let mut file = Vec::new();
    reader.read_to_end(&mut file).unwrap();
    assert_eq!((Some(4), 1), (child.wait().unwrap().code(), packets(&file).len()));
}

/// Waits until a file has so many packets.
fn wait_for_packets(path: &str, count: usize) {
    let started = Instant::now();
    while read(path).map_or(0, |file| packets(&file).len()) < count {
        assert!(started.elapsed() < LONG, "no {count} packets were written");
        thread::sleep(Duration::from_millis(5));
    }
}

/// Connects once the tap listens.
fn connected(path: &str) -> UnixStream {
    let started = Instant::now();
    loop {
        match UnixStream::connect(path) {
            Ok(socket) => return socket,
            Err(cause) => assert!(started.elapsed() < LONG, "the tap does not listen: {cause}"),
        }
        thread::sleep(Duration::from_millis(5));
    }
}

/// They are there while the session goes on, with the time of day; else they are those of its recording.
#[test]
fn packets_of_a_session() {
    let folder = Folder::new();
    let [listen, connect, recorded, made, again] = ["listen", "connect", "recorded", "made", "again"].map(|it| folder.path(it));
    let listener = UnixListener::bind(&connect).unwrap();
    let before = SystemTime::now().duration_since(SystemTime::UNIX_EPOCH).unwrap().as_micros() as u64;
    let words = [&format!("--pcapng={made}"), "--record", &recorded, "--count=1", &listen, &connect];
    let child = Command::new(env!("CARGO_BIN_EXE_covretin-tap"))
        .args(words)
        .stdout(Stdio::piped())
        .stderr(Stdio::piped())
        .spawn()
        .unwrap();
    let frontend = Peer { socket: connected(&listen) };
    let backend = Peer { socket: listener.accept().unwrap().0 };
    frontend.say(&message(1, ASKS, &[]), &[]);
    backend.hear(&message(1, ASKS, &[]));
    wait_for_packets(&made, 2);
    backend.say_number(1, PROTOCOL);
    frontend.hear(&message(1, REPLIES, &PROTOCOL.to_le_bytes()));
    wait_for_packets(&made, 3);
    drop((frontend, backend));
    let output = child.wait_with_output().unwrap();
    assert_eq!(Some(0), output.status.code());
    assert_eq!(Some(0), tap(&["--replay", &recorded, "--pcapng", &again]).status.code());
    let (made, again) = (packets(&read(made).unwrap()), packets(&read(again).unwrap()));
    let rest = |packets: &[(u64, Vec<u8>)]| packets.iter().map(|(_, rest)| rest.clone()).collect::<Vec<_>>();
    assert_eq!((5, rest(&again)), (made.len(), rest(&made)));
    let starts: Vec<u64> = made.iter().zip(&again).map(|((time, _), (since, _))| time - since).collect();
    assert!(starts.iter().all(|it| *it == starts[0]) && starts[0] >= before, "{starts:?}");
}
