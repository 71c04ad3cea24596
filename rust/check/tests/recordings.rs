// SPDX-License-Identifier: Apache-2.0
//! A case that does not pass is recorded, and the tap shows and judges the recording.
use std::ffi::OsString;
use std::fs;
use std::io::{self, Write};
use std::path::{Path, PathBuf};
use std::process::Command;
use std::sync::{Arc, Mutex};

/// A folder of a test's own.
fn folder(name: &str) -> PathBuf {
    let folder = std::env::temp_dir().join(format!("covretin-check-{name}.{}", std::process::id()));
    fs::create_dir_all(&folder).expect("a folder");
    folder
}

/// Runs the checker, which records into a folder that is not there yet: the names of the files there.
fn recorded(folder: &Path, options: &[&str], program: &[&str]) -> Vec<String> {
    let mut command = Command::new(env!("CARGO_BIN_EXE_covretin-check"));
    command.args(["--as-root", &format!("--record={}", folder.display())]).args(options);
    let output = command.arg("--").args(program).output().expect("it runs");
    assert_eq!(output.status.code(), Some(1), "{output:?}");
    let entries = fs::read_dir(folder).expect("the folder is made");
    let mut names: Vec<String> = entries.map(|it| it.expect("a file").file_name().to_string_lossy().into_owned()).collect();
    names.sort();
    names
}

/// What the tap writes.
#[derive(Clone, Default)]
struct Shown(Arc<Mutex<Vec<u8>>>);

impl Write for Shown {
    fn write(&mut self, bytes: &[u8]) -> io::Result<usize> {
        self.0.lock().expect("one thread").extend(bytes);
        Ok(bytes.len())
    }

    fn flush(&mut self) -> io::Result<()> {
        Ok(())
    }
}

/// What the tap shows of a recording, without times.
fn replayed(recording: &Path) -> Vec<String> {
    let shown = Shown::default();
    covretin::tap::run([OsString::from("--replay"), recording.into()], shown.clone());
    let bytes = shown.0.lock().expect("one thread").clone();
    let lines = String::from_utf8(bytes).expect("text").lines().map(str::to_string).collect::<Vec<_>>();
    lines
        .iter()
        .map(|it| it.strip_prefix("   ").map_or(it.as_str(), |it| it.split_once(' ').map_or(it, |it| it.1)).to_string())
        .collect()
}

/// That these lines are there, in this order.
fn has_in_order(lines: &[String], expected: &[&str]) {
    let mut rest = lines.iter();
    for line in expected {
        assert!(rest.any(|it| it.starts_with(line)), "{line} is not there, or not in order:\n{}", lines.join("\n"));
    }
}

const DEVICE: &str = concat!(env!("CARGO_MANIFEST_DIR"), "/tests/faulty.py");

#[test]
fn a_backends_case_that_fails_is_recorded() {
    let folder = folder("recorded");
    let options = ["--type=rng", "--limit=0.7", "--only=ACK-06,MEM-20,RST-05"];
    let names = recorded(&folder.join("new"), &options, &["python3", DEVICE, "--socket-path=%s", "an acknowledgement twice"]);
    assert_eq!(names, ["ACK-06a.jsonl"]);
    let expected = [
        "1 connected",
        "1 F>B GET_FEATURES",
        "1 B>F GET_FEATURES [REPLY] features=",
        "1 F>B SET_VRING_BASE [NEED_REPLY] ring=0 base=0",
        "1 B>F SET_VRING_BASE [REPLY] result=done",
        "1 B>F SET_VRING_BASE [REPLY] result=done",
        "! a reply to SET_VRING_BASE, where one to GET_FEATURES is awaited",
        "1 F>B end",
    ];
    has_in_order(&replayed(&folder.join("new/ACK-06a.jsonl")), &expected);
    fs::remove_dir_all(folder).expect("removed");
}

#[test]
fn a_recording_has_descriptors_and_cuts() {
    let folder = folder("descriptors");
    let options = ["--type=rng", "--limit=0.7", "--only=INF-01"];
    recorded(&folder, &options, &["python3", DEVICE, "--socket-path=%s", "a file that is too short"]);
    let file = folder.join("INF-01.jsonl");
    has_in_order(
        &replayed(&file),
        &["1 F>B GET_INFLIGHT_FD", "1 B>F GET_INFLIGHT_FD [REPLY]", "1 F>B end", "= nothing is wrong"],
    );
    let text = fs::read_to_string(&file).expect("a recording");
    let reply = text.lines().find(|it| it.contains("\"way\": \"B>F\", \"code\": 31")).expect("the reply is there");
    let kinds = r#""fds": ["file:/memfd:inflight"], "fds_at": [0], "body_fds": 0, "cuts": [12, 24], "short": false"#;
    assert!(reply.contains(kinds), "{reply}");
    fs::remove_dir_all(folder).expect("removed");
}

/// A frontend that crashes by a reply that is too short.
const FRONTEND: &str = "\
import os, signal, socket, struct, sys
backend = socket.socket(socket.AF_UNIX)
backend.connect(sys.argv[1])
backend.sendall(struct.pack('<III', 1, 1, 0))
if len(backend.recv(20)) == 16:
    os.kill(os.getpid(), signal.SIGSEGV)
";

#[test]
fn a_frontends_case_that_fails_is_recorded() {
    let folder = folder("frontend");
    let options = ["--frontend", "--limit=0.3", "--only=FE-00,FE-06"];
    let names = recorded(&folder, &options, &["python3", "-c", FRONTEND, "%s"]);
    assert_eq!(names, ["FE-06.jsonl"]);
    let expected =
        ["1 connected", "1 F>B GET_FEATURES", "1 B>F GET_FEATURES [REPLY]", "! the reply to GET_FEATURES has", "1 F>B end"];
    has_in_order(&replayed(&folder.join("FE-06.jsonl")), &expected);
    fs::remove_dir_all(folder).expect("removed");
}
