// SPDX-License-Identifier: Apache-2.0
//! Faults that are planted into a device, each found by the cases that name it and by no other; and how the program is called.
use std::collections::BTreeSet;
use std::fs;
use std::path::{Path, PathBuf};
use std::process::{Child, Command, Output, Stdio};

/// The cases that are tried with each fault.
const CASES: &str = "HDR-01,HDR-04,NEG-03,NEG-04,NEG-10,UNK-03,ACK-05,ACK-06,ACK-08,ACK-17,MEM-01,MEM-20,MEM-26,MEM-30,RNG-01,RNG-02,RNG-04,RNG-05,\
                     RNG-06,RNG-07,RNG-08,RNG-20,RNG-50,RNG-51,RNG-57,GVB-01,CFG-01,CFG-07,LOG-05,LOG-09,INF-01,INF-09,INF-10,PCP-02,PCP-07,PCP-08,PCP-09,\
                     PCP-10,PCP-11,DST-01,DST-07,RST-03,RST-04,SUS-01,IOM-02,IOM-03,IBN-01,GPA-01,CON-06,PRG-01,PRG-03,PKD";

fn checker() -> Command {
    let mut command = Command::new(env!("CARGO_BIN_EXE_covretin-check"));
    command.arg("--as-root");
    command
}

fn device() -> String {
    concat!(env!("CARGO_MANIFEST_DIR"), "/tests/faulty.py").to_string()
}

/// Runs the checker over the device with a fault.
fn run(options: &[&str], fault: &str) -> Output {
    let device = device();
    checker()
        .args(options)
        .args(["--type=rng", "--limit=0.7", "--", "python3", &device, "--socket-path=%s", fault])
        .output()
        .expect("it runs")
}

/// The cases that a run says have failed, each with its verdict; a NOTE is no failure.
fn failed(output: &Output) -> BTreeSet<String> {
    let text = String::from_utf8_lossy(&output.stdout).into_owned();
    let found = text.lines().filter_map(|line| {
        let mut words = line.split_whitespace();
        let (id, verdict) = (words.next()?, words.next()?);
        let is_failure = ["MUST", "SHOULD", "CRASH", "HANG", "TROUBLE"].contains(&verdict);
        (is_failure && id.contains('-')).then(|| format!("{id} {verdict}"))
    });
    found.collect()
}

/// Each fault is found by just these.
fn is_found(fault: &str, expected: &[&str]) {
    let output = run(&[&format!("--only={CASES}")], fault);
    let expected: BTreeSet<String> = expected.iter().map(|it| it.to_string()).collect();
    let text = String::from_utf8_lossy(&output.stdout).into_owned();
    assert_eq!(failed(&output), expected, "{fault}:\n{text}");
    let is_fault = expected.iter().any(|it| !it.ends_with("SHOULD"));
    assert_eq!(output.status.code(), Some(i32::from(is_fault)), "{fault}:\n{text}");
}

macro_rules! faults {
    ($($name:ident: $fault:literal => [$($case:literal),*];)*) => {$(
        #[test]
        fn $name() {
            is_found($fault, &[$($case),*]);
        }
    )*};
}

faults! {
    no_fault: "" => [];
    short_reply: "a reply is too short" => ["NEG-10 SHOULD"];
    acknowledged_twice: "an acknowledgement twice" => ["ACK-06a MUST"];
    acknowledged_unasked: "an acknowledgement that nobody wants" => ["ACK-17b MUST"];
    not_acknowledged: "no acknowledgement" => ["ACK-08a MUST"];
    reply_of_another: "a reply of another request" => ["MEM-20 MUST"];
    disabled_is_served: "a disabled ring is served" => ["RNG-04 MUST", "RNG-51 MUST", "PKD-11 MUST"];
    descriptor_is_kept: "a descriptor is kept" => ["MEM-26 MUST"];
    addresses_of_the_frontend: "the frontend's addresses" => ["PCP-02 MUST", "PCP-07 MUST", "PCP-08 MUST"];
    stopped_is_served: "a stopped ring is served" => ["RNG-08 MUST", "SUS-01 MUST", "PKD-13 MUST"];
    base_is_not_counted: "the base is not counted" => ["RNG-07 MUST", "GVB-01 MUST", "PKD-01 MUST", "PKD-02 MUST", "PKD-12 MUST"];
    no_call: "the call is not signalled" => ["RNG-02 MUST", "RNG-50 MUST", "IBN-01 SHOULD"];
    pages_are_not_marked: "pages are not marked" => ["LOG-05 SHOULD"];
    configuration_of_another_size: "a configuration of another size" => ["CFG-01 MUST"];
    read_only_is_written: "a read-only field is written" => ["CFG-07 SHOULD"];
    file_is_too_short: "a file that is too short" => ["INF-01 MUST", "INF-09 SHOULD", "PKD-04 SHOULD"];
    status_is_forgotten: "the status is forgotten" => ["RST-04 MUST"];
    reset_leaves_rings: "a reset leaves the rings" => ["RST-03 MUST"];
    crash: "a ring that is not there crashes" => ["RNG-20 CRASH"];
    hang: "it waits for ever" => ["UNK-03 HANG"];
    memory_stays_mapped: "old memory stays mapped" => ["MEM-30 SHOULD"];
    connection_leaves_a_descriptor: "a connection leaves a descriptor" => ["CON-06 SHOULD"];
    features_change: "features change" => ["NEG-04 SHOULD"];
    ring_without_bit_30: "a ring without bit 30 stays disabled" => ["RNG-05 MUST"];
    body_in_parts: "a body in parts is refused" => ["HDR-04 SHOULD"];
    does_not_end: "it does not end" => ["PRG-01 SHOULD"];
    packed_base_of_one_index: "a packed base of one index" => ["PKD-01 MUST", "PKD-02 MUST", "PKD-12 MUST"];
    wrap_counter_stays: "the wrap counter stays" => ["PKD-02 MUST", "PKD-05 SHOULD", "PKD-12 MUST"];
    packed_id_is_the_place: "a packed id is the place" => ["PKD-06 SHOULD"];
    table_is_a_buffer: "a table is a buffer" => ["PKD-07 SHOULD"];
    unwanted_calls: "calls that are not wanted" => ["PKD-08 SHOULD"];
    wrap_bits_are_not_looked_at: "wrap bits are not looked at" => ["PKD-09 SHOULD"];
    packed_chain_is_endless: "a packed chain may be endless" => ["PKD-03 HANG"];
    wrong_table_crashes: "a wrong table crashes" => ["PKD-10 CRASH"];
    memory_is_not_registered: "memory is not registered" => ["PCP-08 MUST"];
    faults_after_the_end: "faults after the end" => ["PCP-09 HANG"];
    touched_too_early: "memory is touched before the acknowledgement" => ["PCP-02 HANG", "PCP-10 MUST"];
    what_was_under_way_is_forgotten: "what was under way is forgotten" => ["PKD-04 SHOULD"];
    under_way_in_a_split_ring: "what was under way in a split ring is forgotten" => ["INF-09 SHOULD", "INF-10 SHOULD"];
    used_again: "what was used is used again" => ["INF-10 SHOULD"];
    socket_of_fd_is_not_served: "a socket of --fd is not served" => ["PRG-03 SHOULD"];
    enabled_is_forgotten: "what was enabled is forgotten" => ["RNG-05 MUST", "RNG-06 SHOULD"];
    old_calls_are_kept: "old calls are kept" => ["RNG-57 SHOULD"];
    state_says_that_a_descriptor_came: "a state says that a descriptor came" => ["DST-01 MUST"];
    stop_does_not_wait: "a stop does not wait" => ["GVB-01 MUST"];
    marked_in_two_steps: "a page is marked in two steps" => ["LOG-09 MUST"];
    state_is_not_taken: "a state is not taken" => ["DST-07 SHOULD"];
    rings_are_not_translated: "rings are not translated" => ["IOM-02 MUST", "IOM-03 SHOULD"];
    old_translation: "an old translation is used" => ["IOM-03 SHOULD"];
    call_is_no_message: "a call is no message" => ["IBN-01 SHOULD"];
    addresses_of_the_guest: "addresses of the guest are not taken" => ["GPA-01 MUST"];
}

/// A folder of a test's own.
fn folder(name: &str) -> PathBuf {
    let folder = std::env::temp_dir().join(format!("covretin-check-{name}.{}", std::process::id()));
    fs::create_dir_all(&folder).expect("a folder");
    folder
}

#[test]
fn known_verdicts_are_no_faults() {
    let folder = folder("known");
    let path = |name: &str| folder.join(name).display().to_string();
    fs::write(path("known"), "# known\nRST-04 MUST # later\n").expect("written");
    let [expect, junit, json, html] = ["expect=known", "junit=xml", "json=json", "html=html"].map(|it| {
        let (option, name) = it.split_once('=').expect("both");
        format!("--{option}={}", path(name))
    });
    let fault = "the status is forgotten";
    let output = run(&["--only=RST-04,RST-05", &expect, &junit, &json, &html], fault);
    assert_eq!(output.status.code(), Some(0), "{output:?}");
    assert!(String::from_utf8_lossy(&output.stdout).contains("(as expected)"));
    assert_eq!(run(&["--only=RST-04"], fault).status.code(), Some(1));
    let read = |name: &str| fs::read_to_string(path(name)).expect("a report");
    assert!(read("xml").contains("failures=\"0\"") && read("xml").contains("RST-05"));
    assert!(read("json").contains("\"id\": \"RST-04\", \"verdict\": \"MUST\"") && read("json").contains("> 28000000"));
    assert!(read("html").contains("<tr id=\"RST-04\">"));
    fs::remove_dir_all(folder).expect("removed");
}

/// A path in a folder, as a word.
fn word(folder: &Path, name: &str) -> String {
    folder.join(name).display().to_string()
}

/// What a run over the device with an image says of one case: its verdict.
fn verdict_over_an_image(case: &str, fault: &str) -> String {
    let folder = folder(case);
    fs::write(folder.join("image"), [0; 4096]).expect("written");
    let image = word(&folder, "image");
    let (only, size) = (format!("--only={case}"), format!("--image={image}"));
    let words = [&only, &size, "--type=gpu", "--limit=0.7", "--", "python3", &device(), "--socket-path=%s", fault, &image];
    let output = checker().args(words).output().expect("it runs");
    fs::remove_dir_all(folder).expect("removed");
    let text = String::from_utf8_lossy(&output.stdout).into_owned();
    text.split_whitespace().nth(1).unwrap_or("").to_string()
}

#[test]
fn a_change_is_told_once_it_is_there() {
    assert_eq!(verdict_over_an_image("CFG-10", ""), "PASS");
    assert_eq!(verdict_over_an_image("CFG-10", "a change is told of that is not there"), "SHOULD");
}

#[test]
fn a_wrong_display_crashes_nobody() {
    assert_eq!(verdict_over_an_image("GPU-01", ""), "PASS");
    assert_eq!(verdict_over_an_image("GPU-01", "a wrong display crashes"), "CRASH");
}

/// What fails no run is told of: without a fault the case passes.
fn is_noted(case: &str, fault: &str) {
    let verdict = |fault: &str| {
        let output = run(&[&format!("--only={case}")], fault);
        String::from_utf8_lossy(&output.stdout).split_whitespace().nth(1).map(str::to_string)
    };
    assert_eq!(verdict("").as_deref(), Some("PASS"));
    assert_eq!(verdict(fault).as_deref(), Some("NOTE"));
}

#[test]
fn what_fails_no_run_is_noted() {
    is_noted("LOG-07", "an eventfd of the log ends it");
    is_noted("INF-13", "a ring waits for its region");
    is_noted("DST-08", "a state is saved while a ring runs");
}

/// A program that is installed below a prefix of its own, whose file of JSON names this program.
fn verdict_of_a_description(name: &str, binary: &str) -> String {
    let prefix = folder(name);
    let descriptions = prefix.join("share/qemu/vhost-user");
    fs::create_dir_all(&descriptions).expect("a folder");
    fs::create_dir_all(prefix.join("bin")).expect("a folder");
    fs::copy(device(), prefix.join("bin/device")).expect("copied");
    let binary = word(&prefix, binary);
    fs::write(
        descriptions.join("50-rng.json"),
        format!("{{\"description\": \"a\", \"type\": \"rng\", \"binary\": \"{binary}\"}}"),
    )
    .expect("written");
    let program = word(&prefix, "bin/device");
    let output = checker().args(["--only=PRG-05", "--", "python3", &program, "--socket-path=%s"]).output().expect("it runs");
    fs::remove_dir_all(prefix).expect("removed");
    String::from_utf8_lossy(&output.stdout).split_whitespace().nth(1).unwrap_or("").to_string()
}

#[test]
fn an_installed_program_is_described() {
    assert_eq!(verdict_of_a_description("described", "bin/device"), "PASS");
    assert_eq!(verdict_of_a_description("undescribed", "bin/another"), "SHOULD");
}

/// A device that is ended with the test.
struct Listening(Child);

impl Drop for Listening {
    fn drop(&mut self) {
        let _ = self.0.kill();
        let _ = self.0.wait();
    }
}

#[test]
fn a_socket_is_checked() {
    let folder = folder("socket");
    let path = folder.join("socket");
    let device = Command::new("python3")
        .arg(device())
        .arg(format!("--socket-path={}", path.display()))
        .stdin(Stdio::null())
        .spawn()
        .expect("it starts");
    let device = Listening(device);
    while !path.exists() {
        std::thread::yield_now();
    }
    let output = checker().args(["--type=rng", "--only=HDR-01,RNG-01,MEM-26,PRG"]).arg(&path).output().expect("it runs");
    let text = String::from_utf8_lossy(&output.stdout).into_owned();
    assert_eq!(output.status.code(), Some(0), "{text}");
    assert!(text.contains("no fault seen in 3 cases"), "{text}");
    drop(device);
    let gone = checker().args(["--limit=0.1", "--only=HDR-01"]).arg(&path).output().expect("it runs");
    assert_eq!(gone.status.code(), Some(3));
    fs::remove_dir_all(folder).expect("removed");
}

#[test]
fn statuses_say_of_which_kind_an_error_is() {
    let status = |words: &[&str]| checker().args(words).output().expect("it runs").status.code();
    assert_eq!(status(&["--what"]), Some(2));
    assert_eq!(status(&["--only=NONE-1", "--", "true", "%s"]), Some(2));
    assert_eq!(status(&["--", "/nowhere/program", "%s"]), Some(3));
    assert_eq!(status(&["--", "true", "%s"]), Some(3));
    assert_eq!(status(&["--expect=/nowhere/file", "--", "true", "%s"]), Some(4));
}

#[test]
fn cases_are_listed_and_explained() {
    let list = checker().arg("--list").output().expect("it runs");
    let text = String::from_utf8_lossy(&list.stdout).into_owned();
    assert!(text.lines().count() > 317 && text.contains("\ttodo"));
    let explained = checker().args(["--explain", "RNG-04"]).output().expect("it runs");
    let text = String::from_utf8_lossy(&explained.stdout).into_owned();
    assert!(text.starts_with("RNG-04 MUST") && text.contains("without causing any side effects"), "{text}");
    assert_eq!(checker().args(["--explain", "RNG-999"]).output().expect("it runs").status.code(), Some(2));
}

/// A frontend that waits for its reply for ever, and crashes by one that is too short.
const FRONTEND: &str = "\
import os, signal, socket, struct, sys
backend = socket.socket(socket.AF_UNIX)
backend.connect(sys.argv[1])
backend.sendall(struct.pack('<III', 1, 1, 0))
if len(backend.recv(20)) == 16:
    os.kill(os.getpid(), signal.SIGSEGV)
";

#[test]
fn a_frontend_that_hangs_is_found() {
    let options = ["--frontend", "--limit=0.3", "--only=FE-00,FE-01,FE-02,FE-06"];
    let output = checker().args(options).args(["--", "python3", "-c", FRONTEND, "%s"]).output().expect("it runs");
    let expected: BTreeSet<String> = ["FE-01 HANG", "FE-06 CRASH"].iter().map(|it| it.to_string()).collect();
    assert_eq!(failed(&output), expected, "{}", String::from_utf8_lossy(&output.stdout));
    assert_eq!(output.status.code(), Some(1));
    let missing = checker().args(["--frontend", "--", "/nowhere/program", "%s"]).output().expect("it runs");
    assert_eq!(missing.status.code(), Some(3));
}
