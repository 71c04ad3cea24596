// SPDX-License-Identifier: Apache-2.0
//! The pages that covretin-tap writes of sessions: each is well formed, has an arrow for each message, and no markup of a peer.
mod common;

use std::fs::{read_dir, read_to_string, remove_file, write};
use std::io::{Read, Write};
use std::os::unix::net::{UnixListener, UnixStream};
use std::path::{Path, PathBuf};
use std::process::{Command, Stdio};

use common::tap::*;
use common::*;

fn recordings() -> Vec<PathBuf> {
    let folder = Path::new(env!("CARGO_MANIFEST_DIR")).join("tests/recordings");
    let mut files: Vec<PathBuf> = read_dir(folder).unwrap().map(|it| it.unwrap().path()).collect();
    files.sort();
    files
}

/// A file of this test alone.
fn file_of(name: &str) -> PathBuf {
    std::env::temp_dir().join(format!("covretin-page-{}-{name}", std::process::id()))
}

/// The page of a recording.
fn page_of(recording: &Path, name: &str) -> String {
    let page = file_of(name);
    tap(&[&format!("--html={}", page.display()), "--replay", recording.to_str().unwrap()]);
    let written = read_to_string(&page).unwrap();
    remove_file(&page).unwrap();
    written
}

/// The page of a recording that has these lines.
fn page_of_lines(lines: &str, name: &str) -> String {
    let recording = file_of(&format!("{name}.jsonl"));
    write(&recording, lines).unwrap();
    let page = page_of(&recording, name);
    remove_file(&recording).unwrap();
    page
}

// ---- whether a page is well formed

/// The elements that have no end.
const SINGLE: [&str; 2] = ["meta", "input"];
/// The elements whose text is no markup.
const RAW: [&str; 2] = ["style", "script"];

/// Each element of a page that is well formed, in its order: its name and its attributes. It panics where the page is not.
fn elements(page: &str) -> Vec<(String, String)> {
    let mut rest = page.strip_prefix("<!DOCTYPE html>\n").expect("a page begins by what it is");
    let (mut open, mut found): (Vec<String>, Vec<(String, String)>) = (Vec::new(), Vec::new());
    while let Some((before, behind)) = rest.split_once('<') {
        assert_text(before);
        let (tag, behind) = behind.split_once('>').expect("a tag ends");
        rest = behind;
        if let Some(name) = tag.strip_prefix('/') {
            assert_eq!(Some(name), open.pop().as_deref(), "{tag}");
            continue;
        }
        let (name, attributes) = tag.split_once(' ').unwrap_or((tag, ""));
        assert_attributes(attributes);
        found.push((name.to_string(), attributes.to_string()));
        if SINGLE.contains(&name) {
            continue;
        }
        assert!(name.bytes().all(|it| it.is_ascii_lowercase() || it.is_ascii_digit()), "{tag}");
        open.push(name.to_string());
        if RAW.contains(&name) {
            rest = &rest[rest.find(&format!("</{name}>")).expect("its text ends")..];
        }
    }
    assert_eq!((Vec::<String>::new(), "\n"), (open, rest));
    found
}

/// Text outside of tags: each '&' begins the name of a letter.
fn assert_text(text: &str) {
    assert!(!text.contains('>'), "{text}");
    for behind in text.split('&').skip(1) {
        let name = behind.split_once(';').unwrap_or_else(|| panic!("{text}")).0;
        assert!(["amp", "lt", "gt", "quot", "#39"].contains(&name), "{text}");
    }
}

/// Each attribute is a name and a value between quotes; '/' ends an element that has no end.
fn assert_attributes(attributes: &str) {
    let mut rest = attributes.trim_end_matches('/');
    while !rest.is_empty() {
        let (name, behind) = rest.split_once("=\"").unwrap_or_else(|| panic!("{attributes}"));
        assert!(name.trim_start().bytes().all(|it| it.is_ascii_lowercase() || it == b'-'), "{attributes}");
        let (value, behind) = behind.split_once('"').unwrap_or_else(|| panic!("{attributes}"));
        assert_text(value);
        rest = behind;
    }
}

/// How many elements have this text in their attributes.
fn count(elements: &[(String, String)], part: &str) -> usize {
    elements.iter().filter(|(_, attributes)| attributes.contains(part)).count()
}

// ---- the pages

#[test]
fn each_recording_has_a_page_with_an_arrow_for_each_message() {
    for recording in recordings() {
        let name = recording.file_stem().unwrap().to_str().unwrap();
        let recorded = read_to_string(&recording).unwrap();
        let elements = elements(&page_of(&recording, name));
        let lines = |way: &str| recorded.lines().filter(|line| line.contains(way) && line.contains("\"code\": ")).count();
        let arrows: Vec<&String> =
            elements.iter().filter(|(element, _)| element == "details").map(|(_, classes)| classes).collect();
        let arrows_of = |side: &str| arrows.iter().filter(|it| it.contains(&format!("class=\"row {side}"))).count();
        assert_eq!(lines(""), arrows.len(), "{name}");
        for (way, side) in [("\"F>B\"", "f"), ("\"B>F\"", "b"), ("\"rev:F>B\"", "f channel"), ("\"rev:B>F\"", "b channel")] {
            let others = if side.len() == 1 { arrows_of(&format!("{side} channel")) } else { 0 };
            assert_eq!(lines(way), arrows_of(side) - others, "{name} {way}");
        }
        assert!(count(&elements, "class=\"row") >= recorded.lines().count(), "{name}");
    }
}

/// Each descriptor has the colour that the legend says, and the same name has the same.
#[test]
fn descriptors_keep_their_colours() {
    for recording in recordings() {
        let page = page_of(&recording, "colours");
        let mut legend = std::collections::BTreeMap::new();
        for part in page.split("<button type=\"button\" class=\"fd ").skip(1) {
            let (class, name) = part.split_once("\">").unwrap();
            assert_eq!(None, legend.insert(name.split_once('<').unwrap().0, class));
        }
        let chips: Vec<&str> = page.split("<span class=\"fd ").skip(1).collect();
        for chip in &chips {
            let (class, name) = chip.split_once("\">").unwrap();
            let name = name.split_once('<').unwrap().0;
            let name = name.split_once(" ×").map_or(name, |(name, _)| name);
            assert_eq!(Some(&class), legend.get(name), "{name}");
        }
        assert!(!chips.is_empty() && !legend.is_empty());
    }
}

/// A page asks for nothing: a browser refuses whatever it is not told of here.
#[test]
fn a_page_stands_alone() {
    let page = page_of(&recordings()[0], "alone");
    for outside in ["http:", "https:", "src=", "href=", "@import", "url(", "fetch(", "XMLHttpRequest"] {
        assert!(!page.contains(outside), "{outside}");
    }
    assert!(page.contains("content=\"default-src 'none'; style-src 'unsafe-inline'; script-src 'sha256-"));
}

/// By its sum a browser runs the script of the page, and none that a peer would write.
#[test]
fn the_script_has_the_sum_that_the_page_says() {
    let page = page_of(&recordings()[0], "sum");
    let script = page.split_once("<script>").unwrap().1.split_once("</script>").unwrap().0;
    let said = page.split_once("'sha256-").unwrap().1.split_once('\'').unwrap().0;
    let mut child = Command::new("sha256sum").stdin(Stdio::piped()).stdout(Stdio::piped()).spawn().unwrap();
    child.stdin.take().unwrap().write_all(script.as_bytes()).unwrap();
    let output = text(&child.wait_with_output().unwrap().stdout);
    assert_eq!(base64(&hex(output.split(' ').next().unwrap())), said);
}

fn base64(bytes: &[u8]) -> String {
    const LETTERS: &[u8; 64] = b"ABCDEFGHIJKLMNOPQRSTUVWXYZabcdefghijklmnopqrstuvwxyz0123456789+/";
    let group = |bytes: &[u8]| {
        let number = bytes.iter().chain(&[0; 3]).take(3).fold(0, |number, byte| number << 8 | usize::from(*byte));
        let letters = [18, 12, 6, 0].map(|shift| char::from(LETTERS[number >> shift & 63]));
        let padded = letters.iter().enumerate().map(|(at, letter)| if at <= bytes.len() { *letter } else { '=' });
        padded.collect::<String>()
    };
    bytes.chunks(3).map(group).collect()
}

/// A peer names a file, ends a stream and sends bytes: none of it is markup.
#[test]
fn a_hostile_peer_writes_no_markup() {
    const HOSTILE: &str = "</span></summary><script>alert(1)</script><img src=x onerror='alert(2)'><!--&lt;\u{202e}";
    let digits: String = HOSTILE.bytes().map(|byte| format!("{byte:02x}")).collect();
    let line = |rest: &str| format!("{{\"t\": 1, \"session\": 1, {rest}}}\n");
    let sent = format!(
        "\"way\": \"F>B\", \"bytes\": \"0d0000000100000000000000\", \"fds\": [\"file:/memfd:{HOSTILE}\"], \"fds_at\": [0], \"body_fds\": 0, \
         \"cuts\": [], \"short\": false"
    );
    let lines = [
        line(&sent),
        line(&format!("\"way\": \"F>B\", \"end\": \"{HOSTILE}\"")),
        line(&format!("\"way\": \"B>F\", \"raw\": \"{digits}\"")),
        line(&format!("\"way\": \"-\", \"connect\": \"{HOSTILE}\"")),
    ];
    let recording = file_of("hostile.jsonl");
    write(&recording, lines.concat()).unwrap();
    let page_file = file_of("hostile");
    tap(&["--hex", "--html", page_file.to_str().unwrap(), "--replay", recording.to_str().unwrap()]);
    let page = read_to_string(&page_file).unwrap();
    for file in [&recording, &page_file] {
        remove_file(file).unwrap();
    }
    let elements = elements(&page);
    assert_eq!(1, elements.iter().filter(|(name, _)| name == "script").count());
    assert!(!elements.iter().any(|(name, attributes)| name == "img" || attributes.contains("onerror")));
    assert!(page.contains("&lt;script&gt;alert(1)&lt;/script&gt;") && !page.contains('\u{202e}'));
}

/// What is wrong is red, and nothing else.
#[test]
fn only_what_is_wrong_is_red() {
    let owner = (Side::Frontend, message(3, WANTS, &[]), 0);
    let wrong = (Side::Backend, message(3, REPLIES, &[0; 8]), 1);
    let page = page_of_lines(&recording(&[owner, wrong]), "red");
    assert_eq!(1, count(&elements(&page), "class=\"verdict wrong\""));
    assert!(page.contains("<em class=\"found wrong\"><b>wrong:</b> nobody awaits a reply to SET_OWNER"));
    let source = recordings().into_iter().find(|it| it.ends_with("mig_native-src.jsonl")).unwrap();
    let page = page_of(&source, "taken");
    let (found, wrong) = (count(&elements(&page), "class=\"found\""), count(&elements(&page), "wrong\""));
    assert_eq!((1, 0), (found, wrong));
    assert!(page.contains("<em class=\"found\"><b>not by the letter:</b> the reply to SET_LOG_BASE has 8 bytes"));
}

/// A page that can't be written, or that would be written over its own recording, is status 4, and its path is named.
#[test]
fn a_page_that_cannot_be_written() {
    let recording = recordings().remove(0);
    let recording = recording.to_str().unwrap();
    for path in ["/dev/full", "/none/page.html"] {
        let output = tap(&[&format!("--html={path}"), "--replay", recording]);
        assert_eq!(Some(4), output.status.code(), "{path}");
        assert!(text(&output.stderr).starts_with(&format!("covretin-tap: {path}: ")), "{}", text(&output.stderr));
    }
    let copy = file_of("copy");
    std::fs::copy(recording, &copy).unwrap();
    let output = tap(&["--html", copy.to_str().unwrap(), "--replay", copy.to_str().unwrap()]);
    let said = format!("covretin-tap: {}: it is the recording\n", copy.display());
    assert_eq!((Some(4), said), (output.status.code(), text(&output.stderr)));
    assert_eq!(read_to_string(recording).unwrap(), read_to_string(&copy).unwrap());
    remove_file(&copy).unwrap();
}

/// A live session has the page of its recording, which a replay writes.
#[test]
fn a_live_session_has_the_same_page() {
    let [listen, connect, page, record] = ["listen", "connect", "live.html", "live.jsonl"].map(file_of);
    let backend = UnixListener::bind(&connect).unwrap();
    let mut child = Command::new(env!("CARGO_BIN_EXE_covretin-tap"))
        .args(["--count=1", "--html", page.to_str().unwrap(), "--record", record.to_str().unwrap()])
        .args([&listen, &connect])
        .stdout(Stdio::null())
        .spawn()
        .unwrap();
    let frontend = loop {
        match UnixStream::connect(&listen) {
            Ok(frontend) => break frontend,
            Err(_) => assert_eq!(None, child.try_wait().unwrap()),
        }
    };
    (&frontend).write_all(&message(1, ASKS, &[])).unwrap();
    let (backend, _) = backend.accept().unwrap();
    (&backend).read_exact(&mut [0; 12]).unwrap();
    (&backend).write_all(&message(1, REPLIES, &PROTOCOL.to_le_bytes())).unwrap();
    (&frontend).read_exact(&mut [0; 20]).unwrap();
    drop((frontend, backend));
    assert_eq!(Some(0), child.wait().unwrap().code());
    let live = read_to_string(&page).unwrap();
    let rows = |page: &str| page.split_once("<main>").unwrap().1.split_once("</main>").unwrap().0.to_string();
    assert_eq!(rows(&page_of(&record, "replayed")), rows(&live));
    assert_eq!(2, elements(&live).iter().filter(|(name, _)| name == "details").count());
    assert!(live.contains("passed on to "));
    for file in [&connect, &page, &record] {
        remove_file(file).unwrap();
    }
}

/// Rows are written as they come, a hundred to a section, and none is left out.
#[test]
fn a_long_session_has_all_its_rows() {
    let asks = (Side::Frontend, message(1, ASKS, &[]), 0);
    let replies = (Side::Backend, message(1, REPLIES, &PROTOCOL.to_le_bytes()), 0);
    let session: Vec<Sent> = (0..1000).flat_map(|_| [asks.clone(), replies.clone()]).collect();
    let page = page_of_lines(&recording(&session), "long");
    let elements = elements(&page);
    assert_eq!(2001, count(&elements, "class=\"row"));
    assert_eq!(21, elements.iter().filter(|(name, _)| name == "section").count());
    assert!(page.contains("<option value=\"GET_FEATURES\">GET_FEATURES: 2000</option>"));
}
