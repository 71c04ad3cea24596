// SPDX-License-Identifier: Apache-2.0
//! What covretin-tap says of sessions that are written down.
use std::fs::{remove_file, write};
use std::process::{Command, Output};

pub const STANDARD: &str = "--profile=standard";
pub const VHOST: &str = "--profile=vhost";

pub fn tap(words: &[&str]) -> Output {
    Command::new(env!("CARGO_BIN_EXE_covretin-tap")).args(words).output().unwrap()
}

pub fn text(bytes: &[u8]) -> String {
    String::from_utf8(bytes.to_vec()).unwrap()
}

/// Each line with this mark, behind the line that it is about.
fn marked(output: &Output, mark: char) -> Vec<String> {
    let mut found = Vec::new();
    let mut about = "";
    let shown = text(&output.stdout);
    for line in shown.lines() {
        match line.strip_prefix(['!', '~']) {
            Some(_) if line.starts_with(mark) => found.push(format!("{} {line}", about.trim_start())),
            Some(_) => {}
            None => about = line,
        }
    }
    found
}

/// Each line that says what is not wrong, though the letter has it not, or nobody replied to it.
pub fn notes(output: &Output) -> Vec<String> {
    marked(output, '~')
}

/// Each line that says what is wrong, behind the line that it is about. They are told with the status, too.
pub fn complaints(output: &Output) -> Vec<String> {
    let found = marked(output, '!');
    assert_eq!("", text(&output.stderr));
    assert_eq!(Some(i32::from(!found.is_empty())), output.status.code());
    found
}

/// A message of a session by hand: of the backend where its flags say that it is a reply; with so many descriptors.
pub type Said = (Vec<u8>, usize);

/// Whose message it is, its bytes, and with how many descriptors.
pub type Sent = (Side, Vec<u8>, usize);

#[derive(Clone, Copy, Debug, PartialEq, Eq)]
pub enum Side {
    Frontend,
    Backend,
}

/// The recording of a session: its messages are a millisecond apart, and the backend ends at the ninth second.
pub fn recording(session: &[Sent]) -> String {
    let line = |(at, (side, bytes, fds)): (usize, &Sent)| {
        let way = if *side == Side::Backend { "B>F" } else { "F>B" };
        let hex: String = bytes.iter().map(|it| format!("{it:02x}")).collect();
        let fds = vec!["\"socket\""; *fds].join(", ");
        format!(
            "{{\"t\": {}.{:03}, \"session\": 1, \"way\": \"{way}\", \"bytes\": \"{hex}\", \"fds\": [{fds}], \"fds_at\": [], \
             \"body_fds\": 0, \"cuts\": [], \"short\": false}}\n",
            at / 1000,
            at % 1000
        )
    };
    let end = "{\"t\": 9, \"session\": 1, \"way\": \"B>F\", \"end\": \"eof\"}\n";
    session.iter().enumerate().map(line).collect::<String>() + end
}

/// What the tap says of a session.
#[track_caller]
pub fn replayed(profile: &str, session: &[Sent]) -> Output {
    let caller = std::panic::Location::caller();
    let file = std::env::temp_dir().join(format!("covretin-tap-{}-{}-{}", std::process::id(), caller.line(), caller.column()));
    write(&file, recording(session)).unwrap();
    let output = tap(&[profile, "--replay", file.to_str().unwrap()]);
    remove_file(&file).unwrap();
    output
}

/// What is wrong with a session, behind what it is about.
#[track_caller]
pub fn wrong_lines(profile: &str, session: &[Sent]) -> Vec<String> {
    complaints(&replayed(profile, session))
}

/// The same, without what it is about. What has the flag of a reply is the backend's.
#[track_caller]
pub fn wrong(profile: &str, session: &[Said]) -> Vec<String> {
    let side = |bytes: &[u8]| if bytes.get(4).map_or(false, |flags| flags & 4 != 0) { Side::Backend } else { Side::Frontend };
    let session: Vec<Sent> = session.iter().map(|(bytes, fds)| (side(bytes), bytes.clone(), *fds)).collect();
    wrong_lines(profile, &session).iter().map(|it| it.split_once(" ! ").unwrap().1.to_string()).collect()
}
