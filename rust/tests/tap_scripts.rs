// SPDX-License-Identifier: Apache-2.0
//! The sessions by which the library's own backend is tested, as covretin-tap judges them: it says that a request is refused
//! exactly where that backend refuses it before its device is asked, and finds nothing wrong with what that backend replies.
//!
//! Ignored, since the sessions are those of the checkout: in the folder COVRETIN_SCRIPTS.
mod common;

use std::collections::{BTreeSet, VecDeque};
use std::fs::{read_dir, read_to_string};
use std::path::PathBuf;

use common::tap::*;
use common::*;
use covretin::vhost_user::message::FrontendReq;

/// A session of a script.
#[derive(Default)]
struct Script {
    title: String,
    profile: Option<String>,
    messages: Vec<Sent>,
    /// Requests without an answer, by their place among the messages.
    open: VecDeque<usize>,
    /// The device was asked by the first of them.
    is_asked: bool,
    /// Requests that were refused before the device was asked.
    refused: BTreeSet<usize>,
    /// It has something else than messages that come whole.
    is_other: bool,
    /// Its device is the script's, so that one sees whether it is asked.
    is_scripted: bool,
}

/// Requests that nobody serves, of which a tap has no part, by their codes: SET_LOG_FD, SEND_RARP, IOTLB_MSG, SET_VRING_ENDIAN,
/// VRING_KICK, SET_STATUS.
const UNSERVED: [u8; 6] = [7, 19, 22, 23, 35, 39];

impl Script {
    fn read(&mut self, word: &str, rest: &str) {
        match word {
            "over" => self.is_scripted = rest == "scripted",
            "profile" => self.profile = Some(rest.to_string()),
            "agreed" => self.agree(rest),
            "request" => self.read_message(Side::Frontend, rest),
            "reply" => self.read_message(Side::Backend, rest),
            "device" => self.is_asked = true,
            "answer" => self.read_answer(rest),
            "gives" | "state" | "cuts" => {}
            _ => self.is_other = true,
        }
    }

    /// Both sides agree on these protocol features; the virtio features are only offered.
    fn agree(&mut self, features: &str) {
        let features = u64::from_str_radix(features.trim_start_matches("0x"), 16).unwrap();
        let number = |code, flags, number: u64| message(code, flags, &number.to_le_bytes());
        let offered = number(15, REPLIES, features | 8);
        self.messages.extend([
            (Side::Frontend, message(1, ASKS, &[]), 0),
            (Side::Backend, number(1, REPLIES, PROTOCOL), 0),
            (Side::Frontend, message(15, ASKS, &[]), 0),
            (Side::Backend, offered, 0),
            (Side::Frontend, number(16, ASKS, features), 0),
        ]);
    }

    /// A line with a message, or with more of the one before.
    fn read_message(&mut self, side: Side, rest: &str) {
        let (fds, digits) = match rest.strip_prefix('[').and_then(|rest| rest.split_once(']')) {
            Some((fds, digits)) => (fds.split(',').filter(|it| !it.trim().is_empty()).count(), digits),
            None => (0, rest),
        };
        let digits: String = digits.split(' ').collect();
        if digits.len() % 2 != 0 || !digits.chars().all(|it| it.is_ascii_hexdigit()) {
            self.is_other = true;
            return;
        }
        match self.messages.last_mut().filter(|(last, bytes, _)| *last == side && is_part(bytes)) {
            Some((_, bytes, count)) => {
                bytes.extend(hex(&digits));
                *count += fds;
            }
            None => {
                self.messages.push((side, hex(&digits), fds));
                if side == Side::Frontend {
                    self.open.push_back(self.messages.len() - 1);
                }
            }
        }
    }

    fn read_answer(&mut self, rest: &str) {
        let request = self.open.pop_front();
        let is_unserved =
            request.map_or(false, |at| UNSERVED.contains(&self.messages[at].1[0])) && rest == "err InvalidOperation";
        // (one of a number that is no request's is told, whatever the device says)
        let code = request.and_then(|at| self.messages[at].1.get(..4)?.try_into().ok()).map(u32::from_le_bytes);
        let is_unknown = code.map_or(false, |code| FrontendReq::try_from(code).is_err());
        let is_refused = is_unknown || !self.is_asked && rest.starts_with("err") && !is_unserved;
        self.is_asked = false;
        match request {
            Some(at) if is_refused => drop(self.refused.insert(at)),
            Some(_) => {}
            None => self.is_other = true,
        }
    }

    /// Compares what the tap says: how many requests it judged.
    fn compare(&self) -> usize {
        let profile = format!("--profile={}", self.profile.as_deref().unwrap_or("vhost"));
        let mut refused = BTreeSet::new();
        for line in wrong_lines(&profile, &self.messages) {
            // (a device that fails to give a value has no reply)
            if line.contains(" B>F end ! ") || line.ends_with(" was not replied to, and later requests go on") {
                continue;
            }
            let (seconds, rest) = line.split_once(' ').unwrap();
            let at = (seconds.parse::<f64>().unwrap() * 1000.0).round() as usize;
            assert!(rest.starts_with("1 F>B "), "{}: {line}", self.title);
            refused.insert(at);
        }
        if self.is_scripted {
            assert_eq!(self.refused, refused, "{}", self.title);
        }
        self.messages.iter().filter(|(side, ..)| *side == Side::Frontend).count()
    }
}

fn is_part(bytes: &[u8]) -> bool {
    let size = bytes.get(8..12).map_or(0, |it| u32::from_le_bytes([it[0], it[1], it[2], it[3]]) as usize);
    size <= 4096 && bytes.len() < 12 + size
}

/// The served sessions of a file.
fn scripts_of(file: &PathBuf) -> Vec<Script> {
    let mut scripts: Vec<Script> = Vec::new();
    for line in read_to_string(file).unwrap().lines().filter(|line| !line.is_empty() && !line.starts_with('#')) {
        match (line.split_once(' ').unwrap_or((line, "")), scripts.last_mut()) {
            (("session", title), _) => scripts.push(Script { title: title.to_string(), ..Script::default() }),
            ((word, rest), Some(script)) => script.read(word, rest),
            _ => panic!("{}: {line}", file.display()),
        }
    }
    scripts
}

#[test]
#[ignore]
fn each_served_session() {
    let folder = std::env::var("COVRETIN_SCRIPTS").expect("COVRETIN_SCRIPTS is the folder of the scripts");
    let files = read_dir(folder).unwrap().map(|it| it.unwrap().path());
    // (of these files the streams are no messages, or the device refuses or has no memory, so that nothing is replied)
    let others = ["served_wrong", "served_ahead", "served_cuts", "served_hungry", "served_locked", "served_handles"];
    let name = |file: &PathBuf| file.file_stem().unwrap().to_str().unwrap().to_string();
    let served = files.filter(|file| name(file).starts_with("served_") && !others.contains(&name(file).as_str()));
    let scripts = served.flat_map(|file| scripts_of(&file));
    let whole = scripts.filter(|script| script.title.starts_with("served ") && !script.is_other && script.open.is_empty());
    let judged: usize = whole.map(|script| script.compare()).sum();
    assert!(judged > 500, "{judged} requests");
}
