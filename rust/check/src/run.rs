// SPDX-License-Identifier: Apache-2.0
//! Runs cases, and says what came of each.
use std::collections::HashMap;
use std::fmt;
use std::time::Instant;

use crate::cases::{Case, Play, Seen};
use crate::connection::Stop;
use crate::table::{Level, Row};
use crate::target::{Health, Target};
use crate::trace::Went;

/// How often a case has to fail before it is called so.
pub const TRIES: u32 = 3;
/// How often a connection that ends before its first reply is made again: some programs listen anew after each.
const RESETS: u32 = 4;

#[derive(Clone, Copy, Debug, PartialEq, Eq, Hash)]
pub enum Verdict {
    Pass,
    Must,
    Should,
    Note,
    /// A signal ended the program, or it said that it is broken.
    Crash,
    /// It lives, and serves nobody.
    Hang,
    /// The case has nothing to try here.
    Skip,
    /// The checker could not try it.
    Trouble,
}

pub const VERDICTS: [Verdict; 8] = [
    Verdict::Pass,
    Verdict::Must,
    Verdict::Should,
    Verdict::Note,
    Verdict::Crash,
    Verdict::Hang,
    Verdict::Skip,
    Verdict::Trouble,
];

impl fmt::Display for Verdict {
    fn fmt(&self, f: &mut fmt::Formatter<'_>) -> fmt::Result {
        f.pad(match self {
            Verdict::Pass => "PASS",
            Verdict::Must => "MUST",
            Verdict::Should => "SHOULD",
            Verdict::Note => "NOTE",
            Verdict::Crash => "CRASH",
            Verdict::Hang => "HANG",
            Verdict::Skip => "SKIP",
            Verdict::Trouble => "TROUBLE",
        })
    }
}

impl Verdict {
    pub fn of_level(level: Level) -> Self {
        match level {
            Level::Must => Verdict::Must,
            Level::Should => Verdict::Should,
            Level::Note => Verdict::Note,
        }
    }

    pub fn of_name(name: &str) -> Option<Self> {
        VERDICTS.into_iter().find(|it| it.to_string() == name)
    }

    /// Whether it is a fault; a SHOULD only under --strict. A NOTE is none.
    pub fn is_fault(self, strict: bool) -> bool {
        matches!(self, Verdict::Must | Verdict::Crash | Verdict::Hang) || strict && self == Verdict::Should
    }

    fn is_final(self) -> bool {
        matches!(self, Verdict::Pass | Verdict::Skip | Verdict::Crash)
    }
}

/// What came of a case.
pub struct Outcome {
    pub row: &'static Row,
    pub verdict: Verdict,
    pub seen: String,
    /// What was sent and received, where it did not pass.
    pub trace: Vec<Went>,
    pub seconds: f64,
    /// Whether --expect has just this verdict.
    pub is_expected: bool,
}

impl Outcome {
    pub fn new(row: &'static Row, verdict: Verdict, seen: String) -> Self {
        Outcome { row, verdict, seen, trace: Vec::new(), seconds: 0.0, is_expected: false }
    }

    /// Whether it makes the run fail.
    pub fn fails(&self, strict: bool) -> bool {
        !self.is_expected && self.verdict.is_fault(strict)
    }
}

/// What a file of --expect says: the verdict of each case that it names.
pub fn expectations(text: &str) -> Result<HashMap<String, Verdict>, String> {
    let mut found = HashMap::new();
    for (at, line) in text.lines().enumerate() {
        let line = line.split('#').next().unwrap_or("").trim();
        if line.is_empty() {
            continue;
        }
        let mut words = line.split_whitespace();
        let verdict = words.next().zip(words.next()).and_then(|(id, verdict)| Some((id, Verdict::of_name(verdict)?)));
        let (id, verdict) = verdict.ok_or_else(|| format!("line {}: no case and its verdict: {line}", at + 1))?;
        found.insert(id.to_string(), verdict);
    }
    Ok(found)
}

/// Tries a case once: whether it holds, and what was seen.
fn play(target: &mut Target, case: Play) -> Result<Seen, Stop> {
    let mut left = RESETS;
    loop {
        target.trace.clear();
        let outcome = case(target);
        let nothing_came = !target.trace.has_received();
        left -= 1;
        match outcome {
            Err(Stop::HungUp(_)) if nothing_came && left > 0 => target.rest(),
            outcome => return outcome,
        }
    }
}

/// The verdict of a case that was tried, and of what the program is afterwards.
fn judge(row: &Row, persists: bool, outcome: Result<Seen, Stop>, health: Health) -> (Verdict, String) {
    let level = Verdict::of_level(row.level);
    let (verdict, seen) = match outcome {
        Ok(Seen { holds: true, text }) => (Verdict::Pass, text),
        Ok(Seen { holds: false, text }) => (level, text),
        Err(stop @ Stop::Skip(_)) => (Verdict::Skip, stop.to_string()),
        Err(stop @ Stop::Trouble(_)) => (Verdict::Trouble, stop.to_string()),
        Err(stop) => (level, stop.to_string()),
    };
    match health {
        Health::Well => (verdict, seen),
        Health::Crashed(why) => (Verdict::Crash, format!("{seen}; {why}")),
        Health::Deaf(why) => (Verdict::Hang, format!("{seen}; {why}")),
        Health::Ended(why) if persists => {
            (if verdict == Verdict::Pass { level } else { verdict }, format!("{seen}; the process has ended, {why}"))
        }
        Health::Ended(_) => (verdict, seen),
    }
}

/// Tries a case; one that fails is tried again.
pub fn run(target: &mut Target, row: &'static Row, case: &Case) -> Outcome {
    let began = Instant::now();
    let mut outcome = Outcome::new(row, Verdict::Trouble, String::new());
    for turn in 1..=TRIES {
        let played = play(target, case.1);
        let trace = target.trace.all();
        let health = target.health();
        let (verdict, seen) = judge(row, target.persists, played, health);
        if turn > 1 && verdict == Verdict::Pass {
            outcome.seen = format!("{seen} (unsteady: at first {}, {})", outcome.verdict, outcome.seen);
        } else {
            outcome.seen = seen;
        }
        outcome.verdict = verdict;
        outcome.trace = if matches!(verdict, Verdict::Pass | Verdict::Skip) { Vec::new() } else { trace };
        if verdict.is_final() {
            break;
        }
    }
    outcome.seconds = began.elapsed().as_secs_f64();
    outcome
}

#[cfg(test)]
mod tests {
    use super::*;

    #[test]
    fn expectations_are_read() {
        let found = expectations("# known\nHDR-02 NOTE # since 7.2\n\nRNG-04 MUST\n").unwrap();
        assert_eq!(found.len(), 2);
        assert_eq!(found["RNG-04"], Verdict::Must);
        assert!(expectations("HDR-02").is_err() && expectations("HDR-02 BAD").is_err());
    }

    #[test]
    fn only_faults_fail() {
        let fails = |it: Verdict| (it.is_fault(false), it.is_fault(true));
        assert_eq!(fails(Verdict::Must), (true, true));
        assert_eq!(fails(Verdict::Should), (false, true));
        assert_eq!(fails(Verdict::Note), (false, false));
        assert_eq!(fails(Verdict::Crash), (true, true));
        assert_eq!(fails(Verdict::Hang), (true, true));
        assert_eq!(fails(Verdict::Skip), (false, false));
    }
}
