// SPDX-License-Identifier: Apache-2.0
//! Looks for faults in a vhost-user backend, case by case: `covretin-check PATH`. docs/CONFORMANCE.md says what the verdicts mean.
mod cases;
mod connection;
mod device;
mod frontend;
#[path = "../../src/tap/markup.rs"]
mod markup;
mod options;
mod packed;
mod patience;
mod report;
mod ring;
mod run;
mod system;
mod table;
mod target;
mod trace;
mod wire;

use std::collections::HashMap;
use std::env::args_os;
use std::ffi::OsString;
use std::fs;
use std::io::{self, Write};
use std::path::Path;
use std::process::ExitCode;

use cases::Case;
use connection::Stop;
use options::{Asked, Options, Subject};
use run::{Outcome, Verdict};
use table::Row;
use target::{Place, Target};

/// A fault was seen.
const FAULT: u8 = 1;
/// Wrong arguments.
const REFUSED: u8 = 2;
/// The program cannot be started, or nobody listens.
const MISSING: u8 = 3;
/// A file, or the output, cannot be used.
const FAILED: u8 = 4;

/// Why the program ends early: its status, and a text.
struct Failure(u8, String);

impl From<io::Error> for Failure {
    fn from(cause: io::Error) -> Self {
        Failure(FAILED, cause.to_string())
    }
}

fn main() -> ExitCode {
    let done = match options::parse(args_os().skip(1)) {
        Ok(Asked::Help) => say(&format!("{}\n{}", options::USAGE, options::HELP)),
        Ok(Asked::Version) => say(&format!("covretin-check {}", env!("CARGO_PKG_VERSION"))),
        Ok(Asked::List) => list(),
        Ok(Asked::Explain(id)) => explain(&id),
        Ok(Asked::Check(options)) => check(&options),
        Err(wrong) => Err(Failure(REFUSED, format!("{wrong}\n{}", options::USAGE))),
    };
    match done {
        Ok(status) => ExitCode::from(status),
        Err(Failure(status, why)) => {
            eprintln!("covretin-check: {why}");
            ExitCode::from(status)
        }
    }
}

fn say(text: &str) -> Result<u8, Failure> {
    writeln!(io::stdout(), "{text}")?;
    Ok(0)
}

/// What each case does, by its number.
fn programmed() -> HashMap<&'static str, &'static Case> {
    cases::all().map(|it| (it.0, it)).collect()
}

fn list() -> Result<u8, Failure> {
    let programmed = programmed();
    let mut text = String::from("id\tlevel\tside\tsection\tprovoked by\texpected\tprogrammed");
    for row in table::rows() {
        let side = if row.is_of_frontend { "frontend" } else { "backend" };
        let state = if row.is_of_frontend || programmed.contains_key(row.id) { "yes" } else { "todo" };
        text += &format!("\n{}\t{}\t{side}\t{}\t{}\t{}\t{state}", row.id, row.level, row.section, row.provoked, row.expected);
    }
    say(&text)
}

fn explain(id: &str) -> Result<u8, Failure> {
    let rows = table::rows();
    let row = rows.iter().find(|it| it.id == id).ok_or_else(|| Failure(REFUSED, format!("no case {id}: --list has them")))?;
    say(&report::explanation_of(row, cases::UNPROGRAMMED.iter().find(|it| it.0 == id).map(|it| it.1)))
}

/// The cases that are to be tried, in the table's order.
fn chosen(options: &Options) -> Result<Vec<&'static Row>, Failure> {
    let rows: &'static [Row] = Box::leak(table::rows().into_boxed_slice());
    let programmed = programmed();
    let is_asked = |it: &&Row| options.only.is_empty() || options.only.iter().any(|only| it.id.starts_with(only.as_str()));
    let is_there = |it: &&Row| it.is_of_frontend == options.is_frontend && (it.is_of_frontend || programmed.contains_key(it.id));
    let found: Vec<_> = rows.iter().filter(is_there).filter(is_asked).collect();
    match found.is_empty() {
        true => Err(Failure(REFUSED, "--only names no case that is programmed".to_string())),
        false => Ok(found),
    }
}

fn expectations(options: &Options) -> Result<HashMap<String, Verdict>, Failure> {
    let path = match &options.expect {
        Some(path) => path,
        None => return Ok(HashMap::new()),
    };
    let text = fs::read_to_string(path).map_err(|cause| Failure(FAILED, format!("{}: {cause}", path.display())))?;
    run::expectations(&text).map_err(|wrong| Failure(REFUSED, format!("{}: {wrong}", path.display())))
}

fn check(options: &Options) -> Result<u8, Failure> {
    if system::is_root() && !options.as_root {
        return Err(Failure(REFUSED, "it does not run as root, unless --as-root is there".to_string()));
    }
    let cases = chosen(options)?;
    let known = expectations(options)?;
    let (name, outcomes) = match &options.subject {
        Subject::Socket(path) => (path.display().to_string(), try_backend(options, Place::Socket(path.clone()), &cases, &known)?),
        Subject::Program(words) => {
            let outcomes = match options.is_frontend {
                true => try_frontend(options, words, &cases, &known)?,
                false => try_backend(options, Place::Program(words.clone()), &cases, &known)?,
            };
            (words[0].to_string_lossy().into_owned(), outcomes)
        }
    };
    say(&report::summary_of(&outcomes, options.strict))?;
    write_reports(options, &name, &outcomes)?;
    let is_fault = outcomes.iter().any(|it| it.fails(options.strict));
    Ok(if is_fault { FAULT } else { 0 })
}

type Known = HashMap<String, Verdict>;

/// Prints the line of a case.
fn tell(outcome: &mut Outcome, known: &Known) -> Result<(), Failure> {
    outcome.is_expected = known.get(outcome.row.id) == Some(&outcome.verdict);
    say(&report::line_of(outcome)).map(drop)
}

fn try_frontend(options: &Options, words: &[OsString], cases: &[&'static Row], known: &Known) -> Result<Vec<Outcome>, Failure> {
    let mut outcomes = Vec::new();
    for row in cases {
        let mut outcome = frontend::run(options, words, row);
        if outcomes.is_empty() && outcome.verdict == Verdict::Trouble {
            return Err(Failure(MISSING, outcome.seen));
        }
        tell(&mut outcome, known)?;
        outcomes.push(outcome);
    }
    Ok(outcomes)
}

fn unreachable(stop: Stop) -> Failure {
    match stop {
        Stop::Trouble(why) | Stop::Silent(why) | Stop::HungUp(why) => Failure(MISSING, why),
        stop => Failure(MISSING, stop.to_string()),
    }
}

fn try_backend(options: &Options, place: Place, cases: &[&'static Row], known: &Known) -> Result<Vec<Outcome>, Failure> {
    let mut target = Target::new(place, options.kind, options.image.clone(), options.limit)?;
    target.find_persistence().map_err(unreachable)?;
    let programmed = programmed();
    let mut outcomes = Vec::new();
    for row in cases {
        let mut outcome = run::run(&mut target, row, programmed[row.id]);
        tell(&mut outcome, known)?;
        let has_gone = matches!(target.place, Place::Socket(_)) && matches!(outcome.verdict, Verdict::Crash | Verdict::Hang);
        outcomes.push(outcome);
        if has_gone {
            let left = cases.len() - outcomes.len();
            say(&format!("nobody serves at this socket any more: {left} cases are not tried"))?;
            break;
        }
    }
    Ok(outcomes)
}

fn write_reports(options: &Options, name: &str, outcomes: &[Outcome]) -> Result<(), Failure> {
    let write = |path: &Option<std::path::PathBuf>, text: &dyn Fn() -> String| match path {
        Some(path) => write_file(path, &text()),
        None => Ok(()),
    };
    write(&options.junit, &|| report::junit_of(name, outcomes, options.strict))?;
    write(&options.json, &|| report::json_of(outcomes))?;
    write(&options.html, &|| report::page_of(name, outcomes, options.strict))?;
    options.record.as_ref().map_or(Ok(()), |folder| write_recordings(folder, outcomes))
}

/// Writes a recording of each case that was tried and did not pass.
fn write_recordings(folder: &Path, outcomes: &[Outcome]) -> Result<(), Failure> {
    fs::create_dir_all(folder).map_err(|cause| Failure(FAILED, format!("{}: {cause}", folder.display())))?;
    for outcome in outcomes.iter().filter(|it| !it.trace.is_empty()) {
        let file = folder.join(format!("{}.jsonl", outcome.row.id));
        write_file(&file, &trace::recording_of(&outcome.trace))?;
    }
    Ok(())
}

fn write_file(path: &Path, text: &str) -> Result<(), Failure> {
    fs::write(path, text).map_err(|cause| Failure(FAILED, format!("{}: {cause}", path.display())))
}

#[cfg(test)]
mod tests {
    use super::*;
    use std::collections::HashSet;

    #[test]
    fn each_case_that_is_programmed_has_a_row() {
        let rows: HashSet<&str> = table::rows().iter().filter(|it| !it.is_of_frontend).map(|it| it.id).collect();
        let mut seen = HashSet::new();
        for case in cases::all() {
            assert!(rows.contains(case.0), "{} has no row", case.0);
            assert!(seen.insert(case.0), "{} is there twice", case.0);
        }
        // (what is not programmed says why)
        for (id, reason) in cases::UNPROGRAMMED {
            assert!(rows.contains(id) && seen.insert(id) && !reason.is_empty(), "{id}");
        }
        assert_eq!(seen, rows);
    }
}
