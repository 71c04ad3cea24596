// SPDX-License-Identifier: Apache-2.0
//! How the program is called.
use std::ffi::OsString;
use std::path::PathBuf;
use std::time::Duration;

use crate::device::Kind;

pub const USAGE: &str = "\
usage: covretin-check [OPTION ..] PATH
       covretin-check [OPTION ..] -- PROGRAM .. %s ..
       covretin-check [OPTION ..] --frontend -- PROGRAM .. %s ..
       covretin-check --list | --explain ID";

pub const HELP: &str = "
Looks for faults in a vhost-user backend: at the socket PATH, or in a program, which is started where it does not run, with
the socket's path in the place of %s. A line is a case: its number, its verdict, its section, what is expected, what was seen.

  --frontend      looks for faults in a frontend, which connects to the socket and is answered wrongly once a case: a program that
                  ends by itself; or qemu-system-.. with its options, a machine that is driven by its monitor
  --type=TYPE     which device it is, so that its rings are used: blk, console, rng, fs, gpu, net or vsock
  --only=ID,..    these cases alone; the beginning of a number stands for all that begin so
  --strict        a SHOULD is a fault as well
  --expect=FILE   known verdicts, a case and its verdict a line: they are no faults, so that a run fails by new ones
  --junit=FILE    the report for a test runner; --json=FILE for other programs; --html=FILE as a page
  --record=DIR    a recording of each case that did not pass, DIR/ID.jsonl, which covretin-tap --replay shows
  --image=FILE    the file of a disk, to see in it what was written; it grows for a while, and is as great as before in the end
  --limit=SECONDS how long nothing may happen before a reply is missing (2)
  --as-root       runs as root as well
  --list          all cases, by lines of seven columns; 'todo' in the last is not programmed
  --explain ID    what a case does, and the sentence of the specification
  --version, --help
                  prints the version, or this

Verdicts: PASS; MUST and SHOULD, where a sentence of the specification is not kept; NOTE, where there is none, but peers notice; CRASH,
HANG; SKIP, where nothing is to be tried; TROUBLE of the checker itself.

Status: 0 where no fault was seen; 1 after MUST, CRASH or HANG; 2 after wrong arguments; 3 where the program cannot be started, or nobody
listens; 4 where a file cannot be used.";

/// Which side is checked, and where it is.
#[derive(Debug, PartialEq, Eq)]
pub enum Subject {
    Socket(PathBuf),
    Program(Vec<OsString>),
}

#[derive(Debug)]
pub struct Options {
    pub subject: Subject,
    pub is_frontend: bool,
    pub kind: Option<Kind>,
    pub only: Vec<String>,
    pub strict: bool,
    pub expect: Option<PathBuf>,
    pub junit: Option<PathBuf>,
    pub json: Option<PathBuf>,
    pub html: Option<PathBuf>,
    pub record: Option<PathBuf>,
    pub image: Option<PathBuf>,
    pub limit: Duration,
    pub as_root: bool,
}

impl Options {
    /// Those of a call that names none.
    fn none() -> Self {
        Options {
            subject: Subject::Program(Vec::new()),
            is_frontend: false,
            kind: None,
            only: Vec::new(),
            strict: false,
            expect: None,
            junit: None,
            json: None,
            html: None,
            record: None,
            image: None,
            limit: Duration::from_secs(2),
            as_root: false,
        }
    }
}

#[derive(Debug)]
pub enum Asked {
    Check(Box<Options>),
    List,
    Explain(String),
    Help,
    Version,
}

/// The words behind the program's name; or what is wrong with them.
pub fn parse(words: impl IntoIterator<Item = OsString>) -> Result<Asked, String> {
    let mut words = words.into_iter();
    let mut options = Options::none();
    let mut paths = Vec::new();
    while let Some(word) = words.next() {
        let text = word.to_string_lossy().into_owned();
        match text.as_str() {
            "--help" | "-h" => return Ok(Asked::Help),
            "--version" => return Ok(Asked::Version),
            "--list" => return Ok(Asked::List),
            "--explain" => {
                return words
                    .next()
                    .map(|it| Asked::Explain(it.to_string_lossy().into_owned()))
                    .ok_or("--explain wants a case".into())
            }
            "--" => {
                options.subject = Subject::Program(words.by_ref().collect());
                return finish(options, paths);
            }
            option if option.starts_with("--") => set(&mut options, option)?,
            _ => paths.push(PathBuf::from(word)),
        }
    }
    finish(options, paths)
}

/// Whether a program is a virtual machine of QEMU.
pub fn is_machine(program: &OsString) -> bool {
    let name = PathBuf::from(program).file_name().map(|it| it.to_string_lossy().into_owned());
    name.map_or(false, |it| it.starts_with("qemu-system-"))
}

fn set(options: &mut Options, option: &str) -> Result<(), String> {
    let (name, value) = option.split_once('=').map_or((option, None), |(name, value)| (name, Some(value)));
    let file = |value: Option<&str>| value.filter(|it| !it.is_empty()).map(PathBuf::from).ok_or(format!("{name} wants a file"));
    match name {
        "--strict" if value.is_none() => options.strict = true,
        "--frontend" if value.is_none() => options.is_frontend = true,
        "--as-root" if value.is_none() => options.as_root = true,
        "--type" => {
            let kind = value.and_then(Kind::of_name).ok_or(format!("--type is one of {}", Kind::names()))?;
            options.kind = Some(kind);
        }
        "--only" => options.only.extend(value.unwrap_or("").split(',').filter(|it| !it.is_empty()).map(str::to_string)),
        "--expect" => options.expect = Some(file(value)?),
        "--junit" => options.junit = Some(file(value)?),
        "--json" => options.json = Some(file(value)?),
        "--html" => options.html = Some(file(value)?),
        "--record" => options.record = Some(file(value)?),
        "--image" => options.image = Some(file(value)?),
        "--limit" => {
            let seconds = value.and_then(|it| it.parse().ok()).filter(|it| (0.01..1e6).contains(it));
            options.limit = Duration::from_secs_f64(seconds.ok_or("--limit wants a number of seconds")?);
        }
        _ => return Err(format!("no such option: {option}")),
    }
    Ok(())
}

fn finish(mut options: Options, mut paths: Vec<PathBuf>) -> Result<Asked, String> {
    match (&options.subject, paths.len()) {
        (Subject::Program(words), _) if options.is_frontend && words.is_empty() => {
            return Err("--frontend wants a program behind --".into())
        }
        (Subject::Program(words), 0) if words.is_empty() => return Err("a socket or a program is missing".to_string()),
        (Subject::Program(words), 1) if words.is_empty() => options.subject = Subject::Socket(paths.remove(0)),
        (Subject::Program(words), 0) if !is_machine(&words[0]) && !words.iter().any(|it| it.to_string_lossy().contains("%s")) => {
            return Err("no word of the program has %s, where the path of its socket is to stand".to_string())
        }
        (Subject::Program(_), 0) => {}
        _ => return Err("one socket, or one program behind --".to_string()),
    }
    Ok(Asked::Check(Box::new(options)))
}

#[cfg(test)]
mod tests {
    use super::*;

    fn parsed(words: &[&str]) -> Result<Asked, String> {
        parse(words.iter().map(OsString::from))
    }

    #[test]
    fn words_are_read() {
        let asked = parsed(&["--type=blk", "--only=RNG,HDR-01", "--strict", "--", "disk", "%s", "image"]).unwrap();
        let options = match asked {
            Asked::Check(options) => options,
            other => panic!("{other:?}"),
        };
        assert_eq!(options.kind, Some(Kind::Block));
        assert_eq!(options.only, ["RNG", "HDR-01"]);
        assert_eq!(options.subject, Subject::Program(["disk", "%s", "image"].map(OsString::from).to_vec()));
        assert!(matches!(parsed(&["--explain", "HDR-01"]), Ok(Asked::Explain(_))));
    }

    #[test]
    fn wrong_words_are_refused() {
        for wrong in [
            &["--type=tape", "socket"][..],
            &[],
            &["a", "b"],
            &["--", "disk"],
            &["--what", "a"],
            &["--limit=0", "a"],
            &["--explain"],
            &["--frontend", "a"],
            &["a", "--", "b", "%s"],
        ] {
            assert!(parsed(wrong).is_err(), "{wrong:?}");
        }
    }
}
