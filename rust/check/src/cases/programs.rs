// SPDX-License-Identifier: Apache-2.0
//! The conventions of programs.
use std::ffi::OsString;
use std::fs;
use std::io::Read;
use std::os::unix::ffi::OsStrExt;
use std::os::unix::net::{UnixListener, UnixStream};
use std::path::{Path, PathBuf};
use std::process::{Child, Command, Stdio};

use super::*;
use crate::patience::{family, is_alive, Patience};
use crate::system::{in_own_group, inherit};
use crate::target::{with_path, Place, Setup};

pub(super) const CASES: &[Case] = &[
    ("PRG-01", ends_by_sigterm),
    ("PRG-02", capabilities_are_printed),
    ("PRG-03", serves_a_descriptor),
    ("PRG-04", stays_in_front),
    ("PRG-05", is_described),
];

fn ends_by_sigterm(t: &mut Target) -> Outcome {
    let mut c = t.negotiate()?;
    let rings = match t.kind {
        Some(_) => Some(t.rings(&mut c, Setup::WHOLE)?),
        None => None,
    };
    c.fence()?;
    let status = t.terminate()?;
    drop(rings);
    seen(status.is_some(), status.map_or("goes on".to_string(), |it| it.to_string()))
}

fn program_of(t: &Target) -> Result<Vec<OsString>, Stop> {
    match &t.place {
        Place::Program(words) => Ok(words.iter().map(|it| with_path(it, &t.path())).collect()),
        Place::Socket(_) => Err(Stop::Skip("it was not started here".to_string())),
    }
}

/// Whether a file begins as a script.
fn is_script(word: &OsString) -> bool {
    let mut begin = [0; 2];
    File::open(word).and_then(|mut it| it.read_exact(&mut begin)).map_or(false, |()| begin == *b"#!")
}

/// The words that are the program itself: a script's interpreter is none without it.
fn own_words(t: &Target) -> Result<Vec<OsString>, Stop> {
    let mut words = program_of(t)?;
    words.truncate(if words.get(1).map_or(false, is_script) { 2 } else { 1 });
    // (a program's name alone is looked for in PATH; what has a folder is to be found from another one, too)
    for (at, word) in words.iter_mut().enumerate() {
        if at > 0 || word.as_bytes().contains(&b'/') {
            *word = fs::canonicalize(&*word).map_err(|cause| Stop::Skip(cause.to_string()))?.into();
        }
    }
    Ok(words)
}

fn capabilities_are_printed(t: &mut Target) -> Outcome {
    let words = own_words(t)?;
    let path = t.path().with_file_name("capabilities");
    // (one that does not know the word may take it for a path)
    let mut command = Command::new(&words[0]);
    let command =
        command.args(&words[1..]).arg("--print-capabilities").current_dir(t.path().with_file_name("")).stdin(Stdio::null());
    let mut child = in_own_group(command).stdout(File::create(&path)?).stderr(Stdio::null()).spawn()?;
    let process = child.id() as i32;
    if !Patience::new(Some(process), t.limit).wait_until(|| !is_alive(process)) {
        child.kill()?;
        child.wait()?;
        return seen(false, "it goes on");
    }
    let status = child.wait()?;
    let text = fs::read_to_string(&path)?;
    let is_object = text.trim_start().starts_with('{') && text.contains("\"type\"");
    seen(status.success() && is_object, format!("{status}: {}", text.lines().next().unwrap_or("")))
}

/// A program that is ended with its case.
struct Started(Child);

impl Drop for Started {
    fn drop(&mut self) {
        let _ = self.0.kill();
        let _ = self.0.wait();
    }
}

/// Of the conventions a program knows the one option where it knows the other. They leave open whether its socket is connected, or listens.
fn serves_a_descriptor(t: &mut Target) -> Outcome {
    let words = program_of(t)?;
    let path = format!("--socket-path={}", t.path().display());
    let at = words.iter().position(|it| it.to_string_lossy() == path);
    let at = at.ok_or_else(|| Stop::Skip("no word of it is --socket-path=%s".to_string()))?;
    t.stop();
    let (kept, given) = UnixStream::pair()?;
    let first = served_by(t, &words, at, given.into(), || Ok(kept));
    if let Ok(offered) = first {
        return seen(true, format!("one that is connected: features {offered:#x}"));
    }
    let path = t.path();
    let _ = fs::remove_file(&path);
    let listener = UnixListener::bind(&path)?;
    let second = served_by(t, &words, at, listener.into(), || UnixStream::connect(&path));
    let _ = fs::remove_file(&path);
    match (first, second) {
        (_, Ok(offered)) => seen(true, format!("one that listens: features {offered:#x}")),
        (first, Err(stop)) => {
            seen(false, format!("connected: {}; listening: {stop}", first.map_or_else(|it| it.to_string(), |_| String::new())))
        }
    }
}

/// The features that a program offers which is started with a socket.
fn served_by(
    t: &Target,
    words: &[OsString],
    at: usize,
    given: OwnedFd,
    connect: impl FnOnce() -> std::io::Result<UnixStream>,
) -> Result<u64, Stop> {
    inherit(&given)?;
    let mut words = words.to_vec();
    words[at] = format!("--fd={}", given.as_raw_fd()).into();
    let mut command = Command::new(&words[0]);
    let command = command.args(&words[1..]).stdin(Stdio::null()).stdout(Stdio::null()).stderr(Stdio::null());
    let child = Started(in_own_group(command).spawn()?);
    drop(given);
    let mut c = Connection::new(connect()?, t.limit, t.trace.clone());
    c.process = Some(child.0.id() as i32);
    c.number(Request::GET_FEATURES)
}

fn stays_in_front(t: &mut Target) -> Outcome {
    program_of(t)?;
    let c = t.negotiate()?;
    let child = t.child().ok_or_else(|| Stop::Trouble("it was not started".to_string()))?;
    match c.process {
        None => Err(Stop::Skip("its process is not known".to_string())),
        Some(process) => seen(family(child).contains(&process), format!("started {child}, {process} listens")),
    }
}

/// Where a program lies: below one of the folders of PATH, or where its words say.
fn place_of(program: &OsString) -> Result<PathBuf, Stop> {
    if program.as_bytes().contains(&b'/') {
        return Ok(PathBuf::from(program));
    }
    let folders = std::env::var_os("PATH").unwrap_or_default();
    let found = std::env::split_paths(&folders).find_map(|it| fs::canonicalize(it.join(program)).ok());
    found.ok_or_else(|| Stop::Skip("it is in no folder of PATH".to_string()))
}

/// Where a program that is installed has its files of JSON; nothing where it is not.
fn descriptions_of(program: &Path) -> Option<PathBuf> {
    let is_for_programs =
        |it: &&Path| it.file_name().map_or(false, |it| it == "bin" || it == "sbin" || it == "lib" || it == "libexec");
    let prefix = program.ancestors().skip(1).find(is_for_programs)?.parent()?;
    prefix.join("share").is_dir().then(|| prefix.join("share/qemu/vhost-user"))
}

/// The text that a file of JSON has for a name.
fn value_of<'a>(text: &'a str, name: &str) -> Option<&'a str> {
    let behind = text.split_once(&format!("\"{name}\""))?.1;
    behind.trim_start().strip_prefix(':')?.trim_start().strip_prefix('"')?.split('"').next()
}

/// A program that is installed has a file that names it, and says of which type it is.
fn is_described(t: &mut Target) -> Outcome {
    let program = place_of(own_words(t)?.last().ok_or_else(|| Stop::Trouble("no word".to_string()))?)?;
    let folder = descriptions_of(&program).ok_or_else(|| Stop::Skip("it is not installed".to_string()))?;
    let files = fs::read_dir(&folder).into_iter().flatten().flatten().map(|it| it.path());
    let names_it =
        |text: &String| value_of(text, "binary").map_or(false, |it| fs::canonicalize(it).map_or(false, |it| it == program));
    let found = files.filter_map(|it| fs::read_to_string(it).ok()).find(names_it);
    match found {
        None => seen(false, format!("no file in {} names it", folder.display())),
        Some(text) => {
            let kinds = ["type", "description"].map(|it| value_of(&text, it));
            seen(kinds.iter().all(Option::is_some), format!("{kinds:?}"))
        }
    }
}
