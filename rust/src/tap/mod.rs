// SPDX-License-Identifier: Apache-2.0
//! The program `covretin-tap`: it passes a session of vhost-user on, shows its messages, and judges them by the proved core.
mod call;
mod colours;
mod differences;
mod event;
mod exported;
mod finding;
mod gathering;
mod json;
mod judge;
mod layout;
mod markup;
mod open_sockets;
mod options;
mod packets;
mod page;
mod page_row;
mod passing;
mod pcapng;
mod recorder;
mod recording;
mod refused;
mod replies;
mod reporter;
mod show;
mod sockets;
mod summary;
mod unserved;
mod watcher;

use std::ffi::OsString;
use std::fs::{metadata, remove_file, File};
use std::io::{self, BufRead, BufReader, Write};
use std::os::unix::fs::MetadataExt;
use std::path::{Path, PathBuf};
use std::process::ExitCode;
use std::thread;
use std::time::{Duration, SystemTime};

pub use gathering::kind_of;
use options::{Asked, Options, Source};
use packets::Packets;
use page::Page;
pub use recorder::Recorder;
use reporter::{Next, Notes, Reporter};
use watcher::{Verdict, Watcher};

use crate::foreign::EndSignals;

/// Something is wrong with a session.
const WRONG: u8 = 1;
/// Wrong arguments.
const REFUSED: u8 = 2;
/// A path can't be used, or not all could be shown.
const FAILED: u8 = 4;

/// Runs the program, called by these words behind its name, with this standard output: its status.
pub fn run(words: impl IntoIterator<Item = OsString>, mut output: impl Write + Send + 'static) -> ExitCode {
    let said = match options::parse(words) {
        Ok(Asked::Tap(options)) => tap(&options, output),
        Ok(Asked::Help) => say(&mut output, &format!("{}\n{}", options::USAGE, options::HELP)),
        Ok(Asked::Version) => say(&mut output, &format!("covretin-tap {}", env!("CARGO_PKG_VERSION"))),
        Err(wrong) => {
            eprintln!("covretin-tap: {wrong}\n{}", options::USAGE);
            return ExitCode::from(REFUSED);
        }
    };
    match said {
        Ok(Verdict { failed: None, complaints: 0, .. }) => ExitCode::SUCCESS,
        Ok(Verdict { failed: None, .. }) => ExitCode::from(WRONG),
        Ok(Verdict { failed: Some(cause), .. }) | Err(cause) => {
            eprintln!("covretin-tap: {cause}");
            ExitCode::from(FAILED)
        }
    }
}

/// Prints a text that says nothing of a session.
fn say(output: &mut impl Write, text: &str) -> io::Result<Verdict> {
    writeln!(output, "{text}").and_then(|()| output.flush())?;
    Ok(Verdict { complaints: 0, failed: None, unconnected: None })
}

fn tap(options: &Options, output: impl Write + Send + 'static) -> io::Result<Verdict> {
    match &options.source {
        Source::Recording(file) => {
            let lines = File::open(file).map_err(about(file))?;
            let name = file.file_name().unwrap_or(file.as_os_str()).to_string_lossy();
            let page = page_of(options, &name, Some(&lines))?;
            let packets = packets(options, None, Some(file), Duration::ZERO)?;
            replay(Watcher::new(options, output, None, packets).with_page(page), file, BufReader::new(lines))
        }
        Source::Sockets { listen, connect, record, count } => {
            // Before signals are blocked, since that waits for who reads it.
            let pipe = options.pcapng.as_deref().and_then(packets::opened_pipe).transpose()?;
            let title = format!("{}, passed on to {}", listen.display(), connect.display());
            let watcher = |file: Option<File>| {
                let page = page_of(options, &title, file.as_ref())?;
                let started = SystemTime::now().duration_since(SystemTime::UNIX_EPOCH).unwrap_or_default();
                let packets = packets(options, pipe, record.as_deref(), started)?;
                Ok(Watcher::new(options, output, file, packets).with_page(page))
            };
            tap_sockets(watcher, listen, connect, record.as_deref(), *count)
        }
    }
}

/// The file of packets, where one is wanted.
fn packets(options: &Options, pipe: Option<File>, recording: Option<&Path>, started: Duration) -> io::Result<Option<Packets>> {
    let made = |path| match pipe {
        Some(pipe) => Packets::over(pipe, path, started),
        None => Packets::create(path, recording, started),
    };
    options.pcapng.as_deref().map(made).transpose()
}

/// The page that is asked for, if one is. It does not take the place of the recording that is read or written.
fn page_of(options: &Options, title: &str, recording: Option<&File>) -> io::Result<Option<Page<File>>> {
    let path = match &options.html {
        Some(path) => path,
        None => return Ok(None),
    };
    if let (Some(recording), Ok(old)) = (recording, metadata(path)) {
        let recorded = recording.metadata()?;
        if (recorded.dev(), recorded.ino()) == (old.dev(), old.ino()) {
            return Err(about(path)(io::Error::new(io::ErrorKind::AlreadyExists, "it is the recording")));
        }
    }
    Page::create(path, title, options.shows_bytes).map(Some)
}

/// An error, with the path that it is about.
fn about(path: &Path) -> impl Fn(io::Error) -> io::Error + '_ {
    move |cause| io::Error::new(cause.kind(), format!("{}: {cause}", path.display()))
}

fn replay(mut watcher: Watcher<impl Write>, file: &Path, mut lines: impl BufRead) -> io::Result<Verdict> {
    let wrong = |number: u64, reason: &str| {
        let text = format!("{}: line {number} is none of a recording: {reason}", file.display());
        io::Error::new(io::ErrorKind::InvalidData, text)
    };
    let mut line = Vec::new();
    for number in 1.. {
        line.clear();
        if lines.read_until(b'\n', &mut line).map_err(about(file))? == 0 {
            break;
        }
        match recording::event_of(&line) {
            Ok(event) => watcher.see(&event),
            // (it is the last one)
            Err(_) if recording::is_cut(&line) => {
                let mut verdict = watcher.finish(true);
                verdict.failed.get_or_insert_with(|| wrong(number, "it is cut off"));
                return Ok(verdict);
            }
            Err(reason) => return Err(wrong(number, &reason)),
        }
    }
    Ok(watcher.finish(true))
}

fn tap_sockets<W: Write + Send + 'static>(
    watcher: impl FnOnce(Option<File>) -> io::Result<Watcher<W>>,
    listen: &Path,
    connect: &Path,
    record: Option<&Path>,
    count: Option<u64>,
) -> io::Result<Verdict> {
    // Before there is another thread, which it would end.
    let signals = EndSignals::block();
    let listener = sockets::listen_at(listen).map_err(about(listen))?;
    // Behind that: who can't listen, since another tap does, does not empty that one's files.
    let record = record.map(|path| File::create(path).map_err(about(path))).transpose();
    let watcher = match record.and_then(watcher) {
        Ok(watcher) => watcher,
        Err(cause) => {
            let _ = remove_file(listen);
            return Err(cause);
        }
    };
    let (reporter, notes) = Reporter::new();
    let watching = thread::Builder::new().spawn(move || watch(watcher, &notes))?;
    sockets::pass_sessions(listener, PathBuf::from(connect), count, signals, &reporter);
    // Somebody may have removed it before.
    let _ = remove_file(listen);
    reporter.stop();
    let mut verdict = watching.join().map_err(|_| io::Error::new(io::ErrorKind::Other, "the judge stopped"))?;
    if let Some(cause) = verdict.unconnected.take() {
        verdict
            .failed
            .get_or_insert_with(|| io::Error::new(io::ErrorKind::NotConnected, format!("{}: {cause}", connect.display())));
    }
    if reporter.is_lost() {
        verdict.failed.get_or_insert_with(|| io::Error::new(io::ErrorKind::Other, "not all could be shown and judged"));
    }
    Ok(verdict)
}

/// Shows each event once there is time to: where nothing else waits.
fn watch(mut watcher: Watcher<impl Write>, notes: &Notes) -> Verdict {
    loop {
        let next = notes.ready().unwrap_or_else(|| {
            watcher.flush();
            // (what was lost may have been a reply)
            notes.by(watcher.next_wait().filter(|_| !notes.is_lost()))
        });
        match next {
            Next::Event(event) => watcher.see(&event),
            Next::Nothing => watcher.tell_waits(notes.now()),
            Next::Stop => return watcher.finish(!notes.is_lost()),
        }
    }
}
