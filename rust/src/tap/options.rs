// SPDX-License-Identifier: Apache-2.0
//! How the program is called.
use std::ffi::{OsStr, OsString};
use std::os::unix::ffi::OsStrExt;
use std::path::PathBuf;

use crate::vhost_user::Profile;

/// What the program prints where it is called in another way.
pub(super) const USAGE: &str = "\
usage: covretin-tap [--profile=standard|vhost] [--json] [--hex] [--html=FILE] [--pcapng=FILE]
                    [--record=FILE] [--count=N] LISTEN CONNECT
       covretin-tap [--profile=standard|vhost] [--json] [--hex] [--html=FILE] [--pcapng=FILE] --replay=FILE";

/// What is said of it by --help.
pub(super) const HELP: &str = "
Passes each session of vhost-user on from the socket LISTEN to the backend at the socket CONNECT, shows its messages, and
says behind '!' where one of them is none that the protocol's table has; behind '~' what was left unanswered, since another
than the backend ended the session, and what is not by the letter, but taken by frontends.

  --profile=P    which table: standard, that of the specification and of real peers, or vhost, that of the crate vhost
  --json         a line of JSON for each event
  --hex          the bytes of each message
  --html=FILE    writes what is seen to FILE, a page that a browser shows without anything beside it
  --pcapng=FILE  writes what is seen to FILE as packets, which Wireshark reads
  --record=FILE  writes what is seen to FILE, a line of JSON each
  --count=N      ends with the Nth session; without it the tap ends by SIGINT or SIGTERM, and with it all sessions
  --replay=FILE  shows and judges what was recorded, in place of a session
  --version, --help
                 prints the version, or this

Status: 0 where nothing is wrong; 1 where something is; 2 after wrong arguments; 4 where a path can't be used, as one at which
no backend listens, or not all could be shown.";

/// How events are shown.
#[derive(Clone, Copy, Debug, PartialEq, Eq)]
pub(super) enum Format {
    Text,
    Json,
}

/// What is tapped.
#[derive(Clone, Debug, PartialEq, Eq)]
pub(super) enum Source {
    Sockets { listen: PathBuf, connect: PathBuf, record: Option<PathBuf>, count: Option<u64> },
    Recording(PathBuf),
}

#[derive(Clone, Debug, PartialEq, Eq)]
pub(super) struct Options {
    pub(super) profile: Profile,
    pub(super) format: Format,
    pub(super) shows_bytes: bool,
    /// The page that is written.
    pub(super) html: Option<PathBuf>,
    /// The file of packets.
    pub(super) pcapng: Option<PathBuf>,
    pub(super) source: Source,
}

/// What the words ask for.
#[derive(Clone, Debug, PartialEq, Eq)]
pub(super) enum Asked {
    Tap(Options),
    Help,
    Version,
}

/// The words behind the program's name; or what is wrong with them. A path may have any bytes.
pub(super) fn parse(words: impl IntoIterator<Item = OsString>) -> Result<Asked, String> {
    let mut words = words.into_iter();
    let (mut profile, mut format, mut shows_bytes) = (Profile::Standard, Format::Text, false);
    let (mut html, mut record, mut replay, mut count, mut paths) = (None, None, None, None, Vec::new());
    let mut pcapng = None;
    while let Some(word) = words.next() {
        let mut file = |name: &str| words.next().map(PathBuf::from).ok_or(format!("{name} wants a file"));
        match word.as_bytes() {
            b"--help" | b"-h" => return Ok(Asked::Help),
            b"--version" => return Ok(Asked::Version),
            b"--json" => format = Format::Json,
            b"--hex" => shows_bytes = true,
            b"--html" => html = Some(file("--html")?),
            b"--record" => record = Some(file("--record")?),
            b"--replay" => replay = Some(file("--replay")?),
            b"--pcapng" => pcapng = Some(file("--pcapng")?),
            b"--profile=standard" => profile = Profile::Standard,
            b"--profile=vhost" => profile = Profile::Vhost,
            bytes if bytes.starts_with(b"--html=") => html = Some(path_of(&bytes["--html=".len()..])),
            bytes if bytes.starts_with(b"--record=") => record = Some(path_of(&bytes["--record=".len()..])),
            bytes if bytes.starts_with(b"--replay=") => replay = Some(path_of(&bytes["--replay=".len()..])),
            bytes if bytes.starts_with(b"--pcapng=") => pcapng = Some(path_of(&bytes["--pcapng=".len()..])),
            [b'-', ..] => match word.to_string_lossy().strip_prefix("--count=") {
                Some(number) => {
                    count = Some(number.parse().ok().filter(|it| *it != 0).ok_or("--count wants a number from 1 on")?)
                }
                None => return Err(format!("no such option: {}", word.to_string_lossy())),
            },
            _ => paths.push(PathBuf::from(word)),
        }
    }
    let source = source(paths, replay, record, count)?;
    Ok(Asked::Tap(Options { profile, format, shows_bytes, html, pcapng, source }))
}

fn path_of(bytes: &[u8]) -> PathBuf {
    PathBuf::from(OsStr::from_bytes(bytes))
}

fn source(paths: Vec<PathBuf>, replay: Option<PathBuf>, record: Option<PathBuf>, count: Option<u64>) -> Result<Source, String> {
    let mut paths = paths.into_iter();
    match (paths.next(), paths.next(), paths.next(), replay) {
        (None, None, None, Some(file)) if record.is_none() && count.is_none() => Ok(Source::Recording(file)),
        (Some(listen), Some(connect), None, None) => Ok(Source::Sockets { listen, connect, record, count }),
        (_, _, _, Some(_)) => Err("--replay wants no sockets, and nothing to record or count".to_string()),
        _ => Err("two sockets are wanted: one to listen at, and that of the backend".to_string()),
    }
}

#[cfg(test)]
mod tests {
    use super::*;

    fn parsed(text: &str) -> Result<Asked, String> {
        parse(text.split_whitespace().map(OsString::from))
    }

    #[test]
    fn paths_of_any_bytes() {
        let bytes: OsString = std::os::unix::ffi::OsStringExt::from_vec(vec![b'a', 0xff]);
        let options = match parse([bytes.clone(), bytes.clone()]) {
            Ok(Asked::Tap(options)) => options,
            parsed => panic!("{parsed:?}"),
        };
        let (listen, connect) = (PathBuf::from(bytes.clone()), PathBuf::from(bytes.clone()));
        assert_eq!(Source::Sockets { listen, connect, record: None, count: None }, options.source);
        let mut option = OsString::from("-");
        option.push(bytes);
        assert!(parse([option]).is_err());
    }

    #[test]
    fn sockets_and_a_recording() {
        let sockets = |record, count| Source::Sockets { listen: "a".into(), connect: "b".into(), record, count };
        let options = |source| Options {
            profile: Profile::Standard,
            format: Format::Text,
            shows_bytes: false,
            html: None,
            pcapng: None,
            source,
        };
        assert_eq!(Ok(Asked::Tap(options(sockets(None, None)))), parsed("a b"));
        assert_eq!(Ok(Asked::Tap(options(sockets(Some("f".into()), Some(3))))), parsed("--record f a --count=3 b"));
        assert_eq!(Ok(Asked::Tap(options(sockets(Some("f=".into()), None)))), parsed("a --record=f= b"));
        let recording = options(Source::Recording("f".into()));
        assert_eq!(Ok(Asked::Tap(recording.clone())), parsed("--replay=f"));
        assert_eq!(
            Ok(Asked::Tap(Options { profile: Profile::Vhost, format: Format::Json, shows_bytes: true, ..recording.clone() })),
            parsed("--json --hex --profile=vhost --replay f")
        );
        let page = Options { html: Some("p".into()), ..recording.clone() };
        assert_eq!(Ok(Asked::Tap(page.clone())), parsed("--html=p --replay=f"));
        assert_eq!(Ok(Asked::Tap(page)), parsed("--replay f --html p"));
        let packets = Options { pcapng: Some("p=".into()), ..recording };
        assert_eq!(Ok(Asked::Tap(packets.clone())), parsed("--pcapng=p= --replay=f"));
        assert_eq!(Ok(Asked::Tap(packets)), parsed("--pcapng p= --replay f"));
        assert_eq!(Ok(Asked::Help), parsed("a b --help"));
    }

    #[test]
    fn wrong_words() {
        for words in [
            "",
            "a",
            "a b c",
            "--replay",
            "--pcapng",
            "--pcapng=f",
            "a b --html",
            "--replay f a",
            "--replay f --count=1",
            "--profile=other a b",
            "--count=0 a b",
            "-x a b",
        ] {
            assert!(parsed(words).is_err(), "{words}");
        }
    }
}
