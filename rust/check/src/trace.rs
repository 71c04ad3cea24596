// SPDX-License-Identifier: Apache-2.0
//! What went over the connections of a case: lines of a report, and a recording that `covretin replay` shows.
use std::os::unix::io::{AsRawFd, OwnedFd, RawFd};
use std::sync::{Arc, Mutex, MutexGuard, PoisonError};
use std::time::Instant;

use covretin::tap::{kind_of, Recorder};

use crate::wire::hex_of;

/// How many bytes of a message a line shows.
const SHOWN_BYTES: usize = 80;

/// Which way a message goes.
#[derive(Clone, Copy, Debug, PartialEq, Eq)]
pub enum Way {
    ToBackend,
    ToFrontend,
    /// On the channel for requests of the backend.
    Channel,
}

impl Way {
    /// As the tap calls it.
    fn name(self) -> &'static str {
        match self {
            Way::ToBackend => "F>B",
            Way::ToFrontend => "B>F",
            Way::Channel => "rev:B>F",
        }
    }
}

/// Bytes that went at once, and what descriptors came with the first of them.
#[derive(Clone, Debug)]
pub struct Piece {
    bytes: Vec<u8>,
    kinds: Vec<String>,
}

impl Piece {
    pub fn sent(bytes: &[u8], descriptors: &[RawFd]) -> Self {
        Piece { bytes: bytes.to_vec(), kinds: descriptors.iter().map(kind_of).collect() }
    }

    pub fn received(bytes: &[u8], descriptors: &[OwnedFd]) -> Self {
        let raw: Vec<RawFd> = descriptors.iter().map(AsRawFd::as_raw_fd).collect();
        Piece::sent(bytes, &raw)
    }
}

/// A message, or bytes that are none.
#[derive(Clone, Debug)]
pub struct Bytes {
    pub way: Way,
    /// Whether the checker has sent it.
    pub is_sent: bool,
    /// Whether a report has a line of it.
    pub is_shown: bool,
    pub pieces: Vec<Piece>,
}

#[derive(Clone, Debug)]
enum What {
    Connected,
    Bytes(Bytes),
    Ended(Way, Option<String>),
}

/// What went, when, and over which connection.
#[derive(Clone, Debug)]
pub struct Went {
    seconds: f64,
    session: u64,
    what: What,
}

impl Went {
    /// The line of a report.
    fn line(&self) -> Option<String> {
        let went = match &self.what {
            What::Bytes(went) if went.is_shown => went,
            _ => return None,
        };
        let bytes: Vec<u8> = went.pieces.iter().flat_map(|it| it.bytes.iter().copied()).collect();
        let arrow = if went.is_sent { '>' } else { '<' };
        let shown = hex_of(&bytes[..bytes.len().min(SHOWN_BYTES)]);
        let more = if bytes.len() > SHOWN_BYTES { ".." } else { "" };
        let with = match went.pieces.iter().map(|it| it.kinds.len()).sum() {
            0 => String::new(),
            count => format!(" +{count} fd"),
        };
        Some(format!("{arrow} {shown}{more}{with}"))
    }
}

/// The lines of a report, a message each.
pub fn lines_of(trace: &[Went]) -> Vec<String> {
    trace.iter().filter_map(Went::line).collect()
}

/// The same as a recording.
pub fn recording_of(trace: &[Went]) -> String {
    let mut recorder = Recorder::default();
    for Went { seconds, session, what } in trace {
        match what {
            What::Connected => recorder.connected(*seconds, *session),
            What::Bytes(went) => {
                let pieces = went.pieces.iter();
                pieces.for_each(|it| recorder.piece(*seconds, *session, went.way.name(), &it.bytes, &it.kinds));
            }
            What::Ended(way, cause) => recorder.ended(*seconds, *session, way.name(), cause.clone()),
        }
    }
    recorder.finish()
}

struct Log {
    began: Instant,
    sessions: u64,
    went: Vec<Went>,
}

/// What goes over the connections of a case, as it goes. Its clones are the same one.
#[derive(Clone)]
pub struct Trace(Arc<Mutex<Log>>);

impl Trace {
    pub fn new() -> Self {
        Trace(Arc::new(Mutex::new(Log { began: Instant::now(), sessions: 0, went: Vec::new() })))
    }

    fn log(&self) -> MutexGuard<'_, Log> {
        self.0.lock().unwrap_or_else(PoisonError::into_inner)
    }

    /// Forgets all that went.
    pub fn clear(&self) {
        *self.log() = Log { began: Instant::now(), sessions: 0, went: Vec::new() };
    }

    /// A connection is there: the number of its session.
    pub fn connect(&self) -> u64 {
        let mut log = self.log();
        log.sessions += 1;
        let session = log.sessions;
        log.push(session, What::Connected);
        session
    }

    /// Something went, where it has bytes.
    pub fn note(&self, session: u64, bytes: Bytes) {
        if !bytes.pieces.is_empty() {
            self.log().push(session, What::Bytes(bytes));
        }
    }

    /// A stream has ended, or failed so; it does so once.
    pub fn end(&self, session: u64, way: Way, cause: Option<String>) {
        let mut log = self.log();
        let is_it = |it: &Went| it.session == session && matches!(it.what, What::Ended(of, _) if of == way);
        if !log.went.iter().any(is_it) {
            log.push(session, What::Ended(way, cause));
        }
    }

    /// Whether something was received.
    pub fn has_received(&self) -> bool {
        self.log().went.iter().any(|it| matches!(&it.what, What::Bytes(Bytes { is_sent: false, .. })))
    }

    /// All that went so far.
    pub fn all(&self) -> Vec<Went> {
        self.log().went.clone()
    }
}

impl Log {
    fn push(&mut self, session: u64, what: What) {
        let seconds = self.began.elapsed().as_secs_f64();
        self.went.push(Went { seconds, session, what });
    }
}

#[cfg(test)]
mod tests {
    use super::*;
    use crate::wire::{header, joined};

    fn bytes(way: Way, pieces: Vec<Piece>) -> Bytes {
        Bytes { way, is_sent: way == Way::ToBackend, is_shown: true, pieces }
    }

    #[test]
    fn a_message_is_a_line_and_an_event_of_a_recording() {
        let trace = Trace::new();
        let session = trace.connect();
        let event = crate::system::event().unwrap();
        let request = joined(&[&header(12, 1, 8), &[0; 8]]);
        trace.note(
            session,
            bytes(Way::ToBackend, vec![Piece::sent(&request[..3], &[event.as_raw_fd()]), Piece::sent(&request[3..], &[])]),
        );
        assert!(!trace.has_received());
        trace.note(session, bytes(Way::ToFrontend, vec![Piece::received(&header(1, 5, 8), &[])]));
        assert!(trace.has_received());
        trace.end(session, Way::ToFrontend, None);
        trace.end(session, Way::ToFrontend, Some("again".to_string()));
        let all = trace.all();
        assert_eq!(lines_of(&all), [format!("> {} +1 fd", hex_of(&request)), format!("< {}", hex_of(&header(1, 5, 8)))]);
        let recording = recording_of(&all);
        assert_eq!(recording.lines().count(), 4, "{recording}");
        let fields = r#""fds": ["anon_inode:[eventfd]"], "fds_at": [0], "body_fds": 0, "cuts": [3, 9, 8], "short": false"#;
        assert!(recording.contains(fields), "{recording}");
        assert!(recording.contains("\"short\": true") && recording.contains("\"end\": \"eof\""), "{recording}");
    }

    #[test]
    fn what_is_not_shown_is_recorded() {
        let trace = Trace::new();
        let session = trace.connect();
        let unseen = Bytes { is_shown: false, ..bytes(Way::ToBackend, vec![Piece::sent(&header(1, 1, 0), &[])]) };
        trace.note(session, unseen);
        assert!(lines_of(&trace.all()).is_empty());
        assert!(recording_of(&trace.all()).contains("\"code\": 1"));
        trace.clear();
        assert_eq!(recording_of(&trace.all()), "");
    }
}
