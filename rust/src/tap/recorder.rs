// SPDX-License-Identifier: Apache-2.0
//! Recordings that another program than the tap makes, of what it has sent and received itself.
use std::collections::BTreeMap;
use std::fmt;

use super::event::{Event, Message, Way, What};
use super::gathering::{Gathering, Received};
use super::recording::{line_of, rounded};

/// Makes a recording, which `covretin-tap --replay` shows, of pieces of streams. A way is called as it is shown: `F>B` or `B>F`, and
/// `rev:F>B` or `rev:B>F` for the backend channel. A time is in seconds.
#[derive(Default)]
pub struct Recorder {
    text: String,
    last: f64,
    streams: BTreeMap<(u64, String), Gathering>,
}

impl fmt::Debug for Recorder {
    fn fmt(&self, f: &mut fmt::Formatter<'_>) -> fmt::Result {
        f.debug_struct("Recorder").field("last", &self.last).finish_non_exhaustive()
    }
}

impl Recorder {
    /// A session begins.
    pub fn connected(&mut self, time: f64, session: u64) {
        self.push(time, session, What::Connected(Ok(())));
    }

    /// These bytes went at once, and descriptors of these kinds came with the first of them.
    pub fn piece(&mut self, time: f64, session: u64, way: &str, bytes: &[u8], kinds: &[String]) {
        let way = match Way::of_name(way) {
            Some(way) => way,
            None => return,
        };
        let stream = self.streams.entry((session, way.to_string())).or_default();
        let (mut rest, mut kinds, mut events) = (bytes, kinds.to_vec(), Vec::new());
        while !rest.is_empty() {
            let (part, behind) = rest.split_at(stream.missing().min(rest.len()));
            let received = stream.note(part, std::mem::take(&mut kinds));
            let message = stream.message();
            match received {
                Received::Part => {}
                Received::Message => events.push(What::Message(way, message.clone())),
                Received::Bytes => events.push(What::Bytes(way, message.bytes.clone())),
            }
            if received != Received::Part {
                stream.begin();
            }
            rest = behind;
        }
        events.into_iter().for_each(|it| self.push(time, session, it));
    }

    /// A stream has ended, or failed so.
    pub fn ended(&mut self, time: f64, session: u64, way: &str, cause: Option<String>) {
        let stream = self.streams.remove(&(session, way.to_string()));
        if let Some(way) = Way::of_name(way) {
            if let Some(message) = stream.as_ref().and_then(part_of) {
                self.push(time, session, What::Message(way, message));
            }
            self.push(time, session, What::Ended(way, cause));
        }
    }

    /// The recording, a line of JSON each event.
    pub fn finish(mut self) -> String {
        for ((session, name), stream) in std::mem::take(&mut self.streams) {
            if let Some((way, message)) = Way::of_name(&name).zip(part_of(&stream)) {
                self.push(self.last, session, What::Message(way, message));
            }
        }
        self.text
    }

    fn push(&mut self, time: f64, session: u64, what: What) {
        self.last = time;
        self.text += &line_of(&Event { time: rounded(time), session, what });
        self.text.push('\n');
    }
}

/// A message of which the rest is missing.
fn part_of(stream: &Gathering) -> Option<Message> {
    stream.is_part().then(|| Message { is_short: true, ..stream.message().clone() })
}

#[cfg(test)]
mod tests {
    use super::super::event::{TO_BACKEND, TO_FRONTEND};
    use super::super::recording::event_of;
    use super::*;

    const HEAD: [u8; 12] = [1, 0, 0, 0, 1, 0, 0, 0, 2, 0, 0, 0];

    fn events_of(recorder: Recorder) -> Vec<What> {
        recorder.finish().lines().map(|it| event_of(it.as_bytes()).unwrap().what).collect()
    }

    #[test]
    fn pieces_become_messages() {
        let mut recorder = Recorder::default();
        recorder.connected(0.0, 1);
        recorder.piece(0.1, 1, "F>B", &[HEAD.as_slice(), &[7, 8], &HEAD[..3]].concat(), &["anon".to_string()]);
        recorder.piece(0.2, 1, "F>B", &HEAD[3..], &[]);
        recorder.piece(0.3, 1, "F>B", &[9], &["memfd".to_string()]);
        recorder.ended(0.4, 1, "F>B", None);
        let first = Message {
            bytes: [HEAD.as_slice(), &[7, 8]].concat(),
            fds: vec!["anon".to_string()],
            fds_at: vec![0],
            cuts: vec![12, 2],
            ..Message::default()
        };
        let second = Message {
            bytes: [HEAD.as_slice(), &[9]].concat(),
            fds: vec!["memfd".to_string()],
            fds_at: vec![12],
            body_fds: 1,
            cuts: vec![3, 9, 1],
            is_short: true,
        };
        let expected = [
            What::Connected(Ok(())),
            What::Message(TO_BACKEND, first),
            What::Message(TO_BACKEND, second),
            What::Ended(TO_BACKEND, None),
        ];
        assert_eq!(expected.to_vec(), events_of(recorder));
    }

    #[test]
    fn what_is_no_message_is_bytes() {
        let mut recorder = Recorder::default();
        recorder.piece(0.0, 1, "B>F", &[1, 0, 0, 0, 5, 0, 0, 0, 0xff, 0xff, 0xff, 0xff, 3], &[]);
        recorder.piece(0.0, 1, "nowhere", &[1], &[]);
        recorder.piece(0.0, 1, "F>B", &HEAD[..4], &[]);
        let events = events_of(recorder);
        assert!(
            matches!(&events[..], [What::Message(TO_FRONTEND, _), What::Bytes(TO_FRONTEND, bytes), What::Message(TO_BACKEND, part)]
            if *bytes == [3] && part.is_short)
        );
    }
}
