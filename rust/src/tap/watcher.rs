// SPDX-License-Identifier: Apache-2.0
//! Takes what happens, in its order: records, shows and judges it.
use std::collections::BTreeMap;
use std::fs::File;
use std::io::{self, BufWriter, Write};

use super::event::{Event, What};
use super::finding::Finding;
use super::judge::Judge;
use super::options::{Format, Options};
use super::packets::Packets;
use super::page::Page;
use super::recording::line_of;
use super::show::Shower;
use super::summary::Summary;
use crate::vhost_user::Profile;

/// For how many seconds a reply may be awaited before it is told.
const PATIENCE: u32 = 5;

pub(super) struct Watcher<W: Write> {
    profile: Profile,
    shower: Shower,
    output: BufWriter<W>,
    record: Option<BufWriter<File>>,
    packets: Option<Packets>,
    page: Option<Page<File>>,
    judges: BTreeMap<u64, Judge>,
    summary: Summary,
    /// When the last event was.
    last: f64,
    /// Why a session was not connected to the backend.
    unconnected: Option<String>,
    /// Why the output or the recording is not whole.
    failed: Option<io::Error>,
}

/// What was found.
pub(super) struct Verdict {
    pub(super) complaints: usize,
    /// Why a session was not connected to the backend.
    pub(super) unconnected: Option<String>,
    /// Why the output or the recording is not whole.
    pub(super) failed: Option<io::Error>,
}

/// When the reply that a session awaits will have been awaited for long.
fn long_wait(judge: &Judge) -> Option<f64> {
    judge.waits_since().map(|since| since + f64::from(PATIENCE))
}

impl<W: Write> Watcher<W> {
    pub(super) fn new(options: &Options, output: W, record: Option<File>, packets: Option<Packets>) -> Watcher<W> {
        Watcher {
            profile: options.profile,
            shower: Shower { format: options.format, shows_bytes: options.shows_bytes },
            output: BufWriter::new(output),
            record: record.map(BufWriter::new),
            packets,
            page: None,
            judges: BTreeMap::new(),
            summary: Summary::default(),
            last: 0.0,
            unconnected: None,
            failed: None,
        }
    }

    /// The same, and what it sees is a row of this page.
    pub(super) fn with_page(self, page: Option<Page<File>>) -> Watcher<W> {
        Watcher { page, ..self }
    }

    /// Takes an event. It is shown at the latest with the next `flush`.
    pub(super) fn see(&mut self, event: &Event) {
        self.tell_waits(event.time);
        self.last = event.time;
        self.summary.see(event);
        if let What::Connected(Err(cause)) = &event.what {
            self.unconnected = Some(cause.clone());
        }
        let findings = self.judge(event);
        self.record(event);
        self.put(event, &findings);
    }

    /// When the next reply will have been awaited for long.
    pub(super) fn next_wait(&self) -> Option<f64> {
        self.judges.values().filter_map(long_wait).min_by(f64::total_cmp)
    }

    /// Tells of each reply that has been awaited for long by this time.
    pub(super) fn tell_waits(&mut self, time: f64) {
        while let Some(next) = self.next_wait().filter(|next| *next <= time) {
            let waiting = self.judges.iter_mut().find(|(_, judge)| long_wait(judge) == Some(next));
            let told = waiting.and_then(|(session, judge)| Some((*session, judge.tell_wait()?)));
            if let Some((session, name)) = told {
                self.put(&Event { time: next, session, what: What::Waits(PATIENCE, name) }, &[]);
            }
        }
    }

    /// What is found of an event. A session that has ended is forgotten.
    fn judge(&mut self, event: &Event) -> Vec<Finding> {
        if !event.is_of_the_device() {
            return Vec::new();
        }
        let Watcher { profile, judges, summary, .. } = self;
        let judge = judges.entry(event.session).or_insert_with(|| {
            summary.sessions += 1;
            Judge::new(*profile)
        });
        let findings = judge.see(event);
        if judge.has_ended() {
            summary.add(std::mem::take(&mut judge.tally));
            judges.remove(&event.session);
        }
        findings
    }

    fn record(&mut self, event: &Event) {
        let recorded = self.record.as_mut().map_or(Ok(()), |file| writeln!(file, "{}", line_of(event)));
        self.failed = self.failed.take().or(recorded.err());
    }

    /// Shows an event, and what is found of it.
    fn put(&mut self, event: &Event, findings: &[Finding]) {
        let mut lines = vec![self.shower.event(event)];
        lines.extend(findings.iter().map(|finding| self.shower.finding(event, finding)));
        findings.iter().for_each(|finding| self.summary.count(finding.kind));
        let shown = writeln!(self.output, "{}", lines.join("\n"));
        let packed = self.packets.as_mut().map_or(Ok(()), |packets| packets.put(event, findings));
        let paged = self.page.as_mut().map_or(Ok(()), |page| page.put(event, findings));
        if paged.is_err() {
            self.page = None;
        }
        self.failed = self.failed.take().or(shown.err()).or(packed.err()).or(paged.err());
    }

    /// All that was seen is shown and recorded from then on.
    pub(super) fn flush(&mut self) {
        let recorded = self.record.as_mut().map_or(Ok(()), Write::flush);
        let packed = self.packets.as_mut().map_or(Ok(()), Packets::flush);
        let shown = self.output.flush();
        self.failed = self.failed.take().or(recorded.err()).or(packed.err()).or(shown.err());
    }

    /// Judges what is still awaited, unless something was seen by nobody. Shows what was seen in numbers, and ends.
    pub(super) fn finish(mut self, is_whole: bool) -> Verdict {
        for (session, mut judge) in std::mem::take(&mut self.judges) {
            let findings = if is_whole { judge.leave(self.last) } else { Vec::new() };
            if !findings.is_empty() {
                self.put(&Event { time: self.last, session, what: What::Left }, &findings);
            }
            self.summary.add(judge.tally);
        }
        let summary = match self.shower.format {
            Format::Json => self.summary.json().to_string(),
            Format::Text => self.summary.text(),
        };
        let shown = writeln!(self.output, "{summary}");
        self.flush();
        let paged = self.page.take().map_or(Ok(()), |page| page.finish(&self.summary));
        let failed = self.failed.or(shown.err()).or(paged.err());
        Verdict { complaints: self.summary.complaints, unconnected: self.unconnected, failed }
    }
}

#[cfg(test)]
mod tests {
    use super::super::event::{What, TO_BACKEND, TO_FRONTEND};
    use super::super::options::Source;
    use super::*;

    /// A tap may run for days before a backend that is not there.
    #[test]
    fn a_session_that_has_ended_is_forgotten() {
        let source = Source::Recording("none".into());
        let options =
            Options { profile: Profile::Standard, format: Format::Text, shows_bytes: false, html: None, pcapng: None, source };
        let mut watcher = Watcher::new(&options, Vec::new(), None, None);
        let mut see = |session, what| {
            watcher.see(&Event { time: 0.0, session, what });
            (watcher.judges.len(), watcher.summary.sessions)
        };
        assert_eq!((0, 1), see(1, What::Connected(Err("nobody is there".to_string()))));
        assert_eq!((1, 2), see(2, What::Connected(Ok(()))));
        assert_eq!((1, 2), see(2, What::Ended(TO_BACKEND, None)));
        assert_eq!((0, 2), see(2, What::Ended(TO_FRONTEND, None)));
    }
}
