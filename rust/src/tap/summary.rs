// SPDX-License-Identifier: Apache-2.0
//! What was seen, in numbers.
use std::collections::BTreeMap;

use super::event::{Channel, Event, Side, What};
use super::finding::Kind;
use super::json::Json;
use super::judge::Tally;
use super::layout::name_of;

#[derive(Default)]
pub(super) struct Summary {
    pub(super) sessions: usize,
    from_the_frontend: usize,
    from_the_backend: usize,
    /// How many of each request came whole, of a frontend.
    requests: BTreeMap<String, usize>,
    pub(super) complaints: usize,
    unanswered: usize,
    taken: usize,
    unconnected: usize,
    tally: Tally,
}

impl Summary {
    pub(super) fn see(&mut self, event: &Event) {
        self.unconnected += usize::from(matches!(event.what, What::Connected(Err(_))));
        if let What::Message(way, message) = &event.what {
            if message.is_short {
                return;
            }
            match way.from {
                Side::Frontend => self.from_the_frontend += 1,
                Side::Backend => self.from_the_backend += 1,
            }
            if way.channel == Channel::Device && way.from == Side::Frontend {
                let name = message.request().map_or_else(|| "unknown".to_string(), |_| name_of(*way, message));
                *self.requests.entry(name).or_default() += 1;
            }
        }
    }

    /// One more was found of this kind.
    pub(super) fn count(&mut self, kind: Kind) {
        match kind {
            Kind::Wrong => self.complaints += 1,
            Kind::Unanswered => self.unanswered += 1,
            Kind::Taken => self.taken += 1,
        }
    }

    /// How many of each kind were found.
    pub(super) fn verdict(&self) -> String {
        let told = |count: usize, name: &str| (count != 0).then(|| format!("{name}: {count}"));
        let wrong = [told(self.complaints, "wrong"), told(self.unconnected, "not connected")];
        let nothing = (self.complaints + self.unconnected == 0).then(|| "nothing is wrong".to_string());
        let other = [nothing, told(self.unanswered, "unanswered"), told(self.taken, "not by the letter")];
        let parts: Vec<String> = wrong.into_iter().chain(other).flatten().collect();
        parts.join(", ")
    }

    /// Adds what was counted of a session.
    pub(super) fn add(&mut self, tally: Tally) {
        self.tally.refused_by_the_table += tally.refused_by_the_table;
        self.tally.refused_by_the_backend += tally.refused_by_the_backend;
        let longest = |tally: &Tally| tally.longest.as_ref().map_or(-1.0, |(time, _)| *time);
        if longest(&tally) > longest(&self.tally) {
            self.tally.longest = tally.longest;
        }
    }

    pub(super) fn text(&self) -> String {
        let lines = self.lines().into_iter().chain([self.verdict()]);
        lines.map(|line| format!("= {line}")).collect::<Vec<String>>().join("\n")
    }

    /// The lines that stand above the verdict.
    pub(super) fn lines(&self) -> [String; 4] {
        let requests: Vec<String> = self.requests.iter().map(|(name, count)| format!("{name} {count}")).collect();
        let requests = if requests.is_empty() { "none".to_string() } else { requests.join(", ") };
        let longest = self.tally.longest.as_ref();
        let longest = longest.map_or_else(|| "none".to_string(), |(time, name)| format!("{time:.4} s, to {name}"));
        let Tally { refused_by_the_table, refused_by_the_backend, .. } = self.tally;
        [
            format!("sessions {}, messages F>B {} and B>F {}", self.sessions, self.from_the_frontend, self.from_the_backend),
            format!("requests: {requests}"),
            format!("refused by the table {refused_by_the_table}, by the backend {refused_by_the_backend}"),
            format!("longest answer: {longest}"),
        ]
    }

    pub(super) fn json(&self) -> Json {
        let requests = self.requests.iter().map(|(name, count)| (name.clone(), Json::count(*count)));
        let longest = self.tally.longest.as_ref().map_or(Json::Null, |(time, name)| {
            Json::object([("seconds", super::recording::time_of(*time)), ("request", Json::text(name))])
        });
        let summary = Json::object([
            ("sessions", Json::count(self.sessions)),
            ("from_the_frontend", Json::count(self.from_the_frontend)),
            ("from_the_backend", Json::count(self.from_the_backend)),
            ("requests", Json::Object(requests.collect())),
            ("refused_by_the_table", Json::count(self.tally.refused_by_the_table)),
            ("refused_by_the_backend", Json::count(self.tally.refused_by_the_backend)),
            ("longest_answer", longest),
            ("complaints", Json::count(self.complaints)),
            ("unanswered", Json::count(self.unanswered)),
            ("taken", Json::count(self.taken)),
            ("not_connected", Json::count(self.unconnected)),
        ]);
        Json::object([("summary", summary)])
    }
}
