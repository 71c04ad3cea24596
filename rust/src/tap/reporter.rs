// SPDX-License-Identifier: Apache-2.0
//! Tells of what happens to a thread that looks at it. That never holds up what is passed on: where too much waits to be looked at,
//! nothing more is told.
use std::sync::atomic::{AtomicBool, Ordering};
use std::sync::mpsc::{sync_channel, Receiver, RecvTimeoutError, SyncSender};
use std::sync::Arc;
use std::time::{Duration, Instant};

use super::event::{Event, What};
use super::recording::rounded;

/// How much may wait to be looked at.
const MOST_WAITING: usize = 0x4000;

/// What comes next to a thread that looks at events.
pub(super) enum Next {
    Event(Event),
    /// Nothing yet, by the time that was named.
    Nothing,
    /// Nothing more is told.
    Stop,
}

/// Where the events of all sessions come.
pub(super) struct Notes {
    started: Instant,
    /// None: nothing more is told.
    notes: Receiver<Option<Event>>,
    is_lost: Arc<AtomicBool>,
}

impl Notes {
    /// What is there already, if anything is.
    pub(super) fn ready(&self) -> Option<Next> {
        self.notes.try_recv().ok().map(next)
    }

    /// What comes, if it does before this time, of the seconds since the start.
    pub(super) fn by(&self, time: Option<f64>) -> Next {
        let note = match time {
            None => self.notes.recv().map_err(|_| RecvTimeoutError::Disconnected),
            Some(time) => self.notes.recv_timeout(Duration::from_secs_f64((time - self.now()).max(0.0))),
        };
        match note {
            Ok(note) => next(note),
            Err(RecvTimeoutError::Timeout) => Next::Nothing,
            Err(RecvTimeoutError::Disconnected) => Next::Stop,
        }
    }

    /// How many seconds have passed since the start.
    pub(super) fn now(&self) -> f64 {
        self.started.elapsed().as_secs_f64()
    }

    /// Whether something could not be told: what is awaited then may have come.
    pub(super) fn is_lost(&self) -> bool {
        self.is_lost.load(Ordering::Relaxed)
    }
}

fn next(note: Option<Event>) -> Next {
    note.map_or(Next::Stop, Next::Event)
}

/// Tells of one session.
#[derive(Clone)]
pub(super) struct Reporter {
    session: u64,
    started: Instant,
    notes: SyncSender<Option<Event>>,
    /// Something could not be told.
    is_lost: Arc<AtomicBool>,
}

impl Reporter {
    /// One of session 0, and where it tells.
    pub(super) fn new() -> (Reporter, Notes) {
        let (notes, received) = sync_channel(MOST_WAITING);
        let (started, is_lost) = (Instant::now(), Arc::<AtomicBool>::default());
        let received = Notes { started, notes: received, is_lost: is_lost.clone() };
        (Reporter { session: 0, started, notes, is_lost }, received)
    }

    /// The same of another session.
    pub(super) fn of(&self, session: u64) -> Reporter {
        Reporter { session, ..self.clone() }
    }

    pub(super) fn tell(&self, what: What) {
        if self.is_lost.load(Ordering::Relaxed) {
            return;
        }
        let event = Event { time: rounded(self.started.elapsed().as_secs_f64()), session: self.session, what };
        if self.notes.try_send(Some(event)).is_err() {
            self.is_lost.store(true, Ordering::Relaxed);
        }
    }

    /// Says that nothing more is told, and waits until there is room to say it.
    pub(super) fn stop(&self) {
        // (where nobody listens, nobody has to know)
        let _ = self.notes.send(None);
    }

    pub(super) fn is_lost(&self) -> bool {
        self.is_lost.load(Ordering::Relaxed)
    }
}
