// SPDX-License-Identifier: Apache-2.0
//! Lines for whoever listens by the crate `log`, where the feature of this name is on: the same, at the same levels and as few in a second, as the
//! kit in C says by `covretin_set_log`. Nothing is made of a line that nobody hears; none has a path, or anything of guest memory.
use std::fmt::Display;
use std::io::ErrorKind;
#[cfg(feature = "log")]
use std::sync::{Mutex, PoisonError};
#[cfg(feature = "log")]
use std::time::{Duration, Instant};

use crate::reasons;
use crate::vhost_user::message::FrontendReq;
use crate::vhost_user::Error;

/// Whom a line is for: who looks for what does not work at all, for what a peer did wrong, and for who comes and goes.
#[derive(Clone, Copy, Debug, PartialEq, Eq)]
pub(crate) enum Level {
    Error,
    Warning,
    Info,
}

/// Says a line, where somebody listens.
#[cfg(feature = "log")]
pub(crate) fn say(level: Level, text: impl FnOnce() -> String) {
    if is_heard(level) && may_come() {
        log::log!(target: TARGET, level.into(), "{}", text());
    }
}

#[cfg(not(feature = "log"))]
pub(crate) fn say(_level: Level, _text: impl FnOnce() -> String) {}

/// Whether somebody listens to lines of a level.
#[cfg(feature = "log")]
pub(crate) fn is_heard(level: Level) -> bool {
    log::log_enabled!(target: TARGET, level.into())
}

#[cfg(not(feature = "log"))]
pub(crate) fn is_heard(_level: Level) -> bool {
    false
}

#[cfg(feature = "log")]
const TARGET: &str = "covretin";

#[cfg(feature = "log")]
impl From<Level> for log::Level {
    fn from(level: Level) -> log::Level {
        match level {
            Level::Error => log::Level::Error,
            Level::Warning => log::Level::Warn,
            Level::Info => log::Level::Info,
        }
    }
}

/// How many lines come in a second, of all sessions of the process, since each is caused by a peer.
#[cfg(feature = "log")]
const MOST_LINES: u32 = 20;

/// When a second began, and how many lines came in it, or would have come.
#[cfg(feature = "log")]
static CAME: Mutex<(Option<Instant>, u32)> = Mutex::new((None, 0));

/// Whether a line may come now. The first of a second says how many were left out before.
#[cfg(feature = "log")]
fn may_come() -> bool {
    let mut came = CAME.lock().unwrap_or_else(PoisonError::into_inner);
    let mut left_out = 0;
    if came.0.map_or(true, |begun| begun.elapsed() >= Duration::from_secs(1)) {
        left_out = came.1.saturating_sub(MOST_LINES);
        *came = (Some(Instant::now()), 0);
    }
    came.1 = came.1.saturating_add(1);
    let may_come = came.1 <= MOST_LINES;
    drop(came); // (who listens may be of this package, too)
    if left_out != 0 {
        log::warn!(target: TARGET, "{}", reasons::left_out(left_out));
    }
    may_come
}

/// A request was refused.
pub(crate) fn refused(request: Option<u32>, reason: impl FnOnce() -> String) {
    say(Level::Warning, || reasons::refused(name_of(request), reason()));
}

/// A session ended by this error, whose last request may have ended amid its body.
#[cold]
pub(crate) fn ended(request: Option<u32>, is_cut: bool, error: &Error) {
    match error {
        _ if is_cut => say(Level::Error, || reasons::amid_body(name_of(request))),
        error if has_left(error) && request.is_none() => say(Level::Info, || reasons::FRONTEND_LEFT.to_string()),
        error if has_left(error) => say(Level::Info, || reasons::frontend_went(name_of(request))),
        Error::PartialMessage => say(Level::Error, || reasons::amid_header(name_of(request))),
        error => ended_here(request, error),
    }
}

/// Whether the frontend went, between two requests, maybe without having read what it was told.
fn has_left(error: &Error) -> bool {
    match error {
        Error::Disconnected => true,
        Error::SocketBroken(cause) => matches!(cause.kind(), ErrorKind::ConnectionReset | ErrorKind::BrokenPipe),
        _ => false,
    }
}

/// This device ended a session.
pub(crate) fn ended_here(request: Option<u32>, why: impl Display) {
    say(Level::Error, || reasons::ended_here(name_of(request), why));
}

/// Why the device refused a call, by its error.
pub(crate) fn reason_of(error: &Error) -> String {
    match error {
        Error::BackendInternalError => reasons::BY_DEVICE.to_string(),
        Error::InvalidOperation(reason) => reason.to_string(),
        Error::ReqHandlerError(cause) => cause.to_string(),
        error => error.to_string(),
    }
}

fn name_of(request: Option<u32>) -> String {
    match request.map(|number| (number, FrontendReq::try_from(number))) {
        None => reasons::NO_REQUEST.to_string(),
        Some((_, Ok(request))) => format!("{request:?}"),
        Some((number, Err(()))) => reasons::numbered(number),
    }
}
