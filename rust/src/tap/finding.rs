// SPDX-License-Identifier: Apache-2.0
//! What is found of a session, by one of three words.

/// How a stream ended that went on until the tap ended.
pub(super) const STOPPED: &str = "the tap was stopped";
/// How one ended whose sender still receives.
pub(super) const SENDS_NO_MORE: &str = "it sends no more, and still receives";
/// How one ended that its receiver left, before the system's reason.
pub(super) const TAKEN_NO_MORE: &str = "it is no longer received";

#[derive(Clone, Copy, Debug, PartialEq, Eq)]
pub(super) enum Kind {
    /// A side broke a rule. Only this is the status.
    Wrong,
    /// A reply that nobody could wait for, since another than the backend ended the session, or what was seen of it ended.
    Unanswered,
    /// None that the table has, which real frontends take, and those of Standard.
    Taken,
}

#[derive(Clone, Debug, PartialEq, Eq)]
pub(super) struct Finding {
    pub(super) kind: Kind,
    pub(super) text: String,
}

/// Who ended a session by this end of the frontend's stream, if anybody did but the backend.
pub(super) fn leaver(cause: Option<&str>) -> Option<&'static str> {
    match cause {
        Some(STOPPED) => Some("the tap"),
        Some(SENDS_NO_MORE) => None,
        Some(cause) if cause.starts_with(TAKEN_NO_MORE) => None,
        _ => Some("the frontend"),
    }
}

/// The same by this end of the backend's.
pub(super) fn leaver_behind(cause: Option<&str>) -> Option<&'static str> {
    match cause {
        Some(STOPPED) => Some("the tap"),
        Some(cause) if cause.starts_with(TAKEN_NO_MORE) => Some("the frontend"),
        _ => None,
    }
}
