// SPDX-License-Identifier: Apache-2.0
//! The cases that are programmed: each sends something, and says whether what came of it holds.
mod acknowledgements;
mod addresses;
mod channel;
mod configuration;
mod display;
mod headers;
mod hostile;
mod inflight;
mod killed;
mod log;
mod memory;
mod moving;
mod negotiation;
mod others;
mod packed_rings;
mod page_faults;
mod programs;
mod reset;
mod ring_requests;
mod ring_states;

use std::fs::File;
use std::os::unix::io::{AsRawFd, OwnedFd};

use crate::connection::{listed, Connection, Reply, Stop};
use crate::system::{event, memory_file};
use crate::target::Target;
use crate::wire::*;

/// What a case has seen, and whether it is as expected.
pub struct Seen {
    pub holds: bool,
    pub text: String,
}

pub type Play = fn(&mut Target) -> Result<Seen, Stop>;
/// The number of a case, and what it does.
pub type Case = (&'static str, Play);
type Outcome = Result<Seen, Stop>;

/// All of them.
pub fn all() -> impl Iterator<Item = &'static Case> {
    let groups = [
        headers::CASES,
        negotiation::CASES,
        acknowledgements::CASES,
        memory::CASES,
        ring_states::CASES,
        ring_requests::CASES,
        packed_rings::CASES,
        configuration::CASES,
        log::CASES,
        inflight::CASES,
        killed::CASES,
        moving::CASES,
        page_faults::CASES,
        channel::CASES,
        addresses::CASES,
        reset::CASES,
        others::CASES,
        display::CASES,
        hostile::CASES,
        programs::CASES,
    ];
    groups.into_iter().flatten()
}

/// The cases that are not programmed, each with the reason.
pub const UNPROGRAMMED: &[(&str, &str)] = &[
    ("SHM-02", "no request asks a backend to map shared memory, so it would take a driver of a device that does: none that is known offers SHMEM"),
    ("END-01", "no backend that is known offers CROSS_ENDIAN, which is for legacy guests whose bytes are in another order than the host's"),
    ("XEN-01", "a region of Xen's memory can be mapped in a machine of Xen alone"),
];

fn seen(holds: bool, text: impl Into<String>) -> Outcome {
    Ok(Seen { holds, text: text.into() })
}

/// How a peer took a message that is wrong.
enum Answer {
    Replies(Vec<Reply>),
    HungUp,
    Silent,
    Odd(String),
}

impl Answer {
    fn of(result: Result<Vec<Reply>, Stop>) -> Result<Self, Stop> {
        match result {
            Ok(replies) => Ok(Answer::Replies(replies)),
            Err(Stop::HungUp(_)) => Ok(Answer::HungUp),
            Err(Stop::Silent(_)) => Ok(Answer::Silent),
            Err(Stop::Odd(why)) => Ok(Answer::Odd(why)),
            Err(stop) => Err(stop),
        }
    }

    fn text(&self) -> String {
        match self {
            Answer::Replies(replies) => listed(replies),
            Answer::HungUp => "hung up".to_string(),
            Answer::Silent => "silent".to_string(),
            Answer::Odd(why) => format!("odd: {why}"),
        }
    }

    fn has_hung_up(&self) -> bool {
        matches!(self, Answer::HungUp)
    }

    /// Whether the request was refused: by an acknowledgement that is not zero, or by the end of the connection.
    fn is_refused(&self) -> bool {
        match self {
            Answer::HungUp => true,
            Answer::Replies(replies) => replies.first().map_or(false, |it| it.number().map_or(false, |it| it != 0)),
            _ => false,
        }
    }

    /// Whether who waits for a reply waits no longer.
    fn is_answered(&self) -> bool {
        matches!(self, Answer::HungUp) || matches!(self, Answer::Replies(replies) if !replies.is_empty())
    }

    /// Whether the connection goes on.
    fn goes_on(&self) -> bool {
        matches!(self, Answer::Replies(_))
    }

    fn seen_refused(self) -> Outcome {
        seen(self.is_refused(), self.text())
    }

    fn seen_answered(self) -> Outcome {
        seen(self.is_answered(), self.text())
    }
}

/// That there is one acknowledgement, and it is zero.
fn seen_zero(replies: Vec<Reply>) -> Outcome {
    seen(is_zero(&replies), listed(&replies))
}

fn is_zero(replies: &[Reply]) -> bool {
    matches!(replies, [one] if one.is_zero())
}

/// That nothing was replied.
fn seen_nothing(replies: Vec<Reply>) -> Outcome {
    seen(replies.is_empty(), listed(&replies))
}

/// That a request that wants an acknowledgement is refused.
fn refused(connection: &mut Connection, request: Request, body: &[u8], descriptors: &[OwnedFd]) -> Outcome {
    asked(connection, request, body, descriptors)?.seen_refused()
}

/// How a request that wants an acknowledgement is taken.
fn asked(connection: &mut Connection, request: Request, body: &[u8], descriptors: &[OwnedFd]) -> Result<Answer, Stop> {
    let raw: Vec<_> = descriptors.iter().map(AsRawFd::as_raw_fd).collect();
    Answer::of(connection.need(request, body, &raw))
}

/// New memory as descriptors, a file of so many bytes each.
fn files(count: usize, size: u64) -> Result<Vec<OwnedFd>, Stop> {
    (0..count).map(|_| Ok(OwnedFd::from(memory_file(size)?))).collect()
}

fn events(count: usize) -> Result<Vec<OwnedFd>, Stop> {
    (0..count).map(|_| Ok(event()?)).collect()
}

/// The guest's whole memory in a file.
fn whole_file() -> Result<File, Stop> {
    Ok(memory_file(SIZE)?)
}

/// That a request of the driven ring is carried out, after which the used index is this.
fn works(target: &Target, connection: &Connection, ring: &mut crate::ring::Ring, used: u16) -> Result<bool, Stop> {
    target.kind()?.write_request(ring);
    ring.push(0);
    Ok(ring.is_done(used, connection.process, connection.limit))
}

/// The number of descriptors now, and whether there are no more than before.
fn seen_descriptors(target: &Target, before: usize, more: &str) -> Outcome {
    let now = target.settled_descriptors(before)?;
    seen(now <= before, format!("descriptors {before} -> {now}{more}"))
}
