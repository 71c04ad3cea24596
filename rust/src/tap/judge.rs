// SPDX-License-Identifier: Apache-2.0
//! Judges a session by the proved core: its requests go through a serving session of the library, and each reply is compared with
//! what that session would have written, given the answer that the reply holds.
use std::collections::VecDeque;
use std::os::unix::io::RawFd;

use super::call::{answer, form_of, is_awaited, is_refusal, stand_ins, Form};
use super::differences::differences;
use super::event::{number_at, Event, Message, Way, What, HEADER, TO_BACKEND, TO_FRONTEND};
use super::finding::{leaver, leaver_behind, Finding, Kind, STOPPED};
use super::layout::name_of;
use super::refused::{came_of, has_own_reply};
use super::unserved::{stands_for, StandIn};
use crate::foreign::{BackendSession, Code, Moves, Owning, Serves, MAX_FDS, MAX_MESSAGE};
use crate::reasons::count_of;
use crate::vhost_user::message::{FrontendReq, VhostUserHeaderFlag, VhostUserProtocolFeatures, VhostUserVirtioFeatures};
use crate::vhost_user::Profile;
use crate::why::why;

/// COVRETIN_BACKEND_INTERNAL_ERROR: the device refused.
const DEVICE_REFUSED: Code = Code(17);
/// How many requests that were refused without a reply are remembered, since a backend may reply to them all the same.
const MOST_REFUSED: usize = 64;
/// How many requests may come behind one whose reply is awaited.
const MOST_WAITING: usize = 1024;
/// There and back.
const WAYS: usize = 2;

/// A session whose numbers are no descriptors: none is ever closed.
type Judging = Owning<BackendSession, RawFd>;

/// What the two sides agreed on, as far as acknowledgements depend on it.
#[derive(Default)]
pub(super) struct Agreed {
    offered: u64,
    protocol: u64,
}

impl Agreed {
    /// Whether a request is acknowledged that asks for it.
    pub(super) fn acknowledges(&self) -> bool {
        self.offered & VhostUserVirtioFeatures::PROTOCOL_FEATURES.bits() != 0
            && self.protocol & VhostUserProtocolFeatures::REPLY_ACK.bits() != 0
    }
}

/// What is counted of a session.
#[derive(Default)]
pub(super) struct Tally {
    pub(super) refused_by_the_table: usize,
    pub(super) refused_by_the_backend: usize,
    /// How many seconds the longest answer took, and to what.
    pub(super) longest: Option<(f64, String)>,
}

/// A request whose reply is awaited.
struct Pending {
    time: f64,
    /// When its reply was the next that may come.
    since: f64,
    /// Whether it was told that it waits.
    is_told: bool,
    request: Message,
    owed: Owed,
}

enum Owed {
    /// The reply holds the device's answer.
    Answer(Form),
    /// The session refused the request, and wrote this.
    Written(Vec<u8>, usize),
    /// A reply that no table has.
    Any,
}

pub(super) struct Judge {
    profile: Profile,
    /// None: it judges no more.
    session: Option<Judging>,
    agreed: Agreed,
    /// Requests behind one whose reply is awaited.
    waiting: VecDeque<(f64, Message)>,
    pending: Option<Pending>,
    /// Requests that were refused without a reply.
    refused: Vec<u32>,
    findings: Vec<Finding>,
    /// What of a message came last, of each way whose end is to be told.
    cuts: Vec<(Way, String)>,
    /// When the last event was.
    now: f64,
    /// How many of its ways have ended.
    ended: usize,
    /// Who ended the frontend's way, if that was not the backend.
    left_by: Option<&'static str>,
    pub(super) tally: Tally,
}

impl Judge {
    pub(super) fn new(profile: Profile) -> Judge {
        let opened = BackendSession::open().map(Judging::new);
        let session = opened.and_then(|mut session| session.set_profile(profile as u32).map(|()| session));
        let failed = session.as_ref().err().map(|_| "there is no memory to judge by");
        let mut judge = Judge {
            profile,
            session: session.ok(),
            agreed: Agreed::default(),
            waiting: VecDeque::new(),
            pending: None,
            refused: Vec::new(),
            findings: Vec::new(),
            cuts: Vec::new(),
            now: 0.0,
            ended: 0,
            left_by: None,
            tally: Tally::default(),
        };
        failed.iter().for_each(|failed| judge.complain(*failed));
        judge
    }

    /// What is found of what happened.
    pub(super) fn see(&mut self, event: &Event) -> Vec<Finding> {
        self.now = event.time;
        match &event.what {
            What::Connected(Err(_)) => self.ended = WAYS,
            What::Message(way, message) if !message.is_whole() && way.channel == TO_BACKEND.channel => {
                self.cuts.push((*way, cut_short(message)));
            }
            What::Message(TO_BACKEND, message) if self.session.is_some() => {
                self.waiting.push_back((event.time, message.clone()));
                if self.waiting.len() > MOST_WAITING {
                    self.give_up();
                }
                self.advance();
            }
            What::Message(TO_FRONTEND, message) if self.session.is_some() => self.see_reply(event.time, message),
            What::Bytes(way, _) if way.channel == TO_BACKEND.channel && self.session.is_some() => {
                self.stop("these bytes are no message");
            }
            What::Ended(way, cause) if way.channel == TO_BACKEND.channel => self.see_end(*way, cause.as_deref(), event.time),
            _ => {}
        }
        std::mem::take(&mut self.findings)
    }

    /// A way of the session has ended, so.
    fn see_end(&mut self, way: Way, cause: Option<&str>, time: f64) {
        self.ended += 1;
        // (the other way may have its end still to be told)
        if let Some(at) = self.cuts.iter().position(|(of, _)| *of == way) {
            let (_, cut) = self.cuts.remove(at);
            match cause {
                Some(STOPPED) => self.note(Kind::Unanswered, format!("{cut}, as the session was ended by the tap")),
                _ => self.complain(cut),
            }
        }
        match way {
            // (whoever left first: the tap may end between the one way's end and the other's)
            TO_FRONTEND => self.end(time, self.left_by.or(leaver_behind(cause))),
            _ => self.left_by = leaver(cause),
        }
    }

    /// Whether nothing more comes.
    pub(super) fn has_ended(&self) -> bool {
        self.ended == WAYS
    }

    /// Since when a reply is awaited, where that was not told.
    pub(super) fn waits_since(&self) -> Option<f64> {
        self.pending.as_ref().filter(|pending| !pending.is_told).map(|pending| pending.since)
    }

    /// To what a reply is awaited, which is told now.
    pub(super) fn tell_wait(&mut self) -> Option<String> {
        let pending = self.pending.as_mut()?;
        pending.is_told = true;
        Some(name_of(TO_BACKEND, &pending.request))
    }

    /// What is found where no more is seen of the session from this time on.
    pub(super) fn leave(&mut self, time: f64) -> Vec<Finding> {
        for (_, cut) in std::mem::take(&mut self.cuts) {
            self.note(Kind::Unanswered, format!("{cut}, as what was seen ended"));
        }
        if let Some(pending) = self.pending.take() {
            let name = name_of(TO_BACKEND, &pending.request);
            let text = format!("{name} is unanswered, as what was seen ended {:.4} s later", time - pending.time);
            self.note(Kind::Unanswered, text);
        }
        std::mem::take(&mut self.findings)
    }

    fn complain(&mut self, complaint: impl Into<String>) {
        self.note(Kind::Wrong, complaint.into());
    }

    fn note(&mut self, kind: Kind, text: String) {
        self.findings.push(Finding { kind, text });
    }

    /// Judges no more, for this reason.
    fn stop(&mut self, reason: &str) {
        self.complain(format!("{reason}; nothing behind it is judged"));
        self.close();
    }

    fn close(&mut self) {
        self.session = None;
        self.pending = None;
        self.waiting.clear();
    }

    /// The backend's stream has ended; by another where one is named.
    fn end(&mut self, time: f64, by: Option<&str>) {
        if let Some(pending) = self.pending.take() {
            let (name, after) = (name_of(TO_BACKEND, &pending.request), time - pending.time);
            match by {
                None => self.complain(format!("{name} was never replied to: the session ended {after:.4} s later")),
                Some(by) => {
                    let text = format!("{name} is unanswered, as the session was ended by {by} {after:.4} s later");
                    self.note(Kind::Unanswered, text);
                }
            }
        }
        self.session = None;
        self.waiting.clear();
    }

    /// Judges the requests that came, up to one whose reply is awaited.
    fn advance(&mut self) {
        while self.pending.is_none() {
            match (self.session.take(), self.waiting.pop_front()) {
                (Some(session), Some((time, request))) => self.judge(session, time, request),
                (session, _) => {
                    self.session = session;
                    return;
                }
            }
        }
    }

    /// Judges one request. Where the session is kept the judging goes on.
    fn judge(&mut self, mut session: Judging, time: f64, request: Message) {
        let given = match self.given_for(&request) {
            Given::Bytes(bytes) => bytes,
            Given::Nothing(owed) => {
                self.session = Some(session);
                self.await_reply(time, request, owed);
                return;
            }
        };
        let judged = match next_call(&mut session, &given, &request) {
            Ok(call) => self.asked(&mut session, call, &request),
            Err(code) => self.refused(&mut session, code, &request),
        };
        match judged {
            Ok(_) if session.ended() => self.close(),
            Ok(owed) => {
                self.session = Some(session);
                self.await_reply(time, request, owed);
            }
            Err(Code(number)) => self.stop(&format!("the judge itself failed (error {number})")),
        }
    }

    /// Awaits this, if anything.
    fn await_reply(&mut self, time: f64, request: Message, owed: Option<Owed>) {
        self.pending = owed.map(|owed| Pending { time, since: self.now, is_told: false, request, owed });
    }

    /// What is given to the session in the place of a request.
    fn given_for(&mut self, request: &Message) -> Given {
        if request.request().is_none() {
            self.complain(format!("no request has the code {}", request.code()));
            // (under Standard it is the device's)
            if self.profile == Profile::Vhost {
                self.tally.refused_by_the_table += 1;
                self.remember(request.code());
                return Given::Nothing(None);
            }
        }
        let stand_in = match self.profile {
            Profile::Standard => stands_for(request),
            Profile::Vhost => None,
        };
        match stand_in {
            Some(StandIn::AnyReply) => Given::Nothing(Some(Owed::Any)),
            Some(StandIn::Bytes(bytes)) => Given::Bytes(bytes),
            None => Given::Bytes(request.bytes.clone()),
        }
    }

    /// The session asks the device something: what its frontend awaits.
    fn asked(&mut self, session: &mut BackendSession, call: u32, request: &Message) -> Result<Option<Owed>, Code> {
        let form = match form_of(session, call)? {
            // (whoever waits is answered)
            Form::Nothing if self.profile == Profile::Standard => Form::Done,
            form => form,
        };
        if request.request() == Some(FrontendReq::SET_PROTOCOL_FEATURES) {
            self.agreed.protocol = session.number()?;
        }
        // (its reply says whether it succeeded, whatever its flags)
        let is_end = self.profile == Profile::Standard && request.request() == Some(FrontendReq::POSTCOPY_END);
        if is_end || is_awaited(form, request, &self.agreed) {
            return Ok(Some(Owed::Answer(form)));
        }
        said(session.reply_done())?;
        let (written, fds) = written_by(session)?;
        Ok((!written.is_empty()).then_some(Owed::Written(written, fds)))
    }

    /// The session refuses the request: what its frontend awaits then.
    fn refused(&mut self, session: &mut BackendSession, code: Code, request: &Message) -> Result<Option<Owed>, Code> {
        self.tally.refused_by_the_table += 1;
        let (written, fds) = written_by(session)?;
        let waits = has_own_reply(request) || request.has_flag(VhostUserHeaderFlag::NEED_REPLY) && self.agreed.acknowledges();
        let heard = match (written.is_empty(), waits) {
            _ if session.ended() => "no reply says so, so the session ends; nothing behind it is judged",
            (false, _) if has_own_reply(request) => "its reply says so",
            (false, _) => "it is acknowledged as failed",
            (true, true) => "nothing is replied, though the frontend waits for it",
            (true, false) => "nothing is replied, so the frontend cannot know",
        };
        let name = name_of(TO_BACKEND, request);
        let reason = why(code, session.inactive(), &came_of(request));
        self.complain(format!("{name} is refused: {reason}; {heard}"));
        if written.is_empty() {
            self.remember(request.code());
            return Ok(None);
        }
        Ok(Some(Owed::Written(written, fds)))
    }

    /// A request that was refused without a reply.
    fn remember(&mut self, code: u32) {
        if self.refused.len() == MOST_REFUSED {
            self.refused.remove(0);
        }
        self.refused.push(code);
    }

    fn see_reply(&mut self, time: f64, reply: &Message) {
        let name = name_of(TO_FRONTEND, reply);
        if !reply.has_flag(VhostUserHeaderFlag::REPLY) {
            self.complain(format!("{name} came from the backend, and is no reply"));
            return;
        }
        loop {
            match self.pending.take() {
                Some(pending) if pending.request.code() == reply.code() => self.settle(time, pending, reply),
                pending if self.forget(reply.code()) => self.pending = pending,
                Some(pending) if self.waiting.iter().any(|(_, request)| request.code() == reply.code()) => {
                    self.pending = Some(pending);
                    self.give_up();
                    self.advance();
                    if self.session.is_none() {
                        return;
                    }
                    continue;
                }
                Some(pending) => {
                    let awaited = name_of(TO_BACKEND, &pending.request);
                    self.complain(format!("a reply to {name}, where one to {awaited} is awaited"));
                    self.pending = Some(pending);
                }
                None => self.complain(self.nobody_awaits(&name)),
            }
            return self.advance();
        }
    }

    /// Whether such a request was refused without a reply. It is no longer remembered.
    fn forget(&mut self, code: u32) -> bool {
        let at = self.refused.iter().position(|it| *it == code);
        at.map(|at| self.refused.remove(at)).is_some()
    }

    fn nobody_awaits(&self, name: &str) -> String {
        let reason = if self.agreed.acknowledges() { "it was not asked for" } else { "REPLY_ACK was not agreed on" };
        format!("nobody awaits a reply to {name}: {reason}")
    }

    /// The request whose reply is awaited is not replied to: those behind it are.
    fn give_up(&mut self) {
        let pending = match self.pending.take() {
            Some(pending) => pending,
            None => return,
        };
        let name = name_of(TO_BACKEND, &pending.request);
        let reason = format!("{name} was not replied to, and later requests go on");
        let mut has_ended = false;
        if let (Owed::Answer(form), Some(session)) = (&pending.owed, &mut self.session) {
            // (a device that fails to give a value has no reply)
            let given = if *form == Form::Done { session.reply_done() } else { session.reply_refused() };
            let given = said(given).and_then(|()| written_by(session));
            has_ended = session.ended();
            if let Err(Code(number)) = given {
                self.stop(&format!("the judge itself failed (error {number})"));
            }
        }
        if has_ended {
            self.stop(&reason);
        } else {
            self.complain(reason);
        }
    }

    /// Compares a reply with what is owed.
    fn settle(&mut self, time: f64, pending: Pending, reply: &Message) {
        let Pending { time: asked, request, owed, .. } = pending;
        let taken = time - asked;
        if self.tally.longest.as_ref().map_or(true, |(longest, _)| taken > *longest) {
            self.tally.longest = Some((taken, name_of(TO_BACKEND, &request)));
        }
        match owed {
            Owed::Any => {}
            Owed::Written(written, fds) => self.compare(Form::Done, written, fds, reply),
            Owed::Answer(form) => self.settle_answer(form, &request, reply),
        }
    }

    fn settle_answer(&mut self, form: Form, request: &Message, reply: &Message) {
        let session = match &mut self.session {
            Some(session) => session,
            None => return,
        };
        self.tally.refused_by_the_backend += usize::from(is_refusal(form, reply));
        if request.request() == Some(FrontendReq::GET_FEATURES) {
            self.agreed.offered = number_at(reply.body(), 0, 8);
        }
        let written = said(answer(session, form, reply)).and_then(|()| written_by(session));
        let has_ended = session.ended();
        match written {
            Ok(_) if has_ended => self.stop(&format!("{} has no reply that refuses it", name_of(TO_FRONTEND, reply))),
            Ok(_) if self.may_be_empty(form) && reply.size() == 0 && reply.fds.is_empty() => {}
            Ok((written, fds)) => self.compare(form, written, fds, reply),
            Err(Code(number)) => {
                let name = name_of(TO_FRONTEND, reply);
                self.stop(&format!("no session can reply so to {name} (error {number})"));
            }
        }
    }

    /// The specification refuses GET_CONFIG by a reply without a body, and has none in the reply to SET_LOG_BASE.
    fn may_be_empty(&self, form: Form) -> bool {
        self.profile == Profile::Standard && matches!(form, Form::Config | Form::Same)
    }

    /// Complains of what a reply has in another way than what the session wrote.
    fn compare(&mut self, form: Form, written: Vec<u8>, fds: usize, reply: &Message) {
        if written.is_empty() {
            return self.complain(self.nobody_awaits(&name_of(TO_FRONTEND, reply)));
        }
        let found = differences(form, written, fds, reply);
        found.header.into_iter().for_each(|it| self.complain(it));
        match found.body {
            // (a frontend of Standard takes any)
            Some(it) if self.profile == Profile::Standard && form == Form::Same => {
                self.note(Kind::Taken, format!("{it}: not by the letter, taken by Standard"));
            }
            body => body.into_iter().for_each(|it| self.complain(it)),
        }
    }
}

/// What of a request is given to the session.
enum Given {
    Bytes(Vec<u8>),
    /// Nothing, and this is awaited.
    Nothing(Option<Owed>),
}

/// Gives a request to the session, whose descriptors are those of another: what it asks of the device.
fn next_call(session: &mut Judging, bytes: &[u8], request: &Message) -> Result<u32, Code> {
    let (head, body) = bytes.split_at(HEADER);
    // (those of the requests before)
    session.settle();
    session.receive(head, &mut stand_ins(request.own_fds()))?;
    // (none of an invalid header)
    let body = &body[..session.missing().min(body.len())];
    if !body.is_empty() {
        // (any of them refuse it; without its body the session would take the next request for that)
        session.receive(body, &mut stand_ins(request.body_fds.min(MAX_FDS)))?;
    }
    session.next()
}

/// What the session wrote, and with how many descriptors.
fn written_by(session: &mut BackendSession) -> Result<(Vec<u8>, usize), Code> {
    let (mut written, mut written_fds) = (Vec::new(), 0);
    let (mut bytes, mut fds) = ([0; MAX_MESSAGE], [-1; MAX_FDS]);
    loop {
        let (byte_count, fd_count) = session.next_to_send(&mut bytes, &mut fds)?;
        if byte_count == 0 {
            return Ok((written, written_fds));
        }
        written.extend_from_slice(&bytes[..byte_count]);
        written_fds += fd_count;
    }
}

/// The session was answered, also where the device refused.
fn said(outcome: Result<(), Code>) -> Result<(), Code> {
    match outcome {
        Err(DEVICE_REFUSED) => Ok(()),
        outcome => outcome,
    }
}

fn cut_short(message: &Message) -> String {
    match message.bytes.len() {
        count if count < HEADER => format!("the stream ended behind {} of a header", count_of(count as u64, "byte")),
        count => format!("the stream ended behind {} of a body of {}", count_of((count - HEADER) as u64, "byte"), message.size()),
    }
}
