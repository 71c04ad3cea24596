// SPDX-License-Identifier: Apache-2.0
//! A session's event loop, and its life.
use std::os::unix::io::{AsRawFd, RawFd};
use std::os::unix::net::UnixStream;
use std::sync::atomic::Ordering;
use std::sync::Arc;
use std::time::{Duration, Instant};
use std::{fmt, io};

use super::calls::Calls;
use super::rings::{Rings, MOST_TURNS, TURN};
use super::shared::{Ring, Shared, Stop, SOCKET, STOP};
use super::threads::{queues_of_threads, Threads};
use super::{Device, Ended, Taker, MAX_QUEUES};
use crate::foreign::{apart, unblock_faults};
use crate::queue::GuestMemory;
use crate::reasons;
use crate::telling::{self, Level};
use crate::vhost_user::message::FrontendReq;
use crate::vhost_user::{BackendReqHandler, Error, Listener};

/// How many calls of a frontend are served before its rings are, for a turn at most.
const MOST_CALLS: usize = 256;
/// How many regions, and of how many bytes, are unmapped at once at a session's end.
const FEW_REGIONS: usize = 16;
const FEW_BYTES: u64 = 1 << 20;

/// A device that serves a frontend. Once its descriptor is readable, [`handle_events`](Self::handle_events) has something to do. Where it is
/// dropped the session ends, if that has not ended, and nothing is called; requests that are not done stay the device's until they are. The drop
/// waits for what threads of [`Device::queues_per_thread`] call then.
pub struct Session<D: Device> {
    device: Arc<D>,
    shared: Arc<Shared>,
    /// The rings that no other thread serves.
    rings: Rings<D>,
    threads: Threads,
    handler: Option<BackendReqHandler<Calls<D>>>,
    /// Whether the socket may have calls.
    is_called: bool,
    /// A call that is answered once requests are done.
    waits: Option<u32>,
    ended: Option<Arc<Ended>>,
    /// The request that came last, and whether it ended amid its body.
    last: (Option<u32>, bool),
}

/// Ends a [`Session`], from any thread, and from a signal handler.
#[derive(Clone)]
pub struct Stopper(Arc<Stop>);

impl Stopper {
    /// The session ends: `handle_events` says so. Whoever waits for a page goes on.
    pub fn stop(&self) {
        self.0.is_stopped.store(true, Ordering::SeqCst);
        self.0.event.set();
    }
}

impl fmt::Debug for Stopper {
    fn fmt(&self, f: &mut fmt::Formatter<'_>) -> fmt::Result {
        f.debug_struct("Stopper").field("is_stopped", &self.0.is_stopped).finish_non_exhaustive()
    }
}

impl<D: Device> Session<D> {
    /// Serves a frontend over a connected socket. InvalidInput: the device has no queue, or too many; other errors are the system's.
    pub fn new(device: Arc<D>, socket: UnixStream) -> io::Result<Session<D>> {
        Session::watching(device, socket, -1)
    }

    /// Serves the next frontend that waits at a listener. None, as [`Listener::accept`] returns it. Errors are those of `new`, and of that.
    pub fn accept(device: Arc<D>, listener: &Listener) -> io::Result<Option<Session<D>>> {
        Session::accept_watching(device, listener, -1)
    }

    /// The same; while a page is waited for a signal may come, that can be read of this descriptor, if it is not negative.
    pub(super) fn accept_watching(device: Arc<D>, listener: &Listener, signals: RawFd) -> io::Result<Option<Session<D>>> {
        match listener.accept()? {
            Some(socket) => Session::watching(device, socket, signals).map(Some),
            None => Ok(None),
        }
    }

    fn watching(device: Arc<D>, socket: UnixStream, signals: RawFd) -> io::Result<Session<D>> {
        let queues = device.queues();
        if !(1..=MAX_QUEUES).contains(&queues) {
            return Err(io::ErrorKind::InvalidInput.into());
        }
        let of_threads = queues_of_threads(device.queues_per_thread(), queues);
        let shared = Arc::new(Shared::new(queues, device.taken_queues(), &of_threads)?);
        socket.set_nonblocking(true)?;
        let frontend = socket.try_clone()?;
        let mut handler =
            BackendReqHandler::from_stream(socket, Arc::new(Calls::new(device.clone(), shared.clone(), frontend, signals)));
        handler.set_reply_timeout(Some(Duration::ZERO));
        shared.polled().add(&handler, SOCKET)?;
        let (handler, last) = (Some(handler), (None, false));
        let rings = Rings::new(device.clone(), shared.clone(), 0);
        let threads = Threads::begin(&device, &shared, of_threads.len())?;
        Ok(Session { device, shared, rings, threads, handler, is_called: true, waits: None, ended: None, last })
    }

    /// By what requests of its queues are taken.
    pub fn taker(&self) -> Taker {
        Taker::of(&self.shared)
    }

    /// By what it is stopped.
    pub fn stopper(&self) -> Stopper {
        Stopper(self.shared.stop.clone())
    }

    /// Does what is to be done, and waits for nothing. None: it goes on; call it again once the descriptor is readable. Else the session has
    /// ended for this reason, which each further call returns, too. The frontend is hung up on at once; where the device has requests, the
    /// end is told once they are done, so that the next frontend finds nothing under way.
    pub fn handle_events(&mut self) -> Option<&Ended> {
        unblock_faults();
        self.rings.set_waiting(false);
        let end = Instant::now() + TURN;
        self.serve_what_is_ready();
        for _ in 1..MOST_TURNS {
            if !self.rings.have_more(end) {
                break;
            }
            self.serve_what_is_ready();
        }
        if self.handler.is_some() {
            match self.rings.has_ended() {
                true => self.give_up_and_tell(),
                false => self.rings.plan(self.is_called && self.waits.is_none()),
            }
        }
        self.tell_end();
        self.rings.set_waiting(true);
        self.ended.as_deref()
    }

    /// One turn: calls, and the rings that are due.
    fn serve_what_is_ready(&mut self) {
        self.take_events();
        if self.handler.is_none() {
            return;
        }
        if self.is_called || self.waits.is_some() {
            self.serve_calls();
            self.shared.wake_due();
        }
        self.rings.serve();
    }

    /// The socket, as long as nobody was hung up on.
    pub(super) fn frontend(&self) -> Option<RawFd> {
        self.handler.as_ref().map(AsRawFd::as_raw_fd)
    }

    fn end(&self, why: Ended) {
        self.shared.lock().end(why);
    }

    /// Takes what is ready.
    fn take_events(&mut self) {
        for (number, has_ended) in self.shared.polled().ready() {
            match number {
                SOCKET if self.waits.is_some() && has_ended => self.end(Ended::Frontend(Error::Disconnected)),
                SOCKET => self.is_called = true,
                STOP => {}
                other => self.rings.take_event(other),
            }
        }
    }

    // -- Calls --

    /// Serves the calls that are there, but for those of one that sends without end: rings are served in between.
    fn serve_calls(&mut self) {
        let end = Instant::now() + TURN;
        for _ in 0..MOST_CALLS {
            if self.rings.has_ended() || !self.serve_call() || Instant::now() >= end {
                return;
            }
        }
    }

    /// Serves the next call, or the one that waits. Whether there may be another.
    fn serve_call(&mut self) -> bool {
        let handler = match &mut self.handler {
            Some(handler) => handler,
            None => return false,
        };
        let call = match self.waits.take().map_or_else(|| handler.next_call(), Ok) {
            Err(Error::SocketRetry(_)) => {
                self.shared.polled().look_for(handler, SOCKET, true);
                self.is_called = false;
                return false;
            }
            call => call,
        };
        let answered = match call {
            Ok(call) if has_to_wait(&self.rings, handler, call) => {
                self.shared.polled().look_for(handler, SOCKET, false);
                self.waits = Some(call);
                return false;
            }
            Ok(call) => {
                let answered = handler.answer(call);
                self.say_refused(&answered);
                answered
            }
            Err(error) => Err(error),
        };
        self.tell_refused(answered);
        true
    }

    /// Has a line say why the device refused a call.
    fn say_refused(&mut self, answered: &Result<(), Error>) {
        let handler = match &self.handler {
            Some(handler) => handler,
            None => return,
        };
        match (handler.device().take_reason(), answered) {
            (Some(reason), _) => telling::refused(handler.last_request(), || reason),
            (None, Ok(()) | Err(Error::SocketBroken(_) | Error::SocketError(_))) => {}
            (None, Err(error)) => telling::refused(handler.last_request(), || telling::reason_of(error)),
        }
    }

    /// Tells the device what was refused, and whether the frontend is gone by that.
    fn tell_refused(&mut self, answered: Result<(), Error>) {
        let handler = match &mut self.handler {
            Some(handler) => handler,
            None => return,
        };
        let (request, told) = (handler.last_request(), handler.take_told());
        self.last = (request, handler.is_cut());
        let has_ended = handler.has_ended();
        match answered {
            Ok(()) if told.is_some() => self.device.refused(request, &Error::BackendInternalError),
            Ok(()) => {}
            Err(Error::Disconnected) => self.end(Ended::Frontend(Error::Disconnected)),
            Err(error) => {
                self.device.refused(request, &error);
                if has_ended {
                    self.end(Ended::Frontend(error));
                }
            }
        }
    }

    // -- The end --

    /// The same, and the device is told of each queue that stops by that: nobody waits for it, but the next frontend does.
    fn give_up_and_tell(&mut self) {
        self.shared.lock().begin_stop(0..MAX_QUEUES);
        self.give_up();
        self.rings.tell_stopping();
    }

    /// All that the frontend gave is given up, but for what requests still point to.
    fn give_up(&mut self) {
        if let Some(mut handler) = self.handler.take() {
            self.shared.polled().remove(&handler);
            // (whoever has a copy of the socket is hung up on, too)
            handler.set_failed(libc::ESHUTDOWN);
        }
        self.waits = None;
        let mut state = self.shared.lock();
        let (arrival, memory) = (state.arrival.take(), state.memory.take());
        let _ = arrival.map(|arrival| arrival.end(memory.as_ref()));
        for ring in &mut state.rings {
            self.shared.stop_ring(ring);
            ring.queue.forget();
            ring.error = None;
        }
        (state.log, state.inflight, state.channel, state.waits) = (None, None, None, false);
        state.is_over = true;
        drop(state);
        self.shared.wake_threads();
        // (the system takes memory back page by page)
        let is_large = |it: &GuestMemory| it.num_regions() > FEW_REGIONS || it.size() > FEW_BYTES;
        if memory.as_ref().map_or(false, is_large) {
            apart(move || drop(memory));
        }
    }

    /// Has a line say who ended it.
    fn say_end(&self, why: &Ended) {
        let (request, is_cut) = self.last;
        match why {
            Ended::Frontend(error) => telling::ended(request, is_cut, error),
            Ended::Stopped => telling::say(Level::Info, || reasons::STOPPED.to_string()),
            Ended::MemoryLost => telling::say(Level::Error, || reasons::MEMORY_TAKEN.to_string()),
            Ended::OutOfMemory => telling::ended_here(request, why),
        }
    }

    /// Says once that the session has ended, and all its requests. What it waits for stays ready from then on.
    fn tell_end(&mut self) {
        let state = self.shared.lock();
        let why = match &state.why {
            Some(why) if self.ended.is_none() && state.out == 0 && state.threads == 0 => why.clone(),
            _ => return,
        };
        drop(state);
        self.threads.join();
        self.say_end(&why);
        self.device.ended(&why);
        self.shared.stop.event.set();
        self.ended = Some(why);
    }
}

impl<D: Device> fmt::Debug for Session<D> {
    fn fmt(&self, f: &mut fmt::Formatter<'_>) -> fmt::Result {
        f.debug_struct("Session").field("frontend", &self.frontend()).field("ended", &self.ended).finish_non_exhaustive()
    }
}

impl<D: Device> AsRawFd for Session<D> {
    fn as_raw_fd(&self) -> RawFd {
        self.shared.polled().as_raw_fd()
    }
}

impl<D: Device> Drop for Session<D> {
    fn drop(&mut self) {
        // Whoever waits for a page goes on.
        self.stopper().stop();
        self.rings.has_ended();
        self.shared.lock().rings.iter_mut().for_each(|ring| ring.is_untold = false);
        self.give_up();
        self.threads.join();
    }
}

/// Whether a call that stops rings has to wait for requests of theirs, or until the device is told. Nothing more is taken meanwhile.
fn has_to_wait<D: Device>(rings: &Rings<D>, handler: &mut BackendReqHandler<Calls<D>>, call: u32) -> bool {
    let stopped = match FrontendReq::try_from(call) {
        Ok(FrontendReq::GET_VRING_BASE) => handler.ring_of_call().map_or(0..0, |index| index as usize..index as usize + 1),
        Ok(FrontendReq::RESET_DEVICE | FrontendReq::RESET_OWNER) => 0..MAX_QUEUES,
        _ => return false,
    };
    if rings.shared.lock().begin_stop(stopped.clone()) {
        rings.tell_stopping();
        rings.shared.wake_threads();
    }
    let mut state = rings.shared.lock();
    let is_under_way = |ring: &Ring| ring.out != 0 || ring.is_untold;
    state.waits = state.rings.iter().enumerate().any(|(index, ring)| stopped.contains(&index) && is_under_way(ring));
    state.waits
}
