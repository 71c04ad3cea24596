// SPDX-License-Identifier: Apache-2.0
//! Rings as one thread serves them: the session's own, or that of some queues.
use std::sync::atomic::Ordering;
use std::sync::{Arc, MutexGuard};
use std::time::{Duration, Instant};

use super::shared::{Shared, State, TIMER, WAKE};
use super::{Device, Ended, Request, Taker, MAX_BURST};
use crate::foreign::Watch;
use crate::queue::{self, DescriptorChain};
use crate::reasons;
use crate::telling::{self, Level};

/// How long a thread's rings are served before all else has its turn: whoever serves several sessions serves another after that.
pub(super) const TURN: Duration = Duration::from_millis(1);
/// How often rings that are looked at are served before that.
pub(super) const MOST_TURNS: usize = 16;
/// How often a ring without a kick is looked at.
const LOOK: Duration = Duration::from_millis(1);

/// The rings of a session that one thread serves.
pub(super) struct Rings<D> {
    device: Arc<D>,
    pub(super) shared: Arc<Shared>,
    /// Which thread's they are: of 0 the session's own.
    part: usize,
    /// The ring that is served first, since time was over before.
    first: usize,
}

impl<D: Device> Rings<D> {
    pub(super) fn new(device: Arc<D>, shared: Arc<Shared>, part: usize) -> Rings<D> {
        Rings { device, shared, part, first: 0 }
    }

    pub(super) fn has_ended(&self) -> bool {
        self.shared.has_ended(&mut self.shared.lock())
    }

    /// Whether rings that are looked at have more before that time.
    pub(super) fn have_more(&self, end: Instant) -> bool {
        !self.has_ended() && Instant::now() < end && self.busy_poll()
    }

    /// Whether this thread waits from now on.
    pub(super) fn set_waiting(&self, is_waiting: bool) {
        self.shared.lock().parts[self.part].is_waiting = is_waiting;
    }

    /// What is ready of this number: this thread is woken, its clock has come round, or a ring was kicked.
    pub(super) fn take_event(&self, number: u32) {
        let part = &self.shared.parts[self.part];
        match number {
            WAKE => self.shared.waking(self.part).iter().for_each(|wake| wake.take()),
            TIMER if part.timer.take() => {
                let mut state = self.shared.lock();
                let own = state.rings.iter_mut().filter(|ring| ring.part == self.part);
                own.for_each(|ring| ring.is_due |= ring.kick.is_none());
            }
            TIMER => {}
            index => self.take_kick(index as usize),
        }
    }

    /// A ring was kicked. One whose kick cannot be read has none any more, since it would be ready for ever, and is broken.
    fn take_kick(&self, index: usize) {
        let mut state = self.shared.lock();
        let ring = match state.rings.get_mut(index) {
            Some(ring) => ring,
            None => return,
        };
        match &ring.kick {
            None => return,
            Some(kick) if kick.take() => {}
            Some(_) => {
                self.shared.set_kick(ring, None);
                ring.is_broken = true;
            }
        }
        state.kicked(index, self.device.busy_poll());
    }

    /// Serves those that are due.
    pub(super) fn serve(&mut self) {
        let (end, queues) = (Instant::now() + TURN, self.shared.lock().rings.len());
        let first = std::mem::take(&mut self.first);
        for index in (first..queues).chain(0..first) {
            if self.serve_ring(index, end) && Instant::now() >= end {
                self.first = (index + 1) % queues;
                return;
            }
        }
    }

    /// Tells the device which of them stop. By this thread, which hands out their requests: so none comes behind that.
    pub(super) fn tell_stopping(&self) {
        let state = self.shared.lock();
        let untold = |index: &usize| state.rings[*index].part == self.part && state.rings[*index].is_untold;
        let stopping: Vec<usize> = (0..state.rings.len()).filter(untold).collect();
        drop(state);
        for index in stopping {
            self.device.stopping(index);
            self.shared.lock().rings[index].is_untold = false;
            self.shared.holder.wake(); // (a call may wait for that)
        }
    }

    /// Hands the requests that are there to the device, but for those of a driver that makes more without end: then the ring is still due. Of a
    /// queue that is taken from it tells that there are some. Whether it was due.
    fn serve_ring(&self, index: usize, end: Instant) -> bool {
        let mut state = self.shared.lock();
        let ring = &mut state.rings[index];
        if ring.part != self.part || !std::mem::take(&mut ring.is_due) {
            return false;
        }
        let (size, broken_by) = (ring.queue.size(), ring.broken_by.take());
        match broken_by {
            Some(error) => self.tell_broken(state, index, error),
            None if ring.is_taken_of => self.tell_available(state, index),
            None => {
                drop(state);
                self.serve_requests(index, size, end);
            }
        }
        true
    }

    /// Hands out as many requests as the ring has room for, and one more, until that time.
    fn serve_requests(&self, index: usize, size: u16, end: Instant) {
        let (most, mut done) = (self.device.burst().clamp(1, MAX_BURST), 0);
        while done <= size.into() {
            match self.serve_burst(index, most, end) {
                Some(count) => done += count.max(1),
                None => return,
            }
            if Instant::now() >= end {
                break;
            }
        }
        self.shared.lock().rings[index].is_due = true;
    }

    /// Hands the next requests to the device, if there are some: how many there were. None: there is no other.
    fn serve_burst(&self, index: usize, most: usize, end: Instant) -> Option<usize> {
        let mut state = self.shared.lock();
        if self.shared.has_ended(&mut state) || !state.is_running(index) {
            return None;
        }
        let (taken, why) = self.shared.take_burst(&mut state, index, most, end);
        let count = taken.len();
        if count == 0 && why.is_ok() {
            let goes_on = !self.shared.holder.has_lost() && state.empty(index, self.device.busy_poll());
            return goes_on.then_some(0);
        }
        drop(state);
        self.hand_out(index, most, taken);
        if let Err(error) = why {
            self.tell_broken(self.shared.lock(), index, error);
            return None;
        }
        Some(count)
    }

    /// The device has these requests, one by one where it wants no more at once.
    fn hand_out(&self, index: usize, most: usize, taken: Vec<DescriptorChain>) {
        let requests = taken.into_iter().map(|chain| Request::new(chain, self.shared.clone(), index));
        if most == 1 {
            requests.for_each(|request| self.device.request(request));
        } else if requests.len() != 0 {
            self.device.requests(requests.collect());
        }
    }

    /// Looks at the rings that are empty until one shows more, for as long as the device says, and then has their drivers tell. Whether one does;
    /// not where another is due.
    fn busy_poll(&self) -> bool {
        let state = self.shared.lock();
        let is_own = |index: &usize| state.rings[*index].part == self.part && state.is_running(*index);
        let running = || (0..state.rings.len()).filter(is_own);
        if running().any(|index| state.rings[index].is_due) {
            return false;
        }
        let rings: Vec<usize> = running().filter(|index| state.rings[*index].watch.is_some()).collect();
        let watches: Vec<Watch> = rings.iter().filter_map(|index| state.rings[*index].watch.clone()).collect();
        let last = match rings.iter().map(|index| state.rings[*index].empty).max() {
            Some(last) => last,
            None => return false,
        };
        drop(state);
        loop {
            if let Some(at) = watches.iter().position(Watch::shows_more) {
                let ring = &mut self.shared.lock().rings[rings[at]];
                (ring.is_due, ring.watch) = (true, None);
                return true;
            }
            let has_ended = self.shared.stop.is_stopped.load(Ordering::SeqCst) || self.shared.holder.has_lost();
            if has_ended || last.elapsed() >= self.device.busy_poll() {
                let mut state = self.shared.lock();
                rings.iter().for_each(|index| state.wait(*index));
                return false;
            }
        }
    }

    fn tell_broken(&self, mut state: MutexGuard<'_, State>, index: usize, error: queue::Error) {
        if self.shared.has_ended(&mut state) {
            return;
        }
        self.shared.signal(&state.rings[index].error);
        if error == queue::Error::OutOfMemory {
            return state.end(Ended::OutOfMemory);
        }
        drop(state);
        telling::say(Level::Error, || reasons::broken(index as u32, error));
        self.device.broken(index, error);
    }

    fn tell_available(&self, mut state: MutexGuard<'_, State>, index: usize) {
        let has_some = !self.shared.has_ended(&mut state) && state.take_wanted(index);
        let is_lost = self.shared.holder.has_lost();
        drop(state);
        if has_some && !is_lost {
            self.device.available(index, &Taker::of(&self.shared));
        }
    }

    /// What is due still is served by the next turn; a ring without a kick is looked at from time to time. `is_called`: there may be calls, too.
    pub(super) fn plan(&self, is_called: bool) {
        let mut state = self.shared.lock();
        let is_own = |index: &usize| state.rings[*index].part == self.part && state.is_running(*index);
        let running: Vec<usize> = (0..state.rings.len()).filter(is_own).collect();
        let is_due = running.iter().any(|index| state.rings[*index].is_due || state.rings[*index].watch.is_some());
        let is_timed = running.iter().any(|index| state.rings[*index].kick.is_none());
        if is_due || is_called {
            self.shared.wake(self.part);
        }
        if is_timed != state.parts[self.part].is_timed {
            self.shared.parts[self.part].timer.set(if is_timed { LOOK } else { Duration::ZERO });
            state.parts[self.part].is_timed = is_timed;
        }
    }
}
