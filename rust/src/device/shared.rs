// SPDX-License-Identifier: Apache-2.0
//! What a session holds: behind a lock, which is let go of while the device is called, since a request is completed from any thread.
use std::collections::BTreeMap;
use std::io;
use std::sync::atomic::{AtomicBool, Ordering};
use std::sync::{Arc, Mutex, MutexGuard, PoisonError};
use std::thread::available_parallelism;
use std::time::{Duration, Instant};

use super::arrival::Arrival;
use super::{Ended, EVENT_IDX, INDIRECT_DESC, MAX_QUEUE_SIZE, RING_PACKED};
use crate::foreign::{Bell, Event, Holder, Kick, Polled, Ringer, Timer, Watch};
use crate::queue::{Change, DescriptorChain, DirtyLog, Error, GuestAddress, GuestMemory, InflightRegion, Queue};
use crate::vhost_user::message::VhostUserVirtioFeatures;
use crate::vhost_user::Backend;

/// What is polled beside the kicks of rings, by their numbers.
pub(super) const SOCKET: u32 = 0x100;
pub(super) const WAKE: u32 = 0x101;
pub(super) const STOP: u32 = 0x102;
pub(super) const TIMER: u32 = 0x103;

/// How many parts of requests are taken before the clock is looked at; a request is an eighth of that, beside its own.
const LOOK_AFTER: usize = 64;

/// By what a session is stopped.
pub(super) struct Stop {
    pub(super) is_stopped: AtomicBool,
    pub(super) event: Event,
}

pub(super) struct Shared {
    /// The session's own thread, and those of its queues.
    pub(super) parts: Vec<Part>,
    pub(super) holder: Arc<Holder>,
    pub(super) stop: Arc<Stop>,
    ringer: Arc<Ringer>,
    state: Mutex<State>,
}

/// What a thread that serves rings waits for.
pub(super) struct Part {
    pub(super) polled: Polled,
    pub(super) timer: Timer,
    /// By what it is woken: of the session's own thread that is what the holder of its memory has.
    wake: Option<Event>,
}

impl Part {
    fn new(wake: Option<Event>) -> io::Result<Part> {
        let part = Part { polled: Polled::new()?, timer: Timer::new()?, wake };
        part.polled.add(&part.timer, TIMER)?;
        part.wake.iter().try_for_each(|wake| part.polled.add(wake, WAKE))?;
        Ok(part)
    }
}

/// How a thread that serves rings stands.
#[derive(Clone, Copy, Default)]
pub(super) struct PartState {
    /// No turn is under way.
    pub(super) is_waiting: bool,
    /// Its clock goes.
    pub(super) is_timed: bool,
}

/// A ring, and what it is kicked and signals by.
pub(super) struct Ring {
    pub(super) queue: Queue,
    /// Which thread serves it.
    pub(super) part: usize,
    pub(super) log_addr: Option<GuestAddress>,
    pub(super) kick: Option<Kick>,
    pub(super) call: Option<Bell>,
    pub(super) error: Option<Bell>,
    pub(super) is_enabled: bool,
    /// Nothing more is taken; it stops once its requests are done.
    pub(super) is_ending: bool,
    /// Then: the device is to be told that, by the thread that serves it.
    pub(super) is_untold: bool,
    /// The driver broke a rule, or the kick can't be read.
    pub(super) is_broken: bool,
    /// The device takes from it.
    pub(super) is_taken_of: bool,
    /// Then: it found nothing, and is told once there is something.
    pub(super) is_wanted: bool,
    /// The rule that the driver broke where the device took, as long as nobody told.
    pub(super) broken_by: Option<Error>,
    /// It is to be looked at.
    pub(super) is_due: bool,
    /// It is empty, and looked at by this before its driver is asked to tell of more.
    pub(super) watch: Option<Watch>,
    /// The last request came soon after it was empty, which was then.
    pub(super) is_quick: bool,
    pub(super) empty: Instant,
    /// Requests that the device has.
    pub(super) out: usize,
}

/// Where a region lies for the guest and for its frontend, and its size.
pub(super) type Place = (u64, u64, u64);

pub(super) struct State {
    pub(super) rings: Vec<Ring>,
    /// What was accepted.
    pub(super) features: u64,
    pub(super) protocol_features: u64,
    pub(super) memory: Option<GuestMemory>,
    /// How often regions of it were given once more, and not taken back: QEMU before 8.1 gives each once for each pair of a card's queues, and
    /// takes it back as often.
    pub(super) again: BTreeMap<Place, usize>,
    pub(super) log: Option<DirtyLog>,
    pub(super) inflight: Option<InflightRegion>,
    pub(super) arrival: Option<Arrival>,
    /// The backend channel: User Mode Linux has no device whose channel is closed.
    pub(super) channel: Option<Backend>,
    /// Requests that the device has, of all rings.
    pub(super) out: usize,
    /// Whether a call waits for some of them.
    pub(super) waits: bool,
    pub(super) parts: Vec<PartState>,
    /// Threads of queues that have not ended; and whether they are to end.
    pub(super) threads: usize,
    pub(super) is_over: bool,
    /// Whoever serves requests has the processor of this session, and no other.
    is_on_one_processor: bool,
    pub(super) why: Option<Arc<Ended>>,
}

impl Shared {
    /// With so many queues, of which the device takes from these, a bit for each; and which of them each thread serves, beside the session's own.
    pub(super) fn new(queues: usize, taken_queues: u64, of_threads: &[u64]) -> io::Result<Shared> {
        let part_of = |index: usize| of_threads.iter().position(|mask| mask >> index & 1 != 0).map_or(0, |at| at + 1);
        let rings = (0..queues).map(|index| Ring::new(part_of(index), taken_queues >> index & 1 != 0));
        let state = State {
            rings: rings.collect::<Result<_, Error>>()?,
            features: 0,
            protocol_features: 0,
            memory: None,
            again: BTreeMap::new(),
            log: None,
            inflight: None,
            arrival: None,
            channel: None,
            out: 0,
            waits: false,
            parts: vec![PartState::default(); 1 + of_threads.len()],
            threads: 0,
            is_over: false,
            is_on_one_processor: available_parallelism().map_or(false, |count| count.get() == 1),
            why: None,
        };
        let (own, wake) = (Part::new(None)?, Event::new()?);
        let stop = Arc::new(Stop { is_stopped: AtomicBool::new(false), event: Event::new()? });
        own.polled.add(&wake, WAKE)?;
        own.polled.add(&stop.event, STOP)?;
        let mut parts = vec![own];
        for _ in of_threads {
            parts.push(Part::new(Some(Event::new()?))?);
        }
        let holder = Arc::new(Holder::woken_by(wake));
        Ok(Shared { parts, holder, stop, ringer: Ringer::shared()?, state: Mutex::new(state) })
    }

    /// What the session's own thread waits for.
    pub(super) fn polled(&self) -> &Polled {
        &self.parts[0].polled
    }

    /// By what a thread is woken.
    pub(super) fn waking(&self, part: usize) -> Option<&Event> {
        self.parts[part].wake.as_ref().or_else(|| self.holder.waking())
    }

    /// Has a thread look again.
    pub(super) fn wake(&self, part: usize) {
        self.waking(part).iter().for_each(|wake| wake.set());
    }

    /// The same of all threads of queues.
    pub(super) fn wake_threads(&self) {
        (1..self.parts.len()).for_each(|part| self.wake(part));
    }

    /// The same of those that have rings which are due.
    pub(super) fn wake_due(&self) {
        if self.parts.len() > 1 {
            let state = self.lock();
            let due = state.rings.iter().filter(|ring| ring.is_due && ring.part != 0);
            due.for_each(|ring| self.wake(ring.part));
        }
    }

    pub(super) fn lock(&self) -> MutexGuard<'_, State> {
        self.state.lock().unwrap_or_else(PoisonError::into_inner)
    }

    /// Whether the session has ended, as of now.
    pub(super) fn has_ended(&self, state: &mut State) -> bool {
        if state.why.is_none() && self.stop.is_stopped.load(Ordering::SeqCst) {
            state.end(Ended::Stopped);
        }
        if state.why.is_none() && self.holder.has_lost() {
            state.end(Ended::MemoryLost);
        }
        state.why.is_some()
    }

    /// Takes the next requests of a queue that the device takes from, so many at most. None: there is none, or none to be taken.
    pub(super) fn take(&self, index: usize, most: usize) -> Vec<DescriptorChain> {
        let (mut state, mut taken) = (self.lock(), Vec::new());
        let is_taken_of = state.rings.get(index).map_or(false, |ring| ring.is_taken_of);
        if !is_taken_of || self.has_ended(&mut state) {
            return taken;
        }
        while taken.len() < most {
            let next = state.take(index);
            if next.is_none() || self.holder.has_lost() {
                break; // (what was read may be zeros that nobody wrote)
            }
            state.count_out(index);
            taken.extend(next);
        }
        if state.rings[index].broken_by.is_some() {
            self.wake(state.rings[index].part); // nothing is called back from here
        }
        taken
    }

    /// Takes the next requests of a ring that runs, so many at most, and until that time. An error: the driver broke a rule behind these.
    pub(super) fn take_burst(
        &self,
        state: &mut State,
        index: usize,
        most: usize,
        end: Instant,
    ) -> (Vec<DescriptorChain>, Result<(), Error>) {
        let (mut taken, mut since_look) = (Vec::with_capacity(most), 0);
        while taken.len() < most {
            let popped = state.rings[index].queue.pop();
            if self.holder.has_lost() {
                break; // (as above)
            }
            match popped {
                Ok(Some(chain)) => {
                    // (before the device, which may be done with it at once)
                    state.count_out(index);
                    since_look += LOOK_AFTER / 8 + chain.parts();
                    taken.push(chain);
                }
                Ok(None) => break,
                Err(error) => {
                    state.rings[index].is_broken = true;
                    return (taken, Err(error));
                }
            }
            if since_look >= LOOK_AFTER && Instant::now() >= end {
                break;
            }
            since_look %= LOOK_AFTER;
        }
        (taken, Ok(()))
    }

    /// Gives requests of a queue back, of which so many bytes were written each. Where the session has ended meanwhile nobody is told.
    pub(super) fn complete<'c>(&self, index: usize, done: impl Iterator<Item = (&'c DescriptorChain, u32)> + Clone) {
        let count = done.clone().count();
        let mut state = self.lock();
        if !self.has_ended(&mut state) {
            let ring = &mut state.rings[index];
            if ring.queue.add_all_used(done) != 0 && ring.queue.needs_notification() == Ok(true) {
                self.signal(&ring.call);
            }
        }
        if state.count_in(index, count) {
            self.wake(state.rings[index].part);
        }
        if state.waits || state.why.is_some() {
            self.holder.wake();
        }
    }

    pub(super) fn signal(&self, bell: &Option<Bell>) {
        bell.iter().for_each(|bell| bell.ring(&self.ringer));
    }

    /// A ring has this kick from now on, or none.
    pub(super) fn set_kick(&self, ring: &mut Ring, kick: Option<Kick>) {
        ring.kick.iter().for_each(|kick| self.parts[ring.part].polled.remove(kick));
        ring.kick = kick;
    }

    /// A ring stops, where none of its requests is out, or the session has ended; what belongs to a start is closed.
    pub(super) fn stop_ring(&self, ring: &mut Ring) {
        self.set_kick(ring, None);
        ring.call = None;
        (ring.is_due, ring.is_ending, ring.is_broken, ring.watch) = (false, false, false, None);
        ring.broken_by = None;
        let _ = ring.queue.set_ready(false);
    }
}

impl Ring {
    fn new(part: usize, is_taken_of: bool) -> Result<Ring, Error> {
        Ok(Ring {
            queue: Queue::new(MAX_QUEUE_SIZE)?,
            part,
            log_addr: None,
            kick: None,
            call: None,
            error: None,
            is_enabled: false,
            is_ending: false,
            is_untold: false,
            is_broken: false,
            is_taken_of,
            is_wanted: false,
            broken_by: None,
            is_due: false,
            watch: None,
            is_quick: false,
            empty: Instant::now(),
            out: 0,
        })
    }
}

impl State {
    pub(super) fn end(&mut self, why: Ended) {
        self.why.get_or_insert_with(|| Arc::new(why));
    }

    /// Whether requests are taken of a ring.
    pub(super) fn is_running(&self, index: usize) -> bool {
        let ring = &self.rings[index];
        let has_to_be_enabled = self.features & VhostUserVirtioFeatures::PROTOCOL_FEATURES.bits() != 0;
        ring.queue.ready()
            && ring.queue.is_mapped()
            && !ring.is_ending
            && !ring.is_broken
            && (ring.is_enabled || !has_to_be_enabled)
    }

    /// The device has one more request of a ring.
    pub(super) fn count_out(&mut self, index: usize) {
        self.rings[index].out += 1;
        self.out += 1;
    }

    /// The device has so many less. Whether a ring is to be looked at from now on that was not: where there is one processor alone, and these were the
    /// last requests of a ring whose next one comes soon.
    fn count_in(&mut self, index: usize, count: usize) -> bool {
        let (is_running, ring) = (self.is_running(index), &mut self.rings[index]);
        ring.out -= count;
        self.out -= count;
        if !self.is_on_one_processor || ring.out != 0 {
            return false;
        }
        ring.empty = Instant::now();
        let begins = self.parts[ring.part].is_waiting && ring.is_quick && is_running && !ring.is_taken_of;
        ring.is_due |= begins;
        begins
    }

    /// Takes the next request of a ring; where there is none its driver tells of more.
    fn take(&mut self, index: usize) -> Option<DescriptorChain> {
        let is_running = self.is_running(index);
        let ring = &mut self.rings[index];
        let taken = if is_running { ring.queue.pop_or_ask() } else { Ok(None) };
        match taken {
            Ok(None) => ring.is_wanted = true,
            Ok(_) => {}
            Err(error) => (ring.is_broken, ring.is_due, ring.broken_by) = (true, true, Some(error)),
        }
        taken.unwrap_or(None)
    }

    /// Whether the device wanted a request of a ring, which has some now. It is told once: the driver need not tell of more until then.
    pub(super) fn take_wanted(&mut self, index: usize) -> bool {
        let is_running = self.is_running(index);
        let ring = &mut self.rings[index];
        let has_some = is_running && ring.is_wanted && ring.queue.enable_notification() == Ok(true);
        if has_some {
            let _ = ring.queue.disable_notification();
            ring.is_wanted = false;
        }
        has_some
    }

    /// These rings are to be stopped, and the device is to be told of those that run. Nothing more is taken of them. Whether there are some.
    pub(super) fn begin_stop(&mut self, indexes: std::ops::Range<usize>) -> bool {
        let mut begun = false;
        for (_, ring) in self.rings.iter_mut().enumerate().filter(|(index, _)| indexes.contains(index)) {
            if ring.queue.ready() && !std::mem::replace(&mut ring.is_ending, true) {
                (ring.is_untold, begun) = (true, true);
            }
        }
        begun
    }

    /// A ring was kicked, which is looked at for so long when it is empty.
    pub(super) fn kicked(&mut self, index: usize, busy_poll: Duration) {
        let ring = &mut self.rings[index];
        ring.is_due = true;
        ring.is_quick = !busy_poll.is_zero() && ring.empty.elapsed() < busy_poll;
    }

    /// A ring is empty. Whether it is to be served on. Where there is one processor alone it is not looked at while the device has a request of it,
    /// since whoever serves that has no other.
    pub(super) fn empty(&mut self, index: usize, busy_poll: Duration) -> bool {
        let ring = &mut self.rings[index];
        if !busy_poll.is_zero() {
            ring.empty = Instant::now();
        }
        let may_look = ring.is_quick && (ring.out == 0 || !self.is_on_one_processor);
        ring.watch = ring.queue.watch().filter(|_| may_look && ring.queue.disable_notification().is_ok());
        ring.watch.is_none() && ring.queue.enable_notification() == Ok(true)
    }

    /// Has the driver of a ring that was looked at tell of more.
    pub(super) fn wait(&mut self, index: usize) {
        let ring = &mut self.rings[index];
        (ring.watch, ring.is_quick) = (None, false);
        ring.is_due = ring.queue.enable_notification() == Ok(true);
    }

    /// Starts a ring, by what was accepted, and by the inflight region where there is one.
    pub(super) fn start_ring(&mut self, index: usize) -> Result<(), Error> {
        let (features, ring) = (self.features, &mut self.rings[index]);
        ring.queue.set_packed(features & RING_PACKED != 0);
        ring.queue.set_event_idx(features & EVENT_IDX != 0);
        ring.queue.set_indirect(features & INDIRECT_DESC != 0);
        match &self.inflight {
            Some(region) => ring.queue.start_with(region, index)?,
            None => ring.queue.set_ready(true)?,
        }
        (ring.is_due, ring.is_broken, ring.is_ending, ring.is_wanted) = (true, false, false, true);
        self.set_log(index);
        Ok(())
    }

    /// Has a ring log what is to be logged.
    pub(super) fn set_log(&mut self, index: usize) {
        let is_logged = self.features & VhostUserVirtioFeatures::LOG_ALL.bits() != 0;
        let ring = &mut self.rings[index];
        ring.queue.set_log(self.log.clone().filter(|_| is_logged), ring.log_addr);
    }

    /// The session has this memory, which changes so what it had. A ring that lies in none of it is left alone until it does. An error: it
    /// can't be, and nothing changed; or the session ends by it.
    pub(super) fn set_memory(&mut self, memory: GuestMemory, change: &Change) -> Result<(), Error> {
        for (index, ring) in self.rings.iter_mut().enumerate() {
            if let Err(error) = ring.queue.change_memory(&memory, change) {
                // (what one queue takes, each other does, but for want of memory)
                if index != 0 || error == Error::OutOfMemory {
                    self.end(Ended::OutOfMemory);
                }
                return Err(error);
            }
            ring.is_due = ring.queue.ready();
        }
        if matches!(change, Change::All) {
            self.again.clear();
        }
        self.memory = Some(memory);
        Ok(())
    }
}
