// SPDX-License-Identifier: Apache-2.0
//! Threads that serve queues of a session, beside the session's own.
use std::io;
use std::os::unix::io::AsRawFd;
use std::panic::resume_unwind;
use std::sync::Arc;
use std::thread::{current, panicking, Builder, JoinHandle};
use std::time::Instant;

use super::rings::{Rings, MOST_TURNS, TURN};
use super::shared::Shared;
use super::{Device, Ended};
use crate::foreign::{poll, unblock_faults, without_signals};

/// Which queues each thread serves: those that there are, and that no thread before has. One that would serve none is not begun.
pub(super) fn queues_of_threads(mut wanted: Vec<u64>, queues: usize) -> Vec<u64> {
    let mut left = (0..queues).fold(0, |all, index| all | 1 << index);
    for mask in &mut wanted {
        *mask &= left;
        left &= !*mask;
    }
    wanted.retain(|mask| *mask != 0);
    wanted
}

/// The threads of a session's queues. Each ends once the session is over, behind the call of the device that it is in.
pub(super) struct Threads {
    shared: Arc<Shared>,
    list: Vec<JoinHandle<()>>,
}

impl Threads {
    /// Begins so many. An error: none is left.
    pub(super) fn begin<D: Device>(device: &Arc<D>, shared: &Arc<Shared>, count: usize) -> io::Result<Threads> {
        let mut threads = Threads { shared: shared.clone(), list: Vec::new() };
        for part in 1..=count {
            let rings = Rings::new(device.clone(), shared.clone(), part);
            let counted = Counted::new(shared.clone());
            let run = move || {
                let _counted = counted;
                serve(rings, part);
            };
            let name = format!("queues {part}");
            threads.list.push(without_signals(|| Builder::new().name(name).spawn(run))?);
        }
        Ok(threads)
    }

    /// Waits for their end, once the session is over. What one panicked of goes on here.
    pub(super) fn join(&mut self) {
        let others = self.list.drain(..).filter(|thread| thread.thread().id() != current().id());
        for ended in others.map(JoinHandle::join).collect::<Vec<_>>() {
            match ended {
                Err(panic) if !panicking() => resume_unwind(panic),
                _ => {}
            }
        }
    }
}

impl Drop for Threads {
    fn drop(&mut self) {
        self.shared.lock().is_over = true;
        self.shared.wake_threads();
        self.join();
    }
}

/// A thread, as long as it has not ended. The session's end is told behind that of each.
struct Counted(Arc<Shared>);

impl Counted {
    fn new(shared: Arc<Shared>) -> Counted {
        shared.lock().threads += 1;
        Counted(shared)
    }
}

impl Drop for Counted {
    fn drop(&mut self) {
        let mut state = self.0.lock();
        if panicking() {
            state.end(Ended::Stopped);
        }
        state.threads -= 1;
        drop(state);
        self.0.holder.wake();
    }
}

fn serve<D: Device>(mut rings: Rings<D>, part: usize) {
    unblock_faults();
    let shared = rings.shared.clone();
    let polled = &shared.parts[part].polled;
    loop {
        rings.set_waiting(false);
        take_turns(&mut rings, part);
        rings.set_waiting(true);
        if shared.lock().is_over {
            return rings.tell_stopping();
        }
        let _ = poll(&[(polled.as_raw_fd(), libc::POLLIN)], -1);
    }
}

/// Does what is to be done, and waits for nothing.
fn take_turns<D: Device>(rings: &mut Rings<D>, part: usize) {
    let end = Instant::now() + TURN;
    for _ in 0..MOST_TURNS {
        let ready = rings.shared.parts[part].polled.ready();
        ready.iter().for_each(|(number, _)| rings.take_event(*number));
        rings.tell_stopping();
        rings.serve();
        if !rings.have_more(end) {
            break;
        }
    }
    match rings.has_ended() {
        true => rings.shared.holder.wake(), // (the session's own thread ends it)
        false => rings.plan(false),
    }
}
