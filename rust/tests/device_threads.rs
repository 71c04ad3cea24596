// SPDX-License-Identifier: Apache-2.0
//! Queues of a device that have threads of their own (`Device::queues_per_thread`): who serves which, that no call of the frontend waits for what a
//! thread is busy with, and that no thread and no request is left behind an end.
mod common;

use std::fs::{read_dir, read_to_string, File};
use std::os::unix::net::UnixStream;
use std::sync::{Arc, Condvar, Mutex};
use std::thread::{current, spawn, JoinHandle};
use std::time::Duration;

use common::machine::*;
use common::*;
use covretin::device::{Device, Ended, Request, Session, Stopper, Taker};
use covretin::vhost_user::{Frontend, VhostUserFrontend};
use covretin::VhostBackend;

/// The queue whose requests wait while the gate is shut.
const GATED: usize = 1;

#[derive(Default)]
struct Its {
    /// Which queue was served in which thread, and what else was told.
    told: Vec<(String, String)>,
    kept: Vec<Request>,
    is_shut: bool,
    /// How many requests wait at the gate.
    waiting: usize,
}

/// A device whose second and third queue have threads.
#[derive(Default)]
struct Halls {
    threads: Vec<u64>,
    taken: u64,
    /// It keeps requests until their queue stops.
    keeps: bool,
    panics: bool,
    busy_poll: Duration,
    its: Mutex<Its>,
    gate: Condvar,
}

impl Halls {
    fn new() -> Halls {
        // (of the second list the second queue is the first thread's; there is no fourth queue, and no thread without one)
        Halls { threads: vec![1 << 1, 0b1110, 0, 1 << 9], ..Halls::default() }
    }

    fn has<T>(&self, look: impl FnOnce(&mut Its) -> T) -> T {
        look(&mut self.its.lock().unwrap())
    }

    fn tell(&self, what: String) {
        let thread = current().name().unwrap_or("none").to_string();
        self.has(|its| its.told.push((what, thread)));
    }

    fn told(&self) -> Vec<(String, String)> {
        self.has(|its| std::mem::take(&mut its.told))
    }

    fn shut(&self, is_shut: bool) {
        self.has(|its| its.is_shut = is_shut);
        self.gate.notify_all();
    }
}

impl Device for Halls {
    fn queues(&self) -> usize {
        3
    }

    fn queues_per_thread(&self) -> Vec<u64> {
        self.threads.clone()
    }

    fn taken_queues(&self) -> u64 {
        self.taken
    }

    fn busy_poll(&self) -> Duration {
        self.busy_poll
    }

    fn request(&self, request: Request) {
        assert!(!self.panics, "a panic of the device");
        self.tell(format!("request {}", request.queue()));
        let mut its = self.its.lock().unwrap();
        if self.keeps {
            return its.kept.push(request);
        }
        if request.queue() == GATED && its.is_shut {
            its.waiting += 1;
            its = self.gate.wait_while(its, |its| its.is_shut).unwrap();
            its.waiting -= 1;
        }
        drop(its);
        answer(request);
    }

    fn available(&self, queue: usize, taker: &Taker) {
        self.tell(format!("available {queue}"));
        taker.take_many(queue, 16).into_iter().for_each(answer);
    }

    fn stopping(&self, queue: usize) {
        self.tell(format!("stopping {queue}"));
        let kept = self.has(|its| std::mem::take(&mut its.kept));
        let (these, others): (Vec<_>, Vec<_>) = kept.into_iter().partition(|request| request.queue() == queue);
        self.has(|its| its.kept.extend(others));
        these.into_iter().for_each(answer);
    }

    fn reset(&self) {
        self.tell("reset".to_string());
    }

    fn ended(&self, why: &Ended) {
        self.tell(text_of_end(why));
    }
}

/// How many threads of queues there are in this process.
fn threads() -> usize {
    let names = read_dir("/proc/self/task").unwrap().filter_map(|it| read_to_string(it.unwrap().path().join("comm")).ok());
    names.filter(|name| name.starts_with("queues ")).count()
}

/// Waits until there are so many. (a thread has its name soon after it began, and the system tells of it until soon after it was joined)
#[track_caller]
fn wait_for_threads(count: usize) {
    wait_until("there are so many threads", || threads() == count);
}

struct Played {
    device: Arc<Halls>,
    frontend: Frontend,
    rings: Vec<Ring>,
    stopper: Stopper,
    memory: File,
    looping: JoinHandle<String>,
}

/// A session whose rings run.
fn played(device: Halls) -> Played {
    let (device, (mine, other), memory) = (Arc::new(device), UnixStream::pair().unwrap(), guest_memory());
    let session = Session::new(device.clone(), other).unwrap();
    let (stopper, looping) = (session.stopper(), spawn(move || serve_all(session)));
    let mut frontend = Frontend::from_stream(mine, 8);
    frontend.set_timeout(Some(Duration::from_secs(20)));
    agree(&mut frontend, 0);
    frontend.set_mem_table(&[region_of(&memory, 0, MEMORY)]).unwrap();
    let mut rings: Vec<Ring> = (0..3).map(|index| Ring::in_memory(&memory, index)).collect();
    rings.iter_mut().for_each(|ring| ring.start(&mut frontend, 0));
    Played { device, frontend, rings, stopper, memory, looping }
}

impl Played {
    /// A request of a queue is answered.
    #[track_caller]
    fn serves(&mut self, queue: usize) {
        self.rings[queue].write_request(0, "hall");
        self.rings[queue].post(0);
        assert_eq!((0, 4), self.rings[queue].used());
        assert_eq!("HALL", self.rings[queue].text(0, 4));
        assert!(is_signalled(&self.rings[queue].call, LIMIT as i32));
    }

    /// The device has a request that waits at the gate.
    fn fills_the_hall(&mut self) {
        self.device.shut(true);
        self.rings[GATED].write_request(0, "gate");
        self.rings[GATED].post(0);
        wait_until("a request waits", || self.device.has(|its| its.waiting == 1));
    }

    fn ends_by(self, why: &str) {
        let Played { device, frontend, looping, .. } = self;
        drop(frontend);
        assert_eq!(why, looping.join().unwrap());
        wait_for_threads(0);
        assert_eq!(Some(why.to_string()), device.told().pop().map(|(what, _)| what));
    }
}

fn named(told: &[(String, String)], what: &str) -> Vec<String> {
    told.iter().filter(|(it, _)| it == what).map(|(_, thread)| thread.clone()).collect()
}

#[test]
fn each_queue_is_served_in_its_thread() {
    counted(|| {
        for busy_poll in [Duration::ZERO, Duration::from_millis(2)] {
            let mut it = played(Halls { busy_poll, ..Halls::new() });
            wait_for_threads(2);
            for queue in [0, 1, 2, 2, 1, 0, 0] {
                it.serves(queue);
            }
            let told = it.device.told();
            assert_eq!(vec!["queues 1"; 2], named(&told, "request 1"));
            assert_eq!(vec!["queues 2"; 2], named(&told, "request 2"));
            assert!(named(&told, "request 0").iter().all(|thread| !thread.starts_with("queues")));
            let device = it.device.clone();
            it.ends_by("Disconnected");
            assert!(device.told().is_empty());
        }
    });
}

/// What stands in the threads of all queues is done meanwhile, by as many guests' drivers.
#[test]
fn queues_are_served_at_the_same_time() {
    counted(|| {
        let mut it = played(Halls { threads: vec![1, 2, 4], ..Halls::new() });
        wait_for_threads(3);
        let drivers: Vec<_> = it.rings.drain(..).map(|mut ring| spawn(move || drive(&mut ring))).collect();
        drivers.into_iter().for_each(|driver| driver.join().unwrap());
        it.ends_by("Disconnected");
    });
}

fn drive(ring: &mut Ring) {
    for round in 0..300 {
        let heads = [0, 4, 8, 12];
        for head in heads {
            ring.write_request(head, &format!("round {round:3}"));
            ring.post(head);
        }
        let mut used: Vec<(u32, u32)> = heads.iter().map(|_| ring.used()).collect();
        used.sort_unstable();
        assert_eq!(vec![(0, 9), (4, 9), (8, 9), (12, 9)], used);
        heads.iter().for_each(|head| assert_eq!(format!("ROUND {round:3}"), ring.text(*head, 9)));
    }
}

/// While a thread is busy all calls of the frontend are answered, but for one that stops its queue, which is answered once that is through; and
/// other queues go on.
#[test]
fn a_call_waits_for_no_other_queue() {
    counted(|| {
        let mut it = played(Halls::new());
        it.fills_the_hall();
        assert_ne!(0, it.frontend.get_features().unwrap());
        assert_eq!(3, it.frontend.get_queue_num().unwrap());
        [0, 2].iter().for_each(|queue| it.serves(*queue));
        it.frontend.set_vring_enable(GATED, true).unwrap();
        it.frontend.set_mem_table(&[region_of(&it.memory, 0, MEMORY)]).unwrap();
        assert_eq!((1, 1), (it.frontend.get_vring_base(0).unwrap(), it.frontend.get_vring_base(2).unwrap()));
        let Played { device, frontend, rings, looping, .. } = it;
        let stopping = spawn(move || (frontend.get_vring_base(GATED).unwrap(), frontend));
        device.shut(false);
        let (base, frontend) = stopping.join().unwrap();
        assert_eq!((1, 1), (base, rings[GATED].get16(2, 2)));
        drop(frontend);
        assert_eq!("Disconnected", looping.join().unwrap());
        wait_for_threads(0);
    });
}

/// A device that keeps requests until their queue stops is told of that behind the last one: so whoever stops it is answered.
#[test]
fn a_queue_stops_behind_its_last_request() {
    counted(|| {
        let mut it = played(Halls { keeps: true, ..Halls::new() });
        for _ in 0..60 {
            for head in [0, 4, 8, 12] {
                it.rings[2].write_request(head, "kept");
                it.rings[2].post(head);
            }
            let base = it.frontend.get_vring_base(2).unwrap() as u16;
            assert_eq!(base, it.rings[2].get16(2, 2));
            let told = it.device.told();
            assert_eq!(Some(&("stopping 2".to_string(), "queues 2".to_string())), told.last());
            assert_eq!(usize::from(base.wrapping_sub(it.rings[2].seen)), named(&told, "request 2").len());
            // What was not taken is taken by the next one.
            it.rings[2].seen = base;
            let posted = it.rings[2].posted;
            it.rings[2].start(&mut it.frontend, base);
            (it.rings[2].posted, it.rings[2].seen) = (posted, base);
            wait_until("what is left is taken", || it.device.has(|its| its.kept.len() == usize::from(posted.wrapping_sub(base))));
            assert_eq!(u32::from(posted), it.frontend.get_vring_base(2).unwrap());
            it.rings[2].start(&mut it.frontend, posted);
            it.device.told();
        }
        it.ends_by("Disconnected");
    });
}

/// So is a reset, which comes behind all of them.
#[test]
fn a_reset_finds_no_request() {
    counted(|| {
        let mut it = played(Halls { keeps: true, ..Halls::new() });
        for queue in 0..3 {
            it.rings[queue].write_request(0, "kept");
            it.rings[queue].post(0);
        }
        wait_until("all are kept", || it.device.has(|its| its.kept.len() == 3));
        it.frontend.reset_device().unwrap();
        it.rings.iter_mut().for_each(|ring| assert_eq!((0, 4), ring.used()));
        let told = it.device.told();
        assert_eq!(Some("reset"), told.last().map(|(what, _)| &what[..]));
        for (queue, thread) in [(1, "queues 1"), (2, "queues 2")] {
            assert_eq!(vec![thread], named(&told, &format!("stopping {queue}")));
        }
        it.ends_by("Disconnected");
    });
}

/// A queue that the device takes from is told of by its thread, too.
#[test]
fn a_queue_that_is_taken_from_has_a_thread() {
    counted(|| {
        let mut it = played(Halls { taken: 1 << 2, ..Halls::new() });
        it.serves(2);
        it.serves(2);
        assert_eq!(vec!["queues 2"; 2], named(&it.device.told(), "available 2"));
        it.ends_by("Disconnected");
    });
}

/// The end is told once a thread is through with its request, by which it is joined.
#[test]
fn an_end_waits_for_a_thread_that_is_busy() {
    counted(|| {
        for is_stopped in [false, true] {
            let mut it = played(Halls::new());
            it.fills_the_hall();
            let Played { device, frontend, looping, stopper, .. } = it;
            match is_stopped {
                true => stopper.stop(),
                false => frontend.shutdown(),
            }
            assert_eq!(1, device.has(|its| its.waiting));
            device.shut(false);
            let why = looping.join().unwrap();
            assert_eq!(if is_stopped { "Stopped" } else { "Disconnected" }, why);
            wait_for_threads(0);
            assert_eq!(Some(why), device.told().pop().map(|(what, _)| what));
        }
    });
}

#[test]
fn a_dropped_session_joins_its_threads() {
    counted(|| {
        let (_mine, other) = UnixStream::pair().unwrap();
        let session = Session::new(Arc::new(Halls::new()), other).unwrap();
        wait_for_threads(2);
        drop(session);
        wait_for_threads(0);
    });
}

/// Runs this where so few descriptors may be opened, beside those that there are.
fn with_spare_descriptors<T>(spare: usize, run: impl FnOnce() -> T) -> T {
    let numbers = read_dir("/proc/self/fd").unwrap().filter_map(|it| it.unwrap().file_name().into_string().ok()?.parse().ok());
    let (highest, null): (u64, File) = (numbers.max().unwrap_or(0), File::open("/dev/null").unwrap());
    let mut were = libc::rlimit { rlim_cur: 0, rlim_max: 0 };
    // SAFETY: one struct, borrowed for the call.
    assert_eq!(0, unsafe { libc::getrlimit(libc::RLIMIT_NOFILE, &mut were) });
    let set = |limit: &libc::rlimit| {
        // SAFETY: as above.
        assert_eq!(0, unsafe { libc::setrlimit(libc::RLIMIT_NOFILE, limit) });
    };
    set(&libc::rlimit { rlim_cur: highest + 64, ..were });
    let mut others: Vec<File> = std::iter::from_fn(|| null.try_clone().ok()).collect();
    others.truncate(others.len() - spare);
    let result = run();
    set(&were);
    result
}

/// Where descriptors run out as a session begins, it does not, and neither a descriptor nor a thread is left.
#[test]
fn a_session_that_cannot_begin_leaves_nothing() {
    counted(|| {
        let device = Arc::new(Halls::new());
        let refused = (0..).take_while(|spare| {
            let (_mine, other) = UnixStream::pair().unwrap();
            let begun = with_spare_descriptors(*spare, || Session::new(device.clone(), other).map(drop));
            wait_for_threads(0);
            begun.is_err()
        });
        // (three for each thread, beside the session's own)
        assert!(refused.count() > 2 * 3);
    });
}

#[test]
fn memory_is_lost_in_a_thread() {
    counted(|| {
        let mut it = played(Halls::new());
        it.serves(2);
        it.memory.set_len(0).unwrap();
        it.rings[2].kick();
        assert_eq!("MemoryLost", it.looping.join().unwrap());
        wait_for_threads(0);
    });
}

/// A panic of the device in such a thread ends the session, and goes on in the thread that serves that.
#[test]
fn a_panic_goes_on_in_the_sessions_thread() {
    counted(|| {
        let mut it = played(Halls { panics: true, ..Halls::new() });
        it.rings[2].write_request(0, "panic");
        it.rings[2].post(0);
        let panic = it.looping.join().unwrap_err();
        assert_eq!(Some(&"a panic of the device"), panic.downcast_ref::<&str>());
        wait_for_threads(0);
    });
}
