// SPDX-License-Identifier: Apache-2.0
//! Queues that a device of `covretin::device` takes from, and devices that keep requests for later: whoever stops a queue is answered.
mod common;

use std::io::{Read, Write};
use std::os::unix::fs::FileExt;
use std::os::unix::net::UnixStream;
use std::sync::{Arc, Mutex};
use std::thread::{spawn, JoinHandle};
use std::time::Duration;

use common::machine::*;
use common::*;
use covretin::device::{Device, Ended, Request, Session, Taker, EVENT_IDX};
use covretin::queue;
use covretin::vhost_user::{Frontend, VhostUserFrontend};
use covretin::VhostBackend;

const RECEIVE: usize = 0;
const SEND: usize = 1;

#[derive(Default)]
struct Its {
    /// Texts that the guest gets.
    texts: Vec<Vec<u8>>,
    kept: Vec<Request>,
    taker: Option<Taker>,
    told: Vec<String>,
}

/// A device that gives its guest the texts that come by its second queue in buffers of the first; or, with `keeps`, keeps what comes until
/// its queue stops.
#[derive(Default)]
struct Mirror {
    keeps: bool,
    its: Mutex<Its>,
}

impl Mirror {
    fn has<T>(&self, look: impl FnOnce(&mut Its) -> T) -> T {
        look(&mut self.its.lock().unwrap())
    }

    fn told(&self) -> Vec<String> {
        self.has(|its| std::mem::take(&mut its.told))
    }

    fn tell(&self, what: String) {
        self.has(|its| its.told.push(what));
    }

    /// Writes texts, as long as there are buffers.
    fn write_texts(&self, taker: &Taker) {
        self.has(|its| {
            while let Some(text) = its.texts.first() {
                let mut buffer = match taker.take(RECEIVE) {
                    Some(buffer) => buffer,
                    None => return,
                };
                assert_eq!(RECEIVE, buffer.queue());
                let written = buffer.write(text).unwrap();
                buffer.complete(written as u32);
                its.texts.remove(0);
            }
        });
    }
}

impl Device for Mirror {
    fn queues(&self) -> usize {
        2
    }

    fn taken_queues(&self) -> u64 {
        1 << RECEIVE
    }

    fn request(&self, mut request: Request) {
        assert_eq!(SEND, request.queue());
        if self.keeps {
            return self.has(|its| its.kept.push(request));
        }
        let mut text = Vec::new();
        request.read_to_end(&mut text).unwrap();
        let taker = request.taker();
        assert!(taker.take(SEND).is_none() && taker.take(2).is_none());
        self.has(|its| its.texts.push(text));
        self.write_texts(&taker);
        request.complete(0);
    }

    fn available(&self, queue: usize, taker: &Taker) {
        self.tell(format!("available {queue}"));
        self.has(|its| its.taker = Some(taker.clone()));
        self.write_texts(taker);
    }

    fn stopping(&self, queue: usize) {
        self.tell(format!("stopping {queue}"));
        if queue == SEND {
            self.has(|its| its.kept.clear());
        }
    }

    fn reset(&self) {
        self.tell("reset".to_string());
    }

    fn broken(&self, queue: usize, error: queue::Error) {
        self.tell(format!("broken {queue} {error:?}"));
    }

    fn ended(&self, why: &Ended) {
        self.tell(format!("ended {}", text_of_end(why)));
    }
}

/// A session of such a device, with both rings started.
struct Mirrored {
    device: Arc<Mirror>,
    frontend: Frontend,
    rings: [Ring; 2],
    looping: JoinHandle<String>,
}

impl Mirrored {
    fn new(keeps: bool, features: u64) -> Mirrored {
        let device = Arc::new(Mirror { keeps, ..Mirror::default() });
        let (mine, other) = UnixStream::pair().unwrap();
        let session = Session::new(device.clone(), other).unwrap();
        let looping = spawn(move || serve_all(session));
        let (mut frontend, memory) = (Frontend::from_stream(mine, 8), guest_memory());
        frontend.set_timeout(Some(Duration::from_secs(20)));
        agree(&mut frontend, features);
        frontend.set_mem_table(&[region_of(&memory, 0, MEMORY)]).unwrap();
        let mut rings = [0, 1].map(|index| Ring::in_memory(&memory, index));
        rings.iter_mut().for_each(|ring| ring.start(&mut frontend, 0));
        Mirrored { device, frontend, rings, looping }
    }

    fn send(&mut self, text: &str) {
        let ring = &mut self.rings[SEND];
        ring.memory.write_all_at(text.as_bytes(), ring.buffer(0)).unwrap();
        ring.describe(0, (GUEST + ring.buffer(0), text.len() as u32, 0, 0));
        ring.post(0);
    }

    fn offer(&mut self, head: u16) {
        let ring = &mut self.rings[RECEIVE];
        ring.describe(head, (GUEST + ring.buffer(head), 0x100, WRITE, 0));
        ring.post(head);
    }

    #[track_caller]
    fn receives(&mut self, head: u16, text: &str) {
        let ring = &mut self.rings[RECEIVE];
        assert_eq!((head.into(), text.len() as u32), ring.used());
        let mut bytes = vec![0; text.len()];
        ring.memory.read_exact_at(&mut bytes, ring.buffer(head)).unwrap();
        assert_eq!(text.as_bytes(), bytes);
    }

    fn end(self) {
        drop(self.frontend);
        assert_eq!("Disconnected", self.looping.join().unwrap());
        assert_eq!(vec!["stopping 0", "stopping 1", "ended Disconnected"], self.device.told());
    }
}

/// A queue that is taken from has no request out while the device has nothing: who stops it is answered, and it goes on from there.
#[test]
fn takes_what_it_fills() {
    counted(|| {
        let mut it = Mirrored::new(false, 0);
        (0..8).for_each(|head| it.offer(head));
        for head in 0..4 {
            it.send("some text");
            it.receives(head, "some text");
            assert_eq!((0, 0), it.rings[SEND].used());
        }
        assert_eq!(4, it.frontend.get_vring_base(RECEIVE).unwrap());
        assert_eq!(vec!["available 0", "stopping 0"], it.device.told());
        it.send("while it is stopped");
        assert_eq!((0, 0), it.rings[SEND].used());
        it.rings[RECEIVE].start_again(&mut it.frontend, 4);
        it.receives(4, "while it is stopped");
        assert_eq!(vec!["available 0"], it.device.told());
        it.end();
    });
}

/// Where there was no buffer the device is told of the next one; its driver, which need not tell of more meanwhile, is asked to.
#[test]
fn is_told_of_buffers() {
    for features in [0, EVENT_IDX] {
        counted(|| {
            let mut it = Mirrored::new(false, features);
            for round in 0..4 {
                it.send("waits");
                assert_eq!((0, 0), it.rings[SEND].used());
                let wanted = it.rings[RECEIVE].get16(2, if features == 0 { 0 } else { 4 + u64::from(SIZE) * 8 });
                assert_eq!(if features == 0 { 0 } else { round }, wanted);
                it.offer(round);
                it.receives(round, "waits");
            }
            assert_eq!(vec!["available 0"; 4], it.device.told());
            it.end();
        });
    }
}

/// Any thread takes, as long as the queue and the session are there.
#[test]
fn takes_from_any_thread() {
    counted(|| {
        let mut it = Mirrored::new(false, 0);
        it.offer(0);
        wait_until("it is told of a buffer", || it.device.has(|its| its.taker.is_some()));
        let taker = it.device.has(|its| its.taker.take()).unwrap();
        let (another, frontend) = (taker.clone(), &mut it.frontend);
        let mut buffer = spawn(move || another.take(RECEIVE)).join().unwrap().unwrap();
        assert!(taker.take(RECEIVE).is_none());
        // What is out is waited for.
        let later = spawn(move || {
            buffer.write_all(b"later").unwrap();
            std::thread::sleep(Duration::from_millis(50));
            buffer.complete(5);
        });
        assert_eq!(1, frontend.get_vring_base(RECEIVE).unwrap());
        later.join().unwrap();
        it.receives(0, "later");
        assert!(taker.take(RECEIVE).is_none());
        it.rings[RECEIVE].start_again(&mut it.frontend, 1);
        it.device.told();
        it.end();
        assert!(taker.take(RECEIVE).is_none());
    });
}

/// A rule that the driver broke is told where it was found amid the device's own call.
#[test]
fn tells_what_is_wrong_where_it_takes() {
    counted(|| {
        let mut it = Mirrored::new(false, 0);
        it.rings[RECEIVE].describe(0, (0, 0x100, WRITE, 0));
        it.rings[RECEIVE].post(0);
        wait_until("it is told of a buffer", || it.device.told() == ["available 0"]);
        it.send("some text");
        assert!(is_signalled(&it.rings[RECEIVE].error, LIMIT as i32));
        assert_eq!((0, 0), it.rings[SEND].used());
        wait_until("it says so", || it.device.told() == ["broken 0 NotInGuest"]);
        it.end();
    });
}

/// A device that keeps requests is told that their queue stops, by each way in which one does.
#[test]
fn is_told_of_a_stop() {
    counted(|| {
        let mut it = Mirrored::new(true, 0);
        let keeps_one = |it: &mut Mirrored| {
            it.send("kept");
            let device = it.device.clone();
            wait_until("it has one", || device.has(|its| its.kept.len()) == 1);
        };
        keeps_one(&mut it);
        assert_eq!(1, it.frontend.get_vring_base(SEND).unwrap());
        assert_eq!((0, 0), it.rings[SEND].used());
        assert_eq!(vec!["stopping 1"], it.device.told());
        it.rings[SEND].start_again(&mut it.frontend, 1);
        keeps_one(&mut it);
        it.frontend.reset_device().unwrap();
        assert_eq!((0, 0), it.rings[SEND].used());
        assert_eq!(vec!["stopping 0", "stopping 1", "reset"], it.device.told());
        it.rings.iter_mut().for_each(|ring| {
            ring.memory.write_all_at(&[0; 2 * 4096], ring.place(1, 0)).unwrap();
            ring.start(&mut it.frontend, 0);
        });
        keeps_one(&mut it);
        it.end();
    });
}
