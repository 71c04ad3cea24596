// SPDX-License-Identifier: Apache-2.0
//! What a frontend or a guest costs the others of an event loop, over `covretin::device`: in processor time of the loop's thread, which the test
//! is. What interrupts a thread is counted to it, so one try in eight may take longer. The address sanitizer would be measured, too: not with that.
mod common;

use std::fs::File;
use std::mem::zeroed;
use std::os::unix::fs::FileExt;
use std::os::unix::io::AsRawFd;
use std::os::unix::net::UnixStream;
use std::sync::mpsc::{channel, Sender};
use std::sync::Arc;
use std::thread::spawn;
use std::time::Duration;

use common::machine::*;
use common::*;
use covretin::device::{Device, Request, Session, INDIRECT_DESC};
use covretin::vhost_user::message::VhostUserHeaderFlag;
use covretin::vhost_user::{Frontend, VhostUserFrontend};
use covretin::{VhostBackend, VhostUserDirtyLogRegion, VhostUserMemoryRegionInfo};

const TRIES: usize = 24;
/// In which a call of another session is answered, and in which a session begins, or ends.
const ANSWERED: Duration = Duration::from_millis(5);
const ONCE: Duration = Duration::from_millis(1);
const PAGE: u64 = 4096;
const MOST_REGIONS: u64 = 509;

/// A device with many queues, which does nothing.
struct Idle;

impl Device for Idle {
    fn queues(&self) -> usize {
        64
    }

    fn request(&self, request: Request) {
        request.complete(0);
    }
}

fn time_of_thread() -> Duration {
    // SAFETY: zeros are a time, which is borrowed for the call.
    let time = unsafe {
        let mut time: libc::timespec = zeroed();
        assert_eq!(0, libc::clock_gettime(libc::CLOCK_THREAD_CPUTIME_ID, &mut time));
        time
    };
    Duration::new(time.tv_sec as u64, time.tv_nsec as u32)
}

/// All tries but one in eight took this or less.
#[track_caller]
fn within(limit: Duration, mut costs: Vec<Duration>) {
    costs.sort_unstable();
    let most = costs[costs.len() - 1 - costs.len() / 8];
    assert!(most <= limit, "{most:?}, and not {limit:?}: {costs:?}");
}

/// A quarter of the tries took this or less. What others do meanwhile, to caches and page tables, only adds to a try.
#[track_caller]
fn within_undisturbed(limit: Duration, mut costs: Vec<Duration>) {
    costs.sort_unstable();
    let few = costs[costs.len() / 4];
    assert!(few <= limit, "{few:?}, and not {limit:?}: {costs:?}");
}

fn begun() -> (Session<Idle>, UnixStream) {
    let (mine, other) = UnixStream::pair().unwrap();
    (Session::new(Arc::new(Idle), other).unwrap(), mine)
}

/// The pages of a file, each a region of its own.
fn page_of(memory: &File, at: u64) -> VhostUserMemoryRegionInfo {
    VhostUserMemoryRegionInfo {
        guest_phys_addr: GUEST + 2 * at * PAGE,
        memory_size: PAGE,
        userspace_addr: USER + 2 * at * PAGE,
        mmap_offset: at * PAGE,
        mmap_handle: memory.as_raw_fd(),
    }
}

/// A frontend with so many regions of memory.
fn with_regions(mine: UnixStream, count: u64) -> (Frontend, File) {
    let (mut frontend, memory) = (Frontend::from_stream(mine, 64), memory_file());
    memory.set_len((MOST_REGIONS + 1) * PAGE).unwrap();
    agree(&mut frontend, INDIRECT_DESC | LOG_ALL);
    frontend.set_hdr_flags(VhostUserHeaderFlag::empty());
    (0..count).for_each(|at| assert!(frontend.add_mem_region(&page_of(&memory, at)).is_ok()));
    frontend.get_queue_num().unwrap(); // (they are there)
    (frontend, memory)
}

/// What an honest session's call costs the loop from when it was sent until it is answered, beside a frontend that does this without end.
fn beside(greedy: impl FnOnce(UnixStream, Sender<()>) + Send + 'static) -> Vec<Duration> {
    let ((mut honest, asks), (mut session, mine)) = (begun(), begun());
    let (ready, is_ready) = channel();
    let flooding = spawn(move || greedy(mine, ready));
    while is_ready.try_recv().is_err() {
        assert!(is_readable(session.as_raw_fd(), LIMIT as i32), "nothing was to be done");
        assert!(session.handle_events().is_none());
    }
    let costs = (0..TRIES).map(|_| {
        send(&asks, &message(1, ASKS, &[]), &[]);
        let began = time_of_thread();
        while !is_readable(asks.as_raw_fd(), 0) {
            assert!(session.handle_events().is_none());
            assert!(honest.handle_events().is_none());
        }
        let cost = time_of_thread() - began;
        assert_eq!(0, receive(&asks, &mut [0; 20]).len());
        cost
    });
    let costs = costs.collect();
    drop(session);
    flooding.join().unwrap();
    costs
}

/// Tables of memory without end.
#[test]
#[ignore = "measures processor time"]
fn beside_tables() {
    counted(|| {
        within(
            ANSWERED,
            beside(|mine, ready| {
                let (frontend, memory) = with_regions(mine, 0);
                let table: Vec<VhostUserMemoryRegionInfo> = (0..32).map(|at| page_of(&memory, at)).collect();
                ready.send(()).unwrap();
                while frontend.set_mem_table(&table).is_ok() {}
            }),
        );
    });
}

/// Regions that come and go, where there are as many as there may be.
#[test]
#[ignore = "measures processor time"]
fn beside_regions_that_come_and_go() {
    counted(|| {
        within(
            ANSWERED,
            beside(|mine, ready| {
                let (mut frontend, memory) = with_regions(mine, MOST_REGIONS - 1);
                let last = page_of(&memory, MOST_REGIONS - 1);
                ready.send(()).unwrap();
                while frontend.add_mem_region(&last).and_then(|_| frontend.remove_mem_region(&last)).is_ok() {}
            }),
        );
    });
}

/// Requests of a thousand parts without end, of which each names all memory, with the dirty log on.
#[test]
#[ignore = "measures processor time"]
fn beside_a_log() {
    const ALL: u64 = 4 << 30;
    counted(|| {
        within(
            ANSWERED,
            beside(|mine, ready| {
                let (mut frontend, log) = (with_regions(mine, 0).0, memory_file());
                let memory = memory_file();
                memory.set_len(ALL).unwrap();
                log.set_len(0x40000).unwrap();
                let about = VhostUserDirtyLogRegion { mmap_size: 0x40000, mmap_offset: 0, mmap_handle: log.as_raw_fd() };
                frontend.set_mem_table(&[region_of(&memory, 0, ALL)]).unwrap();
                frontend.set_log_base(0, Some(about)).unwrap();
                let part = bytes_of((GUEST, u32::MAX, WRITE | NEXT, 0));
                let table: Vec<u8> = (1..=1024u16)
                    .flat_map(|next| {
                        let mut part = part.clone();
                        part[14..].copy_from_slice(&next.to_le_bytes());
                        part
                    })
                    .collect();
                memory.write_all_at(&table, BUFFERS).unwrap();
                memory.write_all_at(&WRITE.to_le_bytes(), BUFFERS + 16 * 1023 + 12).unwrap();
                let mut ring = Ring::in_memory(&memory, 0);
                ring.describe(0, (GUEST + BUFFERS, 16 * 1024, INDIRECT, 0));
                ring.start(&mut frontend, 0);
                ring.post(0);
                ring.used();
                ready.send(()).unwrap();
                while frontend.get_queue_num().is_ok() {
                    ring.post(0);
                }
            }),
        );
    });
}

/// A session begins and ends at once, also with as many regions as there may be.
#[test]
#[ignore = "measures processor time"]
fn begins_and_ends() {
    counted(|| {
        for count in [0, MOST_REGIONS] {
            let (mut begins, mut ends) = (Vec::new(), Vec::new());
            for _ in 0..TRIES {
                let began = time_of_thread();
                let (mut session, mine) = begun();
                begins.push(time_of_thread() - began);
                let frontend = spawn(move || drop(with_regions(mine, count)));
                let ended = loop {
                    assert!(is_readable(session.as_raw_fd(), LIMIT as i32), "nothing was to be done");
                    let began = time_of_thread();
                    if session.handle_events().is_some() {
                        break began;
                    }
                };
                drop(session);
                ends.push(time_of_thread() - ended);
                frontend.join().unwrap();
            }
            within_undisturbed(ONCE, begins);
            within_undisturbed(ONCE, ends);
        }
    });
}

/// One session takes no mapping from another, however many it has.
#[test]
fn each_session_has_its_mappings() {
    counted(|| {
        let greedy: Vec<_> = (0..9).map(|_| begun()).collect();
        let mut all = Vec::new();
        for (mut session, mine) in greedy.into_iter().chain([begun()]) {
            let looping = spawn(move || loop {
                assert!(is_readable(session.as_raw_fd(), LIMIT as i32), "nothing was to be done");
                if session.handle_events().is_some() {
                    return;
                }
            });
            let (frontend, memory) = with_regions(mine, MOST_REGIONS - 1);
            frontend.set_hdr_flags(VhostUserHeaderFlag::NEED_REPLY);
            all.push((frontend, memory, looping));
        }
        for (mut frontend, memory, looping) in all {
            frontend.add_mem_region(&page_of(&memory, MOST_REGIONS - 1)).unwrap();
            drop(frontend);
            looping.join().unwrap();
        }
    });
}
