// SPDX-License-Identifier: Apache-2.0
//! covretin-tap between two sides: it passes on each byte and descriptor, whatever becomes of them, and of itself.
mod common;

use std::fs::{create_dir, read_dir, remove_dir_all, remove_file, File};
use std::io::{BufRead, BufReader, Read, Write};
use std::net::Shutdown;
use std::os::unix::io::AsRawFd;
use std::os::unix::net::{UnixListener, UnixStream};
use std::path::PathBuf;
use std::process::{Child, Command, Output, Stdio};
use std::thread;
use std::time::{Duration, Instant};

use common::device::*;
use common::lingering::*;
use common::random::Numbers;
use common::*;
use covretin::vhost_user::message::*;
use covretin::vhost_user::{BackendReqHandler, Frontend, VhostUserFrontend, SERVED_PROTOCOL_FEATURES};
use covretin::{VhostBackend, VhostUserMemoryRegionInfo, VringConfigData};

/// How long something may take that has to come.
const LONG: Duration = Duration::from_secs(20);

/// A running tap with its sockets in a folder, and the backend's listening one.
struct Tap {
    child: Child,
    listener: UnixListener,
    folder: PathBuf,
}

impl Tap {
    /// One that ends with so many sessions, or by a signal.
    #[track_caller]
    fn of(count: Option<usize>) -> Tap {
        let line = std::panic::Location::caller().line();
        let folder = std::env::temp_dir().join(format!("covretin-tap-{}-{line}", std::process::id()));
        create_dir(&folder).unwrap();
        let listener = UnixListener::bind(folder.join("backend")).unwrap();
        let child = Command::new(env!("CARGO_BIN_EXE_covretin-tap"))
            .args(["--record", "record", "frontend", "backend"])
            .args(count.map(|count| format!("--count={count}")))
            .current_dir(&folder)
            .stdout(Stdio::piped())
            .stderr(Stdio::piped())
            .spawn()
            .unwrap();
        Tap { child, listener, folder }
    }

    fn wait_until_bound(&self) {
        let started = Instant::now();
        while !self.folder.join("frontend").exists() {
            assert!(started.elapsed() < LONG, "the tap does not listen");
            thread::sleep(Duration::from_millis(5));
        }
    }

    /// Connects once the tap listens.
    fn connect(&self) -> UnixStream {
        let started = Instant::now();
        let socket = loop {
            match UnixStream::connect(self.folder.join("frontend")) {
                Ok(socket) => break socket,
                Err(cause) => assert!(started.elapsed() < LONG, "the tap does not listen: {cause}"),
            }
            thread::sleep(Duration::from_millis(5));
        };
        socket.set_read_timeout(Some(LONG)).unwrap();
        socket
    }

    fn accept(&self) -> UnixStream {
        let socket = self.listener.accept().unwrap().0;
        socket.set_read_timeout(Some(LONG)).unwrap();
        socket
    }

    /// Both ends of a session: the frontend's, and the backend's.
    fn ends(&self) -> (Peer, Peer) {
        let frontend = self.connect();
        (Peer { socket: frontend }, Peer { socket: self.accept() })
    }

    fn open_fds(&self) -> usize {
        read_dir(format!("/proc/{}/fd", self.child.id())).unwrap().count()
    }

    /// Ends it by a signal.
    fn signal(&self, signal: i32) {
        // SAFETY: it is the number of a child that was not waited for.
        assert_eq!(0, unsafe { libc::kill(self.child.id() as i32, signal) });
    }

    /// What it printed, once its sessions have ended, and the complaints among that. What it recorded is replayed to the same.
    fn end(self) -> (String, Vec<String>) {
        let Tap { child, folder, .. } = self;
        let (shown, found) = judged(&child.wait_with_output().unwrap());
        assert!(!folder.join("frontend").exists(), "its socket is left");
        let replay =
            Command::new(env!("CARGO_BIN_EXE_covretin-tap")).arg("--replay").arg(folder.join("record")).output().unwrap();
        remove_dir_all(&folder).unwrap();
        assert_eq!(shown, judged(&replay).0);
        (shown, found)
    }
}

/// Lines, and the complaints among them. The status agrees with them.
#[track_caller]
fn judged(output: &Output) -> (String, Vec<String>) {
    let shown = String::from_utf8(output.stdout.clone()).unwrap();
    let found: Vec<String> = shown.lines().filter_map(|line| line.strip_prefix("! ")).map(str::to_string).collect();
    assert_eq!("", String::from_utf8_lossy(&output.stderr));
    assert_eq!(Some(i32::from(!found.is_empty())), output.status.code(), "{shown}");
    (shown, found)
}

/// Serves a device over the tap, and makes these calls: the errors that it met.
fn served_through(tap: &Tap, device: &Shared, calls: impl FnOnce(&mut Frontend)) -> Vec<String> {
    let mut frontend = Frontend::from_stream(tap.connect(), RINGS);
    let mut handler = BackendReqHandler::from_stream(tap.accept(), device.clone());
    let serving = thread::spawn(move || serve_all(&mut handler));
    calls(&mut frontend);
    drop(frontend);
    serving.join().unwrap()
}

fn region(file: &File) -> VhostUserMemoryRegionInfo {
    let mmap_handle = file.as_raw_fd();
    VhostUserMemoryRegionInfo { guest_phys_addr: 0, memory_size: 0x1000, userspace_addr: 0x7000, mmap_offset: 0, mmap_handle }
}

/// Calls with descriptors both ways, acknowledged and not.
fn make_calls(frontend: &mut Frontend, memory: &File, given: &File) {
    let (state, stopped) = (VhostTransferStateDirection::SAVE, VhostTransferStatePhase::STOPPED);
    frontend.set_owner().unwrap();
    let features = frontend.get_features().unwrap();
    frontend.set_features(features).unwrap();
    assert_eq!(SERVED_PROTOCOL_FEATURES, frontend.get_protocol_features().unwrap());
    frontend.set_protocol_features(Frontend::PROTOCOL_FEATURES).unwrap();
    need_reply(frontend);
    assert_eq!(RINGS, frontend.get_queue_num().unwrap());
    assert_eq!(None, frontend.set_mem_table(&[region(memory)]).unwrap());
    frontend.set_vring_num(0, 256).unwrap();
    frontend.set_vring_addr(0, &VringConfigData { desc_table_addr: 0x7000, ..VringConfigData::default() }).unwrap();
    frontend.set_vring_call(0, memory).unwrap();
    assert_eq!(0x1234_5678, frontend.get_vring_base(0).unwrap());
    let config = frontend.get_config(4, 3, VhostUserConfigFlags::WRITABLE, &[0; 3]).unwrap();
    assert_eq!(vec![1, 2, 3], config.1);
    let (_, file) = frontend.get_inflight_fd(&VhostUserInflight::new(0, 0, 2, 128)).unwrap();
    assert_eq!(identity(given), identity(&file));
    let file = frontend.set_device_state_fd(state, stopped, memory.try_clone().unwrap().into()).unwrap().unwrap();
    assert_eq!(identity(given), identity(&file));
    frontend.check_device_state().unwrap();
    frontend.set_hdr_flags(VhostUserHeaderFlag::empty());
    frontend.set_vring_base(0, 5).unwrap();
    frontend.set_vring_enable(0, true).unwrap();
}

#[test]
fn both_sides_of_this_package() {
    counted(|| {
        let (memory, given) = (memory_file(), memory_file());
        let device = Shared::default();
        seen(&device).config = vec![1, 2, 3];
        seen(&device).gives = Some(given.try_clone().unwrap());
        let tap = Tap::of(Some(1));
        let errors = served_through(&tap, &device, |frontend| make_calls(frontend, &memory, &given));
        assert_eq!(Vec::<String>::new(), errors);
        assert_eq!(3, seen(&device).files.len());
        assert!(seen(&device).files.iter().all(|file| identity(file) == identity(&memory)));
        let (shown, found) = tap.end();
        assert_eq!(Vec::<String>::new(), found);
        let table = " F>B SET_MEM_TABLE [NEED_REPLY] regions=1 [guest=0x0 size=0x1000 user=0x7000 offset=0x0] fds=memfd:test\n";
        assert!(shown.contains(table), "{shown}");
        let inflight = " B>F GET_INFLIGHT_FD [REPLY] size=0x1000 offset=0x2000 rings=2 ring_size=128 fds=memfd:test\n";
        assert!(shown.contains(inflight), "{shown}");
    });
}

/// A device that refuses is not wrong, and the frontend hears it.
#[test]
fn a_device_that_refuses() {
    counted(|| {
        let device = Shared::default();
        let tap = Tap::of(Some(1));
        served_through(&tap, &device, |frontend| {
            agree(&device, frontend);
            need_reply(frontend);
            seen(&device).refuses = true;
            failed("BackendInternalError", frontend.set_vring_num(0, 256));
        });
        let (shown, found) = tap.end();
        assert_eq!(Vec::<String>::new(), found);
        assert!(shown.contains("\n= refused by the table 0, by the backend 1\n"), "{shown}");
    });
}

#[test]
fn a_wrong_reply_is_told_and_passed_on() {
    counted(|| {
        let tap = Tap::of(Some(1));
        let (frontend, backend) = tap.ends();
        frontend.say(&message(1, ASKS, &[]), &[]);
        backend.hear(&message(1, ASKS, &[]));
        backend.say(&message(15, REPLIES, &[7; 8]), &[]);
        frontend.hear(&message(15, REPLIES, &[7; 8]));
        drop(backend);
        frontend.silence();
        drop(frontend);
        let (_, found) = tap.end();
        assert_eq!("a reply to GET_PROTOCOL_FEATURES, where one to GET_FEATURES is awaited", found[0]);
        assert!(found[1].starts_with("GET_FEATURES was never replied to: the session ended "), "{found:?}");
        assert_eq!(2, found.len());
    });
}

/// A frontend says that it mapped regions, and asks for an acknowledgement: the backend refuses, and is not wrong.
#[test]
fn mapped_regions_that_are_refused() {
    counted(|| {
        let tap = Tap::of(Some(1));
        let (frontend, backend) = tap.ends();
        let ask = |request: Vec<u8>| {
            frontend.say(&request, &[]);
            backend.hear(&request);
        };
        let reply = |code: u32, body: &[u8], files: &[&File]| {
            let reply = message(code, REPLIES, body);
            backend.say(&reply, files);
            let mut came = vec![0; reply.len()];
            for byte in came.chunks_mut(1) {
                receive(&frontend.socket, byte);
            }
            assert_eq!(reply, came);
        };
        ask(message(1, ASKS, &[]));
        reply(1, &PROTOCOL.to_le_bytes(), &[]);
        ask(message(2, ASKS, &PROTOCOL.to_le_bytes()));
        ask(message(15, ASKS, &[]));
        reply(15, &0x108u64.to_le_bytes(), &[]);
        ask(message(16, ASKS, &0x108u64.to_le_bytes()));
        ask(message(28, ASKS, &[]));
        reply(28, &[], &[&memory_file()]);
        ask(message(29, ASKS | 8, &[]));
        reply(29, &[0; 8], &[]);
        ask(message(5, ASKS | 8, &[0; 8]));
        reply(5, &1u64.to_le_bytes(), &[]);
        drop((frontend, backend));
        let (shown, found) = tap.end();
        assert_eq!(Vec::<String>::new(), found);
        assert!(shown.contains("\n= refused by the table 0, by the backend 1\n"), "{shown}");
    });
}

/// A frontend that sends a byte at a time, and waits between them: what came is passed on before the rest is there.
#[test]
fn a_message_in_pieces() {
    counted(|| {
        let tap = Tap::of(Some(1));
        let (frontend, backend) = tap.ends();
        let request = message(12, ASKS, &[0; 8]);
        let file = memory_file();
        for (at, byte) in request.iter().enumerate() {
            send(&frontend.socket, &[*byte], if at == 0 { vec![file.as_raw_fd()] } else { Vec::new() }.as_slice());
            let mut came = [0; 30];
            let files = receive(&backend.socket, &mut came);
            assert_eq!(byte, &came[0]);
            assert_eq!(usize::from(at == 0), files.len());
            assert!(files.iter().all(|it| identity(it) == identity(&file)));
        }
        drop((frontend, backend));
        let (shown, found) = tap.end();
        assert_eq!(Vec::<String>::new(), found);
        assert!(shown.contains(" F>B SET_VRING_KICK ring=0 fds=memfd:test\n"), "{shown}");
    });
}

/// More descriptors than any message may have, and some with a body.
#[test]
fn descriptors_where_none_belong() {
    counted(|| {
        let tap = Tap::of(Some(1));
        let (frontend, backend) = tap.ends();
        let files: Vec<File> = (0..100).map(|_| memory_file()).collect();
        let all: Vec<&File> = files.iter().collect();
        let request = message(3, ASKS, &[]);
        frontend.say(&request, &all);
        let came = backend.hear(&request);
        assert_eq!(files.iter().map(identity).collect::<Vec<_>>(), came.iter().map(identity).collect::<Vec<_>>());
        let request = message(8, ASKS, &[0; 8]);
        send(&frontend.socket, &request[..12], &[]);
        send(&frontend.socket, &request[12..], &[files[7].as_raw_fd()]);
        assert!(receive(&backend.socket, &mut [0; 12]).is_empty());
        let came = receive(&backend.socket, &mut [0; 8]);
        assert_eq!(vec![identity(&files[7])], came.iter().map(identity).collect::<Vec<_>>());
        drop((frontend, backend));
        let (_, found) = tap.end();
        assert!(found[0].starts_with("SET_OWNER is refused: 100 descriptors came, and 32 are the most; "), "{found:?}");
        assert!(found[1].contains("came with 8 bytes and 1 descriptor, not all of them with its first byte; "), "{found:?}");
        assert_eq!(2, found.len());
    });
}

/// A socket that lingers goes on to its receiver as it is.
#[test]
fn a_descriptor_that_lingers() {
    counted(|| {
        let tap = Tap::of(Some(1));
        let (frontend, backend) = tap.ends();
        let request = message(12, ASKS, &[0; 8]);
        let others = Lingering::new(1).are_said(&frontend, &request);
        let came = backend.hear(&request);
        drop((frontend, backend));
        tap.end();
        assert!(lingers(&came[0]));
        linger_no_more(&came[0]);
        drop(others);
    });
}

/// Bytes at random, both ways at once, each side as fast as it can.
#[test]
fn garbage() {
    fn play(mut socket: UnixStream, seed: u64, other: u64) {
        let bytes = |seed| (0..300_000).scan(Numbers(seed), |numbers, _| Some(numbers.below(256) as u8)).collect::<Vec<u8>>();
        let mut writer = socket.try_clone().unwrap();
        let writing = thread::spawn(move || {
            let sent = writer.write_all(&bytes(seed));
            writer.shutdown(Shutdown::Write).unwrap();
            sent
        });
        let mut came = Vec::new();
        socket.read_to_end(&mut came).unwrap();
        assert!(came == bytes(other), "other bytes came");
        writing.join().unwrap().unwrap();
    }
    counted(|| {
        for seed in 1..6 {
            let tap = Tap::of(Some(1));
            let (frontend, backend) = tap.ends();
            let playing = thread::spawn(move || play(frontend.socket, seed, seed + 100));
            play(backend.socket, seed + 100, seed);
            playing.join().unwrap();
            let (_, found) = tap.end();
            assert_ne!(0, found.len());
        }
    });
}

#[test]
fn a_backend_that_ends_within_its_reply() {
    counted(|| {
        let tap = Tap::of(Some(1));
        let (frontend, backend) = tap.ends();
        frontend.say(&message(1, ASKS, &[]), &[]);
        backend.hear(&message(1, ASKS, &[]));
        backend.say(&message(1, REPLIES, &[1; 8])[..15], &[]);
        drop(backend);
        let mut came = Vec::new();
        (&frontend.socket).read_to_end(&mut came).unwrap();
        assert_eq!(message(1, REPLIES, &[1; 8])[..15], came);
        // (where nobody receives any more, one can't send either)
        assert!((&frontend.socket).write_all(&message(1, ASKS, &[])).is_err());
        drop(frontend);
        let (_, found) = tap.end();
        assert_eq!("the stream ended behind 3 bytes of a body of 8", found[0]);
        assert!(found[1].starts_with("GET_FEATURES was never replied to: the session ended "), "{found:?}");
    });
}

/// What a side sent before it ended arrives, also where it left unread what the other one sends.
#[test]
fn the_last_words_of_a_backend() {
    counted(|| {
        let tap = Tap::of(Some(30));
        for number in 0..30 {
            let (frontend, backend) = tap.ends();
            frontend.say(&message(1, ASKS, &[]), &[]);
            backend.hear(&message(1, ASKS, &[]));
            let asking = frontend.socket.try_clone().unwrap();
            let asking = thread::spawn(move || while (&asking).write_all(&message(3, ASKS, &[])).is_ok() {});
            backend.say_number(1, number);
            drop(backend);
            frontend.hear(&message(1, REPLIES, &number.to_le_bytes()));
            frontend.silence();
            asking.join().unwrap();
        }
        tap.end();
    });
}

#[test]
fn a_frontend_that_ends_within_its_request() {
    counted(|| {
        let tap = Tap::of(Some(1));
        let (frontend, backend) = tap.ends();
        frontend.say(&message(8, ASKS, &[0; 8])[..7], &[]);
        drop(frontend);
        let mut came = Vec::new();
        (&backend.socket).read_to_end(&mut came).unwrap();
        assert_eq!(message(8, ASKS, &[0; 8])[..7], came);
        drop(backend);
        let (_, found) = tap.end();
        assert_eq!(["the stream ended behind 7 bytes of a header"], found.as_slice());
    });
}

/// A frontend that says that it sends no more still receives.
#[test]
fn one_way_that_ends() {
    counted(|| {
        let tap = Tap::of(Some(1));
        let (frontend, backend) = tap.ends();
        frontend.say(&message(1, ASKS, &[]), &[]);
        frontend.socket.shutdown(Shutdown::Write).unwrap();
        backend.hear(&message(1, ASKS, &[]));
        backend.silence();
        backend.say_number(1, 7);
        frontend.hear(&message(1, REPLIES, &7u64.to_le_bytes()));
        drop((backend, frontend));
        assert_eq!(Vec::<String>::new(), tap.end().1);
    });
}

#[test]
fn a_backend_that_is_not_there() {
    counted(|| {
        let tap = Tap::of(Some(1));
        remove_file(tap.folder.join("backend")).unwrap();
        Peer { socket: tap.connect() }.silence();
        let Tap { child, folder, .. } = tap;
        let output = child.wait_with_output().unwrap();
        let shown = String::from_utf8(output.stdout).unwrap();
        assert!(shown.contains(" 1 not connected: No such file or directory"), "{shown}");
        assert!(shown.ends_with("\n= not connected: 1\n"), "{shown}");
        let said = String::from_utf8_lossy(&output.stderr);
        assert_eq!("covretin-tap: backend: No such file or directory (os error 2)\n", said);
        assert_eq!(Some(4), output.status.code());
        remove_dir_all(&folder).unwrap();
    });
}

/// Sessions one after another, and at once, leave nothing behind.
#[test]
fn many_sessions() {
    counted(|| {
        let mut tap = Tap::of(None);
        let file = memory_file();
        let play = |(frontend, backend): &(Peer, Peer)| {
            frontend.say(&message(12, ASKS, &[0; 8]), &[&file]);
            assert_eq!(1, backend.hear(&message(12, ASKS, &[0; 8])).len());
        };
        tap.wait_until_bound();
        let before = tap.open_fds();
        for _ in 0..40 {
            play(&tap.ends());
        }
        let together: Vec<(Peer, Peer)> = (0..20).map(|_| tap.ends()).collect();
        together.iter().for_each(play);
        drop(together);
        let started = Instant::now();
        while tap.open_fds() != before {
            assert!(started.elapsed() < LONG, "{} descriptors before, {} behind", before, tap.open_fds());
            thread::sleep(Duration::from_millis(5));
        }
        tap.signal(libc::SIGTERM);
        let mut shown = String::new();
        tap.child.stdout.take().unwrap().read_to_string(&mut shown).unwrap();
        assert!(shown.ends_with("\n= nothing is wrong\n"), "{shown}");
        assert!(shown.contains("\n= sessions 60, messages F>B 60 and B>F 0\n"), "{shown}");
        assert_eq!(Some(0), tap.child.wait().unwrap().code());
        remove_dir_all(&tap.folder).unwrap();
    });
}

/// Where nobody reads what it prints, the session goes on all the same.
#[test]
fn output_that_nobody_reads() {
    counted(|| {
        let mut tap = Tap::of(Some(1));
        let (frontend, backend) = tap.ends();
        let request = message(1, ASKS, &[]);
        for number in 0..10_000 {
            frontend.say(&request, &[]);
            backend.hear(&request);
            backend.say_number(1, number);
            frontend.hear(&message(1, REPLIES, &number.to_le_bytes()));
        }
        drop((frontend, backend));
        let mut said = String::new();
        tap.child.stdout.take().unwrap().read_to_string(&mut said).unwrap();
        assert!(said.lines().count() > 1000);
        tap.child.stderr.take().unwrap().read_to_string(&mut said).unwrap();
        assert!(said.ends_with("covretin-tap: not all could be shown and judged\n"));
        assert_eq!(Some(4), tap.child.wait().unwrap().code());
        remove_dir_all(&tap.folder).unwrap();
    });
}

#[test]
fn the_backend_channel_is_tapped() {
    counted(|| {
        let tap = Tap::of(Some(1));
        let (frontend, backend) = tap.ends();
        let (mine, given) = UnixStream::pair().unwrap();
        mine.set_read_timeout(Some(LONG)).unwrap();
        // (in one piece: a descriptor that was passed on before the rest came can't be replaced)
        send(&frontend.socket, &message(21, ASKS, &[]), &[given.as_raw_fd()]);
        drop(given);
        let channel = backend.hear(&message(21, ASKS, &[])).pop().unwrap();
        let channel = Peer { socket: UnixStream::from(std::os::unix::io::OwnedFd::from(channel)) };
        let mine = Peer { socket: mine };
        let file = memory_file();
        let body: Vec<u8> = [1u64, 0x2000, 0x3000].iter().flat_map(|it| it.to_le_bytes()).collect();
        channel.say(&message(3, WANTS, &body), &[&file]);
        assert_eq!(identity(&file), identity(&mine.hear(&message(3, WANTS, &body))[0]));
        mine.say(&message(3, REPLIES, &[0; 8]), &[]);
        channel.hear(&message(3, REPLIES, &[0; 8]));
        drop(channel);
        mine.silence();
        drop((frontend, backend, mine));
        let (shown, found) = tap.end();
        let request = " rev:B>F VRING_HOST_NOTIFIER_MSG [NEED_REPLY] ring=0x1 size=0x2000 offset=0x3000 fds=memfd:test\n";
        assert!(shown.contains(request), "{shown}");
        assert!(shown.contains(" rev:F>B VRING_HOST_NOTIFIER_MSG [REPLY] result=done\n"), "{shown}");
        assert_eq!(
            ["SET_BACKEND_REQ_FD is refused: BACKEND_REQ was not accepted; nothing is replied, so the frontend cannot know"],
            found.as_slice()
        );
    });
}

/// The frontend's socket of the channel need not block, and is the tap's then: more than it holds is passed on, too.
#[test]
fn a_backend_channel_that_does_not_block() {
    const COUNT: usize = 200;
    counted(|| {
        let tap = Tap::of(Some(1));
        let (frontend, backend) = tap.ends();
        let (mine, given) = UnixStream::pair().unwrap();
        mine.set_read_timeout(Some(LONG)).unwrap();
        given.set_nonblocking(true).unwrap();
        send(&frontend.socket, &message(21, ASKS, &[]), &[given.as_raw_fd()]);
        drop(given);
        let channel = backend.hear(&message(21, ASKS, &[])).pop().unwrap();
        let channel = UnixStream::from(std::os::unix::io::OwnedFd::from(channel));
        let request = message(6, ASKS, &[0; 4096]);
        let asked = request.clone();
        let asking = thread::spawn(move || (0..COUNT).for_each(|_| (&channel).write_all(&asked).unwrap()));
        // (by then all of the sockets are full)
        thread::sleep(Duration::from_millis(100));
        let mine = Peer { socket: mine };
        (0..COUNT).for_each(|_| drop(mine.hear(&request)));
        asking.join().unwrap();
        mine.silence();
        drop((frontend, backend, mine));
        let (shown, found) = tap.end();
        assert_eq!(COUNT, shown.lines().filter(|line| line.contains(" rev:B>F SHARED_OBJECT_ADD")).count());
        assert_eq!(1, found.len(), "{found:?}");
    });
}

#[test]
fn its_socket() {
    counted(|| {
        let tap = Tap::of(Some(2));
        drop(tap.ends());
        let second = |words: [&str; 3]| {
            let mut second = Command::new(env!("CARGO_BIN_EXE_covretin-tap"));
            second.current_dir(&tap.folder).args(["--count=1", "--record"]).args(words).output().unwrap()
        };
        // (with the recording of the first, which is whole all the same)
        let refused = second(["record", "frontend", "backend"]);
        assert_eq!(Some(4), refused.status.code());
        assert!(String::from_utf8_lossy(&refused.stderr).contains("frontend: Address already in use"));
        let refused = second(["no folder/record", "other", "backend"]);
        assert_eq!(Some(4), refused.status.code());
        assert!(String::from_utf8_lossy(&refused.stderr).contains("no folder/record: No such file or directory"));
        assert!(!tap.folder.join("other").exists());
        // (that looked at the socket was a session, without a message)
        tap.accept();
        tap.end();
    });
}

/// Both ends of a session whose backend does not reply to GET_PROTOCOL_FEATURES.
fn hanging(tap: &Tap) -> (Peer, Peer) {
    let (frontend, backend) = tap.ends();
    frontend.say(&message(1, ASKS, &[]), &[]);
    backend.hear(&message(1, ASKS, &[]));
    backend.say_number(1, PROTOCOL);
    frontend.hear(&message(1, REPLIES, &PROTOCOL.to_le_bytes()));
    frontend.say(&message(15, ASKS, &[]), &[]);
    backend.hear(&message(15, ASKS, &[]));
    (frontend, backend)
}

/// What is found where that session is ended so.
const UNREPLIED: &str = "! GET_PROTOCOL_FEATURES was never replied to: the session ended ";

fn unanswered(by: &str) -> String {
    format!("~ GET_PROTOCOL_FEATURES is unanswered, as the session was ended by {by} ")
}

/// The lines that say what is found.
fn marked(shown: &str) -> Vec<&str> {
    shown.lines().filter(|line| line.starts_with(['!', '~'])).collect()
}

/// Whoever ends the tap is told what is still awaited, and both sides are told that it has ended.
#[test]
fn a_signal_while_a_reply_is_awaited() {
    counted(|| {
        for signal in [libc::SIGINT, libc::SIGTERM] {
            let tap = Tap::of(None);
            let (frontend, backend) = hanging(&tap);
            tap.signal(signal);
            frontend.silence();
            backend.silence();
            let (shown, found) = tap.end();
            assert_eq!(Vec::<String>::new(), found);
            let found = marked(&shown);
            assert!(found.len() == 1 && found[0].starts_with(&unanswered("the tap")), "{found:?}");
            for way in ["F>B", "B>F"] {
                assert!(shown.contains(&format!(" {way} end: the tap was stopped\n")), "{shown}");
            }
        }
    });
}

/// A session in which nothing is awaited is right, whenever the tap ends.
#[test]
fn a_signal_between_two_requests() {
    counted(|| {
        let tap = Tap::of(None);
        let (frontend, backend) = hanging(&tap);
        backend.say_number(15, 0);
        frontend.hear(&message(15, REPLIES, &[0; 8]));
        tap.signal(libc::SIGINT);
        assert_eq!(Vec::<String>::new(), tap.end().1);
    });
}

/// What came of a message by then is told, too: of a request behind the one that is awaited, and of the reply itself.
#[test]
fn a_signal_amid_a_message() {
    counted(|| {
        let tap = Tap::of(None);
        let (frontend, backend) = hanging(&tap);
        frontend.say(&message(1, ASKS, &[])[..4], &[]);
        backend.hear(&message(1, ASKS, &[])[..4]);
        tap.signal(libc::SIGINT);
        let (shown, wrong) = tap.end();
        let mut found = marked(&shown);
        found.sort_unstable();
        assert!(wrong.is_empty() && found.len() == 2 && found[0].starts_with(&unanswered("the tap")), "{found:?}");
        assert_eq!("~ the stream ended behind 4 bytes of a header, as the session was ended by the tap", found[1]);
        let tap = Tap::of(None);
        let (frontend, backend) = hanging(&tap);
        backend.say(&message(15, REPLIES, &[0; 8])[..15], &[]);
        frontend.hear(&message(15, REPLIES, &[0; 8])[..15]);
        tap.signal(libc::SIGINT);
        let (shown, wrong) = tap.end();
        let mut found = marked(&shown);
        found.sort_unstable();
        assert!(wrong.is_empty() && found.len() == 2 && found[0].starts_with(&unanswered("the tap")), "{found:?}");
        assert_eq!("~ the stream ended behind 3 bytes of a body of 8, as the session was ended by the tap", found[1]);
    });
}

/// A side that left with a reply awaited, and the other one that did not.
#[test]
fn a_side_that_leaves_while_a_reply_is_awaited() {
    counted(|| {
        for backend_leaves in [false, true] {
            let tap = Tap::of(None);
            let (frontend, backend) = hanging(&tap);
            let (left, other) = if backend_leaves { (backend, frontend) } else { (frontend, backend) };
            drop(left);
            other.silence();
            tap.signal(libc::SIGINT);
            let shown = tap.end().0;
            let (found, frontend) = (marked(&shown), unanswered("the frontend"));
            let wanted = if backend_leaves { UNREPLIED } else { &frontend };
            assert!(found.len() == 1 && found[0].starts_with(wanted), "{found:?}");
        }
    });
}

/// A frontend that asks and hangs up at once, as many do: nobody is blamed, whichever end the system tells of first.
#[test]
fn a_frontend_that_asks_and_hangs_up() {
    counted(|| {
        let tap = Tap::of(Some(60));
        for _ in 0..60 {
            let (frontend, backend) = tap.ends();
            frontend.say(&message(1, ASKS, &[]), &[]);
            drop(frontend);
            backend.hear(&message(1, ASKS, &[]));
            backend.silence();
        }
        assert_eq!(Vec::<String>::new(), tap.end().1);
    });
}

/// A busy session that a signal ends at any time is right. It asks no more often than the tap can remember, so that nothing is lost
/// where the tap has no processor.
#[test]
fn a_signal_at_any_time() {
    counted(|| {
        for round in 0..20 {
            let tap = Tap::of(None);
            let (frontend, backend) = tap.ends();
            let answers = thread::spawn(move || {
                let mut header = [0; 12];
                while (&backend.socket).read_exact(&mut header).is_ok() {
                    let _ = (&backend.socket).write_all(&message(1, REPLIES, &[0; 8]));
                }
            });
            let asks = thread::spawn(move || {
                let mut reply = [0; 20];
                let mut asks = || {
                    let asked = (&frontend.socket).write_all(&message(1, ASKS, &[]));
                    asked.is_ok() && (&frontend.socket).read_exact(&mut reply).is_ok()
                };
                if (0..7000).all(|_| asks()) {
                    let _ = (&frontend.socket).read(&mut [0]);
                }
            });
            thread::sleep(Duration::from_micros(20_000 + round * 377));
            tap.signal(libc::SIGINT);
            assert_eq!(Vec::<String>::new(), tap.end().1);
            [answers, asks].into_iter().for_each(|thread| thread.join().unwrap());
        }
    });
}

/// While a reply is awaited, it is told after five seconds, whatever else happens or not.
#[test]
fn a_reply_that_is_awaited_is_told_of() {
    counted(|| {
        let mut tap = Tap::of(Some(1));
        let (frontend, backend) = tap.ends();
        let started = Instant::now();
        frontend.say(&message(1, ASKS, &[]), &[]);
        backend.hear(&message(1, ASKS, &[]));
        let mut lines = BufReader::new(tap.child.stdout.take().unwrap()).lines().map(|line| line.unwrap());
        let asked = lines.find(|line| line.ends_with(" 1 F>B GET_FEATURES")).unwrap();
        let told = lines.next().unwrap();
        assert!(told.ends_with(" 1 B>F waiting 5 s for the reply to GET_FEATURES"), "{told}");
        assert!(started.elapsed() >= Duration::from_secs(5));
        let time = |line: &str| line.trim_start().split(' ').next().unwrap().parse::<f64>().unwrap();
        assert!((time(&told) - time(&asked) - 5.0).abs() < 0.001, "{asked} {told}");
        backend.say_number(1, 7);
        frontend.hear(&message(1, REPLIES, &7u64.to_le_bytes()));
        drop((frontend, backend));
        let rest: Vec<String> = lines.collect();
        assert_eq!("= nothing is wrong", rest.last().unwrap());
        assert!(!rest.iter().any(|line| line.contains("waiting")), "{rest:?}");
        assert_eq!(Some(0), tap.child.wait().unwrap().code());
        remove_dir_all(&tap.folder).unwrap();
    });
}

/// Without a standard output the session goes on, and is recorded; that it was not shown is said at the end.
#[test]
fn a_session_without_an_output() {
    counted(|| {
        let folder = std::env::temp_dir().join(format!("covretin-tap-{}-closed", std::process::id()));
        create_dir(&folder).unwrap();
        let listener = UnixListener::bind(folder.join("backend")).unwrap();
        let words = ["-c", "exec \"$@\" >&-", "sh", env!("CARGO_BIN_EXE_covretin-tap"), "--count=1", "--record", "record"];
        let child = Command::new("sh")
            .args(words)
            .args(["frontend", "backend"])
            .current_dir(&folder)
            .stderr(Stdio::piped())
            .spawn()
            .unwrap();
        let tap = Tap { child, listener, folder };
        let (frontend, backend) = tap.ends();
        frontend.say(&message(3, ASKS, &[]), &[]);
        backend.hear(&message(3, ASKS, &[]));
        drop((frontend, backend));
        let Tap { child, folder, .. } = tap;
        let output = child.wait_with_output().unwrap();
        assert_eq!("covretin-tap: Bad file descriptor (os error 9)\n", String::from_utf8_lossy(&output.stderr));
        assert_eq!(Some(4), output.status.code());
        assert_eq!(4, std::fs::read_to_string(folder.join("record")).unwrap().lines().count());
        remove_dir_all(&folder).unwrap();
    });
}

/// How long a call takes that has a reply, and one that has none, with a tap and without: `--ignored --nocapture` prints it.
#[test]
#[ignore]
fn what_it_costs() {
    const CALLS: u32 = 20_000;
    fn measure(name: &str, frontend: UnixStream, backend: UnixStream) {
        let device = Shared::default();
        let mut handler = BackendReqHandler::from_stream(backend, device);
        let serving = thread::spawn(move || serve_all(&mut handler));
        let frontend = Frontend::from_stream(frontend, RINGS);
        let started = Instant::now();
        (0..CALLS).for_each(|_| assert_eq!(PROTOCOL, frontend.get_features().unwrap()));
        let replied = started.elapsed() / CALLS;
        let started = Instant::now();
        (0..CALLS).for_each(|_| frontend.set_vring_num(0, 256).unwrap());
        frontend.get_features().unwrap();
        println!("{name}: {replied:?} for each call with a reply, {:?} without", started.elapsed() / CALLS);
        drop(frontend);
        serving.join().unwrap();
    }
    counted(|| {
        let (mine, other) = UnixStream::pair().unwrap();
        measure("without a tap", mine, other);
        let mut tap = Tap::of(Some(1));
        let mut output = tap.child.stdout.take().unwrap();
        let reading = thread::spawn(move || std::io::copy(&mut output, &mut std::io::sink()).unwrap());
        let frontend = tap.connect();
        let backend = tap.accept();
        measure("with a tap", frontend, backend);
        println!("it ended: {}, and printed {} bytes", tap.child.wait().unwrap(), reading.join().unwrap());
        remove_dir_all(&tap.folder).unwrap();
    });
}
