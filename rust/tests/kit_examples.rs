// SPDX-License-Identifier: Apache-2.0
//! The examples over the kit for devices, each a process of its own, and a guest that asks it; and sockets that linger for the one without
//! the kit. Where they are compiled, ./test rust knows.
mod common;

use std::env;
use std::fs::{read, remove_file, write};
use std::io::Read;
use std::os::unix::fs::FileExt;
use std::os::unix::io::AsRawFd;
use std::path::PathBuf;
use std::process::{Child, Command, Stdio};

use common::lingering::*;
use common::machine::*;
use common::*;
use covretin::vhost_user::message::*;
use covretin::vhost_user::{Frontend, VhostUserFrontend};
use covretin::VhostBackend;

const FOLDER: &str = "COVRETIN_EXAMPLES";
const SECTORS: usize = 64;

/// An example that listens.
struct Example {
    process: Child,
    path: PathBuf,
    image: PathBuf,
}

impl Example {
    fn new(name: &str, words: &[&str]) -> Example {
        let path = |kind: &str| env::temp_dir().join(format!("covretin-{}-{name}.{kind}", std::process::id()));
        let (socket, image) = (path("sock"), path("img"));
        write(&image, (0..SECTORS * 512).map(|at| (at / 512) as u8).collect::<Vec<u8>>()).unwrap();
        let mut program = Command::new(PathBuf::from(env::var_os(FOLDER).expect(FOLDER)).join(name));
        program.arg(&socket).stdout(Stdio::piped()).stderr(Stdio::null());
        if name == "disk" {
            program.arg(&image);
        }
        program.args(words);
        let process = program.spawn().unwrap();
        wait_until("it listens", || socket.exists());
        Example { process, path: socket, image }
    }

    /// A machine that has begun, with so many queues.
    fn machine(&self, queues: u64) -> (Frontend, Vec<Ring>) {
        let mut frontend = Frontend::connect(&self.path, 8).unwrap();
        agree(&mut frontend, 0);
        let memory = guest_memory();
        frontend.set_mem_table(&[region_of(&memory, 0, MEMORY)]).unwrap();
        let mut rings: Vec<Ring> = (0..queues).map(|index| Ring::in_memory(&memory, index)).collect();
        rings.iter_mut().for_each(|ring| ring.start(&mut frontend, 0));
        (frontend, rings)
    }

    fn send(&self, signal: libc::c_int) {
        // SAFETY: it is a child that was not waited for.
        assert_eq!(0, unsafe { libc::kill(self.process.id() as libc::pid_t, signal) });
    }

    /// It is asked to end: what it printed. None: it ended by the signal.
    fn end(self) -> (Option<i32>, String) {
        self.send(libc::SIGTERM);
        self.ended()
    }

    /// It ends by itself.
    fn ended(mut self) -> (Option<i32>, String) {
        let mut said = String::new();
        self.process.stdout.take().unwrap().read_to_string(&mut said).unwrap();
        (self.process.wait().unwrap().code(), said)
    }
}

impl Drop for Example {
    fn drop(&mut self) {
        let _ = self.process.kill();
        let _ = self.process.wait();
        [&self.path, &self.image].iter().for_each(|path| drop(remove_file(path)));
    }
}

/// A request of a disk, in four descriptors from a head on: a header, data, or none, and a status. Where the data are.
fn ask(ring: &mut Ring, head: u16, kind: u32, sector: u64, data: (u32, u16)) -> u64 {
    let at = BUFFERS + ring.index * 0x8000 + u64::from(head) * 0x800;
    let header = [&kind.to_le_bytes()[..], &[0; 4], &sector.to_le_bytes()].concat();
    ring.memory.write_all_at(&header, at).unwrap();
    ring.memory.write_all_at(&[0xaa], at + 0x100).unwrap();
    ring.describe(head, (GUEST + at, 16, NEXT, head + if data.0 == 0 { 2 } else { 1 }));
    ring.describe(head + 1, (GUEST + at + 0x200, data.0, NEXT | data.1, head + 2));
    ring.describe(head + 2, (GUEST + at + 0x100, 1, WRITE, 0));
    ring.post(head);
    at + 0x200
}

/// The same, done: its status, and how many bytes were written.
fn done(ring: &mut Ring, kind: u32, sector: u64, data: (u32, u16)) -> (u8, u32) {
    let at = ask(ring, 0, kind, sector, data);
    let (_, written) = ring.used();
    let mut status = [0];
    ring.memory.read_exact_at(&mut status, at - 0x100).unwrap();
    (status[0], written)
}

#[test]
#[ignore = "needs COVRETIN_EXAMPLES"]
fn entropy() {
    counted(|| {
        let example = Example::new("entropy", &[]);
        for _ in 0..2 {
            let (frontend, mut rings) = example.machine(1);
            let ring = &mut rings[0];
            ring.describe(0, (GUEST + BUFFERS, 100, NEXT | WRITE, 1));
            ring.describe(1, (GUEST + BUFFERS + 200, 66_000, WRITE, 0));
            ring.post(0);
            assert_eq!((0, 65536), ring.used());
            let mut bytes = [0; 70_000];
            ring.memory.read_exact_at(&mut bytes, BUFFERS).unwrap();
            let (zeros, end) = (bytes.iter().filter(|it| **it == 0).count(), 200 + 65536 - 100);
            assert!(zeros < 6000, "{zeros}");
            assert!(bytes[100..200].iter().chain(&bytes[end..]).all(|it| *it == 0));
            drop(frontend);
        }
        let (status, said) = example.end();
        assert_eq!(Some(0), status);
        assert!(said.lines().all(|line| line == "a frontend went: peer disconnected"), "{said}");
    });
}

#[test]
#[ignore = "needs COVRETIN_EXAMPLES"]
fn disk() {
    counted(|| {
        let example = Example::new("disk", &["2"]);
        let (mut frontend, mut rings) = example.machine(2);
        let space = frontend.get_config(0, 8, VhostUserConfigFlags::empty(), &[0; 8]).unwrap().1;
        assert_eq!((SECTORS as u64).to_le_bytes(), *space);
        assert_eq!((0, 1025), done(&mut rings[0], 0, 5, (1024, WRITE)));
        let mut bytes = [0; 1024];
        rings[0].memory.read_exact_at(&mut bytes, BUFFERS + 0x200).unwrap();
        assert!(bytes[..512].iter().all(|it| *it == 5) && bytes[512..].iter().all(|it| *it == 6));
        // Several are under way, of two queues, and each is done once.
        for head in [0, 4, 8] {
            for ring in &mut rings {
                ring.memory
                    .write_all_at(&[0xc0 + head as u8; 512], BUFFERS + ring.index * 0x8000 + u64::from(head) * 0x800 + 0x200)
                    .unwrap();
                let sector = 10 + ring.index * 3 + u64::from(head) / 4;
                ask(ring, head, 1, sector, (512, 0));
            }
        }
        for ring in &mut rings {
            let mut used = [ring.used(), ring.used(), ring.used()];
            used.sort_unstable();
            assert_eq!([(0, 1), (4, 1), (8, 1)], used);
        }
        let ring = &mut rings[1];
        assert_eq!((0, 1), done(ring, 4, 0, (0, 0)));
        let image = read(&example.image).unwrap();
        assert!((0..6).all(|sector| image[(10 + sector) * 512..][..512].iter().all(|it| *it as usize == 0xc0 + sector % 3 * 4)));
        assert_eq!((0, 21), done(ring, 8, 0, (20, WRITE)));
        // A sector is discarded, and two are zeroed.
        for (kind, sector, count) in [(11, 20u64, 1u32), (13, 30, 2)] {
            let part = [&sector.to_le_bytes()[..], &count.to_le_bytes(), &[0; 4]].concat();
            ring.memory.write_all_at(&part, BUFFERS + 0x8000 + 0x200).unwrap();
            assert_eq!((0, 1), done(ring, kind, 0, (16, 0)));
        }
        let image = read(&example.image).unwrap();
        let zeros: Vec<usize> = (1..SECTORS).filter(|sector| image[sector * 512..][..512].iter().all(|it| *it == 0)).collect();
        assert_eq!(vec![20, 30, 31], zeros);
        // What the disk has not.
        for (kind, sector, data) in
            [(0, 64, (512, WRITE)), (1, 63, (1024, 0)), (0, u64::MAX, (512, WRITE)), (0, 0, (100, WRITE)), (0, 0, (512, 0))]
        {
            assert_eq!((1, 1), done(ring, kind, sector, data));
        }
        assert_eq!((2, 1), done(ring, 99, 0, (512, 0)));
        assert_eq!((0, 513), done(ring, 0, 0, (512, WRITE)));
        drop(frontend);
        assert_eq!(None, example.end().0);
    });
}

/// A packet of the guest's stream, from port 1000 to port 7.
fn packet(operation: u16, bytes: &[u8]) -> Vec<u8> {
    let cids = [3u64.to_le_bytes(), 2u64.to_le_bytes()].concat();
    let words = [1000, 7, bytes.len() as u32, 1 | u32::from(operation) << 16, 0, 0x1_0000, 0];
    [cids, words.iter().flat_map(|word| word.to_le_bytes()).collect(), bytes.to_vec()].concat()
}

fn send_packet(ring: &mut Ring, operation: u16, bytes: &[u8]) {
    let sent = packet(operation, bytes);
    ring.memory.write_all_at(&sent, ring.buffer(0)).unwrap();
    ring.describe(0, (GUEST + ring.buffer(0), sent.len() as u32, 0, 0));
    ring.post(0);
    assert_eq!((0, 0), ring.used());
}

/// The next packet that came: its ports, what it is, and its bytes.
fn received(ring: &mut Ring) -> ((u32, u32), u16, Vec<u8>) {
    let (head, count) = ring.used();
    let mut bytes = vec![0; count as usize];
    ring.memory.read_exact_at(&mut bytes, ring.buffer(head as u16)).unwrap();
    let word = |at: usize| u32::from_le_bytes(bytes[at..at + 4].try_into().unwrap());
    assert_eq!((count - 44, 1), (word(24), word(28) & 0xffff));
    ((word(16), word(20)), (word(28) >> 16) as u16, bytes[44..].to_vec())
}

fn offer(ring: &mut Ring, heads: std::ops::Range<u16>) {
    for head in heads {
        ring.describe(head, (GUEST + ring.buffer(head), 0x100, WRITE, 0));
        ring.post(head);
    }
}

/// A guest that has a stream and reboots has it again: its buffers are not kept, so that nobody waits where it stops.
#[test]
#[ignore = "needs COVRETIN_EXAMPLES"]
fn vsock() {
    counted(|| {
        let example = Example::new("vsock", &[]);
        for _ in 0..2 {
            let (mut frontend, mut rings) = example.machine(2);
            let cid = frontend.get_config(0, 8, VhostUserConfigFlags::empty(), &[0; 8]).unwrap().1;
            assert_eq!(3u64.to_le_bytes(), *cid);
            for _ in 0..2 {
                offer(&mut rings[0], 0..4);
                send_packet(&mut rings[1], 1, b"");
                assert_eq!(((7, 1000), 2, vec![]), received(&mut rings[0]));
                send_packet(&mut rings[1], 5, b"echo");
                assert_eq!(((7, 1000), 5, b"echo".to_vec()), received(&mut rings[0]));
                // More than the buffers that are there have room for comes once there are others.
                send_packet(&mut rings[1], 5, &[7; 0x100 * 4]);
                assert_eq!([212, 212], [received(&mut rings[0]).2.len(), received(&mut rings[0]).2.len()]);
                offer(&mut rings[0], 0..7);
                assert_eq!(vec![7; 212], received(&mut rings[0]).2);
                let rest: usize = (0..2).map(|_| received(&mut rings[0]).2.len()).sum();
                assert_eq!(0x400 - 3 * 212, rest);
                // (with buffers that are not used, and bytes that are not read)
                assert_eq!([7, 3], [0, 1].map(|index| frontend.get_vring_base(index).unwrap()));
                rings.iter_mut().for_each(|ring| {
                    ring.memory.write_all_at(&[0; 2 * 4096], ring.place(1, 0)).unwrap();
                    ring.start(&mut frontend, 0);
                });
            }
            drop(frontend);
        }
        let (status, said) = example.end();
        assert_eq!(Some(0), status);
        assert!(said.lines().all(|line| line == "a frontend went: peer disconnected"), "{said}");
    });
}

/// What it is given is closed without waiting, where it keeps that and where it does not.
#[test]
#[ignore = "needs COVRETIN_EXAMPLES"]
fn serve() {
    counted(|| {
        let example = Example::new("serve", &["1"]);
        let mut frontend = Frontend::connect(&example.path, 8).unwrap();
        frontend.set_owner().unwrap();
        let features = frontend.get_features().unwrap();
        frontend.set_features(features).unwrap();
        let wanted = VhostUserProtocolFeatures::INFLIGHT_SHMFD | VhostUserProtocolFeatures::CONFIGURE_MEM_SLOTS;
        frontend.set_protocol_features(wanted).unwrap();
        let Lingering { files, others } = Lingering::new(8);
        // The example has the last descriptors.
        example.send(libc::SIGSTOP);
        let region = |at: u64| region_of(&files[at as usize], at * 0x1000, 0x1000);
        frontend.set_mem_table(&[region(0), region(1)]).unwrap();
        frontend.add_mem_region(&region(2)).unwrap();
        frontend.set_inflight_fd(&VhostUserInflight::new(0x1000, 0, 1, 8), files[3].as_raw_fd()).unwrap();
        for at in [4, 5] {
            frontend.set_vring_kick(0, &files[at]).unwrap();
        }
        frontend.set_vring_call(1, &files[6]).unwrap();
        frontend.set_vring_err(5, &files[7]).unwrap();
        assert!(files.iter().all(lingers));
        drop((files, frontend));
        let (status, said) = at_once(|| {
            example.send(libc::SIGCONT);
            example.ended()
        });
        assert_eq!((Some(0), "session 1: 11 requests, end Disconnected\n"), (status, &*said));
        drop(others);
    });
}
