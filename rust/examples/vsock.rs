// SPDX-License-Identifier: Apache-2.0
//! A socket device for virtual machines, whose host's side echoes: `cargo run --example vsock -- /tmp/vsock.sock`
//!
//! Each stream of a guest to the host, CID 2, at any port gets back what it sends. A packet for the guest is written to a buffer of its receive
//! queue, which is taken once there is one to be sent: the device keeps none, so that a guest can reboot at any time. It serves one machine
//! after another until SIGTERM or SIGINT; of QEMU it is `-device vhost-user-vsock-pci`, beside what `docs/guide/c.md` says.
use std::collections::{BTreeMap, VecDeque};
use std::env::args_os;
use std::io::{Read, Write};
use std::process::ExitCode;
use std::sync::{Mutex, MutexGuard, PoisonError};

use covretin::device::{run, Device, Ended, Request, Taker};
use covretin::vhost_user::message::VhostUserProtocolFeatures;

const GUEST: u64 = 3;
const HOST: u64 = 2;
const RECEIVE: usize = 0;
const TRANSMIT: usize = 1;

/// What a guest may have under way: bytes of a stream, streams, and replies.
const WINDOW: usize = 65536;
const MOST_STREAMS: usize = 64;
const MOST_REPLIES: usize = 256;
/// How many buffers of a guest may be too small, until its device waits for others.
const MOST_SMALL: usize = 1024;

const HEADER: usize = 44;
/// What a packet is (virtio 1.2, 5.10.6).
const REQUEST: u16 = 1;
const RESPONSE: u16 = 2;
const RESET: u16 = 3;
const SHUTDOWN: u16 = 4;
const DATA: u16 = 5;
const CREDIT_UPDATE: u16 = 6;
const CREDIT_REQUEST: u16 = 7;
const STREAM: u16 = 1;

/// The ports of the guest and of the host.
type Ports = (u32, u32);

/// A packet of the guest.
struct Packet {
    from: u64,
    to: u64,
    ports: Ports,
    len: usize,
    kind: u16,
    operation: u16,
    /// How many bytes the guest has room for, and how many it has read.
    room: u32,
    read: u32,
}

impl Packet {
    fn of(bytes: &[u8; HEADER]) -> Packet {
        let two = |at| u16::from_le_bytes([bytes[at], bytes[at + 1]]);
        let four = |at| u32::from(two(at)) | u32::from(two(at + 2)) << 16;
        let eight = |at| u64::from(four(at)) | u64::from(four(at + 4)) << 32;
        Packet {
            from: eight(0),
            to: eight(8),
            ports: (four(16), four(20)),
            len: four(24) as usize,
            kind: two(28),
            operation: two(30),
            room: four(36),
            read: four(40),
        }
    }
}

/// A stream: what it sent and is not echoed yet; and how many bytes came, and went, modulo 2^32.
#[derive(Default)]
struct Stream {
    bytes: VecDeque<u8>,
    sent: u32,
    room: u32,
    read: u32,
}

impl Stream {
    /// How many bytes of it the guest takes now.
    fn ready(&self) -> usize {
        let under_way = self.sent.wrapping_sub(self.read);
        self.bytes.len().min(self.room.saturating_sub(under_way) as usize)
    }
}

#[derive(Default)]
struct Streams {
    all: BTreeMap<Ports, Stream>,
    replies: VecDeque<(Ports, u16)>,
}

impl Streams {
    /// (a guest that asks for more replies than it takes does without)
    fn reply(&mut self, ports: Ports, operation: u16) {
        if self.replies.len() < MOST_REPLIES {
            self.replies.push_back((ports, operation));
        }
    }

    fn reset(&mut self, ports: Ports) {
        self.all.remove(&ports);
        self.reply(ports, RESET);
    }

    /// A packet of the guest, with its bytes.
    fn take(&mut self, packet: &Packet, bytes: &[u8]) {
        let ports = packet.ports;
        if packet.operation == REQUEST && self.all.len() < MOST_STREAMS {
            self.all.insert(ports, Stream::default());
            self.reply(ports, RESPONSE);
        }
        let stream = match self.all.get_mut(&ports) {
            Some(stream) => stream,
            None if packet.operation == RESET => return,
            None => return self.reset(ports),
        };
        (stream.room, stream.read) = (packet.room, packet.read);
        match packet.operation {
            DATA if bytes.len() <= WINDOW - stream.bytes.len() => stream.bytes.extend(bytes),
            CREDIT_REQUEST => self.reply(ports, CREDIT_UPDATE),
            RESET => drop(self.all.remove(&ports)),
            DATA | SHUTDOWN => self.reset(ports),
            _ => {}
        }
    }

    /// The ports of a stream that has bytes which the guest takes.
    fn ready(&self) -> Option<Ports> {
        self.all.iter().find(|(_, stream)| stream.ready() != 0).map(|(ports, _)| *ports)
    }

    /// Sends what is to be sent, as long as the guest has buffers for it.
    fn send(&mut self, taker: &Taker) {
        let mut small = 0;
        while small < MOST_SMALL && (!self.replies.is_empty() || self.ready().is_some()) {
            let buffer = match taker.take(RECEIVE) {
                Some(buffer) => buffer,
                None => return, // `available` goes on
            };
            match buffer.writable_len() as usize {
                room if room > HEADER => self.fill(buffer, room - HEADER),
                _ => small += 1, // (dropped: it is done, with nothing written)
            }
        }
    }

    /// Sends the next packet, of so many bytes at most: there is one.
    fn fill(&mut self, mut buffer: Request, room: usize) {
        let (ports, operation, bytes) = match (self.replies.pop_front(), self.ready()) {
            (Some((ports, operation)), _) => (ports, operation, Vec::new()),
            (None, Some(ports)) => (ports, DATA, self.next_bytes(ports, room)),
            (None, None) => return,
        };
        let header = self.header(ports, operation, bytes.len());
        let written = buffer.write_all(&header).and_then(|()| buffer.write_all(&bytes));
        buffer.complete(written.map_or(0, |()| (HEADER + bytes.len()) as u32));
    }

    fn next_bytes(&mut self, ports: Ports, room: usize) -> Vec<u8> {
        let stream = self.all.entry(ports).or_default();
        let count = stream.ready().min(room);
        stream.sent = stream.sent.wrapping_add(count as u32);
        stream.bytes.drain(..count).collect()
    }

    fn header(&self, (guest, host): Ports, operation: u16, len: usize) -> Vec<u8> {
        let done = self.all.get(&(guest, host)).map_or(0, |stream| stream.sent);
        let mut header = [HOST.to_le_bytes(), GUEST.to_le_bytes()].concat();
        for word in [host, guest, len as u32, u32::from(STREAM) | u32::from(operation) << 16, 0, WINDOW as u32, done] {
            header.extend(word.to_le_bytes());
        }
        header
    }
}

struct Echo(Mutex<Streams>);

impl Echo {
    fn streams(&self) -> MutexGuard<'_, Streams> {
        self.0.lock().unwrap_or_else(PoisonError::into_inner)
    }
}

/// The packet of a request, with its bytes. None: it is none of this guest's streams to the host, or memory was lost.
fn packet_of(request: &mut Request) -> Option<(Packet, Vec<u8>)> {
    let mut header = [0; HEADER];
    request.read_exact(&mut header).ok()?;
    let packet = Packet::of(&header);
    let mut bytes = vec![0; packet.len.min(WINDOW)];
    request.read_exact(&mut bytes).ok()?;
    let is_its = packet.from == GUEST && packet.to == HOST && packet.kind == STREAM && packet.len <= WINDOW;
    (is_its && !request.is_lost()).then_some((packet, bytes))
}

impl Device for Echo {
    fn queues(&self) -> usize {
        2
    }

    fn taken_queues(&self) -> u64 {
        1 << RECEIVE
    }

    fn protocol_features(&self) -> VhostUserProtocolFeatures {
        VhostUserProtocolFeatures::CONFIG
    }

    fn read_config(&self, offset: u32, bytes: &mut [u8]) -> bool {
        let config = GUEST.to_le_bytes();
        let part = config.get(offset as usize..).and_then(|rest| rest.get(..bytes.len()));
        part.iter().for_each(|part| bytes.copy_from_slice(part));
        part.is_some()
    }

    fn request(&self, mut request: Request) {
        let taker = request.taker();
        let packet = packet_of(&mut request);
        request.complete(0);
        let mut streams = self.streams();
        packet.iter().for_each(|(packet, bytes)| streams.take(packet, bytes));
        streams.send(&taker);
    }

    fn available(&self, _queue: usize, taker: &Taker) {
        self.streams().send(taker);
    }

    /// A guest that starts again knows of no stream.
    fn stopping(&self, queue: usize) {
        if queue == TRANSMIT {
            *self.streams() = Streams::default();
        }
    }

    fn ended(&self, why: &Ended) {
        println!("a frontend went: {why}");
    }
}

fn main() -> ExitCode {
    let path = match args_os().nth(1) {
        Some(path) => path,
        None => {
            eprintln!("usage: vsock PATH");
            return ExitCode::from(1);
        }
    };
    match run(&path, Echo(Mutex::default())) {
        Ok(()) => ExitCode::SUCCESS,
        Err(error) => {
            eprintln!("{}: {error}", path.to_string_lossy());
            ExitCode::from(2)
        }
    }
}
