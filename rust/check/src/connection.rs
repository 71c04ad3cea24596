// SPDX-License-Identifier: Apache-2.0
//! A connection to a backend, over which right and wrong requests are sent.
use std::fmt;
use std::fs::File;
use std::io;
use std::os::unix::io::{AsRawFd, OwnedFd, RawFd};
use std::os::unix::net::UnixStream;
use std::rc::Rc;
use std::time::Duration;

use crate::patience::{settle, Patience};
use crate::system::{is_readable, is_writable, memory_file, peer_of, receive, send, Mapping};
use crate::trace::{Bytes, Piece, Trace, Way};
use crate::wire::*;

/// The greatest body of a reply that is read.
const MOST_BYTES: u32 = 1 << 16;
/// How long is waited in one go, in milliseconds.
const STEP: i32 = 20;
/// How a stream ends that does not fail.
const END: &str = "the end of its stream";

/// Features that a case accepts only where it is about them: some change what other requests mean, and with others a backend may await
/// requests that most cases do not make.
const UNUSUAL: Feature = Feature::XEN_MMAP
    .union(Feature::INBAND_NOTIFICATIONS)
    .union(Feature::GPA_ADDRESSES)
    .union(Feature::INFLIGHT_SHMFD)
    .union(Feature::GET_VRING_BASE_INFLIGHT);

/// Why a case ended before its last step.
#[derive(Debug)]
pub enum Stop {
    /// The peer has closed the connection.
    HungUp(String),
    /// The peer does nothing, and has spent the limit.
    Silent(String),
    /// What came is no reply.
    Odd(String),
    /// The case has nothing to try here.
    Skip(String),
    /// The checker itself could not go on.
    Trouble(String),
}

impl From<io::Error> for Stop {
    fn from(cause: io::Error) -> Self {
        Stop::Trouble(cause.to_string())
    }
}

impl fmt::Display for Stop {
    fn fmt(&self, f: &mut fmt::Formatter<'_>) -> fmt::Result {
        match self {
            Stop::HungUp(why) => write!(f, "hung up ({why})"),
            Stop::Silent(why) => write!(f, "silent: {why}"),
            Stop::Odd(why) => write!(f, "odd: {why}"),
            Stop::Skip(why) => f.write_str(why),
            Stop::Trouble(why) => write!(f, "the checker: {why}"),
        }
    }
}

/// A reply.
#[derive(Debug)]
pub struct Reply {
    pub code: u32,
    pub flags: u32,
    pub body: Vec<u8>,
    pub descriptors: Vec<OwnedFd>,
}

impl Reply {
    /// Its number, where it has eight bytes or more.
    pub fn number(&self) -> Option<u64> {
        (self.body.len() >= 8).then(|| u64_at(&self.body, 0))
    }

    /// Whether it is an acknowledgement that a request was carried out.
    pub fn is_zero(&self) -> bool {
        self.number() == Some(0)
    }
}

impl fmt::Display for Reply {
    fn fmt(&self, f: &mut fmt::Formatter<'_>) -> fmt::Result {
        write!(f, "{}[flags {}, {} bytes", name_of(self.code), self.flags, self.body.len())?;
        if let Some(number) = self.number() {
            write!(f, ", {number:#x}")?;
        }
        match self.descriptors.len() {
            0 => f.write_str("]"),
            count => write!(f, ", {count} descriptors]"),
        }
    }
}

/// The texts of some replies.
pub fn listed(replies: &[Reply]) -> String {
    match replies {
        [] => "no reply".to_string(),
        _ => replies.iter().map(Reply::to_string).collect::<Vec<_>>().join(", "),
    }
}

/// The guest's memory.
pub struct Memory {
    pub file: File,
    pub map: Mapping,
}

impl Memory {
    pub fn new() -> io::Result<Rc<Self>> {
        let file = memory_file(SIZE)?;
        let map = Mapping::of(&file, 0, SIZE as usize)?;
        Ok(Rc::new(Memory { file, map }))
    }
}

/// What a negotiation leaves out, or has in another way.
#[derive(Clone, Copy)]
pub struct Terms {
    /// Protocol features that are not accepted.
    pub without: Feature,
    /// Those that are accepted here, and by few other cases.
    pub with: Feature,
    /// In place of the virtio features that are offered.
    pub features: Option<u64>,
    /// Whether SET_OWNER is left out.
    pub no_owner: bool,
}

impl Default for Terms {
    fn default() -> Self {
        Terms { without: Feature::empty(), with: Feature::empty(), features: None, no_owner: false }
    }
}

/// What has come of a message.
#[derive(Default)]
struct Came {
    pieces: Vec<Piece>,
    descriptors: Vec<OwnedFd>,
}

pub struct Connection {
    pub socket: UnixStream,
    pub process: Option<i32>,
    pub limit: Duration,
    trace: Trace,
    session: u64,
    /// The virtio features that were offered, and those that were accepted.
    pub offered: u64,
    pub accepted: u64,
    /// The protocol features that were offered, and those that were accepted.
    pub protocol_offered: u64,
    pub protocol: u64,
    pub memory: Option<Rc<Memory>>,
    /// The address of the guest's memory from which those of rings count.
    pub rings_from: u64,
}

impl Connection {
    pub fn new(socket: UnixStream, limit: Duration, trace: Trace) -> Self {
        let (process, session) = (peer_of(&socket), trace.connect());
        let (offered, accepted, protocol_offered, protocol) = (0, 0, 0, 0);
        Connection {
            socket,
            process,
            limit,
            trace,
            session,
            offered,
            accepted,
            protocol_offered,
            protocol,
            memory: None,
            rings_from: USER,
        }
    }

    /// Sends bytes as they are.
    pub fn raw(&mut self, bytes: &[u8], descriptors: &[RawFd]) -> Result<(), Stop> {
        self.send_all(bytes, descriptors, true)
    }

    /// The same without a line in a report.
    pub fn raw_unseen(&mut self, bytes: &[u8], descriptors: &[RawFd]) -> Result<(), Stop> {
        self.send_all(bytes, descriptors, false)
    }

    fn send_all(&mut self, bytes: &[u8], descriptors: &[RawFd], is_shown: bool) -> Result<(), Stop> {
        let mut pieces = Vec::new();
        let sent = self.put(bytes, descriptors, &mut pieces);
        self.trace.note(self.session, Bytes { way: Way::ToBackend, is_sent: true, is_shown, pieces });
        if let Err(Stop::HungUp(why)) = &sent {
            self.trace.end(self.session, Way::ToBackend, Some(why.clone()));
        }
        sent
    }

    fn put(&self, bytes: &[u8], descriptors: &[RawFd], pieces: &mut Vec<Piece>) -> Result<(), Stop> {
        let mut patience = Patience::new(self.process, self.limit);
        let (mut rest, mut with) = (bytes, descriptors);
        while !rest.is_empty() {
            match send(&self.socket, rest, with) {
                Ok(count) => {
                    pieces.push(Piece::sent(&rest[..count], with));
                    (rest, with) = (&rest[count..], &[]);
                }
                Err(cause) if cause.kind() == io::ErrorKind::WouldBlock => self.wait_to_send(&mut patience)?,
                Err(cause) if cause.kind() == io::ErrorKind::Interrupted => {}
                Err(cause) => return Err(Stop::HungUp(cause.to_string())),
            }
        }
        Ok(())
    }

    fn wait_to_send(&self, patience: &mut Patience) -> Result<(), Stop> {
        match is_writable(&self.socket, STEP) || patience.spend(Duration::from_millis(STEP as u64)) {
            true => Ok(()),
            false => Err(Stop::Silent("it does not read".to_string())),
        }
    }

    /// Sends a request.
    pub fn send(&mut self, request: Request, body: &[u8], descriptors: &[RawFd]) -> Result<(), Stop> {
        self.send_as(request.into(), 0, body, descriptors)
    }

    /// Sends a request of any number, with flags beside the version.
    pub fn send_as(&mut self, code: u32, flags: u32, body: &[u8], descriptors: &[RawFd]) -> Result<(), Stop> {
        let head = header(code, VERSION | flags, body.len() as u32);
        self.raw(&joined(&[&head, body]), descriptors)
    }

    fn take(&self, count: usize, came: &mut Came, limit: Duration) -> Result<Vec<u8>, Stop> {
        let mut patience = Patience::new(self.process, limit);
        let mut bytes = vec![0; count];
        let mut at = 0;
        while at < count {
            let before = came.descriptors.len();
            match receive(&self.socket, &mut bytes[at..], &mut came.descriptors) {
                Ok(0) => return Err(Stop::HungUp(END.to_string())),
                Ok(more) => {
                    came.pieces.push(Piece::received(&bytes[at..at + more], &came.descriptors[before..]));
                    at += more;
                }
                Err(cause) if cause.kind() == io::ErrorKind::WouldBlock => {
                    let came = is_readable(&self.socket, STEP) || patience.spend(Duration::from_millis(STEP as u64));
                    if !came {
                        return Err(Stop::Silent("no reply".to_string()));
                    }
                }
                Err(cause) if cause.kind() == io::ErrorKind::Interrupted => {}
                Err(cause) => return Err(Stop::HungUp(cause.to_string())),
            }
        }
        Ok(bytes)
    }

    /// The next message, which is a reply.
    pub fn reply(&mut self) -> Result<Reply, Stop> {
        self.receive_reply(self.limit, true)
    }

    /// The same without a line in a report, and with a limit of its own.
    pub fn reply_unseen(&mut self, limit: Duration) -> Result<Reply, Stop> {
        self.receive_reply(limit, false)
    }

    fn receive_reply(&mut self, limit: Duration, is_shown: bool) -> Result<Reply, Stop> {
        let mut came = Came::default();
        let read = self.read_reply(&mut came, limit);
        let Came { pieces, descriptors } = came;
        self.trace.note(self.session, Bytes { way: Way::ToFrontend, is_sent: false, is_shown, pieces });
        if let Err(Stop::HungUp(why)) = &read {
            self.trace.end(self.session, Way::ToFrontend, Some(why.clone()).filter(|it| it != END));
        }
        read.map(|reply| Reply { descriptors, ..reply })
    }

    fn read_reply(&self, came: &mut Came, limit: Duration) -> Result<Reply, Stop> {
        let head = self.take(12, came, limit)?;
        let [code, flags, size] = [0, 4, 8].map(|at| u32_at(&head, at));
        if size > MOST_BYTES || flags & 3 != VERSION || flags >> 4 != 0 {
            return Err(Stop::Odd(format!("no header of a reply: {}", hex_of(&head))));
        }
        let body = self.take(size as usize, came, limit)?;
        Ok(Reply { code, flags, body, descriptors: Vec::new() })
    }

    /// Sends a request that is always replied to: all that came before its reply.
    pub fn fence_by(&mut self, request: Request) -> Result<Vec<Reply>, Stop> {
        self.send(request, &[], &[])?;
        let mut before = Vec::new();
        loop {
            let reply = self.reply()?;
            if reply.code == u32::from(request) {
                return Ok(before);
            }
            before.push(reply);
        }
    }

    pub fn fence(&mut self) -> Result<Vec<Reply>, Stop> {
        self.fence_by(Request::GET_FEATURES)
    }

    /// Waits until all requests before were carried out, and what they began was done.
    pub fn settle(&mut self) -> Result<(), Stop> {
        self.fence()?;
        settle(self.process);
        Ok(())
    }

    /// Sends a request, with flags: all that is replied to it.
    pub fn ask_as(&mut self, code: u32, flags: u32, body: &[u8], descriptors: &[RawFd]) -> Result<Vec<Reply>, Stop> {
        self.send_as(code, flags, body, descriptors)?;
        self.fence()
    }

    pub fn ask(&mut self, request: Request, body: &[u8], descriptors: &[RawFd]) -> Result<Vec<Reply>, Stop> {
        self.ask_as(request.into(), 0, body, descriptors)
    }

    /// Sends a request that wants an acknowledgement: all that is replied to it.
    pub fn need(&mut self, request: Request, body: &[u8], descriptors: &[RawFd]) -> Result<Vec<Reply>, Stop> {
        self.ask_as(request.into(), NEED_REPLY, body, descriptors)
    }

    /// Sends a request: its reply, which comes next.
    pub fn call(&mut self, request: Request, body: &[u8], descriptors: &[RawFd]) -> Result<Reply, Stop> {
        self.send(request, body, descriptors)?;
        self.reply()
    }

    /// The number that a request without a body is replied to by.
    pub fn number(&mut self, request: Request) -> Result<u64, Stop> {
        let reply = self.call(request, &[], &[])?;
        match reply.number() {
            Some(number) if reply.code == u32::from(request) && reply.body.len() == 8 => Ok(number),
            _ => Err(Stop::Odd(format!("{request:?}: {reply}"))),
        }
    }

    /// Negotiates features.
    pub fn negotiate(&mut self, terms: Terms) -> Result<(), Stop> {
        self.offered = self.number(Request::GET_FEATURES)?;
        if !terms.no_owner {
            self.send(Request::SET_OWNER, &[], &[])?;
        }
        if self.offered & PROTOCOL_FEATURES != 0 {
            self.protocol_offered = self.number(Request::GET_PROTOCOL_FEATURES)?;
            let out = UNUSUAL.difference(terms.with) | terms.without;
            self.protocol = self.protocol_offered & !out.bits();
            self.send(Request::SET_PROTOCOL_FEATURES, &u64s(&[self.protocol]), &[])?;
        }
        let usual = self.offered & !(LOG_ALL | IOMMU | PACKED | EVENT_IDX);
        self.accepted = terms.features.map_or(usual, |it| it & self.offered);
        self.send(Request::SET_FEATURES, &u64s(&[self.accepted]), &[])
    }

    pub fn has(&self, feature: Feature) -> bool {
        self.protocol & feature.bits() == feature.bits()
    }

    /// Ends the case where a protocol feature is not offered.
    pub fn want(&self, features: Feature) -> Result<(), Stop> {
        match self.has(features) {
            true => Ok(()),
            false => Err(Stop::Skip(format!("{features:?} is not offered"))),
        }
    }

    /// Gives the backend new memory of the guest.
    pub fn give_memory(&mut self) -> Result<Rc<Memory>, Stop> {
        let memory = Memory::new()?;
        self.send(Request::SET_MEM_TABLE, &table(&[Region::ALL]), &[memory.file.as_raw_fd()])?;
        self.memory = Some(memory.clone());
        Ok(memory)
    }

    /// Whether the connection can still be used.
    pub fn is_usable(&mut self) -> Result<bool, Stop> {
        Ok(self.number(Request::GET_FEATURES)? == self.offered)
    }
}

impl Drop for Connection {
    fn drop(&mut self) {
        self.trace.end(self.session, Way::ToBackend, None);
    }
}
