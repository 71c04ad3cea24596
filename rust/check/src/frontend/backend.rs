// SPDX-License-Identifier: Apache-2.0
//! A backend that answers one request wrongly, and all others rightly.
use std::io;
use std::os::unix::io::{AsRawFd, OwnedFd, RawFd};
use std::os::unix::net::{UnixListener, UnixStream};
use std::path::Path;
use std::sync::atomic::{AtomicBool, Ordering};
use std::sync::Arc;
use std::thread::{sleep, spawn, JoinHandle};
use std::time::Duration;

use crate::system::{event, is_readable, memory_file, receive, send};
use crate::trace::{Bytes, Piece, Trace, Way, Went};
use crate::wire::*;

/// How a request is answered wrongly.
#[derive(Clone, Copy)]
enum Wrong {
    Nothing,
    Silent,
    Closed,
    Flags(u32),
    Code(u32),
    /// The header has this size, the body its own.
    Size(u32),
    /// It has this body.
    Body(&'static [u8]),
    /// It has so many bytes more, or fewer.
    Longer(isize),
    SingleBytes,
    WithoutDescriptor,
    /// The first number of the body is this.
    First(u64),
    Descriptors(usize),
    Late,
    /// The request is answered, and something is sent on the channel: a header of a request, its flags, its size, and this body.
    Channel(u32, u32, u32, &'static [u8]),
    /// These bytes are sent on the channel.
    ChannelBytes(&'static [u8]),
    /// A change of the configuration is told of, and the request that comes then is not answered.
    ChannelThenSilent,
}

/// The cases: the request, and what is wrong about its answer.
const WRONGS: &[(&str, Request, Wrong)] = &[
    ("FE-00", Request::GET_FEATURES, Wrong::Nothing),
    ("FE-01", Request::GET_FEATURES, Wrong::Silent),
    ("FE-02", Request::GET_FEATURES, Wrong::Closed),
    ("FE-03", Request::GET_FEATURES, Wrong::Flags(VERSION)),
    ("FE-04", Request::GET_FEATURES, Wrong::Code(15)),
    ("FE-05", Request::GET_FEATURES, Wrong::Flags(2 | REPLY)),
    ("FE-06", Request::GET_FEATURES, Wrong::Body(&[0; 4])),
    ("FE-07", Request::GET_FEATURES, Wrong::Size(u32::MAX)),
    ("FE-08", Request::GET_FEATURES, Wrong::SingleBytes),
    ("FE-09", Request::SET_OWNER, Wrong::Body(&[0; 8])),
    ("FE-10", Request::GET_QUEUE_NUM, Wrong::First(0)),
    ("FE-11", Request::GET_QUEUE_NUM, Wrong::First(1 << 40)),
    ("FE-12", Request::GET_CONFIG, Wrong::Body(&[])),
    ("FE-13", Request::GET_CONFIG, Wrong::Longer(-8)),
    ("FE-14", Request::GET_CONFIG, Wrong::Longer(3900)),
    ("FE-15", Request::GET_INFLIGHT_FD, Wrong::WithoutDescriptor),
    ("FE-16", Request::GET_INFLIGHT_FD, Wrong::First(1 << 60)),
    ("FE-17", Request::SET_MEM_TABLE, Wrong::Silent),
    ("FE-18", Request::SET_MEM_TABLE, Wrong::Body(&[1, 0, 0, 0, 0, 0, 0, 0])),
    ("FE-19", Request::GET_VRING_BASE, Wrong::Silent),
    ("FE-20", Request::GET_VRING_BASE, Wrong::First(7)),
    ("FE-21", Request::GET_VRING_BASE, Wrong::Closed),
    ("FE-22", Request::GET_VRING_BASE, Wrong::Late),
    ("FE-23", Request::GET_VRING_BASE, Wrong::Descriptors(8)),
    ("FE-24", Request::SET_VRING_KICK, Wrong::Channel(99, NEED_REPLY, 0, &[])),
    (
        "FE-25",
        Request::SET_VRING_KICK,
        Wrong::Channel(3, NEED_REPLY, 24, &[255, 0, 0, 0, 0, 0, 0, 0, 0, 16, 0, 0, 0, 0, 0, 0, 0, 0, 0, 0, 0, 0, 0, 0]),
    ),
    ("FE-26", Request::SET_VRING_KICK, Wrong::Channel(2, NEED_REPLY, 200, &[0; 200])),
    ("FE-27", Request::SET_VRING_KICK, Wrong::Channel(2, NEED_REPLY, 1 << 20, &[])),
    ("FE-28", Request::SET_VRING_KICK, Wrong::ChannelBytes(&[2, 0, 0, 0])),
    ("FE-29", Request::SET_VRING_KICK, Wrong::Channel(1, NEED_REPLY, 32, &[0; 32])),
    ("FE-30", Request::SET_VRING_KICK, Wrong::Channel(8, NEED_REPLY, 16, &[1; 16])),
    ("FE-31", Request::SET_VRING_KICK, Wrong::ChannelThenSilent),
];

/// VERSION_1, protocol features and indirect descriptors.
const OFFERED: u64 = VERSION_1 | PROTOCOL_FEATURES | 1 << 28;
/// A disk of 8192 sectors.
const CONFIGURATION: [u8; 60] = {
    let mut bytes = [0; 60];
    (bytes[1], bytes[12], bytes[21], bytes[34]) = (0x20, 126, 2, 2);
    bytes
};
/// How long the stop is not looked at, in milliseconds.
const STEP: i32 = 20;

struct Message {
    code: u32,
    flags: u32,
    body: Vec<u8>,
    descriptors: Vec<OwnedFd>,
}

/// What has come of a message.
#[derive(Default)]
struct Came {
    pieces: Vec<Piece>,
    descriptors: Vec<OwnedFd>,
}

/// An answer on its way.
struct Answer {
    code: u32,
    flags: u32,
    size: Option<u32>,
    body: Vec<u8>,
    descriptors: Vec<OwnedFd>,
}

pub struct Backend {
    stop: Arc<AtomicBool>,
    trace: Trace,
    thread: Option<JoinHandle<()>>,
}

impl Backend {
    /// Listens, and answers as a case says.
    pub fn listen(path: &Path, case: &str, limit: Duration) -> io::Result<Self> {
        let _ = std::fs::remove_file(path);
        let listener = UnixListener::bind(path)?;
        let found = WRONGS.iter().find(|it| it.0 == case);
        let (_, at, wrong) = *found.ok_or_else(|| io::Error::new(io::ErrorKind::NotFound, "no such case"))?;
        let (stop, trace) = (Arc::new(AtomicBool::new(false)), Trace::new());
        let mut serving = Serving {
            at,
            wrong,
            is_done: false,
            late: limit / 2,
            stop: stop.clone(),
            trace: trace.clone(),
            session: 0,
            channel: None,
        };
        let thread = spawn(move || serving.serve_all(&listener));
        Ok(Backend { stop, trace, thread: Some(thread) })
    }

    /// Ends it: what went.
    pub fn end(mut self) -> Vec<Went> {
        self.stop.store(true, Ordering::SeqCst);
        if let Some(thread) = self.thread.take() {
            let _ = thread.join();
        }
        self.trace.all()
    }
}

struct Serving {
    at: Request,
    wrong: Wrong,
    is_done: bool,
    late: Duration,
    stop: Arc<AtomicBool>,
    trace: Trace,
    session: u64,
    channel: Option<UnixStream>,
}

impl Serving {
    fn is_stopped(&self) -> bool {
        self.stop.load(Ordering::SeqCst)
    }

    fn serve_all(&mut self, listener: &UnixListener) {
        while !self.is_stopped() {
            if !is_readable(listener, STEP) {
                continue;
            }
            if let Ok((socket, _)) = listener.accept() {
                self.session = self.trace.connect();
                // (a session that the frontend ends is served)
                let _ = self.serve(&socket);
                self.trace.end(self.session, Way::ToFrontend, None);
                self.channel = None;
            }
        }
    }

    fn serve(&mut self, socket: &UnixStream) -> io::Result<()> {
        loop {
            let message = self.next(socket)?;
            let is_it = message.code == u32::from(self.at) && !self.is_done;
            let answer = self.answer(message)?;
            self.is_done = self.is_done || is_it;
            match is_it {
                true => self.answer_wrongly(socket, answer)?,
                false => self.send(socket, answer)?,
            }
        }
    }

    fn take(&self, socket: &UnixStream, count: usize, came: &mut Came) -> io::Result<Vec<u8>> {
        let (mut bytes, mut at) = (vec![0; count], 0);
        while at < count {
            if self.is_stopped() {
                return Err(io::ErrorKind::Interrupted.into());
            }
            if !is_readable(socket, STEP) {
                continue;
            }
            let before = came.descriptors.len();
            match receive(socket, &mut bytes[at..], &mut came.descriptors)? {
                0 => return Err(io::ErrorKind::UnexpectedEof.into()),
                more => {
                    came.pieces.push(Piece::received(&bytes[at..at + more], &came.descriptors[before..]));
                    at += more;
                }
            }
        }
        Ok(bytes)
    }

    fn next(&self, socket: &UnixStream) -> io::Result<Message> {
        let mut came = Came::default();
        let read = self.read_message(socket, &mut came);
        let Came { pieces, descriptors } = came;
        self.trace.note(self.session, Bytes { way: Way::ToBackend, is_sent: false, is_shown: true, pieces });
        if let Err(cause) = &read {
            self.tell_end(cause);
        }
        read.map(|message| Message { descriptors, ..message })
    }

    fn read_message(&self, socket: &UnixStream, came: &mut Came) -> io::Result<Message> {
        let head = self.take(socket, 12, came)?;
        let [code, flags, size] = [0, 4, 8].map(|at| u32_at(&head, at));
        let body = self.take(socket, size.min(1 << 16) as usize, came)?;
        Ok(Message { code, flags, body, descriptors: Vec::new() })
    }

    /// The frontend's stream has ended, unless the case is over.
    fn tell_end(&self, cause: &io::Error) {
        match cause.kind() {
            io::ErrorKind::Interrupted => {}
            io::ErrorKind::UnexpectedEof => self.trace.end(self.session, Way::ToBackend, None),
            _ => self.trace.end(self.session, Way::ToBackend, Some(cause.to_string())),
        }
    }

    /// What is right; nothing where nothing is replied.
    fn answer(&mut self, mut message: Message) -> io::Result<Answer> {
        let mut descriptors = Vec::new();
        let features = Feature::MQ | Feature::REPLY_ACK | Feature::BACKEND_REQ | Feature::CONFIG | Feature::INFLIGHT_SHMFD;
        let features = features | Feature::BACKEND_SEND_FD | Feature::HOST_NOTIFIER;
        let body = match Request::try_from(message.code) {
            Ok(Request::GET_FEATURES) => u64s(&[OFFERED]),
            Ok(Request::GET_PROTOCOL_FEATURES) => u64s(&[features.bits()]),
            Ok(Request::GET_QUEUE_NUM) => u64s(&[2]),
            Ok(Request::GET_CONFIG) => configuration(&message.body),
            Ok(Request::GET_VRING_BASE) => u32s(&[u32_at(&message.body, 0), 0]),
            Ok(Request::GET_INFLIGHT_FD) => {
                descriptors.push(memory_file(8192)?.into());
                joined(&[&u64s(&[8192, 0]), message.body.get(16..).unwrap_or(&[])])
            }
            Ok(Request::SET_BACKEND_REQ_FD) => {
                self.channel = message.descriptors.pop().map(UnixStream::from);
                acknowledged(message.flags)
            }
            _ => acknowledged(message.flags),
        };
        Ok(Answer { code: message.code, flags: VERSION | REPLY, size: None, body, descriptors })
    }

    fn send(&self, socket: &UnixStream, answer: Answer) -> io::Result<()> {
        let replies_nothing = answer.body.is_empty() && answer.size.is_none() && answer.code != u32::from(Request::GET_CONFIG);
        if replies_nothing {
            return Ok(());
        }
        let head = header(answer.code, answer.flags, answer.size.unwrap_or(answer.body.len() as u32));
        let raw: Vec<RawFd> = answer.descriptors.iter().map(AsRawFd::as_raw_fd).collect();
        self.put(socket, &joined(&[&head, &answer.body]), &raw)
    }

    fn put(&self, socket: &UnixStream, bytes: &[u8], descriptors: &[RawFd]) -> io::Result<()> {
        self.put_by(socket, Way::ToFrontend, bytes, descriptors)
    }

    fn put_by(&self, socket: &UnixStream, way: Way, bytes: &[u8], descriptors: &[RawFd]) -> io::Result<()> {
        let sent = send(socket, bytes, descriptors)?;
        let pieces = vec![Piece::sent(&bytes[..sent], descriptors)];
        self.trace.note(self.session, Bytes { way, is_sent: true, is_shown: true, pieces });
        match sent == bytes.len() {
            true => Ok(()),
            false => Err(io::ErrorKind::WriteZero.into()),
        }
    }

    /// Waits until the case is over.
    fn wait(&self) -> io::Result<()> {
        while !self.is_stopped() {
            sleep(Duration::from_millis(STEP as u64));
        }
        Err(io::ErrorKind::Interrupted.into())
    }

    fn answer_wrongly(&mut self, socket: &UnixStream, mut answer: Answer) -> io::Result<()> {
        match self.wrong {
            Wrong::Nothing => {}
            Wrong::Silent => return self.wait(),
            Wrong::Closed => return Err(io::ErrorKind::Interrupted.into()),
            Wrong::Flags(flags) => answer.flags = flags,
            Wrong::Code(code) => answer.code = code,
            Wrong::Size(size) => answer.size = Some(size),
            Wrong::Body(body) => answer.body = body.to_vec(),
            Wrong::Longer(more) => answer.body.resize((answer.body.len() as isize + more).max(0) as usize, 0),
            Wrong::SingleBytes => return self.put_singly(socket, &answer),
            Wrong::WithoutDescriptor => answer.descriptors.clear(),
            Wrong::First(number) => put_first(&mut answer.body, number),
            Wrong::Descriptors(count) => answer.descriptors = (0..count).map(|_| event()).collect::<io::Result<_>>()?,
            Wrong::Late => sleep(self.late),
            Wrong::Channel(..) | Wrong::ChannelBytes(_) | Wrong::ChannelThenSilent => return self.ask(socket, answer),
        }
        self.send(socket, answer)
    }

    fn put_singly(&self, socket: &UnixStream, answer: &Answer) -> io::Result<()> {
        for byte in joined(&[&header(answer.code, answer.flags, answer.body.len() as u32), &answer.body]) {
            self.put(socket, &[byte], &[])?;
            sleep(Duration::from_millis(5));
        }
        Ok(())
    }

    /// Answers, and sends on the channel.
    fn ask(&mut self, socket: &UnixStream, answer: Answer) -> io::Result<()> {
        self.send(socket, answer)?;
        let channel = match self.channel.as_ref().map(UnixStream::try_clone) {
            Some(channel) => channel?,
            None => return Ok(()),
        };
        let bytes = match self.wrong {
            Wrong::Channel(code, flags, size, body) => joined(&[&header(code, VERSION | flags, size), body]),
            Wrong::ChannelBytes(bytes) => bytes.to_vec(),
            _ => header(2, VERSION, 0),
        };
        if let Wrong::ChannelThenSilent = self.wrong {
            (self.at, self.wrong, self.is_done) = (Request::GET_CONFIG, Wrong::Silent, false);
        }
        self.put_by(&channel, Way::Channel, &bytes, &[])
    }
}

/// The acknowledgement of a request, where it wants one.
fn acknowledged(flags: u32) -> Vec<u8> {
    match flags & NEED_REPLY {
        0 => Vec::new(),
        _ => u64s(&[0]),
    }
}

/// The part of the configuration that is asked for.
fn configuration(asked: &[u8]) -> Vec<u8> {
    let (offset, size) = (u32_at(asked, 0) as usize, u32_at(asked, 4) as usize);
    let bytes = (offset..offset.saturating_add(size.min(256))).map(|at| CONFIGURATION.get(at).copied().unwrap_or(0));
    joined(&[asked.get(..12).unwrap_or(&[]), &bytes.collect::<Vec<u8>>()])
}

fn put_first(body: &mut [u8], number: u64) {
    let count = body.len().min(8);
    body[..count].copy_from_slice(&number.to_le_bytes()[..count]);
}

#[cfg(test)]
mod tests {
    use super::*;

    #[test]
    fn each_case_of_a_frontend_is_programmed() {
        let rows = crate::table::rows();
        let ids: Vec<&str> = rows.iter().filter(|it| it.is_of_frontend).map(|it| it.id).collect();
        assert_eq!(ids, WRONGS.iter().map(|it| it.0).collect::<Vec<_>>());
    }
}
