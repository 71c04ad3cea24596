// SPDX-License-Identifier: Apache-2.0
//! The backend: each request that the proved session checked is a call of the device, as the crate `vhost` names it.
use std::fs::File;
use std::io;
use std::os::unix::io::{AsRawFd, OwnedFd, RawFd};
use std::os::unix::net::UnixStream;
use std::sync::Arc;
use std::time::Duration;

use super::message::*;
use super::served_connection::ServedConnection;
use super::{Backend, Error, GpuBackend, Profile, Result, VhostUserBackendReqHandler};
use crate::foreign::{option_of, BackendSession, Code, Inflight, Outcome, PeerFd, Region, CALL_OTHER, MAX_CONFIG, MAX_FDS};
use crate::why::why;
use crate::{telling, VhostUserMemoryRegionBase};

/// COVRETIN_CALL_POSTCOPY_ACK, which is the number of no request.
const POSTCOPY_ACK: u32 = 256;

type BackendConnection = ServedConnection<BackendSession>;

/// A device, and the frontend that it is connected to.
///
/// It has one request at a time, and reads nothing beyond it. Descriptors that came with a request are the device's, if its call
/// takes them; all others are closed. What a call of the device returns is closed once it was sent.
pub struct BackendReqHandler<S: VhostUserBackendReqHandler> {
    device: Arc<S>,
    connection: BackendConnection,
    /// Whether a line has said that the session ended.
    is_end_told: bool,
}

impl<S: VhostUserBackendReqHandler> BackendReqHandler<S> {
    /// A device over a connected socket. A write timeout of the socket becomes the limit of time of each reply. It panics where
    /// an allocation fails.
    pub fn from_stream(socket: UnixStream, backend: Arc<S>) -> Self {
        // (the crate's name for this returns no Result)
        let session = BackendSession::open().expect("allocation of a session failed");
        BackendReqHandler { device: backend, connection: ServedConnection::over(session, socket), is_end_told: false }
    }

    /// Connects to a frontend that listens at a path. SocketConnect: nobody does, or another error of the system.
    pub fn connect(path: &str, backend: Arc<S>) -> Result<Self> {
        let socket = UnixStream::connect(path).map_err(Error::SocketConnect)?;
        Ok(BackendReqHandler::from_stream(socket, backend))
    }

    /// Another descriptor of the socket: to shut it down from another thread, which ends a call that waits.
    pub fn try_clone_connection(&self) -> io::Result<UnixStream> {
        self.connection.try_clone_socket()
    }

    /// Whose behaviour each request has from now on. Under `Standard` whoever waits hears of a refusal, or is hung up on; a request of
    /// any number that has no call of its own is the device's ([`other`](VhostUserBackendReqHandler::other)); a ring may be enabled once
    /// PROTOCOL_FEATURES was offered or accepted; and a memory table may be longer than its regions. Under `Vhost` some refusals have
    /// no reply, the second is InvalidMessage without one, and the others are refused.
    pub fn set_profile(&mut self, profile: Profile) {
        self.connection.set(|session| session.set_profile(profile as u32));
    }

    /// Limits the time of each reply; None: no limit. Where it passes, since the frontend does not read, the connection ends:
    /// SocketBroken, with a cause of the kind `TimedOut`.
    pub fn set_reply_timeout(&mut self, timeout: Option<Duration>) {
        self.connection.set_send_timeout(timeout);
    }

    /// Ends the connection: each later call is SocketBroken by this number of the system.
    pub fn set_failed(&mut self, error: i32) {
        self.connection.set_failed(Some(error));
    }

    /// The number of the request that came last, as its header has it, also of one that was refused or came in part: that of a
    /// [`FrontendReq`], or of no request. None before the first, and where less of the last came.
    pub fn last_request(&self) -> Option<u32> {
        self.connection.last_request()
    }

    /// The device.
    pub(crate) fn device(&self) -> &S {
        &self.device
    }

    /// Whether the connection is of no more use.
    pub(crate) fn has_ended(&self) -> bool {
        self.connection.has_ended()
    }

    /// Serves the next request: receives it, asks the device, and replies. It waits for the request as long as the frontend likes.
    ///
    /// Disconnected, PartialMessage, InvalidMessage: the frontend closed the socket, or ended, between two requests, in a header, in a
    /// body. InvalidMessage: the request is malformed, too, or its number is none. SocketRetry: the socket does not block, or
    /// its read timeout passed; what came is kept, and the next call goes on. After PartialMessage, InvalidMessage, SocketBroken
    /// and SocketError the connection is of no more use, and each later call is SocketBroken; so it is after IncorrectFds for more
    /// descriptors than a message has, once the device panicked, and under `Standard` where a frontend waits for a reply that cannot
    /// refuse: it is hung up on at once. After any other error it goes on: the request was refused before the device was asked
    /// (InactiveFeature, InactiveOperation, InvalidParam, InvalidOperation, IncorrectFds, FrontendInternalError), or the device
    /// refused it, whose error it is, or gave another number of bases than of regions (BackendInternalError).
    pub fn handle_request(&mut self) -> Result<()> {
        let served = match self.next_call() {
            Ok(call) => self.answer_and_tell(call),
            Err(error) => Err(error),
        };
        served.map_err(|error| self.tell_end(error))
    }

    /// Answers a call; a line says why the device refused it.
    fn answer_and_tell(&mut self, call: u32) -> Result<()> {
        let answered = self.answer(call);
        let told = self.take_told();
        match (&answered, &told) {
            (Err(Error::SocketBroken(_) | Error::SocketError(_) | Error::SocketRetry(_)), _) => {}
            (Err(error), _) | (Ok(()), Some(error)) => telling::refused(self.last_request(), || telling::reason_of(error)),
            (Ok(()), None) => {}
        }
        answered
    }

    /// Says once who ended the session, where it has.
    #[cold]
    fn tell_end(&mut self, error: Error) -> Error {
        let is_end = self.has_ended() || matches!(error, Error::Disconnected);
        if is_end && !self.is_end_told {
            self.is_end_told = true;
            telling::ended(self.last_request(), self.is_cut(), &error);
        }
        error
    }

    /// Receives the next request, and checks it: its number, by which it is to be answered. Of one that is refused a line says why.
    pub(crate) fn next_call(&mut self) -> Result<u32> {
        let call = self.connection.next_call();
        if let Some((code, inactive)) = self.connection.take_refusal() {
            let came = self.connection.came();
            telling::refused(self.last_request(), || why(code, inactive, &came));
        }
        call
    }

    /// Whether the last request ended amid its body.
    pub(crate) fn is_cut(&self) -> bool {
        self.connection.is_cut()
    }

    /// Why the device refused the last call, where its reply says so itself.
    pub(crate) fn take_told(&mut self) -> Option<Error> {
        self.connection.take_told()
    }

    /// The ring of the call that is to be answered, if it has one.
    pub(crate) fn ring_of_call(&mut self) -> Option<u32> {
        self.connection.argument(BackendSession::ring).ok().map(|(index, _)| index)
    }

    /// Asks the device, and replies.
    pub(crate) fn answer(&mut self, call: u32) -> Result<()> {
        let (device, it) = (&*self.device, &mut self.connection);
        match FrontendReq::try_from(call) {
            Ok(request) => serve(device, it, request),
            Err(()) if call == POSTCOPY_ACK => it.done(device.postcopy_ack_mem_regions()),
            Err(()) if call == CALL_OTHER => serve_other(device, it),
            Err(()) => Err(it.break_by(Error::InvalidMessage)),
        }
    }
}

impl<S: VhostUserBackendReqHandler> AsRawFd for BackendReqHandler<S> {
    fn as_raw_fd(&self) -> RawFd {
        self.connection.as_raw_fd()
    }
}

/// Asks the device what has no arguments but numbers.
fn serve(device: &impl VhostUserBackendReqHandler, it: &mut BackendConnection, request: FrontendReq) -> Result<()> {
    match request {
        // generated from protocol/requests.toml: calls without an argument
        FrontendReq::GET_FEATURES => it.number(device.get_features()),
        FrontendReq::SET_OWNER => it.done(device.set_owner()),
        FrontendReq::RESET_OWNER => it.done(device.reset_owner()),
        FrontendReq::GET_QUEUE_NUM => it.number(device.get_queue_num()),
        FrontendReq::POSTCOPY_LISTEN => it.done(device.postcopy_listen()),
        FrontendReq::POSTCOPY_END => it.done(device.postcopy_end()),
        FrontendReq::RESET_DEVICE => it.done(device.reset_device()),
        FrontendReq::GET_MAX_MEM_SLOTS => it.number(device.get_max_mem_slots()),
        // end
        FrontendReq::GET_PROTOCOL_FEATURES => it.number(device.get_protocol_features().map(|features| features.bits())),
        FrontendReq::SET_FEATURES => it.ask(BackendSession::number, |features| device.set_features(features)),
        FrontendReq::SET_PROTOCOL_FEATURES => it.ask(BackendSession::number, |features| device.set_protocol_features(features)),
        // (the session has checked that it has 16 bits)
        FrontendReq::NET_SET_MTU => it.ask(BackendSession::number, |mtu| device.set_mtu(mtu as u16)),
        FrontendReq::SET_VRING_NUM => it.ask(BackendSession::ring, |(index, num)| device.set_vring_num(index, num)),
        FrontendReq::SET_VRING_BASE => it.ask(BackendSession::ring, |(index, base)| device.set_vring_base(index, base)),
        FrontendReq::SET_VRING_ENABLE => {
            it.ask(BackendSession::ring, |(index, is_on)| device.set_vring_enable(index, is_on == 1))
        }
        FrontendReq::SET_VRING_ADDR => it.ask(BackendSession::vring, |(index, ring)| {
            let flags = VhostUserVringAddrFlags::from_bits_retain(ring.flags);
            let (table, used, available) = (ring.desc_table_addr, ring.used_ring_addr, ring.avail_ring_addr);
            device.set_vring_addr(index, flags, table, used, available, ring.log_addr)
        }),
        FrontendReq::GET_VRING_BASE => {
            let (index, _) = it.argument(BackendSession::ring)?;
            it.value(device.get_vring_base(index), |session, state| session.reply_ring(state.index, state.num))
        }
        FrontendReq::GET_SHMEM_CONFIG => {
            it.value(device.get_shmem_config(), |session, config| session.reply_shmem(&config.memory_sizes, config.nregions))
        }
        FrontendReq::GET_CONFIG | FrontendReq::SET_CONFIG => serve_config(device, it, request),
        request => serve_files(device, it, request),
    }
}

fn serve_config(device: &impl VhostUserBackendReqHandler, it: &mut BackendConnection, request: FrontendReq) -> Result<()> {
    let (offset, size, flags, bytes) = it.config()?;
    let flags = VhostUserConfigFlags::from_bits_retain(flags);
    if request == FrontendReq::SET_CONFIG {
        let written = device.set_config(offset, bytes, flags);
        return it.done(written);
    }
    // More than a message has are not what was asked for either.
    let found = device.get_config(offset, size, flags).map(|bytes| if bytes.len() > MAX_CONFIG { Vec::new() } else { bytes });
    it.told(found, |session, bytes| session.reply_config(bytes))
}

/// Asks the device what has to do with descriptors.
fn serve_files(device: &impl VhostUserBackendReqHandler, it: &mut BackendConnection, request: FrontendReq) -> Result<()> {
    match request {
        FrontendReq::SET_MEM_TABLE | FrontendReq::ADD_MEM_REG | FrontendReq::REM_MEM_REG => serve_regions(device, it, request),
        FrontendReq::SET_VRING_KICK => it.ask_by_file(|index, file| device.set_vring_kick(index, file)),
        FrontendReq::SET_VRING_CALL => it.ask_by_file(|index, file| device.set_vring_call(index, file)),
        FrontendReq::SET_VRING_ERR => it.ask_by_file(|index, file| device.set_vring_err(index, file)),
        FrontendReq::SET_BACKEND_REQ_FD => {
            let channel = it.channel()?.map(Backend::from_stream);
            it.done(channel.map(|channel| device.set_backend_req_fd(channel)))
        }
        FrontendReq::GPU_SET_SOCKET => {
            let channel = it.channel()?.map(GpuBackend::from_stream);
            it.done(channel.and_then(|channel| device.set_gpu_socket(channel)))
        }
        FrontendReq::SET_LOG_BASE => {
            let log = it.argument(BackendSession::log)?;
            let file = it.claim(log.fd)?.into();
            it.done(device.set_log_base(&VhostUserLog::new(log.memory_size, log.mmap_offset), file))
        }
        FrontendReq::GET_SHARED_OBJECT => {
            let name = it.argument(BackendSession::name)?;
            it.file(device.get_shared_object(VhostUserSharedMsg { uuid: uuid::Uuid::from_bytes(name) }).map(Some))
        }
        FrontendReq::POSTCOPY_ADVISE => it.file(device.postcopy_advice().map(Some)),
        FrontendReq::GET_INFLIGHT_FD | FrontendReq::SET_INFLIGHT_FD => serve_inflight(device, it, request),
        FrontendReq::SET_DEVICE_STATE_FD => serve_transfer(device, it),
        FrontendReq::CHECK_DEVICE_STATE => it.told(device.check_device_state(), |session, ()| session.reply_done()),
        // (the session asks no other)
        _ => Err(it.break_by(Error::InvalidMessage)),
    }
}

fn serve_regions(device: &impl VhostUserBackendReqHandler, it: &mut BackendConnection, request: FrontendReq) -> Result<()> {
    let (regions, listening) = it.regions()?;
    if request == FrontendReq::SET_MEM_TABLE {
        let files = regions.iter().map(|region| it.claim(region.fd)).collect::<Result<Vec<PeerFd>>>()?;
        let files = files.into_iter().map(File::from).collect();
        let table: Vec<VhostUserMemoryRegion> = regions.iter().map(region_of).collect();
        return it.bases(map_table(device, &table, files, listening), listening);
    }
    let Region { guest_phys_addr, memory_size, user_addr, mmap_offset, fd } = *regions.first().ok_or(Error::InvalidMessage)?;
    let region = VhostUserSingleMemoryRegion::new(guest_phys_addr, memory_size, user_addr, mmap_offset);
    if request == FrontendReq::REM_MEM_REG {
        return it.done(device.remove_mem_region(&region));
    }
    let file = it.claim(fd)?.into();
    it.bases(map_region(device, &region, file, listening), listening)
}

type Bases = Result<Option<Vec<VhostUserMemoryRegionBase>>>;

#[cfg(not(feature = "compat-0_17"))]
fn map_table(
    device: &impl VhostUserBackendReqHandler,
    table: &[VhostUserMemoryRegion],
    files: Vec<File>,
    listening: bool,
) -> Bases {
    device.set_mem_table(table, files, Some(listening))
}

#[cfg(not(feature = "compat-0_17"))]
fn map_region(device: &impl VhostUserBackendReqHandler, it: &VhostUserSingleMemoryRegion, file: File, listening: bool) -> Bases {
    let base = device.add_mem_region(it, file, Some(listening))?;
    Ok(base.map(|base| vec![base]))
}

#[cfg(feature = "compat-0_17")]
fn map_table(
    device: &impl VhostUserBackendReqHandler,
    table: &[VhostUserMemoryRegion],
    files: Vec<File>,
    listening: bool,
) -> Bases {
    match listening {
        true => Err(NO_BASES),
        false => device.set_mem_table(table, files).map(|()| None),
    }
}

#[cfg(feature = "compat-0_17")]
fn map_region(device: &impl VhostUserBackendReqHandler, it: &VhostUserSingleMemoryRegion, file: File, listening: bool) -> Bases {
    match listening {
        true => Err(NO_BASES),
        false => device.add_mem_region(it, file).map(|()| None),
    }
}

/// A device of the older signatures can't say where it has mapped a region.
#[cfg(feature = "compat-0_17")]
const NO_BASES: Error = Error::InvalidOperation("the device can't say where it maps");

fn region_of(region: &Region) -> VhostUserMemoryRegion {
    VhostUserMemoryRegion::new(region.guest_phys_addr, region.memory_size, region.user_addr, region.mmap_offset)
}

fn serve_inflight(device: &impl VhostUserBackendReqHandler, it: &mut BackendConnection, request: FrontendReq) -> Result<()> {
    let (inflight, fd) = it.argument(BackendSession::inflight)?;
    let Inflight { mmap_size, mmap_offset, num_queues, queue_size } = inflight;
    let inflight = VhostUserInflight::new(mmap_size, mmap_offset, num_queues, queue_size);
    if request == FrontendReq::SET_INFLIGHT_FD {
        let file = it.claim(fd)?.into();
        return it.done(device.set_inflight_fd(&inflight, file));
    }
    it.value(device.get_inflight_fd(&inflight), |session, (inflight, file)| {
        let VhostUserInflight { mmap_size, mmap_offset, num_queues, queue_size } = *inflight;
        session.reply_inflight(&Inflight { mmap_size, mmap_offset, num_queues, queue_size }, file.as_raw_fd())
    })
}

fn serve_transfer(device: &impl VhostUserBackendReqHandler, it: &mut BackendConnection) -> Result<()> {
    let (direction, phase, fd) = it.argument(BackendSession::transfer)?;
    let file = it.claim(fd)?;
    let direction = VhostTransferStateDirection::try_from(direction).map_err(|()| Error::InvalidMessage)?;
    let phase = VhostTransferStatePhase::try_from(phase).map_err(|()| Error::InvalidMessage)?;
    it.file(device.set_device_state_fd(direction, phase, file.into()))
}

fn serve_other(device: &impl VhostUserBackendReqHandler, it: &mut BackendConnection) -> Result<()> {
    let mut fds = [-1; MAX_FDS];
    let count = it.argument(|session| session.fds(&mut fds))?;
    let files = fds[..count].iter().map(|&fd| it.claim(fd)).collect::<Result<Vec<PeerFd>>>()?;
    let ((request, len), bytes) = it.argument_bytes(|session, bytes| session.other(bytes))?;
    let served = device.other(request, &bytes[..len], files.into_iter().map(File::from).collect());
    it.done(served)
}

/// A descriptor as the stream socket that it has to be.
fn unix_stream(fd: PeerFd) -> Result<UnixStream> {
    let option = |name| option_of(&fd, name).map_err(Error::InvalidSocketFd);
    if option(libc::SO_DOMAIN)? != libc::AF_UNIX {
        return Err(Error::NotUnixSocket);
    }
    if option(libc::SO_TYPE)? != libc::SOCK_STREAM {
        return Err(Error::NotStreamSocket);
    }
    Ok(UnixStream::from(OwnedFd::from(fd)))
}

/// Reads the arguments of a call, asks the device, and replies by what it returned.
impl BackendConnection {
    /// The regions of the call, and whether postcopy listens.
    fn regions(&mut self) -> Result<(Vec<Region>, bool)> {
        let mut regions = [Region::NONE; MAX_FDS];
        let (count, listening) = self.argument(|session| session.regions(&mut regions))?;
        Ok((regions[..count].to_vec(), listening))
    }

    /// The part of the configuration space that is meant, and the bytes that came with it.
    fn config(&mut self) -> Result<(u32, u32, u32, &[u8])> {
        let ((config, count), bytes) = self.argument_bytes(|session, bytes| session.config(&mut bytes[..MAX_CONFIG]))?;
        Ok((config.offset, config.size, config.flags, &bytes[..count]))
    }

    /// The socket that came with the request, and whether it is one that a channel can have.
    fn channel(&mut self) -> Result<Result<UnixStream>> {
        let fd = self.argument(BackendSession::fd)?;
        let fd = self.claim(fd)?;
        Ok(unix_stream(fd))
    }

    /// A call by its arguments, which has no value.
    fn ask<T>(
        &mut self,
        read: fn(&mut BackendSession) -> std::result::Result<T, Code>,
        ask: impl FnOnce(T) -> Result<()>,
    ) -> Result<()> {
        let arguments = self.argument(read)?;
        self.done(ask(arguments))
    }

    /// The same, by a ring and its eventfd.
    fn ask_by_file(&mut self, ask: impl FnOnce(u8, Option<File>) -> Result<()>) -> Result<()> {
        let (index, fd) = self.argument(BackendSession::ring_fd)?;
        // (a negative number says that there is none)
        let file = if fd < 0 { None } else { Some(self.claim(fd)?.into()) };
        // (the session has checked that it has 8 bits)
        self.done(ask(index as u8, file))
    }

    /// Replies to a call that has no value.
    fn done(&mut self, result: Result<()>) -> Result<()> {
        self.value(result, |session, ()| session.reply_done())
    }

    /// Replies to a call whose value is a number.
    fn number(&mut self, result: Result<u64>) -> Result<()> {
        self.value(result, |session, number| session.reply_number(*number))
    }

    /// Replies to a call whose value is where regions are mapped, if postcopy listens.
    fn bases(&mut self, result: Result<Option<Vec<u64>>>, listening: bool) -> Result<()> {
        self.value(result, |session, bases| match listening {
            true => session.reply_bases(bases.as_deref().unwrap_or(&[])),
            false => session.reply_done(),
        })
    }

    /// Replies to a call whose value is a file, or nothing.
    fn file(&mut self, result: Result<Option<File>>) -> Result<()> {
        self.told(result, |session, file| session.reply_fd(file.as_ref().map_or(-1, AsRawFd::as_raw_fd)))
    }

    /// Replies to a call with a value, which is there until it was sent. The device's own error is the caller's.
    fn value<T>(&mut self, result: Result<T>, say: impl FnOnce(&mut BackendSession, &T) -> Outcome) -> Result<()> {
        match result {
            Ok(value) => self.reply(|session| say(session, &value)),
            Err(error) => match self.reply(BackendSession::reply_refused) {
                Ok(()) | Err(Error::BackendInternalError) => Err(error),
                failed => failed,
            },
        }
    }

    /// The same of a call whose reply says itself that the device refused: by it the request is served.
    fn told<T>(&mut self, result: Result<T>, say: impl FnOnce(&mut BackendSession, &T) -> Outcome) -> Result<()> {
        let replied = match result {
            Ok(value) => self.reply(|session| say(session, &value)),
            Err(error) => {
                self.note_told(error);
                self.reply(BackendSession::reply_refused)
            }
        };
        match replied {
            Err(Error::BackendInternalError) => Ok(()),
            replied => replied,
        }
    }
}
