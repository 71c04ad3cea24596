// SPDX-License-Identifier: Apache-2.0
//! Measures a frontend and a backend in two threads over a socket pair, beside the same system calls alone:
//! `cargo run --release --example bench`, or with another number of turns than 199.
//!
//! A line is a figure's name, the nanoseconds of one call, and, behind the figure of its system calls, how many times that is. Both
//! are measured in short turns, one after the other, and the middle is shown: of the times, and of how many times.
use std::env;
use std::fs::File;
use std::io;
use std::mem::{size_of, zeroed};
use std::os::unix::io::{AsRawFd, RawFd};
use std::os::unix::net::UnixStream;
use std::process::ExitCode;
use std::sync::{Arc, Mutex};
use std::thread;
use std::time::Instant;

use covretin::vhost_user::message::*;
use covretin::vhost_user::{
    BackendReqHandler, Error, Frontend, GpuBackend, Result, VhostUserBackendReqHandlerMut, VhostUserFrontend,
};
use covretin::{VhostBackend, VhostUserMemoryRegionBase};

const TURNS: usize = 199;
/// The calls of a turn.
const CALLS: usize = 100;
const CONFIG: usize = 256;
const MAX_MESSAGE: usize = 4108;
/// Room for 32 descriptors beside a message.
const ROOM: usize = 24 + 32 * size_of::<RawFd>();

fn main() -> ExitCode {
    let turns = match env::args_os().nth(1).map_or(Some(TURNS), |word| word.to_str()?.parse().ok()) {
        Some(turns) if turns > 0 => turns,
        _ => {
            eprintln!("usage: bench [TURNS]");
            return ExitCode::from(1);
        }
    };
    match measure(turns) {
        Ok(()) => ExitCode::SUCCESS,
        Err(error) => {
            eprintln!("bench: {error}");
            ExitCode::from(2)
        }
    }
}

/// What is measured: a call of the library, and the sizes of its request and of its reply.
struct Figure {
    name: &'static str,
    call: fn(&mut Frontend) -> covretin::Result<()>,
    request: usize,
    reply: usize,
}

const FIGURES: [Figure; 3] = [
    Figure { name: "get_features", call: |it| it.get_features().map(drop), request: 0, reply: 8 },
    Figure { name: "acknowledged", call: |it| it.set_vring_num(0, 128), request: 8, reply: 8 },
    Figure {
        name: "get_config_256",
        call: |it| it.get_config(0, CONFIG as u32, VhostUserConfigFlags::empty(), &[0; CONFIG]).map(drop),
        request: 12 + CONFIG,
        reply: 12 + CONFIG,
    },
];

fn measure(turns: usize) -> covretin::Result<()> {
    let (mine, other) = UnixStream::pair().map_err(Error::SocketError)?;
    let mut handler = BackendReqHandler::from_stream(other, Arc::new(Mutex::new(Device)));
    let serving = thread::spawn(move || while handler.handle_request().is_ok() {});
    let mut frontend = Frontend::from_stream(mine, 1);
    let features = frontend.get_features()?;
    frontend.set_features(features)?;
    frontend.set_protocol_features(VhostUserProtocolFeatures::CONFIG | VhostUserProtocolFeatures::REPLY_ACK)?;
    frontend.set_hdr_flags(VhostUserHeaderFlag::NEED_REPLY);
    for Figure { name, call, request, reply } in FIGURES {
        let (mine, other) = UnixStream::pair().map_err(Error::SocketError)?;
        // (it ends with the stream)
        let answering = thread::spawn(move || {
            let mut bytes = [0; MAX_MESSAGE];
            while receive(&other, &mut bytes, request).is_ok() && send(&other, &bytes, reply).is_ok() {}
        });
        let mut bytes = [0; MAX_MESSAGE];
        let (mut alone, mut whole) = (Vec::new(), Vec::new());
        for _ in 0..turns {
            alone.push(turn(|| {
                let sent = send(&mine, &bytes, request);
                Ok(sent.and_then(|()| receive(&mine, &mut bytes, reply)).map_err(Error::SocketError)?)
            })?);
            whole.push(turn(|| call(&mut frontend))?);
        }
        drop(mine);
        answering.join().map_err(|_| Error::InvalidOperation("a thread panicked"))?;
        let times = middle(whole.iter().zip(&alone).map(|(whole, alone)| whole / alone).collect());
        println!("bare_{name} {:.0}", middle(alone));
        println!("threads_{name} {:.0} {times:.2}", middle(whole));
    }
    drop(frontend);
    serving.join().map_err(|_| Error::InvalidOperation("the device panicked"))?;
    Ok(())
}

/// The nanoseconds of one call, of a turn.
fn turn(mut call: impl FnMut() -> covretin::Result<()>) -> covretin::Result<f64> {
    let began = Instant::now();
    (0..CALLS).try_for_each(|_| call())?;
    Ok(began.elapsed().as_nanos() as f64 / CALLS as f64)
}

fn middle(mut figures: Vec<f64>) -> f64 {
    figures.sort_by(f64::total_cmp);
    figures[figures.len() / 2]
}

/// Sends a message with a body of this size.
fn send(socket: &UnixStream, bytes: &[u8; MAX_MESSAGE], size: usize) -> io::Result<()> {
    let mut piece = libc::iovec { iov_base: bytes.as_ptr() as *mut libc::c_void, iov_len: 12 + size };
    // SAFETY: the message points to the bytes, which outlive the call and are only read.
    let sent = unsafe {
        let mut message: libc::msghdr = zeroed();
        message.msg_iov = &mut piece;
        message.msg_iovlen = 1;
        libc::sendmsg(socket.as_raw_fd(), &message, libc::MSG_NOSIGNAL)
    };
    whole(sent, 12 + size)
}

/// Receives a header, and then a body of this size, with room for descriptors.
fn receive(socket: &UnixStream, bytes: &mut [u8; MAX_MESSAGE], size: usize) -> io::Result<()> {
    for size in [12, size].into_iter().filter(|size| *size != 0) {
        let mut room = [0u64; ROOM / 8];
        let mut piece = libc::iovec { iov_base: bytes.as_mut_ptr().cast(), iov_len: size };
        // SAFETY: the message points to the bytes and to the room, which outlive the call.
        let received = unsafe {
            let mut message: libc::msghdr = zeroed();
            message.msg_iov = &mut piece;
            message.msg_iovlen = 1;
            message.msg_control = room.as_mut_ptr().cast();
            message.msg_controllen = ROOM as _;
            libc::recvmsg(socket.as_raw_fd(), &mut message, libc::MSG_CMSG_CLOEXEC)
        };
        whole(received, size)?;
    }
    Ok(())
}

/// Messages as small as these go whole.
fn whole(count: isize, size: usize) -> io::Result<()> {
    match count {
        count if count < 0 => Err(io::Error::last_os_error()),
        count if count as usize == size => Ok(()),
        _ => Err(io::ErrorKind::UnexpectedEof.into()),
    }
}

/// A device that takes each call at once.
struct Device;

const NOT_MEASURED: Error = Error::InvalidOperation("it is not measured");

impl VhostUserBackendReqHandlerMut for Device {
    fn get_features(&mut self) -> Result<u64> {
        Ok(VhostUserVirtioFeatures::PROTOCOL_FEATURES.bits())
    }
    fn set_features(&mut self, _features: u64) -> Result<()> {
        Ok(())
    }
    fn get_protocol_features(&mut self) -> Result<VhostUserProtocolFeatures> {
        Ok(VhostUserProtocolFeatures::CONFIG)
    }
    fn set_protocol_features(&mut self, _features: u64) -> Result<()> {
        Ok(())
    }
    fn set_vring_num(&mut self, _index: u32, _num: u32) -> Result<()> {
        Ok(())
    }
    fn get_config(&mut self, _offset: u32, size: u32, _flags: VhostUserConfigFlags) -> Result<Vec<u8>> {
        Ok(vec![0x5a; size as usize])
    }
    fn set_owner(&mut self) -> Result<()> {
        Err(NOT_MEASURED)
    }
    fn reset_owner(&mut self) -> Result<()> {
        Err(NOT_MEASURED)
    }
    fn reset_device(&mut self) -> Result<()> {
        Err(NOT_MEASURED)
    }
    fn set_mem_table(
        &mut self,
        _regions: &[VhostUserMemoryRegion],
        _files: Vec<File>,
        _listening: Option<bool>,
    ) -> Result<Option<Vec<VhostUserMemoryRegionBase>>> {
        Err(NOT_MEASURED)
    }
    fn set_vring_addr(&mut self, _: u32, _: VhostUserVringAddrFlags, _: u64, _: u64, _: u64, _: u64) -> Result<()> {
        Err(NOT_MEASURED)
    }
    fn set_vring_base(&mut self, _index: u32, _base: u32) -> Result<()> {
        Err(NOT_MEASURED)
    }
    fn get_vring_base(&mut self, _index: u32) -> Result<VhostUserVringState> {
        Err(NOT_MEASURED)
    }
    fn set_vring_kick(&mut self, _index: u8, _fd: Option<File>) -> Result<()> {
        Err(NOT_MEASURED)
    }
    fn set_vring_call(&mut self, _index: u8, _fd: Option<File>) -> Result<()> {
        Err(NOT_MEASURED)
    }
    fn set_vring_err(&mut self, _index: u8, _fd: Option<File>) -> Result<()> {
        Err(NOT_MEASURED)
    }
    fn get_queue_num(&mut self) -> Result<u64> {
        Err(NOT_MEASURED)
    }
    fn set_vring_enable(&mut self, _index: u32, _enable: bool) -> Result<()> {
        Err(NOT_MEASURED)
    }
    fn set_config(&mut self, _offset: u32, _buf: &[u8], _flags: VhostUserConfigFlags) -> Result<()> {
        Err(NOT_MEASURED)
    }
    fn set_gpu_socket(&mut self, _gpu_backend: GpuBackend) -> Result<()> {
        Err(NOT_MEASURED)
    }
    fn get_shared_object(&mut self, _uuid: VhostUserSharedMsg) -> Result<File> {
        Err(NOT_MEASURED)
    }
    fn get_inflight_fd(&mut self, _inflight: &VhostUserInflight) -> Result<(VhostUserInflight, File)> {
        Err(NOT_MEASURED)
    }
    fn set_inflight_fd(&mut self, _inflight: &VhostUserInflight, _file: File) -> Result<()> {
        Err(NOT_MEASURED)
    }
    fn get_max_mem_slots(&mut self) -> Result<u64> {
        Err(NOT_MEASURED)
    }
    fn add_mem_region(
        &mut self,
        _region: &VhostUserSingleMemoryRegion,
        _file: File,
        _listening: Option<bool>,
    ) -> Result<Option<VhostUserMemoryRegionBase>> {
        Err(NOT_MEASURED)
    }
    fn remove_mem_region(&mut self, _region: &VhostUserSingleMemoryRegion) -> Result<()> {
        Err(NOT_MEASURED)
    }
    fn set_device_state_fd(
        &mut self,
        _direction: VhostTransferStateDirection,
        _phase: VhostTransferStatePhase,
        _fd: File,
    ) -> Result<Option<File>> {
        Err(NOT_MEASURED)
    }
    fn check_device_state(&mut self) -> Result<()> {
        Err(NOT_MEASURED)
    }
    fn get_shmem_config(&mut self) -> Result<VhostUserShMemConfig> {
        Err(NOT_MEASURED)
    }
    fn set_log_base(&mut self, _log: &VhostUserLog, _file: File) -> Result<()> {
        Err(NOT_MEASURED)
    }
}
