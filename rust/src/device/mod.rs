// SPDX-License-Identifier: Apache-2.0
//! A device, of which its author writes what its requests mean, and no more. Beneath are a session of vhost-user, and [queues](crate::queue),
//! both over the proved core; this part maps what the frontend gives, and does what these two say. It is what `covretin_device.h` is for
//! programs in C.
//!
//! ```no_run
//! use covretin::device::{run, Device, Request};
//! use std::io::{Read, Write};
//!
//! struct Echo;
//!
//! impl Device for Echo {
//!     fn request(&self, mut request: Request) {
//!         let mut bytes = [0; 64];
//!         let count = request.read(&mut bytes).unwrap_or(0);
//!         let written = request.write(&bytes[..count]).unwrap_or(0);
//!         request.complete(written as u32); // now or later, from any thread
//!     }
//! }
//!
//! fn main() -> std::io::Result<()> {
//!     run("/run/device.sock", Echo)
//! }
//! ```
//!
//! Or, in an event loop of one's own, which may have many, a [`Session`]: once its descriptor is readable, `handle_events`.
//!
//! *What it does by itself*: memory regions and their hot plug, rings, kicks and calls, EVENT_IDX and INDIRECT_DESC, the dirty log, the
//! inflight region, postcopy, reset. Rings that a device before left with requests under way are gone on with, and these
//! are handed out again ([`is_again`](crate::queue::DescriptorChain::is_again)).
//!
//! *The frontend is not trusted.* Only memory files are mapped (memfd, tmpfs, hugetlbfs), since the pages of another may be kept back by
//! whoever serves its file system. Descriptors to kick and call by are eventfds, unless [`Device::calls_by_pipe`]; none is waited
//! for, whatever its flags, and neither is the close of the backend channel; and a frontend that floods a device is served in turns with its rings. A region that its file was truncated of
//! becomes zeros at its first touch, all of it, and the session ends with [`MemoryLost`](Ended::MemoryLost); the system's own calls
//! (`preadv` and its like) fail there with EFAULT, and then nothing is lost. That costs nothing until it happens, but takes a handler of
//! SIGBUS, which is there from the first mapping on and hands each other fault to the handler that was there before: install one of your
//! own before that. A thread that blocks SIGBUS ends the process in the place of all that: this package unblocks it where it touches guest
//! memory, and a thread of the device's own that touches it by itself calls [`take_faults`](crate::queue::take_faults) first. Where a frontend begins postcopy, whoever touches a page that has not come waits for it until the frontend hangs up, or
//! [`Stopper::stop`].
//!
//! *Threads*: [`Session::handle_events`] calls the device, one call at a time, and nothing else does but threads of
//! [`Device::queues_per_thread`]. After it has told the end, and once a session is dropped, nothing is called, and those threads have ended. A
//! request may be completed from any thread at any time, also then: what it points to stays mapped until that. A [`Taker`] takes from any thread.
//!
//! *Queues that are taken from*: a device that has something for its guest, as a frame that came, takes a buffer of a queue of
//! [`Device::taken_queues`] for it then. One that kept such buffers would keep whoever stops the queue waiting: a guest that reboots, and
//! with it its VMM. `examples/vsock.rs` is such a device. One that keeps requests of other queues for later, as until an event comes, is
//! told by [`Device::stopping`].
//!
//! What differs from the kit in C: a request that is dropped is done, with nothing written; what needs a protocol feature is chosen by
//! [`Device::protocol_features`], since a trait does not tell which of its calls are there; the backend channel comes as a
//! [`Backend`], which knows what was accepted; and a frontend that does not take its replies is hung up on
//! once its socket is full, where the kit in C keeps them.
use std::fs::File;
use std::sync::Arc;
use std::time::Duration;
use std::{error, fmt, io};

use crate::queue;
use crate::vhost_user::message::{
    VhostTransferStateDirection, VhostTransferStatePhase, VhostUserProtocolFeatures, VhostUserShMemConfig, VhostUserSharedMsg,
    VhostUserVirtioFeatures,
};
use crate::vhost_user::{close_at_once, Backend, Error, GpuBackend};

mod arrival;
mod calls;
mod request;
mod rings;
mod serving;
mod session;
mod shared;
mod taker;
mod threads;

pub use self::request::Request;
pub use self::serving::{run, serve};
pub use self::session::{Session, Stopper};
pub use self::taker::Taker;

/// VIRTIO_F_INDIRECT_DESC, which is offered in any case.
pub const INDIRECT_DESC: u64 = 1 << 28;
/// VIRTIO_F_EVENT_IDX, which is offered in any case.
pub const EVENT_IDX: u64 = 1 << 29;
/// VIRTIO_F_VERSION_1, which is offered in any case.
pub const VERSION_1: u64 = 1 << 32;
/// VIRTIO_F_RING_PACKED, which is offered where the device offers it.
pub const RING_PACKED: u64 = 1 << 34;

/// The greatest number of queues of a device.
pub const MAX_QUEUES: usize = 64;
/// The greatest size of a queue, in descriptors; a request has as many parts at most.
pub const MAX_QUEUE_SIZE: u16 = 1024;
/// The greatest number of requests that a device gets at once.
pub const MAX_BURST: usize = 32;
/// The greatest number of regions of memory of a session.
pub const MAX_REGIONS: u64 = 509;

/// A device. All but [`request`](Self::request) need not be there.
///
/// A thread of its own that touches guest memory otherwise than by this package, and blocks all signals as workers of daemons often do, has this
/// line at its begin: `covretin::queue::take_faults();`. Without it a frontend that truncates its memory ends the process by SIGBUS.
pub trait Device: Send + Sync + 'static {
    /// How many queues it has: 1 to [`MAX_QUEUES`].
    fn queues(&self) -> usize {
        1
    }

    /// What is offered, beside what is offered in any case: VERSION_1, EVENT_IDX, INDIRECT_DESC, LOG_ALL and PROTOCOL_FEATURES.
    fn features(&self) -> u64 {
        0
    }

    /// The same of protocol features: MQ, LOG_SHMFD, REPLY_ACK, PAGEFAULT, INFLIGHT_SHMFD, RESET_DEVICE, CONFIGURE_MEM_SLOTS and BACKEND_REQ
    /// are. CONFIG belongs here where there is `read_config`, and what is wanted on the channel, as BACKEND_SEND_FD.
    fn protocol_features(&self) -> VhostUserProtocolFeatures {
        VhostUserProtocolFeatures::empty()
    }

    /// How long a queue that is empty is looked at before its kick is waited for. A driver that makes one request after another is served sooner
    /// by that, while the processor is kept busy and the frontend's calls wait. Only done where the last request came as soon as that. Where there
    /// is one processor alone, a queue is not looked at while the device has a request of it, but from when that is given back.
    fn busy_poll(&self) -> Duration {
        Duration::ZERO
    }

    /// Queues whose requests are not handed out, a bit for each from the first on: the device takes them, by a [`Taker`], once it has something
    /// for them, as a network card that has a frame. So it has none meanwhile, and whoever stops such a queue is not waited for.
    fn taken_queues(&self) -> u64 {
        0
    }

    /// Queues that have threads of their own: for each thread those that it serves, a bit for each from the first on. Others are served by whoever
    /// calls [`Session::handle_events`], as all are at first. A thread hands out what its queues have, and no call of the frontend waits for what
    /// the device does there: it waits for that only where it stops one of these queues. Each thread makes one call at a time, and so several
    /// come at once.
    ///
    /// ```
    /// # use covretin::device::{Device, Request};
    /// # struct Card;
    /// # impl Device for Card {
    /// # fn request(&self, request: Request) {}
    /// fn queues(&self) -> usize {
    ///     4
    /// }
    /// // Two threads: one receives and sends by the first pair of queues, the other by the second.
    /// fn queues_per_thread(&self) -> Vec<u64> {
    ///     vec![0b0011, 0b1100]
    /// }
    /// # }
    /// ```
    fn queues_per_thread(&self) -> Vec<u64> {
        Vec::new()
    }

    /// The largest queue that the device takes, in descriptors: 1 to [`MAX_QUEUE_SIZE`], and more counts as that. SET_VRING_NUM of a larger one is
    /// refused. No request tells a frontend of this, so whoever starts both has to give them the same size.
    fn max_queue_size(&self) -> u16 {
        MAX_QUEUE_SIZE
    }

    /// Whether a queue's call and error may be pipes and stream sockets, too, as User Mode Linux sends them. A peer that has such a descriptor
    /// and reads from it into memory that does not come, as of a file system that he serves, makes this process wait as it signals: neither
    /// [`Stopper::stop`] nor a signal ends that, but the end of that reader. So only for a frontend that is trusted with the time of all that this
    /// process serves.
    fn calls_by_pipe(&self) -> bool {
        false
    }

    /// How many requests of one queue it gets at once, by [`requests`](Self::requests): 1 to [`MAX_BURST`], and more counts as that. With 1 it gets
    /// each by [`request`](Self::request).
    fn burst(&self) -> usize {
        1
    }

    /// A request is the device's.
    fn request(&self, request: Request);

    /// Requests of one queue are the device's, in the order of their driver: as many of those that are there already as [`burst`](Self::burst) says,
    /// since none is waited for. A device that has little to do for each gives them back by [`Request::complete_all`]: then one lock is taken for all
    /// of them, and their driver is told once.
    ///
    /// ```
    /// # use covretin::device::{Device, Request, MAX_BURST};
    /// # struct Null;
    /// impl Device for Null {
    ///     fn burst(&self) -> usize {
    ///         MAX_BURST
    ///     }
    ///     fn request(&self, request: Request) {
    ///         request.complete(0);
    ///     }
    ///     fn requests(&self, requests: Vec<Request>) {
    ///         Request::complete_all(requests.into_iter().map(|request| (request, 0)));
    ///     }
    /// }
    /// ```
    fn requests(&self, requests: Vec<Request>) {
        requests.into_iter().for_each(|request| self.request(request));
    }

    /// A queue of `taken_queues` has requests: for the first time since it was started, or since the device wanted one and found none.
    fn available(&self, _queue: usize, _taker: &Taker) {}

    /// A queue that was started stops now: its ring, the device or the session ends. Nothing more is taken of it. Whoever stops it waits
    /// until its requests are done, and so does the next frontend: a device that keeps some for later completes or drops them here.
    fn stopping(&self, _queue: usize) {}

    /// The driver accepted these virtio features; and these protocol features were accepted so far.
    fn accepted(&self, _features: u64, _protocol_features: VhostUserProtocolFeatures) {}

    /// Reads a part of the configuration space. False: there is no such part.
    fn read_config(&self, _offset: u32, _bytes: &mut [u8]) -> bool {
        false
    }

    /// Writes a part of it. False: there is no such part, or it is not to be written.
    fn write_config(&self, _offset: u32, _bytes: &[u8]) -> bool {
        false
    }

    /// The device is as it was at first; it has no request.
    fn reset(&self) {}

    /// The backend channel. It stays open until the session ends, also where it is dropped here.
    fn channel(&self, _channel: Backend) {}

    /// The frontend gives a pipe, by which the device's state goes to it or comes from it, and the device has it from here on: a thread of its own
    /// writes or reads it, since the frontend waits for the reply to this, and closes it behind the last byte by
    /// [`close_at_once`], since a frontend may give what is slow to close. It may return another file for that.
    /// The specification has a frontend stop all queues before. DEVICE_STATE is among the protocol features then. Unsupported, as at first: it
    /// has no state to be moved.
    fn set_device_state_fd(
        &self,
        _direction: VhostTransferStateDirection,
        _phase: VhostTransferStatePhase,
        file: File,
    ) -> io::Result<Option<File>> {
        close_at_once(file);
        Err(io::ErrorKind::Unsupported.into())
    }

    /// Whether all of its state was written, or read and taken. The frontend asks that once its end of the pipe is closed, and nothing else of the
    /// session is done until this returns.
    fn check_device_state(&self) -> io::Result<()> {
        Err(io::ErrorKind::Unsupported.into())
    }

    /// The object of this name, which the device told of by
    /// [`shared_object_add`](crate::vhost_user::VhostUserFrontendReqHandler::shared_object_add) on its
    /// channel. SHARED_OBJECT is among the protocol features then. Unsupported, as at first: it has none.
    fn get_shared_object(&self, _uuid: VhostUserSharedMsg) -> io::Result<File> {
        Err(io::ErrorKind::Unsupported.into())
    }

    /// Its regions of shared memory, of which it maps parts by `shmem_map` on its channel. SHMEM is among the protocol features then. It has none
    /// at first.
    fn get_shmem_config(&self) -> io::Result<VhostUserShMemConfig> {
        Ok(VhostUserShMemConfig::default())
    }

    /// The channel to a display, which a device with a screen draws on. Unsupported, as at first: it has none.
    fn set_gpu_socket(&self, _gpu_backend: GpuBackend) -> io::Result<()> {
        Err(io::ErrorKind::Unsupported.into())
    }

    /// A request of the frontend, by its number, was refused, or ended the session.
    fn refused(&self, _request: Option<u32>, _error: &Error) {}

    /// The driver broke a rule of a queue: nothing more is taken of it until the device is reset.
    fn broken(&self, _queue: usize, _error: queue::Error) {}

    /// The session has ended, for this reason, and no request is left. The last call.
    fn ended(&self, _why: &Ended) {}
}

/// A device that others have, too.
impl<D: Device + ?Sized> Device for Arc<D> {
    fn queues(&self) -> usize {
        (**self).queues()
    }
    fn features(&self) -> u64 {
        (**self).features()
    }
    fn protocol_features(&self) -> VhostUserProtocolFeatures {
        (**self).protocol_features()
    }
    fn busy_poll(&self) -> Duration {
        (**self).busy_poll()
    }
    fn taken_queues(&self) -> u64 {
        (**self).taken_queues()
    }
    fn queues_per_thread(&self) -> Vec<u64> {
        (**self).queues_per_thread()
    }
    fn max_queue_size(&self) -> u16 {
        (**self).max_queue_size()
    }
    fn calls_by_pipe(&self) -> bool {
        (**self).calls_by_pipe()
    }
    fn burst(&self) -> usize {
        (**self).burst()
    }
    fn request(&self, request: Request) {
        (**self).request(request)
    }
    fn requests(&self, requests: Vec<Request>) {
        (**self).requests(requests)
    }
    fn available(&self, queue: usize, taker: &Taker) {
        (**self).available(queue, taker)
    }
    fn stopping(&self, queue: usize) {
        (**self).stopping(queue)
    }
    fn accepted(&self, features: u64, protocol_features: VhostUserProtocolFeatures) {
        (**self).accepted(features, protocol_features)
    }
    fn read_config(&self, offset: u32, bytes: &mut [u8]) -> bool {
        (**self).read_config(offset, bytes)
    }
    fn write_config(&self, offset: u32, bytes: &[u8]) -> bool {
        (**self).write_config(offset, bytes)
    }
    fn reset(&self) {
        (**self).reset()
    }
    fn channel(&self, channel: Backend) {
        (**self).channel(channel)
    }
    fn set_device_state_fd(
        &self,
        direction: VhostTransferStateDirection,
        phase: VhostTransferStatePhase,
        file: File,
    ) -> io::Result<Option<File>> {
        (**self).set_device_state_fd(direction, phase, file)
    }
    fn check_device_state(&self) -> io::Result<()> {
        (**self).check_device_state()
    }
    fn get_shared_object(&self, uuid: VhostUserSharedMsg) -> io::Result<File> {
        (**self).get_shared_object(uuid)
    }
    fn get_shmem_config(&self) -> io::Result<VhostUserShMemConfig> {
        (**self).get_shmem_config()
    }
    fn set_gpu_socket(&self, gpu_backend: GpuBackend) -> io::Result<()> {
        (**self).set_gpu_socket(gpu_backend)
    }
    fn refused(&self, request: Option<u32>, error: &Error) {
        (**self).refused(request, error)
    }
    fn broken(&self, queue: usize, error: queue::Error) {
        (**self).broken(queue, error)
    }
    fn ended(&self, why: &Ended) {
        (**self).ended(why)
    }
}

/// Why a session ended.
#[derive(Debug)]
pub enum Ended {
    /// The frontend went (Disconnected), amid a request (PartialMessage, InvalidMessage), or sent what is none; or its socket failed.
    Frontend(Error),
    /// It took memory away that was in use, or went while a page was waited for.
    MemoryLost,
    /// [`Stopper::stop`].
    Stopped,
    /// An allocation failed.
    OutOfMemory,
}

impl fmt::Display for Ended {
    fn fmt(&self, f: &mut fmt::Formatter<'_>) -> fmt::Result {
        match self {
            Ended::Frontend(cause) => cause.fmt(f),
            Ended::MemoryLost => f.write_str("guest memory is lost"),
            Ended::Stopped => f.write_str("the session was stopped"),
            Ended::OutOfMemory => f.write_str("out of memory"),
        }
    }
}

impl error::Error for Ended {}

/// What a device offers.
fn features_of(device: &impl Device) -> u64 {
    let vhost_user = VhostUserVirtioFeatures::LOG_ALL | VhostUserVirtioFeatures::PROTOCOL_FEATURES;
    device.features() | VERSION_1 | EVENT_IDX | INDIRECT_DESC | vhost_user.bits()
}

/// The protocol features that it offers. (With the older signatures a device can't say where it maps, which postcopy wants.)
fn protocol_features_of(device: &impl Device) -> VhostUserProtocolFeatures {
    let mut features = device.protocol_features()
        | VhostUserProtocolFeatures::MQ
        | VhostUserProtocolFeatures::LOG_SHMFD
        | VhostUserProtocolFeatures::REPLY_ACK
        | VhostUserProtocolFeatures::INFLIGHT_SHMFD
        | VhostUserProtocolFeatures::RESET_DEVICE
        | VhostUserProtocolFeatures::CONFIGURE_MEM_SLOTS
        | VhostUserProtocolFeatures::BACKEND_REQ;
    if cfg!(not(feature = "compat-0_17")) {
        features |= VhostUserProtocolFeatures::PAGEFAULT;
    }
    features
}
