// SPDX-License-Identifier: Apache-2.0
//! The foreign calls, and with them all code that the compiler can't check: those of the proved library, and the system's for a
//! socket. What other modules see of both is safe.
mod backend_session;
mod bare;
mod channel;
mod closing;
mod descriptors;
mod display;
mod events;
mod guard;
mod guest;
mod listening;
mod moving;
mod owning;
#[cfg(covretin_assembly)]
mod proved;
mod queue;
#[cfg(feature = "vm-memory")]
mod records;
mod session;
mod signals;
mod socket;
mod userfault;

pub(crate) use backend_session::{BackendSession, CALL_OTHER, MAX_CONFIG};
pub use bare::SplitQueue;
pub(crate) use channel::{ChannelServer, ChannelSession, Mmap};
pub(crate) use closing::{apart, PeerFd, PeerSocket};
pub(crate) use descriptors::{Descriptor, Range};
pub(crate) use display::DisplaySession;
pub(crate) use events::{memory_file, poll, without_signals, Bell, Event, Kick, Polled, Ringer, SignalFd, Timer};
pub(crate) use guard::{lose_all, take_faults, unblock_faults, Holder};
pub use guest::VolatileSlice;
pub(crate) use guest::{memory_size, Mapping, Region as GuestRegion, Regions, Slices};
pub(crate) use moving::{Asks, Code, Moves, Outcome, Serves, MAX_FDS, MAX_MESSAGE};
pub(crate) use owning::Owning;
pub(crate) use queue::{
    inflight_after_used, inflight_after_used_packed, inflight_before_used, inflight_before_used_packed, inflight_keep_packed,
    inflight_recover, inflight_recover_packed, inflight_take, inflight_take_packed, log_bit_of, log_pages, Chain, CoreQueue,
    InflightEntry, InflightWrite, PackedInflightHead, PackedRing, Resubmit, SplitRing, Watch,
};
pub(crate) use session::{Inflight, Region, Session, Vring};
pub(crate) use signals::EndSignals;
pub(crate) use socket::{is_ready, is_unix_stream, option_of, receive, receive_any, send, Received};
pub(crate) use userfault::Userfault;
