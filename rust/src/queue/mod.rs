// SPDX-License-Identifier: Apache-2.0
//! Virtqueues as a device sees them, split or packed, and the guest memory that they lie in (virtio 1.2, chapter 2): by the shapes of
//! rust-vmm's `virtio-queue` and `vm-memory`, over a proved core.
//!
//! The core (`include/covretin_queue.h`) decides what a device may touch: whatever a guest writes, a [`Queue`] hands out only ranges that
//! lie inside one region which the frontend gave, and each value of the guest is read once. So a [`DescriptorChain`] is what it was when it
//! was popped, whatever becomes of its descriptors; the bytes of its parts are the guest's, which may change them at any time.
//! [`device`](crate::device) is the layer above, with a session of vhost-user.
//!
//! ```no_run
//! use covretin::queue::{Error, Queue};
//! use std::io::{Read, Write};
//!
//! /// Answers each request by its own bytes. Whether the driver is to be told.
//! fn answer(queue: &mut Queue) -> Result<bool, Error> {
//!     loop {
//!         while let Some(mut chain) = queue.pop()? {
//!             let mut bytes = [0; 64];
//!             let count = chain.read(&mut bytes).unwrap_or(0);
//!             let written = chain.write(&bytes[..count]).unwrap_or(0);
//!             queue.add_used(&chain, written as u32)?;
//!         }
//!         if !queue.enable_notification()? {
//!             return queue.needs_notification();
//!         }
//!     }
//! }
//! ```
//!
//! What differs from these crates, and why:
//!
//! - A queue is told its memory by [`set_memory`](Queue::set_memory), and not with each call: the core checks it once, and what was handed
//!   out stays mapped whatever becomes of it.
//! - Addresses of rings are the frontend's own, as SET_VRING_ADDR has them, and one number each.
//! - What begins a queue is checked then, so [`set_ready`](Queue::set_ready) returns an error in the place of a later `is_valid`.
//! - A queue is told of the dirty log and of its part of the inflight region, and keeps both: neither crate does.
//! - [`add_used`](Queue::add_used) takes the chain, since it logs what of it was to be written.
//! - A chain's descriptors are read when it is popped: an iterator over what the guest still writes would have errors of its own.
use std::{error, fmt, io};

use crate::foreign;

pub mod bare;
mod chain;
mod files;
mod inflight;
mod inflight_packed;
mod memory;
mod ring;
mod streams;

pub use self::chain::DescriptorChain;
pub use self::inflight::InflightRegion;
pub(crate) use self::memory::Change;
pub use self::memory::{DirtyLog, GuestAddress, GuestMemory, GuestRegion};
pub use self::ring::{Chains, Queue};
pub use self::streams::{Reader, Writer};
pub use crate::foreign::VolatileSlice;

/// The greatest number of parts of a request; of a queue that has more descriptors, as many as it has.
pub const MAX_PARTS: usize = 1024;

/// How many bytes at either end of what a device wrote and did not say are logged.
const UNSAID: u64 = 1 << 20;

/// Has this thread take SIGBUS, which a thread that blocks all signals does not: then memory that its frontend takes away would end the process at
/// its next touch, in the place of becoming zeros. What this package does to guest memory calls it before; a thread that touches such memory by
/// itself, at [`as_ptr`](VolatileSlice::as_ptr), has to. It costs nothing from the second time on.
pub fn take_faults() {
    foreign::take_faults();
}

/// Each error, its number in `covretin_queue.h`, and its text.
macro_rules! errors {
    ($($(#[$doc:meta])* $Name:ident = $number:literal, $text:literal;)*) => {
        /// Why a call of a queue was refused.
        #[derive(Clone, Copy, Debug, PartialEq, Eq, Hash)]
        #[non_exhaustive]
        pub enum Error {
            $($(#[$doc])* $Name = $number,)*
        }

        impl Error {
            /// The error that the core names by this number.
            pub(crate) fn of_number(number: u32) -> Error {
                match number {
                    $($number => Error::$Name,)*
                    // (all others are of queues that are not open, or of arrays that are too small, and none is so)
                    _ => Error::OutOfMemory,
                }
            }
        }

        impl fmt::Display for Error {
            fn fmt(&self, f: &mut fmt::Formatter<'_>) -> fmt::Result {
                f.write_str(match self {
                    $(Error::$Name => $text,)*
                })
            }
        }
    };
}

errors! {
    // generated from protocol/requests.toml: rules of a queue
    /// A region of memory is empty, or ends beyond the addresses of 64 bits.
    InvalidRegion = 1, "a region of memory is empty, or ends beyond the addresses of 64 bits";
    /// A region of memory overlaps another.
    RegionOverlap = 2, "a region of memory overlaps another";
    /// There are more than 509 regions of memory.
    TooManyRegions = 3, "there are more than 509 regions of memory";
    /// There is no such region of memory.
    NoSuchRegion = 4, "there is no such region of memory";
    /// Its size is 0, above its greatest, or of a split queue no power of two.
    InvalidSize = 5, "its size is 0, above its greatest, or of a split queue no power of two";
    /// A part of it is not aligned where it is mapped.
    Unaligned = 6, "a part of it is not aligned where it is mapped";
    /// The base of a packed ring is not in the ring.
    InvalidBase = 7, "the base of a packed ring is not in the ring";
    /// The inflight region is not that of the queue.
    InvalidInflight = 8, "the inflight region is not that of the queue";
    /// A range does not lie in one region of guest memory.
    NotInGuest = 9, "a range does not lie in one region of guest memory";
    /// A descriptor has no bytes.
    EmptyDescriptor = 10, "a descriptor has no bytes";
    /// A head or a next descriptor is not in its table.
    NotInTable = 11, "a head or a next descriptor is not in its table";
    /// A chain is a loop, or has more descriptors than it may.
    ChainTooLong = 13, "a chain is a loop, or has more descriptors than it may";
    /// A descriptor to be read comes after one to be written.
    ReadableAfterWritable = 14, "a descriptor to be read comes after one to be written";
    /// An indirect table was not negotiated, or lies in another.
    UnexpectedIndirect = 15, "an indirect table was not negotiated, or lies in another";
    /// A descriptor that names an indirect table goes on.
    IndirectGoesOn = 16, "a descriptor that names an indirect table goes on";
    /// The length of an indirect table is 0, or no multiple of 16.
    InvalidIndirectLength = 17, "the length of an indirect table is 0, or no multiple of 16";
    /// More chains are available than the queue has.
    TooManyAvailable = 18, "more chains are available than the queue has";
    /// A chain is made available again before it was used.
    HeadInUse = 19, "a chain is made available again before it was used";
    /// The driver broke a rule before.
    NeedsReset = 20, "the driver broke a rule before";
    /// No chain is available.
    NothingAvailable = 21, "no chain is available";
    /// No descriptor is left to be read.
    ChainEnded = 22, "no descriptor is left to be read";
    /// The device has no such chain.
    NotHandedOut = 23, "the device has no such chain";
    /// An allocation failed.
    OutOfMemory = 24, "an allocation failed";
    /// The queue is not started.
    NotStarted = 103, "the queue is not started";
    /// The queue has the other layout.
    OtherLayout = 104, "the queue has the other layout";
    // end
}

impl error::Error for Error {}

impl From<Error> for io::Error {
    fn from(cause: Error) -> Self {
        io::Error::new(io::ErrorKind::Other, cause)
    }
}

/// What a call of a queue returns.
pub type Result<T> = std::result::Result<T, Error>;
