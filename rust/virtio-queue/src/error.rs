// SPDX-License-Identifier: Apache-2.0
//! Errors, by the names of the crate.
use std::fmt;

use covretin::queue::Error as Refusal;
use vm_memory::{GuestMemoryError, VolatileMemoryError};

/// Why a call failed.
#[derive(Debug)]
pub enum Error {
    /// An address is beyond those of 64 bits.
    AddressOverflow,
    /// A ring, or a table of descriptors, can't be read or written.
    GuestMemory(GuestMemoryError),
    /// A descriptor that names an indirect table goes on, or is in one.
    InvalidIndirectDescriptor,
    /// An indirect table has an invalid length.
    InvalidIndirectDescriptorTable,
    /// A chain breaks a rule of virtio.
    InvalidChain,
    /// A head, or a next descriptor, is not in its table; or the device has no chain of that head.
    InvalidDescriptorIndex,
    /// The greatest size of a queue is 0, no power of two, or above 32768.
    InvalidMaxSize,
    /// The size of a queue is 0, no power of two, or above its greatest.
    InvalidSize,
    /// The address of the descriptor table is no multiple of 16.
    InvalidDescTableAlign,
    /// The address of the available ring is no multiple of 2.
    InvalidAvailRingAlign,
    /// The address of the used ring is no multiple of 4.
    InvalidUsedRingAlign,
    /// More chains are available than the queue has descriptors.
    InvalidAvailRingIndex,
    /// The queue is not ready.
    QueueNotReady,
    /// A slice of memory can't be had.
    VolatileMemoryError(VolatileMemoryError),
    /// The buffers of a chain have too many bytes.
    DescriptorChainOverflow,
    /// A buffer does not lie in guest memory.
    FindMemoryRegion,
    /// A buffer can't be had of guest memory.
    GuestMemoryError(GuestMemoryError),
    /// A reader or writer has fewer bytes than it is to be split at.
    SplitOutOfBounds(usize),
}

impl fmt::Display for Error {
    fn fmt(&self, f: &mut fmt::Formatter<'_>) -> fmt::Result {
        f.write_str(match self {
            Error::AddressOverflow => "an address is beyond those of 64 bits",
            Error::GuestMemory(cause) => return write!(f, "a ring or a table can't be accessed: {cause}"),
            Error::InvalidIndirectDescriptor => "a descriptor that names an indirect table goes on, or is in one",
            Error::InvalidIndirectDescriptorTable => "an indirect table has an invalid length",
            Error::InvalidChain => "a descriptor chain breaks a rule",
            Error::InvalidDescriptorIndex => "an index of a descriptor is invalid",
            Error::InvalidMaxSize => "the greatest size of a queue is invalid",
            Error::InvalidSize => "the size of a queue is invalid",
            Error::InvalidDescTableAlign => "the descriptor table is not aligned to 16 bytes",
            Error::InvalidAvailRingAlign => "the available ring is not aligned to 2 bytes",
            Error::InvalidUsedRingAlign => "the used ring is not aligned to 4 bytes",
            Error::InvalidAvailRingIndex => "more chains are available than the queue has descriptors",
            Error::QueueNotReady => "the queue is not ready",
            Error::VolatileMemoryError(cause) => return write!(f, "a slice of memory can't be had: {cause}"),
            Error::DescriptorChainOverflow => "the buffers of a descriptor chain have too many bytes",
            Error::FindMemoryRegion => "a buffer does not lie in guest memory",
            Error::GuestMemoryError(cause) => return write!(f, "a buffer can't be accessed: {cause}"),
            Error::SplitOutOfBounds(offset) => return write!(f, "there are fewer than {offset} bytes to split"),
        })
    }
}

impl std::error::Error for Error {}

#[cfg(any(test, feature = "test-utils"))]
impl PartialEq for Error {
    fn eq(&self, other: &Self) -> bool {
        // (the causes of vm-memory can't be compared)
        self.to_string() == other.to_string()
    }
}

/// What the proved queue refuses, by the names of the crate.
impl From<Refusal> for Error {
    fn from(refusal: Refusal) -> Self {
        match refusal {
            Refusal::InvalidSize => Error::InvalidSize,
            Refusal::Unaligned => Error::InvalidDescTableAlign,
            Refusal::NotInGuest => Error::AddressOverflow,
            Refusal::NotInTable | Refusal::NotHandedOut => Error::InvalidDescriptorIndex,
            Refusal::UnexpectedIndirect | Refusal::IndirectGoesOn => Error::InvalidIndirectDescriptor,
            Refusal::InvalidIndirectLength => Error::InvalidIndirectDescriptorTable,
            Refusal::TooManyAvailable => Error::InvalidAvailRingIndex,
            Refusal::NotStarted => Error::QueueNotReady,
            _ => Error::InvalidChain,
        }
    }
}
