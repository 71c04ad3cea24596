// SPDX-License-Identifier: Apache-2.0
#![doc = include_str!("../README.md")]
#![deny(missing_debug_implementations)]
#![deny(missing_docs)]
#![deny(unsafe_code)]
#![deny(unsafe_op_in_unsafe_fn)]

use std::{error, fmt, io, result};

mod backend;
pub mod device;
#[allow(unsafe_code)]
mod foreign;
mod iotlb;
#[cfg(test)]
#[path = "tests/owning.rs"]
mod owning;
pub mod queue;
// (some are said in C alone, or by the log alone)
#[allow(dead_code)]
mod reasons;
pub mod tap;
mod telling;
pub mod vhost_user;
mod why;

pub use backend::*;
pub use iotlb::*;

/// Why a call of a [`VhostBackend`] failed. A [`Frontend`](vhost_user::Frontend) returns `VhostUserProtocol` alone, and
/// [`from_guest_region`](VhostUserMemoryRegionInfo::from_guest_region) returns `InvalidGuestMemoryRegion`; the others are for
/// backends of the caller.
#[derive(Debug)]
pub enum Error {
    /// The operation is not allowed.
    InvalidOperation,
    /// The guest memory can't be used.
    InvalidGuestMemory,
    /// The region of guest memory is mapped of no file.
    InvalidGuestMemoryRegion,
    /// The IOTLB message is malformed.
    InvalidIotlbMsg,
    /// The virtqueue can't be used.
    InvalidQueue,
    /// The descriptor table lies at no valid address.
    DescriptorTableAddress,
    /// The used ring lies at no valid address.
    UsedAddress,
    /// The available ring lies at no valid address.
    AvailAddress,
    /// The log lies at no valid address.
    LogAddress,
    /// The system failed.
    IOError(io::Error),
    /// The vhost-user protocol, or its connection, failed.
    VhostUserProtocol(vhost_user::Error),
}

impl fmt::Display for Error {
    fn fmt(&self, f: &mut fmt::Formatter<'_>) -> fmt::Result {
        f.write_str(match self {
            Error::InvalidOperation => "invalid vhost operations",
            Error::InvalidGuestMemory => "invalid guest memory object",
            Error::InvalidGuestMemoryRegion => "invalid guest memory region",
            Error::InvalidIotlbMsg => "invalid IOTLB message",
            Error::InvalidQueue => "invalid virtqueue",
            Error::DescriptorTableAddress => "invalid virtqueue descriptor table address",
            Error::UsedAddress => "invalid virtqueue used table address",
            Error::AvailAddress => "invalid virtqueue available table address",
            Error::LogAddress => "invalid virtqueue log address",
            Error::IOError(cause) => return write!(f, "IO error: {cause}"),
            Error::VhostUserProtocol(cause) => return write!(f, "vhost-user: {cause}"),
        })
    }
}

impl error::Error for Error {}

impl From<vhost_user::Error> for Error {
    fn from(cause: vhost_user::Error) -> Self {
        Error::VhostUserProtocol(cause)
    }
}

/// What a call of a [`VhostBackend`] returns.
pub type Result<T> = result::Result<T, Error>;
