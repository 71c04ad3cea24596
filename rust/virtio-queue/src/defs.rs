// SPDX-License-Identifier: Apache-2.0
//! Sizes of a split queue's parts (virtio 1.2, 2.7). None is public.
/// The flags and the index, at which a ring begins.
pub(crate) const HEADER_SIZE: u64 = 4;
/// The event index, with which a ring ends.
pub(crate) const EVENT_SIZE: u64 = 2;
/// An entry of the available ring.
pub(crate) const AVAIL_ENTRY_SIZE: u64 = 2;
/// An entry of the used ring.
pub(crate) const USED_ENTRY_SIZE: u64 = 8;
/// A descriptor.
pub(crate) const DESCRIPTOR_SIZE: u64 = 16;
/// The greatest size of a queue that there is.
pub(crate) const MAX_QUEUE_SIZE: u16 = 32768;
