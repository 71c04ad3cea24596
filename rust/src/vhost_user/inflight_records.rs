// SPDX-License-Identifier: Apache-2.0
//! What lies in an inflight region: for each ring a head, and behind it a state for each descriptor. The vhost-user specification says
//! what a backend writes there, under "Inflight I/O tracking".

/// The state of a descriptor of a split ring.
#[repr(C, packed)]
#[derive(Clone, Copy, Debug, Default, PartialEq, Eq)]
pub struct DescStateSplit {
    /// 1 while the request that begins with it is in flight.
    pub inflight: u8,
    padding: [u8; 5],
    /// The one before it in the list of the last batch.
    pub next: u16,
    /// Tells in which order the requests came.
    pub counter: u64,
}

impl DescStateSplit {
    /// Of a request that is not in flight.
    pub fn new() -> Self {
        Self::default()
    }
}

/// The head of a split ring.
#[repr(C, packed)]
#[derive(Clone, Copy, Debug, Default, PartialEq, Eq)]
pub struct QueueRegionSplit {
    /// Flags, of which there are none yet.
    pub features: u64,
    /// 1; 0: nothing was written yet.
    pub version: u16,
    /// How many states there are.
    pub desc_num: u16,
    /// With which request the list of the last batch begins.
    pub last_batch_head: u16,
    /// How many requests were given back by the used ring.
    pub used_idx: u16,
    /// Where the states begin. In the region itself they stand here.
    pub desc: u64,
}

impl QueueRegionSplit {
    /// Of a ring of this size, with nothing in flight.
    pub fn new(features: u64, queue_size: u16) -> Self {
        QueueRegionSplit { features, version: 1, desc_num: queue_size, ..Self::default() }
    }
}

/// The state of a descriptor of a packed ring.
#[repr(C, packed)]
#[derive(Clone, Copy, Debug, Default, PartialEq, Eq)]
pub struct DescStatePacked {
    /// 1 while the request that begins with it is in flight.
    pub inflight: u8,
    padding: u8,
    /// The next one of the request, or of the free ones.
    pub next: u16,
    /// The last one of the request.
    pub last: u16,
    /// How many descriptors the request has.
    pub num: u16,
    /// Tells in which order the requests came.
    pub counter: u64,
    /// The identifier of the buffer.
    pub id: u16,
    /// The flags of the descriptor.
    pub flags: u16,
    /// The size of the buffer, in bytes.
    pub len: u32,
    /// Where the buffer begins.
    pub addr: u64,
}

impl DescStatePacked {
    /// Of a request that is not in flight.
    pub fn new() -> Self {
        Self::default()
    }
}

/// The head of a packed ring.
#[repr(C, packed)]
#[derive(Clone, Copy, Debug, Default, PartialEq, Eq)]
pub struct QueueRegionPacked {
    /// Flags, of which there are none yet.
    pub features: u64,
    /// 1; 0: nothing was written yet.
    pub version: u16,
    /// How many states there are.
    pub desc_num: u16,
    /// The first of the free states.
    pub free_head: u16,
    /// The same before the last batch.
    pub old_free_head: u16,
    /// Where the next used descriptor is written.
    pub used_idx: u16,
    /// The same before the last batch.
    pub old_used_idx: u16,
    /// Which way the used bits are written there.
    pub used_wrap_counter: u8,
    /// The same before the last batch.
    pub old_used_wrap_counter: u8,
    padding: [u8; 7],
    /// Where the states begin. In the region itself they stand here.
    pub desc: u64,
}

impl QueueRegionPacked {
    /// Of a ring of this size, with nothing in flight.
    pub fn new(features: u64, queue_size: u16) -> Self {
        QueueRegionPacked { features, version: 1, desc_num: queue_size, ..Self::default() }
    }
}
