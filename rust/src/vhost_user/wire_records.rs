// SPDX-License-Identifier: Apache-2.0
//! Records that stand only on the wire: this package's own calls neither take nor return one.
use super::message::{
    VhostTransferStateDirection, VhostTransferStatePhase, VhostUserMemoryRegion, VhostUserMsgValidator, VhostUserVringAddrFlags,
    MAX_ATTACHED_FD_ENTRIES,
};
use crate::VringConfigData;

/// A body without bytes.
#[derive(Clone, Copy, Debug, Default, PartialEq, Eq)]
pub struct VhostUserEmpty;

impl VhostUserMsgValidator for VhostUserEmpty {}

/// What a table of memory regions begins with.
#[repr(C, packed)]
#[derive(Clone, Copy, Debug, Default, PartialEq, Eq)]
pub struct VhostUserMemory {
    /// How many regions there are.
    pub num_regions: u32,
    /// 0.
    pub padding1: u32,
}

impl VhostUserMemory {
    /// The beginning of a table of so many regions.
    pub fn new(cnt: u32) -> Self {
        VhostUserMemory { num_regions: cnt, padding1: 0 }
    }
}

impl VhostUserMsgValidator for VhostUserMemory {
    fn is_valid(&self) -> bool {
        self.padding1 == 0 && (1..=MAX_ATTACHED_FD_ENTRIES as u32).contains(&{ self.num_regions })
    }
}

/// The regions of a table.
pub type VhostUserMemoryPayload = Vec<VhostUserMemoryRegion>;

/// Where a ring lies.
#[repr(C, packed)]
#[derive(Clone, Copy, Debug, Default, PartialEq, Eq)]
pub struct VhostUserVringAddr {
    /// The ring.
    pub index: u32,
    /// Bits of [`VhostUserVringAddrFlags`].
    pub flags: u32,
    /// Where the descriptor table begins.
    pub descriptor: u64,
    /// Where the used ring begins.
    pub used: u64,
    /// Where the available ring begins.
    pub available: u64,
    /// Where the used ring begins for the guest, to log writes to it.
    pub log: u64,
}

impl VhostUserVringAddr {
    /// A ring of these fields.
    pub fn new(index: u32, flags: VhostUserVringAddrFlags, descriptor: u64, used: u64, available: u64, log: u64) -> Self {
        VhostUserVringAddr { index, flags: flags.bits(), descriptor, used, available, log }
    }

    /// The ring of this number, as a frontend's call has it; 0 as its log address where there is none.
    pub fn from_config_data(index: u32, config_data: &VringConfigData) -> Self {
        VhostUserVringAddr {
            index,
            flags: config_data.flags,
            descriptor: config_data.desc_table_addr,
            used: config_data.used_ring_addr,
            available: config_data.avail_ring_addr,
            log: config_data.log_addr.unwrap_or(0),
        }
    }
}

impl VhostUserMsgValidator for VhostUserVringAddr {
    fn is_valid(&self) -> bool {
        let is_known = VhostUserVringAddrFlags::from_bits(self.flags).is_some();
        is_known && self.descriptor % 16 == 0 && self.available % 2 == 0 && self.used % 4 == 0
    }
}

/// Which way the state of a device goes, and in which phase.
#[repr(C, packed)]
#[derive(Clone, Copy, Debug, Default, PartialEq, Eq)]
pub struct VhostUserTransferDeviceState {
    /// The number of a [`VhostTransferStateDirection`].
    pub direction: u32,
    /// The number of a [`VhostTransferStatePhase`].
    pub phase: u32,
}

impl VhostUserTransferDeviceState {
    /// A transfer of these.
    pub fn new(direction: VhostTransferStateDirection, phase: VhostTransferStatePhase) -> Self {
        VhostUserTransferDeviceState { direction: direction.into(), phase: phase.into() }
    }
}

impl VhostUserMsgValidator for VhostUserTransferDeviceState {
    fn is_valid(&self) -> bool {
        let direction = VhostTransferStateDirection::try_from(self.direction);
        direction.is_ok() && VhostTransferStatePhase::try_from(self.phase).is_ok()
    }
}
