// SPDX-License-Identifier: Apache-2.0
//! What an IOTLB is told, as the kernel's vhost devices and those of vDPA take it. It is here for backends of the caller: neither side of
//! this package sends or serves IOTLB_MSG.
use crate::Result;

/// What may be done with a range of addresses.
#[repr(u8)]
#[derive(Clone, Copy, Debug, Default, PartialEq, Eq, PartialOrd, Ord)]
pub enum VhostAccess {
    /// Nothing.
    #[default]
    No = 0,
    /// It may be read.
    ReadOnly = 1,
    /// It may be written.
    WriteOnly = 2,
    /// Both.
    ReadWrite = 3,
}

/// What a message is for.
#[repr(u8)]
#[derive(Clone, Copy, Debug, Default, PartialEq, Eq, PartialOrd, Ord)]
pub enum VhostIotlbType {
    /// Nothing.
    #[default]
    Empty = 0,
    /// A device wants to know where an address lies.
    Miss = 1,
    /// Where a range lies from now on.
    Update = 2,
    /// A range lies nowhere from now on.
    Invalidate = 3,
    /// A device may not do what it wanted to.
    AccessFail = 4,
    /// Messages begin that are one.
    BatchBegin = 5,
    /// They end.
    BatchEnd = 6,
}

/// A message to an IOTLB, or of one.
#[derive(Clone, Copy, Debug, Default, PartialEq, Eq)]
pub struct VhostIotlbMsg {
    /// Where the range begins for the device.
    pub iova: u64,
    /// Its size, in bytes.
    pub size: u64,
    /// Where it begins in this process.
    pub userspace_addr: u64,
    /// What may be done with it.
    pub perm: VhostAccess,
    /// What the message is for.
    pub msg_type: VhostIotlbType,
}

/// A message of another form, as a kernel has it.
pub trait VhostIotlbMsgParser {
    /// Puts it into `msg`. InvalidIotlbMsg: it is none.
    fn parse(&self, msg: &mut VhostIotlbMsg) -> Result<()>;
}

/// A backend with an IOTLB.
pub trait VhostIotlbBackend: Sized {
    /// Sends a message.
    fn send_iotlb_msg(&self, msg: &VhostIotlbMsg) -> Result<()>;
}
