// SPDX-License-Identifier: Apache-2.0
//! Which records are bytes in memory, for programs that read and write them there. This package itself does neither.
use std::mem::size_of;

use vm_memory::ByteValued;

use crate::vhost_user::gpu_message::*;
use crate::vhost_user::message::*;

/// Each type, with the sizes of its fields one after another: its own size is their sum, so that no byte of it is padding.
macro_rules! byte_valued {
    ($($Name:ident: $($count:literal of $size:literal)+;)*) => {$(
        const _: () = assert!(size_of::<$Name>() == 0 $(+ $count * $size)+);

        // SAFETY: it is made of integers and of arrays of them, in their order, for which any bytes will do; and it has no padding, as its
        // size says.
        unsafe impl ByteValued for $Name {}
    )*};
}

byte_valued! {
    VhostUserEmpty: 0 of 1;
    VhostUserU64: 1 of 8;
    VhostUserMemory: 2 of 4;
    VhostUserMemoryRegion: 4 of 8;
    VhostUserSingleMemoryRegion: 5 of 8;
    VhostUserShMemConfig: 2 of 4 256 of 8;
    VhostUserVringState: 2 of 4;
    VhostUserVringAddr: 2 of 4 4 of 8;
    VhostUserConfig: 3 of 4;
    VhostUserLog: 2 of 8;
    VhostUserSharedMsg: 16 of 1;
    VhostUserTransferDeviceState: 2 of 4;
    VhostUserMMap: 8 of 1 4 of 8;
    VirtioGpuCtrlHdr: 2 of 4 1 of 8 1 of 4 4 of 1;
    VirtioGpuRect: 4 of 4;
    VirtioGpuDisplayOne: 6 of 4;
    VirtioGpuRespDisplayInfo: 24 of 1 96 of 4;
    VirtioGpuRespGetEdid: 24 of 1 2 of 4 1024 of 1;
    VhostUserGpuEdidRequest: 1 of 4;
    VhostUserGpuUpdate: 5 of 4;
    VhostUserGpuDMABUFScanout: 10 of 4;
    VhostUserGpuDMABUFScanout2: 10 of 4 1 of 8;
    VhostUserGpuCursorPos: 3 of 4;
    VhostUserGpuCursorUpdate: 5 of 4;
    VhostUserGpuScanout: 3 of 4;
}
