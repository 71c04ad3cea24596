// SPDX-License-Identifier: Apache-2.0
//! The codes, flags and records of the vhost-user-gpu channel, as far as a device holds them. The bytes of a message are made by the
//! proved library; of the two long replies that library checks the message, and their records are read here.
//!
//! What a device sends has the layout of the header's structs of the same fields, `covretin_display_scanout` and so on: it is passed
//! as it is.
#![allow(non_camel_case_types)]
#![allow(clippy::upper_case_acronyms)]
use bitflags::bitflags;

use super::message::{codes, flags, VhostUserMsgValidator};

/// The greatest number of screens.
pub const VIRTIO_GPU_MAX_SCANOUTS: usize = 16;

/// The sizes of the two long replies, in bytes.
pub(crate) const DISPLAY_INFO_SIZE: usize = HEAD_SIZE + VIRTIO_GPU_MAX_SCANOUTS * SCREEN_SIZE;
pub(crate) const EDID_SIZE: usize = HEAD_SIZE + 8 + 1024;
const HEAD_SIZE: usize = 24;
const SCREEN_SIZE: usize = 24;

codes! {
    /// The requests of a device to its display. What each is for, the vhost-user-gpu specification says under its name.
    #[allow(missing_docs)]
    pub enum GpuBackendReq {
        // generated from protocol/requests.toml: requests to a display
        GET_PROTOCOL_FEATURES = 1,
        SET_PROTOCOL_FEATURES = 2,
        GET_DISPLAY_INFO = 3,
        CURSOR_POS = 4,
        CURSOR_POS_HIDE = 5,
        CURSOR_UPDATE = 6,
        SCANOUT = 7,
        UPDATE = 8,
        DMABUF_SCANOUT = 9,
        DMABUF_UPDATE = 10,
        GET_EDID = 11,
        DMABUF_SCANOUT2 = 12,
        // end
    }
}

flags! {
    /// The flags of a message's header.
    pub struct VhostUserGpuHeaderFlag: u32 {
        /// The message is a reply.
        const REPLY = 0x4;
    }

    /// The features of the channel. As in the crate, each is the number of the bit that the specification gives it: so EDID has no
    /// bit here, and DMABUF2 has that of EDID.
    pub struct VhostUserGpuProtocolFeatures: u64 {
        /// The display replies to GET_EDID.
        const EDID = 0;
        /// The display accepts DMABUF_SCANOUT2.
        const DMABUF2 = 1;
    }
}

/// Records of fields that are sent or received.
macro_rules! records {
    ($($(#[$meta:meta])* pub struct $Name:ident { $($(#[$doc:meta])* pub $field:ident: $ty:ty,)* })*) => {$(
        $(#[$meta])*
        #[repr(C)]
        #[derive(Clone, Copy, Debug, Default, PartialEq, Eq)]
        pub struct $Name { $($(#[$doc])* pub $field: $ty,)* }

        impl VhostUserMsgValidator for $Name {}
    )*};
}

records! {
    /// A screen and its size, in pixels.
    pub struct VhostUserGpuScanout {
        /// The number of the screen.
        pub scanout_id: u32,
        /// 0: it is turned off.
        pub width: u32,
        /// Likewise.
        pub height: u32,
    }

    /// A rectangle of a screen, in pixels.
    pub struct VhostUserGpuUpdate {
        /// The number of the screen.
        pub scanout_id: u32,
        /// From the left.
        pub x: u32,
        /// From the top.
        pub y: u32,
        /// Its width.
        pub width: u32,
        /// Its height.
        pub height: u32,
    }

    /// A rectangle of a screen that shows a buffer of the graphics card, and the buffer's form.
    pub struct VhostUserGpuDMABUFScanout {
        /// The number of the screen.
        pub scanout_id: u32,
        /// The rectangle, from the left.
        pub x: u32,
        /// From the top.
        pub y: u32,
        /// Its width.
        pub width: u32,
        /// Its height.
        pub height: u32,
        /// The buffer's width, in pixels.
        pub fd_width: u32,
        /// The buffer's height, in pixels.
        pub fd_height: u32,
        /// How long a row of the buffer is, in bytes.
        pub fd_stride: u32,
        /// Bit 0: its first row is the lowest.
        pub fd_flags: u32,
        /// The format of its pixels, as `drm_fourcc.h` numbers them.
        pub fd_drm_fourcc: u32,
    }

    /// The same, with how the buffer's pixels are laid out.
    pub struct VhostUserGpuDMABUFScanout2 {
        /// The rectangle and the buffer.
        pub dmabuf_scanout: VhostUserGpuDMABUFScanout,
        /// The layout, as `drm_fourcc.h` numbers them.
        pub modifier: u64,
    }

    /// Where the cursor is on a screen, in pixels.
    pub struct VhostUserGpuCursorPos {
        /// The number of the screen.
        pub scanout_id: u32,
        /// From the left.
        pub x: u32,
        /// From the top.
        pub y: u32,
    }

    /// The same, with its image's hot spot.
    pub struct VhostUserGpuCursorUpdate {
        /// Where the cursor is.
        pub pos: VhostUserGpuCursorPos,
        /// The hot spot, from the image's left.
        pub hot_x: u32,
        /// From the image's top.
        pub hot_y: u32,
    }

    /// Which screen is asked what it says of itself.
    pub struct VhostUserGpuEdidRequest {
        /// The number of the screen.
        pub scanout_id: u32,
    }

    /// The head of a long reply, as that of a virtio-gpu device's.
    pub struct VirtioGpuCtrlHdr {
        /// The type of the reply.
        pub type_: u32,
        /// Flags of the reply.
        pub flags: u32,
        /// The number of the fence.
        pub fence_id: u64,
        /// The number of the context.
        pub ctx_id: u32,
        /// The number of the ring.
        pub ring_idx: u8,
        /// Not looked at.
        pub padding: [u8; 3],
    }

    /// A rectangle, in pixels.
    pub struct VirtioGpuRect {
        /// From the left.
        pub x: u32,
        /// From the top.
        pub y: u32,
        /// Its width.
        pub width: u32,
        /// Its height.
        pub height: u32,
    }

    /// A screen.
    pub struct VirtioGpuDisplayOne {
        /// Its rectangle.
        pub r: VirtioGpuRect,
        /// Not 0 where the screen is used.
        pub enabled: u32,
        /// Flags of the screen.
        pub flags: u32,
    }

    /// Which screens there are.
    pub struct VirtioGpuRespDisplayInfo {
        /// The head.
        pub hdr: VirtioGpuCtrlHdr,
        /// Each screen, at its number.
        pub pmodes: [VirtioGpuDisplayOne; VIRTIO_GPU_MAX_SCANOUTS],
    }
}

/// What a screen says of itself.
#[repr(C)]
#[derive(Clone, Copy, Debug, PartialEq, Eq)]
pub struct VirtioGpuRespGetEdid {
    /// The head.
    pub hdr: VirtioGpuCtrlHdr,
    /// How many bytes of `edid` count.
    pub size: u32,
    /// Not looked at.
    pub padding: u32,
    /// The bytes.
    pub edid: [u8; 1024],
}

impl Default for VirtioGpuRespGetEdid {
    fn default() -> Self {
        VirtioGpuRespGetEdid { hdr: VirtioGpuCtrlHdr::default(), size: 0, padding: 0, edid: [0; 1024] }
    }
}

impl VhostUserMsgValidator for VirtioGpuRespGetEdid {}

/// The next bytes of a record.
fn bytes<const N: usize>(record: &mut &[u8]) -> [u8; N] {
    let (first, rest) = record.split_at(N);
    *record = rest;
    let mut bytes = [0; N];
    bytes.copy_from_slice(first);
    bytes
}

/// The next number of a record.
fn word(record: &mut &[u8]) -> u32 {
    u32::from_le_bytes(bytes(record))
}

fn head(record: &mut &[u8]) -> VirtioGpuCtrlHdr {
    VirtioGpuCtrlHdr {
        type_: word(record),
        flags: word(record),
        fence_id: u64::from_le_bytes(bytes(record)),
        ctx_id: word(record),
        ring_idx: bytes::<1>(record)[0],
        padding: bytes(record),
    }
}

fn screen(record: &mut &[u8]) -> VirtioGpuDisplayOne {
    let r = VirtioGpuRect { x: word(record), y: word(record), width: word(record), height: word(record) };
    VirtioGpuDisplayOne { r, enabled: word(record), flags: word(record) }
}

impl VirtioGpuRespDisplayInfo {
    /// The record of these wire bytes.
    pub(super) fn of(wire: &[u8; DISPLAY_INFO_SIZE]) -> Self {
        let record = &mut &wire[..];
        VirtioGpuRespDisplayInfo { hdr: head(record), pmodes: [(); VIRTIO_GPU_MAX_SCANOUTS].map(|()| screen(record)) }
    }
}

impl VirtioGpuRespGetEdid {
    /// The record of these wire bytes.
    pub(super) fn of(wire: &[u8; EDID_SIZE]) -> Self {
        let record = &mut &wire[..];
        VirtioGpuRespGetEdid { hdr: head(record), size: word(record), padding: word(record), edid: bytes(record) }
    }
}
