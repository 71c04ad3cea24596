// SPDX-License-Identifier: Apache-2.0
//! The sessions of `include/covretin_display.h`, as that header declares them. What each call does, and when each error comes,
//! stands there. The records that a call is given are the header's structs.
use std::os::unix::io::RawFd;

use super::moving::{calls, outcome, records, sessions, values, Asks, Code, Moves, Outcome, Raw, MAX_FDS, MAX_MESSAGE};
use super::owning::Owning;
use crate::vhost_user::gpu_message::{
    VhostUserGpuCursorPos, VhostUserGpuCursorUpdate, VhostUserGpuDMABUFScanout, VhostUserGpuDMABUFScanout2, VhostUserGpuScanout,
    VhostUserGpuUpdate, DISPLAY_INFO_SIZE, EDID_SIZE,
};

sessions! {
    /// A device's session on the vhost-user-gpu channel.
    DisplaySession: "covretin_display_", open();
}

calls! {
    DisplaySession:
    take_reply = covretin_display_take();
    get_protocol_features = covretin_display_ask_get_protocol_features();
    set_protocol_features = covretin_display_ask_set_protocol_features(features: u64);
    get_display_info = covretin_display_ask_get_display_info();
    get_edid = covretin_display_ask_get_edid(scanout_id: u32);
    set_scanout = covretin_display_ask_set_scanout(scanout: &VhostUserGpuScanout);
    update_scanout = covretin_display_ask_update_scanout(update: &VhostUserGpuUpdate, pixels_len: usize);
    set_dmabuf_scanout = covretin_display_ask_set_dmabuf_scanout(scanout: &VhostUserGpuDMABUFScanout, fd: i32);
    set_dmabuf_scanout2 = covretin_display_ask_set_dmabuf_scanout2(scanout: &VhostUserGpuDMABUFScanout2, fd: i32);
    update_dmabuf_scanout = covretin_display_ask_update_dmabuf_scanout(update: &VhostUserGpuUpdate);
    cursor_pos = covretin_display_ask_cursor_pos(cursor: &VhostUserGpuCursorPos);
    cursor_pos_hide = covretin_display_ask_cursor_pos_hide(cursor: &VhostUserGpuCursorPos);
    cursor_update = covretin_display_ask_cursor_update(update: &VhostUserGpuCursorUpdate);
}

values! {
    DisplaySession:
    take_number = covretin_display_take_number(number: u64 = 0) -> u64;
}

records! {
    DisplaySession:
    take_display_info = covretin_display_take_display_info() -> [u8; DISPLAY_INFO_SIZE];
    take_edid = covretin_display_take_edid() -> [u8; EDID_SIZE];
}

impl Asks for Owning<DisplaySession> {
    type Session = DisplaySession;

    fn owning(&mut self) -> &mut Owning<DisplaySession> {
        self
    }

    fn take(&mut self) -> Outcome {
        self.take_reply()
    }
}
