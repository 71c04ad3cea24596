// SPDX-License-Identifier: Apache-2.0
//! The vhost-user-gpu channel, as a device asks on it: each call, as the crate `vhost` names it, is one of the proved session's.
use std::io;
use std::os::unix::io::{AsRawFd, RawFd};
use std::os::unix::net::UnixStream;
use std::result;
use std::sync::{Arc, Mutex, MutexGuard, PoisonError};
use std::time::Duration;

use super::connection::Connection;
use super::gpu_message::{
    VhostUserGpuCursorPos, VhostUserGpuCursorUpdate, VhostUserGpuDMABUFScanout, VhostUserGpuDMABUFScanout2,
    VhostUserGpuEdidRequest, VhostUserGpuScanout, VhostUserGpuUpdate, VirtioGpuRespDisplayInfo, VirtioGpuRespGetEdid,
};
use super::message::VhostUserU64;
use crate::foreign::{Code, DisplaySession, Outcome, Owning, PeerSocket};

/// The vhost-user-gpu channel: on it a graphics device makes requests of the display that its frontend has. A clone is the same
/// connection: each call is whole before another thread's begins.
///
/// A call waits for the display where it has a reply, as long as that likes where there is no
/// [limit of time](GpuBackend::set_timeout). Its errors are an [`Error`](super::Error) in an [`io::Error`]. After an error of the socket
/// or a malformed reply the channel is of no more use, but for an error by which nothing of the request was sent, as [`Error`](super::Error)
/// says.
#[derive(Clone)]
pub struct GpuBackend {
    node: Arc<Mutex<Connection<Owning<DisplaySession>>>>,
}

impl GpuBackend {
    /// The channel over a connected socket, whose read timeout becomes the limit of time. It panics where an allocation fails.
    pub fn from_stream(sock: UnixStream) -> Self {
        // (the crate's name for this returns no Result)
        let session = Owning::new(DisplaySession::open().expect("allocation of a session failed"));
        GpuBackend { node: Arc::new(Mutex::new(Connection::over(session, PeerSocket::given(sock)))) }
    }

    /// Which features of the channel the display has.
    pub fn get_protocol_features(&self) -> io::Result<VhostUserU64> {
        let features = self.call(DisplaySession::get_protocol_features, &[], DisplaySession::take_number)?;
        Ok(VhostUserU64::new(features))
    }

    /// Accepts these features.
    pub fn set_protocol_features(&self, msg: &VhostUserU64) -> io::Result<()> {
        self.tell(|session| session.set_protocol_features(msg.value))
    }

    /// Which screens there are.
    pub fn get_display_info(&self) -> io::Result<VirtioGpuRespDisplayInfo> {
        let record = self.call(DisplaySession::get_display_info, &[], DisplaySession::take_display_info)?;
        Ok(VirtioGpuRespDisplayInfo::of(&record))
    }

    /// What a screen says of itself.
    pub fn get_edid(&self, get_edid: &VhostUserGpuEdidRequest) -> io::Result<VirtioGpuRespGetEdid> {
        let record = self.call(|session| session.get_edid(get_edid.scanout_id), &[], DisplaySession::take_edid)?;
        Ok(VirtioGpuRespGetEdid::of(&record))
    }

    /// A screen has this size, or is turned off.
    pub fn set_scanout(&self, scanout: &VhostUserGpuScanout) -> io::Result<()> {
        self.tell(|session| session.set_scanout(scanout))
    }

    /// A rectangle of a screen has these pixels: 4 bytes are one, and a row follows the other. They are sent from where they are.
    pub fn update_scanout(&self, update: &VhostUserGpuUpdate, data: &[u8]) -> io::Result<()> {
        self.call(|session| session.update_scanout(update, data.len()), data, DisplaySession::take_reply)
    }

    /// A rectangle of a screen shows a buffer of the graphics card, whose descriptor stays the caller's.
    pub fn set_dmabuf_scanout(&self, scanout: &VhostUserGpuDMABUFScanout, fd: Option<&impl AsRawFd>) -> io::Result<()> {
        let fd = number_of(fd);
        self.tell(|session| session.set_dmabuf_scanout(scanout, fd))
    }

    /// The same, with how the buffer's pixels are laid out.
    pub fn set_dmabuf_scanout2(&self, scanout: &VhostUserGpuDMABUFScanout2, fd: Option<&impl AsRawFd>) -> io::Result<()> {
        let fd = number_of(fd);
        self.tell(|session| session.set_dmabuf_scanout2(scanout, fd))
    }

    /// A rectangle of that buffer has changed. The display has read it when this returns.
    pub fn update_dmabuf_scanout(&self, update: &VhostUserGpuUpdate) -> io::Result<()> {
        self.tell(|session| session.update_dmabuf_scanout(update))
    }

    /// The cursor is at this place.
    pub fn cursor_pos(&self, cursor_pos: &VhostUserGpuCursorPos) -> io::Result<()> {
        self.tell(|session| session.cursor_pos(cursor_pos))
    }

    /// The cursor is hidden.
    pub fn cursor_pos_hide(&self, cursor_pos: &VhostUserGpuCursorPos) -> io::Result<()> {
        self.tell(|session| session.cursor_pos_hide(cursor_pos))
    }

    /// The cursor has this image.
    pub fn cursor_update(&self, cursor_update: &VhostUserGpuCursorUpdate, data: &[u8; 4 * 64 * 64]) -> io::Result<()> {
        self.call(|session| session.cursor_update(cursor_update), data, DisplaySession::take_reply)
    }

    /// Limits the time of each call, all of it, with its pixels; None: no limit. A call that takes longer ends the channel:
    /// SocketBroken, with a cause of the kind `TimedOut`.
    pub fn set_timeout(&self, timeout: Option<Duration>) {
        self.node().set_timeout(timeout);
    }

    /// Ends the channel: each later call is SocketBroken by this number of the system.
    pub fn set_failed(&self, error: i32) {
        self.node().set_failed(error);
    }

    fn node(&self) -> MutexGuard<'_, Connection<Owning<DisplaySession>>> {
        // A thread that panicked amid a call left no half of a message: what ends one stands in the connection.
        self.node.lock().unwrap_or_else(PoisonError::into_inner)
    }

    /// A call without a value.
    fn tell(&self, ask: impl FnOnce(&mut DisplaySession) -> Outcome) -> io::Result<()> {
        self.call(ask, &[], DisplaySession::take_reply)
    }

    /// A call, with the pixels behind its request, whose reply is taken by its form.
    fn call<T>(
        &self,
        ask: impl FnOnce(&mut DisplaySession) -> Outcome,
        pixels: &[u8],
        take: impl FnOnce(&mut DisplaySession) -> result::Result<T, Code>,
    ) -> io::Result<T> {
        Ok(self.node().call_by(|session| ask(session), pixels, |session| take(session))?)
    }
}

/// The number of a descriptor, or what stands for none.
fn number_of(fd: Option<&impl AsRawFd>) -> RawFd {
    fd.map_or(-1, AsRawFd::as_raw_fd)
}

impl AsRawFd for GpuBackend {
    fn as_raw_fd(&self) -> RawFd {
        self.node().as_raw_fd()
    }
}
