// SPDX-License-Identifier: Apache-2.0
//! A socket that the other side connects to.
use std::fs::remove_file;
use std::io::ErrorKind;
use std::os::unix::io::{AsRawFd, RawFd};
use std::os::unix::net::{UnixListener, UnixStream};
use std::path::{Path, PathBuf};

use super::{Error, Result};

/// Listens at a Unix socket. What it accepts, [`BackendReqHandler::from_stream`](super::BackendReqHandler::from_stream) and
/// [`Frontend::from_stream`](super::Frontend::from_stream) take.
#[derive(Debug)]
pub struct Listener {
    listener: UnixListener,
    path: Option<PathBuf>,
}

impl Listener {
    /// Listens at a path; with `unlink` what is there is removed before. SocketError: the system refused. The path is removed
    /// when the listener is dropped.
    pub fn new<P: AsRef<Path>>(path: P, unlink: bool) -> Result<Self> {
        if unlink {
            // Where there is nothing, or it can't be removed, the next call says so.
            let _ = remove_file(&path);
        }
        let listener = UnixListener::bind(&path).map_err(Error::SocketError)?;
        Ok(Listener { listener, path: Some(path.as_ref().to_owned()) })
    }

    /// The next connection. None where it would have to wait, after [`set_nonblocking`](Self::set_nonblocking), or where the
    /// other side gave up. SocketError: the system refused.
    pub fn accept(&self) -> Result<Option<UnixStream>> {
        loop {
            match self.listener.accept() {
                Ok((socket, _)) => return Ok(Some(socket)),
                Err(cause) => match cause.kind() {
                    ErrorKind::WouldBlock | ErrorKind::ConnectionAborted => return Ok(None),
                    ErrorKind::Interrupted => {}
                    _ => return Err(Error::SocketError(cause)),
                },
            }
        }
    }

    /// Whether [`accept`](Self::accept) returns at once where nobody connects. SocketError: the system refused.
    pub fn set_nonblocking(&self, block: bool) -> Result<()> {
        self.listener.set_nonblocking(block).map_err(Error::SocketError)
    }
}

impl AsRawFd for Listener {
    fn as_raw_fd(&self) -> RawFd {
        self.listener.as_raw_fd()
    }
}

/// Its path, if it has one, stays when the listener is dropped.
impl From<UnixListener> for Listener {
    fn from(listener: UnixListener) -> Self {
        Listener { listener, path: None }
    }
}

impl Drop for Listener {
    fn drop(&mut self) {
        if let Some(path) = &self.path {
            // Somebody may have removed it before.
            let _ = remove_file(path);
        }
    }
}
