// SPDX-License-Identifier: Apache-2.0
//! A backend that a frontend connects to.
use std::sync::Arc;

use super::{BackendReqHandler, Error, Listener, Result, VhostUserBackendReqHandler};

/// Waits for the frontend of a device.
pub struct BackendListener<'a, S: VhostUserBackendReqHandler> {
    listener: &'a mut Listener,
    device: Option<Arc<S>>,
}

impl<'a, S: VhostUserBackendReqHandler> BackendListener<'a, S> {
    /// A device that the first frontend at this socket gets.
    pub fn new(listener: &'a mut Listener, backend: Arc<S>) -> Result<Self> {
        Ok(BackendListener { listener, device: Some(backend) })
    }

    /// The next connection, and the device, which it takes along. None as [`Listener::accept`] returns it. InvalidOperation: it
    /// was taken before; nothing is accepted then. SocketError: the system refused.
    pub fn accept(&mut self) -> Result<Option<BackendReqHandler<S>>> {
        if self.device.is_none() {
            return Err(Error::InvalidOperation("the device was accepted before"));
        }
        let socket = self.listener.accept()?;
        let taken = socket.and_then(|socket| Some((socket, self.device.take()?)));
        Ok(taken.map(|(socket, device)| BackendReqHandler::from_stream(socket, device)))
    }

    /// Whether [`accept`](Self::accept) returns at once where nobody connects. SocketError: the system refused.
    pub fn set_nonblocking(&self, block: bool) -> Result<()> {
        self.listener.set_nonblocking(block)
    }
}
