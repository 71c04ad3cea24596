// SPDX-License-Identifier: Apache-2.0
//! What `Debug` shows of a connection: nothing that a peer sent, and nothing that another thread's call keeps.
use std::fmt;
use std::os::unix::io::AsRawFd;

use super::{
    Backend, BackendListener, BackendReqHandler, Frontend, FrontendReqHandler, GpuBackend, VhostUserBackendReqHandler,
    VhostUserFrontendReqHandler,
};

impl fmt::Debug for Backend {
    fn fmt(&self, f: &mut fmt::Formatter<'_>) -> fmt::Result {
        f.debug_struct("Backend").finish_non_exhaustive()
    }
}

impl fmt::Debug for GpuBackend {
    fn fmt(&self, f: &mut fmt::Formatter<'_>) -> fmt::Result {
        f.debug_struct("GpuBackend").finish_non_exhaustive()
    }
}

impl fmt::Debug for Frontend {
    fn fmt(&self, f: &mut fmt::Formatter<'_>) -> fmt::Result {
        f.debug_struct("Frontend").field("fd", &self.as_raw_fd()).finish_non_exhaustive()
    }
}

impl<S: VhostUserBackendReqHandler> fmt::Debug for BackendReqHandler<S> {
    fn fmt(&self, f: &mut fmt::Formatter<'_>) -> fmt::Result {
        let mut all = f.debug_struct("BackendReqHandler");
        all.field("fd", &self.as_raw_fd()).field("last_request", &self.last_request()).finish_non_exhaustive()
    }
}

impl<S: VhostUserFrontendReqHandler> fmt::Debug for FrontendReqHandler<S> {
    fn fmt(&self, f: &mut fmt::Formatter<'_>) -> fmt::Result {
        f.debug_struct("FrontendReqHandler").field("fd", &self.as_raw_fd()).finish_non_exhaustive()
    }
}

impl<S: VhostUserBackendReqHandler> fmt::Debug for BackendListener<'_, S> {
    fn fmt(&self, f: &mut fmt::Formatter<'_>) -> fmt::Result {
        f.debug_struct("BackendListener").finish_non_exhaustive()
    }
}
