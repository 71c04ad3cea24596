// SPDX-License-Identifier: Apache-2.0
//! What came of a request that was refused, and which have a reply of their own.
use super::event::{u32_at, Message};
use crate::vhost_user::message::FrontendReq;
use crate::why::Came;

/// What is said of why it was refused.
pub(super) fn came_of(request: &Message) -> Came {
    Came {
        code: request.code(),
        flags: request.flags(),
        size: request.size(),
        bytes: request.body().len(),
        first: u32_at(request.body(), 0),
        fds: request.fds.len(),
        late_fds: request.body_fds,
    }
}

/// The requests that have a reply also without NEED_REPLY.
const REPLIED: &[FrontendReq] = &[
    // generated from protocol/requests.toml: requests with a reply
    FrontendReq::GET_FEATURES,
    FrontendReq::SET_LOG_BASE,
    FrontendReq::GET_VRING_BASE,
    FrontendReq::GET_PROTOCOL_FEATURES,
    FrontendReq::GET_QUEUE_NUM,
    FrontendReq::GET_CONFIG,
    FrontendReq::CREATE_CRYPTO_SESSION,
    FrontendReq::POSTCOPY_ADVISE,
    FrontendReq::GET_INFLIGHT_FD,
    FrontendReq::GET_MAX_MEM_SLOTS,
    FrontendReq::GET_STATUS,
    FrontendReq::GET_SHARED_OBJECT,
    FrontendReq::SET_DEVICE_STATE_FD,
    FrontendReq::CHECK_DEVICE_STATE,
    FrontendReq::GET_SHMEM_CONFIG,
    // end
];

/// Whether a request is one of them.
pub(super) fn has_own_reply(request: &Message) -> bool {
    request.request().map_or(false, |it| REPLIED.contains(&it))
}
