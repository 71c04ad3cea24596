// SPDX-License-Identifier: Apache-2.0
//! Requests that the library does not serve, and that a backend may. Whatever it makes of one is right, but for its reply's form:
//! it is judged as another request that is replied to alike, and changes nothing.
use super::event::Message;
use crate::vhost_user::message::FrontendReq;

/// What stands for a request.
pub(super) enum StandIn {
    /// The bytes that are given to the session in its place.
    Bytes(Vec<u8>),
    /// Nothing: it is awaited to be replied to, and any reply will do.
    AnyReply,
}

/// What stands for this request; None where it stands for itself.
pub(super) fn stands_for(message: &Message) -> Option<StandIn> {
    match message.request()? {
        // Its reply is a record of its own;
        FrontendReq::CREATE_CRYPTO_SESSION => Some(StandIn::AnyReply),
        // a number. (The device is asked of all others.)
        FrontendReq::GET_STATUS => Some(ring_request(message, FrontendReq::GET_VRING_BASE)),
        _ => None,
    }
}

/// A request of this code for the first ring, with the flags of another.
fn ring_request(message: &Message, request: FrontendReq) -> StandIn {
    const RING: [u8; 8] = [0; 8];
    let mut bytes = u32::from(request).to_le_bytes().to_vec();
    bytes.extend_from_slice(&message.flags().to_le_bytes());
    bytes.extend_from_slice(&(RING.len() as u32).to_le_bytes());
    bytes.extend_from_slice(&RING);
    StandIn::Bytes(bytes)
}
