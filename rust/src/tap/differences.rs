// SPDX-License-Identifier: Apache-2.0
//! What a reply has in another way than the one that the session wrote for the same answer.
use super::call::Form;
use super::event::{number_at, Message, TO_FRONTEND};
use super::layout::{fields_of, name_of};
use super::show::fields_text;
use crate::reasons::{self, count_of};
use crate::vhost_user::message::{FrontendReq, VhostUserHeaderFlag, VhostUserProtocolFeatures};

/// What a reply has in another way.
pub(super) struct Differences {
    pub(super) header: Vec<String>,
    pub(super) body: Option<String>,
}

/// Each difference from what was written, with so many descriptors, to a call of this form.
pub(super) fn differences(form: Form, written: Vec<u8>, fds: usize, reply: &Message) -> Differences {
    let mut wanted = Message { bytes: written, ..Message::default() };
    // (where another request stood for it)
    wanted.bytes[..4].copy_from_slice(&reply.bytes[..4]);
    let name = name_of(TO_FRONTEND, reply);
    let told = |it: String| format!("the reply to {name} has {it}");
    let header = [flags(reply, &wanted), descriptors(reply, fds)];
    Differences { header: header.into_iter().flatten().map(told).collect(), body: body(form, reply, &wanted).map(told) }
}

/// NEED_REPLY does not count: a frontend does not look at it.
fn flags(reply: &Message, wanted: &Message) -> Option<String> {
    let counting = |it: &Message| it.flags() & !VhostUserHeaderFlag::NEED_REPLY.bits();
    let is_other = counting(reply) != counting(wanted);
    is_other.then(|| format!("the flags {:#x}, and not {:#x}", reply.flags(), wanted.flags()))
}

fn descriptors(reply: &Message, wanted: usize) -> Option<String> {
    let place = if reply.body_fds != 0 { reasons::LATE } else { "" };
    let is_other = reply.fds.len() != wanted || reply.body_fds != 0;
    is_other.then(|| format!("{}{place}, and not {wanted}", count_of(reply.fds.len() as u64, "descriptor")))
}

fn body(form: Form, reply: &Message, wanted: &Message) -> Option<String> {
    let (came, table) = (reply.body(), wanted.body());
    if came.len() != table.len() {
        return Some(format!("{} of body, and not {}", count_of(came.len() as u64, "byte"), table.len()));
    }
    let plain = |body| plain_body(reply.request(), form, body);
    let text = |message| fields_text(&fields_of(TO_FRONTEND, message)).trim_start().to_string();
    (plain(came) != plain(table)).then(|| format!("{}, and not {}", text(reply), text(wanted)))
}

/// The body of a reply, where what means the same is the same: each failure is 1, what is reserved is 0, and the acknowledgement
/// that the session always offers is there.
fn plain_body(request: Option<FrontendReq>, form: Form, body: &[u8]) -> Vec<u8> {
    let mut body = body.to_vec();
    match form {
        Form::Done | Form::Told | Form::Bases(_) if body.len() == 8 => {
            body = u64::from(number_at(&body, 0, 8) != 0).to_le_bytes().to_vec()
        }
        Form::Inflight if body.len() == 24 => body[20..].fill(0),
        Form::Bases(_) | Form::Shmem if body.len() >= 8 => body[4..8].fill(0),
        Form::Number if request == Some(FrontendReq::GET_PROTOCOL_FEATURES) && !body.is_empty() => {
            body[0] |= VhostUserProtocolFeatures::REPLY_ACK.bits() as u8;
        }
        _ => {}
    }
    body
}
