// SPDX-License-Identifier: Apache-2.0
//! A call that the session asks of the device: whether its reply is awaited, and how a reply that came gives the device's answer.
use super::event::{number_at, u32_at, Message};
use super::judge::Agreed;
use crate::foreign::{BackendSession, Code, Inflight, Outcome, Region, CALL_OTHER, MAX_FDS};
use crate::vhost_user::message::{FrontendReq, VhostUserHeaderFlag};

/// A number that stands for a descriptor of a message. The session only passes it on.
const SOME_FD: i32 = 1;

/// What a device replies that uses the frontend's own descriptor for its state.
const OWN_FD: u64 = 0x100;

/// Stand-ins for so many descriptors.
pub(super) fn stand_ins(count: usize) -> Vec<i32> {
    vec![SOME_FD; count]
}

/// What the reply to a call is made of.
#[derive(Clone, Copy, Debug, PartialEq, Eq)]
pub(super) enum Form {
    /// Nothing, or an acknowledgement of that.
    Done,
    /// The same, and it has a reply in any case.
    Told,
    /// No reply at all.
    Nothing,
    /// The record of the request.
    Same,
    Number,
    Ring,
    /// Where so many regions are mapped.
    Bases(usize),
    Config,
    Fd,
    Transfer,
    Inflight,
    Shmem,
}

/// The form of a call by its number.
pub(super) fn form_of(session: &mut BackendSession, call: u32) -> Result<Form, Code> {
    use FrontendReq::*;
    let request = match FrontendReq::try_from(call) {
        Ok(request) => request,
        Err(()) if call == CALL_OTHER => return Ok(Form::Done),
        // The frontend mapped regions.
        Err(()) => return Ok(Form::Nothing),
    };
    Ok(match request {
        // generated from protocol/requests.toml: forms
        GET_FEATURES => Form::Number,
        SET_FEATURES => Form::Done,
        SET_OWNER => Form::Done,
        RESET_OWNER => Form::Done,
        SET_MEM_TABLE => bases_or_done(session)?,
        SET_LOG_BASE => Form::Same,
        SET_LOG_FD => Form::Done,
        SET_VRING_NUM => Form::Done,
        SET_VRING_ADDR => Form::Done,
        SET_VRING_BASE => Form::Done,
        GET_VRING_BASE => Form::Ring,
        SET_VRING_KICK => Form::Done,
        SET_VRING_CALL => Form::Done,
        SET_VRING_ERR => Form::Done,
        GET_PROTOCOL_FEATURES => Form::Number,
        SET_PROTOCOL_FEATURES => Form::Done,
        GET_QUEUE_NUM => Form::Number,
        SET_VRING_ENABLE => Form::Done,
        SEND_RARP => Form::Done,
        NET_SET_MTU => Form::Done,
        SET_BACKEND_REQ_FD => Form::Done,
        IOTLB_MSG => Form::Done,
        SET_VRING_ENDIAN => Form::Done,
        GET_CONFIG => Form::Config,
        SET_CONFIG => Form::Done,
        CREATE_CRYPTO_SESSION => Form::Done,
        CLOSE_CRYPTO_SESSION => Form::Done,
        POSTCOPY_ADVISE => Form::Fd,
        POSTCOPY_LISTEN => Form::Done,
        POSTCOPY_END => Form::Done,
        GET_INFLIGHT_FD => Form::Inflight,
        SET_INFLIGHT_FD => Form::Done,
        GPU_SET_SOCKET => Form::Done,
        RESET_DEVICE => Form::Done,
        VRING_KICK => Form::Done,
        GET_MAX_MEM_SLOTS => Form::Number,
        ADD_MEM_REG => bases_or_done(session)?,
        REM_MEM_REG => Form::Done,
        SET_STATUS => Form::Done,
        GET_STATUS => Form::Done,
        GET_SHARED_OBJECT => Form::Fd,
        SET_DEVICE_STATE_FD => Form::Transfer,
        CHECK_DEVICE_STATE => Form::Told,
        GET_SHMEM_CONFIG => Form::Shmem,
        // end
    })
}

/// The form of a call that is replied to by where its regions are mapped, while postcopy listens.
fn bases_or_done(session: &mut BackendSession) -> Result<Form, Code> {
    Ok(match session.regions(&mut [Region::NONE; MAX_FDS])? {
        (count, true) => Form::Bases(count),
        (_, false) => Form::Done,
    })
}

/// Whether the frontend awaits a reply to a call of this form.
pub(super) fn is_awaited(form: Form, message: &Message, agreed: &Agreed) -> bool {
    match form {
        Form::Nothing => false,
        Form::Done => message.has_flag(VhostUserHeaderFlag::NEED_REPLY) && agreed.acknowledges(),
        _ => true,
    }
}

/// Gives the session the answer that this reply holds. Where the reply has another size than one of that form, what of it is there.
pub(super) fn answer(session: &mut BackendSession, form: Form, reply: &Message) -> Outcome {
    let body = reply.body();
    let fd = reply.own_fds().checked_sub(1).map(|_| SOME_FD);
    match form {
        Form::Done | Form::Told if number_at(body, 0, 8) != 0 => session.reply_refused(),
        Form::Bases(_) if body.len() == 8 && u32_at(body, 0) != 0 => session.reply_refused(),
        Form::Done | Form::Told | Form::Same | Form::Nothing => session.reply_done(),
        Form::Number => session.reply_number(number_at(body, 0, 8)),
        Form::Ring => session.reply_ring(u32_at(body, 0), u32_at(body, 4)),
        Form::Bases(count) => session.reply_bases(&bases_of(body, count)),
        Form::Config => match body.get(12..).filter(|bytes| !bytes.is_empty()) {
            Some(bytes) => session.reply_config(bytes),
            None => session.reply_refused(),
        },
        Form::Fd | Form::Transfer => match fd {
            Some(fd) => session.reply_fd(fd),
            None if form == Form::Transfer && number_at(body, 0, 8) == OWN_FD => session.reply_fd(-1),
            None => session.reply_refused(),
        },
        Form::Inflight if fd.is_none() && number_at(body, 0, 8) == 0 => session.reply_refused(),
        Form::Inflight => session.reply_inflight(&inflight_of(body), SOME_FD),
        Form::Shmem => session.reply_shmem(&sizes_of(body), u32_at(body, 0)),
    }
}

/// Whether a reply of this form says that the device refused.
pub(super) fn is_refusal(form: Form, reply: &Message) -> bool {
    match form {
        Form::Done | Form::Told => number_at(reply.body(), 0, 8) != 0,
        Form::Bases(_) => reply.body().len() == 8,
        Form::Config => reply.body().len() <= 12,
        Form::Fd | Form::Inflight => reply.own_fds() == 0,
        Form::Transfer => reply.own_fds() == 0 && number_at(reply.body(), 0, 8) != OWN_FD,
        _ => false,
    }
}

/// The user addresses of the last so many regions of a body: behind each, its offset.
fn bases_of(body: &[u8], count: usize) -> Vec<u64> {
    (0..count).map(|at| number_at(body, 8 + 32 * at + 16, 8)).collect()
}

fn inflight_of(body: &[u8]) -> Inflight {
    Inflight {
        mmap_size: number_at(body, 0, 8),
        mmap_offset: number_at(body, 8, 8),
        num_queues: number_at(body, 16, 2) as u16,
        queue_size: number_at(body, 18, 2) as u16,
    }
}

fn sizes_of(body: &[u8]) -> [u64; 256] {
    let mut sizes = [0; 256];
    for (at, size) in sizes.iter_mut().enumerate() {
        *size = number_at(body, 8 + 8 * at, 8);
    }
    sizes
}
