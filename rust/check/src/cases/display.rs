// SPDX-License-Identifier: Apache-2.0
//! The display of a graphics device, which answers it wrongly.
use std::os::unix::net::UnixStream;

use super::channel::taken;
use super::*;
use crate::device::{Kind, BUFFERS, DATA};
use crate::patience::{settle, Patience};
use crate::ring::{Buffer, WRITE};
use crate::system::{is_readable, send};
use crate::target::Setup;

pub(super) const CASES: &[Case] = &[("GPU-01", wrong_display)];

/// How often the display answers, at most.
const MOST_ANSWERS: usize = 8;
/// The command of a guest that asks for its displays, of 24 bytes, and the reply's size.
const GET_DISPLAY_INFO: u32 = 0x100;
const COMMAND: u32 = 24;
const DISPLAYS: u32 = 408;

/// Answers a request of the device by a body that is too short: its number, where one has come.
fn answer_wrongly(display: &UnixStream, c: &Connection) -> Result<Option<u32>, Stop> {
    if !Patience::new(c.process, c.limit / 2).wait_until(|| is_readable(display, 0)) {
        return Ok(None);
    }
    let head = taken(display, 12, c)?;
    let [code, size] = [0, 8].map(|at| u32_at(&head, at));
    taken(display, size.min(1 << 16) as usize, c)?;
    send(display, &joined(&[&header(code, REPLY, 4), &u32s(&[0xffff_ffff])]), &[])?;
    Ok(Some(code))
}

fn wrong_display(t: &mut Target) -> Outcome {
    if t.kind()? != Kind::Graphics {
        return Err(Stop::Skip("it is no graphics device".to_string()));
    }
    let mut c = t.negotiate()?;
    let (display, given) = UnixStream::pair()?;
    c.send(Request::GPU_SET_SOCKET, &[], &[given.as_raw_fd()])?;
    drop(given);
    let mut rings = t.rings(&mut c, Setup::WHOLE)?;
    let ring = rings.driven();
    ring.write(BUFFERS, &joined(&[&u32s(&[GET_DISPLAY_INFO, 0]), &[0; 16]]));
    ring.describe_chain(0, &[Buffer::new(BUFFERS, COMMAND, 0), Buffer::new(DATA, DISPLAYS, WRITE)]);
    ring.push(0);
    let mut asked = Vec::new();
    while asked.len() < MOST_ANSWERS {
        match answer_wrongly(&display, &c) {
            Ok(Some(code)) => asked.push(code),
            _ => break,
        }
    }
    drop(display);
    settle(c.process);
    seen(c.is_usable()?, format!("it asked {asked:?} of the display; the connection goes on"))
}
