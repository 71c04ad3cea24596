// SPDX-License-Identifier: Apache-2.0
//! An event as a packet of Wireshark's "exported PDU": tags that name the dissector, a header that says what the event is, and then
//! its bytes. protocol/vhost_user.lua reads it.
//!
//! The header begins with a byte each for the layout's version, the kind of the event, its way and whether it is short. Then stand, all
//! little-endian: the header's length (4 bytes), the session (8), the time since the tap's start in ten thousandths of a second (8), how
//! many descriptors did not come with the first byte (4), and four lists, each behind its length (4): texts that say what the descriptors
//! are, at which bytes receives began that brought some, how many bytes each receive brought, and what else is said of the event, as a
//! list of one text or of none. A number of a list has 4 bytes; a text is its length (4) and its bytes.
use super::event::{Channel, Event, Message, Side, Way, What};
use super::pcapng::pad;

/// The name of the dissector.
const DISSECTOR: &str = "vhost_user";
/// The tag of a dissector's name. Tags are big-endian, and their values end at a multiple of four.
const TAG_OF_DISSECTOR: u16 = 12;
const LAST_TAG: [u8; 4] = [0; 4];

/// Which layout the header has.
const VERSION: u8 = 1;
/// Where the length of the header stands.
const LENGTH_AT: usize = 4;

/// What an event is, by its number in the header.
#[derive(Clone, Copy)]
enum Kind {
    Message = 0,
    Bytes = 1,
    Connected = 2,
    NotConnected = 3,
    Ended = 4,
    Waits = 5,
    Left = 6,
}

/// The way of an event that has none.
const NO_WAY: u8 = 0xff;

/// A way by its number: bit 0 says that the bytes are the backend's, bit 1 that they pass on the backend channel.
fn way_number(way: Way) -> u8 {
    u8::from(way.from == Side::Backend) | u8::from(way.channel == Channel::Backend) << 1
}

/// What is said of an event.
struct Said<'a> {
    kind: Kind,
    way: Option<Way>,
    message: Option<&'a Message>,
    text: Option<String>,
    bytes: &'a [u8],
}

fn said_of(what: &What) -> Said<'_> {
    let said = |kind, way| Said { kind, way, message: None, text: None, bytes: &[] };
    match what {
        What::Message(way, message) => Said { message: Some(message), bytes: &message.bytes, ..said(Kind::Message, Some(*way)) },
        What::Bytes(way, bytes) => Said { bytes, ..said(Kind::Bytes, Some(*way)) },
        What::Connected(Ok(())) => said(Kind::Connected, None),
        What::Connected(Err(cause)) => Said { text: Some(cause.clone()), ..said(Kind::NotConnected, None) },
        What::Ended(way, cause) => Said { text: cause.clone(), ..said(Kind::Ended, Some(*way)) },
        What::Waits(seconds, name) => {
            let text = format!("{seconds} s for the reply to {name}");
            Said { text: Some(text), ..said(Kind::Waits, Some(super::event::TO_FRONTEND)) }
        }
        What::Left => said(Kind::Left, None),
    }
}

/// A list behind its length.
fn put_list<T>(bytes: &mut Vec<u8>, list: &[T], put: impl Fn(&mut Vec<u8>, &T)) {
    put_count(bytes, &list.len());
    list.iter().for_each(|it| put(bytes, it));
}

fn put_count(bytes: &mut Vec<u8>, count: &usize) {
    bytes.extend((*count as u32).to_le_bytes());
}

fn put_text(bytes: &mut Vec<u8>, text: &String) {
    put_count(bytes, &text.len());
    bytes.extend(text.as_bytes());
}

/// What stands before an event's bytes.
fn header(event: &Event, ticks: u64, said: &Said<'_>) -> Vec<u8> {
    let none = Message::default();
    let message = said.message.unwrap_or(&none);
    let way = said.way.map_or(NO_WAY, way_number);
    let mut bytes = vec![VERSION, said.kind as u8, way, u8::from(message.is_short), 0, 0, 0, 0];
    bytes.extend(event.session.to_le_bytes());
    bytes.extend(ticks.to_le_bytes());
    put_count(&mut bytes, &message.body_fds);
    put_list(&mut bytes, &message.fds, put_text);
    put_list(&mut bytes, &message.fds_at, put_count);
    put_list(&mut bytes, &message.cuts, put_count);
    let texts: Vec<String> = said.text.iter().cloned().collect();
    put_list(&mut bytes, &texts, put_text);
    let length = bytes.len() as u32;
    bytes[LENGTH_AT..LENGTH_AT + 4].copy_from_slice(&length.to_le_bytes());
    bytes
}

/// The tag that names the dissector, and the end of tags.
fn tags() -> Vec<u8> {
    let mut name = DISSECTOR.as_bytes().to_vec();
    pad(&mut name);
    [&TAG_OF_DISSECTOR.to_be_bytes()[..], &(name.len() as u16).to_be_bytes(), &name, &LAST_TAG].concat()
}

/// The packet of an event, of which so many ten thousandths of a second have passed since the tap's start.
pub(super) fn exported(event: &Event, ticks: u64) -> Vec<u8> {
    let said = said_of(&event.what);
    [tags(), header(event, ticks, &said), said.bytes.to_vec()].concat()
}

#[cfg(test)]
mod tests {
    use super::super::event::{TO_BACKEND, TO_FRONTEND};
    use super::*;

    const TAGS: usize = 20;

    fn packet(what: What) -> Vec<u8> {
        exported(&Event { time: 0.5, session: 0x0102, what }, 5000)
    }

    #[test]
    fn it_begins_with_the_name_of_the_dissector() {
        assert_eq!(b"\x00\x0c\x00\x0cvhost_user\0\0\0\0\0\0"[..], packet(What::Left)[..TAGS]);
    }

    #[test]
    fn a_message_has_its_header_and_its_bytes() {
        let message = Message {
            bytes: vec![9; 3],
            fds: vec!["socket".to_string(), "a".to_string()],
            fds_at: vec![0, 12],
            body_fds: 1,
            cuts: vec![3],
            is_short: true,
        };
        let wanted: Vec<Vec<u8>> = vec![
            vec![1, 0, 0, 1, 71, 0, 0, 0, 2, 1, 0, 0, 0, 0, 0, 0, 0x88, 0x13, 0, 0, 0, 0, 0, 0, 1, 0, 0, 0],
            b"\x02\0\0\0\x06\0\0\0socket\x01\0\0\0a".to_vec(),
            b"\x02\0\0\0\0\0\0\0\x0c\0\0\0\x01\0\0\0\x03\0\0\0\0\0\0\0".to_vec(),
            vec![9; 3],
        ];
        assert_eq!(wanted.concat(), packet(What::Message(TO_BACKEND, message))[TAGS..]);
    }

    /// Of each event its kind, its way, its text and its bytes.
    #[test]
    fn each_event_has_a_kind_and_a_way() {
        let channel = |from| Way { channel: Channel::Backend, from };
        let empty = Message::default;
        for (what, kind, way, text, bytes) in [
            (What::Message(TO_FRONTEND, empty()), 0, 1, None, ""),
            (What::Message(channel(Side::Frontend), empty()), 0, 2, None, ""),
            (What::Message(channel(Side::Backend), empty()), 0, 3, None, ""),
            (What::Bytes(TO_BACKEND, b"raw".to_vec()), 1, 0, None, "raw"),
            (What::Connected(Ok(())), 2, 255, None, ""),
            (What::Connected(Err("nobody".to_string())), 3, 255, Some("nobody"), ""),
            (What::Ended(TO_FRONTEND, None), 4, 1, None, ""),
            (What::Ended(TO_BACKEND, Some("reset".to_string())), 4, 0, Some("reset"), ""),
            (What::Waits(5, "SET_OWNER".to_string()), 5, 1, Some("5 s for the reply to SET_OWNER"), ""),
            (What::Left, 6, 255, None, ""),
        ] {
            let packet = &packet(what)[TAGS..];
            assert_eq!([1, kind, way, 0], packet[..4]);
            let count = |it: usize| (it as u32).to_le_bytes().to_vec();
            let text = text.map_or(count(0), |it| [count(1), count(it.len()), it.as_bytes().to_vec()].concat());
            let wanted = [vec![0; 16], text, bytes.as_bytes().to_vec()].concat();
            assert_eq!(wanted, packet[24..]);
        }
    }
}
