// SPDX-License-Identifier: Apache-2.0
//! The blocks of a pcapng file: a section, an interface, and packets. All numbers are little-endian, which the section says.

/// "exported PDU": a packet's first bytes name the dissector of the others.
const UPPER_PDU: u16 = 252;
const SECTION: u32 = 0x0a0d_0d0a;
const BYTE_ORDER: u32 = 0x1a2b_3c4d;
const INTERFACE: u32 = 1;
const PACKET: u32 = 6;
/// What a block has beside its body: its type, and its length before and behind the body.
const AROUND: usize = 12;
const ALIGNMENT: usize = 4;

/// The codes of options.
const COMMENT: u16 = 1;
const NAME: u16 = 2;
const DESCRIPTION: u16 = 3;
const APPLICATION: u16 = 4;
const RESOLUTION: u16 = 9;

/// Times are counted in 10 to this power's parts of a second.
const MICROSECONDS: u8 = 6;

/// Fills bytes up with zeros, so that their length is a multiple of four.
pub(super) fn pad(bytes: &mut Vec<u8>) {
    bytes.resize((bytes.len() + ALIGNMENT - 1) / ALIGNMENT * ALIGNMENT, 0);
}

/// The bytes of these numbers.
fn words(numbers: &[u32]) -> Vec<u8> {
    numbers.iter().flat_map(|it| it.to_le_bytes()).collect()
}

/// A block of this type.
fn block(of: u32, mut body: Vec<u8>) -> Vec<u8> {
    pad(&mut body);
    let length = (AROUND + body.len()) as u32;
    [words(&[of, length]), body, words(&[length])].concat()
}

/// An option. Its length has 16 bits, so that a longer value is cut.
fn option(code: u16, value: &[u8]) -> Vec<u8> {
    let value = &value[..value.len().min(usize::from(u16::MAX))];
    let mut bytes = [&code.to_le_bytes()[..], &(value.len() as u16).to_le_bytes(), value].concat();
    pad(&mut bytes);
    bytes
}

/// These options and their end; or nothing, where there is none.
fn options(all: &[Vec<u8>]) -> Vec<u8> {
    match all {
        [] => Vec::new(),
        all => [all.concat(), option(0, &[])].concat(),
    }
}

/// What the file begins with: a section of unknown length, which goes on to the file's end, and its one interface.
pub(super) fn head(application: &str, name: &str, description: &str) -> Vec<u8> {
    let version_and_length = words(&[BYTE_ORDER, 1, u32::MAX, u32::MAX]);
    let section = [version_and_length, options(&[option(APPLICATION, application.as_bytes())])].concat();
    let texts = [option(NAME, name.as_bytes()), option(DESCRIPTION, description.as_bytes())].concat();
    // (a limit of 0 bytes a packet is none)
    let interface = [words(&[u32::from(UPPER_PDU), 0]), options(&[texts, option(RESOLUTION, &[MICROSECONDS])])].concat();
    [block(SECTION, section), block(INTERFACE, interface)].concat()
}

/// A packet of the one interface, at this time, and its comments.
pub(super) fn packet(microseconds: u64, bytes: &[u8], comments: &[String]) -> Vec<u8> {
    let length = bytes.len() as u32;
    let mut body = words(&[0, (microseconds >> 32) as u32, microseconds as u32, length, length]);
    body.extend_from_slice(bytes);
    pad(&mut body);
    let comments: Vec<Vec<u8>> = comments.iter().map(|it| option(COMMENT, it.as_bytes())).collect();
    body.extend(options(&comments));
    block(PACKET, body)
}

#[cfg(test)]
mod tests {
    use super::super::event::{number_at, u32_at};
    use super::*;

    /// The blocks of a file, each without its type and lengths, which are looked at.
    fn blocks(file: &[u8]) -> Vec<(u32, &[u8])> {
        let (mut found, mut rest) = (Vec::new(), file);
        while !rest.is_empty() {
            let length = u32_at(rest, 4) as usize;
            assert_eq!((0, length), (length % ALIGNMENT, u32_at(rest, length - 4) as usize));
            found.push((u32_at(rest, 0), &rest[8..length - 4]));
            rest = &rest[length..];
        }
        found
    }

    /// The options of a block, which end with one of the code 0, behind which nothing stands.
    fn options_of(mut bytes: &[u8]) -> Vec<(u64, &[u8])> {
        let mut found = Vec::new();
        while !bytes.is_empty() {
            let (code, length) = (number_at(bytes, 0, 2), number_at(bytes, 2, 2) as usize);
            found.push((code, &bytes[4..4 + length]));
            bytes = &bytes[4 + (length + 3) / 4 * 4..];
        }
        assert!(matches!(found.pop(), None | Some((0, []))));
        found
    }

    #[test]
    fn a_file_begins_with_its_section_and_interface() {
        let file = head("covretin-tap 1", "vhost-user", "a recording");
        let blocks = blocks(&file);
        assert_eq!(vec![SECTION, INTERFACE], blocks.iter().map(|(of, _)| *of).collect::<Vec<_>>());
        let (section, interface) = (blocks[0].1, blocks[1].1);
        assert_eq!((BYTE_ORDER, 1, u64::MAX), (u32_at(section, 0), u32_at(section, 4), number_at(section, 8, 8)));
        assert_eq!(vec![(4, &b"covretin-tap 1"[..])], options_of(&section[16..]));
        assert_eq!((252, 0, 0), (number_at(interface, 0, 2), number_at(interface, 2, 2), u32_at(interface, 4)));
        let wanted: Vec<(u64, &[u8])> = vec![(2, b"vhost-user"), (3, b"a recording"), (9, &[6])];
        assert_eq!(wanted, options_of(&interface[8..]));
    }

    /// Of each length that its bytes and comments may have beside a multiple of four.
    #[test]
    fn a_packet_has_its_time_and_bytes_and_comments() {
        for length in 0..9 {
            let (bytes, comment) = (vec![7; length], "!".repeat(length));
            let packet = packet(0x0001_2345_6789_abcd, &bytes, &[comment.clone(), "~".to_string()]);
            let blocks = blocks(&packet);
            let (of, body) = blocks[0];
            assert_eq!((1, PACKET, 0), (blocks.len(), of, u32_at(body, 0)));
            assert_eq!((0x0001_2345, 0x6789_abcd), (u32_at(body, 4), u32_at(body, 8)));
            assert_eq!((length, length), (u32_at(body, 12) as usize, u32_at(body, 16) as usize));
            let end = 20 + (length + 3) / 4 * 4;
            assert_eq!((&bytes[..], true), (&body[20..20 + length], body[20 + length..end].iter().all(|it| *it == 0)));
            assert_eq!(vec![(1, comment.as_bytes()), (1, b"~")], options_of(&body[end..]));
        }
    }

    #[test]
    fn a_packet_without_comments_has_no_options() {
        assert_eq!(AROUND + 20 + 4, packet(0, &[1], &[]).len());
    }

    /// It is cut, and what is behind it is still found.
    #[test]
    fn a_comment_that_is_too_long() {
        let long = "a".repeat(0x1_0001);
        let packet = packet(0, &[], &[long, "b".to_string()]);
        let options = options_of(&blocks(&packet)[0].1[20..]);
        assert_eq!((0xffff, &b"b"[..]), (options[0].1.len(), options[1].1));
    }
}
