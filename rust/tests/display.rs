// SPDX-License-Identifier: Apache-2.0
//! The vhost-user-gpu channel: each call of a device, by what its display sees of it and replies; pixels of any size; and displays
//! that are hostile, slow or gone.
mod common;

use std::fs::File;
use std::io::{self, Read};
use std::mem::size_of;
use std::net::Shutdown;
use std::os::unix::io::AsRawFd;
use std::os::unix::net::UnixStream;
use std::sync::{Arc, Mutex};
use std::thread;
use std::time::Duration;

use common::device::*;
use common::machine::wait_until;
use common::*;
use covretin::vhost_user::gpu_message::*;
use covretin::vhost_user::message::VhostUserU64;
use covretin::vhost_user::GpuBackend;

/// The flags of a reply on this channel, where requests have none.
const REPLY: u32 = 4;

const UPDATE: VhostUserGpuUpdate =
    VhostUserGpuUpdate { scanout_id: 1, x: 0x302, y: 0x706_0504, width: 0x908, height: 0xd0c_0b0a };
const POS: VhostUserGpuCursorPos = VhostUserGpuCursorPos { scanout_id: 1, x: 0x302, y: 0x706_0504 };
const CURSOR: VhostUserGpuCursorUpdate = VhostUserGpuCursorUpdate { pos: POS, hot_x: 0x908, hot_y: 0xd0c_0b0a };
const SCREEN: VhostUserGpuScanout = VhostUserGpuScanout { scanout_id: 1, width: 0x302, height: 0x706_0504 };
const BUFFER: VhostUserGpuDMABUFScanout = VhostUserGpuDMABUFScanout {
    scanout_id: 1,
    x: 0x302,
    y: 0x706_0504,
    width: 0x908,
    height: 0xd0c_0b0a,
    fd_width: 16,
    fd_height: 17,
    fd_stride: 0x1312,
    fd_flags: 1,
    fd_drm_fourcc: 0x3432_5258,
};
const BUFFER2: VhostUserGpuDMABUFScanout2 = VhostUserGpuDMABUFScanout2 { dmabuf_scanout: BUFFER, modifier: 0x100_0000_0000_0002 };

/// The wire bytes of these.
const PLACE: &str = "01000000 02030000 04050607";
const RECTANGLE: &str = "01000000 02030000 04050607 08090000 0a0b0c0d";
const FORM: &str = "10000000 11000000 12130000 01000000 58523234";

type Call = fn(&GpuBackend, &File) -> io::Result<()>;

/// Each call without pixels and without a reply: its request, and how many descriptors that has.
fn tellings() -> Vec<(Call, u32, String, usize)> {
    let layout = "0200000000000001";
    vec![
        (|it, _| it.set_protocol_features(&VhostUserU64::new(3 << 62)), 2, "00000000000000c0".into(), 0),
        (|it, _| it.cursor_pos(&POS), 4, PLACE.into(), 0),
        (|it, _| it.cursor_pos_hide(&POS), 5, PLACE.into(), 0),
        (|it, _| it.set_scanout(&SCREEN), 7, PLACE.into(), 0),
        (|it, file| it.set_dmabuf_scanout(&BUFFER, Some(file)), 9, format!("{RECTANGLE} {FORM}"), 1),
        (|it, _| it.set_dmabuf_scanout(&BUFFER, None::<&File>), 9, format!("{RECTANGLE} {FORM}"), 0),
        (|it, file| it.set_dmabuf_scanout2(&BUFFER2, Some(file)), 12, format!("{RECTANGLE} {FORM} {layout}"), 1),
        (|it, _| it.set_dmabuf_scanout2(&BUFFER2, None::<&File>), 12, format!("{RECTANGLE} {FORM} {layout}"), 0),
    ]
}

/// Each call that has a reply: its request, and the size of the reply's record.
fn askings() -> Vec<(Call, u32, String, usize)> {
    vec![
        (|it, _| it.get_protocol_features().map(|_| ()), 1, String::new(), 8),
        (|it, _| it.get_display_info().map(|_| ()), 3, String::new(), 408),
        (|it, _| it.get_edid(&VhostUserGpuEdidRequest { scanout_id: 0x302 }).map(|_| ()), 11, "02030000".into(), 1056),
        (|it, _| it.update_dmabuf_scanout(&UPDATE), 10, RECTANGLE.into(), 0),
    ]
}

/// A device's channel, and the display's end.
fn asking() -> (GpuBackend, Peer) {
    let (mine, other) = UnixStream::pair().unwrap();
    other.set_read_timeout(Some(Duration::from_secs(20))).unwrap();
    (GpuBackend::from_stream(mine), Peer { socket: other })
}

/// So many bytes: 1, 2, 3 and on.
fn counting(size: usize) -> Vec<u8> {
    (1..=size).map(|it| it as u8).collect()
}

fn text<T>(result: io::Result<T>) -> String {
    result.err().map_or("success".into(), |error| error.to_string())
}

#[test]
fn each_call_without_a_reply() {
    counted(|| {
        let (channel, peer) = asking();
        for (call, code, body, count) in tellings() {
            let file = memory_file();
            call(&channel, &file).unwrap();
            let came = peer.hear(&message(code, 0, &hex(&body)));
            assert_eq!(vec![identity(&file); count], came.iter().map(identity).collect::<Vec<_>>());
            assert!(is_open(&file));
        }
        drop(channel);
        peer.silence();
    });
}

#[test]
fn each_call_with_a_reply() {
    counted(|| {
        let (channel, peer) = asking();
        let file = memory_file();
        for (call, code, body, size) in askings() {
            peer.say(&message(code, REPLY, &counting(size)), &[]);
            call(&channel, &file).unwrap();
            peer.hear(&message(code, 0, &hex(&body)));
        }
        drop(channel);
        peer.silence();
    });
}

/// A descriptor is asked for its number before the channel is locked: it may be the channel's own.
#[test]
fn the_channel_as_a_buffer() {
    counted(|| {
        let (channel, peer) = asking();
        channel.set_dmabuf_scanout(&BUFFER, Some(&channel)).unwrap();
        assert_eq!(1, peer.hear(&message(9, 0, &hex(&format!("{RECTANGLE} {FORM}")))).len());
        channel.set_dmabuf_scanout2(&BUFFER2, Some(&channel)).unwrap();
        assert_eq!(1, peer.hear(&message(12, 0, &hex(&format!("{RECTANGLE} {FORM} 0200000000000001")))).len());
    });
}

/// Each field of a reply is where it has to be.
#[test]
fn values_of_replies() {
    counted(|| {
        let (channel, peer) = asking();
        peer.say(&message(1, REPLY, &hex("0102030405060708")), &[]);
        assert_eq!(0x807_0605_0403_0201, channel.get_protocol_features().unwrap().value);
        let head = VirtioGpuCtrlHdr {
            type_: 0x403_0201,
            flags: 0x807_0605,
            fence_id: 0x100f_0e0d_0c0b_0a09,
            ctx_id: 0x1413_1211,
            ring_idx: 0x15,
            padding: [0x16, 0x17, 0x18],
        };
        peer.say(&message(3, REPLY, &counting(408)), &[]);
        let info = channel.get_display_info().unwrap();
        assert_eq!(head, info.hdr);
        let first = VirtioGpuRect { x: 0x1c1b_1a19, y: 0x201f_1e1d, width: 0x2423_2221, height: 0x2827_2625 };
        assert_eq!(VirtioGpuDisplayOne { r: first, enabled: 0x2c2b_2a29, flags: 0x302f_2e2d }, info.pmodes[0]);
        assert_eq!((0x9493_9291, 0x9897_9695), (info.pmodes[15].enabled, info.pmodes[15].flags));
        peer.say(&message(11, REPLY, &counting(1056)), &[]);
        let edid = channel.get_edid(&VhostUserGpuEdidRequest::default()).unwrap();
        assert_eq!((head, 0x1c1b_1a19, 0x201f_1e1d), (edid.hdr, edid.size, edid.padding));
        assert_eq!(counting(1056)[32..], edid.edid);
        assert_eq!([0; 1024], VirtioGpuRespGetEdid::default().edid);
    });
}

/// Pixels of any size go out from where they are, behind their request, however slowly they are read.
#[test]
fn pixels() {
    counted(|| {
        let (channel, peer) = asking();
        for size in [0, 1, 4096, 4108, 8 << 20] {
            let data = counting(size);
            thread::scope(|scope| {
                scope.spawn(|| channel.update_scanout(&UPDATE, &data).unwrap());
                peer.hear(&announced(8, 0, 20 + size as u32, &hex(RECTANGLE)));
                let mut came = vec![0; size];
                for piece in came.chunks_mut(100_000) {
                    (&peer.socket).read_exact(piece).unwrap();
                }
                assert!(came == data);
            });
        }
        let mut image = [0; 4 * 64 * 64];
        image.copy_from_slice(&counting(4 * 64 * 64));
        channel.cursor_update(&CURSOR, &image).unwrap();
        peer.hear(&message(6, 0, &[hex(RECTANGLE), image.to_vec()].concat()));
        drop(channel);
        peer.silence();
    });
}

/// What a display replies that is no reply ends the channel, and what comes with it is closed.
#[test]
fn replies_that_are_none() {
    counted(|| {
        for (call, code, _, size) in askings() {
            let bytes = counting(size + 4);
            let mut replies = vec![
                message(code ^ 2, REPLY, &bytes[..size]),
                message(0x100 + code, REPLY, &bytes[..size]),
                message(code, 0, &bytes[..size]),
                message(code, 5, &bytes[..size]),
                message(code, REPLY, &bytes[..size + 1]),
                message(code, REPLY, &bytes),
                announced(code, REPLY, u32::MAX, &bytes[..size]),
            ];
            if size != 0 {
                replies.push(message(code, REPLY, &bytes[..size - 1]));
                replies.push(message(code, REPLY, &[]));
            }
            let file = memory_file();
            let without_channels = open_fds();
            for reply in replies {
                let (channel, peer) = asking();
                peer.say(&reply, &[]);
                assert_eq!("invalid message", text(call(&channel, &file)), "{reply:02x?}");
                assert_eq!("socket is broken: Protocol error (os error 71)", text(channel.cursor_pos(&POS)));
            }
            for count in [1, 3] {
                wait_until("those before are closed", || without_channels == open_fds());
                let (channel, peer) = asking();
                peer.say(&message(code, REPLY, &bytes[..size]), &vec![&file; count]);
                let before = open_fds();
                assert_eq!("invalid message", text(call(&channel, &file)));
                assert_eq!(before, open_fds());
                assert_eq!("socket is broken: Protocol error (os error 71)", text(call(&channel, &file)));
            }
        }
    });
}

/// A reply of a byte at a time, and one that ends at each of its bytes.
#[test]
fn replies_in_pieces() {
    counted(|| {
        for (call, code, body, size) in askings() {
            let (reply, file) = (message(code, REPLY, &counting(size)), memory_file());
            let (channel, peer) = asking();
            thread::scope(|scope| {
                scope.spawn(|| call(&channel, &file).unwrap());
                peer.hear(&message(code, 0, &hex(&body)));
                reply.iter().for_each(|byte| peer.say(&[*byte], &[]));
            });
            for length in (0..reply.len()).step_by(1 + size / 40) {
                let (channel, peer) = asking();
                if length != 0 {
                    peer.say(&reply[..length], &[]);
                }
                peer.socket.shutdown(Shutdown::Write).unwrap();
                assert_eq!("partial message", text(call(&channel, &file)));
            }
        }
    });
}

#[test]
fn a_display_that_ends() {
    counted(|| {
        let data = counting(1 << 20);
        let (channel, peer) = asking();
        drop(peer);
        assert_eq!("socket is broken: Broken pipe (os error 32)", text(channel.update_scanout(&UPDATE, &data)));
        assert_eq!("socket is broken: Broken pipe (os error 32)", text(channel.set_scanout(&SCREEN)));
        // amid pixels
        let (channel, peer) = asking();
        thread::scope(|scope| {
            let call = scope.spawn(|| text(channel.update_scanout(&UPDATE, &data)));
            peer.hear(&announced(8, 0, 20 + (1 << 20), &hex(RECTANGLE)));
            drop(peer);
            let ended = call.join().unwrap();
            assert!(ended.starts_with("socket is broken: "), "{ended}");
        });
        let (channel, _peer) = asking();
        channel.clone().set_failed(libc::ENODEV);
        assert_eq!("socket is broken: No such device (os error 19)", text(channel.cursor_pos(&POS)));
    });
}

/// A read timeout of the socket limits each call, also one whose pixels nobody reads; and so does the channel's own limit.
#[test]
fn a_display_that_is_slow() {
    counted(|| {
        let limit = Some(Duration::from_millis(50));
        for (is_reading, by_socket) in [(false, true), (true, true), (true, false)] {
            let (mine, other) = UnixStream::pair().unwrap();
            mine.set_read_timeout(limit.filter(|_| by_socket)).unwrap();
            let channel = GpuBackend::from_stream(mine);
            if !by_socket {
                channel.set_timeout(limit);
            }
            let ended = match is_reading {
                true => text(channel.get_display_info()),
                false => text(channel.update_scanout(&UPDATE, &counting(8 << 20))),
            };
            assert_eq!("socket is broken: Connection timed out (os error 110)", ended);
            assert_eq!(ended, text(channel.set_scanout(&SCREEN)));
            drop(other);
        }
    });
}

/// Clones of a channel in threads: each call is whole, and takes its own reply.
#[test]
fn threads_that_share_a_display() {
    const TURNS: usize = 200;
    counted(|| {
        let (channel, peer) = asking();
        let data = counting(10_000);
        thread::scope(|scope| {
            for _ in 0..2 {
                let (showing, asking, data) = (channel.clone(), channel.clone(), &data);
                scope.spawn(move || (0..TURNS).for_each(|_| showing.update_scanout(&UPDATE, data).unwrap()));
                scope.spawn(move || {
                    (0..TURNS).for_each(|_| assert_eq!(7, asking.get_protocol_features().unwrap().value));
                });
            }
            for _ in 0..4 * TURNS {
                let mut head = [0; 12];
                (&peer.socket).read_exact(&mut head).unwrap();
                match head[0] {
                    1 => peer.say(&message(1, REPLY, &7u64.to_le_bytes()), &[]),
                    code => {
                        let mut rest = vec![0; 20 + data.len()];
                        (&peer.socket).read_exact(&mut rest).unwrap();
                        assert!(code == 8 && rest[20..] == data);
                    }
                }
            }
        });
    });
}

/// A device that is given its display's socket by its frontend.
#[test]
fn a_device_and_its_display() {
    counted(|| {
        let device = Arc::new(Mutex::new(Noting::default()));
        let (mut handler, frontend) = handled(&device);
        let (socket, other) = UnixStream::pair().unwrap();
        let given = File::from(std::os::unix::io::OwnedFd::from(socket));
        frontend.say(&message(33, ASKS, &[]), &[&given]);
        handler.handle_request().unwrap();
        drop(given);
        let channel = seen(&device).displays.pop().unwrap();
        assert_eq!(vec!["set_gpu_socket"], seen(&device).asked);
        assert!(is_open(&channel));
        channel.set_scanout(&SCREEN).unwrap();
        let peer = Peer { socket: other };
        peer.hear(&message(7, 0, &hex(PLACE)));
        let number = channel.as_raw_fd();
        drop(channel.clone());
        assert_eq!(number, channel.as_raw_fd());
        channel.set_scanout(&SCREEN).unwrap();
        drop((channel, handler));
        peer.hear(&message(7, 0, &hex(PLACE)));
        peer.silence();
    });
}

/// The records that are passed as they are have the header's size.
#[test]
fn records_of_the_header() {
    assert_eq!(12, size_of::<VhostUserGpuScanout>());
    assert_eq!(20, size_of::<VhostUserGpuUpdate>());
    assert_eq!(40, size_of::<VhostUserGpuDMABUFScanout>());
    assert_eq!(48, size_of::<VhostUserGpuDMABUFScanout2>());
    assert_eq!(12, size_of::<VhostUserGpuCursorPos>());
    assert_eq!(20, size_of::<VhostUserGpuCursorUpdate>());
    assert_eq!((408, 1056), (size_of::<VirtioGpuRespDisplayInfo>(), size_of::<VirtioGpuRespGetEdid>()));
}
