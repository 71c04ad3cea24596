// SPDX-License-Identifier: Apache-2.0
//! A request of `covretin::device` as streams and as values, and what `Debug` shows of a device and its session.
mod common;

use std::io::{ErrorKind, Read, Write};
use std::os::unix::fs::FileExt;
use std::os::unix::net::UnixStream;
use std::sync::{Arc, Mutex};

use common::machine::*;
use common::*;
use covretin::device::{Device, Request, Session};
use covretin::queue::{self, VolatileSlice};
use covretin::VhostBackend;

/// A request of a device that keeps it: a text in two parts, of two bytes and of the rest, and room of three bytes and of 0x70.
fn with_request(text: &str, look: impl FnOnce(&Machine, &Ring, &mut Request)) {
    counted(|| {
        let (machine, mut ring) = begun(0, 0);
        machine.device.has(|its| its.keeps = true);
        ring.write_request(0, text);
        ring.post(0);
        machine.device.wait_until("it has one", |its| its.kept.len() == 1);
        let mut request = machine.device.has(|its| its.kept.pop()).unwrap();
        look(&machine, &ring, &mut request);
        request.complete(9);
        assert_eq!((0, 9), ring.used());
        machine.end();
    });
}

#[test]
fn streams_of_a_request() {
    with_request("some text", |_, ring, request| {
        let (mut reader, mut writer) = (request.reader(), request.writer());
        let mut status = writer.split_at(0x70).unwrap();
        assert_eq!((9, 0x70, 3), (reader.available_bytes(), writer.available_bytes(), status.available_bytes()));
        let mut again = reader.clone();
        let mut text = [0; 5];
        reader.read_exact(&mut text).unwrap();
        assert_eq!((b"some ", 5, 4), (&text, reader.bytes_read(), reader.available_bytes()));
        assert_eq!(ErrorKind::UnexpectedEof, reader.read_exact(&mut text).unwrap_err().kind());
        assert_eq!((9, 0, 0), (reader.bytes_read(), reader.available_bytes(), reader.parts().len()));
        let mut behind = again.split_at(2).unwrap();
        let (mut head, mut rest) = (String::new(), String::new());
        again.read_to_string(&mut head).unwrap();
        behind.read_to_string(&mut rest).unwrap();
        assert_eq!(("so", "me text"), (&*head, &*rest));
        writer.write_all(b"SOME TEXT").unwrap();
        assert_eq!((9, 0x67), (writer.bytes_written(), writer.available_bytes()));
        assert_eq!("SOME TEXT", ring.text(0, 9));
        assert_eq!(3, status.write(&[7; 9]).unwrap());
        assert_eq!(ErrorKind::WriteZero, status.write_all(&[7]).unwrap_err().kind());
        let mut last = [0; 4];
        ring.memory.read_exact_at(&mut last, ring.buffer(0) + 0x90 + 0x6c).unwrap();
        assert_eq!([0, 7, 7, 7], last);
        // Nothing was taken off the request.
        assert_eq!((9, 0x73), (request.readable_len(), request.writable_len()));
    });
}

#[test]
fn a_stream_ends_where_it_is_split() {
    with_request("some text", |_, _, request| {
        let mut writer = request.writer();
        for (at, left) in [(0, 0x73), (3, 0x70), (0x73, 0)] {
            let (mut first, whole) = (writer.clone(), writer.parts().len());
            assert_eq!(left, first.split_at(at).unwrap().available_bytes());
            assert_eq!(at, first.available_bytes());
            assert_eq!(2, whole);
        }
        assert_eq!(queue::Error::NotInGuest, writer.split_at(0x74).unwrap_err());
        assert_eq!(0x73, writer.available_bytes());
        assert_eq!(0, writer.write(&[]).unwrap());
        // The parts that are left are filled from a file.
        let file = memory_file();
        file.write_all_at(&[9; 0x73], 0).unwrap();
        writer.write_all(b"ab").unwrap();
        VolatileSlice::read_exact_at(writer.parts(), &file, 0).unwrap();
        assert_eq!(0x71, writer.available_bytes());
    });
}

#[cfg(feature = "vm-memory")]
#[test]
fn values_of_a_request() {
    with_request("some text", |_, ring, request| {
        let (mut reader, mut writer) = (request.reader(), request.writer());
        assert_eq!(u32::from_le_bytes(*b"some"), reader.read_obj::<u32>().unwrap());
        assert_eq!(b' ', reader.read_obj::<u8>().unwrap());
        assert_eq!(ErrorKind::UnexpectedEof, reader.read_obj::<u64>().unwrap_err().kind());
        writer.write_obj(u64::from_le_bytes(*b"all of i")).unwrap();
        assert_eq!("all of i", ring.text(0, 8));
        let mut status = request.writer().split_at(0x72).unwrap();
        assert_eq!(ErrorKind::WriteZero, status.write_obj(1u16).unwrap_err().kind());
        assert_eq!(u32::from_le_bytes(*b"some"), request.read_obj::<u32>().unwrap());
        request.write_obj(u32::from_le_bytes(*b"part")).unwrap();
        assert_eq!((5, 0x6f, "part"), (request.readable_len(), request.writable_len(), &*ring.text(0, 4)));
        assert_eq!(ErrorKind::UnexpectedEof, request.read_obj::<u64>().unwrap_err().kind());
    });
}

struct Shown(Mutex<Vec<String>>);

impl Device for Shown {
    fn request(&self, request: Request) {
        let mut shown = self.0.lock().unwrap();
        shown.push(format!("{request:?}"));
        shown.push(format!("{:?}", request.taker()));
        shown.push(format!("{:?}", request.writable()));
    }
}

/// `Debug` shows what something is, and nothing of what a guest wrote, nor where it is mapped.
#[test]
fn shows_no_secrets() {
    counted(|| {
        let device = Arc::new(Shown(Mutex::default()));
        let (mine, other) = UnixStream::pair().unwrap();
        let session = Session::new(device.clone(), other).unwrap();
        assert!(format!("{session:?}").starts_with("Session { frontend: Some("));
        assert_eq!("Stopper { is_stopped: false, .. }", format!("{:?}", session.stopper()));
        let looping = std::thread::spawn(move || serve_all(session));
        let (mut frontend, memory) = (covretin::vhost_user::Frontend::from_stream(mine, 1), guest_memory());
        assert!(format!("{frontend:?}").starts_with("Frontend { fd: "));
        agree(&mut frontend, 0);
        frontend.set_mem_table(&[region_of(&memory, 0, MEMORY)]).unwrap();
        let mut ring = Ring::in_memory(&memory, 0);
        ring.start(&mut frontend, 0);
        ring.write_request(0, "secret");
        ring.post(0);
        assert_eq!((0, 0), ring.used());
        drop(frontend);
        assert_eq!("Disconnected", looping.join().unwrap());
        let chain = "DescriptorChain { head_index: 0, readable_len: 6, writable_len: 115, is_again: false, .. }";
        let parts = "[VolatileSlice { len: 3, .. }, VolatileSlice { len: 112, .. }]";
        let shown = [&format!("Request {{ queue: 0, chain: {chain}, .. }}"), "Taker { has_session: true, .. }", parts];
        assert_eq!(shown.map(String::from).to_vec(), *device.0.lock().unwrap());
        assert_eq!(
            "Queue { size: 0, is_packed: false, is_ready: false, is_broken: false, .. }",
            format!("{:?}", queue::Queue::new(4).unwrap())
        );
    });
}
