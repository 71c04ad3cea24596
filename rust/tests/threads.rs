// SPDX-License-Identifier: Apache-2.0
//! Threads that share a frontend, by clones of it.
mod common;

use std::io::Read;
use std::net::Shutdown;
use std::sync::mpsc;
use std::thread;

use common::*;
use covretin::vhost_user::{Error as ProtocolError, Frontend};
use covretin::{Error, VhostBackend};

fn is_shared<T: Send + Sync + Clone + 'static>(_: &T) {}

/// Each call takes its own reply.
#[test]
fn two_threads() {
    counted(|| {
        let backend = |peer: &Peer| {
            for number in 0..2000 {
                peer.still_serves(number);
            }
        };
        played(backend, |frontend| {
            is_shared(frontend);
            let threads: Vec<_> = (0..2)
                .map(|_| {
                    let frontend = frontend.clone();
                    thread::spawn(move || (0..1000).map(|_| frontend.get_features().unwrap()).collect::<Vec<_>>())
                })
                .collect();
            let each: Vec<Vec<u64>> = threads.into_iter().map(|it| it.join().unwrap()).collect();
            assert!(each.iter().all(|numbers| numbers.windows(2).all(|it| it[0] < it[1])));
            let mut all = each.concat();
            all.sort_unstable();
            assert_eq!((0..2000).collect::<Vec<_>>(), all);
        });
    });
}

/// Descriptors of two threads' calls are not mixed up.
#[test]
fn two_threads_with_descriptors() {
    counted(|| {
        let files = [memory_file(), memory_file()];
        let wanted = [identity(&files[0]), identity(&files[1])];
        let backend = move |peer: &Peer| {
            for _ in 0..400 {
                let mut request = [0; 20];
                let came = receive(&peer.socket, &mut request);
                assert_eq!(wanted[request[12] as usize], identity(&came[0]));
            }
        };
        played(backend, |frontend| {
            thread::scope(|scope| {
                for (index, file) in files.iter().enumerate() {
                    let frontend = frontend.clone();
                    scope.spawn(move || (0..200).for_each(|_| frontend.set_vring_call(index, file).unwrap()));
                }
            });
        });
    });
}

/// A call that waits for its reply, and ends by this of another thread; so does each later one, and the backend sees the end.
fn ended_by(end: impl FnOnce(&Frontend)) {
    counted(|| {
        let (tell, heard) = mpsc::channel();
        let backend = move |peer: &Peer| {
            peer.hear(&message(1, ASKS, &[]));
            tell.send(()).unwrap();
            assert_eq!(0, (&peer.socket).read(&mut [0]).unwrap());
        };
        played(backend, |frontend| {
            let waiting = frontend.clone();
            let call = thread::spawn(move || waiting.get_features());
            heard.recv().unwrap();
            end(frontend);
            assert!(matches!(call.join().unwrap(), Err(Error::VhostUserProtocol(ProtocolError::PartialMessage))));
            assert!(matches!(frontend.set_owner(), Err(Error::VhostUserProtocol(ProtocolError::SocketBroken(_)))));
        });
    });
}

#[test]
fn a_call_that_another_thread_shuts_down() {
    ended_by(Frontend::shutdown);
}

#[test]
fn a_call_whose_socket_is_shut_down() {
    ended_by(|frontend| frontend.try_clone_connection().unwrap().shutdown(Shutdown::Both).unwrap());
}
