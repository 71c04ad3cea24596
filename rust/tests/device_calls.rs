// SPDX-License-Identifier: Apache-2.0
//! Calls of a frontend that not each device of `covretin::device` has: its state, shared objects, regions of shared memory, a display.
mod common;

use std::fs::File;
use std::io::{self, Read, Write};
use std::os::unix::io::{AsRawFd, FromRawFd, OwnedFd};
use std::os::unix::net::UnixStream;
use std::sync::{Arc, Mutex};
use std::thread::{spawn, JoinHandle};

use common::machine::*;
use common::*;
use covretin::device::{Device, Request, Session};
use covretin::vhost_user::message::*;
use covretin::vhost_user::{Backend, Frontend, GpuBackend, VhostUserFrontend, VhostUserFrontendReqHandler};
use VhostTransferStateDirection::{LOAD, SAVE};

#[derive(Default)]
struct Its {
    state: Vec<u8>,
    moving: Option<JoinHandle<io::Result<Vec<u8>>>>,
    display: Option<GpuBackend>,
    channel: Option<Backend>,
}

/// A device that has each of them; `refuses`: it refuses them, by an error of its own.
#[derive(Default)]
struct All {
    refuses: bool,
    its: Mutex<Its>,
}

impl All {
    fn has<T>(&self, look: impl FnOnce(&mut Its) -> T) -> io::Result<T> {
        match self.refuses {
            true => Err(io::ErrorKind::InvalidData.into()),
            false => Ok(look(&mut self.its.lock().unwrap())),
        }
    }
}

impl Device for All {
    fn protocol_features(&self) -> VhostUserProtocolFeatures {
        VhostUserProtocolFeatures::DEVICE_STATE | VhostUserProtocolFeatures::SHARED_OBJECT | VhostUserProtocolFeatures::SHMEM
    }

    fn request(&self, request: Request) {
        request.complete(0);
    }

    fn channel(&self, channel: Backend) {
        self.its.lock().unwrap().channel = Some(channel);
    }

    fn set_device_state_fd(
        &self,
        direction: VhostTransferStateDirection,
        phase: VhostTransferStatePhase,
        mut file: File,
    ) -> io::Result<Option<File>> {
        assert_eq!(VhostTransferStatePhase::STOPPED, phase);
        self.has(|its| {
            let mut state = its.state.clone();
            its.moving = Some(spawn(move || match direction {
                SAVE => file.write_all(&state).map(|()| state),
                LOAD => {
                    state.clear();
                    file.read_to_end(&mut state).map(|_| state)
                }
            }));
            None
        })
    }

    fn check_device_state(&self) -> io::Result<()> {
        self.has(|its| {
            its.state = its.moving.take().unwrap().join().unwrap()?;
            Ok(())
        })?
    }

    fn get_shared_object(&self, uuid: VhostUserSharedMsg) -> io::Result<File> {
        self.has(|_| assert_eq!(object(), uuid)).map(|()| memory_file())
    }

    fn get_shmem_config(&self) -> io::Result<VhostUserShMemConfig> {
        self.has(|_| VhostUserShMemConfig::new(2, &[0x1000, 0x2000]))
    }

    fn set_gpu_socket(&self, gpu_backend: GpuBackend) -> io::Result<()> {
        self.has(|its| its.display = Some(gpu_backend))
    }
}

/// A device that has none of them, and says that it has.
struct Nothing;

impl Device for Nothing {
    fn protocol_features(&self) -> VhostUserProtocolFeatures {
        All::default().protocol_features()
    }

    fn request(&self, request: Request) {
        request.complete(0);
    }
}

fn object() -> VhostUserSharedMsg {
    VhostUserSharedMsg { uuid: uuid::Uuid::from_bytes(*b"sixteen letters.") }
}

fn pipe() -> (File, File) {
    let mut ends = [-1; 2];
    // SAFETY: it writes two numbers; what they name belongs to nobody else.
    unsafe {
        assert_eq!(0, libc::pipe2(ends.as_mut_ptr(), libc::O_CLOEXEC));
        (File::from_raw_fd(ends[0]), File::from_raw_fd(ends[1]))
    }
}

/// A frontend of such a device, its socket, and the device's loop.
fn served(device: Arc<impl Device + 'static>) -> (Frontend, UnixStream, JoinHandle<String>) {
    let (mine, other) = UnixStream::pair().unwrap();
    let session = Session::new(device, other).unwrap();
    let looping = spawn(move || serve_all(session));
    let (socket, mut frontend) = (mine.try_clone().unwrap(), Frontend::from_stream(mine, 1));
    agree(&mut frontend, 0);
    (frontend, socket, looping)
}

fn end(frontend: Frontend, socket: UnixStream, looping: JoinHandle<String>) {
    drop((frontend, socket));
    assert_eq!("Disconnected", looping.join().unwrap());
}

/// A device's state goes to another one, through a pipe each.
#[test]
fn moves_its_state() {
    counted(|| {
        let (first, second) = (Arc::new(All::default()), Arc::new(All::default()));
        first.has(|its| its.state = (0..200_000).map(|at| at as u8).collect()).unwrap();
        let (frontend, socket, looping) = served(first.clone());
        let (mut reads, writes) = pipe();
        let phase = VhostTransferStatePhase::STOPPED;
        assert!(frontend.set_device_state_fd(SAVE, phase, OwnedFd::from(writes)).unwrap().is_none());
        let mut state = Vec::new();
        reads.read_to_end(&mut state).unwrap();
        frontend.check_device_state().unwrap();
        end(frontend, socket, looping);
        let (frontend, socket, looping) = served(second.clone());
        let (reads, mut writes) = pipe();
        assert!(frontend.set_device_state_fd(LOAD, phase, OwnedFd::from(reads)).unwrap().is_none());
        writes.write_all(&state).unwrap();
        drop(writes);
        frontend.check_device_state().unwrap();
        assert!(first.has(|its| its.state.clone()).unwrap() == second.has(|its| its.state.clone()).unwrap());
        end(frontend, socket, looping);
    });
}

/// An object that the device tells of on its channel, which the frontend asks for; and its shared memory.
#[test]
fn shares_objects_and_memory() {
    counted(|| {
        let device = Arc::new(All::default());
        let (mut frontend, socket, looping) = served(device.clone());
        let (mine, other) = UnixStream::pair().unwrap();
        frontend.set_backend_request_fd(&other).unwrap();
        let channel = device.has(|its| its.channel.take()).unwrap().unwrap();
        channel.set_reply_ack_flag(false);
        channel.shared_object_add(&object()).unwrap();
        Peer { socket: mine }.hear(&message(6, ASKS, b"sixteen letters."));
        frontend.get_shared_object(&object()).unwrap();
        let config = frontend.get_shmem_config().unwrap();
        assert_eq!((2, [0x1000, 0x2000, 0]), (config.nregions, [0, 1, 2].map(|at| config.memory_sizes[at])));
        drop((channel, other));
        end(frontend, socket, looping);
    });
}

/// The device draws on the display that its frontend gives it.
#[test]
fn has_a_display() {
    counted(|| {
        let device = Arc::new(All::default());
        let (mut frontend, socket, looping) = served(device.clone());
        let (mine, other) = UnixStream::pair().unwrap();
        send(&socket, &message(33, ASKS, &[]), &[other.as_raw_fd()]);
        frontend.get_protocol_features().unwrap(); // (it was served)
        drop(other);
        let display = device.has(|its| its.display.take()).unwrap().unwrap();
        display.set_protocol_features(&VhostUserU64::new(1)).unwrap();
        Peer { socket: mine }.hear(&message(2, 0, &1u64.to_le_bytes()));
        drop(display);
        end(frontend, socket, looping);
    });
}

/// What a device has not, or refuses, is refused, its files are closed, and the session goes on.
#[test]
fn refuses_what_it_has_not() {
    fn refuses(device: Arc<impl Device + 'static>) {
        let (mut frontend, socket, looping) = served(device);
        let (mut reads, writes) = pipe();
        let refused = frontend.set_device_state_fd(SAVE, VhostTransferStatePhase::STOPPED, OwnedFd::from(writes));
        failed("BackendInternalError", refused);
        assert_eq!(0, reads.read(&mut [0]).unwrap());
        failed("BackendInternalError", frontend.check_device_state());
        failed("BackendInternalError", frontend.get_shared_object(&object()));
        let (_mine, other) = UnixStream::pair().unwrap();
        send(&socket, &message(33, ASKS, &[]), &[other.as_raw_fd()]);
        frontend.get_protocol_features().unwrap();
        end(frontend, socket, looping);
    }
    counted(|| refuses(Arc::new(Nothing)));
    counted(|| refuses(Arc::new(All { refuses: true, ..All::default() })));
}
