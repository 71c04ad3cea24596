// SPDX-License-Identifier: Apache-2.0
//! A source of entropy for virtual machines: one queue, whose buffers are filled from /dev/urandom.
//!
//!     rng SOCKET
//!
//! It serves one frontend after another.
use std::env::args_os;
use std::error::Error;
use std::ffi::OsStr;
use std::fs::File;
use std::io::{self, copy, Read};
use std::sync::{Arc, RwLock};

use vhost::vhost_user::VhostUserProtocolFeatures;
use vhost_user_backend::{Error as Failure, VhostUserBackendMut, VhostUserDaemon, VringRwLock, VringT};
use virtio_queue::QueueOwnedT;
use vm_memory::{GuestAddressSpace, GuestMemoryAtomic, GuestMemoryMmap};
use vmm_sys_util::epoll::EventSet;
use vmm_sys_util::event::{new_event_consumer_and_notifier, EventConsumer, EventFlag, EventNotifier};

type Memory = GuestMemoryAtomic<GuestMemoryMmap>;

/// VIRTIO_F_VERSION_1 and RING_EVENT_IDX, RING_INDIRECT_DESC, and those of vhost-user.
const FEATURES: u64 = 1 << 32 | 1 << 29 | 1 << 28 | 1 << 30;

struct Rng {
    source: File,
    memory: Memory,
}

impl Rng {
    /// Fills each buffer that the driver has made available, until there is none.
    fn serve(&mut self, vring: &VringRwLock) -> Result<(), Box<dyn Error>> {
        let memory = self.memory.memory();
        let mut ring = vring.get_mut();
        loop {
            ring.disable_notification()?;
            let chains: Vec<_> = ring.get_queue_mut().iter(memory.clone())?.collect();
            for chain in chains {
                let head = chain.head_index();
                let mut room = chain.writer(&memory)?;
                let wanted = room.available_bytes() as u64;
                let written = copy(&mut (&self.source).take(wanted), &mut room)?;
                ring.add_used(head, written as u32)?;
            }
            if !ring.enable_notification()? {
                break;
            }
        }
        if ring.needs_notification()? {
            ring.signal_used_queue()?;
        }
        Ok(())
    }
}

impl VhostUserBackendMut for Rng {
    type Bitmap = ();
    type Vring = VringRwLock;

    fn num_queues(&self) -> usize {
        1
    }

    fn max_queue_size(&self) -> usize {
        1024
    }

    fn features(&self) -> u64 {
        FEATURES
    }

    fn protocol_features(&self) -> VhostUserProtocolFeatures {
        VhostUserProtocolFeatures::MQ | VhostUserProtocolFeatures::REPLY_ACK | VhostUserProtocolFeatures::CONFIGURE_MEM_SLOTS
    }

    /// By which the thread of the queue ends with its session.
    fn exit_event(&self, _thread: usize) -> Option<(EventConsumer, EventNotifier)> {
        new_event_consumer_and_notifier(EventFlag::NONBLOCK).ok()
    }

    fn set_event_idx(&mut self, _enabled: bool) {}

    fn update_memory(&mut self, memory: Memory) -> io::Result<()> {
        self.memory = memory;
        Ok(())
    }

    fn handle_event(&mut self, _event: u16, _set: EventSet, vrings: &[VringRwLock], _thread: usize) -> io::Result<()> {
        vrings.iter().try_for_each(|vring| self.serve(vring)).map_err(|cause| io::Error::other(cause.to_string()))
    }
}

/// Serves a frontend by a daemon of its own, which keeps nothing of the one before. Only a socket that cannot be made is an error.
fn serve(path: &OsStr) -> Result<(), Box<dyn Error>> {
    let memory = GuestMemoryAtomic::new(GuestMemoryMmap::new());
    let device = Rng { source: File::open("/dev/urandom")?, memory: memory.clone() };
    let mut daemon = VhostUserDaemon::new("rng".into(), Arc::new(RwLock::new(device)), memory).map_err(|it| it.to_string())?;
    match daemon.serve(path) {
        Err(cause @ Failure::CreateVhostUserListener(_)) => Err(cause.to_string().into()),
        Err(cause) => {
            eprintln!("rng: {cause}");
            Ok(())
        }
        Ok(()) => Ok(()),
    }
}

fn main() -> Result<(), Box<dyn Error>> {
    let path = args_os().nth(1).ok_or("usage: rng SOCKET")?;
    loop {
        serve(&path)?;
    }
}
