// SPDX-License-Identifier: Apache-2.0
//! What comes to a session is its own: the session's book of numbers, which is proved, says what is claimed, and what is to be closed.
use std::marker::PhantomData;
use std::mem::forget;
use std::ops::{Deref, DerefMut};
use std::os::unix::io::{AsRawFd, FromRawFd, RawFd};

use super::closing::PeerFd;
use super::moving::{Code, Moves, Outcome, MAX_FDS};

/// A session that owns what came to it and was not claimed, each as an `F`: a descriptor, which is closed as a `PeerFd` is; or a number that
/// stands for one of others, which never is.
pub(crate) struct Owning<S: Moves, F: FromRawFd + AsRawFd = PeerFd> {
    session: S,
    /// How many those are: where there are none, the session need not be asked for them.
    count: usize,
    owns: PhantomData<F>,
}

impl<S: Moves, F: FromRawFd + AsRawFd> Owning<S, F> {
    /// A session that nothing has come to.
    pub(crate) fn new(session: S) -> Owning<S, F> {
        Owning { session, count: 0, owns: PhantomData }
    }

    /// Takes in bytes, and all that came with the first of them. What nobody can claim, since it came behind a message's first byte, is
    /// closed at once. After an error nothing was taken in.
    pub(crate) fn receive(&mut self, bytes: &[u8], fds: &mut Vec<F>) -> Outcome {
        if !fds.is_empty() {
            return self.receive_some(bytes, fds);
        }
        // SAFETY: it is told of none.
        unsafe { self.session.receive(bytes, &[]) }
    }

    #[cold]
    fn receive_some(&mut self, bytes: &[u8], fds: &mut Vec<F>) -> Outcome {
        let numbers: Vec<RawFd> = fds.iter().map(F::as_raw_fd).collect();
        // SAFETY: this is its `Owning`, and they are forgotten below.
        unsafe { self.session.receive(bytes, &numbers) }?;
        self.count += fds.len();
        fds.drain(..).for_each(forget);
        self.close_unclaimed();
        Ok(())
    }

    /// Claims the one of this number, of those that came with the first byte of the message that is looked at.
    pub(crate) fn claim(&mut self, fd: RawFd) -> Result<F, Code> {
        self.session.claim(fd)?;
        self.count -= 1;
        // SAFETY: this number was given to this session, and was neither claimed nor handed out before. It was given by `receive` alone,
        // where the `F` that had it was forgotten: so nobody else has it.
        Ok(unsafe { F::from_raw_fd(fd) })
    }

    /// A message is done with: what came with it and was not claimed is closed, but for a call that is still to be replied to.
    pub(crate) fn settle(&mut self) {
        if self.count != 0 {
            self.session.abandon();
            self.close_unclaimed();
        }
    }

    /// The same for all that came: where a call is to be replied to, it is refused.
    pub(crate) fn give_up(&mut self) {
        if self.count != 0 {
            self.session.refuse();
            self.settle();
        }
    }

    #[cold]
    fn close_unclaimed(&mut self) {
        let (mut fds, mut count) = ([-1; MAX_FDS], MAX_FDS);
        // (fewer than there is room for are the last)
        while count == MAX_FDS {
            count = self.session.unclaimed(&mut fds);
            self.count -= count;
            // SAFETY: as of a claim.
            fds[..count].iter().for_each(|fd| drop(unsafe { F::from_raw_fd(*fd) }));
        }
    }
}

impl<S: Moves, F: FromRawFd + AsRawFd> Drop for Owning<S, F> {
    fn drop(&mut self) {
        self.give_up();
    }
}

/// Its calls, but for those above. Nobody puts another session in its place.
impl<S: Moves, F: FromRawFd + AsRawFd> Deref for Owning<S, F> {
    type Target = S;

    fn deref(&self) -> &S {
        &self.session
    }
}

impl<S: Moves, F: FromRawFd + AsRawFd> DerefMut for Owning<S, F> {
    fn deref_mut(&mut self) -> &mut S {
        &mut self.session
    }
}
