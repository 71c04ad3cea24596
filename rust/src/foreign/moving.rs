// SPDX-License-Identifier: Apache-2.0
//! What all sessions have: they take bytes in, and hand bytes out. Their calls stand in lists, a line for each.
use std::os::unix::io::RawFd;

use super::owning::Owning;

pub(crate) const MAX_FDS: usize = 32;
pub(crate) const MAX_MESSAGE: usize = 4108;

/// A number of `enum covretin_error` that is not 0.
#[derive(Clone, Copy, Debug, PartialEq, Eq)]
pub(crate) struct Code(pub(crate) u32);

pub(crate) type Outcome = Result<(), Code>;

pub(super) fn outcome(number: u32) -> Outcome {
    match number {
        0 => Ok(()),
        number => Err(Code(number)),
    }
}

/// `covretin_session`, `covretin_backend`, `covretin_channel`, `covretin_channel_server` and `covretin_display`.
#[repr(C)]
pub(super) struct Raw(pub(super) *mut u8);

// SAFETY: the header says that a session has no global state, and asks only that calls with the same one do not overlap; all of them
// take `&mut self`, but for the drop, which owns it.
unsafe impl Send for Raw {}

// SAFETY: as above; by a shared reference no call can be made.
unsafe impl Sync for Raw {}

/// A session, whose calls are those of its header of the same name.
///
/// # Safety
///
/// What `claim` grants and `unclaimed` hands out was given to `receive`, and neither granted nor handed out since.
pub(crate) unsafe trait Moves {
    fn missing(&mut self) -> usize;
    /// How many bytes and descriptors are to be sent: from the start of each list on.
    fn next_to_send(&mut self, bytes: &mut [u8; MAX_MESSAGE], fds: &mut [RawFd; MAX_FDS]) -> Result<(usize, usize), Code>;
    /// # Safety
    ///
    /// Only an `Owning` calls it of the session that it has, and gives up what it owned by these numbers, where that is no error.
    unsafe fn receive(&mut self, bytes: &[u8], fds: &[RawFd]) -> Outcome;
    fn unclaimed(&mut self, fds: &mut [RawFd; MAX_FDS]) -> usize;
    /// Where a session has no such call, nothing that comes can be claimed.
    fn claim(&mut self, _fd: RawFd) -> Outcome {
        Err(OTHER_CALL)
    }
    fn abandon(&mut self) {}
    /// Refuses the call that is to be replied to, if there is one.
    fn refuse(&mut self) {}
}

/// COVRETIN_OTHER_CALL.
const OTHER_CALL: Code = Code(110);

/// A session that asks: each call is taken once its reply has come.
pub(crate) trait Asks {
    type Session: Moves;
    /// The size of each reply's body, where all have the same: a header of another is refused before its body comes.
    const REPLY_BODY: Option<usize> = None;
    fn owning(&mut self) -> &mut Owning<Self::Session>;
    /// Before a call is asked.
    fn begin(&mut self) {}
    fn take(&mut self) -> Outcome;
    /// Undoes what the call changed that was taken last, of which nothing was sent.
    fn undo(&mut self) -> Outcome {
        Ok(())
    }
    /// Which feature the last call lacked, where the session tells.
    fn inactive(&mut self) -> u64 {
        0
    }
}

/// A session that serves: each request that has come is a call, or refused.
pub(crate) trait Serves: Moves {
    fn end(&mut self) -> Outcome;
    fn next(&mut self) -> Result<u32, Code>;
    /// Which feature the last request lacked, where the session tells.
    fn inactive(&mut self) -> u64 {
        0
    }
    /// Whether it reads nothing more, since it could not answer whoever waits.
    fn ended(&mut self) -> bool {
        false
    }
}

/// Types of sessions, which are closed when they are dropped: how their calls' names begin, and what they are opened by; with `claim` and
/// `abandon` those that keep what may be claimed, and how such a one refuses a call.
macro_rules! sessions {
    ($($(#[$doc:meta])* $Name:ident: $prefix:literal, open($($arg:ident: $ty:ty),*)
        $(, $claim:ident, $abandon:ident $(, $refuse:ident($($no:literal)?))?)?;)*) => {$(
        $(#[$doc])*
        pub(crate) struct $Name(Raw);

        // SAFETY, of each call: it is declared as in the header. The session is open, and borrowed by this call alone. Each list
        // is a slice that is borrowed for the call, given by its pointer, which is never null, and its own length; what is written
        // is borrowed mutably, so no two of them overlap. Any number may be passed.
        const _: () = {
            extern "C" {
                #[link_name = concat!($prefix, "open")]
                fn open(session: &mut Raw, $($arg: $ty),*) -> u32;
                #[link_name = concat!($prefix, "close")]
                fn close(session: &mut Raw);
                #[link_name = concat!($prefix, "missing")]
                fn missing(session: &mut Raw) -> usize;
                #[link_name = concat!($prefix, "receive")]
                fn receive(session: &mut Raw, bytes: *const u8, bytes_len: usize, fds: *const i32, fds_len: usize) -> u32;
                #[link_name = concat!($prefix, "to_send")]
                fn to_send(session: &mut Raw, bytes: *mut u8, bytes_len: usize, fds: *mut i32, fds_len: usize,
                    byte_count: &mut usize, fd_count: &mut usize) -> u32;
                #[link_name = concat!($prefix, "unclaimed")]
                fn unclaimed(session: &mut Raw, fds: *mut i32, fds_len: usize, count: &mut usize) -> u32;
                $(
                    #[link_name = concat!($prefix, stringify!($claim))]
                    fn claim(session: &mut Raw, fd: i32) -> u32;
                    #[link_name = concat!($prefix, stringify!($abandon))]
                    fn abandon(session: &mut Raw) -> u32;
                )?
            }

            impl $Name {
                pub(crate) fn open($($arg: $ty),*) -> Result<$Name, Code> {
                    let mut raw = Raw(std::ptr::null_mut());
                    // SAFETY: as above; it is {0}, and not open yet.
                    outcome(unsafe { open(&mut raw, $($arg),*) })?;
                    Ok($Name(raw))
                }
            }

            // SAFETY: it is proved of the library's sessions that each number that came is claimed once or handed out once, and none other.
            unsafe impl Moves for $Name {
                fn missing(&mut self) -> usize {
                    // SAFETY: as above.
                    unsafe { missing(&mut self.0) }
                }

                fn next_to_send(&mut self, bytes: &mut [u8; MAX_MESSAGE], fds: &mut [RawFd; MAX_FDS]) -> Result<(usize, usize), Code> {
                    let (mut count, mut fd_count) = (0, 0);
                    let (bytes, fds) = (bytes.as_mut_ptr(), fds.as_mut_ptr());
                    // SAFETY: as above.
                    outcome(unsafe { to_send(&mut self.0, bytes, MAX_MESSAGE, fds, MAX_FDS, &mut count, &mut fd_count) })?;
                    Ok((count, fd_count))
                }

                unsafe fn receive(&mut self, bytes: &[u8], fds: &[RawFd]) -> Outcome {
                    // SAFETY: as above.
                    outcome(unsafe { receive(&mut self.0, bytes.as_ptr(), bytes.len(), fds.as_ptr(), fds.len()) })
                }

                fn unclaimed(&mut self, fds: &mut [RawFd; MAX_FDS]) -> usize {
                    let mut count = 0;
                    // SAFETY: as above. (An open session has no error here.)
                    unsafe { unclaimed(&mut self.0, fds.as_mut_ptr(), MAX_FDS, &mut count) };
                    count
                }

                $(
                    fn claim(&mut self, fd: RawFd) -> Outcome {
                        // SAFETY: as above.
                        outcome(unsafe { claim(&mut self.0, fd) })
                    }

                    fn abandon(&mut self) {
                        // SAFETY: as above.
                        unsafe { abandon(&mut self.0) };
                    }

                    $(fn refuse(&mut self) {
                        // (an error says that there is none, or that the device refused)
                        let _ = self.$refuse($($no)?);
                    })?
                )?
            }

            impl Drop for $Name {
                fn drop(&mut self) {
                    // SAFETY: as above; nobody has it after this.
                    unsafe { close(&mut self.0) }
                }
            }
        };
    )*};
}

/// Calls whose arguments are numbers, and references to structs and a list that are only read; some have a number behind the list.
macro_rules! calls {
    ($Session:ident: $($name:ident = $symbol:ident(
        $($arg:ident: $ty:ty),* $(; $list:ident: [$item:ty] $(, $behind:ident: $last:ty)?)?);)*) => {
        extern "C" {
            $(fn $symbol(session: &mut Raw, $($arg: $ty,)* $($list: *const $item, len: usize, $($behind: $last)?)?) -> u32;)*
        }

        impl $Session {
            $(pub(crate) fn $name(&mut self, $($arg: $ty,)* $($list: &[$item], $($behind: $last)?)?) -> Outcome {
                // SAFETY: it is declared as in the header. The session is open, and borrowed by this call alone; a struct is
                // borrowed for the call, and has the header's layout; so has a list, given by its pointer, which is never null, and
                // its own length. Any number may be passed.
                outcome(unsafe { $symbol(&mut self.0, $($arg,)* $($list.as_ptr(), $list.len(), $($behind)?)?) })
            })*
        }
    };
}

/// Calls that give numbers and structs, each of which begins as given here, and that may fill a list from its start.
macro_rules! values {
    ($Session:ident: $($name:ident = $symbol:ident(
        $($([$list:ident: $item:ty])? $value:ident: $ty:ty = $first:expr),*) -> $out:ty;)*) => {
        extern "C" {
            $(fn $symbol(session: &mut Raw, $($($list: *mut $item, len: usize,)? $value: &mut $ty),*) -> u32;)*
        }

        impl $Session {
            $(pub(crate) fn $name(&mut self, $($($list: &mut [$item])?)*) -> Result<$out, Code> {
                $(let mut $value: $ty = $first;)*
                // SAFETY: it is declared as in the header. The session is open, and borrowed by this call alone; each value is
                // one of its own, is borrowed for the call, and has the header's layout; so has a list, given by its pointer,
                // which is never null, and its own length.
                outcome(unsafe { $symbol(&mut self.0, $($($list.as_mut_ptr(), $list.len(),)? &mut $value),*) })?;
                Ok(($($value),*))
            })*
        }
    };
}

/// Calls that give bytes of a size that is known.
macro_rules! records {
    ($Session:ident: $($name:ident = $symbol:ident() -> [u8; $size:expr];)*) => {
        extern "C" {
            $(fn $symbol(session: &mut Raw, record: *mut u8, len: usize) -> u32;)*
        }

        impl $Session {
            $(pub(crate) fn $name(&mut self) -> Result<[u8; $size], Code> {
                let mut record = [0; $size];
                // SAFETY: it is declared as in the header. The session is open, and borrowed by this call alone, as is the record.
                outcome(unsafe { $symbol(&mut self.0, record.as_mut_ptr(), record.len()) })?;
                Ok(record)
            })*
        }
    };
}

pub(super) use {calls, records, sessions, values};
