// SPDX-License-Identifier: Apache-2.0
//! Guest memory to files and back, all of it, however many bytes the system moves at once.
use std::io;
use std::os::unix::io::AsRawFd;

use super::{VolatileSlice, MAX_PARTS};

impl<'a> VolatileSlice<'a> {
    /// Fills all of these from a place in a file on. UnexpectedEof: the file ends before; others are the system's, as of
    /// [`read_at`](Self::read_at). After an error some may be filled.
    pub fn read_exact_at(slices: &[VolatileSlice<'a>], file: &impl AsRawFd, offset: u64) -> io::Result<()> {
        move_all(slices, offset, |parts, place| VolatileSlice::read_at(parts, file, place))
    }

    /// Writes all of these to a place in a file. Errors are the system's, as of [`write_at`](Self::write_at). After one some may be written.
    pub fn write_all_at(slices: &[VolatileSlice<'a>], file: &impl AsRawFd, offset: u64) -> io::Result<()> {
        move_all(slices, offset, |parts, place| VolatileSlice::write_at(parts, file, place))
    }
}

fn move_all<'a>(
    slices: &[VolatileSlice<'a>],
    mut place: u64,
    mut move_some: impl FnMut(&[VolatileSlice<'a>], u64) -> io::Result<usize>,
) -> io::Result<()> {
    let mut left: Vec<VolatileSlice<'a>> = slices.iter().rev().filter(|part| !part.is_empty()).copied().collect();
    while !left.is_empty() {
        let next: Vec<VolatileSlice<'a>> = left.iter().rev().take(MAX_PARTS).copied().collect();
        let moved = match move_some(&next, place) {
            Ok(0) => return Err(io::ErrorKind::UnexpectedEof.into()),
            Err(cause) if cause.kind() == io::ErrorKind::Interrupted => 0,
            moved => moved?,
        };
        place += moved as u64;
        take_off(&mut left, moved);
    }
    Ok(())
}

/// Takes so many bytes off, from the last one on.
fn take_off(slices: &mut Vec<VolatileSlice<'_>>, mut count: usize) {
    while count != 0 {
        match slices.pop() {
            Some(part) if count < part.len() => {
                slices.extend(part.offset(count));
                return;
            }
            Some(part) => count -= part.len(),
            None => return,
        }
    }
}
