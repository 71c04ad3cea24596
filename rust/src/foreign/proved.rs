// SPDX-License-Identifier: Apache-2.0
//! The proved library itself, and its queues, as assembly that the compiler takes in, and the memory that they ask for. Labels begin with
//! the library's name, and have a number of their function's, so that nothing of the same module has them.

// (the symbol leaves out the note by which an object tells that all of it is protected, which would speak of the Rust beside it)
#[cfg(target_arch = "x86_64")]
std::arch::global_asm!(
    ".set covretin_in_a_module, 1",
    include_str!(concat!(env!("COVRETIN_GENERATED"), "/x86_64-linux/covretin.s")),
    include_str!(concat!(env!("COVRETIN_GENERATED"), "/x86_64-linux/covretin_queue.s")),
    options(att_syntax, raw)
);

#[cfg(target_arch = "aarch64")]
std::arch::global_asm!(
    ".set covretin_in_a_module, 1",
    include_str!(concat!(env!("COVRETIN_GENERATED"), "/aarch64-linux/covretin.s")),
    include_str!(concat!(env!("COVRETIN_GENERATED"), "/aarch64-linux/covretin_queue.s")),
    options(raw)
);

// The proved part finds these by their names, which a library of C's kind (cdylib) that has this package does not offer.
std::arch::global_asm!(".hidden rattle_alloc", ".hidden rattle_realloc", ".hidden rattle_dealloc");

/// Whether memory was had, and where it is: never at 0, which the proved part takes for no address.
#[repr(C)]
struct Room {
    is_there: u64,
    at: *mut libc::c_void,
}

static NOWHERE: u8 = 0;

fn room_at(at: *mut libc::c_void) -> Room {
    if at.is_null() {
        Room { is_there: 0, at: &NOWHERE as *const u8 as *mut libc::c_void }
    } else {
        Room { is_there: 1, at }
    }
}

/// How many bytes to ask for: room for nothing has an address of its own, too.
fn at_least(size: usize, alignment: usize) -> usize {
    if size == 0 {
        alignment
    } else {
        size
    }
}

// The proved part gives back what it was given, once, and asks for no alignment that malloc does not give.
#[no_mangle]
extern "C" fn rattle_alloc(size: usize, alignment: usize) -> Room {
    // Safety: malloc may be called with any size.
    room_at(unsafe { libc::malloc(at_least(size, alignment)) })
}

#[no_mangle]
unsafe extern "C" fn rattle_realloc(at: *mut libc::c_void, _old_size: usize, size: usize, alignment: usize) -> Room {
    // Safety: it was had of the two above, and was not given back.
    room_at(unsafe { libc::realloc(at, at_least(size, alignment)) })
}

#[no_mangle]
unsafe extern "C" fn rattle_dealloc(at: *mut libc::c_void) {
    // Safety: as above.
    unsafe { libc::free(at) };
}
