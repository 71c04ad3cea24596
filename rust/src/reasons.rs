// SPDX-License-Identifier: Apache-2.0
//! The texts of the log and of the tap, and of the kit in C: why a request was refused, who ended a session, what broke a queue.
use std::fmt::Display;

/// So many of these.
pub(crate) fn count_of(count: u64, name: &str) -> String {
    match count {
        1 => format!("1 {name}"),
        count => format!("{count} {name}s"),
    }
}

// generated from protocol/requests.toml: reasons
pub(crate) fn refused(request: impl Display, reason: impl Display) -> String {
    format!("{request} refused: {reason}")
}
pub(crate) fn numbered(number: u32) -> String {
    format!("request {number}")
}
pub(crate) fn left_out(lines: u32) -> String {
    format!("{lines} more lines were left out")
}
pub(crate) fn wrong_value(wanted: impl Display, came: impl Display) -> String {
    format!("a value is not allowed: it wants {wanted}, and came with {came}")
}
pub(crate) fn malformed(wanted: impl Display, came: impl Display) -> String {
    format!("it is malformed: it wants {wanted}, and came with {came}")
}
pub(crate) fn wrong_fds(wanted: impl Display, came: impl Display) -> String {
    format!("the number of descriptors is wrong: it wants {wanted}, and came with {came}")
}
pub(crate) fn came(bytes: u64, fds: u64, place: impl Display) -> String {
    let bytes = count_of(bytes, "byte");
    let fds = count_of(fds, "descriptor");
    format!("{bytes} and {fds}{place}")
}
pub(crate) const LATE: &str = ", not all of them with its first byte";
pub(crate) fn table(bytes: u32, fds: u64, regions: u64) -> String {
    let fds = count_of(fds, "descriptor");
    let regions = count_of(regions, "region");
    format!("{bytes} bytes and {fds} for {regions}, each with a size")
}
pub(crate) fn no_table(most: u32, regions: u32) -> String {
    format!("1 to {most} regions, and not {regions}")
}
pub(crate) const KNOWN_CODE: &str = "a known code";
pub(crate) fn too_many_fds(fds: u64, most: u32) -> String {
    let fds = count_of(fds, "descriptor");
    format!("{fds} came, and {most} are the most")
}
pub(crate) fn other_version(version: u32) -> String {
    format!("its version is {version}, and not 1")
}
pub(crate) fn reserved_flags(flags: u64) -> String {
    format!("its flags are {flags:#x}, of which bits are reserved")
}
pub(crate) fn too_long(bytes: u64, most: u32) -> String {
    let bytes = count_of(bytes, "byte");
    format!("its body has {bytes}, and {most} are the most")
}
pub(crate) const IS_REPLY: &str = "it has the flag REPLY";
pub(crate) const OTHER_STATE: &str = "postcopy is in another state";
pub(crate) fn not_accepted(feature: impl Display) -> String {
    format!("{feature} was not accepted")
}
pub(crate) const UNSERVED: &str = "nobody serves it";
pub(crate) const UNMAPPED_THERE: &str = "the frontend says that it could not map the regions";
pub(crate) const BY_DEVICE: &str = "the device refused it";
pub(crate) fn not_offered(bits: u64) -> String {
    format!("the features {bits:#x} were not offered")
}
pub(crate) fn no_queue(queues: u64, queue: u32) -> String {
    let queues = count_of(queues, "queue");
    format!("the device has {queues}, and none of the number {queue}")
}
pub(crate) fn is_started(queue: u32) -> String {
    format!("queue {queue} is started")
}
pub(crate) fn wrong_size(queue: u32, size: u64, most: u32) -> String {
    let size = count_of(size, "descriptor");
    format!("queue {queue} cannot have {size}: it takes 1 to {most}")
}
pub(crate) fn not_to_start(queue: u32, rule: impl Display) -> String {
    format!("queue {queue} cannot start: {rule}")
}
pub(crate) const NO_MEMORY: &str = "no memory was given before";
pub(crate) const NOWHERE: &str = "its used ring does not lie in guest memory";
pub(crate) const NO_INFLIGHT: &str = "its part of the inflight region is none of a queue of its kind and size";
pub(crate) const NO_EVENTFD: &str = "its descriptor is no eventfd";
pub(crate) const NO_SIGNAL: &str = "its descriptor is neither an eventfd nor a pipe nor a stream socket";
pub(crate) fn region(index: u32) -> String {
    format!("region {index}")
}
pub(crate) const THE_LOG: &str = "the log";
pub(crate) const THE_INFLIGHT: &str = "the inflight region";
pub(crate) fn no_memory_file(what: impl Display) -> String {
    format!("{what} is no memory file (memfd, tmpfs, hugetlbfs)")
}
pub(crate) fn beyond_file(what: impl Display, size: u64, offset: u64, file: u64) -> String {
    format!("{what} is {size} bytes at {offset} of its file, which has {file}")
}
pub(crate) fn unmapped(what: impl Display, size: u64) -> String {
    format!("{what}, of {size} bytes, could not be mapped")
}
pub(crate) fn wrong_inflight(queues: u64, size: u64, bytes: u64, offset: u64) -> String {
    let queues = count_of(queues, "queue");
    let size = count_of(size, "descriptor");
    format!("an inflight region for {queues} of {size}, of {bytes} bytes at {offset}, is none of this device")
}
pub(crate) fn no_config(size: u64, offset: u32) -> String {
    let size = count_of(size, "byte");
    format!("the device has no such part of its configuration space: {size} at {offset}")
}
pub(crate) fn fixed_config(size: u64, offset: u32) -> String {
    let size = count_of(size, "byte");
    format!("this part of the configuration space is not to be written: {size} at {offset}")
}
pub(crate) const NO_CHANNEL: &str = "the device takes no backend channel of this kind";
pub(crate) const NOT_ADVISED: &str = "postcopy was not advised";
pub(crate) const ADVISED: &str = "postcopy was advised before";
pub(crate) const NO_USERFAULT: &str = "the system gives no userfaultfd, or none for this memory";
pub(crate) fn frontend_went(request: impl Display) -> String {
    format!("the frontend ended the session; its last request was {request}")
}
pub(crate) const FRONTEND_LEFT: &str = "the frontend ended the session, in which it asked nothing";
pub(crate) const STOPPED: &str = "this device was told to end the session";
pub(crate) const MEMORY_TAKEN: &str = "the session ended: the frontend took memory away that was in use";
pub(crate) fn amid_header(request: impl Display) -> String {
    format!("the session ended: the frontend went amid a header, after {request}")
}
pub(crate) fn amid_body(request: impl Display) -> String {
    format!("the session ended: the frontend sent no whole message, at {request}")
}
pub(crate) fn ended_here(request: impl Display, reason: impl Display) -> String {
    format!("this device ended the session, at {request}: {reason}")
}
pub(crate) const NO_REQUEST: &str = "no request";
pub(crate) fn broken(queue: u32, rule: impl Display) -> String {
    format!("queue {queue} is broken by its driver: {rule}")
}
pub(crate) const UNREADABLE: &str = "it cannot be read";
// end
