/* SPDX-License-Identifier: Apache-2.0 */
/* The texts of the log, and of the tap and the log in Rust: why a request was refused, who ended a session, what broke a queue. Each is the form
 * of a text and the values that belong there, as printf takes them. Private: no program includes this. */
#ifndef COVRETIN_REASONS_H
#define COVRETIN_REASONS_H

#include <inttypes.h>

/* generated from protocol/requests.toml: reasons */
#define REASON_REFUSED(request, reason) \
    "%s refused: %s", \
    (request), (reason)
#define REASON_NUMBERED(number) \
    "request %" PRIu32, \
    (uint32_t)(number)
#define REASON_LEFT_OUT(lines) \
    "%" PRIu32 " more lines were left out", \
    (uint32_t)(lines)
#define REASON_WRONG_VALUE(wanted, came) \
    "a value is not allowed: it wants %s, and came with %s", \
    (wanted), (came)
#define REASON_MALFORMED(wanted, came) \
    "it is malformed: it wants %s, and came with %s", \
    (wanted), (came)
#define REASON_WRONG_FDS(wanted, came) \
    "the number of descriptors is wrong: it wants %s, and came with %s", \
    (wanted), (came)
#define REASON_CAME(bytes, fds, place) \
    "%" PRIu64 " byte%s and %" PRIu64 " descriptor%s%s", \
    (uint64_t)(bytes), (bytes) == 1 ? "" : "s", (uint64_t)(fds), (fds) == 1 ? "" : "s", (place)
#define REASON_LATE ", not all of them with its first byte"
#define REASON_TABLE(bytes, fds, regions) \
    "%" PRIu32 " bytes and %" PRIu64 " descriptor%s for %" PRIu64 " region%s, each with a size", \
    (uint32_t)(bytes), (uint64_t)(fds), (fds) == 1 ? "" : "s", (uint64_t)(regions), (regions) == 1 ? "" : "s"
#define REASON_NO_TABLE(most, regions) \
    "1 to %" PRIu32 " regions, and not %" PRIu32, \
    (uint32_t)(most), (uint32_t)(regions)
#define REASON_KNOWN_CODE "a known code"
#define REASON_TOO_MANY_FDS(fds, most) \
    "%" PRIu64 " descriptor%s came, and %" PRIu32 " are the most", \
    (uint64_t)(fds), (fds) == 1 ? "" : "s", (uint32_t)(most)
#define REASON_OTHER_VERSION(version) \
    "its version is %" PRIu32 ", and not 1", \
    (uint32_t)(version)
#define REASON_RESERVED_FLAGS(flags) \
    "its flags are 0x%" PRIx64 ", of which bits are reserved", \
    (uint64_t)(flags)
#define REASON_TOO_LONG(bytes, most) \
    "its body has %" PRIu64 " byte%s, and %" PRIu32 " are the most", \
    (uint64_t)(bytes), (bytes) == 1 ? "" : "s", (uint32_t)(most)
#define REASON_IS_REPLY "it has the flag REPLY"
#define REASON_OTHER_STATE "postcopy is in another state"
#define REASON_NOT_ACCEPTED(feature) \
    "%s was not accepted", \
    (feature)
#define REASON_UNSERVED "nobody serves it"
#define REASON_UNMAPPED_THERE "the frontend says that it could not map the regions"
#define REASON_BY_DEVICE "the device refused it"
#define REASON_NOT_OFFERED(bits) \
    "the features 0x%" PRIx64 " were not offered", \
    (uint64_t)(bits)
#define REASON_NO_QUEUE(queues, queue) \
    "the device has %" PRIu64 " queue%s, and none of the number %" PRIu32, \
    (uint64_t)(queues), (queues) == 1 ? "" : "s", (uint32_t)(queue)
#define REASON_IS_STARTED(queue) \
    "queue %" PRIu32 " is started", \
    (uint32_t)(queue)
#define REASON_WRONG_SIZE(queue, size, most) \
    "queue %" PRIu32 " cannot have %" PRIu64 " descriptor%s: it takes 1 to %" PRIu32, \
    (uint32_t)(queue), (uint64_t)(size), (size) == 1 ? "" : "s", (uint32_t)(most)
#define REASON_NOT_TO_START(queue, rule) \
    "queue %" PRIu32 " cannot start: %s", \
    (uint32_t)(queue), (rule)
#define REASON_NO_MEMORY "no memory was given before"
#define REASON_NOWHERE "its used ring does not lie in guest memory"
#define REASON_NO_INFLIGHT "its part of the inflight region is none of a queue of its kind and size"
#define REASON_NO_EVENTFD "its descriptor is no eventfd"
#define REASON_NO_SIGNAL "its descriptor is neither an eventfd nor a pipe nor a stream socket"
#define REASON_REGION(index) \
    "region %" PRIu32, \
    (uint32_t)(index)
#define REASON_THE_LOG "the log"
#define REASON_THE_INFLIGHT "the inflight region"
#define REASON_NO_MEMORY_FILE(what) \
    "%s is no memory file (memfd, tmpfs, hugetlbfs)", \
    (what)
#define REASON_BEYOND_FILE(what, size, offset, file) \
    "%s is %" PRIu64 " bytes at %" PRIu64 " of its file, which has %" PRIu64, \
    (what), (uint64_t)(size), (uint64_t)(offset), (uint64_t)(file)
#define REASON_UNMAPPED(what, size) \
    "%s, of %" PRIu64 " bytes, could not be mapped", \
    (what), (uint64_t)(size)
#define REASON_WRONG_INFLIGHT(queues, size, bytes, offset) \
    "an inflight region for %" PRIu64 " queue%s of %" PRIu64 " descriptor%s, of %" PRIu64 " bytes at %" PRIu64 ", is none of this device", \
    (uint64_t)(queues), (queues) == 1 ? "" : "s", (uint64_t)(size), (size) == 1 ? "" : "s", (uint64_t)(bytes), (uint64_t)(offset)
#define REASON_NO_CONFIG(size, offset) \
    "the device has no such part of its configuration space: %" PRIu64 " byte%s at %" PRIu32, \
    (uint64_t)(size), (size) == 1 ? "" : "s", (uint32_t)(offset)
#define REASON_FIXED_CONFIG(size, offset) \
    "this part of the configuration space is not to be written: %" PRIu64 " byte%s at %" PRIu32, \
    (uint64_t)(size), (size) == 1 ? "" : "s", (uint32_t)(offset)
#define REASON_NO_CHANNEL "the device takes no backend channel of this kind"
#define REASON_NOT_ADVISED "postcopy was not advised"
#define REASON_ADVISED "postcopy was advised before"
#define REASON_NO_USERFAULT "the system gives no userfaultfd, or none for this memory"
#define REASON_FRONTEND_WENT(request) \
    "the frontend ended the session; its last request was %s", \
    (request)
#define REASON_FRONTEND_LEFT "the frontend ended the session, in which it asked nothing"
#define REASON_STOPPED "this device was told to end the session"
#define REASON_MEMORY_TAKEN "the session ended: the frontend took memory away that was in use"
#define REASON_AMID_HEADER(request) \
    "the session ended: the frontend went amid a header, after %s", \
    (request)
#define REASON_AMID_BODY(request) \
    "the session ended: the frontend sent no whole message, at %s", \
    (request)
#define REASON_ENDED_HERE(request, reason) \
    "this device ended the session, at %s: %s", \
    (request), (reason)
#define REASON_NO_REQUEST "no request"
#define REASON_BROKEN(queue, rule) \
    "queue %" PRIu32 " is broken by its driver: %s", \
    (uint32_t)(queue), (rule)
#define REASON_UNREADABLE "it cannot be read"
/* end */

#endif
