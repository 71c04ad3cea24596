/* SPDX-License-Identifier: Apache-2.0 */
/* Covretin: the backend of vhost-user, for a device that owns its socket. It is the other side of covretin.h, from which it
 * has its types and errors.
 *
 * A backend's session checks each request and makes its reply; the device, which is the caller's, is asked in between. It
 * makes no system call but for memory (malloc, realloc, free), waits for nothing, and has no global state: the caller hands in
 * what it read from its socket, and writes there what the session hands out. A session from its first request to its last:
 *
 *     while (error != COVRETIN_INVALID_MESSAGE && !covretin_backend_ended(&backend)) {
 *         while ((n = covretin_backend_missing(&backend)) != 0) {
 *             n = read_from(socket, bytes, n, fds, &count);            at most n bytes, with the descriptors that come along
 *             if (n == 0 || covretin_backend_receive(&backend, bytes, n, fds, count) != COVRETIN_OK)
 *                 return;                                              the frontend went, or memory is out
 *         }
 *         error = covretin_backend_next(&backend, &call);              0: what is asked of the device; else the request was refused
 *         if (error == COVRETIN_OK)
 *             answer(&backend, call);                                  reads its arguments and replies, each by the form of the call
 *         while (covretin_backend_to_send(&backend, bytes, sizeof bytes, fds, COVRETIN_MAX_FDS, &n, &count) == 0 && n != 0)
 *             write_to(socket, bytes, n, fds, count);                  all of them, with these descriptors on the first
 *         while (covretin_backend_unclaimed(&backend, fds, COVRETIN_MAX_FDS, &count) == 0 && count != 0)
 *             close_all(fds, count);                                   what came with the request, and nobody claimed
 *     }
 *
 * The device is asked only what passed every check of its request, each request once, and it replies once before anything
 * else. covretin_backend_to_send comes after a refused request, too: it may be acknowledged.
 *
 * WHOEVER WAITS IS ANSWERED, under STANDARD. A request with a reply of its own is refused by that reply, where it has a form for it
 * (GET_CONFIG of size 0; GET_INFLIGHT_FD of mmap_size 0, without a descriptor; GET_SHARED_OBJECT and POSTCOPY_ADVISE without a body;
 * SET_DEVICE_STATE_FD 0x101; CHECK_DEVICE_STATE 1; POSTCOPY_END 1, and 0 where it succeeded). Any other is acknowledged with 1 where
 * it asks for that and REPLY_ACK was accepted. Where a frontend waits and neither says it (GET_FEATURES, GET_VRING_BASE,
 * GET_QUEUE_NUM, SET_LOG_BASE and their like) the session ends: covretin_backend_ended, and its socket is to be closed, since a frontend
 * that is hung up on recovers, and one that waits does not.
 *
 * RINGS are the device's: the session checks their requests, and keeps no state of them. By the specification ('Ring states') a ring
 * is processed while it is started and enabled.
 * Started: from the first kick on, when the descriptor of SET_VRING_KICK gets readable; where it has none (-1), from that request
 *   on. Until GET_VRING_BASE. Its size, its addresses and its base come before. Many devices start it at SET_VRING_KICK in any case.
 * Enabled: at once where the last SET_FEATURES had no PROTOCOL_FEATURES; else from SET_VRING_ENABLE with 1 until that with 0, also
 *   where that comes before SET_FEATURES, as from QEMU's network cards. What is started and not enabled has no side effect: a
 *   network device gives the guest no packets, and drops those that it sends.
 * VIRTIO_F_VERSION_1, bit 32 of the virtio features: where it was accepted, rings and the device's own records are little endian.
 *   Else they are in the guest's byte order, and nothing says which that is: nobody serves SET_VRING_ENDIAN. So a device offers it.
 *
 * WHO OWNS WHAT
 * Buffers: each pointer is borrowed for the call alone. What is `const` is only read; the others are only written, from
 *   their start. Two of them must not overlap. A count says how many elements its array has, and a pointer is never NULL
 *   (also where its count is 0).
 * Descriptors: a session owns none, and neither opens, duplicates nor closes one: it only passes on numbers. What came from
 *   the socket is the caller's: covretin_call_.. says which number is which argument's, and names no other than came with the
 *   first byte of this request; all others, and all of a request that is refused, are the caller's to close. What a reply was
 *   given stays the caller's, who may close it once the bytes that covretin_backend_to_send hands out with it were sent.
 * Sessions: a variable of type covretin_backend, {0} at first, belongs to the caller, who does not copy it or write to it. Calls
 *   with the same one must not overlap in time, and none may be made from a signal handler.
 *
 * ERRORS are numbers of enum covretin_error; 0 is none. What a call leaves after an error is said at the call. Here the peer is
 * the frontend, and what covretin.h says of a reply holds of a request.
 */
#ifndef COVRETIN_BACKEND_H
#define COVRETIN_BACKEND_H

#include "covretin.h"

#ifdef __cplusplus
extern "C" {
#endif

/* A backend's session. {0} is not open. */
typedef struct covretin_backend {
    void *opaque;
} covretin_backend;

/* The protocol features whose requests this library serves, or makes for the device on the backend channel: offer of these what
 * the device can do, and no more. A frontend that accepts another may send requests that nobody serves, or wait for some that
 * the device cannot make (HOST_NOTIFIER). */
#define COVRETIN_SERVED_PROTOCOL_FEATURES \
    (COVRETIN_PROTOCOL_MQ | COVRETIN_PROTOCOL_LOG_SHMFD | COVRETIN_PROTOCOL_REPLY_ACK | COVRETIN_PROTOCOL_MTU | \
     COVRETIN_PROTOCOL_BACKEND_REQ | COVRETIN_PROTOCOL_PAGEFAULT | COVRETIN_PROTOCOL_CONFIG | \
     COVRETIN_PROTOCOL_BACKEND_SEND_FD | COVRETIN_PROTOCOL_INFLIGHT_SHMFD | COVRETIN_PROTOCOL_RESET_DEVICE | \
     COVRETIN_PROTOCOL_CONFIGURE_MEM_SLOTS | COVRETIN_PROTOCOL_SHARED_OBJECT | COVRETIN_PROTOCOL_DEVICE_STATE | \
     COVRETIN_PROTOCOL_SHMEM)

/* What is asked of the device: the number of its request, or one of the last two. Behind each the call that gives its
 * arguments, if it has some, and those by which it is replied to. Each may be replied to by covretin_reply_refused. */
enum covretin_call {
    /* generated from protocol/requests.toml: calls */
    COVRETIN_CALL_GET_FEATURES = 1,           /* ; reply_number: the virtio features */
    COVRETIN_CALL_SET_FEATURES = 2,           /* call_number; reply_done */
    COVRETIN_CALL_SET_OWNER = 3,              /* ; reply_done */
    COVRETIN_CALL_RESET_OWNER = 4,            /* ; reply_done */
    COVRETIN_CALL_SET_MEM_TABLE = 5,          /* call_regions; reply_done, or reply_bases while postcopy listens */
    COVRETIN_CALL_SET_LOG_BASE = 6,           /* call_log; reply_done */
    COVRETIN_CALL_SET_VRING_NUM = 8,          /* call_ring: its size; reply_done */
    COVRETIN_CALL_SET_VRING_ADDR = 9,         /* call_vring; reply_done */
    COVRETIN_CALL_SET_VRING_BASE = 10,        /* call_ring: where it begins; reply_done */
    COVRETIN_CALL_GET_VRING_BASE = 11,        /* call_ring: no number; reply_ring */
    COVRETIN_CALL_SET_VRING_KICK = 12,        /* call_ring_fd; reply_done */
    COVRETIN_CALL_SET_VRING_CALL = 13,        /* call_ring_fd; reply_done */
    COVRETIN_CALL_SET_VRING_ERR = 14,         /* call_ring_fd; reply_done */
    COVRETIN_CALL_GET_PROTOCOL_FEATURES = 15, /* ; reply_number: REPLY_ACK is sent with it in any case */
    COVRETIN_CALL_SET_PROTOCOL_FEATURES = 16, /* call_number; reply_done */
    COVRETIN_CALL_GET_QUEUE_NUM = 17,         /* ; reply_number */
    COVRETIN_CALL_SET_VRING_ENABLE = 18,      /* call_ring: 0 or 1; reply_done */
    COVRETIN_CALL_NET_SET_MTU = 20,           /* call_number; reply_done */
    COVRETIN_CALL_SET_BACKEND_REQ_FD = 21,    /* call_fd: the socket of the backend channel; reply_done */
    COVRETIN_CALL_GET_CONFIG = 24,            /* call_config: without bytes; reply_config */
    COVRETIN_CALL_SET_CONFIG = 25,            /* call_config; reply_done */
    COVRETIN_CALL_POSTCOPY_ADVISE = 28,       /* ; reply_fd: the userfaultfd */
    COVRETIN_CALL_POSTCOPY_LISTEN = 29,       /* ; reply_done */
    COVRETIN_CALL_POSTCOPY_END = 30,          /* ; reply_done */
    COVRETIN_CALL_GET_INFLIGHT_FD = 31,       /* call_inflight: without a descriptor; reply_inflight */
    COVRETIN_CALL_SET_INFLIGHT_FD = 32,       /* call_inflight; reply_done */
    COVRETIN_CALL_GPU_SET_SOCKET = 33,        /* call_fd: the socket of the vhost-user-gpu channel; reply_done */
    COVRETIN_CALL_RESET_DEVICE = 34,          /* ; reply_done */
    COVRETIN_CALL_GET_MAX_MEM_SLOTS = 36,     /* ; reply_number */
    COVRETIN_CALL_ADD_MEM_REG = 37,           /* call_regions: one; reply_done, or reply_bases while postcopy listens */
    COVRETIN_CALL_REM_MEM_REG = 38,           /* call_regions: one, without a descriptor; reply_done */
    COVRETIN_CALL_GET_SHARED_OBJECT = 41,     /* call_name; reply_fd */
    COVRETIN_CALL_SET_DEVICE_STATE_FD = 42,   /* call_transfer; reply_fd: -1 to use the one that came */
    COVRETIN_CALL_CHECK_DEVICE_STATE = 43,    /* ; reply_done */
    COVRETIN_CALL_GET_SHMEM_CONFIG = 44,      /* ; reply_shmem */
    COVRETIN_CALL_POSTCOPY_ACK = 256,         /* the frontend mapped the regions of the request before; reply_done */
    COVRETIN_CALL_OTHER = 257                 /* call_other, call_fds; reply_done: a request with no call of its own */
    /* end */
};

/* What a request is called, by its number: a string that is never NULL, never freed and different for each of 1 to 44, also where
 * nobody serves it, and for COVRETIN_CALL_POSTCOPY_ACK. Any other number has a string too. */
const char *covretin_request_text(uint32_t request);

/* -- Sessions ------------------------------------------------------------------------------------------------------ */

/* Opens a session. SESSION_OPEN; OUT_OF_MEMORY. After an error nothing changed. */
enum covretin_error covretin_backend_open(covretin_backend *backend);

/* Whose behaviour the session has from now on. Under STANDARD, as at first, whoever waits is answered, as above; a request of any
 * number that has no call of its own is the device's (COVRETIN_CALL_OTHER); a ring may be enabled once PROTOCOL_FEATURES was offered
 * or accepted; and a memory table may be longer than its regions. Real frontends want all four. Under VHOST some refusals have no
 * reply, also where a frontend waits, the second is INVALID_MESSAGE without a reply, and the others are refused. NO_SESSION;
 * INVALID_PARAM: there is no such profile; NOT_REPLIED: a call is still to be replied to. After an error nothing changed. */
enum covretin_error covretin_backend_set_profile(covretin_backend *backend, enum covretin_profile profile);

/* Frees what the session held; it is {0} again. Descriptors are not closed. A session that is not open stays so. */
void covretin_backend_close(covretin_backend *backend);

/* -- Bytes in and out ---------------------------------------------------------------------------------------------- */

/* How many bytes to read of the next request: first the 12 bytes of its header, less what came; once these have come, those
 * of the body that it announces, if its header is one of a request. 0 where covretin_backend_next may be called, and where a
 * call is to be replied to. Read no more than this: the system does not say at which byte descriptors came. Ask
 * covretin_backend_ended before: of a session that has ended this may be 12, and the frontend, which waits, sends nothing. */
size_t covretin_backend_missing(covretin_backend *backend);

/* Takes in bytes of a request: a part of those that are missing, or all, and the descriptors that came with the first of
 * them. Those on a request's first byte are its own; a request with descriptors in its body is refused, and others are named
 * by no call. NO_SESSION; TOO_MANY_BYTES; INVALID_PARAM: descriptors without a byte, more than COVRETIN_MAX_FDS, or a negative
 * one; OUT_OF_MEMORY. After an error nothing was taken in. */
enum covretin_error covretin_backend_receive(covretin_backend *backend, const uint8_t *bytes, size_t bytes_len, const int32_t *fds,
                                 size_t fds_len);

/* The socket ended, or failed: what that means where it did. DISCONNECTED: between two requests, also where one has come whole;
 * PARTIAL_MESSAGE: in a header; INVALID_MESSAGE: in a body. NO_SESSION. Nothing changed; close the session. */
enum covretin_error covretin_backend_end(covretin_backend *backend);

/* Hands out what is to be sent, as covretin_to_send does: *byte_count bytes, and *fd_count descriptors that are to go with the
 * first of them. Call it until *byte_count is 0. COVRETIN_MAX_MESSAGE bytes are enough for any reply; fds_len is
 * COVRETIN_MAX_FDS at least. NO_SESSION, NO_ROOM: the counts were not written, and nothing is gone. */
enum covretin_error covretin_backend_to_send(covretin_backend *backend, uint8_t *bytes, size_t bytes_len, int32_t *fds,
                                 size_t fds_len, size_t *byte_count, size_t *fd_count);

/* -- Descriptors ----------------------------------------------------------------------------------------------------
 * A session keeps the numbers of those that came, so that each is claimed once or handed out once, and none other is. It never touches
 * the descriptors themselves. */

/* Claims a descriptor of the call that is to be replied to: it came with the first byte of its request, as covretin_call_.. names it, and is to be
 * kept. NO_SESSION; OTHER_CALL: no call is to be replied to, or none of its descriptors has this number that was not claimed. After
 * an error nothing changed. */
enum covretin_error covretin_backend_claim(covretin_backend *backend, int32_t fd);

/* Hands out descriptors that nobody will claim, to be closed: *count of them to the start of fds. They are those that came behind a
 * request's first byte, and those of a request that was refused or replied to that were not claimed. Call it after each request, until
 * *count is 0; len is 1 at least. NO_SESSION: *count was not written. */
enum covretin_error covretin_backend_unclaimed(covretin_backend *backend, int32_t *fds, size_t len, size_t *count);

/* The socket ended amid a request, whose rest will never come: nobody will claim what came with it. A call that is to be replied to
 * keeps its own. NO_SESSION. */
enum covretin_error covretin_backend_abandon(covretin_backend *backend);

/* -- Requests ------------------------------------------------------------------------------------------------------ */

/* Checks the request that came. 0: *call says what is asked of the device, which is to be replied to before anything else.
 * NO_SESSION; NOT_YET: it has not come whole; NOT_REPLIED: the call before is still to be replied to. After these three
 * nothing changed. All others refuse the request: the device is asked nothing, nothing of the request is left, and *call was
 * not written. INVALID_MESSAGE: it is malformed, as one with the flag of a reply, or under VHOST nobody serves its number, which under
 * STANDARD is the device's as COVRETIN_CALL_OTHER, whatever it is; close the session, once what is to be sent was sent.
 * INVALID_OPERATION: postcopy is in another state.
 * INACTIVE_FEATURE, INACTIVE_OPERATION: it wants a feature that was not accepted, which covretin_backend_inactive says.
 * INVALID_PARAM, INCORRECT_FDS, FRONTEND_INTERNAL_ERROR: its arguments are wrong. OUT_OF_MEMORY, SOCKET_RETRY: an allocation
 * failed. SOCKET_BROKEN: the session had ended before: close it. */
enum covretin_error covretin_backend_next(covretin_backend *backend, uint32_t *call);

/* Whether the session has ended: 1 once a request was refused, or replied to as refused, for which a frontend waits and which no reply
 * refuses, and once an allocation failed amid a message; else 0, and without a session. From then on covretin_backend_next is
 * SOCKET_BROKEN. Send what is to be sent, and close the socket at once: the frontend waits. */
uint32_t covretin_backend_ended(covretin_backend *backend);

/* Which feature the request lacked that covretin_backend_next read last: after INACTIVE_FEATURE one bit of COVRETIN_FEATURE_..,
 * after INACTIVE_OPERATION one of COVRETIN_PROTOCOL_... 0 where it was served, or refused for anything else, before the first, and
 * without a session. */
uint64_t covretin_backend_inactive(covretin_backend *backend);

/* -- The arguments of the call that is to be replied to --------------------------------------------------------------
 * They can be read until it is replied to, as often as wanted. NO_SESSION; OTHER_CALL: no call is to be replied to, or it has
 * arguments of another form; NO_ROOM. After an error nothing was written. */

/* Of SET_FEATURES, SET_PROTOCOL_FEATURES, NET_SET_MTU (16 bits). */
enum covretin_error covretin_call_number(covretin_backend *backend, uint64_t *number);

/* Of SET_VRING_NUM, SET_VRING_BASE, SET_VRING_ENABLE (1 or 0) and GET_VRING_BASE (0): a ring, and a number. The ring may be
 * one that the device has not. */
enum covretin_error covretin_call_ring(covretin_backend *backend, uint32_t *index, uint32_t *number);

/* Of SET_VRING_ADDR: a ring, and where it lies. queue_max_size and queue_size are 0; has_log_addr is bit 0 of flags, and
 * log_addr is what came in either case. The addresses are aligned as rings are, and nothing else is known of them. */
enum covretin_error covretin_call_vring(covretin_backend *backend, uint32_t *index, covretin_vring *ring);

/* Of SET_VRING_KICK, SET_VRING_CALL and SET_VRING_ERR: a ring, and its eventfd; -1: there is none. */
enum covretin_error covretin_call_ring_fd(covretin_backend *backend, uint32_t *index, int32_t *fd);

/* Of SET_MEM_TABLE, ADD_MEM_REG and REM_MEM_REG: *count regions, each with its descriptor (-1 of REM_MEM_REG), and whether
 * postcopy listens, so that where each region is mapped is to be the reply. len is *count at least; 32 is enough. */
enum covretin_error covretin_call_regions(covretin_backend *backend, covretin_region *regions, size_t len, size_t *count,
                              bool *listening);

/* Of GET_CONFIG and SET_CONFIG: a part of the configuration space, and of SET_CONFIG its *count bytes, which are config->size
 * many; of GET_CONFIG *count is 0. len is *count at least; COVRETIN_MAX_CONFIG is enough. */
enum covretin_error covretin_call_config(covretin_backend *backend, covretin_config *config, uint8_t *bytes, size_t len,
                             size_t *count);

/* Of SET_BACKEND_REQ_FD and GPU_SET_SOCKET: a socket. */
enum covretin_error covretin_call_fd(covretin_backend *backend, int32_t *fd);

/* Of GET_SHARED_OBJECT: a UUID. name_len is 16 at least. */
enum covretin_error covretin_call_name(covretin_backend *backend, uint8_t *name, size_t name_len);

/* Of GET_INFLIGHT_FD (*fd is -1) and SET_INFLIGHT_FD. */
enum covretin_error covretin_call_inflight(covretin_backend *backend, covretin_inflight *inflight, int32_t *fd);

/* Of SET_DEVICE_STATE_FD: direction 0 from the backend (save), 1 to it (load); phase 0, stopped; and the pipe. */
enum covretin_error covretin_call_transfer(covretin_backend *backend, uint32_t *direction, uint32_t *phase, int32_t *fd);

/* Of SET_LOG_BASE: the dirty log, in memory_size, mmap_offset and fd of a region; the others are 0. */
enum covretin_error covretin_call_log(covretin_backend *backend, covretin_region *log);

/* Of OTHER: the request's number, and its body; len is *count at least, COVRETIN_MAX_MESSAGE is enough. Under STANDARD the device is asked
 * of each request that has no call of its own; covretin_reply_refused says that nobody serves it. One that awaits a reply of its own
 * (GET_STATUS, CREATE_CRYPTO_SESSION) ends the session either way. */
enum covretin_error covretin_call_other(covretin_backend *backend, uint32_t *request, uint8_t *bytes, size_t len, size_t *count);

/* Of OTHER: all descriptors that came with it. len is *count at least; COVRETIN_MAX_FDS is enough. */
enum covretin_error covretin_call_fds(covretin_backend *backend, int32_t *fds, size_t len, size_t *count);

/* -- Replies -------------------------------------------------------------------------------------------------------
 * Each replies to the call that is to be replied to; the bytes, if any, are then handed out by covretin_backend_to_send. 0, or
 * NO_SESSION; NOTHING_ASKED: no call is to be replied to; OTHER_CALL: it is replied to in another form; INVALID_PARAM: an
 * argument is not allowed; OUT_OF_MEMORY: an allocation failed. After these the call is still to be replied to, and nothing
 * changed. All others are those of the session, and the call is replied to: BACKEND_INTERNAL_ERROR: the device refused, or its
 * bases are not as many as the regions; SOCKET_RETRY, SOCKET_BROKEN: an allocation failed amid the reply: close the session. */

/* The call succeeded, and has no value. */
enum covretin_error covretin_reply_done(covretin_backend *backend);

/* The device refused the call. Why is not sent: as the request has it the reply is an acknowledgement of 1, one without a
 * value, or none; under STANDARD the session may end (covretin_backend_ended). This call then returns BACKEND_INTERNAL_ERROR; but 0
 * where the reply itself says that it was refused (GET_CONFIG, GET_SHARED_OBJECT, POSTCOPY_ADVISE, SET_DEVICE_STATE_FD,
 * CHECK_DEVICE_STATE). */
enum covretin_error covretin_reply_refused(covretin_backend *backend);

/* To GET_FEATURES, GET_PROTOCOL_FEATURES, GET_QUEUE_NUM, GET_MAX_MEM_SLOTS. */
enum covretin_error covretin_reply_number(covretin_backend *backend, uint64_t number);

/* To GET_VRING_BASE: the ring, and at which descriptor it goes on. */
enum covretin_error covretin_reply_ring(covretin_backend *backend, uint32_t index, uint32_t number);

/* To SET_MEM_TABLE and ADD_MEM_REG while postcopy listens: where each region is mapped, in their order. */
enum covretin_error covretin_reply_bases(covretin_backend *backend, const uint64_t *bases, size_t len);

/* To GET_CONFIG: the bytes. Where they are not as many as were asked for, the reply says that there are none. INVALID_PARAM:
 * more than COVRETIN_MAX_CONFIG. */
enum covretin_error covretin_reply_config(covretin_backend *backend, const uint8_t *bytes, size_t len);

/* To GET_SHARED_OBJECT, POSTCOPY_ADVISE and SET_DEVICE_STATE_FD: a descriptor. -1 to SET_DEVICE_STATE_FD alone: the device
 * uses the one that came. INVALID_PARAM: a negative one. */
enum covretin_error covretin_reply_fd(covretin_backend *backend, int32_t fd);

/* To GET_INFLIGHT_FD. INVALID_PARAM: a negative descriptor. */
enum covretin_error covretin_reply_inflight(covretin_backend *backend, const covretin_inflight *inflight, int32_t fd);

/* To GET_SHMEM_CONFIG: how many regions the device has, and 256 sizes, 0 where there is no region; sizes_len is 256, else INVALID_PARAM. */
enum covretin_error covretin_reply_shmem(covretin_backend *backend, const uint64_t *sizes, size_t sizes_len, uint32_t count);

/* STACK, in bytes at most, with what the proved code calls but memory and copies. Written by scripts/check.py --write headers:
 *   12,288: reply_shmem
 *   8,192: backend_next, backend_open, backend_receive, reply_bases, reply_config, reply_done, reply_fd, reply_inflight,
 *        reply_number, reply_refused, reply_ring
 *   2,048: call_regions
 *   1,024: backend_close
 *   512: all others */

#ifdef __cplusplus
}
#endif

#endif
