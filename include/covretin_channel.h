/* SPDX-License-Identifier: Apache-2.0 */
/* Covretin: the backend channel of vhost-user, on which a device makes requests of its frontend. The socket is that of
 * COVRETIN_CALL_SET_BACKEND_REQ_FD for a device, and the other end of what covretin_ask_set_backend_request_fd was given for a
 * frontend. Types and errors are those of covretin.h.
 *
 * A device asks by a covretin_channel, as a frontend does by a covretin_session. For each call:
 *
 *     error = covretin_channel_ask_config_change(&channel);          the request, with its arguments
 *     while (covretin_channel_to_send(&channel, ..) == 0 && n != 0)  send these bytes, with these descriptors on the first of them
 *     while ((n = covretin_channel_missing(&channel)) != 0)          read at most n bytes, with the descriptors that come along,
 *         covretin_channel_receive(&channel, ..);                    and hand them in
 *     error = covretin_channel_take(&channel);                       what the frontend replied: 0, or why not
 *
 * Every call must be taken before the next is asked, also one that awaits no reply (covretin_channel_missing is 0 at once).
 *
 * A frontend serves by a covretin_channel_server, as a device does by a covretin_backend. For each request:
 *
 *     while ((n = covretin_channel_server_missing(&server)) != 0)    read at most n bytes, with the descriptors that come along,
 *         covretin_channel_server_receive(&server, ..);              and hand them in
 *     error = covretin_channel_server_next(&server, &call);          0: what the device asks; else the request was refused
 *     covretin_channel_call_mmap(&server, &mmap);                    its arguments, by the form of the call
 *     error = covretin_channel_reply_number(&server, 0);             what the frontend replies
 *     while (covretin_channel_server_to_send(&server, ..) == 0 && n != 0)  send these bytes
 *
 * The frontend is asked only what passed every check of its request, each request once, and it replies once before anything
 * else. covretin_channel_server_to_send comes after a refused request, too: it may be acknowledged.
 *
 * No call makes a system call but for memory (malloc, realloc, free), waits for anything, or has a global state.
 *
 * WHO OWNS WHAT
 * Buffers: each pointer is borrowed for the call alone. What is `const` is only read; the others are only written, from
 *   their start. Two of them must not overlap. A count says how many elements its array has, and a pointer is never NULL
 *   (also where its count is 0).
 * Descriptors: a session owns none, and neither opens, duplicates nor closes one: it only passes on numbers. What an ask
 *   was given stays the caller's, who may close it once the bytes that covretin_channel_to_send hands out with it were sent. What
 *   came from the socket is the caller's too: covretin_channel_call_fd says which number is the request's, and names no other
 *   than came with the first byte of this request; all others, all of a request that is refused, and all that come to a
 *   covretin_channel, are the caller's to close.
 * Sessions: a variable of either type, {0} at first, belongs to the caller, who does not copy it or write to it. Calls with the
 *   same one must not overlap in time, and none may be made from a signal handler.
 *
 * ERRORS are numbers of enum covretin_error; 0 is none. What a call leaves after an error is said at the call. Of a covretin_channel
 * the peer is the frontend, and of a covretin_channel_server it is the device: what covretin.h says of a reply holds of a request
 * there.
 */
#ifndef COVRETIN_CHANNEL_H
#define COVRETIN_CHANNEL_H

#include "covretin.h"

#ifdef __cplusplus
extern "C" {
#endif

/* A device's session. {0} is not open. */
typedef struct covretin_channel {
    void *opaque;
} covretin_channel;

/* A frontend's session. {0} is not open. */
typedef struct covretin_channel_server {
    void *opaque;
} covretin_channel_server;

/* A part of a region of shared memory, and what is mapped there. */
typedef struct covretin_mmap {
    uint64_t fd_offset;  /* where it begins in what the descriptor maps */
    uint64_t shm_offset; /* where it begins in the region */
    uint64_t len;
    uint64_t flags;      /* bit 0: it may be written */
    uint8_t shmid;       /* the number of the region */
} covretin_mmap;

/* == The device's side ============================================================================================= */

/* -- Sessions ------------------------------------------------------------------------------------------------------ */

/* Opens a session, with nothing negotiated. SESSION_OPEN; OUT_OF_MEMORY. After an error nothing changed. */
enum covretin_error covretin_channel_open(covretin_channel *channel);

/* Frees what the session held; it is {0} again. Descriptors are not closed. A session that is not open stays so. */
void covretin_channel_close(covretin_channel *channel);

/* Whether REPLY_ACK was accepted: then each request from now on is replied to, and else none is, and a refusal by the frontend is
 * not seen. NO_SESSION. */
enum covretin_error covretin_channel_set_reply_ack(covretin_channel *channel, bool on);

/* Whether CONFIG, SHARED_OBJECT and SHMEM were accepted: without them their calls are refused. NO_SESSION. */
enum covretin_error covretin_channel_set_config_change(covretin_channel *channel, bool on);
enum covretin_error covretin_channel_set_shared_object(covretin_channel *channel, bool on);
enum covretin_error covretin_channel_set_shmem(covretin_channel *channel, bool on);

/* -- Bytes out and in ---------------------------------------------------------------------------------------------- */

/* Hands out what is to be sent, as covretin_to_send does: *byte_count bytes, and *fd_count descriptors that are to go with the
 * first of them. Call it until *byte_count is 0. COVRETIN_MAX_MESSAGE bytes are enough for any request; fds_len is
 * COVRETIN_MAX_FDS at least. NO_SESSION, NO_ROOM: the counts were not written, and nothing is gone. */
enum covretin_error covretin_channel_to_send(covretin_channel *channel, uint8_t *bytes, size_t bytes_len, int32_t *fds,
                                 size_t fds_len, size_t *byte_count, size_t *fd_count);

/* How many bytes to read for the reply of the call that was asked, as covretin_missing says it; 0 where it may be taken, and
 * where nothing is asked or awaited. A reply has 20 bytes. */
size_t covretin_channel_missing(covretin_channel *channel);

/* Takes in bytes of the reply: a part of those that are missing, or all, and the descriptors that came with the first of
 * them. NO_SESSION; TOO_MANY_BYTES; INVALID_PARAM: descriptors without a byte, more than COVRETIN_MAX_FDS, or a negative
 * one; OUT_OF_MEMORY. After an error nothing was taken in. Where the socket ends before nothing is missing, close the session. */
enum covretin_error covretin_channel_receive(covretin_channel *channel, const uint8_t *bytes, size_t bytes_len, const int32_t *fds,
                                 size_t fds_len);

/* Takes the reply of the call that was asked: whether it succeeded. NO_SESSION, NOTHING_ASKED, NOT_YET: nothing changed.
 * After all others nothing is asked any more, and nothing of the reply is left in the session: FRONTEND_INTERNAL_ERROR: the
 * frontend refused, and the session goes on. INVALID_MESSAGE: the reply is malformed or of another request, its header
 * announces another size than a reply has, or it has descriptors. After this and the like close the session: a part of that
 * reply may still be in the socket. */
enum covretin_error covretin_channel_take(covretin_channel *channel);

/* Hands out descriptors that came, to be closed: *count of them to the start of fds. A reply has none that anybody may keep. Call it
 * after each reply, until *count is 0; len is 1 at least. Each number that came is handed out once, and none other is. NO_SESSION:
 * *count was not written. */
enum covretin_error covretin_channel_unclaimed(covretin_channel *channel, int32_t *fds, size_t len, size_t *count);

/* -- Asks -----------------------------------------------------------------------------------------------------------
 * Each makes its request, which covretin_channel_to_send then hands out. After an error nothing more is to be sent than before.
 * All may return NO_SESSION, NOT_TAKEN, OUT_OF_MEMORY, SOCKET_RETRY, SOCKET_BROKEN, INVALID_PARAM for an argument, and
 * INACTIVE_OPERATION: its feature was not accepted, as covretin_channel_set_.. says. name is a UUID: name_len is 16; a
 * frontend refuses one whose bytes are all 0 or all 255. */

/* The configuration space changed, as that of a disk does that grew. Its feature is CONFIG. */
enum covretin_error covretin_channel_ask_config_change(covretin_channel *channel);

/* The device shares an object of this name, or shares it no more. Their feature is SHARED_OBJECT, and that of the next. */
enum covretin_error covretin_channel_ask_shared_object_add(covretin_channel *channel, const uint8_t *name, size_t name_len);
enum covretin_error covretin_channel_ask_shared_object_remove(covretin_channel *channel, const uint8_t *name, size_t name_len);

/* The object of this name is looked up; fd goes with the request. INVALID_PARAM: it is negative. */
enum covretin_error covretin_channel_ask_shared_object_lookup(covretin_channel *channel, const uint8_t *name, size_t name_len,
                                                  int32_t fd);

/* A part of what fd maps is to be mapped into a region of shared memory. INVALID_PARAM: fd is negative. Its feature is SHMEM,
 * and that of the next. A frontend refuses a part of 0 bytes, one that does not fit into 64 bits, and unknown flags. */
enum covretin_error covretin_channel_ask_shmem_map(covretin_channel *channel, const covretin_mmap *mmap, int32_t fd);
enum covretin_error covretin_channel_ask_shmem_unmap(covretin_channel *channel, const covretin_mmap *mmap);

/* == The frontend's side =========================================================================================== */

/* What a device asks: the number of its request. Behind each the calls that give its arguments. */
enum covretin_channel_call {
    /* generated from protocol/requests.toml: calls */
    COVRETIN_CHANNEL_CALL_CONFIG_CHANGE = 2,        /* no argument: read the configuration space again */
    COVRETIN_CHANNEL_CALL_SHARED_OBJECT_ADD = 6,    /* call_name */
    COVRETIN_CHANNEL_CALL_SHARED_OBJECT_REMOVE = 7, /* call_name */
    COVRETIN_CHANNEL_CALL_SHARED_OBJECT_LOOKUP = 8, /* call_name, call_fd */
    COVRETIN_CHANNEL_CALL_SHMEM_MAP = 9,            /* call_mmap, call_fd */
    COVRETIN_CHANNEL_CALL_SHMEM_UNMAP = 10          /* call_mmap */
    /* end */
};

/* As covretin_request_text, of a device's requests, which are 1 to 10. */
const char *covretin_channel_request_text(uint32_t request);

/* -- Sessions ------------------------------------------------------------------------------------------------------ */

/* Opens a session, without acknowledgements. SESSION_OPEN; OUT_OF_MEMORY. After an error nothing changed. */
enum covretin_error covretin_channel_server_open(covretin_channel_server *server);

/* Frees what the session held; it is {0} again. Descriptors are not closed. A session that is not open stays so. */
void covretin_channel_server_close(covretin_channel_server *server);

/* Whether REPLY_ACK was accepted: then each request that asks for it is replied to by a number, and else none is. NO_SESSION. */
enum covretin_error covretin_channel_server_set_reply_ack(covretin_channel_server *server, bool on);

/* -- Bytes in and out ---------------------------------------------------------------------------------------------- */

/* How many bytes to read of the next request: first the 12 bytes of its header, less what came; once these have come, those
 * of the body that it announces, if its header is one of a request. 0 where covretin_channel_server_next may be called, and
 * where a call is to be replied to. Read no more than this: the system does not say at which byte descriptors came. */
size_t covretin_channel_server_missing(covretin_channel_server *server);

/* Takes in bytes of a request: a part of those that are missing, or all, and the descriptors that came with the first of
 * them. Those on a request's first byte are its own; a request with descriptors in its body is refused, and others are named
 * by no call. NO_SESSION; TOO_MANY_BYTES; INVALID_PARAM: descriptors without a byte, more than COVRETIN_MAX_FDS, or a negative
 * one; OUT_OF_MEMORY. After an error nothing was taken in. */
enum covretin_error covretin_channel_server_receive(covretin_channel_server *server, const uint8_t *bytes, size_t bytes_len,
                                        const int32_t *fds, size_t fds_len);

/* The socket ended, or failed: what that means where it did. DISCONNECTED: between two requests, also where one has come whole;
 * PARTIAL_MESSAGE: in a header; INVALID_MESSAGE: in a body. NO_SESSION. Nothing changed; close the session. */
enum covretin_error covretin_channel_server_end(covretin_channel_server *server);

/* Hands out what is to be sent, as covretin_channel_to_send does. */
enum covretin_error covretin_channel_server_to_send(covretin_channel_server *server, uint8_t *bytes, size_t bytes_len, int32_t *fds,
                                        size_t fds_len, size_t *byte_count, size_t *fd_count);

/* -- Descriptors ----------------------------------------------------------------------------------------------------
 * A session keeps the numbers of those that came, so that each is claimed once or handed out once, and none other is. It never touches
 * the descriptors themselves. */

/* Claims a descriptor of the call that is to be replied to: it came with the first byte of its request, as covretin_channel_call_fd names it, and is to be
 * kept. NO_SESSION; OTHER_CALL: no call is to be replied to, or none of its descriptors has this number that was not claimed. After
 * an error nothing changed. */
enum covretin_error covretin_channel_server_claim(covretin_channel_server *server, int32_t fd);

/* Hands out descriptors that nobody will claim, to be closed: *count of them to the start of fds. They are those that came behind a
 * request's first byte, and those of a request that was refused or replied to that were not claimed. Call it after each request, until
 * *count is 0; len is 1 at least. NO_SESSION: *count was not written. */
enum covretin_error covretin_channel_server_unclaimed(covretin_channel_server *server, int32_t *fds, size_t len, size_t *count);

/* The socket ended amid a request, whose rest will never come: nobody will claim what came with it. A call that is to be replied to
 * keeps its own. NO_SESSION. */
enum covretin_error covretin_channel_server_abandon(covretin_channel_server *server);

/* -- Requests ------------------------------------------------------------------------------------------------------ */

/* Checks the request that came. 0: *call says what the device asks (a number of enum covretin_channel_call), which is to be
 * replied to before anything else. NO_SESSION; NOT_YET: it has not come whole; NOT_REPLIED: the call before is still to be
 * replied to. After these three nothing changed. All others refuse the request: nothing of it is left, and *call was not
 * written. INVALID_MESSAGE: it is malformed, or nobody serves it; close the session, once what is to be sent was sent.
 * OUT_OF_MEMORY, SOCKET_RETRY: an allocation failed. SOCKET_BROKEN: one failed amid a message before: close the session. */
enum covretin_error covretin_channel_server_next(covretin_channel_server *server, uint32_t *call);

/* The arguments of the call that is to be replied to, as often as wanted. NO_SESSION; OTHER_CALL: no call is to be replied to, or
 * it has arguments of another form; NO_ROOM. After an error nothing was written. */

/* Of SHARED_OBJECT_..: a UUID. name_len is 16 at least. */
enum covretin_error covretin_channel_call_name(covretin_channel_server *server, uint8_t *name, size_t name_len);

/* Of SHMEM_..: a part of a region of shared memory, of a byte at least, whose ends fit into 64 bits. */
enum covretin_error covretin_channel_call_mmap(covretin_channel_server *server, covretin_mmap *mmap);

/* Of SHARED_OBJECT_LOOKUP and SHMEM_MAP: the descriptor that came with the request. */
enum covretin_error covretin_channel_call_fd(covretin_channel_server *server, int32_t *fd);

/* -- Replies -------------------------------------------------------------------------------------------------------
 * Each replies to the call that is to be replied to; the bytes, if the request wants a reply, are then handed out by
 * covretin_channel_server_to_send. 0, or NO_SESSION; NOTHING_ASKED: no call is to be replied to, and nothing changed. After
 * all others the call is replied to: OUT_OF_MEMORY, SOCKET_RETRY, SOCKET_BROKEN: an allocation failed amid the reply: close the
 * session. */

/* Replies by a number: 0 is success, and devices take any other as a refusal. */
enum covretin_error covretin_channel_reply_number(covretin_channel_server *server, uint64_t number);

/* Replies by the number of a system's error, as EINVAL, which is sent as its negative. */
enum covretin_error covretin_channel_reply_errno(covretin_channel_server *server, int32_t number);

/* STACK, in bytes at most, with what the proved code calls but memory and copies. Written by scripts/check.py --write headers:
 *   8,192: channel_ask_config_change, channel_ask_shared_object_add, channel_ask_shared_object_lookup,
 *        channel_ask_shared_object_remove, channel_ask_shmem_map, channel_ask_shmem_unmap, channel_receive, channel_reply_errno,
 *        channel_reply_number, channel_server_next, channel_server_receive
 *   1,024: channel_close, channel_open, channel_server_close, channel_server_open
 *   512: all others */

#ifdef __cplusplus
}
#endif

#endif
