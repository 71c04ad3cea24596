/* SPDX-License-Identifier: Apache-2.0 */
/* Covretin: the frontend of vhost-user, for a VMM (virtual machine monitor) that owns its socket.
 *
 * A session makes the bytes of each request and reads those of its reply. It makes no system call but for memory
 * (malloc, realloc, free), waits for nothing, and has no global state: the caller writes to its socket what the session
 * hands out, and hands in what it read from there. covretin_socket.h does that over a Unix socket. For each call:
 *
 *     error = covretin_ask_get_features(&session);           the request, with its arguments
 *     while (covretin_to_send(&session, ..) == 0 && n != 0)  send these bytes, with these descriptors on the first of them
 *     while ((n = covretin_missing(&session)) != 0)          read at most n bytes, with the descriptors that come along,
 *         covretin_receive(&session, ..);                    and hand them in
 *     error = covretin_take(&session);                       what the backend replied: 0, or why not
 *     error = covretin_answer_number(&session, &features);   the value, where the call has one
 *
 * Every call must be taken before the next is asked, also one that awaits no reply (covretin_missing is 0 at once).
 *
 * WHO OWNS WHAT
 * Buffers: each pointer is borrowed for the call alone. What is `const` is only read; the others are only written, from
 *   their start. Two of them must not overlap. A count says how many elements its array has, and a pointer is never NULL
 *   (also where its count is 0).
 * Descriptors: a session owns none, and neither opens, duplicates nor closes one: it only passes on numbers. What an ask
 *   was given stays the caller's, who may close it once the bytes that covretin_to_send hands out with it were sent. What
 *   came from the socket is the caller's too: covretin_answer_fd and covretin_answer_inflight say which number is the
 *   reply's; all others, and all of a reply that is refused, are the caller's to close.
 * Sessions: a variable of type covretin_session, {0} at first, belongs to the caller, who does not copy it or write to it. Calls
 *   with the same one must not overlap in time, and none may be made from a signal handler.
 *
 * ERRORS are numbers of enum covretin_error; 0 is none. What a call leaves after an error is said at the call.
 *
 * Units are bytes, unless another one is named. What each request means: the vhost-user specification. What is said of
 * real backends was seen with a storage daemon, a file system daemon and a packet switch.
 */
#ifndef COVRETIN_H
#define COVRETIN_H

#include <stdbool.h>
#include <stddef.h>
#include <stdint.h>

#ifdef __cplusplus
extern "C" {
#endif

/* The version of this header. covretin_version() returns that of the library. */
#define COVRETIN_VERSION "0.3.0"
/* The same as a number, to be compared: two hexadecimal digits for each part. */
#define COVRETIN_VERSION_NUMBER 0x000300

/* The greatest number of descriptors that come with a message. */
#define COVRETIN_MAX_FDS 32

/* The greatest size of a message: a header of 12 bytes, and a body. */
#define COVRETIN_MAX_MESSAGE 4108

/* The greatest number of bytes of the configuration space that one request reads or writes. */
#define COVRETIN_MAX_CONFIG 4084

/* The flag of covretin_set_hdr_flags that asks for acknowledgements. */
#define COVRETIN_NEED_REPLY 8

/* Virtio features that vhost-user itself gives a meaning, for covretin_ask_set_features. The others are virtio's and the device's, as
 * the guest's driver accepted them. Without VIRTIO_F_VERSION_1 (bit 32) among them rings are of the guest's byte order, which a
 * backend need not know. */
#define COVRETIN_FEATURE_LOG_ALL ((uint64_t)1 << 26)           /* the backend logs the pages that it writes */
#define COVRETIN_FEATURE_PROTOCOL_FEATURES ((uint64_t)1 << 30) /* there are protocol features */

/* Protocol features, for covretin_ask_set_protocol_features. */
#define COVRETIN_PROTOCOL_MQ ((uint64_t)1 << 0)
#define COVRETIN_PROTOCOL_LOG_SHMFD ((uint64_t)1 << 1)
#define COVRETIN_PROTOCOL_RARP ((uint64_t)1 << 2)
#define COVRETIN_PROTOCOL_REPLY_ACK ((uint64_t)1 << 3)
#define COVRETIN_PROTOCOL_MTU ((uint64_t)1 << 4)
#define COVRETIN_PROTOCOL_BACKEND_REQ ((uint64_t)1 << 5)
#define COVRETIN_PROTOCOL_CROSS_ENDIAN ((uint64_t)1 << 6)
#define COVRETIN_PROTOCOL_CRYPTO_SESSION ((uint64_t)1 << 7)
#define COVRETIN_PROTOCOL_PAGEFAULT ((uint64_t)1 << 8)
#define COVRETIN_PROTOCOL_CONFIG ((uint64_t)1 << 9)
#define COVRETIN_PROTOCOL_BACKEND_SEND_FD ((uint64_t)1 << 10)
#define COVRETIN_PROTOCOL_HOST_NOTIFIER ((uint64_t)1 << 11)
#define COVRETIN_PROTOCOL_INFLIGHT_SHMFD ((uint64_t)1 << 12)
#define COVRETIN_PROTOCOL_RESET_DEVICE ((uint64_t)1 << 13)
#define COVRETIN_PROTOCOL_INBAND_NOTIFICATIONS ((uint64_t)1 << 14)
#define COVRETIN_PROTOCOL_CONFIGURE_MEM_SLOTS ((uint64_t)1 << 15)
#define COVRETIN_PROTOCOL_STATUS ((uint64_t)1 << 16)
#define COVRETIN_PROTOCOL_XEN_MMAP ((uint64_t)1 << 17)
#define COVRETIN_PROTOCOL_SHARED_OBJECT ((uint64_t)1 << 18)
#define COVRETIN_PROTOCOL_DEVICE_STATE ((uint64_t)1 << 19)
#define COVRETIN_PROTOCOL_GET_VRING_BASE_INFLIGHT ((uint64_t)1 << 20)
#define COVRETIN_PROTOCOL_GPA_ADDRESSES ((uint64_t)1 << 21)
#define COVRETIN_PROTOCOL_SHMEM ((uint64_t)1 << 22)

/* The protocol features whose requests this library makes: accept what the backend offers of these, and no more. Left out
 * are those whose requests it does not make (RARP, CROSS_ENDIAN, CRYPTO_SESSION, INBAND_NOTIFICATIONS, and STATUS: a backend
 * whose offer of it was accepted may wait for SET_STATUS, and a virtual switch then never passes a frame), those that only
 * concern the channel of the backend's own requests, which the caller serves (BACKEND_SEND_FD, HOST_NOTIFIER), and those that
 * change what a request means (XEN_MMAP, GET_VRING_BASE_INFLIGHT, GPA_ADDRESSES). */
#define COVRETIN_ASKED_PROTOCOL_FEATURES \
    (COVRETIN_PROTOCOL_MQ | COVRETIN_PROTOCOL_LOG_SHMFD | COVRETIN_PROTOCOL_REPLY_ACK | COVRETIN_PROTOCOL_MTU | \
     COVRETIN_PROTOCOL_BACKEND_REQ | COVRETIN_PROTOCOL_PAGEFAULT | COVRETIN_PROTOCOL_CONFIG | \
     COVRETIN_PROTOCOL_INFLIGHT_SHMFD | COVRETIN_PROTOCOL_RESET_DEVICE | COVRETIN_PROTOCOL_CONFIGURE_MEM_SLOTS | \
     COVRETIN_PROTOCOL_SHARED_OBJECT | COVRETIN_PROTOCOL_DEVICE_STATE | COVRETIN_PROTOCOL_SHMEM)

enum covretin_error {
    COVRETIN_OK = 0,

    /* Of the protocol, in the names of the Rust crate vhost. A session returns no SOCKET_ERROR, SOCKET_CONNECT, DISCONNECTED,
     * INVALID_SOCKET_FD, NOT_UNIX_SOCKET or NOT_STREAM_SOCKET: these are covretin_socket.h's. No call returns those from
     * FEATURE_MISMATCH to MEMFD_SEAL_ERROR. */
    COVRETIN_INVALID_PARAM = 1,           /* an argument is not allowed; nothing was asked */
    COVRETIN_INVALID_OPERATION = 2,
    COVRETIN_INACTIVE_FEATURE = 3,        /* a virtio feature was not negotiated; nothing was asked */
    COVRETIN_INACTIVE_OPERATION = 4,      /* a protocol feature was not negotiated; nothing was asked */
    COVRETIN_INVALID_MESSAGE = 5,         /* the reply is malformed, or of another request: close the session */
    COVRETIN_INVALID_SOCKET_FD = 6,       /* the descriptor is no socket */
    COVRETIN_NOT_UNIX_SOCKET = 7,
    COVRETIN_NOT_STREAM_SOCKET = 8,
    COVRETIN_PARTIAL_MESSAGE = 9,         /* only of a request: the stream ended in its header */
    COVRETIN_DISCONNECTED = 10,           /* the backend closed the socket, or ended */
    COVRETIN_OVERSIZED_MSG = 11,
    COVRETIN_INCORRECT_FDS = 12,          /* the reply came with a wrong number of descriptors */
    COVRETIN_SOCKET_ERROR = 13,           /* a system call failed: errno says why */
    COVRETIN_SOCKET_CONNECT = 14,         /* nobody could be connected to: errno says why */
    COVRETIN_SOCKET_BROKEN = 15,          /* an allocation failed amid a request before: close the session */
    COVRETIN_SOCKET_RETRY = 16,           /* an allocation failed; ask again, and close the session if it is SOCKET_BROKEN then */
    COVRETIN_BACKEND_INTERNAL_ERROR = 17, /* the backend refused the request; the session goes on */
    COVRETIN_FRONTEND_INTERNAL_ERROR = 18,
    COVRETIN_FEATURE_MISMATCH = 19,
    COVRETIN_REQ_HANDLER_ERROR = 20,
    COVRETIN_MEMFD_CREATE_ERROR = 21,
    COVRETIN_FILE_TRUNCATE_ERROR = 22,
    COVRETIN_MEMFD_SEAL_ERROR = 23,
    COVRETIN_OUT_OF_MEMORY = 24,          /* an allocation failed, and nothing changed */

    /* Of the calls in this file. After each of them nothing changed. */
    COVRETIN_NO_SESSION = 101,     /* the session is not open */
    COVRETIN_SESSION_OPEN = 102,   /* the session is open already */
    COVRETIN_NOT_TAKEN = 103,      /* the reply of the call before is still to be taken */
    COVRETIN_NOTHING_ASKED = 104,  /* there is nothing to be taken */
    COVRETIN_NOT_YET = 105,        /* the reply has not come whole; covretin_missing says how many bytes to read */
    COVRETIN_TOO_MANY_BYTES = 106, /* more bytes than covretin_missing said */
    COVRETIN_NO_ROOM = 107,        /* an array of the caller is too small */
    COVRETIN_OTHER_ANSWER = 108,   /* the reply that was taken last has another form */
    COVRETIN_NOT_REPLIED = 109,    /* the call before is still to be replied to */
    COVRETIN_OTHER_CALL = 110,     /* no call is to be replied to, or it has another form */

    /* Of covretin_socket.h. */
    COVRETIN_TIMED_OUT = 201,    /* the limit of time passed */
    COVRETIN_FDS_LOST = 202,     /* descriptors were dropped: more came than a message has, or than the process may open */
    COVRETIN_INVALID_PATH = 203, /* a socket's path that is empty, or too long */

    /* Of covretin_device.h. */
    COVRETIN_MEMORY_LOST = 301, /* the frontend took memory away that was in use */
    COVRETIN_STOPPED = 302      /* covretin_device_stop */
};

/* What an error means, in a few words of English: a string that is never NULL, never freed and different for each of the
 * numbers above. Any other number has a string too. */
const char *covretin_error_text(enum covretin_error error);

/* The version of the library, as COVRETIN_VERSION. */
const char *covretin_version(void);

/* As whom a session behaves where the specification and the Rust crate vhost differ. */
enum covretin_profile {
    COVRETIN_PROFILE_STANDARD = 0, /* as the specification says, and QEMU, DPDK and other peers do; each session begins so */
    COVRETIN_PROFILE_VHOST = 1     /* as the Rust crate vhost does */
};

/* A session. {0} is not open. */
typedef struct covretin_session {
    void *opaque;
} covretin_session;

/* A region of guest memory, and the descriptor that maps it. */
typedef struct covretin_region {
    uint64_t guest_phys_addr;
    uint64_t memory_size;
    uint64_t user_addr;   /* where the caller has mapped it: the addresses of rings are within these */
    uint64_t mmap_offset; /* where it begins in what the descriptor maps */
    int32_t fd;           /* negative: none */
} covretin_region;

/* Where a ring lies. The three addresses of its parts are the caller's own (user_addr and on), log_addr is the guest's. */
typedef struct covretin_vring {
    uint16_t queue_max_size; /* not sent; covretin_ask_set_vring_num sends the size */
    uint16_t queue_size;     /* likewise */
    uint32_t flags;          /* bit 0: writes to the used ring are logged */
    uint64_t desc_table_addr;
    uint64_t used_ring_addr;
    uint64_t avail_ring_addr;
    uint64_t log_addr; /* where the used ring lies for the guest, to log writes to it */
    bool has_log_addr;
} covretin_vring;

/* The inflight region, where a backend notes the buffers that it has taken and not given back. */
typedef struct covretin_inflight {
    uint64_t mmap_size;
    uint64_t mmap_offset;
    uint16_t num_queues;
    uint16_t queue_size; /* in descriptors of a ring */
} covretin_inflight;

/* A part of the configuration space. */
typedef struct covretin_config {
    uint32_t offset;
    uint32_t size;
    uint32_t flags; /* bit 0: a change by the driver; bit 1: one by a live migration */
} covretin_config;

/* -- Sessions ------------------------------------------------------------------------------------------------------ */

/* Opens a session with a backend of at most so many rings. SESSION_OPEN; OUT_OF_MEMORY. After an error nothing changed. */
enum covretin_error covretin_open(covretin_session *session, uint64_t max_queue_num);

/* Frees what the session held; it is {0} again. Descriptors are not closed. A session that is not open stays so. */
void covretin_close(covretin_session *session);

/* -- Bytes out and in ---------------------------------------------------------------------------------------------- */

/* Hands out what is to be sent: *byte_count bytes, and *fd_count descriptors that are to go with the first of them (in one
 * sendmsg with SCM_RIGHTS). Call it until *byte_count is 0: then nothing is left. What it handed out is gone from the session,
 * so the caller sends all of it, in this order; where a sendmsg takes only a part, the rest follows without descriptors.
 * bytes_len is 1 at least, and COVRETIN_MAX_MESSAGE is enough for any request; fds_len is COVRETIN_MAX_FDS at least.
 * NO_SESSION, NO_ROOM: the counts were not written, and nothing is gone. */
enum covretin_error covretin_to_send(covretin_session *session, uint8_t *bytes, size_t bytes_len, int32_t *fds, size_t fds_len,
                         size_t *byte_count, size_t *fd_count);

/* How many bytes to read for the reply of the call that was asked, less what came; 0 where it may be taken. First the 12
 * bytes of its header, with the record behind it where every such reply has one; a peer that refuses the protocol may send
 * less, so take what comes. Once the header has come, what is missing of the body that it announces, if that is no longer than
 * a message may be. 0 also where nothing is asked or awaited. Read no more than this: the system does not say at which byte
 * descriptors came. */
size_t covretin_missing(covretin_session *session);

/* Takes in bytes of the reply: a part of those that are missing, or all, and the descriptors that came with the first of
 * them. NO_SESSION; TOO_MANY_BYTES; INVALID_PARAM: descriptors without a byte, more than COVRETIN_MAX_FDS, or a negative
 * one; OUT_OF_MEMORY. After an error nothing was taken in. Where the socket ends before nothing is missing, close the session. */
enum covretin_error covretin_receive(covretin_session *session, const uint8_t *bytes, size_t bytes_len, const int32_t *fds,
                         size_t fds_len);

/* Takes the reply of the call that was asked: whether it succeeded. NO_SESSION, NOTHING_ASKED, NOT_YET: nothing changed.
 * After all others nothing is asked any more, there is no reply to be read, and nothing of it is left in the session:
 * BACKEND_INTERNAL_ERROR: the backend refused, or has no such object, inflight region or userfaultfd, and the session goes on;
 * with COVRETIN_PROFILE_VHOST a reply that says the latter is INVALID_MESSAGE. INCORRECT_FDS: several descriptors came where
 * one is due. INVALID_MESSAGE: the reply is malformed or of another request, its header announces another size than such a
 * reply has, or it has descriptors where none may be. After this and the like close the session: a part of that reply may
 * still be in the socket. */
enum covretin_error covretin_take(covretin_session *session);

/* -- Descriptors that came -------------------------------------------------------------------------------------------
 * A session keeps the numbers of those that came, so that each is claimed once or handed out once, and none other is. It never touches
 * the descriptors themselves. */

/* Claims a descriptor of the reply that was taken last: it came with its first byte, as covretin_answer_fd names it, and is to be kept.
 * That can be done until the next call is asked. NO_SESSION; OTHER_ANSWER: a reply is still to be taken, or none of its descriptors has
 * this number that was not claimed. After an error nothing changed. */
enum covretin_error covretin_claim(covretin_session *session, int32_t fd);

/* Hands out descriptors that nobody will claim, to be closed: *count of them to the start of fds. They are those that came behind a
 * reply's first byte, those of a reply that was refused, and, once the next call is asked, those that were not claimed. Call it then,
 * until *count is 0; len is 1 at least. NO_SESSION: *count was not written. */
enum covretin_error covretin_unclaimed(covretin_session *session, int32_t *fds, size_t len, size_t *count);

/* Nobody will claim what came: the socket ended amid a reply, or the last one is done with. NO_SESSION. */
enum covretin_error covretin_abandon(covretin_session *session);

/* -- The reply that was taken last ----------------------------------------------------------------------------------
 * It can be read until the next covretin_take. NO_SESSION; OTHER_ANSWER; NO_ROOM. After an error nothing was written. */

/* Of get_features, get_protocol_features, get_queue_num, get_vring_base, get_max_mem_slots. */
enum covretin_error covretin_answer_number(covretin_session *session, uint64_t *number);

/* Of set_mem_table and add_mem_region: where the backend mapped the regions, in the order of the request, if it listens for
 * page faults; else *count is 0. bases_len is the number of regions at least. */
enum covretin_error covretin_answer_bases(covretin_session *session, uint64_t *bases, size_t bases_len, size_t *count);

/* Of get_config: *count bytes. bytes_len is the size that was asked for at least. */
enum covretin_error covretin_answer_config(covretin_session *session, covretin_config *config, uint8_t *bytes, size_t bytes_len,
                               size_t *count);

/* Of get_shared_object, postcopy_advise and set_device_state_fd: a descriptor that was handed in with the reply. -1 after
 * set_device_state_fd: the backend uses the one that it was given. */
enum covretin_error covretin_answer_fd(covretin_session *session, int32_t *fd);

/* Of get_inflight_fd. */
enum covretin_error covretin_answer_inflight(covretin_session *session, covretin_inflight *inflight, int32_t *fd);

/* Of get_shmem_config: 256 sizes, 0 where there is no region. *count is how many regions the backend says that it has: any
 * number of 32 bits, which is not how many of the sizes count. sizes_len is 256 at least. */
enum covretin_error covretin_answer_shmem(covretin_session *session, uint64_t *sizes, size_t sizes_len, size_t *count);

/* -- Asks -----------------------------------------------------------------------------------------------------------
 * Each makes its request, which covretin_to_send then hands out. After an error nothing more is to be sent than before.
 * All may return NO_SESSION, NOT_TAKEN, OUT_OF_MEMORY, SOCKET_RETRY, SOCKET_BROKEN, and INVALID_PARAM for an argument. A
 * request with no reply of its own is acknowledged where REPLY_ACK was accepted and COVRETIN_NEED_REPLY is set (postcopy_listen
 * also without that flag); else nothing is awaited, and a refusal by the backend is not seen.
 *
 * INACTIVE_FEATURE, PROTOCOL_FEATURES was not offered by the backend (it need not be accepted): get_protocol_features,
 *   set_protocol_features.
 * INACTIVE_FEATURE, PROTOCOL_FEATURES was not accepted; then a ring is enabled from its start: set_vring_enable.
 * INACTIVE_OPERATION, this protocol feature was not accepted:
 *   MQ: get_queue_num.
 *   MTU: set_mtu.
 *   BACKEND_REQ: set_backend_request_fd.
 *   PAGEFAULT: postcopy_advise, postcopy_listen, postcopy_end.
 *   CONFIG: get_config, get_config_bytes, set_config.
 *   INFLIGHT_SHMFD: get_inflight_fd, set_inflight_fd.
 *   RESET_DEVICE: reset_device.
 *   CONFIGURE_MEM_SLOTS: get_max_mem_slots, add_mem_region, remove_mem_region.
 *   SHARED_OBJECT: get_shared_object.
 *   DEVICE_STATE: set_device_state_fd, check_device_state.
 *   SHMEM: get_shmem_config.
 */

/* Sets how the session behaves from now on, also for the answer that is awaited: by COVRETIN_PROFILE_STANDARD, with which it begins, or
 * by COVRETIN_PROFILE_VHOST. Nothing is sent for it, and nothing is to be taken. INVALID_PARAM: any other value; the profile stays as
 * it was. It does not return NOT_TAKEN. */
enum covretin_error covretin_set_profile(covretin_session *session, enum covretin_profile profile);

/* The flags of each request from now on: COVRETIN_NEED_REPLY, or 0. Nothing is sent for it, and nothing is to be taken.
 * INVALID_PARAM: any other value; the flags stay as they were. COVRETIN_NEED_REPLY goes out only once REPLY_ACK was accepted, so
 * it may be set before; with COVRETIN_PROFILE_VHOST set it only then, since real backends acknowledge each request that has it,
 * and without REPLY_ACK nobody here awaits that. */
enum covretin_error covretin_set_hdr_flags(covretin_session *session, uint32_t flags);

/* Which feature the last ask lacked: after INACTIVE_FEATURE one bit of COVRETIN_FEATURE_.., after INACTIVE_OPERATION one of
 * COVRETIN_PROTOCOL_... 0 after any other, and without a session. covretin_set_hdr_flags is an ask here, covretin_set_profile is
 * none. */
uint64_t covretin_inactive(covretin_session *session);

enum covretin_error covretin_ask_get_features(covretin_session *session);
/* Sends all of these bits. The session remembers as accepted those of them that the backend offered last. */
enum covretin_error covretin_ask_set_features(covretin_session *session, uint64_t features);
enum covretin_error covretin_ask_set_owner(covretin_session *session);
enum covretin_error covretin_ask_reset_owner(covretin_session *session);
enum covretin_error covretin_ask_get_protocol_features(covretin_session *session);
/* Sends all of these bits, and remembers them as accepted: leave out what the backend did not offer, and what is not in
 * COVRETIN_ASKED_PROTOCOL_FEATURES. */
enum covretin_error covretin_ask_set_protocol_features(covretin_session *session, uint64_t features);
/* From then on a ring's index is below this number. Some virtual switches count pairs of rings here: do not ask those. */
enum covretin_error covretin_ask_get_queue_num(covretin_session *session);
enum covretin_error covretin_ask_reset_device(covretin_session *session);

/* 1 to 32 regions, each with a size and a descriptor. Some backends take only 8 regions (libvhost-user, as in
 * qemu-storage-daemon), and more by add_mem_region. */
enum covretin_error covretin_ask_set_mem_table(covretin_session *session, const covretin_region *regions, size_t count);
enum covretin_error covretin_ask_get_max_mem_slots(covretin_session *session);
/* A region with a size and a descriptor. */
enum covretin_error covretin_ask_add_mem_region(covretin_session *session, const covretin_region *region);
/* A region with a size; its descriptor is not sent. */
enum covretin_error covretin_ask_remove_mem_region(covretin_session *session, const covretin_region *region);

/* Where the dirty log is kept: the memory_size, mmap_offset and fd of a region. Without LOG_SHMFD the base alone is sent, and it
 * is acknowledged as above. With it a reply is awaited, of whatever size; some backends send none, which a limit of time shows.
 * With COVRETIN_PROFILE_VHOST the base alone is never awaited, and the reply has 16 bytes: one of another size is refused. */
enum covretin_error covretin_ask_set_log_base(covretin_session *session, uint64_t base, const covretin_region *region);
enum covretin_error covretin_ask_set_log_base_alone(covretin_session *session, uint64_t base);
/* The eventfd by which the backend signals that it logged. */
enum covretin_error covretin_ask_set_log_fd(covretin_session *session, int32_t fd);

/* A ring's index is below max_queue_num of covretin_open, or what get_queue_num replied since. num and base are in
 * descriptors of the ring; of a packed ring base has both its indices with their wrap counters, in 32 bits. */
enum covretin_error covretin_ask_set_vring_num(covretin_session *session, size_t index, uint16_t num);
enum covretin_error covretin_ask_set_vring_addr(covretin_session *session, size_t index, const covretin_vring *ring);
enum covretin_error covretin_ask_set_vring_base(covretin_session *session, size_t index, uint32_t base);
/* Stops the ring, and asks at which descriptor it goes on. It starts again by set_vring_kick and a kick. */
enum covretin_error covretin_ask_get_vring_base(covretin_session *session, size_t index);
/* The eventfd by which the backend signals used buffers, that by which the guest's driver signals available ones, and that
 * by which the backend signals an error. index is 255 at most. fd negative: the ring has none, and who would wait for it polls
 * the ring. No real frontend was seen to send that. */
enum covretin_error covretin_ask_set_vring_call(covretin_session *session, size_t index, int32_t fd);
enum covretin_error covretin_ask_set_vring_kick(covretin_session *session, size_t index, int32_t fd);
enum covretin_error covretin_ask_set_vring_err(covretin_session *session, size_t index, int32_t fd);
enum covretin_error covretin_ask_set_vring_enable(covretin_session *session, size_t index, bool enable);

/* size is 1 to COVRETIN_MAX_CONFIG, and offset and size together are 4096 at most; flags are those of covretin_config. The
 * request brings size bytes along: zeros. BACKEND_INTERNAL_ERROR at take: there are no such bytes. With COVRETIN_PROFILE_VHOST
 * a reply without a body, by which some backends say so, is INVALID_MESSAGE. */
enum covretin_error covretin_ask_get_config(covretin_session *session, uint32_t offset, uint32_t size, uint32_t flags);
/* The same, with the caller's bytes in the request in place of zeros; bytes_len is the size. */
enum covretin_error covretin_ask_get_config_bytes(covretin_session *session, uint32_t offset, uint32_t flags,
                                      const uint8_t *bytes, size_t bytes_len);
/* bytes_len as size above. */
enum covretin_error covretin_ask_set_config(covretin_session *session, uint32_t offset, uint32_t flags, const uint8_t *bytes,
                                size_t bytes_len);

/* The socket on which the backend makes requests of its own, which the caller serves. */
enum covretin_error covretin_ask_set_backend_request_fd(covretin_session *session, int32_t fd);
/* name is a UUID: name_len is 16. */
enum covretin_error covretin_ask_get_shared_object(covretin_session *session, const uint8_t *name, size_t name_len);
/* For so many queues of this size. INVALID_PARAM: one of both is 0; with COVRETIN_PROFILE_VHOST that is sent. */
enum covretin_error covretin_ask_get_inflight_fd(covretin_session *session, const covretin_inflight *inflight);
/* Gives the region to a backend that takes the place of one that ended. */
enum covretin_error covretin_ask_set_inflight_fd(covretin_session *session, const covretin_inflight *inflight, int32_t fd);
enum covretin_error covretin_ask_get_shmem_config(covretin_session *session);

/* direction 0 from the backend (save), 1 to it (load); phase 0, stopped. */
enum covretin_error covretin_ask_set_device_state_fd(covretin_session *session, uint32_t direction, uint32_t phase, int32_t fd);
enum covretin_error covretin_ask_check_device_state(covretin_session *session);

enum covretin_error covretin_ask_postcopy_advise(covretin_session *session);
enum covretin_error covretin_ask_postcopy_listen(covretin_session *session);
/* Its reply is awaited whatever the flags. BACKEND_INTERNAL_ERROR at take: the backend refused, and postcopy has ended all the
 * same. With COVRETIN_PROFILE_VHOST it is acknowledged as other requests are, and a reply without COVRETIN_NEED_REPLY, as a
 * storage daemon and a packet switch send it, is taken for the next call's. */
enum covretin_error covretin_ask_postcopy_end(covretin_session *session);
/* The request that brought the regions: 5, SET_MEM_TABLE, or 37, ADD_MEM_REG. */
enum covretin_error covretin_ask_postcopy_ack_mem_regions(covretin_session *session, uint32_t request);

/* The greatest size of what a frame carries. */
enum covretin_error covretin_ask_set_mtu(covretin_session *session, uint16_t mtu);

/* STACK, in bytes at most, with what the proved code calls but memory and copies. Written by scripts/check.py --write headers:
 *   20,480: take
 *   12,288: ask_add_mem_region, ask_check_device_state, ask_get_config, ask_get_config_bytes, ask_get_features,
 *        ask_get_inflight_fd, ask_get_max_mem_slots, ask_get_protocol_features, ask_get_queue_num, ask_get_shared_object,
 *        ask_get_shmem_config, ask_get_vring_base, ask_postcopy_ack_mem_regions, ask_postcopy_advise, ask_postcopy_end,
 *        ask_postcopy_listen, ask_remove_mem_region, ask_reset_device, ask_reset_owner, ask_set_backend_request_fd, ask_set_config,
 *        ask_set_device_state_fd, ask_set_features, ask_set_inflight_fd, ask_set_log_base, ask_set_log_base_alone, ask_set_log_fd,
 *        ask_set_mem_table, ask_set_mtu, ask_set_owner, ask_set_protocol_features, ask_set_vring_addr, ask_set_vring_base,
 *        ask_set_vring_call, ask_set_vring_enable, ask_set_vring_err, ask_set_vring_kick, ask_set_vring_num, set_hdr_flags
 *   8,192: receive
 *   1,024: close, open
 *   512: all others */

#ifdef __cplusplus
}
#endif

#endif
