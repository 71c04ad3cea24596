/* SPDX-License-Identifier: Apache-2.0 */
/* Covretin: the device kit. You write what a request of the guest means; the library does everything else.
 *
 * Beneath it are a session over a Unix socket (covretin_backend_socket.h) and virtqueues, split or packed (covretin_queue.h). The kit maps
 * the memory that the frontend gives, and does what these two say. A device is a table of callbacks:
 *
 *     static void answer(void *own, covretin_request *request)
 *     {
 *         ..                                         read segments[0 .. readable), write the segments behind them
 *         covretin_request_done(request, written);   now or later, from any thread
 *     }
 *     static const covretin_device_calls calls = {.queues = 1, .request = answer};
 *     error = covretin_device_run(&calls, own, "/run/device.sock");
 *
 * In an event loop of your own, which may serve many devices, you write instead of the last line:
 *
 *     error = covretin_device_open(&device, &calls, own, &listener);
 *     ..                                             whenever covretin_device_fd(&device) is readable:
 *     error = covretin_device_serve(&device);        NOT_YET: the session goes on; any other error: it has ended
 *     covretin_device_close(&device);
 *
 * WHAT THE KIT DOES BY ITSELF: it serves memory regions and their hot plug, rings, kicks and calls, EVENT_IDX and INDIRECT_DESC, the dirty
 * log, the inflight region, postcopy and reset, and it tells the frontend when the configuration changed. If a device before this one left
 * requests unfinished in its rings, the kit hands these out again, with `again` set.
 *
 * THE FRONTEND IS NOT TRUSTED.
 * Memory: the kit maps memory files only (memfd, tmpfs, hugetlbfs), because whoever serves another file system can keep back the pages of
 *   its files.
 * Rings: the descriptors that signal a ring have to be eventfds, unless `calls_by_pipe` is set. The kit waits for none of them, whatever
 *   their flags are.
 * Backend channel: the kit reads nothing from it, because a peer that also holds the socket can make whoever reads from it wait
 *   (covretin_channel_socket.h).
 * Floods: a frontend that sends without end is served in turns with its rings and with other devices.
 * Postcopy: once a frontend has begun it, a thread that touches a page which has not arrived waits for that page, until the frontend hangs
 *   up or somebody calls covretin_device_stop.
 *
 * MEMORY THAT IS TAKEN AWAY. A frontend can truncate a file whose memory is in use. A page that is gone becomes zeros when it is touched,
 * and the session ends with MEMORY_LOST. If a system call such as pread touches it, that call fails with EFAULT, and nothing is lost. All
 * this costs nothing until it happens, but it needs a handler of SIGBUS. The kit installs one when its first session begins, and passes all
 * other faults on to the handler that it found there: so install one of your own before that.
 *   If a thread blocks SIGBUS and touches such a page, the system ends the process. A thread that calls the kit with a request, or calls
 * covretin_device_serve, no longer blocks SIGBUS from then on. If you start a thread with all signals blocked, and it touches segments
 * before that, it has to say:
 *     sigset_t bus; sigemptyset(&bus); sigaddset(&bus, SIGBUS); pthread_sigmask(SIG_UNBLOCK, &bus, NULL);
 *   To find such mistakes, compile the kit with COVRETIN_DEBUG. Then covretin_device_open returns INVALID_PARAM if the calling thread blocks
 * SIGBUS, since its threads would inherit that, or if another handler has replaced that of the kit.
 *
 * WHO OWNS WHAT
 * Devices: a variable of type covretin_device, {0} at first, belongs to you. You do not copy it or write to it. The table of callbacks and
 *   `own` have to stay valid until the device is closed and each of its requests is done.
 * Requests: a request is yours from the callback until you call covretin_request_done, once. You may change its segments. They point into
 *   the guest's memory, which stays mapped until then, even if the session has ended or the device was closed. The guest can change that
 *   memory at any time, so copy what you want to check, and check the copy.
 * Descriptors: all belong to the kit, except the one that `channel` takes.
 *
 * THREADS: The kit has a thread that unmaps memory where that takes long, and ends afterwards, and another that watches a postcopy. Both
 * block all signals. So the memory of a frontend that has gone may stay mapped a little longer than its session.
 *   Only covretin_device_serve calls back, one callback at a time. A callback may call covretin_request_done, covretin_requests_done,
 * covretin_request_take, covretin_requests_take and covretin_device_stop. Calls with one device must not overlap in time, with these
 * exceptions: any thread may call the first four at any time, and covretin_device_stop until covretin_device_close begins, also in a signal
 * handler. Nothing is called back after covretin_device_serve has reported the end of the session, or after covretin_device_close began.
 *
 * A CALLBACK MAY THROW an exception of C++, or longjmp, out of covretin_device_serve, because the kit holds no lock while it calls back. The
 * session is then good for nothing but covretin_device_close, and the request that the callback was given still has to be done. A callback
 * must not do so out of covretin_device_run, since nobody would give back its socket and its signals.
 *
 * ERRORS are those of covretin.h, and for a queue those of covretin_queue.h. After SOCKET_ERROR errno says more.
 */
#ifndef COVRETIN_DEVICE_H
#define COVRETIN_DEVICE_H

#include "covretin_backend_socket.h"
#include "covretin_queue.h"

#include <sys/uio.h>

#ifdef __cplusplus
extern "C" {
#endif

/* Virtio features that the kit itself serves. It always offers the first three, and the last one if your device offers it. */
#define COVRETIN_DEVICE_INDIRECT_DESC ((uint64_t)1 << 28)
#define COVRETIN_DEVICE_EVENT_IDX ((uint64_t)1 << 29)
#define COVRETIN_DEVICE_VERSION_1 ((uint64_t)1 << 32)
#define COVRETIN_DEVICE_RING_PACKED ((uint64_t)1 << 34)

#define COVRETIN_DEVICE_MAX_QUEUES 64       /* queues of a device */
#define COVRETIN_DEVICE_MAX_QUEUE_SIZE 1024 /* descriptors of a queue; a request has at most as many segments */
#define COVRETIN_DEVICE_MAX_REGIONS 509     /* memory regions of a session; 1,024 with removed ones that requests under way still use */
#define COVRETIN_DEVICE_BURST 32            /* requests that `requests` gets at once, at most */

/* A device that serves a frontend. {0} serves none. */
typedef struct covretin_device {
    void *opaque;
} covretin_device;

/* A request of the guest. */
typedef struct covretin_request {
    struct iovec *segments; /* first those that you read, then those that you write; none is empty */
    size_t readable;        /* how many segments you read */
    size_t writable;        /* how many segments you write */
    uint32_t queue;         /* the number of its queue, from 0 on */
    bool again;             /* a device before this one took it and did not complete it: all of it may have been done, or a part */
    void *own;              /* for you to use; NULL at first */
} covretin_request;

/* What a device has done in all of its sessions. Another thread may read these counts at any time; together they are of no single moment.
 * Whatever a frontend or a guest already knows of, by an acknowledgement or by a request that came back, is counted. The longest turn is
 * known once that turn is over. */
typedef struct covretin_device_stats {
    uint64_t sessions;        /* sessions that began */
    uint64_t requests, bytes; /* requests of the guest that the device got, and the bytes in them to be read or written */
    uint64_t kicks, calls;    /* how often the guest announced requests, and how often it was told that some are done */
    uint64_t refusals;        /* requests of the frontend that were refused, or ended a session */
    uint64_t longest_turn;    /* the longest call of covretin_device_serve, in nanoseconds */
} covretin_device_stats;

/* The table of a device. Each callback gets the `own` that was given to covretin_device_open. All of them may be
 * NULL, except that there has to be `request` or `requests`. */
typedef struct covretin_device_calls {
    /* The virtio features of your device. The kit always offers VERSION_1, EVENT_IDX, INDIRECT_DESC, LOG_ALL and PROTOCOL_FEATURES too. */
    uint64_t features;

    /* The protocol features of your device: those that `channel` needs, such as BACKEND_SEND_FD, and those that `other` serves, such as RARP.
     * The kit always offers MQ, LOG_SHMFD, REPLY_ACK, PAGEFAULT, INFLIGHT_SHMFD, RESET_DEVICE, CONFIGURE_MEM_SLOTS and BACKEND_REQ too, and
     * CONFIG if there is a `read_config`. */
    uint64_t protocol_features;

    uint32_t queues; /* 1 to COVRETIN_DEVICE_MAX_QUEUES */

    /* A bit for each queue, the lowest for queue 0. The kit does not hand out the requests of a queue whose bit is set. You take one when you
     * have something for it, as a network card does when it has a frame. Until then you hold none, so whoever stops the queue does not have
     * to wait. Its driver is asked to kick only once you found fewer requests than you wanted. */
    uint64_t taken_queues;

    /* For how many microseconds the kit looks at an empty queue before it waits for the next kick; with 0 it does not look. A driver that makes
     * one request after another is served sooner by this, but the processor is kept busy, and the frontend's calls wait meanwhile. The kit
     * only looks if the last request came within that time. If the thread that opens the session may use a single processor, the kit does not
     * look while you hold a request of the queue, because whoever serves that request needs the processor; it looks once you gave it back. */
    uint32_t busy_poll_us;

    /* Whether rings may also be signalled by pipes and stream sockets, as User Mode Linux needs it. Otherwise only eventfds are accepted. Set it
     * only for a frontend that you trust with the time of everything that this process serves. A peer that reads from such a pipe into memory
     * that does not come, as that of a file system that it serves, makes this process wait when it signals. Neither covretin_device_stop nor
     * a signal ends that wait; it ends when that reader does. */
    bool calls_by_pipe;

    /* Here is a request of the guest. It is yours until you call covretin_request_done. */
    void (*request)(void *own, covretin_request *request);

    /* The driver has accepted these virtio features. These protocol features were accepted so far. */
    void (*accepted)(void *own, uint64_t features, uint64_t protocol_features);

    /* These read and write a part of the configuration space. Return false if there is no such part, or if it cannot be written; then the
     * frontend's request is refused. */
    bool (*read_config)(void *own, uint32_t offset, uint8_t *bytes, uint32_t size);
    bool (*write_config)(void *own, uint32_t offset, const uint8_t *bytes, uint32_t size);

    /* Return true if the configuration space has changed since this was last asked, or since it was last read. The kit then tells the frontend,
     * over the backend channel, to read it again. It asks five times a second while there is a backend channel, and keeps that channel for
     * itself. */
    bool (*config_changed)(void *own);

    /* The frontend resets the device (RESET_DEVICE, RESET_OWNER): make it as it was at first. You hold no request when this is called. */
    void (*reset)(void *own);

    /* Here is the socket of the backend channel (covretin_channel_socket.h), with the accepted protocol features. Return true to take the
     * socket, which you then have to close. The kit does not call this if there is a `config_changed`. */
    bool (*channel)(void *own, int fd, uint64_t protocol_features);

    /* The request of the frontend that has this number was refused, or ended the session. */
    void (*refused)(void *own, uint32_t request, enum covretin_error error);

    /* The driver broke a rule of this queue. The kit takes nothing more from the queue until the device is reset. */
    void (*broken)(void *own, uint32_t queue, enum covretin_queue_error error);

    /* `input` is a descriptor of your own, such as that of a tap or a terminal. covretin_device_run, and the two calls like it, call
     * `input_ready` when it is readable and a frontend is there. The callback takes requests by covretin_device_take. Return true if it did
     * what there was to do. Return false if the guest offers no request for what waits to be read, or was read; you are then called again
     * only after the device had something to do, such as a kick. */
    int input;
    bool (*input_ready)(void *own, covretin_device *device);

    /* covretin_device_run or covretin_device_run_listener hung up on another frontend, which came while one is served. */
    void (*turned_away)(void *own);

    /* The session has ended for this reason, and none of its requests is left. This is its last callback. */
    void (*ended)(void *own, enum covretin_error error);

    /* Where the kit counts what it does. It has to stay valid as long as the table. NULL: the kit does not count. */
    covretin_device_stats *stats;

    /* Here is a request of the frontend that has no call of its own, such as SEND_RARP: its number, its body and its descriptors, which are
     * lent to you for this call. Return true if you serve it; it is then acknowledged if it asks for that. If you return false, or if this is
     * NULL, such a request is refused. */
    bool (*other)(void *own, uint32_t request, const uint8_t *bytes, size_t len, const int32_t *fds, size_t count);

    /* Here are requests of one queue, in the order of their driver: 1 to COVRETIN_DEVICE_BURST of those that are there already, since the kit waits
     * for none. They are yours, as with `request`, in whose place this is called. A device that has little to do for each of them, such as a
     * network card, takes and completes many by covretin_requests_take and covretin_requests_done: the kit then takes its lock once for all of
     * them, and notifies the driver once. */
    void (*requests)(void *own, covretin_request *const *requests, size_t count);

    /* The largest queue that the device takes, in descriptors. SET_VRING_NUM of a larger one is refused. No request tells a frontend of this, so
     * whoever starts both has to give them the same size. 0 means COVRETIN_DEVICE_MAX_QUEUE_SIZE, and a table that has more is INVALID_PARAM. */
    uint32_t max_queue_size;

    /* Room for what later versions add. Leave it 0. A table that has more than this version of the library knows is INVALID_PARAM. */
    uint64_t later[13];
} covretin_device_calls;

/* -- A session -------------------------------------------------------------------------------------------------------- */

/* Begins to serve the next frontend that waits at a listener. The call itself does not wait. Errors:
 *   NO_SESSION: there is no listener.
 *   SESSION_OPEN: the device serves a frontend already.
 *   INVALID_PARAM: the table has no `request`, no queues or too many, too large ones, or something that this version does not know.
 *   TIMED_OUT: no frontend is waiting.
 *   SOCKET_ERROR: the system failed. OUT_OF_MEMORY.
 * After an error nothing has changed, except that a frontend may have been hung up on. */
enum covretin_error covretin_device_open(covretin_device *device, const covretin_device_calls *calls, void *own,
                                         covretin_listener *listener);

/* The same, over a socket that is connected already. The socket belongs to the device from then on; after an error it is still yours.
 * INVALID_SOCKET_FD, NOT_UNIX_SOCKET, NOT_STREAM_SOCKET: the descriptor is no socket, or a socket of another kind. Everything else is as above. */
enum covretin_error covretin_device_open_fd(covretin_device *device, const covretin_device_calls *calls, void *own, int fd);

/* The descriptor to wait for: it is readable when covretin_device_serve has something to do. It stays the device's. -1: there is no session. */
int covretin_device_fd(const covretin_device *device);

/* Does what there is to do, and waits for nothing. If you have many devices in one loop, call it for each in turn: whatever a frontend or a
 * guest sends, it returns after 0.8 milliseconds and the call or request that is under way then. The time of your callbacks comes on top of
 * that. What is left is done by the next call.
 *   NOT_YET: the session goes on. Call it again once the descriptor is readable.
 * All else ends the session, and each further call returns the same:
 *   DISCONNECTED, PARTIAL_MESSAGE, INVALID_MESSAGE: the frontend went between two requests, in a header, or in a body; INVALID_MESSAGE also
 *     if it sent what is no message.
 *   MEMORY_LOST: the frontend took memory away that was in use, or went while somebody waited for a page.
 *   STOPPED: somebody called covretin_device_stop.
 *   OUT_OF_MEMORY, SOCKET_ERROR, FDS_LOST: as of covretin_next_call; SOCKET_ERROR also if the system refused to signal a driver's eventfd.
 *   NO_SESSION: there is no session.
 *   Any other: a request was refused for this reason, which `refused` was told, and no reply can say so. For example, GET_VRING_BASE of a
 *     ring that the device does not have is BACKEND_INTERNAL_ERROR.
 * The frontend is hung up on at once. If you still hold requests, the end is reported once these are done, so that the next frontend finds
 * nothing under way. */
enum covretin_error covretin_device_serve(covretin_device *device);

/* Ends the session, which covretin_device_serve then reports. Any thread may call it, and a signal handler, too. */
void covretin_device_stop(covretin_device *device);

/* Ends the session if it has not ended yet, without a callback. The device is {0} again. Requests that you still hold stay yours until they
 * are done. For a device that serves nobody the call does nothing. */
void covretin_device_close(covretin_device *device);

/* -- Requests --------------------------------------------------------------------------------------------------------- */

/* Says that a request is done, and how many bytes you wrote, counted from the first writable byte on. The driver is notified, unless the
 * session has ended meanwhile. Any thread may call it. Do not use the request afterwards.
 *   While the frontend logs dirty pages, the kit logs these bytes. A device may also have written behind them without saying so, as a disk
 * writes a status into the last byte. Therefore the kit also logs the first mebibyte and the last mebibyte of what lies behind. If you write
 * between these two, say so by `written`, or the bytes may be lost when the guest migrates. */
void covretin_request_done(covretin_request *request, uint32_t written);

/* Takes a request of a queue that stands in `taken_queues`. It is then like one that was handed out. The first call may be made by any thread,
 * and takes it of the device that has this other request; the second may be made by whoever may call covretin_device_serve. NULL: the guest
 * offers none. */
covretin_request *covretin_request_take(const covretin_request *request, uint32_t queue);
covretin_request *covretin_device_take(covretin_device *device, uint32_t queue);

/* The same for many requests of one device. The first takes at most so many requests of a queue, and returns how many there were. The second
 * completes so many requests, each once and of any queues of the device: requests of one queue that stand side by side in the list are given back
 * together, by one notification of the driver. Any thread may call both at any time. */
size_t covretin_requests_take(const covretin_request *request, uint32_t queue, covretin_request **requests, size_t most);
void covretin_requests_done(covretin_request *const *requests, const uint32_t *written, size_t count);

/* Whether the frontend took memory of the session away: then what you read may be zeros that nobody wrote. */
bool covretin_request_is_lost(const covretin_request *request);

/* The first copies bytes from the beginning of the readable part, the second to the beginning of the writable part. Both take what they copied
 * off the segments, so that some may be empty afterwards. If `bytes` is NULL, the bytes are skipped and not copied. They return how many bytes
 * that were: fewer than `len` if the part has no more. */
size_t covretin_request_read(covretin_request *request, void *bytes, size_t len);
size_t covretin_request_write(covretin_request *request, const void *bytes, size_t len);

/* -- Saying why ------------------------------------------------------------------------------------------------------- */

enum covretin_level { COVRETIN_LEVEL_ERROR, COVRETIN_LEVEL_WARNING, COVRETIN_LEVEL_INFO };

/* Has each device of the process say in a line why it refused a request, who ended a session, and which rule of a queue a driver broke. For
 * example: "SET_MEM_TABLE refused: region 0 is 65536 bytes at 0 of its file, which has 4096". With NULL, as at first, nobody listens, and no text
 * is made. The text is lent to `log` for the call. It has no end of line, and names no path and nothing of guest memory. At most 20 lines come in
 * a second; a later line says how many were left out. Any thread that serves a device may call `log`, one call at a time. It must not call this
 * library. */
void covretin_set_log(void (*log)(void *own, enum covretin_level level, const char *text), void *own);

/* -- All of it -------------------------------------------------------------------------------------------------------- */

/* Listens at a path, and serves one frontend after another until SIGTERM or SIGINT comes. The calling thread blocks these two signals
 * meanwhile; threads that you began before have to block them, too. A second frontend at the same time is hung up on. It returns 0 when a
 * signal came, and INVALID_PARAM if the table is none; then nothing was made at the path. Otherwise it could not listen, for a reason that
 * covretin_listen names, or it could not go on: SOCKET_ERROR, OUT_OF_MEMORY. */
enum covretin_error covretin_device_run(const covretin_device_calls *calls, void *own, const char *path);

/* The same with a listener that you have already, such as that of a service manager's socket. It stays yours. NO_SESSION: there is none. */
enum covretin_error covretin_device_run_listener(const covretin_device_calls *calls, void *own, covretin_listener *listener);

/* Serves the one frontend of a socket that is connected already, until that frontend goes, or SIGTERM or SIGINT comes, as above. It returns 0
 * when a signal came. Otherwise it returns why the session ended, as covretin_device_serve does, or why it could not begin, as
 * covretin_device_open_fd does; in that case the socket is still yours. */
enum covretin_error covretin_device_run_fd(const covretin_device_calls *calls, void *own, int fd);

#ifdef __cplusplus
}
#endif

#endif
