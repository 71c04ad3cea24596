/* SPDX-License-Identifier: Apache-2.0 */
/* Covretin: a frontend over a Unix socket. This part of the library makes system calls. A connection is a session of covretin.h, its
 * socket, and whatever is under way between the two:
 *
 *     covretin_connection device = {0};
 *     error = covretin_connect(&device, "/run/disk.sock", 1, 5000);
 *     error = covretin_ask_get_features(&device.session);
 *     if (error == 0)
 *         error = covretin_exchange(&device, 5000);
 *     if (error == 0)
 *         error = covretin_answer_number(&device.session, &features);
 *     covretin_disconnect(&device);
 *
 * No call raises SIGPIPE, and no signal interrupts one. No descriptor passes to a program that is executed. A call reads nothing beyond
 * the message that it awaits, with two exceptions: the record of a reply whose header is refused, and bytes behind a reply that is
 * shorter than its request. Such bytes end the connection.
 *
 * WHO OWNS WHAT
 * The connection: a variable of type covretin_connection, {0} at first, belongs to you. You do not copy it or write to it. Calls with the
 *   same one, or with its session, must not overlap in time, and none may be made from a signal handler.
 * Its session: it is opened and closed with the connection. Pass &connection.session to covretin_ask_.., covretin_answer_..,
 *   covretin_set_hdr_flags, covretin_set_profile and covretin_inactive, and to nothing else.
 * Its socket: it belongs to the connection from covretin_connect or covretin_connect_fd on. covretin_disconnect closes it.
 * Descriptors that you give to an ask: they stay yours. They have to stay open until the exchange is over, that is until the call that is
 *   under way returns anything but NOT_YET, TIMED_OUT and OUT_OF_MEMORY.
 * Descriptors that the backend sends: they belong to the connection. It closes at once each one that is not the reply's, and all of a reply
 *   that is refused. It keeps the reply's own until the next reply is taken, or until you disconnect. The number that covretin_answer_fd or
 *   covretin_answer_inflight gives is only lent to you. covretin_claim_fd hands the descriptor over, and then you close it.
 *
 * CLOSING what a peer sent does not wait for the peer. The library first ends the linger time (SO_LINGER) of a socket, also for whoever else
 *   has it open, and that of sockets which wait unread in the connection's socket. In three cases the system may wait all the same: to close
 *   a file whose file system is held up, such as one that the peer serves (FUSE); to drop a descriptor when the process may open no more; and
 *   for what waits unread in a socket that the peer sent. If you cannot accept that, serve each peer from a process of its own. You close what
 *   you claimed, so end its linger time likewise.
 *
 * ERRORS are those of covretin.h. errno says more after SOCKET_ERROR, SOCKET_CONNECT and the INVALID_PARAM of an exchange, and after no other
 *   error.
 */
#ifndef COVRETIN_SOCKET_H
#define COVRETIN_SOCKET_H

#include "covretin.h"

#ifdef __cplusplus
extern "C" {
#endif

/* A connection. {0} is not connected. */
typedef struct covretin_connection {
    covretin_session session;
    void *opaque;
} covretin_connection;

/* Connects to the Unix socket at a path, and opens a session with a backend that has at most so many rings. `milliseconds` limits the time; a
 * negative number sets no limit. Errors:
 *   SESSION_OPEN: this variable is connected already.
 *   INVALID_PATH: the path is empty or too long.
 *   SOCKET_CONNECT: nobody listens there, or connect failed in another way.
 *   TIMED_OUT: the backend accepts nobody.
 *   SOCKET_ERROR: no socket can be made. OUT_OF_MEMORY.
 * After an error nothing has changed, and no descriptor is left open. */
enum covretin_error covretin_connect(covretin_connection *connection, const char *path, uint64_t max_queue_num,
                                     int milliseconds);

/* The same, over a socket that is connected already. The socket belongs to the connection from then on; after an error it is still yours.
 * Whether the socket blocks does not matter, and is not changed. Errors: SESSION_OPEN; INVALID_SOCKET_FD, NOT_UNIX_SOCKET and
 * NOT_STREAM_SOCKET, if the descriptor is no socket or one of another kind; OUT_OF_MEMORY. After an error nothing has changed. */
enum covretin_error covretin_connect_fd(covretin_connection *connection, int fd, uint64_t max_queue_num);

/* Closes the socket, the session, and each descriptor that came and that you did not claim. The connection is {0} again. A call that is under
 * way is given up. If the variable is not connected, the call does nothing. */
void covretin_disconnect(covretin_connection *connection);

/* The connection's socket, to wait for by poll and its like. It stays the connection's. -1: there is none. If it becomes readable while no call
 * is under way, the backend has ended, or has sent something that nobody asked for: disconnect. */
int covretin_connection_fd(const covretin_connection *connection);

/* Sends the request of the call that you asked, receives its reply, and takes it. `milliseconds` limits the time of all of that; with 0 the call
 * does what can be done at once, and a negative number sets no limit. It returns what covretin_take returns, or one of these:
 *   NO_SESSION: there is no connection.
 *   NOTHING_ASKED: no ask succeeded since the last exchange.
 *   TIMED_OUT, OUT_OF_MEMORY: the call is still under way, and the next exchange goes on with it. OUT_OF_MEMORY is also returned if the system
 *     has no room for what is to be sent (ENOMEM, ENOBUFS, ETOOMANYREFS). If memory failed at the very end of the call, the next exchange
 *     returns NOTHING_ASKED, and the call is lost.
 *   INVALID_PARAM: the system cannot pass on a descriptor that you gave to the ask, because it is not open (errno is EBADF), or not of a kind
 *     that can be sent (EINVAL). Nothing was sent, nothing is asked any more, and the connection goes on.
 *   DISCONNECTED: the backend closed the socket, or ended, perhaps amid its reply.
 *   SOCKET_ERROR: the system failed in another way.
 *   FDS_LOST: more descriptors came at once than a message may have, or than the process may open.
 * After the last three, INVALID_MESSAGE and SOCKET_BROKEN the connection is of no more use: each further exchange returns the same, and you
 * disconnect. No descriptor of that reply is left open. */
enum covretin_error covretin_exchange(covretin_connection *connection, int milliseconds);

/* The same for an event loop. It never waits, except for what CLOSING says of the system. NOT_YET: the call is under way, and *events says what
 * the socket has to be ready for, POLLIN or POLLOUT (of poll.h; EPOLLIN and EPOLLOUT are the same numbers). Call it again when the socket is.
 * After anything else *events is 0. It never returns TIMED_OUT; everything else is as above. */
enum covretin_error covretin_exchange_nowait(covretin_connection *connection, short *events);

/* Hands over the descriptor of the reply that was taken last, that of get_shared_object, postcopy_advise, set_device_state_fd or get_inflight_fd.
 * From then on you have to close it. NO_SESSION: there is no connection. OTHER_ANSWER: that reply has no descriptor, or it was claimed already.
 * After an error *fd was not written. */
enum covretin_error covretin_claim_fd(covretin_connection *connection, int32_t *fd);

#ifdef __cplusplus
}
#endif

#endif
