/* SPDX-License-Identifier: Apache-2.0 */
/* Covretin: a backend over a Unix socket. This part of the library makes system calls. A service is a session of covretin_backend.h, the
 * socket of its frontend, and whatever is under way between the two:
 *
 *     covretin_listener listener = {0};
 *     covretin_service frontend = {0};
 *     error = covretin_listen(&listener, "/run/disk.sock");
 *     error = covretin_accept(&listener, &frontend, -1);
 *     while (!covretin_service_ended(&frontend)) {
 *         error = covretin_next_call(&frontend, &call, -1);
 *         if (error == 0)
 *             answer(&frontend.backend, call);              covretin_call_.., and one covretin_reply_..
 *         else if (error == COVRETIN_NOT_REPLIED)
 *             break;                                        that reply failed
 *     }
 *     covretin_hang_up(&frontend);
 *     covretin_unlisten(&listener);
 *
 * No call raises SIGPIPE, and no signal interrupts one. No descriptor passes to a program that is executed. A call reads nothing beyond the
 * request that it awaits.
 *
 * WHO OWNS WHAT
 * Services and listeners: variables of these types, {0} at first, belong to you. You do not copy them or write to them. Calls with the same one,
 *   or with its session, must not overlap in time, and none may be made from a signal handler.
 * Its session: it is opened and closed with the service. Pass &service.backend to covretin_call_.., covretin_reply_..,
 *   covretin_backend_set_profile, covretin_backend_inactive and covretin_backend_ended, and to nothing else.
 * Its socket: it belongs to the service until covretin_hang_up closes it. Once the session has ended (covretin_backend_ended), the next of the
 *   calls below shuts it down, so that the frontend is hung up on without waiting for you.
 * Descriptors that the frontend sends: they belong to the service. A descriptor that a call names is lent to you until you have replied.
 *   covretin_claim_call_fd hands it over, and then you close it. All others are closed once the reply was sent, and those of a refused request
 *   at once.
 * Descriptors that you give to a reply: they stay yours. They have to stay open until covretin_send_reply succeeded, or until a covretin_next_call
 *   that began after the reply returned anything but NOT_YET, TIMED_OUT and OUT_OF_MEMORY.
 *
 * CLOSING what a frontend sent does not wait for the frontend. What covretin_socket.h says at that word holds here, too.
 *
 * ERRORS are those of covretin.h. errno says more after SOCKET_ERROR, and after no other error.
 */
#ifndef COVRETIN_BACKEND_SOCKET_H
#define COVRETIN_BACKEND_SOCKET_H

#include "covretin_backend.h"

#ifdef __cplusplus
extern "C" {
#endif

/* A socket that frontends connect to. {0} does not listen. */
typedef struct covretin_listener {
    void *opaque;
} covretin_listener;

/* A frontend that has connected. {0} is no frontend. */
typedef struct covretin_service {
    covretin_backend backend;
    void *opaque;
} covretin_service;

/* -- Listening ----------------------------------------------------------------------------------------------------- */

/* Makes a Unix socket at a path, and listens there. If a socket was left over there, which nobody has open any more, it is replaced; anything
 * else at the path stays. If one was left over, and somebody holds a lock on its folder (flock), the call waits for a tenth of a second. Errors:
 *   SESSION_OPEN: this variable listens already.
 *   INVALID_PATH: the path is empty or too long.
 *   SOCKET_ERROR: the system failed. With EADDRINUSE in errno the path is taken, with EEXIST there is something that is no socket.
 *   OUT_OF_MEMORY.
 * After an error nothing has changed. */
enum covretin_error covretin_listen(covretin_listener *listener, const char *path);

/* The same with a Unix socket that listens already, such as a service manager gives it. The socket belongs to the listener from then on, and no
 * longer blocks; after an error it is still yours. Errors: SESSION_OPEN; INVALID_SOCKET_FD, NOT_UNIX_SOCKET and NOT_STREAM_SOCKET, if the
 * descriptor is no socket or one of another kind; OUT_OF_MEMORY. */
enum covretin_error covretin_listen_fd(covretin_listener *listener, int fd);

/* Closes the socket, and removes its path if what stands there is still what covretin_listen made. The listener is {0} again. Services go on.
 * Frontends that wait to be accepted are hung up on. If the variable does not listen, the call does nothing. */
void covretin_unlisten(covretin_listener *listener);

/* The listener's socket, to wait for by poll and its like: it is readable when a frontend waits. -1: there is none. */
int covretin_listener_fd(const covretin_listener *listener);

/* -- Frontends ----------------------------------------------------------------------------------------------------- */

/* Accepts the next frontend, and opens a session for it. `milliseconds` limits the time; with 0 only a frontend that waits already is accepted,
 * and a negative number sets no limit. Errors:
 *   NO_SESSION: there is no listener.
 *   SESSION_OPEN: this service has a frontend already.
 *   TIMED_OUT: no frontend came.
 *   SOCKET_ERROR: the system failed.
 *   OUT_OF_MEMORY: a frontend was there, and was disconnected.
 * After an error the service has not changed, and the listener goes on. */
enum covretin_error covretin_accept(covretin_listener *listener, covretin_service *service, int milliseconds);

/* The same, over a socket that is connected already. The socket belongs to the service from then on; after an error it is still yours.
 * Whether the socket blocks does not matter, and is not changed. Errors: SESSION_OPEN; INVALID_SOCKET_FD, NOT_UNIX_SOCKET and
 * NOT_STREAM_SOCKET, if the descriptor is no socket or one of another kind; OUT_OF_MEMORY. After an error nothing has changed. */
enum covretin_error covretin_serve_fd(covretin_service *service, int fd);

/* Closes the socket, the session, and each descriptor that came and that you did not claim. The service is {0} again. If the service has no
 * frontend, the call does nothing. */
void covretin_hang_up(covretin_service *service);

/* The service's socket, to wait for by poll and its like. It stays the service's. -1: there is none. */
int covretin_service_fd(const covretin_service *service);

/* Whether the service is of no more use, because an error ended it, or because it has no frontend. */
bool covretin_service_ended(const covretin_service *service);

/* The number of the request that came last, as its header has it, even if that request was refused or only a part of it came.
 * covretin_request_text names it. It is 0 before the first request, if less than the number came of the last one, and without a frontend. */
uint32_t covretin_service_request(const covretin_service *service);

/* Sets the function that gets each request which has no call of its own: SEND_RARP, IOTLB_MSG, SET_STATUS, or a number that the specification
 * does not know. It gets the whole request: its number, its body, and its descriptors, which are lent as those of a call are. covretin_next_call
 * calls it, and then goes on to the next request. Return 0 if you serve the request; it is then acknowledged if it asks for that. If you return
 * another number, nobody serves it, and covretin_next_call returns INVALID_OPERATION. The same holds while `other` is NULL, as at first. A request
 * that awaits a reply of its own (GET_STATUS) ends the session in either case. Under VHOST such requests are refused, and `other` is not asked.
 * NO_SESSION: there is no service. */
enum covretin_error covretin_backend_set_other(covretin_service *service,
    int (*other)(void *context, uint32_t request, const uint8_t *bytes, size_t len, const int32_t *fds, size_t count), void *context);

/* -- Requests ------------------------------------------------------------------------------------------------------ */

/* Sends what is still to be sent, receives the next request, and checks it. After 0, *call says what the device is asked, and you have to reply
 * before the next call. `milliseconds` limits the time; with 0 the call does what can be done at once, and a negative number sets no limit. If the
 * request was refused, the call returns what covretin_backend_next returned, once the acknowledgement was sent. It may also return:
 *   NO_SESSION: there is no service.
 *   NOT_REPLIED: you still have to reply to the call before. Until you do, each call returns this at once.
 *   TIMED_OUT, OUT_OF_MEMORY: the next covretin_next_call goes on. If memory failed after a whole request had come, that request is refused.
 *     OUT_OF_MEMORY is also returned if the system has no room for what is to be sent (ENOMEM, ENOBUFS, ETOOMANYREFS).
 *   DISCONNECTED, PARTIAL_MESSAGE, INVALID_MESSAGE: the frontend closed the socket, or ended, between two requests, in a header, or in a body.
 *   SOCKET_ERROR: the system failed in another way, or it cannot pass on a descriptor that you gave to the reply (errno is EBADF or EINVAL), so
 *     that the frontend would wait for it in vain.
 *   FDS_LOST: more descriptors came at once than a message may have, or than the process may open.
 * After the last three rows, any other INVALID_MESSAGE and SOCKET_BROKEN the service has ended: each further call returns the same, and you hang
 * up. The service has also ended if its session has (covretin_backend_ended). Then this call returns why the session refused the request, or
 * SOCKET_BROKEN if the device refused it, and each further call returns SOCKET_BROKEN. */
enum covretin_error covretin_next_call(covretin_service *service, uint32_t *call, int milliseconds);

/* The same for an event loop. It never waits, except for what CLOSING says of the system. NOT_YET: *events says what the socket has to be ready
 * for, POLLIN or POLLOUT (of poll.h; EPOLLIN and EPOLLOUT are the same numbers). Call it again when the socket is. After anything else *events is
 * 0. It never returns TIMED_OUT; everything else is as above. After it returned 0 or refused a request, another request may be there already. */
enum covretin_error covretin_next_call_nowait(covretin_service *service, uint32_t *call, short *events);

/* Sends the reply, for a device that has to know that its reply was sent before it goes on. Otherwise covretin_next_call sends it. NO_SESSION,
 * NOT_REPLIED, TIMED_OUT, OUT_OF_MEMORY and the errors that end the service are as above. */
enum covretin_error covretin_send_reply(covretin_service *service, int milliseconds);

/* The same for an event loop. It never waits, except for what CLOSING says of the system. NOT_YET and *events are as above. */
enum covretin_error covretin_send_reply_nowait(covretin_service *service, short *events);

/* Hands over a descriptor that covretin_call_.. named, of the call that is to be replied to. From then on you have to close it. NO_SESSION: there
 * is no service. OTHER_CALL: no call is to be replied to, or it did not bring this descriptor, or that was claimed already. */
enum covretin_error covretin_claim_call_fd(covretin_service *service, int32_t fd);

#ifdef __cplusplus
}
#endif

#endif
