/* SPDX-License-Identifier: Apache-2.0 */
/* Covretin: the backend channel over its Unix socket. This part of the library makes system calls. A device asks:
 *
 *     error = covretin_claim_call_fd(&frontend, fd);                    the socket of COVRETIN_CALL_SET_BACKEND_REQ_FD
 *     error = covretin_channel_connect_fd(&vmm, fd);
 *     error = covretin_channel_ask_config_change(&vmm.channel);
 *     error = covretin_channel_exchange(&vmm, 5000);
 *     covretin_channel_disconnect(&vmm);
 *
 * A frontend serves, as a device does by covretin_backend_socket.h:
 *
 *     error = covretin_channel_serve_fd(&device, fd);                   the other end was given to the device
 *     while (!covretin_channel_service_ended(&device)) {
 *         error = covretin_channel_next_call(&device, &call, -1);
 *         if (error == 0)
 *             answer(&device.server, call);                             covretin_channel_call_.., and one covretin_channel_reply_..
 *         else if (error == COVRETIN_NOT_REPLIED)
 *             break;                                                    that reply failed
 *     }
 *     covretin_channel_hang_up(&device);
 *
 * What covretin_socket.h says of a connection holds of a covretin_channel_connection, and what covretin_backend_socket.h says of a service
 * holds of a covretin_channel_service: who owns the socket, the session and each descriptor, and all of signals, closing, limits of time and
 * errors. A device is sent no descriptor, so all that come are closed. Pass &connection.channel to covretin_channel_set_.. and
 * covretin_channel_ask_.., and &service.server to covretin_channel_server_set_reply_ack, covretin_channel_call_.. and
 * covretin_channel_reply_... Pass them to nothing else.
 *
 * A DEVICE'S SOCKET WAS GIVEN by the frontend, which may have kept a copy. The system lets one reader at a time read from a stream socket.
 * Suppose that the frontend, or whoever else has a copy, reads from it into memory that does not come, such as that of a file system that it
 * serves, or of a userfaultfd. Then covretin_channel_exchange and covretin_channel_exchange_nowait wait in recvmsg, once a reply is awaited, for
 * as long as that reader likes. No limit of time ends that wait, and no signal, not even SIGKILL; it ends when the reader ends.
 *   So if you do not trust the frontend with that, either exchange in a thread that nobody waits for, or ask for no reply
 * (covretin_channel_set_reply_ack): a request that awaits none is only sent, and that never waits. covretin_channel_disconnect does not wait
 * either.
 */
#ifndef COVRETIN_CHANNEL_SOCKET_H
#define COVRETIN_CHANNEL_SOCKET_H

#include "covretin_channel.h"

#ifdef __cplusplus
extern "C" {
#endif

/* == The device's side ============================================================================================= */

/* A device's connection to its frontend. {0} is not connected. */
typedef struct covretin_channel_connection {
    covretin_channel channel;
    void *opaque;
} covretin_channel_connection;

/* Opens a session over a socket, which belongs to the connection from then on; after an error it is still yours. Errors: SESSION_OPEN;
 * INVALID_SOCKET_FD, NOT_UNIX_SOCKET and NOT_STREAM_SOCKET, if the descriptor is no socket or one of another kind; OUT_OF_MEMORY. After an
 * error nothing has changed. */
enum covretin_error covretin_channel_connect_fd(covretin_channel_connection *connection, int fd);

/* Closes the socket and the session. The connection is {0} again. If it is not connected, the call does nothing. */
void covretin_channel_disconnect(covretin_channel_connection *connection);

/* The connection's socket, to wait for by poll and its like. -1: there is none. */
int covretin_channel_connection_fd(const covretin_channel_connection *connection);

/* These do what covretin_exchange and covretin_exchange_nowait do, and return what covretin_channel_take returns. */
enum covretin_error covretin_channel_exchange(covretin_channel_connection *connection, int milliseconds);
enum covretin_error covretin_channel_exchange_nowait(covretin_channel_connection *connection, short *events);

/* == The frontend's side =========================================================================================== */

/* A device that a frontend serves. {0} is no device. */
typedef struct covretin_channel_service {
    covretin_channel_server server;
    void *opaque;
} covretin_channel_service;

/* These do what covretin_serve_fd, covretin_hang_up, covretin_service_fd, covretin_service_ended and covretin_service_request do. */
enum covretin_error covretin_channel_serve_fd(covretin_channel_service *service, int fd);
void covretin_channel_hang_up(covretin_channel_service *service);
int covretin_channel_service_fd(const covretin_channel_service *service);
bool covretin_channel_service_ended(const covretin_channel_service *service);
uint32_t covretin_channel_service_request(const covretin_channel_service *service);

/* These do what covretin_next_call and covretin_send_reply do, and return what covretin_channel_server_next returns. */
enum covretin_error covretin_channel_next_call(covretin_channel_service *service, uint32_t *call, int milliseconds);
enum covretin_error covretin_channel_next_call_nowait(covretin_channel_service *service, uint32_t *call, short *events);
enum covretin_error covretin_channel_send_reply(covretin_channel_service *service, int milliseconds);
enum covretin_error covretin_channel_send_reply_nowait(covretin_channel_service *service, short *events);

/* Does what covretin_claim_call_fd does, with the descriptor that covretin_channel_call_fd names. */
enum covretin_error covretin_channel_claim_call_fd(covretin_channel_service *service, int32_t fd);

#ifdef __cplusplus
}
#endif

#endif
