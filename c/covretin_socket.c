/* SPDX-License-Identifier: Apache-2.0 */
/* The part of Covretin's frontend that makes system calls: see covretin_socket.h. */
#ifndef _GNU_SOURCE
#define _GNU_SOURCE /* for SOCK_CLOEXEC */
#endif

#include "covretin_socket.h"
#include "covretin_transport.h"

#include <errno.h>
#include <sys/socket.h>
#include <sys/time.h>
#include <sys/un.h>
#include <unistd.h>

/* What stands behind covretin_connection.opaque. */
struct exchange {
    struct transport transport;
    bool has_fd; /* of the reply that was taken last, until it is claimed */
    int32_t fd;
};

/* -- The session's side of the bytes -- */

TRANSPORT_BYTES(frontend, covretin)
TRANSPORT_CALL(frontend_abandon, covretin_abandon)
TRANSPORT_CALL(frontend_take, covretin_take)

static enum covretin_error frontend_open(void *session, uint64_t rings)
{
    return covretin_open(session, rings);
}

static void frontend_close(void *session)
{
    covretin_close(session);
}

static const struct transport_side frontend_side = {frontend_missing, frontend_receive, frontend_to_send, frontend_unclaimed,
                                                    frontend_abandon, frontend_take, false, false, frontend_open, frontend_close};

/* -- The reply -- */

/* The descriptor that the reply names which was taken last, or -1. */
static int32_t named_by(covretin_session *session)
{
    covretin_inflight inflight;
    int32_t fd = -1;
    if (covretin_answer_fd(session, &fd) != COVRETIN_OK && covretin_answer_inflight(session, &inflight, &fd) != COVRETIN_OK)
        return -1;
    return fd;
}

/* Closes the descriptor of the reply that was taken last, unless it was claimed. */
static void close_kept(struct exchange *exchange)
{
    if (exchange->has_fd)
        transport_close(exchange->fd);
    exchange->has_fd = false;
}

/* Takes the reply, keeps the descriptor that it names, and closes the others that came with it. A number that did not come
 * with it would be another file of this program. */
static enum covretin_error take(void *of)
{
    covretin_connection *connection = of;
    struct exchange *exchange = connection->opaque;
    enum covretin_error error = covretin_take(&connection->session);
    int32_t named;
    if (error == COVRETIN_NOTHING_ASKED)
        return error;
    close_kept(exchange);
    named = error ? -1 : named_by(&connection->session);
    exchange->has_fd = covretin_claim(&connection->session, named) == COVRETIN_OK;
    exchange->fd = named;
    transport_next(&exchange->transport);
    return exchange->has_fd == (named >= 0) ? error : COVRETIN_INVALID_MESSAGE;
}

enum covretin_error covretin_exchange_nowait(covretin_connection *connection, short *events)
{
    return transport_exchange_nowait(connection->opaque, take, connection, events);
}

enum covretin_error covretin_exchange(covretin_connection *connection, int milliseconds)
{
    return transport_exchange(connection->opaque, take, connection, milliseconds);
}

/* -- Connections -- */

enum covretin_error covretin_connect_fd(covretin_connection *connection, int fd, uint64_t max_queue_num)
{
    return transport_connect(&connection->opaque, &frontend_side, &connection->session, max_queue_num, fd, sizeof(struct exchange));
}

/* How long connect may wait where the listener's queue is full: as long as a send. Negative: for ever, which is 0 here. */
static int limit_connecting(int socket, int milliseconds)
{
    struct timeval limit = {0, 0};
    if (milliseconds >= 0) {
        limit.tv_sec = milliseconds / 1000;
        limit.tv_usec = milliseconds == 0 ? 1 : milliseconds % 1000 * 1000;
    }
    return setsockopt(socket, SOL_SOCKET, SO_SNDTIMEO, &limit, sizeof limit);
}

/* Connects a socket, within a limit of time. */
static enum covretin_error connect_to(int socket, const struct sockaddr_un *address, int milliseconds)
{
    int64_t end = transport_end_of(milliseconds);
    for (;;) {
        if (limit_connecting(socket, transport_left_until(end)))
            return COVRETIN_SOCKET_ERROR;
        if (connect(socket, (const struct sockaddr *)address, sizeof *address) == 0)
            return COVRETIN_OK;
        if (errno != EAGAIN && errno != EINTR)
            return COVRETIN_SOCKET_CONNECT;
        /* (the least limit is a tick of the system's clock, and signals may come more often) */
        if (errno == EAGAIN || transport_left_until(end) == 0)
            return COVRETIN_TIMED_OUT;
    }
}

enum covretin_error covretin_connect(covretin_connection *connection, const char *path, uint64_t max_queue_num,
                                     int milliseconds)
{
    struct sockaddr_un address;
    enum covretin_error error;
    int fd;
    if (connection->opaque != NULL)
        return COVRETIN_SESSION_OPEN;
    error = transport_address(path, &address);
    if (error)
        return error;
    fd = socket(AF_UNIX, SOCK_STREAM | SOCK_CLOEXEC, 0);
    if (fd < 0)
        return COVRETIN_SOCKET_ERROR;
    error = connect_to(fd, &address, milliseconds);
    if (!error)
        error = covretin_connect_fd(connection, fd, max_queue_num);
    if (error)
        transport_close_socket(fd, true);
    return error;
}

void covretin_disconnect(covretin_connection *connection)
{
    if (connection->opaque != NULL)
        close_kept(connection->opaque);
    transport_disconnect(&connection->opaque, &connection->session, frontend_close);
}

int covretin_connection_fd(const covretin_connection *connection)
{
    return transport_fd(connection->opaque);
}

enum covretin_error covretin_claim_fd(covretin_connection *connection, int32_t *fd)
{
    struct exchange *exchange = connection->opaque;
    if (exchange == NULL)
        return COVRETIN_NO_SESSION;
    if (!exchange->has_fd)
        return COVRETIN_OTHER_ANSWER;
    *fd = exchange->fd;
    exchange->has_fd = false;
    return COVRETIN_OK;
}
