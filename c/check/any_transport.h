/* SPDX-License-Identifier: Apache-2.0 */
/* Any transport, as covretin_transport.h allows one, for the checks of what stands on it (c/check/transport.c checks transports). A connection is
 * `the_room`, which a harness gives. Its session's calls are made as a transport makes them. */
#ifndef COVRETIN_CHECK_ANY_TRANSPORT_H
#define COVRETIN_CHECK_ANY_TRANSPORT_H

#include "core.h"

#include "covretin_serving.h"

#include <sys/socket.h>
#include <sys/un.h>

static struct transport *the_room;
static size_t the_size; /* so much stands behind it */
static const uint8_t *lent;
static size_t lent_len;
static int the_socket = -1;
static bool takes_alone; /* a session's own take was called, as for a request that cannot be sent: nothing else is done with the reply */

/* What comes and goes by the calls of a side: bytes out, bytes in, and what nobody claims. */
static void passes_bytes(const struct transport *transport)
{
    static uint8_t bytes[COVRETIN_MAX_MESSAGE];
    int32_t fds[COVRETIN_MAX_FDS];
    size_t count, with;
    if (transport->side->to_send(transport->session, bytes, sizeof bytes, fds, COVRETIN_MAX_FDS, &count, &with) == COVRETIN_OK)
        HOLDS(count <= sizeof bytes && with <= COVRETIN_MAX_FDS, "a message at most");
    if (transport->side->missing(transport->session) != 0)
        (void)transport->side->receive(transport->session, bytes, 1, fds, 0);
}

/* What nobody claimed is closed. */
void transport_next(struct transport *transport)
{
    int32_t fds[COVRETIN_MAX_FDS];
    size_t count = 0;
    HOLDS(transport == the_room, "of this connection");
    if (transport->side->abandon != NULL)
        (void)transport->side->abandon(transport->session);
    (void)transport->side->unclaimed(transport->session, fds, COVRETIN_MAX_FDS, &count);
    for (size_t i = 0; i < COVRETIN_MAX_FDS; i++)
        if (i < count)
            fd_gone(fds[i]);
}

void transport_close(int fd)
{
    if (fd >= 0)
        fd_gone(fd);
}

void transport_close_socket(int socket, bool is_ended)
{
    (void)is_ended;
    fd_gone(socket);
}

int transport_fd(const struct transport *transport)
{
    return transport == NULL ? -1 : the_socket;
}

enum covretin_error transport_check_socket(int fd)
{
    (void)fd;
    return any_bool() ? COVRETIN_OK : any_bool() ? COVRETIN_INVALID_SOCKET_FD : COVRETIN_NOT_STREAM_SOCKET;
}

enum covretin_error transport_connect(void **opaque, const struct transport_side *side, void *session, uint64_t rings, int socket, size_t size)
{
    enum covretin_error error;
    HOLDS(size == the_size, "room for all that stands behind a connection");
    if (*opaque != NULL)
        return COVRETIN_SESSION_OPEN;
    error = side->open(session, rings);
    if (error)
        return error;
    if (any_bool()) {
        side->close(session);
        return COVRETIN_OUT_OF_MEMORY;
    }
    the_room->side = side;
    the_room->session = session;
    the_socket = socket; /* (it is the transport's) */
    *opaque = the_room;
    return COVRETIN_OK;
}

void transport_disconnect(void **opaque, void *session, void (*close)(void *session))
{
    if (*opaque != NULL)
        fd_gone(the_socket);
    the_socket = -1;
    *opaque = NULL;
    close(session);
}

enum covretin_error transport_exchange_nowait(struct transport *transport, transport_take *takes, void *of, short *events)
{
    *events = 0;
    if (transport == NULL)
        return COVRETIN_NO_SESSION;
    passes_bytes(transport);
    takes_alone = any_bool();
    return takes_alone ? transport->side->take(transport->session) : takes(of);
}

enum covretin_error transport_exchange(struct transport *transport, transport_take *takes, void *of, int milliseconds)
{
    short events;
    (void)milliseconds;
    return transport_exchange_nowait(transport, takes, of, &events);
}

void transport_lend(struct transport *transport, const uint8_t *bytes, size_t bytes_len)
{
    HOLDS(transport != NULL && __CPROVER_r_ok(bytes, bytes_len), "what is lent is there, and so is who sends it");
    lent = bytes;
    lent_len = bytes_len;
}

int64_t transport_end_of(int milliseconds)
{
    return milliseconds;
}

/* (signals do not come for ever before the limit) */
int transport_left_until(int64_t end)
{
    static unsigned looks;
    return looks++ >= MOST_AGAIN + 1 ? 0 : end < 0 ? -1 : any_int() & 0x7fffffff;
}

/* (a short one) */
enum covretin_error transport_address(const char *path, struct sockaddr_un *address)
{
    memset(address, 0, sizeof *address);
    for (size_t i = 0; i < 4 && path[i] != 0; i++)
        address->sun_path[i] = path[i];
    return any_bool() ? COVRETIN_INVALID_PATH : COVRETIN_OK;
}

int socket(int family, int kind, int protocol)
{
    (void)family, (void)protocol;
    HOLDS(kind & SOCK_CLOEXEC, "socket: it is closed by exec");
    return any_bool() ? -1 : fd_new();
}

int connect(int fd, const struct sockaddr *address, socklen_t size)
{
    HOLDS(fd_is_open(fd) && __CPROVER_r_ok(address, size), "connect: it is open, and the address is there");
    if (any_bool())
        return 0;
    errno = any_int();
    return -1;
}

/* -- Any service, as covretin_serving.h allows one -- */

enum covretin_error serving_open(void **opaque, const struct serving_side *side, void *session, int socket)
{
    enum covretin_error error = transport_connect(opaque, &side->bytes, session, 0, socket, the_size);
    if (!error)
        ((struct serving *)*opaque)->side = side;
    return error;
}

enum covretin_error serving_set_hook(struct serving *serving, const struct serving_hook *hook)
{
    HOLDS(__CPROVER_r_ok(hook, sizeof *hook), "the hook is there");
    if (serving == NULL)
        return COVRETIN_NO_SESSION;
    serving->hook = *hook;
    return COVRETIN_OK;
}

bool serving_ended(const struct serving *serving)
{
    return serving == NULL || (serving->side->ended != NULL && serving->side->ended(serving->transport.session));
}

uint32_t serving_request(const struct serving *serving)
{
    return serving == NULL ? 0 : any_u32();
}

/* The session's calls, in whatever order. */
static enum covretin_error serves(struct serving *serving, uint32_t *call)
{
    const struct serving_side *side;
    if (serving == NULL)
        return COVRETIN_NO_SESSION;
    side = serving->side;
    passes_bytes(&serving->transport);
    if (any_bool())
        return side->end(serving->transport.session);
    enum covretin_error error = side->next(serving->transport.session, call);
    if (error || side->other_call == 0 || *call != side->other_call)
        return error;
    return side->other(serving->transport.session, &serving->hook);
}

enum covretin_error serving_next_call(struct serving *serving, uint32_t *call, int milliseconds)
{
    (void)milliseconds;
    return serves(serving, call);
}

enum covretin_error serving_next_call_nowait(struct serving *serving, uint32_t *call, short *events)
{
    *events = 0;
    return serves(serving, call);
}

enum covretin_error serving_send_reply(struct serving *serving, int milliseconds)
{
    uint32_t call;
    (void)milliseconds;
    return serves(serving, &call);
}

enum covretin_error serving_send_reply_nowait(struct serving *serving, short *events)
{
    uint32_t call;
    *events = 0;
    return serves(serving, &call);
}

enum covretin_error serving_claim(struct serving *serving, int32_t fd)
{
    return serving == NULL ? COVRETIN_NO_SESSION : serving->side->claim(serving->transport.session, fd);
}

#endif
