/* SPDX-License-Identifier: Apache-2.0 */
/* The part of Covretin's backend that makes system calls: see covretin_backend_socket.h. */
#ifndef _GNU_SOURCE
#define _GNU_SOURCE /* for SOCK_CLOEXEC and accept4 */
#endif

#include "covretin_backend_socket.h"
#include "covretin_serving.h"

#include <errno.h>
#include <fcntl.h>
#include <poll.h>
#include <stdlib.h>
#include <string.h>
#include <sys/file.h>
#include <sys/socket.h>
#include <sys/stat.h>
#include <sys/un.h>
#include <time.h>
#include <unistd.h>

/* -- Listening -- */

/* What stands behind covretin_listener.opaque. */
struct listening {
    int socket;
    struct sockaddr_un address; /* with an empty path where the socket was given */
    struct stat made;           /* what was made at the path */
};

static bool is_socket(const char *path)
{
    struct stat found;
    return lstat(path, &found) == 0 && S_ISSOCK(found.st_mode);
}

/* Whether nobody has the socket that is there. The system refuses a datagram socket by another error where a stream socket is bound, and
 * nobody there sees it. */
static bool is_left_over(const struct sockaddr_un *address)
{
    int fd, error;
    if (!is_socket(address->sun_path))
        return false;
    fd = socket(AF_UNIX, SOCK_DGRAM | SOCK_CLOEXEC | SOCK_NONBLOCK, 0);
    if (fd < 0)
        return false;
    error = connect(fd, (const struct sockaddr *)address, sizeof *address) ? errno : 0;
    transport_close(fd);
    return error == ECONNREFUSED;
}

/* Locks the folder of a path against others who remove in it what is left over. Anybody may hold such a lock, so it waits for a tenth of a
 * second at most. Its descriptor, or -1: it cannot be opened, and is not locked. */
static int lock_folder(const char *path)
{
    const struct timespec pause = {0, 10000000};
    char folder[sizeof((struct sockaddr_un *)NULL)->sun_path];
    const char *slash = strrchr(path, '/');
    size_t length = slash == NULL ? 0 : (size_t)(slash - path) + 1;
    int fd;
    memcpy(folder, path, length);
    if (length == 0)
        folder[length++] = '.';
    folder[length] = 0;
    fd = open(folder, O_RDONLY | O_DIRECTORY | O_CLOEXEC);
    for (int tries = 0; fd >= 0 && tries < 10 && flock(fd, LOCK_EX | LOCK_NB); tries++)
        nanosleep(&pause, NULL);
    return fd;
}

/* Binds a socket in place of one that was left over. Whoever else does so holds the same lock. */
static bool take_over_path(int fd, const struct sockaddr_un *address)
{
    int lock = lock_folder(address->sun_path);
    bool is_bound = false;
    if (!is_left_over(address))
        errno = is_socket(address->sun_path) ? EADDRINUSE : EEXIST;
    else if (unlink(address->sun_path) == 0)
        is_bound = bind(fd, (const struct sockaddr *)address, sizeof *address) == 0;
    transport_close(lock);
    return is_bound;
}

/* Makes the socket at its path, and listens. */
static bool make_listening(struct listening *listening)
{
    const struct sockaddr_un *address = &listening->address;
    int fd = listening->socket;
    if (bind(fd, (const struct sockaddr *)address, sizeof *address) && (errno != EADDRINUSE || !take_over_path(fd, address)))
        return false;
    if (listen(fd, SOMAXCONN) == 0 && lstat(address->sun_path, &listening->made) == 0)
        return true;
    unlink(address->sun_path);
    return false;
}

/* Makes a socket at the address of `listening`, and listens there. */
static enum covretin_error listen_there(struct listening *listening)
{
    listening->socket = socket(AF_UNIX, SOCK_STREAM | SOCK_CLOEXEC | SOCK_NONBLOCK, 0);
    if (listening->socket >= 0 && make_listening(listening))
        return COVRETIN_OK;
    transport_close(listening->socket);
    return COVRETIN_SOCKET_ERROR;
}

enum covretin_error covretin_listen(covretin_listener *listener, const char *path)
{
    struct listening *listening;
    struct sockaddr_un address;
    enum covretin_error error;
    if (listener->opaque != NULL)
        return COVRETIN_SESSION_OPEN;
    error = transport_address(path, &address);
    if (error)
        return error;
    listening = calloc(1, sizeof *listening);
    if (listening == NULL)
        return COVRETIN_OUT_OF_MEMORY;
    listening->address = address;
    error = listen_there(listening);
    if (error)
        free(listening);
    else
        listener->opaque = listening;
    return error;
}

enum covretin_error covretin_listen_fd(covretin_listener *listener, int fd)
{
    struct listening *listening;
    enum covretin_error error;
    int flags;
    if (listener->opaque != NULL)
        return COVRETIN_SESSION_OPEN;
    error = transport_check_socket(fd);
    if (error)
        return error;
    listening = calloc(1, sizeof *listening);
    if (listening == NULL)
        return COVRETIN_OUT_OF_MEMORY;
    flags = fcntl(fd, F_GETFL);
    fcntl(fd, F_SETFL, flags | O_NONBLOCK);
    listening->socket = fd;
    listener->opaque = listening;
    return COVRETIN_OK;
}

/* Removes the path, if it is still what was made there. Nobody takes it over before the socket is closed. */
static void remove_path(const struct listening *listening)
{
    const char *path = listening->address.sun_path;
    struct stat found;
    if (lstat(path, &found) == 0 && found.st_dev == listening->made.st_dev && found.st_ino == listening->made.st_ino)
        unlink(path);
}

/* Hangs up on those who connected and were not accepted: closing the listening socket would drop what they sent. */
static void hang_up_on_waiting(int listener)
{
    int fd = 0;
    for (int count = 0; count <= SOMAXCONN && fd >= 0; count++) {
        fd = accept4(listener, NULL, NULL, SOCK_CLOEXEC);
        if (fd >= 0)
            transport_close_socket(fd, true);
    }
}

void covretin_unlisten(covretin_listener *listener)
{
    struct listening *listening = listener->opaque;
    if (listening == NULL)
        return;
    if (listening->address.sun_path[0] != 0) {
        remove_path(listening);
        hang_up_on_waiting(listening->socket);
    }
    transport_close(listening->socket);
    free(listening);
    listener->opaque = NULL;
}

int covretin_listener_fd(const covretin_listener *listener)
{
    const struct listening *listening = listener->opaque;
    return listening == NULL ? -1 : listening->socket;
}

/* -- The session's side of the bytes -- */

TRANSPORT_BYTES(backend, covretin_backend)
TRANSPORT_OPENS(backend, covretin_backend)
TRANSPORT_CALL(end, covretin_backend_end)

static enum covretin_error backend_abandon(void *session)
{
    covretin_reply_refused(session);
    return covretin_backend_abandon(session);
}

static enum covretin_error next(void *session, uint32_t *call)
{
    return covretin_backend_next(session, call);
}

static enum covretin_error claim(void *session, int32_t fd)
{
    return covretin_backend_claim(session, fd);
}

static bool ended(void *session)
{
    return covretin_backend_ended(session) != 0;
}

/* Gives a request without a call of its own to whoever serves it, and replies by what he says. Its descriptors are lent to him. */
static enum covretin_error serve_other(void *session, const struct serving_hook *hook)
{
    uint8_t bytes[COVRETIN_MAX_MESSAGE];
    int32_t fds[COVRETIN_MAX_FDS];
    size_t len = 0, count = 0;
    uint32_t request = 0;
    bool served = hook->other != NULL && covretin_call_other(session, &request, bytes, sizeof bytes, &len) == COVRETIN_OK &&
                  covretin_call_fds(session, fds, COVRETIN_MAX_FDS, &count) == COVRETIN_OK &&
                  hook->other(hook->context, request, bytes, len, fds, count) == 0;
    enum covretin_error error = served ? covretin_reply_done(session) : covretin_reply_refused(session);
    return error == COVRETIN_BACKEND_INTERNAL_ERROR ? COVRETIN_INVALID_OPERATION : error;
}

static const struct serving_side backend_side = {
    {backend_missing, backend_receive, backend_to_send, backend_unclaimed, backend_abandon, NULL, true, false, backend_open, backend_close},
    next, end, claim, ended, COVRETIN_CALL_OTHER, serve_other};

/* -- Frontends -- */

enum covretin_error covretin_serve_fd(covretin_service *service, int fd)
{
    return serving_open(&service->opaque, &backend_side, &service->backend, fd);
}

/* The next frontend's socket. */
static enum covretin_error accept_one(int listener, int64_t end, int *fd)
{
    for (;;) {
        enum covretin_error error;
        *fd = accept4(listener, NULL, NULL, SOCK_CLOEXEC);
        if (*fd >= 0)
            return COVRETIN_OK;
        if (errno == EINTR || errno == ECONNABORTED)
            continue;
        if (errno != EAGAIN)
            return COVRETIN_SOCKET_ERROR;
        error = transport_wait(listener, POLLIN, end);
        if (error)
            return error;
    }
}

enum covretin_error covretin_accept(covretin_listener *listener, covretin_service *service, int milliseconds)
{
    const struct listening *listening = listener->opaque;
    enum covretin_error error;
    int fd;
    if (listening == NULL)
        return COVRETIN_NO_SESSION;
    if (service->opaque != NULL)
        return COVRETIN_SESSION_OPEN;
    error = accept_one(listening->socket, transport_end_of(milliseconds), &fd);
    if (error)
        return error;
    error = covretin_serve_fd(service, fd);
    if (error)
        transport_close_socket(fd, true);
    return error;
}

void covretin_hang_up(covretin_service *service)
{
    transport_disconnect(&service->opaque, &service->backend, backend_close);
}

int covretin_service_fd(const covretin_service *service)
{
    return transport_fd(service->opaque);
}

bool covretin_service_ended(const covretin_service *service)
{
    return serving_ended(service->opaque);
}

uint32_t covretin_service_request(const covretin_service *service)
{
    return serving_request(service->opaque);
}

enum covretin_error covretin_backend_set_other(covretin_service *service, serving_other *other, void *context)
{
    return serving_set_hook(service->opaque, &(struct serving_hook){.other = other, .context = context});
}

/* -- Requests -- */

enum covretin_error covretin_next_call(covretin_service *service, uint32_t *call, int milliseconds)
{
    return serving_next_call(service->opaque, call, milliseconds);
}

enum covretin_error covretin_next_call_nowait(covretin_service *service, uint32_t *call, short *events)
{
    return serving_next_call_nowait(service->opaque, call, events);
}

enum covretin_error covretin_send_reply(covretin_service *service, int milliseconds)
{
    return serving_send_reply(service->opaque, milliseconds);
}

enum covretin_error covretin_send_reply_nowait(covretin_service *service, short *events)
{
    return serving_send_reply_nowait(service->opaque, events);
}

enum covretin_error covretin_claim_call_fd(covretin_service *service, int32_t fd)
{
    return serving_claim(service->opaque, fd);
}
