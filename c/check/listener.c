/* SPDX-License-Identifier: Apache-2.0 */
/* Checked: c/covretin_backend_socket.c, over any file system, any frontends that come, any transport and any session. */
#include "any_transport.h"

#include "covretin_backend_socket.c"

/* -- Any file system -- */

static unsigned removed; /* paths */

int lstat(const char *path, struct stat *found)
{
    HOLDS(path[0] != 0, "lstat: there is a path");
    found->st_mode = any_u32();
    found->st_dev = any_u64();
    found->st_ino = any_u64();
    return any_bool() ? -1 : 0;
}

int unlink(const char *path)
{
    HOLDS(path[0] != 0, "unlink: there is a path");
    removed++;
    return any_bool() ? -1 : 0;
}

int open(const char *path, int flags, ...)
{
    HOLDS(path[0] != 0 && flags & O_CLOEXEC && flags & O_DIRECTORY, "open: a folder, which is closed by exec");
    return any_bool() ? -1 : fd_new();
}

int flock(int fd, int operation)
{
    HOLDS(fd_is_open(fd) && operation & LOCK_NB, "flock: it is open, and is not waited for");
    return any_bool() ? -1 : 0;
}

static int fails_by_any_error(void)
{
    errno = any_int();
    return any_bool() ? -1 : 0;
}

int bind(int fd, const struct sockaddr *address, socklen_t size)
{
    HOLDS(fd_is_open(fd) && __CPROVER_r_ok(address, size), "bind: it is open, and the address is there");
    return fails_by_any_error();
}

int listen(int fd, int most)
{
    (void)most;
    HOLDS(fd_is_open(fd), "listen: it is open");
    return fails_by_any_error();
}

/* (connections that were broken off do not come for ever) */
int accept4(int listener, struct sockaddr *address, socklen_t *size, int flags)
{
    static unsigned again, come;
    (void)address, (void)size;
    HOLDS(fd_is_open(listener) && flags & SOCK_CLOEXEC, "accept4: it is open, and what comes is closed by exec");
    if (come < 2 && any_bool()) {
        come++;
        return fd_new();
    }
    errno = any_int();
    if (errno == EINTR || errno == ECONNABORTED)
        GIVEN(again++ < MOST_AGAIN);
    return -1;
}

enum covretin_error transport_wait(int socket, short events, int64_t end)
{
    static unsigned waits;
    (void)end;
    HOLDS(fd_is_open(socket) && events == POLLIN, "it is known for what is waited");
    return waits++ < MOST_AGAIN && any_bool() ? COVRETIN_OK : any_bool() ? COVRETIN_TIMED_OUT : COVRETIN_SOCKET_ERROR;
}

/* -- The proved part -- */

enum covretin_error covretin_backend_end(covretin_backend *backend)
{
    (void)backend;
    return any_bool() ? COVRETIN_DISCONNECTED : any_bool() ? COVRETIN_PARTIAL_MESSAGE : COVRETIN_INVALID_MESSAGE;
}

enum covretin_error covretin_backend_next(covretin_backend *backend, uint32_t *call)
{
    (void)backend;
    HOLDS(__CPROVER_w_ok(call, sizeof *call), "there is room for the call");
    *call = any_bool() ? COVRETIN_CALL_OTHER : any_u32();
    return any_bool() ? COVRETIN_OK : (enum covretin_error)any_int();
}

uint32_t covretin_backend_ended(covretin_backend *backend)
{
    (void)backend;
    return any_u32();
}

static enum covretin_error replies(void)
{
    backend_model.has_call = false;
    return (enum covretin_error)any_int();
}

enum covretin_error covretin_reply_done(covretin_backend *backend)
{
    (void)backend;
    return replies();
}

enum covretin_error covretin_reply_refused(covretin_backend *backend)
{
    (void)backend;
    return replies();
}

enum covretin_error covretin_call_other(covretin_backend *backend, uint32_t *request, uint8_t *bytes, size_t len, size_t *count)
{
    (void)backend;
    HOLDS(__CPROVER_w_ok(bytes, len), "there is room for the body");
    if (any_bool())
        return COVRETIN_OTHER_CALL;
    *request = any_u32();
    *count = any_size();
    GIVEN(*count <= len);
    any_bytes(bytes, *count);
    return COVRETIN_OK;
}

enum covretin_error covretin_call_fds(covretin_backend *backend, int32_t *fds, size_t len, size_t *count)
{
    (void)backend;
    HOLDS(__CPROVER_w_ok(fds, len * sizeof *fds), "there is room for the descriptors");
    *count = any_size();
    GIVEN(*count <= len);
    return any_bool() ? COVRETIN_OK : COVRETIN_OTHER_CALL;
}

/* -- Checks -- */

static struct serving room;

static int any_other(void *context, uint32_t request, const uint8_t *bytes, size_t len, const int32_t *fds, size_t count)
{
    (void)request;
    HOLDS(context == &room, "its context is whoever's it is");
    HOLDS(__CPROVER_r_ok(bytes, len) && __CPROVER_r_ok(fds, count * sizeof *fds), "the body and the descriptors are there");
    return any_int();
}

/* At any path: what is made there, and what is removed. */
void check_listen(void)
{
    covretin_listener listener = {.opaque = any_bool() ? &room : NULL};
    void *was = listener.opaque;
    may_wait = true; /* (for the folder's lock, a tenth of a second at most) */
    if (covretin_listen(&listener, "p/s") != COVRETIN_OK) {
        REACHED("not made");
        HOLDS(listener.opaque == was, "after an error all is as before");
        fds_are_closed(-1);
        return;
    }
    REACHED("listens");
    fds_are_closed(covretin_listener_fd(&listener));
    removed = 0;
    covretin_unlisten(&listener);
    HOLDS(removed <= 1 && covretin_listener_fd(&listener) == -1, "its path is removed once");
    covretin_unlisten(&listener);
    fds_are_closed(-1);
}

void check_listen_path(void)
{
    struct listening listening = {.address.sun_path = "p/s"};
    static const char *const paths[] = {"s", "/s", "p/", "p/s"};
    size_t which = any_size() % 4;
    may_wait = true;
    int fd = lock_folder(which == 0 ? paths[0] : which == 1 ? paths[1] : which == 2 ? paths[2] : paths[3]);
    HOLDS(fd == -1 || fd_is_open(fd), "a folder or none");
    transport_close(fd);
    if (is_left_over(&listening.address))
        REACHED("left over");
    int socket = fd_new();
    (void)take_over_path(socket, &listening.address);
    fds_are_closed(socket);
    REACHED("done");
}

void check_listen_fd(void)
{
    covretin_listener listener = {.opaque = NULL};
    int fd = fd_new();
    if (covretin_listen_fd(&listener, fd) != COVRETIN_OK) {
        REACHED("no socket");
        HOLDS(listener.opaque == NULL && fd_is_open(fd), "after an error it stays the caller's");
        return;
    }
    HOLDS(covretin_listener_fd(&listener) == fd && covretin_listen_fd(&listener, fd) == COVRETIN_SESSION_OPEN, "once");
    covretin_unlisten(&listener);
    HOLDS(removed == 0, "no path is removed of a socket that was given");
    fds_are_closed(-1);
    REACHED("listens");
}

static covretin_service service;

static void any_listening(struct listening *listening)
{
    *listening = (struct listening){.socket = fd_new()};
    the_room = &room.transport;
    the_size = sizeof(struct serving);
}

/* Frontends come, or none does. */
void check_accept(void)
{
    struct listening listening;
    any_listening(&listening);
    covretin_listener listener = {.opaque = any_bool() ? &listening : NULL};
    enum covretin_error error = covretin_accept(&listener, &service, any_int());
    HOLDS(listener.opaque != NULL || error == COVRETIN_NO_SESSION, "nobody listens");
    if (error) {
        REACHED("nobody is served");
        fds_are_closed(listening.socket);
        HOLDS(covretin_service_fd(&service) == -1 && covretin_service_ended(&service) && covretin_service_request(&service) == 0,
              "there is no service");
        return;
    }
    REACHED("accepted");
    HOLDS(covretin_accept(&listener, &service, 0) == COVRETIN_SESSION_OPEN, "one at a time");
    HOLDS(fd_is_open(covretin_service_fd(&service)), "its socket is open");
    covretin_hang_up(&service);
    HOLDS(service.opaque == NULL && service.backend.opaque == NULL, "both are closed");
    fds_are_closed(listening.socket);
}

/* Any call and reply. */
void check_backend(void)
{
    struct listening listening;
    uint32_t call;
    short events;
    any_listening(&listening);
    int fd = fd_new();
    enum covretin_error error = covretin_serve_fd(&service, fd);
    HOLDS(covretin_backend_set_other(&service, any_bool() ? any_other : NULL, &room) == (error ? COVRETIN_NO_SESSION : COVRETIN_OK),
          "who is called is told where there is a service");
    model_begin(&backend_model, true);
    int came = fd_new_if(!error);
    model_hold(&backend_model, error ? -1 : came);
    if (any_bool())
        error = any_bool() ? covretin_next_call(&service, &call, any_int()) : covretin_next_call_nowait(&service, &call, &events);
    else
        error = any_bool() ? covretin_send_reply(&service, any_int()) : covretin_send_reply_nowait(&service, &events);
    if (service.opaque == NULL) {
        HOLDS(error == COVRETIN_NO_SESSION && covretin_claim_call_fd(&service, came) == COVRETIN_NO_SESSION, "there is no session");
        fd_gone(fd);
    } else if (any_bool() && covretin_claim_call_fd(&service, came) == COVRETIN_OK) {
        REACHED("claimed");
        fd_gone(came);
        HOLDS(covretin_claim_call_fd(&service, came) != COVRETIN_OK, "once");
    }
    (void)covretin_service_ended(&service);
    if (service.opaque != NULL)
        transport_next(service.opaque);
    model_is_empty(&backend_model);
    covretin_hang_up(&service);
    fds_are_closed(listening.socket);
    REACHED("hung up");
}

/* Who connected and was not accepted is hung up on. */
void check_hang_up_waiting(void)
{
    int listener = fd_new();
    hang_up_on_waiting(listener);
    fds_are_closed(listener);
    REACHED("hung up");
}
