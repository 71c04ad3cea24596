/* A device over covretin_device.h, as calls of the system and allocations fail. Linked with --wrap=epoll_ctl, --wrap=poll, --wrap=malloc,
 * --wrap=calloc and --wrap=realloc. */
#ifndef _GNU_SOURCE
#define _GNU_SOURCE
#endif

#include "covretin_device.h"
#include "covretin_socket.h"
#include "testing.h"

#include <errno.h>
#include <fcntl.h>
#include <poll.h>
#include <stdlib.h>
#include <sys/epoll.h>
#include <sys/socket.h>
#include <unistd.h>

/* How many calls are still to succeed before one fails; negative: all do. */
static int until_refusal = -1, until_failure = -1, until_no_wait = -1;

int __real_epoll_ctl(int polled, int operation, int fd, struct epoll_event *ready);
int __wrap_epoll_ctl(int polled, int operation, int fd, struct epoll_event *ready);
int __real_poll(struct pollfd *polled, nfds_t count, int milliseconds);
int __wrap_poll(struct pollfd *polled, nfds_t count, int milliseconds);
void *__real_malloc(size_t size);
void *__real_calloc(size_t count, size_t size);
void *__real_realloc(void *at, size_t size);
void *__wrap_malloc(size_t size);
void *__wrap_calloc(size_t count, size_t size);
void *__wrap_realloc(void *at, size_t size);

/* (as where the system's limit of what is polled is reached) */
int __wrap_epoll_ctl(int polled, int operation, int fd, struct epoll_event *ready)
{
    if (operation != EPOLL_CTL_ADD || until_refusal < 0 || until_refusal-- != 0)
        return __real_epoll_ctl(polled, operation, fd, ready);
    errno = ENOSPC;
    return -1;
}

/* (as where a filter of system calls has none of it) */
int __wrap_poll(struct pollfd *polled, nfds_t count, int milliseconds)
{
    if (until_no_wait < 0 || until_no_wait-- != 0)
        return __real_poll(polled, count, milliseconds);
    errno = EPERM;
    return -1;
}

static bool fails(void)
{
    return until_failure >= 0 && until_failure-- == 0;
}

void *__wrap_malloc(size_t size)
{
    return fails() ? NULL : __real_malloc(size);
}

void *__wrap_calloc(size_t count, size_t size)
{
    return fails() ? NULL : __real_calloc(count, size);
}

void *__wrap_realloc(void *at, size_t size)
{
    return fails() ? NULL : __real_realloc(at, size);
}

static void on_request(void *own, covretin_request *request)
{
    (void)own;
    covretin_request_done(request, 0);
}

static bool on_read_config(void *own, uint32_t offset, uint8_t *bytes, uint32_t size)
{
    (void)own;
    for (uint32_t i = 0; i < size; i++)
        bytes[i] = (uint8_t)(offset + i);
    return true;
}

static const covretin_device_calls calls = {.queues = 1, .request = on_request, .read_config = on_read_config};

static void make_pair(int ends[2])
{
    if (socketpair(AF_UNIX, SOCK_STREAM | SOCK_CLOEXEC, 0, ends))
        give_up("socketpair");
}

/* Whatever fails as a device is opened over a socket, that is the caller's after it. */
static void a_socket_stays_the_callers(void)
{
    enum covretin_error error = COVRETIN_NOT_YET;
    for (int at = 0; error != COVRETIN_OK; at++) {
        covretin_device device = {0};
        int ends[2];
        make_pair(ends);
        until_refusal = at;
        error = covretin_device_open_fd(&device, &calls, NULL, ends[0]);
        EXPECT(error == COVRETIN_OK, until_refusal >= 0);
        until_refusal = -1;
        EXPECT(true, error == COVRETIN_OK || error == COVRETIN_SOCKET_ERROR);
        EXPECT(true, fcntl(ends[0], F_GETFD) >= 0);
        EXPECT(error == COVRETIN_OK, device.opaque != NULL);
        covretin_device_close(&device);
        EXPECT(error != COVRETIN_OK, close(ends[0]) == 0);
        close(ends[1]);
    }
}

/* Serves all that has come; how it ended. */
static enum covretin_error serve(covretin_device *device)
{
    enum covretin_error error = COVRETIN_NOT_YET;
    for (int turn = 0; turn < 4 && error == COVRETIN_NOT_YET; turn++)
        error = covretin_device_serve(device);
    return error;
}

typedef enum covretin_error ask(covretin_session *session);

static enum covretin_error get_features(covretin_session *session)
{
    return covretin_ask_get_features(session);
}

static enum covretin_error get_config(covretin_session *session)
{
    return covretin_ask_get_config(session, 0, 8, 0);
}

static enum covretin_error get_inflight_fd(covretin_session *session)
{
    const covretin_inflight asked = {.num_queues = 1, .queue_size = 16};
    return covretin_ask_get_inflight_fd(session, &asked);
}

/* Asks of a device what it has all that it needs for. */
static void exchange(covretin_device *device, covretin_connection *vmm, enum covretin_error asked)
{
    short events;
    EXPECT(COVRETIN_OK, asked);
    EXPECT(COVRETIN_NOT_YET, covretin_exchange_nowait(vmm, &events));
    EXPECT(COVRETIN_NOT_YET, serve(device));
    EXPECT(COVRETIN_OK, covretin_exchange_nowait(vmm, &events));
}

/* A device with such a frontend, whose features are accepted. */
static void begin(covretin_device *device, covretin_connection *vmm)
{
    const uint64_t accepted = COVRETIN_PROTOCOL_CONFIG | COVRETIN_PROTOCOL_INFLIGHT_SHMFD;
    int ends[2];
    short events;
    make_pair(ends);
    EXPECT(COVRETIN_OK, covretin_device_open_fd(device, &calls, NULL, ends[0]));
    EXPECT(COVRETIN_OK, covretin_connect_fd(vmm, ends[1], 8));
    exchange(device, vmm, covretin_ask_get_features(&vmm->session));
    exchange(device, vmm, covretin_ask_get_protocol_features(&vmm->session));
    EXPECT(COVRETIN_OK, covretin_ask_set_protocol_features(&vmm->session, accepted));
    EXPECT(COVRETIN_OK, covretin_exchange_nowait(vmm, &events));
    EXPECT(COVRETIN_NOT_YET, serve(device));
}

/* Makes a call, as the device's allocation of this number fails. Whether one did: either the frontend is answered, or the device says why it hangs
 * up on it. */
static bool fails_at(ask *asks, int at)
{
    covretin_device device = {0};
    covretin_connection vmm = {0};
    enum covretin_error ended, answered;
    bool has_failed;
    short events;
    begin(&device, &vmm);
    EXPECT(COVRETIN_OK, asks(&vmm.session));
    EXPECT(COVRETIN_NOT_YET, covretin_exchange_nowait(&vmm, &events));
    until_failure = at;
    ended = serve(&device);
    has_failed = until_failure < 0;
    until_failure = -1;
    answered = covretin_exchange_nowait(&vmm, &events);
    if (!has_failed)
        EXPECT(COVRETIN_OK, answered);
    EXPECT(answered == COVRETIN_DISCONNECTED ? COVRETIN_OUT_OF_MEMORY : COVRETIN_NOT_YET, ended);
    EXPECT(true, answered != COVRETIN_NOT_YET);
    covretin_device_close(&device);
    covretin_disconnect(&vmm);
    return has_failed;
}

static void no_frontend_waits_for_memory(void)
{
    static ask *const all[] = {get_features, get_config, get_inflight_fd};
    size_t failed = 0;
    for (size_t i = 0; i < sizeof all / sizeof *all; i++)
        for (int at = 0; fails_at(all[i], at); at++)
            failed++;
    EXPECT(true, failed > 0);
}

/* Whoever may not wait ends, and does not ask without end: before a frontend came, and while one is served. */
static void ends_where_it_may_not_wait(void)
{
    int ends[2];
    make_pair(ends);
    until_no_wait = 0;
    EXPECT(COVRETIN_SOCKET_ERROR, covretin_device_run(&calls, NULL, "fails.socket"));
    EXPECT(EPERM, errno);
    EXPECT(-1, access("fails.socket", F_OK));
    until_no_wait = 0;
    EXPECT(COVRETIN_SOCKET_ERROR, covretin_device_run_fd(&calls, NULL, ends[0]));
    EXPECT(EPERM, errno);
    until_no_wait = -1;
    EXPECT(0, read(ends[1], &(char){0}, 1)); /* it was hung up on */
    close(ends[1]);
}

int main(void)
{
    RUN(a_socket_stays_the_callers);
    RUN(no_frontend_waits_for_memory);
    RUN(ends_where_it_may_not_wait);
    return status();
}
