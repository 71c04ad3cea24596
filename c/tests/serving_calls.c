/* System calls of a service that are interrupted, move a byte at a time or fail, each in turn; a session that lies; and each
 * allocation of a service's life failing once. Linked with --wrap of the calls below. */
#ifndef _GNU_SOURCE
#define _GNU_SOURCE
#endif

#include "by_hand.h"
#include "testing.h"

#include <errno.h>
#include <poll.h>
#include <stdlib.h>
#include <string.h>
#include <sys/socket.h>
#include <sys/un.h>
#include <unistd.h>

ssize_t __real_sendmsg(int fd, const struct msghdr *message, int flags);
ssize_t __real_recvmsg(int fd, struct msghdr *message, int flags);
int __real_poll(struct pollfd *polled, nfds_t count, int milliseconds);
int __real_accept4(int fd, struct sockaddr *address, socklen_t *size, int flags);
void *__real_malloc(size_t size);
void *__real_calloc(size_t count, size_t size);
void *__real_realloc(void *at, size_t size);
enum covretin_error __real_covretin_backend_receive(covretin_backend *backend, const uint8_t *bytes, size_t bytes_len,
                                                    const int32_t *fds, size_t fds_len);
ssize_t __wrap_sendmsg(int fd, const struct msghdr *message, int flags);
ssize_t __wrap_recvmsg(int fd, struct msghdr *message, int flags);
int __wrap_poll(struct pollfd *polled, nfds_t count, int milliseconds);
int __wrap_accept4(int fd, struct sockaddr *address, socklen_t *size, int flags);
void *__wrap_malloc(size_t size);
void *__wrap_calloc(size_t count, size_t size);
void *__wrap_realloc(void *at, size_t size);
enum covretin_error __wrap_covretin_backend_receive(covretin_backend *backend, const uint8_t *bytes, size_t bytes_len,
                                                    const int32_t *fds, size_t fds_len);

static covretin_backend *const backend = &service.backend;
static covretin_listener listener;

/* What becomes of the service's own system calls, not of the frontend's. */
static bool interrupts;        /* every other one is interrupted */
static bool shortens;          /* one byte at a time */
static int until_failure = -1; /* so many succeed before one fails; negative: all do */
static int cause;              /* with this errno */
static int until_no_memory = -1;
static size_t told; /* how many descriptors the session was told of */

static bool is_of_service(int fd)
{
    return fd >= 0 && runs_tests() && (fd == covretin_service_fd(&service) || fd == covretin_listener_fd(&listener));
}

/* Whether this call is not to reach the system. */
static bool stopped(int fd)
{
    static bool even;
    if (!is_of_service(fd))
        return false;
    if (until_failure >= 0 && until_failure-- == 0) {
        errno = cause;
        return true;
    }
    even = !even;
    if (!interrupts || even)
        return false;
    errno = EINTR;
    return true;
}

ssize_t __wrap_sendmsg(int fd, const struct msghdr *message, int flags)
{
    struct msghdr some = *message;
    struct iovec piece = message->msg_iov[0];
    if (stopped(fd))
        return -1;
    if (shortens && is_of_service(fd)) {
        piece.iov_len = 1;
        some.msg_iov = &piece;
    }
    return __real_sendmsg(fd, &some, flags);
}

ssize_t __wrap_recvmsg(int fd, struct msghdr *message, int flags)
{
    if (stopped(fd))
        return -1;
    if (shortens && is_of_service(fd))
        message->msg_iov[0].iov_len = 1;
    return __real_recvmsg(fd, message, flags);
}

int __wrap_poll(struct pollfd *polled, nfds_t count, int milliseconds)
{
    return stopped(polled[0].fd) ? -1 : __real_poll(polled, count, milliseconds);
}

int __wrap_accept4(int fd, struct sockaddr *address, socklen_t *size, int flags)
{
    return stopped(fd) ? -1 : __real_accept4(fd, address, size, flags);
}

static bool lacks_memory(void)
{
    return until_no_memory >= 0 && until_no_memory-- == 0;
}

void *__wrap_malloc(size_t size)
{
    return lacks_memory() ? NULL : __real_malloc(size);
}

void *__wrap_calloc(size_t count, size_t size)
{
    return lacks_memory() ? NULL : __real_calloc(count, size);
}

void *__wrap_realloc(void *at, size_t size)
{
    return lacks_memory() ? NULL : __real_realloc(at, size);
}

enum covretin_error __wrap_covretin_backend_receive(covretin_backend *served, const uint8_t *bytes, size_t bytes_len,
                                                    const int32_t *fds, size_t fds_len)
{
    told += fds_len;
    return __real_covretin_backend_receive(served, bytes, bytes_len, fds, fds_len);
}

/* -- Whole requests -- */

static const uint8_t table[72] = {2, [8 + 9] = 16, [40 + 1] = 1, [40 + 9] = 16};
static const uint8_t config[72] = {[4] = 60};
static const uint8_t asked[24] = {[16] = 1, [18] = 64};
static const covretin_inflight given = {.mmap_size = 4096, .num_queues = 1, .queue_size = 64};

/* A table of two regions comes in, and an inflight region goes out: each byte in its place, and each descriptor once. */
static void both_ways(int peer, int file)
{
    const int files[2] = {file, file};
    covretin_region regions[2];
    struct request reply;
    size_t count = 0;
    bool listening;
    told = 0;
    request(peer, SET_MEM_TABLE, REQUEST_FLAGS, table, sizeof table, files, 2);
    expect_call(COVRETIN_CALL_SET_MEM_TABLE);
    EXPECT(2, told);
    EXPECT(COVRETIN_OK, covretin_call_regions(backend, regions, 2, &count, &listening));
    EXPECT(true, count == 2 && regions[1].guest_phys_addr == 0x100 && regions[1].memory_size == 0x1000);
    EXPECT(true, holds(regions[0].fd, "sent") && holds(regions[1].fd, "sent"));
    EXPECT(COVRETIN_OK, covretin_reply_done(backend));
    request(peer, GET_INFLIGHT_FD, REQUEST_FLAGS, asked, sizeof asked, NULL, 0);
    expect_call(COVRETIN_CALL_GET_INFLIGHT_FD);
    EXPECT(COVRETIN_OK, covretin_reply_inflight(backend, &given, file));
    EXPECT(COVRETIN_OK, covretin_send_reply(&service, LIMIT));
    EXPECT(true, hear(peer, &reply));
    EXPECT(true, reply.fd_count == 1 && reply.size == 24 && reply.body[1] == 16);
}

static void goes_on_where_it_was_stopped(void)
{
    for (int way = 0; way < 4; way++) {
        int peer = served_pair(), file = file_of("sent");
        accept_features(peer, COVRETIN_PROTOCOL_INFLIGHT_SHMFD);
        interrupts = way & 1;
        shortens = way & 2;
        both_ways(peer, file);
        interrupts = shortens = false;
        covretin_hang_up(&service);
        close(file);
        close(peer);
    }
}

/* A frontend that connects while every other call is interrupted; one that went before it was accepted; and a listener that
 * fails. */
static void accepts_where_it_was_interrupted(void)
{
    struct sockaddr_un address = {AF_UNIX, "calls.socket"};
    int peer = socket(AF_UNIX, SOCK_STREAM | SOCK_CLOEXEC, 0);
    EXPECT(COVRETIN_OK, covretin_listen(&listener, address.sun_path));
    interrupts = true;
    EXPECT(COVRETIN_TIMED_OUT, covretin_accept(&listener, &service, 20));
    if (connect(peer, (struct sockaddr *)&address, sizeof address))
        give_up("connect");
    EXPECT(COVRETIN_OK, covretin_accept(&listener, &service, LIMIT));
    interrupts = false;
    covretin_hang_up(&service);
    until_failure = 0;
    cause = ECONNABORTED;
    EXPECT(COVRETIN_TIMED_OUT, covretin_accept(&listener, &service, 20));
    for (int before = 0; before < 2; before++) {
        until_failure = before;
        cause = EMFILE;
        EXPECT(COVRETIN_SOCKET_ERROR, covretin_accept(&listener, &service, 20));
        EXPECT(EMFILE, errno);
    }
    until_failure = -1;
    EXPECT(true, service.opaque == NULL && backend->opaque == NULL);
    covretin_unlisten(&listener);
    close(peer);
}

/* How a service ends one of whose calls fails: receiving a header, a body, waiting, and sending. */
static enum covretin_error ended_at(int peer, int place, int file)
{
    say_header(peer, SET_MEM_TABLE, 9, sizeof table, (const int[]){file, file}, 2);
    if (place == 2)
        until_failure = 2;
    else
        say(peer, table, sizeof table, NULL, 0);
    if (place < 2)
        until_failure = place;
    enum covretin_error error = covretin_next_call(&service, &call, 50);
    if (place < 3)
        return error;
    EXPECT(COVRETIN_OK, error);
    EXPECT(COVRETIN_OK, covretin_reply_done(backend));
    until_failure = 0;
    return covretin_send_reply(&service, 50);
}

static void each_call_fails(void)
{
    const int causes[] = {EIO, EACCES, EBADF, ECONNRESET, EPIPE};
    for (size_t i = 0; i < sizeof causes / sizeof causes[0]; i++)
        for (int place = 0; place < 4; place++) {
            size_t before = open_fds();
            int peer = served_pair(), file = file_of("sent");
            bool is_end = causes[i] == ECONNRESET || causes[i] == EPIPE;
            enum covretin_error want = !is_end ? COVRETIN_SOCKET_ERROR : place == 1 ? COVRETIN_INVALID_MESSAGE : COVRETIN_DISCONNECTED;
            if (place == 2) /* poll, whose end is no peer's */
                want = COVRETIN_SOCKET_ERROR;
            cause = causes[i];
            accept_features(peer, COVRETIN_PROTOCOL_REPLY_ACK);
            EXPECT(want, ended_at(peer, place, file));
            EXPECT(true, want != COVRETIN_SOCKET_ERROR || errno == cause);
            errno = 0;
            EXPECT(want, covretin_next_call(&service, &call, LIMIT));
            EXPECT(true, want != COVRETIN_SOCKET_ERROR || errno == cause);
            until_failure = -1;
            covretin_hang_up(&service);
            close(file);
            close(peer);
            EXPECT(before, open_fds());
        }
}

/* Nothing of a reply is sent since the system has no room for it: it goes out by the next call. */
static void sends_once_there_is_room(void)
{
    const int causes[] = {ENOMEM, ENOBUFS, ETOOMANYREFS};
    for (size_t i = 0; i < 2 * sizeof causes / sizeof causes[0]; i++) {
        int peer = served_pair(), file = file_of("sent");
        struct request reply;
        accept_features(peer, COVRETIN_PROTOCOL_INFLIGHT_SHMFD);
        request(peer, GET_INFLIGHT_FD, REQUEST_FLAGS, asked, sizeof asked, NULL, 0);
        expect_call(COVRETIN_CALL_GET_INFLIGHT_FD);
        EXPECT(COVRETIN_OK, covretin_reply_inflight(backend, &given, file));
        cause = causes[i / 2];
        until_failure = 0;
        EXPECT(COVRETIN_OUT_OF_MEMORY, covretin_send_reply(&service, LIMIT));
        until_failure = 0;
        EXPECT(COVRETIN_OUT_OF_MEMORY, covretin_next_call(&service, &call, LIMIT));
        EXPECT(false, covretin_service_ended(&service));
        EXPECT(-1, recv(peer, reply.body, 1, MSG_DONTWAIT));
        shortens = i % 2;
        EXPECT(COVRETIN_OK, covretin_send_reply(&service, LIMIT));
        shortens = false;
        EXPECT(true, hear(peer, &reply));
        EXPECT(true, reply.code == GET_INFLIGHT_FD && reply.size == sizeof asked && reply.fd_count == 1);
        both_ways(peer, file);
        covretin_hang_up(&service);
        close(file);
        close(peer);
    }
}

/* A reply with a descriptor that is not open never goes out: its frontend is hung up on, and does not wait for it. */
static void hangs_up_where_no_reply_can_be_sent(void)
{
    int peer = served_pair(), file = file_of("sent"), gone = dup(file);
    uint8_t byte;
    close(gone);
    accept_features(peer, COVRETIN_PROTOCOL_INFLIGHT_SHMFD);
    request(peer, GET_INFLIGHT_FD, REQUEST_FLAGS, asked, sizeof asked, NULL, 0);
    expect_call(COVRETIN_CALL_GET_INFLIGHT_FD);
    EXPECT(COVRETIN_OK, covretin_reply_inflight(backend, &given, gone));
    EXPECT(COVRETIN_SOCKET_ERROR, covretin_next_call(&service, &call, LIMIT));
    EXPECT(EBADF, errno);
    EXPECT(true, covretin_service_ended(&service));
    covretin_hang_up(&service);
    EXPECT(0, recv(peer, &byte, 1, 0));
    close(file);
    close(peer);
}

/* -- Memory -- */

/* Descriptors that came amid a body for which there is no memory wait with it, and are closed with the service. */
static void closes_what_waits(void)
{
    for (int again = 0; again < 2; again++) {
        size_t before = open_fds();
        int peer = served_pair(), file = file_of("sent");
        accept_features(peer, 0);
        say_header(peer, SET_MEM_TABLE, REQUEST_FLAGS, sizeof table, &file, 1);
        EXPECT(COVRETIN_TIMED_OUT, covretin_next_call(&service, &call, 0));
        say(peer, table, sizeof table, &file, 1);
        until_no_memory = 0;
        EXPECT(COVRETIN_OUT_OF_MEMORY, covretin_next_call(&service, &call, 0));
        until_no_memory = -1;
        EXPECT(before + 5, open_fds());
        if (again) {
            EXPECT(COVRETIN_INVALID_MESSAGE, covretin_next_call(&service, &call, 0));
            EXPECT(before + 3, open_fds());
        }
        covretin_hang_up(&service);
        close(file);
        close(peer);
        EXPECT(before, open_fds());
    }
}

/* A call that is made once more where an allocation failed; SOCKET_RETRY where the request was refused for that, so that the next
 * one came. */
static enum covretin_error next_again(uint32_t want)
{
    enum covretin_error error = covretin_next_call(&service, &call, 0);
    bool is_again = error == COVRETIN_OUT_OF_MEMORY;
    if (is_again)
        error = covretin_next_call(&service, &call, 0);
    if (error != COVRETIN_OK || call == want)
        return error;
    EXPECT(true, is_again);
    return COVRETIN_SOCKET_RETRY;
}

/* The same of a reply. */
static enum covretin_error reply_again(enum covretin_error (*reply)(int file), int file)
{
    enum covretin_error error = reply(file);
    return error == COVRETIN_OUT_OF_MEMORY ? reply(file) : error;
}

static enum covretin_error reply_features(int file)
{
    (void)file;
    return covretin_reply_number(backend, COVRETIN_FEATURE_PROTOCOL_FEATURES);
}

static enum covretin_error reply_done(int file)
{
    (void)file;
    return covretin_reply_done(backend);
}

static enum covretin_error reply_config(int file)
{
    (void)file;
    return covretin_reply_config(backend, table, 60);
}

static enum covretin_error reply_inflight(int file)
{
    return covretin_reply_inflight(backend, &given, file);
}

/* A service whose frontend has asked before it is served. How it ended; TIMED_OUT: all was served. */
static enum covretin_error life(int peer, int file)
{
    static const struct {
        uint32_t code;
        enum covretin_error (*reply)(int file);
        uint8_t size, fd_count;
        const uint8_t *body;
    } requests[] = {{GET_FEATURES, reply_features, 0, 0, NULL},
                    {SET_PROTOCOL_FEATURES, reply_done, 8, 0, (const uint8_t *)"\0\x12\0\0\0\0\0\0"},
                    {SET_MEM_TABLE, reply_done, 72, 2, table},
                    {GET_CONFIG, reply_config, 72, 0, config},
                    {GET_INFLIGHT_FD, reply_inflight, 24, 0, asked}};
    const int files[2] = {file, file};
    const size_t count = sizeof requests / sizeof *requests;
    for (size_t i = 0; i < count; i++)
        request(peer, requests[i].code, REQUEST_FLAGS, requests[i].body, requests[i].size, files, requests[i].fd_count);
    for (size_t i = 0; i < count; i++) {
        enum covretin_error error = next_again(requests[i].code);
        if (error == COVRETIN_OK)
            error = reply_again(requests[i].reply, file);
        if (error != COVRETIN_OK)
            return error;
    }
    return next_again(0);
}

static void each_allocation_fails_once(void)
{
    int failed = 0, whole = 0, file = file_of("sent");
    for (bool done = false; !done; failed++) {
        size_t before = open_fds();
        int ends[2];
        if (socketpair(AF_UNIX, SOCK_STREAM | SOCK_CLOEXEC, 0, ends))
            give_up("socketpair");
        until_no_memory = failed;
        enum covretin_error error = covretin_serve_fd(&service, ends[0]);
        if (error == COVRETIN_OUT_OF_MEMORY)
            error = covretin_serve_fd(&service, ends[0]);
        EXPECT(COVRETIN_OK, error);
        error = life(ends[1], file);
        whole += error == COVRETIN_OK || error == COVRETIN_TIMED_OUT;
        EXPECT(true, error == COVRETIN_TIMED_OUT || error == COVRETIN_SOCKET_BROKEN || error == COVRETIN_SOCKET_RETRY);
        done = until_no_memory >= 0; /* none failed */
        until_no_memory = -1;
        covretin_hang_up(&service);
        close(ends[1]);
        EXPECT(before, open_fds());
    }
    EXPECT(true, failed > 10 && whole > 5);
    close(file);
}

int main(void)
{
    RUN(goes_on_where_it_was_stopped);
    RUN(accepts_where_it_was_interrupted);
    RUN(each_call_fails);
    RUN(sends_once_there_is_room);
    RUN(hangs_up_where_no_reply_can_be_sent);
    RUN(closes_what_waits);
    RUN(each_allocation_fails_once);
    return status();
}
