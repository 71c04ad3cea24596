/* System calls that are interrupted, move a byte at a time or fail, each in turn; and a session that lies. Linked with --wrap of
 * the calls below. */
#ifndef _GNU_SOURCE
#define _GNU_SOURCE
#endif

#include "peer.h"
#include "testing.h"

#include <errno.h>
#include <fcntl.h>
#include <poll.h>
#include <string.h>
#include <sys/socket.h>
#include <sys/un.h>
#include <unistd.h>

ssize_t __real_sendmsg(int fd, const struct msghdr *message, int flags);
ssize_t __real_recvmsg(int fd, struct msghdr *message, int flags);
int __real_poll(struct pollfd *polled, nfds_t count, int milliseconds);
int __real_connect(int fd, const struct sockaddr *address, socklen_t size);
enum covretin_error __real_covretin_answer_fd(covretin_session *session, int32_t *fd);
enum covretin_error __real_covretin_receive(covretin_session *session, const uint8_t *bytes, size_t bytes_len, const int32_t *fds,
                                            size_t fds_len);
ssize_t __wrap_sendmsg(int fd, const struct msghdr *message, int flags);
ssize_t __wrap_recvmsg(int fd, struct msghdr *message, int flags);
int __wrap_poll(struct pollfd *polled, nfds_t count, int milliseconds);
int __wrap_connect(int fd, const struct sockaddr *address, socklen_t size);
enum covretin_error __wrap_covretin_answer_fd(covretin_session *session, int32_t *fd);
enum covretin_error __wrap_covretin_receive(covretin_session *session, const uint8_t *bytes, size_t bytes_len, const int32_t *fds,
                                            size_t fds_len);

enum { LIMIT = 20000 }; /* milliseconds */

static covretin_connection device;
static covretin_session *const session = &device.session;

/* What becomes of the connection's own system calls, not of the peer's. */
static bool interrupts;       /* every other one is interrupted */
static bool shortens;         /* one byte at a time */
static int until_failure = -1; /* so many succeed before one fails; negative: all do */
static int cause;              /* with this errno */
static int lie = -1;           /* what the session names in place of a reply's descriptor */
static size_t told;            /* how many descriptors the session was told of */

static bool is_of_device(int fd)
{
    return runs_tests() && fd == covretin_connection_fd(&device);
}

/* Whether this call is not to reach the system. One of a connection that is not open yet may be. */
static bool stopped(int fd)
{
    static bool even;
    if (!runs_tests() || (!is_of_device(fd) && device.opaque != NULL))
        return false;
    if (until_failure >= 0 && until_failure-- == 0) {
        errno = cause;
        return true;
    }
    even = !even;
    if (!interrupts || even)
        return false;
    errno = EINTR;
    return true;
}

ssize_t __wrap_sendmsg(int fd, const struct msghdr *message, int flags)
{
    struct msghdr some = *message;
    struct iovec piece = message->msg_iov[0];
    if (stopped(fd))
        return -1;
    if (shortens && is_of_device(fd)) {
        piece.iov_len = 1;
        some.msg_iov = &piece;
    }
    return __real_sendmsg(fd, &some, flags);
}

ssize_t __wrap_recvmsg(int fd, struct msghdr *message, int flags)
{
    if (stopped(fd))
        return -1;
    if (shortens && is_of_device(fd))
        message->msg_iov[0].iov_len = 1;
    return __real_recvmsg(fd, message, flags);
}

int __wrap_poll(struct pollfd *polled, nfds_t count, int milliseconds)
{
    return stopped(polled[0].fd) ? -1 : __real_poll(polled, count, milliseconds);
}

int __wrap_connect(int fd, const struct sockaddr *address, socklen_t size)
{
    return stopped(fd) ? -1 : __real_connect(fd, address, size);
}

enum covretin_error __wrap_covretin_answer_fd(covretin_session *asked, int32_t *fd)
{
    enum covretin_error error = __real_covretin_answer_fd(asked, fd);
    if (error == COVRETIN_OK && lie >= 0)
        *fd = lie;
    return error;
}

enum covretin_error __wrap_covretin_receive(covretin_session *asked, const uint8_t *bytes, size_t bytes_len, const int32_t *fds,
                                            size_t fds_len)
{
    told += fds_len;
    return __real_covretin_receive(asked, bytes, bytes_len, fds, fds_len);
}

/* -- Whole calls -- */

static const covretin_inflight asked = {.num_queues = 1, .queue_size = 64};
static const uint8_t inflight[24] = {0, 16, [16] = 1, [18] = 64};

/* A table of two regions goes out, and an inflight region comes in: each byte in its place, and each descriptor once. */
static void both_ways(int peer, int file)
{
    const covretin_region regions[2] = {{.guest_phys_addr = 1, .memory_size = 4096, .fd = file},
                                        {.guest_phys_addr = 2, .memory_size = 4096, .fd = file}};
    struct request request;
    covretin_inflight given;
    int32_t fd = -1;
    EXPECT(COVRETIN_OK, covretin_ask_set_mem_table(session, regions, 2));
    EXPECT(COVRETIN_OK, covretin_exchange(&device, LIMIT));
    EXPECT(true, hear(peer, &request));
    EXPECT(2, request.fd_count);
    EXPECT(8 + 64, request.size);
    EXPECT(1, request.body[8]);
    EXPECT(2, request.body[40]);
    told = 0;
    EXPECT(COVRETIN_OK, covretin_ask_get_inflight_fd(session, &asked));
    reply(peer, GET_INFLIGHT_FD, inflight, sizeof inflight, &file, 1);
    EXPECT(COVRETIN_OK, covretin_exchange(&device, LIMIT));
    EXPECT(1, told);
    EXPECT(COVRETIN_OK, covretin_answer_inflight(session, &given, &fd));
    EXPECT(0x1000, given.mmap_size);
    EXPECT(COVRETIN_OK, covretin_claim_fd(&device, &fd));
    EXPECT(true, holds(fd, "sent"));
    close(fd);
    EXPECT(true, hear(peer, &request));
    EXPECT(0, request.fd_count);
}

static void goes_on_where_it_was_stopped(void)
{
    for (int way = 0; way < 4; way++) {
        int peer = pair_up(&device, 2), file = file_of("sent");
        negotiate(&device, peer, COVRETIN_PROTOCOL_INFLIGHT_SHMFD);
        interrupts = way & 1;
        shortens = way & 2;
        both_ways(peer, file);
        interrupts = shortens = false;
        covretin_disconnect(&device);
        close(file);
        close(peer);
    }
}

/* A connection by path, while every other call is interrupted. */
static void connects_where_it_was_interrupted(void)
{
    struct sockaddr_un address = {AF_UNIX, "calls.socket"};
    int listener = socket(AF_UNIX, SOCK_STREAM | SOCK_CLOEXEC, 0);
    unlink(address.sun_path);
    if (bind(listener, (struct sockaddr *)&address, sizeof address) || listen(listener, 4))
        give_up(address.sun_path);
    for (int i = 0; i < 2; i++) {
        interrupts = true;
        EXPECT(COVRETIN_OK, covretin_connect(&device, address.sun_path, 2, i == 0 ? LIMIT : -1));
        interrupts = false;
        covretin_disconnect(&device);
    }
    until_failure = 0;
    cause = EACCES;
    EXPECT(COVRETIN_SOCKET_CONNECT, covretin_connect(&device, address.sun_path, 2, LIMIT));
    EXPECT(EACCES, errno);
    close(listener);
    unlink(address.sun_path);
}

/* Each system call of a call fails: the error, its errno, and the same again from then on. */
static void each_call_fails(void)
{
    const int causes[] = {EIO, EACCES, EBADF, ECONNRESET, EPIPE};
    for (size_t i = 0; i < sizeof causes / sizeof causes[0]; i++)
        for (int before = 0; before < 4; before++) {
            int peer = pair_up(&device, 2), file = file_of("sent");
            bool is_end = causes[i] == ECONNRESET || causes[i] == EPIPE;
            enum covretin_error want = is_end ? COVRETIN_DISCONNECTED : COVRETIN_SOCKET_ERROR;
            cause = causes[i];
            negotiate(&device, peer, COVRETIN_PROTOCOL_INFLIGHT_SHMFD);
            EXPECT(COVRETIN_OK, covretin_ask_get_inflight_fd(session, &asked));
            EXPECT(COVRETIN_TIMED_OUT, before == 0 ? COVRETIN_TIMED_OUT : covretin_exchange(&device, 0));
            say_header(peer, GET_INFLIGHT_FD, REPLY_FLAGS, sizeof inflight, &file, 1);
            until_failure = before == 0 ? 0 : before - 1;
            enum covretin_error error = covretin_exchange(&device, 50);
            if (before == 3) /* poll, whose end is no peer's */
                want = COVRETIN_SOCKET_ERROR;
            EXPECT(want, error);
            EXPECT(cause, errno);
            errno = 0;
            EXPECT(want, covretin_exchange(&device, LIMIT));
            EXPECT(cause, errno);
            until_failure = -1;
            covretin_disconnect(&device);
            close(file);
            close(peer);
        }
}

/* -- Sends that send nothing -- */

/* Nothing of a request is sent since the system has no room for it: the call is still under way, and goes out by the next exchange. */
static void sends_once_there_is_room(void)
{
    const int causes[] = {ENOMEM, ENOBUFS, ETOOMANYREFS};
    for (size_t i = 0; i < 2 * sizeof causes / sizeof causes[0]; i++) {
        int peer = pair_up(&device, 2), file = file_of("sent");
        const covretin_region regions[2] = {{.memory_size = 4096, .fd = file}, {.memory_size = 4096, .fd = file}};
        struct request request;
        negotiate(&device, peer, COVRETIN_PROTOCOL_INFLIGHT_SHMFD);
        EXPECT(COVRETIN_OK, covretin_ask_set_mem_table(session, regions, 2));
        cause = causes[i / 2];
        for (int time = 0; time < 2; time++) {
            until_failure = 0;
            EXPECT(COVRETIN_OUT_OF_MEMORY, covretin_exchange(&device, LIMIT));
            EXPECT(-1, recv(peer, request.body, 1, MSG_DONTWAIT));
            EXPECT(COVRETIN_NOT_TAKEN, covretin_ask_set_owner(session));
        }
        shortens = i % 2;
        EXPECT(COVRETIN_OK, covretin_exchange(&device, LIMIT));
        shortens = false;
        EXPECT(true, hear(peer, &request));
        EXPECT(true, request.code == 5 && request.size == 72 && request.fd_count == 2);
        both_ways(peer, file);
        covretin_disconnect(&device);
        close(file);
        close(peer);
    }
}

/* Asks by each call that is given a descriptor. */
enum { ASKS_WITH_A_DESCRIPTOR = 10 };

static enum covretin_error ask_with(int which, int fd)
{
    const covretin_region region = {.memory_size = 4096, .fd = fd};
    const covretin_inflight region_of_rings = {.mmap_size = 4096, .num_queues = 1, .queue_size = 64};
    switch (which) {
    case 0: return covretin_ask_set_mem_table(session, &region, 1);
    case 1: return covretin_ask_add_mem_region(session, &region);
    case 2: return covretin_ask_set_log_base(session, 0, &region);
    case 3: return covretin_ask_set_log_fd(session, fd);
    case 4: return covretin_ask_set_vring_call(session, 0, fd);
    case 5: return covretin_ask_set_vring_kick(session, 0, fd);
    case 6: return covretin_ask_set_vring_err(session, 0, fd);
    case 7: return covretin_ask_set_backend_request_fd(session, fd);
    case 8: return covretin_ask_set_inflight_fd(session, &region_of_rings, fd);
    default: return covretin_ask_set_device_state_fd(session, 0, 0, fd);
    }
}

/* A reply's descriptor, which nobody claimed yet. */
static void keep_one(int peer, int file)
{
    EXPECT(COVRETIN_OK, covretin_ask_get_inflight_fd(session, &asked));
    reply(peer, GET_INFLIGHT_FD, inflight, sizeof inflight, &file, 1);
    EXPECT(COVRETIN_OK, covretin_exchange(&device, LIMIT));
}

/* A descriptor that is not open, or of a kind that the system does not pass on, given to each call: nothing is sent, and nothing is asked
 * any more. */
static void expect_taken_back(int peer, int gone, int file)
{
    uint8_t byte;
    for (int which = 0; which < 2 * ASKS_WITH_A_DESCRIPTOR; which++) {
        bool is_open = which >= ASKS_WITH_A_DESCRIPTOR;
        EXPECT(COVRETIN_OK, ask_with(which % ASKS_WITH_A_DESCRIPTOR, is_open ? file : gone));
        cause = EINVAL;
        until_failure = is_open ? 0 : -1;
        EXPECT(COVRETIN_INVALID_PARAM, covretin_exchange(&device, LIMIT));
        EXPECT(is_open ? EINVAL : EBADF, errno);
        EXPECT(-1, recv(peer, &byte, 1, MSG_DONTWAIT));
        EXPECT(COVRETIN_NOTHING_ASKED, covretin_exchange(&device, LIMIT));
    }
}

/* With and without acknowledgements, by both profiles: the connection goes on. */
static void takes_back_what_cannot_be_sent(void)
{
    for (int way = 0; way < 4; way++) {
        int peer = pair_up(&device, 2), file = file_of("sent"), gone = fcntl(file, F_DUPFD, 500);
        struct request request;
        int32_t fd = -1;
        close(gone);
        negotiate(&device, peer, COVRETIN_ASKED_PROTOCOL_FEATURES);
        EXPECT(COVRETIN_OK, covretin_set_profile(session, way & 1 ? COVRETIN_PROFILE_VHOST : COVRETIN_PROFILE_STANDARD));
        EXPECT(COVRETIN_OK, covretin_set_hdr_flags(session, way & 2 ? COVRETIN_NEED_REPLY : 0));
        keep_one(peer, file);
        EXPECT(true, hear(peer, &request));
        size_t before = open_fds();
        expect_taken_back(peer, gone, file);
        EXPECT(before, open_fds());
        EXPECT(COVRETIN_OK, covretin_claim_fd(&device, &fd));
        EXPECT(true, holds(fd, "sent"));
        close(fd);
        EXPECT(COVRETIN_OK, covretin_set_hdr_flags(session, 0));
        both_ways(peer, file);
        covretin_disconnect(&device);
        close(file);
        close(peer);
    }
}

/* A number that did not come with the reply is never handed over, nor closed, whatever the session says. */
static void believes_no_session(void)
{
    const uint8_t name[16] = {1};
    int32_t fd = -1;
    int peer = pair_up(&device, 2), file = file_of("sent"), own = file_of("the program's own");
    negotiate(&device, peer, COVRETIN_PROTOCOL_SHARED_OBJECT);
    EXPECT(COVRETIN_OK, covretin_ask_get_shared_object(session, name, sizeof name));
    reply(peer, GET_SHARED_OBJECT, NULL, 0, &file, 1);
    lie = own;
    EXPECT(COVRETIN_INVALID_MESSAGE, covretin_exchange(&device, LIMIT));
    lie = -1;
    EXPECT(COVRETIN_OTHER_ANSWER, covretin_claim_fd(&device, &fd));
    EXPECT(-1, fd);
    covretin_disconnect(&device);
    EXPECT(true, holds(own, "the program's own"));
    close(own);
    close(file);
    close(peer);
}

int main(void)
{
    RUN(goes_on_where_it_was_stopped);
    RUN(connects_where_it_was_interrupted);
    RUN(each_call_fails);
    RUN(sends_once_there_is_room);
    RUN(takes_back_what_cannot_be_sent);
    RUN(believes_no_session);
    return status();
}
