/* Connections: how they come and go, whole calls, who owns which descriptor, time, signals, and the event loop's call. */
#ifndef _GNU_SOURCE
#define _GNU_SOURCE
#endif

#include "peer.h"
#include "testing.h"

#include <errno.h>
#include <fcntl.h>
#include <poll.h>
#include <signal.h>
#include <string.h>
#include <sys/socket.h>
#include <sys/time.h>
#include <sys/un.h>
#include <sys/wait.h>
#include <time.h>
#include <unistd.h>

enum { LIMIT = 20000 }; /* milliseconds, where a test is not about time */

static covretin_connection device;
static covretin_session *const session = &device.session;

/* -- Coming and going -- */

/* A socket that listens at a path, for so many who wait. */
static int listen_at(const char *path, int backlog)
{
    struct sockaddr_un address = {.sun_family = AF_UNIX};
    int fd = socket(AF_UNIX, SOCK_STREAM | SOCK_CLOEXEC, 0);
    strcpy(address.sun_path, path);
    unlink(path);
    if (fd < 0 || bind(fd, (struct sockaddr *)&address, sizeof address) || listen(fd, backlog))
        give_up(path);
    return fd;
}

static void connects_to_a_path(void)
{
    int listener = listen_at("here.socket", 1);
    EXPECT(COVRETIN_OK, covretin_connect(&device, "here.socket", 2, LIMIT));
    EXPECT(COVRETIN_SESSION_OPEN, covretin_connect(&device, "here.socket", 2, LIMIT));
    int peer = accept(listener, NULL, NULL);
    EXPECT(FD_CLOEXEC, fcntl(covretin_connection_fd(&device), F_GETFD));
    negotiate(&device, peer, COVRETIN_PROTOCOL_MQ);
    covretin_disconnect(&device);
    EXPECT(-1, covretin_connection_fd(&device));
    EXPECT(true, session->opaque == NULL && device.opaque == NULL);
    covretin_disconnect(&device);
    close(peer);
    close(listener);
    unlink("here.socket");
}

static void refuses_paths(void)
{
    char path[200];
    memset(path, 'x', sizeof path - 1);
    path[sizeof path - 1] = 0;
    EXPECT(COVRETIN_INVALID_PATH, covretin_connect(&device, path, 2, LIMIT));
    EXPECT(COVRETIN_INVALID_PATH, covretin_connect(&device, "", 2, LIMIT));
    path[sizeof((struct sockaddr_un *)NULL)->sun_path] = 0; /* one too many */
    EXPECT(COVRETIN_INVALID_PATH, covretin_connect(&device, path, 2, LIMIT));
    path[sizeof((struct sockaddr_un *)NULL)->sun_path - 1] = 0; /* the longest */
    EXPECT(COVRETIN_SOCKET_CONNECT, covretin_connect(&device, path, 2, LIMIT));
    EXPECT(ENOENT, errno);
    EXPECT(COVRETIN_NO_SESSION, covretin_ask_get_features(session));
}

static void nobody_listens(void)
{
    close(listen_at("left.socket", 1));
    EXPECT(COVRETIN_SOCKET_CONNECT, covretin_connect(&device, "left.socket", 2, LIMIT));
    EXPECT(ECONNREFUSED, errno);
    unlink("left.socket");
}

static int64_t now(void)
{
    struct timespec time;
    clock_gettime(CLOCK_MONOTONIC, &time);
    return (int64_t)time.tv_sec * 1000 + time.tv_nsec / 1000000;
}

static void nobody_accepts(void)
{
    covretin_connection waiting[8] = {{{NULL}, NULL}};
    int listener = listen_at("busy.socket", 0);
    enum covretin_error error = COVRETIN_OK;
    size_t count = 0;
    int64_t began = now();
    while (count < 8 && error == COVRETIN_OK)
        error = covretin_connect(&waiting[count++], "busy.socket", 2, 50);
    EXPECT(COVRETIN_TIMED_OUT, error);
    EXPECT(true, now() - began >= 45 && now() - began < LIMIT);
    EXPECT(COVRETIN_TIMED_OUT, covretin_connect(&device, "busy.socket", 2, 0));
    for (size_t i = 0; i < count; i++)
        covretin_disconnect(&waiting[i]);
    close(listener);
    unlink("busy.socket");
}

static void takes_only_stream_sockets(void)
{
    int ends[2], file = file_of("no socket"), other = socket(AF_INET, SOCK_STREAM, 0);
    EXPECT(COVRETIN_INVALID_SOCKET_FD, covretin_connect_fd(&device, -1, 2));
    EXPECT(COVRETIN_INVALID_SOCKET_FD, covretin_connect_fd(&device, file, 2));
    EXPECT(COVRETIN_NOT_UNIX_SOCKET, covretin_connect_fd(&device, other, 2));
    if (socketpair(AF_UNIX, SOCK_DGRAM, 0, ends))
        give_up("socketpair");
    EXPECT(COVRETIN_NOT_STREAM_SOCKET, covretin_connect_fd(&device, ends[0], 2));
    EXPECT(true, device.opaque == NULL && session->opaque == NULL);
    close(file);
    close(other);
    close(ends[0]);
    close(ends[1]);
}

static void without_connection(void)
{
    short events = POLLIN;
    int32_t fd = 5;
    EXPECT(COVRETIN_NO_SESSION, covretin_exchange(&device, LIMIT));
    EXPECT(COVRETIN_NO_SESSION, covretin_exchange_nowait(&device, &events));
    EXPECT(0, events);
    EXPECT(COVRETIN_NO_SESSION, covretin_claim_fd(&device, &fd));
    EXPECT(5, fd);
    EXPECT(-1, covretin_connection_fd(&device));
}

/* -- Descriptors -- */

/* The descriptor of a reply lives until the next reply, unless it is claimed. */
static void claims(void)
{
    const covretin_inflight asked = {.num_queues = 1, .queue_size = 64};
    const uint8_t body[24] = {0, 16, [16] = 1, [18] = 64};
    covretin_inflight given;
    int32_t fd = -1, lent = -1;
    int peer = pair_up(&device, 2), file = file_of("in flight");
    negotiate(&device, peer, COVRETIN_PROTOCOL_INFLIGHT_SHMFD);
    EXPECT(COVRETIN_OTHER_ANSWER, covretin_claim_fd(&device, &fd));
    size_t before = open_fds();
    for (int i = 0; i < 3; i++) {
        EXPECT(COVRETIN_OK, covretin_ask_get_inflight_fd(session, &asked));
        reply(peer, GET_INFLIGHT_FD, body, sizeof body, &file, 1);
        EXPECT(COVRETIN_OK, covretin_exchange(&device, LIMIT));
        EXPECT(COVRETIN_OK, covretin_answer_inflight(session, &given, &lent));
        EXPECT(0x1000, given.mmap_size);
        EXPECT(true, holds(lent, "in flight"));
        EXPECT(FD_CLOEXEC, fcntl(lent, F_GETFD));
        EXPECT(before + 1, open_fds());
    }
    EXPECT(COVRETIN_OK, covretin_claim_fd(&device, &fd));
    EXPECT(lent, fd);
    EXPECT(COVRETIN_OTHER_ANSWER, covretin_claim_fd(&device, &fd));
    EXPECT(COVRETIN_NOTHING_ASKED, covretin_exchange(&device, LIMIT));
    EXPECT(COVRETIN_OK, covretin_ask_get_features(session));
    reply_number(peer, GET_FEATURES, 7);
    EXPECT(COVRETIN_OK, covretin_exchange(&device, LIMIT));
    EXPECT(true, holds(fd, "in flight"));
    close(fd);
    covretin_disconnect(&device);
    close(file);
    close(peer);
}

/* What nobody claimed is closed with the connection, also amid a call. */
static void disconnects_amid_a_call(void)
{
    const uint8_t name[16] = {1};
    short events;
    int peer = pair_up(&device, 2), file = file_of("shared");
    negotiate(&device, peer, COVRETIN_PROTOCOL_SHARED_OBJECT);
    for (int i = 0; i < 2; i++) {
        EXPECT(COVRETIN_OK, covretin_ask_get_shared_object(session, name, sizeof name));
        if (i == 0)
            reply(peer, GET_SHARED_OBJECT, NULL, 0, &file, 1);
        else
            say(peer, "\51\0\0\0\5", 5, &file, 1);
        EXPECT(i == 0 ? COVRETIN_OK : COVRETIN_NOT_YET, covretin_exchange_nowait(&device, &events));
    }
    covretin_disconnect(&device);
    close(file);
    close(peer);
}

/* What an ask is given is sent, once, and stays the caller's. */
static void lends_descriptors(void)
{
    struct request request;
    int peer = pair_up(&device, 2), file = file_of("call");
    EXPECT(COVRETIN_OK, covretin_ask_set_vring_call(session, 1, file));
    EXPECT(COVRETIN_OK, covretin_exchange(&device, LIMIT));
    EXPECT(true, holds(file, "call"));
    EXPECT(true, hear(peer, &request));
    EXPECT(SET_VRING_CALL, request.code);
    EXPECT(1, request.fd_count);
    EXPECT(1, request.body[0]);
    close(file);
    covretin_disconnect(&device);
    close(peer);
}

/* -- The event loop's call -- */

/* A reply of one byte at a time: each is taken in, and the next waited for. */
static void byte_by_byte(void)
{
    const uint8_t text[20] = {1, 0, 0, 0, 5, 0, 0, 0, 8, 0, 0, 0, 3, 0, 0, 0x40};
    uint64_t number = 0;
    short events = 0;
    int peer = pair_up(&device, 2);
    EXPECT(COVRETIN_OK, covretin_ask_get_features(session));
    for (size_t i = 0; i < sizeof text; i++) {
        EXPECT(COVRETIN_NOT_YET, covretin_exchange_nowait(&device, &events));
        EXPECT(POLLIN, events);
        EXPECT(COVRETIN_NOT_TAKEN, covretin_ask_set_owner(session));
        say(peer, text + i, 1, NULL, 0);
    }
    EXPECT(COVRETIN_OK, covretin_exchange_nowait(&device, &events));
    EXPECT(0, events);
    EXPECT(COVRETIN_OK, covretin_answer_number(session, &number));
    EXPECT(0x40000003, number);
    EXPECT(COVRETIN_NOTHING_ASKED, covretin_exchange_nowait(&device, &events));
    covretin_disconnect(&device);
    close(peer);
}

/* Asks for as much as the socket takes without a reader, then reads it: all bytes came in order, and each descriptor once. */
static void sends_in_parts(void)
{
    static uint8_t bytes[COVRETIN_MAX_CONFIG];
    struct request request;
    short events = 0;
    int small = 1, sent = 0, peer = pair_up(&device, 2), file = file_of("call");
    enum covretin_error error = COVRETIN_OK;
    negotiate(&device, peer, COVRETIN_PROTOCOL_CONFIG);
    setsockopt(covretin_connection_fd(&device), SOL_SOCKET, SO_SNDBUF, &small, sizeof small);
    for (size_t i = 0; i < sizeof bytes; i++)
        bytes[i] = (uint8_t)(i * 7);
    for (; error == COVRETIN_OK; sent++) {
        EXPECT(COVRETIN_OK, sent % 2 ? covretin_ask_set_vring_call(session, 0, file)
                                     : covretin_ask_set_config(session, 0, 0, bytes, sizeof bytes));
        error = covretin_exchange_nowait(&device, &events);
    }
    EXPECT(COVRETIN_NOT_YET, error);
    EXPECT(POLLOUT, events);
    EXPECT(COVRETIN_NOT_YET, covretin_exchange_nowait(&device, &events));
    for (int i = 0; i < sent; i++) {
        while (error == COVRETIN_NOT_YET && recv(peer, request.body, 4096, MSG_PEEK | MSG_DONTWAIT) < 4096)
            error = covretin_exchange_nowait(&device, &events);
        EXPECT(true, hear(peer, &request));
        EXPECT(i % 2 ? SET_VRING_CALL : SET_CONFIG, request.code);
        EXPECT(i % 2, request.fd_count);
        EXPECT(0, i % 2 ? 0 : memcmp(request.body + 12, bytes, sizeof bytes));
        if (error == COVRETIN_NOT_YET)
            error = covretin_exchange_nowait(&device, &events);
    }
    EXPECT(COVRETIN_OK, error);
    covretin_disconnect(&device);
    close(file);
    close(peer);
}

/* -- Time and signals -- */

/* A limit is that of the whole call, and a call that took too long can be gone on with. */
static void limits_time(void)
{
    uint64_t number = 0;
    int peer = pair_up(&device, 2);
    EXPECT(COVRETIN_OK, covretin_ask_get_features(session));
    EXPECT(COVRETIN_TIMED_OUT, covretin_exchange(&device, 0));
    int64_t began = now();
    EXPECT(COVRETIN_TIMED_OUT, covretin_exchange(&device, 60));
    EXPECT(true, now() - began >= 55 && now() - began < LIMIT);
    reply_number(peer, GET_FEATURES, 9);
    EXPECT(COVRETIN_OK, covretin_exchange(&device, 60));
    EXPECT(COVRETIN_OK, covretin_answer_number(session, &number));
    EXPECT(9, number);
    covretin_disconnect(&device);
    close(peer);
}

/* A child that sends a reply byte by byte, one in so many milliseconds. */
static pid_t trickle(int peer, long milliseconds)
{
    const uint8_t text[20] = {1, 0, 0, 0, 5, 0, 0, 0, 8, 0, 0, 0, 3, 0, 0, 0x40};
    const struct timespec pause = {0, milliseconds * 1000000};
    pid_t child = fork();
    if (child < 0)
        give_up("fork");
    if (child != 0)
        return child;
    for (size_t i = 0; i < sizeof text; i++) {
        nanosleep(&pause, NULL);
        if (send(peer, text + i, 1, MSG_NOSIGNAL) != 1)
            _exit(1);
    }
    _exit(0);
}

static void limits_time_of_a_trickle(void)
{
    int peer = pair_up(&device, 2);
    EXPECT(COVRETIN_OK, covretin_ask_get_features(session));
    pid_t child = trickle(peer, 50);
    int64_t began = now();
    EXPECT(COVRETIN_TIMED_OUT, covretin_exchange(&device, 200));
    EXPECT(true, now() - began < LIMIT);
    EXPECT(COVRETIN_OK, covretin_exchange(&device, -1));
    EXPECT(child, waitpid(child, NULL, 0));
    covretin_disconnect(&device);
    close(peer);
}

static volatile sig_atomic_t ticks;

static void tick(int number)
{
    (void)number;
    ticks++;
}

/* Signals that interrupt each system call, without SA_RESTART. */
static void goes_on_after_signals(void)
{
    struct sigaction on = {.sa_handler = tick}, was;
    struct itimerval often = {{0, 1000}, {0, 1000}}, never = {{0, 0}, {0, 0}};
    uint64_t number = 0;
    int peer = pair_up(&device, 2);
    pid_t child = trickle(peer, 10);
    ticks = 0;
    sigaction(SIGALRM, &on, &was);
    setitimer(ITIMER_REAL, &often, NULL);
    EXPECT(COVRETIN_OK, covretin_ask_get_features(session));
    EXPECT(COVRETIN_OK, covretin_exchange(&device, LIMIT));
    EXPECT(COVRETIN_OK, covretin_ask_get_features(session));
    int64_t began = now();
    EXPECT(COVRETIN_TIMED_OUT, covretin_exchange(&device, 100));
    EXPECT(true, now() - began >= 95 && now() - began < LIMIT);
    setitimer(ITIMER_REAL, &never, NULL);
    sigaction(SIGALRM, &was, NULL);
    EXPECT(true, ticks > 20);
    EXPECT(COVRETIN_OTHER_ANSWER, covretin_answer_fd(session, &peer));
    EXPECT(COVRETIN_OK, covretin_answer_number(session, &number));
    EXPECT(0x40000003, number);
    while (waitpid(child, NULL, 0) < 0 && errno == EINTR)
        ;
    covretin_disconnect(&device);
    close(peer);
}

/* Without a limit of time a call waits in the socket: amid signals, where the socket itself does not wait, and until the peer is gone. The
 * call that never waits does not wait after it either. */
static void waits_without_a_limit(void)
{
    struct sigaction on = {.sa_handler = tick}, was;
    struct itimerval often = {{0, 1000}, {0, 1000}}, never = {{0, 0}, {0, 0}};
    for (int does_not_wait = 0; does_not_wait < 2; does_not_wait++) {
        uint64_t number = 0;
        short events = 0;
        int peer = pair_up(&device, 2), fd = covretin_connection_fd(&device);
        if (does_not_wait && fcntl(fd, F_SETFL, fcntl(fd, F_GETFL) | O_NONBLOCK))
            give_up("O_NONBLOCK");
        pid_t child = trickle(peer, 5);
        ticks = 0;
        sigaction(SIGALRM, &on, &was);
        setitimer(ITIMER_REAL, &often, NULL);
        EXPECT(COVRETIN_OK, covretin_ask_get_features(session));
        EXPECT(COVRETIN_OK, covretin_exchange(&device, -1));
        setitimer(ITIMER_REAL, &never, NULL);
        sigaction(SIGALRM, &was, NULL);
        EXPECT(true, ticks > 20);
        EXPECT(COVRETIN_OK, covretin_answer_number(session, &number));
        EXPECT(0x40000003, number);
        EXPECT(child, waitpid(child, NULL, 0));
        EXPECT(COVRETIN_OK, covretin_ask_get_features(session));
        EXPECT(COVRETIN_NOT_YET, covretin_exchange_nowait(&device, &events));
        EXPECT(POLLIN, events);
        close(peer);
        EXPECT(COVRETIN_DISCONNECTED, covretin_exchange(&device, -1));
        covretin_disconnect(&device);
    }
}

/* A limit of connecting holds where signals come more often than the system's clock ticks. */
static void limits_connecting_amid_signals(void)
{
    struct sigaction on = {.sa_handler = tick}, was;
    struct itimerval often = {{0, 300}, {0, 300}}, never = {{0, 0}, {0, 0}};
    covretin_connection waiting[8] = {{{NULL}, NULL}};
    int listener = listen_at("ticking.socket", 0);
    enum covretin_error error = COVRETIN_OK;
    size_t count = 0;
    while (count < 8 && error == COVRETIN_OK)
        error = covretin_connect(&waiting[count++], "ticking.socket", 2, 20);
    EXPECT(COVRETIN_TIMED_OUT, error);
    sigaction(SIGALRM, &on, &was);
    setitimer(ITIMER_REAL, &often, NULL);
    int64_t began = now();
    EXPECT(COVRETIN_TIMED_OUT, covretin_connect(&device, "ticking.socket", 2, 50));
    EXPECT(true, now() - began >= 45 && now() - began < LIMIT);
    setitimer(ITIMER_REAL, &never, NULL);
    sigaction(SIGALRM, &was, NULL);
    for (size_t i = 0; i < count; i++)
        covretin_disconnect(&waiting[i]);
    close(listener);
    unlink("ticking.socket");
}

int main(void)
{
    RUN(connects_to_a_path);
    RUN(refuses_paths);
    RUN(nobody_listens);
    RUN(nobody_accepts);
    RUN(takes_only_stream_sockets);
    RUN(without_connection);
    RUN(claims);
    RUN(disconnects_amid_a_call);
    RUN(lends_descriptors);
    RUN(byte_by_byte);
    RUN(sends_in_parts);
    RUN(limits_time);
    RUN(limits_time_of_a_trickle);
    RUN(goes_on_after_signals);
    RUN(waits_without_a_limit);
    RUN(limits_connecting_amid_signals);
    return status();
}
