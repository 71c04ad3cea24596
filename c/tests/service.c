/* Services and listeners: how they come and go, whole requests, who owns which descriptor, where a frontend ends, time, and the
 * event loop's calls. The frontend is played by hand. */
#ifndef _GNU_SOURCE
#define _GNU_SOURCE
#endif

#include "by_hand.h"
#include "testing.h"

#include <errno.h>
#include <fcntl.h>
#include <poll.h>
#include <stdlib.h>
#include <string.h>
#include <sys/file.h>
#include <sys/socket.h>
#include <sys/stat.h>
#include <sys/un.h>
#include <time.h>
#include <unistd.h>

static covretin_listener listener;
static short events;

/* -- Listeners -- */

static int connected_to(const char *path)
{
    struct sockaddr_un address = {.sun_family = AF_UNIX};
    int fd = socket(AF_UNIX, SOCK_STREAM | SOCK_CLOEXEC, 0);
    strcpy(address.sun_path, path);
    if (fd < 0 || connect(fd, (struct sockaddr *)&address, sizeof address))
        give_up(path);
    return fd;
}

static void accepts_at_a_path(void)
{
    covretin_service other = {{NULL}, NULL};
    EXPECT(COVRETIN_OK, covretin_listen(&listener, "here.socket"));
    EXPECT(COVRETIN_SESSION_OPEN, covretin_listen(&listener, "here.socket"));
    EXPECT(FD_CLOEXEC, fcntl(covretin_listener_fd(&listener), F_GETFD));
    int first = connected_to("here.socket"), second = connected_to("here.socket");
    EXPECT(COVRETIN_OK, covretin_accept(&listener, &service, LIMIT));
    EXPECT(COVRETIN_SESSION_OPEN, covretin_accept(&listener, &service, LIMIT));
    EXPECT(COVRETIN_OK, covretin_accept(&listener, &other, 0));
    EXPECT(FD_CLOEXEC, fcntl(covretin_service_fd(&service), F_GETFD));
    covretin_unlisten(&listener);
    EXPECT(-1, access("here.socket", F_OK));
    accept_features(first, COVRETIN_PROTOCOL_MQ);
    request(second, GET_FEATURES, REQUEST_FLAGS, NULL, 0, NULL, 0);
    EXPECT(COVRETIN_OK, covretin_next_call(&other, &call, LIMIT));
    covretin_hang_up(&service);
    covretin_hang_up(&other);
    covretin_hang_up(&other);
    EXPECT(true, service.backend.opaque == NULL && service.opaque == NULL && listener.opaque == NULL);
    covretin_unlisten(&listener);
    close(first);
    close(second);
}

/* What is left over is taken over; what anybody listens at, or is no socket, is not. */
static void takes_only_what_is_left_over(void)
{
    covretin_listener other = {NULL};
    struct sockaddr_un address = {AF_UNIX, "left.socket"};
    int left = socket(AF_UNIX, SOCK_STREAM | SOCK_CLOEXEC, 0);
    if (left < 0 || bind(left, (struct sockaddr *)&address, sizeof address))
        give_up("bind");
    close(left);
    EXPECT(COVRETIN_OK, covretin_listen(&listener, "left.socket"));
    EXPECT(COVRETIN_SOCKET_ERROR, covretin_listen(&other, "left.socket"));
    EXPECT(EADDRINUSE, errno);
    close(connected_to("left.socket"));
    covretin_unlisten(&listener);
    int file = open("left.socket", O_CREAT | O_WRONLY | O_CLOEXEC, 0600);
    EXPECT(COVRETIN_SOCKET_ERROR, covretin_listen(&listener, "left.socket"));
    EXPECT(EEXIST, errno);
    EXPECT(0, access("left.socket", F_OK));
    close(file);
    unlink("left.socket");
    EXPECT(COVRETIN_SOCKET_ERROR, covretin_listen(&listener, "nowhere/left.socket"));
    EXPECT(ENOENT, errno);
    EXPECT(-1, covretin_listener_fd(&listener));
}

/* A socket that somebody has is not left over, also before he listens. */
static void takes_none_that_somebody_has(void)
{
    struct sockaddr_un address = {AF_UNIX, "bound.socket"};
    for (int i = 0; i < 2; i++) {
        int fd = socket(AF_UNIX, (i == 0 ? SOCK_STREAM : SOCK_DGRAM) | SOCK_CLOEXEC, 0);
        if (fd < 0 || bind(fd, (struct sockaddr *)&address, sizeof address))
            give_up("bind");
        EXPECT(COVRETIN_SOCKET_ERROR, covretin_listen(&listener, "bound.socket"));
        EXPECT(EADDRINUSE, errno);
        if (i == 0) {
            EXPECT(0, listen(fd, 1));
            close(connected_to("bound.socket"));
        }
        close(fd);
        unlink("bound.socket");
    }
}

/* Whoever holds a lock on the folder keeps nobody from listening there, nor from ending it. */
static void listens_in_a_locked_folder(void)
{
    struct sockaddr_un address = {AF_UNIX, "locked.socket"};
    int folder = open(".", O_RDONLY | O_DIRECTORY | O_CLOEXEC);
    int left = socket(AF_UNIX, SOCK_STREAM | SOCK_CLOEXEC, 0);
    if (folder < 0 || flock(folder, LOCK_EX))
        give_up("flock");
    has_waited();
    for (int i = 0; i < 2; i++) {
        EXPECT(COVRETIN_OK, covretin_listen(&listener, "locked.socket"));
        EXPECT(false, has_waited());
        covretin_unlisten(&listener);
        EXPECT(false, has_waited());
        EXPECT(-1, access("locked.socket", F_OK));
        if (i == 0 && bind(left, (struct sockaddr *)&address, sizeof address))
            give_up("bind");
        if (i == 0)
            close(left);
    }
    close(folder);
}

/* A path that has become another's stays. */
static void leaves_what_is_of_others(void)
{
    covretin_listener other = {NULL};
    EXPECT(COVRETIN_OK, covretin_listen(&listener, "./mine.socket"));
    unlink("mine.socket");
    EXPECT(COVRETIN_OK, covretin_listen(&other, "mine.socket"));
    covretin_unlisten(&listener);
    close(connected_to("mine.socket"));
    covretin_unlisten(&other);
    EXPECT(-1, access("mine.socket", F_OK));
}

/* A path that leads through a folder's name, and one that is as long as it may be. */
static void listens_at_paths(void)
{
    char path[200];
    const size_t most = sizeof((struct sockaddr_un *)NULL)->sun_path;
    EXPECT(COVRETIN_INVALID_PATH, covretin_listen(&listener, ""));
    memset(path, 'x', sizeof path);
    path[most] = 0;
    EXPECT(COVRETIN_INVALID_PATH, covretin_listen(&listener, path));
    path[most - 1] = 0;
    EXPECT(COVRETIN_OK, covretin_listen(&listener, path));
    covretin_unlisten(&listener);
    mkdir("folder", 0700);
    EXPECT(COVRETIN_OK, covretin_listen(&listener, "folder/it.socket"));
    covretin_unlisten(&listener);
    EXPECT(0, rmdir("folder"));
}

static void listens_at_a_socket(void)
{
    struct sockaddr_un address = {AF_UNIX, "given.socket"};
    int given = socket(AF_UNIX, SOCK_STREAM | SOCK_CLOEXEC, 0);
    if (given < 0 || bind(given, (struct sockaddr *)&address, sizeof address) || listen(given, 4))
        give_up("given.socket");
    EXPECT(COVRETIN_INVALID_SOCKET_FD, covretin_listen_fd(&listener, -1));
    EXPECT(COVRETIN_OK, covretin_listen_fd(&listener, given));
    EXPECT(COVRETIN_SESSION_OPEN, covretin_listen_fd(&listener, given));
    int peer = connected_to("given.socket");
    EXPECT(COVRETIN_OK, covretin_accept(&listener, &service, LIMIT));
    covretin_hang_up(&service);
    covretin_unlisten(&listener);
    EXPECT(0, unlink("given.socket"));
    close(peer);
}

static int64_t now(void)
{
    struct timespec time;
    clock_gettime(CLOCK_MONOTONIC, &time);
    return (int64_t)time.tv_sec * 1000 + time.tv_nsec / 1000000;
}

static void nobody_connects(void)
{
    EXPECT(COVRETIN_NO_SESSION, covretin_accept(&listener, &service, 0));
    EXPECT(COVRETIN_OK, covretin_listen(&listener, "alone.socket"));
    EXPECT(COVRETIN_TIMED_OUT, covretin_accept(&listener, &service, 0));
    int64_t began = now();
    EXPECT(COVRETIN_TIMED_OUT, covretin_accept(&listener, &service, 60));
    EXPECT(true, now() - began >= 55 && now() - began < LIMIT);
    EXPECT(true, service.opaque == NULL && service.backend.opaque == NULL);
    covretin_unlisten(&listener);
}

static void takes_only_stream_sockets(void)
{
    int ends[2], file = file_of("no socket"), other = socket(AF_INET, SOCK_STREAM | SOCK_CLOEXEC, 0);
    EXPECT(COVRETIN_INVALID_SOCKET_FD, covretin_serve_fd(&service, -1));
    EXPECT(COVRETIN_INVALID_SOCKET_FD, covretin_serve_fd(&service, file));
    EXPECT(COVRETIN_INVALID_SOCKET_FD, covretin_listen_fd(&listener, file));
    EXPECT(COVRETIN_NOT_UNIX_SOCKET, covretin_serve_fd(&service, other));
    EXPECT(COVRETIN_NOT_UNIX_SOCKET, covretin_listen_fd(&listener, other));
    if (socketpair(AF_UNIX, SOCK_DGRAM, 0, ends))
        give_up("socketpair");
    EXPECT(COVRETIN_NOT_STREAM_SOCKET, covretin_serve_fd(&service, ends[0]));
    EXPECT(true, service.opaque == NULL && service.backend.opaque == NULL && listener.opaque == NULL);
    close(file);
    close(other);
    close(ends[0]);
    close(ends[1]);
}

static void without_service(void)
{
    call = 7;
    events = POLLIN;
    EXPECT(COVRETIN_NO_SESSION, covretin_next_call(&service, &call, LIMIT));
    EXPECT(COVRETIN_NO_SESSION, covretin_next_call_nowait(&service, &call, &events));
    EXPECT(0, events);
    EXPECT(COVRETIN_NO_SESSION, covretin_send_reply(&service, LIMIT));
    EXPECT(COVRETIN_NO_SESSION, covretin_send_reply_nowait(&service, &events));
    EXPECT(COVRETIN_NO_SESSION, covretin_claim_call_fd(&service, 0));
    EXPECT(7, call);
    EXPECT(-1, covretin_service_fd(&service));
    EXPECT(true, covretin_service_ended(&service));
}

/* -- Descriptors -- */

/* A region's descriptors: one is claimed, the other is closed once the reply is sent. */
static void claims(void)
{
    uint8_t body[72] = {2, [8 + 9] = 16, [40 + 1] = 1, [40 + 9] = 16};
    covretin_region regions[4];
    size_t count = 0;
    bool listening = true;
    int peer = served_pair(), files[2] = {file_of("low"), file_of("high")};
    accept_features(peer, 0);
    size_t before = open_fds();
    EXPECT(COVRETIN_OTHER_CALL, covretin_claim_call_fd(&service, files[0]));
    request(peer, SET_MEM_TABLE, REQUEST_FLAGS, body, sizeof body, files, 2);
    expect_call(COVRETIN_CALL_SET_MEM_TABLE);
    EXPECT(COVRETIN_OK, covretin_call_regions(&service.backend, regions, 4, &count, &listening));
    EXPECT(2, count);
    EXPECT(false, listening);
    EXPECT(before + 2, open_fds());
    EXPECT(true, holds(regions[0].fd, "low") && holds(regions[1].fd, "high"));
    EXPECT(FD_CLOEXEC, fcntl(regions[1].fd, F_GETFD));
    EXPECT(COVRETIN_OTHER_CALL, covretin_claim_call_fd(&service, -1));
    EXPECT(COVRETIN_OTHER_CALL, covretin_claim_call_fd(&service, files[1]));
    EXPECT(COVRETIN_OK, covretin_claim_call_fd(&service, regions[1].fd));
    EXPECT(COVRETIN_OTHER_CALL, covretin_claim_call_fd(&service, regions[1].fd));
    EXPECT(COVRETIN_NOT_REPLIED, covretin_next_call(&service, &call, 0));
    EXPECT(COVRETIN_NOT_REPLIED, covretin_send_reply(&service, 0));
    EXPECT(COVRETIN_OK, covretin_reply_done(&service.backend));
    EXPECT(COVRETIN_OTHER_CALL, covretin_claim_call_fd(&service, regions[0].fd));
    EXPECT(COVRETIN_OK, covretin_send_reply(&service, LIMIT));
    EXPECT(before + 1, open_fds());
    EXPECT(true, holds(regions[1].fd, "high"));
    close(regions[1].fd);
    covretin_hang_up(&service);
    close(files[0]);
    close(files[1]);
    close(peer);
}

/* A call that is never replied to: what was claimed stays its caller's, and the other is closed. */
static void hangs_up_amid_a_call(void)
{
    uint8_t body[72] = {2, [8 + 9] = 16, [40 + 1] = 1, [40 + 9] = 16};
    covretin_region regions[2];
    size_t count = 0;
    bool listening = true;
    int peer = served_pair(), files[2] = {file_of("low"), file_of("high")};
    size_t before = open_fds();
    request(peer, SET_MEM_TABLE, REQUEST_FLAGS, body, sizeof body, files, 2);
    expect_call(COVRETIN_CALL_SET_MEM_TABLE);
    EXPECT(COVRETIN_OK, covretin_call_regions(&service.backend, regions, 2, &count, &listening));
    EXPECT(COVRETIN_OK, covretin_claim_call_fd(&service, regions[0].fd));
    EXPECT(before + 2, open_fds());
    covretin_hang_up(&service);
    EXPECT(before, open_fds()); /* (the service's socket is closed, too) */
    EXPECT(true, holds(regions[0].fd, "low"));
    close(regions[0].fd);
    close(files[0]);
    close(files[1]);
    close(peer);
}

/* The socket of the display's channel, which no frontend of this library gives: it is claimed, and the channel is the device's. */
static void takes_the_display(void)
{
    struct request reply;
    int32_t fd = -1;
    int ends[2], peer = served_pair();
    if (socketpair(AF_UNIX, SOCK_STREAM | SOCK_CLOEXEC, 0, ends))
        give_up("socketpair");
    accept_features(peer, COVRETIN_PROTOCOL_REPLY_ACK);
    request(peer, GPU_SET_SOCKET, NEED_REPLY, NULL, 0, &ends[1], 1);
    close(ends[1]);
    expect_call(COVRETIN_CALL_GPU_SET_SOCKET);
    EXPECT(COVRETIN_OK, covretin_call_fd(&service.backend, &fd));
    EXPECT(COVRETIN_OK, covretin_claim_call_fd(&service, fd));
    EXPECT(COVRETIN_OK, covretin_reply_done(&service.backend));
    EXPECT(COVRETIN_OK, covretin_send_reply(&service, LIMIT));
    EXPECT(true, hear(peer, &reply));
    EXPECT(true, reply.code == GPU_SET_SOCKET && reply.body[0] == 0);
    covretin_hang_up(&service);
    EXPECT(1, send(fd, "x", 1, MSG_NOSIGNAL));
    close(fd);
    close(ends[0]);
    close(peer);
}

/* The descriptors of a call that is never replied to, and of a request amid which the service is hung up. */
static void hangs_up_amid_a_request(void)
{
    const uint8_t body[8] = {0};
    for (int i = 0; i < 3; i++) {
        int peer = served_pair(), file = file_of("kick");
        accept_features(peer, 0);
        say_header(peer, SET_VRING_KICK, REQUEST_FLAGS, 8, &file, 1);
        if (i == 0)
            say(peer, body, 8, NULL, 0);
        EXPECT(i == 0 ? COVRETIN_OK : COVRETIN_NOT_YET, covretin_next_call_nowait(&service, &call, &events));
        if (i == 2)
            EXPECT(COVRETIN_TIMED_OUT, covretin_next_call(&service, &call, 0));
        covretin_hang_up(&service);
        close(file);
        close(peer);
    }
}

/* Refused requests bring no descriptor anywhere, however many they have. */
static void closes_what_is_refused(void)
{
    const uint8_t body[8] = {0};
    struct request reply;
    int peer = served_pair(), files[32];
    accept_features(peer, COVRETIN_PROTOCOL_REPLY_ACK);
    files[0] = file_of("kick");
    for (size_t i = 1; i < 32; i++)
        files[i] = files[0];
    size_t before = open_fds();
    for (size_t count = 2; count <= 32; count += 15) {
        request(peer, SET_VRING_KICK, NEED_REPLY, body, sizeof body, files, count);
        EXPECT(true, covretin_next_call(&service, &call, LIMIT) != COVRETIN_OK);
        EXPECT(before, open_fds());
        if (covretin_service_ended(&service))
            break;
        EXPECT(true, hear(peer, &reply));
        EXPECT(1, reply.body[0]);
    }
    covretin_hang_up(&service);
    close(files[0]);
    close(peer);
}

/* More descriptors than a message may have are dropped by the system, and that ends the service. */
static void loses_descriptors(void)
{
    const uint8_t body[8] = {0};
    int files[33], peer = served_pair();
    accept_features(peer, 0);
    files[0] = file_of("kick");
    for (size_t i = 1; i < 33; i++)
        files[i] = files[0];
    request(peer, SET_VRING_KICK, REQUEST_FLAGS, body, sizeof body, files, 33);
    EXPECT(COVRETIN_FDS_LOST, covretin_next_call(&service, &call, LIMIT));
    EXPECT(COVRETIN_FDS_LOST, covretin_next_call(&service, &call, LIMIT));
    EXPECT(true, covretin_service_ended(&service));
    covretin_hang_up(&service);
    close(files[0]);
    close(peer);
}

/* Descriptors that come amid a body end the service, and are closed. */
static void refuses_late_descriptors(void)
{
    const uint8_t body[8] = {0};
    int peer = served_pair(), file = file_of("kick");
    accept_features(peer, 0);
    size_t before = open_fds();
    say_header(peer, SET_VRING_KICK, REQUEST_FLAGS, 8, &file, 1);
    say(peer, body, 4, NULL, 0);
    EXPECT(COVRETIN_NOT_YET, covretin_next_call_nowait(&service, &call, &events));
    EXPECT(before + 1, open_fds());
    say(peer, body, 4, &file, 1);
    EXPECT(COVRETIN_INVALID_MESSAGE, covretin_next_call(&service, &call, LIMIT));
    EXPECT(before, open_fds());
    EXPECT(true, covretin_service_ended(&service));
    covretin_hang_up(&service);
    close(file);
    close(peer);
}

/* What a reply is given is sent, once, and stays the caller's. */
static void lends_descriptors(void)
{
    const uint8_t body[24] = {[16] = 1, [18] = 64};
    const covretin_inflight given = {.mmap_size = 4096, .num_queues = 1, .queue_size = 64};
    struct request reply;
    int peer = served_pair(), file = file_of("in flight");
    accept_features(peer, COVRETIN_PROTOCOL_INFLIGHT_SHMFD);
    request(peer, GET_INFLIGHT_FD, REQUEST_FLAGS, body, sizeof body, NULL, 0);
    expect_call(COVRETIN_CALL_GET_INFLIGHT_FD);
    EXPECT(COVRETIN_OK, covretin_reply_inflight(&service.backend, &given, file));
    EXPECT(COVRETIN_OK, covretin_send_reply(&service, LIMIT));
    EXPECT(true, holds(file, "in flight"));
    EXPECT(true, hear(peer, &reply));
    EXPECT(1, reply.fd_count);
    EXPECT(16, reply.body[1]);
    close(file);
    covretin_hang_up(&service);
    close(peer);
}

/* -- The end of the stream -- */

/* A frontend that ends at each place of a request that brings a descriptor. */
static void ends_at_each_place(void)
{
    const uint8_t text[20] = {SET_VRING_KICK, 0, 0, 0, REQUEST_FLAGS, 0, 0, 0, 8};
    for (size_t length = 0; length < sizeof text; length++) {
        int peer = served_pair(), file = file_of("kick");
        enum covretin_error want = length == 0 ? COVRETIN_DISCONNECTED : length < 12 ? COVRETIN_PARTIAL_MESSAGE : COVRETIN_INVALID_MESSAGE;
        accept_features(peer, 0);
        if (length != 0)
            say(peer, text, length, &file, 1);
        close(peer);
        EXPECT(want, covretin_next_call(&service, &call, LIMIT));
        EXPECT(want, covretin_next_call(&service, &call, LIMIT));
        EXPECT(want, covretin_send_reply(&service, LIMIT));
        EXPECT(true, covretin_service_ended(&service));
        covretin_hang_up(&service);
        close(file);
    }
}

/* One that ends before it reads its reply. */
static void ends_before_its_reply(void)
{
    int peer = served_pair();
    request(peer, GET_FEATURES, REQUEST_FLAGS, NULL, 0, NULL, 0);
    expect_call(COVRETIN_CALL_GET_FEATURES);
    close(peer);
    EXPECT(COVRETIN_OK, covretin_reply_number(&service.backend, 1));
    EXPECT(COVRETIN_DISCONNECTED, covretin_send_reply(&service, LIMIT));
    EXPECT(COVRETIN_DISCONNECTED, covretin_next_call(&service, &call, LIMIT));
    covretin_hang_up(&service);
}

/* -- The event loop's calls -- */

static void byte_by_byte(void)
{
    const uint8_t text[20] = {SET_VRING_KICK, 0, 0, 0, REQUEST_FLAGS, 0, 0, 0, 8, [12] = 1};
    uint32_t index = 0;
    int32_t fd = -1;
    int peer = served_pair(), file = file_of("kick");
    accept_features(peer, 0);
    for (size_t i = 0; i < sizeof text; i++) {
        EXPECT(COVRETIN_NOT_YET, covretin_next_call_nowait(&service, &call, &events));
        EXPECT(POLLIN, events);
        EXPECT(COVRETIN_OK, covretin_send_reply_nowait(&service, &events));
        say(peer, text + i, 1, &file, i == 0);
    }
    EXPECT(COVRETIN_OK, covretin_next_call_nowait(&service, &call, &events));
    EXPECT(0, events);
    EXPECT(COVRETIN_CALL_SET_VRING_KICK, call);
    EXPECT(COVRETIN_OK, covretin_call_ring_fd(&service.backend, &index, &fd));
    EXPECT(1, index);
    EXPECT(true, holds(fd, "kick"));
    EXPECT(COVRETIN_OK, covretin_reply_done(&service.backend));
    EXPECT(COVRETIN_NOT_YET, covretin_next_call_nowait(&service, &call, &events));
    covretin_hang_up(&service);
    close(file);
    close(peer);
}

/* Replies to as many requests as the socket takes without a reader, then reads them: all bytes came, in order. */
static void sends_in_parts(void)
{
    static uint8_t ask[12 + 4000] = {[4] = 0xa0, [5] = 0xf, [12] = 0}, bytes[4000];
    struct request reply;
    enum covretin_error error = COVRETIN_OK;
    int small = 1, sent = 0, peer = served_pair();
    accept_features(peer, COVRETIN_PROTOCOL_CONFIG);
    setsockopt(covretin_service_fd(&service), SOL_SOCKET, SO_SNDBUF, &small, sizeof small);
    for (; error == COVRETIN_OK && sent < 200; sent++) {
        request(peer, GET_CONFIG, REQUEST_FLAGS, ask, sizeof ask, NULL, 0);
        expect_call(COVRETIN_CALL_GET_CONFIG);
        memset(bytes, sent, sizeof bytes);
        EXPECT(COVRETIN_OK, covretin_reply_config(&service.backend, bytes, sizeof bytes));
        error = covretin_send_reply_nowait(&service, &events);
    }
    EXPECT(COVRETIN_NOT_YET, error);
    EXPECT(POLLOUT, events);
    EXPECT(COVRETIN_NOT_YET, covretin_next_call_nowait(&service, &call, &events));
    EXPECT(POLLOUT, events);
    EXPECT(COVRETIN_TIMED_OUT, covretin_next_call(&service, &call, 0));
    for (int i = 0; i < sent; i++) {
        while (error == COVRETIN_NOT_YET && recv(peer, reply.body, 4096, MSG_PEEK | MSG_DONTWAIT) < 4012)
            error = covretin_send_reply_nowait(&service, &events);
        EXPECT(true, hear(peer, &reply));
        EXPECT(4012, reply.size);
        EXPECT(true, reply.body[12] == i && reply.body[4011] == i);
    }
    EXPECT(COVRETIN_NOT_YET, covretin_next_call_nowait(&service, &call, &events));
    EXPECT(POLLIN, events);
    covretin_hang_up(&service);
    close(peer);
}

/* A refusal whose acknowledgement finds no room is told once that was sent, and once. */
static void tells_refusals_late(void)
{
    static const uint8_t junk[4096];
    const uint8_t status[8] = {0};
    uint8_t bytes[4096];
    size_t filled = 0;
    ssize_t count;
    struct request reply;
    int peer = served_pair();
    accept_features(peer, COVRETIN_PROTOCOL_REPLY_ACK);
    while ((count = send(covretin_service_fd(&service), junk, sizeof junk, MSG_DONTWAIT)) > 0)
        filled += (size_t)count;
    request(peer, SET_STATUS, NEED_REPLY, status, sizeof status, NULL, 0);
    for (int i = 0; i < 2; i++) {
        EXPECT(COVRETIN_NOT_YET, covretin_next_call_nowait(&service, &call, &events));
        EXPECT(POLLOUT, events);
    }
    for (; filled != 0; filled -= (size_t)count) {
        count = recv(peer, bytes, filled < sizeof bytes ? filled : sizeof bytes, 0);
        if (count <= 0)
            give_up("recv");
    }
    EXPECT(COVRETIN_INVALID_OPERATION, covretin_next_call_nowait(&service, &call, &events));
    EXPECT(true, hear(peer, &reply));
    EXPECT(true, reply.code == SET_STATUS && reply.body[0] == 1);
    EXPECT(COVRETIN_NOT_YET, covretin_next_call_nowait(&service, &call, &events));
    EXPECT(POLLIN, events);
    covretin_hang_up(&service);
    close(peer);
}

/* Which request was refused is told, also where its descriptors are wrong, its header is, and it came in part. */
static void tells_which_was_refused(void)
{
    const uint8_t body[8] = {0};
    struct request reply;
    EXPECT(0, covretin_service_request(&service));
    int peer = served_pair();
    EXPECT(0, covretin_service_request(&service));
    accept_features(peer, COVRETIN_PROTOCOL_REPLY_ACK);
    EXPECT(SET_PROTOCOL_FEATURES, covretin_service_request(&service));
    request(peer, SET_STATUS, NEED_REPLY, body, sizeof body, NULL, 0);
    EXPECT(COVRETIN_INVALID_OPERATION, covretin_next_call(&service, &call, LIMIT));
    EXPECT(SET_STATUS, covretin_service_request(&service));
    EXPECT(0, strcmp("SET_STATUS", covretin_request_text(covretin_service_request(&service))));
    EXPECT(true, hear(peer, &reply));
    request(peer, SET_CONFIG, REQUEST_FLAGS, NULL, 0, NULL, 0);
    EXPECT(COVRETIN_INACTIVE_OPERATION, covretin_next_call(&service, &call, LIMIT));
    EXPECT(SET_CONFIG, covretin_service_request(&service));
    say(peer, "\30\0\0", 3, NULL, 0);
    EXPECT(COVRETIN_NOT_YET, covretin_next_call_nowait(&service, &call, &events));
    EXPECT(0, covretin_service_request(&service));
    say(peer, "\0", 1, NULL, 0);
    EXPECT(COVRETIN_NOT_YET, covretin_next_call_nowait(&service, &call, &events));
    EXPECT(GET_CONFIG, covretin_service_request(&service));
    close(peer);
    EXPECT(COVRETIN_PARTIAL_MESSAGE, covretin_next_call(&service, &call, LIMIT));
    EXPECT(GET_CONFIG, covretin_service_request(&service));
    covretin_hang_up(&service);
    EXPECT(0, covretin_service_request(&service));
}

/* A request of another number than 1 to 44 is acknowledged as one that is not served; under the profile of the crate it ends the service. */
static void unknown_requests(void)
{
    static const uint32_t unknown[] = {0, 45, 256, 0x12345678, UINT32_MAX};
    const uint8_t body[8] = {0};
    uint8_t byte;
    for (size_t i = 0; i < 2 * sizeof unknown / sizeof *unknown; i++) {
        int peer = served_pair();
        EXPECT(COVRETIN_OK, covretin_backend_set_profile(&service.backend, i % 2 ? COVRETIN_PROFILE_VHOST : COVRETIN_PROFILE_STANDARD));
        accept_features(peer, COVRETIN_PROTOCOL_REPLY_ACK);
        request(peer, unknown[i / 2], NEED_REPLY, body, sizeof body, NULL, 0);
        EXPECT(i % 2 ? COVRETIN_INVALID_MESSAGE : COVRETIN_INVALID_OPERATION, covretin_next_call(&service, &call, LIMIT));
        EXPECT(unknown[i / 2], covretin_service_request(&service));
        EXPECT(i % 2, covretin_service_ended(&service));
        if (i % 2 == 0) {
            const uint32_t told[] = {unknown[i / 2], REPLY_FLAGS, 8, 1, 0};
            uint32_t reply[5];
            EXPECT((ssize_t)sizeof reply, recv(peer, reply, sizeof reply, MSG_DONTWAIT));
            EXPECT(0, memcmp(told, reply, sizeof reply));
        }
        EXPECT(-1, recv(peer, &byte, 1, MSG_DONTWAIT));
        covretin_hang_up(&service);
        close(peer);
    }
}

/* A device that is given the requests that have no call of their own: it serves SEND_RARP and 601, and keeps a first descriptor. */
struct whole {
    size_t asked, len, count;
    uint32_t request;
    int32_t kept;
};

static int serves_some(void *context, uint32_t request, const uint8_t *bytes, size_t len, const int32_t *fds, size_t count)
{
    struct whole *whole = context;
    *whole = (struct whole){whole->asked + 1, len, count, request, -1};
    EXPECT(true, len == 0 || bytes[0] == 9);
    for (size_t i = 0; i < count; i++)
        EXPECT(true, holds(fds[i], i == 0 ? "first" : "second"));
    if (count > 0 && request == 601) {
        whole->kept = fds[0];
        EXPECT(COVRETIN_OK, covretin_claim_call_fd(&service, fds[0]));
    }
    return request == 601 || request == 19 ? 0 : -1;
}

static void acknowledged_as(int peer, uint32_t code, uint32_t value)
{
    const uint32_t told[] = {code, REPLY_FLAGS, 8, value, 0};
    uint32_t reply[5];
    EXPECT((ssize_t)sizeof reply, recv(peer, reply, sizeof reply, MSG_DONTWAIT));
    EXPECT(0, memcmp(told, reply, sizeof reply));
}

static void gives_other_requests(void)
{
    const uint8_t body[8] = {9};
    struct whole whole = {.kept = -1};
    int peer = served_pair(), files[2] = {file_of("first"), file_of("second")};
    accept_features(peer, COVRETIN_PROTOCOL_REPLY_ACK);
    size_t before = open_fds();
    EXPECT(COVRETIN_OK, covretin_backend_set_other(&service, serves_some, &whole));
    request(peer, 601, NEED_REPLY, body, sizeof body, files, 2);
    EXPECT(COVRETIN_TIMED_OUT, covretin_next_call(&service, &call, 0));
    EXPECT(true, whole.asked == 1 && whole.request == 601 && whole.len == 8 && whole.count == 2);
    acknowledged_as(peer, 601, 0);
    EXPECT(before + 1, open_fds());
    EXPECT(true, holds(whole.kept, "first"));
    EXPECT(COVRETIN_OTHER_CALL, covretin_claim_call_fd(&service, whole.kept));
    close(whole.kept);

    request(peer, 19, REQUEST_FLAGS, NULL, 0, NULL, 0);
    EXPECT(COVRETIN_NOT_YET, covretin_next_call_nowait(&service, &call, &events));
    EXPECT(POLLOUT, events);
    EXPECT(COVRETIN_NOT_YET, covretin_next_call_nowait(&service, &call, &events));
    EXPECT(POLLIN, events);
    EXPECT(true, whole.asked == 2 && whole.len == 0 && whole.count == 0);

    request(peer, 600, NEED_REPLY, body, 1, files, 1);
    EXPECT(COVRETIN_INVALID_OPERATION, covretin_next_call(&service, &call, LIMIT));
    EXPECT(true, whole.asked == 3 && whole.request == 600 && whole.len == 1 && whole.count == 1);
    acknowledged_as(peer, 600, 1);
    EXPECT(before, open_fds());

    EXPECT(COVRETIN_OK, covretin_backend_set_other(&service, NULL, NULL));
    request(peer, 601, NEED_REPLY, body, sizeof body, files, 2);
    EXPECT(COVRETIN_INVALID_OPERATION, covretin_next_call(&service, &call, LIMIT));
    EXPECT(3, whole.asked);
    acknowledged_as(peer, 601, 1);
    EXPECT(before, open_fds());

    request(peer, SET_OWNER, NEED_REPLY, NULL, 0, NULL, 0);
    expect_call(COVRETIN_CALL_SET_OWNER);
    EXPECT(COVRETIN_OK, covretin_reply_done(&service.backend));
    EXPECT(COVRETIN_OK, covretin_send_reply(&service, LIMIT));
    acknowledged_as(peer, SET_OWNER, 0);
    covretin_hang_up(&service);
    EXPECT(COVRETIN_NO_SESSION, covretin_backend_set_other(&service, serves_some, &whole));
    close(files[0]);
    close(files[1]);
    close(peer);
}

static int serves_all(void *context, uint32_t request, const uint8_t *bytes, size_t len, const int32_t *fds, size_t count)
{
    (void)bytes, (void)len, (void)fds, (void)count;
    *(uint32_t *)context = request;
    return 0;
}

/* One that awaits a reply of its own has none, whether it is served or not: its frontend is hung up on, and waits no more. */
static void hangs_up_on_who_awaits_another_reply(void)
{
    for (int is_served = 0; is_served < 2; is_served++) {
        uint32_t asked = 0;
        uint8_t byte;
        int peer = served_pair();
        accept_features(peer, COVRETIN_PROTOCOL_REPLY_ACK);
        size_t before = open_fds();
        EXPECT(COVRETIN_OK, covretin_backend_set_other(&service, is_served ? serves_all : NULL, &asked));
        request(peer, 40, NEED_REPLY, NULL, 0, NULL, 0);
        EXPECT(is_served ? COVRETIN_SOCKET_BROKEN : COVRETIN_INVALID_OPERATION, covretin_next_call(&service, &call, LIMIT));
        EXPECT(is_served ? 40 : 0, asked);
        EXPECT(0, recv(peer, &byte, 1, MSG_DONTWAIT));
        EXPECT(true, covretin_service_ended(&service));
        EXPECT(before, open_fds());
        covretin_hang_up(&service);
        close(peer);
    }
}

/* Which feature a request lacked: of the request that was read last alone. */
static void inactive(void)
{
    const uint8_t body[8] = {0};
    EXPECT(0, covretin_backend_inactive(&service.backend));
    int peer = served_pair();
    EXPECT(0, covretin_backend_inactive(&service.backend));
    accept_features(peer, 0);
    for (int i = 0; i < 3; i++) {
        request(peer, SET_CONFIG, REQUEST_FLAGS, NULL, 0, NULL, 0);
        EXPECT(COVRETIN_INACTIVE_OPERATION, covretin_next_call(&service, &call, LIMIT));
        EXPECT(COVRETIN_PROTOCOL_CONFIG, covretin_backend_inactive(&service.backend));
        EXPECT(COVRETIN_NOT_YET, covretin_next_call_nowait(&service, &call, &events));
        EXPECT(COVRETIN_PROTOCOL_CONFIG, covretin_backend_inactive(&service.backend));
        if (i == 0) {
            request(peer, SET_STATUS, REQUEST_FLAGS, body, sizeof body, NULL, 0);
            EXPECT(COVRETIN_INVALID_OPERATION, covretin_next_call(&service, &call, LIMIT));
        } else if (i == 1) {
            request(peer, SET_OWNER, REQUEST_FLAGS, NULL, 0, NULL, 0);
            expect_call(COVRETIN_CALL_SET_OWNER);
            EXPECT(0, covretin_backend_inactive(&service.backend));
            EXPECT(COVRETIN_OK, covretin_reply_done(&service.backend));
        } else {
            request(peer, 45, REQUEST_FLAGS, NULL, 0, NULL, 0);
            EXPECT(COVRETIN_INVALID_OPERATION, covretin_next_call(&service, &call, LIMIT));
        }
        EXPECT(0, covretin_backend_inactive(&service.backend));
    }
    covretin_hang_up(&service);
    close(peer);
}

/* Each request of the specification's has a name of its own, and any other number one, too. */
static void request_texts(void)
{
    static const uint32_t others[] = {0, 45, 255, 257, UINT32_MAX};
    EXPECT(0, strcmp("GET_FEATURES", covretin_request_text(COVRETIN_CALL_GET_FEATURES)));
    EXPECT(0, strcmp("GET_SHMEM_CONFIG", covretin_request_text(COVRETIN_CALL_GET_SHMEM_CONFIG)));
    EXPECT(0, strcmp("POSTCOPY_ACK", covretin_request_text(COVRETIN_CALL_POSTCOPY_ACK)));
    for (uint32_t i = 0; i <= 44; i++)
        for (uint32_t j = 0; j < i; j++)
            EXPECT(true, strcmp(covretin_request_text(i), covretin_request_text(j)) != 0);
    for (size_t i = 0; i < sizeof others / sizeof *others; i++)
        EXPECT(0, strcmp("unknown request", covretin_request_text(others[i])));
}

/* The mask has each feature once whose requests are served, or made on the backend channel, and no bit of another. */
static void served_features(void)
{
    EXPECT(0x4cb73b, COVRETIN_SERVED_PROTOCOL_FEATURES);
    EXPECT(0, COVRETIN_SERVED_PROTOCOL_FEATURES & COVRETIN_PROTOCOL_HOST_NOTIFIER);
}

/* Under VHOST a request that nobody serves ends the service, without a reply. */
static void has_profiles(void)
{
    const uint8_t status[8] = {0};
    uint8_t byte;
    EXPECT(COVRETIN_NO_SESSION, covretin_backend_set_profile(&service.backend, COVRETIN_PROFILE_VHOST));
    int peer = served_pair();
    EXPECT(COVRETIN_INVALID_PARAM, covretin_backend_set_profile(&service.backend, (enum covretin_profile)2));
    EXPECT(COVRETIN_OK, covretin_backend_set_profile(&service.backend, COVRETIN_PROFILE_VHOST));
    accept_features(peer, COVRETIN_PROTOCOL_REPLY_ACK);
    request(peer, SET_STATUS, NEED_REPLY, status, sizeof status, NULL, 0);
    EXPECT(COVRETIN_INVALID_MESSAGE, covretin_next_call(&service, &call, LIMIT));
    EXPECT(true, covretin_service_ended(&service));
    EXPECT(-1, recv(peer, &byte, 1, MSG_DONTWAIT));
    covretin_hang_up(&service);
    close(peer);
}

static void limits_time(void)
{
    int peer = served_pair();
    int64_t began = now();
    EXPECT(COVRETIN_TIMED_OUT, covretin_next_call(&service, &call, 60));
    EXPECT(true, now() - began >= 55 && now() - began < LIMIT);
    say(peer, "\1\0\0\0\1", 5, NULL, 0);
    EXPECT(COVRETIN_TIMED_OUT, covretin_next_call(&service, &call, 10));
    say(peer, "\0\0\0\0\0\0\0", 7, NULL, 0);
    expect_call(COVRETIN_CALL_GET_FEATURES);
    EXPECT(COVRETIN_OK, covretin_reply_number(&service.backend, 9));
    EXPECT(COVRETIN_TIMED_OUT, covretin_next_call(&service, &call, 0));
    covretin_hang_up(&service);
    close(peer);
}

/* Requests that wait together are read one by one. */
static void reads_no_further(void)
{
    const uint8_t body[8] = {0};
    uint32_t index;
    int32_t fd = -1;
    int peer = served_pair(), first = file_of("first"), second = file_of("second");
    accept_features(peer, 0);
    request(peer, SET_VRING_KICK, REQUEST_FLAGS, body, sizeof body, &first, 1);
    request(peer, SET_VRING_CALL, REQUEST_FLAGS, body, sizeof body, &second, 1);
    size_t before = open_fds();
    expect_call(COVRETIN_CALL_SET_VRING_KICK);
    EXPECT(before + 1, open_fds());
    EXPECT(COVRETIN_OK, covretin_call_ring_fd(&service.backend, &index, &fd));
    EXPECT(true, holds(fd, "first"));
    EXPECT(COVRETIN_OK, covretin_reply_done(&service.backend));
    expect_call(COVRETIN_CALL_SET_VRING_CALL);
    EXPECT(COVRETIN_OK, covretin_call_ring_fd(&service.backend, &index, &fd));
    EXPECT(true, holds(fd, "second"));
    EXPECT(COVRETIN_OK, covretin_reply_done(&service.backend));
    covretin_hang_up(&service);
    close(first);
    close(second);
    close(peer);
}

int main(void)
{
    RUN(accepts_at_a_path);
    RUN(takes_only_what_is_left_over);
    RUN(takes_none_that_somebody_has);
    RUN(listens_in_a_locked_folder);
    RUN(leaves_what_is_of_others);
    RUN(listens_at_paths);
    RUN(listens_at_a_socket);
    RUN(nobody_connects);
    RUN(takes_only_stream_sockets);
    RUN(without_service);
    RUN(claims);
    RUN(hangs_up_amid_a_call);
    RUN(takes_the_display);
    RUN(hangs_up_amid_a_request);
    RUN(closes_what_is_refused);
    RUN(loses_descriptors);
    RUN(refuses_late_descriptors);
    RUN(lends_descriptors);
    RUN(ends_at_each_place);
    RUN(ends_before_its_reply);
    RUN(byte_by_byte);
    RUN(sends_in_parts);
    RUN(tells_refusals_late);
    RUN(tells_which_was_refused);
    RUN(unknown_requests);
    RUN(gives_other_requests);
    RUN(hangs_up_on_who_awaits_another_reply);
    RUN(inactive);
    RUN(request_texts);
    RUN(served_features);
    RUN(has_profiles);
    RUN(limits_time);
    RUN(reads_no_further);
    return status();
}
