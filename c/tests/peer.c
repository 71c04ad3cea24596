#ifndef _GNU_SOURCE
#define _GNU_SOURCE
#endif

#include "peer.h"
#include "testing.h"

#include <arpa/inet.h>
#include <netinet/in.h>
#include <string.h>
#include <sys/mman.h>
#include <sys/socket.h>
#include <sys/uio.h>
#include <unistd.h>

#ifndef SO_PASSPIDFD
#define SO_PASSPIDFD 76
#endif

union control {
    struct cmsghdr align;
    char bytes[CMSG_SPACE(sizeof(int) * SYSTEM_MAX_FDS)];
};

int pair_up(covretin_connection *connection, uint64_t max_queue_num)
{
    int ends[2];
    if (socketpair(AF_UNIX, SOCK_STREAM | SOCK_CLOEXEC, 0, ends))
        give_up("socketpair");
    EXPECT(COVRETIN_OK, covretin_connect_fd(connection, ends[0], max_queue_num));
    return ends[1];
}

static void say_so(int peer, const void *bytes, size_t count, const int *fds, size_t fd_count, int flags)
{
    static union control control;
    struct iovec piece = {(void *)(uintptr_t)bytes, count};
    struct msghdr message = {.msg_iov = &piece, .msg_iovlen = 1};
    if (fd_count != 0) {
        memset(&control, 0, sizeof control);
        message.msg_control = control.bytes;
        message.msg_controllen = CMSG_SPACE(sizeof(int) * fd_count);
        struct cmsghdr *head = CMSG_FIRSTHDR(&message);
        head->cmsg_level = SOL_SOCKET;
        head->cmsg_type = SCM_RIGHTS;
        head->cmsg_len = CMSG_LEN(sizeof(int) * fd_count);
        memcpy(CMSG_DATA(head), fds, sizeof(int) * fd_count);
    }
    if (sendmsg(peer, &message, MSG_NOSIGNAL | flags) != (ssize_t)count)
        give_up("sendmsg of the peer");
}

void say(int peer, const void *bytes, size_t count, const int *fds, size_t fd_count)
{
    say_so(peer, bytes, count, fds, fd_count, 0);
}

void say_urgently(int peer, int fd)
{
    say_so(peer, "!", 1, &fd, 1, MSG_OOB);
}

static void put(uint8_t *bytes, uint32_t number)
{
    for (int i = 0; i < 4; i++)
        bytes[i] = (uint8_t)(number >> 8 * i);
}

static uint32_t get(const uint8_t *bytes)
{
    return bytes[0] | (uint32_t)bytes[1] << 8 | (uint32_t)bytes[2] << 16 | (uint32_t)bytes[3] << 24;
}

void say_header(int peer, uint32_t code, uint32_t flags, uint32_t size, const int *fds, size_t fd_count)
{
    uint8_t header[12];
    put(header, code);
    put(header + 4, flags);
    put(header + 8, size);
    say(peer, header, sizeof header, fds, fd_count);
}

void reply(int peer, uint32_t code, const void *body, size_t size, const int *fds, size_t fd_count)
{
    say_header(peer, code, REPLY_FLAGS, (uint32_t)size, fds, fd_count);
    if (size != 0)
        say(peer, body, size, NULL, 0);
}

void reply_number(int peer, uint32_t code, uint64_t number)
{
    uint8_t body[8];
    put(body, (uint32_t)number);
    put(body + 4, (uint32_t)(number >> 32));
    reply(peer, code, body, sizeof body, NULL, 0);
}

bool hear_bytes(int peer, uint8_t *bytes, size_t count, size_t *fd_count)
{
    while (count != 0) {
        static union control control;
        struct iovec piece = {bytes, count};
        struct msghdr message = {
            .msg_iov = &piece, .msg_iovlen = 1, .msg_control = control.bytes, .msg_controllen = sizeof control.bytes};
        ssize_t got = recvmsg(peer, &message, MSG_CMSG_CLOEXEC);
        if (got <= 0)
            return false;
        for (struct cmsghdr *head = CMSG_FIRSTHDR(&message); head != NULL; head = CMSG_NXTHDR(&message, head))
            for (size_t i = 0; i < (head->cmsg_len - CMSG_LEN(0)) / sizeof(int); i++) {
                int fd;
                memcpy(&fd, CMSG_DATA(head) + i * sizeof fd, sizeof fd);
                close(fd);
                ++*fd_count;
            }
        bytes += got;
        count -= (size_t)got;
    }
    return true;
}

bool hear(int peer, struct request *request)
{
    uint8_t header[12];
    request->fd_count = 0;
    if (!hear_bytes(peer, header, sizeof header, &request->fd_count))
        return false;
    request->code = get(header);
    request->flags = get(header + 4);
    request->size = get(header + 8);
    return hear_bytes(peer, request->body, request->size, &request->fd_count);
}

void negotiate(covretin_connection *connection, int peer, uint64_t protocol_features)
{
    covretin_session *session = &connection->session;
    struct request request;
    uint64_t number = 0;
    EXPECT(COVRETIN_OK, covretin_ask_get_features(session));
    reply_number(peer, GET_FEATURES, COVRETIN_FEATURE_PROTOCOL_FEATURES);
    EXPECT(COVRETIN_OK, covretin_exchange(connection, 20000));
    EXPECT(COVRETIN_OK, covretin_ask_set_features(session, COVRETIN_FEATURE_PROTOCOL_FEATURES));
    EXPECT(COVRETIN_OK, covretin_exchange(connection, 20000));
    EXPECT(COVRETIN_OK, covretin_ask_get_protocol_features(session));
    reply_number(peer, GET_PROTOCOL_FEATURES, protocol_features);
    EXPECT(COVRETIN_OK, covretin_exchange(connection, 20000));
    EXPECT(COVRETIN_OK, covretin_answer_number(session, &number));
    EXPECT(protocol_features, number);
    EXPECT(COVRETIN_OK, covretin_ask_set_protocol_features(session, protocol_features));
    EXPECT(COVRETIN_OK, covretin_exchange(connection, 20000));
    for (uint32_t i = 0; i < 4; i++)
        EXPECT(true, hear(peer, &request));
}

int file_of(const char *text)
{
    int fd = memfd_create("test", MFD_CLOEXEC);
    if (fd < 0 || write(fd, text, strlen(text)) < 0)
        give_up("memfd_create");
    return fd;
}

bool holds(int fd, const char *text)
{
    char found[64] = {0};
    return pread(fd, found, sizeof found - 1, 0) >= 0 && strncmp(found, text, strlen(text)) == 0;
}

/* A pair of sockets over the network of this machine, with little room for bytes. */
static void pair_by_network(int *near, int *far)
{
    struct sockaddr_in address = {.sin_family = AF_INET, .sin_addr.s_addr = htonl(INADDR_LOOPBACK)};
    socklen_t size = sizeof address;
    const int little = 1;
    int listener = socket(AF_INET, SOCK_STREAM | SOCK_CLOEXEC, 0);
    *near = socket(AF_INET, SOCK_STREAM | SOCK_CLOEXEC, 0);
    setsockopt(listener, SOL_SOCKET, SO_RCVBUF, &little, sizeof little);
    setsockopt(*near, SOL_SOCKET, SO_SNDBUF, &little, sizeof little);
    if (bind(listener, (struct sockaddr *)&address, sizeof address) || listen(listener, 1) ||
        getsockname(listener, (struct sockaddr *)&address, &size) || connect(*near, (struct sockaddr *)&address, size))
        give_up("a pair of sockets over the network");
    *far = accept4(listener, NULL, NULL, SOCK_CLOEXEC);
    close(listener);
}

int slow_to_close(int *far)
{
    static const uint8_t bytes[4096];
    const struct linger long_time = {1, 3};
    int near;
    pair_by_network(&near, far);
    while (send(near, bytes, sizeof bytes, MSG_DONTWAIT | MSG_NOSIGNAL) > 0)
        ;
    if (setsockopt(near, SOL_SOCKET, SO_LINGER, &long_time, sizeof long_time))
        give_up("SO_LINGER");
    return near;
}

bool tell_all(int socket)
{
    const int on = 1;
    if (setsockopt(socket, SOL_SOCKET, SO_PASSCRED, &on, sizeof on))
        give_up("SO_PASSCRED");
    setsockopt(socket, SOL_SOCKET, SO_PASSSEC, &on, sizeof on);
    setsockopt(socket, SOL_SOCKET, SO_TIMESTAMP, &on, sizeof on);
    return setsockopt(socket, SOL_SOCKET, SO_PASSPIDFD, &on, sizeof on) == 0;
}
