/* SPDX-License-Identifier: Apache-2.0 */
/* What the same bytes cost without the library. */
#ifndef _GNU_SOURCE
#define _GNU_SOURCE
#endif

#include "bench.h"

#include <pthread.h>
#include <string.h>
#include <sys/socket.h>
#include <sys/uio.h>
#include <unistd.h>

enum { MESSAGE = 20, HEADER = 12 };

static void pair(int ends[2])
{
    if (socketpair(AF_UNIX, SOCK_STREAM | SOCK_CLOEXEC, 0, ends))
        fail("socketpair");
}

static struct taken close_both(const int ends[2], long good, double begun)
{
    struct taken taken = {good, now() - begun};
    close(ends[0]);
    close(ends[1]);
    return taken;
}

static void put(int end, const void *bytes, size_t count)
{
    if (write(end, bytes, count) != (ssize_t)count)
        fail("write");
}

static void get(int end, char *bytes, size_t count)
{
    if (read(end, bytes, count) != (ssize_t)count)
        fail("read");
}

static void get_apart(int end, char *bytes, size_t count)
{
    get(end, bytes, HEADER);
    get(end, bytes + HEADER, count - HEADER);
}

/* With room for 32 descriptors. */
static void get_with_room(int end, char *bytes, size_t count)
{
    char room[CMSG_SPACE(COVRETIN_MAX_FDS * sizeof(int))];
    struct iovec part = {bytes, count};
    struct msghdr message = {.msg_iov = &part, .msg_iovlen = 1, .msg_control = room, .msg_controllen = sizeof room};
    if (recvmsg(end, &message, MSG_CMSG_CLOEXEC) != (ssize_t)count)
        fail("recvmsg");
}

static void get_with_room_apart(int end, char *bytes, size_t count)
{
    get_with_room(end, bytes, HEADER);
    get_with_room(end, bytes + HEADER, count - HEADER);
}

struct taken copy_message(long count)
{
    static char from[MESSAGE], to[MESSAGE];
    double begun = now();
    for (long i = 0; i < count; i++) {
        from[i % MESSAGE]++;
        memcpy(to, from, MESSAGE);
        __asm__ volatile("" : : "r"(to) : "memory");
    }
    return (struct taken){count, now() - begun};
}

/* A hundred messages wait at a socket, and each is received. */
static struct taken queued(long count, void (*receive)(int, char *, size_t))
{
    char messages[QUEUED * MESSAGE] = {0}, room[MESSAGE];
    int ends[2];
    pair(ends);
    double begun = now();
    for (long left = count; left > 0; left -= QUEUED) {
        long some = left < QUEUED ? left : QUEUED;
        put(ends[0], messages, (size_t)some * MESSAGE);
        for (long i = 0; i < some; i++)
            receive(ends[1], room, MESSAGE);
    }
    return close_both(ends, count, begun);
}

struct taken socket_read(long count)
{
    return queued(count, get);
}

struct taken socket_read_apart(long count)
{
    return queued(count, get_apart);
}

struct taken socket_recvmsg(long count)
{
    return queued(count, get_with_room);
}

struct taken socket_recvmsg_apart(long count)
{
    return queued(count, get_with_room_apart);
}

struct taken socket_trip(long count)
{
    char request[HEADER], reply[MESSAGE] = {0};
    int ends[2];
    pair(ends);
    double begun = now();
    for (long i = 0; i < count; i++) {
        put(ends[0], get_features, HEADER);
        get(ends[1], request, HEADER);
        put(ends[1], reply, MESSAGE);
        get(ends[0], reply, MESSAGE);
    }
    return close_both(ends, count, begun);
}

struct echo {
    int end;
    long count;
};

static void *echo(void *given)
{
    struct echo *it = given;
    char request[HEADER];
    for (long i = 0; i < it->count; i++) {
        get(it->end, request, HEADER);
        put(it->end, features_reply, MESSAGE);
    }
    return NULL;
}

struct taken threads_trip(long count)
{
    char reply[MESSAGE];
    pthread_t thread;
    int ends[2];
    pair(ends);
    struct echo other = {ends[1], count};
    if (pthread_create(&thread, NULL, echo, &other))
        fail("pthread_create");
    double begun = now();
    for (long i = 0; i < count; i++) {
        put(ends[0], get_features, HEADER);
        get(ends[0], reply, MESSAGE);
    }
    double taken = now() - begun;
    pthread_join(thread, NULL);
    close_both(ends, count, begun);
    return (struct taken){count, taken};
}
