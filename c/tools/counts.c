/* SPDX-License-Identifier: Apache-2.0 */
/* See counts.h. A reader is answered once anything comes of him, or he has shut down his side: so `curl` gets an answer to its request, and whoever
 * only wants the text sends an empty line, or nothing. The answer goes out at once, since it fits into the socket, whether or not he reads it. He is
 * then kept until he hangs up, as a socket that is closed with something unread would reset what he has still to read; or until others came. */
#ifndef _GNU_SOURCE
#define _GNU_SOURCE /* for accept4 */
#endif
#include "counts.h"

#include <poll.h>
#include <pthread.h>
#include <stddef.h>
#include <stdio.h>
#include <string.h>
#include <sys/eventfd.h>
#include <sys/socket.h>
#include <unistd.h>

enum { MOST_READERS = 16, MOST_TEXT = 4096, MOST_ASKED = 65536, PAUSE_MS = 100 };

static const struct counter {
    const char *name, *says;
    size_t at;
} counters[] = {
    {"sessions", "Frontends that were served.", offsetof(covretin_device_stats, sessions)},
    {"requests", "Requests of the guest that the device got.", offsetof(covretin_device_stats, requests)},
    {"bytes", "Bytes that these requests gave the device to be read or written.", offsetof(covretin_device_stats, bytes)},
    {"kicks", "How often the guest said that there is something.", offsetof(covretin_device_stats, kicks)},
    {"calls", "How often the guest was told that something is done.", offsetof(covretin_device_stats, calls)},
    {"refusals", "Requests of a frontend that were refused, or ended its session.", offsetof(covretin_device_stats, refusals)},
};
enum { COUNTERS = sizeof counters / sizeof *counters };

static unsigned long long read_count(const uint64_t *count)
{
    return __atomic_load_n(count, __ATOMIC_RELAXED);
}

static unsigned long long count_of(const covretin_device_stats *stats, const struct counter *counter)
{
    return read_count((const uint64_t *)(const void *)((const char *)stats + counter->at));
}

void counts_print(const covretin_device_stats *stats)
{
    for (size_t i = 0; i < COUNTERS; i++)
        printf("%s %llu, ", counters[i].name, count_of(stats, &counters[i]));
    printf("longest turn %llu microseconds\n", read_count(&stats->longest_turn) / 1000);
}

/* -- The text -- */

static const covretin_device_stats *counted;
static const char *of;

/* The text in Prometheus' form; how many bytes it has. */
static size_t make_text(char text[MOST_TEXT])
{
    unsigned long long turn = read_count(&counted->longest_turn);
    size_t length = 0;
    for (size_t i = 0; i < COUNTERS; i++) {
        const struct counter *it = &counters[i];
        length += (size_t)snprintf(text + length, MOST_TEXT - length, "# HELP covretin_%s_total %s\n# TYPE covretin_%s_total counter\ncovretin_%s_total %llu\n",
                                   it->name, it->says, it->name, it->name, count_of(counted, it));
    }
    length += (size_t)snprintf(text + length, MOST_TEXT - length,
                               "# HELP covretin_longest_turn_seconds The longest turn of the device's loop.\n# TYPE covretin_longest_turn_seconds gauge\n"
                               "covretin_longest_turn_seconds %llu.%09llu\n"
                               "# HELP covretin_info The program, and its version.\n# TYPE covretin_info gauge\n"
                               "covretin_info{program=\"%s\",version=\"%s\"} 1\n",
                               turn / 1000000000, turn % 1000000000, of, covretin_version());
    return length;
}

/* Answers a reader by as much as his socket takes, which is all. */
static void answer(int fd)
{
    char text[MOST_TEXT], all[MOST_TEXT + 200];
    size_t length = make_text(text);
    int head = snprintf(all, sizeof all, "HTTP/1.0 200 OK\r\nContent-Type: text/plain; version=0.0.4\r\nContent-Length: %zu\r\n\r\n%s", length, text);
    (void)!send(fd, all, (size_t)head, MSG_NOSIGNAL | MSG_DONTWAIT);
    shutdown(fd, SHUT_WR);
}

/* -- Its readers, the oldest first -- */

static covretin_listener listener;
static pthread_t thread;
static int stop = -1; /* an eventfd; -1: nothing is served */

static struct reader {
    int fd;
    size_t asked; /* how many bytes came */
} readers[MOST_READERS];
static size_t reader_count;

static void drop(size_t at)
{
    close(readers[at].fd);
    reader_count--;
    memmove(&readers[at], &readers[at + 1], (reader_count - at) * sizeof *readers);
}

/* Takes who comes, in the place of the oldest where there are many. False: nobody could be taken now. */
static bool take(void)
{
    int fd = accept4(covretin_listener_fd(&listener), NULL, NULL, SOCK_NONBLOCK | SOCK_CLOEXEC);
    if (fd < 0)
        return false;
    if (reader_count == MOST_READERS)
        drop(0);
    readers[reader_count++] = (struct reader){.fd = fd};
    return true;
}

/* Takes what came of a reader. Whether he stays: not where he shut his side down, or goes on with more than a request. */
static bool hear(struct reader *reader)
{
    char bytes[4096];
    ssize_t got = read(reader->fd, bytes, sizeof bytes);
    if (reader->asked == 0 && got >= 0)
        answer(reader->fd);
    reader->asked += got > 0 ? (size_t)got : 0;
    return got > 0 && reader->asked < MOST_ASKED;
}

static void *serve(void *none)
{
    bool may_take = true;
    for (;;) {
        struct pollfd polled[2 + MOST_READERS] = {{.fd = stop, .events = POLLIN},
                                                  {.fd = may_take ? covretin_listener_fd(&listener) : -1, .events = POLLIN}};
        for (size_t i = 0; i < reader_count; i++)
            polled[2 + i] = (struct pollfd){.fd = readers[i].fd, .events = POLLIN};
        poll(polled, 2 + reader_count, may_take ? -1 : PAUSE_MS);
        if (polled[0].revents != 0)
            return none;
        for (size_t i = reader_count; i-- > 0;)
            if (polled[2 + i].revents != 0 && !hear(&readers[i]))
                drop(i);
        may_take = polled[1].revents == 0 || take();
    }
}

/* -- Its life -- */

enum covretin_error counts_serve(const covretin_device_stats *stats, const char *program, const char *path)
{
    enum covretin_error error = covretin_listen(&listener, path);
    if (error != COVRETIN_OK)
        return error;
    counted = stats;
    of = program;
    stop = eventfd(0, EFD_CLOEXEC);
    if (stop >= 0 && pthread_create(&thread, NULL, serve, NULL) == 0)
        return COVRETIN_OK;
    if (stop >= 0)
        close(stop);
    stop = -1;
    covretin_unlisten(&listener);
    return COVRETIN_OUT_OF_MEMORY;
}

void counts_end(void)
{
    const uint64_t one = 1;
    if (stop < 0)
        return;
    (void)!write(stop, &one, sizeof one);
    pthread_join(thread, NULL);
    while (reader_count != 0)
        drop(0);
    close(stop);
    stop = -1;
    covretin_unlisten(&listener);
}
