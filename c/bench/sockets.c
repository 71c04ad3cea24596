/* SPDX-License-Identifier: Apache-2.0 */
/* The library over a pair of sockets, in one thread and in two. */
#ifndef _GNU_SOURCE
#define _GNU_SOURCE
#endif

#include "bench.h"
#include "covretin_backend_socket.h"
#include "covretin_socket.h"

#include <malloc.h>
#include <pthread.h>
#include <stdio.h>
#include <sys/socket.h>
#include <unistd.h>

static covretin_connection frontend;
static covretin_service service;

/* Opens a pair of sockets, with a service at one; the other. */
static int serve_pair(void)
{
    int ends[2];
    if (socketpair(AF_UNIX, SOCK_STREAM | SOCK_CLOEXEC, 0, ends) || covretin_serve_fd(&service, ends[1]))
        fail("a pair of sockets");
    return ends[0];
}

/* Waits for a call, and accepts it. */
static bool serve(void)
{
    uint32_t call = 0;
    return !covretin_next_call(&service, &call, -1) && !accept_call(&service.backend, call);
}

static bool exchange(enum covretin_error asked)
{
    return !asked && !covretin_exchange(&frontend, -1);
}

static bool ask_features(void)
{
    uint64_t number;
    return exchange(covretin_ask_get_features(&frontend.session)) && !covretin_answer_number(&frontend.session, &number);
}

/* -- One thread -- */

static struct taken close_pair(int end, struct taken taken)
{
    covretin_hang_up(&service);
    close(end);
    return taken;
}

struct taken service_queued(long count)
{
    static uint8_t messages[QUEUED][sizeof set_vring_num];
    struct taken taken = {0, 0};
    int end = serve_pair();
    for (int i = 0; i < QUEUED; i++)
        for (size_t at = 0; at < sizeof messages[i]; at++)
            messages[i][at] = set_vring_num[at];
    double begun = now();
    for (long left = count; left > 0; left -= QUEUED) {
        long some = left < QUEUED ? left : QUEUED;
        if (write(end, messages, (size_t)some * sizeof *messages) != some * (long)sizeof *messages)
            fail("write");
        for (long i = 0; i < some; i++)
            taken.good += serve();
    }
    taken.nanoseconds = now() - begun;
    return close_pair(end, taken);
}

struct taken service_trip(long count)
{
    struct taken taken = {0, 0};
    uint8_t reply[sizeof features_reply];
    int end = serve_pair();
    double begun = now();
    for (long i = 0; i < count; i++) {
        if (write(end, get_features, sizeof get_features) != sizeof get_features)
            fail("write");
        taken.good += serve() && !covretin_send_reply(&service, -1) && read(end, reply, sizeof reply) == sizeof reply;
    }
    taken.nanoseconds = now() - begun;
    return close_pair(end, taken);
}

/* Sessions of one call, from their sockets to their end, whose other end is played here: a backend's, and a frontend's, whose reply is there
 * before it asks. */
struct taken service_session(long count)
{
    struct taken taken = {0, 0};
    double begun = now();
    for (long i = 0; i < count; i++) {
        uint8_t reply[sizeof features_reply];
        int end = serve_pair();
        if (write(end, get_features, sizeof get_features) != sizeof get_features)
            fail("write");
        taken.good += serve() && !covretin_send_reply(&service, -1) && read(end, reply, sizeof reply) == sizeof reply;
        close_pair(end, taken);
    }
    taken.nanoseconds = now() - begun;
    return taken;
}

struct taken connection_session(long count)
{
    struct taken taken = {0, 0};
    double begun = now();
    for (long i = 0; i < count; i++) {
        int ends[2];
        if (socketpair(AF_UNIX, SOCK_STREAM | SOCK_CLOEXEC, 0, ends) || covretin_connect_fd(&frontend, ends[1], 2) ||
            write(ends[0], features_reply, sizeof features_reply) != sizeof features_reply)
            fail("a pair of sockets");
        taken.good += ask_features();
        covretin_disconnect(&frontend);
        close(ends[0]);
    }
    taken.nanoseconds = now() - begun;
    return taken;
}

/* -- Two threads -- */

/* Serves until the frontend is gone. */
static void *serve_all(void *unused)
{
    (void)unused;
    while (!covretin_service_ended(&service))
        serve();
    covretin_hang_up(&service);
    return NULL;
}

static bool ask_vring_num(void)
{
    return exchange(covretin_ask_set_vring_num(&frontend.session, 0, 256));
}

static bool ask_config(void)
{
    static uint8_t bytes[CONFIG];
    covretin_config config;
    size_t count;
    return exchange(covretin_ask_get_config(&frontend.session, 0, CONFIG, 0)) &&
           !covretin_answer_config(&frontend.session, &config, bytes, sizeof bytes, &count);
}

/* A frontend asks so often, and a backend in another thread answers. */
static struct taken talk(bool ask(void), uint32_t flags, long count)
{
    struct taken taken = {0, 0};
    pthread_t thread;
    double begun;
    if (covretin_connect_fd(&frontend, serve_pair(), 2) || pthread_create(&thread, NULL, serve_all, NULL))
        fail("a thread");
    if (!ask_features() || !exchange(covretin_ask_set_features(&frontend.session, FEATURES)) ||
        !exchange(covretin_ask_set_protocol_features(&frontend.session, PROTOCOL_FEATURES)) ||
        covretin_set_hdr_flags(&frontend.session, flags))
        fail("a negotiation");
    begun = now();
    for (long i = 0; i < count; i++)
        taken.good += ask();
    taken.nanoseconds = now() - begun;
    covretin_disconnect(&frontend);
    pthread_join(thread, NULL);
    return taken;
}

struct taken threads_get_features(long count)
{
    return talk(ask_features, 0, count);
}

struct taken threads_acknowledged(long count)
{
    return talk(ask_vring_num, COVRETIN_NEED_REPLY, count);
}

struct taken threads_get_config_256(long count)
{
    return talk(ask_config, 0, count);
}

/* -- Memory -- */

/* Bytes that were asked for and not given back. */
static size_t asked_for(void)
{
    struct mallinfo2 it = mallinfo2();
    return it.uordblks + it.hblkhd;
}

/* The bytes that so many frontends have asked for, each, and so many backends. */
void show_bytes(void)
{
    static covretin_connection frontends[SESSIONS];
    static covretin_service services[SESSIONS];
    size_t begun, between;
    int ends[SESSIONS][2];
    for (int i = 0; i < SESSIONS; i++)
        if (socketpair(AF_UNIX, SOCK_STREAM | SOCK_CLOEXEC, 0, ends[i]))
            fail("a pair of sockets");
    begun = asked_for();
    for (int i = 0; i < SESSIONS; i++)
        if (covretin_connect_fd(&frontends[i], ends[i][0], 1))
            fail("a session");
    between = asked_for();
    for (int i = 0; i < SESSIONS; i++)
        if (covretin_serve_fd(&services[i], ends[i][1]))
            fail("a session");
    printf("frontend_bytes %zu\nbackend_bytes %zu\n", (between - begun) / SESSIONS, (asked_for() - between) / SESSIONS);
    for (int i = 0; i < SESSIONS; i++) {
        covretin_disconnect(&frontends[i]);
        covretin_hang_up(&services[i]);
    }
}
