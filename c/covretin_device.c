/* SPDX-License-Identifier: Apache-2.0 */
/* A device's event loop, and its life. What a frontend's calls mean is in covretin_device_calls.c. */
#ifndef _GNU_SOURCE
#define _GNU_SOURCE /* for memfd_create and preadv2 */
#endif

#include "covretin_device_session.h"
#include "covretin_serving.h"

#include <errno.h>
#include <poll.h>
#include <sched.h>
#include <signal.h>
#include <stdlib.h>
#include <string.h>
#include <sys/epoll.h>
#include <sys/eventfd.h>
#include <sys/mman.h>
#include <sys/signalfd.h>
#include <sys/timerfd.h>
#include <unistd.h>

enum { MOST_TURNS = 16 };

/* -- The loop -- */

static bool has_ended(struct session *session)
{
    if (session->why == COVRETIN_OK && session->is_stopped)
        session->why = COVRETIN_STOPPED;
    if (session->why == COVRETIN_OK && session->holder.has_lost)
        session->why = COVRETIN_MEMORY_LOST;
    return session->why != COVRETIN_OK;
}

/* Has the socket polled for this. */
static void poll_socket(struct session *session, short events)
{
    struct epoll_event ready = {.events = (uint32_t)events, .data.u32 = SOCKET};
    if (events != session->events)
        epoll_ctl(session->polled, EPOLL_CTL_MOD, covretin_service_fd(&session->frontend), &ready);
    session->events = events;
}

/* (a refusal is counted before the frontend can know of it) */
static void count_refusal(void *context)
{
    struct session *session = context;
    session->has_counted = true;
    COUNT(session, refusals, 1);
}

static void tell_refused(struct session *session, enum covretin_error error)
{
    uint32_t request = session->last_request = covretin_service_request(&session->frontend);
    if (error == COVRETIN_OK && session->is_refused)
        error = COVRETIN_BACKEND_INTERNAL_ERROR; /* its reply says so */
    session->is_refused = false;
    if (error == COVRETIN_OK || error == COVRETIN_DISCONNECTED)
        return;
    if (!session->has_counted)
        count_refusal(session);
    session->has_counted = false;
    log_refused(session, request, error);
    session->detail[0] = '\0';
    if (session->calls->refused == NULL)
        return;
    pthread_mutex_unlock(&session->lock);
    session->calls->refused(session->own, request, error);
    pthread_mutex_lock(&session->lock);
}

/* The next call, or the one that waits. NOT_YET: there is none. */
static enum covretin_error next_call(struct session *session, uint32_t *call, short *events)
{
    enum covretin_error error;
    if (session->waits != 0) {
        *call = session->waits;
        session->waits = 0;
        return COVRETIN_OK;
    }
    error = covretin_next_call_nowait(&session->frontend, call, events);
    if (error == COVRETIN_NOT_REPLIED) /* there was no memory for the reply */
        session->why = COVRETIN_OUT_OF_MEMORY;
    else if (error == COVRETIN_OUT_OF_MEMORY || (error != COVRETIN_OK && covretin_service_ended(&session->frontend)))
        session->why = error;
    return error;
}

/* Answers a call. Whoever waits for a reply is hung up on where an allocation failed amid it, or no reply refuses what was refused. */
static enum covretin_error answer(struct session *session, uint32_t call)
{
    enum covretin_error error = answer_call(session, call);
    if (error == COVRETIN_SOCKET_RETRY || error == COVRETIN_SOCKET_BROKEN)
        error = COVRETIN_OUT_OF_MEMORY;
    if (error == COVRETIN_OUT_OF_MEMORY || covretin_backend_ended(&session->frontend.backend))
        session->why = error;
    return error;
}

/* Serves the calls that are there, but for those of one that sends without end: rings are served in between. One is served in any case. */
static void serve_calls(struct session *session)
{
    part_begin(session);
    do {
        short events = 0;
        uint32_t call = 0;
        enum covretin_error error = next_call(session, &call, &events);
        if (error == COVRETIN_NOT_YET) {
            poll_socket(session, events);
            session->is_called = false;
            return;
        }
        if (error == COVRETIN_OK && has_to_wait(session, call)) {
            session->waits = call;
            poll_socket(session, 0);
            return;
        }
        if (error == COVRETIN_OK)
            error = answer(session, call);
        tell_refused(session, error);
    } while (!has_ended(session) && !part_is_over(session, LOOK_AFTER));
}

/* Serves the rings that are due, from the one that comes after where the last turn's time was over: whichever that is, each gets its
 * turn. */
static void serve_rings(struct session *session)
{
    uint32_t count = session->calls->queues;
    part_begin(session);
    for (uint32_t i = 0; i < count && !has_ended(session); i++) {
        uint32_t at = (session->first + i) % count;
        if (!session->rings[at].is_due || ring_serve(session, &session->rings[at]))
            continue;
        session->first = at + 1;
        return;
    }
}

/* A ring was kicked. One whose kick cannot be read has none any more, since it would be ready for ever, and is broken. */
static void take_event(struct session *session, struct ring *ring)
{
    uint64_t count;
    struct iovec whole = {&count, sizeof count};
    if (ring->kick < 0)
        return;
    if (preadv2(ring->kick, &whole, 1, -1, RWF_NOWAIT) != sizeof count && errno != EAGAIN) {
        ring_drop_kick(session, ring);
        ring->is_broken = true;
    }
    ring_kicked(session, ring);
}

/* Takes what is ready. */
static void take_events(struct session *session)
{
    struct epoll_event ready[MOST_READY];
    int count = epoll_wait(session->polled, ready, MOST_READY, 0);
    uint64_t none;
    for (int i = 0; i < count; i++) {
        uint32_t of = ready[i].data.u32;
        if (of < COVRETIN_DEVICE_MAX_QUEUES)
            take_event(session, &session->rings[of]);
        else if (of == WAKE)
            (void)!read(session->holder.wake, &none, sizeof none);
        else if (of == TIMER && read(session->timer, &none, sizeof none) > 0)
            for (uint32_t each = 0; each < session->calls->queues; each++)
                session->rings[each].is_due |= session->rings[each].kick < 0;
        else if (of == CHANNEL)
            teller_go_on(session);
        else if (of == CHANNEL_TIMER && read(session->teller.timer, &none, sizeof none) > 0)
            teller_look(session);
        else if (of == SOCKET && session->waits != 0 && ready[i].events & (EPOLLHUP | EPOLLERR))
            session->why = COVRETIN_DISCONNECTED;
        else if (of == SOCKET)
            session->is_called = true;
    }
}

/* What is due still is served by the next call; a ring without a kick is looked at each millisecond. */
static void plan(struct session *session)
{
    bool is_due = session->is_called && session->waits == 0, is_timed = false;
    for (uint32_t i = 0; i < session->calls->queues; i++) {
        const struct ring *ring = &session->rings[i];
        is_due = is_due || ((ring->is_due || ring->is_quiet) && ring_is_running(session, ring));
        is_timed = is_timed || (ring->kick < 0 && ring_is_running(session, ring));
    }
    if (is_due)
        wake_up(session->holder.wake);
    if (is_timed != session->is_timed) {
        const struct timespec each = {0, is_timed ? 1000000 : 0};
        timerfd_settime(session->timer, 0, &(struct itimerspec){each, each}, NULL);
    }
    session->is_timed = is_timed;
}

/* Another device may go on with the rings. */
static void leave_rings(struct session *session)
{
    for (uint32_t i = 0; i < session->calls->queues; i++)
        ring_leave(session, &session->rings[i]);
}

/* All that the frontend gave is given up, but for what requests still point to. */
static void give_up(struct session *session)
{
    epoll_ctl(session->polled, EPOLL_CTL_DEL, covretin_service_fd(&session->frontend), NULL);
    teller_end(session);
    covretin_hang_up(&session->frontend);
    arrival_lose(&session->arrival);
    arrival_end(&session->arrival, session->space);
    for (uint32_t i = 0; i < session->calls->queues; i++) {
        ring_stop(session, &session->rings[i]);
        bell_close(&session->rings[i].error);
    }
    space_release(session->space);
    mapping_release(session->log);
    mapping_release(session->inflight);
    session->space = NULL;
    session->log = session->inflight = NULL;
    close_inflight_fd(session);
}

static void close_if(int fd)
{
    if (fd >= 0)
        close(fd);
}

static void session_free(struct session *session)
{
    for (uint32_t i = 0; i < COVRETIN_DEVICE_MAX_QUEUES; i++)
        covretin_queue_close(&session->rings[i].queue);
    taken_free_kept(session);
    teller_free(session);
    share_release(session->holder.share);
    close_if(session->empty);
    close_if(session->timer);
    close_if(session->stop);
    close_if(session->holder.wake);
    close_if(session->polled);
    pthread_mutex_destroy(&session->lock);
    free(session);
}

/* Says once that the session has ended. What it waits for stays ready from then on. */
static void tell_end(struct session *session)
{
    if (!session->is_told)
        log_ended(session);
    if (!session->is_told && session->calls->ended != NULL) {
        session->is_told = true;
        pthread_mutex_unlock(&session->lock);
        session->calls->ended(session->own, session->why);
        pthread_mutex_lock(&session->lock);
    }
    session->is_told = true;
    wake_up(session->stop);
}

/* One turn: calls, and the rings that are due. */
static void serve_what_is_ready(struct session *session)
{
    take_events(session);
    if (session->frontend.opaque == NULL)
        return;
    if ((session->is_called || session->waits != 0) && !has_ended(session))
        serve_calls(session);
    serve_rings(session);
}

/* (only the serving thread writes it) */
static void count_turn(const struct session *session, uint64_t began)
{
    covretin_device_stats *stats = session->calls->stats;
    uint64_t took = stats != NULL ? time_now() - began : 0;
    if (stats != NULL && took > stats->longest_turn)
        __atomic_store_n(&stats->longest_turn, took, __ATOMIC_RELAXED);
}

enum covretin_error covretin_device_serve(covretin_device *device)
{
    struct session *session = device->opaque;
    enum covretin_error why = COVRETIN_NOT_YET;
    if (session == NULL)
        return COVRETIN_NO_SESSION;
    take_faults();
    pthread_mutex_lock(&session->lock);
    uint64_t began = time_now();
    session->ends_at = began + TURN;
    session->is_waiting = false;
    serve_what_is_ready(session);
    for (unsigned turn = 1; turn < MOST_TURNS && !has_ended(session) && rings_busy_poll(session); turn++)
        serve_what_is_ready(session);
    if (session->frontend.opaque != NULL) {
        if (has_ended(session)) {
            leave_rings(session);
            give_up(session);
        } else
            plan(session);
    }
    if (session->why != COVRETIN_OK && session->out == 0) {
        tell_end(session);
        why = session->why;
    }
    count_turn(session, began);
    session->is_waiting = true;
    pthread_mutex_unlock(&session->lock);
    return why;
}

/* -- Their life -- */

bool poll_for(const struct session *session, int fd, uint32_t of)
{
    struct epoll_event ready = {.events = EPOLLIN, .data.u32 = of};
    return fd >= 0 && epoll_ctl(session->polled, EPOLL_CTL_ADD, fd, &ready) == 0;
}

/* Whether this thread, and those that it begins, may use one processor alone. */
static bool is_on_one_processor(void)
{
    cpu_set_t set;
    return sched_getaffinity(0, sizeof set, &set) == 0 && CPU_COUNT(&set) == 1;
}

/* What the system and the proved part have to give for a session. SOCKET_ERROR, OUT_OF_MEMORY. */
static enum covretin_error prepare(struct session *session)
{
    session->polled = epoll_create1(EPOLL_CLOEXEC);
    session->holder.wake = eventfd(0, EFD_CLOEXEC | EFD_NONBLOCK);
    session->stop = eventfd(0, EFD_CLOEXEC | EFD_NONBLOCK);
    session->timer = timerfd_create(CLOCK_MONOTONIC, TFD_CLOEXEC | TFD_NONBLOCK);
    session->empty = memfd_create("empty", MFD_CLOEXEC);
    session->holder.share = share_new();
    if (session->holder.share == NULL)
        return COVRETIN_OUT_OF_MEMORY;
    if (session->polled < 0 || session->empty < 0 || !poll_for(session, session->holder.wake, WAKE) ||
        !poll_for(session, session->stop, STOP) || !poll_for(session, session->timer, TIMER) ||
        !teller_prepare(session) || !signals_prepare())
        return COVRETIN_SOCKET_ERROR;
    session->arrival = (struct arrival){.holder = &session->holder, .userfault = -1, .stop = session->stop, .signals = session->signals};
    for (uint32_t i = 0; i < session->calls->queues; i++)
        if (covretin_queue_open(&session->rings[i].queue))
            return COVRETIN_OUT_OF_MEMORY;
    return COVRETIN_OK;
}

/* Whether a device can be made of this table. What this version knows nothing of is not left aside in silence. */
static enum covretin_error check_table(const covretin_device_calls *calls)
{
    if ((calls->request == NULL && calls->requests == NULL) || calls->queues == 0 || calls->queues > COVRETIN_DEVICE_MAX_QUEUES ||
        calls->max_queue_size > COVRETIN_DEVICE_MAX_QUEUE_SIZE)
        return COVRETIN_INVALID_PARAM;
    for (size_t i = 0; i < sizeof calls->later / sizeof *calls->later; i++)
        if (calls->later[i] != 0)
            return COVRETIN_INVALID_PARAM;
#ifdef COVRETIN_DEBUG
    if (!are_faults_taken())
        return COVRETIN_INVALID_PARAM;
#endif
    return COVRETIN_OK;
}

/* The frontend that waits at a listener, or that is behind this socket, which is polled before it is the session's: all that can fail does so
 * while it is the caller's. */
static enum covretin_error take_frontend(struct session *session, covretin_listener *listener, int fd)
{
    enum covretin_error error = listener != NULL ? covretin_accept(listener, &session->frontend, 0) : transport_check_socket(fd);
    if (error != COVRETIN_OK)
        return error;
    if (!poll_for(session, listener != NULL ? covretin_service_fd(&session->frontend) : fd, SOCKET))
        return COVRETIN_SOCKET_ERROR;
    error = listener != NULL ? COVRETIN_OK : covretin_serve_fd(&session->frontend, fd);
    if (error == COVRETIN_OK)
        serving_set_hook(session->frontend.opaque,
                         &(struct serving_hook){session->calls->other != NULL ? answer_other : NULL, count_refusal, session});
    return error;
}

static enum covretin_error open_session(covretin_device *device, const covretin_device_calls *calls, void *own,
                                        covretin_listener *listener, int fd, int signals)
{
    struct session *session;
    enum covretin_error error;
    int was;
    if (device->opaque != NULL)
        return COVRETIN_SESSION_OPEN;
    error = check_table(calls);
    if (error != COVRETIN_OK)
        return error;
    session = calloc(1, sizeof *session);
    if (session == NULL)
        return COVRETIN_OUT_OF_MEMORY;
    pthread_mutex_init(&session->lock, NULL);
    session->calls = calls;
    session->own = own;
    session->signals = signals;
    session->inflight_fd = session->teller.timer = -1;
    session->is_on_one_processor = calls->busy_poll_us != 0 && is_on_one_processor();
    for (uint32_t i = 0; i < COVRETIN_DEVICE_MAX_QUEUES; i++) {
        session->rings[i].kick = -1;
        session->rings[i].call.fd = session->rings[i].error.fd = -1;
    }
    error = prepare(session);
    if (error == COVRETIN_OK)
        error = take_frontend(session, listener, fd);
    session->events = POLLIN;
    session->is_called = true;
    if (error == COVRETIN_OK) {
        device->opaque = session;
        COUNT(session, sessions, 1);
        return COVRETIN_OK;
    }
    was = errno;
    covretin_hang_up(&session->frontend);
    session_free(session);
    errno = was;
    return error;
}

enum covretin_error covretin_device_open(covretin_device *device, const covretin_device_calls *calls, void *own,
                                         covretin_listener *listener)
{
    return open_session(device, calls, own, listener, -1, -1);
}

enum covretin_error covretin_device_open_fd(covretin_device *device, const covretin_device_calls *calls, void *own, int fd)
{
    return open_session(device, calls, own, NULL, fd, -1);
}

int covretin_device_fd(const covretin_device *device)
{
    const struct session *session = device->opaque;
    return session != NULL ? session->polled : -1;
}

void covretin_device_stop(covretin_device *device)
{
    struct session *session = device->opaque;
    int was = errno;
    if (session != NULL) {
        session->is_stopped = true;
        wake_up(session->stop);
    }
    errno = was;
}

void covretin_device_close(covretin_device *device)
{
    struct session *session = device->opaque;
    bool is_last;
    if (session == NULL)
        return;
    covretin_device_stop(device); /* whoever waits for a page goes on */
    pthread_mutex_lock(&session->lock);
    has_ended(session);
    give_up(session);
    session->is_closed = true;
    is_last = session->out == 0;
    pthread_mutex_unlock(&session->lock);
    device->opaque = NULL;
    if (is_last)
        session_free(session);
}

/* -- Requests -- */

/* What held so many requests holds none any more. Neighbours are mostly in one space, which is let go of once then. */
static void drop_many(struct session *session, covretin_request *const *requests, size_t count)
{
    struct space *space = NULL;
    size_t users = 0;
    for (size_t i = 0; i < count; i++, users++) {
        struct taken *taken = (struct taken *)(void *)requests[i];
        if (taken->space != space) {
            space_release_many(space, users);
            space = taken->space;
            users = 0;
        }
        taken_drop(session, taken);
    }
    space_release_many(space, users);
}

/* Those of a queue that lie side by side are given back together: how many these are. */
static size_t done_alike(struct session *session, covretin_request *const *requests, const uint32_t *written, size_t count)
{
    struct ring *ring = &session->rings[requests[0]->queue];
    size_t alike = 1;
    while (alike < count && requests[alike]->queue == requests[0]->queue)
        alike++;
    if (!has_ended(session))
        ring_give(session, ring, requests, written, alike);
    drop_many(session, requests, alike);
    ring_count_in(session, ring, alike);
    return alike;
}

void covretin_requests_done(covretin_request *const *requests, const uint32_t *written, size_t count)
{
    struct session *session;
    bool is_last;
    if (count == 0)
        return;
    session = ((struct taken *)(void *)requests[0])->session;
    take_faults();
    pthread_mutex_lock(&session->lock);
    for (size_t done = 0; done < count;)
        done += done_alike(session, requests + done, written + done, count - done);
    if (session->waits != 0 || session->why != COVRETIN_OK)
        wake_up(session->holder.wake);
    is_last = session->is_closed && session->out == 0;
    pthread_mutex_unlock(&session->lock);
    if (is_last)
        session_free(session);
}

void covretin_request_done(covretin_request *request, uint32_t written)
{
    covretin_requests_done(&request, &written, 1);
}

static size_t session_take(struct session *session, uint32_t queue, covretin_request **requests, size_t most)
{
    size_t count;
    if (queue >= session->calls->queues)
        return 0;
    take_faults();
    pthread_mutex_lock(&session->lock);
    count = ring_take(session, &session->rings[queue], requests, most);
    if (session->rings[queue].is_due || has_ended(session))
        wake_up(session->holder.wake);
    pthread_mutex_unlock(&session->lock);
    return count;
}

size_t covretin_requests_take(const covretin_request *request, uint32_t queue, covretin_request **requests, size_t most)
{
    return session_take(((const struct taken *)(const void *)request)->session, queue, requests, most);
}

covretin_request *covretin_request_take(const covretin_request *request, uint32_t queue)
{
    covretin_request *found = NULL;
    return covretin_requests_take(request, queue, &found, 1) == 1 ? found : NULL;
}

covretin_request *covretin_device_take(covretin_device *device, uint32_t queue)
{
    covretin_request *found = NULL;
    return device->opaque != NULL && session_take(device->opaque, queue, &found, 1) == 1 ? found : NULL;
}

bool covretin_request_is_lost(const covretin_request *request)
{
    return ((const struct taken *)(const void *)request)->session->holder.has_lost;
}

/* Copies between bytes, unless these are NULL, and the beginning of these segments. */
static size_t copy(struct iovec *segments, size_t count, uint8_t *bytes, size_t len, bool is_read)
{
    size_t done = 0;
    take_faults();
    for (size_t i = 0; i < count && done < len; i++) {
        size_t part = segments[i].iov_len < len - done ? segments[i].iov_len : len - done;
        if (is_read && bytes != NULL)
            memcpy(bytes + done, segments[i].iov_base, part);
        else if (bytes != NULL)
            memcpy(segments[i].iov_base, bytes + done, part);
        segments[i] = (struct iovec){(uint8_t *)segments[i].iov_base + part, segments[i].iov_len - part};
        done += part;
    }
    return done;
}

size_t covretin_request_read(covretin_request *request, void *bytes, size_t len)
{
    return copy(request->segments, request->readable, bytes, len, true);
}

size_t covretin_request_write(covretin_request *request, const void *bytes, size_t len)
{
    return copy(request->segments + request->readable, request->writable, (uint8_t *)(uintptr_t)bytes, len, false);
}

/* -- All of it -- */

/* Hangs up on another frontend, which would wait for its first reply as long as this one stays. Where this one has gone the other, who may
 * be the same again, is left to be served next. */
static void refuse_another(covretin_listener *listener, const covretin_device *device)
{
    const struct session *session = device->opaque;
    struct pollfd gone = {.fd = covretin_service_fd(&session->frontend)};
    covretin_service other = {0};
    if (gone.fd < 0 || poll(&gone, 1, 0) != 0 || covretin_accept(listener, &other, 0) != COVRETIN_OK)
        return;
    covretin_hang_up(&other);
    if (session->calls->turned_away != NULL)
        session->calls->turned_away(session->own);
}

/* Whether a wait ended by itself: an error is no reason to wait again, unless a signal that the program handles came amid it. */
static bool can_wait(int polled)
{
    return polled >= 0 || errno == EINTR;
}

/* Serves the frontend that is there until it goes: NOT_YET. 0: a signal came. SOCKET_ERROR: the system does not let it wait. */
static enum covretin_error serve_frontend(covretin_device *device, covretin_listener *listener, int signals)
{
    const covretin_device_calls *calls = ((const struct session *)device->opaque)->calls;
    for (bool takes_input = true;;) {
        const struct session *session = device->opaque;
        /* (a frontend that waits is left to wait where this one's requests are still to be done) */
        int waiting = listener != NULL && session->frontend.opaque != NULL ? covretin_listener_fd(listener) : -1;
        struct pollfd polled[] = {{.fd = covretin_device_fd(device), .events = POLLIN},
                                  {.fd = waiting, .events = POLLIN},
                                  {.fd = signals, .events = POLLIN},
                                  {.fd = takes_input && calls->input_ready != NULL ? calls->input : -1, .events = POLLIN}};
        int ready = poll(polled, 4, -1);
        if (!can_wait(ready))
            return COVRETIN_SOCKET_ERROR;
        if (ready < 0)
            continue;
        if (polled[2].revents != 0)
            return COVRETIN_OK;
        if (polled[1].revents != 0)
            refuse_another(listener, device);
        if (polled[0].revents != 0 && covretin_device_serve(device) != COVRETIN_NOT_YET)
            return COVRETIN_NOT_YET;
        if (polled[3].revents != 0 || (!takes_input && polled[0].revents != 0))
            takes_input = calls->input_ready(session->own, device);
    }
}

static enum covretin_error serve_all(const covretin_device_calls *calls, void *own, covretin_listener *listener, int signals)
{
    for (;;) {
        struct pollfd polled[] = {{.fd = covretin_listener_fd(listener), .events = POLLIN}, {.fd = signals, .events = POLLIN}};
        covretin_device device = {0};
        enum covretin_error error;
        int ready = poll(polled, 2, -1), was;
        if (!can_wait(ready))
            return COVRETIN_SOCKET_ERROR;
        if (ready < 0)
            continue;
        if (polled[1].revents != 0)
            return COVRETIN_OK;
        error = open_session(&device, calls, own, listener, -1, signals);
        if (error == COVRETIN_TIMED_OUT)
            continue;
        if (error != COVRETIN_OK)
            return error;
        error = serve_frontend(&device, listener, signals);
        was = errno;
        covretin_device_close(&device);
        errno = was;
        if (error != COVRETIN_NOT_YET)
            return error;
    }
}

/* SIGTERM and SIGINT, which are blocked meanwhile and are to be read here. */
struct ending {
    sigset_t were;
    int signals;
};

/* (and whether there is a device to run) */
static enum covretin_error ending_begin(const covretin_device_calls *calls, struct ending *ending)
{
    enum covretin_error error = check_table(calls);
    sigset_t ends;
    sigemptyset(&ends);
    sigaddset(&ends, SIGTERM);
    sigaddset(&ends, SIGINT);
    pthread_sigmask(SIG_BLOCK, &ends, &ending->were);
    ending->signals = signalfd(-1, &ends, SFD_CLOEXEC | SFD_NONBLOCK);
    return error == COVRETIN_OK && ending->signals < 0 ? COVRETIN_SOCKET_ERROR : error;
}

/* Returns the error; errno stays. */
static enum covretin_error ending_end(const struct ending *ending, enum covretin_error error)
{
    struct signalfd_siginfo taken;
    int was = errno;
    if (error == COVRETIN_OK)
        (void)!read(ending->signals, &taken, sizeof taken); /* else it would end the program once it is not blocked */
    close_if(ending->signals);
    pthread_sigmask(SIG_SETMASK, &ending->were, NULL);
    errno = was;
    return error;
}

enum covretin_error covretin_device_run(const covretin_device_calls *calls, void *own, const char *path)
{
    covretin_listener listener = {0};
    struct ending ending;
    enum covretin_error error = ending_begin(calls, &ending);
    if (error == COVRETIN_OK)
        error = covretin_listen(&listener, path);
    if (error == COVRETIN_OK)
        error = serve_all(calls, own, &listener, ending.signals);
    int was = errno;
    covretin_unlisten(&listener);
    errno = was;
    return ending_end(&ending, error);
}

enum covretin_error covretin_device_run_listener(const covretin_device_calls *calls, void *own, covretin_listener *listener)
{
    struct ending ending;
    enum covretin_error error = ending_begin(calls, &ending);
    if (error == COVRETIN_OK)
        error = listener->opaque != NULL ? serve_all(calls, own, listener, ending.signals) : COVRETIN_NO_SESSION;
    return ending_end(&ending, error);
}

enum covretin_error covretin_device_run_fd(const covretin_device_calls *calls, void *own, int fd)
{
    covretin_device device = {0};
    struct ending ending;
    enum covretin_error error = ending_begin(calls, &ending);
    if (error == COVRETIN_OK)
        error = open_session(&device, calls, own, NULL, fd, ending.signals);
    if (error == COVRETIN_OK)
        error = serve_frontend(&device, NULL, ending.signals);
    if (error == COVRETIN_NOT_YET)
        error = covretin_device_serve(&device);
    int was = errno;
    covretin_device_close(&device);
    errno = was;
    return ending_end(&ending, error);
}
