/* SPDX-License-Identifier: Apache-2.0 */
/* Checked: c/covretin_device.c, the event loop of a device and its life, over any frontend, any device, any rings and any events. */
#include "any_device.h"

#include "covretin_device.c"

/* -- Any rings, calls, channel and postcopy: what covretin_device_session.h allows -- */

static void is_locked(void)
{
    HOLDS(locks_held == 1, "all of a session is behind its lock");
}

/* A turn goes on, or an allocation fails amid it. */
static void goes_on(struct session *session)
{
    is_locked();
    if (session->why == COVRETIN_OK && any_bool())
        session->why = COVRETIN_OUT_OF_MEMORY;
}

void part_begin(struct session *session)
{
    session->since_look = 0;
    is_locked();
}

static unsigned parts; /* (a frontend that sends without end is left alone until the next turn) */

bool part_is_over(struct session *session, unsigned done)
{
    (void)session;
    HOLDS(done == LOOK_AFTER, "one call at a time is counted");
    return parts++ >= 1 || any_bool();
}

uint64_t time_now(void)
{
    static uint64_t now;
    uint64_t next = any_u64();
    GIVEN(next >= now && next < (uint64_t)1 << 62);
    return now = next;
}

bool ring_serve(struct session *session, struct ring *ring)
{
    HOLDS(ring->is_due, "it is due");
    ring->is_due = any_bool();
    goes_on(session);
    return any_bool();
}

void ring_kicked(const struct session *session, struct ring *ring)
{
    (void)session;
    is_locked();
    ring->is_due = true;
}

bool rings_busy_poll(struct session *session)
{
    is_locked();
    session->is_stopped = session->is_stopped || any_bool(); /* (the lock is let go of meanwhile) */
    return any_bool();
}

enum covretin_error answer_call(struct session *session, uint32_t call)
{
    (void)call;
    session->is_refused = any_bool();
    goes_on(session);
    return any_bool() ? COVRETIN_OK : (enum covretin_error)any_int();
}

bool has_to_wait(struct session *session, uint32_t call)
{
    (void)call;
    is_locked();
    return session->out != 0 && any_bool();
}

int answer_other(void *context, uint32_t request, const uint8_t *bytes, size_t len, const int32_t *fds, size_t count)
{
    (void)context, (void)request, (void)bytes, (void)len, (void)fds, (void)count;
    return 0;
}

void close_inflight_fd(struct session *session)
{
    if (session->inflight_fd >= 0)
        fd_gone(session->inflight_fd);
    session->inflight_fd = -1;
}

void teller_go_on(struct session *session)
{
    (void)session;
    is_locked();
}

void teller_look(struct session *session)
{
    is_locked();
    session->is_stopped = session->is_stopped || any_bool();
}

bool teller_prepare(struct session *session)
{
    session->teller.timer = timerfd_create(CLOCK_MONOTONIC, TFD_CLOEXEC | TFD_NONBLOCK);
    return poll_for(session, session->teller.timer, CHANNEL_TIMER);
}

void teller_end(struct session *session)
{
    (void)session;
}

void teller_free(struct session *session)
{
    teller_end(session);
    if (session->teller.timer >= 0)
        fd_gone(session->teller.timer);
}

void arrival_lose(const struct arrival *arrival)
{
    HOLDS(arrival->userfault < 0 || fd_is_open(arrival->userfault), "it has not ended");
}

struct share {
    int none;
};

struct share *share_new(void)
{
    return malloc(sizeof(struct share));
}

void share_release(struct share *share)
{
    free(share);
}

/* (what is kept for requests is a ring's to keep) */
void taken_drop(struct session *session, struct taken *taken)
{
    (void)session;
    free(taken);
}

void taken_free_kept(struct session *session)
{
    HOLDS(session->spare_count == 0, "nothing is kept");
}

bool signals_prepare(void)
{
    return any_bool();
}

void log_refused(struct session *session, uint32_t request, enum covretin_error error)
{
    (void)session, (void)request;
    HOLDS(error != COVRETIN_OK, "there is a reason");
}

void log_ended(const struct session *session)
{
    HOLDS(session->why != COVRETIN_OK, "there is a reason");
}

/* -- Any frontend, at a socket that is the session's -- */

static struct serving room, other; /* behind the session's service, and behind another frontend's */
static int the_socket = -1, other_socket = -1;

int covretin_service_fd(const covretin_service *service)
{
    return service->opaque != NULL ? the_socket : -1;
}

uint32_t covretin_service_request(const covretin_service *service)
{
    (void)service;
    return any_u32();
}

bool covretin_service_ended(const covretin_service *service)
{
    return service->opaque == NULL || any_bool();
}

enum covretin_error covretin_next_call_nowait(covretin_service *service, uint32_t *call, short *events)
{
    HOLDS(service->opaque != NULL, "there is a frontend");
    *call = any_u32();
    *events = (short)any_int();
    GIVEN(*call != 0);
    return any_bool() ? COVRETIN_OK : any_bool() ? COVRETIN_NOT_YET : (enum covretin_error)any_int();
}

uint32_t covretin_backend_ended(covretin_backend *backend)
{
    (void)backend;
    return any_u32();
}

enum covretin_error covretin_serve_fd(covretin_service *service, int fd)
{
    if (service->opaque != NULL || any_bool())
        return COVRETIN_OUT_OF_MEMORY;
    service->opaque = &room;
    the_socket = fd;
    return COVRETIN_OK;
}

void covretin_hang_up(covretin_service *service)
{
    if (service->opaque != NULL)
        fd_gone(service->opaque == &room ? the_socket : other_socket);
    service->opaque = NULL;
}

enum covretin_error covretin_accept(covretin_listener *listener, covretin_service *service, int milliseconds)
{
    HOLDS(listener->opaque != NULL && service->opaque == NULL && milliseconds == 0, "it does not wait");
    if (any_bool())
        return any_bool() ? COVRETIN_TIMED_OUT : COVRETIN_SOCKET_ERROR;
    if (fd_is_open(the_socket)) {
        service->opaque = &other;
        other_socket = fd_new();
    } else {
        service->opaque = &room;
        the_socket = fd_new();
    }
    return COVRETIN_OK;
}

int covretin_listener_fd(const covretin_listener *listener)
{
    return listener->opaque != NULL ? 0 : -1;
}

enum covretin_error transport_check_socket(int fd)
{
    (void)fd;
    return any_bool() ? COVRETIN_OK : COVRETIN_NOT_STREAM_SOCKET;
}

enum covretin_error serving_set_hook(struct serving *serving, const struct serving_hook *hook)
{
    HOLDS(serving == &room && hook->refused == count_refusal, "it is told before its peer can know");
    return COVRETIN_OK;
}

/* -- The proved part -- */

static unsigned queues_open;

enum covretin_queue_error covretin_queue_open(covretin_queue *queue)
{
    HOLDS(queue->opaque == NULL, "it is opened once");
    if (any_bool())
        return COVRETIN_QUEUE_OUT_OF_MEMORY;
    queue->opaque = &queues_open;
    queues_open++;
    return COVRETIN_QUEUE_OK;
}

void covretin_queue_close(covretin_queue *queue)
{
    queues_open -= queue->opaque != NULL;
    queue->opaque = NULL;
}

/* -- What else it calls -- */

int epoll_create1(int flags)
{
    HOLDS(flags & EPOLL_CLOEXEC, "epoll_create1: it is closed by exec");
    return any_bool() ? -1 : fd_new();
}

int epoll_wait(int polled, struct epoll_event *ready, int most, int milliseconds)
{
    int count = any_int();
    HOLDS(fd_is_open(polled) && milliseconds == 0, "epoll_wait: it is open, and is not waited for");
    HOLDS(__CPROVER_w_ok(ready, (size_t)most * sizeof *ready), "epoll_wait: there is room");
    GIVEN(count >= -1 && count <= MOST_EVENTS);
    for (int i = 0; i < MOST_EVENTS; i++) {
        ready[i].events = any_u32();
        ready[i].data.u32 = any_u32();
        GIVEN(ready[i].data.u32 < MOST_READY);
    }
    return count;
}

ssize_t preadv2(int fd, const struct iovec *parts_there, int count, off_t offset, int flags)
{
    HOLDS(fd_is_open(fd) && flags & RWF_NOWAIT, "preadv2: it is open, and is not waited for");
    HOLDS(count == 1 && offset == -1 && __CPROVER_w_ok(parts_there->iov_base, parts_there->iov_len), "preadv2: there is room");
    errno = any_int();
    return any_bool() ? -1 : any_bool() ? 8 : (ssize_t)(any_size() % 8);
}

int sched_getaffinity(pid_t process, size_t size, cpu_set_t *set)
{
    (void)process;
    HOLDS(__CPROVER_w_ok(set, size), "sched_getaffinity: there is room");
    return any_bool() ? -1 : 0;
}

int __sched_cpucount(size_t size, const cpu_set_t *set)
{
    HOLDS(__CPROVER_r_ok(set, size), "the set is there");
    return any_int();
}

int signalfd(int fd, const sigset_t *set, int flags)
{
    (void)set;
    HOLDS(fd == -1 && flags & SFD_NONBLOCK, "signalfd: a new one, which does not wait");
    return any_bool() ? -1 : fd_new();
}

/* -- Any device -- */

static covretin_device_calls calls;
static covretin_device_stats stats;
static unsigned ends;

static void is_called(void *own)
{
    HOLDS(locks_held == 0 && own == &calls, "no lock is held while the device is called");
}

static void any_request(void *own, covretin_request *request)
{
    (void)request;
    is_called(own);
}

static void any_refused(void *own, uint32_t request, enum covretin_error error)
{
    (void)request;
    is_called(own);
    HOLDS(error != COVRETIN_OK, "there is a reason");
}

static void any_ended(void *own, enum covretin_error error)
{
    is_called(own);
    HOLDS(error != COVRETIN_OK && ends++ == 0, "it is said once, with its reason");
}

static void any_turned_away(void *own)
{
    is_called(own);
}

static bool any_input(void *own, covretin_device *device)
{
    is_called(own);
    HOLDS(device->opaque != NULL, "there is a session");
    return any_bool();
}

static covretin_device_calls *any_calls(void)
{
    calls = (covretin_device_calls){.request = any_request, .queues = any_bool() ? 1 : 2, .busy_poll_us = any_u32(), .input = -1};
    calls.refused = any_bool() ? any_refused : NULL;
    calls.ended = any_bool() ? any_ended : NULL;
    calls.turned_away = any_bool() ? any_turned_away : NULL;
    calls.input_ready = any_bool() ? any_input : NULL;
    calls.stats = any_bool() ? &stats : NULL;
    return &calls;
}

/* -- Any session -- */

static int any_fd(void)
{
    bool is_there = any_bool();
    int fd = fd_new_if(is_there);
    return is_there ? fd : -1;
}

/* What it waits by is there; its frontend, its kicks and what that gave may be. Its rings are closed with it. */
static struct session *any_session(void)
{
    struct session *it = malloc(sizeof *it);
    GIVEN(it != NULL);
    *it = (struct session){.calls = any_calls(), .own = &calls, .signals = -1, .inflight_fd = -1, .arrival.userfault = -1, .teller.timer = -1};
    it->polled = fd_new();
    it->holder.wake = fd_new();
    it->stop = fd_new();
    it->timer = it->empty = -1;
    it->waits = any_u32();
    it->out = any_size();
    it->events = (short)any_int();
    it->is_called = any_bool();
    it->is_stopped = any_bool();
    it->holder.has_lost = any_bool();
    it->is_timed = any_bool();
    it->is_refused = any_bool();
    it->has_counted = any_bool();
    it->first = any_u32();
    GIVEN(it->first <= COVRETIN_DEVICE_MAX_QUEUES);
    the_socket = fd_new_if(any_bool());
    it->frontend.opaque = fd_is_open(the_socket) ? &room : NULL;
    it->why = it->frontend.opaque == NULL || any_bool() ? COVRETIN_DISCONNECTED : COVRETIN_OK; /* (none has gone before the session ended) */
    for (int i = 0; i < COVRETIN_DEVICE_MAX_QUEUES; i++) {
        it->rings[i].kick = it->rings[i].call.fd = it->rings[i].error.fd = -1;
        it->rings[i].is_started = any_bool();
        it->rings[i].is_due = any_bool();
    }
    if (it->frontend.opaque != NULL && calls.queues == 2)
        it->rings[1].kick = any_fd();
    return it;
}

/* It is not held by anybody any more. */
static void ends_with(struct session *it)
{
    nothing_is_held();
    for (int i = 0; i < COVRETIN_DEVICE_MAX_QUEUES; i++)
        ring_stop(it, &it->rings[i]);
    covretin_hang_up(&it->frontend);
    session_free(it);
    fds_are_closed(-1);
}

/* -- Checks -- */

void check_loop_events(void)
{
    struct session *it = any_session();
    GIVEN(it->frontend.opaque != NULL);
    it->timer = fd_new();
    it->teller.timer = fd_new();
    pthread_mutex_lock(&it->lock);
    take_events(it);
    plan(it);
    is_locked();
    pthread_mutex_unlock(&it->lock);
    ends_with(it);
    REACHED("taken");
}

void check_loop_calls(void)
{
    struct session *it = any_session();
    GIVEN(it->frontend.opaque != NULL && it->why == COVRETIN_OK);
    pthread_mutex_lock(&it->lock);
    serve_calls(it);
    if (it->waits != 0)
        REACHED("a call waits");
    serve_rings(it);
    HOLDS(it->first <= calls.queues || it->first <= COVRETIN_DEVICE_MAX_QUEUES, "the ring that is served first is one of these");
    is_locked();
    pthread_mutex_unlock(&it->lock);
    ends_with(it);
    REACHED("served");
}

/* All that a frontend gave is given up, once. */
void check_loop_give_up(void)
{
    struct session *it = any_session();
    static uint8_t bytes[1];
    it->space = any_bool() ? space_made() : NULL;
    it->log = any_bool() ? mapping_made(bytes, 1) : NULL;
    it->inflight = any_bool() ? mapping_made(bytes, 1) : NULL;
    it->inflight_fd = any_fd();
    it->arrival.userfault = any_fd();
    it->rings[0].call.fd = any_fd();
    it->rings[0].error.fd = any_fd();
    give_up(it);
    HOLDS(it->space == NULL && it->log == NULL && it->inflight == NULL && it->frontend.opaque == NULL, "nothing of it is left");
    give_up(it);
    ends_with(it);
    REACHED("given up");
}

/* One turn of any session. */
void check_loop_serve(void)
{
    struct session *it = any_session();
    covretin_device device = {.opaque = it}, none = {.opaque = NULL};
    it->timer = fd_new();
    it->teller.timer = fd_new();
    enum covretin_error why = covretin_device_serve(&device);
    nothing_is_held();
    HOLDS(why == COVRETIN_NOT_YET || (it->frontend.opaque == NULL && it->out == 0), "the end is said once nothing is left");
    HOLDS(covretin_device_fd(&device) == it->polled && covretin_device_fd(&none) == -1, "what is waited for");
    HOLDS(covretin_device_serve(&none) == COVRETIN_NO_SESSION, "there is no session");
    if (why == COVRETIN_NOT_YET)
        REACHED("it goes on");
    else
        REACHED("it has ended");
    ends_with(it);
}

/* A session begins, or does not; it is stopped, and closed. */
void check_loop_open(void)
{
    covretin_device device = {.opaque = any_bool() ? &room : NULL};
    void *was = device.opaque;
    covretin_listener listener = {.opaque = &room};
    covretin_device_calls *table = any_calls();
    int fd = fd_new_if(LAYOUT == 1);
    table->queues = any_bool() ? table->queues : any_u32();
    const size_t last = sizeof table->later / sizeof *table->later - 1;
    table->max_queue_size = any_u32();
    table->later[last] = any_bool();
    enum covretin_error error =
        LAYOUT == 1 ? covretin_device_open_fd(&device, table, &calls, fd) : covretin_device_open(&device, table, &calls, &listener);
    if (error) {
        REACHED("not opened");
        HOLDS(device.opaque == was && queues_open == 0, "after an error all is as before");
        fds_are_closed(LAYOUT == 1 ? fd : -1);
        return;
    }
    REACHED("opened");
    HOLDS(queues_open == table->queues && table->later[last] == 0, "a table that is one");
    HOLDS(table->max_queue_size <= COVRETIN_DEVICE_MAX_QUEUE_SIZE, "whose queues are no larger than they may be");
    errno = any_int();
    int before = errno;
    covretin_device_stop(&device);
    HOLDS(errno == before, "errno stays");
    covretin_device_close(&device);
    HOLDS(device.opaque == NULL && queues_open == 0, "it is closed");
    covretin_device_close(&device);
    covretin_device_stop(&device);
    nothing_is_held();
    fds_are_closed(-1);
}

/* -- Requests -- */

size_t ring_take(struct session *session, struct ring *ring, covretin_request **requests, size_t most)
{
    static struct taken taken;
    (void)session;
    is_locked();
    HOLDS(__CPROVER_w_ok(requests, most * sizeof *requests), "there is room for the requests");
    ring->is_due = any_bool();
    if (most == 0 || any_bool())
        return 0;
    requests[0] = &taken.request;
    return 1;
}

void ring_give(struct session *session, struct ring *ring, covretin_request *const *requests, const uint32_t *written, size_t count)
{
    is_locked();
    HOLDS(__CPROVER_r_ok(requests, count * sizeof *requests) && __CPROVER_r_ok(written, count * sizeof *written), "they are there");
    HOLDS(ring == &session->rings[requests[0]->queue] && session->why == COVRETIN_OK, "they are the ring's, and the session goes on");
}

void ring_count_in(struct session *session, struct ring *ring, size_t count)
{
    is_locked();
    HOLDS(ring->out >= count && session->out >= count, "no more than are out");
    ring->out -= count;
    session->out -= count;
}

/* A request that the device has; the session goes on, or has ended, or was closed. */
void check_loop_done(void)
{
    struct session *it = any_session();
    struct taken *taken = malloc(sizeof *taken);
    GIVEN(taken != NULL && it->out >= 1);
    it->is_closed = any_bool();
    *taken = (struct taken){.session = it, .space = space_made(), .request.queue = LAYOUT};
    it->rings[LAYOUT].out = any_size();
    GIVEN(it->rings[LAYOUT].out >= 1 && it->rings[LAYOUT].out <= it->out);
    GIVEN(!it->is_closed || (it->frontend.opaque == NULL && it->rings[1].kick < 0));
    bool is_last = it->is_closed && it->out == 1;
    HOLDS(covretin_request_is_lost(&taken->request) == it->holder.has_lost, "whether memory was lost");
    covretin_request *next = covretin_request_take(&taken->request, any_u32());
    covretin_device device = {.opaque = it}, none = {.opaque = NULL};
    if (next == NULL)
        (void)covretin_device_take(&device, any_u32());
    HOLDS(covretin_device_take(&none, 0) == NULL, "there is no session");
    covretin_request_done(&taken->request, any_u32());
    nothing_is_held();
    if (!is_last)
        ends_with(it);
    else
        REACHED("the session is freed with it");
    fds_are_closed(-1);
    REACHED("done");
}

/* Two segments, of which so many are to be read; and any number of bytes. Each case is one layout: a copy of any length costs too much. */
void check_loop_copy(void)
{
    enum { READABLE = LAYOUT % 3, LEN = LAYOUT / 3 };
    static uint8_t first[2], second[1], bytes[4];
    struct iovec segments[2] = {{first, sizeof first}, {second, sizeof second}};
    covretin_request request = {.segments = segments, .readable = READABLE, .writable = 2 - READABLE};
    const size_t here = READABLE == 2 ? 3 : READABLE == 1 ? 2 : 0, there = 3 - here;
    size_t was_read = covretin_request_read(&request, any_bool() ? bytes : NULL, LEN);
    HOLDS(was_read == (LEN < here ? LEN : here), "as many as there are, or as are wanted");
    size_t written = covretin_request_write(&request, any_bool() ? bytes : NULL, LEN);
    HOLDS(written == (LEN < there ? LEN : there), "as many as there is room for, or as are there");
    HOLDS(segments[0].iov_len + segments[1].iov_len == 3 - was_read - written, "these are taken off");
    was_read = covretin_request_read(&request, bytes, sizeof bytes);
    HOLDS(was_read == here - (LEN < here ? LEN : here), "and the rest is there still");
    REACHED("copied");
}

/* -- One frontend after another, until a signal comes: over what the checks above show of a session (goto-instrument puts these in their place) -- */

enum covretin_error any_serve(covretin_device *device)
{
    HOLDS(device->opaque != NULL, "there is a session");
    nothing_is_held();
    return any_bool() ? COVRETIN_NOT_YET : COVRETIN_DISCONNECTED;
}

enum covretin_error any_open_session(covretin_device *device, const covretin_device_calls *table, void *own, covretin_listener *listener, int fd,
                                     int signals)
{
    static struct session it;
    HOLDS(device->opaque == NULL && fd_is_open(signals) && own == &calls, "none is open, and signals are read");
    if (any_bool())
        return listener != NULL && any_bool() ? COVRETIN_TIMED_OUT : COVRETIN_SOCKET_ERROR;
    the_socket = listener != NULL ? fd_new() : fd;
    it.calls = table;
    it.own = own;
    it.frontend.opaque = &room;
    device->opaque = &it;
    return COVRETIN_OK;
}

void any_close_session(covretin_device *device)
{
    if (device->opaque != NULL)
        covretin_hang_up(&((struct session *)device->opaque)->frontend);
    device->opaque = NULL;
}

static int listening_fd = -1;

enum covretin_error covretin_listen(covretin_listener *listener, const char *path)
{
    HOLDS(path != NULL, "there is a path");
    if (any_bool())
        return COVRETIN_SOCKET_ERROR;
    listener->opaque = &room;
    listening_fd = fd_new();
    return COVRETIN_OK;
}

void covretin_unlisten(covretin_listener *listener)
{
    if (listener->opaque != NULL)
        fd_gone(listening_fd);
    listener->opaque = NULL;
}

/* A signal comes after so many turns at the latest. */
int any_poll(struct pollfd *polled, nfds_t count, int milliseconds)
{
    static unsigned polls;
    HOLDS(__CPROVER_rw_ok(polled, count * sizeof *polled) && milliseconds <= 0, "poll: its descriptors are there");
    bool comes = polls++ >= MOST_POLLS;
    if (!comes && any_bool())
        return -1;
    for (nfds_t i = 0; i < 4; i++)
        if (i < count)
            polled[i].revents = comes ? POLLIN : polled[i].fd < 0 ? 0 : (short)any_int();
    return any_int() & 1;
}

/* Of a path, a listener, and a socket. */
void check_loop_run(void)
{
    covretin_device_calls *table = any_calls();
    covretin_listener listener = {.opaque = LAYOUT == 1 && any_bool() ? &room : NULL};
    int fd = fd_new_if(LAYOUT == 2);
    enum covretin_error error = LAYOUT == 0   ? covretin_device_run(table, &calls, "path")
                                : LAYOUT == 1 ? covretin_device_run_listener(table, &calls, &listener)
                                              : covretin_device_run_fd(table, &calls, fd);
    HOLDS(LAYOUT != 1 || listener.opaque != NULL || error != COVRETIN_OK, "without a listener there is nothing to run");
    if (!error)
        REACHED("a signal came");
    else
        REACHED("it could not go on");
    nothing_is_held();
    fds_are_closed(LAYOUT == 2 && error == COVRETIN_SOCKET_ERROR ? fd : -1);
}
