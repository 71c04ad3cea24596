/* SPDX-License-Identifier: Apache-2.0 */
/* Checked: c/covretin_transport.c, over any session and any socket. Each harness begins with any transport that is as a call leaves one. */
#include "core.h"

#include "kernel.h"
#include <sys/un.h>

#include "covretin_transport.c"

/* -- Any session -- */

static size_t any_missing(void *session)
{
    return model_missing(session);
}

static enum covretin_error any_receive(void *session, const uint8_t *bytes, size_t bytes_len, const int32_t *fds, size_t fds_len)
{
    return model_receive(session, bytes, bytes_len, fds, fds_len);
}

static enum covretin_error any_to_send(void *session, uint8_t *bytes, size_t bytes_len, int32_t *fds, size_t fds_len, size_t *byte_count,
                                       size_t *fd_count)
{
    return model_to_send(session, bytes, bytes_len, fds, fds_len, byte_count, fd_count);
}

static enum covretin_error any_unclaimed(void *session, int32_t *fds, size_t fds_len, size_t *count)
{
    return model_unclaimed(session, fds, fds_len, count);
}

static enum covretin_error any_abandon(void *session)
{
    struct model *model = session;
    model->has_call = false; /* (a side's own abandon refuses a call that is to be replied to) */
    return model_abandon(session);
}

static enum covretin_error any_take(void *session)
{
    struct model *model = session;
    model->may_be_claimed = any_bool();
    return (enum covretin_error)any_int();
}

static bool is_session_open;

static enum covretin_error any_open(void *session, uint64_t rings)
{
    (void)session, (void)rings;
    if (any_bool())
        return any_bool() ? COVRETIN_SESSION_OPEN : COVRETIN_OUT_OF_MEMORY;
    is_session_open = true;
    return COVRETIN_OK;
}

static void any_close(void *session)
{
    (void)session;
    is_session_open = false;
}

static struct transport_side side = {any_missing, any_receive, any_to_send, any_unclaimed, any_abandon, any_take,
                                     false,       false,       any_open,    any_close};

/* -- Any transport -- */

/* What each call leaves. */
static void is_whole(const struct transport *it)
{
    HOLDS(it->at <= it->end && it->end <= sizeof it->bytes, "bytes[at .. end) are there");
    HOLDS(it->sent <= sizeof it->bytes, "it sent a message at most");
    HOLDS(it->fd_count <= COVRETIN_MAX_FDS, "fds[.. fd_count) are there");
    HOLDS(it->seen.late_fds <= it->seen.fds, "descriptors that came late are some of those that came");
    HOLDS(it->came_count <= COVRETIN_MAX_FDS, "came[.. came_count) are there");
    for (size_t i = 0; i < COVRETIN_MAX_FDS; i++)
        HOLDS(i >= it->came_count || fd_is_open(it->came[i]), "what came is open");
    HOLDS(fd_is_open(it->socket), "its socket is open");
    if (!it->brought)
        model_is_empty(it->session);
}

static struct model session;
static struct transport the;

/* Any that is whole. It has so many descriptors that came, and its session holds one. */
static struct transport *any_transport(void)
{
    struct transport any;
    the = any;
    side.hears_late = any_bool();
    side.is_given = any_bool();
    side.take = any_bool() ? any_take : NULL;
    the.side = &side;
    the.session = &session;
    the.socket = fd_new();
    GIVEN(the.at <= the.end && the.end <= sizeof the.bytes && the.sent <= sizeof the.bytes);
    GIVEN(the.fd_count <= COVRETIN_MAX_FDS && the.came_count <= 1);
    GIVEN(the.broken != COVRETIN_NOT_YET); /* (transport_settle notes none that goes on) */
    GIVEN(the.seen.late_fds <= the.seen.fds && the.seen.fds <= SIZE_MAX / 2 && the.seen.bytes <= SIZE_MAX / 2);
    the.came[0] = fd_new_if(the.came_count == 1);
    model_begin(&session, any_bool());
    int held = fd_new_if(the.brought);
    session.is_held[held] = the.brought;
    may_wait = the.waits;
    return &the;
}

/* What it has is given up: nothing is left open. */
static void ends(struct transport *it)
{
    is_whole(it);
    close_came(it);
    transport_close(it->socket);
    model_is_empty(&session);
    fds_are_closed(-1);
}

/* -- What stands instead of what has a harness of its own (goto-instrument puts it there) -- */

void any_close_fd(int fd)
{
    if (fd >= 0)
        fd_gone(fd);
}

void any_close_came(struct transport *it)
{
    struct model *model = it->session;
    for (size_t i = 0; i < COVRETIN_MAX_FDS; i++)
        if (i < it->came_count)
            fd_gone(it->came[i]);
    it->came_count = 0;
    for (int fd = 0; it->brought && fd < MOST_FDS; fd++)
        if (model->is_held[fd]) {
            model->is_held[fd] = false;
            fd_gone(fd);
        }
    it->brought = false;
}

void any_close_unclaimed(struct transport *it)
{
    struct model *model = it->session;
    for (int fd = 0; fd < MOST_FDS; fd++)
        if (model->is_held[fd] && (!(model->has_call || model->may_be_claimed) || any_bool())) {
            model->is_held[fd] = false;
            fd_gone(fd);
        }
}

/* -- Checks -- */

void check_transport_close(void)
{
    int fd = any_bool() ? fd_new() : -1;
    errno = any_int();
    int was = errno;
    transport_close(fd);
    HOLDS(errno == was, "errno stays");
    fds_are_closed(-1);
    REACHED("closed");
}

void check_transport_next(void)
{
    struct transport *it = any_transport();
    transport_next(it);
    HOLDS(!it->begun && it->came_count == 0 && !it->brought, "the next message may come");
    ends(it);
    REACHED("next");
}

void check_transport_send(void)
{
    struct transport *it = any_transport();
    static const uint8_t lent[MOST_LENT];
    size_t len = any_size();
    GIVEN(len <= MOST_LENT);
    if (any_bool())
        transport_lend(it, lent, len);
    else
        it->lent_len = 0;
    enum covretin_error error = transport_send(it);
    HOLDS(error || it->at == it->end || it->lent_len == 0, "all was sent");
    if (error == COVRETIN_INVALID_PARAM)
        REACHED("its descriptors cannot be passed on");
    if (error == COVRETIN_OUT_OF_MEMORY)
        REACHED("the system has no room");
    if (error == COVRETIN_NOT_YET)
        REACHED("the socket takes no more");
    if (!error)
        REACHED("sent");
    ends(it);
}

/* (what came is noted: check_note's) */
void any_note(struct transport *it, size_t got, size_t fds)
{
    HOLDS(got <= sizeof it->bytes && fds <= 2 * 2 * MOST_PIECES, "no more than there is room for");
    it->seen.fds = any_size();
    it->seen.late_fds = any_size();
    GIVEN(it->seen.late_fds <= it->seen.fds);
}

void check_note(void)
{
    struct transport *it = any_transport();
    size_t got = any_size(), fds = any_size();
    GIVEN(got <= sizeof it->bytes && fds <= SYSTEM_MAX_FDS);
    note(it, got, fds);
    HOLDS(got == 0 || it->seen.bytes >= got, "so many bytes came, or more");
    (void)transport_request(it);
    is_whole(it);
    REACHED("noted");
}

void check_receive_piece(void)
{
    struct transport *it = any_transport();
    lay_out(LAYOUT);
    it->at = it->end = 0;
    enum covretin_error error = receive_piece(it, any_bool() ? sizeof it->bytes : 1);
    if (!error)
        REACHED("received");
    if (error == COVRETIN_FDS_LOST)
        REACHED("descriptors are lost");
    if (error == COVRETIN_DISCONNECTED)
        REACHED("the peer went");
    ends(it);
}

/* (what comes with a piece is check_receive_piece's) */
enum covretin_error any_piece(struct transport *it, size_t most)
{
    HOLDS(it->at == 0 && it->end == 0 && most != 0 && most <= sizeof it->bytes, "there is room for a piece");
    if (any_bool())
        return any_bool() ? COVRETIN_NOT_YET : any_bool() ? COVRETIN_DISCONNECTED : COVRETIN_FDS_LOST;
    it->end = any_size();
    GIVEN(it->end >= 1 && it->end <= most);
    bool comes = it->came_count == 0 && any_bool();
    int fd = fd_new_if(comes);
    if (comes)
        it->came[it->came_count++] = fd;
    it->begun = true;
    return COVRETIN_OK;
}

void check_transport_receive(void)
{
    struct transport *it = any_transport();
    enum covretin_error error = transport_receive(it);
    if (!error)
        REACHED("received");
    if (error == COVRETIN_OUT_OF_MEMORY)
        REACHED("it could not be handed in");
    ends(it);
}

void check_transport_close_socket(void)
{
    int fd = fd_new();
    lay_out(LAYOUT);
    errno = any_int();
    int was = errno;
    transport_close_socket(fd, any_bool());
    HOLDS(errno == was, "errno stays");
    fds_are_closed(-1);
    REACHED("closed");
}

void check_transport_close_given(void)
{
    int fd = fd_new();
    thread_given = NULL;
    errno = any_int();
    int was = errno;
    closing = any_int();
    GIVEN(closing >= 0 && closing <= MOST_CLOSING);
    transport_close_given(fd);
    HOLDS(errno == was, "errno stays");
    if (fd_is_open(fd)) { /* a thread closes it */
        REACHED("by a thread");
        HOLDS(thread_given == (void *)(intptr_t)fd && closing >= 1, "a thread has it");
        lay_out(1);
        close_in_thread(thread_given);
    }
    HOLDS(closing >= 0 && closing <= MOST_CLOSING, "as many as are about to close");
    fds_are_closed(-1);
    REACHED("closed");
}

void check_forks(void)
{
    closing = any_int();
    prepare_forks();
    forget_closing();
    HOLDS(closing == 0, "a child has no threads");
    REACHED("forgotten");
}

void check_transport_connect(void)
{
    void *opaque = any_bool() ? &the : NULL;
    void *was = opaque;
    int fd = fd_new();
    enum covretin_error error = transport_connect(&opaque, &side, &session, 1, fd, sizeof(struct transport));
    HOLDS(fd_is_open(fd), "the socket is the transport's, or stays the caller's");
    HOLDS(transport_fd(opaque == &the ? NULL : opaque) == (error ? -1 : fd), "which socket it is");
    if (error) {
        REACHED("refused");
        HOLDS(opaque == was && !is_session_open, "after an error all is as before");
        return;
    }
    REACHED("connected");
    lay_out(1);
    transport_disconnect(&opaque, &session, any_close);
    HOLDS(opaque == NULL && !is_session_open, "both are closed");
    fds_are_closed(thread_given == (void *)(intptr_t)fd ? fd : -1);
}

void check_transport_free(void)
{
    struct transport *it = malloc(sizeof *it);
    GIVEN(it != NULL);
    *it = *any_transport();
    it->brought = false;
    lay_out(2);
    transport_free(it);
    REACHED("freed");
}

void check_transport_settle(void)
{
    struct transport *it = any_transport();
    enum covretin_error error = (enum covretin_error)any_int();
    errno = any_int();
    if (any_bool())
        HOLDS(transport_settle(it, error) == error, "the error is returned");
    else {
        transport_hang_up(it);
        HOLDS(transport_is_broken(it) && it->broken == COVRETIN_SOCKET_BROKEN, "it is of no more use");
        REACHED("hung up");
    }
    HOLDS(!transport_is_broken(it) || errno == it->broken_errno || it->came_count != 0, "errno is what it was");
    (void)transport_request(it);
    transport_may_wait(any_bool() ? it : NULL, any_bool());
    ends(it);
    REACHED("settled");
}

void check_time(void)
{
    int64_t end = transport_end_of(any_int());
    (void)transport_left_until(end);
    (void)transport_left_until(any_bool() ? -1 : 0);
    REACHED("no overflow");
}

/* -- Exchanges: over what the harnesses of sending, receiving and waiting show of these (goto-instrument puts these in their place) -- */

enum covretin_error any_send(struct transport *it)
{
    if (any_bool())
        it->fd_count = 0;
    it->sent = any_size();
    GIVEN(it->sent <= sizeof it->bytes);
    return any_bool() ? COVRETIN_OK : any_bool() ? COVRETIN_INVALID_PARAM : any_bool() ? COVRETIN_NOT_YET : (enum covretin_error)any_int();
}

/* (a descriptor may have come with what the session has) */
enum covretin_error any_receive_whole(struct transport *it)
{
    it->begun = it->begun || any_bool();
    it->at = any_size();
    it->end = any_size();
    GIVEN(it->at <= it->end && it->end <= sizeof it->bytes);
    return any_bool() ? COVRETIN_OK : any_bool() ? COVRETIN_NOT_YET : (enum covretin_error)any_int();
}

enum covretin_error any_wait(int socket, short events, int64_t end)
{
    static unsigned waits;
    (void)end;
    HOLDS(fd_is_open(socket) && events != 0, "it is known for what is waited");
    return waits++ < MOST_AGAIN && any_bool() ? COVRETIN_OK : any_bool() ? COVRETIN_TIMED_OUT : COVRETIN_SOCKET_ERROR;
}

static unsigned taken;

static enum covretin_error any_takes(void *of)
{
    taken++;
    if (any_bool())
        transport_next(of);
    return (enum covretin_error)any_int();
}

void check_exchange(void)
{
    struct transport *it = any_bool() ? any_transport() : NULL;
    enum covretin_error error;
    short events = any_int();
    side.take = any_take;
    side.abandon = any_abandon;
    bool was_broken = it != NULL && it->broken != COVRETIN_OK;
    if (LAYOUT == 0) {
        error = transport_exchange_nowait(it, any_takes, it, &events);
        HOLDS((error == COVRETIN_NOT_YET) >= (events != 0), "only what is not yet done is waited for");
    } else {
        error = transport_exchange(it, any_takes, it, any_int());
        HOLDS(it == NULL || !it->waits, "no call waits behind it");
    }
    if (it == NULL) {
        HOLDS(error == COVRETIN_NO_SESSION, "there is no session");
        return;
    }
    HOLDS(!was_broken || taken == 0, "nothing is taken of what is of no more use");
    HOLDS(taken <= 1 || LAYOUT == 1, "a reply is taken once");
    if (taken != 0)
        REACHED("taken");
    if (error == COVRETIN_INVALID_PARAM)
        REACHED("taken back");
    ends(it);
}

/* (within the first seconds of a clock: the difference of two times does not depend on when they are) */
void check_transport_wait(void)
{
    int milliseconds = any_int();
    clock_end = 3;
    int64_t end = transport_end_of(milliseconds);
    int left = transport_left_until(end);
    HOLDS((left < 0) == (milliseconds < 0), "only what has no limit waits for ever");
    HOLDS(left <= milliseconds || milliseconds < 0, "no longer than the limit");
    may_wait = true;
    enum covretin_error error = transport_wait(fd_new(), POLLIN, end);
    if (!error)
        REACHED("ready");
    if (error == COVRETIN_TIMED_OUT)
        REACHED("the time is over");
}

void check_sockets(void)
{
    char path[MOST_PATH + 1];
    struct sockaddr_un address;
    path[MOST_PATH] = 0;
    (void)transport_check_socket(any_int());
    if (transport_address(path, &address) == COVRETIN_OK) {
        REACHED("an address");
        HOLDS(address.sun_family == AF_UNIX && address.sun_path[0] != 0, "it has the path");
        HOLDS(address.sun_path[sizeof address.sun_path - 1] == 0, "and its end");
    } else
        REACHED("no address");
}
