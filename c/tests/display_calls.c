/* System calls of a device on the vhost-user-gpu channel that are interrupted or would wait, move a few bytes or fail, each in turn; and
 * each allocation of a connection's life failing once. Linked with --wrap of the calls below. */
#ifndef _GNU_SOURCE
#define _GNU_SOURCE
#endif

#include "covretin_display_socket.h"
#include "peer.h"
#include "screen.h"
#include "testing.h"

#include <errno.h>
#include <poll.h>
#include <stdlib.h>
#include <string.h>
#include <sys/socket.h>
#include <unistd.h>

ssize_t __real_sendmsg(int fd, const struct msghdr *message, int flags);
ssize_t __real_recvmsg(int fd, struct msghdr *message, int flags);
int __real_poll(struct pollfd *polled, nfds_t count, int milliseconds);
void *__real_malloc(size_t size);
void *__real_calloc(size_t count, size_t size);
void *__real_realloc(void *at, size_t size);
ssize_t __wrap_sendmsg(int fd, const struct msghdr *message, int flags);
ssize_t __wrap_recvmsg(int fd, struct msghdr *message, int flags);
int __wrap_poll(struct pollfd *polled, nfds_t count, int milliseconds);
void *__wrap_malloc(size_t size);
void *__wrap_calloc(size_t count, size_t size);
void *__wrap_realloc(void *at, size_t size);

enum { LIMIT = 20000, FEW = 7, CALLS = 6, PIXELS = 100, MOST_HEARD = 400 };

static covretin_display_connection screen;
static covretin_display *const display = &screen.display;
static uint8_t pixels[PIXELS];

/* What becomes of the connection's own system calls, not of the display's. */
static int interruption;       /* why every other one fails: EINTR; or EAGAIN, but where it waits; 0: none does */
static bool shortens;          /* a few bytes at a time */
static int until_failure = -1; /* so many succeed before one fails; negative: all do */
static int cause;              /* with this errno */
static bool only_sends;        /* that one is of those that send */
static int until_no_memory = -1;

static bool is_of_screen(int fd)
{
    return fd >= 0 && runs_tests() && fd == covretin_display_connection_fd(&screen);
}

/* Whether this call is not to reach the system. */
static bool stopped(int fd)
{
    static bool even;
    if (!is_of_screen(fd))
        return false;
    if (until_failure >= 0 && until_failure-- == 0) {
        errno = cause;
        return true;
    }
    even = !even;
    errno = interruption;
    return interruption != 0 && !even;
}

ssize_t __wrap_sendmsg(int fd, const struct msghdr *message, int flags)
{
    struct msghdr some = *message;
    struct iovec piece = message->msg_iov[0];
    if (stopped(fd))
        return -1;
    if (shortens && is_of_screen(fd)) {
        piece.iov_len = piece.iov_len < FEW ? piece.iov_len : FEW;
        some.msg_iov = &piece;
    }
    return __real_sendmsg(fd, &some, flags);
}

ssize_t __wrap_recvmsg(int fd, struct msghdr *message, int flags)
{
    if (!only_sends && stopped(fd))
        return -1;
    if (shortens && is_of_screen(fd) && message->msg_iov[0].iov_len > FEW)
        message->msg_iov[0].iov_len = FEW;
    return __real_recvmsg(fd, message, flags);
}

int __wrap_poll(struct pollfd *polled, nfds_t count, int milliseconds)
{
    return interruption != EAGAIN && !only_sends && stopped(polled[0].fd) ? -1 : __real_poll(polled, count, milliseconds);
}

static bool lacks_memory(void)
{
    return until_no_memory >= 0 && until_no_memory-- == 0;
}

void *__wrap_malloc(size_t size)
{
    return lacks_memory() ? NULL : __real_malloc(size);
}

void *__wrap_calloc(size_t count, size_t size)
{
    return lacks_memory() ? NULL : __real_calloc(count, size);
}

void *__wrap_realloc(void *at, size_t size)
{
    return lacks_memory() ? NULL : __real_realloc(at, size);
}

/* -- A life -- */

/* The calls of a life: one of each form, pixels, and one that brings a descriptor. */
static const struct screen_call *call_at(size_t i)
{
    static const char codes[CALLS] = {1, 3, 11, 8, 9, 10};
    const struct screen_call *call = screen_calls;
    while (call->text[0] != codes[i])
        call++;
    return call;
}

static bool has_pixels(const struct screen_call *call)
{
    return call->text[0] == 8;
}

/* A display that has replied before it is asked. */
static void reply_to_all(int peer)
{
    uint8_t bytes[MOST_REPLY];
    for (size_t i = 0; i < CALLS; i++)
        if (call_at(i)->header != NULL)
            say(peer, bytes, good_reply(call_at(i), bytes), NULL, 0);
}

static enum covretin_error ask(const struct screen_call *call)
{
    return has_pixels(call) ? covretin_display_lend_pixels(&screen, &screen_update, pixels, PIXELS) : call->ask(display);
}

/* Asks and exchanges, each once more where an allocation fails, and takes. How that ended. */
static enum covretin_error exchanged(const struct screen_call *call)
{
    struct screen_value value;
    enum covretin_error error = ask(call);
    if (error == COVRETIN_OUT_OF_MEMORY || error == COVRETIN_SOCKET_RETRY)
        error = ask(call);
    if (error != COVRETIN_OK)
        return error;
    error = covretin_display_exchange(&screen, LIMIT);
    if (error == COVRETIN_OUT_OF_MEMORY)
        error = covretin_display_exchange(&screen, LIMIT);
    if (error != COVRETIN_OK || call->form == FORM_NONE)
        return error;
    error = take_by(display, call->form, &value, sizeof value.record);
    EXPECT(true, error != COVRETIN_OK || call->form != FORM_NUMBER || value.number == 0x807060504030201);
    EXPECT(true, error != COVRETIN_OK || call->form == FORM_NUMBER || value.record[407] == (uint8_t)408);
    return error;
}

/* All of the calls, up to the first error. */
static enum covretin_error life(void)
{
    enum covretin_error error = COVRETIN_OK;
    for (size_t i = 0; i < CALLS && !error; i++)
        error = exchanged(call_at(i));
    return error;
}

/* The display hears each request whole and once, and with it what belongs to it. */
static void expect_heard(int peer)
{
    uint8_t bytes[MOST_HEARD];
    for (size_t i = 0; i < CALLS; i++) {
        const struct screen_call *call = call_at(i);
        size_t fd_count = 0, from = has_pixels(call) ? 12 : 0;
        EXPECT(true, hear_bytes(peer, bytes, call->length, &fd_count));
        EXPECT(0, memcmp(bytes + from, call->text + from, call->length - from));
        EXPECT(call->fd >= 0, fd_count);
        if (!has_pixels(call))
            continue;
        EXPECT(true, bytes[0] == 8 && bytes[8] == 20 + PIXELS && bytes[9] == 0);
        EXPECT(true, hear_bytes(peer, bytes, PIXELS, &fd_count));
        EXPECT(0, memcmp(bytes, pixels, PIXELS));
    }
    EXPECT(-1, recv(peer, bytes, 1, MSG_DONTWAIT));
}

static int connected(void)
{
    int ends[2];
    if (socketpair(AF_UNIX, SOCK_STREAM | SOCK_CLOEXEC, 0, ends))
        give_up("socketpair");
    enum covretin_error error = covretin_display_connect_fd(&screen, ends[0]);
    if (error == COVRETIN_OUT_OF_MEMORY)
        error = covretin_display_connect_fd(&screen, ends[0]);
    EXPECT(COVRETIN_OK, error);
    return ends[1];
}

static void goes_on_where_it_was_stopped(void)
{
    static const int interruptions[] = {0, EINTR, EAGAIN};
    for (int way = 0; way < 6; way++) {
        int peer = connected();
        reply_to_all(peer);
        interruption = interruptions[way % 3];
        shortens = way >= 3;
        EXPECT(COVRETIN_OK, life());
        interruption = shortens = 0;
        expect_heard(peer);
        covretin_display_disconnect(&screen);
        close(peer);
    }
}

/* Each call of the system fails in turn, those that send pixels, too. */
static void each_call_fails(void)
{
    const int causes[] = {EIO, EACCES, ECONNRESET, EPIPE};
    for (size_t i = 0; i < sizeof causes / sizeof causes[0]; i++)
        for (int before = 0; before < 1000; before++) {
            bool is_end = causes[i] == ECONNRESET || causes[i] == EPIPE;
            enum covretin_error want = is_end ? COVRETIN_DISCONNECTED : COVRETIN_SOCKET_ERROR;
            int peer = connected();
            reply_to_all(peer);
            cause = causes[i];
            until_failure = before;
            enum covretin_error error = life();
            int was = errno;
            bool none_failed = until_failure >= 0;
            until_failure = -1;
            EXPECT(none_failed ? COVRETIN_OK : want, error);
            EXPECT(true, error != COVRETIN_SOCKET_ERROR || was == cause);
            errno = 0;
            EXPECT(none_failed ? COVRETIN_NOTHING_ASKED : want, covretin_display_exchange(&screen, 0));
            EXPECT(true, error != COVRETIN_SOCKET_ERROR || errno == cause);
            covretin_display_disconnect(&screen);
            close(peer);
            if (none_failed)
                break;
            EXPECT(true, before < 100);
        }
}

/* Where the system has no room for bytes, amid pixels too, they go out by the next exchange. */
static void sends_once_there_is_room(void)
{
    bool none_failed = false;
    cause = ENOBUFS;
    only_sends = shortens = true;
    for (int before = 0; !none_failed; before++) {
        int peer = connected();
        reply_to_all(peer);
        until_failure = before;
        EXPECT(COVRETIN_OK, life());
        none_failed = until_failure >= 0;
        until_failure = -1;
        expect_heard(peer);
        covretin_display_disconnect(&screen);
        close(peer);
    }
    only_sends = shortens = false;
}

/* Where a device waits for the display, and the system fails. */
static void waiting_fails(void)
{
    int peer = connected();
    EXPECT(COVRETIN_OK, covretin_display_ask_get_display_info(display));
    cause = ENOMEM;
    until_failure = 2; /* sendmsg, recvmsg, poll */
    EXPECT(COVRETIN_SOCKET_ERROR, covretin_display_exchange(&screen, LIMIT));
    EXPECT(ENOMEM, errno);
    covretin_display_disconnect(&screen);
    close(peer);
}

static void each_allocation_fails_once(void)
{
    int failed = 0, whole = 0;
    for (bool done = false; !done; failed++) {
        size_t before = open_fds();
        until_no_memory = failed;
        int peer = connected();
        reply_to_all(peer);
        enum covretin_error error = life();
        done = until_no_memory >= 0; /* none failed */
        until_no_memory = -1;
        whole += error == COVRETIN_OK;
        EXPECT(true, error == COVRETIN_OK || error == COVRETIN_NOTHING_ASKED || error == COVRETIN_SOCKET_BROKEN);
        if (error == COVRETIN_OK)
            expect_heard(peer);
        covretin_display_disconnect(&screen);
        close(peer);
        EXPECT(before, open_fds());
    }
    EXPECT(true, failed > 10 && whole > 5);
}

int main(void)
{
    int sent = file_of("buffer");
    if (dup2(sent, BUFFER) != BUFFER)
        give_up("dup2");
    for (size_t i = 0; i < PIXELS; i++)
        pixels[i] = (uint8_t)(200 - i);
    RUN(goes_on_where_it_was_stopped);
    RUN(each_call_fails);
    RUN(sends_once_there_is_room);
    RUN(waiting_fails);
    RUN(each_allocation_fails_once);
    return status();
}
