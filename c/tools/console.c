/* SPDX-License-Identifier: Apache-2.0 */
/* covretin-console: a console of one port (virtio 1.2, 5.3), whose other end is a terminal of this machine, or who connects to a Unix socket.
 * `covretin-console --help` says how it is called.
 *
 * What is typed, and for which the guest has no buffer, waits where the system keeps it. What the guest prints, and the other end does not take
 * at once, waits here, a mebibyte of it; more is dropped, as all is while nobody is there. No request is kept: Linux's driver waits for each with
 * a lock held, so a reader who pauses would stop the guest. */
#ifndef _GNU_SOURCE
#define _GNU_SOURCE
#endif
#include "program.h"

#include <errno.h>
#include <fcntl.h>
#include <stdio.h>
#include <stdlib.h>
#include <string.h>
#include <sys/epoll.h>
#include <sys/socket.h>
#include <sys/un.h>
#include <termios.h>
#include <unistd.h>

enum { RECEIVE, TRANSMIT, QUEUES }; /* as the guest names them */
enum { MOST_TYPED = 4096, MOST_PRINTED = 1 << 20 };

/* What the arguments say. */
static const char *terminal, *path;

static covretin_listener listener;
static int polled = -1, wire = -1; /* what the device waits for; and of that the terminal, or who is at the socket */
static uint32_t watched = EPOLLIN; /* what it waits for at the wire */

static uint8_t typed[MOST_TYPED];     /* what the guest is to have, */
static size_t first, last;            /* from the first on and before the last; */
static bool has_room = true;          /* and whether it has buffers */
static uint8_t printed[MOST_PRINTED]; /* a ring: what the other end is to have */
static uint64_t put, gone;            /* how many bytes were ever put there, and are gone */
static unsigned long shown, received, dropped;

/* -- Who is at the other end -- */

static bool wait_for(int how, int fd, uint32_t events)
{
    struct epoll_event ready = {.events = events};
    return epoll_ctl(polled, how, fd, &ready) == 0;
}

/* False: the system fails, and would again. */
static bool let_in(void)
{
    int fd = accept4(covretin_listener_fd(&listener), NULL, NULL, SOCK_NONBLOCK | SOCK_CLOEXEC);
    if (fd < 0)
        return errno == EAGAIN;
    if (!wait_for(EPOLL_CTL_ADD, fd, EPOLLIN)) {
        close(fd);
        return false;
    }
    wire = fd;
    watched = EPOLLIN;
    return wait_for(EPOLL_CTL_MOD, covretin_listener_fd(&listener), 0);
}

/* He has gone, and hears no more of what was printed. A terminal does not go: what fails there would again, which is false. */
static bool let_go(void)
{
    dropped += put - gone;
    gone = put;
    if (terminal != NULL)
        return false;
    close(wire);
    wire = -1;
    return wait_for(EPOLL_CTL_MOD, covretin_listener_fd(&listener), EPOLLIN);
}

/* Where something waits for buffers of the guest's, the device waits for these by itself; but first for the other end, where something waits for
 * that, too. */
static void watch(void)
{
    uint32_t wanted = put != gone ? EPOLLOUT : EPOLLIN;
    if (has_room)
        wanted |= EPOLLIN;
    if (wire >= 0 && wanted != watched && wait_for(EPOLL_CTL_MOD, wire, wanted))
        watched = wanted;
}

/* -- From the guest -- */

/* Shows what was printed, as far as the other end takes it. */
static void show(void)
{
    ssize_t taken = 0;
    while (gone != put) {
        size_t at = gone % MOST_PRINTED, size = put - gone < MOST_PRINTED - at ? put - gone : MOST_PRINTED - at;
        taken = terminal != NULL ? write(wire, printed + at, size) : send(wire, printed + at, size, MSG_NOSIGNAL);
        if (taken <= 0)
            break;
        gone += (size_t)taken;
        shown += (size_t)taken;
    }
    if (taken < 0 && errno != EAGAIN)
        let_go();
    watch();
}

/* (what may be zeros in the place of memory that was lost is not shown) */
static void take_bytes(void *none, covretin_request *request)
{
    size_t size = 1;
    (void)none;
    while (wire >= 0 && size != 0 && put - gone < MOST_PRINTED) {
        size_t at = put % MOST_PRINTED, room = MOST_PRINTED - (put - gone);
        size = covretin_request_read(request, printed + at, room < MOST_PRINTED - at ? room : MOST_PRINTED - at);
        if (covretin_request_is_lost(request))
            break;
        put += size;
    }
    dropped += covretin_request_read(request, NULL, SIZE_MAX);
    covretin_request_done(request, 0);
    show();
}

/* -- To the guest -- */

/* Puts what was typed into buffers of the guest's, each of which takes a byte, or breaks the rules. False: it has no more. */
static bool give(covretin_device *device)
{
    for (unsigned i = 0; i < MOST_TYPED && first < last; i++) {
        covretin_request *buffer = covretin_device_take(device, RECEIVE);
        if (buffer == NULL)
            return false;
        uint32_t written = (uint32_t)covretin_request_write(buffer, typed + first, last - first);
        covretin_request_done(buffer, written);
        first += written;
        received += written;
    }
    return first == last;
}

/* Some bytes at a time, so that what the guest prints is shown in between. */
static bool bytes_came(void *none, covretin_device *device)
{
    (void)none;
    show();
    if (first == last && wire < 0)
        return let_in();
    if (first == last) {
        ssize_t size = read(wire, typed, sizeof typed);
        if (size == 0 || (size < 0 && errno != EAGAIN))
            return let_go();
        first = 0;
        last = size > 0 ? (size_t)size : 0;
    }
    has_room = give(device);
    watch();
    return has_room || put != gone;
}

/* -- The console -- */

static void tell_end(void *none, enum covretin_error error)
{
    (void)none;
    show();
    printf("a frontend went: %s; %lu bytes were shown, %lu typed, and %lu dropped\n", covretin_error_text(error), shown, received, dropped);
    shown = received = dropped = 0;
}

static covretin_device_calls calls = {.queues = QUEUES,
                                      .taken_queues = (uint64_t)1 << RECEIVE,
                                      .request = take_bytes,
                                      .input_ready = bytes_came,
                                      .ended = tell_end};

/* -- Its other end -- */

/* A terminal that hands on each byte as it is. It stays open here, so that it lasts while others come and go. */
static bool open_terminal(void)
{
    struct termios how;
    char name[64];
    if (access(terminal, F_OK) != 0 && errno == ENOENT)
        unlink(terminal); /* a link that was left over, and leads nowhere */
    wire = posix_openpt(O_RDWR | O_NOCTTY | O_NONBLOCK | O_CLOEXEC);
    if (wire < 0 || grantpt(wire) != 0 || unlockpt(wire) != 0 || ptsname_r(wire, name, sizeof name) != 0)
        return false;
    int fd = open(name, O_RDWR | O_NOCTTY | O_CLOEXEC);
    if (fd < 0 || tcgetattr(fd, &how) != 0)
        return false;
    cfmakeraw(&how);
    return tcsetattr(fd, TCSANOW, &how) == 0 && wait_for(EPOLL_CTL_ADD, wire, watched) && symlink(name, terminal) == 0;
}

static bool open_socket(void)
{
    return covretin_listen(&listener, path) == COVRETIN_OK && wait_for(EPOLL_CTL_ADD, covretin_listener_fd(&listener), EPOLLIN);
}

static const char *prepare(void)
{
    polled = epoll_create1(EPOLL_CLOEXEC);
    if (polled < 0 || (terminal != NULL ? !open_terminal() : !open_socket()))
        return terminal != NULL ? terminal : path;
    calls.input = polled;
    return NULL;
}

static void finish(void)
{
    if (terminal != NULL)
        unlink(terminal);
    covretin_unlisten(&listener);
}

/* -- Its arguments -- */

static bool take_terminal(const char *value)
{
    terminal = value;
    return *value != '\0';
}

static bool take_path(const char *value)
{
    path = value;
    return *value != '\0' && strlen(value) < sizeof ((struct sockaddr_un *)NULL)->sun_path;
}

static const char *lacks(void)
{
    if (terminal != NULL && path != NULL)
        return "--pty and --console exclude each other";
    return terminal != NULL || path != NULL ? NULL : "--pty or --console is missing";
}

int main(int argc, char **argv)
{
    static const struct program_option options[] = {
        {"pty", "LINK", "the other end is a terminal, which is made here, and to which this link leads", take_terminal},
        {"console", "PATH", "the other end is who connects to this Unix socket; others wait until he goes", take_path},
        {NULL, NULL, NULL, NULL},
    };
    static const struct program console = {
        .name = "covretin-console", .title = "A console", .options = options, .lacks = lacks, .calls = &calls,
        .capabilities = "{\"type\": \"console\"}", .prepare = prepare, .finish = finish};
    (void)argc;
    return program_run(&console, argv);
}
