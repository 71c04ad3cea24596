/* SPDX-License-Identifier: Apache-2.0 */
/* What both sides of Covretin over a Unix socket share: see covretin_transport.h. */
#ifndef _GNU_SOURCE
#define _GNU_SOURCE /* for MSG_CMSG_CLOEXEC, SO_DOMAIN and struct ucred */
#endif

#include "covretin_transport.h"

#include <errno.h>
#include <limits.h>
#include <poll.h>
#include <signal.h>
#include <stdatomic.h>
#include <stdlib.h>
#include <string.h>
#include <sys/ioctl.h>
#include <sys/socket.h>
#include <sys/uio.h>
#include <sys/un.h>
#include <time.h>
#include <unistd.h>

#ifndef SCM_PIDFD
#define SCM_PIDFD 0x04 /* of Linux 6.5 */
#endif

/* As many descriptors as the system passes by one message. It would drop those for which there is no room, and wait where closing one
 * waits. */
enum { SYSTEM_MAX_FDS = 253 };

/* What comes beside bytes: descriptors, and what whoever has a copy of the socket may have the system tell: the sender's credentials,
 * security label and process, and the time. */
union control {
    struct cmsghdr align;
    char bytes[CMSG_SPACE(sizeof(int) * SYSTEM_MAX_FDS) + CMSG_SPACE(sizeof(struct ucred)) + CMSG_SPACE(NAME_MAX) +
               CMSG_SPACE(sizeof(int)) + CMSG_SPACE(3 * sizeof(struct timespec))];
};

/* -- Descriptors -- */

/* How many descriptors a control message brings: those that were sent, or one of the sender's process, which is negative where that is
 * gone. Any other brings none. */
static size_t fds_in(const struct cmsghdr *head)
{
    if (head->cmsg_level != SOL_SOCKET || (head->cmsg_type != SCM_RIGHTS && head->cmsg_type != SCM_PIDFD))
        return 0;
    return (head->cmsg_len - CMSG_LEN(0)) / sizeof(int);
}

static int fd_in(struct cmsghdr *head, size_t index)
{
    int fd;
    memcpy(&fd, CMSG_DATA(head) + index * sizeof fd, sizeof fd);
    return fd;
}

void transport_close(int fd)
{
    const struct linger off = {0, 0};
    struct linger linger;
    socklen_t size = sizeof linger;
    int was = errno;
    if (fd >= 0) {
        if (getsockopt(fd, SOL_SOCKET, SO_LINGER, &linger, &size) == 0 && linger.l_onoff != 0)
            setsockopt(fd, SOL_SOCKET, SO_LINGER, &off, sizeof off);
        close(fd);
    }
    errno = was;
}

/* Looks at the next bytes that wait in a socket, and ends the linger time of the sockets among their descriptors. How many bytes. */
static ssize_t look_ahead(int socket)
{
    union control control;
    uint8_t bytes[COVRETIN_MAX_MESSAGE];
    struct iovec piece = {bytes, sizeof bytes};
    struct msghdr message = {
        .msg_iov = &piece, .msg_iovlen = 1, .msg_control = control.bytes, .msg_controllen = sizeof control.bytes};
    ssize_t got = recvmsg(socket, &message, MSG_PEEK | MSG_CMSG_CLOEXEC | MSG_DONTWAIT);
    if (got < 0)
        return got;
    for (struct cmsghdr *head = CMSG_FIRSTHDR(&message); head != NULL; head = CMSG_NXTHDR(&message, head))
        for (size_t i = 0; i < fds_in(head); i++)
            transport_close(fd_in(head, i));
    return got;
}

/* The system drops what waits unread in a socket that is closed: after this the sockets among it do not make it wait. */
static void calm_unread(int socket)
{
    const int on = 1, start = 0, nowhere = -1;
    int unread = 0;
    ssize_t seen = 1;
    if (ioctl(socket, FIONREAD, &unread) || unread == 0 || setsockopt(socket, SOL_SOCKET, SO_OOBINLINE, &on, sizeof on) ||
        setsockopt(socket, SOL_SOCKET, SO_PEEK_OFF, &start, sizeof start))
        return;
    for (; unread > 0 && seen > 0; unread -= (int)seen)
        seen = look_ahead(socket);
    setsockopt(socket, SOL_SOCKET, SO_PEEK_OFF, &nowhere, sizeof nowhere);
}

void transport_close_socket(int socket, bool is_ended)
{
    int was = errno;
    if (is_ended)
        shutdown(socket, SHUT_RD);
    calm_unread(socket);
    errno = was;
    transport_close(socket);
}

enum { MOST_CLOSING = 64, CLOSING_STACK = 65536 };
static atomic_int closing; /* threads that are about to close a socket; a child of fork has none of its parent's */
static pthread_once_t forks = PTHREAD_ONCE_INIT;

static void forget_closing(void)
{
    closing = 0;
}

static void prepare_forks(void)
{
    pthread_atfork(NULL, NULL, forget_closing);
}

static void *close_in_thread(void *of)
{
    transport_close_socket((int)(intptr_t)of, false);
    closing--;
    return NULL;
}

bool transport_start_thread(pthread_t *thread, const pthread_attr_t *attributes, void *(*runs)(void *), void *of)
{
    sigset_t all, were;
    int error;
    sigfillset(&all);
    pthread_sigmask(SIG_BLOCK, &all, &were);
    error = pthread_create(thread, attributes, runs, of);
    pthread_sigmask(SIG_SETMASK, &were, NULL);
    return error == 0;
}

/* Whether there is a thread that closes it. */
static bool start_closing(int socket)
{
    pthread_attr_t detached;
    pthread_t thread;
    bool starts;
    pthread_once(&forks, prepare_forks);
    if (closing++ >= MOST_CLOSING || pthread_attr_init(&detached)) {
        closing--;
        return false;
    }
    pthread_attr_setdetachstate(&detached, PTHREAD_CREATE_DETACHED);
    pthread_attr_setstacksize(&detached, CLOSING_STACK);
    starts = transport_start_thread(&thread, &detached, close_in_thread, (void *)(intptr_t)socket);
    pthread_attr_destroy(&detached);
    closing -= !starts;
    return starts;
}

void transport_close_given(int socket)
{
    int unread = 0, was = errno;
    bool has_unread = ioctl(socket, FIONREAD, &unread) == 0 && unread != 0;
    if (!has_unread || !start_closing(socket))
        transport_close(socket);
    errno = was;
}

static void close_all(const int32_t *fds, size_t count)
{
    for (size_t i = 0; i < count; i++)
        transport_close(fds[i]);
}

/* Closes what the session hands out, since nobody will claim it. */
static void close_unclaimed(struct transport *transport)
{
    int32_t fds[COVRETIN_MAX_FDS];
    size_t count = 0;
    while (transport->side->unclaimed(transport->session, fds, COVRETIN_MAX_FDS, &count) == COVRETIN_OK && count != 0)
        close_all(fds, count);
}

/* Closes what came. */
static void close_came(struct transport *transport)
{
    close_all(transport->came, transport->came_count);
    transport->came_count = 0;
    if (!transport->brought)
        return;
    if (transport->side->abandon != NULL)
        transport->side->abandon(transport->session);
    close_unclaimed(transport);
    transport->brought = false;
}

void transport_next(struct transport *transport)
{
    close_came(transport);
    transport->begun = false;
}

/* -- Bytes out -- */

/* Writes descriptors into a message's control data. */
static void attach(struct msghdr *message, union control *control, const int32_t *fds, size_t count)
{
    struct cmsghdr *head;
    memset(control, 0, sizeof *control);
    message->msg_control = control->bytes;
    message->msg_controllen = CMSG_SPACE(sizeof(int) * count);
    head = CMSG_FIRSTHDR(message);
    head->cmsg_level = SOL_SOCKET;
    head->cmsg_type = SCM_RIGHTS;
    head->cmsg_len = CMSG_LEN(sizeof(int) * count);
    memcpy(CMSG_DATA(head), fds, sizeof(int) * count);
}

/* Why a call of the socket failed, by errno. NOT_YET: it would have waited. */
static enum covretin_error reason(void)
{
    switch (errno) {
    case EAGAIN: return COVRETIN_NOT_YET;
    case EPIPE:
    case ECONNRESET: return COVRETIN_DISCONNECTED;
    default: return COVRETIN_SOCKET_ERROR;
    }
}

/* Why nothing was sent, by errno. OUT_OF_MEMORY: the system has no room for it now. INVALID_PARAM: it cannot pass the descriptors on. */
static enum covretin_error reason_of_send(const struct transport *transport)
{
    switch (errno) {
    case ENOMEM:
    case ENOBUFS:
    case ETOOMANYREFS: return COVRETIN_OUT_OF_MEMORY;
    case EBADF:
    case EINVAL: return transport->fd_count != 0 ? COVRETIN_INVALID_PARAM : COVRETIN_SOCKET_ERROR;
    default: return reason();
    }
}

/* Sends as many of these bytes as go without waiting, the descriptors with the first of them, and counts them off. 0: all of them. */
static enum covretin_error send_bytes(struct transport *transport, const uint8_t **bytes, size_t *left)
{
    while (*left != 0) {
        union control control;
        struct iovec piece = {(void *)(uintptr_t)*bytes, *left}; /* it is only read */
        struct msghdr message = {.msg_iov = &piece, .msg_iovlen = 1};
        ssize_t sent;
        if (transport->fd_count != 0)
            attach(&message, &control, transport->fds, transport->fd_count);
        sent = sendmsg(transport->socket, &message, MSG_NOSIGNAL | MSG_DONTWAIT);
        if (sent < 0 && errno == EINTR)
            continue;
        if (sent < 0)
            return reason_of_send(transport);
        *bytes += sent;
        *left -= (size_t)sent;
        transport->fd_count = 0;
    }
    return COVRETIN_OK;
}

/* Sends what the session handed out. */
static enum covretin_error send_piece(struct transport *transport)
{
    const uint8_t *bytes = transport->bytes + transport->at;
    size_t left = transport->end - transport->at;
    enum covretin_error error = send_bytes(transport, &bytes, &left);
    transport->at = transport->end - left;
    return error;
}

void transport_lend(struct transport *transport, const uint8_t *bytes, size_t bytes_len)
{
    transport->lent = bytes;
    transport->lent_len = bytes_len;
}

/* Whether what is to be sent is a message whole, from its header on: nothing is behind it then, since a session has one at a time. */
static bool is_last(const struct transport *transport)
{
    const uint8_t *size = transport->bytes + 8;
    if (transport->at == transport->end || transport->end < 12)
        return false;
    return (size[0] | (uint32_t)size[1] << 8 | (uint32_t)size[2] << 16 | (uint32_t)size[3] << 24) == transport->end - 12;
}

enum covretin_error transport_send(struct transport *transport)
{
    for (;;) {
        bool was_last = is_last(transport);
        enum covretin_error error = send_piece(transport);
        if (error || was_last)
            return error;
        transport->at = transport->end = 0;
        error = transport->side->to_send(transport->session, transport->bytes, sizeof transport->bytes, transport->fds,
                                         COVRETIN_MAX_FDS, &transport->end, &transport->fd_count);
        if (error)
            return error;
        if (transport->end == 0)
            return send_bytes(transport, &transport->lent, &transport->lent_len);
        transport->sent = transport->end;
    }
}

/* -- Bytes in -- */

/* Takes a descriptor over, for the session, if it hears of it. */
static void take_over(struct transport *transport, int fd)
{
    bool is_heard = !transport->begun || transport->side->hears_late;
    if (is_heard && transport->came_count < COVRETIN_MAX_FDS)
        transport->came[transport->came_count++] = fd;
    else
        transport_close(fd);
}

/* Takes the descriptors over that were sent with a piece, and closes what the system added. How many were sent. */
static size_t gather(struct transport *transport, struct msghdr *message)
{
    struct cmsghdr *head;
    size_t sent = 0;
    for (head = CMSG_FIRSTHDR(message); head != NULL; head = CMSG_NXTHDR(message, head))
        for (size_t i = 0; i < fds_in(head); i++)
            if (head->cmsg_type == SCM_RIGHTS) {
                take_over(transport, fd_in(head, i));
                sent++;
            } else
                transport_close(fd_in(head, i));
    return sent;
}

/* Notes what came of a message by a piece. */
static void note(struct transport *transport, size_t got, size_t fds)
{
    struct transport_came *seen = &transport->seen;
    size_t room;
    if (got == 0)
        return;
    if (!transport->begun)
        *seen = (struct transport_came){.fds = 0};
    room = seen->bytes < sizeof seen->head ? sizeof seen->head - seen->bytes : 0;
    memcpy(seen->head + sizeof seen->head - room, transport->bytes, got < room ? got : room);
    seen->bytes += got;
    seen->fds += fds;
    seen->late_fds += transport->begun ? fds : 0;
}

uint32_t transport_word(const struct transport_came *came, size_t at)
{
    const uint8_t *word = came->head + at;
    return word[0] | (uint32_t)word[1] << 8 | (uint32_t)word[2] << 16 | (uint32_t)word[3] << 24;
}

uint32_t transport_request(const struct transport *transport)
{
    return transport->seen.bytes < 4 ? 0 : transport_word(&transport->seen, 0);
}

/* Receives at most so many bytes into `bytes`. It waits where the call may; a socket that does not wait says NOT_YET all the same. */
static enum covretin_error receive_piece(struct transport *transport, size_t most)
{
    union control control;
    struct iovec piece = {transport->bytes, most};
    struct msghdr message = {.msg_iov = &piece, .msg_iovlen = 1};
    ssize_t got;
    do {
        message.msg_control = control.bytes;
        message.msg_controllen = sizeof control.bytes;
        got = recvmsg(transport->socket, &message, MSG_CMSG_CLOEXEC | (transport->waits ? 0 : MSG_DONTWAIT));
    } while (got < 0 && errno == EINTR);
    if (got < 0)
        return reason();
    size_t fds = gather(transport, &message);
    note(transport, (size_t)got, fds);
    if (fds > COVRETIN_MAX_FDS || message.msg_flags & MSG_CTRUNC) /* not all are there, or more than a message has */
        return COVRETIN_FDS_LOST;
    if (got == 0)
        return COVRETIN_DISCONNECTED;
    transport->begun = true;
    transport->end = (size_t)got;
    return COVRETIN_OK;
}

void transport_may_wait(struct transport *transport, bool waits)
{
    if (transport != NULL)
        transport->waits = waits;
}

/* Hands the session what it misses of the piece that came, with the descriptors that came with it, which it keeps from then on. Late ones
 * it hands out at once. */
static enum covretin_error hand_in(struct transport *transport, size_t missing)
{
    size_t left = transport->end - transport->at;
    size_t part = left < missing ? left : missing;
    enum covretin_error error = transport->side->receive(transport->session, transport->bytes + transport->at, part,
                                                         transport->came, transport->came_count);
    if (error)
        return error;
    transport->at += part;
    if (transport->came_count != 0) {
        transport->came_count = 0;
        transport->brought = true;
        close_unclaimed(transport);
    }
    return COVRETIN_OK;
}

/* How many bytes to receive at once where so many are missing. A reply is all that may come, and may be as long as its request: so its
 * header and its body come by one call. Of a request no more than is missing, since the system does not say at which byte descriptors
 * came. */
static size_t at_once(const struct transport *transport, size_t missing)
{
    size_t most = transport->begun || transport->side->take == NULL || missing > transport->sent ? missing : transport->sent;
    return most < sizeof transport->bytes ? most : sizeof transport->bytes;
}

enum covretin_error transport_receive(struct transport *transport)
{
    for (;;) {
        size_t missing = transport->side->missing(transport->session);
        enum covretin_error error;
        if (missing == 0)
            return COVRETIN_OK;
        if (transport->at == transport->end) {
            transport->at = transport->end = 0;
            error = receive_piece(transport, at_once(transport, missing));
            if (error)
                return error;
        }
        error = hand_in(transport, missing);
        if (error)
            return error;
    }
}

/* -- Its life -- */

struct transport *transport_new(const struct transport_side *side, void *session, int socket, size_t size)
{
    const int on = 1;
    struct transport *transport = calloc(1, size);
    if (transport == NULL)
        return NULL;
    transport->side = side;
    transport->session = session;
    transport->socket = socket;
    /* the system would skip a byte out of band, and close itself what came with it */
    setsockopt(socket, SOL_SOCKET, SO_OOBINLINE, &on, sizeof on);
    return transport;
}

void transport_free(struct transport *transport)
{
    close_came(transport);
    if (transport->side->is_given)
        transport_close_given(transport->socket);
    else
        transport_close_socket(transport->socket, transport->broken);
    free(transport);
}

enum covretin_error transport_connect(void **opaque, const struct transport_side *side, void *session, uint64_t rings, int socket,
                                      size_t size)
{
    enum covretin_error error;
    if (*opaque != NULL)
        return COVRETIN_SESSION_OPEN;
    error = transport_check_socket(socket);
    if (error)
        return error;
    error = side->open(session, rings);
    if (error)
        return error;
    *opaque = transport_new(side, session, socket, size);
    if (*opaque != NULL)
        return COVRETIN_OK;
    side->close(session);
    return COVRETIN_OUT_OF_MEMORY;
}

void transport_disconnect(void **opaque, void *session, void (*close)(void *session))
{
    if (*opaque != NULL)
        transport_free(*opaque);
    *opaque = NULL;
    close(session);
}

int transport_fd(const struct transport *transport)
{
    return transport == NULL ? -1 : transport->socket;
}

enum covretin_error transport_settle(struct transport *transport, enum covretin_error error)
{
    switch (error) {
    case COVRETIN_DISCONNECTED:
    case COVRETIN_SOCKET_ERROR:
    case COVRETIN_SOCKET_BROKEN:
    case COVRETIN_FDS_LOST:
    case COVRETIN_INVALID_MESSAGE:
    case COVRETIN_PARTIAL_MESSAGE:
        transport->broken_errno = errno;
        transport->broken = error;
        close_came(transport);
        return error;
    default: return error;
    }
}

void transport_hang_up(struct transport *transport)
{
    int was = errno;
    shutdown(transport->socket, SHUT_RDWR);
    errno = was;
    transport_settle(transport, COVRETIN_SOCKET_BROKEN);
}

bool transport_is_broken(const struct transport *transport)
{
    if (!transport->broken)
        return false;
    errno = transport->broken_errno;
    return true;
}

/* -- Time -- */

/* Now, in milliseconds of a clock that only goes on. */
static int64_t now(void)
{
    struct timespec time;
    clock_gettime(CLOCK_MONOTONIC, &time);
    return (int64_t)time.tv_sec * 1000 + time.tv_nsec / 1000000;
}

int64_t transport_end_of(int milliseconds)
{
    return milliseconds < 0 ? -1 : now() + milliseconds;
}

int transport_left_until(int64_t end)
{
    int64_t left = end < 0 ? -1 : end - now();
    return end >= 0 && left < 0 ? 0 : (int)left;
}

enum covretin_error transport_wait(int socket, short events, int64_t end)
{
    struct pollfd polled = {.fd = socket, .events = events};
    int ready;
    do
        ready = poll(&polled, 1, transport_left_until(end));
    while (ready < 0 && errno == EINTR);
    if (ready < 0)
        return COVRETIN_SOCKET_ERROR;
    return ready == 0 ? COVRETIN_TIMED_OUT : COVRETIN_OK;
}

/* -- Exchanges -- */

/* Takes a request back whose descriptors cannot be passed on, so that nothing of it was sent: the session is handed what is no reply to
 * it, and has asked nothing then. OUT_OF_MEMORY: it is still under way. */
static enum covretin_error take_back(struct transport *transport)
{
    static const uint8_t no_reply[12] = {0};
    int was = errno;
    if (transport->side->missing(transport->session) != 0 &&
        transport->side->receive(transport->session, no_reply, sizeof no_reply, transport->fds, 0))
        return COVRETIN_OUT_OF_MEMORY;
    transport->side->take(transport->session);
    transport->at = transport->end = transport->fd_count = transport->lent_len = 0;
    errno = was;
    return COVRETIN_INVALID_PARAM;
}

enum covretin_error transport_exchange_nowait(struct transport *transport, transport_take *takes, void *of, short *events)
{
    enum covretin_error error = COVRETIN_OK;
    short wanted = 0;
    *events = 0;
    if (transport == NULL)
        return COVRETIN_NO_SESSION;
    if (transport_is_broken(transport))
        return transport->broken;
    if (!transport->begun) {
        wanted = POLLOUT;
        error = transport_send(transport);
        if (error == COVRETIN_INVALID_PARAM)
            return take_back(transport);
    }
    if (!error) {
        wanted = POLLIN;
        error = transport_receive(transport);
    }
    if (!error) {
        bool is_last = transport->at == transport->end;
        /* (the system does not say whether descriptors came with the reply or with what is behind it) */
        error = is_last || !transport->brought ? takes(of) : COVRETIN_INVALID_MESSAGE;
        if (!is_last) /* nobody awaits it */
            transport_settle(transport, COVRETIN_INVALID_MESSAGE);
    }
    if (error == COVRETIN_NOT_YET)
        *events = wanted;
    return transport_settle(transport, error);
}

enum covretin_error transport_exchange(struct transport *transport, transport_take *takes, void *of, int milliseconds)
{
    int64_t end = transport_end_of(milliseconds);
    for (;;) {
        short events;
        enum covretin_error error;
        transport_may_wait(transport, end < 0);
        error = transport_exchange_nowait(transport, takes, of, &events);
        transport_may_wait(transport, false);
        if (error != COVRETIN_NOT_YET)
            return error;
        error = transport_wait(transport->socket, events, end);
        if (error)
            return transport_settle(transport, error);
    }
}

/* -- Sockets -- */

enum covretin_error transport_check_socket(int fd)
{
    int value = 0;
    socklen_t size = sizeof value;
    if (getsockopt(fd, SOL_SOCKET, SO_DOMAIN, &value, &size))
        return COVRETIN_INVALID_SOCKET_FD;
    if (value != AF_UNIX)
        return COVRETIN_NOT_UNIX_SOCKET;
    if (getsockopt(fd, SOL_SOCKET, SO_TYPE, &value, &size))
        return COVRETIN_INVALID_SOCKET_FD;
    return value == SOCK_STREAM ? COVRETIN_OK : COVRETIN_NOT_STREAM_SOCKET;
}

enum covretin_error transport_address(const char *path, struct sockaddr_un *address)
{
    size_t length = strlen(path);
    if (length == 0 || length >= sizeof address->sun_path)
        return COVRETIN_INVALID_PATH;
    memset(address, 0, sizeof *address);
    address->sun_family = AF_UNIX;
    memcpy(address->sun_path, path, length);
    return COVRETIN_OK;
}
