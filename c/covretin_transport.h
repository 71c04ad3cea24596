/* SPDX-License-Identifier: Apache-2.0 */
/* What both sides of Covretin over a Unix socket share: a socket, and what is under way between it and a session. Private: no
 * program includes this. */
#ifndef COVRETIN_TRANSPORT_H
#define COVRETIN_TRANSPORT_H

#include "covretin.h"

#include <pthread.h>

/* The calls of a session that bytes go through. */
struct transport_side {
    size_t (*missing)(void *session);
    enum covretin_error (*receive)(void *session, const uint8_t *bytes, size_t bytes_len, const int32_t *fds, size_t fds_len);
    enum covretin_error (*to_send)(void *session, uint8_t *bytes, size_t bytes_len, int32_t *fds, size_t fds_len, size_t *byte_count,
                                   size_t *fd_count);
    enum covretin_error (*unclaimed)(void *session, int32_t *fds, size_t fds_len, size_t *count);
    enum covretin_error (*abandon)(void *session); /* nor a call that is to be replied to; NULL where nobody may claim a descriptor */
    enum covretin_error (*take)(void *session); /* the reply; NULL where it serves */
    bool hears_late;                            /* is told of descriptors that come amid a message, too */
    bool is_given;                              /* its socket came from the peer, who may go on with it */
    enum covretin_error (*open)(void *session, uint64_t rings); /* with its socket, and what closes it; NULL where another does */
    void (*close)(void *session);
};

/* A call of a session that is given nothing else, as a side has it. */
#define TRANSPORT_CALL(name, call) \
    static enum covretin_error name(void *session) \
    { \
        return call(session); \
    }

/* Those that bytes and descriptors go through; `calls` is what their names begin with. */
#define TRANSPORT_BYTES(name, calls) \
    static size_t name##_missing(void *session) \
    { \
        return calls##_missing(session); \
    } \
    static enum covretin_error name##_receive(void *session, const uint8_t *bytes, size_t bytes_len, const int32_t *fds, size_t fds_len) \
    { \
        return calls##_receive(session, bytes, bytes_len, fds, fds_len); \
    } \
    static enum covretin_error name##_to_send(void *session, uint8_t *bytes, size_t bytes_len, int32_t *fds, size_t fds_len, \
                                              size_t *byte_count, size_t *fd_count) \
    { \
        return calls##_to_send(session, bytes, bytes_len, fds, fds_len, byte_count, fd_count); \
    } \
    static enum covretin_error name##_unclaimed(void *session, int32_t *fds, size_t fds_len, size_t *count) \
    { \
        return calls##_unclaimed(session, fds, fds_len, count); \
    }

/* Those that open and close it. */
#define TRANSPORT_OPENS(name, calls) \
    static enum covretin_error name##_open(void *session, uint64_t rings) \
    { \
        (void)rings; \
        return calls##_open(session); \
    } \
    static void name##_close(void *session) \
    { \
        calls##_close(session); \
    }

/* What came of a message. */
struct transport_came {
    uint8_t head[16]; /* its first bytes, as far as they came: its header, and four of its body; those behind them are 0 */
    size_t bytes;
    size_t fds, late_fds; /* how many descriptors, and how many of these behind its first byte */
};

/* A message goes out whole before the next is read, so both ways use `bytes`. */
struct transport {
    const struct transport_side *side;
    void *session;
    int socket;
    enum covretin_error broken; /* what ended the connection, or 0; each call then returns it again, */
    int broken_errno;           /* with this errno */
    size_t at, end;             /* bytes[at .. end) are to be sent, or to be handed to the session */
    size_t sent;                /* how many bytes the session handed out last */
    uint8_t bytes[COVRETIN_MAX_MESSAGE];
    int32_t fds[COVRETIN_MAX_FDS]; /* the caller's, to go with bytes[at] */
    size_t fd_count;
    const uint8_t *lent; /* the caller's: lent[0 .. lent_len) are to be sent behind all that is the session's */
    size_t lent_len;
    bool waits;                     /* a call without a limit of time is under way: a receive waits as the socket does */
    bool begun;                     /* the awaited message has begun to come */
    struct transport_came seen;     /* of the message that came last */
    int32_t came[COVRETIN_MAX_FDS]; /* with the piece in `bytes`, until the session receives it and keeps them */
    size_t came_count;
    bool brought; /* the session keeps descriptors of a message, until they are claimed or closed */
};

/* A transport over this socket, at the begin of so many bytes, of which those behind it are 0; or NULL: an allocation failed. */
struct transport *transport_new(const struct transport_side *side, void *session, int socket, size_t size);

/* Closes the socket and all that came, and frees it. Its session is open. */
void transport_free(struct transport *transport);

/* Opens a session, and such a transport over this socket, which `opaque` then is; after an error both are as before. SESSION_OPEN; what
 * transport_check_socket returns; OUT_OF_MEMORY. */
enum covretin_error transport_connect(void **opaque, const struct transport_side *side, void *session, uint64_t rings, int socket,
                                      size_t size);

/* Closes both; the transport may be none. */
void transport_disconnect(void **opaque, void *session, void (*close)(void *session));

/* The socket; -1: there is none. */
int transport_fd(const struct transport *transport);

/* Bytes to be sent behind all that the session has to send now; they stay the caller's. */
void transport_lend(struct transport *transport, const uint8_t *bytes, size_t bytes_len);

/* Sends all that the session has to send, and what was lent. NOT_YET: the socket takes no more now. OUT_OF_MEMORY: nor does the system.
 * INVALID_PARAM: it cannot pass the descriptors on, and nothing was sent. */
enum covretin_error transport_send(struct transport *transport);

/* Receives what the session misses, and hands it in. An allocation that fails leaves it here. NOT_YET: the socket has no more. */
enum covretin_error transport_receive(struct transport *transport);

/* Whether a receive may wait from now on, where there is a transport. */
void transport_may_wait(struct transport *transport, bool waits);

/* The number of the request that came last, as its header has it; 0: that much of it has not come. */
uint32_t transport_request(const struct transport *transport);

/* The number of four bytes of a message's head, from one on. */
uint32_t transport_word(const struct transport_came *came, size_t at);

/* Sends what is to be sent, receives the reply, and has it taken once it is there whole. What `takes` returns, or why it does not come to
 * that; NOT_YET: *events is what the socket has to be ready for. NO_SESSION: there is no transport. */
typedef enum covretin_error transport_take(void *of);
enum covretin_error transport_exchange_nowait(struct transport *transport, transport_take *takes, void *of, short *events);

/* The same within a limit of time. */
enum covretin_error transport_exchange(struct transport *transport, transport_take *takes, void *of, int milliseconds);

/* Closes what came and was not claimed; the next message may come. */
void transport_next(struct transport *transport);

/* Notes an error after which the connection is of no more use; returns it. */
enum covretin_error transport_settle(struct transport *transport, enum covretin_error error);

/* Hangs up on the peer at once, and closes what came: the connection is of no more use, and each call is SOCKET_BROKEN. */
void transport_hang_up(struct transport *transport);

/* Whether one was noted; errno is then what it was. */
bool transport_is_broken(const struct transport *transport);

/* Starts a thread that takes no signal of the program's. Whether it could be started. */
bool transport_start_thread(pthread_t *thread, const pthread_attr_t *attributes, void *(*runs)(void *), void *of);

/* Closes a descriptor unless it is negative, and keeps errno. The linger time of a socket is ended first: its close does not wait. */
void transport_close(int fd);

/* Closes a connection's socket that nobody else has, and keeps errno. Nor does this wait for the sockets that wait unread in it. Where the
 * connection has ended, nothing more comes meanwhile. */
void transport_close_socket(int socket, bool is_ended);

/* The same of a socket that a peer gave, who may have it, too, and go on with it. Whoever looks at what is unread waits while another reads: so
 * that is done in a thread that nobody waits for. Where too many of these wait already nobody looks. */
void transport_close_given(int socket);

/* Whether this is a stream socket of the family AF_UNIX. */
enum covretin_error transport_check_socket(int fd);

/* The address of a path. INVALID_PATH. */
struct sockaddr_un;
enum covretin_error transport_address(const char *path, struct sockaddr_un *address);

/* When a limit of time is over; negative: never. And how many milliseconds are left until then, 0 where none are. */
int64_t transport_end_of(int milliseconds);
int transport_left_until(int64_t end);

/* Waits until a socket is ready for this. TIMED_OUT, SOCKET_ERROR. */
enum covretin_error transport_wait(int socket, short events, int64_t end);

#endif
