/* SPDX-License-Identifier: Apache-2.0 */
/* What the sessions of Covretin that serve share over a socket: whose requests come one after another, and are replied to. Private:
 * no program includes this. */
#ifndef COVRETIN_SERVING_H
#define COVRETIN_SERVING_H

#include "covretin_transport.h"

typedef int serving_other(void *context, uint32_t request, const uint8_t *bytes, size_t len, const int32_t *fds, size_t count);

struct serving_hook {
    serving_other *other;           /* is given the requests that have no call of their own; NULL: nobody */
    void (*refused)(void *context); /* a request was refused, before its peer can know; NULL: nobody is told then */
    void *context;
};

/* The calls of a session that serves. */
struct serving_side {
    struct transport_side bytes;
    enum covretin_error (*next)(void *session, uint32_t *call);
    enum covretin_error (*end)(void *session);
    enum covretin_error (*claim)(void *session, int32_t fd);
    bool (*ended)(void *session); /* whether it reads nothing more; NULL: it always does */
    /* replies to a request that has no call of its own, which `next` gives this number: INVALID_OPERATION: nobody serves it; 0: no such */
    uint32_t other_call;
    enum covretin_error (*other)(void *session, const struct serving_hook *hook);
};

/* What stands behind a service; NULL: none. */
struct serving {
    struct transport transport;
    const struct serving_side *side;
    struct serving_hook hook;
    bool calling;                /* a call was handed out, and what came with it is still there */
    enum covretin_error refusal; /* of a request whose acknowledgement is still to be sent, or 0 */
};

/* Opens a session, and serves it over this socket: `opaque` is then what stands behind it; after an error both are as before.
 * SESSION_OPEN; what transport_check_socket returns; OUT_OF_MEMORY. */
enum covretin_error serving_open(void **opaque, const struct serving_side *side, void *session, int socket);

/* Who is called amid the calls below. NO_SESSION. */
enum covretin_error serving_set_hook(struct serving *serving, const struct serving_hook *hook);

/* Whether it is of no more use. */
bool serving_ended(const struct serving *serving);

/* The number of the request that came last, or 0. */
uint32_t serving_request(const struct serving *serving);

/* What covretin_backend_socket.h says of covretin_next_call, covretin_send_reply and covretin_claim_call_fd. */
enum covretin_error serving_next_call(struct serving *serving, uint32_t *call, int milliseconds);
enum covretin_error serving_next_call_nowait(struct serving *serving, uint32_t *call, short *events);
enum covretin_error serving_send_reply(struct serving *serving, int milliseconds);
enum covretin_error serving_send_reply_nowait(struct serving *serving, short *events);
enum covretin_error serving_claim(struct serving *serving, int32_t fd);

#endif
