/* SPDX-License-Identifier: Apache-2.0 */
/* Checked: c/covretin_serving.c, over any session that serves, and any transport (c/check/transport.c checks that). */
#include "core.h"

#include "covretin_serving.c"

/* -- Any transport: what covretin_transport.h allows -- */

static struct serving the;
static unsigned waits;

static enum covretin_error any_error(void)
{
    return (enum covretin_error)(any_bool() ? 0 : any_int());
}

enum covretin_error transport_connect(void **opaque, const struct transport_side *side, void *session, uint64_t rings, int socket, size_t size)
{
    (void)rings, (void)socket;
    HOLDS(size == sizeof(struct serving), "room for all that stands behind a service");
    if (*opaque != NULL || any_bool())
        return COVRETIN_SESSION_OPEN;
    the = (struct serving){.transport = {.side = side, .session = session}};
    *opaque = &the;
    return COVRETIN_OK;
}

uint32_t transport_request(const struct transport *transport)
{
    HOLDS(transport != NULL, "there is one");
    return any_u32();
}

enum covretin_error transport_send(struct transport *transport)
{
    (void)transport;
    return any_error();
}

enum covretin_error transport_receive(struct transport *transport)
{
    transport->begun = any_bool();
    return any_error();
}

void transport_next(struct transport *transport)
{
    transport->begun = false;
}

enum covretin_error transport_settle(struct transport *transport, enum covretin_error error)
{
    if (error != COVRETIN_NOT_YET && any_bool())
        transport->broken = error;
    return error;
}

void transport_hang_up(struct transport *transport)
{
    transport->broken = COVRETIN_SOCKET_BROKEN;
}

bool transport_is_broken(const struct transport *transport)
{
    return transport->broken;
}

void transport_may_wait(struct transport *transport, bool may)
{
    if (transport != NULL)
        transport->waits = may;
}

int64_t transport_end_of(int milliseconds)
{
    return milliseconds < 0 ? -1 : milliseconds;
}

enum covretin_error transport_wait(int socket, short events, int64_t end)
{
    (void)socket, (void)end;
    HOLDS(events != 0, "it is known for what is waited");
    if (waits++ >= MOST_AGAIN)
        return COVRETIN_TIMED_OUT;
    return any_error();
}

/* -- Any session that serves -- */

static size_t any_missing(void *session)
{
    (void)session;
    return any_size();
}

static enum covretin_error any_next(void *session, uint32_t *call)
{
    (void)session;
    if (any_bool())
        return (enum covretin_error)(any_int() | 1);
    *call = any_u32();
    return COVRETIN_OK;
}

static enum covretin_error any_end(void *session)
{
    (void)session;
    return any_bool() ? COVRETIN_DISCONNECTED : any_bool() ? COVRETIN_PARTIAL_MESSAGE : COVRETIN_INVALID_MESSAGE;
}

static enum covretin_error any_claim(void *session, int32_t fd)
{
    (void)session, (void)fd;
    return any_error();
}

static bool any_ended(void *session)
{
    (void)session;
    return any_bool();
}

static enum covretin_error any_other(void *session, const struct serving_hook *hook)
{
    (void)session;
    HOLDS(__CPROVER_r_ok(hook, sizeof *hook), "the hook is there");
    return any_error();
}

static bool is_counted;

static void any_refused(void *context)
{
    HOLDS(context == &is_counted, "its context is whoever's it is");
    is_counted = true;
}

static struct serving_side side = {.bytes = {.missing = any_missing}, .next = any_next, .end = any_end, .claim = any_claim};

/* Any service, or none. */
static struct serving *any_serving(void)
{
    struct serving any;
    the = any;
    GIVEN(the.transport.broken != COVRETIN_NOT_YET);
    side.ended = any_bool() ? any_ended : NULL;
    side.other_call = any_bool() ? 257 : 0;
    side.other = any_other;
    the.side = &side;
    the.transport.side = &side.bytes;
    the.hook.refused = NULL;
    return any_bool() ? &the : NULL;
}

/* -- Checks -- */

void check_serving_open(void)
{
    void *opaque = any_bool() ? &the : NULL, *was = opaque;
    enum covretin_error error = serving_open(&opaque, &side, NULL, any_int());
    HOLDS(error ? opaque == was : ((struct serving *)opaque)->side == &side, "after an error all is as before");
    REACHED("opened");
}

void check_serving_nowait(void)
{
    struct serving *it = any_serving();
    uint32_t call;
    short events;
    const struct serving_hook hook = {NULL, any_bool() ? any_refused : NULL, &is_counted};
    HOLDS(serving_set_hook(it, &hook) == (it != NULL ? COVRETIN_OK : COVRETIN_NO_SESSION), "who is called is told where there is a service");
    bool had_refusal = it != NULL && it->refusal;
    enum covretin_error error =
        any_bool() ? serving_next_call_nowait(it, &call, &events) : serving_send_reply_nowait(it, &events);
    HOLDS(it != NULL || error == COVRETIN_NO_SESSION, "without a service there is no session");
    HOLDS(error == COVRETIN_NOT_YET || events == 0, "only what is not yet done is waited for");
    HOLDS(it == NULL || !it->refusal || had_refusal || hook.refused == NULL || is_counted, "a refusal that is still to be sent was counted");
    HOLDS(serving_ended(it) || it != NULL, "none has ended");
    (void)serving_request(it);
    (void)serving_claim(it, any_int());
    if (!error)
        REACHED("served");
}

void check_serving_until(void)
{
    struct serving *it = any_serving();
    uint32_t call;
    int milliseconds = any_int();
    enum covretin_error error = any_bool() ? serving_next_call(it, &call, milliseconds) : serving_send_reply(it, milliseconds);
    HOLDS(error != COVRETIN_NOT_YET || waits != 0, "it waits for what is not yet done");
    HOLDS(it == NULL || !it->transport.waits || error == COVRETIN_NO_SESSION, "no call waits behind it");
    REACHED("served");
}
