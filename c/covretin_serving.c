/* SPDX-License-Identifier: Apache-2.0 */
/* What the sessions of Covretin that serve share over a socket: see covretin_serving.h. */
#include "covretin_serving.h"

#include <poll.h>

/* -- Its life -- */

enum covretin_error serving_open(void **opaque, const struct serving_side *side, void *session, int socket)
{
    enum covretin_error error = transport_connect(opaque, &side->bytes, session, 0, socket, sizeof(struct serving));
    if (!error)
        ((struct serving *)*opaque)->side = side;
    return error;
}

enum covretin_error serving_set_hook(struct serving *serving, const struct serving_hook *hook)
{
    if (serving == NULL)
        return COVRETIN_NO_SESSION;
    serving->hook = *hook;
    return COVRETIN_OK;
}

bool serving_ended(const struct serving *serving)
{
    return serving == NULL || serving->transport.broken;
}

uint32_t serving_request(const struct serving *serving)
{
    return serving == NULL ? 0 : transport_request(&serving->transport);
}

/* -- Requests -- */

/* Whether the call that was handed out last is still to be replied to. */
static bool is_pending(const struct serving *serving)
{
    return serving->calling && serving->side->bytes.missing(serving->transport.session) == 0;
}

/* Whether the session could not answer whoever waits, or broke off amid a message. */
static bool has_ended(const struct serving *serving)
{
    return serving->side->ended != NULL && serving->side->ended(serving->transport.session);
}

/* Checks the request that came. NOT_YET: one without a call of its own was served and replied to, and the next may come. */
static enum covretin_error check_request(struct serving *serving, uint32_t *call)
{
    const struct serving_side *side = serving->side;
    void *session = serving->transport.session;
    uint32_t asked = 0;
    enum covretin_error error = side->next(session, &asked);
    serving->calling = error == COVRETIN_OK;
    if (!serving->calling)
        return error;
    if (asked == 0 || asked != side->other_call) {
        *call = asked;
        return COVRETIN_OK;
    }
    error = side->other(session, &serving->hook);
    serving->calling = error == COVRETIN_OK;
    return error == COVRETIN_OK ? COVRETIN_NOT_YET : error;
}

/* A request is refused: whoever counts that is told before the acknowledgement is sent, or the peer is hung up on. */
static void note_refusal(struct serving *serving, enum covretin_error error)
{
    serving->refusal = error;
    transport_next(&serving->transport);
    if (serving->hook.refused != NULL)
        serving->hook.refused(serving->hook.context);
}

/* Receives a request, and checks it. The end of the stream is what it means where it came. */
static enum covretin_error receive_request(struct serving *serving, uint32_t *call)
{
    void *session = serving->transport.session;
    enum covretin_error error = transport_receive(&serving->transport);
    if (error == COVRETIN_DISCONNECTED)
        return serving->side->end(session);
    if (error)
        return error;
    error = check_request(serving, call);
    if (!serving->calling)
        note_refusal(serving, error);
    return error;
}

/* Sends what is to be sent, unless a request is under way, and lets go of the call before. A reply whose descriptors cannot be passed on
 * is never sent, and whoever waits for it is to be hung up on. SOCKET_BROKEN: so is he where that call ended the session. */
static enum covretin_error send_before(struct serving *serving)
{
    enum covretin_error error;
    if (serving->transport.begun && !serving->calling)
        return COVRETIN_OK;
    error = transport_send(&serving->transport);
    if (error == COVRETIN_INVALID_PARAM)
        return COVRETIN_SOCKET_ERROR;
    if (error)
        return error;
    if (serving->calling) {
        serving->calling = false;
        transport_next(&serving->transport);
    }
    return has_ended(serving) ? COVRETIN_SOCKET_BROKEN : COVRETIN_OK;
}

/* Tells why a request was refused, once what is to be sent was sent. */
static enum covretin_error tell_refusal(struct serving *serving)
{
    enum covretin_error error = transport_send(&serving->transport);
    if (error)
        return error;
    error = serving->refusal;
    serving->refusal = COVRETIN_OK;
    return error;
}

/* As serving_next_call_nowait; *events is what would be waited for. */
static enum covretin_error next_call(struct serving *serving, uint32_t *call, short *events)
{
    enum covretin_error error;
    if (is_pending(serving))
        return COVRETIN_NOT_REPLIED;
    *events = POLLOUT;
    if (serving->refusal)
        return tell_refusal(serving);
    error = send_before(serving);
    if (error)
        return error;
    *events = POLLIN;
    error = receive_request(serving, call);
    if (serving->calling)
        *events = POLLOUT;
    if (!serving->refusal)
        return error;
    *events = POLLOUT;
    return tell_refusal(serving);
}

/* As serving_send_reply_nowait. */
static enum covretin_error send_reply(struct serving *serving, uint32_t *call, short *events)
{
    (void)call;
    if (is_pending(serving))
        return COVRETIN_NOT_REPLIED;
    *events = POLLOUT;
    return send_before(serving);
}

/* One of the two, where the service is there and has not ended. */
typedef enum covretin_error work(struct serving *serving, uint32_t *call, short *events);

static enum covretin_error work_nowait(struct serving *serving, work *does, uint32_t *call, short *events)
{
    enum covretin_error error;
    *events = 0;
    if (serving == NULL)
        return COVRETIN_NO_SESSION;
    if (transport_is_broken(&serving->transport))
        return serving->transport.broken;
    error = transport_settle(&serving->transport, does(serving, call, events));
    if (error != COVRETIN_NOT_YET)
        *events = 0;
    if (!serving->calling && !serving->refusal && has_ended(serving))
        transport_hang_up(&serving->transport);
    return error;
}

static enum covretin_error work_until(struct serving *serving, work *does, uint32_t *call, int milliseconds)
{
    int64_t end = transport_end_of(milliseconds);
    for (;;) {
        short events;
        enum covretin_error error;
        transport_may_wait(serving == NULL ? NULL : &serving->transport, end < 0);
        error = work_nowait(serving, does, call, &events);
        transport_may_wait(serving == NULL ? NULL : &serving->transport, false);
        if (error != COVRETIN_NOT_YET)
            return error;
        error = transport_wait(serving->transport.socket, events, end);
        if (error)
            return transport_settle(&serving->transport, error);
    }
}

enum covretin_error serving_next_call(struct serving *serving, uint32_t *call, int milliseconds)
{
    return work_until(serving, next_call, call, milliseconds);
}

enum covretin_error serving_next_call_nowait(struct serving *serving, uint32_t *call, short *events)
{
    return work_nowait(serving, next_call, call, events);
}

enum covretin_error serving_send_reply(struct serving *serving, int milliseconds)
{
    uint32_t call;
    return work_until(serving, send_reply, &call, milliseconds);
}

enum covretin_error serving_send_reply_nowait(struct serving *serving, short *events)
{
    uint32_t call;
    return work_nowait(serving, send_reply, &call, events);
}

enum covretin_error serving_claim(struct serving *serving, int32_t fd)
{
    if (serving == NULL)
        return COVRETIN_NO_SESSION;
    return serving->side->claim(serving->transport.session, fd);
}
