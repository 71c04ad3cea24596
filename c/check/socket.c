/* SPDX-License-Identifier: Apache-2.0 */
/* Checked: c/covretin_socket.c, over any transport (c/check/transport.c checks that) and any session of a frontend. */
#include "any_transport.h"

#include "covretin_socket.c"

/* -- The proved part: whatever the reply names, one that came with it is claimed -- */

static int32_t reply_fd; /* it came with the reply; the session holds it until it is claimed */

#define NO_ANSWER any_bool() ? COVRETIN_NO_SESSION : COVRETIN_OTHER_ANSWER

enum covretin_error covretin_answer_fd(covretin_session *session, int32_t *fd)
{
    (void)session;
    if (any_bool())
        return NO_ANSWER;
    *fd = any_bool() ? reply_fd : any_int();
    return COVRETIN_OK;
}

enum covretin_error covretin_answer_inflight(covretin_session *session, covretin_inflight *inflight, int32_t *fd)
{
    (void)session;
    HOLDS(__CPROVER_w_ok(inflight, sizeof *inflight), "there is room for the region");
    if (any_bool())
        return NO_ANSWER;
    *fd = any_bool() ? reply_fd : any_int();
    return COVRETIN_OK;
}

enum covretin_error covretin_take(covretin_session *session)
{
    (void)session;
    return (enum covretin_error)any_int();
}

/* -- Checks -- */

static struct exchange the;

/* A reply of any kind, taken once; and the one before, of which the caller has claimed nothing. */
void check_frontend_exchange(void)
{
    covretin_connection connection = {.opaque = any_bool() ? &the : NULL};
    int32_t claimed = -1;
    short events;
    the_room = &the.transport;
    the.transport = (struct transport){.side = &frontend_side, .session = &connection.session};
    the_socket = fd_new_if(connection.opaque != NULL);
    model_begin(&frontend_model, true);
    frontend_model.has_call = false; /* (it asks, and is asked nothing) */
    reply_fd = fd_new();
    model_hold(&frontend_model, reply_fd);
    int kept = fd_new_if(the.has_fd = any_bool());
    the.fd = kept;
    enum covretin_error error = any_bool() ? covretin_exchange(&connection, any_int()) : covretin_exchange_nowait(&connection, &events);
    if (connection.opaque == NULL) {
        HOLDS(error == COVRETIN_NO_SESSION && covretin_claim_fd(&connection, &claimed) == COVRETIN_NO_SESSION, "there is no session");
        return;
    }
    if (covretin_claim_fd(&connection, &claimed) == COVRETIN_OK) {
        REACHED("claimed");
        HOLDS(fd_is_open(claimed), "what is claimed is open");
        fd_gone(claimed); /* (it is the caller's) */
    }
    HOLDS(covretin_claim_fd(&connection, &claimed) == COVRETIN_OTHER_ANSWER, "once");
    covretin_disconnect(&connection);
    HOLDS(covretin_connection_fd(&connection) == -1, "it has no socket any more");
    if (!takes_alone && error != COVRETIN_NOTHING_ASKED) {
        REACHED("taken");
        fds_are_closed(-1);
    }
}

void check_frontend_connect(void)
{
    covretin_connection connection = {.opaque = any_bool() ? &the : NULL};
    void *was = connection.opaque;
    the_room = &the.transport;
    the_size = sizeof(struct exchange);
    enum covretin_error error = covretin_connect(&connection, "p", 1, any_int());
    HOLDS(!error || connection.opaque == was, "after an error all is as before");
    fds_are_closed(error ? -1 : covretin_connection_fd(&connection));
    if (error == COVRETIN_TIMED_OUT)
        REACHED("the time is over");
    if (error)
        return;
    REACHED("connected");
    covretin_disconnect(&connection);
    fds_are_closed(-1);
}
