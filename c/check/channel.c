/* SPDX-License-Identifier: Apache-2.0 */
/* Checked: c/covretin_channel_socket.c, over any transport and any session of either side. */
#include "any_transport.h"

#include "covretin_channel_socket.c"

/* -- The proved part -- */

enum covretin_error covretin_channel_take(covretin_channel *channel)
{
    (void)channel;
    return (enum covretin_error)any_int();
}

enum covretin_error covretin_channel_server_end(covretin_channel_server *server)
{
    (void)server;
    return any_bool() ? COVRETIN_DISCONNECTED : any_bool() ? COVRETIN_PARTIAL_MESSAGE : COVRETIN_INVALID_MESSAGE;
}

enum covretin_error covretin_channel_server_next(covretin_channel_server *server, uint32_t *call)
{
    (void)server;
    HOLDS(__CPROVER_w_ok(call, sizeof *call), "there is room for the call");
    *call = any_u32();
    return (enum covretin_error)any_int();
}

/* (so the session keeps nothing of a call any more) */
enum covretin_error covretin_channel_reply_number(covretin_channel_server *server, uint64_t number)
{
    (void)server;
    HOLDS(number != 0, "a call that is given up is refused");
    server_model.has_call = false;
    return (enum covretin_error)any_int();
}

/* -- Checks -- */

static struct serving room;

/* A connection of the device's, which holds a descriptor that came with a reply. */
void check_channel(void)
{
    covretin_channel_connection connection = {.opaque = NULL};
    short events;
    the_room = &room.transport;
    the_size = sizeof(struct transport);
    int fd = fd_new();
    enum covretin_error error = covretin_channel_connect_fd(&connection, fd);
    HOLDS(covretin_channel_connection_fd(&connection) == (error ? -1 : fd), "which socket it is");
    model_begin(&channel_model, false);
    model_hold(&channel_model, error ? -1 : fd_new());
    bool is_asked = any_bool();
    error = is_asked ? covretin_channel_exchange(&connection, any_int()) : covretin_channel_exchange_nowait(&connection, &events);
    if (connection.opaque == NULL) {
        HOLDS(error == COVRETIN_NO_SESSION, "there is no session");
        fd_gone(fd); /* (it is the caller's) */
    } else if (error == COVRETIN_NOTHING_ASKED || any_bool())
        transport_next(connection.opaque);
    covretin_channel_disconnect(&connection);
    HOLDS(covretin_channel_connection_fd(&connection) == -1 && connection.channel.opaque == NULL, "both are closed");
    REACHED("closed");
}

/* What a reply is taken with is closed by that. */
void check_channel_take(void)
{
    covretin_channel_connection connection = {.opaque = &room};
    the_room = &room.transport;
    room.transport = (struct transport){.side = &channel_side, .session = &connection.channel};
    model_begin(&channel_model, false);
    model_hold(&channel_model, fd_new());
    if (take(&connection) == COVRETIN_NOTHING_ASKED)
        return;
    REACHED("taken");
    model_is_empty(&channel_model);
    fds_are_closed(-1);
}

/* A service of the frontend's. */
void check_channel_server(void)
{
    covretin_channel_service service = {.opaque = NULL};
    uint32_t call;
    short events;
    the_room = &room.transport;
    the_size = sizeof(struct serving);
    int fd = fd_new();
    enum covretin_error error = covretin_channel_serve_fd(&service, fd);
    HOLDS(covretin_channel_service_fd(&service) == (error ? -1 : fd), "which socket it is");
    HOLDS((covretin_channel_service_request(&service) == 0 && covretin_channel_service_ended(&service)) || !error, "there is none");
    model_begin(&server_model, true);
    int came = fd_new_if(!error);
    model_hold(&server_model, error ? -1 : came);
    if (any_bool())
        error = any_bool() ? covretin_channel_next_call(&service, &call, any_int()) : covretin_channel_next_call_nowait(&service, &call, &events);
    else
        error = any_bool() ? covretin_channel_send_reply(&service, any_int()) : covretin_channel_send_reply_nowait(&service, &events);
    if (service.opaque == NULL) {
        HOLDS(error == COVRETIN_NO_SESSION && covretin_channel_claim_call_fd(&service, came) == COVRETIN_NO_SESSION, "there is no session");
        fd_gone(fd);
    } else if (any_bool() && covretin_channel_claim_call_fd(&service, came) == COVRETIN_OK) {
        REACHED("claimed");
        fd_gone(came);
        HOLDS(covretin_channel_claim_call_fd(&service, came) != COVRETIN_OK, "once");
    }
    if (service.opaque != NULL)
        transport_next(service.opaque);
    model_is_empty(&server_model);
    covretin_channel_hang_up(&service);
    HOLDS(service.opaque == NULL && service.server.opaque == NULL, "both are closed");
    fds_are_closed(-1);
    REACHED("hung up");
}
