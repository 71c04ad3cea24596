/* SPDX-License-Identifier: Apache-2.0 */
/* Both sides of Covretin's backend channel over its socket: see covretin_channel_socket.h. */
#include "covretin_channel_socket.h"
#include "covretin_serving.h"

/* -- The device's session -- */

TRANSPORT_BYTES(channel, covretin_channel)
TRANSPORT_OPENS(channel, covretin_channel)
TRANSPORT_CALL(channel_take, covretin_channel_take)

static const struct transport_side channel_side = {channel_missing, channel_receive, channel_to_send, channel_unclaimed, NULL, channel_take,
                                                   false, true, channel_open, channel_close};

enum covretin_error covretin_channel_connect_fd(covretin_channel_connection *connection, int fd)
{
    return transport_connect(&connection->opaque, &channel_side, &connection->channel, 0, fd, sizeof(struct transport));
}

void covretin_channel_disconnect(covretin_channel_connection *connection)
{
    transport_disconnect(&connection->opaque, &connection->channel, channel_close);
}

int covretin_channel_connection_fd(const covretin_channel_connection *connection)
{
    return transport_fd(connection->opaque);
}

/* Takes the reply, which names no descriptor. */
static enum covretin_error take(void *of)
{
    covretin_channel_connection *connection = of;
    enum covretin_error error = covretin_channel_take(&connection->channel);
    if (error != COVRETIN_NOTHING_ASKED)
        transport_next(connection->opaque);
    return error;
}

enum covretin_error covretin_channel_exchange(covretin_channel_connection *connection, int milliseconds)
{
    return transport_exchange(connection->opaque, take, connection, milliseconds);
}

enum covretin_error covretin_channel_exchange_nowait(covretin_channel_connection *connection, short *events)
{
    return transport_exchange_nowait(connection->opaque, take, connection, events);
}

/* -- The frontend's session -- */

TRANSPORT_BYTES(server, covretin_channel_server)
TRANSPORT_OPENS(server, covretin_channel_server)
TRANSPORT_CALL(end, covretin_channel_server_end)

static enum covretin_error next(void *server, uint32_t *call)
{
    return covretin_channel_server_next(server, call);
}

static enum covretin_error claim(void *server, int32_t fd)
{
    return covretin_channel_server_claim(server, fd);
}

static enum covretin_error server_abandon(void *server)
{
    covretin_channel_reply_number(server, 1);
    return covretin_channel_server_abandon(server);
}

static const struct serving_side server_side = {
    {server_missing, server_receive, server_to_send, server_unclaimed, server_abandon, NULL, true, false, server_open, server_close}, next, end,
    claim, NULL, 0, NULL};

enum covretin_error covretin_channel_serve_fd(covretin_channel_service *service, int fd)
{
    return serving_open(&service->opaque, &server_side, &service->server, fd);
}

void covretin_channel_hang_up(covretin_channel_service *service)
{
    transport_disconnect(&service->opaque, &service->server, server_close);
}

int covretin_channel_service_fd(const covretin_channel_service *service)
{
    return transport_fd(service->opaque);
}

bool covretin_channel_service_ended(const covretin_channel_service *service)
{
    return serving_ended(service->opaque);
}

uint32_t covretin_channel_service_request(const covretin_channel_service *service)
{
    return serving_request(service->opaque);
}

enum covretin_error covretin_channel_next_call(covretin_channel_service *service, uint32_t *call, int milliseconds)
{
    return serving_next_call(service->opaque, call, milliseconds);
}

enum covretin_error covretin_channel_next_call_nowait(covretin_channel_service *service, uint32_t *call, short *events)
{
    return serving_next_call_nowait(service->opaque, call, events);
}

enum covretin_error covretin_channel_send_reply(covretin_channel_service *service, int milliseconds)
{
    return serving_send_reply(service->opaque, milliseconds);
}

enum covretin_error covretin_channel_send_reply_nowait(covretin_channel_service *service, short *events)
{
    return serving_send_reply_nowait(service->opaque, events);
}

enum covretin_error covretin_channel_claim_call_fd(covretin_channel_service *service, int32_t fd)
{
    return serving_claim(service->opaque, fd);
}
