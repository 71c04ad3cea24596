/* SPDX-License-Identifier: Apache-2.0 */
/* A device's side of Covretin's vhost-user-gpu channel over its socket: see covretin_display_socket.h. */
#include "covretin_display_socket.h"
#include "covretin_transport.h"

/* -- Connections -- */

TRANSPORT_BYTES(display, covretin_display)
TRANSPORT_OPENS(display, covretin_display)
TRANSPORT_CALL(display_take, covretin_display_take)

static const struct transport_side display_side = {display_missing, display_receive, display_to_send, display_unclaimed, NULL, display_take,
                                                   false, true, display_open, display_close};

enum covretin_error covretin_display_connect_fd(covretin_display_connection *connection, int fd)
{
    return transport_connect(&connection->opaque, &display_side, &connection->display, 0, fd, sizeof(struct transport));
}

void covretin_display_disconnect(covretin_display_connection *connection)
{
    transport_disconnect(&connection->opaque, &connection->display, display_close);
}

int covretin_display_connection_fd(const covretin_display_connection *connection)
{
    return transport_fd(connection->opaque);
}

/* -- Pixels -- */

enum covretin_error covretin_display_lend_pixels(covretin_display_connection *connection, const covretin_display_update *update,
                                                 const uint8_t *pixels, size_t pixels_len)
{
    enum covretin_error error = covretin_display_ask_update_scanout(&connection->display, update, pixels_len);
    if (!error)
        transport_lend(connection->opaque, pixels, pixels_len);
    return error;
}

enum covretin_error covretin_display_lend_image(covretin_display_connection *connection, const covretin_display_cursor_update *update,
                                                const uint8_t *image)
{
    enum covretin_error error = covretin_display_ask_cursor_update(&connection->display, update);
    if (!error)
        transport_lend(connection->opaque, image, COVRETIN_DISPLAY_CURSOR_SIZE);
    return error;
}

/* -- Exchanges -- */

/* Takes the reply, which names no descriptor, unless it has a value: that one is the caller's to take. */
static enum covretin_error take(void *of)
{
    covretin_display_connection *connection = of;
    enum covretin_error error = covretin_display_take(&connection->display);
    if (error != COVRETIN_NOTHING_ASKED)
        transport_next(connection->opaque);
    return error == COVRETIN_OTHER_ANSWER ? COVRETIN_OK : error;
}

enum covretin_error covretin_display_exchange(covretin_display_connection *connection, int milliseconds)
{
    return transport_exchange(connection->opaque, take, connection, milliseconds);
}

enum covretin_error covretin_display_exchange_nowait(covretin_display_connection *connection, short *events)
{
    return transport_exchange_nowait(connection->opaque, take, connection, events);
}
