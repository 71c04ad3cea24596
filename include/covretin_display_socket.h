/* SPDX-License-Identifier: Apache-2.0 */
/* Covretin: the vhost-user-gpu channel over its Unix socket. This part of the library makes system calls. A graphics device does this:
 *
 *     error = covretin_claim_call_fd(&frontend, fd);                    the socket of COVRETIN_CALL_GPU_SET_SOCKET
 *     error = covretin_display_connect_fd(&screen, fd);
 *     error = covretin_display_ask_get_protocol_features(&screen.display);
 *     error = covretin_display_exchange(&screen, 5000);
 *     error = covretin_display_take_number(&screen.display, &features);
 *     error = covretin_display_lend_pixels(&screen, &update, pixels, pixels_len);
 *     error = covretin_display_exchange(&screen, 5000);
 *     covretin_display_disconnect(&screen);
 *
 * What covretin_socket.h says of a connection holds of this one, too: who owns the socket, the session and each descriptor that you give to an
 * ask, and all of signals, closing, limits of time and errors. A device is sent no descriptor, so all that come are closed. Pass
 * &connection.display to covretin_display_ask_.. and to the takes that give a value, and to nothing else. Two asks are not for it, since you
 * would have to send their pixels yourself: covretin_display_ask_update_scanout and covretin_display_ask_cursor_update.
 *
 * Pixels stay yours. The library reads them where they lie, and never copies them. So leave them there, unchanged, until the exchange is over.
 *
 * The socket was given by the frontend. So an exchange that awaits a reply may wait as long as whoever has a copy of the socket likes, as
 * covretin_channel_socket.h says. Closing it does not wait.
 */
#ifndef COVRETIN_DISPLAY_SOCKET_H
#define COVRETIN_DISPLAY_SOCKET_H

#include "covretin_display.h"

#ifdef __cplusplus
extern "C" {
#endif

/* A device's connection to a display. {0} is not connected. */
typedef struct covretin_display_connection {
    covretin_display display;
    void *opaque;
} covretin_display_connection;

/* Opens a session over a socket, which belongs to the connection from then on; after an error it is still yours. Errors: SESSION_OPEN;
 * INVALID_SOCKET_FD, NOT_UNIX_SOCKET and NOT_STREAM_SOCKET, if the descriptor is no socket or one of another kind; OUT_OF_MEMORY. After an
 * error nothing has changed. */
enum covretin_error covretin_display_connect_fd(covretin_display_connection *connection, int fd);

/* Closes the socket and the session. The connection is {0} again, and no pixels are lent to it any more. A call that is under way is given up. If
 * the variable is not connected, the call does nothing. */
void covretin_display_disconnect(covretin_display_connection *connection);

/* The connection's socket, to wait for by poll and its like. -1: there is none. */
int covretin_display_connection_fd(const covretin_display_connection *connection);

/* These stand in the place of covretin_display_ask_update_scanout and covretin_display_ask_cursor_update. You lend them the pixels, which the
 * exchange sends behind the rest of the message. `image` has COVRETIN_DISPLAY_CURSOR_SIZE bytes. After an error nothing is lent. */
enum covretin_error covretin_display_lend_pixels(covretin_display_connection *connection, const covretin_display_update *update,
                                     const uint8_t *pixels, size_t pixels_len);
enum covretin_error covretin_display_lend_image(covretin_display_connection *connection, const covretin_display_cursor_update *update,
                                    const uint8_t *image);

/* These do what covretin_exchange and covretin_exchange_nowait do, and return what covretin_display_take returns. If the reply has a value, they
 * leave the reply in the session and return 0, and you take the value by the call of its form. If that returns INVALID_MESSAGE, disconnect. */
enum covretin_error covretin_display_exchange(covretin_display_connection *connection, int milliseconds);
enum covretin_error covretin_display_exchange_nowait(covretin_display_connection *connection, short *events);

#ifdef __cplusplus
}
#endif

#endif
