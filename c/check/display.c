/* SPDX-License-Identifier: Apache-2.0 */
/* Checked: c/covretin_display_socket.c, over any transport and any session. */
#include "any_transport.h"

#include "covretin_display_socket.c"

/* -- The proved part -- */

enum covretin_error covretin_display_take(covretin_display *display)
{
    (void)display;
    return (enum covretin_error)any_int();
}

/* Without a session nothing is asked. */
static enum covretin_error any_ask(const covretin_display *display)
{
    return display->opaque == NULL ? COVRETIN_NO_SESSION : any_bool() ? COVRETIN_OK : COVRETIN_INVALID_PARAM;
}

enum covretin_error covretin_display_ask_update_scanout(covretin_display *display, const covretin_display_update *update, size_t pixels_len)
{
    (void)pixels_len;
    HOLDS(__CPROVER_r_ok(update, sizeof *update), "the update is there");
    return any_ask(display);
}

enum covretin_error covretin_display_ask_cursor_update(covretin_display *display, const covretin_display_cursor_update *update)
{
    HOLDS(__CPROVER_r_ok(update, sizeof *update), "the update is there");
    return any_ask(display);
}

/* -- Checks -- */

static struct transport room;

void check_display(void)
{
    covretin_display_connection connection = {.opaque = NULL};
    static const uint8_t image[COVRETIN_DISPLAY_CURSOR_SIZE];
    static const covretin_display_update update;
    static const covretin_display_cursor_update cursor;
    size_t pixels = any_size();
    short events;
    GIVEN(pixels <= sizeof image);
    the_room = &room;
    the_size = sizeof(struct transport);
    int fd = fd_new();
    enum covretin_error error = covretin_display_connect_fd(&connection, fd);
    HOLDS(covretin_display_connection_fd(&connection) == (error ? -1 : fd), "which socket it is");
    model_begin(&display_model, false);
    if (any_bool() && covretin_display_lend_pixels(&connection, &update, image, pixels) == COVRETIN_OK)
        HOLDS(lent == image && lent_len == pixels, "they are sent behind the request");
    if (any_bool() && covretin_display_lend_image(&connection, &cursor, image) == COVRETIN_OK)
        HOLDS(lent == image && lent_len == sizeof image, "the image is sent behind the request");
    error = any_bool() ? covretin_display_exchange(&connection, any_int()) : covretin_display_exchange_nowait(&connection, &events);
    if (connection.opaque == NULL) {
        HOLDS(error == COVRETIN_NO_SESSION && lent == NULL, "there is no session");
        fd_gone(fd); /* (it is the caller's) */
    }
    covretin_display_disconnect(&connection);
    HOLDS(covretin_display_connection_fd(&connection) == -1 && connection.display.opaque == NULL, "both are closed");
    fds_are_closed(-1);
    REACHED("closed");
}

/* What a reply is taken with is closed by that. */
void check_display_take(void)
{
    covretin_display_connection connection = {.opaque = &room};
    the_room = &room;
    room = (struct transport){.side = &display_side, .session = &connection.display};
    model_begin(&display_model, false);
    model_hold(&display_model, fd_new());
    enum covretin_error error = take(&connection);
    HOLDS(error != COVRETIN_OTHER_ANSWER, "a value is the caller's to take");
    if (error == COVRETIN_NOTHING_ASKED)
        return;
    REACHED("taken");
    model_is_empty(&display_model);
    fds_are_closed(-1);
}
