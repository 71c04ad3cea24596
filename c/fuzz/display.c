/* SPDX-License-Identifier: Apache-2.0 */
/* A device's session on the vhost-user-gpu channel, which asks anything, and whose display replies anything. */
#include "covretin_display.h"
#include "run.h"

enum { CALLS = 12, FORMS = 4 };

static covretin_display display;

/* A call by its number; *pixels are those that the caller sends. */
static enum covretin_error ask(uint8_t which, uint64_t *pixels)
{
    uint64_t number = next_number();
    uint32_t left = (uint32_t)number, high = (uint32_t)(number >> 32);
    const covretin_display_scanout scanout = {left, high, left};
    const covretin_display_update update = {high, left, 3, left, high};
    const covretin_display_cursor_update cursor = {{left, high, 2}, high, 4};
    const covretin_display_dmabuf_scanout2 shown = {{left, 1, 2, 3, high, 5, 6, left, 8, 9}, number};
    *pixels = 0;
    switch (which % CALLS) {
    case 0: return covretin_display_ask_get_protocol_features(&display);
    case 1: return covretin_display_ask_set_protocol_features(&display, number);
    case 2: return covretin_display_ask_get_display_info(&display);
    case 3: return covretin_display_ask_get_edid(&display, left);
    case 4: return covretin_display_ask_set_scanout(&display, &scanout);
    case 5: *pixels = number; return covretin_display_ask_update_scanout(&display, &update, number);
    case 6: return covretin_display_ask_set_dmabuf_scanout(&display, &shown.dmabuf_scanout, (int32_t)number);
    case 7: return covretin_display_ask_set_dmabuf_scanout2(&display, &shown, (int32_t)number);
    case 8: return covretin_display_ask_update_dmabuf_scanout(&display, &update);
    case 9: return covretin_display_ask_cursor_pos(&display, &cursor.pos);
    case 10: return covretin_display_ask_cursor_pos_hide(&display, &cursor.pos);
    default: *pixels = COVRETIN_DISPLAY_CURSOR_SIZE; return covretin_display_ask_cursor_update(&display, &cursor);
    }
}

/* Takes what is to be sent: one request without its pixels, which its header counts, or nothing. How many bytes it has. */
static size_t send_all(uint64_t pixels)
{
    static uint8_t bytes[COVRETIN_MAX_MESSAGE];
    int32_t fds[COVRETIN_MAX_FDS];
    enum covretin_error error;
    size_t count = 0, fd_count = 0, none = 0;
    uint32_t head[3];
    do
        error = covretin_display_to_send(&display, bytes, sizeof bytes, fds, COVRETIN_MAX_FDS, &count, &fd_count);
    while (is_again(error));
    must(error == COVRETIN_OK && fd_count <= 1);
    if (count == 0)
        return 0;
    must(count >= sizeof head);
    memcpy(head, bytes, sizeof head);
    must(head[0] >= 1 && head[0] <= CALLS && head[1] == 0 && head[2] == count - sizeof head + pixels);
    tell(bytes, count);
    tell(fds, fd_count * sizeof *fds);
    do
        error = covretin_display_to_send(&display, bytes, sizeof bytes, fds, COVRETIN_MAX_FDS, &none, &fd_count);
    while (is_again(error));
    must(error == COVRETIN_OK && none == 0 && fd_count == 0);
    return count;
}

/* What was taken last: a record, and behind it a byte that nobody writes. */
static uint8_t taken[COVRETIN_DISPLAY_EDID_SIZE + 1];

/* Takes a reply by a form. What is refused writes nothing. */
static enum covretin_error take(int form)
{
    static const uint8_t untouched[sizeof taken];
    uint64_t number = 0;
    enum covretin_error error;
    memset(taken, 0, sizeof taken);
    switch (form) {
    case 0: error = covretin_display_take(&display); break;
    case 1: error = covretin_display_take_number(&display, &number); break;
    case 2: error = covretin_display_take_display_info(&display, taken, COVRETIN_DISPLAY_INFO_SIZE); break;
    default: error = covretin_display_take_edid(&display, taken, COVRETIN_DISPLAY_EDID_SIZE); break;
    }
    must(error == COVRETIN_OK || (number == 0 && memcmp(taken, untouched, sizeof taken) == 0));
    must(taken[form == 2 ? COVRETIN_DISPLAY_INFO_SIZE : COVRETIN_DISPLAY_EDID_SIZE] == 0);
    if (form == 1)
        memcpy(taken, &number, sizeof number);
    return error;
}

/* Hands the reply in, until it is there whole, or no more comes. */
static void receive(int form)
{
    enum covretin_error error;
    size_t missing;
    bool has_begun = false;
    while ((missing = covretin_display_missing(&display)) != 0 && more_bytes()) {
        struct piece piece;
        must(missing <= COVRETIN_MAX_MESSAGE - 12 && (has_begun || missing == 12));
        must(take(form) == COVRETIN_NOT_YET);
        next_piece(missing, &piece);
        if (piece.length == 0)
            continue;
        do
            error = covretin_display_receive(&display, piece.bytes, piece.length, piece.fds, piece.fd_count);
        while (is_again(error));
        must(error == COVRETIN_OK);
        has_begun = true;
    }
}

/* The form of each call's reply. */
static int form_of(uint8_t which)
{
    return which == 0 ? 1 : which == 2 ? 2 : which == 3 ? 3 : 0;
}

/* Asks what the input says, once more where an allocation failed in it. */
static enum covretin_error ask_next(uint8_t which)
{
    enum covretin_error error;
    size_t step = this_step();
    uint64_t pixels;
    bool again;
    do {
        back_to(step);
        error = ask(which, &pixels);
        again = is_again(error);
        must((error == COVRETIN_OK) == (send_all(pixels) != 0));
    } while (again);
    must(error == COVRETIN_OK || which == 5 || is_starved(error));
    outcome(which, error);
    return error;
}

/* Asks, and takes the reply: by no form but its own. Whether the session is of more use. */
static bool exchange(void)
{
    uint8_t which = next_byte() % CALLS;
    enum covretin_error error = ask_next(which);
    if (error != COVRETIN_OK)
        return error != COVRETIN_SOCKET_BROKEN;
    must(covretin_display_ask_get_display_info(&display) == COVRETIN_NOT_TAKEN);
    receive(form_of(which));
    for (int form = 0; form < FORMS && covretin_display_missing(&display) == 0; form++)
        must(form == form_of(which) || take(form) == COVRETIN_OTHER_ANSWER);
    error = take(form_of(which));
    if (error == COVRETIN_NOT_YET)
        return false;
    outcome(which + 64u, error);
    if (error == COVRETIN_OK)
        tell(taken, sizeof taken);
    must(take(form_of(which)) == COVRETIN_NOTHING_ASKED && covretin_display_missing(&display) == 0);
    return error == COVRETIN_OK;
}

void run_session(void)
{
    enum covretin_error error;
    do
        error = covretin_display_open(&display);
    while (is_again(error));
    must(error == COVRETIN_OK);
    while (more_steps() && exchange())
        continue;
    covretin_display_close(&display);
}
