/* SPDX-License-Identifier: Apache-2.0 */
/* A device's session on the backend channel, which asks anything, and whose frontend replies anything. */
#include "channel_asks.h"

static covretin_channel channel;

/* Hands the reply in, until it is there whole, or no more comes. */
static void receive(void)
{
    enum covretin_error error;
    size_t missing;
    bool has_begun = false;
    while ((missing = covretin_channel_missing(&channel)) != 0 && more_bytes()) {
        struct piece piece;
        must(missing <= COVRETIN_MAX_MESSAGE - 12 && (has_begun || missing == 12));
        must(covretin_channel_take(&channel) == COVRETIN_NOT_YET);
        next_piece(missing, &piece);
        if (piece.length == 0)
            continue;
        do
            error = covretin_channel_receive(&channel, piece.bytes, piece.length, piece.fds, piece.fd_count);
        while (is_again(error));
        must(error == COVRETIN_OK);
        has_begun = true;
    }
}

/* Asks, and takes the reply. Whether the session is of more use. */
static bool exchange(void)
{
    static uint8_t bytes[COVRETIN_MAX_MESSAGE];
    uint8_t which = next_byte();
    size_t length;
    int32_t fd;
    enum covretin_error error = ask_next(&channel, which, bytes, &length, &fd);
    if (error != COVRETIN_OK)
        return error != COVRETIN_SOCKET_BROKEN;
    must(covretin_channel_ask_config_change(&channel) == COVRETIN_NOT_TAKEN);
    receive();
    error = covretin_channel_take(&channel);
    if (error == COVRETIN_NOT_YET)
        return false;
    outcome(which % 6 + 64, error);
    must(covretin_channel_take(&channel) == COVRETIN_NOTHING_ASKED && covretin_channel_missing(&channel) == 0);
    return error == COVRETIN_OK || error == COVRETIN_FRONTEND_INTERNAL_ERROR;
}

void run_session(void)
{
    open_channel(&channel);
    while (more_steps()) {
        set_flag(&channel);
        if (!exchange())
            break;
    }
    covretin_channel_close(&channel);
}
