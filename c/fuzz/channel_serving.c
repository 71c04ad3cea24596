/* SPDX-License-Identifier: Apache-2.0 */
/* A frontend's session on the backend channel, whose device sends anything, and which replies anything. */
#include "channel_serves.h"

static covretin_channel_server server;

/* What came with the first byte of the request that is under way, and how many bytes of it came. */
static int32_t own[MOST_FDS];
static size_t own_count, came;
static uint32_t head[3];

static void forget_request(void)
{
    own_count = came = 0;
}

/* Hands in a piece. */
static void receive(void)
{
    enum covretin_error error;
    size_t missing = covretin_channel_server_missing(&server);
    uint32_t none = 0;
    struct piece piece;
    must(missing <= COVRETIN_MAX_MESSAGE - 12 && (came >= 12 || missing <= 12 - came));
    must(missing == 0 || (covretin_channel_server_next(&server, &none) == COVRETIN_NOT_YET && none == 0));
    next_piece(missing, &piece);
    if (piece.length == 0)
        return;
    do
        error = covretin_channel_server_receive(&server, piece.bytes, piece.length, piece.fds, piece.fd_count);
    while (is_again(error));
    must(error == COVRETIN_OK);
    if (came == 0) {
        memcpy(own, piece.fds, sizeof own);
        own_count = piece.fd_count;
    }
    for (size_t i = 0; i < piece.length && came + i < sizeof head; i++)
        ((uint8_t *)head)[came + i] = piece.bytes[i];
    came += piece.length;
}

/* Replies to a call, whose descriptor is the one that came with its request. Whether the session is of more use. */
static bool reply(uint32_t call)
{
    bool is_good;
    must(covretin_channel_server_missing(&server) == 0);
    must(covretin_channel_server_next(&server, &call) == COVRETIN_NOT_REPLIED && call == head[0]);
    read_arguments(&server, call);
    must(called.fd == -1 || (own_count == 1 && called.fd == own[0]));
    return !is_starved(reply_to(&server, call, &is_good));
}

/* Checks the request, if it is there, and serves it. Whether the session is of more use. */
static bool serve(void)
{
    static uint8_t bytes[COVRETIN_MAX_MESSAGE];
    uint32_t call = 0;
    bool goes_on;
    enum covretin_error error = covretin_channel_server_next(&server, &call);
    if (error == COVRETIN_NOT_YET)
        return true;
    outcome(512 + (head[0] < 64 ? head[0] : 64), error);
    if (error == COVRETIN_OK)
        goes_on = reply(call);
    else {
        must(call == 0);
        goes_on = error != COVRETIN_INVALID_MESSAGE && error != COVRETIN_SOCKET_BROKEN;
    }
    must(covretin_channel_reply_number(&server, 0) == COVRETIN_NOTHING_ASKED);
    forget_request();
    read_arguments(&server, 0);
    take_reply(&server, head[0], bytes);
    return goes_on;
}

/* Where the stream ends is where it was cut. */
static void end(void)
{
    enum covretin_error error = covretin_channel_server_end(&server);
    must(error == (came == 0 ? COVRETIN_DISCONNECTED : came < 12 ? COVRETIN_PARTIAL_MESSAGE : COVRETIN_INVALID_MESSAGE));
}

void run_session(void)
{
    open_server(&server, next_byte() % 4 != 0);
    forget_request();
    while (more_bytes()) {
        receive();
        if (covretin_channel_server_missing(&server) == 0 && !serve())
            break;
    }
    end();
    covretin_channel_server_close(&server);
}
