/* SPDX-License-Identifier: Apache-2.0 */
/* A frontend's session that asks anything, and whose backend replies anything. */
#include "asks.h"

static covretin_session session;

/* What came with the first byte of the reply. */
static int32_t own[MOST_FDS];
static size_t own_count;

static void must_be_own(int32_t fd)
{
    bool is_own = fd == -1;
    for (size_t i = 0; i < own_count; i++)
        is_own = is_own || own[i] == fd;
    must(is_own);
}

/* Takes what is to be sent; how many bytes it has. */
static size_t send_all(void)
{
    static uint8_t bytes[COVRETIN_MAX_MESSAGE + 1];
    int32_t fds[2 * COVRETIN_MAX_FDS];
    size_t fd_count = 0;
    return take_request(&session, bytes, fds, &fd_count);
}

/* Hands the reply in, until it is there whole, or no more comes. */
static void receive(void)
{
    enum covretin_error error;
    size_t missing;
    bool has_begun = false;
    own_count = 0;
    while ((missing = covretin_missing(&session)) != 0 && more_bytes()) {
        struct piece piece;
        must(missing <= COVRETIN_MAX_MESSAGE - 12 && (has_begun || (missing >= 12 && missing <= 12 + 2056)));
        must(covretin_take(&session) == COVRETIN_NOT_YET);
        next_piece(missing, &piece);
        if (piece.length == 0)
            continue;
        do
            error = covretin_receive(&session, piece.bytes, piece.length, piece.fds, piece.fd_count);
        while (is_again(error));
        must(error == COVRETIN_OK);
        if (!has_begun) {
            memcpy(own, piece.fds, sizeof own);
            own_count = piece.fd_count;
        }
        has_begun = true;
    }
}

/* A session that was broken stays so, and sends nothing more. */
static bool is_broken(void)
{
    must(covretin_ask_set_owner(&session) == COVRETIN_SOCKET_BROKEN && send_all() == 0);
    return true;
}

/* Asks what the input says. Where an allocation fails it is asked once more. */
static enum covretin_error ask_next(uint8_t which)
{
    enum covretin_error error;
    size_t step = this_step();
    bool again;
    do {
        back_to(step);
        error = ask(&session, which);
        again = is_again(error);
        must(error == COVRETIN_OK || send_all() == 0);
    } while (again);
    outcome(number_of(which), error);
    return error;
}

/* Asks, and takes the reply. Whether the session is of more use. */
static bool exchange(void)
{
    uint8_t which = next_byte();
    enum covretin_error error = ask_next(which);
    if (error != COVRETIN_OK)
        return error != COVRETIN_SOCKET_BROKEN || !is_broken();
    must(covretin_ask_set_owner(&session) == COVRETIN_NOT_TAKEN);
    must(send_all() >= 12);
    receive();
    error = covretin_take(&session);
    if (error == COVRETIN_NOT_YET)
        return false;
    /* (a reply that is refused at its header may have brought its record, or not) */
    bool goes_on = error == COVRETIN_OK || error == COVRETIN_BACKEND_INTERNAL_ERROR || error == COVRETIN_INCORRECT_FDS;
    (goes_on ? outcome : last_outcome)(number_of(which) + 64, error);
    must(covretin_take(&session) == COVRETIN_NOTHING_ASKED && covretin_missing(&session) == 0);
    if (error == COVRETIN_OK)
        read_answers(&session, must_be_own);
    if (error == COVRETIN_SOCKET_BROKEN)
        is_broken();
    return goes_on;
}

/* Sets the flags, or whose behaviour the session has. */
static void set(uint8_t what)
{
    if (what % 16 == 1)
        outcome(200, covretin_set_hdr_flags(&session, next_byte() % 16));
    if (what % 16 == 2)
        outcome(201, covretin_set_profile(&session, next_byte() % 3));
}

void run_session(void)
{
    enum covretin_error error;
    do
        error = covretin_open(&session, 4);
    while (is_again(error));
    must(error == COVRETIN_OK);
    while (more_steps()) {
        set(next_byte());
        if (!exchange())
            break;
    }
    covretin_close(&session);
}
