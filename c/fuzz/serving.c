/* SPDX-License-Identifier: Apache-2.0 */
/* A backend's session whose frontend sends anything, and whose device answers anything. */
#include "serves.h"

static covretin_backend backend;

/* What came with the first byte of the request that is under way, and how many bytes of it came. */
static int32_t own[MOST_FDS];
static size_t own_count, came;
static uint32_t code; /* of its header */
static uint8_t header[12];
static enum covretin_profile profile;

static void forget_request(void)
{
    own_count = came = 0;
}

/* A descriptor that a call names came with its request. */
static void must_be_own(int32_t fd)
{
    bool is_own = fd == -1;
    for (size_t i = 0; i < own_count; i++)
        is_own = is_own || own[i] == fd;
    must(is_own);
}

/* Hands in a piece. */
static void receive(void)
{
    enum covretin_error error;
    size_t missing = covretin_backend_missing(&backend);
    uint32_t none = 0;
    struct piece piece;
    must(missing <= COVRETIN_MAX_MESSAGE - 12 && (came >= 12 || missing <= 12 - came));
    must(missing == 0 || (covretin_backend_next(&backend, &none) == COVRETIN_NOT_YET && none == 0));
    next_piece(missing, &piece);
    if (piece.length == 0)
        return;
    do
        error = covretin_backend_receive(&backend, piece.bytes, piece.length, piece.fds, piece.fd_count);
    while (is_again(error));
    must(error == COVRETIN_OK);
    if (came == 0) {
        memcpy(own, piece.fds, sizeof own);
        own_count = piece.fd_count;
    }
    for (size_t i = 0; i < piece.length && came + i < 12; i++)
        header[came + i] = piece.bytes[i];
    came += piece.length;
    memcpy(&code, header, sizeof code);
}

/* How many bytes. */
static size_t send_all(uint32_t to)
{
    static uint8_t bytes[COVRETIN_MAX_MESSAGE + 1];
    int32_t fds[2 * COVRETIN_MAX_FDS];
    size_t fd_count = 0;
    return take_reply(&backend, to, bytes, fds, &fd_count);
}

/* A session that has ended, or was broken amid a reply, stays so: it serves nothing that comes, and sends nothing more. */
static bool is_broken(void)
{
    static const uint8_t get_features[12] = {1, [4] = 1};
    enum covretin_error error;
    uint32_t call = 0;
    size_t missing;
    for (size_t at = 0; at < sizeof get_features && (missing = covretin_backend_missing(&backend)) != 0; at += missing) {
        do
            error = covretin_backend_receive(&backend, get_features + at, missing, own, 0);
        while (is_again(error));
        must(error == COVRETIN_OK);
    }
    error = covretin_backend_next(&backend, &call);
    must((error == COVRETIN_SOCKET_BROKEN || is_again(error)) && call == 0);
    send_all(0);
    return true;
}

/* Has the device reply; at times the session has another profile from then on. Whether it is of more use. */
static bool reply(uint32_t call)
{
    enum covretin_error error;
    must(covretin_backend_missing(&backend) == 0 && covretin_backend_next(&backend, &call) == COVRETIN_NOT_REPLIED);
    must(covretin_backend_set_profile(&backend, COVRETIN_PROFILE_VHOST) == COVRETIN_NOT_REPLIED);
    TELL(call);
    error = reply_to(&backend, call, must_be_own);
    must(covretin_reply_refused(&backend) == COVRETIN_NOTHING_ASKED);
    if (replied.form >= 240) {
        enum covretin_error set = covretin_backend_set_profile(&backend, replied.form % 3);
        outcome(511, set);
        if (set == COVRETIN_OK)
            profile = replied.form % 3;
    }
    return error != COVRETIN_SOCKET_RETRY && error != COVRETIN_SOCKET_BROKEN ? true : !is_broken();
}

/* Whether a request has a reply of its own in every session: SET_LOG_BASE has one under LOG_SHMFD alone, and POSTCOPY_END one whatever its flags
 * are. */
static bool has_reply(uint32_t of)
{
    if (of == COVRETIN_CALL_SET_LOG_BASE || of == COVRETIN_CALL_POSTCOPY_END)
        return of == COVRETIN_CALL_POSTCOPY_END;
    switch (of) {
#define HAS_OWN true
#define HAS_ACK false
#define REQUEST(name, call, feature, takes, sees, replies, reply, fds) case COVRETIN_CALL_##name: return HAS_##reply;
#include "../tests/requests.def"
    default: return false;
    }
}

/* Checks the request, if it is there, and serves it. Under STANDARD one that has a reply is replied to, or the session has ended; but for
 * one that is malformed, after which nobody goes on. Whether the session is of more use. */
static bool serve(void)
{
    bool goes_on;
    uint32_t call = 0, of = code;
    bool is_standard = profile == COVRETIN_PROFILE_STANDARD;
    enum covretin_error error = covretin_backend_next(&backend, &call);
    if (error == COVRETIN_NOT_YET)
        return true;
    outcome(512 + (of < 64 ? of : 64), error);
    must(error == COVRETIN_OK || (call == 0 && covretin_reply_refused(&backend) == COVRETIN_NOTHING_ASKED));
    if (error == COVRETIN_OK)
        goes_on = reply(call);
    else
        goes_on = error != COVRETIN_INVALID_MESSAGE && error != COVRETIN_SOCKET_BROKEN;
    forget_request();
    read_arguments(&backend, must_be_own);
    must(called.form == NO_FORM);
    bool is_answered = send_all(of) != 0 || covretin_backend_ended(&backend) == 1;
    must(!goes_on || !is_standard || is_answered || !has_reply(of) || is_starved(error));
    if (goes_on && covretin_backend_ended(&backend) == 1)
        return !is_broken();
    return goes_on;
}

/* Where the stream ends is where it was cut. */
static void end(void)
{
    enum covretin_error error = covretin_backend_end(&backend);
    must(error == (came == 0 ? COVRETIN_DISCONNECTED : came < 12 ? COVRETIN_PARTIAL_MESSAGE : COVRETIN_INVALID_MESSAGE));
}

void run_session(void)
{
    enum covretin_error error;
    do
        error = covretin_backend_open(&backend);
    while (is_again(error));
    must(error == COVRETIN_OK);
    forget_request();
    profile = COVRETIN_PROFILE_STANDARD;
    while (more_bytes()) {
        receive();
        if (covretin_backend_missing(&backend) == 0 && !serve())
            break;
    }
    end();
    covretin_backend_close(&backend);
}
