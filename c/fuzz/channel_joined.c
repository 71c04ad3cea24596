/* SPDX-License-Identifier: Apache-2.0 */
/* Both ends' sessions of the backend channel, one of which asks the other anything, and a frontend that replies any number. They stay
 * in step, or one of them knows that they are not. */
#include "channel_asks.h"
#include "channel_serves.h"

static covretin_channel channel;
static covretin_channel_server server;
static bool acknowledges; /* the frontend replies to what asks for it */

/* A message on its way. */
static struct {
    uint8_t bytes[COVRETIN_MAX_MESSAGE];
    size_t length;
    int32_t fd;
} request, reply;

static uint32_t code_of_request(void)
{
    uint32_t code;
    memcpy(&code, request.bytes, sizeof code);
    return code;
}

/* Carries the request. Whether all of it came; it is one whole request for the frontend. */
static bool carry_request(void)
{
    enum covretin_error error;
    size_t count, missing, at;
    for (at = 0; (missing = covretin_channel_server_missing(&server)) != 0; at += count) {
        size_t left = request.length - at;
        must(left != 0 && (at != 0 || missing == 12));
        count = next_carried(missing < left ? missing : left);
        if (count == 0)
            return false;
        do
            error = covretin_channel_server_receive(&server, request.bytes + at, count, &request.fd, at == 0 && request.fd != -1);
        while (is_again(error));
        must(error == COVRETIN_OK);
    }
    must(at == request.length);
    return true;
}

/* Whether the frontend is asked what the device asked. */
static bool is_as_asked(uint32_t call)
{
    const covretin_mmap *one = &called.mmap, *other = &asked.mmap;
    if (called.fd != request.fd)
        return false;
    if (call >= 6 && call <= 8)
        return memcmp(called.name, asked.name, sizeof called.name) == 0;
    return call == COVRETIN_CHANNEL_CALL_CONFIG_CHANGE ||
           (one->fd_offset == other->fd_offset && one->shm_offset == other->shm_offset && one->len == other->len &&
            one->flags == other->flags && one->shmid == other->shmid);
}

/* The request is served. *is_good: the frontend was asked, and replied 0. */
static enum covretin_error serve(bool *is_good)
{
    uint32_t call = 0;
    enum covretin_error error = covretin_channel_server_next(&server, &call);
    *is_good = false;
    outcome(512 + code_of_request(), error);
    if (error == COVRETIN_OK) {
        must(call == code_of_request());
        read_arguments(&server, call);
        must(is_as_asked(call));
        error = reply_to(&server, call, is_good);
    }
    reply.length = take_reply(&server, code_of_request(), reply.bytes);
    return error;
}

/* Carries the reply. Whether all of it came. */
static bool carry_reply(void)
{
    enum covretin_error error;
    size_t count, missing, at;
    for (at = 0; at < reply.length && (missing = covretin_channel_missing(&channel)) != 0; at += count) {
        size_t left = reply.length - at;
        must(covretin_channel_take(&channel) == COVRETIN_NOT_YET);
        count = next_carried(missing < left ? missing : left);
        if (count == 0)
            return false;
        do
            error = covretin_channel_receive(&channel, reply.bytes + at, count, &reply.fd, 0);
        while (is_again(error));
        must(error == COVRETIN_OK);
    }
    must(at == reply.length);
    return true;
}

/* One asks, the other serves, and the reply is taken: it succeeded only if the frontend replied 0, and is awaited in vain only where the
 * request was refused, or the frontend acknowledges none. Whether both are of more use. */
static bool exchange(void)
{
    uint8_t which = next_byte();
    enum covretin_error served, error = ask_next(&channel, which, request.bytes, &request.length, &request.fd);
    bool is_awaited, is_good;
    if (error != COVRETIN_OK)
        return error != COVRETIN_SOCKET_BROKEN;
    is_awaited = covretin_channel_missing(&channel) != 0;
    if (!carry_request())
        return false;
    served = serve(&is_good);
    must(is_awaited || reply.length == 0);
    if (!carry_reply())
        return false;
    error = covretin_channel_take(&channel);
    outcome(which % 6 + 64, error);
    must(error != COVRETIN_OK || !is_awaited || is_good);
    must(error != COVRETIN_NOT_YET || served != COVRETIN_OK || !acknowledges);
    return !is_starved(served) && (error == COVRETIN_OK || error == COVRETIN_FRONTEND_INTERNAL_ERROR);
}

void run_session(void)
{
    open_channel(&channel);
    acknowledges = next_byte() % 4 != 0;
    open_server(&server, acknowledges);
    while (more_steps()) {
        set_flag(&channel);
        if (!exchange())
            break;
    }
    covretin_channel_close(&channel);
    covretin_channel_server_close(&server);
}
