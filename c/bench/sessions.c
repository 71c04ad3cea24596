/* SPDX-License-Identifier: Apache-2.0 */
/* Sessions without a socket: bytes are handed in and out, and nothing else is done. */
#include "bench.h"

#include <string.h>

static covretin_session session;
static covretin_backend backend;

/* What was handed out last. */
static struct {
    uint8_t bytes[COVRETIN_MAX_MESSAGE];
    int32_t fds[COVRETIN_MAX_FDS];
    size_t length, fd_count;
} out;

/* -- The backend's -- */

/* Hands a request in, as it is missing: its header, and then its body. */
static bool hand_in_request(const uint8_t *bytes, size_t length, const int32_t *fds, size_t fd_count)
{
    size_t missing;
    for (size_t at = 0; (missing = covretin_backend_missing(&backend)) != 0; at += missing) {
        if (missing > length - at || covretin_backend_receive(&backend, bytes + at, missing, fds, fd_count))
            return false;
        fd_count = 0;
    }
    return true;
}

/* Serves a request: the device accepts it, and the reply is handed out. */
static bool serve(const uint8_t *bytes, size_t length, const int32_t *fds, size_t fd_count)
{
    uint32_t call = 0;
    if (!hand_in_request(bytes, length, fds, fd_count))
        return false;
    if (covretin_backend_next(&backend, &call) || accept_call(&backend, call))
        return false;
    return covretin_backend_to_send(&backend, out.bytes, sizeof out.bytes, out.fds, COVRETIN_MAX_FDS, &out.length, &out.fd_count) == 0;
}

static void open_backend(void)
{
    static const uint8_t set_features[20] = {2, [4] = 1, [8] = 8, [12] = 3, [15] = 0x40};
    static const uint8_t set_protocol_features[20] = {16, [4] = 1, [8] = 8, [12] = 8, [13] = 2};
    if (covretin_backend_open(&backend) || !serve(get_features, sizeof get_features, out.fds, 0) ||
        !serve(set_features, sizeof set_features, out.fds, 0) ||
        !serve(set_protocol_features, sizeof set_protocol_features, out.fds, 0))
        fail("a backend's session");
}

/* A request is served so often, and its reply has so many bytes. */
static struct taken serves(const uint8_t *bytes, size_t length, size_t reply, long count)
{
    struct taken taken = {0, 0};
    double begun;
    open_backend();
    begun = now();
    for (long i = 0; i < count; i++)
        taken.good += serve(bytes, length, out.fds, 0) && out.length == reply;
    taken.nanoseconds = now() - begun;
    covretin_backend_close(&backend);
    return taken;
}

struct taken backend_get_features(long count)
{
    return serves(get_features, sizeof get_features, sizeof features_reply, count);
}

struct taken backend_set_vring_num(long count)
{
    return serves(set_vring_num, sizeof set_vring_num, 0, count);
}

struct taken backend_acknowledged(long count)
{
    return serves(acknowledged, sizeof acknowledged, sizeof acknowledgement, count);
}

struct taken backend_get_config_256(long count)
{
    return serves(get_config, sizeof get_config, sizeof config_reply, count);
}

/* -- The frontend's -- */

/* Hands out the request that was asked, and hands its reply in, which is all that is missing; what the session says of it. */
static bool exchange(const uint8_t *reply, size_t length)
{
    size_t missing, at = 0;
    if (covretin_to_send(&session, out.bytes, sizeof out.bytes, out.fds, COVRETIN_MAX_FDS, &out.length, &out.fd_count))
        return false;
    for (; (missing = covretin_missing(&session)) != 0; at += missing)
        if (missing > length - at || covretin_receive(&session, reply + at, missing, out.fds, 0))
            return false;
    return at == length && covretin_take(&session) == 0;
}

static bool ask_features(void)
{
    uint64_t number;
    return !covretin_ask_get_features(&session) && exchange(features_reply, sizeof features_reply) &&
           !covretin_answer_number(&session, &number);
}

static bool ask_vring_num(void)
{
    return !covretin_ask_set_vring_num(&session, 0, 256) && exchange(acknowledgement, 0);
}

static bool ask_acknowledged(void)
{
    return !covretin_ask_set_vring_num(&session, 0, 256) && exchange(acknowledgement, sizeof acknowledgement);
}

static bool ask_config(void)
{
    static uint8_t bytes[CONFIG];
    covretin_config config;
    size_t count;
    return !covretin_ask_get_config(&session, 0, CONFIG, 0) && exchange(config_reply, sizeof config_reply) &&
           !covretin_answer_config(&session, &config, bytes, sizeof bytes, &count);
}

static void open_frontend(uint32_t flags)
{
    if (covretin_open(&session, 2) || !ask_features() || covretin_ask_set_features(&session, FEATURES) ||
        !exchange(acknowledgement, 0) || covretin_ask_set_protocol_features(&session, PROTOCOL_FEATURES) ||
        !exchange(acknowledgement, 0) || covretin_set_hdr_flags(&session, flags))
        fail("a frontend's session");
}

/* A call is asked and taken so often. */
static struct taken asks(bool ask(void), uint32_t flags, long count)
{
    struct taken taken = {0, 0};
    double begun;
    open_frontend(flags);
    begun = now();
    for (long i = 0; i < count; i++)
        taken.good += ask();
    taken.nanoseconds = now() - begun;
    covretin_close(&session);
    return taken;
}

struct taken frontend_get_features(long count)
{
    return asks(ask_features, 0, count);
}

struct taken frontend_set_vring_num(long count)
{
    return asks(ask_vring_num, 0, count);
}

struct taken frontend_acknowledged(long count)
{
    return asks(ask_acknowledged, COVRETIN_NEED_REPLY, count);
}

struct taken frontend_get_config_256(long count)
{
    return asks(ask_config, 0, count);
}

/* -- Both -- */

/* Carries the request that was asked to the backend, which serves it, and the reply back. */
static bool join(void)
{
    static uint8_t request[COVRETIN_MAX_MESSAGE];
    static int32_t fds[COVRETIN_MAX_FDS];
    size_t length, fd_count, missing, at = 0;
    if (covretin_to_send(&session, request, sizeof request, fds, COVRETIN_MAX_FDS, &length, &fd_count) ||
        !serve(request, length, fds, fd_count))
        return false;
    for (; (missing = covretin_missing(&session)) != 0; at += missing)
        if (missing > out.length - at || covretin_receive(&session, out.bytes + at, missing, out.fds, 0))
            return false;
    return covretin_take(&session) == 0;
}

static bool join_features(void)
{
    uint64_t number;
    return !covretin_ask_get_features(&session) && join() && !covretin_answer_number(&session, &number);
}

static bool join_config(void)
{
    static uint8_t bytes[CONFIG];
    covretin_config config;
    size_t count;
    return !covretin_ask_get_config(&session, 0, CONFIG, 0) && join() &&
           !covretin_answer_config(&session, &config, bytes, sizeof bytes, &count);
}

/* Eight regions of 256 MB. */
static bool join_table(void)
{
    covretin_region regions[8];
    for (int32_t i = 0; i < 8; i++) {
        uint64_t start = (uint64_t)i << 28;
        regions[i] = (covretin_region){start, 1u << 28, 0x700000000000u + start, 0, i};
    }
    return !covretin_ask_set_mem_table(&session, regions, 8) && join();
}

/* A call is asked, served and taken so often. */
static struct taken joins(bool ask(void), long count)
{
    struct taken taken = {0, 0};
    double begun;
    open_backend();
    open_frontend(COVRETIN_NEED_REPLY);
    begun = now();
    for (long i = 0; i < count; i++)
        taken.good += ask();
    taken.nanoseconds = now() - begun;
    covretin_close(&session);
    covretin_backend_close(&backend);
    return taken;
}

struct taken both_get_features(long count)
{
    return joins(join_features, count);
}

struct taken both_get_config_256(long count)
{
    return joins(join_config, count);
}

struct taken both_set_mem_table_8(long count)
{
    return joins(join_table, count);
}
