/* SPDX-License-Identifier: Apache-2.0 */
/* Both sides' sessions, one of which asks the other anything, and a device that replies anything. They stay in step, or one of them
 * knows that they are not: it awaits what does not come, or refuses what came. */
#include "asks.h"
#include "serves.h"

static covretin_session session;
static covretin_backend backend;

/* Whether the two may believe that something else was agreed on: a request was refused whose reply the frontend did not await, or the
 * device offered other features than before. And what it offered last: features of virtio, and protocol features. */
static bool may_differ;
static bool is_vhost; /* and not standard */
static struct {
    uint64_t features;
    bool is_there;
} offers[2];

/* What the device replied is an offer. */
static void heed_offer(uint32_t code)
{
    unsigned which = code == COVRETIN_CALL_GET_PROTOCOL_FEATURES;
    if (code != COVRETIN_CALL_GET_FEATURES && code != COVRETIN_CALL_GET_PROTOCOL_FEATURES)
        return;
    may_differ = may_differ || (offers[which].is_there && offers[which].features != replied.number);
    offers[which].features = replied.number;
    offers[which].is_there = true;
}

/* A message on its way. */
static struct {
    uint8_t bytes[COVRETIN_MAX_MESSAGE + 1];
    int32_t fds[2 * COVRETIN_MAX_FDS];
    size_t length, fd_count;
} request, reply;

/* A descriptor that the device is given came with the request, and one that the frontend is given with the reply. */
static void must_be_of_request(int32_t fd)
{
    bool is_own = fd == -1;
    for (size_t i = 0; i < request.fd_count; i++)
        is_own = is_own || request.fds[i] == fd;
    must(is_own);
}

static void must_be_of_reply(int32_t fd)
{
    must(fd == -1 || (reply.fd_count == 1 && reply.fds[0] == fd));
}

static uint32_t code_of_request(void)
{
    uint32_t code;
    memcpy(&code, request.bytes, sizeof code);
    return code;
}

/* Asks what the input says. */
static enum covretin_error ask_next(uint8_t which)
{
    enum covretin_error error;
    size_t step = this_step();
    bool again;
    do {
        back_to(step);
        error = ask(&session, which);
        again = is_again(error);
        request.length = take_request(&session, request.bytes, request.fds, &request.fd_count);
        must((error == COVRETIN_OK) == (request.length != 0));
    } while (again);
    outcome(number_of(which), error);
    return error;
}

/* Carries the request to the backend, which is where one begins, and then has one whole request. Whether all of it came. */
static bool carry_request(void)
{
    enum covretin_error error;
    size_t count, missing, at;
    for (at = 0; (missing = covretin_backend_missing(&backend)) != 0; at += count) {
        size_t left = request.length - at;
        must(left != 0 && (at != 0 || missing == 12));
        count = next_carried(missing < left ? missing : left);
        if (count == 0) {
            must(covretin_backend_end(&backend) == (at == 0  ? COVRETIN_DISCONNECTED
                                                    : at < 12 ? COVRETIN_PARTIAL_MESSAGE
                                                              : COVRETIN_INVALID_MESSAGE));
            return false;
        }
        do
            error = covretin_backend_receive(&backend, request.bytes + at, count, request.fds, at == 0 ? request.fd_count : 0);
        while (is_again(error));
        must(error == COVRETIN_OK);
    }
    must(at == request.length);
    return true;
}

static bool is_region(const covretin_region *one, const covretin_region *other)
{
    return one->guest_phys_addr == other->guest_phys_addr && one->memory_size == other->memory_size &&
           one->user_addr == other->user_addr && one->mmap_offset == other->mmap_offset && one->fd == other->fd;
}

static bool are_regions(void)
{
    bool holds = called.count == asked.region_count;
    for (size_t i = 0; holds && i < called.count; i++)
        holds = is_region(&called.regions[i], &asked.regions[i]);
    return holds;
}

static bool is_ring(void)
{
    const covretin_vring *one = &called.ring, *other = &asked.ring;
    return called.index == asked.index && one->flags == other->flags && one->desc_table_addr == other->desc_table_addr &&
           one->used_ring_addr == other->used_ring_addr && one->avail_ring_addr == other->avail_ring_addr;
}

static bool is_config(uint32_t call)
{
    const covretin_config *one = &called.config, *other = &asked.config;
    bool has_bytes = call == COVRETIN_CALL_SET_CONFIG;
    return one->offset == other->offset && one->size == other->size && one->flags == other->flags &&
           called.count == (has_bytes ? one->size : 0) && (!has_bytes || memcmp(called.bytes, asked.bytes, one->size) == 0);
}

static bool is_inflight(const covretin_inflight *one, const covretin_inflight *other)
{
    return one->mmap_size == other->mmap_size && one->mmap_offset == other->mmap_offset && one->num_queues == other->num_queues &&
           one->queue_size == other->queue_size;
}

/* Whether the device is asked what the frontend asked. */
static bool is_as_asked(uint32_t call)
{
    switch (called.form) {
    case NUMBER: return called.number == asked.number;
    case RING: return called.index == asked.index && called.second == asked.number;
    case VRING: return is_ring();
    case RING_FD: return called.index == asked.index && called.fd == (asked.fd < 0 ? -1 : asked.fd);
    case REGIONS: return are_regions();
    case CONFIG: return is_config(call);
    case FD: return called.fd == asked.fd;
    case NAME: return memcmp(called.name, asked.bytes, sizeof called.name) == 0;
    case INFLIGHT: return is_inflight(&called.inflight, &asked.inflight) && called.fd == asked.fd;
    case TRANSFER: return called.index == asked.direction && called.second == asked.phase && called.fd == asked.fd;
    case LOG:
        return called.log.memory_size == asked.log.memory_size && called.log.mmap_offset == asked.log.mmap_offset &&
               called.log.fd == asked.log.fd;
    case OTHER: return called.index == code_of_request() && called.count == 0 && called.fds[0] == asked.fd;
    default: return true;
    }
}

/* Whether a request that a frontend made may be refused so. Malformed it may be by what a frontend does not check: regions, a log or
 * an inflight region that do not fit, and addresses of a ring that are not aligned; and SET_LOG_FD is, which VHOST does not serve. One
 * of the log's base alone has no descriptor. */
static bool may_be(enum covretin_error error, uint32_t code)
{
    static const uint8_t unchecked[] = {
        COVRETIN_CALL_SET_MEM_TABLE, COVRETIN_CALL_ADD_MEM_REG,      COVRETIN_CALL_REM_MEM_REG,      COVRETIN_CALL_SET_LOG_BASE,
        COVRETIN_CALL_SET_VRING_ADDR, COVRETIN_CALL_GET_INFLIGHT_FD, COVRETIN_CALL_SET_INFLIGHT_FD,  7,
    };
    if (error == COVRETIN_INCORRECT_FDS)
        return code == COVRETIN_CALL_SET_LOG_BASE;
    return error != COVRETIN_INVALID_MESSAGE || memchr(unchecked, (int)code, sizeof unchecked) != NULL;
}

/* The request is served. 0: the device was asked, and did it. */
static enum covretin_error serve(void)
{
    uint32_t call = 0;
    enum covretin_error error = covretin_backend_next(&backend, &call);
    outcome(512 + code_of_request(), error);
    must(may_be(error, code_of_request()));
    if (error == COVRETIN_OK) {
        must(call == code_of_request() || call == COVRETIN_CALL_POSTCOPY_ACK ||
             (call == COVRETIN_CALL_OTHER && code_of_request() == 7));
        read_arguments(&backend, must_be_of_request);
        must(is_as_asked(call));
        error = reply_to(&backend, call, must_be_of_request);
        if (error == COVRETIN_OK)
            heed_offer(call);
    }
    reply.length = take_reply(&backend, code_of_request(), reply.bytes, reply.fds, &reply.fd_count);
    return error;
}

/* Carries the reply to the frontend. Whether all of it came. */
static bool carry_reply(void)
{
    enum covretin_error error;
    size_t count, missing, at;
    for (at = 0; at < reply.length && (missing = covretin_missing(&session)) != 0; at += count) {
        size_t left = reply.length - at;
        must(covretin_take(&session) == COVRETIN_NOT_YET);
        count = next_carried(missing < left ? missing : left);
        if (count == 0)
            return false;
        do
            error = covretin_receive(&session, reply.bytes + at, count, reply.fds, at == 0 ? reply.fd_count : 0);
        while (is_again(error));
        must(error == COVRETIN_OK);
    }
    must(at == reply.length);
    return true;
}

/* The number that a frontend reads where the device replied this one: of protocol features those that have a name, and REPLY_ACK. */
static uint64_t number_read(uint32_t code, uint64_t number)
{
    bool is_known = code == COVRETIN_CALL_GET_PROTOCOL_FEATURES;
    return is_known ? (number | COVRETIN_PROTOCOL_REPLY_ACK) & ((COVRETIN_PROTOCOL_SHMEM << 1) - 1) : number;
}

/* Whether the frontend reads what the device replied. */
static bool is_as_replied(uint32_t code)
{
    static uint64_t sizes[256], bases[32];
    static uint8_t bytes[COVRETIN_MAX_CONFIG];
    covretin_inflight inflight;
    covretin_config config;
    uint64_t number;
    size_t count;
    int32_t fd;
    if (covretin_answer_number(&session, &number) == COVRETIN_OK)
        return number == number_read(code, replied.number);
    if (covretin_answer_bases(&session, bases, 32, &count) == COVRETIN_OK)
        return count == 0 || (count == replied.count && memcmp(bases, replied.bases, count * sizeof *bases) == 0);
    if (covretin_answer_config(&session, &config, bytes, sizeof bytes, &count) == COVRETIN_OK)
        return count == replied.count && memcmp(bytes, replied.bytes, count) == 0;
    if (covretin_answer_fd(&session, &fd) == COVRETIN_OK)
        return fd == replied.fd;
    if (covretin_answer_inflight(&session, &inflight, &fd) == COVRETIN_OK)
        return is_inflight(&inflight, &replied.inflight) && fd == replied.fd;
    if (covretin_answer_shmem(&session, sizes, 256, &count) == COVRETIN_OK)
        return count == replied.count && memcmp(sizes, replied.sizes, sizeof sizes) == 0;
    return true;
}

/* The frontend takes the reply. It says that a call succeeded whose reply it awaited only if the device did it, and awaits what does
 * not come only where this call was refused, or both may believe something else; under STANDARD only where the backend has ended. Whether
 * they go on. */
static bool take(uint8_t which, bool is_awaited, enum covretin_error served)
{
    enum covretin_error error = covretin_take(&session);
    outcome(number_of(which) + 64, error);
    must(error != COVRETIN_NOT_YET || served != COVRETIN_OK || may_differ);
    must(error != COVRETIN_NOT_YET || is_vhost || may_differ || is_starved(served) || covretin_backend_ended(&backend) == 1);
    may_differ = may_differ || (served != COVRETIN_OK && !is_awaited);
    if (is_starved(served) || is_starved(error) || error == COVRETIN_NOT_YET)
        return false;
    if (error == COVRETIN_OK) {
        must(!is_awaited || (served == COVRETIN_OK && !replied.has_refused && is_as_replied(code_of_request())));
        read_answers(&session, must_be_of_reply);
    } else
        must(is_awaited);
    must(covretin_missing(&session) == 0 && covretin_backend_missing(&backend) == 12);
    return error == COVRETIN_OK || error == COVRETIN_BACKEND_INTERNAL_ERROR;
}

/* One asks, the other serves, and the reply is taken. Whether both are of more use. */
static bool exchange(void)
{
    uint8_t which = next_byte();
    enum covretin_error error = ask_next(which);
    bool is_awaited;
    if (error != COVRETIN_OK)
        return error != COVRETIN_SOCKET_BROKEN;
    is_awaited = covretin_missing(&session) != 0;
    replied.has_refused = false;
    if (!carry_request())
        return false;
    error = serve();
    must(is_awaited || reply.length == 0);
    return carry_reply() && take(which, is_awaited, error) && covretin_backend_ended(&backend) == 0;
}

/* Sets the flags, or whose behaviour both have. */
static void set(uint8_t what)
{
    if (what % 16 == 1)
        outcome(200, covretin_set_hdr_flags(&session, next_byte() % 2 * COVRETIN_NEED_REPLY));
    if (what % 16 == 2) {
        enum covretin_profile profile = next_byte() % 2;
        outcome(201, covretin_set_profile(&session, profile));
        outcome(511, covretin_backend_set_profile(&backend, profile));
        is_vhost = profile == COVRETIN_PROFILE_VHOST;
    }
}

static void open_both(void)
{
    enum covretin_error error;
    do
        error = covretin_open(&session, 4);
    while (is_again(error));
    must(error == COVRETIN_OK);
    do
        error = covretin_backend_open(&backend);
    while (is_again(error));
    must(error == COVRETIN_OK);
}

void run_session(void)
{
    open_both();
    may_differ = is_vhost = false;
    memset(offers, 0, sizeof offers);
    while (more_steps()) {
        set(next_byte());
        if (!exchange())
            break;
    }
    covretin_close(&session);
    covretin_backend_close(&backend);
}
