/* SPDX-License-Identifier: Apache-2.0 */
#include "asks.h"
#include "covretin_backend.h"

struct asked asked;

/* -- Arguments, which the input says -- */

static uint64_t take_ring(void)
{
    asked.index = next_byte() % 5;
    uint64_t number = next_number();
    asked.ring = (covretin_vring){.flags = (uint32_t)number % 3, .desc_table_addr = number, .has_log_addr = number % 2};
    asked.fd = (int32_t)number;
    return number;
}

static uint64_t take_regions(void)
{
    uint64_t number = next_number();
    for (size_t i = 0; i < 33; i++)
        asked.regions[i] = (covretin_region){i, number, i, i, (int32_t)i};
    asked.region_count = 1;
    asked.log = asked.regions[0];
    return number;
}

/* A part of the configuration space, and bytes for it. */
static uint64_t take_config(void)
{
    static uint8_t bytes[COVRETIN_MAX_CONFIG + 1];
    uint64_t number = next_number();
    memset(bytes, 0, 8);
    bytes[number % 8] = (uint8_t)number;
    asked.bytes = bytes;
    asked.config = (covretin_config){next_byte(), (uint32_t)(number % sizeof bytes), 0};
    return number;
}

static void take_area(void)
{
    uint64_t number = next_number();
    asked.inflight = (covretin_inflight){number, 0, 1, (uint16_t)number};
    asked.fd = (int32_t)number;
}

/* -- Each request of the table, by the form of what its call takes -- */

static const uint8_t name_of_object[16] = {1};

#define ASK_NOTHING(ask, fds) return ask(session);
#define ASK_NUMBER(ask, fds) return ask(session, asked.number = next_number());
#define ASK_PROTOCOL(ask, fds) ASK_NUMBER(ask, fds)
#define ASK_SHORT(ask, fds) return ask(session, asked.number = (uint16_t)next_number());
#define ASK_FD(ask, fds) return ask(session, asked.fd = (int32_t)next_number());
#define ASK_RING(ask, fds) \
    take_ring(); \
    return ask(session, asked.index);
/* (one takes 16 bits, and the other 32) */
#define ASK_RING_NUMBER(ask, fds) \
    uint64_t number = take_ring(); \
    asked.number = _Generic(&ask, enum covretin_error (*)(covretin_session *, size_t, uint16_t) : (uint16_t)number, default : (uint32_t)number); \
    return ask(session, asked.index, asked.number);
#define ASK_RING_FLAG(ask, fds) \
    asked.number = take_ring() % 2; \
    return ask(session, asked.index, asked.number);
#define ASK_RING_FD(ask, fds) \
    take_ring(); \
    return ask(session, asked.index, asked.fd);
#define ASK_VRING(ask, fds) \
    take_ring(); \
    return ask(session, asked.index, &asked.ring);
#define ASK_REGIONS(ask, fds) \
    take_regions(); \
    asked.region_count = next_byte() % 34; \
    return ask(session, asked.regions, asked.region_count);
#define ASK_REGION(ask, fds) \
    take_regions(); \
    asked.regions[0].fd = (fds) ? asked.regions[0].fd : -1; \
    return ask(session, asked.regions);
#define ASK_LOG(ask, fds) \
    uint64_t base = take_regions(); \
    return ask(session, base, &asked.log);
#define ASK_CONFIG(ask, fds) \
    asked.config.size = (uint32_t)take_config(); \
    asked.config.flags = next_byte(); \
    return ask(session, asked.config.offset, asked.config.size, asked.config.flags);
#define ASK_BYTES(ask, fds) \
    take_config(); \
    return ask(session, asked.config.offset, 0, asked.bytes, asked.config.size);
#define ASK_AREA(ask, fds) \
    take_area(); \
    asked.fd = -1; \
    return ask(session, &asked.inflight);
#define ASK_AREA_FD(ask, fds) \
    take_area(); \
    return ask(session, &asked.inflight, asked.fd);
#define ASK_NAME(ask, fds) \
    asked.bytes = name_of_object; \
    return ask(session, name_of_object, sizeof name_of_object);
#define ASK_TRANSFER(ask, fds) \
    asked.direction = (uint32_t)next_number(); \
    asked.fd = 3; \
    return ask(session, asked.direction, 0, asked.fd);

#define DEFINE(call, takes, fds) \
    static enum covretin_error ask_##call(covretin_session *session) { ASK_##takes(covretin_ask_##call, fds) }
#define REQUEST(name, call, feature, takes, sees, replies, reply, fds) DEFINE(call, takes, fds)
#define OF_NO_DEVICE(name, call, feature, takes) DEFINE(call, takes, 1)
#include "../tests/requests.def"

/* -- Other calls, that ask for one of these requests in a way of their own -- */

static enum covretin_error ask_log_base_alone(covretin_session *session)
{
    return covretin_ask_set_log_base_alone(session, take_regions());
}

static enum covretin_error ask_config_bytes(covretin_session *session)
{
    take_config();
    return covretin_ask_get_config_bytes(session, asked.config.offset, 0, asked.bytes, asked.config.size);
}

static enum covretin_error ask_postcopy_ack(covretin_session *session)
{
    return covretin_ask_postcopy_ack_mem_regions(session, (uint32_t)next_number());
}

/* A request stands at its code, so that a new one changes no input that is kept. */
enum { PLACES = 64, OTHERS = 56 };

static enum covretin_error (*const asks[PLACES])(covretin_session *session) = {
#define REQUEST(name, call, ...) [COVRETIN_CALL_##name] = ask_##call,
#include "../tests/requests.def"
    [OTHERS] = ask_log_base_alone, ask_config_bytes, ask_postcopy_ack,
#define REQUEST(...)
#define OF_NO_DEVICE(name, call, ...) ask_##call,
#include "../tests/requests.def"
};

uint32_t number_of(uint8_t which)
{
    uint32_t place = which % PLACES;
    while (asks[place] == NULL)
        place = (place + 1) % PLACES;
    return place;
}

enum covretin_error ask(covretin_session *session, uint8_t which)
{
    memset(&asked, 0, sizeof asked);
    return asks[number_of(which)](session);
}

size_t take_request(covretin_session *session, uint8_t *bytes, int32_t *fds, size_t *fd_count)
{
    enum covretin_error error;
    size_t count = 0, none = 0, no_fd = 0;
    uint32_t head[3];
    do
        error = covretin_to_send(session, bytes, COVRETIN_MAX_MESSAGE, fds, COVRETIN_MAX_FDS, &count, fd_count);
    while (is_again(error));
    must(error == COVRETIN_OK && *fd_count <= COVRETIN_MAX_FDS);
    if (count == 0)
        return 0;
    must(count >= sizeof head && count <= COVRETIN_MAX_MESSAGE);
    memcpy(head, bytes, sizeof head);
    must((head[1] & 7) == 1 && head[2] == count - sizeof head);
    do
        error = covretin_to_send(session, bytes + count, 1, fds + *fd_count, COVRETIN_MAX_FDS, &none, &no_fd);
    while (is_again(error));
    must(error == COVRETIN_OK && none == 0 && no_fd == 0);
    tell(bytes, count);
    tell(fds, *fd_count * sizeof *fds);
    return count;
}

/* The forms that have a descriptor, and sizes. */
static size_t read_others(covretin_session *session, int32_t *fd)
{
    static uint64_t sizes[256];
    covretin_inflight inflight;
    size_t count = 0, forms = 0;
    if (covretin_answer_fd(session, fd) == COVRETIN_OK) {
        forms++;
        TELL(4, (uint64_t)*fd);
    }
    if (covretin_answer_inflight(session, &inflight, fd) == COVRETIN_OK) {
        forms++;
        TELL(5, inflight.mmap_size, inflight.mmap_offset, inflight.num_queues, inflight.queue_size, (uint64_t)*fd);
    }
    if (covretin_answer_shmem(session, sizes, 256, &count) == COVRETIN_OK) {
        forms++;
        TELL(6, count);
        tell(sizes, sizeof sizes);
    }
    return forms;
}

void read_answers(covretin_session *session, void may_name(int32_t fd))
{
    static uint64_t bases[32];
    static uint8_t bytes[COVRETIN_MAX_CONFIG];
    covretin_config config;
    uint64_t number;
    size_t count = 0, forms = 0;
    int32_t fd = -1;
    if (covretin_answer_number(session, &number) == COVRETIN_OK) {
        forms++;
        TELL(1, number);
    }
    if (covretin_answer_bases(session, bases, 32, &count) == COVRETIN_OK) {
        forms++;
        must(count <= 32);
        TELL(2, count);
        tell(bases, count * sizeof *bases);
    }
    if (covretin_answer_config(session, &config, bytes, sizeof bytes, &count) == COVRETIN_OK) {
        forms++;
        TELL(3, config.offset, config.size, config.flags, count);
        tell(bytes, count);
    }
    forms += read_others(session, &fd);
    may_name(fd);
    must(forms <= 1);
}
