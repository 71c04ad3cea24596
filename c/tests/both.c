/* Both sides of the library, over a pair of sockets with real descriptors: each request of the table is asked by the frontend's
 * session and comes to the device as it was asked, and the reply comes back as the device gave it. */
#ifndef _GNU_SOURCE
#define _GNU_SOURCE
#endif

#include "covretin_backend_socket.h"
#include "covretin_socket.h"
#include "peer.h"
#include "testing.h"

#include <fcntl.h>
#include <string.h>
#include <sys/socket.h>
#include <unistd.h>

enum { TURNS = 1000, RINGS = 4 };

static covretin_connection device;
static covretin_session *const session = &device.session;
static covretin_service service;
static covretin_backend *const backend = &service.backend;

static const uint64_t both_features = COVRETIN_ASKED_PROTOCOL_FEATURES & COVRETIN_SERVED_PROTOCOL_FEATURES;
static int file, second_file; /* descriptors that are sent */
static bool has_acks;         /* each request is acknowledged */

#define SAMPLE_FD file
#define SAMPLE_FEATURES both_features
#include "samples.h"

static void connect_both(void)
{
    int ends[2];
    if (socketpair(AF_UNIX, SOCK_STREAM | SOCK_CLOEXEC, 0, ends))
        give_up("socketpair");
    EXPECT(COVRETIN_OK, covretin_connect_fd(&device, ends[0], RINGS));
    EXPECT(COVRETIN_OK, covretin_serve_fd(&service, ends[1]));
    file = file_of("first");
    second_file = file_of("second");
}

static void disconnect_both(void)
{
    short events;
    uint32_t call;
    EXPECT(COVRETIN_NOT_YET, covretin_next_call_nowait(&service, &call, &events));
    EXPECT(COVRETIN_NOTHING_ASKED, covretin_exchange_nowait(&device, &events));
    covretin_disconnect(&device);
    EXPECT(COVRETIN_DISCONNECTED, covretin_next_call(&service, &call, 0));
    covretin_hang_up(&service);
    close(file);
    close(second_file);
}

/* What the device does when it is asked. */
typedef void answer(void);

/* Exchanges a request that was asked. The device is asked `want` (0: nothing), and answers. How the exchange ended. */
static enum covretin_error exchanged(enum covretin_error asked, uint32_t want, answer *answers)
{
    enum covretin_error outcome = COVRETIN_NOT_YET, served = COVRETIN_NOT_YET;
    short events;
    uint32_t call = 0;
    EXPECT(COVRETIN_OK, asked);
    for (int turn = 0; turn < TURNS && (outcome == COVRETIN_NOT_YET || served == COVRETIN_NOT_YET); turn++) {
        if (outcome == COVRETIN_NOT_YET)
            outcome = covretin_exchange_nowait(&device, &events);
        if (served == COVRETIN_NOT_YET)
            served = covretin_next_call_nowait(&service, &call, &events);
        if (served == COVRETIN_OK && answers != NULL) {
            EXPECT(want, call);
            answers();
            answers = NULL;
            EXPECT(COVRETIN_OK, covretin_send_reply_nowait(&service, &events));
        }
    }
    EXPECT(want != 0, served == COVRETIN_OK);
    return outcome;
}

static void done(void)
{
    EXPECT(COVRETIN_OK, covretin_reply_done(backend));
}

static void refused(void)
{
    EXPECT(COVRETIN_BACKEND_INTERNAL_ERROR, covretin_reply_refused(backend));
}

/* A refusal that the reply itself tells. */
static void refused_by_reply(void)
{
    EXPECT(COVRETIN_OK, covretin_reply_refused(backend));
}

static uint64_t told; /* the number that the device replies */

static void tells(void)
{
    EXPECT(COVRETIN_OK, covretin_reply_number(backend, told));
}

/* A request whose reply is a number. */
static void expect_number(enum covretin_error asked, uint32_t call, uint64_t want)
{
    uint64_t number = 0;
    told = want;
    EXPECT(COVRETIN_OK, exchanged(asked, call, tells));
    EXPECT(COVRETIN_OK, covretin_answer_number(session, &number));
    EXPECT(want, number);
}

/* Negotiates: all of these protocol features, and whether each request is acknowledged. */
static void negotiate_both(uint64_t protocol_features, bool acks)
{
    const uint64_t features = COVRETIN_FEATURE_PROTOCOL_FEATURES | COVRETIN_FEATURE_LOG_ALL | 1;
    has_acks = acks;
    connect_both();
    expect_number(covretin_ask_get_features(session), COVRETIN_CALL_GET_FEATURES, features);
    EXPECT(COVRETIN_OK, exchanged(covretin_ask_set_owner(session), COVRETIN_CALL_SET_OWNER, done));
    EXPECT(COVRETIN_OK, exchanged(covretin_ask_set_features(session, features), COVRETIN_CALL_SET_FEATURES, done));
    expect_number(covretin_ask_get_protocol_features(session), COVRETIN_CALL_GET_PROTOCOL_FEATURES, protocol_features);
    EXPECT(COVRETIN_OK, exchanged(covretin_ask_set_protocol_features(session, protocol_features),
                                  COVRETIN_CALL_SET_PROTOCOL_FEATURES, done));
    if (acks)
        EXPECT(COVRETIN_OK, covretin_set_hdr_flags(session, COVRETIN_NEED_REPLY));
}

/* A request without a value: the device does it, and refuses it, which is seen where that is acknowledged. */
static void expect_both(enum covretin_error (*asks)(void), uint32_t call, answer *does)
{
    enum covretin_error want = has_acks ? COVRETIN_BACKEND_INTERNAL_ERROR : COVRETIN_OK;
    EXPECT(COVRETIN_OK, exchanged(asks(), call, does));
    EXPECT(want, exchanged(asks(), call, refused));
}

/* -- Requests that are acknowledged, of each form that needs nothing else: those of the table -- */

static void expect_seen(uint64_t want)
{
    uint64_t number = 0;
    EXPECT(COVRETIN_OK, covretin_call_number(backend, &number));
    EXPECT(want, number);
}

static void expect_ring(uint32_t want_index, uint32_t want_number)
{
    uint32_t index = 99, number = 99;
    EXPECT(COVRETIN_OK, covretin_call_ring(backend, &index, &number));
    EXPECT(want_index, index);
    EXPECT(want_number, number);
}

/* What the device sees of each form. */
static void sees_NOTHING(void)
{
    done();
}

static void sees_NUMBER(void)
{
    expect_seen(SAMPLE_NUMBER);
    done();
}

static void sees_PROTOCOL(void)
{
    expect_seen(SAMPLE_FEATURES);
    done();
}

static void sees_SHORT(void)
{
    expect_seen(SAMPLE_SHORT);
    done();
}

static void sees_RING_NUMBER(void)
{
    expect_ring(SAMPLE_INDEX, SAMPLE_OF_RING);
    done();
}

static void sees_RING_FLAG(void)
{
    expect_ring(SAMPLE_INDEX, true);
    done();
}

/* The ring's descriptor comes, and is another number for the same file. */
static void sees_RING_FD(void)
{
    uint32_t index = 99;
    int32_t fd = -9;
    EXPECT(COVRETIN_OK, covretin_call_ring_fd(backend, &index, &fd));
    EXPECT(SAMPLE_INDEX, index);
    EXPECT(true, fd != file && holds(fd, "first"));
    done();
}

#define REQUEST(name, call, feature, takes, sees, replies, reply, fds) EACH_##reply(name, call, COVRETIN_PROTOCOL_##feature, takes)
#define EACH_OWN(...)
#define EACH_ACK(name, call, feature, takes) \
    PLAIN_##takes(static enum covretin_error ask_##call(void) { return covretin_ask_##call(session TAKES_##takes); })
#include "requests.def"

/* (those of postcopy want others before them) */
static void acknowledged(void)
{
    for (int acks = 0; acks < 2; acks++) {
        negotiate_both(both_features, acks);
#define REQUEST(name, call, feature, takes, sees, replies, reply, fds) EACH_##reply(name, call, COVRETIN_PROTOCOL_##feature, takes)
#undef EACH_ACK
#define EACH_ACK(name, call, feature, takes) \
    PLAIN_##takes(if ((feature) != COVRETIN_PROTOCOL_PAGEFAULT) expect_both(ask_##call, COVRETIN_CALL_##name, sees_##takes);)
#include "requests.def"
        disconnect_both();
    }
}

/* -- Numbers -- */

static void numbers(void)
{
    for (int acks = 0; acks < 2; acks++) {
        negotiate_both(both_features, acks);
        expect_number(covretin_ask_get_queue_num(session), COVRETIN_CALL_GET_QUEUE_NUM, RINGS);
        expect_number(covretin_ask_get_max_mem_slots(session), COVRETIN_CALL_GET_MAX_MEM_SLOTS, 509);
        disconnect_both();
    }
}

/* -- Rings -- */

static const covretin_vring place = {.flags = 1,
                                     .desc_table_addr = 0x7f0000001000,
                                     .used_ring_addr = 0x7f0000002004,
                                     .avail_ring_addr = 0x7f0000003002,
                                     .log_addr = 0x123456,
                                     .has_log_addr = true};

static enum covretin_error ask_set_vring_addr(void)
{
    covretin_vring asked = place;
    asked.queue_max_size = asked.queue_size = 256;
    return covretin_ask_set_vring_addr(session, 2, &asked);
}

static void sees_addr(void)
{
    covretin_vring ring;
    uint32_t index = 99;
    EXPECT(COVRETIN_OK, covretin_call_vring(backend, &index, &ring));
    EXPECT(2, index);
    EXPECT(true, ring.flags == 1 && ring.desc_table_addr == place.desc_table_addr && ring.used_ring_addr == place.used_ring_addr);
    EXPECT(true, ring.avail_ring_addr == place.avail_ring_addr && ring.log_addr == place.log_addr && ring.has_log_addr);
    EXPECT(true, ring.queue_max_size == 0 && ring.queue_size == 0);
    done();
}

static void stops(void)
{
    expect_ring(1, 0);
    EXPECT(COVRETIN_OTHER_CALL, covretin_reply_number(backend, 77));
    EXPECT(COVRETIN_OK, covretin_reply_ring(backend, 1, 77));
}

static void sees_no_ring_fd(void)
{
    uint32_t index = 99;
    int32_t fd = -9;
    EXPECT(COVRETIN_OK, covretin_call_ring_fd(backend, &index, &fd));
    EXPECT(3, index);
    EXPECT(-1, fd);
    done();
}

static enum covretin_error ask_set_no_vring_call(void)
{
    return covretin_ask_set_vring_call(session, 3, -1);
}

static void rings(void)
{
    for (int acks = 0; acks < 2; acks++) {
        uint64_t number = 0;
        negotiate_both(both_features, acks);
        expect_both(ask_set_vring_addr, COVRETIN_CALL_SET_VRING_ADDR, sees_addr);
        expect_both(ask_set_no_vring_call, COVRETIN_CALL_SET_VRING_CALL, sees_no_ring_fd);
        EXPECT(COVRETIN_OK, exchanged(covretin_ask_get_vring_base(session, 1), COVRETIN_CALL_GET_VRING_BASE, stops));
        EXPECT(COVRETIN_OK, covretin_answer_number(session, &number));
        EXPECT(77, number);
        disconnect_both();
    }
}

/* -- Memory -- */

static covretin_region region_of(size_t number)
{
    return (covretin_region){.guest_phys_addr = 0x100000 * number,
                             .memory_size = 0x2000,
                             .user_addr = 0x7f0000000000 + 0x100000 * number,
                             .mmap_offset = 0x1000 * number,
                             .fd = number % 2 ? file : second_file};
}

static void expect_region(const covretin_region *found, size_t number, bool has_fd)
{
    covretin_region want = region_of(number);
    EXPECT(true, found->guest_phys_addr == want.guest_phys_addr && found->memory_size == want.memory_size);
    EXPECT(true, found->user_addr == want.user_addr && found->mmap_offset == want.mmap_offset);
    EXPECT(true, has_fd ? holds(found->fd, number % 2 ? "first" : "second") : found->fd == -1);
}

static size_t table = 2; /* regions of a table */

static enum covretin_error ask_set_mem_table(void)
{
    covretin_region regions[COVRETIN_MAX_FDS];
    for (size_t i = 0; i < table; i++)
        regions[i] = region_of(i);
    return covretin_ask_set_mem_table(session, regions, table);
}

/* The regions that the device is asked for are these. */
static void sees_regions(size_t from, size_t want, bool has_fd, bool want_listening)
{
    covretin_region regions[COVRETIN_MAX_FDS];
    size_t count = 99;
    bool listening = !want_listening;
    EXPECT(COVRETIN_NO_ROOM, covretin_call_regions(backend, regions, want - 1, &count, &listening));
    EXPECT(99, count);
    EXPECT(COVRETIN_OK, covretin_call_regions(backend, regions, COVRETIN_MAX_FDS, &count, &listening));
    EXPECT(want, count);
    EXPECT(want_listening, listening);
    for (size_t i = 0; i < count; i++)
        expect_region(&regions[i], from + i, has_fd);
}

static void sees_table(void)
{
    sees_regions(0, table, true, false);
    done();
}

static enum covretin_error ask_add_mem_region(void)
{
    covretin_region region = region_of(7);
    return covretin_ask_add_mem_region(session, &region);
}

static void sees_added(void)
{
    sees_regions(7, 1, true, false);
    done();
}

static enum covretin_error ask_remove_mem_region(void)
{
    covretin_region region = region_of(7);
    return covretin_ask_remove_mem_region(session, &region);
}

static void sees_removed(void)
{
    sees_regions(7, 1, false, false);
    done();
}

static enum covretin_error ask_set_log_base(void)
{
    const covretin_region region = {.memory_size = 0x3000, .mmap_offset = 0x1000, .fd = file};
    return covretin_ask_set_log_base(session, 0, &region);
}

static void sees_log(void)
{
    covretin_region log;
    EXPECT(COVRETIN_OK, covretin_call_log(backend, &log));
    EXPECT(true, log.memory_size == 0x3000 && log.mmap_offset == 0x1000 && log.guest_phys_addr == 0 && log.user_addr == 0);
    EXPECT(true, holds(log.fd, "first"));
    done();
}

static void memory(void)
{
    for (int acks = 0; acks < 2; acks++) {
        size_t count = 99;
        uint64_t bases[COVRETIN_MAX_FDS];
        negotiate_both(both_features, acks);
        for (table = 1; table <= COVRETIN_MAX_FDS; table += 31) {
            expect_both(ask_set_mem_table, COVRETIN_CALL_SET_MEM_TABLE, sees_table);
            EXPECT(COVRETIN_OK, exchanged(ask_set_mem_table(), COVRETIN_CALL_SET_MEM_TABLE, sees_table));
            EXPECT(COVRETIN_OK, covretin_answer_bases(session, bases, COVRETIN_MAX_FDS, &count));
            EXPECT(0, count);
        }
        expect_both(ask_add_mem_region, COVRETIN_CALL_ADD_MEM_REG, sees_added);
        expect_both(ask_remove_mem_region, COVRETIN_CALL_REM_MEM_REG, sees_removed);
        EXPECT(COVRETIN_OK, exchanged(ask_set_log_base(), COVRETIN_CALL_SET_LOG_BASE, sees_log));
        disconnect_both();
    }
}

/* -- Configuration -- */

static uint8_t sent[COVRETIN_MAX_CONFIG];
static size_t sent_count;

static void gives_config(void)
{
    covretin_config config;
    uint8_t none[1];
    size_t count = 99;
    EXPECT(COVRETIN_OK, covretin_call_config(backend, &config, none, sizeof none, &count));
    EXPECT(true, config.offset == 4 && config.size == sent_count && config.flags == 1 && count == 0);
    EXPECT(COVRETIN_OK, covretin_reply_config(backend, sent, sent_count));
}

static void gives_too_little(void)
{
    EXPECT(COVRETIN_OK, covretin_reply_config(backend, sent, sent_count - 1));
}

static enum covretin_error ask_get_config(void)
{
    return covretin_ask_get_config(session, 4, (uint32_t)sent_count, 1);
}

static enum covretin_error ask_set_config(void)
{
    return covretin_ask_set_config(session, 4, 1, sent, sent_count);
}

static void sees_config(void)
{
    static uint8_t bytes[COVRETIN_MAX_CONFIG];
    covretin_config config;
    size_t count = 99;
    EXPECT(COVRETIN_NO_ROOM, covretin_call_config(backend, &config, bytes, sent_count - 1, &count));
    EXPECT(COVRETIN_OK, covretin_call_config(backend, &config, bytes, sizeof bytes, &count));
    EXPECT(true, config.offset == 4 && config.size == sent_count && config.flags == 1 && count == sent_count);
    EXPECT(0, memcmp(bytes, sent, sent_count));
    done();
}

static void configurations(void)
{
    const size_t sizes[] = {1, 60, COVRETIN_MAX_CONFIG};
    static uint8_t bytes[COVRETIN_MAX_CONFIG];
    covretin_config config;
    size_t count = 0;
    for (size_t i = 0; i < sizeof sent; i++)
        sent[i] = (uint8_t)(i * 5 + i / 256);
    for (int acks = 0; acks < 2; acks++)
        for (size_t i = 0; i < 3; i++) {
            negotiate_both(both_features, acks);
            sent_count = sizes[i];
            EXPECT(COVRETIN_OK, exchanged(ask_get_config(), COVRETIN_CALL_GET_CONFIG, gives_config));
            EXPECT(COVRETIN_OK, covretin_answer_config(session, &config, bytes, sizeof bytes, &count));
            EXPECT(true, count == sent_count && memcmp(bytes, sent, count) == 0);
            EXPECT(COVRETIN_BACKEND_INTERNAL_ERROR, exchanged(ask_get_config(), COVRETIN_CALL_GET_CONFIG, gives_too_little));
            EXPECT(COVRETIN_BACKEND_INTERNAL_ERROR, exchanged(ask_get_config(), COVRETIN_CALL_GET_CONFIG, refused_by_reply));
            expect_both(ask_set_config, COVRETIN_CALL_SET_CONFIG, sees_config);
            disconnect_both();
        }
}

/* -- Descriptors -- */

static const covretin_inflight inflight = {.mmap_size = 0x5000, .mmap_offset = 0x40, .num_queues = 3, .queue_size = 256};

static void expect_inflight(const covretin_inflight *found)
{
    EXPECT(true, found->mmap_size == inflight.mmap_size && found->mmap_offset == inflight.mmap_offset);
    EXPECT(true, found->num_queues == inflight.num_queues && found->queue_size == inflight.queue_size);
}

static void gives_inflight(void)
{
    covretin_inflight asked;
    int32_t fd = -9;
    EXPECT(COVRETIN_OK, covretin_call_inflight(backend, &asked, &fd));
    EXPECT(-1, fd);
    EXPECT(true, asked.num_queues == 3 && asked.queue_size == 256);
    EXPECT(COVRETIN_INVALID_PARAM, covretin_reply_inflight(backend, &inflight, -1));
    EXPECT(COVRETIN_OK, covretin_reply_inflight(backend, &inflight, second_file));
}

static enum covretin_error ask_set_inflight_fd(void)
{
    return covretin_ask_set_inflight_fd(session, &inflight, file);
}

static void sees_inflight(void)
{
    covretin_inflight found;
    int32_t fd = -9;
    EXPECT(COVRETIN_OK, covretin_call_inflight(backend, &found, &fd));
    expect_inflight(&found);
    EXPECT(true, holds(fd, "first"));
    done();
}

static void gives_fd(void)
{
    EXPECT(COVRETIN_INVALID_PARAM, covretin_reply_fd(backend, -1));
    EXPECT(COVRETIN_OK, covretin_reply_fd(backend, second_file));
}

static void gives_object(void)
{
    uint8_t name[16] = {0};
    EXPECT(COVRETIN_NO_ROOM, covretin_call_name(backend, name, 15));
    EXPECT(COVRETIN_OK, covretin_call_name(backend, name, 16));
    EXPECT(0, memcmp(name, "0123456789abcdef", 16));
    gives_fd();
}

static enum covretin_error ask_set_backend_request_fd(void)
{
    return covretin_ask_set_backend_request_fd(session, covretin_connection_fd(&device));
}

/* The channel's socket is claimed, and the device closes it. */
static void takes_channel(void)
{
    int32_t fd = -9;
    EXPECT(COVRETIN_OK, covretin_call_fd(backend, &fd));
    EXPECT(COVRETIN_OK, covretin_claim_call_fd(&service, fd));
    done();
    EXPECT(0, close(fd));
}

/* The descriptor of the reply holds this. */
static void expect_given(const char *text)
{
    int32_t fd = -9;
    EXPECT(COVRETIN_OK, covretin_claim_fd(&device, &fd));
    EXPECT(true, fd != second_file && holds(fd, text));
    close(fd);
}

static void descriptors(void)
{
    const covretin_inflight asked = {.num_queues = 3, .queue_size = 256};
    const uint8_t *name = (const uint8_t *)"0123456789abcdef";
    covretin_inflight found;
    int32_t fd = -9;
    for (int acks = 0; acks < 2; acks++) {
        negotiate_both(both_features, acks);
        EXPECT(COVRETIN_OK, exchanged(covretin_ask_get_inflight_fd(session, &asked), COVRETIN_CALL_GET_INFLIGHT_FD, gives_inflight));
        EXPECT(COVRETIN_OK, covretin_answer_inflight(session, &found, &fd));
        expect_inflight(&found);
        expect_given("second");
        expect_both(ask_set_inflight_fd, COVRETIN_CALL_SET_INFLIGHT_FD, sees_inflight);
        EXPECT(COVRETIN_OK, exchanged(covretin_ask_get_shared_object(session, name, 16), COVRETIN_CALL_GET_SHARED_OBJECT, gives_object));
        expect_given("second");
        if (acks)
            EXPECT(COVRETIN_OK, exchanged(ask_set_backend_request_fd(), COVRETIN_CALL_SET_BACKEND_REQ_FD, takes_channel));
        disconnect_both();
    }
}

/* -- The device's state, and shared memory -- */

static enum covretin_error ask_transfer(uint32_t direction)
{
    return covretin_ask_set_device_state_fd(session, direction, 0, file);
}

static void sees_transfer(uint32_t want)
{
    uint32_t direction = 99, phase = 99;
    int32_t fd = -9;
    EXPECT(COVRETIN_OK, covretin_call_transfer(backend, &direction, &phase, &fd));
    EXPECT(true, direction == want && phase == 0 && holds(fd, "first"));
}

static void takes_transfer(void)
{
    sees_transfer(0);
    EXPECT(COVRETIN_OK, covretin_reply_fd(backend, -1));
}

static void gives_transfer(void)
{
    sees_transfer(1);
    EXPECT(COVRETIN_OK, covretin_reply_fd(backend, second_file));
}

static void gives_shared_memory(void)
{
    uint64_t sizes[256] = {[0] = 4096, [255] = 8192};
    EXPECT(COVRETIN_INVALID_PARAM, covretin_reply_shmem(backend, sizes, 255, 2));
    EXPECT(COVRETIN_OK, covretin_reply_shmem(backend, sizes, 256, 2));
}

static void states(void)
{
    uint64_t sizes[256] = {0};
    size_t count = 0;
    int32_t fd = -9;
    for (int acks = 0; acks < 2; acks++) {
        negotiate_both(both_features, acks);
        EXPECT(COVRETIN_OK, exchanged(ask_transfer(0), COVRETIN_CALL_SET_DEVICE_STATE_FD, takes_transfer));
        EXPECT(COVRETIN_OK, covretin_answer_fd(session, &fd));
        EXPECT(-1, fd);
        EXPECT(COVRETIN_OK, exchanged(ask_transfer(1), COVRETIN_CALL_SET_DEVICE_STATE_FD, gives_transfer));
        expect_given("second");
        EXPECT(COVRETIN_BACKEND_INTERNAL_ERROR, exchanged(ask_transfer(1), COVRETIN_CALL_SET_DEVICE_STATE_FD, refused_by_reply));
        EXPECT(COVRETIN_OK, exchanged(covretin_ask_check_device_state(session), COVRETIN_CALL_CHECK_DEVICE_STATE, done));
        EXPECT(COVRETIN_BACKEND_INTERNAL_ERROR,
               exchanged(covretin_ask_check_device_state(session), COVRETIN_CALL_CHECK_DEVICE_STATE, refused_by_reply));
        EXPECT(COVRETIN_OK, exchanged(covretin_ask_get_shmem_config(session), COVRETIN_CALL_GET_SHMEM_CONFIG, gives_shared_memory));
        EXPECT(COVRETIN_OK, covretin_answer_shmem(session, sizes, 256, &count));
        EXPECT(true, count == 2 && sizes[0] == 4096 && sizes[1] == 0 && sizes[255] == 8192);
        disconnect_both();
    }
}

/* -- Postcopy -- */

static const uint64_t mapped[2] = {0x7e0000000000, 0x7d0000000000};

static void gives_bases(void)
{
    sees_regions(0, 2, true, true);
    EXPECT(COVRETIN_OTHER_CALL, covretin_reply_done(backend));
    EXPECT(COVRETIN_OK, covretin_reply_bases(backend, mapped, 2));
}

static void gives_base(void)
{
    sees_regions(7, 1, true, true);
    EXPECT(COVRETIN_OK, covretin_reply_bases(backend, mapped, 1));
}

static void expect_bases(size_t want)
{
    uint64_t bases[2] = {0};
    size_t count = 99;
    EXPECT(COVRETIN_OK, covretin_answer_bases(session, bases, 2, &count));
    EXPECT(want, count);
    for (size_t i = 0; i < want; i++)
        EXPECT(mapped[i], bases[i]);
}

static void postcopy(void)
{
    table = 2;
    negotiate_both(both_features, true);
    EXPECT(COVRETIN_OK, exchanged(covretin_ask_postcopy_advise(session), COVRETIN_CALL_POSTCOPY_ADVISE, gives_fd));
    expect_given("second");
    EXPECT(COVRETIN_OK, exchanged(covretin_ask_postcopy_listen(session), COVRETIN_CALL_POSTCOPY_LISTEN, done));
    EXPECT(COVRETIN_OK, exchanged(ask_set_mem_table(), COVRETIN_CALL_SET_MEM_TABLE, gives_bases));
    expect_bases(2);
    EXPECT(COVRETIN_OK, exchanged(covretin_ask_postcopy_ack_mem_regions(session, 5), COVRETIN_CALL_POSTCOPY_ACK, done));
    EXPECT(COVRETIN_OK, exchanged(ask_add_mem_region(), COVRETIN_CALL_ADD_MEM_REG, gives_base));
    expect_bases(1);
    EXPECT(COVRETIN_OK, exchanged(covretin_ask_postcopy_ack_mem_regions(session, 37), COVRETIN_CALL_POSTCOPY_ACK, done));
    EXPECT(COVRETIN_OK, exchanged(covretin_ask_postcopy_end(session), COVRETIN_CALL_POSTCOPY_END, done));
    EXPECT(COVRETIN_OK, exchanged(ask_set_mem_table(), COVRETIN_CALL_SET_MEM_TABLE, sees_table));
    expect_bases(0);
    disconnect_both();
}

/* Postcopy in a wrong order is refused by the session, and the device is not asked. */
static void postcopy_out_of_order(void)
{
    negotiate_both(both_features, true);
    EXPECT(true, exchanged(covretin_ask_postcopy_listen(session), 0, NULL) != COVRETIN_OK);
    covretin_disconnect(&device);
    covretin_hang_up(&service);
    close(file);
    close(second_file);
}

/* -- Refusals of the session -- */

/* Without its feature a request is asked by nobody, so a frontend that lies is played: it sends the features, and its own
 * session has others in mind. */
static void lacks_features(void)
{
    const uint64_t offered = both_features & ~COVRETIN_PROTOCOL_RESET_DEVICE;
    uint32_t call = 0;
    short events;
    negotiate_both(offered, true);
    EXPECT(COVRETIN_INACTIVE_OPERATION, covretin_ask_reset_device(session));
    EXPECT(COVRETIN_PROTOCOL_RESET_DEVICE, covretin_inactive(session));
    const uint8_t text[12] = {34, 0, 0, 0, 9};
    say(covretin_connection_fd(&device), text, sizeof text, NULL, 0);
    EXPECT(COVRETIN_INACTIVE_OPERATION, covretin_next_call_nowait(&service, &call, &events));
    EXPECT(COVRETIN_PROTOCOL_RESET_DEVICE, covretin_backend_inactive(backend));
    EXPECT(0, call);
    EXPECT(false, covretin_service_ended(&service));
    covretin_disconnect(&device);
    covretin_hang_up(&service);
    close(file);
    close(second_file);
}

int main(void)
{
    RUN(acknowledged);
    RUN(numbers);
    RUN(rings);
    RUN(memory);
    RUN(configurations);
    RUN(descriptors);
    RUN(states);
    RUN(postcopy);
    RUN(postcopy_out_of_order);
    RUN(lacks_features);
    return status();
}
