/* SPDX-License-Identifier: Apache-2.0 */
/* Each call of each session, without a socket: scripts/costs/costs.py calls counts what the library does for it. A line for each part of a call
 * that is counted: the session's name, and the call's. */
#include "covretin_backend.h"
#include "covretin_channel.h"
#include "covretin_display.h"
#include "covretin_transport.h"

#include <stdio.h>
#include <stdlib.h>
#include <string.h>

static covretin_session front;
static covretin_backend back;
static covretin_channel channel;
static covretin_channel_server server;
static covretin_display display;

/* What was handed out last of a request, and of a reply. */
static struct text {
    uint8_t bytes[COVRETIN_MAX_MESSAGE];
    int32_t fds[COVRETIN_MAX_FDS];
    size_t length, fd_count;
} request, reply;

/* A session that asks, and one that serves it. No other: what its replies are is written to `reply`. */
static const struct sides {
    const char *asks, *serves;
    struct transport_side asking, serving;
    void *asker, *server;
    enum covretin_error (*next)(void *session, uint32_t *call);
} *sides;

/* A call: how it is asked, and what the other side says of it. */
struct call {
    const char *name;
    enum covretin_error (*asked)(void), (*answered)(void), (*taken)(void);
};

static void check(const struct call *call, enum covretin_error error)
{
    if (!error)
        return;
    fprintf(stderr, "costs: %s is error %d\n", call->name, (int)error);
    exit(4);
}

/* Hands a session all that it misses of a text. */
static enum covretin_error hand_in(const struct transport_side *side, void *session, const struct text *text)
{
    size_t missing, at = 0, fd_count = text->fd_count;
    while ((missing = side->missing(session)) != 0) {
        size_t part = missing < text->length - at ? missing : text->length - at;
        enum covretin_error error = side->receive(session, text->bytes + at, part, text->fds, fd_count);
        if (error || part == 0)
            return error ? error : COVRETIN_NOT_YET;
        fd_count = 0;
        at += part;
    }
    return COVRETIN_OK;
}

static enum covretin_error hand_out(const struct transport_side *side, void *session, struct text *text)
{
    return side->to_send(session, text->bytes, sizeof text->bytes, text->fds, COVRETIN_MAX_FDS, &text->length, &text->fd_count);
}

static enum covretin_error ask(const struct call *call)
{
    enum covretin_error error = call->asked();
    return error ? error : hand_out(&sides->asking, sides->asker, &request);
}

static enum covretin_error serve(const struct call *call)
{
    uint32_t number;
    enum covretin_error error = hand_in(&sides->serving, sides->server, &request);
    if (!error)
        error = sides->next(sides->server, &number);
    if (!error)
        error = call->answered();
    return error ? error : hand_out(&sides->serving, sides->server, &reply);
}

static enum covretin_error take(const struct call *call)
{
    enum covretin_error error = hand_in(&sides->asking, sides->asker, &reply);
    if (error)
        return error;
    return call->taken != NULL ? call->taken() : sides->asking.take(sides->asker);
}

typedef enum covretin_error part_of(const struct call *call);

/* What is done within is counted: so it is a function by itself, also where its argument is known. */
static __attribute__((noinline, noclone)) enum covretin_error counted(part_of *part, const struct call *call)
{
    return part(call);
}

static void do_part(part_of *part, const struct call *call, bool is_counted)
{
    check(call, is_counted ? counted(part, call) : part(call));
}

/* Lets a session hand out what nobody claims. */
static void forget(const struct transport_side *side, void *session)
{
    int32_t fds[COVRETIN_MAX_FDS];
    size_t count = 0;
    if (side->abandon != NULL)
        side->abandon(session);
    while (side->unclaimed(session, fds, COVRETIN_MAX_FDS, &count) == COVRETIN_OK && count != 0)
        ;
}

/* Makes a call. Only the third time is counted, when nothing is grown any more. */
static void make(const struct call *call, bool is_counted)
{
    if (is_counted) {
        printf("%s\t%s\n", sides->asks, call->name);
        if (sides->next != NULL)
            printf("%s\t%s\n", sides->serves, call->name);
        printf("%s\t%s\n", sides->asks, call->name);
    }
    do_part(ask, call, is_counted);
    if (sides->next != NULL)
        do_part(serve, call, is_counted);
    else
        check(call, call->answered());
    do_part(take, call, is_counted);
    forget(&sides->asking, sides->asker);
    if (sides->next != NULL)
        forget(&sides->serving, sides->server);
}

#define DEFINE(name, asking, answering) \
    static enum covretin_error asked_##name(void) \
    { \
        return asking; \
    } \
    static enum covretin_error answered_##name(void) \
    { \
        return answering; \
    }
#define ROW(name, asking, answering) {#name, asked_##name, answered_##name, NULL},

/* -- A frontend and a backend -- */

enum { FEATURES = 0x44000001, FD = 7, OTHER_FD = 9, CONFIG = 256 };
static const uint64_t protocol_features = COVRETIN_ASKED_PROTOCOL_FEATURES & COVRETIN_SERVED_PROTOCOL_FEATURES;

#define SAMPLE_FD FD
#define SAMPLE_FEATURES protocol_features
#include "samples.h"

static const covretin_vring ring = {.queue_max_size = 256, .queue_size = 256, .desc_table_addr = 0x1000, .used_ring_addr = 0x2000, .avail_ring_addr = 0x3000};
static const covretin_region log_region = {.memory_size = 0x3000, .fd = FD};
static const covretin_inflight area = {.mmap_size = 0x5000, .num_queues = 3, .queue_size = 256};
static const uint8_t name[16] = "0123456789abcdef", space[CONFIG];
static const uint64_t bases[8] = {0x1000, 0x2000, 0x3000, 0x4000, 0x5000, 0x6000, 0x7000, 0x8000}, sizes[256] = {4096};
static covretin_region regions[8];
static uint64_t a_number;
static uint32_t index_of, number_of;
static int32_t a_fd;
static size_t a_count;
static bool listens;
static covretin_region some_regions[32];
static covretin_inflight an_area;
static covretin_vring a_ring;
static covretin_config a_config;
static uint8_t some_bytes[COVRETIN_MAX_MESSAGE];

#define DONE covretin_reply_done(&back)
#define SEES_NOTHING DONE
#define SEES_NUMBER (covretin_call_number(&back, &a_number), DONE)
#define SEES_RING (covretin_call_ring(&back, &index_of, &number_of), DONE)
#define SEES_RING_FD (covretin_call_ring_fd(&back, &index_of, &a_fd), DONE)
#define SEES_REGIONS (covretin_call_regions(&back, some_regions, 32, &a_count, &listens), DONE)
#define SEES_TABLE covretin_call_regions(&back, some_regions, 32, &a_count, &listens)
#define SEES_CONFIG (covretin_call_config(&back, &a_config, some_bytes, sizeof some_bytes, &a_count))

/* The first ask for features; behind them each is acknowledged. */
#define FIRST_CALLS(X) \
    X(get_features, covretin_ask_get_features(&front), covretin_reply_number(&back, FEATURES)) \
    X(set_owner, covretin_ask_set_owner(&front), DONE) \
    X(set_features, covretin_ask_set_features(&front, FEATURES), SEES_NUMBER) \
    X(get_protocol_features, covretin_ask_get_protocol_features(&front), covretin_reply_number(&back, protocol_features)) \
    X(set_protocol_features, covretin_ask_set_protocol_features(&front, protocol_features), SEES_NUMBER)
#define CALLS(X) \
    X(get_queue_num, covretin_ask_get_queue_num(&front), covretin_reply_number(&back, 4)) \
    X(get_max_mem_slots, covretin_ask_get_max_mem_slots(&front), covretin_reply_number(&back, 509)) \
    X(set_vring_addr, covretin_ask_set_vring_addr(&front, 1, &ring), (covretin_call_vring(&back, &index_of, &a_ring), DONE)) \
    X(get_vring_base, covretin_ask_get_vring_base(&front, 1), (covretin_call_ring(&back, &index_of, &number_of), covretin_reply_ring(&back, 1, 77))) \
    X(set_mem_table_8, covretin_ask_set_mem_table(&front, regions, 8), SEES_REGIONS) \
    X(add_mem_region, covretin_ask_add_mem_region(&front, regions), SEES_REGIONS) \
    X(remove_mem_region, covretin_ask_remove_mem_region(&front, regions), SEES_REGIONS) \
    X(set_log_base, covretin_ask_set_log_base(&front, 0, &log_region), (covretin_call_log(&back, some_regions), DONE)) \
    X(get_config_256, covretin_ask_get_config(&front, 0, CONFIG, 0), (SEES_CONFIG, covretin_reply_config(&back, space, CONFIG))) \
    X(set_config_256, covretin_ask_set_config(&front, 0, 0, space, CONFIG), (SEES_CONFIG, DONE)) \
    X(set_backend_request_fd, covretin_ask_set_backend_request_fd(&front, FD), (covretin_call_fd(&back, &a_fd), DONE)) \
    X(get_shared_object, covretin_ask_get_shared_object(&front, name, 16), (covretin_call_name(&back, some_bytes, 16), covretin_reply_fd(&back, OTHER_FD))) \
    X(get_inflight_fd, covretin_ask_get_inflight_fd(&front, &area), (covretin_call_inflight(&back, &an_area, &a_fd), covretin_reply_inflight(&back, &area, OTHER_FD))) \
    X(set_inflight_fd, covretin_ask_set_inflight_fd(&front, &area, FD), (covretin_call_inflight(&back, &an_area, &a_fd), DONE)) \
    X(get_shmem_config, covretin_ask_get_shmem_config(&front), covretin_reply_shmem(&back, sizes, 256, 1)) \
    X(set_device_state_fd, covretin_ask_set_device_state_fd(&front, 0, 0, FD), (covretin_call_transfer(&back, &index_of, &number_of, &a_fd), covretin_reply_fd(&back, -1))) \
    X(check_device_state, covretin_ask_check_device_state(&front), DONE)
/* A session does these once. */
#define POSTCOPY_CALLS(X) \
    X(postcopy_advise, covretin_ask_postcopy_advise(&front), covretin_reply_fd(&back, OTHER_FD)) \
    X(postcopy_listen, covretin_ask_postcopy_listen(&front), DONE) \
    X(set_mem_table_8_mapped, covretin_ask_set_mem_table(&front, regions, 8), (SEES_TABLE, covretin_reply_bases(&back, bases, 8))) \
    X(postcopy_ack_mem_regions, covretin_ask_postcopy_ack_mem_regions(&front, 5), DONE) \
    X(postcopy_end, covretin_ask_postcopy_end(&front), DONE)

FIRST_CALLS(DEFINE)
CALLS(DEFINE)
POSTCOPY_CALLS(DEFINE)
static const struct call first_calls[] = {FIRST_CALLS(ROW)}, calls[] = {CALLS(ROW)}, postcopy_calls[] = {POSTCOPY_CALLS(ROW)};

/* Those of the table that are acknowledged, each of a form that needs nothing else. (each before has a name of its own) */
#define REQUEST(name, call, feature, takes, sees, replies, reply, fds) EACH_##reply(call, takes, sees)
#define EACH_OWN(...)
#define EACH_ACK(call, takes, sees) PLAIN_##takes(DEFINE(plain_##call, covretin_ask_##call(&front TAKES_##takes), SEES_##sees))
#include "requests.def"
#undef EACH_ACK
#define EACH_ACK(call, takes, sees) PLAIN_##takes({#call, asked_plain_##call, answered_plain_##call, NULL},)
#define REQUEST(name, call, feature, takes, sees, replies, reply, fds) EACH_##reply(call, takes, sees)
static const struct call plain_calls[] = {
#include "requests.def"
};

static bool is_among(const struct call *call, const struct call *others, size_t count)
{
    while (count != 0 && strcmp(call->name, others[count - 1].name) != 0)
        count--;
    return count != 0;
}

/* Whether a call of the table stands above, since it wants others before it. */
static bool is_above(const struct call *call)
{
    return is_among(call, first_calls, sizeof first_calls / sizeof *first_calls) ||
           is_among(call, postcopy_calls, sizeof postcopy_calls / sizeof *postcopy_calls);
}

TRANSPORT_BYTES(front, covretin)
TRANSPORT_CALL(front_abandon, covretin_abandon)
TRANSPORT_CALL(front_take, covretin_take)
TRANSPORT_BYTES(back, covretin_backend)
TRANSPORT_CALL(back_abandon, covretin_backend_abandon)

static enum covretin_error back_next(void *session, uint32_t *call)
{
    return covretin_backend_next(session, call);
}

static void count_both(int turn)
{
    static const struct sides both = {
        "frontend", "backend", {front_missing, front_receive, front_to_send, front_unclaimed, front_abandon, front_take, false, false, NULL, NULL},
        {back_missing, back_receive, back_to_send, back_unclaimed, back_abandon, NULL, true, false, NULL, NULL}, &front, &back, back_next};
    sides = &both;
    for (int32_t i = 0; i < 8; i++)
        regions[i] = (covretin_region){(uint64_t)i << 28, 1u << 28, 0x700000000000u + ((uint64_t)i << 28), 0, FD + i};
    check(first_calls, covretin_set_hdr_flags(&front, 0));
    for (size_t i = 0; i < sizeof first_calls / sizeof *first_calls; i++)
        make(&first_calls[i], turn == 2);
    check(first_calls, covretin_set_hdr_flags(&front, COVRETIN_NEED_REPLY));
    for (size_t i = 0; i < sizeof calls / sizeof *calls; i++)
        make(&calls[i], turn == 2);
    for (size_t i = 0; i < sizeof plain_calls / sizeof *plain_calls; i++)
        if (!is_above(&plain_calls[i]))
            make(&plain_calls[i], turn == 2);
    for (size_t i = 0; turn == 2 && i < sizeof postcopy_calls / sizeof *postcopy_calls; i++)
        make(&postcopy_calls[i], true);
}

/* -- The backend channel -- */

static const covretin_mmap a_range = {.len = 4096, .flags = 1};
static covretin_mmap a_part;

#define REPLIES_0 covretin_channel_reply_number(&server, 0)
#define SEES_NAME (covretin_channel_call_name(&server, some_bytes, 16), REPLIES_0)
#define CHANNEL_CALLS(X) \
    X(config_change, covretin_channel_ask_config_change(&channel), REPLIES_0) \
    X(shared_object_add, covretin_channel_ask_shared_object_add(&channel, name, 16), SEES_NAME) \
    X(shared_object_remove, covretin_channel_ask_shared_object_remove(&channel, name, 16), SEES_NAME) \
    X(shared_object_lookup, covretin_channel_ask_shared_object_lookup(&channel, name, 16, FD), SEES_NAME) \
    X(shmem_map, covretin_channel_ask_shmem_map(&channel, &a_range, FD), (covretin_channel_call_mmap(&server, &a_part), REPLIES_0)) \
    X(shmem_unmap, covretin_channel_ask_shmem_unmap(&channel, &a_range), (covretin_channel_call_mmap(&server, &a_part), REPLIES_0))

CHANNEL_CALLS(DEFINE)
static const struct call channel_calls[] = {CHANNEL_CALLS(ROW)};

TRANSPORT_BYTES(channel, covretin_channel)
TRANSPORT_CALL(channel_take, covretin_channel_take)
TRANSPORT_BYTES(server, covretin_channel_server)
TRANSPORT_CALL(server_abandon, covretin_channel_server_abandon)

static enum covretin_error server_next(void *session, uint32_t *call)
{
    return covretin_channel_server_next(session, call);
}

static void count_channel(int turn)
{
    static const struct sides both = {
        "channel", "channel_server", {channel_missing, channel_receive, channel_to_send, channel_unclaimed, NULL, channel_take, false, true, NULL, NULL},
        {server_missing, server_receive, server_to_send, server_unclaimed, server_abandon, NULL, true, false, NULL, NULL}, &channel, &server, server_next};
    sides = &both;
    for (size_t i = 0; i < sizeof channel_calls / sizeof *channel_calls; i++)
        make(&channel_calls[i], turn == 2);
}

/* -- A display's one side -- */

/* The display replies so many bytes. */
static enum covretin_error shows(uint32_t code, uint32_t size)
{
    memset(&reply, 0, sizeof reply);
    reply.bytes[0] = (uint8_t)code;
    reply.bytes[4] = 4;
    reply.bytes[8] = (uint8_t)size;
    reply.bytes[9] = (uint8_t)(size >> 8);
    reply.length = 12 + size;
    return COVRETIN_OK;
}

static const covretin_display_scanout screen = {0, 640, 480};
static const covretin_display_update rectangle = {0, 0, 0, 64, 64};
static const covretin_display_dmabuf_scanout buffer = {.width = 64, .height = 64};
static const covretin_display_dmabuf_scanout2 buffer2 = {.dmabuf_scanout = {.width = 64, .height = 64}};
static const covretin_display_cursor_pos cursor = {0, 1, 1};
static const covretin_display_cursor_update image = {{0, 1, 1}, 0, 0};

#define DISPLAY_CALLS(X) \
    X(set_protocol_features, covretin_display_ask_set_protocol_features(&display, 3), COVRETIN_OK) \
    X(set_scanout, covretin_display_ask_set_scanout(&display, &screen), COVRETIN_OK) \
    X(update_scanout, covretin_display_ask_update_scanout(&display, &rectangle, 64 * 64 * 4), COVRETIN_OK) \
    X(set_dmabuf_scanout, covretin_display_ask_set_dmabuf_scanout(&display, &buffer, FD), COVRETIN_OK) \
    X(set_dmabuf_scanout2, covretin_display_ask_set_dmabuf_scanout2(&display, &buffer2, FD), COVRETIN_OK) \
    X(update_dmabuf_scanout, covretin_display_ask_update_dmabuf_scanout(&display, &rectangle), shows(10, 0)) \
    X(cursor_pos, covretin_display_ask_cursor_pos(&display, &cursor), COVRETIN_OK) \
    X(cursor_pos_hide, covretin_display_ask_cursor_pos_hide(&display, &cursor), COVRETIN_OK) \
    X(cursor_update, covretin_display_ask_cursor_update(&display, &image), COVRETIN_OK)
#define DISPLAY_VALUES(X) \
    X(get_protocol_features, covretin_display_ask_get_protocol_features(&display), shows(1, 8), covretin_display_take_number(&display, &a_number)) \
    X(get_display_info, covretin_display_ask_get_display_info(&display), shows(3, COVRETIN_DISPLAY_INFO_SIZE), covretin_display_take_display_info(&display, some_bytes, sizeof some_bytes)) \
    X(get_edid, covretin_display_ask_get_edid(&display, 0), shows(11, COVRETIN_DISPLAY_EDID_SIZE), covretin_display_take_edid(&display, some_bytes, sizeof some_bytes))
#define DEFINE_DISPLAY(name, asking, answering) DEFINE(display_##name, asking, answering)
#define DEFINE_VALUE(name, asking, answering, taking) \
    DEFINE(display_##name, asking, answering) \
    static enum covretin_error taken_##name(void) \
    { \
        return taking; \
    }
#define DISPLAY_ROW(name, asking, answering) {#name, asked_display_##name, answered_display_##name, NULL},
#define VALUE_ROW(name, asking, answering, taking) {#name, asked_display_##name, answered_display_##name, taken_##name},

DISPLAY_CALLS(DEFINE_DISPLAY)
DISPLAY_VALUES(DEFINE_VALUE)
static const struct call display_calls[] = {DISPLAY_VALUES(VALUE_ROW) DISPLAY_CALLS(DISPLAY_ROW)};

TRANSPORT_BYTES(display, covretin_display)
TRANSPORT_CALL(display_take, covretin_display_take)

static void count_display(int turn)
{
    static const struct sides one = {
        "display", NULL, {display_missing, display_receive, display_to_send, display_unclaimed, NULL, display_take, false, true, NULL, NULL},
        {NULL, NULL, NULL, NULL, NULL, NULL, false, false, NULL, NULL}, &display, NULL, NULL};
    sides = &one;
    for (size_t i = 0; i < sizeof display_calls / sizeof *display_calls; i++)
        make(&display_calls[i], turn == 2);
}

int main(void)
{
    const struct call opening = {"opening", NULL, NULL, NULL};
    check(&opening, covretin_open(&front, 4));
    check(&opening, covretin_backend_open(&back));
    check(&opening, covretin_channel_open(&channel));
    check(&opening, covretin_channel_server_open(&server));
    check(&opening, covretin_display_open(&display));
    covretin_channel_set_reply_ack(&channel, true);
    covretin_channel_server_set_reply_ack(&server, true);
    covretin_channel_set_config_change(&channel, true);
    covretin_channel_set_shared_object(&channel, true);
    covretin_channel_set_shmem(&channel, true);
    for (int turn = 0; turn < 3; turn++) {
        count_both(turn);
        count_channel(turn);
        count_display(turn);
    }
    covretin_close(&front);
    covretin_backend_close(&back);
    covretin_channel_close(&channel);
    covretin_channel_server_close(&server);
    covretin_display_close(&display);
    return 0;
}
