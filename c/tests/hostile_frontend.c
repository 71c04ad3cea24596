/* Services whose frontend is not to be trusted: headers and sizes that are none, descriptors anywhere, and anything at random. And a
 * device that calls out of turn. A device is asked only what passed, no number is named that did not come, and none is left open. */
#ifndef _GNU_SOURCE
#define _GNU_SOURCE
#endif

#include "by_hand.h"
#include "testing.h"

#include <poll.h>
#include <string.h>
#include <sys/resource.h>
#include <unistd.h>

enum { CODES = 46 };

static covretin_backend *const backend = &service.backend;

/* -- Arguments and replies -- */

/* What the calls for arguments write, where they do. */
static struct {
    uint64_t number;
    uint32_t index, part, direction, phase;
    covretin_vring ring;
    covretin_region regions[COVRETIN_MAX_FDS], log;
    covretin_config config;
    covretin_inflight inflight;
    uint8_t bytes[COVRETIN_MAX_MESSAGE], name[16];
    size_t count;
    bool listening;
    int32_t fd, fds[COVRETIN_MAX_FDS];
} got;

enum { FORMS = 13, ALL_FDS = 12 };

/* Reads the arguments by a form. */
static enum covretin_error read_form(int form)
{
    switch (form) {
    case 0: return covretin_call_number(backend, &got.number);
    case 1: return covretin_call_ring(backend, &got.index, &got.part);
    case 2: return covretin_call_vring(backend, &got.index, &got.ring);
    case 3: return covretin_call_ring_fd(backend, &got.index, &got.fd);
    case 4: return covretin_call_regions(backend, got.regions, COVRETIN_MAX_FDS, &got.count, &got.listening);
    case 5: return covretin_call_config(backend, &got.config, got.bytes, sizeof got.bytes, &got.count);
    case 6: return covretin_call_fd(backend, &got.fd);
    case 7: return covretin_call_name(backend, got.name, sizeof got.name);
    case 8: return covretin_call_inflight(backend, &got.inflight, &got.fd);
    case 9: return covretin_call_transfer(backend, &got.direction, &got.phase, &got.fd);
    case 10: return covretin_call_log(backend, &got.log);
    case 11: return covretin_call_other(backend, &got.index, got.bytes, sizeof got.bytes, &got.count);
    default: return covretin_call_fds(backend, got.fds, COVRETIN_MAX_FDS, &got.count);
    }
}

enum { REPLIES = 9 };

static int given; /* a descriptor to be replied */

/* Replies in a form. */
static enum covretin_error reply_in(int form)
{
    static const uint64_t sizes[256], bases[COVRETIN_MAX_FDS];
    static const uint8_t bytes[60];
    const covretin_inflight inflight = {.mmap_size = 64, .num_queues = 1, .queue_size = 8};
    switch (form) {
    case 0: return covretin_reply_done(backend);
    case 1: return covretin_reply_number(backend, 3);
    case 2: return covretin_reply_ring(backend, 1, 2);
    case 3: return covretin_reply_bases(backend, bases, 2);
    case 4: return covretin_reply_config(backend, bytes, sizeof bytes);
    case 5: return covretin_reply_fd(backend, given);
    case 6: return covretin_reply_inflight(backend, &inflight, given);
    case 7: return covretin_reply_shmem(backend, sizes, 256, 0);
    default: return covretin_reply_refused(backend);
    }
}

/* Reads the arguments of the call in the form that they have. A descriptor of it is one that was sent, or none. How many forms
 * it has. */
static int read_arguments(void)
{
    int found = 0;
    for (int form = 0; form < FORMS; form++) {
        got.fd = -1;
        got.count = 0;
        got.log.fd = -1;
        if (read_form(form) != COVRETIN_OK)
            continue;
        found++;
        EXPECT(true, got.fd == -1 || holds(got.fd, "sent"));
        EXPECT(true, got.log.fd == -1 || holds(got.log.fd, "sent"));
        for (size_t i = 0; form == 4 && i < got.count; i++)
            EXPECT(true, got.regions[i].fd == -1 || holds(got.regions[i].fd, "sent"));
        for (size_t i = 0; form == ALL_FDS && i < got.count; i++)
            EXPECT(true, holds(got.fds[i], "sent"));
    }
    return found;
}

/* -- Calls out of turn -- */

/* Nothing can be read or replied where nothing is asked. */
static void expect_nothing_asked(void)
{
    for (int form = 0; form < FORMS; form++)
        EXPECT(COVRETIN_OTHER_CALL, read_form(form));
    for (int form = 0; form < REPLIES; form++)
        EXPECT(COVRETIN_NOTHING_ASKED, reply_in(form));
}

static void out_of_turn(void)
{
    const uint8_t body[8] = {2, 0, 0, 0, 0, 1};
    struct request reply;
    uint32_t index = 7, number = 8;
    int peer = served_pair();
    given = file_of("given");
    accept_features(peer, COVRETIN_PROTOCOL_REPLY_ACK);
    expect_nothing_asked();
    EXPECT(COVRETIN_SESSION_OPEN, covretin_backend_open(backend));
    request(peer, SET_VRING_NUM, NEED_REPLY, body, sizeof body, NULL, 0);
    expect_call(COVRETIN_CALL_SET_VRING_NUM);
    EXPECT(1, read_arguments());
    for (int form = 1; form < REPLIES - 1; form++)
        EXPECT(COVRETIN_OTHER_CALL, reply_in(form));
    EXPECT(COVRETIN_NOT_REPLIED, covretin_backend_next(backend, &call));
    EXPECT(0, covretin_backend_missing(backend));
    EXPECT(COVRETIN_OK, covretin_call_ring(backend, &index, &number));
    EXPECT(true, index == 2 && number == 256);
    EXPECT(COVRETIN_OK, covretin_reply_done(backend));
    expect_nothing_asked();
    EXPECT(COVRETIN_OK, covretin_send_reply(&service, LIMIT));
    EXPECT(true, hear(peer, &reply));
    EXPECT(true, reply.code == SET_VRING_NUM && reply.size == 8 && reply.body[0] == 0);
    expect_nothing_asked();
    covretin_hang_up(&service);
    close(given);
    close(peer);
}

/* -- Headers and sizes -- */

static void refuses_headers(void)
{
    static const uint32_t headers[][3] = {
        {GET_FEATURES, 5, 0},      /* a reply */
        {GET_FEATURES, 2, 0},      /* version 2 */
        {GET_FEATURES, 0, 0},      /* version 0 */
        {GET_FEATURES, 0x101, 0},  /* an unknown flag */
        {GET_FEATURES, 1, 4097},   /* longer than a message */
        {GET_FEATURES, 1, 0xffffffff},
    };
    for (size_t i = 0; i < sizeof headers / sizeof headers[0]; i++) {
        int peer = served_pair(), file = file_of("sent");
        size_t before = open_fds();
        say_header(peer, headers[i][0], headers[i][1], headers[i][2], &file, 1);
        call = 99;
        enum covretin_error error = covretin_next_call(&service, &call, LIMIT);
        EXPECT(COVRETIN_INVALID_MESSAGE, error);
        EXPECT(99, call);
        EXPECT(before, open_fds());
        EXPECT(true, covretin_service_ended(&service));
        EXPECT(COVRETIN_INVALID_MESSAGE, covretin_next_call(&service, &call, LIMIT));
        covretin_hang_up(&service);
        close(file);
        close(peer);
    }
}

/* Numbers that are no request's: each is skipped by its size, and its descriptor is closed. */
static void skips_numbers_of_no_request(void)
{
    static const uint32_t numbers[] = {0, 45, 0xffffffff};
    int peer = served_pair(), file = file_of("sent");
    size_t before = open_fds();
    for (size_t i = 0; i < sizeof numbers / sizeof *numbers; i++) {
        say_header(peer, numbers[i], 1, 0, &file, 1);
        call = 99;
        EXPECT(COVRETIN_INVALID_OPERATION, covretin_next_call(&service, &call, LIMIT));
        EXPECT(99, call);
        EXPECT(before, open_fds());
        EXPECT(false, covretin_service_ended(&service));
    }
    covretin_hang_up(&service);
    close(file);
    close(peer);
}

/* Serves what came: refused requests, and calls that the device refuses. How many calls there were. */
static int served(void)
{
    int calls = 0;
    short events;
    for (;;) {
        enum covretin_error error = covretin_next_call_nowait(&service, &call, &events);
        if (error == COVRETIN_NOT_YET || covretin_service_ended(&service))
            return calls;
        if (error)
            continue;
        calls++;
        EXPECT(true, read_arguments() <= 1);
        EXPECT(true, reply_in(REPLIES - 1) != COVRETIN_OTHER_CALL);
    }
}

/* Each request with each size: what is asked of the device has arguments, and what is refused none. */
static void refuses_sizes(void)
{
    static const uint8_t body[80] = {1, [4] = 60};
    int calls = 0, all = 0, file = file_of("sent");
    for (uint32_t code = 0; code < CODES; code++)
        for (size_t size = 0; size <= sizeof body; size++) {
            size_t before = open_fds();
            int peer = served_pair();
            accept_features(peer, COVRETIN_SERVED_PROTOCOL_FEATURES);
            request(peer, code, size % 2 ? REQUEST_FLAGS : NEED_REPLY, body, size, &file, size % 3 == 0);
            calls += served();
            all++;
            covretin_hang_up(&service);
            close(peer);
            EXPECT(before, open_fds());
        }
    EXPECT(true, calls > 50 && calls < all);
    close(file);
}

/* A region table of a size, and of as many descriptors. */
static void refuses_tables(void)
{
    static uint8_t body[8 + 34 * 32];
    int files[32];
    for (size_t i = 0; i < 34; i++)
        body[8 + i * 32 + 9] = 16;
    for (size_t i = 0; i < 32; i++)
        files[i] = file_of("sent");
    for (uint8_t count = 0; count <= 34; count++)
        for (size_t fd_count = 0; fd_count <= 32; fd_count += 4) {
            size_t before = open_fds();
            int peer = served_pair();
            accept_features(peer, COVRETIN_PROTOCOL_REPLY_ACK);
            body[0] = count;
            request(peer, SET_MEM_TABLE, NEED_REPLY, body, 8 + (size_t)count * 32, files, fd_count);
            EXPECT(count != 0 && count == fd_count, served());
            covretin_hang_up(&service);
            close(peer);
            EXPECT(before, open_fds());
        }
    for (size_t i = 0; i < 32; i++)
        close(files[i]);
}

/* More than the process may open. */
static void more_than_may_be_open(void)
{
    const uint8_t body[8] = {0};
    struct rlimit was, few;
    int peer = served_pair(), files[32];
    accept_features(peer, 0);
    for (size_t i = 0; i < 32; i++)
        files[i] = file_of("sent");
    if (getrlimit(RLIMIT_NOFILE, &was))
        give_up("getrlimit");
    few = was;
    few.rlim_cur = open_fds() + 4;
    request(peer, SET_VRING_KICK, REQUEST_FLAGS, body, sizeof body, files, 32);
    if (setrlimit(RLIMIT_NOFILE, &few))
        give_up("setrlimit");
    EXPECT(COVRETIN_FDS_LOST, covretin_next_call(&service, &call, LIMIT));
    if (setrlimit(RLIMIT_NOFILE, &was))
        give_up("setrlimit");
    covretin_hang_up(&service);
    for (size_t i = 0; i < 32; i++)
        close(files[i]);
    close(peer);
}

/* -- Anything -- */

static int far_ends[6]; /* of the sockets whose close would wait */
static size_t far_count;

static uint32_t random_state = 2026;

static uint32_t any(uint32_t below)
{
    random_state = random_state * 1664525 + 1013904223;
    return (random_state >> 8) % below;
}

/* The sizes that the requests' bodies have, by their numbers, and how many descriptors they come with. */
static const uint8_t sizes[CODES] = {[2] = 8,   [5] = 40,  [6] = 16,  [8] = 8,   [9] = 40,  [10] = 8,  [11] = 8, [12] = 8,
                                     [13] = 8,  [14] = 8,  [16] = 8,  [18] = 8,  [20] = 8,  [24] = 72, [25] = 72, [31] = 24,
                                     [32] = 24, [37] = 40, [38] = 40, [41] = 16, [42] = 8};
static const uint8_t fd_counts[CODES] = {[5] = 1, [6] = 1, [12] = 1, [13] = 1, [14] = 1, [21] = 1, [32] = 1, [33] = 1, [37] = 1, [42] = 1};

/* Sends a header, of whose descriptors the second may be of a socket whose close would wait, and is nobody's else then. */
static void say_slowly(int peer, uint32_t code, uint32_t flags, uint32_t size, int *fds, size_t fd_count)
{
    int file = fds[1];
    bool is_slow = fd_count > 1 && any(4) == 0;
    if (is_slow)
        fds[1] = slow_to_close(&far_ends[far_count++]);
    say_header(peer, code, flags, size, fds, fd_count);
    if (is_slow)
        close(fds[1]);
    fds[1] = file;
}

/* Sends a request, or something like it. */
static void say_anything(int peer, int *fds)
{
    static const uint32_t others[] = {0, 7, 8, 12, 16, 20, 24, 40, 72, 4096, 4097, 0xffffffff};
    uint32_t code = 1 + any(CODES - 1), size = any(16) != 0 ? sizes[code] : others[any(12)];
    uint8_t bytes[256] = {1, [4] = code == 24 || code == 25 ? 60 : (uint8_t)any(3)};
    size_t count = any(32) != 0 && size < sizeof bytes ? size : any(sizeof bytes);
    for (size_t i = 8; i < sizeof bytes; i++)
        bytes[i] = any(8) == 0 ? (uint8_t)any(256) : 0;
    bytes[9 + 8] = 16;
    say_slowly(peer, code, any(32) != 0 ? REQUEST_FLAGS | any(2) * 8 : any(16), size, fds, any(8) == 0 ? any(33) : fd_counts[code]);
    if (count != 0)
        say(peer, bytes, count, fds, any(32) == 0 ? any(33) : 0);
}

/* Answers anything until one of the forms is the call's. */
static void answer_anything(void)
{
    enum covretin_error error;
    EXPECT(true, read_arguments() <= 1);
    do
        error = reply_in((int)any(REPLIES));
    while (error == COVRETIN_OTHER_CALL || error == COVRETIN_INVALID_PARAM);
}

/* How many descriptors the session holds that nobody will claim. */
static size_t let_go(void)
{
    int32_t held[COVRETIN_MAX_FDS];
    size_t handed = 99;
    EXPECT(COVRETIN_OK, covretin_backend_unclaimed(backend, held, COVRETIN_MAX_FDS, &handed));
    return handed;
}

/* Frontends that send anything. Nothing waits, of some the system tells all that it can, and the session holds no more and more. */
static void anything(void)
{
    int fds[33], calls = 0, refused = 0;
    for (size_t i = 0; i < 33; i++)
        fds[i] = file_of("sent");
    given = file_of("given");
    for (int round = 0; round < 3000; round++) {
        size_t before = open_fds();
        short events;
        int peer = served_pair();
        accept_features(peer, any(4) != 0 ? COVRETIN_SERVED_PROTOCOL_FEATURES : any(1 << 20));
        if (any(4) == 0)
            tell_all(covretin_service_fd(&service));
        has_waited();
        for (int i = 0; i < 6 && !covretin_service_ended(&service); i++) {
            enum covretin_error error;
            say_anything(peer, fds);
            while ((error = covretin_next_call_nowait(&service, &call, &events)) != COVRETIN_NOT_YET &&
                   !covretin_service_ended(&service)) {
                EXPECT(0, let_go());
                if (error)
                    refused++;
                else {
                    calls++;
                    answer_anything();
                }
            }
        }
        covretin_hang_up(&service);
        EXPECT(false, has_waited());
        while (far_count != 0)
            close(far_ends[--far_count]);
        close(peer);
        EXPECT(before, open_fds());
    }
    EXPECT(true, calls > 1000 && refused > 500);
    close(given);
    for (size_t i = 0; i < 33; i++)
        close(fds[i]);
}

int main(void)
{
    RUN(out_of_turn);
    RUN(refuses_headers);
    RUN(skips_numbers_of_no_request);
    RUN(refuses_sizes);
    RUN(refuses_tables);
    RUN(more_than_may_be_open);
    RUN(anything);
    return status();
}
