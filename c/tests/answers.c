/* Whoever waits is answered: each refusal of a service, by the session and by its device, under both profiles. The frontend is played by
 * hand, and sees a reply, an acknowledgement, nothing, or that it is hung up on. */
#ifndef _GNU_SOURCE
#define _GNU_SOURCE
#endif

#include "by_hand.h"
#include "testing.h"

#include <poll.h>
#include <stdio.h>
#include <string.h>
#include <sys/socket.h>
#include <unistd.h>

/* How far postcopy is when the request comes. */
enum postcopy { NO_POSTCOPY, ADVISED, LISTENING };

/* What a refusal becomes under Standard. */
enum becomes {
    ACKNOWLEDGED, /* with 1 where it asks for that, else nothing */
    REPLIED,      /* its own reply refuses it */
    ENDED,        /* the frontend is hung up on */
    HEARD,        /* acknowledged where it asks for that, else the frontend is hung up on */
    ELSEWHERE     /* there is no such refusal, or a row by hand */
};

/* A request that is refused. */
struct row {
    const char *name;
    uint32_t code;
    enum becomes becomes;
    enum covretin_error error; /* BACKEND_INTERNAL_ERROR: by the device */
    uint64_t lacks;            /* protocol features that are not accepted */
    enum postcopy postcopy;
    uint32_t flags;
    size_t fds, size;
    uint8_t body[40];
    size_t form_size; /* of its own reply */
    uint8_t form[24];
    const char *takes; /* the form of what it takes, where it is refused for its size; nothing else looks */
};

#define BY_DEVICE .error = COVRETIN_BACKEND_INTERNAL_ERROR
#define MALFORMED .error = COVRETIN_INVALID_MESSAGE, .size = 4
#define LACKS(feature) .error = COVRETIN_INACTIVE_OPERATION, .lacks = COVRETIN_PROTOCOL_##feature
#define UNSERVED .error = COVRETIN_INVALID_OPERATION
#define REGION .size = 40, .body = {[17] = 16, [25] = 112}
#define INFLIGHT .size = 24, .body = {[16] = 1, [18] = 8}
#define NO_INFLIGHT .form_size = 24, .form = {[16] = 1, [18] = 8}
#define CONFIG .size = 16, .body = {4, [4] = 4}
#define NO_CONFIG .form_size = 12, .form = {4}
/* A body of each form of what a call takes; what is acknowledged has no other forms. */
#define BODY_NOTHING .size = 0
#define BODY_NUMBER .size = 8, .body = {[3] = 64}   /* (the protocol features stay, */
#define BODY_PROTOCOL .size = 8, .body = {[0] = 8} /* and so do acknowledgements) */
#define BODY_SHORT .size = 8
#define BODY_RING_NUMBER .size = 8
#define BODY_RING_FLAG .size = 8
#define BODY_RING_FD .size = 8, .body = {[1] = 1}
#define BODY_VRING .size = 40
#define BODY_FD .size = 0
#define BODY_BYTES CONFIG
#define BODY_AREA_FD INFLIGHT
#define BODY_REGION REGION
#define BODY_REGIONS .size = 40, .body = {1, [17] = 16, [25] = 112}
#define NUMBER(number) .form_size = 8, .form = {(number) & 255, (number) >> 8}

/* Of a request that is acknowledged and nothing else: refused for its size, without its feature, and by the device. Those of postcopy, which want
 * others before them, are by hand. */
#define ROWS_OWN(...)
#define ROWS_ACK(name, wants, takes_form, fd_count, ...) \
    {#name " of another size", name, BECOMES(wants), MALFORMED, .fds = fd_count, .takes = takes_form}, \
    {#name " without its feature", name, (wants) != 0 ? BECOMES(wants) : ELSEWHERE, .error = COVRETIN_INACTIVE_OPERATION, .lacks = wants, \
     .fds = fd_count, __VA_ARGS__}, \
    {#name " refused", name, BECOMES(wants), BY_DEVICE, .fds = fd_count, __VA_ARGS__},
#define BECOMES(wants) ((wants) == COVRETIN_PROTOCOL_PAGEFAULT ? ELSEWHERE : ACKNOWLEDGED)
#define REQUEST(name, call, feature, takes, sees, replies, reply, fds) \
    ROWS_##reply(name, COVRETIN_PROTOCOL_##feature, #takes, fds, BODY_##takes)

static const struct row rows[] = {
#include "requests.def"
    {"SET_VRING_KICK without its descriptor", SET_VRING_KICK, ACKNOWLEDGED, .error = COVRETIN_INVALID_MESSAGE, .size = 8},
    {"SET_VRING_CALL with one too many", SET_VRING_CALL, ACKNOWLEDGED, .error = COVRETIN_INVALID_MESSAGE, .fds = 1, .size = 8,
     .body = {0, 1}},
    {"SET_VRING_ERR with two", SET_VRING_ERR, ACKNOWLEDGED, .error = COVRETIN_INVALID_MESSAGE, .fds = 2, .size = 8},
    {"GPU_SET_SOCKET without its descriptor", GPU_SET_SOCKET, ACKNOWLEDGED, .error = COVRETIN_INVALID_MESSAGE},
    {"SET_LOG_BASE without its feature", SET_LOG_BASE, ACKNOWLEDGED, LACKS(LOG_SHMFD), .fds = 1, .size = 16, .body = {0, 16}},
    {"ADD_MEM_REG without its descriptor", ADD_MEM_REG, ACKNOWLEDGED, .error = COVRETIN_INVALID_PARAM, REGION},
    {"SET_INFLIGHT_FD without its descriptor", SET_INFLIGHT_FD, ACKNOWLEDGED, .error = COVRETIN_INCORRECT_FDS, INFLIGHT},
    {"SET_VRING_ENABLE with 2", SET_VRING_ENABLE, ACKNOWLEDGED, .error = COVRETIN_INVALID_PARAM, .size = 8, .body = {[4] = 2}},
    {"NET_SET_MTU above 16 bits", NET_SET_MTU, ACKNOWLEDGED, .error = COVRETIN_INVALID_PARAM, .size = 8, .body = {[2] = 1}},
    {"SET_LOG_FD, unserved", SET_LOG_FD, ACKNOWLEDGED, UNSERVED, .fds = 1},
    {"SEND_RARP, unserved", SEND_RARP, ACKNOWLEDGED, UNSERVED, .size = 8},
    {"IOTLB_MSG, unserved", IOTLB_MSG, ACKNOWLEDGED, UNSERVED, .size = 32},
    {"SET_VRING_ENDIAN, unserved", SET_VRING_ENDIAN, ACKNOWLEDGED, UNSERVED, .size = 8},
    {"CLOSE_CRYPTO_SESSION, unserved", CLOSE_CRYPTO_SESSION, ACKNOWLEDGED, UNSERVED, .size = 8},
    {"VRING_KICK, unserved", VRING_KICK, ACKNOWLEDGED, UNSERVED, .size = 8},
    {"SET_STATUS, unserved", SET_STATUS, ACKNOWLEDGED, UNSERVED, .size = 8},
    {"regions that are not mapped", SET_MEM_TABLE, ACKNOWLEDGED, .error = COVRETIN_FRONTEND_INTERNAL_ERROR, .postcopy = LISTENING,
     .size = 8, .body = {1}},
    {"a region that is not mapped", ADD_MEM_REG, ACKNOWLEDGED, .error = COVRETIN_FRONTEND_INTERNAL_ERROR, .postcopy = LISTENING,
     .size = 8, .body = {1}},

    {"GET_CONFIG without its feature", GET_CONFIG, REPLIED, LACKS(CONFIG), CONFIG, NO_CONFIG},
    {"GET_CONFIG without its record", GET_CONFIG, REPLIED, MALFORMED, .form_size = 12},
    {"GET_CONFIG refused", GET_CONFIG, REPLIED, BY_DEVICE, CONFIG, NO_CONFIG},
    {"GET_INFLIGHT_FD without its feature", GET_INFLIGHT_FD, REPLIED, LACKS(INFLIGHT_SHMFD), INFLIGHT, NO_INFLIGHT},
    {"GET_INFLIGHT_FD of another size", GET_INFLIGHT_FD, REPLIED, MALFORMED, .form_size = 24},
    {"GET_INFLIGHT_FD refused", GET_INFLIGHT_FD, REPLIED, BY_DEVICE, INFLIGHT, NO_INFLIGHT},
    {"GET_SHARED_OBJECT without its feature", GET_SHARED_OBJECT, REPLIED, LACKS(SHARED_OBJECT), .size = 16, .body = {1}},
    {"GET_SHARED_OBJECT of no name", GET_SHARED_OBJECT, REPLIED, .error = COVRETIN_INVALID_MESSAGE, .size = 16},
    {"GET_SHARED_OBJECT refused", GET_SHARED_OBJECT, REPLIED, BY_DEVICE, .size = 16, .body = {1}},
    {"POSTCOPY_ADVISE without its feature", POSTCOPY_ADVISE, REPLIED, LACKS(PAGEFAULT)},
    {"POSTCOPY_ADVISE once more", POSTCOPY_ADVISE, REPLIED, .error = COVRETIN_INVALID_OPERATION, .postcopy = ADVISED},
    {"POSTCOPY_ADVISE refused", POSTCOPY_ADVISE, REPLIED, BY_DEVICE},
    {"SET_DEVICE_STATE_FD without its descriptor", SET_DEVICE_STATE_FD, REPLIED, .error = COVRETIN_INCORRECT_FDS, .size = 8, NUMBER(0x101)},
    {"SET_DEVICE_STATE_FD of another size", SET_DEVICE_STATE_FD, REPLIED, MALFORMED, .fds = 1, NUMBER(0x101)},
    {"SET_DEVICE_STATE_FD refused", SET_DEVICE_STATE_FD, REPLIED, BY_DEVICE, .fds = 1, .size = 8, NUMBER(0x101)},
    {"CHECK_DEVICE_STATE refused", CHECK_DEVICE_STATE, REPLIED, BY_DEVICE, NUMBER(1)},
    {"POSTCOPY_END without its feature", POSTCOPY_END, REPLIED, LACKS(PAGEFAULT), NUMBER(1)},
    {"POSTCOPY_END while nobody listens", POSTCOPY_END, REPLIED, .error = COVRETIN_INVALID_OPERATION, .postcopy = ADVISED, NUMBER(1)},
    {"POSTCOPY_END refused", POSTCOPY_END, REPLIED, BY_DEVICE, .postcopy = LISTENING, NUMBER(1)},

    {"GET_FEATURES of another size", GET_FEATURES, ENDED, MALFORMED},
    {"GET_PROTOCOL_FEATURES of another size", GET_PROTOCOL_FEATURES, ENDED, MALFORMED},
    {"GET_QUEUE_NUM of another size", GET_QUEUE_NUM, ENDED, MALFORMED},
    {"GET_MAX_MEM_SLOTS of another size", GET_MAX_MEM_SLOTS, ENDED, MALFORMED},
    {"GET_VRING_BASE of another size", GET_VRING_BASE, ENDED, MALFORMED},
    {"SET_LOG_BASE of another size", SET_LOG_BASE, ENDED, MALFORMED, .fds = 1},
    {"SET_LOG_BASE without its descriptor", SET_LOG_BASE, ENDED, .error = COVRETIN_INCORRECT_FDS, .size = 16, .body = {0, 16}},
    {"GET_QUEUE_NUM without its feature", GET_QUEUE_NUM, ENDED, LACKS(MQ)},
    {"GET_MAX_MEM_SLOTS without its feature", GET_MAX_MEM_SLOTS, ENDED, LACKS(CONFIGURE_MEM_SLOTS)},
    {"GET_SHMEM_CONFIG without its feature", GET_SHMEM_CONFIG, ENDED, LACKS(SHMEM)},
    {"GET_STATUS, unserved", GET_STATUS, ENDED, UNSERVED},
    {"CREATE_CRYPTO_SESSION, unserved", CREATE_CRYPTO_SESSION, ENDED, UNSERVED, .size = 8},
    {"GET_FEATURES refused", GET_FEATURES, ENDED, BY_DEVICE},
    {"GET_PROTOCOL_FEATURES refused", GET_PROTOCOL_FEATURES, ENDED, BY_DEVICE},
    {"GET_QUEUE_NUM refused", GET_QUEUE_NUM, ENDED, BY_DEVICE},
    {"GET_MAX_MEM_SLOTS refused", GET_MAX_MEM_SLOTS, ENDED, BY_DEVICE},
    {"GET_VRING_BASE refused", GET_VRING_BASE, ENDED, BY_DEVICE, .size = 8},
    {"GET_SHMEM_CONFIG refused", GET_SHMEM_CONFIG, ENDED, BY_DEVICE},
    {"SET_LOG_BASE refused", SET_LOG_BASE, ENDED, BY_DEVICE, .fds = 1, .size = 16, .body = {0, 16}},
    {"ADD_MEM_REG without its descriptor, listening", ADD_MEM_REG, ENDED, .error = COVRETIN_INVALID_PARAM, .postcopy = LISTENING, REGION},
    {"ADD_MEM_REG refused, listening", ADD_MEM_REG, ENDED, BY_DEVICE, .postcopy = LISTENING, .fds = 1, REGION},
    {"SET_MEM_TABLE of another size, listening", SET_MEM_TABLE, ENDED, MALFORMED, .postcopy = LISTENING, .fds = 1},
    {"GET_CONFIG with the flag REPLY", GET_CONFIG, ENDED, .error = COVRETIN_INVALID_MESSAGE, .flags = 4, CONFIG},
    {"SET_OWNER with the flag REPLY", SET_OWNER, ENDED, .error = COVRETIN_INVALID_MESSAGE, .flags = 4},

    {"POSTCOPY_LISTEN without its feature", POSTCOPY_LISTEN, HEARD, LACKS(PAGEFAULT)},
    {"POSTCOPY_LISTEN before it is advised", POSTCOPY_LISTEN, HEARD, .error = COVRETIN_INVALID_OPERATION},
    {"POSTCOPY_LISTEN refused", POSTCOPY_LISTEN, HEARD, BY_DEVICE, .postcopy = ADVISED},
};

/* -- The session before -- */

/* Postcopy is brought so far. */
static void advance(int peer, enum postcopy postcopy)
{
    struct request reply;
    int file = file_of("userfaultfd");
    if (postcopy >= ADVISED) {
        request(peer, POSTCOPY_ADVISE, REQUEST_FLAGS, NULL, 0, NULL, 0);
        expect_call(COVRETIN_CALL_POSTCOPY_ADVISE);
        EXPECT(COVRETIN_OK, covretin_reply_fd(&service.backend, file));
        EXPECT(COVRETIN_OK, covretin_send_reply(&service, LIMIT));
        EXPECT(true, hear(peer, &reply));
    }
    if (postcopy == LISTENING) {
        request(peer, POSTCOPY_LISTEN, NEED_REPLY, NULL, 0, NULL, 0);
        expect_call(COVRETIN_CALL_POSTCOPY_LISTEN);
        EXPECT(COVRETIN_OK, covretin_reply_done(&service.backend));
        EXPECT(COVRETIN_OK, covretin_send_reply(&service, LIMIT));
        EXPECT(true, hear(peer, &reply));
    }
    close(file);
}

/* A frontend whose request is refused, by a service of this profile. */
static int refused(const struct row *row, bool needs_reply, enum covretin_profile profile)
{
    int fds[2] = {file_of("sent"), file_of("sent")}, peer = served_pair();
    EXPECT(COVRETIN_OK, covretin_backend_set_profile(&service.backend, profile));
    accept_features(peer, COVRETIN_SERVED_PROTOCOL_FEATURES & ~row->lacks);
    advance(peer, row->postcopy);
    request(peer, row->code, (needs_reply ? NEED_REPLY : REQUEST_FLAGS) | row->flags, row->body, row->size, fds, row->fds);
    close(fds[0]);
    close(fds[1]);
    return peer;
}

/* The device refuses the call. Whether the session has ended by it is known at once. */
static void device_refuses(const struct row *row, bool has_ended)
{
    bool is_told = row->code == GET_CONFIG || row->code == GET_SHARED_OBJECT || row->code == POSTCOPY_ADVISE ||
                   row->code == SET_DEVICE_STATE_FD || row->code == CHECK_DEVICE_STATE;
    expect_call(row->code);
    EXPECT(0, covretin_backend_ended(&service.backend));
    EXPECT(is_told ? COVRETIN_OK : COVRETIN_BACKEND_INTERNAL_ERROR, covretin_reply_refused(&service.backend));
    EXPECT(has_ended, covretin_backend_ended(&service.backend));
}

/* -- What comes of it -- */

/* Nothing comes, and the socket stays open. */
static void expect_silence(int peer)
{
    uint8_t byte;
    EXPECT(-1, recv(peer, &byte, 1, MSG_DONTWAIT));
}

/* The frontend is hung up on, before the service is. */
static void expect_hung_up_on(int peer)
{
    uint8_t byte;
    EXPECT(0, recv(peer, &byte, 1, MSG_DONTWAIT));
    EXPECT(1, covretin_backend_ended(&service.backend));
    EXPECT(true, covretin_service_ended(&service));
    EXPECT(true, covretin_service_fd(&service) >= 0);
    for (int i = 0; i < 2; i++) {
        short events = 99;
        EXPECT(COVRETIN_SOCKET_BROKEN, covretin_next_call(&service, &call, LIMIT));
        EXPECT(COVRETIN_SOCKET_BROKEN, covretin_next_call_nowait(&service, &call, &events));
        EXPECT(0, events);
        EXPECT(COVRETIN_SOCKET_BROKEN, covretin_send_reply(&service, LIMIT));
    }
}

static void expect_reply(int peer, uint32_t code, const uint8_t *body, size_t size)
{
    struct request reply;
    EXPECT(true, hear(peer, &reply));
    EXPECT(true, reply.code == code && reply.flags == REPLY_FLAGS && reply.fd_count == 0);
    EXPECT(size, reply.size);
    EXPECT(0, memcmp(body, reply.body, size));
    expect_silence(peer);
}

/* The next request is served, unless a malformed one came. */
static void expect_goes_on(int peer, bool is_malformed)
{
    static const uint8_t done[8];
    EXPECT(0, covretin_backend_ended(&service.backend));
    EXPECT(is_malformed, covretin_service_ended(&service));
    if (is_malformed)
        return;
    request(peer, SET_OWNER, NEED_REPLY, NULL, 0, NULL, 0);
    expect_call(COVRETIN_CALL_SET_OWNER);
    EXPECT(COVRETIN_OK, covretin_reply_done(&service.backend));
    EXPECT(COVRETIN_OK, covretin_send_reply(&service, LIMIT));
    expect_reply(peer, SET_OWNER, done, sizeof done);
}

/* What is awaited of a request in this profile, and then, whether it goes on. */
static void plays(const struct row *row, bool needs_reply, enum covretin_profile profile)
{
    static const uint8_t refusal[8] = {1};
    bool is_ended = row->becomes == ENDED || (row->becomes == HEARD && !needs_reply);
    bool is_acknowledged = (row->becomes == ACKNOWLEDGED || row->becomes == HEARD) && needs_reply;
    bool is_by_device = row->error == COVRETIN_BACKEND_INTERNAL_ERROR;
    int peer = refused(row, needs_reply, profile);
    if (is_by_device) {
        device_refuses(row, is_ended);
        EXPECT(is_ended ? COVRETIN_SOCKET_BROKEN : COVRETIN_OK, covretin_send_reply(&service, LIMIT));
    } else
        EXPECT(row->error, covretin_next_call(&service, &call, LIMIT));
    if (is_ended)
        expect_hung_up_on(peer);
    else {
        if (is_acknowledged)
            expect_reply(peer, row->code, refusal, sizeof refusal);
        else if (row->becomes == REPLIED)
            expect_reply(peer, row->code, row->form, row->form_size);
        else
            expect_silence(peer);
        expect_goes_on(peer, row->error == COVRETIN_INVALID_MESSAGE);
    }
    covretin_hang_up(&service);
    EXPECT(0, covretin_backend_ended(&service.backend));
    close(peer);
}

/* Whether nothing is refused so: of a request that takes a descriptor alone no size is wrong. */
static bool is_elsewhere(const struct row *row)
{
    return row->becomes == ELSEWHERE || (row->takes != NULL && strcmp(row->takes, "FD") == 0);
}

/* Plays the rows that become this, by a name for each that is wrong. */
static void play_rows(enum becomes becomes)
{
    for (size_t i = 0; i < sizeof rows / sizeof *rows; i++)
        for (int needs_reply = 0; needs_reply < 2 && rows[i].becomes == becomes && !is_elsewhere(&rows[i]); needs_reply++) {
            size_t before = open_fds(), wrong = expected_wrong();
            plays(&rows[i], needs_reply, COVRETIN_PROFILE_STANDARD);
            EXPECT(before, open_fds());
            if (expected_wrong() != wrong)
                printf("%s, %s\n", rows[i].name, needs_reply ? "with NEED_REPLY" : "without");
        }
}

static void acknowledges(void)
{
    play_rows(ACKNOWLEDGED);
}

static void refuses_by_the_reply_itself(void)
{
    play_rows(REPLIED);
}

static void hangs_up_where_no_reply_refuses(void)
{
    play_rows(ENDED);
}

static void hangs_up_where_nobody_would_hear(void)
{
    play_rows(HEARD);
}

/* Of no row a session of the other profile ends. */
static void vhost_ends_no_session(void)
{
    for (size_t i = 0; i < sizeof rows / sizeof *rows; i++)
        for (int needs_reply = 0; needs_reply < 2 && !is_elsewhere(&rows[i]); needs_reply++) {
            size_t before = open_fds();
            int peer = refused(&rows[i], needs_reply, COVRETIN_PROFILE_VHOST);
            uint8_t byte;
            if (rows[i].error == COVRETIN_BACKEND_INTERNAL_ERROR) {
                device_refuses(&rows[i], false);
                EXPECT(COVRETIN_OK, covretin_send_reply(&service, LIMIT));
            } else
                EXPECT(true, covretin_next_call(&service, &call, LIMIT) != COVRETIN_OK);
            EXPECT(0, covretin_backend_ended(&service.backend));
            EXPECT(true, recv(peer, &byte, 1, MSG_DONTWAIT) != 0);
            covretin_hang_up(&service);
            close(peer);
            EXPECT(before, open_fds());
        }
}

/* POSTCOPY_END has a reply also where it succeeded and no acknowledgement is wanted; under the other profile it has none. */
static void ends_postcopy(void)
{
    static const uint8_t done[8];
    for (int profile = COVRETIN_PROFILE_STANDARD; profile <= COVRETIN_PROFILE_VHOST; profile++) {
        int peer = served_pair();
        EXPECT(COVRETIN_OK, covretin_backend_set_profile(&service.backend, (enum covretin_profile)profile));
        accept_features(peer, COVRETIN_SERVED_PROTOCOL_FEATURES);
        advance(peer, LISTENING);
        request(peer, POSTCOPY_END, REQUEST_FLAGS, NULL, 0, NULL, 0);
        expect_call(COVRETIN_CALL_POSTCOPY_END);
        EXPECT(COVRETIN_OK, covretin_reply_done(&service.backend));
        EXPECT(COVRETIN_OK, covretin_send_reply(&service, LIMIT));
        if (profile == COVRETIN_PROFILE_STANDARD)
            expect_reply(peer, POSTCOPY_END, done, sizeof done);
        else
            expect_silence(peer);
        expect_goes_on(peer, false);
        covretin_hang_up(&service);
        close(peer);
    }
}

/* What was to be sent before is sent, also where the frontend does not read it at once. */
static void sends_before_it_hangs_up(void)
{
    enum { ROUNDS = 4096 };
    static const uint8_t config[12] = {0, 0, 0, 0, 244, 15}; /* of 4084 bytes */
    static uint8_t bytes[COVRETIN_MAX_CONFIG];
    struct request reply;
    int peer = served_pair(), rounds = 0;
    enum covretin_error error = COVRETIN_OK;
    short events = 0;
    accept_features(peer, COVRETIN_PROTOCOL_CONFIG);
    while (rounds < ROUNDS && !error) {
        say_header(peer, GET_CONFIG, REQUEST_FLAGS, sizeof config + sizeof bytes, NULL, 0);
        say(peer, config, sizeof config, NULL, 0);
        say(peer, bytes, sizeof bytes, NULL, 0);
        expect_call(COVRETIN_CALL_GET_CONFIG);
        EXPECT(COVRETIN_OK, covretin_reply_config(&service.backend, bytes, sizeof bytes));
        error = covretin_send_reply_nowait(&service, &events);
        rounds++;
    }
    EXPECT(COVRETIN_NOT_YET, error);
    EXPECT(POLLOUT, events);
    request(peer, GET_QUEUE_NUM, REQUEST_FLAGS, NULL, 0, NULL, 0);
    EXPECT(COVRETIN_NOT_YET, covretin_next_call_nowait(&service, &call, &events));
    EXPECT(false, covretin_service_ended(&service));
    for (int heard = 0; heard < rounds; heard++) {
        EXPECT(true, hear(peer, &reply));
        EXPECT(sizeof config + sizeof bytes, reply.size);
        if (error == COVRETIN_NOT_YET)
            error = covretin_next_call_nowait(&service, &call, &events);
    }
    EXPECT(COVRETIN_INACTIVE_OPERATION, error);
    EXPECT(COVRETIN_PROTOCOL_MQ, covretin_backend_inactive(&service.backend));
    EXPECT(GET_QUEUE_NUM, covretin_service_request(&service));
    expect_hung_up_on(peer);
    covretin_hang_up(&service);
    close(peer);
}

/* What came behind the request that ended it is not read, and its descriptors are gone with the socket. */
static void reads_nothing_more(void)
{
    int peer = served_pair(), file = file_of("sent");
    accept_features(peer, COVRETIN_PROTOCOL_REPLY_ACK);
    request(peer, GET_QUEUE_NUM, REQUEST_FLAGS, NULL, 0, NULL, 0);
    request(peer, SET_OWNER, NEED_REPLY, NULL, 0, &file, 1);
    size_t before = open_fds();
    EXPECT(COVRETIN_INACTIVE_OPERATION, covretin_next_call(&service, &call, LIMIT));
    EXPECT(before, open_fds());
    EXPECT(COVRETIN_SOCKET_BROKEN, covretin_next_call(&service, &call, LIMIT));
    EXPECT(COVRETIN_SOCKET_BROKEN, covretin_next_call(&service, &call, 0));
    EXPECT(before, open_fds());
    covretin_hang_up(&service);
    close(peer);
    close(file);
}

/* No session has not ended, nor has one that was opened anew. */
static void ended_of_none(void)
{
    const struct row *row = &rows[0];
    while (row->becomes != ENDED)
        row++;
    EXPECT(0, covretin_backend_ended(&service.backend));
    plays(row, false, COVRETIN_PROFILE_STANDARD);
    int peer = served_pair();
    EXPECT(0, covretin_backend_ended(&service.backend));
    expect_silence(peer);
    covretin_hang_up(&service);
    close(peer);
}

int main(void)
{
    RUN(acknowledges);
    RUN(refuses_by_the_reply_itself);
    RUN(hangs_up_where_no_reply_refuses);
    RUN(hangs_up_where_nobody_would_hear);
    RUN(vhost_ends_no_session);
    RUN(ends_postcopy);
    RUN(sends_before_it_hangs_up);
    RUN(reads_nothing_more);
    RUN(ended_of_none);
    return status();
}
