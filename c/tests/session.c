/* A session alone, with no socket: calls out of turn and what they leave, requests byte for byte, and the words of the library. */
#include "alone.h"
#include "testing.h"

#include <string.h>

#define SAMPLE_FD 7
#define SAMPLE_FEATURES 0
#include "samples.h"

/* -- Calls out of turn -- */

static void without_session(void)
{
    uint64_t value = 5;
    EXPECT(COVRETIN_NO_SESSION, covretin_ask_get_features(&session));
    EXPECT(COVRETIN_NO_SESSION, covretin_to_send(&session, bytes, 1, fds, COVRETIN_MAX_FDS, &count, &fd_count));
    EXPECT(0, covretin_missing(&session));
    EXPECT(0, covretin_inactive(&session));
    EXPECT(COVRETIN_NO_SESSION, covretin_receive(&session, bytes, 0, fds, 0));
    EXPECT(COVRETIN_NO_SESSION, covretin_take(&session));
    EXPECT(COVRETIN_NO_SESSION, covretin_answer_number(&session, &value));
    EXPECT(5, value);
    covretin_close(&session);
    EXPECT(COVRETIN_OK, covretin_open(&session, 2));
    EXPECT(COVRETIN_SESSION_OPEN, covretin_open(&session, 2));
    covretin_close(&session);
    EXPECT(true, session.opaque == NULL);
    covretin_close(&session);
}

/* get_features, its reply in four pieces, and each call at the wrong time. */
static void out_of_turn(void)
{
    uint64_t value = 5;
    covretin_inflight inflight;
    EXPECT(COVRETIN_OK, covretin_open(&session, 2));
    EXPECT(COVRETIN_NOTHING_ASKED, covretin_take(&session));
    EXPECT(COVRETIN_TOO_MANY_BYTES, covretin_receive(&session, (const uint8_t *)"x", 1, fds, 0));
    EXPECT(COVRETIN_OTHER_ANSWER, covretin_answer_number(&session, &value));
    EXPECT(0, covretin_ask_get_features(&session));
    EXPECT(COVRETIN_NOT_TAKEN, covretin_ask_set_owner(&session));
    EXPECT(COVRETIN_NOT_TAKEN, covretin_set_hdr_flags(&session, COVRETIN_NEED_REPLY));
    EXPECT(COVRETIN_NO_ROOM, covretin_to_send(&session, bytes, 0, fds, COVRETIN_MAX_FDS, &count, &fd_count));
    EXPECT(COVRETIN_NO_ROOM, covretin_to_send(&session, bytes, 1, fds, COVRETIN_MAX_FDS - 1, &count, &fd_count));
    expect_text("\1\0\0\0\1\0\0\0\0\0\0\0", 12, 0);
    EXPECT(20, covretin_missing(&session));
    EXPECT(COVRETIN_NOT_YET, covretin_take(&session));
    EXPECT(0, covretin_receive(&session, (const uint8_t *)"\1\0\0\0\5\0\0\0\10", 9, fds, 0));
    EXPECT(11, covretin_missing(&session));
    EXPECT(COVRETIN_TOO_MANY_BYTES, covretin_receive(&session, (const uint8_t *)"\0\0\0\3\0\0\100\0\0\0\0\0", 12, fds, 0));
    EXPECT(0, covretin_receive(&session, (const uint8_t *)"\0\0\0", 3, fds, 0));
    EXPECT(8, covretin_missing(&session));
    EXPECT(COVRETIN_NOT_YET, covretin_take(&session));
    EXPECT(0, covretin_receive(&session, (const uint8_t *)"\3", 1, fds, 0));
    EXPECT(0, covretin_receive(&session, (const uint8_t *)"\0\0\100\0\0\0\0", 7, fds, 0));
    EXPECT(0, covretin_missing(&session));
    EXPECT(0, covretin_take(&session));
    EXPECT(COVRETIN_NOTHING_ASKED, covretin_take(&session));
    EXPECT(COVRETIN_OTHER_ANSWER, covretin_answer_inflight(&session, &inflight, fds));
    EXPECT(0, covretin_answer_number(&session, &value));
    EXPECT(0x40000003, value);
    covretin_close(&session);
}

/* Requests that await nothing, with descriptors and without, in small pieces. */
static void unawaited(void)
{
    EXPECT(COVRETIN_OK, covretin_open(&session, 2));
    EXPECT(COVRETIN_INVALID_PARAM, covretin_ask_set_vring_kick(&session, 2, 7));
    EXPECT(COVRETIN_INVALID_PARAM, covretin_ask_set_vring_kick(&session, 2, -1));
    EXPECT(COVRETIN_INVALID_PARAM, covretin_ask_get_config(&session, 0x100, 5000, 0));
    EXPECT(COVRETIN_INVALID_PARAM, covretin_ask_set_mem_table(&session, (covretin_region[1]){{.fd = -1}}, 1));
    EXPECT(COVRETIN_INVALID_PARAM, covretin_ask_get_shared_object(&session, bytes, 15));
    expect_silence();
    EXPECT(0, covretin_ask_set_vring_kick(&session, 1, 7));
    EXPECT(0, covretin_missing(&session));
    EXPECT(COVRETIN_TOO_MANY_BYTES, covretin_receive(&session, bytes, 1, fds, 0));
    EXPECT(COVRETIN_INVALID_PARAM, covretin_receive(&session, bytes, 0, fds, 1));
    EXPECT(0, covretin_take(&session));
    EXPECT(0, covretin_ask_set_owner(&session));
    EXPECT(0, covretin_take(&session));
    /* Both wait: a piece ends where the next byte has descriptors, and where the room does. */
    EXPECT(0, covretin_to_send(&session, bytes, 15, fds, COVRETIN_MAX_FDS, &count, &fd_count));
    EXPECT(15, count);
    EXPECT(1, fd_count);
    EXPECT(7, fds[0]);
    expect_text("\0\0\0\0\0\3\0\0\0\1\0\0\0\0\0\0\0", 17, 0);
    covretin_close(&session);
}

/* -- Requests byte for byte -- */

/* The flags of a header are 0 or NEED_REPLY, and any other value changes nothing. */
static void header_flags(void)
{
    static const uint32_t others[] = {1, 2, 3, 4, 5, 9, 12, 16, 0x80000008, 0xffffffff};
    EXPECT(COVRETIN_OK, covretin_open(&session, 2));
    EXPECT(0, covretin_set_profile(&session, COVRETIN_PROFILE_VHOST));
    EXPECT(0, covretin_set_hdr_flags(&session, COVRETIN_NEED_REPLY));
    for (size_t i = 0; i < sizeof others / sizeof others[0]; i++)
        EXPECT(COVRETIN_INVALID_PARAM, covretin_set_hdr_flags(&session, others[i]));
    EXPECT(COVRETIN_NOTHING_ASKED, covretin_take(&session));
    EXPECT(0, covretin_ask_set_owner(&session));
    expect_text("\3\0\0\0\11\0\0\0\0\0\0\0", 12, 0);
    EXPECT(0, covretin_take(&session));
    EXPECT(0, covretin_set_hdr_flags(&session, 0));
    EXPECT(0, covretin_ask_set_owner(&session));
    expect_text("\3\0\0\0\1\0\0\0\0\0\0\0", 12, 0);
    EXPECT(0, covretin_take(&session));
    covretin_close(&session);
}

/* A session begins with the profile Standard, and NEED_REPLY goes out under it only where REPLY_ACK is acknowledged. A number of no
 * profile changes nothing. */
static void profiles(void)
{
    static const uint32_t others[] = {2, 3, 256, 0xffffffff};
    EXPECT(COVRETIN_NO_SESSION, covretin_set_profile(&session, COVRETIN_PROFILE_VHOST));
    EXPECT(COVRETIN_OK, covretin_open(&session, 2));
    EXPECT(0, covretin_set_hdr_flags(&session, COVRETIN_NEED_REPLY));
    for (size_t i = 0; i < sizeof others / sizeof others[0]; i++)
        EXPECT(COVRETIN_INVALID_PARAM, covretin_set_profile(&session, (enum covretin_profile)others[i]));
    EXPECT(0, covretin_ask_set_owner(&session));
    EXPECT(0, covretin_set_profile(&session, COVRETIN_PROFILE_VHOST));
    expect_text("\3\0\0\0\1\0\0\0\0\0\0\0", 12, 0);
    EXPECT(0, covretin_take(&session));
    EXPECT(0, covretin_ask_set_owner(&session));
    expect_text("\3\0\0\0\11\0\0\0\0\0\0\0", 12, 0);
    EXPECT(0, covretin_take(&session));
    EXPECT(0, covretin_set_profile(&session, COVRETIN_PROFILE_STANDARD));
    EXPECT(0, covretin_ask_set_owner(&session));
    expect_text("\3\0\0\0\1\0\0\0\0\0\0\0", 12, 0);
    EXPECT(0, covretin_take(&session));
    covretin_close(&session);
}

/* A ring without a descriptor: bit 8 of the number, and nothing comes along. */
static void rings_without_descriptor(void)
{
    EXPECT(COVRETIN_OK, covretin_open(&session, 2));
    EXPECT(0, covretin_ask_set_vring_kick(&session, 1, -1));
    expect_text("\14\0\0\0\1\0\0\0\10\0\0\0\1\1\0\0\0\0\0\0", 20, 0);
    EXPECT(0, covretin_take(&session));
    EXPECT(0, covretin_ask_set_vring_call(&session, 0, -5));
    expect_text("\15\0\0\0\1\0\0\0\10\0\0\0\0\1\0\0\0\0\0\0", 20, 0);
    EXPECT(0, covretin_take(&session));
    EXPECT(0, covretin_ask_set_vring_err(&session, 1, -1));
    expect_text("\16\0\0\0\1\0\0\0\10\0\0\0\1\1\0\0\0\0\0\0", 20, 0);
    EXPECT(0, covretin_take(&session));
    EXPECT(0, covretin_ask_set_vring_err(&session, 1, 0));
    expect_text("\16\0\0\0\1\0\0\0\10\0\0\0\1\0\0\0\0\0\0\0", 20, 1);
    EXPECT(0, fds[0]);
    EXPECT(0, covretin_take(&session));
    covretin_close(&session);
}

/* The log's base alone, as without LOG_SHMFD, and with it the region in its place, whose descriptor comes along. */
static void logs(void)
{
    const covretin_region region = {.memory_size = 0x1000, .mmap_offset = 0x20, .fd = 7};
    EXPECT(COVRETIN_OK, covretin_open(&session, 2));
    EXPECT(0, covretin_ask_set_log_base_alone(&session, 0x1122));
    expect_text("\6\0\0\0\1\0\0\0\10\0\0\0\42\21\0\0\0\0\0\0", 20, 0);
    EXPECT(0, covretin_missing(&session));
    EXPECT(0, covretin_take(&session));
    EXPECT(0, covretin_ask_set_log_base(&session, 5, &region));
    expect_text("\6\0\0\0\1\0\0\0\10\0\0\0\5\0\0\0\0\0\0\0", 20, 0);
    EXPECT(0, covretin_take(&session));
    EXPECT(COVRETIN_INVALID_PARAM, covretin_ask_set_log_fd(&session, -1));
    EXPECT(0, covretin_ask_set_log_fd(&session, 9));
    expect_text("\7\0\0\0\1\0\0\0\0\0\0\0", 12, 1);
    EXPECT(9, fds[0]);
    EXPECT(0, covretin_take(&session));
    covretin_close(&session);
    open_with(COVRETIN_PROTOCOL_LOG_SHMFD);
    EXPECT(0, covretin_ask_set_log_base(&session, 5, &region));
    expect_text("\6\0\0\0\1\0\0\0\20\0\0\0\0\20\0\0\0\0\0\0\40\0\0\0\0\0\0\0", 28, 1);
    EXPECT(7, fds[0]);
    GIVE("\6\0\0\0\5\0\0\0\10\0\0\0");
    GIVE("\0\0\0\0\0\0\0\0");
    EXPECT(0, covretin_take(&session));
    covretin_close(&session);
}

/* get_config brings zeros along, or the caller's bytes; the reply's are read either way. */
static void config_bytes(void)
{
    static const uint8_t room[COVRETIN_MAX_CONFIG + 1];
    covretin_config part;
    open_with(COVRETIN_PROTOCOL_CONFIG);
    EXPECT(0, covretin_ask_get_config(&session, 0x100, 4, 1));
    expect_text("\30\0\0\0\1\0\0\0\20\0\0\0\0\1\0\0\4\0\0\0\1\0\0\0\0\0\0\0", 28, 0);
    GIVE("\30\0\0\0\5\0\0\0\20\0\0\0");
    GIVE("\0\1\0\0\4\0\0\0\0\0\0\0\1\2\3\4");
    EXPECT(0, covretin_take(&session));
    EXPECT(0, covretin_ask_get_config_bytes(&session, 0x100, 1, (const uint8_t *)"abcd", 4));
    expect_text("\30\0\0\0\1\0\0\0\20\0\0\0\0\1\0\0\4\0\0\0\1\0\0\0abcd", 28, 0);
    GIVE("\30\0\0\0\5\0\0\0\20\0\0\0");
    GIVE("\0\1\0\0\4\0\0\0\0\0\0\0\5\6\7\10");
    EXPECT(0, covretin_take(&session));
    EXPECT(COVRETIN_NO_ROOM, covretin_answer_config(&session, &part, bytes, 3, &count));
    EXPECT(0, covretin_answer_config(&session, &part, bytes, sizeof bytes, &count));
    EXPECT(4, count);
    EXPECT(0x100, part.offset);
    EXPECT(0, memcmp(bytes, "\5\6\7\10", 4));
    EXPECT(COVRETIN_INVALID_PARAM, covretin_ask_get_config_bytes(&session, 0, 0, room, 0));
    EXPECT(COVRETIN_INVALID_PARAM, covretin_ask_get_config_bytes(&session, 0, 0, room, sizeof room));
    EXPECT(COVRETIN_INVALID_PARAM, covretin_ask_get_config(&session, 0, sizeof room, 0));
    EXPECT(COVRETIN_INVALID_PARAM, covretin_ask_set_config(&session, 0, 0, room, sizeof room));
    EXPECT(COVRETIN_INVALID_PARAM, covretin_ask_get_config(&session, 0xfff, 2, 0));
    EXPECT(0, covretin_ask_get_config_bytes(&session, 0, 0, room, COVRETIN_MAX_CONFIG));
    send_all();
    covretin_close(&session);
}

/* An inflight region is asked for some queues, of some size; with the profile Vhost for none, too. */
static void asks_for_queues(void)
{
    const covretin_inflight no_queues = {.queue_size = 64}, no_size = {.num_queues = 1};
    open_with(COVRETIN_PROTOCOL_INFLIGHT_SHMFD);
    EXPECT(COVRETIN_INVALID_PARAM, covretin_ask_get_inflight_fd(&session, &no_queues));
    EXPECT(COVRETIN_INVALID_PARAM, covretin_ask_get_inflight_fd(&session, &no_size));
    EXPECT(COVRETIN_OK, covretin_set_profile(&session, COVRETIN_PROFILE_VHOST));
    EXPECT(COVRETIN_OK, covretin_ask_get_inflight_fd(&session, &no_queues));
    covretin_close(&session);
}

/* Virtio features are sent as they are given; those that were offered count as accepted. */
static void accepts_features(void)
{
    EXPECT(COVRETIN_OK, covretin_open(&session, 2));
    EXPECT(0, covretin_ask_set_features(&session, 0x140000001));
    expect_text("\2\0\0\0\1\0\0\0\10\0\0\0\1\0\0\100\1\0\0\0", 20, 0);
    EXPECT(0, covretin_take(&session));
    EXPECT(COVRETIN_INACTIVE_FEATURE, covretin_ask_set_vring_enable(&session, 0, true));
    covretin_close(&session);
}

/* An ask that lacks a feature, and behind it one of whose arguments no call can be made: that one lacks none. */
static void lacks_none_then(enum covretin_error refusal)
{
    EXPECT(COVRETIN_INVALID_PARAM, refusal);
    EXPECT(0, covretin_inactive(&session));
    EXPECT(COVRETIN_INACTIVE_OPERATION, covretin_ask_add_mem_region(&session, &(covretin_region){.memory_size = 1, .fd = 7}));
    EXPECT(COVRETIN_PROTOCOL_CONFIGURE_MEM_SLOTS, covretin_inactive(&session));
}

static void lacks_none_where_no_call_is_made(void)
{
    static const covretin_region regions[33];
    static const covretin_inflight inflight;
    EXPECT(COVRETIN_OK, covretin_open(&session, 2));
    EXPECT(COVRETIN_INACTIVE_OPERATION, covretin_ask_get_queue_num(&session));
    lacks_none_then(covretin_ask_get_config(&session, 0, 0x10000, 0));
    lacks_none_then(covretin_ask_get_config_bytes(&session, 0, 0, bytes, sizeof bytes));
    lacks_none_then(covretin_ask_set_config(&session, 0, 0, bytes, sizeof bytes));
    lacks_none_then(covretin_ask_set_mem_table(&session, regions, 33));
    lacks_none_then(covretin_ask_get_shared_object(&session, bytes, 15));
    lacks_none_then(covretin_ask_postcopy_ack_mem_regions(&session, 45));
    lacks_none_then(covretin_ask_set_log_fd(&session, -1));
    lacks_none_then(covretin_ask_set_backend_request_fd(&session, -1));
    lacks_none_then(covretin_ask_set_inflight_fd(&session, &inflight, -1));
    lacks_none_then(covretin_ask_set_device_state_fd(&session, 2, 0, 7));
    lacks_none_then(covretin_ask_set_device_state_fd(&session, 0, 1, 7));
    lacks_none_then(covretin_ask_set_device_state_fd(&session, 0, 0, -1));
    lacks_none_then(covretin_set_hdr_flags(&session, 2));
    EXPECT(COVRETIN_INVALID_PARAM, covretin_set_profile(&session, (enum covretin_profile)2));
    EXPECT(COVRETIN_PROTOCOL_CONFIGURE_MEM_SLOTS, covretin_inactive(&session));
    EXPECT(0, covretin_set_hdr_flags(&session, 0));
    EXPECT(0, covretin_inactive(&session));
    EXPECT(0, covretin_ask_set_owner(&session));
    EXPECT(COVRETIN_NOT_TAKEN, covretin_ask_get_queue_num(&session));
    EXPECT(0, covretin_inactive(&session));
    expect_text("\3\0\0\0\1\0\0\0\0\0\0\0", 12, 0);
    covretin_close(&session);
    EXPECT(COVRETIN_NO_SESSION, covretin_ask_get_config(&session, 0, 0x10000, 0));
}

/* Which feature an ask lacked: of the last ask alone. Each request is asked that wants one; without LOG_SHMFD a log's base goes alone. */
static void inactive(void)
{
    EXPECT(COVRETIN_OK, covretin_open(&session, 2));
    EXPECT(0, covretin_inactive(&session));
    EXPECT(COVRETIN_INACTIVE_FEATURE, covretin_ask_get_protocol_features(&session));
    EXPECT(COVRETIN_FEATURE_PROTOCOL_FEATURES, covretin_inactive(&session));
    EXPECT(COVRETIN_FEATURE_PROTOCOL_FEATURES, covretin_inactive(&session));
#define REQUEST(name, call, feature, takes, ...) \
    if (COVRETIN_PROTOCOL_##feature != 0 && COVRETIN_PROTOCOL_##feature != COVRETIN_PROTOCOL_LOG_SHMFD) { \
        EXPECT(COVRETIN_INACTIVE_OPERATION, covretin_ask_##call(&session TAKES_##takes)); \
        EXPECT(COVRETIN_PROTOCOL_##feature, covretin_inactive(&session)); \
    }
#include "requests.def"
    EXPECT(COVRETIN_INVALID_PARAM, covretin_ask_set_vring_num(&session, 9, 128));
    EXPECT(0, covretin_inactive(&session));
    EXPECT(COVRETIN_INACTIVE_OPERATION, covretin_ask_get_shmem_config(&session));
    EXPECT(COVRETIN_PROTOCOL_SHMEM, covretin_inactive(&session));
    EXPECT(0, covretin_ask_set_owner(&session));
    EXPECT(0, covretin_inactive(&session));
    EXPECT(0, covretin_take(&session));
    covretin_close(&session);
    EXPECT(0, covretin_inactive(&session));
}

/* -- Words -- */

/* Each error has a text of its own, and any other number one too. */
static void error_texts(void)
{
    static const struct {
        int from, to;
    } numbers[] = {{0, 24}, {101, 110}, {201, 203}};
    const char *texts[64];
    size_t found = 0;
    for (size_t i = 0; i < sizeof numbers / sizeof numbers[0]; i++)
        for (int number = numbers[i].from; number <= numbers[i].to; number++) {
            const char *text = covretin_error_text((enum covretin_error)number);
            EXPECT(true, text != NULL && text[0] != 0);
            for (size_t j = 0; j < found; j++)
                EXPECT(true, strcmp(text, texts[j]) != 0);
            texts[found++] = text;
        }
    EXPECT(0, strcmp(covretin_error_text(COVRETIN_BACKEND_INTERNAL_ERROR), "backend internal error"));
    const char *unknown = covretin_error_text((enum covretin_error)25);
    for (size_t j = 0; j < found; j++)
        EXPECT(true, strcmp(unknown, texts[j]) != 0);
    EXPECT(0, strcmp(unknown, covretin_error_text((enum covretin_error)250)));
}

static void version(void)
{
    EXPECT(0, strcmp(covretin_version(), COVRETIN_VERSION));
}

/* The mask has each feature once whose request can be asked, and no bit of another. */
static void asked_features(void)
{
    EXPECT(0x4cb33b, COVRETIN_ASKED_PROTOCOL_FEATURES);
    EXPECT(0, COVRETIN_ASKED_PROTOCOL_FEATURES & COVRETIN_PROTOCOL_STATUS);
    EXPECT(0x4000000, COVRETIN_FEATURE_LOG_ALL);
    EXPECT(0x40000000, COVRETIN_FEATURE_PROTOCOL_FEATURES);
}

int main(void)
{
    RUN(without_session);
    RUN(out_of_turn);
    RUN(unawaited);
    RUN(header_flags);
    RUN(profiles);
    RUN(rings_without_descriptor);
    RUN(logs);
    RUN(config_bytes);
    RUN(asks_for_queues);
    RUN(accepts_features);
    RUN(inactive);
    RUN(lacks_none_where_no_call_is_made);
    RUN(error_texts);
    RUN(version);
    RUN(asked_features);
    return status();
}
