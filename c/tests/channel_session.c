/* Both sides of the backend channel, with no socket: each call of a device against a frontend, byte for byte; calls out of turn and
 * what they leave; messages in pieces; and hostile ones. A descriptor is a number here, which nobody opens. */
#include "covretin_channel.h"
#include "testing.h"

#include <errno.h>
#include <string.h>

static covretin_channel channel;
static covretin_channel_server server;
static uint8_t bytes[COVRETIN_MAX_MESSAGE];
static int32_t fds[COVRETIN_MAX_FDS];
static size_t count, fd_count;

static const uint8_t name[16] = {1, 2, 3, 4, 5, 6, 7, 8, 9, 10, 11, 12, 13, 14, 15, 16};
static const covretin_mmap part = {.fd_offset = 0x1000, .shm_offset = 0x2000, .len = 0x3000, .flags = 1, .shmid = 4};

/* What the device is to send: this, with so many descriptors, and then nothing more. */
static void expect_asked(const char *text, size_t length, size_t with)
{
    EXPECT(0, covretin_channel_to_send(&channel, bytes, sizeof bytes, fds, COVRETIN_MAX_FDS, &count, &fd_count));
    EXPECT(length, count);
    EXPECT(0, memcmp(text, bytes, length));
    EXPECT(with, fd_count);
    size_t more, more_fds;
    uint8_t room[1];
    int32_t room_fds[COVRETIN_MAX_FDS];
    EXPECT(0, covretin_channel_to_send(&channel, room, 1, room_fds, COVRETIN_MAX_FDS, &more, &more_fds));
    EXPECT(0, more);
}

/* What the frontend is to send: this, and then nothing more. */
static void expect_replied(const char *text, size_t length)
{
    EXPECT(0, covretin_channel_server_to_send(&server, bytes, sizeof bytes, fds, COVRETIN_MAX_FDS, &count, &fd_count));
    EXPECT(length, count);
    EXPECT(0, memcmp(text, bytes, length));
    EXPECT(0, fd_count);
}

/* Hands the frontend what a device sent last: the header, with the descriptors, and then the body. */
static void pass(void)
{
    size_t first = covretin_channel_server_missing(&server);
    EXPECT(12, first);
    EXPECT(0, covretin_channel_server_receive(&server, bytes, first, fds, fd_count));
    EXPECT(count - first, covretin_channel_server_missing(&server));
    EXPECT(0, covretin_channel_server_receive(&server, bytes + first, count - first, fds, 0));
    EXPECT(0, covretin_channel_server_missing(&server));
}

/* Hands a device what the frontend sent last, in two pieces. */
static void pass_back(void)
{
    EXPECT(12, covretin_channel_missing(&channel));
    EXPECT(COVRETIN_NOT_YET, covretin_channel_take(&channel));
    EXPECT(0, covretin_channel_receive(&channel, bytes, 12, fds, 0));
    EXPECT(8, covretin_channel_missing(&channel));
    EXPECT(0, covretin_channel_receive(&channel, bytes + 12, 8, fds, 0));
    EXPECT(0, covretin_channel_missing(&channel));
}

/* The next request is this call. */
static void expect_call(uint32_t want)
{
    uint32_t call = 0;
    EXPECT(0, covretin_channel_server_next(&server, &call));
    EXPECT(want, call);
}

/* Opens both sides, where all is agreed on. */
static void open_both(void)
{
    EXPECT(0, covretin_channel_open(&channel));
    EXPECT(0, covretin_channel_set_reply_ack(&channel, true));
    EXPECT(0, covretin_channel_set_config_change(&channel, true));
    EXPECT(0, covretin_channel_set_shared_object(&channel, true));
    EXPECT(0, covretin_channel_set_shmem(&channel, true));
    EXPECT(0, covretin_channel_server_open(&server));
    EXPECT(0, covretin_channel_server_set_reply_ack(&server, true));
}

static void close_both(void)
{
    covretin_channel_close(&channel);
    covretin_channel_server_close(&server);
    EXPECT(true, channel.opaque == NULL);
    EXPECT(true, server.opaque == NULL);
}

/* -- Calls -- */

static void config_change(void)
{
    open_both();
    EXPECT(0, covretin_channel_ask_config_change(&channel));
    expect_asked("\2\0\0\0\11\0\0\0\0\0\0\0", 12, 0);
    pass();
    expect_call(COVRETIN_CHANNEL_CALL_CONFIG_CHANGE);
    EXPECT(0, covretin_channel_reply_number(&server, 0));
    expect_replied("\2\0\0\0\5\0\0\0\10\0\0\0\0\0\0\0\0\0\0\0", 20);
    pass_back();
    EXPECT(0, covretin_channel_take(&channel));
    close_both();
}

static void shared_objects(void)
{
    uint8_t got[17];
    int32_t fd = -5;
    covretin_mmap mmap;
    memset(got, 0, sizeof got);
    open_both();
    EXPECT(0, covretin_channel_ask_shared_object_add(&channel, name, 16));
    expect_asked("\6\0\0\0\11\0\0\0\20\0\0\0\1\2\3\4\5\6\7\10\11\12\13\14\15\16\17\20", 28, 0);
    pass();
    expect_call(COVRETIN_CHANNEL_CALL_SHARED_OBJECT_ADD);
    EXPECT(COVRETIN_NO_ROOM, covretin_channel_call_name(&server, got, 15));
    EXPECT(0, covretin_channel_call_name(&server, got, 17));
    EXPECT(0, memcmp(got, name, 16));
    EXPECT(0, got[16]);
    EXPECT(COVRETIN_OTHER_CALL, covretin_channel_call_fd(&server, &fd));
    EXPECT(COVRETIN_OTHER_CALL, covretin_channel_call_mmap(&server, &mmap));
    EXPECT(-5, fd);
    EXPECT(0, covretin_channel_reply_errno(&server, EEXIST));
    expect_replied("\6\0\0\0\5\0\0\0\10\0\0\0\357\377\377\377\377\377\377\377", 20);
    pass_back();
    EXPECT(COVRETIN_FRONTEND_INTERNAL_ERROR, covretin_channel_take(&channel));
    EXPECT(0, covretin_channel_ask_shared_object_remove(&channel, name, 16));
    expect_asked("\7\0\0\0\11\0\0\0\20\0\0\0\1\2\3\4\5\6\7\10\11\12\13\14\15\16\17\20", 28, 0);
    pass();
    expect_call(COVRETIN_CHANNEL_CALL_SHARED_OBJECT_REMOVE);
    EXPECT(0, covretin_channel_call_name(&server, got, 16));
    EXPECT(0, covretin_channel_reply_number(&server, 1));
    expect_replied("\7\0\0\0\5\0\0\0\10\0\0\0\1\0\0\0\0\0\0\0", 20);
    pass_back();
    EXPECT(COVRETIN_FRONTEND_INTERNAL_ERROR, covretin_channel_take(&channel));
    EXPECT(0, covretin_channel_ask_shared_object_lookup(&channel, name, 16, 77));
    expect_asked("\10\0\0\0\11\0\0\0\20\0\0\0\1\2\3\4\5\6\7\10\11\12\13\14\15\16\17\20", 28, 1);
    EXPECT(77, fds[0]);
    pass();
    expect_call(COVRETIN_CHANNEL_CALL_SHARED_OBJECT_LOOKUP);
    EXPECT(0, covretin_channel_call_name(&server, got, 16));
    EXPECT(0, covretin_channel_call_fd(&server, &fd));
    EXPECT(77, fd);
    EXPECT(0, covretin_channel_reply_number(&server, 0));
    expect_replied("\10\0\0\0\5\0\0\0\10\0\0\0\0\0\0\0\0\0\0\0", 20);
    pass_back();
    EXPECT(0, covretin_channel_take(&channel));
    close_both();
}

static void mappings(void)
{
    static const char body[] = "\4\0\0\0\0\0\0\0\0\20\0\0\0\0\0\0\0\40\0\0\0\0\0\0\0\60\0\0\0\0\0\0\1\0\0\0\0\0\0\0";
    covretin_mmap mmap = {0};
    int32_t fd = -5;
    open_both();
    EXPECT(0, covretin_channel_ask_shmem_map(&channel, &part, 78));
    EXPECT(0, covretin_channel_to_send(&channel, bytes, sizeof bytes, fds, COVRETIN_MAX_FDS, &count, &fd_count));
    EXPECT(52, count);
    EXPECT(0, memcmp(bytes, "\11\0\0\0\11\0\0\0\50\0\0\0", 12));
    EXPECT(0, memcmp(bytes + 12, body, 40));
    EXPECT(1, fd_count);
    EXPECT(78, fds[0]);
    pass();
    expect_call(COVRETIN_CHANNEL_CALL_SHMEM_MAP);
    EXPECT(0, covretin_channel_call_mmap(&server, &mmap));
    EXPECT(0x1000, mmap.fd_offset);
    EXPECT(0x2000, mmap.shm_offset);
    EXPECT(0x3000, mmap.len);
    EXPECT(1, mmap.flags);
    EXPECT(4, mmap.shmid);
    EXPECT(0, covretin_channel_call_fd(&server, &fd));
    EXPECT(78, fd);
    EXPECT(COVRETIN_OTHER_CALL, covretin_channel_call_name(&server, bytes, 16));
    EXPECT(0, covretin_channel_reply_number(&server, 0));
    expect_replied("\11\0\0\0\5\0\0\0\10\0\0\0\0\0\0\0\0\0\0\0", 20);
    pass_back();
    EXPECT(0, covretin_channel_take(&channel));
    EXPECT(0, covretin_channel_ask_shmem_unmap(&channel, &part));
    EXPECT(0, covretin_channel_to_send(&channel, bytes, sizeof bytes, fds, COVRETIN_MAX_FDS, &count, &fd_count));
    EXPECT(52, count);
    EXPECT(0, memcmp(bytes, "\12\0\0\0\11\0\0\0\50\0\0\0", 12));
    EXPECT(0, memcmp(bytes + 12, body, 40));
    EXPECT(0, fd_count);
    pass();
    expect_call(COVRETIN_CHANNEL_CALL_SHMEM_UNMAP);
    EXPECT(COVRETIN_OTHER_CALL, covretin_channel_call_fd(&server, &fd));
    EXPECT(0, covretin_channel_call_mmap(&server, &mmap));
    EXPECT(0, covretin_channel_reply_number(&server, 0));
    expect_replied("\12\0\0\0\5\0\0\0\10\0\0\0\0\0\0\0\0\0\0\0", 20);
    close_both();
}

/* -- Calls out of turn, and what was not agreed on -- */

static void without_session(void)
{
    uint32_t call = 5;
    EXPECT(COVRETIN_NO_SESSION, covretin_channel_ask_config_change(&channel));
    EXPECT(COVRETIN_NO_SESSION, covretin_channel_set_shmem(&channel, true));
    EXPECT(COVRETIN_NO_SESSION, covretin_channel_to_send(&channel, bytes, 1, fds, COVRETIN_MAX_FDS, &count, &fd_count));
    EXPECT(0, covretin_channel_missing(&channel));
    EXPECT(COVRETIN_NO_SESSION, covretin_channel_receive(&channel, bytes, 0, fds, 0));
    EXPECT(COVRETIN_NO_SESSION, covretin_channel_take(&channel));
    EXPECT(COVRETIN_NO_SESSION, covretin_channel_server_set_reply_ack(&server, true));
    EXPECT(0, covretin_channel_server_missing(&server));
    EXPECT(COVRETIN_NO_SESSION, covretin_channel_server_receive(&server, bytes, 0, fds, 0));
    EXPECT(COVRETIN_NO_SESSION, covretin_channel_server_end(&server));
    EXPECT(COVRETIN_NO_SESSION, covretin_channel_server_next(&server, &call));
    EXPECT(COVRETIN_NO_SESSION, covretin_channel_call_name(&server, bytes, 16));
    EXPECT(COVRETIN_NO_SESSION, covretin_channel_reply_number(&server, 0));
    EXPECT(COVRETIN_NO_SESSION, covretin_channel_server_to_send(&server, bytes, 1, fds, COVRETIN_MAX_FDS, &count, &fd_count));
    EXPECT(5, call);
    close_both();
    open_both();
    EXPECT(COVRETIN_SESSION_OPEN, covretin_channel_open(&channel));
    EXPECT(COVRETIN_SESSION_OPEN, covretin_channel_server_open(&server));
    close_both();
}

static void out_of_turn(void)
{
    uint32_t call = 5;
    open_both();
    EXPECT(COVRETIN_NOTHING_ASKED, covretin_channel_take(&channel));
    EXPECT(COVRETIN_TOO_MANY_BYTES, covretin_channel_receive(&channel, name, 1, fds, 0));
    EXPECT(COVRETIN_INVALID_PARAM, covretin_channel_ask_shared_object_add(&channel, name, 15));
    EXPECT(COVRETIN_INVALID_PARAM, covretin_channel_ask_shared_object_lookup(&channel, name, 16, -1));
    EXPECT(COVRETIN_INVALID_PARAM, covretin_channel_ask_shmem_map(&channel, &part, -1));
    EXPECT(0, covretin_channel_ask_config_change(&channel));
    EXPECT(COVRETIN_NOT_TAKEN, covretin_channel_ask_config_change(&channel));
    EXPECT(COVRETIN_NO_ROOM, covretin_channel_to_send(&channel, bytes, 0, fds, COVRETIN_MAX_FDS, &count, &fd_count));
    EXPECT(COVRETIN_NO_ROOM, covretin_channel_to_send(&channel, bytes, 1, fds, COVRETIN_MAX_FDS - 1, &count, &fd_count));
    expect_asked("\2\0\0\0\11\0\0\0\0\0\0\0", 12, 0);
    EXPECT(COVRETIN_NOT_YET, covretin_channel_server_next(&server, &call));
    EXPECT(COVRETIN_NOTHING_ASKED, covretin_channel_reply_number(&server, 0));
    EXPECT(COVRETIN_OTHER_CALL, covretin_channel_call_name(&server, bytes, 16));
    EXPECT(COVRETIN_DISCONNECTED, covretin_channel_server_end(&server));
    EXPECT(0, covretin_channel_server_receive(&server, bytes, 5, fds, 0));
    EXPECT(COVRETIN_PARTIAL_MESSAGE, covretin_channel_server_end(&server));
    EXPECT(COVRETIN_TOO_MANY_BYTES, covretin_channel_server_receive(&server, bytes + 5, 8, fds, 0));
    EXPECT(COVRETIN_INVALID_PARAM, covretin_channel_server_receive(&server, bytes, 0, (const int32_t[]){3}, 1));
    EXPECT(COVRETIN_INVALID_PARAM, covretin_channel_server_receive(&server, bytes + 5, 1, (const int32_t[]){-1}, 1));
    EXPECT(0, covretin_channel_server_receive(&server, bytes + 5, 7, fds, 0));
    EXPECT(COVRETIN_DISCONNECTED, covretin_channel_server_end(&server));
    expect_call(COVRETIN_CHANNEL_CALL_CONFIG_CHANGE);
    EXPECT(COVRETIN_NOT_REPLIED, covretin_channel_server_next(&server, &call));
    EXPECT(0, covretin_channel_server_missing(&server));
    EXPECT(COVRETIN_TOO_MANY_BYTES, covretin_channel_server_receive(&server, bytes, 1, fds, 0));
    EXPECT(0, covretin_channel_reply_number(&server, 0));
    EXPECT(COVRETIN_NOTHING_ASKED, covretin_channel_reply_errno(&server, EINVAL));
    EXPECT(5, call);
    close_both();
}

static void not_agreed_on(void)
{
    EXPECT(0, covretin_channel_open(&channel));
    EXPECT(COVRETIN_INACTIVE_OPERATION, covretin_channel_ask_config_change(&channel));
    EXPECT(COVRETIN_INACTIVE_OPERATION, covretin_channel_ask_shared_object_add(&channel, name, 16));
    EXPECT(COVRETIN_INACTIVE_OPERATION, covretin_channel_ask_shmem_unmap(&channel, &part));
    EXPECT(0, covretin_channel_to_send(&channel, bytes, sizeof bytes, fds, COVRETIN_MAX_FDS, &count, &fd_count));
    EXPECT(0, count);
    EXPECT(0, covretin_channel_set_config_change(&channel, true));
    EXPECT(0, covretin_channel_ask_config_change(&channel));
    expect_asked("\2\0\0\0\1\0\0\0\0\0\0\0", 12, 0);
    EXPECT(0, covretin_channel_missing(&channel));
    EXPECT(0, covretin_channel_take(&channel));
    EXPECT(0, covretin_channel_server_open(&server));
    pass();
    expect_call(COVRETIN_CHANNEL_CALL_CONFIG_CHANGE);
    EXPECT(0, covretin_channel_reply_number(&server, 0));
    expect_replied("", 0);
    close_both();
}

/* -- Hostile messages -- */

/* Hands the frontend a message, which it refuses, and this is replied. */
static void refuses(const char *text, size_t length, size_t with, const char *reply, size_t reply_length)
{
    uint32_t call = 5;
    int32_t given[2] = {7, 8};
    size_t taken = 0, missing;
    EXPECT(0, covretin_channel_server_open(&server));
    EXPECT(0, covretin_channel_server_set_reply_ack(&server, true));
    while ((missing = covretin_channel_server_missing(&server)) != 0 && taken < length) {
        size_t now = missing < length - taken ? missing : length - taken;
        EXPECT(0, covretin_channel_server_receive(&server, (const uint8_t *)text + taken, now, given, taken == 0 ? with : 0));
        taken += now;
    }
    EXPECT(COVRETIN_INVALID_MESSAGE, covretin_channel_server_next(&server, &call));
    EXPECT(5, call);
    EXPECT(COVRETIN_OTHER_CALL, covretin_channel_call_fd(&server, given));
    EXPECT(7, given[0]);
    expect_replied(reply, reply_length);
    covretin_channel_server_close(&server);
}

static void hostile_requests(void)
{
    refuses("\13\0\0\0\11\0\0\0\0\0\0\0", 12, 0, "", 0);       /* no such request */
    refuses("\2\0\0\0\11\0\0\0\1\20\0\0", 12, 0, "", 0);       /* longer than a message may be */
    refuses("\2\0\0\0\12\0\0\0\0\0\0\0", 12, 0, "", 0);        /* another version */
    refuses("\2\0\0\0\11\0\0\0\1\0\0\0x", 13, 0, "", 0);       /* a body where there is none */
    refuses("\2\0\0\0\11\0\0\0\0\0\0\0", 12, 1, "", 0);        /* a descriptor where there is none */
    refuses("\10\0\0\0\11\0\0\0\20\0\0\0abcdefghijklmnop", 28, 0, "", 0); /* none where there is one */
    refuses("\10\0\0\0\11\0\0\0\20\0\0\0abcdefghijklmnop", 28, 2, "", 0); /* two */
    refuses("\6\0\0\0\11\0\0\0\20\0\0\0\0\0\0\0\0\0\0\0\0\0\0\0\0\0\0\0", 28, 0, "", 0); /* no name */
    /* a request that nobody serves is acknowledged by -EINVAL */
    refuses("\4\0\0\0\11\0\0\0\0\0\0\0", 12, 0, "\4\0\0\0\5\0\0\0\10\0\0\0\352\377\377\377\377\377\377\377", 20);
}

/* Asks, and takes this reply: the answer is this, and the next reply is a good one. */
static void takes(const char *text, size_t length, size_t with, enum covretin_error want)
{
    int32_t given[1] = {7};
    size_t taken = 0, missing;
    EXPECT(0, covretin_channel_ask_config_change(&channel));
    expect_asked("\2\0\0\0\11\0\0\0\0\0\0\0", 12, 0);
    while ((missing = covretin_channel_missing(&channel)) != 0 && taken < length) {
        size_t now = missing < length - taken ? missing : length - taken;
        EXPECT(0, covretin_channel_receive(&channel, (const uint8_t *)text + taken, now, given, taken == 0 ? with : 0));
        taken += now;
    }
    EXPECT(want, covretin_channel_take(&channel));
    EXPECT(COVRETIN_NOTHING_ASKED, covretin_channel_take(&channel));
}

static void hostile_replies(void)
{
    open_both();
    takes("\6\0\0\0\5\0\0\0\10\0\0\0\0\0\0\0\0\0\0\0", 20, 0, COVRETIN_INVALID_MESSAGE);  /* to another request */
    takes("\2\0\0\0\1\0\0\0\10\0\0\0\0\0\0\0\0\0\0\0", 20, 0, COVRETIN_INVALID_MESSAGE);  /* no reply */
    takes("\2\0\0\0\5\0\0\0\4\0\0\0\0\0\0\0", 16, 0, COVRETIN_INVALID_MESSAGE);           /* too short */
    takes("\2\0\0\0\5\0\0\0\11\0\0\0\0\0\0\0\0\0\0\0x", 21, 0, COVRETIN_INVALID_MESSAGE); /* too long */
    takes("\2\0\0\0\5\0\0\0\377\377\377\377", 12, 0, COVRETIN_INVALID_MESSAGE);           /* longer than a message may be */
    takes("\2\0\0\0\5\0\0\0\10\0\0\0\0\0\0\0\0\0\0\0", 20, 1, COVRETIN_INVALID_MESSAGE);  /* with a descriptor */
    takes("\2\0\0\0\5\0\0\0\10\0\0\0\0\0\0\0\0\0\0\1", 20, 0, COVRETIN_FRONTEND_INTERNAL_ERROR);
    takes("\2\0\0\0\5\0\0\0\10\0\0\0\0\0\0\0\0\0\0\0", 20, 0, COVRETIN_OK);
    close_both();
}

int main(void)
{
    RUN(without_session);
    RUN(out_of_turn);
    RUN(not_agreed_on);
    RUN(config_change);
    RUN(shared_objects);
    RUN(mappings);
    RUN(hostile_requests);
    RUN(hostile_replies);
    return status();
}
