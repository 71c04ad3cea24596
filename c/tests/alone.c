#include "alone.h"
#include "testing.h"

#include <string.h>

covretin_session session;
uint8_t bytes[COVRETIN_MAX_MESSAGE];
int32_t fds[COVRETIN_MAX_FDS];
size_t count, fd_count;

void expect_silence(void)
{
    EXPECT(0, covretin_to_send(&session, bytes, sizeof bytes, fds, COVRETIN_MAX_FDS, &count, &fd_count));
    EXPECT(0, count);
    EXPECT(0, fd_count);
}

void expect_text(const char *text, size_t length, size_t with)
{
    EXPECT(0, covretin_to_send(&session, bytes, sizeof bytes, fds, COVRETIN_MAX_FDS, &count, &fd_count));
    EXPECT(length, count);
    EXPECT(0, memcmp(text, bytes, length));
    EXPECT(with, fd_count);
    expect_silence();
}

void send_all(void)
{
    do
        EXPECT(0, covretin_to_send(&session, bytes, sizeof bytes, fds, COVRETIN_MAX_FDS, &count, &fd_count));
    while (count != 0);
}

void give(const void *text, size_t length, const int32_t *with, size_t with_count)
{
    size_t missing = covretin_missing(&session);
    if (missing != 0)
        EXPECT(0, covretin_receive(&session, text, length < missing ? length : missing, with, with_count));
}

void open_with(uint64_t protocol_features)
{
    EXPECT(COVRETIN_OK, covretin_open(&session, 2));
    EXPECT(0, covretin_ask_get_features(&session));
    GIVE("\1\0\0\0\5\0\0\0\10\0\0\0");
    GIVE("\0\0\0\100\0\0\0\0");
    EXPECT(0, covretin_take(&session));
    EXPECT(0, covretin_ask_set_features(&session, COVRETIN_FEATURE_PROTOCOL_FEATURES));
    EXPECT(0, covretin_take(&session));
    EXPECT(0, covretin_ask_set_protocol_features(&session, protocol_features));
    EXPECT(0, covretin_take(&session));
    send_all();
}
