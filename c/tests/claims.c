/* Which of the descriptors that came to a session are whose: each number is claimed once, or handed out once. No descriptor is touched. */
#include "alone.h"
#include "covretin_backend.h"
#include "covretin_channel.h"
#include "covretin_display.h"
#include "testing.h"

static covretin_backend backend;
static int32_t out[COVRETIN_MAX_FDS];

static const uint8_t set_vring_kick[20] = {12, [4] = 1, [8] = 8};
static const uint8_t get_features[12] = {1, [4] = 1};

/* A request comes, with descriptors on its first byte. */
static void hear(const uint8_t *request, size_t length, const int32_t *with, size_t with_count)
{
    for (size_t at = 0; at < length;) {
        size_t part = covretin_backend_missing(&backend);
        part = part < length - at ? part : length - at;
        EXPECT(COVRETIN_OK, covretin_backend_receive(&backend, request + at, part, with, at == 0 ? with_count : 0));
        at += part;
    }
}

/* How many nobody will claim. */
static size_t unclaimed(void)
{
    size_t handed = 99;
    EXPECT(COVRETIN_OK, covretin_backend_unclaimed(&backend, out, COVRETIN_MAX_FDS, &handed));
    return handed;
}

static void a_call_has_its_own(void)
{
    uint32_t call = 0;
    EXPECT(COVRETIN_OK, covretin_backend_open(&backend));
    for (int32_t fd = 5; fd < 7; fd++) {
        hear(set_vring_kick, sizeof set_vring_kick, &fd, 1);
        EXPECT(COVRETIN_OTHER_CALL, covretin_backend_claim(&backend, fd));
        EXPECT(COVRETIN_OK, covretin_backend_next(&backend, &call));
        EXPECT(COVRETIN_CALL_SET_VRING_KICK, call);
        EXPECT(0, unclaimed());
        EXPECT(COVRETIN_OTHER_CALL, covretin_backend_claim(&backend, 7));
        if (fd == 5) {
            EXPECT(COVRETIN_OK, covretin_backend_claim(&backend, fd));
            EXPECT(COVRETIN_OTHER_CALL, covretin_backend_claim(&backend, fd));
        }
        EXPECT(COVRETIN_OK, covretin_reply_done(&backend));
    }
    EXPECT(1, unclaimed());
    EXPECT(6, out[0]);
    EXPECT(0, unclaimed());
    covretin_backend_close(&backend);
}

static void a_refused_request_has_none(void)
{
    uint32_t call = 0;
    EXPECT(COVRETIN_OK, covretin_backend_open(&backend));
    hear(get_features, sizeof get_features, (const int32_t[]){8, 9}, 2);
    EXPECT(0, unclaimed());
    EXPECT(true, covretin_backend_next(&backend, &call) != COVRETIN_OK);
    EXPECT(2, unclaimed());
    EXPECT(true, (out[0] == 8 && out[1] == 9) || (out[0] == 9 && out[1] == 8));
    EXPECT(0, unclaimed());
    covretin_backend_close(&backend);
}

/* What comes behind the first byte is handed out at once, in a small place one by one; and what came with it once no more will come. */
static void what_comes_late(void)
{
    size_t handed = 99;
    EXPECT(COVRETIN_OK, covretin_backend_open(&backend));
    EXPECT(COVRETIN_OK, covretin_backend_receive(&backend, set_vring_kick, 1, (const int32_t[]){5}, 1));
    EXPECT(COVRETIN_OK, covretin_backend_receive(&backend, set_vring_kick + 1, 1, (const int32_t[]){6, 7}, 2));
    for (int left = 2; left >= 0; left--) {
        EXPECT(COVRETIN_OK, covretin_backend_unclaimed(&backend, out, 1, &handed));
        EXPECT(left != 0, handed);
        EXPECT(true, left == 0 || out[0] == 6 || out[0] == 7);
    }
    EXPECT(COVRETIN_OK, covretin_backend_abandon(&backend));
    EXPECT(1, unclaimed());
    EXPECT(5, out[0]);
    covretin_backend_close(&backend);
}

/* A reply's own may be claimed until the next call is asked. */
static void a_reply_has_its_own(void)
{
    size_t handed = 99;
    open_with(COVRETIN_PROTOCOL_PAGEFAULT);
    for (int32_t fd = 5; fd < 7; fd++) {
        EXPECT(COVRETIN_OK, covretin_ask_postcopy_advise(&session));
        send_all();
        EXPECT(COVRETIN_OTHER_ANSWER, covretin_claim(&session, fd));
        give("\34\0\0\0\5\0\0\0\0\0\0\0", 12, &fd, 1);
        EXPECT(COVRETIN_OK, covretin_take(&session));
        EXPECT(COVRETIN_OTHER_ANSWER, covretin_claim(&session, 7));
        if (fd == 5)
            EXPECT(COVRETIN_OK, covretin_claim(&session, fd));
    }
    EXPECT(COVRETIN_OK, covretin_unclaimed(&session, out, COVRETIN_MAX_FDS, &handed));
    EXPECT(0, handed);
    EXPECT(COVRETIN_OK, covretin_ask_set_owner(&session));
    EXPECT(COVRETIN_OTHER_ANSWER, covretin_claim(&session, 6));
    EXPECT(COVRETIN_OK, covretin_unclaimed(&session, out, COVRETIN_MAX_FDS, &handed));
    EXPECT(1, handed);
    EXPECT(6, out[0]);
    covretin_close(&session);
}

static void no_session(void)
{
    covretin_session none = {0};
    covretin_backend no_backend = {0};
    covretin_channel channel = {0};
    covretin_channel_server server = {0};
    covretin_display display = {0};
    size_t handed = 99;
    EXPECT(COVRETIN_NO_SESSION, covretin_claim(&none, 5));
    EXPECT(COVRETIN_NO_SESSION, covretin_unclaimed(&none, out, 1, &handed));
    EXPECT(COVRETIN_NO_SESSION, covretin_abandon(&none));
    EXPECT(COVRETIN_NO_SESSION, covretin_backend_claim(&no_backend, 5));
    EXPECT(COVRETIN_NO_SESSION, covretin_backend_unclaimed(&no_backend, out, 1, &handed));
    EXPECT(COVRETIN_NO_SESSION, covretin_backend_abandon(&no_backend));
    EXPECT(COVRETIN_NO_SESSION, covretin_channel_unclaimed(&channel, out, 1, &handed));
    EXPECT(COVRETIN_NO_SESSION, covretin_channel_server_claim(&server, 5));
    EXPECT(COVRETIN_NO_SESSION, covretin_channel_server_unclaimed(&server, out, 1, &handed));
    EXPECT(COVRETIN_NO_SESSION, covretin_channel_server_abandon(&server));
    EXPECT(COVRETIN_NO_SESSION, covretin_display_unclaimed(&display, out, 1, &handed));
    EXPECT(99, handed);
}

int main(void)
{
    RUN(a_call_has_its_own);
    RUN(a_refused_request_has_none);
    RUN(what_comes_late);
    RUN(a_reply_has_its_own);
    RUN(no_session);
    return status();
}
