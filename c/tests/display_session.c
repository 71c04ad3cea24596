/* A device's session on the vhost-user-gpu channel, with no socket: each call byte for byte; calls out of turn and what they leave;
 * replies in pieces, and hostile ones. A descriptor is a number here, which nobody opens. */
#include "covretin_display.h"
#include "screen.h"
#include "testing.h"

#include <string.h>

static covretin_display display;
static uint8_t bytes[COVRETIN_MAX_MESSAGE], reply[MOST_REPLY];
static int32_t fds[COVRETIN_MAX_FDS];
static size_t count, fd_count;

/* What is to be sent: this, and then nothing more. */
static void expect_asked(const char *text, size_t length, int32_t fd)
{
    EXPECT(0, covretin_display_to_send(&display, bytes, sizeof bytes, fds, COVRETIN_MAX_FDS, &count, &fd_count));
    EXPECT(length, count);
    EXPECT(0, memcmp(text, bytes, length));
    EXPECT(fd < 0 ? 0 : 1, fd_count);
    EXPECT(true, fd < 0 || fds[0] == fd);
    EXPECT(0, covretin_display_to_send(&display, bytes, 1, fds, COVRETIN_MAX_FDS, &count, &fd_count));
    EXPECT(0, count);
    EXPECT(0, fd_count);
}

/* Every take but that of the call's form. */
static void expect_no_other(const struct screen_call *call)
{
    struct screen_value value;
    for (enum form form = 0; form < FORMS; form++)
        if (form != call->form)
            EXPECT(COVRETIN_OTHER_ANSWER, take_by(&display, form, &value, sizeof value.record));
}

/* Whatever take. */
static void expect_each(enum covretin_error want)
{
    struct screen_value value;
    for (enum form form = 0; form < FORMS; form++)
        EXPECT(want, take_by(&display, form, &value, sizeof value.record));
}

/* Hands in what is missing of the reply's bytes, and of zeros behind them, at most so many at a time. */
static void hand_in(const struct screen_call *call, size_t length, size_t most, size_t with)
{
    static const uint8_t zeros[COVRETIN_MAX_MESSAGE];
    const int32_t given[1] = {7};
    struct screen_value value;
    size_t missing, taken = 0;
    while ((missing = covretin_display_missing(&display)) != 0) {
        size_t now = taken < length ? length - taken : sizeof zeros;
        now = now < missing ? now : missing;
        now = now < most ? now : most;
        EXPECT(COVRETIN_NOT_YET, take_by(&display, call->form, &value, sizeof value.record));
        EXPECT(0, covretin_display_receive(&display, taken < length ? reply + taken : zeros, now, given, taken == 0 ? with : 0));
        taken += now;
    }
}

/* -- Calls -- */

static void each_call(void)
{
    EXPECT(0, covretin_display_open(&display));
    for (const struct screen_call *call = screen_calls; call < screen_calls + screen_call_count; call++) {
        EXPECT(0, call->ask(&display));
        EXPECT(COVRETIN_NOT_TAKEN, call->ask(&display));
        expect_asked(call->text, call->length, call->fd);
        EXPECT(call->header == NULL ? 0 : 12, covretin_display_missing(&display));
        if (call->header != NULL)
            hand_in(call, good_reply(call, reply), sizeof reply, 0);
        expect_no_other(call);
        take_good(&display, call);
        expect_each(COVRETIN_NOTHING_ASKED);
    }
    covretin_display_close(&display);
    EXPECT(true, display.opaque == NULL);
}

static void replies_in_pieces(void)
{
    EXPECT(0, covretin_display_open(&display));
    for (const struct screen_call *call = screen_calls; call < screen_calls + screen_call_count; call++)
        for (size_t most = 1; call->header != NULL && most < 20; most += 6) {
            EXPECT(0, call->ask(&display));
            expect_asked(call->text, call->length, call->fd);
            hand_in(call, good_reply(call, reply), most, 0);
            take_good(&display, call);
        }
    covretin_display_close(&display);
}

/* A request is handed out in pieces as small as one likes, its descriptor with the first. */
static void requests_in_pieces(void)
{
    EXPECT(0, covretin_display_open(&display));
    for (const struct screen_call *call = screen_calls; call < screen_calls + screen_call_count; call++) {
        EXPECT(0, call->ask(&display));
        for (size_t i = 0; i < call->length; i++) {
            EXPECT(0, covretin_display_to_send(&display, bytes, 1, fds, COVRETIN_MAX_FDS, &count, &fd_count));
            EXPECT(true, count == 1 && bytes[0] == (uint8_t)call->text[i] && fd_count == (i == 0 && call->fd >= 0));
        }
        expect_asked("", 0, -1);
        if (call->header != NULL)
            hand_in(call, good_reply(call, reply), sizeof reply, 0);
        take_good(&display, call);
    }
    covretin_display_close(&display);
}

/* -- Calls out of turn -- */

static void without_session(void)
{
    EXPECT(0, covretin_display_missing(&display));
    for (const struct screen_call *call = screen_calls; call < screen_calls + screen_call_count; call++)
        EXPECT(COVRETIN_NO_SESSION, call->ask(&display));
    EXPECT(COVRETIN_NO_SESSION, covretin_display_to_send(&display, bytes, 1, fds, COVRETIN_MAX_FDS, &count, &fd_count));
    EXPECT(COVRETIN_NO_SESSION, covretin_display_receive(&display, bytes, 0, fds, 0));
    expect_each(COVRETIN_NO_SESSION);
    covretin_display_close(&display);
    EXPECT(0, covretin_display_open(&display));
    EXPECT(COVRETIN_SESSION_OPEN, covretin_display_open(&display));
    covretin_display_close(&display);
}

static void out_of_turn(void)
{
    EXPECT(0, covretin_display_open(&display));
    expect_each(COVRETIN_NOTHING_ASKED);
    EXPECT(COVRETIN_TOO_MANY_BYTES, covretin_display_receive(&display, bytes, 1, fds, 0));
    EXPECT(0, covretin_display_ask_get_protocol_features(&display));
    count = fd_count = 5;
    EXPECT(COVRETIN_NO_ROOM, covretin_display_to_send(&display, bytes, 0, fds, COVRETIN_MAX_FDS, &count, &fd_count));
    EXPECT(COVRETIN_NO_ROOM, covretin_display_to_send(&display, bytes, 1, fds, COVRETIN_MAX_FDS - 1, &count, &fd_count));
    EXPECT(true, count == 5 && fd_count == 5);
    expect_asked("\1\0\0\0\0\0\0\0\0\0\0\0", 12, -1);
    EXPECT(COVRETIN_TOO_MANY_BYTES, covretin_display_receive(&display, bytes, 13, fds, 0));
    EXPECT(COVRETIN_INVALID_PARAM, covretin_display_receive(&display, bytes, 0, (const int32_t[]){3}, 1));
    EXPECT(COVRETIN_INVALID_PARAM, covretin_display_receive(&display, bytes, 1, (const int32_t[]){-1}, 1));
    hand_in(screen_calls, good_reply(screen_calls, reply), sizeof reply, 0);
    EXPECT(COVRETIN_TOO_MANY_BYTES, covretin_display_receive(&display, bytes, 1, fds, 0));
    take_good(&display, screen_calls);
    covretin_display_close(&display);
}

/* A record needs its room; without it the reply stays. */
static void no_room(void)
{
    static const struct screen_value untouched;
    EXPECT(0, covretin_display_open(&display));
    for (const struct screen_call *call = screen_calls; call < screen_calls + screen_call_count; call++) {
        struct screen_value value = untouched;
        if (call->form < FORM_INFO)
            continue;
        EXPECT(0, call->ask(&display));
        expect_asked(call->text, call->length, call->fd);
        size_t length = good_reply(call, reply);
        hand_in(call, length, sizeof reply, 0);
        EXPECT(COVRETIN_NO_ROOM, take_by(&display, call->form, &value, length - 13));
        EXPECT(COVRETIN_NO_ROOM, take_by(&display, call->form, &value, 0));
        EXPECT(0, memcmp(&value, &untouched, sizeof value));
        EXPECT(0, take_by(&display, call->form, &value, length - 12));
        EXPECT(0, memcmp(value.record, reply + 12, length - 12));
    }
    covretin_display_close(&display);
}

/* A message has at most 2^32 - 1 bytes behind its header. */
static void too_many_pixels(void)
{
    const size_t most = UINT32_MAX - 20;
    EXPECT(0, covretin_display_open(&display));
    EXPECT(COVRETIN_OVERSIZED_MSG, covretin_display_ask_update_scanout(&display, &screen_update, most + 1));
    EXPECT(COVRETIN_OVERSIZED_MSG, covretin_display_ask_update_scanout(&display, &screen_update, SIZE_MAX));
    expect_each(COVRETIN_NOTHING_ASKED);
    expect_asked("", 0, -1);
    EXPECT(0, covretin_display_ask_update_scanout(&display, &screen_update, most));
    expect_asked("\10\0\0\0\0\0\0\0\377\377\377\377\1\0\0\0\2\3\0\0\4\5\6\7\10\11\0\0\12\13\14\15", 32, -1);
    EXPECT(0, covretin_display_take(&display));
    EXPECT(0, covretin_display_ask_update_scanout(&display, &screen_update, 0));
    expect_asked("\10\0\0\0\0\0\0\0\24\0\0\0\1\0\0\0\2\3\0\0\4\5\6\7\10\11\0\0\12\13\14\15", 32, -1);
    EXPECT(0, covretin_display_take(&display));
    covretin_display_close(&display);
}

/* -- Hostile replies -- */

/* Asks, and is handed this reply, which is refused: nothing of it is read, and nothing is left. Then a good one is taken. */
static void refuses(const struct screen_call *call, size_t length, size_t with)
{
    static const struct screen_value untouched;
    struct screen_value value = untouched;
    EXPECT(0, call->ask(&display));
    expect_asked(call->text, call->length, call->fd);
    hand_in(call, length, sizeof reply, with);
    EXPECT(COVRETIN_INVALID_MESSAGE, take_by(&display, call->form, &value, sizeof value.record));
    EXPECT(0, memcmp(&value, &untouched, sizeof value));
    expect_each(COVRETIN_NOTHING_ASKED);
    EXPECT(0, covretin_display_missing(&display));
    EXPECT(0, call->ask(&display));
    expect_asked(call->text, call->length, call->fd);
    hand_in(call, good_reply(call, reply), sizeof reply, 0);
    take_good(&display, call);
}

static void hostile_replies(void)
{
    /* which byte of a good header is another, and by what: code, flags, size */
    static const struct {
        size_t at;
        uint8_t by;
    } lies[] = {{0, 1}, {0, 0x40}, {3, 1}, {4, 4}, {4, 1}, {4, 8}, {7, 0x80}, {8, 1}, {8, 2}, {9, 0x40}, {11, 0x80}};
    EXPECT(0, covretin_display_open(&display));
    for (const struct screen_call *call = screen_calls; call < screen_calls + screen_call_count; call++) {
        if (call->header == NULL)
            continue;
        for (size_t i = 0; i < sizeof lies / sizeof *lies; i++) {
            size_t length = good_reply(call, reply);
            reply[lies[i].at] ^= lies[i].by;
            refuses(call, length, 0);
        }
        refuses(call, good_reply(call, reply), 1);
    }
    covretin_display_close(&display);
}

int main(void)
{
    RUN(each_call);
    RUN(replies_in_pieces);
    RUN(requests_in_pieces);
    RUN(without_session);
    RUN(out_of_turn);
    RUN(no_room);
    RUN(too_many_pixels);
    RUN(hostile_replies);
    return status();
}
