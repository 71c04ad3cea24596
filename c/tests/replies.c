/* Replies to a session alone, with no socket: each form of them, those that are none, and backends that hide something behind
 * one. */
#include "alone.h"
#include "covretin_backend.h"
#include "testing.h"

#define SAMPLE_FD 7
#define SAMPLE_FEATURES COVRETIN_ASKED_PROTOCOL_FEATURES
#include "samples.h"

/* -- Replies of each form -- */

/* How much of a body is missing before the header of its reply is there: the record, unless there may be none. */
static size_t least(char code)
{
    switch (code) {
    case 6: /* SET_LOG_BASE */
    case 24:
    case 28:
    case 41: return 0;
    case 31: return 24;
    case 37: return 40;
    case 44: return 2056;
    default: return 8;
    }
}

/* Sends what was asked, and replies: a header, such a body, and a descriptor on its first byte, or -1. What take answers. */
static enum covretin_error replied(char code, const void *body, size_t size, int32_t fd)
{
    const char header[12] = {code, 0, 0, 0, 5, 0, 0, 0, (char)size, (char)(size >> 8), 0, 0};
    send_all();
    EXPECT(12 + least(code), covretin_missing(&session));
    give(header, sizeof header, &fd, fd >= 0);
    EXPECT(size, covretin_missing(&session));
    give(body, size, fds, 0);
    EXPECT(0, covretin_missing(&session));
    return covretin_take(&session);
}

static const uint8_t zeros[COVRETIN_MAX_MESSAGE];
static const covretin_region regions[2] = {{.guest_phys_addr = 1, .memory_size = 2, .fd = 5},
                                           {.guest_phys_addr = 7, .memory_size = 8, .fd = 6}};

static void numbers(void)
{
    uint64_t number = 9;
    open_with(COVRETIN_ASKED_PROTOCOL_FEATURES);
    EXPECT(0, covretin_ask_get_queue_num(&session));
    EXPECT(COVRETIN_OK, replied(17, "\4\0\0\0\0\0\0\0", 8, -1));
    EXPECT(0, covretin_answer_number(&session, &number));
    EXPECT(4, number);
    EXPECT(0, covretin_ask_get_max_mem_slots(&session));
    EXPECT(COVRETIN_OK, replied(36, "\0\2\0\0\0\0\0\0", 8, -1));
    EXPECT(0, covretin_answer_number(&session, &number));
    EXPECT(512, number);
    EXPECT(0, covretin_ask_get_vring_base(&session, 3));
    EXPECT(COVRETIN_OK, replied(11, "\3\0\0\0\7\0\0\0", 8, -1));
    EXPECT(0, covretin_answer_number(&session, &number));
    EXPECT(7, number);
    EXPECT(0, covretin_ask_check_device_state(&session));
    EXPECT(COVRETIN_BACKEND_INTERNAL_ERROR, replied(43, "\1\0\0\0\0\0\0\0", 8, -1));
    EXPECT(0, covretin_ask_check_device_state(&session));
    EXPECT(COVRETIN_OK, replied(43, zeros, 8, -1));
    EXPECT(COVRETIN_OTHER_ANSWER, covretin_answer_number(&session, &number));
    covretin_close(&session);
}

/* Each request that is acknowledged and nothing else, done and refused; those of postcopy want others before them. */
static void acknowledgements(void)
{
    open_with(COVRETIN_ASKED_PROTOCOL_FEATURES);
    EXPECT(0, covretin_set_hdr_flags(&session, COVRETIN_NEED_REPLY));
#define REQUEST(name, call, feature, takes, sees, replies, reply, fds) \
    EACH_##reply(COVRETIN_PROTOCOL_##feature, COVRETIN_CALL_##name, covretin_ask_##call(&session TAKES_##takes))
#define EACH_OWN(feature, code, asked)
#define EACH_ACK(feature, code, asked) \
    if ((feature) != COVRETIN_PROTOCOL_PAGEFAULT && least(code) == 8) { \
        EXPECT(0, asked); \
        EXPECT(COVRETIN_OK, replied(code, zeros, 8, -1)); \
        EXPECT(0, asked); \
        EXPECT(COVRETIN_BACKEND_INTERNAL_ERROR, replied(code, "\1\0\0\0\0\0\0\0", 8, -1)); \
    }
#include "requests.def"
    EXPECT(0, covretin_ask_set_mem_table(&session, regions, 2));
    EXPECT(COVRETIN_OK, replied(5, zeros, 8, -1));
    EXPECT(0, covretin_answer_bases(&session, (uint64_t[2]){0}, 2, &count));
    EXPECT(0, count);
    EXPECT(0, covretin_ask_set_log_base(&session, 0, &regions[0]));
    EXPECT(COVRETIN_OK, replied(6, "\2\0\0\0\0\0\0\0\0\0\0\0\0\0\0\0", 16, -1));
    covretin_close(&session);
}

/* Configuration comes whole, or by a record that says that there is none. */
static void configurations(void)
{
    open_with(COVRETIN_PROTOCOL_CONFIG);
    EXPECT(0, covretin_ask_get_config(&session, 16, 4, 0));
    EXPECT(COVRETIN_BACKEND_INTERNAL_ERROR, replied(24, "\20\0\0\0\0\0\0\0\0\0\0\0", 12, -1));
    EXPECT(0, covretin_ask_get_config(&session, 16, 4, 0));
    EXPECT(COVRETIN_OK, replied(24, "\20\0\0\0\4\0\0\0\0\0\0\0abcd", 16, -1));
    EXPECT(0, covretin_ask_get_config(&session, 16, 4, 0));
    EXPECT(COVRETIN_INVALID_MESSAGE, replied(24, "\21\0\0\0\4\0\0\0\0\0\0\0abcd", 16, -1));
    covretin_close(&session);
}

static void descriptors(void)
{
    const covretin_inflight asked = {.num_queues = 1, .queue_size = 64};
    covretin_inflight inflight;
    int32_t fd = -9;
    uint64_t sizes[256];
    open_with(COVRETIN_ASKED_PROTOCOL_FEATURES);
    EXPECT(0, covretin_ask_get_shared_object(&session, (const uint8_t *)"0123456789abcdef", 16));
    EXPECT(COVRETIN_OK, replied(41, zeros, 0, 70));
    EXPECT(0, covretin_answer_fd(&session, &fd));
    EXPECT(70, fd);
    EXPECT(0, covretin_ask_get_inflight_fd(&session, &asked));
    EXPECT(COVRETIN_OK, replied(31, "\5\0\0\0\0\0\0\0\0\0\0\0\0\0\0\0\1\0\100\0\0\0\0\0", 24, 71));
    EXPECT(0, covretin_answer_inflight(&session, &inflight, &fd));
    EXPECT(71, fd);
    EXPECT(5, inflight.mmap_size);
    EXPECT(0, covretin_ask_set_device_state_fd(&session, 1, 0, 6));
    EXPECT(COVRETIN_BACKEND_INTERNAL_ERROR, replied(42, "\1\1\0\0\0\0\0\0", 8, -1));
    EXPECT(COVRETIN_OTHER_ANSWER, covretin_answer_fd(&session, &fd));
    EXPECT(0, covretin_ask_set_device_state_fd(&session, 1, 0, 6));
    EXPECT(COVRETIN_OK, replied(42, zeros, 8, 72));
    EXPECT(0, covretin_answer_fd(&session, &fd));
    EXPECT(72, fd);
    EXPECT(0, covretin_ask_get_shmem_config(&session));
    EXPECT(COVRETIN_OK, replied(44, zeros, 2056, -1));
    EXPECT(0, covretin_answer_shmem(&session, sizes, 256, &count));
    EXPECT(0, count);
    covretin_close(&session);
}

/* While postcopy listens, a table of regions and one more are replied by where they are mapped. */
static void postcopy(void)
{
    const char mapped[8 + 64] = {2, [8] = 1, [16] = 2, [24] = 50, [40] = 7, [48] = 8, [56] = 60};
    const char one[40] = {[8] = 7, [16] = 8, [24] = 70};
    uint64_t bases[2] = {0};
    int32_t fd = -9;
    open_with(COVRETIN_ASKED_PROTOCOL_FEATURES);
    EXPECT(0, covretin_set_hdr_flags(&session, COVRETIN_NEED_REPLY));
    EXPECT(0, covretin_ask_postcopy_advise(&session));
    EXPECT(COVRETIN_OK, replied(28, zeros, 0, 73));
    EXPECT(0, covretin_answer_fd(&session, &fd));
    EXPECT(73, fd);
    EXPECT(0, covretin_ask_postcopy_listen(&session));
    EXPECT(COVRETIN_OK, replied(29, zeros, 8, -1));
    EXPECT(0, covretin_ask_set_mem_table(&session, regions, 2));
    EXPECT(COVRETIN_OK, replied(5, mapped, sizeof mapped, -1));
    EXPECT(0, covretin_answer_bases(&session, bases, 2, &count));
    EXPECT(2, count);
    EXPECT(true, bases[0] == 50 && bases[1] == 60);
    EXPECT(0, covretin_ask_postcopy_ack_mem_regions(&session, 5));
    EXPECT(0, covretin_take(&session));
    EXPECT(0, covretin_ask_add_mem_region(&session, &regions[1]));
    EXPECT(COVRETIN_OK, replied(37, one, sizeof one, -1));
    EXPECT(0, covretin_answer_bases(&session, bases, 2, &count));
    EXPECT(true, count == 1 && bases[0] == 70);
    EXPECT(0, covretin_ask_postcopy_end(&session));
    EXPECT(COVRETIN_OK, replied(30, zeros, 8, -1));
    covretin_close(&session);
}

/* -- Replies that are none -- */

static void malformed(void)
{
    EXPECT(COVRETIN_OK, covretin_open(&session, 1));
    EXPECT(0, covretin_ask_get_features(&session));
    GIVE("\1\0\0\0\5\0\0\0\377\377\377\377");
    GIVE("\0\0\0\0\0\0\0\0");
    enum covretin_error error = covretin_take(&session);
    EXPECT(COVRETIN_INVALID_MESSAGE, error);
    EXPECT(COVRETIN_NOTHING_ASKED, covretin_take(&session));
    covretin_close(&session);

    EXPECT(COVRETIN_OK, covretin_open(&session, 1));
    EXPECT(0, covretin_ask_get_features(&session));
    EXPECT(COVRETIN_INVALID_PARAM, covretin_receive(&session, bytes, 1, (const int32_t[]){-1}, 1));
    GIVE_WITH("\1\0\0\0\5\0\0\0\10\0\0\0", 9);
    GIVE("\0\0\0\0\0\0\0\0");
    EXPECT(0, covretin_missing(&session));
    EXPECT(COVRETIN_INVALID_MESSAGE, covretin_take(&session));
    covretin_close(&session);
}

/* -- Something hidden behind a reply -- */

/* The reply of get_features is lengthened by one to postcopy_advise, with descriptor 77. The caller closes what no reply named,
 * and the number is another file's when postcopy_advise is asked. It must not be named then. */
static void hides_a_reply(void)
{
    uint64_t number = 5;
    int32_t fd = -9;
    open_with(COVRETIN_PROTOCOL_PAGEFAULT);
    EXPECT(0, covretin_ask_get_features(&session));
    send_all();
    GIVE("\1\0\0\0\5\0\0\0\24\0\0\0");
    GIVE("\0\0\0\100\0\0\0\0");
    GIVE_WITH("\34\0\0\0\5\0\0\0\0\0\0\0", 77);
    EXPECT(COVRETIN_INVALID_MESSAGE, covretin_take(&session));
    EXPECT(COVRETIN_OTHER_ANSWER, covretin_answer_number(&session, &number));

    EXPECT(0, covretin_ask_postcopy_advise(&session));
    send_all();
    EXPECT(12, covretin_missing(&session));
    GIVE("\34\0\0\0\5\0\0\0\0\0\0\0");
    EXPECT(COVRETIN_BACKEND_INTERNAL_ERROR, covretin_take(&session));
    EXPECT(COVRETIN_OTHER_ANSWER, covretin_answer_fd(&session, &fd));
    EXPECT(-9, fd);
    covretin_close(&session);
}

/* The reply of get_features is lengthened by a refusal of set_device_state_fd. The true reply to that, with descriptor 77,
 * must not be left for the call after. */
static void hides_a_refusal(void)
{
    int32_t fd = -9;
    open_with(COVRETIN_PROTOCOL_DEVICE_STATE);
    EXPECT(0, covretin_ask_get_features(&session));
    send_all();
    GIVE("\1\0\0\0\5\0\0\0\34\0\0\0");
    GIVE("\0\0\0\100\0\0\0\0\52\0\0\0\5\0\0\0\10\0\0\0\1\1\0\0\0\0\0\0");
    EXPECT(COVRETIN_INVALID_MESSAGE, covretin_take(&session));

    EXPECT(0, covretin_ask_set_device_state_fd(&session, 0, 0, 5));
    send_all();
    GIVE_WITH("\52\0\0\0\5\0\0\0\10\0\0\0", 77);
    GIVE("\0\0\0\0\0\0\0\0");
    EXPECT(COVRETIN_OK, covretin_take(&session));
    EXPECT(COVRETIN_OK, covretin_answer_fd(&session, &fd));
    EXPECT(77, fd);
    EXPECT(0, covretin_ask_set_device_state_fd(&session, 0, 0, 5));
    send_all();
    GIVE("\52\0\0\0\5\0\0\0\10\0\0\0");
    GIVE("\0\1\0\0\0\0\0\0");
    EXPECT(COVRETIN_OK, covretin_take(&session));
    EXPECT(COVRETIN_OK, covretin_answer_fd(&session, &fd));
    EXPECT(-1, fd);
    covretin_close(&session);
}

/* A reply whose header announces another size than its own is refused by its own call, and nothing of it is left for the next. */
static void refuses_other_sizes(void)
{
    static const struct {
        char code;
        size_t size;
    } calls[] = {{1, 8}, {11, 8}, {17, 8}, {24, 16}, {31, 24}, {36, 8}, {41, 0}, {44, 2056}};
    static const size_t sizes[] = {0, 1, 7, 8, 9, 15, 17, 24, 28, 2055, 2056, 2057, 4096};
    const covretin_inflight asked = {.num_queues = 1, .queue_size = 64};
    open_with(COVRETIN_ASKED_PROTOCOL_FEATURES);
    for (size_t i = 0; i < sizeof calls / sizeof calls[0] * (sizeof sizes / sizeof sizes[0]); i++) {
        size_t size = sizes[i / 8];
        const char header[12] = {calls[i % 8].code, 0, 0, 0, 5, 0, 0, 0, (char)size, (char)(size >> 8), 0, 0};
        if (size == calls[i % 8].size)
            continue;
        switch (calls[i % 8].code) {
        case 1: EXPECT(0, covretin_ask_get_features(&session)); break;
        case 11: EXPECT(0, covretin_ask_get_vring_base(&session, 0)); break;
        case 17: EXPECT(0, covretin_ask_get_queue_num(&session)); break;
        case 24: EXPECT(0, covretin_ask_get_config(&session, 0, 4, 0)); break;
        case 31: EXPECT(0, covretin_ask_get_inflight_fd(&session, &asked)); break;
        case 36: EXPECT(0, covretin_ask_get_max_mem_slots(&session)); break;
        case 41: EXPECT(0, covretin_ask_get_shared_object(&session, (const uint8_t *)"0123456789abcdef", 16)); break;
        default: EXPECT(0, covretin_ask_get_shmem_config(&session)); break;
        }
        send_all();
        EXPECT(12 + least(calls[i % 8].code), covretin_missing(&session));
        give(header, sizeof header, fds, 0);
        while (covretin_missing(&session) != 0)
            give(zeros, covretin_missing(&session), fds, 0);
        /* (by a reply without a body a backend refuses to give its configuration) */
        EXPECT(calls[i % 8].code == 24 && size == 0 ? COVRETIN_BACKEND_INTERNAL_ERROR : COVRETIN_INVALID_MESSAGE, covretin_take(&session));
    }
    covretin_close(&session);
}

int main(void)
{
    RUN(numbers);
    RUN(acknowledgements);
    RUN(configurations);
    RUN(descriptors);
    RUN(postcopy);
    RUN(malformed);
    RUN(hides_a_reply);
    RUN(hides_a_refusal);
    RUN(refuses_other_sizes);
    return status();
}
