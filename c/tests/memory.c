/* Each allocation of a connection's life fails once: what is asked or exchanged again succeeds, unless the session is broken,
 * and nothing is left open. Linked with --wrap=malloc, --wrap=calloc and --wrap=realloc. */
#include "peer.h"
#include "testing.h"

#include <stdlib.h>
#include <sys/socket.h>
#include <unistd.h>

void *__real_malloc(size_t size);
void *__real_calloc(size_t count, size_t size);
void *__real_realloc(void *at, size_t size);
void *__wrap_malloc(size_t size);
void *__wrap_calloc(size_t count, size_t size);
void *__wrap_realloc(void *at, size_t size);

/* How many allocations are still to succeed before one fails; negative: all do. */
static int until_failure = -1;

static bool fails(void)
{
    return until_failure >= 0 && until_failure-- == 0;
}

void *__wrap_malloc(size_t size)
{
    return fails() ? NULL : __real_malloc(size);
}

void *__wrap_calloc(size_t count, size_t size)
{
    return fails() ? NULL : __real_calloc(count, size);
}

void *__wrap_realloc(void *at, size_t size)
{
    return fails() ? NULL : __real_realloc(at, size);
}

static covretin_connection device;
static covretin_session *const session = &device.session;
static int file;

static enum covretin_error get_features(void)
{
    return covretin_ask_get_features(session);
}

static enum covretin_error set_protocol_features(void)
{
    return covretin_ask_set_protocol_features(session, COVRETIN_PROTOCOL_INFLIGHT_SHMFD | COVRETIN_PROTOCOL_CONFIG);
}

static enum covretin_error get_config(void)
{
    return covretin_ask_get_config(session, 0, 8, 0);
}

static enum covretin_error set_mem_table(void)
{
    const covretin_region regions[2] = {{.memory_size = 4096, .fd = file}, {.memory_size = 8192, .fd = file}};
    return covretin_ask_set_mem_table(session, regions, 2);
}

static enum covretin_error get_inflight_fd(void)
{
    const covretin_inflight asked = {.num_queues = 1, .queue_size = 64};
    return covretin_ask_get_inflight_fd(session, &asked);
}

/* Asks and exchanges, each once more where an allocation fails. */
static enum covretin_error call(enum covretin_error (*ask)(void))
{
    enum covretin_error error = ask();
    if (error == COVRETIN_OUT_OF_MEMORY || error == COVRETIN_SOCKET_RETRY)
        error = ask();
    if (error != COVRETIN_OK)
        return error;
    error = covretin_exchange(&device, 20000);
    if (error == COVRETIN_OUT_OF_MEMORY)
        error = covretin_exchange(&device, 20000);
    return error;
}

/* A connection whose backend has replied before it is asked. How its last call ended; 0: all is as it should be. */
static enum covretin_error life(int peer)
{
    static const uint8_t config[20] = {[4] = 8, [12] = 'b'}, inflight[24] = {0, 16, [16] = 1, [18] = 64};
    uint64_t number = 0;
    covretin_config part;
    uint8_t bytes[8];
    size_t count = 0;
    int32_t fd = -1;
    reply_number(peer, GET_FEATURES, COVRETIN_FEATURE_PROTOCOL_FEATURES);
    reply(peer, GET_CONFIG, config, sizeof config, NULL, 0);
    reply(peer, GET_INFLIGHT_FD, inflight, sizeof inflight, &file, 1);
    enum covretin_error error = call(get_features);
    if (error == COVRETIN_OK)
        error = covretin_answer_number(session, &number);
    if (error == COVRETIN_OK)
        error = call(set_protocol_features);
    if (error == COVRETIN_OK)
        error = call(get_config);
    if (error == COVRETIN_OK)
        error = covretin_answer_config(session, &part, bytes, sizeof bytes, &count);
    if (error == COVRETIN_OK)
        error = call(set_mem_table);
    if (error == COVRETIN_OK)
        error = call(get_inflight_fd);
    if (error == COVRETIN_OK)
        error = covretin_claim_fd(&device, &fd);
    if (error != COVRETIN_OK)
        return error;
    EXPECT(COVRETIN_FEATURE_PROTOCOL_FEATURES, number);
    EXPECT(true, count == 8 && bytes[0] == 'b');
    EXPECT(true, holds(fd, "in flight"));
    close(fd);
    return COVRETIN_OK;
}

/* Connects over a pair of sockets; from now on that allocation fails. The other end. */
static int connect_while_failing(int failure)
{
    int ends[2];
    if (socketpair(AF_UNIX, SOCK_STREAM | SOCK_CLOEXEC, 0, ends))
        give_up("socketpair");
    until_failure = failure;
    enum covretin_error error = covretin_connect_fd(&device, ends[0], 2);
    if (error == COVRETIN_OUT_OF_MEMORY)
        error = covretin_connect_fd(&device, ends[0], 2);
    EXPECT(COVRETIN_OK, error);
    return ends[1];
}

static void each_allocation_fails_once(void)
{
    int failed = 0, whole = 0;
    file = file_of("in flight");
    for (bool done = false; !done; failed++) {
        size_t before = open_fds();
        int peer = connect_while_failing(failed);
        enum covretin_error error = life(peer);
        done = until_failure >= 0; /* none failed */
        until_failure = -1;
        whole += error == COVRETIN_OK;
        EXPECT(true, error == COVRETIN_OK || error == COVRETIN_NOTHING_ASKED || error == COVRETIN_SOCKET_BROKEN);
        covretin_disconnect(&device);
        close(peer);
        EXPECT(before, open_fds());
    }
    EXPECT(true, failed > 10 && whole > 10);
    close(file);
}

int main(void)
{
    RUN(each_allocation_fails_once);
    return status();
}
