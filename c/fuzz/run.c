/* SPDX-License-Identifier: Apache-2.0 */
/* Runs an input again and again. Linked with --wrap=malloc, --wrap=calloc and --wrap=realloc. */
#include "run.h"

#include <stdlib.h>

enum { MOST_INPUT = 1 << 20, MOST_TOLD = 1 << 20, PLACES = 128 };

bool at_every_place;
struct tally tally;

/* What the first run recorded: steps; bytes that came, the descriptors that came with some of them, and what had been told before
 * each; and a sum of what was told, after each that was. */
static uint8_t steps[MOST_INPUT + 4096], bytes[MOST_INPUT];
static struct {
    size_t at, count;
    int32_t fds[MOST_FDS];
} descriptors[MOST_INPUT / 2];
static uint32_t told_before[MOST_INPUT];
static uint64_t sums[MOST_TOLD];
static size_t step_count, byte_count, descriptor_count, told_count;
static long allocations;

/* How a run is: so many bytes at a time at most (0: any number), ended after so many, and with this allocation refused, and those
 * behind it, so many in all. */
struct way {
    size_t most, end;
    long refused_first, refused_count;
};

/* The run that is under way. */
static struct {
    bool is_first, is_under_way;
    bool has_strayed; /* an allocation failed, and what follows may be other than in the first run */
    bool is_over;     /* the last outcome was told */
    struct way way;
    size_t step, byte, descriptor, told;
    long allocations, refused, heard; /* how many there were, were refused, and were told by a call */
    uint64_t random;
} run;

/* What is left of the input, in the first run. */
static const uint8_t *input;
static size_t input_left;

/* -- Allocations -- */

void *__real_malloc(size_t size);
void *__real_calloc(size_t count, size_t size);
void *__real_realloc(void *at, size_t size);
void *__wrap_malloc(size_t size);
void *__wrap_calloc(size_t count, size_t size);
void *__wrap_realloc(void *at, size_t size);

static bool refuses(void)
{
    if (!run.is_under_way)
        return false;
    run.allocations++;
    if (run.allocations < run.way.refused_first || run.allocations >= run.way.refused_first + run.way.refused_count)
        return false;
    run.refused++;
    return true;
}

void *__wrap_malloc(size_t size)
{
    return refuses() ? NULL : __real_malloc(size);
}

void *__wrap_calloc(size_t count, size_t size)
{
    return refuses() ? NULL : __real_calloc(count, size);
}

void *__wrap_realloc(void *at, size_t size)
{
    return refuses() ? NULL : __real_realloc(at, size);
}

/* -- Steps -- */

/* A byte of the input itself. */
static uint8_t read_input(void)
{
    if (input_left == 0)
        return 0;
    input_left--;
    return *input++;
}

bool more_steps(void)
{
    return run.is_first ? input_left != 0 && told_count < MOST_TOLD - 256 : run.step < step_count;
}

uint8_t next_byte(void)
{
    if (run.is_first)
        steps[step_count++] = read_input();
    return run.is_first || run.step < step_count ? steps[run.step++] : 0;
}

uint64_t next_number(void)
{
    uint8_t first = next_byte();
    uint64_t number = first & 0x3f;
    for (unsigned i = 1; i < 1u << (first >> 6); i++)
        number = number << 8 | next_byte();
    return number;
}

size_t this_step(void)
{
    return run.step;
}

void back_to(size_t step)
{
    must(!run.is_first || step == run.step);
    run.step = step;
}

/* -- Bytes -- */

bool more_bytes(void)
{
    return run.is_first ? input_left != 0 && told_count < MOST_TOLD - 256 : run.byte < run.way.end;
}

/* Of the first run: what the input says comes next. */
static void record_piece(size_t most, struct piece *piece)
{
    size_t wanted = read_input();
    uint8_t fds = read_input();
    piece->length = wanted < most ? wanted : most;
    piece->fd_count = piece->length == 0 || fds < 128 ? 0 : fds % (MOST_FDS + 1);
    for (size_t i = 0; i < piece->fd_count; i++)
        piece->fds[i] = descriptors[descriptor_count].fds[i] = FIRST_FD + (int32_t)(descriptor_count * MOST_FDS + i);
    if (piece->fd_count != 0) {
        descriptors[descriptor_count].at = byte_count;
        descriptors[descriptor_count++].count = piece->fd_count;
    }
    for (size_t i = 0; i < piece->length; i++) {
        told_before[byte_count] = (uint32_t)told_count;
        piece->bytes[i] = bytes[byte_count++] = read_input();
    }
    run.byte = byte_count;
}

/* How many of some bytes come at a time. */
static size_t some_of(size_t count)
{
    run.random = run.random * 6364136223846793005u + 1442695040888963407u;
    size_t most = run.way.most != 0 ? run.way.most : 1 + (run.random >> 33) % 24;
    return count < most ? count : most;
}

void next_piece(size_t most, struct piece *piece)
{
    if (run.is_first) {
        record_piece(most, piece);
        return;
    }
    size_t left = run.way.end - run.byte;
    piece->length = some_of(most < left ? most : left);
    piece->fd_count = 0;
    if (piece->length != 0 && run.descriptor < descriptor_count && descriptors[run.descriptor].at == run.byte) {
        piece->fd_count = descriptors[run.descriptor].count;
        memcpy(piece->fds, descriptors[run.descriptor++].fds, sizeof piece->fds);
    }
    /* (no call of a system brings descriptors with a later byte than the first) */
    if (run.descriptor < descriptor_count && descriptors[run.descriptor].at - run.byte < piece->length)
        piece->length = descriptors[run.descriptor].at - run.byte;
    memcpy(piece->bytes, bytes + run.byte, piece->length);
    run.byte += piece->length;
}

size_t next_carried(size_t most)
{
    size_t left = run.is_first ? MOST_INPUT - byte_count : run.way.end - run.byte;
    size_t count = some_of(most < left ? most : left);
    for (size_t i = 0; run.is_first && i < count; i++)
        told_before[byte_count++] = (uint32_t)told_count;
    run.byte += count;
    return count;
}

/* -- What is told -- */

/* Outcomes that are worth finding: each alone, and with the one before it. */
enum { ALONE = 1 << 13, PAIRS = 1 << 15 };
__attribute__((section("__libfuzzer_extra_counters"), used)) static uint8_t outcomes[ALONE + PAIRS];

static void note(uint32_t now)
{
    static uint32_t before;
    outcomes[now % ALONE] = 1;
    outcomes[ALONE + (before * 2654435761u + now) % PAIRS] = 1;
    before = now;
}

static uint64_t sum_of(uint64_t sum, const uint8_t *told, size_t size)
{
    for (size_t i = 0; i < size; i++)
        sum = (sum ^ told[i]) * 0x100000001b3u;
    return sum ^ sum >> 29 ^ size;
}

void tell(const void *told, size_t size)
{
    if (run.has_strayed)
        return;
    uint64_t sum = sum_of(run.told == 0 ? 0xcbf29ce484222325u : sums[run.told - 1], told, size);
    if (run.is_first) {
        must(told_count < MOST_TOLD);
        sums[told_count++] = sum;
    }
    must(run.told < told_count && sums[run.told] == sum);
    run.told++;
}

/* A session has no socket, and so none of these errors. */
static bool is_of_socket(enum covretin_error error)
{
    return error == COVRETIN_SOCKET_ERROR || error == COVRETIN_SOCKET_CONNECT || error == COVRETIN_DISCONNECTED ||
           error == COVRETIN_INVALID_SOCKET_FD || error == COVRETIN_NOT_UNIX_SOCKET || error == COVRETIN_NOT_STREAM_SOCKET;
}

static void count(uint32_t what, uint32_t error)
{
    note(what * 131 + error);
    must(error < sizeof tally.errors / sizeof *tally.errors);
    tally.errors[error]++;
}

void outcome_of(uint32_t what, uint32_t error)
{
    count(what, error);
    TELL(what, error, run.byte);
}

/* An error of a session, which for want of memory goes another way from here on. */
static void heed(enum covretin_error error)
{
    must(!is_of_socket(error));
    if (is_starved(error)) {
        must(run.refused != 0);
        run.heard = run.refused;
        run.has_strayed = true;
    }
}

void outcome(uint32_t what, enum covretin_error error)
{
    heed(error);
    outcome_of(what, error);
}

void last_outcome(uint32_t what, enum covretin_error error)
{
    heed(error);
    count(what, error);
    TELL(what, error);
    run.is_over = true;
}

bool is_again(enum covretin_error error)
{
    if (error != COVRETIN_OUT_OF_MEMORY && error != COVRETIN_SOCKET_RETRY)
        return false;
    must(run.heard < run.refused);
    run.heard = run.refused;
    return true;
}

bool is_heard(void)
{
    return run.heard == run.refused;
}

/* -- Runs -- */

/* Runs the session in one way. */
static void run_so(struct way way, bool is_first)
{
    memset(&run, 0, sizeof run);
    run.way = way;
    run.is_first = is_first;
    run.random = told_count == 0 ? 0 : sums[told_count - 1];
    run.is_under_way = true;
    run_session();
    run.is_under_way = false;
    tally.runs++;
    tally.bytes += run.byte;
    size_t wanted = run.is_first || way.end == byte_count ? told_count : told_before[way.end];
    must(run.has_strayed || run.told == wanted || (run.is_over && run.told == wanted + 1));
}

static void record(const uint8_t *data, size_t size)
{
    input = data;
    input_left = size < MOST_INPUT ? size : MOST_INPUT;
    step_count = byte_count = descriptor_count = told_count = 0;
    run_so((struct way){.most = SIZE_MAX}, true);
    allocations = run.allocations;
}

/* Ends it after so many bytes. */
static void end_at(size_t end)
{
    run_so((struct way){.end = end}, false);
}

/* Refuses some allocations, this one first. */
static void refuse_at(long first)
{
    run_so((struct way){.end = byte_count, .refused_first = first, .refused_count = 1 + first % 3}, false);
    run_so((struct way){.end = byte_count, .refused_first = first, .refused_count = 1, .most = SIZE_MAX}, false);
}

int LLVMFuzzerTestOneInput(const uint8_t *data, size_t size)
{
    record(data, size);
    uint64_t random = told_count == 0 ? size : sums[told_count - 1] >> 7;
    run_so((struct way){.most = SIZE_MAX, .end = byte_count}, false);
    if (byte_count != 0) {
        run_so((struct way){.most = 1, .end = byte_count}, false);
        run_so((struct way){.end = byte_count}, false);
    }
    size_t ends = at_every_place ? PLACES : 1;
    for (size_t i = 0; i < ends && i < byte_count; i++)
        end_at(byte_count <= ends ? i : (random + i * (byte_count / ends)) % byte_count);
    for (size_t i = 0; i < ends && i < (size_t)allocations; i++)
        refuse_at(1 + (long)((size_t)allocations <= ends ? i : (random + i * ((size_t)allocations / ends)) % (size_t)allocations));
    return 0;
}
