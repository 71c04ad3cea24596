/* SPDX-License-Identifier: Apache-2.0 */
/* What the fuzzers share: an input as the steps of a session, which is run several times, and what must hold of each run.
 *
 * The first run takes what the input says, and records it. The others have the same steps and the same bytes, in other pieces, ended
 * early, or with an allocation that fails; each must tell what the first one told, as far as it goes. */
#ifndef RUN_H
#define RUN_H

#include "covretin.h"

#include <string.h>

/* The entry of libFuzzer, which play.c calls as well. */
int LLVMFuzzerTestOneInput(const uint8_t *data, size_t size);

/* Whether an input is ended at every place, and each of its allocations fails, up to some hundred of each. libFuzzer, which has many
 * inputs, has one of each tried. */
extern bool at_every_place;

/* How many runs there were, how many bytes came in them, how often each error was an outcome; and how many calls were steps of a queue. */
extern struct tally {
    unsigned long runs, bytes, errors[128], steps;
} tally;

/* What a fuzzer has to have: a session's whole life. */
void run_session(void);

/* -- What the input decides. Where nothing is left of it, its bytes are 0. -- */

/* Whether there are more steps. */
bool more_steps(void);

uint8_t next_byte(void);

/* A number of 1, 2, 4 or 8 bytes, as the first says, so that small ones are short. */
uint64_t next_number(void);

/* At which step a run is, and back to there: for a call that is made again, with the same arguments. */
size_t this_step(void);
void back_to(size_t step);

/* -- What the peer sends. -- */

/* The descriptors of a message are numbers of their own: none of them is open. */
enum { FIRST_FD = 1000, MOST_FDS = 4 };

/* A piece of a message, with descriptors at its first byte where the input says so. */
struct piece {
    uint8_t bytes[COVRETIN_MAX_MESSAGE];
    size_t length;
    int32_t fds[MOST_FDS];
    size_t fd_count;
};

/* Whether more bytes come. */
bool more_bytes(void);

/* The next piece, of so many bytes at most; it may have none. */
void next_piece(size_t most, struct piece *piece);

/* Where both sides are there: how many bytes of those that are on their way are carried now. 0: none are any more. */
size_t next_carried(size_t most);

/* -- What must hold. -- */

/* The fuzzer ends where it does not. */
static inline void must(bool holds)
{
    if (!holds)
        __builtin_trap();
}

/* What is seen of the session, which every run has to tell alike: bytes, and numbers. */
void tell(const void *bytes, size_t size);
#define TELL(...) tell((const uint64_t[]){__VA_ARGS__}, sizeof((const uint64_t[]){__VA_ARGS__}))

/* How something ended that a number below 1024 stands for. It is told, with how many bytes had come; and new ones guide libFuzzer,
 * since the proved part has no counters of its own. */
void outcome(uint32_t what, enum covretin_error error);

/* The same of an outcome behind which nobody goes on. How many bytes came for it depends on the pieces, and is not told. */
void last_outcome(uint32_t what, enum covretin_error error);

/* The same of a call that has errors of its own, after none of which a run may go on otherwise. */
void outcome_of(uint32_t what, uint32_t error);

/* Whether a call is to be made again, since an allocation failed in it, and that left all as it was. */
bool is_again(enum covretin_error error);

/* Whether each allocation that failed was told by a call. */
bool is_heard(void);

/* Whether an error is one of an allocation. */
static inline bool is_starved(enum covretin_error error)
{
    return error == COVRETIN_OUT_OF_MEMORY || error == COVRETIN_SOCKET_RETRY || error == COVRETIN_SOCKET_BROKEN;
}

#endif
