/* SPDX-License-Identifier: Apache-2.0 */
/* What a frontend's session may be asked: any call, with any arguments. */
#ifndef ASKS_H
#define ASKS_H

#include "run.h"

/* What was asked last, in the forms in which the other side reads it. */
struct asked {
    uint64_t number;
    uint32_t index;
    covretin_vring ring;
    covretin_region regions[33], log;
    size_t region_count;
    covretin_config config;
    const uint8_t *bytes;
    covretin_inflight inflight;
    uint32_t direction, phase;
    int32_t fd;
};
extern struct asked asked;

/* Asks what the input says. */
enum covretin_error ask(covretin_session *session, uint8_t which);

/* The number of the ask that a byte stands for: below 64. */
uint32_t number_of(uint8_t which);

/* Takes what is to be sent: one whole request, or nothing; how many bytes it has. Its descriptors are those that were asked with. */
size_t take_request(covretin_session *session, uint8_t *bytes, int32_t *fds, size_t *fd_count);

/* Reads the answer in every form, and tells it: at most one is its own. `may_name` is given each descriptor that it names. */
void read_answers(covretin_session *session, void may_name(int32_t fd));

#endif
