/* SPDX-License-Identifier: Apache-2.0 */
/* What a backend's session is asked, and what its device replies: anything. */
#ifndef SERVES_H
#define SERVES_H

#include "covretin_backend.h"
#include "run.h"

/* The form of a call's arguments. */
enum form { NO_FORM, NUMBER, RING, VRING, RING_FD, REGIONS, CONFIG, FD, NAME, INFLIGHT, TRANSFER, LOG, OTHER };

/* The arguments of the call that is to be replied to. */
struct called {
    enum form form;
    uint64_t number;
    uint32_t index, second;
    covretin_vring ring;
    covretin_region regions[32], log;
    size_t count;
    bool listening;
    covretin_config config;
    uint8_t bytes[COVRETIN_MAX_MESSAGE], name[16];
    covretin_inflight inflight;
    int32_t fd, fds[COVRETIN_MAX_FDS];
};
extern struct called called;

/* Reads the arguments in every form, and tells them: at most one is the call's. `may_name` is given each descriptor that they name. */
void read_arguments(covretin_backend *backend, void may_name(int32_t fd));

enum { REPLIED_FD = 7 };

/* What the device replied last. */
struct replied {
    uint64_t number, bases[32], sizes[256];
    uint32_t index;
    size_t count;
    uint8_t bytes[COVRETIN_MAX_CONFIG];
    covretin_inflight inflight;
    int32_t fd;
    bool has_refused;
    uint8_t form;
};
extern struct replied replied;

/* Replies to a call as the input says; where it says nothing that the call may be replied to by, it is refused. Told as the outcome
 * of the call. */
enum covretin_error reply_to(covretin_backend *backend, uint32_t call, void may_name(int32_t fd));

/* Takes what is to be sent: one whole reply to this request, or nothing; how many bytes it has. */
size_t take_reply(covretin_backend *backend, uint32_t code, uint8_t *bytes, int32_t *fds, size_t *fd_count);

#endif
