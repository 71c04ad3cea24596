/* SPDX-License-Identifier: Apache-2.0 */
/* Why the call of a line was refused: see line_reasons.h. */
#include "line_reasons.h"
#include "covretin_features.h"
#include "covretin_reasons.h"

#include <stdio.h>

static void say(uint64_t line, const char *call, const char *reason)
{
    fflush(stdout);
    fprintf(stderr, "line %" PRIu64 ": ", line);
    fprintf(stderr, REASON_REFUSED(call, reason));
    fprintf(stderr, "\n");
}

void say_not_accepted(uint64_t line, const char *call, bool is_of_virtio, uint64_t bit)
{
    char reason[128];
    snprintf(reason, sizeof reason, REASON_NOT_ACCEPTED(name_of_feature(is_of_virtio, bit)));
    say(line, call, reason);
}

void say_no_ring(uint64_t line, const char *call, uint64_t ring, uint64_t rings, const char *how)
{
    char reason[192];
    snprintf(reason, sizeof reason, "there are %" PRIu64 " rings, from 0 on, and no ring %" PRIu64 "%s", rings, ring, how);
    say(line, call, reason);
}
