/* SPDX-License-Identifier: Apache-2.0 */
/* Checked: c/covretin_text.c and c/covretin_memory.c, for any number. */
#include "core.h"

#include "covretin_memory.c"
#include "covretin_text.c"

void check_texts(void)
{
    HOLDS(covretin_error_text((enum covretin_error)any_int()) != NULL, "any error has a text");
    HOLDS(covretin_request_text(any_u32()) != NULL && covretin_channel_request_text(any_u32()) != NULL, "any request has a name");
    HOLDS(covretin_version() != NULL, "there is a version");
    REACHED("texts");
}

void check_heap(void)
{
    uint64_t size = any_u64(), more = any_u64();
    GIVEN(size < MOST_MAPPED_BYTES && more < MOST_MAPPED_BYTES);
    struct room room = rattle_alloc(size, 8);
    HOLDS(room.at != NULL, "never at 0");
    if (room.is_there == 0)
        return;
    HOLDS(__CPROVER_rw_ok(room.at, size), "so many bytes");
    struct room other = rattle_realloc(room.at, size, more, 8);
    HOLDS(other.at != NULL, "never at 0");
    if (other.is_there != 0) {
        HOLDS(__CPROVER_rw_ok(other.at, more), "so many bytes");
        REACHED("more");
    }
    rattle_dealloc(other.is_there != 0 ? other.at : room.at);
}
