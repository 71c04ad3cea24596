/* SPDX-License-Identifier: Apache-2.0 */
/* What a file of the device kit may rely on of the others, as covretin_device_session.h and covretin_device_memory.h have it: for the checks of one
 * file over any behaviour of the rest. Mappings and spaces are counted and freed as they are there, so that a leak or a second release is found. */
#ifndef COVRETIN_CHECK_ANY_DEVICE_H
#define COVRETIN_CHECK_ANY_DEVICE_H

#include "core.h"

#include "covretin_device_session.h"

/* -- Saying why -- */

bool log_why(struct session *session, const char *form, ...)
{
    (void)session;
    HOLDS(form != NULL, "there is a text");
    return false;
}

bool log_file(struct session *session, const char *what, const covretin_region *region)
{
    (void)session;
    HOLDS(what != NULL && __CPROVER_r_ok(region, sizeof *region), "there is a text, and a region");
    return false;
}

bool log_region(struct session *session, size_t at, const covretin_region *region)
{
    (void)session, (void)at;
    HOLDS(__CPROVER_r_ok(region, sizeof *region), "there is a region");
    return false;
}

const char *log_rule(enum covretin_queue_error error)
{
    (void)error;
    return "a rule";
}

/* -- Memory -- */

void wake_up(int eventfd)
{
    HOLDS(fd_is_open(eventfd), "wake_up: it is open");
}

void take_faults(void)
{
}

static struct mapping *mapping_made(uint8_t *at, uint64_t size)
{
    struct mapping *made = malloc(sizeof *made);
    GIVEN(made != NULL);
    *made = (struct mapping){.users = 1, .at = at, .size = size, .guest = any_u64(), .user = any_u64(), .again = any_bool()};
    return made;
}

void mapping_release(struct mapping *mapping)
{
    if (mapping == NULL)
        return;
    HOLDS(mapping->users != 0, "it has a user");
    if (--mapping->users == 0)
        free(mapping);
}

/* Room for as many mappings as any check has. */
static struct space *space_made(void)
{
    struct space *made = malloc(sizeof *made + (MOST_REGIONS + 1) * sizeof *made->mappings);
    GIVEN(made != NULL);
    *made = (struct space){.users = 1};
    return made;
}

void space_release_many(struct space *space, size_t count)
{
    if (space == NULL)
        return;
    HOLDS(space->users != 0 && space->users >= count, "it has so many users");
    space->users -= count;
    if (space->users != 0)
        return;
    for (size_t i = 0; i < MOST_REGIONS + 1; i++)
        if (i < space->count)
            mapping_release(space->mappings[i]);
    free(space);
}

void space_release(struct space *space)
{
    space_release_many(space, 1);
}

/* -- Rings, which a check of theirs has by itself -- */

#ifndef THE_RINGS

void bell_close(struct bell *bell)
{
    if (bell->fd >= 0)
        fd_gone(bell->fd);
    *bell = (struct bell){.fd = -1};
}

void ring_drop_kick(const struct session *session, struct ring *ring)
{
    (void)session;
    if (ring->kick >= 0)
        fd_gone(ring->kick);
    ring->kick = -1;
}

void ring_leave(const struct session *session, struct ring *ring)
{
    (void)session;
    HOLDS(!ring->is_started || ring->space == NULL || ring->space->users != 0, "what it lies in is mapped");
}

void ring_stop(struct session *session, struct ring *ring)
{
    ring_drop_kick(session, ring);
    bell_close(&ring->call);
    ring->is_started = ring->is_due = ring->is_quiet = ring->is_ending = ring->is_broken = false;
    ring->broken_by = COVRETIN_QUEUE_OK;
    space_release(ring->space);
    ring->space = NULL;
    ring->inflight = NULL;
}

bool ring_is_running(const struct session *session, const struct ring *ring)
{
    (void)session;
    return ring->is_started && !ring->is_ending && !ring->is_broken && any_bool();
}

#endif

/* -- Postcopy -- */

bool arrival_end(struct arrival *arrival, const struct space *space)
{
    HOLDS(space == NULL || space->users != 0, "the space is there");
    if (arrival->userfault < 0)
        return false;
    fd_gone(arrival->userfault);
    arrival->userfault = -1;
    return any_bool();
}

#endif
