/* SPDX-License-Identifier: Apache-2.0 */
/* Checked, of c/covretin_device_rings.c: what is logged, how drivers are signalled and asked to tell of more, and what time is counted. */
#include "any_queue.h"

#include "covretin_device_rings.c"

/* -- Checks -- */

static struct session session;
static covretin_device_calls calls;
static uint64_t log_bytes_there[MOST_LOG / 8];
static struct mapping log_mapping;

static struct ring *any_ring(void)
{
    struct ring *ring = &session.rings[LAYOUT];
    __CPROVER_havoc_object(log_bytes_there);
    calls.queues = COVRETIN_DEVICE_MAX_QUEUES;
    calls.busy_poll_us = any_u32();
    session.calls = &calls;
    session.features = any_u64();
    log_mapping.at = (uint8_t *)log_bytes_there;
    log_mapping.size = any_size();
    GIVEN(log_mapping.size <= sizeof log_bytes_there);
    session.log = any_bool() ? &log_mapping : NULL;
    session.holder.wake = fd_new();
    session.polled = fd_new();
    session.empty = fd_new();
    ring->is_packed = false;
    ring->place.has_log_addr = any_bool();
    ring->place.log_addr = any_u64();
    ring->used = (uint64_t)(uintptr_t)guest;
    ring->is_quick = any_bool();
    ring->empty = any_u64();
    return ring;
}

void check_log_bytes(void)
{
    (void)any_ring();
    log_bytes(&session, any_u64(), any_u64());
    REACHED("logged");
}

void check_kicks(void)
{
    struct ring *ring = any_ring();
    if (any_bool())
        ring_kicked(&session, ring);
    if (any_bool())
        want_no_kicks(&session, ring);
    (void)is_to_go_on(&session, ring);
    REACHED("asked");
}

void check_signal(void)
{
    struct ring *ring = any_ring();
    bool prepared = signals_prepare();
    int fd = fd_new();
    ring->call = (struct bell){.fd = fd, .is_pipe = LAYOUT == 1, .is_socket = LAYOUT == 0 && any_bool()};
    session.why = COVRETIN_OK;
    tell(&session, ring);
    HOLDS(session.why == COVRETIN_OK || session.why == COVRETIN_SOCKET_ERROR, "what cannot be signalled ends the session");
    if (session.why != COVRETIN_OK)
        REACHED("it cannot be signalled");
    if (prepared)
        REACHED("prepared");
    bell_close(&ring->call);
    HOLDS(ring->call.fd == -1 && !fd_is_open(fd), "it is closed");
    ring->call.fd = -1;
    bell_close(&ring->call);
    ring->kick = fd_new();
    ring_drop_kick(&session, ring);
    ring_drop_kick(&session, ring);
    HOLDS(ring->kick == -1, "it has none any more");
}

void check_part(void)
{
    (void)any_ring();
    session.ends_at = any_u64();
    part_begin(&session);
    HOLDS(session.part_ends <= session.ends_at, "a part ends with its turn");
    (void)part_is_over(&session, any_u32() % LOOK_AFTER);
    REACHED("a part");
}

/* Any parts, whose sizes do not come to more than memory has; whatever the device says that it wrote. */
void check_log_written(void)
{
    static struct part parts[2];
    static struct taken taken;
    (void)any_ring();
    parts[0] = (struct part){any_u64(), any_u64()};
    parts[1] = (struct part){any_u64(), any_u64()};
    GIVEN(parts[0].size < (uint64_t)1 << 48 && parts[1].size < (uint64_t)1 << 48);
    taken.parts = parts;
    taken.part_count = LAYOUT;
    log_written(&session, &taken, any_u32());
    REACHED("logged");
}
