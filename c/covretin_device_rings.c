/* SPDX-License-Identifier: Apache-2.0 */
#ifndef _GNU_SOURCE
#define _GNU_SOURCE /* for MADV_WIPEONFORK */
#endif

#include "covretin_device_session.h"
#include "covretin_reasons.h"
#include "covretin_transport.h"

#include <errno.h>
#include <linux/aio_abi.h>
#include <signal.h>
#include <stdlib.h>
#include <string.h>
#include <sys/epoll.h>
#include <sys/mman.h>
#include <sys/socket.h>
#include <sys/syscall.h>
#include <time.h>
#include <unistd.h>

enum { UNSAID = 0x100000 }; /* as covretin_request_done says */

/* What is done for each chain is put into what is done for a burst; calls between its parts would be an eighth of all instructions. */
#define IN_PLACE __attribute__((always_inline)) static inline

/* -- Bytes of the guest, each read once -- */

static uint16_t read16(uint64_t at)
{
    return __atomic_load_n((const uint16_t *)(uintptr_t)at, __ATOMIC_ACQUIRE);
}

/* (most are all of these, which is one instruction) */
static void write_bytes(uint64_t at, uint64_t value, uint64_t len)
{
    if (len >= sizeof value)
        memcpy((void *)(uintptr_t)at, &value, sizeof value);
    else
        memcpy((void *)(uintptr_t)at, &value, (size_t)len);
}

/* Sets the bits of these pages. Where all of a byte or of a word are set it is not read: whoever collects them exchanges it for 0. */
static void set_bits(uint8_t *log, uint64_t page, uint64_t end)
{
    while (page < end) {
        covretin_log_bit bit;
        covretin_log_bit_of(page, &bit);
        uint8_t *at = log + bit.byte;
        if (bit.mask == 1 && end - page >= 64 && (uintptr_t)at % sizeof(uint64_t) == 0) {
            __atomic_store_n((uint64_t *)(void *)at, UINT64_MAX, __ATOMIC_SEQ_CST);
            page += 64;
        } else if (bit.mask == 1 && end - page >= 8) {
            __atomic_store_n(at, UINT8_MAX, __ATOMIC_SEQ_CST);
            page += 8;
        } else {
            __atomic_fetch_or(at, bit.mask, __ATOMIC_SEQ_CST);
            page++;
        }
    }
}

static bool is_logged(const struct session *session)
{
    return (session->features & COVRETIN_FEATURE_LOG_ALL) && session->log != NULL;
}

/* Logs that these bytes of the guest were written, where that is wanted. */
static void log_bytes(const struct session *session, uint64_t guest, uint64_t len)
{
    uint64_t page, end;
    if (is_logged(session) && len != 0 && covretin_log_pages(guest, len, session->log->size, &page, &end) == COVRETIN_QUEUE_OK)
        set_bits(session->log->at, page, end);
}

/* The same of bytes of a ring, where they are mapped. A packed ring has no address of its own for the log. */
static void log_ring(const struct session *session, const struct ring *ring, covretin_range range)
{
    if (!ring->place.has_log_addr)
        return;
    for (size_t i = 0; ring->is_packed && i < ring->space->count; i++) {
        const struct mapping *mapping = ring->space->mappings[i];
        uint64_t into = range.addr - (uint64_t)(uintptr_t)mapping->at;
        if (into < mapping->size)
            log_bytes(session, mapping->guest + into, range.len);
    }
    if (!ring->is_packed && ring->place.log_addr <= UINT64_MAX - (range.addr - ring->used))
        log_bytes(session, ring->place.log_addr + (range.addr - ring->used), range.len);
}

/* -- Their life -- */

/* Has the driver tell of more, or not. Whether it can be asked. */
static bool ask_for_kicks(const struct session *session, struct ring *ring, bool are_wanted)
{
    covretin_event_write event;
    ring->kicks = KICKS_UNKNOWN;
    if (covretin_queue_set_notification(&ring->queue, are_wanted, &event))
        return false;
    ring->kicks = are_wanted ? KICKS_WANTED : KICKS_UNWANTED;
    if (event.place.len != 0) {
        write_bytes(event.place.addr, event.value, event.place.len);
        log_ring(session, ring, event.place);
    }
    return true;
}

bool ring_is_running(const struct session *session, const struct ring *ring)
{
    return ring->is_started && !ring->is_ending && !ring->is_broken && !ring->is_away &&
           (ring->is_enabled || !(session->features & COVRETIN_FEATURE_PROTOCOL_FEATURES));
}

/* Where the index of the used ring is mapped. 0: nowhere. */
static uint64_t find_used(struct ring *ring)
{
    covretin_range index;
    if (covretin_queue_translate(&ring->queue, true, ring->place.used_ring_addr, 4, &index) || index.addr % 2 != 0)
        return 0;
    ring->used = index.addr;
    return index.addr + 2;
}

static bool not_to_start(struct session *session, const struct ring *ring, const char *rule)
{
    log_why(session, REASON_NOT_TO_START(ring - session->rings, rule));
    return false;
}

static bool starts(struct session *session, const struct ring *ring, enum covretin_queue_error error)
{
    return error == COVRETIN_QUEUE_OK || not_to_start(session, ring, log_rule(error));
}

/* Where its descriptors are mapped. What else was found of the ring is to be looked for anew. */
static enum covretin_queue_error find_table(struct ring *ring)
{
    const uint64_t size = ring->size * sizeof(covretin_descriptor);
    ring->shows = 0;
    ring->available = 0;
    ring->head_at = ring->head_count = 0;
    return covretin_queue_translate(&ring->queue, true, ring->place.desc_table_addr, size, &ring->table);
}

static bool start_split(struct session *session, struct ring *ring)
{
    uint64_t index = find_used(ring);
    covretin_split_ring at = {.desc_table = ring->place.desc_table_addr,
                              .avail_ring = ring->place.avail_ring_addr,
                              .used_ring = ring->place.used_ring_addr,
                              .size = ring->size,
                              .next_avail = (uint16_t)ring->base,
                              .event_idx = (session->features & COVRETIN_DEVICE_EVENT_IDX) != 0,
                              .indirect_desc = (session->features & COVRETIN_DEVICE_INDIRECT_DESC) != 0};
    if (index == 0)
        return not_to_start(session, ring, REASON_NOWHERE);
    at.next_used = read16(index);
    if (ring->inflight != NULL) {
        if (!inflight_recover_split(ring, at.next_used))
            return not_to_start(session, ring, REASON_NO_INFLIGHT);
        at.next_avail = (uint16_t)(at.next_used + ring->again_count);
    }
    return starts(session, ring, covretin_queue_start_split(&ring->queue, &at));
}

/* Where both places of a packed ring are, and their wrap counters: at first these are 1. Some, as DPDK's virtio_user, say the one of what is available
 * alone, as of a split ring: since nothing is under way the other is the same. */
static uint32_t packed_base(const struct ring *ring)
{
    uint32_t base = ring->has_base ? ring->base : 0x8000;
    return base >> 16 != 0 ? base : base << 16 | base;
}

static bool start_packed(struct session *session, struct ring *ring)
{
    const uint32_t base = packed_base(ring);
    covretin_packed_ring at = {.desc_ring = ring->place.desc_table_addr,
                               .driver_event = ring->place.avail_ring_addr,
                               .device_event = ring->place.used_ring_addr,
                               .size = ring->size,
                               .avail = (uint16_t)base,
                               .used = (uint16_t)(base >> 16),
                               .event_idx = (session->features & COVRETIN_DEVICE_EVENT_IDX) != 0,
                               .indirect_desc = (session->features & COVRETIN_DEVICE_INDIRECT_DESC) != 0};
    if (ring->inflight != NULL) {
        if (!inflight_recover_packed(ring, at.used))
            return not_to_start(session, ring, REASON_NO_INFLIGHT);
        at.avail = at.used = ring->used_place; /* what is taken again lies between */
    }
    return starts(session, ring, covretin_queue_start_packed(&ring->queue, &at));
}

/* The ring is mapped in the session's regions as they are now. */
static void use_space(struct session *session, struct ring *ring)
{
    space_release(ring->space);
    ring->space = session->space;
    ring->space->users++;
}

static void forget_again(struct ring *ring)
{
    free(ring->again);
    free(ring->next);
    ring->again = NULL;
    ring->next = NULL;
    ring->again_at = ring->again_count = 0;
}

bool ring_start(struct session *session, struct ring *ring)
{
    ring->is_packed = (session->features & COVRETIN_DEVICE_RING_PACKED) != 0;
    forget_again(ring);
    if (session->space == NULL)
        return not_to_start(session, ring, REASON_NO_MEMORY);
    if (!(ring->is_packed ? start_packed(session, ring) : start_split(session, ring)) || !starts(session, ring, find_table(ring))) {
        forget_again(ring);
        return false;
    }
    use_space(session, ring);
    ring->kicks = KICKS_UNKNOWN;
    ring->is_started = ring->is_due = true;
    ring->is_broken = ring->is_ending = ring->is_away = false;
    return true;
}

void ring_move(struct session *session, struct ring *ring)
{
    const covretin_vring *to = &ring->place;
    if (!ring->is_started)
        return;
    if (ring->is_packed)
        ring->is_away = covretin_queue_move_packed(&ring->queue, to->desc_table_addr, to->avail_ring_addr, to->used_ring_addr) != 0;
    else
        ring->is_away = covretin_queue_move_split(&ring->queue, to->desc_table_addr, to->avail_ring_addr, to->used_ring_addr) ||
                        find_used(ring) == 0;
    ring->is_away = ring->is_away || find_table(ring) != COVRETIN_QUEUE_OK;
    if (!ring->is_away)
        use_space(session, ring);
    ring->is_due = true;
    ring->is_quiet = false;
}

void bell_close(struct bell *bell)
{
    if (bell->is_socket)
        transport_close_given(bell->fd);
    else if (bell->fd >= 0)
        close(bell->fd);
    *bell = (struct bell){.fd = -1};
}

/* (the frontend has it, too, so that closing it here does not take it off what is polled) */
void ring_drop_kick(const struct session *session, struct ring *ring)
{
    if (ring->kick >= 0) {
        epoll_ctl(session->polled, EPOLL_CTL_DEL, ring->kick, NULL);
        close(ring->kick);
    }
    ring->kick = -1;
}

void ring_leave(const struct session *session, struct ring *ring)
{
    if (ring->is_started && !ring->is_away && ring->kicks == KICKS_UNWANTED && !session->holder.has_lost)
        ask_for_kicks(session, ring, true);
}

void ring_stop(struct session *session, struct ring *ring)
{
    ring_drop_kick(session, ring);
    bell_close(&ring->call);
    ring->is_started = ring->is_due = ring->is_quiet = ring->is_ending = ring->is_broken = false;
    ring->broken_by = COVRETIN_QUEUE_OK;
    covretin_queue_stop(&ring->queue);
    space_release(ring->space);
    ring->space = NULL;
    ring->inflight = NULL;
    forget_again(ring);
}

/* -- What is available -- */

/* Where the ring shows what is available, which is asked once for a split ring. */
static enum covretin_queue_error find_shown(struct ring *ring)
{
    covretin_range place;
    enum covretin_queue_error error = ring->shows == 0 ? covretin_queue_available_place(&ring->queue, &place) : COVRETIN_QUEUE_OK;
    if (!error && ring->shows == 0)
        ring->shows = place.addr;
    return error;
}

static enum covretin_queue_error look(struct ring *ring)
{
    enum covretin_queue_error error = find_shown(ring);
    if (error)
        return error;
    ring->shown = read16(ring->shows);
    return covretin_queue_available(&ring->queue, ring->shown, &ring->available);
}

/* Reads 16 bytes of the guest's, none of them twice. */
static void read_once(covretin_descriptor *to, uint64_t at)
{
    memcpy(to, (const void *)(uintptr_t)at, sizeof *to);
    __asm__("" : "+m"(*to));
}

enum { NEXT = 1, INDIRECT = 4 };

/* How many bytes ahead of what is read a packed ring is fetched. */
enum { AHEAD = 256 };

/* Copies descriptors from where the chain goes on, as many as there is room for: of a split ring's chain, */
IN_PLACE size_t copy_linked(const covretin_table *table, covretin_descriptor *copies)
{
    const size_t entries = table->range.len / sizeof *copies;
    size_t count = 0, at = table->next;
    while (at < entries && count < COPIES) {
        covretin_descriptor *to = &copies[count++];
        read_once(to, table->range.addr + at * sizeof *to);
        at = (to->third & (NEXT | INDIRECT)) == NEXT ? to->fourth : entries;
    }
    return count;
}

/* and of a packed one's, which lie in a row, round the ring's end; or are all that an indirect table has. */
IN_PLACE size_t copy_row(const covretin_table *table, bool is_indirect, covretin_descriptor *copies)
{
    const size_t entries = table->range.len / sizeof *copies;
    size_t count = 0, at = table->next;
    while (at < entries && count < COPIES) {
        covretin_descriptor *to = &copies[count++];
        read_once(to, table->range.addr + at * sizeof *to);
        if (!is_indirect && (to->fourth & (NEXT | INDIRECT)) != NEXT)
            break;
        at++;
        if (!is_indirect && at == entries)
            at = 0;
    }
    return count;
}

/* Copies what comes next of a chain, of either layout. */
IN_PLACE size_t copy_next(struct session *session, bool is_packed, const covretin_table *table, bool is_indirect)
{
    return is_packed ? copy_row(table, is_indirect, session->copies) : copy_linked(table, session->copies);
}

/* A chain that is followed by copies of its descriptors. */
struct chain {
    covretin_walked walked;
    size_t count;     /* of the copies */
    bool is_indirect; /* what comes of a packed ring's chain lies in no ring */
    uint16_t id;
};

/* Descriptors of a packed ring were followed up to this one. The last that lies in the ring has the chain's id. Behind it the next chain begins; where
 * that is round the ring's end, the queue is asked. */
IN_PLACE void leave_ring(struct ring *ring, struct chain *chain, const covretin_descriptor *last)
{
    chain->id = last->third;
    chain->is_indirect = (last->fourth & INDIRECT) != 0;
    ring->shows += ring->shows != 0 ? chain->count * sizeof *last : 0;
    if (ring->shows >= ring->table.addr + ring->table.len)
        ring->shows = 0;
}

/* The copies were followed, and their segments are the session's. */
IN_PLACE enum covretin_queue_error go_on(struct session *session, struct ring *ring, bool is_packed, struct chain *chain)
{
    session->segment_count += chain->walked.count;
    if (chain->walked.taken < chain->count)
        return COVRETIN_QUEUE_CHAIN_TOO_LONG;
    if (is_packed && !chain->is_indirect && chain->count != 0)
        leave_ring(ring, chain, &session->copies[chain->count - 1]);
    return COVRETIN_QUEUE_OK;
}

/* Follows the chain to its end. */
static enum covretin_queue_error follow(struct session *session, struct ring *ring, struct chain *chain)
{
    enum covretin_queue_error error = COVRETIN_QUEUE_OK;
    while (!error && chain->walked.table.goes_on) {
        size_t room = COVRETIN_DEVICE_MAX_QUEUE_SIZE - session->segment_count;
        covretin_segment *segments = &session->segments[session->segment_count];
        chain->count = copy_next(session, ring->is_packed, &chain->walked.table, chain->is_indirect);
        error = covretin_queue_walk(&ring->queue, session->copies, chain->count, segments, room, &chain->walked);
        error = error ? error : go_on(session, ring, ring->is_packed, chain);
    }
    return error;
}

/* Takes the chain that begins at this entry of the table, and follows it to its end: by a head, or by flags. */
IN_PLACE enum covretin_queue_error take_chain(struct session *session, struct ring *ring, bool is_packed, uint16_t value, uint16_t at, uint16_t *id)
{
    const covretin_table table = {ring->table, at, true};
    struct chain chain;
    enum covretin_queue_error error;
    chain.id = value;
    chain.is_indirect = false;
    chain.count = copy_next(session, is_packed, &table, false);
    session->segment_count = 0;
    error = covretin_queue_take(&ring->queue, value, session->copies, chain.count, session->segments, COVRETIN_DEVICE_MAX_QUEUE_SIZE, &chain.walked);
    if (!error)
        error = go_on(session, ring, is_packed, &chain);
    if (!error && chain.walked.table.goes_on)
        error = follow(session, ring, &chain);
    *id = chain.id;
    return error;
}

/* The next descriptor of a packed ring's chain, which is at this place and is kept in the inflight region, or was before a crash; or one that
 * was read, whose rest comes. */
static enum covretin_queue_error read_kept(struct ring *ring, covretin_range place, bool is_kept, bool again, covretin_descriptor *descriptor)
{
    if (place.len == 0)
        return COVRETIN_QUEUE_OK;
    if (is_kept && again)
        return inflight_kept(ring, descriptor) ? COVRETIN_QUEUE_OK : COVRETIN_QUEUE_INVALID_INFLIGHT;
    read_once(descriptor, place.addr);
    return !is_kept || inflight_keep(ring, descriptor) ? COVRETIN_QUEUE_OK : COVRETIN_QUEUE_TOO_MANY_AVAILABLE;
}

/* The same of a packed ring that has an inflight region, by one descriptor a call: each is kept before it is looked at. */
static enum covretin_queue_error follow_kept(struct session *session, struct ring *ring, uint16_t *id, bool again)
{
    covretin_descriptor descriptor = {0};
    bool is_indirect = false;
    session->segment_count = 0;
    for (;;) {
        covretin_range place;
        bool found;
        enum covretin_queue_error error = covretin_queue_descriptor_place(&ring->queue, &place, &found);
        if (error || !found)
            return error;
        if (session->segment_count == COVRETIN_DEVICE_MAX_QUEUE_SIZE)
            return COVRETIN_QUEUE_CHAIN_TOO_LONG;
        error = read_kept(ring, place, !is_indirect, again, &descriptor);
        if (error)
            return error;
        error = covretin_queue_step(&ring->queue, &descriptor, &session->segments[session->segment_count], &found);
        if (error)
            return error;
        if (!is_indirect)
            *id = descriptor.third;
        is_indirect = is_indirect || !found;
        session->segment_count += found;
    }
}

/* Reads the next heads of a split ring: as many as are told of, up to the ring's end. Their descriptors are read soon. NOTHING_AVAILABLE: there is
 * none. */
static enum covretin_queue_error read_heads(struct ring *ring)
{
    covretin_range place;
    enum covretin_queue_error error = ring->available == 0 ? look(ring) : COVRETIN_QUEUE_OK;
    if (error || ring->available == 0)
        return error ? error : COVRETIN_QUEUE_NOTHING_AVAILABLE;
    error = covretin_queue_heads_place(&ring->queue, COVRETIN_DEVICE_BURST, &place);
    if (error)
        return error;
    ring->head_at = 0;
    ring->head_count = place.len / sizeof *ring->heads;
    for (size_t i = 0; i < ring->head_count; i++) {
        ring->heads[i] = read16(place.addr + i * sizeof *ring->heads);
        __builtin_prefetch((const void *)(uintptr_t)(ring->table.addr + ring->heads[i] * sizeof(covretin_descriptor)));
    }
    ring->available = (uint16_t)(ring->available - ring->head_count);
    return COVRETIN_QUEUE_OK;
}

IN_PLACE enum covretin_queue_error take_split(struct session *session, struct ring *ring, uint16_t *id)
{
    enum covretin_queue_error error = ring->head_at == ring->head_count ? read_heads(ring) : COVRETIN_QUEUE_OK;
    uint16_t head;
    if (error)
        return error;
    head = ring->heads[ring->head_at++];
    error = take_chain(session, ring, false, head, head, id);
    if (!error && ring->inflight != NULL)
        inflight_take_head(ring, head);
    return error;
}

/* Whether there is a chain is seen by the flags of its first descriptor, which are read before it. */
static enum covretin_queue_error take_packed(struct session *session, struct ring *ring, uint16_t *id)
{
    enum covretin_queue_error error = find_shown(ring);
    uint64_t at;
    if (error)
        return error;
    at = (ring->shows - ring->table.addr) / sizeof(covretin_descriptor);
    ring->shown = read16(ring->shows);
    __builtin_prefetch((const void *)(uintptr_t)(ring->shows + AHEAD));
    return take_chain(session, ring, true, ring->shown, (uint16_t)at, id);
}

/* The same of a ring that has an inflight region. */
static enum covretin_queue_error take_kept(struct session *session, struct ring *ring, uint16_t *id)
{
    enum covretin_queue_error error = look(ring);
    if (error || ring->available == 0)
        return error ? error : COVRETIN_QUEUE_NOTHING_AVAILABLE;
    ring->kept = (struct kept){.head = ring->free_head, .behind = ring->free_head};
    error = follow_kept(session, ring, id, false);
    ring->shows = 0;
    if (!error)
        inflight_take_kept(ring);
    return error;
}

/* A request that the device before had. */
static enum covretin_queue_error take_again(struct session *session, struct ring *ring, uint16_t *id)
{
    struct chain chain = {0};
    enum covretin_queue_error error;
    *id = ring->again[ring->again_at++].head;
    ring->kept = (struct kept){.head = *id, .behind = *id};
    session->segment_count = 0;
    if (ring->is_packed) {
        ring->shows = 0; /* (it goes on, too) */
        error = covretin_queue_resubmit_packed(&ring->queue);
        return error ? error : follow_kept(session, ring, id, true);
    }
    error = covretin_queue_resubmit(&ring->queue, *id);
    error = error ? error : covretin_queue_table(&ring->queue, &chain.walked.table);
    return error ? error : follow(session, ring, &chain);
}

/* The next request, whose segments are the session's then. NOTHING_AVAILABLE: there is none. */
IN_PLACE enum covretin_queue_error take(struct session *session, struct ring *ring, uint16_t *id, bool *again)
{
    *again = ring->again_at < ring->again_count;
    if (*again)
        return take_again(session, ring, id);
    if (!ring->is_packed)
        return take_split(session, ring, id);
    return ring->inflight == NULL ? take_packed(session, ring, id) : take_kept(session, ring, id);
}

/* Has the driver tell of more. Whether there is more already. */
static bool wait_for_kicks(const struct session *session, struct ring *ring)
{
    if (!ask_for_kicks(session, ring, true))
        return false;
    atomic_thread_fence(memory_order_seq_cst);
    return look(ring) != COVRETIN_QUEUE_OK || ring->available != 0;
}

/* -- How long it is empty -- */

uint64_t time_now(void)
{
    struct timespec at;
    clock_gettime(CLOCK_MONOTONIC, &at);
    return (uint64_t)at.tv_sec * 1000000000 + (uint64_t)at.tv_nsec;
}

void part_begin(struct session *session)
{
    uint64_t ends = time_now() + PART;
    session->since_look = 0;
    session->part_ends = ends < session->ends_at ? ends : session->ends_at;
}

bool part_is_over(struct session *session, unsigned done)
{
    session->since_look += done;
    if (session->since_look < LOOK_AFTER)
        return false;
    session->since_look = 0;
    return time_now() >= session->part_ends;
}

/* Whether a ring that has been empty since then is still to be looked at. */
static bool is_soon(const struct session *session, uint64_t empty, uint64_t now)
{
    return now - empty < (uint64_t)session->calls->busy_poll_us * 1000;
}

void ring_kicked(const struct session *session, struct ring *ring)
{
    COUNT(session, kicks, 1);
    ring->is_due = true;
    ring->is_quick = session->calls->busy_poll_us != 0 && is_soon(session, ring->empty, time_now());
}

/* Whether an empty ring may be looked at by this thread: where there is one processor alone, not while the device has a request of it, since
 * whoever serves that has no other. */
static bool may_look(const struct session *session, const struct ring *ring)
{
    return ring->is_quick && (ring->out == 0 || !session->is_on_one_processor);
}

/* The ring is empty. Whether it is to be served on. */
static bool is_to_go_on(const struct session *session, struct ring *ring)
{
    if (session->calls->busy_poll_us != 0)
        ring->empty = time_now();
    ring->is_quiet = may_look(session, ring) && ask_for_kicks(session, ring, false);
    return !ring->is_quiet && wait_for_kicks(session, ring);
}

/* Looks at quiet rings until one shows more: which. None: they are as many. */
static size_t look_at_quiet(const struct session *session, struct ring *const *quiet, size_t count, uint64_t empty, bool *is_over)
{
    size_t found;
    uint64_t now;
    do {
        for (found = 0; found < count && read16(quiet[found]->shows) == quiet[found]->shown;)
            found++;
        now = time_now();
        *is_over = !is_soon(session, empty, now);
    } while (found == count && !session->is_stopped && !session->holder.has_lost && !*is_over && now < session->ends_at);
    return found;
}

bool rings_busy_poll(struct session *session)
{
    struct ring *quiet[COVRETIN_DEVICE_MAX_QUEUES];
    size_t count = 0, found;
    uint64_t last = 0;
    bool is_over;
    for (uint32_t i = 0; i < session->calls->queues; i++) {
        struct ring *ring = &session->rings[i];
        if (!ring_is_running(session, ring))
            continue;
        if (ring->is_due)
            return false;
        if (ring->is_quiet) {
            quiet[count++] = ring;
            last = ring->empty > last ? ring->empty : last;
        }
    }
    if (count == 0)
        return false;
    pthread_mutex_unlock(&session->lock);
    found = look_at_quiet(session, quiet, count, last, &is_over);
    pthread_mutex_lock(&session->lock);
    for (size_t i = 0; found == count && is_over && i < count; i++) {
        quiet[i]->is_quiet = quiet[i]->is_quick = false;
        quiet[i]->is_due = wait_for_kicks(session, quiet[i]);
    }
    if (found == count)
        return false;
    quiet[found]->is_quiet = false;
    quiet[found]->is_due = true;
    return true;
}

/* -- Requests -- */

static struct taken *taken_make(struct session *session, size_t room)
{
    struct taken *taken = malloc(sizeof *taken + room * (sizeof(struct iovec) + sizeof(struct part)));
    if (taken == NULL)
        return NULL;
    taken->session = session;
    taken->room = (uint16_t)room;
    taken->parts = (struct part *)(void *)&taken->segments[room];
    return taken;
}

/* What holds a request of so many segments. Those of few are kept for the next ones, since most requests have few. */
IN_PLACE struct taken *taken_find(struct session *session, size_t count)
{
    if (count > KEPT_SEGMENTS)
        return taken_make(session, count);
    return session->spare_count != 0 ? session->spare[--session->spare_count] : taken_make(session, KEPT_SEGMENTS);
}

void taken_drop(struct session *session, struct taken *taken)
{
    if (taken->room == KEPT_SEGMENTS && session->spare_count != MOST_KEPT)
        session->spare[session->spare_count++] = taken;
    else
        free(taken);
}

void taken_free_kept(struct session *session)
{
    while (session->spare_count != 0)
        free(session->spare[--session->spare_count]);
}

IN_PLACE struct taken *taken_new(struct session *session, struct ring *ring, uint16_t id, bool again)
{
    const size_t count = session->segment_count;
    struct taken *taken = taken_find(session, count);
    if (taken == NULL)
        return NULL;
    taken->space = session->space; /* (of the regions as they are now, which a ring that was not found anew need not lie in) */
    taken->id = id;
    taken->kept = ring->kept;
    taken->part_count = 0;
    for (size_t i = 0; i < count; i++) {
        const covretin_segment *segment = &session->segments[i];
        taken->segments[i] = (struct iovec){(void *)(uintptr_t)segment->range.addr, (size_t)segment->range.len};
        if (segment->writable)
            taken->parts[taken->part_count++] = (struct part){segment->guest_addr, segment->range.len};
    }
    taken->request = (covretin_request){.segments = taken->segments,
                                        .readable = count - taken->part_count,
                                        .writable = taken->part_count,
                                        .queue = (uint32_t)(ring - session->rings),
                                        .again = again};
    return taken;
}

static uint64_t bytes_of(const covretin_request *request)
{
    uint64_t bytes = 0;
    for (size_t i = 0; i < request->readable + request->writable; i++)
        bytes += request->segments[i].iov_len;
    return bytes;
}

/* So many requests of a ring are the device's. They are counted before that has them, who may be done with them at once. */
static void count_out(struct session *session, struct ring *ring, covretin_request *const *requests, size_t count)
{
    if (count == 0)
        return;
    COUNT(session, requests, count);
    for (size_t i = 0; i < count && session->calls->stats != NULL; i++)
        COUNT(session, bytes, bytes_of(requests[i]));
    session->space->users += count;
    ring->out += count;
    session->out += count;
}

static void hand_out(struct session *session, covretin_request *const *requests, size_t count)
{
    if (count == 0)
        return;
    pthread_mutex_unlock(&session->lock);
    if (session->calls->requests != NULL)
        session->calls->requests(session->own, requests, count);
    else
        session->calls->request(session->own, requests[0]);
    pthread_mutex_lock(&session->lock);
}

static void break_ring(struct session *session, struct ring *ring, enum covretin_queue_error error)
{
    ring->is_broken = true;
    ring->broken_by = COVRETIN_QUEUE_OK;
    ring_signal(session, &ring->error);
    log_broken((uint32_t)(ring - session->rings), error);
    if (session->calls->broken == NULL)
        return;
    pthread_mutex_unlock(&session->lock);
    session->calls->broken(session->own, (uint32_t)(ring - session->rings), error);
    pthread_mutex_lock(&session->lock);
}

/* Whether the device takes its requests by itself: what the driver makes available is found once it is wanted. */
static bool is_taken_of(const struct session *session, const struct ring *ring)
{
    return session->calls->taken_queues >> (ring - session->rings) & 1;
}

/* What was taken of a ring at once, */
struct burst {
    covretin_request *requests[COVRETIN_DEVICE_BURST];
    size_t count;
    enum covretin_queue_error error; /* and why no more was */
    bool is_over;                    /* the part of the turn is */
};

/* Takes a request, and says why there is none. Where memory of the session is lost there is none: what was read may be zeros that nobody wrote. And
 * where there is no memory for it the session ends. */
IN_PLACE covretin_request *take_one(struct session *session, struct ring *ring, enum covretin_queue_error *error)
{
    uint16_t id = 0;
    bool again;
    struct taken *taken;
    *error = take(session, ring, &id, &again);
    if (*error || session->holder.has_lost)
        return NULL;
    taken = taken_new(session, ring, id, again);
    if (taken == NULL)
        session->why = COVRETIN_OUT_OF_MEMORY;
    return taken != NULL ? &taken->request : NULL;
}

size_t ring_take(struct session *session, struct ring *ring, covretin_request **requests, size_t most)
{
    enum covretin_queue_error error = COVRETIN_QUEUE_OK;
    bool has_asked = false;
    size_t count = 0;
    if (!is_taken_of(session, ring) || !ring_is_running(session, ring) || session->why != COVRETIN_OK || session->is_stopped)
        return 0;
    while (count < most) {
        requests[count] = take_one(session, ring, &error);
        if (requests[count] != NULL) {
            has_asked = false;
            count++;
            continue;
        }
        /* (who finds too few hears of the next one by its kick) */
        if (error != COVRETIN_QUEUE_NOTHING_AVAILABLE || has_asked || !wait_for_kicks(session, ring))
            break;
        has_asked = true;
    }
    count_out(session, ring, requests, count);
    if (error && error != COVRETIN_QUEUE_NOTHING_AVAILABLE) {
        ring->is_broken = ring->is_due = true; /* ring_serve tells that: nothing is called back from here */
        ring->broken_by = error;
    }
    return count;
}

/* Takes as many requests as the device gets at once, before the time is looked at. */
static void take_burst(struct session *session, struct ring *ring, struct burst *burst)
{
    const size_t most = session->calls->requests != NULL ? COVRETIN_DEVICE_BURST : 1;
    covretin_request *request;
    unsigned done = 0;
    burst->count = 0;
    do {
        request = take_one(session, ring, &burst->error);
        done += OF_A_CHAIN + (unsigned)session->segment_count;
        if (request != NULL)
            burst->requests[burst->count++] = request;
    } while (request != NULL && burst->count < most && done < OF_A_BURST);
    count_out(session, ring, burst->requests, burst->count);
    burst->is_over = part_is_over(session, done);
}

/* The driver is asked not to tell of more, unless it was. */
static void want_no_kicks(const struct session *session, struct ring *ring)
{
    if (ring->kicks != KICKS_UNWANTED && ring_is_running(session, ring))
        ask_for_kicks(session, ring, false);
}

/* Hands out what is there, until the part of the turn is over: false. */
static bool serve_bursts(struct session *session, struct ring *ring)
{
    for (size_t done = 0; ring_is_running(session, ring) && session->why == COVRETIN_OK && !session->is_stopped;) {
        struct burst burst;
        take_burst(session, ring, &burst);
        hand_out(session, burst.requests, burst.count);
        if (session->holder.has_lost)
            return true;
        if (burst.error == COVRETIN_QUEUE_NOTHING_AVAILABLE && !is_to_go_on(session, ring))
            return true;
        if (burst.error && burst.error != COVRETIN_QUEUE_NOTHING_AVAILABLE)
            break_ring(session, ring, burst.error);
        done += burst.count != 0 ? burst.count : 1;
        if (done > 1) /* (more of them are likely to come) */
            want_no_kicks(session, ring);
        if (done > ring->size || burst.is_over) {
            ring->is_due = true;
            return !burst.is_over;
        }
    }
    return true;
}

bool ring_serve(struct session *session, struct ring *ring)
{
    ring->is_due = ring->is_quiet = false;
    if (ring->broken_by != COVRETIN_QUEUE_OK && !session->holder.has_lost)
        break_ring(session, ring, ring->broken_by);
    if (!is_taken_of(session, ring))
        return serve_bursts(session, ring);
    want_no_kicks(session, ring);
    return true;
}

/* -- Signals -- */

enum { MOST_READS = 64, MOST_TRIES = 64 };

/* What reads for eventfds: one for all of a process, since the end of one waits. A child of fork has none of its parent's, so this lies
 * on a page that is zeros there. */
struct reads {
    _Atomic aio_context_t context;
    atomic_uint count; /* that were begun */
};

static struct reads *_Atomic reads;

/* NULL: there is no memory for it. */
static struct reads *reads_of_process(void)
{
    const size_t page = (size_t)sysconf(_SC_PAGESIZE);
    struct reads *found = reads;
    if (found != NULL)
        return found;
    struct reads *made = mmap(NULL, page, PROT_READ | PROT_WRITE, MAP_PRIVATE | MAP_ANONYMOUS, -1, 0);
    if (made == MAP_FAILED)
        return NULL;
    if (madvise(made, page, MADV_WIPEONFORK) == 0 && atomic_compare_exchange_strong(&reads, &found, made))
        return made;
    munmap(made, page);
    return found; /* of another thread, who was sooner, or none */
}

/* 0: the system gives none. */
static aio_context_t context_of(struct reads *all)
{
    aio_context_t found = all->context, made = 0;
    if (found != 0 || syscall(SYS_io_setup, MOST_READS, &made) != 0)
        return found;
    if (atomic_compare_exchange_strong(&all->context, &found, made))
        return made;
    syscall(SYS_io_destroy, made);
    return found;
}

bool signals_prepare(void)
{
    struct reads *all = reads_of_process();
    return all != NULL && context_of(all) != 0;
}

/* Takes the ends of reads, so that there is room for those of others. */
static void collect(aio_context_t context)
{
    static const struct timespec at_once = {0, 0};
    struct io_event ended[MOST_READS];
    syscall(SYS_io_getevents, context, 0, MOST_READS, ended, &at_once);
}

/* A read of nothing, that names an eventfd which the kernel adds 1 to as it ends: that never waits, which a write may, whatever this
 * process asks for. False: the system refused it. */
static bool signal_eventfd(const struct session *session, int fd)
{
    struct iocb read = {.aio_lio_opcode = IOCB_CMD_PREAD,
                        .aio_fildes = (uint32_t)session->empty,
                        .aio_flags = IOCB_FLAG_RESFD,
                        .aio_resfd = (uint32_t)fd};
    struct iocb *list[] = {&read};
    struct reads *all = reads_of_process();
    aio_context_t context = all != NULL ? context_of(all) : 0;
    for (unsigned tried = 0; context != 0 && tried < MOST_TRIES; tried++) {
        bool is_begun = syscall(SYS_io_submit, context, 1, list) == 1;
        if (!is_begun && errno != EAGAIN)
            return false;
        if (!is_begun || ++all->count % MOST_READS == 0)
            collect(context);
        if (is_begun)
            return true;
    }
    return false;
}

/* To a pipe that nobody reads a write fails without a signal. */
static void signal_pipe(int fd)
{
    static const struct timespec at_once = {0, 0};
    sigset_t pipe_signal, were;
    sigemptyset(&pipe_signal);
    sigaddset(&pipe_signal, SIGPIPE);
    pthread_sigmask(SIG_BLOCK, &pipe_signal, &were);
    wake_up(fd);
    if (!sigismember(&were, SIGPIPE)) {
        while (sigtimedwait(&pipe_signal, NULL, &at_once) > 0)
            ;
        pthread_sigmask(SIG_SETMASK, &were, NULL);
    }
}

/* A pipe or socket that is full has something to be read. A driver whose eventfd cannot be signalled would wait for ever. */
void ring_signal(struct session *session, const struct bell *bell)
{
    static const uint64_t one = 1;
    if (bell->fd < 0)
        return;
    if (bell->is_socket)
        (void)!send(bell->fd, &one, sizeof one, MSG_DONTWAIT | MSG_NOSIGNAL);
    else if (bell->is_pipe)
        signal_pipe(bell->fd);
    else if (!signal_eventfd(session, bell->fd) && session->why == COVRETIN_OK) {
        session->why = COVRETIN_SOCKET_ERROR;
        wake_up(session->holder.wake);
    }
}

/* Whether the driver is to be told, and if so that is done. */
static void tell(struct session *session, struct ring *ring)
{
    covretin_range place;
    bool needed;
    atomic_thread_fence(memory_order_seq_cst);
    if (covretin_queue_notification_place(&ring->queue, &place))
        return;
    uint16_t value = read16(place.addr), flags = place.len == 4 ? read16(place.addr + 2) : 0;
    if (covretin_queue_needs_notification(&ring->queue, value, flags, &needed) != COVRETIN_QUEUE_OK || !needed)
        return;
    COUNT(session, calls, 1);
    ring_signal(session, &ring->call);
}

/* Logs what a part of a request has of its bytes from one to another; the part begins at this one. */
static void log_part(const struct session *session, const struct part *part, uint64_t begins, uint64_t from, uint64_t to)
{
    uint64_t first = from > begins ? from : begins, end = to < begins + part->size ? to : begins + part->size;
    if (first < end)
        log_bytes(session, part->guest + (first - begins), end - first);
}

/* Logs what was written of a request: what the device says, and of what it may have written beyond that, as a status behind data that could
 * not be read, both ends. All of it would be terabytes, where a guest says so. */
static void log_written(const struct session *session, const struct taken *taken, uint32_t written)
{
    uint64_t all = 0, at = 0, head, tail;
    for (size_t i = 0; i < taken->part_count; i++)
        all += taken->parts[i].size;
    head = (uint64_t)written + UNSAID;
    tail = all > UNSAID ? all - UNSAID : 0;
    if (tail <= head)
        head = tail = all;
    for (size_t i = 0; i < taken->part_count; i++) {
        log_part(session, &taken->parts[i], at, 0, head);
        log_part(session, &taken->parts[i], at, tail, all);
        at += taken->parts[i].size;
    }
}

void ring_count_in(struct session *session, struct ring *ring, size_t count)
{
    ring->out -= count;
    session->out -= count;
    if (session->calls->busy_poll_us == 0 || !session->is_on_one_processor || ring->out != 0)
        return;
    ring->empty = time_now();
    if (!session->is_waiting || !ring->is_quick || !ring_is_running(session, ring) || is_taken_of(session, ring))
        return;
    ring->is_due = true;
    wake_up(session->holder.wake);
}

/* Shows a used entry to the driver, and all before it. */
static void show_used(const struct session *session, const struct ring *ring, const covretin_used *used)
{
    __atomic_store_n((uint16_t *)(uintptr_t)used->then.addr, used->then_value, __ATOMIC_RELEASE);
    log_ring(session, ring, used->then);
}

/* Writes the used entry of a request. One that is noted in an inflight region is shown at once, since that tells each by itself. */
static void write_used(const struct session *session, struct ring *ring, const struct taken *taken, const covretin_used *used)
{
    write_bytes(used->elem.addr, used->elem_value, used->elem.len);
    log_ring(session, ring, used->elem);
    if (ring->inflight == NULL)
        return;
    inflight_before_used(ring, taken);
    show_used(session, ring, used);
    inflight_after_used(ring, taken, used->then_value);
}

/* Shows so many used entries, whose driver sees none before what is shown last: of a split ring that is the last index, and of a packed one the flags
 * of the first entry. */
static void show_many(const struct session *session, const struct ring *ring, const covretin_used *used, size_t count)
{
    for (size_t i = 1; i < count && ring->is_packed; i++)
        show_used(session, ring, &used[i]);
    show_used(session, ring, ring->is_packed ? used : &used[count - 1]);
}

/* Gives so many requests back by one call of the queue: how many these were. The next one is then what the queue refuses. */
static size_t give_many(struct session *session, struct ring *ring, covretin_request *const *requests, const uint32_t *written, size_t count)
{
    uint16_t ids[COVRETIN_DEVICE_BURST];
    covretin_used used[COVRETIN_DEVICE_BURST];
    size_t done = 0;
    for (size_t i = 0; i < count; i++)
        ids[i] = ((const struct taken *)(const void *)requests[i])->id;
    covretin_queue_add_used_many(&ring->queue, ids, count, written, count, used, count, &done);
    for (size_t i = 0; i < done; i++) {
        const struct taken *taken = (const struct taken *)(const void *)requests[i];
        if (is_logged(session))
            log_written(session, taken, written[i]);
        write_used(session, ring, taken, &used[i]);
    }
    if (done != 0 && ring->inflight == NULL)
        show_many(session, ring, used, done);
    return done;
}

void ring_give(struct session *session, struct ring *ring, covretin_request *const *requests, const uint32_t *written, size_t count)
{
    size_t given = 0;
    for (size_t at = 0; at < count;) {
        const size_t most = count - at < COVRETIN_DEVICE_BURST ? count - at : COVRETIN_DEVICE_BURST;
        const size_t done = give_many(session, ring, requests + at, written + at, most);
        given += done;
        at += done < most ? done + 1 : done; /* (what the queue refuses is left out) */
    }
    if (given != 0)
        tell(session, ring);
}
