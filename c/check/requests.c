/* SPDX-License-Identifier: Apache-2.0 */
/* Checked, of c/covretin_device_rings.c: the life of a ring, the chains of a guest, and requests, over any queue, any guest memory and any area of
 * the inflight region. What is mapped for a request or a ring is counted, and let go of once. */
#include "any_queue.h"

#include "covretin_device_rings.c"

/* -- The proved part, as include/covretin_queue.h has it -- */

enum covretin_queue_error covretin_queue_translate(covretin_queue *queue, bool user, uint64_t addr, uint64_t len, covretin_range *range)
{
    (void)queue, (void)user, (void)addr;
    any_range(range, len);
    range->addr += any_bool();
    return any_bool() ? COVRETIN_QUEUE_OK : COVRETIN_QUEUE_NOT_IN_GUEST;
}

enum covretin_queue_error covretin_queue_start_split(covretin_queue *queue, const covretin_split_ring *ring)
{
    (void)queue;
    HOLDS(__CPROVER_r_ok(ring, sizeof *ring), "the ring is there");
    return any_error();
}

enum covretin_queue_error covretin_queue_start_packed(covretin_queue *queue, const covretin_packed_ring *ring)
{
    (void)queue;
    HOLDS(__CPROVER_r_ok(ring, sizeof *ring), "the ring is there");
    return any_error();
}

enum covretin_queue_error covretin_queue_move_split(covretin_queue *queue, uint64_t desc_table, uint64_t avail_ring, uint64_t used_ring)
{
    (void)queue, (void)desc_table, (void)avail_ring, (void)used_ring;
    return any_error();
}

enum covretin_queue_error covretin_queue_move_packed(covretin_queue *queue, uint64_t desc_ring, uint64_t driver_event, uint64_t device_event)
{
    (void)queue, (void)desc_ring, (void)driver_event, (void)device_event;
    return any_error();
}

static unsigned stops;

enum covretin_queue_error covretin_queue_stop(covretin_queue *queue)
{
    (void)queue;
    stops++;
    return COVRETIN_QUEUE_OK;
}

/* A chain, which goes on for so many parts at most. Where it goes on is an entry of its table, which has as many as a ring. */
static covretin_descriptor guest_table[COVRETIN_DEVICE_MAX_QUEUE_SIZE];
static unsigned walks, most_segments;

static void any_table(covretin_table *table)
{
    uint16_t entries = any_u16();
    GIVEN(entries >= 1 && entries <= COVRETIN_DEVICE_MAX_QUEUE_SIZE);
    *table = (covretin_table){{(uint64_t)(uintptr_t)guest_table, 16 * (uint64_t)entries}, any_u16(), walks++ < MOST_WALKS && any_bool()};
    GIVEN(table->next < entries);
}

enum covretin_queue_error covretin_queue_table(covretin_queue *queue, covretin_table *table)
{
    (void)queue;
    any_table(table);
    return COVRETIN_QUEUE_OK;
}

static void any_segment(covretin_segment *segment)
{
    any_range(&segment->range, any_u64());
    segment->guest_addr = any_u64();
    segment->writable = any_bool();
}

enum covretin_queue_error covretin_queue_walk(covretin_queue *queue, const covretin_descriptor *copies, size_t copies_len,
                                              covretin_segment *segments, size_t segments_len, covretin_walked *walked)
{
    (void)queue;
    HOLDS(__CPROVER_r_ok(copies, copies_len * sizeof *copies), "the descriptors are there");
    HOLDS(__CPROVER_w_ok(segments, segments_len * sizeof *segments), "there is room for the segments");
    if (any_bool())
        return COVRETIN_QUEUE_NOT_IN_GUEST;
    walked->taken = any_size();
    walked->count = any_size();
    GIVEN(walked->taken <= copies_len && walked->count <= segments_len && (walked->taken == copies_len || walked->count == segments_len));
    GIVEN(walked->count <= most_segments);
    for (size_t i = 0; i < COVRETIN_DEVICE_MAX_QUEUE_SIZE; i++)
        if (i < walked->count)
            any_segment(&segments[i]);
    any_table(&walked->table);
    return COVRETIN_QUEUE_OK;
}

enum covretin_queue_error covretin_queue_descriptor_place(covretin_queue *queue, covretin_range *place, bool *found)
{
    (void)queue;
    *found = walks++ < MOST_WALKS + 2 && any_bool();
    *place = (covretin_range){(uint64_t)(uintptr_t)guest_table, any_bool() ? 16 : 0};
    return any_bool() ? COVRETIN_QUEUE_OK : COVRETIN_QUEUE_NO_QUEUE;
}

enum covretin_queue_error covretin_queue_step(covretin_queue *queue, const covretin_descriptor *descriptor, covretin_segment *segment, bool *found)
{
    (void)queue;
    HOLDS(__CPROVER_r_ok(descriptor, sizeof *descriptor) && __CPROVER_w_ok(segment, sizeof *segment), "there is room for the segment");
    any_segment(segment);
    *found = any_bool();
    return any_error();
}

/* One head at least, and no more than are wanted. */
enum covretin_queue_error covretin_queue_heads_place(covretin_queue *queue, size_t most, covretin_range *place)
{
    (void)queue;
    size_t count = any_size();
    HOLDS(most != 0, "some are wanted");
    GIVEN(count >= 1 && count <= most);
    any_range(place, 2 * count);
    HOLDS(place->len <= sizeof guest, "they lie in the guest's memory");
    return any_error();
}

enum covretin_queue_error covretin_queue_take(covretin_queue *queue, uint16_t value, const covretin_descriptor *copies, size_t copies_len,
                                              covretin_segment *segments, size_t segments_len, covretin_walked *walked)
{
    (void)value;
    return any_bool() ? COVRETIN_QUEUE_NOTHING_AVAILABLE : covretin_queue_walk(queue, copies, copies_len, segments, segments_len, walked);
}

enum covretin_queue_error covretin_queue_resubmit(covretin_queue *queue, uint16_t head)
{
    (void)queue, (void)head;
    return any_error();
}

enum covretin_queue_error covretin_queue_resubmit_packed(covretin_queue *queue)
{
    (void)queue;
    return any_error();
}

/* Which requests are given back, and with which lengths, by check_ring_give; and how many of them were. */
static struct {
    const struct taken *taken;
    const uint32_t *lens;
    size_t at;
} gives;

/* As many as it gives back are told, and what it refuses is the next. */
enum covretin_queue_error covretin_queue_add_used_many(covretin_queue *queue, const uint16_t *ids, size_t ids_len, const uint32_t *lens, size_t lens_len,
                                                       covretin_used *used, size_t used_len, size_t *done)
{
    (void)queue;
    HOLDS(__CPROVER_r_ok(ids, ids_len * sizeof *ids) && __CPROVER_r_ok(lens, lens_len * sizeof *lens), "the requests are there");
    HOLDS(__CPROVER_w_ok(used, used_len * sizeof *used) && lens_len >= ids_len && used_len >= ids_len, "there is room for each");
    HOLDS(lens == gives.lens + gives.at && ids[0] == gives.taken[gives.at].id, "each goes by its own id, and its own length");
    *done = any_size();
    GIVEN(*done <= ids_len);
    gives.at += *done < ids_len ? *done + 1 : *done;
    for (size_t i = 0; i < COVRETIN_DEVICE_BURST; i++)
        if (i < *done) {
            any_range(&used[i].elem, any_bool() ? 8 : 4);
            used[i].elem_value = any_u64();
            any_range(&used[i].then, 2);
            used[i].then_value = any_u16();
        }
    return *done == ids_len ? COVRETIN_QUEUE_OK : COVRETIN_QUEUE_NOT_HANDED_OUT;
}

/* -- The inflight region: c/check/inflight.c checks that -- */

static uint8_t area[1];

static bool recovers(struct ring *ring)
{
    ring->again = malloc(COVRETIN_DEVICE_MAX_QUEUE_SIZE * sizeof *ring->again);
    ring->next = malloc(COVRETIN_DEVICE_MAX_QUEUE_SIZE * sizeof *ring->next);
    ring->again_count = any_size();
    GIVEN(ring->again != NULL && ring->again_count <= COVRETIN_DEVICE_MAX_QUEUE_SIZE);
    return any_bool();
}

bool inflight_recover_split(struct ring *ring, uint16_t used)
{
    (void)used;
    HOLDS(ring->inflight == area, "there is an area");
    return recovers(ring);
}

bool inflight_recover_packed(struct ring *ring, uint16_t used)
{
    (void)used;
    HOLDS(ring->inflight == area, "there is an area");
    return recovers(ring);
}

void inflight_take_head(struct ring *ring, uint16_t head)
{
    (void)head;
    HOLDS(ring->inflight == area && !ring->is_packed, "an area of a split ring");
}

bool inflight_keep(struct ring *ring, const covretin_descriptor *descriptor)
{
    HOLDS(ring->inflight == area && __CPROVER_r_ok(descriptor, sizeof *descriptor), "an area");
    return any_bool();
}

void inflight_take_kept(struct ring *ring)
{
    HOLDS(ring->inflight == area && ring->is_packed, "an area of a packed ring");
}

bool inflight_kept(struct ring *ring, covretin_descriptor *descriptor)
{
    HOLDS(ring->inflight == area && __CPROVER_w_ok(descriptor, sizeof *descriptor), "an area");
    return any_bool();
}

void inflight_before_used(struct ring *ring, const struct taken *taken)
{
    HOLDS(ring->inflight == area && __CPROVER_r_ok(taken, sizeof *taken), "an area");
}

void inflight_after_used(struct ring *ring, const struct taken *taken, uint16_t told)
{
    (void)told;
    HOLDS(ring->inflight == area && __CPROVER_r_ok(taken, sizeof *taken), "an area");
}

void log_broken(uint32_t queue, enum covretin_queue_error error)
{
    HOLDS(queue < COVRETIN_DEVICE_MAX_QUEUES && error != COVRETIN_QUEUE_OK, "a ring of the device, and a reason");
}

/* -- Any device -- */

static covretin_device_calls calls;
static covretin_device_stats stats;
static struct session session;
static unsigned handed; /* requests that the device was given */

static void any_request(void *own, covretin_request *request)
{
    HOLDS(locks_held == 0 && own == &calls, "no lock is held while the device is called");
    HOLDS(__CPROVER_rw_ok(request, sizeof *request), "the request is there");
    handed++;
}

static void any_requests(void *own, covretin_request *const *requests, size_t count)
{
    HOLDS(locks_held == 0 && own == &calls, "no lock is held while the device is called");
    HOLDS(count != 0 && __CPROVER_r_ok(requests, count * sizeof *requests), "the requests are there");
    handed += (unsigned)count;
}

static void any_break(void *own, uint32_t queue, enum covretin_queue_error error)
{
    HOLDS(locks_held == 0 && own == &calls, "no lock is held while the device is called");
    HOLDS(queue < calls.queues && error != COVRETIN_QUEUE_OK, "a ring of the device, and a reason");
}

static bool any_input(void *own, covretin_device *device)
{
    (void)own, (void)device;
    return any_bool();
}

/* -- Any ring, of a session that has a region -- */

static struct ring *any_ring(bool is_packed)
{
    static uint8_t bytes[1];
    struct ring *ring = &session.rings[1];
    calls = (covretin_device_calls){.request = any_request, .queues = COVRETIN_DEVICE_MAX_QUEUES, .busy_poll_us = any_u32()};
    calls.requests = any_bool() ? any_requests : NULL;
    calls.broken = any_bool() ? any_break : NULL;
    calls.input_ready = any_bool() ? any_input : NULL;
    calls.stats = any_bool() ? &stats : NULL;
    calls.taken_queues = any_u64();
    session = (struct session){.calls = &calls, .own = &calls, .features = any_u64(), .is_on_one_processor = any_bool()};
    session.holder.wake = fd_new();
    session.polled = fd_new();
    session.empty = fd_new();
    session.space = space_made();
    session.space->mappings[session.space->count++] = mapping_made(bytes, 1);
    ring->is_packed = is_packed;
    ring->is_started = ring->is_enabled = true;
    ring->kick = ring->call.fd = ring->error.fd = -1;
    ring->inflight = any_bool() ? area : NULL;
    ring->base = any_u32();
    ring->has_base = any_bool();
    ring->size = any_u16();
    GIVEN(ring->size >= 1 && ring->size <= COVRETIN_DEVICE_MAX_QUEUE_SIZE);
    ring->used = (uint64_t)(uintptr_t)guest;
    ring->table = (covretin_range){(uint64_t)(uintptr_t)guest_table, 16 * (uint64_t)ring->size};
    packed_table = is_packed ? ring->table : (covretin_range){0, 0};
    ring->shows = is_packed ? any_bool() ? ring->table.addr + 14 : 0 : (uint64_t)(uintptr_t)guest;
    ring->kicks = any_bool() ? KICKS_UNKNOWN : any_bool() ? KICKS_WANTED : KICKS_UNWANTED;
    ring->empty = any_u64();
    ring->space = session.space;
    ring->space->users++;
    most_segments = COVRETIN_DEVICE_MAX_QUEUE_SIZE;
    pthread_mutex_lock(&session.lock);
    return ring;
}

/* All is given up: nothing is left. */
static void ends(struct ring *ring)
{
    HOLDS(locks_held == 1, "the session's lock is held as before");
    HOLDS(session.out == 0 && ring->out == 0, "each request was counted in");
    ring_stop(&session, ring);
    HOLDS(ring->space == NULL && ring->again == NULL && ring->next == NULL && !ring->is_started, "nothing is left of a start");
    space_release(session.space);
    fd_gone(session.holder.wake);
    fd_gone(session.polled);
    fd_gone(session.empty);
    fds_are_closed(-1);
}

/* -- Checks -- */

/* It starts, moves and stops. */
void check_ring_life(void)
{
    struct ring *ring = any_ring(LAYOUT == 1);
    session.features = LAYOUT == 1 ? session.features | COVRETIN_DEVICE_RING_PACKED : session.features & ~COVRETIN_DEVICE_RING_PACKED;
    ring->is_started = false;
    if (any_bool()) {
        space_release(session.space);
        space_release(ring->space);
        session.space = ring->space = NULL;
    }
    ring->kick = fd_new();
    ring->call.fd = fd_new();
    if (ring_start(&session, ring)) {
        REACHED("started");
        HOLDS(ring->space == session.space && ring->space != NULL && ring->is_due, "it lies in the session's regions");
    } else {
        REACHED("not started");
        HOLDS(!ring->is_started && ring->again == NULL && ring->next == NULL, "nothing is kept of it");
    }
    ring_move(&session, ring);
    if (ring->is_started)
        (void)ring_is_running(&session, ring);
    ring_leave(&session, ring);
    HOLDS(!ring->is_started || ring->is_away || ring->kicks != KICKS_UNWANTED || session.holder.has_lost, "its driver tells of more");
    ends(ring);
}

/* Any chain, from where it goes on: of a split ring, of a packed one, and of one whose descriptors are kept. Each descriptor is read where it lies, and
 * each segment has a place. */
void check_ring_chain(void)
{
    struct ring *ring = any_ring(LAYOUT != 0);
    struct chain chain = {.is_indirect = any_bool()};
    uint16_t id = 0;
    ring->inflight = LAYOUT == 2 ? area : NULL;
    __CPROVER_havoc_object(guest_table);
    any_table(&chain.walked.table);
    enum covretin_queue_error error = LAYOUT == 2 ? follow_kept(&session, ring, &id, any_bool()) : follow(&session, ring, &chain);
    HOLDS(session.segment_count <= COVRETIN_DEVICE_MAX_QUEUE_SIZE, "each segment has a place");
    if (!error && session.segment_count > 1)
        REACHED("followed");
    if (error == COVRETIN_QUEUE_CHAIN_TOO_LONG)
        REACHED("too long");
    ends(ring);
}

/* What that shows of the rest of a chain. */
enum covretin_queue_error any_follow(struct session *of, struct ring *ring, struct chain *chain)
{
    HOLDS(of == &session && ring == &session.rings[1], "the ring's session");
    ring->shows = ring->shows != 0 && any_bool() ? ring->table.addr + 14 : ring->shows;
    chain->id = any_u16();
    return any_error();
}

/* A chain that begins anywhere, or nowhere. Behind it the next one begins in the ring. */
void check_ring_begin(void)
{
    struct ring *ring = any_ring(LAYOUT == 1);
    uint16_t id;
    __CPROVER_havoc_object(guest_table);
    enum covretin_queue_error error = take_chain(&session, ring, LAYOUT == 1, any_u16(), any_u16(), &id);
    HOLDS(session.segment_count <= COVRETIN_DEVICE_MAX_QUEUE_SIZE, "each segment has a place");
    HOLDS(LAYOUT != 1 || ring->shows == 0 || ring->shows - ring->table.addr < ring->table.len, "the next chain begins in the ring");
    if (!error)
        REACHED("taken");
    ends(ring);
}

/* And what both show of a chain that is taken. */
enum covretin_queue_error any_chain(struct session *of, struct ring *ring, bool is_packed, uint16_t value, uint16_t at, uint16_t *id)
{
    (void)value, (void)at;
    HOLDS(of == &session && is_packed == ring->is_packed, "a chain of its ring");
    *id = any_u16();
    return any_error();
}

enum covretin_queue_error any_kept(struct session *of, struct ring *ring, uint16_t *id, bool again)
{
    (void)again;
    HOLDS(of == &session && ring->is_packed, "a chain of its ring");
    *id = any_u16();
    return any_error();
}

/* What is copied of a table. */
void check_ring_copies(void)
{
    covretin_descriptor copies[COPIES];
    covretin_table table;
    any_table(&table);
    __CPROVER_havoc_object(guest_table);
    size_t count = any_bool() ? copy_linked(&table, copies) : copy_row(&table, any_bool(), copies);
    HOLDS(count >= 1 && count <= COPIES, "one at least, and no more than there is room for");
    REACHED("copied");
}

/* The next request of any kind, for a device that takes its own or that is handed them; a chain of one segment or none. */
static struct ring *any_ring_with_requests(bool is_packed)
{
    struct ring *ring = any_ring(is_packed);
    ring->is_broken = any_bool();
    ring->broken_by = any_error();
    ring->available = any_u16();
    ring->head_count = any_size();
    ring->head_at = any_size();
    GIVEN(ring->head_count <= COVRETIN_DEVICE_BURST && ring->head_at <= ring->head_count);
    ring->is_quick = any_bool();
    ring->again_count = any_bool();
    ring->again = calloc(1, sizeof *ring->again);
    GIVEN(ring->again != NULL);
    session.why = any_error() ? COVRETIN_DISCONNECTED : COVRETIN_OK;
    session.is_stopped = any_bool();
    session.holder.has_lost = any_bool();
    session.ends_at = any_u64();
    session.part_ends = any_u64();
    walks = MOST_WALKS + 2;
    return ring;
}

/* The next one, or none. */
void check_ring_next(void)
{
    struct ring *ring = any_ring_with_requests(LAYOUT == 1);
    uint16_t id = 0;
    const size_t had = ring->head_count - ring->head_at;
    bool again;
    enum covretin_queue_error error = take(&session, ring, &id, &again);
    HOLDS(!again || ring->again_at == 1, "each that was taken before is taken again once");
    HOLDS(ring->head_at <= ring->head_count && ring->head_count <= COVRETIN_DEVICE_BURST, "the heads that were read are there");
    HOLDS(again || error || LAYOUT == 1 || had == 0 || ring->head_count - ring->head_at == had - 1, "it is counted off");
    if (!error)
        REACHED("taken");
    ends(ring);
}

/* What check_ring_next shows of it. */
enum covretin_queue_error any_next(struct session *of, struct ring *ring, uint16_t *id, bool *again)
{
    HOLDS(of == &session && ring == &session.rings[1], "the ring's session");
    *id = any_u16();
    *again = any_bool();
    session.segment_count = 0;
    return any_bool() ? COVRETIN_QUEUE_OK : any_bool() ? COVRETIN_QUEUE_NOTHING_AVAILABLE : COVRETIN_QUEUE_NOT_IN_GUEST;
}

/* What c/check/rings.c shows of asking a driver to tell of more. */
bool any_more(const struct session *of, struct ring *ring)
{
    HOLDS(of == &session && locks_held == 1, "the ring's session, which is locked");
    ring->available = any_u16();
    return any_bool();
}

/* And what check_ring_hand_out shows of a request that is made, and of many that are counted. */
struct taken *any_taken(struct session *of, struct ring *ring, uint16_t id, bool again)
{
    static struct taken taken;
    (void)id, (void)again;
    HOLDS(of == &session && ring == &session.rings[1] && locks_held == 1, "the ring's session, which is locked");
    return any_bool() ? &taken : NULL;
}

void any_count_out(struct session *of, struct ring *ring, covretin_request *const *requests, size_t count)
{
    HOLDS(of == &session && ring == &session.rings[1] && locks_held == 1, "the ring's session, which is locked");
    HOLDS(count <= COVRETIN_DEVICE_BURST && __CPROVER_r_ok(requests, count * sizeof *requests), "they are there");
}

/* What check_ring_take shows of requests that are taken. */
void any_burst(struct session *of, struct ring *ring, struct burst *burst)
{
    static covretin_request request;
    HOLDS(of == &session && ring == &session.rings[1] && locks_held == 1, "the ring's session, which is locked");
    burst->count = any_bool();
    burst->requests[0] = &request;
    burst->error = burst->count != 0 ? COVRETIN_QUEUE_OK : any_bool() ? COVRETIN_QUEUE_NOTHING_AVAILABLE : COVRETIN_QUEUE_NOT_IN_GUEST;
    burst->is_over = any_bool();
}

void check_ring_take(void)
{
    struct ring *ring = any_ring_with_requests(LAYOUT == 1);
    covretin_request *requests[COVRETIN_DEVICE_BURST];
    struct burst burst;
    size_t count = ring_take(&session, ring, requests, COVRETIN_DEVICE_BURST);
    HOLDS(count <= COVRETIN_DEVICE_BURST && (count == 0 || requests[count - 1] != NULL), "no more than are wanted, and each is there");
    if (count != 0)
        REACHED("taken");
    if (ring->is_broken && ring->is_due)
        REACHED("broken");
    take_burst(&session, ring, &burst);
    HOLDS(burst.count <= (calls.requests != NULL ? COVRETIN_DEVICE_BURST : 1), "as many as the device gets at once");
    if (burst.count != 0)
        REACHED("many are taken");
    ends(ring);
}

/* A ring of one descriptor, so that a turn has two requests at most. */
void check_ring_serve(void)
{
    struct ring *ring = any_ring_with_requests(LAYOUT == 1);
    ring->size = 1;
    bool goes_on = ring_serve(&session, ring);
    HOLDS(goes_on || ring->is_due, "what is not served is due still");
    HOLDS(handed <= 2, "no more than a turn has");
    REACHED("served");
    if (handed != 0)
        REACHED("handed out");
    if (ring->is_broken)
        REACHED("broken");
    ends(ring);
}

/* A request with so many segments, of any kind, is counted. Its room is of a kind that the model checker is told: what malloc gives is bytes to it. */
static struct {
    struct taken taken;
    struct iovec segments[KEPT_SEGMENTS];
    struct part parts[KEPT_SEGMENTS];
} room;
static bool is_counting;

void *any_memory(size_t size)
{
    if (!is_counting)
        return __CPROVER_allocate(size, 0);
    HOLDS(size == sizeof room, "there is room for each segment");
    return any_bool() ? NULL : &room;
}

void check_ring_hand_out(void)
{
    struct ring *ring = any_ring(any_bool());
    session.segment_count = LAYOUT;
    for (size_t i = 0; i < LAYOUT; i++)
        any_segment(&session.segments[i]);
    is_counting = true;
    struct taken *taken = taken_new(&session, ring, any_u16(), any_bool());
    if (taken != NULL) {
        covretin_request *request = &taken->request;
        count_out(&session, ring, &request, 1);
        REACHED("counted");
        HOLDS(request == &room.taken.request && room.taken.part_count == request->writable && request->queue == 1, "its parts, and its ring");
        HOLDS(request->readable + request->writable == LAYOUT, "each of its segments");
        HOLDS(room.taken.space == session.space && session.space->users == 3 && ring->out == 1, "what it points to stays mapped");
        HOLDS((uint8_t *)room.taken.parts == (uint8_t *)room.parts, "its parts lie behind its segments");
        space_release(room.taken.space);
        ring_count_in(&session, ring, 1);
    }
    ends(ring);
}

/* What holds a request of few segments is kept for the next, and freed with the session. */
void check_ring_kept(void)
{
    struct taken *taken = taken_find(&session, LAYOUT == 0 ? any_size() % (KEPT_SEGMENTS + 1) : KEPT_SEGMENTS + 1);
    if (taken == NULL)
        return;
    REACHED("found");
    session.spare_count = any_bool() ? MOST_KEPT : 0;
    taken_drop(&session, taken);
    HOLDS(session.spare_count <= MOST_KEPT, "no more are kept than there is room for");
    taken_free_kept(&session);
    HOLDS(session.spare_count == 0, "nothing is kept");
}

/* And what c/check/rings.c shows of a driver that is told. */
void any_tell(struct session *of, struct ring *ring)
{
    HOLDS(of == &session && ring == &session.rings[1] && locks_held == 1, "the ring's session, which is locked");
}

/* So many requests are given back: what is written lies where the queue says, and the area of the inflight region hears of each. */
void check_ring_give(void)
{
    static struct taken taken[3];
    covretin_request *const requests[] = {&taken[0].request, &taken[1].request, &taken[2].request};
    const uint32_t written[] = {any_u32(), any_u32(), any_u32()};
    struct ring *ring = any_ring(any_bool());
    for (size_t i = 0; i < 3; i++)
        taken[i].id = any_u16();
    gives.taken = taken;
    gives.lens = written;
    ring_give(&session, ring, requests, written, LAYOUT);
    HOLDS(gives.at == LAYOUT, "each is given back, or refused");
    REACHED("given back");
    ends(ring);
}

/* (a time that goes on, and is over after two looks) */
uint64_t any_time(void)
{
    static uint64_t now;
    static unsigned looks;
    uint64_t next = any_u64();
    GIVEN(next >= now && (looks++ < 1 || next >= session.ends_at));
    return now = next;
}

/* (the place of a ring that may be either costs too much) */
uint16_t any_shown(uint64_t at)
{
    HOLDS(at == (uint64_t)(uintptr_t)guest, "what is looked at is mapped");
    return any_u16();
}

/* Quiet rings are looked at, until the time is over: the first, the second, or both. */
void check_ring_quiet(void)
{
    struct ring *ring = any_ring(false);
    session.rings[0] = (struct ring){.is_started = true, .is_enabled = true, .is_quiet = LAYOUT != 1, .kick = -1, .call.fd = -1};
    session.rings[0].shows = (uint64_t)(uintptr_t)guest;
    session.rings[0].shown = any_u16();
    ring->is_quiet = LAYOUT != 0;
    ring->shown = any_u16();
    session.ends_at = any_u64();
    if (!rings_busy_poll(&session)) {
        REACHED("none shows more");
        ends(ring);
        return;
    }
    REACHED("one shows more");
    HOLDS(session.rings[0].is_due || ring->is_due, "it is due");
    ends(ring);
}
