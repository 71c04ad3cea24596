/* SPDX-License-Identifier: Apache-2.0 */
/* Checked: c/covretin_device_inflight.c, over an area of any contents, which its frontend may change at any time, and any ring. Each access lies
 * in the ring's area. */
#include "core.h"

#include "covretin_device_inflight.c"

/* -- The proved part, as include/covretin_queue.h and its contracts have it: writes lie at a multiple of their length, in the area's head or in
 * the entry of an index that is given, which is one of the ring's -- */

static uint16_t ring_size;
static bool is_packed;

static void is_index(uint16_t index)
{
    HOLDS(index < ring_size, "an entry of the ring");
}

static void any_write(covretin_inflight_write *write)
{
    uint64_t len = any_bool() ? 8 : any_bool() ? 4 : any_bool() ? 2 : 1;
    *write = (covretin_inflight_write){.offset = any_u64(), .len = len, .value = any_u64()};
    GIVEN(write->offset % len == 0 && write->offset <= (is_packed ? 32u : 16u) * (ring_size + 1u) - len);
}

void covretin_inflight_take(uint16_t head, uint64_t counter, covretin_inflight_write *first, covretin_inflight_write *second)
{
    (void)counter;
    is_index(head);
    any_write(first);
    any_write(second);
}

void covretin_inflight_before_used(uint16_t head, uint16_t last, covretin_inflight_write *first, covretin_inflight_write *second)
{
    (void)last; /* (it is written into an entry, and is no place) */
    is_index(head);
    any_write(first);
    any_write(second);
}

void covretin_inflight_after_used(uint16_t head, uint16_t idx, covretin_inflight_write *first, covretin_inflight_write *second)
{
    (void)idx;
    is_index(head);
    any_write(first);
    any_write(second);
}

void covretin_inflight_keep_packed(uint16_t index, const covretin_descriptor *descriptor, covretin_inflight_write *first,
                                   covretin_inflight_write *second)
{
    HOLDS(__CPROVER_r_ok(descriptor, sizeof *descriptor), "the descriptor is there");
    is_index(index);
    any_write(first);
    any_write(second);
}

void covretin_inflight_take_packed(uint16_t head, uint16_t last, uint16_t num, uint64_t counter, uint16_t free_head,
                                   covretin_inflight_write writes[4])
{
    (void)last, (void)num, (void)counter, (void)free_head;
    is_index(head);
    for (int i = 0; i < 4; i++)
        any_write(writes + i);
}

void covretin_inflight_before_used_packed(uint16_t head, uint16_t last, uint16_t free_head, uint16_t used, uint16_t old_used,
                                          covretin_inflight_write writes[3])
{
    (void)head, (void)free_head, (void)used, (void)old_used;
    is_index(last);
    for (int i = 0; i < 3; i++)
        any_write(writes + i);
}

/* (the first write is into the entry of the head; the others are in the area's own head) */
void covretin_inflight_after_used_packed(uint16_t head, uint16_t used, covretin_inflight_write writes[3])
{
    (void)used;
    for (int i = 0; i < 3; i++)
        any_write(writes + i);
    if (head >= ring_size)
        writes[0].offset = any_u64();
}

/* What both recoveries answer: so many heads, each of an entry. */
static bool recovers(const covretin_inflight_entry *entries, size_t entries_len, bool *which, size_t which_len, covretin_resubmit *again,
                     size_t again_len, size_t *count)
{
    size_t found = any_size();
    HOLDS(entries_len == ring_size && which_len == ring_size && again_len == ring_size, "arrays of a ring");
    HOLDS(__CPROVER_r_ok(entries, entries_len * sizeof *entries), "the entries are there");
    HOLDS(__CPROVER_w_ok(which, which_len) && __CPROVER_w_ok(again, again_len * sizeof *again), "there is room");
    GIVEN(found <= again_len);
    if (any_bool())
        return false;
    for (size_t i = 0; i < COVRETIN_DEVICE_MAX_QUEUE_SIZE; i++)
        if (i < ring_size) {
            which[i] = any_bool();
            again[i] = (covretin_resubmit){any_u64(), any_u16()};
            GIVEN(again[i].head < ring_size);
        }
    *count = found;
    return true;
}

enum covretin_queue_error covretin_inflight_recover(const covretin_inflight_entry *entries, size_t entries_len, uint16_t last_batch_head,
                                                    uint16_t used_idx, uint16_t ring_idx, bool *settled, size_t settled_len,
                                                    covretin_resubmit *again, size_t again_len, size_t *count)
{
    (void)last_batch_head, (void)used_idx, (void)ring_idx;
    return recovers(entries, entries_len, settled, settled_len, again, again_len, count) ? COVRETIN_QUEUE_OK : COVRETIN_QUEUE_INVALID_INFLIGHT;
}

enum covretin_queue_error covretin_inflight_recover_packed(const covretin_inflight_entry *entries, size_t entries_len,
                                                           const covretin_packed_inflight_head *now, const covretin_packed_inflight_head *old,
                                                           uint16_t flags, covretin_packed_inflight_head *head, bool *free, size_t free_len,
                                                           covretin_resubmit *again, size_t again_len, size_t *count)
{
    (void)flags;
    if (!recovers(entries, entries_len, free, free_len, again, again_len, count))
        return COVRETIN_QUEUE_INVALID_INFLIGHT;
    *head = any_bool() ? *now : *old;
    GIVEN(head->used_idx < entries_len);
    return COVRETIN_QUEUE_OK;
}

static uint16_t flags_there;

enum covretin_queue_error covretin_queue_translate(covretin_queue *queue, bool user, uint64_t addr, uint64_t len, covretin_range *range)
{
    (void)queue, (void)user, (void)addr;
    if (any_bool())
        return COVRETIN_QUEUE_NOT_IN_GUEST;
    HOLDS(len == sizeof flags_there, "flags");
    flags_there = any_u16();
    *range = (covretin_range){(uint64_t)(uintptr_t)&flags_there, len};
    return COVRETIN_QUEUE_OK;
}

enum covretin_queue_error covretin_queue_base(covretin_queue *queue, uint32_t *base)
{
    (void)queue;
    *base = any_u32();
    return COVRETIN_QUEUE_OK;
}

/* -- Checks -- */

static struct ring ring;
static uint8_t area[32 * (COVRETIN_DEVICE_MAX_QUEUE_SIZE + 1)];

/* A ring of any size and its area, of as many bytes as inflight_size says, of any contents. */
static void any_ring(bool packed)
{
    struct ring any;
    ring = any;
    GIVEN(ring.size >= 1 && ring.size <= COVRETIN_DEVICE_MAX_QUEUE_SIZE);
    ring_size = ring.size;
    ring.is_packed = is_packed = packed;
    ring.inflight = area;
    ring.again = NULL;
    ring.next = NULL;
    ring.again_count = 0;
    __CPROVER_havoc_object(area);
}

static void has_ended(void)
{
    free(ring.again);
    free(ring.next);
}

void check_inflight_size(void)
{
    bool packed = any_bool();
    uint16_t size = any_u16();
    uint64_t bytes = inflight_size(packed, size);
    HOLDS(bytes % 64 == 0 && bytes >= (packed ? 32 : 16) * ((uint64_t)size + 1) && bytes < (packed ? 32 : 16) * ((uint64_t)size + 1) + 64,
          "room for the head and each entry, and an area begins at a multiple of 64 bytes");
    REACHED("how many bytes");
}

void check_inflight_recover(void)
{
    any_ring(LAYOUT != 0);
    if (LAYOUT != 0 ? inflight_recover_packed(&ring, any_u16()) : inflight_recover_split(&ring, any_u16())) {
        REACHED("recovered");
        HOLDS(ring.again_count <= ring.size && ring.again != NULL && ring.next != NULL, "what is taken again is there");
    } else
        REACHED("not this ring's");
    has_ended();
}

void check_inflight_take_head(void)
{
    struct taken taken = {.id = any_u16()};
    any_ring(false);
    GIVEN(taken.id < ring.size); /* (covretin_queue_pop allows no other) */
    inflight_take_head(&ring, taken.id);
    inflight_before_used(&ring, &taken);
    inflight_after_used(&ring, &taken, any_u16());
    REACHED("used");
}

/* A chain of a packed ring: each descriptor is kept, and all are given back. Links are any that a frontend wrote. */
void check_inflight_keep(void)
{
    struct taken taken;
    covretin_descriptor descriptor;
    any_ring(true);
    ring.next = malloc(ring.size * sizeof *ring.next);
    GIVEN(ring.next != NULL);
    ring.kept = (struct kept){.head = ring.free_head, .behind = ring.free_head};
    bool is_kept = any_bool() ? inflight_keep(&ring, &descriptor) : inflight_kept(&ring, &descriptor);
    if (is_kept && any_bool())
        is_kept = any_bool() ? inflight_keep(&ring, &descriptor) : inflight_kept(&ring, &descriptor);
    if (is_kept) {
        inflight_take_kept(&ring);
        taken.kept = ring.kept;
        inflight_before_used(&ring, &taken);
        inflight_after_used(&ring, &taken, any_u16());
        REACHED("used");
    } else
        REACHED("no free entry");
    has_ended();
}
