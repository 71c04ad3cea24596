/* SPDX-License-Identifier: Apache-2.0 */
/* The inflight region: a ring notes in its area which requests it has, so that whoever comes after a crash takes them again (vhost-user
 * specification, "Inflight I/O tracking"). */
#include "covretin_device_session.h"

#include <stdlib.h>
#include <string.h>

/* The head of an area: of a split ring LAST_AT and USED_AT, of a packed one the others. Each area begins at a multiple of 64 bytes, so that a
 * write, which is aligned there, is one access. */
enum { VERSION_AT = 8, SIZE_AT = 10, LAST_AT = 12, USED_AT = 14, FREE_HEAD_AT = 12, OLD_FREE_HEAD_AT = 14, PLACES_AT = 16 };

/* How many bytes the head has, and how many each entry. */
static size_t unit(bool is_packed)
{
    return is_packed ? 32 : 16;
}

uint64_t inflight_size(bool is_packed, uint16_t size)
{
    return (unit(is_packed) * ((uint64_t)size + 1) + 63) / 64 * 64;
}

static uint16_t noted16(const struct ring *ring, size_t at)
{
    return __atomic_load_n((const uint16_t *)(const void *)(ring->inflight + at), __ATOMIC_ACQUIRE);
}

static uint64_t noted64(const struct ring *ring, size_t at)
{
    return __atomic_load_n((const uint64_t *)(const void *)(ring->inflight + at), __ATOMIC_ACQUIRE);
}

static void note16(const struct ring *ring, size_t at, uint16_t value)
{
    __atomic_store_n((uint16_t *)(void *)(ring->inflight + at), value, __ATOMIC_RELEASE);
}

/* Writes, each after the one before it. */
static void note(const struct ring *ring, const covretin_inflight_write *writes, size_t count)
{
    for (size_t i = 0; i < count; i++) {
        void *at = ring->inflight + writes[i].offset;
        if (writes[i].len == 8)
            __atomic_store_n((uint64_t *)at, writes[i].value, __ATOMIC_RELEASE);
        else if (writes[i].len == 4)
            __atomic_store_n((uint32_t *)at, (uint32_t)writes[i].value, __ATOMIC_RELEASE);
        else if (writes[i].len == 2)
            __atomic_store_n((uint16_t *)at, (uint16_t)writes[i].value, __ATOMIC_RELEASE);
        else
            __atomic_store_n((uint8_t *)at, (uint8_t)writes[i].value, __ATOMIC_RELEASE);
    }
}

/* -- After a crash -- */

static uint8_t *entry_of(const struct ring *ring, size_t index)
{
    return ring->inflight + unit(ring->is_packed) * (index + 1);
}

/* The entries of the area, as they are now. */
static void read_entries(const struct ring *ring, covretin_inflight_entry *entries)
{
    for (size_t i = 0; i < ring->size; i++) {
        const uint8_t *at = entry_of(ring, i);
        entries[i].inflight = __atomic_load_n(at, __ATOMIC_RELAXED) != 0;
        memcpy(&entries[i].next, at + (ring->is_packed ? 2 : 6), sizeof entries[i].next);
        memcpy(&entries[i].counter, at + 8, sizeof entries[i].counter);
    }
}

static void clear(const struct ring *ring, const bool *which)
{
    for (size_t i = 0; i < ring->size; i++)
        if (which[i])
            __atomic_store_n(entry_of(ring, i), 0, __ATOMIC_RELEASE);
}

/* What is to be taken again, by the entries; and those that were given back are cleared. */
static bool settle_split(struct ring *ring, const covretin_inflight_entry *entries, bool *settled, uint16_t used)
{
    if (covretin_inflight_recover(entries, ring->size, noted16(ring, LAST_AT), noted16(ring, USED_AT), used, settled, ring->size,
                                  ring->again, ring->size, &ring->again_count))
        return false;
    clear(ring, settled);
    note16(ring, USED_AT, used);
    return true;
}

/* Two states of a packed ring's area: the later, and the one before. */
static void read_heads(const struct ring *ring, covretin_packed_inflight_head *now, covretin_packed_inflight_head *old)
{
    uint64_t places = noted64(ring, PLACES_AT);
    *now = (covretin_packed_inflight_head){noted16(ring, FREE_HEAD_AT), (uint16_t)places, (places >> 32 & 0xff) != 0};
    *old = (covretin_packed_inflight_head){noted16(ring, OLD_FREE_HEAD_AT), (uint16_t)(places >> 16), (places >> 40 & 0xff) != 0};
}

/* The flags of the descriptor at this index. False: it is not in memory. */
static bool read_flags(struct ring *ring, uint16_t index, uint16_t *flags)
{
    covretin_range range;
    if (covretin_queue_translate(&ring->queue, true, ring->place.desc_table_addr + 16 * (uint64_t)index + 14, 2, &range) ||
        range.addr % 2 != 0)
        return false;
    *flags = __atomic_load_n((const uint16_t *)(uintptr_t)range.addr, __ATOMIC_ACQUIRE);
    return true;
}

/* The same of a packed ring, whose state becomes that which holds. */
static bool settle_packed(struct ring *ring, const covretin_inflight_entry *entries, bool *is_free, uint16_t used)
{
    covretin_packed_inflight_head now, old, head;
    covretin_inflight_write writes[3];
    uint16_t flags;
    (void)used;
    read_heads(ring, &now, &old);
    if (!read_flags(ring, old.used_idx, &flags) ||
        covretin_inflight_recover_packed(entries, ring->size, &now, &old, flags, &head, is_free, ring->size, ring->again, ring->size,
                                         &ring->again_count))
        return false;
    for (size_t i = 0; i < ring->size; i++)
        ring->next[i] = entries[i].next;
    ring->free_head = head.free_head;
    ring->used_place = (uint16_t)(head.used_idx | head.used_wrap_counter << 15);
    clear(ring, is_free);
    covretin_inflight_after_used_packed(head.free_head, ring->used_place, writes);
    note(ring, writes + 1, 2);
    return true;
}

/* A new area: all entries are free, and nothing was used since the ring began. */
static void begin_split(const struct ring *ring, uint16_t used)
{
    note16(ring, USED_AT, used);
}

static void begin_packed(const struct ring *ring, uint16_t used)
{
    covretin_inflight_write writes[3];
    for (size_t i = 0; i < ring->size; i++) {
        uint16_t next = (uint16_t)(i + 1);
        memcpy(entry_of(ring, i) + 2, &next, sizeof next);
    }
    covretin_inflight_after_used_packed(0, used, writes);
    note(ring, writes, 3);
}

static bool recover(struct ring *ring, uint16_t used, void begin(const struct ring *, uint16_t),
                    bool settle(struct ring *, const covretin_inflight_entry *, bool *, uint16_t))
{
    covretin_inflight_entry *entries = calloc(ring->size, sizeof *entries);
    bool *which = calloc(ring->size, sizeof *which), is_found = false;
    ring->again = calloc(ring->size, sizeof *ring->again);
    ring->next = calloc(ring->size, sizeof *ring->next);
    if (entries != NULL && which != NULL && ring->again != NULL && ring->next != NULL) {
        if (noted16(ring, VERSION_AT) == 0) {
            begin(ring, used);
            note16(ring, SIZE_AT, ring->size);
            note16(ring, VERSION_AT, 1);
        }
        read_entries(ring, entries);
        is_found = settle(ring, entries, which, used);
    }
    ring->counter = is_found && ring->again_count != 0 ? ring->again[ring->again_count - 1].counter + 1 : 0;
    free(entries);
    free(which);
    return is_found;
}

bool inflight_recover_split(struct ring *ring, uint16_t used)
{
    return recover(ring, used, begin_split, settle_split);
}

bool inflight_recover_packed(struct ring *ring, uint16_t used)
{
    return recover(ring, used, begin_packed, settle_packed);
}

/* -- Before one -- */

void inflight_take_head(struct ring *ring, uint16_t head)
{
    covretin_inflight_write writes[2];
    covretin_inflight_take(head, ring->counter++, &writes[0], &writes[1]);
    note(ring, writes, 2);
}

/* The next entry of the chain that is followed. False: the list has ended. */
static bool next_entry(struct ring *ring, uint16_t *index)
{
    struct kept *kept = &ring->kept;
    *index = kept->behind;
    if (kept->behind >= ring->size)
        return false;
    kept->last = kept->behind;
    kept->num++;
    kept->behind = ring->next[kept->last];
    return true;
}

bool inflight_keep(struct ring *ring, const covretin_descriptor *descriptor)
{
    covretin_inflight_write writes[2];
    uint16_t index;
    if (!next_entry(ring, &index))
        return false;
    covretin_inflight_keep_packed(index, descriptor, &writes[0], &writes[1]);
    note(ring, writes, 2);
    return true;
}

void inflight_take_kept(struct ring *ring)
{
    const struct kept *kept = &ring->kept;
    covretin_inflight_write writes[4];
    covretin_inflight_take_packed(kept->head, kept->last, kept->num, ring->counter++, kept->behind, writes);
    note(ring, writes, 4);
    ring->free_head = kept->behind;
}

bool inflight_kept(struct ring *ring, covretin_descriptor *descriptor)
{
    uint64_t words;
    uint16_t index;
    if (!next_entry(ring, &index))
        return false;
    words = noted64(ring, unit(true) * ((size_t)index + 1) + 16);
    *descriptor = (covretin_descriptor){.addr = noted64(ring, unit(true) * ((size_t)index + 1) + 24),
                                        .len = (uint32_t)(words >> 32),
                                        .third = (uint16_t)words,
                                        .fourth = (uint16_t)(words >> 16)};
    return true;
}

/* The place that is used next has gone on, and the request's entries are free. */
static void before_used_packed(struct ring *ring, const struct kept *kept)
{
    covretin_inflight_write writes[3];
    uint32_t base = 0;
    covretin_queue_base(&ring->queue, &base);
    covretin_inflight_before_used_packed(kept->head, kept->last, ring->free_head, (uint16_t)(base >> 16), ring->used_place, writes);
    note(ring, writes, 3);
    ring->next[kept->last] = ring->free_head;
    ring->free_head = kept->head;
    ring->used_place = (uint16_t)(base >> 16);
}

void inflight_before_used(struct ring *ring, const struct taken *taken)
{
    covretin_inflight_write writes[2];
    if (ring->is_packed) {
        before_used_packed(ring, &taken->kept);
        return;
    }
    covretin_inflight_before_used(taken->id, noted16(ring, LAST_AT), &writes[0], &writes[1]);
    note(ring, writes, 2);
}

void inflight_after_used(struct ring *ring, const struct taken *taken, uint16_t told)
{
    covretin_inflight_write writes[3];
    if (ring->is_packed)
        covretin_inflight_after_used_packed(taken->kept.head, ring->used_place, writes);
    else
        covretin_inflight_after_used(taken->id, told, &writes[0], &writes[1]);
    note(ring, writes, ring->is_packed ? 3 : 2);
}
