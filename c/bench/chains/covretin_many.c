/* SPDX-License-Identifier: Apache-2.0 */
/* A device over covretin_queue.h, by the calls for many chains: their heads are read at once, each chain is taken by one call, and all are given
 * back by one. */
#include "device.h"

static uint16_t heads[BATCH];
static uint32_t lens[BATCH];
static covretin_used used[BATCH];

/* Reads the heads of so many chains at most: how many they are. */
static int read_heads(int most)
{
    covretin_range place;
    size_t count = 0;
    if (covretin_queue_heads_place(&queue, (size_t)most, &place))
        return -1;
    for (; count < place.len / sizeof *heads; count++)
        heads[count] = read16(place.addr + count * sizeof *heads);
    return (int)count;
}

/* Takes the chain of a head: how many segments it has. */
static int take(const covretin_table *ring, uint16_t head)
{
    covretin_walked walked = {.table = {.range = ring->range, .next = head}};
    if (covretin_queue_take(&queue, head, copies, copy(&walked.table), segments, MOST, &walked))
        return -1;
    return follow(&walked, walked.count);
}

/* Gives these back. */
static bool give_back(int count)
{
    size_t done = 0;
    if (covretin_queue_add_used_many(&queue, heads, (size_t)count, lens, BATCH, used, BATCH, &done))
        return false;
    for (size_t i = 0; i < done; i++)
        write_used(&used[i]);
    show_used(&used[done - 1]);
    return true;
}

/* Takes so many chains at most, and gives them back: how many they were, and their segments. */
static int serve(const covretin_table *ring, int most, int *segments_of)
{
    int count = read_heads(most < BATCH ? most : BATCH);
    for (int i = 0; i < count; i++) {
        int some = take(ring, heads[i]);
        if (some < 0)
            return -1;
        lens[i] = WRITTEN;
        *segments_of += some;
    }
    return count > 0 && give_back(count) ? count : -1;
}

int device_serve(const struct shape *shape, int count)
{
    const covretin_table ring = {.range = {(uintptr_t)mapped_at(0) + TABLE_AT, (uint64_t)shape->size * sizeof *copies}};
    int there = available(), all = 0;
    for (int left = there < count ? there : count; left > 0;) {
        int taken = serve(&ring, left, &all);
        if (taken < 0)
            return -1;
        left -= taken;
    }
    return there >= 0 && asks() ? all : -1;
}
