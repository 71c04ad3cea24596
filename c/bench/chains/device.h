/* SPDX-License-Identifier: Apache-2.0 */
/* What devices over covretin_queue.h have in common: the queue, its ring, and how descriptors are copied. */
#ifndef CHAINS_DEVICE_H
#define CHAINS_DEVICE_H

#include "covretin_queue.h"
#include "driver.h"

#include <stdlib.h>
#include <string.h>

enum { MOST = 1024, GOES_ON = 1, NEXT_OR_INDIRECT = 5 };

static covretin_queue queue;
static covretin_segment segments[MOST];
static covretin_descriptor copies[MOST];

static uint16_t read16(uint64_t at)
{
    return __atomic_load_n((const uint16_t *)(uintptr_t)at, __ATOMIC_ACQUIRE);
}

void device_open(const struct shape *shape)
{
    static covretin_guest_region regions[MAX_REGIONS];
    covretin_split_ring ring = {.desc_table = guest_at(0) + TABLE_AT, .avail_ring = guest_at(0) + AVAILABLE_AT,
                                .used_ring = guest_at(0) + USED_AT, .size = (uint16_t)shape->size,
                                .event_idx = shape->has_event_idx, .indirect_desc = true};
    for (int i = 0; i < shape->regions; i++)
        regions[i] = (covretin_guest_region){guest_at(i), REGION_SIZE, guest_at(i), (uintptr_t)mapped_at(i)};
    if (covretin_queue_open(&queue) || covretin_queue_set_regions(&queue, regions, (size_t)shape->regions) ||
        covretin_queue_start_split(&queue, &ring))
        exit(4);
}

/* Copies the descriptors from where the chain goes on, each read once. */
static size_t copy(const covretin_table *table)
{
    const covretin_descriptor *from = (const covretin_descriptor *)(uintptr_t)table->range.addr;
    const size_t entries = table->range.len / sizeof *from;
    size_t count = 0, at = table->next;
    while (at < entries && count < MOST) {
        covretin_descriptor *to = &copies[count++];
        memcpy(to, &from[at], sizeof *to);
        __asm__("" : "+m"(*to)); /* (the compiler reads no part of it again) */
        at = (to->third & NEXT_OR_INDIRECT) == GOES_ON ? to->fourth : entries;
    }
    return count;
}

/* Follows the chain from here to its end: how many segments it has, of which there are so many already. */
static int follow(covretin_walked *walked, size_t count)
{
    for (; walked->table.goes_on; count += walked->count)
        if (covretin_queue_walk(&queue, copies, copy(&walked->table), segments + count, MOST - count, walked))
            return -1;
    return (int)count;
}

/* Writes a used entry, and then that it is there. */
static void write_used(const covretin_used *used)
{
    memcpy((void *)(uintptr_t)used->elem.addr, &used->elem_value, sizeof used->elem_value);
}

static void show_used(const covretin_used *used)
{
    __atomic_store_n((uint16_t *)(uintptr_t)used->then.addr, used->then_value, __ATOMIC_RELEASE);
}

/* How many chains are available; -1: it failed. */
static int available(void)
{
    covretin_range place;
    uint16_t count = 0;
    if (covretin_queue_available_place(&queue, &place) || covretin_queue_available(&queue, read16(place.addr), &count))
        return -1;
    return count;
}

/* Whether the driver can be asked if it is to be told. */
static bool asks(void)
{
    covretin_range place;
    bool is_to_be_told;
    __atomic_thread_fence(__ATOMIC_SEQ_CST);
    return covretin_queue_notification_place(&queue, &place) == 0 &&
           covretin_queue_needs_notification(&queue, read16(place.addr), 0, &is_to_be_told) == 0;
}

#endif
