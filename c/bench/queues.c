/* SPDX-License-Identifier: Apache-2.0 */
/* A split queue that sees 32 regions: chains of eight descriptors are followed and completed. */
#include "bench.h"

#ifndef WITHOUT_QUEUES
#include "covretin_queue.h"

#include <string.h>

enum { SIZE = 256, CHAIN = 8, REGIONS = 32, PAGES = 1 << 20 };

static covretin_queue queue;

/* Of the driver: the descriptors, a chain behind the other; and the ring, whose next entry is always the next chain. The device's is not
 * written, since the driver would not read it here. */
static struct {
    covretin_descriptor descriptors[SIZE];
    uint16_t available[SIZE + 3] __attribute__((aligned(16)));
    uint8_t used[8 * SIZE + 8] __attribute__((aligned(16)));
} rings __attribute__((aligned(4096)));

/* Each chain's descriptors are in one region, which is another for each chain; or each is in another than the one before. */
static void open_queue(bool is_near)
{
    covretin_guest_region regions[REGIONS];
    covretin_split_ring ring = {.desc_table = (uintptr_t)rings.descriptors, .avail_ring = (uintptr_t)rings.available,
                                .used_ring = (uintptr_t)rings.used, .size = SIZE, .event_idx = true, .indirect_desc = true};
    for (size_t i = 0; i < REGIONS; i++) {
        uint64_t at = (i + 1) * 2 * PAGES; /* (regions do not adjoin) */
        regions[i] = (covretin_guest_region){.guest_addr = at, .size = PAGES, .user_addr = 1ull << 62 | at, .host_addr = 1ull << 61 | at};
    }
    regions[0] = (covretin_guest_region){2 * PAGES, sizeof rings, (uintptr_t)&rings, (uintptr_t)&rings};
    for (size_t i = 0; i < SIZE; i++) {
        uint64_t at = (2 + (is_near ? i / CHAIN : i) * 13 % (REGIONS - 1)) * 2 * PAGES;
        bool ends = i % CHAIN == CHAIN - 1;
        rings.descriptors[i] = (covretin_descriptor){.addr = at + 64 * i, .len = 512, .third = ends ? 0 : 1, .fourth = (uint16_t)(i + 1)};
    }
    covretin_queue_close(&queue);
    if (covretin_queue_open(&queue) || covretin_queue_set_regions(&queue, regions, REGIONS) || covretin_queue_start_split(&queue, &ring))
        fail("a queue");
}

/* Follows the chain of this head to its end, and completes it. Whether it has as many segments as descriptors. */
static bool follow(uint16_t index, uint16_t head)
{
    covretin_range place;
    covretin_used used;
    uint16_t count;
    int segments = 0;
    bool found;
    if (covretin_queue_available_place(&queue, &place) || covretin_queue_available(&queue, index, &count) || count != 1 ||
        covretin_queue_head_place(&queue, &place) || covretin_queue_pop(&queue, head))
        return false;
    for (;;) {
        covretin_descriptor descriptor;
        covretin_segment segment;
        if (covretin_queue_descriptor_place(&queue, &place, &found))
            return false;
        if (!found)
            break;
        memcpy(&descriptor, (const void *)(uintptr_t)place.addr, sizeof descriptor);
        if (covretin_queue_step(&queue, &descriptor, &segment, &found))
            return false;
        segments += found;
    }
    return segments == CHAIN && covretin_queue_add_used(&queue, head, 0, &used) == 0;
}

static struct taken follows(bool is_near, long count)
{
    struct taken taken = {0, 0};
    double begun;
    open_queue(is_near);
    begun = now();
    for (long i = 0; i < count; i++)
        taken.good += follow((uint16_t)(i + 1), (uint16_t)(i * CHAIN % SIZE));
    taken.nanoseconds = now() - begun;
    return taken;
}

struct taken queue_chain_8(long count)
{
    return follows(true, count);
}

struct taken queue_chain_8_apart(long count)
{
    return follows(false, count);
}

#endif
