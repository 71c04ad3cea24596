/* SPDX-License-Identifier: Apache-2.0 */
/* A device over covretin_queue.h, chain by chain, as the head of that file says it. */
#include "device.h"

/* Takes the next chain, and gives it back: how many segments it has. */
static int serve(void)
{
    covretin_range place;
    covretin_walked walked;
    covretin_used used;
    uint16_t head;
    int count;
    if (covretin_queue_head_place(&queue, &place))
        return -1;
    head = read16(place.addr);
    if (covretin_queue_pop(&queue, head) || covretin_queue_table(&queue, &walked.table))
        return -1;
    count = follow(&walked, 0);
    if (count < 0 || covretin_queue_add_used(&queue, head, WRITTEN, &used))
        return -1;
    write_used(&used);
    show_used(&used);
    return count;
}

int device_serve(const struct shape *shape, int count)
{
    int there = available(), all = 0;
    (void)shape;
    for (int i = 0; i < count && i < there; i++) {
        int some = serve();
        if (some < 0)
            return -1;
        all += some;
    }
    return there >= 0 && asks() ? all : -1;
}
