/* SPDX-License-Identifier: Apache-2.0 */
/* A source of entropy, as a VMM asks it, and a guest: over covretin_socket.h.
 *
 *     entropy PATH
 *
 * Takes bytes from the device that listens there, into one buffer and into two, and stops. Prints a line for each call; the last one says what
 * was not so. Status 0; 1 where something was not. */
#include "vmm.h"

#include <stdio.h>
#include <string.h>

enum { GUEST = 0x40000000, SIZE = 64 * PAGE, BYTES = 32 * PAGE };

/* Whether some of these bytes are not 0. */
static bool has_bytes(const uint8_t *at, size_t count)
{
    for (size_t i = 0; i < count; i++)
        if (at[i] != 0)
            return true;
    return false;
}

static void take_bytes(struct virtqueue *queue, const struct memory *memory)
{
    uint8_t *at = memory->at + BYTES;
    struct used_element used;
    queue->descriptors[0] = (struct descriptor){guest_address(memory, at), 64, DESCRIPTOR_WRITE, 0};
    queue->descriptors[1] = (struct descriptor){guest_address(memory, at + PAGE), 100, DESCRIPTOR_WRITE | DESCRIPTOR_NEXT, 2};
    queue->descriptors[2] = (struct descriptor){guest_address(memory, at + 2 * PAGE), PAGE, DESCRIPTOR_WRITE, 0};
    post(queue, 0);
    post(queue, 1);
    kick(queue);
    take(queue, &used, "64 bytes");
    check(used.head == 0 && used.length == 64, "all of a buffer is filled");
    check(has_bytes(at, 64) && !has_bytes(at + 64, PAGE - 64), "and no more");
    take(queue, &used, "more bytes");
    check(used.head == 1 && used.length == 100 + PAGE, "all of two buffers is filled");
    check(has_bytes(at + PAGE, 100) && has_bytes(at + 2 * PAGE + PAGE - 64, 64), "to their ends");
    check(memcmp(at, at + PAGE, 64) != 0, "they have not the same bytes");
}

int main(int argc, char **argv)
{
    size_t before = descriptor_count();
    struct memory memory = make_memory("guest", SIZE, GUEST);
    struct virtqueue queue = make_virtqueue(0, memory.at);
    check(argc == 2, "usage: entropy PATH");
    connect_to(argv[1]);
    negotiate(0, 0);
    give_memory(&memory);
    start_ring(&queue, 0);
    take_bytes(&queue, &memory);
    stop_ring(&queue);
    covretin_disconnect(&device);
    free_virtqueue(&queue);
    free_memory(&memory);
    check(descriptor_count() == before, "no descriptor is left open");
    return 0;
}
