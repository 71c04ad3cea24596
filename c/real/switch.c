/* SPDX-License-Identifier: Apache-2.0 */
/* A VMM's side of a network card (vhost-user-net; virtio 1.2, 5.1), against a virtual switch that sends each frame back where
 * it came from.
 *
 *     switch PATH frames      eight frames there and back, again and again; at last without eventfds
 *     switch PATH postcopy    the first eight of them while the guest's memory arrives by postcopy
 *
 * What comes back is compared with what was sent. Prints a line for each call; status 0 where all was so, 1 where something was
 * not, 2 after wrong arguments. */
#include "vmm.h"

#include "arrival.h"

#include <linux/virtio_net.h>
#include <stdio.h>
#include <string.h>

enum {
    RECEIVE = 0,
    TRANSMIT = 1,
    RING_COUNT = 2,
    FRAMES = 8,
    BUFFER_ROOM = PAGE,
    MEMORY_SIZE = RING_COUNT * (QUEUE_ROOM + FRAMES * BUFFER_ROOM),
    PAGES = MEMORY_SIZE / PAGE,
    HEADER = sizeof(struct virtio_net_hdr_mrg_rxbuf),
    LONGEST = 1514
};

/* -- Frames -- */

static uint8_t *ring_at(uint8_t *base, unsigned ring)
{
    return base + ring * QUEUE_ROOM;
}

static uint8_t *buffer_at(uint8_t *base, unsigned ring, unsigned number)
{
    return base + RING_COUNT * QUEUE_ROOM + (ring * FRAMES + number) * BUFFER_ROOM;
}

static size_t length_of(unsigned number)
{
    return 60 + number * (LONGEST - 60) / (FRAMES - 1);
}

/* A frame of a local protocol, to nobody; `round` makes it another one. */
static void make_frame(uint8_t *frame, unsigned number, unsigned round)
{
    static const uint8_t head[14] = {0x02, 0, 0, 0, 0, 2, 0x02, 0, 0, 0, 0, 1, 0x88, 0xb5};
    memcpy(frame, head, sizeof head);
    for (size_t i = sizeof head; i < length_of(number); i++)
        frame[i] = (uint8_t)(i * 3 + number * 17 + round * 29);
}

/* Posts eight buffers that are to be filled, and eight frames. `base` is where the memory is written, `memory` what it is. */
static void post_frames(const struct memory *memory, uint8_t *base, struct virtqueue *queues, unsigned round)
{
    for (uint16_t i = 0; i < FRAMES; i++) {
        uint8_t *frame = buffer_at(base, TRANSMIT, i);
        uint64_t room = memory->guest + (uint64_t)(buffer_at(base, RECEIVE, i) - base);
        queues[RECEIVE].descriptors[i] = (struct descriptor){room, BUFFER_ROOM, DESCRIPTOR_WRITE, 0};
        post(&queues[RECEIVE], i);
        memset(frame, 0, HEADER);
        make_frame(frame + HEADER, i, round);
        queues[TRANSMIT].descriptors[i] = (struct descriptor){memory->guest + (uint64_t)(frame - base),
                                                              (uint32_t)(HEADER + length_of(i)), 0, 0};
        post(&queues[TRANSMIT], i);
    }
    kick(&queues[RECEIVE]);
    kick(&queues[TRANSMIT]);
}

/* Takes what came back: the eight frames, in their order. */
static void take_frames(const struct memory *memory, struct virtqueue *queues, unsigned round)
{
    struct used_element used;
    uint8_t frame[LONGEST];
    for (unsigned i = 0; i < FRAMES; i++) {
        take(&queues[RECEIVE], &used, "a frame came back");
        check(used.head < FRAMES, "it is in one of the buffers");
        const uint8_t *got = buffer_at(memory->at, RECEIVE, used.head);
        make_frame(frame, i, round);
        printf("round %u: a frame of %u bytes\n", round, (unsigned)used.length);
        check(used.length == HEADER + length_of(i), "it is as long as the one that was sent");
        check(memcmp(got + HEADER, frame, length_of(i)) == 0, "it is the one that was sent");
    }
    for (unsigned i = 0; i < FRAMES; i++)
        take(&queues[TRANSMIT], &used, "a frame that was sent was used");
}

static void play_rounds(const struct memory *memory, struct virtqueue *queues, unsigned from, unsigned to)
{
    for (unsigned round = from; round < to; round++) {
        post_frames(memory, memory->at, queues, round);
        take_frames(memory, queues, round);
    }
}

/* -- The device -- */

static void make_rings(struct virtqueue *queues, uint8_t *base)
{
    for (uint16_t i = 0; i < RING_COUNT; i++)
        queues[i] = make_virtqueue(i, ring_at(base, i));
}

static void start_rings(const struct virtqueue *queues)
{
    for (unsigned i = 0; i < RING_COUNT; i++)
        start_ring(&queues[i], 0);
}

static void stop_rings(struct virtqueue *queues)
{
    for (unsigned i = 0; i < RING_COUNT; i++)
        stop_ring(&queues[i]);
}

static void free_rings(struct virtqueue *queues)
{
    for (unsigned i = 0; i < RING_COUNT; i++)
        free_virtqueue(&queues[i]);
}

static void make_all_polled(struct virtqueue *queues)
{
    for (unsigned i = 0; i < RING_COUNT; i++)
        make_polled(&queues[i]);
}

static void asked_for_frames(struct memory *memory)
{
    struct virtqueue queues[RING_COUNT];
    make_rings(queues, memory->at);
    give_memory(memory);
    for (unsigned round = 0; round < 30; round += 10) {
        if (round == 20)
            make_all_polled(queues);
        start_rings(queues);
        play_rounds(memory, queues, round, round + 10);
        stop_rings(queues);
    }
    free_rings(queues);
}

/* -- Postcopy -- */

/* The rings and frames are made where the guest was; here they arrive as the switch asks for their pages. */
static void asked_in_postcopy(struct memory *memory)
{
    struct virtqueue there[RING_COUNT], here[RING_COUNT];
    struct arrival arrival = make_arrival(MEMORY_SIZE);
    make_rings(there, arrival.source);
    make_rings(here, memory->at);
    post_frames(memory, arrival.source, there, 0);
    for (unsigned i = 0; i < RING_COUNT; i++)
        here[i].posted = there[i].posted;

    start_arrival(&arrival, memory);
    start_rings(here);
    await("the switch waits for the pages of each ring, frame and buffer");
    await_faults(&arrival, PAGES);
    take_frames(memory, here, 0);
    end_arrival(&arrival);

    play_rounds(memory, here, 1, 10);
    stop_rings(here);
    free_rings(here);
    free_rings(there);
    free_arrival(&arrival);
}

int main(int argc, char **argv)
{
    bool in_postcopy = argc == 3 && strcmp(argv[2], "postcopy") == 0;
    if (!in_postcopy && (argc != 3 || strcmp(argv[2], "frames") != 0)) {
        fprintf(stderr, "usage: switch PATH frames|postcopy\n");
        return 2;
    }
    size_t before = descriptor_count();
    struct memory memory = make_memory("guest", MEMORY_SIZE, (uint64_t)1 << 32);
    connect_to(argv[1]);
    negotiate(0, 0);
    done("set_mtu", covretin_ask_set_mtu(SESSION, 1500));
    if (in_postcopy)
        asked_in_postcopy(&memory);
    else
        asked_for_frames(&memory);
    covretin_disconnect(&device);
    free_memory(&memory);
    check(descriptor_count() == before, "no descriptor was left open");
    return 0;
}
