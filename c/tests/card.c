/* SPDX-License-Identifier: Apache-2.0 */
/* A guest of the example network card, c/net.c: each frame that it sends comes back, or is dropped, as that says.
 *
 *     card PATH
 *
 * Prints a line for each call; the last one says what was not so. Status 0; 1 where something was not. */
#include "../real/vmm.h"

#include <linux/virtio_net.h>
#include <stdio.h>
#include <string.h>

enum {
    GUEST = 0x40000000,
    BUFFERS = 2 * QUEUE_ROOM, /* a page for each descriptor of both queues */
    SIZE = BUFFERS + 2 * QUEUE_SIZE * PAGE,
    HEADER = sizeof(struct virtio_net_hdr_v1),
    ROOM = HEADER + 1518
};

static struct memory memory;
static struct virtqueue queues[2]; /* to receive, and to transmit */

static uint8_t *buffer_of(unsigned queue, unsigned at)
{
    return memory.at + BUFFERS + (queue * QUEUE_SIZE + at) * PAGE;
}

static uint8_t byte_of(size_t at, unsigned round)
{
    return (uint8_t)(at * 5 + round * 31 + 1);
}

/* Offers room for a frame, in a descriptor, or in two of which the first has the header. */
static void offer(uint16_t at, uint32_t room, bool is_split)
{
    struct virtqueue *queue = &queues[0];
    uint8_t *buffer = buffer_of(0, at);
    memset(buffer, 0xee, PAGE);
    queue->descriptors[at] = (struct descriptor){guest_address(&memory, buffer), room, DESCRIPTOR_WRITE, 0};
    if (is_split) {
        queue->descriptors[at] = (struct descriptor){guest_address(&memory, buffer), HEADER, DESCRIPTOR_WRITE | DESCRIPTOR_NEXT, (uint16_t)(at + 1)};
        queue->descriptors[at + 1] = (struct descriptor){guest_address(&memory, buffer + HEADER), room - HEADER, DESCRIPTOR_WRITE, 0};
    }
    post(queue, at);
    kick(queue);
}

/* Makes a frame of so many bytes, or of a header that is cut, available in two descriptors. */
static void post_frame(uint16_t at, uint32_t size, unsigned round)
{
    uint8_t *buffer = buffer_of(1, at);
    memset(buffer, 0x77, HEADER);
    for (size_t i = 0; i < size && i < PAGE - HEADER; i++)
        buffer[HEADER + i] = byte_of(i, round);
    queues[1].descriptors[at] = (struct descriptor){guest_address(&memory, buffer), HEADER, DESCRIPTOR_NEXT, (uint16_t)(at + 1)};
    queues[1].descriptors[at + 1] = (struct descriptor){guest_address(&memory, buffer + HEADER), size, 0, 0};
    post(&queues[1], at);
}

static void check_given_back(uint16_t at)
{
    struct used_element used;
    take(&queues[1], &used, "what was sent is given back");
    check(used.head == at && used.length == 0, "nothing of it was written");
}

/* Sends a frame, and has it back once the card is done with it. */
static void send_frame(uint32_t size, unsigned round)
{
    post_frame(0, size, round);
    kick(&queues[1]);
    check_given_back(0);
}

/* A frame of so many bytes came into this buffer. */
static void check_came(uint16_t at, uint32_t size, unsigned round)
{
    const struct virtio_net_hdr_v1 header = {.num_buffers = 1};
    const uint8_t *buffer = buffer_of(0, at);
    struct used_element used;
    take(&queues[0], &used, "a frame comes");
    check(used.head == at && used.length == HEADER + size, "all of it comes into the buffer that is next");
    check(memcmp(buffer, &header, HEADER) == 0, "its header says that there is one buffer, and no more");
    for (size_t i = 0; i < size; i++)
        check(buffer[HEADER + i] == byte_of(i, round), "it is what was sent");
    check(buffer[HEADER + size] == 0xee, "nothing is written behind it");
}

static void check_nothing_came(void)
{
    check(queues[0].used->index == queues[0].taken, "nothing came");
}

static void frames_come_back(void)
{
    const uint32_t sizes[] = {14, 60, 64, 1514, 1518};
    for (unsigned round = 0; round < 100; round++) {
        uint32_t size = sizes[round % 5];
        offer((uint16_t)(round % 8), ROOM, round % 2 != 0);
        send_frame(size, round);
        check_came((uint16_t)(round % 8), size, round);
    }
}

/* Frames that are there at once come in their order. What is none among them is dropped, and so are those for which there is no buffer. */
static void frames_come_back_together(void)
{
    const uint32_t sizes[] = {60, 13, 1518, 64};
    offer(0, ROOM, true);
    offer(2, HEADER + 60, false);
    offer(4, ROOM, false);
    for (uint16_t i = 0; i < 4; i++)
        post_frame((uint16_t)(2 * i), sizes[i], i);
    kick(&queues[1]);
    for (uint16_t i = 0; i < 4; i++)
        check_given_back((uint16_t)(2 * i));
    check_came(0, 60, 0);
    struct used_element used;
    take(&queues[0], &used, "a buffer that is too small comes back");
    check(used.head == 2 && used.length == 0, "empty");
    check_came(4, 1518, 2);
    check_nothing_came();
}

/* Without a buffer a frame is dropped; it does not come once there is one. */
static void frames_without_a_buffer_are_dropped(void)
{
    send_frame(60, 1);
    offer(3, ROOM, false);
    check_nothing_came();
    send_frame(61, 2);
    check_came(3, 61, 2);
}

static void other_lengths_are_dropped(void)
{
    const uint32_t sizes[] = {1, 13, 1519, PAGE - HEADER};
    offer(0, ROOM, true);
    for (unsigned i = 0; i < 4; i++) {
        send_frame(sizes[i], i);
        check_nothing_came();
    }
    send_frame(1518, 9);
    check_came(0, 1518, 9);
}

/* Buffers that are too small come back empty, and the frame goes into the next; where all are, it is dropped. */
static void small_buffers_come_back_empty(void)
{
    const uint32_t rooms[] = {1, HEADER, HEADER + 59};
    struct used_element used;
    for (unsigned has_room = 0; has_room < 2; has_room++) {
        for (uint16_t i = 0; i < 3; i++)
            offer(i, rooms[i], false);
        if (has_room)
            offer(4, HEADER + 60, true);
        send_frame(60, has_room);
        for (uint16_t i = 0; i < 3; i++) {
            take(&queues[0], &used, "a buffer that is too small comes back");
            check(used.head == i && used.length == 0, "empty");
            check(*buffer_of(0, i) == 0xee, "and nothing is written to it");
        }
        if (has_room)
            check_came(4, 60, 1);
    }
    check_nothing_came();
}

/* Whoever stops a queue is not waited for, whatever is in it; it goes on where it stopped. */
static void queues_stop_and_go_on(void)
{
    offer(2, ROOM, false);
    check(number("get_vring_base", covretin_ask_get_vring_base(SESSION, 0)) == queues[0].taken, "the card has no buffer");
    send_frame(60, 1);
    check_nothing_came();
    start_ring(&queues[0], 0);
    send_frame(60, 2);
    check_came(2, 60, 2);
}

static void reads_the_address(void)
{
    uint8_t mac[6] = {0};
    covretin_config part;
    size_t count = 0;
    done("get_config", covretin_ask_get_config(SESSION, 0, sizeof mac, 0));
    check(covretin_answer_config(SESSION, &part, mac, sizeof mac, &count) == COVRETIN_OK && count == sizeof mac, "there is an address");
    check((mac[0] & 3) == 2, "which is of this place, and of one card");
}

int main(int argc, char **argv)
{
    size_t before = descriptor_count();
    check(argc == 2, "usage: card PATH");
    memory = make_memory("guest", SIZE, GUEST);
    connect_to(argv[1]);
    negotiate((uint64_t)1 << VIRTIO_NET_F_MAC, 0);
    reads_the_address();
    give_memory(&memory);
    for (uint16_t i = 0; i < 2; i++) {
        queues[i] = make_virtqueue(i, memory.at + i * QUEUE_ROOM);
        start_ring(&queues[i], 0);
    }
    frames_come_back();
    frames_come_back_together();
    frames_without_a_buffer_are_dropped();
    other_lengths_are_dropped();
    small_buffers_come_back_empty();
    queues_stop_and_go_on();
    stop_ring(&queues[0]);
    stop_ring(&queues[1]);
    covretin_disconnect(&device);
    for (unsigned i = 0; i < 2; i++)
        free_virtqueue(&queues[i]);
    free_memory(&memory);
    check(descriptor_count() == before, "no descriptor is left open");
    return 0;
}
