/* SPDX-License-Identifier: Apache-2.0 */
/* A guest of the consoles that docs/guide/device-c.md and docs/guide/device-rust.md build, whose other end sends back what it gets.
 *
 *     console PATH
 *
 * Prints a line for each call; the last one says what was not so. Status 0; 1 where something was not. */
#include "../real/vmm.h"

#include <linux/virtio_console.h>
#include <stdio.h>
#include <string.h>

enum {
    GUEST = 0x40000000,
    RECEIVE = 0,
    TRANSMIT = 1,
    BUFFERS = 2 * QUEUE_ROOM, /* a page for each queue */
    SIZE = BUFFERS + 2 * PAGE,
    ROUNDS = 100
};

static struct memory memory;
static struct virtqueue queues[2];

static uint8_t *buffer_of(unsigned queue)
{
    return memory.at + BUFFERS + queue * PAGE;
}

/* Offers room for so many bytes. */
static void offer(uint32_t room)
{
    uint8_t *buffer = buffer_of(RECEIVE);
    memset(buffer, 0xee, PAGE);
    queues[RECEIVE].descriptors[0] = (struct descriptor){guest_address(&memory, buffer), room, DESCRIPTOR_WRITE, 0};
    post(&queues[RECEIVE], 0);
    kick(&queues[RECEIVE]);
}

/* Sends a text, and has its buffer back. */
static void send_text(const char *text)
{
    uint8_t *buffer = buffer_of(TRANSMIT);
    struct used_element used;
    memcpy(buffer, text, strlen(text));
    queues[TRANSMIT].descriptors[0] = (struct descriptor){guest_address(&memory, buffer), (uint32_t)strlen(text), 0, 0};
    post(&queues[TRANSMIT], 0);
    kick(&queues[TRANSMIT]);
    take(&queues[TRANSMIT], &used, "what was sent is given back");
    check(used.length == 0, "nothing of it was written");
}

/* The next bytes came into the room that was offered: how many. */
static size_t take_bytes(const char *text)
{
    const uint8_t *buffer = buffer_of(RECEIVE);
    struct used_element used;
    take(&queues[RECEIVE], &used, "a text comes back");
    check(used.length > 0 && used.length <= strlen(text) && memcmp(buffer, text, used.length) == 0, "it is what was sent");
    check(buffer[used.length] == 0xee, "nothing is written behind it");
    return used.length;
}

static void texts_come_back(void)
{
    char text[32];
    for (unsigned round = 0; round < ROUNDS; round++) {
        snprintf(text, sizeof text, "line %u\n", round);
        offer(PAGE);
        send_text(text);
        check(take_bytes(text) == strlen(text), "all of it comes at once");
    }
}

/* What comes while the guest offers no room waits for it, in whatever pieces it was read. */
static void texts_wait_for_room(void)
{
    send_text("one ");
    send_text("two");
    for (const char *left = "one two"; *left != '\0'; left += take_bytes(left))
        offer(3);
}

/* The console keeps no room that it has nothing for: so whoever stops the queue is not waited for. */
static void queues_stop_and_go_on(void)
{
    offer(PAGE);
    check(number("get_vring_base", covretin_ask_get_vring_base(SESSION, RECEIVE)) == queues[RECEIVE].taken, "the console has no room");
    start_ring(&queues[RECEIVE], 0);
    send_text("three");
    check(take_bytes("three") == strlen("three"), "it goes on");
}

static void reads_the_size(void)
{
    struct virtio_console_config space = {0};
    covretin_config part;
    size_t count = 0;
    done("get_config", covretin_ask_get_config(SESSION, 0, 4, 0));
    check(covretin_answer_config(SESSION, &part, (uint8_t *)&space, sizeof space, &count) == COVRETIN_OK && count == 4, "there is a size");
    check(space.cols == 80 && space.rows == 25, "which is that of a terminal");
    check(outcome("get_config beyond it", covretin_ask_get_config(SESSION, 200, 4, 0)) == COVRETIN_BACKEND_INTERNAL_ERROR, "there is no more");
}

int main(int argc, char **argv)
{
    size_t before = descriptor_count();
    check(argc == 2, "usage: console PATH");
    memory = make_memory("guest", SIZE, GUEST);
    connect_to(argv[1]);
    negotiate((uint64_t)1 << VIRTIO_CONSOLE_F_SIZE, 0);
    reads_the_size();
    give_memory(&memory);
    for (uint16_t i = 0; i < 2; i++) {
        queues[i] = make_virtqueue(i, memory.at + i * QUEUE_ROOM);
        start_ring(&queues[i], 0);
    }
    texts_come_back();
    texts_wait_for_room();
    queues_stop_and_go_on();
    stop_ring(&queues[RECEIVE]);
    stop_ring(&queues[TRANSMIT]);
    covretin_disconnect(&device);
    for (unsigned i = 0; i < 2; i++)
        free_virtqueue(&queues[i]);
    free_memory(&memory);
    check(descriptor_count() == before, "no descriptor is left open");
    puts("the console sends back what it gets");
    return 0;
}
