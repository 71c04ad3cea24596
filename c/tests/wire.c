/* SPDX-License-Identifier: Apache-2.0 */
/* A guest of covretin-net with two pairs of queues, and the other end of its card: what is sent at one end comes at the other.
 *
 *     wire PATH CARD
 *
 * CARD is the socket at which the card takes frames; it sends its own to the socket `far`. Prints a line for each call; the last one says what
 * was not so. Status 0; 1 where something was not. */
#include "../real/vmm.h"

#include <linux/virtio_net.h>
#include <stdio.h>
#include <string.h>
#include <sys/socket.h>
#include <sys/un.h>
#include <unistd.h>

enum {
    GUEST = 0x40000000,
    QUEUES = 5, /* two pairs, and the one for control */
    CONTROL = 4,
    BUFFERS = QUEUES * QUEUE_ROOM, /* a page for each descriptor of all queues */
    SIZE = BUFFERS + QUEUES * QUEUE_SIZE * PAGE,
    HEADER = sizeof(struct virtio_net_hdr_v1),
    FRAME = 42 /* bytes: Ethernet, IPv4, UDP */
};

static struct memory memory;
static struct virtqueue queues[QUEUES];
static int far_end;

static uint8_t *buffer_of(unsigned queue, unsigned at)
{
    return memory.at + BUFFERS + (queue * QUEUE_SIZE + at) * PAGE;
}

/* Offers room for so many bytes in one descriptor of a queue. */
static void offer(unsigned queue, uint16_t at, uint32_t room)
{
    memset(buffer_of(queue, at), 0xee, PAGE);
    queues[queue].descriptors[at] = (struct descriptor){guest_address(&memory, buffer_of(queue, at)), room, DESCRIPTOR_WRITE, 0};
    post(&queues[queue], at);
    kick(&queues[queue]);
}

/* A frame of UDP from one host to another, by the last bytes of their addresses and by their ports, with some bytes behind its headers. */
static size_t make_frame(uint8_t *frame, uint8_t from, uint8_t to, uint16_t from_port, uint16_t to_port, size_t more)
{
    static const uint8_t start[34] = {0x52, 0, 0, 0, 0, 2, 0x52, 0, 0, 0, 0, 1, 0x08, 0, 0x45, [23] = 17, [26] = 10, [30] = 10};
    memcpy(frame, start, sizeof start);
    frame[29] = from;
    frame[33] = to;
    const uint8_t ports[8] = {(uint8_t)(from_port >> 8), (uint8_t)from_port, (uint8_t)(to_port >> 8), (uint8_t)to_port};
    memcpy(frame + 34, ports, sizeof ports);
    for (size_t i = 0; i < more; i++)
        frame[FRAME + i] = (uint8_t)(i * 7 + 1);
    return FRAME + more;
}

/* The guest sends a frame by a queue, and it comes at the other end. */
static void send_by(unsigned queue, const uint8_t *frame, size_t size)
{
    uint8_t *buffer = buffer_of(queue, 0), came[PAGE];
    struct used_element used;
    memset(buffer, 0, HEADER);
    memcpy(buffer + HEADER, frame, size);
    queues[queue].descriptors[0] = (struct descriptor){guest_address(&memory, buffer), (uint32_t)(HEADER + size), 0, 0};
    post(&queues[queue], 0);
    kick(&queues[queue]);
    check(recv(far_end, came, sizeof came, 0) == (ssize_t)size && memcmp(came, frame, size) == 0, "the frame comes at the other end");
    take(&queues[queue], &used, "what was sent is given back");
    check(used.head == 0 && used.length == 0, "nothing of it was written");
}

static void send_to_card(const uint8_t *frame, size_t size)
{
    check(send(far_end, frame, size, 0) == (ssize_t)size, "the card takes a frame");
}

/* A frame came into so many buffers of a queue from this one on, each but the last filled. */
static void check_came(unsigned queue, uint16_t from, uint16_t count, size_t room, const uint8_t *frame, size_t size)
{
    const struct virtio_net_hdr_v1 header = {.num_buffers = count};
    uint8_t all[2 * PAGE];
    size_t put = 0;
    struct used_element used;
    for (uint16_t i = 0; i < count; i++) {
        take(&queues[queue], &used, "a buffer comes");
        check(used.head == (uint32_t)from + i && used.length <= room, "which is next");
        check(used.length == room || i + 1 == count, "and is filled, or the last");
        memcpy(all + put, buffer_of(queue, (unsigned)used.head), used.length);
        put += used.length;
    }
    check(put == HEADER + size && memcmp(all, &header, HEADER) == 0, "its header says in how many buffers it is, and no more");
    check(memcmp(all + HEADER, frame, size) == 0, "it is what was sent");
}

static void frames_pass(void)
{
    uint8_t frame[PAGE];
    for (uint16_t round = 0; round < 40; round++) {
        size_t size = make_frame(frame, 1, 2, 1000, 2000, round * 30u);
        send_by(1, frame, size);
        offer(0, (uint16_t)(round % 8), 2048);
        send_to_card(frame, size);
        check_came(0, (uint16_t)(round % 8), 1, 2048, frame, size);
    }
}

/* A frame that is longer than a buffer comes in many. One that has too few waits, and those come back empty. */
static void long_frames_come_in_many_buffers(void)
{
    uint8_t frame[PAGE];
    struct used_element used;
    size_t size = make_frame(frame, 2, 1, 2000, 1000, 300);
    for (uint16_t i = 0; i < 4; i++)
        offer(0, i, 100);
    send_to_card(frame, size);
    check_came(0, 0, 4, 100, frame, size);
    offer(0, 5, 100);
    send_to_card(frame, size);
    take(&queues[0], &used, "a buffer comes back");
    check(used.head == 5 && used.length == 0, "empty");
    offer(0, 6, 2048);
    check_came(0, 6, 1, 2048, frame, size);
}

/* What comes of a flow goes to the pair that the guest sent of it by; of another, to the first. */
static void flows_keep_to_their_pair(void)
{
    uint8_t frame[PAGE];
    const size_t size = make_frame(frame, 1, 2, 1000, 2000, 4);
    offer(0, 0, 2048);
    offer(2, 3, 2048);
    send_by(3, frame, size);
    make_frame(frame, 2, 1, 2000, 1000, 4);
    send_to_card(frame, size);
    check_came(2, 3, 1, 2048, frame, size);
    make_frame(frame, 2, 1, 2000, 1001, 4);
    send_to_card(frame, size);
    check_came(0, 0, 1, 2048, frame, size);
    make_frame(frame, 2, 1, 2000, 1000, 4); /* a pair that has no buffer, where the first has one */
    offer(0, 1, 2048);
    send_to_card(frame, size);
    check_came(0, 1, 1, 2048, frame, size);
}

/* What the card answers where it is asked so. */
static uint8_t asked(uint8_t class, uint8_t command, uint16_t pairs)
{
    uint8_t *buffer = buffer_of(CONTROL, 0);
    struct virtqueue *queue = &queues[CONTROL];
    struct used_element used;
    memcpy(buffer, &(struct virtio_net_ctrl_hdr){class, command}, 2);
    memcpy(buffer + 2, &pairs, 2);
    buffer[4] = 0xee;
    queue->descriptors[0] = (struct descriptor){guest_address(&memory, buffer), 4, DESCRIPTOR_NEXT, 1};
    queue->descriptors[1] = (struct descriptor){guest_address(&memory, buffer + 4), 1, DESCRIPTOR_WRITE, 0};
    post(queue, 0);
    kick(queue);
    take(queue, &used, "the card answers");
    check(used.length == 1, "by one byte");
    return buffer[4];
}

static void is_told_how_many_pairs_are_used(void)
{
    check(asked(VIRTIO_NET_CTRL_MQ, VIRTIO_NET_CTRL_MQ_VQ_PAIRS_SET, 2) == VIRTIO_NET_OK, "two pairs");
    check(asked(VIRTIO_NET_CTRL_MQ, VIRTIO_NET_CTRL_MQ_VQ_PAIRS_SET, 1) == VIRTIO_NET_OK, "one");
    check(asked(VIRTIO_NET_CTRL_MQ, VIRTIO_NET_CTRL_MQ_VQ_PAIRS_SET, 3) == VIRTIO_NET_ERR, "there are not three");
    check(asked(VIRTIO_NET_CTRL_MQ, VIRTIO_NET_CTRL_MQ_VQ_PAIRS_SET, 0) == VIRTIO_NET_ERR, "nor can there be none");
    check(asked(VIRTIO_NET_CTRL_RX, 0, 1) == VIRTIO_NET_ERR, "and nothing else is asked of it");
}

static void reads_its_configuration(void)
{
    struct virtio_net_config space = {.mac = {0}};
    covretin_config part;
    size_t count = 0;
    done("get_config", covretin_ask_get_config(SESSION, 0, sizeof space, 0));
    check(covretin_answer_config(SESSION, &part, (uint8_t *)&space, sizeof space, &count) == COVRETIN_OK && count == sizeof space, "it comes");
    check(space.max_virtqueue_pairs == 2 && space.status == VIRTIO_NET_S_LINK_UP, "there are two pairs, and a link");
}

static void open_far_end(const char *card)
{
    struct sockaddr_un mine = {.sun_family = AF_UNIX, .sun_path = "far"}, its = {.sun_family = AF_UNIX};
    snprintf(its.sun_path, sizeof its.sun_path, "%s", card);
    unlink("far");
    far_end = socket(AF_UNIX, SOCK_DGRAM | SOCK_CLOEXEC, 0);
    check(far_end >= 0 && bind(far_end, (struct sockaddr *)&mine, sizeof mine) == 0, "there is the other end");
    check(connect(far_end, (struct sockaddr *)&its, sizeof its) == 0, "which knows the card");
}

int main(int argc, char **argv)
{
    size_t before = descriptor_count();
    check(argc == 3, "usage: wire PATH CARD");
    memory = make_memory("guest", SIZE, GUEST);
    connect_to(argv[1]);
    open_far_end(argv[2]);
    negotiate((uint64_t)1 << VIRTIO_NET_F_MRG_RXBUF | (uint64_t)1 << VIRTIO_NET_F_MQ | (uint64_t)1 << VIRTIO_NET_F_CTRL_VQ, 0);
    reads_its_configuration();
    give_memory(&memory);
    for (uint16_t i = 0; i < QUEUES; i++) {
        queues[i] = make_virtqueue(i, memory.at + i * QUEUE_ROOM);
        start_ring(&queues[i], 0);
    }
    frames_pass();
    long_frames_come_in_many_buffers();
    flows_keep_to_their_pair();
    is_told_how_many_pairs_are_used();
    for (unsigned i = 0; i < QUEUES; i++) {
        stop_ring(&queues[i]);
        free_virtqueue(&queues[i]);
    }
    covretin_disconnect(&device);
    close(far_end);
    free_memory(&memory);
    check(descriptor_count() == before, "no descriptor is left open");
    return 0;
}
