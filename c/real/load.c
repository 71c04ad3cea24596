/* SPDX-License-Identifier: Apache-2.0 */
/* Asks a disk as fast as it answers, and prints what that took: pages at random places, of which so many are always under way.
 *
 *     load PATH PROCESS DEPTH COUNT [write]
 *
 * PATH is where the disk listens, PROCESS its number. As Linux's driver it kicks only where that is wanted, takes all that is done at once,
 * and sleeps until it is called. Prints how many requests a second, and how many nanoseconds of a processor the disk took for one. Status 0;
 * 1 where something failed, which a line says. Compiled with -DQUEUE_SIZE=128. */
#ifndef _GNU_SOURCE
#define _GNU_SOURCE
#endif

#include "vmm.h"

#include <linux/virtio_blk.h>
#include <linux/virtio_ring.h>
#include <poll.h>
#include <stdio.h>
#include <stdlib.h>
#include <string.h>
#include <sys/eventfd.h>
#include <time.h>

enum { MOST = 32, PART = 4096, HEADERS = QUEUE_ROOM, STATUSES = HEADERS + PAGE, DATA = STATUSES + PAGE, SIZE = DATA + MOST * PART };
#define EVENT_IDX ((uint64_t)1 << VIRTIO_RING_F_EVENT_IDX)

static struct memory memory;
static struct virtqueue queue;
static uint32_t kind = VIRTIO_BLK_T_IN;
static uint64_t parts; /* of the disk */

static double seconds_of(clockid_t clock)
{
    struct timespec at;
    check(clock_gettime(clock, &at) == 0, "the clock");
    return (double)at.tv_sec + (double)at.tv_nsec * 1e-9;
}

/* The next of numbers that look random, and are the same each time. */
static uint64_t any(void)
{
    static uint64_t state = 88172645463325252u;
    state ^= state << 13;
    state ^= state >> 7;
    return state ^= state << 17;
}

/* The parts of a request lie in three descriptors of its own. */
static void describe(uint16_t request)
{
    uint16_t head = (uint16_t)(3 * request);
    uint64_t header = memory.guest + HEADERS + 16u * request, data = memory.guest + DATA + (uint64_t)PART * request;
    uint16_t moves = kind == VIRTIO_BLK_T_IN ? DESCRIPTOR_WRITE : 0;
    queue.descriptors[head] = (struct descriptor){header, 16, DESCRIPTOR_NEXT, (uint16_t)(head + 1)};
    queue.descriptors[head + 1] = (struct descriptor){data, PART, (uint16_t)(DESCRIPTOR_NEXT | moves), (uint16_t)(head + 2)};
    queue.descriptors[head + 2] = (struct descriptor){memory.guest + STATUSES + request, 1, DESCRIPTOR_WRITE, 0};
}

static void ask(uint16_t request)
{
    struct virtio_blk_outhdr header = {.type = kind, .sector = any() % parts * (PART / 512)};
    memcpy(memory.at + HEADERS + 16u * request, &header, sizeof header);
    memory.at[STATUSES + request] = 0xff;
    post(&queue, (uint16_t)(3 * request));
}

/* Kicks, where the disk wants that of one of those that were posted since. */
static void kick_from(uint16_t before)
{
    atomic_thread_fence(memory_order_seq_cst);
    uint16_t wanted = __atomic_load_n((const uint16_t *)(const void *)&queue.used->elements[QUEUE_SIZE], __ATOMIC_RELAXED);
    if (vring_need_event(wanted, queue.posted, before))
        kick(&queue);
}

static bool is_used(void)
{
    return atomic_load_explicit(&queue.used->index, memory_order_acquire) != queue.taken;
}

/* Sleeps until something was done. */
static void sleep_until_called(void)
{
    struct pollfd called = {.fd = queue.call, .events = POLLIN};
    eventfd_t count;
    __atomic_store_n(&queue.available->heads[QUEUE_SIZE], queue.taken, __ATOMIC_RELAXED);
    atomic_thread_fence(memory_order_seq_cst);
    while (!is_used())
        check(poll(&called, 1, -1) == 1 && eventfd_read(queue.call, &count) == 0, "the disk calls");
}

/* Takes all that is done, and asks as many again, as long as some are left. How many were taken. */
static long take_all(long left)
{
    long taken = 0;
    for (; is_used(); taken++) {
        struct used_element it = queue.used->elements[queue.taken++ % QUEUE_SIZE];
        check(it.head / 3 < MOST && memory.at[STATUSES + it.head / 3] == VIRTIO_BLK_S_OK, "a request succeeds");
        if (left-- > 0)
            ask((uint16_t)(it.head / 3));
    }
    return taken;
}

static void run(long depth, long count)
{
    uint16_t before = queue.posted;
    long left = count - depth;
    for (long request = 0; request < depth; request++) {
        describe((uint16_t)request);
        ask((uint16_t)request);
    }
    for (long done = 0; done < count;) {
        kick_from(before);
        sleep_until_called();
        before = queue.posted;
        long taken = take_all(left);
        done += taken;
        left -= taken;
    }
}

static uint64_t sectors_of_disk(void)
{
    uint64_t sectors = 0;
    covretin_config part;
    size_t size;
    done("get_config", covretin_ask_get_config(SESSION, 0, sizeof sectors, 0));
    check(covretin_answer_config(SESSION, &part, (uint8_t *)&sectors, sizeof sectors, &size) == COVRETIN_OK, "the disk has a size");
    return sectors;
}

int main(int argc, char **argv)
{
    long depth = argc >= 5 ? strtol(argv[3], NULL, 10) : 0, count = argc >= 5 ? strtol(argv[4], NULL, 10) : 0;
    clockid_t disk;
    if (depth < 1 || depth > MOST || count < depth || argc > 6) {
        fprintf(stderr, "usage: load PATH PROCESS DEPTH COUNT [write]\n");
        return 1;
    }
    kind = argc == 6 ? VIRTIO_BLK_T_OUT : VIRTIO_BLK_T_IN;
    check(clock_getcpuclockid((pid_t)strtol(argv[2], NULL, 10), &disk) == 0, "the disk's time");
    memory = make_memory("load", SIZE, 0x100000);
    queue = make_virtqueue(0, memory.at);
    connect_to(argv[1]);
    negotiate(EVENT_IDX | (uint64_t)1 << VIRTIO_BLK_F_FLUSH, 0);
    parts = sectors_of_disk() / (PART / 512);
    give_memory(&memory);
    start_ring(&queue, 0);
    run(depth, depth);
    double begun = seconds_of(CLOCK_MONOTONIC), used = seconds_of(disk);
    run(depth, count);
    double took = seconds_of(CLOCK_MONOTONIC) - begun;
    used = seconds_of(disk) - used;
    stop_ring(&queue);
    printf("took %.0f requests a second, %.0f ns each\n", (double)count / took, used / (double)count * 1e9);
    covretin_disconnect(&device);
    return 0;
}
