/* SPDX-License-Identifier: Apache-2.0 */
#ifndef _GNU_SOURCE
#define _GNU_SOURCE /* for memfd_create */
#endif

#include "virtqueue.h"

#include <poll.h>
#include <stdio.h>
#include <stdlib.h>
#include <sys/eventfd.h>
#include <sys/mman.h>
#include <unistd.h>

static void give_up(const char *what)
{
    perror(what);
    exit(1);
}

struct memory make_memory(const char *name, size_t size, uint64_t guest)
{
    struct memory memory = {.fd = memfd_create(name, MFD_CLOEXEC), .size = size, .guest = guest};
    if (memory.fd < 0 || ftruncate(memory.fd, (off_t)size))
        give_up("memfd_create");
    memory.at = mmap(NULL, size, PROT_READ | PROT_WRITE, MAP_SHARED, memory.fd, 0);
    if (memory.at == MAP_FAILED)
        give_up("mmap");
    return memory;
}

void free_memory(struct memory *memory)
{
    munmap(memory->at, memory->size);
    close(memory->fd);
}

uint64_t guest_address(const struct memory *memory, const void *byte)
{
    return memory->guest + (uint64_t)((const uint8_t *)byte - memory->at);
}

struct virtqueue make_virtqueue(uint16_t index, uint8_t *at)
{
    struct virtqueue queue = {.index = index,
                              .descriptors = (struct descriptor *)at,
                              .available = (struct available_ring *)(at + QUEUE_SIZE * sizeof(struct descriptor)),
                              .used = (struct used_ring *)(at + PAGE),
                              .kick = eventfd(0, EFD_CLOEXEC),
                              .call = eventfd(0, EFD_CLOEXEC)};
    if (queue.kick < 0 || queue.call < 0)
        give_up("eventfd");
    return queue;
}

void free_virtqueue(struct virtqueue *queue)
{
    if (queue->kick >= 0)
        close(queue->kick);
    if (queue->call >= 0)
        close(queue->call);
}

void make_polled(struct virtqueue *queue)
{
    free_virtqueue(queue);
    queue->kick = queue->call = -1;
}

void post(struct virtqueue *queue, uint16_t head)
{
    queue->available->heads[queue->posted % QUEUE_SIZE] = head;
    queue->posted++;
    atomic_store_explicit(&queue->available->index, queue->posted, memory_order_release);
}

void kick(const struct virtqueue *queue)
{
    if (queue->kick >= 0 && eventfd_write(queue->kick, 1))
        give_up("kick");
}

/* Waits until the device calls, or for a millisecond where it cannot. False where so many are over. */
static bool wait_for_call(const struct virtqueue *queue, int *milliseconds)
{
    struct pollfd called = {.fd = queue->call, .events = POLLIN};
    eventfd_t count;
    if (queue->call >= 0)
        return poll(&called, 1, *milliseconds) == 1 && eventfd_read(queue->call, &count) == 0;
    poll(NULL, 0, 1);
    return *milliseconds < 0 || --*milliseconds > 0;
}

bool take_used(struct virtqueue *queue, int milliseconds, struct used_element *element)
{
    while (atomic_load_explicit(&queue->used->index, memory_order_acquire) == queue->taken)
        if (!wait_for_call(queue, &milliseconds))
            return false;
    *element = queue->used->elements[queue->taken % QUEUE_SIZE];
    queue->taken++;
    return true;
}
