/* SPDX-License-Identifier: Apache-2.0 */
/* A split virtqueue (virtio 1.2, 2.7) as the guest's driver sees it, in guest memory that is a file. Numbers are those of a
 * little-endian machine. */
#ifndef VIRTQUEUE_H
#define VIRTQUEUE_H

#include <stdatomic.h>
#include <stdbool.h>
#include <stddef.h>
#include <stdint.h>

enum { PAGE = 4096 };

/* Guest memory: a memfd, mapped here. The guest has it at another address, so that the two are never taken for each other. */
struct memory {
    int fd;
    uint8_t *at;
    size_t size;
    uint64_t guest;
};

/* The name is seen in the maps of a process that has it mapped, as /memfd:NAME. Ends the program where the system fails. */
struct memory make_memory(const char *name, size_t size, uint64_t guest);
void free_memory(struct memory *memory);

/* Where the guest has this byte of the memory. */
uint64_t guest_address(const struct memory *memory, const void *byte);

enum { DESCRIPTOR_NEXT = 1, DESCRIPTOR_WRITE = 2 }; /* flags: another follows; the device writes it */

struct descriptor {
    uint64_t address; /* the guest's */
    uint32_t length;
    uint16_t flags, next;
};

struct available_ring {
    uint16_t flags;
    _Atomic uint16_t index;
    uint16_t heads[];
};

struct used_element {
    uint32_t head, length;
};

struct used_ring {
    uint16_t flags;
    _Atomic uint16_t index;
    struct used_element elements[];
};

#ifndef QUEUE_SIZE
#define QUEUE_SIZE 16 /* descriptors: at most 128 */
#endif

/* The descriptors and the available ring in the first page, the used ring in the second. */
enum { QUEUE_ROOM = 2 * PAGE };

struct virtqueue {
    uint16_t index;  /* of the ring */
    uint16_t posted; /* how many heads were made available, and */
    uint16_t taken;  /* how many used ones were taken, both modulo 2^16 */
    struct descriptor *descriptors;
    struct available_ring *available;
    struct used_ring *used;
    int kick, call; /* eventfds; negative: both sides poll the ring */
};

/* A virtqueue that lies at `at`, where there are QUEUE_ROOM bytes of zeros. Nothing is written there. */
struct virtqueue make_virtqueue(uint16_t index, uint8_t *at);
void free_virtqueue(struct virtqueue *queue);

/* Closes its eventfds: from then on it is polled. */
void make_polled(struct virtqueue *queue);

/* Makes the chain of descriptors that begins at this one available. The device is not kicked by it. */
void post(struct virtqueue *queue, uint16_t head);
void kick(const struct virtqueue *queue);

/* Waits until the device has used a chain, and takes it. False where that takes longer; negative: as long as it takes. */
bool take_used(struct virtqueue *queue, int milliseconds, struct used_element *element);

#endif
