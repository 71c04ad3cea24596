/* SPDX-License-Identifier: Apache-2.0 */
/* The driver's side of a split queue in memory of this process, for measures of devices: chains are made once, and made available again and
 * again. */
#ifndef CHAINS_DRIVER_H
#define CHAINS_DRIVER_H

#include <stdbool.h>
#include <stdint.h>

/* What is measured: chains of so many descriptors, whose buffers lie in so many regions in turns. */
struct shape {
    int chain;
    bool is_indirect;
    bool has_event_idx;
    int regions;
    int size;
};

/* virtio 1.2, 2.7.5 */
struct descriptor {
    uint64_t addr;
    uint32_t len;
    uint16_t flags, next;
};

enum { BATCH = 32, MAX_REGIONS = 512, REGION_SIZE = 2 << 20, WRITTEN = 512 };

/* Where the guest, and the frontend, have a region; and where it is mapped. */
uint64_t guest_at(int region);
char *mapped_at(int region);

/* Where the parts of the ring begin in the first region. */
enum { TABLE_AT = 0, AVAILABLE_AT = 0x80000, USED_AT = 0xa0000 };

void driver_make(const struct shape *shape);

/* Makes so many chains available, whose used ones the driver has seen. */
void driver_add(const struct shape *shape, int count);

/* -- What a device does: each is measured in a program of its own -- */

void device_open(const struct shape *shape);

/* Takes so many chains, and gives them back with WRITTEN bytes each: how many segments they had. -1: it failed. */
int device_serve(const struct shape *shape, int count);

#endif
