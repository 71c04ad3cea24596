/* SPDX-License-Identifier: Apache-2.0 */
#define _GNU_SOURCE
#include "driver.h"

#include <stdlib.h>
#include <string.h>
#include <sys/mman.h>
#include <unistd.h>

enum { NEXT = 1, WRITE = 2, INDIRECT = 4, TABLES_AT = 0xe0000, TABLE_SIZE = 256, BUFFERS_AT = 0x100000, LEN = 512 };

static char *maps[MAX_REGIONS];
static uint16_t added;

uint64_t guest_at(int region)
{
    return ((uint64_t)region + 1) * 2 * REGION_SIZE;
}

char *mapped_at(int region)
{
    return maps[region];
}

static void map(int region)
{
    int file = memfd_create("guest", 0);
    if (file < 0 || ftruncate(file, REGION_SIZE))
        exit(4);
    maps[region] = mmap(NULL, REGION_SIZE, PROT_READ | PROT_WRITE, MAP_SHARED, file, 0);
    if (maps[region] == MAP_FAILED)
        exit(4);
    close(file);
}

/* The guest's address of a chain's buffer. */
static uint64_t buffer(const struct shape *shape, int slot, int i)
{
    return guest_at((slot * 7 + i * 13) % shape->regions) + BUFFERS_AT + (uint64_t)(slot % 32) * 4096 + (uint64_t)i * LEN;
}

/* Each of these tables has room for 16 descriptors, and the first 256 chains have one of their own. */
static uint64_t table_of(int slot)
{
    return TABLES_AT + (uint64_t)(slot % 256) * TABLE_SIZE;
}

/* The first descriptor is to be read, the others are to be written. */
static void put_chain(const struct shape *shape, int slot)
{
    struct descriptor *direct = (struct descriptor *)(void *)maps[0], *at = direct + slot * shape->chain;
    int first = slot * shape->chain;
    if (shape->is_indirect) {
        direct[slot] = (struct descriptor){guest_at(0) + table_of(slot), (uint32_t)shape->chain * sizeof *at, INDIRECT, 0};
        at = (struct descriptor *)(void *)(maps[0] + table_of(slot));
        first = 0;
    }
    for (int i = 0; i < shape->chain; i++) {
        bool goes_on = i + 1 < shape->chain;
        at[i] = (struct descriptor){buffer(shape, slot, i), LEN, (uint16_t)((goes_on ? NEXT : 0) | (i > 0 ? WRITE : 0)),
                                    (uint16_t)(goes_on ? first + i + 1 : 0)};
    }
}

void driver_make(const struct shape *shape)
{
    int each = shape->is_indirect ? 1 : shape->chain;
    uint16_t *available;
    for (int i = 0; i < shape->regions; i++)
        map(i);
    for (int slot = 0; slot < shape->size / each; slot++)
        put_chain(shape, slot);
    available = (uint16_t *)(void *)(maps[0] + AVAILABLE_AT);
    available[0] = !shape->has_event_idx; /* no notification */
    for (int i = 0; i < shape->size; i++)
        available[2 + i] = (uint16_t)(i % (shape->size / each) * each);
}

void driver_add(const struct shape *shape, int count)
{
    uint16_t *available = (uint16_t *)(void *)(maps[0] + AVAILABLE_AT);
    added = (uint16_t)(added + count);
    if (shape->has_event_idx)
        available[2 + shape->size] = (uint16_t)(added + 1000); /* (no notification) */
    __atomic_store_n(&available[1], added, __ATOMIC_RELEASE);
}
