/* SPDX-License-Identifier: Apache-2.0 */
#include "queue_guest.h"

/* Memory of this process. Regions lie in it, side by side for the guest and for the frontend too; or elsewhere, where nothing is mapped, and
 * is neither read nor written. */
enum { SLOT = 1 << 16, SLOTS = 16, LEAST = 4096 };
static _Alignas(LEAST) uint8_t memory[SLOT * SLOTS];

#define GUEST 0x40000000u
#define USER 0x7f0000000000u

/* -- Regions -- */

static covretin_guest_region region_at(uint64_t at, uint64_t size)
{
    return (covretin_guest_region){GUEST + at, size, USER + at, (uintptr_t)memory + at};
}

covretin_guest_region small_region(size_t i)
{
    return region_at(i * 2048, 2048);
}

covretin_guest_region next_region(size_t i)
{
    uint8_t how = next_byte();
    uint64_t slot = (4 * i + how / 192) % SLOTS, odd = how / 16;
    covretin_guest_region region = region_at(slot * SLOT, SLOT);
    switch (how % 16) {
    case 0: return odd < 8 ? region_at(0, sizeof memory) : region;
    case 1: /* which ends at the last addresses, or beyond */
        region.size = odd % 2 ? SLOT : next_number();
        region.guest_addr = 0 - region.size - odd % 4;
        break;
    case 2:
        region.size = (uint64_t)1 << (32 + next_byte() % 32);
        region.host_addr = LEAST * odd;
        break;
    case 3: region = (covretin_guest_region){next_number(), next_number(), next_number(), next_number()}; break;
    case 4: /* which begins at an odd place, for one of the three */
        region.size -= 16;
        region.host_addr += odd % 4 < 2 ? odd : 0;
        region.user_addr += odd % 4 == 2 ? odd : 0;
        break;
    case 5: region.size = odd < 5 ? 4 * odd : SLOT - odd; break;
    default: region.size = SLOT * (1 + odd % 4); break;
    }
    return region;
}

/* A place of so many bytes in a region that is there, often at one of its ends, or a byte beyond; or anywhere. */
static uint64_t next_place(bool user, uint64_t len, uint64_t multiple)
{
    uint8_t how = next_byte();
    uint64_t offset = next_number();
    if (model.region_count == 0 || how == 255)
        return offset;
    const covretin_guest_region *region = &model.regions[how % model.region_count];
    uint64_t room = region->size > len ? region->size - len : 0;
    offset = room == 0 ? 0 : offset * multiple % room / multiple * multiple;
    switch (how / 16) {
    case 15: offset = room + (how & 1); break;
    case 14: offset = how & 2 ? room - (how & 1) : 0u - (how & 1); break;
    case 13: case 12: offset = 0; break;
    case 11: offset = room; break;
    default: break;
    }
    return (user ? region->user_addr : region->guest_addr) + offset;
}

void next_parts(enum layout layout, uint32_t size, uint64_t parts[3])
{
    uint8_t how = next_byte();
    uint64_t lens[3] = {16 * size, layout == SPLIT ? 6 + 2 * size : 4, layout == SPLIT ? 6 + 8 * size : 4};
    parts[0] = next_place(true, how % 4 == 0 ? lens[0] : lens[0] + lens[1] + lens[2] + 4, 16);
    parts[1] = how % 8 == 0 ? next_place(true, lens[1], 2) : parts[0] + lens[0];
    parts[2] = how % 8 == 0 ? next_place(true, lens[2], 4) : (parts[1] + lens[1] + 3) / 4 * 4;
    if (how > 250)
        parts[how % 3] += how % 2 + 1;
}

void next_start(struct start *start)
{
    uint8_t how = next_byte(), size = next_byte();
    start->layout = how & 1 ? PACKED : SPLIT;
    start->event_idx = how & 2;
    start->indirect_desc = how & 4;
    if (size >= 250)
        start->size = (uint16_t)(size < 253 ? next_number() : MOST_SIZE + size - 254u);
    else if (start->layout == SPLIT || size >= 240)
        start->size = (uint16_t)(1 << (size < 224 ? size % 5 : size % 16));
    else
        start->size = 1 + size % 20;
    next_parts(start->layout, start->size, start->parts);
    start->avail = (uint16_t)(how < 64 ? next_number() : start->layout == PACKED ? 0x8000 : 0u - how / 32);
    start->used = how < 64 && how % 16 < 8 ? (uint16_t)next_number() : start->avail;
    if (start->layout == PACKED && start->size != 0 && how < 56) {
        start->avail = (uint16_t)((start->avail & 0x8000) | (start->avail & 0x7fff) % start->size);
        start->used = (uint16_t)((start->used & 0x8000) | (start->used & 0x7fff) % start->size);
        if (how % 16 == 9) /* (just beyond the ring) */
            *(how < 32 ? &start->avail : &start->used) = (uint16_t)((start->avail & 0x8000) + start->size);
    }
}

/* -- What the guest wrote -- */

uint16_t next_available(void)
{
    uint8_t how = next_byte();
    if (how >= 250)
        return (uint16_t)next_number();
    if (model.layout == PACKED)
        return (uint16_t)((model.avail < model.size) == (how < 240) ? 0x80 : 0x8000);
    return (uint16_t)(model.avail + (model.size == 0 ? 0 : how % (model.size + 1)));
}

uint16_t next_head(void)
{
    uint8_t how = next_byte();
    if (how >= 250 || model.size == 0)
        return (uint16_t)(how % 2 ? model.size : next_number());
    uint32_t head = how * (model.size / 256 + 1) % model.size;
    for (int i = 0; how < 240 && i < 8 && model.out[head] != 0; i++)
        head = (head + 1) % model.size;
    return (uint16_t)head;
}

covretin_descriptor next_descriptor(void)
{
    uint8_t how = next_byte(), kind = next_byte();
    bool is_table = kind % 16 == 0 && (model.chain.nests || kind == 0), is_raw = kind == 255;
    uint16_t flags = (uint16_t)((how & 3) != 0 && !(is_table && kind != 16));
    flags |= (model.chain.writing ? how < 248 : how / 4 % 4 == 1) ? 2 : 0;
    flags |= is_table ? 4 : 0;
    uint64_t few = how % 16 == 15 ? model.chain.left + how / 16 % 2 : 1u + how / 8, few_bytes = how == 251 ? 0 : 1u + kind * 7u;
    uint64_t len = is_raw || kind == 254 ? next_number() : is_table ? 16 * few : few_bytes;
    uint64_t addr = is_raw ? next_number() : next_place(false, len, is_table ? 16 : 1);
    uint16_t behind = (uint16_t)(model.chain.entries == 0 ? 0 : (model.chain.next + 1 + (how > 240)) % model.chain.entries);
    if (is_raw)
        flags = (uint16_t)next_number();
    if (model.layout == PACKED)
        return (covretin_descriptor){addr, (uint32_t)len, next_head(), flags};
    return (covretin_descriptor){addr, (uint32_t)len, flags, how == 255 ? (uint16_t)next_number() : behind};
}

uint32_t next_event(void)
{
    uint8_t how = next_byte();
    uint32_t place = how % 8 == 7 ? (uint32_t)next_number() : model.used - how % 8;
    if (model.layout != PACKED)
        return (uint16_t)(model.event_idx ? place : how);
    uint32_t rounds = 2 * model.size;
    place = how % 8 == 7 ? place : (model.used + rounds - how % 8 % rounds) % rounds;
    place = how % 8 == 7 ? place : place < model.size ? place | 0x8000 : place - model.size;
    place = how % 64 == 6 ? model.size | (how & 64) << 9 : place;
    return (place & 0xffff) | (how < 192 ? 2u : how < 240 ? how % 4 : (uint32_t)next_number()) << 16;
}

/* -- Memory -- */

/* Where such a range is in this process, if it is there. */
static uint8_t *mapped(covretin_range range)
{
    uint64_t offset = range.addr - (uintptr_t)memory;
    return offset < sizeof memory && range.len <= sizeof memory - offset ? memory + offset : NULL;
}

/* The guest writes these bytes to a place, they are read there, and it changes all of them. */
static void write_and_read(covretin_range place, void *bytes, size_t len)
{
    uint8_t *at = mapped(place);
    must(place.len == len);
    if (at == NULL)
        return;
    memcpy(at, bytes, len);
    memcpy(bytes, at, len);
    for (size_t i = 0; i < len; i++)
        at[i] ^= (uint8_t)(1 + this_step() % 255);
}

uint64_t guest_has(covretin_range place, uint64_t value)
{
    must(place.len <= sizeof value);
    write_and_read(place, &value, place.len);
    return place.len == 2 ? (uint16_t)value : (uint32_t)value;
}

covretin_descriptor guest_has_descriptor(covretin_range place, covretin_descriptor value)
{
    write_and_read(place, &value, sizeof value);
    return value;
}

void device_writes(covretin_range place, uint64_t value)
{
    uint8_t *at = mapped(place);
    must(place.len <= sizeof value);
    if (at != NULL)
        memcpy(at, &value, place.len);
}

void device_touches(covretin_range range, bool writable)
{
    volatile uint8_t *at = mapped(range);
    if (at == NULL)
        return;
    uint8_t first = at[0], last = at[range.len - 1];
    if (writable) {
        at[0] = (uint8_t)~first;
        at[range.len - 1] = (uint8_t)~last;
    }
}
