/* SPDX-License-Identifier: Apache-2.0 */
/* What comes after a crash of a device with a packed queue: by an inflight region that says anything, and by one that a device kept. */
#include "queue_calls.h"

enum { PLACES = 16, AVAIL = 1 << 7, USED = 1 << 15, NEXT = 1 };

static struct {
    bool free[MOST_SIZE + 1];
    covretin_resubmit again[MOST_SIZE + 1];
    covretin_packed_inflight_head head;
    size_t count;
} found;

/* Which state of an area holds, said once more: where something was used since the old one, and its descriptor is none that is available. */
static covretin_packed_inflight_head holding(const covretin_packed_inflight_head said[2], uint16_t flags)
{
    bool wrap = said[1].used_wrap_counter, is_available = ((flags & AVAIL) != 0) == wrap && ((flags & USED) != 0) != wrap;
    bool is_same = said[0].used_idx == said[1].used_idx && said[0].used_wrap_counter == wrap;
    return said[is_same || is_available];
}

static bool recover(const covretin_inflight_entry *entries, size_t size, const covretin_packed_inflight_head said[2], uint16_t flags,
                    size_t free_len, size_t again_len)
{
    static bool is_free[MOST_SIZE + 1];
    covretin_packed_inflight_head head = holding(said, flags);
    size_t in_flight = 0;
    uint64_t reasons = model_free(entries, size, &head, is_free);
    for (size_t i = 0; i < size; i++)
        in_flight += entries[i].inflight && !is_free[i];
    reasons |= free_len != size || again_len < in_flight ? REASON(COVRETIN_QUEUE_NO_ROOM) : 0;
    memset(&found, BLANK, sizeof found);
    if (!DOES(RECOVER_PACKED,
              covretin_inflight_recover_packed(entries, size, &said[0], &said[1], flags, &found.head, found.free, free_len, found.again,
                                               again_len, &found.count),
              reasons)) {
        must(is_blank(&found, sizeof found));
        return false;
    }
    must(found.head.free_head == head.free_head && found.head.used_idx == head.used_idx);
    must(found.head.used_wrap_counter == head.used_wrap_counter);
    must(found.count == in_flight && memcmp(is_free, found.free, size) == 0);
    must(are_taken_again(entries, is_free, size, found.again, found.count));
    return true;
}

static covretin_packed_inflight_head next_state(size_t size)
{
    uint16_t numbers = (uint16_t)next_number();
    return (covretin_packed_inflight_head){next_byte() % 18, (uint16_t)(size == 0 ? numbers : numbers % (size + 1)), numbers >> 15};
}

void recover_packed_any(void)
{
    static covretin_inflight_entry entries[MOST_SIZE + 1];
    uint8_t how = next_byte();
    size_t size = how == 255 ? MOST_SIZE + 1 : how == 254 ? MOST_SIZE : how % 16;
    covretin_packed_inflight_head said[2] = {next_state(size), next_state(size)};
    for (size_t i = 0; i < size; i++) {
        uint8_t it = size > 16 ? 0 : next_byte();
        entries[i] = (covretin_inflight_entry){it & 1, (uint16_t)(it < 128 ? i + 1 : it / 2 % 18), it / 32};
    }
    recover(entries, size, said, (uint16_t)next_number(), size - (how / 16 == 1 && size != 0) + (how / 16 == 2),
            how / 16 == 3 ? size / 2 : size);
}

/* -- A device that keeps an inflight region, and crashes -- */

/* The region as the vhost-user specification has it, and the flags in the ring; and the truth: by its id, which request was taken when, and not
 * used, with its descriptors and entries. */
static struct {
    struct {
        uint64_t features;
        uint16_t version, desc_num, free_head, old_free_head, used_idx, old_used_idx;
        uint8_t used_wrap_counter, old_used_wrap_counter, padding[10];
        struct entry {
            uint8_t inflight, padding;
            uint16_t next, last, num;
            uint64_t counter;
            uint16_t id, flags;
            uint32_t len;
            uint64_t addr;
        } desc[PLACES];
    } area;
    uint16_t ring[PLACES];
    struct request {
        uint64_t counter; /* 0: it is none */
        uint16_t num, entries[PLACES];
        covretin_descriptor descriptors[PLACES];
    } requests[PLACES];
    uint16_t size, free_head;
    uint32_t avail, used; /* on two rounds of the ring */
    uint64_t counter;
    unsigned writes; /* that are made yet */
} device;

/* Makes a write, unless the device crashed. */
static bool writes(void)
{
    return device.writes != 0 && device.writes-- != 0;
}

/* It lies in the area, and is one access. */
static bool note(const covretin_inflight_write *it)
{
    must(it->len != 0 && it->len <= 8 && it->offset % it->len == 0 && it->offset + it->len <= 32 + 32 * (uint64_t)device.size);
    if (!writes())
        return false;
    memcpy((uint8_t *)&device.area + it->offset, &it->value, it->len);
    return true;
}

static uint16_t place(uint32_t at)
{
    return (uint16_t)(at % device.size + (at < device.size ? 1 << 15 : 0));
}

/* The flags of a descriptor that is available there, or used. */
static uint16_t flags_at(uint32_t at, bool is_used)
{
    bool wrap = at < device.size;
    return (uint16_t)((wrap ? AVAIL : 0) | (wrap == is_used ? USED : 0));
}

/* The driver makes a request available, which the device takes. It is in flight once the last write was made. */
static void device_takes(uint16_t id, uint16_t num)
{
    struct request it = {.counter = ++device.counter, .num = num};
    covretin_inflight_write two[2], four[4];
    uint16_t at = device.free_head;
    bool is_taken = false;
    for (uint16_t i = 0; i < num; i++) {
        uint32_t here = (device.avail + i) % (2u * device.size);
        uint16_t flags = (uint16_t)(flags_at(here, false) | (i + 1 < num ? NEXT : 0));
        device.ring[here % device.size] = flags;
        must(at < device.size);
        it.entries[i] = at;
        it.descriptors[i] = (covretin_descriptor){next_number(), (uint32_t)next_number(), id, flags};
        covretin_inflight_keep_packed(at, &it.descriptors[i], &two[0], &two[1]);
        note(&two[0]);
        note(&two[1]);
        at = device.area.desc[at].next;
    }
    covretin_inflight_take_packed(it.entries[0], it.entries[num - 1u], num, it.counter, at, four);
    for (size_t i = 0; i < 4; i++)
        is_taken = note(&four[i]);
    device.free_head = at;
    if (!is_taken)
        return;
    device.requests[id] = it;
    device.avail = (device.avail + num) % (2u * device.size);
}

/* It is used once the flags in the ring say so. */
static void device_gives(uint16_t id)
{
    struct request *it = &device.requests[id];
    covretin_inflight_write three[3];
    uint16_t head = it->entries[0];
    uint32_t old = device.used, used = (old + it->num) % (2u * device.size);
    covretin_inflight_before_used_packed(head, it->entries[it->num - 1u], device.free_head, place(used), place(old), three);
    for (size_t i = 0; i < 3; i++)
        note(&three[i]);
    if (writes()) {
        device.ring[old % device.size] = flags_at(old, true);
        device.used = used;
        it->counter = 0;
    }
    covretin_inflight_after_used_packed(head, place(used), three);
    for (size_t i = 0; i < 3; i++)
        note(&three[i]);
    device.free_head = head;
}

/* What is taken again is what was kept of it. */
static void is_as_it_was(const covretin_resubmit *again)
{
    uint16_t at = again->head, id = device.area.desc[device.area.desc[at].last].id;
    must(id < PLACES && device.requests[id].counter == again->counter && device.requests[id].num == device.area.desc[at].num);
    for (uint16_t i = 0; i < device.requests[id].num; at = device.area.desc[at].next, i++) {
        const covretin_descriptor *was = &device.requests[id].descriptors[i];
        const struct entry *is = &device.area.desc[at];
        must(at == device.requests[id].entries[i] && !found.free[at]);
        must(is->addr == was->addr && is->len == was->len && is->id == was->third && is->flags == was->fourth);
    }
}

/* The requests that were taken and not used are taken again, in the order in which they were, and no other; their entries are not free, and
 * the others are. The device may crash as it notes that. */
static void device_recovers(void)
{
    covretin_inflight_entry entries[PLACES];
    const covretin_packed_inflight_head said[2] = {
        {device.area.free_head, device.area.used_idx, device.area.used_wrap_counter != 0},
        {device.area.old_free_head, device.area.old_used_idx, device.area.old_used_wrap_counter != 0}};
    covretin_inflight_write three[3];
    size_t count = 0, in_use = 0;
    for (size_t i = 0; i < device.size; i++)
        entries[i] = (covretin_inflight_entry){device.area.desc[i].inflight, device.area.desc[i].next, device.area.desc[i].counter};
    for (size_t id = 0; id < PLACES; id++) {
        count += device.requests[id].counter != 0;
        in_use += device.requests[id].counter != 0 ? device.requests[id].num : 0;
    }
    must(recover(entries, device.size, said, device.ring[said[1].used_idx], device.size, device.size) && found.count == count);
    must(found.head.used_idx + (found.head.used_wrap_counter ? 1u << 15 : 0) == place(device.used));
    for (size_t i = 0; i < count; i++)
        is_as_it_was(&found.again[i]);
    for (size_t i = 0; i < device.size; i++) {
        in_use += found.free[i];
        if (found.free[i] && writes())
            device.area.desc[i].inflight = 0;
    }
    must(in_use == device.size);
    covretin_inflight_after_used_packed(found.head.free_head, place(device.used), three);
    note(&three[1]);
    note(&three[2]);
    device.free_head = found.head.free_head;
}

/* Takes and gives up to a crash; in the device behind it what is left, and more. */
void crash_packed(void)
{
    memset(&device, 0, sizeof device);
    device.size = (uint16_t)(1 + next_byte() % PLACES);
    device.avail = device.used = next_byte() % (2u * device.size);
    for (uint16_t i = 0; i < device.size; i++)
        device.area.desc[i].next = (uint16_t)(i + 1);
    device.area.used_idx = device.area.old_used_idx = (uint16_t)(device.used % device.size);
    device.area.used_wrap_counter = device.area.old_used_wrap_counter = device.used < device.size;
    for (unsigned lives = 3; lives != 0; lives--) {
        device.writes = 1 + next_byte() % 128;
        while (device.writes != 0) {
            uint16_t which = next_byte(), id = which / 16, num = (uint16_t)(1 + which / 2 % 4);
            uint32_t room = device.size - (device.avail + 2u * device.size - device.used) % (2u * device.size);
            if (which % 2 == 0 && device.requests[id].counter == 0 && num <= room)
                device_takes(id, num);
            else if (which % 2 != 0 && device.requests[id].counter != 0)
                device_gives(id);
            else
                device.writes--;
        }
        device.writes = next_byte() % 4;
        device_recovers();
        device.writes = 64;
        device_recovers();
        outcome_of(CUT, 0);
    }
}
