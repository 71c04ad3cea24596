/* SPDX-License-Identifier: Apache-2.0 */
#include "queue_model.h"

enum { NEXT = 1, WRITE = 2, INDIRECT = 4, AVAIL = 1 << 7, USED = 1 << 15, WRAP = 1 << 15, LEAST_INDIRECT = 1024 };

struct model model;

#define WHY(reason, holds) ((holds) ? REASON(COVRETIN_QUEUE_##reason) : 0)

void model_open(void)
{
    model.is_open = true;
    model.region_count = 0;
    model.size = model.avail = model.used = model.idx = 0;
    model.event_idx = model.indirect_desc = model.chain.in_ring = model.chain.writing = model.chain.nests = model.chain.has_rest = false;
    model.chain.entries = model.chain.next = model.chain.left = model.chain.splits = 0;
    model_stop();
}

void model_close(void)
{
    model_stop();
    model.is_open = false;
}

static covretin_range at(uint64_t addr, uint64_t len)
{
    return (covretin_range){addr, len};
}

/* -- Memory -- */

/* Whether bytes have no address in common. */
static bool are_apart(uint64_t one, uint64_t one_len, uint64_t other, uint64_t other_len)
{
    return one < other ? other - one >= one_len : one - other >= other_len;
}

/* Whether they end within the addresses of 64 bits. */
static bool ends(uint64_t addr, uint64_t len)
{
    return len <= UINT64_MAX - addr;
}

/* Whether a region has no address of these. */
static bool is_apart(const covretin_guest_region *regions, size_t count, const covretin_guest_region *it)
{
    bool holds = true;
    for (size_t i = 0; holds && i < count; i++)
        holds = are_apart(regions[i].guest_addr, regions[i].size, it->guest_addr, it->size) &&
                are_apart(regions[i].user_addr, regions[i].size, it->user_addr, it->size);
    return holds;
}

/* Why a region cannot be one more. */
static uint64_t refused_region(const covretin_guest_region *regions, size_t count, const covretin_guest_region *it)
{
    bool is_valid = it->size != 0 && ends(it->guest_addr, it->size) && ends(it->user_addr, it->size) && ends(it->host_addr, it->size);
    return WHY(INVALID_REGION, !is_valid) | WHY(TOO_MANY_REGIONS, count >= MOST_REGIONS) |
           WHY(REGION_OVERLAP, is_valid && !is_apart(regions, count, it));
}

uint64_t model_set_regions(const covretin_guest_region *regions, size_t count)
{
    uint64_t reasons = WHY(TOO_MANY_REGIONS, count > MOST_REGIONS);
    if (!model.is_open)
        return REASON(COVRETIN_QUEUE_NO_QUEUE);
    for (size_t i = 0; i < count; i++)
        reasons |= refused_region(regions, i, &regions[i]);
    if (reasons != 0)
        return reasons;
    memcpy(model.regions, regions, count * sizeof *regions);
    model.region_count = count;
    return 0;
}

uint64_t model_add_region(const covretin_guest_region *region)
{
    uint64_t reasons = model.is_open ? refused_region(model.regions, model.region_count, region) : REASON(COVRETIN_QUEUE_NO_QUEUE);
    if (reasons == 0)
        model.regions[model.region_count++] = *region;
    return reasons;
}

uint64_t model_remove_region(uint64_t guest_addr, uint64_t size, uint64_t user_addr)
{
    for (size_t i = 0; model.is_open && i < model.region_count; i++) {
        const covretin_guest_region *it = &model.regions[i];
        if (it->guest_addr != guest_addr || it->size != size || it->user_addr != user_addr)
            continue;
        model.region_count--;
        memmove(&model.regions[i], it + 1, (model.region_count - i) * sizeof *it);
        return 0;
    }
    return WHY(NO_QUEUE, !model.is_open) | WHY(NO_SUCH_REGION, model.is_open);
}

uint64_t model_translate(bool user, uint64_t addr, uint64_t len, covretin_range *range)
{
    for (size_t i = 0; model.is_open && len != 0 && i < model.region_count; i++) {
        const covretin_guest_region *it = &model.regions[i];
        uint64_t offset = addr - (user ? it->user_addr : it->guest_addr);
        if (offset >= it->size || len > it->size - offset)
            continue;
        *range = at(it->host_addr + offset, len);
        return 0;
    }
    return WHY(NO_QUEUE, !model.is_open) | WHY(NOT_IN_GUEST, model.is_open);
}

/* Where the first of these bytes of the guest are mapped: those that lie in the region that has the first of them. */
static uint64_t translate_part(uint64_t addr, uint64_t len, covretin_range *range)
{
    for (size_t i = 0; i < model.region_count; i++) {
        const covretin_guest_region *it = &model.regions[i];
        uint64_t offset = addr - it->guest_addr, room = it->size - offset;
        if (offset >= it->size)
            continue;
        *range = at(it->host_addr + offset, len < room ? len : room);
        return 0;
    }
    return REASON(COVRETIN_QUEUE_NOT_IN_GUEST);
}

/* -- Rings -- */

/* How many places there are until the first comes again, and the place so many further. */
static uint32_t places(void)
{
    return model.layout == SPLIT ? 1 << 16 : 2 * model.size;
}

static uint32_t further(uint32_t place, uint32_t count)
{
    return (place + count) % places();
}

/* How far it is from one to another. */
static uint32_t distance(uint32_t from, uint32_t to)
{
    return (to + places() - from) % places();
}

/* A place of a packed ring as 16 bits, and back. */
static uint16_t number_of(uint32_t place)
{
    return (uint16_t)(place < model.size ? place | WRAP : place - model.size);
}

static uint32_t place_of(uint16_t number)
{
    return number & WRAP ? number & (WRAP - 1u) : number + model.size;
}

/* Where the parts of a ring of this size are mapped. */
static uint64_t map(enum layout layout, uint32_t size, const uint64_t parts[3], uint64_t mapped[3])
{
    const uint64_t lens[3] = {16 * size, layout == SPLIT ? 6 + 2 * size : 4, layout == SPLIT ? 6 + 8 * size : 4};
    const uint64_t multiples[3] = {16, layout == SPLIT ? 2 : 4, 4};
    uint64_t reasons = 0;
    for (size_t i = 0; i < 3; i++) {
        covretin_range range = {0, 0};
        reasons |= model_translate(true, parts[i], lens[i], &range) | WHY(UNALIGNED, range.addr % multiples[i] != 0);
        mapped[i] = range.addr;
    }
    return reasons;
}

uint64_t model_start(const struct start *start)
{
    bool is_packed = start->layout == PACKED, is_power = (start->size & (start->size - 1)) == 0;
    uint64_t mapped[3], reasons = map(start->layout, start->size, start->parts, mapped);
    if (!model.is_open)
        return REASON(COVRETIN_QUEUE_NO_QUEUE);
    reasons |= WHY(INVALID_SIZE, start->size == 0 || start->size > MOST_SIZE || (!is_packed && !is_power));
    reasons |= WHY(INVALID_BASE, is_packed && ((start->avail & (WRAP - 1)) >= start->size || (start->used & (WRAP - 1)) >= start->size));
    if (reasons != 0)
        return reasons;
    model.layout = start->layout;
    memcpy(model.parts, mapped, sizeof mapped);
    model.size = start->size;
    model.event_idx = start->event_idx;
    model.indirect_desc = start->indirect_desc;
    model.avail = model.idx = is_packed ? place_of(start->avail) : start->avail;
    model.used = is_packed ? place_of(start->used) : start->used;
    model.needs_reset = model.was_asked = model.chain.goes_on = model.chain.in_ring = false;
    memset(model.out, 0, model.size * sizeof *model.out);
    return 0;
}

/* Why a call that rings answer is refused, and one that a split queue answers. */
static uint64_t no_rings(void)
{
    return WHY(NO_QUEUE, !model.is_open) | WHY(NOT_STARTED, model.is_open && model.layout == STOPPED);
}

static uint64_t not_split(void)
{
    return no_rings() | WHY(OTHER_LAYOUT, model.layout == PACKED);
}

uint64_t model_move(enum layout layout, const uint64_t parts[3])
{
    uint64_t mapped[3], reasons = no_rings();
    if (reasons == 0)
        reasons = WHY(OTHER_LAYOUT, model.layout != layout);
    if (reasons == 0)
        reasons = map(layout, model.size, parts, mapped);
    if (reasons != 0)
        return reasons;
    memcpy(model.parts, mapped, sizeof mapped);
    model.chain.goes_on = false;
    return 0;
}

uint64_t model_stop(void)
{
    model.layout = STOPPED;
    model.needs_reset = model.chain.goes_on = false;
    return WHY(NO_QUEUE, !model.is_open);
}

uint64_t model_base(uint32_t *base)
{
    *base = model.layout == PACKED ? number_of(model.avail) | (uint32_t)number_of(model.used) << 16 : model.avail;
    return no_rings();
}

/* -- Where to read -- */

/* The descriptor of a packed ring at a place. */
static uint64_t in_ring(uint32_t place)
{
    return model.parts[0] + 16 * (place % model.size);
}

uint64_t model_available_place(covretin_range *place)
{
    if (no_rings() == 0)
        *place = at(model.layout == SPLIT ? model.parts[1] + 2 : in_ring(model.avail) + 14, 2);
    return no_rings();
}

uint64_t model_head_place(covretin_range *place)
{
    uint64_t reasons = not_split();
    if (reasons == 0)
        reasons = WHY(NOTHING_AVAILABLE, model.avail == model.idx);
    if (reasons == 0)
        *place = at(model.parts[1] + 4 + 2 * (model.avail % model.size), 2);
    return reasons;
}

/* Those from there on, up to the end of the ring, and of what is available. */
uint64_t model_heads_place(size_t most, covretin_range *place)
{
    uint64_t reasons = model_head_place(place);
    for (place->len = 0; reasons == 0 && place->len / 2 < most; place->len += 2) {
        uint16_t entry = (uint16_t)(model.avail + place->len / 2);
        if (entry == (uint16_t)model.idx || (place->len != 0 && entry % model.size == 0))
            break;
    }
    return reasons;
}

uint64_t model_descriptor_place(covretin_range *place, bool *found)
{
    *found = no_rings() == 0 && model.chain.goes_on;
    if (*found)
        *place = at(model.chain.table + 16 * model.chain.next, model.chain.has_rest ? 0 : 16);
    return WHY(NO_QUEUE, !model.is_open);
}

/* A chain that has ended is in the table that it was in last. */
uint64_t model_table(covretin_table *table)
{
    bool goes_on = no_rings() == 0 && model.chain.goes_on;
    *table = (covretin_table){.goes_on = goes_on};
    if (goes_on) {
        table->range = at(model.chain.table, 16 * (uint64_t)model.chain.entries);
        table->next = (uint16_t)model.chain.next;
    }
    return WHY(NO_QUEUE, !model.is_open);
}

uint64_t model_notification_place(covretin_range *place)
{
    if (model.layout == PACKED)
        *place = at(model.parts[1], 4);
    else
        *place = at(model.parts[1] + (model.event_idx ? 4 + 2 * model.size : 0), 2);
    return no_rings();
}

uint64_t model_set_notification(bool enable, covretin_event_write *write)
{
    if (model.layout == PACKED) {
        uint32_t by_place = (uint32_t)number_of(model.avail) | 2u << 16;
        *write = (covretin_event_write){at(model.parts[2], 4), !enable ? 1u << 16 : model.event_idx ? by_place : 0};
    } else if (!model.event_idx)
        *write = (covretin_event_write){at(model.parts[2], 2), !enable};
    else if (enable)
        *write = (covretin_event_write){at(model.parts[2] + 4 + 8 * model.size, 2), model.avail};
    else
        *write = (covretin_event_write){at(0, 0), 0};
    return no_rings();
}

/* -- What was read -- */

/* The guest broke these rules. */
static uint64_t broken(uint64_t reasons)
{
    model.needs_reset = model.needs_reset || reasons != 0;
    return reasons;
}

/* The chain goes on at a descriptor of a table. */
static void enter(uint64_t table, uint32_t entries, uint32_t first)
{
    model.chain.table = table;
    model.chain.entries = entries;
    model.chain.next = first;
}

/* A chain begins. It has as many descriptors at most as the queue, and where tables may be indirect 1024 may come. */
static void begin(uint32_t first)
{
    model.chain.goes_on = true;
    model.chain.in_ring = model.layout == PACKED;
    model.chain.writing = false;
    model.chain.nests = model.indirect_desc;
    model.chain.has_rest = false;
    model.chain.splits = MOST_REGIONS - 1;
    model.chain.left = model.indirect_desc && model.size < LEAST_INDIRECT ? LEAST_INDIRECT : model.size;
    model.chain.slots = 0;
    enter(model.parts[0], model.size, first);
}

uint64_t model_available(uint16_t value, uint16_t *count)
{
    uint64_t reasons = no_rings() | WHY(NEEDS_RESET, model.needs_reset);
    bool wrap = model.avail < model.size;
    if (reasons != 0)
        return reasons;
    if (model.layout == SPLIT) {
        *count = (uint16_t)(value - model.avail);
        reasons = broken(WHY(TOO_MANY_AVAILABLE, *count > model.size));
        model.idx = reasons != 0 ? model.idx : value;
        return reasons;
    }
    *count = ((value & AVAIL) != 0) == wrap && ((value & USED) != 0) != wrap;
    if (*count != 0)
        begin(model.avail % model.size);
    return 0;
}

uint64_t model_take(uint16_t head, bool is_again)
{
    uint64_t reasons = not_split();
    if (reasons != 0)
        return reasons;
    reasons = WHY(NEEDS_RESET, model.needs_reset) | WHY(NOTHING_AVAILABLE, !is_again && model.avail == model.idx);
    if (reasons != 0)
        return reasons;
    reasons = WHY(NOT_IN_TABLE, head >= model.size) | WHY(HEAD_IN_USE, head < model.size && model.out[head] != 0);
    if (reasons != 0)
        return broken(reasons);
    model.out[head] = 1;
    model.avail = further(model.avail, !is_again);
    begin(head);
    return 0;
}

/* A chain is taken again, at the place that is available next. */
uint64_t model_take_packed(void)
{
    uint64_t reasons = no_rings();
    if (reasons == 0)
        reasons = model.layout == SPLIT ? REASON(COVRETIN_QUEUE_OTHER_LAYOUT) : WHY(NEEDS_RESET, model.needs_reset);
    if (reasons == 0)
        begin(model.avail % model.size);
    return reasons;
}

/* A head of a split queue that was taken last, or is said to be, is available again; and one is the device's that is not followed. */
uint64_t model_give_back(uint16_t head)
{
    uint64_t reasons = not_split();
    uint16_t before = (uint16_t)(model.avail - 1);
    if (reasons == 0)
        reasons = WHY(NOT_HANDED_OUT, head >= model.size || model.out[head] == 0);
    if (reasons == 0)
        reasons = WHY(TOO_MANY_AVAILABLE, (uint16_t)(model.idx - before) > model.size);
    if (reasons != 0)
        return reasons;
    model.out[head] = 0;
    model.avail = before;
    model.chain.goes_on = false;
    return 0;
}

uint64_t model_adopt(uint16_t head)
{
    uint64_t reasons = not_split();
    if (reasons == 0)
        reasons = WHY(NOT_IN_TABLE, head >= model.size) | WHY(HEAD_IN_USE, head < model.size && model.out[head] != 0);
    if (reasons == 0)
        model.out[head] = 1;
    return reasons;
}

static struct link link_of(const covretin_descriptor *it)
{
    uint32_t behind = model.chain.next + 1;
    if (model.layout == SPLIT)
        return (struct link){it->third, false, it->third & NEXT, it->fourth};
    if (!model.chain.in_ring) /* (there the flag is reserved, and all are the chain's) */
        return (struct link){it->fourth & (uint16_t)~NEXT, false, behind < model.chain.entries, behind};
    bool goes_on = (it->fourth & (NEXT | INDIRECT)) == NEXT;
    return (struct link){it->fourth, !goes_on, goes_on, behind % model.size};
}

/* Why a descriptor is refused that names a table, or a segment. */
static uint64_t refused_table(const covretin_descriptor *it, const struct link *link)
{
    covretin_range table;
    return WHY(UNEXPECTED_INDIRECT, !model.chain.nests) | WHY(INDIRECT_GOES_ON, link->flags & NEXT) |
           WHY(INVALID_INDIRECT_LENGTH, it->len == 0 || it->len % 16 != 0) | WHY(CHAIN_TOO_LONG, it->len / 16 > model.chain.left) |
           model_translate(false, it->addr, it->len, &table);
}

static uint64_t refused_segment(const covretin_descriptor *it, const struct link *link)
{
    covretin_range range;
    bool is_there = link->next < model.chain.entries;
    uint64_t reasons = WHY(NOT_IN_TABLE, !is_there) | WHY(CHAIN_TOO_LONG, model.chain.left == 1);
    uint64_t why = WHY(READABLE_AFTER_WRITABLE, model.chain.writing && !(link->flags & WRITE)) | WHY(EMPTY_DESCRIPTOR, it->len == 0);
    why |= translate_part(it->addr, it->len, &range);
    if (why == 0 && range.len < it->len)
        return WHY(CHAIN_TOO_LONG, model.chain.splits == 0);
    return why | (link->goes_on ? reasons : 0);
}

/* The chain of a packed ring went on, and is the device's where this was its last descriptor there. */
static void go_on(const covretin_descriptor *it, const struct link *link)
{
    if (!model.chain.in_ring)
        return;
    model.chain.slots++;
    if (!link->is_last)
        return;
    model.chain.in_ring = false;
    model.out[it->third] = model.chain.slots;
    model.avail = further(model.avail, model.chain.slots);
}

/* A segment came: the descriptor's last, or its first bytes. */
static void give_segment(const covretin_descriptor *it, const struct link *link, covretin_segment *segment)
{
    uint32_t len = (uint32_t)segment->range.len;
    model.chain.writing = segment->writable;
    model.chain.has_rest = len < it->len;
    if (model.chain.has_rest) {
        model.chain.rest = (covretin_descriptor){it->addr + len, it->len - len, it->third, it->fourth};
        model.chain.link = *link;
        model.chain.link.is_last = false; /* (its id was read, and counts once) */
        model.chain.splits--;
        return;
    }
    model.chain.left--;
    model.chain.goes_on = link->goes_on;
    model.chain.next = link->next;
}

uint64_t model_step(const covretin_descriptor *given, covretin_segment *segment, bool *found)
{
    bool has_rest = model.chain.has_rest;
    const covretin_descriptor rest = model.chain.rest, *it = has_rest ? &rest : given;
    uint64_t reasons = no_rings();
    if (reasons == 0)
        reasons = WHY(NEEDS_RESET, model.needs_reset) | WHY(CHAIN_ENDED, !model.chain.goes_on);
    if (reasons != 0)
        return reasons;
    struct link link = has_rest ? model.chain.link : link_of(it);
    bool has_id = link.is_last && it->third < model.size;
    reasons = WHY(NOT_IN_TABLE, link.is_last && !has_id) | WHY(HEAD_IN_USE, has_id && model.out[it->third] != 0);
    reasons |= WHY(CHAIN_TOO_LONG, !has_rest && model.chain.in_ring && model.chain.slots >= model.size); /* (round the ring) */
    reasons |= link.flags & INDIRECT ? refused_table(it, &link) : refused_segment(it, &link);
    if (reasons != 0)
        return broken(reasons);
    covretin_range range;
    translate_part(it->addr, it->len, &range);
    if (!has_rest)
        go_on(it, &link);
    *found = !(link.flags & INDIRECT);
    if (!*found) {
        model.chain.nests = false;
        enter(range.addr, it->len / 16, 0);
        return 0;
    }
    *segment = (covretin_segment){range, it->addr, link.flags & WRITE};
    give_segment(it, &link, segment);
    return 0;
}

uint64_t model_add_used(uint16_t id, uint32_t len, covretin_used *used)
{
    uint64_t reasons = no_rings();
    if (reasons == 0)
        reasons = WHY(NOT_HANDED_OUT, id >= model.size || model.out[id] == 0);
    if (reasons != 0)
        return reasons;
    if (model.layout == SPLIT) {
        used->elem = at(model.parts[2] + 4 + 8 * (model.used % model.size), 8);
        used->elem_value = id | (uint64_t)len << 32;
        used->then = at(model.parts[2] + 2, 2);
        used->then_value = (uint16_t)(model.used + 1);
    } else {
        used->elem = at(in_ring(model.used) + 8, 6);
        used->elem_value = len | (uint64_t)id << 32;
        used->then = at(in_ring(model.used) + 14, 2);
        used->then_value = (uint16_t)((model.used < model.size ? AVAIL | USED : 0) | (len != 0 ? WRITE : 0));
    }
    model.used = further(model.used, model.out[id]);
    model.out[id] = 0;
    return 0;
}

uint64_t model_needs_notification(uint16_t value, uint16_t flags, bool *needed)
{
    uint64_t reasons = no_rings();
    bool is_split = model.layout == SPLIT;
    if (reasons != 0)
        return reasons;
    if (model.event_idx && (is_split || flags == 2)) {
        bool is_place = is_split || (value & (WRAP - 1u)) < model.size;
        uint32_t event = !is_place ? 0 : is_split ? value : place_of(value);
        *needed = !model.was_asked || !is_place || distance(model.asked_at, event) < distance(model.asked_at, model.used);
    } else
        *needed = is_split ? !(value & 1) : flags != 1;
    model.was_asked = true;
    model.asked_at = model.used;
    return 0;
}

/* -- What needs no queue -- */

uint64_t model_settled(const covretin_inflight_entry *entries, size_t count, uint16_t last, uint16_t used_idx, uint16_t ring_idx,
                       bool *settled)
{
    uint16_t batch = (uint16_t)(ring_idx - used_idx);
    memset(settled, 0, count);
    if (count > MOST_SIZE || batch > count)
        return REASON(COVRETIN_QUEUE_INVALID_INFLIGHT);
    for (; batch != 0; batch--) {
        if (last >= count)
            return REASON(COVRETIN_QUEUE_INVALID_INFLIGHT);
        settled[last] = true;
        last = entries[last].next;
    }
    return 0;
}

uint64_t model_free(const covretin_inflight_entry *entries, size_t count, const covretin_packed_inflight_head *head, bool *is_free)
{
    uint16_t at = head->free_head;
    memset(is_free, 0, count);
    for (; at < count && !is_free[at]; at = entries[at].next)
        is_free[at] = true;
    return WHY(INVALID_INFLIGHT, count > MOST_SIZE || head->used_idx >= count || at < count);
}

bool model_is_dirty(uint64_t addr, uint64_t len, uint64_t log_size, uint64_t page)
{
    return len != 0 && page >= addr / 4096 && page <= (addr + (len - 1)) / 4096 && page / 8 < log_size;
}
