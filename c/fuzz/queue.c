/* SPDX-License-Identifier: Apache-2.0 */
/* A queue of either layout whose regions, rings and guest are anything. What is read is what the input says at that moment, so that no two
 * reads of a place need tell the same; what the queue does is what the model does, and nothing else. */
#include "queue_calls.h"

#include <stdio.h>

/* -- Steps -- */

/* Some regions, or none; or many; or as many as there may be, one less, or more. */
static void set_regions(uint8_t how, bool is_full)
{
    static covretin_guest_region regions[MOST_REGIONS + 3];
    bool are_many = how == 252;
    size_t few = how % 32 == 31 ? 0 : 1 + how % 4;
    size_t count = is_full ? MOST_REGIONS - 1u + next_byte() % 3 : are_many ? 64u + next_byte() % 16 : few;
    for (size_t i = 0; i < count; i++)
        regions[i] = is_full || are_many ? small_region(i) : next_region(i);
    DOES(SET, covretin_queue_set_regions(&queue, regions, count), model_set_regions(regions, count));
}

static void change_regions(void)
{
    uint8_t how = next_byte();
    covretin_guest_region region = next_region(how % 16);
    covretin_range range;
    if (how % 4 == 0)
        set_regions(how == 252 ? how : how / 4, false);
    else if (how % 4 == 1)
        DOES(ADD, covretin_queue_add_region(&queue, &region), model_add_region(&region));
    else if (how % 4 == 2) {
        if (model.region_count != 0 && how < 192)
            region = model.regions[how / 4 % model.region_count];
        region.size += how % 32 == 2;
        DOES(REMOVE, covretin_queue_remove_region(&queue, region.guest_addr, region.size, region.user_addr),
             model_remove_region(region.guest_addr, region.size, region.user_addr));
    } else {
        uint64_t addr = next_number(), len = next_number();
        if (DOES(TRANSLATE, covretin_queue_translate(&queue, how & 8, addr, len, &out.place), model_translate(how & 8, addr, len, &range)))
            must(is_range(out.place, range));
    }
}

static void move(void)
{
    enum layout layout = next_byte() % 8 == 0 ? SPLIT + PACKED - model.layout : model.layout;
    uint64_t parts[3];
    next_parts(layout == PACKED ? PACKED : SPLIT, model.size, parts);
    if (layout == PACKED)
        DOES(MOVE, covretin_queue_move_packed(&queue, parts[0], parts[1], parts[2]), model_move(PACKED, parts));
    else
        DOES(MOVE, covretin_queue_move_split(&queue, parts[0], parts[1], parts[2]), model_move(SPLIT, parts));
}

/* How many chains are available. */
static void look(void)
{
    covretin_range place = {0, 0};
    uint16_t value = next_available(), count = 0;
    if (model_available_place(&place) == 0)
        value = (uint16_t)guest_has(place, value);
    if (DOES(LOOKED, covretin_queue_available(&queue, value, &out.count), model_available(value, &count)))
        must(out.count == count);
}

static void pop(void)
{
    covretin_range place = {0, 0};
    uint16_t head = next_head();
    if (model_head_place(&place) == 0)
        head = (uint16_t)guest_has(place, head);
    if (DOES(POP, covretin_queue_pop(&queue, head), model_take(head, false)))
        held[held_count++] = head;
}

static void resubmit(void)
{
    uint16_t head = next_head();
    if (head % 2 == 0 && model.layout != SPLIT)
        DOES(RESUBMIT, covretin_queue_resubmit_packed(&queue), model_take_packed());
    else if (DOES(RESUBMIT, covretin_queue_resubmit(&queue, head), model_take(head, true)))
        held[held_count++] = head;
}

/* The next descriptor of the chain is read. */
static void step(void)
{
    covretin_range place = {0, 0};
    covretin_segment segment;
    covretin_descriptor it = next_descriptor();
    bool found, was_in_ring = model.chain.in_ring;
    if (model_descriptor_place(&place, &found) == 0 && found && place.len != 0)
        it = guest_has_descriptor(place, it);
    if (DOES(STEP, covretin_queue_step(&queue, &it, &out.segment, &out.is), model_step(&it, &segment, &found))) {
        must(out.is == found);
        if (!found)
            outcome_of(INDIRECT_STEP, 0);
        else {
            must(is_range(out.segment.range, segment.range) && out.segment.guest_addr == segment.guest_addr);
            must(out.segment.writable == segment.writable);
            device_touches(segment.range, segment.writable);
        }
        if (was_in_ring && !model.chain.in_ring && model.layout == PACKED)
            held[held_count++] = it.third;
    }
}

/* What a walk may take and give. */
enum { MOST_COPIES = 5, MOST_PLACES = 8 };

/* The next descriptors are read, and taken one by one by the model: why the last of them is refused. */
static uint64_t model_walk(covretin_descriptor copies[MOST_COPIES], size_t given, covretin_segment *segments, size_t places,
                           covretin_walked *walked)
{
    size_t read = 0;
    uint64_t reasons = model_table(&walked->table);
    for (walked->taken = walked->count = 0; reasons == 0 && walked->taken < given && walked->count < places;) {
        covretin_range place = {0, 0};
        covretin_descriptor *it = &copies[walked->taken];
        bool found, was_in_ring = model.chain.in_ring;
        if (read == walked->taken && model_descriptor_place(&place, &found) == 0 && found && place.len != 0)
            *it = guest_has_descriptor(place, *it);
        read = walked->taken + 1;
        reasons = model_step(it, &segments[walked->count], &found);
        if (reasons != 0)
            break;
        if (was_in_ring && !model.chain.in_ring && model.layout == PACKED)
            held[held_count++] = it->third;
        walked->count += found;
        walked->taken += !model.chain.has_rest;
    }
    if (reasons == 0)
        model_table(&walked->table);
    return reasons;
}

/* What is given, and what comes of it. */
static struct walking {
    covretin_descriptor copies[MOST_COPIES];
    covretin_segment segments[MOST_PLACES + 1], expected[MOST_PLACES];
    covretin_walked walked;
    size_t given, places;
} now;

static void next_copies(void)
{
    now.given = next_byte() % (MOST_COPIES + 1);
    now.places = next_byte() % (MOST_PLACES + 1);
    for (size_t i = 0; i < now.given; i++)
        now.copies[i] = next_descriptor();
    memset(now.segments, BLANK, sizeof now.segments);
}

static uint64_t model_walks(void)
{
    return model_walk(now.copies, now.given, now.expected, now.places, &now.walked);
}

/* What was told of the chain is what the model says, if it did something. */
static void see_walked(bool did)
{
    must(is_blank(now.segments + now.places, sizeof now.segments - now.places * sizeof *now.segments));
    if (!did)
        return;
    must(out.walked.taken == now.walked.taken && out.walked.count == now.walked.count && is_table(&out.walked.table, &now.walked.table));
    for (size_t i = 0; i < now.walked.count; i++) {
        const covretin_segment *it = &now.segments[i], *expected = &now.expected[i];
        must(is_range(it->range, expected->range) && it->guest_addr == expected->guest_addr && it->writable == expected->writable);
        device_touches(it->range, it->writable);
    }
}

/* The next descriptors are read, and taken by one call. */
static void walk(void)
{
    next_copies();
    uint64_t reasons = model_walks();
    see_walked(DOES(WALK, covretin_queue_walk(&queue, now.copies, now.given, now.segments, now.places, &out.walked), reasons));
}

/* The same, and before them the next chain. */
static void take(void)
{
    covretin_range place = {0, 0};
    bool is_packed = model.layout == PACKED;
    uint16_t value = is_packed ? next_available() : next_head(), count = 1;
    if ((is_packed ? model_available_place(&place) : model_head_place(&place)) == 0)
        value = (uint16_t)guest_has(place, value);
    next_copies();
    uint64_t reasons = is_packed ? model_available(value, &count) : model_take(value, false);
    if (reasons == 0 && count == 0)
        reasons = REASON(COVRETIN_QUEUE_NOTHING_AVAILABLE);
    if (reasons == 0) {
        if (!is_packed)
            held[held_count++] = value;
        reasons = model_walks();
    }
    see_walked(DOES(TAKE, covretin_queue_take(&queue, value, now.copies, now.given, now.segments, now.places, &out.walked), reasons));
}

/* A head is given back: one that the device has, or any; or one is its own that it did not follow. */
static void give_back(uint8_t how)
{
    uint16_t head = held_count != 0 && how % 4 != 0 ? held[held_count - 1 - how / 4 % held_count] : next_head();
    if (DOES(GIVE_BACK, covretin_queue_give_back(&queue, head), model_give_back(head)))
        forget(head);
}

static void adopt(void)
{
    uint16_t head = next_head();
    if (DOES(ADOPT, covretin_queue_adopt(&queue, head), model_adopt(head)))
        held[held_count++] = head;
}

/* A chain is followed to its end. It has one, after as many descriptors and borders of regions as there may be and one that names a table. */
static void follow(void)
{
    uint32_t left = model.chain.left + model.chain.splits + 2;
    while (model.chain.goes_on && !model.needs_reset && more_steps()) {
        if (next_byte() % 2)
            walk(); /* (of no descriptors, it may be) */
        else {
            step();
            must(left-- != 0);
        }
    }
}

static void tell_of(void)
{
    covretin_range place = {0, 0};
    uint32_t value = next_event();
    bool needed = false;
    if (model_notification_place(&place) == 0)
        value = (uint32_t)guest_has(place, value);
    uint16_t flags = (uint16_t)(model.layout == PACKED ? value >> 16 : 0);
    if (DOES(TELL_OF, covretin_queue_needs_notification(&queue, (uint16_t)value, flags, &out.is),
             model_needs_notification((uint16_t)value, flags, &needed)))
        must(out.is == needed);
}

/* -- Whole runs -- */

static void close_it(void)
{
    covretin_queue_close(&queue);
    must(queue.opaque == NULL);
    model_close();
    held_count = 0;
}

/* Stops it; or closes it, and opens it again now or later. */
static void stop(uint8_t how)
{
    bool was_open = model.is_open;
    if (how < 64)
        close_it();
    if (how < 32 && was_open)
        return;
    if (DOES(OPEN, covretin_queue_open(&queue), model.is_open ? REASON(COVRETIN_QUEUE_QUEUE_OPEN) : 0))
        model_open();
    else
        DOES(STOP, covretin_queue_stop(&queue), model_stop());
    held_count = 0;
    if (model.region_count == 0)
        set_regions(next_byte(), false);
}

/* Which step a byte stands for: what comes of rings most often. */
static void any_step(void)
{
    struct start it;
    uint8_t which = next_byte();
    if (!model.is_open && which % 8 == 1)
        stop(0);
    if ((model.layout == STOPPED && which % 16 < 12 && next_byte() % 8 != 7) || (model.needs_reset && which % 4 == 0))
        which = 0;
    if (model.layout == STOPPED && model.region_count == 0 && which == 0)
        set_regions(next_byte(), false);
    switch (which % 32) {
    case 0: next_start(&it), start(&it); break;
    case 1: case 2: change_regions(); break;
    case 3: which < 128 ? move() : stop(next_byte()); break;
    case 4: which < 64 ? recover_any() : which < 128 ? recover_packed_any() : log_range(); break;
    case 5: which < 32 ? crash_packed() : which < 64 ? crash() : resubmit(); break;
    case 6: case 7: case 8: case 9: case 10: look(); break;
    case 11: case 12: case 13: which < 16 || model.layout == SPLIT ? pop() : look(), follow(); break;
    case 14: case 15: take(), follow(); break;
    case 16: case 17: case 18: which < 128 ? walk() : step(); break;
    case 19: case 20: case 21: case 22: follow(); break;
    case 23: which < 64 ? adopt() : give_back(next_byte()); break;
    case 24: case 25: case 26: case 27: tell_of(); break;
    case 28: give_many(); break;
    default: which = next_byte(), give(which, (uint16_t)next_number(), which % 2 * (uint32_t)next_number()); break;
    }
    see();
}

/* All that the device has is used, and then it has nothing. */
static void drain(void)
{
    while (held_count != 0)
        give(held_count % 3, 0, held_count % 2);
    for (uint16_t id = 0; id < 20; id++)
        give(256, id, 0);
    see();
}

void run_session(void)
{
    DOES(OPEN, covretin_queue_open(&queue), 0);
    model_open();
    held_count = 0;
    uint8_t how = next_byte();
    set_regions(how, how == 253 && next_byte() == 253); /* (rarely, since each is compared with each) */
    while (more_steps())
        any_step();
    drain();
    close_it();
    see();
}

/* What libFuzzer does not count. */
__attribute__((destructor)) static void say_steps(void)
{
    fprintf(stderr, "%lu steps\n", tally.steps);
}
