/* SPDX-License-Identifier: Apache-2.0 */
#include "queue_calls.h"

covretin_queue queue;
enum covretin_queue_error error;
struct out out;
uint16_t held[MOST_SIZE];
size_t held_count;

bool is_blank(const void *bytes, size_t size)
{
    const uint8_t *at = bytes;
    return size == 0 || (*at == BLANK && memcmp(at, at + 1, size - 1) == 0);
}

/* -- What is seen of the queue is what the model has -- */

/* It is refused for one of these reasons, and then writes nothing; or there is none. Whether it did. */
static bool is_done(uint64_t reasons)
{
    must(error == 0 ? reasons == 0 : (reasons & REASON(error)) != 0);
    must(error == 0 || is_blank(&out, sizeof out));
    return error == 0;
}

bool is_table(const covretin_table *one, const covretin_table *other)
{
    return one->goes_on == other->goes_on && (!one->goes_on || (is_range(one->range, other->range) && one->next == other->next));
}

static void see_places(void)
{
    covretin_range place;
    covretin_table table;
    bool found;
    LOOK(covretin_queue_available_place(&queue, &out.place));
    must(!is_done(model_available_place(&place)) || is_range(out.place, place));
    LOOK(covretin_queue_head_place(&queue, &out.place));
    must(!is_done(model_head_place(&place)) || is_range(out.place, place));
    for (size_t most = 0; most < 10; most += 3) {
        LOOK(covretin_queue_heads_place(&queue, most, &out.place));
        must(!is_done(model_heads_place(most, &place)) || is_range(out.place, place));
    }
    LOOK(covretin_queue_notification_place(&queue, &out.place));
    must(!is_done(model_notification_place(&place)) || is_range(out.place, place));
    LOOK(covretin_queue_descriptor_place(&queue, &out.place, &out.is));
    if (is_done(model_descriptor_place(&place, &found)))
        must(out.is == found && (!found || is_range(out.place, place)));
    LOOK(covretin_queue_table(&queue, &out.table));
    must(!is_done(model_table(&table)) || is_table(&out.table, &table));
}

static void see_state(void)
{
    covretin_event_write event;
    uint32_t base;
    LOOK(covretin_queue_base(&queue, &out.base));
    must(!is_done(model_base(&base)) || out.base == base);
    LOOK(covretin_queue_needs_reset(&queue, &out.is));
    must(!is_done(model.is_open ? 0 : REASON(COVRETIN_QUEUE_NO_QUEUE)) || out.is == model.needs_reset);
    for (int enable = 0; enable < 2; enable++) {
        LOOK(covretin_queue_set_notification(&queue, enable, &out.event));
        if (is_done(model_set_notification(enable, &event)))
            must(is_range(out.event.place, event.place) && out.event.value == event.value);
    }
}

static void see_range(bool user, uint64_t addr, uint64_t len)
{
    covretin_range range;
    LOOK(covretin_queue_translate(&queue, user, addr, len, &out.place));
    must(!is_done(model_translate(user, addr, len, &range)) || is_range(out.place, range));
}

/* A region, in turn: all of it, its last byte, and one more. */
static void see_region(void)
{
    static const covretin_guest_region none = {4096, 4096, 4096, 4096};
    const covretin_guest_region *it = model.region_count != 0 ? &model.regions[this_step() % model.region_count] : &none;
    bool user = this_step() / 2 % 2;
    uint64_t addr = user ? it->user_addr : it->guest_addr;
    see_range(user, addr, it->size);
    see_range(user, addr + it->size - 1, 1);
    see_range(user, addr + it->size - 1, 2);
    see_range(user, addr - 1, 2);
}

void see(void)
{
    see_places();
    see_state();
    see_region();
}

/* -- Calls -- */

bool has_starved(void)
{
    if (!is_again(error == COVRETIN_QUEUE_OUT_OF_MEMORY ? COVRETIN_OUT_OF_MEMORY : COVRETIN_OK)) {
        must(is_heard());
        return false;
    }
    must(is_blank(&out, sizeof out));
    tally.errors[error]++;
    see();
    return true;
}

bool ends(uint32_t what, uint64_t reasons)
{
    tally.steps++;
    outcome_of(what + (model.layout == PACKED) * 24, error);
    return is_done(reasons);
}

/* -- Rings, and what is used -- */

bool start(const struct start *it)
{
    const covretin_split_ring split = {it->parts[0], it->parts[1], it->parts[2],  it->size,
                                       it->avail,    it->used,     it->event_idx, it->indirect_desc};
    const covretin_packed_ring packed = {it->parts[0], it->parts[1], it->parts[2],  it->size,
                                         it->avail,    it->used,     it->event_idx, it->indirect_desc};
    bool has_started = it->layout == SPLIT ? DOES(START, covretin_queue_start_split(&queue, &split), model_start(it))
                                           : DOES(START, covretin_queue_start_packed(&queue, &packed), model_start(it));
    if (has_started)
        held_count = 0;
    return has_started;
}

void forget(uint16_t id)
{
    size_t which = 0;
    while (which < held_count && held[which] != id)
        which++;
    must(which < held_count);
    held[which] = held[--held_count];
}

/* One of the device's chains, or else what it is given. */
static uint16_t chain_of(size_t which, uint16_t id)
{
    return held_count != 0 && which < 240 ? held[which % held_count] : id;
}

/* What is to be written for a chain is what the model says, and is written. */
static void write_used(const covretin_used *told, const covretin_used *used)
{
    must(is_range(told->elem, used->elem) && told->elem_value == used->elem_value);
    must(is_range(told->then, used->then) && told->then_value == used->then_value);
    device_writes(used->elem, used->elem_value);
    device_writes(used->then, used->then_value);
}

void give(size_t which, uint16_t id, uint32_t len)
{
    covretin_used used;
    id = chain_of(which, id);
    if (!DOES(GIVE, covretin_queue_add_used(&queue, id, len, &out.used), model_add_used(id, len, &used)))
        return;
    write_used(&out.used, &used);
    forget(id);
}

enum { MOST_GIVEN = 5 };

/* Chains are given back one by one by the model, up to the first that is refused: why it is. */
static uint64_t model_give_many(const uint16_t *ids, const uint32_t *lens, size_t count, covretin_used *used, size_t *done)
{
    uint64_t reasons = 0;
    for (*done = 0; *done < count; ++*done) {
        reasons = model_add_used(ids[*done], lens[*done], &used[*done]);
        if (reasons != 0)
            break;
    }
    return reasons;
}

void give_many(void)
{
    uint16_t ids[MOST_GIVEN];
    uint32_t lens[MOST_GIVEN];
    covretin_used used[MOST_GIVEN + 1], expected[MOST_GIVEN];
    size_t count = next_byte() % (MOST_GIVEN + 1), lens_len = MOST_GIVEN, room = MOST_GIVEN, expected_done = 0, done = MOST_GIVEN + 1;
    uint64_t reasons = model.is_open ? 0 : REASON(COVRETIN_QUEUE_NO_QUEUE);
    for (size_t i = 0; i < count; i++) {
        uint8_t which = next_byte();
        ids[i] = chain_of(which, which % 20);
        lens[i] = (uint32_t)next_number();
    }
    if (count != 0 && next_byte() % 16 == 0) {
        lens_len = next_byte() % 2 ? count - 1 : count;
        room = lens_len < count ? MOST_GIVEN : count - 1;
        reasons |= model.is_open ? REASON(COVRETIN_QUEUE_NO_ROOM) : 0;
    }
    if (reasons == 0)
        reasons = model_give_many(ids, lens, count, expected, &expected_done);
    memset(used, BLANK, sizeof used);
    DOES(GIVE_MANY, covretin_queue_add_used_many(&queue, ids, count, lens, lens_len, used, room, &done), reasons);
    must(done == expected_done && is_blank(used + done, sizeof used - done * sizeof *used));
    for (size_t i = 0; i < done; i++) {
        write_used(&used[i], &expected[i]);
        forget(ids[i]);
    }
}
