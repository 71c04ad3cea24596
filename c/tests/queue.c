/* A queue in memory of this process: chains of either layout are taken, followed and used; what a guest does wrong is refused. */
#include "covretin_queue.h"
#include "testing.h"

#include <stdlib.h>
#include <string.h>

#define GUEST 0x100000u  /* where the guest has the memory, */
#define USER 0x70000000u /* and the frontend */
#define SIZE 0x10000u

static _Alignas(16) uint8_t memory[SIZE];
#define HOLDS(that) EXPECT(true, that)

static void put(size_t at, const void *bytes, size_t len)
{
    memcpy(memory + at, bytes, len);
}

static void put16(size_t at, uint16_t value)
{
    put(at, &value, 2);
}

static void put_descriptor(size_t at, uint64_t addr, uint32_t len, uint16_t third, uint16_t fourth)
{
    covretin_descriptor d = {addr, len, third, fourth};
    put(at, &d, sizeof d);
}

/* What lies at a range, which has to be inside the memory. */
static void get(covretin_range range, void *bytes)
{
    uint64_t base = (uint64_t)(uintptr_t)memory;
    if (range.addr < base || range.len > SIZE || range.addr - base > SIZE - range.len)
        abort();
    memcpy(bytes, memory + (range.addr - base), range.len);
}

static uint16_t get16(covretin_range range)
{
    uint16_t value;
    if (range.len != 2)
        abort();
    get(range, &value);
    return value;
}

static covretin_queue opened(void)
{
    covretin_queue queue = {0};
    covretin_guest_region region = {GUEST, SIZE, USER, 0};
    region.host_addr = (uint64_t)(uintptr_t)memory;
    memset(memory, 0, sizeof memory);
    HOLDS(covretin_queue_open(&queue) == 0);
    HOLDS(covretin_queue_open(&queue) == COVRETIN_QUEUE_QUEUE_OPEN);
    HOLDS(covretin_queue_set_regions(&queue, &region, 1) == 0);
    return queue;
}

/* How a chain is followed: by calls that take so many copies at most, and have so many places for segments; or, where it is 0, by steps. */
enum { MOST_COPIES = 64 };
static size_t copies_at_once, places_at_once;

/* Copies the descriptors from where the chain goes on, as the head of covretin_queue.h says it. */
static size_t copy(const covretin_table *table, bool is_packed, bool in_table, covretin_descriptor *copies)
{
    const size_t entries = table->range.len / sizeof *copies;
    size_t count = 0, at = table->next;
    while (count < copies_at_once && at < entries) {
        covretin_range place = {table->range.addr + at * sizeof *copies, sizeof *copies};
        get(place, &copies[count]);
        uint16_t flags = is_packed ? copies[count].fourth : copies[count].third;
        if (is_packed && in_table)
            at++;
        else if ((flags & 5) != 1)
            at = entries;
        else
            at = !is_packed ? copies[count].fourth : at + 1 < entries ? at + 1 : 0;
        count++;
    }
    return count;
}

/* Follows the chain by copies of its descriptors, to its end, or to a refusal. */
static enum covretin_queue_error walk(covretin_queue *queue, covretin_segment *segments, size_t room, size_t *count)
{
    covretin_descriptor copies[MOST_COPIES];
    covretin_walked walked;
    covretin_range place;
    const bool is_packed = covretin_queue_head_place(queue, &place) == COVRETIN_QUEUE_OTHER_LAYOUT;
    bool in_table = false;
    enum covretin_queue_error error = covretin_queue_table(queue, &walked.table);
    while (error == 0 && walked.table.goes_on) {
        size_t given = copy(&walked.table, is_packed, in_table, copies);
        for (size_t at = 0; at < given; at += walked.taken) {
            size_t places = room - *count < places_at_once ? room - *count : places_at_once;
            error = covretin_queue_walk(queue, copies + at, given - at, segments + *count, places, &walked);
            if (error != 0)
                return error;
            HOLDS(walked.taken == given - at || (walked.taken < given - at && walked.count == places && places != 0));
            *count += walked.count;
        }
        in_table = in_table || ((is_packed ? copies[given - 1].fourth : copies[given - 1].third) & 4);
    }
    return error;
}

/* Follows the chain to its end, or to a refusal: how many segments came. A walk that is refused does not tell of those before. */
static enum covretin_queue_error follow(covretin_queue *queue, covretin_segment *segments, size_t room, size_t *count)
{
    *count = 0;
    if (copies_at_once != 0)
        return walk(queue, segments, room, count);
    for (;;) {
        covretin_range place;
        covretin_descriptor descriptor = {0};
        bool found;
        enum covretin_queue_error error = covretin_queue_descriptor_place(queue, &place, &found);
        if (error != 0 || !found)
            return error;
        get(place, &descriptor);
        error = covretin_queue_step(queue, &descriptor, &segments[*count], &found);
        if (error != 0)
            return error;
        *count += found;
    }
}

#define FOLLOW(queue, segments, count) follow(queue, segments, sizeof(segments) / sizeof *(segments), count)

/* The rings of a queue of four: descriptors at 0, the available ring at 0x100, the used ring at 0x200. */
static covretin_split_ring split_ring(void)
{
    covretin_split_ring ring = {USER, USER + 0x100, USER + 0x200, 4, 0, 0, true, true};
    return ring;
}

static void split_queue(void)
{
    covretin_queue queue = opened();
    covretin_split_ring ring = split_ring();
    covretin_range place;
    covretin_descriptor descriptor = {GUEST, 16, 0, 0};
    covretin_segment segments[8];
    covretin_used used;
    covretin_event_write event;
    uint16_t count;
    uint32_t base;
    size_t n;
    bool on;

    HOLDS(covretin_queue_available_place(&queue, &place) == COVRETIN_QUEUE_NOT_STARTED);
    HOLDS(covretin_queue_start_split(&queue, &ring) == 0);
    put_descriptor(0, GUEST + 0x1000, 16, 1, 2);
    put_descriptor(32, GUEST + 0x2000, 32, 4, 0);
    put_descriptor(0x2000, GUEST + 0x3000, 512, 3, 1);
    put_descriptor(0x2010, GUEST + 0x4000, 1, 2, 0);
    put16(0x102, 1);
    put16(0x104, 0);
    HOLDS(covretin_queue_available_place(&queue, &place) == 0);
    HOLDS(covretin_queue_available(&queue, get16(place), &count) == 0 && count == 1);
    HOLDS(covretin_queue_head_place(&queue, &place) == 0);
    HOLDS(covretin_queue_pop(&queue, get16(place)) == 0);
    HOLDS(FOLLOW(&queue, segments, &n) == 0 && n == 3);
    HOLDS(segments[0].range.addr == (uint64_t)(uintptr_t)(memory + 0x1000) && segments[0].range.len == 16 && !segments[0].writable);
    HOLDS(segments[1].guest_addr == GUEST + 0x3000 && segments[1].range.len == 512 && segments[1].writable);
    HOLDS(segments[2].range.len == 1 && segments[2].writable);
    HOLDS(covretin_queue_add_used(&queue, 1, 0, &used) == COVRETIN_QUEUE_NOT_HANDED_OUT);
    HOLDS(covretin_queue_add_used(&queue, 0, 513, &used) == 0);
    HOLDS(used.elem.addr == (uint64_t)(uintptr_t)(memory + 0x204) && used.elem.len == 8 && used.elem_value == (uint64_t)513 << 32);
    HOLDS(used.then.addr == (uint64_t)(uintptr_t)(memory + 0x202) && used.then.len == 2 && used.then_value == 1);
    HOLDS(covretin_queue_add_used(&queue, 0, 513, &used) == COVRETIN_QUEUE_NOT_HANDED_OUT);
    HOLDS(covretin_queue_notification_place(&queue, &place) == 0 && place.addr == (uint64_t)(uintptr_t)(memory + 0x10c));
    HOLDS(covretin_queue_needs_notification(&queue, 5, 0, &on) == 0 && on);
    HOLDS(covretin_queue_needs_notification(&queue, 0, 0, &on) == 0 && !on);
    HOLDS(covretin_queue_set_notification(&queue, true, &event) == 0 && event.place.len == 2 && event.value == 1);
    HOLDS(covretin_queue_set_notification(&queue, false, &event) == 0 && event.place.len == 0);
    HOLDS(covretin_queue_base(&queue, &base) == 0 && base == 1);
    HOLDS(covretin_queue_head_place(&queue, &place) == COVRETIN_QUEUE_NOTHING_AVAILABLE);
    HOLDS(covretin_queue_pop(&queue, 0) == COVRETIN_QUEUE_NOTHING_AVAILABLE);
    HOLDS(covretin_queue_step(&queue, &descriptor, segments, &on) == COVRETIN_QUEUE_CHAIN_ENDED);
    HOLDS(covretin_queue_needs_reset(&queue, &on) == 0 && !on);
    HOLDS(covretin_queue_move_split(&queue, USER + 0x8000, USER + 0x8100, USER + 0x8200) == 0);
    HOLDS(covretin_queue_available_place(&queue, &place) == 0 && place.addr == (uint64_t)(uintptr_t)(memory + 0x8102));
    HOLDS(covretin_queue_available(&queue, 7, &count) == COVRETIN_QUEUE_TOO_MANY_AVAILABLE);
    HOLDS(covretin_queue_needs_reset(&queue, &on) == 0 && on);
    covretin_queue_close(&queue);
    HOLDS(queue.opaque == NULL);
    HOLDS(covretin_queue_available(&queue, 7, &count) == COVRETIN_QUEUE_NO_QUEUE);
}

/* A chain of these two descriptors is refused so. */
static void refused(covretin_descriptor first, covretin_descriptor second, enum covretin_queue_error as)
{
    covretin_queue queue = opened();
    covretin_split_ring ring = split_ring();
    static covretin_segment segments[1024]; /* (a loop ends once a chain has as many) */
    uint16_t count;
    size_t n;

    HOLDS(covretin_queue_start_split(&queue, &ring) == 0);
    put(0, &first, sizeof first);
    put(16, &second, sizeof second);
    HOLDS(covretin_queue_available(&queue, 1, &count) == 0);
    HOLDS(covretin_queue_pop(&queue, 0) == 0);
    HOLDS(FOLLOW(&queue, segments, &n) == as);
    HOLDS(FOLLOW(&queue, segments, &n) == COVRETIN_QUEUE_NEEDS_RESET);
    HOLDS(covretin_queue_pop(&queue, 0) == COVRETIN_QUEUE_NEEDS_RESET);
    covretin_queue_close(&queue);
}

static void refused_chains(void)
{
    covretin_descriptor one = {GUEST, 16, 1, 1}, last = {GUEST, 16, 0, 0};
    covretin_descriptor back = {GUEST, 16, 1, 0}, away = {GUEST, 16, 1, 4}, empty = {GUEST, 0, 0, 0}, long_one = {GUEST, SIZE + 1, 0, 0};
    covretin_descriptor written = {GUEST, 16, 3, 1}, odd = {GUEST, 24, 4, 0}, on = {GUEST, 16, 5, 0}, greater = {GUEST, 1025 * 16, 4, 0};

    refused(one, back, COVRETIN_QUEUE_CHAIN_TOO_LONG);
    refused(one, away, COVRETIN_QUEUE_NOT_IN_TABLE);
    refused(one, empty, COVRETIN_QUEUE_EMPTY_DESCRIPTOR);
    refused(one, long_one, COVRETIN_QUEUE_NOT_IN_GUEST);
    refused(written, last, COVRETIN_QUEUE_READABLE_AFTER_WRITABLE);
    refused(one, odd, COVRETIN_QUEUE_INVALID_INDIRECT_LENGTH);
    refused(one, on, COVRETIN_QUEUE_INDIRECT_GOES_ON);
    refused(one, greater, COVRETIN_QUEUE_CHAIN_TOO_LONG);
}

/* A ring of three at 0, the driver's area at 0x100, the device's at 0x104. */
static void packed_queue(void)
{
    covretin_queue queue = opened();
    covretin_packed_ring ring = {USER, USER + 0x100, USER + 0x104, 3, 0x8000, 0x8000, true, false};
    covretin_range place;
    covretin_segment segments[8];
    covretin_used used;
    covretin_event_write event;
    uint16_t count;
    uint32_t base;
    size_t n;
    bool on;

    HOLDS(covretin_queue_start_packed(&queue, &ring) == 0);
    put_descriptor(0, GUEST + 0x1000, 16, 0, 0x81);
    put_descriptor(16, GUEST + 0x2000, 512, 2, 0x82);
    HOLDS(covretin_queue_available_place(&queue, &place) == 0);
    HOLDS(covretin_queue_available(&queue, get16(place), &count) == 0 && count == 1);
    HOLDS(FOLLOW(&queue, segments, &n) == 0 && n == 2);
    HOLDS(segments[1].guest_addr == GUEST + 0x2000 && segments[1].writable);
    HOLDS(covretin_queue_available_place(&queue, &place) == 0 && place.addr == (uint64_t)(uintptr_t)(memory + 46));
    HOLDS(covretin_queue_available(&queue, get16(place), &count) == 0 && count == 0);
    HOLDS(covretin_queue_add_used(&queue, 0, 0, &used) == COVRETIN_QUEUE_NOT_HANDED_OUT);
    HOLDS(covretin_queue_add_used(&queue, 2, 512, &used) == 0);
    HOLDS(used.elem.addr == (uint64_t)(uintptr_t)(memory + 8) && used.elem.len == 6 && used.elem_value == ((uint64_t)2 << 32) + 512);
    HOLDS(used.then.addr == (uint64_t)(uintptr_t)(memory + 14) && used.then_value == 0x8082);
    HOLDS(covretin_queue_notification_place(&queue, &place) == 0 && place.addr == (uint64_t)(uintptr_t)(memory + 0x100) && place.len == 4);
    HOLDS(covretin_queue_needs_notification(&queue, 0x8000, 2, &on) == 0 && on);
    HOLDS(covretin_queue_needs_notification(&queue, 0x8001, 2, &on) == 0 && !on);
    HOLDS(covretin_queue_set_notification(&queue, true, &event) == 0 && event.place.len == 4 && event.value == 0x28002);
    HOLDS(covretin_queue_base(&queue, &base) == 0 && base == 0x80028002);
    HOLDS(covretin_queue_pop(&queue, 0) == COVRETIN_QUEUE_OTHER_LAYOUT);
    put_descriptor(32, GUEST + 0x1000, 16, 2, 0x80);
    HOLDS(covretin_queue_available(&queue, 0x80, &count) == 0 && count == 1);
    HOLDS(FOLLOW(&queue, segments, &n) == 0 && n == 1);
    HOLDS(covretin_queue_base(&queue, &base) == 0 && base == 0x80020000);
    HOLDS(covretin_queue_add_used(&queue, 2, 0, &used) == 0 && used.then_value == 0x8080);
    HOLDS(covretin_queue_base(&queue, &base) == 0 && base == 0);
    HOLDS(covretin_queue_move_split(&queue, USER, USER + 0x100, USER + 0x200) == COVRETIN_QUEUE_OTHER_LAYOUT);
    HOLDS(covretin_queue_move_packed(&queue, USER + 0x8000, USER + 0x8100, USER + 0x8102) == COVRETIN_QUEUE_UNALIGNED);
    HOLDS(covretin_queue_available_place(&queue, &place) == 0 && place.addr == (uint64_t)(uintptr_t)(memory + 14));
    HOLDS(covretin_queue_move_packed(&queue, USER + 0x8000, USER + 0x8100, USER + 0x8104) == 0);
    HOLDS(covretin_queue_available_place(&queue, &place) == 0 && place.addr == (uint64_t)(uintptr_t)(memory + 0x800e));
    HOLDS(covretin_queue_base(&queue, &base) == 0 && base == 0);
    covretin_queue_close(&queue);
    HOLDS(covretin_queue_move_packed(&queue, USER, USER, USER) == COVRETIN_QUEUE_NO_QUEUE);
}

/* Three regions that adjoin for the guest, and lie apart here. */
static covretin_queue opened_in_parts(void)
{
    covretin_queue queue = opened();
    covretin_guest_region regions[3] = {{GUEST, 0x2000, USER, 0}, {GUEST + 0x2000, 0x1000, USER + SIZE, 0}, {GUEST + 0x3000, 0x1000, USER + 2 * SIZE, 0}};
    regions[0].host_addr = (uint64_t)(uintptr_t)memory;
    regions[1].host_addr = (uint64_t)(uintptr_t)(memory + 0x8000);
    regions[2].host_addr = (uint64_t)(uintptr_t)(memory + 0x4000);
    HOLDS(covretin_queue_set_regions(&queue, regions, 3) == 0);
    return queue;
}

/* The three segments of a buffer that lies in all three regions, from 16 bytes before the second on. */
static void expect_parts(const covretin_segment segments[3], bool writable)
{
    const size_t places[3] = {0x1ff0, 0x8000, 0x4000}, guest[3] = {0x1ff0, 0x2000, 0x3000}, lens[3] = {16, 0x1000, 32};
    for (size_t i = 0; i < 3; i++) {
        HOLDS(segments[i].range.addr == (uint64_t)(uintptr_t)(memory + places[i]) && segments[i].range.len == lens[i]);
        HOLDS(segments[i].guest_addr == GUEST + guest[i] && segments[i].writable == writable);
    }
}

/* A buffer in regions that adjoin is a segment of each, in their order. Its descriptor is read once: what the steps of its rest are given is
 * nothing to them. */
static void adjoining_regions(void)
{
    covretin_queue queue = opened_in_parts();
    covretin_split_ring ring = split_ring();
    covretin_descriptor other = {0, 0, 4, 9};
    covretin_segment segments[8];
    covretin_range place;
    covretin_used used;
    uint16_t count;
    size_t n;
    bool found;

    HOLDS(covretin_queue_start_split(&queue, &ring) == 0);
    put_descriptor(0, GUEST + 0x100, 8, 1, 1);
    put_descriptor(16, GUEST + 0x1ff0, 0x1030, 3, 2);
    put_descriptor(32, GUEST + 0x2fff, 1, 2, 0);
    HOLDS(covretin_queue_available(&queue, 1, &count) == 0 && covretin_queue_pop(&queue, 0) == 0);
    HOLDS(FOLLOW(&queue, segments, &n) == 0 && n == 5);
    expect_parts(segments + 1, true);
    HOLDS(segments[4].range.addr == (uint64_t)(uintptr_t)(memory + 0x8fff) && segments[4].range.len == 1);
    HOLDS(covretin_queue_add_used(&queue, 0, 0x1031, &used) == 0);
    HOLDS(covretin_queue_available(&queue, 2, &count) == 0 && covretin_queue_pop(&queue, 1) == 0);
    put_descriptor(16, GUEST + 0x1ff0, 0x1030, 0, 0);
    HOLDS(covretin_queue_descriptor_place(&queue, &place, &found) == 0 && found && place.len == 16);
    get(place, &other);
    for (size_t i = 0; i < 3; i++) {
        HOLDS(covretin_queue_step(&queue, &other, &segments[i], &found) == 0 && found);
        other = (covretin_descriptor){0, 0, 4, 9};
        HOLDS(covretin_queue_descriptor_place(&queue, &place, &found) == 0 && found == (i < 2) && (!found || place.len == 0));
    }
    expect_parts(segments, false);
    HOLDS(covretin_queue_step(&queue, &other, segments, &found) == COVRETIN_QUEUE_CHAIN_ENDED);
    put_descriptor(32, GUEST + 0x3fff, 2, 0, 0);
    HOLDS(covretin_queue_available(&queue, 3, &count) == 0 && covretin_queue_pop(&queue, 2) == 0);
    HOLDS(FOLLOW(&queue, segments, &n) == COVRETIN_QUEUE_NOT_IN_GUEST && (copies_at_once || n == 1)); /* no region goes on there */
    covretin_queue_close(&queue);
}

/* The same in a packed ring, and in an indirect table of it: the chain is the device's by the id of its last descriptor, once. */
static void adjoining_regions_packed(void)
{
    covretin_queue queue = opened_in_parts();
    covretin_packed_ring ring = {USER, USER + 0x100, USER + 0x104, 4, 0x8000, 0x8000, false, true};
    covretin_segment segments[8];
    covretin_used used;
    uint16_t count;
    uint32_t base;
    size_t n;

    HOLDS(covretin_queue_start_packed(&queue, &ring) == 0);
    put_descriptor(0, GUEST + 0x1ff0, 0x1030, 0, 0x81);
    put_descriptor(16, GUEST + 0x1ff0, 0x1030, 3, 0x82);
    HOLDS(covretin_queue_available(&queue, 0x81, &count) == 0 && count == 1);
    HOLDS(FOLLOW(&queue, segments, &n) == 0 && n == 6);
    expect_parts(segments, false);
    expect_parts(segments + 3, true);
    HOLDS(covretin_queue_base(&queue, &base) == 0 && base == 0x80008002);
    HOLDS(covretin_queue_add_used(&queue, 3, 0x1030, &used) == 0 && covretin_queue_base(&queue, &base) == 0 && base == 0x80028002);
    put_descriptor(32, GUEST + 0x200, 32, 1, 0x84);
    put_descriptor(0x200, GUEST + 0x1ff0, 0x1030, 0, 0);
    put_descriptor(0x210, GUEST + 0x1ff0, 0x1030, 0, 2);
    HOLDS(covretin_queue_available(&queue, 0x84, &count) == 0 && count == 1);
    HOLDS(FOLLOW(&queue, segments, &n) == 0 && n == 6);
    expect_parts(segments, false);
    expect_parts(segments + 3, true);
    HOLDS(covretin_queue_add_used(&queue, 1, 0x1030, &used) == 0 && used.then.addr == (uint64_t)(uintptr_t)(memory + 46));
    covretin_queue_close(&queue);
}

/* As many regions as there may be, which all adjoin: a chain may cross each border once. */
static void many_borders(void)
{
    static covretin_guest_region regions[509];
    static covretin_segment segments[512];
    covretin_queue queue = opened();
    covretin_split_ring ring = split_ring();
    uint16_t count;
    size_t n;

    for (size_t i = 0; i < 509; i++) {
        uint64_t at = i == 0 ? 0 : 0x1000 + 16 * (i - 1);
        regions[i] = (covretin_guest_region){GUEST + at, i == 0 ? 0x1000 : 16, USER + at, (uint64_t)(uintptr_t)memory + at};
    }
    HOLDS(covretin_queue_set_regions(&queue, regions, 509) == 0);
    HOLDS(covretin_queue_start_split(&queue, &ring) == 0);
    put_descriptor(0, GUEST + 0xfff, 1 + 508 * 16, 1, 1);
    put_descriptor(16, GUEST + 0xfff, 1, 0, 0);
    HOLDS(covretin_queue_available(&queue, 1, &count) == 0 && covretin_queue_pop(&queue, 0) == 0);
    HOLDS(FOLLOW(&queue, segments, &n) == 0 && n == 510);
    put_descriptor(48, GUEST + 0xfff, 1 + 508 * 16, 1, 1);
    put_descriptor(16, GUEST + 0xfff, 2, 0, 0);
    HOLDS(covretin_queue_available(&queue, 2, &count) == 0 && covretin_queue_pop(&queue, 3) == 0);
    HOLDS(FOLLOW(&queue, segments, &n) == COVRETIN_QUEUE_CHAIN_TOO_LONG && (copies_at_once || n == 509));
    covretin_queue_close(&queue);
}

/* What is given of a chain that has ended, or of no queue, is refused; no copies, or no places, are no error. */
static void walks_of_no_chain(void)
{
    covretin_queue queue = {0};
    covretin_split_ring ring = split_ring();
    covretin_descriptor copies[2] = {{GUEST, 16, 1, 1}, {GUEST + 16, 16, 2, 0}};
    covretin_segment segments[2];
    covretin_table table;
    covretin_walked walked = {9, 9, {{9, 9}, 9, true}};
    uint16_t count;

    HOLDS(covretin_queue_table(&queue, &table) == COVRETIN_QUEUE_NO_QUEUE);
    HOLDS(covretin_queue_walk(&queue, copies, 2, segments, 2, &walked) == COVRETIN_QUEUE_NO_QUEUE);
    queue = opened();
    HOLDS(covretin_queue_table(&queue, &table) == 0 && !table.goes_on);
    HOLDS(covretin_queue_walk(&queue, copies, 2, segments, 2, &walked) == COVRETIN_QUEUE_NOT_STARTED && walked.count == 9);
    HOLDS(covretin_queue_start_split(&queue, &ring) == 0);
    HOLDS(covretin_queue_walk(&queue, copies, 2, segments, 2, &walked) == COVRETIN_QUEUE_CHAIN_ENDED && walked.taken == 9);
    HOLDS(covretin_queue_available(&queue, 1, &count) == 0 && covretin_queue_pop(&queue, 3) == 0);
    HOLDS(covretin_queue_table(&queue, &table) == 0 && table.goes_on && table.next == 3);
    HOLDS(table.range.addr == (uint64_t)(uintptr_t)memory && table.range.len == 64);
    HOLDS(covretin_queue_walk(&queue, copies, 0, segments, 2, &walked) == 0 && walked.taken == 0 && walked.count == 0);
    HOLDS(covretin_queue_walk(&queue, copies, 2, segments, 0, &walked) == 0 && walked.taken == 0 && walked.table.next == 3);
    HOLDS(covretin_queue_walk(&queue, copies, 1, segments, 2, &walked) == 0 && walked.taken == 1 && walked.table.next == 1);
    HOLDS(covretin_queue_walk(&queue, copies + 1, 1, segments + 1, 1, &walked) == 0 && walked.count == 1 && !walked.table.goes_on);
    HOLDS(!segments[0].writable && segments[1].writable && segments[1].guest_addr == GUEST + 16);
    covretin_queue_close(&queue);
}

/* A chain of two descriptors, and what a walk of it tells that was given them both. */
static covretin_descriptor pair[2] = {{GUEST + 0x1000, 16, 1, 1}, {GUEST + 0x2000, 32, 2, 0}};

static void expect_pair(const covretin_walked *walked, const covretin_segment *segments)
{
    HOLDS(walked->taken == 2 && walked->count == 2 && !walked->table.goes_on);
    HOLDS(segments[0].guest_addr == GUEST + 0x1000 && segments[0].range.len == 16 && !segments[0].writable);
    HOLDS(segments[1].guest_addr == GUEST + 0x2000 && segments[1].range.len == 32 && segments[1].writable);
}

/* Many heads are read by one call: those up to the end of the ring, and then those from its begin on. */
static void heads_at_once(void)
{
    covretin_queue queue = {0};
    covretin_split_ring ring = split_ring();
    covretin_packed_ring packed = {USER, USER + 0x100, USER + 0x104, 3, 0x8000, 0x8000, true, false};
    const uint64_t entries = (uint64_t)(uintptr_t)(memory + 0x104);
    covretin_range place = {9, 9};
    uint16_t count;

    HOLDS(covretin_queue_heads_place(&queue, 4, &place) == COVRETIN_QUEUE_NO_QUEUE);
    queue = opened();
    HOLDS(covretin_queue_heads_place(&queue, 4, &place) == COVRETIN_QUEUE_NOT_STARTED);
    ring.next_avail = 0xfffe; /* (the entry 2 of the ring, and the index comes round) */
    HOLDS(covretin_queue_start_split(&queue, &ring) == 0);
    HOLDS(covretin_queue_heads_place(&queue, 4, &place) == COVRETIN_QUEUE_NOTHING_AVAILABLE && place.addr == 9);
    HOLDS(covretin_queue_available(&queue, 1, &count) == 0 && count == 3);
    HOLDS(covretin_queue_heads_place(&queue, SIZE_MAX, &place) == 0 && place.addr == entries + 4 && place.len == 4);
    HOLDS(covretin_queue_heads_place(&queue, 1, &place) == 0 && place.addr == entries + 4 && place.len == 2);
    HOLDS(covretin_queue_heads_place(&queue, 0, &place) == 0 && place.addr == entries + 4 && place.len == 0);
    HOLDS(covretin_queue_pop(&queue, 0) == 0 && covretin_queue_pop(&queue, 1) == 0);
    HOLDS(covretin_queue_heads_place(&queue, 4, &place) == 0 && place.addr == entries && place.len == 2);
    HOLDS(covretin_queue_pop(&queue, 2) == 0 && covretin_queue_heads_place(&queue, 4, &place) == COVRETIN_QUEUE_NOTHING_AVAILABLE);
    HOLDS(covretin_queue_start_packed(&queue, &packed) == 0);
    HOLDS(covretin_queue_heads_place(&queue, 4, &place) == COVRETIN_QUEUE_OTHER_LAYOUT);
    covretin_queue_close(&queue);
}

/* A chain is taken and followed by one call; so are its copies in part, or none. Where it is refused, nothing is told. */
static void taken_by_one_call(void)
{
    covretin_queue queue = {0};
    covretin_split_ring ring = split_ring();
    covretin_segment segments[2];
    covretin_walked walked = {9, 9, {{9, 9}, 9, true}};
    covretin_used used;
    uint16_t count;
    bool on;

    HOLDS(covretin_queue_take(&queue, 0, pair, 2, segments, 2, &walked) == COVRETIN_QUEUE_NO_QUEUE);
    queue = opened();
    HOLDS(covretin_queue_take(&queue, 0, pair, 2, segments, 2, &walked) == COVRETIN_QUEUE_NOT_STARTED);
    HOLDS(covretin_queue_start_split(&queue, &ring) == 0);
    HOLDS(covretin_queue_take(&queue, 0, pair, 2, segments, 2, &walked) == COVRETIN_QUEUE_NOTHING_AVAILABLE && walked.taken == 9);
    HOLDS(covretin_queue_available(&queue, 3, &count) == 0 && count == 3);
    HOLDS(covretin_queue_take(&queue, 0, pair, 2, segments, 2, &walked) == 0);
    expect_pair(&walked, segments);
    HOLDS(covretin_queue_take(&queue, 3, pair, 2, segments, 1, &walked) == 0 && walked.taken == 1 && walked.count == 1);
    HOLDS(walked.table.goes_on && walked.table.next == 1 && covretin_queue_walk(&queue, pair + 1, 1, segments, 1, &walked) == 0);
    HOLDS(covretin_queue_take(&queue, 2, pair, 0, segments, 2, &walked) == 0 && walked.taken == 0 && walked.table.next == 2);
    HOLDS(covretin_queue_add_used(&queue, 3, 0, &used) == 0 && covretin_queue_available(&queue, 4, &count) == 0);
    pair[1].addr = 0;
    HOLDS(covretin_queue_take(&queue, 1, pair, 2, segments, 2, &walked) == COVRETIN_QUEUE_NOT_IN_GUEST && walked.table.next == 2);
    pair[1].addr = GUEST + 0x2000;
    HOLDS(covretin_queue_needs_reset(&queue, &on) == 0 && on && covretin_queue_add_used(&queue, 1, 0, &used) == 0);
    HOLDS(covretin_queue_take(&queue, 1, pair, 2, segments, 2, &walked) == COVRETIN_QUEUE_NEEDS_RESET);
    for (uint16_t head = 0; head < 5; head += 4) { /* a head that is out, and one that is none */
        HOLDS(covretin_queue_start_split(&queue, &ring) == 0 && covretin_queue_adopt(&queue, 0) == 0 && covretin_queue_available(&queue, 1, &count) == 0);
        HOLDS(covretin_queue_take(&queue, head, pair, 2, segments, 2, &walked) == (head == 0 ? COVRETIN_QUEUE_HEAD_IN_USE : COVRETIN_QUEUE_NOT_IN_TABLE));
    }
    covretin_queue_close(&queue);
}

/* The same of a packed queue, by the flags of its next place. */
static void taken_by_one_call_packed(void)
{
    covretin_queue queue = opened();
    covretin_packed_ring ring = {USER, USER + 0x100, USER + 0x104, 3, 0x8000, 0x8000, true, false};
    covretin_descriptor copies[2] = {{GUEST + 0x1000, 16, 0, 0x81}, {GUEST + 0x2000, 32, 2, 0x82}};
    covretin_segment segments[2];
    covretin_walked walked = {9, 9, {{9, 9}, 9, true}};
    covretin_used used;
    uint32_t base;

    HOLDS(covretin_queue_start_packed(&queue, &ring) == 0);
    HOLDS(covretin_queue_take(&queue, 0x8081, copies, 2, segments, 2, &walked) == COVRETIN_QUEUE_NOTHING_AVAILABLE && walked.taken == 9);
    HOLDS(covretin_queue_base(&queue, &base) == 0 && base == 0x80008000);
    HOLDS(covretin_queue_take(&queue, 0x81, copies, 2, segments, 2, &walked) == 0);
    expect_pair(&walked, segments);
    HOLDS(covretin_queue_base(&queue, &base) == 0 && base == 0x80008002);
    copies[0].fourth = 0x82;
    HOLDS(covretin_queue_take(&queue, 0x82, copies, 1, segments, 2, &walked) == 0 && walked.count == 1 && covretin_queue_add_used(&queue, 0, 0, &used) == 0);
    copies[1].third = 2; /* (the first chain's id) */
    HOLDS(covretin_queue_take(&queue, 0x8002, copies + 1, 1, segments, 2, &walked) == COVRETIN_QUEUE_HEAD_IN_USE && walked.count == 1);
    HOLDS(covretin_queue_take(&queue, 0x8002, copies + 1, 1, segments, 2, &walked) == COVRETIN_QUEUE_NEEDS_RESET);
    covretin_queue_close(&queue);
}

static bool is_same_used(const covretin_used *one, const covretin_used *other)
{
    return one->elem.addr == other->elem.addr && one->elem.len == other->elem.len && one->elem_value == other->elem_value &&
           one->then.addr == other->then.addr && one->then.len == other->then.len && one->then_value == other->then_value;
}

/* Chains are given back by one call as if one by one, of two queues that have the same; a refusal tells of those before it. */
static void given_back_by_one_call(covretin_queue *queue, covretin_queue *other, const uint16_t ids[3], uint16_t none)
{
    const uint32_t lens[3] = {7, 0, 9};
    const uint16_t wrong[3] = {ids[2], none, ids[2]};
    covretin_used used[3], blank, expected;
    size_t done = 9;

    memset(used, 0xa5, sizeof used);
    blank = used[2];
    HOLDS(covretin_queue_add_used_many(queue, ids, 0, lens, 0, used, 0, &done) == 0 && done == 0);
    HOLDS(covretin_queue_add_used_many(queue, ids, 3, lens, 2, used, 3, &done) == COVRETIN_QUEUE_NO_ROOM && done == 0);
    done = 9;
    HOLDS(covretin_queue_add_used_many(queue, ids, 3, lens, 3, used, 2, &done) == COVRETIN_QUEUE_NO_ROOM && done == 0);
    HOLDS(is_same_used(&used[0], &blank));
    HOLDS(covretin_queue_add_used_many(queue, ids, 2, lens, 3, used, 3, &done) == 0 && done == 2 && is_same_used(&used[2], &blank));
    for (size_t i = 0; i < 2; i++)
        HOLDS(covretin_queue_add_used(other, ids[i], lens[i], &expected) == 0 && is_same_used(&used[i], &expected));
    memset(used, 0xa5, sizeof used);
    HOLDS(covretin_queue_add_used_many(queue, wrong, 3, lens, 3, used, 3, &done) == COVRETIN_QUEUE_NOT_HANDED_OUT && done == 1);
    HOLDS(covretin_queue_add_used(other, ids[2], lens[0], &expected) == 0 && is_same_used(&used[0], &expected) && is_same_used(&used[1], &blank));
    HOLDS(covretin_queue_add_used_many(queue, ids, 1, lens, 1, used, 1, &done) == COVRETIN_QUEUE_NOT_HANDED_OUT && done == 0);
}

/* The device has the chains of three heads, or of three ids. */
static void take_three(covretin_queue *queue, const uint16_t heads[3])
{
    covretin_split_ring ring = split_ring();
    HOLDS(covretin_queue_start_split(queue, &ring) == 0);
    for (size_t i = 0; i < 3; i++)
        HOLDS(covretin_queue_adopt(queue, heads[i]) == 0);
}

static void take_three_packed(covretin_queue *queue)
{
    covretin_packed_ring ring = {USER, USER + 0x100, USER + 0x104, 3, 0x8000, 0x8000, true, false};
    HOLDS(covretin_queue_start_packed(queue, &ring) == 0);
    for (uint16_t id = 0; id < 3; id++) {
        covretin_descriptor descriptor = {GUEST, 16, id, 0x80};
        covretin_segment segment;
        covretin_walked walked;
        HOLDS(covretin_queue_take(queue, 0x80, &descriptor, 1, &segment, 1, &walked) == 0 && walked.count == 1);
    }
}

static void given_back_at_once(void)
{
    const uint16_t heads[3] = {3, 0, 1}, ids[3] = {2, 1, 0};
    const uint32_t len = 1;
    covretin_queue queues[2] = {{0}, {0}};
    covretin_used used;
    size_t done = 9;

    HOLDS(covretin_queue_add_used_many(&queues[0], heads, 0, &len, 0, &used, 0, &done) == COVRETIN_QUEUE_NO_QUEUE && done == 0);
    for (size_t i = 0; i < 2; i++) {
        queues[i] = opened();
        HOLDS(covretin_queue_add_used_many(&queues[i], heads, 0, &len, 0, &used, 0, &done) == 0 && done == 0);
        HOLDS(covretin_queue_add_used_many(&queues[i], heads, 1, &len, 1, &used, 1, &done) == COVRETIN_QUEUE_NOT_STARTED && done == 0);
        take_three(&queues[i], heads);
    }
    given_back_by_one_call(&queues[0], &queues[1], heads, 2);
    take_three_packed(&queues[0]);
    take_three_packed(&queues[1]);
    given_back_by_one_call(&queues[0], &queues[1], ids, 3);
    covretin_queue_close(&queues[0]);
    covretin_queue_close(&queues[1]);
}

/* A head that is given back is available again, and the entry that it was read from is read again. One that is adopted is used, and is not
 * followed. */
static void given_back(void)
{
    covretin_queue queue = opened();
    covretin_split_ring ring = split_ring();
    covretin_packed_ring packed = {USER, USER + 0x100, USER + 0x104, 3, 0x8000, 0x8000, true, false};
    covretin_range place, again;
    covretin_table table;
    covretin_used used;
    uint16_t count;
    uint32_t base;

    HOLDS(covretin_queue_give_back(&queue, 0) == COVRETIN_QUEUE_NOT_STARTED && covretin_queue_adopt(&queue, 0) == COVRETIN_QUEUE_NOT_STARTED);
    HOLDS(covretin_queue_start_split(&queue, &ring) == 0);
    HOLDS(covretin_queue_give_back(&queue, 0) == COVRETIN_QUEUE_NOT_HANDED_OUT && covretin_queue_base(&queue, &base) == 0 && base == 0);
    HOLDS(covretin_queue_available(&queue, 2, &count) == 0 && count == 2);
    HOLDS(covretin_queue_pop(&queue, 1) == 0 && covretin_queue_head_place(&queue, &place) == 0 && covretin_queue_pop(&queue, 2) == 0);
    HOLDS(covretin_queue_give_back(&queue, 2) == 0 && covretin_queue_base(&queue, &base) == 0 && base == 1);
    HOLDS(covretin_queue_give_back(&queue, 2) == COVRETIN_QUEUE_NOT_HANDED_OUT && covretin_queue_give_back(&queue, 4) == COVRETIN_QUEUE_NOT_HANDED_OUT);
    HOLDS(covretin_queue_table(&queue, &table) == 0 && !table.goes_on);
    HOLDS(covretin_queue_head_place(&queue, &again) == 0 && again.addr == place.addr);
    HOLDS(covretin_queue_pop(&queue, 2) == 0 && covretin_queue_add_used(&queue, 2, 0, &used) == 0);
    HOLDS(covretin_queue_adopt(&queue, 1) == COVRETIN_QUEUE_HEAD_IN_USE && covretin_queue_adopt(&queue, 4) == COVRETIN_QUEUE_NOT_IN_TABLE);
    HOLDS(covretin_queue_adopt(&queue, 3) == 0 && covretin_queue_adopt(&queue, 3) == COVRETIN_QUEUE_HEAD_IN_USE);
    HOLDS(covretin_queue_base(&queue, &base) == 0 && base == 2);
    HOLDS(covretin_queue_add_used(&queue, 3, 7, &used) == 0 && used.elem_value == 3 + ((uint64_t)7 << 32) && used.then_value == 2);
    /* (four are available, and one was read: more than four would be) */
    HOLDS(covretin_queue_available(&queue, 6, &count) == 0 && count == 4);
    HOLDS(covretin_queue_give_back(&queue, 1) == COVRETIN_QUEUE_TOO_MANY_AVAILABLE);
    HOLDS(covretin_queue_add_used(&queue, 1, 0, &used) == 0);
    HOLDS(covretin_queue_start_packed(&queue, &packed) == 0);
    HOLDS(covretin_queue_give_back(&queue, 0) == COVRETIN_QUEUE_OTHER_LAYOUT && covretin_queue_adopt(&queue, 0) == COVRETIN_QUEUE_OTHER_LAYOUT);
    covretin_queue_close(&queue);
}

/* A request that was taken before a crash is followed by what was kept of it, and the ring has something else. */
static void taken_again(void)
{
    covretin_queue queue = opened();
    covretin_packed_ring ring = {USER, USER + 0x100, USER + 0x104, 3, 0x8002, 0x8002, false, false};
    covretin_descriptor first = {GUEST + 0x1000, 16, 1, 0x81}, last = {GUEST + 0x2000, 512, 1, 0x82};
    covretin_segment segment;
    covretin_used used;
    uint32_t base;
    bool found;

    HOLDS(covretin_queue_resubmit_packed(&queue) == COVRETIN_QUEUE_NOT_STARTED);
    HOLDS(covretin_queue_start_packed(&queue, &ring) == 0);
    HOLDS(covretin_queue_resubmit(&queue, 0) == COVRETIN_QUEUE_OTHER_LAYOUT);
    HOLDS(covretin_queue_resubmit_packed(&queue) == 0);
    HOLDS(covretin_queue_step(&queue, &first, &segment, &found) == 0 && found && segment.guest_addr == GUEST + 0x1000);
    HOLDS(covretin_queue_step(&queue, &last, &segment, &found) == 0 && found && segment.writable);
    HOLDS(covretin_queue_step(&queue, &last, &segment, &found) == COVRETIN_QUEUE_CHAIN_ENDED);
    HOLDS(covretin_queue_base(&queue, &base) == 0 && base == 0x80020001);
    HOLDS(covretin_queue_add_used(&queue, 1, 512, &used) == 0 && used.then_value == 0x8082);
    HOLDS(used.then.addr == (uint64_t)(uintptr_t)(memory + 46));
    HOLDS(covretin_queue_base(&queue, &base) == 0 && base == 0x00010001);
    covretin_queue_close(&queue);
}

/* A ring of four, of which 2 to the end, 0 and 1 were taken by two requests: the entries 0 and 1, and 2. */
static void packed_inflight(void)
{
    covretin_descriptor descriptor = {GUEST + 0x1000, 0x12345678, 0x9abc, 0xdef0};
    covretin_inflight_entry entries[4] = {{true, 1, 9}, {false, 3, 0}, {true, 3, 5}, {false, 4, 0}};
    covretin_packed_inflight_head now = {0, 1, false}, old = {3, 3, true}, head;
    covretin_inflight_write first, second, writes[4];
    covretin_resubmit again[4];
    bool is_free[4];
    size_t count;

    covretin_inflight_keep_packed(3, &descriptor, &first, &second);
    HOLDS(first.offset == 144 && first.len == 8 && first.value == 0x12345678def09abc);
    HOLDS(second.offset == 152 && second.len == 8 && second.value == GUEST + 0x1000);
    covretin_inflight_take_packed(1, 2, 3, 42, 7, writes);
    HOLDS(writes[0].offset == 68 && writes[0].len == 4 && writes[0].value == 0x30002);
    HOLDS(writes[1].offset == 72 && writes[1].len == 8 && writes[1].value == 42);
    HOLDS(writes[2].offset == 64 && writes[2].len == 1 && writes[2].value == 1);
    HOLDS(writes[3].offset == 12 && writes[3].len == 4 && writes[3].value == 0x70007);
    covretin_inflight_before_used_packed(1, 2, 7, 0x0001, 0x8003, writes);
    HOLDS(writes[0].offset == 98 && writes[0].len == 2 && writes[0].value == 7);
    HOLDS(writes[1].offset == 12 && writes[1].len == 2 && writes[1].value == 1);
    HOLDS(writes[2].offset == 16 && writes[2].len == 8 && writes[2].value == 0x10000030001);
    covretin_inflight_after_used_packed(1, 0x8002, writes);
    HOLDS(writes[0].offset == 64 && writes[0].len == 1 && writes[0].value == 0);
    HOLDS(writes[1].offset == 12 && writes[1].len == 4 && writes[1].value == 0x10001);
    HOLDS(writes[2].offset == 16 && writes[2].len == 8 && writes[2].value == 0x10100020002);
    /* the first of them was used, and the driver was not told; or it was */
    HOLDS(covretin_inflight_recover_packed(entries, 4, &now, &old, 0x80, &head, is_free, 4, again, 4, &count) == 0 && count == 2);
    HOLDS(again[0].head == 2 && again[1].head == 0 && is_free[3] && !is_free[0] && !is_free[1] && !is_free[2]);
    HOLDS(head.free_head == 3 && head.used_idx == 3 && head.used_wrap_counter);
    HOLDS(covretin_inflight_recover_packed(entries, 4, &now, &old, 0x8080, &head, is_free, 4, again, 4, &count) == 0 && count == 1);
    HOLDS(again[0].head == 2 && is_free[0] && is_free[1] && !is_free[2] && is_free[3]);
    HOLDS(head.free_head == 0 && head.used_idx == 1 && !head.used_wrap_counter);
    HOLDS(covretin_inflight_recover_packed(entries, 4, &now, &old, 0x80, &head, is_free, 3, again, 4, &count) == COVRETIN_QUEUE_NO_ROOM);
    HOLDS(covretin_inflight_recover_packed(entries, 4, &now, &old, 0x80, &head, is_free, 4, again, 1, &count) == COVRETIN_QUEUE_NO_ROOM);
    HOLDS(count == 1 && head.used_idx == 1 && again[0].head == 2 && is_free[0]);
    HOLDS(covretin_inflight_recover_packed(entries, 4, &now, &old, 0x80, &head, is_free, 4, again, 2, &count) == 0 && count == 2);
    old.used_idx = 4;
    HOLDS(covretin_inflight_recover_packed(entries, 4, &now, &old, 0x80, &head, is_free, 4, again, 4, &count) ==
          COVRETIN_QUEUE_INVALID_INFLIGHT);
}

static void inflight_and_log(void)
{
    covretin_inflight_entry entries[4] = {{true, 0, 9}, {true, 0, 5}, {true, 0, 7}, {false, 0, 1}};
    covretin_inflight_write first, second;
    covretin_resubmit again[4];
    covretin_log_bit bit;
    bool settled[4];
    size_t count;
    uint64_t from, end;

    HOLDS(covretin_inflight_recover(entries, 4, 2, 6, 7, settled, 4, again, 4, &count) == 0 && count == 2);
    HOLDS(again[0].head == 1 && again[1].head == 0 && settled[2] && !settled[0]);
    HOLDS(covretin_inflight_recover(entries, 4, 2, 0, 7, settled, 4, again, 4, &count) == COVRETIN_QUEUE_INVALID_INFLIGHT);
    HOLDS(covretin_inflight_recover(entries, 4, 2, 6, 7, settled, 3, again, 4, &count) == COVRETIN_QUEUE_NO_ROOM);
    HOLDS(covretin_inflight_recover(entries, 4, 2, 6, 7, settled, 4, again, 2, &count) == 0 && count == 2);
    HOLDS(covretin_inflight_recover(entries, 4, 0, 6, 6, settled, 4, again, 2, &count) == COVRETIN_QUEUE_NO_ROOM && count == 2);
    HOLDS(again[0].head == 1 && again[1].head == 0 && settled[2]);
    covretin_inflight_take(3, 42, &first, &second);
    HOLDS(first.offset == 72 && first.len == 8 && first.value == 42 && second.offset == 64 && second.len == 1 && second.value == 1);
    covretin_inflight_before_used(3, 1, &first, &second);
    HOLDS(first.offset == 70 && first.value == 1 && second.offset == 12 && second.value == 3);
    covretin_inflight_after_used(3, 8, &first, &second);
    HOLDS(first.offset == 64 && first.value == 0 && second.offset == 14 && second.value == 8);
    HOLDS(covretin_log_pages(4095, 2, 100, &from, &end) == 0 && from == 0 && end == 2);
    HOLDS(covretin_log_pages(4096 * 9, 4096 * 9, 2, &from, &end) == 0 && from == 9 && end == 16);
    HOLDS(covretin_log_pages(UINT64_MAX, 2, 2, &from, &end) == COVRETIN_QUEUE_NOT_IN_GUEST);
    covretin_log_bit_of(13, &bit);
    HOLDS(bit.byte == 1 && bit.mask == 32);
}

enum { MANY = 100, APART = 0x2000, REGION = 0x1000 };

/* One of many regions, between which there is room. */
static covretin_guest_region region_of_many(unsigned i)
{
    uint64_t at = (uint64_t)i * APART;
    return (covretin_guest_region){GUEST + at, REGION, USER + at, (uint64_t)(uintptr_t)memory + at};
}

/* Each that is there is found, by all of its bytes and by its last, whatever was found before; what is beyond it, or not there, is not. */
static void find_each(covretin_queue *queue, const bool *are_there)
{
    for (unsigned k = 0; k < 2 * MANY; k++) {
        unsigned i = k * 37 % MANY;
        covretin_guest_region region = region_of_many(i);
        uint64_t last = region.guest_addr + REGION - 1;
        enum covretin_queue_error wanted = are_there[i] ? COVRETIN_QUEUE_OK : COVRETIN_QUEUE_NOT_IN_GUEST;
        covretin_range all = {region.host_addr, REGION}, end = {region.host_addr + REGION - 1, 1}, found;
        HOLDS(covretin_queue_translate(queue, false, region.guest_addr, REGION, &found) == wanted);
        HOLDS(!are_there[i] || memcmp(&found, &all, sizeof all) == 0);
        HOLDS(covretin_queue_translate(queue, false, last, 1, &found) == wanted);
        HOLDS(!are_there[i] || memcmp(&found, &end, sizeof end) == 0);
        HOLDS(covretin_queue_translate(queue, true, region.user_addr, REGION, &found) == wanted);
        HOLDS(covretin_queue_translate(queue, false, last, 2, &found) == COVRETIN_QUEUE_NOT_IN_GUEST);
        HOLDS(covretin_queue_translate(queue, false, region.guest_addr - 1, 2, &found) == COVRETIN_QUEUE_NOT_IN_GUEST);
    }
}

/* Regions come in no order, and go in another. */
static void regions_in_any_order(void)
{
    covretin_queue queue = {0};
    bool are_there[MANY] = {false};
    HOLDS(covretin_queue_open(&queue) == 0);
    for (unsigned k = 0; k < MANY; k++) {
        covretin_guest_region region = region_of_many(k * 61 % MANY);
        HOLDS(covretin_queue_add_region(&queue, &region) == 0);
        are_there[k * 61 % MANY] = true;
        if (k % 25 == 24)
            find_each(&queue, are_there);
    }
    for (unsigned k = 0; k < MANY; k++) {
        covretin_guest_region region = region_of_many(k * 17 % MANY);
        HOLDS(covretin_queue_remove_region(&queue, region.guest_addr, region.size, region.user_addr) == 0);
        are_there[k * 17 % MANY] = false;
        if (k % 25 == 24)
            find_each(&queue, are_there);
    }
    covretin_queue_close(&queue);
}

int main(void)
{
    /* by steps; by walks of a descriptor each, of two into a place, and of all into all */
    const size_t ways[4][2] = {{0, 0}, {1, 600}, {2, 1}, {MOST_COPIES, 600}};
    for (size_t i = 0; i < 4; i++) {
        copies_at_once = ways[i][0];
        places_at_once = ways[i][1];
        RUN(split_queue);
        RUN(refused_chains);
        RUN(packed_queue);
        RUN(adjoining_regions);
        RUN(adjoining_regions_packed);
        RUN(many_borders);
    }
    RUN(regions_in_any_order);
    RUN(walks_of_no_chain);
    RUN(heads_at_once);
    RUN(taken_by_one_call);
    RUN(taken_by_one_call_packed);
    RUN(given_back_at_once);
    RUN(given_back);
    RUN(taken_again);
    RUN(packed_inflight);
    RUN(inflight_and_log);
    return status();
}
