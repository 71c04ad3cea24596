/* SPDX-License-Identifier: Apache-2.0 */
/* What comes after a crash, and what a frontend that migrates the guest reads. */
#include "queue_calls.h"

/* -- What needs no queue -- */

bool are_taken_again(const covretin_inflight_entry *entries, const bool *settled, size_t size, const covretin_resubmit *again,
                     size_t count)
{
    static bool is_again[MOST_SIZE];
    bool holds = true;
    memset(is_again, 0, size);
    for (size_t i = 0; holds && i < count; i++) {
        uint16_t head = again[i].head;
        holds = head < size && entries[head].inflight && !settled[head] && !is_again[head] && again[i].counter == entries[head].counter;
        holds = holds && (i == 0 || again[i - 1].counter <= again[i].counter);
        is_again[head % MOST_SIZE] = true;
    }
    for (size_t head = 0; head < size; head++)
        count -= entries[head].inflight && !settled[head];
    return holds && count == 0;
}

/* What is to be done after a crash, by an inflight region that may say anything. Whether it is that of the queue. */
static struct {
    bool settled[MOST_SIZE + 1];
    covretin_resubmit again[MOST_SIZE + 1];
    size_t count;
} recovered;

static bool recover(const covretin_inflight_entry *entries, size_t size, const uint16_t said[3], size_t settled_len, size_t again_len)
{
    static bool settled[MOST_SIZE + 1];
    size_t in_flight = 0;
    uint64_t reasons = model_settled(entries, size, said[0], said[1], said[2], settled);
    for (size_t head = 0; head < size; head++)
        in_flight += entries[head].inflight && !settled[head];
    reasons |= settled_len != size || again_len < in_flight ? REASON(COVRETIN_QUEUE_NO_ROOM) : 0;
    memset(recovered.settled, BLANK, settled_len);
    memset(recovered.again, BLANK, again_len * sizeof *recovered.again);
    memset(&recovered.count, BLANK, sizeof recovered.count);
    if (!DOES(RECOVER,
              covretin_inflight_recover(entries, size, said[0], said[1], said[2], recovered.settled, settled_len, recovered.again, again_len,
                                        &recovered.count),
              reasons)) {
        must(is_blank(recovered.settled, settled_len) && is_blank(recovered.again, again_len * sizeof *recovered.again));
        must(is_blank(&recovered.count, sizeof recovered.count));
        return false;
    }
    must(recovered.count == in_flight && memcmp(settled, recovered.settled, size) == 0);
    must(are_taken_again(entries, settled, size, recovered.again, recovered.count));
    return true;
}

/* Many entries, most of them in flight, whose counters go up, or down, or are anything, or few. */
static void fill(covretin_inflight_entry *entries, size_t size, uint8_t how)
{
    uint64_t random = how;
    for (size_t i = 0; i < size; i++) {
        random = random * 6364136223846793005u + 1442695040888963407u;
        uint64_t counters[] = {i, size - i, random >> 33, random >> 60};
        entries[i] = (covretin_inflight_entry){how < 224 || random >> 63, (uint16_t)(random >> 40) % MOST_SIZE, counters[how % 4]};
    }
}

void recover_any(void)
{
    static covretin_inflight_entry entries[MOST_SIZE + 1];
    uint8_t how = next_byte();
    size_t size = how == 255 ? MOST_SIZE + 1 : how == 254 ? MOST_SIZE : how >= 192 ? next_byte() * 4u : how % 16;
    uint16_t said[3] = {next_byte() % 18, (uint16_t)next_number(), 0};
    said[2] = (uint16_t)(said[1] + next_byte() % 16);
    if (how >= 192)
        fill(entries, size, next_byte());
    for (size_t i = 0; i < size && how < 192; i++) {
        uint8_t it = next_byte();
        entries[i] = (covretin_inflight_entry){it & 1, it == 255 ? (uint16_t)next_number() : it / 2 % 16, it < 8 ? next_number() : it / 32};
    }
    recover(entries, size, said, size - (how / 16 == 1 && size != 0) + (how / 16 == 2), how / 16 == 3 ? size / 2 : size);
}

/* The pages of a range that was written. */
void log_range(void)
{
    uint8_t how = next_byte();
    uint64_t addr = next_number(), len = next_number(), log_size = next_number(), first = 0, end = 0;
    covretin_log_bit bit;
    addr = how == 0 ? 0 : addr;
    len = how < 128 ? len * 4096 - addr % 4096 + how % 8 : how < 144 ? 0 - addr - how % 2 : len; /* (it ends at a page's end, or at the last) */
    log_size = how % 4 == 3 ? addr / 32768 + how / 8 % 3 : log_size;
    bool is_within = len <= UINT64_MAX - addr;
    if (!DOES(LOG, covretin_log_pages(addr, len, log_size, &first, &end), is_within ? 0 : REASON(COVRETIN_QUEUE_NOT_IN_GUEST))) {
        must(first == 0 && end == 0);
        return;
    }
    const uint64_t near[] = {0, first - 1, first, first + 1, end - 1, end, addr / 4096, (addr + len) / 4096, 8 * log_size - 1, 8 * log_size};
    for (size_t i = 0; i < sizeof near / sizeof *near; i++)
        must(model_is_dirty(addr, len, log_size, near[i]) == (near[i] >= first && near[i] < end));
    covretin_log_bit_of(addr, &bit);
    must(bit.byte == addr / 8 && bit.mask == 1 << addr % 8);
}

/* -- A device that keeps an inflight region, and crashes -- */

/* The region as the vhost-user specification has it, and the truth: which head was taken when, and not used. */
static struct {
    struct {
        uint64_t features;
        uint16_t version, desc_num, last_batch_head, used_idx;
        struct {
            uint8_t inflight, padding[5];
            uint16_t next;
            uint64_t counter;
        } desc[16];
    } area;
    uint16_t ring_idx; /* the used ring's index, as it is in memory */
    uint64_t counter;
    uint64_t taken[16]; /* the counter of a head that was taken; 0: it was not, or is used */
    unsigned writes;    /* that are made yet */
} device;

/* Makes a write, unless the device crashed. */
static bool writes(void)
{
    return device.writes != 0 && device.writes-- != 0;
}

/* It has to be this value of a field of so many bytes. */
static void note(const covretin_inflight_write *it, void *field, size_t size, uint64_t value)
{
    must(it->offset == (uint64_t)((uint8_t *)field - (uint8_t *)&device.area) && it->len == size && it->value == value);
    if (writes())
        memcpy(field, &it->value, size);
}

static void device_takes(uint16_t head)
{
    covretin_inflight_write first, second;
    covretin_inflight_take(head, ++device.counter, &first, &second);
    note(&first, &device.area.desc[head].counter, 8, device.counter);
    if (device.writes != 0)
        device.taken[head] = device.counter;
    note(&second, &device.area.desc[head].inflight, 1, 1);
}

static void device_gives(uint16_t head)
{
    covretin_inflight_write first, second;
    uint16_t last = device.area.last_batch_head;
    covretin_inflight_before_used(head, last, &first, &second);
    give(256, head, 0);
    must(error == 0 && out.used.then_value == (uint16_t)(device.ring_idx + 1));
    note(&first, &device.area.desc[head].next, 2, last);
    note(&second, &device.area.last_batch_head, 2, head);
    if (writes()) {
        device.ring_idx = (uint16_t)(device.ring_idx + 1);
        device.taken[head] = 0;
    }
    covretin_inflight_after_used(head, device.ring_idx, &first, &second);
    note(&first, &device.area.desc[head].inflight, 1, 0);
    note(&second, &device.area.used_idx, 2, device.ring_idx);
}

/* Each head that was taken and not used is taken again, once, in the order in which they were; and no other. */
static void device_recovers(void)
{
    covretin_inflight_entry entries[16];
    uint16_t said[3] = {device.area.last_batch_head, device.area.used_idx, device.ring_idx};
    size_t count = 0;
    for (size_t i = 0; i < model.size; i++) {
        entries[i] = (covretin_inflight_entry){device.area.desc[i].inflight, device.area.desc[i].next, device.area.desc[i].counter};
        count += device.taken[i] != 0;
    }
    must(recover(entries, model.size, said, model.size, model.size) && recovered.count == count);
    for (size_t i = 0; i < count; i++)
        must(device.taken[recovered.again[i].head] == recovered.again[i].counter);
    for (size_t i = 0; i < model.size; i++)
        device.area.desc[i].inflight = entries[i].inflight && !recovered.settled[i];
    device.area.used_idx = device.ring_idx;
}

/* Takes and gives heads up to a crash, and those that are left then in the device that comes behind it. */
void crash(void)
{
    struct start it;
    memset(&device, 0, sizeof device);
    next_start(&it);
    it.layout = SPLIT;
    it.size = 16 >> it.size % 4;
    next_parts(SPLIT, it.size, it.parts);
    device.ring_idx = device.area.used_idx = it.avail = it.used;
    for (unsigned lives = 2; lives != 0; lives--) {
        device.writes = 1 + next_byte() % 64;
        if (!start(&it))
            return;
        for (size_t i = 0; lives == 1 && i < recovered.count; i++) {
            must(DOES(RESUBMIT, covretin_queue_resubmit(&queue, recovered.again[i].head), model_take(recovered.again[i].head, true)));
            held[held_count++] = recovered.again[i].head;
        }
        while (device.writes != 0) {
            uint16_t count, which = next_byte(), head = which / 16 % model.size, idx = (uint16_t)(model.avail + 1);
            if (which % 2 == 0 && model.out[head] == 0) {
                must(DOES(LOOKED, covretin_queue_available(&queue, idx, &out.count), model_available(idx, &count)));
                must(DOES(POP, covretin_queue_pop(&queue, head), model_take(head, false)));
                held[held_count++] = head;
                device_takes(head);
            } else if (which % 2 != 0 && held_count != 0)
                device_gives(held[which / 2 % held_count]);
            else
                device.writes--;
        }
        device_recovers();
        it.used = device.ring_idx;
        it.avail = (uint16_t)(it.used + recovered.count); /* (one less than it was, where a head was popped and not noted) */
        must((uint16_t)(model.avail - it.avail) <= 1);
        outcome_of(CUT, 0);
    }
}
