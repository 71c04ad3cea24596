/* SPDX-License-Identifier: Apache-2.0 */
/* What a queue has to do, said once more as plainly as can be, by virtio 1.2 (2.7, 2.8) and covretin_queue.h.
 *
 * A call of the model gives the reasons why that of the queue is refused, a bit for each error, and the queue may name any of them. Where
 * there is none, the call is done, and what the queue has to write is written. Where the guest broke a rule, the queue needs a reset. */
#ifndef QUEUE_MODEL_H
#define QUEUE_MODEL_H

#include "covretin_queue.h"
#include "run.h"

enum { MOST_REGIONS = 509, MOST_SIZE = 32768 };

/* The bit of an error. */
#define REASON(error) ((uint64_t)1 << ((uint32_t)(error) < 64 ? (error) : (error) - 60))

enum layout { STOPPED, SPLIT, PACKED };

/* How a ring is started: its parts are the descriptors, the driver's, and the device's. */
struct start {
    enum layout layout;
    uint64_t parts[3];
    uint16_t size, avail, used;
    bool event_idx, indirect_desc;
};

/* A descriptor as it is followed: what its flags are, and which comes behind it. */
struct link {
    uint16_t flags;
    bool is_last; /* in a packed ring: its id is the chain's */
    bool goes_on;
    uint32_t next;
};

/* The queue as it is. A place is an index of 16 bits, or one on two rounds of a packed ring: on the first of them the wrap counter is 1. */
extern struct model {
    bool is_open;
    covretin_guest_region regions[MOST_REGIONS];
    size_t region_count;

    enum layout layout;
    uint64_t parts[3]; /* where they are mapped */
    uint32_t size;
    bool event_idx, indirect_desc, needs_reset;
    uint32_t avail, used;
    uint32_t idx;            /* the index of the available ring as it was read */
    bool was_asked;          /* whether the driver is to be told, */
    uint32_t asked_at;       /* and what was used then */
    uint32_t out[MOST_SIZE]; /* of how many descriptors in a ring the chain of a head, or of an id, is that the device has */

    /* The chain that is followed: which descriptor of which table is next, and how many may come; and what is left of one that goes on
     * in another region, and how many times one may yet. */
    struct {
        bool goes_on, in_ring, writing, nests, has_rest;
        uint64_t table;
        uint32_t entries, next, left, splits, slots;
        covretin_descriptor rest;
        struct link link;
    } chain;
} model;

/* A new queue, and none. */
void model_open(void);
void model_close(void);

uint64_t model_set_regions(const covretin_guest_region *regions, size_t count);
uint64_t model_add_region(const covretin_guest_region *region);
uint64_t model_remove_region(uint64_t guest_addr, uint64_t size, uint64_t user_addr);
uint64_t model_translate(bool user, uint64_t addr, uint64_t len, covretin_range *range);

uint64_t model_start(const struct start *start);
uint64_t model_move(enum layout layout, const uint64_t parts[3]);
uint64_t model_stop(void);
uint64_t model_base(uint32_t *base);

uint64_t model_available_place(covretin_range *place);
uint64_t model_head_place(covretin_range *place);
uint64_t model_heads_place(size_t most, covretin_range *place);
uint64_t model_descriptor_place(covretin_range *place, bool *found);
uint64_t model_notification_place(covretin_range *place);
uint64_t model_set_notification(bool enable, covretin_event_write *write);

uint64_t model_available(uint16_t value, uint16_t *count);
uint64_t model_take(uint16_t head, bool is_again);
uint64_t model_take_packed(void);
uint64_t model_give_back(uint16_t head);
uint64_t model_adopt(uint16_t head);
uint64_t model_table(covretin_table *table);
uint64_t model_step(const covretin_descriptor *descriptor, covretin_segment *segment, bool *found);
uint64_t model_add_used(uint16_t id, uint32_t len, covretin_used *used);
uint64_t model_needs_notification(uint16_t value, uint16_t flags, bool *needed);

/* What the inflight region says: which entries are of the last batch, and whether a head is to be taken again then. */
uint64_t model_settled(const covretin_inflight_entry *entries, size_t count, uint16_t last, uint16_t used_idx, uint16_t ring_idx,
                       bool *settled);

/* The same of a packed queue: which entries are free, in this state. */
uint64_t model_free(const covretin_inflight_entry *entries, size_t count, const covretin_packed_inflight_head *head, bool *is_free);

/* Whether the dirty log, of so many bytes, has a bit of this page, and the range a byte of it. */
bool model_is_dirty(uint64_t addr, uint64_t len, uint64_t log_size, uint64_t page);

#endif
