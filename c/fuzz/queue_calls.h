/* SPDX-License-Identifier: Apache-2.0 */
/* Calls with a queue: each ends as the model's does, and what is seen of the queue then is what the model has. */
#ifndef QUEUE_CALLS_H
#define QUEUE_CALLS_H

#include "queue_guest.h"
#include "queue_model.h"

extern covretin_queue queue;
extern enum covretin_queue_error error; /* how the last call ended */

/* What a call writes. Before it all bytes are BLANK, and where it is refused they stay so. */
enum { BLANK = 0xa5 };
extern struct out {
    covretin_range place;
    covretin_segment segment;
    covretin_used used;
    covretin_event_write event;
    covretin_table table;
    covretin_walked walked;
    uint32_t base;
    uint16_t count;
    bool is;
} out;
bool is_blank(const void *bytes, size_t size);

/* The chains that the device has, by their heads or ids. */
extern uint16_t held[MOST_SIZE];
extern size_t held_count;

static inline bool is_range(covretin_range one, covretin_range other)
{
    return one.addr == other.addr && one.len == other.len;
}

/* A call that only looks. */
#define LOOK(call) (memset(&out, BLANK, sizeof out), error = (call))

/* Whether a call is to be made again, since an allocation failed in it. Then nothing changed. */
bool has_starved(void);

/* A step: the call is made, again where an allocation failed in it, and ends as the model's does. Whether it did something. */
#define DOES(what, call, reasons)                                                                                                          \
    (__extension__({                                                                                                                       \
        do                                                                                                                                 \
            LOOK(call);                                                                                                                    \
        while (has_starved());                                                                                                             \
        ends(what, reasons);                                                                                                               \
    }))

enum {
    OPEN,
    SET,
    ADD,
    REMOVE,
    TRANSLATE,
    START,
    MOVE,
    STOP,
    LOOKED,
    POP,
    RESUBMIT,
    STEP,
    GIVE,
    TELL_OF,
    RECOVER,
    LOG,
    INDIRECT_STEP,
    CUT,
    RECOVER_PACKED,
    WALK,
    GIVE_BACK,
    ADOPT,
    TAKE,
    GIVE_MANY
};

/* Whether it ended without a reason to be refused, and did something. */
bool ends(uint32_t what, uint64_t reasons);

/* Whether a table is one, where a chain goes on. */
bool is_table(const covretin_table *one, const covretin_table *other);

/* Looks at all that can be seen of the queue. */
void see(void);

/* The queue is started so: whether it has these rings. And the device is done with a chain of its own, or else with one that it has not; or with some
 * of either, by one call. */
bool start(const struct start *it);
void give(size_t which, uint16_t id, uint32_t len);
void give_many(void);

/* A chain of the device's is no more: that of this head or id. */
void forget(uint16_t id);

/* What needs no queue: an inflight region that says anything, and the dirty log; and a device that keeps an inflight region, and crashes. */
void recover_any(void);
void log_range(void);
void crash(void);

/* The same of a packed queue. */
void recover_packed_any(void);
void crash_packed(void);

/* Whether what is taken again are the heads that are in flight and not settled, each once, in the order of their counters. */
bool are_taken_again(const covretin_inflight_entry *entries, const bool *settled, size_t size, const covretin_resubmit *again, size_t count);

#endif
