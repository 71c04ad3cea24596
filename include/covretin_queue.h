/* SPDX-License-Identifier: Apache-2.0 */
/* Covretin: a virtqueue as a device sees it, split or packed, and the guest memory that it lies in (virtio 1.2, chapter 2).
 *
 * A queue decides what a device may touch, and touches nothing itself: a call says where to read, and the next one takes what was
 * read there. Each value is read once, so that a guest that changes it meanwhile gains nothing: whatever was read, a queue hands
 * out only ranges that lie inside one region which the frontend gave.
 *
 * For each kick, of a split queue, where read16(range) reads two bytes at range.addr, little-endian:
 *
 *     covretin_queue_available_place(&queue, &place);            the index of the available ring; an acquiring read
 *     covretin_queue_available(&queue, read16(place), &count);   how many chains are available
 *     while (count-- != 0) {
 *         covretin_queue_head_place(&queue, &place);             the next entry of the available ring
 *         covretin_queue_pop(&queue, head = read16(place));      the chain of this head is the device's
 *         for (covretin_queue_table(&queue, &walked.table); walked.table.goes_on; segments += walked.count, room -= walked.count) {
 *             count = copy(&walked.table, copies);               the descriptors from table.next on, each read once
 *             covretin_queue_walk(&queue, copies, count, segments, room, &walked);
 *             if (walked.taken < count) ..                       there is no room for all segments
 *         }
 *         ..                                                     the request is served, now or later
 *         covretin_queue_add_used(&queue, head, len, &used);     what is to be written: elem, and then, by a releasing write, then
 *     }
 *     covretin_queue_notification_place(&queue, &place);         what the driver asks for; a full barrier lies before
 *     covretin_queue_needs_notification(&queue, read16(place), 0, &told_of);
 *
 * What is copied is a part of the chain, as long as the caller likes: up to a descriptor without NEXT, or with INDIRECT, behind which the chain
 * goes on in another table; or up to one whose next is beyond the table, by which the chain is refused. Nothing else of the copies is to be
 * looked at. covretin_queue_step does the same by one descriptor a call, for whoever reads them one by one:
 *
 *         for (;;) {
 *             covretin_queue_descriptor_place(&queue, &place, &found);
 *             if (!found) break;                                 the chain is at its end
 *             if (place.len != 0) descriptor = read(place);      else what was read goes on in another region
 *             covretin_queue_step(&queue, &descriptor, &segment, &found);
 *             if (found) ..                                      a segment of the request; else an indirect table follows
 *         }
 *
 * Fewer calls do the same for many chains: covretin_queue_heads_place says where many heads are read, covretin_queue_take is a pop and a walk, and
 * covretin_queue_add_used_many gives many chains back.
 *
 * Of a packed queue the same but for the heads: covretin_queue_available takes the flags of the next place, and reports one chain at
 * most, which is followed at once. The next descriptor is the one behind, round the ring's end, and all of an indirect table are the chain's.
 * Its id, by which it is used, is that of the last descriptor that was read before the chain's end or an indirect table. Four bytes are read
 * for covretin_queue_needs_notification: a place and flags.
 *
 * WHO OWNS WHAT
 * Buffers: each pointer is borrowed for the call alone. What is `const` is only read; the others are only written. Two of them must
 *   not overlap. A count says how many elements its array has, and a pointer is never NULL (also where its count is 0).
 * Memory: a queue neither maps nor reads nor writes any. What it hands out stays valid only while the caller leaves the regions
 *   mapped that it gave.
 * Queues: a variable of type covretin_queue, {0} at first, belongs to the caller, who does not copy it or write to it. Calls
 *   with the same one must not overlap in time, and none may be made from a signal handler. Each queue has its own memory, so a
 *   device may have its queues in threads of their own.
 *
 * ERRORS are numbers of enum covretin_queue_error; 0 is none. After an error no other argument was written, except for the segments of
 * covretin_queue_walk and covretin_queue_take, which hand out none of them then, and what covretin_queue_add_used_many says of its own. No call
 * makes a system call except for memory (malloc, free), waits for anything, or has a global state.
 */
#ifndef COVRETIN_QUEUE_H
#define COVRETIN_QUEUE_H

#include <stdbool.h>
#include <stddef.h>
#include <stdint.h>

#ifdef __cplusplus
extern "C" {
#endif

/* Why a call was refused. */
enum covretin_queue_error {
    COVRETIN_QUEUE_OK = 0,

    /* what the frontend gave; nothing changed */
    COVRETIN_QUEUE_INVALID_REGION = 1,          /* a region is empty or ends beyond the addresses of 64 bits */
    COVRETIN_QUEUE_REGION_OVERLAP = 2,          /* a region overlaps another */
    COVRETIN_QUEUE_TOO_MANY_REGIONS = 3,        /* more than 509 */
    COVRETIN_QUEUE_NO_SUCH_REGION = 4,          /* there is no such region */
    COVRETIN_QUEUE_INVALID_SIZE = 5,            /* 0, above 32768, or of a split queue no power of two */
    COVRETIN_QUEUE_UNALIGNED = 6,               /* a part of a queue is not aligned where it is mapped */
    COVRETIN_QUEUE_INVALID_BASE = 7,            /* the base of a packed ring is not in the ring */
    COVRETIN_QUEUE_INVALID_INFLIGHT = 8,        /* the inflight region is not that of the queue */

    /* what the guest wrote: the queue needs a reset (but where a range is asked for: by covretin_queue_translate, at a start or a move,
     * and by covretin_log_pages) */
    COVRETIN_QUEUE_NOT_IN_GUEST = 9,            /* a range does not lie in one region */
    COVRETIN_QUEUE_EMPTY_DESCRIPTOR = 10,       /* a descriptor has no bytes */
    COVRETIN_QUEUE_NOT_IN_TABLE = 11,           /* a head or a next descriptor is not in its table */
    COVRETIN_QUEUE_CHAIN_TOO_LONG = 13,         /* a loop; more descriptors than the queue has, or than 1024 where it has fewer and INDIRECT_DESC */
    COVRETIN_QUEUE_READABLE_AFTER_WRITABLE = 14,
    COVRETIN_QUEUE_UNEXPECTED_INDIRECT = 15,    /* an indirect table was not negotiated, or lies in another */
    COVRETIN_QUEUE_INDIRECT_GOES_ON = 16,       /* a descriptor of an indirect table goes on */
    COVRETIN_QUEUE_INVALID_INDIRECT_LENGTH = 17, /* 0, or no multiple of 16 */
    COVRETIN_QUEUE_TOO_MANY_AVAILABLE = 18,     /* more chains are available than the queue has */
    COVRETIN_QUEUE_HEAD_IN_USE = 19,            /* a chain is made available again before it was used */

    /* what the caller did; nothing changed */
    COVRETIN_QUEUE_NEEDS_RESET = 20,
    COVRETIN_QUEUE_NOTHING_AVAILABLE = 21,
    COVRETIN_QUEUE_CHAIN_ENDED = 22,            /* no descriptor was to be read */
    COVRETIN_QUEUE_NOT_HANDED_OUT = 23,         /* the device has no such chain */
    COVRETIN_QUEUE_OUT_OF_MEMORY = 24,
    COVRETIN_QUEUE_NO_QUEUE = 101,              /* it is not open */
    COVRETIN_QUEUE_QUEUE_OPEN = 102,                  /* it is open already */
    COVRETIN_QUEUE_NOT_STARTED = 103,           /* it has no rings */
    COVRETIN_QUEUE_OTHER_LAYOUT = 104,          /* it has rings of the other layout */
    COVRETIN_QUEUE_NO_ROOM = 105                /* an array is too small */
};

/* A queue, and the memory that it sees. {0} is none. */
typedef struct covretin_queue {
    void *opaque;
} covretin_queue;

/* A region of guest memory. */
typedef struct covretin_guest_region {
    uint64_t guest_addr; /* where the guest has it */
    uint64_t size;
    uint64_t user_addr;  /* where the frontend has it */
    uint64_t host_addr;  /* where it is mapped here */
} covretin_guest_region;

/* Mapped bytes. */
typedef struct covretin_range {
    uint64_t addr;
    uint64_t len;
} covretin_range;

/* Where a split queue lies for the frontend, what was negotiated, and where it begins. */
typedef struct covretin_split_ring {
    uint64_t desc_table;
    uint64_t avail_ring;
    uint64_t used_ring;
    uint16_t size;       /* in descriptors */
    uint16_t next_avail; /* the base of the ring */
    uint16_t next_used;  /* the index of the used ring, as it is in memory */
    bool event_idx;      /* VIRTIO_F_EVENT_IDX */
    bool indirect_desc;  /* VIRTIO_F_INDIRECT_DESC */
} covretin_split_ring;

/* The same of a packed queue. */
typedef struct covretin_packed_ring {
    uint64_t desc_ring;
    uint64_t driver_event;
    uint64_t device_event;
    uint16_t size;  /* in descriptors */
    uint16_t avail; /* the lower 16 bits of the base: an index, and the wrap counter above it */
    uint16_t used;  /* the upper 16 bits */
    bool event_idx;
    bool indirect_desc;
} covretin_packed_ring;

/* The 16 bytes of a descriptor, whose fields are little-endian in memory. */
typedef struct covretin_descriptor {
    uint64_t addr;
    uint32_t len;
    uint16_t third;  /* of a split queue the flags, of a packed one the id */
    uint16_t fourth; /* of a split queue the next descriptor, of a packed one the flags */
} covretin_descriptor;

/* A part of a request. */
typedef struct covretin_segment {
    covretin_range range;
    uint64_t guest_addr; /* where the guest has it */
    bool writable;       /* whether the device writes it; else it only reads it */
} covretin_segment;

/* Where a chain goes on. */
typedef struct covretin_table {
    covretin_range range; /* of the table that it is in, 16 bytes a descriptor */
    uint16_t next;        /* which of these is to be read next */
    bool goes_on;         /* false: the chain is at its end, and nothing is to be read */
} covretin_table;

/* How far a chain was followed. */
typedef struct covretin_walked {
    size_t taken;         /* the descriptors that are behind it, of those that were given */
    size_t count;         /* its segments */
    covretin_table table; /* where it goes on */
} covretin_walked;

/* What is to be written once a chain was used: the first elem.len bytes of elem_value, little-endian, and then, by a releasing
 * write, then_value as two bytes. */
typedef struct covretin_used {
    covretin_range elem;
    uint64_t elem_value;
    covretin_range then;
    uint16_t then_value;
} covretin_used;

/* What is to be written so that the driver notifies or does not: the first place.len bytes of a value, little-endian. 0: none. */
typedef struct covretin_event_write {
    covretin_range place;
    uint32_t value;
} covretin_event_write;

/* Bytes that are to be written in a queue's area of the inflight region: the first len bytes of a value, least first. */
typedef struct covretin_inflight_write {
    uint64_t offset;
    uint64_t len;
    uint64_t value;
} covretin_inflight_write;

/* The state of a head as the inflight region says it. */
typedef struct covretin_inflight_entry {
    bool inflight;
    uint16_t next;
    uint64_t counter;
} covretin_inflight_entry;

/* A state of a packed queue's area of the inflight region: where its free list begins, and the place that is used next. */
typedef struct covretin_packed_inflight_head {
    uint16_t free_head;
    uint16_t used_idx;
    bool used_wrap_counter;
} covretin_packed_inflight_head;

/* A head that is to be taken again. */
typedef struct covretin_resubmit {
    uint64_t counter;
    uint16_t head;
} covretin_resubmit;

/* A bit of the dirty log. */
typedef struct covretin_log_bit {
    uint64_t byte;
    uint8_t mask;
} covretin_log_bit;

/* -- Queues -------------------------------------------------------------------------------------------------------- */

/* Opens a queue, which sees no memory and has no rings. QUEUE_OPEN; OUT_OF_MEMORY. */
enum covretin_queue_error covretin_queue_open(covretin_queue *queue);

/* Frees what the queue held; it is {0} again. One that is not open stays so. All other calls with a queue may return NO_QUEUE. */
void covretin_queue_close(covretin_queue *queue);

/* -- Memory -------------------------------------------------------------------------------------------------------- */

/* The queue sees these regions, in the place of those that it had; one more; one less, by its addresses and its size. Rings stay
 * where they are mapped until they are started again or moved. INVALID_REGION, REGION_OVERLAP, TOO_MANY_REGIONS, OUT_OF_MEMORY;
 * NO_SUCH_REGION. */
enum covretin_queue_error covretin_queue_set_regions(covretin_queue *queue, const covretin_guest_region *regions,
                                                     size_t regions_len);
enum covretin_queue_error covretin_queue_add_region(covretin_queue *queue, const covretin_guest_region *region);
enum covretin_queue_error covretin_queue_remove_region(covretin_queue *queue, uint64_t guest_addr, uint64_t size,
                                                       uint64_t user_addr);

/* Where a range is mapped, one byte at least: of the frontend's addresses, or else of the guest's. NOT_IN_GUEST. */
enum covretin_queue_error covretin_queue_translate(covretin_queue *queue, bool user, uint64_t addr, uint64_t len,
                                                   covretin_range *range);

/* -- Rings --------------------------------------------------------------------------------------------------------- */

/* The queue has these rings from now on, and begins there; whatever it had is gone. INVALID_SIZE, NOT_IN_GUEST, UNALIGNED,
 * INVALID_BASE, OUT_OF_MEMORY: it has those that it had. */
enum covretin_queue_error covretin_queue_start_split(covretin_queue *queue, const covretin_split_ring *ring);
enum covretin_queue_error covretin_queue_start_packed(covretin_queue *queue, const covretin_packed_ring *ring);

/* The rings of a split or of a packed queue lie elsewhere for the frontend, or are mapped elsewhere, since regions are. What the device has
 * stays the device's; the chain that is followed is none any more: what is available in a packed queue is to be read again. NOT_IN_GUEST,
 * UNALIGNED, NOT_STARTED, OTHER_LAYOUT. */
enum covretin_queue_error covretin_queue_move_split(covretin_queue *queue, uint64_t desc_table, uint64_t avail_ring,
                                                    uint64_t used_ring);
enum covretin_queue_error covretin_queue_move_packed(covretin_queue *queue, uint64_t desc_ring, uint64_t driver_event,
                                                     uint64_t device_event);

/* The queue has no rings any more. */
enum covretin_queue_error covretin_queue_stop(covretin_queue *queue);

/* The base of the ring, for whoever goes on with it: what GET_VRING_BASE replies. NOT_STARTED. */
enum covretin_queue_error covretin_queue_base(covretin_queue *queue, uint32_t *base);

/* Whether the driver broke a rule. Then nothing more is taken from the queue, and what the device has may still be used. */
enum covretin_queue_error covretin_queue_needs_reset(covretin_queue *queue, bool *needs_reset);

/* -- What is to be read, and what was --------------------------------------------------------------------------------
 * All may return NOT_STARTED. */

/* Where what is available is to be read, two bytes: the index of a split queue's available ring, or the flags of a packed queue's
 * next place; and that it was read as this: how many chains are available. TOO_MANY_AVAILABLE, NEEDS_RESET. */
enum covretin_queue_error covretin_queue_available_place(covretin_queue *queue, covretin_range *place);
enum covretin_queue_error covretin_queue_available(covretin_queue *queue, uint16_t value, uint16_t *count);

/* The next entry of a split queue's available ring, two bytes; and that it was read as this: the chain of this head is the
 * device's, and is followed. NOTHING_AVAILABLE, OTHER_LAYOUT; NOT_IN_TABLE, HEAD_IN_USE, NEEDS_RESET. */
enum covretin_queue_error covretin_queue_head_place(covretin_queue *queue, covretin_range *place);
enum covretin_queue_error covretin_queue_pop(covretin_queue *queue, uint16_t head);

/* The same entry of a split queue's available ring, and those behind it, two bytes each: `most` at most, up to the last one that is available and up
 * to the end of the ring. So one call says where the heads of many chains are read, which are then taken in this order; those at the ring's
 * start are told by the next call. NOTHING_AVAILABLE, OTHER_LAYOUT. */
enum covretin_queue_error covretin_queue_heads_place(covretin_queue *queue, size_t most, covretin_range *place);

/* A split queue's head was the device's before a crash, and its chain is followed again. Errors are those of covretin_queue_pop. */
enum covretin_queue_error covretin_queue_resubmit(covretin_queue *queue, uint16_t head);

/* The last entry of a split queue's available ring that was read is to be read again, and this head, which it had, is not the device's; the
 * chain that is followed is none. So what was taken last is given back first. And a head is the device's, whose chain was taken before the queue
 * was started, and is not followed: it can be used. NOT_HANDED_OUT, TOO_MANY_AVAILABLE; NOT_IN_TABLE, HEAD_IN_USE; OTHER_LAYOUT: nothing
 * changed. */
enum covretin_queue_error covretin_queue_give_back(covretin_queue *queue, uint16_t head);
enum covretin_queue_error covretin_queue_adopt(covretin_queue *queue, uint16_t head);

/* A chain was a packed queue's before a crash, and is followed again: until it has left the ring, its descriptors are those that the inflight
 * region has, and none is read at its place. OTHER_LAYOUT, NEEDS_RESET. */
enum covretin_queue_error covretin_queue_resubmit_packed(covretin_queue *queue);

/* The descriptor that is to be read next, 16 bytes, if the chain that is followed goes on; and that it was read as this: a
 * segment, or none where it names an indirect table, in which the chain goes on. The segment has the descriptor's first bytes, where these
 * lie in regions that adjoin. Then the place has no bytes, and the next step is the rest's, whatever it is given. A chain has at most as
 * many segments as it may have descriptors, and 508. CHAIN_ENDED, NEEDS_RESET; NOT_IN_GUEST to HEAD_IN_USE. */
enum covretin_queue_error covretin_queue_descriptor_place(covretin_queue *queue, covretin_range *place, bool *found);
enum covretin_queue_error covretin_queue_step(covretin_queue *queue, const covretin_descriptor *descriptor, covretin_segment *segment,
                                              bool *found);

/* Where the chain that is followed goes on; and that the descriptors from there on were read as these, one behind the other: what as many steps
 * would answer, by one call. They are not all taken where the segments fill their places before: the chain goes on with the rest of them then.
 * A refusal is the step's of the first descriptor that is refused; those before it were taken. */
enum covretin_queue_error covretin_queue_table(covretin_queue *queue, covretin_table *table);
enum covretin_queue_error covretin_queue_walk(covretin_queue *queue, const covretin_descriptor *copies, size_t copies_len,
                                              covretin_segment *segments, size_t segments_len, covretin_walked *walked);

/* The next chain is taken, and its first descriptors were read as these: what covretin_queue_pop and then covretin_queue_walk would answer, by one
 * call. The value is the next entry of a split queue's available ring. Of a packed queue it is the flags that covretin_queue_available takes, and
 * NOTHING_AVAILABLE says that no chain is there; nothing changed then. The first copy is of a split queue's descriptor `value`, or of the place
 * that the flags are of. A refusal leaves what that of the one call or of the other leaves: where a descriptor is refused, the chain was taken, and
 * its head is the device's; otherwise no chain was taken. Errors are theirs, but for OTHER_LAYOUT. */
enum covretin_queue_error covretin_queue_take(covretin_queue *queue, uint16_t value, const covretin_descriptor *copies, size_t copies_len,
                                              covretin_segment *segments, size_t segments_len, covretin_walked *walked);

/* The device is done with the chain of this head, or of this id, and wrote so many bytes: what is to be written. In any order of
 * chains, and from a queue that needs a reset, too. NOT_HANDED_OUT. */
enum covretin_queue_error covretin_queue_add_used(covretin_queue *queue, uint16_t id, uint32_t len, covretin_used *used);

/* The same of many chains, in this order, as if by a call for each: the n-th has the n-th id and length, and what is to be written for it is the n-th
 * of `used`. All is written in this order; of a split queue the `then` of the last is enough, since each has the same place. *done is how many were
 * given back, and is written after an error, too: the chains before the refused one were given back, `used` tells what is to be written for them,
 * and the refused one changed nothing. Beyond *done nothing of `used` is to be looked at. NOT_HANDED_OUT. NO_ROOM: there are fewer lengths, or
 * fewer places in `used`, than ids, and no chain was given back. Where there are no ids, nothing is done, and only NO_QUEUE is an error. */
enum covretin_queue_error covretin_queue_add_used_many(covretin_queue *queue, const uint16_t *ids, size_t ids_len, const uint32_t *lens,
                                                       size_t lens_len, covretin_used *used, size_t used_len, size_t *done);

/* When the driver wants a notification: two bytes, or four of a packed queue; and that they were read as this, the last two of four as
 * flags: whether the driver is to be notified of what was used since this was last asked. Ask at least once a ring: by then the index comes
 * round, and virtio's rule says no. */
enum covretin_queue_error covretin_queue_notification_place(covretin_queue *queue, covretin_range *place);
enum covretin_queue_error covretin_queue_needs_notification(covretin_queue *queue, uint16_t value, uint16_t flags, bool *needed);

/* What is to be written so that the driver notifies, or does not, of what it makes available from now on. After it was asked to
 * notify, what is available is to be read again, behind a full barrier. */
enum covretin_queue_error covretin_queue_set_notification(covretin_queue *queue, bool enable, covretin_event_write *write);

/* -- The inflight region of a split queue ----------------------------------------------------------------------------
 * A queue's area has 16 bytes, and 16 for each descriptor. Each of these writes twice, in this order: once a head was taken and
 * before it is served, with a counter that goes on by one each time; before the used ring's index has it, with the head that
 * was used before; and after that index, which is given, was written. */
void covretin_inflight_take(uint16_t head, uint64_t counter, covretin_inflight_write *first, covretin_inflight_write *second);
void covretin_inflight_before_used(uint16_t head, uint16_t last, covretin_inflight_write *first, covretin_inflight_write *second);
void covretin_inflight_after_used(uint16_t head, uint16_t idx, covretin_inflight_write *first, covretin_inflight_write *second);

/* What a crash left, by the entries of a queue, by last_batch_head and used_idx of its area, and by the index of its used ring: of
 * which heads the entry is to be cleared, since they were used (settled_len is entries_len), and which *count heads are to be taken
 * again, in order. INVALID_INFLIGHT, NO_ROOM, OUT_OF_MEMORY: nothing is written. */
enum covretin_queue_error covretin_inflight_recover(const covretin_inflight_entry *entries, size_t entries_len,
                                                    uint16_t last_batch_head, uint16_t used_idx, uint16_t ring_idx, bool *settled,
                                                    size_t settled_len, covretin_resubmit *again, size_t again_len, size_t *count);

/* -- The inflight region of a packed queue ----------------------------------------------------------------------------
 * A queue's area has 32 bytes, and 32 for each descriptor: an entry. Each write is at a multiple of its length, and is one access.
 *
 * A new area has the entries linked, each with the next; all are free, from 0 on. A request takes as many as it has descriptors in the
 * ring, from free_head on by their links: each keeps a descriptor as it is read; and once all are, four writes, in this order, with a
 * counter that goes on by one each time, and the free list behind them. */
void covretin_inflight_keep_packed(uint16_t index, const covretin_descriptor *descriptor, covretin_inflight_write *first,
                                   covretin_inflight_write *second);
void covretin_inflight_take_packed(uint16_t head, uint16_t last, uint16_t num, uint64_t counter, uint16_t free_head,
                                   covretin_inflight_write writes[4]);

/* Three writes, in this order: before the flags of what was used are written, where the place that is used next went from old_used to used
 * (the upper 16 bits of the base), and the free list begins at free_head; and after they were. The list begins at head then. */
void covretin_inflight_before_used_packed(uint16_t head, uint16_t last, uint16_t free_head, uint16_t used, uint16_t old_used,
                                          covretin_inflight_write writes[3]);
void covretin_inflight_after_used_packed(uint16_t head, uint16_t used, covretin_inflight_write writes[3]);

/* What a crash left, by the entries of a queue, the state of its area now and the old one, and the flags of the ring's descriptor at
 * old->used_idx: which state holds, which entries are free and are to be cleared (free_len is entries_len), and which *count requests are to
 * be taken again, in order, by their first entry. The queue goes on at used_idx in both respects: what is taken again advances it.
 * INVALID_INFLIGHT, NO_ROOM, OUT_OF_MEMORY: nothing is written. */
enum covretin_queue_error covretin_inflight_recover_packed(const covretin_inflight_entry *entries, size_t entries_len,
                                                           const covretin_packed_inflight_head *now,
                                                           const covretin_packed_inflight_head *old, uint16_t flags,
                                                           covretin_packed_inflight_head *head, bool *free, size_t free_len,
                                                           covretin_resubmit *again, size_t again_len, size_t *count);

/* -- The dirty log ---------------------------------------------------------------------------------------------------
 * The pages of a range of guest addresses that a log of so many bytes has bits for, from *first up to *end, which is none of them.
 * Where *first is not below *end there are none. NOT_IN_GUEST: the range ends beyond 64 bits, and nothing is
 * written. And the bit of a page, which is set by an atomic or. */
enum covretin_queue_error covretin_log_pages(uint64_t addr, uint64_t len, uint64_t log_size, uint64_t *first, uint64_t *end);
void covretin_log_bit_of(uint64_t page, covretin_log_bit *bit);

/* STACK, in bytes at most, with what the proved code calls but memory and copies. Written by scripts/check.py --write headers:
 *   1,024: inflight_recover (for each level of a sort), inflight_recover_packed (for each level of a sort)
 *   512: all others */

#ifdef __cplusplus
}
#endif

#endif
