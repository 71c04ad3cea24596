/* SPDX-License-Identifier: Apache-2.0 */
/* A guest that writes what the input says, mostly what makes some sense: regions, rings, heads, descriptors. */
#ifndef QUEUE_GUEST_H
#define QUEUE_GUEST_H

#include "queue_model.h"

/* A region: one of many small ones that lie side by side, or any, near the i-th. */
covretin_guest_region small_region(size_t i);
covretin_guest_region next_region(size_t i);

/* Where the frontend has the parts of a ring, and how one is started. */
void next_parts(enum layout layout, uint32_t size, uint64_t parts[3]);
void next_start(struct start *start);

/* What the guest wrote: how much is available, a head, a descriptor, and when it is to be told. */
uint16_t next_available(void);
uint16_t next_head(void);
covretin_descriptor next_descriptor(void);
uint32_t next_event(void);

/* The guest writes this to a place just before it is read, and something else just after: whoever reads it once more reads that. What is
 * read. */
uint64_t guest_has(covretin_range place, uint64_t value);
covretin_descriptor guest_has_descriptor(covretin_range place, covretin_descriptor value);

/* The device writes this to a place. */
void device_writes(covretin_range place, uint64_t value);

/* The device reads a segment, or writes it, at both its ends. */
void device_touches(covretin_range range, bool writable);

#endif
