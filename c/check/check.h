/* SPDX-License-Identifier: Apache-2.0 */
/* What the checks of C by a bounded model checker share: any value, what has to be reached, and what is noted beside the program: which
 * descriptors are open, which locks are held, and whether a call may wait. scripts/trust/check_c.py runs them. */
#ifndef COVRETIN_CHECK_H
#define COVRETIN_CHECK_H

#include <errno.h>
#include <stdbool.h>
#include <stddef.h>
#include <stdint.h>
#include <stdlib.h>
#include <string.h>
#include <time.h>

bool any_bool(void);
int any_int(void);
size_t any_size(void);
uint16_t any_u16(void);
uint32_t any_u32(void);
uint64_t any_u64(void);
void any_bytes(uint8_t *bytes, size_t count); /* of a message, at most (one by one: a part of any length of an object is all of it to the model checker) */

/* Holds whatever the peers do. */
#define HOLDS(what, says) __CPROVER_assert(what, says)

/* No peer can make it otherwise: what is allowed of the environment or of a bound. */
#define GIVEN(what) __CPROVER_assume(what)

/* This place is reached: the check fails where it is not. So no harness passes because its assumptions exclude all. */
#define REACHED(where) __CPROVER_assert(0, "reached: " where)

/* -- Descriptors, by the kernel's numbers: none is given twice, so that whoever closes one a second time is found -- */

int fd_new(void); /* a descriptor that is open */
int fd_new_if(bool is_open); /* the next number; it may be of none, so that the numbers behind are the same in either case */
bool fd_is_open(int fd);
void fd_gone(int fd);            /* it is closed, or somebody else's from now on; it was open */
void fds_are_closed(int beside); /* all are, but this one; -1: all */

/* -- Locks, and calls that may wait -- */

extern int locks_held;
extern bool may_wait; /* the call says that it may wait */
extern void *thread_given;
extern time_t clock_end; /* how many seconds a clock has run at most */

/* -- What is mapped: one mapping at a time, of bytes that may be touched -- */

extern void *mapped_at;
extern size_t mapped_size, unmapped;
extern uintptr_t put_at; /* within these bytes something else may be mapped; 0: anywhere */
extern size_t put_within;
void nothing_is_held(void);

/* -- What comes beside bytes: two control messages, each of a kind, with so many descriptors; a kind of 0: there is none. The script runs a
 * harness once for each LAYOUT, since a place in memory that may be any costs a model checker too much -- */

struct control_message {
    int kind;
    unsigned count;
};
void lay_out(unsigned number);

#endif
