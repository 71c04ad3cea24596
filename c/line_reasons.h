/* SPDX-License-Identifier: Apache-2.0 */
/* Why the call of a line was refused, on standard error, in the words of the devices' log: what covretin-ask and vhost-run share. Output that is
 * due goes out before. */
#ifndef LINE_REASONS_H
#define LINE_REASONS_H

#include <stdbool.h>
#include <stdint.h>

/* The feature of this one bit, of virtio or of the protocol, was not accepted. */
void say_not_accepted(uint64_t line, const char *call, bool is_of_virtio, uint64_t bit);

/* The number is none of a ring of this many; `how` says how to change that, or is empty. */
void say_no_ring(uint64_t line, const char *call, uint64_t ring, uint64_t rings, const char *how);

#endif
