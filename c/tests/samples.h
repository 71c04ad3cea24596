/* SPDX-License-Identifier: Apache-2.0 */
/* Arguments for each form of what a call of requests.def takes, behind the session: so a request of a known form needs no line of its own in a
 * test that goes through all. Whoever includes this has defined SAMPLE_FD, a descriptor, and SAMPLE_FEATURES, protocol features. */
#ifndef SAMPLES_H
#define SAMPLES_H

#include "covretin.h"

enum { SAMPLE_NUMBER = 0x40000001, SAMPLE_SHORT = 1500, SAMPLE_INDEX = 1, SAMPLE_OF_RING = 256 };
static const uint8_t sample_bytes[16] = "0123456789abcdef";
#define SAMPLE_REGION {.guest_phys_addr = 0x100000, .memory_size = 0x2000, .user_addr = 0x7f0000000000, .mmap_offset = 0x3000, .fd = SAMPLE_FD}
#define SAMPLE_AREA (covretin_inflight){.mmap_size = 0x1000, .num_queues = 1, .queue_size = 64}
#define SAMPLE_VRING (covretin_vring){.desc_table_addr = 0x1000, .used_ring_addr = 0x2000, .avail_ring_addr = 0x3000}

/* PLAIN_form(what): `what`, where a request of this form is asked and seen as each other of it, whatever it is for; else nothing. */
#define PLAIN_NOTHING(...) __VA_ARGS__
#define PLAIN_NUMBER(...) __VA_ARGS__
#define PLAIN_PROTOCOL(...) __VA_ARGS__
#define PLAIN_SHORT(...) __VA_ARGS__
#define PLAIN_RING_NUMBER(...) __VA_ARGS__
#define PLAIN_RING_FLAG(...) __VA_ARGS__
#define PLAIN_RING_FD(...) __VA_ARGS__
#define PLAIN_VRING(...)
#define PLAIN_REGIONS(...)
#define PLAIN_REGION(...)
#define PLAIN_FD(...)
#define PLAIN_BYTES(...)
#define PLAIN_AREA_FD(...)

#define TAKES_NOTHING
#define TAKES_NUMBER , SAMPLE_NUMBER
#define TAKES_PROTOCOL , SAMPLE_FEATURES
#define TAKES_SHORT , SAMPLE_SHORT
#define TAKES_FD , SAMPLE_FD
#define TAKES_RING , SAMPLE_INDEX
#define TAKES_RING_NUMBER , SAMPLE_INDEX, SAMPLE_OF_RING
#define TAKES_RING_FLAG , SAMPLE_INDEX, true
#define TAKES_RING_FD , SAMPLE_INDEX, SAMPLE_FD
#define TAKES_VRING , SAMPLE_INDEX, &SAMPLE_VRING
#define TAKES_REGIONS , (covretin_region[]){SAMPLE_REGION}, 1
#define TAKES_REGION , &(covretin_region)SAMPLE_REGION
#define TAKES_LOG , 0x4000, &(covretin_region)SAMPLE_REGION
#define TAKES_CONFIG , 0, sizeof sample_bytes, 0
#define TAKES_BYTES , 0, 0, sample_bytes, sizeof sample_bytes
#define TAKES_AREA , &SAMPLE_AREA
#define TAKES_AREA_FD , &SAMPLE_AREA, SAMPLE_FD
#define TAKES_NAME , sample_bytes, sizeof sample_bytes
#define TAKES_TRANSFER , 0, 0, SAMPLE_FD

#endif
