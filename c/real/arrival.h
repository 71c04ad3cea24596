/* SPDX-License-Identifier: Apache-2.0 */
/* Postcopy: guest memory that arrives page by page. A thread of its own waits for the page faults of the backend, over the
 * userfaultfd that this one gave, and copies each page there from the memory of the machine that the guest left. */
#ifndef ARRIVAL_H
#define ARRIVAL_H

#include "virtqueue.h"

#include <pthread.h>
#include <stdatomic.h>
#include <stddef.h>
#include <stdint.h>

struct arrival {
    uint8_t *source; /* the memory as it was where it was left; to be written before */
    size_t size;
    int userfault; /* from the backend */
    uint64_t base; /* where the backend has mapped the memory */
    int stop;      /* an eventfd */
    pthread_t thread;
    atomic_uint waited; /* pages that the backend waited for */
};

/* A source of so many bytes, zeros. Here and below the program ends where the system or a call fails. */
struct arrival make_arrival(size_t size);
void free_arrival(struct arrival *arrival);

/* Lets the backend listen for page faults, gives it a memory none of whose pages has arrived, and starts the thread. Who reads
 * such a page before it arrived would make it one of zeros. */
void start_arrival(struct arrival *arrival, const struct memory *memory);

/* Waits until the backend has waited for so many pages. */
void await_faults(struct arrival *arrival, unsigned pages);

/* Lets the pages arrive that are still missing, ends the thread, and postcopy. */
void end_arrival(struct arrival *arrival);

#endif
