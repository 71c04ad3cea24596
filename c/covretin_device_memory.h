/* SPDX-License-Identifier: Apache-2.0 */
/* Of covretin_device.h: what a frontend gives to be mapped, and memory that it takes away while it is used. Private: no program
 * includes this.
 *
 * A mapping is counted by the spaces that it is in, and a space, the regions of a session at a time, by whoever uses it: so a request that
 * is under way keeps what it points to, whatever regions come and go. The counts are the caller's lock's. */
#ifndef COVRETIN_DEVICE_MEMORY_H
#define COVRETIN_DEVICE_MEMORY_H

#include "covretin_backend.h"
#include "covretin_queue.h"

#include <pthread.h>
#include <stdatomic.h>
#include <sys/types.h>

/* Whose mappings they are: that one of them is lost, and an eventfd that says so. */
struct holder {
    atomic_bool has_lost;
    int wake;
    struct share *share;
};

/* How many mappings a holder has, also those of requests that are under way, and those that are still to be unmapped: each session has a
 * part of what the system allows. NULL: there was no memory for it. And the holder has no more of them; NULL is none. */
struct share *share_new(void);
void share_release(struct share *share);

/* The guard's place of a mapping. */
struct guarded;

/* A part of a file that is mapped here. */
struct mapping {
    size_t users;
    void *all; /* in whole pages of the file */
    size_t all_size;
    uint8_t *at; /* the part */
    uint64_t size, guest, user; /* of a region, where the guest has it, and the frontend */
    uint64_t offset;            /* where it begins in its file, which is this: */
    dev_t device;
    ino_t file;
    unsigned again;             /* how often its region was given once more, and not taken back */
    bool is_watched;            /* its page faults go to the frontend */
    struct guarded *guarded;
    struct share *share;
    struct mapping *next; /* that is to be unmapped */
};

/* Maps so many bytes of a memory file, which has to have them, and guards them. NULL: it could not, or the holder has its share. The
 * descriptor is needed no longer. */
struct mapping *mapping_new(struct holder *holder, int fd, uint64_t offset, uint64_t size);

/* Whether it is of this part of this file. */
bool mapping_is_of(const struct mapping *mapping, int fd, uint64_t offset, uint64_t size);

/* One that uses it does no longer. NULL is none. What takes long to unmap is unmapped by a thread: where pages were touched the system
 * looks at each. */
void mapping_release(struct mapping *mapping);

/* Writes an eventfd of this process's own, which never waits. From a signal handler, too. */
void wake_up(int eventfd);

/* This thread is about to touch what is mapped: from then on it blocks SIGBUS no more, by which the system would end the process. */
void take_faults(void);

/* Whether this thread does not block that, and nobody has put another handler in the place of this part's. */
bool are_faults_taken(void);

/* The regions of a session. NULL: there are none. */
struct space {
    size_t users, count;
    struct mapping *mappings[];
};

/* What was there, without the mapping of an index, if it has that, and with these more, of which it is the user then. NULL: an allocation
 * failed. */
struct space *space_new(const struct space *before, size_t without, struct mapping *const *added, size_t count);
void space_release(struct space *space);

/* The same of so many that use it. */
void space_release_many(struct space *space, size_t count);

/* -- Postcopy -- */

/* Memory that arrives page by page. A thread looks whether any page can still come: whoever waits for one sees nothing else. */
struct arrival {
    struct holder *holder;
    int userfault;            /* -1: none */
    int over;                 /* an eventfd */
    int frontend, stop, signals; /* once one of these is ready all is lost; -1: none */
    pthread_t watcher;
};

/* Begins; watches all regions of a space; ends that. Whether it could. */
bool arrival_begin(struct arrival *arrival);
bool arrival_watch(const struct arrival *arrival, const struct space *space);
bool arrival_end(struct arrival *arrival, const struct space *space);

/* The session ends: where pages were to arrive all is lost, before arrival_end would let whoever waits for one go on with zeros. */
void arrival_lose(const struct arrival *arrival);

#endif
