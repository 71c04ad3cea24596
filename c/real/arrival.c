/* SPDX-License-Identifier: Apache-2.0 */
#include "arrival.h"

#include "vmm.h"

#include <errno.h>
#include <linux/userfaultfd.h>
#include <poll.h>
#include <stdio.h>
#include <stdlib.h>
#include <string.h>
#include <sys/eventfd.h>
#include <sys/ioctl.h>
#include <time.h>
#include <unistd.h>

enum { SET_MEM_TABLE = 5 }; /* the request that brings the memory, for its acknowledgement */

static void give_up(const char *what)
{
    perror(what);
    exit(1);
}

/* Copies a page to where the backend has it, and wakes who waits for it. One that is there already stays. Whether it was not. */
static bool copy_page(const struct arrival *arrival, size_t offset)
{
    struct uffdio_copy copy = {.dst = arrival->base + offset, .src = (uint64_t)(uintptr_t)(arrival->source + offset), .len = PAGE};
    while (ioctl(arrival->userfault, UFFDIO_COPY, &copy) != 0) {
        if (errno == EEXIST)
            return false;
        if (errno != EAGAIN)
            give_up("UFFDIO_COPY");
    }
    return true;
}

/* Serves a page fault, if one is there. */
static void serve_fault(struct arrival *arrival)
{
    struct uffd_msg fault;
    if (read(arrival->userfault, &fault, sizeof fault) != sizeof fault)
        return;
    if (fault.event != UFFD_EVENT_PAGEFAULT || fault.arg.pagefault.address - arrival->base >= arrival->size) {
        fprintf(stderr, "no page fault of this memory: event %u\n", (unsigned)fault.event);
        exit(1);
    }
    if (copy_page(arrival, (size_t)(fault.arg.pagefault.address - arrival->base) / PAGE * PAGE))
        arrival->waited++;
}

static void *serve_faults(void *argument)
{
    struct arrival *arrival = argument;
    struct pollfd polled[2] = {{.fd = arrival->userfault, .events = POLLIN}, {.fd = arrival->stop, .events = POLLIN}};
    while (polled[1].revents == 0) {
        if (poll(polled, 2, -1) < 0 && errno != EINTR)
            give_up("poll");
        if (polled[0].revents & POLLIN)
            serve_fault(arrival);
    }
    return NULL;
}

struct arrival make_arrival(size_t size)
{
    struct arrival arrival = {.source = aligned_alloc(PAGE, size), .size = size};
    if (arrival.source == NULL)
        give_up("aligned_alloc");
    memset(arrival.source, 0, size);
    return arrival;
}

void free_arrival(struct arrival *arrival)
{
    free(arrival->source);
}

/* The backend gives its userfaultfd, and listens. */
static void listen_for_faults(struct arrival *arrival)
{
    int32_t fd = -1;
    done("postcopy_advise", covretin_ask_postcopy_advise(SESSION));
    check(covretin_claim_fd(&device, &fd) == COVRETIN_OK, "there is a userfaultfd");
    arrival->userfault = fd;
    done("postcopy_listen", covretin_ask_postcopy_listen(SESSION));
}

/* Gives the memory. The backend says where it has mapped it, and waits for its pages once that was acknowledged. */
static void give_arriving(struct arrival *arrival, const struct memory *memory)
{
    size_t count = 0;
    give_memory(memory);
    enum covretin_error error = covretin_answer_bases(SESSION, &arrival->base, 1, &count);
    check(error == COVRETIN_OK && count == 1, "the backend says where it has the memory");
    printf("  mapped at %#llx\n", (unsigned long long)arrival->base);
    done("postcopy_ack_mem_regions", covretin_ask_postcopy_ack_mem_regions(SESSION, SET_MEM_TABLE));
}

void start_arrival(struct arrival *arrival, const struct memory *memory)
{
    listen_for_faults(arrival);
    give_arriving(arrival, memory);
    arrival->stop = eventfd(0, EFD_CLOEXEC);
    atomic_init(&arrival->waited, 0);
    if (arrival->stop < 0 || pthread_create(&arrival->thread, NULL, serve_faults, arrival))
        give_up("arrival");
}

void await_faults(struct arrival *arrival, unsigned pages)
{
    const struct timespec pause = {.tv_nsec = 1000000};
    while (arrival->waited < pages)
        nanosleep(&pause, NULL);
}

void end_arrival(struct arrival *arrival)
{
    for (size_t offset = 0; offset < arrival->size; offset += PAGE)
        copy_page(arrival, offset);
    if (eventfd_write(arrival->stop, 1) || pthread_join(arrival->thread, NULL))
        give_up("arrival");
    close(arrival->stop);
    close(arrival->userfault);
    done("postcopy_end", covretin_ask_postcopy_end(SESSION));
}
