/* SPDX-License-Identifier: Apache-2.0 */
/* What c/covretin_device_rings.c calls: the proved queue, as its contracts have it, over a place of some bytes in the guest's memory, and the system. */
#ifndef COVRETIN_CHECK_ANY_QUEUE_H
#define COVRETIN_CHECK_ANY_QUEUE_H

#define THE_RINGS
#include "any_device.h"

#include <signal.h>
#include <sys/socket.h>

/* -- The guest's memory, which changes at any time: a place of some bytes in it -- */

static uint64_t guest[4];

static void any_range(covretin_range *range, uint64_t len)
{
    guest[0] = any_u64();
    *range = (covretin_range){(uint64_t)(uintptr_t)guest, len};
}

static enum covretin_queue_error any_error(void)
{
    return any_bool() ? COVRETIN_QUEUE_OK : any_bool() ? COVRETIN_QUEUE_NOT_STARTED : COVRETIN_QUEUE_NEEDS_RESET;
}

/* -- The proved part, as its contracts have it -- */

/* Of a packed ring this is a place in its table. */
static covretin_range packed_table;

enum covretin_queue_error covretin_queue_available_place(covretin_queue *queue, covretin_range *place)
{
    (void)queue;
    any_range(place, 2);
    if (packed_table.len != 0) {
        uint16_t at = any_u16();
        GIVEN(at < packed_table.len / 16);
        place->addr = packed_table.addr + 16 * at + 14;
    }
    return any_error();
}

enum covretin_queue_error covretin_queue_available(covretin_queue *queue, uint16_t value, uint16_t *count)
{
    (void)queue, (void)value;
    *count = any_u16();
    return any_error();
}

enum covretin_queue_error covretin_queue_set_notification(covretin_queue *queue, bool enable, covretin_event_write *write)
{
    (void)queue, (void)enable;
    any_range(&write->place, any_bool() ? 4 : any_bool() ? 2 : 0);
    write->value = any_u32();
    return any_error();
}

enum covretin_queue_error covretin_queue_notification_place(covretin_queue *queue, covretin_range *place)
{
    (void)queue;
    any_range(place, any_bool() ? 4 : 2);
    return any_error();
}

enum covretin_queue_error covretin_queue_needs_notification(covretin_queue *queue, uint16_t value, uint16_t flags, bool *needed)
{
    (void)queue, (void)value, (void)flags;
    *needed = any_bool();
    return any_error();
}

/* The pages have bits in the log: all below 8 times its size. */
enum covretin_queue_error covretin_log_pages(uint64_t addr, uint64_t len, uint64_t log_size, uint64_t *first, uint64_t *end)
{
    (void)addr, (void)len;
    if (any_bool())
        return COVRETIN_QUEUE_NOT_IN_GUEST;
    *first = any_u64();
    *end = any_u64();
    GIVEN(*first >= *end || *end <= 8 * log_size);
    GIVEN(*first >= *end || *end - *first <= MOST_PAGES || (*first % 8 == 0 && *end - *first == 8) ||
          (*first % 64 == 0 && *end - *first == 64));
    return COVRETIN_QUEUE_OK;
}

void covretin_log_bit_of(uint64_t page, covretin_log_bit *bit)
{
    *bit = (covretin_log_bit){page / 8, (uint8_t)(1u << page % 8)};
}

/* -- What else it calls -- */

int madvise(void *at, size_t size, int advice)
{
    (void)at, (void)size, (void)advice;
    return any_bool() ? -1 : 0;
}

ssize_t send(int fd, const void *bytes, size_t size, int flags)
{
    HOLDS(fd_is_open(fd) && __CPROVER_r_ok(bytes, size), "send: it is open, and the bytes are there");
    HOLDS(flags & MSG_DONTWAIT && flags & MSG_NOSIGNAL, "send: it does not wait, and no signal ends the program");
    return any_bool() ? -1 : (ssize_t)size;
}

int sigtimedwait(const sigset_t *set, siginfo_t *info, const struct timespec *time)
{
    (void)set, (void)info;
    static int signals;
    HOLDS(time->tv_sec == 0 && time->tv_nsec == 0, "sigtimedwait: it does not wait");
    return signals++ < MOST_AGAIN && any_bool() ? SIGPIPE : -1;
}

void transport_close_given(int fd)
{
    fd_gone(fd);
}

#endif
