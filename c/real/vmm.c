/* SPDX-License-Identifier: Apache-2.0 */
#include "vmm.h"

#include <dirent.h>
#include <errno.h>
#include <inttypes.h>
#include <signal.h>
#include <stdio.h>
#include <stdlib.h>
#include <string.h>
#include <time.h>
#include <unistd.h>

covretin_connection device;

void check(bool holds, const char *what)
{
    if (holds)
        return;
    printf("not so: %s\n", what);
    exit(1);
}

static const char *volatile awaited = "the backend";

void await(const char *what)
{
    awaited = what;
}

static void say_awaited(int signal)
{
    static const char words[] = "not so in time: ";
    (void)signal;
    if (write(STDOUT_FILENO, words, sizeof words - 1) > 0 && write(STDOUT_FILENO, awaited, strlen(awaited)) > 0)
        (void)!write(STDOUT_FILENO, "\n", 1);
    _exit(1);
}

static void stop(const char *name, enum covretin_error error)
{
    printf("%s: %s (%s)\n", name, covretin_error_text(error), strerror(errno));
    exit(1);
}

size_t descriptor_count(void)
{
    DIR *folder = opendir("/proc/self/fd");
    size_t count = 0;
    check(folder != NULL, "the open descriptors can be counted");
    while (readdir(folder) != NULL)
        count++;
    closedir(folder);
    return count;
}

void connect_to(const char *path)
{
    const struct timespec pause = {.tv_nsec = 20000000};
    enum covretin_error error;
    signal(SIGTERM, say_awaited);
    await("connect");
    while ((error = covretin_connect(&device, path, MOST_RINGS, LIMIT)) == COVRETIN_SOCKET_CONNECT)
        nanosleep(&pause, NULL);
    if (error)
        stop(path, error);
}

enum covretin_error outcome(const char *name, enum covretin_error error)
{
    errno = 0;
    await(name);
    if (error == COVRETIN_OK)
        error = covretin_exchange(&device, LIMIT);
    printf("%s: %s\n", name, error == COVRETIN_OK ? "done" : covretin_error_text(error));
    fflush(stdout);
    return error;
}

void done(const char *name, enum covretin_error error)
{
    error = outcome(name, error);
    if (error)
        stop(name, error);
}

uint64_t number(const char *name, enum covretin_error error)
{
    uint64_t value = 0;
    done(name, error);
    error = covretin_answer_number(SESSION, &value);
    if (error)
        stop(name, error);
    printf("  %#" PRIx64 "\n", value);
    return value;
}

void negotiate(uint64_t features, uint64_t unoffered)
{
    uint64_t offered = number("get_features", covretin_ask_get_features(SESSION));
    uint64_t protocol = number("get_protocol_features", covretin_ask_get_protocol_features(SESSION));
    protocol = (protocol & COVRETIN_ASKED_PROTOCOL_FEATURES) | unoffered;
    done("set_protocol_features", covretin_ask_set_protocol_features(SESSION, protocol));
    if (protocol & COVRETIN_PROTOCOL_REPLY_ACK)
        check(covretin_set_hdr_flags(SESSION, COVRETIN_NEED_REPLY) == COVRETIN_OK, "the header flags are set");
    done("set_owner", covretin_ask_set_owner(SESSION));
    features |= FEATURE_VERSION_1 | COVRETIN_FEATURE_PROTOCOL_FEATURES;
    check((features & ~offered) == 0, "the features that are wanted are offered");
    done("set_features", covretin_ask_set_features(SESSION, features));
}

covretin_region region_of(const struct memory *memory)
{
    return (covretin_region){.guest_phys_addr = memory->guest,
                             .memory_size = memory->size,
                             .user_addr = (uint64_t)(uintptr_t)memory->at,
                             .fd = memory->fd};
}

void give_memory(const struct memory *memory)
{
    covretin_region region = region_of(memory);
    done("set_mem_table", covretin_ask_set_mem_table(SESSION, &region, 1));
}

void start_ring(const struct virtqueue *queue, uint64_t log)
{
    size_t index = queue->index;
    covretin_vring ring = {.queue_max_size = QUEUE_SIZE,
                           .queue_size = QUEUE_SIZE,
                           .flags = log != 0,
                           .desc_table_addr = (uint64_t)(uintptr_t)queue->descriptors,
                           .used_ring_addr = (uint64_t)(uintptr_t)queue->used,
                           .avail_ring_addr = (uint64_t)(uintptr_t)queue->available,
                           .log_addr = log,
                           .has_log_addr = log != 0};
    done("set_vring_num", covretin_ask_set_vring_num(SESSION, index, QUEUE_SIZE));
    done("set_vring_base", covretin_ask_set_vring_base(SESSION, index, queue->taken));
    done("set_vring_addr", covretin_ask_set_vring_addr(SESSION, index, &ring));
    done("set_vring_call", covretin_ask_set_vring_call(SESSION, index, queue->call));
    done("set_vring_kick", covretin_ask_set_vring_kick(SESSION, index, queue->kick));
    done("set_vring_enable", covretin_ask_set_vring_enable(SESSION, index, true));
}

void take(struct virtqueue *queue, struct used_element *used, const char *what)
{
    await(what);
    check(take_used(queue, LIMIT, used), what);
}

void stop_ring(const struct virtqueue *queue)
{
    uint64_t base = number("get_vring_base", covretin_ask_get_vring_base(SESSION, queue->index));
    check(base == queue->posted, "the ring stopped where its driver is");
}
