/* SPDX-License-Identifier: Apache-2.0 */
/* Negotiates with a backend at a Unix socket, sets it up, and reads back what it set.
 *
 *     frontend PATH         without descriptors, as ./vhost-daemon serves
 *     frontend PATH fds     with them: memory, a ring with one request, the inflight region; of any backend
 *
 * Prints a line for each call. Status 0 where the connection held, 1 after wrong arguments, 2 where something failed. */
#ifndef _GNU_SOURCE
#define _GNU_SOURCE /* for memfd_create */
#endif
#include "covretin_socket.h"

#include <errno.h>
#include <inttypes.h>
#include <poll.h>
#include <stdio.h>
#include <stdlib.h>
#include <string.h>
#include <sys/eventfd.h>
#include <sys/mman.h>
#include <unistd.h>

enum { LIMIT = 60000 }; /* milliseconds for a call */

static covretin_connection device;

static void fail(const char *what)
{
    perror(what);
    exit(2);
}

/* The outcome of a call: of its ask, and where that succeeded, of its exchange. Ends the program where the connection did. */
static enum covretin_error outcome(const char *name, enum covretin_error error)
{
    if (error == COVRETIN_OK)
        error = covretin_exchange(&device, LIMIT);
    switch (error) {
    case COVRETIN_OK: break;
    case COVRETIN_INACTIVE_FEATURE:
    case COVRETIN_INACTIVE_OPERATION:
        printf("%s: %s %#" PRIx64 "\n", name, covretin_error_text(error), covretin_inactive(&device.session));
        break;
    case COVRETIN_INVALID_PARAM:
    case COVRETIN_BACKEND_INTERNAL_ERROR: printf("%s: %s\n", name, covretin_error_text(error)); break;
    default: fprintf(stderr, "%s: %s\n", name, covretin_error_text(error)); exit(2);
    }
    return error;
}

/* Prints how a call ended. Whether it succeeded. */
static bool done(const char *name, enum covretin_error error)
{
    if (outcome(name, error) != COVRETIN_OK)
        return false;
    printf("%s: done\n", name);
    return true;
}

/* The same of a call whose reply is a number. */
static uint64_t number(const char *name, enum covretin_error error)
{
    uint64_t value = 0;
    if (outcome(name, error) == COVRETIN_OK && covretin_answer_number(&device.session, &value) == COVRETIN_OK)
        printf("%s: %#" PRIx64 "\n", name, value);
    return value;
}

/* Accepts what the backend offers and this library asks for, but MTU, so that there is something that it lacks. */
static void negotiate(void)
{
    const uint64_t wanted = COVRETIN_ASKED_PROTOCOL_FEATURES & ~COVRETIN_PROTOCOL_MTU;
    covretin_session *session = &device.session;
    uint64_t features = number("get_features", covretin_ask_get_features(session));
    done("set_owner", covretin_ask_set_owner(session));
    done("set_features", covretin_ask_set_features(session, features));
    uint64_t accepted = wanted & number("get_protocol_features", covretin_ask_get_protocol_features(session));
    done("set_protocol_features", covretin_ask_set_protocol_features(session, accepted));
    if (accepted & COVRETIN_PROTOCOL_REPLY_ACK)
        printf("set_hdr_flags: %d\n", covretin_set_hdr_flags(session, COVRETIN_NEED_REPLY));
    number("get_queue_num", covretin_ask_get_queue_num(session));
}

/* The guest's low memory, as this program has it: a text, a ring, and a buffer of its driver's. */
enum { SIZE = 0x5000, DESCRIPTORS = 0x1000, AVAILABLE = 0x2000, USED = 0x3000, BUFFER = 0x4000, BUFFER_SIZE = 64, RING_SIZE = 128 };
enum { LOW_USER = 0x10000000, HIGH_AT = 0x1000, BASE = 77, TO_BE_WRITTEN = 2 };
static uint8_t *memory;

/* A file of memory that holds this text at a place. A device maps whole pages of it, so a region begins at one. */
static int file_of(const char *text, off_t at, off_t size)
{
    int fd = memfd_create("guest", MFD_CLOEXEC);
    if (fd < 0 || ftruncate(fd, size) || pwrite(fd, text, strlen(text), at) < 0)
        fail("memfd_create");
    return fd;
}

/* Two regions of memory, each a file. They are closed once they were sent. */
static void set_memory(void)
{
    covretin_region regions[2] = {
        {.guest_phys_addr = 0, .memory_size = SIZE, .user_addr = LOW_USER, .fd = file_of("low memory", 0, SIZE)},
        {.guest_phys_addr = 0x100000000, .memory_size = 0x2000, .user_addr = 0x7f0000100000, .mmap_offset = HIGH_AT,
         .fd = file_of("high memory", HIGH_AT, HIGH_AT + 0x2000)},
    };
    uint64_t bases[2];
    size_t count = 99;
    memory = mmap(NULL, SIZE, PROT_READ | PROT_WRITE, MAP_SHARED, regions[0].fd, 0);
    if (memory == MAP_FAILED)
        fail("mmap");
    done("set_mem_table", covretin_ask_set_mem_table(&device.session, regions, 2));
    close(regions[0].fd);
    close(regions[1].fd);
    int error = covretin_answer_bases(&device.session, bases, 2, &count);
    printf("bases: %d, %zu\n", error, count);
}

static uint16_t *word(size_t at)
{
    return (uint16_t *)(void *)(memory + at);
}

/* The driver makes a buffer available, to be written: what a source of entropy fills, and in what a disk says that it is no request. The
 * device is to tell of it (with EVENT_IDX, too: the word behind the ring). */
static void make_available(void)
{
    const uint64_t descriptor[2] = {BUFFER, BUFFER_SIZE | (uint64_t)TO_BE_WRITTEN << 32};
    memcpy(memory + DESCRIPTORS, descriptor, sizeof descriptor);
    *word(AVAILABLE + 4 + 2 * (BASE % RING_SIZE)) = 0;
    *word(AVAILABLE + 4 + 2 * RING_SIZE) = BASE;
    *word(USED + 2) = BASE;
    __atomic_store_n(word(AVAILABLE + 2), BASE + 1, __ATOMIC_RELEASE);
}

/* Kicks the ring, and waits until the device calls. */
static void use_ring(int kick, int call)
{
    struct pollfd called = {.fd = call, .events = POLLIN};
    uint64_t count = 0;
    make_available();
    if (eventfd_write(kick, 1))
        fail("kick");
    if (poll(&called, 1, LIMIT) != 1 || eventfd_read(call, &count))
        fail("call");
    printf("kicked, called: %u used\n", (unsigned)(uint16_t)(__atomic_load_n(word(USED + 2), __ATOMIC_ACQUIRE) - BASE));
}

static void set_ring(bool with_fds)
{
    covretin_session *session = &device.session;
    covretin_vring ring = {.queue_max_size = 256,
                           .queue_size = RING_SIZE,
                           .desc_table_addr = LOW_USER + DESCRIPTORS,
                           .used_ring_addr = LOW_USER + USED,
                           .avail_ring_addr = LOW_USER + AVAILABLE};
    int kick = with_fds ? eventfd(0, EFD_CLOEXEC) : -1, call = with_fds ? eventfd(0, EFD_CLOEXEC) : -1;
    done("set_vring_num", covretin_ask_set_vring_num(session, 0, RING_SIZE));
    done("set_vring_addr", covretin_ask_set_vring_addr(session, 0, &ring));
    done("set_vring_base", covretin_ask_set_vring_base(session, 0, BASE));
    if (with_fds) {
        done("set_vring_call", covretin_ask_set_vring_call(session, 0, call));
        *word(AVAILABLE + 2) = *word(USED + 2) = BASE;
        done("set_vring_kick", covretin_ask_set_vring_kick(session, 0, kick));
    }
    done("set_vring_enable", covretin_ask_set_vring_enable(session, 0, true));
    if (with_fds) {
        use_ring(kick, call);
        close(kick);
        close(call);
    }
    number("get_vring_base", covretin_ask_get_vring_base(session, 0));
}

static void set_config(void)
{
    const uint8_t text[4] = {0xa5, 0xa5, 0xa5, 0xa5};
    covretin_config config;
    uint8_t bytes[8];
    size_t count = 0;
    done("set_config", covretin_ask_set_config(&device.session, 0x100, 0, text, 4));
    if (!done("get_config", covretin_ask_get_config(&device.session, 0x100, 4, 0)))
        return;
    int error = covretin_answer_config(&device.session, &config, bytes, sizeof bytes, &count);
    printf("config: %d, %#x %u,", error, (unsigned)config.offset, (unsigned)config.size);
    for (size_t i = 0; i < count; i++)
        printf(" %02x", bytes[i]);
    printf("\n");
}

/* The backend gives the inflight region, and is given it again. */
static void set_inflight(void)
{
    covretin_inflight asked = {.num_queues = 1, .queue_size = RING_SIZE}, given = {0};
    int32_t fd = -1;
    char text[32] = {0};
    if (!done("get_inflight_fd", covretin_ask_get_inflight_fd(&device.session, &asked)))
        return;
    int error = covretin_answer_inflight(&device.session, &given, &fd);
    if (error == 0)
        error = covretin_claim_fd(&device, &fd);
    if (error == 0 && pread(fd, text, sizeof text - 1, (off_t)given.mmap_offset) < 0)
        fail("pread");
    printf("inflight: %d, %" PRIu64 " bytes, \"%s\"\n", error, given.mmap_size, text);
    if (error != 0)
        return;
    done("set_inflight_fd", covretin_ask_set_inflight_fd(&device.session, &given, fd));
    close(fd);
}

/* What the backend refuses, and what is refused before it is asked. */
static void be_refused(void)
{
    covretin_session *session = &device.session;
    done("set_vring_num of 0", covretin_ask_set_vring_num(session, 0, 0));
    done("set_vring_num of ring 9", covretin_ask_set_vring_num(session, 9, RING_SIZE));
    done("set_mtu", covretin_ask_set_mtu(session, 1500));
    done("set_vring_num again", covretin_ask_set_vring_num(session, 0, RING_SIZE));
}

int main(int argc, char **argv)
{
    bool with_fds = argc == 3 && strcmp(argv[2], "fds") == 0;
    if (argc != 2 && !with_fds) {
        fprintf(stderr, "usage: frontend PATH [fds]\n");
        return 1;
    }
    enum covretin_error error = covretin_connect(&device, argv[1], 2, LIMIT);
    if (error != COVRETIN_OK) {
        bool is_systems = error == COVRETIN_SOCKET_CONNECT || error == COVRETIN_SOCKET_ERROR; /* errno says more */
        fprintf(stderr, "%s: %s%s%s\n", argv[1], covretin_error_text(error), is_systems ? ": " : "", is_systems ? strerror(errno) : "");
        return 2;
    }
    negotiate();
    if (with_fds)
        set_memory();
    set_ring(with_fds);
    set_config();
    if (with_fds)
        set_inflight();
    be_refused();
    covretin_disconnect(&device);
    return 0;
}
