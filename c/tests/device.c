/* A device over covretin_device.h, whose frontend and guest the test plays, at the other end of a socket: the device's loop is in a thread
 * of its own. */
#ifndef _GNU_SOURCE
#define _GNU_SOURCE
#endif

#include "covretin_channel_socket.h"
#include "covretin_device.h"
#include "covretin_socket.h"
#include "testing.h"

#include <errno.h>
#include <fcntl.h>
#include <poll.h>
#include <pthread.h>
#include <sched.h>
#include <signal.h>
#include <stdatomic.h>
#include <stdio.h>
#include <stdlib.h>
#include <string.h>
#include <linux/userfaultfd.h>
#include <sys/eventfd.h>
#include <sys/ioctl.h>
#include <sys/mman.h>
#include <sys/socket.h>
#include <sys/syscall.h>
#include <sys/wait.h>
#include <unistd.h>

enum {
    LIMIT = 20000,
    GUEST = 0x10000000,   /* where the guest has its memory */
    SIZE = 0x100000,      /* of it */
    BUFFERS = 0x80000,    /* its bytes that no queue has */
    QUEUE_ROOM = 0x4000,
    QUEUE_SIZE = 16,
    MOST_KEPT = 32,
    NEXT = 1,
    WRITE = 2,
    INDIRECT = 4,
    HANDED_ON = 42 /* a status: of whoever had a fault that was no session's */
};

static covretin_connection vmms[2], *one = vmms;
#define vmm (*one)
static covretin_device device;
static pthread_t loop_thread;
static enum covretin_error ended_with; /* what the loop ended with */

/* -- The device: it writes the bytes that it reads, in capitals; or keeps its requests -- */

static struct {
    pthread_mutex_t lock;
    bool keeps;
    atomic_bool is_over; /* its loop is to end, though the session has not */
    covretin_request *kept[MOST_KEPT];
    atomic_bool has_changed; /* its configuration */
    size_t kept_count, served, broken, resets, turned_away, ended;
    enum covretin_queue_error why_broken;
    enum covretin_error why_ended;
    uint32_t last_queue, other; /* of a request that has no call of its own: its number, */
    size_t other_len;           /* its body, */
    uint8_t other_first;
    int other_copy; /* and a descriptor */
    bool again;
    uint64_t features;
    uint8_t config[8];
} its = {.lock = PTHREAD_MUTEX_INITIALIZER};

static void answer(covretin_request *request)
{
    char text[64];
    size_t len = covretin_request_read(request, text, sizeof text);
    for (size_t i = 0; i < len; i++)
        text[i] = (char)(text[i] >= 'a' && text[i] <= 'z' ? text[i] - 32 : text[i]);
    covretin_request_done(request, (uint32_t)covretin_request_write(request, text, len));
}

static void on_request(void *own, covretin_request *request)
{
    bool keeps;
    EXPECT(true, own == &its);
    pthread_mutex_lock(&its.lock);
    its.last_queue = request->queue;
    its.again = request->again;
    its.served++;
    keeps = its.keeps && its.kept_count < MOST_KEPT;
    if (keeps)
        its.kept[its.kept_count++] = request;
    pthread_mutex_unlock(&its.lock);
    if (!keeps)
        answer(request);
}

static void on_accepted(void *own, uint64_t features, uint64_t protocol_features)
{
    (void)own;
    (void)protocol_features;
    its.features = features;
}

static bool on_read_config(void *own, uint32_t offset, uint8_t *bytes, uint32_t size)
{
    (void)own;
    if (offset > sizeof its.config || size > sizeof its.config - offset)
        return false;
    memcpy(bytes, its.config + offset, size);
    return true;
}

static bool on_write_config(void *own, uint32_t offset, const uint8_t *bytes, uint32_t size)
{
    (void)own;
    if (offset > sizeof its.config || size > sizeof its.config - offset)
        return false;
    memcpy(its.config + offset, bytes, size);
    return true;
}

static bool on_config_changed(void *own)
{
    (void)own;
    return atomic_exchange(&its.has_changed, false);
}

/* It serves requests of odd numbers, and keeps a descriptor that came. */
static bool on_other(void *own, uint32_t request, const uint8_t *bytes, size_t len, const int32_t *fds, size_t count)
{
    EXPECT(true, own == &its);
    its.other = request;
    its.other_len = len;
    its.other_first = len != 0 ? bytes[0] : 0;
    if (count != 0)
        its.other_copy = dup(fds[count - 1]);
    return request % 2 != 0;
}

static void on_turned_away(void *own)
{
    (void)own;
    its.turned_away++;
}

static void on_reset(void *own)
{
    (void)own;
    its.resets++;
}

static void on_broken(void *own, uint32_t queue, enum covretin_queue_error error)
{
    (void)own;
    (void)queue;
    its.broken++;
    its.why_broken = error;
}

static void on_ended(void *own, enum covretin_error error)
{
    (void)own;
    its.ended++;
    its.why_ended = error;
}

/* It writes what the first queue's next buffer takes, or says that there is none. */
static void on_request_that_takes(void *own, covretin_request *request)
{
    covretin_request *buffer = covretin_request_take(request, 0);
    char text[4];
    (void)own;
    EXPECT(2, covretin_request_read(request, NULL, 2));
    EXPECT(2, covretin_request_read(request, text, sizeof text));
    EXPECT(0, memcmp(text, "xt", 2));
    EXPECT(true, covretin_request_take(request, 1) == NULL); /* it is handed out */
    EXPECT(true, covretin_request_take(request, 3) == NULL);
    if (buffer != NULL)
        covretin_request_done(buffer, (uint32_t)covretin_request_write(buffer, "taken", 5));
    covretin_request_done(request, (uint32_t)covretin_request_write(request, buffer != NULL ? "yes" : "not", 3));
}

/* What it got at once, of a table that has `requests`: how many each time. It is done with all of them by one call, if it does not keep them. */
static struct {
    size_t counts[MOST_KEPT], bursts;
} got;

static void on_requests(void *own, covretin_request *const *requests, size_t count)
{
    uint32_t written[COVRETIN_DEVICE_BURST] = {0};
    bool keeps;
    EXPECT(true, own == &its && count != 0 && count <= COVRETIN_DEVICE_BURST);
    pthread_mutex_lock(&its.lock);
    for (size_t i = 0; i < count; i++)
        written[i] = (uint32_t)covretin_request_write(requests[i], "all", 3);
    keeps = its.keeps && its.kept_count + count <= MOST_KEPT;
    if (keeps)
        memcpy(&its.kept[its.kept_count], requests, count * sizeof *requests);
    its.kept_count += keeps ? count : 0;
    if (got.bursts < MOST_KEPT)
        got.counts[got.bursts++] = count;
    its.served += count;
    pthread_mutex_unlock(&its.lock);
    if (!keeps)
        covretin_requests_done(requests, written, count);
}

static const covretin_device_calls calls = {.features = COVRETIN_DEVICE_RING_PACKED | 1,
                                            .queues = 3,
                                            .request = on_request,
                                            .accepted = on_accepted,
                                            .read_config = on_read_config,
                                            .write_config = on_write_config,
                                            .config_changed = on_config_changed,
                                            .reset = on_reset,
                                            .broken = on_broken,
                                            .turned_away = on_turned_away,
                                            .ended = on_ended};

static size_t count_of(const size_t *count)
{
    size_t value;
    pthread_mutex_lock(&its.lock);
    value = *count;
    pthread_mutex_unlock(&its.lock);
    return value;
}

/* Waits until the device has so many of something. */
static void wait_for(const size_t *count, size_t wanted)
{
    for (int i = 0; i < LIMIT && count_of(count) < wanted; i++)
        usleep(1000);
    EXPECT(wanted, count_of(count));
}

/* -- Its loop -- */

static void *loop(void *none)
{
    do {
        struct pollfd polled = {.fd = covretin_device_fd(&device), .events = POLLIN};
        if (poll(&polled, 1, LIMIT) == 0)
            break;
        ended_with = covretin_device_serve(&device);
    } while (ended_with == COVRETIN_NOT_YET && !its.is_over);
    return none;
}

static enum covretin_error ran; /* what the other loop ended with */

static void *run_device(void *none)
{
    ran = covretin_device_run(&calls, &its, "device.socket");
    return none;
}

static covretin_listener there;

static void *run_listener(void *none)
{
    ran = covretin_device_run_listener(&calls, &its, &there);
    return none;
}

static const covretin_device_calls *run_calls = &calls;
static int run_end; /* a socket that is connected */

static void *run_fd(void *none)
{
    ran = covretin_device_run_fd(run_calls, &its, run_end);
    return none;
}

static void begin(const covretin_device_calls *table)
{
    int ends[2];
    if (socketpair(AF_UNIX, SOCK_STREAM | SOCK_CLOEXEC, 0, ends))
        give_up("socketpair");
    its.keeps = its.again = its.is_over = false;
    its.kept_count = its.served = its.broken = its.resets = its.ended = 0;
    EXPECT(COVRETIN_OK, covretin_device_open_fd(&device, table, &its, ends[0]));
    EXPECT(COVRETIN_OK, covretin_connect_fd(&vmm, ends[1], 8));
    if (pthread_create(&loop_thread, NULL, loop, NULL))
        give_up("pthread_create");
}

/* The loop ended so, and said it once. */
static void end_as(enum covretin_error why)
{
    pthread_join(loop_thread, NULL);
    EXPECT(why, ended_with);
    EXPECT(why, covretin_device_serve(&device));
    EXPECT(1, its.ended);
    EXPECT(why, its.why_ended);
    covretin_device_close(&device);
    EXPECT(true, device.opaque == NULL);
    EXPECT(COVRETIN_NO_SESSION, covretin_device_serve(&device));
    EXPECT(-1, covretin_device_fd(&device));
    covretin_disconnect(&vmm);
}

static void end(void)
{
    covretin_disconnect(&vmm);
    end_as(COVRETIN_DISCONNECTED);
}

/* -- The frontend -- */

static enum covretin_error outcome(enum covretin_error asked)
{
    return asked ? asked : covretin_exchange(&vmm, LIMIT);
}

#define DONE(ask) EXPECT(COVRETIN_OK, outcome(ask))
#define REFUSED(ask) EXPECT(COVRETIN_BACKEND_INTERNAL_ERROR, outcome(ask))

static uint64_t number(enum covretin_error asked)
{
    uint64_t value = 0;
    EXPECT(COVRETIN_OK, outcome(asked));
    EXPECT(COVRETIN_OK, covretin_answer_number(&vmm.session, &value));
    return value;
}

static void negotiate(uint64_t features)
{
    uint64_t offered = number(covretin_ask_get_features(&vmm.session));
    uint64_t protocol = number(covretin_ask_get_protocol_features(&vmm.session)) & COVRETIN_ASKED_PROTOCOL_FEATURES;
    features |= COVRETIN_FEATURE_PROTOCOL_FEATURES | COVRETIN_DEVICE_VERSION_1;
    EXPECT(0, features & ~offered);
    DONE(covretin_ask_set_protocol_features(&vmm.session, protocol));
    EXPECT(COVRETIN_OK, covretin_set_hdr_flags(&vmm.session, COVRETIN_NEED_REPLY));
    DONE(covretin_ask_set_owner(&vmm.session));
    DONE(covretin_ask_set_features(&vmm.session, features));
    EXPECT(features, its.features);
}

/* -- The guest -- */

static int memory_fd = -1;
static uint8_t *memory;

static covretin_region region_of(uint64_t from, uint64_t size)
{
    return (covretin_region){.guest_phys_addr = GUEST + from,
                             .memory_size = size,
                             .user_addr = (uint64_t)(uintptr_t)memory + from,
                             .mmap_offset = from,
                             .fd = memory_fd};
}

static void make_memory(void)
{
    memory_fd = memfd_create("guest", MFD_CLOEXEC);
    if (memory_fd < 0 || ftruncate(memory_fd, SIZE))
        give_up("memfd_create");
    memory = mmap(NULL, SIZE, PROT_READ | PROT_WRITE, MAP_SHARED, memory_fd, 0);
    if (memory == MAP_FAILED)
        give_up("mmap");
}

static void give_memory(void)
{
    covretin_region region = region_of(0, SIZE);
    DONE(covretin_ask_set_mem_table(&vmm.session, &region, 1));
}

static void free_memory(void)
{
    munmap(memory, SIZE);
    close(memory_fd);
}

struct descriptor {
    uint64_t addr;
    uint32_t len;
    uint16_t flags, next;
};

struct queue {
    size_t index;
    uint16_t posted, seen;
    int kick, call, error;
};

/* Its parts: descriptors, the available ring a page on, the used ring another. */
static uint8_t *part_of(const struct queue *queue, size_t page)
{
    return memory + queue->index * QUEUE_ROOM + page * 4096;
}

static uint16_t *word_at(const struct queue *queue, size_t page, size_t offset)
{
    return (uint16_t *)(void *)(part_of(queue, page) + offset);
}

static void put(const struct queue *queue, size_t at, uint64_t addr, uint32_t len, uint16_t flags, uint16_t next)
{
    ((struct descriptor *)(void *)part_of(queue, 0))[at] = (struct descriptor){addr, len, flags, next};
}

static covretin_vring place_of(const struct queue *queue, uint64_t log)
{
    return (covretin_vring){.queue_max_size = QUEUE_SIZE,
                            .queue_size = QUEUE_SIZE,
                            .flags = log != 0,
                            .desc_table_addr = (uint64_t)(uintptr_t)part_of(queue, 0),
                            .avail_ring_addr = (uint64_t)(uintptr_t)part_of(queue, 1),
                            .used_ring_addr = (uint64_t)(uintptr_t)part_of(queue, 2),
                            .log_addr = log,
                            .has_log_addr = log != 0};
}

static void start(struct queue *queue, uint32_t base)
{
    covretin_vring place = place_of(queue, 0);
    DONE(covretin_ask_set_vring_num(&vmm.session, queue->index, QUEUE_SIZE));
    DONE(covretin_ask_set_vring_base(&vmm.session, queue->index, base));
    DONE(covretin_ask_set_vring_addr(&vmm.session, queue->index, &place));
    DONE(covretin_ask_set_vring_call(&vmm.session, queue->index, queue->call));
    DONE(covretin_ask_set_vring_err(&vmm.session, queue->index, queue->error));
    DONE(covretin_ask_set_vring_kick(&vmm.session, queue->index, queue->kick));
    DONE(covretin_ask_set_vring_enable(&vmm.session, queue->index, true));
}

static struct queue make_queue(size_t index)
{
    struct queue queue = {.index = index,
                          .kick = eventfd(0, EFD_CLOEXEC),
                          .call = eventfd(0, EFD_CLOEXEC | EFD_NONBLOCK),
                          .error = eventfd(0, EFD_CLOEXEC | EFD_NONBLOCK)};
    if (queue.kick < 0 || queue.call < 0 || queue.error < 0)
        give_up("eventfd");
    return queue;
}

static void free_queue(const struct queue *queue)
{
    close(queue->kick);
    close(queue->call);
    close(queue->error);
}

static void post_without_kick(struct queue *queue, uint16_t head)
{
    *word_at(queue, 1, 4 + queue->posted % QUEUE_SIZE * 2) = head;
    queue->posted++;
    __atomic_store_n(word_at(queue, 1, 2), queue->posted, __ATOMIC_SEQ_CST);
}

static void post(struct queue *queue, uint16_t head)
{
    post_without_kick(queue, head);
    if (eventfd_write(queue->kick, 1))
        give_up("kick");
}

static bool is_signalled(int fd, int milliseconds)
{
    struct pollfd polled = {.fd = fd, .events = POLLIN};
    eventfd_t count;
    return poll(&polled, 1, milliseconds) == 1 && eventfd_read(fd, &count) == 0;
}

/* Waits until one more was used: which, and how many bytes. */
static void expect_used(struct queue *queue, uint32_t head, uint32_t len)
{
    const uint32_t *used = (const uint32_t *)(const void *)part_of(queue, 2) + 1 + queue->seen % QUEUE_SIZE * 2;
    for (int i = 0; i < LIMIT && __atomic_load_n(word_at(queue, 2, 2), __ATOMIC_ACQUIRE) == queue->seen; i++)
        usleep(1000);
    EXPECT(true, __atomic_load_n(word_at(queue, 2, 2), __ATOMIC_ACQUIRE) != queue->seen);
    EXPECT(head, used[0]);
    EXPECT(len, used[1]);
    queue->seen++;
}

/* A request: a text in two parts, and room for it in two parts, in four descriptors from a head on. */
static void write_request(const struct queue *queue, uint16_t head, const char *text)
{
    uint64_t at = BUFFERS + queue->index * 0x8000 + head * 0x100u;
    size_t len = strlen(text);
    memcpy(memory + at, text, len);
    memset(memory + at + 0x80, 0, 0x80);
    put(queue, head, GUEST + at, 2, NEXT, (uint16_t)(head + 1));
    put(queue, head + 1u, GUEST + at + 2, (uint32_t)len - 2, NEXT, (uint16_t)(head + 2));
    put(queue, head + 2u, GUEST + at + 0x80, 3, NEXT | WRITE, (uint16_t)(head + 3));
    put(queue, head + 3u, GUEST + at + 0x90, 0x70, WRITE, 0);
}

static void expect_text(const struct queue *queue, uint16_t head, const char *text)
{
    const uint8_t *at = memory + BUFFERS + queue->index * 0x8000 + head * 0x100u + 0x80;
    EXPECT(0, memcmp(at, text, 3));
    EXPECT(0, memcmp(at + 0x10, text + 3, strlen(text) - 3));
}

/* -- Tests -- */

static void serves_requests(void)
{
    begin(&calls);
    negotiate(0);
    make_memory();
    give_memory();
    struct queue queue = make_queue(0);
    start(&queue, 0);
    for (uint16_t round = 0; round < 40; round++) {
        write_request(&queue, 4, "some text");
        post(&queue, 4);
        expect_used(&queue, 4, 9);
        expect_text(&queue, 4, "SOME TEXT");
        EXPECT(true, is_signalled(queue.call, LIMIT));
    }
    *word_at(&queue, 1, 0) = 1; /* the driver wants no interrupt */
    post(&queue, 4);
    expect_used(&queue, 4, 9);
    EXPECT(false, is_signalled(queue.call, 50));
    EXPECT(41, number(covretin_ask_get_vring_base(&vmm.session, 0)));
    EXPECT(41, its.served);
    post(&queue, 4); /* it is stopped */
    usleep(50000);
    EXPECT(41, its.served);
    end();
    free_queue(&queue);
    free_memory();
}

static void serves_several_queues(void)
{
    struct queue queues[3];
    begin(&calls);
    negotiate(0);
    make_memory();
    give_memory();
    EXPECT(3, number(covretin_ask_get_queue_num(&vmm.session)));
    for (size_t i = 0; i < 3; i++) {
        queues[i] = make_queue(i);
        start(&queues[i], 0);
    }
    for (size_t i = 3; i-- > 0;) {
        write_request(&queues[i], 0, "queue");
        post(&queues[i], 0);
        expect_used(&queues[i], 0, 5);
        expect_text(&queues[i], 0, "QUEUE");
        EXPECT(i, its.last_queue);
    }
    DONE(covretin_ask_set_vring_enable(&vmm.session, 1, false));
    post(&queues[1], 0);
    post(&queues[2], 0);
    expect_used(&queues[2], 0, 5);
    usleep(50000);
    EXPECT(4, its.served);
    DONE(covretin_ask_set_vring_enable(&vmm.session, 1, true));
    expect_used(&queues[1], 0, 5);
    DONE(covretin_ask_reset_device(&vmm.session));
    EXPECT(1, its.resets);
    end();
    for (size_t i = 0; i < 3; i++)
        free_queue(&queues[i]);
    free_memory();
}

static void serves_indirect_and_event_index(void)
{
    begin(&calls);
    negotiate(COVRETIN_DEVICE_INDIRECT_DESC | COVRETIN_DEVICE_EVENT_IDX);
    make_memory();
    give_memory();
    struct queue queue = make_queue(1);
    start(&queue, 0);
    write_request(&queue, 0, "indirect");
    memcpy(memory + 0x70000, part_of(&queue, 0), 4 * sizeof(struct descriptor));
    put(&queue, 7, GUEST + 0x70000, 4 * sizeof(struct descriptor), INDIRECT, 0);
    post(&queue, 7);
    expect_used(&queue, 7, 8);
    expect_text(&queue, 0, "INDIRECT");
    EXPECT(true, is_signalled(queue.call, LIMIT));
    *word_at(&queue, 1, 4 + QUEUE_SIZE * 2) = 2; /* the driver is to be told of the third */
    post(&queue, 7);
    expect_used(&queue, 7, 8);
    EXPECT(false, is_signalled(queue.call, 50));
    post(&queue, 7);
    expect_used(&queue, 7, 8);
    EXPECT(true, is_signalled(queue.call, LIMIT));
    for (int i = 0; i < LIMIT && __atomic_load_n(word_at(&queue, 2, 4 + QUEUE_SIZE * 8), __ATOMIC_ACQUIRE) != 3; i++)
        usleep(1000);
    EXPECT(3, *word_at(&queue, 2, 4 + QUEUE_SIZE * 8)); /* the device is to be told of the fourth */
    end();
    free_queue(&queue);
    free_memory();
}

/* Two requests, each of a descriptor that is read and one that is written, which take the ring's four places; then one more, whose place is
 * the first again. */
static void serves_a_packed_queue(void)
{
    begin(&calls);
    negotiate(COVRETIN_DEVICE_RING_PACKED);
    make_memory();
    give_memory();
    struct queue queue = make_queue(2);
    covretin_vring place = place_of(&queue, 0);
    DONE(covretin_ask_set_vring_num(&vmm.session, 2, 4));
    DONE(covretin_ask_set_vring_addr(&vmm.session, 2, &place));
    DONE(covretin_ask_set_vring_call(&vmm.session, 2, queue.call));
    DONE(covretin_ask_set_vring_kick(&vmm.session, 2, queue.kick));
    DONE(covretin_ask_set_vring_enable(&vmm.session, 2, true));
    for (uint16_t round = 0; round < 3; round++) {
        uint16_t at = round * 2 % 4, wrap = round < 2, avail = wrap ? 0x80 : 0x8000, used = wrap ? 0x8080 : 0;
        memcpy(memory + BUFFERS, "packed", 6);
        memset(memory + BUFFERS + 0x100, 0, 6);
        put(&queue, at + 1u, GUEST + BUFFERS + 0x100, 64, 3, (uint16_t)(avail | WRITE));
        put(&queue, at, GUEST + BUFFERS, 6, 3, 0);
        __atomic_store_n(word_at(&queue, 0, at * 16u + 14), (uint16_t)(avail | NEXT), __ATOMIC_SEQ_CST);
        if (eventfd_write(queue.kick, 1))
            give_up("kick");
        EXPECT(true, is_signalled(queue.call, LIMIT));
        EXPECT(used, *word_at(&queue, 0, at * 16u + 14) & 0x8080);
        EXPECT(6, *word_at(&queue, 0, at * 16u + 8));
        EXPECT(3, *word_at(&queue, 0, at * 16u + 12));
        EXPECT(0, memcmp(memory + BUFFERS + 0x100, "PACKED", 6));
    }
    EXPECT(0x00020002, number(covretin_ask_get_vring_base(&vmm.session, 2)));
    end();
    free_queue(&queue);
    free_memory();
}

static void *complete_later(void *none)
{
    wait_for(&its.kept_count, 3);
    usleep(100000);
    for (size_t i = 3; i-- > 0;)
        answer(its.kept[i]);
    return none;
}

/* Whoever stops a ring is answered once its requests are done, in any order, and other rings go on meanwhile. */
static void completes_later(void)
{
    pthread_t thread;
    begin(&calls);
    negotiate(0);
    make_memory();
    give_memory();
    struct queue queue = make_queue(0);
    start(&queue, 0);
    its.keeps = true;
    for (uint16_t head = 0; head < 12; head += 4) {
        write_request(&queue, head, "later");
        post(&queue, head);
    }
    if (pthread_create(&thread, NULL, complete_later, NULL))
        give_up("pthread_create");
    wait_for(&its.kept_count, 3);
    EXPECT(3, number(covretin_ask_get_vring_base(&vmm.session, 0)));
    expect_used(&queue, 8, 5);
    expect_used(&queue, 4, 5);
    expect_used(&queue, 0, 5);
    expect_text(&queue, 4, "LATER");
    pthread_join(thread, NULL);
    end();
    free_queue(&queue);
    free_memory();
}

/* A table whose requests come by many, and whose first so many queues it takes of. */
static covretin_device_calls bursts_of(uint64_t taken_queues)
{
    covretin_device_calls table = calls;
    table.request = NULL;
    table.requests = on_requests;
    table.taken_queues = taken_queues;
    memset(&got, 0, sizeof got);
    return table;
}

/* Makes so many requests available, of one descriptor each, before the device hears of any. */
static void post_many(struct queue *queue, uint16_t from, uint16_t count)
{
    for (uint16_t head = from; head < from + count; head++) {
        put(queue, head, GUEST + BUFFERS + queue->index * 0x8000 + head * 0x100u, 0x80, WRITE, 0);
        post_without_kick(queue, head);
    }
    if (eventfd_write(queue->kick, 1))
        give_up("kick");
}

/* The driver was signalled so often since this was last asked. */
static void expect_signals(int fd, eventfd_t wanted)
{
    eventfd_t count = 0;
    EXPECT(0, eventfd_read(fd, &count));
    EXPECT(wanted, count);
}

/* What is there already is handed out at once, and its driver told of all by one signal: of a queue, and of many that are completed together. */
static void serves_bursts(void)
{
    const covretin_device_calls table = bursts_of(0);
    const uint32_t written[MOST_KEPT] = {0};
    begin(&table);
    negotiate(0);
    make_memory();
    give_memory();
    struct queue first = make_queue(0), second = make_queue(1);
    start(&first, 0);
    start(&second, 0);
    post_many(&first, 2, 14);
    for (uint16_t head = 2; head < 16; head++)
        expect_used(&first, head, 3);
    EXPECT(true, got.bursts == 1 && got.counts[0] == 14);
    EXPECT(true, is_signalled(first.call, LIMIT));
    EXPECT(false, is_signalled(first.call, 50));
    EXPECT(0, memcmp(memory + BUFFERS + 15 * 0x100, "all", 3));
    its.keeps = true;
    post_many(&first, 0, 5);
    wait_for(&its.kept_count, 5);
    post_many(&second, 3, 2);
    wait_for(&its.kept_count, 7);
    post_many(&first, 8, 1);
    wait_for(&its.kept_count, 8);
    covretin_requests_done(its.kept, written, 8); /* those of the first queue lie at both ends of the list */
    for (uint16_t head = 0; head < 5; head++)
        expect_used(&first, head, 0);
    expect_used(&first, 8, 0);
    expect_used(&second, 3, 0);
    expect_used(&second, 4, 0);
    expect_signals(first.call, 2);
    expect_signals(second.call, 1);
    EXPECT(20, number(covretin_ask_get_vring_base(&vmm.session, 0)));
    EXPECT(2, number(covretin_ask_get_vring_base(&vmm.session, 1)));
    end();
    free_queue(&first);
    free_queue(&second);
    free_memory();
}

/* At most COVRETIN_DEVICE_BURST are handed out at once. Those before one that breaks a rule are the device's. */
static void a_burst_has_an_end(void)
{
    const covretin_device_calls table = bursts_of(0);
    begin(&table);
    negotiate(0);
    make_memory();
    give_memory();
    struct queue queue = make_queue(0);
    covretin_vring place = place_of(&queue, 0);
    DONE(covretin_ask_set_vring_num(&vmm.session, 0, 64));
    DONE(covretin_ask_set_vring_addr(&vmm.session, 0, &place));
    DONE(covretin_ask_set_vring_call(&vmm.session, 0, queue.call));
    DONE(covretin_ask_set_vring_err(&vmm.session, 0, queue.error));
    for (uint16_t at = 0; at < 60; at++) {
        put(&queue, at, at < 50 ? GUEST + BUFFERS + at * 0x100u : 0, 0x80, WRITE, 0);
        *word_at(&queue, 1, 4 + at * 2u) = at;
    }
    *word_at(&queue, 1, 2) = 60;
    DONE(covretin_ask_set_vring_kick(&vmm.session, 0, queue.kick));
    DONE(covretin_ask_set_vring_enable(&vmm.session, 0, true));
    wait_for(&its.broken, 1);
    EXPECT(COVRETIN_QUEUE_NOT_IN_GUEST, its.why_broken);
    EXPECT(50, its.served);
    EXPECT(true, got.bursts == 2 && got.counts[0] == COVRETIN_DEVICE_BURST && got.counts[1] == 50 - COVRETIN_DEVICE_BURST);
    EXPECT(50, *word_at(&queue, 2, 2));
    expect_signals(queue.call, 2);
    expect_signals(queue.error, 1);
    end();
    free_queue(&queue);
    free_memory();
}

static covretin_request *many[MOST_KEPT];
static size_t many_count;

/* It takes of the first queue as many as there are, but for 4 at most, each time that it has a request of the second one. */
static void on_requests_that_take(void *own, covretin_request *const *requests, size_t count)
{
    const uint32_t written[4] = {1, 2, 3, 4};
    (void)own;
    EXPECT(1, count);
    many_count = covretin_requests_take(requests[0], 0, many, 4);
    EXPECT(0, covretin_requests_take(requests[0], 1, many + 4, 4)); /* they are handed out */
    EXPECT(0, covretin_requests_take(requests[0], 3, many + 4, 4));
    covretin_requests_done(many, written, many_count);
    covretin_requests_done(requests, written, count);
    covretin_requests_done(NULL, NULL, 0);
}

/* Where the fifth of six is none, the others are taken, the queue is broken, and that is told. */
static void takes_bursts_of_a_queue(void)
{
    covretin_device_calls table = bursts_of(1);
    table.requests = on_requests_that_take;
    begin(&table);
    negotiate(0);
    make_memory();
    give_memory();
    struct queue first = make_queue(0), second = make_queue(1);
    start(&first, 0);
    start(&second, 0);
    post_many(&second, 0, 1);
    expect_used(&second, 0, 1);
    EXPECT(0, many_count);
    post_many(&first, 0, 7);
    put(&first, 6, 0, 4, WRITE, 0);
    post_many(&second, 1, 1);
    expect_used(&second, 1, 1);
    EXPECT(4, many_count);
    for (uint16_t head = 0; head < 4; head++)
        expect_used(&first, head, head + 1u);
    expect_signals(first.call, 1);
    post_many(&second, 2, 1);
    expect_used(&second, 2, 1);
    EXPECT(2, many_count);
    expect_used(&first, 4, 1);
    expect_used(&first, 5, 2);
    wait_for(&its.broken, 1);
    EXPECT(COVRETIN_QUEUE_NOT_IN_GUEST, its.why_broken);
    end();
    free_queue(&first);
    free_queue(&second);
    free_memory();
}

/* A queue that the device takes of: it has none of its requests as long as it wants none, and whoever stops the queue is not waited for. */
static void takes_of_a_queue(void)
{
    covretin_device_calls taking = calls;
    taking.taken_queues = 1;
    taking.request = on_request_that_takes;
    begin(&taking);
    negotiate(0);
    make_memory();
    give_memory();
    struct queue first = make_queue(0), second = make_queue(1);
    start(&first, 0);
    start(&second, 0);
    write_request(&second, 0, "next");
    post(&second, 0);
    expect_used(&second, 0, 3);
    expect_text(&second, 0, "not");
    for (uint16_t head = 0; head < 12; head += 4) {
        write_request(&first, head, "room");
        post(&first, head);
    }
    usleep(50000);
    EXPECT(0, *word_at(&first, 2, 2)); /* nothing is taken by itself */
    post(&second, 0);
    expect_used(&first, 0, 5);
    expect_text(&first, 0, "taken");
    expect_used(&second, 0, 3);
    EXPECT(true, is_signalled(first.call, LIMIT));
    EXPECT(1, number(covretin_ask_get_vring_base(&vmm.session, 0)));
    post(&second, 0);
    expect_used(&second, 0, 3);
    expect_text(&second, 0, "not"); /* it is stopped */
    start(&first, 1);
    post(&second, 0);
    expect_used(&first, 4, 5);
    expect_used(&second, 0, 3);
    put(&first, 8, 0, 4, WRITE, 0); /* the next lies nowhere */
    post(&second, 0);
    expect_used(&second, 0, 3);
    expect_text(&second, 0, "not");
    wait_for(&its.broken, 1);
    EXPECT(COVRETIN_QUEUE_NOT_IN_GUEST, its.why_broken);
    EXPECT(true, is_signalled(first.error, LIMIT));
    end();
    free_queue(&first);
    free_queue(&second);
    free_memory();
}

static void ends_where_memory_is_gone(void)
{
    begin(&calls);
    negotiate(0);
    make_memory();
    give_memory();
    struct queue queue = make_queue(0);
    start(&queue, 0);
    write_request(&queue, 0, "gone");
    post(&queue, 0);
    expect_used(&queue, 0, 4);
    if (ftruncate(memory_fd, 0) || eventfd_write(queue.kick, 1))
        give_up("ftruncate");
    struct pollfd polled = {.fd = covretin_connection_fd(&vmm), .events = POLLIN};
    EXPECT(1, poll(&polled, 1, LIMIT)); /* the frontend is hung up on */
    end_as(COVRETIN_MEMORY_LOST);
    EXPECT(1, its.served);
    free_queue(&queue);
    free_memory();
}

/* The same under the device, which has a request. */
static void ends_where_a_request_is_gone(void)
{
    char text[8] = "else";
    begin(&calls);
    negotiate(0);
    make_memory();
    give_memory();
    struct queue queue = make_queue(0);
    start(&queue, 0);
    its.keeps = true;
    write_request(&queue, 0, "gone");
    post(&queue, 0);
    wait_for(&its.kept_count, 1);
    EXPECT(false, covretin_request_is_lost(its.kept[0]));
    if (ftruncate(memory_fd, 0))
        give_up("ftruncate");
    EXPECT(4, covretin_request_read(its.kept[0], text, sizeof text));
    EXPECT(0, text[0]);
    EXPECT(true, covretin_request_is_lost(its.kept[0]));
    covretin_request_done(its.kept[0], 4);
    end_as(COVRETIN_MEMORY_LOST);
    free_queue(&queue);
    free_memory();
}

/* Of two sessions of a process that one ends whose memory is gone. */
static void ends_no_other_session(void)
{
    pthread_t thread;
    begin(&calls);
    negotiate(0);
    make_memory();
    give_memory();
    struct queue queue = make_queue(0);
    start(&queue, 0);
    int its_memory = memory_fd;
    uint8_t *its_bytes = memory;

    one = &vmms[1];
    if (pthread_create(&thread, NULL, run_device, NULL))
        give_up("pthread_create");
    while (covretin_connect(&vmm, "device.socket", 8, LIMIT) == COVRETIN_SOCKET_CONNECT)
        usleep(1000);
    negotiate(0);
    make_memory();
    give_memory();
    struct queue other = make_queue(0);
    start(&other, 0);
    write_request(&other, 0, "other");
    if (ftruncate(its_memory, 0) || eventfd_write(queue.kick, 1))
        give_up("ftruncate");
    one = &vmms[0];
    end_as(COVRETIN_MEMORY_LOST);
    one = &vmms[1];
    for (int i = 0; i < 3; i++) {
        post(&other, 0);
        expect_used(&other, 0, 5);
    }
    expect_text(&other, 0, "OTHER");
    covretin_disconnect(&vmm);
    one = &vmms[0];
    wait_for(&its.ended, 2);
    EXPECT(COVRETIN_DISCONNECTED, its.why_ended);
    pthread_kill(thread, SIGTERM);
    pthread_join(thread, NULL);
    free_queue(&other);
    free_memory();
    memory_fd = its_memory;
    memory = its_bytes;
    free_queue(&queue);
    free_memory();
}

/* A fault that is no session's is for the handler that was there before. */
static void hands_on_other_faults(void)
{
    int ended = 0, fd = memfd_create("own", MFD_CLOEXEC);
    pid_t child;
    if (fd < 0 || ftruncate(fd, 4096))
        give_up("memfd_create");
    volatile uint8_t *at = mmap(NULL, 4096, PROT_READ | PROT_WRITE, MAP_SHARED, fd, 0);
    if (at == MAP_FAILED || ftruncate(fd, 0))
        give_up("mmap");
    child = fork();
    if (child == 0) {
        at[0] = 1;
        _exit(0);
    }
    EXPECT(child, waitpid(child, &ended, 0));
    EXPECT(true, WIFEXITED(ended) && WEXITSTATUS(ended) == HANDED_ON);
    munmap((void *)(uintptr_t)at, 4096);
    close(fd);
}

/* -- Postcopy -- */

static int userfault = -1, over = -1;
static uint64_t base; /* where the device has the memory */
static uint8_t *source;
static size_t waited;

static bool has_userfault(void)
{
    int fd = (int)syscall(SYS_userfaultfd, O_CLOEXEC);
    if (fd >= 0)
        close(fd);
    return fd >= 0;
}

/* What is in the memory is in the source from now on, and comes from there page by page. */
static void give_memory_by_pages(void)
{
    size_t count = 0;
    source = malloc(SIZE);
    memcpy(source, memory, SIZE);
    if (fallocate(memory_fd, FALLOC_FL_PUNCH_HOLE | FALLOC_FL_KEEP_SIZE, 0, SIZE))
        give_up("fallocate");
    DONE(covretin_ask_postcopy_advise(&vmm.session));
    EXPECT(COVRETIN_OK, covretin_claim_fd(&vmm, &userfault));
    DONE(covretin_ask_postcopy_listen(&vmm.session));
    give_memory();
    EXPECT(COVRETIN_OK, covretin_answer_bases(&vmm.session, &base, 1, &count));
    DONE(covretin_ask_postcopy_ack_mem_regions(&vmm.session, 5));
}

/* (where the guest wrote it meanwhile it is there, and whoever waits has to be woken) */
static void copy_page(uint64_t offset)
{
    struct uffdio_copy copy = {.dst = base + offset, .src = (uint64_t)(uintptr_t)(source + offset), .len = 4096};
    struct uffdio_range page = {.start = base + offset, .len = 4096};
    while (ioctl(userfault, UFFDIO_COPY, &copy) != 0 && errno == EAGAIN)
        ;
    ioctl(userfault, UFFDIO_WAKE, &page);
}

static void *bring_pages(void *none)
{
    struct pollfd polled[2] = {{.fd = userfault, .events = POLLIN}, {.fd = over, .events = POLLIN}};
    struct uffd_msg fault;
    while (poll(polled, 2, LIMIT) > 0 && polled[1].revents == 0)
        if (read(userfault, &fault, sizeof fault) == sizeof fault) {
            copy_page((fault.arg.pagefault.address - base) / 4096 * 4096);
            waited++;
        }
    return none;
}

static void takes_pages_as_they_come(void)
{
    pthread_t thread;
    begin(&calls);
    negotiate(0);
    make_memory();
    struct queue queue = make_queue(0);
    write_request(&queue, 0, "arrives");
    give_memory_by_pages();
    waited = 0;
    over = eventfd(0, EFD_CLOEXEC);
    if (over < 0 || pthread_create(&thread, NULL, bring_pages, NULL))
        give_up("pthread_create");
    start(&queue, 0);
    post(&queue, 0);
    expect_used(&queue, 0, 7);
    expect_text(&queue, 0, "ARRIVES");
    for (uint64_t offset = 0; offset < SIZE; offset += 4096)
        copy_page(offset);
    DONE(covretin_ask_postcopy_end(&vmm.session));
    eventfd_write(over, 1);
    pthread_join(thread, NULL);
    EXPECT(true, waited >= 2); /* descriptors and buffers, if no more */
    post(&queue, 0);
    expect_used(&queue, 0, 7);
    end();
    close(over);
    close(userfault);
    free(source);
    free_queue(&queue);
    free_memory();
}

/* The device waits for a page that does not come, as it begins a ring. */
static struct queue wait_for_a_page(void)
{
    short events;
    begin(&calls);
    negotiate(0);
    make_memory();
    struct queue queue = make_queue(0);
    give_memory_by_pages();
    covretin_vring place = place_of(&queue, 0);
    DONE(covretin_ask_set_vring_num(&vmm.session, 0, QUEUE_SIZE));
    DONE(covretin_ask_set_vring_addr(&vmm.session, 0, &place));
    EXPECT(COVRETIN_OK, covretin_ask_set_vring_kick(&vmm.session, 0, queue.kick));
    EXPECT(COVRETIN_NOT_YET, covretin_exchange_nowait(&vmm, &events));
    struct pollfd polled = {.fd = userfault, .events = POLLIN};
    EXPECT(1, poll(&polled, 1, LIMIT));
    return queue;
}

static void waits_for_no_page_of_who_went(void)
{
    struct queue queue = wait_for_a_page();
    covretin_disconnect(&vmm);
    end_as(COVRETIN_MEMORY_LOST);
    close(userfault);
    free(source);
    free_queue(&queue);
    free_memory();
}

static void stops_while_it_waits_for_a_page(void)
{
    struct queue queue = wait_for_a_page();
    covretin_device_stop(&device);
    end_as(COVRETIN_STOPPED);
    close(userfault);
    free(source);
    free_queue(&queue);
    free_memory();
}

/* What a thread of the device's own takes from the guest's memory, at a page that does not come: nothing, and no zeros in its place. */
static void *write_out(void *of)
{
    const covretin_request *request = of;
    int file = memfd_create("image", MFD_CLOEXEC);
    ssize_t wrote = pwritev(file, request->segments, (int)request->readable, 0);
    int error = wrote < 0 ? errno : 0;
    close(file);
    return (void *)(intptr_t)error;
}

/* Where the loop has touched what is gone, another page of the same region is no zeros for the kernel. */
static void gives_no_zeros_for_memory_that_is_gone(void)
{
    begin(&calls);
    negotiate(0);
    make_memory();
    give_memory();
    struct queue queue = make_queue(0);
    start(&queue, 0);
    its.keeps = true;
    write_request(&queue, 0, "gone");
    post(&queue, 0);
    wait_for(&its.kept_count, 1);
    if (ftruncate(memory_fd, 0) || eventfd_write(queue.kick, 1))
        give_up("ftruncate");
    struct pollfd polled = {.fd = covretin_connection_fd(&vmm), .events = POLLIN};
    EXPECT(1, poll(&polled, 1, LIMIT)); /* the frontend is hung up on */
    EXPECT(EFAULT, (intptr_t)write_out(its.kept[0]));
    covretin_request_done(its.kept[0], 0);
    end_as(COVRETIN_MEMORY_LOST);
    free_queue(&queue);
    free_memory();
}

/* The frontend hangs up while another thread than the loop's waits for a page: as the loop sees that, and the watcher. */
static void gives_no_zeros_for_a_page_of_who_went(void)
{
    for (int round = 0; round < 30; round++) {
        struct uffd_msg fault;
        pthread_t thread;
        void *error = NULL;
        begin(&calls);
        negotiate(0);
        make_memory();
        struct queue queue = make_queue(0);
        write_request(&queue, 0, "waits");
        put(&queue, 0, GUEST + BUFFERS + 0x4000, 2, NEXT, 1); /* on a page that does not come */
        give_memory_by_pages();
        EXPECT(3, number(covretin_ask_get_queue_num(&vmm.session))); /* the device watches its pages by now */
        for (uint64_t offset = 0; offset < SIZE; offset += 4096)
            if (offset != BUFFERS + 0x4000)
                copy_page(offset);
        start(&queue, 0);
        its.keeps = true;
        post(&queue, 0);
        wait_for(&its.kept_count, 1);
        if (pthread_create(&thread, NULL, write_out, its.kept[0]))
            give_up("pthread_create");
        struct pollfd polled = {.fd = userfault, .events = POLLIN};
        EXPECT(1, poll(&polled, 1, LIMIT));
        EXPECT(sizeof fault, read(userfault, &fault, sizeof fault));
        covretin_disconnect(&vmm);
        pthread_join(thread, &error);
        EXPECT(EFAULT, (intptr_t)error);
        EXPECT(true, covretin_request_is_lost(its.kept[0]));
        covretin_request_done(its.kept[0], 0);
        pthread_join(loop_thread, NULL);
        EXPECT(1, its.ended);
        covretin_device_close(&device);
        close(userfault);
        free(source);
        free_queue(&queue);
        free_memory();
    }
}

/* A call that is full, and would block whoever writes it; a pipe, and a socket, and each once nobody reads it. */
static void never_waits_for_a_call(void)
{
    covretin_device_calls by_pipe = calls;
    int ends[2];
    by_pipe.calls_by_pipe = true;
    begin(&by_pipe);
    negotiate(0);
    make_memory();
    give_memory();
    struct queue queue = make_queue(0);
    start(&queue, 0);
    int full = eventfd(0, EFD_CLOEXEC);
    if (full < 0 || eventfd_write(full, UINT64_MAX - 1))
        give_up("eventfd");
    DONE(covretin_ask_set_vring_call(&vmm.session, 0, full));
    write_request(&queue, 0, "full");
    for (int i = 0; i < 3; i++) {
        post(&queue, 0);
        expect_used(&queue, 0, 4);
    }
    for (int i = 0; i < 2; i++) {
        uint64_t count = 0;
        if (i == 0 ? pipe2(ends, O_CLOEXEC) : socketpair(AF_UNIX, SOCK_STREAM | SOCK_CLOEXEC, 0, ends))
            give_up("pipe2");
        DONE(covretin_ask_set_vring_call(&vmm.session, 0, ends[1]));
        post(&queue, 0);
        expect_used(&queue, 0, 4);
        EXPECT(sizeof count, read(ends[0], &count, sizeof count));
        EXPECT(1, count);
        close(ends[0]);
        post(&queue, 0);
        expect_used(&queue, 0, 4);
        close(ends[1]);
    }
    end();
    close(full);
    free_queue(&queue);
    free_memory();
}

/* The same where the frontend waits meanwhile for a ring to be stopped. */
static void frontend_dies_as_it_waits(void)
{
    begin(&calls);
    negotiate(0);
    make_memory();
    give_memory();
    struct queue queue = make_queue(0);
    start(&queue, 0);
    its.keeps = true;
    write_request(&queue, 0, "waits");
    post(&queue, 0);
    wait_for(&its.kept_count, 1);
    EXPECT(COVRETIN_OK, covretin_ask_get_vring_base(&vmm.session, 0));
    EXPECT(COVRETIN_TIMED_OUT, covretin_exchange(&vmm, 50));
    covretin_disconnect(&vmm);
    usleep(50000);
    EXPECT(0, its.ended);
    answer(its.kept[0]);
    end_as(COVRETIN_DISCONNECTED);
    free_queue(&queue);
    free_memory();
}

/* What the device has stays mapped, and the end is told once it is done. */
static void frontend_dies_amid_a_request(void)
{
    begin(&calls);
    negotiate(0);
    make_memory();
    give_memory();
    struct queue queue = make_queue(0);
    start(&queue, 0);
    its.keeps = true;
    write_request(&queue, 0, "amid");
    post(&queue, 0);
    wait_for(&its.kept_count, 1);
    covretin_disconnect(&vmm);
    usleep(100000);
    EXPECT(0, its.ended);
    answer(its.kept[0]);
    end_as(COVRETIN_DISCONNECTED);
    expect_text(&queue, 0, "AMID");
    EXPECT(0, *word_at(&queue, 2, 2)); /* nobody was told */
    free_queue(&queue);
    free_memory();
}

/* A device is closed with requests under way, which the next one finds in the inflight region, in their order. */
static void goes_on_by_the_inflight_region(void)
{
    covretin_inflight region = {.num_queues = 1, .queue_size = QUEUE_SIZE};
    int32_t fd;
    begin(&calls);
    negotiate(0);
    make_memory();
    give_memory();
    struct queue queue = make_queue(0);
    DONE(covretin_ask_get_inflight_fd(&vmm.session, &region));
    EXPECT(COVRETIN_OK, covretin_answer_inflight(&vmm.session, &region, &fd));
    EXPECT(COVRETIN_OK, covretin_claim_fd(&vmm, &fd));
    DONE(covretin_ask_set_inflight_fd(&vmm.session, &region, fd));
    start(&queue, 0);
    its.keeps = true;
    for (uint16_t head = 0; head < 12; head += 4)
        write_request(&queue, head, "again");
    post(&queue, 8);
    post(&queue, 0);
    post(&queue, 4);
    wait_for(&its.kept_count, 3);
    answer(its.kept[1]);
    expect_used(&queue, 0, 5);
    covretin_device_stop(&device); /* as if it were killed: what it has is not given back */
    usleep(50000);
    answer(its.kept[0]);
    answer(its.kept[2]);
    end_as(COVRETIN_STOPPED);
    EXPECT(1, *word_at(&queue, 2, 2));

    begin(&calls);
    negotiate(0);
    give_memory();
    DONE(covretin_ask_set_inflight_fd(&vmm.session, &region, fd));
    its.keeps = true;
    start(&queue, 1);
    wait_for(&its.kept_count, 2);
    EXPECT(true, its.kept[0]->again && its.kept[1]->again);
    answer(its.kept[0]);
    expect_used(&queue, 8, 5);
    answer(its.kept[1]);
    expect_used(&queue, 4, 5);
    its.keeps = false;
    post(&queue, 0);
    expect_used(&queue, 0, 5);
    EXPECT(false, its.again);
    EXPECT(4, number(covretin_ask_get_vring_base(&vmm.session, 0)));
    end();
    close(fd);
    free_queue(&queue);
    free_memory();
}

/* A packed ring of eight, in its first round. */
static void start_packed(const struct queue *queue)
{
    covretin_vring place = place_of(queue, 0);
    DONE(covretin_ask_set_vring_num(&vmm.session, queue->index, 8));
    DONE(covretin_ask_set_vring_addr(&vmm.session, queue->index, &place));
    DONE(covretin_ask_set_vring_call(&vmm.session, queue->index, queue->call));
    DONE(covretin_ask_set_vring_kick(&vmm.session, queue->index, queue->kick));
    DONE(covretin_ask_set_vring_enable(&vmm.session, queue->index, true));
}

/* A request of two descriptors from a place on: a text, and room for it. */
static void post_packed(const struct queue *queue, uint16_t at, uint16_t id)
{
    uint64_t buffer = BUFFERS + at * 0x100u;
    memcpy(memory + buffer, "packed", 6);
    memset(memory + buffer + 0x80, 0, 0x80);
    put(queue, at + 1u, GUEST + buffer + 0x80, 64, id, 0x80 | WRITE);
    put(queue, at, GUEST + buffer, 6, id, 0);
    __atomic_store_n(word_at(queue, 0, at * 16u + 14), (uint16_t)(0x80 | NEXT), __ATOMIC_SEQ_CST);
    if (eventfd_write(queue->kick, 1))
        give_up("kick");
}

/* This id was used at this place, whose request began at another. */
static void expect_packed(const struct queue *queue, uint16_t at, uint16_t id, uint16_t from)
{
    const uint16_t *flags = word_at(queue, 0, at * 16u + 14);
    for (int i = 0; i < LIMIT && (__atomic_load_n(flags, __ATOMIC_ACQUIRE) & 0x8080) != 0x8080; i++)
        usleep(1000);
    EXPECT(0x8080, __atomic_load_n(flags, __ATOMIC_ACQUIRE) & 0x8080);
    EXPECT(id, *word_at(queue, 0, at * 16u + 12));
    EXPECT(6, *word_at(queue, 0, at * 16u + 8));
    EXPECT(0, memcmp(memory + BUFFERS + from * 0x100u + 0x80, "PACKED", 6));
}

/* Requests of a packed ring that are completed together: the driver sees the first one last. One of DPDK's says the place of what is available
 * alone, and 0 in the place of what is used: that is the same, since nothing is under way. */
static void serves_bursts_of_a_packed_queue(void)
{
    const covretin_device_calls table = bursts_of(0);
    begin(&table);
    negotiate(COVRETIN_DEVICE_RING_PACKED);
    make_memory();
    give_memory();
    struct queue queue = make_queue(0);
    DONE(covretin_ask_set_vring_base(&vmm.session, 0, 0x8000));
    for (uint16_t at = 0; at < 6; at++)
        put(&queue, at, GUEST + BUFFERS + at * 0x100u, 0x80, (uint16_t)(7 - at), 0x80 | WRITE);
    start_packed(&queue);
    wait_for(&its.served, 6);
    EXPECT(true, got.bursts == 1 && got.counts[0] == 6);
    for (uint16_t at = 0; at < 6; at++) {
        EXPECT(0x8080, *word_at(&queue, 0, at * 16u + 14) & 0x8080);
        EXPECT(7 - at, *word_at(&queue, 0, at * 16u + 12));
        EXPECT(3, *word_at(&queue, 0, at * 16u + 8));
    }
    EXPECT(true, is_signalled(queue.call, LIMIT));
    EXPECT(false, is_signalled(queue.call, 50));
    EXPECT(0x80068006, number(covretin_ask_get_vring_base(&vmm.session, 0)));
    end();
    free_queue(&queue);
    free_memory();
}

/* The same of a packed ring, in which the request that was used first has overwritten a descriptor of one that is under way. Then a device
 * ends before it told of what it used, in the middle of the region's writes. */
static void goes_on_in_a_packed_ring(void)
{
    covretin_inflight region = {.num_queues = 1, .queue_size = 8};
    int32_t fd;
    begin(&calls);
    negotiate(COVRETIN_DEVICE_RING_PACKED);
    make_memory();
    give_memory();
    struct queue queue = make_queue(0);
    DONE(covretin_ask_get_inflight_fd(&vmm.session, &region));
    EXPECT(COVRETIN_OK, covretin_answer_inflight(&vmm.session, &region, &fd));
    EXPECT(COVRETIN_OK, covretin_claim_fd(&vmm, &fd));
    EXPECT(320, region.mmap_size); /* 32 bytes, and 32 for each descriptor, up to a multiple of 64 */
    DONE(covretin_ask_set_inflight_fd(&vmm.session, &region, fd));
    start_packed(&queue);
    its.keeps = true;
    for (uint16_t at = 0; at < 6; at += 2)
        post_packed(&queue, at, (uint16_t)(7 - at / 2));
    wait_for(&its.kept_count, 3);
    answer(its.kept[1]);
    expect_packed(&queue, 0, 6, 2);
    covretin_device_stop(&device);
    usleep(50000);
    answer(its.kept[0]);
    answer(its.kept[2]);
    end_as(COVRETIN_STOPPED);
    EXPECT(0x80, *word_at(&queue, 0, 2 * 16 + 14) & 0x8080);

    uint8_t *area = mmap(NULL, 320, PROT_READ | PROT_WRITE, MAP_SHARED, fd, 0);
    EXPECT(1, area[8]);
    EXPECT(2, area[16]);            /* used_idx */
    EXPECT(1, area[32]);            /* the first and the third request are in flight */
    EXPECT(0, area[32 + 2 * 32]);
    EXPECT(1, area[32 + 4 * 32]);
    area[32 + 32 + 2] = area[12];   /* the first is given back, */
    area[12] = 0;
    area[16] = 4;                   /* and nobody was told */
    begin(&calls);
    negotiate(COVRETIN_DEVICE_RING_PACKED);
    give_memory();
    DONE(covretin_ask_set_inflight_fd(&vmm.session, &region, fd));
    its.keeps = true;
    start_packed(&queue);
    wait_for(&its.kept_count, 2);
    EXPECT(true, its.kept[0]->again && its.kept[1]->again);
    EXPECT(2, area[16]);
    answer(its.kept[1]);
    expect_packed(&queue, 2, 5, 4);
    answer(its.kept[0]);
    expect_packed(&queue, 4, 7, 0);
    its.keeps = false;
    post_packed(&queue, 6, 3);
    expect_packed(&queue, 6, 3, 6);
    EXPECT(false, its.again);
    EXPECT(0, number(covretin_ask_get_vring_base(&vmm.session, 0))); /* the second round's first place */
    EXPECT(true, area[16] == 0 && area[18] == 0 && area[20] == 0 && area[21] == 0);
    end();
    munmap(area, 320);
    close(fd);
    free_queue(&queue);
    free_memory();
}

/* A packed ring is found anew where its regions are mapped anew, and lies in none meanwhile; what was found in it before is found again. */
static void a_packed_ring_moves(void)
{
    begin(&calls);
    negotiate(COVRETIN_DEVICE_RING_PACKED);
    make_memory();
    covretin_region rings = region_of(0, BUFFERS), buffers = region_of(BUFFERS, SIZE - BUFFERS);
    struct queue queue = make_queue(0);
    DONE(covretin_ask_add_mem_region(&vmm.session, &rings));
    DONE(covretin_ask_add_mem_region(&vmm.session, &buffers));
    start_packed(&queue);
    post_packed(&queue, 0, 1);
    expect_packed(&queue, 0, 1, 0);
    DONE(covretin_ask_remove_mem_region(&vmm.session, &rings));
    post_packed(&queue, 2, 2);
    usleep(50000);
    EXPECT(1, its.served);
    DONE(covretin_ask_add_mem_region(&vmm.session, &rings));
    expect_packed(&queue, 2, 2, 2);
    give_memory();
    post_packed(&queue, 4, 3);
    expect_packed(&queue, 4, 3, 4);
    EXPECT(0x80068006, number(covretin_ask_get_vring_base(&vmm.session, 0)));
    end();
    free_queue(&queue);
    free_memory();
}

/* Regions come and go while a request is under way, whose bytes stay; one that lies nowhere breaks its queue, until a reset. The same region may
 * be given many times, as QEMU before 8.1 does for each pair of queues, and goes once it was taken back as often. */
static void regions_come_and_go(void)
{
    int file = memfd_create("other", MFD_CLOEXEC);
    if (file < 0 || ftruncate(file, SIZE))
        give_up("memfd_create");
    begin(&calls);
    negotiate(0);
    make_memory();
    covretin_region rings = region_of(0, BUFFERS), buffers = region_of(BUFFERS, SIZE - BUFFERS), odd = region_of(BUFFERS, 0x1000);
    struct queue queue = make_queue(0);
    EXPECT(COVRETIN_DEVICE_MAX_REGIONS, number(covretin_ask_get_max_mem_slots(&vmm.session)));
    DONE(covretin_ask_add_mem_region(&vmm.session, &rings));
    DONE(covretin_ask_add_mem_region(&vmm.session, &buffers));
    REFUSED(covretin_ask_add_mem_region(&vmm.session, &odd)); /* it overlaps */
    covretin_region other = buffers;
    other.fd = file;
    REFUSED(covretin_ask_add_mem_region(&vmm.session, &other)); /* of another file */
    for (uint32_t i = 0; i < calls.queues; i++)
        DONE(covretin_ask_add_mem_region(&vmm.session, &buffers));
    REFUSED(covretin_ask_add_mem_region(&vmm.session, &buffers)); /* more often than there are queues */
    start(&queue, 0);
    its.keeps = true;
    write_request(&queue, 0, "kept");
    post(&queue, 0);
    wait_for(&its.kept_count, 1);
    for (uint32_t i = 0; i < calls.queues; i++)
        DONE(covretin_ask_remove_mem_region(&vmm.session, &buffers));
    REFUSED(covretin_ask_add_mem_region(&vmm.session, &odd)); /* it is there still */
    DONE(covretin_ask_remove_mem_region(&vmm.session, &buffers));
    REFUSED(covretin_ask_remove_mem_region(&vmm.session, &buffers));
    answer(its.kept[0]);
    expect_used(&queue, 0, 4);
    expect_text(&queue, 0, "KEPT");
    post(&queue, 0);
    EXPECT(true, is_signalled(queue.error, LIMIT));
    wait_for(&its.broken, 1);
    EXPECT(COVRETIN_QUEUE_NOT_IN_GUEST, its.why_broken);
    end();
    free_queue(&queue);
    free_memory();
    close(file);
}

/* The two regions, at whose border buffers lie: a text, and room for it. */
static void give_two_regions(void)
{
    covretin_region rings = region_of(0, BUFFERS), buffers = region_of(BUFFERS, SIZE - BUFFERS);
    DONE(covretin_ask_add_mem_region(&vmm.session, &rings));
    DONE(covretin_ask_add_mem_region(&vmm.session, &buffers));
    memcpy(memory + BUFFERS - 3, "border", 6);
}

/* A table of so many descriptors, a byte each, of which the last third is to be written. */
static void put_table(struct descriptor *table, uint16_t count, bool is_packed)
{
    for (uint16_t i = 0; i < count; i++) {
        uint16_t flags = (uint16_t)((i < count / 3 * 2 ? 0 : WRITE) | (i + 1 < count ? NEXT : 0));
        memory[BUFFERS + i] = 'm';
        table[i] = (struct descriptor){GUEST + BUFFERS + i, 1, is_packed ? 0 : flags, is_packed ? flags : (uint16_t)(i + 1)};
    }
}

/* A chain is followed by parts, where it has more descriptors than are copied at once: in a ring of either layout. */
static void a_request_of_many_descriptors(void)
{
    enum { COUNT = 150 };
    for (int is_packed = 0; is_packed < 2; is_packed++) {
        begin(&calls);
        negotiate(COVRETIN_DEVICE_INDIRECT_DESC | (is_packed ? COVRETIN_DEVICE_RING_PACKED : 0));
        make_memory();
        give_memory();
        struct queue queue = make_queue(0);
        start(&queue, 0);
        its.keeps = true;
        put_table((struct descriptor *)(void *)(memory + 0x70000), COUNT, is_packed);
        if (is_packed) {
            put(&queue, 0, GUEST + 0x70000, COUNT * sizeof(struct descriptor), 3, 0x8000 | INDIRECT); /* (its base is 0, so the wrap counter, too) */
            EXPECT(0, eventfd_write(queue.kick, 1));
        } else {
            put(&queue, 0, GUEST + 0x70000, COUNT * sizeof(struct descriptor), INDIRECT, 0);
            post(&queue, 0);
        }
        wait_for(&its.kept_count, 1);
        EXPECT(true, its.kept[0]->readable == COUNT / 3 * 2 && its.kept[0]->writable == COUNT / 3);
        answer(its.kept[0]);
        EXPECT(true, is_signalled(queue.call, LIMIT));
        for (size_t i = COUNT / 3 * 2; i < COUNT; i++)
            EXPECT('M', memory[BUFFERS + i]);
        end();
        free_queue(&queue);
        free_memory();
    }
}

/* A buffer that lies in two regions is two segments. */
static void a_request_in_two_regions(void)
{
    begin(&calls);
    negotiate(0);
    make_memory();
    give_two_regions();
    struct queue queue = make_queue(0);
    start(&queue, 0);
    its.keeps = true;
    put(&queue, 0, GUEST + BUFFERS - 3, 6, NEXT, 1);
    put(&queue, 1, GUEST + BUFFERS - 2, 64, WRITE, 0);
    post(&queue, 0);
    wait_for(&its.kept_count, 1);
    EXPECT(true, its.kept[0]->readable == 2 && its.kept[0]->writable == 2);
    answer(its.kept[0]);
    expect_used(&queue, 0, 6);
    EXPECT(0, memcmp(memory + BUFFERS - 2, "BORDER", 6));
    end();
    free_queue(&queue);
    free_memory();
}

/* The same in a packed ring, and once more by the inflight region, which has each descriptor once. */
static void a_packed_request_in_two_regions(void)
{
    covretin_inflight region = {.num_queues = 1, .queue_size = 8};
    struct queue queue;
    int32_t fd;
    make_memory();
    for (int again = 0; again < 2; again++) {
        begin(&calls);
        negotiate(COVRETIN_DEVICE_RING_PACKED);
        give_two_regions();
        if (!again) {
            queue = make_queue(0);
            DONE(covretin_ask_get_inflight_fd(&vmm.session, &region));
            EXPECT(COVRETIN_OK, covretin_answer_inflight(&vmm.session, &region, &fd));
            EXPECT(COVRETIN_OK, covretin_claim_fd(&vmm, &fd));
            put(&queue, 1, GUEST + BUFFERS - 2, 64, 3, 0x80 | WRITE);
            put(&queue, 0, GUEST + BUFFERS - 3, 6, 3, 0x80 | NEXT);
        }
        DONE(covretin_ask_set_inflight_fd(&vmm.session, &region, fd));
        its.keeps = true;
        start_packed(&queue);
        wait_for(&its.kept_count, 1);
        EXPECT(true, its.kept[0]->again == (again != 0) && its.kept[0]->readable == 2 && its.kept[0]->writable == 2);
        if (!again) { /* (what is answered now nobody is told of) */
            covretin_device_stop(&device);
            usleep(50000);
        }
        answer(its.kept[0]);
        if (again)
            end();
        else
            end_as(COVRETIN_STOPPED);
    }
    EXPECT(true, *word_at(&queue, 0, 14) == 0x8082 && *word_at(&queue, 0, 12) == 3 && *word_at(&queue, 0, 8) == 6);
    EXPECT(0, memcmp(memory + BUFFERS - 2, "BORDER", 6));
    close(fd);
    free_queue(&queue);
    free_memory();
}

/* What a packed queue's requests point to came after it, and goes meanwhile. */
static void a_packed_queue_keeps_what_it_has(void)
{
    begin(&calls);
    negotiate(COVRETIN_DEVICE_RING_PACKED);
    make_memory();
    covretin_region rings = region_of(0, BUFFERS), buffers = region_of(BUFFERS, SIZE - BUFFERS);
    struct queue queue = make_queue(0);
    covretin_vring place = place_of(&queue, 0);
    DONE(covretin_ask_add_mem_region(&vmm.session, &rings));
    DONE(covretin_ask_set_vring_num(&vmm.session, 0, 4));
    DONE(covretin_ask_set_vring_addr(&vmm.session, 0, &place));
    DONE(covretin_ask_set_vring_call(&vmm.session, 0, queue.call));
    DONE(covretin_ask_set_vring_kick(&vmm.session, 0, queue.kick));
    DONE(covretin_ask_set_vring_enable(&vmm.session, 0, true));
    DONE(covretin_ask_add_mem_region(&vmm.session, &buffers));
    its.keeps = true;
    memcpy(memory + BUFFERS, "packed", 6);
    put(&queue, 1, GUEST + BUFFERS + 0x100, 64, 3, 0x80 | WRITE);
    put(&queue, 0, GUEST + BUFFERS, 6, 3, 0);
    __atomic_store_n(word_at(&queue, 0, 14), (uint16_t)(0x80 | NEXT), __ATOMIC_SEQ_CST);
    if (eventfd_write(queue.kick, 1))
        give_up("kick");
    wait_for(&its.kept_count, 1);
    DONE(covretin_ask_remove_mem_region(&vmm.session, &buffers));
    answer(its.kept[0]);
    EXPECT(true, is_signalled(queue.call, LIMIT));
    EXPECT(0, memcmp(memory + BUFFERS + 0x100, "PACKED", 6));
    end();
    free_queue(&queue);
    free_memory();
}

static void logs_what_it_writes(void)
{
    covretin_region log = {.memory_size = 0x4000};
    begin(&calls);
    negotiate(COVRETIN_FEATURE_LOG_ALL);
    make_memory();
    give_memory();
    struct queue queue = make_queue(0);
    log.fd = memfd_create("log", MFD_CLOEXEC);
    if (log.fd < 0 || ftruncate(log.fd, 0x4000))
        give_up("memfd_create");
    uint8_t *bits = mmap(NULL, 0x4000, PROT_READ | PROT_WRITE, MAP_SHARED, log.fd, 0);
    DONE(covretin_ask_set_log_base(&vmm.session, 0, &log));
    start(&queue, 0);
    covretin_vring place = place_of(&queue, GUEST + 0x2000);
    DONE(covretin_ask_set_vring_addr(&vmm.session, 0, &place));
    write_request(&queue, 0, "logged");
    post(&queue, 0);
    expect_used(&queue, 0, 6);
    EXPECT(1, number(covretin_ask_get_vring_base(&vmm.session, 0)));
    size_t page = (GUEST + BUFFERS) / 4096, used = GUEST / 4096 + 2;
    EXPECT(1 << page % 8, bits[page / 8]);
    EXPECT(1 << used % 8, bits[used / 8]);
    size_t set = 0;
    for (size_t i = 0; i < 0x4000; i++)
        set += bits[i] != 0;
    EXPECT(2, set);
    end();
    munmap(bits, 0x4000);
    close(log.fd);
    free_queue(&queue);
    free_memory();
}

/* Of a request with far more room than the device says that it wrote, three bytes: these are logged, a mebibyte behind them, and the last. The
 * room begins amid a byte of the log, and the log amid a word. */
static void logs_both_ends_of_a_large_request(void)
{
    enum { ROOM = 0x1000000, ENDS = 0x100000, OFFSET = 3, LOG = 0x8000 };
    const uint64_t guest = GUEST + 2 * ROOM, from = guest + OFFSET * 4096 + 100, first = from / 4096, last = (from + 3 + ENDS - 1) / 4096;
    covretin_region log = {.memory_size = LOG, .mmap_offset = 12, .fd = memfd_create("log", MFD_CLOEXEC)};
    size_t wrong = 0;
    begin(&calls);
    negotiate(COVRETIN_FEATURE_LOG_ALL);
    make_memory();
    covretin_region regions[] = {region_of(0, SIZE), {guest, ROOM, (uint64_t)1 << 40, 0, memfd_create("room", MFD_CLOEXEC)}};
    if (log.fd < 0 || regions[1].fd < 0 || ftruncate(log.fd, LOG + 12) || ftruncate(regions[1].fd, ROOM))
        give_up("memfd_create");
    DONE(covretin_ask_set_mem_table(&vmm.session, regions, 2));
    struct queue queue = make_queue(0);
    uint8_t *bits = mmap(NULL, LOG + 12, PROT_READ | PROT_WRITE, MAP_SHARED, log.fd, 0);
    DONE(covretin_ask_set_log_base(&vmm.session, 0, &log));
    start(&queue, 0);
    write_request(&queue, 0, "abc");
    put(&queue, 1, GUEST + BUFFERS + 2, 1, NEXT, 2);
    put(&queue, 2, from, ROOM - OFFSET * 4096 - 100, WRITE, 0);
    post(&queue, 0);
    expect_used(&queue, 0, 3);
    EXPECT(1, number(covretin_ask_get_vring_base(&vmm.session, 0)));
    for (uint64_t page = 0; page < LOG * 8; page++) {
        bool is_set = bits[12 + page / 8] >> page % 8 & 1;
        wrong += is_set != ((page >= first && page <= last) || (page >= (guest + ROOM - ENDS) / 4096 && page < (guest + ROOM) / 4096));
    }
    EXPECT(0, wrong);
    end();
    munmap(bits, LOG + 12);
    close(log.fd);
    close(regions[1].fd);
    free_queue(&queue);
    free_memory();
}

/* What is no memory file is not mapped; what is no eventfd is no kick. */
static void refuses_other_files(void)
{
    char name[] = "/var/tmp/covretin-device-XXXXXX";
    int file = mkstemp(name), ends[2];
    if (file < 0 || unlink(name) || ftruncate(file, SIZE) || socketpair(AF_UNIX, SOCK_DGRAM, 0, ends))
        give_up("mkstemp");
    begin(&calls);
    negotiate(0);
    make_memory();
    covretin_region region = region_of(0, SIZE), beyond = region_of(4096, SIZE);
    region.fd = ends[0];
    REFUSED(covretin_ask_set_mem_table(&vmm.session, &region, 1));
    REFUSED(covretin_ask_set_mem_table(&vmm.session, &beyond, 1));
    region.fd = file;
    if (fcntl(file, F_GET_SEALS) < 0)
        REFUSED(covretin_ask_set_mem_table(&vmm.session, &region, 1));
    give_memory();
    struct queue queue = make_queue(0);
    REFUSED(covretin_ask_set_vring_kick(&vmm.session, 0, ends[0]));
    REFUSED(covretin_ask_set_vring_call(&vmm.session, 0, ends[0]));
    REFUSED(covretin_ask_set_vring_kick(&vmm.session, 0, queue.kick)); /* it has no size */
    REFUSED(covretin_ask_set_vring_num(&vmm.session, 0, 2048));
    start(&queue, 0);
    write_request(&queue, 0, "goes on");
    post(&queue, 0);
    expect_used(&queue, 0, 7);
    end();
    close(file);
    close(ends[0]);
    close(ends[1]);
    free_queue(&queue);
    free_memory();
}

/* A queue may be as large as the device says, and no larger. */
static void takes_no_larger_queue(void)
{
    covretin_device_calls small = calls;
    small.max_queue_size = QUEUE_SIZE;
    begin(&small);
    negotiate(0);
    make_memory();
    give_memory();
    struct queue queue = make_queue(0);
    REFUSED(covretin_ask_set_vring_num(&vmm.session, 0, 2 * QUEUE_SIZE));
    REFUSED(covretin_ask_set_vring_num(&vmm.session, 0, 0));
    start(&queue, 0);
    write_request(&queue, 0, "small");
    post(&queue, 0);
    expect_used(&queue, 0, 5);
    end();
    free_queue(&queue);
    free_memory();
}

static void has_a_configuration(void)
{
    uint8_t bytes[4] = {1, 2, 3, 4}, read[4] = {0};
    covretin_config part;
    size_t count;
    begin(&calls);
    negotiate(1);
    DONE(covretin_ask_set_config(&vmm.session, 2, 0, bytes, 4));
    EXPECT(3, its.config[4]);
    DONE(covretin_ask_get_config(&vmm.session, 2, 4, 0));
    EXPECT(COVRETIN_OK, covretin_answer_config(&vmm.session, &part, read, 4, &count));
    EXPECT(0, memcmp(bytes, read, 4));
    REFUSED(covretin_ask_set_config(&vmm.session, 6, 0, bytes, 4));
    REFUSED(covretin_ask_set_features(&vmm.session, COVRETIN_DEVICE_VERSION_1 | 2)); /* it is not offered */
    end();
}

/* A frontend that is told so replies only once it has read the configuration; one that refuses is told the next time, too; and one that
 * closes the channel is told no more. */
static void tells_of_a_changed_configuration(void)
{
    covretin_channel_service channel = {0};
    uint32_t call = 0;
    int ends[2];
    begin(&calls);
    negotiate(0);
    if (socketpair(AF_UNIX, SOCK_STREAM | SOCK_CLOEXEC, 0, ends))
        give_up("socketpair");
    DONE(covretin_ask_set_backend_request_fd(&vmm.session, ends[1]));
    close(ends[1]);
    EXPECT(COVRETIN_OK, covretin_channel_serve_fd(&channel, ends[0]));
    EXPECT(COVRETIN_TIMED_OUT, covretin_channel_next_call(&channel, &call, 500));
    for (uint64_t refusal = 0; refusal < 2; refusal++) {
        its.has_changed = true;
        EXPECT(COVRETIN_OK, covretin_channel_next_call(&channel, &call, LIMIT));
        EXPECT(COVRETIN_CHANNEL_CALL_CONFIG_CHANGE, call);
        DONE(covretin_ask_get_config(&vmm.session, 0, 4, 0));
        its.has_changed = true; /* and once more, amid that */
        for (int i = 0; i < LIMIT && its.has_changed; i++)
            usleep(1000);
        EXPECT(COVRETIN_OK, covretin_channel_reply_number(&channel.server, refusal));
        EXPECT(COVRETIN_OK, covretin_channel_next_call(&channel, &call, LIMIT));
        EXPECT(COVRETIN_OK, covretin_channel_reply_number(&channel.server, refusal));
        EXPECT(COVRETIN_TIMED_OUT, covretin_channel_next_call(&channel, &call, 500));
    }
    REFUSED(covretin_ask_set_backend_request_fd(&vmm.session, STDOUT_FILENO)); /* it is no socket */
    covretin_channel_hang_up(&channel);
    usleep(50000);
    its.has_changed = true;
    usleep(500000);
    EXPECT(true, its.has_changed);
    its.has_changed = false;
    end();
}

/* Its end of a channel that the device was given. */
static int given_channel(void)
{
    int ends[2];
    if (socketpair(AF_UNIX, SOCK_STREAM | SOCK_CLOEXEC, 0, ends))
        give_up("socketpair");
    DONE(covretin_ask_set_backend_request_fd(&vmm.session, ends[1]));
    close(ends[1]);
    return ends[0];
}

/* A channel that no callback wants stays open until another one comes, or the session ends; the frontend may close it. */
static void keeps_a_channel_that_nobody_wants(void)
{
    covretin_device_calls without = calls;
    char byte;
    without.config_changed = NULL;
    begin(&without);
    negotiate(0);
    int first = given_channel();
    EXPECT(-1, recv(first, &byte, 1, MSG_DONTWAIT));
    EXPECT(EAGAIN, errno);
    close(given_channel());
    EXPECT(0, recv(first, &byte, 1, 0));
    close(first);
    DONE(covretin_ask_get_config(&vmm.session, 0, 4, 0));
    int last = given_channel();
    end();
    EXPECT(0, recv(last, &byte, 1, 0));
    close(last);
}

/* A ring without eventfds is looked at each millisecond. */
static void polls_a_ring_without_a_kick(void)
{
    begin(&calls);
    negotiate(0);
    make_memory();
    give_memory();
    struct queue queue = make_queue(0);
    start(&queue, 0);
    DONE(covretin_ask_set_vring_kick(&vmm.session, 0, -1));
    DONE(covretin_ask_set_vring_call(&vmm.session, 0, -1));
    write_request(&queue, 0, "polled");
    for (int i = 0; i < 3; i++) {
        post(&queue, 0);
        expect_used(&queue, 0, 6);
    }
    end();
    free_queue(&queue);
    free_memory();
}

/* Posts a request again and again, until the driver is told that it need not kick. */
static void post_until_polled(struct queue *queue, uint32_t len)
{
    for (int i = 0; i < LIMIT && __atomic_load_n(word_at(queue, 2, 0), __ATOMIC_ACQUIRE) == 0; i++) {
        post(queue, 0);
        expect_used(queue, 0, len);
        usleep(1000);
    }
}

/* A driver that is quick need not kick, and is told so; it is as quick as the device says. */
static void polls_a_quick_driver(void)
{
    covretin_device_calls polling = calls;
    polling.busy_poll_us = UINT32_MAX;
    begin(&polling);
    negotiate(0);
    make_memory();
    give_memory();
    struct queue queue = make_queue(0);
    start(&queue, 0);
    write_request(&queue, 0, "quick");
    post_until_polled(&queue, 5);
    for (int i = 0; i < 300; i++) {
        EXPECT(1, *word_at(&queue, 2, 0)); /* no kick is wanted */
        post_without_kick(&queue, 0);
        expect_used(&queue, 0, 5);
    }
    covretin_device_stop(&device);
    end_as(COVRETIN_STOPPED);
    free_queue(&queue);
    free_memory();
}

/* Waits until the driver of a ring is told to kick, 0, or not to, 1. */
static void wait_for_flags(const struct queue *queue, uint16_t wanted)
{
    for (int i = 0; i < LIMIT && __atomic_load_n(word_at(queue, 2, 0), __ATOMIC_ACQUIRE) != wanted; i++)
        usleep(1000);
    EXPECT(wanted, *word_at(queue, 2, 0));
}

/* What the driver of the first queue was asked for as each burst of it was handed out. And whether the device then wants one of the second queue. */
static struct {
    const uint16_t *flags;
    uint16_t seen[MOST_KEPT];
    bool takes;
} asked;

static void on_requests_that_look(void *own, covretin_request *const *requests, size_t count)
{
    covretin_request *none = NULL;
    if (got.bursts < MOST_KEPT)
        asked.seen[got.bursts] = *asked.flags;
    if (asked.takes)
        EXPECT(0, covretin_requests_take(requests[0], 1, &none, 1));
    on_requests(own, requests, count);
}

/* A driver is asked for no kicks while more than a burst is there. */
static void expect_kicks_of_bursts(struct queue *queue)
{
    covretin_vring place = place_of(queue, 0);
    asked.flags = word_at(queue, 2, 0);
    asked.takes = false;
    DONE(covretin_ask_set_vring_num(&vmm.session, 0, 64));
    DONE(covretin_ask_set_vring_addr(&vmm.session, 0, &place));
    for (uint16_t at = 0; at < COVRETIN_DEVICE_BURST + 8; at++) {
        put(queue, at, GUEST + BUFFERS + at * 0x100u, 0x80, WRITE, 0);
        *word_at(queue, 1, 4 + at * 2u) = at;
    }
    *word_at(queue, 1, 2) = queue->posted = COVRETIN_DEVICE_BURST + 8;
    DONE(covretin_ask_set_vring_kick(&vmm.session, 0, queue->kick));
    DONE(covretin_ask_set_vring_enable(&vmm.session, 0, true));
    wait_for(&its.served, COVRETIN_DEVICE_BURST + 8);
    EXPECT(true, got.bursts == 2 && asked.seen[0] == 0 && asked.seen[1] == 1);
    wait_for_flags(queue, 0);
}

/* Nor is it of a queue that the device takes of, until that finds too few. Whoever goes on with a queue finds that kicks are wanted: after the queue was
 * stopped, and after the session has ended. */
static void asks_for_kicks_where_it_waits(void)
{
    covretin_device_calls table = bursts_of(2);
    table.requests = on_requests_that_look;
    begin(&table);
    negotiate(0);
    make_memory();
    give_memory();
    struct queue first = make_queue(0), second = make_queue(1);
    expect_kicks_of_bursts(&first);
    start(&second, 0);
    wait_for_flags(&second, 1);
    asked.takes = true;
    *word_at(&first, 1, 4 + first.posted * 2u) = 0;
    *word_at(&first, 1, 2) = (uint16_t)(first.posted + 1);
    EXPECT(0, eventfd_write(first.kick, 1));
    wait_for(&its.served, COVRETIN_DEVICE_BURST + 9);
    wait_for_flags(&second, 0);
    EXPECT(0, eventfd_write(second.kick, 1));
    wait_for_flags(&second, 1);
    EXPECT(0, number(covretin_ask_get_vring_base(&vmm.session, 1)));
    EXPECT(0, *word_at(&second, 2, 0));
    start(&second, 0);
    wait_for_flags(&second, 1);
    covretin_device_stop(&device);
    end_as(COVRETIN_STOPPED);
    EXPECT(0, *word_at(&second, 2, 0));
    free_queue(&first);
    free_queue(&second);
    free_memory();
}

/* This thread, and those that it begins, use one processor alone. What they could use before. */
static cpu_set_t keep_to_one_processor(void)
{
    cpu_set_t all, one;
    int processor = 0;
    EXPECT(0, sched_getaffinity(0, sizeof all, &all));
    while (!CPU_ISSET(processor, &all))
        processor++;
    CPU_ZERO(&one);
    CPU_SET(processor, &one);
    EXPECT(0, sched_setaffinity(0, sizeof one, &one));
    return all;
}

/* Where there is one processor alone, a ring is not looked at while the device has a request of it, and is once that is given back. */
static void leaves_the_only_processor(void)
{
    covretin_device_calls polling = calls;
    cpu_set_t all = keep_to_one_processor();
    polling.busy_poll_us = UINT32_MAX;
    begin(&polling);
    negotiate(0);
    make_memory();
    give_memory();
    struct queue queue = make_queue(0);
    start(&queue, 0);
    write_request(&queue, 0, "alone");
    post_until_polled(&queue, 5);
    its.keeps = true;
    for (size_t i = 0; i < 3; i++) {
        post_without_kick(&queue, 0);
        wait_for(&its.kept_count, i + 1);
        wait_for_flags(&queue, 0);
        answer(its.kept[i]);
        expect_used(&queue, 0, 5);
        wait_for_flags(&queue, 1);
    }
    covretin_device_stop(&device);
    end_as(COVRETIN_STOPPED);
    free_queue(&queue);
    free_memory();
    EXPECT(0, sched_setaffinity(0, sizeof all, &all));
}

/* One that is late is waited for. */
static void waits_for_a_late_driver(void)
{
    covretin_device_calls polling = calls;
    polling.busy_poll_us = 1;
    begin(&polling);
    negotiate(0);
    make_memory();
    give_memory();
    struct queue queue = make_queue(0);
    start(&queue, 0);
    write_request(&queue, 0, "late");
    for (int i = 0; i < 20; i++) {
        usleep(2000);
        EXPECT(0, *word_at(&queue, 2, 0));
        post(&queue, 0);
        expect_used(&queue, 0, 4);
    }
    end();
    free_queue(&queue);
    free_memory();
}

/* A call that the device answers, so that its loop comes round. */
static void kick_loop(void)
{
    EXPECT(3, number(covretin_ask_get_queue_num(&vmm.session)));
}

/* The same without a request that was handed out, between two turns of the loop. */
static void takes_by_itself(void)
{
    covretin_device_calls taking = calls;
    taking.taken_queues = 1;
    begin(&taking);
    negotiate(0);
    make_memory();
    give_memory();
    struct queue queue = make_queue(0);
    start(&queue, 0);
    write_request(&queue, 0, "itself");
    its.is_over = true;
    post(&queue, 0); /* whose kick has the loop come round */
    pthread_join(loop_thread, NULL);
    EXPECT(true, covretin_device_take(&device, 1) == NULL);
    EXPECT(true, covretin_device_take(&device, 3) == NULL);
    answer(covretin_device_take(&device, 0));
    expect_used(&queue, 0, 6);
    expect_text(&queue, 0, "ITSELF");
    EXPECT(true, covretin_device_take(&device, 0) == NULL);
    covretin_device_close(&device);
    EXPECT(true, covretin_device_take(&device, 0) == NULL);
    covretin_disconnect(&vmm);
    free_queue(&queue);
    free_memory();
}

/* A device that is closed calls nobody back, and what it handed out may still be done. */
static void closes_amid_a_request(void)
{
    begin(&calls);
    negotiate(0);
    make_memory();
    give_memory();
    struct queue queue = make_queue(0);
    start(&queue, 0);
    its.keeps = true;
    write_request(&queue, 0, "closed");
    post(&queue, 0);
    wait_for(&its.kept_count, 1);
    its.is_over = true;
    kick_loop();
    pthread_join(loop_thread, NULL);
    covretin_device_close(&device);
    EXPECT(COVRETIN_OK, covretin_ask_get_features(&vmm.session));
    EXPECT(COVRETIN_DISCONNECTED, covretin_exchange(&vmm, LIMIT)); /* the frontend is hung up on */
    answer(its.kept[0]);
    expect_text(&queue, 0, "CLOSED");
    EXPECT(0, *word_at(&queue, 2, 2));
    EXPECT(0, its.ended);
    covretin_disconnect(&vmm);
    free_queue(&queue);
    free_memory();
}

/* -- A guest that writes anything -- */

/* A number below a bound: a linear congruential generator goes on. */
static uint32_t any(uint32_t below)
{
    static uint32_t state = 1;
    state = state * 1664525 + 1013904223;
    return (uint32_t)(((uint64_t)state * below) >> 32);
}

/* Descriptors that are often right, a table of them in a buffer among these, and heads. */
static void write_anything(const struct queue *queue, bool is_packed)
{
    for (int i = 0; i < 6; i++) {
        uint64_t at = any(8) != 0 ? GUEST + any(SIZE) : (uint64_t)any(UINT32_MAX) << any(40);
        uint32_t len = any(16) != 0 ? any(0x200) : any(UINT32_MAX);
        uint16_t flags = (uint16_t)(any(8) | (any(2) != 0 ? 0x80u : 0) | (any(2) != 0 ? 0x8000u : 0));
        struct descriptor it = {at, len, is_packed ? (uint16_t)any(QUEUE_SIZE + 1) : flags & 7, is_packed ? flags : (uint16_t)any(QUEUE_SIZE + 1)};
        if (any(4) == 0)
            it = (struct descriptor){GUEST + 0x70000, 16 * any(20), it.flags, it.next};
        memcpy(any(2) != 0 ? part_of(queue, 0) + any(QUEUE_SIZE) * 16 : memory + 0x70000 + any(16) * 16, &it, sizeof it);
        *word_at(queue, 1, 4 + any(QUEUE_SIZE + 1) * 2) = (uint16_t)any(QUEUE_SIZE + (any(8) == 0));
    }
}

/* Whatever is in its rings, the device answers its frontend; a queue that broke is begun anew. */
static void bear(struct queue *queue, bool is_packed)
{
    size_t broken = 0;
    // (on a busy machine the device sees few of the rounds)
    for (int round = 0; round < 4000 || (round < 400000 && (broken <= 10 || its.served <= 10)); round++) {
        write_anything(queue, is_packed);
        if (!is_packed)
            __atomic_store_n(word_at(queue, 1, 2), (uint16_t)(*word_at(queue, 1, 2) + any(3) + (any(100) == 0 ? 99 : 0)), __ATOMIC_SEQ_CST);
        if (eventfd_write(queue->kick, 1))
            give_up("kick");
        if (round % 8 != 0)
            continue;
        uint64_t count = number(covretin_ask_get_queue_num(&vmm.session));
        EXPECT(3, count);
        if (count != 3)
            return;
        if (its.broken == broken)
            continue;
        broken = its.broken;
        memset(part_of(queue, 0), 0, QUEUE_ROOM - 4096);
        number(covretin_ask_get_vring_base(&vmm.session, queue->index));
        start(queue, 0);
    }
    EXPECT(true, broken > 10);
    EXPECT(true, its.served > 10);
}

static void bears_anything_in_a_split_queue(void)
{
    covretin_device_calls polling = calls;
    polling.busy_poll_us = 20;
    begin(&polling);
    negotiate(COVRETIN_DEVICE_INDIRECT_DESC | COVRETIN_DEVICE_EVENT_IDX);
    make_memory();
    give_memory();
    struct queue queue = make_queue(0);
    start(&queue, 0);
    bear(&queue, false);
    end();
    free_queue(&queue);
    free_memory();
}

static void bears_anything_in_a_packed_queue(void)
{
    covretin_device_calls polling = calls;
    polling.busy_poll_us = 20;
    begin(&polling);
    negotiate(COVRETIN_DEVICE_INDIRECT_DESC | COVRETIN_DEVICE_RING_PACKED);
    make_memory();
    give_memory();
    struct queue queue = make_queue(0);
    start(&queue, 0);
    bear(&queue, true);
    end();
    free_queue(&queue);
    free_memory();
}

static void refuses_tables(void)
{
    covretin_device_calls none = {.queues = 1}, many = {.queues = COVRETIN_DEVICE_MAX_QUEUES + 1, .request = on_request};
    covretin_device_calls later = {.queues = 1, .request = on_request, .later = {0, 1}};
    covretin_device_calls large = {.queues = 1, .request = on_request, .max_queue_size = COVRETIN_DEVICE_MAX_QUEUE_SIZE + 1};
    covretin_listener listener = {0};
    int file = memfd_create("none", MFD_CLOEXEC);
    EXPECT(COVRETIN_INVALID_PARAM, covretin_device_open_fd(&device, &none, NULL, file));
    EXPECT(COVRETIN_INVALID_PARAM, covretin_device_open_fd(&device, &many, NULL, file));
    EXPECT(COVRETIN_INVALID_PARAM, covretin_device_open_fd(&device, &later, NULL, file));
    EXPECT(COVRETIN_INVALID_PARAM, covretin_device_open_fd(&device, &large, NULL, file));
    EXPECT(COVRETIN_INVALID_PARAM, covretin_device_run(&none, NULL, "")); /* before its path is looked at */
    EXPECT(COVRETIN_INVALID_SOCKET_FD, covretin_device_open_fd(&device, &calls, NULL, file));
    EXPECT(COVRETIN_NO_SESSION, covretin_device_open(&device, &calls, NULL, &listener));
    EXPECT(COVRETIN_OK, covretin_listen(&listener, "device.socket"));
    EXPECT(COVRETIN_TIMED_OUT, covretin_device_open(&device, &calls, NULL, &listener));
    EXPECT(COVRETIN_INVALID_PATH, covretin_device_run(&calls, NULL, ""));
    covretin_device_close(&device);
    covretin_device_stop(&device);
    covretin_unlisten(&listener);
    close(file);
}

/* What no reply refuses ends the session, and the device is told what was refused. So the base of a ring that it has is never refused, however
 * far that is set up: QEMU ends itself where it is. */
static void ends_by_what_no_reply_refuses(void)
{
    begin(&calls);
    negotiate(0);
    for (size_t ring = 0; ring < calls.queues; ring++)
        for (int time = 0; time < 2; time++) {
            DONE(covretin_ask_get_vring_base(&vmm.session, ring));
            DONE(covretin_ask_set_vring_num(&vmm.session, ring, QUEUE_SIZE));
        }
    EXPECT(COVRETIN_DISCONNECTED, outcome(covretin_ask_get_vring_base(&vmm.session, 7))); /* the device has no such ring */
    end_as(COVRETIN_BACKEND_INTERNAL_ERROR);
}

/* Sends a request that the frontend's library does not make, with a byte as its body and maybe a descriptor: what it is acknowledged by. */
static uint64_t acknowledged(uint32_t request, int fd)
{
    struct {
        uint32_t head[3];
        uint8_t body;
    } sent = {{request, 1 | 8, 1}, 77};
    struct {
        uint32_t head[3], low, high;
    } came = {{0}, 0, 0};
    union {
        struct cmsghdr head;
        char room[CMSG_SPACE(sizeof(int))];
    } with = {.head = {.cmsg_len = CMSG_LEN(sizeof fd), .cmsg_level = SOL_SOCKET, .cmsg_type = SCM_RIGHTS}};
    struct iovec whole = {&sent, 13};
    struct msghdr message = {.msg_iov = &whole, .msg_iovlen = 1};
    memcpy(CMSG_DATA(&with.head), &fd, sizeof fd);
    if (fd >= 0)
        message = (struct msghdr){.msg_iov = &whole, .msg_iovlen = 1, .msg_control = &with, .msg_controllen = sizeof with.room};
    EXPECT(13, sendmsg(covretin_connection_fd(&vmm), &message, 0));
    EXPECT(sizeof came, recv(covretin_connection_fd(&vmm), &came, sizeof came, MSG_WAITALL));
    EXPECT(request, came.head[0]);
    return came.low | (uint64_t)came.high << 32;
}

/* A request that has no call of its own is the device's, whole; where the device has nothing for those it is refused. */
static void gives_other_requests(void)
{
    covretin_device_stats counted = {0};
    covretin_device_calls others = calls;
    others.other = on_other;
    others.protocol_features = COVRETIN_PROTOCOL_RARP;
    others.stats = &counted;
    begin(&others);
    negotiate(0);
    EXPECT(COVRETIN_PROTOCOL_RARP, number(covretin_ask_get_protocol_features(&vmm.session)) & COVRETIN_PROTOCOL_RARP);
    EXPECT(0, acknowledged(19, -1));
    EXPECT(true, its.other == 19 && its.other_len == 1 && its.other_first == 77);
    EXPECT(0, acknowledged(601, memory_fd = memfd_create("sent", MFD_CLOEXEC)));
    EXPECT(601, its.other);
    EXPECT(8, write(its.other_copy, "the same", 8));
    EXPECT(8, lseek(memory_fd, 0, SEEK_CUR));
    EXPECT(0, counted.refusals);
    EXPECT(1, acknowledged(600, -1));
    EXPECT(600, its.other);
    EXPECT(3, number(covretin_ask_get_queue_num(&vmm.session))); /* (what is refused is counted once that was said) */
    EXPECT(1, counted.refusals);
    end();
    close(its.other_copy);
    close(memory_fd);
    begin(&calls);
    negotiate(0);
    its.other = 0;
    EXPECT(1, acknowledged(19, -1));
    EXPECT(0, its.other);
    end();
}

/* Sends a request whose body is a number, or nothing. */
static void send_bare(int socket, uint32_t request, uint32_t flags, uint32_t size, uint64_t number)
{
    uint32_t whole[5] = {request, 1 | flags, size, (uint32_t)number, (uint32_t)(number >> 32)};
    EXPECT(12 + size, send(socket, whole, 12 + size, 0));
}

/* How many bytes are there to be read. */
static int unread(int socket)
{
    int count = -1;
    EXPECT(0, ioctl(socket, FIONREAD, &count));
    return count;
}

/* A refusal is counted before its acknowledgement is sent, so that whoever has read this sees the new count. Here the acknowledgement finds no
 * room. */
static void counts_a_refusal_before_it_is_told(void)
{
    static const uint8_t filling[4096];
    covretin_device_stats counted = {0};
    covretin_device_calls table = calls;
    int ends[2], same = -1, before;
    table.stats = &counted;
    if (socketpair(AF_UNIX, SOCK_STREAM | SOCK_CLOEXEC, 0, ends) || (same = dup(ends[0])) < 0)
        give_up("socketpair");
    EXPECT(COVRETIN_OK, covretin_device_open_fd(&device, &table, &its, ends[0]));
    send_bare(ends[1], 1, 0, 0, 0);                                  /* GET_FEATURES */
    send_bare(ends[1], 2, 0, 8, COVRETIN_FEATURE_PROTOCOL_FEATURES); /* SET_FEATURES */
    send_bare(ends[1], 15, 0, 0, 0);                                 /* GET_PROTOCOL_FEATURES */
    send_bare(ends[1], 16, 0, 8, COVRETIN_PROTOCOL_REPLY_ACK);       /* SET_PROTOCOL_FEATURES */
    for (int i = 0; i < 16; i++)
        EXPECT(COVRETIN_NOT_YET, covretin_device_serve(&device));
    while (send(same, filling, sizeof filling, MSG_DONTWAIT) > 0)
        ;
    before = unread(ends[1]);
    send_bare(ends[1], 39, 8, 8, 0); /* SET_STATUS, with an acknowledgement */
    for (int i = 0; i < 3; i++)
        EXPECT(COVRETIN_NOT_YET, covretin_device_serve(&device));
    EXPECT(before, unread(ends[1]));
    EXPECT(1, counted.refusals);
    close(same);
    close(ends[1]);
    while (covretin_device_serve(&device) == COVRETIN_NOT_YET)
        ;
    EXPECT(1, counted.refusals);
    covretin_device_close(&device);
}

/* It serves one frontend after another, hangs up on one that comes meanwhile, and ends at a signal. */
static void run_until_a_signal(void *(*how)(void *))
{
    covretin_connection other = {0};
    its.ended = its.served = its.turned_away = 0;
    its.keeps = false;
    if (pthread_create(&loop_thread, NULL, how, NULL))
        give_up("pthread_create");
    for (int round = 0; round < 2; round++) {
        while (covretin_connect(&vmm, "device.socket", 8, LIMIT) == COVRETIN_SOCKET_CONNECT)
            usleep(1000);
        negotiate(0);
        make_memory();
        give_memory();
        struct queue queue = make_queue(0);
        start(&queue, 0);
        write_request(&queue, 0, "run");
        memcpy(memory + BUFFERS, "run", 3);
        post(&queue, 0);
        expect_used(&queue, 0, 3);
        EXPECT(COVRETIN_OK, covretin_connect(&other, "device.socket", 8, LIMIT));
        EXPECT(COVRETIN_OK, covretin_ask_get_features(&other.session));
        EXPECT(COVRETIN_DISCONNECTED, covretin_exchange(&other, LIMIT));
        covretin_disconnect(&other);
        wait_for(&its.turned_away, (size_t)round + 1);
        covretin_disconnect(&vmm);
        wait_for(&its.ended, (size_t)round + 1);
        free_queue(&queue);
        free_memory();
    }
    pthread_kill(loop_thread, SIGTERM);
    pthread_join(loop_thread, NULL);
    EXPECT(COVRETIN_OK, ran);
}

static void runs_until_a_signal(void)
{
    run_until_a_signal(run_device);
    EXPECT(-1, access("device.socket", F_OK));
}

static void runs_with_a_listener_that_is_there(void)
{
    EXPECT(COVRETIN_NO_SESSION, covretin_device_run_listener(&calls, &its, &there));
    EXPECT(COVRETIN_OK, covretin_listen(&there, "device.socket"));
    run_until_a_signal(run_listener);
    EXPECT(0, access("device.socket", F_OK));
    covretin_unlisten(&there);
}

/* A device that runs in a thread, over a socket that is connected. */
static void begin_run(const covretin_device_calls *table)
{
    int ends[2];
    if (socketpair(AF_UNIX, SOCK_STREAM | SOCK_CLOEXEC, 0, ends))
        give_up("socketpair");
    its.ended = its.served = 0;
    its.keeps = false;
    run_calls = table;
    run_end = ends[0];
    EXPECT(COVRETIN_OK, covretin_connect_fd(&vmm, ends[1], 8));
    if (pthread_create(&loop_thread, NULL, run_fd, NULL))
        give_up("pthread_create");
    negotiate(0);
}

static void runs_with_one_frontend(void)
{
    begin_run(&calls);
    covretin_disconnect(&vmm);
    pthread_join(loop_thread, NULL);
    EXPECT(COVRETIN_DISCONNECTED, ran);
    EXPECT(1, its.ended);
    begin_run(&calls);
    pthread_kill(loop_thread, SIGINT);
    pthread_join(loop_thread, NULL);
    EXPECT(COVRETIN_OK, ran);
    EXPECT(COVRETIN_OK, covretin_ask_get_features(&vmm.session));
    EXPECT(COVRETIN_DISCONNECTED, covretin_exchange(&vmm, LIMIT));
    covretin_disconnect(&vmm);
    EXPECT(COVRETIN_INVALID_SOCKET_FD, covretin_device_run_fd(&calls, &its, -1));
}

static int asked_for_input;

/* Three bytes at a time go into a buffer of the first queue's. */
static bool on_input(void *own, covretin_device *it)
{
    covretin_request *buffer = covretin_device_take(it, 0);
    char text[3];
    (void)own;
    asked_for_input++;
    if (buffer == NULL)
        return false;
    EXPECT(3, read(run_calls->input, text, sizeof text));
    covretin_request_done(buffer, (uint32_t)covretin_request_write(buffer, text, sizeof text));
    return true;
}

/* Input that waits for a buffer is asked for again once the guest has kicked, and not all the while. */
static void takes_input(void)
{
    covretin_device_calls taking = calls;
    int ends[2];
    EXPECT(0, pipe(ends));
    taking.taken_queues = 1;
    taking.input = ends[0];
    taking.input_ready = on_input;
    asked_for_input = 0;
    begin_run(&taking);
    make_memory();
    give_memory();
    struct queue queue = make_queue(0);
    start(&queue, 0);
    write_request(&queue, 0, "room");
    post(&queue, 0);
    EXPECT(6, write(ends[1], "onetwo", 6));
    expect_used(&queue, 0, 3);
    expect_text(&queue, 0, "one");
    usleep(50000);
    EXPECT(true, asked_for_input < 20);
    post(&queue, 0);
    expect_used(&queue, 0, 3);
    expect_text(&queue, 0, "two");
    covretin_disconnect(&vmm);
    pthread_join(loop_thread, NULL);
    EXPECT(COVRETIN_DISCONNECTED, ran);
    close(ends[0]);
    close(ends[1]);
    free_queue(&queue);
    free_memory();
}

static void hand_on(int number)
{
    (void)number;
    _exit(HANDED_ON);
}

int main(void)
{
    signal(SIGBUS, hand_on);
    RUN(serves_requests);
    RUN(serves_several_queues);
    RUN(serves_indirect_and_event_index);
    RUN(serves_a_packed_queue);
    RUN(completes_later);
    RUN(serves_bursts);
    RUN(a_burst_has_an_end);
    RUN(serves_bursts_of_a_packed_queue);
    RUN(takes_of_a_queue);
    RUN(takes_bursts_of_a_queue);
    RUN(takes_by_itself);
    RUN(ends_where_memory_is_gone);
    RUN(ends_where_a_request_is_gone);
    RUN(ends_no_other_session);
    RUN(hands_on_other_faults);
    RUN(gives_no_zeros_for_memory_that_is_gone);
    RUN(never_waits_for_a_call);
    if (has_userfault()) {
        RUN(takes_pages_as_they_come);
        RUN(waits_for_no_page_of_who_went);
        RUN(stops_while_it_waits_for_a_page);
        RUN(gives_no_zeros_for_a_page_of_who_went);
    } else
        printf("postcopy is left out: userfaultfd is not allowed here\n");
    RUN(frontend_dies_amid_a_request);
    RUN(frontend_dies_as_it_waits);
    RUN(goes_on_by_the_inflight_region);
    RUN(goes_on_in_a_packed_ring);
    RUN(a_packed_ring_moves);
    RUN(regions_come_and_go);
    RUN(a_request_of_many_descriptors);
    RUN(a_request_in_two_regions);
    RUN(a_packed_request_in_two_regions);
    RUN(a_packed_queue_keeps_what_it_has);
    RUN(logs_what_it_writes);
    RUN(logs_both_ends_of_a_large_request);
    RUN(refuses_other_files);
    RUN(takes_no_larger_queue);
    RUN(has_a_configuration);
    RUN(tells_of_a_changed_configuration);
    RUN(keeps_a_channel_that_nobody_wants);
    RUN(polls_a_ring_without_a_kick);
    RUN(polls_a_quick_driver);
    RUN(leaves_the_only_processor);
    RUN(waits_for_a_late_driver);
    RUN(asks_for_kicks_where_it_waits);
    RUN(closes_amid_a_request);
    RUN(bears_anything_in_a_split_queue);
    RUN(bears_anything_in_a_packed_queue);
    RUN(refuses_tables);
    RUN(ends_by_what_no_reply_refuses);
    RUN(gives_other_requests);
    RUN(counts_a_refusal_before_it_is_told);
    RUN(runs_until_a_signal);
    RUN(runs_with_a_listener_that_is_there);
    RUN(runs_with_one_frontend);
    RUN(takes_input);
    return status();
}
