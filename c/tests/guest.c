/* SPDX-License-Identifier: Apache-2.0 */
/* The example disk with a guest: what each request does, in any layout; that what its driver may not ask is answered by an error, and touches
 * nothing; several requests under way, while rings are stopped and the dirty log is switched and replaced; packed rings; chains of anything;
 * and a file that grows.
 *
 *     guest [DISK]
 *
 * In an empty folder. DISK is the compiled c/blk.c, or else ../blk. Each test has one of its own, which has to end with status 0. Prints a
 * line for each, and for each call. Status 0; 1 where something was not so, which the last line says. */
#ifndef _GNU_SOURCE
#define _GNU_SOURCE
#endif

#include "../real/vmm.h"
#include "covretin_channel_socket.h"

#include <fcntl.h>
#include <linux/virtio_blk.h>
#include <signal.h>
#include <stdio.h>
#include <stdlib.h>
#include <string.h>
#include <sys/prctl.h>
#include <sys/socket.h>
#include <sys/stat.h>
#include <sys/wait.h>
#include <time.h>
#include <unistd.h>

enum {
    SECTOR = 512,
    SECTORS = 1024,
    HEADERS = QUEUE_ROOM, /* in the guest's memory: so many headers, a page with ranges and tables, statuses, and data */
    TABLES = HEADERS + PAGE,
    STATUSES = TABLES + PAGE,
    DATA = STATUSES + PAGE,
    SIZE = DATA + 32 * PAGE,
    MOST_SECTORS = 1 << 16 /* of a range */
};

#define INDIRECT ((uint64_t)1 << 28)
#define EVENT_IDX ((uint64_t)1 << 29)
#define RING_PACKED ((uint64_t)1 << 34)

static const char *program = "../blk";
static pid_t disk;
static int image;
static struct memory memory;
static struct virtqueue queue;
static uint32_t used_length; /* of the request before */

/* -- The disk -- */

static uint8_t byte_of(uint64_t sector, size_t at)
{
    return (uint8_t)(sector * 7 + at * 3 + 1);
}

static bool is_sector(const uint8_t *bytes, uint64_t sector)
{
    for (size_t i = 0; i < SECTOR; i++)
        if (bytes[i] != byte_of(sector, i))
            return false;
    return true;
}

static bool is_zero(const uint8_t *bytes)
{
    for (size_t i = 0; i < SECTOR; i++)
        if (bytes[i] != 0)
            return false;
    return true;
}

/* The image's sector. */
static const uint8_t *in_image(uint64_t sector)
{
    static uint8_t bytes[SECTOR];
    check(pread(image, bytes, SECTOR, (off_t)(sector * SECTOR)) == SECTOR, "the image has the sector");
    return bytes;
}

static bool is_image_whole(void)
{
    struct stat file;
    for (uint64_t sector = 0; sector < SECTORS; sector++)
        if (!is_sector(in_image(sector), sector))
            return false;
    return fstat(image, &file) == 0 && file.st_size == SECTORS * SECTOR;
}

static void fill_image(void)
{
    uint8_t bytes[SECTOR];
    image = open("image", O_RDWR | O_CREAT | O_TRUNC | O_CLOEXEC, 0600);
    for (uint64_t sector = 0; sector < SECTORS; sector++) {
        for (size_t i = 0; i < SECTOR; i++)
            bytes[i] = byte_of(sector, i);
        check(write(image, bytes, SECTOR) == SECTOR, "the image is written");
    }
}

/* A disk with these words, and a guest that has a ring where it accepts these features. */
static void begin(const char *word, uint64_t features)
{
    fill_image();
    fflush(stdout);
    disk = fork();
    if (disk == 0) {
        prctl(PR_SET_PDEATHSIG, SIGKILL); /* it goes with its test */
        execl(program, "blk", "socket", "image", "2", word, NULL);
        _exit(127);
    }
    check(disk > 0, "the disk is begun");
    memory = make_memory("guest", SIZE, (uint64_t)1 << 32);
    queue = make_virtqueue(0, memory.at);
    connect_to("socket");
    negotiate(features, 0);
    give_memory(&memory);
    if (!(features & RING_PACKED))
        start_ring(&queue, 0);
}

static void end(void)
{
    int status = 0;
    covretin_disconnect(&device);
    free_virtqueue(&queue);
    free_memory(&memory);
    close(image);
    check(kill(disk, SIGTERM) == 0 && waitpid(disk, &status, 0) == disk && status == 0, "the disk ends with status 0");
}

/* -- Requests -- */

static void describe(unsigned at, const uint8_t *bytes, uint32_t length, uint16_t flags, uint16_t next)
{
    queue.descriptors[at] = (struct descriptor){guest_address(&memory, bytes), length, flags, next};
}

static uint8_t *put_header(unsigned request, uint32_t type, uint64_t sector)
{
    const struct virtio_blk_outhdr header = {.type = type, .sector = sector};
    memory.at[STATUSES + request] = 0xee;
    return memcpy(memory.at + HEADERS + request * sizeof header, &header, sizeof header);
}

/* Posts a request of up to three descriptors. */
static void post_request(unsigned request, uint32_t type, uint64_t sector, const uint8_t *data, uint32_t length)
{
    uint16_t first = (uint16_t)(3 * request), next = (uint16_t)(length == 0 ? first + 2 : first + 1);
    bool is_read = type == VIRTIO_BLK_T_IN || type == VIRTIO_BLK_T_GET_ID;
    describe(first, put_header(request, type, sector), sizeof(struct virtio_blk_outhdr), DESCRIPTOR_NEXT, next);
    describe(first + 1u, data, length, (uint16_t)(DESCRIPTOR_NEXT | (is_read ? DESCRIPTOR_WRITE : 0)), (uint16_t)(first + 2));
    describe(first + 2u, memory.at + STATUSES + request, 1, DESCRIPTOR_WRITE, 0);
    post(&queue, first);
}

/* The chain from a head on was used. */
static void use(uint16_t head)
{
    struct used_element used;
    kick(&queue);
    take(&queue, &used, "the request is used");
    check(used.head == head, "what is used is what was posted");
    used_length = used.length;
}

/* The status of a request. */
static uint8_t ask(uint32_t type, uint64_t sector, uint32_t length)
{
    post_request(0, type, sector, memory.at + DATA, length);
    use(0);
    check(memory.at[STATUSES] == VIRTIO_BLK_S_OK || used_length == 1, "of what failed the status alone was written");
    return memory.at[STATUSES];
}

static void check_goes_on(void)
{
    check(ask(VIRTIO_BLK_T_IN, 5, SECTOR) == VIRTIO_BLK_S_OK && is_sector(memory.at + DATA, 5), "the disk goes on");
}

static void serves_each_request(void)
{
    begin(NULL, 0);
    check(ask(VIRTIO_BLK_T_IN, 5, SECTOR) == VIRTIO_BLK_S_OK && used_length == SECTOR + 1, "a sector is read");
    check(is_sector(memory.at + DATA, 5), "it is the image's");
    check(ask(VIRTIO_BLK_T_OUT, 9, SECTOR) == VIRTIO_BLK_S_OK && used_length == 1, "a sector is written");
    check(is_sector(in_image(9), 5), "it is in the image");
    check(ask(VIRTIO_BLK_T_FLUSH, 0, 0) == VIRTIO_BLK_S_OK && used_length == 1, "that is flushed");
    check(ask(VIRTIO_BLK_T_GET_ID, 0, VIRTIO_BLK_ID_BYTES) == VIRTIO_BLK_S_OK && used_length == VIRTIO_BLK_ID_BYTES + 1, "it has a name");
    check(strcmp((const char *)memory.at + DATA, "covretin") == 0, "which is its own");
    check(ask(VIRTIO_BLK_T_IN, SECTORS - 64, 64 * SECTOR) == VIRTIO_BLK_S_OK, "the last sectors are read");
    check(is_sector(memory.at + DATA + 63 * SECTOR, SECTORS - 1), "to the end");
    stop_ring(&queue);
    end();
}

/* A header in two parts, and a status behind the data, in one descriptor; and a table of all of these. */
static void takes_any_layout(void)
{
    begin(NULL, INDIRECT);
    for (uint64_t sector = 2; sector < 4; sector++) {
        const uint8_t *header = put_header(0, VIRTIO_BLK_T_IN, sector);
        memory.at[DATA + SECTOR] = 0xee;
        describe(1, header, 5, DESCRIPTOR_NEXT, 2);
        describe(2, header + 5, 11, DESCRIPTOR_NEXT, 3);
        describe(3, memory.at + DATA, 100, DESCRIPTOR_WRITE | DESCRIPTOR_NEXT, 4);
        describe(4, memory.at + DATA + 100, SECTOR + 1 - 100, DESCRIPTOR_WRITE, 0);
        memcpy(memory.at + TABLES, queue.descriptors, 5 * sizeof(struct descriptor)); /* where the first is the second, too */
        describe(7, memory.at + TABLES, 5 * sizeof(struct descriptor), 4, 0);
        ((struct descriptor *)(memory.at + TABLES))[0] = queue.descriptors[1];
        ((struct descriptor *)(memory.at + TABLES))[0].next = 2;
        post(&queue, sector == 2 ? 1 : 7);
        use(sector == 2 ? 1 : 7);
        check(used_length == SECTOR + 1 && memory.at[DATA + SECTOR] == VIRTIO_BLK_S_OK, "the request succeeds");
        check(is_sector(memory.at + DATA, sector), "what is read is the image's");
    }
    end();
}

/* -- What is refused -- */

static void refuses_sectors(void)
{
    const struct {
        uint64_t sector;
        uint32_t length;
    } bad[] = {{SECTORS, SECTOR}, {SECTORS - 1, 2 * SECTOR}, {UINT64_MAX, SECTOR}, {(uint64_t)1 << 55, SECTOR}, {0, 100}, {1, SECTOR + 1}};
    begin(NULL, 0);
    for (size_t i = 0; i < sizeof bad / sizeof *bad; i++)
        for (uint32_t type = VIRTIO_BLK_T_IN; type <= VIRTIO_BLK_T_OUT; type++)
            check(ask(type, bad[i].sector, bad[i].length) == VIRTIO_BLK_S_IOERR, "sectors that are not there are refused");
    check(ask(77, 0, SECTOR) == VIRTIO_BLK_S_UNSUPP, "a request of another type is refused");
    check(ask(VIRTIO_BLK_T_GET_ID, 0, VIRTIO_BLK_ID_BYTES - 1) == VIRTIO_BLK_S_IOERR, "a name has 20 bytes");
    check_goes_on();
    check(is_image_whole(), "nothing was written");
    end();
}

static void refuses_chains(void)
{
    begin(NULL, 0);
    describe(0, put_header(0, VIRTIO_BLK_T_OUT, 0), 16, 0, 0);
    post(&queue, 0);
    use(0);
    check(used_length == 0, "what has no room for a status is given back");
    describe(0, put_header(0, VIRTIO_BLK_T_IN, 0), 15, DESCRIPTOR_NEXT, 1);
    describe(1, memory.at + STATUSES, 1, DESCRIPTOR_WRITE, 0);
    post(&queue, 0);
    use(0);
    check(used_length == 1 && memory.at[STATUSES] == VIRTIO_BLK_S_IOERR, "a header has 16 bytes");
    memory.at[STATUSES] = 0xee;
    post(&queue, 1);
    use(1);
    check(used_length == 1 && memory.at[STATUSES] == VIRTIO_BLK_S_IOERR, "there is a header");
    check_goes_on();
    check(is_image_whole(), "nothing was written");
    end();
}

static void is_not_written_where_it_is_for_reading(void)
{
    begin("ro", (uint64_t)1 << VIRTIO_BLK_F_RO);
    for (uint32_t type = VIRTIO_BLK_T_OUT; type <= VIRTIO_BLK_T_WRITE_ZEROES; type += type == VIRTIO_BLK_T_OUT ? 10 : 2) {
        const struct virtio_blk_discard_write_zeroes range = {.num_sectors = 1};
        memcpy(memory.at + DATA, &range, sizeof range);
        check(ask(type, 0, type == VIRTIO_BLK_T_OUT ? SECTOR : sizeof range) == VIRTIO_BLK_S_IOERR, "nothing is written");
    }
    check_goes_on();
    check(is_image_whole(), "nothing was written");
    end();
}

/* -- Ranges -- */

static uint8_t ask_ranges(uint32_t type, const struct virtio_blk_discard_write_zeroes *ranges, uint32_t length)
{
    memcpy(memory.at + DATA, ranges, length);
    return ask(type, 0, length);
}

static void clears_ranges(void)
{
    struct virtio_blk_discard_write_zeroes ranges[16] = {{.sector = 8, .num_sectors = 8}, {.sector = 32, .num_sectors = 3}, {.sector = 70}};
    struct stat file;
    begin(NULL, (uint64_t)1 << VIRTIO_BLK_F_DISCARD | (uint64_t)1 << VIRTIO_BLK_F_WRITE_ZEROES);
    check(ask_ranges(VIRTIO_BLK_T_WRITE_ZEROES, ranges, 3 * sizeof *ranges) == VIRTIO_BLK_S_OK && used_length == 1, "sectors are cleared");
    ranges[0] = (struct virtio_blk_discard_write_zeroes){.sector = SECTORS - 16, .num_sectors = 16, .flags = VIRTIO_BLK_WRITE_ZEROES_FLAG_UNMAP};
    check(ask_ranges(VIRTIO_BLK_T_WRITE_ZEROES, ranges, sizeof *ranges) == VIRTIO_BLK_S_OK, "sectors are cleared, and need no room");
    for (uint64_t sector = 0; sector < SECTORS; sector++)
        if ((sector >= 8 && sector < 16) || (sector >= 32 && sector < 35) || sector >= SECTORS - 16)
            check(is_zero(in_image(sector)), "they are zeros");
        else
            check(is_sector(in_image(sector), sector), "all others are as they were");
    for (uint32_t i = 0; i < 16; i++)
        ranges[i] = (struct virtio_blk_discard_write_zeroes){.sector = 512 + 8 * i, .num_sectors = 8};
    check(ask_ranges(VIRTIO_BLK_T_DISCARD, ranges, sizeof ranges) == VIRTIO_BLK_S_OK && used_length == 1, "sectors are discarded");
    check(fstat(image, &file) == 0 && file.st_size == SECTORS * SECTOR, "the file is as long as it was");
    check_goes_on();
    end();
}

/* One that may not be, behind one that may: neither is cleared. */
static void refuses_ranges(void)
{
    const struct {
        struct virtio_blk_discard_write_zeroes range;
        uint8_t status[2]; /* of a discard, and of writing zeroes */
    } bad[] = {{{0, 8, 2}, {VIRTIO_BLK_S_UNSUPP, VIRTIO_BLK_S_UNSUPP}},
               {{0, 8, 1u << 31 | 1}, {VIRTIO_BLK_S_UNSUPP, VIRTIO_BLK_S_UNSUPP}},
               {{UINT64_MAX, 8, 2}, {VIRTIO_BLK_S_UNSUPP, VIRTIO_BLK_S_UNSUPP}},
               {{0, 8, 1}, {VIRTIO_BLK_S_UNSUPP, VIRTIO_BLK_S_OK}},
               {{SECTORS - 7, 8, 0}, {VIRTIO_BLK_S_IOERR, VIRTIO_BLK_S_IOERR}},
               {{SECTORS + 1, 0, 0}, {VIRTIO_BLK_S_IOERR, VIRTIO_BLK_S_IOERR}},
               {{UINT64_MAX, 8, 0}, {VIRTIO_BLK_S_IOERR, VIRTIO_BLK_S_IOERR}},
               {{0, MOST_SECTORS + 1, 0}, {VIRTIO_BLK_S_IOERR, VIRTIO_BLK_S_IOERR}},
               {{0, UINT32_MAX, 0}, {VIRTIO_BLK_S_IOERR, VIRTIO_BLK_S_IOERR}}};
    const uint32_t lengths[] = {0, 1, 15, 17, 16 * 17};
    struct virtio_blk_discard_write_zeroes ranges[17] = {{.num_sectors = 8}};
    begin(NULL, 0);
    for (uint32_t kind = 0; kind < 2; kind++) {
        uint32_t type = kind == 0 ? VIRTIO_BLK_T_DISCARD : VIRTIO_BLK_T_WRITE_ZEROES;
        for (size_t i = 0; i < sizeof bad / sizeof *bad; i++) {
            ranges[1] = bad[i].range;
            if (bad[i].status[kind] != VIRTIO_BLK_S_OK)
                check(ask_ranges(type, ranges, 2 * sizeof *ranges) == bad[i].status[kind], "a range is refused, and why");
        }
        ranges[1] = ranges[0];
        for (size_t i = 0; i < sizeof lengths / sizeof *lengths; i++)
            check(ask_ranges(type, ranges, lengths[i]) == VIRTIO_BLK_S_IOERR, "it is 1 to 16 whole ranges");
    }
    check(is_image_whole(), "nothing was cleared");
    check_goes_on();
    end();
}

/* -- Several at a time -- */

enum { AT_ONCE = QUEUE_SIZE / 3 };

static uint8_t *data_of(unsigned request)
{
    return memory.at + DATA + request * 4 * PAGE;
}

static void post_reads(unsigned round)
{
    for (unsigned i = 0; i < AT_ONCE; i++) {
        memset(data_of(i), 0, SECTOR);
        post_request(i, VIRTIO_BLK_T_IN, (round * AT_ONCE + i) % (SECTORS - 32), data_of(i), 4 * PAGE);
    }
    kick(&queue);
}

/* (with EVENT_IDX the driver says which one it wants to be called for) */
static void does_several_at_once(void)
{
    begin(NULL, EVENT_IDX);
    for (unsigned round = 0; round < 2000; round++) {
        unsigned seen = 0;
        post_reads(round);
        for (unsigned i = 0; i < AT_ONCE; i++) {
            struct used_element used;
            __atomic_store_n(&queue.available->heads[QUEUE_SIZE], queue.taken, __ATOMIC_SEQ_CST);
            take(&queue, &used, "a request is used");
            seen |= 1u << used.head / 3;
            check(used.length == 4 * PAGE + 1 && memory.at[STATUSES + used.head / 3] == VIRTIO_BLK_S_OK, "it succeeded");
            check(is_sector(data_of(used.head / 3), (round * AT_ONCE + used.head / 3) % (SECTORS - 32)), "what was read is the image's");
        }
        check(seen == (1u << AT_ONCE) - 1, "each is used once");
    }
    stop_ring(&queue);
    end();
}

/* Whoever stops a ring has all back that was taken of it: then nothing of the guest's memory is written. */
static void writes_nothing_once_it_is_stopped(void)
{
    static uint8_t then[SIZE];
    begin(NULL, 0);
    for (unsigned round = 0; round < 300; round++) {
        post_reads(round);
        uint64_t base = number("get_vring_base", covretin_ask_get_vring_base(SESSION, 0));
        memcpy(then, memory.at, SIZE);
        check(queue.used->index == base, "what was taken is given back");
        nanosleep(&(struct timespec){.tv_nsec = 500000}, NULL);
        check(memcmp(then, memory.at, SIZE) == 0, "nothing is written any more");
        queue.taken = (uint16_t)base; /* and the others are taken by the next start */
        start_ring(&queue, 0);
        while (queue.taken != queue.posted) {
            struct used_element used;
            take(&queue, &used, "the others are used");
        }
        stop_ring(&queue);
        start_ring(&queue, 0);
    }
    end();
}

/* -- The dirty log -- */

enum { LOG_SIZE = 0x40000 };

static bool is_marked(const struct memory *log, const uint8_t *at)
{
    uint64_t page = guest_address(&memory, at) / PAGE;
    return log->at[page / 8] >> page % 8 & 1;
}

static void give_log(const struct memory *log)
{
    covretin_region region = {.memory_size = log->size, .fd = log->fd};
    done("set_log_base", covretin_ask_set_log_base(SESSION, 0, &region));
}

static covretin_vring place_of(const struct virtqueue *it, uint64_t log)
{
    return (covretin_vring){.queue_max_size = QUEUE_SIZE,
                            .queue_size = QUEUE_SIZE,
                            .flags = log != 0,
                            .desc_table_addr = (uint64_t)(uintptr_t)it->descriptors,
                            .used_ring_addr = (uint64_t)(uintptr_t)it->used,
                            .avail_ring_addr = (uint64_t)(uintptr_t)it->available,
                            .log_addr = log,
                            .has_log_addr = log != 0};
}

static void set_log(bool is_on)
{
    uint64_t features = FEATURE_VERSION_1 | COVRETIN_FEATURE_PROTOCOL_FEATURES | (is_on ? COVRETIN_FEATURE_LOG_ALL : 0);
    done("set_features", covretin_ask_set_features(SESSION, features));
}

/* Pages that are written from the log's switch on are in it, or in that which takes its place amid requests; all others are not, but for the
 * used ring's, whose flags the disk writes by itself. */
static void check_log(const struct memory *logs, unsigned requests, bool has_all)
{
    for (const uint8_t *at = memory.at; at < memory.at + SIZE; at += PAGE) {
        bool is_ring = at == (uint8_t *)queue.used, is_status = at == memory.at + STATUSES;
        bool is_written = (at >= memory.at + DATA && at < data_of(requests)) || ((is_ring || is_status) && requests != 0);
        bool is_in_log = is_marked(&logs[0], at) || is_marked(&logs[1], at);
        check(is_in_log || !is_written || !has_all, "each page that is written is in the log");
        check(!is_in_log || is_written || is_ring, "no other is in the log");
    }
}

static void logs_amid_requests(void)
{
    struct memory logs[2] = {make_memory("log", LOG_SIZE, 0), make_memory("log", LOG_SIZE, 0)};
    begin(NULL, 0);
    stop_ring(&queue);
    for (unsigned round = 0; round < 300; round++) {
        memset(logs[0].at, 0, LOG_SIZE);
        memset(logs[1].at, 0, LOG_SIZE);
        give_log(&logs[0]);
        start_ring(&queue, guest_address(&memory, (uint8_t *)queue.used));
        set_log(false);
        if (round % 2 == 0)
            set_log(true);
        post_reads(round);
        if (round % 2 != 0)
            set_log(true);
        give_log(&logs[1]);
        if (round % 3 == 0)
            give_log(&logs[0]);
        uint64_t base = number("get_vring_base", covretin_ask_get_vring_base(SESSION, 0));
        check_log(logs, (uint16_t)(base - queue.taken), round % 2 == 0);
        queue.taken = (uint16_t)base;
        start_ring(&queue, 0);
        while (queue.taken != queue.posted) {
            struct used_element used;
            take(&queue, &used, "the others are used");
        }
        stop_ring(&queue);
    }
    end();
    free_memory(&logs[0]);
    free_memory(&logs[1]);
}

/* What comes after another log was given is in that. */
static void logs_where_it_was_told_last(void)
{
    struct memory logs[2] = {make_memory("log", LOG_SIZE, 0), make_memory("log", LOG_SIZE, 0)};
    begin(NULL, COVRETIN_FEATURE_LOG_ALL);
    stop_ring(&queue);
    start_ring(&queue, guest_address(&memory, (uint8_t *)queue.used));
    for (unsigned last = 0; last < 2; last++) {
        give_log(&logs[last]);
        memset(logs[0].at, 0, LOG_SIZE);
        memset(logs[1].at, 0, LOG_SIZE);
        check_goes_on();
        stop_ring(&queue);
        check(is_marked(&logs[last], memory.at + DATA) && is_marked(&logs[last], (uint8_t *)queue.used), "it is in this one");
        check(!is_marked(&logs[1 - last], memory.at + DATA), "and not in the other");
        start_ring(&queue, guest_address(&memory, (uint8_t *)queue.used));
    }
    end();
    free_memory(&logs[0]);
    free_memory(&logs[1]);
}

/* -- A migration -- */

static uint8_t target[SIZE];
static bool is_dirty[SIZE / PAGE];

/* What the log says is to be copied, as a VMM takes it. */
static void take_log(const struct memory *log)
{
    for (size_t i = 0; i < SIZE / PAGE; i++) {
        uint64_t page = memory.guest / PAGE + i;
        uint8_t bit = (uint8_t)(1 << page % 8);
        is_dirty[i] |= (__atomic_fetch_and(&log->at[page / 8], (uint8_t)~bit, __ATOMIC_SEQ_CST) & bit) != 0;
    }
}

static void copy_pages(size_t most)
{
    for (size_t i = 0; i < SIZE / PAGE && most != 0; i++)
        if (is_dirty[i]) {
            is_dirty[i] = false;
            memcpy(target + i * PAGE, memory.at + i * PAGE, PAGE);
            most--;
        }
}

/* The guest's own writes are the VMM's to know. */
static void post_and_tell(unsigned round)
{
    post_reads(round);
    is_dirty[0] = is_dirty[HEADERS / PAGE] = is_dirty[STATUSES / PAGE] = true;
    for (unsigned i = 0; i < AT_ONCE * 4; i++)
        is_dirty[DATA / PAGE + i] = true;
}

static void take_all_that_is_posted(void)
{
    struct used_element used;
    while (queue.taken != queue.posted)
        take(&queue, &used, "a request is used");
}

/* The log begins as QEMU has it begin, amid requests, and others come while pages are copied. Once the ring was stopped, and the last ones were
 * copied, the target has all. */
static void comes_along_in_a_migration(void)
{
    struct memory log = make_memory("log", LOG_SIZE, 0);
    begin(NULL, 0);
    for (unsigned migration = 0; migration < 100; migration++) {
        covretin_vring place = place_of(&queue, guest_address(&memory, (uint8_t *)queue.used));
        post_and_tell(migration);
        memset(is_dirty, 1, sizeof is_dirty);
        give_log(&log);
        set_log(true);
        done("set_vring_addr", covretin_ask_set_vring_addr(SESSION, 0, &place));
        for (unsigned step = 0; step < 30; step++) {
            struct used_element used;
            copy_pages(6);
            while (queue.taken != queue.posted && take_used(&queue, 0, &used))
                ;
            if (queue.taken == queue.posted)
                post_and_tell(migration * 30 + step);
            take_log(&log);
        }
        uint64_t base = number("get_vring_base", covretin_ask_get_vring_base(SESSION, 0));
        take_log(&log);
        copy_pages(SIZE / PAGE);
        check(memcmp(target, memory.at, SIZE) == 0, "the target has all that the source has");
        check(queue.used->index == base, "what was taken was given back");
        set_log(false);
        uint16_t taken = queue.taken;
        queue.taken = (uint16_t)base;
        start_ring(&queue, 0);
        queue.taken = taken;
        take_all_that_is_posted();
    }
    stop_ring(&queue);
    end();
    free_memory(&log);
}

/* -- Packed rings -- */

/* Requests of three descriptors, which go round a ring of eight. */
static void serves_packed_rings(void)
{
    struct packed {
        uint64_t address;
        uint32_t length;
        uint16_t id, flags;
    } *ring;
    unsigned at = 0;
    bool wrap = true;
    begin("packed", RING_PACKED);
    ring = (struct packed *)memory.at;
    covretin_vring place = {.queue_max_size = 8, .queue_size = 8};
    place.desc_table_addr = (uint64_t)(uintptr_t)ring;
    place.avail_ring_addr = (uint64_t)(uintptr_t)memory.at + 256;
    place.used_ring_addr = (uint64_t)(uintptr_t)memory.at + PAGE;
    done("set_vring_num", covretin_ask_set_vring_num(SESSION, 0, 8));
    done("set_vring_addr", covretin_ask_set_vring_addr(SESSION, 0, &place));
    done("set_vring_call", covretin_ask_set_vring_call(SESSION, 0, queue.call));
    done("set_vring_kick", covretin_ask_set_vring_kick(SESSION, 0, queue.kick));
    done("set_vring_enable", covretin_ask_set_vring_enable(SESSION, 0, true));
    for (uint64_t sector = 0; sector < 100; sector++) {
        const struct packed parts[] = {{guest_address(&memory, put_header(0, VIRTIO_BLK_T_IN, sector)), 16, 5, DESCRIPTOR_NEXT},
                                       {guest_address(&memory, memory.at + DATA), SECTOR, 5, DESCRIPTOR_NEXT | DESCRIPTOR_WRITE},
                                       {guest_address(&memory, memory.at + STATUSES), 1, 5, DESCRIPTOR_WRITE}};
        unsigned first = at;
        uint16_t of_first = 0, is_used = wrap ? 0x8080 : 0;
        for (unsigned i = 0; i < 3; i++) {
            uint16_t flags = (uint16_t)(parts[i].flags | (wrap ? 0x80 : 0x8000));
            ring[at] = parts[i];
            ring[at].flags = i == 0 ? (uint16_t)(flags ^ 0x8080) : flags;
            of_first = i == 0 ? flags : of_first;
            wrap = wrap != (at == 7);
            at = (at + 1) % 8;
        }
        __atomic_store_n(&ring[first].flags, of_first, __ATOMIC_SEQ_CST);
        kick(&queue);
        await("a request of a packed ring");
        while ((__atomic_load_n(&ring[first].flags, __ATOMIC_ACQUIRE) & 0x8080) != is_used)
            nanosleep(&(struct timespec){.tv_nsec = 100000}, NULL);
        check(ring[first].id == 5 && ring[first].length == SECTOR + 1, "what was written is told");
        check(memory.at[STATUSES] == VIRTIO_BLK_S_OK && is_sector(memory.at + DATA, sector), "what is read is the image's");
    }
    end();
}

/* -- Anything -- */

static void bears_anything(void)
{
    const uint32_t offsets[] = {HEADERS, HEADERS + 3, STATUSES, DATA, DATA + SECTOR, SIZE - 8, SIZE - 1, SIZE, 0xf0000000};
    const uint32_t lengths[] = {0, 1, 16, 32, SECTOR, SECTOR + 1, 8 * SECTOR, 4 * PAGE, 0xffffffff};
    srand(1);
    begin(NULL, INDIRECT);
    for (unsigned round = 0; round < 4000; round++) {
        for (uint16_t i = 0; i < QUEUE_SIZE; i++)
            describe(i, memory.at + offsets[rand() % (rand() % 4 == 0 ? 9 : 5)], lengths[rand() % (rand() % 8 == 0 ? 9 : 8)],
                     (uint16_t)(rand() % (rand() % 8 == 0 ? 8 : 4)), (uint16_t)(i + 1 + rand() % 2));
        put_header(0, (uint32_t)rand() % 15, (uint64_t)rand() % (SECTORS + 2));
        memcpy(memory.at + TABLES, queue.descriptors, PAGE / 16);
        post(&queue, (uint16_t)(rand() % QUEUE_SIZE));
        kick(&queue);
        if (round % 8 != 7)
            continue;
        number("get_vring_base", covretin_ask_get_vring_base(SESSION, 0));
        memset(memory.at, 0, QUEUE_ROOM);
        queue.posted = queue.taken = 0;
        start_ring(&queue, 0);
    }
    struct stat file;
    check(fstat(image, &file) == 0 && file.st_size == SECTORS * SECTOR, "the file is as long as it was");
    check(ask(VIRTIO_BLK_T_GET_ID, 0, VIRTIO_BLK_ID_BYTES) == VIRTIO_BLK_S_OK, "the disk goes on");
    end();
}

/* -- A file that grows -- */

static uint64_t read_capacity(void)
{
    uint64_t capacity = 0;
    covretin_config part;
    size_t count;
    done("get_config", covretin_ask_get_config(SESSION, 0, sizeof capacity, 0));
    check(covretin_answer_config(SESSION, &part, (uint8_t *)&capacity, sizeof capacity, &count) == COVRETIN_OK, "there is a capacity");
    return capacity;
}

static void tells_that_it_grew(void)
{
    covretin_channel_service channel = {0};
    uint32_t call = 0;
    int ends[2];
    begin(NULL, 0);
    check(read_capacity() == SECTORS, "it is as large as its file");
    check(socketpair(AF_UNIX, SOCK_STREAM | SOCK_CLOEXEC, 0, ends) == 0, "there is a channel");
    done("set_backend_request_fd", covretin_ask_set_backend_request_fd(SESSION, ends[1]));
    close(ends[1]);
    check(covretin_channel_serve_fd(&channel, ends[0]) == COVRETIN_OK, "which is served");
    check(covretin_channel_server_set_reply_ack(&channel.server, true) == COVRETIN_OK, "with acknowledgements");
    check(ask(VIRTIO_BLK_T_IN, SECTORS, SECTOR) == VIRTIO_BLK_S_IOERR, "there is no sector behind the end");
    check(ftruncate(image, (SECTORS + 8) * SECTOR) == 0, "the file grows");
    await("the change of the configuration");
    check(covretin_channel_next_call(&channel, &call, LIMIT) == COVRETIN_OK && call == COVRETIN_CHANNEL_CALL_CONFIG_CHANGE, "it is told");
    check(read_capacity() == SECTORS + 8, "the disk is larger");
    check(covretin_channel_reply_number(&channel.server, 0) == COVRETIN_OK, "that is acknowledged");
    check(covretin_channel_next_call(&channel, &call, 500) == COVRETIN_TIMED_OUT, "it is told once");
    check(ask(VIRTIO_BLK_T_IN, SECTORS, SECTOR) == VIRTIO_BLK_S_OK && is_zero(memory.at + DATA), "there is a sector now");
    covretin_channel_hang_up(&channel);
    end();
}

#define RUN(test) run(#test, test)

static void run(const char *name, void (*test)(void))
{
    size_t before = descriptor_count();
    test();
    check(descriptor_count() == before, "no descriptor is left open");
    printf("%s: ok\n", name);
}

int main(int argc, char **argv)
{
    if (argc == 2)
        program = argv[1];
    RUN(serves_each_request);
    RUN(takes_any_layout);
    RUN(refuses_sectors);
    RUN(refuses_chains);
    RUN(is_not_written_where_it_is_for_reading);
    RUN(clears_ranges);
    RUN(refuses_ranges);
    RUN(does_several_at_once);
    RUN(writes_nothing_once_it_is_stopped);
    RUN(logs_amid_requests);
    RUN(logs_where_it_was_told_last);
    RUN(comes_along_in_a_migration);
    RUN(serves_packed_rings);
    RUN(bears_anything);
    RUN(tells_that_it_grew);
    return 0;
}
