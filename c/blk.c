/* SPDX-License-Identifier: Apache-2.0 */
/* A disk over a file, vhost-user-blk (virtio 1.2, 5.2) over covretin_device.h: blk PATH IMAGE [RINGS [ro] [packed] [pipe]]
 *
 * Listens at PATH and serves one frontend after another until SIGTERM or SIGINT; a second one at a time is hung up on. IMAGE is a raw file,
 * which may grow meanwhile. RINGS is 1 to 8, or else 1; ro: nothing is written; packed: packed rings are offered, too; pipe: a frontend may
 * have itself signalled by pipes and sockets, as User Mode Linux, and is trusted with this disk's time.
 * Prints a line for each frontend that went or was refused, and for each ring whose requests are done again, which another disk left.
 * Status 0; 2 after wrong arguments; 4 where something failed.
 *
 * A request is checked as it comes. What the page cache has is read then; all else is done by one of some threads, or where liburing is there
 * (compile it with -luring then, or with -DBLK_THREADS) by the kernel, and a thread does again what that did not do whole. A file that is opened
 * without a cache (O_DIRECT) is read and written in whole blocks, to and from memory that lies so; what does not is copied by a thread. */
#ifndef _GNU_SOURCE
#define _GNU_SOURCE /* for fallocate, preadv and O_DIRECT */
#endif
#include "covretin_device.h"

#include <errno.h>
#include <fcntl.h>
#include <linux/falloc.h>
#include <linux/virtio_blk.h>
#include <pthread.h>
#include <signal.h>
#include <stdio.h>
#include <stdlib.h>
#include <string.h>
#include <unistd.h>

enum { SECTOR = 512, MOST_RINGS = 8, THREADS = 16, MOST_RANGES = 16, MOST_SECTORS = 1 << 16, IN_KERNEL = 128, AT_ONCE = 1 << 16 };
enum { MOST_BLOCK = 4096, COPIED = 1 << 16 };
enum { USUAL_SEGMENTS = 126, OTHER_SEGMENTS = 2 }; /* of a request: of data, and of its header and its status */

/* A request that is under way. Numbers of the guest's are those of a little-endian machine. */
struct job {
    covretin_request *request;
    uint32_t type;
    uint8_t *status;         /* where the guest has it */
    struct iovec *data;      /* where it has these, in so many segments; */
    int data_count;
    uint64_t size, left, at; /* how many bytes these are, how many are still to be moved, and where they are in the file */
    struct virtio_blk_discard_write_zeroes ranges[MOST_RANGES];
    size_t range_count;
};

static int image, queue[2]; /* a pipe, by which threads are given jobs */
static bool is_read_only;
static bool writes_through;                  /* a write is in the file once it is done */
static bool is_direct;                       /* the page cache is passed by, */
static uint32_t block = 1;                   /* in blocks of so many bytes */
static pthread_mutex_t parts = PTHREAD_MUTEX_INITIALIZER; /* of blocks, which are written by one thread at a time */
static bool wants_kernel = true, has_kernel; /* io_uring is taken, where there is one; and is there */
static char serial[VIRTIO_BLK_ID_BYTES] = "covretin";
static uint32_t again[MOST_RINGS]; /* how many requests are done again */
static uint64_t capacity;          /* in sectors */
static _Atomic size_t under_way;

/* Whether data lie in blocks, in the file and in memory. */
static bool has_whole_blocks(const struct job *job)
{
    bool is_whole = job->at % block == 0;
    for (int i = 0; is_direct && is_whole && i < job->data_count; i++)
        is_whole = ((uintptr_t)job->data[i].iov_base | job->data[i].iov_len) % block == 0;
    return is_whole;
}

/* Fills in bytes from the file's block that is at this place. */
static bool fill_in(uint8_t *bytes, size_t from, size_t to, uint64_t at)
{
    _Alignas(MOST_BLOCK) uint8_t had[MOST_BLOCK];
    bool is_done = pread(image, had, block, (off_t)at) == (ssize_t)block;
    memcpy(bytes + from, had + from, is_done ? to - from : 0);
    return is_done;
}

/* Writes bytes that begin in a copy of blocks as far behind its first block's begin as in the file. The rest of its blocks stays as it is there. */
static bool write_copy(uint8_t *copy, uint64_t at, size_t size)
{
    size_t before = at % block, whole = (before + size + block - 1) / block * block, end = before + size, last = whole - block;
    bool is_part = before != 0 || end != whole;
    uint64_t place = at - before;
    if (is_part)
        pthread_mutex_lock(&parts);
    bool is_done = (before == 0 || fill_in(copy, 0, before, place)) && (end == whole || fill_in(copy + last, end - last, block, place + last)) &&
                   pwrite(image, copy, whole, (off_t)place) == (ssize_t)whole;
    if (is_part)
        pthread_mutex_unlock(&parts);
    return is_done;
}

/* Moves as much of what is left as a copy has room for. */
static bool move_copied(struct job *job)
{
    _Alignas(MOST_BLOCK) uint8_t copy[COPIED];
    size_t before = job->at % block, size = job->left < COPIED - before ? job->left : COPIED - before;
    bool is_done;
    if (job->type == VIRTIO_BLK_T_IN) {
        ssize_t had = pread(image, copy, (before + size + block - 1) / block * block, (off_t)(job->at - before));
        is_done = had >= (ssize_t)(before + size);
        covretin_request_write(job->request, copy + before, is_done ? size : 0);
    } else {
        covretin_request_read(job->request, copy + before, size);
        is_done = !covretin_request_is_lost(job->request) && write_copy(copy, job->at, size);
    }
    job->at += size;
    job->left -= size;
    return is_done;
}

/* Reads or writes what is left. What may be zeros in the place of what was lost is not written. */
static bool move(struct job *job)
{
    bool is_read = job->type == VIRTIO_BLK_T_IN;
    while (job->left != 0 && !covretin_request_is_lost(job->request)) {
        if (!has_whole_blocks(job)) {
            if (!move_copied(job))
                return false;
            continue;
        }
        ssize_t moved = (is_read ? preadv : pwritev)(image, job->data, job->data_count, (off_t)job->at);
        if (moved <= 0)
            return false;
        job->at += (size_t)moved;
        job->left -= is_read ? covretin_request_write(job->request, NULL, (size_t)moved) : covretin_request_read(job->request, NULL, (size_t)moved);
    }
    return job->left == 0;
}

/* Makes sectors zeros, without room in the file where the guest says so; by writing them, if need be. A discard may do nothing. */
static bool clear(const struct virtio_blk_discard_write_zeroes *range, bool is_discard)
{
    _Alignas(MOST_BLOCK) uint8_t zeros[MOST_BLOCK];
    int how = FALLOC_FL_KEEP_SIZE | (is_discard || range->flags != 0 ? FALLOC_FL_PUNCH_HOLE : FALLOC_FL_ZERO_RANGE);
    off_t at = (off_t)(range->sector * SECTOR), end = at + (off_t)range->num_sectors * SECTOR;
    pthread_mutex_lock(&parts);
    bool is_done = at == end || fallocate(image, how, at, end - at) == 0, is_left = !is_done && errno == EOPNOTSUPP;
    pthread_mutex_unlock(&parts);
    for (; is_left && !is_discard && at < end; at += SECTOR) {
        memset(zeros, 0, sizeof zeros);
        is_left = write_copy(zeros, (uint64_t)at, SECTOR);
    }
    return is_done || is_left;
}

/* Reads what the page cache has, without waiting for the file. False: more is to be done, or too much for whoever serves the rings. */
static bool read_at_once(struct job *job)
{
    return job->type == VIRTIO_BLK_T_IN && job->left <= AT_ONCE && !is_direct &&
           preadv2(image, job->data, job->data_count, (off_t)job->at, RWF_NOWAIT) == (ssize_t)job->left;
}

static bool do_job(struct job *job)
{
    bool is_done = job->type != VIRTIO_BLK_T_FLUSH || fdatasync(image) == 0;
    for (size_t i = 0; is_done && i < job->range_count; i++)
        is_done = clear(&job->ranges[i], job->type == VIRTIO_BLK_T_DISCARD);
    if (writes_through && job->range_count != 0)
        is_done = is_done && fdatasync(image) == 0;
    return is_done && move(job);
}

/* Requests that are given back together, so that the guest is told once. */
struct done {
    covretin_request *requests[COVRETIN_DEVICE_BURST];
    uint32_t written[COVRETIN_DEVICE_BURST];
    size_t count, jobs;
};

static void add(struct done *done, covretin_request *request, uint32_t written)
{
    done->requests[done->count] = request;
    done->written[done->count++] = written;
}

/* A job is done: its data were written, and its status; or that alone. */
static void add_job(struct done *done, struct job *job, uint8_t status)
{
    bool has_written = status == VIRTIO_BLK_S_OK && (job->type == VIRTIO_BLK_T_IN || job->type == VIRTIO_BLK_T_GET_ID);
    *job->status = status;
    add(done, job->request, (has_written ? (uint32_t)job->size : 0) + 1);
    free(job);
    done->jobs++;
}

static void give_back(const struct done *done)
{
    covretin_requests_done(done->requests, done->written, done->count);
    under_way -= done->jobs;
}

static void give_to_thread(struct job *job)
{
    (void)!write(queue[1], &job, sizeof job); /* it cannot fail; where the pipe is full it waits for a thread */
}

static void *work(void *none)
{
    for (struct job *job; read(queue[0], &job, sizeof job) == sizeof job;) {
        struct done done = {.count = 0};
        add_job(&done, job, do_job(job) ? VIRTIO_BLK_S_OK : VIRTIO_BLK_S_IOERR);
        give_back(&done);
    }
    return none;
}

#if !defined BLK_THREADS && __has_include(<liburing.h>)
#include <liburing.h>
static struct io_uring uring;

/* What the kernel is given next, in the order of its queue; and how many entries before these it has not begun, which are nothing. */
static struct io_uring_sqe *entries[COVRETIN_DEVICE_BURST];
static struct job *given[COVRETIN_DEVICE_BURST];
static size_t given_count, unbegun;

/* What the kernel has done. What it did not do whole is done by a thread. */
static void take_done(struct io_uring_cqe *const *ended, size_t count)
{
    struct done done = {.count = 0};
    for (size_t i = 0; i < count; i++) {
        struct job *job = io_uring_cqe_get_data(ended[i]);
        bool is_whole = job != NULL && ended[i]->res >= 0 && (uint64_t)ended[i]->res == job->left;
        if (is_whole)
            add_job(&done, job, VIRTIO_BLK_S_OK);
        else if (job != NULL)
            give_to_thread(job);
    }
    io_uring_cq_advance(&uring, (unsigned)count);
    give_back(&done);
}

static void *reap(void *none)
{
    struct io_uring_cqe *ended[COVRETIN_DEVICE_BURST];
    for (;;)
        if (io_uring_wait_cqe(&uring, ended) == 0)
            take_done(ended, io_uring_peek_batch_cqe(&uring, ended, COVRETIN_DEVICE_BURST));
    return none;
}

/* False: it has enough to do, or cannot. */
static bool give_to_kernel(struct job *job)
{
    bool is_its = job->left != 0 && under_way <= IN_KERNEL && has_kernel && has_whole_blocks(job);
    struct io_uring_sqe *it = is_its ? io_uring_get_sqe(&uring) : NULL;
    if (it == NULL)
        return false;
    (job->type == VIRTIO_BLK_T_IN ? io_uring_prep_readv : io_uring_prep_writev)(it, image, job->data, (unsigned)job->data_count, job->at);
    io_uring_sqe_set_data(it, job);
    entries[given_count] = it;
    given[given_count++] = job;
    return true;
}

/* Has the kernel begin with what it was given. What it does not take is given to threads, and is nothing in its queue. */
static void begin_given(void)
{
    int begun = given_count != 0 ? io_uring_submit(&uring) : 0;
    size_t taken = begun > 0 ? (size_t)begun : 0, skipped = taken < unbegun ? taken : unbegun;
    for (size_t i = taken - skipped; i < given_count; i++) {
        io_uring_prep_nop(entries[i]);
        io_uring_sqe_set_data(entries[i], NULL);
        give_to_thread(given[i]);
    }
    unbegun += given_count - taken;
    given_count = 0;
}
#else
#define give_to_kernel(job) has_kernel /* which is false */
#define begin_given() ((void)0)
#endif

static bool has_sectors(uint64_t sector, uint64_t count)
{
    return sector <= capacity && count <= capacity - sector;
}

/* Data, of whole sectors that the disk has. */
static uint8_t take_data(struct job *job, struct iovec *data, size_t count, uint64_t sector)
{
    job->data = data;
    job->data_count = (int)count;
    job->at = sector * SECTOR;
    for (size_t i = 0; i < count; i++)
        job->left = job->size += data[i].iov_len;
    return job->size % SECTOR == 0 && job->size < UINT32_MAX && has_sectors(sector, job->size / SECTOR) ? VIRTIO_BLK_S_OK : VIRTIO_BLK_S_IOERR;
}

/* Ranges, which are all checked before one is cleared (5.2.6.2). */
static uint8_t take_ranges(struct job *job)
{
    size_t size = covretin_request_read(job->request, job->ranges, sizeof job->ranges), each = sizeof *job->ranges;
    bool is_right = size != 0 && size % each == 0 && covretin_request_read(job->request, NULL, 1) == 0;
    for (; job->range_count < size / each; job->range_count++) {
        const struct virtio_blk_discard_write_zeroes *it = &job->ranges[job->range_count];
        if (it->flags & ~(job->type == VIRTIO_BLK_T_WRITE_ZEROES ? VIRTIO_BLK_WRITE_ZEROES_FLAG_UNMAP : 0u))
            return VIRTIO_BLK_S_UNSUPP;
        is_right = is_right && it->num_sectors <= MOST_SECTORS && has_sectors(it->sector, it->num_sectors);
    }
    return is_right ? VIRTIO_BLK_S_OK : VIRTIO_BLK_S_IOERR;
}

/* What is checked is copied before; data are the guest's to change. */
static uint8_t take_job(struct job *job, covretin_request *request)
{
    struct virtio_blk_outhdr header;
    if (covretin_request_read(request, &header, sizeof header) != sizeof header || covretin_request_is_lost(request))
        return VIRTIO_BLK_S_IOERR;
    switch (job->type = header.type) {
    case VIRTIO_BLK_T_IN: return take_data(job, request->segments + request->readable, request->writable, header.sector);
    case VIRTIO_BLK_T_OUT: return is_read_only ? VIRTIO_BLK_S_IOERR : take_data(job, request->segments, request->readable, header.sector);
    case VIRTIO_BLK_T_FLUSH: return VIRTIO_BLK_S_OK;
    case VIRTIO_BLK_T_GET_ID: return covretin_request_write(request, serial, job->size = sizeof serial) == sizeof serial ? VIRTIO_BLK_S_OK : VIRTIO_BLK_S_IOERR;
    case VIRTIO_BLK_T_DISCARD: case VIRTIO_BLK_T_WRITE_ZEROES: return is_read_only ? VIRTIO_BLK_S_IOERR : take_ranges(job);
    default: return VIRTIO_BLK_S_UNSUPP;
    }
}

/* Begins what a request asks for; what is done at once is to be given back. */
static void take(covretin_request *request, struct done *done)
{
    struct iovec *last = request->segments + request->readable + request->writable - 1;
    struct job *job = request->writable != 0 ? calloc(1, sizeof *job) : NULL;
    if (request->again && again[request->queue]++ == 0)
        printf("ring %u: requests are done again\n", (unsigned)request->queue);
    if (job == NULL) {
        if (request->writable != 0) /* else there is no room for a status */
            ((uint8_t *)last->iov_base)[last->iov_len - 1] = VIRTIO_BLK_S_IOERR;
        add(done, request, request->writable != 0);
        return;
    }
    under_way++;
    job->request = request;
    job->status = (uint8_t *)last->iov_base + --last->iov_len;
    uint8_t status = take_job(job, request);
    if (status != VIRTIO_BLK_S_OK || read_at_once(job))
        add_job(done, job, status);
    else if (!give_to_kernel(job))
        give_to_thread(job);
}

static void take_all(void *none, covretin_request *const *requests, size_t count)
{
    struct done done = {.count = 0};
    (void)none;
    for (size_t i = 0; i < count; i++)
        take(requests[i], &done);
    begin_given();
    give_back(&done);
}

static bool measure(void *none)
{
    uint64_t before = capacity;
    off_t size = lseek(image, 0, SEEK_END);
    (void)none;
    capacity = size < 0 ? capacity : (uint64_t)size / block * block / SECTOR;
    return capacity != before;
}

/* A request is no longer than its queue is large. */
static uint32_t most_segments(const covretin_device_calls *table)
{
    bool is_small = table->max_queue_size != 0 && table->max_queue_size < USUAL_SEGMENTS + OTHER_SEGMENTS;
    return is_small ? table->max_queue_size - OTHER_SEGMENTS : USUAL_SEGMENTS;
}

static bool read_config(void *table, uint32_t offset, uint8_t *bytes, uint32_t size)
{
    measure(NULL);
    struct virtio_blk_config space = {.capacity = capacity, .seg_max = most_segments(table), .blk_size = SECTOR,
                                      .num_queues = (uint16_t)((covretin_device_calls *)table)->queues,
                                      .max_discard_sectors = MOST_SECTORS, .max_discard_seg = MOST_RANGES, .discard_sector_alignment = 1,
                                      .max_write_zeroes_sectors = MOST_SECTORS, .max_write_zeroes_seg = MOST_RANGES, .write_zeroes_may_unmap = 1};
    if (offset > sizeof space || size > sizeof space - offset)
        return false;
    memcpy(bytes, (const uint8_t *)&space + offset, size);
    return true;
}

static void tell_refused(void *none, uint32_t request, enum covretin_error error)
{
    (void)none;
    fprintf(stderr, "request %u, %s: %s\n", (unsigned)request, covretin_request_text(request), covretin_error_text(error));
}

static void tell_another(void *none)
{
    (void)none;
    puts("another frontend was refused");
}

static void tell_end(void *none, enum covretin_error error)
{
    (void)none;
    printf("a frontend went: %s\n", covretin_error_text(error));
    memset(again, 0, sizeof again);
}

static covretin_device_calls calls = {.requests = take_all, .busy_poll_us = 32, .read_config = read_config, .config_changed = measure,
                                      .refused = tell_refused, .turned_away = tell_another, .ended = tell_end};

/* Blocked in the threads that begin from here on, too. */
static void block_ending(void)
{
    sigset_t ending;
    sigemptyset(&ending);
    sigaddset(&ending, SIGTERM);
    sigaddset(&ending, SIGINT);
    pthread_sigmask(SIG_BLOCK, &ending, NULL);
}

/* Finds of how many bytes the blocks are, at least, that a file has without a cache, by reading the first one. False: it ends amid one. */
static bool find_block(void)
{
    static _Alignas(MOST_BLOCK) uint8_t bytes[MOST_BLOCK];
    off_t size = lseek(image, 0, SEEK_END);
    for (block = SECTOR; block < MOST_BLOCK && pread(image, bytes + block, block, 0) != (ssize_t)block; block *= 2)
        continue;
    errno = EINVAL;
    return size % block == 0;
}

/* The disk, of `is_read_only` and `calls.queues`, which are set before. False: errno says why not. */
static bool open_disk(const char *path, bool has_packed)
{
    pthread_t it;
    calls.features = 1u << VIRTIO_BLK_F_SEG_MAX | 1u << VIRTIO_BLK_F_BLK_SIZE | (writes_through ? 0 : 1u << VIRTIO_BLK_F_FLUSH) |
                     (calls.queues > 1 ? 1u << VIRTIO_BLK_F_MQ : 0) | (has_packed ? COVRETIN_DEVICE_RING_PACKED : 0) |
                     (is_read_only ? 1u << VIRTIO_BLK_F_RO : 1u << VIRTIO_BLK_F_DISCARD | 1u << VIRTIO_BLK_F_WRITE_ZEROES);
    block_ending();
    image = open(path, (is_read_only ? O_RDONLY : O_RDWR) | (writes_through ? O_DSYNC : 0) | (is_direct ? O_DIRECT : 0) | O_CLOEXEC);
    if (image < 0 || (is_direct && !find_block()) || pipe2(queue, O_CLOEXEC) != 0)
        return false;
    for (int i = 0; i < THREADS; i++)
        if ((errno = pthread_create(&it, NULL, work, NULL)) != 0)
            return false;
#ifndef give_to_kernel
    has_kernel = wants_kernel && io_uring_queue_init(IN_KERNEL, &uring, 0) == 0 && pthread_create(&it, NULL, reap, NULL) == 0;
#else
    (void)wants_kernel;
#endif
    measure(NULL);
    return true;
}

#ifndef COVRETIN_PROGRAM /* c/tools/ has a program with the same disk */
int main(int argc, char **argv)
{
    bool has_ro = argc > 4 && strcmp(argv[4], "ro") == 0, has_packed = argc > 4 + has_ro && strcmp(argv[4 + has_ro], "packed") == 0;
    int words = (argc > 3) + 3 + has_ro + has_packed;
    calls.calls_by_pipe = argc > words && strcmp(argv[words], "pipe") == 0;
    calls.queues = argc > 3 ? (uint32_t)strtoul(argv[3], NULL, 10) : 1;
    if (argc < 3 || argc > words + calls.calls_by_pipe || calls.queues < 1 || calls.queues > MOST_RINGS) {
        fprintf(stderr, "usage: blk PATH IMAGE [RINGS [ro] [packed] [pipe]]\n");
        return 2;
    }
    is_read_only = has_ro;
    if (!open_disk(argv[2], has_packed)) {
        perror(argv[2]);
        return 4;
    }
    setvbuf(stdout, NULL, _IOLBF, 0); /* also in a file, so that who is killed has said what it did */
    enum covretin_error error = covretin_device_run(&calls, &calls, argv[1]);
    bool is_systems = error == COVRETIN_SOCKET_ERROR; /* errno says more */
    if (error != COVRETIN_OK)
        fprintf(stderr, "%s: %s%s%s\n", argv[1], covretin_error_text(error), is_systems ? ": " : "", is_systems ? strerror(errno) : "");
    while (under_way != 0)
        usleep(1000);
    return error == COVRETIN_OK ? 0 : 4;
}
#endif
