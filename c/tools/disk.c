/* SPDX-License-Identifier: Apache-2.0 */
/* covretin-blk: the disk of c/blk.c as a program that people run. `covretin-blk --help` says how it is called. */
#define COVRETIN_PROGRAM
#include "../blk.c"

#include "program.h"

#include <limits.h>

enum { LEAST_QUEUE_SIZE = 4 };

static const char *file;
static bool has_packed, needs_kernel;

static bool take_file(const char *value)
{
    file = value;
    return *value != '\0';
}

static bool take_read_only(const char *value)
{
    return is_read_only = value == NULL;
}

static bool take_packed(const char *value)
{
    return has_packed = value == NULL;
}

static bool take_serial(const char *value)
{
    size_t size = strlen(value);
    memset(serial, 0, sizeof serial);
    memcpy(serial, value, size <= sizeof serial ? size : 0);
    return size <= sizeof serial;
}

static bool take_queues(const char *value)
{
    unsigned long number;
    bool is_right = program_number(value, 1, MOST_RINGS, &number);
    calls.queues = (uint32_t)number;
    return is_right;
}

static bool take_queue_size(const char *value)
{
    unsigned long number;
    bool is_right = program_number(value, LEAST_QUEUE_SIZE, COVRETIN_DEVICE_MAX_QUEUE_SIZE, &number);
    calls.max_queue_size = (uint32_t)number;
    return is_right;
}

static bool take_io(const char *value)
{
    needs_kernel = strcmp(value, "io_uring") == 0;
    wants_kernel = needs_kernel;
    return needs_kernel || strcmp(value, "threads") == 0;
}

static bool take_cache(const char *value)
{
    writes_through = strcmp(value, "writethrough") == 0;
    is_direct = strcmp(value, "none") == 0;
    return writes_through || is_direct || strcmp(value, "writeback") == 0;
}

static bool take_busy_poll(const char *value)
{
    unsigned long number;
    bool is_right = program_number(value, 0, 1000000, &number);
    calls.busy_poll_us = (uint32_t)number;
    return is_right;
}

static const char *lacks(void)
{
    return file != NULL ? NULL : "--blk-file is missing";
}

/* The file, and what of it was in the way. */
static const char *unopened(void)
{
    static char text[PATH_MAX + 100];
    if (!is_direct || errno != EINVAL)
        return file;
    if (image < 0)
        snprintf(text, sizeof text, "%s: its file system has no O_DIRECT, which --cache=none needs", file);
    else
        snprintf(text, sizeof text, "%s: its size is no multiple of %u bytes, in which --cache=none reads and writes it", file, (unsigned)block);
    return text;
}

static const char *prepare(void)
{
    if (!open_disk(file, has_packed))
        return unopened();
    errno = ENOSYS;
    return needs_kernel && !has_kernel ? "io_uring" : NULL;
}

static bool is_busy(void)
{
    return under_way != 0;
}

int main(int argc, char **argv)
{
    static const struct program_option options[] = {
        {"blk-file", "PATH", "the raw file or block device that the guest sees as a disk; it may grow meanwhile", take_file},
        {"read-only", NULL, "nothing is written", take_read_only},
        {"serial", "TEXT", "what the guest reads as the disk's serial number: at most 20 bytes, else 'covretin'", take_serial},
        {"num-queues", "NUMBER", "1 to 8 queues, else 1", take_queues},
        {"queue-size", "NUMBER", "the largest queue that is taken, of 4 to 1024 descriptors, else 1024: the VMM has to have no larger one", take_queue_size},
        {"packed-queues", NULL, "packed virtqueues are offered, too", take_packed},
        {"io", "io_uring|threads", "by what the file is read and written, else by io_uring where there is one", take_io},
        {"cache", "writeback|writethrough|none",
         "whether writes stay in the cache until the guest flushes it, as without this, or none does; or the host caches nothing (O_DIRECT)", take_cache},
        {"busy-poll-us", "NUMBER", "how long an empty queue is looked at before its kick is waited for, in microseconds, else 32", take_busy_poll},
        {NULL, NULL, NULL, NULL},
    };
    static const struct program disk = {
        .name = "covretin-blk", .title = "A disk over a file", .options = options, .lacks = lacks, .calls = &calls,
        .capabilities = "{\"type\": \"block\", \"features\": [\"read-only\", \"blk-file\"]}", .own = &calls, .prepare = prepare,
        .is_busy = is_busy};
    (void)argc;
    calls.queues = 1;
    calls.refused = NULL; /* which the log says with the reason */
    return program_run(&disk, argv);
}
