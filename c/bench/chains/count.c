/* SPDX-License-Identifier: Apache-2.0 */
/*
 * Counts what a program asks of the C library: growths of memory, bytes copied and bytes set. It is loaded before the C library's, and keeps
 * its three counters, of eight bytes each, in the file that COUNTS names. scripts/costs/costs.py compiles and uses it.
 */
#define _GNU_SOURCE
#include <dlfcn.h>
#include <fcntl.h>
#include <stdatomic.h>
#include <stddef.h>
#include <stdlib.h>
#include <sys/mman.h>
#include <unistd.h>

/* Growths, bytes copied, bytes set: until the file is there, and where there is none, they are counted here. */
static atomic_ulong first[3];
static atomic_ulong *counters = first;

/* Before the C library's own functions are found, dlsym may want memory: it gets it from here. */
static char early[4096];
static size_t early_used;

static void *(*real_malloc)(size_t);
static void *(*real_calloc)(size_t, size_t);
static void *(*real_realloc)(void *, size_t);
static int (*real_posix_memalign)(void **, size_t, size_t);
static void (*real_free)(void *);

static void find(void)
{
    real_calloc = dlsym(RTLD_NEXT, "calloc");
    real_malloc = dlsym(RTLD_NEXT, "malloc");
    real_realloc = dlsym(RTLD_NEXT, "realloc");
    real_posix_memalign = dlsym(RTLD_NEXT, "posix_memalign");
    real_free = dlsym(RTLD_NEXT, "free");
}

static void *from_early(size_t size)
{
    void *room = early + early_used;
    early_used += (size + 15) & ~(size_t)15;
    return early_used <= sizeof early ? room : NULL;
}

void *malloc(size_t size)
{
    if (!real_malloc)
        find();
    atomic_fetch_add(&counters[0], 1);
    return real_malloc(size);
}

void *calloc(size_t count, size_t size)
{
    if (!real_calloc) {
        static int finding;
        if (finding)
            return from_early(count * size);
        finding = 1;
        find();
    }
    atomic_fetch_add(&counters[0], 1);
    return real_calloc(count, size);
}

void *realloc(void *old, size_t size)
{
    if (!real_realloc)
        find();
    atomic_fetch_add(&counters[0], 1);
    return real_realloc(old, size);
}

int posix_memalign(void **made, size_t alignment, size_t size)
{
    if (!real_posix_memalign)
        find();
    atomic_fetch_add(&counters[0], 1);
    return real_posix_memalign(made, alignment, size);
}

void free(void *old)
{
    if ((char *)old >= early && (char *)old < early + sizeof early)
        return;
    if (!real_free)
        find();
    real_free(old);
}

void *memcpy(void *to, const void *from, size_t count)
{
    char *out = to;
    const char *in = from;
    atomic_fetch_add(&counters[1], count);
    __asm__ volatile("rep movsb" : "+D"(out), "+S"(in), "+c"(count) : : "memory");
    return to;
}

void *memmove(void *to, const void *from, size_t count)
{
    char *out = to;
    const char *in = from;
    if (out <= in || out >= in + count)
        return memcpy(to, from, count);
    atomic_fetch_add(&counters[1], count);
    out += count - (count ? 1 : 0);
    in += count - (count ? 1 : 0);
    __asm__ volatile("std; rep movsb; cld" : "+D"(out), "+S"(in), "+c"(count) : : "memory");
    return to;
}

void *memset(void *to, int byte, size_t count)
{
    char *out = to;
    atomic_fetch_add(&counters[2], count);
    __asm__ volatile("rep stosb" : "+D"(out), "+c"(count) : "a"(byte) : "memory");
    return to;
}

__attribute__((constructor)) static void begin(void)
{
    const char *path = getenv("COUNTS");
    void *shared;
    int file;
    if (!path || (file = open(path, O_RDWR | O_CREAT | O_TRUNC, 0600)) < 0)
        return;
    if (ftruncate(file, sizeof first) == 0) {
        shared = mmap(NULL, sizeof first, PROT_READ | PROT_WRITE, MAP_SHARED, file, 0);
        if (shared != MAP_FAILED)
            counters = shared;
    }
    close(file);
}
