/* SPDX-License-Identifier: Apache-2.0 */
/* Refuses one growth of memory: the one whose number REFUSE has, counted from 1 over malloc and realloc. 0, or none, refuses
 * none. Where COUNT names a file, the number of growths is written to it at the end. Preloaded by refused_memory.py. */
#define _GNU_SOURCE
#include <dlfcn.h>
#include <stdatomic.h>
#include <stddef.h>
#include <stdio.h>
#include <stdlib.h>

static atomic_long grown;
static long refused = -1;

static int refuses(void) {
    if (refused < 0) {
        const char *number = getenv("REFUSE");
        refused = number ? atol(number) : 0;
    }
    return atomic_fetch_add(&grown, 1) + 1 == refused;
}

void *malloc(size_t size) {
    static void *(*next)(size_t);
    if (!next) next = (void *(*)(size_t))dlsym(RTLD_NEXT, "malloc");
    return refuses() ? NULL : next(size);
}

void *realloc(void *old, size_t size) {
    static void *(*next)(void *, size_t);
    if (!next) next = (void *(*)(void *, size_t))dlsym(RTLD_NEXT, "realloc");
    return refuses() ? NULL : next(old, size);
}

__attribute__((destructor)) static void tell(void) {
    const char *name = getenv("COUNT");
    long count = atomic_load(&grown);
    FILE *file = name ? fopen(name, "w") : NULL;
    if (!file) return;
    fprintf(file, "%ld\n", count);
    fclose(file);
}
