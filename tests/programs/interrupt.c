/* SPDX-License-Identifier: Apache-2.0 */
/* Has each write of a program be interrupted once, and then move one byte. Where COUNT names a file, the number of bytes that
 * went so is written to it at the end. Preloaded by try_run.py. */
#define _GNU_SOURCE
#include <dlfcn.h>
#include <errno.h>
#include <stdio.h>
#include <stdlib.h>
#include <unistd.h>

static int is_ready;
static long moved;

ssize_t write(int file, const void *bytes, size_t count) {
    static ssize_t (*next)(int, const void *, size_t);
    if (!next) next = (ssize_t (*)(int, const void *, size_t))dlsym(RTLD_NEXT, "write");
    is_ready = !is_ready;
    if (!is_ready) {
        moved++;
        return next(file, bytes, count ? 1 : 0);
    }
    errno = EINTR;
    return -1;
}

__attribute__((destructor)) static void tell(void) {
    const char *name = getenv("COUNT");
    FILE *file = name ? fopen(name, "w") : NULL;
    if (!file) return;
    fprintf(file, "%ld\n", moved);
    fclose(file);
}
