/* SPDX-License-Identifier: Apache-2.0 */
/* A file whose blocks are 4096 bytes where it is open without a cache (O_DIRECT), as those of some disks and file systems are: what is no whole
 * block, in the file or in memory, is refused. Between reading and writing passes some time, and no file has FALLOC_FL_ZERO_RANGE. Linked with
 * -Wl,--wrap= of these. */
#ifndef _GNU_SOURCE
#define _GNU_SOURCE
#endif
#include <errno.h>
#include <fcntl.h>
#include <linux/falloc.h>
#include <stdbool.h>
#include <stdint.h>
#include <sys/uio.h>
#include <unistd.h>

enum { BLOCK = 4096, AMID_US = 2000 };

ssize_t __real_pread(int fd, void *bytes, size_t size, off_t at);
ssize_t __wrap_pread(int fd, void *bytes, size_t size, off_t at);
ssize_t __real_pwrite(int fd, const void *bytes, size_t size, off_t at);
ssize_t __wrap_pwrite(int fd, const void *bytes, size_t size, off_t at);
ssize_t __real_preadv(int fd, const struct iovec *parts, int count, off_t at);
ssize_t __wrap_preadv(int fd, const struct iovec *parts, int count, off_t at);
ssize_t __real_pwritev(int fd, const struct iovec *parts, int count, off_t at);
ssize_t __wrap_pwritev(int fd, const struct iovec *parts, int count, off_t at);
int __real_fallocate(int fd, int how, off_t at, off_t size);
int __wrap_fallocate(int fd, int how, off_t at, off_t size);

/* Whether a file takes this. */
static bool is_taken(int fd, const struct iovec *parts, int count, off_t at)
{
    uintptr_t all = (uintptr_t)at;
    for (int i = 0; i < count; i++)
        all |= (uintptr_t)parts[i].iov_base | parts[i].iov_len;
    errno = EINVAL;
    return !(fcntl(fd, F_GETFL) & O_DIRECT) || all % BLOCK == 0;
}

ssize_t __wrap_preadv(int fd, const struct iovec *parts, int count, off_t at)
{
    return is_taken(fd, parts, count, at) ? __real_preadv(fd, parts, count, at) : -1;
}

ssize_t __wrap_pwritev(int fd, const struct iovec *parts, int count, off_t at)
{
    return is_taken(fd, parts, count, at) ? __real_pwritev(fd, parts, count, at) : -1;
}

ssize_t __wrap_pread(int fd, void *bytes, size_t size, off_t at)
{
    struct iovec it = {bytes, size};
    ssize_t had = is_taken(fd, &it, 1, at) ? __real_pread(fd, bytes, size, at) : -1;
    usleep(AMID_US);
    return had;
}

ssize_t __wrap_pwrite(int fd, const void *bytes, size_t size, off_t at)
{
    struct iovec it = {(void *)(uintptr_t)bytes, size};
    return is_taken(fd, &it, 1, at) ? __real_pwrite(fd, bytes, size, at) : -1;
}

int __wrap_fallocate(int fd, int how, off_t at, off_t size)
{
    errno = EOPNOTSUPP;
    return how & FALLOC_FL_ZERO_RANGE ? -1 : __real_fallocate(fd, how, at, size);
}
