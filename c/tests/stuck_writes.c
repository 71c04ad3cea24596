/* SPDX-License-Identifier: Apache-2.0 */
/* A file that is never written: whoever writes waits for ever, and says so. Linked with -Wl,--wrap=pwritev. */
#include <stdio.h>
#include <sys/uio.h>
#include <unistd.h>

ssize_t __wrap_pwritev(int fd, const struct iovec *parts, int count, off_t at);

ssize_t __wrap_pwritev(int fd, const struct iovec *parts, int count, off_t at)
{
    (void)fd;
    (void)parts;
    (void)count;
    (void)at;
    puts("a write waits");
    for (;;)
        pause();
}
