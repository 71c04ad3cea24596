/* SPDX-License-Identifier: Apache-2.0 */
/* A file that is written slowly, so that who is killed is often killed amid that. Linked with -Wl,--wrap=pwritev. */
#include <sys/uio.h>
#include <time.h>

ssize_t __real_pwritev(int fd, const struct iovec *parts, int count, off_t at);
ssize_t __wrap_pwritev(int fd, const struct iovec *parts, int count, off_t at);

ssize_t __wrap_pwritev(int fd, const struct iovec *parts, int count, off_t at)
{
    const struct timespec pause = {.tv_nsec = 50000000};
    nanosleep(&pause, NULL);
    return __real_pwritev(fd, parts, count, at);
}
