/* SPDX-License-Identifier: Apache-2.0 */
/* A backend of any program, which listens at a Unix socket: what its requests take. */
#ifndef _GNU_SOURCE
#define _GNU_SOURCE
#endif

#include "bench.h"

#include <string.h>
#include <sys/socket.h>
#include <sys/un.h>
#include <unistd.h>

const char *at_path;

static int connect_there(void)
{
    struct sockaddr_un address = {.sun_family = AF_UNIX};
    int end = socket(AF_UNIX, SOCK_STREAM | SOCK_CLOEXEC, 0);
    if (strlen(at_path) >= sizeof address.sun_path)
        fail("a path that is too long");
    memcpy(address.sun_path, at_path, strlen(at_path));
    if (end < 0 || connect(end, (const struct sockaddr *)&address, sizeof address))
        fail("connecting");
    return end;
}

/* Writes these bytes, the last of which are GET_FEATURES, and reads its reply. Whether it is one. */
static bool trip(int end, const void *bytes, size_t size)
{
    uint8_t reply[sizeof features_reply];
    if (write(end, bytes, size) != (ssize_t)size || recv(end, reply, sizeof reply, MSG_WAITALL) != sizeof reply)
        fail("the backend's socket");
    return memcmp(reply, features_reply, 12) == 0;
}

struct taken at_trip(long count)
{
    struct taken taken = {0, 0};
    int end = connect_there();
    double begun = now();
    for (long i = 0; i < count; i++)
        taken.good += trip(end, get_features, sizeof get_features);
    taken.nanoseconds = now() - begun;
    close(end);
    return taken;
}

/* A hundred requests at a time, of which the last alone is replied to. */
struct taken at_queued(long count)
{
    static uint8_t messages[QUEUED * sizeof set_vring_num];
    struct taken taken = {0, 0};
    size_t others = (QUEUED - 1) * sizeof set_vring_num;
    int end = connect_there();
    for (size_t at = 0; at < others; at++)
        messages[at] = set_vring_num[at % sizeof set_vring_num];
    memcpy(messages + others, get_features, sizeof get_features);
    double begun = now();
    for (long i = 0; i < count; i += QUEUED)
        taken.good += trip(end, messages, others + sizeof get_features) ? QUEUED : 0;
    taken.nanoseconds = now() - begun;
    close(end);
    return taken;
}
