/* SPDX-License-Identifier: Apache-2.0 */
/* A source of entropy for a virtual machine, vhost-user-rng over covretin_device.h: rng PATH [pipe]
 *
 * Listens at PATH and serves one frontend after another until SIGTERM or SIGINT; a second one at a time is hung up on. A line says that one
 * went. pipe: a frontend may have itself signalled by pipes and sockets, as User Mode Linux. Status 0; 2 after wrong arguments; 4 where
 * something failed. */
#include "covretin_device.h"

#include <errno.h>
#include <stdio.h>
#include <string.h>
#include <sys/random.h>

enum { MOST_BYTES = 65536 }; /* of a request: no guest keeps the device from another's for long */

/* Fills what a request has to be filled (virtio 1.2, 5.4): all of it, or its beginning. */
static void fill(void *none, covretin_request *request)
{
    const struct iovec *part = request->segments + request->readable;
    uint32_t filled = 0;
    (void)none;
    for (size_t i = 0; i < request->writable && filled < MOST_BYTES; i++) {
        size_t wanted = part[i].iov_len < MOST_BYTES - filled ? part[i].iov_len : MOST_BYTES - filled;
        ssize_t got = getrandom(part[i].iov_base, wanted, 0);
        filled += got > 0 ? (uint32_t)got : 0;
        if (got != (ssize_t)wanted)
            break;
    }
    covretin_request_done(request, filled);
}

static void tell_end(void *none, enum covretin_error error)
{
    (void)none;
    printf("a frontend went: %s\n", covretin_error_text(error));
}

static covretin_device_calls calls = {.queues = 1, .request = fill, .ended = tell_end};

#ifndef COVRETIN_PROGRAM /* c/tools/ has a program with the same source */
int main(int argc, char **argv)
{
    calls.calls_by_pipe = argc == 3 && strcmp(argv[2], "pipe") == 0;
    if (argc != 2 + calls.calls_by_pipe) {
        fprintf(stderr, "usage: rng PATH [pipe]\n");
        return 2;
    }
    setvbuf(stdout, NULL, _IOLBF, 0); /* also in a file, so that who is killed has said what it did */
    enum covretin_error error = covretin_device_run(&calls, NULL, argv[1]);
    if (error == COVRETIN_OK)
        return 0;
    bool is_systems = error == COVRETIN_SOCKET_ERROR; /* errno says more */
    fprintf(stderr, "%s: %s%s%s\n", argv[1], covretin_error_text(error), is_systems ? ": " : "", is_systems ? strerror(errno) : "");
    return 4;
}
#endif
