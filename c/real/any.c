/* SPDX-License-Identifier: Apache-2.0 */
/* A backend for a device of any kind, which replies to each call and leaves the rings alone: for the frontends of devices that this
 * repository has no example of.
 *
 *     any PATH RINGS FEATURES
 *
 * Serves one frontend at PATH, as a device of so many rings, with these virtio features of its own, in hexadecimal digits. Prints a
 * line for each call that it was asked and for each request that was refused. Status 0 where the frontend ended between two requests,
 * 1 where not, 2 where something failed. */
#include "idle.h"

#include <stdio.h>
#include <stdlib.h>

int main(int argc, char **argv)
{
    if (argc != 4) {
        fprintf(stderr, "usage: any PATH RINGS FEATURES\n");
        return 2;
    }
    rings = strtoull(argv[2], NULL, 10);
    features |= strtoull(argv[3], NULL, 16);
    return serve_at(argv[1], answer_idly);
}
