/* SPDX-License-Identifier: Apache-2.0 */
/* chains CHAIN direct|indirect flags|event REGIONS SIZE COUNT: nanoseconds that a device takes for one chain, of so many. */
#define _GNU_SOURCE
#include "driver.h"

#include <stdio.h>
#include <stdlib.h>
#include <string.h>
#include <time.h>

static double now(void)
{
    struct timespec at;
    clock_gettime(CLOCK_MONOTONIC, &at);
    return (double)at.tv_sec * 1e9 + (double)at.tv_nsec;
}

int main(int argc, char **argv)
{
    struct shape shape;
    long count, done = 0, segments = 0;
    int batch, each;
    double begun;
    if (argc != 7)
        return 2;
    shape = (struct shape){atoi(argv[1]), !strcmp(argv[2], "indirect"), !strcmp(argv[3], "event"), atoi(argv[4]), atoi(argv[5])};
    count = atol(argv[6]);
    driver_make(&shape);
    device_open(&shape);
    each = shape.is_indirect ? 1 : shape.chain;
    batch = shape.size / each < BATCH ? shape.size / each : BATCH;
    begun = now();
    for (; done < count; done += batch) {
        driver_add(&shape, batch);
        segments += device_serve(&shape, batch);
    }
    begun = now() - begun;
    if (segments != done * shape.chain) {
        fprintf(stderr, "chains: %ld segments of %ld\n", segments, done * shape.chain);
        return 1;
    }
    printf("%.2f\n", begun / (double)done);
    return 0;
}
