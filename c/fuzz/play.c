/* SPDX-License-Identifier: Apache-2.0 */
/* Plays inputs of a fuzzer that are files, without libFuzzer, and says how many runs that were, how many bytes came in them, and how
 * often each error was met, by its number in covretin.h. Status 0, or 2 where a file cannot be read. '--made N' among the files stands for
 * N inputs whose bytes are as they fall, the same each time. */
#include "run.h"

#include <stdio.h>
#include <stdlib.h>
#include <sys/time.h>

static uint8_t bytes[1 << 20];

/* Plays an input, whose calls all return: a minute of this processor's time is more than any takes. */
static void play(size_t size)
{
    static const struct itimerval minute = {.it_value = {.tv_sec = 60}};
    setitimer(ITIMER_VIRTUAL, &minute, NULL);
    LLVMFuzzerTestOneInput(bytes, size);
}

/* Plays an input that is made of a number. Of one in many each allocation fails, of the others one. */
static void play_made(uint64_t number)
{
    at_every_place = number % 32 == 0;
    uint64_t random = (number + 1) * 0x9e3779b97f4a7c15u;
    size_t size = 64 + random % 1984;
    for (size_t i = 0; i < size; i++) {
        random ^= random << 13;
        random ^= random >> 7;
        random ^= random << 17;
        bytes[i] = (uint8_t)(random >> 32);
    }
    play(size);
}

int main(int argc, char **argv)
{
    int made = 0;
    at_every_place = true;
    for (int i = 1; i < argc; i++) {
        if (strcmp(argv[i], "--made") == 0 && i + 1 < argc) {
            int count = atoi(argv[++i]);
            for (int number = 0; number < count; number++)
                play_made((uint64_t)number);
            at_every_place = true;
            made += count - 2;
            continue;
        }
        FILE *file = fopen(argv[i], "rb");
        if (file == NULL) {
            perror(argv[i]);
            return 2;
        }
        play(fread(bytes, 1, sizeof bytes, file));
        fclose(file);
    }
    printf("%d inputs, %lu runs, %lu bytes; errors", argc - 1 + made, tally.runs, tally.bytes);
    for (size_t error = 0; error < sizeof tally.errors / sizeof *tally.errors; error++)
        if (tally.errors[error] != 0)
            printf(" %zu: %lu", error, tally.errors[error]);
    printf("\n");
    return 0;
}
