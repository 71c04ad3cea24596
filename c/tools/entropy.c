/* SPDX-License-Identifier: Apache-2.0 */
/* covretin-rng: the source of entropy of c/rng.c as a program that people run. `covretin-rng --help` says how it is called. */
#define COVRETIN_PROGRAM
#include "../rng.c"

#include "program.h"

int main(int argc, char **argv)
{
    static const struct program source = {
        .name = "covretin-rng", .title = "A source of entropy", .capabilities = "{\"type\": \"rng\"}", .calls = &calls};
    (void)argc;
    return program_run(&source, argv);
}
