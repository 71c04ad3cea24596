/* SPDX-License-Identifier: Apache-2.0 */
/* Covretin: what vhost-run says of itself, whose proved part reads calls alone. Private to it. */
#include "covretin.h"

#include <stdio.h>
#include <stdlib.h>
#include <string.h>

void covretin_program_about(const char *word);

static const char usage[] =
    "usage: vhost-run [-v|-q] [--comments] [--profile=standard|vhost]\n"
    "       vhost-run --help | --version\n"
    "\n"
    "Reads calls of a vhost-user frontend, one a line, makes each of an example device in memory, and prints a line\n"
    "'REQUEST REPLY ANSWER' for it. The calls, their units and their answers: man vhost-run.\n"
    "\n"
    "  -v                  a bad line says which word is wrong, and why, and a call that lacks a feature or names no ring why it was\n"
    "                      refused; -q: neither does, as without it\n"
    "  --comments          the same as -v; an empty line is passed over, and one that begins with #; what failed has status 4\n"
    "  --profile=standard  both sides do as the specification and real peers; else as the crate vhost\n"
    "\n"
    "Status: 0 at the end of the input; 1 after a line that is no call; 2 where the input, the output or memory failed, and\n"
    "after a wrong argument.\n";

void covretin_program_about(const char *word)
{
    if (strcmp(word, "--help") == 0)
        fputs(usage, stdout);
    else if (strcmp(word, "--version") == 0)
        puts("vhost-run " COVRETIN_VERSION);
    else
        return;
    exit(fflush(stdout) == 0 ? 0 : 4);
}
