/* SPDX-License-Identifier: Apache-2.0 */
/* The main program of a device: its arguments, by QEMU's conventions for backend programs, its socket, and its life. Beside it stands the
 * device, a table of callbacks of covretin_device.h. */
#ifndef COVRETIN_PROGRAM_H
#define COVRETIN_PROGRAM_H

#include "../../include/covretin_device.h"

/* An argument of the device: --name=VALUE; or --name, where it takes none. */
struct program_option {
    const char *name, *value, *says;
    bool (*take)(const char *value); /* false: the value is none; NULL is given where it takes none */
};

struct program {
    const char *name, *title, *capabilities; /* the last is JSON */
    const struct program_option *options;    /* NULL, or those until one without a name */
    const char *(*lacks)(void);              /* NULL, or what is wrong with what the options said together; NULL: nothing */
    const covretin_device_calls *calls;
    void *own;

    /* NULL, or makes what the device needs, with the signals that end the program blocked. NULL: it could; else what could not be had, of which
     * errno says more. */
    const char *(*prepare)(void);

    /* NULL, or whether a request is under way still, once the program ends; and what is to be done at last. */
    bool (*is_busy)(void);
    void (*finish)(void);
};

/* A number from a least to a most. */
bool program_number(const char *text, unsigned long least, unsigned long most, unsigned long *number);

/* The whole of main: its status. */
int program_run(const struct program *program, char **words);

#endif
