/* SPDX-License-Identifier: Apache-2.0 */
/* What a device's session on the backend channel may be asked: any call, with any arguments. */
#ifndef CHANNEL_ASKS_H
#define CHANNEL_ASKS_H

#include "covretin_channel.h"
#include "run.h"

/* What was asked last, in the forms in which the other side reads it. */
struct asked {
    uint8_t name[17];
    covretin_mmap mmap;
    int32_t fd;
};
extern struct asked asked;

/* Opens the session, and has the flags that the input says. */
void open_channel(covretin_channel *channel);

/* Sets a flag, where the input says so. */
void set_flag(covretin_channel *channel);

/* Asks what the input says, once more where an allocation failed in it. Told as the outcome of `which`; at most one request is then to
 * be sent, of so many bytes. */
enum covretin_error ask_next(covretin_channel *channel, uint8_t which, uint8_t *bytes, size_t *length, int32_t *fd);

#endif
