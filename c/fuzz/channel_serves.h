/* SPDX-License-Identifier: Apache-2.0 */
/* What a frontend's session on the backend channel is asked, and what it replies: any number. */
#ifndef CHANNEL_SERVES_H
#define CHANNEL_SERVES_H

#include "covretin_channel.h"
#include "run.h"

/* The arguments of the call that is to be replied to, where it has them. */
struct called {
    uint8_t name[16];
    covretin_mmap mmap;
    int32_t fd; /* -1: none */
};
extern struct called called;

/* Opens the session, with acknowledgements or without. */
void open_server(covretin_channel_server *server, bool acknowledges);

/* Reads the arguments in every form, and tells them: only those of the call are there; 0 is none. */
void read_arguments(covretin_channel_server *server, uint32_t call);

/* Replies as the input says; *is_good says whether by 0. Told as the outcome of the call. */
enum covretin_error reply_to(covretin_channel_server *server, uint32_t call, bool *is_good);

/* Takes what is to be sent: a reply to this request, whole, or nothing; how many bytes it has. */
size_t take_reply(covretin_channel_server *server, uint32_t code, uint8_t *bytes);

#endif
