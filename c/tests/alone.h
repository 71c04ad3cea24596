/* A session alone, with no socket: what its tests hand in and out. */
#ifndef ALONE_H
#define ALONE_H

#include "covretin.h"

extern covretin_session session;

/* What covretin_to_send handed out last. */
extern uint8_t bytes[COVRETIN_MAX_MESSAGE];
extern int32_t fds[COVRETIN_MAX_FDS];
extern size_t count, fd_count;

/* Nothing is to be sent. */
void expect_silence(void);

/* This is to be sent, with so many descriptors, and then nothing more. */
void expect_text(const char *text, size_t length, size_t with);

/* Lets go of what is to be sent. */
void send_all(void);

/* Hands in bytes, with descriptors; more than are missing stay where they are. */
void give(const void *text, size_t length, const int32_t *with, size_t with_count);

#define GIVE(text) give(text, sizeof(text) - 1, fds, 0)
#define GIVE_WITH(text, fd) give(text, sizeof(text) - 1, (const int32_t[]){fd}, 1)

/* Opens a session in which these protocol features are accepted. */
void open_with(uint64_t protocol_features);

#endif
