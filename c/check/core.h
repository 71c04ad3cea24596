/* SPDX-License-Identifier: Apache-2.0 */
/* What a harness sees of the proved core's sessions: see core.c. */
#ifndef COVRETIN_CHECK_CORE_H
#define COVRETIN_CHECK_CORE_H

#include "check.h"

#include "covretin_backend.h"
#include "covretin_channel.h"
#include "covretin_display.h"

/* A session, as far as what is around it may rely on it: the descriptors that it holds, and whether anybody may still claim one. */
struct model {
    bool is_held[MOST_FDS];
    bool has_call;      /* a call is to be replied to, and keeps its own descriptors */
    bool may_be_claimed;
    unsigned pieces, messages; /* how often it still misses bytes, and has a message to send */
};

extern struct model frontend_model, backend_model, channel_model, server_model, display_model;

/* Any state of a session, which holds so many descriptors that are open. */
void model_begin(struct model *model, bool may_be_claimed);
void model_hold(struct model *model, int fd);

/* The session holds none: all were claimed, or handed out to be closed. */
void model_is_empty(const struct model *model);

/* The calls of a session, of any kind. */
size_t model_missing(struct model *model);
enum covretin_error model_receive(struct model *model, const uint8_t *bytes, size_t bytes_len, const int32_t *fds, size_t fds_len);
enum covretin_error model_to_send(struct model *model, uint8_t *bytes, size_t bytes_len, int32_t *fds, size_t fds_len, size_t *byte_count,
                                  size_t *fd_count);
enum covretin_error model_unclaimed(struct model *model, int32_t *fds, size_t fds_len, size_t *count);
enum covretin_error model_abandon(struct model *model);
enum covretin_error model_claim(struct model *model, int32_t fd);

#endif
