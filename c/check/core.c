/* SPDX-License-Identifier: Apache-2.0 */
/* The proved core's sessions as their contracts allow them to answer (docs/exports.tsv, and the headers): by which descriptors go in and out. A session
 * holds the numbers of those that came, and each is claimed once or handed out once. */
#include "core.h"

struct model frontend_model, backend_model, channel_model, server_model, display_model;

void model_begin(struct model *model, bool may_be_claimed)
{
    model->may_be_claimed = may_be_claimed;
    model->has_call = may_be_claimed && any_bool();
    model->pieces = MOST_PIECES;
    model->messages = MOST_MESSAGES;
}

void model_hold(struct model *model, int fd)
{
    if (fd >= 0 && fd < MOST_FDS)
        model->is_held[fd] = true;
}

void model_is_empty(const struct model *model)
{
    for (int fd = 0; fd < MOST_FDS; fd++)
        HOLDS(!model->is_held[fd], "the session holds no descriptor that nobody will hear of");
}

/* Nothing is missing where a call is to be replied to. */
size_t model_missing(struct model *model)
{
    size_t missing = any_size();
    if (model->has_call || model->pieces == 0 || missing == 0)
        return 0;
    model->pieces--;
    GIVEN(missing <= COVRETIN_MAX_MESSAGE);
    return missing;
}

enum covretin_error model_receive(struct model *model, const uint8_t *bytes, size_t bytes_len, const int32_t *fds, size_t fds_len)
{
    HOLDS(__CPROVER_r_ok(bytes, bytes_len), "receive: the bytes are there");
    HOLDS(__CPROVER_r_ok(fds, fds_len * sizeof *fds), "receive: the descriptors are there");
    if (fds_len > COVRETIN_MAX_FDS || (fds_len != 0 && bytes_len == 0))
        return COVRETIN_INVALID_PARAM;
    if (any_bool())
        return any_bool() ? COVRETIN_TOO_MANY_BYTES : any_bool() ? COVRETIN_INVALID_PARAM : COVRETIN_OUT_OF_MEMORY;
    for (size_t i = 0; i < COVRETIN_MAX_FDS; i++)
        if (i < fds_len) {
            HOLDS(fd_is_open(fds[i]), "receive: what is handed in is open");
            model_hold(model, fds[i]);
        }
    return COVRETIN_OK;
}

enum covretin_error model_to_send(struct model *model, uint8_t *bytes, size_t bytes_len, int32_t *fds, size_t fds_len, size_t *byte_count,
                                  size_t *fd_count)
{
    size_t has = any_size(), with = any_size();
    HOLDS(__CPROVER_w_ok(bytes, bytes_len), "to_send: there is room for bytes");
    HOLDS(__CPROVER_w_ok(fds, fds_len * sizeof *fds), "to_send: there is room for descriptors");
    if (any_bool())
        return COVRETIN_NO_ROOM;
    GIVEN(has <= bytes_len && with <= fds_len && (has != 0 || with == 0));
    if (model->messages == 0)
        has = with = 0;
    else
        model->messages--;
    any_bytes(bytes, has);
    for (size_t i = 0; i < COVRETIN_MAX_FDS; i++)
        if (i < with)
            fds[i] = any_int();
    *byte_count = has;
    *fd_count = with;
    return COVRETIN_OK;
}

/* Hands out any of those that it holds and nobody may claim; all of them, where there is room. */
enum covretin_error model_unclaimed(struct model *model, int32_t *fds, size_t fds_len, size_t *count)
{
    size_t handed = 0;
    HOLDS(fds_len != 0, "unclaimed: there is room for one");
    HOLDS(__CPROVER_w_ok(fds, fds_len * sizeof *fds), "unclaimed: there is room");
    for (int fd = 0; fd < MOST_FDS; fd++)
        if (model->is_held[fd] && handed < fds_len && (!(model->has_call || model->may_be_claimed) || any_bool())) {
            fds[handed++] = fd;
            model->is_held[fd] = false;
        }
    *count = handed;
    return COVRETIN_OK;
}

enum covretin_error model_abandon(struct model *model)
{
    model->may_be_claimed = false;
    return COVRETIN_OK;
}

enum covretin_error model_claim(struct model *model, int32_t fd)
{
    if (fd < 0 || fd >= MOST_FDS || !model->is_held[fd] || any_bool())
        return COVRETIN_OTHER_CALL;
    model->is_held[fd] = false;
    return COVRETIN_OK;
}

/* -- Those of each kind of session -- */

#define EXPORTS(calls, of, model) \
    enum covretin_error calls##_receive(of *session, const uint8_t *bytes, size_t bytes_len, const int32_t *fds, size_t fds_len) \
    { \
        (void)session; \
        return model_receive(&(model), bytes, bytes_len, fds, fds_len); \
    } \
    enum covretin_error calls##_to_send(of *session, uint8_t *bytes, size_t bytes_len, int32_t *fds, size_t fds_len, size_t *byte_count, \
                                        size_t *fd_count) \
    { \
        (void)session; \
        return model_to_send(&(model), bytes, bytes_len, fds, fds_len, byte_count, fd_count); \
    } \
    enum covretin_error calls##_unclaimed(of *session, int32_t *fds, size_t fds_len, size_t *count) \
    { \
        (void)session; \
        return model_unclaimed(&(model), fds, fds_len, count); \
    } \
    size_t calls##_missing(of *session) \
    { \
        (void)session; \
        return model_missing(&(model)); \
    } \
    void calls##_close(of *session) \
    { \
        session->opaque = NULL; \
    }

#define ABANDONS(calls, of, model) \
    enum covretin_error calls##_abandon(of *session) \
    { \
        (void)session; \
        return model_abandon(&(model)); \
    } \
    enum covretin_error calls##_claim(of *session, int32_t fd) \
    { \
        (void)session; \
        return model_claim(&(model), fd); \
    }

#define OPENS(calls, of) \
    enum covretin_error calls##_open(of *session) \
    { \
        return model_open(&session->opaque); \
    }

static enum covretin_error model_open(void **opaque)
{
    static struct model any;
    if (*opaque != NULL || any_bool())
        return *opaque != NULL ? COVRETIN_SESSION_OPEN : COVRETIN_OUT_OF_MEMORY;
    *opaque = &any;
    return COVRETIN_OK;
}

EXPORTS(covretin, covretin_session, frontend_model)
ABANDONS(covretin, covretin_session, frontend_model)
EXPORTS(covretin_backend, covretin_backend, backend_model)
ABANDONS(covretin_backend, covretin_backend, backend_model)
OPENS(covretin_backend, covretin_backend)
EXPORTS(covretin_channel, covretin_channel, channel_model)
OPENS(covretin_channel, covretin_channel)
EXPORTS(covretin_channel_server, covretin_channel_server, server_model)
ABANDONS(covretin_channel_server, covretin_channel_server, server_model)
OPENS(covretin_channel_server, covretin_channel_server)
EXPORTS(covretin_display, covretin_display, display_model)
OPENS(covretin_display, covretin_display)

enum covretin_error covretin_open(covretin_session *session, uint64_t max_queue_num)
{
    (void)max_queue_num;
    return model_open(&session->opaque);
}
