/* SPDX-License-Identifier: Apache-2.0 */
#include "idle.h"

#include <stdio.h>

covretin_service frontend;
uint64_t rings, features = (uint64_t)1 << 32 /* version 1 */ | COVRETIN_FEATURE_PROTOCOL_FEATURES | COVRETIN_FEATURE_LOG_ALL;

uint64_t protocol_features = COVRETIN_PROTOCOL_LOG_SHMFD | COVRETIN_PROTOCOL_REPLY_ACK | COVRETIN_PROTOCOL_MTU |
                             COVRETIN_PROTOCOL_BACKEND_REQ | COVRETIN_PROTOCOL_CONFIG | COVRETIN_PROTOCOL_RESET_DEVICE |
                             COVRETIN_PROTOCOL_CONFIGURE_MEM_SLOTS;

static enum covretin_error answer_config(void)
{
    static uint8_t none[1], zeros[COVRETIN_MAX_CONFIG];
    covretin_config part;
    size_t count;
    if (covretin_call_config(BACKEND, &part, none, sizeof none, &count))
        return covretin_reply_refused(BACKEND);
    return covretin_reply_config(BACKEND, zeros, part.size);
}

static enum covretin_error answer_base(void)
{
    uint32_t index, none;
    if (covretin_call_ring(BACKEND, &index, &none))
        return covretin_reply_refused(BACKEND);
    return covretin_reply_ring(BACKEND, index, 0);
}

enum covretin_error answer_idly(uint32_t call)
{
    enum covretin_error error;
    switch (call) {
    case COVRETIN_CALL_GET_FEATURES: return covretin_reply_number(BACKEND, features);
    case COVRETIN_CALL_GET_PROTOCOL_FEATURES: return covretin_reply_number(BACKEND, protocol_features);
    case COVRETIN_CALL_GET_QUEUE_NUM: return covretin_reply_number(BACKEND, rings);
    case COVRETIN_CALL_GET_MAX_MEM_SLOTS: return covretin_reply_number(BACKEND, 32);
    case COVRETIN_CALL_GET_VRING_BASE: return answer_base();
    case COVRETIN_CALL_GET_CONFIG: return answer_config();
    default: break;
    }
    error = covretin_reply_done(BACKEND);
    return error == COVRETIN_OTHER_CALL ? covretin_reply_refused(BACKEND) : error;
}

/* Serves the frontend until it ends, or a call cannot be replied to. How it did. */
static enum covretin_error serve(answer *answers)
{
    for (;;) {
        uint32_t call = 0, request;
        enum covretin_error error = covretin_next_call(&frontend, &call, -1);
        if (covretin_service_ended(&frontend) || error == COVRETIN_NOT_REPLIED)
            return error;
        if (error == COVRETIN_OK)
            error = answers(call);
        request = covretin_service_request(&frontend);
        printf("%s %u: %s: %s\n", error ? "refused" : "call", (unsigned)request, covretin_request_text(request),
               covretin_error_text(error));
    }
}

int serve_at(const char *path, answer *answers)
{
    covretin_listener listener = {NULL};
    enum covretin_error error = covretin_listen(&listener, path);
    if (error == COVRETIN_OK)
        error = covretin_accept(&listener, &frontend, -1);
    covretin_unlisten(&listener);
    if (error) {
        fprintf(stderr, "%s: %s\n", path, covretin_error_text(error));
        return 2;
    }
    setvbuf(stdout, NULL, _IOLBF, 0);
    error = serve(answers);
    covretin_hang_up(&frontend);
    printf("ended: %s\n", covretin_error_text(error));
    return error != COVRETIN_DISCONNECTED;
}
