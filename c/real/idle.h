/* SPDX-License-Identifier: Apache-2.0 */
/* A device of any kind, which replies to each call and leaves its rings alone. */
#ifndef IDLE_H
#define IDLE_H

#include "covretin_backend_socket.h"

/* Its frontend, how many rings it has, and the features that it offers. */
extern covretin_service frontend;
extern uint64_t rings, features, protocol_features;
#define BACKEND (&frontend.backend)

/* Replies to a call. What has no other reply is done. */
typedef enum covretin_error answer(uint32_t call);
answer answer_idly;

/* Serves one frontend at a path by this answer. Prints a line for each call that it was asked and for each request that was refused.
 * Returns the status of a program: 0 where the frontend ended between two requests, 1 where not, 2 where something failed. */
int serve_at(const char *path, answer *answers);

#endif
