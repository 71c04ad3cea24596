/* SPDX-License-Identifier: Apache-2.0 */
/* Linked with -Wl,--wrap=covretin_backend_next, to a disk in C or in Rust: each call of the device is told, by its name, and refused in its
 * place where COVRETIN_REFUSES is that name. */
#include "covretin_backend.h"

#include <stdio.h>
#include <stdlib.h>
#include <string.h>

enum covretin_error __real_covretin_backend_next(covretin_backend *backend, uint32_t *call);
enum covretin_error __wrap_covretin_backend_next(covretin_backend *backend, uint32_t *call);

enum covretin_error __wrap_covretin_backend_next(covretin_backend *backend, uint32_t *call)
{
    const char *refused = getenv("COVRETIN_REFUSES");
    enum covretin_error error = __real_covretin_backend_next(backend, call);
    if (error)
        return error;
    fprintf(stderr, "asked %s\n", covretin_request_text(*call));
    if (refused == NULL || strcmp(refused, covretin_request_text(*call)) != 0)
        return COVRETIN_OK;
    covretin_reply_refused(backend);
    return COVRETIN_INVALID_OPERATION;
}
