/* SPDX-License-Identifier: Apache-2.0 */
/* Whether the way through the proved code back to main is found, as debuggers, profilers and exceptions go it: from each allocation that an
   export makes. Linked with --wrap=malloc,--wrap=realloc. Status 0 where each way came there. */
#include <covretin.h>
#include <covretin_backend.h>
#include <covretin_queue.h>
#include <stdint.h>
#include <stdio.h>
#include <stdlib.h>
#include <unwind.h>

int main(void);
void *__real_malloc(size_t size);
void *__wrap_malloc(size_t size);
void *__real_realloc(void *at, size_t size);
void *__wrap_realloc(void *at, size_t size);

/* Whether an export is called at present; how many ways were gone, and how many of them came to main. */
static int calls;
static unsigned gone, come;

static _Unwind_Reason_Code visit(struct _Unwind_Context *context, void *came) {
    void *function = _Unwind_FindEnclosingFunction((void *)(uintptr_t)_Unwind_GetIP(context));
    *(int *)came |= (uintptr_t)function == (uintptr_t)main;
    return _URC_NO_REASON;
}

static void go_back(void) {
    int came = 0;
    if (calls) {
        gone++;
        _Unwind_Backtrace(visit, &came);
        come += came != 0;
    }
}

void *__wrap_malloc(size_t size) {
    go_back();
    return __real_malloc(size);
}

void *__wrap_realloc(void *at, size_t size) {
    go_back();
    return __real_realloc(at, size);
}

int main(void) {
    covretin_session frontend = {0};
    covretin_backend backend = {0};
    covretin_queue queue = {0};
    const uint8_t request[12] = {1, 0, 0, 0, 1, 0, 0, 0, 0, 0, 0, 0};
    calls = 1;
    (void)covretin_open(&frontend, 1);
    (void)covretin_backend_open(&backend);
    (void)covretin_ask_get_features(&frontend);
    (void)covretin_backend_receive(&backend, request, sizeof request, NULL, 0);
    (void)covretin_queue_open(&queue);
    calls = 0;
    covretin_close(&frontend);
    covretin_backend_close(&backend);
    covretin_queue_close(&queue);
    printf("unwinding: %u of %u allocations\n", come, gone);
    return gone > 2 && come == gone ? EXIT_SUCCESS : EXIT_FAILURE;
}
