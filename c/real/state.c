/* SPDX-License-Identifier: Apache-2.0 */
/* A device of any kind that has a state of its own, which is migrated with it (DEVICE_STATE), and leaves its rings alone.
 *
 *     state PATH FILE
 *
 * Serves one frontend at PATH, as any.c does. FILE is its state: what it saves is in there, and what it loads is written there. */
#include "idle.h"

#include <fcntl.h>
#include <signal.h>
#include <stdio.h>
#include <unistd.h>

enum { SAVE = 0 };

static const char *path_of_state;
static bool is_transferred; /* the last transfer moved all */

/* Copies from one file to another up to the end. False where that failed. */
static bool copy(int from, int to)
{
    char bytes[65536];
    ssize_t count;
    while ((count = read(from, bytes, sizeof bytes)) > 0)
        for (ssize_t at = 0, written; at < count; at += written)
            if ((written = write(to, bytes + at, (size_t)(count - at))) < 0)
                return false;
    return count == 0;
}

/* Saves its state to a pipe, or loads it from there. */
static bool transfer(uint32_t direction, int pipe)
{
    int file = direction == SAVE ? open(path_of_state, O_RDONLY | O_CLOEXEC)
                                 : open(path_of_state, O_WRONLY | O_CREAT | O_TRUNC | O_CLOEXEC, 0600);
    bool is_done = file >= 0 && (direction == SAVE ? copy(file, pipe) : copy(pipe, file));
    if (file >= 0)
        close(file);
    return is_done;
}

/* The frontend reads or writes the other end of the pipe once it has the reply. */
static enum covretin_error set_device_state_fd(void)
{
    uint32_t direction, phase;
    int32_t pipe;
    enum covretin_error error;
    if (covretin_call_transfer(BACKEND, &direction, &phase, &pipe) || covretin_claim_call_fd(&frontend, pipe))
        return covretin_reply_refused(BACKEND);
    error = covretin_reply_fd(BACKEND, -1);
    if (!error)
        error = covretin_send_reply(&frontend, -1);
    is_transferred = !error && transfer(direction, pipe);
    close(pipe);
    printf("%s: %s\n", direction == SAVE ? "saved" : "loaded", is_transferred ? "all" : "not all");
    return error;
}

static enum covretin_error answer_with_state(uint32_t call)
{
    if (call == COVRETIN_CALL_SET_DEVICE_STATE_FD)
        return set_device_state_fd();
    if (call == COVRETIN_CALL_CHECK_DEVICE_STATE && !is_transferred)
        return covretin_reply_refused(BACKEND);
    return answer_idly(call);
}

int main(int argc, char **argv)
{
    if (argc != 3) {
        fprintf(stderr, "usage: state PATH FILE\n");
        return 2;
    }
    signal(SIGPIPE, SIG_IGN);
    path_of_state = argv[2];
    rings = 2;
    protocol_features |= COVRETIN_PROTOCOL_DEVICE_STATE;
    return serve_at(argv[1], answer_with_state);
}
