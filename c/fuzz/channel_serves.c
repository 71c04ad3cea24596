/* SPDX-License-Identifier: Apache-2.0 */
#include "channel_serves.h"

struct called called;

void open_server(covretin_channel_server *server, bool acknowledges)
{
    enum covretin_error error;
    do
        error = covretin_channel_server_open(server);
    while (is_again(error));
    must(error == COVRETIN_OK);
    must(covretin_channel_server_set_reply_ack(server, acknowledges) == COVRETIN_OK);
}

void read_arguments(covretin_channel_server *server, uint32_t call)
{
    const covretin_mmap *mmap = &called.mmap;
    bool is_named = call >= 6 && call <= 8, is_mapped = call == 9 || call == 10, has_fd = call == 8 || call == 9;
    called.fd = -1;
    must((covretin_channel_call_name(server, called.name, sizeof called.name) == COVRETIN_OK) == is_named);
    must((covretin_channel_call_mmap(server, &called.mmap) == COVRETIN_OK) == is_mapped);
    must((covretin_channel_call_fd(server, &called.fd) == COVRETIN_OK) == has_fd);
    must(!is_mapped || (mmap->len != 0 && mmap->flags <= 1));
    if (is_named)
        tell(called.name, sizeof called.name);
    if (is_mapped)
        TELL(mmap->fd_offset, mmap->shm_offset, mmap->len, mmap->flags, mmap->shmid);
    TELL((uint64_t)called.fd);
}

enum covretin_error reply_to(covretin_channel_server *server, uint32_t call, bool *is_good)
{
    uint64_t number = next_number();
    enum covretin_error error = number % 2 ? covretin_channel_reply_errno(server, (int32_t)number)
                                           : covretin_channel_reply_number(server, number / 2);
    *is_good = number == 0;
    must(error == COVRETIN_OK || is_starved(error));
    outcome(call + 64, error);
    return error;
}

size_t take_reply(covretin_channel_server *server, uint32_t code, uint8_t *bytes)
{
    enum covretin_error error;
    int32_t fds[COVRETIN_MAX_FDS];
    size_t count = 0, none = 0, fd_count = 0;
    uint32_t head[3];
    do
        error = covretin_channel_server_to_send(server, bytes, COVRETIN_MAX_MESSAGE, fds, COVRETIN_MAX_FDS, &count, &fd_count);
    while (is_again(error));
    must(error == COVRETIN_OK && fd_count == 0);
    if (count == 0)
        return 0;
    must(count == 20);
    memcpy(head, bytes, sizeof head);
    must(head[0] == code && (head[1] & 7) == 5 && head[2] == 8);
    do
        error = covretin_channel_server_to_send(server, bytes + count, 1, fds, COVRETIN_MAX_FDS, &none, &fd_count);
    while (is_again(error));
    must(error == COVRETIN_OK && none == 0 && fd_count == 0);
    tell(bytes, count);
    return count;
}
