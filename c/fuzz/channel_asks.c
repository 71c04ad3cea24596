/* SPDX-License-Identifier: Apache-2.0 */
#include "channel_asks.h"

struct asked asked;

static enum covretin_error agree(covretin_channel *channel, uint8_t which, bool on)
{
    switch (which % 4) {
    case 0: return covretin_channel_set_reply_ack(channel, on);
    case 1: return covretin_channel_set_config_change(channel, on);
    case 2: return covretin_channel_set_shared_object(channel, on);
    default: return covretin_channel_set_shmem(channel, on);
    }
}

void open_channel(covretin_channel *channel)
{
    enum covretin_error error;
    do
        error = covretin_channel_open(channel);
    while (is_again(error));
    must(error == COVRETIN_OK);
    for (uint8_t flags = next_byte(), which = 0; which < 4; which++)
        must(agree(channel, which, (flags >> which & 1) == 0) == COVRETIN_OK);
}

void set_flag(covretin_channel *channel)
{
    uint8_t flag = next_byte();
    if (flag < 16)
        must(agree(channel, flag, flag >= 8) == COVRETIN_OK);
}

static enum covretin_error ask(covretin_channel *channel, uint8_t which)
{
    uint8_t first = next_byte();
    uint64_t number = next_number();
    size_t length = 16 + (number % 8 == 7);
    asked.name[0] = first;
    asked.name[1] = 1;
    asked.mmap = (covretin_mmap){number, number, next_number(), number % 4, (uint8_t)number};
    asked.fd = (int32_t)number;
    switch (which % 6) {
    case 0: return covretin_channel_ask_config_change(channel);
    case 1: return covretin_channel_ask_shared_object_add(channel, asked.name, length);
    case 2: return covretin_channel_ask_shared_object_remove(channel, asked.name, length);
    case 3: return covretin_channel_ask_shared_object_lookup(channel, asked.name, length, asked.fd);
    case 4: return covretin_channel_ask_shmem_map(channel, &asked.mmap, asked.fd);
    default: return covretin_channel_ask_shmem_unmap(channel, &asked.mmap);
    }
}

/* Takes what is to be sent: one whole request, or nothing. How many bytes it has. */
static size_t take_request(covretin_channel *channel, uint8_t *bytes, int32_t *fd)
{
    enum covretin_error error;
    int32_t fds[COVRETIN_MAX_FDS];
    size_t count = 0, fd_count = 0, none = 0;
    uint32_t head[3];
    do
        error = covretin_channel_to_send(channel, bytes, COVRETIN_MAX_MESSAGE, fds, COVRETIN_MAX_FDS, &count, &fd_count);
    while (is_again(error));
    must(error == COVRETIN_OK && fd_count <= 1);
    *fd = fd_count == 1 ? fds[0] : -1;
    if (count == 0)
        return 0;
    must(count >= sizeof head && count < COVRETIN_MAX_MESSAGE);
    memcpy(head, bytes, sizeof head);
    must((head[1] & 7) == 1 && head[2] == count - sizeof head);
    do
        error = covretin_channel_to_send(channel, bytes + count, 1, fds, COVRETIN_MAX_FDS, &none, &fd_count);
    while (is_again(error));
    must(error == COVRETIN_OK && none == 0 && fd_count == 0);
    tell(bytes, count);
    TELL((uint64_t)*fd);
    return count;
}

enum covretin_error ask_next(covretin_channel *channel, uint8_t which, uint8_t *bytes, size_t *length, int32_t *fd)
{
    enum covretin_error error;
    size_t step = this_step();
    bool again;
    do {
        back_to(step);
        error = ask(channel, which);
        again = is_again(error);
        *length = take_request(channel, bytes, fd);
        must((error == COVRETIN_OK) == (*length != 0));
    } while (again);
    outcome(which % 6, error);
    return error;
}
