/* SPDX-License-Identifier: Apache-2.0 */
#include "serves.h"

struct called called;
struct replied replied;

/* Whether the arguments have this form. */
static bool is_form(enum form form, enum covretin_error error)
{
    must(error == COVRETIN_OK || error == COVRETIN_OTHER_CALL);
    if (error != COVRETIN_OK)
        return false;
    must(called.form == NO_FORM);
    called.form = form;
    return true;
}

static void read_rings(covretin_backend *backend)
{
    const covretin_vring *ring = &called.ring;
    if (is_form(NUMBER, covretin_call_number(backend, &called.number)))
        TELL(NUMBER, called.number);
    if (is_form(RING, covretin_call_ring(backend, &called.index, &called.second)))
        TELL(RING, called.index, called.second);
    if (is_form(VRING, covretin_call_vring(backend, &called.index, &called.ring))) {
        must(ring->queue_max_size == 0 && ring->queue_size == 0 && ring->has_log_addr == (ring->flags & 1));
        TELL(VRING, called.index, ring->flags, ring->desc_table_addr, ring->used_ring_addr, ring->avail_ring_addr, ring->log_addr);
    }
    if (is_form(RING_FD, covretin_call_ring_fd(backend, &called.index, &called.fd)))
        TELL(RING_FD, called.index, (uint64_t)called.fd);
}

static void tell_region(const covretin_region *region)
{
    TELL(region->guest_phys_addr, region->memory_size, region->user_addr, region->mmap_offset, (uint64_t)region->fd);
}

static void read_memory(covretin_backend *backend, void may_name(int32_t fd))
{
    if (is_form(REGIONS, covretin_call_regions(backend, called.regions, 32, &called.count, &called.listening))) {
        must(called.count >= 1 && called.count <= 32);
        TELL(REGIONS, called.count, called.listening);
        for (size_t i = 0; i < called.count; i++) {
            may_name(called.regions[i].fd);
            tell_region(&called.regions[i]);
        }
    }
    if (is_form(LOG, covretin_call_log(backend, &called.log))) {
        may_name(called.log.fd);
        tell_region(&called.log);
    }
}

static void read_others(covretin_backend *backend)
{
    const covretin_inflight *inflight = &called.inflight;
    size_t count = 0;
    if (is_form(CONFIG, covretin_call_config(backend, &called.config, called.bytes, sizeof called.bytes, &count))) {
        called.count = count;
        must(count <= COVRETIN_MAX_CONFIG && (count == 0 || count == called.config.size));
        TELL(CONFIG, called.config.offset, called.config.size, called.config.flags, count);
        tell(called.bytes, count);
    }
    if (is_form(FD, covretin_call_fd(backend, &called.fd)))
        TELL(FD, (uint64_t)called.fd);
    if (is_form(NAME, covretin_call_name(backend, called.name, sizeof called.name)))
        tell(called.name, sizeof called.name);
    if (is_form(INFLIGHT, covretin_call_inflight(backend, &called.inflight, &called.fd)))
        TELL(INFLIGHT, inflight->mmap_size, inflight->mmap_offset, inflight->num_queues, inflight->queue_size, (uint64_t)called.fd);
    if (is_form(TRANSFER, covretin_call_transfer(backend, &called.index, &called.second, &called.fd)))
        TELL(TRANSFER, called.index, called.second, (uint64_t)called.fd);
}

/* A request that has no call of its own: number and body, and its descriptors. */
static void read_whole(covretin_backend *backend, void may_name(int32_t fd))
{
    enum covretin_error error = covretin_call_other(backend, &called.index, called.bytes, sizeof called.bytes, &called.count);
    size_t count = 0;
    must(covretin_call_fds(backend, called.fds, COVRETIN_MAX_FDS, &count) == error);
    if (!is_form(OTHER, error))
        return;
    must(called.count <= COVRETIN_MAX_MESSAGE - 12 && count <= COVRETIN_MAX_FDS);
    TELL(OTHER, called.index, called.count, count);
    tell(called.bytes, called.count);
    for (size_t i = 0; i < count; i++)
        may_name(called.fds[i]);
}

void read_arguments(covretin_backend *backend, void may_name(int32_t fd))
{
    called.form = NO_FORM;
    called.count = 0;
    called.fd = -1;
    read_rings(backend);
    read_memory(backend, may_name);
    read_others(backend);
    read_whole(backend, may_name);
    may_name(called.fd);
}

/* Makes what the device replies, in one of nine forms, and replies so. */
static enum covretin_error reply(covretin_backend *backend)
{
    uint8_t form = next_byte();
    uint64_t number = next_number();
    memset(&replied, 0, sizeof replied);
    replied.form = form;
    replied.sizes[form] = number;
    switch (form % 9) {
    case 0: return covretin_reply_done(backend);
    case 1: return covretin_reply_number(backend, replied.number = next_number());
    case 2: replied.index = next_byte(); return covretin_reply_ring(backend, replied.index, (uint32_t)(replied.number = next_byte()));
    case 3:
        replied.bases[number % 32] = number;
        replied.count = next_byte() % 33;
        return covretin_reply_bases(backend, replied.bases, replied.count);
    case 4:
        replied.count = next_number() % (COVRETIN_MAX_CONFIG + 1);
        replied.bytes[number % 8] = form;
        return covretin_reply_config(backend, replied.bytes, replied.count);
    case 5: replied.fd = next_byte() % 2 ? REPLIED_FD : -1; return covretin_reply_fd(backend, replied.fd);
    case 6:
        replied.inflight = (covretin_inflight){4096, 0, 1, 8};
        replied.fd = REPLIED_FD;
        return covretin_reply_inflight(backend, &replied.inflight, REPLIED_FD);
    case 7: replied.count = next_byte(); return covretin_reply_shmem(backend, replied.sizes, 256, (uint32_t)replied.count);
    default: replied.has_refused = true; return covretin_reply_refused(backend);
    }
}

/* The same, once more where an allocation failed in it. */
static enum covretin_error reply_once(covretin_backend *backend)
{
    enum covretin_error error;
    size_t step = this_step();
    do {
        back_to(step);
        error = reply(backend);
    } while (error == COVRETIN_OUT_OF_MEMORY && is_again(error));
    return error;
}

enum covretin_error reply_to(covretin_backend *backend, uint32_t call, void may_name(int32_t fd))
{
    enum covretin_error error = COVRETIN_OTHER_CALL;
    for (int tries = 0; tries < 3 && (error == COVRETIN_OTHER_CALL || error == COVRETIN_INVALID_PARAM); tries++) {
        read_arguments(backend, may_name);
        error = reply_once(backend);
        outcome(call, error);
    }
    if (error != COVRETIN_OTHER_CALL && error != COVRETIN_INVALID_PARAM)
        return error;
    replied.has_refused = true;
    do
        error = covretin_reply_refused(backend);
    while (error == COVRETIN_OUT_OF_MEMORY && is_again(error));
    outcome(call, error);
    return error;
}

size_t take_reply(covretin_backend *backend, uint32_t code, uint8_t *bytes, int32_t *fds, size_t *fd_count)
{
    enum covretin_error error;
    size_t count = 0, none = 0, no_fd = 0;
    uint32_t head[3];
    do
        error = covretin_backend_to_send(backend, bytes, COVRETIN_MAX_MESSAGE, fds, COVRETIN_MAX_FDS, &count, fd_count);
    while (is_again(error));
    must(error == COVRETIN_OK && *fd_count <= 1 && (*fd_count == 0 || fds[0] == REPLIED_FD));
    if (count == 0)
        return 0;
    must(count >= sizeof head && count <= COVRETIN_MAX_MESSAGE);
    memcpy(head, bytes, sizeof head);
    must(head[0] == code && (head[1] & 7) == 5 && head[2] == count - sizeof head);
    do
        error = covretin_backend_to_send(backend, bytes + count, 1, fds + *fd_count, COVRETIN_MAX_FDS, &none, &no_fd);
    while (is_again(error));
    must(error == COVRETIN_OK && none == 0 && no_fd == 0);
    tell(bytes, count);
    tell(fds, *fd_count * sizeof *fds);
    return count;
}
