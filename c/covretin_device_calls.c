/* SPDX-License-Identifier: Apache-2.0 */
/* What each call of a frontend means for a device. */
#ifndef _GNU_SOURCE
#define _GNU_SOURCE /* for memfd_create */
#endif

#include "covretin_device_session.h"
#include "covretin_reasons.h"
#include "covretin_transport.h"

#include <fcntl.h>
#include <stdio.h>
#include <stdlib.h>
#include <string.h>
#include <sys/epoll.h>
#include <sys/mman.h>
#include <unistd.h>

enum { IN_A_TABLE = 32 };

typedef enum covretin_error answer(struct session *session);

/* -- Features and configuration -- */

static uint64_t features_of(const struct session *session)
{
    return session->calls->features | COVRETIN_DEVICE_VERSION_1 | COVRETIN_DEVICE_EVENT_IDX | COVRETIN_DEVICE_INDIRECT_DESC |
           COVRETIN_FEATURE_LOG_ALL | COVRETIN_FEATURE_PROTOCOL_FEATURES;
}

static uint64_t protocol_features_of(const struct covretin_device_calls *calls)
{
    return calls->protocol_features | COVRETIN_PROTOCOL_MQ | COVRETIN_PROTOCOL_LOG_SHMFD | COVRETIN_PROTOCOL_REPLY_ACK |
           COVRETIN_PROTOCOL_PAGEFAULT | COVRETIN_PROTOCOL_RESET_DEVICE | COVRETIN_PROTOCOL_CONFIGURE_MEM_SLOTS |
           COVRETIN_PROTOCOL_INFLIGHT_SHMFD | COVRETIN_PROTOCOL_BACKEND_REQ |
           (calls->read_config != NULL ? COVRETIN_PROTOCOL_CONFIG : 0);
}

static enum covretin_error reply(struct session *session, bool is_done)
{
    covretin_backend *backend = &session->frontend.backend;
    session->is_refused = !is_done;
    return is_done ? covretin_reply_done(backend) : covretin_reply_refused(backend);
}

static enum covretin_error get_features(struct session *session)
{
    return covretin_reply_number(&session->frontend.backend, features_of(session));
}

static enum covretin_error get_protocol_features(struct session *session)
{
    return covretin_reply_number(&session->frontend.backend, protocol_features_of(session->calls));
}

static enum covretin_error get_queue_num(struct session *session)
{
    return covretin_reply_number(&session->frontend.backend, session->calls->queues);
}

static enum covretin_error get_max_mem_slots(struct session *session)
{
    return covretin_reply_number(&session->frontend.backend, COVRETIN_DEVICE_MAX_REGIONS);
}

static void tell_accepted(struct session *session)
{
    if (session->calls->accepted == NULL)
        return;
    pthread_mutex_unlock(&session->lock);
    session->calls->accepted(session->own, session->features, session->protocol_features);
    pthread_mutex_lock(&session->lock);
}

/* Whether all of these features were offered. */
static bool are_offered(struct session *session, uint64_t accepted, uint64_t offered)
{
    return (accepted & ~offered) == 0 || log_why(session, REASON_NOT_OFFERED(accepted & ~offered));
}

static enum covretin_error set_features(struct session *session)
{
    uint64_t accepted;
    if (covretin_call_number(&session->frontend.backend, &accepted) || !are_offered(session, accepted, features_of(session)))
        return reply(session, false);
    session->features = accepted;
    tell_accepted(session);
    return reply(session, true);
}

static enum covretin_error set_protocol_features(struct session *session)
{
    uint64_t accepted;
    if (covretin_call_number(&session->frontend.backend, &accepted) ||
        !are_offered(session, accepted, protocol_features_of(session->calls)))
        return reply(session, false);
    session->protocol_features = accepted;
    tell_accepted(session);
    return reply(session, true);
}

static enum covretin_error get_config(struct session *session)
{
    uint8_t bytes[COVRETIN_MAX_CONFIG];
    covretin_config part;
    size_t none;
    bool is_read;
    if (covretin_call_config(&session->frontend.backend, &part, bytes, sizeof bytes, &none) || part.size > sizeof bytes ||
        session->calls->read_config == NULL)
        return reply(session, false);
    pthread_mutex_unlock(&session->lock);
    is_read = session->calls->read_config(session->own, part.offset, bytes, part.size);
    pthread_mutex_lock(&session->lock);
    if (!is_read)
        return reply(session, log_why(session, REASON_NO_CONFIG(part.size, part.offset)));
    return covretin_reply_config(&session->frontend.backend, bytes, part.size);
}

static enum covretin_error set_config(struct session *session)
{
    uint8_t bytes[COVRETIN_MAX_CONFIG];
    covretin_config part;
    size_t count;
    bool is_written;
    if (covretin_call_config(&session->frontend.backend, &part, bytes, sizeof bytes, &count))
        return reply(session, false);
    pthread_mutex_unlock(&session->lock);
    is_written = session->calls->write_config != NULL && session->calls->write_config(session->own, part.offset, bytes, (uint32_t)count);
    pthread_mutex_lock(&session->lock);
    return reply(session, is_written || log_why(session, REASON_FIXED_CONFIG(part.size, part.offset)));
}

static enum covretin_error set_backend_req_fd(struct session *session)
{
    int32_t fd;
    bool is_taken;
    if (covretin_call_fd(&session->frontend.backend, &fd))
        return reply(session, false);
    if (session->calls->config_changed != NULL || session->calls->channel == NULL)
        is_taken = teller_begin(session, fd);
    else {
        pthread_mutex_unlock(&session->lock);
        is_taken = session->calls->channel(session->own, fd, session->protocol_features);
        pthread_mutex_lock(&session->lock);
    }
    if (!is_taken)
        log_why(session, REASON_NO_CHANNEL);
    return reply(session, is_taken && covretin_claim_call_fd(&session->frontend, fd) == COVRETIN_OK);
}

/* -- Memory -- */

/* How a call changes what each queue sees: all regions are others, or one is more or less, which is not compared with each pair of the
 * rest. */
struct change {
    enum { ALL, ONE_MORE, ONE_LESS } kind;
    covretin_guest_region regions[IN_A_TABLE];
    size_t count;
};

static enum covretin_queue_error show_change(covretin_queue *queue, const struct change *change)
{
    const covretin_guest_region *first = change->regions;
    if (change->kind == ONE_MORE)
        return covretin_queue_add_region(queue, first);
    if (change->kind == ONE_LESS)
        return covretin_queue_remove_region(queue, first->guest_addr, first->size, first->user_addr);
    return covretin_queue_set_regions(queue, first, change->count);
}

/* Each queue sees these regions. False: they are none, and nothing changed; where memory failed the session ends. */
static bool show_regions(struct session *session, const struct change *change)
{
    enum covretin_queue_error error = COVRETIN_QUEUE_OK;
    for (uint32_t i = 0; !error && i < session->calls->queues; i++)
        error = show_change(&session->rings[i].queue, change);
    if (error == COVRETIN_QUEUE_OUT_OF_MEMORY)
        session->why = COVRETIN_OUT_OF_MEMORY;
    return error == COVRETIN_QUEUE_OK || log_why(session, "%s", log_rule(error));
}

/* The session has these regions, in the place of those that it had. A ring that lies in none of them is left alone until it does; what it
 * has of them stays mapped for it. NULL: they could not be made. */
static bool use_regions(struct session *session, struct space *space, const struct change *change)
{
    if (space != NULL && space->count > COVRETIN_DEVICE_MAX_REGIONS)
        log_why(session, "%s", log_rule(COVRETIN_QUEUE_TOO_MANY_REGIONS));
    if (space == NULL || space->count > COVRETIN_DEVICE_MAX_REGIONS || !show_regions(session, change)) {
        space_release(space);
        return false;
    }
    space_release(session->space);
    session->space = space;
    for (uint32_t i = 0; i < session->calls->queues; i++)
        ring_move(session, &session->rings[i]);
    return true;
}

static covretin_guest_region seen_of(const struct mapping *it)
{
    return (covretin_guest_region){it->guest, it->size, it->user, (uint64_t)(uintptr_t)it->at};
}

/* A mapping of a region, or NULL. */
static struct mapping *map_region(struct session *session, const covretin_region *region)
{
    struct mapping *mapping = mapping_new(&session->holder, region->fd, region->mmap_offset, region->memory_size);
    if (mapping == NULL)
        return NULL;
    mapping->guest = region->guest_phys_addr;
    mapping->user = region->user_addr;
    return mapping;
}

/* Replies where the last regions are mapped, while postcopy listens. */
static enum covretin_error reply_mapped(struct session *session, size_t count, bool listening)
{
    const struct space *space = session->space;
    uint64_t bases[IN_A_TABLE];
    if (!listening)
        return reply(session, true);
    for (size_t i = 0; i < count; i++)
        bases[i] = (uint64_t)(uintptr_t)space->mappings[space->count - count + i]->at;
    return covretin_reply_bases(&session->frontend.backend, bases, count);
}

/* A table is in the place of what was there; one more region is beside it. */
static enum covretin_error add_regions(struct session *session, const struct space *before)
{
    covretin_region regions[IN_A_TABLE];
    struct mapping *mappings[IN_A_TABLE];
    struct space *space = NULL;
    struct change change = {.kind = before != NULL ? ONE_MORE : ALL};
    size_t count;
    bool listening;
    if (covretin_call_regions(&session->frontend.backend, regions, IN_A_TABLE, &count, &listening))
        return reply(session, false);
    for (; change.count < count && (mappings[change.count] = map_region(session, &regions[change.count])) != NULL; change.count++)
        change.regions[change.count] = seen_of(mappings[change.count]);
    if (change.count == count)
        space = space_new(before, SIZE_MAX, mappings, count);
    else
        log_region(session, change.count, &regions[change.count]);
    for (size_t i = 0; space == NULL && i < change.count; i++)
        mapping_release(mappings[i]);
    return use_regions(session, space, &change) ? reply_mapped(session, count, listening) : reply(session, false);
}

static enum covretin_error set_mem_table(struct session *session)
{
    return add_regions(session, NULL);
}

/* Which of the session's regions this one is; as many as there are: none. */
static size_t find_region(const struct session *session, const covretin_region *region)
{
    const size_t had = session->space != NULL ? session->space->count : 0;
    size_t at = 0;
    for (; at < had; at++) {
        const struct mapping *it = session->space->mappings[at];
        if (it->guest == region->guest_phys_addr && it->user == region->user_addr && it->size == region->memory_size)
            break;
    }
    return at;
}

/* The region that a call names, where the session has it. */
static struct mapping *region_of_call(struct session *session, covretin_region *region, bool *listening)
{
    size_t count, at;
    if (covretin_call_regions(&session->frontend.backend, region, 1, &count, listening))
        return NULL;
    at = find_region(session, region);
    return session->space != NULL && at < session->space->count ? session->space->mappings[at] : NULL;
}

/* QEMU before 8.1 gives the same region once for each pair of a card's queues, and takes it back as often. (one that is given more often overlaps
 * itself, as any other) */
static enum covretin_error add_mem_reg(struct session *session)
{
    covretin_region region;
    bool listening;
    struct mapping *there = region_of_call(session, &region, &listening);
    if (there == NULL || there->again == session->calls->queues || !mapping_is_of(there, region.fd, region.mmap_offset, region.memory_size))
        return add_regions(session, session->space);
    there->again++;
    const uint64_t base = (uint64_t)(uintptr_t)there->at;
    return listening ? covretin_reply_bases(&session->frontend.backend, &base, 1) : reply(session, true);
}

static enum covretin_error rem_mem_reg(struct session *session)
{
    covretin_region region;
    struct change change = {.kind = ONE_LESS, .count = 1};
    bool listening;
    struct mapping *there = region_of_call(session, &region, &listening);
    if (there == NULL)
        return reply(session, log_why(session, "%s", log_rule(COVRETIN_QUEUE_NO_SUCH_REGION)));
    if (there->again != 0) {
        there->again--;
        return reply(session, true);
    }
    change.regions[0] = seen_of(there);
    return reply(session, use_regions(session, space_new(session->space, find_region(session, &region), NULL, 0), &change));
}

/* (a refusal ends the session: this call has a reply of its own) */
static enum covretin_error set_log_base(struct session *session)
{
    covretin_region log;
    mapping_release(session->log);
    session->log = NULL;
    if (covretin_call_log(&session->frontend.backend, &log))
        return reply(session, false);
    session->log = mapping_new(&session->holder, log.fd, log.mmap_offset, log.memory_size);
    return reply(session, session->log != NULL || log_file(session, REASON_THE_LOG, &log));
}

static enum covretin_error postcopy_advise(struct session *session)
{
    bool is_begun = session->arrival.userfault >= 0;
    session->arrival.frontend = covretin_service_fd(&session->frontend);
    if (!arrival_begin(&session->arrival))
        return reply(session, is_begun ? log_why(session, REASON_ADVISED) : log_why(session, REASON_NO_USERFAULT));
    return covretin_reply_fd(&session->frontend.backend, session->arrival.userfault);
}

static enum covretin_error postcopy_ack(struct session *session)
{
    return reply(session, arrival_watch(&session->arrival, session->space) || log_why(session, REASON_NO_USERFAULT));
}

static enum covretin_error postcopy_end(struct session *session)
{
    if (session->arrival.userfault < 0)
        log_why(session, REASON_NOT_ADVISED);
    return reply(session, arrival_end(&session->arrival, session->space));
}

/* -- Rings -- */

/* The ring of this number, or NULL: the device has no such ring. */
static struct ring *ring_at(struct session *session, uint32_t index)
{
    if (index < session->calls->queues)
        return &session->rings[index];
    log_why(session, REASON_NO_QUEUE(session->calls->queues, index));
    return NULL;
}

static uint32_t number_of(const struct session *session, const struct ring *ring)
{
    return (uint32_t)(ring - session->rings);
}

/* The ring of a call that has a number, or NULL. */
static struct ring *ring_of(struct session *session, uint32_t *number)
{
    uint32_t index;
    return covretin_call_ring(&session->frontend.backend, &index, number) ? NULL : ring_at(session, index);
}

/* The same of a call that a ring stops for, which is refused while it runs. */
static struct ring *stopped_ring_of(struct session *session, uint32_t *number)
{
    struct ring *ring = ring_of(session, number);
    if (ring == NULL || !ring->is_started)
        return ring;
    log_why(session, REASON_IS_STARTED(number_of(session, ring)));
    return NULL;
}

static enum covretin_error set_vring_num(struct session *session)
{
    uint32_t size, most = session->calls->max_queue_size != 0 ? session->calls->max_queue_size : COVRETIN_DEVICE_MAX_QUEUE_SIZE;
    struct ring *ring = stopped_ring_of(session, &size);
    if (ring != NULL && (size == 0 || size > most))
        return reply(session, log_why(session, REASON_WRONG_SIZE(number_of(session, ring), size, most)));
    if (ring == NULL)
        return reply(session, false);
    ring->size = (uint16_t)size;
    return reply(session, true);
}

static enum covretin_error set_vring_addr(struct session *session)
{
    covretin_vring place;
    uint32_t index;
    struct ring *ring = covretin_call_vring(&session->frontend.backend, &index, &place) ? NULL : ring_at(session, index);
    if (ring == NULL)
        return reply(session, false);
    ring->place = place;
    ring_move(session, ring);
    return reply(session, true);
}

static enum covretin_error set_vring_base(struct session *session)
{
    uint32_t base;
    struct ring *ring = stopped_ring_of(session, &base);
    if (ring == NULL)
        return reply(session, false);
    ring->base = base;
    ring->has_base = true;
    return reply(session, true);
}

/* (its requests are done) */
static enum covretin_error get_vring_base(struct session *session)
{
    uint32_t none;
    struct ring *ring = ring_of(session, &none);
    if (ring == NULL)
        return reply(session, false);
    if (ring->is_started && covretin_queue_base(&ring->queue, &ring->base) == COVRETIN_QUEUE_OK)
        ring->has_base = true;
    ring_leave(session, ring);
    ring_stop(session, ring);
    return covretin_reply_ring(&session->frontend.backend, number_of(session, ring), ring->base);
}

static enum covretin_error set_vring_enable(struct session *session)
{
    uint32_t is_enabled;
    struct ring *ring = ring_of(session, &is_enabled);
    if (ring == NULL)
        return reply(session, false);
    ring->is_enabled = is_enabled != 0;
    ring->is_due = true;
    return reply(session, true);
}

/* What kind of file a descriptor is of, by the name that the system gives it: nothing is asked of the file itself. */
static bool is_kind(int fd, const char *kind)
{
    char name[32], found[32] = "";
    snprintf(name, sizeof name, "/proc/self/fd/%d", fd);
    return readlink(name, found, sizeof found - 1) > 0 && strncmp(found, kind, strlen(kind)) == 0;
}

/* The kick that a ring has, or has no more. What is no eventfd stays the library's to close. */
static bool take_kick(struct session *session, struct ring *ring, int32_t fd)
{
    struct epoll_event kicked = {.events = EPOLLIN, .data.u32 = number_of(session, ring)};
    if (fd >= 0 && (!is_kind(fd, "anon_inode:[eventfd]") || epoll_ctl(session->polled, EPOLL_CTL_ADD, fd, &kicked)))
        return log_why(session, REASON_NO_EVENTFD);
    if (fd >= 0 && covretin_claim_call_fd(&session->frontend, fd)) {
        epoll_ctl(session->polled, EPOLL_CTL_DEL, fd, NULL);
        return false;
    }
    ring_drop_kick(session, ring);
    ring->kick = fd;
    return true;
}

/* What a ring signals, where it is more than an eventfd and the device has asked for that. A pipe is opened anew, with flags that the frontend has
 * no part in. */
static struct bell other_bell(const struct session *session, int32_t fd)
{
    char name[32];
    if (fd < 0 || !session->calls->calls_by_pipe)
        return (struct bell){.fd = -1};
    if (transport_check_socket(fd) == COVRETIN_OK)
        return (struct bell){.fd = fd, .is_socket = true};
    snprintf(name, sizeof name, "/proc/self/fd/%d", fd);
    return (struct bell){.fd = is_kind(fd, "pipe:[") ? open(name, O_WRONLY | O_NONBLOCK | O_CLOEXEC) : -1, .is_pipe = true};
}

/* The same with what a ring signals. */
static bool take_bell(struct session *session, struct bell *bell, int32_t fd)
{
    bool is_eventfd = fd >= 0 && is_kind(fd, "anon_inode:[eventfd]");
    struct bell taken = is_eventfd ? (struct bell){.fd = fd} : other_bell(session, fd);
    if (fd >= 0 && taken.fd < 0)
        return session->calls->calls_by_pipe ? log_why(session, REASON_NO_SIGNAL) : log_why(session, REASON_NO_EVENTFD);
    if (fd >= 0 && !taken.is_pipe && covretin_claim_call_fd(&session->frontend, fd))
        return false;
    bell_close(bell);
    *bell = taken;
    return true;
}

/* How many bytes of the inflight region a ring has, where all of them have this size. */
static uint64_t area_size(const struct session *session, uint16_t size)
{
    return inflight_size((session->features & COVRETIN_DEVICE_RING_PACKED) != 0, size);
}

/* Its part of the inflight region, or NULL where it has none. */
static uint8_t *inflight_of(const struct session *session, uint32_t index)
{
    uint64_t size = area_size(session, session->inflight_queue_size);
    if (session->inflight == NULL || session->rings[index].size > session->inflight_queue_size ||
        index >= session->inflight->size / size)
        return NULL;
    return session->inflight->at + index * size;
}

/* The ring of a call that brings a descriptor, or NULL. */
static struct ring *ring_and_fd(struct session *session, uint32_t *index, int32_t *fd)
{
    return covretin_call_ring_fd(&session->frontend.backend, index, fd) ? NULL : ring_at(session, *index);
}

/* The kick begins the ring. */
static enum covretin_error set_vring_kick(struct session *session)
{
    uint32_t index;
    int32_t fd;
    struct ring *ring = ring_and_fd(session, &index, &fd);
    if (ring == NULL || !take_kick(session, ring, fd))
        return reply(session, false);
    ring->is_due = true;
    if (ring->is_started)
        return reply(session, true);
    ring->inflight = inflight_of(session, index);
    return reply(session, ring_start(session, ring));
}

static enum covretin_error set_bell(struct session *session, bool is_call)
{
    uint32_t index;
    int32_t fd;
    struct ring *ring = ring_and_fd(session, &index, &fd);
    return reply(session, ring != NULL && take_bell(session, is_call ? &ring->call : &ring->error, fd));
}

static enum covretin_error set_vring_call(struct session *session)
{
    return set_bell(session, true);
}

static enum covretin_error set_vring_err(struct session *session)
{
    return set_bell(session, false);
}

/* -- The inflight region -- */

/* Maps the region for as many rings of a size as it says. Not while a ring runs: it writes to its part of the one that is mapped. */
static bool map_inflight(struct session *session, const covretin_inflight *told, int fd)
{
    uint64_t size = told->num_queues * area_size(session, told->queue_size);
    struct mapping *mapping;
    for (uint32_t i = 0; i < session->calls->queues; i++)
        if (session->rings[i].is_started)
            return log_why(session, REASON_IS_STARTED(i));
    if (told->num_queues == 0 || told->num_queues > session->calls->queues || told->queue_size == 0 ||
        told->queue_size > COVRETIN_DEVICE_MAX_QUEUE_SIZE || told->mmap_offset % 64 != 0 || told->mmap_size < size)
        return log_why(session, REASON_WRONG_INFLIGHT(told->num_queues, told->queue_size, told->mmap_size, told->mmap_offset));
    mapping = mapping_new(&session->holder, fd, told->mmap_offset, size);
    if (mapping == NULL)
        return log_file(session, REASON_THE_INFLIGHT, &(covretin_region){.memory_size = size, .mmap_offset = told->mmap_offset, .fd = fd});
    mapping_release(session->inflight);
    session->inflight = mapping;
    session->inflight_queue_size = told->queue_size;
    return true;
}

void close_inflight_fd(struct session *session)
{
    if (session->inflight_fd >= 0)
        close(session->inflight_fd);
    session->inflight_fd = -1;
}

/* A region of zeros, for the frontend to keep. */
static enum covretin_error get_inflight_fd(struct session *session)
{
    covretin_inflight told;
    int32_t none;
    if (covretin_call_inflight(&session->frontend.backend, &told, &none))
        return reply(session, false);
    told.mmap_size = told.num_queues * area_size(session, told.queue_size);
    told.mmap_offset = 0;
    close_inflight_fd(session);
    session->inflight_fd = memfd_create("inflight", MFD_CLOEXEC);
    if (session->inflight_fd < 0 || ftruncate(session->inflight_fd, (off_t)told.mmap_size) ||
        !map_inflight(session, &told, session->inflight_fd))
        return reply(session, false);
    return covretin_reply_inflight(&session->frontend.backend, &told, session->inflight_fd);
}

static enum covretin_error set_inflight_fd(struct session *session)
{
    covretin_inflight told;
    int32_t fd;
    if (covretin_call_inflight(&session->frontend.backend, &told, &fd))
        return reply(session, false);
    return reply(session, map_inflight(session, &told, fd));
}

/* -- Calls -- */

static enum covretin_error do_nothing(struct session *session)
{
    return reply(session, true);
}

/* (its requests are done) */
static enum covretin_error reset_device(struct session *session)
{
    for (uint32_t i = 0; i < session->calls->queues; i++) {
        ring_stop(session, &session->rings[i]);
        session->rings[i].base = 0;
        session->rings[i].has_base = session->rings[i].is_enabled = false;
    }
    if (session->calls->reset != NULL) {
        pthread_mutex_unlock(&session->lock);
        session->calls->reset(session->own);
        pthread_mutex_lock(&session->lock);
    }
    return reply(session, true);
}

/* What each call means. Any other is refused. */
static answer *answer_of(uint32_t call)
{
    static answer *const answers[] = {
        [COVRETIN_CALL_GET_FEATURES] = get_features,
        [COVRETIN_CALL_SET_FEATURES] = set_features,
        [COVRETIN_CALL_SET_OWNER] = do_nothing,
        [COVRETIN_CALL_RESET_OWNER] = reset_device,
        [COVRETIN_CALL_SET_MEM_TABLE] = set_mem_table,
        [COVRETIN_CALL_SET_LOG_BASE] = set_log_base,
        [COVRETIN_CALL_SET_VRING_NUM] = set_vring_num,
        [COVRETIN_CALL_SET_VRING_ADDR] = set_vring_addr,
        [COVRETIN_CALL_SET_VRING_BASE] = set_vring_base,
        [COVRETIN_CALL_GET_VRING_BASE] = get_vring_base,
        [COVRETIN_CALL_SET_VRING_KICK] = set_vring_kick,
        [COVRETIN_CALL_SET_VRING_CALL] = set_vring_call,
        [COVRETIN_CALL_SET_VRING_ERR] = set_vring_err,
        [COVRETIN_CALL_GET_PROTOCOL_FEATURES] = get_protocol_features,
        [COVRETIN_CALL_SET_PROTOCOL_FEATURES] = set_protocol_features,
        [COVRETIN_CALL_GET_QUEUE_NUM] = get_queue_num,
        [COVRETIN_CALL_SET_VRING_ENABLE] = set_vring_enable,
        [COVRETIN_CALL_SET_BACKEND_REQ_FD] = set_backend_req_fd,
        [COVRETIN_CALL_GET_CONFIG] = get_config,
        [COVRETIN_CALL_SET_CONFIG] = set_config,
        [COVRETIN_CALL_POSTCOPY_ADVISE] = postcopy_advise,
        [COVRETIN_CALL_POSTCOPY_LISTEN] = do_nothing,
        [COVRETIN_CALL_POSTCOPY_END] = postcopy_end,
        [COVRETIN_CALL_GET_INFLIGHT_FD] = get_inflight_fd,
        [COVRETIN_CALL_SET_INFLIGHT_FD] = set_inflight_fd,
        [COVRETIN_CALL_RESET_DEVICE] = reset_device,
        [COVRETIN_CALL_GET_MAX_MEM_SLOTS] = get_max_mem_slots,
        [COVRETIN_CALL_ADD_MEM_REG] = add_mem_reg,
        [COVRETIN_CALL_REM_MEM_REG] = rem_mem_reg,
        [COVRETIN_CALL_POSTCOPY_ACK] = postcopy_ack,
    };
    return call < sizeof answers / sizeof *answers ? answers[call] : NULL;
}

bool has_to_wait(struct session *session, uint32_t call)
{
    bool is_reset = call == COVRETIN_CALL_RESET_DEVICE || call == COVRETIN_CALL_RESET_OWNER, is_out = false;
    uint32_t none;
    struct ring *one = call == COVRETIN_CALL_GET_VRING_BASE ? ring_of(session, &none) : NULL;
    for (uint32_t i = 0; i < session->calls->queues; i++) {
        struct ring *ring = &session->rings[i];
        if (!is_reset && ring != one)
            continue;
        ring->is_ending = true;
        is_out = is_out || ring->out != 0;
    }
    return is_out;
}

enum covretin_error answer_call(struct session *session, uint32_t call)
{
    answer *answers = answer_of(call);
    return answers == NULL ? reply(session, log_why(session, REASON_UNSERVED)) : answers(session);
}

int answer_other(void *context, uint32_t request, const uint8_t *bytes, size_t len, const int32_t *fds, size_t count)
{
    struct session *session = context;
    bool is_served;
    pthread_mutex_unlock(&session->lock);
    is_served = session->calls->other(session->own, request, bytes, len, fds, count);
    pthread_mutex_lock(&session->lock);
    return is_served ? 0 : -1;
}
