/* SPDX-License-Identifier: Apache-2.0 */
/* Checked: c/covretin_device_calls.c, over any call of a frontend, any device and any state of a session. Each call is replied to once. */
#include "any_device.h"

#include "covretin_device_calls.c"

/* -- The proved part: arguments are any, or there are none; a descriptor is one that came with the call -- */

static int came; /* with the call */
static bool is_claimed;
static unsigned replies;
static covretin_device_calls calls;

/* (the second ring, which not each device has: a place that may be any of an array costs too much) */
enum { THE_RING = 1 };

static enum covretin_error has_none(void)
{
    return any_bool() ? COVRETIN_OK : any_bool() ? COVRETIN_OTHER_CALL : COVRETIN_NO_SESSION;
}

enum covretin_error covretin_call_number(covretin_backend *backend, uint64_t *number)
{
    (void)backend;
    *number = any_u64();
    return has_none();
}

enum covretin_error covretin_call_ring(covretin_backend *backend, uint32_t *index, uint32_t *number)
{
    (void)backend;
    *index = THE_RING;
    *number = any_u32();
    return has_none();
}

enum covretin_error covretin_call_vring(covretin_backend *backend, uint32_t *index, covretin_vring *ring)
{
    covretin_vring any;
    (void)backend;
    *index = THE_RING;
    *ring = any;
    return has_none();
}

enum covretin_error covretin_call_ring_fd(covretin_backend *backend, uint32_t *index, int32_t *fd)
{
    (void)backend;
    *index = THE_RING;
    *fd = any_bool() ? came : -1;
    return has_none();
}

static size_t regions_told; /* so many, where there are any */

enum covretin_error covretin_call_regions(covretin_backend *backend, covretin_region *regions, size_t len, size_t *count, bool *listening)
{
    enum covretin_error error = has_none();
    (void)backend;
    HOLDS(__CPROVER_w_ok(regions, len * sizeof *regions), "there is room for the regions");
    if (error || regions_told > len)
        return error ? error : COVRETIN_NO_ROOM;
    for (size_t i = 0; i < regions_told; i++)
        regions[i] = (covretin_region){any_u64(), any_u64(), any_u64(), any_u64(), came};
    *count = regions_told;
    *listening = any_bool();
    return COVRETIN_OK;
}

enum covretin_error covretin_call_config(covretin_backend *backend, covretin_config *config, uint8_t *bytes, size_t len, size_t *count)
{
    (void)backend;
    HOLDS(__CPROVER_w_ok(bytes, len), "there is room for the bytes");
    *config = (covretin_config){any_u32(), any_u32(), any_u32()};
    *count = any_size();
    GIVEN(*count <= len);
    any_bytes(bytes, *count);
    return has_none();
}

enum covretin_error covretin_call_fd(covretin_backend *backend, int32_t *fd)
{
    (void)backend;
    *fd = came;
    return has_none();
}

enum covretin_error covretin_call_inflight(covretin_backend *backend, covretin_inflight *inflight, int32_t *fd)
{
    (void)backend;
    *inflight = (covretin_inflight){any_u64(), any_u64(), any_u16(), any_u16()};
    *fd = came;
    return has_none();
}

enum covretin_error covretin_call_log(covretin_backend *backend, covretin_region *log)
{
    (void)backend;
    *log = (covretin_region){0, any_u64(), 0, any_u64(), came};
    return has_none();
}

/* What the call names is one of its own, until it is claimed or replied to. */
enum covretin_error covretin_claim_call_fd(covretin_service *service, int32_t fd)
{
    (void)service;
    HOLDS(replies == 0, "a call's descriptor is claimed before the reply");
    if (fd != came || is_claimed)
        return COVRETIN_OTHER_CALL;
    is_claimed = true;
    return COVRETIN_OK;
}

static enum covretin_error replied(void)
{
    replies++;
    return (enum covretin_error)any_int();
}

enum covretin_error covretin_reply_done(covretin_backend *backend)
{
    (void)backend;
    return replied();
}

enum covretin_error covretin_reply_refused(covretin_backend *backend)
{
    (void)backend;
    return replied();
}

enum covretin_error covretin_reply_number(covretin_backend *backend, uint64_t number)
{
    (void)backend, (void)number;
    return replied();
}

enum covretin_error covretin_reply_ring(covretin_backend *backend, uint32_t index, uint32_t number)
{
    (void)backend, (void)number;
    HOLDS(index < calls.queues, "a ring of the device");
    return replied();
}

enum covretin_error covretin_reply_bases(covretin_backend *backend, const uint64_t *bases, size_t len)
{
    (void)backend;
    HOLDS(len == regions_told && __CPROVER_r_ok(bases, len * sizeof *bases), "as many as there are regions");
    return replied();
}

enum covretin_error covretin_reply_config(covretin_backend *backend, const uint8_t *bytes, size_t len)
{
    (void)backend;
    HOLDS(__CPROVER_r_ok(bytes, len), "the bytes are there");
    return replied();
}

enum covretin_error covretin_reply_fd(covretin_backend *backend, int32_t fd)
{
    (void)backend;
    HOLDS(fd_is_open(fd), "what is sent is open");
    return replied();
}

enum covretin_error covretin_reply_inflight(covretin_backend *backend, const covretin_inflight *inflight, int32_t fd)
{
    (void)backend;
    HOLDS(fd_is_open(fd) && __CPROVER_r_ok(inflight, sizeof *inflight), "what is sent is open");
    HOLDS(inflight->mmap_size != 0 && inflight->mmap_offset == 0, "a region that has bytes");
    return replied();
}

static enum covretin_queue_error any_error(void)
{
    return any_bool() ? COVRETIN_QUEUE_OK : any_bool() ? COVRETIN_QUEUE_REGION_OVERLAP : COVRETIN_QUEUE_OUT_OF_MEMORY;
}

enum covretin_queue_error covretin_queue_set_regions(covretin_queue *queue, const covretin_guest_region *regions, size_t regions_len)
{
    (void)queue;
    HOLDS(__CPROVER_r_ok(regions, regions_len * sizeof *regions), "the regions are there");
    return any_error();
}

enum covretin_queue_error covretin_queue_add_region(covretin_queue *queue, const covretin_guest_region *region)
{
    (void)queue;
    HOLDS(__CPROVER_r_ok(region, sizeof *region), "the region is there");
    return any_error();
}

enum covretin_queue_error covretin_queue_remove_region(covretin_queue *queue, uint64_t guest_addr, uint64_t size, uint64_t user_addr)
{
    (void)queue, (void)guest_addr, (void)size, (void)user_addr;
    return any_error();
}

enum covretin_queue_error covretin_queue_base(covretin_queue *queue, uint32_t *base)
{
    (void)queue;
    *base = any_u32();
    return any_bool() ? COVRETIN_QUEUE_OK : COVRETIN_QUEUE_NOT_STARTED;
}

/* -- The rest of the device kit -- */

static uint8_t bytes_there[8];

struct mapping *mapping_new(struct holder *holder, int fd, uint64_t offset, uint64_t size)
{
    (void)holder, (void)offset;
    HOLDS(fd_is_open(fd), "mapping_new: its file is open");
    return size == 0 || any_bool() ? NULL : mapping_made(bytes_there, size);
}

bool mapping_is_of(const struct mapping *mapping, int fd, uint64_t offset, uint64_t size)
{
    (void)offset, (void)size;
    HOLDS(mapping->users != 0 && fd_is_open(fd), "mapping_is_of: it is there, and the file is open");
    return any_bool();
}

struct space *space_new(const struct space *before, size_t without, struct mapping *const *added, size_t count)
{
    size_t had = before != NULL ? before->count : 0;
    if (any_bool())
        return NULL;
    struct space *space = space_made();
    for (size_t i = 0; i < had; i++)
        if (i != without) {
            before->mappings[i]->users++;
            space->mappings[space->count++] = before->mappings[i];
        }
    for (size_t i = 0; i < count; i++)
        space->mappings[space->count++] = added[i];
    return space;
}

bool arrival_begin(struct arrival *arrival)
{
    if (arrival->userfault >= 0 || any_bool())
        return false;
    arrival->userfault = fd_new();
    return true;
}

bool arrival_watch(const struct arrival *arrival, const struct space *space)
{
    (void)arrival;
    HOLDS(space == NULL || space->users != 0, "the space is there");
    return any_bool();
}

void ring_move(struct session *session, struct ring *ring)
{
    HOLDS(ring == &session->rings[0] || ring == &session->rings[1], "a ring of the device");
}

uint64_t inflight_size(bool is_packed, uint16_t size)
{
    return ((is_packed ? 32u : 16u) * ((uint64_t)size + 1) + 63) / 64 * 64;
}

bool ring_start(struct session *session, struct ring *ring)
{
    HOLDS(!ring->is_started, "it is started once");
    HOLDS(ring == &session->rings[0] || ring == &session->rings[1], "a ring of the device");
    if (ring->inflight != NULL) {
        uint64_t into = (uint64_t)(uintptr_t)ring->inflight - (uint64_t)(uintptr_t)session->inflight->at;
        uint64_t size = inflight_size((session->features & COVRETIN_DEVICE_RING_PACKED) != 0, ring->size);
        HOLDS(into <= session->inflight->size && size <= session->inflight->size - into, "its area lies in what is mapped");
    }
    ring->is_started = any_bool();
    return ring->is_started;
}

static int channel_fd = -1; /* the channel's, or the device's */

bool teller_begin(struct session *session, int fd)
{
    (void)session;
    if (any_bool())
        return false;
    channel_fd = fd;
    return true;
}

int covretin_service_fd(const covretin_service *service)
{
    (void)service;
    return any_int();
}

enum covretin_error transport_check_socket(int fd)
{
    HOLDS(fd_is_open(fd), "check_socket: it is open");
    return any_bool() ? COVRETIN_OK : COVRETIN_NOT_STREAM_SOCKET;
}

/* -- What else it calls -- */

int snprintf(char *text, size_t size, const char *form, ...)
{
    HOLDS(form != NULL && size != 0 && __CPROVER_w_ok(text, size), "there is room for the text");
    text[0] = '/';
    text[1] = 0;
    return any_int();
}

ssize_t readlink(const char *name, char *text, size_t size)
{
    size_t length = any_size();
    HOLDS(name[0] == '/' && __CPROVER_w_ok(text, size), "readlink: there is room for the name");
    GIVEN(length <= size);
    __CPROVER_havoc_slice(text, size);
    return any_bool() ? -1 : (ssize_t)length;
}

int open(const char *name, int flags, ...)
{
    HOLDS(name[0] == '/' && flags & O_NONBLOCK && flags & O_CLOEXEC, "open: it does not wait, and is closed by exec");
    return any_bool() ? -1 : fd_new();
}

int ftruncate(int fd, off_t size)
{
    HOLDS(fd_is_open(fd) && size >= 0, "ftruncate: it is open");
    return any_bool() ? -1 : 0;
}

/* -- Any device -- */

static void is_called(void *own)
{
    HOLDS(locks_held == 0 && own == &came, "no lock is held while the device is called");
}

static void any_accepted(void *own, uint64_t features, uint64_t protocol_features)
{
    (void)features, (void)protocol_features;
    is_called(own);
}

static bool any_read(void *own, uint32_t offset, uint8_t *bytes, uint32_t size)
{
    (void)offset;
    is_called(own);
    HOLDS(__CPROVER_w_ok(bytes, size), "there is room for its bytes");
    return any_bool();
}

static bool any_write(void *own, uint32_t offset, const uint8_t *bytes, uint32_t size)
{
    (void)offset;
    is_called(own);
    HOLDS(__CPROVER_r_ok(bytes, size), "the bytes are there");
    return any_bool();
}

static bool any_change(void *own)
{
    (void)own;
    return any_bool();
}

static bool any_channel(void *own, int fd, uint64_t protocol_features)
{
    (void)protocol_features;
    is_called(own);
    if (any_bool())
        return false;
    channel_fd = fd;
    return true;
}

static void any_reset(void *own)
{
    is_called(own);
}

static bool any_other(void *own, uint32_t request, const uint8_t *bytes, size_t len, const int32_t *fds, size_t count)
{
    (void)request;
    is_called(own);
    HOLDS(__CPROVER_r_ok(bytes, len) && __CPROVER_r_ok(fds, count * sizeof *fds), "the body and the descriptors are there");
    return any_bool();
}

/* -- Checks -- */

static struct session the;

/* Any session, with its lock held, and a call that brought a descriptor. Its rings have a kick and bells, or none. */
static struct session *any_session(void)
{
    calls = (covretin_device_calls){.features = any_u64(), .protocol_features = any_u64(), .queues = any_bool() ? 1 : 2, .other = any_other};
    calls.calls_by_pipe = any_bool();
    calls.accepted = any_bool() ? any_accepted : NULL;
    calls.read_config = any_bool() ? any_read : NULL;
    calls.write_config = any_bool() ? any_write : NULL;
    calls.config_changed = any_bool() ? any_change : NULL;
    calls.channel = any_bool() ? any_channel : NULL;
    calls.reset = any_bool() ? any_reset : NULL;
    the = (struct session){.calls = &calls, .own = &came, .inflight_fd = -1, .features = any_u64(), .arrival.userfault = -1, .polled = 0};
    came = fd_new();
    for (int i = 0; i < COVRETIN_DEVICE_MAX_QUEUES; i++) {
        the.rings[i].kick = the.rings[i].call.fd = the.rings[i].error.fd = -1;
        the.rings[i].size = any_u16();
        the.rings[i].is_started = any_bool();
        the.rings[i].out = any_size();
    }
    pthread_mutex_lock(&the.lock);
    return &the;
}

/* The call is answered; what came with it is closed with the reply, if it was not claimed; and all that the session has is given up. */
static void answered(struct session *session, uint32_t call)
{
    (void)answer_call(session, call);
    HOLDS(replies == 1, "it is replied to once");
    HOLDS(locks_held == 1, "the session's lock is held as before");
    HOLDS(is_claimed || channel_fd == -1, "whoever has the channel's socket claimed it");
    if (!is_claimed)
        fd_gone(came);
    if (channel_fd != -1)
        fd_gone(channel_fd);
    for (int i = 0; i < COVRETIN_DEVICE_MAX_QUEUES; i++) {
        ring_stop(session, &session->rings[i]);
        bell_close(&session->rings[i].error);
    }
    close_inflight_fd(session);
    (void)arrival_end(&session->arrival, session->space);
    space_release(session->space);
    mapping_release(session->log);
    mapping_release(session->inflight);
    fds_are_closed(-1);
    REACHED("answered");
}

/* Features and configuration, and whatever has no answer. */
void check_call_features(void)
{
    static const uint32_t numbers[] = {COVRETIN_CALL_GET_FEATURES, COVRETIN_CALL_SET_FEATURES, COVRETIN_CALL_GET_PROTOCOL_FEATURES,
                                       COVRETIN_CALL_SET_PROTOCOL_FEATURES, COVRETIN_CALL_GET_QUEUE_NUM, COVRETIN_CALL_GET_MAX_MEM_SLOTS,
                                       COVRETIN_CALL_GET_CONFIG, COVRETIN_CALL_SET_CONFIG, COVRETIN_CALL_SET_BACKEND_REQ_FD,
                                       COVRETIN_CALL_SET_OWNER, 0, 7, UINT32_MAX};
    answered(any_session(), numbers[LAYOUT]);
}

/* A session that has two regions, or none. */
static struct session *any_session_with_regions(void)
{
    struct session *session = any_session();
    if (any_bool()) {
        session->space = space_made();
        session->space->mappings[session->space->count++] = mapping_made(bytes_there, any_u64());
        session->space->mappings[session->space->count++] = mapping_made(bytes_there, any_u64());
    }
    return session;
}

/* A table of one region or three, and one less. */
void check_call_memory(void)
{
    regions_told = LAYOUT == 2 ? MOST_REGIONS : 1;
    answered(any_session_with_regions(), LAYOUT == 1 ? COVRETIN_CALL_REM_MEM_REG : COVRETIN_CALL_SET_MEM_TABLE);
}

/* The region that a call names, where the session has it: check_call_memory looks for it. */
struct mapping *any_region_of_call(struct session *session, covretin_region *region, bool *listening)
{
    *region = (covretin_region){any_u64(), any_u64(), any_u64(), any_u64(), came};
    *listening = any_bool();
    return session->space != NULL && any_bool() ? session->space->mappings[1] : NULL;
}

/* One more, or one that is there and is given again. */
void check_call_add(void)
{
    regions_told = 1;
    answered(any_session_with_regions(), COVRETIN_CALL_ADD_MEM_REG);
}

/* The log, and postcopy. */
void check_call_log(void)
{
    static const uint32_t numbers[] = {COVRETIN_CALL_SET_LOG_BASE, COVRETIN_CALL_POSTCOPY_ADVISE, COVRETIN_CALL_POSTCOPY_ACK,
                                       COVRETIN_CALL_POSTCOPY_END};
    struct session *session = any_session();
    session->log = any_bool() ? mapping_made(bytes_there, any_u64()) : NULL;
    session->space = any_bool() ? space_made() : NULL;
    if (any_bool())
        (void)arrival_begin(&session->arrival);
    answered(session, numbers[LAYOUT]);
}

void check_call_ring(void)
{
    static const uint32_t numbers[] = {COVRETIN_CALL_SET_VRING_NUM, COVRETIN_CALL_SET_VRING_ADDR, COVRETIN_CALL_SET_VRING_BASE,
                                       COVRETIN_CALL_GET_VRING_BASE, COVRETIN_CALL_SET_VRING_ENABLE, COVRETIN_CALL_RESET_DEVICE};
    struct session *session = any_session();
    bool waits = has_to_wait(session, numbers[LAYOUT]);
    bool is_out = (session->rings[0].is_ending && session->rings[0].out != 0) || (session->rings[1].is_ending && session->rings[1].out != 0);
    HOLDS(waits == is_out, "it waits for the requests of what ends");
    answered(session, numbers[LAYOUT]);
}

static int any_fd(void)
{
    bool is_there = any_bool();
    int fd = fd_new_if(is_there);
    return is_there ? fd : -1;
}

/* Kicks and bells, of a ring that may have one. */
void check_call_bell(void)
{
    static const uint32_t numbers[] = {COVRETIN_CALL_SET_VRING_KICK, COVRETIN_CALL_SET_VRING_CALL, COVRETIN_CALL_SET_VRING_ERR};
    struct session *session = any_session();
    session->inflight_queue_size = any_u16();
    GIVEN(session->inflight_queue_size >= 1 && session->inflight_queue_size <= COVRETIN_DEVICE_MAX_QUEUE_SIZE);
    session->inflight = any_bool() ? mapping_made(bytes_there, any_u64()) : NULL;
    session->rings[1].kick = any_fd();
    session->rings[1].call.fd = any_fd();
    session->rings[1].error.fd = any_fd();
    answered(session, numbers[LAYOUT]);
}

void check_call_inflight(void)
{
    static const uint32_t numbers[] = {COVRETIN_CALL_GET_INFLIGHT_FD, COVRETIN_CALL_SET_INFLIGHT_FD};
    struct session *session = any_session();
    session->inflight = any_bool() ? mapping_made(bytes_there, any_u64()) : NULL;
    session->inflight_fd = any_fd();
    answered(session, numbers[LAYOUT]);
}

void check_call_other(void)
{
    static const uint8_t bytes[1];
    struct session *session = any_session();
    (void)answer_other(session, any_u32(), bytes, sizeof bytes, &came, 1);
    HOLDS(locks_held == 1, "the session's lock is held as before");
    REACHED("answered");
}
