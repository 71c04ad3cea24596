/* SPDX-License-Identifier: Apache-2.0 */
/* Of covretin_device.h: why something was refused, for whoever listens. Lines that a peer causes are few in a second, and name neither paths nor
 * what is in guest memory. */
#ifndef _GNU_SOURCE
#define _GNU_SOURCE
#endif
#include "covretin_device_session.h"
#include "covretin_features.h"
#include "covretin_reasons.h"
#include "covretin_serving.h"

#include <fcntl.h>
#include <stdarg.h>
#include <stdio.h>
#include <sys/stat.h>
#include <time.h>

enum { MOST_LINES = 20 /* in a second */, MOST_LINE = 320 };

static void (*listener)(void *own, enum covretin_level level, const char *text);
static void *listener_own;
static pthread_mutex_t lock = PTHREAD_MUTEX_INITIALIZER;
static time_t second; /* in which so many lines came, and so many were left out */
static unsigned lines, left_out;

void covretin_set_log(void (*log)(void *own, enum covretin_level level, const char *text), void *own)
{
    pthread_mutex_lock(&lock);
    listener = log;
    listener_own = own;
    lines = left_out = 0;
    pthread_mutex_unlock(&lock);
}

/* Whether a line may come, now. */
static bool may_come(void)
{
    struct timespec now;
    char text[64];
    clock_gettime(CLOCK_MONOTONIC, &now);
    if (now.tv_sec != second) {
        snprintf(text, sizeof text, REASON_LEFT_OUT(left_out));
        if (left_out != 0)
            listener(listener_own, COVRETIN_LEVEL_WARNING, text);
        second = now.tv_sec;
        lines = left_out = 0;
    }
    left_out += lines >= MOST_LINES;
    return lines++ < MOST_LINES;
}

static void say(enum covretin_level level, const char *form, ...) __attribute__((format(printf, 2, 3)));

static void say(enum covretin_level level, const char *form, ...)
{
    char text[MOST_LINE];
    va_list values;
    va_start(values, form);
    vsnprintf(text, sizeof text, form, values);
    va_end(values);
    pthread_mutex_lock(&lock);
    if (listener != NULL && may_come())
        listener(listener_own, level, text);
    pthread_mutex_unlock(&lock);
}

/* (unlocked, since whoever begins to listen amid a session hears of it from some line on) */
static bool has_listener(void)
{
    return __atomic_load_n(&listener, __ATOMIC_RELAXED) != NULL;
}

/* -- Requests -- */

enum { MOST_NAME = 32, MOST_TEXT = 96, HEADER = 12 };
/* Of the flags of a header. */
enum { VERSION_BITS = 3, REPLY_BIT = 4 };
#define RESERVED_BITS (~(uint32_t)15)

/* What a request has to be. NULL: nobody serves it. */
static const char *const wanted[] = {
    /* generated from protocol/requests.toml: what is wanted */
    [1] = "no body and no descriptor",
    [2] = "8 bytes and no descriptor",
    [3] = "no body and no descriptor",
    [4] = "no body and no descriptor",
    [5] = "1 to 32 regions, each with a size and a descriptor",
    [6] = "16 bytes, a size that is not 0, and one descriptor",
    [8] = "8 bytes and no descriptor",
    [9] = "40 bytes with aligned addresses and flags of 0 or 1",
    [10] = "8 bytes and no descriptor",
    [11] = "8 bytes and no descriptor",
    [12] = "8 bytes and one descriptor, or bit 8 set and none",
    [13] = "8 bytes and one descriptor, or bit 8 set and none",
    [14] = "8 bytes and one descriptor, or bit 8 set and none",
    [15] = "no body and no descriptor",
    [16] = "8 bytes and no descriptor",
    [17] = "no body and no descriptor",
    [18] = "8 bytes, of which the last four are 0 or 1",
    [20] = "8 bytes, a number below 65536",
    [21] = "one descriptor",
    [24] = "a part of the first 4096 bytes, with as many bytes behind it as it says",
    [25] = "a part of the first 4096 bytes, with as many bytes behind it as it says",
    [28] = "no descriptor",
    [29] = "no descriptor",
    [30] = "no descriptor",
    [31] = "24 bytes, rings that are not 0",
    [32] = "24 bytes, rings that are not 0, and one descriptor",
    [33] = "one descriptor",
    [34] = "no body and no descriptor",
    [36] = "no body and no descriptor",
    [37] = "40 bytes and one descriptor",
    [38] = "40 bytes",
    [41] = "16 bytes, neither all 0 nor all ones",
    [42] = "8 bytes, a direction and the phase 0, and one descriptor",
    [43] = "no descriptor",
    [44] = "no descriptor",
    /* end */
};

static const char *const rules[] = {
    /* generated from protocol/requests.toml: rules of a queue */
    [1] = "a region of memory is empty, or ends beyond the addresses of 64 bits",
    [2] = "a region of memory overlaps another",
    [3] = "there are more than 509 regions of memory",
    [4] = "there is no such region of memory",
    [5] = "its size is 0, above its greatest, or of a split queue no power of two",
    [6] = "a part of it is not aligned where it is mapped",
    [7] = "the base of a packed ring is not in the ring",
    [8] = "the inflight region is not that of the queue",
    [9] = "a range does not lie in one region of guest memory",
    [10] = "a descriptor has no bytes",
    [11] = "a head or a next descriptor is not in its table",
    [13] = "a chain is a loop, or has more descriptors than it may",
    [14] = "a descriptor to be read comes after one to be written",
    [15] = "an indirect table was not negotiated, or lies in another",
    [16] = "a descriptor that names an indirect table goes on",
    [17] = "the length of an indirect table is 0, or no multiple of 16",
    [18] = "more chains are available than the queue has",
    [19] = "a chain is made available again before it was used",
    [20] = "the driver broke a rule before",
    [21] = "no chain is available",
    [22] = "no descriptor is left to be read",
    [23] = "the device has no such chain",
    [24] = "an allocation failed",
    [103] = "the queue is not started",
    [104] = "the queue has the other layout",
    /* end */
};

/* (the text of 0 is that of each that has no name) */
static bool is_known(uint32_t request)
{
    return covretin_request_text(request) != covretin_request_text(0);
}

/* What a request is called, by its number. */
static const char *name_of(uint32_t request, char room[MOST_NAME])
{
    if (is_known(request))
        return covretin_request_text(request);
    snprintf(room, MOST_NAME, REASON_NUMBERED(request));
    return room;
}

const char *log_rule(enum covretin_queue_error error)
{
    const char *rule = (size_t)error < sizeof rules / sizeof *rules ? rules[error] : NULL;
    return rule != NULL ? rule : REASON_UNREADABLE;
}

bool log_why(struct session *session, const char *form, ...)
{
    va_list values;
    if (!has_listener() || session->detail[0] != '\0')
        return false;
    va_start(values, form);
    vsnprintf(session->detail, sizeof session->detail, form, values);
    va_end(values);
    return false;
}

/* What came of the request that came last. */
static const struct transport_came *came_of(const struct session *session)
{
    return &((const struct serving *)session->frontend.opaque)->transport.seen;
}

/* Notes why a header is refused for itself. False: it is not. */
static bool note_header(struct session *session, const struct transport_came *came)
{
    uint32_t flags = transport_word(came, 4), size = transport_word(came, 8);
    if ((flags & VERSION_BITS) != 1)
        log_why(session, REASON_OTHER_VERSION(flags & VERSION_BITS));
    else if ((flags & RESERVED_BITS) != 0)
        log_why(session, REASON_RESERVED_FLAGS(flags));
    else if (size > COVRETIN_MAX_MESSAGE - HEADER)
        log_why(session, REASON_TOO_LONG(size, COVRETIN_MAX_MESSAGE - HEADER));
    else if ((flags & REPLY_BIT) != 0)
        log_why(session, REASON_IS_REPLY);
    else
        return false;
    return true;
}

/* What a request has to be that is known, or is none. */
static const char *say_wanted(uint32_t request, uint32_t regions, char room[MOST_TEXT])
{
    const char *form = request < sizeof wanted / sizeof *wanted ? wanted[request] : REASON_KNOWN_CODE;
    if (request != COVRETIN_CALL_SET_MEM_TABLE)
        return form != NULL ? form : REASON_KNOWN_CODE;
    if (regions == 0 || regions > COVRETIN_MAX_FDS)
        snprintf(room, MOST_TEXT, REASON_NO_TABLE(COVRETIN_MAX_FDS, regions));
    else
        snprintf(room, MOST_TEXT, REASON_TABLE(8 + 32 * regions, regions, regions));
    return room;
}

/* Notes what is wrong with a request, what it has to be, and what came. */
static void note_form(struct session *session, uint32_t request, enum covretin_error error)
{
    const struct transport_came *came = came_of(session);
    char room[MOST_TEXT], brought[MOST_TEXT];
    const char *form = say_wanted(request, transport_word(came, HEADER), room);
    size_t body = came->bytes > HEADER ? came->bytes - HEADER : 0;
    snprintf(brought, sizeof brought, REASON_CAME(body, came->fds, came->late_fds == 0 ? "" : REASON_LATE));
    if (error == COVRETIN_INVALID_PARAM)
        log_why(session, REASON_WRONG_VALUE(form, brought));
    else if (error == COVRETIN_INCORRECT_FDS)
        log_why(session, REASON_WRONG_FDS(form, brought));
    else
        log_why(session, REASON_MALFORMED(form, brought));
}

/* Notes why a request was refused, where that is not noted. */
static void note_why(struct session *session, uint32_t request, enum covretin_error error)
{
    bool is_unserved = request < sizeof wanted / sizeof *wanted && wanted[request] == NULL;
    switch (error) {
    case COVRETIN_BACKEND_INTERNAL_ERROR: log_why(session, REASON_BY_DEVICE); return;
    case COVRETIN_FRONTEND_INTERNAL_ERROR: log_why(session, REASON_UNMAPPED_THERE); return;
    case COVRETIN_INACTIVE_FEATURE:
    case COVRETIN_INACTIVE_OPERATION:
        log_why(session, REASON_NOT_ACCEPTED(name_of_feature(error == COVRETIN_INACTIVE_FEATURE, covretin_backend_inactive(&session->frontend.backend))));
        return;
    case COVRETIN_INVALID_OPERATION: log_why(session, is_unserved || !is_known(request) ? REASON_UNSERVED : REASON_OTHER_STATE); return;
    case COVRETIN_INVALID_MESSAGE:
        if (!note_header(session, came_of(session)))
            note_form(session, request, error);
        return;
    default: note_form(session, request, error);
    }
}

/* Whether a request was refused by this error, and not cut off, or kept back by the system. */
static bool is_refusal(const struct session *session, enum covretin_error error)
{
    switch (error) {
    case COVRETIN_INVALID_PARAM:
    case COVRETIN_INVALID_OPERATION:
    case COVRETIN_INACTIVE_FEATURE:
    case COVRETIN_INACTIVE_OPERATION:
    case COVRETIN_INCORRECT_FDS:
    case COVRETIN_FRONTEND_INTERNAL_ERROR:
    case COVRETIN_BACKEND_INTERNAL_ERROR: return true;
    case COVRETIN_INVALID_MESSAGE: return !session->is_cut;
    default: return false;
    }
}

/* Whether a request ended amid its body: its header is one, and asks for more than came. */
static bool is_cut(const struct transport_came *came)
{
    uint32_t flags = transport_word(came, 4), size = transport_word(came, 8);
    bool is_header = (flags & (VERSION_BITS | RESERVED_BITS | REPLY_BIT)) == 1 && size <= COVRETIN_MAX_MESSAGE - HEADER;
    return is_header && came->bytes < HEADER + (size_t)size;
}

void log_refused(struct session *session, uint32_t request, enum covretin_error error)
{
    char room[MOST_NAME];
    session->is_cut = error == COVRETIN_INVALID_MESSAGE && is_cut(came_of(session));
    if (!has_listener() || !is_refusal(session, error))
        return;
    note_why(session, request, error);
    say(COVRETIN_LEVEL_WARNING, REASON_REFUSED(name_of(request, room), session->detail));
}

/* Nothing is asked of what is no memory file: whoever serves its file system may not reply. */
bool log_file(struct session *session, const char *what, const covretin_region *region)
{
    struct stat file;
    if (!has_listener())
        return false;
    if (fcntl(region->fd, F_GET_SEALS) < 0)
        return log_why(session, REASON_NO_MEMORY_FILE(what));
    if (fstat(region->fd, &file) == 0 && (uint64_t)file.st_size < region->mmap_offset + region->memory_size)
        return log_why(session, REASON_BEYOND_FILE(what, region->memory_size, region->mmap_offset, file.st_size));
    return log_why(session, REASON_UNMAPPED(what, region->memory_size));
}

bool log_region(struct session *session, size_t at, const covretin_region *region)
{
    char what[MOST_NAME];
    snprintf(what, sizeof what, REASON_REGION(at));
    return log_file(session, what, region);
}

/* -- Sessions and queues -- */

void log_ended(const struct session *session)
{
    char room[MOST_NAME];
    const char *name = session->last_request != 0 ? name_of(session->last_request, room) : REASON_NO_REQUEST;
    if (!has_listener())
        return;
    if (session->is_cut) {
        say(COVRETIN_LEVEL_ERROR, REASON_AMID_BODY(name));
        return;
    }
    if (session->why == COVRETIN_DISCONNECTED && session->last_request == 0) {
        say(COVRETIN_LEVEL_INFO, REASON_FRONTEND_LEFT);
        return;
    }
    switch (session->why) {
    case COVRETIN_DISCONNECTED: say(COVRETIN_LEVEL_INFO, REASON_FRONTEND_WENT(name)); return;
    case COVRETIN_STOPPED: say(COVRETIN_LEVEL_INFO, REASON_STOPPED); return;
    case COVRETIN_MEMORY_LOST: say(COVRETIN_LEVEL_ERROR, REASON_MEMORY_TAKEN); return;
    case COVRETIN_PARTIAL_MESSAGE: say(COVRETIN_LEVEL_ERROR, REASON_AMID_HEADER(name)); return;
    default: say(COVRETIN_LEVEL_ERROR, REASON_ENDED_HERE(name, covretin_error_text(session->why)));
    }
}

void log_broken(uint32_t queue, enum covretin_queue_error error)
{
    if (has_listener())
        say(COVRETIN_LEVEL_ERROR, REASON_BROKEN(queue, log_rule(error)));
}
