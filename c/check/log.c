/* SPDX-License-Identifier: Apache-2.0 */
/* Checked: c/covretin_log.c and what c/covretin_program.c gives a program, for any number and any file. Texts are any that have an end. */
#include "core.h"

#include "covretin_log.c"

/* (what runs before main looks behind the environment, which is no object of C: its harness begins behind that, with two words) */
#undef _GNU_SOURCE
#define constructor unused
#include "covretin_program.c"
#undef constructor

/* -- What else it calls -- */

int vsnprintf(char *text, size_t size, const char *form, va_list values)
{
    (void)form, (void)values;
    HOLDS(size != 0 && __CPROVER_w_ok(text, size), "there is room for the text");
    text[0] = (char)any_int();
    text[size - 1] = 0;
    return any_int();
}

int snprintf(char *text, size_t size, const char *form, ...)
{
    (void)form;
    HOLDS(size != 0 && __CPROVER_w_ok(text, size), "there is room for the text");
    text[0] = (char)any_int();
    text[size - 1] = 0;
    return any_int();
}

const char *covretin_request_text(uint32_t request)
{
    return request > 44 || request == 0 ? "unknown request" : "request";
}

uint32_t transport_word(const struct transport_came *came, size_t at)
{
    HOLDS(at <= sizeof came->head - 4, "a number of its head");
    return any_u32();
}

uint64_t covretin_backend_inactive(covretin_backend *backend)
{
    (void)backend;
    return any_u64();
}

const char *covretin_error_text(enum covretin_error error)
{
    (void)error;
    return "error";
}

int openat(int folder, const char *name, int flags, ...)
{
    (void)folder, (void)name;
    HOLDS(flags & O_NOFOLLOW && flags & O_CLOEXEC, "openat: no link is followed, and it is closed by exec");
    return any_bool() ? -1 : fd_new();
}

static unsigned heard;

static void any_listener(void *own, enum covretin_level level, const char *text)
{
    (void)own, (void)level;
    HOLDS(locks_held == 1 && text != NULL, "one at a time hears of it");
    heard++;
}

/* -- Checks -- */

static struct session the;
static struct serving service;

void check_log(void)
{
    covretin_region region = {.fd = any_int(), .memory_size = any_u64(), .mmap_offset = any_u64()};
    covretin_set_log(any_bool() ? any_listener : NULL, NULL);
    lines = any_u32();
    left_out = any_u32();
    second = (time_t)any_u32();
    service.transport.seen = (struct transport_came){.bytes = any_size(), .fds = any_size(), .late_fds = any_size()};
    the.frontend.opaque = &service;
    the.last_request = any_u32();
    the.why = (enum covretin_error)any_int();
    if (any_bool())
        log_region(&the, any_size(), &region);
    if (any_bool())
        log_refused(&the, any_u32(), (enum covretin_error)any_int());
    else if (any_bool())
        log_ended(&the);
    else
        log_broken(any_u32(), (enum covretin_queue_error)any_u32());
    nothing_is_held();
    HOLDS(heard <= 2, "a line, and how many were left out before");
    if (heard != 0)
        REACHED("told");
}

void check_words(void)
{
    static char word[] = "word";
    static char *the_words[] = {word, NULL};
    static uint8_t to[4];
    size_t room_there = any_size();
    GIVEN(room_there <= sizeof to);
    words = the_words;
    count = 2;
    size_t length = rattle_arg(any_size(), to, room_there);
    HOLDS(length <= room_there || length == (size_t)-1 || length == (size_t)-2, "no more than there is room for");
    rattle_set_errno(any_int());
    (void)rattle_errno();
    (void)rattle_arg_count();
    (void)rattle_open_dir_at(any_int(), "folder");
    REACHED("words");
}
