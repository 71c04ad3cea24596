/* SPDX-License-Identifier: Apache-2.0 */
/* Checked: c/covretin_device_memory.c, over any file, any addresses and any table of regions. What is mapped may be touched, and nothing else. */
#include "core.h"

#include "covretin_device_memory.c"

/* -- What else it calls -- */

int sigaction(int number, const struct sigaction *action, struct sigaction *before)
{
    (void)number;
    HOLDS(action == NULL || __CPROVER_r_ok(action, sizeof *action), "sigaction: it is there");
    if (before != NULL)
        before->sa_flags = any_int();
    return 0;
}

/* (c/check/transport.c has it) */
bool transport_start_thread(pthread_t *thread, const pthread_attr_t *attributes, void *(*runs)(void *), void *of)
{
    (void)thread, (void)attributes, (void)runs, (void)of;
    return any_bool();
}

static unsigned ended;

int raise(int number)
{
    (void)number;
    ended++;
    return 0;
}

__sighandler_t signal(int number, __sighandler_t handler)
{
    (void)number;
    return handler;
}

/* -- Checks -- */

static struct holder holder;

/* A holder with so many mappings. */
static void any_holder(void)
{
    holder.share = malloc(sizeof *holder.share);
    GIVEN(holder.share != NULL);
    holder.share->count = any_size();
    GIVEN(holder.share->count >= 1 && holder.share->count <= MOST_MAPPED + 1);
    holder.wake = fd_new();
}

void check_mapping(void)
{
    any_holder();
    size_t count = holder.share->count;
    uint64_t offset = any_u64(), size = any_u64();
    struct mapping *it = mapping_new(&holder, any_int(), offset, size);
    nothing_is_held();
    if (it == NULL) {
        REACHED("not mapped");
        HOLDS(unmapped == mapped_size && holder.share->count == count, "nothing is left of it");
        free(holder.share);
        return;
    }
    REACHED("mapped");
    uint64_t into = (uint64_t)(it->at - (uint8_t *)it->all);
    HOLDS(size > 0 && it->size == size && into <= it->all_size && size <= it->all_size - into, "the part lies in what is mapped");
    HOLDS(it->all == mapped_at && it->all_size == mapped_size, "and all of that is its own");
    HOLDS(it->guarded->at == (uintptr_t)it->all && it->guarded->size == it->all_size, "it is guarded whole");
    HOLDS(holder.share->count == count + 1, "it is counted");
    (void)mapping_is_of(it, any_int(), any_u64(), any_u64());
    it->users++;
    mapping_release(it);
    HOLDS(unmapped == 0, "it stays as long as it has a user");
    mapping_release(it);
    nothing_is_held();
    HOLDS((gone != NULL) == (unmapped == 0), "it is unmapped, or a thread has it");
    unmap_gone();
    HOLDS(unmapped == mapped_size && holder.share->count == count, "it is unmapped whole");
    mapping_release(NULL);
    free(holder.share);
    free(chunks);
}

void check_unmap_all(void)
{
    any_holder();
    struct mapping *it = malloc(sizeof *it);
    GIVEN(it != NULL && holder.share->count > 1);
    size_t count = holder.share->count, size = any_size();
    GIVEN(size > 0 && size <= 2 * PIECE);
    mapped_at = __CPROVER_allocate(2 * PIECE, 0);
    *it = (struct mapping){.all = mapped_at, .all_size = size, .share = holder.share};
    if (any_bool()) {
        gone = it;
        unmap_all(NULL);
        REACHED("by a thread");
    } else {
        unmap_later(it);
        if (gone != NULL)
            unmap_gone();
        REACHED("later");
    }
    HOLDS(gone == NULL && holder.share->count == count - 1 && unmapped == size, "all is unmapped");
    free(holder.share);
}

/* -- Postcopy -- */

void check_arrival(void)
{
    static struct mapping mapping;
    static struct arrival arrival;
    struct space *space = malloc(sizeof *space + sizeof(struct mapping *));
    GIVEN(space != NULL);
    space->users = 1;
    space->count = any_bool();
    space->mappings[0] = &mapping;
    any_holder();
    arrival = (struct arrival){.holder = &holder, .userfault = -1, .stop = -1, .signals = -1};
    if (arrival_begin(&arrival)) {
        REACHED("begun");
        HOLDS(arrival.userfault >= 0 && !arrival_begin(&arrival), "once");
        (void)arrival_watch(&arrival, space);
    } else
        HOLDS(arrival.userfault == -1, "not begun");
    if (any_bool())
        arrival_lose(&arrival);
    (void)arrival_end(&arrival, any_bool() ? space : NULL);
    HOLDS(arrival.userfault == -1, "it has ended");
    nothing_is_held();
    fds_are_closed(holder.wake);
    free(space);
    free(holder.share);
    REACHED("ended");
}

/* (the thread that watches waits, as it says) */
void check_watch(void)
{
    static struct arrival arrival;
    any_holder();
    arrival = (struct arrival){.holder = &holder, .userfault = fd_new(), .over = fd_new(), .stop = -1, .signals = -1};
    may_wait = true;
    watch(&arrival);
    nothing_is_held();
    free(holder.share);
    REACHED("watched");
}

/* -- Faults -- */

static unsigned told;

static void any_action(int number, siginfo_t *fault, void *context)
{
    (void)number, (void)fault, (void)context;
    told++;
}

static void any_handler(int number)
{
    (void)number;
    told++;
}

/* A chunk, of whose places one is of a mapping that lies at any address, in pages of either size. */
static struct guarded *any_guarded(void)
{
    const size_t page = LAYOUT == 0 ? 4096 : HUGE_PAGE;
    struct chunk *chunk = calloc(1, sizeof *chunk);
    uintptr_t at = any_u64() & ~(uintptr_t)(page - 1);
    size_t size = any_size() & ~(page - 1);
    GIVEN(chunk != NULL && at != 0 && size != 0 && at < UINTPTR_MAX - size);
    any_holder();
    put(&chunk->places[IN_A_CHUNK - 1], at, size, page, &holder);
    chunks = chunk;
    put_at = at;
    put_within = size;
    return &chunk->places[IN_A_CHUNK - 1];
}

static void forget(void)
{
    free(chunks);
    free(holder.share);
}

/* A fault at any address, of any kind, with any handler before. */
void check_fault(void)
{
    const struct guarded *place = any_guarded();
    siginfo_t fault;
    uintptr_t where = any_u64();
    fault.si_code = any_int();
    fault.si_addr = (void *)where;
    handle();
    if (earlier.sa_flags & SA_SIGINFO)
        earlier.sa_sigaction = any_action;
    else
        earlier.sa_handler = any_bool() ? SIG_DFL : any_bool() ? SIG_IGN : any_handler;
    if (any_bool())
        unguard((struct guarded *)place);
    bool is_there = place->at != 0;
    bool is_ours = fault.si_code > 0 && is_there && where >= put_at && where - put_at < put_within;
    errno = any_int();
    int was = errno;
    take_fault(SIGBUS, &fault, NULL);
    HOLDS(holder.has_lost || !is_ours || told != 0 || ended != 0, "a fault of a mapping is noted");
    HOLDS(!is_ours || errno == was || told != 0 || ended != 0, "errno stays");
    HOLDS(is_ours || !holder.has_lost, "no other fault loses it");
    if (is_ours && holder.has_lost)
        REACHED("lost");
    if (told != 0)
        REACHED("handed on");
    if (ended != 0)
        REACHED("it ends the process");
    take_faults();
    take_faults();
    (void)are_faults_taken();
    forget();
}

/* All of a holder is lost, at once. */
void check_lose(void)
{
    (void)any_guarded();
    lose_all(&holder, fd_new());
    HOLDS(holder.has_lost, "it is noted");
    nothing_is_held();
    forget();
    REACHED("lost");
}

/* -- Spaces -- */

/* (what a mapping is let go of is check_mapping's) */
void any_release(struct mapping *mapping)
{
    HOLDS(mapping != NULL && mapping->users != 0, "it has a user");
    mapping->users--;
}

/* Room for a space, of whose kind the model checker is told: what malloc gives is bytes to it. */
static struct room {
    size_t users, count;
    struct mapping *mappings[4];
} had_room, new_room;
static size_t room_for; /* so many mappings at least; 0: there is no memory */
static unsigned freed;

void *any_memory(size_t size)
{
    if (room_for == 0)
        return NULL;
    HOLDS(size >= sizeof(struct space) + room_for * sizeof(struct mapping *) && size <= sizeof new_room, "there is room for each mapping");
    return &new_room;
}

void any_free(void *room)
{
    HOLDS(room == &had_room || room == &new_room, "it is a space");
    freed++;
}

/* So many regions are there, of which one goes or none, and so many more come; in the last case there is no memory. */
void check_spaces(void)
{
    static const size_t layouts[][3] = {{0, 9, 2}, {1, 9, 1}, {2, 9, 1}, {2, 0, 0}, {2, 1, 0}, {2, 1, 2}, {1, 0, 0}};
    const size_t had = layouts[LAYOUT][0], without = layouts[LAYOUT][1], more = layouts[LAYOUT][2], stay = had - (without < had);
    static struct mapping mappings[4];
    struct mapping *added[2] = {&mappings[2], &mappings[3]};
    struct space *before = had != 0 ? (struct space *)(void *)&had_room : NULL;
    for (size_t i = 0; i < 4; i++)
        mappings[i].users = 2;
    had_room.users = 1;
    had_room.count = had;
    for (size_t i = 0; i < had; i++)
        had_room.mappings[i] = &mappings[i];
    room_for = stay + more;
    struct space *space = space_new(before, without, added, more);
    if (space != NULL) {
        HOLDS(space->users == 1 && space->count == stay + more, "all but that one, and those more");
        for (size_t i = 0; i < had; i++)
            HOLDS(mappings[i].users == (i == without ? 2 : 3), "each has a user more");
        for (size_t i = 0; i < more; i++)
            HOLDS(space->mappings[stay + i] == added[i] && added[i]->users == 2, "these are its own");
        space->users += 2;
        space_release_many(space, 2);
        HOLDS(freed == 0, "it has a user still");
        space_release(space);
        HOLDS(freed == 1, "it is freed once");
    }
    HOLDS((space == NULL) == (room_for == 0), "none is made where there is no memory");
    space_release(before);
    space_release(NULL);
    REACHED("released");
    for (size_t i = 0; i < had; i++)
        HOLDS(mappings[i].users == 1, "no user of it is left but one");
}

void check_share(void)
{
    struct share *it = share_new();
    share_release(it);
    share_release(NULL);
    REACHED("released");
}
