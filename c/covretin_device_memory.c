/* SPDX-License-Identifier: Apache-2.0 */
#ifndef _GNU_SOURCE
#define _GNU_SOURCE /* for memfd_create, F_GET_SEALS and MAP_NORESERVE */
#endif

#include "covretin_device_memory.h"
#include "covretin_transport.h"

#include <errno.h>
#include <fcntl.h>
#include <linux/magic.h>
#include <linux/userfaultfd.h>
#include <poll.h>
#include <signal.h>
#include <stdlib.h>
#include <sys/eventfd.h>
#include <sys/ioctl.h>
#include <sys/mman.h>
#include <sys/stat.h>
#include <sys/syscall.h>
#include <sys/vfs.h>
#include <unistd.h>

/* -- The guard: all that this library has of global state -- */

enum { IN_A_CHUNK = 100 };

/* Read by the handler of a thread amid anything: what a place has counts where its version is even, and the same before and after. */
struct guarded {
    atomic_uint version;
    _Atomic uintptr_t at; /* 0: none */
    _Atomic size_t size, page;
    struct holder *_Atomic holder;
    struct guarded *next; /* that is free, too */
};

/* Places, which come as they are needed, and stay: the handler may look at them at any time. */
static struct chunk {
    struct chunk *next;
    struct guarded places[IN_A_CHUNK];
} *_Atomic chunks;
static struct guarded *free_places;

static pthread_mutex_t guarding = PTHREAD_MUTEX_INITIALIZER; /* a mapping that is there stays meanwhile */
static pthread_once_t handling = PTHREAD_ONCE_INIT;
static struct sigaction earlier;

void wake_up(int eventfd)
{
    const uint64_t one = 1;
    (void)!write(eventfd, &one, sizeof one);
}

static bool put_zeros(uintptr_t at, size_t size)
{
    const int flags = MAP_PRIVATE | MAP_ANONYMOUS | MAP_NORESERVE | MAP_FIXED;
    return mmap((void *)at, size, PROT_READ | PROT_WRITE, flags, -1, 0) != MAP_FAILED;
}

/* Puts zeros in the place of a page of a mapping, and no more: what another thread gives to the kernel fails there, as it would have, where
 * zeros would be taken for the guest's. All of it where there are too many mappings. */
static bool lose(uintptr_t at, size_t size, uintptr_t page, size_t page_size, struct holder *holder)
{
    holder->has_lost = true; /* before any thread may read zeros */
    wake_up(holder->wake);
    return put_zeros(page / page_size * page_size, page_size) || put_zeros(at, size);
}

/* What is no fault of a mapping is for the handler before; where there was none it ends the process, as ever. */
static void hand_on(int number, siginfo_t *fault, void *context)
{
    if (earlier.sa_flags & SA_SIGINFO)
        earlier.sa_sigaction(number, fault, context);
    else if (earlier.sa_handler != SIG_DFL && earlier.sa_handler != SIG_IGN)
        earlier.sa_handler(number);
    else if (earlier.sa_handler == SIG_DFL || fault->si_code > 0) {
        signal(number, SIG_DFL);
        raise(number);
    }
}

/* Whether a fault at an address is one of the mapping at this place, which is lost then. */
static bool is_lost_at(struct guarded *place, uintptr_t where)
{
    unsigned version = place->version;
    uintptr_t at = place->at;
    size_t size = place->size, page = place->page;
    struct holder *holder = place->holder;
    if (version % 2 != 0 || at == 0 || where - at >= size || place->version != version)
        return false;
    return lose(at, size, where, page, holder);
}

static void take_fault(int number, siginfo_t *fault, void *context)
{
    int was = errno;
    for (struct chunk *chunk = chunks; chunk != NULL && fault->si_code > 0; chunk = chunk->next)
        for (size_t i = 0; i < IN_A_CHUNK; i++)
            if (is_lost_at(&chunk->places[i], (uintptr_t)fault->si_addr)) {
                errno = was;
                return;
            }
    hand_on(number, fault, context);
}

static void handle(void)
{
    const struct sigaction action = {.sa_sigaction = take_fault, .sa_flags = SA_SIGINFO | SA_ONSTACK};
    sigaction(SIGBUS, &action, &earlier);
}

void take_faults(void)
{
    static _Thread_local bool takes;
    sigset_t bus;
    if (takes)
        return;
    takes = true;
    sigemptyset(&bus);
    sigaddset(&bus, SIGBUS);
    pthread_sigmask(SIG_UNBLOCK, &bus, NULL);
}

bool are_faults_taken(void)
{
    struct sigaction now;
    sigset_t blocked;
    pthread_once(&handling, handle);
    pthread_sigmask(SIG_SETMASK, NULL, &blocked);
    sigaction(SIGBUS, NULL, &now);
    return !sigismember(&blocked, SIGBUS) && now.sa_flags & SA_SIGINFO && now.sa_sigaction == take_fault;
}

static void put(struct guarded *place, uintptr_t at, size_t size, size_t page, struct holder *holder)
{
    place->version++;
    place->at = at;
    place->size = size;
    place->page = page;
    place->holder = holder;
    place->version++;
}

/* More places. Whether there was memory for them. */
static bool add_chunk(void)
{
    struct chunk *chunk = calloc(1, sizeof *chunk);
    if (chunk == NULL)
        return false;
    for (size_t i = 0; i < IN_A_CHUNK; i++) {
        chunk->places[i].next = free_places;
        free_places = &chunk->places[i];
    }
    chunk->next = chunks;
    chunks = chunk;
    return true;
}

/* NULL: there was no memory for it. */
static struct guarded *guard(void *at, size_t size, size_t page, struct holder *holder)
{
    struct guarded *place = NULL;
    pthread_once(&handling, handle);
    pthread_mutex_lock(&guarding);
    if (free_places != NULL || add_chunk()) {
        place = free_places;
        free_places = place->next;
        put(place, (uintptr_t)at, size, page, holder);
    }
    pthread_mutex_unlock(&guarding);
    return place;
}

static void unguard(struct guarded *place)
{
    pthread_mutex_lock(&guarding);
    put(place, 0, 0, 0, NULL);
    place->next = free_places;
    free_places = place;
    pthread_mutex_unlock(&guarding);
}

/* What was mapped here is lost, and whoever waits for a page of it goes on. */
static void lose_whole(struct guarded *place, int userfault, int empty)
{
    struct uffdio_range range = {place->at, place->size};
    mmap((void *)(uintptr_t)range.start, range.len, PROT_READ | PROT_WRITE, MAP_SHARED | MAP_NORESERVE | MAP_FIXED, empty, 0);
    ioctl(userfault, UFFDIO_WAKE, &range);
}

/* All mappings of a holder are lost, and whoever waits for a page of theirs goes on. An empty file in the place of each is as one that was
 * truncated: zeros in its place would be given to the kernel. */
static void lose_all(struct holder *holder, int userfault)
{
    int empty = memfd_create("empty", MFD_CLOEXEC);
    holder->has_lost = true;
    wake_up(holder->wake);
    pthread_mutex_lock(&guarding);
    for (struct chunk *chunk = chunks; chunk != NULL && empty >= 0; chunk = chunk->next)
        for (size_t i = 0; i < IN_A_CHUNK; i++)
            if (chunk->places[i].holder == holder)
                lose_whole(&chunk->places[i], userfault, empty);
    pthread_mutex_unlock(&guarding);
    if (empty >= 0)
        close(empty);
}

/* -- What is used no longer -- */

enum { MOST_MAPPED = 1024, SMALL = 0x100000, FEW = 4, PIECE = 0x1000000 };

struct share {
    atomic_size_t count; /* of mappings, and one for the holder */
};

struct share *share_new(void)
{
    struct share *share = malloc(sizeof *share);
    if (share != NULL)
        atomic_init(&share->count, 1);
    return share;
}

void share_release(struct share *share)
{
    if (share != NULL && --share->count == 0)
        free(share);
}

static struct mapping *_Atomic gone; /* what is to be unmapped */
static atomic_int unmaps;            /* the process whose thread does that; a child of fork has none */

/* In pieces, between which others may map. */
static void unmap(struct mapping *mapping, size_t piece)
{
    uint8_t *at = mapping->all;
    for (size_t left = mapping->all_size; left != 0;) {
        size_t part = left < piece ? left : piece;
        munmap(at, part);
        at += part;
        left -= part;
    }
    share_release(mapping->share);
    free(mapping);
}

static void unmap_gone(void)
{
    for (struct mapping *first; (first = atomic_exchange(&gone, NULL)) != NULL;)
        while (first != NULL) {
            struct mapping *next = first->next;
            unmap(first, PIECE);
            first = next;
        }
}

static void *unmap_all(void *none)
{
    int process = getpid();
    do {
        unmap_gone();
        unmaps = 0;
    } while (gone != NULL && atomic_exchange(&unmaps, process) != process);
    return none;
}

/* Has it unmapped by a thread, which ends once there is no more. */
static void unmap_later(struct mapping *mapping)
{
    pthread_t thread;
    int process = getpid();
    mapping->next = gone;
    while (!atomic_compare_exchange_weak(&gone, &mapping->next, mapping))
        ;
    if (atomic_exchange(&unmaps, process) == process)
        return;
    if (transport_start_thread(&thread, NULL, unmap_all, NULL)) {
        pthread_detach(thread);
        return;
    }
    unmaps = 0;
    unmap_gone();
}

/* -- Mappings -- */

/* How large the pages of a file are. */
static uint64_t page_of(int fd)
{
    struct statfs system;
    if (fstatfs(fd, &system) == 0 && system.f_type == HUGETLBFS_MAGIC && system.f_bsize > 0)
        return (uint64_t)system.f_bsize;
    return (uint64_t)sysconf(_SC_PAGESIZE);
}

/* Nothing is asked of what is no memory file: whoever serves its file system may not reply. */
static bool look_at(int fd, struct stat *file)
{
    return fcntl(fd, F_GET_SEALS) >= 0 && fstat(fd, file) == 0 && file->st_size >= 0;
}

static bool has_bytes(const struct stat *file, uint64_t offset, uint64_t size)
{
    return size != 0 && offset <= (uint64_t)file->st_size && size <= (uint64_t)file->st_size - offset;
}

struct mapping *mapping_new(struct holder *holder, int fd, uint64_t offset, uint64_t size)
{
    struct stat file;
    bool may_be = holder->share->count <= MOST_MAPPED && look_at(fd, &file) && has_bytes(&file, offset, size);
    struct mapping *mapping = may_be ? calloc(1, sizeof *mapping) : NULL;
    uint64_t page, into;
    if (mapping == NULL)
        return NULL;
    mapping->offset = offset;
    mapping->device = file.st_dev;
    mapping->file = file.st_ino;
    page = page_of(fd);
    into = offset % page;
    mapping->all_size = (size_t)((into + size + page - 1) / page * page);
    mapping->all = mmap(NULL, mapping->all_size, PROT_READ | PROT_WRITE, MAP_SHARED | MAP_NORESERVE, fd, (off_t)(offset - into));
    if (mapping->all == MAP_FAILED) {
        free(mapping);
        return NULL;
    }
    mapping->users = 1;
    mapping->at = (uint8_t *)mapping->all + into;
    mapping->size = size;
    mapping->guarded = guard(mapping->all, mapping->all_size, (size_t)page, holder);
    if (mapping->guarded != NULL) {
        mapping->share = holder->share;
        mapping->share->count++;
        return mapping;
    }
    munmap(mapping->all, mapping->all_size);
    free(mapping);
    return NULL;
}

bool mapping_is_of(const struct mapping *mapping, int fd, uint64_t offset, uint64_t size)
{
    struct stat file;
    return look_at(fd, &file) && file.st_dev == mapping->device && file.st_ino == mapping->file && mapping->offset == offset &&
           mapping->size == size;
}

void mapping_release(struct mapping *mapping)
{
    bool is_huge;
    if (mapping == NULL || --mapping->users != 0)
        return;
    is_huge = mapping->guarded->page > (size_t)sysconf(_SC_PAGESIZE); /* these are few, and others may wait for them */
    unguard(mapping->guarded);
    if (is_huge || (mapping->all_size <= SMALL && mapping->share->count <= FEW))
        unmap(mapping, mapping->all_size);
    else
        unmap_later(mapping);
}

/* -- Spaces -- */

struct space *space_new(const struct space *before, size_t without, struct mapping *const *added, size_t count)
{
    size_t had = before != NULL ? before->count : 0;
    struct space *space = malloc(sizeof *space + (had + count) * sizeof *space->mappings);
    if (space == NULL)
        return NULL;
    *space = (struct space){.users = 1};
    for (size_t i = 0; i < had; i++)
        if (i != without) {
            before->mappings[i]->users++;
            space->mappings[space->count++] = before->mappings[i];
        }
    for (size_t i = 0; i < count; i++)
        space->mappings[space->count++] = added[i];
    return space;
}

void space_release(struct space *space)
{
    space_release_many(space, 1);
}

void space_release_many(struct space *space, size_t count)
{
    if (space == NULL || (space->users -= count) != 0)
        return;
    for (size_t i = 0; i < space->count; i++)
        mapping_release(space->mappings[i]);
    free(space);
}

/* -- Postcopy -- */

static void *watch(void *of)
{
    struct arrival *arrival = of;
    struct pollfd polled[] = {{.fd = arrival->over, .events = POLLIN},
                              {.fd = arrival->frontend},
                              {.fd = arrival->stop, .events = POLLIN},
                              {.fd = arrival->signals, .events = POLLIN}};
    while (poll(polled, 4, -1) < 0)
        ;
    if (polled[0].revents == 0)
        lose_all(arrival->holder, arrival->userfault);
    return NULL;
}

bool arrival_begin(struct arrival *arrival)
{
    struct uffdio_api api = {.api = UFFD_API};
    int userfault = arrival->userfault < 0 ? (int)syscall(SYS_userfaultfd, O_CLOEXEC | O_NONBLOCK) : -1;
    if (userfault < 0)
        return false;
    arrival->userfault = userfault;
    arrival->over = eventfd(0, EFD_CLOEXEC | EFD_NONBLOCK);
    if (arrival->over >= 0 && ioctl(userfault, UFFDIO_API, &api) == 0 && transport_start_thread(&arrival->watcher, NULL, watch, arrival))
        return true;
    if (arrival->over >= 0)
        close(arrival->over);
    close(userfault);
    arrival->userfault = -1;
    return false;
}

static struct uffdio_range range_of(const struct mapping *mapping)
{
    return (struct uffdio_range){(uint64_t)(uintptr_t)mapping->all, mapping->all_size};
}

bool arrival_watch(const struct arrival *arrival, const struct space *space)
{
    for (size_t i = 0; space != NULL && i < space->count; i++) {
        struct mapping *mapping = space->mappings[i];
        struct uffdio_register watch = {.range = range_of(mapping), .mode = UFFDIO_REGISTER_MODE_MISSING};
        if (mapping->is_watched)
            continue;
        if (ioctl(arrival->userfault, UFFDIO_REGISTER, &watch))
            return false;
        mapping->is_watched = true;
    }
    return true;
}

bool arrival_end(struct arrival *arrival, const struct space *space)
{
    bool is_ended = arrival->userfault >= 0;
    if (!is_ended)
        return false;
    wake_up(arrival->over);
    pthread_join(arrival->watcher, NULL);
    close(arrival->over);
    for (size_t i = 0; space != NULL && i < space->count; i++) {
        struct mapping *mapping = space->mappings[i];
        struct uffdio_range range = range_of(mapping);
        if (mapping->is_watched && ioctl(arrival->userfault, UFFDIO_UNREGISTER, &range))
            is_ended = false;
        mapping->is_watched = false;
    }
    close(arrival->userfault);
    arrival->userfault = -1;
    return is_ended;
}

void arrival_lose(const struct arrival *arrival)
{
    if (arrival->userfault >= 0)
        lose_all(arrival->holder, arrival->userfault);
}
