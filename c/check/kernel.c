/* SPDX-License-Identifier: Apache-2.0 */
/* The kernel and the C library, as their manuals allow them to answer: any result, any error, a part of what was asked for, an interruption. A
 * descriptor is open, or it is not; a lock is held, or it is not. What a file or a peer says is any value. */
#include "check.h"
#include "covretin.h"

#include <fcntl.h>
#include <linux/magic.h>
#include <poll.h>
#include <pthread.h>
#include <signal.h>
#include <stdarg.h>
#include <sys/epoll.h>
#include <sys/eventfd.h>
#include <sys/file.h>
#include <sys/mman.h>
#include <sys/signalfd.h>
#include <sys/socket.h>
#include <sys/stat.h>
#include <sys/syscall.h>
#include <sys/timerfd.h>
#include <sys/uio.h>
#include <sys/un.h>
#include <sys/vfs.h>
#include <time.h>
#include <unistd.h>

#ifndef SCM_CREDENTIALS
#define SCM_CREDENTIALS 2
#endif
enum { OF_A_PROCESS = 4 }; /* SCM_PIDFD */

/* -- Any value -- */

bool any_bool(void)
{
    return any_int() != 0;
}

int any_int(void)
{
    int any;
    return any;
}

size_t any_size(void)
{
    size_t any;
    return any;
}

uint16_t any_u16(void)
{
    uint16_t any;
    return any;
}

uint32_t any_u32(void)
{
    uint32_t any;
    return any;
}

uint64_t any_u64(void)
{
    uint64_t any;
    return any;
}

void any_bytes(uint8_t *bytes, size_t count)
{
    for (size_t i = 0; i < COVRETIN_MAX_MESSAGE; i++)
        if (i < count)
            bytes[i] = (uint8_t)any_u16();
}

/* -- What is noted -- */

static bool open_fds[MOST_FDS];
static int next_fd;
int locks_held;
bool may_wait;
static int the_errno;

int *__errno_location(void)
{
    return &the_errno;
}

int fd_new(void)
{
    HOLDS(next_fd < MOST_FDS, "bound: so many descriptors");
    GIVEN(next_fd < MOST_FDS);
    open_fds[next_fd] = true;
    return next_fd++;
}

int fd_new_if(bool is_open)
{
    int fd = fd_new();
    open_fds[fd] = is_open;
    return fd;
}

bool fd_is_open(int fd)
{
    return fd >= 0 && fd < next_fd && open_fds[fd];
}

void fd_gone(int fd)
{
    HOLDS(fd_is_open(fd), "a descriptor is closed once, and was open");
    if (fd >= 0 && fd < MOST_FDS)
        open_fds[fd] = false;
}

void fds_are_closed(int beside)
{
    for (int fd = 0; fd < MOST_FDS; fd++)
        HOLDS(!open_fds[fd] || fd == beside, "no descriptor is left open");
}

void nothing_is_held(void)
{
    HOLDS(locks_held == 0, "no lock is left held");
}

/* Whether a call failed, and by which error. */
static bool fails(void)
{
    if (any_bool())
        return false;
    the_errno = any_int();
    GIVEN(the_errno > 0 && the_errno < 134);
    return true;
}

/* The same of one that may be interrupted, but not for ever. */
static int interruptions;

static bool fails_or_is_interrupted(void)
{
    if (!fails())
        return false;
    if (the_errno == EINTR) {
        GIVEN(interruptions < MOST_AGAIN);
        interruptions++;
    }
    return true;
}

static int new_or_error(void)
{
    return fails() ? -1 : fd_new();
}

static int zero_or_error(void)
{
    return fails() ? -1 : 0;
}

/* -- Descriptors -- */

int close(int fd)
{
    fd_gone(fd); /* Linux closes it, whatever it answers */
    return zero_or_error();
}

int shutdown(int fd, int how)
{
    HOLDS(fd_is_open(fd), "shutdown: it is open");
    (void)how;
    return zero_or_error();
}

int getsockopt(int fd, int level, int option, void *value, socklen_t *size)
{
    (void)fd, (void)level, (void)option;
    HOLDS(__CPROVER_w_ok(value, *size), "getsockopt: there is room");
    if (fails())
        return -1;
    if (*size == sizeof(struct linger))
        *(struct linger *)value = (struct linger){any_int(), any_int()};
    else
        *(int *)value = any_int();
    return 0;
}

int setsockopt(int fd, int level, int option, const void *value, socklen_t size)
{
    HOLDS(fd_is_open(fd), "setsockopt: it is open");
    HOLDS(__CPROVER_r_ok(value, size), "setsockopt: the value is there");
    (void)level, (void)option;
    return zero_or_error();
}

int ioctl(int fd, unsigned long request, ...)
{
    HOLDS(fd_is_open(fd), "ioctl: it is open");
    va_list more;
    va_start(more, request);
    int *value = va_arg(more, int *);
    va_end(more);
    if (fails())
        return -1;
    if (request == 0x541B) { /* FIONREAD */
        *value = any_int();
        GIVEN(*value >= 0 && *value <= MOST_UNREAD);
    }
    return 0;
}

int fcntl(int fd, int command, ...)
{
    (void)fd, (void)command;
    int result = any_int();
    return fails() || result < 0 ? -1 : result;
}

/* -- Bytes -- */

static int parts; /* so often a part was taken */

/* How many bytes of some a call takes: all, or a part. */
static ssize_t part_of(size_t count)
{
    size_t part = any_size();
    GIVEN(part <= count);
    if (part != count) {
        GIVEN(parts < MOST_AGAIN);
        parts++;
    }
    return (ssize_t)part;
}

static bool is_receiving; /* else it attaches */

ssize_t sendmsg(int fd, const struct msghdr *message, int flags)
{
    HOLDS(fd_is_open(fd), "sendmsg: it is open");
    HOLDS(flags & MSG_NOSIGNAL, "sendmsg: no signal ends the program");
    HOLDS(flags & MSG_DONTWAIT || may_wait, "sendmsg: it does not wait");
    HOLDS(__CPROVER_r_ok(message->msg_iov[0].iov_base, message->msg_iov[0].iov_len), "sendmsg: the bytes are there");
    HOLDS(message->msg_controllen == 0 || __CPROVER_r_ok(message->msg_control, message->msg_controllen), "sendmsg: the control data is there");
    is_receiving = false;
    if (fails_or_is_interrupted())
        return -1;
    return part_of(message->msg_iov[0].iov_len);
}

/* -- What comes beside bytes -- */

/* What a receive brings: whether it is interrupted first; whether it fails then; and two control messages. */
static struct arrives {
    bool is_interrupted, fails;
    struct control_message messages[2];
} arrives;

void lay_out(unsigned number)
{
    static const struct arrives layouts[] = {
        {.fails = true},
        {.messages = {{0, 0}, {0, 0}}},
        {.messages = {{SCM_RIGHTS, 1}, {0, 0}}},
        {.messages = {{SCM_RIGHTS, 2}, {0, 0}}},
        {.messages = {{SCM_RIGHTS, 1}, {SCM_RIGHTS, 2}}},
        {.messages = {{SCM_RIGHTS, 2}, {SCM_RIGHTS, 2}}},
        {.messages = {{OF_A_PROCESS, 1}, {SCM_RIGHTS, 2}}},
        {.messages = {{SCM_RIGHTS, 1}, {OF_A_PROCESS, 1}}},
        {.messages = {{SCM_CREDENTIALS, 2}, {SCM_RIGHTS, 1}}},
        {.is_interrupted = true, .messages = {{SCM_RIGHTS, 1}, {SCM_RIGHTS, 1}}},
        {.is_interrupted = true, .fails = true},
    };
    arrives = layouts[number];
}

/* Each control message is an object of its own here, over which the C library's macros go (kernel.h): where it lies in the buffer is theirs. */
static struct {
    struct cmsghdr head;
    int fds[2];
} came[2];

static struct {
    struct cmsghdr head;
    int fds[COVRETIN_MAX_FDS];
} goes;

static void put_control(unsigned index)
{
    const struct control_message *put = &arrives.messages[index];
    came[index].head.cmsg_level = SOL_SOCKET;
    came[index].head.cmsg_type = put->kind;
    came[index].head.cmsg_len = CMSG_LEN(sizeof(int) * put->count);
    for (unsigned i = 0; i < put->count; i++)
        came[index].fds[i] = put->kind == SCM_RIGHTS ? fd_new() : put->kind == OF_A_PROCESS && any_bool() ? fd_new() : -ESRCH;
}

struct cmsghdr *control_first(struct msghdr *message)
{
    HOLDS(__CPROVER_w_ok(message->msg_control, message->msg_controllen), "the control data lies in its buffer");
    if (!is_receiving)
        return &goes.head;
    return arrives.messages[0].kind != 0 ? &came[0].head : NULL;
}

struct cmsghdr *control_next(struct cmsghdr *head)
{
    return head == &came[0].head && arrives.messages[1].kind != 0 ? &came[1].head : NULL;
}

unsigned char *control_data(struct cmsghdr *head)
{
    if (head == &goes.head)
        return (unsigned char *)goes.fds;
    return (unsigned char *)(head == &came[0].head ? came[0].fds : came[1].fds);
}

ssize_t recvmsg(int fd, struct msghdr *message, int flags)
{
    HOLDS(fd_is_open(fd), "recvmsg: it is open");
    HOLDS(flags & MSG_DONTWAIT || may_wait, "recvmsg: it does not wait");
    HOLDS(flags & MSG_CMSG_CLOEXEC, "recvmsg: what comes is closed by exec");
    HOLDS(__CPROVER_w_ok(message->msg_iov[0].iov_base, message->msg_iov[0].iov_len), "recvmsg: there is room for the bytes");
    HOLDS(__CPROVER_w_ok(message->msg_control, message->msg_controllen), "recvmsg: there is room for the control data");
    if (arrives.is_interrupted) {
        arrives.is_interrupted = false;
        the_errno = EINTR;
        return -1;
    }
    if (arrives.fails) {
        the_errno = any_int();
        GIVEN(the_errno != EINTR);
        return -1;
    }
    size_t got = any_size();
    GIVEN(got <= message->msg_iov[0].iov_len);
    is_receiving = true;
    put_control(0);
    put_control(1);
    message->msg_flags = any_int();
    any_bytes(message->msg_iov[0].iov_base, got);
    return (ssize_t)got;
}

/* -- Time -- */

/* Goes on: no clock is set back, and none has run for 2^40 seconds, or for as many as a harness says. */
static struct timespec the_time;
time_t clock_end = (time_t)1 << 40;

int clock_gettime(clockid_t clock, struct timespec *time)
{
    (void)clock;
    time->tv_sec = (time_t)any_u64();
    time->tv_nsec = (long)any_u64();
    GIVEN(time->tv_sec >= the_time.tv_sec && time->tv_sec >= 0 && time->tv_sec < clock_end);
    GIVEN(time->tv_nsec >= 0 && time->tv_nsec < 1000000000);
    GIVEN(time->tv_sec > the_time.tv_sec || time->tv_nsec >= the_time.tv_nsec);
    the_time = *time;
    return 0;
}

static int failures; /* of poll, in turn */

int poll(struct pollfd *polled, nfds_t count, int milliseconds)
{
    int ready = any_int();
    HOLDS(__CPROVER_rw_ok(polled, count * sizeof *polled), "poll: its descriptors are there");
    HOLDS(milliseconds == 0 || may_wait, "poll: it does not wait");
    if (fails_or_is_interrupted()) {
        GIVEN(failures++ < MOST_AGAIN);
        return -1;
    }
    GIVEN(ready >= 0 && ready <= (int)count);
    for (nfds_t i = 0; i < 4; i++)
        if (i < count)
            polled[i].revents = ready == 0 || polled[i].fd < 0 ? 0 : (short)any_int();
    return ready;
}

int nanosleep(const struct timespec *time, struct timespec *left)
{
    (void)time, (void)left;
    HOLDS(may_wait, "nanosleep: it does not wait");
    return zero_or_error();
}

/* -- Threads, whose sequential part is checked: what a thread runs has a harness of its own -- */

int pthread_mutex_init(pthread_mutex_t *lock, const pthread_mutexattr_t *attributes)
{
    (void)lock, (void)attributes;
    return 0;
}

int pthread_mutex_destroy(pthread_mutex_t *lock)
{
    (void)lock;
    return 0;
}

/* Which locks are held: at most two at a time. */
static pthread_mutex_t *held_locks[2];

int pthread_mutex_lock(pthread_mutex_t *lock)
{
    HOLDS(held_locks[0] != lock && held_locks[1] != lock, "a lock is taken once");
    HOLDS(locks_held < 2, "two locks at most are held at a time");
    held_locks[locks_held < 2 ? locks_held : 1] = lock;
    locks_held++;
    return 0;
}

int pthread_mutex_unlock(pthread_mutex_t *lock)
{
    HOLDS(locks_held > 0 && held_locks[locks_held - 1] == lock, "the lock that was taken last is let go of");
    if (locks_held > 0)
        held_locks[--locks_held] = NULL;
    return 0;
}

int pthread_once(pthread_once_t *once, void (*runs)(void))
{
    (void)once, (void)runs;
    return 0;
}

int pthread_atfork(void (*before)(void), void (*in_parent)(void), void (*in_child)(void))
{
    (void)before, (void)in_parent, (void)in_child;
    return any_int();
}

int pthread_attr_init(pthread_attr_t *attributes)
{
    (void)attributes;
    return any_bool() ? ENOMEM : 0;
}

int pthread_attr_destroy(pthread_attr_t *attributes)
{
    (void)attributes;
    return 0;
}

int pthread_attr_setdetachstate(pthread_attr_t *attributes, int state)
{
    (void)attributes, (void)state;
    return 0;
}

int pthread_attr_setstacksize(pthread_attr_t *attributes, size_t size)
{
    (void)attributes, (void)size;
    return any_int();
}

int pthread_sigmask(int how, const sigset_t *set, sigset_t *old)
{
    (void)how, (void)set, (void)old;
    return 0;
}

int sigfillset(sigset_t *set)
{
    (void)set;
    return 0;
}

int sigemptyset(sigset_t *set)
{
    (void)set;
    return 0;
}

int sigaddset(sigset_t *set, int number)
{
    (void)set, (void)number;
    return 0;
}

int sigismember(const sigset_t *set, int number)
{
    (void)set, (void)number;
    return any_bool();
}

void *thread_given; /* what the thread was given that began last */

int pthread_create(pthread_t *thread, const pthread_attr_t *attributes, void *(*runs)(void *), void *of)
{
    (void)attributes, (void)runs;
    if (any_bool())
        return EAGAIN;
    memset(thread, 0, sizeof *thread);
    thread_given = of;
    return 0;
}

int pthread_join(pthread_t thread, void **result)
{
    (void)thread, (void)result;
    return 0;
}

int pthread_detach(pthread_t thread)
{
    (void)thread;
    return 0;
}

/* -- The kernel's memory: one mapping at a time is of bytes that may be touched -- */

void *mapped_at;
size_t mapped_size, unmapped;
uintptr_t put_at;
size_t put_within;

void *mmap(void *at, size_t size, int protection, int flags, int fd, off_t offset)
{
    (void)protection, (void)fd;
    HOLDS(size > 0 && offset >= 0, "mmap: it maps something");
    if (any_bool())
        return MAP_FAILED;
    if (flags & MAP_FIXED) {
        HOLDS(put_within == 0 || ((uintptr_t)at >= put_at && size <= put_within && (uintptr_t)at - put_at <= put_within - size),
              "mmap: only what is the caller's is put something else in the place of");
        return at;
    }
    GIVEN(size < MOST_MAPPED_BYTES);
    mapped_size = size;
    unmapped = 0;
    return mapped_at = __CPROVER_allocate(size, 0);
}

int munmap(void *at, size_t size)
{
    HOLDS(mapped_at == NULL || at == (uint8_t *)mapped_at + unmapped, "munmap: each part once, in turn");
    unmapped += size;
    return 0;
}

int fstat(int fd, struct stat *file)
{
    (void)fd;
    file->st_size = (off_t)any_u64();
    return any_bool() ? -1 : 0;
}

int fstatfs(int fd, struct statfs *system)
{
    (void)fd;
    system->f_type = (long)any_u64();
    system->f_bsize = (long)any_u64();
    GIVEN((system->f_type == HUGETLBFS_MAGIC) == (LAYOUT == 1) && (LAYOUT == 0 || system->f_bsize == HUGE_PAGE));
    return any_bool() ? -1 : 0;
}

long sysconf(int name)
{
    HOLDS(name == _SC_PAGESIZE, "sysconf: a page");
    return 4096;
}

int getpid(void)
{
    return 7;
}

ssize_t write(int fd, const void *bytes, size_t size)
{
    (void)fd;
    HOLDS(__CPROVER_r_ok(bytes, size), "write: the bytes are there");
    return any_bool() ? -1 : (ssize_t)size;
}

int memfd_create(const char *name, unsigned flags)
{
    (void)name, (void)flags;
    return new_or_error();
}

int eventfd(unsigned count, int flags)
{
    (void)count;
    HOLDS(flags & EFD_NONBLOCK, "eventfd: it does not wait");
    return new_or_error();
}

long syscall(long number, ...)
{
    if (number == SYS_userfaultfd)
        return new_or_error();
    HOLDS(number == SYS_io_setup || number == SYS_io_submit || number == SYS_io_getevents || number == SYS_io_destroy, "syscall: a known one");
    return fails() ? -1 : any_bool(); /* (of so many reads at a time) */
}

ssize_t read(int fd, void *bytes, size_t size)
{
    HOLDS(fd_is_open(fd), "read: it is open");
    HOLDS(__CPROVER_w_ok(bytes, size), "read: there is room for a count, or for a signal");
    if (fails())
        return -1;
    if (size == sizeof(uint64_t))
        *(uint64_t *)bytes = any_u64();
    return (ssize_t)size;
}

/* -- What is polled -- */

int epoll_ctl(int polled, int operation, int fd, struct epoll_event *event)
{
    (void)polled, (void)fd;
    HOLDS(operation == EPOLL_CTL_DEL || __CPROVER_r_ok(event, sizeof *event), "epoll_ctl: the event is there");
    return zero_or_error();
}

int timerfd_create(int clock, int flags)
{
    (void)clock;
    HOLDS(flags & TFD_NONBLOCK, "timerfd_create: it does not wait");
    return new_or_error();
}

int timerfd_settime(int fd, int flags, const struct itimerspec *time, struct itimerspec *before)
{
    (void)fd, (void)flags, (void)before;
    HOLDS(__CPROVER_r_ok(time, sizeof *time), "timerfd_settime: the time is there");
    return zero_or_error();
}
