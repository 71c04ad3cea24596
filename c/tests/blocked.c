/* Threads that block all signals, as threads are often begun, and touch memory that the frontend has taken away: the session ends, and not the
 * process. With COVRETIN_DEBUG, as the glue is then compiled, a device is not opened where that cannot work. */
#ifndef _GNU_SOURCE
#define _GNU_SOURCE
#endif

#include "covretin_device.h"
#include "covretin_socket.h"
#include "testing.h"

#include <pthread.h>
#include <signal.h>
#include <sys/eventfd.h>
#include <sys/mman.h>
#include <sys/socket.h>
#include <unistd.h>

enum { SIZE = 0x4000, USED = 0x1000, AVAILABLE = 0x2000, BUFFER = 0x3000 };

static covretin_device device;
static covretin_connection vmm;
static covretin_request *kept;
static int file, kick;
static enum covretin_error ended;

static void on_request(void *own, covretin_request *request)
{
    (void)own;
    kept = request;
}

static const covretin_device_calls calls = {.queues = 1, .request = on_request};

/* -- What a thread does that blocks all signals -- */

static void *serve(void *none)
{
    ended = COVRETIN_NOT_YET;
    for (int turn = 0; turn < 4 && ended == COVRETIN_NOT_YET; turn++)
        ended = covretin_device_serve(&device);
    return none;
}

static void *read_request(void *none)
{
    char byte;
    covretin_request_read(kept, &byte, 1);
    return none;
}

static void *end_request(void *none)
{
    covretin_request_done(kept, 0);
    kept = NULL;
    return none;
}

static void in_a_thread(void *(*does)(void *none), bool blocks)
{
    sigset_t all, were;
    pthread_t thread;
    sigfillset(&all);
    pthread_sigmask(SIG_SETMASK, NULL, &were);
    if (blocks)
        pthread_sigmask(SIG_BLOCK, &all, NULL);
    if (pthread_create(&thread, NULL, does, NULL))
        give_up("pthread_create");
    pthread_sigmask(SIG_SETMASK, &were, NULL);
    pthread_join(thread, NULL);
}

/* -- The frontend -- */

static void make(enum covretin_error asked)
{
    short events;
    EXPECT(COVRETIN_OK, asked);
    if (covretin_exchange_nowait(&vmm, &events) == COVRETIN_NOT_YET) {
        in_a_thread(serve, false);
        EXPECT(COVRETIN_OK, covretin_exchange_nowait(&vmm, &events));
    }
}

/* A session with a ring, of which the guest has made one request of a byte available. */
static void begin(void)
{
    const uint64_t descriptor[2] = {BUFFER, 1};
    const uint16_t available[3] = {0, 1, 0};
    const covretin_vring place = {.used_ring_addr = USED, .avail_ring_addr = AVAILABLE};
    int ends[2];
    file = memfd_create("guest", MFD_CLOEXEC);
    kick = eventfd(1, EFD_CLOEXEC);
    if (file < 0 || kick < 0 || ftruncate(file, SIZE) || pwrite(file, descriptor, sizeof descriptor, 0) < 0 ||
        pwrite(file, available, sizeof available, AVAILABLE) < 0 || socketpair(AF_UNIX, SOCK_STREAM | SOCK_CLOEXEC, 0, ends))
        give_up("memfd_create");
    const covretin_region region = {.memory_size = SIZE, .fd = file};
    EXPECT(COVRETIN_OK, covretin_device_open_fd(&device, &calls, NULL, ends[0]));
    EXPECT(COVRETIN_OK, covretin_connect_fd(&vmm, ends[1], 8));
    make(covretin_ask_get_features(&vmm.session));
    make(covretin_ask_get_protocol_features(&vmm.session));
    make(covretin_ask_set_owner(&vmm.session));
    make(covretin_ask_set_features(&vmm.session, COVRETIN_DEVICE_VERSION_1));
    make(covretin_ask_set_mem_table(&vmm.session, &region, 1));
    make(covretin_ask_set_vring_num(&vmm.session, 0, 8));
    make(covretin_ask_set_vring_addr(&vmm.session, 0, &place));
    make(covretin_ask_set_vring_base(&vmm.session, 0, 0));
    make(covretin_ask_set_vring_kick(&vmm.session, 0, kick));
}

static void end(void)
{
    EXPECT(COVRETIN_MEMORY_LOST, ended);
    covretin_device_close(&device);
    covretin_disconnect(&vmm);
    close(file);
    close(kick);
}

/* What this thread does with a request of memory that is gone ends the session. */
static void lose(void *(*does)(void *none))
{
    begin();
    in_a_thread(serve, false);
    EXPECT(true, kept != NULL);
    EXPECT(COVRETIN_NOT_YET, ended);
    EXPECT(0, ftruncate(file, 0));
    eventfd_write(kick, 1);
    in_a_thread(does, true);
    if (kept != NULL)
        end_request(NULL);
    in_a_thread(serve, false);
    end();
}

static void a_request_is_ended_by_a_thread_that_blocks(void)
{
    lose(end_request);
}

static void a_request_is_read_by_a_thread_that_blocks(void)
{
    lose(read_request);
}

static void a_device_is_served_by_a_thread_that_blocks(void)
{
    lose(serve);
}

/* -- What is seen beforehand -- */

static enum covretin_error opened;

static void *open_device(void *none)
{
    int ends[2];
    if (socketpair(AF_UNIX, SOCK_STREAM | SOCK_CLOEXEC, 0, ends))
        give_up("socketpair");
    opened = covretin_device_open_fd(&device, &calls, NULL, ends[0]);
    covretin_device_close(&device);
    if (opened != COVRETIN_OK)
        close(ends[0]);
    close(ends[1]);
    return none;
}

static void is_seen_in_a_debug_build(void)
{
#ifdef COVRETIN_DEBUG
    const enum covretin_error wanted = COVRETIN_INVALID_PARAM;
#else
    const enum covretin_error wanted = COVRETIN_OK;
#endif
    struct sigaction mine = {.sa_handler = SIG_IGN}, were;
    in_a_thread(open_device, false);
    EXPECT(COVRETIN_OK, opened);
    in_a_thread(open_device, true);
    EXPECT(wanted, opened);
    sigaction(SIGBUS, &mine, &were);
    in_a_thread(open_device, false);
    EXPECT(wanted, opened);
    sigaction(SIGBUS, &were, NULL);
}

int main(void)
{
    RUN(a_device_is_served_by_a_thread_that_blocks);
    RUN(a_request_is_ended_by_a_thread_that_blocks);
    RUN(a_request_is_read_by_a_thread_that_blocks);
    RUN(is_seen_in_a_debug_build);
    return status();
}
