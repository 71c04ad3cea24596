/* A peer that keeps his copy of a stream socket that he gave, and reads from it into memory that does not come: the system holds the socket's
 * lock meanwhile, and whoever reads from it, too, waits as long. Nothing that this library does with such a socket by itself waits. */
#ifndef _GNU_SOURCE
#define _GNU_SOURCE
#endif

#include "covretin_channel_socket.h"
#include "covretin_device.h"
#include "covretin_display_socket.h"
#include "covretin_socket.h"
#include "peer.h"
#include "testing.h"

#include <fcntl.h>
#include <linux/userfaultfd.h>
#include <poll.h>
#include <pthread.h>
#include <stdio.h>
#include <string.h>
#include <sys/eventfd.h>
#include <sys/ioctl.h>
#include <sys/mman.h>
#include <sys/socket.h>
#include <sys/syscall.h>
#include <sys/wait.h>
#include <unistd.h>

enum { PAGE = 4096, HELD_FOR = 10000, CONFIG_CHANGE = 2, VERSION = 1, MANY = 64 };

/* -- The peer -- */

/* Who reads, and who gives his page once it is wanted no more, or after a while: a test that waits ends. */
static struct {
    int socket, userfault, is_held, is_over;
    void *page;
    pthread_t reader, giver;
} peer;

static void *read_into_page(void *none)
{
    EXPECT(4, recv(peer.socket, peer.page, 4, 0));
    return none;
}

static void *give_page(void *none)
{
    struct pollfd over = {.fd = peer.is_over, .events = POLLIN};
    struct uffdio_zeropage page = {.range = {(uint64_t)(uintptr_t)peer.page, PAGE}};
    struct uffd_msg fault;
    EXPECT(sizeof fault, read(peer.userfault, &fault, sizeof fault));
    eventfd_write(peer.is_held, 1);
    poll(&over, 1, HELD_FOR);
    EXPECT(0, ioctl(peer.userfault, UFFDIO_ZEROPAGE, &page));
    return none;
}

/* Reads from this socket, whose other end this is, until `let_go`. */
static void hold(int socket, int other)
{
    struct uffdio_api api = {.api = UFFD_API};
    eventfd_t none;
    peer.socket = socket;
    peer.userfault = (int)syscall(SYS_userfaultfd, O_CLOEXEC);
    peer.page = mmap(NULL, PAGE, PROT_READ | PROT_WRITE, MAP_PRIVATE | MAP_ANONYMOUS, -1, 0);
    peer.is_held = eventfd(0, EFD_CLOEXEC);
    peer.is_over = eventfd(0, EFD_CLOEXEC);
    struct uffdio_register page = {.range = {(uint64_t)(uintptr_t)peer.page, PAGE}, .mode = UFFDIO_REGISTER_MODE_MISSING};
    if (ioctl(peer.userfault, UFFDIO_API, &api) || ioctl(peer.userfault, UFFDIO_REGISTER, &page) || send(other, "12345678", 8, 0) != 8 ||
        pthread_create(&peer.giver, NULL, give_page, NULL) || pthread_create(&peer.reader, NULL, read_into_page, NULL))
        give_up("userfaultfd");
    EXPECT(0, eventfd_read(peer.is_held, &none));
    has_waited();
}

static void let_go(void)
{
    eventfd_write(peer.is_over, 1);
    pthread_join(peer.reader, NULL);
    pthread_join(peer.giver, NULL);
    munmap(peer.page, PAGE);
    close(peer.userfault);
    close(peer.is_held);
    close(peer.is_over);
}

/* What was to be closed is closed in the end. */
static void expect_open(size_t count)
{
    for (int i = 0; i < 20000 && open_fds() != count; i++)
        usleep(1000);
    EXPECT(count, open_fds());
}

static void make_pair(int ends[2])
{
    if (socketpair(AF_UNIX, SOCK_STREAM | SOCK_CLOEXEC, 0, ends))
        give_up("socketpair");
}

/* -- The device -- */

static covretin_device device;
static covretin_connection vmm;
static bool has_changed;

static void on_request(void *own, covretin_request *request)
{
    (void)own;
    covretin_request_done(request, 0);
}

static bool on_config_changed(void *own)
{
    bool was = has_changed;
    (void)own;
    has_changed = false;
    return was;
}

static bool on_read_config(void *own, uint32_t offset, uint8_t *bytes, uint32_t size)
{
    (void)own;
    (void)offset;
    memset(bytes, 0, size);
    return true;
}

static enum covretin_error made(enum covretin_error asked)
{
    short events;
    EXPECT(COVRETIN_OK, asked);
    EXPECT(COVRETIN_NOT_YET, covretin_exchange_nowait(&vmm, &events));
    for (int turn = 0; turn < 4; turn++)
        covretin_device_serve(&device);
    return covretin_exchange_nowait(&vmm, &events);
}

#define DONE(ask) EXPECT(COVRETIN_OK, made(ask))

static void begin(const covretin_device_calls *calls)
{
    const uint64_t accepted = COVRETIN_PROTOCOL_REPLY_ACK | COVRETIN_PROTOCOL_BACKEND_REQ | COVRETIN_PROTOCOL_CONFIG;
    int ends[2];
    short events;
    make_pair(ends);
    EXPECT(COVRETIN_OK, covretin_device_open_fd(&device, calls, NULL, ends[0]));
    EXPECT(COVRETIN_OK, covretin_connect_fd(&vmm, ends[1], 8));
    DONE(covretin_ask_get_features(&vmm.session));
    DONE(covretin_ask_get_protocol_features(&vmm.session));
    EXPECT(COVRETIN_OK, covretin_ask_set_protocol_features(&vmm.session, accepted));
    EXPECT(COVRETIN_OK, covretin_exchange_nowait(&vmm, &events));
    EXPECT(COVRETIN_OK, covretin_set_hdr_flags(&vmm.session, COVRETIN_NEED_REPLY));
    DONE(covretin_ask_set_owner(&vmm.session));
}

static void end(void)
{
    covretin_device_close(&device);
    covretin_disconnect(&vmm);
}

/* The device tells by the channel that is held, takes another in its place, and ends. */
static void a_channel_holds_no_device(void)
{
    static const covretin_device_calls calls = {.queues = 1, .request = on_request, .read_config = on_read_config,
                                                .config_changed = on_config_changed};
    const uint32_t told[3] = {CONFIG_CHANGE, VERSION, 0};
    uint32_t heard[3] = {0};
    int ends[2];
    size_t before = open_fds();
    begin(&calls);
    make_pair(ends);
    DONE(covretin_ask_set_backend_request_fd(&vmm.session, ends[1]));
    hold(ends[1], ends[0]);
    has_changed = true;
    for (int turn = 0; turn < 100 && recv(ends[0], heard, sizeof heard, MSG_DONTWAIT) < 0; turn++) {
        struct pollfd ready = {.fd = covretin_device_fd(&device), .events = POLLIN};
        poll(&ready, 1, 100);
        has_waited();
        EXPECT(COVRETIN_NOT_YET, covretin_device_serve(&device));
        EXPECT(false, has_waited());
    }
    EXPECT(0, memcmp(heard, told, sizeof told));
    has_waited();
    DONE(covretin_ask_set_backend_request_fd(&vmm.session, ends[1]));
    end();
    EXPECT(false, has_waited());
    let_go();
    close(ends[0]);
    close(ends[1]);
    expect_open(before);
}

/* Calls and errors are eventfds, unless the device has asked for more: then the end of one that is held waits for nobody. */
static void a_call_holds_no_device(void)
{
    covretin_device_calls calls = {.queues = 1, .request = on_request, .read_config = on_read_config};
    size_t before = open_fds();
    for (int is_asked_for = 0; is_asked_for < 2; is_asked_for++) {
        enum covretin_error wanted = is_asked_for ? COVRETIN_OK : COVRETIN_BACKEND_INTERNAL_ERROR;
        int ends[2], pipes[2];
        calls.calls_by_pipe = is_asked_for;
        begin(&calls);
        make_pair(ends);
        if (pipe2(pipes, O_CLOEXEC))
            give_up("pipe2");
        EXPECT(wanted, made(covretin_ask_set_vring_call(&vmm.session, 0, pipes[1])));
        EXPECT(wanted, made(covretin_ask_set_vring_err(&vmm.session, 0, ends[1])));
        hold(ends[1], ends[0]);
        end();
        EXPECT(false, has_waited());
        let_go();
        close(ends[0]);
        close(ends[1]);
        close(pipes[0]);
        close(pipes[1]);
        expect_open(before);
    }
}

/* -- The sockets of a device that has its own -- */

static void a_channel_closes(int socket, int other)
{
    covretin_channel_connection channel = {0};
    EXPECT(COVRETIN_OK, covretin_channel_connect_fd(&channel, dup(socket)));
    hold(socket, other);
    covretin_channel_disconnect(&channel);
}

static void a_display_closes(int socket, int other)
{
    covretin_display_connection screen = {0};
    EXPECT(COVRETIN_OK, covretin_display_connect_fd(&screen, dup(socket)));
    hold(socket, other);
    covretin_display_disconnect(&screen);
}

static void no_close_is_held(void)
{
    void (*const closes[])(int socket, int other) = {a_channel_closes, a_display_closes};
    size_t before = open_fds();
    for (size_t i = 0; i < sizeof closes / sizeof *closes; i++) {
        int ends[2];
        make_pair(ends);
        closes[i](ends[1], ends[0]);
        EXPECT(false, has_waited());
        let_go();
        close(ends[0]);
        close(ends[1]);
        expect_open(before);
    }
}

static void close_given(int socket)
{
    covretin_channel_connection channel = {0};
    EXPECT(COVRETIN_OK, covretin_channel_connect_fd(&channel, socket));
    covretin_channel_disconnect(&channel);
}

/* A given socket in which a socket waits unread whose close waits. */
static void close_given_with_slow(void)
{
    int ends[2], far, slow = slow_to_close(&far);
    make_pair(ends);
    say(ends[0], "1", 1, &slow, 1);
    close(slow);
    has_waited();
    close_given(ends[1]);
    EXPECT(false, has_waited());
}

/* Where as many closes are held as have a thread, a child of fork has threads for its own. */
static void no_close_of_a_child_is_held(void)
{
    size_t before = open_fds();
    int ends[2], ended = 0;
    make_pair(ends);
    hold(ends[1], ends[0]);
    for (int i = 0; i < MANY; i++)
        close_given(dup(ends[1]));
    pid_t child = fork();
    if (child == 0) {
        close_given_with_slow();
        _exit(expected_wrong() != 0);
    }
    EXPECT(child, waitpid(child, &ended, 0));
    EXPECT(true, WIFEXITED(ended) && WEXITSTATUS(ended) == 0);
    let_go();
    close(ends[0]);
    close(ends[1]);
    expect_open(before);
}

int main(void)
{
    int userfault = (int)syscall(SYS_userfaultfd, O_CLOEXEC);
    if (userfault < 0) {
        printf("sockets that are held are left out: userfaultfd is not allowed here\n");
        return 0;
    }
    close(userfault);
    RUN(a_channel_holds_no_device);
    RUN(a_call_holds_no_device);
    RUN(no_close_is_held);
    RUN(no_close_of_a_child_is_held);
    return status();
}
