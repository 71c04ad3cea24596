/* Both sides of the backend channel over a pair of sockets with real descriptors: each request of a device comes to its frontend as
 * it was asked, and the reply back; and either side with a peer that is played by hand, and not to be trusted. */
#ifndef _GNU_SOURCE
#define _GNU_SOURCE
#endif

#include "covretin_channel_socket.h"
#include "peer.h"
#include "testing.h"

#include <errno.h>
#include <poll.h>
#include <string.h>
#include <sys/socket.h>
#include <unistd.h>

enum { LIMIT = 20000, TURNS = 1000, NEED_REPLY = 9, CONFIG_CHANGE = 2, LOOKUP = 8 };

static covretin_channel_connection vmm; /* a device's */
static covretin_channel *const channel = &vmm.channel;
static covretin_channel_service device; /* a frontend's */
static covretin_channel_server *const server = &device.server;
static const uint8_t name[16] = "0123456789abcdef";
static const covretin_mmap part = {0x1000, 0x2000, 0x3000, 1, 7};
static uint32_t call;
static short events;
static int file;

static void pair(int ends[2])
{
    if (socketpair(AF_UNIX, SOCK_STREAM | SOCK_CLOEXEC, 0, ends))
        give_up("socketpair");
}

static void accept_all(bool acks)
{
    EXPECT(COVRETIN_OK, covretin_channel_set_reply_ack(channel, acks));
    EXPECT(COVRETIN_OK, covretin_channel_set_config_change(channel, true));
    EXPECT(COVRETIN_OK, covretin_channel_set_shared_object(channel, true));
    EXPECT(COVRETIN_OK, covretin_channel_set_shmem(channel, true));
}

/* -- Both sides -- */

static void connect_both(bool acks)
{
    int ends[2];
    pair(ends);
    EXPECT(COVRETIN_OK, covretin_channel_connect_fd(&vmm, ends[0]));
    EXPECT(COVRETIN_SESSION_OPEN, covretin_channel_connect_fd(&vmm, ends[0]));
    EXPECT(COVRETIN_OK, covretin_channel_serve_fd(&device, ends[1]));
    EXPECT(COVRETIN_SESSION_OPEN, covretin_channel_serve_fd(&device, ends[1]));
    EXPECT(ends[0], covretin_channel_connection_fd(&vmm));
    EXPECT(ends[1], covretin_channel_service_fd(&device));
    EXPECT(COVRETIN_OK, covretin_channel_server_set_reply_ack(server, acks));
    accept_all(acks);
    file = file_of("sent");
}

static void disconnect_both(void)
{
    EXPECT(COVRETIN_NOT_YET, covretin_channel_next_call_nowait(&device, &call, &events));
    EXPECT(COVRETIN_NOTHING_ASKED, covretin_channel_exchange(&vmm, 0));
    covretin_channel_disconnect(&vmm);
    EXPECT(COVRETIN_DISCONNECTED, covretin_channel_next_call(&device, &call, 0));
    EXPECT(true, covretin_channel_service_ended(&device));
    covretin_channel_hang_up(&device);
    close(file);
}

/* What the frontend sees of a request. */
typedef void look(void);

/* Exchanges a request that was asked; the frontend is asked `want`, and replies by a number of its own or of the system's. */
static enum covretin_error exchanged(enum covretin_error asked, uint32_t want, look *looks, int32_t number)
{
    enum covretin_error outcome = COVRETIN_NOT_YET;
    bool is_served = false;
    EXPECT(COVRETIN_OK, asked);
    for (int turn = 0; turn < TURNS && (outcome == COVRETIN_NOT_YET || !is_served); turn++) {
        if (outcome == COVRETIN_NOT_YET)
            outcome = covretin_channel_exchange_nowait(&vmm, &events);
        if (is_served || covretin_channel_next_call_nowait(&device, &call, &events) != COVRETIN_OK)
            continue;
        EXPECT(want, call);
        looks();
        EXPECT(COVRETIN_OK, number < 0 ? covretin_channel_reply_errno(server, -number)
                                       : covretin_channel_reply_number(server, (uint64_t)number));
        EXPECT(COVRETIN_OK, covretin_channel_send_reply(&device, LIMIT));
        is_served = true;
    }
    EXPECT(true, is_served);
    return outcome;
}

/* A request that is done, and refused by a number and by an error, which is seen where requests are replied to. */
static void expect_all(enum covretin_error (*asks)(void), uint32_t want, look *looks, bool acks)
{
    enum covretin_error refused = acks ? COVRETIN_FRONTEND_INTERNAL_ERROR : COVRETIN_OK;
    EXPECT(COVRETIN_OK, exchanged(asks(), want, looks, 0));
    EXPECT(refused, exchanged(asks(), want, looks, 3));
    EXPECT(refused, exchanged(asks(), want, looks, -EINVAL));
}

static enum covretin_error config_change(void)
{
    return covretin_channel_ask_config_change(channel);
}

static enum covretin_error object_add(void)
{
    return covretin_channel_ask_shared_object_add(channel, name, sizeof name);
}

static enum covretin_error object_remove(void)
{
    return covretin_channel_ask_shared_object_remove(channel, name, sizeof name);
}

static enum covretin_error object_lookup(void)
{
    return covretin_channel_ask_shared_object_lookup(channel, name, sizeof name, file);
}

static enum covretin_error shmem_map(void)
{
    return covretin_channel_ask_shmem_map(channel, &part, file);
}

static enum covretin_error shmem_unmap(void)
{
    return covretin_channel_ask_shmem_unmap(channel, &part);
}

static void sees_nothing(void)
{
    uint8_t found[16];
    covretin_mmap mmap;
    int32_t fd = -9;
    EXPECT(COVRETIN_OTHER_CALL, covretin_channel_call_name(server, found, sizeof found));
    EXPECT(COVRETIN_OTHER_CALL, covretin_channel_call_mmap(server, &mmap));
    EXPECT(COVRETIN_OTHER_CALL, covretin_channel_call_fd(server, &fd));
    EXPECT(-9, fd);
}

static void sees_name(void)
{
    uint8_t found[16];
    EXPECT(COVRETIN_NO_ROOM, covretin_channel_call_name(server, found, 15));
    EXPECT(COVRETIN_OK, covretin_channel_call_name(server, found, sizeof found));
    EXPECT(0, memcmp(found, name, sizeof found));
}

/* The descriptor is lent, and then claimed. */
static void sees_fd(void)
{
    int32_t fd = -9;
    EXPECT(COVRETIN_OK, covretin_channel_call_fd(server, &fd));
    EXPECT(true, fd != file && holds(fd, "sent"));
    EXPECT(COVRETIN_OTHER_CALL, covretin_channel_claim_call_fd(&device, file));
    EXPECT(COVRETIN_OK, covretin_channel_claim_call_fd(&device, fd));
    EXPECT(0, close(fd));
}

static void sees_lookup(void)
{
    sees_name();
    sees_fd();
}

static void sees_part(void)
{
    covretin_mmap found = {0};
    EXPECT(COVRETIN_OK, covretin_channel_call_mmap(server, &found));
    EXPECT(true, found.fd_offset == part.fd_offset && found.shm_offset == part.shm_offset);
    EXPECT(true, found.len == part.len && found.flags == part.flags && found.shmid == part.shmid);
}

static void sees_map(void)
{
    sees_part();
    sees_fd();
}

static void each_request(void)
{
    for (int acks = 0; acks < 2; acks++) {
        connect_both(acks);
        expect_all(config_change, COVRETIN_CHANNEL_CALL_CONFIG_CHANGE, sees_nothing, acks);
        expect_all(object_add, COVRETIN_CHANNEL_CALL_SHARED_OBJECT_ADD, sees_name, acks);
        expect_all(object_remove, COVRETIN_CHANNEL_CALL_SHARED_OBJECT_REMOVE, sees_name, acks);
        expect_all(object_lookup, COVRETIN_CHANNEL_CALL_SHARED_OBJECT_LOOKUP, sees_lookup, acks);
        expect_all(shmem_map, COVRETIN_CHANNEL_CALL_SHMEM_MAP, sees_map, acks);
        expect_all(shmem_unmap, COVRETIN_CHANNEL_CALL_SHMEM_UNMAP, sees_part, acks);
        disconnect_both();
    }
}

/* What was not accepted is not asked, and nothing is sent. */
static void lacks_features(void)
{
    connect_both(true);
    EXPECT(COVRETIN_OK, covretin_channel_set_config_change(channel, false));
    EXPECT(COVRETIN_OK, covretin_channel_set_shared_object(channel, false));
    EXPECT(COVRETIN_OK, covretin_channel_set_shmem(channel, false));
    EXPECT(COVRETIN_INACTIVE_OPERATION, config_change());
    EXPECT(COVRETIN_INACTIVE_OPERATION, object_add());
    EXPECT(COVRETIN_INACTIVE_OPERATION, object_remove());
    EXPECT(COVRETIN_INACTIVE_OPERATION, object_lookup());
    EXPECT(COVRETIN_INACTIVE_OPERATION, shmem_map());
    EXPECT(COVRETIN_INACTIVE_OPERATION, shmem_unmap());
    disconnect_both();
}

/* A descriptor that is not open: nothing is sent, nothing is asked any more, and the channel goes on. */
static void takes_back_what_cannot_be_sent(void)
{
    enum covretin_error (*const asks[])(void) = {shmem_map, object_lookup};
    for (int acks = 0; acks < 2; acks++) {
        connect_both(acks);
        int sent = file;
        file = dup(sent);
        close(file);
        for (size_t i = 0; i < 4; i++) {
            EXPECT(COVRETIN_OK, asks[i % 2]());
            EXPECT(COVRETIN_INVALID_PARAM, covretin_channel_exchange(&vmm, LIMIT));
            EXPECT(EBADF, errno);
            EXPECT(COVRETIN_NOTHING_ASKED, covretin_channel_exchange(&vmm, LIMIT));
            EXPECT(COVRETIN_NOT_YET, covretin_channel_next_call_nowait(&device, &call, &events));
        }
        file = sent;
        expect_all(shmem_map, COVRETIN_CHANNEL_CALL_SHMEM_MAP, sees_map, acks);
        disconnect_both();
    }
}

static void out_of_turn(void)
{
    connect_both(true);
    EXPECT(COVRETIN_NOTHING_ASKED, covretin_channel_reply_number(server, 0));
    EXPECT(COVRETIN_OK, config_change());
    EXPECT(COVRETIN_NOT_TAKEN, config_change());
    EXPECT(COVRETIN_TIMED_OUT, covretin_channel_exchange(&vmm, 0));
    EXPECT(COVRETIN_OK, covretin_channel_next_call(&device, &call, LIMIT));
    EXPECT(COVRETIN_NOT_REPLIED, covretin_channel_next_call(&device, &call, 0));
    EXPECT(COVRETIN_NOT_REPLIED, covretin_channel_send_reply(&device, 0));
    EXPECT(COVRETIN_TIMED_OUT, covretin_channel_exchange(&vmm, 0));
    EXPECT(COVRETIN_OK, covretin_channel_reply_number(server, 0));
    EXPECT(COVRETIN_NOTHING_ASKED, covretin_channel_reply_number(server, 0));
    EXPECT(COVRETIN_OK, covretin_channel_send_reply_nowait(&device, &events));
    EXPECT(COVRETIN_OK, covretin_channel_exchange(&vmm, LIMIT));
    disconnect_both();
}

static void without_channel(void)
{
    EXPECT(COVRETIN_NO_SESSION, covretin_channel_exchange(&vmm, 0));
    EXPECT(COVRETIN_NO_SESSION, covretin_channel_exchange_nowait(&vmm, &events));
    EXPECT(COVRETIN_NO_SESSION, covretin_channel_next_call(&device, &call, 0));
    EXPECT(COVRETIN_NO_SESSION, covretin_channel_claim_call_fd(&device, 0));
    EXPECT(true, covretin_channel_connection_fd(&vmm) == -1 && covretin_channel_service_fd(&device) == -1);
    EXPECT(true, covretin_channel_service_ended(&device));
    EXPECT(COVRETIN_INVALID_SOCKET_FD, covretin_channel_connect_fd(&vmm, -1));
    EXPECT(COVRETIN_INVALID_SOCKET_FD, covretin_channel_serve_fd(&device, -1));
    covretin_channel_disconnect(&vmm);
    covretin_channel_hang_up(&device);
}

/* -- Peers that are not to be trusted -- */

static int connected(void)
{
    int ends[2];
    pair(ends);
    EXPECT(COVRETIN_OK, covretin_channel_connect_fd(&vmm, ends[0]));
    accept_all(true);
    return ends[1];
}

static int served(void)
{
    int ends[2];
    pair(ends);
    EXPECT(COVRETIN_OK, covretin_channel_serve_fd(&device, ends[0]));
    EXPECT(COVRETIN_OK, covretin_channel_server_set_reply_ack(server, true));
    return ends[1];
}

/* Replies that are none end the connection, and what comes with them is closed. */
static void refuses_replies(void)
{
    static const struct {
        uint32_t code, flags, size, fds;
    } replies[] = {{CONFIG_CHANGE, 1, 8, 0}, {CONFIG_CHANGE, 6, 8, 0}, {3, 5, 8, 0},  {CONFIG_CHANGE, 5, 0, 0},
                   {CONFIG_CHANGE, 5, 7, 0}, {CONFIG_CHANGE, 5, 9, 0}, {0, 5, 8, 0}, {CONFIG_CHANGE, 5, 8, 1}};
    const uint8_t body[16] = {0};
    for (size_t i = 0; i < sizeof replies / sizeof *replies; i++) {
        int peer = connected();
        file = file_of("sent");
        size_t before = open_fds();
        EXPECT(COVRETIN_OK, config_change());
        say_header(peer, replies[i].code, replies[i].flags, replies[i].size, &file, replies[i].fds);
        say(peer, body, sizeof body, NULL, 0);
        enum covretin_error error = covretin_channel_exchange(&vmm, LIMIT);
        EXPECT(COVRETIN_INVALID_MESSAGE, error);
        EXPECT(error, covretin_channel_exchange(&vmm, LIMIT));
        EXPECT(before, open_fds());
        covretin_channel_disconnect(&vmm);
        close(file);
        close(peer);
    }
}

/* A frontend that ends after so many bytes of its reply. */
static void frontend_ends(void)
{
    const uint8_t text[20] = {CONFIG_CHANGE, 0, 0, 0, 5, 0, 0, 0, 8};
    for (size_t length = 0; length < sizeof text; length++) {
        int peer = connected();
        EXPECT(COVRETIN_OK, config_change());
        if (length != 0)
            say(peer, text, length, NULL, 0);
        close(peer);
        EXPECT(COVRETIN_DISCONNECTED, covretin_channel_exchange(&vmm, LIMIT));
        covretin_channel_disconnect(&vmm);
    }
}

/* Requests that are none are asked of nobody. */
static void refuses_requests(void)
{
    static const struct {
        uint32_t code, flags, size, fds;
    } requests[] = {{CONFIG_CHANGE, 5, 0, 0}, {CONFIG_CHANGE, 2, 0, 0}, {CONFIG_CHANGE, 1, 4097, 0}, {LOOKUP, 1, 15, 1},
                    {LOOKUP, 1, 16, 0},       {LOOKUP, 1, 16, 2},       {9, 1, 40, 0},               {CONFIG_CHANGE, 1, 0, 1}};
    const uint8_t body[40] = {1};
    for (size_t i = 0; i < sizeof requests / sizeof *requests; i++) {
        int peer = served();
        file = file_of("sent");
        size_t before = open_fds();
        say_header(peer, requests[i].code, requests[i].flags, requests[i].size, (const int[]){file, file}, requests[i].fds);
        if (requests[i].size != 0 && requests[i].size <= sizeof body)
            say(peer, body, requests[i].size, NULL, 0);
        call = 99;
        EXPECT(true, covretin_channel_next_call(&device, &call, LIMIT) != COVRETIN_OK);
        EXPECT(99, call);
        EXPECT(before, open_fds());
        covretin_channel_hang_up(&device);
        close(file);
        close(peer);
    }
}

/* A device that ends at each place of a request that brings a descriptor. */
static void device_ends(void)
{
    uint8_t text[28] = {LOOKUP, 0, 0, 0, NEED_REPLY, 0, 0, 0, 16};
    memcpy(text + 12, name, sizeof name);
    for (size_t length = 0; length < sizeof text; length++) {
        int peer = served();
        enum covretin_error want = length == 0 ? COVRETIN_DISCONNECTED : length < 12 ? COVRETIN_PARTIAL_MESSAGE : COVRETIN_INVALID_MESSAGE;
        file = file_of("sent");
        if (length != 0)
            say(peer, text, length, &file, 1);
        close(peer);
        EXPECT(want, covretin_channel_next_call(&device, &call, LIMIT));
        EXPECT(want, covretin_channel_next_call(&device, &call, LIMIT));
        EXPECT(length < 4 ? 0 : LOOKUP, covretin_channel_service_request(&device));
        EXPECT(true, covretin_channel_service_ended(&device));
        covretin_channel_hang_up(&device);
        close(file);
    }
}

/* A call that is never replied to, and whose descriptor nobody claimed. */
static void hangs_up_amid_a_call(void)
{
    int peer = served();
    file = file_of("sent");
    size_t before = open_fds();
    say_header(peer, LOOKUP, NEED_REPLY, sizeof name, &file, 1);
    say(peer, name, sizeof name, NULL, 0);
    EXPECT(COVRETIN_OK, covretin_channel_next_call(&device, &call, LIMIT));
    EXPECT(before + 1, open_fds());
    covretin_channel_hang_up(&device);
    EXPECT(before - 1, open_fds()); /* (its socket is closed, too) */
    close(file);
    close(peer);
}

/* A request and a reply of a byte at a time, and one whose descriptor comes amid it. */
static void byte_by_byte(void)
{
    uint8_t text[28] = {LOOKUP, 0, 0, 0, NEED_REPLY, 0, 0, 0, 16};
    memcpy(text + 12, name, sizeof name);
    for (int late = 0; late < 2; late++) {
        int peer = served();
        file = file_of("sent");
        for (size_t i = 0; i < sizeof text; i++) {
            EXPECT(COVRETIN_NOT_YET, covretin_channel_next_call_nowait(&device, &call, &events));
            EXPECT(POLLIN, events);
            say(peer, text + i, 1, &file, i == 0 || (late && i == 20));
        }
        if (late)
            EXPECT(COVRETIN_INVALID_MESSAGE, covretin_channel_next_call(&device, &call, LIMIT));
        else {
            EXPECT(COVRETIN_OK, covretin_channel_next_call(&device, &call, LIMIT));
            sees_lookup();
        }
        covretin_channel_hang_up(&device);
        close(file);
        close(peer);
    }
}

/* Each request of a device has a name of its own, and any other number one, too. */
static void request_texts(void)
{
    EXPECT(0, strcmp("CONFIG_CHANGE_MSG", covretin_channel_request_text(COVRETIN_CHANNEL_CALL_CONFIG_CHANGE)));
    EXPECT(0, strcmp("SHMEM_UNMAP", covretin_channel_request_text(COVRETIN_CHANNEL_CALL_SHMEM_UNMAP)));
    for (uint32_t i = 0; i <= 10; i++)
        for (uint32_t j = 0; j < i; j++)
            EXPECT(true, strcmp(covretin_channel_request_text(i), covretin_channel_request_text(j)) != 0);
    EXPECT(0, strcmp("unknown request", covretin_channel_request_text(11)));
    EXPECT(0, strcmp("unknown request", covretin_channel_request_text(UINT32_MAX)));
}

int main(void)
{
    RUN(each_request);
    RUN(lacks_features);
    RUN(takes_back_what_cannot_be_sent);
    RUN(out_of_turn);
    RUN(without_channel);
    RUN(refuses_replies);
    RUN(frontend_ends);
    RUN(refuses_requests);
    RUN(device_ends);
    RUN(hangs_up_amid_a_call);
    RUN(byte_by_byte);
    RUN(request_texts);
    return status();
}
