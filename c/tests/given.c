/* What a peer gives or sets that nobody asked for: what the system tells of each message beside its descriptors, more descriptors than
 * a message has, and sockets whose close waits. Each test is also one of the count of open descriptors around it. Linked with
 * --wrap=recvmsg. */
#ifndef _GNU_SOURCE
#define _GNU_SOURCE
#endif

#include "by_hand.h"
#include "covretin_channel_socket.h"
#include "covretin_display_socket.h"
#include "testing.h"

#include <netinet/in.h>
#include <poll.h>
#include <stdio.h>
#include <string.h>
#include <sys/socket.h>
#include <sys/un.h>
#include <unistd.h>

#ifndef SCM_PIDFD
#define SCM_PIDFD 0x04
#endif

ssize_t __real_recvmsg(int fd, struct msghdr *message, int flags);
ssize_t __wrap_recvmsg(int fd, struct msghdr *message, int flags);

enum { CONFIG_CHANGE = 2, GET_DISPLAY_FEATURES = 1 };

static covretin_connection device;
static covretin_channel_connection vmm;
static covretin_channel_service asker; /* a device that a frontend serves */
static covretin_display_connection screen;
static short events;

/* -- What the system tells -- */

/* The socket whose messages this test tells of, in place of the system; and a file of the test's own. */
static int told_of = -1, own = -1;

static struct cmsghdr *tell_one(struct cmsghdr *head, int level, int type, const void *data, size_t size)
{
    head->cmsg_level = level;
    head->cmsg_type = type;
    head->cmsg_len = CMSG_LEN(size);
    memcpy(CMSG_DATA(head), data, size);
    return (struct cmsghdr *)(void *)((uint8_t *)head + CMSG_SPACE(size));
}

/* Before what came: a message of an unknown kind and of an odd length, one of another level whose type and data are those of a
 * descriptor, the descriptor of a process, and none, since the process was gone. */
static void tell_before(struct msghdr *message, size_t room)
{
    static union {
        struct cmsghdr align;
        uint8_t bytes[4096];
    } all;
    const int process = dup(own), gone = -3;
    struct cmsghdr *end = &all.align;
    end = tell_one(end, SOL_SOCKET, 0x7f, "label", 5);
    end = tell_one(end, IPPROTO_TCP, SCM_RIGHTS, &own, sizeof own);
    end = tell_one(end, SOL_SOCKET, SCM_PIDFD, &process, sizeof process);
    end = tell_one(end, SOL_SOCKET, SCM_PIDFD, &gone, sizeof gone);
    memcpy(end, message->msg_control, message->msg_controllen);
    message->msg_controllen += (size_t)((uint8_t *)end - all.bytes);
    if (message->msg_controllen > room)
        give_up("no room for what is told");
    memcpy(message->msg_control, all.bytes, message->msg_controllen);
}

ssize_t __wrap_recvmsg(int fd, struct msghdr *message, int flags)
{
    size_t room = message->msg_controllen;
    ssize_t got = __real_recvmsg(fd, message, flags);
    if (fd == told_of && got > 0)
        tell_before(message, room);
    return got;
}

/* Has all be told of a connection's socket: by the system, and where it tells no process, or this is the second time, by the test. */
static void tell_of(int socket, int time)
{
    bool tells_processes = tell_all(socket);
    if (!tells_processes && time == 0)
        printf("this system does not tell the sender's process: it is only played\n");
    told_of = time == 0 && tells_processes ? -1 : socket;
}

/* A frontend's requests, and its replies. */
static void tells_a_service(int time)
{
    struct request reply;
    int peer = served_pair();
    tell_of(covretin_service_fd(&service), time);
    size_t before = open_fds();
    for (int i = 0; i < 50; i++) {
        request(peer, GET_FEATURES, REQUEST_FLAGS, NULL, 0, NULL, 0);
        expect_call(COVRETIN_CALL_GET_FEATURES);
        EXPECT(COVRETIN_OK, covretin_reply_number(&service.backend, 1));
        EXPECT(COVRETIN_OK, covretin_send_reply(&service, LIMIT));
        EXPECT(true, hear(peer, &reply));
        EXPECT(before, open_fds());
    }
    covretin_hang_up(&service);
    close(peer);
}

static void tells_a_connection(int time)
{
    uint64_t number = 0;
    int peer = pair_up(&device, 2);
    tell_of(covretin_connection_fd(&device), time);
    size_t before = open_fds();
    for (int i = 0; i < 50; i++) {
        EXPECT(COVRETIN_OK, covretin_ask_get_features(&device.session));
        reply_number(peer, GET_FEATURES, 7);
        EXPECT(COVRETIN_OK, covretin_exchange(&device, LIMIT));
        EXPECT(COVRETIN_OK, covretin_answer_number(&device.session, &number));
        EXPECT(7, number);
        EXPECT(before, open_fds());
    }
    covretin_disconnect(&device);
    close(peer);
}

/* Both ends of the backend channel, whose socket the frontend gave and may have kept a copy of. */
static void tells_a_channel(int time)
{
    uint32_t asked = 0;
    int ends[2];
    if (socketpair(AF_UNIX, SOCK_STREAM | SOCK_CLOEXEC, 0, ends))
        give_up("socketpair");
    EXPECT(COVRETIN_OK, covretin_channel_connect_fd(&vmm, ends[0]));
    EXPECT(COVRETIN_OK, covretin_channel_set_reply_ack(&vmm.channel, true));
    EXPECT(COVRETIN_OK, covretin_channel_set_config_change(&vmm.channel, true));
    EXPECT(COVRETIN_OK, covretin_channel_serve_fd(&asker, ends[1]));
    EXPECT(COVRETIN_OK, covretin_channel_server_set_reply_ack(&asker.server, true));
    for (int side = 0; side < 2; side++) {
        tell_of(ends[side], time);
        size_t before = open_fds();
        for (int i = 0; i < 25; i++) {
            EXPECT(COVRETIN_OK, covretin_channel_ask_config_change(&vmm.channel));
            EXPECT(COVRETIN_NOT_YET, covretin_channel_exchange_nowait(&vmm, &events));
            EXPECT(COVRETIN_OK, covretin_channel_next_call(&asker, &asked, LIMIT));
            EXPECT(COVRETIN_OK, covretin_channel_reply_number(&asker.server, 0));
            EXPECT(COVRETIN_OK, covretin_channel_send_reply(&asker, LIMIT));
            EXPECT(COVRETIN_OK, covretin_channel_exchange(&vmm, LIMIT));
            EXPECT(before, open_fds());
        }
    }
    covretin_channel_disconnect(&vmm);
    covretin_channel_hang_up(&asker);
}

static void tells_a_display(int time)
{
    const uint8_t reply[20] = {GET_DISPLAY_FEATURES, [4] = 4, [8] = 8, [12] = 3};
    uint8_t heard[12];
    uint64_t number = 0;
    size_t fd_count = 0;
    int ends[2];
    if (socketpair(AF_UNIX, SOCK_STREAM | SOCK_CLOEXEC, 0, ends))
        give_up("socketpair");
    EXPECT(COVRETIN_OK, covretin_display_connect_fd(&screen, ends[0]));
    tell_of(ends[0], time);
    size_t before = open_fds();
    for (int i = 0; i < 50; i++) {
        EXPECT(COVRETIN_OK, covretin_display_ask_get_protocol_features(&screen.display));
        say(ends[1], reply, sizeof reply, NULL, 0);
        EXPECT(COVRETIN_OK, covretin_display_exchange(&screen, LIMIT));
        EXPECT(COVRETIN_OK, covretin_display_take_number(&screen.display, &number));
        EXPECT(3, number);
        EXPECT(true, hear_bytes(ends[1], heard, sizeof heard, &fd_count));
        EXPECT(before, open_fds());
    }
    covretin_display_disconnect(&screen);
    close(ends[1]);
}

/* Nothing is left open of what the system tells, and nothing else is closed. */
static void told_of_senders(void)
{
    own = file_of("own");
    for (int time = 0; time < 2; time++) {
        tells_a_service(time);
        tells_a_connection(time);
        tells_a_channel(time);
        tells_a_display(time);
    }
    told_of = -1;
    EXPECT(true, holds(own, "own"));
    close(own);
}

/* -- As many as a message has, and more -- */

/* A table of as many regions as there are descriptors. How its request ends. */
static enum covretin_error table_of(size_t count, int file)
{
    static uint8_t body[8 + 32 * 32];
    int files[SYSTEM_MAX_FDS], peer = served_pair();
    covretin_region regions[32];
    size_t seen = 0;
    bool listening;
    own = file;
    accept_features(peer, 0);
    size_t before = open_fds();
    tell_of(covretin_service_fd(&service), 1);
    body[0] = count <= 32 ? (uint8_t)count : 32;
    for (size_t i = 0; i < 32; i++)
        body[8 + 32 * i + 9] = 16;
    for (size_t i = 0; i < count; i++)
        files[i] = file;
    request(peer, SET_MEM_TABLE, REQUEST_FLAGS, body, 8 + (size_t)body[0] * 32, files, count);
    enum covretin_error error = covretin_next_call(&service, &call, LIMIT);
    EXPECT(before + (error ? 0 : count), open_fds());
    if (error == COVRETIN_OK) {
        EXPECT(COVRETIN_OK, covretin_call_regions(&service.backend, regions, 32, &seen, &listening));
        EXPECT(count, seen);
        for (size_t i = 0; i < seen; i++)
            EXPECT(true, regions[i].fd != file && holds(regions[i].fd, "region"));
        EXPECT(COVRETIN_OK, covretin_reply_done(&service.backend));
    }
    covretin_hang_up(&service);
    told_of = -1;
    close(peer);
    return error;
}

/* What the system tells beside them leaves room for each descriptor, and hides none that is too many. */
static void counts_descriptors(void)
{
    int file = file_of("region");
    EXPECT(COVRETIN_OK, table_of(1, file));
    EXPECT(COVRETIN_OK, table_of(32, file));
    EXPECT(COVRETIN_FDS_LOST, table_of(33, file));
    EXPECT(COVRETIN_FDS_LOST, table_of(SYSTEM_MAX_FDS, file));
    close(file);
}

/* The same of a reply's, with which none but the first may come. */
static void counts_descriptors_of_replies(void)
{
    const size_t counts[] = {32, 33, SYSTEM_MAX_FDS};
    int files[SYSTEM_MAX_FDS];
    files[0] = file_of("stray");
    for (size_t i = 1; i < SYSTEM_MAX_FDS; i++)
        files[i] = files[0];
    for (size_t i = 0; i < sizeof counts / sizeof counts[0]; i++)
        for (int is_late = 0; is_late < 2; is_late++) {
            enum covretin_error few = is_late ? COVRETIN_OK : COVRETIN_INVALID_MESSAGE;
            int peer = pair_up(&device, 2);
            tell_all(covretin_connection_fd(&device));
            size_t before = open_fds();
            EXPECT(COVRETIN_OK, covretin_ask_get_features(&device.session));
            say_header(peer, GET_FEATURES, REPLY_FLAGS, 8, files, is_late ? 0 : counts[i]);
            if (is_late) /* else the system does not say on which byte they came */
                EXPECT(COVRETIN_TIMED_OUT, covretin_exchange(&device, 0));
            say(peer, "\1\0\0\0\0\0\0\0", 8, files, is_late ? counts[i] : 0);
            EXPECT(counts[i] == 32 ? few : COVRETIN_FDS_LOST, covretin_exchange(&device, LIMIT));
            EXPECT(before, open_fds());
            covretin_disconnect(&device);
            close(peer);
        }
    close(files[0]);
}

/* -- Sockets whose close waits -- */

/* How such a socket comes. */
enum way {
    TAKEN,     /* with a message that may bring one */
    REPLACED,  /* the same, and another message comes behind it */
    TOO_MANY,  /* twice, where one is due */
    NOT_DUE,   /* with a message that brings none */
    MALFORMED, /* with what is no message */
    LATE,      /* with the body */
    LOST,      /* oftener than a message may have descriptors */
    MOST,      /* as often as the system passes them */
    HALF,      /* with a header whose body does not come */
    BEHIND,    /* behind what is no message, so that it waits unread */
    ANOTHER,   /* with a message that nobody is to read */
    URGENT,    /* out of band */
    WAYS
};

/* A message of a peer: its code, where it brings a descriptor; and one where it brings none. */
struct kind {
    uint32_t code, size, other, other_size, flags, no_flags;
};

static const struct kind requests = {SET_VRING_KICK, 8, GET_FEATURES, 0, REQUEST_FLAGS, 2};
static const struct kind replies = {POSTCOPY_ADVISE, 0, GET_FEATURES, 8, REPLY_FLAGS, 1};

/* Two such sockets, and their other ends. */
static int slow[2], far[2];

static void make_slow(void)
{
    for (int i = 0; i < 2; i++)
        slow[i] = slow_to_close(&far[i]);
}

/* They are nobody's else from now on. The second comes behind as many of the first as a message may have, or does not. */
static void leave_slow(bool is_second_sent)
{
    const struct linger off = {0, 0};
    if (!is_second_sent)
        setsockopt(slow[1], SOL_SOCKET, SO_LINGER, &off, sizeof off);
    close(slow[0]);
    close(slow[1]);
    has_waited();
}

static void close_far(void)
{
    close(far[0]);
    close(far[1]);
}

/* Sends a message with such a socket. */
static void say_slowly(int peer, const struct kind *kind, enum way way)
{
    static const uint8_t body[8];
    int fds[SYSTEM_MAX_FDS];
    for (size_t i = 0; i < SYSTEM_MAX_FDS; i++)
        fds[i] = slow[way == LOST ? i >= 32 : way == MOST && i == SYSTEM_MAX_FDS - 1];
    if (way == URGENT)
        say_urgently(peer, slow[0]);
    if (way == BEHIND)
        say_header(peer, kind->code, kind->no_flags, kind->size, NULL, 0);
    if (way == NOT_DUE)
        say_header(peer, kind->other, kind->flags, kind->other_size, fds, 1);
    else if (way == LATE)
        say_header(peer, kind->code, kind->flags, 8, NULL, 0);
    else
        say_header(peer, kind->code, way == MALFORMED ? kind->no_flags : kind->flags, way == HALF ? 8 : kind->size, fds,
                   way == LOST ? 33 : way == MOST ? SYSTEM_MAX_FDS : way == TOO_MANY ? 2 : way != URGENT);
    if (way == LATE || (way != HALF && way != MALFORMED && (way == NOT_DUE ? kind->other_size : kind->size) != 0))
        say(peer, body, 8, fds, way == LATE);
    if (way == REPLACED || way == ANOTHER)
        say_header(peer, kind->code, kind->flags, kind->size, fds, way == ANOTHER);
    leave_slow(way == LOST || way == MOST);
}

/* Nothing of this way waited. What is printed where it did is the way. */
#define EXPECT_NO_WAIT(way) EXPECT(-1, has_waited() ? (int)(way) : -1)

/* A service lets go of what came by its next call, by a reply, and by its end. */
static void service_never_waits(void)
{
    for (int way = 0; way < WAYS; way++)
        for (int is_hung_up = 0; is_hung_up < 2; is_hung_up++) {
            int peer = served_pair();
            make_slow();
            accept_features(peer, COVRETIN_PROTOCOL_REPLY_ACK);
            size_t before = open_fds() - 2;
            say_slowly(peer, &requests, (enum way)way);
            enum covretin_error error = covretin_next_call_nowait(&service, &call, &events);
            EXPECT_NO_WAIT(way);
            EXPECT(true, way != TAKEN || error == COVRETIN_OK);
            if (error == COVRETIN_OK && !is_hung_up) {
                EXPECT(COVRETIN_OK, covretin_reply_done(&service.backend));
                EXPECT(COVRETIN_OK, covretin_send_reply_nowait(&service, &events));
                EXPECT(before, open_fds());
                EXPECT_NO_WAIT(way);
            }
            if (way == REPLACED || is_hung_up == 0)
                covretin_next_call_nowait(&service, &call, &events);
            EXPECT_NO_WAIT(way);
            covretin_hang_up(&service);
            EXPECT(before - 1, open_fds());
            EXPECT_NO_WAIT(way);
            close_far();
            close(peer);
        }
}

/* A connection lets go of it at once, with the next reply that brings one, and by its end. */
static void connection_never_waits(void)
{
    for (int way = 0; way < WAYS; way++)
        for (int is_asked_again = 0; is_asked_again < 2; is_asked_again++) {
            int peer = pair_up(&device, 2);
            make_slow();
            negotiate(&device, peer, COVRETIN_PROTOCOL_PAGEFAULT);
            size_t before = open_fds() - 2;
            EXPECT(COVRETIN_OK, way == NOT_DUE ? covretin_ask_get_features(&device.session)
                                               : covretin_ask_postcopy_advise(&device.session));
            say_slowly(peer, &replies, (enum way)way);
            enum covretin_error error = covretin_exchange_nowait(&device, &events);
            EXPECT_NO_WAIT(way);
            EXPECT(true, way != TAKEN || error == COVRETIN_OK);
            if (is_asked_again && covretin_ask_postcopy_advise(&device.session) == COVRETIN_OK)
                covretin_exchange_nowait(&device, &events);
            EXPECT_NO_WAIT(way);
            covretin_disconnect(&device);
            EXPECT(before - 1, open_fds());
            EXPECT_NO_WAIT(way);
            close_far();
            close(peer);
        }
}

/* A channel's message that brings such a socket, which nobody on a channel is sent. */
static void say_on_channel(int peer, uint32_t code, uint32_t flags, uint32_t size)
{
    say_header(peer, code, flags, size, slow, 1);
    leave_slow(false);
}

static void asking_channel(int socket, int peer)
{
    EXPECT(COVRETIN_OK, covretin_channel_connect_fd(&vmm, socket));
    EXPECT(COVRETIN_OK, covretin_channel_set_reply_ack(&vmm.channel, true));
    EXPECT(COVRETIN_OK, covretin_channel_set_config_change(&vmm.channel, true));
    EXPECT(COVRETIN_OK, covretin_channel_ask_config_change(&vmm.channel));
    say_on_channel(peer, CONFIG_CHANGE, REPLY_FLAGS, 8);
    EXPECT(COVRETIN_NOT_YET, covretin_channel_exchange_nowait(&vmm, &events));
    covretin_channel_disconnect(&vmm);
}

static void serving_channel(int socket, int peer)
{
    uint32_t asked;
    EXPECT(COVRETIN_OK, covretin_channel_serve_fd(&asker, socket));
    say_on_channel(peer, CONFIG_CHANGE, REQUEST_FLAGS, 0);
    EXPECT(COVRETIN_INVALID_MESSAGE, covretin_channel_next_call_nowait(&asker, &asked, &events));
    covretin_channel_hang_up(&asker);
}

static void display_channel(int socket, int peer)
{
    EXPECT(COVRETIN_OK, covretin_display_connect_fd(&screen, socket));
    EXPECT(COVRETIN_OK, covretin_display_ask_get_protocol_features(&screen.display));
    say_on_channel(peer, GET_DISPLAY_FEATURES, 4, 8);
    EXPECT(COVRETIN_NOT_YET, covretin_display_exchange_nowait(&screen, &events));
    covretin_display_disconnect(&screen);
}

static void channels_never_wait(void)
{
    void (*const channels[])(int socket, int peer) = {asking_channel, serving_channel, display_channel};
    for (size_t i = 0; i < sizeof channels / sizeof channels[0]; i++) {
        int ends[2];
        if (socketpair(AF_UNIX, SOCK_STREAM | SOCK_CLOEXEC, 0, ends))
            give_up("socketpair");
        make_slow();
        channels[i](ends[0], ends[1]);
        EXPECT_NO_WAIT(i);
        close_far();
        close(ends[1]);
    }
}

/* What a frontend sent who was never accepted goes with the listener. */
static void listener_never_waits(void)
{
    struct sockaddr_un address = {AF_UNIX, "given.socket"};
    covretin_listener listener = {NULL};
    int peers[3];
    EXPECT(COVRETIN_OK, covretin_listen(&listener, address.sun_path));
    for (int i = 0; i < 3; i++) {
        peers[i] = socket(AF_UNIX, SOCK_STREAM | SOCK_CLOEXEC, 0);
        if (peers[i] < 0 || connect(peers[i], (struct sockaddr *)&address, sizeof address))
            give_up("connect");
    }
    make_slow();
    say_slowly(peers[1], &requests, TAKEN);
    covretin_unlisten(&listener);
    EXPECT_NO_WAIT(0);
    for (int i = 0; i < 3; i++)
        close(peers[i]);
    close_far();
}

/* -- Who has the socket, too -- */

/* A service that did not end is hung up on in one process, and goes on in another. */
static void leaves_the_socket_to_others(void)
{
    struct request reply;
    uint32_t index;
    int32_t kick = -1;
    int peer = served_pair(), file = file_of("kick"), copy = dup(covretin_service_fd(&service));
    request(peer, SET_VRING_KICK, REQUEST_FLAGS, "\0\0\0\0\0\0\0\0", 8, &file, 1);
    request(peer, GET_FEATURES, REQUEST_FLAGS, NULL, 0, NULL, 0);
    covretin_hang_up(&service);
    EXPECT(COVRETIN_OK, covretin_serve_fd(&service, copy));
    expect_call(COVRETIN_CALL_SET_VRING_KICK);
    EXPECT(COVRETIN_OK, covretin_call_ring_fd(&service.backend, &index, &kick));
    EXPECT(true, holds(kick, "kick"));
    EXPECT(COVRETIN_OK, covretin_reply_done(&service.backend));
    expect_call(COVRETIN_CALL_GET_FEATURES);
    EXPECT(COVRETIN_OK, covretin_reply_number(&service.backend, 1));
    EXPECT(COVRETIN_OK, covretin_send_reply(&service, LIMIT));
    EXPECT(true, hear(peer, &reply));
    EXPECT(GET_FEATURES, reply.code);
    covretin_hang_up(&service);
    close(file);
    close(peer);
}

int main(void)
{
    RUN(told_of_senders);
    RUN(counts_descriptors);
    RUN(counts_descriptors_of_replies);
    RUN(service_never_waits);
    RUN(connection_never_waits);
    RUN(channels_never_wait);
    RUN(listener_never_waits);
    RUN(leaves_the_socket_to_others);
    return status();
}
