/* Backends that mean harm, or die: no file of the program's own is ever named, and no descriptor is left open. Each test is
 * also one of the count of open descriptors around it. */
#ifndef _GNU_SOURCE
#define _GNU_SOURCE
#endif

#include "peer.h"
#include "testing.h"

#include <errno.h>
#include <signal.h>
#include <stdlib.h>
#include <string.h>
#include <sys/resource.h>
#include <sys/socket.h>
#include <sys/un.h>
#include <sys/wait.h>
#include <unistd.h>

enum { LIMIT = 20000 }; /* milliseconds */

static covretin_connection device;
static covretin_session *const session = &device.session;

static const covretin_inflight asked = {.num_queues = 1, .queue_size = 64};
static const uint8_t inflight[24] = {0, 16, [16] = 1, [18] = 64};

/* Asks for the features, of which a backend replies what it will. What the exchange answers. */
static enum covretin_error ask_features(void)
{
    EXPECT(COVRETIN_OK, covretin_ask_get_features(session));
    return covretin_exchange(&device, LIMIT);
}

/* Each further exchange answers the same. */
static void expect_broken(enum covretin_error error)
{
    short events;
    EXPECT(error, covretin_exchange(&device, LIMIT));
    EXPECT(error, covretin_exchange_nowait(&device, &events));
    covretin_ask_set_owner(session);
    EXPECT(error, covretin_exchange(&device, LIMIT));
}

/* -- A reply that is lengthened -- */

/* The reply of get_features is lengthened by one to postcopy_advise, with a descriptor. Whatever is replied later, the
 * number that this descriptor had is not named once the program has opened a file of its own there. */
static void never_names_a_file_of_its_own(void)
{
    int peer = pair_up(&device, 2), sent = file_of("the backend's"), own;
    int32_t fd = -1;
    negotiate(&device, peer, COVRETIN_PROTOCOL_PAGEFAULT);
    say_header(peer, GET_FEATURES, REPLY_FLAGS, 20, NULL, 0);
    say(peer, "\0\0\0\100\0\0\0\0", 8, NULL, 0);
    say_header(peer, POSTCOPY_ADVISE, REPLY_FLAGS, 0, &sent, 1);
    enum covretin_error error = ask_features();
    own = file_of("the program's own");
    EXPECT(COVRETIN_INVALID_MESSAGE, error);
    EXPECT(COVRETIN_OK, covretin_ask_postcopy_advise(session));
    say_header(peer, POSTCOPY_ADVISE, REPLY_FLAGS, 0, NULL, 0);
    EXPECT(COVRETIN_INVALID_MESSAGE, covretin_exchange(&device, LIMIT));
    EXPECT(COVRETIN_OTHER_ANSWER, covretin_answer_fd(session, &fd));
    EXPECT(COVRETIN_OTHER_ANSWER, covretin_claim_fd(&device, &fd));
    EXPECT(-1, fd);
    covretin_disconnect(&device);
    EXPECT(true, holds(own, "the program's own"));
    close(own);
    close(sent);
    close(peer);
}

/* What comes behind a reply is not read with it, also where the reply is refused: it is still in the socket. */
static void reads_no_further(void)
{
    char left[64];
    int peer = pair_up(&device, 2);
    say_header(peer, GET_FEATURES, REPLY_FLAGS, 8 + 30, NULL, 0);
    say(peer, "\0\0\0\100\0\0\0\0and more bytes than a reply to this call has", 8 + 30 + 12, NULL, 0);
    EXPECT(COVRETIN_INVALID_MESSAGE, ask_features());
    EXPECT(true, recv(covretin_connection_fd(&device), left, sizeof left, MSG_DONTWAIT) >= 12);
    expect_broken(COVRETIN_INVALID_MESSAGE);
    covretin_disconnect(&device);
    close(peer);
}

/* A whole reply, and then bytes that nobody asked for: the call succeeds, and these wait in the socket. */
static void leaves_what_comes_unasked(void)
{
    int peer = pair_up(&device, 2);
    reply_number(peer, GET_FEATURES, 5);
    reply_number(peer, GET_FEATURES, 6);
    EXPECT(COVRETIN_OK, ask_features());
    EXPECT(COVRETIN_OK, covretin_ask_set_owner(session));
    EXPECT(COVRETIN_OK, covretin_exchange(&device, LIMIT));
    EXPECT(COVRETIN_OK, covretin_ask_get_vring_base(session, 0));
    EXPECT(COVRETIN_INVALID_MESSAGE, covretin_exchange(&device, LIMIT));
    covretin_disconnect(&device);
    close(peer);
}

/* An acknowledgement of a longer request, and bytes behind it in the same piece: the call succeeds, and the connection has ended. */
static void awaits_nothing_behind_a_reply(void)
{
    const uint8_t config[64] = {0}, behind[40] = {SET_CONFIG, [4] = REPLY_FLAGS, [8] = 8, [20] = GET_FEATURES, [24] = REPLY_FLAGS, [28] = 8};
    int peer = pair_up(&device, 2);
    negotiate(&device, peer, COVRETIN_PROTOCOL_CONFIG | COVRETIN_PROTOCOL_REPLY_ACK);
    EXPECT(COVRETIN_OK, covretin_set_hdr_flags(session, COVRETIN_NEED_REPLY));
    EXPECT(COVRETIN_OK, covretin_ask_set_config(session, 0, 0, config, sizeof config));
    say(peer, behind, sizeof behind, NULL, 0);
    EXPECT(COVRETIN_OK, covretin_exchange(&device, LIMIT));
    EXPECT(COVRETIN_INVALID_MESSAGE, ask_features());
    expect_broken(COVRETIN_INVALID_MESSAGE);
    covretin_disconnect(&device);
    close(peer);
}

/* A reply with neither descriptor nor body, and both behind it: no file of theirs is named. */
static void names_nothing_from_behind_a_reply(void)
{
    const uint8_t reply[12] = {GET_SHARED_OBJECT, [4] = REPLY_FLAGS}, behind[16] = {0};
    int peer = pair_up(&device, 2), sent = file_of("the backend's");
    int32_t fd = -1;
    negotiate(&device, peer, COVRETIN_PROTOCOL_SHARED_OBJECT);
    EXPECT(COVRETIN_OK, covretin_ask_get_shared_object(session, (const uint8_t[16]){1}, 16));
    say(peer, reply, sizeof reply, NULL, 0);
    say(peer, behind, sizeof behind, &sent, 1);
    EXPECT(COVRETIN_INVALID_MESSAGE, covretin_exchange(&device, LIMIT));
    EXPECT(COVRETIN_OTHER_ANSWER, covretin_claim_fd(&device, &fd));
    expect_broken(COVRETIN_INVALID_MESSAGE);
    covretin_disconnect(&device);
    close(sent);
    close(peer);
}

/* -- Descriptors -- */

/* Replies with descriptors that are due to nobody: too many, where none may be, on later bytes, with a refusal. */
static void closes_what_nobody_takes(void)
{
    int fds[32], peer = pair_up(&device, 2);
    int32_t fd = -1;
    for (size_t i = 0; i < 32; i++)
        fds[i] = file_of("stray");
    negotiate(&device, peer, COVRETIN_PROTOCOL_INFLIGHT_SHMFD | COVRETIN_PROTOCOL_DEVICE_STATE);
    size_t before = open_fds();
    for (int i = 0; i < 20; i++) { /* refused replies */
        EXPECT(COVRETIN_OK, covretin_ask_get_inflight_fd(session, &asked));
        reply(peer, GET_INFLIGHT_FD, inflight, sizeof inflight, fds, i < 19 ? 3 : 32);
        EXPECT(COVRETIN_INCORRECT_FDS, covretin_exchange(&device, LIMIT));
        EXPECT(before, open_fds());
    }
    for (int i = 0; i < 20; i++) { /* on later bytes they have no meaning */
        say(peer, "\1", 1, NULL, 0);
        EXPECT(COVRETIN_OK, covretin_ask_get_features(session));
        EXPECT(COVRETIN_TIMED_OUT, covretin_exchange(&device, 0));
        say(peer, "\0\0\0\5\0\0\0\10\0\0\0", 11, fds, 3);
        EXPECT(COVRETIN_TIMED_OUT, covretin_exchange(&device, 0));
        EXPECT(before, open_fds());
        say(peer, "\0\0\0\100\0\0\0\0", 8, fds, 32);
        EXPECT(COVRETIN_OK, covretin_exchange(&device, LIMIT));
        EXPECT(before, open_fds());
    }
    EXPECT(COVRETIN_OK, covretin_ask_set_device_state_fd(session, 0, 0, fds[0]));
    reply(peer, SET_DEVICE_STATE_FD, "\1\1\0\0\0\0\0\0", 8, fds, 1);
    EXPECT(COVRETIN_BACKEND_INTERNAL_ERROR, covretin_exchange(&device, LIMIT));
    EXPECT(before, open_fds());
    reply(peer, GET_FEATURES, "\0\0\0\100\0\0\0\0", 8, fds, 1);
    EXPECT(COVRETIN_INVALID_MESSAGE, ask_features());
    EXPECT(before, open_fds());
    EXPECT(COVRETIN_OTHER_ANSWER, covretin_claim_fd(&device, &fd));
    covretin_disconnect(&device);
    for (size_t i = 0; i < 32; i++)
        close(fds[i]);
    close(peer);
}

/* Of the descriptors of a reply the one that it names is handed over, and it is the one that was sent. */
static void hands_over_what_was_sent(void)
{
    int file = file_of("sent"), peer = pair_up(&device, 2);
    int32_t fd = -1;
    negotiate(&device, peer, COVRETIN_PROTOCOL_DEVICE_STATE);
    EXPECT(COVRETIN_OK, covretin_ask_set_device_state_fd(session, 0, 0, file));
    reply_number(peer, SET_DEVICE_STATE_FD, 0x100);
    EXPECT(COVRETIN_OK, covretin_exchange(&device, LIMIT));
    EXPECT(COVRETIN_OTHER_ANSWER, covretin_claim_fd(&device, &fd));
    EXPECT(COVRETIN_OK, covretin_ask_set_device_state_fd(session, 0, 0, file));
    reply(peer, SET_DEVICE_STATE_FD, "\0\0\0\0\0\0\0\0", 8, &file, 1);
    EXPECT(COVRETIN_OK, covretin_exchange(&device, LIMIT));
    EXPECT(COVRETIN_OK, covretin_claim_fd(&device, &fd));
    EXPECT(true, fd != file && holds(fd, "sent"));
    close(fd);
    covretin_disconnect(&device);
    close(file);
    close(peer);
}

/* More descriptors than a message has: the system drops some. */
static void more_than_a_message_has(void)
{
    int fds[60], peer = pair_up(&device, 2);
    for (size_t i = 0; i < 60; i++)
        fds[i] = file_of("one of sixty");
    negotiate(&device, peer, COVRETIN_PROTOCOL_INFLIGHT_SHMFD);
    size_t before = open_fds();
    EXPECT(COVRETIN_OK, covretin_ask_get_inflight_fd(session, &asked));
    reply(peer, GET_INFLIGHT_FD, inflight, sizeof inflight, fds, 60);
    EXPECT(COVRETIN_FDS_LOST, covretin_exchange(&device, LIMIT));
    EXPECT(before, open_fds());
    expect_broken(COVRETIN_FDS_LOST);
    covretin_disconnect(&device);
    for (size_t i = 0; i < 60; i++)
        close(fds[i]);
    close(peer);
}

/* The process may open no more: a descriptor of the reply is lost. */
static void more_than_the_process_may_open(void)
{
    struct rlimit was, now;
    int file = file_of("lost"), peer = pair_up(&device, 2);
    negotiate(&device, peer, COVRETIN_PROTOCOL_INFLIGHT_SHMFD);
    EXPECT(COVRETIN_OK, covretin_ask_get_inflight_fd(session, &asked));
    reply(peer, GET_INFLIGHT_FD, inflight, sizeof inflight, &file, 1);
    getrlimit(RLIMIT_NOFILE, &was);
    now = was;
    now.rlim_cur = (rlim_t)file;
    setrlimit(RLIMIT_NOFILE, &now);
    enum covretin_error error = covretin_exchange(&device, LIMIT);
    setrlimit(RLIMIT_NOFILE, &was);
    EXPECT(COVRETIN_FDS_LOST, error);
    covretin_disconnect(&device);
    close(file);
    close(peer);
}

/* -- Headers -- */

static void refuses_headers(void)
{
    static const uint32_t headers[][3] = {
        {GET_FEATURES, 1, 8},           /* no reply */
        {GET_FEATURES, 6, 8},           /* version 2 */
        {GET_FEATURES, 0x105, 8},       /* an unknown flag */
        {SET_OWNER, 5, 8},              /* of another request */
        {0, 5, 8},                      /* of none */
        {GET_FEATURES, 5, 0},           /* too short */
        {GET_FEATURES, 5, 7},
        {GET_FEATURES, 5, 9},           /* too long */
        {GET_FEATURES, 5, 4096},
        {GET_FEATURES, 5, 4097},        /* longer than a message */
        {GET_FEATURES, 5, 0xffffffff},
    };
    static const uint8_t body[4096];
    for (size_t i = 0; i < sizeof headers / sizeof headers[0]; i++) {
        int peer = pair_up(&device, 2);
        uint64_t number = 5;
        say_header(peer, headers[i][0], headers[i][1], headers[i][2], NULL, 0);
        if (headers[i][2] != 0)
            say(peer, body, headers[i][2] < sizeof body ? headers[i][2] : sizeof body, NULL, 0);
        enum covretin_error error = ask_features();
        EXPECT(COVRETIN_INVALID_MESSAGE, error);
        EXPECT(COVRETIN_OTHER_ANSWER, covretin_answer_number(session, &number));
        EXPECT(5, number);
        expect_broken(error);
        covretin_disconnect(&device);
        close(peer);
    }
}

/* -- A backend that ends -- */

/* It ends before the request, before the reply, or after so many bytes of it: an error and no more. */
static void backend_ends(void)
{
    for (size_t sent = 0; sent < 20; sent++) {
        int peer = pair_up(&device, 2);
        say(peer, "\1\0\0\0\5\0\0\0\10\0\0\0\0\0\0\0\0\0\0", sent, NULL, 0);
        if (sent % 2 == 0)
            shutdown(peer, SHUT_WR); /* it reads on */
        else
            close(peer);
        EXPECT(COVRETIN_DISCONNECTED, ask_features());
        expect_broken(COVRETIN_DISCONNECTED);
        covretin_disconnect(&device);
        if (sent % 2 == 0)
            close(peer);
    }
}

/* A backend in a process of its own, which accepts one frontend. It gives an inflight region, or is given one; it is killed
 * amid the call of set_owner. */
static pid_t start_backend(int listener, bool gives)
{
    struct request request;
    pid_t child = fork();
    if (child < 0)
        give_up("fork");
    if (child != 0)
        return child;
    int peer = accept(listener, NULL, NULL);
    while (hear(peer, &request)) {
        int file = file_of("in flight");
        if (request.code == GET_FEATURES)
            reply_number(peer, GET_FEATURES, COVRETIN_FEATURE_PROTOCOL_FEATURES);
        else if (request.code == GET_INFLIGHT_FD && gives)
            reply(peer, GET_INFLIGHT_FD, inflight, sizeof inflight, &file, 1);
        else if (request.code == SET_INFLIGHT_FD)
            reply_number(peer, SET_INFLIGHT_FD, memcmp(request.body, inflight, sizeof inflight) != 0 || request.fd_count != 1);
        else if (request.code == SET_OWNER)
            raise(SIGKILL);
        close(file);
    }
    _exit(0);
}

/* Connects to a backend, and accepts what an inflight region needs. */
static void set_up(void)
{
    EXPECT(COVRETIN_OK, covretin_connect(&device, "backend.socket", 2, LIMIT));
    EXPECT(COVRETIN_OK, ask_features());
    EXPECT(COVRETIN_OK, covretin_ask_set_protocol_features(session, COVRETIN_PROTOCOL_REPLY_ACK | COVRETIN_PROTOCOL_INFLIGHT_SHMFD));
    EXPECT(COVRETIN_OK, covretin_exchange(&device, LIMIT));
    EXPECT(COVRETIN_OK, covretin_set_hdr_flags(session, COVRETIN_NEED_REPLY));
}

/* A backend is killed amid a call; another is connected to in its place, and given the inflight region of the first. */
static void connects_again(void)
{
    struct sockaddr_un address = {AF_UNIX, "backend.socket"};
    covretin_inflight given;
    int32_t lent = -1, fd = -1;
    int listener = socket(AF_UNIX, SOCK_STREAM | SOCK_CLOEXEC, 0);
    unlink(address.sun_path);
    if (bind(listener, (struct sockaddr *)&address, sizeof address) || listen(listener, 1))
        give_up(address.sun_path);
    pid_t child = start_backend(listener, true);
    set_up();
    EXPECT(COVRETIN_OK, covretin_ask_get_inflight_fd(session, &asked));
    EXPECT(COVRETIN_OK, covretin_exchange(&device, LIMIT));
    EXPECT(COVRETIN_OK, covretin_answer_inflight(session, &given, &lent));
    EXPECT(COVRETIN_OK, covretin_claim_fd(&device, &fd));
    EXPECT(COVRETIN_OK, covretin_ask_set_owner(session));
    EXPECT(COVRETIN_DISCONNECTED, covretin_exchange(&device, LIMIT));
    covretin_disconnect(&device);
    EXPECT(child, waitpid(child, NULL, 0));

    child = start_backend(listener, false);
    set_up();
    EXPECT(COVRETIN_OK, covretin_ask_set_inflight_fd(session, &given, fd));
    EXPECT(COVRETIN_OK, covretin_exchange(&device, LIMIT));
    EXPECT(true, holds(fd, "in flight"));
    close(fd);
    covretin_disconnect(&device);
    EXPECT(child, waitpid(child, NULL, 0));
    close(listener);
    unlink(address.sun_path);
}

/* -- Anything -- */

static int far_ends[6]; /* of the sockets whose close would wait */
static size_t far_count;

static uint32_t random_state = 2026;

static uint32_t any(uint32_t below)
{
    random_state = random_state * 1664525 + 1013904223;
    return (random_state >> 8) % below;
}

/* A call, and what its reply is. */
struct call {
    uint32_t code, size;
    enum covretin_error (*ask)(void);
};

static enum covretin_error get_features(void)
{
    return covretin_ask_get_features(session);
}

static enum covretin_error get_inflight_fd(void)
{
    return covretin_ask_get_inflight_fd(session, &asked);
}

static enum covretin_error get_shared_object(void)
{
    return covretin_ask_get_shared_object(session, (const uint8_t *)"0123456789abcdef", 16);
}

static enum covretin_error postcopy_advise(void)
{
    return covretin_ask_postcopy_advise(session);
}

static const struct call calls[] = {{GET_FEATURES, 8, get_features},
                                    {GET_INFLIGHT_FD, 24, get_inflight_fd},
                                    {GET_SHARED_OBJECT, 0, get_shared_object},
                                    {POSTCOPY_ADVISE, 0, postcopy_advise}};

/* Sends a header, of whose descriptors the second may be of a socket whose close would wait, and is nobody's else then. */
static void say_slowly(int peer, uint32_t code, uint32_t flags, uint32_t size, int *fds, size_t fd_count)
{
    int file = fds[1];
    bool is_slow = fd_count > 1 && any(4) == 0;
    if (is_slow)
        fds[1] = slow_to_close(&far_ends[far_count++]);
    say_header(peer, code, flags, size, fds, fd_count);
    if (is_slow)
        close(fds[1]);
    fds[1] = file;
}

/* Sends a reply to a call, or something like it: each part of it may be another's, or none. */
static void say_anything(int peer, const struct call *call, int *fds)
{
    static const uint32_t sizes[] = {0, 7, 8, 9, 24, 40, 4096, 4097, 0xffffffff};
    const struct call *other = &calls[any(4)];
    uint8_t bytes[256] = {0, 16, [16] = 1, [18] = 64};
    size_t count = any(4) != 0 ? call->size : any(sizeof bytes);
    for (size_t i = 20; i < sizeof bytes; i++)
        bytes[i] = (uint8_t)any(256);
    if (any(16) != 0)
        say_slowly(peer, any(6) != 0 ? call->code : other->code, any(16) != 0 ? REPLY_FLAGS : any(16),
                   any(4) != 0 ? call->size : sizes[any(9)], fds, any(3) == 0 ? any(34) : 1);
    if (count != 0)
        say(peer, bytes, count, fds, any(6) == 0 ? any(34) : 0);
}

/* Backends that send anything, in any pieces, with any descriptors: what is claimed is a file that was sent, nothing waits, and after
 * each connection as many descriptors are open as before. Of some the system tells all that it can. */
static void anything(void)
{
    int fds[33], claimed = 0, refused = 0;
    for (size_t i = 0; i < 33; i++)
        fds[i] = file_of("sent");
    for (int round = 0; round < 2000; round++) {
        size_t before = open_fds();
        int peer = pair_up(&device, 2);
        negotiate(&device, peer, COVRETIN_ASKED_PROTOCOL_FEATURES);
        if (any(4) == 0)
            tell_all(covretin_connection_fd(&device));
        has_waited();
        for (int call = 0; call < 6; call++) {
            const struct call *asked_call = &calls[any(4)];
            int32_t fd = -1;
            asked_call->ask();
            say_anything(peer, asked_call, fds);
            if (covretin_exchange(&device, 0) != COVRETIN_OK)
                refused++;
            else if (covretin_claim_fd(&device, &fd) == COVRETIN_OK) {
                EXPECT(true, holds(fd, "sent"));
                close(fd);
                claimed++;
            }
        }
        covretin_disconnect(&device);
        EXPECT(false, has_waited());
        while (far_count != 0)
            close(far_ends[--far_count]);
        close(peer);
        EXPECT(before, open_fds());
    }
    EXPECT(true, claimed > 100 && refused > 1000);
    for (size_t i = 0; i < 33; i++)
        close(fds[i]);
}

int main(void)
{
    RUN(never_names_a_file_of_its_own);
    RUN(reads_no_further);
    RUN(leaves_what_comes_unasked);
    RUN(awaits_nothing_behind_a_reply);
    RUN(names_nothing_from_behind_a_reply);
    RUN(closes_what_nobody_takes);
    RUN(hands_over_what_was_sent);
    RUN(more_than_a_message_has);
    RUN(more_than_the_process_may_open);
    RUN(refuses_headers);
    RUN(backend_ends);
    RUN(connects_again);
    RUN(anything);
    return status();
}
