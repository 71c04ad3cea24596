#ifndef _GNU_SOURCE
#define _GNU_SOURCE
#endif

#include "by_hand.h"
#include "testing.h"

#include <sys/socket.h>

covretin_service service;
uint32_t call;

int served_pair(void)
{
    int ends[2];
    if (socketpair(AF_UNIX, SOCK_STREAM | SOCK_CLOEXEC, 0, ends))
        give_up("socketpair");
    EXPECT(COVRETIN_OK, covretin_serve_fd(&service, ends[0]));
    return ends[1];
}

void request(int peer, uint32_t code, uint32_t flags, const void *body, size_t size, const int *fds, size_t fd_count)
{
    say_header(peer, code, flags, (uint32_t)size, fds, fd_count);
    if (size != 0)
        say(peer, body, size, NULL, 0);
}

void expect_call(uint32_t want)
{
    call = 0;
    EXPECT(COVRETIN_OK, covretin_next_call(&service, &call, LIMIT));
    EXPECT(want, call);
}

void accept_features(int peer, uint64_t features)
{
    uint64_t all = COVRETIN_FEATURE_PROTOCOL_FEATURES;
    struct request reply;
    request(peer, GET_FEATURES, REQUEST_FLAGS, NULL, 0, NULL, 0);
    expect_call(COVRETIN_CALL_GET_FEATURES);
    EXPECT(COVRETIN_OK, covretin_reply_number(&service.backend, all));
    EXPECT(COVRETIN_OK, covretin_send_reply(&service, LIMIT));
    request(peer, SET_FEATURES, REQUEST_FLAGS, &all, sizeof all, NULL, 0);
    expect_call(COVRETIN_CALL_SET_FEATURES);
    EXPECT(COVRETIN_OK, covretin_reply_done(&service.backend));
    request(peer, GET_PROTOCOL_FEATURES, REQUEST_FLAGS, NULL, 0, NULL, 0);
    expect_call(COVRETIN_CALL_GET_PROTOCOL_FEATURES);
    EXPECT(COVRETIN_OK, covretin_reply_number(&service.backend, features));
    request(peer, SET_PROTOCOL_FEATURES, REQUEST_FLAGS, &features, sizeof features, NULL, 0);
    expect_call(COVRETIN_CALL_SET_PROTOCOL_FEATURES);
    EXPECT(COVRETIN_OK, covretin_reply_done(&service.backend));
    EXPECT(true, hear(peer, &reply));
    EXPECT(true, hear(peer, &reply));
}
