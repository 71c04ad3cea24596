/* A service whose frontend a test plays by hand, at the other end of its socket. */
#ifndef BY_HAND_H
#define BY_HAND_H

#include "covretin_backend_socket.h"
#include "peer.h"

enum {
    LIMIT = 20000,     /* milliseconds, where a test is not about time */
    REQUEST_FLAGS = 1, /* version 1 */
    NEED_REPLY = 9
};

extern covretin_service service;
extern uint32_t call; /* what was asked of the device last */

/* Serves one end of a pair of sockets; the other is the frontend's. */
int served_pair(void);

/* Sends a request with such a body, and descriptors on its first byte. */
void request(int peer, uint32_t code, uint32_t flags, const void *body, size_t size, const int *fds, size_t fd_count);

/* The next request asks this of the device. */
void expect_call(uint32_t want);

/* The frontend accepts these protocol features. */
void accept_features(int peer, uint64_t features);

#endif
