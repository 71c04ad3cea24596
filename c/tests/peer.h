/* A backend that a test plays by hand, at the other end of a connection's socket. */
#ifndef PEER_H
#define PEER_H

#include "covretin_socket.h"

#include <sys/types.h>

enum {
    /* generated from protocol/requests.toml: codes */
    GET_FEATURES = 1,
    SET_FEATURES = 2,
    SET_OWNER = 3,
    RESET_OWNER = 4,
    SET_MEM_TABLE = 5,
    SET_LOG_BASE = 6,
    SET_LOG_FD = 7,
    SET_VRING_NUM = 8,
    SET_VRING_ADDR = 9,
    SET_VRING_BASE = 10,
    GET_VRING_BASE = 11,
    SET_VRING_KICK = 12,
    SET_VRING_CALL = 13,
    SET_VRING_ERR = 14,
    GET_PROTOCOL_FEATURES = 15,
    SET_PROTOCOL_FEATURES = 16,
    GET_QUEUE_NUM = 17,
    SET_VRING_ENABLE = 18,
    SEND_RARP = 19,
    NET_SET_MTU = 20,
    SET_BACKEND_REQ_FD = 21,
    IOTLB_MSG = 22,
    SET_VRING_ENDIAN = 23,
    GET_CONFIG = 24,
    SET_CONFIG = 25,
    CREATE_CRYPTO_SESSION = 26,
    CLOSE_CRYPTO_SESSION = 27,
    POSTCOPY_ADVISE = 28,
    POSTCOPY_LISTEN = 29,
    POSTCOPY_END = 30,
    GET_INFLIGHT_FD = 31,
    SET_INFLIGHT_FD = 32,
    GPU_SET_SOCKET = 33,
    RESET_DEVICE = 34,
    VRING_KICK = 35,
    GET_MAX_MEM_SLOTS = 36,
    ADD_MEM_REG = 37,
    REM_MEM_REG = 38,
    SET_STATUS = 39,
    GET_STATUS = 40,
    GET_SHARED_OBJECT = 41,
    SET_DEVICE_STATE_FD = 42,
    CHECK_DEVICE_STATE = 43,
    GET_SHMEM_CONFIG = 44,
    /* end */
    REPLY_FLAGS = 5, /* version 1, and that it is a reply */
    SYSTEM_MAX_FDS = 253 /* as many descriptors as the system passes by one message */
};

/* A connection over a pair of sockets; the other end of it. */
int pair_up(covretin_connection *connection, uint64_t max_queue_num);

/* Sends bytes, with descriptors on the first of them. */
void say(int peer, const void *bytes, size_t count, const int *fds, size_t fd_count);

/* Sends a byte out of band, with a descriptor. */
void say_urgently(int peer, int fd);

/* Sends a header. */
void say_header(int peer, uint32_t code, uint32_t flags, uint32_t size, const int *fds, size_t fd_count);

/* Sends a reply with such a body, and descriptors on its first byte. */
void reply(int peer, uint32_t code, const void *body, size_t size, const int *fds, size_t fd_count);
void reply_number(int peer, uint32_t code, uint64_t number);

/* Receives all of these bytes, and how many descriptors came along, which are closed. False at the end of the stream. */
bool hear_bytes(int peer, uint8_t *bytes, size_t count, size_t *fd_count);

/* A request as it came. Its descriptors are closed. */
struct request {
    uint32_t code, flags, size;
    uint8_t body[4096];
    size_t fd_count;
};

/* Receives the next request. False at the end of the stream. */
bool hear(int peer, struct request *request);

/* Negotiates over a pair of sockets: the backend offers these protocol features, and all of them are accepted. */
void negotiate(covretin_connection *connection, int peer, uint64_t protocol_features);

/* A file without a name that holds this text. */
int file_of(const char *text);

/* Whether a descriptor's file begins with this text. */
bool holds(int fd, const char *text);

/* A socket whose close waits for three seconds, since its bytes cannot be sent while *far is open, the other end. */
int slow_to_close(int *far);

/* Has the system tell all that it can of whoever sends to this socket. Whether it tells his process, which some systems do not. */
bool tell_all(int socket);

#endif
