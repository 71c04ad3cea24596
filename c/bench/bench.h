/* SPDX-License-Identifier: Apache-2.0 */
/* What the parts of the benchmark share. */
#ifndef BENCH_H
#define BENCH_H

#include "covretin_backend.h"

/* How often something was done and succeeded, and how long all of it took. */
struct taken {
    long good;
    double nanoseconds;
};

/* Does something so often. */
typedef struct taken work(long count);

/* Ends the program: memory, a socket or a clock failed. */
_Noreturn void fail(const char *what);

/* Nanoseconds of a clock that only goes on. */
double now(void);

/* How many messages wait at a time, and how many bytes of the configuration space are read. */
enum { QUEUED = 100, CONFIG = 256 };

/* Of how many sessions the memory is counted. */
enum { SESSIONS = 100 };

/* What both sides agree on: features of virtio, and the protocol features CONFIG and REPLY_ACK. */
enum { FEATURES = 0x40000003, PROTOCOL_FEATURES = 0x208 };

/* Messages: GET_FEATURES; its reply; SET_VRING_NUM of ring 0 to 256, and the same to be acknowledged; its acknowledgement. */
extern const uint8_t get_features[12], features_reply[20], set_vring_num[20], acknowledged[20], acknowledgement[20];

/* A GET_CONFIG of 256 bytes, and its reply. */
extern const uint8_t get_config[24 + CONFIG], config_reply[24 + CONFIG];

/* The device: accepts each call at once, so that what is measured is not the device's. */
enum covretin_error accept_call(covretin_backend *backend, uint32_t call);

/* The figures of sessions, without a socket. */
work backend_get_features, backend_set_vring_num, backend_acknowledged, backend_get_config_256;
work frontend_get_features, frontend_set_vring_num, frontend_acknowledged, frontend_get_config_256;
work both_get_features, both_get_config_256, both_set_mem_table_8;

/* Of a queue that sees 32 regions: a chain of eight descriptors in one, and each in another. */
work queue_chain_8, queue_chain_8_apart;

/* Those over sockets. */
work service_queued, service_trip, service_session, connection_session, threads_get_features, threads_acknowledged, threads_get_config_256;

/* Shows the bytes of memory that a frontend and a backend have asked for. */
void show_bytes(void);

/* What the same bytes cost alone. */
work copy_message, socket_read, socket_read_apart, socket_recvmsg, socket_recvmsg_apart, socket_trip, threads_trip;

/* Those of a backend that listens at this path. */
extern const char *at_path;
work at_trip, at_queued;

#endif
