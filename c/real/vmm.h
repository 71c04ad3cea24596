/* SPDX-License-Identifier: Apache-2.0 */
/* What a VMM writes once over covretin_socket.h, for all of its devices: calls that have to succeed, the
 * negotiation, memory, rings. Each prints a line for a call. One that fails ends the program with status 1. */
#ifndef VMM_H
#define VMM_H

#include "covretin_socket.h"
#include "virtqueue.h"

#define FEATURE_VERSION_1 ((uint64_t)1 << 32)

/* Milliseconds for a call, and for what a device does: as long as it takes. Whoever runs the program limits it, by what is done
 * meanwhile, and ends it by SIGTERM. It then says what it waited for, and its status is 1. */
enum { LIMIT = -1, MOST_RINGS = 8 };

/* What is waited for from now on. */
void await(const char *what);

/* The device's connection, and its session. */
extern covretin_connection device;
#define SESSION (&device.session)

/* Ends the program with status 1 where this does not hold: says which. */
void check(bool holds, const char *what);

/* How many descriptors this program has open: none is left at its end that was not there before. */
size_t descriptor_count(void);

/* Connects to the backend at a path, once it listens there. */
void connect_to(const char *path);

/* How a call ended: its ask, and where that succeeded, its exchange. */
enum covretin_error outcome(const char *name, enum covretin_error error);

/* A call that has to succeed, and one whose reply is a number. */
void done(const char *name, enum covretin_error error);
uint64_t number(const char *name, enum covretin_error error);

/* Accepts what is offered of these virtio features, of version 1, and of all protocol features that the library asks for;
 * and the protocol features `unoffered` in any case. Each call is acknowledged from then on, where the backend can do that. */
void negotiate(uint64_t features, uint64_t unoffered);

/* The region that a memory is for the backend, and the table of this one. */
covretin_region region_of(const struct memory *memory);
void give_memory(const struct memory *memory);

/* Waits until the device has used a chain, and takes it. */
void take(struct virtqueue *queue, struct used_element *used, const char *what);

/* Sets a ring up, at the place where its virtqueue goes on, and starts it; its used ring lies at `log` of the log, unless that
 * is 0. */
void start_ring(const struct virtqueue *queue, uint64_t log);

/* Stops a ring. Where it stopped has to be where its driver is: all that was posted was taken by the device. */
void stop_ring(const struct virtqueue *queue);

#endif
