/* SPDX-License-Identifier: Apache-2.0 */
/* What a device counted, for who runs it: as a line, and at a socket as text for Prometheus. */
#ifndef COVRETIN_COUNTS_H
#define COVRETIN_COUNTS_H

#include "../../include/covretin_device.h"

/* Prints it in a line. */
void counts_print(const covretin_device_stats *stats);

/* Listens at a path, and answers in a thread of its own whoever comes there, by what was counted until then: a head of HTTP and the text. No session
 * waits for that, and nobody for a reader. Errors are those of covretin_listen; OUT_OF_MEMORY, also where there is no thread. */
enum covretin_error counts_serve(const covretin_device_stats *stats, const char *program, const char *path);

/* Ends that, if it was begun, and removes the path. */
void counts_end(void);

#endif
