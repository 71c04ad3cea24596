/* SPDX-License-Identifier: Apache-2.0 */
/* The C library's macros for control messages, over objects of the kernel's: see kernel.c. */
#ifndef COVRETIN_CHECK_KERNEL_H
#define COVRETIN_CHECK_KERNEL_H

#include <sys/socket.h>

struct cmsghdr *control_first(struct msghdr *message);
struct cmsghdr *control_next(struct cmsghdr *head);
unsigned char *control_data(struct cmsghdr *head);

#undef CMSG_FIRSTHDR
#undef CMSG_NXTHDR
#undef CMSG_DATA
#define CMSG_FIRSTHDR(message) control_first(message)
#define CMSG_NXTHDR(message, head) control_next(head)
#define CMSG_DATA(head) control_data(head)

#endif
