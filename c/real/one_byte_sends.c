/* SPDX-License-Identifier: Apache-2.0 */
/* Linked with -Wl,--wrap=sendmsg: each call sends one byte, and the descriptors with the first of a message. */
#include <sys/socket.h>

ssize_t __real_sendmsg(int socket, const struct msghdr *message, int flags);
ssize_t __wrap_sendmsg(int socket, const struct msghdr *message, int flags);

ssize_t __wrap_sendmsg(int socket, const struct msghdr *message, int flags)
{
    struct iovec byte = {message->msg_iov[0].iov_base, 1};
    struct msghdr part = *message;
    part.msg_iov = &byte;
    part.msg_iovlen = 1;
    return __real_sendmsg(socket, &part, flags);
}
