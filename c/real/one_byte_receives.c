/* SPDX-License-Identifier: Apache-2.0 */
/* Linked with -Wl,--wrap=recvmsg: each call receives one byte. */
#include <sys/socket.h>

ssize_t __real_recvmsg(int socket, struct msghdr *message, int flags);
ssize_t __wrap_recvmsg(int socket, struct msghdr *message, int flags);

ssize_t __wrap_recvmsg(int socket, struct msghdr *message, int flags)
{
    struct iovec byte = {message->msg_iov[0].iov_base, 1};
    struct iovec *whole = message->msg_iov;
    message->msg_iov = &byte;
    ssize_t got = __real_recvmsg(socket, message, flags);
    message->msg_iov = whole;
    return got;
}
