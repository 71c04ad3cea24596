/* SPDX-License-Identifier: Apache-2.0 */
/* In a guest: sends bytes to its host by streams of AF_VSOCK, which come back, and compares what comes.
 *
 *     echoes
 *
 * Linked statically. Prints how many came back. Status 0; 1 where one was another, or the system failed, which a line says. */
#include <linux/vm_sockets.h>
#include <stdio.h>
#include <string.h>
#include <sys/socket.h>
#include <unistd.h>

enum { PORT = 1234, STREAMS = 8, SIZE = 100000, AT_A_TIME = 10000 };

static unsigned char byte_at(unsigned stream, unsigned at)
{
    return (unsigned char)(stream * 31 + at * 7 + (at >> 8));
}

/* As many bytes as there is room for come back, while they are the ones that were sent. */
static int come_back(int fd, unsigned stream, unsigned from, unsigned char *room)
{
    unsigned at = 0;
    while (at < AT_A_TIME) {
        ssize_t count = read(fd, room + at, AT_A_TIME - at);
        if (count <= 0)
            return 0;
        at += (unsigned)count;
    }
    for (at = 0; at < AT_A_TIME; at++)
        if (room[at] != byte_at(stream, from + at))
            return 0;
    return 1;
}

static int echoes(int fd, unsigned stream)
{
    static unsigned char room[AT_A_TIME];
    for (unsigned from = 0; from < SIZE; from += AT_A_TIME) {
        for (unsigned at = 0; at < AT_A_TIME; at++)
            room[at] = byte_at(stream, from + at);
        if (write(fd, room, AT_A_TIME) != AT_A_TIME || !come_back(fd, stream, from, room))
            return 0;
    }
    return 1;
}

int main(void)
{
    struct sockaddr_vm host = {.svm_family = AF_VSOCK, .svm_cid = VMADDR_CID_HOST, .svm_port = PORT};
    for (unsigned stream = 0; stream < STREAMS; stream++) {
        int fd = socket(AF_VSOCK, SOCK_STREAM, 0);
        if (fd < 0 || connect(fd, (struct sockaddr *)&host, sizeof host) < 0 || !echoes(fd, stream)) {
            perror("echoes");
            return 1;
        }
        close(fd);
    }
    printf("%d bytes came back\n", STREAMS * SIZE);
    return 0;
}
