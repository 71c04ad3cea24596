/* SPDX-License-Identifier: Apache-2.0 */
/* In a guest: sends frames of each length through a network card that sends them back, some at a time, and compares what comes.
 *
 *     frames DEVICE
 *
 * Linked statically. Prints how many came back. Status 0; 1 where one was another, or the system failed, which a line says. */
#include <arpa/inet.h>
#include <linux/if_packet.h>
#include <net/ethernet.h>
#include <net/if.h>
#include <stdio.h>
#include <string.h>
#include <sys/socket.h>

enum { EXPERIMENTAL = 0x88b5, AT_A_TIME = 16, ROUNDS = 64, SHORTEST = 60, LONGEST = ETH_FRAME_LEN };

static size_t length_of(unsigned number)
{
    return SHORTEST + number * 97 % (LONGEST - SHORTEST + 1);
}

/* To nobody's address, from nobody's: each byte says in which frame it is, and where. */
static void make(unsigned char *frame, unsigned number)
{
    static const unsigned char head[] = {2, 0, 0, 0, 0, 1, 2, 0, 0, 0, 0, 2, EXPERIMENTAL >> 8, EXPERIMENTAL & 0xff};
    memcpy(frame, head, sizeof head);
    for (size_t at = sizeof head; at < length_of(number); at++)
        frame[at] = (unsigned char)(number * 31 + at * 7 + (at >> 8));
}

int main(int argc, char **argv)
{
    static unsigned char sent[LONGEST], came[LONGEST + 1];
    struct sockaddr_ll place = {.sll_family = AF_PACKET, .sll_protocol = htons(EXPERIMENTAL)};
    int fd = socket(AF_PACKET, SOCK_RAW, htons(EXPERIMENTAL));
    if (argc != 2 || fd < 0 || (place.sll_ifindex = (int)if_nametoindex(argv[1])) == 0 || bind(fd, (struct sockaddr *)&place, sizeof place)) {
        perror("frames: the socket");
        return 1;
    }
    for (unsigned round = 0; round < ROUNDS; round++) {
        for (unsigned number = round * AT_A_TIME; number < (round + 1) * AT_A_TIME; number++) {
            make(sent, number);
            if (send(fd, sent, length_of(number), 0) != (ssize_t)length_of(number)) {
                perror("frames: send");
                return 1;
            }
        }
        for (unsigned number = round * AT_A_TIME; number < (round + 1) * AT_A_TIME; number++) {
            ssize_t length = recv(fd, came, sizeof came, 0);
            make(sent, number);
            if (length != (ssize_t)length_of(number) || memcmp(came, sent, (size_t)length) != 0) {
                fprintf(stderr, "frames: number %u is another, of %zd bytes\n", number, length);
                return 1;
            }
        }
    }
    printf("%d frames came back\n", ROUNDS * AT_A_TIME);
    return 0;
}
