/* SPDX-License-Identifier: Apache-2.0 */
/* covretin-net: a network card (virtio 1.2, 5.1) whose other end is a tap of this machine, or a socket of another card: covretin-net, or QEMU's
 * own by -netdev dgram. `covretin-net --help` says how it is called.
 *
 * A frame goes one way as the guest sent it, behind no header; the other way behind a header of zeros, but for num_buffers: in one buffer, or in
 * as many as it takes where the driver accepted MRG_RXBUF. A frame that came and for which the guest has no buffer waits, and so do those behind
 * it, where the system keeps them; one that the other end does not take is dropped, as on a wire. With several pairs of queues what comes of a
 * flow goes to the pair by which the guest sent of it last (virtio 1.2, 5.1.6.5.5). */
#ifndef _GNU_SOURCE
#define _GNU_SOURCE
#endif
#include "program.h"

#include <errno.h>
#include <fcntl.h>
#include <linux/if_tun.h>
#include <linux/virtio_net.h>
#include <net/if.h>
#include <stdio.h>
#include <string.h>
#include <sys/ioctl.h>
#include <sys/random.h>
#include <sys/socket.h>
#include <sys/uio.h>
#include <sys/un.h>
#include <time.h>
#include <unistd.h>

enum { RECEIVE, TRANSMIT, PAIR, MOST_PAIRS = 8 }; /* queues as the guest names them, in pairs; behind these is that for control */
enum { SHORTEST = 14, LONGEST = 65535, MOST_FRAMES = 64, MOST_BUFFERS = 16, MOST_MERGED = 64, ADDRESS_BYTES = 6 };
enum { FLOWS = 256, IPV4 = 0x0800, IPV6 = 0x86dd, TCP = 6, UDP = 17 };
enum { SEND_RARP = 19, TELLS_PLACE = 8, PLACE = 60 }; /* a request, its body and the frame that it asks for, in bytes */

/* What the arguments say. */
static const char *tap, *local, *remote, *recording;
static uint8_t address[ADDRESS_BYTES];

static int wire = -1, record = -1;
static struct sockaddr_un far_end;
static unsigned long pairs = 1;
static size_t header_size;   /* of what the driver accepted: num_buffers is not always there */
static bool merges;          /* a frame may come in many buffers */
static uint8_t flows[FLOWS]; /* by which pair each was sent last */
static uint8_t waiting[LONGEST];                           /* a frame that came, */
static size_t waiting_size;                                /* of so many bytes, or none */
static unsigned long sent, received, dropped;

/* -- What passes -- */

/* Of a file of pcap, which says by its first bytes in which order they are. */
struct pcap_start {
    uint32_t magic;
    uint16_t major, minor;
    uint32_t zone, accuracy, longest, link;
};

struct pcap_frame {
    uint32_t seconds, microseconds, kept, size;
};

/* Where the file takes no more, as on a full disk, nothing is recorded any more. */
static void note(const uint8_t *frame, size_t size)
{
    struct timespec now;
    if (record < 0)
        return;
    clock_gettime(CLOCK_REALTIME, &now);
    struct pcap_frame head = {(uint32_t)now.tv_sec, (uint32_t)now.tv_nsec / 1000, (uint32_t)size, (uint32_t)size};
    struct iovec parts[] = {{&head, sizeof head}, {(void *)(uintptr_t)frame, size}};
    if (writev(record, parts, 2) == (ssize_t)(sizeof head + size))
        return;
    fprintf(stderr, "covretin-net: %s takes no more: %s\n", recording, strerror(errno));
    close(record);
    record = -1;
}

/* -- From the guest -- */

static bool send_frame(const uint8_t *frame, size_t size)
{
    const struct sockaddr *to = (const struct sockaddr *)&far_end;
    if (tap != NULL)
        return write(wire, frame, size) == (ssize_t)size;
    return sendto(wire, frame, size, MSG_DONTWAIT | MSG_NOSIGNAL, to, sizeof far_end) == (ssize_t)size;
}

static void hand_on(const uint8_t *frame, size_t size)
{
    note(frame, size);
    if (send_frame(frame, size))
        sent++;
    else
        dropped++;
}

static unsigned pair_of_bytes(const uint8_t *bytes)
{
    return (unsigned)bytes[0] << 8 | bytes[1];
}

/* The sum, without carries, of these bytes by pairs: whichever of two addresses comes first. */
static unsigned sum_of(const uint8_t *bytes, size_t count)
{
    unsigned sum = 0;
    for (size_t i = 0; i + 1 < count; i += 2)
        sum ^= pair_of_bytes(bytes + i);
    return sum;
}

/* Which flow a frame is of: one number for both ways. By its protocol addresses and ports, or by those of the cards. */
static uint8_t flow_of(const uint8_t *frame, size_t size)
{
    const unsigned type = pair_of_bytes(frame + 12);
    size_t addresses = 0, count = 12, ports = 0;
    uint8_t protocol = 0;
    if (type == IPV4 && size >= 38) {
        addresses = 26, count = 8, ports = 14 + (frame[14] & 15u) * 4, protocol = frame[23];
    } else if (type == IPV6 && size >= 58) {
        addresses = 22, count = 32, ports = 54, protocol = frame[20];
    }
    unsigned sum = sum_of(frame + addresses, count);
    if ((protocol == TCP || protocol == UDP) && ports + 4 <= size)
        sum ^= sum_of(frame + ports, 4);
    return (uint8_t)(sum >> 8 ^ sum);
}

/* (what may be zeros in the place of memory that was lost is no frame) */
static void take_frame(covretin_request *request)
{
    static uint8_t frame[LONGEST + 1];
    size_t before = covretin_request_read(request, NULL, header_size), size = covretin_request_read(request, frame, sizeof frame);
    if (before == header_size && size >= SHORTEST && size <= LONGEST && !covretin_request_is_lost(request)) {
        flows[flow_of(frame, size)] = (uint8_t)(request->queue / PAIR);
        hand_on(frame, size);
    } else
        dropped++;
}

/* What the driver asks of the card itself, where no frontend answers that: to use so many pairs. How many bytes the answer has. */
static uint32_t take_control(covretin_request *request)
{
    struct virtio_net_ctrl_hdr asked = {0};
    uint16_t wanted = 0;
    size_t size = covretin_request_read(request, &asked, sizeof asked) + covretin_request_read(request, &wanted, sizeof wanted);
    bool is_pairs = size == sizeof asked + sizeof wanted && asked.class == VIRTIO_NET_CTRL_MQ && asked.cmd == VIRTIO_NET_CTRL_MQ_VQ_PAIRS_SET;
    uint8_t answer = is_pairs && wanted >= 1 && wanted <= pairs ? VIRTIO_NET_OK : VIRTIO_NET_ERR;
    if (answer == VIRTIO_NET_OK)
        memset(flows, 0, sizeof flows);
    return (uint32_t)covretin_request_write(request, &answer, sizeof answer);
}

static void take_all(void *none, covretin_request *const *requests, size_t count)
{
    uint32_t written[COVRETIN_DEVICE_BURST] = {0};
    (void)none;
    for (size_t i = 0; i < count; i++) {
        if (requests[i]->queue == pairs * PAIR)
            written[i] = take_control(requests[i]);
        else
            take_frame(requests[i]);
    }
    covretin_requests_done(requests, written, count);
}

/* Tells all who are behind the wire that a guest is here, which came from elsewhere and does not say so: by the frame that asks for the protocol
 * address of its card (RFC 903), as QEMU makes it. A bridge learns by its sender where frames for the guest are to go. */
static void tell_place(const uint8_t *of)
{
    static const uint8_t asks[] = {0x80, 0x35, 0, 1, 0x08, 0x00, ADDRESS_BYTES, 4, 0, 3}; /* RARP, of Ethernet and IPv4, a request */
    uint8_t frame[PLACE] = {0};
    memset(frame, 0xff, ADDRESS_BYTES);
    memcpy(frame + 6, of, ADDRESS_BYTES);
    memcpy(frame + 12, asks, sizeof asks);
    memcpy(frame + 22, of, ADDRESS_BYTES);
    memcpy(frame + 32, of, ADDRESS_BYTES);
    hand_on(frame, sizeof frame);
}

static bool take_other(void *none, uint32_t request, const uint8_t *bytes, size_t len, const int32_t *fds, size_t count)
{
    (void)none;
    (void)fds;
    if (request != SEND_RARP || len != TELLS_PLACE || count != 0)
        return false;
    tell_place(bytes);
    return true;
}

/* -- To the guest -- */

static size_t room_of(const covretin_request *buffer)
{
    size_t room = 0;
    for (size_t i = 0; i < buffer->writable; i++)
        room += buffer->segments[buffer->readable + i].iov_len;
    return room;
}

/* The guest's buffers that a frame is put into. */
struct buffers {
    covretin_request *taken[MOST_MERGED];
    uint32_t written[MOST_MERGED];
    size_t count, room;
};

/* Takes buffers of a queue until they have room for so much, as many as may be of one frame. */
static bool take_buffers(covretin_device *device, uint32_t queue, size_t size, struct buffers *buffers)
{
    const size_t most = merges ? MOST_MERGED : 1;
    buffers->count = buffers->room = 0;
    while (buffers->room < size && buffers->count < most) {
        covretin_request *buffer = covretin_device_take(device, queue);
        if (buffer == NULL)
            break;
        buffers->room += room_of(buffer);
        buffers->taken[buffers->count++] = buffer;
    }
    memset(buffers->written, 0, sizeof buffers->written);
    return buffers->count != 0;
}

/* Puts the frame that waits into buffers that have room for it, with its header in the first. */
static void fill(struct buffers *buffers)
{
    const struct virtio_net_hdr_v1 header = {.num_buffers = (uint16_t)buffers->count};
    uint32_t begun = (uint32_t)covretin_request_write(buffers->taken[0], &header, header_size);
    size_t put = 0;
    for (size_t i = 0; i < buffers->count; i++) {
        size_t part = covretin_request_write(buffers->taken[i], waiting + put, waiting_size - put);
        buffers->written[i] = (uint32_t)part + (i == 0 ? begun : 0);
        put += part;
    }
}

/* Gives the frame that waits to the guest. Buffers that have no room for it are given back with nothing in them. False: there is none. */
static bool give_frame(covretin_device *device)
{
    struct buffers buffers;
    const uint32_t queue = flows[flow_of(waiting, waiting_size)] * PAIR;
    for (unsigned i = 0; i < MOST_BUFFERS; i++) {
        /* (a pair that the guest uses no more has none) */
        if (!take_buffers(device, queue, header_size + waiting_size, &buffers) &&
            (queue == RECEIVE || !take_buffers(device, RECEIVE, header_size + waiting_size, &buffers)))
            return false;
        bool has_room = buffers.room >= header_size + waiting_size;
        if (has_room)
            fill(&buffers);
        covretin_requests_done(buffers.taken, buffers.written, buffers.count);
        if (has_room) {
            received++;
            return true;
        }
    }
    dropped++;
    return true;
}

/* Some frames at a time, so that the guest's own are sent in between. */
static bool frames_came(void *none, covretin_device *device)
{
    (void)none;
    for (unsigned i = 0; i < MOST_FRAMES; i++) {
        bool is_new = waiting_size == 0;
        ssize_t size = is_new ? read(wire, waiting, sizeof waiting) : 0;
        if (size < 0)
            return errno == EAGAIN; /* else the tap is gone, and would be readable for ever */
        if (is_new && size < SHORTEST)
            continue;
        waiting_size += (size_t)size;
        if (is_new)
            note(waiting, waiting_size);
        if (!give_frame(device))
            return false;
        waiting_size = 0;
    }
    return true;
}

/* -- The card -- */

static void take_features(void *none, uint64_t features, uint64_t protocol_features)
{
    (void)none;
    (void)protocol_features;
    merges = features >> VIRTIO_NET_F_MRG_RXBUF & 1;
    header_size = merges || (features & COVRETIN_DEVICE_VERSION_1) ? sizeof(struct virtio_net_hdr_v1) : sizeof(struct virtio_net_hdr);
}

static bool read_config(void *none, uint32_t offset, uint8_t *bytes, uint32_t size)
{
    struct virtio_net_config space = {.status = VIRTIO_NET_S_LINK_UP, .max_virtqueue_pairs = (uint16_t)pairs};
    (void)none;
    memcpy(space.mac, address, sizeof address);
    if (offset > sizeof space || size > sizeof space - offset)
        return false;
    memcpy(bytes, (const uint8_t *)&space + offset, size);
    return true;
}

static void tell_end(void *none, enum covretin_error error)
{
    printf("a frontend went: %s; %lu frames were sent, %lu received, and %lu dropped\n", covretin_error_text(error), sent, received, dropped);
    sent = received = dropped = 0;
    waiting_size = 0;
    memset(flows, 0, sizeof flows);
    take_features(none, 0, 0);
}

static covretin_device_calls calls = {.features = (uint64_t)1 << VIRTIO_NET_F_MAC | (uint64_t)1 << VIRTIO_NET_F_STATUS |
                                                  (uint64_t)1 << VIRTIO_NET_F_MRG_RXBUF,
                                      .protocol_features = COVRETIN_PROTOCOL_RARP,
                                      .queues = PAIR,
                                      .taken_queues = (uint64_t)1 << RECEIVE,
                                      .requests = take_all,
                                      .accepted = take_features,
                                      .read_config = read_config,
                                      .input_ready = frames_came,
                                      .other = take_other,
                                      .ended = tell_end};

/* -- Its other end -- */

static bool open_tap(void)
{
    struct ifreq wanted = {.ifr_flags = IFF_TAP | IFF_NO_PI};
    memcpy(wanted.ifr_name, tap, strlen(tap));
    wire = open("/dev/net/tun", O_RDWR | O_NONBLOCK | O_CLOEXEC);
    return wire >= 0 && ioctl(wire, TUNSETIFF, &wanted) == 0;
}

/* (a socket that a card before left over is in the way of no other) */
static bool open_socket(void)
{
    struct sockaddr_un near_end = {.sun_family = AF_UNIX};
    memcpy(near_end.sun_path, local, strlen(local));
    far_end.sun_family = AF_UNIX;
    memcpy(far_end.sun_path, remote, strlen(remote));
    wire = socket(AF_UNIX, SOCK_DGRAM | SOCK_NONBLOCK | SOCK_CLOEXEC, 0);
    if (wire < 0)
        return false;
    if (connect(wire, (const struct sockaddr *)&near_end, sizeof near_end) != 0 && errno == ECONNREFUSED)
        unlink(local);
    int fd = socket(AF_UNIX, SOCK_DGRAM | SOCK_NONBLOCK | SOCK_CLOEXEC, 0);
    close(wire);
    wire = fd;
    return wire >= 0 && bind(wire, (const struct sockaddr *)&near_end, sizeof near_end) == 0;
}

static bool open_recording(void)
{
    const struct pcap_start start = {.magic = 0xa1b2c3d4, .major = 2, .minor = 4, .longest = LONGEST, .link = 1};
    record = open(recording, O_WRONLY | O_CREAT | O_TRUNC | O_APPEND | O_CLOEXEC, 0600);
    return record >= 0 && write(record, &start, sizeof start) == sizeof start;
}

static bool has_address(void)
{
    static const uint8_t none[ADDRESS_BYTES];
    if (memcmp(address, none, sizeof none) != 0)
        return true;
    bool is_made = getrandom(address, sizeof address, 0) == sizeof address;
    address[0] = (uint8_t)((address[0] & 0xfc) | 2); /* of one card, and given by no maker */
    return is_made;
}

/* (with several a driver says how many it uses) */
static void offer_pairs(void)
{
    if (pairs == 1)
        return;
    calls.features |= (uint64_t)1 << VIRTIO_NET_F_MQ | (uint64_t)1 << VIRTIO_NET_F_CTRL_VQ;
    calls.queues = (uint32_t)pairs * PAIR + 1;
    for (unsigned long pair = 0; pair < pairs; pair++)
        calls.taken_queues |= (uint64_t)1 << (pair * PAIR + RECEIVE);
}

static const char *prepare(void)
{
    if (tap != NULL ? !open_tap() : !open_socket())
        return tap != NULL ? tap : local;
    calls.input = wire;
    take_features(NULL, 0, 0);
    offer_pairs();
    if (recording != NULL && !open_recording())
        return recording;
    return has_address() ? NULL : "an address";
}

static void finish(void)
{
    if (local != NULL)
        unlink(local);
}

/* -- Its arguments -- */

static bool take_tap(const char *value)
{
    tap = value;
    return *value != '\0' && strlen(value) < IFNAMSIZ;
}

static bool is_path(const char *value)
{
    return *value != '\0' && strlen(value) < sizeof far_end.sun_path;
}

static bool take_local(const char *value)
{
    local = value;
    return is_path(value);
}

static bool take_remote(const char *value)
{
    remote = value;
    return is_path(value);
}

static bool take_recording(const char *value)
{
    recording = value;
    return *value != '\0';
}

/* Six numbers, of one card: not all zeros, and not one of many. */
static bool take_address(const char *value)
{
    int end = 0;
    uint8_t *it = address;
    static const uint8_t none[ADDRESS_BYTES];
    return sscanf(value, "%2hhx:%2hhx:%2hhx:%2hhx:%2hhx:%2hhx%n", it, it + 1, it + 2, it + 3, it + 4, it + 5, &end) == ADDRESS_BYTES &&
           value[end] == '\0' && (*it & 1) == 0 && memcmp(it, none, sizeof none) != 0;
}

static bool take_pairs(const char *value)
{
    return program_number(value, 1, MOST_PAIRS, &pairs);
}

static const char *lacks(void)
{
    bool has_socket = local != NULL && remote != NULL;
    if (tap != NULL)
        return local != NULL || remote != NULL ? "--tap and --local exclude each other" : NULL;
    return has_socket ? NULL : "--tap, or --local and --remote, is missing";
}

int main(int argc, char **argv)
{
    static const struct program_option options[] = {
        {"tap", "NAME", "the other end is this tap interface, which is made where it is not there", take_tap},
        {"local", "PATH", "the other end sends its frames to this Unix socket, a datagram each,", take_local},
        {"remote", "PATH", "and takes those of the guest at this one", take_remote},
        {"mac", "ADDRESS", "six bytes as 52:54:00:12:34:56, else ones that nobody else should have", take_address},
        {"queue-pairs", "NUMBER", "1 to 8 pairs of queues, else 1", take_pairs},
        {"pcap", "FILE", "writes each frame that passes to a file, as tcpdump and Wireshark read it", take_recording},
        {NULL, NULL, NULL, NULL},
    };
    static const struct program card = {
        .name = "covretin-net", .title = "A network card", .options = options, .lacks = lacks, .calls = &calls,
        .capabilities = "{\"type\": \"net\"}", .prepare = prepare, .finish = finish};
    (void)argc;
    return program_run(&card, argv);
}
