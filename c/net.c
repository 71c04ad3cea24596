/* SPDX-License-Identifier: Apache-2.0 */
/* A network card that sends each frame back to its guest: vhost-user-net (virtio 1.2, 5.1), one pair of queues, over covretin_device.h.
 *
 *     net PATH
 *
 * Listens at PATH and serves one frontend after another until SIGTERM or SIGINT; a second one at a time is hung up on. Prints a line for
 * each frontend that went. Status 0; 2 after wrong arguments; 4 where something failed.
 *
 * A frame has 14 to 1518 bytes, behind a header. It comes back unchanged, in one buffer, behind a header of zeros, but that num_buffers is 1.
 * One of another length is dropped; so is one for which the guest has no buffer. A buffer that is too small is given back with 0 bytes
 * written, and the frame goes into the next. The guest has what it sent back in any case. */
#include "covretin_device.h"

#include <errno.h>
#include <linux/virtio_net.h>
#include <stdio.h>
#include <string.h>

enum { RECEIVE, TRANSMIT, QUEUES }; /* as the guest names them */
enum { SHORTEST = 14, LONGEST = 1518, MOST_BUFFERS = COVRETIN_DEVICE_MAX_QUEUE_SIZE };

static size_t header_size; /* of VERSION_1; without it num_buffers is not there */
static unsigned long returned, dropped;

static size_t size_of(const struct iovec *parts, size_t count)
{
    size_t size = 0;
    for (size_t i = 0; i < count; i++)
        size += parts[i].iov_len;
    return size;
}

/* Where a copy goes on: behind so many bytes of a part, of which none is empty. */
struct place {
    const struct iovec *part;
    size_t done;
};

/* How many bytes of a part are left there, or of the next one, since more are to be copied than are left of the first. */
static size_t left_at(struct place *place)
{
    if (place->done == place->part->iov_len)
        *place = (struct place){place->part + 1, 0};
    return place->part->iov_len - place->done;
}

static void skip(struct place *place, size_t size)
{
    for (size_t part; size != 0; size -= part) {
        part = left_at(place) < size ? left_at(place) : size;
        place->done += part;
    }
}

/* Copies so many bytes, each once, from where the guest has them to where it wants them. */
static void copy(struct place *to, struct place *from, size_t size)
{
    while (size != 0) {
        size_t room = left_at(to), there = left_at(from), part = room < there ? room : there;
        part = part < size ? part : size;
        memcpy((uint8_t *)to->part->iov_base + to->done, (const uint8_t *)from->part->iov_base + from->done, part);
        to->done += part;
        from->done += part;
        size -= part;
    }
}

static const struct virtio_net_hdr_v1 header = {.num_buffers = 1};

/* Writes a header there. (each length is a number, so that this is no call) */
static void put_header(uint8_t *to)
{
    if (header_size == sizeof header)
        memcpy(to, &header, sizeof header);
    else
        memcpy(to, &header, sizeof(struct virtio_net_hdr));
}

/* Puts a frame of so many bytes, with its header, into parts that have room for it. Most frames are one part, and so are most buffers. */
static void put(const struct iovec *into, const struct iovec *sent, size_t size)
{
    if (sent->iov_len == size && into->iov_len >= size) {
        put_header(into->iov_base);
        memcpy((uint8_t *)into->iov_base + header_size, (const uint8_t *)sent->iov_base + header_size, size - header_size);
        return;
    }
    const struct iovec before = {(void *)(uintptr_t)&header, header_size};
    struct place to = {into, 0}, start = {&before, 0}, from = {sent, 0};
    copy(&to, &start, header_size);
    skip(&from, header_size);
    copy(&to, &from, size - header_size);
}

/* Buffers of the guest's that were taken for frames, and how much was written of each. */
struct buffers {
    covretin_request *taken[COVRETIN_DEVICE_BURST];
    uint32_t written[COVRETIN_DEVICE_BURST];
    size_t count, used;
    unsigned small;
};

/* Gives all buffers back: those behind the ones that were used with nothing in them. Where memory was lost all are, since what was read may be
 * zeros in its place, and is no frame. */
static void give_back(const covretin_request *sent, struct buffers *buffers)
{
    const bool is_lost = covretin_request_is_lost(sent);
    size_t frames = 0;
    for (size_t i = 0; i < buffers->count; i++) {
        if (is_lost || i >= buffers->used)
            buffers->written[i] = 0;
        frames += buffers->written[i] != 0;
    }
    returned += frames;
    covretin_requests_done(buffers->taken, buffers->written, buffers->count);
    buffers->count = buffers->used = 0;
}

/* Takes buffers for as many frames as are left, once the ones before are given back. False: the guest has none. */
static bool take_buffers(const covretin_request *sent, struct buffers *buffers, size_t left)
{
    give_back(sent, buffers);
    buffers->count = covretin_requests_take(sent, RECEIVE, buffers->taken, left);
    for (size_t i = 0; i < buffers->count; i++)
        __builtin_prefetch(buffers->taken[i]->segments->iov_base, 1);
    return buffers->count != 0;
}

/* Puts a frame into the next buffer that is large enough, unless the guest has none, or makes small ones without end. */
static void put_next(const covretin_request *sent, size_t size, struct buffers *buffers, size_t left)
{
    while (buffers->small < MOST_BUFFERS && (buffers->used != buffers->count || take_buffers(sent, buffers, left))) {
        const size_t at = buffers->used++;
        const covretin_request *buffer = buffers->taken[at];
        const struct iovec *parts = buffer->segments + buffer->readable;
        const bool is_large = size_of(parts, buffer->writable) >= size;
        buffers->written[at] = is_large ? (uint32_t)size : 0;
        if (is_large) {
            put(parts, sent->segments, size);
            return;
        }
        buffers->small++;
    }
}

/* How long a frame is with its header; 0: it is none. */
static size_t frame_size(const covretin_request *sent)
{
    size_t size = size_of(sent->segments, sent->readable);
    return size >= header_size + SHORTEST && size <= header_size + LONGEST ? size : 0;
}

static void take_frames(void *none, covretin_request *const *sent, size_t count)
{
    static const uint32_t nothing[COVRETIN_DEVICE_BURST];
    const unsigned long had = returned;
    size_t sizes[COVRETIN_DEVICE_BURST], left = 0;
    struct buffers buffers;
    (void)none;
    buffers.count = buffers.used = buffers.small = 0;
    for (size_t i = 0; i < count; i++) {
        __builtin_prefetch(sent[i]->segments->iov_base);
        sizes[i] = frame_size(sent[i]);
        left += sizes[i] != 0;
    }
    for (size_t i = 0; i < count; i++) {
        if (sizes[i] == 0)
            continue;
        put_next(sent[i], sizes[i], &buffers, left);
        left--;
    }
    give_back(sent[0], &buffers);
    dropped += count - (returned - had);
    covretin_requests_done(sent, nothing, count);
}

static void take_features(void *none, uint64_t features, uint64_t protocol_features)
{
    (void)none;
    (void)protocol_features;
    header_size = features & COVRETIN_DEVICE_VERSION_1 ? sizeof(struct virtio_net_hdr_v1) : sizeof(struct virtio_net_hdr);
}

static bool read_config(void *none, uint32_t offset, uint8_t *bytes, uint32_t size)
{
    static const struct virtio_net_config space = {.mac = {0x52, 0x54, 0x00, 0x63, 0x6f, 0x76}};
    (void)none;
    if (offset > sizeof space || size > sizeof space - offset)
        return false;
    memcpy(bytes, (const uint8_t *)&space + offset, size);
    return true;
}

static void tell_end(void *none, enum covretin_error error)
{
    (void)none;
    printf("a frontend went: %s; %lu frames were sent back, and %lu dropped\n", covretin_error_text(error), returned, dropped);
    returned = dropped = 0;
    take_features(none, 0, 0);
}

int main(int argc, char **argv)
{
    static const covretin_device_calls calls = {.features = (uint64_t)1 << VIRTIO_NET_F_MAC | COVRETIN_DEVICE_RING_PACKED,
                                                .queues = QUEUES,
                                                .taken_queues = (uint64_t)1 << RECEIVE,
                                                .requests = take_frames,
                                                .accepted = take_features,
                                                .read_config = read_config,
                                                .ended = tell_end};
    enum covretin_error error;
    if (argc != 2) {
        fprintf(stderr, "usage: net PATH\n");
        return 2;
    }
    setvbuf(stdout, NULL, _IOLBF, 0); /* also in a file, so that who is killed has said what it did */
    take_features(NULL, 0, 0);
    error = covretin_device_run(&calls, NULL, argv[1]);
    bool is_systems = error == COVRETIN_SOCKET_ERROR; /* errno says more */
    if (error != COVRETIN_OK)
        fprintf(stderr, "%s: %s%s%s\n", argv[1], covretin_error_text(error), is_systems ? ": " : "", is_systems ? strerror(errno) : "");
    return error == COVRETIN_OK ? 0 : 4;
}
