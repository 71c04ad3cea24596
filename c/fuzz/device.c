/* SPDX-License-Identifier: Apache-2.0 */
/* A device over covretin_device.h, whose frontend and guest do anything: messages that are often right, with descriptors of each kind, rings
 * whose contents are as they fall, memory that is truncated and comes back, requests that are done at once, later, or after the session.
 *
 *     device SEED STEPS
 *
 * No step may wait, and after each session there are as many descriptors as before. rust/fuzz/kit has the kit in Rust behind the calls that are made
 * here. Prints what was seen. Status 0; 1 after wrong arguments; a step after which something is not so ends it by a signal. */
#ifndef _GNU_SOURCE
#define _GNU_SOURCE
#endif

#include "covretin_device.h"

#include <dirent.h>
#include <fcntl.h>
#include <poll.h>
#include <signal.h>
#include <stdio.h>
#include <stdlib.h>
#include <string.h>
#include <sys/epoll.h>
#include <sys/eventfd.h>
#include <sys/mman.h>
#include <sys/socket.h>
#include <unistd.h>

enum { QUEUES = 3, TAKEN = 2, MEMORY = 1 << 18, PAGE = 4096, MOST_KEPT = 32, MOST_FDS = 9, MOST_BODY = 400, SIZE = 16 };
static const uint64_t guest = 0x40000000, user = 0x7f0000000000;

/* As the specification names them. */
enum { SET_FEATURES = 2, SET_OWNER = 3, SET_MEM_TABLE = 5, SET_LOG_BASE = 6, SET_VRING_NUM = 8, SET_VRING_ADDR = 9, SET_VRING_BASE = 10,
       GET_VRING_BASE = 11, SET_VRING_KICK = 12, SET_VRING_CALL = 13, SET_VRING_ERR = 14, SET_PROTOCOL_FEATURES = 16, SET_VRING_ENABLE = 18,
       SET_BACKEND_REQ_FD = 21, GET_CONFIG = 24, SET_CONFIG = 25, POSTCOPY_LISTEN = 29, GET_INFLIGHT_FD = 31, SET_INFLIGHT_FD = 32,
       ADD_MEM_REG = 37, REM_MEM_REG = 38, BEYOND = 48 };

static covretin_device device;
static int frontend = -1, memory = -1, kicks[QUEUES] = {-1, -1, -1};
static covretin_request *kept[MOST_KEPT];
static size_t kept_count;
static bool has_ended, is_packed, is_broken[QUEUES];
static unsigned long sessions, messages, refused, requests, broken, lost, unanswered;

/* Ends the fuzzer where something that has to hold does not. */
static void must(bool holds)
{
    if (!holds)
        __builtin_trap();
}

/* The next of numbers that look random, below this one. */
static uint64_t state;
static uint64_t any(uint64_t below)
{
    state ^= state << 13;
    state ^= state >> 7;
    state ^= state << 17;
    return (state >> 11) % below;
}

static bool is_rare(uint64_t of)
{
    return any(of) == 0;
}

static size_t descriptors(void)
{
    DIR *folder = opendir("/proc/self/fd");
    size_t count = 0;
    must(folder != NULL);
    while (readdir(folder) != NULL)
        count++;
    closedir(folder);
    return count;
}

/* -- The device -- */

/* How much is said to be written of it. */
static uint32_t use(covretin_request *request)
{
    static uint8_t bytes[PAGE];
    size_t read = covretin_request_read(request, is_rare(4) ? NULL : bytes, any(sizeof bytes));
    size_t written = covretin_request_write(request, bytes, any(sizeof bytes));
    must(read <= sizeof bytes && written <= sizeof bytes);
    return is_rare(16) ? UINT32_MAX : (uint32_t)written;
}

static void finish(covretin_request *request)
{
    covretin_request_done(request, use(request));
}

static void look_at(const void *own, const covretin_request *request)
{
    must(own == &device && request->queue < QUEUES && request->readable + request->writable <= COVRETIN_DEVICE_MAX_QUEUE_SIZE);
    requests++;
    for (size_t i = 0; i < request->readable + request->writable; i++)
        must(request->segments[i].iov_len != 0 && request->segments[i].iov_len <= MEMORY);
}

/* Requests that came together: some are kept, and the others are completed together, with some of another queue. */
static void take_many(void *own, covretin_request *const *found, size_t count)
{
    covretin_request *done[2 * COVRETIN_DEVICE_BURST];
    uint32_t written[2 * COVRETIN_DEVICE_BURST];
    size_t done_count = 0;
    must(count != 0 && count <= COVRETIN_DEVICE_BURST);
    if (is_rare(4))
        done_count = covretin_requests_take(found[0], (uint32_t)any(QUEUES + 1), done, any(COVRETIN_DEVICE_BURST + 1));
    must(done_count <= COVRETIN_DEVICE_BURST);
    for (size_t i = 0; i < count; i++) {
        look_at(own, found[i]);
        must(found[i]->queue == found[0]->queue);
        if (kept_count < MOST_KEPT && is_rare(3))
            kept[kept_count++] = found[i];
        else
            done[done_count++] = found[i];
    }
    for (size_t i = 0; i < done_count; i++)
        written[i] = use(done[i]);
    covretin_requests_done(done, written, done_count);
}

static void take(void *own, covretin_request *request)
{
    look_at(own, request);
    covretin_request *other = is_rare(4) ? covretin_request_take(request, (uint32_t)any(QUEUES + 1)) : NULL;
    if (other != NULL)
        finish(other);
    if (kept_count < MOST_KEPT && is_rare(3))
        kept[kept_count++] = request;
    else
        finish(request);
}

static bool read_config(void *own, uint32_t offset, uint8_t *bytes, uint32_t size)
{
    (void)own;
    memset(bytes, 7, size);
    return offset < 64 && size <= 64 - offset;
}

static bool write_config(void *own, uint32_t offset, const uint8_t *bytes, uint32_t size)
{
    (void)own;
    (void)bytes;
    return offset < 64 && size <= 64 - offset;
}

static bool changes(void *own)
{
    (void)own;
    return is_rare(2);
}

static bool take_channel(void *own, int fd, uint64_t features)
{
    (void)own;
    (void)features;
    return is_rare(2) && close(fd) == 0;
}

static void count_refused(void *own, uint32_t request, enum covretin_error error)
{
    (void)own;
    (void)request;
    must(error != COVRETIN_OK);
    refused++;
}

static void count_broken(void *own, uint32_t queue, enum covretin_queue_error error)
{
    (void)own;
    must(queue < QUEUES && error != COVRETIN_QUEUE_OK);
    is_broken[queue] = true;
    broken++;
}

static void note_end(void *own, enum covretin_error error)
{
    (void)own;
    must(!has_ended && error != COVRETIN_OK);
    has_ended = true;
    lost += error == COVRETIN_MEMORY_LOST;
}

static covretin_device_calls calls = {.queues = QUEUES, .taken_queues = 1 << TAKEN, .busy_poll_us = 5, .calls_by_pipe = true, .request = take,
                                      .read_config = read_config, .write_config = write_config, .refused = count_refused, .broken = count_broken, .ended = note_end};

/* -- Descriptors that a frontend has -- */

/* One of some kind, which is the caller's to close. */
static int make_fd(void)
{
    int ends[2], fd;
    switch (any(12)) {
    case 0:
        must(pipe2(ends, O_CLOEXEC | (is_rare(2) ? O_NONBLOCK : 0)) == 0);
        fd = (int)any(2);
        close(ends[1 - fd]);
        return ends[fd];
    case 1:
        must(socketpair(AF_UNIX, is_rare(2) ? SOCK_STREAM : SOCK_DGRAM, 0, ends) == 0);
        close(ends[1]);
        return ends[0];
    case 2: return open("/dev/null", O_RDWR | O_CLOEXEC);
    case 3: return open("/proc/self/exe", O_RDONLY | O_CLOEXEC);
    case 4: return epoll_create1(EPOLL_CLOEXEC);
    case 5:
        fd = memfd_create("small", MFD_CLOEXEC | MFD_ALLOW_SEALING);
        must(ftruncate(fd, (off_t)any(3 * PAGE)) == 0);
        return fd;
    case 6: /* whoever writes to it waits */
        fd = eventfd(0, 0);
        must(eventfd_write(fd, UINT64_MAX - 1) == 0);
        return fd;
    case 7: return eventfd(0, EFD_SEMAPHORE);
    default: return eventfd(0, EFD_NONBLOCK);
    }
}

/* -- Messages -- */

static struct {
    uint32_t header[3];
    uint8_t body[MOST_BODY];
    int fds[MOST_FDS];
    size_t fd_count;
} message;

static void put(const void *bytes, size_t size)
{
    must(message.header[2] + size <= MOST_BODY);
    memcpy(message.body + message.header[2], bytes, size);
    message.header[2] += (uint32_t)size;
}

static void put32(uint64_t value)
{
    put(&(uint32_t){(uint32_t)value}, 4);
}

static void put64(uint64_t value)
{
    put(&value, 8);
}

static void add_fd(int fd)
{
    must(fd >= 0 && message.fd_count < MOST_FDS);
    message.fds[message.fd_count++] = fd;
}

/* Sends a message, if there is room, and closes what it has. Sometimes it is another, or comes in pieces, or with more descriptors. */
static void send_message(bool may_differ)
{
    union {
        struct cmsghdr first;
        uint8_t bytes[CMSG_SPACE(sizeof message.fds)];
    } control;
    if (may_differ && is_rare(100))
        ((uint8_t *)&message)[any(sizeof message.header + message.header[2])] ^= (uint8_t)(1 << any(8));
    while (may_differ && is_rare(50) && message.fd_count < MOST_FDS)
        add_fd(make_fd());
    size_t size = message.header[2] <= MOST_BODY ? message.header[2] : MOST_BODY, of_fds = message.fd_count * sizeof(int);
    struct iovec parts[] = {{message.header, sizeof message.header}, {message.body, size}};
    struct msghdr it = {.msg_iov = parts, .msg_iovlen = 2, .msg_control = of_fds ? &control : NULL, .msg_controllen = of_fds ? CMSG_SPACE(of_fds) : 0};
    if (may_differ && is_rare(500))
        parts[1].iov_len = any(size + 1);
    memset(&control, 0, sizeof control);
    control.first = (struct cmsghdr){.cmsg_level = SOL_SOCKET, .cmsg_type = SCM_RIGHTS, .cmsg_len = CMSG_LEN(of_fds)};
    memcpy(CMSG_DATA(&control.first), message.fds, of_fds);
    if (sendmsg(frontend, &it, MSG_DONTWAIT | MSG_NOSIGNAL) > 0)
        messages++;
    for (size_t i = 0; i < message.fd_count; i++)
        close(message.fds[i]);
}

static uint64_t user_place(uint64_t most)
{
    return is_rare(24) ? any(UINT64_MAX) : user + any(most / 16) * 16;
}

/* A region that is that of all memory, or a part of it. */
static void put_region(bool is_whole)
{
    uint64_t at = is_whole ? 0 : any(MEMORY / PAGE) * PAGE, size = is_whole ? MEMORY : any(MEMORY / PAGE) * PAGE;
    put64(guest + at);
    put64(!is_whole && is_rare(24) ? any(UINT64_MAX) : size);
    put64(user + at);
    put64(!is_whole && is_rare(24) ? any(UINT64_MAX) : at);
}

static void put_regions(uint32_t request, bool is_whole)
{
    uint64_t count = is_whole ? 1 : any(MOST_FDS);
    if (request != SET_MEM_TABLE)
        put64(0);
    else {
        put32(count);
        put32(0);
    }
    for (uint64_t i = 0; i < (request == SET_MEM_TABLE ? count : 1); i++) {
        put_region(is_whole);
        if (message.fd_count < MOST_FDS)
            add_fd(!is_whole && is_rare(24) ? make_fd() : fcntl(memory, F_DUPFD_CLOEXEC, 0));
    }
}

/* Where rings are: side by side, each with a page for its descriptors, one for its available and one for its used ring. */
static uint64_t ring_at(uint64_t index)
{
    return index * 3 * PAGE;
}

static void put_ring(uint64_t index, bool is_right)
{
    put32(index);
    put32(any(2));
    for (uint64_t part = 0; part < 3; part++) /* descriptors, used, available */
        put64(is_right ? user + ring_at(index) + (part == 0 ? 0 : part == 1 ? 2 : 1) * PAGE : user_place(MEMORY));
    put64(is_rare(4) ? guest + any(MEMORY) : 0);
}

/* A ring's eventfd, and the frontend's own of a kick. */
static void put_event(uint32_t request, uint64_t index, bool is_right)
{
    bool is_none = !is_right && is_rare(8);
    int fd = is_none ? -1 : is_right ? eventfd(0, EFD_NONBLOCK) : make_fd();
    put64(index | (is_none ? 0x100 : 0));
    if (fd >= 0)
        add_fd(fd);
    if (request == SET_VRING_KICK && index < QUEUES) {
        if (kicks[index] >= 0)
            close(kicks[index]);
        kicks[index] = fd < 0 ? -1 : fcntl(fd, F_DUPFD_CLOEXEC, 0);
    }
}

static void put_inflight(uint32_t request)
{
    put64(is_rare(2) ? any(3 * PAGE) : 0);
    put64(is_rare(4) ? any(PAGE) : 0);
    put32(any(QUEUES + 2) | (is_rare(4) ? any(2048) : SIZE) << 16);
    put32(0);
    if (request == SET_INFLIGHT_FD)
        add_fd(is_rare(4) ? make_fd() : fcntl(memory, F_DUPFD_CLOEXEC, 0));
}

static void put_config(void)
{
    uint64_t size = any(72);
    put32(any(72));
    put32(size);
    put32(any(2));
    for (uint64_t i = 0; i < size; i++)
        put(&(uint8_t){(uint8_t)i}, 1);
}

/* The protocol features that are offered. */
static uint64_t offered(void)
{
    uint64_t features = COVRETIN_PROTOCOL_MQ | COVRETIN_PROTOCOL_LOG_SHMFD | COVRETIN_PROTOCOL_REPLY_ACK | COVRETIN_PROTOCOL_CONFIG |
                        COVRETIN_PROTOCOL_RESET_DEVICE | COVRETIN_PROTOCOL_CONFIGURE_MEM_SLOTS | COVRETIN_PROTOCOL_BACKEND_REQ;
    return features | (calls.features & COVRETIN_DEVICE_RING_PACKED ? 0 : COVRETIN_PROTOCOL_INFLIGHT_SHMFD);
}

static int chosen = -1; /* a ring, or any */

/* What a request has, as the specification says, or as far as nothing else is wanted in its place. */
static void put_body(uint32_t request, bool is_right)
{
    uint64_t index = chosen >= 0 ? (uint64_t)chosen : any(QUEUES + 1), virtio = COVRETIN_DEVICE_VERSION_1 | (uint64_t)1 << 30;
    switch (request) {
    case SET_FEATURES:
        virtio |= is_rare(2) ? COVRETIN_DEVICE_INDIRECT_DESC : 0;
        put64(virtio | (is_rare(2) ? COVRETIN_DEVICE_EVENT_IDX : 0) | (is_packed ? COVRETIN_DEVICE_RING_PACKED : 0) | (uint64_t)is_rare(3) << 26);
        break;
    case SET_PROTOCOL_FEATURES: put64(is_right || is_rare(2) ? offered() : any(1 << 20)); break;
    case SET_MEM_TABLE: case ADD_MEM_REG: case REM_MEM_REG: put_regions(request, is_right || is_rare(3)); break;
    case SET_LOG_BASE:
        put64(any(4 * PAGE));
        put64(is_rare(4) ? any(PAGE) : 0);
        add_fd(is_rare(4) ? make_fd() : fcntl(memory, F_DUPFD_CLOEXEC, 0));
        break;
    case SET_VRING_NUM: case SET_VRING_BASE: case GET_VRING_BASE: case SET_VRING_ENABLE:
        put32(index);
        put32(request == SET_VRING_NUM && (is_right || !is_rare(8)) ? SIZE : request == SET_VRING_ENABLE ? is_right || !is_rare(4) : is_right ? 0 : any(1 << 16));
        break;
    case SET_VRING_ADDR: put_ring(index, is_right || !is_rare(4)); break;
    case SET_VRING_KICK: case SET_VRING_CALL: case SET_VRING_ERR: put_event(request, index, is_right || !is_rare(3)); break;
    case GET_INFLIGHT_FD: case SET_INFLIGHT_FD: put_inflight(request); break;
    case GET_CONFIG: case SET_CONFIG: put_config(); break;
    case SET_BACKEND_REQ_FD: add_fd(make_fd()); break;
    default: break;
    }
}

static void begin_message(uint32_t request)
{
    memset(&message, 0, sizeof message);
    message.header[0] = request;
    message.header[1] = 1 | (is_rare(2) ? 8 : 0);
}

/* Often one that a device has; at times any number. */
static uint32_t any_request(void)
{
    static const uint32_t some[] = {1, 2, 3, 5, 6, 8, 9, 10, 11, 12, 13, 14, 15, 16, 17, 18, 21, 24, 25, 31, 32, 34, 36, 37, 38};
    return is_rare(60) ? (uint32_t)any(BEYOND) : some[any(sizeof some / sizeof some[0])];
}

/* Postcopy does not listen: its pages would be waited for, which nobody brings here. */
static void say(uint32_t request, bool is_right)
{
    begin_message(request == POSTCOPY_LISTEN ? SET_OWNER : request);
    put_body(message.header[0], is_right);
    send_message(!is_right);
}

/* -- The guest -- */

static uint16_t available[QUEUES];

static void put_descriptor(uint64_t at, uint64_t addr, uint32_t len, uint16_t flags, uint16_t next)
{
    uint8_t bytes[16];
    memcpy(bytes, &addr, 8);
    memcpy(bytes + 8, &len, 4);
    memcpy(bytes + 12, is_packed ? &next : &flags, 2);
    memcpy(bytes + 14, is_packed ? &flags : &next, 2);
    (void)!pwrite(memory, bytes, sizeof bytes, (off_t)at);
}

/* A descriptor of either layout that is often right, somewhere in a ring's page of them, or in a table behind the rings. */
static void write_descriptor(uint64_t index)
{
    uint64_t addr = is_rare(60) ? any(UINT64_MAX) >> any(40) : guest + any(MEMORY - PAGE);
    uint32_t len = (uint32_t)(is_rare(60) ? any(UINT32_MAX) : 1 + any(0x400));
    uint16_t flags = (uint16_t)(any(4) | (is_rare(12) ? 4 : 0) | (is_packed ? any(2) << 7 | any(2) << 15 : 0)), next = (uint16_t)any(is_rare(60) ? SIZE + 1 : SIZE);
    uint64_t table = 3 * QUEUES * PAGE, number = any(SIZE);
    if (flags & 4) {
        addr = is_rare(4) ? addr : guest + table;
        len = is_rare(4) ? len : (uint32_t)(16 * any(20));
    }
    put_descriptor((is_rare(3) ? table : ring_at(index)) + 16 * number, addr, len, flags, next);
}

static void write16(uint64_t at, uint64_t value)
{
    (void)!pwrite(memory, &(uint16_t){(uint16_t)value}, 2, (off_t)at);
}

/* (no kick is waited for by whoever fuzzes either) */
static void kick(uint64_t index)
{
    struct pollfd has_room = {.fd = kicks[index], .events = POLLOUT};
    if (poll(&has_room, 1, 0) == 1 && has_room.revents == POLLOUT)
        (void)!write(kicks[index], &(uint64_t){1}, 8);
}

/* Makes some chains available, and kicks. */
static void drive(void)
{
    uint64_t index = any(QUEUES), at = ring_at(index) + PAGE;
    for (uint64_t left = any(3); left > 0; left--)
        write_descriptor(index);
    if (is_rare(8))
        write16(at + 4 + 2 * any(SIZE + 1), any(is_rare(16) ? SIZE + 2 : SIZE));
    uint16_t was = 0;
    if (pread(memory, &was, 2, (off_t)(ring_at(index) + 2 * PAGE + 2)) == 2 && (is_rare(8) || (uint16_t)(available[index] - was) > SIZE))
        available[index] = was;
    available[index] = (uint16_t)(available[index] + any(3) + (is_rare(64) ? any(99) : 0));
    write16(at + 2, available[index]);
    if (is_rare(8))
        write16(at, any(4));
    kick(index);
}

/* Memory goes, some of it or all; it comes back as zeros with the next write behind it. */
static void truncate_memory(void)
{
    must(ftruncate(memory, (off_t)(any(MEMORY / PAGE) * PAGE / (is_rare(2) ? 1 : MEMORY))) == 0);
    for (uint64_t index = 0; index < QUEUES; index++)
        kick(index);
}

/* Starts a ring, which has some right chains at first. */
static void start(uint64_t queue)
{
    static const uint32_t all[] = {GET_VRING_BASE, SET_VRING_NUM, SET_VRING_BASE, SET_VRING_ADDR, SET_VRING_CALL, SET_VRING_KICK, SET_VRING_ENABLE};
    static const uint8_t zeros[3 * PAGE];
    (void)!pwrite(memory, zeros, sizeof zeros, (off_t)ring_at(queue));
    for (uint64_t number = 0; number < SIZE; number++) {
        put_descriptor(ring_at(queue) + 16 * number, guest + any(MEMORY - PAGE), 1 + (uint32_t)any(PAGE),
                       (uint16_t)(is_packed ? any(2) << 1 | 1 << 7 : any(2) << 1), (uint16_t)number);
        write16(ring_at(queue) + PAGE + 4 + 2 * number, number);
    }
    available[queue] = 0;
    is_broken[queue] = false;
    for (size_t i = 0; i < sizeof all / sizeof all[0] && !is_rare(200); i++) {
        begin_message(all[i]);
        chosen = (int)queue;
        put_body(all[i], true);
        chosen = -1;
        send_message(false);
    }
}

/* -- Sessions -- */

/* The device does what there is to be done. */
static void serve(void)
{
    enum covretin_error error = COVRETIN_NOT_YET;
    for (int rounds = 0; rounds < 3 && error == COVRETIN_NOT_YET; rounds++)
        error = covretin_device_serve(&device);
    must(error == COVRETIN_NOT_YET || covretin_device_serve(&device) == error);
}

/* Takes what the device sent, with its descriptors. */
static void hear(void)
{
    union {
        struct cmsghdr first;
        uint8_t bytes[CMSG_SPACE(64 * sizeof(int))];
    } control;
    uint8_t bytes[4096];
    struct iovec part = {bytes, sizeof bytes};
    struct msghdr it = {.msg_iov = &part, .msg_iovlen = 1, .msg_control = &control, .msg_controllen = sizeof control};
    if (recvmsg(frontend, &it, MSG_DONTWAIT | MSG_CMSG_CLOEXEC) <= 0)
        return;
    for (struct cmsghdr *at = CMSG_FIRSTHDR(&it); at != NULL; at = CMSG_NXTHDR(&it, at))
        for (size_t i = 0; i < (at->cmsg_len - CMSG_LEN(0)) / sizeof(int); i++)
            close(((const int *)(const void *)CMSG_DATA(at))[i]);
}

static void finish_one(void)
{
    if (kept_count != 0) {
        size_t which = any(kept_count);
        covretin_request *request = kept[which];
        kept[which] = kept[--kept_count];
        finish(request);
    }
}

/* A session, as a frontend begins it; or not even that. */
static void begin(void)
{
    static const uint32_t all[] = {SET_OWNER, SET_PROTOCOL_FEATURES, SET_FEATURES, SET_MEM_TABLE};
    int ends[2];
    sessions++;
    is_packed = is_rare(3);
    has_ended = false;
    calls.features = is_packed || is_rare(4) ? COVRETIN_DEVICE_RING_PACKED : 0;
    calls.config_changed = is_rare(2) ? changes : NULL;
    calls.requests = is_rare(2) ? take_many : NULL;
    calls.channel = is_rare(2) ? take_channel : NULL;
    must(ftruncate(memory, MEMORY) == 0 && socketpair(AF_UNIX, SOCK_STREAM | SOCK_CLOEXEC, 0, ends) == 0);
    must(covretin_device_open_fd(&device, &calls, &device, ends[1]) == COVRETIN_OK);
    frontend = ends[0];
    for (size_t i = 0; i < sizeof all / sizeof all[0] && !is_rare(32); i++)
        say(all[i], true);
    for (uint64_t queue = 0; queue < QUEUES; queue++)
        start(queue);
    serve();
}

/* It ends, by whom else; requests may be left. */
static void end(void)
{
    bool is_told = !has_ended && is_rare(2), is_last = is_rare(2);
    close(frontend);
    for (size_t i = 0; i < QUEUES; i++) {
        if (kicks[i] >= 0)
            close(kicks[i]);
        kicks[i] = -1;
    }
    while (kept_count != 0 && (is_told || !is_last))
        finish_one();
    if (is_told) {
        for (int rounds = 0; rounds < 100 && !has_ended; rounds++)
            (void)covretin_device_serve(&device);
        unanswered += !has_ended;
    }
    covretin_device_close(&device);
    while (kept_count != 0)
        finish_one();
    must(device.opaque == NULL);
}

static void step(void)
{
    uint64_t queue = any(QUEUES);
    if (is_broken[queue] && is_rare(2))
        start(queue);
    switch (any(16)) {
    case 0: say(any_request(), false); break;
    case 1: case 2: case 3: finish_one(); break;
    case 4: {
        covretin_request *request = covretin_device_take(&device, (uint32_t)any(QUEUES + 1));
        if (request != NULL)
            finish(request);
        break;
    }
    case 5:
        if (is_rare(30))
            truncate_memory();
        else if (is_rare(60))
            covretin_device_stop(&device);
        break;
    default: drive(); break;
    }
    serve();
    hear();
}

int main(int argc, char **argv)
{
    unsigned long steps = argc == 3 ? strtoul(argv[2], NULL, 10) : 0;
    state = argc == 3 ? strtoull(argv[1], NULL, 10) * 0x9e3779b97f4a7c15u + 1 : 0;
    if (steps == 0) {
        fprintf(stderr, "usage: device SEED STEPS\n");
        return 1;
    }
    signal(SIGPIPE, SIG_IGN);
    memory = memfd_create("fuzz", MFD_CLOEXEC);
    size_t before = descriptors();
    begin();
    for (unsigned long done = 0; done < steps; done++) {
        step();
        if (has_ended || is_rare(400)) {
            end();
            must(descriptors() == before);
            begin();
        }
    }
    end();
    must(descriptors() == before && unanswered == 0);
    printf("%lu steps, %lu sessions, %lu messages, %lu refused; %lu requests, %lu broken queues, %lu times memory was lost\n", steps, sessions, messages,
           refused, requests, broken, lost);
    /* (else it does not reach what it is for) */
    must(steps < 100000 || (requests > steps / 20 && broken > steps / 200 && refused > steps / 100 && lost > steps / 10000));
    return 0;
}
