/* What a frontend or a guest costs the others of an event loop, over covretin_device.h: in processor time of the loop's thread, which the
 * test is. So this program has no sanitizers. What interrupts a thread, or fills its caches, is counted to it. So the quickest quarter of the
 * tries is judged: a fault of the library makes each of them take longer. */
#ifndef _GNU_SOURCE
#define _GNU_SOURCE
#endif

#include "covretin_device.h"
#include "testing.h"

#include <errno.h>
#include <stdio.h>
#include <stdlib.h>
#include <string.h>
#include <sys/eventfd.h>
#include <sys/mman.h>
#include <sys/resource.h>
#include <sys/socket.h>
#include <sys/wait.h>
#include <time.h>
#include <unistd.h>

enum {
    QUEUES = 64,
    QUEUE_SIZE = 1024,
    TRIES = 24,
    LOOKS = 20000,
    ANSWERED = 5000000, /* nanoseconds, in which a call of another session is answered, */
    ONCE = 1000000,     /* and in which a session begins, or ends; to unmap here what it had takes more than 3000000 */
    NEED_REPLY = 8,
    PAGE = 4096,
    WRITE = 2,
    NEXT = 1,
    INDIRECT = 4
};

#define USER ((uint64_t)0x7f0000000000)

/* -- What is measured -- */

static uint64_t time_of_thread(void)
{
    struct timespec at;
    clock_gettime(CLOCK_THREAD_CPUTIME_ID, &at);
    return (uint64_t)at.tv_sec * 1000000000 + (uint64_t)at.tv_nsec;
}

static int compare(const void *one, const void *other)
{
    uint64_t a = *(const uint64_t *)one, b = *(const uint64_t *)other;
    return (a > b) - (a < b);
}

/* A quarter of the tries took this or less. */
static void expect_within(int line, uint64_t limit, uint64_t *costs)
{
    qsort(costs, TRIES, sizeof *costs, compare);
    uint64_t most = costs[TRIES / 4];
    if (most > limit)
        expect(line, "nanoseconds", (long long)limit, (long long)most);
}

#define WITHIN(limit, costs) expect_within(__LINE__, limit, costs)

/* -- Sessions, whose frontends are at the other ends of sockets -- */

struct peer {
    covretin_device device;
    int fd; /* the frontend's end */
};

enum { MOST_KEPT = 64 };

static size_t requests;
static uint32_t written; /* what is said of each */
static covretin_request *kept[MOST_KEPT];

static void on_request(void *none, covretin_request *request)
{
    (void)none;
    requests++;
    covretin_request_done(request, written);
}

static void keep_request(void *none, covretin_request *request)
{
    (void)none;
    kept[requests++] = request;
}

/* What is to be written is, a byte of each page. */
static void touch_pages(void *none, covretin_request *request)
{
    (void)none;
    requests++;
    for (size_t i = 0; i < request->writable; i++) {
        volatile uint8_t *bytes = request->segments[request->readable + i].iov_base;
        for (size_t at = 0; at < request->segments[request->readable + i].iov_len; at += PAGE)
            bytes[at] = 1;
    }
    covretin_request_done(request, 0);
}

static const covretin_device_calls touching = {.queues = 1, .request = touch_pages};
static const covretin_device_calls calls = {.queues = QUEUES, .request = on_request}, keeping = {.queues = 1, .request = keep_request};

static void begin_as(struct peer *peer, const covretin_device_calls *table)
{
    int ends[2];
    if (socketpair(AF_UNIX, SOCK_STREAM | SOCK_CLOEXEC, 0, ends))
        give_up("socketpair");
    peer->fd = ends[0];
    peer->device = (covretin_device){0};
    EXPECT(COVRETIN_OK, covretin_device_open_fd(&peer->device, table, NULL, ends[1]));
}

static void begin(struct peer *peer)
{
    begin_as(peer, &calls);
}

static void end(struct peer *peer)
{
    close(peer->fd);
    covretin_device_close(&peer->device);
}

struct message {
    uint32_t request, flags, size;
    uint8_t body[1100];
};

static struct message message_of(uint32_t request, uint32_t flags, const void *body, size_t size)
{
    struct message message = {request, 1 | flags, (uint32_t)size, {0}};
    if (size != 0)
        memcpy(message.body, body, size);
    return message;
}

/* Sends a message with descriptors. False: the socket is full. */
static bool send_fds(const struct peer *peer, const struct message *message, const int *fds, size_t count)
{
    struct iovec bytes = {(void *)(uintptr_t)message, 12 + message->size};
    _Alignas(struct cmsghdr) uint8_t control[CMSG_SPACE(32 * sizeof(int))] = {0};
    struct msghdr sent = {.msg_iov = &bytes, .msg_iovlen = 1, .msg_control = control, .msg_controllen = CMSG_SPACE(count * sizeof *fds)};
    struct cmsghdr *head = CMSG_FIRSTHDR(&sent);
    if (count != 0) {
        *head = (struct cmsghdr){.cmsg_level = SOL_SOCKET, .cmsg_type = SCM_RIGHTS, .cmsg_len = CMSG_LEN(count * sizeof *fds)};
        memcpy(CMSG_DATA(head), fds, count * sizeof *fds);
    } else
        sent.msg_control = NULL, sent.msg_controllen = 0;
    ssize_t done = sendmsg(peer->fd, &sent, MSG_DONTWAIT | MSG_NOSIGNAL);
    if (done >= 0 && done < (ssize_t)bytes.iov_len)
        give_up("a message was cut");
    return done >= 0;
}

static bool send_one(const struct peer *peer, uint32_t request, const void *body, size_t size)
{
    struct message message = message_of(request, 0, body, size);
    return send_fds(peer, &message, NULL, 0);
}

/* Whether a reply has come, which is read with the descriptors that it has. */
static bool has_reply(const struct peer *peer, struct message *reply)
{
    struct iovec bytes = {reply, 12};
    _Alignas(struct cmsghdr) uint8_t control[CMSG_SPACE(8 * sizeof(int))];
    struct msghdr got = {.msg_iov = &bytes, .msg_iovlen = 1, .msg_control = control, .msg_controllen = sizeof control};
    int fd;
    if (recvmsg(peer->fd, &got, MSG_DONTWAIT | MSG_CMSG_CLOEXEC) != 12)
        return false;
    for (struct cmsghdr *head = CMSG_FIRSTHDR(&got); head != NULL; head = CMSG_NXTHDR(&got, head)) {
        memcpy(&fd, CMSG_DATA(head), sizeof fd);
        close(fd);
    }
    if (reply->size > sizeof reply->body || recv(peer->fd, reply->body, reply->size, MSG_DONTWAIT) != (ssize_t)reply->size)
        give_up("a reply was cut");
    return true;
}

static void serve(struct peer *peer)
{
    EXPECT(COVRETIN_NOT_YET, covretin_device_serve(&peer->device));
}

/* Sends a message, and serves it: what is acknowledged. */
static uint64_t ask_fds(struct peer *peer, uint32_t request, const void *body, size_t size, const int *fds, size_t count)
{
    struct message message = message_of(request, NEED_REPLY, body, size);
    uint64_t value = 0;
    if (!send_fds(peer, &message, fds, count))
        give_up("the socket is full");
    for (int i = 0; i < 100 && !has_reply(peer, &message); i++)
        serve(peer);
    memcpy(&value, message.body, sizeof value);
    return message.flags & 4 ? value : UINT64_MAX;
}

static uint64_t ask(struct peer *peer, uint32_t request, const void *body, size_t size)
{
    return ask_fds(peer, request, body, size, NULL, 0);
}

static void negotiate(struct peer *peer, uint64_t features)
{
    uint64_t protocol = ask(peer, COVRETIN_CALL_GET_PROTOCOL_FEATURES, NULL, 0);
    features |= COVRETIN_FEATURE_PROTOCOL_FEATURES | COVRETIN_DEVICE_VERSION_1 | COVRETIN_DEVICE_INDIRECT_DESC;
    EXPECT(true, ask(peer, COVRETIN_CALL_GET_FEATURES, NULL, 0) != 0);
    EXPECT(true, send_one(peer, COVRETIN_CALL_SET_PROTOCOL_FEATURES, &protocol, sizeof protocol));
    EXPECT(0, ask(peer, COVRETIN_CALL_SET_OWNER, NULL, 0));
    EXPECT(0, ask(peer, COVRETIN_CALL_SET_FEATURES, &features, sizeof features));
}

/* -- Memory and rings of a guest -- */

static int memory_of(uint64_t size)
{
    int fd = memfd_create("memory", MFD_CLOEXEC);
    if (fd < 0 || ftruncate(fd, (off_t)size))
        give_up("memfd_create");
    return fd;
}

struct region {
    uint64_t guest, size, user, offset;
};

struct table {
    uint32_t count, none;
    struct region regions[32];
};

/* So many regions of a size, one behind the other. */
static struct table table_of(uint32_t count, uint64_t size)
{
    struct table table = {.count = count};
    for (uint32_t i = 0; i < count; i++)
        table.regions[i] = (struct region){i * size, size, USER + i * size, 0};
    return table;
}

static bool send_table(const struct peer *peer, const struct table *table, int fd)
{
    struct message message = message_of(COVRETIN_CALL_SET_MEM_TABLE, 0, table, 8 + table->count * sizeof *table->regions);
    int fds[32];
    for (size_t i = 0; i < 32; i++)
        fds[i] = fd;
    return send_fds(peer, &message, fds, table->count);
}

/* The same, served: what is acknowledged. */
static uint64_t set_table(struct peer *peer, const struct table *table, int fd)
{
    int fds[32];
    for (size_t i = 0; i < 32; i++)
        fds[i] = fd;
    return ask_fds(peer, COVRETIN_CALL_SET_MEM_TABLE, table, 8 + table->count * sizeof *table->regions, fds, table->count);
}

/* One more region of a page, whose number this is. */
static uint64_t add_page(struct peer *peer, uint64_t page, int fd)
{
    const uint64_t region[] = {0, page * PAGE, PAGE, USER + page * PAGE, page * PAGE};
    return ask_fds(peer, COVRETIN_CALL_ADD_MEM_REG, region, sizeof region, &fd, 1);
}

/* Where the rings of a guest lie in its first region, and a table of descriptors that each of its requests names. All rings are in one
 * place. */
enum { FIRST = 0x100000, AVAILABLE = 0x8000, USED = 0x10000, TABLE = 0x20000 };

struct descriptor {
    uint64_t addr;
    uint32_t len;
    uint16_t flags, next;
};

/* A guest's first region, in which each ring has so many requests of so many segments, of these addresses and of this length. */
static int make_requests(uint16_t count, uint16_t segments, uint64_t at, uint32_t len)
{
    int fd = memory_of(FIRST);
    uint8_t *bytes = mmap(NULL, FIRST, PROT_READ | PROT_WRITE, MAP_SHARED, fd, 0);
    if (bytes == MAP_FAILED)
        give_up("mmap");
    struct descriptor *ring = (void *)bytes, *table = (void *)(bytes + TABLE);
    uint16_t *available = (void *)(bytes + AVAILABLE);
    for (uint16_t i = 0; i < count; i++) {
        ring[i] = (struct descriptor){TABLE, segments * (uint32_t)sizeof *table, INDIRECT, 0};
        available[2 + i] = i;
    }
    available[1] = count;
    for (uint16_t i = 0; i < segments; i++)
        table[i] = (struct descriptor){at, len, WRITE | (i + 1 < segments ? NEXT : 0), (uint16_t)(i + 1)};
    munmap(bytes, FIRST);
    return fd;
}

static void start_ring(struct peer *peer, uint32_t index, int kick, int call)
{
    const uint32_t size[] = {index, QUEUE_SIZE}, base[] = {index, 0}, enabled[] = {index, 1};
    const uint64_t which = index, place[] = {index, USER, USER + USED, USER + AVAILABLE, 0};
    EXPECT(0, ask(peer, COVRETIN_CALL_SET_VRING_NUM, size, sizeof size));
    EXPECT(0, ask(peer, COVRETIN_CALL_SET_VRING_ADDR, place, sizeof place));
    EXPECT(0, ask(peer, COVRETIN_CALL_SET_VRING_BASE, base, sizeof base));
    EXPECT(0, ask_fds(peer, COVRETIN_CALL_SET_VRING_CALL, &which, sizeof which, &call, 1));
    EXPECT(0, ask_fds(peer, COVRETIN_CALL_SET_VRING_KICK, &which, sizeof which, &kick, 1));
    EXPECT(0, ask(peer, COVRETIN_CALL_SET_VRING_ENABLE, enabled, sizeof enabled));
}

/* -- One loop, an honest session, and a frontend that sends without end -- */

static int memory = -1;

/* Both: the greedy session has `fill`, which sends until the socket is full. The honest one's call comes just behind its turn. */
static void stand_beside(struct peer *greedy, void (*fill)(const struct peer *greedy))
{
    struct peer honest;
    struct message reply;
    uint64_t costs[TRIES];
    size_t far_beyond = 0;
    begin(&honest);
    negotiate(&honest, 0);
    for (size_t i = 0; i < TRIES; i++) {
        fill(greedy);
        uint64_t at = time_of_thread();
        serve(greedy);
        EXPECT(true, send_one(&honest, COVRETIN_CALL_GET_FEATURES, NULL, 0));
        do {
            serve(greedy);
            serve(&honest);
        } while (!has_reply(&honest, &reply));
        costs[i] = time_of_thread() - at;
        while (has_reply(greedy, &reply))
            ;
        far_beyond += costs[i] > 8 * (uint64_t)ANSWERED;
        if (far_beyond > TRIES / 8) /* it takes no further try */
            for (i++; i < TRIES; i++)
                costs[i] = costs[i - 1];
    }
    WITHIN(ANSWERED, costs);
    end(&honest);
}

static void send_calls(const struct peer *greedy)
{
    while (send_one(greedy, COVRETIN_CALL_GET_FEATURES, NULL, 0))
        ;
}

static void an_honest_call_beside_calls(void)
{
    struct peer greedy;
    begin(&greedy);
    negotiate(&greedy, 0);
    stand_beside(&greedy, send_calls);
    end(&greedy);
}

static void send_tables(const struct peer *greedy)
{
    struct table table = table_of(32, (uint64_t)1 << 35);
    while (send_table(greedy, &table, memory))
        ;
}

static void an_honest_call_beside_tables(void)
{
    struct peer greedy;
    begin(&greedy);
    negotiate(&greedy, 0);
    memory = memory_of((uint64_t)1 << 40);
    stand_beside(&greedy, send_tables);
    close(memory);
    end(&greedy);
}

/* The last region comes and goes. */
static void send_regions(const struct peer *greedy)
{
    const uint64_t last = COVRETIN_DEVICE_MAX_REGIONS - 1, region[] = {0, last * PAGE, PAGE, USER + last * PAGE, 0};
    struct message more = message_of(COVRETIN_CALL_ADD_MEM_REG, 0, region, sizeof region);
    while (send_fds(greedy, &more, &memory, 1) && send_one(greedy, COVRETIN_CALL_REM_MEM_REG, region, sizeof region))
        ;
}

static void an_honest_call_beside_regions(void)
{
    struct peer greedy;
    begin(&greedy);
    negotiate(&greedy, 0);
    memory = memory_of(COVRETIN_DEVICE_MAX_REGIONS * PAGE);
    for (uint64_t i = 0; i < COVRETIN_DEVICE_MAX_REGIONS - 1; i++)
        EXPECT(0, add_page(&greedy, i, memory));
    stand_beside(&greedy, send_regions);
    close(memory);
    end(&greedy);
}

static void ask_for_inflight(const struct peer *greedy)
{
    const struct {
        uint64_t size, offset;
        uint16_t queues, queue_size;
        uint32_t none;
    } told = {0, 0, QUEUES, QUEUE_SIZE, 0};
    while (send_one(greedy, COVRETIN_CALL_GET_INFLIGHT_FD, &told, sizeof told))
        ;
}

static void an_honest_call_beside_inflight_regions(void)
{
    struct peer greedy;
    begin(&greedy);
    negotiate(&greedy, 0);
    stand_beside(&greedy, ask_for_inflight);
    end(&greedy);
}

/* Requests without end: each of as many segments as it may have, all in the last of as many regions. */
static void wait_for_more(const struct peer *greedy)
{
    static size_t before;
    (void)greedy;
    EXPECT(true, requests != before);
    before = requests;
}

static void an_honest_call_beside_requests(void)
{
    struct peer greedy;
    struct table table = table_of(1, FIRST);
    const uint64_t pages = COVRETIN_DEVICE_MAX_REGIONS - 1, last = FIRST + (pages - 1) * PAGE;
    int kick = eventfd(1, EFD_CLOEXEC | EFD_NONBLOCK), call = eventfd(0, EFD_CLOEXEC | EFD_NONBLOCK);
    begin(&greedy);
    negotiate(&greedy, 0);
    int first = make_requests(QUEUE_SIZE, QUEUE_SIZE, last, 4);
    memory = memory_of(last + PAGE);
    EXPECT(true, send_table(&greedy, &table, first));
    for (uint64_t i = 0; i < pages; i++)
        EXPECT(0, add_page(&greedy, FIRST / PAGE + i, memory));
    requests = 0;
    for (uint32_t i = 0; i < QUEUES; i++)
        start_ring(&greedy, i, kick, call);
    stand_beside(&greedy, wait_for_more);
    EXPECT(true, requests < QUEUES * QUEUE_SIZE); /* there were more all the time */
    end(&greedy);
    close(first);
    close(memory);
    close(kick);
    close(call);
}

/* The same with the dirty log, of requests whose segments are all of a region of 4 GiB; the device says that it wrote none, or as much as
 * there is to say. */
static void stand_beside_logged_requests(uint32_t said)
{
    struct peer greedy;
    const uint64_t size = (uint64_t)1 << 32, log_place[] = {size / PAGE / 8 * 2, 0};
    const struct table table = {.count = 2, .regions = {{0, FIRST, USER, 0}, {size, size, USER + size, 0}}};
    struct message regions = message_of(COVRETIN_CALL_SET_MEM_TABLE, 0, &table, 8 + 2 * sizeof *table.regions), reply;
    struct message logs = message_of(COVRETIN_CALL_SET_LOG_BASE, 0, log_place, sizeof log_place);
    int kick = eventfd(1, EFD_CLOEXEC | EFD_NONBLOCK), call = eventfd(0, EFD_CLOEXEC | EFD_NONBLOCK), log = memory_of(log_place[0]);
    int fds[] = {make_requests(QUEUE_SIZE, QUEUE_SIZE, size, UINT32_MAX), memory_of(size)};
    begin(&greedy);
    negotiate(&greedy, COVRETIN_FEATURE_LOG_ALL);
    EXPECT(true, send_fds(&greedy, &logs, &log, 1) && send_fds(&greedy, &regions, fds, 2));
    while (!has_reply(&greedy, &reply))
        serve(&greedy);
    requests = 0;
    written = said;
    for (uint32_t i = 0; i < QUEUES; i++)
        start_ring(&greedy, i, kick, call);
    stand_beside(&greedy, wait_for_more);
    written = 0;
    end(&greedy);
    for (size_t i = 0; i < 2; i++)
        close(fds[i]);
    close(log);
    close(kick);
    close(call);
}

static void an_honest_call_beside_logged_requests(void)
{
    stand_beside_logged_requests(0);
}

static void an_honest_call_beside_requests_that_are_written(void)
{
    stand_beside_logged_requests(UINT32_MAX);
}

/* -- What a session may have mapped -- */

/* Sessions that have as many regions as each may. */
static void many_regions_are_no_others(void)
{
    enum { PEERS = 9 };
    struct peer peers[PEERS], honest;
    const struct table one = table_of(1, PAGE);
    size_t refused = 0;
    memory = memory_of(COVRETIN_DEVICE_MAX_REGIONS * PAGE);
    for (size_t i = 0; i < PEERS; i++) {
        begin_as(&peers[i], &keeping);
        negotiate(&peers[i], 0);
        for (uint64_t page = 0; page < COVRETIN_DEVICE_MAX_REGIONS; page++)
            refused += add_page(&peers[i], page, memory) != 0;
    }
    EXPECT(0, refused);
    begin_as(&honest, &keeping);
    negotiate(&honest, 0);
    EXPECT(0, set_table(&honest, &one, memory));
    end(&honest);
    for (size_t i = 0; i < PEERS; i++)
        end(&peers[i]);
    close(memory);
}

/* One whose requests keep what it had: each is under way while its table is another. It has its share, and no more until they are done. */
static void requests_keep_a_share(void)
{
    struct peer greedy, honest;
    struct table table = table_of(32, PAGE);
    int kick = eventfd(0, EFD_CLOEXEC | EFD_NONBLOCK), call = eventfd(0, EFD_CLOEXEC | EFD_NONBLOCK);
    for (uint32_t i = 0; i < 32; i++)
        table.regions[i] = (struct region){i * (uint64_t)FIRST, i != 0 ? PAGE : FIRST, USER + i * (uint64_t)FIRST, 0};
    int first = make_requests(MOST_KEPT, 1, TABLE, 4);
    uint8_t *bytes = mmap(NULL, FIRST, PROT_READ | PROT_WRITE, MAP_SHARED, first, 0);
    if (bytes == MAP_FAILED)
        give_up("mmap");
    uint16_t *available = (uint16_t *)(void *)(bytes + AVAILABLE);
    available[1] = 0;
    begin_as(&greedy, &keeping);
    negotiate(&greedy, 0);
    EXPECT(0, set_table(&greedy, &table, first));
    start_ring(&greedy, 0, kick, call);
    requests = 0;
    while (requests < MOST_KEPT) {
        available[1]++;
        EXPECT(0, eventfd_write(kick, 1));
        serve(&greedy);
        if (requests != available[1] || set_table(&greedy, &table, first) != 0)
            break;
    }
    EXPECT(32, requests); /* as many tables make 1,024 mappings */
    begin_as(&honest, &keeping);
    negotiate(&honest, 0);
    EXPECT(0, set_table(&honest, &table, first));
    end(&honest);
    for (size_t i = 0; i < requests; i++)
        covretin_request_done(kept[i], 0);
    for (size_t i = 0; i < LOOKS && set_table(&greedy, &table, first) != 0; i++)
        usleep(1000); /* a thread unmaps them */
    EXPECT(0, set_table(&greedy, &table, first));
    end(&greedy);
    munmap(bytes, FIRST);
    close(first);
    close(kick);
    close(call);
}

/* -- Sessions come and go -- */

static long slept(void)
{
    struct rusage usage;
    getrusage(RUSAGE_THREAD, &usage);
    return usage.ru_nvcsw;
}

/* What the system has to do may put a thread to sleep now and then, but not each time. */
static void no_session_waits_to_end(void)
{
    covretin_listener listener = {0};
    size_t open_slept = 0, close_slept = 0, late_slept = 0;
    EXPECT(COVRETIN_OK, covretin_listen(&listener, "costs.socket"));
    for (size_t i = 0; i < TRIES; i++) {
        struct peer peer;
        covretin_device late = {0};
        long before = slept();
        begin(&peer);
        open_slept += slept() != before;
        before = slept();
        end(&peer);
        close_slept += slept() != before;
        before = slept();
        EXPECT(COVRETIN_TIMED_OUT, covretin_device_open(&late, &calls, NULL, &listener)); /* nobody waits there */
        late_slept += slept() != before;
    }
    EXPECT(true, open_slept <= TRIES / 8);
    EXPECT(true, close_slept <= TRIES / 8);
    EXPECT(true, late_slept <= TRIES / 8);
    covretin_unlisten(&listener);
}

/* What sessions take to begin and to end, whose devices touched this much of each region: the first ones are of a table, and the rest come
 * one by one. */
static void expect_short(uint32_t in_table, uint64_t size, uint64_t more)
{
    uint64_t begins[TRIES], ends[TRIES];
    const struct table table = table_of(in_table, size);
    int kick = eventfd(1, EFD_CLOEXEC | EFD_NONBLOCK), call = eventfd(0, EFD_CLOEXEC | EFD_NONBLOCK);
    uint16_t count = (uint16_t)(in_table + more);
    int first = make_requests(1, count, 0, PAGE);
    uint8_t *bytes = mmap(NULL, FIRST, PROT_READ | PROT_WRITE, MAP_SHARED, first, 0);
    if (bytes == MAP_FAILED || ftruncate(first, (off_t)(size + more * PAGE)))
        give_up("mmap");
    struct descriptor *segments = (void *)(bytes + TABLE);
    for (uint16_t i = 0; i < count; i++) { /* but for the rings */
        segments[i].addr = i < in_table ? i * size + FIRST / 2 : in_table * size + (uint64_t)(i - in_table) * PAGE;
        segments[i].len = i < in_table ? (uint32_t)(size - FIRST / 2) : PAGE;
    }
    for (size_t i = 0; i < TRIES; i++) {
        struct peer peer;
        uint64_t at = time_of_thread();
        begin_as(&peer, &touching);
        begins[i] = time_of_thread() - at;
        negotiate(&peer, 0);
        EXPECT(0, set_table(&peer, &table, first));
        for (uint64_t page = 0; page < more; page++)
            EXPECT(0, add_page(&peer, in_table * size / PAGE + page, first));
        requests = 0;
        start_ring(&peer, 0, kick, call);
        serve(&peer);
        EXPECT(1, requests);
        at = time_of_thread();
        end(&peer);
        ends[i] = time_of_thread() - at;
        memset(bytes + USED, 0, 4); /* for the next */
    }
    WITHIN(ONCE, begins);
    WITHIN(ONCE, ends);
    munmap(bytes, FIRST);
    close(first);
    close(kick);
    close(call);
}

static void sessions_begin_and_end_at_once(void)
{
    expect_short(1, FIRST, 0);
}

static void sessions_of_many_regions_end_at_once(void)
{
    expect_short(1, FIRST, COVRETIN_DEVICE_MAX_REGIONS - 1);
}

static void sessions_of_many_pages_end_at_once(void)
{
    expect_short(32, 4 * FIRST, 0);
}

/* -- A child of fork, which has a session of its parent's, and one of its own -- */

/* The first ring has one more request, which is served, and its driver is told. */
static void expect_a_call(struct peer *peer, uint16_t *available, int kick, int call)
{
    eventfd_t count = 0;
    available[1]++;
    EXPECT(0, eventfd_write(kick, 1));
    serve(peer);
    EXPECT(0, eventfd_read(call, &count));
    EXPECT(1, count);
}

static void a_child_signals_calls(void)
{
    struct peer peer;
    const struct table table = table_of(1, FIRST);
    int kick = eventfd(0, EFD_CLOEXEC | EFD_NONBLOCK), call = eventfd(0, EFD_CLOEXEC | EFD_NONBLOCK), status = 1;
    int first = make_requests(0, 1, TABLE, 4);
    uint8_t *bytes = mmap(NULL, FIRST, PROT_READ | PROT_WRITE, MAP_SHARED, first, 0);
    if (bytes == MAP_FAILED)
        give_up("mmap");
    *(struct descriptor *)(void *)bytes = (struct descriptor){TABLE, 4, WRITE, 0};
    begin(&peer);
    negotiate(&peer, 0);
    EXPECT(true, send_table(&peer, &table, first));
    start_ring(&peer, 0, kick, call);
    serve(&peer);
    eventfd_t none;
    (void)!eventfd_read(call, &none);
    expect_a_call(&peer, (uint16_t *)(void *)(bytes + AVAILABLE), kick, call);
    size_t wrong = expected_wrong();
    pid_t child = fork();
    if (child == 0) {
        struct peer other;
        for (size_t i = 0; i < 200; i++) /* more than there is room for what ended */
            expect_a_call(&peer, (uint16_t *)(void *)(bytes + AVAILABLE), kick, call);
        begin(&other);
        end(&other);
        _exit(expected_wrong() != wrong);
    }
    EXPECT(child, waitpid(child, &status, 0));
    EXPECT(0, status);
    end(&peer);
    munmap(bytes, FIRST);
    close(first);
    close(kick);
    close(call);
}

int main(void)
{
    RUN(an_honest_call_beside_calls);
    RUN(an_honest_call_beside_tables);
    RUN(an_honest_call_beside_regions);
    RUN(an_honest_call_beside_inflight_regions);
    RUN(an_honest_call_beside_requests);
    RUN(an_honest_call_beside_logged_requests);
    RUN(an_honest_call_beside_requests_that_are_written);
    RUN(many_regions_are_no_others);
    RUN(requests_keep_a_share);
    RUN(no_session_waits_to_end);
    RUN(sessions_begin_and_end_at_once);
    RUN(sessions_of_many_regions_end_at_once);
    RUN(sessions_of_many_pages_end_at_once);
    RUN(a_child_signals_calls);
    return status();
}
