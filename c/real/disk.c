/* SPDX-License-Identifier: Apache-2.0 */
/* A VMM's side of a disk (vhost-user-blk; virtio 1.2, 5.2), against a backend over a raw file, the image.
 *
 *     disk PATH IMAGE PID work       reads and writes sectors over two rings, past their ends
 *     disk PATH IMAGE PID regions    the same through memory that is plugged in and out, in as many regions as the backend takes
 *     disk PATH IMAGE PID log        and the backend keeps the dirty log
 *     disk PATH IMAGE PID killed     kills the backend amid a call and amid requests, and goes on with the next one there
 *     disk PATH IMAGE PID harm       gives it a pipe that nobody reads, and an inflight region amid requests
 *     disk PATH IMAGE PID turned     turns to postcopy and back without NEED_REPLY, and asks for numbers in between
 *
 * PID is the backend's process. What is read is compared with the image, and what was written is looked for there. Prints a
 * line for each call; status 0 where all was so, 1 where something was not, 2 after wrong arguments, 4 where the backend cannot do it. */
#include "vmm.h"

#include <fcntl.h>
#include <linux/virtio_blk.h>
#include <signal.h>
#include <stdio.h>
#include <stdlib.h>
#include <string.h>
#include <sys/mman.h>
#include <sys/stat.h>
#include <time.h>
#include <unistd.h>

enum {
    SECTOR = 512,
    BLOCK = 4096,
    SLOTS = 4,             /* requests under way at a time; each has three descriptors, */
    SLOT_ROOM = 3 * PAGE,  /* and a page each for its header, its data and its status */
    MEMORY_SIZE = QUEUE_ROOM + SLOTS * SLOT_ROOM
};

static const uint64_t guest_base = (uint64_t)1 << 32;

static struct memory memory;
static struct virtqueue queue;
static int image;
static uint64_t capacity; /* in sectors */
static pid_t backend;

/* -- Requests -- */

static uint8_t *slot_page(unsigned slot, unsigned page)
{
    return memory.at + QUEUE_ROOM + slot * SLOT_ROOM + page * PAGE;
}

/* Data of a request: so many bytes, anywhere in a memory. */
struct data {
    const struct memory *memory;
    uint8_t *bytes;
    uint32_t length;
};

/* Posts a request. The device is not kicked yet. */
static void post_request(unsigned slot, uint32_t type, uint64_t sector, struct data data)
{
    struct virtio_blk_outhdr *header = (struct virtio_blk_outhdr *)slot_page(slot, 0);
    uint8_t *status = slot_page(slot, 2);
    uint16_t first = (uint16_t)(3 * slot), second = (uint16_t)(first + 1), third = (uint16_t)(first + 2);
    uint16_t flags = type == VIRTIO_BLK_T_IN ? DESCRIPTOR_NEXT | DESCRIPTOR_WRITE : DESCRIPTOR_NEXT;
    *header = (struct virtio_blk_outhdr){.type = type, .sector = sector};
    *status = 0xee;
    queue.descriptors[first] = (struct descriptor){guest_address(&memory, header), sizeof *header, DESCRIPTOR_NEXT,
                                                   data.length == 0 ? third : second};
    queue.descriptors[second] = (struct descriptor){guest_address(data.memory, data.bytes), data.length, flags, third};
    queue.descriptors[third] = (struct descriptor){guest_address(&memory, status), 1, DESCRIPTOR_WRITE, 0};
    post(&queue, first);
}

/* A request alone: posted, used, and its status. A good one says how much the device wrote: what was read, and the status. */
static uint8_t request(uint32_t type, uint64_t sector, struct data data)
{
    struct used_element used;
    uint8_t status;
    post_request(0, type, sector, data);
    kick(&queue);
    take(&queue, &used, "the request was used");
    check(used.head == 0, "what was used is what was posted");
    status = *slot_page(0, 2);
    if (status == VIRTIO_BLK_S_OK)
        check(used.length == (type == VIRTIO_BLK_T_IN ? data.length : 0) + 1, "its length is what the device wrote");
    return status;
}

/* Whether these bytes are the image's at a sector. */
static bool is_in_image(const uint8_t *bytes, uint64_t sector, size_t length)
{
    uint8_t found[BLOCK];
    return pread(image, found, length, (off_t)(sector * SECTOR)) == (ssize_t)length && memcmp(found, bytes, length) == 0;
}

/* Fills a buffer with bytes that differ from those of each time before: a linear congruential generator goes on. */
static void fill(uint8_t *bytes, size_t length)
{
    static uint32_t state;
    for (size_t i = 0; i < length; i++) {
        state = state * 1664525 + 1013904223;
        bytes[i] = (uint8_t)(state >> 24);
    }
}

static void read_sectors(uint64_t sector, struct data data)
{
    memset(data.bytes, 0xdd, data.length);
    check(request(VIRTIO_BLK_T_IN, sector, data) == VIRTIO_BLK_S_OK, "the sectors were read");
    check(is_in_image(data.bytes, sector, data.length), "what was read is the image's");
}

static void write_sectors(uint64_t sector, struct data data)
{
    const struct data none = {data.memory, data.bytes, 0};
    fill(data.bytes, data.length);
    check(!is_in_image(data.bytes, sector, data.length), "what is to be written is not in the image before");
    check(request(VIRTIO_BLK_T_OUT, sector, data) == VIRTIO_BLK_S_OK, "the sectors were written");
    check(request(VIRTIO_BLK_T_FLUSH, 0, none) == VIRTIO_BLK_S_OK, "they were flushed");
    check(is_in_image(data.bytes, sector, data.length), "what was written is in the image");
}

/* -- The device -- */

/* Reads the disk's configuration, and compares its capacity with the image's size. */
static void read_config(void)
{
    struct virtio_blk_config config = {0};
    const uint32_t size = offsetof(struct virtio_blk_config, num_queues) + sizeof config.num_queues;
    covretin_config part;
    size_t count = 0;
    struct stat status;
    check(fstat(image, &status) == 0, "the image has a size");
    done("get_config", covretin_ask_get_config(SESSION, 0, size, 0));
    enum covretin_error error = covretin_answer_config(SESSION, &part, (uint8_t *)&config, sizeof config, &count);
    check(error == COVRETIN_OK && count == size, "the configuration is as long as was asked");
    capacity = config.capacity;
    check(capacity * SECTOR == (uint64_t)status.st_size, "the capacity is the image's");
    uint64_t rings = number("get_queue_num", covretin_ask_get_queue_num(SESSION));
    check(rings == config.num_queues, "the rings are as many as the configuration says");
}

/* Connects, negotiates, and gives memory for a ring. */
static void set_up(const char *path, uint64_t features, uint64_t unoffered)
{
    connect_to(path);
    negotiate(features, unoffered);
    read_config();
    give_memory(&memory);
}

static void work(void)
{
    const struct data sector = {&memory, slot_page(0, 1), SECTOR}, block = {&memory, slot_page(0, 1), BLOCK};
    for (uint64_t part = 0; part < 8; part++)
        read_sectors(part * (capacity / 8), block);
    read_sectors(capacity - 1, sector);
    check(request(VIRTIO_BLK_T_IN, capacity, sector) == VIRTIO_BLK_S_IOERR, "a sector beyond the end is refused");
    write_sectors(5, sector);
    write_sectors(capacity - 8, block);
    read_sectors(capacity - 8, block);
    for (uint64_t at = 0; at < 20 * QUEUE_SIZE; at++)
        read_sectors(at, sector);
}

/* Twice over the first ring, which goes on where it stopped, and once over the second. */
static void asked_to_work(const char *path)
{
    set_up(path, 0, 0);
    for (unsigned time = 0; time < 3; time++) {
        if (time == 2) {
            free_virtqueue(&queue);
            memset(memory.at, 0, QUEUE_ROOM);
            queue = make_virtqueue(1, memory.at);
        }
        start_ring(&queue, 0);
        work();
        stop_ring(&queue);
    }
}

/* -- Regions -- */

enum { MOST_REGIONS = 509, TABLE = 8 };

static struct memory plugged[MOST_REGIONS];
static size_t plugged_count;

/* Whether the backend has a memory of this name mapped: its process says so. */
static bool is_mapped(const char *name)
{
    char path[64], line[512], wanted[64];
    bool found = false;
    snprintf(path, sizeof path, "/proc/%ld/maps", (long)backend);
    snprintf(wanted, sizeof wanted, "/memfd:%s ", name);
    FILE *maps = fopen(path, "r");
    check(maps != NULL, "the backend's maps can be read");
    while (!found && fgets(line, sizeof line, maps) != NULL)
        found = strstr(line, wanted) != NULL;
    fclose(maps);
    return found;
}

static void name_region(char *name, size_t length, size_t number)
{
    snprintf(name, length, "region-%zu", number);
}

/* Makes the next memory, behind those that are there. */
static struct memory *next_region(void)
{
    char name[32];
    name_region(name, sizeof name, plugged_count);
    plugged[plugged_count] = make_memory(name, PAGE, guest_base + (plugged_count + 1) * ((uint64_t)1 << 30));
    return &plugged[plugged_count++];
}

/* A table of as many regions as a table may have, the ring's memory among them. */
static void give_table(void)
{
    covretin_region regions[TABLE] = {region_of(&memory)};
    for (size_t i = 1; i < TABLE; i++)
        regions[i] = region_of(next_region());
    done("set_mem_table", covretin_ask_set_mem_table(SESSION, regions, TABLE));
}

static void plug_in(struct memory *region)
{
    covretin_region added = region_of(region);
    done("add_mem_region", covretin_ask_add_mem_region(SESSION, &added));
}

/* Plugs a region out, and sees that the backend has unmapped it. */
static void plug_out(size_t number)
{
    char name[32];
    covretin_region removed = region_of(&plugged[number]);
    name_region(name, sizeof name, number);
    check(is_mapped(name), "the backend has the region mapped");
    done("remove_mem_region", covretin_ask_remove_mem_region(SESSION, &removed));
    for (int looks = 0; is_mapped(name) && looks < 5000; looks++)
        nanosleep(&(struct timespec){.tv_nsec = 1000000}, NULL); /* (a thread of the backend's unmaps it) */
    check(!is_mapped(name), "the backend has it mapped no more");
}

/* Reads into a region, and writes from it. */
static void use_region(size_t number)
{
    const struct memory *region = &plugged[number];
    read_sectors(number * 8, (struct data){region, region->at, BLOCK});
    write_sectors(number, (struct data){region, region->at, SECTOR});
}

static void asked_with_regions(const char *path)
{
    connect_to(path);
    negotiate(0, 0);
    read_config();
    uint64_t slots = number("get_max_mem_slots", covretin_ask_get_max_mem_slots(SESSION));
    check(slots > TABLE && slots <= MOST_REGIONS, "the backend takes more regions than a table has");
    give_table();
    start_ring(&queue, 0);
    while (plugged_count + 1 < slots)
        plug_in(next_region());
    for (size_t i = 0; i < plugged_count; i++)
        use_region(i);
    for (size_t i = 0; i < plugged_count; i += 2)
        plug_out(i);
    for (size_t i = 1; i < plugged_count; i += 2)
        use_region(i);
    for (size_t i = 0; i < plugged_count; i += 2) {
        plug_in(&plugged[i]);
        use_region(i);
    }
    stop_ring(&queue);
    for (size_t i = 0; i < plugged_count; i++)
        free_memory(&plugged[i]);
}

/* -- The dirty log -- */

enum { LOG_SIZE = 0x40000 }; /* bytes, a bit for a page: all below guest_base + MEMORY_SIZE, and more */

static struct memory dirty;

/* Checks that of the memory's pages these are marked, and no other, and unmarks them. */
static void check_dirty(const uint8_t *const *pages, size_t count)
{
    for (uint8_t *at = memory.at; at < memory.at + memory.size; at += PAGE) {
        uint64_t page = guest_address(&memory, at) / PAGE;
        bool is_marked = dirty.at[page / 8] >> page % 8 & 1, is_wanted = false;
        for (size_t i = 0; i < count; i++)
            is_wanted = is_wanted || pages[i] == at;
        printf("page %zu: %s\n", (size_t)(at - memory.at) / PAGE, is_marked ? "dirty" : "clean");
        check(is_marked == is_wanted, "the pages that the device wrote are dirty, and no others");
    }
    memset(dirty.at, 0, dirty.size);
}

/* Gives the log. The reply may have any size: libvhost-user sends 8 bytes. */
static void give_log(void)
{
    covretin_region region = {.memory_size = dirty.size, .fd = dirty.fd};
    done("set_log_base", covretin_ask_set_log_base(SESSION, 0, &region));
}

static void asked_with_log(const char *path)
{
    uint8_t *bytes = slot_page(0, 1), *status = slot_page(0, 2), *used = memory.at + PAGE;
    const uint8_t *const of_read[] = {used, bytes, status}, *const of_write[] = {used, status};
    const struct data data = {&memory, bytes, SECTOR};
    dirty = make_memory("log", LOG_SIZE, 0);
    set_up(path, COVRETIN_FEATURE_LOG_ALL, 0);
    start_ring(&queue, guest_address(&memory, used));
    give_log();
    read_sectors(3, data);
    check_dirty(of_read, 3);
    fill(bytes, SECTOR);
    check(request(VIRTIO_BLK_T_OUT, 9, data) == VIRTIO_BLK_S_OK, "a sector was written");
    check_dirty(of_write, 2);
    stop_ring(&queue);
    free_memory(&dirty);
}

/* -- A backend that is killed -- */

/* The inflight region of a split virtqueue, as the vhost-user specification has it. */
struct inflight_descriptor {
    uint8_t inflight, padding[5];
    uint16_t next;
    uint64_t counter;
};

struct inflight_queue {
    uint64_t features;
    uint16_t version, descriptor_count, last_batch_head, used_index;
    struct inflight_descriptor descriptors[];
};

static covretin_inflight inflight = {.num_queues = 1, .queue_size = QUEUE_SIZE};
static int32_t inflight_fd = -1;

/* The first backend makes the region; it is claimed, since it has to outlive that one. */
static void get_inflight(void)
{
    done("get_inflight_fd", covretin_ask_get_inflight_fd(SESSION, &inflight));
    check(covretin_answer_inflight(SESSION, &inflight, &inflight_fd) == COVRETIN_OK, "there is an inflight region");
    check(covretin_claim_fd(&device, &inflight_fd) == COVRETIN_OK, "it is the program's");
    done("set_inflight_fd", covretin_ask_set_inflight_fd(SESSION, &inflight, inflight_fd));
}

/* How many requests the region says to be in flight. */
static unsigned inflight_count(void)
{
    unsigned count = 0;
    off_t offset = (off_t)inflight.mmap_offset;
    struct inflight_queue *region = mmap(NULL, inflight.mmap_size, PROT_READ, MAP_SHARED, inflight_fd, offset);
    check(region != MAP_FAILED, "the inflight region can be mapped");
    check(region->descriptor_count == QUEUE_SIZE, "it has the ring's descriptors");
    for (unsigned i = 0; i < QUEUE_SIZE; i++)
        count += region->descriptors[i].inflight;
    munmap(region, inflight.mmap_size);
    return count;
}

static uint64_t sector_of(unsigned slot)
{
    return 64 + 8 * slot;
}

/* Posts four writes; the backend is slow, so that all but the first are in flight. */
static void post_writes(void)
{
    struct used_element used;
    for (unsigned slot = 0; slot < SLOTS; slot++) {
        fill(slot_page(slot, 1), BLOCK);
        post_request(slot, VIRTIO_BLK_T_OUT, sector_of(slot), (struct data){&memory, slot_page(slot, 1), BLOCK});
    }
    kick(&queue);
    take(&queue, &used, "the first write was used");
    check(used.head == 0, "what was used first is what was posted first");
}

/* Kills the backend amid a call, whose answer says so. */
static void kill_backend(void)
{
    const struct timespec pause = {.tv_nsec = 1000000};
    check(kill(backend, SIGSTOP) == 0, "the backend can be stopped");
    check(covretin_ask_get_features(SESSION) == COVRETIN_OK, "a stopped backend is asked");
    check(covretin_exchange(&device, 200) == COVRETIN_TIMED_OUT, "it does not reply in time");
    check(kill(backend, SIGKILL) == 0, "the backend can be killed");
    check(covretin_exchange(&device, LIMIT) == COVRETIN_DISCONNECTED, "the call that was under way is told that it ended");
    covretin_disconnect(&device);
    await("the end of the backend");
    while (kill(backend, 0) == 0) /* until then its listening socket may still be there */
        nanosleep(&pause, NULL);
}

/* Takes the writes that were in flight, and looks for all of them in the image. */
static void take_writes(void)
{
    struct used_element used;
    for (unsigned slot = 1; slot < SLOTS; slot++)
        take(&queue, &used, "a write that was in flight was used");
    for (unsigned slot = 0; slot < SLOTS; slot++) {
        check(*slot_page(slot, 2) == VIRTIO_BLK_S_OK, "its status is good");
        check(is_in_image(slot_page(slot, 1), sector_of(slot), BLOCK), "it is in the image");
    }
    check(inflight_count() == 0, "nothing is in flight any more");
}

static void asked_when_killed(const char *path)
{
    set_up(path, 0, COVRETIN_PROTOCOL_INFLIGHT_SHMFD);
    get_inflight();
    start_ring(&queue, 0);
    post_writes();
    kill_backend();
    check(inflight_count() == SLOTS - 1, "all writes but the first are in flight");
    for (unsigned slot = 1; slot < SLOTS; slot++)
        check(!is_in_image(slot_page(slot, 1), sector_of(slot), BLOCK), "a write in flight is not in the image");

    set_up(path, 0, COVRETIN_PROTOCOL_INFLIGHT_SHMFD);
    done("set_inflight_fd", covretin_ask_set_inflight_fd(SESSION, &inflight, inflight_fd));
    start_ring(&queue, 0);
    take_writes();
    work();
    stop_ring(&queue);
    close(inflight_fd);
}

/* -- A frontend that means harm -- */

/* Its call is a pipe that nobody reads, so that it polls; and it gives an inflight region in the place of the one that the ring uses. */
static void asked_with_harm(const char *path)
{
    const struct data sector = {&memory, slot_page(0, 1), SECTOR};
    int ends[2];
    set_up(path, 0, COVRETIN_PROTOCOL_INFLIGHT_SHMFD);
    get_inflight();
    check(pipe(ends) == 0, "a pipe can be made");
    close(ends[0]);
    close(queue.call);
    queue.call = ends[1];
    start_ring(&queue, 0);
    close(ends[1]);
    queue.call = -1;
    read_sectors(5, sector);
    enum covretin_error error = outcome("set_inflight_fd", covretin_ask_set_inflight_fd(SESSION, &inflight, inflight_fd));
    check(error == COVRETIN_BACKEND_INTERNAL_ERROR, "a ring that runs keeps its inflight region");
    read_sectors(6, sector);
    check(inflight_count() == 0, "nothing is in flight");
    stop_ring(&queue);
    close(inflight_fd);
}

/* What turns both sides is heard by both, whatever the header flags say: each number is that of its own call. */
static void asked_to_turn(const char *path)
{
    connect_to(path);
    negotiate(0, 0);
    check(covretin_set_hdr_flags(SESSION, 0) == COVRETIN_OK, "the header flags are set");
    uint64_t features = number("get_features", covretin_ask_get_features(SESSION));
    enum covretin_error error = outcome("postcopy_advise", covretin_ask_postcopy_advise(SESSION));
    if (error == COVRETIN_INACTIVE_OPERATION) {
        printf("the backend offers no postcopy\n");
        exit(4);
    }
    done("postcopy_listen", error ? error : covretin_ask_postcopy_listen(SESSION));
    check(number("get_features", covretin_ask_get_features(SESSION)) == features, "the features are those that were");
    check(number("get_queue_num", covretin_ask_get_queue_num(SESSION)) == 2, "there are two rings");
    done("postcopy_end", covretin_ask_postcopy_end(SESSION));
    check(number("get_features", covretin_ask_get_features(SESSION)) == features, "the features are those that were");
    check(number("get_queue_num", covretin_ask_get_queue_num(SESSION)) == 2, "there are two rings");
}

typedef void play(const char *path);

/* What is to be tried, by its name. */
static play *try_of(const char *name)
{
    static const struct {
        const char *name;
        play *plays;
    } tries[] = {{"work", asked_to_work},
                 {"regions", asked_with_regions},
                 {"log", asked_with_log},
                 {"killed", asked_when_killed},
                 {"harm", asked_with_harm},
                 {"turned", asked_to_turn}};
    for (size_t i = 0; i < sizeof tries / sizeof *tries; i++)
        if (strcmp(tries[i].name, name) == 0)
            return tries[i].plays;
    return NULL;
}

int main(int argc, char **argv)
{
    play *tried = argc == 5 ? try_of(argv[4]) : NULL;
    if (tried == NULL) {
        fprintf(stderr, "usage: disk PATH IMAGE PID work|regions|log|killed|harm|turned\n");
        return 2;
    }
    size_t before = descriptor_count();
    image = open(argv[2], O_RDONLY | O_CLOEXEC);
    check(image >= 0, "the image can be read");
    backend = (pid_t)atol(argv[3]);
    memory = make_memory("guest", MEMORY_SIZE, guest_base);
    queue = make_virtqueue(0, memory.at);
    tried(argv[1]);
    covretin_disconnect(&device);
    free_virtqueue(&queue);
    free_memory(&memory);
    close(image);
    check(descriptor_count() == before, "no descriptor was left open");
    return 0;
}
