/* SPDX-License-Identifier: Apache-2.0 */
/* A VMM's side of a file system (vhost-user-fs; virtio 1.2, 5.11), against a backend over a folder: mounts it, looks a file
 * up, opens it and reads all of it, in the requests of FUSE.
 *
 *     files PATH FILE        FILE lies in the folder; what is read is compared with it
 *
 * Prints a line for each call; status 0 where all was so, 1 where something was not, 2 after wrong arguments. */
#include "vmm.h"

#include <errno.h>
#include <fcntl.h>
#include <linux/fuse.h>
#include <stdio.h>
#include <string.h>
#include <sys/stat.h>
#include <unistd.h>

enum {
    HIGH_PRIORITY = 0, /* the ring of FORGET */
    REQUESTS = 1,      /* that of all others */
    RING_COUNT = 2,
    PIECE = 5000, /* bytes of a file that one request reads: no multiple of a page */
    ASK_AT = RING_COUNT * QUEUE_ROOM,
    REPLY_AT = ASK_AT + PAGE,
    MEMORY_SIZE = REPLY_AT + 4 * PAGE
};

static struct memory memory;
static struct virtqueue queues[RING_COUNT];

/* -- Requests -- */

/* Sends a request, and returns its error as FUSE has it (0, or negative); its reply is copied to `reply`, which takes so many
 * bytes, and *length says how many came. */
static int request(uint32_t code, uint64_t node, const void *asked, size_t asked_length, void *reply, size_t *length)
{
    static uint64_t unique;
    struct virtqueue *queue = &queues[REQUESTS];
    struct fuse_in_header *in = (struct fuse_in_header *)(memory.at + ASK_AT);
    struct fuse_out_header *out = (struct fuse_out_header *)(memory.at + REPLY_AT);
    uint32_t in_length = (uint32_t)(sizeof *in + asked_length), out_length = (uint32_t)(sizeof *out + *length);
    struct used_element used;
    *in = (struct fuse_in_header){.len = in_length, .opcode = code, .unique = ++unique, .nodeid = node};
    memcpy(in + 1, asked, asked_length);
    memset(out, 0xdd, out_length);
    queue->descriptors[0] = (struct descriptor){guest_address(&memory, in), in_length, DESCRIPTOR_NEXT, 1};
    queue->descriptors[1] = (struct descriptor){guest_address(&memory, out), out_length, DESCRIPTOR_WRITE, 0};
    post(queue, 0);
    kick(queue);
    take(queue, &used, "the request was used");
    check(out->unique == unique, "the reply is that of the request");
    check(used.length == out->len && out->len >= sizeof *out && out->len <= out_length, "the reply is as long as it says");
    *length = out->len - sizeof *out;
    memcpy(reply, out + 1, *length);
    return out->error;
}

/* One that has to succeed, with a reply of a known length. */
static void succeed(uint32_t code, uint64_t node, const void *asked, size_t asked_length, void *reply, size_t wanted)
{
    size_t length = wanted;
    int error = request(code, node, asked, asked_length, reply, &length);
    printf("fuse request %u: %d, %zu bytes\n", (unsigned)code, error, length);
    check(error == 0, "the request succeeded");
    check(length == wanted, "its reply has the length that it has to have");
}

/* Forgets a node, on the ring of high priority. There is no reply, so the used element alone says that it was read. */
static void forget(uint64_t node)
{
    struct virtqueue *queue = &queues[HIGH_PRIORITY];
    struct fuse_in_header *in = (struct fuse_in_header *)(memory.at + ASK_AT);
    struct fuse_forget_in *body = (struct fuse_forget_in *)(in + 1);
    uint32_t length = sizeof *in + sizeof *body;
    struct used_element used;
    *in = (struct fuse_in_header){.len = length, .opcode = FUSE_FORGET, .unique = 1, .nodeid = node};
    *body = (struct fuse_forget_in){.nlookup = 1};
    queue->descriptors[0] = (struct descriptor){guest_address(&memory, in), length, 0, 0};
    post(queue, 0);
    kick(queue);
    take(queue, &used, "the node was forgotten");
    check(used.length == 0, "nothing was written for that");
}

/* -- The file system -- */

static void mount(void)
{
    const struct fuse_init_in asked = {.major = FUSE_KERNEL_VERSION, .minor = FUSE_KERNEL_MINOR_VERSION};
    struct fuse_init_out given;
    succeed(FUSE_INIT, 0, &asked, sizeof asked, &given, sizeof given);
    printf("fuse %u.%u\n", (unsigned)given.major, (unsigned)given.minor);
    check(given.major == FUSE_KERNEL_VERSION, "the file system speaks FUSE 7");
}

static void unmount(void)
{
    char nothing[1];
    succeed(FUSE_DESTROY, 0, "", 0, nothing, 0);
}

/* The node of a file in the folder; its size is compared with that of the file itself. */
static uint64_t look_up(const char *name, int file)
{
    struct fuse_entry_out entry;
    struct stat status;
    check(fstat(file, &status) == 0, "the file has a size");
    succeed(FUSE_LOOKUP, FUSE_ROOT_ID, name, strlen(name) + 1, &entry, sizeof entry);
    check(entry.attr.size == (uint64_t)status.st_size, "the size is the file's");
    check((entry.attr.mode & S_IFMT) == S_IFREG, "it is a file");
    return entry.nodeid;
}

static void miss(const char *name)
{
    struct fuse_entry_out entry;
    size_t length = sizeof entry;
    int error = request(FUSE_LOOKUP, FUSE_ROOT_ID, name, strlen(name) + 1, &entry, &length);
    check(error == -ENOENT, "there is no file of another name");
}

/* Reads all of a node, and compares it with the file. */
static void read_all(uint64_t node, int file)
{
    const struct fuse_open_in opening = {.flags = O_RDONLY};
    struct fuse_open_out opened;
    uint8_t got[PIECE], wanted[PIECE];
    uint64_t at = 0;
    size_t length;
    char nothing[1];
    succeed(FUSE_OPEN, node, &opening, sizeof opening, &opened, sizeof opened);
    do {
        const struct fuse_read_in reading = {.fh = opened.fh, .offset = at, .size = PIECE};
        length = PIECE;
        check(request(FUSE_READ, node, &reading, sizeof reading, got, &length) == 0, "a piece was read");
        check(pread(file, wanted, PIECE, (off_t)at) == (ssize_t)length, "it is as long as the file has it");
        check(memcmp(got, wanted, length) == 0, "it is as the file has it");
        at += length;
    } while (length != 0);
    printf("read %zu bytes\n", (size_t)at);
    const struct fuse_release_in releasing = {.fh = opened.fh};
    succeed(FUSE_RELEASE, node, &releasing, sizeof releasing, nothing, 0);
}

int main(int argc, char **argv)
{
    const char *slash = argc == 3 ? strrchr(argv[2], '/') : NULL;
    if (slash == NULL) {
        fprintf(stderr, "usage: files PATH FOLDER/FILE\n");
        return 2;
    }
    size_t before = descriptor_count();
    int file = open(argv[2], O_RDONLY | O_CLOEXEC);
    check(file >= 0, "the file can be read");
    memory = make_memory("guest", MEMORY_SIZE, (uint64_t)1 << 32);
    connect_to(argv[1]);
    negotiate(0, 0);
    give_memory(&memory);
    for (uint16_t i = 0; i < RING_COUNT; i++) {
        queues[i] = make_virtqueue(i, memory.at + i * QUEUE_ROOM);
        start_ring(&queues[i], 0);
    }
    mount();
    uint64_t node = look_up(slash + 1, file);
    miss("no-such-file");
    read_all(node, file);
    forget(node);
    unmount();
    for (uint16_t i = 0; i < RING_COUNT; i++) {
        stop_ring(&queues[i]);
        free_virtqueue(&queues[i]);
    }
    covretin_disconnect(&device);
    free_memory(&memory);
    close(file);
    check(descriptor_count() == before, "no descriptor was left open");
    return 0;
}
