/* SPDX-License-Identifier: Apache-2.0 */
/* A service, and a connection, whose peer has the other end of a pair of sockets and does anything: sends bytes in any pieces and out
 * of band, with descriptors of any kind and number, has the system tell of each message what it can, and ends anywhere. What has to hold
 * is of descriptors and of time: all that came are closed, no other is, and nothing waits. */
#ifndef _GNU_SOURCE
#define _GNU_SOURCE
#endif

#include "asks.h"
#include "covretin_backend_socket.h"
#include "covretin_socket.h"
#include "peer.h"
#include "serves.h"
#include "testing.h"

#include <fcntl.h>
#include <sys/eventfd.h>
#include <sys/socket.h>
#include <unistd.h>

bool at_every_place;
struct tally tally;

static covretin_service service;
static covretin_connection connection;
static int ours, peer;   /* both ends of the pair */
static int kept;         /* a file of this program, which nobody is given */
static int far_ends[64]; /* of the sockets whose close would wait */
static size_t far_count;
static uint32_t heard; /* the code of the message that came to the peer last */

/* -- The input, which is read once -- */

static const uint8_t *input;
static size_t input_at, input_size;

bool more_steps(void)
{
    return input_at < input_size;
}

uint8_t next_byte(void)
{
    return more_steps() ? input[input_at++] : 0;
}

uint64_t next_number(void)
{
    uint8_t first = next_byte();
    uint64_t number = first & 0x3f;
    for (unsigned i = 1; i < 1u << (first >> 6); i++)
        number = number << 8 | next_byte();
    return number;
}

size_t this_step(void)
{
    return input_at;
}

void back_to(size_t step)
{
    input_at = step;
}

void tell(const void *bytes, size_t size)
{
    (void)bytes;
    (void)size;
}

bool is_again(enum covretin_error error)
{
    (void)error;
    return false;
}

__attribute__((section("__libfuzzer_extra_counters"), used)) static uint8_t outcomes[1 << 13];

void outcome(uint32_t what, enum covretin_error error)
{
    outcomes[(what * 131 + error) % sizeof outcomes] = 1;
    if (error < sizeof tally.errors / sizeof *tally.errors)
        tally.errors[error]++;
}

/* -- Descriptors -- */

/* Closes one of the peer's, which does not wait either. */
static void let_go(int fd)
{
    const struct linger off = {0, 0};
    setsockopt(fd, SOL_SOCKET, SO_LINGER, &off, sizeof off);
    close(fd);
}

/* The peer has it no longer, whether it was sent or not. */
static void leave(int fd, bool is_sent)
{
    if (is_sent)
        close(fd);
    else if (fd >= 0)
        let_go(fd);
}

/* A socket whose close would wait, as long as there are not too many. */
static int slow_socket(void)
{
    return far_count < sizeof far_ends / sizeof *far_ends ? slow_to_close(&far_ends[far_count++]) : eventfd(0, EFD_CLOEXEC);
}

static int file_of_a_kind(uint8_t kind)
{
    int ends[2];
    switch (kind % 6) {
    case 0: return slow_socket();
    case 1: return socket(AF_UNIX, SOCK_STREAM | SOCK_CLOEXEC, 0);
    case 2:
        must(pipe2(ends, O_CLOEXEC) == 0);
        close(ends[kind & 1]);
        return ends[!(kind & 1)];
    case 3: return file_of("sent");
    case 4: return dup(ours); /* which is then in flight on itself */
    default: return eventfd(0, EFD_CLOEXEC);
    }
}

/* What is named came: it is open, and none of this program's own. */
static void must_have_come(int32_t fd)
{
    must(fd == -1 || (fcntl(fd, F_GETFD) >= 0 && fd != ours && fd != peer && fd != kept));
    for (size_t i = 0; i < far_count; i++)
        must(fd != far_ends[i]);
}

/* -- The peer -- */

/* Sends bytes, if there is room, with descriptors of a kind on the first. */
static void send_some(const uint8_t *bytes, size_t length, int flags)
{
    static const size_t counts[8] = {0, 0, 1, 1, 2, 32, 33, SYSTEM_MAX_FDS};
    static union {
        struct cmsghdr align;
        char bytes[CMSG_SPACE(sizeof(int) * SYSTEM_MAX_FDS)];
    } control;
    uint8_t kind = next_byte();
    size_t count = length == 0 ? 0 : counts[kind >> 5];
    struct iovec piece = {(void *)(uintptr_t)bytes, length};
    struct msghdr message = {.msg_iov = &piece, .msg_iovlen = 1};
    int fd = count == 0 ? -1 : file_of_a_kind(kind & 31), last = count == 0 ? -1 : file_of_a_kind(kind & 31);
    if (count != 0) {
        message.msg_control = control.bytes;
        message.msg_controllen = CMSG_SPACE(sizeof(int) * count);
        struct cmsghdr *head = CMSG_FIRSTHDR(&message);
        *head = (struct cmsghdr){.cmsg_level = SOL_SOCKET, .cmsg_type = SCM_RIGHTS, .cmsg_len = CMSG_LEN(sizeof(int) * count)};
        for (size_t i = 0; i < count; i++)
            memcpy(CMSG_DATA(head) + i * sizeof fd, i + 1 == count ? &last : &fd, sizeof fd);
    }
    bool is_sent = sendmsg(peer, &message, MSG_NOSIGNAL | MSG_DONTWAIT | flags) >= 0;
    leave(last, is_sent);
    leave(fd, is_sent && count > 1);
    tally.bytes += is_sent ? length : 0;
}

/* Sends a message whose header may be true: its code, or that of what came last, its flags, and the size of its body. */
static void send_message(void)
{
    static const uint8_t flags[4] = {1, 9, 5, 2};
    static const uint8_t sizes[8] = {0, 8, 16, 24, 40, 72, 8, 12};
    uint8_t code = next_byte(), form = next_byte(), bytes[12 + 256] = {0};
    uint32_t head[3] = {code < 64 ? code : heard, flags[form & 3], sizes[form >> 2 & 7]};
    size_t length = sizeof head + head[2];
    for (size_t i = sizeof head; i < length && form >= 128; i++)
        bytes[i] = next_byte();
    memcpy(bytes, head, sizeof head);
    if (form & 64) {
        send_some(bytes, sizeof head, 0);
        send_some(bytes + sizeof head, head[2], 0);
    } else
        send_some(bytes, length, 0);
}

static void send_raw(int flags)
{
    uint8_t bytes[64];
    size_t length = next_byte() % sizeof bytes;
    for (size_t i = 0; i < length; i++)
        bytes[i] = next_byte();
    send_some(bytes, length, flags);
}

/* Reads what came to the peer. */
static void hear_some(void)
{
    static union {
        struct cmsghdr align;
        char bytes[CMSG_SPACE(sizeof(int) * SYSTEM_MAX_FDS)];
    } control;
    uint8_t bytes[COVRETIN_MAX_MESSAGE];
    struct iovec piece = {bytes, sizeof bytes};
    struct msghdr message = {
        .msg_iov = &piece, .msg_iovlen = 1, .msg_control = control.bytes, .msg_controllen = sizeof control.bytes};
    ssize_t got = recvmsg(peer, &message, MSG_CMSG_CLOEXEC | MSG_DONTWAIT);
    if (got < 0)
        return;
    if (got >= (ssize_t)sizeof heard)
        memcpy(&heard, bytes, sizeof heard);
    for (struct cmsghdr *head = CMSG_FIRSTHDR(&message); head != NULL; head = CMSG_NXTHDR(&message, head))
        for (size_t i = 0; i < (head->cmsg_len - CMSG_LEN(0)) / sizeof(int); i++) {
            int fd;
            memcpy(&fd, CMSG_DATA(head) + i * sizeof fd, sizeof fd);
            let_go(fd);
        }
}

/* Sets what a peer can set who has a copy of the socket. */
static void set_something(void)
{
    static const int options[4] = {SO_PASSCRED, SO_PASSSEC, 76 /* SO_PASSPIDFD */, SO_TIMESTAMP};
    uint8_t which = next_byte();
    const int on = which >> 7;
    setsockopt(ours, SOL_SOCKET, options[which & 3], &on, sizeof on);
}

/* What a peer does next; false: something of the other side's is due. */
static bool act(uint8_t what)
{
    switch (what % 16) {
    case 0: case 1: case 2: case 3: send_message(); return true;
    case 4: send_raw(0); return true;
    case 5: send_raw(MSG_OOB); return true;
    case 6: set_something(); return true;
    case 7: hear_some(); return true;
    case 8: shutdown(peer, next_byte() % 4); return true;
    default: return false;
    }
}

/* -- Both sides -- */

/* The descriptor that is claimed is the caller's from then on. */
static void claim_some(void)
{
    int32_t fd = -1;
    if (service.opaque != NULL && covretin_call_fd(&service.backend, &fd) == COVRETIN_OK && fd >= 0 &&
        covretin_claim_call_fd(&service, fd) == COVRETIN_OK)
        let_go(fd);
    if (connection.opaque != NULL && covretin_claim_fd(&connection, &fd) == COVRETIN_OK)
        let_go(fd);
}

static void serve_some(void)
{
    uint32_t call = 0;
    short events;
    enum covretin_error error = covretin_next_call_nowait(&service, &call, &events);
    outcome(512 + call, error);
    if (error != COVRETIN_OK)
        return;
    if (next_byte() % 4 == 0) {
        read_arguments(&service.backend, must_have_come);
        claim_some();
        outcome(call, covretin_reply_refused(&service.backend));
    } else
        reply_to(&service.backend, call, must_have_come);
    if (next_byte() % 2)
        outcome(600, covretin_send_reply_nowait(&service, &events));
}

static void ask_some(void)
{
    short events;
    uint8_t which = next_byte();
    if (which >= 224) {
        claim_some();
        return;
    }
    outcome(number_of(which), ask(&connection.session, which));
    enum covretin_error error = covretin_exchange_nowait(&connection, &events);
    outcome(64 + number_of(which), error);
    if (error == COVRETIN_OK)
        read_answers(&connection.session, must_have_come);
}

static void connect_to_peer(bool serves)
{
    int ends[2];
    must(socketpair(AF_UNIX, SOCK_STREAM | SOCK_CLOEXEC, 0, ends) == 0);
    ours = ends[0];
    peer = ends[1];
    must((serves ? covretin_serve_fd(&service, ours) : covretin_connect_fd(&connection, ours, 4)) == COVRETIN_OK);
}

/* Ends both; what the peer still has open goes last or first. */
static void end(bool serves, bool is_first)
{
    if (is_first)
        close(peer);
    if (serves)
        covretin_hang_up(&service);
    else
        covretin_disconnect(&connection);
    if (!is_first)
        close(peer);
    must(!has_waited());
    while (far_count != 0)
        close(far_ends[--far_count]);
}

int LLVMFuzzerTestOneInput(const uint8_t *data, size_t size)
{
    size_t before = open_fds();
    input = data;
    input_size = size;
    input_at = 0;
    heard = 0;
    kept = file_of("kept");
    bool serves = next_byte() % 2;
    connect_to_peer(serves);
    has_waited();
    while (more_steps()) {
        uint8_t what = next_byte();
        if (act(what))
            continue;
        if (serves)
            serve_some();
        else
            ask_some();
        must(!has_waited());
    }
    end(serves, next_byte() % 2);
    must(holds(kept, "kept"));
    close(kept);
    must(open_fds() == before);
    tally.runs++;
    return 0;
}
