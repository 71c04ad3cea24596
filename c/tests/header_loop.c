/* The loop at the head of covretin_backend.h, word for word, which ./test c takes out of the header: it serves, and it reads nothing more
 * once the session has ended, since its frontend waits then. */
#include "covretin_backend.h"
#include "testing.h"

#include <errno.h>
#include <string.h>
#include <sys/socket.h>
#include <unistd.h>

enum { GET_FEATURES = 1, SET_VRING_KICK = 12, GET_QUEUE_NUM = 17, VERSION = 1 /* of a header's flags */ };

static covretin_backend backend;
static bool waits; /* the loop reads, and nothing has come */
static size_t answered, closed;

static size_t read_from(int socket, uint8_t *bytes, size_t most, int32_t *fds, size_t *count)
{
    union {
        struct cmsghdr align;
        char bytes[CMSG_SPACE(sizeof(int) * COVRETIN_MAX_FDS)];
    } control;
    struct iovec piece = {bytes, most};
    struct msghdr message = {.msg_iov = &piece, .msg_iovlen = 1, .msg_control = &control, .msg_controllen = sizeof control};
    ssize_t got = recvmsg(socket, &message, MSG_DONTWAIT | MSG_CMSG_CLOEXEC);
    const struct cmsghdr *head = got > 0 ? CMSG_FIRSTHDR(&message) : NULL;
    *count = head != NULL ? (head->cmsg_len - CMSG_LEN(0)) / sizeof(int) : 0;
    if (head != NULL)
        memcpy(fds, CMSG_DATA(head), *count * sizeof *fds);
    waits = waits || (got < 0 && errno == EAGAIN);
    return got > 0 ? (size_t)got : 0;
}

static void write_to(int socket, const uint8_t *bytes, size_t len, const int32_t *fds, size_t count)
{
    (void)fds;
    EXPECT(0, count);
    EXPECT(len, send(socket, bytes, len, MSG_NOSIGNAL));
}

static void close_all(const int32_t *fds, size_t count)
{
    for (size_t i = 0; i < count; i++)
        EXPECT(0, close(fds[i]));
    closed += count;
}

static void answer(covretin_backend *session, uint32_t call)
{
    answered++;
    EXPECT(COVRETIN_OK, call == COVRETIN_CALL_GET_FEATURES ? covretin_reply_number(session, 7) : covretin_reply_done(session));
}

static void serve(int socket)
{
    uint8_t bytes[COVRETIN_MAX_MESSAGE];
    int32_t fds[COVRETIN_MAX_FDS];
    enum covretin_error error = COVRETIN_OK;
    size_t n, count;
    uint32_t call;
#include "header_loop.inc"
}

/* Sends a request, with a descriptor or none. */
static void say(int socket, uint32_t request, uint32_t flags, const uint8_t *body, uint32_t size, int fd)
{
    uint32_t bytes[16] = {request, flags, size};
    union {
        struct cmsghdr align;
        char bytes[CMSG_SPACE(sizeof(int))];
    } control = {{0}};
    struct iovec piece = {bytes, 12 + size};
    struct msghdr message = {.msg_iov = &piece, .msg_iovlen = 1};
    memcpy(bytes + 3, body, size);
    if (fd >= 0) {
        control.align = (struct cmsghdr){.cmsg_len = CMSG_LEN(sizeof fd), .cmsg_level = SOL_SOCKET, .cmsg_type = SCM_RIGHTS};
        memcpy(CMSG_DATA(&control.align), &fd, sizeof fd);
        message.msg_control = &control;
        message.msg_controllen = sizeof control;
    }
    EXPECT(12 + size, sendmsg(socket, &message, MSG_NOSIGNAL));
}

/* Serves a frontend that asks for the features, gives a kick, and asks this last, with these flags; it goes if that is nothing. */
static void serve_until(uint32_t last, uint32_t flags)
{
    const uint8_t kick[8] = {0};
    uint8_t replied[64];
    int ends[2];
    if (socketpair(AF_UNIX, SOCK_STREAM | SOCK_CLOEXEC, 0, ends))
        give_up("socketpair");
    answered = closed = 0;
    waits = false;
    EXPECT(COVRETIN_OK, covretin_backend_open(&backend));
    say(ends[0], GET_FEATURES, VERSION, kick, 0, -1);
    say(ends[0], SET_VRING_KICK, VERSION, kick, sizeof kick, ends[0]);
    if (last != 0)
        say(ends[0], last, flags, kick, 0, -1);
    else
        shutdown(ends[0], SHUT_WR);
    serve(ends[1]);
    EXPECT(false, waits);
    EXPECT(2, answered);
    EXPECT(1, closed);
    EXPECT(20, recv(ends[0], replied, sizeof replied, MSG_DONTWAIT));
    covretin_backend_close(&backend);
    close(ends[0]);
    close(ends[1]);
}

static void the_loop_ends_with_its_frontend(void)
{
    serve_until(0, 0);
}

/* GET_QUEUE_NUM without MQ cannot be refused by a reply. */
static void the_loop_ends_with_its_session(void)
{
    serve_until(GET_QUEUE_NUM, VERSION);
}

static void the_loop_ends_at_what_is_no_message(void)
{
    serve_until(GET_FEATURES, VERSION + 1);
}

int main(void)
{
    RUN(the_loop_ends_with_its_frontend);
    RUN(the_loop_ends_with_its_session);
    RUN(the_loop_ends_at_what_is_no_message);
    return status();
}
