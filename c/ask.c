/* SPDX-License-Identifier: Apache-2.0 */
/* covretin-ask: the calls of a frontend, one a line, to a backend at a Unix socket. Lines and answers are those of vhost-run
 * (docs/LINES.md); statuses are those of every command (docs/COMMANDS.md). */
#define _GNU_SOURCE /* for SOCK_CLOEXEC */

#include "ask.h"
#include "covretin_transport.h"
#include "line_reasons.h"

#include <errno.h>
#include <fcntl.h>
#include <inttypes.h>
#include <signal.h>
#include <stdarg.h>
#include <stdio.h>
#include <stdlib.h>
#include <string.h>
#include <sys/socket.h>
#include <sys/un.h>
#include <unistd.h>

enum { DONE = 0, WRONG_ARGUMENTS = 2, FAILED = 4 }; /* statuses; and NO_CALL */

static const char usage[] =
    "usage: covretin-ask [--profile=standard|vhost] [--rings=N] [--limit=SECONDS] [--fd N=FORM].. PATH\n";

static const char help[] =
    "\n"
    "Makes each line of standard input a call to the backend at the Unix socket PATH, and prints a line 'REQUEST REPLY ANSWER' for it.\n"
    "Lines are those of covretin run: an empty one and one that begins with # are left out, and 'help' lists the calls. What stands for a\n"
    "descriptor in a line is one of these:\n"
    "\n"
    "  N            the number of a descriptor of --fd, or else one that this program was started with, as '3<>FILE' gives it\n"
    "  file:PATH    a file, opened for reading and writing\n"
    "  memory:SIZE  new memory of so many bytes, in a file without a name\n"
    "  event        a new eventfd\n"
    "  socket       one end of a new pair of sockets, whose other end stays open and silent\n"
    "\n"
    "  --profile=P        standard: as the specification and real peers, which is the default; vhost: as the crate vhost\n"
    "  --rings=N          how many rings the backend has until get_queue_num says so; without it 2\n"
    "  --limit=SECONDS    how long a call may take, 1 to 1000000; without it there is no limit\n"
    "  --fd N=FORM        opens one of these forms as descriptor N of the lines, for all of them\n"
    "  --version, --help  prints the version, or this\n"
    "\n"
    "Status: 0 at the end of the input; 1 after a line that is no call; 2 after wrong arguments; 4 where the input, the output, memory,\n"
    "the socket or a descriptor failed, or the backend ended the connection. Standard error says which.\n";

covretin_session session;
static struct transport *transport;
static int limit = -1; /* milliseconds for a call; negative: none */
static uint64_t rings = 2;
static const char *how_many = ": --rings=N says how many, or get_queue_num";
uint64_t line_number;

/* What was sent and what came for it, as it is shown. */
static struct text {
    uint8_t bytes[COVRETIN_MAX_MESSAGE];
    size_t byte_count;
    char fds[COVRETIN_MAX_FDS][MAX_NAME];
    size_t fd_count;
} request, reply;

/* Ends the program where something failed outside of the lines. */
void fail(const char *form, ...)
{
    va_list rest;
    fflush(stdout);
    fprintf(stderr, "covretin-ask: ");
    va_start(rest, form);
    vfprintf(stderr, form, rest);
    va_end(rest);
    fprintf(stderr, "\n");
    exit(FAILED);
}

void *room_for(size_t count, size_t size)
{
    void *room = calloc(count + 1, size);
    if (room == NULL)
        fail("memory: an allocation failed");
    return room;
}

/* -- The session -- */

static size_t missing(void *of)
{
    return covretin_missing(of);
}

/* Notes bytes that were sent or came; there is room for a message. */
static void note(struct text *text, const uint8_t *bytes, size_t count)
{
    size_t room = sizeof text->bytes - text->byte_count;
    memcpy(text->bytes + text->byte_count, bytes, count < room ? count : room);
    text->byte_count += count < room ? count : room;
}

static enum covretin_error to_send(void *of, uint8_t *bytes, size_t bytes_len, int32_t *fds, size_t fds_len, size_t *byte_count,
                                   size_t *fd_count)
{
    enum covretin_error error = covretin_to_send(of, bytes, bytes_len, fds, fds_len, byte_count, fd_count);
    if (error)
        return error;
    note(&request, bytes, *byte_count);
    for (size_t i = 0; i < *fd_count && request.fd_count < COVRETIN_MAX_FDS; i++)
        snprintf(request.fds[request.fd_count++], MAX_NAME, "%s", word_of(fds[i]));
    return COVRETIN_OK;
}

static enum covretin_error receive(void *of, const uint8_t *bytes, size_t bytes_len, const int32_t *fds, size_t fds_len)
{
    enum covretin_error error = covretin_receive(of, bytes, bytes_len, fds, fds_len);
    if (error)
        return error;
    note(&reply, bytes, bytes_len);
    for (size_t i = 0; i < fds_len && reply.fd_count < COVRETIN_MAX_FDS; i++)
        name_fd(fds[i], reply.fds[reply.fd_count++]);
    return COVRETIN_OK;
}

static enum covretin_error unclaimed(void *of, int32_t *fds, size_t fds_len, size_t *count)
{
    return covretin_unclaimed(of, fds, fds_len, count);
}

TRANSPORT_CALL(abandon, covretin_abandon)
TRANSPORT_CALL(take_reply, covretin_take)

static const struct transport_side side = {missing, receive, to_send, unclaimed, abandon, take_reply, false, false, NULL, NULL};

static void show_text(const struct text *text)
{
    show_bytes(text->bytes, text->byte_count);
    for (size_t i = 0; i < text->fd_count; i++)
        printf("%c%s", i == 0 ? '[' : ',', text->fds[i]);
    printf(text->fd_count == 0 ? " " : "] ");
}

static const char *name_of(enum covretin_error error)
{
    static const char *const names[] = {
        [COVRETIN_INVALID_PARAM] = "InvalidParam",
        [COVRETIN_INVALID_OPERATION] = "InvalidOperation",
        [COVRETIN_INACTIVE_FEATURE] = "InactiveFeature",
        [COVRETIN_INACTIVE_OPERATION] = "InactiveOperation",
        [COVRETIN_INVALID_MESSAGE] = "InvalidMessage",
        [COVRETIN_PARTIAL_MESSAGE] = "PartialMessage",
        [COVRETIN_DISCONNECTED] = "Disconnected",
        [COVRETIN_OVERSIZED_MSG] = "OversizedMsg",
        [COVRETIN_INCORRECT_FDS] = "IncorrectFds",
        [COVRETIN_SOCKET_ERROR] = "SocketError",
        [COVRETIN_SOCKET_BROKEN] = "SocketBroken",
        [COVRETIN_SOCKET_RETRY] = "SocketRetry",
        [COVRETIN_BACKEND_INTERNAL_ERROR] = "BackendInternalError",
        [COVRETIN_OUT_OF_MEMORY] = "OutOfMemory",
        [COVRETIN_TIMED_OUT] = "TimedOut",
        [COVRETIN_FDS_LOST] = "FdsLost",
    };
    bool is_named = error < sizeof names / sizeof *names && names[error] != NULL;
    return is_named ? names[error] : covretin_error_text(error);
}

static void show_error(enum covretin_error error)
{
    printf("err %s", name_of(error));
    if (error == COVRETIN_INACTIVE_FEATURE || error == COVRETIN_INACTIVE_OPERATION)
        printf(" 0x%" PRIx64, covretin_inactive(&session));
}

/* Says why a call was refused before anything was sent, if its error does not. */
static void say_why(const struct call *call, const struct arguments *of, enum covretin_error error)
{
    if (error == COVRETIN_INACTIVE_FEATURE || error == COVRETIN_INACTIVE_OPERATION)
        say_not_accepted(line_number, call->name, error == COVRETIN_INACTIVE_FEATURE, covretin_inactive(&session));
    else if (error == COVRETIN_INVALID_PARAM && strstr(call->name, "vring") != NULL && of->numbers[1] >= rings)
        say_no_ring(line_number, call->name, of->numbers[1], rings, how_many);
}

static bool is_shown; /* whether the line of the call was printed */

/* Takes the reply, and shows it while its descriptors are open. */
static enum covretin_error take(void *of)
{
    const struct call *call = of;
    enum covretin_error error = covretin_take(&session);
    if (error == COVRETIN_NOTHING_ASKED)
        return error;
    is_shown = true;
    show_text(&request);
    show_text(&reply);
    if (!error) {
        printf("ok");
        error = show_answer(call->answer);
        if (strcmp(call->name, "get_queue_num") == 0 && covretin_answer_number(&session, &rings) == COVRETIN_OK)
            how_many = "";
    } else
        show_error(error);
    printf("\n");
    transport_next(transport);
    return error;
}

/* Whether a call that failed leaves the session as it was. */
static bool goes_on(enum covretin_error error)
{
    return error == COVRETIN_OK || error == COVRETIN_BACKEND_INTERNAL_ERROR;
}

/* Sends the request of a call that was asked, and shows it with its reply and its answer. */
static void exchange(const struct call *call)
{
    enum covretin_error error;
    is_shown = false;
    error = transport_exchange(transport, take, (void *)call, limit);
    if (error == COVRETIN_INVALID_PARAM)
        fail("line %" PRIu64 ": a descriptor cannot be sent: %s", line_number, strerror(errno));
    if (!is_shown) {
        show_text(&request);
        show_text(&reply);
        show_error(error);
        printf("\n");
    }
    if (!goes_on(error))
        fail("line %" PRIu64 ": the session ended: %s%s%s", line_number, covretin_error_text(error),
             error == COVRETIN_SOCKET_ERROR ? ": " : "", error == COVRETIN_SOCKET_ERROR ? strerror(errno) : "");
}

static void call(const struct call *it, const struct arguments *of)
{
    enum covretin_error error = it->ask == NULL ? covretin_set_hdr_flags(&session, (uint32_t)of->numbers[1]) : it->ask(of);
    if (error == COVRETIN_OUT_OF_MEMORY || error == COVRETIN_SOCKET_RETRY || error == COVRETIN_SOCKET_BROKEN)
        fail("memory: an allocation failed");
    if (!error && it->ask != NULL) {
        exchange(it);
        return;
    }
    printf("- - ");
    if (error)
        show_error(error);
    else
        printf("ok");
    printf("\n");
    say_why(it, of, error);
}

/* -- Lines -- */

/* Does what a line asks for. */
static void do_line(char *line)
{
    struct arguments of = {NULL, NULL, 0, 0};
    const struct call *it;
    cut(line);
    it = call_of();
    request.byte_count = request.fd_count = reply.byte_count = reply.fd_count = 0;
    read_arguments(it, &of);
    call(it, &of);
    end_arguments(&of);
    if (fflush(stdout) || ferror(stdout))
        fail("output: %s", strerror(errno));
}

static void do_lines(void)
{
    char *line = NULL;
    size_t room = 0;
    ssize_t len;
    errno = 0;
    while ((len = getline(&line, &room, stdin)) >= 0) {
        line_number++;
        if (line[len - 1] == '\n')
            line[--len] = '\0';
        if (len == 0 || line[0] == '#')
            continue;
        if (strlen(line) != (size_t)len) {
            cut(line);
            refuse(word_count - 1, "a byte of 0");
        }
        do_line(line);
        errno = 0;
    }
    if (errno != 0)
        fail("input: %s", strerror(errno));
    free(line);
}

/* -- The arguments of the program -- */

static void wrong(const char *why, const char *word) __attribute__((noreturn));

static void wrong(const char *why, const char *word)
{
    fprintf(stderr, "covretin-ask: %s: %s\n%s", word, why, usage);
    exit(WRONG_ARGUMENTS);
}

/* What stands behind the name of an option that wants a number, and is in these limits. */
static uint64_t option(const char *word, const char *name, uint64_t least, uint64_t most)
{
    uint64_t number = 0;
    const char *why = number_of(word + strlen(name), most, &number);
    if (why == NULL && number < least)
        why = "too small";
    if (why != NULL)
        wrong(why, word);
    return number;
}

/* Opens N=FORM. */
static void give(char *word)
{
    char *form = strchr(word, '=');
    uint64_t number = 0;
    const char *why;
    int fd;
    if (form == NULL)
        wrong("--fd wants N=FORM", word);
    *form++ = '\0';
    why = number_of(word, UINT32_MAX, &number);
    if (why != NULL)
        wrong(why, word);
    fd = open_form(form);
    if (fd == -2)
        wrong("no form of a descriptor", form);
    if (fd < 0)
        fail("%s: %s", form, strerror(errno));
    if (!give_fd((uint32_t)number, fd))
        wrong("too many descriptors", word);
}

/* Connects to the socket at a path. */
static int connect_to(const char *path)
{
    struct sockaddr_un address;
    int fd;
    if (transport_address(path, &address))
        wrong("the socket's path is empty or too long", path);
    fd = socket(AF_UNIX, SOCK_STREAM | SOCK_CLOEXEC, 0);
    if (fd < 0 || connect(fd, (const struct sockaddr *)&address, sizeof address))
        fail("%s: %s", path, strerror(errno));
    return fd;
}

/* A standard stream that is closed would give its number to the next descriptor. */
static void hold_streams(void)
{
    static const char *const names[] = {"input", "output"};
    for (int fd = 0; fd < 2; fd++)
        if (fcntl(fd, F_GETFD) < 0)
            fail("%s: %s", names[fd], strerror(errno));
    if (fcntl(2, F_GETFD) < 0 && open("/dev/null", O_WRONLY) != 2)
        exit(FAILED);
}

static int say(const char *first, const char *second)
{
    if (printf("%s%s", first, second) < 0 || fflush(stdout))
        fail("output: %s", strerror(errno));
    return DONE;
}

int main(int argc, char **argv)
{
    enum covretin_profile profile = COVRETIN_PROFILE_STANDARD;
    const char *path = NULL;
    hold_streams();
    signal(SIGPIPE, SIG_IGN);
    for (int i = 1; i < argc; i++) {
        char *word = argv[i];
        if (strcmp(word, "--help") == 0 || strcmp(word, "-h") == 0)
            return say(usage, help);
        if (strcmp(word, "--version") == 0)
            return say("covretin-ask " COVRETIN_VERSION, "\n");
        if (strcmp(word, "--profile=standard") == 0)
            profile = COVRETIN_PROFILE_STANDARD;
        else if (strcmp(word, "--profile=vhost") == 0)
            profile = COVRETIN_PROFILE_VHOST;
        else if (strncmp(word, "--rings=", 8) == 0)
            rings = option(word, "--rings=", 1, 0x8000);
        else if (strncmp(word, "--limit=", 8) == 0)
            limit = (int)(1000 * option(word, "--limit=", 1, 1000000));
        else if (strcmp(word, "--fd") == 0 && i + 1 < argc)
            give(argv[++i]);
        else if (word[0] == '-')
            wrong("there is no such option", word);
        else if (path != NULL)
            wrong("one path alone is wanted", word);
        else
            path = word;
    }
    if (path == NULL)
        wrong("the path of a socket is wanted", "no path");
    int fd = connect_to(path);
    if (covretin_open(&session, rings) || covretin_set_profile(&session, profile))
        fail("memory: an allocation failed");
    transport = transport_new(&side, &session, fd, sizeof *transport);
    if (transport == NULL)
        fail("memory: an allocation failed");
    do_lines();
    transport_free(transport);
    covretin_close(&session);
    return DONE;
}
