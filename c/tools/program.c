/* SPDX-License-Identifier: Apache-2.0 */
/* See program.h. What holds for each: it does not become a daemon, leaves descriptors 0 to 2 alone, and ends by SIGTERM or SIGINT within a
 * tenth of a second, also where a file keeps a request waiting: the guest has not been told that it is done. */
#ifndef _GNU_SOURCE
#define _GNU_SOURCE
#endif
#include "counts.h"
#include "program.h"

#include <errno.h>
#include <fcntl.h>
#include <pthread.h>
#include <signal.h>
#include <stdio.h>
#include <stdlib.h>
#include <string.h>
#include <sys/socket.h>
#include <sys/un.h>
#include <unistd.h>

enum { ENDED_WELL, WRONG_MESSAGE, WRONG_ARGUMENTS, FAILED = 4 };
enum { FIRST_GIVEN = 3, LAST_REQUESTS_MS = 50 };

/* What the arguments say. */
static const char *path, *metrics;
static int given = -1;

/* The lines that are shown: those of this level, and worse ones; or none. */
static enum covretin_level shown = COVRETIN_LEVEL_WARNING;
static bool is_silent;

/* As in covretin_device_calls. */
static bool calls_by_pipe;

static const struct program *it;

static bool take_path(const char *value)
{
    path = value;
    return *value != '\0';
}

static bool take_fd(const char *value)
{
    unsigned long number;
    bool is_right = program_number(value, FIRST_GIVEN, 1 << 20, &number);
    given = is_right ? (int)number : -1;
    return is_right;
}

static bool take_metrics(const char *value)
{
    metrics = value;
    return *value != '\0';
}

static bool take_nothing(const char *value)
{
    return value == NULL;
}

static bool take_pipes(const char *value)
{
    calls_by_pipe = true;
    return value == NULL;
}

static bool take_log(const char *value)
{
    static const char *const levels[] = {
        [COVRETIN_LEVEL_ERROR] = "error", [COVRETIN_LEVEL_WARNING] = "warning", [COVRETIN_LEVEL_INFO] = "info"};
    is_silent = strcmp(value, "none") == 0;
    for (size_t i = 0; i < sizeof levels / sizeof *levels; i++)
        if (strcmp(value, levels[i]) == 0) {
            shown = (enum covretin_level)i;
            return true;
        }
    return is_silent;
}

static const struct program_option common[] = {
    {"socket-path", "PATH", "listens at this Unix socket", take_path},
    {"fd", "NUMBER", "serves this descriptor: a Unix socket that listens, or one that is connected", take_fd},
    {"calls-by-pipe", NULL, "also signals by pipes and sockets, as User Mode Linux wants: for a frontend that is trusted alone", take_pipes},
    {"log", "LEVEL", "says on standard error why a session ended (error), a request was refused (warning), who went (info); or none", take_log},
    {"metrics", "PATH", "tells at this Unix socket what was counted, as text for Prometheus", take_metrics},
    {"print-capabilities", NULL, "prints what the device can do, as JSON; all other words are ignored", take_nothing},
    {"help", NULL, "shows this", take_nothing},
    {"version", NULL, "prints the version", take_nothing},
    {NULL, NULL, NULL, NULL},
};

bool program_number(const char *text, unsigned long least, unsigned long most, unsigned long *number)
{
    char *end;
    errno = 0;
    *number = strtoul(text, &end, 10);
    return errno == 0 && *text >= '0' && *text <= '9' && *end == '\0' && *number >= least && *number <= most;
}

/* -- Arguments -- */

static void show_options(const struct program_option *options)
{
    for (; options != NULL && options->name != NULL; options++) {
        char word[64];
        snprintf(word, sizeof word, "--%s%s%s", options->name, options->value != NULL ? "=" : "", options->value != NULL ? options->value : "");
        printf("  %-24s %s\n", word, options->says);
    }
}

static void show_help(void)
{
    printf("usage: %s --socket-path=PATH|--fd=NUMBER [OPTION..]\n\n%s, for a VMM that speaks vhost-user.\n\n", it->name, it->title);
    show_options(it->options);
    show_options(common);
    printf("\nSIGUSR1 prints what was counted. Serves one frontend after another until SIGTERM or SIGINT; a second one at a time is hung up on. Of a socket that is connected it\n"
           "serves that frontend. Where a service manager gives the socket (LISTEN_FDS), neither option is named.\n\n"
           "Status: 0 where it was told to end, or the frontend of --fd went; 1 where that sent no message of vhost-user; 2 after wrong\n"
           "arguments; 4 where a path, a socket, a descriptor or memory failed.\n");
}

static int refuse(const char *word, const char *why)
{
    fprintf(stderr, "%s: %s%s%s (--help says more)\n", it->name, word, *word != '\0' ? ": " : "", why);
    return WRONG_ARGUMENTS;
}

/* The option that a word names, and its value, if it has one. */
static const struct program_option *find(const struct program_option *options, const char *word, size_t length)
{
    for (; options != NULL && options->name != NULL; options++)
        if (strlen(options->name) == length && memcmp(options->name, word, length) == 0)
            return options;
    return NULL;
}

/* Takes the option at *words, whose value may be the next word. */
static int take_option(char ***words)
{
    char *word = **words, *value = strchr(word, '=');
    size_t length = value != NULL ? (size_t)(value - word) : strlen(word);
    const struct program_option *option = NULL;
    if (length > 2 && memcmp(word, "--", 2) == 0)
        option = find(it->options, word + 2, length - 2);
    if (option == NULL && length > 2 && memcmp(word, "--", 2) == 0)
        option = find(common, word + 2, length - 2);
    if (option == NULL)
        return refuse(word, "there is no such option");
    if (value != NULL)
        value++;
    else if (option->value != NULL)
        value = *++*words;
    if (option->value != NULL && value == NULL)
        return refuse(word, "it takes a value");
    if (!option->take(value))
        return refuse(word, option->value != NULL ? "there is no such value" : "it takes no value");
    return ENDED_WELL;
}

/* Whether a word is there: those that only show something come before all others. */
static bool has_word(char **words, const char *word)
{
    for (; *words != NULL; words++)
        if (strcmp(*words, word) == 0)
            return true;
    return false;
}

/* The socket that a service manager gives, of which this process has to be the one that is meant. Several are refused. */
static bool take_from_manager(void)
{
    const char *pid = getenv("LISTEN_PID"), *count = getenv("LISTEN_FDS");
    unsigned long number;
    if (pid == NULL || count == NULL || !program_number(pid, 1, 1 << 30, &number) || (pid_t)number != getpid())
        return true;
    bool is_one = program_number(count, 1, 1, &number);
    if (path == NULL && given < 0 && is_one)
        given = FIRST_GIVEN;
    unsetenv("LISTEN_PID");
    unsetenv("LISTEN_FDS");
    unsetenv("LISTEN_FDNAMES");
    return is_one;
}

static int take_arguments(char **words)
{
    while (*++words != NULL) {
        int status = take_option(&words);
        if (status != ENDED_WELL)
            return status;
    }
    if (path != NULL && given >= 0)
        return refuse("", "--socket-path and --fd exclude each other");
    if (!take_from_manager())
        return refuse("LISTEN_FDS", "it has to be one socket");
    if (path == NULL && given < 0)
        return refuse("", "--socket-path or --fd is missing");
    const char *lacked = it->lacks != NULL ? it->lacks() : NULL;
    return lacked != NULL ? refuse("", lacked) : ENDED_WELL;
}

/* -- Its life -- */

/* Tells a service manager, where one asks for that, by the protocol of sd_notify(3). */
static void notify(const char *state)
{
    const char *to = getenv("NOTIFY_SOCKET");
    struct sockaddr_un address = {.sun_family = AF_UNIX};
    size_t length = to != NULL ? strlen(to) : 0;
    int fd = -1;
    if (length > 1 && length < sizeof address.sun_path && (*to == '/' || *to == '@'))
        fd = socket(AF_UNIX, SOCK_DGRAM | SOCK_CLOEXEC, 0);
    if (fd < 0)
        return;
    memcpy(address.sun_path, to, length);
    if (*to == '@')
        address.sun_path[0] = '\0';
    socklen_t size = (socklen_t)(offsetof(struct sockaddr_un, sun_path) + length);
    (void)!sendto(fd, state, strlen(state), MSG_NOSIGNAL | MSG_DONTWAIT, (const struct sockaddr *)&address, size);
    close(fd);
}

static void show(void *none, enum covretin_level level, const char *text)
{
    (void)none;
    if (level <= shown)
        fprintf(stderr, "%s: %s\n", it->name, text);
}

/* -- What is counted -- */

static covretin_device_stats stats;

/* Prints what was counted whenever SIGUSR1 comes, which is blocked in each thread. */
static void *print_counts(void *signals)
{
    for (int number; sigwait(signals, &number) == 0;)
        counts_print(&stats);
    return NULL;
}

static int fail(const char *of, enum covretin_error error)
{
    bool has_more = error == COVRETIN_SOCKET_ERROR && errno != 0;
    fprintf(stderr, "%s: %s: %s%s%s\n", it->name, of, covretin_error_text(error), has_more ? ": " : "", has_more ? strerror(errno) : "");
    return FAILED;
}

/* Ends soon, whatever keeps a request waiting. */
static int end(int status)
{
    notify("STOPPING=1");
    counts_end();
    for (int waited = 0; it->is_busy != NULL && it->is_busy() && waited < LAST_REQUESTS_MS; waited++)
        usleep(1000);
    if (it->finish != NULL)
        it->finish();
    fflush(stdout);
    if (it->is_busy != NULL && it->is_busy())
        _exit(status);
    return status;
}

/* Serves those who come to a listener. */
static int serve_all(covretin_listener *listener, const char *name)
{
    notify("READY=1");
    enum covretin_error error = covretin_device_run_listener(it->calls, it->own, listener);
    int status = error == COVRETIN_OK ? ENDED_WELL : fail(name, error);
    covretin_unlisten(listener);
    return end(status);
}

/* Serves the one that is connected. */
static int serve_one(const char *name)
{
    notify("READY=1");
    enum covretin_error error = covretin_device_run_fd(it->calls, it->own, given);
    switch (error) {
    case COVRETIN_OK: case COVRETIN_DISCONNECTED: return end(ENDED_WELL);
    case COVRETIN_PARTIAL_MESSAGE: case COVRETIN_INVALID_MESSAGE: fail(name, error); return end(WRONG_MESSAGE);
    default: return end(fail(name, error));
    }
}

static int serve(void)
{
    covretin_listener listener = {0};
    char name[32];
    int listens = 0;
    socklen_t size = sizeof listens;
    if (path != NULL) {
        enum covretin_error error = covretin_listen(&listener, path);
        return error == COVRETIN_OK ? serve_all(&listener, path) : end(fail(path, error));
    }
    snprintf(name, sizeof name, "descriptor %d", given);
    if (fcntl(given, F_SETFD, FD_CLOEXEC) != 0 || getsockopt(given, SOL_SOCKET, SO_ACCEPTCONN, &listens, &size) != 0)
        return end(fail(name, COVRETIN_INVALID_SOCKET_FD));
    if (!listens)
        return serve_one(name);
    enum covretin_error error = covretin_listen_fd(&listener, given);
    return error == COVRETIN_OK ? serve_all(&listener, name) : end(fail(name, error));
}

/* Those words that only show something: the status, or -1 where there is none of them. */
static int show_only(char **words)
{
    if (has_word(words, "--print-capabilities"))
        return puts(it->capabilities) < 0 || fflush(stdout) != 0 ? FAILED : ENDED_WELL;
    if (has_word(words, "--help")) {
        show_help();
        return ENDED_WELL;
    }
    if (has_word(words, "--version"))
        return printf("%s %s\n", it->name, covretin_version()) < 0 || fflush(stdout) != 0 ? FAILED : ENDED_WELL;
    return -1;
}

/* Blocks the signals that are waited for, in the device's threads, too. */
static void block_signals(sigset_t *asking)
{
    sigset_t all;
    sigemptyset(asking);
    sigaddset(asking, SIGUSR1);
    all = *asking;
    sigaddset(&all, SIGTERM);
    sigaddset(&all, SIGINT);
    sigprocmask(SIG_BLOCK, &all, NULL);
}

/* Begins to tell what is counted, where somebody asks. */
static int begin_counts(sigset_t *asking)
{
    pthread_t thread;
    enum covretin_error error = metrics != NULL ? counts_serve(&stats, it->name, metrics) : COVRETIN_OK;
    if (error != COVRETIN_OK)
        return fail(metrics, error);
    return pthread_create(&thread, NULL, print_counts, asking) == 0 ? ENDED_WELL : fail("a thread", COVRETIN_OUT_OF_MEMORY);
}

int program_run(const struct program *program, char **words)
{
    static covretin_device_calls calls;
    static struct program counted;
    static sigset_t asking;
    it = program;
    int status = show_only(words);
    if (status >= 0)
        return status;
    status = take_arguments(words);
    if (status != ENDED_WELL)
        return status;
    covretin_set_log(is_silent ? NULL : show, NULL);
    setvbuf(stdout, NULL, _IOLBF, 0); /* also in a file, so that who is killed has said what it did */
    block_signals(&asking);
    errno = 0;
    const char *lacked = it->prepare != NULL ? it->prepare() : NULL;
    if (lacked != NULL) {
        fprintf(stderr, "%s: %s: %s\n", it->name, lacked, strerror(errno));
        return FAILED;
    }
    calls = *it->calls;
    calls.stats = &stats;
    calls.calls_by_pipe = calls_by_pipe;
    counted = *it;
    counted.calls = &calls;
    it = &counted;
    status = begin_counts(&asking);
    return status == ENDED_WELL ? serve() : end(status);
}
