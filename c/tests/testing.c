#ifndef _GNU_SOURCE
#define _GNU_SOURCE /* for RUSAGE_THREAD */
#endif

#include "testing.h"

#include <dirent.h>
#include <fcntl.h>
#include <stdint.h>
#include <stdio.h>
#include <stdlib.h>
#include <string.h>
#include <sys/resource.h>
#include <time.h>
#include <unistd.h>

static bool wrong, any_wrong;
static size_t wrong_count;

void expect(int line, const char *call, long long want, long long got)
{
    if (got == want)
        return;
    printf("line %d: %s is %lld and not %lld\n", line, call, got, want);
    wrong = true;
    wrong_count++;
}

size_t expected_wrong(void)
{
    return wrong_count;
}

/* Whether COVRETIN_LEFT_OUT names a test: what an emulator cannot do. */
static bool is_left_out(const char *name)
{
    const char *names = getenv("COVRETIN_LEFT_OUT");
    const char *found = names != NULL ? strstr(names, name) : NULL;
    return found != NULL && strchr(" ", found[strlen(name)]) != NULL;
}

void run(const char *name, void (*test)(void))
{
    if (is_left_out(name)) {
        printf("%s: left out\n", name);
        fflush(stdout);
        return;
    }
    size_t before = open_fds();
    wrong = false;
    test();
    size_t after = open_fds();
    if (after != before) {
        printf("%zu descriptors were open before, and %zu after\n", before, after);
        wrong = true;
    }
    printf("%s: %s\n", name, wrong ? "FAILED" : "ok");
    fflush(stdout);
    any_wrong = any_wrong || wrong;
}

int status(void)
{
    return any_wrong;
}

/* How many names a folder of this process has, without itself and the one above. */
static size_t names_in(const char *path)
{
    DIR *folder = opendir(path);
    size_t count = 0;
    if (folder == NULL)
        give_up(path);
    while (readdir(folder) != NULL)
        count++;
    closedir(folder);
    return count - 2;
}

/* Whether a thread takes no signal, as the library's own do, by which it closes what may wait. */
static bool takes_no_signal(const char *id)
{
    char path[300], line[128];
    unsigned long long blocked = 0;
    snprintf(path, sizeof path, "/proc/self/task/%s/status", id);
    FILE *status = fopen(path, "re");
    while (status != NULL && fgets(line, sizeof line, status) != NULL)
        if (sscanf(line, "SigBlk: %llx", &blocked) == 1)
            break;
    if (status != NULL)
        fclose(status);
    return __builtin_popcountll(blocked) > 56;
}

static bool is_closing(void)
{
    DIR *folder = opendir("/proc/self/task");
    bool found = false;
    if (folder == NULL)
        give_up("/proc/self/task");
    for (struct dirent *it; !found && (it = readdir(folder)) != NULL;)
        found = it->d_name[0] != '.' && takes_no_signal(it->d_name);
    closedir(folder);
    return found;
}

/* It counts once the library's threads have ended. */
size_t open_fds(void)
{
    for (int looks = 0; looks < 2000 && is_closing(); looks++)
        nanosleep(&(struct timespec){.tv_nsec = 1000000}, NULL);
    return names_in("/proc/self/fd") - 1; /* (the folder itself) */
}

/* How many nanoseconds this thread had a processor, or waited for one. */
static int64_t awake(void)
{
    char text[64] = "";
    unsigned long long ran = 0, queued = 0;
    int file = open("/proc/thread-self/schedstat", O_RDONLY | O_CLOEXEC);
    if (file < 0 || read(file, text, sizeof text - 1) < 0 || sscanf(text, "%llu %llu", &ran, &queued) != 2)
        give_up("/proc/thread-self/schedstat");
    close(file);
    return (int64_t)(ran + queued);
}

bool runs_tests(void)
{
    return gettid() == getpid();
}

bool has_waited(void)
{
    static int64_t asleep_before;
    static long slept_before;
    struct timespec time;
    struct rusage usage;
    clock_gettime(CLOCK_MONOTONIC, &time);
    getrusage(RUSAGE_THREAD, &usage);
    int64_t asleep = (int64_t)time.tv_sec * 1000000000 + time.tv_nsec - awake();
    bool waited = asleep - asleep_before >= 1000000000 && usage.ru_nvcsw != slept_before;
    asleep_before = asleep;
    slept_before = usage.ru_nvcsw;
    return waited;
}

void give_up(const char *what)
{
    perror(what);
    exit(3);
}
