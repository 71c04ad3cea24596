/* SPDX-License-Identifier: Apache-2.0 */
/* bench [--limits | --at SOCKET | --try | --bytes | --one FIGURE COUNT]: measures what messages cost. docs/PERFORMANCE.md says what the names
 * mean.
 *
 * Status 0; 1 after wrong arguments; 2 where memory, a socket, the clock or the output failed. */
#include "bench.h"

#include <stdio.h>
#include <stdlib.h>
#include <string.h>
#include <time.h>

/* How often each figure is measured: the middle is shown. And how many times its work is done where only its success is. */
enum { TURNS = 9, TRIED = 10 };

/* A figure: how often its work is done in a turn, and what the same bytes cost alone, if that is measured. */
struct figure {
    const char *name;
    long count;
    work *works;
    const char *beside;
};

/* Those of the library, behind each limit that they stand beside; and from LIMITS on those that stand beside none. */
static const struct figure figures[] = {
    {"backend_get_features", 50000, backend_get_features, NULL},
    {"backend_set_vring_num", 50000, backend_set_vring_num, NULL},
    {"backend_acknowledged", 50000, backend_acknowledged, NULL},
    {"backend_get_config_256", 20000, backend_get_config_256, NULL},
    {"frontend_get_features", 50000, frontend_get_features, NULL},
    {"frontend_set_vring_num", 50000, frontend_set_vring_num, NULL},
    {"frontend_acknowledged", 50000, frontend_acknowledged, NULL},
    {"frontend_get_config_256", 20000, frontend_get_config_256, NULL},
    {"both_get_features", 20000, both_get_features, NULL},
    {"both_get_config_256", 20000, both_get_config_256, NULL},
    {"both_set_mem_table_8", 20000, both_set_mem_table_8, NULL},
#ifndef WITHOUT_QUEUES
    {"queue_chain_8", 50000, queue_chain_8, NULL},
    {"queue_chain_8_apart", 50000, queue_chain_8_apart, NULL},
#endif
    {"socket_recvmsg_apart", 20000, socket_recvmsg_apart, NULL},
    {"service_queued", 20000, service_queued, "socket_recvmsg_apart"},
    {"socket_trip", 20000, socket_trip, NULL},
    {"service_trip", 20000, service_trip, "socket_trip"},
    {"service_session", 5000, service_session, NULL},
    {"connection_session", 5000, connection_session, NULL},
    {"threads_trip", 5000, threads_trip, NULL},
    {"threads_get_features", 5000, threads_get_features, "threads_trip"},
    {"threads_acknowledged", 5000, threads_acknowledged, "threads_trip"},
    {"threads_get_config_256", 5000, threads_get_config_256, "threads_trip"},
    {"copy_message", 1000000, copy_message, NULL},
    {"socket_read", 50000, socket_read, NULL},
    {"socket_read_apart", 50000, socket_read_apart, NULL},
    {"socket_recvmsg", 50000, socket_recvmsg, NULL},
};
enum { FIGURES = sizeof figures / sizeof figures[0], LIMITS = FIGURES - 4 };

/* Those of a backend that listens elsewhere. */
static const struct figure figures_at[] = {
    {"threads_trip", 5000, threads_trip, NULL},
    {"at_trip", 5000, at_trip, "threads_trip"},
    {"socket_read", 50000, socket_read, NULL},
    {"at_queued", 50000, at_queued, "socket_read"},
};
enum { FIGURES_AT = sizeof figures_at / sizeof figures_at[0] };

void fail(const char *what)
{
    fprintf(stderr, "bench: %s failed\n", what);
    exit(4);
}

double now(void)
{
    struct timespec at;
    if (clock_gettime(CLOCK_MONOTONIC, &at))
        fail("the clock");
    return (double)at.tv_sec * 1e9 + (double)at.tv_nsec;
}

static int by_size(const void *a, const void *b)
{
    double one = *(const double *)a, other = *(const double *)b;
    return (one > other) - (one < other);
}

/* The number of the figure of this name among so many; -1: there is none. */
static int figure_of(const char *name, const struct figure *all, int count)
{
    for (int i = 0; name != NULL && i < count; i++)
        if (strcmp(all[i].name, name) == 0)
            return i;
    return -1;
}

/* Does the work of each once. */
static void turn(const struct figure *all, int count, double taken[][TURNS], int turn)
{
    for (int i = 0; i < count; i++) {
        struct taken it = all[i].works(all[i].count);
        if (it.good != all[i].count)
            fail(all[i].name);
        taken[i][turn] = it.nanoseconds / (double)it.good;
    }
}

/* Measures so many figures in turns, and prints the middle of each, and how many times its limit that is. */
static void measure(const struct figure *all, int count)
{
    static double taken[FIGURES][TURNS];
    for (int i = 0; i < TURNS; i++)
        turn(all, count, taken, i);
    for (int i = 0; i < count; i++)
        qsort(taken[i], TURNS, sizeof taken[i][0], by_size);
    for (int i = 0; i < count; i++) {
        int beside = figure_of(all[i].beside, all, count);
        printf("%s %.1f", all[i].name, taken[i][TURNS / 2]);
        if (beside >= 0)
            printf(" %.2f", taken[i][TURNS / 2] / taken[beside][TURNS / 2]);
        printf("\n");
    }
}

/* Does a figure's work so often, and prints how often it succeeded. */
static void show_good(int figure, long count)
{
    printf("%s %ld\n", figures[figure].name, figures[figure].works(count).good);
}

static int usage(void)
{
    fprintf(stderr, "usage: bench [--limits | --at SOCKET | --try | --bytes | --one FIGURE COUNT]\n");
    return 2;
}

/* Does the work of one figure, of this name, so often. Whether there is one. */
static bool one(const char *name, const char *times)
{
    char *end;
    int figure = figure_of(name, figures, FIGURES);
    long count = strtol(times, &end, 10);
    if (figure < 0 || *times == '\0' || *end != '\0' || count < 0)
        return false;
    show_good(figure, count);
    return true;
}

int main(int argc, char **argv)
{
    const char *word = argc > 1 ? argv[1] : "";
    if (argc == 1)
        measure(figures, LIMITS);
    else if (argc == 2 && strcmp(word, "--limits") == 0)
        measure(figures, FIGURES);
    else if (argc == 3 && strcmp(word, "--at") == 0) {
        at_path = argv[2];
        measure(figures_at, FIGURES_AT);
    } else if (argc == 2 && strcmp(word, "--bytes") == 0)
        show_bytes();
    else if (argc == 2 && strcmp(word, "--try") == 0)
        for (int i = 0; i < FIGURES; i++)
            show_good(i, TRIED);
    else if (argc != 4 || strcmp(word, "--one") != 0 || !one(argv[2], argv[3]))
        return usage();
    if (fflush(stdout))
        fail("the output");
    return 0;
}
