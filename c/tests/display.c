/* A device on the vhost-user-gpu channel over a pair of sockets, whose display is played by hand: each call with real descriptors,
 * pixels of any size through a small socket, and displays that are not to be trusted. */
#ifndef _GNU_SOURCE
#define _GNU_SOURCE
#endif

#include "covretin_display_socket.h"
#include "peer.h"
#include "screen.h"
#include "testing.h"

#include <errno.h>
#include <poll.h>
#include <pthread.h>
#include <stdlib.h>
#include <string.h>
#include <sys/socket.h>
#include <time.h>
#include <unistd.h>

enum { LIMIT = 20000, REST = 32 /* bytes of a message before its pixels */ };

static covretin_display_connection screen;
static covretin_display *const display = &screen.display;
static short events;

/* Connects one end of a pair of sockets, of which one takes no more than it has to. The other is the display's. */
static int connected(void)
{
    int ends[2], least = 1;
    if (socketpair(AF_UNIX, SOCK_STREAM | SOCK_CLOEXEC, 0, ends) ||
        setsockopt(ends[0], SOL_SOCKET, SO_SNDBUF, &least, sizeof least))
        give_up("socketpair");
    EXPECT(COVRETIN_OK, covretin_display_connect_fd(&screen, ends[0]));
    EXPECT(ends[0], covretin_display_connection_fd(&screen));
    return ends[1];
}

static void disconnect(int peer)
{
    covretin_display_disconnect(&screen);
    EXPECT(true, display->opaque == NULL && screen.opaque == NULL && covretin_display_connection_fd(&screen) == -1);
    close(peer);
}

/* Each call that has these: a reply, or none; and no pixels. */
static const struct screen_call *next_call(const struct screen_call *call, bool is_replied)
{
    for (call = call == NULL ? screen_calls : call + 1; call < screen_calls + screen_call_count; call++)
        if (is_replied ? call->header != NULL : call->header == NULL && call->text[0] != 6 && call->text[0] != 8)
            return call;
    return NULL;
}

/* The display hears this request, and no more. */
static void expect_heard(int peer, const struct screen_call *call)
{
    uint8_t bytes[64];
    size_t fd_count = 0;
    EXPECT(true, hear_bytes(peer, bytes, call->length, &fd_count));
    EXPECT(0, memcmp(bytes, call->text, call->length));
    EXPECT(call->fd >= 0, fd_count);
    EXPECT(-1, recv(peer, bytes, 1, MSG_DONTWAIT));
}

/* Asks a call whose reply is awaited; the display hears it. */
static void begin(int peer, const struct screen_call *call)
{
    EXPECT(COVRETIN_OK, call->ask(display));
    EXPECT(COVRETIN_NOT_YET, covretin_display_exchange_nowait(&screen, &events));
    EXPECT(POLLIN, events);
    expect_heard(peer, call);
}

/* -- Each call -- */

static void without_reply(void)
{
    int peer = connected();
    for (const struct screen_call *call = NULL; (call = next_call(call, false)) != NULL;) {
        if (call->fd >= 0)
            continue;
        EXPECT(COVRETIN_OK, call->ask(display));
        EXPECT(COVRETIN_OK, covretin_display_exchange(&screen, LIMIT));
        EXPECT(COVRETIN_NOTHING_ASKED, covretin_display_exchange(&screen, 0));
        expect_heard(peer, call);
    }
    disconnect(peer);
}

/* The descriptor that comes with this request. */
static int file_with(int peer, const struct screen_call *call)
{
    union {
        struct cmsghdr align;
        char bytes[CMSG_SPACE(sizeof(int))];
    } control;
    uint8_t bytes[64];
    int file;
    struct iovec piece = {bytes, call->length};
    struct msghdr message = {.msg_iov = &piece, .msg_iovlen = 1, .msg_control = control.bytes, .msg_controllen = sizeof control.bytes};
    EXPECT(call->length, recvmsg(peer, &message, MSG_CMSG_CLOEXEC));
    EXPECT(0, memcmp(bytes, call->text, call->length));
    if (CMSG_FIRSTHDR(&message) == NULL)
        return -1;
    memcpy(&file, CMSG_DATA(CMSG_FIRSTHDR(&message)), sizeof file);
    return file;
}

/* A buffer's descriptor goes along, and stays the caller's. */
static void with_buffer(void)
{
    int peer = connected(), sent = file_of("buffer"), came;
    EXPECT(BUFFER, dup2(sent, BUFFER));
    close(sent);
    for (const struct screen_call *call = NULL; (call = next_call(call, false)) != NULL;) {
        if (call->fd < 0)
            continue;
        EXPECT(COVRETIN_OK, call->ask(display));
        EXPECT(COVRETIN_OK, covretin_display_exchange(&screen, LIMIT));
        came = file_with(peer, call);
        EXPECT(true, came != BUFFER && holds(came, "buffer") && holds(BUFFER, "buffer"));
        close(came);
    }
    EXPECT(0, close(BUFFER));
    disconnect(peer);
}

/* Where it is not open nothing is sent, nothing is asked any more, and the channel goes on. */
static void without_buffer(void)
{
    const struct screen_call *last = NULL;
    uint8_t byte;
    int peer = connected();
    for (const struct screen_call *call = NULL; (call = next_call(call, false)) != NULL;) {
        EXPECT(COVRETIN_OK, call->ask(display));
        if (call->fd < 0) {
            EXPECT(COVRETIN_OK, covretin_display_exchange(&screen, LIMIT));
            expect_heard(peer, call);
            continue;
        }
        EXPECT(COVRETIN_INVALID_PARAM, covretin_display_exchange(&screen, LIMIT));
        EXPECT(EBADF, errno);
        EXPECT(COVRETIN_NOTHING_ASKED, covretin_display_exchange(&screen, 0));
        EXPECT(-1, recv(peer, &byte, 1, MSG_DONTWAIT));
        last = call;
    }
    EXPECT(true, last != NULL);
    disconnect(peer);
}

static void with_reply(void)
{
    int peer = connected();
    uint8_t bytes[MOST_REPLY];
    for (const struct screen_call *call = NULL; (call = next_call(call, true)) != NULL;) {
        begin(peer, call);
        EXPECT(COVRETIN_TIMED_OUT, covretin_display_exchange(&screen, 0));
        say(peer, bytes, good_reply(call, bytes), NULL, 0);
        EXPECT(COVRETIN_OK, covretin_display_exchange(&screen, LIMIT));
        if (call->form == FORM_NONE)
            continue;
        EXPECT(COVRETIN_OK, covretin_display_exchange_nowait(&screen, &events));
        EXPECT(0, events);
        EXPECT(COVRETIN_OTHER_ANSWER, covretin_display_take(display));
        take_good(display, call);
        EXPECT(COVRETIN_NOTHING_ASKED, covretin_display_exchange(&screen, 0));
    }
    disconnect(peer);
}

static void byte_by_byte(void)
{
    int peer = connected();
    uint8_t bytes[MOST_REPLY];
    for (const struct screen_call *call = NULL; (call = next_call(call, true)) != NULL;) {
        size_t length = good_reply(call, bytes);
        begin(peer, call);
        for (size_t i = 0; i < length; i++) {
            EXPECT(COVRETIN_NOT_YET, covretin_display_exchange_nowait(&screen, &events));
            EXPECT(POLLIN, events);
            say(peer, bytes + i, 1, NULL, 0);
        }
        EXPECT(COVRETIN_OK, covretin_display_exchange_nowait(&screen, &events));
        if (call->form != FORM_NONE)
            take_good(display, call);
    }
    disconnect(peer);
}

static void without_display(void)
{
    const uint8_t pixel[4] = {0};
    EXPECT(COVRETIN_NO_SESSION, covretin_display_exchange(&screen, 0));
    EXPECT(COVRETIN_NO_SESSION, covretin_display_exchange_nowait(&screen, &events));
    EXPECT(COVRETIN_NO_SESSION, covretin_display_lend_pixels(&screen, &screen_update, pixel, sizeof pixel));
    EXPECT(COVRETIN_NO_SESSION, covretin_display_lend_image(&screen, &screen_cursor, pixel));
    EXPECT(COVRETIN_INVALID_SOCKET_FD, covretin_display_connect_fd(&screen, -1));
    EXPECT(-1, covretin_display_connection_fd(&screen));
    covretin_display_disconnect(&screen);
    int peer = connected();
    EXPECT(COVRETIN_SESSION_OPEN, covretin_display_connect_fd(&screen, peer));
    EXPECT(COVRETIN_NOTHING_ASKED, covretin_display_exchange(&screen, 0));
    disconnect(peer);
}

/* -- Pixels -- */

/* So many bytes that nothing else has, and room behind them for a message that has them. */
static uint8_t *picture(size_t size)
{
    uint8_t *pixels = calloc(2, size + REST);
    uint32_t state = 1;
    if (pixels == NULL)
        give_up("calloc");
    for (size_t i = 0; i < size; i++) {
        state = state * 1664525 + 1013904223;
        pixels[i] = (uint8_t)(state >> 24);
    }
    return pixels;
}

/* What came is the message of these pixels: the text of its call, but for their number. */
static void expect_pixels(const uint8_t *came, const uint8_t *pixels, size_t size, const char *text)
{
    EXPECT(0, memcmp(came, text, 4));
    EXPECT(20 + size, came[8] | came[9] << 8 | came[10] << 16 | (long long)came[11] << 24);
    EXPECT(0, memcmp(came + 12, text + 12, REST - 12));
    EXPECT(0, memcmp(came + REST, pixels, size));
}

static const struct screen_call *call_of(char code)
{
    const struct screen_call *call = screen_calls;
    while (call->text[0] != code)
        call++;
    return call;
}

/* Exchanges what was lent, while a display reads a little whenever the socket is full. How often it was. */
static size_t exchange_slowly(int peer, uint8_t *came, size_t total)
{
    size_t turns = 0, fd_count = 0, heard = 0;
    enum covretin_error error;
    while ((error = covretin_display_exchange_nowait(&screen, &events)) == COVRETIN_NOT_YET) {
        ssize_t got = recv(peer, came + heard, total - heard < 5000 ? total - heard : 5000, 0);
        EXPECT(POLLOUT, events);
        if (got <= 0)
            give_up("recv");
        heard += (size_t)got;
        turns++;
    }
    EXPECT(COVRETIN_OK, error);
    EXPECT(true, hear_bytes(peer, came + heard, total - heard, &fd_count));
    EXPECT(0, fd_count);
    EXPECT(-1, recv(peer, came, 1, MSG_DONTWAIT));
    return turns;
}

static void pixels_of_each_size(void)
{
    static const size_t sizes[] = {0, 1, 4096, COVRETIN_MAX_MESSAGE, 8 << 20};
    int peer = connected();
    for (size_t i = 0; i < sizeof sizes / sizeof *sizes; i++) {
        uint8_t *pixels = picture(sizes[i]), *came = pixels + sizes[i] + REST;
        EXPECT(COVRETIN_OK, covretin_display_lend_pixels(&screen, &screen_update, pixels, sizes[i]));
        EXPECT(COVRETIN_NOT_TAKEN, covretin_display_lend_pixels(&screen, &screen_update, came, 1));
        EXPECT(COVRETIN_NOT_TAKEN, covretin_display_lend_image(&screen, &screen_cursor, came));
        size_t turns = exchange_slowly(peer, came, REST + sizes[i]);
        EXPECT(sizes[i] > 1 << 20, turns > 100);
        expect_pixels(came, pixels, sizes[i], call_of(8)->text);
        free(pixels);
        EXPECT(COVRETIN_NOTHING_ASKED, covretin_display_exchange(&screen, 0));
    }
    EXPECT(COVRETIN_OVERSIZED_MSG, covretin_display_lend_pixels(&screen, &screen_update, (const uint8_t *)"", UINT32_MAX));
    EXPECT(COVRETIN_NOTHING_ASKED, covretin_display_exchange(&screen, 0));
    disconnect(peer);
}

/* A cursor's image, between calls without pixels. */
static void image(void)
{
    int peer = connected();
    uint8_t *pixels = picture(COVRETIN_DISPLAY_CURSOR_SIZE), *came = pixels + COVRETIN_DISPLAY_CURSOR_SIZE + REST;
    const struct screen_call *before = next_call(NULL, false);
    for (int turn = 0; turn < 2; turn++) {
        EXPECT(COVRETIN_OK, before->ask(display));
        EXPECT(COVRETIN_OK, covretin_display_exchange(&screen, LIMIT));
        expect_heard(peer, before);
        EXPECT(COVRETIN_OK, covretin_display_lend_image(&screen, &screen_cursor, pixels));
        exchange_slowly(peer, came, REST + COVRETIN_DISPLAY_CURSOR_SIZE);
        expect_pixels(came, pixels, COVRETIN_DISPLAY_CURSOR_SIZE, call_of(6)->text);
    }
    free(pixels);
    disconnect(peer);
}

struct reading {
    int peer;
    uint8_t *came;
    size_t total;
};

/* Reads all, a little every millisecond. */
static void *read_slowly(void *of)
{
    const struct timespec pause = {.tv_nsec = 1000000};
    struct reading *reading = of;
    size_t heard = 0;
    while (heard < reading->total) {
        ssize_t got = recv(reading->peer, reading->came + heard, reading->total - heard < 3000 ? reading->total - heard : 3000, 0);
        if (got <= 0)
            break;
        heard += (size_t)got;
        nanosleep(&pause, NULL);
    }
    return NULL;
}

/* An exchange that waits, again and again, for a display that reads slowly; and one that gives up first, and goes on. */
static void slow_display(void)
{
    const size_t size = 300000;
    uint8_t *pixels = picture(size), *came = pixels + size + REST;
    int peer = connected();
    struct reading reading = {peer, came, REST + size};
    pthread_t thread;
    EXPECT(COVRETIN_OK, covretin_display_lend_pixels(&screen, &screen_update, pixels, size));
    EXPECT(COVRETIN_TIMED_OUT, covretin_display_exchange(&screen, 0));
    EXPECT(COVRETIN_TIMED_OUT, covretin_display_exchange(&screen, 30));
    if (pthread_create(&thread, NULL, read_slowly, &reading))
        give_up("pthread_create");
    EXPECT(COVRETIN_TIMED_OUT, covretin_display_exchange(&screen, 3));
    EXPECT(COVRETIN_OK, covretin_display_exchange(&screen, LIMIT));
    if (pthread_join(thread, NULL))
        give_up("pthread_join");
    expect_pixels(came, pixels, size, call_of(8)->text);
    free(pixels);
    disconnect(peer);
}

/* A display that ends amid pixels: each further exchange says so, and the pixels are read no more. */
static void display_ends_amid_pixels(void)
{
    static const size_t heard[] = {0, 5, REST, REST + 1, 10000};
    for (size_t i = 0; i < sizeof heard / sizeof *heard; i++) {
        const size_t size = 300000;
        uint8_t *pixels = picture(size);
        int peer = connected();
        size_t fd_count = 0;
        EXPECT(COVRETIN_OK, covretin_display_lend_pixels(&screen, &screen_update, pixels, size));
        EXPECT(COVRETIN_NOT_YET, covretin_display_exchange_nowait(&screen, &events));
        for (size_t left = heard[i]; left != 0;) {
            size_t now = left < 1000 ? left : 1000;
            hear_bytes(peer, pixels + size + REST, now, &fd_count);
            left -= now;
            EXPECT(COVRETIN_NOT_YET, covretin_display_exchange_nowait(&screen, &events));
        }
        close(peer);
        EXPECT(COVRETIN_DISCONNECTED, covretin_display_exchange(&screen, LIMIT));
        free(pixels);
        EXPECT(COVRETIN_DISCONNECTED, covretin_display_exchange(&screen, LIMIT));
        covretin_display_disconnect(&screen);
    }
}

/* Disconnected amid pixels: what was lent is lent no more, also to a connection after it. */
static void given_up(void)
{
    uint8_t *pixels = picture(300000);
    int peer = connected();
    EXPECT(COVRETIN_OK, covretin_display_lend_pixels(&screen, &screen_update, pixels, 300000));
    EXPECT(COVRETIN_TIMED_OUT, covretin_display_exchange(&screen, 1));
    disconnect(peer);
    free(pixels);
    peer = connected();
    EXPECT(COVRETIN_OK, call_of(7)->ask(display));
    EXPECT(COVRETIN_OK, covretin_display_exchange(&screen, LIMIT));
    expect_heard(peer, call_of(7));
    disconnect(peer);
}

/* -- Displays that are not to be trusted -- */

/* How a call ends whose reply is there: its value is not written. */
static enum covretin_error outcome(const struct screen_call *call)
{
    struct screen_value value = {.number = 99};
    enum covretin_error error = covretin_display_exchange(&screen, LIMIT);
    if (error == COVRETIN_OK && call->form != FORM_NONE)
        error = take_by(display, call->form, &value, sizeof value.record);
    EXPECT(99, value.number);
    return error;
}

/* Replies that are none are refused, and what comes with them is closed. */
static void refuses_replies(void)
{
    static const struct {
        size_t at;
        uint8_t by, fds;
    } lies[] = {{0, 2, 0}, {3, 1, 0}, {4, 4, 0}, {4, 1, 0}, {8, 1, 0}, {8, 8, 0}, {11, 0x80, 0}, {0, 0, 1}, {0, 0, 3}};
    uint8_t bytes[MOST_REPLY + 16] = {0};
    int file = file_of("sent");
    for (const struct screen_call *call = NULL; (call = next_call(call, true)) != NULL;)
        for (size_t i = 0; i < sizeof lies / sizeof *lies; i++) {
            int peer = connected();
            size_t before = open_fds(), length = good_reply(call, bytes) + 16;
            begin(peer, call);
            bytes[lies[i].at] ^= lies[i].by;
            say(peer, bytes, 5, (const int[]){file, file, file}, lies[i].fds);
            say(peer, bytes + 5, length - 5, NULL, 0);
            EXPECT(COVRETIN_INVALID_MESSAGE, outcome(call));
            EXPECT(before, open_fds());
            if (call->form == FORM_NONE)
                EXPECT(COVRETIN_INVALID_MESSAGE, covretin_display_exchange(&screen, LIMIT));
            disconnect(peer);
        }
    close(file);
}

/* A display that ends after so many bytes of its reply. */
static void display_ends(void)
{
    uint8_t bytes[MOST_REPLY];
    for (const struct screen_call *call = NULL; (call = next_call(call, true)) != NULL;)
        for (size_t length = 0, all = good_reply(call, bytes); length < all; length += length < 20 ? 1 : 97) {
            int peer = connected();
            begin(peer, call);
            if (length != 0)
                say(peer, bytes, length, NULL, 0);
            close(peer);
            EXPECT(COVRETIN_DISCONNECTED, covretin_display_exchange(&screen, LIMIT));
            EXPECT(COVRETIN_DISCONNECTED, covretin_display_exchange(&screen, LIMIT));
            covretin_display_disconnect(&screen);
        }
}

/* Descriptors that come amid a reply are closed, and those of one that nobody asked for with the connection. */
static void descriptors_late(void)
{
    uint8_t bytes[MOST_REPLY];
    const struct screen_call *call = next_call(NULL, true);
    int peer = connected(), file = file_of("sent");
    size_t before = open_fds(), length = good_reply(call, bytes);
    begin(peer, call);
    say(peer, bytes, 12, NULL, 0);
    say(peer, bytes + 12, length - 12, (const int[]){file, file}, 2);
    enum covretin_error error = covretin_display_exchange(&screen, LIMIT);
    EXPECT(true, error == COVRETIN_OK || error == COVRETIN_INVALID_MESSAGE);
    EXPECT(before, open_fds());
    say(peer, bytes, 1, &file, 1);
    close(file);
    disconnect(peer);
}

int main(void)
{
    RUN(without_reply);
    RUN(with_buffer);
    RUN(without_buffer);
    RUN(with_reply);
    RUN(byte_by_byte);
    RUN(without_display);
    RUN(pixels_of_each_size);
    RUN(image);
    RUN(slow_display);
    RUN(display_ends_amid_pixels);
    RUN(given_up);
    RUN(refuses_replies);
    RUN(display_ends);
    RUN(descriptors_late);
    return status();
}
