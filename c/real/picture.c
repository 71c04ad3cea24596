/* SPDX-License-Identifier: Apache-2.0 */
/* A graphics device that shows one picture, and leaves its rings alone.
 *
 *     picture PATH
 *
 * Serves one frontend at PATH, as any.c does. Once that gives the socket of its display, a thread of its own asks all that a display
 * can be asked without a graphics card, and prints what was replied, and at last 'shown'. The first screen then has a picture of
 * 64 by 48 pixels, of which the one at x and y has 4 x of red, 5 y of green and x xor y of blue; the second has a file in the place of
 * a buffer of the card, without a name, that is called 'buffer'. Status as any.c, and 1 where the display did not reply so. */
#ifndef _GNU_SOURCE
#define _GNU_SOURCE /* for memfd_create */
#endif

#include "covretin_display_socket.h"
#include "idle.h"

#include <pthread.h>
#include <stdio.h>
#include <stdlib.h>
#include <string.h>
#include <sys/mman.h>
#include <unistd.h>

enum { WIDTH = 64, HEIGHT = 48, LIMIT = -1 /* milliseconds: who runs it limits it */ };

static covretin_display_connection screen;
static covretin_display *const display = &screen.display;
static int32_t display_fd = -1;

/* Ends the program where a step failed. */
static void done(const char *what, enum covretin_error error)
{
    printf("display: %s: %s\n", what, covretin_error_text(error));
    if (error)
        exit(1);
}

/* A call that has to succeed: its ask, and where that succeeded, its exchange. */
static void exchanged(const char *what, enum covretin_error asked)
{
    done(what, asked ? asked : covretin_display_exchange(&screen, LIMIT));
}

/* Makes the features of the channel known to each other: none is wanted. */
static void negotiate(void)
{
    uint64_t offered = 0;
    exchanged("get_protocol_features", covretin_display_ask_get_protocol_features(display));
    done("its reply", covretin_display_take_number(display, &offered));
    printf("display: offers %#llx\n", (unsigned long long)offered);
    exchanged("set_protocol_features", covretin_display_ask_set_protocol_features(display, 0));
}

/* Prints the size of the first screen. The display has replied, so it has done all before. */
static void look(void)
{
    uint8_t info[COVRETIN_DISPLAY_INFO_SIZE];
    uint32_t words[6]; /* x, y, width, height, enabled, flags */
    exchanged("get_display_info", covretin_display_ask_get_display_info(display));
    done("its reply", covretin_display_take_display_info(display, info, sizeof info));
    memcpy(words, info + 24, sizeof words);
    printf("display: screen of %u by %u, %s\n", (unsigned)words[2], (unsigned)words[3], words[4] != 0 ? "enabled" : "disabled");
}

/* Shows the rows of the picture from one on. */
static void show_rows(uint32_t first, uint32_t count)
{
    const covretin_display_update update = {.y = first, .width = WIDTH, .height = count};
    uint32_t pixels[WIDTH * HEIGHT];
    for (uint32_t y = 0; y < count; y++)
        for (uint32_t x = 0; x < WIDTH; x++)
            pixels[y * WIDTH + x] = 4 * x << 16 | 5 * (first + y) << 8 | (x ^ (first + y));
    exchanged("update_scanout", covretin_display_lend_pixels(&screen, &update, (const uint8_t *)pixels, 4 * WIDTH * count));
}

static void show_picture(void)
{
    const covretin_display_scanout other = {.width = 640, .height = 480}, scanout = {.width = WIDTH, .height = HEIGHT};
    exchanged("set_scanout", covretin_display_ask_set_scanout(display, &other));
    exchanged("set_scanout", covretin_display_ask_set_scanout(display, &scanout));
    show_rows(HEIGHT / 2, HEIGHT / 2);
    show_rows(0, HEIGHT / 2);
}

static void show_cursor(void)
{
    static const uint8_t image[COVRETIN_DISPLAY_CURSOR_SIZE] = {0xff};
    const covretin_display_cursor_update update = {{.x = 3, .y = 4}, 1, 2};
    exchanged("cursor_update", covretin_display_lend_image(&screen, &update, image));
    exchanged("cursor_pos", covretin_display_ask_cursor_pos(display, &update.pos));
    exchanged("cursor_pos_hide", covretin_display_ask_cursor_pos_hide(display, &update.pos));
}

/* The display has the file from then on. That it changed is replied to also by one that cannot show it. */
static void show_buffer(void)
{
    const covretin_display_dmabuf_scanout scanout = {
        .scanout_id = 1, .width = 8, .height = 8, .fd_width = 8, .fd_height = 8, .fd_stride = 32, .fd_drm_fourcc = 0x34325258};
    const covretin_display_update update = {.scanout_id = 1, .width = 8, .height = 8};
    int buffer = memfd_create("buffer", MFD_CLOEXEC);
    exchanged("set_dmabuf_scanout", covretin_display_ask_set_dmabuf_scanout(display, &scanout, buffer));
    close(buffer);
    exchanged("update_dmabuf_scanout", covretin_display_ask_update_dmabuf_scanout(display, &update));
}

/* The frontend waits for replies of its own meanwhile, so this has its own thread. */
static void *show(void *unused)
{
    done("connect", covretin_display_connect_fd(&screen, display_fd));
    negotiate();
    look();
    show_picture();
    show_cursor();
    show_buffer();
    look();
    printf("shown\n");
    return unused;
}

static pthread_t thread;

static enum covretin_error answer_showing(uint32_t call)
{
    enum covretin_error error = COVRETIN_OK;
    if (call != COVRETIN_CALL_GPU_SET_SOCKET || display_fd >= 0)
        return answer_idly(call);
    error = covretin_call_fd(BACKEND, &display_fd);
    if (!error)
        error = covretin_claim_call_fd(&frontend, display_fd);
    if (error || pthread_create(&thread, NULL, show, NULL))
        exit(2);
    return covretin_reply_done(BACKEND);
}

int main(int argc, char **argv)
{
    int status;
    if (argc != 2) {
        fprintf(stderr, "usage: picture PATH\n");
        return 2;
    }
    rings = 2;
    features |= 2; /* EDID */
    status = serve_at(argv[1], answer_showing);
    if (display_fd >= 0 && pthread_join(thread, NULL))
        return 2;
    covretin_display_disconnect(&screen);
    return status;
}
