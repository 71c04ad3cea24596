/* SPDX-License-Identifier: Apache-2.0 */
/* Covretin: the vhost-user-gpu channel, on which a graphics device makes requests of a display, as QEMU's windows are. The socket
 * is that of COVRETIN_CALL_GPU_SET_SOCKET. Types and errors are those of covretin.h.
 *
 * A device asks by a covretin_display, as it does by a covretin_channel. For each call:
 *
 *     error = covretin_display_ask_set_scanout(&display, &scanout);  the request, with its arguments
 *     while (covretin_display_to_send(&display, ..) == 0 && n != 0)  send these bytes, with these descriptors on the first of them
 *     while ((n = covretin_display_missing(&display)) != 0)          read at most n bytes, with the descriptors that come along,
 *         covretin_display_receive(&display, ..);                    and hand them in
 *     error = covretin_display_take(&display);                       what the display replied: 0, or why not
 *
 * Every call must be taken before the next is asked, also one that awaits no reply (covretin_display_missing is 0 at once).
 *
 * PIXELS are never copied. covretin_display_ask_update_scanout and covretin_display_ask_cursor_update make all of their message but
 * the pixels: its header, whose size counts them, and the rectangle or the cursor's place. The caller sends all that
 * covretin_display_to_send hands out, then from his own buffer exactly as many bytes of pixels as he said, and only then asks again.
 *
 * No call makes a system call but for memory (malloc, realloc, free), waits for anything, or has a global state.
 *
 * WHO OWNS WHAT
 * Buffers: each pointer is borrowed for the call alone. What is `const` is only read; the others are only written, from
 *   their start. Two of them must not overlap. A count says how many elements its array has, and a pointer is never NULL
 *   (also where its count is 0).
 * Descriptors: a session owns none, and neither opens, duplicates nor closes one: it only passes on numbers. What an ask
 *   was given stays the caller's, who may close it once the bytes that covretin_display_to_send hands out with it were sent. What
 *   came from the socket is the caller's to close: a reply has none, and one that does is refused.
 * Sessions: a variable of type covretin_display, {0} at first, belongs to the caller, who does not copy it or write to it. Calls
 *   with the same one must not overlap in time, and none may be made from a signal handler.
 *
 * ERRORS are numbers of enum covretin_error; 0 is none. What a call leaves after an error is said at the call. The peer is the
 * display: what covretin.h says of a backend's reply holds of a display's.
 */
#ifndef COVRETIN_DISPLAY_H
#define COVRETIN_DISPLAY_H

#include "covretin.h"

#ifdef __cplusplus
extern "C" {
#endif

/* Features of the channel, as bits, which the specification numbers so: a display that has the first is asked for an EDID,
 * and one that has the second is shown a buffer by covretin_display_ask_set_dmabuf_scanout2. */
#define COVRETIN_DISPLAY_FEATURE_EDID ((uint64_t)1 << 0)
#define COVRETIN_DISPLAY_FEATURE_DMABUF2 ((uint64_t)1 << 1)

/* The pixels of a cursor's image, in bytes: 64 rows of 64 pixels of 4 bytes. */
#define COVRETIN_DISPLAY_CURSOR_SIZE 16384

/* The record of a display's screens, in bytes: struct virtio_gpu_resp_display_info of <linux/virtio_gpu.h>. */
#define COVRETIN_DISPLAY_INFO_SIZE 408

/* The record of a screen's EDID, in bytes: struct virtio_gpu_resp_edid of <linux/virtio_gpu.h>. */
#define COVRETIN_DISPLAY_EDID_SIZE 1056

/* A session. {0} is not open. */
typedef struct covretin_display {
    void *opaque;
} covretin_display;

/* A screen and its size, in pixels. */
typedef struct covretin_display_scanout {
    uint32_t scanout_id; /* the number of the screen, here and below */
    uint32_t width;      /* 0: it is turned off */
    uint32_t height;     /* likewise */
} covretin_display_scanout;

/* A rectangle of a screen, in pixels. */
typedef struct covretin_display_update {
    uint32_t scanout_id;
    uint32_t x; /* from the left */
    uint32_t y; /* from the top */
    uint32_t width;
    uint32_t height;
} covretin_display_update;

/* A rectangle of a screen that shows a buffer of the graphics card, and the buffer's form. */
typedef struct covretin_display_dmabuf_scanout {
    uint32_t scanout_id;
    uint32_t x;
    uint32_t y;
    uint32_t width;
    uint32_t height;
    uint32_t fd_width;      /* of the buffer, in pixels */
    uint32_t fd_height;     /* likewise */
    uint32_t fd_stride;     /* of a row of the buffer, in bytes */
    uint32_t fd_flags;      /* bit 0: its first row is the lowest */
    uint32_t fd_drm_fourcc; /* the format of its pixels, as <drm/drm_fourcc.h> numbers them */
} covretin_display_dmabuf_scanout;

/* The same, with how the buffer's pixels are laid out. */
typedef struct covretin_display_dmabuf_scanout2 {
    covretin_display_dmabuf_scanout dmabuf_scanout;
    uint64_t modifier; /* as <drm/drm_fourcc.h> numbers them */
} covretin_display_dmabuf_scanout2;

/* Where the cursor is on a screen, in pixels. */
typedef struct covretin_display_cursor_pos {
    uint32_t scanout_id;
    uint32_t x; /* from the left */
    uint32_t y; /* from the top */
} covretin_display_cursor_pos;

/* The same, with its image's hot spot. */
typedef struct covretin_display_cursor_update {
    covretin_display_cursor_pos pos;
    uint32_t hot_x; /* from the image's left */
    uint32_t hot_y; /* from the image's top */
} covretin_display_cursor_update;

/* -- Sessions ------------------------------------------------------------------------------------------------------ */

/* Opens a session. SESSION_OPEN; OUT_OF_MEMORY. After an error nothing changed. */
enum covretin_error covretin_display_open(covretin_display *display);

/* Frees what the session held; it is {0} again. Descriptors are not closed. A session that is not open stays so. */
void covretin_display_close(covretin_display *display);

/* -- Bytes out and in ---------------------------------------------------------------------------------------------- */

/* Hands out what is to be sent, as covretin_to_send does: *byte_count bytes, and *fd_count descriptors that are to go with the
 * first of them. Call it until *byte_count is 0. COVRETIN_MAX_MESSAGE bytes are enough for any request, without its pixels;
 * fds_len is COVRETIN_MAX_FDS at least. NO_SESSION, NO_ROOM: the counts were not written, and nothing is gone. */
enum covretin_error covretin_display_to_send(covretin_display *display, uint8_t *bytes, size_t bytes_len, int32_t *fds,
                                 size_t fds_len, size_t *byte_count, size_t *fd_count);

/* How many bytes to read for the reply of the call that was asked, as covretin_missing says it; 0 where it may be taken, and
 * where nothing is asked or awaited. */
size_t covretin_display_missing(covretin_display *display);

/* Takes in bytes of the reply: a part of those that are missing, or all, and the descriptors that came with the first of
 * them. NO_SESSION; TOO_MANY_BYTES; INVALID_PARAM: descriptors without a byte, more than COVRETIN_MAX_FDS, or a negative
 * one; OUT_OF_MEMORY. After an error nothing was taken in. Where the socket ends before nothing is missing, close the session. */
enum covretin_error covretin_display_receive(covretin_display *display, const uint8_t *bytes, size_t bytes_len, const int32_t *fds,
                                 size_t fds_len);

/* Hands out descriptors that came, to be closed: *count of them to the start of fds. A reply has none that anybody may keep. Call it
 * after each reply, until *count is 0; len is 1 at least. Each number that came is handed out once, and none other is. NO_SESSION:
 * *count was not written. */
enum covretin_error covretin_display_unclaimed(covretin_display *display, int32_t *fds, size_t len, size_t *count);

/* -- Replies -------------------------------------------------------------------------------------------------------
 * Each takes the reply of the call that was asked, by its form. NO_SESSION, NOTHING_ASKED, NOT_YET; OTHER_ANSWER: the reply of this
 * call has another form; NO_ROOM: record_len is too small. After these nothing changed. After all others nothing is asked any
 * more, nothing of the reply is left in the session, and nothing was written. INVALID_MESSAGE: the reply is malformed or of another
 * request, its header announces another size than its record has, or it has descriptors. After this and the like close the
 * session: a part of that reply may still be in the socket. */

/* Of the calls that have no value: that the reply came, where one is awaited. */
enum covretin_error covretin_display_take(covretin_display *display);

/* Of get_protocol_features: a set of bits. */
enum covretin_error covretin_display_take_number(covretin_display *display, uint64_t *number);

/* Of get_display_info: the wire bytes of its record, all in little endian: a head of 24 bytes, and 16 screens of 24 bytes, each of
 * x, y, width and height in pixels, enabled (not 0) and flags. record_len is COVRETIN_DISPLAY_INFO_SIZE at least. */
enum covretin_error covretin_display_take_display_info(covretin_display *display, uint8_t *record, size_t record_len);

/* Of get_edid: the wire bytes of its record, all in little endian: a head of 24 bytes, how many of the last 1024 bytes count, 4
 * bytes without a meaning, and 1024 bytes. record_len is COVRETIN_DISPLAY_EDID_SIZE at least. */
enum covretin_error covretin_display_take_edid(covretin_display *display, uint8_t *record, size_t record_len);

/* -- Asks -----------------------------------------------------------------------------------------------------------
 * Each makes its request, which covretin_display_to_send then hands out. After an error nothing more is to be sent than before.
 * All may return NO_SESSION, NOT_TAKEN, OUT_OF_MEMORY, SOCKET_RETRY and SOCKET_BROKEN. Numbers of screens and sizes are the display's
 * to check. A device asks for the features first, and accepts those that it uses. */

/* Which features of the channel the display has; and which of these the device accepted. covretin_display_take_number; _take. */
enum covretin_error covretin_display_ask_get_protocol_features(covretin_display *display);
enum covretin_error covretin_display_ask_set_protocol_features(covretin_display *display, uint64_t features);

/* Which screens there are. covretin_display_take_display_info. */
enum covretin_error covretin_display_ask_get_display_info(covretin_display *display);

/* What a screen says of itself. covretin_display_take_edid. */
enum covretin_error covretin_display_ask_get_edid(covretin_display *display, uint32_t scanout_id);

/* A screen has this size, or is turned off. _take; no reply is awaited, here and below, where none is named. */
enum covretin_error covretin_display_ask_set_scanout(covretin_display *display, const covretin_display_scanout *scanout);

/* A rectangle of a screen has new pixels: pixels_len bytes, which the caller sends himself (see PIXELS). 4 bytes are a pixel, and a
 * row follows the other. OVERSIZED_MSG: the rectangle and the pixels have more than 2^32 - 1 bytes together. */
enum covretin_error covretin_display_ask_update_scanout(covretin_display *display, const covretin_display_update *update,
                                            size_t pixels_len);

/* A rectangle of a screen shows a buffer of the graphics card; fd goes with the request, if it is not negative. */
enum covretin_error covretin_display_ask_set_dmabuf_scanout(covretin_display *display,
                                                const covretin_display_dmabuf_scanout *scanout, int32_t fd);
enum covretin_error covretin_display_ask_set_dmabuf_scanout2(covretin_display *display,
                                                 const covretin_display_dmabuf_scanout2 *scanout, int32_t fd);

/* A rectangle of that buffer has changed. _take; the display replies once it has read it. */
enum covretin_error covretin_display_ask_update_dmabuf_scanout(covretin_display *display, const covretin_display_update *update);

/* The cursor is at this place, or is hidden. */
enum covretin_error covretin_display_ask_cursor_pos(covretin_display *display, const covretin_display_cursor_pos *cursor);
enum covretin_error covretin_display_ask_cursor_pos_hide(covretin_display *display, const covretin_display_cursor_pos *cursor);

/* The cursor has a new image, of COVRETIN_DISPLAY_CURSOR_SIZE bytes, which the caller sends himself (see PIXELS). */
enum covretin_error covretin_display_ask_cursor_update(covretin_display *display, const covretin_display_cursor_update *update);

/* STACK, in bytes at most, with what the proved code calls but memory and copies. Written by scripts/check.py --write headers:
 *   8,192: display_ask_cursor_pos, display_ask_cursor_pos_hide, display_ask_cursor_update, display_ask_get_display_info,
 *        display_ask_get_edid, display_ask_get_protocol_features, display_ask_set_dmabuf_scanout, display_ask_set_dmabuf_scanout2,
 *        display_ask_set_protocol_features, display_ask_set_scanout, display_ask_update_dmabuf_scanout, display_ask_update_scanout,
 *        display_receive
 *   4,096: display_take_edid
 *   1,024: display_close, display_open, display_take, display_take_display_info, display_take_number
 *   512: all others */

#ifdef __cplusplus
}
#endif

#endif
