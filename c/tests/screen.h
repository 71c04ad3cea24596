/* The calls of the vhost-user-gpu channel, each with arguments, the wire bytes of its request, and of a reply that is good. */
#ifndef SCREEN_H
#define SCREEN_H

#include "covretin_display.h"

/* How the reply of a call is taken. */
enum form { FORM_NONE, FORM_NUMBER, FORM_INFO, FORM_EDID, FORMS };

struct screen_call {
    enum covretin_error (*ask)(covretin_display *display);
    const char *text; /* of its request, without the pixels */
    size_t length;
    int32_t fd;         /* that goes with it; -1: none */
    const char *header; /* of its reply; NULL: none is awaited */
    enum form form;
};

extern const struct screen_call screen_calls[];
extern const size_t screen_call_count;

/* Descriptors that are only numbers, where no socket is. */
enum { BUFFER = 77, NO_BUFFER = -1 };

/* The most bytes that a reply has, and the wire bytes of a good one to this call: how many it has. */
enum { MOST_REPLY = 12 + COVRETIN_DISPLAY_EDID_SIZE };
size_t good_reply(const struct screen_call *call, uint8_t bytes[MOST_REPLY]);

/* The value of a reply, of any form. */
struct screen_value {
    uint64_t number;
    uint8_t record[COVRETIN_DISPLAY_EDID_SIZE];
};

/* Takes a reply by a form, into a place of so many bytes for a record. */
enum covretin_error take_by(covretin_display *display, enum form form, struct screen_value *value, size_t record_len);

/* Takes a reply by its form: its value is the good one's. */
void take_good(covretin_display *display, const struct screen_call *call);

/* The rectangle and the cursor's place of the calls that have pixels. */
extern const covretin_display_update screen_update;
extern const covretin_display_cursor_update screen_cursor;

#endif
