#include "screen.h"
#include "testing.h"

#include <string.h>

#define PLACE "\1\0\0\0\2\3\0\0\4\5\6\7"
#define RECTANGLE PLACE "\10\11\0\0\12\13\14\15"
#define FORM "\20\0\0\0\21\0\0\0\22\23\0\0\1\0\0\0XR24"

const covretin_display_update screen_update = {1, 0x302, 0x7060504, 0x908, 0xd0c0b0a};
const covretin_display_cursor_update screen_cursor = {{1, 0x302, 0x7060504}, 0x908, 0xd0c0b0a};
static const covretin_display_scanout scanout = {1, 0x302, 0x7060504};
static const covretin_display_dmabuf_scanout2 shown = {
    {1, 0x302, 0x7060504, 0x908, 0xd0c0b0a, 16, 17, 0x1312, 1, 0x34325258}, 0x100000000000002};

static enum covretin_error get_protocol_features(covretin_display *display)
{
    return covretin_display_ask_get_protocol_features(display);
}

static enum covretin_error set_protocol_features(covretin_display *display)
{
    return covretin_display_ask_set_protocol_features(display, 0x8000000000000003);
}

static enum covretin_error get_display_info(covretin_display *display)
{
    return covretin_display_ask_get_display_info(display);
}

static enum covretin_error get_edid(covretin_display *display)
{
    return covretin_display_ask_get_edid(display, 0x302);
}

static enum covretin_error set_scanout(covretin_display *display)
{
    return covretin_display_ask_set_scanout(display, &scanout);
}

static enum covretin_error update_scanout(covretin_display *display)
{
    return covretin_display_ask_update_scanout(display, &screen_update, 0x12345);
}

static enum covretin_error set_dmabuf_scanout(covretin_display *display)
{
    return covretin_display_ask_set_dmabuf_scanout(display, &shown.dmabuf_scanout, BUFFER);
}

static enum covretin_error set_no_dmabuf_scanout(covretin_display *display)
{
    return covretin_display_ask_set_dmabuf_scanout(display, &shown.dmabuf_scanout, NO_BUFFER);
}

static enum covretin_error set_dmabuf_scanout2(covretin_display *display)
{
    return covretin_display_ask_set_dmabuf_scanout2(display, &shown, BUFFER);
}

static enum covretin_error set_no_dmabuf_scanout2(covretin_display *display)
{
    return covretin_display_ask_set_dmabuf_scanout2(display, &shown, NO_BUFFER);
}

static enum covretin_error update_dmabuf_scanout(covretin_display *display)
{
    return covretin_display_ask_update_dmabuf_scanout(display, &screen_update);
}

static enum covretin_error cursor_pos(covretin_display *display)
{
    return covretin_display_ask_cursor_pos(display, &screen_cursor.pos);
}

static enum covretin_error cursor_pos_hide(covretin_display *display)
{
    return covretin_display_ask_cursor_pos_hide(display, &screen_cursor.pos);
}

static enum covretin_error cursor_update(covretin_display *display)
{
    return covretin_display_ask_cursor_update(display, &screen_cursor);
}

#define TEXT(text) text, sizeof(text) - 1

const struct screen_call screen_calls[] = {
    {get_protocol_features, TEXT("\1\0\0\0\0\0\0\0\0\0\0\0"), -1, "\1\0\0\0\4\0\0\0\10\0\0\0", FORM_NUMBER},
    {set_protocol_features, TEXT("\2\0\0\0\0\0\0\0\10\0\0\0\3\0\0\0\0\0\0\200"), -1, NULL, FORM_NONE},
    {get_display_info, TEXT("\3\0\0\0\0\0\0\0\0\0\0\0"), -1, "\3\0\0\0\4\0\0\0\230\1\0\0", FORM_INFO},
    {get_edid, TEXT("\13\0\0\0\0\0\0\0\4\0\0\0\2\3\0\0"), -1, "\13\0\0\0\4\0\0\0\40\4\0\0", FORM_EDID},
    {set_scanout, TEXT("\7\0\0\0\0\0\0\0\14\0\0\0" PLACE), -1, NULL, FORM_NONE},
    {update_scanout, TEXT("\10\0\0\0\0\0\0\0\131\43\1\0" RECTANGLE), -1, NULL, FORM_NONE},
    {set_dmabuf_scanout, TEXT("\11\0\0\0\0\0\0\0\50\0\0\0" RECTANGLE FORM), BUFFER, NULL, FORM_NONE},
    {set_no_dmabuf_scanout, TEXT("\11\0\0\0\0\0\0\0\50\0\0\0" RECTANGLE FORM), -1, NULL, FORM_NONE},
    {set_dmabuf_scanout2, TEXT("\14\0\0\0\0\0\0\0\60\0\0\0" RECTANGLE FORM "\2\0\0\0\0\0\0\1"), BUFFER, NULL, FORM_NONE},
    {set_no_dmabuf_scanout2, TEXT("\14\0\0\0\0\0\0\0\60\0\0\0" RECTANGLE FORM "\2\0\0\0\0\0\0\1"), -1, NULL, FORM_NONE},
    {update_dmabuf_scanout, TEXT("\12\0\0\0\0\0\0\0\24\0\0\0" RECTANGLE), -1, "\12\0\0\0\4\0\0\0\0\0\0\0", FORM_NONE},
    {cursor_pos, TEXT("\4\0\0\0\0\0\0\0\14\0\0\0" PLACE), -1, NULL, FORM_NONE},
    {cursor_pos_hide, TEXT("\5\0\0\0\0\0\0\0\14\0\0\0" PLACE), -1, NULL, FORM_NONE},
    {cursor_update, TEXT("\6\0\0\0\0\0\0\0\24\100\0\0" RECTANGLE), -1, NULL, FORM_NONE}};
const size_t screen_call_count = sizeof screen_calls / sizeof *screen_calls;

/* The bytes of a record are 1, 2, 3 and on. */
static size_t record_size(enum form form)
{
    static const size_t sizes[FORMS] = {0, 8, COVRETIN_DISPLAY_INFO_SIZE, COVRETIN_DISPLAY_EDID_SIZE};
    return sizes[form];
}

size_t good_reply(const struct screen_call *call, uint8_t bytes[MOST_REPLY])
{
    size_t size = record_size(call->form);
    memcpy(bytes, call->header, 12);
    for (size_t i = 0; i < size; i++)
        bytes[12 + i] = (uint8_t)(i + 1);
    return 12 + size;
}

enum covretin_error take_by(covretin_display *display, enum form form, struct screen_value *value, size_t record_len)
{
    switch (form) {
    case FORM_NUMBER: return covretin_display_take_number(display, &value->number);
    case FORM_INFO: return covretin_display_take_display_info(display, value->record, record_len);
    case FORM_EDID: return covretin_display_take_edid(display, value->record, record_len);
    default: return covretin_display_take(display);
    }
}

void take_good(covretin_display *display, const struct screen_call *call)
{
    struct screen_value value = {0};
    size_t size = call->form == FORM_NUMBER ? 0 : record_size(call->form), same = 0;
    EXPECT(0, take_by(display, call->form, &value, sizeof value.record));
    while (same < sizeof value.record && value.record[same] == (same < size ? (uint8_t)(same + 1) : 0))
        same++;
    EXPECT(sizeof value.record, same);
    EXPECT(call->form == FORM_NUMBER ? 0x807060504030201 : 0, value.number);
}
