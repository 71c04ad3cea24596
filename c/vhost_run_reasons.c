/* SPDX-License-Identifier: Apache-2.0 */
/* Covretin: why a call of vhost-run was refused, where its words ask for reasons. Its proved part reads and writes by two calls of the system, which
 * pass here as they are: the answers that were written are those of the lines that were read, one each. Private to it. */
#include "line_reasons.h"

#include <errno.h>
#include <stdlib.h>
#include <string.h>
#include <unistd.h>

enum { RINGS = 2 }; /* of the example device */

/* The linker has these named by --wrap. */
ssize_t __real_read(int fd, void *bytes, size_t room);
ssize_t __real_write(int fd, const void *bytes, size_t count);
ssize_t __wrap_read(int fd, void *bytes, size_t room);
ssize_t __wrap_write(int fd, const void *bytes, size_t count);

/* Of covretin_program.c: the arguments. */
size_t rattle_arg_count(void);
size_t rattle_arg(size_t index, uint8_t *to, size_t room);

/* What was read, and what was written, from a line's beginning on. */
static struct text {
    char *bytes;
    size_t count, room;
} input, output;
static uint64_t line_number;
static bool is_lost; /* an allocation failed, so nothing more is said */

static bool is_word(size_t index, const char *word)
{
    uint8_t bytes[16];
    size_t count = rattle_arg(index, bytes, sizeof bytes);
    return count == strlen(word) && memcmp(bytes, word, count) == 0;
}

/* Whether reasons are asked for, by the last word that says so or not. */
static bool explains(void)
{
    for (size_t index = rattle_arg_count(); index > 1; index--)
        if (is_word(index - 1, "-v") || is_word(index - 1, "--comments") || is_word(index - 1, "-q"))
            return !is_word(index - 1, "-q");
    return false;
}

static void note(struct text *to, const void *bytes, size_t count)
{
    if (to->room - to->count <= count) { /* (with a byte more, behind a line) */
        size_t room = 2 * (to->count + count + 1);
        char *larger = realloc(to->bytes, room);
        is_lost |= larger == NULL;
        if (is_lost)
            return;
        to->bytes = larger;
        to->room = room;
    }
    memcpy(to->bytes + to->count, bytes, count);
    to->count += count;
}

/* The length of the first line, which then is a string; an input's last one may have no end. SIZE_MAX: there is none. */
static size_t first_line(struct text *of, bool may_be_last)
{
    char *end = of->count == 0 ? NULL : memchr(of->bytes, '\n', of->count);
    if (end == NULL && (!may_be_last || of->count == 0))
        return SIZE_MAX;
    size_t length = end == NULL ? of->count : (size_t)(end - of->bytes);
    of->bytes[length] = '\0';
    return length;
}

static void drop_line(struct text *of, size_t length)
{
    size_t gone = length < of->count ? length + 1 : of->count;
    of->count -= gone;
    memmove(of->bytes, of->bytes + gone, of->count);
}

/* What stands behind a text in an answer, or NULL. */
static const char *behind(const char *answer, const char *text)
{
    const char *at = strstr(answer, text);
    return at == NULL ? NULL : at + strlen(text);
}

/* A number as lines have it: zeros before it make it no octal one. */
static uint64_t number_of(const char *word)
{
    return strtoull(word, NULL, strncmp(word, "0x", 2) == 0 ? 16 : 10);
}

/* Says why the call of a line, which is cut, has this answer, if that is a refusal that has a reason. */
static void say_why(char *call, const char *answer)
{
    const char *feature = behind(answer, " err InactiveFeature "), *operation = behind(answer, " err InactiveOperation ");
    char *word = call + strcspn(call, " ");
    if (*word != '\0')
        *word++ = '\0';
    if (feature != NULL || operation != NULL)
        say_not_accepted(line_number, call, feature != NULL, number_of(feature != NULL ? feature : operation));
    else if (behind(answer, " err InvalidParam") != NULL && strstr(call, "vring") != NULL && number_of(word) >= RINGS)
        say_no_ring(line_number, call, number_of(word), RINGS, "");
}

/* Goes on to the line that this is the answer of: one that is empty or a comment has none. */
static void answered(const char *answer)
{
    for (size_t length = first_line(&input, true); length != SIZE_MAX; length = first_line(&input, true)) {
        bool is_call = length != 0 && input.bytes[0] != '#';
        line_number++;
        if (is_call)
            say_why(input.bytes, answer);
        drop_line(&input, length);
        if (is_call)
            return;
    }
}

ssize_t __wrap_read(int fd, void *bytes, size_t room)
{
    ssize_t count = __real_read(fd, bytes, room);
    int error = errno;
    if (fd == STDIN_FILENO && count > 0 && explains() && !is_lost)
        note(&input, bytes, (size_t)count);
    errno = error;
    return count;
}

ssize_t __wrap_write(int fd, const void *bytes, size_t count)
{
    ssize_t written = __real_write(fd, bytes, count);
    int error = errno;
    if (fd == STDOUT_FILENO && written > 0 && explains() && !is_lost)
        note(&output, bytes, (size_t)written);
    for (size_t length = first_line(&output, false); length != SIZE_MAX && !is_lost; length = first_line(&output, false)) {
        answered(output.bytes);
        drop_line(&output, length);
    }
    errno = error;
    return written;
}
