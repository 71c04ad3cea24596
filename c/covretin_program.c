/* SPDX-License-Identifier: Apache-2.0 */
/* Covretin: what the proved programs take from the system beside the C library: their arguments, errno, and a folder that is opened and
 * is no link. Private to them. */
#define _GNU_SOURCE
#include <errno.h>
#include <fcntl.h>
#include <stddef.h>
#include <stdint.h>
#include <stdlib.h>
#include <string.h>
#include <unistd.h>

int32_t rattle_errno(void);
void rattle_set_errno(int32_t number);
size_t rattle_arg_count(void);
size_t rattle_arg(size_t index, uint8_t *to, size_t room);
int32_t rattle_open_dir_at(int32_t folder, const char *name);

/* Tells of the program, where this is its only word and asks for that, and ends it then. Not of one that does so by itself. */
__attribute__((weak)) void covretin_program_about(const char *word);

static size_t count;
static char **words;

/* The system puts the arguments before the environment, behind their count: as musl gives a constructor none, they are found there. No address is
 * as small as their count. */
__attribute__((constructor)) static void keep_arguments(void) {
    while ((uintptr_t)environ[-2 - (ptrdiff_t)count] != count)
        count++;
    words = environ - 1 - count;
    if (covretin_program_about != NULL && count == 2)
        covretin_program_about(words[1]);
}

int32_t rattle_errno(void) {
    return errno;
}

void rattle_set_errno(int32_t number) {
    errno = number;
}

size_t rattle_arg_count(void) {
    return count;
}

/* How many bytes a word has; -1 where there is none, -2 where it has more than there is room for. */
size_t rattle_arg(size_t index, uint8_t *to, size_t room) {
    if (index >= count || words[index] == NULL)
        return (size_t)-1;
    size_t length = strlen(words[index]);
    memcpy(to, words[index], length < room ? length : room);
    return length <= room ? length : (size_t)-2;
}

int32_t rattle_open_dir_at(int32_t folder, const char *name) {
    return openat(folder, name, O_RDONLY | O_DIRECTORY | O_NOFOLLOW | O_CLOEXEC);
}
