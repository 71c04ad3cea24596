/* SPDX-License-Identifier: Apache-2.0 */
/* What the two parts of covretin-ask share: ask.c has the session and its lines, ask_calls.c the words of a line and the calls. */
#ifndef ASK_H
#define ASK_H

#include "covretin.h"

#include <stdio.h>

enum { NO_CALL = 1 }; /* the status after a line that is no call */
enum { MAX_NAME = 128 };

extern covretin_session session;
extern uint64_t line_number;

/* The line, cut into words. */
extern char **words;
extern size_t word_count;

/* What the words behind a name are. */
struct arguments {
    uint64_t *numbers; /* each word's, by its place; of a descriptor its number here */
    uint8_t *bytes;    /* of a word of bytes */
    size_t byte_count;
    size_t count;
};

/* What the reply holds that was taken last. */
enum answer { PLAIN, NUMBER, BASES, CONFIG, FD, INFLIGHT, SHMEM };

typedef enum covretin_error asks(const struct arguments *of);

/* A call: a letter for each word behind its name, as `number_at` reads it; how many of them may be left out, all or none; `*` is any number
 * of regions. */
struct call {
    const char *name, *letters;
    size_t optional;
    asks *ask; /* NULL: set_hdr_flags, which sends nothing */
    enum answer answer;
};

/* Ends the program where something failed outside of the lines. */
void fail(const char *form, ...) __attribute__((format(printf, 1, 2), noreturn));

/* Room for so many things and one more, zeros. */
void *room_for(size_t count, size_t size);

/* Cuts a line at each space. */
void cut(char *line);

/* Ends the program where a line is no call: which word is wrong, and why. */
void refuse(size_t place, const char *why) __attribute__((noreturn));

/* A number of decimal digits, or of hexadecimal ones behind 0x, that is at most so great. NULL, or what is wrong. */
const char *number_of(const char *word, uint64_t most, uint64_t *number);

/* What a form of a descriptor opens, or -1 with errno; -2: it is none. */
int open_form(const char *form);

/* Has a number stand for a descriptor in each line. Whether there is room for one more. */
bool give_fd(uint32_t number, int fd);

/* The call of the line, and its arguments. */
const struct call *call_of(void);
void read_arguments(const struct call *call, struct arguments *to);

/* The word of a descriptor of the line; and the end of all that was opened for it. */
const char *word_of(int fd);
void end_arguments(struct arguments *of);

/* What a descriptor is, in the words of the tap; there is room for MAX_NAME bytes. */
void name_fd(int fd, char *name);

/* Prints bytes by two digits each, or `-`. */
void show_bytes(const uint8_t *bytes, size_t count);

/* Prints what the reply holds, behind `ok`. */
enum covretin_error show_answer(enum answer form);

#endif
