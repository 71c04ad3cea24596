/* SPDX-License-Identifier: Apache-2.0 */
/* The words of a line, and the calls: see ask.h. */
#define _GNU_SOURCE /* for memfd_create */

#include "ask.h"
#include "covretin_backend.h"
#include "covretin_transport.h"

#include <errno.h>
#include <fcntl.h>
#include <inttypes.h>
#include <stdlib.h>
#include <string.h>
#include <sys/eventfd.h>
#include <sys/mman.h>
#include <sys/socket.h>
#include <unistd.h>

enum { MAX_GIVEN = 64, REGION_WORDS = 5, SIZES = 256 };

char **words;
size_t word_count;

/* The descriptors of --fd. */
static struct given {
    uint32_t number;
    int fd;
} given[MAX_GIVEN];
static size_t given_count;

/* The descriptors of the line, each with the word that stands for it, and those of them that were opened for it. */
static struct named {
    int fd;
    const char *word;
} *attached;
static size_t attached_count;
static int *opened;
static size_t opened_count;

/* -- Words -- */

void cut(char *line)
{
    size_t spaces = 0;
    for (const char *at = line; *at != '\0'; at++)
        spaces += *at == ' ';
    words = room_for(spaces + 1, sizeof *words);
    word_count = 0;
    for (;;) {
        words[word_count++] = line;
        line = strchr(line, ' ');
        if (line == NULL)
            return;
        *line++ = '\0';
    }
}

void refuse(size_t place, const char *why)
{
    fflush(stdout);
    fprintf(stderr, "line %" PRIu64 ": bad call: word %zu: %s", line_number, place + 1, why);
    if (place < word_count && words[place][0] != '\0')
        fprintf(stderr, ": %s", words[place]);
    fprintf(stderr, "\n");
    exit(NO_CALL);
}

const char *number_of(const char *word, uint64_t most, uint64_t *number)
{
    unsigned base = strncmp(word, "0x", 2) == 0 ? 16 : 10;
    const char *digit = base == 16 ? word + 2 : word;
    static const char digits[] = "0123456789abcdef";
    bool is_large = false;
    *number = 0;
    if (*digit == '\0')
        return "no number";
    for (; *digit != '\0'; digit++) {
        const char *at = strchr(digits, *digit >= 'A' && *digit <= 'F' ? *digit + ('a' - 'A') : *digit);
        if (at == NULL || (unsigned)(at - digits) >= base)
            return "no number";
        is_large |= *number > (most - (unsigned)(at - digits)) / base;
        *number = *number * base + (unsigned)(at - digits);
    }
    return is_large ? "too large" : NULL;
}

int open_form(const char *form)
{
    uint64_t size;
    int pair[2], fd;
    if (strcmp(form, "event") == 0)
        return eventfd(0, EFD_CLOEXEC | EFD_NONBLOCK);
    if (strcmp(form, "socket") == 0)
        return socketpair(AF_UNIX, SOCK_STREAM | SOCK_CLOEXEC, 0, pair) ? -1 : pair[0];
    if (strncmp(form, "file:", 5) == 0)
        return open(form + 5, O_RDWR | O_CLOEXEC | O_NONBLOCK | O_NOCTTY);
    if (strncmp(form, "memory:", 7) != 0 || number_of(form + 7, INT64_MAX, &size) != NULL)
        return -2;
    fd = memfd_create("covretin-ask", MFD_CLOEXEC);
    if (fd >= 0 && ftruncate(fd, (off_t)size)) {
        transport_close(fd);
        return -1;
    }
    return fd;
}

bool give_fd(uint32_t number, int fd)
{
    if (given_count == MAX_GIVEN)
        return false;
    given[given_count++] = (struct given){number, fd};
    return true;
}

/* The descriptor of a number. */
static int fd_of(size_t place, uint32_t number)
{
    for (size_t i = 0; i < given_count; i++)
        if (given[i].number == number)
            return given[i].fd;
    if (number > INT32_MAX || fcntl((int)number, F_GETFD) < 0)
        fail("line %" PRIu64 ": word %zu: no descriptor %" PRIu32 " is open", line_number, place + 1, number);
    return (int)number;
}

/* The descriptor that a word stands for. */
static int handle_at(size_t place)
{
    const char *word = words[place];
    uint64_t number = 0;
    const char *why = number_of(word, UINT32_MAX, &number);
    int fd = why == NULL ? fd_of(place, (uint32_t)number) : open_form(word);
    if (fd == -2)
        refuse(place, why);
    if (fd < 0)
        fail("line %" PRIu64 ": word %zu: %s: %s", line_number, place + 1, word, strerror(errno));
    if (why != NULL)
        opened[opened_count++] = fd;
    attached[attached_count++] = (struct named){fd, word};
    return fd;
}

static int digit_at(const char *word, size_t at)
{
    const char one[2] = {word[at], '\0'};
    return strspn(one, "0123456789abcdefABCDEF") == 1 ? (int)strtol(one, NULL, 16) : -1;
}

/* Pairs of hexadecimal digits. How many bytes they are; SIZE_MAX: they are none. */
static size_t bytes_of(const char *word, uint8_t *bytes)
{
    size_t len = strlen(word);
    for (size_t i = 0; i < len; i++)
        if (digit_at(word, i) < 0)
            return SIZE_MAX;
    for (size_t i = 0; i + 1 < len; i += 2)
        bytes[i / 2] = (uint8_t)(digit_at(word, i) * 16 + digit_at(word, i + 1));
    return len % 2 == 0 ? len / 2 : SIZE_MAX;
}

/* -- Calls: each takes the arguments that were read of its words -- */

#define BARE(name) \
    static enum covretin_error name(const struct arguments *of) \
    { \
        (void)of; \
        return covretin_ask_##name(&session); \
    }
#define ONE(name, type) \
    static enum covretin_error name(const struct arguments *of) \
    { \
        return covretin_ask_##name(&session, (type)of->numbers[1]); \
    }
#define RING(name, type) \
    static enum covretin_error name(const struct arguments *of) \
    { \
        return covretin_ask_##name(&session, of->numbers[1], (type)of->numbers[2]); \
    }

/* generated from protocol/requests.toml: calls of plain arguments */
BARE(get_features)
ONE(set_features, uint64_t)
BARE(set_owner)
BARE(reset_owner)
ONE(set_log_fd, int32_t)
RING(set_vring_num, uint16_t)
RING(set_vring_base, uint32_t)
ONE(get_vring_base, size_t)
RING(set_vring_kick, int32_t)
RING(set_vring_call, int32_t)
RING(set_vring_err, int32_t)
BARE(get_protocol_features)
ONE(set_protocol_features, uint64_t)
BARE(get_queue_num)
RING(set_vring_enable, bool)
ONE(set_mtu, uint16_t)
ONE(set_backend_request_fd, int32_t)
BARE(postcopy_advise)
BARE(postcopy_listen)
BARE(postcopy_end)
BARE(reset_device)
BARE(get_max_mem_slots)
BARE(check_device_state)
BARE(get_shmem_config)
ONE(postcopy_ack_mem_regions, uint32_t)
/* end */

/* The region whose words begin at a place. */
static covretin_region region_at(const struct arguments *of, size_t at)
{
    const uint64_t *it = of->numbers + at;
    return (covretin_region){it[0], it[1], it[2], it[3], (int32_t)it[4]};
}

static enum covretin_error set_mem_table(const struct arguments *of)
{
    size_t count = (of->count - 1) / REGION_WORDS;
    covretin_region *regions = room_for(count, sizeof *regions);
    enum covretin_error error;
    for (size_t i = 0; i < count; i++)
        regions[i] = region_at(of, 1 + i * REGION_WORDS);
    error = covretin_ask_set_mem_table(&session, regions, count);
    free(regions);
    return error;
}

static enum covretin_error add_mem_region(const struct arguments *of)
{
    covretin_region region = region_at(of, 1);
    return covretin_ask_add_mem_region(&session, &region);
}

static enum covretin_error remove_mem_region(const struct arguments *of)
{
    covretin_region region = region_at(of, 1);
    return covretin_ask_remove_mem_region(&session, &region);
}

static enum covretin_error set_log_base(const struct arguments *of)
{
    covretin_region region = {.memory_size = of->numbers[2], .mmap_offset = of->numbers[3], .fd = (int32_t)of->numbers[4]};
    return of->count == 2 ? covretin_ask_set_log_base_alone(&session, of->numbers[1])
                          : covretin_ask_set_log_base(&session, of->numbers[1], &region);
}

static enum covretin_error set_vring_addr(const struct arguments *of)
{
    const uint64_t *it = of->numbers;
    covretin_vring ring = {.flags = (uint32_t)it[2], .desc_table_addr = it[3], .used_ring_addr = it[4], .avail_ring_addr = it[5],
                           .log_addr = it[6], .has_log_addr = of->count == 7};
    return covretin_ask_set_vring_addr(&session, it[1], &ring);
}

static enum covretin_error get_config(const struct arguments *of)
{
    return covretin_ask_get_config(&session, (uint32_t)of->numbers[1], (uint32_t)of->numbers[2], (uint32_t)of->numbers[3]);
}

static enum covretin_error set_config(const struct arguments *of)
{
    return covretin_ask_set_config(&session, (uint32_t)of->numbers[1], (uint32_t)of->numbers[2], of->bytes, of->byte_count);
}

static enum covretin_error get_shared_object(const struct arguments *of)
{
    return covretin_ask_get_shared_object(&session, of->bytes, of->byte_count);
}

static covretin_inflight inflight_of(const struct arguments *of)
{
    const uint64_t *it = of->numbers;
    return (covretin_inflight){it[1], it[2], (uint16_t)it[3], (uint16_t)it[4]};
}

static enum covretin_error get_inflight_fd(const struct arguments *of)
{
    covretin_inflight inflight = inflight_of(of);
    return covretin_ask_get_inflight_fd(&session, &inflight);
}

static enum covretin_error set_inflight_fd(const struct arguments *of)
{
    covretin_inflight inflight = inflight_of(of);
    return covretin_ask_set_inflight_fd(&session, &inflight, (int32_t)of->numbers[5]);
}

static enum covretin_error set_device_state_fd(const struct arguments *of)
{
    return covretin_ask_set_device_state_fd(&session, (uint32_t)of->numbers[1], (uint32_t)of->numbers[2], (int32_t)of->numbers[3]);
}

/* -- Answers -- */

void name_fd(int fd, char *name)
{
    char place[32], at[MAX_NAME];
    ssize_t len;
    snprintf(place, sizeof place, "/proc/self/fd/%d", fd);
    len = readlink(place, at, sizeof at - 1);
    at[len < 0 ? 0 : len] = '\0';
    if (strncmp(at, "anon_inode:[", 12) == 0)
        snprintf(name, MAX_NAME, "%.*s", (int)strcspn(at + 12, "]"), at + 12);
    else if (strncmp(at, "/memfd:", 7) == 0)
        snprintf(name, MAX_NAME, "%.*s", (int)strcspn(at + 1, " "), at + 1);
    else if (at[0] == '/')
        snprintf(name, MAX_NAME, "file");
    else
        snprintf(name, MAX_NAME, "%.*s", (int)strcspn(at, ":"), at);
}

static void show_fd(int fd)
{
    char name[MAX_NAME];
    name_fd(fd, name);
    printf(" [%s]", name);
}

/* Numbers with commas between them, or `-`. */
static void show_numbers(const uint64_t *numbers, size_t count)
{
    printf(count == 0 ? " -" : " ");
    for (size_t i = 0; i < count; i++)
        printf("%s0x%" PRIx64, i == 0 ? "" : ",", numbers[i]);
}

void show_bytes(const uint8_t *bytes, size_t count)
{
    if (count == 0)
        printf("-");
    for (size_t i = 0; i < count; i++)
        printf("%02x", bytes[i]);
}

static enum covretin_error show_bases(void)
{
    uint64_t bases[COVRETIN_MAX_FDS];
    size_t count = 0;
    enum covretin_error error = covretin_answer_bases(&session, bases, COVRETIN_MAX_FDS, &count);
    if (!error && count == 0)
        printf(" none");
    else if (!error)
        show_numbers(bases, count);
    return error;
}

static enum covretin_error show_config(void)
{
    covretin_config config = {0, 0, 0};
    uint8_t bytes[COVRETIN_MAX_CONFIG];
    size_t count = 0;
    enum covretin_error error = covretin_answer_config(&session, &config, bytes, sizeof bytes, &count);
    if (error)
        return error;
    printf(" 0x%" PRIx32 " 0x%" PRIx32 " 0x%" PRIx32 " ", config.offset, config.size, config.flags);
    show_bytes(bytes, count);
    return COVRETIN_OK;
}

static enum covretin_error show_inflight(void)
{
    covretin_inflight it = {0, 0, 0, 0};
    int32_t fd = -1;
    enum covretin_error error = covretin_answer_inflight(&session, &it, &fd);
    if (error)
        return error;
    printf(" 0x%" PRIx64 " 0x%" PRIx64 " 0x%x 0x%x", it.mmap_size, it.mmap_offset, it.num_queues, it.queue_size);
    show_fd(fd);
    return COVRETIN_OK;
}

static enum covretin_error show_shmem(void)
{
    uint64_t sizes[SIZES];
    size_t count = 0;
    enum covretin_error error = covretin_answer_shmem(&session, sizes, SIZES, &count);
    if (error)
        return error;
    printf(" 0x%zx", count);
    show_numbers(sizes, SIZES);
    return COVRETIN_OK;
}

enum covretin_error show_answer(enum answer form)
{
    uint64_t number = 0;
    int32_t fd = -1;
    enum covretin_error error = COVRETIN_OK;
    switch (form) {
    case PLAIN: break;
    case NUMBER:
        error = covretin_answer_number(&session, &number);
        if (!error)
            printf(" 0x%" PRIx64, number);
        break;
    case BASES: error = show_bases(); break;
    case CONFIG: error = show_config(); break;
    case FD:
        error = covretin_answer_fd(&session, &fd);
        if (!error && fd < 0)
            printf(" none");
        else if (!error)
            show_fd(fd);
        break;
    case INFLIGHT: error = show_inflight(); break;
    case SHMEM: error = show_shmem(); break;
    }
    return error;
}

/* -- The calls by their names -- */

static const struct call calls[] = {
    /* generated from protocol/requests.toml: calls */
    {"get_features", "", 0, get_features, NUMBER},
    {"set_features", "l", 0, set_features, PLAIN},
    {"set_owner", "", 0, set_owner, PLAIN},
    {"reset_owner", "", 0, reset_owner, PLAIN},
    {"set_mem_table", "*", 0, set_mem_table, BASES},
    {"set_log_base", "lllh", 3, set_log_base, PLAIN},
    {"set_log_fd", "h", 0, set_log_fd, PLAIN},
    {"set_vring_num", "ls", 0, set_vring_num, PLAIN},
    {"set_vring_addr", "lillll", 1, set_vring_addr, PLAIN},
    {"set_vring_base", "ls", 0, set_vring_base, PLAIN},
    {"get_vring_base", "l", 0, get_vring_base, NUMBER},
    {"set_vring_kick", "lh", 0, set_vring_kick, PLAIN},
    {"set_vring_call", "lh", 0, set_vring_call, PLAIN},
    {"set_vring_err", "lh", 0, set_vring_err, PLAIN},
    {"get_protocol_features", "", 0, get_protocol_features, NUMBER},
    {"set_protocol_features", "p", 0, set_protocol_features, PLAIN},
    {"get_queue_num", "", 0, get_queue_num, NUMBER},
    {"set_vring_enable", "lo", 0, set_vring_enable, PLAIN},
    {"set_mtu", "s", 0, set_mtu, PLAIN},
    {"set_backend_request_fd", "h", 0, set_backend_request_fd, PLAIN},
    {"get_config", "iic", 0, get_config, CONFIG},
    {"set_config", "icb", 0, set_config, PLAIN},
    {"postcopy_advise", "", 0, postcopy_advise, FD},
    {"postcopy_listen", "", 0, postcopy_listen, PLAIN},
    {"postcopy_end", "", 0, postcopy_end, PLAIN},
    {"get_inflight_fd", "llss", 0, get_inflight_fd, INFLIGHT},
    {"set_inflight_fd", "llssh", 0, set_inflight_fd, PLAIN},
    {"reset_device", "", 0, reset_device, PLAIN},
    {"get_max_mem_slots", "", 0, get_max_mem_slots, NUMBER},
    {"add_mem_region", "llllh", 0, add_mem_region, BASES},
    {"remove_mem_region", "llllh", 0, remove_mem_region, PLAIN},
    {"get_shared_object", "n", 0, get_shared_object, FD},
    {"set_device_state_fd", "dth", 0, set_device_state_fd, FD},
    {"check_device_state", "", 0, check_device_state, PLAIN},
    {"get_shmem_config", "", 0, get_shmem_config, SHMEM},
    {"set_hdr_flags", "f", 0, NULL, PLAIN},
    {"set_packed_vring_base", "li", 0, set_vring_base, PLAIN},
    {"postcopy_ack_mem_regions", "r", 0, postcopy_ack_mem_regions, PLAIN},
    /* end */
};

/* What a line that asks for help is told, and --help: the calls. */
static void list_calls(FILE *to, const char *between)
{
    for (size_t i = 0; i < sizeof calls / sizeof *calls; i++)
        fprintf(to, "%s%s", i == 0 ? "" : between, calls[i].name);
    fprintf(to, "\n");
}

const struct call *call_of(void)
{
    if (strcmp(words[0], "help") == 0) {
        fflush(stdout);
        fprintf(stderr, "line %" PRIu64 ": bad call: word 1: the calls are ", line_number);
        list_calls(stderr, ", ");
        exit(NO_CALL);
    }
    for (size_t i = 0; i < sizeof calls / sizeof *calls; i++)
        if (strcmp(calls[i].name, words[0]) == 0)
            return &calls[i];
    refuse(0, "no call has this name");
    return NULL;
}

/* The letter of the word at a place behind the name, or 0: there may be none. */
static char letter_at(const struct call *call, size_t place)
{
    if (call->letters[0] == '*')
        return "llllh"[(place - 1) % REGION_WORDS];
    return place - 1 < strlen(call->letters) ? call->letters[place - 1] : 0;
}

/* What a number has to be beyond its size, where its letter says so. */
static bool is_known(char letter, uint64_t number)
{
    switch (letter) {
    case 'o': return number <= 1;
    case 'p': return (number & ~(2 * COVRETIN_PROTOCOL_SHMEM - 1)) == 0;
    case 'c': return number <= 3;
    case 'f': return number == 0 || number == COVRETIN_NEED_REPLY;
    case 'r': return covretin_request_text((uint32_t)number) != covretin_request_text(0);
    case 'd': return number <= 1;
    case 't': return number == 0;
    default: return true;
    }
}

/* The number of a word by its letter. */
static uint64_t number_at(size_t place, char letter)
{
    uint64_t number = 0;
    bool is_long = letter == 'l' || letter == 'o' || letter == 'p';
    const char *why;
    if (letter == 'h')
        return (uint64_t)handle_at(place);
    why = number_of(words[place], is_long ? UINT64_MAX : letter == 's' ? UINT16_MAX : UINT32_MAX, &number);
    if (why == NULL && !is_known(letter, number))
        why = "no such value";
    if (why != NULL)
        refuse(place, why);
    return number;
}

static void read_bytes(size_t place, char letter, struct arguments *to)
{
    to->bytes = room_for(strlen(words[place]), 1);
    to->byte_count = bytes_of(words[place], to->bytes);
    if (letter == 'n' && to->byte_count != 16)
        refuse(place, "not 16 bytes");
    if (to->byte_count == SIZE_MAX)
        refuse(place, "no bytes");
}

/* Whether the call has so many words, with its name. */
static bool has_all(const struct call *call, size_t count)
{
    size_t all = strlen(call->letters) + 1;
    if (call->letters[0] == '*')
        return (count - 1) % REGION_WORDS == 0;
    return count == all || count + call->optional == all;
}

/* The arguments of a call, once all words were looked at: a descriptor is opened only for what is a call. */
void read_arguments(const struct call *call, struct arguments *to)
{
    to->numbers = room_for(strlen(call->letters) + word_count, sizeof *to->numbers);
    attached = room_for(word_count, sizeof *attached);
    opened = room_for(word_count, sizeof *opened);
    attached_count = opened_count = 0;
    for (int opens = 0; opens < 2; opens++) {
        for (size_t place = 1; place < word_count; place++) {
            char letter = letter_at(call, place);
            if (letter == 0)
                refuse(place, "one too many");
            if (words[place][0] == '\0')
                refuse(place, "empty");
            if (letter == 'b' || letter == 'n') {
                if (!opens)
                    read_bytes(place, letter, to);
            } else if (letter != 'h' || opens)
                to->numbers[place] = number_at(place, letter);
        }
        if (!has_all(call, word_count))
            refuse(word_count, "missing");
    }
    to->count = word_count;
}

const char *word_of(int fd)
{
    for (size_t i = 0; i < attached_count; i++)
        if (attached[i].fd == fd)
            return attached[i].word;
    return "?";
}

void end_arguments(struct arguments *of)
{
    for (size_t i = 0; i < opened_count; i++)
        transport_close(opened[i]);
    free(opened);
    free(attached);
    free(of->bytes);
    free(of->numbers);
    free(words);
}
