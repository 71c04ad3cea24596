/* SPDX-License-Identifier: Apache-2.0 */
/* Covretin: where the proved part gets its memory. Private: no program calls these. */
#include <stdint.h>
#include <stdlib.h>

/* Whether memory was had, and where it is: never at 0, which the proved part takes for no address. */
struct room {
    uint64_t is_there;
    void *at;
};

struct room rattle_alloc(uint64_t size, uint64_t alignment);
struct room rattle_realloc(void *at, uint64_t old_size, uint64_t size, uint64_t alignment);
void rattle_dealloc(void *at);

static struct room room_at(void *at) {
    static char nowhere;
    struct room room = {at != NULL, at != NULL ? at : &nowhere};
    return room;
}

/* The proved part asks for no alignment that malloc does not give. Room for nothing has an address of its own, too. */
struct room rattle_alloc(uint64_t size, uint64_t alignment) {
    return room_at(malloc(size != 0 ? size : alignment));
}

struct room rattle_realloc(void *at, uint64_t old_size, uint64_t size, uint64_t alignment) {
    (void)old_size;
    return room_at(realloc(at, size != 0 ? size : alignment));
}

void rattle_dealloc(void *at) {
    free(at);
}
