/*
 * Lent memory that ends at a page which nobody may touch: a read or a write
 * past the end stops the program, and says at which seed.
 */
#ifndef LENT_H
#define LENT_H

#include <stdbool.h>
#include <stddef.h>
#include <stdint.h>

struct ground {
    uint8_t *end;
    size_t room;
};

/* Ground with room for so many bytes and some before them. */
struct ground ground_made(size_t room);

/* The last bytes of the ground, so many, all of them marked, and those before
 * them too. */
uint8_t *lend_marked(const struct ground *g, size_t length);

/* Whether the bytes from here to the end of the ground have the mark. */
bool still_marked(const struct ground *g, const uint8_t *from);

/* Whether the bytes before the ones lent have the mark. */
bool marked_before(const uint8_t *lent);

/* Says the seed, its profile and what was done, if the program is stopped. */
void say_if_stopped(const uint64_t *seed, const char *const *doing);

#endif
