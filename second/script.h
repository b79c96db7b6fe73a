/*
 * Scripts and listings.
 *
 * "A script is at most 65,536 bytes, of little-endian 32-bit numbers".
 */
#ifndef SCRIPT_H
#define SCRIPT_H

#include <stddef.h>
#include <stdint.h>

enum {
    MOST_SCRIPT = 65536,
    HEADER_BYTES = 16,
    RECORD_BYTES = 28,
    /* No line is longer: a record of 4 digits, a status of 2, four values of
     * 11 signs, a running task of 7, 32 wakes of 12, spaces and newline. */
    MOST_LINE = 456,
    MOST_LISTING = (MOST_SCRIPT - HEADER_BYTES) / RECORD_BYTES * MOST_LINE
};

/*
 * Plays the script and writes as much of its listing as there is room for.
 * Gives the length of the whole listing. With trust the rules of a state are
 * not tested before each step.
 */
size_t script_listing(const uint8_t *script, size_t length, int trust,
                      char *out, size_t room);

struct kernel;

/* What is done with each state, the fresh one first and the one after the
 * last record last; it may put another in its place. */
struct between {
    void (*does)(struct kernel *k, void *with);
    void *with;
};

/* The same listing, with something done before each record and at the end. */
size_t script_listing_between(const uint8_t *script, size_t length, int trust,
                              struct between between, char *out, size_t room);

/* The same for its grant grid, which is cleared before the first record. */
size_t script_grid(const uint8_t *script, size_t length, int trust, char *out,
                   size_t room);

/* The same for the messages that it shows, which no listing tells: a line for
 * each, of its record, its length and its 64 bytes. */
size_t script_messages(const uint8_t *script, size_t length, int trust,
                       char *out, size_t room);

#endif
