/*
 * The exported functions on images, proved and second, side by side: records
 * played step by step, and images that are cut, changed or none at all.
 */
#ifndef IMAGES_H
#define IMAGES_H

#include <stddef.h>
#include <stdint.h>

struct image_counts {
    uint64_t records;  /* stepped as their script has them */
    uint64_t others;   /* stepped with other messages lent */
    uint64_t refused;  /* of all these steps */
    uint64_t shown;    /* messages, in them */
    uint64_t rooms;    /* for a line or an image, too short or just enough */
    uint64_t cut;      /* images */
    uint64_t changed;  /* images */
    uint64_t accepted; /* of the changed ones */
    uint64_t lines;    /* of answers of any bytes */
};

/* Makes the memory that is lent; before the others. */
void images_begin(void);

/* Steps through a script, with its own messages and with others. Gives what
 * differs, or NULL. The listing is the one that both players gave. */
const char *images_of_script(const uint8_t *script, uint64_t seed,
                             const uint8_t *listing, size_t length,
                             struct image_counts *counts);

/* Steps on images made wrong, of states kept along the way. */
const char *images_made_wrong(struct image_counts *counts);

/* What those states had most of. */
void images_print_kept(void);

#endif
