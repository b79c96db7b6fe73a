/*
 * One call of an exported function by the proved library and by the second
 * program, with memory lent to the first that ends at a page which nobody may
 * touch. What is lent must be the same afterwards.
 */
#ifndef BOTH_H
#define BOTH_H

#include <stdbool.h>

#include "aim.h"
#include "dryswennol.h"
#include "kernel.h"
#include "lent.h"

enum { IMAGE = DRYSWENNOL_IMAGE_BYTES, PAST = 200 };

struct record {
    uint32_t number;
    uint32_t mark;
    uint32_t arg[5];
};

struct both {
    struct ground image_ground;
    struct ground message_ground;
    struct ground answer_ground;
    struct ground line_ground;
    uint8_t *image; /* lent to the proved functions */
    size_t length;  /* of what is lent there */
    dryswennol_answer *answer;
    uint8_t *line;
    size_t line_length;
    struct kernel state;          /* the second program's own */
    uint8_t second[IMAGE + PAST]; /* its image */
    uint8_t before[IMAGE + PAST];
};

extern struct both both;

/* Lends so many bytes for an image, at random, the same to both. */
void both_lend(struct both *b, size_t length);

/* Lends these bytes. */
void both_lend_bytes(struct both *b, const uint8_t *bytes, size_t length);

bool both_fresh(struct both *b, uint32_t priority);

/* A step from a fresh image on: the second program keeps its own state, and
 * writes the image. Gives what differs, or NULL. */
const char *both_step(struct both *b, const struct record *call,
                      const uint8_t *message, size_t length);

/* A step on whatever bytes are lent: the second program reads them. */
const char *both_step_bytes(struct both *b, const struct record *call,
                            const uint8_t *message, size_t length);

/* The line of the answer, into so much room. */
bool both_line(struct both *b, uint32_t number, size_t room);

/* Keeps an image for images_made_wrong, if it has more of something. */
void wrong_keep(const uint8_t *image);

#endif
