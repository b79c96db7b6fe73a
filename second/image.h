/*
 * The state image, edition 1, as docs/IMAGE.md lays it out.
 *
 * "Write the state to an image and read it back: a header ..., records by
 * slot, the ready order, no gaps ... One state has one image and reading
 * returns the state."
 */
#ifndef IMAGE_H
#define IMAGE_H

#include <stddef.h>

#include "kernel.h"

enum { EDITION = 1 };

/* Where the tables stand, and the bytes of a record of each. */
enum {
    HEADER_LENGTH = 40,
    TASK_LENGTH = 17,
    SEMAPHORE_LENGTH = 10,
    POOL_LENGTH = 92,
    QUEUE_LENGTH = 1051,
    TASKS_AT = HEADER_LENGTH,
    SEMAPHORES_AT = TASKS_AT + TASKS * TASK_LENGTH,
    POOLS_AT = SEMAPHORES_AT + SEMAPHORES * SEMAPHORE_LENGTH,
    QUEUES_AT = POOLS_AT + POOLS * POOL_LENGTH,
    READY_AT = QUEUES_AT + QUEUES * QUEUE_LENGTH,
    IMAGE_BYTES = READY_AT + TASKS
};

/* No call gives these two. */
enum { NO_ROOM = 31, BAD_IMAGE = 32 };

/* Writes the image; bytes past it are kept. "A bad state is not written: 26,
 * before 31", and with 31 nothing is. */
uint32_t image_write(const struct kernel *k, uint8_t *out, size_t room);

/* "32 BAD_IMAGE for any bytes no state writes ..., a cut image too": then the
 * state is left as given. Bytes past the image are ignored. */
uint32_t image_read(struct kernel *k, const uint8_t *bytes, size_t length);

/* The two without what a caller may spare who knows that the state keeps the
 * rules and that there is room, or whose state may be lost where it is 32. */
void image_put(const struct kernel *k, uint8_t *out);
uint32_t image_take(struct kernel *k, const uint8_t *bytes, size_t length);

#endif
