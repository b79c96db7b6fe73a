/*
 * Numbers at random, the same for the same seed on every machine. So no
 * expression may roll twice: which roll came first would be the compiler's
 * choice.
 */
#ifndef DICE_H
#define DICE_H

#include <stdbool.h>
#include <stdint.h>

struct dice {
    uint64_t state;
};

/* The splitmix64 sequence. */
static inline uint64_t roll_64(struct dice *d)
{
    uint64_t z = d->state += UINT64_C(0x9e3779b97f4a7c15);

    z = (z ^ z >> 30) * UINT64_C(0xbf58476d1ce4e5b9);
    z = (z ^ z >> 27) * UINT64_C(0x94d049bb133111eb);
    return z ^ z >> 31;
}

/* One roll goes into the start, so that neighbouring seeds share nothing. */
static inline struct dice dice_of(uint64_t seed)
{
    struct dice d = { seed };

    d.state = roll_64(&d);
    return d;
}

static inline uint32_t roll_32(struct dice *d)
{
    return (uint32_t)(roll_64(d) >> 32);
}

/* A number from 0 on, below a limit of 1 or more. */
static inline uint32_t roll(struct dice *d, uint32_t limit)
{
    return (uint32_t)((uint64_t)roll_32(d) * limit >> 32);
}

static inline bool chance(struct dice *d, uint32_t of_a_thousand)
{
    return roll(d, 1000) < of_a_thousand;
}

/* One of the numbers named. */
#define ONE_OF(d, ...) \
    ((const uint32_t[]){ __VA_ARGS__ })[roll((d), \
        sizeof((const uint32_t[]){ __VA_ARGS__ }) / sizeof(uint32_t))]

/* The number of a bit of the mask, which has one. */
static inline uint32_t roll_bit(struct dice *d, uint32_t mask)
{
    uint32_t skip = roll(d, (uint32_t)__builtin_popcount(mask));

    while (skip-- > 0)
        mask &= mask - 1;
    return (uint32_t)__builtin_ctz(mask);
}

#endif
