/* The profiles that scripts are made from. */
#ifndef PROFILES_H
#define PROFILES_H

#include "aim.h"

enum { ANY_PRIORITY = 16 };

/* Whether the first task is kept from stopping. */
enum anchor { LOOSE, ANCHORED, EITHER };

struct profile {
    const char *name;
    uint16_t base;            /* the weight of every call */
    uint16_t more[CALL_ROWS]; /* and what is added to it */
    uint16_t wild;            /* of a thousand arguments */
    uint8_t priority;         /* of the first task */
    enum anchor anchor;
    bool may_stop;
    void (*opening)(struct aim *a);
    void (*again)(struct aim *a); /* every few dozen records */
    void (*each)(struct aim *a);  /* instead of the weights */
};

extern const struct profile profiles[];
extern const uint32_t profiles_number;

#endif
