/*
 * Aimed records: for each call, arguments worth trying. Among the good ones
 * stand those on either side of each edge, and now and then wild ones.
 */
#ifndef AIM_H
#define AIM_H

#include "dice.h"
#include "picture.h"

struct aim {
    struct dice dice;
    struct picture picture;
    uint32_t wild;  /* of a thousand arguments so many are wild */
    bool anchor;    /* the first task never stops, so something runs */
    bool may_stop;  /* the last ready task may stop itself */
    uint8_t *bytes; /* where the records go */
    uint32_t records;
    uint32_t most;
};

/* Writes a number as a script has it. */
void put_number(uint8_t *bytes, uint32_t number);

static inline bool aim_is_full(const struct aim *a)
{
    return a->records == a->most;
}

/* Adds one record, if there is room for it. Arguments that the call does not
 * use are changed: "unused ones ignored". */
void aim_put(struct aim *a, uint32_t call, uint32_t mark,
             const uint32_t arg[5]);

#define PUT(a, call, mark, ...) \
    aim_put((a), (call), (mark), (const uint32_t[5]){ __VA_ARGS__ })

/* Adds a record of the call, or of none that a row knows. */
void aim_call(struct aim *a, uint32_t call);

/* Adds a record of numbers at random, small ones more often. */
void aim_chaos(struct aim *a);

/* With nothing running only a tick or an interrupt's release, send or jump
 * helps. */
void aim_revive(struct aim *a);

/* Adds a send or a jump of a message that a queue takes, by a task or by an
 * interrupt. */
void aim_put_message(struct aim *a, uint32_t mark, uint32_t slot);

/* The identifier of the running task, 0 if none. */
uint32_t aim_running(const struct aim *a);

#endif
