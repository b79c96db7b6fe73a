/*
 * Identifiers, once for all kinds of object.
 *
 * "An identifier is serial × 64 + slot. ... Creation takes the lowest slot
 * that is free and has a serial left."
 */
#ifndef IDENTIFIERS_H
#define IDENTIFIERS_H

#include "kernel.h"

enum { SLOT_RANGE = 64 };

static inline uint32_t slot_bit(uint32_t slot)
{
    return UINT32_C(1) << slot;
}

static inline bool slot_is_live(const struct table *t, uint32_t slot)
{
    return (t->live >> slot & 1) != 0;
}

static inline uint32_t lowest_slot(uint32_t mask)
{
    return (uint32_t)__builtin_ctz(mask);
}

static inline uint32_t all_slots(uint32_t slots)
{
    return UINT32_MAX >> (TABLE_ROOM - slots);
}

static inline uint32_t identifier(const struct table *t, uint32_t slot)
{
    return t->serial[slot] * (uint32_t)SLOT_RANGE + slot;
}

/*
 * "If the serial is 1 or more, has been issued and is not live:
 * OBJECT_DELETED. Everything else: INVALID_ID."
 */
static inline enum status identify(const struct table *t, uint32_t slots,
                                   uint32_t id, uint32_t *slot)
{
    uint32_t serial = id / SLOT_RANGE;
    uint32_t at = id % SLOT_RANGE;

    if (at >= slots || serial == 0 || serial > t->serial[at])
        return INVALID_ID;
    if (serial != t->serial[at] || !slot_is_live(t, at))
        return OBJECT_DELETED;
    *slot = at;
    return OK;
}

static inline void table_empty(struct table *t, uint32_t slots)
{
    *t = (struct table){ .usable = all_slots(slots) };
}

static inline bool table_is_full(const struct table *t)
{
    return t->usable == 0;
}

/* The caller has seen that the table is not full. */
static inline uint32_t table_take(struct table *t, uint32_t name)
{
    uint32_t slot = lowest_slot(t->usable);

    t->usable &= ~slot_bit(slot);
    t->live |= slot_bit(slot);
    t->serial[slot]++;
    t->name[slot] = name;
    return slot;
}

/* "up to 65,535; after that the slot is never used again" */
static inline void table_drop(struct table *t, uint32_t slot)
{
    t->live &= ~slot_bit(slot);
    t->name[slot] = 0;
    if (t->serial[slot] < LAST_SERIAL)
        t->usable |= slot_bit(slot);
}

/* "Ident answers the live object of that name in the lowest slot." */
static inline enum status ident(const struct table *t, uint32_t name,
                                struct answer *a)
{
    for (uint32_t left = t->live; left != 0; left &= left - 1) {
        uint32_t slot = lowest_slot(left);

        if (t->name[slot] == name) {
            a->value[0] = identifier(t, slot);
            return OK;
        }
    }
    return NAME_NOT_FOUND;
}

#endif
