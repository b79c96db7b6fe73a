/*
 * Pools: calls 14 to 19.
 *
 * "Buffers = length ÷ size, rounded down, laid from the address, no
 * overhead. ... Any task may return a buffer." And M-103: "pool_get_buff now
 * gives the buffer that has been free longest; in a new pool, ascending
 * addresses. The order of free buffers joins the state, each free buffer
 * once."
 */
#include <string.h>

#include "calls.h"
#include "identifiers.h"

#define ADDRESSES UINT64_C(4294967296)

static enum status pool_named(const struct kernel *k, uint32_t id,
                              uint32_t *slot)
{
    return identify(&k->pool_table, POOLS, id, slot);
}

enum status pool_area_refusal(uint32_t address, uint32_t length,
                              uint32_t size)
{
    if (length == 0 || (uint64_t)address + length > ADDRESSES)
        return INVALID_PARAMETER;
    if (size == 0 || length / size == 0 || length / size > BUFFERS)
        return INVALID_BUFF_SIZE;
    return OK;
}

/* Whole areas are compared: the tail past the last buffer counts too. */
bool areas_share_a_byte(const struct pool *one, const struct pool *other)
{
    return one->address < (uint64_t)other->address + other->length
        && other->address < (uint64_t)one->address + one->length;
}

static bool overlaps_a_live_pool(const struct kernel *k,
                                 const struct pool *new_pool)
{
    for (uint32_t left = k->pool_table.live; left != 0; left &= left - 1) {
        if (areas_share_a_byte(&k->pool[lowest_slot(left)], new_pool))
            return true;
    }
    return false;
}

uint32_t free_buffers(const struct pool *p)
{
    return p->buffers - (uint32_t)__builtin_popcountll(p->out);
}

/* The first of the free ones, of which there are so many, leaves them. */
static uint32_t take_first(struct pool *p, uint32_t free)
{
    uint32_t buffer = p->free_order[0];

    memmove(p->free_order, p->free_order + 1, free - 1);
    p->free_order[free - 1] = 0;
    return buffer;
}

enum status pool_create(struct kernel *k, const uint32_t *arg,
                        struct answer *a)
{
    uint32_t slot;
    enum status refusal = pool_area_refusal(arg[1], arg[2], arg[3]);
    struct pool new_pool = { .address = arg[1], .length = arg[2],
                             .size = arg[3] };

    if (refusal != OK)
        return refusal;
    if (options_are_bad(arg[4]))
        return INVALID_OPTIONS;
    if (table_is_full(&k->pool_table))
        return TOO_MANY_OBJECTS;
    if (overlaps_a_live_pool(k, &new_pool))
        return POOL_OVERLAP;
    new_pool.buffers = (uint8_t)(arg[2] / arg[3]);
    for (uint8_t buffer = 0; buffer < new_pool.buffers; buffer++)
        new_pool.free_order[buffer] = buffer;
    new_pool.options = (uint8_t)arg[4];
    slot = table_take(&k->pool_table, arg[0]);
    k->pool[slot] = new_pool;
    a->value[0] = identifier(&k->pool_table, slot);
    return OK;
}

enum status pool_delete(struct kernel *k, const uint32_t *arg,
                        struct answer *a)
{
    uint32_t slot;
    enum status refusal = pool_named(k, arg[0], &slot);

    (void)a;
    if (refusal != OK)
        return refusal;
    if (k->pool[slot].out != 0 && (k->pool[slot].options & FORCED_DELETE) == 0)
        return POOL_IN_USE;
    k->pool[slot] = (struct pool){ 0 };
    table_drop(&k->pool_table, slot);
    return OK;
}

enum status pool_ident(struct kernel *k, const uint32_t *arg,
                       struct answer *a)
{
    return ident(&k->pool_table, arg[0], a);
}

enum status pool_get_buff(struct kernel *k, const uint32_t *arg,
                          struct answer *a)
{
    uint32_t slot;
    enum status refusal = pool_named(k, arg[0], &slot);
    struct pool *p;
    uint32_t buffer, free;

    if (refusal != OK)
        return refusal;
    p = &k->pool[slot];
    free = free_buffers(p);
    if (free == 0)
        return NO_MORE_MEMORY;
    buffer = take_first(p, free);
    p->out |= UINT64_C(1) << buffer;
    a->value[0] = p->address + buffer * p->size;
    return OK;
}

enum status pool_ret_buff(struct kernel *k, const uint32_t *arg,
                          struct answer *a)
{
    uint32_t slot;
    enum status refusal = pool_named(k, arg[0], &slot);
    struct pool *p;
    uint32_t buffer;

    (void)a;
    if (refusal != OK)
        return refusal;
    p = &k->pool[slot];
    if (arg[1] < p->address || (arg[1] - p->address) % p->size != 0)
        return INVALID_BUFF;
    buffer = (arg[1] - p->address) / p->size;
    if (buffer >= p->buffers || (p->out >> buffer & 1) == 0)
        return INVALID_BUFF;
    p->free_order[free_buffers(p)] = (uint8_t)buffer;
    p->out &= ~(UINT64_C(1) << buffer);
    return OK;
}

enum status pool_info(struct kernel *k, const uint32_t *arg,
                      struct answer *a)
{
    uint32_t slot;
    enum status refusal = pool_named(k, arg[0], &slot);

    if (refusal != OK)
        return refusal;
    a->value[0] = k->pool[slot].buffers;
    a->value[1] = free_buffers(&k->pool[slot]);
    a->value[2] = k->pool[slot].size;
    a->value[3] = k->pool[slot].options;
    return OK;
}
