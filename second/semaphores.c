/*
 * Semaphores: calls 8 to 13.
 *
 * "Claim: count less one. At 0 or more the answer is OK; below 0 the caller
 * joins the queue. ... Release: count plus one. If there were waiters the
 * first leaves, woken with OK: that is its grant."
 */
#include "calls.h"
#include "ready.h"

static enum status semaphore_named(const struct kernel *k, uint32_t id,
                                   uint32_t *slot)
{
    return identify(&k->semaphore_table, SEMAPHORES, id, slot);
}

enum status sem_create(struct kernel *k, const uint32_t *arg,
                       struct answer *a)
{
    uint32_t slot;

    if (arg[1] > MOST_COUNT)
        return INVALID_COUNT;
    if (options_are_bad(arg[2]))
        return INVALID_OPTIONS;
    if (table_is_full(&k->semaphore_table))
        return TOO_MANY_OBJECTS;
    slot = table_take(&k->semaphore_table, arg[0]);
    k->semaphore[slot].count = (int32_t)arg[1];
    k->semaphore[slot].options = (uint8_t)arg[2];
    a->value[0] = identifier(&k->semaphore_table, slot);
    return OK;
}

/* "Delete wakes all waiters in queue order with 11." */
enum status sem_delete(struct kernel *k, const uint32_t *arg,
                       struct answer *a)
{
    uint32_t sem;
    enum status refusal = semaphore_named(k, arg[0], &sem);

    if (refusal != OK)
        return refusal;
    while (k->semaphore[sem].queue.first != 0)
        wake_first(k, &k->semaphore[sem].queue, SEMAPHORE_DELETED, a);
    k->semaphore[sem] = (struct semaphore){ 0 };
    table_drop(&k->semaphore_table, sem);
    return OK;
}

enum status sem_ident(struct kernel *k, const uint32_t *arg,
                      struct answer *a)
{
    return ident(&k->semaphore_table, arg[0], a);
}

/* The caller waits in the semaphore's queue. */
static enum status claim_waits(struct kernel *k, uint32_t sem,
                               uint32_t time_out)
{
    struct semaphore *s = &k->semaphore[sem];
    const struct awaited w = { ON_SEMAPHORE, sem, &s->queue,
                               (s->options & FIFO) != 0 };

    wait_join(k, running_slot(k), &w, time_out);
    return PENDING;
}

enum status sem_claim(struct kernel *k, const uint32_t *arg,
                      struct answer *a)
{
    uint32_t sem;
    enum status refusal = semaphore_named(k, arg[0], &sem);
    bool nowait = (arg[1] & NOWAIT) != 0;

    (void)a;
    if (refusal != OK)
        return refusal;
    if (options_are_bad(arg[1]))
        return INVALID_OPTIONS;
    if (!nowait && time_out_is_bad(arg[2]))
        return INVALID_PARAMETER;
    if (nowait && k->semaphore[sem].count <= 0)
        return SEMAPHORE_NOT_AVAILABLE;
    k->semaphore[sem].count--;
    if (k->semaphore[sem].count >= 0)
        return OK;
    return claim_waits(k, sem, arg[2]);
}

enum status sem_release(struct kernel *k, const uint32_t *arg,
                        struct answer *a)
{
    uint32_t sem;
    enum status refusal = semaphore_named(k, arg[0], &sem);

    if (refusal != OK)
        return refusal;
    if (k->semaphore[sem].count == MOST_COUNT)
        return SEMAPHORE_OVERFLOW;
    k->semaphore[sem].count++;
    if (k->semaphore[sem].queue.first != 0)
        wake_first(k, &k->semaphore[sem].queue, OK, a);
    return OK;
}

/* A queue of n tasks has count -n: the count tells how many wait. */
enum status sem_info(struct kernel *k, const uint32_t *arg,
                     struct answer *a)
{
    uint32_t sem;
    enum status refusal = semaphore_named(k, arg[0], &sem);
    int32_t count;

    if (refusal != OK)
        return refusal;
    count = k->semaphore[sem].count;
    a->value[0] = k->semaphore[sem].options;
    a->value[1] = count;
    a->value[2] = count < 0 ? -count : 0;
    return OK;
}
