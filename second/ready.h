/*
 * The ready order: a row for each priority and a mask of the rows that hold
 * a task. Read from priority 15 down, the rows are the order of the paper.
 *
 * "The ready order lists ready tasks; its first runs. A task becoming ready
 * goes behind all of equal or higher priority."
 */
#ifndef READY_H
#define READY_H

#include "identifiers.h"
#include "lists.h"

static inline bool is_ready(const struct task *t)
{
    return t->started && !t->waiting && !t->suspended;
}

static inline void ready_enter(struct kernel *k, uint32_t slot)
{
    uint8_t priority = k->task[slot].priority;
    struct list *row = &k->ready[priority];

    list_put(k, row, (uint8_t)(slot + 1), row->last);
    k->ready_priorities |= UINT32_C(1) << priority;
}

static inline void ready_leave(struct kernel *k, uint32_t slot)
{
    uint8_t priority = k->task[slot].priority;
    struct list *row = &k->ready[priority];

    list_take(k, row, (uint8_t)(slot + 1));
    if (row->first == 0)
        k->ready_priorities &= ~(UINT32_C(1) << priority);
}

static inline bool nothing_runs(const struct kernel *k)
{
    return k->ready_priorities == 0;
}

/* The slot of the running task; something runs. */
static inline uint32_t running_slot(const struct kernel *k)
{
    int priority = 31 - __builtin_clz(k->ready_priorities);

    return (uint32_t)k->ready[priority].first - 1;
}

/* The running task's identifier, 0 if none. */
static inline uint32_t running_task(const struct kernel *k)
{
    return nothing_runs(k) ? 0 : identifier(&k->task_table, running_slot(k));
}

#endif
