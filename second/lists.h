/*
 * A row of tasks linked through the tasks themselves. A task stands in one
 * row at most, since a ready task does not wait; so one pair of links serves.
 * Out of every row both links are 0.
 */
#ifndef LISTS_H
#define LISTS_H

#include "kernel.h"

static inline struct task *task_at(struct kernel *k, uint32_t place)
{
    return &k->task[place - 1];
}

/* Puts the task right behind another of the row, or first behind nobody. */
static inline void list_put(struct kernel *k, struct list *l, uint8_t place,
                            uint8_t ahead)
{
    uint8_t behind = ahead != 0 ? task_at(k, ahead)->behind : l->first;

    task_at(k, place)->ahead = ahead;
    task_at(k, place)->behind = behind;
    if (ahead != 0)
        task_at(k, ahead)->behind = place;
    else
        l->first = place;
    if (behind != 0)
        task_at(k, behind)->ahead = place;
    else
        l->last = place;
}

static inline void list_take(struct kernel *k, struct list *l, uint8_t place)
{
    uint8_t ahead = task_at(k, place)->ahead;
    uint8_t behind = task_at(k, place)->behind;

    if (ahead != 0)
        task_at(k, ahead)->behind = behind;
    else
        l->first = behind;
    if (behind != 0)
        task_at(k, behind)->ahead = ahead;
    else
        l->last = ahead;
    task_at(k, place)->ahead = 0;
    task_at(k, place)->behind = 0;
}

#endif
