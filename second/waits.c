/*
 * Wait queues, of semaphores and of message queues alike: how a task joins
 * one, leaves it and is woken.
 *
 * "The state rules read 'one live semaphore's or queue's wait queue'".
 */
#include "calls.h"
#include "ready.h"

/*
 * "FIFO queues grow at the end. Others are by priority at the moment of
 * joining, equals by arrival": the search from the end stops at an equal.
 */
static uint8_t last_not_preceded(struct kernel *k, const struct awaited *w,
                                 uint8_t priority)
{
    uint8_t place = w->row->last;

    if (w->fifo)
        return place;
    while (place != 0 && task_at(k, place)->joining_priority < priority)
        place = task_at(k, place)->ahead;
    return place;
}

bool time_out_is_bad(uint32_t time_out)
{
    return time_out != FOREVER && (time_out == 0 || time_out > MOST_TIME_OUT);
}

void wait_join(struct kernel *k, uint32_t slot, const struct awaited *w,
               uint32_t time_out)
{
    struct task *t = &k->task[slot];

    ready_leave(k, slot);
    t->waiting = (uint8_t)w->kind;
    t->awaited = (uint8_t)w->slot;
    t->joining_priority = t->priority;
    t->time_out = time_out;
    if (time_out_runs(t))
        k->running_time_outs |= slot_bit(slot);
    list_put(k, w->row, (uint8_t)(slot + 1),
             last_not_preceded(k, w, t->priority));
}

void wait_leave(struct kernel *k, uint32_t slot)
{
    struct task *t = &k->task[slot];
    struct list *row = t->waiting == ON_QUEUE
                     ? &k->queue[t->awaited].waiters
                     : &k->semaphore[t->awaited].queue;

    list_take(k, row, (uint8_t)(slot + 1));
    t->waiting = NOT_WAITING;
    t->awaited = 0;
    t->joining_priority = 0;
    t->time_out = 0;
    k->running_time_outs &= ~slot_bit(slot);
}

/*
 * "A waiter that leaves ungranted ... gives its one back: count plus one." A
 * receiver has taken nothing, and the semaphore of its queue's slot is none
 * of its own.
 */
void wait_leave_ungranted(struct kernel *k, uint32_t slot)
{
    if (k->task[slot].waiting == ON_SEMAPHORE)
        k->semaphore[k->task[slot].awaited].count++;
    wait_leave(k, slot);
}

void wake(struct kernel *k, uint32_t slot, enum status status,
          struct answer *a)
{
    a->wake[a->wakes].task = identifier(&k->task_table, slot);
    a->wake[a->wakes].status = status;
    a->wakes++;
    if (!k->task[slot].suspended)
        ready_enter(k, slot);
}

void wake_first(struct kernel *k, const struct list *row, enum status status,
                struct answer *a)
{
    uint32_t slot = row->first - 1u;

    wait_leave(k, slot);
    wake(k, slot, status, a);
}
