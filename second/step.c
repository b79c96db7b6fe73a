/*
 * A fresh state and the step.
 *
 * "Order of tests: 26, 25, 24, 2, then identifier (4, 5), then the call's
 * own in this order."
 */
#include <stddef.h>

#include "calls.h"
#include "ready.h"

/* "A row says who may call"; which statuses can come back is for the tools
 * to see, in python/statuses.py. */
struct call_row {
    call_function *work;
    send_function *send; /* in its place, where a message is lent */
    bool task_may;
    bool interrupt_may;
};

static const struct call_row call_table[] = {
    { tick, NULL, false, true },
    { task_create, NULL, true, false },
    { task_delete, NULL, true, false },
    { task_ident, NULL, true, false },
    { task_start, NULL, true, false },
    { task_suspend, NULL, true, false },
    { task_resume, NULL, true, false },
    { task_set_priority, NULL, true, false },
    { sem_create, NULL, true, false },
    { sem_delete, NULL, true, false },
    { sem_ident, NULL, true, false },
    { sem_claim, NULL, true, false },
    { sem_release, NULL, true, true },
    { sem_info, NULL, true, false },
    { pool_create, NULL, true, false },
    { pool_delete, NULL, true, false },
    { pool_ident, NULL, true, false },
    { pool_get_buff, NULL, true, false },
    { pool_ret_buff, NULL, true, false },
    { pool_info, NULL, true, false },
    { queue_create, NULL, true, false },
    { queue_delete, NULL, true, false },
    { queue_ident, NULL, true, false },
    { NULL, queue_send, true, true },
    { NULL, queue_jump, true, true },
    { queue_receive, NULL, true, false },
    { queue_info, NULL, true, false },
};

enum { CALLS = sizeof call_table / sizeof call_table[0] };

uint32_t kernel_fresh(struct kernel *k, uint32_t priority)
{
    bool in_range = priority < PRIORITIES;
    uint32_t slot;

    *k = (struct kernel){ 0 };
    table_empty(&k->task_table, TASKS);
    table_empty(&k->semaphore_table, SEMAPHORES);
    table_empty(&k->pool_table, POOLS);
    table_empty(&k->queue_table, QUEUES);
    slot = table_take(&k->task_table, 0);
    k->task[slot].priority = in_range ? (uint8_t)priority : 0;
    k->task[slot].started = 1;
    ready_enter(k, slot);
    return in_range ? OK : INVALID_PRIORITY;
}

static enum status caller_refusal(const struct kernel *k, uint32_t call,
                                  uint32_t mark)
{
    if (call >= CALLS || mark > MARK_INTERRUPT)
        return BAD_CALL;
    if (mark == MARK_INTERRUPT)
        return call_table[call].interrupt_may ? OK : ILLEGAL_USE;
    if (!call_table[call].task_may)
        return BAD_CALL;
    return nothing_runs(k) ? NO_CALLER : OK;
}

static void answer_clear(struct answer *a)
{
    a->wakes = 0;
    a->shows = 0;
    for (int i = 0; i < VALUES; i++)
        a->value[i] = 0;
}

static enum status worked(struct kernel *k, const struct call_row *row,
                          const uint32_t *arg, const struct lent *message,
                          struct answer *a)
{
    return row->send != NULL ? row->send(k, arg, message, a)
                             : row->work(k, arg, a);
}

void kernel_step(struct kernel *k, uint32_t call, uint32_t mark,
                 const uint32_t arg[ARGUMENTS], const struct lent *message,
                 struct answer *a)
{
    answer_clear(a);
    a->status = caller_refusal(k, call, mark);
    if (a->status == OK)
        a->status = worked(k, &call_table[call], arg, message, a);
    a->running = running_task(k);
}

void kernel_step_checked(struct kernel *k, uint32_t call, uint32_t mark,
                         const uint32_t arg[ARGUMENTS],
                         const struct lent *message, struct answer *a)
{
    if (rules_of_a_state(k)) {
        kernel_step(k, call, mark, arg, message, a);
        return;
    }
    answer_clear(a);
    a->status = BAD_STATE;
    a->running = 0;
}
