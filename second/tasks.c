/*
 * Tasks: calls 1 to 7.
 *
 * "A task is ready if started, not waiting and not suspended. ... Delete and
 * suspend accept SELF."
 */
#include "calls.h"
#include "ready.h"

enum { SELF = 0 };

/* "Task identifier 0 is SELF, the caller." A caller runs: 24 came before. */
static enum status task_named(const struct kernel *k, uint32_t id,
                              uint32_t *slot)
{
    if (id == SELF) {
        *slot = running_slot(k);
        return OK;
    }
    return identify(&k->task_table, TASKS, id, slot);
}

enum status task_create(struct kernel *k, const uint32_t *arg,
                        struct answer *a)
{
    uint32_t slot;

    if (arg[1] >= PRIORITIES)
        return INVALID_PRIORITY;
    if (table_is_full(&k->task_table))
        return TOO_MANY_OBJECTS;
    slot = table_take(&k->task_table, arg[0]);
    k->task[slot].priority = (uint8_t)arg[1];
    a->value[0] = identifier(&k->task_table, slot);
    return OK;
}

enum status task_delete(struct kernel *k, const uint32_t *arg,
                        struct answer *a)
{
    uint32_t slot;
    enum status refusal = task_named(k, arg[0], &slot);

    (void)a;
    if (refusal != OK)
        return refusal;
    if (k->task[slot].waiting)
        wait_leave_ungranted(k, slot);
    else if (is_ready(&k->task[slot]))
        ready_leave(k, slot);
    k->task[slot] = (struct task){ 0 };
    table_drop(&k->task_table, slot);
    return OK;
}

enum status task_ident(struct kernel *k, const uint32_t *arg,
                       struct answer *a)
{
    return ident(&k->task_table, arg[0], a);
}

enum status task_start(struct kernel *k, const uint32_t *arg,
                       struct answer *a)
{
    uint32_t slot;
    enum status refusal = task_named(k, arg[0], &slot);

    (void)a;
    if (refusal != OK)
        return refusal;
    if (k->task[slot].started)
        return TASK_ALREADY_STARTED;
    k->task[slot].started = 1;
    ready_enter(k, slot);
    return OK;
}

enum status task_suspend(struct kernel *k, const uint32_t *arg,
                         struct answer *a)
{
    uint32_t slot;
    enum status refusal = task_named(k, arg[0], &slot);

    (void)a;
    if (refusal != OK)
        return refusal;
    if (!k->task[slot].started)
        return TASK_NOT_STARTED;
    if (k->task[slot].suspended)
        return TASK_ALREADY_SUSPENDED;
    if (!k->task[slot].waiting)
        ready_leave(k, slot);
    k->task[slot].suspended = 1;
    return OK;
}

enum status task_resume(struct kernel *k, const uint32_t *arg,
                        struct answer *a)
{
    uint32_t slot;
    enum status refusal = task_named(k, arg[0], &slot);

    (void)a;
    if (refusal != OK)
        return refusal;
    if (!k->task[slot].started)
        return TASK_NOT_STARTED;
    if (!k->task[slot].suspended)
        return TASK_NOT_SUSPENDED;
    k->task[slot].suspended = 0;
    if (!k->task[slot].waiting)
        ready_enter(k, slot);
    return OK;
}

/* A waiter's joining priority stays: "a later set_priority moves nobody". */
enum status task_set_priority(struct kernel *k, const uint32_t *arg,
                              struct answer *a)
{
    uint32_t slot;
    enum status refusal = task_named(k, arg[0], &slot);

    if (refusal != OK)
        return refusal;
    if (arg[1] >= PRIORITIES)
        return INVALID_PRIORITY;
    a->value[0] = k->task[slot].priority;
    if (!is_ready(&k->task[slot])) {
        k->task[slot].priority = (uint8_t)arg[1];
        return OK;
    }
    ready_leave(k, slot);
    k->task[slot].priority = (uint8_t)arg[1];
    ready_enter(k, slot);
    return OK;
}
