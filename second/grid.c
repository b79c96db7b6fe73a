/*
 * The grant grid. A grant is a claim answered OK, to its caller, or a wake
 * with OK by a release: "the first leaves, woken with OK: that is its grant".
 */
#include "grid.h"

#include "identifiers.h"

enum { SEM_CLAIM = 11, SEM_RELEASE = 12 };

void grid_clear(struct grid *g)
{
    *g = (struct grid){ 0 };
}

static bool is_of_latest(const struct grid_cell *c, const struct kernel *k,
                         uint32_t task, uint32_t semaphore)
{
    return c->task_serial == k->task_table.serial[task]
        && c->semaphore_serial == k->semaphore_table.serial[semaphore];
}

static void grant(struct grid *g, const struct kernel *k, uint32_t task,
                  uint32_t semaphore)
{
    struct grid_cell *c = &g->cell[task][semaphore];

    if (!is_of_latest(c, k, task, semaphore)) {
        c->grants = 0;
        c->task_serial = k->task_table.serial[task];
        c->semaphore_serial = k->semaphore_table.serial[semaphore];
    }
    if (c->grants < MOST_GRANTS)
        c->grants++;
}

void grid_note(struct grid *g, const struct kernel *k, uint32_t call,
               uint32_t first, uint32_t caller, const struct answer *a)
{
    if (a->status != OK)
        return;
    if (call == SEM_CLAIM)
        grant(g, k, caller % SLOT_RANGE, first % SLOT_RANGE);
    for (uint32_t i = 0; call == SEM_RELEASE && i < a->wakes; i++) {
        if (a->wake[i].status == OK)
            grant(g, k, a->wake[i].task % SLOT_RANGE, first % SLOT_RANGE);
    }
}

uint32_t grid_fill(struct grid *g, const struct kernel *k,
                   const struct grant_record *list, size_t length)
{
    for (size_t i = 0; i < length; i++) {
        if (list[i].task >= TASKS || list[i].semaphore >= SEMAPHORES)
            return BAD_RECORD;
    }
    for (size_t i = 0; i < length; i++)
        grant(g, k, list[i].task, list[i].semaphore);
    return OK;
}

uint32_t grid_grants(const struct grid *g, const struct kernel *k,
                     uint32_t task, uint32_t semaphore)
{
    const struct grid_cell *c = &g->cell[task][semaphore];

    return is_of_latest(c, k, task, semaphore) ? c->grants : 0;
}
