/*
 * The grant grid, beside the state.
 *
 * "grants to task slot from semaphore slot since clearing, stopping at
 * 65,535. ... Each cell equals the smaller of 65,535 and the grants in the
 * history, since clearing, between the latest objects of the two slots."
 */
#ifndef GRID_H
#define GRID_H

#include <stddef.h>

#include "kernel.h"

enum { MOST_GRANTS = 65535, BAD_RECORD = 33 };

/* The grants between two objects, which are told apart by serial: a cell of
 * two others than the latest of its slots counts as 0. So no row and no
 * column is ever cleared. */
struct grid_cell {
    uint16_t grants;
    uint16_t task_serial;
    uint16_t semaphore_serial;
};

struct grid {
    struct grid_cell cell[TASKS][SEMAPHORES];
};

/* "one task slot and one semaphore slot each" */
struct grant_record {
    uint32_t task;
    uint32_t semaphore;
};

void grid_clear(struct grid *g);

/* What a call with this first argument did, by its answer; `caller` ran
 * before it, and k is the state after it. */
void grid_note(struct grid *g, const struct kernel *k, uint32_t call,
               uint32_t first, uint32_t caller, const struct answer *a);

/* 0, or 33 and the grid left as given. */
uint32_t grid_fill(struct grid *g, const struct kernel *k,
                   const struct grant_record *list, size_t length);

/* The grants between the latest objects of two slots. */
uint32_t grid_grants(const struct grid *g, const struct kernel *k,
                     uint32_t task, uint32_t semaphore);

#endif
