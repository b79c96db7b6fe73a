/*
 * What the compared listings have shown: which call was answered with which
 * status, and who was woken.
 */
#ifndef COVERAGE_H
#define COVERAGE_H

#include <stdbool.h>
#include <stddef.h>
#include <stdint.h>

#include "picture.h"
#include "scripts.h"
#include "table.h" /* made by bench/table */

struct coverage {
    uint64_t given[CALL_ROWS][STATUSES];
    uint64_t told[CALL_ROWS][STATUSES]; /* to woken tasks */
    uint64_t records;
    uint64_t refused; /* scripts */
    uint64_t lines_with_wakes;
    uint64_t wakes;
    uint64_t lines_without_runner;
    uint32_t most_wakes;
    uint32_t most_waiting;
    uint64_t deliveries;       /* messages to waiting tasks */
    uint32_t longest_delivery; /* in bytes */
    uint32_t longest_received; /* by a receive that did not wait */
    uint32_t most_held;        /* messages */
    uint32_t most_receiving;   /* tasks */
    size_t longest_line;
};

/* Adds a listing on which both players agree. False if it has not the form
 * that the paper gives it: a line for each record, numbered from 1. */
bool coverage_add(struct coverage *c, const struct script *s,
                  const char *listing, size_t length);

/* Prints the table. Gives the number of statuses outside their call's row. */
int coverage_print(const struct coverage *c);

#endif
