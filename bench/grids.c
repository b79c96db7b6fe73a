/*
 * The proved player's grant grid, as numbers in lent cells, against the
 * second program's, which is a line for each cell that is not 0.
 */
#include "grids.h"

#include <stdio.h>
#include <stdlib.h>
#include <string.h>

#include "dryswennol.h"
#include "script.h"

enum { CELLS = 512, ROOM = CELLS + 8, LINES = CELLS * 24 + 16, MARK = 0xa5a5 };

/* The second program's cells by slot; false where the script is refused. */
static bool second_cells(const uint8_t *script, size_t length, uint16_t *cells)
{
    static char lines[LINES + 1];
    size_t written = script_grid(script, length, 1, lines, LINES);
    char *at = lines;

    lines[written < LINES ? written : LINES] = 0;
    if (strcmp(lines, "script refused\n") == 0)
        return false;
    while (*at != 0) {
        unsigned long task = strtoul(at, &at, 10);
        unsigned long semaphore = strtoul(at, &at, 10);

        cells[task % 64 * 16 + semaphore % 64] =
            (uint16_t)strtoul(at, &at, 10);
        at += *at == '\n';
    }
    return true;
}

bool grids_agree(const uint8_t *script, size_t length, uint64_t *cells,
                 uint64_t *grants)
{
    uint16_t proved[ROOM], expected[ROOM];
    bool plays;

    for (size_t i = 0; i < ROOM; i++)
        proved[i] = expected[i] = MARK;
    if (dryswennol_grid(script, length, proved, CELLS - 1) != 0
        || memcmp(proved, expected, sizeof proved) != 0)
        return false;
    memset(expected, 0, CELLS * sizeof expected[0]);
    plays = second_cells(script, length, expected);
    for (size_t i = 0; i < CELLS && !plays; i++)
        expected[i] = MARK;
    if (dryswennol_grid(script, length, proved, ROOM) != (plays ? CELLS : 0)
        || memcmp(proved, expected, sizeof proved) != 0)
        return false;
    for (size_t i = 0; i < CELLS && plays; i++) {
        *cells += expected[i] != 0;
        *grants += expected[i];
    }
    return true;
}
