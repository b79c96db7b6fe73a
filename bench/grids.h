/* The grant grids of both players. */
#ifndef GRIDS_H
#define GRIDS_H

#include <stdbool.h>
#include <stddef.h>
#include <stdint.h>

/* Whether the proved player's grid of a script is the second program's, and
 * nothing else was written; adds the cells that are not 0 and their grants. */
bool grids_agree(const uint8_t *script, size_t length, uint64_t *cells,
                 uint64_t *grants);

#endif
