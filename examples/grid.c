/*
 * A script's grant grid from C: a line for each cell that is not 0, with its task slot, its semaphore slot and the grants.
 *
 *   tools/prove exports_c
 *   gcc -O2 -I include examples/grid.c target/staticlib/libexports.a -o target/grid
 *   target/grid < examples/grant-grid.script
 */
#include <stdio.h>

#include "dryswennol.h"

static uint8_t script[65537]; /* one byte more than a script may have */
static uint16_t cells[512];

int main(void)
{
    size_t length = fread(script, 1, sizeof script, stdin);
    if (ferror(stdin))
        return 1;

    if (dryswennol_grid(script, length, cells, 512) == 0)
        puts("script refused");
    for (int task = 0; task < 32; task++)
        for (int semaphore = 0; semaphore < 16; semaphore++)
            if (cells[16 * task + semaphore] > 0)
                printf("%d %d %d\n", task, semaphore, cells[16 * task + semaphore]);
    return fflush(stdout) == 0 ? 0 : 1;
}
