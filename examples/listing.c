/*
 * Plays a script from C: the proved listing, linked from the library.
 *
 *   tools/prove exports_c
 *   gcc -O2 -I include examples/listing.c target/staticlib/libexports.a -o target/listing
 *   target/listing < stored/cases/nine.script
 */
#include <stdio.h>
#include <stdlib.h>

#include "dryswennol.h"

static uint8_t script[65537]; /* one byte more than a script may have */

int main(void)
{
    uint8_t none[1];
    size_t needed;
    size_t length = fread(script, 1, sizeof script, stdin);
    if (ferror(stdin))
        return 1;

    /* Nothing is lent, so nothing is written: this only asks how long it is. */
    dryswennol_listing(script, length, none, 0, &needed);
    uint8_t *listing = malloc(needed + 1);
    if (listing == NULL || dryswennol_listing(script, length, listing, needed, &needed) != DRYSWENNOL_OK)
        return 1;

    size_t written = fwrite(listing, 1, needed, stdout);
    free(listing);
    return written == needed && fflush(stdout) == 0 ? 0 : 1;
}
