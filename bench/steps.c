/*
 * The loop of run over images: plays a mix through the exported step and prints the checksum of its answers and of the last image. Made twice, with
 * FRESH and STEP the proved functions and the second program's.
 */
#include <stdio.h>
#include <string.h>

#include "exports.h"

enum { MOST_RECORDS = 2340, NUMBERS = 7, IMAGE = DRYSWENNOL_IMAGE_BYTES };

static uint8_t file[16 + MOST_RECORDS * NUMBERS * 4];
static uint32_t record[MOST_RECORDS][NUMBERS];
static uint8_t image[IMAGE], again[IMAGE];

static uint32_t number(const uint8_t *p)
{
    return p[0] | (uint32_t)p[1] << 8 | (uint32_t)p[2] << 16 | (uint32_t)p[3] << 24;
}

static uint32_t mixed(uint32_t sum, uint32_t x)
{
    return sum * 31u + x;
}

static uint32_t summed(uint32_t sum, const dryswennol_answer *a)
{
    sum = mixed(mixed(sum, a->status), a->running);
    sum = mixed(mixed(sum, a->values[0]), a->values[1]);
    return mixed(mixed(mixed(sum, a->woken), a->wakes[0]), a->message[63]);
}

/* Every step is lent the mix itself as its message. */
static uint32_t play(uint32_t from, uint32_t to, size_t length, uint32_t sum)
{
    dryswennol_answer a;

    for (uint32_t i = from; i < to; i++) {
        const uint32_t *r = record[i];

        STEP(image, IMAGE, file, length, &a, r[0], r[1], r[2], r[3], r[4], r[5], r[6]);
        sum = summed(sum, &a);
    }
    return sum;
}

int main(void)
{
    size_t n = fread(file, 1, sizeof file, stdin);
    uint32_t records = n < 16 ? 0 : number(file), first = number(file + 4), rounds = number(file + 8);

    if (records > MOST_RECORDS || 16 + (size_t)records * NUMBERS * 4 > n || first > records)
        return 1;
    for (uint32_t i = 0; i < records; i++)
        for (int j = 0; j < NUMBERS; j++)
            record[i][j] = number(file + 16 + (i * NUMBERS + j) * 4);
    FRESH(5, image, IMAGE);
    uint32_t sum = play(0, first, n, 0);
    memcpy(again, image, IMAGE);
    for (uint32_t r = 0; r < rounds; r++) {
        memcpy(image, again, IMAGE);
        sum = play(first, records, n, sum);
    }
    for (int i = 0; i < IMAGE; i++)
        sum = mixed(sum, image[i]);
    printf("%u\n", sum);
    return 0;
}
