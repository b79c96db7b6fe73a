/* The same loop over the second program: plays a mix and prints the checksum of its answers. */
#include <stdio.h>
#include <stdint.h>
#include "kernel.h"

enum { MOST_RECORDS = 2340, NUMBERS = 7 };

static uint32_t record[MOST_RECORDS][NUMBERS];

static uint32_t number(const uint8_t *p)
{
    return p[0] | (uint32_t)p[1] << 8 | (uint32_t)p[2] << 16 | (uint32_t)p[3] << 24;
}

static uint32_t mixed(uint32_t sum, uint32_t x)
{
    return sum * 31u + x;
}

/* The size of a count below 0 goes in, as the other driver has it. */
static uint32_t size_of(int64_t v)
{
    return (uint32_t)(v < 0 ? -v : v);
}

static uint32_t summed(uint32_t sum, const struct answer *a)
{
    sum = mixed(mixed(sum, a->status), a->running);
    sum = mixed(mixed(sum, size_of(a->value[0])), size_of(a->value[1]));
    return mixed(mixed(sum, a->wakes), a->wakes ? a->wake[0].task : 0);
}

static uint32_t play(struct kernel *k, uint32_t from, uint32_t to, uint32_t checked, const struct lent *mix, uint32_t sum)
{
    struct answer a;
    for (uint32_t i = from; i < to; i++) {
        if (checked)
            kernel_step_checked(k, record[i][0], record[i][1], &record[i][2], mix, &a);
        else
            kernel_step(k, record[i][0], record[i][1], &record[i][2], mix, &a);
        sum = summed(sum, &a);
    }
    return sum;
}

int main(void)
{
    static uint8_t file[16 + MOST_RECORDS * NUMBERS * 4];
    size_t n = fread(file, 1, sizeof file, stdin);
    if (n < 16)
        return 1;
    uint32_t records = number(file), first = number(file + 4);
    uint32_t rounds = number(file + 8), checked = number(file + 12);
    if (records > MOST_RECORDS || 16 + (size_t)records * NUMBERS * 4 > n || first > records)
        return 1;
    for (uint32_t i = 0; i < records; i++)
        for (int j = 0; j < NUMBERS; j++)
            record[i][j] = number(file + 16 + (i * NUMBERS + j) * 4);
    /* Every step is lent the mix itself as its message, as the other driver has it. */
    const struct lent mix = { file, (uint32_t)n };
    static struct kernel k;
    kernel_fresh(&k, 5);
    uint32_t sum = play(&k, 0, first, checked, &mix, 0);
    static struct kernel again;
    again = k;
    for (uint32_t r = 0; r < rounds; r++) {
        k = again;
        sum = play(&k, first, records, checked, &mix, sum);
    }
    printf("%u\n", sum);
    return 0;
}
