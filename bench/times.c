/*
 * What a record costs the two players: the same scripts out of the same
 * memory, both listings into the same buffer, a pass of the one and a pass of
 * the other in turn, the first pair not counted, the least time of each.
 */
#define _POSIX_C_SOURCE 200809L
#include "players.h"

#include <stdio.h>
#include <stdlib.h>
#include <string.h>
#include <time.h>

#include "scripts.h"

enum { PASSES = 32, BATCH_RECORDS = 90000, PROFILE_SCRIPTS = 8 };

struct batch {
    uint8_t *bytes; /* scripts of one length, one behind the other */
    uint32_t scripts;
    uint32_t records; /* of each script */
};

static struct script script;
static uint8_t out[LISTING_ROOM];

uint64_t time_used(void)
{
    struct timespec t;

    clock_gettime(CLOCK_PROCESS_CPUTIME_ID, &t);
    return (uint64_t)t.tv_sec * UINT64_C(1000000000) + (uint64_t)t.tv_nsec;
}

static size_t script_bytes(const struct batch *b)
{
    return 16 + 28 * (size_t)b->records;
}

static struct batch batch_made(uint32_t scripts, uint32_t records)
{
    struct batch b = { NULL, scripts, records };

    b.bytes = malloc(scripts * script_bytes(&b));
    if (b.bytes == NULL) {
        perror("compare: no memory");
        exit(2);
    }
    return b;
}

static void batch_take(struct batch *b, uint32_t at)
{
    memcpy(b->bytes + at * script_bytes(b), script.bytes, script_bytes(b));
}

static uint64_t pass(player *play, const struct batch *b)
{
    uint64_t start = time_used();

    for (uint32_t i = 0; i < b->scripts; i++)
        play(b->bytes + i * script_bytes(b), script_bytes(b), out, sizeof out);
    return time_used() - start;
}

static double largest_ratio;

/* Prints a row, and gives the proved player's time. */
static double print_ratio(const char *name, const struct batch *b)
{
    uint64_t proved = UINT64_MAX, second = UINT64_MAX;
    double records = (double)b->scripts * b->records, ratio;

    for (int i = 0; i < PASSES; i++) {
        uint64_t one = pass(proved_player, b);
        uint64_t two = pass(second_player, b);

        if (i > 0 && one < proved)
            proved = one;
        if (i > 0 && two < second)
            second = two;
    }
    ratio = (double)proved / (double)second;
    if (ratio > largest_ratio)
        largest_ratio = ratio;
    printf("%-24s %8u %10.1f %10.1f %6.2f\n", name, b->records,
           (double)proved / records, (double)second / records, ratio);
    return (double)proved / records;
}

/* Scripts of all profiles alike, first and second and so on of each. */
static void time_all_profiles(uint32_t records)
{
    uint32_t profiles = script_profiles();
    uint32_t scripts = BATCH_RECORDS / records / profiles * profiles;
    struct batch b = batch_made(scripts, records);

    for (uint32_t i = 0; i < scripts; i++) {
        script_make_whole(&script, i, records);
        batch_take(&b, i);
    }
    print_ratio("all profiles", &b);
    free(b.bytes);
}

static double time_steady(uint32_t records)
{
    struct batch b = batch_made(BATCH_RECORDS / records, records);
    double time;

    script_make_steady(&script, records);
    for (uint32_t i = 0; i < b.scripts; i++)
        batch_take(&b, i);
    time = print_ratio("the same ten", &b);
    free(b.bytes);
    return time;
}

static void time_profile(uint32_t profile)
{
    struct batch b = batch_made(PROFILE_SCRIPTS, MOST_RECORDS);

    for (uint32_t i = 0; i < b.scripts; i++) {
        script_make_whole(&script, profile + i * script_profiles(),
                          MOST_RECORDS);
        batch_take(&b, i);
    }
    print_ratio(script.profile, &b);
    free(b.bytes);
}

void times_print(void)
{
    static const uint32_t lengths[] = { 10, 100, 1000, MOST_RECORDS };
    double steady[4];

    printf("%-24s %8s %10s %10s %6s\n", "ns a record", "records",
           "proved", "second", "ratio");
    for (int i = 0; i < 4; i++)
        steady[i] = time_steady(lengths[i]);
    for (int i = 0; i < 4; i++)
        time_all_profiles(lengths[i]);
    for (uint32_t profile = 0; profile < script_profiles(); profile++)
        time_profile(profile);
    printf("the same ten: a record among 2,340 takes the proved player %.2f "
           "times one among 10\n", steady[3] / steady[0]);
    printf("largest ratio %.2f\n", largest_ratio);
}
