/*
 * Compares the proved player with the second program, in one process: whole
 * listings of generated scripts, length and bytes, and their grant grids;
 * or the steps of their records, through images.
 *
 *     compare FIRST_SEED SCRIPTS            so many scripts
 *     compare --records FIRST_SEED RECORDS  scripts until so many records
 *     compare --images FIRST_SEED RECORDS [FILE..]   the same stepped, of
 *                                           these files and of seeds
 *     compare --times                       what a record costs
 *     compare --script SEED                 writes a script, to play it alone
 */
#include <inttypes.h>
#include <stdio.h>
#include <stdlib.h>
#include <string.h>

#include "coverage.h"
#include "dryswennol.h"
#include "grids.h"
#include "images.h"
#include "lent.h"
#include "players.h"
#include "script.h"
#include "scripts.h"

/* One of so many scripts is also played into rooms of several sizes. The
 * numbers have no factor in common with the turns that the profiles take, so
 * that all are met; short scripts, which cost little, come more often. */
enum { ROOMS_EVERY = 32, SHORT_ROOMS_EVERY = 4, SHORT_SCRIPT = 3000 };

struct run {
    struct script script;
    struct ground script_ground;
    struct ground out_ground;
    uint8_t *lent; /* the script, where the players read it */
    const char *doing;
    struct coverage coverage;
    uint64_t scripts;
    uint64_t damaged;
    uint64_t bytes;
    uint64_t rooms;
    uint64_t cells;  /* of grids, not 0 */
    uint64_t grants; /* in them */
    uint64_t proved_time;
    uint64_t second_time;
};

static struct run run;
static uint8_t proved[LISTING_ROOM];
static uint8_t second[LISTING_ROOM];

size_t proved_player(const uint8_t *script, size_t length, uint8_t *out,
                     size_t room)
{
    size_t told = 0;
    uint32_t status = dryswennol_listing(script, length, out, room, &told);

    return status == (told <= room ? DRYSWENNOL_OK : DRYSWENNOL_NO_ROOM)
        ? told : 0;
}

size_t second_player(const uint8_t *script, size_t length, uint8_t *out,
                     size_t room)
{
    return script_listing(script, length, 1, (char *)out, room);
}

/* The line in which a byte stands, without its end. */
static void print_line(const char *who, const uint8_t *listing, size_t length,
                       size_t at)
{
    size_t start = at < length ? at : length, end = start;

    while (start > 0 && listing[start - 1] != '\n')
        start--;
    while (end < length && listing[end] != '\n')
        end++;
    printf("  %s: %.*s%s\n", who, (int)(end - start),
           (const char *)listing + start, start == length ? "(no line)" : "");
}

static void fail(const char *what)
{
    printf("DIFFERENCE at seed %" PRIu64 ", profile %s: %s\n",
           run.script.seed, run.script.profile, what);
    printf("  compare --script %" PRIu64 " writes this script\n",
           run.script.seed);
    exit(1);
}

static void fail_by_listings(size_t proved_length, size_t second_length)
{
    size_t at = 0, record = 1;

    while (at < proved_length && at < second_length && proved[at] == second[at])
        record += proved[at++] == '\n';
    printf("listings differ: record %zu, byte %zu of %zu and %zu\n", record,
           at, proved_length, second_length);
    print_line("proved", proved, proved_length, at);
    print_line("second", second, second_length, at);
    fail("the listings differ");
}

static size_t timed(player *play, uint8_t *out, uint64_t *sum,
                    const char *doing)
{
    uint64_t start = time_used();
    size_t length;

    run.doing = doing;
    length = play(run.lent, run.script.length, out, LISTING_ROOM);
    *sum += time_used() - start;
    return length;
}

static size_t play_proved(void)
{
    return timed(proved_player, proved, &run.proved_time,
                 "the proved player");
}

static size_t play_second(void)
{
    return timed(second_player, second, &run.second_time,
                 "the second program");
}

/* "31 NO_ROOM exactly if a slice lent for ... listing is shorter than needed,
 * nothing written", and its length told: into marked room, of which nothing
 * else may have been touched. */
static void play_into(size_t room, size_t length)
{
    uint8_t *out = lend_marked(&run.out_ground, room);
    bool fits = length <= room;
    size_t answer;

    run.doing = "the proved player with little room";
    answer = proved_player(run.lent, run.script.length, out, room);
    run.rooms++;
    if (answer != length) {
        printf("room %zu, answer %zu, listing %zu\n", room, answer, length);
        fail("another length with another room");
    }
    if (fits && memcmp(out, second, length) != 0)
        fail("another listing with another room");
    if (!still_marked(&run.out_ground, fits ? out + length : out))
        fail(fits ? "bytes written behind the listing"
                  : "bytes written though the listing does not fit");
    if (!marked_before(out))
        fail("bytes written before the room");
}

static void play_into_rooms(size_t length)
{
    struct dice d = dice_of(~run.script.seed);

    play_into(length, length);
    play_into(length + 1, length);
    play_into(length + roll(&d, 2000), length);
    play_into(roll(&d, (uint32_t)length + 1), length);
    play_into(0, length);
    if (length > 0)
        play_into(length - 1, length);
}

/* The second program's checked steps must tell the same as its others. */
static void play_checked(size_t length)
{
    static uint8_t checked[LISTING_ROOM];
    size_t answer;

    run.doing = "the second program, its state tested";
    answer = script_listing(run.lent, run.script.length, 0, (char *)checked,
                            sizeof checked);
    if (answer != length || memcmp(checked, second, length) != 0)
        fail("the second program differs from itself when it tests its state");
}

static bool has_its_turn(void)
{
    bool is_short = run.script.length < SHORT_SCRIPT;

    return run.script.seed % (is_short ? SHORT_ROOMS_EVERY : ROOMS_EVERY) == 0;
}

static void compare_script(void)
{
    const struct script *s = &run.script;
    bool proved_first = s->seed % 2 == 0;
    size_t one = 0, two;

    run.lent = lend_marked(&run.script_ground, s->length);
    memcpy(run.lent, s->bytes, s->length);
    if (proved_first)
        one = play_proved();
    two = play_second();
    if (!proved_first)
        one = play_proved();
    run.doing = "the comparison";
    if (one != two || memcmp(proved, second, two) != 0)
        fail_by_listings(one, two);
    if (!coverage_add(&run.coverage, s, (const char *)second, two))
        fail("both listings have not the paper's form");
    run.doing = "the grids";
    if (!grids_agree(run.lent, s->length, &run.cells, &run.grants))
        fail("the grids differ");
    if (has_its_turn()) {
        play_into_rooms(two);
        play_checked(two);
    }
    if (memcmp(run.lent, s->bytes, s->length) != 0 || !marked_before(run.lent))
        fail("the script was changed");
    run.bytes += two;
}

static int print_results(uint64_t first)
{
    const struct coverage *c = &run.coverage;
    double records = c->records > 0 ? (double)c->records : 1;
    int outside;

    printf("seeds %" PRIu64 " to %" PRIu64 ", %u profiles and damage in turn\n",
           first, first + run.scripts - 1, script_profiles());
    printf("scripts %" PRIu64 ", of them damaged %" PRIu64 ", refused %" PRIu64
           "\n", run.scripts, run.damaged, c->refused);
    printf("records %" PRIu64 ", bytes compared %" PRIu64
           ", rooms of other sizes %" PRIu64 "\n", c->records, run.bytes,
           run.rooms);
    printf("grids: cells that are not 0 %" PRIu64 ", grants in them %" PRIu64
           "\n", run.cells, run.grants);
    outside = coverage_print(c);
    printf("over the run: proved %.1f ns a record, second %.1f, ratio %.2f\n",
           (double)run.proved_time / records,
           (double)run.second_time / records,
           (double)run.proved_time / (double)run.second_time);
    printf("differences 0\n");
    return outside > 0;
}

static void begin(void)
{
    run.script_ground = ground_made(SCRIPT_ROOM);
    run.out_ground = ground_made(LISTING_ROOM);
#ifndef __SANITIZE_ADDRESS__
    say_if_stopped(&run.script.seed, &run.doing);
#endif
}

static int compare(uint64_t first, uint64_t scripts, uint64_t records)
{
    begin();
    while (run.scripts < scripts && run.coverage.records < records) {
        run.doing = "the generator";
        script_make(&run.script, first + run.scripts);
        compare_script();
        run.scripts++;
        run.damaged += run.script.damaged;
    }
    return print_results(first);
}

/* The listing that both players give. */
static size_t listed(void)
{
    size_t one, two;

    run.lent = lend_marked(&run.script_ground, run.script.length);
    memcpy(run.lent, run.script.bytes, run.script.length);
    one = play_proved();
    two = play_second();
    if (one != two || memcmp(proved, second, two) != 0)
        fail_by_listings(one, two);
    return two;
}

static void step_script(struct image_counts *counts)
{
    size_t length = listed();
    const char *trouble;

    run.doing = "the steps";
    trouble = images_of_script(run.lent, run.script.seed, second, length,
                               counts);
    if (trouble != NULL)
        fail(trouble);
    run.scripts++;
}

static void step_file(const char *name, struct image_counts *counts)
{
    FILE *from = fopen(name, "rb");

    if (from == NULL) {
        perror(name);
        exit(2);
    }
    run.script.profile = name;
    run.script.seed = 0;
    run.script.length = fread(run.script.bytes, 1, SCRIPT_ROOM, from);
    fclose(from);
    step_script(counts);
}

static int print_images(uint64_t first, int files,
                        const struct image_counts *c)
{
    printf("stored scripts %d, and seeds from %" PRIu64 " on: scripts %" PRIu64
           "\n", files, first, run.scripts);
    printf("records stepped %" PRIu64 ", with other messages %" PRIu64
           "; refused %" PRIu64 ", messages shown %" PRIu64 "\n", c->records,
           c->others, c->refused, c->shown);
    printf("other rooms %" PRIu64 ", images cut %" PRIu64 ", changed %" PRIu64
           ", of them still images %" PRIu64 ", lines of any bytes %" PRIu64
           "\n", c->rooms, c->cut, c->changed, c->accepted, c->lines);
    images_print_kept();
    printf("differences 0\n");
    return 0;
}

static int step_all(uint64_t first, uint64_t records, char **file, int files)
{
    static struct image_counts counts;
    const char *trouble;

    begin();
    images_begin();
    for (int i = 0; i < files; i++)
        step_file(file[i], &counts);
    for (uint64_t seed = first; counts.records < records; seed++) {
        run.doing = "the generator";
        script_make(&run.script, seed);
        step_script(&counts);
    }
    run.doing = run.script.profile = "images made wrong";
    trouble = images_made_wrong(&counts);
    if (trouble != NULL)
        fail(trouble);
    return print_images(first, files, &counts);
}

static int write_script(uint64_t seed)
{
    size_t length;

    script_make(&run.script, seed);
    length = run.script.length;
    return fwrite(run.script.bytes, 1, length, stdout) != length;
}

static bool number_of(const char *text, uint64_t *number)
{
    char *end;

    *number = strtoull(text, &end, 10);
    return *text >= '0' && *text <= '9' && *end == 0;
}

int main(int argc, char **argv)
{
    uint64_t one = 0, two = 0;

    if (argc == 2 && strcmp(argv[1], "--times") == 0) {
        times_print();
        return 0;
    }
    if (argc == 3 && strcmp(argv[1], "--script") == 0
        && number_of(argv[2], &one))
        return write_script(one);
    if (argc == 3 && number_of(argv[1], &one) && number_of(argv[2], &two))
        return compare(one, two, UINT64_MAX);
    if (argc == 4 && strcmp(argv[1], "--records") == 0
        && number_of(argv[2], &one) && number_of(argv[3], &two))
        return compare(one, UINT64_MAX, two);
    if (argc >= 4 && strcmp(argv[1], "--images") == 0
        && number_of(argv[2], &one) && number_of(argv[3], &two))
        return step_all(one, two, argv + 4, argc - 4);
    fprintf(stderr, "usage: compare FIRST_SEED SCRIPTS\n"
                    "       compare --records FIRST_SEED RECORDS\n"
                    "       compare --images FIRST_SEED RECORDS [FILE..]\n"
                    "       compare --times\n"
                    "       compare --script SEED\n");
    return 2;
}
