/*
 * Steps through images. Each is done by the proved functions in memory that
 * ends at a page which nobody may touch, and by the second program's, and
 * afterwards all that was lent must be the same: answer, image, the bytes
 * past it, the message.
 */
#include "images.h"

#include <string.h>

#include "both.h"
#include "players.h"

enum { HEADER = 16, RECORD = 28, LENT = 64, SEND = 23, JUMP = 24 };

/* One line of so many is also put into rooms that it fits barely or not. */
enum { ROOMS_EVERY = 16 };

static uint8_t lines[LISTING_ROOM];

static uint32_t number_at(const uint8_t *bytes)
{
    return (uint32_t)bytes[0] | (uint32_t)bytes[1] << 8
         | (uint32_t)bytes[2] << 16 | (uint32_t)bytes[3] << 24;
}

static struct record call_of(const uint8_t *record)
{
    struct record call = { number_at(record), number_at(record + 4), { 0 } };

    for (int i = 0; i < 5; i++)
        call.arg[i] = number_at(record + 8 + 4 * i);
    return call;
}

/* The image's bytes and so many past them, which are to stay. */
static const char *begin(struct both *b, struct dice *d, uint32_t priority)
{
    size_t past = chance(d, 500) ? roll(d, PAST + 1) : 0;
    uint32_t cut = roll(d, IMAGE);

    both_lend(b, cut);
    if (!both_fresh(b, priority))
        return "fresh with little room";
    both_lend(b, IMAGE + past);
    return both_fresh(b, priority) ? NULL : "the fresh images differ";
}

/* "In a script the three arguments left are the first 12 bytes, the rest
 * zeros" */
static const char *play(struct both *b, const uint8_t *record, uint32_t number,
                        struct image_counts *counts, size_t *at)
{
    struct record call = call_of(record);
    uint8_t message[LENT] = { 0 };
    const char *trouble;
    size_t length;

    memcpy(message, record + 16, RECORD - 16);
    trouble = both_step(b, &call, message, LENT);
    if (trouble != NULL)
        return trouble;
    if (!both_line(b, number, DRYSWENNOL_LINE_BYTES))
        return "the lines differ";
    length = b->line_length;
    memcpy(lines + *at, b->line, length);
    *at += length;
    if (number % ROOMS_EVERY != 0)
        return NULL;
    counts->rooms += 3;
    return both_line(b, number, length) && both_line(b, number, length - 1)
        && both_line(b, number, 0) ? NULL : "the lines differ by room";
}

/* As many bytes lent as the length says, one less, or some other number; of
 * the lengths some are changed too. */
static size_t other_message(struct dice *d, struct record *call,
                            uint8_t message[PAST])
{
    bool sends = call->number == SEND || call->number == JUMP;
    uint32_t length;

    if (sends && chance(d, 100))
        call->arg[1] = ONE_OF(d, 0, 1, 12, 13, 63, 64, 65, 255, 256, 260, TOP);
    length = call->arg[1];
    for (uint32_t i = 0; i < PAST; i++)
        message[i] = (uint8_t)roll(d, 256);
    if (sends && length <= PAST && chance(d, 600))
        return length;
    if (sends && length > 0 && length <= PAST && chance(d, 200))
        return length - 1;
    return ONE_OF(d, 0, 1, 12, 63, LENT, LENT, LENT, LENT + 1, PAST);
}

static const char *play_other(struct both *b, const uint8_t *record,
                              struct dice *d)
{
    struct record call = call_of(record);
    uint8_t message[PAST];
    size_t length = other_message(d, &call, message);

    return both_step(b, &call, message, length);
}

static void note(const struct both *b, struct image_counts *counts)
{
    static const uint8_t nothing[LENT];

    counts->refused += b->answer->status > DRYSWENNOL_PENDING;
    counts->shown += memcmp(b->answer->message, nothing, LENT) != 0;
}

static const char *as_it_is(struct both *b, const uint8_t *script,
                            struct dice *d, const uint8_t *listing,
                            size_t length, struct image_counts *counts)
{
    const uint8_t *record = script + number_at(script + 4);
    uint32_t records = number_at(script);
    const char *trouble = begin(b, d, number_at(script + 8));
    size_t at = 0;

    for (uint32_t i = 0; i < records && trouble == NULL; i++) {
        trouble = play(b, record + RECORD * i, i + 1, counts, &at);
        note(b, counts);
        counts->records++;
        if (trouble == NULL)
            wrong_keep(b->image);
    }
    if (trouble == NULL
        && (at != length || memcmp(lines, listing, length) != 0))
        return "the lines of the steps are not the listing";
    return trouble;
}

static const char *otherwise(struct both *b, const uint8_t *script,
                             struct dice *d, struct image_counts *counts)
{
    const uint8_t *record = script + number_at(script + 4);
    uint32_t records = number_at(script), priority = number_at(script + 8);
    const char *trouble;

    if (chance(d, 100))
        priority = ONE_OF(d, 15, 16, 17, 255, 256, 1u << 31, TOP);
    trouble = begin(b, d, priority);
    for (uint32_t i = 0; i < records && trouble == NULL; i++) {
        trouble = play_other(b, record + RECORD * i, d);
        note(b, counts);
        counts->others++;
        if (trouble == NULL)
            wrong_keep(b->image);
    }
    return trouble;
}

const char *images_of_script(const uint8_t *script, uint64_t seed,
                             const uint8_t *listing, size_t length,
                             struct image_counts *counts)
{
    struct dice d = dice_of(seed ^ UINT64_C(0x5eed));
    const char *trouble;

    if (length > 0 && listing[0] == 's') /* script refused */
        return NULL;
    counts->rooms++;
    trouble = as_it_is(&both, script, &d, listing, length, counts);
    if (trouble == NULL)
        trouble = otherwise(&both, script, &d, counts);
    return trouble;
}
