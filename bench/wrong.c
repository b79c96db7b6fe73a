/*
 * Images made wrong: cut at every length, with each byte changed, mixed of
 * two, and bytes at random; of states that had most of something. "32 exactly
 * where the second program's own reader says so", and then every byte is left.
 */
#include <stdio.h>
#include <string.h>

#include "both.h"
#include "image.h"
#include "images.h"

enum {
    TASK = TASK_LENGTH, SEMAPHORE = SEMAPHORE_LENGTH, POOL = POOL_LENGTH,
    QUEUE = QUEUE_LENGTH
};

enum { MIXTURES = 5000, AT_RANDOM = 500, ANSWERS = 20000 };

static uint32_t number_of(const uint8_t *image, int from, int every, int many)
{
    uint32_t number = 0;

    for (int i = 0; i < many; i++)
        number += image[from + every * i] != 0;
    return number;
}

static uint32_t ready(const uint8_t *image)
{
    return number_of(image, READY_AT, 1, 32);
}

static uint32_t suspended(const uint8_t *image)
{
    return number_of(image, TASKS_AT + 8, TASK, 32);
}

/* The queue of a task's seat. */
static uint32_t queue_of(const uint8_t *image, int task)
{
    const uint8_t *seat = image + TASKS_AT + TASK * task + 14;

    return (seat[0] + 256u * seat[1]) / 64;
}

static uint32_t seated(const uint8_t *image, uint32_t from, uint32_t to)
{
    uint32_t number = 0;

    for (int i = 0; i < 32; i++)
        number += queue_of(image, i) >= from && queue_of(image, i) < to;
    return number;
}

static uint32_t claiming(const uint8_t *image)
{
    return seated(image, 1, 17);
}

static uint32_t receiving(const uint8_t *image)
{
    return seated(image, 17, 25);
}

static uint32_t objects(const uint8_t *image)
{
    return number_of(image, TASKS_AT + 6, TASK, 32)
         + number_of(image, SEMAPHORES_AT + 8, SEMAPHORE, 16)
         + number_of(image, POOLS_AT + 26, POOL, 8)
         + number_of(image, QUEUES_AT + 6, QUEUE, 8);
}

/* By their marks. */
static uint32_t buffers_out(const uint8_t *image)
{
    uint32_t number = 0;

    for (int pool = 0; pool < 8; pool++) {
        for (int i = 0; i < 8; i++)
            number += (uint32_t)__builtin_popcount(
                image[POOLS_AT + POOL * pool + i]);
    }
    return number;
}

static uint32_t held(const uint8_t *image)
{
    uint32_t number = 0;

    for (int i = 0; i < 8; i++)
        number += image[QUEUES_AT + QUEUE * i + 10];
    return number;
}

/* One image for each measure, that of which there was most. */
static struct {
    const char *what;
    uint32_t (*measure)(const uint8_t *image);
    uint32_t most;
    uint8_t image[IMAGE];
} kept[] = {
    { .what = "tasks ready", .measure = ready },
    { .what = "suspended", .measure = suspended },
    { .what = "claiming", .measure = claiming },
    { .what = "receiving", .measure = receiving },
    { .what = "objects", .measure = objects },
    { .what = "buffers out", .measure = buffers_out },
    { .what = "messages held", .measure = held },
};

enum { KEPT = sizeof kept / sizeof kept[0] };

void wrong_keep(const uint8_t *image)
{
    for (int i = 0; i < KEPT; i++) {
        uint32_t number = kept[i].measure(image);

        if (number <= kept[i].most)
            continue;
        kept[i].most = number;
        memcpy(kept[i].image, image, IMAGE);
    }
}

void images_print_kept(void)
{
    printf("made wrong: images with");
    for (int i = 0; i < KEPT; i++)
        printf("%s %u %s", i > 0 ? "," : "", kept[i].most, kept[i].what);
    printf("\n");
}

/* A call that finds something often enough. */
static struct record any_call(struct dice *d)
{
    struct record call = { roll(d, CALLS + 1), chance(d, 300), { 0 } };

    call.arg[0] = 64 * (1 + roll(d, 2)) + roll(d, 9);
    for (int i = 1; i < 5; i++)
        call.arg[i] = ONE_OF(d, 0, 0, 1, 1, 2, 9, 64, 4096, TOP);
    return call;
}

static const struct record filling[] = {
    { QUEUE_CREATE, 0, { 7, 16, 64, 1 } },
    { POOL_CREATE, 0, { 7, 0, 2048, 32 } },
    { SEM_CREATE, 0, { 7, 32767, 1 } },
    { TASK_CREATE, 0, { 7, 9 } },
};

/* A call of the row, with each slot's own address or identifier. */
static const char *fill_with(struct record call, uint32_t slot)
{
    uint8_t message[64];

    memset(message, (int)(1 + slot), sizeof message);
    if (call.number == POOL_CREATE)
        call.arg[1] = 4096 * slot;
    return both_step(&both, &call, message, sizeof message);
}

/* Every table full, every queue and every pool too: more than a script of the
 * profiles makes. */
static const char *fill(void)
{
    const char *trouble = NULL;

    both_lend(&both, IMAGE);
    if (!both_fresh(&both, 5))
        return "the fresh images differ";
    for (uint32_t i = 0; i < 32 * 4 && trouble == NULL; i++)
        trouble = fill_with(filling[i % 4], i / 4);
    for (uint32_t i = 0; i < 64 * 8 && trouble == NULL; i++)
        trouble = fill_with((struct record){
            POOL_GET_BUFF, 0, { 64 + i % 8 } }, i);
    for (uint32_t i = 0; i < 16 * 8 && trouble == NULL; i++)
        trouble = fill_with((struct record){
            i % 3 ? QUEUE_SEND : QUEUE_JUMP, 0, { 64 + i % 8, 64 } }, i);
    wrong_keep(both.image);
    return trouble;
}

static const char *step(const uint8_t *image, size_t length, struct dice *d,
                        struct image_counts *counts)
{
    static const uint8_t message[64] = "as long as a message may be";
    struct record call = any_call(d);
    const char *trouble;

    both_lend_bytes(&both, image, length);
    trouble = both_step_bytes(&both, &call, message, sizeof message);
    counts->accepted += length >= IMAGE
                     && both.answer->status != DRYSWENNOL_BAD_IMAGE;
    return trouble;
}

static const char *cut(const uint8_t *image, struct dice *d,
                       struct image_counts *counts)
{
    const char *trouble = NULL;

    for (size_t length = 0; length < IMAGE && trouble == NULL; length++) {
        trouble = step(image, length, d, counts);
        if (trouble == NULL && both.answer->status != DRYSWENNOL_BAD_IMAGE)
            trouble = "a cut image is not refused";
        counts->cut++;
    }
    return trouble;
}

static const char *bytes_changed(const uint8_t *image, struct dice *d,
                                 struct image_counts *counts)
{
    const char *trouble = NULL;
    uint8_t bytes[IMAGE];

    memcpy(bytes, image, IMAGE);
    for (uint32_t i = 0; i < IMAGE; i++) {
        const uint8_t to[] = { (uint8_t)(image[i] + 1),
                               (uint8_t)(image[i] - 1),
                               (uint8_t)(image[i] + 2),
                               (uint8_t)(image[i] ^ 128) };

        for (int j = 0; j < 4 && trouble == NULL; j++) {
            bytes[i] = to[j];
            trouble = step(bytes, IMAGE, d, counts);
            counts->changed++;
        }
        bytes[i] = image[i];
    }
    return trouble;
}

/* Bytes of one image in another, some of them elsewhere. */
static const char *mixed(struct dice *d, struct image_counts *counts)
{
    uint8_t bytes[IMAGE];

    memcpy(bytes, kept[roll(d, KEPT)].image, IMAGE);
    for (uint32_t left = 1 + roll(d, 3); left > 0; left--) {
        const uint8_t *from = kept[roll(d, KEPT)].image;
        uint32_t length = 1 + roll(d, 40), at = roll(d, IMAGE - length);
        uint32_t elsewhere = roll(d, IMAGE - length);

        memcpy(bytes + at, from + (chance(d, 500) ? at : elsewhere), length);
    }
    counts->changed++;
    return step(bytes, IMAGE, d, counts);
}

/* With a header at random, or as it should be. */
static const char *at_random(struct dice *d, struct image_counts *counts)
{
    uint32_t most = ONE_OF(d, 256, 256, 16, 2);
    uint8_t bytes[IMAGE + PAST];

    for (int i = 0; i < IMAGE + PAST; i++)
        bytes[i] = (uint8_t)roll(d, most);
    if (chance(d, 500))
        memcpy(bytes, kept[0].image, TASKS_AT);
    counts->changed++;
    return step(bytes, IMAGE + roll(d, PAST), d, counts);
}

/* "for any 236 bytes": numbers of all sizes, more than 32 woken. */
static bool any_line(struct dice *d)
{
    uint8_t *bytes = (uint8_t *)both.answer;
    uint32_t most = ONE_OF(d, 1, 2, 10, 256);

    for (size_t i = 0; i < sizeof *both.answer; i++)
        bytes[i] = chance(d, 300) ? (uint8_t)roll(d, most) : 0;
    if (chance(d, 500))
        both.answer->woken = roll(d, 35);
    return both_line(&both, roll_32(d), DRYSWENNOL_LINE_BYTES)
        && both_line(&both, roll_32(d), roll(d, DRYSWENNOL_LINE_BYTES));
}

const char *images_made_wrong(struct image_counts *counts)
{
    struct dice d = dice_of(1);
    const char *trouble = fill();

    for (int i = 0; i < KEPT && trouble == NULL; i++) {
        if (kept[i].most == 0)
            continue;
        trouble = cut(kept[i].image, &d, counts);
        if (trouble == NULL)
            trouble = bytes_changed(kept[i].image, &d, counts);
    }
    for (int i = 0; i < MIXTURES && trouble == NULL; i++)
        trouble = mixed(&d, counts);
    for (int i = 0; i < AT_RANDOM && trouble == NULL; i++)
        trouble = at_random(&d, counts);
    for (int i = 0; i < ANSWERS && trouble == NULL; i++, counts->lines++)
        trouble = any_line(&d) ? NULL : "the lines of any bytes differ";
    return trouble;
}
