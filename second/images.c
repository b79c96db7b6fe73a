/*
 * Images of states: images SCRIPT.. plays scripts and writes and reads each
 * state on the way, and plays them step by step as C is to. One image by hand,
 * number for number. Images cut, with a byte changed, with several, and bytes
 * at random: 32, or the state read writes those very bytes.
 */
#include <stdio.h>
#include <stdlib.h>
#include <string.h>

#include "exports.h"
#include "image.h"
#include "script.h"

enum { PAST = 24, FILLER = 0xa5 };

/* Room for an image and some bytes past it. */
struct sheet {
    uint8_t byte[IMAGE_BYTES + PAST];
};

static void fail(const char *what, const char *where)
{
    fprintf(stderr, "images: %s: %s\n", where, what);
    exit(1);
}

static void demand(bool good, const char *what, const char *where)
{
    if (!good)
        fail(what, where);
}

static bool semaphores_are_one(const struct semaphore *one,
                               const struct semaphore *other)
{
    return one->count == other->count && one->options == other->options
        && one->queue.first == other->queue.first
        && one->queue.last == other->queue.last;
}

static bool pools_are_one(const struct pool *one, const struct pool *other)
{
    return one->out == other->out && one->address == other->address
        && one->length == other->length && one->size == other->size
        && one->buffers == other->buffers && one->options == other->options
        && memcmp(one->free_order, other->free_order, BUFFERS) == 0;
}

/* Where the ring of messages begins is no part of the paper's state. */
static bool queues_are_one(const struct queue *one, const struct queue *other)
{
    for (uint32_t i = 0; i < MESSAGES; i++) {
        if (memcmp(&one->message[(one->first + i) % MESSAGES],
                   &other->message[(other->first + i) % MESSAGES],
                   sizeof one->message[0]) != 0)
            return false;
    }
    return one->most == other->most && one->longest == other->longest
        && one->options == other->options && one->held == other->held
        && one->waiters.first == other->waiters.first
        && one->waiters.last == other->waiters.last;
}

/* A struct that grew has a field that the two above do not compare. */
_Static_assert(sizeof(struct pool) == 88 && sizeof(struct queue) == 1047,
               "every field is compared");

/* Tables, tasks and rows have nothing between their fields. */
static bool rows_are_one(const struct kernel *one, const struct kernel *other)
{
    return memcmp(one->ready, other->ready, sizeof one->ready) == 0
        && one->ready_priorities == other->ready_priorities
        && one->running_time_outs == other->running_time_outs
        && memcmp(&one->task_table, &other->task_table,
                  sizeof one->task_table) == 0
        && memcmp(&one->semaphore_table, &other->semaphore_table,
                  sizeof one->semaphore_table) == 0
        && memcmp(&one->pool_table, &other->pool_table,
                  sizeof one->pool_table) == 0
        && memcmp(&one->queue_table, &other->queue_table,
                  sizeof one->queue_table) == 0
        && memcmp(one->task, other->task, sizeof one->task) == 0;
}

static bool states_are_one(const struct kernel *one,
                           const struct kernel *other)
{
    bool same = rows_are_one(one, other);

    for (int i = 0; i < SEMAPHORES; i++)
        same = same && semaphores_are_one(&one->semaphore[i],
                                          &other->semaphore[i]);
    for (int i = 0; i < POOLS; i++)
        same = same && pools_are_one(&one->pool[i], &other->pool[i]);
    for (int i = 0; i < QUEUES; i++)
        same = same && queues_are_one(&one->queue[i], &other->queue[i]);
    return same;
}

static bool is_filler(const uint8_t *byte, size_t number)
{
    while (number > 0 && byte[number - 1] == FILLER)
        number--;
    return number == 0;
}

/* "bytes past it are ignored and kept"; "31 NO_ROOM exactly if a slice lent
 * for an image ... is shorter than needed, nothing written" */
static void write_state(const struct kernel *k, struct sheet *s,
                        const char *where)
{
    memset(s->byte, FILLER, sizeof s->byte);
    demand(image_write(k, s->byte, IMAGE_BYTES - 1) == NO_ROOM
           && image_write(k, s->byte, 0) == NO_ROOM, "no 31", where);
    demand(is_filler(s->byte, sizeof s->byte), "written with 31", where);
    demand(image_write(k, s->byte, sizeof s->byte) == OK, "not written",
           where);
    demand(is_filler(s->byte + IMAGE_BYTES, PAST), "bytes past not kept",
           where);
}

/* One state for each measure, that of which there was most. */
struct sample {
    uint32_t (*measure)(const struct kernel *k);
    uint32_t most;
    struct kernel state;
};

static uint32_t tasks_that(const struct kernel *k, enum wait waiting,
                           bool suspended)
{
    uint32_t number = 0;

    for (int i = 0; i < TASKS; i++)
        number += k->task[i].waiting == waiting && k->task[i].started
               && k->task[i].suspended == suspended;
    return number;
}

static uint32_t ready(const struct kernel *k)
{
    return tasks_that(k, NOT_WAITING, false);
}

static uint32_t suspended(const struct kernel *k)
{
    return tasks_that(k, NOT_WAITING, true) + tasks_that(k, ON_SEMAPHORE, true)
         + tasks_that(k, ON_QUEUE, true);
}

static uint32_t claimers(const struct kernel *k)
{
    return tasks_that(k, ON_SEMAPHORE, false);
}

static uint32_t receivers(const struct kernel *k)
{
    return tasks_that(k, ON_QUEUE, false);
}

static uint32_t messages(const struct kernel *k)
{
    uint32_t number = 0;

    for (int i = 0; i < QUEUES; i++)
        number += k->queue[i].held;
    return number;
}

static uint32_t buffers_out(const struct kernel *k)
{
    uint32_t number = 0;

    for (int i = 0; i < POOLS; i++)
        number += (uint32_t)__builtin_popcountll(k->pool[i].out);
    return number;
}

static uint32_t live(const struct kernel *k)
{
    return (uint32_t)(__builtin_popcount(k->task_table.live)
                      + __builtin_popcount(k->semaphore_table.live)
                      + __builtin_popcount(k->pool_table.live)
                      + __builtin_popcount(k->queue_table.live));
}

static uint32_t serials(const struct kernel *k)
{
    uint32_t number = 0;

    for (int i = 0; i < TABLE_ROOM; i++)
        number += (uint32_t)k->task_table.serial[i] + k->pool_table.serial[i]
                + k->semaphore_table.serial[i] + k->queue_table.serial[i];
    return number;
}

static struct sample samples[] = {
    { .measure = ready },     { .measure = suspended },
    { .measure = claimers },  { .measure = receivers },
    { .measure = messages },  { .measure = buffers_out },
    { .measure = live },      { .measure = serials },
};

enum { SAMPLES = sizeof samples / sizeof samples[0] };

static void take_samples(const struct kernel *k)
{
    for (int i = 0; i < SAMPLES; i++) {
        uint32_t number = samples[i].measure(k);

        if (number > samples[i].most) {
            samples[i].most = number;
            samples[i].state = *k;
        }
    }
}

static long states;

/* Writes a state, reads it back, writes again and goes on with what was
 * read. */
static void through_an_image(struct kernel *k, void *with)
{
    const char *where = with;
    struct sheet first, again;
    struct kernel read;

    write_state(k, &first, where);
    demand(image_read(&read, first.byte, sizeof first.byte) == OK,
           "not read", where);
    demand(image_read(&read, first.byte, IMAGE_BYTES) == OK,
           "not read without bytes past it", where);
    demand(states_are_one(k, &read), "another state is read", where);
    write_state(&read, &again, where);
    demand(memcmp(&first, &again, sizeof first) == 0,
           "another image of the state read", where);
    take_samples(k);
    states++;
    *k = read;
}

static uint32_t number_at(const uint8_t *bytes)
{
    return (uint32_t)bytes[0] | (uint32_t)bytes[1] << 8
         | (uint32_t)bytes[2] << 16 | (uint32_t)bytes[3] << 24;
}

/* A record's step on the image, and its line. */
static size_t step(struct sheet *s, const uint8_t *record, uint32_t number,
                   uint8_t *out, const char *where)
{
    uint8_t message[MESSAGE_BYTES] = { 0 };
    dryswennol_answer answer;
    uint32_t word[7];
    size_t length;

    for (int i = 0; i < 7; i++)
        word[i] = number_at(record + 4 * i);
    memcpy(message, record + 16, 12);
    demand(second_step(s->byte, sizeof s->byte, message, sizeof message,
                       &answer, word[0], word[1], word[2], word[3], word[4],
                       word[5], word[6]) == answer.status,
           "another status given", where);
    demand(second_line(number, &answer, out, MOST_LINE, &length) == OK,
           "no line", where);
    return length;
}

/* Step by step as C does: the lines are the listing. */
static void play_steps(const uint8_t *script, const char *listing,
                       size_t length, const char *name)
{
    static uint8_t lines[MOST_LISTING];
    uint32_t records = number_at(script), offset = number_at(script + 4);
    struct sheet s;
    size_t at = 0;

    if (length > 0 && listing[0] == 's') /* script refused */
        return;
    memset(s.byte, FILLER, sizeof s.byte);
    demand(second_fresh(number_at(script + 8), s.byte, IMAGE_BYTES - 1)
               == NO_ROOM && is_filler(s.byte, sizeof s.byte),
           "no 31 for fresh", name);
    demand(second_fresh(number_at(script + 8), s.byte, sizeof s.byte) == OK,
           "no fresh image", name);
    for (uint32_t i = 0; i < records; i++)
        at += step(&s, script + offset + RECORD_BYTES * i, i + 1, lines + at,
                   name);
    demand(at == length && memcmp(lines, listing, length) == 0,
           "another listing, step by step", name);
    demand(is_filler(s.byte + IMAGE_BYTES, PAST), "bytes past not kept", name);
}

static void play(char *name)
{
    static uint8_t script[MOST_SCRIPT + 1];
    static char plain[MOST_LISTING], between[MOST_LISTING];
    const struct between images = { through_an_image, name };
    FILE *from = fopen(name, "rb");
    size_t length, written;

    demand(from != NULL, "cannot be read", name);
    length = fread(script, 1, sizeof script, from);
    fclose(from);
    written = script_listing(script, length, 1, plain, sizeof plain);
    demand(written <= sizeof plain
           && script_listing_between(script, length, 1, images, between,
                                     sizeof between) == written
           && memcmp(plain, between, written) == 0,
           "another listing, with images between the records", name);
    play_steps(script, plain, written, name);
}

/* What an image may be: of one state, which writes it. True if it is. */
static bool is_met(const uint8_t *bytes, const char *where)
{
    static const struct kernel zero;
    static struct kernel read;
    uint8_t again[IMAGE_BYTES];
    uint32_t status;

    read = zero;
    status = image_read(&read, bytes, IMAGE_BYTES);
    if (status == BAD_IMAGE) {
        demand(memcmp(&read, &zero, sizeof read) == 0,
               "32, and a state is given", where);
        return false;
    }
    demand(status == OK, "neither 0 nor 32", where);
    demand(image_write(&read, again, sizeof again) == OK
           && memcmp(again, bytes, IMAGE_BYTES) == 0,
           "read, and it is not what the state writes", where);
    return true;
}

/* By the running task: 65 and 66 wait for semaphore 64, 67 receives and is
 * suspended, with another priority than it joined with, 68 is not started, 133
 * and 70 are ready behind 64, and slot 7 had a task. Buffer 1 of pool 64 is
 * out, and buffer 2 has been free longer than buffer 0. Queue 64 holds a
 * message of 0 bytes, which jumped in front of one of 3. */
static const uint32_t history[][6] = {
    { 8, 0x0a0b0c0d, 0, 1 }, { 8, 2, 32767, 0 },
    { 1, 17, 9 }, { 4, 65 }, { 11, 64, 0, 3 },
    { 1, 18, 8 }, { 4, 66 }, { 11, 64, 0, FOREVER },
    { 20, 3, 2, 64, 0 }, { 20, 4, 16, 1, 1 },
    { 1, 19, 15 }, { 4, 67 }, { 25, 65, 0, 65535 }, { 5, 67 }, { 7, 67, 4 },
    { 1, 20, 1 }, { 1, 21, 1 }, { 2, 69 }, { 1, 22, 5 }, { 4, 133 },
    { 1, 24, 3 }, { 4, 70 }, { 1, 23, 2 }, { 2, 71 },
    { 14, 5, 4096, 100, 32, 1 }, { 17, 64 }, { 17, 64 }, { 18, 64, 4096 },
    { 23, 64, 3 }, { 24, 64, 0 },
};

struct number {
    uint32_t place;
    uint32_t bytes;
    uint64_t is;
};

/* The page's places, written here once more: what image.h adds up, from the
 * lengths of the records that it has from the page, must be these. */
_Static_assert(TASKS_AT == 40 && SEMAPHORES_AT == 584 && POOLS_AT == 744
               && QUEUES_AT == 1480 && READY_AT == 9888 && IMAGE_BYTES == 9920,
               "docs/IMAGE.md, the parts of an image");

/* The places of pool i, of queue i and of the ready order. */
#define P(i, place) (POOLS_AT + (i) * POOL_LENGTH + (place))
#define Q(i, place) (QUEUES_AT + (i) * QUEUE_LENGTH + (place))
#define R(place) (READY_AT + (place))

/* Its image, by the page's places: all that is not zero. */
static const struct number page[] = {
    { 0, 4, 1 }, { 4, 4, IMAGE_BYTES }, { 8, 4, 32 }, { 12, 4, 40 },
    { 16, 4, 16 },
    { 20, 4, 584 }, { 24, 4, 8 }, { 28, 4, POOLS_AT }, { 32, 4, 8 },
    { 36, 4, QUEUES_AT },
    { 44, 2, 1 }, { 46, 1, 1 }, { 47, 1, 1 }, { 49, 1, 5 }, { 54, 2, 2369 },
    { 57, 4, 17 }, { 61, 2, 1 }, { 63, 1, 1 }, { 64, 1, 1 }, { 66, 1, 9 },
    { 67, 4, 3 }, { 71, 2, 65 }, { 73, 1, 9 },
    { 74, 4, 18 }, { 78, 2, 1 }, { 80, 1, 1 }, { 81, 1, 1 }, { 83, 1, 8 },
    { 84, 4, FOREVER }, { 88, 2, 66 }, { 90, 1, 8 },
    { 91, 4, 19 }, { 95, 2, 1 }, { 97, 1, 1 }, { 98, 1, 1 }, { 99, 1, 1 },
    { 100, 1, 4 }, { 101, 4, 65535 }, { 105, 2, 1153 }, { 107, 1, 15 },
    { 108, 4, 20 }, { 112, 2, 1 }, { 114, 1, 1 }, { 117, 1, 1 },
    { 125, 4, 22 }, { 129, 2, 2 }, { 131, 1, 1 }, { 132, 1, 1 },
    { 134, 1, 5 }, { 139, 2, 2370 },
    { 142, 4, 24 }, { 146, 2, 1 }, { 148, 1, 1 }, { 149, 1, 1 },
    { 151, 1, 3 }, { 156, 2, 2241 },
    { 163, 2, 1 },
    { 584, 4, 0x0a0b0c0d }, { 588, 2, 1 }, { 592, 1, 1 }, { 593, 1, 1 },
    { 594, 4, 2 }, { 598, 2, 1 }, { 600, 2, 32767 }, { 602, 1, 1 },
    { P(0, 0), 8, 2 }, { P(0, 8), 4, 5 }, { P(0, 12), 4, 4096 },
    { P(0, 16), 4, 100 },
    { P(0, 20), 4, 32 }, { P(0, 24), 2, 1 }, { P(0, 26), 1, 1 },
    { P(0, 27), 1, 1 },
    { P(0, 28), 1, 2 }, { P(0, 30), 1, 1 },
    { Q(0, 0), 4, 3 }, { Q(0, 4), 2, 1 }, { Q(0, 6), 1, 1 }, { Q(0, 8), 1, 2 },
    { Q(0, 9), 1, 64 }, { Q(0, 10), 1, 2 }, { Q(0, 76), 1, 3 },
    { Q(0, 77), 3, 0x030201 },
    { Q(1, 0), 4, 4 }, { Q(1, 4), 2, 1 }, { Q(1, 6), 1, 1 }, { Q(1, 7), 1, 1 },
    { Q(1, 8), 1, 16 }, { Q(1, 9), 1, 1 },
    { R(0), 1, 1 }, { R(1), 1, 6 }, { R(2), 1, 7 },
};

/* The same with some numbers changed; one of no bytes ends the row. */
struct change {
    struct number to[5];
};

static const struct change images[] = {
    { { { 57, 4, UINT32_MAX } } },                      /* a name */
    { { { 44, 2, 65535 } } }, { { { 163, 2, 65535 } } },     /* serials */
    { { { 180, 2, 7 } } },                  /* of a slot without an object */
    { { { 67, 4, FOREVER } } }, { { { 67, 4, 65535 } } },    /* time_outs */
    { { { 99, 1, 0 } } },                               /* not suspended */
    { { { 73, 1, 15 } } },                              /* joined higher */
    { { { 73, 1, 0 } } },                  /* and lower, in a FIFO queue */
    { { { 71, 2, 66 }, { 88, 2, 65 } } },      /* in another order there */
    { { { 593, 1, 0 } } },                     /* by priority, as it is */
    { { { 54, 2, 2370 }, { 139, 2, 2369 }, { R(0), 1, 6 }, { R(1), 1, 1 } } },
    { { { 600, 2, 0 } } },                              /* no units */
    { { { P(0, 28), 1, 1 }, { P(0, 30), 1, 2 } } },      /* other free first */
    { { { P(0, 0), 8, 3 }, { P(0, 28), 1, 0 } } },               /* two out */
    { { { P(0, 16), 4, 127 } } },                            /* a longer tail */
    { { { P(0, 16), 4, 128 }, { P(0, 31), 1, 3 } } }, /* four buffers */
    { { { P(0, 27), 1, 0 } } },
    { { { Q(0, 8), 1, 16 } } }, { { { Q(0, 9), 1, 3 } } },
    { { { Q(0, 77), 3, 0 } } }, { { { Q(0, 76), 1, 64 } } }, /* its zeros too */
    { { { Q(1, 7), 1, 0 } } },
    { { { 105, 2, 0 }, { 101, 4, 0 }, { 107, 1, 0 } } },   /* waits no more */
};

static const struct change refused[] = {
    { { { 0, 4, 2 } } }, { { { 4, 4, IMAGE_BYTES + 1 } } },
    { { { 36, 4, QUEUES_AT + 1 } } },
    { { { 46, 1, 2 } } }, { { { 47, 1, 2 } } }, { { { 99, 1, 2 } } },
    { { { 44, 2, 0 } } },                          /* a live serial of 0 */
    { { { 117, 1, 16 } } }, { { { 73, 1, 16 } } },
    { { { 159, 4, 1 } } }, { { { 168, 1, 1 } } },       /* in no task */
    { { { 50, 4, 1 } } }, { { { 56, 1, 1 } } },    /* of a ready task */
    { { { 67, 4, 0 } } }, { { { 67, 4, 65536 } } },
    { { { 71, 2, 0 } } }, { { { 71, 2, 64 } } }, { { { 71, 2, 97 } } },
    { { { 71, 2, 66 }, { 88, 2, 67 } } },          /* nobody is first */
    { { { 88, 2, 65 } } }, { { { 88, 2, 67 } } },
    { { { 71, 2, 1 } } }, { { { 71, 2, 1601 } } }, { { { 71, 2, 3073 } } },
    { { { 88, 2, 193 } } },                        /* no semaphore there */
    { { { 105, 2, 1217 } } },                      /* no queue there */
    { { { 105, 2, 1089 } } },              /* a queue that holds messages */
    { { { 88, 2, 2305 } } },                       /* waits and is ready */
    { { { 139, 2, 2305 } } },              /* in another priority's row */
    { { { 132, 1, 0 } } }, { { { 114, 1, 0 } } },
    { { { 115, 1, 1 } } },                 /* started, and stands nowhere */
    { { { R(0), 1, 6 }, { R(1), 1, 1 } } }, { { { R(1), 1, 0 } } },
    { { { R(0), 1, 7 }, { R(2), 1, 1 } } }, { { { R(3), 1, 8 } } },
    { { { R(31), 1, 1 } } }, { { { R(1), 1, 1 } } },
    { { { 590, 2, 1 } } }, { { { 600, 2, 32768 } } }, { { { 602, 1, 0 } } },
    { { { 593, 1, 2 } } },
    { { { 593, 1, 0 }, { 71, 2, 66 }, { 88, 2, 65 } } },    /* rises */
    { { { P(0, 0), 8, 10 } } }, { { { P(0, 0), 8, 3 } } },
    { { { P(0, 0), 8, 0 } } },
    { { { P(0, 28), 1, 3 } } }, { { { P(0, 30), 1, 2 } } },
    { { { P(0, 29), 1, 3 } } },
    { { { P(0, 31), 1, 3 } } }, { { { P(0, 91), 1, 65 } } },
    { { { P(0, 0), 8, UINT64_C(1) << 63 | 2 } } },
    { { { P(0, 16), 4, 0 } } }, { { { P(0, 20), 4, 0 } } },
    { { { P(0, 16), 4, 128 } } },
    { { { P(0, 12), 4, UINT32_MAX } } }, { { { P(0, 27), 1, 2 } } },
    { { { P(1, 26), 1, 1 }, { P(1, 12), 4, 4195 }, { P(1, 16), 4, 1 },
        { P(1, 20), 4, 1 } } },
    { { { Q(0, 6), 1, 0 } } }, { { { Q(0, 7), 1, 2 } } },
    { { { Q(0, 8), 1, 1 } } }, { { { Q(0, 8), 1, 17 } } },
    { { { Q(0, 8), 1, 0 } } },
    { { { Q(0, 9), 1, 2 } } }, { { { Q(0, 9), 1, 65 } } },
    { { { Q(0, 10), 1, 1 } } }, { { { Q(0, 10), 1, 255 } } },
    { { { Q(0, 76), 1, 2 } } }, { { { Q(0, 76), 1, 65 } } },
    { { { Q(0, 80), 1, 1 } } },
    { { { Q(0, 12), 1, 1 } } }, { { { Q(0, 141), 1, 1 } } },
    { { { Q(0, 1050), 1, 1 } } },
    { { { Q(1, 10), 1, 1 } } },                /* a message beside a waiter */
    { { { Q(7, 1050), 1, 1 } } },
};

static void set(uint8_t *image, const struct number *n)
{
    for (uint32_t i = 0; i < n->bytes; i++)
        image[n->place + i] = (uint8_t)(n->is >> 8 * i);
}

static void hand_made_state(struct kernel *k)
{
    static const uint8_t byte[MESSAGE_BYTES] = { 1, 2, 3, 4, 5 };
    static const struct lent lent = { byte, MESSAGE_BYTES };
    struct answer a;

    kernel_fresh(k, 5);
    for (size_t i = 0; i < sizeof history / sizeof history[0]; i++) {
        kernel_step_checked(k, history[i][0], MARK_TASK, history[i] + 1,
                            &lent, &a);
        demand(a.status <= PENDING, "a call is refused", "by hand");
    }
}

static void try_changes(const uint8_t *good, const struct change *change,
                        size_t number, bool image)
{
    for (; number > 0; number--, change++) {
        uint8_t bytes[IMAGE_BYTES];

        memcpy(bytes, good, sizeof bytes);
        for (int i = 0; i < 5; i++)
            set(bytes, &change->to[i]);
        if (is_met(bytes, "by hand") == image)
            continue;
        fprintf(stderr, "images: with %u at %u:\n",
                (unsigned)change->to[0].is, (unsigned)change->to[0].place);
        fail(image ? "32" : "no 32", "by hand");
    }
}

/* "One state has one image", and it is the page's. */
static void try_by_hand(void)
{
    struct kernel k;
    struct sheet s;
    uint8_t bytes[IMAGE_BYTES] = { 0 };

    for (int i = 0; i < 10; i++)
        set(bytes, &page[i]);
    demand(is_met(bytes, "nothing"), "32 without any object", "nothing");
    for (size_t i = 0; i < sizeof page / sizeof page[0]; i++)
        set(bytes, &page[i]);
    hand_made_state(&k);
    write_state(&k, &s, "by hand");
    for (uint32_t i = 0; i < IMAGE_BYTES; i++) {
        if (bytes[i] == s.byte[i])
            continue;
        fprintf(stderr, "images: byte %u is %u, not %u\n", i, s.byte[i],
                bytes[i]);
        fail("not the page's image", "by hand");
    }
    through_an_image(&k, "by hand");
    try_changes(bytes, images, sizeof images / sizeof images[0], true);
    try_changes(bytes, refused, sizeof refused / sizeof refused[0], false);
    k.task[0].priority = PRIORITIES;
    memset(&s, FILLER, sizeof s);
    demand(image_write(&k, s.byte, sizeof s) == BAD_STATE
           && image_write(&k, s.byte, 0) == BAD_STATE
           && is_filler(s.byte, sizeof s), "a bad state is written", "26");
}

/* "a cut image too": every length, in a piece of memory of its own. */
static void try_cuts(const uint8_t *image)
{
    struct kernel k;

    for (size_t length = 0; length < IMAGE_BYTES; length++) {
        uint8_t *cut = malloc(length > 0 ? length : 1);

        demand(cut != NULL, "no memory", "cuts");
        memcpy(cut, image, length);
        demand(image_read(&k, cut, length) == BAD_IMAGE, "no 32", "cuts");
        free(cut);
    }
}

static long changed, accepted;

static void try_bytes(const uint8_t *image)
{
    uint8_t bytes[IMAGE_BYTES];

    memcpy(bytes, image, sizeof bytes);
    for (uint32_t i = 0; i < IMAGE_BYTES; i++) {
        const uint8_t to[] = { (uint8_t)(image[i] ^ 1), (uint8_t)(image[i] + 2),
                               (uint8_t)(image[i] ^ 128) };

        for (size_t j = 0; j < sizeof to; j++) {
            bytes[i] = to[j];
            changed++;
            if (is_met(bytes, "a byte changed")) {
                demand(i >= 40, "another header", "a byte changed");
                accepted++;
            }
        }
        bytes[i] = image[i];
    }
}

static uint32_t draw(uint32_t *seed)
{
    *seed = *seed * 1664525 + 1013904223;
    return *seed >> 8;
}

/* Bytes of one image in another, some of them elsewhere. */
static void try_mixtures(uint8_t image[SAMPLES][IMAGE_BYTES])
{
    uint32_t seed = 1;

    for (int tried = 0; tried < 40000; tried++) {
        uint8_t bytes[IMAGE_BYTES];

        memcpy(bytes, image[draw(&seed) % SAMPLES], sizeof bytes);
        for (uint32_t left = 1 + draw(&seed) % 3; left > 0; left--) {
            const uint8_t *from = image[draw(&seed) % SAMPLES];
            uint32_t length = 1 + draw(&seed) % 40;
            uint32_t at = draw(&seed) % (IMAGE_BYTES - length);
            uint32_t elsewhere = draw(&seed) % (IMAGE_BYTES - length);

            memcpy(bytes + at, from + (draw(&seed) % 2 ? at : elsewhere),
                   length);
        }
        changed++;
        accepted += is_met(bytes, "a mixture");
    }
}

/* At random, with the header at random or as it should be. */
static void try_random_bytes(const uint8_t *image)
{
    uint32_t seed = 2;

    for (int tried = 0; tried < 2000; tried++) {
        uint8_t bytes[IMAGE_BYTES];
        uint32_t most = tried % 3 == 0 ? 256 : 2;

        for (uint32_t i = 0; i < IMAGE_BYTES; i++)
            bytes[i] = (uint8_t)(draw(&seed) % most);
        if (tried % 2 == 0)
            memcpy(bytes, image, 40);
        demand(!is_met(bytes, "at random"), "no 32", "at random");
    }
}

int main(int argc, char **argv)
{
    static uint8_t image[SAMPLES][IMAGE_BYTES];

    try_by_hand();
    for (int i = 1; i < argc; i++)
        play(argv[i]);
    for (int i = 0; i < SAMPLES; i++) {
        demand(samples[i].most > 0, "no state of some kind", "scripts");
        image_write(&samples[i].state, image[i], IMAGE_BYTES);
        try_cuts(image[i]);
        try_bytes(image[i]);
    }
    try_mixtures(image);
    try_random_bytes(image[0]);
    printf("%ld states come back from their images, and %ld of %ld changed "
           "images are of a state\n", states, accepted, changed);
    return 0;
}
