/*
 * The profiles: how a script begins and which calls it is made of. Together
 * they reach every status of every call row that a script can show.
 */
#include "profiles.h"

#include <stddef.h>

static void make_semaphore(struct aim *a, uint32_t count)
{
    uint32_t name = roll(&a->dice, 3);

    PUT(a, SEM_CREATE, 0, name, count, roll(&a->dice, 2));
}

static void make_queue(struct aim *a, uint32_t most)
{
    uint32_t name = roll(&a->dice, 3);
    uint32_t longest = ONE_OF(&a->dice, 1, 12, 64);

    PUT(a, QUEUE_CREATE, 0, name, most, longest, roll(&a->dice, 2));
}

/* Started tasks above the first one, of all priorities. */
static void make_tasks(struct aim *a, uint32_t number)
{
    while (number-- > 0 && a->picture.running != NOBODY) {
        uint32_t unused = ~a->picture.live[A_TASK], slot;

        if (unused == 0)
            return;
        slot = (uint32_t)__builtin_ctz(unused);
        PUT(a, TASK_CREATE, 0, 5, 1 + roll(&a->dice, 15));
        PUT(a, TASK_START, 0, picture_id(&a->picture, A_TASK, slot));
    }
}

/* Whoever runs claims the semaphore, until only the first task is left. */
static void all_wait(struct aim *a)
{
    for (int i = 0; i < 40; i++) {
        uint32_t running = aim_running(a);

        if (running == 0 || (a->anchor && running == 64))
            return;
        PUT(a, SEM_CLAIM, 0, 64, 0, ONE_OF(&a->dice, 9, 30, TOP));
    }
}

static void open_queue(struct aim *a)
{
    make_semaphore(a, 0);
    make_tasks(a, 31);
    all_wait(a);
}

static void open_two(struct aim *a)
{
    make_semaphore(a, 0);
    make_semaphore(a, 1);
    make_tasks(a, 12);
}

static void open_twenty(struct aim *a)
{
    make_semaphore(a, 0);
    make_semaphore(a, 0);
    make_tasks(a, 20);
}

/* Semaphores and queues of the same identifiers. */
static void open_queues(struct aim *a)
{
    make_semaphore(a, 0);
    make_semaphore(a, 1);
    make_queue(a, 2);
    make_queue(a, 16);
    make_tasks(a, 12);
}

/* A queue is filled past its most, and now and then emptied again, so that
 * each message comes in its turn. */
static void fill_and_drain(struct aim *a)
{
    uint32_t live = a->picture.live[A_QUEUE], slot, times;

    if (live == 0)
        return;
    slot = roll_bit(&a->dice, live);
    times = a->picture.store[slot].most + 2;
    for (uint32_t i = 0; i < times; i++)
        aim_put_message(a, roll(&a->dice, 2), slot);
    times = ONE_OF(&a->dice, 0, 3, times);
    for (uint32_t i = 0; i < times; i++)
        PUT(a, QUEUE_RECEIVE, 0, picture_id(&a->picture, A_QUEUE, slot), 1);
}

/* Whoever runs receives from the first queue, until only the first task is
 * left. */
static void all_receive(struct aim *a)
{
    uint32_t id;

    if ((a->picture.live[A_QUEUE] & 1) == 0)
        make_queue(a, 3);
    id = picture_id(&a->picture, A_QUEUE, 0);
    for (int i = 0; i < 40; i++) {
        uint32_t running = aim_running(a);

        if (running == 0 || (a->anchor && running == 64))
            return;
        PUT(a, QUEUE_RECEIVE, 0, id, 0, ONE_OF(&a->dice, 3, 9, TOP));
    }
}

static void open_receivers(struct aim *a)
{
    make_queue(a, 3);
    make_semaphore(a, 0);
    make_tasks(a, 31);
    all_receive(a);
}

static void open_full(struct aim *a)
{
    for (int i = 0; i < 40; i++) {
        aim_call(a, TASK_CREATE);
        aim_call(a, SEM_CREATE);
        aim_call(a, POOL_CREATE);
        aim_call(a, QUEUE_CREATE);
    }
}

static void open_counts(struct aim *a)
{
    static const uint32_t counts[] = { 32767, 32766, 32765, 0 };

    for (int i = 0; i < 4; i++)
        make_semaphore(a, counts[i]);
    make_tasks(a, 4);
}

static void open_stopped(struct aim *a)
{
    make_semaphore(a, 0);
    make_tasks(a, ONE_OF(&a->dice, 3, 31));
    all_wait(a);
}

/* Near its end the script stops whoever runs; nothing may run any more. */
static void stop_at_the_end(struct aim *a)
{
    if (a->records < a->most / 4 * 3)
        return;
    for (int i = 0; i < 40 && a->picture.running != NOBODY; i++)
        PUT(a, ONE_OF(&a->dice, TASK_DELETE, TASK_SUSPEND), 0, 0);
}

/* A new crowd receives with one time_out, and is woken whole, as below. */
static void crowd_of_receivers(struct aim *a)
{
    uint32_t live = a->picture.live[A_QUEUE];
    uint32_t slot = live == 0 ? 0 : roll_bit(&a->dice, live), id;
    uint32_t ticks = 1 + roll(&a->dice, 3);

    if (live == 0)
        make_queue(a, 1);
    id = picture_id(&a->picture, A_QUEUE, slot);
    make_tasks(a, 32);
    for (int i = 0; i < 60 && a->picture.running != NOBODY; i++)
        PUT(a, QUEUE_RECEIVE, 0, id, 0, ticks);
    if (chance(&a->dice, 400)) {
        PUT(a, QUEUE_SEND, 1, id, 0);
        PUT(a, QUEUE_DELETE, 0, id);
    } else {
        for (uint32_t i = 0; i < ticks; i++)
            PUT(a, TICK, 1, 0);
    }
}

/* A new crowd waits with one time_out. Then it is woken whole: by the tick
 * that ends the time_out, or by a deletion, which needs one who is granted. */
static void crowd(struct aim *a)
{
    uint32_t live = a->picture.live[A_SEMAPHORE];
    uint32_t slot = live == 0 ? 0 : roll_bit(&a->dice, live), id;
    uint32_t ticks = 1 + roll(&a->dice, 3);

    if (live == 0)
        make_semaphore(a, 0);
    id = picture_id(&a->picture, A_SEMAPHORE, slot);
    make_tasks(a, 32);
    for (int i = 0; i < 40 && a->picture.running != NOBODY; i++)
        PUT(a, SEM_CLAIM, 0, id, 0, ticks);
    if (chance(&a->dice, 300)) {
        PUT(a, SEM_RELEASE, 1, id);
        PUT(a, SEM_DELETE, 0, id);
    } else {
        for (uint32_t i = 0; i < ticks; i++)
            PUT(a, TICK, 1, 0);
    }
}

/* One kind's objects come and go, so that a slot's serial rises. */
static void wear(struct aim *a)
{
    static const uint32_t create[] = { TASK_CREATE, SEM_CREATE, POOL_CREATE,
                                       QUEUE_CREATE };
    static const uint32_t delete[] = { TASK_DELETE, SEM_DELETE, POOL_DELETE,
                                       QUEUE_DELETE };
    enum kind kind = (enum kind)roll(&a->dice, KINDS);
    uint32_t times = ONE_OF(&a->dice, 20, 60, 200, 1150);

    while (times-- > 0 && a->picture.running != NOBODY
           && ~a->picture.live[kind] != 0) {
        uint32_t slot = (uint32_t)__builtin_ctz(~a->picture.live[kind]);

        if (slot >= picture_room(kind) || aim_is_full(a))
            return;
        aim_call(a, create[kind]);
        PUT(a, delete[kind], 0, picture_id(&a->picture, kind, slot));
    }
}

#define POOL_CALLS [POOL_IDENT] = 10, [POOL_GET_BUFF] = 160, \
    [POOL_RET_BUFF] = 100, [POOL_INFO] = 50

#define QUEUE_CALLS [QUEUE_CREATE] = 20, [QUEUE_IDENT] = 5, \
    [QUEUE_SEND] = 120, [QUEUE_JUMP] = 50, [QUEUE_RECEIVE] = 200, \
    [QUEUE_INFO] = 40

const struct profile profiles[] = {
    { .name = "mixed", .base = 20, .wild = 100, .priority = ANY_PRIORITY,
      .anchor = EITHER,
      .more = { [TASK_CREATE] = 20, [TASK_START] = 30, [TASK_RESUME] = 10,
                [SEM_CLAIM] = 40, [SEM_RELEASE] = 20 } },
    { .name = "tasks", .wild = 50, .priority = ANY_PRIORITY,
      .anchor = ANCHORED,
      .more = { [TASK_CREATE] = 60, [TASK_DELETE] = 30, [TASK_IDENT] = 20,
                [TASK_START] = 60, [TASK_SUSPEND] = 60, [TASK_RESUME] = 60,
                [TASK_SET_PRIORITY] = 80, [TICK] = 10 } },
    { .name = "semaphores", .wild = 50, .anchor = ANCHORED,
      .more = { [SEM_INFO] = 40, [TICK] = 30, [TASK_CREATE] = 40,
                [TASK_START] = 60, [TASK_DELETE] = 10, [SEM_CREATE] = 20,
                [SEM_DELETE] = 10, [SEM_IDENT] = 10, [SEM_CLAIM] = 200,
                [SEM_RELEASE] = 100, [TASK_SET_PRIORITY] = 20 } },
    { .name = "long queues", .wild = 20, .anchor = ANCHORED,
      .opening = open_queue, .again = all_wait,
      .more = { [SEM_INFO] = 40, [TICK] = 40, [TASK_SUSPEND] = 40,
                [TASK_RESUME] = 40, [SEM_RELEASE] = 30,
                [TASK_SET_PRIORITY] = 50, [TASK_DELETE] = 3,
                [TASK_CREATE] = 10, [TASK_START] = 10 } },
    { .name = "time_outs", .wild = 20, .anchor = ANCHORED,
      .opening = open_two,
      .more = { [SEM_INFO] = 40, [SEM_CLAIM] = 240, [TICK] = 140,
                [TASK_SUSPEND] = 40, [TASK_RESUME] = 50, [SEM_RELEASE] = 20,
                [TASK_CREATE] = 10, [TASK_START] = 20, [TASK_DELETE] = 5 } },
    { .name = "priorities", .wild = 20, .anchor = ANCHORED,
      .opening = open_twenty,
      .more = { [SEM_INFO] = 40, [SEM_CLAIM] = 200, [SEM_RELEASE] = 60,
                [TASK_SET_PRIORITY] = 140, [TICK] = 30, [TASK_SUSPEND] = 10,
                [TASK_RESUME] = 20, [SEM_CREATE] = 2 } },
    { .name = "full tables", .base = 20, .wild = 40, .priority = 8,
      .anchor = ANCHORED, .opening = open_full,
      .more = { [TASK_CREATE] = 60, [SEM_CREATE] = 60, [POOL_CREATE] = 60,
                [QUEUE_CREATE] = 60, [TASK_IDENT] = 20, [SEM_IDENT] = 20,
                [POOL_IDENT] = 20, [QUEUE_IDENT] = 20 } },
    { .name = "serials", .base = 20, .wild = 250, .priority = 3,
      .anchor = ANCHORED,
      .more = { [TASK_CREATE] = 70, [TASK_DELETE] = 70, [SEM_CREATE] = 70,
                [SEM_DELETE] = 70, [POOL_CREATE] = 70,
                [POOL_DELETE] = 70, [QUEUE_CREATE] = 70,
                [QUEUE_DELETE] = 70 } },
    { .name = "pools", .wild = 40, .priority = 1, .anchor = ANCHORED,
      .more = { [POOL_CREATE] = 60, [POOL_DELETE] = 30, POOL_CALLS } },
    { .name = "pool edges", .wild = 400, .priority = 1, .anchor = ANCHORED,
      .more = { [POOL_CREATE] = 140, [POOL_DELETE] = 60, POOL_CALLS } },
    { .name = "nothing runs", .base = 2, .wild = 40,
      .priority = ANY_PRIORITY, .anchor = LOOSE, .may_stop = true,
      .opening = open_stopped, .again = stop_at_the_end,
      .more = { [SEM_INFO] = 40, [TICK] = 30, [SEM_CLAIM] = 240,
                [TASK_RESUME] = 40, [SEM_RELEASE] = 20,
                [TASK_IDENT] = 10 } },
    { .name = "identifiers", .base = 20, .wild = 600, .priority = 15,
      .anchor = ANCHORED,
      .more = { [TASK_CREATE] = 20, [SEM_CREATE] = 20,
                [POOL_CREATE] = 20, [QUEUE_CREATE] = 20 } },
    { .name = "refusals", .base = 10, .wild = 500, .priority = 4,
      .anchor = LOOSE, .more = { [UNKNOWN_CALL] = 40 } },
    { .name = "suspended waiters", .base = 1, .wild = 20, .anchor = EITHER,
      .opening = open_twenty,
      .more = { [SEM_CLAIM] = 150, [TASK_SUSPEND] = 120, [TASK_RESUME] = 60,
                [TICK] = 80, [SEM_RELEASE] = 50, [SEM_CREATE] = 10,
                [TASK_SET_PRIORITY] = 30, [TASK_CREATE] = 20,
                [TASK_START] = 30, [SEM_INFO] = 30 } },
    { .name = "overflow", .base = 1, .wild = 20, .anchor = ANCHORED,
      .opening = open_counts,
      .more = { [SEM_RELEASE] = 200, [SEM_CLAIM] = 60, [SEM_INFO] = 40,
                [SEM_CREATE] = 10, [SEM_DELETE] = 4, [TICK] = 10 } },
    { .name = "crowds", .base = 4, .wild = 10, .priority = ANY_PRIORITY,
      .anchor = LOOSE, .opening = crowd, .again = crowd,
      .more = { [TASK_SUSPEND] = 10, [TASK_RESUME] = 20, [SEM_INFO] = 10,
                [TASK_SET_PRIORITY] = 20, [SEM_RELEASE] = 20 } },
    { .name = "queues", .base = 2, .wild = 50, .priority = ANY_PRIORITY,
      .anchor = EITHER, .opening = open_queues, .again = fill_and_drain,
      .more = { QUEUE_CALLS, [QUEUE_DELETE] = 6, [TICK] = 40,
                [TASK_CREATE] = 10, [TASK_START] = 20, [TASK_DELETE] = 4,
                [TASK_SUSPEND] = 20, [TASK_RESUME] = 30,
                [TASK_SET_PRIORITY] = 20, [SEM_CLAIM] = 30,
                [SEM_RELEASE] = 20 } },
    { .name = "receivers", .base = 1, .wild = 20, .anchor = ANCHORED,
      .opening = open_receivers, .again = all_receive,
      .more = { [QUEUE_SEND] = 30, [QUEUE_JUMP] = 20, [QUEUE_INFO] = 40,
                [TICK] = 40, [TASK_SUSPEND] = 40, [TASK_RESUME] = 40,
                [TASK_SET_PRIORITY] = 50, [TASK_DELETE] = 3,
                [TASK_CREATE] = 10, [TASK_START] = 10, [SEM_CLAIM] = 10,
                [SEM_RELEASE] = 10 } },
    { .name = "crowds of receivers", .base = 4, .wild = 10,
      .priority = ANY_PRIORITY, .anchor = LOOSE,
      .opening = crowd_of_receivers, .again = crowd_of_receivers,
      .more = { [TASK_SUSPEND] = 10, [TASK_RESUME] = 20, [QUEUE_INFO] = 10,
                [TASK_SET_PRIORITY] = 20, [QUEUE_SEND] = 20 } },
    { .name = "worn slots", .base = 20, .wild = 200, .anchor = ANCHORED,
      .opening = wear, .again = wear },
    { .name = "chaos", .anchor = LOOSE, .priority = ANY_PRIORITY,
      .opening = open_two, .each = aim_chaos },
};

const uint32_t profiles_number = sizeof profiles / sizeof profiles[0];
