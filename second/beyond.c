/*
 * What no script can show. Damaged states: each breaks one rule, is answered
 * 26 and left as it was. Bytes changed at random: a state that still keeps
 * the rules keeps them after a step, and a refusal changes nothing. A slot
 * used up, after 65,535 serials. A fresh state of priority 16. A grid's cell
 * that stops at 65,535, and a list of records that is refused. The bytes of
 * messages, of which a listing tells the length alone, and lent ones that are
 * too few.
 */
#include <stdio.h>
#include <stdlib.h>
#include <string.h>

#include "grid.h"
#include "kernel.h"

#define DAMAGE(name, work) \
    static void name(struct kernel *k) { work; }

DAMAGE(ready_task_missing, k->ready[5].first = k->ready[5].last = 0;
       k->ready_priorities = 0)
DAMAGE(ready_task_twice, k->task[0].behind = 1)
DAMAGE(ready_order_ends_wrong, k->ready[5].last = 2)
DAMAGE(ready_order_past_the_table, k->task[0].behind = 33)
DAMAGE(ready_order_holds_another, k->ready[9].first = k->ready[9].last = 4;
       k->ready_priorities |= 1u << 9)
DAMAGE(ready_task_in_a_wrong_row, k->task[0].priority = 6)
DAMAGE(time_out_of_0, k->task[1].time_out = 0)
DAMAGE(time_out_of_65536, k->task[1].time_out = 65536)
DAMAGE(waits_on_no_live_semaphore, k->task[1].awaited = 5)
DAMAGE(waits_past_the_table, k->task[1].awaited = 16)
DAMAGE(waits_in_another_queue, k->task[1].awaited = 1)
DAMAGE(waits_on_a_third_kind, k->task[1].waiting = 3)
DAMAGE(claims_from_a_queue, k->task[1].waiting = ON_QUEUE)
DAMAGE(receives_from_a_semaphore, k->task[5].waiting = ON_SEMAPHORE)
DAMAGE(receives_from_no_live_queue, k->task[5].awaited = 2)
DAMAGE(receives_past_the_table, k->task[5].awaited = 8)
DAMAGE(receives_in_another_queue, k->task[5].awaited = 1)
DAMAGE(receives_in_no_queue, k->queue[0].waiters.first =
       k->queue[0].waiters.last = 0)
DAMAGE(receivers_rise, k->task[6].joining_priority = 10)
DAMAGE(receiver_twice, k->task[6].behind = 6)
DAMAGE(waiters_beside_a_message, k->queue[0].held = 1)
DAMAGE(holds_more_than_the_most, k->queue[1].most = 2)
DAMAGE(queue_of_no_messages, k->queue[0].most = 0)
DAMAGE(queue_of_17_messages, k->queue[0].most = 17)
DAMAGE(queue_of_longest_0, k->queue[0].longest = 0)
DAMAGE(queue_of_longest_65, k->queue[0].longest = 65)
DAMAGE(queue_options_of_2, k->queue[1].options = 2)
DAMAGE(ring_begins_at_16, k->queue[0].first = 16)
DAMAGE(message_too_long, k->queue[1].message[15].length = 13)
DAMAGE(message_of_255, k->queue[1].message[0].length = 255)
DAMAGE(byte_past_a_message, k->queue[1].message[0].byte[3] = 1)
DAMAGE(last_byte_past_a_message, k->queue[1].message[15].byte[63] = 1)
DAMAGE(length_in_an_unused_place, k->queue[1].message[2].length = 1)
DAMAGE(byte_in_an_unused_place, k->queue[1].message[14].byte[63] = 1)
DAMAGE(fewer_held_than_there_are, k->queue[1].held = 2)
DAMAGE(no_queue_but_a_message, k->queue[3].message[7].byte[9] = 1)
DAMAGE(no_queue_but_a_length, k->queue[2].longest = 1)
DAMAGE(queue_past_the_table, k->queue_table.live |= 1u << 8)
DAMAGE(queue_slot_not_usable, k->queue_table.usable &= ~4u)
DAMAGE(queue_rises, k->task[2].joining_priority = 8)
DAMAGE(joining_priority_of_16, k->task[1].joining_priority = 16)
DAMAGE(waits_in_no_queue, k->semaphore[0].queue.first =
       k->semaphore[0].queue.last = 0; k->semaphore[0].count = 0)
DAMAGE(queue_holds_a_ready_task, k->semaphore[1].queue.first =
       k->semaphore[1].queue.last = 1; k->semaphore[1].count = -1)
DAMAGE(count_above_its_queue, k->semaphore[0].count = -1)
DAMAGE(count_below_its_queue, k->semaphore[0].count = -3)
DAMAGE(empty_queue_below_0, k->semaphore[1].count = -1)
DAMAGE(count_of_32768, k->semaphore[1].count = 32768)
DAMAGE(not_started_and_suspended, k->task[3].suspended = 1)
DAMAGE(waits_and_not_started, k->task[1].started = 0)
DAMAGE(started_twice_over, k->task[1].started = 2)
DAMAGE(live_serial_of_0, k->task_table.serial[3] = 0)
DAMAGE(priority_of_16, k->task[3].priority = 16)
DAMAGE(semaphore_options_of_2, k->semaphore[1].options = 2)
DAMAGE(pool_options_of_2, k->pool[1].options = 2)
DAMAGE(no_task_but_a_name, k->task_table.name[4] = 1)
DAMAGE(no_task_but_a_priority, k->task[4].priority = 1)
DAMAGE(no_semaphore_but_a_count, k->semaphore[2].count = 1)
DAMAGE(no_pool_but_an_address, k->pool[2].address = 1)
DAMAGE(time_out_without_waiting, k->task[0].time_out = 1)
DAMAGE(joining_priority_without_waiting, k->task[0].joining_priority = 1)
DAMAGE(links_without_a_row, k->task[3].ahead = 1)
DAMAGE(mark_past_the_number, k->pool[0].out |= 8)
DAMAGE(pool_of_length_0, k->pool[1].length = 0; k->pool[1].buffers = 0)
DAMAGE(pool_of_size_0, k->pool[1].size = 0)
DAMAGE(pool_of_65_buffers, k->pool[1].length = 65; k->pool[1].buffers = 65)
DAMAGE(pool_past_the_end, k->pool[1].address = UINT32_MAX - 8)
DAMAGE(pool_of_another_number, k->pool[1].buffers = 9)
DAMAGE(free_buffer_twice, k->pool[1].free_order[3] = 4)
DAMAGE(free_order_holds_one_out, k->pool[0].free_order[1] = 0)
DAMAGE(free_order_past_the_number, k->pool[0].free_order[1] = 3)
DAMAGE(place_past_the_free, k->pool[0].free_order[2] = 1)
DAMAGE(marks_and_order_differ, k->pool[0].out = 4)
DAMAGE(no_pool_but_a_place, k->pool[2].free_order[5] = 1)
DAMAGE(pools_share_a_byte, k->pool[1].address = 4195)
DAMAGE(semaphore_past_the_table, k->semaphore_table.live |= 1u << 16)
DAMAGE(slot_not_marked_usable, k->task_table.usable &= ~(1u << 31))
DAMAGE(live_slot_marked_usable, k->pool_table.usable |= 1)
DAMAGE(time_out_stands_still, k->running_time_outs = 0)
DAMAGE(suspended_time_out_stands_still, k->running_time_outs &= ~4u)
DAMAGE(ready_task_time_out_runs, k->running_time_outs |= 1)
DAMAGE(ready_priority_not_marked, k->ready_priorities = 0)

static void (*const damages[])(struct kernel *) = {
    ready_task_missing, ready_task_twice, ready_order_ends_wrong,
    ready_order_past_the_table, ready_order_holds_another,
    ready_task_in_a_wrong_row, time_out_of_0, time_out_of_65536,
    waits_on_no_live_semaphore, waits_past_the_table, waits_in_another_queue,
    waits_on_a_third_kind, claims_from_a_queue, receives_from_a_semaphore,
    receives_from_no_live_queue, receives_past_the_table,
    receives_in_another_queue, receives_in_no_queue, receivers_rise,
    receiver_twice, waiters_beside_a_message, holds_more_than_the_most,
    queue_of_no_messages, queue_of_17_messages, queue_of_longest_0,
    queue_of_longest_65, queue_options_of_2, ring_begins_at_16,
    message_too_long, message_of_255, byte_past_a_message,
    last_byte_past_a_message, length_in_an_unused_place,
    byte_in_an_unused_place, fewer_held_than_there_are,
    no_queue_but_a_message, no_queue_but_a_length, queue_past_the_table,
    queue_slot_not_usable,
    queue_rises, joining_priority_of_16, waits_in_no_queue,
    queue_holds_a_ready_task, count_above_its_queue, count_below_its_queue,
    empty_queue_below_0, count_of_32768, not_started_and_suspended,
    waits_and_not_started, started_twice_over, live_serial_of_0,
    priority_of_16, semaphore_options_of_2, pool_options_of_2,
    no_task_but_a_name, no_task_but_a_priority, no_semaphore_but_a_count,
    no_pool_but_an_address, time_out_without_waiting,
    joining_priority_without_waiting, links_without_a_row,
    mark_past_the_number, pool_of_length_0, pool_of_size_0,
    pool_of_65_buffers, pool_past_the_end, pool_of_another_number,
    free_buffer_twice, free_order_holds_one_out, free_order_past_the_number,
    place_past_the_free, marks_and_order_differ, no_pool_but_a_place,
    pools_share_a_byte, semaphore_past_the_table, slot_not_marked_usable,
    live_slot_marked_usable, time_out_stands_still,
    suspended_time_out_stands_still, ready_task_time_out_runs,
    ready_priority_not_marked,
};

enum { DAMAGES = sizeof damages / sizeof damages[0] };

/* The good state: 64 runs, 65 and 66 wait (66 suspended), 67 is not started,
 * 68 is deleted, 69 and 70 receive; a semaphore with the queue, one without;
 * two pools; a queue with the receivers, one that is deleted, and one that
 * holds three messages in places 15, 0 and 1. */
static const uint32_t history[][6] = {
    { 8, 1, 0, 0 },  { 8, 2, 7, 1 },  { 1, 1, 7 },   { 1, 2, 6 },
    { 1, 3, 9 },     { 1, 4, 2 },     { 2, 68 },     { 4, 65 },
    { 11, 64, 0, 3 }, { 4, 66 },      { 11, 64, 0, 9 }, { 5, 66 },
    { 14, 1, 4096, 100, 32, 0 },      { 14, 2, 4196, 10, 1, 1 },
    { 17, 64 },
    { 20, 1, 3, 12, 0 }, { 20, 2, 3, 12, 0 }, { 20, 3, 3, 12, 0 },
    { 21, 66 },
    { 1, 4, 2 },     { 1, 5, 9 },     { 1, 6, 8 },   { 2, 132 },
    { 4, 69 },       { 25, 64, 0, 4 }, { 4, 70 },    { 25, 64, 0, 5 },
    { 23, 65, 3 },   { 24, 65, 12 },  { 23, 65, 1 },
};

/* The bytes that the history's sends and jumps lend. */
static const struct lent lent = {
    (const uint8_t[MESSAGE_BYTES]){ 1, 2, 3, 4, 5, 6, 7, 8, 9, 10, 11, 12 },
    MESSAGE_BYTES
};

static void good_state(struct kernel *k)
{
    struct answer a;

    memset(k, 0, sizeof *k);
    kernel_fresh(k, 5);
    for (size_t i = 0; i < sizeof history / sizeof history[0]; i++) {
        kernel_step_checked(k, history[i][0], MARK_TASK, history[i] + 1,
                            &lent, &a);
        if (a.status > PENDING)
            abort();
    }
}

static bool answer_is_bad_state(const struct answer *a)
{
    return a->status == BAD_STATE && a->running == 0 && a->wakes == 0
        && a->value[0] == 0 && a->value[1] == 0 && a->value[2] == 0
        && a->value[3] == 0;
}

/* The number of the first damage not answered as it should, or DAMAGES. */
static int first_damage_missed(const struct kernel *good)
{
    static const uint32_t arg[ARGUMENTS];

    for (int i = 0; i < DAMAGES; i++) {
        struct kernel k = *good;
        struct kernel before;
        struct answer a = { .status = OK };

        damages[i](&k);
        memcpy(&before, &k, sizeof k);
        kernel_step_checked(&k, 0, MARK_INTERRUPT, arg, &lent, &a);
        if (!answer_is_bad_state(&a) || memcmp(&k, &before, sizeof k) != 0)
            return i;
    }
    return DAMAGES;
}

static uint32_t draw(uint32_t *seed)
{
    *seed = *seed * 1664525 + 1013904223;
    return *seed >> 8;
}

/* Whether one step on a state with some bytes changed does as it should. */
static bool random_damage_is_met(const struct kernel *good, uint32_t *seed)
{
    struct kernel k = *good;
    struct kernel before;
    struct answer a;
    uint32_t arg[ARGUMENTS];
    uint32_t call = draw(seed) % 28;

    for (uint32_t left = 1 + draw(seed) % 3; left != 0; left--)
        ((uint8_t *)&k)[draw(seed) % sizeof k] = (uint8_t)draw(seed);
    for (int i = 0; i < ARGUMENTS; i++)
        arg[i] = draw(seed) % 2 ? 64 + draw(seed) % 4 : draw(seed) % 3;
    memcpy(&before, &k, sizeof k);
    kernel_step_checked(&k, call, call == 0, arg, &lent, &a);
    if (a.status <= PENDING)
        return rules_of_a_state(&k);
    return memcmp(&k, &before, sizeof k) == 0;
}

static uint32_t step(struct kernel *k, uint32_t call, uint32_t first,
                     uint32_t second, struct answer *a)
{
    uint32_t arg[ARGUMENTS] = { first, second };

    kernel_step(k, call, MARK_TASK, arg, &lent, a);
    return a->status;
}

/* "up to 65,535; after that the slot is never used again": semaphore slot 0,
 * with the other slots free. */
static bool slot_is_used_up(void)
{
    struct kernel k;
    struct answer a;

    kernel_fresh(&k, 5);
    for (uint32_t serial = 1; serial <= LAST_SERIAL; serial++) {
        if (step(&k, 8, 0, 0, &a) != OK || a.value[0] != serial * 64)
            return false;
        if (step(&k, 13, serial * 64, 0, &a) != OK)
            return false;
        if (step(&k, 9, serial * 64, 0, &a) != OK)
            return false;
    }
    return step(&k, 13, LAST_SERIAL * 64, 0, &a) == OBJECT_DELETED
        && step(&k, 13, LAST_SERIAL * 64 + 64, 0, &a) == INVALID_ID
        && step(&k, 8, 0, 0, &a) == OK && a.value[0] == 65
        && rules_of_a_state(&k);
}

/* TOO_MANY_OBJECTS with nothing live: every pool slot is used up. */
static bool table_is_used_up(void)
{
    struct kernel k;
    struct answer a;
    const uint32_t create[ARGUMENTS] = { 1, 0, 8, 1, 0 };

    kernel_fresh(&k, 5);
    for (uint32_t made = 0; made < POOLS * LAST_SERIAL; made++) {
        kernel_step(&k, 14, MARK_TASK, create, &lent, &a);
        if (a.status != OK || a.value[0] % 64 != made / LAST_SERIAL)
            return false;
        if (step(&k, 15, (uint32_t)a.value[0], 0, &a) != OK)
            return false;
    }
    kernel_step(&k, 14, MARK_TASK, create, &lent, &a);
    return a.status == TOO_MANY_OBJECTS && rules_of_a_state(&k);
}

/* "Asked with a priority above 15, the answer is 19 and the fresh state of
 * priority 0." */
static bool fresh_states_are_met(void)
{
    struct kernel k;
    struct answer a;

    return kernel_fresh(&k, 15) == OK && step(&k, 7, 0, 1, &a) == OK
        && a.value[0] == 15 && a.running == 64
        && kernel_fresh(&k, 16) == INVALID_PRIORITY
        && step(&k, 7, 64, 1, &a) == OK && a.value[0] == 0;
}

/* "stopping at 65,535"; "33 BAD_RECORD if any slot is outside its table, the
 * grid left as given" */
static bool grid_is_met(void)
{
    const struct grant_record last = { TASKS - 1, SEMAPHORES - 1 };
    const struct grant_record bad[2][2] = {
        { { TASKS - 1, SEMAPHORES - 1 }, { TASKS, 0 } },
        { { TASKS - 1, SEMAPHORES - 1 }, { 0, SEMAPHORES } },
    };
    struct kernel k;
    struct grid g;

    kernel_fresh(&k, 0);
    grid_clear(&g);
    for (int i = 0; i < MOST_GRANTS + 2; i++) {
        uint32_t expected = (uint32_t)(i < MOST_GRANTS ? i : MOST_GRANTS);

        if (grid_grants(&g, &k, last.task, last.semaphore) != expected
            || grid_fill(&g, &k, &last, 1) != OK)
            return false;
    }
    grid_clear(&g);
    return grid_fill(&g, &k, bad[0], 2) == BAD_RECORD
        && grid_fill(&g, &k, bad[1], 2) == BAD_RECORD
        && grid_grants(&g, &k, last.task, last.semaphore) == 0;
}

/* A send or jump of so many bytes, each with this number, all that is lent
 * but for so many more. */
static uint32_t put(struct kernel *k, uint32_t call, uint32_t length,
                    uint8_t number, uint32_t more, struct answer *a)
{
    static uint8_t byte[MESSAGE_BYTES + 1];
    const struct lent message = { byte, length + more };
    const uint32_t arg[ARGUMENTS] = { 64, length, TASKS, TASKS, TASKS };

    memset(byte, number, sizeof byte);
    kernel_step_checked(k, call, MARK_INTERRUPT, arg, &message, a);
    return a->status;
}

/* "a delivery shows it beside the wake, an immediate receive beside the
 * answer, whose first figure is its length; bytes past it are 0" */
static bool shows(const struct answer *a, uint32_t length, uint8_t number)
{
    if (a->status != OK || a->shows != 1 || a->message.length != length)
        return false;
    for (uint32_t i = 0; i < MESSAGE_BYTES; i++) {
        if (a->message.byte[i] != (i < length ? number : 0))
            return false;
    }
    return true;
}

static bool receives(struct kernel *k, uint32_t length, uint8_t number)
{
    struct answer a;

    return step(k, 25, 64, NOWAIT, &a) == OK && a.wakes == 0
        && a.value[0] == length && shows(&a, length, number);
}

static bool messages_are_met(void)
{
    struct kernel k;
    struct answer a;
    const uint32_t create[ARGUMENTS] = { 1, 16, 64, 0 };
    const uint32_t receive[ARGUMENTS] = { 64, 0, FOREVER };

    kernel_fresh(&k, 5);
    kernel_step(&k, 20, MARK_TASK, create, &lent, &a);
    for (uint8_t i = 0; i < 40; i++) {
        if (put(&k, 23, i, 100, 0, &a) != OK || a.shows
            || put(&k, 23, 64, 200, 0, &a) != OK
            || put(&k, 24, i + 1u, 150, 1, &a) != OK
            || !receives(&k, i + 1u, 150) || !receives(&k, i, 100)
            || !receives(&k, 64, 200))
            return false;
    }
    kernel_step(&k, 25, MARK_TASK, receive, &lent, &a);
    return a.status == PENDING && !a.shows
        && put(&k, 23, 65, 1, 0, &a) == INVALID_LENGTH
        && put(&k, 23, 7, 1, UINT32_MAX, &a) == INVALID_LENGTH
        && put(&k, 24, 1, 1, UINT32_MAX, &a) == INVALID_LENGTH
        && put(&k, 24, 9, 77, 3, &a) == OK && shows(&a, 9, 77)
        && a.wakes == 1 && a.wake[0].task == 64 && a.wake[0].status == OK
        && step(&k, 26, 64, 0, &a) == OK && a.value[1] == 0 && !a.shows;
}

static bool random_damages_are_met(const struct kernel *good)
{
    uint32_t seed = 1;

    for (int i = 0; i < 200000; i++) {
        if (!random_damage_is_met(good, &seed))
            return false;
    }
    return true;
}

static int failed(const char *what)
{
    fprintf(stderr, "beyond: %s\n", what);
    return 1;
}

int main(void)
{
    struct kernel good;
    int missed;

    good_state(&good);
    missed = first_damage_missed(&good);
    if (missed != DAMAGES) {
        fprintf(stderr, "beyond: damage %d is not answered 26\n", missed + 1);
        return 1;
    }
    if (!random_damages_are_met(&good))
        return failed("a state with random bytes is not met");
    if (!slot_is_used_up() || !table_is_used_up())
        return failed("a slot used up is not met");
    if (!fresh_states_are_met())
        return failed("a fresh state is not met");
    if (!grid_is_met())
        return failed("a grid is not met");
    if (!messages_are_met())
        return failed("the bytes of a message are not met");
    printf("%d damaged states are answered 26\n", DAMAGES);
    return 0;
}
