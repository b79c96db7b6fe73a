/*
 * The rules of a state, each in a function named after it. A step on a state
 * that breaks one is answered 26. The first rules bound every number that
 * the later ones use as an index, so any bytes may be tested.
 */
#include "calls.h"
#include "ready.h"

/* A row that visits nobody twice; adds its tasks to those seen before. */
static bool list_is_sound(const struct kernel *k, const struct list *l,
                          uint32_t *seen)
{
    uint8_t ahead = 0;

    for (uint8_t place = l->first; place != 0;) {
        if (place > TASKS || (*seen & slot_bit(place - 1u)) != 0)
            return false;
        if (k->task[place - 1].ahead != ahead)
            return false;
        *seen |= slot_bit(place - 1u);
        ahead = place;
        place = k->task[place - 1].behind;
    }
    return l->last == ahead;
}

/* "Serials ... are in range": live serials are 1 to 65,535. */
static bool serials_are_in_range(const struct table *t, uint32_t slots)
{
    for (uint32_t slot = 0; slot < TABLE_ROOM; slot++) {
        if (slot_is_live(t, slot) && t->serial[slot] == 0)
            return false;
        if (slot >= slots && (slot_is_live(t, slot) || t->serial[slot] != 0))
            return false;
    }
    return true;
}

/* "... priorities and options are in range." */
static bool priorities_are_in_range(const struct kernel *k)
{
    for (uint32_t slot = 0; slot < TASKS; slot++) {
        const struct task *t = &k->task[slot];

        if (t->priority >= PRIORITIES || t->joining_priority >= PRIORITIES)
            return false;
        if (t->started > 1 || t->suspended > 1 || t->waiting > ON_QUEUE)
            return false;
    }
    return true;
}

static bool semaphore_options_are_in_range(const struct kernel *k)
{
    uint32_t all = 0;

    for (uint32_t slot = 0; slot < SEMAPHORES; slot++)
        all |= k->semaphore[slot].options;
    return !options_are_bad(all);
}

static bool pool_options_are_in_range(const struct kernel *k)
{
    uint32_t all = 0;

    for (uint32_t slot = 0; slot < POOLS; slot++)
        all |= k->pool[slot].options;
    return !options_are_bad(all);
}

/* "A slot without a live object holds its last serial (0 if none) and
 * otherwise zeros". */
static bool names_of_no_object_are_zero(const struct table *t)
{
    for (uint32_t slot = 0; slot < TABLE_ROOM; slot++) {
        if (!slot_is_live(t, slot) && t->name[slot] != 0)
            return false;
    }
    return true;
}

static bool task_is_zero(const struct task *t)
{
    return t->priority == 0 && t->started == 0 && t->suspended == 0
        && t->waiting == 0 && t->ahead == 0 && t->behind == 0;
}

/* The waiting fields of no task are those of a task that doesn't wait. */
static bool slots_without_a_task_hold_zeros(const struct kernel *k)
{
    uint32_t left = ~k->task_table.live;

    for (; left != 0; left &= left - 1) {
        if (!task_is_zero(&k->task[lowest_slot(left)]))
            return false;
    }
    return true;
}

static bool semaphore_is_zero(const struct semaphore *s)
{
    return s->count == 0 && s->options == 0 && s->queue.first == 0
        && s->queue.last == 0;
}

static bool slots_without_a_semaphore_hold_zeros(const struct kernel *k)
{
    uint32_t left = all_slots(SEMAPHORES) & ~k->semaphore_table.live;

    for (; left != 0; left &= left - 1) {
        if (!semaphore_is_zero(&k->semaphore[lowest_slot(left)]))
            return false;
    }
    return true;
}

/* Places of an order past its end, from one on. */
static bool places_are_zero(const struct pool *p, uint32_t place)
{
    uint8_t any = 0;

    for (; place < BUFFERS; place++)
        any |= p->free_order[place];
    return any == 0;
}

static bool pool_is_zero(const struct pool *p)
{
    return p->out == 0 && p->address == 0 && p->length == 0 && p->size == 0
        && p->buffers == 0 && p->options == 0 && places_are_zero(p, 0);
}

static bool slots_without_a_pool_hold_zeros(const struct kernel *k)
{
    uint32_t left = all_slots(POOLS) & ~k->pool_table.live;

    for (; left != 0; left &= left - 1) {
        if (!pool_is_zero(&k->pool[lowest_slot(left)]))
            return false;
    }
    return true;
}

/* "... so do ... the waiting fields of a task that doesn't wait", and, for
 * unused list places, the links of a task in no row. */
static bool fields_not_in_use_are_zero(const struct kernel *k)
{
    for (uint32_t slot = 0; slot < TASKS; slot++) {
        const struct task *t = &k->task[slot];
        bool links = t->ahead != 0 || t->behind != 0;

        if (t->waiting)
            continue;
        if (t->time_out != 0 || t->awaited != 0 || t->joining_priority != 0)
            return false;
        if (links && !is_ready(t))
            return false;
    }
    return true;
}

/* "Tasks not started neither wait nor are suspended." */
static bool tasks_not_started_neither_wait_nor_are_suspended(
    const struct kernel *k)
{
    for (uint32_t slot = 0; slot < TASKS; slot++) {
        const struct task *t = &k->task[slot];

        if (!t->started && (t->waiting || t->suspended))
            return false;
    }
    return true;
}

static uint32_t ready_tasks(const struct kernel *k)
{
    uint32_t ready = 0;

    for (uint32_t slot = 0; slot < TASKS; slot++)
        ready |= is_ready(&k->task[slot]) ? slot_bit(slot) : 0;
    return ready;
}

static bool row_is_of_priority(const struct kernel *k, uint32_t priority)
{
    uint8_t place = k->ready[priority].first;

    while (place != 0 && k->task[place - 1].priority == priority)
        place = k->task[place - 1].behind;
    return place == 0;
}

/* "The ready order holds each ready task once and no other, priorities never
 * rising along it": each row holds tasks of its own priority. */
static bool ready_order_holds_each_ready_task_once(const struct kernel *k)
{
    uint32_t seen = 0;

    for (uint32_t priority = 0; priority < PRIORITIES; priority++) {
        if (!list_is_sound(k, &k->ready[priority], &seen))
            return false;
        if (!row_is_of_priority(k, priority))
            return false;
    }
    return seen == ready_tasks(k);
}

/* Whether the slot that a waiting task names has a live object. */
static bool awaited_is_live(const struct kernel *k, const struct task *t)
{
    if (t->waiting == ON_QUEUE)
        return t->awaited < QUEUES && slot_is_live(&k->queue_table, t->awaited);
    return t->awaited < SEMAPHORES
        && slot_is_live(&k->semaphore_table, t->awaited);
}

/* "Each waiting task stands ... in one live semaphore's or queue's wait
 * queue, with a time_out left of 1 to 65,535 or FOREVER". */
static bool waiting_fields_are_in_range(const struct kernel *k)
{
    for (uint32_t slot = 0; slot < TASKS; slot++) {
        const struct task *t = &k->task[slot];

        if (!t->waiting)
            continue;
        if (time_out_is_bad(t->time_out) || !awaited_is_live(k, t))
            return false;
    }
    return true;
}

static uint32_t waiting_tasks(const struct kernel *k)
{
    uint32_t waiting = 0;

    for (uint32_t slot = 0; slot < TASKS; slot++)
        waiting |= k->task[slot].waiting ? slot_bit(slot) : 0;
    return waiting;
}

/* Whether a wait queue holds tasks that say so, adding them to those seen. */
static bool queue_is_of(const struct kernel *k, const struct list *queue,
                        enum wait kind, uint32_t slot, uint32_t *seen)
{
    uint8_t place = queue->first;

    if (!list_is_sound(k, queue, seen))
        return false;
    while (place != 0 && k->task[place - 1].waiting == kind
           && k->task[place - 1].awaited == slot)
        place = k->task[place - 1].behind;
    return place == 0;
}

/* "Each waiting task stands once in one live semaphore's or queue's wait
 * queue ...; queues hold no other task". */
static bool each_waiting_task_stands_once_in_one_queue(const struct kernel *k)
{
    uint32_t seen = 0;

    for (uint32_t sem = 0; sem < SEMAPHORES; sem++) {
        if (!queue_is_of(k, &k->semaphore[sem].queue, ON_SEMAPHORE, sem,
                         &seen))
            return false;
    }
    for (uint32_t slot = 0; slot < QUEUES; slot++) {
        if (!queue_is_of(k, &k->queue[slot].waiters, ON_QUEUE, slot, &seen))
            return false;
    }
    return seen == waiting_tasks(k);
}

static bool queue_never_rises(const struct kernel *k, const struct list *queue)
{
    uint8_t most = PRIORITIES - 1;

    for (uint8_t place = queue->first; place != 0;) {
        const struct task *t = &k->task[place - 1];

        if (t->joining_priority > most)
            return false;
        most = t->joining_priority;
        place = t->behind;
    }
    return true;
}

/* "... those not FIFO never rise in joining priority." */
static bool queues_not_fifo_never_rise(const struct kernel *k)
{
    for (uint32_t sem = 0; sem < SEMAPHORES; sem++) {
        const struct semaphore *s = &k->semaphore[sem];

        if ((s->options & FIFO) == 0 && !queue_never_rises(k, &s->queue))
            return false;
    }
    for (uint32_t slot = 0; slot < QUEUES; slot++) {
        const struct queue *q = &k->queue[slot];

        if ((q->options & FIFO) == 0 && !queue_never_rises(k, &q->waiters))
            return false;
    }
    return true;
}

static int32_t queue_length(const struct kernel *k, const struct list *queue)
{
    int32_t length = 0;

    for (uint8_t place = queue->first; place != 0;) {
        length++;
        place = k->task[place - 1].behind;
    }
    return length;
}

/* "A queue with n tasks, n above 0, has count -n; an empty queue has count 0
 * to 32,767." */
static bool counts_tell_the_queues(const struct kernel *k)
{
    for (uint32_t sem = 0; sem < SEMAPHORES; sem++) {
        const struct semaphore *s = &k->semaphore[sem];
        int32_t waiting = queue_length(k, &s->queue);

        if (waiting > 0 && s->count != -waiting)
            return false;
        if (waiting == 0 && (s->count < 0 || s->count > MOST_COUNT))
            return false;
    }
    return true;
}

/* "Each live pool is one that creation admits". */
static bool live_pools_are_admitted(const struct kernel *k)
{
    for (uint32_t left = k->pool_table.live; left != 0; left &= left - 1) {
        const struct pool *p = &k->pool[lowest_slot(left)];

        if (pool_area_refusal(p->address, p->length, p->size) != OK)
            return false;
        if (p->buffers != p->length / p->size)
            return false;
    }
    return true;
}

/* "... and marks of buffers past a pool's number" are zeros. */
static bool marks_past_the_number_are_zero(const struct kernel *k)
{
    for (uint32_t left = k->pool_table.live; left != 0; left &= left - 1) {
        const struct pool *p = &k->pool[lowest_slot(left)];

        if (p->buffers < BUFFERS && p->out >> p->buffers != 0)
            return false;
    }
    return true;
}

/* Of as many places as there are free buffers, each holds another one that
 * is free, so each free buffer is there once. */
static bool order_is_of_the_free(const struct pool *p)
{
    uint32_t free = free_buffers(p);
    uint64_t seen = p->out;

    for (uint32_t place = 0; place < free; place++) {
        uint32_t buffer = p->free_order[place];

        if (buffer >= p->buffers || (seen >> buffer & 1) != 0)
            return false;
        seen |= UINT64_C(1) << buffer;
    }
    return places_are_zero(p, free);
}

/* M-103: "The order of free buffers joins the state, each free buffer
 * once." */
static bool orders_hold_each_free_buffer_once(const struct kernel *k)
{
    for (uint32_t left = k->pool_table.live; left != 0; left &= left - 1) {
        if (!order_is_of_the_free(&k->pool[lowest_slot(left)]))
            return false;
    }
    return true;
}

/* "no two live pools share a byte, and the test stops at the first pair that
 * does" */
static bool no_two_live_pools_share_a_byte(const struct kernel *k)
{
    uint32_t live = k->pool_table.live;

    for (; live != 0; live &= live - 1) {
        const struct pool *one = &k->pool[lowest_slot(live)];

        for (uint32_t left = live & (live - 1); left != 0; left &= left - 1) {
            if (areas_share_a_byte(one, &k->pool[lowest_slot(left)]))
                return false;
        }
    }
    return true;
}

/* The paper has no masks: here they are kept beside what they are made of,
 * and a state in which they differ is no state of the paper's. */
static bool usable_slots_are_marked(const struct table *t, uint32_t slots)
{
    uint32_t usable = 0;

    for (uint32_t slot = 0; slot < slots; slot++) {
        if (!slot_is_live(t, slot) && t->serial[slot] < LAST_SERIAL)
            usable |= slot_bit(slot);
    }
    return t->usable == usable;
}

static bool ready_priorities_are_marked(const struct kernel *k)
{
    uint32_t priorities = 0;

    for (uint32_t priority = 0; priority < PRIORITIES; priority++) {
        if (k->ready[priority].first != 0)
            priorities |= UINT32_C(1) << priority;
    }
    return k->ready_priorities == priorities;
}

static bool running_time_outs_are_marked(const struct kernel *k)
{
    uint32_t time_outs = 0;

    for (uint32_t slot = 0; slot < TASKS; slot++)
        time_outs |= time_out_runs(&k->task[slot]) ? slot_bit(slot) : 0;
    return k->running_time_outs == time_outs;
}

static bool table_is_sound(const struct table *t, uint32_t slots)
{
    return serials_are_in_range(t, slots) && names_of_no_object_are_zero(t)
        && usable_slots_are_marked(t, slots);
}

bool rules_of_a_state(const struct kernel *k)
{
    return table_is_sound(&k->task_table, TASKS)
        && table_is_sound(&k->semaphore_table, SEMAPHORES)
        && table_is_sound(&k->pool_table, POOLS)
        && table_is_sound(&k->queue_table, QUEUES)
        && priorities_are_in_range(k)
        && semaphore_options_are_in_range(k)
        && pool_options_are_in_range(k)
        && slots_without_a_task_hold_zeros(k)
        && slots_without_a_semaphore_hold_zeros(k)
        && slots_without_a_pool_hold_zeros(k)
        && fields_not_in_use_are_zero(k)
        && tasks_not_started_neither_wait_nor_are_suspended(k)
        && ready_order_holds_each_ready_task_once(k)
        && waiting_fields_are_in_range(k)
        && each_waiting_task_stands_once_in_one_queue(k)
        && queues_not_fifo_never_rise(k)
        && counts_tell_the_queues(k)
        && live_pools_are_admitted(k)
        && marks_past_the_number_are_zero(k)
        && orders_hold_each_free_buffer_once(k)
        && no_two_live_pools_share_a_byte(k)
        && queues_keep_their_rules(k)
        && ready_priorities_are_marked(k)
        && running_time_outs_are_marked(k);
}
