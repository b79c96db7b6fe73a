/*
 * Images. The writer puts field after field, and the places follow. The
 * reader takes the fields in the same order, links the rows that the seats
 * tell of, asks whether the state keeps the rules, and writes it once more:
 * whatever no state writes then differs.
 */
#include "image.h"

#include <string.h>

#include "calls.h"
#include "ready.h"

/* "its seat: queue × 64 + place, place 1 first; 0 where it stands nowhere" */
enum {
    SEAT_RANGE = 64,
    FIRST_SEMAPHORE = 1,
    FIRST_QUEUE = FIRST_SEMAPHORE + SEMAPHORES,
    FIRST_READY = 32,
    SEAT_QUEUES = FIRST_READY + PRIORITIES
};

/* Little-endian, byte by byte: the compiler makes one store or load of it. */
static inline void put_1(uint8_t **at, uint32_t number)
{
    *(*at)++ = (uint8_t)number;
}

static inline void put_2(uint8_t **at, uint32_t number)
{
    (*at)[0] = (uint8_t)number;
    (*at)[1] = (uint8_t)(number >> 8);
    *at += 2;
}

static inline void put_4(uint8_t **at, uint32_t number)
{
    (*at)[0] = (uint8_t)number;
    (*at)[1] = (uint8_t)(number >> 8);
    (*at)[2] = (uint8_t)(number >> 16);
    (*at)[3] = (uint8_t)(number >> 24);
    *at += 4;
}

static inline uint8_t take_1(const uint8_t **at)
{
    return *(*at)++;
}

static inline uint16_t take_2(const uint8_t **at)
{
    const uint8_t *byte = *at;

    *at += 2;
    return (uint16_t)(byte[0] | byte[1] << 8);
}

static inline uint32_t take_4(const uint8_t **at)
{
    const uint8_t *byte = *at;

    *at += 4;
    return (uint32_t)byte[0] | (uint32_t)byte[1] << 8
         | (uint32_t)byte[2] << 16 | (uint32_t)byte[3] << 24;
}

static void put_header(uint8_t **at)
{
    static const uint32_t number[] = {
        EDITION, IMAGE_BYTES, TASKS, TASKS_AT, SEMAPHORES, SEMAPHORES_AT,
        POOLS, POOLS_AT, QUEUES, QUEUES_AT,
    };

    for (size_t i = 0; i < sizeof number / sizeof number[0]; i++)
        put_4(at, number[i]);
}

/* The row of a seat's queue, or NULL where there is none. */
static struct list *row_of(struct kernel *k, uint32_t queue)
{
    if (queue >= FIRST_READY && queue < SEAT_QUEUES)
        return &k->ready[queue - FIRST_READY];
    if (queue >= FIRST_QUEUE && queue < FIRST_QUEUE + QUEUES)
        return &k->queue[queue - FIRST_QUEUE].waiters;
    if (queue >= FIRST_SEMAPHORE && queue < FIRST_QUEUE)
        return &k->semaphore[queue - FIRST_SEMAPHORE].queue;
    return NULL;
}

/* "a place is one more than the number of tasks that stand ahead" */
static void seat_row(const struct kernel *k, const struct list *row,
                     uint32_t queue, uint16_t *seat)
{
    uint32_t next = queue * SEAT_RANGE + 1;

    for (uint8_t who = row->first; who != 0; who = k->task[who - 1].behind)
        seat[who - 1] = (uint16_t)next++;
}

static void seats_of(const struct kernel *k, uint16_t *seat)
{
    for (uint32_t i = 0; i < SEMAPHORES; i++)
        seat_row(k, &k->semaphore[i].queue, FIRST_SEMAPHORE + i, seat);
    for (uint32_t i = 0; i < QUEUES; i++)
        seat_row(k, &k->queue[i].waiters, FIRST_QUEUE + i, seat);
    for (uint32_t i = 0; i < PRIORITIES; i++)
        seat_row(k, &k->ready[i], FIRST_READY + i, seat);
}

static void put_tasks(uint8_t **at, const struct kernel *k)
{
    uint16_t seat[TASKS] = { 0 };

    seats_of(k, seat);
    for (uint32_t slot = 0; slot < TASKS; slot++) {
        const struct task *t = &k->task[slot];

        put_4(at, k->task_table.name[slot]);
        put_2(at, k->task_table.serial[slot]);
        put_1(at, slot_is_live(&k->task_table, slot));
        put_1(at, t->started);
        put_1(at, t->suspended);
        put_1(at, t->priority);
        put_4(at, t->time_out);
        put_2(at, seat[slot]);
        put_1(at, t->joining_priority);
    }
}

/* "the units free to be claimed": none where a task waits. */
static void put_semaphores(uint8_t **at, const struct kernel *k)
{
    for (uint32_t slot = 0; slot < SEMAPHORES; slot++) {
        const struct semaphore *s = &k->semaphore[slot];

        put_4(at, k->semaphore_table.name[slot]);
        put_2(at, k->semaphore_table.serial[slot]);
        put_2(at, s->count > 0 ? (uint32_t)s->count : 0);
        put_1(at, slot_is_live(&k->semaphore_table, slot));
        put_1(at, s->options);
    }
}

static void put_places(uint8_t **at, const struct pool *p)
{
    uint8_t place[BUFFERS] = { 0 };
    uint32_t free = free_buffers(p);

    for (uint32_t i = 0; i < free; i++)
        place[p->free_order[i]] = (uint8_t)(i + 1);
    memcpy(*at, place, BUFFERS);
    *at += BUFFERS;
}

static void put_pools(uint8_t **at, const struct kernel *k)
{
    for (uint32_t slot = 0; slot < POOLS; slot++) {
        const struct pool *p = &k->pool[slot];

        put_4(at, (uint32_t)p->out);
        put_4(at, (uint32_t)(p->out >> 32));
        put_4(at, k->pool_table.name[slot]);
        put_4(at, p->address);
        put_4(at, p->length);
        put_4(at, p->size);
        put_2(at, k->pool_table.serial[slot]);
        put_1(at, slot_is_live(&k->pool_table, slot));
        put_1(at, p->options);
        put_places(at, p);
    }
}

_Static_assert(sizeof(struct message) == 1 + MESSAGE_BYTES,
               "a message lies as a cell does");

/* "The messages held stand in the first cells, the first message first": the
 * ring from its first place on, then the places before that. */
static void put_messages(uint8_t **at, const struct queue *q)
{
    size_t before = q->first * sizeof q->message[0];
    size_t behind = sizeof q->message - before;

    memcpy(*at, &q->message[q->first], behind);
    memcpy(*at + behind, q->message, before);
    *at += sizeof q->message;
}

static void put_queues(uint8_t **at, const struct kernel *k)
{
    for (uint32_t slot = 0; slot < QUEUES; slot++) {
        const struct queue *q = &k->queue[slot];

        put_4(at, k->queue_table.name[slot]);
        put_2(at, k->queue_table.serial[slot]);
        put_1(at, slot_is_live(&k->queue_table, slot));
        put_1(at, q->options);
        put_1(at, q->most);
        put_1(at, q->longest);
        put_1(at, q->held);
        put_messages(at, q);
    }
}

/* "slot + 1 of each ready task, the running one first; 0 past the last" */
static void put_ready_order(uint8_t **at, const struct kernel *k)
{
    uint32_t left = TASKS;

    for (int priority = PRIORITIES - 1; priority >= 0; priority--) {
        uint8_t place = k->ready[priority].first;

        for (; place != 0; place = k->task[place - 1].behind, left--)
            put_1(at, place);
    }
    for (; left > 0; left--)
        put_1(at, 0);
}

void image_put(const struct kernel *k, uint8_t *out)
{
    uint8_t *at = out;

    put_header(&at);
    put_tasks(&at, k);
    put_semaphores(&at, k);
    put_pools(&at, k);
    put_queues(&at, k);
    put_ready_order(&at, k);
}

uint32_t image_write(const struct kernel *k, uint8_t *out, size_t room)
{
    if (!rules_of_a_state(k))
        return BAD_STATE;
    if (room < IMAGE_BYTES)
        return NO_ROOM;
    image_put(k, out);
    return OK;
}

static void take_live(const uint8_t **at, struct table *t, uint32_t slot)
{
    if (take_1(at) == 1)
        t->live |= slot_bit(slot);
    else if (t->serial[slot] < LAST_SERIAL)
        t->usable |= slot_bit(slot);
}

static void take_tasks(const uint8_t **at, struct kernel *k, uint16_t *seat)
{
    for (uint32_t slot = 0; slot < TASKS; slot++) {
        struct task *t = &k->task[slot];

        k->task_table.name[slot] = take_4(at);
        k->task_table.serial[slot] = take_2(at);
        take_live(at, &k->task_table, slot);
        t->started = take_1(at);
        t->suspended = take_1(at);
        t->priority = take_1(at);
        t->time_out = take_4(at);
        seat[slot] = take_2(at);
        t->joining_priority = take_1(at);
    }
}

static void take_semaphores(const uint8_t **at, struct kernel *k)
{
    for (uint32_t slot = 0; slot < SEMAPHORES; slot++) {
        k->semaphore_table.name[slot] = take_4(at);
        k->semaphore_table.serial[slot] = take_2(at);
        k->semaphore[slot].count = take_2(at);
        take_live(at, &k->semaphore_table, slot);
        k->semaphore[slot].options = take_1(at);
    }
}

/* Two buffers of one place, or a place of none, do not come back when the
 * order is written. */
static void take_places(const uint8_t **at, struct pool *p)
{
    for (uint32_t buffer = 0; buffer < BUFFERS; buffer++) {
        uint32_t place = take_1(at);

        if (place != 0 && place <= BUFFERS)
            p->free_order[place - 1] = (uint8_t)buffer;
    }
}

static void take_pools(const uint8_t **at, struct kernel *k)
{
    for (uint32_t slot = 0; slot < POOLS; slot++) {
        struct pool *p = &k->pool[slot];

        p->out = take_4(at);
        p->out |= (uint64_t)take_4(at) << 32;
        k->pool_table.name[slot] = take_4(at);
        p->address = take_4(at);
        p->length = take_4(at);
        p->size = take_4(at);
        k->pool_table.serial[slot] = take_2(at);
        take_live(at, &k->pool_table, slot);
        p->options = take_1(at);
        take_places(at, p);
        p->buffers = p->size != 0 ? (uint8_t)(p->length / p->size) : 0;
    }
}

static void take_messages(const uint8_t **at, struct queue *q)
{
    memcpy(q->message, *at, sizeof q->message);
    *at += sizeof q->message;
}

static void take_queues(const uint8_t **at, struct kernel *k)
{
    for (uint32_t slot = 0; slot < QUEUES; slot++) {
        struct queue *q = &k->queue[slot];

        k->queue_table.name[slot] = take_4(at);
        k->queue_table.serial[slot] = take_2(at);
        take_live(at, &k->queue_table, slot);
        q->options = take_1(at);
        q->most = take_1(at);
        q->longest = take_1(at);
        q->held = take_1(at);
        take_messages(at, q);
    }
}

/* Who stands where, by slot + 1. A seat of no queue or of no place is left
 * out, and of two alike the first, and any behind an empty place: such seats
 * are not written again. */
struct seated {
    uint8_t who[SEAT_QUEUES][TASKS];
};

static void seat_all(struct kernel *k, const uint16_t *seat,
                     struct seated *seated)
{
    for (uint32_t slot = 0; slot < TASKS; slot++) {
        uint32_t queue = seat[slot] / SEAT_RANGE;
        uint32_t place = seat[slot] % SEAT_RANGE;

        if (row_of(k, queue) != NULL && place != 0 && place <= TASKS)
            seated->who[queue][place - 1] = (uint8_t)(slot + 1);
    }
}

/* A task in a wait queue's row waits there, and a semaphore's count is one
 * less for each. */
static void link_in(struct kernel *k, uint32_t queue, uint8_t who)
{
    struct list *row = row_of(k, queue);
    struct task *t = task_at(k, who);

    list_put(k, row, who, row->last);
    if (queue >= FIRST_READY)
        return;
    t->waiting = queue < FIRST_QUEUE ? ON_SEMAPHORE : ON_QUEUE;
    t->awaited = (uint8_t)(queue < FIRST_QUEUE ? queue - FIRST_SEMAPHORE
                                               : queue - FIRST_QUEUE);
    if (queue < FIRST_QUEUE)
        k->semaphore[t->awaited].count--;
    if (time_out_runs(t))
        k->running_time_outs |= slot_bit(who - 1u);
}

static void link_rows(struct kernel *k, const uint16_t *seat)
{
    struct seated seated = { 0 };

    seat_all(k, seat, &seated);
    for (uint32_t queue = 0; queue < SEAT_QUEUES; queue++) {
        const uint8_t *who = seated.who[queue];

        for (uint32_t place = 0; place < TASKS && who[place] != 0; place++)
            link_in(k, queue, who[place]);
    }
    for (uint32_t priority = 0; priority < PRIORITIES; priority++) {
        if (k->ready[priority].first != 0)
            k->ready_priorities |= UINT32_C(1) << priority;
    }
}

/* The state that the fields tell of, if they tell of one; the header and the
 * ready order say nothing more. */
static void take_image(const uint8_t *bytes, struct kernel *k)
{
    const uint8_t *at = bytes + HEADER_LENGTH;
    uint16_t seat[TASKS];

    *k = (struct kernel){ 0 };
    take_tasks(&at, k, seat);
    take_semaphores(&at, k);
    take_pools(&at, k);
    take_queues(&at, k);
    link_rows(k, seat);
}

uint32_t image_take(struct kernel *k, const uint8_t *bytes, size_t length)
{
    uint8_t again[IMAGE_BYTES];

    if (length < IMAGE_BYTES)
        return BAD_IMAGE;
    take_image(bytes, k);
    if (!rules_of_a_state(k))
        return BAD_IMAGE;
    image_put(k, again);
    return memcmp(again, bytes, IMAGE_BYTES) == 0 ? OK : BAD_IMAGE;
}

uint32_t image_read(struct kernel *k, const uint8_t *bytes, size_t length)
{
    struct kernel read;
    uint32_t status = image_take(&read, bytes, length);

    if (status == OK)
        *k = read;
    return status;
}
