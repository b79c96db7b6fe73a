/* What the records of a script do to the picture of it. */
#include "picture.h"

#include <string.h>

enum { MOST_COUNT = 32767, MOST_PRIORITY = 15 };

enum { MOST_MESSAGES = 16, LONGEST_MESSAGE = 64 };

static const uint32_t rooms[KINDS] = { 32, 16, 8, 8 };

uint32_t picture_room(enum kind kind)
{
    return rooms[kind];
}

static uint32_t bit(int slot)
{
    return UINT32_C(1) << slot;
}

static int lowest(uint32_t mask)
{
    return mask == 0 ? NOBODY : __builtin_ctz(mask);
}

int picture_named(const struct picture *p, enum kind kind, uint32_t id)
{
    uint32_t slot = id % 64;

    if (kind == A_TASK && id == 0)
        return p->running;
    if (slot >= rooms[kind] || (p->live[kind] >> slot & 1) == 0)
        return NOBODY;
    return p->serial[kind][slot] == id / 64 ? (int)slot : NOBODY;
}

/* Takes the lowest slot that is free; NOBODY if there is none. */
static int taken(struct picture *p, enum kind kind)
{
    int slot = lowest(~p->live[kind] & (TOP >> (32 - rooms[kind])));

    if (slot != NOBODY) {
        p->live[kind] |= bit(slot);
        p->serial[kind][slot]++;
    }
    return slot;
}

/* Of the tasks in the mask the one of most priority, the first if equal. */
static int foremost(const struct picture *p, uint32_t mask,
                    const uint8_t *priority)
{
    int best = NOBODY;

    for (; mask != 0; mask &= mask - 1) {
        int slot = lowest(mask);

        if (best == NOBODY || priority[slot] > priority[best]
            || (priority[slot] == priority[best]
                && p->since[slot] < p->since[best]))
            best = slot;
    }
    return best;
}

uint32_t picture_waiters(const struct picture *p, enum kind kind, int slot)
{
    uint32_t found = 0;

    for (uint32_t left = p->waiting; left != 0; left &= left - 1) {
        int task = lowest(left);

        if (p->waits_for[task] == kind && p->waits_on[task] == slot)
            found |= bit(task);
    }
    return found;
}

static int first_waiter(const struct picture *p, enum kind kind, int slot)
{
    static const uint8_t all_equal[SLOTS];
    bool fifo = (p->fifo[kind] & bit(slot)) != 0;

    return foremost(p, picture_waiters(p, kind, slot),
                    fifo ? all_equal : p->joined);
}

/* The running task joins the wait queue of an object. */
static void join_queue(struct picture *p, enum kind kind, int slot,
                       uint32_t time_out)
{
    p->waiting |= bit(p->running);
    p->waits_for[p->running] = kind;
    p->waits_on[p->running] = (uint8_t)slot;
    p->joined[p->running] = p->priority[p->running];
    p->left[p->running] = time_out;
    p->since[p->running] = ++p->moment;
}

static void leave_queue(struct picture *p, int task)
{
    p->waiting &= ~bit(task);
    p->since[task] = ++p->moment;
}

/* A waiter that leaves ungranted: a semaphore gets its one back. */
static void give_back(struct picture *p, int task)
{
    if (p->waits_for[task] == A_SEMAPHORE)
        p->count[p->waits_on[task]]++;
}

static void let_all_go(struct picture *p, enum kind kind, int slot)
{
    for (int task; (task = first_waiter(p, kind, slot)) != NOBODY;)
        leave_queue(p, task);
}

static bool is_bad_time(uint32_t time_out)
{
    return time_out != TOP && (time_out == 0 || time_out > 65535);
}

static void tick(struct picture *p, const uint32_t *arg)
{
    (void)arg;
    for (uint32_t m = p->waiting; m != 0; m &= m - 1) {
        int task = lowest(m);

        if (p->left[task] == TOP || --p->left[task] != 0)
            continue;
        give_back(p, task);
        leave_queue(p, task);
    }
}

static void task_create(struct picture *p, const uint32_t *arg)
{
    int task = arg[1] > MOST_PRIORITY ? NOBODY : taken(p, A_TASK);

    if (task != NOBODY)
        p->priority[task] = (uint8_t)arg[1];
}

static void task_delete(struct picture *p, const uint32_t *arg)
{
    int task = picture_named(p, A_TASK, arg[0]);

    if (task == NOBODY)
        return;
    if ((p->waiting & bit(task)) != 0)
        give_back(p, task);
    p->live[A_TASK] &= ~bit(task);
    p->started &= ~bit(task);
    p->suspended &= ~bit(task);
    p->waiting &= ~bit(task);
}

static void task_start(struct picture *p, const uint32_t *arg)
{
    int task = picture_named(p, A_TASK, arg[0]);

    if (task == NOBODY || (p->started & bit(task)) != 0)
        return;
    p->started |= bit(task);
    p->since[task] = ++p->moment;
}

static void task_suspend(struct picture *p, const uint32_t *arg)
{
    int task = picture_named(p, A_TASK, arg[0]);

    if (task != NOBODY)
        p->suspended |= bit(task) & p->started;
}

static void task_resume(struct picture *p, const uint32_t *arg)
{
    int task = picture_named(p, A_TASK, arg[0]);

    if (task == NOBODY || (p->suspended & bit(task)) == 0)
        return;
    p->suspended &= ~bit(task);
    if ((p->waiting & bit(task)) == 0)
        p->since[task] = ++p->moment;
}

static void task_set_priority(struct picture *p, const uint32_t *arg)
{
    int task = picture_named(p, A_TASK, arg[0]);

    if (task == NOBODY || arg[1] > MOST_PRIORITY)
        return;
    p->priority[task] = (uint8_t)arg[1];
    if ((picture_ready(p) & bit(task)) != 0)
        p->since[task] = ++p->moment;
}

static void sem_create(struct picture *p, const uint32_t *arg)
{
    int sem = arg[1] > MOST_COUNT || arg[2] > 1 ? NOBODY
            : taken(p, A_SEMAPHORE);

    if (sem == NOBODY)
        return;
    p->count[sem] = (int32_t)arg[1];
    p->fifo[A_SEMAPHORE] = (p->fifo[A_SEMAPHORE] & ~bit(sem)) | arg[2] << sem;
}

static void sem_delete(struct picture *p, const uint32_t *arg)
{
    int sem = picture_named(p, A_SEMAPHORE, arg[0]);

    if (sem == NOBODY)
        return;
    let_all_go(p, A_SEMAPHORE, sem);
    p->live[A_SEMAPHORE] &= ~bit(sem);
}

static void sem_claim(struct picture *p, const uint32_t *arg)
{
    int sem = picture_named(p, A_SEMAPHORE, arg[0]);

    if (sem == NOBODY || arg[1] > 1 || (arg[1] == 0 && is_bad_time(arg[2]))
        || (arg[1] == 1 && p->count[sem] <= 0))
        return;
    if (--p->count[sem] < 0)
        join_queue(p, A_SEMAPHORE, sem, arg[2]);
}

static void sem_release(struct picture *p, const uint32_t *arg)
{
    int sem = picture_named(p, A_SEMAPHORE, arg[0]);

    if (sem == NOBODY || p->count[sem] == MOST_COUNT)
        return;
    if (p->count[sem]++ < 0)
        leave_queue(p, first_waiter(p, A_SEMAPHORE, sem));
}

static bool is_free_ground(const struct picture *p, const struct area *a)
{
    for (uint32_t left = p->live[A_POOL]; left != 0; left &= left - 1) {
        const struct area *other = &p->area[lowest(left)];

        if (a->address < (uint64_t)other->address + other->length
            && other->address < (uint64_t)a->address + a->length)
            return false;
    }
    return true;
}

static void pool_create(struct picture *p, const uint32_t *arg)
{
    struct area a = { .address = arg[1], .length = arg[2], .size = arg[3] };
    int pool;

    if (a.length == 0 || (uint64_t)a.address + a.length > UINT64_C(1) << 32)
        return;
    if (a.size == 0 || a.length < a.size || a.length / a.size > MOST_BUFFERS)
        return;
    if (arg[4] > 1 || !is_free_ground(p, &a))
        return;
    pool = taken(p, A_POOL);
    if (pool == NOBODY)
        return;
    for (; a.free < a.length / a.size; a.free++)
        a.order[a.free] = (uint8_t)a.free;
    p->area[pool] = a;
    p->forced = (p->forced & ~bit(pool)) | arg[4] << pool;
}

static void pool_delete(struct picture *p, const uint32_t *arg)
{
    int pool = picture_named(p, A_POOL, arg[0]);

    if (pool == NOBODY)
        return;
    if (p->area[pool].out == 0 || (p->forced & bit(pool)) != 0)
        p->live[A_POOL] &= ~bit(pool);
}

static void pool_get_buff(struct picture *p, const uint32_t *arg)
{
    int pool = picture_named(p, A_POOL, arg[0]);
    struct area *a = &p->area[pool == NOBODY ? 0 : pool];

    if (pool == NOBODY || a->free == 0)
        return;
    a->out |= UINT64_C(1) << a->order[0];
    a->free--;
    memmove(a->order, a->order + 1, a->free);
}

static void pool_ret_buff(struct picture *p, const uint32_t *arg)
{
    int pool = picture_named(p, A_POOL, arg[0]);
    struct area *a = &p->area[pool == NOBODY ? 0 : pool];
    uint32_t buffer;

    if (pool == NOBODY || arg[1] < a->address)
        return;
    buffer = (arg[1] - a->address) / a->size;
    if ((arg[1] - a->address) % a->size != 0 || buffer >= MOST_BUFFERS
        || (a->out >> buffer & 1) == 0)
        return;
    a->out &= ~(UINT64_C(1) << buffer);
    a->order[a->free++] = (uint8_t)buffer;
}

static void queue_create(struct picture *p, const uint32_t *arg)
{
    struct store s = { .most = arg[1], .longest = arg[2] };
    int queue;

    if (s.most == 0 || s.most > MOST_MESSAGES || s.longest == 0
        || s.longest > LONGEST_MESSAGE || arg[3] > 1)
        return;
    queue = taken(p, A_QUEUE);
    if (queue == NOBODY)
        return;
    p->store[queue] = s;
    p->fifo[A_QUEUE] = (p->fifo[A_QUEUE] & ~bit(queue)) | arg[3] << queue;
}

static void queue_delete(struct picture *p, const uint32_t *arg)
{
    int queue = picture_named(p, A_QUEUE, arg[0]);

    if (queue == NOBODY)
        return;
    let_all_go(p, A_QUEUE, queue);
    p->live[A_QUEUE] &= ~bit(queue);
}

/* A send or a jump: where the message stands makes no difference here. */
static void queue_put(struct picture *p, const uint32_t *arg)
{
    int queue = picture_named(p, A_QUEUE, arg[0]), first;
    struct store *s = &p->store[queue == NOBODY ? 0 : queue];

    if (queue == NOBODY || arg[1] > s->longest)
        return;
    first = first_waiter(p, A_QUEUE, queue);
    if (first != NOBODY)
        leave_queue(p, first);
    else if (s->held < s->most)
        s->held++;
}

static void queue_receive(struct picture *p, const uint32_t *arg)
{
    int queue = picture_named(p, A_QUEUE, arg[0]);
    struct store *s = &p->store[queue == NOBODY ? 0 : queue];

    if (queue == NOBODY || arg[1] > 1 || (arg[1] == 0 && is_bad_time(arg[2])))
        return;
    if (s->held > 0)
        s->held--;
    else if (arg[1] == 0)
        join_queue(p, A_QUEUE, queue, arg[2]);
}

static void changes_nothing(struct picture *p, const uint32_t *arg)
{
    (void)p;
    (void)arg;
}

static void (*const works[])(struct picture *, const uint32_t *) = {
    tick, task_create, task_delete, changes_nothing, task_start,
    task_suspend, task_resume, task_set_priority, sem_create, sem_delete,
    changes_nothing, sem_claim, sem_release, changes_nothing, pool_create,
    pool_delete, changes_nothing, pool_get_buff, pool_ret_buff,
    changes_nothing, queue_create, queue_delete, changes_nothing, queue_put,
    queue_put, queue_receive, changes_nothing
};
_Static_assert(sizeof works / sizeof works[0] == CALLS, "one for each call");

static bool caller_is_right(const struct picture *p, uint32_t call,
                            uint32_t mark)
{
    if (mark == 1)
        return call == TICK || call == SEM_RELEASE || call == QUEUE_SEND
            || call == QUEUE_JUMP;
    return mark == 0 && call != TICK && p->running != NOBODY;
}

void picture_start(struct picture *p, uint32_t priority)
{
    memset(p, 0, sizeof *p);
    p->live[A_TASK] = p->started = 1;
    p->serial[A_TASK][0] = 1;
    p->priority[0] = (uint8_t)priority;
}

void picture_follow(struct picture *p, const uint32_t record[NUMBERS])
{
    if (record[0] >= CALLS || !caller_is_right(p, record[0], record[1]))
        return;
    works[record[0]](p, record + 2);
    p->running = foremost(p, picture_ready(p), p->priority);
}
