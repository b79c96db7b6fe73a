/*
 * A picture of what a script has done so far, made from its records alone.
 *
 * The generator aims with it, so that a call finds an object in the state
 * that its rule speaks of. No listing is compared with it: where it errs,
 * scripts are aimed worse and nothing else.
 */
#ifndef PICTURE_H
#define PICTURE_H

#include <stdbool.h>
#include <stdint.h>

enum call {
    TICK, TASK_CREATE, TASK_DELETE, TASK_IDENT, TASK_START, TASK_SUSPEND,
    TASK_RESUME, TASK_SET_PRIORITY, SEM_CREATE, SEM_DELETE, SEM_IDENT,
    SEM_CLAIM, SEM_RELEASE, SEM_INFO, POOL_CREATE, POOL_DELETE, POOL_IDENT,
    POOL_GET_BUFF, POOL_RET_BUFF, POOL_INFO, QUEUE_CREATE, QUEUE_DELETE,
    QUEUE_IDENT, QUEUE_SEND, QUEUE_JUMP, QUEUE_RECEIVE, QUEUE_INFO, CALLS,
    UNKNOWN_CALL = CALLS, CALL_ROWS
};

enum kind { A_TASK, A_SEMAPHORE, A_POOL, A_QUEUE, KINDS };

enum { SLOTS = 32, NOBODY = -1, NUMBERS = 7 };

#define TOP UINT32_C(4294967295)

enum { MOST_BUFFERS = 64 };

struct area {
    uint32_t address;
    uint32_t length;
    uint32_t size;
    uint64_t out; /* bit b: buffer b is out */
    uint32_t free;
    uint8_t order[MOST_BUFFERS]; /* the free ones, longest free first */
};

/* Of a message queue; what the messages are is not followed. */
struct store {
    uint32_t most;
    uint32_t longest;
    uint32_t held;
};

/* Bit s of a mask speaks of slot s. */
struct picture {
    uint32_t live[KINDS];
    uint32_t serial[KINDS][SLOTS];
    uint32_t started;
    uint32_t suspended;
    uint32_t waiting;
    uint32_t fifo[KINDS]; /* of semaphores and queues */
    uint32_t forced;
    uint32_t moment;       /* counts the times that a task joined anything */
    uint32_t since[SLOTS]; /* the moment when it joined what it stands in */
    uint32_t left[SLOTS];  /* of a waiter's time_out */
    uint8_t priority[SLOTS];
    uint8_t joined[SLOTS]; /* the priority of that moment */
    enum kind waits_for[SLOTS]; /* a semaphore or a queue */
    uint8_t waits_on[SLOTS];
    int32_t count[SLOTS];
    struct area area[SLOTS];
    struct store store[SLOTS];
    int running; /* its slot, or NOBODY */
};

void picture_start(struct picture *p, uint32_t priority);

/* What one more record does. */
void picture_follow(struct picture *p, const uint32_t record[NUMBERS]);

/* The number of slots in the table of a kind. */
uint32_t picture_room(enum kind kind);

/* The identifier that a slot gave last. */
static inline uint32_t picture_id(const struct picture *p, enum kind kind,
                                  uint32_t slot)
{
    return p->serial[kind][slot] * 64 + slot;
}

/* The slot that an identifier names, or NOBODY. */
int picture_named(const struct picture *p, enum kind kind, uint32_t id);

/* The tasks that wait for an object. */
uint32_t picture_waiters(const struct picture *p, enum kind kind, int slot);

static inline uint32_t picture_ready(const struct picture *p)
{
    return p->live[A_TASK] & p->started & ~p->suspended & ~p->waiting;
}

#endif
