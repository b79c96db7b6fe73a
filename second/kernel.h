/*
 * The state of the kernel, its answers, and the three things asked of it:
 * a fresh state, a step, and a step that tests the state first.
 *
 * "Room: 32 tasks, 16 semaphores, 8 pools, 64 buffers a pool, 16 priorities
 * (0 to 15, 15 most urgent), names of 32 bits." And M-100: "Eight queues;
 * create takes name, most messages (1 to 16), longest message (1 to 64)".
 */
#ifndef KERNEL_H
#define KERNEL_H

#include <stdbool.h>
#include <stdint.h>

enum {
    TASKS = 32,
    SEMAPHORES = 16,
    POOLS = 8,
    QUEUES = 8,
    MESSAGES = 16, /* that a queue can hold */
    MESSAGE_BYTES = 64,
    BUFFERS = 64,
    PRIORITIES = 16,
    TABLE_ROOM = 32, /* the largest of the four tables */
    LAST_SERIAL = 65535,
    MOST_COUNT = 32767,
    MOST_TIME_OUT = 65535,
    ARGUMENTS = 5,
    VALUES = 4
};

#define FOREVER UINT32_C(4294967295)

enum status {
    OK = 0,
    PENDING = 1,
    ILLEGAL_USE = 2,
    INVALID_PARAMETER = 3,
    INVALID_ID = 4,
    OBJECT_DELETED = 5,
    INVALID_OPTIONS = 6,
    TOO_MANY_OBJECTS = 7,
    NAME_NOT_FOUND = 8,
    INVALID_COUNT = 9,
    SEMAPHORE_NOT_AVAILABLE = 10,
    SEMAPHORE_DELETED = 11,
    SEMAPHORE_OVERFLOW = 12,
    TIME_OUT = 13,
    INVALID_BUFF_SIZE = 14,
    POOL_OVERLAP = 15,
    POOL_IN_USE = 16,
    NO_MORE_MEMORY = 17,
    INVALID_BUFF = 18,
    INVALID_PRIORITY = 19,
    TASK_ALREADY_STARTED = 20,
    TASK_NOT_STARTED = 21,
    TASK_ALREADY_SUSPENDED = 22,
    TASK_NOT_SUSPENDED = 23,
    NO_CALLER = 24,
    BAD_CALL = 25,
    BAD_STATE = 26,
    INVALID_LENGTH = 27,
    QUEUE_FULL = 28,
    QUEUE_EMPTY = 29,
    QUEUE_DELETED = 30
};

enum { MARK_TASK = 0, MARK_INTERRUPT = 1 };

/* "Options are bit 0: FIFO, FORCED_DELETE, NOWAIT." */
enum { FIFO = 1, FORCED_DELETE = 1, NOWAIT = 1 };

/* The identifiers of one kind of object; bit s of a mask speaks of slot s. */
struct table {
    uint32_t live;
    uint32_t usable; /* free, with a serial left */
    uint32_t name[TABLE_ROOM];
    uint16_t serial[TABLE_ROOM]; /* the live one, or the last one */
};

/* What a task waits for: a wait queue of one kind or of the other. */
enum wait { NOT_WAITING, ON_SEMAPHORE, ON_QUEUE };

/* Tasks in a row, by place: place is slot + 1, and 0 is nobody. */
struct list {
    uint8_t first;
    uint8_t last;
};

struct task {
    uint32_t time_out; /* ticks left, or FOREVER */
    uint8_t priority;
    uint8_t started;   /* These two are 0 or 1, and the third an enum wait; */
    uint8_t suspended; /* they are bytes, so that a rule may read whatever */
    uint8_t waiting;   /* a damaged state holds there. */
    uint8_t awaited;   /* the slot of the object whose queue it stands in */
    uint8_t joining_priority; /* its priority when it joined */
    uint8_t ahead;  /* A task is ready or waits, never both: these two */
    uint8_t behind; /* links serve the ready order and the queues. */
};

struct semaphore {
    int32_t count;
    uint8_t options;
    struct list queue;
};

struct pool {
    uint64_t out; /* bit b: buffer b is out */
    uint32_t address;
    uint32_t length;
    uint32_t size;
    uint8_t buffers; /* length / size, kept to spare the division */
    uint8_t options;
    /* The free buffers, the one that has been free longest first; the places
     * past their number are 0. */
    uint8_t free_order[BUFFERS];
};

/* "bytes past it are 0" */
struct message {
    uint8_t length;
    uint8_t byte[MESSAGE_BYTES];
};

/* Messages lie in a ring: the one to be received next at `first`, the others
 * behind it, and behind place 15 comes place 0. Places not in use are 0. */
struct queue {
    uint8_t most;    /* messages */
    uint8_t longest; /* message, in bytes */
    uint8_t options;
    uint8_t held; /* messages */
    uint8_t first;
    struct list waiters;
    struct message message[MESSAGES];
};

struct kernel {
    struct list ready[PRIORITIES];
    uint32_t ready_priorities; /* bit p: ready[p] holds a task */
    uint32_t running_time_outs; /* bit s: a tick takes one from task s */
    struct table task_table;
    struct table semaphore_table;
    struct table pool_table;
    struct table queue_table;
    struct task task[TASKS];
    struct semaphore semaphore[SEMAPHORES];
    struct pool pool[POOLS];
    struct queue queue[QUEUES];
};

struct wake {
    uint32_t task;
    uint32_t status;
};

/* "A send or jump lends its message": so many bytes of it. */
struct lent {
    const uint8_t *byte;
    uint32_t length;
};

/*
 * Places of wake from wakes on are not set. "A delivery shows it beside the
 * wake, an immediate receive beside the answer": one step has one of these at
 * most, so one place is enough; where shows is 0 it is not set.
 */
struct answer {
    uint32_t status;
    uint32_t running;
    int64_t value[VALUES]; /* wide enough for an address and a count below 0 */
    uint32_t wakes;
    uint32_t shows; /* 1 with a message, then the only wake is its receiver */
    struct wake wake[TASKS];
    struct message message;
};

/* A fresh state; 19 and the one of priority 0 for a priority above 15. */
uint32_t kernel_fresh(struct kernel *k, uint32_t priority);

/* One call on a state that keeps the rules; a refusal changes nothing. */
void kernel_step(struct kernel *k, uint32_t call, uint32_t mark,
                 const uint32_t arg[ARGUMENTS], const struct lent *message,
                 struct answer *a);

/* The same for any bytes: answers 26 where a rule is broken. */
void kernel_step_checked(struct kernel *k, uint32_t call, uint32_t mark,
                         const uint32_t arg[ARGUMENTS],
                         const struct lent *message, struct answer *a);

/* Whether the state keeps every rule under 'Rules of a state'. */
bool rules_of_a_state(const struct kernel *k);

#endif
