/*
 * The calls by chapter, and what one chapter needs of another. Each call is
 * refusals in their order, then the work; it leaves values and wakes alone
 * until nothing can refuse any more.
 */
#ifndef CALLS_H
#define CALLS_H

#include "kernel.h"

/* Whether a bit other than bit 0 is set. */
static inline bool options_are_bad(uint32_t options)
{
    return options > 1;
}

typedef enum status call_function(struct kernel *k, const uint32_t *arg,
                                  struct answer *a);

/* Of a call that is lent a message. */
typedef enum status send_function(struct kernel *k, const uint32_t *arg,
                                  const struct lent *message,
                                  struct answer *a);

call_function tick;

call_function task_create;
call_function task_delete;
call_function task_ident;
call_function task_start;
call_function task_suspend;
call_function task_resume;
call_function task_set_priority;

call_function sem_create;
call_function sem_delete;
call_function sem_ident;
call_function sem_claim;
call_function sem_release;
call_function sem_info;

call_function pool_create;
call_function pool_delete;
call_function pool_ident;
call_function pool_get_buff;
call_function pool_ret_buff;
call_function pool_info;

call_function queue_create;
call_function queue_delete;
call_function queue_ident;
send_function queue_send;
send_function queue_jump;
call_function queue_receive;
call_function queue_info;

/* Whether a wait may not last so long. */
bool time_out_is_bad(uint32_t time_out);

/* What a task is to wait for, in which queue. */
struct awaited {
    enum wait kind;
    uint32_t slot;
    struct list *row;
    bool fifo;
};

/* Puts a ready task into a wait queue. */
void wait_join(struct kernel *k, uint32_t slot, const struct awaited *w,
               uint32_t time_out);

/* Takes a waiter out of its queue; whose count it was is the caller's care. */
void wait_leave(struct kernel *k, uint32_t slot);

/* The same for one that timed out or is deleted. */
void wait_leave_ungranted(struct kernel *k, uint32_t slot);

/* Lists a task that has left its queue and makes it ready if it may be. */
void wake(struct kernel *k, uint32_t slot, enum status status,
          struct answer *a);

/* The first of a wait queue that is not empty leaves it, woken. */
void wake_first(struct kernel *k, const struct list *row, enum status status,
                struct answer *a);

/* A time_out runs while its task waits, suspended or not, if not FOREVER. */
static inline bool time_out_runs(const struct task *t)
{
    return t->waiting && t->time_out != FOREVER;
}

/* The test 3 of queue_create; the rules of a state ask it too. */
bool queue_room_is_bad(uint32_t most, uint32_t longest);

/* Whether each queue is one that creation and sends can leave. */
bool queues_keep_their_rules(const struct kernel *k);

/* The tests 3 and 14 of pool_create; the rules of a state ask them too. */
enum status pool_area_refusal(uint32_t address, uint32_t length,
                              uint32_t size);

/* Whether two areas, each of one byte or more, share a byte. */
bool areas_share_a_byte(const struct pool *one, const struct pool *other);

/* How many of a pool's buffers are free. */
uint32_t free_buffers(const struct pool *p);

#endif
