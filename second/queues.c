/*
 * Message queues: calls 20 to 26, of M-100.
 *
 * "A message goes to the first waiter or else to the end; jump puts it in
 * front. ... A queue with waiters holds nothing ... Delete drops what is held
 * and wakes waiters in order."
 */
#include <string.h>

#include "calls.h"
#include "ready.h"

static enum status queue_named(const struct kernel *k, uint32_t id,
                               uint32_t *slot)
{
    return identify(&k->queue_table, QUEUES, id, slot);
}

bool queue_room_is_bad(uint32_t most, uint32_t longest)
{
    return most == 0 || most > MESSAGES || longest == 0
        || longest > MESSAGE_BYTES;
}

enum status queue_create(struct kernel *k, const uint32_t *arg,
                         struct answer *a)
{
    uint32_t slot;

    if (queue_room_is_bad(arg[1], arg[2]))
        return INVALID_PARAMETER;
    if (options_are_bad(arg[3]))
        return INVALID_OPTIONS;
    if (table_is_full(&k->queue_table))
        return TOO_MANY_OBJECTS;
    slot = table_take(&k->queue_table, arg[0]);
    k->queue[slot].most = (uint8_t)arg[1];
    k->queue[slot].longest = (uint8_t)arg[2];
    k->queue[slot].options = (uint8_t)arg[3];
    a->value[0] = identifier(&k->queue_table, slot);
    return OK;
}

enum status queue_delete(struct kernel *k, const uint32_t *arg,
                         struct answer *a)
{
    uint32_t slot;
    enum status refusal = queue_named(k, arg[0], &slot);

    if (refusal != OK)
        return refusal;
    while (k->queue[slot].waiters.first != 0)
        wake_first(k, &k->queue[slot].waiters, QUEUE_DELETED, a);
    k->queue[slot] = (struct queue){ 0 };
    table_drop(&k->queue_table, slot);
    return OK;
}

enum status queue_ident(struct kernel *k, const uint32_t *arg,
                        struct answer *a)
{
    return ident(&k->queue_table, arg[0], a);
}

/* Into a place whose bytes are 0. */
static void message_put(struct message *m, const struct lent *message,
                        uint32_t length)
{
    m->length = (uint8_t)length;
    memcpy(m->byte, message->byte, length);
}

/* "a delivery shows it beside the wake" */
static void deliver(struct kernel *k, struct queue *q,
                    const struct lent *message, uint32_t length,
                    struct answer *a)
{
    wake_first(k, &q->waiters, OK, a);
    memset(&a->message, 0, sizeof a->message);
    message_put(&a->message, message, length);
    a->shows = 1;
}

/* The place of the message that has so many before it. */
static struct message *place_behind(struct queue *q, uint32_t before)
{
    return &q->message[(q->first + before) % MESSAGES];
}

/* Tests a send or jump, and delivers where a task waits: then there is no
 * place left to fill. "27 before 28". */
static enum status sent(struct kernel *k, const uint32_t *arg,
                        const struct lent *message, struct answer *a,
                        struct queue **to)
{
    uint32_t slot;
    enum status refusal = queue_named(k, arg[0], &slot);
    struct queue *q;

    *to = NULL;
    if (refusal != OK)
        return refusal;
    q = &k->queue[slot];
    if (arg[1] > q->longest || arg[1] > message->length)
        return INVALID_LENGTH;
    if (q->waiters.first != 0) {
        deliver(k, q, message, arg[1], a);
        return OK;
    }
    if (q->held == q->most)
        return QUEUE_FULL;
    *to = q;
    return OK;
}

enum status queue_send(struct kernel *k, const uint32_t *arg,
                       const struct lent *message, struct answer *a)
{
    struct queue *q;
    enum status status = sent(k, arg, message, a, &q);

    if (q != NULL) {
        message_put(place_behind(q, q->held), message, arg[1]);
        q->held++;
    }
    return status;
}

enum status queue_jump(struct kernel *k, const uint32_t *arg,
                       const struct lent *message, struct answer *a)
{
    struct queue *q;
    enum status status = sent(k, arg, message, a, &q);

    if (q != NULL) {
        q->first = (q->first + MESSAGES - 1) % MESSAGES;
        message_put(place_behind(q, 0), message, arg[1]);
        q->held++;
    }
    return status;
}

/* "an immediate receive beside the answer, whose first figure is its
 * length" */
static void take_first(struct queue *q, struct answer *a)
{
    struct message *m = place_behind(q, 0);

    a->message = *m;
    a->shows = 1;
    a->value[0] = m->length;
    *m = (struct message){ 0 };
    q->first = (q->first + 1) % MESSAGES;
    q->held--;
}

enum status queue_receive(struct kernel *k, const uint32_t *arg,
                          struct answer *a)
{
    uint32_t slot;
    enum status refusal = queue_named(k, arg[0], &slot);
    bool nowait = (arg[1] & NOWAIT) != 0;
    struct queue *q;

    if (refusal != OK)
        return refusal;
    q = &k->queue[slot];
    if (options_are_bad(arg[1]))
        return INVALID_OPTIONS;
    if (!nowait && time_out_is_bad(arg[2]))
        return INVALID_PARAMETER;
    if (q->held == 0 && nowait)
        return QUEUE_EMPTY;
    if (q->held == 0) {
        const struct awaited w = { ON_QUEUE, slot, &q->waiters,
                                   (q->options & FIFO) != 0 };

        wait_join(k, running_slot(k), &w, arg[2]);
        return PENDING;
    }
    take_first(q, a);
    return OK;
}

static uint32_t tasks_waiting(const struct kernel *k, const struct list *row)
{
    uint32_t number = 0;

    for (uint8_t place = row->first; place != 0;) {
        number++;
        place = k->task[place - 1].behind;
    }
    return number;
}

/* "Info gives options, messages held, tasks waiting." */
enum status queue_info(struct kernel *k, const uint32_t *arg,
                       struct answer *a)
{
    uint32_t slot;
    enum status refusal = queue_named(k, arg[0], &slot);

    if (refusal != OK)
        return refusal;
    a->value[0] = k->queue[slot].options;
    a->value[1] = k->queue[slot].held;
    a->value[2] = tasks_waiting(k, &k->queue[slot].waiters);
    return OK;
}
